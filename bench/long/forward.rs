//! A forward search for what `watch` prints, written from documents 01 and 02: forward DIR.
//!
//! Each begin is searched alone, tick by tick, over the states a run may be in: its place, whether it has just entered or
//! stays, and its clocks, held one above the paper's ceiling so that nothing rests on that. A state keeps the best worth that
//! leads to it. It reads texts that `watch` accepts and checks nothing.

use std::fmt::Write;

const FREE: i64 = 2_000_001;

/// A test or a guard: a sign or `in`, a channel or a clock, a bound or a band's two.
type Bounded = (String, usize, Vec<i64>);

struct Edge {
    from: usize,
    to: usize,
    guards: Vec<Bounded>,
    resets: Vec<usize>,
}

fn number<T: std::str::FromStr>(word: &str) -> T {
    word.parse().unwrap_or_else(|_| panic!("not a number: {word}"))
}

fn holds(sign: &str, value: i64, bound: i64) -> bool {
    match sign {
        "<" => value < bound,
        "<=" => value <= bound,
        ">" => value > bound,
        _ => value >= bound,
    }
}

fn main() {
    let folder = std::env::args().nth(1).unwrap_or_else(|| ".".into());
    let read = |name: &str| std::fs::read_to_string(format!("{folder}/{name}")).unwrap();
    let (mut sum, mut clocks, mut low, mut high) = (false, 0, 0, 0);
    let mut places: Vec<(String, Vec<Bounded>)> = Vec::new();
    let mut edges: Vec<Edge> = Vec::new();
    for line in read("pattern.txt").lines() {
        // the outer words, then a bracket each
        let parts: Vec<&str> = line[1..line.len() - 1].split(" (").collect();
        let words: Vec<&str> = parts[0].split(' ').collect();
        let mut bounded: Vec<Bounded> = Vec::new();
        let mut resets = Vec::new();
        for part in &parts[1..] {
            let inner: Vec<&str> = part.trim_end_matches(')').split(' ').collect();
            if inner[0] == "reset" {
                resets = inner[1..].iter().map(|word| number(word)).collect();
            } else {
                let bounds = inner[2..].iter().map(|word| number(word)).collect();
                bounded.push((inner[0].to_string(), number(inner[1]), bounds));
            }
        }
        match words[0] {
            "pattern" => {
                sum = words[1] == "sum";
                (clocks, low, high) = (number::<usize>(words[3]), number::<usize>(words[4]), number::<usize>(words[5]));
            }
            "place" => places.push((words[1].to_string(), bounded)),
            _ => edges.push(Edge { from: number(words[1]), to: number(words[2]), guards: bounded, resets }),
        }
    }
    let mut ticks: Vec<Vec<i64>> = Vec::new();
    for line in read("record.txt").lines() {
        let words: Vec<&str> = line[1..line.len() - 1].split(' ').collect();
        let values: Vec<i64> = words[2..].iter().map(|word| number(word)).collect();
        ticks.extend((0..number::<usize>(words[1])).map(|_| values.clone()));
    }

    // the states of place and clocks, and where an edge leads after one more tick
    let most: Vec<i64> = (0..clocks)
        .map(|clock| 2 + edges.iter().flat_map(|edge| &edge.guards).filter(|guard| guard.1 == clock).map(|guard| guard.2[0]).max().unwrap_or(0))
        .collect();
    let states: usize = places.len() * most.iter().map(|most| *most as usize + 1).product::<usize>();
    let index = |place: usize, values: &[i64]| {
        values.iter().zip(&most).fold(place, |index, (value, most)| index * (*most as usize + 1) + *value as usize)
    };
    let mut place_of = vec![0; states];
    let mut grown = vec![0; states];
    let mut targets: Vec<Vec<usize>> = vec![Vec::new(); states];
    for state in 0..states {
        let (mut rest, mut values) = (state, vec![0; clocks]);
        for clock in (0..clocks).rev() {
            values[clock] = (rest % (most[clock] as usize + 1)) as i64;
            rest /= most[clock] as usize + 1;
        }
        let later: Vec<i64> = values.iter().zip(&most).map(|(value, most)| (value + 1).min(*most)).collect();
        place_of[state] = rest;
        grown[state] = index(rest, &later);
        for edge in edges.iter().filter(|edge| edge.from == rest) {
            if edge.guards.iter().all(|(sign, clock, bounds)| holds(sign, later[*clock], bounds[0])) {
                let after: Vec<i64> = (0..clocks).map(|clock| if edge.resets.contains(&clock) { 0 } else { later[clock] }).collect();
                targets[state].push(index(edge.to, &after));
            }
        }
        // edges that lead to the same state are worth the same
        targets[state].sort();
        targets[state].dedup();
    }

    let better = |one: i64, other: i64| if sum { one < other } else { one > other };
    let keep = |cell: &mut Option<i64>, worth: i64| {
        if cell.is_none_or(|held| better(worth, held)) {
            *cell = Some(worth);
        }
    };
    // what each place adds, or takes the least with, at each tick
    let price = |place: usize, values: &[i64]| -> i64 {
        let distance = |(sign, channel, bounds): &Bounded| {
            let over = |bound: i64| values[*channel] - bound;
            match sign.as_str() {
                ">" | ">=" => over(bounds[0]),
                "in" => over(bounds[0]).min(-over(bounds[1])),
                _ => -over(bounds[0]),
            }
        };
        let distances = places[place].1.iter().map(distance);
        if sum { distances.sum() } else { distances.min().unwrap_or(FREE) }
    };
    // whether each place sees at each tick what it saw the tick before, in the channels that it tests
    let same = |tick: usize, tests: &[Bounded]| tick > 0 && tests.iter().all(|test| ticks[tick][test.1] == ticks[tick - 1][test.1]);
    let seen: Vec<Vec<bool>> =
        (0..ticks.len()).map(|tick| places.iter().map(|(_, tests)| same(tick, tests)).collect()).collect();
    let mut best: Vec<Option<(i64, usize)>> = vec![None; ticks.len() + 1];
    for begin in 0..ticks.len() {
        let mut entered: Vec<Option<i64>> = vec![None; states];
        let mut staying: Vec<Option<i64>> = vec![None; states];
        for (place, (kind, _)) in places.iter().enumerate() {
            if kind == "start" || kind == "both" {
                entered[index(place, &vec![0; clocks])] = Some(if sum { 0 } else { FREE });
            }
        }
        for tick in begin..ticks.len().min(begin + high) {
            let prices: Vec<i64> = (0..places.len()).map(|place| price(place, &ticks[tick])).collect();
            let mut next_entered = vec![None; states];
            let mut next_staying = vec![None; states];
            let mut done = None;
            for state in 0..states {
                let price = prices[place_of[state]];
                let mut now = None;
                if let Some(worth) = entered[state] {
                    keep(&mut now, if sum { worth + price } else { worth.min(price) });
                }
                if let Some(worth) = staying[state] {
                    // in sum what a stay sees counts once, as long as it lasts
                    let adds = if seen[tick][place_of[state]] { 0 } else { price };
                    keep(&mut now, if sum { worth + adds } else { worth.min(price) });
                }
                let Some(worth) = now else { continue };
                keep(&mut next_staying[grown[state]], worth);
                for target in &targets[state] {
                    keep(&mut next_entered[*target], worth);
                    if ["end", "both"].contains(&&places[place_of[*target]].0[..]) {
                        keep(&mut done, worth);
                    }
                }
            }
            (entered, staying) = (next_entered, next_staying);
            // later begins are shorter, so of equals the later stays
            if let Some(worth) = done
                && tick + 1 - begin >= low
                && best[tick + 1].is_none_or(|(held, _)| !better(held, worth))
            {
                best[tick + 1] = Some((worth, begin));
            }
        }
    }
    let mut text = String::from("end begin score\n");
    let mut last: Option<(usize, usize, i64)> = None;
    for (end, found) in best.iter().enumerate() {
        let Some((score, begin)) = *found else { continue };
        writeln!(text, "{end} {begin} {score}").unwrap();
        if last.is_none_or(|(_, _, held)| better(score, held)) {
            last = Some((end, begin, score));
        }
    }
    match last {
        Some((end, begin, score)) => writeln!(text, "best {end} {begin} {score}").unwrap(),
        None => text.push_str("best none\n"),
    }
    print!("{text}");
}
