//! Makes the cases on which `watch` and the second scorer are compared.
//!
//!     generate CASES [SEED]       writes the file of cases (the same bytes each time for the same seed)
//!     generate --dirs CASES OUT   writes OUT/NUMBER/pattern.txt and OUT/NUMBER/record.txt for each case
//!
//! A case in the file is a line `=== NUMBER P R EXPECTED KIND`, then P bytes of pattern text, R bytes of
//! record text, and a line feed. EXPECTED is `-`, or what is known of the answer from the way the case
//! was made: `ok` for no refusal, or the number of the refusal.

use std::collections::BTreeMap;
use std::process::exit;

// ------------------------------------------------------------------------------------ random numbers

/// splitmix64
struct Random(u64);

impl Random {
    fn next(&mut self) -> u64 {
        self.0 = self.0.wrapping_add(0x9e37_79b9_7f4a_7c15);
        let mut z = self.0;
        z = (z ^ (z >> 30)).wrapping_mul(0xbf58_476d_1ce4_e5b9);
        z = (z ^ (z >> 27)).wrapping_mul(0x94d0_49bb_1331_11eb);
        z ^ (z >> 31)
    }

    fn below(&mut self, count: usize) -> usize {
        (self.next() % count as u64) as usize
    }

    fn from_to(&mut self, least: usize, most: usize) -> usize {
        least + self.below(most - least + 1)
    }

    fn percent(&mut self, chance: usize) -> bool {
        self.below(100) < chance
    }

    fn pick<'a, T: ?Sized>(&mut self, choices: &[&'a T]) -> &'a T {
        choices[self.below(choices.len())]
    }
}

// ------------------------------------------------------------------------------ patterns and records

const SIGNS: [&str; 4] = ["<", "<=", ">", ">="];

#[derive(Clone)]
struct Pattern {
    weighting: &'static str,
    channels: usize,
    clocks: usize,
    low: usize,
    high: usize,
    /// Kind and tests, as text.
    places: Vec<(&'static str, Vec<String>)>,
    edges: Vec<Edge>,
}

#[derive(Clone)]
struct Edge {
    from: usize,
    to: usize,
    guards: Vec<(&'static str, usize, usize)>,
    resets: Vec<usize>,
}

type Record = Vec<(u64, Vec<i64>)>;

impl Edge {
    fn line(&self) -> String {
        let mut line = format!("(edge {} {}", self.from, self.to);
        for (sign, clock, bound) in &self.guards {
            line += &format!(" ({sign} {clock} {bound})");
        }
        if !self.resets.is_empty() {
            let clocks: Vec<String> = self.resets.iter().map(usize::to_string).collect();
            line += &format!(" (reset {})", clocks.join(" "));
        }
        line + ")"
    }
}

impl Pattern {
    fn header(&self) -> String {
        let Pattern { weighting, channels, clocks, low, high, .. } = self;
        format!("(pattern {weighting} {channels} {clocks} {low} {high})")
    }

    fn lines(&self) -> Vec<String> {
        let mut lines = vec![self.header()];
        for (kind, tests) in &self.places {
            lines.push(format!("(place {kind}{})", tests.iter().map(|test| format!(" {test}")).collect::<String>()));
        }
        lines.extend(self.edges.iter().map(Edge::line));
        lines
    }

    fn text(&self) -> String {
        text(&self.lines())
    }

    /// (high + 1) × 2 × places × the product over clocks of (2 + the largest guard bound, or 0)
    fn cells(&self) -> usize {
        let bound = |clock| {
            let guards = self.edges.iter().flat_map(|edge| &edge.guards).filter(|guard| guard.1 == clock);
            guards.map(|guard| guard.2).max().unwrap_or(0)
        };
        let product: usize = (0..self.clocks).map(|clock| bound(clock) + 2).product();
        (self.high + 1) * 2 * self.places.len() * product
    }

    /// How many steps all runs over so many ticks would take together if every guard held: what a listing
    /// of every run costs at most.
    fn cost(&self, ticks: usize) -> f64 {
        let longest = ticks.min(self.high);
        let mut cost = vec![vec![0.0; self.places.len()]; longest + 1];
        for left in 1..=longest {
            for edge in &self.edges {
                let steps: f64 = (1..=left).map(|stay| 1.0 + cost[left - stay][edge.to]).sum();
                cost[left][edge.from] += steps;
            }
        }
        let starts = (0..self.places.len()).filter(|place| ["start", "both"].contains(&self.places[*place].0));
        starts.map(|place| (0..ticks).map(|begin| cost[longest.min(ticks - begin)][place]).sum::<f64>()).sum()
    }
}

fn text(lines: &[String]) -> String {
    lines.iter().map(|line| format!("{line}\n")).collect()
}

fn record_lines(record: &Record) -> Vec<String> {
    let values = |values: &Vec<i64>| values.iter().map(|value| format!(" {value}")).collect::<String>();
    record.iter().map(|piece| format!("(piece {}{})", piece.0, values(&piece.1))).collect()
}

fn ticks(record: &Record) -> usize {
    record.iter().map(|piece| piece.0 as usize).sum()
}

/// Where values and bounds are drawn from: few of them, so that neighbouring pieces are often equal.
struct Pool {
    values: Vec<i64>,
    bounds: Vec<i64>,
}

fn pool(random: &mut Random) -> Pool {
    let far = [-1_000_000, 1_000_000, 0, 999_999, -999_999];
    let mut draw = |far_too: bool| -> i64 {
        if far_too && random.percent(50) { far[random.below(far.len())] } else { random.below(13) as i64 - 6 }
    };
    let far_values = draw(false) >= 5;
    let far_bounds = draw(false) >= 5;
    let count = 2 + (draw(false) >= 2) as usize;
    let mut pool = Pool {
        values: (0..count).map(|_| draw(far_values)).collect(),
        bounds: (0..3).map(|_| draw(far_bounds)).collect(),
    };
    if random.percent(30) {
        pool.values[0] = 0;
    }
    pool
}

fn test(random: &mut Random, channels: usize, pool: &Pool) -> String {
    format!("({} {} {})", random.pick(&SIGNS), random.below(channels), pool.bounds[random.below(3)])
}

/// How many of the channels a pattern's tests may name: sometimes not all.
fn tested_channels(random: &mut Random, channels: usize) -> usize {
    if random.percent(45) { random.from_to(1, channels) } else { channels }
}

fn few(random: &mut Random, weights: [usize; 5]) -> usize {
    let mut left = random.below(weights.iter().sum());
    weights.iter().position(|weight| if left < *weight { true } else { left -= weight; false }).unwrap()
}

fn edge(random: &mut Random, places: usize, clocks: usize, most_bound: usize) -> Edge {
    let guards = if clocks == 0 { 0 } else { few(random, [40, 30, 16, 8, 6]) };
    // Most guards hold at some time: `<` with 0 and `<=` with 0 never do.
    let guard = |random: &mut Random| {
        let sign = random.pick(&SIGNS);
        let bound = random.from_to(0, most_bound);
        (sign, random.below(clocks), if sign.starts_with('<') && random.percent(85) { bound.max(2) } else { bound })
    };
    Edge {
        from: random.below(places),
        to: random.below(places),
        guards: (0..guards).map(|_| guard(random)).collect(),
        resets: (0..clocks).filter(|_| random.percent(35)).collect(),
    }
}

fn record(random: &mut Random, channels: usize, pool: &Pool, most_pieces: usize, most_duration: usize) -> Record {
    let pieces = random.from_to(if most_pieces > 2 { 2 } else { 0 }, most_pieces);
    let mut record: Record = Vec::new();
    for _ in 0..pieces {
        let mut values: Vec<i64> = (0..channels).map(|_| pool.values[random.below(pool.values.len())]).collect();
        if let Some((_, last)) = record.last() {
            match random.below(6) {
                0 | 1 => values = last.clone(),
                2 => values[..channels - 1].copy_from_slice(&last[..channels - 1]),
                3 => values[1..].copy_from_slice(&last[1..]),
                _ => {}
            }
        }
        record.push((random.from_to(1, most_duration) as u64, values));
    }
    record
}

/// The same observations, cut into other pieces.
fn cut_anew(random: &mut Random, record: &Record) -> Record {
    let mut cut: Record = Vec::new();
    for (duration, values) in record {
        for _ in 0..*duration {
            match cut.last_mut() {
                Some(last) if last.1 == *values && random.percent(50) => last.0 += 1,
                _ => cut.push((1, values.clone())),
            }
        }
    }
    cut
}

type Maker = fn(&mut Random) -> (Pattern, Record);

/// The most steps that the listing of a case's runs may take.
const COST: f64 = 6_000.0;

/// A small pattern of any shape, and a record for it. Both are drawn again until the listing is cheap.
fn small(random: &mut Random, over: bool) -> (Pattern, Record) {
    loop {
        let pool = pool(random);
        let channels = random.from_to(1, 3);
        let tested = tested_channels(random, channels);
        let clocks = few(random, [20, 30, 25, 13, 12]);
        let count = if random.percent(6) { random.from_to(5, 16) } else { random.from_to(1, 4) };
        let mut places: Vec<(&'static str, Vec<String>)> = Vec::new();
        for _ in 0..count {
            let kind = random.pick(&["start", "start", "plain", "end", "end", "both"]);
            let tests = few(random, [20, 40, 20, 10, 10]);
            places.push((kind, (0..tests).map(|_| test(random, tested, &pool)).collect()));
        }
        // Most patterns get a start place and an end place.
        if random.percent(93) && !places.iter().any(|place| ["start", "both"].contains(&place.0)) {
            places[0].0 = "start";
        }
        if random.percent(93) && !places.iter().any(|place| ["end", "both"].contains(&place.0)) {
            let last = count - 1;
            places[last].0 = if places[last].0 == "start" { "both" } else { "end" };
        }
        let most_bound = if clocks > 2 { 2 } else { 4 };
        let number = match random.below(20) {
            0 => 0,
            1 => random.from_to(7, 12),
            _ => random.from_to(count.min(2), 6),
        };
        let mut edges: Vec<Edge> = (0..number).map(|_| edge(random, count, clocks, most_bound)).collect();
        if number > 1 && random.percent(8) {
            edges[number - 1] = edges[0].clone();
        }
        if random.percent(70) {
            // A way from the first place through all others, so that long runs are frequent.
            for place in 0..(count - 1).min(number) {
                (edges[place].from, edges[place].to) = (place, place + 1);
            }
        }
        let high = match random.below(10) {
            0 => random.from_to(10, 40),
            _ => random.from_to(1, 8),
        };
        let low = if random.percent(45) { 1 } else { random.from_to(1, high.min(5)) };
        let weighting = if random.percent(50) { "margin" } else { "sum" };
        let pattern = Pattern { weighting, channels, clocks, low, high, places, edges };
        let pieces = if random.percent(4) { 0 } else { 6 };
        let record = record(random, channels, &pool, pieces, 4);
        let fits = pattern.cells() <= 2_048;
        if fits != over && pattern.cost(ticks(&record)) <= COST {
            return (pattern, record);
        }
    }
}

/// A chain of places with no way back: longer windows and longer records.
fn chain(random: &mut Random) -> (Pattern, Record) {
    loop {
        let pool = pool(random);
        let channels = random.from_to(1, 3);
        let clocks = few(random, [40, 40, 20, 0, 0]);
        let count = random.from_to(2, 3);
        let mut places: Vec<(&'static str, Vec<String>)> = Vec::new();
        for place in 0..count {
            let kind = if place == 0 { "start" } else if place == count - 1 { "end" } else { "plain" };
            let tests = few(random, [10, 50, 30, 5, 5]);
            places.push((kind, (0..tests).map(|_| test(random, channels, &pool)).collect()));
        }
        let mut edges = Vec::new();
        for place in 0..count - 1 {
            let bound = random.from_to(4, 12);
            edges.push(Edge { from: place, to: place + 1, ..edge(random, count, clocks, bound) });
        }
        let high = random.from_to(8, 80);
        let low = random.from_to(1, high.min(12));
        let weighting = if random.percent(50) { "margin" } else { "sum" };
        let pattern = Pattern { weighting, channels, clocks, low, high, places, edges };
        let record = record(random, channels, &pool, 12, 9);
        if pattern.cells() <= 2_048 && pattern.cost(ticks(&record)) <= 4.0 * COST {
            return (pattern, record);
        }
    }
}

/// Few places and many guards and resets: which runs there are hangs on the clocks.
fn timed(random: &mut Random) -> (Pattern, Record) {
    loop {
        let pool = pool(random);
        let channels = random.from_to(1, 2);
        let clocks = random.from_to(1, 4);
        let most_bound = 5 - clocks;
        let count = random.from_to(2, 3);
        let mut places: Vec<(&'static str, Vec<String>)> = Vec::new();
        for place in 0..count {
            let kind = if place == 0 { "start" } else if place == count - 1 { "end" } else { "plain" };
            let tests = few(random, [15, 60, 25, 0, 0]);
            places.push((kind, (0..tests).map(|_| test(random, channels, &pool)).collect()));
        }
        let mut edges = Vec::new();
        for at in 0..random.from_to(count, 5) {
            let mut edge = edge(random, count, clocks, most_bound);
            if at < count - 1 {
                (edge.from, edge.to) = (at, at + 1);
            }
            if edge.guards.is_empty() {
                edge.guards.push((random.pick(&SIGNS), random.below(clocks), random.from_to(1, most_bound)));
            }
            edge.resets = (0..clocks).filter(|_| random.percent(55)).collect();
            edges.push(edge);
        }
        let high = random.from_to(3, 12);
        let low = if random.percent(50) { 1 } else { random.from_to(1, 4.min(high)) };
        let pattern = Pattern { weighting: "sum", channels, clocks, low, high, places, edges };
        let record = record(random, channels, &pool, 5, 4);
        if pattern.cells() <= 2_048 && pattern.cost(ticks(&record)) <= COST {
            return (pattern, record);
        }
    }
}

/// Many places, edges and channels.
fn wide(random: &mut Random) -> (Pattern, Record) {
    loop {
        let pool = pool(random);
        let channels = random.from_to(3, 8);
        let clocks = few(random, [60, 30, 10, 0, 0]);
        let count = random.from_to(6, 16);
        let mut places: Vec<(&'static str, Vec<String>)> = Vec::new();
        for _ in 0..count {
            let kind = random.pick(&["start", "plain", "plain", "end"]);
            let tests = few(random, [10, 30, 30, 15, 15]);
            places.push((kind, (0..tests).map(|_| test(random, channels, &pool)).collect()));
        }
        let number = random.from_to(14, 32);
        let edges: Vec<Edge> = (0..number).map(|_| edge(random, count, clocks, 4)).collect();
        let high = random.from_to(2, 6);
        let low = random.from_to(1, high.min(3));
        let pattern = Pattern { weighting: "sum", channels, clocks, low, high, places, edges };
        let record = record(random, channels, &pool, 6, 3);
        if pattern.cells() <= 2_048 && pattern.cost(ticks(&record)) <= 3.0 * COST {
            return (pattern, record);
        }
    }
}

/// Loops through few places: many runs to list.
fn costly(random: &mut Random) -> (Pattern, Record) {
    loop {
        let (mut pattern, mut other) = small(random, false);
        let pool = pool(random);
        other.extend(record(random, pattern.channels, &pool, 5, 4));
        pattern.high = random.from_to(6, 12);
        let cost = pattern.cost(ticks(&other));
        if pattern.cells() <= 2_048 && cost > 4.0 * COST && cost <= 50.0 * COST {
            return (pattern, other);
        }
    }
}

/// A small pattern and a short record whose listing stays cheap even after a few bytes have changed.
fn tame(random: &mut Random) -> (Pattern, Record) {
    loop {
        let (mut pattern, mut record) = small(random, false);
        pattern.high = pattern.high.min(5);
        pattern.low = pattern.low.min(pattern.high);
        record.truncate(4);
        record.iter_mut().for_each(|piece| piece.0 = piece.0.min(2));
        if !record.is_empty() && pattern.edges.len() <= 5 && pattern.places.len() <= 6 {
            return (pattern, record);
        }
    }
}

// -------------------------------------------------------------------------------------------- damage

const FORTY: &str = "1234567890123456789012345678901234567890";
const TWENTY: &str = "18446744073709551617"; // 2 to the 64th, and 1
const TEN: &str = "4294967297"; // 2 to the 32nd, and 1

/// Words and signs, and what stands in their place where they are none.
const WRONG_WORDS: [(&str, &str); 24] = [
    ("pattern", "Pattern"), ("margin", "Margin"), ("sum", "sums"), ("place", "Place"), ("place", "places"),
    ("place", "edge"), ("edge", "Edge"), ("edge", "place"), ("start", "Start"), ("plain", "plane"), ("end", "END"),
    ("both", "Both"), ("both", "start end"), ("reset", "resets"), ("reset", "Reset"), ("piece", "Piece"),
    ("piece", "place"), ("(<", "(=<"), ("(<", "(<>"), ("(>", "(=>"), ("(>", "(>>"), ("(<", "(=="), ("(<", "(≤"),
    ("(>", "(!="),
];

/// Breaks the form of a line for certain.
fn break_form(random: &mut Random, line: &str) -> String {
    let words: Vec<&str> = line.split(' ').collect();
    loop {
        let broken = match random.below(17) {
            0 => format!("{line} "),
            1 => format!(" {line}"),
            2 => format!("{line}\r"),
            3 => line.replacen(' ', "  ", 1),
            4 => line.replacen(' ', "\t", 1),
            5 => line[..line.len() - 1].to_string(),
            6 => format!("{line})"),
            7 => line[1..].to_string(),
            8 => format!("({line})"),
            9 => line.replacen(") (", ")(", 1),
            10 => line.replacen(" (", " ( ", 1),
            11 => line.replacen("))", ") )", 1),
            12 => String::new(),
            13 => {
                // A number's form: a leading zero, a minus before zero, a plus, a letter, a point, nothing.
                let numbers: Vec<usize> = (0..words.len())
                    .filter(|at| words[*at].trim_end_matches(')').bytes().all(|byte| byte.is_ascii_digit()))
                    .collect();
                if numbers.is_empty() {
                    continue;
                }
                let at = numbers[random.below(numbers.len())];
                let digits = words[at].trim_end_matches(')');
                let wrong = match random.below(8) {
                    0 => format!("0{digits}"),
                    1 => "-0".to_string(),
                    2 => format!("+{digits}"),
                    3 => format!("{digits}a"),
                    4 => format!("{digits}.0"),
                    5 => "00".to_string(),
                    6 => "-".to_string(),
                    _ => String::new(),
                };
                let mut words: Vec<String> = words.iter().map(|word| word.to_string()).collect();
                words[at] = words[at].replacen(digits, &wrong, 1);
                words.join(" ")
            }
            14 => {
                // A word or a sign that is none.
                let (right, wrong) = WRONG_WORDS[random.below(WRONG_WORDS.len())];
                line.replacen(right, wrong, 1)
            }
            15 => format!("{line}{line}"),
            _ => format!("{line} ; {line}"),
        };
        if broken != line {
            return broken;
        }
    }
}

/// A place or an edge line with a chosen set of causes (4: too many tests or guards; 3: a bound out of
/// range; 5: no such index, or resets that do not rise; 2: broken form), and the refusal due.
fn faulty_line(random: &mut Random, pattern: &Pattern, place: bool) -> (String, &'static str) {
    let [mut two, mut four, mut three, mut five] = [0; 4].map(|_| random.percent(22));
    match random.below(4) {
        0 => four = true,
        1 => three = true,
        2 => five = true,
        _ => two = true,
    }
    let count = if four { random.from_to(5, 9) } else { random.from_to(three as usize, 4) };
    let long = random.pick(&[FORTY, TWENTY, TEN]).to_string();
    let mut parts: Vec<[String; 3]> = Vec::new();
    let indices = if place { pattern.channels } else { pattern.clocks };
    for _ in 0..if !place && indices == 0 && !four && !(three && five) { 0 } else { count } {
        let index = if indices == 0 { 0 } else { random.below(indices) };
        let bound = if place { random.below(2_001) as i64 - 1_000 } else { random.below(1_001) as i64 };
        parts.push([random.pick(&SIGNS).to_string(), index.to_string(), bound.to_string()]);
    }
    if !parts.is_empty() && !place && indices == 0 {
        five = true; // every guard of a pattern without clocks is one
    }
    if three && parts.is_empty() {
        // No guard can stand here without cause for 5 also.
        three = false;
        five |= !two && !four;
    }
    if three {
        let at = random.below(parts.len());
        let wrong = match (place, random.below(4)) {
            (true, 0) => "1000001".to_string(),
            (true, 1) => "-1000001".to_string(),
            (true, 2) => format!("-{long}"),
            (false, 0) => "1001".to_string(),
            _ => long.clone(),
        };
        parts[at][2] = wrong;
    }
    let mut ends = [random.below(pattern.places.len()).to_string(), random.below(pattern.places.len()).to_string()];
    let mut resets: Vec<String> = (0..pattern.clocks).filter(|_| random.percent(40)).map(|at| at.to_string()).collect();
    if five {
        let beyond = |random: &mut Random, count: usize| match random.below(3) {
            0 => long.clone(),
            1 => (count + 1).to_string(),
            _ => count.to_string(),
        };
        match random.below(if place { 1 } else { 5 }) {
            0 | 1 if !parts.is_empty() => {
                let at = random.below(parts.len());
                parts[at][1] = beyond(random, indices);
            }
            2 => resets.push(beyond(random, indices)),
            3 if pattern.clocks > 0 => {
                let clock = random.below(pattern.clocks);
                resets = vec![clock.to_string(), random.from_to(0, clock).to_string()];
            }
            _ if !place => {
                let at = random.below(2);
                ends[at] = beyond(random, pattern.places.len());
            }
            _ => parts.push(["<".to_string(), beyond(random, indices), "0".to_string()]),
        }
        four |= parts.len() > 4;
    }
    let kind = random.pick(&["start", "plain", "end", "both"]);
    let mut line = if place { format!("(place {kind}") } else { format!("(edge {} {}", ends[0], ends[1]) };
    for [sign, index, bound] in &parts {
        line += &format!(" ({sign} {index} {bound})");
    }
    if !place && !resets.is_empty() {
        line += &format!(" (reset {})", resets.join(" "));
    }
    line += ")";
    if two {
        line = match random.below(if place { 1 } else { 5 }) {
            1 => line.replacen(')', " (reset)", 1).replacen(" (reset)", " (reset) )", 1),
            2 => format!("{} (reset))", &line[..line.len() - 1]),
            3 => format!("{} (reset 0) (< 0 3))", &line[..line.len() - 1]),
            4 => format!("{} (< 0 -3))", &line[..line.len() - 1]),
            _ => break_form(random, &line),
        };
    }
    let due = match (two, four, three, five) {
        (true, ..) => "2",
        (_, true, ..) => "4",
        (_, _, true, _) => "3",
        _ => "5",
    };
    (line, due)
}

/// A header with a fault, and the refusal due.
fn faulty_header(random: &mut Random, pattern: &Pattern) -> (String, &'static str) {
    let mut numbers = [pattern.channels, pattern.clocks, pattern.low, pattern.high].map(|number| number.to_string());
    let (at, wrong) = match random.below(10) {
        0 => (0, "0".to_string()),
        1 => (0, "9".to_string()),
        2 => (1, "5".to_string()),
        3 => (2, "0".to_string()),
        4 => (2, (pattern.high + 1).to_string()),
        5 => (2, "4096".to_string()),
        6 => (3, "4096".to_string()),
        7 => (3, (pattern.low - 1).to_string()),
        _ => (random.below(4), random.pick(&[FORTY, TWENTY, TEN]).to_string()),
    };
    numbers[at] = wrong;
    let line = format!("(pattern {} {})", pattern.weighting, numbers.join(" "));
    match random.below(6) {
        0 => (break_form(random, &line), "2"),
        1 => (line.replacen(' ', " -", 3).replacen(" -", " ", 2), "2"),
        2 => (format!("{} 1)", &line[..line.len() - 1]), "2"),
        _ => (line, "3"),
    }
}

/// Record lines with cause for 2, for 8, or for both, and the refusal due.
fn faulty_record(random: &mut Random, record: &Record, channels: usize) -> (Vec<String>, &'static str) {
    let mut lines = record_lines(record);
    let (two, eight) = match random.below(5) {
        0 | 1 => (true, false),
        2 | 3 => (false, true),
        _ => (true, true),
    };
    let values = |values: &[&str]| values.iter().map(|value| format!(" {value}")).collect::<String>();
    if eight {
        let long = random.pick(&[FORTY, TWENTY, TEN]);
        let good = vec!["7"; channels];
        let mut bad = good.clone();
        let far = format!("-{long}");
        bad[channels - 1] = match random.below(4) {
            0 => "1000001",
            1 => "-1000001",
            2 => long,
            _ => &far,
        };
        let line = match random.below(8) {
            0 => format!("(piece 0{})", values(&good)),
            1 => format!("(piece 2147483648{})", values(&good)),
            2 => format!("(piece 2147483647{})", values(&good)), // beside another piece: too long in all
            3 => format!("(piece {long}{})", values(&good)),
            4 => format!("(piece 1{} 7)", values(&good)),
            5 if channels > 1 => format!("(piece 1{})", values(&good[1..])),
            5 => format!("(piece 1{})", values(&["0"; 9])),
            _ => format!("(piece 1{})", values(&bad)),
        };
        let at = random.below(lines.len() + 1);
        lines.insert(at, line);
    }
    if two {
        let at = random.below(lines.len());
        lines[at] = match random.below(6) {
            0 => "(piece 1)".to_string(),
            1 => format!("(piece -1{})", values(&vec!["7"; channels])),
            2 => format!("(piece 1{} (7))", values(&vec!["7"; channels])),
            _ => break_form(random, &lines[at]),
        };
    }
    (lines, if two { "2" } else { "8" })
}

const ALPHABET: &[u8] = b"()()<=>-- 00123456789\n\n\r\tpaelcsu+\0\xff";

/// One change of a text, blind to its meaning.
fn change(random: &mut Random, alphabet: &[u8], text: &mut Vec<u8>) {
    if text.is_empty() {
        text.push(alphabet[random.below(alphabet.len())]);
        return;
    }
    let at = random.below(text.len());
    let lines: Vec<Vec<u8>> = text.split_inclusive(|byte| *byte == b'\n').map(<[u8]>::to_vec).collect();
    let line = random.below(lines.len());
    match random.below(10) {
        0 | 1 | 2 => text[at] = alphabet[random.below(alphabet.len())],
        3 | 4 => drop(text.remove(at)),
        5 => text.insert(at, text[at]),
        6 => text.insert(at, alphabet[random.below(alphabet.len())]),
        7 => {
            let mut lines = lines;
            let other = random.below(lines.len());
            lines.swap(line, other);
            *text = lines.concat();
        }
        8 => {
            let mut lines = lines;
            lines.insert(line, lines[line].clone());
            *text = lines.concat();
        }
        _ => {
            let mut lines = lines;
            lines.remove(line);
            *text = lines.concat();
        }
    }
}

// --------------------------------------------------------------------------------------- the writing

struct Cases {
    bytes: Vec<u8>,
    count: usize,
    kinds: BTreeMap<String, usize>,
}

impl Cases {
    fn add(&mut self, kind: &str, expected: &str, pattern: impl AsRef<[u8]>, record: impl AsRef<[u8]>) {
        let (pattern, record) = (pattern.as_ref(), record.as_ref());
        self.count += 1;
        *self.kinds.entry(kind.to_string()).or_default() += 1;
        let header = format!("=== {} {} {} {expected} {kind}\n", self.count, pattern.len(), record.len());
        self.bytes.extend_from_slice(header.as_bytes());
        self.bytes.extend_from_slice(pattern);
        self.bytes.extend_from_slice(record);
        self.bytes.push(b'\n');
    }
}

fn random_cases(random: &mut Random, cases: &mut Cases) {
    for _ in 0..700 {
        let (mut pattern, record) = small(random, false);
        let lines = text(&record_lines(&record));
        for weighting in ["margin", "sum"] {
            pattern.weighting = weighting;
            cases.add("small", "ok", pattern.text(), &lines);
        }
        if !record.is_empty() && random.percent(40) {
            let cut = text(&record_lines(&cut_anew(random, &record)));
            for weighting in ["margin", "sum"] {
                pattern.weighting = weighting;
                cases.add("small-cut-anew", "ok", pattern.text(), &cut);
            }
        }
    }
    let makers: [(&str, usize, Maker); 4] =
        [("chain", 100, chain), ("timed", 250, timed), ("wide", 60, wide), ("costly", 60, costly)];
    for (kind, count, maker) in makers {
        for _ in 0..count {
            let (mut pattern, record) = maker(random);
            for weighting in ["margin", "sum"] {
                pattern.weighting = weighting;
                cases.add(kind, "ok", pattern.text(), text(&record_lines(&record)));
            }
        }
    }
    for _ in 0..150 {
        let (pattern, record) = small(random, true);
        cases.add("over-2048-cells", "11", pattern.text(), text(&record_lines(&record)));
    }
    for _ in 0..40 {
        let (pattern, record) = small(random, true);
        if !record.is_empty() {
            let (lines, due) = faulty_record(random, &record, pattern.channels);
            cases.add("over-2048-cells-and-faulty-record", due, pattern.text(), text(&lines));
        }
    }
}

fn faulty_cases(random: &mut Random, cases: &mut Cases) {
    for _ in 0..100 {
        let (pattern, record) = tame(random);
        let (header, due) = faulty_header(random, &pattern);
        let mut lines = pattern.lines();
        lines[0] = header;
        if random.percent(20) {
            lines.truncate(1);
        }
        cases.add("faulty-header", due, text(&lines), text(&record_lines(&record)));
    }
    for _ in 0..500 {
        let (pattern, record) = tame(random);
        let places = pattern.places.len();
        let mut lines = pattern.lines();
        let mut record = text(&record_lines(&record));
        if random.percent(10) {
            record = "(piece)\n".to_string();
        }
        let (place, due_there) = faulty_line(random, &pattern, true);
        let (edge, due_here) = faulty_line(random, &pattern, false);
        // Faults on later lines do not count, so the edge may be faulty beside the place, and what comes
        // behind the faulty line may be anything.
        let which = random.below(5);
        let mut decides = 0;
        if which != 0 {
            decides = random.from_to(1 + places, lines.len());
            lines.insert(decides, edge);
        }
        if which <= 1 {
            decides = random.from_to(1, 1 + places);
            lines.insert(decides, place);
        }
        if random.percent(15) {
            lines.push(random.pick(&["", "(place)", "(pattern sum 1 0 1 1)", "(edge 0)", "garbage"]).to_string());
        }
        let (kind, mut due) = if which <= 1 { ("faulty-place", due_there) } else { ("faulty-edge", due_here) };
        let mut bytes = text(&lines);
        if random.percent(15) && !bytes.ends_with("\n\n") {
            // Without its line feed the last line is broken in form, be it faulty otherwise or not.
            bytes.pop();
            if decides == lines.len() - 1 {
                due = "2";
            }
        }
        cases.add(kind, due, bytes, record);
    }
    for _ in 0..220 {
        let (pattern, record) = tame(random);
        let (lines, due) = faulty_record(random, &record, pattern.channels);
        cases.add("faulty-record", due, pattern.text(), text(&lines));
    }
    for _ in 0..40 {
        let (pattern, record) = tame(random);
        let record = text(&record_lines(&record));
        cases.add("no-last-line-feed", "2", pattern.text().trim_end(), &record);
        cases.add("no-last-line-feed", "2", pattern.text(), record.trim_end());
        cases.add("carriage-returns", "2", pattern.text().replace('\n', "\r\n"), &record);
        cases.add("carriage-returns", "2", pattern.text(), record.replace('\n', "\r\n"));
    }
    for turn in 0..500 {
        let (pattern, record) = tame(random);
        let mut pattern_text = pattern.text().into_bytes();
        let mut record_text = text(&record_lines(&record)).into_bytes();
        let changed = if turn % 2 == 0 { &mut pattern_text } else { &mut record_text };
        for _ in 0..few(random, [0, 60, 25, 15, 0]) {
            change(random, ALPHABET, changed);
        }
        let kind = if turn % 2 == 0 { "changed-pattern" } else { "changed-record" };
        cases.add(kind, "-", pattern_text, record_text);
    }
}

/// The text with as many digits for its `@` as it takes to have this size.
fn padded(text: &str, size: usize) -> String {
    text.replacen('@', &"9".repeat(size + 1 - text.len()), 1)
}

/// Cases by hand: the paper's edge values and their neighbours.
fn known_cases(random: &mut Random, cases: &mut Cases) {
    let example = "(pattern margin 1 1 1 4)\n(place start (< 0 15))\n(place plain (> 0 5))\n(place end)\n\
                   (edge 0 1 (< 0 3) (reset 0))\n(edge 1 2 (<= 0 2))\n";
    let record = "(piece 2 10)\n(piece 2 40)\n";
    for weighting in ["margin", "sum"] {
        let pattern = example.replace("margin", weighting);
        cases.add("example", "ok", &pattern, record);
        cases.add("example", "ok", &pattern, "(piece 1 10)\n(piece 1 10)\n(piece 1 40)\n(piece 1 40)\n");
        cases.add("example", "ok", pattern.replace("1 4)", "3 4)"), record);
        cases.add("example", "ok", pattern.replace("1 4)", "4 4)"), record);
        cases.add("example", "ok", pattern.replace("(<= 0 2)", "(<= 0 0)"), record);
        cases.add("example", "ok", pattern.replace("(<= 0 2)", "(> 0 3)"), "(piece 9 10)\n");
        cases.add("example", "ok", pattern, "");
    }

    // One change of the example each.
    let changes: &[(&str, &str, &str)] = &[
        ("ok", "(< 0 15)", "(< 0 1000000)"),
        ("3", "(< 0 15)", "(< 0 1000001)"),
        ("ok", "(< 0 15)", "(< 0 -1000000)"),
        ("3", "(< 0 15)", "(< 0 -1000001)"),
        ("2", "(< 0 15)", "(< 0 -0)"),
        ("2", "(< 0 15)", "(< 0 -01)"),
        ("2", "(< 0 15)", "(< 0 --1)"),
        ("2", "(< 0 15)", "(< 0 -)"),
        ("2", "(< 0 15)", "(< 0 +1)"),
        ("2", "(< 0 15)", "(< 0 015)"),
        ("2", "(< 0 15)", "(< -0 15)"),
        ("2", "(< 0 15)", "(< -1 15)"),
        ("2", "(< 0 15)", "(< 00 15)"),
        ("5", "(< 0 15)", "(< 1 15)"),
        ("5", "(< 0 15)", "(< 18446744073709551616 15)"),
        ("5", "(< 0 15)", "(< 4294967296 15)"),
        ("3", "(< 0 15)", "(< 0 18446744073709551616)"),
        ("3", "(< 0 15)", "(< 0 -18446744073709551616)"),
        ("3", "(< 0 15)", "(< 0 4294967296)"),
        ("3", "(< 0 15)", "(< 1 1000001)"),
        ("2", "(< 0 15)", "(< 0 15 )"),
        ("2", "(< 0 15)", "( < 0 15)"),
        ("2", "(< 0 15)", "(< 0)"),
        ("2", "(< 0 15)", "(< 0 15 1)"),
        ("2", "(< 0 15)", "()"),
        ("2", "(< 0 15)", "((< 0 15))"),
        ("2", "(< 0 15)", "< 0 15"),
        ("2", "(< 0 15)", "(= 0 15)"),
        ("2", "(< 0 15)", "(=< 0 15)"),
        ("2", "(< 0 15)", "(< = 0 15)"),
        ("2", "(< 0 15)", "(<0 15)"),
        ("ok", "(< 0 15)", "(< 0 15) (< 0 15) (< 0 15) (< 0 15)"),
        ("4", "(< 0 15)", "(< 0 15) (< 0 15) (< 0 15) (< 0 15) (< 0 15)"),
        ("4", "(< 0 15)", "(< 0 15) (< 0 15) (< 0 15) (< 9 15) (< 0 1000001)"),
        ("2", "(< 0 15)", "(< 0 15) (< 0 15) (< 0 15) (< 0 15) (< 0 15) (< 0 -0)"),
        ("2", "(< 0 15)", "(reset 0)"),
        ("2", "1 1 1 4", "1 1 1"),
        ("2", "1 1 1 4", "1 1 1 4 4"),
        ("2", "1 1 1 4", "1 1 01 4"),
        ("2", "1 1 1 4", "-1 1 1 4"),
        ("2", "1 1 1 4", "1 1 -1 4"),
        ("3", "1 1 1 4", "1 1 4 3"),
        ("3", "1 1 1 4", "1 1 0 4"),
        ("3", "1 1 1 4", "1 1 0 0"),
        ("3", "1 1 1 4", "0 1 1 4"),
        ("3", "1 1 1 4", "9 1 1 4"),
        ("3", "1 1 1 4", "1 5 1 4"),
        ("3", "1 1 1 4", "1 1 1 4096"),
        ("3", "1 1 1 4", "1 1 4096 4096"),
        ("11", "1 1 1 4", "1 1 4095 4095"),
        ("11", "1 1 1 4", "1 1 1 4095"),
        ("3", "1 1 1 4", "1 1 18446744073709551617 4"),
        ("3", "1 1 1 4", "1 1 1 18446744073709551620"),
        ("5", "1 1 1 4", "1 0 1 4"),
        ("8", "1 1 1 4", "8 1 1 4"),
        ("ok", "1 1 1 4", "1 4 1 4"),
        ("ok", "1 1 1 4", "1 1 4 4"),
        ("2", "margin", "Margin"),
        ("2", "margin", "product"),
        ("2", "margin", "marginal"),
        ("2", "pattern", "Pattern"),
        ("2", "start", "Start"),
        ("2", "start", "starts"),
        ("2", "start", ""),
        ("2", "place end", "place  end"),
        ("2", "place end", "place\tend"),
        ("2", "(place end)", "(place end )"),
        ("2", "(place end)", "( place end)"),
        ("2", "(place end)", "(place end) "),
        ("2", "(place end)", " (place end)"),
        ("2", "(place end)", "(place end)\r"),
        ("2", "(place end)", "(place end)\n"),
        ("2", "(place end)", "(place end"),
        ("2", "(place end)", "(place end))"),
        ("2", "(place end)", "(place)"),
        ("2", "(place end)", "place end"),
        ("2", "(place end)", "(place end (place end))"),
        ("2", "(place end)", "(place end)\n(pattern margin 1 1 1 4)"),
        ("2", "(place end)", "(place end)\n(piece 2 10)"),
        ("5", "(place end)\n", ""),
        ("2", "(edge 1 2 (<= 0 2))", "(edge 1 2 (<= 0 2))\n(place end)"),
        ("2", "(edge 1 2 (<= 0 2))", "(edge 1 2 (<= 0 2))\n\n"),
        ("2", "(edge 1 2 (<= 0 2))", "(edge 1)"),
        ("2", "(edge 1 2 (<= 0 2))", "(edge)"),
        ("2", "(edge 1 2 (<= 0 2))", "(edge 1 2 3)"),
        ("2", "(edge 1 2 (<= 0 2))", "(edge -1 2)"),
        ("2", "(edge 1 2 (<= 0 2))", "(edge (reset 0) 1 2)"),
        ("ok", "(edge 1 2 (<= 0 2))", "(edge 1 2)"),
        ("ok", "(edge 1 2 (<= 0 2))\n", ""),
        ("5", "(edge 1 2 (<= 0 2))", "(edge 3 2)"),
        ("5", "(edge 1 2 (<= 0 2))", "(edge 1 3)"),
        ("5", "(edge 1 2 (<= 0 2))", "(edge 1 4294967296)"),
        ("5", "(edge 1 2 (<= 0 2))", "(edge 18446744073709551616 2)"),
        ("5", "(edge 1 2 (<= 0 2))", "(edge 1 2 (<= 1 2))"),
        ("5", "(edge 1 2 (<= 0 2))", "(edge 1 2 (<= 256 2))"),
        ("11", "(edge 1 2 (<= 0 2))", "(edge 1 2 (<= 0 1000))"),
        ("3", "(edge 1 2 (<= 0 2))", "(edge 1 2 (<= 0 1001))"),
        ("3", "(edge 1 2 (<= 0 2))", "(edge 3 3 (<= 1 1001) (reset 1))"),
        ("3", "(edge 1 2 (<= 0 2))", "(edge 1 2 (<= 0 65536))"),
        ("2", "(edge 1 2 (<= 0 2))", "(edge 1 2 (<= 0 -2))"),
        ("ok", "(edge 1 2 (<= 0 2))", "(edge 1 2 (<= 0 2) (<= 0 2) (<= 0 2) (<= 0 2))"),
        ("4", "(edge 1 2 (<= 0 2))", "(edge 1 2 (<= 0 2) (<= 0 2) (<= 0 2) (<= 0 2) (<= 0 2))"),
        ("4", "(edge 1 2 (<= 0 2))", "(edge 9 9 (<= 0 2) (<= 0 2) (<= 9 2) (<= 0 1001) (<= 0 2))"),
        ("2", "(edge 1 2 (<= 0 2))", "(edge 1 2 (<= 0 2) (reset 0) (<= 0 2))"),
        ("2", "(reset 0)", "(reset)"),
        ("2", "(reset 0)", "(reset )"),
        ("2", "(reset 0)", "(reset -0)"),
        ("2", "(reset 0)", "(reset 00)"),
        ("2", "(reset 0)", "(reset 0) (reset 0)"),
        ("2", "(reset 0)", "(reset (0))"),
        ("5", "(reset 0)", "(reset 0 0)"),
        ("5", "(reset 0)", "(reset 1)"),
        ("5", "(reset 0)", "(reset 0 1)"),
        ("5", "(reset 0)", "(reset 0 1 2 3 4)"),
        ("5", "(reset 0)", "(reset 18446744073709551616)"),
        // An earlier line decides.
        ("5", "(> 0 5))\n", "(> 1 5))\n)"),
        ("3", "(> 0 5))\n", "(> 0 1000001))\n(place)\n"),
        ("3", "1 1 1 4)\n", "1 1 1 5000)\n)\n"),
    ];
    for (due, from, to) in changes {
        let pattern = example.replacen(from, to, 1);
        assert_ne!(pattern, example);
        cases.add("example-changed", due, pattern, record);
    }
    let four = example.replacen("1 1 1 4", "1 4 1 4", 1);
    for (due, resets) in [
        ("ok", "0 1 2 3"), ("ok", "1 3"), ("5", "0 2 1"), ("5", "3 3"), ("5", "0 1 2 3 3"), ("5", "0 1 2 3 4"),
        ("5", "1 0"), ("2", "0  1"), ("2", "0 1 "), ("2", "0 -1"),
    ] {
        cases.add("resets", due, four.replacen("reset 0", &format!("reset {resets}"), 1), record);
    }

    // Texts that lack whole lines.
    for (due, pattern) in [
        ("2", ""), ("2", "\n"), ("2", "()\n"), ("2", "("), ("2", "(pattern margin 1 1 1 4)"),
        ("2", "(pattern margin 1 1 1 4)\n"), ("3", "(pattern margin 1 1 4 3)\n"), ("2", "(pattern margin 1 1 4 3)"),
        ("2", "(pattern margin 1 1 1 4)\n(edge 0 0)\n"), ("2", "(pattern margin 1 1 1 4)\n(edge 0 0)\n(place both)\n"),
        ("2", "(place both)\n"), ("ok", "(pattern margin 1 1 1 4)\n(place both)\n"),
        ("ok", "(pattern sum 1 0 1 4)\n(place both)\n(edge 0 0)\n"),
        ("2", "\n(pattern margin 1 1 1 4)\n(place both)\n"), ("2", "(pattern margin 1 1 1 4)\n\n(place both)\n"),
        ("2", "(pattern margin 1 1 1 4)(place both)\n"), ("2", "(pattern margin 1 1 1 4)\n(place both)\n\0"),
        ("2", "\u{feff}(pattern margin 1 1 1 4)\n(place both)\n"),
    ] {
        cases.add("few-lines", due, pattern, record);
        cases.add("few-lines", due, pattern, ""); // and the record's file may be missing
    }

    // Many lines.
    let lines = |header: &str, places: usize, edges: usize, edge: &str| {
        format!("{header}\n{}{}", "(place both)\n".repeat(places), format!("{edge}\n").repeat(edges))
    };
    let header = "(pattern margin 1 0 1 2)";
    for (due, places, edges, edge) in [
        ("ok", 16, 0, ""), ("4", 17, 0, ""), ("4", 40, 0, ""), ("ok", 1, 32, "(edge 0 0)"), ("4", 1, 33, "(edge 0 0)"),
        ("ok", 16, 32, "(edge 15 15)"), ("5", 16, 33, "(edge 15 16)"), ("4", 17, 33, "(edge 15 15)"),
        ("4", 1, 99, "(edge 0 0)"), ("5", 16, 1, "(edge 16 0)"),
    ] {
        cases.add("many-lines", due, lines(header, places, edges, edge), record);
    }
    cases.add("many-lines", "2", lines(header, 16, 0, "") + "(place Both)\n", record);
    cases.add("many-lines", "4", lines(header, 16, 0, "") + "(place both (< 7 1000001))\n", record);
    cases.add("many-lines", "4", lines(header, 1, 32, "(edge 0 0)") + "(edge 9 9 (< 9 1001))\n", record);
    cases.add("many-lines", "2", lines(header, 1, 32, "(edge 0 0)") + "(edge 0 0 )\n", record);
    cases.add("many-lines", "2", lines(header, 1, 32, "(edge 0 0)") + "(place both)\n", record);
    cases.add("many-lines", "2", lines(header, 16, 1, "(edge 0 0)") + "(place both)\n", record);

    // "8,192 bytes reach the lines, 8,193 give 1."
    for (due, size) in [("1", 8_193), ("1", 20_000)] {
        cases.add("long-pattern", due, vec![b'x'; size], record);
        cases.add("long-pattern", due, example.repeat(160)[..size].to_string(), record);
        cases.add("long-pattern", due, "(".repeat(size), record);
        cases.add("long-pattern", due, "\n".repeat(size), "(piece");
    }
    cases.add("long-pattern", "2", vec![b'x'; 8_192], record);
    cases.add("long-pattern", "2", "(".repeat(8_192), record);
    cases.add("long-pattern", "2", &example.repeat(160)[..8_192], record);
    for (due, pattern) in [
        ("3", "(pattern margin 1 1 1 @)\n"),
        ("3", "(pattern margin 1 0 1 4)\n(place both (< 0 -@))\n"),
        ("5", "(pattern margin 1 0 1 4)\n(place both (< @ 7))\n"),
        ("5", "(pattern margin 1 0 1 4)\n(place both)\n(edge 0 @)\n"),
        ("5", "(pattern margin 1 1 1 4)\n(place both)\n(edge 0 0 (reset 0 @))\n"),
        ("3", "(pattern margin 1 1 1 4)\n(place both)\n(edge 0 0 (< 0 @))\n"),
        ("2", "(pattern margin 1 1 1 4)\n(place both)\n(edge 0 0 (< 0 @))"),
    ] {
        cases.add("long-pattern", due, padded(pattern, 8_192), record);
        cases.add("long-pattern", "1", padded(pattern, 8_193), record);
    }
    let tests = format!("(pattern margin 1 0 1 4)\n(place both{})\n", " (< 0 7)".repeat(900));
    cases.add("long-pattern", "4", tests, record);

    // Records: "(piece 2 10)" once changed.
    let many = "(piece 1 0)\n";
    for (due, text) in [
        ("ok", ""), ("2", "\n"), ("2", "(piece 2 10)"), ("2", "(piece 2 10)\n\n"), ("2", "\n(piece 2 10)\n"),
        ("2", "(piece 2 10)\r\n"), ("2", "(piece 2  10)\n"), ("2", "(piece 2\t10)\n"), ("2", "(piece 2)\n"),
        ("2", "(piece)\n"), ("2", "(Piece 2 10)\n"), ("2", "(piece 2 10 )\n"), ("2", " (piece 2 10)\n"),
        ("2", "(piece 2 (10))\n"), ("2", "(piece 02 10)\n"), ("2", "(piece 2 010)\n"), ("2", "(piece 2 -0)\n"),
        ("2", "(piece -2 10)\n"), ("2", "(piece -0 10)\n"), ("2", "(piece 2 +10)\n"), ("2", "(piece 2 1e1)\n"),
        ("2", "(piece 2 10)(piece 2 10)\n"), ("2", "(piece 2 10) (piece 2 10)\n"), ("2", "(place 2 10)\n"),
        ("2", "(piece 2 10.0)\n"), ("2", "piece 2 10\n"), ("2", "(piece 2 10)\n\0"), ("2", "(pattern margin 1 1 1 4)\n"),
        ("8", "(piece 0 10)\n"), ("8", "(piece 2 10 10)\n"), ("8", "(piece 2 10 10 10 10 10 10 10 10 10)\n"),
        ("8", "(piece 2 1000001)\n"), ("8", "(piece 2 -1000001)\n"), ("ok", "(piece 2 1000000)\n(piece 3 -1000000)\n"),
        ("8", "(piece 2 18446744073709551626)\n"), ("8", "(piece 2 -18446744073709551626)\n"),
        ("8", "(piece 18446744073709551618 10)\n"), ("8", "(piece 4294967298 10)\n"), ("8", "(piece 2147483648 10)\n"),
        ("8", "(piece 2147483647 10)\n(piece 1 10)\n"), ("8", "(piece 2147483647 10)\n(piece 2147483647 10)\n"),
        ("8", "(piece 1073741824 10)\n(piece 1073741824 10)\n"),
        ("8", "(piece 2147483647 10)\n(piece 2147483647 10)\n(piece 2 10)\n"), // 2 to the 32nd in all
        ("8", "(piece 2 10)\n(piece 0 10)\n"), ("2", "(piece 0 10)\n(piece 2 -0)\n"),
        ("2", "(piece 2 1000001)\n(piece 2 10)"), ("2", "(piece 2 10 10)\n)\n"),
        ("8", "(piece 1 10)\n(piece 1 10 10)\n"),
    ] {
        cases.add("record", due, example, text);
        // The record is judged before the tables.
        let over = example.replacen("1 4)", "1 4095)", 1);
        cases.add("record-beside-too-many-cells", if due == "ok" { "11" } else { due }, over, text);
        // The pattern is judged before the record.
        cases.add("record-beside-faulty-pattern", "3", example.replacen("1 4)", "1 4096)", 1), text);
    }
    let two = "(pattern sum 2 0 1 3)\n(place start (< 1 7))\n(place end)\n(edge 0 1)\n";
    for (due, text) in [("ok", "(piece 2 10 10)\n"), ("8", "(piece 2 10)\n"), ("8", "(piece 2 10 10 10)\n"),
        ("8", "(piece 1 1 1)\n(piece 1 1)\n(piece 1 1 1 1)\n"), ("2", "(piece 2)\n")] {
        cases.add("record-of-two-channels", due, two, text);
    }
    cases.add("long-duration", "11", example.replacen("1 4)", "1 4095)", 1), "(piece 2147483647 10)\n");
    cases.add("long-duration", "11", example.replacen("1 4)", "1 4095)", 1), "(piece 2147483646 10)\n(piece 1 10)\n");
    cases.add("long-duration", "ok", example.replacen("(<= 0 2)", "(<= 0 0)", 1), "(piece 65535 10)\n(piece 65536 10)\n");
    cases.add("long-duration", "ok", example.replacen("margin", "sum", 1), "(piece 1 7)\n(piece 65537 10)\n(piece 2 40)\n");
    cases.add("long-record", "ok", example, many.repeat(1_365));
    cases.add("long-record", "1", example, many.repeat(1_366));
    for (size, due, pattern) in [(16_384, "8", example), (16_385, "1", example), (16_385, "2", "(pattern"), (30_000, "1", example)] {
        cases.add("long-record", due, pattern, padded("(piece 1 @)\n", size));
        cases.add("long-record", due, pattern, padded("(piece @ 1)\n", size));
    }
    cases.add("long-record", "1", example, vec![b'x'; 16_385]);
    cases.add("long-record", "2", example, vec![b'x'; 16_384]);
    cases.add("long-record", "2", example, "(".repeat(16_384));
    let exact = many.repeat(1_364) + "(piece 10 -1000)\n"; // 1,364 × 12 + 17 = 16,385
    cases.add("long-record", "1", example, &exact);
    let exact = many.repeat(1_364) + "(piece 1 -1000)\n"; // 16,384
    cases.add("long-record", "ok", example, &exact);

    // Exactly 2,048 cells, and just above.
    let free = |high: usize, clocks: usize, places: usize| {
        format!("(pattern margin 1 {clocks} 1 {high})\n(place start (> 0 2))\n{}(edge 0 1)\n", "(place end)\n".repeat(places - 1))
    };
    let short = "(piece 3 5)\n(piece 2 1)\n(piece 4 5)\n";
    for (due, high, clocks, places) in [
        ("ok", 511, 0, 2), ("11", 512, 0, 2), ("ok", 63, 0, 16), ("11", 64, 0, 16), ("ok", 255, 1, 2), ("11", 256, 1, 2),
        ("ok", 127, 2, 2), ("11", 128, 2, 2), ("ok", 31, 4, 2), ("11", 32, 4, 2), ("ok", 340, 0, 3), ("11", 341, 0, 3),
        ("11", 4_095, 4, 16),
    ] {
        cases.add("cells", due, free(high, clocks, places), short);
        cases.add("cells", due, free(high, clocks, places), "");
    }
    for (due, bound) in [("ok", 254), ("11", 255), ("11", 1_000)] {
        // 2 × 2 × 2 × (bound + 2)
        let pattern = format!("(pattern sum 1 1 1 1)\n(place start (> 0 2))\n(place end)\n(edge 0 1 (< 0 {bound}))\n");
        cases.add("cells", due, pattern, short);
    }
    let pattern = "(pattern sum 1 1 1 1)\n(place start (> 0 2))\n(place end)\n(edge 0 1 (< 0 254))\n(edge 0 1 (< 0 3))\n";
    cases.add("cells", "ok", pattern, short);
    let huge = format!(
        "(pattern sum 1 4 1 4095)\n{}(edge 0 1 (< 0 1000) (< 1 1000) (< 2 1000) (< 3 1000))\n",
        "(place both)\n".repeat(16)
    );
    cases.add("cells", "11", huge, short);

    // Scores as far out as they go.
    let far = "(pattern margin 1 0 1 9)\n(place start (> 0 1000000) (> 0 1000000) (> 0 1000000) (> 0 1000000))\n\
               (place end)\n(edge 0 0)\n(edge 0 1)\n";
    for weighting in ["margin", "sum"] {
        for sign in SIGNS {
            for bound in ["1000000", "-1000000"] {
                let pattern = far.replace("margin", weighting).replace("(>", &format!("({sign}")).replace("1000000", bound);
                let values = "(piece 1 -1000000)\n(piece 1 1000000)\n";
                cases.add("far", "ok", pattern, values.repeat(3 + random.below(3)));
            }
        }
    }
}

// --------------------------------------------------------------------------------------------- bands

/// Request R-1's test. Its ends lie near a value of the record, so that values inside it, at its ends, below it
/// and above it are all frequent.
fn band(random: &mut Random, channels: usize, record: &Record) -> String {
    let channel = random.below(channels);
    band_of(random, channel, record)
}

fn band_of(random: &mut Random, channel: usize, record: &Record) -> String {
    let near = if record.is_empty() { 0 } else { record[random.below(record.len())].1[channel] };
    let [under, over] = [0; 2].map(|_| random.below(6) as i64);
    let (low, high) = match random.below(12) {
        0 => (near, near),
        1 => (near + over, near + over),
        2 => (near, near + over),
        3 => (near - under, near),
        4 => (near + 1, near + 1 + over), // the value is below it
        5 => (near - 1 - under, near - 1), // and above it
        6 => (-1_000_000, near + over),
        7 => (near - under, 1_000_000),
        8 => (-1_000_000, 1_000_000),
        _ => (near - under, near + over),
    };
    format!("(in {channel} {} {})", low.clamp(-1_000_000, 1_000_000), high.clamp(-1_000_000, 1_000_000))
}

/// Gives bands to most places: in the place of tests, beside them, or alone.
fn put_bands(random: &mut Random, pattern: &mut Pattern, record: &Record) {
    let channels = pattern.channels;
    for (_, tests) in &mut pattern.places {
        match random.below(10) {
            0 | 1 => {}
            2 | 3 | 4 => {
                for test in tests {
                    if random.percent(60) {
                        *test = band(random, channels, record);
                    }
                }
            }
            5 | 6 => {
                tests.truncate(3);
                let at = random.from_to(0, tests.len());
                tests.insert(at, band(random, channels, record));
            }
            _ => *tests = (0..random.from_to(1, 4)).map(|_| band(random, channels, record)).collect(),
        }
    }
}

/// A maker's pattern with bands, one of them in a place where runs begin. The listing is cheaper than for
/// patterns without any: the statistics try more wrong readings here.
fn with_bands(random: &mut Random, maker: Maker) -> (Pattern, Record) {
    loop {
        let (mut pattern, record) = maker(random);
        put_bands(random, &mut pattern, &record);
        let begins = |edge: &Edge| {
            let (kind, tests) = &pattern.places[edge.from];
            ["start", "both"].contains(kind) && tests.iter().any(|test| test.starts_with("(in "))
        };
        if pattern.edges.iter().any(begins) && pattern.cost(ticks(&record)) <= COST / 3.0 {
            return (pattern, record);
        }
    }
}

/// A band in the words of document 01 alone; any other test as it is.
fn two_tests(test: &str) -> Vec<String> {
    let words: Vec<&str> = test.trim_matches(['(', ')']).split(' ').collect();
    match words[..] {
        ["in", channel, low, high] => vec![format!("(>= {channel} {low})"), format!("(<= {channel} {high})")],
        _ => vec![test.to_string()],
    }
}

/// The pattern without bands that says the same in margin, if no place has more than four tests then.
fn as_two_tests(pattern: &Pattern) -> Option<Pattern> {
    let mut other = pattern.clone();
    for (_, tests) in &mut other.places {
        *tests = tests.iter().flat_map(|test| two_tests(test)).collect();
    }
    other.places.iter().all(|place| place.1.len() <= 4).then_some(other)
}

/// A good pattern under both weightings.
fn add_both(cases: &mut Cases, kind: &str, mut pattern: Pattern, record: &Record) {
    for weighting in ["margin", "sum"] {
        pattern.weighting = weighting;
        cases.add(kind, "ok", pattern.text(), text(&record_lines(record)));
    }
}

/// Good bands in small patterns, long ones and wide ones.
fn random_bands(random: &mut Random, cases: &mut Cases) {
    for _ in 0..120 {
        let (pattern, record) = with_bands(random, |random| small(random, false));
        add_both(cases, "band", pattern.clone(), &record);
        if let Some(other) = as_two_tests(&pattern) {
            add_both(cases, "band-as-two-tests", other, &record);
        }
        if !record.is_empty() && random.percent(25) {
            let cut = cut_anew(random, &record);
            add_both(cases, "band-cut-anew", pattern, &cut);
        }
    }
    let makers: [(&str, Maker); 2] = [("band-chain", chain), ("band-wide", wide)];
    for (kind, maker) in makers {
        for _ in 0..12 {
            let (pattern, record) = with_bands(random, maker);
            add_both(cases, kind, pattern, &record);
        }
    }
}

/// Good bands beside what is refused after the pattern.
fn bands_in_refused_cases(random: &mut Random, cases: &mut Cases) {
    for _ in 0..12 {
        let (mut pattern, mut record) = small(random, true);
        record.push((1, vec![0; pattern.channels]));
        put_bands(random, &mut pattern, &record);
        pattern.places[0].1 = vec![band(random, pattern.channels, &record)];
        cases.add("band-over-2048-cells", "11", pattern.text(), text(&record_lines(&record)));
        let (lines, due) = faulty_record(random, &record, pattern.channels);
        cases.add("band-and-faulty-record", due, pattern.text(), text(&lines));
        let (pattern, record) = with_bands(random, tame);
        let (lines, due) = faulty_record(random, &record, pattern.channels);
        cases.add("band-and-faulty-record", due, pattern.text(), text(&lines));
    }
}

/// One band and the values around it, a tick each. A run of one tick shows each value's own distance, longer
/// ones what becomes of several.
fn band_values(cases: &mut Cases) {
    let far = 1_000_000;
    for (low, high) in [
        (5, 15), (5, 14), (-15, -5), (-4, 5), (7, 7), (0, 0), (-1, 0), (-far, far), (-far, -far), (far, far), (-far, 3),
        (-3, far), (far - 1, far), (-far, 1 - far),
    ] {
        let middle = (low + high) / 2;
        let values = [low - 1, low, low + 1, middle, middle + 1, high - 1, high, high + 1, -far, far, 0];
        let values = values.iter().filter(|value| (-far..=far).contains(*value));
        let record = values.map(|value| format!("(piece 1 {value})\n")).collect::<String>();
        for weighting in ["margin", "sum"] {
            for window in ["1 1", "1 3"] {
                let header = format!("(pattern {weighting} 1 0 {window})\n");
                let places = format!("(place start (in 0 {low} {high}))\n(place end)\n");
                cases.add("band-values", "ok", header + &places + "(edge 0 0)\n(edge 0 1)\n", &record);
            }
        }
    }
}

/// The worked examples: document 01's, the gearbox, and the sum. `@` is the weighting.
const EXAMPLES: [(&str, &str); 3] = [
    (
        "(pattern @ 1 1 1 4)\n(place start (< 0 15))\n(place plain (> 0 5))\n(place end)\n\
         (edge 0 1 (< 0 3) (reset 0))\n(edge 1 2 (<= 0 2))\n",
        "(piece 2 10)\n(piece 2 40)\n",
    ),
    (
        "(pattern @ 3 4 3 5)\n(place both (>= 0 20) (<= 1 40))\n(place plain (>= 0 25) (>= 1 180) (>= 2 900))\n\
         (edge 0 1 (> 0 1) (reset 1 2 3))\n(edge 1 1 (<= 1 1) (reset 2))\n(edge 1 0 (<= 2 1) (> 3 1))\n",
        "(piece 4 32 15 1200)\n(piece 1 30 210 1450)\n(piece 2 18 230 1380)\n(piece 1 29 205 1320)\n\
         (piece 3 33 20 1210)\n(piece 3 31 195 1240)\n",
    ),
    (
        "(pattern @ 2 1 3 8)\n(place start (<= 0 60))\n(place plain (<= 0 60) (<= 1 25))\n(place end)\n\
         (edge 0 1 (>= 0 2) (reset 0))\n(edge 1 2 (>= 0 1) (<= 0 5))\n",
        "(piece 3 52 10)\n(piece 2 55 18)\n(piece 4 58 21)\n(piece 1 61 30)\n(piece 3 57 20)\n(piece 3 50 12)\n",
    ),
];

/// Each test of the worked examples as a band. Its bound is one end; the other is as far off as it may be, at
/// the bound itself, near it, or far enough to hold more of the record's values.
fn example_bands(random: &mut Random, cases: &mut Cases) {
    for (example, record) in EXAMPLES {
        let (places, _) = example.split_once("(edge").unwrap_or_default();
        for (at, _) in places.match_indices(" (") {
            let (before, test) = example.split_at(at + 1);
            let (test, behind) = test.split_once(')').unwrap_or_default();
            let words: Vec<&str> = test.split(' ').collect();
            let bound: i64 = words[2].parse().unwrap_or_default();
            for width in [2_000_000, 0, random.from_to(1, 9) as i64, random.from_to(10, 300) as i64] {
                let (low, high) = match words[0] {
                    ">" | ">=" => (bound, (bound + width).min(1_000_000)),
                    _ => ((bound - width).max(-1_000_000), bound),
                };
                let pattern = format!("{before}(in {} {low} {high}){behind}", words[1]);
                for weighting in ["margin", "sum"] {
                    cases.add("band-example", "ok", pattern.replacen('@', weighting, 1), record);
                }
            }
        }
    }
}

const THIRTY: &str = "100000000000000000000000000001";

/// What stands where a band should, and the refusal due. `$c` is a channel, `$n` one that the pattern lacks;
/// `$l` and `$h` are a low and a high above it; `$x` is a number beyond 32 bits.
const FAULTY_BANDS: [(&str, &str); 89] = [
    // The low above the high, both in range.
    ("3", "(in $c $h $l)"), ("3", "(in $c 0 -1)"), ("3", "(in $c 1 0)"), ("3", "(in $c 1000000 -1000000)"),
    ("3", "(in $c 1000000 999999)"), ("3", "(in $c -999999 -1000000)"), ("3", "(in $n $h $l)"), ("3", "(in $x $h $l)"),
    ("3", "(in $n 0 -1)"), ("3", "(in 8 1000000 -1000000)"), ("3", "(in 4294967296 $h $l)"),
    // An end out of range, the low below the high, above it or the same.
    ("3", "(in $c -1000001 $h)"), ("3", "(in $c $l 1000001)"), ("3", "(in $c -1000001 1000001)"),
    ("3", "(in $c 1000001 $h)"), ("3", "(in $c $l -1000001)"), ("3", "(in $c 1000001 1000001)"),
    ("3", "(in $c -1000001 -1000001)"), ("3", "(in $n $l 1000001)"), ("3", "(in $n -1000001 $h)"),
    ("3", "(in $c -2147483649 $h)"), ("3", "(in $c $l 2147483648)"), ("3", "(in $c 4294967296 4294967297)"),
    ("3", "(in $c $l $x)"), ("3", "(in $c -$x $h)"), ("3", "(in $c $x $h)"), ("3", "(in $c $x $x)"),
    ("3", "(in $n -$x $x)"),
    // A channel that is not there.
    ("5", "(in $n $l $h)"), ("5", "(in $n $l $l)"), ("5", "(in $n -1000000 1000000)"), ("5", "(in 8 $l $h)"),
    ("5", "(in 256 $l $h)"), ("5", "(in 4294967296 $l $h)"), ("5", "(in 18446744073709551616 $l $h)"),
    ("5", "(in $x $l $h)"),
    // Another word, or a sign.
    ("2", "(In $c $l $h)"), ("2", "(IN $c $l $h)"), ("2", "(inn $c $l $h)"), ("2", "(i $c $l $h)"),
    ("2", "(out $c $l $h)"), ("2", "(< $c $l $h)"), ("2", "(>= $c $l $h)"), ("2", "(in <= $c $l $h)"),
    ("2", "($c $l $h)"),
    // Spaces and tabs.
    ("2", "(in$c $l $h)"), ("2", "( in $c $l $h)"), ("2", "(in  $c $l $h)"), ("2", "(in $c  $l $h)"),
    ("2", "(in $c $l  $h)"), ("2", "(in $c $l $h )"), ("2", "(in\t$c $l $h)"), ("2", "(in $c\t$l $h)"),
    ("2", "(in $c $l\t$h)"), ("2", "\t(in $c $l $h)"),
    // Too few numbers, and too many.
    ("2", "(in)"), ("2", "(in )"), ("2", "(in $c)"), ("2", "(in $c $l)"), ("2", "(in $c $l $h $h)"),
    ("2", "(in $c $c $l $h)"),
    // Numbers that are none.
    ("2", "(in $c -0 $h)"), ("2", "(in $c $l -0)"), ("2", "(in -0 $l $h)"), ("2", "(in -1 $l $h)"),
    ("2", "(in $c 00 $h)"), ("2", "(in $c $l 01)"), ("2", "(in $c -01 $h)"), ("2", "(in 0$c $l $h)"),
    ("2", "(in $c +7 $h)"), ("2", "(in $c $l +7)"), ("2", "(in $c - $h)"), ("2", "(in $c $l --7)"),
    ("2", "(in $c $l 7.0)"), ("2", "(in $c $l..$h)"),
    // Brackets.
    ("2", "in $c $l $h"), ("2", "in $c $l $h)"), ("2", "(in $c $l $h"), ("2", "(in $c $l $h))"),
    ("2", "((in $c $l $h))"), ("2", "(in $c ($l $h))"), ("2", "(in ($c) $l $h)"), ("2", "(in $c $l $h)(in $c $l $h)"),
    // Beside causes for 3 and 5.
    ("2", "(in $c 7 -0)"), ("2", "(in $c $h $l"), ("2", "(In $n $h $l)"), ("2", "(in $n $h)"),
    ("2", "(in $n 1000001 00)"), ("2", "(in -1 $h $l)"),
];

/// A bracket of the table above for a pattern with so many channels.
fn filled(random: &mut Random, bracket: &str, channels: usize) -> String {
    let low = random.below(2_001) as i64 - 1_000;
    let high = low + random.from_to(1, 1_000) as i64;
    bracket
        .replace("$c", &random.below(channels).to_string())
        .replace("$n", &(channels + random.below(2)).to_string())
        .replace("$l", &low.to_string())
        .replace("$h", &high.to_string())
        .replace("$x", random.pick(&[FORTY, THIRTY, TWENTY, TEN]))
}

/// One of the faulty bands; if asked for, one whose form is whole.
fn random_bracket(random: &mut Random, whole: bool) -> (&'static str, &'static str) {
    loop {
        let (due, bracket) = FAULTY_BANDS[random.below(FAULTY_BANDS.len())];
        if due != "2" || !whole {
            return (due, bracket);
        }
    }
}

/// As many good tests, bands among them.
fn good_tests(random: &mut Random, count: usize, channels: usize, record: &Record) -> Vec<String> {
    let pool = pool(random);
    let mut draw = || if random.percent(40) { band(random, channels, record) } else { test(random, channels, &pool) };
    (0..count).map(|_| draw()).collect()
}

/// The refusal for a line with these causes.
fn first_due(causes: [&'static str; 2]) -> &'static str {
    ["2", "4", "3", "5"].into_iter().find(|due| causes.contains(due)).unwrap_or("ok")
}

/// What a faulty band stands in: a pattern with bands, its record, a place, and that place's tests.
struct Around {
    pattern: Pattern,
    record: String,
    place: usize,
    tests: Vec<String>,
}

impl Around {
    /// From the least to the most good tests stand in the place.
    fn new(random: &mut Random, least: usize, most: usize) -> Around {
        let (pattern, record) = with_bands(random, tame);
        let place = random.below(pattern.places.len());
        let count = random.from_to(least, most);
        let tests = good_tests(random, count, pattern.channels, &record);
        // A faulty record has no say beside a faulty pattern.
        let record = if random.percent(10) { "(piece)\n".to_string() } else { text(&record_lines(&record)) };
        Around { pattern, record, place, tests }
    }

    /// One test more, at a random position.
    fn put(&mut self, random: &mut Random, bracket: &str) {
        let at = random.from_to(0, self.tests.len());
        self.tests.insert(at, filled(random, bracket, self.pattern.channels));
    }

    /// The pattern's lines; the place has line 1 + place.
    fn lines(&self) -> Vec<String> {
        let mut pattern = self.pattern.clone();
        pattern.places[self.place].1 = self.tests.clone();
        pattern.lines()
    }
}

/// Each faulty band alone on its line, among other tests, and before lines with faults, which do not count.
fn faulty_bands(random: &mut Random, cases: &mut Cases) {
    for (due, bracket) in FAULTY_BANDS {
        for (kind, least, most) in [("band-faulty", 0, 0), ("band-faulty-beside-tests", 1, 3)] {
            let mut around = Around::new(random, least, most);
            around.put(random, bracket);
            cases.add(kind, due, text(&around.lines()), &around.record);
        }
        let mut around = Around::new(random, 0, 3);
        around.put(random, bracket);
        let mut lines = around.lines();
        let (_, other) = random_bracket(random, false);
        let later = match random.below(4) {
            0 => faulty_line(random, &around.pattern, true).0,
            1 => faulty_line(random, &around.pattern, false).0,
            2 => format!("(place end {})", filled(random, other, around.pattern.channels)),
            _ => random.pick(&["", "(place)", "(in 0 5 7)", "(edge 0 0 (in 0 5 7))", "garbage"]).to_string(),
        };
        lines.insert(random.from_to(2 + around.place, lines.len()), later);
        cases.add("band-faulty-before-faults", due, text(&lines), &around.record);
    }
}

/// Two causes on one line: of two bands, or of a band and another test. Few lines are broken in form, for that
/// leaves the other cause no say.
fn bands_beside_faults(random: &mut Random, cases: &mut Cases) {
    for _ in 0..36 {
        let whole = random.percent(80);
        let (due, bracket) = random_bracket(random, whole);
        let (other_due, other) = match random.below(8) {
            0 => ("2", "(> $c -0)"),
            1 => ("3", "(< $c 1000001)"),
            2 | 3 => ("5", "(>= $n $l)"),
            4 | 5 => ("3", "(in $c $h $l)"),
            _ => random_bracket(random, true),
        };
        let mut around = Around::new(random, 0, 2);
        around.put(random, bracket);
        around.put(random, other);
        cases.add("band-faulty-beside-faults", first_due([due, other_due]), text(&around.lines()), &around.record);
    }
}

/// A faulty band that does not count, for an earlier line decides.
fn bands_behind_faults(random: &mut Random, cases: &mut Cases) {
    for _ in 0..20 {
        let (_, bracket) = random_bracket(random, false);
        let mut around = Around::new(random, 0, 3);
        around.put(random, bracket);
        let (earlier, due) = faulty_line(random, &around.pattern, true);
        let mut lines = around.lines();
        lines.insert(random.from_to(1, 1 + around.place), earlier);
        cases.add("band-faulty-behind-a-fault", due, text(&lines), &around.record);
    }
}

/// A test too many, and a place too many: a band counts once, and the count comes before its numbers.
fn bands_too_many(random: &mut Random, cases: &mut Cases) {
    for (due, bracket) in [
        ("4", "(in $c $l $h)"), ("4", "(in $c $h $l)"), ("4", "(in $n $h $l)"), ("4", "(in $n $l $h)"),
        ("4", "(in $c $l 1000001)"), ("4", "(in $c $x $x)"), ("2", "(in $c $h -0)"), ("2", "(In $n $h $l)"),
        ("2", "(in $c $l)"),
    ] {
        for turn in 0..5 {
            let mut around = Around::new(random, 4, 4);
            match turn {
                0 | 1 => around.tests.push(filled(random, bracket, around.pattern.channels)),
                2 => around.tests = [0; 5].map(|_| filled(random, bracket, around.pattern.channels)).to_vec(),
                _ => around.put(random, bracket),
            }
            cases.add("band-too-many", due, text(&around.lines()), &around.record);
        }
    }
    let record = "(piece 2 10)\n(piece 3 -4)\n";
    let many = |places: usize, last: &str| {
        let bands = " (in 0 -1000000 1000000) (in 0 -4 10) (in 0 7 7) (in 0 -9 -3)";
        format!("(pattern sum 1 0 1 2)\n{}{last}", format!("(place both{bands})\n").repeat(places))
    };
    for (due, pattern) in [
        ("ok", many(16, "")),
        ("ok", many(16, &"(edge 15 15)\n".repeat(32))),
        ("ok", many(15, "(place both (in 0 5 5))\n(edge 15 15)\n")),
        ("3", many(15, "(place both (in 0 5 4))\n(edge 15 16)\n")),
        ("4", many(16, "(place both (in 0 4 5))\n")),
        ("4", many(16, "(place both (in 1 5 4))\n")),
        ("2", many(16, "(place both (in 0 5))\n")),
        ("4", many(17, "")),
    ] {
        cases.add("band-many", due, &pattern, record);
        cases.add("band-many", due, pattern.replacen("sum", "margin", 1), record);
    }
}

/// An edge has no bands.
fn bands_in_edges(random: &mut Random, cases: &mut Cases) {
    for clock_and_ends in ["0 1 3", "0 0 1000", "0 2 2", "0 3 1", "9 1 3", "0 -1 3", "0 1 1001"] {
        for _ in 0..4 {
            let (pattern, record) = with_bands(random, tame);
            let mut lines = pattern.lines();
            // Before a guard or the reset, or behind the last of them.
            let at = random.from_to(1 + pattern.places.len(), lines.len() - 1);
            let mut gaps: Vec<usize> = lines[at].match_indices(" (").map(|gap| gap.0).collect();
            gaps.push(lines[at].len() - 1);
            lines[at].insert_str(gaps[random.below(gaps.len())], &format!(" (in {clock_and_ends})"));
            cases.add("band-in-edge", "2", text(&lines), text(&record_lines(&record)));
        }
    }
}

/// Bands where a kind, a number or a whole line is due.
fn bands_misplaced(random: &mut Random, cases: &mut Cases) {
    for line in ["(place @)", "(place @ plain)", "(place @ @)", "(place in)", "(place end (@))", "(@ place end)", "@"] {
        for _ in 0..2 {
            let around = Around::new(random, 0, 0);
            let band = filled(random, "(in $c $l $h)", around.pattern.channels);
            let mut lines = around.lines();
            lines[1 + around.place] = line.replace('@', &band);
            cases.add("band-misplaced", "2", text(&lines), &around.record);
        }
    }
    let (example, record) = EXAMPLES[0];
    let pattern = example.replacen('@', "margin", 1).replacen("(< 0 15)", "(in 0 5 15)", 1);
    for (from, to) in [
        ("(< 0 3)", "(in 0 1 2)"), ("(reset 0)", "(in 0 1 2)"), ("(reset 0)", "(reset (in 0 0 0))"),
        ("(reset 0)", "(reset in 0 0)"), ("(edge 0 1", "(edge (in 0 0 1)"), ("(edge 0 1", "(edge in 0 1"),
        ("(edge 1 2 (<= 0 2))", "(in 0 1 2)"), ("start (in 0 5 15)", "in 0 5 15"),
        ("(place end)", "(place end)\n(in 0 5 15)"), ("(place end)", "(place end) (in 0 5 15)"),
        ("1 4)", "1 4 (in 0 5 15))"), ("1 1 1 4)", "(in 0 5 15))"), ("margin", "(in 0 5 15)"),
    ] {
        let changed = pattern.replacen(from, to, 1);
        assert_ne!(pattern, changed);
        cases.add("band-misplaced", "2", changed, record);
    }
    for record in ["(piece 2 (in 0 5 15))\n", "(piece in 2 10)\n", "(piece 2 10)\n(in 0 5 15)\n"] {
        cases.add("band-misplaced", "2", &pattern, record);
    }
}

/// Bands as long as a text may be, and longer.
fn long_bands(cases: &mut Cases) {
    let record = "(piece 2 10)\n";
    for (due, tests) in [
        ("3", " (in 0 -@ 7)"), ("3", " (in 0 7 @)"), ("3", " (in 0 @ 7)"), ("3", " (in @ 7 5)"), ("5", " (in @ 5 7)"),
        ("2", " (in 0 5 7 @)"), ("2", " (in 0 5 7@"),
    ] {
        let pattern = format!("(pattern margin 1 0 1 4)\n(place both{tests})\n(edge 0 0)\n");
        cases.add("band-long-pattern", due, padded(&pattern, 8_192), record);
        cases.add("band-long-pattern", "1", padded(&pattern, 8_193), record);
    }
    let tests = format!("(pattern margin 1 0 1 4)\n(place both{})\n", " (in 0 7 5)".repeat(700));
    cases.add("band-long-pattern", "4", tests, record);
}

/// One change of a byte of a band.
fn change_band(random: &mut Random, text: &mut Vec<u8>) {
    let alphabet = b"0123456789012345678901234567890123456789---  ()in<=\n\t";
    let bands: Vec<usize> = (0..text.len()).filter(|at| text[*at..].starts_with(b"(in ")).collect();
    let from = bands[random.below(bands.len())];
    let size = text[from..].iter().position(|byte| *byte == b')').unwrap_or_default();
    let at = from + random.from_to(0, size);
    match random.below(4) {
        0 => drop(text.remove(at)),
        1 => text.insert(at, alphabet[random.below(alphabet.len())]),
        _ => text[at] = alphabet[random.below(alphabet.len())],
    }
}

fn changed_bands(random: &mut Random, cases: &mut Cases) {
    for turn in 0..120 {
        let (pattern, record) = with_bands(random, tame);
        let mut changed = pattern.text().into_bytes();
        if turn % 2 == 0 {
            change_band(random, &mut changed);
        } else {
            for _ in 0..few(random, [0, 60, 25, 15, 0]) {
                change(random, &[ALPHABET, b"iinn"].concat(), &mut changed);
            }
        }
        cases.add("band-changed", "-", changed, text(&record_lines(&record)));
    }
}

/// The cases of request R-1. They come after those of document 01 alone.
fn band_cases(random: &mut Random, cases: &mut Cases) {
    random_bands(random, cases);
    bands_in_refused_cases(random, cases);
    band_values(cases);
    example_bands(random, cases);
    faulty_bands(random, cases);
    bands_beside_faults(random, cases);
    bands_behind_faults(random, cases);
    bands_too_many(random, cases);
    bands_in_edges(random, cases);
    bands_misplaced(random, cases);
    long_bands(cases);
    changed_bands(random, cases);
}

// ------------------------------------------------------------------------------------------ twitches

/// A record with these values at its ticks, cut where they change and nowhere else.
fn cut_at_changes(ticks: &[Vec<i64>]) -> Record {
    let mut record: Record = Vec::new();
    for values in ticks {
        match record.last_mut() {
            Some(last) if last.1 == *values => last.0 += 1,
            _ => record.push((1, values.clone())),
        }
    }
    record
}

/// The values at each tick of a record.
fn each_tick(record: &Record) -> Vec<Vec<i64>> {
    record.iter().flat_map(|(duration, values)| vec![values.clone(); *duration as usize]).collect()
}

/// The values of a channel with a pace of its own: it changes at each tick, at each few, or not at all. Mostly
/// it goes there and back between two values.
fn set_pace(random: &mut Random, ticks: &mut [Vec<i64>], channel: usize, quick: bool) {
    let paces = if quick { [1, 1, 2, 3] } else { [2, 4, 5, ticks.len()] };
    let pace = paces[random.below(4)];
    let offset = if pace < ticks.len() { random.below(pace) } else { 0 };
    let from = if random.percent(30) { 0 } else { random.below(13) as i64 - 6 };
    let way = random.from_to(1, 5) as i64;
    let values = match random.below(12) {
        0 => vec![-1_000_000, 1_000_000],
        1 => vec![from, from + 65_536],
        2 | 3 => vec![from, from + way, from - 1],
        _ => vec![from, from + way],
    };
    for (tick, sample) in ticks.iter_mut().enumerate() {
        sample[channel] = values[(tick + offset) / pace % values.len()];
    }
}

/// A record of so many ticks, each channel with its pace and one of them quick, and sometimes a tick that
/// stands out.
fn twitching(random: &mut Random, channels: usize, quick: usize, count: usize) -> Record {
    let mut ticks = vec![vec![0; channels]; count];
    for channel in 0..channels {
        set_pace(random, &mut ticks, channel, channel == quick);
    }
    if random.percent(30) {
        let value = &mut ticks[random.below(count)][random.below(channels)];
        *value = (*value + random.from_to(1, 3) as i64).min(1_000_000);
    }
    cut_at_changes(&ticks)
}

/// A test of this channel whose distances are near 0. A band may have the same distance at both of two values,
/// which are two observations nevertheless.
fn test_of(random: &mut Random, channel: usize, bands: bool, record: &Record) -> String {
    let [one, other] = [0; 2].map(|_| record[random.below(record.len())].1[channel]);
    let bound = |bound: i64| bound.clamp(-1_000_000, 1_000_000);
    match random.below(10) {
        0 | 1 | 2 if bands => band_of(random, channel, record),
        3 | 4 | 5 if bands => {
            let more = random.below(5) as i64;
            format!("(in {channel} {} {})", bound(one.min(other) - more), bound(one.max(other) + more))
        }
        _ => format!("({} {channel} {})", random.pick(&SIGNS), bound(one + random.below(9) as i64 - 4)),
    }
}

/// So many different channels, in any order.
fn some_channels(random: &mut Random, count: usize, channels: usize) -> Vec<usize> {
    let mut left: Vec<usize> = (0..channels).collect();
    (0..count.min(channels)).map(|_| left.remove(random.below(left.len()))).collect()
}

/// Patterns whose places leave channels out, and how many of them to make. Two numbers are the least and the
/// most.
struct Twitch {
    kind: &'static str,
    count: usize,
    channels: [usize; 2],
    places: [usize; 2],
    tested: [[usize; 2]; 4], // how many channels a place tests
    in_turn: bool,           // each place tests a channel of its own
    twice: bool,             // one of them is tested twice
    bands: bool,
    loops: bool,             // several stays in the same place
}

const ONE_CHANNEL: Twitch = Twitch {
    kind: "twitch-one-channel",
    count: 20,
    channels: [2, 4],
    places: [2, 4],
    tested: [[1, 1]; 4],
    in_turn: false,
    twice: false,
    bands: false,
    loops: false,
};
const ONE_OR_TWO: [[usize; 2]; 4] = [[1, 2]; 4];
const NONE_BETWEEN: [[usize; 2]; 4] = [[1, 1], [0, 0], [1, 1], [0, 0]];
const TWITCHES: [Twitch; 9] = [
    ONE_CHANNEL,
    Twitch { kind: "twitch-two-channels", count: 22, channels: [3, 4], tested: [[2, 2]; 4], ..ONE_CHANNEL },
    Twitch { kind: "twitch-other-channels", count: 24, places: [3, 4], in_turn: true, ..ONE_CHANNEL },
    Twitch { kind: "twitch-free-place", count: 18, places: [4, 4], tested: NONE_BETWEEN, ..ONE_CHANNEL },
    Twitch { kind: "twitch-tested-twice", count: 16, tested: ONE_OR_TWO, twice: true, ..ONE_CHANNEL },
    Twitch { kind: "twitch-band", count: 26, tested: ONE_OR_TWO, bands: true, ..ONE_CHANNEL },
    Twitch { kind: "twitch-loop", count: 30, channels: [2, 3], tested: ONE_OR_TWO, loops: true, ..ONE_CHANNEL },
    Twitch { kind: "twitch-loop-band", count: 10, tested: ONE_OR_TWO, bands: true, loops: true, ..ONE_CHANNEL },
    Twitch { kind: "twitch-wide", count: 16, channels: [5, 8], tested: [[1, 4]; 4], bands: true, ..ONE_CHANNEL },
];

impl Twitch {
    /// The channels of a place's tests, mostly without the quick one.
    fn tested(&self, random: &mut Random, place: usize, channels: usize, quick: usize) -> Vec<usize> {
        let [least, most] = self.tested[place];
        let count = random.from_to(least, most);
        let mut tested = some_channels(random, count, channels);
        if tested.contains(&quick) && random.percent(60) {
            tested = some_channels(random, count, channels);
        }
        if self.in_turn {
            tested[0] = place % channels;
        }
        if self.twice {
            tested.push(tested[0]);
        }
        tested
    }

    /// A way from the first place to the last, and few other edges. Most windows are too long for stays of one
    /// tick each, so that some stay lasts over a twitch.
    fn draw(&self, random: &mut Random) -> (Pattern, Record) {
        let from_to = |random: &mut Random, [least, most]: [usize; 2]| random.from_to(least, most);
        loop {
            let channels = from_to(random, self.channels);
            let (quick, length) = (random.below(channels), random.from_to(6, 10));
            let record = twitching(random, channels, quick, length);
            let clocks = if self.loops { random.from_to(1, 2) } else { few(random, [50, 40, 10, 0, 0]) };
            let count = from_to(random, self.places);
            let mut places: Vec<(&'static str, Vec<String>)> = Vec::new();
            for place in 0..count {
                let kind = if place == 0 { "start" } else if place == count - 1 { "end" } else { "plain" };
                let tested = self.tested(random, place, channels, quick);
                let tests = tested.iter().map(|channel| test_of(random, *channel, self.bands, &record));
                places.push((kind, tests.collect()));
            }
            let mut edges: Vec<Edge> = Vec::new();
            for from in 0..count - 1 {
                let mut guards = Vec::new();
                if clocks > 0 && random.percent(40) {
                    let (sign, bound) = [(">=", 2), (">", 2), ("<=", 3), ("<", 6)][random.below(4)];
                    guards.push((sign, random.below(clocks), bound));
                }
                let resets = (0..clocks).filter(|_| random.percent(50)).collect();
                edges.push(Edge { from, to: from + 1, guards, resets });
            }
            if self.loops {
                // Stays before the edge back last some ticks.
                let from = random.below(count - 1);
                let to = random.from_to(0, from);
                let guards = vec![(">=", 0, random.from_to(1, 3))];
                edges.push(Edge { from, to, guards, resets: vec![0] });
            } else if random.percent(30) {
                edges.push(edge(random, count, clocks, 3));
            }
            let low = if random.percent(15) { 1 } else { random.from_to(count, count + 2) };
            let high = low + random.from_to(0, 3);
            let pattern = Pattern { weighting: "sum", channels, clocks, low, high, places, edges };
            if pattern.cells() <= 2_048 && pattern.cost(ticks(&record)) <= COST / 6.0 {
                return (pattern, record);
            }
        }
    }
}

/// Both weightings, and sometimes the sum once more with the record cut elsewhere, which alters nothing.
fn add_twitches(random: &mut Random, cases: &mut Cases, kind: &str, mut pattern: Pattern, record: &Record) {
    add_both(cases, kind, pattern.clone(), record);
    let cut = cut_anew(random, record);
    if cut != *record && random.percent(60) {
        pattern.weighting = "sum";
        cases.add("twitch-cut-anew", "ok", pattern.text(), text(&record_lines(&cut)));
    }
}

fn random_twitches(random: &mut Random, cases: &mut Cases) {
    for shape in &TWITCHES {
        for _ in 0..shape.count {
            let (pattern, record) = shape.draw(random);
            add_twitches(random, cases, shape.kind, pattern, &record);
        }
    }
}

/// A pattern of any shape with one channel more, which no place tests: the answer is the one without it. Its
/// windows leave out the shortest runs, which see few twitches.
fn added_channels(random: &mut Random, cases: &mut Cases) {
    let makers: [Maker; 3] = [|random| small(random, false), timed, |random| with_bands(random, tame)];
    for turn in 0..36 {
        let (mut pattern, record) = loop {
            let (pattern, record) = makers[turn % 3](random);
            if pattern.high > 2 && ticks(&record) > 5 && pattern.cost(ticks(&record)) <= COST / 6.0 {
                break (pattern, record);
            }
        };
        pattern.low = pattern.low.max(3);
        let mut ticks = each_tick(&record);
        ticks.iter_mut().for_each(|values| values.push(0));
        set_pace(random, &mut ticks, pattern.channels, true);
        pattern.channels += 1;
        add_twitches(random, cases, "twitch-added-channel", pattern, &cut_at_changes(&ticks));
    }
}

/// One place that tests one channel while one channel twitches, the same or another.
fn each_channel(cases: &mut Cases) {
    let mut pairs: Vec<[usize; 3]> = Vec::new();
    for channels in 2..=4 {
        pairs.extend((0..channels * channels).map(|pair| [channels, pair / channels, pair % channels]));
    }
    pairs.extend((0..16).map(|pair| [8, pair / 2, (pair / 2 + pair % 2) % 8])); // the same and the next
    for [channels, tested, twitching] in pairs {
        let mut ticks = vec![vec![4; channels]; 6];
        for (tick, value) in [3, 7, 7, 3, 7, 3].into_iter().enumerate() {
            ticks[tick][twitching] = value;
        }
        let record = text(&record_lines(&cut_at_changes(&ticks)));
        let places = format!("(place start (< {tested} 6))\n(place end)\n");
        let pattern = format!("(pattern sum {channels} 0 3 4)\n{places}(edge 0 1)\n");
        cases.add("twitch-each-channel", "ok", &pattern, &record);
        if channels == 8 {
            cases.add("twitch-each-channel", "ok", pattern.replacen("sum", "margin", 1), &record);
        }
    }
}

/// Small patterns over two channels. `@` is the weighting.
const TWO_CHANNELS: [&str; 8] = [
    // One place, which tests one channel.
    "(pattern @ 2 0 2 4)\n(place start (< 0 7))\n(place end)\n(edge 0 1)\n",
    // Two places, which test one each.
    "(pattern @ 2 0 3 5)\n(place start (< 0 7))\n(place plain (> 1 3))\n(place end)\n(edge 0 1)\n(edge 1 2)\n",
    // A place without tests between them.
    "(pattern @ 2 0 4 6)\n(place start (> 1 0))\n(place plain)\n(place plain (>= 0 6))\n(place end)\n\
     (edge 0 1)\n(edge 1 2)\n(edge 2 3)\n",
    // One stay after the other in the same place, of 2 ticks at least.
    "(pattern @ 2 1 3 6)\n(place start (<= 0 4))\n(place end)\n(edge 0 0 (>= 0 2) (reset 0))\n(edge 0 1 (>= 0 2))\n",
    // To another place and back.
    "(pattern @ 2 1 4 6)\n(place start (< 0 7))\n(place plain (< 1 3))\n(place end)\n(edge 0 1 (>= 0 2))\n\
     (edge 1 0 (reset 0))\n(edge 0 2 (>= 0 2))\n",
    // One place, which tests both.
    "(pattern @ 2 0 2 5)\n(place start (<= 1 4) (> 0 2))\n(place end)\n(edge 0 1)\n",
    // Both sides of one channel: in sum they always add up to the same.
    "(pattern @ 2 0 2 5)\n(place start (> 1 0) (< 1 5))\n(place end)\n(edge 0 1)\n",
    // A band, with the same distance at 5 and 8.
    "(pattern @ 2 0 2 5)\n(place both (in 0 4 9))\n(edge 0 0)\n",
];

/// Values of the two channels, a digit for each tick.
const THERE_AND_BACK: [[&str; 2]; 5] = [
    ["555555", "121212"],
    ["558555", "111111"],
    ["585588", "121122"],
    ["558855", "122112"],
    ["555888", "121222"],
];

fn digits([one, other]: [&str; 2]) -> Vec<Vec<i64>> {
    let digit = |byte: u8| i64::from(byte - b'0');
    one.bytes().zip(other.bytes()).map(|(one, other)| vec![digit(one), digit(other)]).collect()
}

/// A value and another and the first again: in a channel that is tested and in one that is not.
fn there_and_back(cases: &mut Cases) {
    for pattern in TWO_CHANNELS {
        for values in THERE_AND_BACK {
            let record = text(&record_lines(&cut_at_changes(&digits(values))));
            for weighting in ["margin", "sum"] {
                cases.add("twitch-there-and-back", "ok", pattern.replacen('@', weighting, 1), &record);
            }
        }
    }
}

/// One record, cut in every way where nothing changes: the answer is the same each time.
fn twitches_at_cuts(cases: &mut Cases) {
    let ticks = digits(["5555888", "1122211"]);
    let mut free: Vec<usize> = (1..ticks.len()).collect();
    free.retain(|at| ticks[at - 1] == ticks[*at]);
    for pattern in [0, 1, 3, 4].map(|at: usize| TWO_CHANNELS[at]) {
        for chosen in 0..1 << free.len() {
            let mut record: Record = Vec::new();
            for (at, values) in ticks.iter().enumerate() {
                let cut = free.iter().position(|other| *other == at).is_none_or(|bit| chosen >> bit & 1 == 1);
                match record.last_mut() {
                    Some(last) if !cut => last.0 += 1,
                    _ => record.push((1, values.clone())),
                }
            }
            cases.add("twitch-at-cuts", "ok", pattern.replacen('@', "sum", 1), text(&record_lines(&record)));
        }
    }
}

/// The worked examples with more than one channel, one of which twitches at each second or third tick.
fn example_twitches(cases: &mut Cases) {
    for (example, lines) in &EXAMPLES[1..] {
        let numbers = |line: &str| line.trim_matches(['(', ')']).split(' ').flat_map(str::parse).collect::<Vec<i64>>();
        let record: Record = lines.lines().map(numbers).map(|piece| (piece[0] as u64, piece[1..].to_vec())).collect();
        for channel in 0..record[0].1.len() {
            for pace in [2, 3] {
                let mut ticks = each_tick(&record);
                ticks.iter_mut().skip(1).step_by(pace).for_each(|values| values[channel] += 1);
                let record = text(&record_lines(&cut_at_changes(&ticks)));
                for weighting in ["margin", "sum"] {
                    cases.add("twitch-example", "ok", example.replacen('@', weighting, 1), &record);
                }
            }
        }
    }
}

/// The cases of request R-3. They come last, so the cases before them are what they were.
fn twitch_cases(random: &mut Random, cases: &mut Cases) {
    each_channel(cases);
    there_and_back(cases);
    twitches_at_cuts(cases);
    example_twitches(cases);
    random_twitches(random, cases);
    added_channels(random, cases);
}

fn stop(message: &str) -> ! {
    eprintln!("{message}");
    exit(2)
}

/// Writes each case of the file into a folder of its own. In cases with an even number an empty text
/// gets no file at all: "A file that can't be opened counts as empty".
fn write_folders(cases: &str, out: &str) -> std::io::Result<()> {
    let bytes = std::fs::read(cases)?;
    let mut rest = &bytes[..];
    while !rest.is_empty() {
        let length = rest.iter().position(|byte| *byte == b'\n').unwrap_or_else(|| stop("header cut short"));
        let header = String::from_utf8_lossy(&rest[..length]).to_string();
        let fields: Vec<&str> = header.split(' ').collect();
        let size = |at: usize| -> usize {
            fields.get(at).and_then(|field| field.parse().ok()).unwrap_or_else(|| stop("header without its sizes"))
        };
        let (number, pattern, record) = (size(1), size(2), size(3));
        let texts = &rest[length + 1..];
        let folder = format!("{out}/{number}");
        std::fs::create_dir_all(&folder)?;
        for (name, text) in [("pattern.txt", &texts[..pattern]), ("record.txt", &texts[pattern..pattern + record])] {
            if !text.is_empty() || number % 2 == 1 {
                std::fs::write(format!("{folder}/{name}"), text)?;
            }
        }
        rest = &texts[pattern + record + 1..];
    }
    Ok(())
}

fn main() {
    let arguments: Vec<String> = std::env::args().skip(1).collect();
    let arguments: Vec<&str> = arguments.iter().map(String::as_str).collect();
    let seed = match arguments[..] {
        ["--dirs", cases, out] => {
            return write_folders(cases, out).unwrap_or_else(|error| stop(&error.to_string()));
        }
        [_] => 1,
        [_, seed] => seed.parse().unwrap_or_else(|_| stop("the seed is no number")),
        _ => stop("usage: generate CASES [SEED] | generate --dirs CASES OUT"),
    };
    let mut random = Random(seed);
    let mut cases = Cases { bytes: Vec::new(), count: 0, kinds: BTreeMap::new() };
    known_cases(&mut random, &mut cases);
    random_cases(&mut random, &mut cases);
    faulty_cases(&mut random, &mut cases);
    band_cases(&mut random, &mut cases);
    twitch_cases(&mut random, &mut cases);
    for (kind, count) in &cases.kinds {
        println!("{count:6}  {kind}");
    }
    println!("{:6}  cases", cases.count);
    std::fs::write(arguments[0], cases.bytes).unwrap_or_else(|error| stop(&error.to_string()));
    if cases.count < 3_000 {
        stop("fewer than 3000 cases");
    }
}
