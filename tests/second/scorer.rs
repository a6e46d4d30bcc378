// A second scorer for the program `watch` of document 01 (bench margin monitor).
//
// It was written from document 01, and from document 02 for bands and for
// what a sum counts once, by hands that had not seen the product's code.
// It has no monitor, no tables and no ceilings: for every end it lists every run
// with real clocks, prices each one by the pricing rule, and keeps the best, of
// equals the shortest. It is meant to be plainly right, and is fast enough only
// for small windows and patterns.
//
// Use: scorer [folder]. The folder holds pattern.txt and record.txt.
//      scorer --many folders out. Each folder in `folders` so; its answer goes
//      to the file of its name in `out`.

use std::ffi::OsString;
use std::fs::File;
use std::io::{self, BufWriter, Read, Write};
use std::path::{Path, PathBuf};

// ---------------------------------------------------------------------------
// The sizes and ranges of document 01
// ---------------------------------------------------------------------------

const PATTERN_BYTES: usize = 8_192;
const RECORD_BYTES: usize = 16_384;
const MOST_CHANNELS: i64 = 8;
const MOST_CLOCKS: usize = 4;
const MOST_WINDOW: i64 = 4_095;
const MOST_PLACES: usize = 16;
const MOST_TESTS: usize = 4;
const MOST_EDGES: usize = 32;
const MOST_GUARDS: usize = 4;
const MOST_GUARD_BOUND: i64 = 1_000;
/// Test bounds, a band's low and high, and record values lie between minus this
/// and this.
const MOST_VALUE: i64 = 1_000_000;
const MOST_PIECES: usize = 4_096;
const MOST_TICKS: i64 = 2_147_483_647;
/// The worth of a stay without tests in margin: the source's infinity.
const NO_TESTS: i64 = 2_000_001;
/// The cells of each of the two tables of `watch`.
const TABLE_CELLS: i128 = 2_048;

// ---------------------------------------------------------------------------
// Refusals: a refusal gives its number alone
// ---------------------------------------------------------------------------

#[derive(Clone, Copy)]
struct Refusal(u8);

/// 1: the text has too many bytes.
const TOO_LONG: Refusal = Refusal(1);
/// 2: the form is broken.
const BROKEN_FORM: Refusal = Refusal(2);
/// 3: a number outside its range.
const OUT_OF_RANGE: Refusal = Refusal(3);
/// 4: a place, edge, test or guard too many.
const TOO_MANY: Refusal = Refusal(4);
/// 5: an index that the pattern lacks, or a reset not above the one before it.
const NO_SUCH_INDEX: Refusal = Refusal(5);
/// 8: the record breaks its rules.
const BAD_RECORD: Refusal = Refusal(8);
/// 11: a table shorter than the cells needed.
const SHORT_TABLE: Refusal = Refusal(11);

// ---------------------------------------------------------------------------
// Pattern
// ---------------------------------------------------------------------------

#[derive(Clone, Copy)]
enum Weighting {
    Margin,
    Sum,
}

#[derive(Clone, Copy)]
enum Sign {
    Less,
    LessOrEqual,
    Greater,
    GreaterOrEqual,
}

/// What a test measures a value against: a sign's bound, or a band's low and
/// high.
enum Measure {
    Bound(Sign, i64),
    Band(i64, i64),
}

/// A test of a place: a channel, and what its value is measured against.
struct Test {
    channel: usize,
    measure: Measure,
}

struct Place {
    start: bool,
    end: bool,
    tests: Vec<Test>,
}

/// A guard of an edge: a sign, a clock and a bound.
struct Guard {
    sign: Sign,
    clock: usize,
    bound: i64,
}

struct Edge {
    from: usize,
    to: usize,
    guards: Vec<Guard>,
    resets: Vec<usize>,
}

struct Pattern {
    weighting: Weighting,
    channels: usize,
    clocks: usize,
    low: i64,
    high: i64,
    places: Vec<Place>,
    edges: Vec<Edge>,
}

// ---------------------------------------------------------------------------
// The form of a line
// ---------------------------------------------------------------------------

/// What is left to read of one line (its line feed is already taken away).
struct Line<'a> {
    rest: &'a [u8],
}

impl Line<'_> {
    /// Words, brackets and single spaces are matched byte for byte.
    /// Takes `word` if the line goes on with it, and says whether it did.
    fn takes(&mut self, word: &[u8]) -> bool {
        match self.rest.strip_prefix(word) {
            Some(rest) => {
                self.rest = rest;
                true
            }
            None => false,
        }
    }

    /// As `takes`, where anything else breaks the form.
    fn expects(&mut self, word: &[u8]) -> Result<(), Refusal> {
        if self.takes(word) { Ok(()) } else { Err(BROKEN_FORM) }
    }

    /// Nothing may stand after the form's last bracket.
    fn expects_end(&self) -> Result<(), Refusal> {
        if self.rest.is_empty() { Ok(()) } else { Err(BROKEN_FORM) }
    }

    /// A number is `0` or digits without a leading zero, of any length.
    /// One that passes i64 is held at i64's greatest value, which is outside
    /// every range of document 01 and no index of any pattern.
    fn number(&mut self) -> Result<i64, Refusal> {
        let digits = self.rest.iter().take_while(|byte| byte.is_ascii_digit()).count();
        let (number, rest) = self.rest.split_at(digits);
        if number.is_empty() || (number.len() > 1 && number.starts_with(b"0")) {
            return Err(BROKEN_FORM);
        }
        self.rest = rest;
        let mut value: i64 = 0;
        for digit in number {
            value = value.saturating_mul(10).saturating_add(i64::from(digit - b'0'));
        }
        Ok(value)
    }

    /// A test's bound, a band's low or high, or a record's value: a number, where
    /// a minus may stand before a non-zero one.
    fn number_or_minus(&mut self) -> Result<i64, Refusal> {
        let minus = self.takes(b"-");
        let value = self.number()?;
        match (minus, value) {
            (true, 0) => Err(BROKEN_FORM),
            (true, value) => Ok(-value),
            (false, value) => Ok(value),
        }
    }

    /// One of the four signs `<`, `<=`, `>`, `>=`.
    fn sign(&mut self) -> Result<Sign, Refusal> {
        if self.takes(b"<=") {
            Ok(Sign::LessOrEqual)
        } else if self.takes(b"<") {
            Ok(Sign::Less)
        } else if self.takes(b">=") {
            Ok(Sign::GreaterOrEqual)
        } else if self.takes(b">") {
            Ok(Sign::Greater)
        } else {
            Err(BROKEN_FORM)
        }
    }
}

/// Each line is ended by a line feed. Takes the next line off the text; an
/// empty text and a missing line feed break the form.
fn take_line<'a>(text: &mut &'a [u8]) -> Result<Line<'a>, Refusal> {
    let all: &'a [u8] = text;
    match all.iter().position(|byte| *byte == b'\n') {
        Some(at) => {
            *text = &all[at + 1..];
            Ok(Line { rest: &all[..at] })
        }
        None => Err(BROKEN_FORM),
    }
}

/// Does the number lie in the range, both ends included?
fn in_range(number: i64, least: i64, most: i64) -> bool {
    least <= number && number <= most
}

/// Places, channels, clocks and edges count from 0. Gives the index if the
/// pattern has it, that is if it is below the count, else refusal 5.
fn index(number: i64, count: usize) -> Result<usize, Refusal> {
    match usize::try_from(number) {
        Ok(index) if index < count => Ok(index),
        _ => Err(NO_SUCH_INDEX),
    }
}

// ---------------------------------------------------------------------------
// Reading a pattern
// ---------------------------------------------------------------------------

/// Read a pattern. 1: over 8,192 bytes. Then the first faulty line decides, and
/// on it 2 comes before 4, 4 before 3, 3 before 5. Line 1 is the pattern line,
/// then come 1 or more places, then edges; a line of the wrong kind and no
/// place at all break the form.
fn read_pattern(text: &[u8]) -> Result<Pattern, Refusal> {
    if text.len() > PATTERN_BYTES {
        return Err(TOO_LONG);
    }
    let mut text = text;
    let mut pattern = read_pattern_line(take_line(&mut text)?)?;
    while !text.is_empty() {
        let mut line = take_line(&mut text)?;
        if line.takes(b"(place ") {
            if !pattern.edges.is_empty() {
                return Err(BROKEN_FORM); // a place after an edge
            }
            let place = read_place_line(line, &pattern)?;
            pattern.places.push(place);
        } else if line.takes(b"(edge ") {
            if pattern.places.is_empty() {
                return Err(BROKEN_FORM); // an edge where the first place is due
            }
            let edge = read_edge_line(line, &pattern)?;
            pattern.edges.push(edge);
        } else {
            return Err(BROKEN_FORM); // a line of no kind that may stand here
        }
    }
    if pattern.places.is_empty() {
        return Err(BROKEN_FORM); // no place at all
    }
    Ok(pattern)
}

/// Line 1: `margin` or `sum`; channels 1 to 8; clocks 0 to 4; the window's low,
/// 1 to 4,095; its high, low to 4,095.
fn read_pattern_line(mut line: Line) -> Result<Pattern, Refusal> {
    // 2
    line.expects(b"(pattern ")?;
    let weighting = if line.takes(b"margin ") {
        Weighting::Margin
    } else if line.takes(b"sum ") {
        Weighting::Sum
    } else {
        return Err(BROKEN_FORM);
    };
    let channels = line.number()?;
    line.expects(b" ")?;
    let clocks = line.number()?;
    line.expects(b" ")?;
    let low = line.number()?;
    line.expects(b" ")?;
    let high = line.number()?;
    line.expects(b")")?;
    line.expects_end()?;
    // 3
    let clocks = usize::try_from(clocks).map_err(|_| OUT_OF_RANGE)?;
    if !in_range(channels, 1, MOST_CHANNELS)
        || clocks > MOST_CLOCKS
        || !in_range(low, 1, MOST_WINDOW)
        || !in_range(high, low, MOST_WINDOW)
    {
        return Err(OUT_OF_RANGE);
    }
    let channels = usize::try_from(channels).map_err(|_| OUT_OF_RANGE)?;
    Ok(Pattern { weighting, channels, clocks, low, high, places: Vec::new(), edges: Vec::new() })
}

/// A place: `start`, `plain`, `end` or `both` (start and end), with 0 to 4
/// tests. A test is a sign, a channel, and a bound from -1,000,000 to
/// 1,000,000, or `in`, a channel, and two such numbers, low not above high. At
/// most 16 places. `(place ` is already taken off the line.
fn read_place_line(mut line: Line, pattern: &Pattern) -> Result<Place, Refusal> {
    // 2
    let (start, end) = if line.takes(b"start") {
        (true, false)
    } else if line.takes(b"plain") {
        (false, false)
    } else if line.takes(b"end") {
        (false, true)
    } else if line.takes(b"both") {
        (true, true)
    } else {
        return Err(BROKEN_FORM);
    };
    let mut read: Vec<(i64, Measure)> = Vec::new();
    while line.takes(b" (") {
        if line.takes(b"in ") {
            let channel = line.number()?;
            line.expects(b" ")?;
            let low = line.number_or_minus()?;
            line.expects(b" ")?;
            let high = line.number_or_minus()?;
            read.push((channel, Measure::Band(low, high)));
        } else {
            let sign = line.sign()?;
            line.expects(b" ")?;
            let channel = line.number()?;
            line.expects(b" ")?;
            let bound = line.number_or_minus()?;
            read.push((channel, Measure::Bound(sign, bound)));
        }
        line.expects(b")")?;
    }
    line.expects(b")")?;
    line.expects_end()?;
    // 4
    if pattern.places.len() >= MOST_PLACES || read.len() > MOST_TESTS {
        return Err(TOO_MANY);
    }
    // 3: for a low above its high, too
    let ranges_kept = |measure: &Measure| match *measure {
        Measure::Bound(_, bound) => in_range(bound, -MOST_VALUE, MOST_VALUE),
        Measure::Band(low, high) => {
            in_range(low, -MOST_VALUE, MOST_VALUE) && in_range(high, low, MOST_VALUE)
        }
    };
    if !read.iter().all(|(_, measure)| ranges_kept(measure)) {
        return Err(OUT_OF_RANGE);
    }
    // 5
    let mut tests = Vec::new();
    for (channel, measure) in read {
        tests.push(Test { channel: index(channel, pattern.channels)?, measure });
    }
    Ok(Place { start, end, tests })
}

/// An edge: from, to, 0 to 4 guards (a sign, a clock, a bound 0 to 1,000), then
/// resets, at least one clock, rising, or no bracket at all. At most 32 edges.
/// `(edge ` is already taken off the line.
fn read_edge_line(mut line: Line, pattern: &Pattern) -> Result<Edge, Refusal> {
    // 2
    let from = line.number()?;
    line.expects(b" ")?;
    let to = line.number()?;
    let mut read: Vec<(Sign, i64, i64)> = Vec::new();
    let mut reset: Vec<i64> = Vec::new();
    while line.takes(b" (") {
        if line.takes(b"reset") {
            line.expects(b" ")?;
            reset.push(line.number()?);
            while line.takes(b" ") {
                reset.push(line.number()?);
            }
            line.expects(b")")?;
            break; // the resets come last
        }
        let sign = line.sign()?;
        line.expects(b" ")?;
        let clock = line.number()?;
        line.expects(b" ")?;
        let bound = line.number()?;
        line.expects(b")")?;
        read.push((sign, clock, bound));
    }
    line.expects(b")")?;
    line.expects_end()?;
    // 4
    if pattern.edges.len() >= MOST_EDGES || read.len() > MOST_GUARDS {
        return Err(TOO_MANY);
    }
    // 3
    if read.iter().any(|(_, _, bound)| !in_range(*bound, 0, MOST_GUARD_BOUND)) {
        return Err(OUT_OF_RANGE);
    }
    // 5
    let from = index(from, pattern.places.len())?;
    let to = index(to, pattern.places.len())?;
    let mut guards = Vec::new();
    for (sign, clock, bound) in read {
        guards.push(Guard { sign, clock: index(clock, pattern.clocks)?, bound });
    }
    let mut resets: Vec<usize> = Vec::new();
    for clock in reset {
        let clock = index(clock, pattern.clocks)?;
        if resets.last().is_some_and(|before| clock <= *before) {
            return Err(NO_SUCH_INDEX); // a reset not above the one before it
        }
        resets.push(clock);
    }
    Ok(Edge { from, to, guards, resets })
}

// ---------------------------------------------------------------------------
// Record
// ---------------------------------------------------------------------------

/// A piece as the record has it: its values hold from time `from` to time
/// `until`. Equal neighbours stay apart here: no least distance changes by that
/// (document 01), and sums join within each stay.
struct Piece {
    from: i64,
    until: i64,
    values: Vec<i64>,
}

/// The record's text: lines as `(piece 2 10)`, duration then one or more
/// values, a minus in values only and as in a bound. Over 16,384 bytes is 1, a
/// broken form anywhere 2, then 8, a wrong count of values included. An empty
/// record has no pieces.
fn read_record(text: &[u8], channels: usize) -> Result<Vec<Piece>, Refusal> {
    if text.len() > RECORD_BYTES {
        return Err(TOO_LONG);
    }
    let mut text = text;
    let mut read: Vec<(i64, Vec<i64>)> = Vec::new();
    while !text.is_empty() {
        read.push(read_piece_line(take_line(&mut text)?)?);
    }
    judge_record(&read, channels)?;
    Ok(with_times(read))
}

/// The form of one line of the record.
fn read_piece_line(mut line: Line) -> Result<(i64, Vec<i64>), Refusal> {
    line.expects(b"(piece ")?;
    let duration = line.number()?;
    line.expects(b" ")?;
    let mut values = vec![line.number_or_minus()?];
    while line.takes(b" ") {
        values.push(line.number_or_minus()?);
    }
    line.expects(b")")?;
    line.expects_end()?;
    Ok((duration, values))
}

/// A record is up to 4,096 pieces: a duration of at least 1 tick and one value
/// per channel, -1,000,000 to 1,000,000. The durations total at most
/// 2,147,483,647. Else refusal 8.
fn judge_record(pieces: &[(i64, Vec<i64>)], channels: usize) -> Result<(), Refusal> {
    if pieces.len() > MOST_PIECES {
        return Err(BAD_RECORD);
    }
    let mut total: i128 = 0;
    for (duration, values) in pieces {
        total += i128::from(*duration);
        if *duration < 1
            || total > i128::from(MOST_TICKS)
            || values.len() != channels
            || values.iter().any(|value| !in_range(*value, -MOST_VALUE, MOST_VALUE))
        {
            return Err(BAD_RECORD);
        }
    }
    Ok(())
}

/// Each piece begins where the one before it ends, the first at time 0.
fn with_times(pieces: Vec<(i64, Vec<i64>)>) -> Vec<Piece> {
    let mut record: Vec<Piece> = Vec::new();
    let mut now: i64 = 0;
    for (duration, values) in pieces {
        let from = now;
        now += duration;
        record.push(Piece { from, until: now, values });
    }
    record
}

/// The record's end: the total of its durations.
fn total_ticks(record: &[Piece]) -> i64 {
    record.last().map_or(0, |piece| piece.until)
}

// ---------------------------------------------------------------------------
// Runs
// ---------------------------------------------------------------------------

/// One step of a run: the stay in the edge's from place from one time to a
/// later one, and the edge then taken.
struct Step<'a> {
    edge: &'a Edge,
    from: i64,
    until: i64,
}

type Clocks = [i64; MOST_CLOCKS];

/// Does the guard hold of these clocks?
fn holds(guard: &Guard, clocks: &Clocks) -> bool {
    let clock = clocks[guard.clock];
    match guard.sign {
        Sign::Less => clock < guard.bound,
        Sign::LessOrEqual => clock <= guard.bound,
        Sign::Greater => clock > guard.bound,
        Sign::GreaterOrEqual => clock >= guard.bound,
    }
}

/// A run over begin b to end e enters a start place at b, all clocks 0. Shows
/// every run from `begin` to `end` to `visit`, until that says false.
fn list_runs(pattern: &Pattern, begin: i64, end: i64, visit: &mut dyn FnMut(&[Step]) -> bool) {
    for (place, of_start) in pattern.places.iter().enumerate() {
        let mut run: Vec<Step> = Vec::new();
        if of_start.start
            && !list_steps(pattern, place, [0; MOST_CLOCKS], begin, end, &mut run, visit)
        {
            return;
        }
    }
}

/// Each step stays at least 1 tick, every clock growing with it; then takes an
/// edge out of that place whose guards all hold; then sets the edge's reset
/// clocks to 0. The last edge enters an end place at e exactly. Goes on in
/// every way from a place just entered at the time `now`, the steps before it
/// being `run`; gives false once `visit` has.
fn list_steps<'a>(
    pattern: &'a Pattern,
    place: usize,
    clocks: Clocks,
    now: i64,
    end: i64,
    run: &mut Vec<Step<'a>>,
    visit: &mut dyn FnMut(&[Step]) -> bool,
) -> bool {
    for until in now + 1..=end {
        let grown = clocks.map(|clock| clock + (until - now));
        for edge in &pattern.edges {
            if edge.from != place || !edge.guards.iter().all(|guard| holds(guard, &grown)) {
                continue;
            }
            let mut after = grown;
            for clock in &edge.resets {
                after[*clock] = 0;
            }
            run.push(Step { edge, from: now, until });
            let go_on = if until < end {
                list_steps(pattern, edge.to, after, until, end, run, visit)
            } else if pattern.places[edge.to].end {
                visit(run)
            } else {
                true
            };
            run.pop();
            if !go_on {
                return false;
            }
        }
    }
    true
}

// ---------------------------------------------------------------------------
// Pricing
// ---------------------------------------------------------------------------

/// A test's distance is value - bound for `>` and `>=`, bound - value for `<`
/// and `<=`; it may be negative, and strict signs measure like the others. In a
/// band the nearer end counts, and a value outside is negative.
fn distance(test: &Test, values: &[i64]) -> i64 {
    let value = values[test.channel];
    match test.measure {
        Measure::Bound(Sign::Greater | Sign::GreaterOrEqual, bound) => value - bound,
        Measure::Bound(Sign::Less | Sign::LessOrEqual, bound) => bound - value,
        Measure::Band(low, high) => (value - low).min(high - value),
    }
}

/// The pieces that a stay touches: those that share a tick with it.
fn touched(record: &[Piece], from: i64, until: i64) -> &[Piece] {
    let first = record.partition_point(|piece| piece.until <= from);
    let after = record.partition_point(|piece| piece.from < until);
    record.get(first..after).unwrap_or(&[])
}

/// Do two pieces agree in all channels tested by a place, `tests` being the
/// place's? A channel that none of these looks at has no say.
fn agree(tests: &[Test], one: &Piece, other: &Piece) -> bool {
    tests.iter().all(|test| one.values[test.channel] == other.values[test.channel])
}

/// The distance of each test at one piece.
fn distances(tests: &[Test], piece: &Piece) -> impl Iterator<Item = i64> {
    tests.iter().map(|test| distance(test, &piece.values))
}

/// In margin a stay is worth the least distance over its tests and the pieces
/// it touches; a stay without tests is worth 2,000,001 (document 01). In sum
/// each of its observations adds what every test measures, once; without tests
/// that is 0.
fn stay_worth(pattern: &Pattern, record: &[Piece], step: &Step) -> i64 {
    let tests = &pattern.places[step.edge.from].tests;
    let pieces = touched(record, step.from, step.until);
    match pattern.weighting {
        Weighting::Margin => {
            pieces.iter().flat_map(|piece| distances(tests, piece)).min().unwrap_or(NO_TESTS)
        }
        Weighting::Sum => {
            // neighbours that agree are one observation. The ticks of one
            // piece always do, so it is enough to look at pieces; those of one
            // observation have the same distances, so its first is priced.
            let observations = pieces.chunk_by(|piece, next| agree(tests, piece, next));
            observations.flat_map(|observation| distances(tests, &observation[0])).sum()
        }
    }
}

/// In margin a run is worth the least of its stays; in sum a run adds its stays.
fn run_worth(pattern: &Pattern, record: &[Piece], run: &[Step]) -> i64 {
    let stays = run.iter().map(|step| stay_worth(pattern, record, step));
    match pattern.weighting {
        Weighting::Margin => stays.min().unwrap_or(NO_TESTS),
        Weighting::Sum => stays.sum(),
    }
}

/// In margin the greatest run is best; in sum the least is best.
fn better(weighting: Weighting, this: i64, that: i64) -> bool {
    match weighting {
        Weighting::Margin => this > that,
        Weighting::Sum => this < that,
    }
}

// ---------------------------------------------------------------------------
// The cells needed
// ---------------------------------------------------------------------------

/// The ceiling of a clock is 1 + its largest guard bound (1 if it has no
/// guard). Cells needed: (high + 1) x 2 x places x the product over clocks of
/// (ceiling + 1). Only refusal 11 asks for this; the runs have real clocks.
fn cells_needed(pattern: &Pattern) -> i128 {
    // At most 4,096 x 2 x 16 x 1,002^4, far below i128's greatest.
    let mut cells = (i128::from(pattern.high) + 1) * 2 * (pattern.places.len() as i128);
    for clock in 0..pattern.clocks {
        let guards = pattern.edges.iter().flat_map(|edge| edge.guards.iter());
        let largest = guards.filter(|guard| guard.clock == clock).map(|guard| guard.bound).max();
        let ceiling = largest.map_or(1, |bound| 1 + bound);
        cells *= i128::from(ceiling) + 1;
    }
    cells
}

// ---------------------------------------------------------------------------
// The best run of an end, and the ends that have one
// ---------------------------------------------------------------------------

/// A printed line: an end, the begin of its best run, and that run's score.
#[derive(Clone, Copy)]
struct Report {
    end: i64,
    begin: i64,
    score: i64,
}

/// The best score among the runs with that end whose length is at least the
/// window's low and at most its high, and the least length among those with
/// that score; none if there is no such run. Lengths rise, and a run only takes
/// the place of a worse one, so of equals the shortest stays.
fn best_of_end(pattern: &Pattern, record: &[Piece], end: i64) -> Option<Report> {
    let mut best: Option<Report> = None;
    for length in pattern.low..=pattern.high {
        let begin = end - length;
        if begin < 0 {
            break; // a run begins inside the record
        }
        list_runs(pattern, begin, end, &mut |run| {
            let score = run_worth(pattern, record, run);
            if best.is_none_or(|held| better(pattern.weighting, score, held.score)) {
                best = Some(Report { end, begin, score });
            }
            true
        });
    }
    best
}

/// The first end that has a run in the window, if the record has one. Guards
/// ask clocks alone, and tests only price, so whether there is a run over b to
/// e depends on e - b alone: the first end is the least length of the window
/// that has a run, begun at 0, and ends before it have no line. A pattern
/// without a start, an end or an edge never has a run.
fn first_end(pattern: &Pattern, total: i64) -> Option<i64> {
    if !pattern.places.iter().any(|place| place.start)
        || !pattern.places.iter().any(|place| place.end)
        || pattern.edges.is_empty()
    {
        return None;
    }
    for length in pattern.low..=pattern.high.min(total) {
        let mut found = false;
        list_runs(pattern, 0, length, &mut |_| {
            found = true;
            false
        });
        if found {
            return Some(length);
        }
    }
    None
}

// ---------------------------------------------------------------------------
// The program
// ---------------------------------------------------------------------------

/// A file that can't be opened counts as empty. Of a longer file than `most`
/// bytes only one byte more is read, enough to see that it is too long.
fn read_file(path: &Path, most: usize) -> Vec<u8> {
    let mut bytes = Vec::new();
    if let Ok(file) = File::open(path) {
        let limit = u64::try_from(most).unwrap_or(u64::MAX).saturating_add(1);
        // Should reading fail half way, what was read counts.
        let _ = file.take(limit).read_to_end(&mut bytes);
    }
    bytes
}

/// The pattern is judged first, then the record, then the tables.
fn judge(folder: &Path) -> Result<(Pattern, Vec<Piece>), Refusal> {
    let pattern = read_pattern(&read_file(&folder.join("pattern.txt"), PATTERN_BYTES))?;
    let text = read_file(&folder.join("record.txt"), RECORD_BYTES);
    let record = read_record(&text, pattern.channels)?;
    if cells_needed(&pattern) > TABLE_CELLS {
        return Err(SHORT_TABLE);
    }
    Ok((pattern, record))
}

/// Prints the heading, a line for each end with a run, and the best over all
/// ends: among equals the earliest end, then the shortest. Ends without a run
/// have no line; with none at all the last line is `best none`.
fn print_report(pattern: &Pattern, record: &[Piece], out: &mut dyn Write) -> io::Result<()> {
    writeln!(out, "end begin score")?;
    let mut best: Option<Report> = None;
    let total = total_ticks(record);
    if let Some(first) = first_end(pattern, total) {
        for end in first..=total {
            if let Some(report) = best_of_end(pattern, record, end) {
                writeln!(out, "{} {} {}", report.end, report.begin, report.score)?;
                if best.is_none_or(|held| better(pattern.weighting, report.score, held.score)) {
                    best = Some(report);
                }
            }
        }
    }
    match best {
        Some(report) => writeln!(out, "best {} {} {}", report.end, report.begin, report.score),
        None => writeln!(out, "best none"),
    }
}

/// A refusal prints one line and no other.
fn answer(folder: &Path, out: &mut dyn Write) -> io::Result<()> {
    match judge(folder) {
        Ok((pattern, record)) => print_report(&pattern, &record, out),
        Err(Refusal(number)) => writeln!(out, "refused {number}"),
    }
}

/// The answer to each folder in `folders`, in a file of the folder's name in `out`.
fn answer_many(folders: &Path, out: &Path) -> io::Result<()> {
    for folder in std::fs::read_dir(folders)? {
        let folder = folder?;
        let mut file = BufWriter::new(File::create(out.join(folder.file_name()))?);
        answer(&folder.path(), &mut file)?;
        file.flush()?;
    }
    Ok(())
}

fn main() {
    let words: Vec<OsString> = std::env::args_os().skip(1).collect();
    if words.len() == 3 && words[0] == "--many" {
        if let Err(error) = answer_many(Path::new(&words[1]), Path::new(&words[2])) {
            eprintln!("scorer: {error}");
            std::process::exit(2);
        }
        return;
    }
    let folder = words.into_iter().next().unwrap_or_else(|| OsString::from("."));
    let mut out = BufWriter::new(io::stdout().lock());
    // Where nobody takes the output there is nobody to tell.
    let _ = answer(&PathBuf::from(folder), &mut out);
    let _ = out.flush();
}
