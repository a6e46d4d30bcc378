//! Readings of document 01 (the scope paper): the right one, which answers as `scorer.rs` does, and 63 wrong
//! ones, for the statistics.
//!
//! Written from document 01 and the decisions recorded beside it, for the bands from request R-1 and for the
//! observations of sum from R-3, and from nothing else. It shares no code with the product or with
//! `scorer.rs`. It has no tables, no ceilings of clocks and no states that stand for many runs: each run is a
//! begin, its edges and its stays, listed and priced alone. Quoted sentences are document 01's.
//!
//!     readings DIR                         answer for DIR/pattern.txt and DIR/record.txt
//!     readings --many CASES --answers OUT  the answer to each case, into OUT/NUMBER
//!     readings --many CASES --stats        what occurs in the cases; status 1 if something is missing

use std::collections::BTreeMap;
use std::fmt::Write;
use std::process::exit;

// ------------------------------------------------------------------------------------------ the text

/// One bracket of a line, or one word in it. A numeral is a word here.
enum Form<'a> {
    Word(&'a [u8]),
    Bracket(Vec<Form<'a>>),
}

/// "Nested brackets, one form a line, [...] single spaces exactly as shown": the whole line is one
/// bracket, its parts are parted by one space each, and no space stands inside next to a bracket.
fn read_form(line: &[u8]) -> Option<Vec<Form<'_>>> {
    let mut at = 0;
    let parts = read_bracket(line, &mut at, 1)?;
    if at == line.len() { Some(parts) } else { None }
}

fn read_bracket<'a>(line: &'a [u8], at: &mut usize, depth: usize) -> Option<Vec<Form<'a>>> {
    // No line shown has a bracket inside a bracket inside a bracket.
    if line.get(*at) != Some(&b'(') || depth > 2 {
        return None;
    }
    let mut parts = Vec::new();
    loop {
        *at += 1; // the opening bracket, or the space before a further part
        if line.get(*at) == Some(&b'(') {
            parts.push(Form::Bracket(read_bracket(line, at, depth + 1)?));
        } else {
            let from = *at;
            while line.get(*at).is_some_and(|byte| !b" ()".contains(byte)) {
                *at += 1;
            }
            if from == *at {
                return None;
            }
            parts.push(Form::Word(&line[from..*at]));
        }
        match line.get(*at) {
            Some(b' ') => {}
            Some(b')') => {
                *at += 1;
                return Some(parts);
            }
            _ => return None,
        }
    }
}

/// The lines of a text. "each line ended by a line feed": a last line without one is `None`.
fn lines(text: &[u8]) -> Vec<Option<&[u8]>> {
    text.split_inclusive(|byte| *byte == b'\n').map(|line| line.strip_suffix(b"\n")).collect()
}

/// "A number is `0` or digits without a leading zero. A minus may stand only in a test's bound and only
/// before a non-zero number." A number of more than 18 digits is beyond every range and every index that
/// the paper has, so any number that long may stand for it.
fn number(form: &Form, minus_may_stand: bool) -> Option<i64> {
    let Form::Word(word) = form else { return None };
    let (negative, digits) = match word.strip_prefix(b"-") {
        Some(rest) if minus_may_stand => (true, rest),
        Some(_) => return None,
        None => (false, *word),
    };
    if digits.is_empty() || !digits.iter().all(u8::is_ascii_digit) {
        return None;
    }
    if digits[0] == b'0' && (digits.len() > 1 || negative) {
        return None;
    }
    let size = if digits.len() > 18 {
        i64::MAX
    } else {
        digits.iter().fold(0, |size, digit| 10 * size + i64::from(digit - b'0'))
    };
    Some(if negative { -size } else { size })
}

fn numbers(forms: &[Form]) -> Option<Vec<i64>> {
    forms.iter().map(|form| number(form, false)).collect()
}

// --------------------------------------------------------------------------------------- the pattern

#[derive(Clone, Copy, PartialEq)]
enum Sign {
    Less,
    LessOrEqual,
    Greater,
    GreaterOrEqual,
}

/// What a test holds a value against: "a sign `<`, `<=`, `>`, `>=`" and a bound, or a band's low and
/// high.
#[derive(Clone, Copy)]
enum Against {
    Bound(Sign, i64),
    Band(i64, i64),
}

struct Test {
    channel: usize,
    against: Against,
}

struct Guard {
    sign: Sign,
    clock: usize,
    bound: i64,
}

struct Place {
    start: bool,
    end: bool,
    tests: Vec<Test>,
}

impl Place {
    fn tests_channel(&self, channel: usize) -> bool {
        self.tests.iter().any(|test| test.channel == channel)
    }

    /// Each band of the place: the tests before it, its channel, its low and its high.
    fn bands(&self) -> impl Iterator<Item = (usize, usize, i64, i64)> {
        self.tests.iter().enumerate().filter_map(|(at, test)| match test.against {
            Against::Band(low, high) => Some((at, test.channel, low, high)),
            Against::Bound(..) => None,
        })
    }
}

struct Edge {
    from: usize,
    to: usize,
    guards: Vec<Guard>,
    resets: Vec<usize>,
}

struct Pattern {
    sum: bool,
    channels: usize,
    clocks: usize,
    low: u64,
    high: u64,
    places: Vec<Place>,
    edges: Vec<Edge>,
}

/// What is wrong on a line whose form is whole. "the first faulty line decides, and on it: 2, the form
/// is broken [...]; 4, a place, edge, test or guard too many; 3, a number outside its range; 5, an index
/// that the pattern lacks, or a reset not above the one before it." The order is 2, 4, 3, 5 whatever
/// stands first on the line.
#[derive(Default)]
struct Faults {
    too_many: bool,
    out_of_range: bool,
    low_above_high: bool, // of a band; for R-1 it is a further way to be out of range
    no_such_index: bool,
    // For the statistics: the line in hand, counted from 0, and which of its causes a band gives.
    line: usize,
    end_out_of_range: bool,
    no_such_channel: bool,
}

impl Faults {
    fn judge(&self, slip: Slip) -> Result<(), u8> {
        let (many, range) = (self.too_many, self.out_of_range);
        let (above, index) = (self.low_above_high, self.no_such_index);
        let causes: &[(bool, u8)] = match slip {
            Slip::LowAboveHighRead => &[(many, 4), (range, 3), (index, 5)],
            Slip::LowAboveHighIs2 => &[(above, 2), (many, 4), (range, 3), (index, 5)],
            Slip::LowAboveHighIs5 => &[(many, 4), (range, 3), (index || above, 5)],
            Slip::LowAboveHighBefore4 => &[(above, 3), (many, 4), (range, 3), (index, 5)],
            Slip::LowAboveHighAfter5 => &[(many, 4), (range, 3), (index, 5), (above, 3)],
            _ => &[(many, 4), (range || above, 3), (index, 5)],
        };
        causes.iter().find(|(occurs, _)| *occurs).map_or(Ok(()), |(_, refusal)| Err(*refusal))
    }

    fn range(&mut self, number: i64, least: i64, most: i64) {
        self.out_of_range |= number < least || number > most;
    }

    fn index(&mut self, number: i64, count: usize) {
        self.no_such_index |= number >= count as i64;
    }

    /// A band's ends have a bound's range each, and may be equal.
    fn band(&mut self, low: i64, high: i64, slip: Slip) {
        let in_range = [low, high].iter().all(|end| BOUNDS.contains(end)) || slip == Slip::EndsOutOfRangeRead;
        self.end_out_of_range |= !in_range;
        self.out_of_range |= !in_range;
        self.low_above_high |= low > high || low == high && slip == Slip::EqualEndsRefused;
    }
}

/// Where a test's bound lies, and each end of a band.
const BOUNDS: std::ops::RangeInclusive<i64> = -1_000_000..=1_000_000;

/// The form of a guard, or of a test with a sign, alone: sign, index, bound.
fn condition(form: &Form, minus_may_stand: bool) -> Option<(Sign, i64, i64)> {
    let Form::Bracket(parts) = form else { return None };
    let [Form::Word(sign), index, bound] = &parts[..] else { return None };
    let sign = match *sign {
        b"<" => Sign::Less,
        b"<=" => Sign::LessOrEqual,
        b">" => Sign::Greater,
        b">=" => Sign::GreaterOrEqual,
        _ => return None,
    };
    Some((sign, number(index, false)?, number(bound, minus_may_stand)?))
}

/// The form of R-1's band alone: the word `in`, a channel, and two numbers that are written like a bound.
fn band(form: &Form, slip: Slip) -> Option<(i64, i64, i64)> {
    let Form::Bracket(parts) = form else { return None };
    let [Form::Word(b"in"), channel, low, high] = &parts[..] else { return None };
    let minus_may_stand = slip != Slip::EndsWithoutMinus;
    Some((number(channel, false)?, number(low, minus_may_stand)?, number(high, minus_may_stand)?))
}

/// The form of a test alone: its channel, and what the value is held against.
fn test(form: &Form, slip: Slip) -> Option<(i64, Against)> {
    let signed = condition(form, true).map(|(sign, channel, bound)| (channel, Against::Bound(sign, bound)));
    signed.or_else(|| band(form, slip).map(|(channel, low, high)| (channel, Against::Band(low, high))))
}

/// "Line 1: `margin` or `sum`; channels 1 to 8; clocks 0 to 4; the window's low, 1 to 4,095; its high,
/// low to 4,095."
fn read_header(line: &[u8], faults: &mut Faults) -> Result<Pattern, u8> {
    let form = || -> Option<(bool, Vec<i64>)> {
        let parts = read_form(line)?;
        let [Form::Word(b"pattern"), Form::Word(weighting), rest @ ..] = &parts[..] else { return None };
        let sum = match *weighting {
            b"margin" => false,
            b"sum" => true,
            _ => return None,
        };
        let rest = numbers(rest)?;
        if rest.len() == 4 { Some((sum, rest)) } else { None }
    };
    let (sum, numbers) = form().ok_or(2)?;
    faults.range(numbers[0], 1, 8);
    faults.range(numbers[1], 0, 4);
    faults.range(numbers[2], 1, 4_095);
    faults.range(numbers[3], numbers[2], 4_095);
    faults.judge(Slip::Right)?;
    Ok(Pattern {
        sum,
        channels: numbers[0] as usize,
        clocks: numbers[1] as usize,
        low: numbers[2] as u64,
        high: numbers[3] as u64,
        places: Vec::new(),
        edges: Vec::new(),
    })
}

/// "1 to 16 places: `start`, `plain`, `end` or `both` (start and end), with 0 to 4 tests. A test is a
/// sign [...], a channel, and a bound from -1,000,000 to 1,000,000." R-1 adds the band, which is one test.
fn read_place(parts: &[Form], pattern: &Pattern, slip: Slip, faults: &mut Faults) -> Result<Place, u8> {
    let form = || -> Option<(bool, bool, Vec<(i64, Against)>)> {
        let [Form::Word(kind), tests @ ..] = parts else { return None };
        let (start, end) = match *kind {
            b"start" => (true, false),
            b"plain" => (false, false),
            b"end" => (false, true),
            b"both" => (true, true),
            _ => return None,
        };
        let tests = tests.iter().map(|form| test(form, slip)).collect::<Option<Vec<_>>>()?;
        Some((start, end, tests))
    };
    let (start, end, tests) = form().ok_or(2)?;
    let bands = tests.iter().filter(|(_, against)| matches!(against, Against::Band(..))).count();
    let count = match slip {
        Slip::BandIsTwoTests => tests.len() + bands,
        Slip::BandIsNoTest => tests.len() - bands,
        _ => tests.len(),
    };
    faults.too_many = pattern.places.len() == 16 || count > 4;
    for &(channel, against) in &tests {
        faults.index(channel, pattern.channels);
        match against {
            Against::Bound(_, bound) => faults.range(bound, *BOUNDS.start(), *BOUNDS.end()),
            Against::Band(low, high) => {
                faults.band(low, high, slip);
                faults.no_such_channel |= channel >= pattern.channels as i64;
            }
        }
    }
    faults.judge(slip)?;
    let tests = tests.iter().map(|&(channel, against)| Test { channel: channel as usize, against });
    Ok(Place { start, end, tests: tests.collect() })
}

/// "0 to 32 edges: from, to, 0 to 4 guards (a sign, a clock, a bound 0 to 1,000), then resets, at least
/// one clock, rising, or no bracket at all." R-1 gives the band to places alone.
fn read_edge(parts: &[Form], pattern: &Pattern, slip: Slip, faults: &mut Faults) -> Result<Edge, u8> {
    let form = || -> Option<(i64, i64, Vec<(Sign, i64, i64)>, Vec<i64>)> {
        let [from, to, rest @ ..] = parts else { return None };
        let (guards, resets) = match rest.split_last() {
            Some((Form::Bracket(last), guards)) if matches!(last[0], Form::Word(b"reset")) => {
                (guards, numbers(&last[1..]).filter(|resets| !resets.is_empty())?)
            }
            _ => (rest, Vec::new()),
        };
        let passed_over = |guard: &Form| slip == Slip::BandInEdge && band(guard, slip).is_some();
        let guards = guards.iter().filter(|guard| !passed_over(guard));
        let guards = guards.map(|guard| condition(guard, false)).collect::<Option<Vec<_>>>()?;
        Some((number(from, false)?, number(to, false)?, guards, resets))
    };
    let (from, to, guards, resets) = form().ok_or(2)?;
    faults.too_many = pattern.edges.len() == 32 || guards.len() > 4;
    faults.index(from, pattern.places.len());
    faults.index(to, pattern.places.len());
    for (_, clock, bound) in &guards {
        faults.range(*bound, 0, 1_000);
        faults.index(*clock, pattern.clocks);
    }
    for clock in &resets {
        faults.index(*clock, pattern.clocks);
    }
    faults.no_such_index |= resets.windows(2).any(|pair| pair[1] <= pair[0]);
    faults.judge(slip)?;
    let guards = guards.iter().map(|&(sign, clock, bound)| Guard { sign, clock: clock as usize, bound });
    Ok(Edge {
        from: from as usize,
        to: to as usize,
        guards: guards.collect(),
        resets: resets.iter().map(|clock| *clock as usize).collect(),
    })
}

/// "1: over 8,192 bytes. Then the first faulty line decides". "empty text, missing line feed, a line of
/// the wrong kind, as a place after an edge, and no place at all included" are broken form.
fn read_pattern(text: &[u8], slip: Slip, faults: &mut Faults) -> Result<Pattern, u8> {
    if text.len() > 8_192 {
        return Err(1);
    }
    let lines = lines(text);
    let [header, rest @ ..] = &lines[..] else { return Err(2) };
    let mut pattern = read_header(header.ok_or(2)?, faults)?;
    for line in rest {
        faults.line += 1;
        let parts = line.and_then(read_form).ok_or(2)?;
        match &parts[..] {
            [Form::Word(b"place"), parts @ ..] if pattern.edges.is_empty() => {
                let place = read_place(parts, &pattern, slip, faults)?;
                pattern.places.push(place);
            }
            [Form::Word(b"edge"), parts @ ..] if !pattern.places.is_empty() => {
                let edge = read_edge(parts, &pattern, slip, faults)?;
                pattern.edges.push(edge);
            }
            _ => return Err(2),
        }
    }
    if pattern.places.is_empty() { Err(2) } else { Ok(pattern) }
}

/// "The ceiling of a clock is 1 + its largest guard bound (1 if it has no guard). Cells needed:
/// (high + 1) × 2 × places × the product over clocks of (ceiling + 1)." Only refusal 11 asks for it.
fn cells_needed(pattern: &Pattern) -> u64 {
    let mut cells = (pattern.high + 1) * 2 * pattern.places.len() as u64;
    for clock in 0..pattern.clocks {
        cells *= 1 + largest_bound(pattern, clock) + 1;
    }
    cells
}

fn largest_bound(pattern: &Pattern, clock: usize) -> u64 {
    let guards = pattern.edges.iter().flat_map(|edge| &edge.guards);
    guards.filter(|guard| guard.clock == clock).map(|guard| guard.bound as u64).max().unwrap_or(0)
}

// ---------------------------------------------------------------------------------------- the record

/// A piece, with the times where it begins and ends.
#[derive(Clone)]
struct Piece {
    from: u64,
    to: u64,
    values: Vec<i64>,
}

/// "lines as `(piece 2 10)`, duration then one or more values, a minus in values only and as in a bound;
/// over 16,384 bytes is 1, a broken form anywhere 2, then 8, a wrong count of values included". The
/// pieces are still as they were cut.
fn read_record(text: &[u8], channels: usize) -> Result<Vec<Piece>, u8> {
    if text.len() > 16_384 {
        return Err(1);
    }
    let mut pieces = Vec::new();
    for line in lines(text) {
        let form = || -> Option<(i64, Vec<i64>)> {
            let parts = read_form(line?)?;
            let [Form::Word(b"piece"), duration, values @ ..] = &parts[..] else { return None };
            let values = values.iter().map(|value| number(value, true)).collect::<Option<Vec<_>>>()?;
            if values.is_empty() { None } else { Some((number(duration, false)?, values)) }
        };
        pieces.push(form().ok_or(2)?);
    }
    // "A record is up to 4,096 pieces: a duration of at least 1 tick and one value per channel,
    // -1,000,000 to 1,000,000. The durations total at most 2,147,483,647."
    if pieces.len() > 4_096 {
        return Err(8);
    }
    let mut record = Vec::new();
    let mut now = 0;
    for (duration, values) in pieces {
        let in_range = values.iter().all(|value| (-1_000_000..=1_000_000).contains(value));
        if !(1..=2_147_483_647).contains(&duration) || values.len() != channels || !in_range {
            return Err(8);
        }
        record.push(Piece { from: now, to: now + duration as u64, values });
        now += duration as u64;
    }
    if now > 2_147_483_647 { Err(8) } else { Ok(record) }
}

/// "Neighbouring pieces with equal values in every channel are one piece".
fn joined(record: &[Piece]) -> Vec<Piece> {
    let mut pieces: Vec<Piece> = Vec::new();
    for piece in record {
        match pieces.last_mut() {
            Some(last) if last.values == piece.values => last.to = piece.to,
            _ => pieces.push(piece.clone()),
        }
    }
    pieces
}

// ------------------------------------------------------------------------------------------ the runs

/// Readings of the paper that are wrong. The answers never use them (`Right` is the paper); the
/// statistics do, to measure how many cases would tell a program that made the slip from a right one.
#[derive(Clone, Copy, Debug, PartialEq)]
enum Slip {
    Right,
    EveryTickCounts,     // "Counting a long piece once per tick in sum."
    CeilingAtBound,      // "A ceiling at the largest bound itself"
    EdgesWithoutStay,    // "Two edges in a row without a stay."
    ResetBeforeGuards,   // "Resetting before the guards are tried."
    EndPlaceTests,       // "Giving an end place's own tests a say in the last step."
    CutsCount,           // "Counting a piece anew because it came in two calls."
    PieceCountsOnce,     // in sum, an observation that the stay before had a part of does not count again
    FirstPieceOnly,      // a stay is priced by the first piece it touches
    LastPieceOnly,       // a stay is priced by the last piece it touches
    FirstTestOnly,       // a stay is priced by its first test
    LastStayOnly,        // a run is priced by its last stay
    StrictMeasuresLess,  // strict signs take 1 from the distance
    DistanceFromZero,    // a distance is never negative
    FreeStayIsZero,      // a stay without tests is worth 0 in margin too
    StrictGuardsLoose,   // `<` holds like `<=`, and `>` like `>=`
    FirstGuardOnly,      // only the first guard of an edge is tried
    ResetsForgotten,     // no clock is ever set to 0 on the way
    ResetsEveryClock,    // a reset bracket sets all clocks to 0
    StaysFromEntryOnly,  // clocks count from the entry into the place
    EndPlaceStops,       // a run cannot go on from an end place
    BeginsAnywhere,      // a run may begin in any place
    BeginsAtZeroOnly,    // a run begins at the record's begin
    LowForgotten,        // runs shorter than the window's low count
    HighOneMore,         // runs of length high + 1 count
    HighOneLess,         // runs of length high do not count
    GreatestLength,      // the greatest length among equals
    LatestEnd,           // the latest end among equals
    GreatestSum,         // the greatest is best in sum too
    // Of what a band is worth:
    BandGreater,         // the greater of its two sides
    BandHighForgotten,   // how far the value is over the low
    BandLowForgotten,    // how far the value is under the high
    BandSumAddsBoth,     // in sum both sides are added, as those of two tests are
    BandNearerEnd,       // how far the nearer end is, outside too
    BandByMiddle,        // half the width less the way to the middle, each in whole numbers
    BandOfChannel0,      // the value is that of channel 0
    // Of which ticks are one observation in sum:
    JoinsWholeSample,    // those that agree in every channel, tested or not
    JoinsByAnyPlace,     // those that agree in every channel that some place tests
    JoinsByStartPlace,   // the channels are those of the place where the run begins
    JoinsByPlaceEntered, // they are those of the place that the stay's edge enters
    JoinsByFirstTest,    // the channel of the place's first test alone is looked at
    JoinsByLastTest,     // that of its last test alone
    JoinsByOneTest,      // to agree in one tested channel is enough
    JoinsWithoutBands,   // a channel that only bands test is not looked at
    JoinsEachTest,       // each test is joined alone, by its own channel
    JoinsDistances,      // those at which each test has the same distance
    JoinsTotals,         // those at which the distances add up to the same
    JoinsApart,          // those that agree, with other ticks between them too
    JoinsToFirstTick,    // those that agree with the stay's first tick; any other counts alone
    GoesOnInPlace,       // an observation goes on into the next stay if the place is the same
    GoesOnAfterReturn,   // it goes on even when the run comes back to the place
    FreeStayAddsOne,     // a place without tests adds 1 for each joined piece
    FreeStayAddsFar,     // it adds 2000001
    // Of how a band is read:
    BandIsTwoTests,      // it counts twice among a place's tests
    BandIsNoTest,        // it does not count among them
    BandInEdge,          // it may stand among an edge's guards
    EqualEndsRefused,    // equal ends are refused with 3
    EndsWithoutMinus,    // no minus may stand in an end
    EndsOutOfRangeRead,  // an end may be any number
    LowAboveHighRead,    // a low above the high makes an empty band
    LowAboveHighIs2,     // it is a broken form
    LowAboveHighIs5,     // it is refused with 5
    LowAboveHighBefore4, // it is refused with 3, and before a test too many
    LowAboveHighAfter5,  // it is refused with 3, but after an index that the pattern lacks
}

const SLIPS: [Slip; 28] = [
    Slip::EveryTickCounts,
    Slip::CeilingAtBound,
    Slip::EdgesWithoutStay,
    Slip::ResetBeforeGuards,
    Slip::EndPlaceTests,
    Slip::CutsCount,
    Slip::PieceCountsOnce,
    Slip::FirstPieceOnly,
    Slip::LastPieceOnly,
    Slip::FirstTestOnly,
    Slip::LastStayOnly,
    Slip::StrictMeasuresLess,
    Slip::DistanceFromZero,
    Slip::FreeStayIsZero,
    Slip::StrictGuardsLoose,
    Slip::FirstGuardOnly,
    Slip::ResetsForgotten,
    Slip::ResetsEveryClock,
    Slip::StaysFromEntryOnly,
    Slip::EndPlaceStops,
    Slip::BeginsAnywhere,
    Slip::BeginsAtZeroOnly,
    Slip::LowForgotten,
    Slip::HighOneMore,
    Slip::HighOneLess,
    Slip::GreatestLength,
    Slip::LatestEnd,
    Slip::GreatestSum,
];

/// Those that make no difference where no place has a band.
const BAND_SLIPS: [Slip; 7] = [
    Slip::BandGreater,
    Slip::BandHighForgotten,
    Slip::BandLowForgotten,
    Slip::BandSumAddsBoth,
    Slip::BandNearerEnd,
    Slip::BandByMiddle,
    Slip::BandOfChannel0,
];

/// Those that make no difference in margin.
const SUM_SLIPS: [Slip; 17] = [
    Slip::JoinsWholeSample,
    Slip::JoinsByAnyPlace,
    Slip::JoinsByStartPlace,
    Slip::JoinsByPlaceEntered,
    Slip::JoinsByFirstTest,
    Slip::JoinsByLastTest,
    Slip::JoinsByOneTest,
    Slip::JoinsWithoutBands,
    Slip::JoinsEachTest,
    Slip::JoinsDistances,
    Slip::JoinsTotals,
    Slip::JoinsApart,
    Slip::JoinsToFirstTick,
    Slip::GoesOnInPlace,
    Slip::GoesOnAfterReturn,
    Slip::FreeStayAddsOne,
    Slip::FreeStayAddsFar,
];

/// Those that make a difference only in whether a text is refused, and with which number.
const TEXT_SLIPS: [Slip; 11] = [
    Slip::BandIsTwoTests,
    Slip::BandIsNoTest,
    Slip::BandInEdge,
    Slip::EqualEndsRefused,
    Slip::EndsWithoutMinus,
    Slip::EndsOutOfRangeRead,
    Slip::LowAboveHighRead,
    Slip::LowAboveHighIs2,
    Slip::LowAboveHighIs5,
    Slip::LowAboveHighBefore4,
    Slip::LowAboveHighAfter5,
];

/// One stay of a run: in a place, over the ticks from one time to another.
#[derive(Clone, Copy)]
struct Stay {
    place: usize,
    from: u64,
    to: u64,
}

/// The best of the runs with one end.
#[derive(Clone, Copy)]
struct Best {
    score: i64,
    length: u64,
    /// How many runs have this score and this length, and whether some have it with another length.
    runs: u64,
    other_lengths: bool,
    stays: usize,
}

/// "A stay without tests is worth 2,000,001, which stands for the source's infinity."
const FREE: i64 = 2_000_001;

struct Scorer<'a> {
    pattern: &'a Pattern,
    /// The joined pieces.
    pieces: Vec<Piece>,
    /// For each place and piece, whether a stay there that has seen the piece before begins a new observation.
    anew: Vec<Vec<bool>>,
    /// For the statistics: how many pieces before this one a stay of a run has seen in that place, at most.
    seen_before: Vec<Vec<usize>>,
    total: u64,
    slip: Slip,
    /// The best run for each end that has one.
    ends: BTreeMap<u64, Best>,
    /// How many runs were priced, and how many steps were tried for the listing.
    runs: u64,
    steps: u64,
}

/// A slip may make many more runs: its listing is given up after so many steps. The right one never is.
const SLIP_STEPS: u64 = 20_000;

impl Scorer<'_> {
    fn slip(&self, slip: Slip) -> bool {
        self.slip == slip
    }

    fn given_up(&self) -> bool {
        !self.slip(Slip::Right) && self.steps > SLIP_STEPS
    }

    /// "A run over begin b to end e has one or more steps. It enters a start place at b, all clocks 0."
    fn list_every_run(&mut self) {
        for begin in 0..self.total {
            if self.slip(Slip::BeginsAtZeroOnly) && begin > 0 {
                break;
            }
            for place in 0..self.pattern.places.len() {
                if self.pattern.places[place].start || self.slip(Slip::BeginsAnywhere) {
                    self.go_on(begin, place, begin, [0; 4], &mut Vec::new());
                }
            }
        }
    }

    /// Lists every way to go on from a place that was entered now. Runs longer than the window's high
    /// or past the record's end are left out: no end would ever report them.
    fn go_on(&mut self, begin: u64, place: usize, now: u64, clocks: [u64; 4], stays: &mut Vec<Stay>) {
        let pattern = self.pattern;
        let high = match self.slip {
            Slip::HighOneMore => pattern.high + 1,
            Slip::HighOneLess => pattern.high - 1,
            _ => pattern.high,
        };
        // "Each step stays at least 1 tick, every clock growing with it".
        let hurry = self.slip(Slip::EdgesWithoutStay) && stays.last().is_some_and(|stay| stay.from < stay.to);
        let shortest = if hurry { 0 } else { 1 };
        for left in now + shortest..=self.total.min(begin + high) {
            let grown = clocks.map(|clock| clock + (left - now));
            // "then takes an edge out of that place whose guards all hold";
            for edge in pattern.edges.iter().filter(|edge| edge.from == place) {
                self.steps += 1;
                if !self.guards_hold(edge, grown) || self.given_up() {
                    continue;
                }
                // "then sets the edge's reset clocks to 0."
                let after = self.after_resets(edge, grown);
                stays.push(Stay { place, from: now, to: left });
                // "The last edge enters an end place at e exactly. No time passes there."
                let entered = &pattern.places[edge.to];
                if entered.end && (left - begin >= pattern.low || self.slip(Slip::LowForgotten)) {
                    self.take_run(begin, left, stays, edge.to);
                }
                // That edge need not be the last one: a run may also stay in an end place and go on.
                if !(entered.end && self.slip(Slip::EndPlaceStops)) {
                    self.go_on(begin, edge.to, left, after, stays);
                }
                stays.pop();
            }
        }
    }

    fn guards_hold(&self, edge: &Edge, grown: [u64; 4]) -> bool {
        let mut clocks = grown;
        if self.slip(Slip::ResetBeforeGuards) {
            edge.resets.iter().for_each(|clock| clocks[*clock] = 0);
        }
        if self.slip(Slip::CeilingAtBound) {
            (0..4).for_each(|clock| clocks[clock] = clocks[clock].min(largest_bound(self.pattern, clock)));
        }
        let loose = self.slip(Slip::StrictGuardsLoose);
        let tried = if self.slip(Slip::FirstGuardOnly) { 1 } else { 4 };
        edge.guards.iter().take(tried).all(|guard| {
            let (clock, bound) = (clocks[guard.clock], guard.bound as u64);
            match guard.sign {
                Sign::Less => clock < bound || loose && clock == bound,
                Sign::LessOrEqual => clock <= bound,
                Sign::Greater => clock > bound || loose && clock == bound,
                Sign::GreaterOrEqual => clock >= bound,
            }
        })
    }

    fn after_resets(&self, edge: &Edge, grown: [u64; 4]) -> [u64; 4] {
        let mut clocks = grown;
        for clock in &edge.resets {
            clocks[*clock] = 0;
        }
        match self.slip {
            Slip::ResetsForgotten => grown,
            Slip::ResetsEveryClock if !edge.resets.is_empty() => [0; 4],
            Slip::StaysFromEntryOnly => [0; 4],
            _ => clocks,
        }
    }

    /// A run is listed: it is priced, and kept if it is the best yet at its end. "It holds the best score
    /// among the runs with that end whose length is at least the window's low and at most its high, and
    /// the least length among those with that score".
    fn take_run(&mut self, begin: u64, end: u64, stays: &[Stay], entered: usize) {
        self.runs += 1;
        if self.slip(Slip::Right) {
            self.note_pieces(stays);
        }
        let score = self.price(stays, entered, end);
        let length = end - begin; // "A run's length is its end minus its begin."
        let this = Best { score, length, runs: 1, other_lengths: false, stays: stays.len() };
        let greatest_length = self.slip(Slip::GreatestLength);
        let Some(best) = self.ends.get(&end).copied() else {
            self.ends.insert(end, this);
            return;
        };
        let kept = if self.is_better(score, best.score) {
            this
        } else if score != best.score {
            return;
        } else if length == best.length {
            Best { runs: best.runs + 1, ..best }
        } else if (length < best.length) != greatest_length {
            Best { other_lengths: true, ..this }
        } else {
            Best { other_lengths: true, ..best }
        };
        self.ends.insert(end, kept);
    }

    /// Margin: "the greatest run is best". Sum: "the least is best."
    fn is_better(&self, score: i64, other: i64) -> bool {
        if self.pattern.sum && !self.slip(Slip::GreatestSum) { score < other } else { score > other }
    }

    fn note_pieces(&mut self, stays: &[Stay]) {
        for stay in stays {
            for (before, piece) in self.touched(stay).enumerate() {
                let most = &mut self.seen_before[stay.place][piece];
                *most = before.max(*most);
            }
        }
    }

    /// Margin: a run is worth "the least of its stays". Sum: "a run adds its stays". The end place that
    /// the last edge enters is no stay of the run, so its tests say nothing.
    fn price(&self, stays: &[Stay], entered: usize, end: u64) -> i64 {
        let first = if self.slip(Slip::LastStayOnly) { stays.len() - 1 } else { 0 };
        let worths = (first..stays.len()).map(|at| self.worth(stays, at, entered));
        let score = if self.pattern.sum { worths.sum() } else { worths.min().unwrap_or(FREE) };
        if !self.slip(Slip::EndPlaceTests) {
            return score;
        }
        let more = self.worth(&[Stay { place: entered, from: end - 1, to: end }], 0, entered);
        if self.pattern.sum { score + more } else { score.min(more) }
    }

    /// What one of the stays is worth. "In margin a stay is worth the least distance over its tests and the
    /// pieces it touches". In sum it adds up the distances of all its tests, once per observation (R-3); where
    /// there are no tests, nothing is added.
    fn worth(&self, stays: &[Stay], at: usize, entered: usize) -> i64 {
        let stay = &stays[at];
        let tests = &self.pattern.places[stay.place].tests;
        let tests = if self.slip(Slip::FirstTestOnly) { &tests[..tests.len().min(1)] } else { tests };
        let touched = self.touched(stay);
        if tests.is_empty() {
            return match self.slip {
                Slip::FreeStayAddsOne if self.pattern.sum => touched.len() as i64,
                Slip::FreeStayAddsFar => FREE,
                Slip::FreeStayIsZero => 0,
                _ if self.pattern.sum => 0,
                _ => FREE,
            };
        }
        let distance = |test: &Test, piece: usize| self.distance(test, &self.pieces[piece].values);
        if !self.pattern.sum {
            let least = |piece| tests.iter().map(|test| distance(test, piece)).min();
            return touched.filter_map(least).min().unwrap_or(FREE);
        }
        let first = touched.start;
        let mut added = 0;
        for piece in touched {
            let times = self.times(stays, at, entered, first, piece);
            for test in tests {
                let times = match self.slip {
                    Slip::JoinsEachTest if piece > first => self.changes(piece, test.channel) as i64,
                    _ => times,
                };
                if times > 0 {
                    added += distance(test, piece) * times;
                }
            }
        }
        added
    }

    /// The joined pieces that share a tick with the stay. ("Tick t runs from time t to t + 1.")
    fn touched(&self, stay: &Stay) -> std::ops::Range<usize> {
        let first = self.pieces.partition_point(|piece| piece.to <= stay.from);
        let behind = first + self.pieces[first..].iter().take_while(|piece| piece.from < stay.to).count();
        match self.slip {
            Slip::FirstPieceOnly => first..behind.min(first + 1),
            Slip::LastPieceOnly => first.max(behind.saturating_sub(1))..behind,
            _ => first..behind,
        }
    }

    /// How many observations a stay, the first of whose pieces is given, makes of one of its pieces: one at
    /// the stay's first tick and wherever a tick differs from its neighbour in a channel that the place tests.
    fn times(&self, stays: &[Stay], at: usize, entered: usize, first: usize, piece: usize) -> i64 {
        let stay = &stays[at];
        let ticks = || {
            let Piece { from, to, .. } = self.pieces[piece];
            (to.min(stay.to) - from.max(stay.from)) as i64
        };
        let counts = match self.slip {
            Slip::EveryTickCounts => return ticks(),
            Slip::PieceCountsOnce | Slip::GoesOnInPlace | Slip::GoesOnAfterReturn if piece == first => {
                !self.goes_on(stays, at, piece)
            }
            Slip::JoinsToFirstTick if piece > first => {
                return if self.agree(stay.place, first, piece) { 0 } else { ticks() };
            }
            Slip::JoinsApart => !(first..piece).any(|before| self.agree(stay.place, before, piece)),
            Slip::JoinsByStartPlace => piece == first || self.anew[stays[0].place][piece],
            Slip::JoinsByPlaceEntered => {
                let next = stays.get(at + 1).map_or(entered, |next| next.place);
                piece == first || self.anew[next][piece]
            }
            _ => piece == first || self.anew[stay.place][piece],
        };
        counts as i64
    }

    /// For the slips that let an observation go on from an earlier stay: whether the first piece of a stay
    /// does so.
    fn goes_on(&self, stays: &[Stay], at: usize, first: usize) -> bool {
        let place = stays[at].place;
        let earlier = match self.slip {
            Slip::GoesOnAfterReturn => stays[..at].iter().rfind(|stay| stay.place == place),
            Slip::GoesOnInPlace => stays[..at].last().filter(|stay| stay.place == place),
            _ => stays[..at].last(),
        };
        let last = |stay: &Stay| self.touched(stay).last();
        earlier.and_then(last).is_some_and(|last| self.agree(place, last, first))
    }

    /// Whether the values of a channel change from the piece before to this one.
    fn changes(&self, piece: usize, channel: usize) -> bool {
        self.pieces[piece - 1].values[channel] != self.pieces[piece].values[channel]
    }

    /// Whether two pieces have the same values in all channels that a place tests.
    fn agree(&self, place: usize, one: usize, other: usize) -> bool {
        let (one, other) = (&self.pieces[one].values, &self.pieces[other].values);
        self.pattern.places[place].tests.iter().all(|test| one[test.channel] == other[test.channel])
    }

    /// Whether a stay in a place that has seen the piece before begins a new observation with this one.
    fn begins_anew(&self, place: usize, piece: usize) -> bool {
        let tests = &self.pattern.places[place].tests;
        let differs = |test: &Test| self.changes(piece, test.channel);
        let [before, now] = [piece - 1, piece].map(|at| &self.pieces[at].values);
        let total = |values: &[i64]| tests.iter().map(|test| self.distance(test, values)).sum::<i64>();
        match self.slip {
            _ if tests.is_empty() => false,
            Slip::CutsCount | Slip::JoinsWholeSample => true,
            Slip::JoinsByAnyPlace => self.pattern.places.iter().any(|place| place.tests.iter().any(differs)),
            Slip::JoinsByFirstTest => tests.first().is_some_and(differs),
            Slip::JoinsByLastTest => tests.last().is_some_and(differs),
            Slip::JoinsByOneTest => tests.iter().all(differs),
            Slip::JoinsWithoutBands => {
                tests.iter().any(|test| matches!(test.against, Against::Bound(..)) && differs(test))
            }
            Slip::JoinsDistances => {
                tests.iter().any(|test| self.distance(test, before) != self.distance(test, now))
            }
            Slip::JoinsTotals => total(before) != total(now),
            _ => tests.iter().any(differs),
        }
    }

    /// "A test's distance is value - bound for `>` and `>=`, bound - value for `<` and `<=`; it may be
    /// negative, and strict signs measure like the others."
    fn distance(&self, test: &Test, values: &[i64]) -> i64 {
        let value = values[test.channel];
        let distance = match test.against {
            Against::Bound(Sign::Greater | Sign::GreaterOrEqual, bound) => value - bound,
            Against::Bound(Sign::Less | Sign::LessOrEqual, bound) => bound - value,
            Against::Band(low, high) if self.slip(Slip::BandOfChannel0) => self.inside(values[0], low, high),
            Against::Band(low, high) => self.inside(value, low, high),
        };
        let strict = matches!(test.against, Against::Bound(Sign::Less | Sign::Greater, _));
        match self.slip {
            Slip::StrictMeasuresLess if strict => distance - 1,
            Slip::DistanceFromZero => distance.max(0),
            _ => distance,
        }
    }

    /// A band's distance: the value is so far over the low and so far under the high, and the smaller
    /// counts, under both weightings.
    fn inside(&self, value: i64, low: i64, high: i64) -> i64 {
        let (over, under) = (value - low, high - value);
        match self.slip {
            Slip::BandGreater => over.max(under),
            Slip::BandHighForgotten => over,
            Slip::BandLowForgotten => under,
            Slip::BandSumAddsBoth if self.pattern.sum => over + under,
            Slip::BandNearerEnd => over.abs().min(under.abs()),
            Slip::BandByMiddle => (high - low) / 2 - (value - (low + high) / 2).abs(),
            _ => over.min(under),
        }
    }

    /// "the best end, begin and score over the ends of demand 3, or none; among equals the earliest end,
    /// then the shortest."
    fn best_of_all(&self) -> Option<(u64, Best)> {
        let mut answer: Option<(u64, Best)> = None;
        for (end, best) in &self.ends {
            let better = match &answer {
                None => true,
                Some((_, other)) if self.slip(Slip::LatestEnd) => !self.is_better(other.score, best.score),
                Some((_, other)) => self.is_better(best.score, other.score),
            };
            if better {
                answer = Some((*end, *best));
            }
        }
        answer
    }

    /// "fields as headed"; "Ends without a run have no line; with none at all the last line is
    /// `best none`."
    fn print(&self) -> String {
        let mut text = String::from("end begin score\n");
        for (end, best) in &self.ends {
            writeln!(text, "{} {} {}", end, end - best.length, best.score).unwrap();
        }
        match self.best_of_all() {
            Some((end, best)) => writeln!(text, "best {} {} {}", end, end - best.length, best.score).unwrap(),
            None => text.push_str("best none\n"),
        }
        text
    }
}

/// A reading that has not listed the runs yet.
fn scorer<'a>(pattern: &'a Pattern, record: &[Piece], slip: Slip) -> Scorer<'a> {
    let pieces = if slip == Slip::CutsCount { record.to_vec() } else { joined(record) };
    let seen_before = vec![vec![0; pieces.len()]; pattern.places.len()];
    let total = record.last().map_or(0, |piece| piece.to);
    let (anew, ends) = (Vec::new(), BTreeMap::new());
    let mut scorer = Scorer { pattern, pieces, anew, seen_before, total, slip, ends, runs: 0, steps: 0 };
    let begins_anew = |place, piece| piece == 0 || scorer.begins_anew(place, piece);
    let of_place = |place| (0..scorer.pieces.len()).map(|piece| begins_anew(place, piece)).collect();
    scorer.anew = (0..pattern.places.len()).map(of_place).collect();
    scorer
}

fn score<'a>(pattern: &'a Pattern, record: &[Piece], slip: Slip) -> Scorer<'a> {
    let mut scorer = scorer(pattern, record, slip);
    scorer.list_every_run();
    scorer
}

// ---------------------------------------------------------------------------------------- the answer

/// Who refused.
#[derive(Clone, Copy)]
enum By {
    Pattern,
    Record,
    Tables,
}

/// "the pattern is judged first": the pattern text (1 to 5), then the record text (1, 2, then 8), then
/// 11. "Its tables have 2,048 cells each."
fn judge(
    pattern: &[u8],
    record: &[u8],
    slip: Slip,
    faults: &mut Faults,
) -> Result<(Pattern, Vec<Piece>), (u8, By)> {
    let pattern = read_pattern(pattern, slip, faults).map_err(|refusal| (refusal, By::Pattern))?;
    let record = read_record(record, pattern.channels).map_err(|refusal| (refusal, By::Record))?;
    if cells_needed(&pattern) > 2_048 {
        return Err((11, By::Tables));
    }
    Ok((pattern, record))
}

/// "A refusal prints one line and no other, as `refused 11`".
fn answer(pattern: &[u8], record: &[u8]) -> String {
    match judge(pattern, record, Slip::Right, &mut Faults::default()) {
        Err((refusal, _)) => format!("refused {refusal}\n"),
        Ok((pattern, record)) => score(&pattern, &record, Slip::Right).print(),
    }
}

// ----------------------------------------------------------------------------------------- the cases

/// One case of a file of cases: a line `=== NUMBER P R EXPECTED KIND`, then P bytes of pattern text, R
/// bytes of record text, and a line feed. EXPECTED is `-`, or what the generator knows of the answer:
/// `ok` for no refusal, or the refusal's number.
struct Case {
    number: usize,
    expected: String,
    kind: String,
    pattern: Vec<u8>,
    record: Vec<u8>,
}

fn read_cases(path: &str) -> Vec<Case> {
    let bytes = std::fs::read(path).unwrap_or_else(|error| stop(&format!("{path}: {error}")));
    let mut cases = Vec::new();
    let mut rest = &bytes[..];
    while !rest.is_empty() {
        let length = rest.iter().position(|byte| *byte == b'\n').unwrap_or_else(|| stop("header cut short"));
        let header = String::from_utf8(rest[..length].to_vec()).unwrap_or_else(|_| stop("header not text"));
        let fields: Vec<&str> = header.split(' ').collect();
        let ["===", number, pattern, record, expected, kind] = fields[..] else {
            stop(&format!("not a header: {header}"))
        };
        let size = |field: &str| field.parse::<usize>().unwrap_or_else(|_| stop("header without its sizes"));
        let (pattern, record) = (size(pattern), size(record));
        let texts = &rest[length + 1..];
        if texts.get(pattern + record) != Some(&b'\n') {
            stop(&format!("sizes do not fit: {header}"));
        }
        cases.push(Case {
            number: size(number),
            expected: expected.to_string(),
            kind: kind.to_string(),
            pattern: texts[..pattern].to_vec(),
            record: texts[pattern..pattern + record].to_vec(),
        });
        rest = &texts[pattern + record + 1..];
    }
    cases
}

// ------------------------------------------------------------------------------------ the statistics

/// Everything that must occur in the cases. The statistics fail if one of these counts is 0.
fn must_occur() -> Vec<String> {
    let mut names: Vec<String> = [
        "answer: some end has a run",
        "answer: no run, the record has pieces",
        "answer: no run, the record is empty",
        "refused 1 by the pattern",
        "refused 2 by the pattern",
        "refused 3 by the pattern",
        "refused 4 by the pattern",
        "refused 5 by the pattern",
        "refused 1 by the record",
        "refused 2 by the record",
        "refused 8 by the record",
        "refused 11 by the tables",
        "one line with causes for 4 and 3",
        "one line with causes for 4 and 5",
        "one line with causes for 3 and 5",
        "one line with causes for 4, 3 and 5",
        "refused pattern beside a faulty record",
        "refused 8 beside too many cells",
        "needs exactly 2048 cells",
        "tie: one end, the best score at two lengths",
        "tie: one end, two runs of the best score and its least length",
        "tie: the best score at two ends",
        "no start place",
        "no end place",
        "no edge",
        "a loop from a place to itself",
        "two equal edges",
        "a place of both kinds",
        "a duration over 65535",
        "pieces to be joined",
        "the best run has 1 stay",
        "the best run has 2 stays",
        "the best run has 3 stays",
        "the best run has 4 or more stays",
        "the best margin is 2000001",
        "the best score is negative",
        "sum, some end has a run, the record begins with zeros",
        "window: low 1",
        "window: low equals high",
        "window: low over 1",
        "window: some end past high",
    ]
    .map(String::from)
    .to_vec();
    for weighting in ["margin", "sum"] {
        names.push(format!("answered with a run, {weighting}"));
        names.extend((0..=4).map(|clocks| format!("answered with a run, {weighting}, {clocks} clocks")));
        names.extend((1..=8).map(|channels| format!("answered with a run, {weighting}, {channels} channels")));
    }
    for count in 0..=4 {
        names.push(format!("answered with a run, a place with {count} tests"));
        names.push(format!("answered with a run, an edge with {count} guards"));
        names.push(format!("answered with a run, an edge with {count} resets"));
    }
    for sign in ["<", "<=", ">", ">="] {
        names.push(format!("answered with a run, a test with {sign}"));
        names.push(format!("answered with a run, a guard with {sign}"));
    }
    names.extend(bands_must_occur());
    names.extend(twitches_must_occur());
    let slips = SLIPS.iter().chain(&BAND_SLIPS).chain(&SUM_SLIPS).chain(&TEXT_SLIPS);
    names.extend(slips.map(|slip| format!("told apart: {slip:?}")));
    names
}

/// The same of bands. Where a kind of line or a cause is named, the band is on the line that decides.
fn bands_must_occur() -> Vec<String> {
    let mut names: Vec<String> = [
        "refused 1 by the pattern",
        "refused 2 by the record",
        "refused 8 by the record",
        "refused 11 by the tables",
        "refused 2, a place",
        "refused 3, a place",
        "refused 4, a place",
        "refused 5, a place",
        "refused 2, an edge",
        "refused 2, a line of another kind",
        "refused 3, an end out of range",
        "refused 3, an end out of range, beside a channel that is not there",
        "refused 3, low above high",
        "refused 3, low above high, beside a channel that is not there",
        "refused 4, an end out of range",
        "refused 4, low above high",
        "refused 4, a channel that is not there",
        "refused 5, a channel that is not there",
        "behind the line that is refused",
        "before the line that is refused",
        "accepted, but no run",
        "answered with a run, margin",
        "answered with a run, sum",
        "answered with a run, channel 0",
        "answered with a run, another channel",
        "answered with a run, beside a sign",
        "answered with a run, beside a place without tests",
        "answered with a run, equal ends",
        "answered with a run, low -1000000",
        "answered with a run, low 1000000",
        "answered with a run, high -1000000",
        "answered with a run, high 1000000",
        "answered with a run, a value below it",
        "answered with a run, a value at its low",
        "answered with a run, a value inside it",
        "answered with a run, a value at its high",
        "answered with a run, a value above it",
    ]
    .map(|name| format!("band: {name}"))
    .to_vec();
    for count in 1..=4 {
        names.push(format!("band: answered with a run, test {count} of its place"));
        names.push(format!("band: answered with a run, {count} in one place"));
    }
    names
}

/// The same of twitches: of a change from one piece to the next within a stay of some run. Where nothing
/// else is said, the stay's place has tests.
fn twitches_must_occur() -> Vec<String> {
    let mut names = vec![SUM_CASE.to_string(), SUM_CASE_OTHERWISE.to_string()];
    for weighting in ["margin", "sum"] {
        let mut must = |name: &str| names.push(format!("twitch: {weighting}, {name}"));
        must("at a place without tests");
        must("tested channels only");
        must("untested channels only");
        must("tested and untested channels at once");
        must("new to one place and not to another");
        must("tested channels, there and back");
        must("untested channels, there and back");
        must("untested channels only, beside a cut without a change");
        must("untested channels only, in a record cut anew");
        must("untested channels only, at a place with a band");
        must("untested channels only, at a place with two tests of one channel");
        must("the channel of a band");
        (1..=4).for_each(|test| must(&format!("of the tested channels only that of test {test}")));
        (0..8).for_each(|channel| must(&format!("channel {channel} only, tested")));
        (0..8).for_each(|channel| must(&format!("channel {channel} only, untested")));
        (2..=8).for_each(|channels| must(&format!("untested channels only, of {channels} in all")));
    }
    names
}

/// The sums among the cases made for R-3, and those of them that it makes a difference to.
const SUM_CASE: &str = "twitch: a sum of these kinds";
const SUM_CASE_OTHERWISE: &str = "twitch: a sum of these kinds, with another answer by the whole sample";

fn sign_text(sign: Sign) -> &'static str {
    match sign {
        Sign::Less => "<",
        Sign::LessOrEqual => "<=",
        Sign::Greater => ">",
        Sign::GreaterOrEqual => ">=",
    }
}

/// Whether a text has what a band begins with. Where it has not, no reading of bands matters.
fn has_band(text: &[u8]) -> bool {
    text.windows(4).any(|bytes| bytes == b"(in ")
}

/// What a refused case with bands shows of them.
fn bands_refused(case: &Case, refusal: u8, by: By, faults: &Faults) -> Vec<String> {
    let mut seen = Vec::new();
    let mut see = |occurs: bool, name: &str| {
        if occurs {
            seen.push(format!("band: {name}"));
        }
    };
    match by {
        By::Pattern if refusal == 1 => see(true, "refused 1 by the pattern"),
        By::Pattern => {
            let lines: Vec<&[u8]> = case.pattern.split(|byte| *byte == b'\n').collect();
            let (line, behind) = (lines[faults.line], &lines[faults.line + 1..]);
            let kind = match line.split(|byte| *byte == b' ').next() {
                Some(b"(place") => "a place",
                Some(b"(edge") => "an edge",
                _ => "a line of another kind",
            };
            see(has_band(line), &format!("refused {refusal}, {kind}"));
            see(behind.iter().any(|line| has_band(line)), "behind the line that is refused");
            see(lines[..faults.line].iter().any(|line| has_band(line)), "before the line that is refused");
            let (end, above) = (faults.end_out_of_range, faults.low_above_high);
            let channel = faults.no_such_channel;
            for (occurs, causes) in [
                (end, "an end out of range"),
                (above, "low above high"),
                (channel, "a channel that is not there"),
                (end && channel, "an end out of range, beside a channel that is not there"),
                (above && channel, "low above high, beside a channel that is not there"),
            ] {
                see(occurs, &format!("refused {refusal}, {causes}"));
            }
        }
        By::Record => see(true, &format!("refused {refusal} by the record")),
        By::Tables => see(true, &format!("refused {refusal} by the tables")),
    }
    seen
}

/// What a case that is answered with a run shows of its bands.
fn bands_answered(pattern: &Pattern, record: &[Piece]) -> Vec<String> {
    let mut seen = Vec::new();
    let mut see = |occurs: bool, name: &str| {
        if occurs {
            seen.push(format!("band: answered with a run, {name}"));
        }
    };
    let without_tests = pattern.places.iter().any(|place| place.tests.is_empty());
    for place in &pattern.places {
        let count = place.bands().count();
        see(count > 0, &format!("{count} in one place"));
        for (at, channel, low, high) in place.bands() {
            see(true, if pattern.sum { "sum" } else { "margin" });
            see(true, if channel == 0 { "channel 0" } else { "another channel" });
            see(true, &format!("test {} of its place", at + 1));
            see(count < place.tests.len(), "beside a sign");
            see(without_tests, "beside a place without tests");
            see(low == high, "equal ends");
            see(low.abs() == 1_000_000, &format!("low {low}"));
            see(high.abs() == 1_000_000, &format!("high {high}"));
            for value in record.iter().map(|piece| piece.values[channel]) {
                see(value < low, "a value below it");
                see(value == low, "a value at its low");
                see(value > low && value < high, "a value inside it");
                see(value == high, "a value at its high");
                see(value > high, "a value above it");
            }
        }
    }
    seen
}

/// What a case that is answered with a run shows of twitches.
fn twitches_answered(case: &Case, record: &[Piece], right: &Scorer) -> Vec<String> {
    let (pattern, pieces) = (right.pattern, &right.pieces);
    let mut seen = Vec::new();
    let mut see = |occurs: bool, name: &str| {
        if occurs {
            seen.push(format!("twitch: {}, {name}", if pattern.sum { "sum" } else { "margin" }));
        }
    };
    // With one channel, a place with tests leaves none out.
    let twitches = if pattern.channels > 1 { 1..pieces.len() } else { 0..0 };
    for at in twitches {
        let crossed = |place: &usize| right.seen_before[*place][at] > 0;
        let crossed: Vec<usize> = (0..pattern.places.len()).filter(crossed).collect();
        let with_tests = |place: &&usize| !pattern.places[**place].tests.is_empty();
        let [new, old] = [true, false]
            .map(|anew| crossed.iter().filter(with_tests).any(|place| right.anew[*place][at] == anew));
        see(new && old, "new to one place and not to another");
        let now = &pieces[at].values;
        let cut = pieces[at - 1..=at].iter().any(|piece| {
            record.iter().any(|part| piece.from < part.to && part.to < piece.to)
        });
        let changed = |channel: &usize| right.changes(at, *channel);
        let changed: Vec<usize> = (0..pattern.channels).filter(changed).collect();
        for number in crossed {
            let place = &pattern.places[number];
            if place.tests.is_empty() {
                see(true, "at a place without tests");
                continue;
            }
            let (tested, untested): (Vec<usize>, Vec<usize>) =
                changed.iter().partition(|channel| place.tests_channel(**channel));
            see(untested.is_empty(), "tested channels only");
            see(!tested.is_empty() && !untested.is_empty(), "tested and untested channels at once");
            let before = (right.seen_before[number][at] > 1).then(|| &pieces[at - 2].values);
            let back = |channel: &usize| before.is_some_and(|values| values[*channel] == now[*channel]);
            see(tested.iter().any(back), "tested channels, there and back");
            see(untested.iter().any(back), "untested channels, there and back");
            see(place.bands().any(|(_, channel, ..)| tested.contains(&channel)), "the channel of a band");
            if let [channel] = changed[..] {
                let name = if tested.is_empty() { "untested" } else { "tested" };
                see(true, &format!("channel {channel} only, {name}"));
            }
            let with_others = tested.len() == 1 && place.tests.iter().any(|test| test.channel != tested[0]);
            for (test, Test { channel, .. }) in (1..).zip(&place.tests) {
                let this = with_others && tested[0] == *channel;
                see(this, &format!("of the tested channels only that of test {test}"));
            }
            if tested.is_empty() {
                let mut see = |occurs: bool, name: &str| see(occurs, &format!("untested channels only{name}"));
                see(true, "");
                see(true, &format!(", of {} in all", pattern.channels));
                see(cut, ", beside a cut without a change");
                see(case.kind.ends_with("cut-anew"), ", in a record cut anew");
                see(place.bands().next().is_some(), ", at a place with a band");
                let tests = |channel| place.tests.iter().filter(|test| test.channel == channel).count();
                let twice = (0..pattern.channels).any(|channel| tests(channel) > 1);
                see(twice, ", at a place with two tests of one channel");
            }
        }
    }
    seen
}

/// Whether the runs need be listed under a slip of sums: not if the case lacks what the slip is about.
fn may_tell(record: &[Piece], right: &Scorer, slip: Slip) -> bool {
    let (places, edges) = (&right.pattern.places, &right.pattern.edges);
    let other_channel = |place: &Place| place.tests.iter().any(|test| test.channel != place.tests[0].channel);
    let most_before = right.seen_before.iter().flatten().max().copied().unwrap_or(0);
    match slip {
        Slip::FreeStayAddsOne | Slip::FreeStayAddsFar => places.iter().any(|place| place.tests.is_empty()),
        Slip::GoesOnInPlace => edges.iter().any(|edge| edge.to == edge.from),
        Slip::GoesOnAfterReturn => edges.iter().any(|edge| edge.to <= edge.from),
        Slip::JoinsApart => most_before > 1,
        _ if most_before == 0 => false,
        Slip::JoinsToFirstTick => true,
        Slip::JoinsEachTest => places.iter().any(other_channel),
        Slip::JoinsByStartPlace | Slip::JoinsByPlaceEntered => {
            right.anew.iter().any(|of_place| *of_place != right.anew[0])
        }
        _ => scorer(right.pattern, record, slip).anew != right.anew,
    }
}

/// What one case shows, each thing once.
fn seen_in(case: &Case) -> (Vec<String>, u64, u64) {
    let mut seen: Vec<String> = Vec::new();
    let (mut runs, mut steps) = (0, 0);
    let mut see = |occurs: bool, name: &str| {
        if occurs && !seen.iter().any(|other| other == name) {
            seen.push(name.to_string());
        }
    };
    let mut faults = Faults::default();
    let judged = judge(&case.pattern, &case.record, Slip::Right, &mut faults);
    let refused = judged.as_ref().err().copied();
    let bands = has_band(&case.pattern);
    match refused {
        Some((refusal, By::Pattern)) => {
            see(true, &format!("refused {refusal} by the pattern"));
            let Faults { too_many, no_such_index, .. } = faults;
            let out_of_range = faults.out_of_range || faults.low_above_high;
            see(too_many && out_of_range && no_such_index, "one line with causes for 4, 3 and 5");
            see(too_many && out_of_range, "one line with causes for 4 and 3");
            see(too_many && no_such_index, "one line with causes for 4 and 5");
            see(out_of_range && no_such_index, "one line with causes for 3 and 5");
            let faulty = matches!(read_record(&case.record, 1), Err(1 | 2));
            see(faulty, "refused pattern beside a faulty record");
        }
        Some((refusal, By::Record)) => {
            see(true, &format!("refused {refusal} by the record"));
            let pattern = read_pattern(&case.pattern, Slip::Right, &mut Faults::default());
            let cells = pattern.map_or(0, |pattern| cells_needed(&pattern));
            see(refusal == 8 && cells > 2_048, "refused 8 beside too many cells");
        }
        Some((refusal, By::Tables)) => see(true, &format!("refused {refusal} by the tables")),
        None => {}
    }
    if let (Some((refusal, by)), true) = (refused, bands) {
        bands_refused(case, refusal, by, &faults).iter().for_each(|name| see(true, name));
    }
    let number = |refused: Option<(u8, By)>| refused.map(|(refusal, _)| refusal);
    for slip in TEXT_SLIPS.iter().filter(|_| bands) {
        let wrong = judge(&case.pattern, &case.record, *slip, &mut Faults::default()).err();
        see(number(wrong) != number(refused), &format!("told apart: {slip:?}"));
    }
    if let Ok((pattern, record)) = &judged {
        let right = score(pattern, record, Slip::Right);
        let printed = right.print();
        let has_run = !right.ends.is_empty();
        (runs, steps) = (right.runs, right.steps);
        see(has_run, "answer: some end has a run");
        see(!has_run && !record.is_empty(), "answer: no run, the record has pieces");
        see(!has_run && record.is_empty(), "answer: no run, the record is empty");
        see(cells_needed(pattern) == 2_048, "needs exactly 2048 cells");
        see(right.ends.values().any(|best| best.other_lengths), "tie: one end, the best score at two lengths");
        let equal_runs = right.ends.values().any(|best| best.runs > 1);
        see(equal_runs, "tie: one end, two runs of the best score and its least length");
        see(!pattern.places.iter().any(|place| place.start), "no start place");
        see(!pattern.places.iter().any(|place| place.end), "no end place");
        see(pattern.edges.is_empty(), "no edge");
        see(pattern.edges.iter().any(|edge| edge.from == edge.to), "a loop from a place to itself");
        see(pattern.places.iter().any(|place| place.start && place.end), "a place of both kinds");
        let key = |edge: &Edge| {
            let guards = edge.guards.iter().map(|guard| (sign_text(guard.sign), guard.clock, guard.bound));
            (edge.from, edge.to, guards.collect::<Vec<_>>(), edge.resets.clone())
        };
        let keys: Vec<_> = pattern.edges.iter().map(key).collect();
        let twice = (0..keys.len()).any(|one| keys[..one].contains(&keys[one]));
        see(twice, "two equal edges");
        see(record.iter().any(|piece| piece.to - piece.from > 65_535), "a duration over 65535");
        see(right.pieces.len() < record.len(), "pieces to be joined");
        see(pattern.low == 1, "window: low 1");
        see(pattern.low > 1, "window: low over 1");
        see(pattern.low == pattern.high, "window: low equals high");
        let zeros = record.first().is_some_and(|piece| piece.values.iter().all(|value| *value == 0));
        see(zeros && has_run && pattern.sum, "sum, some end has a run, the record begins with zeros");
        see(right.ends.keys().any(|end| *end > pattern.high), "window: some end past high");
        if let Some((_, best)) = right.best_of_all() {
            match best.stays {
                1 => see(true, "the best run has 1 stay"),
                2 => see(true, "the best run has 2 stays"),
                3 => see(true, "the best run has 3 stays"),
                _ => see(true, "the best run has 4 or more stays"),
            }
            see(!pattern.sum && best.score == FREE, "the best margin is 2000001");
            see(best.score < 0, "the best score is negative");
            let ends = right.ends.values().filter(|other| other.score == best.score).count();
            see(ends > 1, "tie: the best score at two ends");
            let name = format!("answered with a run, {}", if pattern.sum { "sum" } else { "margin" });
            see(true, &name);
            see(true, &format!("{name}, {} clocks", pattern.clocks));
            see(true, &format!("{name}, {} channels", pattern.channels));
            for place in &pattern.places {
                see(true, &format!("answered with a run, a place with {} tests", place.tests.len()));
                for test in &place.tests {
                    if let Against::Bound(sign, _) = test.against {
                        see(true, &format!("answered with a run, a test with {}", sign_text(sign)));
                    }
                }
            }
            bands_answered(pattern, record).iter().for_each(|name| see(true, name));
            twitches_answered(case, record, &right).iter().for_each(|name| see(true, name));
            for edge in &pattern.edges {
                see(true, &format!("answered with a run, an edge with {} guards", edge.guards.len()));
                see(true, &format!("answered with a run, an edge with {} resets", edge.resets.len()));
                for guard in &edge.guards {
                    see(true, &format!("answered with a run, a guard with {}", sign_text(guard.sign)));
                }
            }
        }
        see(bands && !has_run, "band: accepted, but no run");
        // Where even the right listing takes long, the slips are not tried.
        let cheap = right.steps + right.total <= SLIP_STEPS;
        let slips = SLIPS.iter().chain(BAND_SLIPS.iter().filter(|_| bands));
        let in_sum = SUM_SLIPS.iter().filter(|slip| pattern.sum && may_tell(record, &right, **slip));
        let slips = slips.chain(in_sum);
        let twitch = pattern.sum && case.kind.starts_with("twitch");
        see(twitch, SUM_CASE);
        for &slip in slips.filter(|_| cheap) {
            let wrong = score(pattern, record, slip);
            let told = !wrong.given_up() && wrong.print() != printed;
            see(told, &format!("told apart: {slip:?}"));
            see(told && twitch && slip == Slip::JoinsWholeSample, SUM_CASE_OTHERWISE);
        }
    }
    let meets_expectation = match (&case.expected[..], refused) {
        ("-", _) | ("ok", None) => true,
        (expected, Some((refusal, _))) => expected == refusal.to_string(),
        _ => false,
    };
    see(!meets_expectation, "NOT AS THE GENERATOR EXPECTS");
    see(case.expected != "-", "the generator knew the refusal, or that there is none");
    (seen, runs, steps)
}

/// Prints the statistics; answers whether all is well.
fn statistics(cases: &[Case]) -> bool {
    let mut counts: BTreeMap<String, u64> = must_occur().into_iter().map(|name| (name, 0)).collect();
    let mut kinds: BTreeMap<String, BTreeMap<String, u64>> = BTreeMap::new();
    let (mut runs, mut steps, mut most, mut well) = (0, 0, 0, true);
    for case in cases {
        let (seen, listed, tried) = seen_in(case);
        runs += listed;
        steps += tried;
        most = most.max(listed);
        let result = seen.iter().find(|name| name.starts_with("refused ") || name.starts_with("answer: "));
        let results = kinds.entry(case.kind.clone()).or_default();
        *results.entry(result.cloned().unwrap_or_default()).or_default() += 1;
        if seen.iter().any(|name| name == "NOT AS THE GENERATOR EXPECTS") {
            println!("case {} ({}): expected {}", case.number, case.kind, case.expected);
            well = false;
        }
        for name in seen {
            *counts.entry(name).or_default() += 1;
        }
    }
    println!("{:7}  cases", cases.len());
    println!("{runs:7}  runs listed and priced in all, at most {most} in one case; {steps} steps tried");
    for (name, count) in &counts {
        println!("{count:7}  {name}");
        if *count == 0 {
            println!("         ^ never occurs");
            well = false;
        }
    }
    if counts[SUM_CASE_OTHERWISE] * 3 < counts[SUM_CASE] {
        println!("         ^ R-3 makes a difference in fewer than a third of its sums");
        well = false;
    }
    for (kind, results) in kinds {
        let results: Vec<String> = results.iter().map(|(result, count)| format!("{count} {result}")).collect();
        println!("kind {kind}: {}", results.join("; "));
    }
    well
}

// ------------------------------------------------------------------------------------------- the end

fn stop(message: &str) -> ! {
    eprintln!("{message}");
    exit(2)
}

fn main() {
    let arguments: Vec<String> = std::env::args().skip(1).collect();
    let arguments: Vec<&str> = arguments.iter().map(String::as_str).collect();
    match arguments[..] {
        ["--many", cases, "--answers", out] => {
            for case in read_cases(cases) {
                let path = format!("{out}/{}", case.number);
                let written = std::fs::write(&path, answer(&case.pattern, &case.record));
                written.unwrap_or_else(|error| stop(&format!("{path}: {error}")));
            }
        }
        ["--many", cases, "--stats"] => {
            if !statistics(&read_cases(cases)) {
                exit(1);
            }
        }
        [directory] if !directory.starts_with("--") => {
            // "A file that can't be opened counts as empty".
            let text = |name: &str| std::fs::read(format!("{directory}/{name}")).unwrap_or_default();
            print!("{}", answer(&text("pattern.txt"), &text("record.txt")));
        }
        _ => stop("usage: readings DIR | readings --many CASES (--answers OUT | --stats)"),
    }
}
