/* bench_margin.h: what a host program written in C calls of the bench margin monitor.
 *
 * Build the library with `rt lib` in crates/host and link crates/host/out/libhost.a (x86-64 Linux):
 *
 *     cc -Iinclude program.c crates/host/out/libhost.a
 *
 * examples/c is a program that runs a bench with it. In short:
 *
 *     cells = pattern_cells(text, length);                      0: the text is refused, pattern_check says why
 *     first = malloc(cells * sizeof *first);  second = ...      two tables of that many cells
 *     monitor_open(text, length, state, MONITOR_STATE_LENGTH, first, cells, second, cells);
 *     monitor_feed(text, length, state, MONITOR_STATE_LENGTH, first, cells, second, cells,
 *                  ticks, values, channels, scores, ticks, lengths, ticks);      once for each piece as it arrives
 *
 * The pattern text (docs/MANUAL.md has all of it)
 *
 *     (pattern margin 1 1 1 4)          margin or sum; channels, 1 to 8; clocks, 0 to 4; the window's low and its high in
 *                                       ticks, 1 to 4095 and low to 4095
 *     (place start (< 0 15))            1 to 16 places: start, plain, end or both (start and end), then 0 to 4 tests: a sign
 *     (place plain (in 0 5 45))         <, <=, > or >=, a channel, a bound from -1000000 to 1000000; or a band: in, a channel,
 *     (place end)                       a low and a high, each in a bound's range, the low not above the high
 *     (edge 0 1 (< 0 3) (reset 0))      0 to 32 edges: from place, to place, then 0 to 4 guards: a sign, a clock, a bound from
 *     (edge 1 2 (<= 0 2))               0 to 1000; then the clocks that it resets, rising, or no such bracket
 *
 *   - One form a line in this order, single spaces exactly as shown, each line ended by a line feed, the last one too. Numbers
 *     have no leading zero and no sign but the minus of a test's bound, low or high. Places, edges, channels and clocks count
 *     from 0.
 *   - Time is counted in ticks. A record says which value each channel has at each tick, as pieces: a duration and its values.
 *   - A run enters a start place at its begin, with all clocks at 0. It goes in steps: it stays in its place for at least 1
 *     tick, while all clocks grow; then it takes an edge out of that place whose guards all hold of the clocks; then the
 *     edge's resets set clocks to 0. It ends where its last edge enters an end place. Its length is its end less its begin.
 *   - A test's distance is the value less the bound for > and >=, the bound less the value for < and <=, and for a band the
 *     smaller of the value less the low and the high less the value; it may be negative. In `margin` a run is worth the least
 *     distance of its stays' tests over the pieces that they touch, and the best run is the one with the greatest score. In
 *     `sum` a run is worth all distances added, once for each observation, and the best run is the one with the least score.
 *     Neighbouring ticks of a stay are one observation while the channels that its place tests keep their values; what other
 *     channels do makes no difference, and a stay without tests adds 0. How a record is cut into pieces makes none either.
 *   - Only runs whose length is in the window, from its low to its high, count for monitor_feed and record_best.
 *   - The host knows the weighting and the channels from the text's first line: no function tells them.
 *
 * What holds of every function
 *   - A slice is a pointer to its first element and the number of its elements. Also where the number is 0 the pointer is not
 *     null and is aligned for its type. That many elements can be read there (and written, where it is not const).
 *   - A text is a slice of bytes. It need not end in a zero byte, and a zero byte in it counts like any other.
 *   - A slice that is not const overlaps no other slice of the call, whatever the call then does, and no other thread reads or
 *     writes it during the call. Nobody writes the const ones during the call; they may overlap each other.
 *   - Nothing is kept between calls, nothing is allocated, and nothing is written but what is said below and the
 *     function's own part of the stack (some 43 kilobytes, measured by tests/hostile), so any number of threads may call at
 *     a time.
 *   - Every content of the slices is answered. A call is done, or it is refused: then nothing lent is altered, and the number
 *     of the refusal says the first cause in the order that is given for the function. pattern_check, monitor_open and
 *     monitor_feed return that number, or 0 when done; run_price and record_best return it as `refusal`, beside zeros;
 *     pattern_cells returns 0 for a refused text, and pattern_check says its number.
 *   - The pattern is read anew from its text at each call. */
#ifndef BENCH_MARGIN_H
#define BENCH_MARGIN_H

#include <stddef.h>
#include <stdint.h>

#ifdef __cplusplus
extern "C" {
#endif

/* Why a call is refused. On the first faulty line of a pattern text the causes are tried in the order 2, 4, 3, 5. */
enum {
    PATTERN_ACCEPTED = 0,
    TEXT_TOO_LONG = 1,         /* over PATTERN_TEXT_MAX bytes */
    TEXT_BROKEN = 2,           /* the form is broken: also empty text, a missing line feed, a line of the wrong kind,
                                  no place at all */
    PATTERN_OUT_OF_RANGE = 3,  /* a number outside its range, or a band's low above its high */
    PATTERN_TOO_MANY = 4,      /* a place, edge, test or guard too many */
    PATTERN_UNKNOWN_INDEX = 5, /* an index that the pattern lacks, or a reset not above the one before it */

    CALL_DONE = 0,
    REPORTS_TOO_SHORT = 6, /* a report slice shorter than the duration */
    PATTERN_UNSOUND = 7,   /* a pattern value that no text reads as: never answered here, where a pattern is a text */
    RECORD_BROKEN = 8,     /* a record or a piece breaks its rules, or slices disagree in length */
    RUN_BROKEN = 9,        /* edges and stays differ in length, are none or over RUN_STEPS_MAX, or the begin is not inside
                              the record */
    RUN_IMPOSSIBLE = 10,   /* edges and stays are not a run, or pass the record's end */
    TABLE_TOO_SHORT = 11,  /* a table shorter than the cells needed */
    STATE_BROKEN = 12,     /* a state that no monitor can be in, or a slice too short for one */
    TOO_MANY_TICKS = 13,   /* the ticks in all would pass TICKS_MAX */
    CELL_BROKEN = 14       /* a needed cell of the first table is neither CELL_MARK nor within CELL_MAX of 0 */
};

/* TICKS_MAX and PIECE_TICKS_MAX are unsigned, as durations are; VALUE_MAX, CELL_MAX and CELL_MARK are signed. */
#define PATTERN_TEXT_MAX 8192                  /* bytes of a pattern text */
#define PATTERN_CHANNELS_MAX 8                 /* channels of a pattern */
#define MONITOR_STATE_LENGTH 9                 /* entries of a monitor's state */
#define PIECE_TICKS_MAX UINT32_C(65535)        /* ticks of a piece that is fed; longer ones are fed in parts */
#define TICKS_MAX UINT32_C(2147483647)         /* ticks of a record, and of all pieces that were fed */
#define RECORD_PIECES_MAX 4096                 /* pieces of a record */
#define RUN_STEPS_MAX 4095                     /* steps of a run, and ticks of one that a monitor reports */
#define VALUE_MAX INT32_C(1000000)             /* a value is from -VALUE_MAX to VALUE_MAX */
#define CELL_MAX INT64_C(32760000000)          /* a cell's worth is from -CELL_MAX to CELL_MAX, */
#define CELL_MARK INT64_MIN                    /* or this mark: no run is in that state now */
#define SCORE_WITHOUT_TESTS INT64_C(2000001)   /* what a stay without tests is worth in `margin`, for infinity */

/* Checks a pattern text: PATTERN_ACCEPTED (0), or the number of the refusal, 1 to 5. */
uint32_t pattern_check(const uint8_t *text, size_t length);

/* How many cells each of the monitor's two tables needs for the pattern of this text: at least 1 for an accepted text,
 * and 0 for a refused one. A cell is a signed 64-bit number. The count fits 64 bits, and may be more than there is memory. */
uint64_t pattern_cells(const uint8_t *text, size_t length);

/* Opens a monitor for the pattern of this text: no ticks so far.
 *
 * `state` is the monitor's state, MONITOR_STATE_LENGTH entries: entry 0 holds the ticks so far, entries 1 to 8 the last
 * value of each channel, zeros before the first piece and in unused channels. What it held before does not matter.
 * `first` and `second` are the monitor's tables, at least pattern_cells numbers each. What they held does not matter.
 * Further entries and cells are left as they are. State and first table belong together, and to this pattern: keep them as
 * they are between the calls. The cells needed of the second table are all CELL_MARK after each call that is done, and may hold
 * anything before the next: they only have to be there.
 *
 * Done: 0. Refused, in this order: 1 to 5 for the text; TABLE_TOO_SHORT; STATE_BROKEN, for a state of fewer than 9 entries. */
uint32_t monitor_open(const uint8_t *text, size_t length, int64_t *state, size_t state_length, int64_t *first,
                      size_t first_length, int64_t *second, size_t second_length);

/* Feeds a piece to an open monitor: for `duration` ticks, 1 to PIECE_TICKS_MAX, channel i had the value values[i]; there are
 * as many values as the pattern has channels. A piece that is as the one before it goes on with it, so it makes no difference
 * where longer ones are cut.
 *
 * For tick i of the piece, from 0, scores[i] and lengths[i] report the best run in the window that ends after that tick, at
 * the time state[0] + i + 1 with state[0] as it was before the call: its score (the greatest in `margin`, the least in
 * `sum`), and how many ticks it took, the least if there are several. Its begin is that end less the length. Length 0, with
 * score 0, says that there is none. Places from `duration` on are left as they are.
 * The reports are so where monitor_open was done, and every call since had the text of the opening and found the state and
 * the first table as the call before it left them. The library keeps nothing, so it cannot notice another text.
 * The state and the first table are moved on. A cell of the first table that no call wrote is taken as the worth it says; the
 * order of the cells is, slowest first: length so far from 0 to the window's high, stage (0 just entered, 1 staying), place,
 * clock 0, clock 1 and on, each from 0 to its ceiling (document 01, "Monitor tables").
 *
 * Done: 0. Refused, in this order, in which the state comes before the tables: 1 to 5 for the text; STATE_BROKEN, for fewer
 * than 9 entries, ticks that are not 0 to TICKS_MAX, a value out of range, a value that is not 0 in an unused channel, or any
 * that is not 0 at 0 ticks; TABLE_TOO_SHORT; RECORD_BROKEN, for the duration, the number of values, or a value out of range;
 * TOO_MANY_TICKS; CELL_BROKEN; REPORTS_TOO_SHORT. */
uint32_t monitor_feed(const uint8_t *text, size_t length, int64_t *state, size_t state_length, int64_t *first,
                      size_t first_length, int64_t *second, size_t second_length, uint32_t duration,
                      const int32_t *values, size_t values_length, int64_t *scores, size_t scores_length,
                      uint32_t *lengths, size_t lengths_length);

struct run_price {
    uint32_t refusal; /* 0, or the refusal's number */
    int64_t score;    /* what the run is worth */
};

/* Prices a run in a record. The record has a piece for each duration, of at least 1 tick, up to RECORD_PIECES_MAX pieces
 * and TICKS_MAX ticks in all; its values stand piece by piece, and in a piece channel by channel. The run begins at tick
 * `begin` in a start place; step i stays stays[i] ticks, at least 1, and then takes edge edges[i], counted from 0 as in
 * the text; the last edge enters an end place. The pattern's window does not count. Nothing lent is written.
 *
 * Refused, in this order: 1 to 5 for the text; RECORD_BROKEN; RUN_BROKEN; RUN_IMPOSSIBLE, also for an edge that the pattern lacks,
 * a first edge out of no start place, an edge that does not leave the place where the run is, or whose guards do not hold, a
 * last edge that enters no end place, or a stay of 0 ticks. */
struct run_price run_price(const uint8_t *text, size_t length, const uint32_t *durations, size_t durations_length,
                           const int32_t *values, size_t values_length, uint32_t begin, const uint32_t *edges,
                           size_t edges_length, const uint32_t *stays, size_t stays_length);

struct record_best {
    uint32_t refusal; /* 0, or the refusal's number */
    uint32_t found;   /* 1 if there is a run in the window; 0 if there is none, or at a refusal: the rest is then 0 */
    uint32_t end;     /* how many ticks of the record have passed when the best run ends; among equals the earliest, */
    uint32_t begin;   /* and when it begins; among equals with that end the latest, which makes the shortest */
    int64_t score;    /* the greatest in `margin`, the least in `sum` */
};

/* The best run of a whole record (laid out as for run_price) among those whose length is in the pattern's window. The
 * tables are as for monitor_open, and are left as opening a monitor and feeding it the whole record leaves them; there is no
 * state with them, so a monitor that is to go on is opened and fed instead. A record without pieces has no run.
 *
 * Refused, in this order: 1 to 5 for the text; RECORD_BROKEN; TABLE_TOO_SHORT. */
struct record_best record_best(const uint8_t *text, size_t length, const uint32_t *durations, size_t durations_length,
                               const int32_t *values, size_t values_length, int64_t *first, size_t first_length,
                               int64_t *second, size_t second_length);

#ifdef __cplusplus
}
#endif

#endif
