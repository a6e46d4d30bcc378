/* calls.h: the C functions, called on lent slices (lend.h), each call checked by value against what the header promises.
 *
 * The refusal must be the first cause in document 01's order, which is worked out here anew. At a refusal nothing lent may
 * have changed, and when done nothing past the needed cells, past the duration or past entry 8 of the state; what is only
 * read may never change. An opening leaves the marks and the empty runs; a feed leaves in every slice what the plain monitor
 * of bench/ leaves there, whatever the first table held. */
#ifndef CALLS_H
#define CALLS_H

#include <inttypes.h>

#include "bench_margin.h"
#include "../lend.h"
#include "patterns.h"
#include "plain.h"

#define CELLS 6000          /* the longest table that is lent */
#define STEPS 4200          /* the longest list of edges, stays or durations */
#define LONG 65540          /* the longest report slice */
#define PLAIN_MOST 20000000 /* cells times ticks that the plain monitor follows */

enum { CHECK, COUNT, OPEN, FEED, PRICE, BEST, FUNCTIONS };

static const char *const names[] = {"pattern_check", "pattern_cells", "monitor_open",
                                    "monitor_feed",  "run_price",     "record_best"};

/* what stands for a slice that is too short or too long: alone, or both of a kind with the same length */
enum { STATE, FIRST, SECOND, TABLES, VALUES, SCORES, LENGTHS, REPORTS, SLICES };

static const char *const slice_names[] = {"state", "first", "second", "tables", "values", "scores", "lengths", "reports"};

enum { EMPTY, ONE_SHORT, ONE_LONG, SHAPES };

static const char *const shape_names[] = {"empty", "one short", "one long"};

/* where a value lies that a band measures; at both ends if these are equal */
enum { BELOW, AT_LOW, INSIDE, AT_HIGH, ABOVE, AT_BOTH, SIDES };

static const char *const side_names[] = {"below", "at low", "inside", "at high", "above", "at both"};

/* how a feed's values differ from the state's last ones: not at all; in no channel that is tested where a run stays; so that all
 * places where one stays meet something new; or so that one of them does and another does not */
enum { STILL, UNSEEN, NEW_TO_ALL, NEW_TO_SOME, MOVES };

static const char *const move_names[] = {"none", "unseen", "new to all", "new to some"};

static uint64_t calls, compared, seen[FUNCTIONS][16], shaped[FUNCTIONS][SLICES][SHAPES];
static uint64_t measured[2][SIDES]; /* by bands, in feeds that are compared: in margin, in sum */
static uint64_t moved[MOVES];       /* in sum, with two or more channels, in feeds that are compared */
static uint64_t round_seed;
static int failures;

static struct lent text, state, first, second, values, scores, lengths, durations, edges, stays;

static void fail(const char *what)
{
    if (++failures <= 20)
        printf("FAILED: seed %" PRIu64 ", call %" PRIu64 ": %s\n", round_seed, calls, what);
}

static void expect(int holds, const char *what)
{
    if (!holds)
        fail(what);
}

static void told(int function, uint32_t number)
{
    calls++;
    if (number > 15)
        fail("a number that is no refusal");
    else
        seen[function][number]++;
}

/* Counts a slice that is the cause of a refusal. */
static void shape(int function, int slice, size_t count, uint64_t needed)
{
    shaped[function][slice][EMPTY] += count == 0;
    shaped[function][slice][ONE_SHORT] += count != 0 && count + 1 == needed;
    shaped[function][slice][ONE_LONG] += count == needed + 1;
}

/* The same of two slices, where at least one is too short. */
static void shape_two(int function, int slice, size_t one, size_t other, uint64_t needed)
{
    if (other >= needed)
        shape(function, slice, one, needed);
    else if (one >= needed)
        shape(function, slice + 1, other, needed);
    else if (one == other)
        shape(function, slice + 2, one, needed);
}

static unsigned where(void)
{
    return (unsigned)between(0, 2);
}

static int in_range(int64_t value)
{
    return value >= -VALUE_MAX && value <= VALUE_MAX;
}

/* ---- the slices */

static void lend_text(const uint8_t *bytes, size_t length)
{
    memcpy(lend(&text, length, where()), bytes, length);
    lend_keep(&text);
}

static int64_t wild64(void)
{
    static const int64_t odd[] = {0,       1,           -1,          INT64_MIN,   INT64_MAX,    INT64_C(2147483647),
                                  INT64_C(2147483648),  INT64_C(-2147483648),    INT64_C(-2147483649),
                                  INT64_C(4294967295),  INT64_C(4294967296),     INT64_C(4294967297),
                                  1000000, 1000001,     -1000000,    -1000001,   INT64_C(8589934592)};

    return once(3) ? (int64_t)draw() : odd[draw() % (sizeof odd / sizeof *odd)];
}

static uint32_t wild32(void)
{
    static const uint32_t odd[] = {0, 1, 2, 65535, 65536, UINT32_C(2147483647), UINT32_C(2147483648), UINT32_MAX};

    return once(3) ? (uint32_t)draw() : odd[draw() % (sizeof odd / sizeof *odd)];
}

/* A state: one that a monitor may be in, the same with one entry changed, or anything. */
static void lend_state(int channels)
{
    size_t count = (size_t)(once(24) ? 0 : once(24) ? 8 : once(24) ? between(1, 7) : once(2) ? 9 : between(9, 12));
    int64_t *at = lend(&state, count, where());
    int zero = once(4), wild = once(10);

    for (size_t i = 0; i < count; i++) {
        if (i == 0)
            at[i] = zero ? 0 : once(5) ? (int64_t)TICKS_MAX - between(0, once(2) ? 30 : 70000) : between(1, 1000);
        else
            at[i] = zero || i > (size_t)channels ? 0 : between(-30, 30);
        if (i > 8 || wild)
            at[i] = wild64();
    }
    if (count != 0 && once(8))
        at[draw() % count] = wild64();
    lend_keep(&state);
}

static void lend_table(struct lent *l, size_t count, int fine)
{
    int64_t *at = lend(l, count, where());

    for (size_t i = 0; i < count; i++)
        at[i] = !fine && once(2) ? wild64() : once(2) ? CELL_MARK : once(10) ? (once(2) ? CELL_MAX : -CELL_MAX)
                                                                             : between(-100, 100);
    if (fine && count != 0 && once(10))
        at[draw() % count] = once(2) ? CELL_MAX + 1 : -CELL_MAX - 1;
    lend_keep(l);
}

/* Two tables: long enough, or one or both of them empty, one short, or of any length. */
static void lend_tables(uint64_t cells, int fine)
{
    size_t most = CELLS - 1, few = 0, m, n;
    int64_t kind = between(0, 23);

    if (kind == 6 || cells == 0 || cells > CELLS - 10) {
        m = once(4) ? 0 : (size_t)between(0, (int64_t)most);
        n = once(4) ? 0 : (size_t)between(0, (int64_t)most);
    } else {
        m = (size_t)cells + (once(2) ? 0 : (size_t)between(0, 9));
        n = (size_t)cells + (once(2) ? 0 : (size_t)between(0, 9));
        if (kind >= 3)
            few = (size_t)cells - 1;
        if (kind < 6 && kind % 3 != 1)
            m = few;
        if (kind < 6 && kind % 3 != 0)
            n = few;
    }
    lend_table(&first, m, fine);
    lend_table(&second, n, 0);
}

/* How many values there are for a due number: as many, none, one fewer, one more, or any number. */
static size_t count_values(size_t due)
{
    switch (between(0, 39)) {
    case 0:
        return 0;
    case 1:
        return due == 0 ? 0 : due - 1;
    case 2:
        return due + 1;
    case 3:
        return (size_t)between(0, 30);
    default:
        return due;
    }
}

static void lend_values(size_t count)
{
    int32_t *at = lend(&values, count, where());

    for (size_t i = 0; i < count; i++)
        at[i] = (int32_t)between(-30, 30);
    if (count != 0 && once(15))
        at[draw() % count] = once(2) ? (once(2) ? VALUE_MAX : -VALUE_MAX) : (int32_t)wild32();
    lend_keep(&values);
}

/* Which channels move, a bit for each: none, one, or any. */
static uint64_t moving(size_t channels)
{
    int64_t kind = between(0, 3);

    return kind == 0 || channels == 0 ? 0 : kind == 1 ? draw() : UINT64_C(1) << draw() % channels;
}

/* Puts the state's last values into the piece, but for the channels that move. */
static void keep_still(void)
{
    size_t count = values.count < PATTERN_CHANNELS_MAX ? values.count : PATTERN_CHANNELS_MAX;
    const int64_t *last = state.at;
    uint64_t moves = moving(count);
    int32_t *at = values.at;

    for (size_t i = 0; i < count && i + 1 < state.count; i++)
        if (!(moves >> i & 1) && in_range(last[1 + i]))
            at[i] = (int32_t)last[1 + i];
    lend_keep(&values);
}

/* Report slices with anything in them. */
static void lend_reports(size_t m, size_t n)
{
    int64_t *at = lend(&scores, m, where());
    uint32_t *of = lend(&lengths, n, where());

    for (size_t i = 0; i < m; i++)
        at[i] = (int64_t)draw();
    for (size_t i = 0; i < n; i++)
        of[i] = (uint32_t)draw();
    lend_keep(&scores);
    lend_keep(&lengths);
}

/* A record, now and then one that breaks its rules; `calm` keeps the ticks few. */
static void lend_record(int channels, int calm)
{
    size_t pieces = (size_t)(once(20) ? 0 : once(40) ? between(4095, 4097) : between(1, 12));
    uint32_t *at = lend(&durations, pieces, where());
    size_t count = pieces * (size_t)channels;

    for (size_t i = 0; i < pieces; i++)
        at[i] = (uint32_t)(calm || !once(10) ? between(1, 9) : between(1, 400000000));
    if (pieces != 0 && once(10))
        at[draw() % pieces] = once(3) ? 0 : UINT32_C(2147483648) + (uint32_t)between(0, 9);
    lend_keep(&durations);
    lend_values(count_values(count));
}

/* ---- document 01's causes, in its order */

struct known {
    uint32_t refusal; /* of the text */
    uint64_t cells;
    int channels;
};

static struct plain_pattern plain; /* the pattern of the text that is lent, if it is accepted */

static uint32_t state_cause(int channels)
{
    const int64_t *at = state.at;

    if (state.count < MONITOR_STATE_LENGTH || at[0] < 0 || at[0] > TICKS_MAX)
        return STATE_BROKEN;
    for (int i = 1; i <= PATTERN_CHANNELS_MAX; i++)
        if (at[0] == 0 || i > channels ? at[i] != 0 : !in_range(at[i]))
            return STATE_BROKEN;
    return 0;
}

static uint32_t table_cause(uint64_t cells)
{
    return first.count < cells || second.count < cells ? TABLE_TOO_SHORT : 0;
}

/* counts the tables' lengths, if they are the cause */
static uint32_t tables_counted(int function, uint32_t cause, uint64_t cells)
{
    if (cause == TABLE_TOO_SHORT)
        shape_two(function, FIRST, first.count, second.count, cells);
    return cause;
}

static uint32_t feed_cause(const struct known *k, uint32_t duration)
{
    const int64_t *ticks = state.at, *cell = first.at;
    const int32_t *value = values.at;
    uint32_t cause = k->refusal ? k->refusal : state_cause(k->channels);

    if (cause == STATE_BROKEN && state.count < MONITOR_STATE_LENGTH)
        shape(FEED, STATE, state.count, MONITOR_STATE_LENGTH);
    if (cause == 0)
        cause = tables_counted(FEED, table_cause(k->cells), k->cells);
    if (cause != 0)
        return cause;
    if (duration == 0 || duration > PIECE_TICKS_MAX)
        return RECORD_BROKEN;
    if (values.count != (size_t)k->channels) {
        shape(FEED, VALUES, values.count, (uint64_t)k->channels);
        return RECORD_BROKEN;
    }
    for (size_t i = 0; i < values.count; i++)
        if (!in_range(value[i]))
            return RECORD_BROKEN;
    if (ticks[0] + duration > TICKS_MAX)
        return TOO_MANY_TICKS;
    for (uint64_t i = 0; i < k->cells; i++)
        if (cell[i] != CELL_MARK && (cell[i] < -CELL_MAX || cell[i] > CELL_MAX))
            return CELL_BROKEN;
    if (scores.count >= duration && lengths.count >= duration)
        return 0;
    shape_two(FEED, SCORES, scores.count, lengths.count, duration);
    return REPORTS_TOO_SHORT;
}

static uint32_t record_cause(int function, int channels, uint64_t *ticks)
{
    const uint32_t *at = durations.at;
    const int32_t *value = values.at;

    *ticks = 0;
    if (durations.count > RECORD_PIECES_MAX)
        return RECORD_BROKEN;
    for (size_t i = 0; i < durations.count; i++) {
        *ticks += at[i];
        if (at[i] == 0 || *ticks > TICKS_MAX)
            return RECORD_BROKEN;
    }
    if (values.count != durations.count * (size_t)channels) {
        shape(function, VALUES, values.count, durations.count * (uint64_t)channels);
        return RECORD_BROKEN;
    }
    for (size_t i = 0; i < values.count; i++)
        if (!in_range(value[i]))
            return RECORD_BROKEN;
    return 0;
}

/* ---- a library that errs in one way, if `wrong` is not 0: the checks below must notice it */

#define WRONG 23
#define WRONG_FOR_SCORER 24 /* an error that the second scorer's answers must show */

static int wrong;
static uint64_t needed; /* cells of the pattern */

static uint32_t twisted(uint32_t r)
{
    return wrong == WRONG_FOR_SCORER && r == PATTERN_OUT_OF_RANGE ? PATTERN_TOO_MANY : r;
}

/* The lent text if it is refused, and else with each band as a test of its low alone. */
static const uint8_t *low_alone(size_t *length)
{
    static uint8_t other[PATTERN_TEXT_MAX];
    const uint8_t *at = text.at, *end = at + text.count;
    int numbers = 0; /* of a band, up to here */

    *length = text.count;
    if (pattern_check(at, text.count) != 0)
        return at;
    *length = 0;
    for (; at < end; at++) {
        if (end - at > 5 && memcmp(at, " (in ", 5) == 0) {
            memcpy(other + *length, " (>= ", 5);
            *length += 5;
            at += 5;
            numbers = 1;
        }
        numbers += numbers != 0 && *at == ' ';
        if (*at == ')')
            numbers = 0;
        if (numbers < 3)
            other[(*length)++] = *at;
    }
    return other;
}

/* Writes two tests of the first channel that a place does not test, if there is one and room for them. In sum they add up to 0,
 * so that nothing comes of them but that the place sees this channel. */
static size_t see_more(const struct plain_place *q, uint8_t *to)
{
    int channel = 0, tested = 0;

    for (int i = 0; i < q->tests; i++)
        tested |= 1 << q->test[i].channel;
    while (tested >> channel & 1)
        channel++;
    if (channel == plain.channels || q->tests > 2)
        return 0;
    return (size_t)sprintf((char *)to, " (> %d 0) (< %d 0)", channel, channel);
}

/* The lent text if it is refused or in margin, and else with these tests in each place. */
static const uint8_t *see_all(size_t *length)
{
    static uint8_t other[PATTERN_TEXT_MAX + PLACES * 20];
    const uint8_t *at = text.at, *end = at + text.count;
    int line = 0;

    *length = text.count;
    if (pattern_check(at, text.count) != 0 || !plain.sum)
        return at;
    *length = 0;
    for (; at < end; at++) {
        if (line >= 1 && line <= plain.places && end - at > 1 && at[1] == '\n') /* a place's last bracket */
            *length += see_more(&plain.place[line - 1], other + *length);
        line += *at == '\n';
        other[(*length)++] = *at;
    }
    return other;
}

static uint32_t check_lent(void)
{
    uint32_t r = twisted(pattern_check(text.at, text.count));

    return wrong == 15 && r == PATTERN_UNKNOWN_INDEX ? PATTERN_OUT_OF_RANGE : r; /* unlike the other functions */
}

static uint64_t cells_lent(void)
{
    uint64_t cells = pattern_cells(text.at, text.count);

    return wrong == 16 && cells != 0 ? cells + 1 : cells; /* a cell too many */
}

static uint32_t open_lent(void)
{
    uint32_t r = twisted(monitor_open(text.at, text.count, state.at, state.count, first.at, first.count, second.at,
                                      second.count));

    if (wrong == 17 && r == 0)
        ((int64_t *)first.at)[needed - 1] = 0; /* a cell of the first table that is not marked */
    if (wrong == 1 && r == 0)
        ((int64_t *)second.at)[0] = 0; /* a cell of the second table that is not marked */
    if (wrong == 2 && r == 0)
        ((int64_t *)state.at)[1] = 1; /* a last value before the first piece */
    return r;
}

static uint32_t feed_lent(uint32_t duration)
{
    size_t length = text.count;
    const uint8_t *bytes = wrong == 20   ? low_alone(&length) /* a band's high without a say */
                           : wrong == 22 ? see_all(&length)   /* a twitch that counts where no test sees it */
                                         : text.at;
    uint32_t r = twisted(monitor_feed(bytes, length, state.at, state.count, first.at, first.count, second.at, second.count,
                                      duration, values.at, values.count, scores.at, scores.count, lengths.at,
                                      lengths.count));

    if (wrong == 3 && r != 0 && state.count != 0)
        ((int64_t *)state.at)[0] ^= 1; /* the state written at a refusal */
    if (wrong == 4 && r == 0)
        memcpy(state.at, state.before, 8); /* the ticks left as they were */
    if (wrong == 5 && r == 0 && state.count > 9)
        ((int64_t *)state.at)[9] ^= 1; /* a further entry */
    if (wrong == 6 && r == 0 && scores.count > duration)
        ((int64_t *)scores.at)[duration] ^= 1; /* a report past the duration */
    if (wrong == 7 && r == 0)
        ((uint32_t *)lengths.at)[0] += ((uint32_t *)lengths.at)[0] != 0; /* a length made up beside a right score */
    if (wrong == 8 && r == TOO_MANY_TICKS)
        r = RECORD_BROKEN; /* the number of another cause */
    if (wrong == 9 && r == REPORTS_TOO_SHORT)
        r = 0; /* a number lost */
    if (wrong == 10 && values.count != 0)
        ((int32_t *)values.at)[0] ^= 1; /* a slice that is only read */
    if (wrong == 18 && r == 0)
        ((int64_t *)scores.at)[duration - 1] += ((uint32_t *)lengths.at)[duration - 1] != 0; /* another score */
    if (wrong == 19 && r == 0)
        ((int64_t *)first.at)[needed - 1] = 0; /* a cell of the first table */
    return r;
}

static struct run_price price_lent(uint32_t begin)
{
    size_t length = text.count;
    const uint8_t *bytes = wrong == 21 ? low_alone(&length) : wrong == 23 ? see_all(&length) : text.at; /* both in a price */
    struct run_price a = run_price(bytes, length, durations.at, durations.count, values.at, values.count, begin, edges.at,
                                   edges.count, stays.at, stays.count);

    a.refusal = twisted(a.refusal);
    if (wrong == 11 && a.refusal == 0)
        a.score++; /* another score */
    return a;
}

static struct record_best best_lent(void)
{
    struct record_best a = record_best(text.at, text.count, durations.at, durations.count, values.at, values.count,
                                       first.at, first.count, second.at, second.count);

    a.refusal = twisted(a.refusal);
    if (wrong == 12 && a.found)
        a.begin++; /* a begin that is not the end less the length */
    if (wrong == 13 && a.refusal == 0 && text.count != 0 && first.count > 1)
        ((int64_t *)first.at)[first.count - 1] ^= 1; /* a cell, needed or not */
    if (wrong == 14)
        a.refusal += ((volatile uint8_t *)text.at)[text.count] == FENCE_BYTE && a.refusal > 15; /* a look past the text */
    return a;
}

/* ---- the calls. Each is counted, and what it leaves of the slices is looked at. */

static uint32_t call_check(void)
{
    uint32_t refusal = check_lent();

    told(CHECK, refusal);
    expect(refusal <= 5, "the check's number");
    expect(lend_same(&text, 0), "the check changed its text");
    return refusal;
}

static uint64_t call_count(uint32_t refusal)
{
    uint64_t cells = cells_lent();

    told(COUNT, cells != 0);
    expect((cells == 0) == (refusal != 0), "the count is 0 exactly for a refused text");
    expect(lend_same(&text, 0), "the count changed its text");
    return cells;
}

static uint32_t call_open(const struct known *k)
{
    uint32_t cause = k->refusal ? k->refusal : tables_counted(OPEN, table_cause(k->cells), k->cells), refusal;
    const int64_t *s = state.at, *f = first.at, *u = second.at;
    int fine = 1;

    if (cause == 0 && state.count < MONITOR_STATE_LENGTH) {
        cause = STATE_BROKEN;
        shape(OPEN, STATE, state.count, MONITOR_STATE_LENGTH);
    }
    refusal = open_lent();
    told(OPEN, refusal);
    if (refusal != cause) {
        fail("the opening's refusal is not the first cause");
        return refusal;
    }
    expect(lend_same(&text, 0), "an opening changed its text");
    if (refusal != 0) {
        expect(lend_same(&state, 0) && lend_same(&first, 0) && lend_same(&second, 0), "a refused opening altered something");
        return refusal;
    }
    expect(lend_same(&state, 9) && lend_same(&first, k->cells) && lend_same(&second, k->cells),
           "an opening altered what lies further");
    for (int i = 0; i < MONITOR_STATE_LENGTH; i++)
        fine &= s[i] == 0;
    /* length 0, just entered, all clocks 0: the first cell of each place's block */
    for (uint64_t i = 0; i < k->cells; i++) {
        int empty_run = i < (uint64_t)plain.places * plain.block && i % plain.block == 0 && plain.place[i / plain.block].start;

        fine &= u[i] == CELL_MARK && f[i] == (!empty_run ? CELL_MARK : plain.sum ? 0 : SCORE_WITHOUT_TESTS);
    }
    expect(fine, "after an opening: no ticks, zeros, marks, and the empty runs");
    return 0;
}

/* The same feed by the plain monitor, on copies of the slices. */
static int64_t plain_state[16], plain_first[CELLS + 10], plain_second[CELLS + 10], plain_scores[LONG + 10];
static uint32_t plain_lengths[LONG + 10];

static uint32_t feed_plain(uint32_t duration)
{
    memcpy(plain_state, state.at, state.count * sizeof *plain_state);
    memcpy(plain_first, first.at, first.count * sizeof *plain_first);
    memcpy(plain_second, second.at, second.count * sizeof *plain_second);
    memcpy(plain_scores, scores.at, scores.count * sizeof *plain_scores);
    memcpy(plain_lengths, lengths.at, lengths.count * sizeof *plain_lengths);
    return plain_feed_gcc(&plain, plain_state, state.count, plain_first, first.count, plain_second, second.count, duration,
                          values.at, values.count, plain_scores, scores.count, plain_lengths, lengths.count);
}

static int alike(const struct lent *l, const void *other)
{
    return memcmp(l->at, other, l->count * l->width) == 0;
}

/* Counts where the piece's values lie that bands measure. */
static void count_bands(void)
{
    const int32_t *value = values.at;

    for (int q = 0; q < plain.places; q++)
        for (int i = 0; i < plain.place[q].tests; i++) {
            const struct plain_test *t = &plain.place[q].test[i];
            int64_t v = value[t->channel];

            if (t->low == -FAR || t->high == FAR)
                continue;
            measured[plain.sum][v < t->low          ? BELOW
                                : v > t->high       ? ABOVE
                                : t->low == t->high ? AT_BOTH
                                : v == t->low       ? AT_LOW
                                : v == t->high      ? AT_HIGH
                                                    : INSIDE]++;
        }
}

/* Are there runs that stay in a place and can go on, before the call? */
static int stayed_in(int place)
{
    const int64_t *block = (const int64_t *)first.before + (size_t)(plain.places + place) * plain.block;

    for (uint32_t n = 0; n < plain.high; n++, block += plain.row)
        for (size_t i = 0; i < plain.block; i++)
            if (block[i] != CELL_MARK)
                return 1;
    return 0;
}

/* Counts how the piece's values differ from the last ones. A place without tests adds nothing either way, and is not asked. */
static void count_moves(void)
{
    const int64_t *last = (const int64_t *)state.before + 1;
    const int32_t *value = values.at;
    int moves = 0, new = 0, old = 0;

    if (!plain.sum || plain.channels < 2)
        return;
    for (int c = 0; c < plain.channels; c++)
        moves |= value[c] != last[c];
    for (int q = 0; q < plain.places; q++) {
        const struct plain_place *place = &plain.place[q];
        int sees = 0;

        if (place->tests == 0 || !stayed_in(q))
            continue;
        for (int i = 0; i < place->tests; i++)
            sees |= value[place->test[i].channel] != last[place->test[i].channel];
        new |= sees;
        old |= !sees;
    }
    if (new || old)
        moved[!moves ? STILL : !new ? UNSEEN : old ? NEW_TO_SOME : NEW_TO_ALL]++;
}

static uint32_t call_feed(const struct known *k, uint32_t duration)
{
    uint32_t cause = feed_cause(k, duration), refusal;
    /* the plain monitor walks all cells at each tick, which takes too long where both are many */
    int beside = k->refusal == 0 && (cause != 0 || k->cells * duration <= PLAIN_MOST);
    const int64_t *s = state.at, *u = second.at, *score = scores.at;
    const int32_t *value = values.at;
    const uint32_t *length = lengths.at;
    int64_t ticks = state.count ? s[0] : 0;
    int fine = 1;

    if (beside)
        expect(feed_plain(duration) == cause, "the plain monitor's refusal is not the first cause");
    refusal = feed_lent(duration);
    told(FEED, refusal);
    if (refusal != cause) {
        fail("the feed's refusal is not the first cause");
        return refusal;
    }
    expect(lend_same(&text, 0) && lend_same(&values, 0), "a feed changed what it only reads");
    if (refusal != 0) {
        expect(lend_same(&state, 0) && lend_same(&first, 0) && lend_same(&second, 0), "a refused feed altered the monitor");
        expect(lend_same(&scores, 0) && lend_same(&lengths, 0), "a refused feed wrote a report");
        return refusal;
    }
    expect(lend_same(&state, 9) && lend_same(&first, k->cells) && lend_same(&second, k->cells),
           "a feed altered what lies further");
    expect(lend_same(&scores, duration) && lend_same(&lengths, duration), "a feed wrote a report past the duration");
    fine = s[0] == ticks + duration;
    for (int i = 0; i < PATTERN_CHANNELS_MAX; i++)
        fine &= s[i + 1] == (i < k->channels ? value[i] : 0);
    for (uint64_t i = 0; i < k->cells; i++)
        fine &= u[i] == CELL_MARK;
    for (uint32_t i = 0; i < duration; i++)
        fine &= length[i] <= RUN_STEPS_MAX && (length[i] != 0 || score[i] == 0);
    expect(fine, "after a feed: its ticks and values, marks, and reports");
    /* from tick `high` on every run that a report can speak of lies in this piece */
    for (uint32_t i = plain.high + 1; i < duration; i++)
        fine &= score[i] == score[plain.high] && length[i] == length[plain.high];
    expect(fine, "the reports change inside of a long piece");
    if (beside) {
        compared++;
        count_bands();
        count_moves();
        expect(alike(&state, plain_state) && alike(&first, plain_first) && alike(&second, plain_second),
               "the plain monitor's state or tables differ");
        expect(alike(&scores, plain_scores) && alike(&lengths, plain_lengths), "the plain monitor's reports differ");
    }
    return 0;
}

static struct run_price call_price(const struct known *k, uint32_t begin)
{
    uint64_t ticks;
    uint32_t cause = k->refusal ? k->refusal : record_cause(PRICE, k->channels, &ticks);
    struct run_price answer;

    if (cause == 0 && (edges.count != stays.count || edges.count == 0 || edges.count > RUN_STEPS_MAX || begin >= ticks))
        cause = RUN_BROKEN;
    answer = price_lent(begin);
    told(PRICE, answer.refusal);
    expect(answer.refusal == cause || (cause == 0 && answer.refusal == RUN_IMPOSSIBLE),
           "the pricing's refusal is not the first cause");
    expect(answer.refusal == 0 || answer.score == 0, "a score beside a refusal");
    expect(lend_same(&text, 0) && lend_same(&durations, 0) && lend_same(&values, 0) && lend_same(&edges, 0) &&
               lend_same(&stays, 0),
           "the pricing changed what it only reads");
    return answer;
}

static struct record_best call_best(const struct known *k)
{
    uint64_t ticks;
    uint32_t cause = k->refusal ? k->refusal : record_cause(BEST, k->channels, &ticks);
    struct record_best answer;
    const int64_t *u = second.at;
    int fine = 1;

    if (cause == 0)
        cause = tables_counted(BEST, table_cause(k->cells), k->cells);
    answer = best_lent();
    told(BEST, answer.refusal);
    if (answer.refusal != cause) {
        fail("the best's refusal is not the first cause");
        return answer;
    }
    expect(answer.found <= 1, "found is 0 or 1");
    expect(answer.found || (answer.end == 0 && answer.begin == 0 && answer.score == 0), "numbers where no run is found");
    expect(lend_same(&text, 0) && lend_same(&durations, 0) && lend_same(&values, 0), "the best changed what it only reads");
    if (answer.refusal != 0) {
        expect(!answer.found && lend_same(&first, 0) && lend_same(&second, 0), "a refused best altered something");
        return answer;
    }
    expect(lend_same(&first, k->cells) && lend_same(&second, k->cells), "the best altered what lies further");
    for (uint64_t i = 0; i < k->cells; i++)
        fine &= u[i] == CELL_MARK;
    expect(fine, "after the best the second table is marks");
    return answer;
}

/* What is known of the text that is lent; `p` is the pattern that it says, if that is known. */
static struct known know(const struct pattern *p)
{
    static char copy[PATTERN_TEXT_MAX + 1];
    struct known k = {0, 0, 1};

    k.refusal = call_check();
    k.cells = needed = call_count(k.refusal);
    if (k.refusal == 0) {
        memcpy(copy, text.at, text.count);
        copy[text.count] = '\0';
        plain_read(&plain, copy);
        k.channels = plain.channels;
        expect(k.cells == plain.cells, "the plain monitor's count of cells");
    }
    if (p) {
        expect(k.refusal == p->refusal, p->refusal == 0 ? "a sound text is refused" : "the refusal of a text with an odd band");
        expect(k.cells == p->cells, "the count of cells");
    }
    return k;
}

#endif
