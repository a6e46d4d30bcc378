/* plain.c: the plain monitor (plain.h). bench/run compiles it with gcc -O3 and with clang -O3, each under names of its
 * own: PLAIN_OPEN and PLAIN_FEED.
 *
 * Tables that are written are `restrict` (not in move and offer, which are parts of move_block): the pattern's sizes and the
 * cells have types that may alias by the rules of C, so a compiler would otherwise load the sizes again after each cell. */
#include "plain.h"

#include <string.h>

#include "bench_margin.h"

/* Is the first worth better: in `sum` the least is best, in `margin` the greatest. */
static inline int better(int sum, int64_t one, int64_t other)
{
    return sum ? one < other : one > other;
}

/* A cell keeps the best of what it is offered. */
static inline void offer(int sum, int64_t *cell, int64_t worth)
{
    if (*cell == CELL_MARK || better(sum, worth, *cell))
        *cell = worth;
}

static inline int holds(enum sign sign, size_t clock, size_t bound)
{
    switch (sign) {
    case LESS:
        return clock < bound;
    case AT_MOST:
        return clock <= bound;
    case MORE:
        return clock > bound;
    default:
        return clock >= bound;
    }
}

/* A test's distance: to the nearer of its ends, and negative outside of them. */
static int64_t distance_of(const struct plain_test *t, int64_t value)
{
    int64_t above = value - t->low, below = t->high - value;

    return above < below ? above : below;
}

/* What a place is worth for these values: the sum of its tests' distances, or the least of them. */
static int64_t gain(int sum, const struct plain_place *q, const int32_t *values)
{
    int64_t worth = sum ? 0 : SCORE_WITHOUT_TESTS;

    for (int i = 0; i < q->tests; i++) {
        int64_t distance = distance_of(&q->test[i], values[q->test[i].channel]);

        if (sum)
            worth += distance;
        else if (distance < worth)
            worth = distance;
    }
    return worth;
}

/* Are these values new to a place that a run stays in: do they differ from the last ones where it has a test. */
static int is_new(const struct plain_place *q, const int32_t *values, const int64_t *last)
{
    for (int i = 0; i < q->tests; i++)
        if (values[q->test[i].channel] != last[q->test[i].channel])
            return 1;
    return 0;
}

static void clear(const struct plain_pattern *p, int64_t *restrict table)
{
    for (size_t i = 0; i < p->cells; i++)
        table[i] = CELL_MARK;
}

/* At each time a start place with length 0, just entered, clocks 0, holds the empty run's worth. */
static void begin_runs(const struct plain_pattern *p, int64_t *restrict table)
{
    for (int q = 0; q < p->places; q++)
        if (p->place[q].start)
            table[(size_t)q * p->block] = p->sum ? 0 : SCORE_WITHOUT_TESTS;
}

/* The clock after a tick. */
static inline size_t later(size_t clock, size_t values)
{
    return clock + 1 < values ? clock + 1 : clock;
}

/* Where the clocks' cell stands in its block. */
static inline size_t cell_of(const struct plain_pattern *p, const size_t clocks[CLOCKS])
{
    return ((clocks[0] * p->values[1] + clocks[1]) * p->values[2] + clocks[2]) * p->values[3] + clocks[3];
}

/* An occupied cell of a place, after its tick: the run stays, and it takes each edge out of the place whose guards hold.
 * `next` is the row of the length that is one more. */
static inline void move(const struct plain_pattern *p, int place, const size_t clocks[CLOCKS], int64_t worth, int64_t *next)
{
    const struct plain_place *q = &p->place[place];

    offer(p->sum, next + (size_t)(p->places + place) * p->block + cell_of(p, clocks), worth);
    for (int i = 0; i < q->edges; i++) {
        const struct plain_edge *e = &p->edge[q->edge[i]];
        size_t entered[CLOCKS];
        int open = 1;

        for (int g = 0; g < e->guards && open; g++)
            open = holds(e->guard[g].sign, clocks[e->guard[g].clock], e->guard[g].bound);
        if (!open)
            continue;
        for (int c = 0; c < CLOCKS; c++)
            entered[c] = e->resets[c] ? 0 : clocks[c];
        offer(p->sum, next + (size_t)e->to * p->block + cell_of(p, entered), worth);
    }
}

/* One block of cells: all clocks of a length, a stage and a place. `amount` is what the tick brings to its worths. */
static void move_block(const struct plain_pattern *p, int place, int64_t amount, const int64_t *block,
                       int64_t *restrict next)
{
    size_t values[CLOCKS] = {p->values[0], p->values[1], p->values[2], p->values[3]};

    for (size_t a = 0; a < values[0]; a++)
        for (size_t b = 0; b < values[1]; b++)
            for (size_t c = 0; c < values[2]; c++)
                for (size_t d = 0; d < values[3]; d++) {
                    int64_t worth = *block++;
                    size_t clocks[CLOCKS];

                    if (worth == CELL_MARK)
                        continue;
                    if (p->sum)
                        worth += amount;
                    else if (amount < worth)
                        worth = amount;
                    clocks[0] = later(a, values[0]);
                    clocks[1] = later(b, values[1]);
                    clocks[2] = later(c, values[2]);
                    clocks[3] = later(d, values[3]);
                    move(p, place, clocks, worth, next);
                }
}

/* One tick: `to` becomes the table that follows `from`. In `sum` a place adds its distances when it was just entered, and
 * when the values are new to it (`fresh`); in `margin` every tick has its say. */
static void tick(const struct plain_pattern *p, const int64_t *from, int64_t *restrict to, const int64_t *gains,
                 const int *fresh)
{
    clear(p, to);
    for (size_t length = 0; length < p->high; length++)
        for (int stage = 0; stage < 2; stage++)
            for (int place = 0; place < p->places; place++) {
                const int64_t *block = from + length * p->row + (size_t)(stage * p->places + place) * p->block;
                int adds = !p->sum || stage == 0 || fresh[place];

                move_block(p, place, adds ? gains[place] : 0, block, to + (length + 1) * p->row);
            }
    begin_runs(p, to);
}

/* The best of the runs that have just entered an end place, in the window; the shortest of equals. */
static void report(const struct plain_pattern *p, const int64_t *table, int64_t *restrict score, uint32_t *restrict length)
{
    *score = 0;
    *length = 0;
    for (uint32_t n = p->low; n <= p->high; n++)
        for (int q = 0; q < p->places; q++) {
            const int64_t *block = table + n * p->row + (size_t)q * p->block;

            if (!p->place[q].end)
                continue;
            for (size_t i = 0; i < p->block; i++)
                if (block[i] != CELL_MARK && (*length == 0 || better(p->sum, block[i], *score))) {
                    *score = block[i];
                    *length = n;
                }
        }
}

static int in_range(int64_t value)
{
    return value >= -VALUE_MAX && value <= VALUE_MAX;
}

/* Ticks up to TICKS_MAX, values in range, zeros in unused channels and before the first tick. */
static int state_sound(const struct plain_pattern *p, const int64_t *state)
{
    if (state[0] < 0 || state[0] > TICKS_MAX)
        return 0;
    for (int c = 0; c < PATTERN_CHANNELS_MAX; c++) {
        if (!in_range(state[1 + c]))
            return 0;
        if ((c >= p->channels || state[0] == 0) && state[1 + c] != 0)
            return 0;
    }
    return 1;
}

static int piece_sound(const struct plain_pattern *p, uint32_t duration, const int32_t *values, size_t count)
{
    if (duration < 1 || duration > PIECE_TICKS_MAX || count != (size_t)p->channels)
        return 0;
    for (size_t c = 0; c < count; c++)
        if (!in_range(values[c]))
            return 0;
    return 1;
}

static int cells_sound(const struct plain_pattern *p, const int64_t *table)
{
    for (size_t i = 0; i < p->cells; i++)
        if (table[i] != CELL_MARK && (table[i] < -CELL_MAX || table[i] > CELL_MAX))
            return 0;
    return 1;
}

uint32_t PLAIN_OPEN(const struct plain_pattern *p, int64_t *state, size_t state_length, int64_t *first,
                    size_t first_length, int64_t *second, size_t second_length)
{
    if (first_length < p->cells || second_length < p->cells)
        return TABLE_TOO_SHORT;
    if (state_length < MONITOR_STATE_LENGTH)
        return STATE_BROKEN;
    memset(state, 0, MONITOR_STATE_LENGTH * sizeof *state);
    clear(p, first);
    begin_runs(p, first);
    clear(p, second);
    return CALL_DONE;
}

uint32_t PLAIN_FEED(const struct plain_pattern *p, int64_t *state, size_t state_length, int64_t *first,
                    size_t first_length, int64_t *second, size_t second_length, uint32_t duration,
                    const int32_t *values, size_t values_length, int64_t *scores, size_t scores_length,
                    uint32_t *lengths, size_t lengths_length)
{
    static const int nowhere[PLACES]; /* from a piece's second tick on its values are new to no place */
    int64_t *from = first, *to = second, *swap;
    int64_t gains[PLACES];
    int fresh[PLACES];

    if (state_length < MONITOR_STATE_LENGTH || !state_sound(p, state))
        return STATE_BROKEN;
    if (first_length < p->cells || second_length < p->cells)
        return TABLE_TOO_SHORT;
    if (!piece_sound(p, duration, values, values_length))
        return RECORD_BROKEN;
    if (state[0] + duration > TICKS_MAX)
        return TOO_MANY_TICKS;
    if (!cells_sound(p, first))
        return CELL_BROKEN;
    if (scores_length < duration || lengths_length < duration)
        return REPORTS_TOO_SHORT;

    for (int q = 0; q < p->places; q++) {
        gains[q] = gain(p->sum, &p->place[q], values);
        fresh[q] = is_new(&p->place[q], values, state + 1);
    }
    for (uint32_t t = 0; t < duration; t++) {
        tick(p, from, to, gains, t == 0 ? fresh : nowhere);
        report(p, to, &scores[t], &lengths[t]);
        swap = from;
        from = to;
        to = swap;
    }
    if (from != first)
        memcpy(first, from, p->cells * sizeof *first);
    clear(p, second);
    state[0] += duration;
    for (int c = 0; c < p->channels; c++)
        state[1 + c] = values[c];
    return CALL_DONE;
}
