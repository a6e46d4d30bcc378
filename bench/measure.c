/* measure.c: runs the library and the plain monitor on the same patterns and records, compares what they answer and what
 * they leave, and prints how long each took, as lines of words parted by tabs for report.py. bench/run calls it:
 *
 *     measure records            whole records, and how their cost grows with their length
 *     measure growth             other growth: window, ceiling, clocks, denser samples
 *     measure fills              one tick from tables of different occupation
 *     measure large              a table of 100,000 cells
 *     measure pieces             pieces of different length, and writing reports alone
 *     measure bests              the best of a record
 *     measure readings           reading the pattern's text
 *     measure second SCORER DIR  the second scorer, on cases that it can follow; DIR is for its files
 *     measure memory CASE MONITOR ENTRIES
 *     measure stack
 *     measure differs N          spoils an answer of the plain monitor, 1 to 5; the comparison must find it
 *     measure refusals           feeds with one cause or two that all monitors must refuse alike
 *
 * Times are processor time, the middle one of several rounds, in which the monitors take turns; a record's is the sum of its
 * parts'. A difference between two monitors ends the program with status 1. */
#define _GNU_SOURCE
#include <inttypes.h>
#include <pthread.h>
#include <stdio.h>
#include <stdlib.h>
#include <string.h>
#include <sys/mman.h>
#include <sys/resource.h>
#include <sys/wait.h>
#include <time.h>
#include <unistd.h>

#include "bench_margin.h"
#include "cases.h"
#include "plain.h"

enum { LIBRARY, GCC, CLANG, MONITORS };
static const char *const names[MONITORS] = {"library", "gcc", "clang"};

static int spoiled; /* for `measure differs` */

static void fail(const char *what)
{
    fprintf(stderr, "bench: %s\n", what);
    exit(2);
}

static void *memory(size_t bytes)
{
    void *p = malloc(bytes);

    if (!p)
        fail("no memory");
    memset(p, 0, bytes); /* so that no page is met for the first time while the clock runs */
    return p;
}

static double now(void)
{
    struct timespec t;

    clock_gettime(CLOCK_PROCESS_CPUTIME_ID, &t);
    return (double)t.tv_sec + (double)t.tv_nsec * 1e-9;
}

/* ---- a pattern, and what is lent to a monitor of it */

struct pattern {
    char text[PATTERN_TEXT_MAX + 1];
    size_t length;
    size_t cells;
    struct plain_pattern plain;
};

static struct pattern *new_pattern(const char *text)
{
    struct pattern *p = memory(sizeof *p);

    p->length = strlen(text);
    memcpy(p->text, text, p->length + 1);
    if (pattern_check((const uint8_t *)p->text, p->length) != PATTERN_ACCEPTED)
        fail("a pattern is refused");
    plain_read(&p->plain, text);
    p->cells = pattern_cells((const uint8_t *)p->text, p->length);
    if (p->cells != p->plain.cells) {
        printf("DIFFERENT cells needed\n");
        exit(1);
    }
    return p;
}

struct lent {
    int64_t state[MONITOR_STATE_LENGTH];
    int64_t *first, *second;
    size_t reports; /* places for reports */
    int64_t *scores;
    uint32_t *lengths;
};

static struct lent new_lent(const struct pattern *p, size_t reports)
{
    struct lent l = {{0}, memory(p->cells * sizeof *l.first), memory(p->cells * sizeof *l.second), reports,
                     memory(reports * sizeof *l.scores), memory(reports * sizeof *l.lengths)};
    return l;
}

static void free_lent(struct lent *l)
{
    free(l->first);
    free(l->second);
    free(l->scores);
    free(l->lengths);
}

static uint32_t open_by(int monitor, const struct pattern *p, struct lent *l)
{
    if (monitor == LIBRARY)
        return monitor_open((const uint8_t *)p->text, p->length, l->state, MONITOR_STATE_LENGTH, l->first, p->cells,
                            l->second, p->cells);
    return (monitor == GCC ? plain_open_gcc : plain_open_clang)(&p->plain, l->state, MONITOR_STATE_LENGTH, l->first,
                                                                p->cells, l->second, p->cells);
}

/* Feeds an entry; its reports stand from place `at` on. */
static uint32_t feed_by(int monitor, const struct pattern *p, struct lent *l, uint32_t duration, const int32_t *values,
                        size_t at)
{
    size_t channels = (size_t)p->plain.channels, room = l->reports - at;

    if (monitor == LIBRARY)
        return monitor_feed((const uint8_t *)p->text, p->length, l->state, MONITOR_STATE_LENGTH, l->first, p->cells,
                            l->second, p->cells, duration, values, channels, l->scores + at, room, l->lengths + at,
                            room);
    return (monitor == GCC ? plain_feed_gcc : plain_feed_clang)(
        &p->plain, l->state, MONITOR_STATE_LENGTH, l->first, p->cells, l->second, p->cells, duration, values, channels,
        l->scores + at, room, l->lengths + at, room);
}

/* An opening and a whole record, entry by entry; 0, or the first refusal. */
static uint32_t run_by(int monitor, const struct pattern *p, struct lent *l, const struct record *r)
{
    uint32_t answer = open_by(monitor, p, l);
    size_t at = 0;

    for (size_t i = 0; i < r->entries && answer == CALL_DONE; i++) {
        answer = feed_by(monitor, p, l, r->durations[i], r->values + i * r->channels, at);
        at += r->durations[i];
    }
    return answer;
}

/* Answers, state, both tables and all reports must be the same. */
static void compare(const char *what, int monitor, const struct pattern *p, struct lent *l, const struct lent *right,
                    uint32_t answer, uint32_t right_answer)
{
    const char *differs = NULL;

    if (monitor == CLANG) { /* one of five errors, if the comparison itself is tried */
        answer += spoiled == 1;
        l->scores[l->reports - 1] += spoiled == 2;
        l->lengths[l->reports / 2] += spoiled == 3;
        l->first[p->cells - 1] ^= spoiled == 4;
        l->second[0] ^= spoiled == 5;
    }
    if (answer != right_answer || answer != CALL_DONE)
        differs = "the answer";
    else if (memcmp(l->state, right->state, sizeof l->state) != 0)
        differs = "the state";
    else if (memcmp(l->scores, right->scores, l->reports * sizeof *l->scores) != 0)
        differs = "a score";
    else if (memcmp(l->lengths, right->lengths, l->reports * sizeof *l->lengths) != 0)
        differs = "a length";
    else if (memcmp(l->first, right->first, p->cells * sizeof *l->first) != 0)
        differs = "the first table";
    else if (memcmp(l->second, right->second, p->cells * sizeof *l->second) != 0)
        differs = "the second table";
    if (differs) {
        printf("DIFFERENT %s: %s of %s and %s\n", what, differs, names[monitor], names[LIBRARY]);
        exit(1);
    }
}

/* How many of a hundred cells of a table are occupied. */
static double occupied(const struct pattern *p, const int64_t *table)
{
    size_t count = 0;

    for (size_t i = 0; i < p->cells; i++)
        count += table[i] != CELL_MARK;
    return 100 * (double)count / (double)p->cells;
}

/* ---- timing */

#define ROUNDS 1000 /* at most */
#define PART 200    /* entries of a record that a monitor is fed at a time */

/* The times of each monitor, and what the library's rounds were like. */
struct timing {
    double took[MONITORS][ROUNDS];
    int counted[MONITORS];
    double summed[MONITORS];  /* of a record: its parts together */
    double quickest, slowest; /* of the library's rounds */
    double spent;             /* by all rounds of all monitors */
    int rounds;
};

static struct timing new_timing(void)
{
    struct timing t = {.quickest = 1e9};
    return t;
}

static int in_order(const void *a, const void *b)
{
    double x = *(const double *)a, y = *(const double *)b;
    return (x > y) - (x < y);
}

/* The middle one of several times. The least depends on a single round: that of a thousand has been seen to be 37 % of what it
 * is otherwise. */
static double middle(const double *times, int count)
{
    static double sorted[ROUNDS];

    memcpy(sorted, times, (size_t)count * sizeof *times);
    qsort(sorted, (size_t)count, sizeof *sorted, in_order);
    return sorted[count / 2];
}

static double seconds_of(const struct timing *t, int monitor)
{
    return t->summed[monitor] > 0 ? t->summed[monitor] : middle(t->took[monitor], t->counted[monitor]);
}

static void count_time(struct timing *t, int monitor, double took)
{
    t->spent += took;
    if (t->counted[monitor] < ROUNDS)
        t->took[monitor][t->counted[monitor]++] = took;
    if (monitor == LIBRARY) {
        t->rounds++;
        if (took < t->quickest)
            t->quickest = took;
        if (took > t->slowest)
            t->slowest = took;
    }
}

/* Is another round due: as many as fit `budget` seconds, seven if they fit three times that, three at least, and two if a
 * round takes over eight seconds. */
static int goes_on(const struct timing *t, double budget)
{
    return t->rounds < 2 || (t->rounds < 3 && t->spent < 16) || (t->rounds < 7 && t->spent < 3 * budget) ||
           (t->rounds < ROUNDS && t->spent < budget);
}

/* A line: kind, case, what is varied, entries, ticks, cells of a table, occupied cells of a hundred, ends with a run, the
 * seconds of each monitor, the library's rounds, and the greatest of them over the least. */
static void print_times(const char *kind, const char *name, size_t varied, size_t entries, size_t ticks,
                        const struct pattern *p, double full, const struct lent *l, const struct timing *t)
{
    size_t ends = 0;

    for (size_t i = 0; i < ticks; i++)
        ends += l->lengths[i] != 0;
    printf("%s\t%s\t%zu\t%zu\t%zu\t%zu\t%.1f\t%zu", kind, name, varied, entries, ticks, p->cells, full, ends);
    for (int m = 0; m < MONITORS; m++)
        printf("\t%.9f", seconds_of(t, m));
    printf("\t%d\t%.3f\n", t->rounds, t->slowest / t->quickest);
    fflush(stdout);
}

/* The times of each part of a record by each monitor, round by round. */
struct parts {
    size_t count;
    double *took[MONITORS];
};

static struct parts new_parts(size_t entries)
{
    struct parts parts = {(entries + PART - 1) / PART, {NULL}};

    for (int m = 0; m < MONITORS; m++)
        parts.took[m] = memory(parts.count * ROUNDS * sizeof *parts.took[m]);
    return parts;
}

static void free_parts(struct parts *parts)
{
    for (int m = 0; m < MONITORS; m++)
        free(parts->took[m]);
}

/* The time of a record's first `entries` entries: that of their parts, which are whole. */
static void sum_parts(struct timing *t, const struct parts *parts, size_t entries)
{
    for (int m = 0; m < MONITORS; m++) {
        t->summed[m] = 0;
        for (size_t i = 0; i * PART < entries; i++)
            t->summed[m] += middle(parts->took[m] + i * ROUNDS, t->counted[m]);
    }
}

/* A round of a whole record. The monitors take turns, part by part, so that a change of the machine's clock meets all. */
static void record_round(struct timing *t, struct parts *parts, const char *name, const struct pattern *p,
                         struct lent *lent, const struct record *r)
{
    uint32_t answers[MONITORS];
    double round[MONITORS] = {0};
    size_t at = 0;

    for (size_t i = 0; i < parts->count; i++) {
        size_t from = i * PART, to = from + PART < r->entries ? from + PART : r->entries, next = at;

        for (int m = 0; m < MONITORS; m++) {
            double start = now(), took;

            if (from == 0)
                answers[m] = open_by(m, p, &lent[m]);
            next = at;
            for (size_t k = from; k < to && answers[m] == CALL_DONE; k++) {
                answers[m] = feed_by(m, p, &lent[m], r->durations[k], r->values + k * r->channels, next);
                next += r->durations[k];
            }
            took = now() - start;
            round[m] += took;
            parts->took[m][i * ROUNDS + (size_t)t->counted[m]] = took;
        }
        at = next;
    }
    for (int m = 0; m < MONITORS; m++) {
        count_time(t, m, round[m]);
        compare(name, m, p, &lent[m], &lent[LIBRARY], answers[m], answers[LIBRARY]);
    }
}

static void time_record(const char *kind, const char *name, size_t varied, const char *text, const struct record *r)
{
    struct pattern *p = new_pattern(text);
    struct timing t = new_timing();
    struct parts parts = new_parts(r->entries);
    struct lent lent[MONITORS];

    for (int m = 0; m < MONITORS; m++)
        lent[m] = new_lent(p, r->ticks);
    while (goes_on(&t, 1))
        record_round(&t, &parts, name, p, lent, r);
    sum_parts(&t, &parts, r->entries);
    print_times(kind, name, varied, r->entries, r->ticks, p, occupied(p, lent[LIBRARY].first), &lent[LIBRARY], &t);
    for (int m = 0; m < MONITORS; m++)
        free_lent(&lent[m]);
    free_parts(&parts);
    free(p);
}

/* A record's beginnings of several lengths. The first n entries of a record are the record of n entries, so five rounds of the
 * whole record time them all: each part of each length has as many rounds as any other. */
static void time_lengths(const char *name, size_t high, const char *text, const struct record *r)
{
    static const size_t entries[] = {600, 2000, 6000, 20000, 60000};
    struct pattern *p = new_pattern(text);
    struct timing t = new_timing();
    struct parts parts = new_parts(r->entries);
    struct lent lent[MONITORS];

    for (int m = 0; m < MONITORS; m++)
        lent[m] = new_lent(p, r->ticks);
    for (int round = 0; round < 5; round++)
        record_round(&t, &parts, name, p, lent, r);
    for (size_t i = 0; i < sizeof entries / sizeof *entries; i++) {
        int whole = entries[i] == r->entries;

        sum_parts(&t, &parts, entries[i]);
        print_times(whole ? "record" : "length", name, whole ? high : entries[i], entries[i], entries[i], p,
                    occupied(p, lent[LIBRARY].first), &lent[LIBRARY], &t);
    }
    for (int m = 0; m < MONITORS; m++)
        free_lent(&lent[m]);
    free_parts(&parts);
    free(p);
}

/* One feed from the state and the table that `from` has. Where the plain monitors take over two seconds they take them
 * once: the rounds that follow are the library's. */
static void time_call(const char *kind, const char *name, size_t varied, const struct pattern *p, const struct lent *from,
                      uint32_t duration, const int32_t *values, double budget)
{
    struct lent lent[MONITORS];
    struct timing t = new_timing();
    uint32_t answers[MONITORS];
    int monitors = MONITORS;

    for (int m = 0; m < MONITORS; m++)
        lent[m] = new_lent(p, duration);
    while (goes_on(&t, budget)) {
        for (int m = 0; m < monitors; m++) {
            double start;

            memcpy(lent[m].state, from->state, sizeof from->state);
            memcpy(lent[m].first, from->first, p->cells * sizeof *from->first);
            memcpy(lent[m].second, from->second, p->cells * sizeof *from->second);
            start = now();
            answers[m] = feed_by(m, p, &lent[m], duration, values, 0);
            count_time(&t, m, now() - start);
        }
        for (int m = GCC; m < MONITORS; m++) /* with what they left in the first round, if the library is alone */
            compare(name, m, p, &lent[m], &lent[LIBRARY], answers[m], answers[LIBRARY]);
        if (t.rounds == 1 && t.spent > 2) {
            monitors = 1;
            t.spent = 0;
        }
    }
    print_times(kind, name, varied, 1, duration, p, occupied(p, from->first), &lent[LIBRARY], &t);
    for (int m = 0; m < MONITORS; m++)
        free_lent(&lent[m]);
}

/* ---- what is timed */

#define ENTRIES 60000

static size_t window_of(const char *text)
{
    struct plain_pattern p;

    plain_read(&p, text);
    return p.high;
}

/* After the source's experiments, both weightings each; a band; the four clocks of examples/gearbox; and eight channels, of which
 * an entry moves a few, so that in sum it is new to some places and not to others. */
static void records(void)
{
    static const char *const weightings[] = {"margin", "sum"};
    struct record cruise = cruise_record(ENTRIES, 10), swing = swing_record(ENTRIES, 10), gears = gearbox_record(ENTRIES);
    struct record part = cruise, sensors = sensors_record(10000);

    for (int w = 0; w < 2; w++) {
        const char *weighting = weightings[w];
        char name[64];

        snprintf(name, sizeof name, "OVERSHOOT, %s", weighting);
        if (w == 0)
            time_lengths(name, 30, overshoot(weighting, 30, 15), &cruise);
        else
            time_record("record", name, 30, overshoot(weighting, 30, 15), &cruise);
        snprintf(name, sizeof name, "RINGING, %s", weighting);
        time_record("record", name, 8, ringing(weighting, 8, 8, 4), &swing);
        snprintf(name, sizeof name, "OVERSHOOT unbounded, %s", weighting);
        time_record("record", name, 100, unbounded(weighting, 100), &cruise);
    }
    part.entries = part.ticks = 10000;
    time_record("record", "OVERSHOOT with a band, margin", 30, overshoot_band("margin", 30, 15), &part);
    time_record("record", "OVERSHOOT unbounded, margin", 4095, unbounded("margin", 4095), &part);
    time_record("record", "gearbox, margin", window_of(gearbox("margin", 0)), gearbox("margin", 0), &gears);
    time_record("record", "eight channels, sum", 30, eight_channels("sum", 30, 15), &sensors);
    free_record(&cruise);
    free_record(&swing);
    free_record(&gears);
    free_record(&sensors);
}

static void growth(void)
{
    static const unsigned highs[] = {10, 30, 100, 300, 1000}, bounds[] = {4, 15, 50, 150, 500, 1000};
    static const unsigned factors[] = {1, 2, 5, 10};
    struct record cruise = cruise_record(1200, 10);

    for (size_t i = 0; i < sizeof highs / sizeof *highs; i++)
        time_record("window", "OVERSHOOT, margin", highs[i], overshoot("margin", highs[i], 15), &cruise);
    cruise.entries = cruise.ticks = 300;
    for (size_t i = 0; i < sizeof bounds / sizeof *bounds; i++)
        time_record("ceiling", "OVERSHOOT, margin", bounds[i] + 1, overshoot("margin", 30, bounds[i]), &cruise);
    cruise.entries = cruise.ticks = 100;
    for (unsigned clocks = 0; clocks <= 4; clocks++)
        time_record("clocks", "OVERSHOOT, margin", clocks, many_clocks(clocks, 30, 5), &cruise);
    free_record(&cruise);

    /* The source's third question: denser samples of the same car. Bounds and window are the same times, in shorter ticks. */
    for (size_t i = 0; i < sizeof factors / sizeof *factors; i++) {
        unsigned k = factors[i];

        cruise = cruise_record(300, 10 / k);
        time_record("sampling", "OVERSHOOT, margin", k, overshoot("margin", 30 * k, 15 * k), &cruise);
        free_record(&cruise);
    }
}

/* One tick from a table in which every cell is occupied, one of ten, or those of an opening; or from the first of them alone. */
static void fill_tables(const char *kind, int full_alone)
{
    static const char *const weightings[] = {"margin", "sum"};
    static const char *const shapes[] = {"OVERSHOOT", "RINGING", "OVERSHOOT unbounded", "gearbox"};
    static const int32_t values[4][3] = {{4200, 120}, {-700}, {4200, 120}, {30, 205, 1300}};
    struct draws d = {UINT64_C(2463534242)};

    for (size_t i = 0; i < 8; i++) {
        const char *weighting = weightings[i % 2];
        size_t shape = i / 2;
        struct pattern *p = new_pattern(shape == 0   ? overshoot(weighting, 60, 15)
                                        : shape == 1 ? ringing(weighting, 16, 8, 4)
                                        : shape == 2 ? unbounded(weighting, 2000)
                                                     : gearbox(weighting, 60));
        struct lent from = new_lent(p, 1);
        char name[64];

        snprintf(name, sizeof name, "%s, %s", shapes[shape], weighting);
        for (unsigned in_ten = 0; in_ten <= 10; in_ten = in_ten ? in_ten * 10 : 1) {
            open_by(LIBRARY, p, &from);
            for (size_t c = 0; c < p->cells; c++)
                if (draw(&d, 10) < in_ten)
                    from.first[c] = (int64_t)draw(&d, 2000000) - 1000000;
            if (in_ten == 10 || !full_alone)
                time_call(kind, name, in_ten * 10, p, &from, 1, values[shape], 0.5);
        }
        free_lent(&from);
        free(p);
    }
}

static void fills(void)
{
    fill_tables("fill", 0);
}

/* What depends most on where the code of this program lies, as it is linked: the full tables, and the record nearest to its
 * limit. */
static void layout(void)
{
    struct record gears = gearbox_record(ENTRIES);

    time_record("layout", "gearbox, margin", window_of(gearbox("margin", 0)), gearbox("margin", 0), &gears);
    free_record(&gears);
    fill_tables("layout", 1);
}

/* One tick and eleven from a table of some 100,000 cells, a tenth or all of them occupied. */
static void large(void)
{
    static const uint32_t durations[] = {1, 11};
    static const int32_t values[2] = {4200, 120};
    struct draws d = {UINT64_C(88172645463325252)};
    struct pattern *p = new_pattern(overshoot("margin", 588, 15));
    struct lent from = new_lent(p, 1);

    for (unsigned in_ten = 1; in_ten <= 10; in_ten += 9) {
        open_by(LIBRARY, p, &from);
        for (size_t c = 0; c < p->cells; c++)
            if (draw(&d, 10) < in_ten)
                from.first[c] = (int64_t)draw(&d, 2000000) - 1000000;
        for (size_t i = 0; i < sizeof durations / sizeof *durations; i++)
            time_call("large", "OVERSHOOT, margin", in_ten * 10, p, &from, durations[i], values, 1);
    }
    free_lent(&from);
    free(p);
}

/* Writing the reports of the longest piece from place `at` on, and nothing else: the scores in one loop, the lengths in
 * another, at -O3, so that the library's own writing is not measured against a slower one. */
__attribute__((noinline, optimize("O3"))) static void write_reports(struct lent *l, size_t at, int64_t score, uint32_t length)
{
    int64_t *scores = l->scores;
    uint32_t *lengths = l->lengths;

    for (size_t i = at; i < PIECE_TICKS_MAX; i++)
        scores[i] = score;
    for (size_t i = at; i < PIECE_TICKS_MAX; i++)
        lengths[i] = length;
    __asm__ volatile("" : : "r"(scores), "r"(lengths) : "memory"); /* they are looked at */
}

/* What the library takes for a piece of `high` + 2 ticks, for the longest one, and what it takes to write the reports that
 * repeat in the longest, those after `high` + 1 ticks, to the same places: stores that begin at an odd place take longer. In
 * turn, as many rounds as fit 0.3 seconds and seven at least. A line: case, window, the three middle times. Nothing is compared
 * here: time_call times the same two calls and compares them. */
static void time_steady(const char *name, unsigned high, const struct pattern *p, const struct lent *from,
                        const int32_t *values)
{
    const uint32_t durations[] = {high + 2, PIECE_TICKS_MAX};
    struct lent l = new_lent(p, PIECE_TICKS_MAX);
    static double times[3][ROUNDS];
    double spent = 0;
    int round;

    for (round = 0; round < 7 || (round < ROUNDS && spent < 0.3); round++)
        for (int i = 0; i < 3; i++) {
            uint32_t answer = CALL_DONE;
            double start, took;

            memcpy(l.state, from->state, sizeof from->state);
            memcpy(l.first, from->first, p->cells * sizeof *from->first);
            memcpy(l.second, from->second, p->cells * sizeof *from->second);
            start = now();
            if (i < 2)
                answer = feed_by(LIBRARY, p, &l, durations[i], values, 0);
            else
                write_reports(&l, high + 1, l.scores[high], l.lengths[high]);
            took = now() - start;
            if (answer != CALL_DONE)
                fail("a piece is refused");
            spent += took;
            times[i][round] = took;
        }
    printf("steady\t%s\t%u\t%.9f\t%.9f\t%.9f\n", name, high, middle(times[0], round), middle(times[1], round),
           middle(times[2], round));
    free_lent(&l);
}

/* A piece as long as it may be, one of `high` + 2 ticks beside it, and for one case every power of ten. Each is fed after
 * a few hundred entries of a record. */
static void pieces(void)
{
    enum shape { BOUNDED, UNBOUNDED, LOOP, GEARS };
    static const struct {
        enum shape shape;
        const char *name, *weighting;
        unsigned high;
    } cases[] = {
        {BOUNDED, "OVERSHOOT, margin", "margin", 1},
        {BOUNDED, "OVERSHOOT, margin", "margin", 4},
        {BOUNDED, "OVERSHOOT, margin", "margin", 10},
        {BOUNDED, "OVERSHOOT, margin", "margin", 30},
        {BOUNDED, "OVERSHOOT, margin", "margin", 100},
        {BOUNDED, "OVERSHOOT, sum", "sum", 1},
        {BOUNDED, "OVERSHOOT, sum", "sum", 30},
        {UNBOUNDED, "OVERSHOOT unbounded, margin", "margin", 1},
        {UNBOUNDED, "OVERSHOOT unbounded, margin", "margin", 4},
        {UNBOUNDED, "OVERSHOOT unbounded, margin", "margin", 30},
        {UNBOUNDED, "OVERSHOOT unbounded, margin", "margin", 100},
        {UNBOUNDED, "OVERSHOOT unbounded, sum", "sum", 4},
        {UNBOUNDED, "OVERSHOOT unbounded, sum", "sum", 100},
        {LOOP, "RINGING, margin", "margin", 1},
        {LOOP, "RINGING, margin", "margin", 4},
        {LOOP, "RINGING, margin", "margin", 8},
        {LOOP, "RINGING, margin", "margin", 100},
        {LOOP, "RINGING, sum", "sum", 8},
        {GEARS, "gearbox, margin", "margin", 5},
        {GEARS, "gearbox, margin", "margin", 100},
        {GEARS, "gearbox, sum", "sum", 5},
        {GEARS, "gearbox, sum", "sum", 30},
    };
    static const uint32_t durations[] = {1, 10, 100, 1000, 10000};
    struct record cruise = cruise_record(301, 10), swing = swing_record(301, 10), gears = gearbox_record(301);

    for (size_t i = 0; i < sizeof cases / sizeof *cases; i++) {
        enum shape shape = cases[i].shape;
        const char *weighting = cases[i].weighting, *name = cases[i].name;
        unsigned high = cases[i].high;
        struct pattern *p = new_pattern(shape == BOUNDED     ? overshoot(weighting, high, 5)
                                        : shape == UNBOUNDED ? unbounded(weighting, high)
                                        : shape == LOOP      ? ringing(weighting, high, 4, 1)
                                                             : gearbox(weighting, high));
        struct record before = shape == LOOP ? swing : shape == GEARS ? gears : cruise;
        const int32_t *values = before.values + 300 * before.channels; /* of the last entry, which is not fed */
        struct lent from = new_lent(p, before.ticks);

        before.entries = 300;
        if (run_by(LIBRARY, p, &from, &before) != CALL_DONE)
            fail("a record is refused");
        if (shape == BOUNDED && high == 100)
            for (size_t j = 0; j < sizeof durations / sizeof *durations; j++)
                time_call("piece", name, high, p, &from, durations[j], values, 0.5);
        time_call("piece", name, high, p, &from, high + 2, values, 0.3);
        time_call("piece", name, high, p, &from, PIECE_TICKS_MAX, values, 0.5);
        time_steady(name, high, p, &from, values);
        free_lent(&from);
        free(p);
    }
    free_record(&cruise);
    free_record(&swing);
    free_record(&gears);
}

/* ---- the best of a record */

static void check_best(const char *name, int monitor, const struct pattern *p, const struct lent *l,
                       const struct lent *right, struct record_best best, struct record_best right_best)
{
    if (best.refusal != CALL_DONE || right_best.refusal != CALL_DONE || best.found != right_best.found ||
        best.end != right_best.end || best.begin != right_best.begin || best.score != right_best.score ||
        memcmp(l->first, right->first, p->cells * sizeof *l->first) != 0 ||
        memcmp(l->second, right->second, p->cells * sizeof *l->second) != 0) {
        printf("DIFFERENT %s: the best of a record of %s and %s\n", name, names[monitor], names[LIBRARY]);
        exit(1);
    }
}

/* The library's own function; the plain monitor is fed with the record, and the best of its reports kept. */
static struct record_best best_by(int monitor, const struct pattern *p, struct lent *l, const struct record *r)
{
    struct record_best best = {0};
    uint32_t now_at = 0;

    if (monitor == LIBRARY)
        return record_best((const uint8_t *)p->text, p->length, r->durations, r->entries, r->values,
                           r->entries * r->channels, l->first, p->cells, l->second, p->cells);
    best.refusal = open_by(monitor, p, l);
    for (size_t i = 0; i < r->entries && best.refusal == CALL_DONE; i++) {
        best.refusal = feed_by(monitor, p, l, r->durations[i], r->values + i * r->channels, 0);
        for (uint32_t t = 0; t < r->durations[i] && best.refusal == CALL_DONE; t++) {
            now_at++;
            if (l->lengths[t] == 0)
                continue;
            if (!best.found || (p->plain.sum ? l->scores[t] < best.score : l->scores[t] > best.score)) {
                best.found = 1;
                best.end = now_at;
                best.begin = now_at - l->lengths[t];
                best.score = l->scores[t];
            }
        }
    }
    return best;
}

static void time_best(const char *name, size_t high, const char *text, const struct record *r)
{
    struct pattern *p = new_pattern(text);
    struct timing t = new_timing();
    struct lent lent[MONITORS];
    struct record_best best[MONITORS];

    for (int m = 0; m < MONITORS; m++)
        lent[m] = new_lent(p, 4); /* an entry's reports */
    while (goes_on(&t, 1))
        for (int m = 0; m < MONITORS; m++) {
            double start = now();

            best[m] = best_by(m, p, &lent[m], r);
            count_time(&t, m, now() - start);
            check_best(name, m, p, &lent[m], &lent[LIBRARY], best[m], best[LIBRARY]);
        }
    print_times("best", name, high, r->entries, r->ticks, p, occupied(p, lent[LIBRARY].first), &lent[LIBRARY], &t);
    for (int m = 0; m < MONITORS; m++)
        free_lent(&lent[m]);
    free(p);
}

/* As many ticks as a record may have, in few pieces: the library alone. The plain monitor is fed with pieces of the
 * same values and few ticks: after `high` + 1 ticks of a piece nothing changes any more, so the best score and the tables
 * must be the same, and the best end must lie as far behind its piece's beginning. */
static void time_longest(const char *name, size_t high, const char *text, const struct record *r)
{
    struct pattern *p = new_pattern(text);
    struct record short_one = *r;
    uint32_t few = 2 * (uint32_t)high + 4, ahead = 0;
    struct lent l = new_lent(p, 1), plain = new_lent(p, few);
    struct record_best best, plain_best;
    struct timing t = new_timing();

    short_one.durations = memory(r->entries * sizeof *short_one.durations);
    for (size_t i = 0; i < r->entries; i++)
        short_one.durations[i] = few;
    while (goes_on(&t, 0.3)) {
        double start = now();

        best = best_by(LIBRARY, p, &l, r);
        count_time(&t, LIBRARY, now() - start);
    }
    plain_best = best_by(GCC, p, &plain, &short_one);
    if (plain_best.found) {
        for (uint32_t i = 0; i < (plain_best.end - 1) / few; i++)
            ahead += r->durations[i] - few;
        plain_best.end += ahead;
        plain_best.begin += ahead;
    }
    check_best(name, GCC, p, &plain, &l, plain_best, best);
    printf("longest\t%s\t%zu\t%zu\t%zu\t%zu\t%.9f\t%d\t%.3f\n", name, high, r->entries, r->ticks, p->cells,
           seconds_of(&t, LIBRARY), t.rounds, t.slowest / t.quickest);
    fflush(stdout);
    free(short_one.durations);
    free_lent(&l);
    free_lent(&plain);
    free(p);
}

static void bests(void)
{
    static const char *const weightings[] = {"margin", "sum"};
    struct record cruise = cruise_record(1000, 10), swing = swing_record(1000, 10);
    char name[64];

    for (int w = 0; w < 2; w++) {
        const char *weighting = weightings[w];

        snprintf(name, sizeof name, "OVERSHOOT, %s", weighting);
        time_best(name, 30, overshoot(weighting, 30, 15), &cruise);
        snprintf(name, sizeof name, "RINGING, %s", weighting);
        time_best(name, 8, ringing(weighting, 8, 8, 4), &swing);
        snprintf(name, sizeof name, "OVERSHOOT unbounded, %s", weighting);
        time_best(name, 100, unbounded(weighting, 100), &cruise);
    }
    cruise.entries = 5; /* with values that are far apart in the car's drive */
    cruise.ticks = TICKS_MAX;
    for (size_t i = 0; i < cruise.entries; i++) {
        cruise.durations[i] = i == 0 ? TICKS_MAX / 5 + TICKS_MAX % 5 : TICKS_MAX / 5;
        memcpy(cruise.values + i * cruise.channels, cruise.values + 97 * i * cruise.channels,
               cruise.channels * sizeof *cruise.values);
    }
    for (int w = 0; w < 2; w++) {
        snprintf(name, sizeof name, "OVERSHOOT, %s", weightings[w]);
        time_longest(name, 30, overshoot(weightings[w], 30, 15), &cruise);
        snprintf(name, sizeof name, "OVERSHOOT unbounded, %s", weightings[w]);
        time_longest(name, 100, unbounded(weightings[w], 100), &cruise);
    }
    free_record(&cruise);
    free_record(&swing);
}

/* What a call costs before its first cell is looked at: the library reads the pattern's text at each. */
static void readings(void)
{
    const char *const patterns[] = {overshoot("margin", 30, 15), gearbox("margin", 0)};
    static const char *const patterns_names[] = {"OVERSHOOT", "gearbox"};

    for (int i = 0; i < 2; i++) {
        struct pattern *p = new_pattern(patterns[i]);
        double seconds = 1e9;

        for (int round = 0; round < 50; round++) {
            double start = now(), took;
            uint32_t refused = 0;

            for (int n = 0; n < 200; n++)
                refused |= pattern_check((const uint8_t *)p->text, p->length);
            took = (now() - start) / 200;
            if (refused)
                fail("a pattern is refused");
            if (took < seconds)
                seconds = took;
        }
        printf("reading\t%s\t%zu\t%.9f\n", patterns_names[i], p->length, seconds);
        free(p);
    }
}

/* ---- refusals */

/* The faults a feed can have, in the order in which their causes are tried: of two the first must be answered. */
enum fault {
    TICKS_BELOW_0,
    LAST_VALUE_OUT,
    UNUSED_CHANNEL,
    VALUE_AT_0_TICKS,
    FIRST_TABLE_SHORT,
    SECOND_TABLE_SHORT,
    NO_TICKS,
    LONG_PIECE,
    VALUE_OUT,
    VALUE_TOO_MANY,
    TICKS_PASS,
    CELL_OUT,
    SCORES_SHORT,
    LENGTHS_SHORT,
    FAULTS
};

/* The arguments of a feed, beside what is lent. */
struct call {
    size_t first_length, second_length, values_length, scores_length, lengths_length;
    uint32_t duration;
    int32_t values[2];
};

static void make_fault(enum fault fault, const struct pattern *p, struct lent *l, struct call *c)
{
    switch (fault) {
    case TICKS_BELOW_0:
        l->state[0] = -1;
        break;
    case LAST_VALUE_OUT:
        l->state[1] = VALUE_MAX + 1;
        break;
    case UNUSED_CHANNEL:
        l->state[3] = 1;
        break;
    case VALUE_AT_0_TICKS:
        l->state[0] = 0;
        break;
    case FIRST_TABLE_SHORT:
        c->first_length = p->cells - 1;
        break;
    case SECOND_TABLE_SHORT:
        c->second_length = p->cells - 1;
        break;
    case NO_TICKS:
        c->duration = 0;
        break;
    case LONG_PIECE:
        c->duration = PIECE_TICKS_MAX + 1;
        break;
    case VALUE_OUT:
        c->values[0] = -VALUE_MAX - 1;
        break;
    case VALUE_TOO_MANY:
        c->values_length = 2;
        break;
    case TICKS_PASS:
        l->state[0] = TICKS_MAX - 2;
        break;
    case CELL_OUT:
        l->first[p->cells - 1] = CELL_MAX + 1;
        break;
    case SCORES_SHORT:
        c->scores_length = 2;
        break;
    default:
        c->lengths_length = 2;
    }
}

static void copy_lent(const struct pattern *p, struct lent *to, const struct lent *from)
{
    memcpy(to->state, from->state, sizeof to->state);
    memcpy(to->first, from->first, p->cells * sizeof *to->first);
    memcpy(to->second, from->second, p->cells * sizeof *to->second);
    memcpy(to->scores, from->scores, to->reports * sizeof *to->scores);
    memcpy(to->lengths, from->lengths, to->reports * sizeof *to->lengths);
}

/* Every fault alone (one == other) and every two together; nothing lent may be altered. Two that spoil the same number
 * leave the first of them. */
static void refusals(void)
{
    static const uint32_t numbers[FAULTS] = {
        STATE_BROKEN,  STATE_BROKEN,  STATE_BROKEN,  STATE_BROKEN,   TABLE_TOO_SHORT, TABLE_TOO_SHORT,   RECORD_BROKEN,
        RECORD_BROKEN, RECORD_BROKEN, RECORD_BROKEN, TOO_MANY_TICKS, CELL_BROKEN,     REPORTS_TOO_SHORT, REPORTS_TOO_SHORT};
    struct record swing = swing_record(50, 10);
    struct pattern *p = new_pattern(ringing("sum", 8, 8, 4));
    struct lent sound = new_lent(p, swing.ticks), l = new_lent(p, swing.ticks), saved = new_lent(p, swing.ticks);
    size_t tried = 0;

    if (run_by(LIBRARY, p, &sound, &swing) != CALL_DONE)
        fail("a record is refused");
    for (int one = 0; one < FAULTS; one++)
        for (int other = one; other < FAULTS; other++) {
            for (int m = 0; m < MONITORS; m++) {
                struct call c = {p->cells, p->cells, 1, swing.ticks, swing.ticks, 3, {5, 5}};
                uint32_t answer;

                copy_lent(p, &l, &sound);
                make_fault((enum fault)other, p, &l, &c);
                make_fault((enum fault)one, p, &l, &c);
                copy_lent(p, &saved, &l);
                if (m == LIBRARY)
                    answer = monitor_feed((const uint8_t *)p->text, p->length, l.state, MONITOR_STATE_LENGTH, l.first,
                                          c.first_length, l.second, c.second_length, c.duration, c.values,
                                          c.values_length, l.scores, c.scores_length, l.lengths, c.lengths_length);
                else
                    answer = (m == GCC ? plain_feed_gcc : plain_feed_clang)(
                        &p->plain, l.state, MONITOR_STATE_LENGTH, l.first, c.first_length, l.second, c.second_length,
                        c.duration, c.values, c.values_length, l.scores, c.scores_length, l.lengths, c.lengths_length);
                if (answer != numbers[one]) {
                    printf("DIFFERENT faults %d and %d: %s answers %" PRIu32 "\n", one, other, names[m], answer);
                    exit(1);
                }
                compare("a refused call", m, p, &l, &saved, CALL_DONE, CALL_DONE);
            }
            tried++;
        }
    printf("refusals\t%d\t%zu\n", FAULTS, tried);
    free_lent(&sound);
    free_lent(&l);
    free_lent(&saved);
    free(p);
    free_record(&swing);
}

/* ---- the second scorer */

/* What the program watch prints, which is what the scorer prints, from a record's reports. */
static char *rows(const struct pattern *p, const struct lent *l, size_t *length)
{
    char *out = memory(64 * (l->reports + 2)), *at = out;
    size_t best = l->reports;

    at += sprintf(at, "end begin score\n");
    for (size_t i = 0; i < l->reports; i++) {
        if (l->lengths[i] == 0)
            continue;
        at += sprintf(at, "%zu %zu %" PRId64 "\n", i + 1, i + 1 - l->lengths[i], l->scores[i]);
        if (best == l->reports || (p->plain.sum ? l->scores[i] < l->scores[best] : l->scores[i] > l->scores[best]))
            best = i;
    }
    if (best == l->reports)
        at += sprintf(at, "best none\n");
    else
        at += sprintf(at, "best %zu %zu %" PRId64 "\n", best + 1, best + 1 - l->lengths[best], l->scores[best]);
    *length = (size_t)(at - out);
    return out;
}

static FILE *create(const char *directory, const char *name)
{
    char path[4096];
    FILE *file;

    snprintf(path, sizeof path, "%s/%s", directory, name);
    file = fopen(path, "w+");
    if (!file)
        fail("a file cannot be made");
    return file;
}

static double wall(void)
{
    struct timespec t;

    clock_gettime(CLOCK_MONOTONIC, &t);
    return (double)t.tv_sec + (double)t.tv_nsec * 1e-9;
}

/* Runs the scorer on the files in the directory until 0.2 seconds are spent, three times at least unless the first took over a
 * second: the middle time, and the most memory in KiB. What it prints is in `output`. */
static double run_scorer(const char *scorer, const char *directory, FILE *output, long *kib)
{
    static double times[ROUNDS];
    double spent = 0;
    int round;

    fflush(stdout);
    *kib = 0;
    for (round = 0; round < ROUNDS && (spent < 0.2 || (round < 3 && spent < 1)); round++) {
        struct rusage used;
        double start, took;
        int status;
        pid_t child;

        if (ftruncate(fileno(output), 0) != 0)
            fail("a file cannot be emptied");
        rewind(output);
        start = wall();
        child = fork();
        if (child == 0) {
            dup2(fileno(output), 1);
            execl(scorer, scorer, directory, (char *)NULL);
            _exit(127);
        }
        if (child < 0 || wait4(child, &status, 0, &used) != child || status != 0)
            fail("the second scorer does not end well");
        took = wall() - start;
        spent += took;
        times[round] = took;
        if (used.ru_maxrss > *kib)
            *kib = used.ru_maxrss;
    }
    return middle(times, round);
}

/* A line: case, window, entries, ticks, cells, seconds of the library, rounds and spread, seconds of the scorer, its KiB. */
static void second_case(const char *scorer, const char *directory, const char *name, size_t high, const char *text,
                        const struct record *r)
{
    struct pattern *p = new_pattern(text);
    struct lent l = new_lent(p, r->ticks);
    FILE *pattern = create(directory, "pattern.txt"), *record = create(directory, "record.txt");
    FILE *output = create(directory, "output.txt");
    struct timing t = new_timing();
    double of_scorer;
    size_t length, got;
    char *expected, *bytes;
    long kib;

    fputs(p->text, pattern);
    for (size_t i = 0; i < r->entries; i++) {
        fprintf(record, "(piece %" PRIu32, r->durations[i]);
        for (size_t c = 0; c < r->channels; c++)
            fprintf(record, " %" PRId32, r->values[i * r->channels + c]);
        fprintf(record, ")\n");
    }
    fclose(pattern);
    fclose(record);
    of_scorer = run_scorer(scorer, directory, output, &kib);
    while (goes_on(&t, 0.2)) {
        double start = now();

        if (run_by(LIBRARY, p, &l, r) != CALL_DONE)
            fail("a record is refused");
        count_time(&t, LIBRARY, now() - start);
    }
    expected = rows(p, &l, &length);
    bytes = memory(length + 1);
    rewind(output);
    got = fread(bytes, 1, length + 1, output);
    if (got != length || memcmp(bytes, expected, length) != 0) {
        printf("DIFFERENT %s, window %zu: the rows of the second scorer and the library\n", name, high);
        exit(1);
    }
    printf("second\t%s\t%zu\t%zu\t%zu\t%zu\t%.9f\t%d\t%.3f\t%.9f\t%ld\n", name, high, r->entries, r->ticks, p->cells,
           seconds_of(&t, LIBRARY), t.rounds, t.slowest / t.quickest, of_scorer, kib);
    fflush(stdout);
    fclose(output);
    free(expected);
    free(bytes);
    free_lent(&l);
    free(p);
}

/* The scorer keeps to the limits of the program watch: 2,048 cells, a record of 16,384 bytes. The bounds are those of
 * `records`, the windows as large as these cells and its patience allow; RINGING has smaller bounds in a second line. */
static void second(const char *scorer, const char *directory)
{
    static const unsigned bounded[] = {4, 8, 11}, free_ones[] = {4, 8, 16};
    struct record cruise = cruise_record(700, 10), swing = swing_record(900, 10), gears = gearbox_record(600);
    struct record none = cruise;

    none.entries = none.ticks = 0; /* what starting it costs */
    second_case(scorer, directory, "no record", 8, overshoot("margin", 8, 15), &none);
    for (size_t i = 0; i < sizeof bounded / sizeof *bounded; i++)
        second_case(scorer, directory, "OVERSHOOT, margin", bounded[i], overshoot("margin", bounded[i], 15), &cruise);
    second_case(scorer, directory, "OVERSHOOT, sum", 11, overshoot("sum", 11, 15), &cruise);
    for (size_t i = 0; i < sizeof free_ones / sizeof *free_ones; i++)
        second_case(scorer, directory, "OVERSHOOT unbounded, margin", free_ones[i], unbounded("margin", free_ones[i]),
                    &cruise);
    second_case(scorer, directory, "OVERSHOOT unbounded, sum", 16, unbounded("sum", 16), &cruise);
    second_case(scorer, directory, "RINGING, margin", 2, ringing("margin", 2, 8, 4), &swing);
    second_case(scorer, directory, "RINGING with bounds 4 and 1, margin", 8, ringing("margin", 8, 4, 1), &swing);
    second_case(scorer, directory, "gearbox, margin", window_of(gearbox("margin", 0)), gearbox("margin", 0), &gears);
    free_record(&cruise);
    free_record(&swing);
    free_record(&gears);
}

/* ---- memory */

/* The most memory that this process has had in use, in KiB. */
static size_t peak(void)
{
    FILE *file = fopen("/proc/self/status", "r");
    char line[256];
    size_t value = 0;

    while (file && fgets(line, sizeof line, file))
        sscanf(line, "VmHWM: %zu", &value);
    if (file)
        fclose(file);
    return value;
}

/* The patterns of the memory part. Their windows are larger than those of the records, so that a table takes 320 KiB or
 * more: a copy of one would be seen. */
static const char *memory_text(const char *name, int small)
{
    if (strcmp(name, "OVERSHOOT") == 0)
        return overshoot("margin", small ? 1 : 300, 15);
    if (strcmp(name, "RINGING") == 0)
        return ringing("margin", small ? 1 : 80, 8, 4);
    if (strcmp(name, "unbounded") == 0)
        return unbounded("margin", small ? 1 : 4095);
    return gearbox("margin", small ? 0 : 150);
}

/* An opening and the record's first entries; only the last entry's reports are kept. */
static void feed_all(int monitor, const struct pattern *p, struct lent *l, const struct record *r, size_t entries)
{
    uint32_t answer = open_by(monitor, p, l);

    for (size_t i = 0; i < entries && answer == CALL_DONE; i++)
        answer = feed_by(monitor, p, l, r->durations[i], r->values + i * r->channels, 0);
    if (answer != CALL_DONE)
        fail("a record is refused");
}

/* What a monitor needs beyond the record: the peak after it has run, less the one before its tables were made. A small
 * window has run before, so that the pages of code, which the kernel brings in by up to 64 KiB, are there already. */
static void memory_of(const char *name, const char *monitor, size_t entries)
{
    int m = strcmp(monitor, "library") == 0 ? LIBRARY : strcmp(monitor, "gcc") == 0 ? GCC : CLANG;
    struct record r = strcmp(name, "RINGING") == 0   ? swing_record(entries, 10)
                      : strcmp(name, "gearbox") == 0 ? gearbox_record(entries)
                                                     : cruise_record(entries, 10);
    struct pattern *small = new_pattern(memory_text(name, 1)), *p = new_pattern(memory_text(name, 0));
    struct lent few = new_lent(small, 4), l; /* an entry's reports */
    size_t before;

    feed_all(m, small, &few, &r, entries < 100 ? entries : 100);
    peak(); /* so that its own pages are there, too */
    before = peak();
    l = new_lent(p, 4);
    feed_all(m, p, &l, &r, entries);
    printf("memory\t%s\t%s\t%zu\t%zu\t%zu\t%zu\n", name, monitor, entries, 2 * p->cells * sizeof *l.first / 1024, before,
           peak());
    free_lent(&few);
    free_lent(&l);
    free(small);
    free(p);
    free_record(&r);
}

/* ---- stack */

#define STACK (64 * 1024)
#define PAINT 0xc7

static uint8_t large_text[PATTERN_TEXT_MAX];
static size_t large_length;

/* 16 places with four tests each, 32 edges with guards and resets, four clocks, eight channels; from a window of 128 on a
 * feed keeps more flags */
static void make_large(void)
{
    char *at = (char *)large_text;

    at += sprintf(at, "(pattern sum 8 4 1 128)\n");
    for (int i = 0; i < 16; i++)
        at += sprintf(at, "(place %s (> 0 -5) (in 3 -9 9) (< 5 9) (<= 7 3))\n", i == 0 ? "start" : i == 15 ? "end" : "both");
    for (int i = 0; i < 32; i++)
        at += sprintf(at, "(edge %d %d (<= 0 2) (>= 1 1) (< 2 3) (> 3 0) (reset 0 1 2 3))\n", i % 16, (i * 7 + 1) % 16);
    large_length = (size_t)(at - (char *)large_text);
}

static void *nothing(void *argument)
{
    return argument;
}

/* Every function that a host calls; what is lent lies outside of the stack. */
static void *all_calls(void *argument)
{
    static int64_t state[MONITOR_STATE_LENGTH], scores[64];
    static uint32_t lengths[64], durations[] = {9, 400, 1, 70, 2000}, edges[] = {0}, stays[] = {1};
    static int32_t values[5 * 8];
    uint32_t *refused = argument;
    size_t cells = pattern_cells(large_text, large_length);
    int64_t *first = malloc(cells * sizeof *first), *second = malloc(cells * sizeof *second);

    for (int i = 0; i < 40; i++)
        values[i] = i % 13 - 6;
    if (!first || !second || cells == 0) {
        *refused = 1;
        return NULL;
    }
    *refused |= pattern_check(large_text, large_length);
    *refused |= monitor_open(large_text, large_length, state, MONITOR_STATE_LENGTH, first, cells, second, cells);
    for (int i = 0; i < 5; i++)
        *refused |= monitor_feed(large_text, large_length, state, MONITOR_STATE_LENGTH, first, cells, second, cells,
                                 durations[i] % 64 + 1, values + 8 * i, 8, scores, 64, lengths, 64);
    *refused |= record_best(large_text, large_length, durations, 5, values, 40, first, cells, second, cells).refusal;
    *refused |= run_price(large_text, large_length, durations, 5, values, 40, 2, edges, 1, stays, 1).refusal;
    free(first);
    free(second);
    return NULL;
}

/* Bytes of a stack of 64 KiB that a thread has written, its own administration included. Below the stack lies a page that
 * cannot be touched. */
static size_t taken(void *(*function)(void *), void *argument)
{
    size_t page = (size_t)sysconf(_SC_PAGESIZE), untouched = 0;
    unsigned char *area = mmap(NULL, STACK + page, PROT_READ | PROT_WRITE, MAP_PRIVATE | MAP_ANONYMOUS, -1, 0);
    pthread_attr_t attributes;
    pthread_t thread;

    if (area == MAP_FAILED || mprotect(area, page, PROT_NONE) != 0)
        fail("no stack");
    memset(area + page, PAINT, STACK);
    if (pthread_attr_init(&attributes) != 0 || pthread_attr_setstack(&attributes, area + page, STACK) != 0 ||
        pthread_create(&thread, &attributes, function, argument) != 0 || pthread_join(thread, NULL) != 0)
        fail("no thread");
    while (untouched < STACK && area[page + untouched] == PAINT)
        untouched++;
    munmap(area, STACK + page);
    return STACK - untouched;
}

static void stack(void)
{
    uint32_t refused = 0;
    size_t empty, all;

    make_large();
    empty = taken(nothing, NULL);
    all = taken(all_calls, &refused);
    if (refused)
        fail("a call for the stack is refused");
    printf("stack\t%d\t%zu\t%zu\n", STACK, all, empty);
}

int main(int argc, char **argv)
{
    static const struct {
        const char *name;
        void (*run)(void);
    } parts[] = {{"records", records}, {"growth", growth}, {"fills", fills},       {"large", large}, {"pieces", pieces},
                 {"bests", bests},     {"readings", readings}, {"stack", stack}, {"refusals", refusals}, {"layout", layout}};

    for (size_t i = 0; argc == 2 && i < sizeof parts / sizeof *parts; i++)
        if (strcmp(argv[1], parts[i].name) == 0) {
            parts[i].run();
            return 0;
        }
    if (argc == 4 && strcmp(argv[1], "second") == 0) {
        second(argv[2], argv[3]);
    } else if (argc == 5 && strcmp(argv[1], "memory") == 0) {
        memory_of(argv[2], argv[3], (size_t)atol(argv[4]));
    } else if (argc == 3 && strcmp(argv[1], "differs") == 0) {
        struct record swing = swing_record(200, 10);

        spoiled = atoi(argv[2]);
        time_record("differs", "RINGING, margin", 8, ringing("margin", 8, 8, 4), &swing);
        free_record(&swing);
    } else {
        fail("usage: measure PART | second SCORER DIR | memory CASE MONITOR ENTRIES | differs N");
    }
    return 0;
}
