/* visits.c: which cells of a monitor's tables one call reads and writes, and how often. run says what is promised and how the
 * parts are put together.
 *
 *     visits names                     the cases, a line for each
 *     visits prepare CASE FILE         brings the monitor to where the call begins, finds out tick by tick which blocks of the
 *                                      first table hold a worth during the call, and writes all that into FILE
 *     visits call CASE FILE [WRONG]    makes the one call, to be traced by valgrind's tool lackey: from one store to `marker`
 *                                      to the next. With WRONG, 1 to 7, it touches a cell more than it may: that must be
 *                                      noticed
 *     visits count CASE FILE           reads the trace and what `call` printed from standard input, counts and judges; the last
 *                                      line is `all is right` if nothing failed
 *
 * Preparing is apart since lackey traces a whole program, and the calls before would make most of the trace. */
#define _GNU_SOURCE
#include <fcntl.h>
#include <inttypes.h>
#include <stdio.h>
#include <stdlib.h>
#include <string.h>
#include <time.h>
#include <unistd.h>

#include "bench_margin.h"

#define CELLS 32768 /* of the greatest table */
#define TICKS 8192  /* of the longest call */
#define PIECES 16   /* of the longest record */
#define FEWEST 100  /* cells of blocks that hold only marks, below which a case says nothing */
#define PIPE_BYTES (1 << 20)

/* ---- the cases */

/* Document 01's first example with a greater window. The clock's ceiling is 4, so a block has 5 cells. */
#define FIRST(weighting, high)                                                                                              \
    "(pattern " weighting " 1 1 1 " high ")\n(place start (< 0 15))\n(place plain (> 0 5))\n(place end)\n"                  \
    "(edge 0 1 (< 0 3) (reset 0))\n(edge 1 2 (<= 0 2))\n"
/* Without clocks: a block has one cell. */
#define ONE(weighting) "(pattern " weighting " 1 0 1 4095)\n(place both (< 0 15))\n(edge 0 0)\n"
#define TWO "(pattern margin 1 0 1 4095)\n(place start (< 0 15))\n(place end (> 0 5))\n(edge 0 1)\n"
/* examples/gearbox with a greater window. Each clock's ceiling is 2: 81 cells. */
#define GEARBOX(weighting)                                                                                                  \
    "(pattern " weighting " 3 4 3 40)\n(place both (>= 0 20) (<= 1 40))\n(place plain (>= 0 25) (>= 1 180) (>= 2 900))\n"   \
    "(edge 0 1 (> 0 1) (reset 1 2 3))\n(edge 1 1 (<= 1 1) (reset 2))\n(edge 1 0 (<= 2 1) (> 3 1))\n"
/* All 32 blocks of a row; only places 0, 9 and 15 are ever entered. The clock's ceiling is 3: 4 cells. */
#define SIXTEEN                                                                                                             \
    "(pattern margin 1 1 1 60)\n(place start (< 0 15))\n(place plain)\n(place plain)\n(place plain)\n(place plain)\n"       \
    "(place plain)\n(place plain)\n(place plain)\n(place plain)\n(place plain)\n(place plain)\n(place plain)\n"             \
    "(place plain)\n(place plain)\n(place plain)\n(place end)\n"                                                            \
    "(edge 0 9 (>= 0 2))\n(edge 9 15)\n(edge 15 15 (reset 0))\n(edge 8 7)\n(edge 14 1)\n"

static const struct test {
    const char *name, *text;
    uint32_t channels, places, high, block; /* as the text has them */
    uint32_t fed, piece;                    /* so many pieces of so many ticks are fed before the call */
    uint32_t planted[2];                    /* rows in which a worth is written by hand before the call; 0: none */
    uint32_t ticks;                         /* of the call; 0: it is record_best, of this record: */
    uint32_t record[PIECES];
    int top;                                /* the longest row holds a worth after the call */
} tests[] = {
    {"one clock, window 60, 21 ticks before", FIRST("margin", "60"), 1, 3, 60, 5, 3, 7, {0}, 7, {0}, 0},
    {"one clock, window 60, sum, 21 ticks before", FIRST("sum", "60"), 1, 3, 60, 5, 3, 7, {0}, 7, {0}, 0},
    {"one clock, window 60, just opened", FIRST("margin", "60"), 1, 3, 60, 5, 0, 0, {0}, 7, {0}, 0},
    {"one clock, window 60, 105 ticks before", FIRST("margin", "60"), 1, 3, 60, 5, 15, 7, {0}, 7, {0}, 1},
    {"a call that is longer than the window", FIRST("margin", "60"), 1, 3, 60, 5, 3, 7, {0}, 100, {0}, 1},
    {"one clock, window 127, 140 ticks before", FIRST("margin", "127"), 1, 3, 127, 5, 20, 7, {0}, 7, {0}, 1},
    {"one clock, window 128, 140 ticks before", FIRST("margin", "128"), 1, 3, 128, 5, 20, 7, {0}, 7, {0}, 1},
    {"no clocks, one place, window 4095, 300 ticks before", ONE("sum"), 1, 1, 4095, 1, 3, 100, {0}, 5, {0}, 0},
    {"no clocks, two places, window 4095, 300 ticks before", TWO, 1, 2, 4095, 1, 3, 100, {0}, 5, {0}, 0},
    {"no clocks, two places, window 4095, 4200 ticks before", TWO, 1, 2, 4095, 1, 6, 700, {0}, 2, {0}, 1},
    {"no clocks, two places, worths in rows 2000 and 4090", TWO, 1, 2, 4095, 1, 0, 0, {2000, 4090}, 5, {0}, 1},
    {"four clocks, window 40, 12 ticks before", GEARBOX("margin"), 3, 2, 40, 81, 4, 3, {0}, 6, {0}, 0},
    {"four clocks, window 40, sum, 48 ticks before", GEARBOX("sum"), 3, 2, 40, 81, 16, 3, {0}, 6, {0}, 1},
    {"sixteen places, window 60, 30 ticks before", SIXTEEN, 1, 16, 60, 4, 10, 3, {0}, 7, {0}, 0},
    {"sixteen places, window 60, 90 ticks before", SIXTEEN, 1, 16, 60, 4, 30, 3, {0}, 7, {0}, 1},
    {"record_best, one clock, window 60", FIRST("margin", "60"), 1, 3, 60, 5, 0, 0, {0}, 0, {5, 70, 1, 30, 64, 40}, 1},
    {"record_best, one clock, window 150, sum", FIRST("sum", "150"), 1, 3, 150, 5, 0, 0, {0}, 0, {70, 1, 40}, 0},
    {"record_best, no clocks, window 4095", TWO, 1, 2, 4095, 1, 0, 0, {0}, 0, {70, 1, 20}, 0},
    {"record_best, four clocks, window 40", GEARBOX("margin"), 3, 2, 40, 81, 0, 0, {0}, 0, {10, 1, 12}, 0},
    {"record_best, sixteen places, window 60", SIXTEEN, 1, 16, 60, 4, 0, 0, {0}, 0, {3, 1, 9}, 0},
};
#define TESTS (sizeof tests / sizeof *tests)

static const struct test *test;
static size_t cells, blocks;

static const uint8_t *text(void) { return (const uint8_t *)test->text; }

/* what `prepare` finds and the other two need */
static struct found {
    int64_t state[MONITOR_STATE_LENGTH], first[CELLS];             /* before the call */
    int64_t state_after[MONITOR_STATE_LENGTH], first_after[CELLS]; /* and after it */
    uint32_t begun[CELLS];                                         /* how many ticks of it begin with a worth in this block, */
    uint32_t held[CELLS];                                          /* and how often there is one, also after the last */
} found;

static int64_t second[CELLS], scores[TICKS];
static uint32_t lengths[TICKS], durations[PIECES];
static int32_t values[PIECES * PATTERN_CHANNELS_MAX];
static volatile uint32_t marker;

static void die(const char *words)
{
    printf("tests/visits: %s: %s\n", test ? test->name : "visits", words);
    exit(2);
}

/* The values of piece k, other ones than those of piece k + 1. */
static void values_of(uint32_t k, int32_t *to)
{
    for (uint32_t c = 0; c < test->channels; c++)
        to[c] = (int32_t)((k * 7 + c * 90) % 200) - 20;
}

static uint32_t feed(int64_t *state, int64_t *first, uint32_t ticks)
{
    return monitor_feed(text(), strlen(test->text), state, MONITOR_STATE_LENGTH, first, cells, second, cells, ticks, values,
                        test->channels, scores, TICKS, lengths, TICKS);
}

static uint32_t pieces(void)
{
    uint32_t n = 0;

    while (n < PIECES && test->record[n] != 0)
        n++;
    return n;
}

/* ---- preparing */

static void look(uint32_t *counts)
{
    for (size_t i = 0; i < cells; i++)
        if (found.first_after[i] != CELL_MARK) {
            counts[i / test->block]++;
            i = (i / test->block + 1) * test->block - 1;
        }
}

/* One piece of the call, tick by tick. */
static void walk(uint32_t k, uint32_t ticks)
{
    values_of(k, values);
    for (uint32_t i = 0; i < ticks; i++) {
        look(found.begun);
        if (feed(found.state_after, found.first_after, 1) != CALL_DONE)
            die("a tick is refused");
        look(found.held);
    }
}

static void prepare(void)
{
    uint32_t answer = monitor_open(text(), strlen(test->text), found.state, MONITOR_STATE_LENGTH, found.first, cells, second,
                                   cells);

    if (answer != CALL_DONE)
        die("the opening is refused");
    for (uint32_t k = 0; k < test->fed; k++) {
        values_of(k, values);
        if (feed(found.state, found.first, test->piece) != CALL_DONE)
            die("a piece before the call is refused");
    }
    for (int i = 0; i < 2; i++)
        if (test->planted[i] != 0)
            found.first[(test->planted[i] * 2 + 1) * test->places * test->block] = 7; /* staying in place 0 */
    memcpy(found.state_after, found.state, sizeof found.state);
    memcpy(found.first_after, found.first, sizeof found.first);
    look(found.held);
    if (test->ticks != 0)
        walk(test->fed, test->ticks);
    for (uint32_t k = 0; k < pieces(); k++)
        walk(k, test->record[k]);
}

/* ---- the call */

/* A visit more, in which nothing is altered: of a block that holds only marks and comes after one that holds a worth, or of
 * the second table. */
static void touch(int wrong)
{
    typedef int64_t pair __attribute__((vector_size(16), aligned(8)));
    volatile int64_t *cell, *last = second + cells - 1;
    size_t b = 1;

    while (b < blocks - 1 && (found.held[b] != 0 || found.held[b - 1] == 0))
        b++;
    cell = found.first + b * test->block;
    switch (wrong) {
    case 1: (void)*cell; break;
    case 2: *cell = CELL_MARK; break;
    case 3: (void)*last; break;
    case 4: *last = CELL_MARK; break;
    case 5: *cell |= 0; break;
    case 6: (void)*((volatile uint8_t *)cell + sizeof *cell - 1); break; /* the cell's last byte */
    case 7: (void)*(volatile pair *)(cell - 1); break;                   /* the cell and the one before it */
    default: die("there is no such error");
    }
}

static int call(int wrong)
{
    uint32_t n = pieces(), answer, right;
    int64_t *first = found.first;

    for (uint32_t k = 0; k < n; k++) {
        durations[k] = test->record[k];
        values_of(k, values + k * test->channels);
    }
    if (n == 0)
        values_of(test->fed, values);
    for (size_t i = 0; i < cells; i++) {
        second[i] = (int64_t)i; /* what it held does not matter, and in the first table only to a feed */
        if (n != 0)
            first[i] = (int64_t)i;
    }
    printf("lent %" PRIxPTR " %" PRIxPTR " %" PRIxPTR "\n", (uintptr_t)&marker, (uintptr_t)first, (uintptr_t)second);
    fflush(stdout);
    marker = 1;
    if (n == 0)
        answer = feed(found.state, first, test->ticks);
    else
        answer = record_best(text(), strlen(test->text), durations, n, values, n * test->channels, first, cells, second, cells)
                     .refusal;
    if (wrong != 0)
        touch(wrong);
    marker = 2;
    right = answer == CALL_DONE && memcmp(first, found.first_after, cells * sizeof *first) == 0 &&
            (n != 0 || memcmp(found.state, found.state_after, sizeof found.state) == 0);
    for (size_t i = 0; i < cells; i++)
        right &= second[i] == CELL_MARK;
    printf("right %" PRIu32 "\n", right);
    return right ? 0 : 1;
}

/* ---- counting */

static uint32_t loads[2][CELLS], stores[2][CELLS];
static int failed;

/* an access to some bytes from `at` on: one visit of each cell that it touches */
static void visit(uint32_t *counts, uintptr_t table, uintptr_t at, uintptr_t bytes)
{
    uintptr_t from = at < table ? table : at, to = at + bytes;

    if (to > table + cells * sizeof(int64_t))
        to = table + cells * sizeof(int64_t);
    if (from >= to)
        return;
    for (size_t i = (from - table) / sizeof(int64_t); i <= (to - 1 - table) / sizeof(int64_t); i++)
        counts[i]++;
}

static void judge(int fine, const char *words)
{
    if (fine)
        return;
    failed++;
    printf("FAILED: %s: %s\n", test->name, words);
}

/* Each of the cells that are chosen must have been visited `least` to `most` times. */
static void judge_cells(const char *what, const uint32_t *counts, const unsigned char *chosen, uint32_t least, uint32_t most)
{
    size_t all = 0, wrong = 0, where = 0, worst = 0, row = 2 * test->places * test->block;
    char words[400];

    for (size_t i = 0; i < cells; i++) {
        if (!chosen[i])
            continue;
        all++;
        if (counts[i] >= least && counts[i] <= most)
            continue;
        if (wrong == 0)
            where = i;
        wrong++;
        if (counts[i] > worst)
            worst = counts[i];
    }
    snprintf(words, sizeof words,
             "%zu of %zu %s; the most visits of one are %zu; the first is cell %zu (row %zu, stage %zu, place %zu), "
             "visits: %" PRIu32,
             wrong, all, what, worst, where, where / row, where % row / (row / 2), where % (row / 2) / test->block,
             counts[where]);
    judge(wrong == 0, words);
}

/* The next line of the trace into `line`, 0 at its end. Lackey writes each line for itself; a reader that waited for it
 * would be woken each time, so this one sleeps while the pipe fills, which takes half the time. */
static int trace_line(char *line, size_t size)
{
    static char bytes[PIPE_BYTES];
    static size_t at, end;
    const struct timespec pause = {0, 2000000};
    size_t n = 0;

    for (;;) {
        if (at == end) {
            ssize_t got;

            nanosleep(&pause, NULL);
            got = read(STDIN_FILENO, bytes, sizeof bytes);
            if (got <= 0)
                break;
            at = 0;
            end = (size_t)got;
        }
        if (n + 1 < size)
            line[n++] = bytes[at];
        if (bytes[at++] == '\n')
            break;
    }
    line[n] = '\0';
    return n != 0;
}

static int count(void)
{
    static unsigned char empty[CELLS], other[CELLS], all[CELLS];
    uintptr_t mark = 0, lent[2] = {0, 0};
    uint64_t lines = 0;
    uint32_t stage = 0, right = 0, best = test->ticks == 0;
    size_t empties = 0, others = 0, row = 2 * test->places, top = 0;
    char line[400], words[100];

    fcntl(STDIN_FILENO, F_SETPIPE_SZ, PIPE_BYTES); /* a smaller pipe will do, too */
    while (trace_line(line, sizeof line)) {
        char *comma;
        uintptr_t at, bytes;

        if (line[0] == 'I') {
            lines += stage == 1;
            continue;
        }
        if (line[0] != ' ' || line[1] == '\0' || !strchr("LSM", line[1]) || line[2] != ' ') {
            if (stage == 0 && sscanf(line, "lent %" SCNxPTR " %" SCNxPTR " %" SCNxPTR, &mark, &lent[0], &lent[1]) == 3)
                continue;
            if (stage == 2 && sscanf(line, "right %" SCNu32, &right) == 1)
                continue;
            if (strncmp(line, "==", 2) != 0)
                fputs(line, stdout); /* what valgrind complains of */
            continue;
        }
        at = strtoull(line + 3, &comma, 16);
        bytes = *comma == ',' ? strtoull(comma + 1, NULL, 10) : 0;
        if (bytes == 0)
            die("a line of the trace has no size");
        if (mark != 0 && at == mark && line[1] != 'L') {
            stage++;
            continue;
        }
        if (stage != 1)
            continue;
        lines++;
        for (int t = 0; t < 2; t++) {
            if (line[1] != 'S')
                visit(loads[t], lent[t], at, bytes);
            if (line[1] != 'L')
                visit(stores[t], lent[t], at, bytes);
        }
    }
    judge(stage == 2, "the trace does not show a whole call");
    judge(right == 1, "the call does not leave what the same ticks leave one by one");
    for (size_t i = 0; i < cells; i++) {
        size_t b = i / test->block;

        all[i] = 1;
        empty[i] = found.held[b] == 0;
        other[i] = found.begun[b] >= 2 && b / row < test->high; /* the longest row goes nowhere, so it is not read */
        empties += empty[i];
        others += other[i];
    }
    for (size_t i = cells - row * test->block; i < cells; i++)
        top |= found.first_after[i] != CELL_MARK;
    judge(top == (size_t)test->top, "the longest row is not as the case says");
    snprintf(words, sizeof words, "only %zu cells are in blocks that hold only marks", empties);
    judge(empties >= FEWEST, words);
    judge(others > 0, "no block holds a worth at two ticks");
    if (best) {
        judge_cells("cells of blocks that hold only marks are read", loads[0], empty, 0, 0);
        judge_cells("cells of blocks that hold only marks are not written once", stores[0], empty, 1, 1);
    } else {
        judge_cells("cells of blocks that hold only marks are not read once", loads[0], empty, 1, 1);
        judge_cells("cells of blocks that hold only marks are written", stores[0], empty, 0, 0);
    }
    judge_cells("cells of blocks that hold a worth at several ticks are not read several times", loads[0], other, 2,
                UINT32_MAX);
    judge_cells("cells of the second table are read", loads[1], all, 0, 0);
    judge_cells("cells of the second table are not written once", stores[1], all, 1, 1);
    printf("%s: %zu cells, %zu of them in blocks that hold only marks, %zu in blocks that hold a worth at several ticks; "
           "%" PRIu64 " lines of trace\n",
           test->name, cells, empties, others, lines);
    if (failed == 0)
        printf("all is right\n");
    return failed != 0;
}

/* ---- */

/* reads or writes `found` as a whole, so that no cell is touched but by the system */
static void pass(const char *name, int out)
{
    int file = out ? open(name, O_WRONLY | O_CREAT | O_TRUNC, 0600) : open(name, O_RDONLY);
    ssize_t done = file < 0 ? -1 : out ? write(file, &found, sizeof found) : read(file, &found, sizeof found);

    if (done != (ssize_t)sizeof found || close(file) != 0)
        die("the file cannot be read or written");
}

int main(int argc, char **argv)
{
    const char *what = argc >= 2 ? argv[1] : "";
    size_t number = argc >= 4 ? strtoul(argv[2], NULL, 10) : 0;

    if (strcmp(what, "names") == 0) {
        for (size_t i = 0; i < TESTS; i++)
            puts(tests[i].name);
        return 0;
    }
    if (number < 1 || number > TESTS)
        die("the arguments are not right");
    test = &tests[number - 1];
    cells = pattern_cells(text(), strlen(test->text));
    blocks = (test->high + 1) * 2 * test->places;
    if (cells != blocks * test->block || cells > CELLS || test->ticks > TICKS)
        die("the pattern has another number of cells");
    if (strcmp(what, "prepare") == 0) {
        prepare();
        pass(argv[3], 1);
        return 0;
    }
    pass(argv[3], 0);
    if (strcmp(what, "call") == 0)
        return call(argc >= 5 ? atoi(argv[4]) : 0);
    if (strcmp(what, "count") == 0)
        return count();
    die("the arguments are not right");
}
