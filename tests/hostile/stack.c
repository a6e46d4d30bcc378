/* stack.c: how much stack each C function takes, seen from a stack of its own that was painted before the call; and,
 * with the argument `time`, how many calls a second there are. A function over 64 KiB fails. Built without the sanitizers,
 * which would take stack of their own. */
#define _GNU_SOURCE
#include <inttypes.h>
#include <stdio.h>
#include <stdlib.h>
#include <string.h>
#include <time.h>
#include <ucontext.h>

#include "bench_margin.h"

#define STACK (512 * 1024)
#define LIMIT (64 * 1024)
#define PAINT 0xc7
#define CELLS (129 * 2 * 16 * 54) /* as many as a window of 128 needs */
#define PIECES RECORD_PIECES_MAX
#define STEPS RUN_STEPS_MAX

static unsigned char *stack;
static ucontext_t here, there;
static void (*call)(void);

static uint8_t text[PATTERN_TEXT_MAX];
static size_t length;
static int64_t state[MONITOR_STATE_LENGTH], first[CELLS], second[CELLS], scores[PIECE_TICKS_MAX];
static uint32_t lengths[PIECE_TICKS_MAX], durations[PIECES], edges[STEPS], stays[STEPS];
static int32_t values[PIECES * 8];
static uint32_t ticks = PIECE_TICKS_MAX, answer;

static void do_check(void) { answer |= pattern_check(text, length); }
static void do_cells(void) { answer |= pattern_cells(text, length) == 0; }
static void do_open(void)
{
    answer |= monitor_open(text, length, state, MONITOR_STATE_LENGTH, first, CELLS, second, CELLS);
}
static void do_feed(void)
{
    answer |= monitor_feed(text, length, state, MONITOR_STATE_LENGTH, first, CELLS, second, CELLS, ticks, values, 8,
                           scores, PIECE_TICKS_MAX, lengths, PIECE_TICKS_MAX);
    state[0] = 1; /* so that the ticks in all stay few */
}
static void do_price(void)
{
    answer |= run_price(text, length, durations, PIECES, values, PIECES * 8, 2, edges, STEPS, stays, STEPS).refusal;
}
static void do_best(void)
{
    answer |= record_best(text, length, durations, PIECES, values, PIECES * 8, first, CELLS, second, CELLS).refusal;
}

static const struct {
    const char *name;
    void (*call)(void);
} functions[] = {{"pattern_check", do_check}, {"pattern_cells", do_cells}, {"monitor_open", do_open},
                 {"monitor_feed", do_feed},   {"run_price", do_price},     {"record_best", do_best}};

static void on_stack(void) { call(); }

/* the bytes of a fresh stack that a call changed */
static size_t taken(void (*function)(void))
{
    size_t untouched = 0;

    memset(stack, PAINT, STACK);
    call = function;
    if (getcontext(&there) != 0)
        exit(2);
    there.uc_stack.ss_sp = stack;
    there.uc_stack.ss_size = STACK;
    there.uc_link = &here;
    makecontext(&there, on_stack, 0);
    if (swapcontext(&here, &there) != 0)
        exit(2);
    while (untouched < STACK && stack[untouched] == PAINT)
        untouched++;
    return STACK - untouched;
}

static double now(void)
{
    struct timespec t;

    clock_gettime(CLOCK_MONOTONIC, &t);
    return (double)t.tv_sec + (double)t.tv_nsec * 1e-9;
}

static void nothing(void) {}

static void add(const char *line)
{
    memcpy(text + length, line, strlen(line));
    length += strlen(line);
}

/* the longest of everything but the window and the bounds: 16 places with four tests each, of every sign or bands, 32 edges
 * with four guards and all resets; a run stays in the first two places */
static void write_text(const char *window)
{
    length = 0;
    add("(pattern sum 8 4 1 ");
    add(window);
    add(")\n");
    add("(place both (> 0 -5) (>= 1 -9) (< 2 9) (<= 7 3))\n"
        "(place both (in 0 -5 5) (in 1 -9 9) (in 2 -9 9) (in 7 -3 3))\n");
    for (int i = 2; i < 16; i++)
        add("(place plain (in 3 -5 5) (>= 4 -9) (in 5 -9 9) (<= 6 3))\n");
    for (int i = 0; i < 16; i++)
        add("(edge 0 1 (>= 0 1) (> 1 0) (>= 2 1) (<= 3 1) (reset 0 1 2 3))\n"
            "(edge 1 0 (<= 3 1) (>= 2 1) (> 1 0) (>= 0 1) (reset 0 1 2 3))\n");
}

/* whether a call is done and takes some stack, but less than the limit */
static int within(const char *name, void (*function)(void), size_t empty)
{
    size_t most;

    answer = 0;
    most = taken(function) - empty;
    printf("%-24s %6zu bytes of stack\n", name, most);
    return most < LIMIT && most != 0 && answer == 0;
}

static void time_calls(void (*function)(void))
{
    for (ticks = 1; ticks <= 1000; ticks *= function == do_feed ? 10 : 10000) {
        double start = now(), spent;
        uint64_t calls = 0;

        do {
            function();
            calls++;
        } while ((spent = now() - start) < 0.5);
        printf("                         %.0f calls a second", (double)calls / spent);
        if (function == do_feed)
            printf(", %" PRIu32 " ticks each", ticks);
        printf("\n");
    }
    ticks = PIECE_TICKS_MAX;
}

int main(int argc, char **argv)
{
    int timed = argc == 2 && strcmp(argv[1], "time") == 0, failed = 0, count = sizeof functions / sizeof *functions;
    size_t empty;

    /* a record of 4,096 pieces, a run of 4,095 steps, a feed of 65,535 ticks */
    for (int i = 0; i < PIECES; i++)
        durations[i] = 2;
    for (int i = 0; i < PIECES * 8; i++)
        values[i] = i % 13 - 6;
    for (int i = 0; i < STEPS; i++) {
        edges[i] = (uint32_t)i % 32;
        stays[i] = 1;
    }
    write_text("3");
    stack = malloc(STACK);
    if (!stack) {
        printf("0 passed, 1 failed\n");
        return 1;
    }
    empty = taken(nothing);
    for (int i = 0; i < count; i++) {
        failed += !within(functions[i].name, functions[i].call, empty);
        if (timed)
            time_calls(functions[i].call);
    }
    /* a feed keeps more flags if the window is larger than 127 ticks */
    write_text("128");
    if (pattern_cells(text, length) != CELLS)
        failed++;
    else {
        do_open();
        failed += !within("monitor_feed, window 128", do_feed, empty);
    }
    free(stack);
    printf("%d passed, %d failed\n", count + 1 - failed, failed);
    return failed != 0;
}
