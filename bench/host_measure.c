/* host_measure.c: how long pattern_check and pattern_cells take for a pattern of 3,700 bytes, beside a C loop of a few lines
 * that only counts the brackets of the same bytes. It is no test; run it on a machine that does nothing else:
 *
 *     (cd crates/host && rt lib)
 *     gcc -O2 -Wall -Wextra -Iinclude bench/host_measure.c crates/host/out/libhost.a -o measure && ./measure
 *
 * Each figure is the least of many rounds, so what else the machine does counts little. */
#define _POSIX_C_SOURCE 199309L
#include <stdio.h>
#include <string.h>
#include <time.h>

#include "bench_margin.h"

#define ROUNDS 400
#define CALLS 50

static uint8_t text[8192];
static size_t length;

static void add(const char *line, int times)
{
    while (times-- > 0) {
        memcpy(text + length, line, strlen(line));
        length += strlen(line);
    }
}

/* The brackets that are opened, or 0 where they do not match or a line ends inside of one. */
static uint64_t brackets(const uint8_t *bytes, size_t count)
{
    uint64_t opened = 0;
    int depth = 0;

    for (size_t i = 0; i < count; i++) {
        if (bytes[i] == '(') {
            opened++;
            depth++;
        } else if (bytes[i] == ')') {
            if (--depth < 0)
                return 0;
        } else if (bytes[i] == '\n' && depth != 0) {
            return 0;
        }
    }
    return opened;
}

static uint64_t check(const uint8_t *bytes, size_t count)
{
    return pattern_check(bytes, count);
}

static double now(void)
{
    struct timespec t;

    clock_gettime(CLOCK_MONOTONIC, &t);
    return (double)t.tv_sec * 1e9 + (double)t.tv_nsec;
}

/* the least time of a call, in nanoseconds */
static double least(uint64_t (*call)(const uint8_t *, size_t), uint64_t expected)
{
    double best = 1e18;

    for (int round = 0; round < ROUNDS; round++) {
        uint64_t wrong = 0;
        double start = now(), each;

        for (int i = 0; i < CALLS; i++) {
            wrong += call(text, length) != expected;
            __asm__ volatile("" : : : "memory"); /* so that the calls are not made into one */
        }
        each = (now() - start) / CALLS;
        if (wrong)
            printf("a wrong answer\n");
        if (each < best)
            best = each;
    }
    return best;
}

int main(void)
{
    double of_check, of_cells, of_brackets;

    add("(pattern margin 8 4 4095 4095)\n", 1);
    add("(place start (>= 7 -1000000) (>= 7 -1000000) (>= 7 -1000000) (>= 7 -1000000))\n", 5);
    add("(place start (> 7 -1000000) (>= 7 -1000000) (>= 7 -1000000) (>= 7 -1000000))\n", 11);
    add("(edge 15 15 (> 0 1000) (>= 1 1000) (>= 2 1000) (>= 3 1000) (reset 0 1 2 3))\n", 32);
    if (length != 3700) {
        printf("the text has %zu bytes\n", length);
        return 1;
    }
    of_brackets = least(brackets, 1 + 16 * 5 + 32 * 6);
    of_check = least(check, PATTERN_ACCEPTED);
    of_cells = least(pattern_cells, (uint64_t)4096 * 2 * 16 * 1002 * 1002 * 1002 * 1002);
    printf("counting brackets %6.0f ns\n", of_brackets);
    printf("pattern_check     %6.0f ns, %.1f times as long\n", of_check, of_check / of_brackets);
    printf("pattern_cells     %6.0f ns, %.1f times as long\n", of_cells, of_cells / of_brackets);
    return 0;
}
