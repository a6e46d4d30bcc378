/* plain.h: a monitor in plain C, written for the benchmark alone.
 *
 * It keeps the same two tables as the library, in the same layout, moves them by the same rules, refuses the same calls
 * and writes the same reports, so that every cell and every report can be compared. It is what a C programmer would
 * write down from the rules: loops over the cells of one table that write the other. It has no proof. */
#ifndef PLAIN_H
#define PLAIN_H

#include <stddef.h>
#include <stdint.h>

enum { PLACES = 16, EDGES = 32, PARTS = 4, CLOCKS = 4 };

enum sign { LESS, AT_MOST, MORE, AT_LEAST };

#define FAR INT64_C(10000000) /* further from every value than a bound can be */

/* A test says between which ends a value should lie. A sign has one bound, and the other end is FAR; strict signs measure
 * like the others. */
struct plain_test {
    int channel;
    int64_t low, high;
};

struct plain_place {
    int start, end; /* may a run begin here, or end here */
    int tests;
    struct plain_test test[PARTS];
    int edges;       /* the edges out of this place, */
    int edge[EDGES]; /* by their numbers */
};

struct plain_guard {
    enum sign sign;
    int clock;
    uint32_t bound;
};

struct plain_edge {
    int from, to;
    int guards;
    struct plain_guard guard[PARTS];
    int resets[CLOCKS]; /* is this clock set to 0 */
};

struct plain_pattern {
    int sum; /* 1 for `sum`, 0 for `margin` */
    int channels, clocks;
    uint32_t low, high; /* the window */
    int places, edges;
    struct plain_place place[PLACES];
    struct plain_edge edge[EDGES];

    /* The table's layout, slowest first: length so far, stage, place, clocks. A clock is held at its ceiling, so it has
     * ceiling + 1 values; a clock that the pattern lacks has one. */
    size_t values[CLOCKS]; /* how many values each clock has */
    size_t block;          /* cells of a place: all values of the clocks */
    size_t row;            /* cells of a length: two stages of all places */
    size_t cells;          /* cells of a table */
};

/* Reads a pattern text that pattern_check has accepted, once for all calls. A text that it did not accept is not judged. */
void plain_read(struct plain_pattern *p, const char *text);

/* As monitor_open and monitor_feed of bench_margin.h, with the pattern instead of its text. Refusals 1 to 5, which are
 * about the text, do not arise. plain.c is compiled twice, by two compilers. */
typedef uint32_t plain_open(const struct plain_pattern *p, int64_t *state, size_t state_length, int64_t *first,
                            size_t first_length, int64_t *second, size_t second_length);
typedef uint32_t plain_feed(const struct plain_pattern *p, int64_t *state, size_t state_length, int64_t *first,
                            size_t first_length, int64_t *second, size_t second_length, uint32_t duration,
                            const int32_t *values, size_t values_length, int64_t *scores, size_t scores_length,
                            uint32_t *lengths, size_t lengths_length);
plain_open plain_open_gcc, plain_open_clang;
plain_feed plain_feed_gcc, plain_feed_clang;

#endif
