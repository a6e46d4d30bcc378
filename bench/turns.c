/* turns.c: what a change of the library costs. The library before it, its functions renamed to begin with `old_`, and the library
 * after it are called in turn on the same patterns and records; bench/turns builds and runs it. A line has the microseconds of an
 * entry before and after, and the time after over the time before. Answers are not compared: a change may change them. */
#include <inttypes.h>
#include <stdio.h>
#include <stdlib.h>
#include <string.h>
#include <time.h>

#include "bench_margin.h"
#include "cases.h"

uint32_t old_monitor_open(const uint8_t *text, size_t text_length, int64_t *state, size_t state_length, int64_t *first,
                          size_t first_length, int64_t *second, size_t second_length);
uint32_t old_monitor_feed(const uint8_t *text, size_t text_length, int64_t *state, size_t state_length, int64_t *first,
                          size_t first_length, int64_t *second, size_t second_length, uint32_t duration,
                          const int32_t *values, size_t values_length, int64_t *scores, size_t scores_length,
                          uint32_t *lengths, size_t lengths_length);

enum { OLD, NEW, BOTH };
enum { ENTRIES = 10000, PART = 200, PARTS = ENTRIES / PART, ROUNDS = 9, CALLS = 401, TICKS = 8 };

/* A monitor of each library, of the same pattern. */
static uint8_t text[PATTERN_TEXT_MAX];
static size_t text_length, cells;
static int64_t state[BOTH][MONITOR_STATE_LENGTH], *first[BOTH], *second[BOTH];

static double now(void)
{
    struct timespec t;

    clock_gettime(CLOCK_PROCESS_CPUTIME_ID, &t);
    return (double)t.tv_sec + 1e-9 * (double)t.tv_nsec;
}

static int64_t *table(void)
{
    int64_t *p = malloc(cells * sizeof *p);

    if (!p)
        exit(2);
    return p;
}

static void take(const char *pattern)
{
    text_length = strlen(pattern);
    memcpy(text, pattern, text_length);
    cells = pattern_cells(text, text_length);
    for (int v = 0; v < BOTH; v++) {
        first[v] = table();
        second[v] = table();
    }
}

static void leave(void)
{
    for (int v = 0; v < BOTH; v++) {
        free(first[v]);
        free(second[v]);
    }
}

static void done(uint32_t refusal)
{
    if (refusal != 0) {
        fprintf(stderr, "turns: refusal %" PRIu32 "\n", refusal);
        exit(1);
    }
}

static void open_both(void)
{
    done(old_monitor_open(text, text_length, state[OLD], MONITOR_STATE_LENGTH, first[OLD], cells, second[OLD], cells));
    done(monitor_open(text, text_length, state[NEW], MONITOR_STATE_LENGTH, first[NEW], cells, second[NEW], cells));
}

static void feed(int v, uint32_t duration, const int32_t *values, size_t channels)
{
    int64_t scores[TICKS];
    uint32_t lengths[TICKS];

    done((v == NEW ? monitor_feed : old_monitor_feed)(text, text_length, state[v], MONITOR_STATE_LENGTH, first[v], cells,
                                                      second[v], cells, duration, values, channels, scores, TICKS, lengths,
                                                      TICKS));
}

static int rising(const void *one, const void *other)
{
    double a = *(const double *)one, b = *(const double *)other;

    return (a > b) - (a < b);
}

static double middle(double *times, size_t count)
{
    qsort(times, count, sizeof *times, rising);
    return times[count / 2];
}

static void tell(const char *name, const char *weighting, const char *what, double before, double after)
{
    printf("%s, %s\t%s\t%.2f\t%.2f\t%.3f\n", name, weighting, what, 1e6 * before, 1e6 * after, after / before);
    fflush(stdout);
}

/* A record, in turn every PART entries: of each part the middle of its rounds, and their sum. */
static void time_record(const char *name, const char *weighting, const char *pattern, const struct record *r)
{
    static double times[BOTH][PARTS][ROUNDS];
    double total[BOTH] = {0, 0};

    take(pattern);
    for (int round = 0; round < ROUNDS; round++) {
        open_both();
        for (int part = 0; part < PARTS; part++)
            for (int turn = 0; turn < BOTH; turn++) {
                int v = (turn + round + part) % BOTH;
                double start = now();

                for (size_t i = (size_t)part * PART; i < (size_t)(part + 1) * PART; i++)
                    feed(v, r->durations[i], r->values + i * r->channels, r->channels);
                times[v][part][round] = now() - start;
            }
    }
    for (int v = 0; v < BOTH; v++)
        for (int part = 0; part < PARTS; part++)
            total[v] += middle(times[v][part], ROUNDS);
    tell(name, weighting, "record", total[OLD] / ENTRIES, total[NEW] / ENTRIES);
    leave();
}

/* One tick on a table of which `percent` is occupied, call by call in turn; every channel moves. */
static void time_ticks(const char *name, const char *weighting, const char *pattern, size_t channels, unsigned percent)
{
    static double times[BOTH][CALLS];
    struct draws d = {7};
    int32_t values[PATTERN_CHANNELS_MAX];
    int64_t *lent;

    take(pattern);
    lent = table();
    for (size_t i = 0; i < cells; i++)
        lent[i] = draw(&d, 100) < percent ? (int64_t)draw(&d, 2000001) - 1000000 : CELL_MARK;
    for (size_t c = 0; c < channels; c++)
        values[c] = 7 * (int32_t)c + 1;
    open_both(); /* the second tables are marks, as after every feed */
    for (int call = 0; call < CALLS; call++)
        for (int turn = 0; turn < BOTH; turn++) {
            int v = (turn + call) % BOTH;
            double start;

            memcpy(first[v], lent, cells * sizeof *lent);
            memset(state[v], 0, sizeof state[v]);
            start = now();
            feed(v, 1, values, channels);
            times[v][call] = now() - start;
        }
    tell(name, weighting, percent == 100 ? "full" : "a tenth", middle(times[OLD], CALLS), middle(times[NEW], CALLS));
    free(lent);
    leave();
}

int main(void)
{
    struct record cruise = cruise_record(ENTRIES, 10), swing = swing_record(ENTRIES, 10), gears = gearbox_record(ENTRIES),
                  sensors = sensors_record(ENTRIES);

    for (int sum = 0; sum < 2; sum++) {
        const char *w = sum ? "sum" : "margin";

        time_record("OVERSHOOT", w, overshoot(w, 30, 15), &cruise);
        time_record("OVERSHOOT, window 4", w, overshoot(w, 4, 2), &cruise);
        time_record("unbounded, window 100", w, unbounded(w, 100), &cruise);
        time_record("RINGING", w, ringing(w, 8, 8, 4), &swing);
        time_record("gearbox, window 28", w, gearbox(w, 28), &gears);
        time_record("eight channels", w, eight_channels(w, 30, 15), &sensors);
        for (unsigned percent = 100; percent > 0; percent = percent == 100 ? 10 : 0) {
            time_ticks("OVERSHOOT", w, overshoot(w, 60, 15), 2, percent);
            time_ticks("unbounded", w, unbounded(w, 2000), 2, percent);
            time_ticks("RINGING", w, ringing(w, 16, 8, 4), 1, percent);
            time_ticks("gearbox", w, gearbox(w, 60), 3, percent);
        }
    }
    free_record(&cruise);
    free_record(&swing);
    free_record(&gears);
    free_record(&sensors);
    return 0;
}
