/* cases.c: the patterns and records of the benchmark. */
#include "cases.h"

#include <stdio.h>
#include <stdlib.h>
#include <string.h>

#define SEED UINT64_C(88172645463325252)

static char text[PATTERN_TEXT_MAX + 1];

/* ---- patterns */

/* The reference goes from below 35 to above; then the velocity is over it by more than 3, then within 3 of it, as the tests
 * `within` say, all in `bound` ticks from the change. Velocities are in hundredths. */
static const char *settling(const char *weighting, unsigned high, unsigned bound, const char *within)
{
    snprintf(text, sizeof text,
             "(pattern %s 2 1 1 %u)\n"
             "(place start (< 0 3500))\n"
             "(place plain (> 0 3500))\n"
             "(place plain (> 0 3500) (> 1 300))\n"
             "(place plain (> 0 3500) %s)\n"
             "(place end)\n"
             "(edge 0 1 (reset 0))\n"
             "(edge 1 2 (< 0 %u))\n"
             "(edge 2 3 (< 0 %u))\n"
             "(edge 3 4 (< 0 %u))\n",
             weighting, high, within, bound, bound, bound);
    return text;
}

const char *overshoot(const char *weighting, unsigned high, unsigned bound)
{
    return settling(weighting, high, bound, "(> 1 -300) (< 1 300)");
}

const char *overshoot_band(const char *weighting, unsigned high, unsigned bound)
{
    return settling(weighting, high, bound, "(in 1 -300 300)");
}

/* The same without the bound, and so without the clock. */
const char *unbounded(const char *weighting, unsigned high)
{
    snprintf(text, sizeof text,
             "(pattern %s 2 0 1 %u)\n"
             "(place start (< 0 3500))\n"
             "(place plain (> 0 3500))\n"
             "(place plain (> 0 3500) (> 1 300))\n"
             "(place plain (> 0 3500) (> 1 -300) (< 1 300))\n"
             "(place end)\n"
             "(edge 0 1)\n"
             "(edge 1 2)\n"
             "(edge 2 3)\n"
             "(edge 3 4)\n",
             weighting, high);
    return text;
}

/* OVERSHOOT's edges and clock, where each place that is stayed in tests two channels of its own. */
const char *eight_channels(const char *weighting, unsigned high, unsigned bound)
{
    snprintf(text, sizeof text,
             "(pattern %s 8 1 1 %u)\n"
             "(place start (< 0 30) (> 1 -30))\n"
             "(place plain (in 2 -20 20) (> 3 -30))\n"
             "(place plain (< 4 30) (in 5 -20 20))\n"
             "(place plain (> 6 -30) (< 7 30))\n"
             "(place end)\n"
             "(edge 0 1 (reset 0))\n"
             "(edge 1 2 (< 0 %u))\n"
             "(edge 2 3 (< 0 %u))\n"
             "(edge 3 4 (< 0 %u))\n",
             weighting, high, bound, bound, bound);
    return text;
}

/* Rises and falls in turn, by more than 10 in 10 s, with pauses below `pause` ticks or none; the last fall is left in less
 * than `bound` ticks from the beginning. */
const char *ringing(const char *weighting, unsigned high, unsigned bound, unsigned pause)
{
    snprintf(text, sizeof text,
             "(pattern %s 1 2 1 %u)\n"
             "(place start (> 0 1000))\n"
             "(place plain)\n"
             "(place plain (< 0 -1000))\n"
             "(place plain)\n"
             "(place end)\n"
             "(edge 0 1 (reset 1))\n"
             "(edge 0 2)\n"
             "(edge 1 2 (< 1 %u))\n"
             "(edge 2 3 (reset 1))\n"
             "(edge 2 0)\n"
             "(edge 3 0 (< 1 %u))\n"
             "(edge 2 4 (< 0 %u))\n",
             weighting, high, pause, pause, bound);
    return text;
}

/* OVERSHOOT with 0 to 4 clocks that all have the same guards, of which each edge but the last resets one. */
const char *many_clocks(unsigned clocks, unsigned high, unsigned bound)
{
    char *at = text;

    at += sprintf(at,
                  "(pattern margin 2 %u 1 %u)\n"
                  "(place start (< 0 3500))\n"
                  "(place plain (> 0 3500))\n"
                  "(place plain (> 0 3500) (> 1 300))\n"
                  "(place plain (> 0 3500) (> 1 -300) (< 1 300))\n"
                  "(place end)\n",
                  clocks, high);
    for (unsigned edge = 0; edge < 4; edge++) {
        at += sprintf(at, "(edge %u %u", edge, edge + 1);
        for (unsigned clock = 0; clock < clocks; clock++)
            at += sprintf(at, " (<= %u %u)", clock, bound);
        if (edge < 3 && edge < clocks)
            at += sprintf(at, " (reset %u)", edge);
        at += sprintf(at, ")\n");
    }
    return text;
}

const char *gearbox(const char *weighting, unsigned high)
{
    FILE *file = fopen("examples/gearbox/pattern.txt", "r");
    static char own[PATTERN_TEXT_MAX + 1];
    unsigned channels, clocks, low, its_high;
    char word[16];
    size_t length = file ? fread(own, 1, sizeof own - 1, file) : 0;
    const char *rest;

    if (file)
        fclose(file);
    own[length] = '\0';
    rest = strchr(own, '\n');
    if (!rest || sscanf(own, "(pattern %15s %u %u %u %u)", word, &channels, &clocks, &low, &its_high) != 5) {
        fprintf(stderr, "bench: examples/gearbox/pattern.txt cannot be read\n");
        exit(2);
    }
    if (high == 0)
        return own;
    snprintf(text, sizeof text, "(pattern %s %u %u %u %u)%.8000s", weighting, channels, clocks, low, high, rest);
    return text;
}

/* ---- records */

uint64_t draw(struct draws *d, uint64_t below)
{
    d->state ^= d->state << 13;
    d->state ^= d->state >> 7;
    d->state ^= d->state << 17;
    return d->state % below;
}

static struct record new_record(size_t entries, size_t channels)
{
    struct record r = {entries, channels, 0, malloc(entries * sizeof *r.durations),
                       malloc(entries * channels * sizeof *r.values)};

    if (!r.durations || !r.values) {
        fprintf(stderr, "bench: no memory for a record\n");
        exit(2);
    }
    return r;
}

void free_record(struct record *r)
{
    free(r->durations);
    free(r->values);
}

/* A car under cruise control, second by second: the velocity follows the reference as a damped swing (0.1 radians a
 * second, damping 0.3), and the reference steps to the other side of 35 every 100 to 400 seconds. Whole numbers only, so
 * that the record does not depend on the compiler. */
struct car {
    struct draws draws;
    int64_t reference;                 /* in hundredths */
    int64_t velocity, velocity_change; /* in thousandths of a hundredth */
    unsigned until_step;
    int32_t last[10]; /* the velocities of the last ten seconds, noise included, in hundredths */
    unsigned second;
};

static struct car new_car(void)
{
    struct car c = {.draws = {SEED}, .reference = 2500, .velocity = 2500000, .until_step = 60};

    for (int i = 0; i < 10; i++)
        c.last[i] = 2500;
    return c;
}

/* Moves on by a second. The velocity now is put into `now`, that of 10 seconds before into `before`. */
static void drive(struct car *c, int32_t *now, int32_t *before)
{
    if (c->until_step-- == 0) {
        c->reference = c->reference < 3500 ? 3600 + (int64_t)draw(&c->draws, 2400) : 1500 + (int64_t)draw(&c->draws, 1900);
        c->until_step = 100 + (unsigned)draw(&c->draws, 300);
    }
    c->velocity_change += (c->reference * 1000 - c->velocity) / 100 - c->velocity_change * 6 / 100;
    c->velocity += c->velocity_change;
    *before = c->last[c->second % 10];
    *now = (int32_t)(c->velocity / 1000) + (int32_t)draw(&c->draws, 101) - 50;
    c->last[c->second % 10] = *now;
    c->second++;
}

struct record cruise_record(size_t entries, unsigned period)
{
    struct record r = new_record(entries, 2);
    struct car c = new_car();

    for (size_t i = 0; i < entries; i++) {
        int32_t now = 0, before;

        for (unsigned s = 0; s < period; s++)
            drive(&c, &now, &before);
        r.durations[i] = 1;
        r.values[2 * i] = (int32_t)c.reference;
        r.values[2 * i + 1] = now - (int32_t)c.reference;
    }
    r.ticks = entries;
    return r;
}

struct record swing_record(size_t entries, unsigned period)
{
    struct record r = new_record(entries, 1);
    struct car c = new_car();

    for (size_t i = 0; i < entries; i++) {
        int32_t now = 0, before = 0;

        for (unsigned s = 0; s < period; s++)
            drive(&c, &now, &before);
        r.durations[i] = 1;
        r.values[i] = now - before;
    }
    r.ticks = entries;
    return r;
}

/* Idle and load in turn, a load of 2 to 6 entries of 1 to 4 ticks; in one of four the pressure sags. */
struct record gearbox_record(size_t entries)
{
    struct record r = new_record(entries, 3);
    struct draws d = {SEED};
    unsigned left = 0;
    int load = 0, sags = 0;

    for (size_t i = 0; i < entries; i++) {
        int32_t *values = r.values + 3 * i;

        if (left-- == 0) {
            load = !load;
            sags = draw(&d, 4) == 0;
            left = 2 + (unsigned)draw(&d, 5);
        }
        r.durations[i] = 1 + (uint32_t)draw(&d, 4);
        r.ticks += r.durations[i];
        values[0] = (load && sags ? 18 : 31) + (int32_t)draw(&d, 5) - 2;
        values[1] = (load ? 210 : 18) + (int32_t)draw(&d, 31) - 15;
        values[2] = (load ? 1380 : 1210) + (int32_t)draw(&d, 101) - 50;
    }
    return r;
}

/* Sensors that tell a value when it has changed: an entry of one tick moves one to three of them. */
struct record sensors_record(size_t entries)
{
    struct record r = new_record(entries, 8);
    struct draws d = {SEED};
    int32_t now[8] = {0};

    for (size_t i = 0; i < entries; i++) {
        for (uint64_t n = 1 + draw(&d, 3); n > 0; n--) {
            size_t channel = draw(&d, 8);

            now[channel] = (int32_t)draw(&d, 101) - 50;
        }
        r.durations[i] = 1;
        memcpy(r.values + 8 * i, now, sizeof now);
    }
    r.ticks = entries;
    return r;
}
