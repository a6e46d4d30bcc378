/* cases.h: the patterns and records of the benchmark. docs/BENCH.md says where they come from. */
#ifndef CASES_H
#define CASES_H

#include <stddef.h>
#include <stdint.h>

#include "bench_margin.h"

/* A record: one entry after the other, the values of an entry channel by channel. */
struct record {
    size_t entries, channels;
    size_t ticks; /* of all entries */
    uint32_t *durations;
    int32_t *values;
};

/* Pattern texts. Each is ended by a zero byte and lasts until the next call. `weighting` is "margin" or "sum", `high` the
 * window's high, the bounds those of the guards. */
const char *overshoot(const char *weighting, unsigned high, unsigned bound);
const char *overshoot_band(const char *weighting, unsigned high, unsigned bound); /* the same with a band for two tests */
const char *unbounded(const char *weighting, unsigned high);
const char *eight_channels(const char *weighting, unsigned high, unsigned bound);
const char *ringing(const char *weighting, unsigned high, unsigned bound, unsigned pause);
const char *many_clocks(unsigned clocks, unsigned high, unsigned bound);
const char *gearbox(const char *weighting, unsigned high); /* of examples/gearbox; high 0: its own weighting and window */

/* Records, the same at each call. `period` is the seconds from one entry to the next; an entry is one tick. */
struct record cruise_record(size_t entries, unsigned period); /* channels: reference, velocity less reference */
struct record swing_record(size_t entries, unsigned period);  /* channel: velocity less that of 10 s before */
struct record gearbox_record(size_t entries);                 /* channels: oil pressure, torque, speed */
struct record sensors_record(size_t entries);                 /* eight channels, of which an entry moves a few */
void free_record(struct record *r);

/* Random numbers from a fixed seed. */
struct draws {
    uint64_t state;
};
uint64_t draw(struct draws *d, uint64_t below);

#endif
