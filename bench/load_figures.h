/* Times, draws and percentiles of the load generator. */
#ifndef LOAD_FIGURES_H
#define LOAD_FIGURES_H

#include <stdint.h>
#include <time.h>

/* What a clock shows; 0 where it can't be read. */
uint64_t nanoseconds(clockid_t clock);

/* A clock that never goes back. */
uint64_t now(void);

void sleep_until(uint64_t moment);

/* The finalizer of splitmix64: each bit of the result depends on each bit of the number. */
uint64_t mixed(uint64_t number);

/* The next number of splitmix64. */
uint64_t drawn(uint64_t *state);

/* Zipf's law over ranks from 1 to `count`. */
struct zipf {
    double exponent, first, last, skip;
    uint64_t count;
};

struct zipf zipf_of(uint64_t count, double exponent);

/* A rank from 1 on. */
uint64_t zipf_drawn(const struct zipf *law, uint64_t *state);

/* A log-linear histogram of nanoseconds. Below 2 * CELLS a cell holds one value; from there on each doubling has CELLS. */
enum { CELL_BITS = 7, CELLS = 1 << CELL_BITS, GROUPS = 40, HISTOGRAM_CELLS = CELLS * GROUPS };

struct histogram {
    uint64_t cells[HISTOGRAM_CELLS];
    uint64_t count, longest;
};

void histogram_add(struct histogram *into, uint64_t value);
void histogram_join(struct histogram *into, const struct histogram *from);

/* The least value that at least this part of all values doesn't exceed, to the middle of its cell, in microseconds. */
double percentile(const struct histogram *of, double part);

#endif
