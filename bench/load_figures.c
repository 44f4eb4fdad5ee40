/* Times, draws and percentiles of the load generator: see load_figures.h. */
#define _GNU_SOURCE
#include "load_figures.h"

#include <errno.h>
#include <math.h>

/* ---- time and luck */

uint64_t nanoseconds(clockid_t clock) {
    struct timespec time;
    if (clock_gettime(clock, &time) != 0) {
        return 0;
    }
    return (uint64_t)time.tv_sec * 1000000000u + (uint64_t)time.tv_nsec;
}

uint64_t now(void) {
    return nanoseconds(CLOCK_MONOTONIC);
}

void sleep_until(uint64_t moment) {
    struct timespec time = {.tv_sec = (time_t)(moment / 1000000000u), .tv_nsec = (long)(moment % 1000000000u)};
    while (clock_nanosleep(CLOCK_MONOTONIC, TIMER_ABSTIME, &time, NULL) == EINTR) {
    }
}

uint64_t mixed(uint64_t number) {
    number = (number ^ (number >> 30)) * 0xbf58476d1ce4e5b9u;
    number = (number ^ (number >> 27)) * 0x94d049bb133111ebu;
    return number ^ (number >> 31);
}

uint64_t drawn(uint64_t *state) {
    *state += 0x9e3779b97f4a7c15u;
    return mixed(*state);
}

static double drawn_fraction(uint64_t *state) {
    return (double)(drawn(state) >> 11) * 0x1p-53;
}

/* ---- Zipf's law, drawn exactly by rejection-inversion (Hoermann and Derflinger, 1996) */

static double zipf_height(const struct zipf *law, double x) {
    return exp(-law->exponent * log(x));
}

static double zipf_area(const struct zipf *law, double x) {
    double power = (1 - law->exponent) * log(x);
    return (fabs(power) > 1e-8 ? expm1(power) / power : 1 + power / 2) * log(x);
}

static double zipf_area_inverse(const struct zipf *law, double area) {
    double power = fmax(-1, area * (1 - law->exponent));
    return exp((fabs(power) > 1e-8 ? log1p(power) / power : 1 - power / 2) * area);
}

struct zipf zipf_of(uint64_t count, double exponent) {
    struct zipf law = {.exponent = exponent, .count = count};
    law.first = zipf_area(&law, 1.5) - 1;
    law.last = zipf_area(&law, (double)count + 0.5);
    law.skip = 2 - zipf_area_inverse(&law, zipf_area(&law, 2.5) - zipf_height(&law, 2));
    return law;
}

uint64_t zipf_drawn(const struct zipf *law, uint64_t *state) {
    for (;;) {
        double area = law->last + drawn_fraction(state) * (law->first - law->last);
        double x = zipf_area_inverse(law, area);
        double rank = fmin(fmax(floor(x + 0.5), 1), (double)law->count);
        if (rank - x <= law->skip || area >= zipf_area(law, rank + 0.5) - zipf_height(law, rank)) {
            return (uint64_t)rank;
        }
    }
}

/* ---- a log-linear histogram of nanoseconds */

static unsigned cell_of(uint64_t value) {
    unsigned shift = value < 2 * CELLS ? 0 : 63 - CELL_BITS - (unsigned)__builtin_clzll(value);
    unsigned cell = shift * CELLS + (unsigned)(value >> shift);
    return cell < HISTOGRAM_CELLS ? cell : HISTOGRAM_CELLS - 1;
}

static double cell_middle(unsigned cell) {
    unsigned shift = cell < 2 * CELLS ? 0 : cell / CELLS - 1;
    double start = ldexp(cell - shift * CELLS, (int)shift);
    return start + (ldexp(1, (int)shift) - 1) / 2;
}

void histogram_add(struct histogram *into, uint64_t value) {
    into->cells[cell_of(value)]++;
    into->count++;
    into->longest = value > into->longest ? value : into->longest;
}

void histogram_join(struct histogram *into, const struct histogram *from) {
    for (unsigned cell = 0; cell < HISTOGRAM_CELLS; cell++) {
        into->cells[cell] += from->cells[cell];
    }
    into->count += from->count;
    into->longest = from->longest > into->longest ? from->longest : into->longest;
}

double percentile(const struct histogram *of, double part) {
    uint64_t wanted = (uint64_t)ceil(part * (double)of->count), seen = 0;
    for (unsigned cell = 0; cell < HISTOGRAM_CELLS; cell++) {
        seen += of->cells[cell];
        if (seen >= wanted && seen > 0) {
            return cell_middle(cell) / 1000;
        }
    }
    return 0;
}

