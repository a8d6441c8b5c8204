#include "samples.h"
#include <stdlib.h>

enum { TICKS = PLANNER_TICKS };

static uint64_t seed = 20260101;

/* By xorshift. */
unsigned chance(unsigned bound) {
    seed ^= seed << 13;
    seed ^= seed >> 7;
    seed ^= seed << 17;
    return (unsigned)((seed >> 33) % bound);
}

/* So many of the wanted units as find a tick of the window that has fewer than the top. */
static unsigned scatter(unsigned *counts, unsigned from, unsigned to, unsigned wanted, unsigned top) {
    unsigned units = 0;
    for (; wanted > 0; wanted--) {
        unsigned tick = from + chance(to - from);
        if (counts[tick] < top) {
            counts[tick]++;
            units++;
        }
    }
    return units;
}

void make_scattered(struct planner_demand *demands, size_t count, unsigned top, unsigned before) {
    unsigned counts[TICKS] = {0};
    unsigned mean = top * TICKS * 4 / 5 / (unsigned)count + 1;
    for (size_t i = 0; i < count;) {
        unsigned start = chance(TICKS);
        unsigned from = start < before ? 0 : start - before;
        unsigned to = from + 1 + chance(TICKS - from);
        unsigned units = scatter(counts, from, to, 1 + chance(2 * mean), top);
        if (units > 0)
            demands[i++] = (struct planner_demand){(uint16_t)from, (uint16_t)to, (uint16_t)units};
    }
}

void make_nested(struct planner_demand *demands, size_t count, unsigned top) {
    unsigned step = TICKS / 2 / (unsigned)count;
    for (unsigned i = 0; i < count; i++) {
        unsigned units = 2 * step * top * (i + 1) / (unsigned)count - chance(step);
        demands[i] = (struct planner_demand){(uint16_t)(step * i), (uint16_t)(TICKS - step * i), (uint16_t)units};
    }
}

static int by_deadline(const void *one, const void *other) {
    return (int)((const struct planner_demand *)one)->to - (int)((const struct planner_demand *)other)->to;
}

void sort_demands(struct planner_demand *demands, size_t count) {
    qsort(demands, count, sizeof demands[0], by_deadline);
}
