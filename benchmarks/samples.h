/* Demands made by chance, the same in each run. */
#ifndef SAMPLES_H
#define SAMPLES_H
#include "planner.h"

/* A number below `bound`. */
unsigned chance(unsigned bound);

/* Demands with about four fifths of the work that fits under `top`: each unit has a tick of its window, and no tick
   has more units than the top. Each has a unit or more. Their windows start up to `before` ticks before now, and only
   what is left of them counts. They stand in no order. */
void make_scattered(struct planner_demand *demands, size_t count, unsigned top, unsigned before);

/* Windows inside each other, the more work to a tick the further inside: each is a block of its own. They stand in no
   order. */
void make_nested(struct planner_demand *demands, size_t count, unsigned top);

/* Puts them in order of deadline. */
void sort_demands(struct planner_demand *demands, size_t count);

#endif
