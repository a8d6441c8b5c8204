/* The planner for C and C++: the static library of the crate planner_c, made by `rt lib` there
   (crates/planner_c/out/libplanner_c.a).

   It plans for demands. A demand is a job seen from now: its window in ticks from now, and the units of work it has
   left. */
#ifndef PLANNER_H
#define PLANNER_H

#include <stddef.h>
#include <stdint.h>

#ifdef __cplusplus
#define PLANNER_STATIC_ASSERT static_assert
extern "C" {
#else
#define PLANNER_STATIC_ASSERT _Static_assert
#endif

/* How many ticks are planned, and how many demands and blocks there can be. */
#define PLANNER_TICKS 256
#define PLANNER_DEMANDS 64

/* A demand: its window [from, to) in ticks from now, and its units of work left. */
struct planner_demand {
    uint16_t from;
    uint16_t to;
    uint16_t units;
};
PLANNER_STATIC_ASSERT(sizeof(struct planner_demand) == 6, "planner_demand");

/* A setting for each tick from now on. */
struct planner_settings_list {
    uint32_t settings[PLANNER_TICKS];
};
PLANNER_STATIC_ASSERT(sizeof(struct planner_settings_list) == 1024, "planner_settings_list");

/* A critical block. Its exact speed is its work over its length in ticks. `from` is its first tick and `to` the tick
   after its last, in ticks from now. Ticks of other blocks may lie between them, so `to - from` can exceed the
   length. */
struct planner_block {
    uint32_t work;
    uint16_t length;
    uint16_t from;
    uint16_t to;
};
PLANNER_STATIC_ASSERT(sizeof(struct planner_block) == 12, "planner_block");

/* Critical blocks, in the order of the rounds: the first `count` of the list. */
struct planner_block_list {
    size_t count;
    struct planner_block blocks[PLANNER_DEMANDS];
};
PLANNER_STATIC_ASSERT(sizeof(struct planner_block_list) == 776, "planner_block_list");

/* What both calls answer:

     0  The result is written to `found`.
     1  There are more than 64 demands. Nothing is written.
     2  A demand with units has a window that is empty or does not end within 256 ticks, or the demands do not stand
        in ascending order of `to`. Nothing is written. A demand of 0 units may have any window, but stands in that
        order too.

   What they trust, and do not test: `demands` points to `count` demands, `found` to one list that lies apart from
   them, and both are aligned as their types are. Neither is null, even for no demand. What stands in `found` before
   plays no part.

   The planner knows no top. It plans for up to 64 * 65535 units, so settings can be greater than any that a console
   has: whoever admits work compares it with the top. Where no interval has more work than its length times the top,
   no setting exceeds the top.

   The calls keep no state, take no heap and never fail otherwise. Any number of them may run at once, on other lists.

   Stack was measured on x86-64 for the library as `rt lib` builds it: a call ran in a thread whose stack was painted,
   and the bytes below its caller that no longer showed the paint were counted, those of memcpy and memset with them.
   No call goes deeper for other demands: none calls itself, and all lists have their full size. benchmarks/cost.sh
   measures stack and time again. */

/* Writes the settings in force.

   Time: in proportion to the units, since each is allocated by itself: a replacement in a queue of at most T = 256
   ticks, which goes down at most 8 levels, and a pass or two over the ticks around the start of its window. Besides,
   each demand with units queues at most T ticks. So n demands of u units in all take O(n T log T + u T).
   Measured: some 0.1 us a unit at 2.5 GHz, from 2,000 units up to 64 * 65535, which took 0.35 s.
   Stack: 4.6 KB. */
uint32_t planner_settings(const struct planner_demand *demands, size_t count, struct planner_settings_list *found);

/* Writes the critical blocks of the demands that have units. The blocks of the list from its `count` on are left as
   they were.

   Time: it does not depend on the units. Each round looks at each pair of a start and an end among the k demands that
   are left, adds up the units of those inside, and removes at least one demand. So n demands take at most n rounds of
   O(k^3 + T), which is O(n^4 + n T). Measured, with a block for each demand: 5, 24, 250 and 3,600 us for 8, 16, 32
   and 64 demands at 2.5 GHz.
   Stack: 3.8 KB. */
uint32_t planner_blocks(const struct planner_demand *demands, size_t count, struct planner_block_list *found);

#undef PLANNER_STATIC_ASSERT
#ifdef __cplusplus
}
#endif

#endif
