/* The planner in plain C, by the same way as crates/planner. Settings: unit by unit in order of deadline, each at the
   tick of its hull with the fewest units. Critical blocks: in rounds, each by the pair of compressed times with the
   greatest work over length. */
#include "plain_planner.h"
#include <stdbool.h>
#include <string.h>

enum { TICKS = PLANNER_TICKS, DEMANDS = PLANNER_DEMANDS };

/* A tick, with the units that are allocated to it so far. */
struct planned_tick {
    uint32_t units;
    uint16_t tick;
};

/* A binary heap of ticks: the fewest units first, and among as many the earliest tick. */
struct tick_queue {
    size_t count;
    struct planned_tick slots[TICKS];
};

/* The units of each tick, and the slack at each, by which the units allocated from it on exceed those of the windows
   that start there or later. */
struct plan {
    uint32_t units[TICKS];
    uint32_t slack[TICKS];
};

static bool is_before(struct planned_tick one, struct planned_tick other) {
    return one.units < other.units || (one.units == other.units && one.tick < other.tick);
}

static void put(struct tick_queue *queue, struct planned_tick moving) {
    size_t slot = queue->count++;
    while (slot > 0) {
        size_t parent = (slot - 1) / 2;
        if (!is_before(moving, queue->slots[parent]))
            break;
        queue->slots[slot] = queue->slots[parent];
        slot = parent;
    }
    queue->slots[slot] = moving;
}

/* Puts `moving` into the slot of the first one, which is not held any more. */
static void replace_least(struct tick_queue *queue, struct planned_tick moving) {
    size_t slot = 0;
    size_t child;
    while ((child = 2 * slot + 1) < queue->count) {
        if (child + 1 < queue->count && is_before(queue->slots[child + 1], queue->slots[child]))
            child++;
        if (!is_before(queue->slots[child], moving))
            break;
        queue->slots[slot] = queue->slots[child];
        slot = child;
    }
    queue->slots[slot] = moving;
}

static void take(struct tick_queue *queue) {
    queue->count--;
    replace_least(queue, queue->slots[queue->count]);
}

/* The start of the hull of a window that starts at `from`: the last tick up to it that has no slack. */
static size_t hull_start(const struct plan *plan, size_t from) {
    while (from > 0 && plan->slack[from] != 0)
        from--;
    return from;
}

static void allocate_unit(struct plan *plan, size_t from, size_t tick) {
    plan->units[tick]++;
    for (size_t t = from + 1; t <= tick; t++)
        plan->slack[t]++;
    for (size_t t = tick + 1; t <= from; t++)
        plan->slack[t]--;
}

static void allocate_demand(struct plan *plan, const struct planner_demand *demand) {
    struct tick_queue queue;
    size_t start = hull_start(plan, demand->from);
    queue.count = 0;
    for (size_t tick = start; tick < demand->to; tick++)
        put(&queue, (struct planned_tick){plan->units[tick], (uint16_t)tick});
    for (unsigned unit = 0; unit < demand->units; unit++) {
        while (queue.slots[0].tick < start)
            take(&queue);
        struct planned_tick lowest = queue.slots[0];
        allocate_unit(plan, demand->from, lowest.tick);
        lowest.units++;
        replace_least(&queue, lowest);
        if (lowest.tick < demand->from)
            start = hull_start(plan, demand->from);
    }
}

static bool is_plannable(const struct planner_demand *demands, size_t count) {
    for (size_t i = 0; i < count; i++) {
        if (demands[i].units > 0 && !(demands[i].from < demands[i].to && demands[i].to <= TICKS))
            return false;
        if (i > 0 && demands[i].to < demands[i - 1].to)
            return false;
    }
    return true;
}

void plain_settings_of(const struct planner_demand *demands, size_t count, struct planner_settings_list *found) {
    struct plan plan;
    memset(&plan, 0, sizeof plan);
    for (size_t i = 0; i < count; i++)
        if (demands[i].units > 0)
            allocate_demand(&plan, &demands[i]);
    memcpy(found->settings, plan.units, sizeof plan.units);
}

uint32_t plain_settings(const struct planner_demand *demands, size_t count, struct planner_settings_list *found) {
    if (count > DEMANDS)
        return 1;
    if (!is_plannable(demands, count))
        return 2;
    plain_settings_of(demands, count, found);
    return 0;
}

/* Which ticks are free, and the demands with units that are left. */
struct rounds {
    bool free[TICKS];
    size_t count;
    struct planner_demand demands[DEMANDS];
};

/* A pair of compressed times, and the work of the windows inside. */
struct pair {
    uint16_t low;
    uint16_t high;
    uint32_t work;
};

/* `&` takes no branch, as `&&` would, and is faster here. */
static bool is_inside(const struct planner_demand *window, uint16_t low, uint16_t high) {
    return (low <= window->from) & (window->to <= high);
}

/* Each window's units count once or not at all. */
uint32_t plain_work_inside(const struct planner_demand *windows, size_t count, uint16_t low, uint16_t high) {
    uint32_t work = 0;
    for (size_t i = 0; i < count; i++)
        work += (uint32_t)is_inside(&windows[i], low, high) * windows[i].units;
    return work;
}

static struct pair counted(const struct planner_demand *windows, size_t count, uint16_t low, uint16_t high) {
    return (struct pair){low, high, plain_work_inside(windows, count, low, high)};
}

static uint16_t extent(struct pair pair) {
    return (uint16_t)(pair.high - pair.low);
}

/* Whether `one` has more work over length; or as much, and starts earlier; or starts there too, and ends later. */
static bool beats(struct pair one, struct pair other) {
    uint64_t here = (uint64_t)one.work * extent(other);
    uint64_t there = (uint64_t)other.work * extent(one);
    if (here != there)
        return here > there;
    return one.low < other.low || (one.low == other.low && one.high > other.high);
}

/* The best pair from a start to an end of the windows, of which there is one or more. */
static struct pair best_pair(const struct planner_demand *windows, size_t count) {
    struct pair best = counted(windows, count, windows[0].from, windows[0].to);
    for (size_t i = 0; i < count; i++) {
        for (size_t j = 0; j < count; j++) {
            uint16_t low = windows[i].from;
            uint16_t high = windows[j].to;
            if (low < high) {
                struct pair pair = counted(windows, count, low, high);
                if (beats(pair, best))
                    best = pair;
            }
        }
    }
    return best;
}

/* The demands in compressed time: the number of free ticks before each tick. */
static void compress(const struct rounds *rounds, struct planner_demand *windows) {
    uint16_t times[TICKS + 1] = {0};
    for (size_t tick = 0; tick < TICKS; tick++)
        times[tick + 1] = (uint16_t)(times[tick] + rounds->free[tick]);
    for (size_t i = 0; i < rounds->count; i++) {
        const struct planner_demand *demand = &rounds->demands[i];
        windows[i] = (struct planner_demand){times[demand->from], times[demand->to], demand->units};
    }
}

/* Takes the free ticks of the pair: they are the block. */
static struct planner_block take_ticks(struct rounds *rounds, struct pair pair) {
    struct planner_block block = {pair.work, extent(pair), 0, 0};
    uint16_t time = 0;
    for (uint16_t tick = 0; tick < TICKS; tick++) {
        if (!rounds->free[tick])
            continue;
        if (pair.low <= time && time < pair.high) {
            if (time == pair.low)
                block.from = tick;
            block.to = (uint16_t)(tick + 1);
            rounds->free[tick] = false;
        }
        time++;
    }
    return block;
}

/* Keeps the demands whose windows do not lie inside the pair. */
static void leave_outside(struct rounds *rounds, const struct planner_demand *windows, struct pair pair) {
    size_t left = 0;
    for (size_t i = 0; i < rounds->count; i++)
        if (!is_inside(&windows[i], pair.low, pair.high))
            rounds->demands[left++] = rounds->demands[i];
    rounds->count = left;
}

static struct planner_block next_block(struct rounds *rounds) {
    struct planner_demand windows[DEMANDS];
    compress(rounds, windows);
    struct pair pair = best_pair(windows, rounds->count);
    leave_outside(rounds, windows, pair);
    return take_ticks(rounds, pair);
}

uint32_t plain_blocks(const struct planner_demand *demands, size_t count, struct planner_block_list *found) {
    struct rounds rounds;
    if (count > DEMANDS)
        return 1;
    if (!is_plannable(demands, count))
        return 2;
    memset(rounds.free, true, sizeof rounds.free);
    rounds.count = 0;
    for (size_t i = 0; i < count; i++)
        if (demands[i].units > 0)
            rounds.demands[rounds.count++] = demands[i];
    found->count = 0;
    while (rounds.count > 0)
        found->blocks[found->count++] = next_block(&rounds);
    return 0;
}
