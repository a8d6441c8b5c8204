/* The proved planner beside the plain one: settings and critical blocks. */
#include "contest.h"
#include "plain_planner.h"
#include "samples.h"
#include <string.h>

enum { SAMPLES = 20 };

struct sample {
    size_t count;
    struct planner_demand demands[PLANNER_DEMANDS];
};

static struct sample samples[SAMPLES];

static void make(size_t sample, const struct kind *kind) {
    struct sample *made = &samples[sample];
    made->count = kind->jobs;
    if (strcmp(kind->name, "nested") == 0)
        make_nested(made->demands, made->count, kind->top);
    else
        make_scattered(made->demands, made->count, kind->top, strcmp(kind->name, "begun") == 0 ? PLANNER_TICKS / 2 : 0);
    sort_demands(made->demands, made->count);
}

static void proved_settings(size_t sample) {
    struct planner_settings_list found;
    planner_settings(samples[sample].demands, samples[sample].count, &found);
}

static void c_settings(size_t sample) {
    struct planner_settings_list found;
    plain_settings(samples[sample].demands, samples[sample].count, &found);
}

static void proved_blocks(size_t sample) {
    struct planner_block_list found;
    planner_blocks(samples[sample].demands, samples[sample].count, &found);
}

static void c_blocks(size_t sample) {
    struct planner_block_list found;
    plain_blocks(samples[sample].demands, samples[sample].count, &found);
}

static bool same_settings(size_t sample) {
    struct planner_settings_list one, other;
    if (planner_settings(samples[sample].demands, samples[sample].count, &one) != 0
        || plain_settings(samples[sample].demands, samples[sample].count, &other) != 0)
        return false;
    return memcmp(&one, &other, sizeof one) == 0;
}

static bool is_same(const struct planner_block *one, const struct planner_block *other) {
    return one->work == other->work && one->length == other->length && one->from == other->from && one->to == other->to;
}

static bool same_blocks(size_t sample) {
    struct planner_block_list one, other;
    if (planner_blocks(samples[sample].demands, samples[sample].count, &one) != 0
        || plain_blocks(samples[sample].demands, samples[sample].count, &other) != 0)
        return false;
    if (one.count != other.count)
        return false;
    for (size_t i = 0; i < one.count; i++)
        if (!is_same(&one.blocks[i], &other.blocks[i]))
            return false;
    return true;
}

void compare_planners(void) {
    static const struct contest settings = {"settings", SAMPLES, 1, make, proved_settings, c_settings, same_settings};
    static const struct contest blocks = {"blocks", SAMPLES, 1, make, proved_blocks, c_blocks, same_blocks};
    static const struct kind for_settings[] = {
        {"by chance", 8, 4}, {"by chance", 8, 255}, {"by chance", 64, 4},
        {"by chance", 64, 16}, {"by chance", 64, 255}, {"begun", 64, 16}};
    /* With so little work many pairs have as much of it to a tick. */
    static const struct kind for_blocks[] = {
        {"by chance", 8, 4}, {"nested", 8, 255}, {"by chance", 64, 4}, {"begun", 64, 4}, {"nested", 64, 255}};
    for (size_t i = 0; i < sizeof for_settings / sizeof for_settings[0]; i++)
        compare(&settings, &for_settings[i]);
    for (size_t i = 0; i < sizeof for_blocks / sizeof for_blocks[0]; i++)
        compare(&blocks, &for_blocks[i]);
}
