/* The planner in plain C, for comparison: the same calls as in c/planner.h. */
#ifndef PLAIN_PLANNER_H
#define PLAIN_PLANNER_H
#include "planner.h"

uint32_t plain_settings(const struct planner_demand *demands, size_t count, struct planner_settings_list *found);
uint32_t plain_blocks(const struct planner_demand *demands, size_t count, struct planner_block_list *found);

/* The settings in force, where it is known that the demands can be planned for. */
void plain_settings_of(const struct planner_demand *demands, size_t count, struct planner_settings_list *found);

/* The units of the demands whose windows lie inside the interval from low to high. */
uint32_t plain_work_inside(const struct planner_demand *demands, size_t count, uint16_t low, uint16_t high);

#endif
