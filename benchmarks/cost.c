/* What a call of the planner costs: how much stack it takes, and how its time grows. Link it with -z now, so that no
   function is bound on the stack that is measured. */
#define _POSIX_C_SOURCE 200112L
#include "planner.h"
#include "samples.h"
#include <pthread.h>
#include <stdbool.h>
#include <stdio.h>
#include <stdlib.h>
#include <string.h>
#include <time.h>

enum { STACK = 1 << 20, PAINT = 0xa5, ROUNDS = 20 };

static struct planner_demand demands[PLANNER_DEMANDS];
static size_t count;
static struct planner_settings_list settings;
static struct planner_block_list blocks;

/* Where the stack of the caller ended when the last call was made. */
static unsigned char *volatile caller;

static void *call_settings(void *unused) {
    unsigned char here = PAINT;
    caller = &here;
    planner_settings(demands, count, &settings);
    return unused;
}

static void *call_blocks(void *unused) {
    unsigned char here = PAINT;
    caller = &here;
    planner_blocks(demands, count, &blocks);
    return unused;
}

/* How many bytes below its caller a call writes to, in a thread of its own whose stack is painted before, or 0 where
   no thread starts. */
static size_t stack_of(void *(*call)(void *)) {
    unsigned char *stack = NULL;
    pthread_attr_t attributes;
    pthread_t thread;
    size_t clean = 0;
    if (posix_memalign((void **)&stack, 4096, STACK) != 0)
        return 0;
    memset(stack, PAINT, STACK);
    pthread_attr_init(&attributes);
    pthread_attr_setstack(&attributes, stack, STACK);
    bool started = pthread_create(&thread, &attributes, call, NULL) == 0;
    if (started)
        pthread_join(thread, NULL);
    pthread_attr_destroy(&attributes);
    while (clean < STACK && stack[clean] == PAINT)
        clean++;
    free(stack);
    return started ? (size_t)(caller - stack) - clean : 0;
}

static double now(void) {
    struct timespec time;
    clock_gettime(CLOCK_PROCESS_CPUTIME_ID, &time);
    return (double)time.tv_sec * 1e6 + (double)time.tv_nsec / 1e3;
}

/* The least microseconds of some calls. */
static double time_of(void *(*call)(void *)) {
    double least = 1e300;
    for (int round = 0; round < ROUNDS; round++) {
        double start = now();
        call(NULL);
        double time = now() - start;
        if (time < least)
            least = time;
    }
    return least;
}

/* 64 demands of so many units each in the same window. */
static void make_equal(unsigned units, unsigned from, unsigned to) {
    count = PLANNER_DEMANDS;
    for (size_t i = 0; i < count; i++)
        demands[i] = (struct planner_demand){(uint16_t)from, (uint16_t)to, (uint16_t)units};
}

/* The time of settings for the demands, of so many units in all. */
static void print_time(const char *what) {
    unsigned units = 0;
    for (size_t i = 0; i < count; i++)
        units += demands[i].units;
    double time = time_of(call_settings);
    printf("settings, %-12s %2zu demands, %7u units: %8.0f us, %4.0f ns a unit\n",
           what, count, units, time, time * 1000 / units);
}

static void print_settings(void) {
    for (unsigned top = 4; top < 256; top *= 4) {
        count = PLANNER_DEMANDS;
        make_scattered(demands, count, top, 0);
        sort_demands(demands, count);
        print_time("scattered");
    }
    make_scattered(demands, count, 255, 0);
    sort_demands(demands, count);
    print_time("scattered");
    make_equal(65535, 0, 256);
    print_time("widest");
    make_equal(65535, 255, 256);
    print_time("last tick");
}

static void print_blocks(void) {
    for (count = 8; count <= PLANNER_DEMANDS; count *= 2) {
        make_nested(demands, count, 255);
        sort_demands(demands, count);
        printf("blocks,   %2zu demands, a block each: %10.0f us\n", count, time_of(call_blocks));
    }
    count = PLANNER_DEMANDS;
    make_equal(1, 0, 256);
    printf("blocks,   64 demands, one block:    %10.0f us\n", time_of(call_blocks));
}

int main(void) {
    count = PLANNER_DEMANDS;
    make_nested(demands, count, 255);
    sort_demands(demands, count);
    printf("stack: settings %zu bytes, blocks %zu bytes\n", stack_of(call_settings), stack_of(call_blocks));
    print_settings();
    print_blocks();
}
