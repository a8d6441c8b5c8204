/* Times the proved way and the plain one. */
#define _POSIX_C_SOURCE 199309L
#include "contest.h"
#include <stdio.h>
#include <time.h>

enum { ROUNDS = 10 };

static double now(void) {
    struct timespec time;
    clock_gettime(CLOCK_PROCESS_CPUTIME_ID, &time);
    return (double)time.tv_sec * 1e6 + (double)time.tv_nsec / 1e3;
}

/* Lowers `least` to the microseconds for all samples. */
static void time_once(const struct contest *contest, void (*way)(size_t), double *least) {
    double start = now();
    for (size_t i = 0; i < contest->samples; i++)
        way(i);
    double time = now() - start;
    if (time < *least)
        *least = time;
}

/* Makes the samples, and answers whether both ways agree on each. */
static bool are_agreed(const struct contest *contest, const struct kind *kind) {
    for (size_t i = 0; i < contest->samples; i++) {
        contest->make(i, kind);
        if (!contest->agree(i))
            return false;
    }
    return true;
}

void compare(const struct contest *contest, const struct kind *kind) {
    double proved = 1e300, plain = 1e300;
    printf("%s\t%s\t%u\t%u\t", contest->what, kind->name, kind->jobs, kind->top);
    if (!are_agreed(contest, kind)) {
        printf("differ\n");
        return;
    }
    for (int round = 0; round < ROUNDS; round++) {
        /* The proved way goes first in every other round. */
        if (round % 2 == 0)
            time_once(contest, contest->proved, &proved);
        time_once(contest, contest->plain, &plain);
        if (round % 2 != 0)
            time_once(contest, contest->proved, &proved);
    }
    double calls = (double)(contest->samples * contest->times);
    printf("%.3f\t%.3f\n", proved / calls, plain / calls);
}

int main(void) {
    compare_planners();
    compare_books();
}
