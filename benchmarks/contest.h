/* The proved way and the plain one, side by side. */
#ifndef CONTEST_H
#define CONTEST_H
#include <stdbool.h>
#include <stddef.h>

/* How the samples of a contest are made. Its name has no tab. */
struct kind {
    const char *name;
    unsigned jobs;
    unsigned top;
};

/* Two ways of doing the same to each of some samples, so many times. */
struct contest {
    const char *what;
    size_t samples;
    size_t times;
    void (*make)(size_t sample, const struct kind *kind);
    void (*proved)(size_t sample);
    void (*plain)(size_t sample);
    /* Whether both give the same answers. */
    bool (*agree)(size_t sample);
};

/* Prints the call, the kind, and the microseconds of a call by the proved way and by the plain one: the least of some
   rounds, or `differ` where the answers do. Fields have a tab between them. */
void compare(const struct contest *contest, const struct kind *kind);

/* The contests. */
void compare_planners(void);
void compare_books(void);

#endif
