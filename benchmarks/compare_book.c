/* The proved book beside the plain one: offers to a book that holds 63 jobs, and ticks of one that holds 64.
   The proved book is loaded from an image before each run of calls, and that counts as its time. */
#include "contest.h"
#include "plain_book.h"
#include "samples.h"
#include <stdlib.h>
#include <string.h>

/* How many samples there are, how often each job is offered, and how many ticks are served. Between offers the job is
   struck, and that counts too. */
enum { SAMPLES = 10, OFFERS = 100, SERVED = 8 };

#define NOW UINT64_C(1000000)

struct sample {
    struct plain_book book;
    struct plain_job offered;
    uint8_t image[IMAGE_LEN];
};

static struct sample samples[SAMPLES];

/* A job with this demand at NOW. One that has begun may have arrived before. */
static struct plain_job job_of(const struct planner_demand *demand, uint16_t ticket, bool is_begun) {
    unsigned before = is_begun && demand->from == 0 ? chance(PLANNER_TICKS - demand->to + 1) : 0;
    return (struct plain_job){NOW + demand->from - before, NOW + demand->to, ticket, demand->units};
}

static int by_rank(const void *one, const void *other) {
    const struct plain_job *a = one, *b = other;
    if (a->deadline != b->deadline)
        return a->deadline < b->deadline ? -1 : 1;
    return (int)a->ticket - (int)b->ticket;
}

/* A book of all jobs of these demands but the last `left`. */
static void make_book(struct sample *made, const struct planner_demand *demands, const struct kind *kind, size_t left) {
    struct plain_book *book = &made->book;
    *book = (struct plain_book){NOW, (uint8_t)kind->top, {kind->jobs - left, {{0, 0, 0, 0}}}};
    for (size_t i = 0; i < book->table.count; i++)
        book->table.jobs[i] = job_of(&demands[i], (uint16_t)(i + 1), strcmp(kind->name, "begun") == 0);
    qsort(book->table.jobs, book->table.count, sizeof book->table.jobs[0], by_rank);
    plain_save(book, made->image);
}

static void make_demands(struct planner_demand *demands, const struct kind *kind) {
    make_scattered(demands, kind->jobs, kind->top, strcmp(kind->name, "begun") == 0 ? PLANNER_TICKS / 2 : 0);
}

static void make_offer(size_t sample, const struct kind *kind) {
    struct planner_demand demands[PLACES];
    struct planner_demand *last = &demands[kind->jobs - 1];
    make_demands(demands, kind);
    if (strcmp(kind->name, "overload") == 0)
        last->units = (uint16_t)(kind->top * (unsigned)(last->to - last->from) + 1);
    make_book(&samples[sample], demands, kind, 1);
    samples[sample].offered = job_of(last, (uint16_t)kind->jobs, false);
}

static void make_tick(size_t sample, const struct kind *kind) {
    struct planner_demand demands[PLACES];
    make_demands(demands, kind);
    make_book(&samples[sample], demands, kind, 0);
}

static struct timed_answer proved_offer(const struct sample *it, uint32_t times) {
    const struct plain_job *job = &it->offered;
    return timed_offers(it->image, IMAGE_LEN, times, job->ticket, job->arrival, job->deadline, job->work);
}

static struct timed_answer c_offer(const struct sample *it, uint32_t times) {
    struct plain_book book = it->book;
    for (uint32_t i = 0; i < times; i++) {
        plain_offer(&book, it->offered);
        plain_strike(&book, it->offered.ticket);
    }
    return plain_offer(&book, it->offered);
}

static struct timed_answer c_tick(const struct sample *it, uint32_t times, struct timed_entry *entries) {
    struct plain_book book = it->book;
    for (uint32_t i = 0; i < times; i++) {
        struct timed_entry dropped[PLACES] = {{0, 0}};
        plain_tick(&book, dropped);
    }
    memset(entries, 0, PLACES * sizeof *entries);
    return plain_tick(&book, entries);
}

static void proved_offers(size_t sample) {
    proved_offer(&samples[sample], OFFERS - 1);
}

static void c_offers(size_t sample) {
    c_offer(&samples[sample], OFFERS - 1);
}

static void proved_ticks(size_t sample) {
    struct timed_entry entries[PLACES];
    timed_ticks(samples[sample].image, IMAGE_LEN, SERVED - 1, entries);
}

static void c_ticks(size_t sample) {
    struct timed_entry entries[PLACES];
    c_tick(&samples[sample], SERVED - 1, entries);
}

static bool is_same(struct timed_answer one, struct timed_answer other) {
    return one.number == other.number && memcmp(one.values, other.values, sizeof one.values) == 0;
}

/* The first offer, and one after some. */
static bool same_offers(size_t sample) {
    const struct sample *it = &samples[sample];
    return is_same(proved_offer(it, 0), c_offer(it, 0)) && is_same(proved_offer(it, 3), c_offer(it, 3));
}

/* Each tick, by its setting and its entries. */
static bool same_ticks(size_t sample) {
    struct timed_entry one[PLACES], other[PLACES];
    for (uint32_t times = 0; times < SERVED; times++) {
        if (!is_same(timed_ticks(samples[sample].image, IMAGE_LEN, times, one), c_tick(&samples[sample], times, other)))
            return false;
        if (memcmp(one, other, sizeof one) != 0)
            return false;
    }
    return true;
}

void compare_books(void) {
    static const struct contest offers = {"offer", SAMPLES, OFFERS, make_offer, proved_offers, c_offers, same_offers};
    static const struct contest ticks = {"tick", SAMPLES, SERVED, make_tick, proved_ticks, c_ticks, same_ticks};
    static const struct kind offered[] = {
        {"by chance", 64, 4}, {"by chance", 64, 255}, {"begun", 64, 16}, {"overload", 64, 16}};
    static const struct kind ticked[] = {
        {"by chance", 64, 4}, {"by chance", 64, 16}, {"by chance", 64, 255}, {"begun", 64, 16}};
    for (size_t i = 0; i < sizeof offered / sizeof offered[0]; i++)
        compare(&offers, &offered[i]);
    for (size_t i = 0; i < sizeof ticked / sizeof ticked[0]; i++)
        compare(&ticks, &ticked[i]);
}
