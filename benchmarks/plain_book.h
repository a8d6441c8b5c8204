/* The book in plain C, for comparison with the proved one. */
#ifndef PLAIN_BOOK_H
#define PLAIN_BOOK_H
#include "timed_book.h"

/* A job: its window from the arrival up to but not including the deadline, and its work left. */
struct plain_job {
    uint64_t arrival;
    uint64_t deadline;
    uint16_t ticket;
    uint16_t work;
};

/* The open jobs by deadline, then ticket. */
struct plain_table {
    size_t count;
    struct plain_job jobs[PLACES];
};

struct plain_book {
    uint64_t now;
    uint8_t top;
    struct plain_table table;
};

/* Adds the job to the open ones, or refuses it and leaves the book. */
struct timed_answer plain_offer(struct plain_book *book, struct plain_job job);

/* Closes the open job with the ticket, or refuses that. */
struct timed_answer plain_strike(struct plain_book *book, uint16_t ticket);

/* Serves a tick, with an entry for each job that gets units, and answers the setting and how many entries there are. */
struct timed_answer plain_tick(struct plain_book *book, struct timed_entry *entries);

/* Writes the image of the book. */
void plain_save(const struct plain_book *book, uint8_t image[IMAGE_LEN]);

#endif
