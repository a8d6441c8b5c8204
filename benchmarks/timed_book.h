/* The static library of the crate timed_book: calls of the proved book, to be timed. */
#ifndef TIMED_BOOK_H
#define TIMED_BOOK_H
#include <assert.h>
#include <stddef.h>
#include <stdint.h>

enum { PLACES = 64, IMAGE_LEN = 1560 };

/* What a call answered: 0 and what it served, or the number of a refusal and its values. Zeros fill the list of
   values. */
struct timed_answer {
    uint32_t number;
    uint64_t values[3];
};
static_assert(sizeof(struct timed_answer) == 32, "timed_answer");

/* What a tick gave to one job. */
struct timed_entry {
    uint16_t ticket;
    uint16_t units;
};
static_assert(sizeof(struct timed_entry) == 4, "timed_entry");

/* Loads the image (a pointer, then how many bytes), offers the job and strikes it `times` times, then offers it and
   answers that. */
struct timed_answer timed_offers(const uint8_t *image, size_t len, uint32_t times,
                              uint16_t ticket, uint64_t arrival, uint64_t deadline, uint16_t work);

/* Loads the image, serves `times` ticks and one more, and answers that one: its setting, and how many entries it
   wrote. They are written to the 64 elements, and zeros after them. */
struct timed_answer timed_ticks(const uint8_t *image, size_t len, uint32_t times, struct timed_entry *entries);

#endif
