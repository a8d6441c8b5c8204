/* The book in plain C, by the same way as crates/book. An offer is checked, put into a copy of the table by deadline
   and ticket, and refused where an interval from a start to an end of the windows has more work than fits. A tick
   plans the settings of all 256 ticks and serves the first, by earliest deadline, then least ticket. */
#include "plain_book.h"
#include "plain_planner.h"
#include <stdbool.h>
#include <string.h>

enum { TICKS = PLANNER_TICKS };

#define LAST_TICK ((UINT64_C(1) << 48) - 1)

static const struct timed_answer ACCEPTED;

static struct timed_answer refused(uint32_t number, uint64_t value) {
    return (struct timed_answer){number, {value, 0, 0}};
}

/* Why the job's fields are refused: the number of the first that has a value it can't have, or 0. */
static unsigned wrong_field(const struct plain_job *job, uint64_t now) {
    if (job->ticket == 0)
        return 1;
    if (job->arrival < now)
        return 2;
    if (job->deadline <= job->arrival || job->deadline > now + TICKS || job->deadline > LAST_TICK)
        return 3;
    if (job->work == 0)
        return 4;
    return 0;
}

/* The index of the job with the ticket, or the count where none has it. */
static size_t index_of(const struct plain_table *table, uint16_t ticket) {
    size_t index = 0;
    while (index < table->count && table->jobs[index].ticket != ticket)
        index++;
    return index;
}

static struct timed_answer check(const struct plain_book *book, const struct plain_job *job) {
    unsigned field = wrong_field(job, book->now);
    if (field != 0)
        return refused(5, field);
    if (index_of(&book->table, job->ticket) < book->table.count)
        return refused(6, job->ticket);
    if (book->table.count == PLACES)
        return refused(7, PLACES);
    return ACCEPTED;
}

static bool is_before(const struct plain_job *one, const struct plain_job *other) {
    return one->deadline < other->deadline || (one->deadline == other->deadline && one->ticket < other->ticket);
}

/* The table with one more job, right before the first that is served after it. */
static struct plain_table with_job(const struct plain_table *table, const struct plain_job *job) {
    struct plain_table next = *table;
    size_t index = 0;
    while (index < table->count && !is_before(job, &table->jobs[index]))
        index++;
    memmove(&next.jobs[index + 1], &next.jobs[index], (table->count - index) * sizeof next.jobs[0]);
    next.jobs[index] = *job;
    next.count++;
    return next;
}

static uint64_t ticks_from(uint64_t now, uint64_t tick) {
    return tick < now ? 0 : tick - now;
}

/* What the open jobs demand, seen from now. */
static void make_demands(const struct plain_table *table, uint64_t now, struct planner_demand *demands) {
    for (size_t i = 0; i < table->count; i++) {
        const struct plain_job *job = &table->jobs[i];
        demands[i] = (struct planner_demand){
            (uint16_t)ticks_from(now, job->arrival), (uint16_t)ticks_from(now, job->deadline), job->work};
    }
}

static bool starts_at(const struct planner_demand *demands, size_t count, uint16_t start) {
    for (size_t i = 0; i < count; i++)
        if (demands[i].from == start)
            return true;
    return false;
}

/* The end of the first overloaded interval from this start, or 0. The demands come by deadline: what is added up lies
   inside the interval to the demand's end. */
static uint16_t overloaded_end(const struct planner_demand *demands, size_t count, uint16_t start, uint8_t top) {
    uint32_t work = 0;
    for (size_t i = 0; i < count; i++) {
        if (demands[i].from < start)
            continue;
        work += demands[i].units;
        if (work > (uint32_t)top * (uint32_t)(demands[i].to - start))
            return demands[i].to;
    }
    return 0;
}

/* The refusal for the overloaded interval with the least start and, among those, the least end. */
static struct timed_answer overload(const struct plain_table *table, uint64_t now, uint8_t top) {
    struct planner_demand demands[PLACES];
    make_demands(table, now, demands);
    for (uint16_t start = 0; start < TICKS; start++) {
        if (!starts_at(demands, table->count, start))
            continue;
        uint16_t end = overloaded_end(demands, table->count, start, top);
        if (end != 0)
            return (struct timed_answer){
                8, {now + start, now + end, plain_work_inside(demands, table->count, start, end)}};
    }
    return ACCEPTED;
}

struct timed_answer plain_offer(struct plain_book *book, struct plain_job job) {
    struct timed_answer answer = check(book, &job);
    if (answer.number != 0)
        return answer;
    struct plain_table table = with_job(&book->table, &job);
    answer = overload(&table, book->now, book->top);
    if (answer.number == 0)
        book->table = table;
    return answer;
}

struct timed_answer plain_strike(struct plain_book *book, uint16_t ticket) {
    struct plain_table *table = &book->table;
    size_t index = index_of(table, ticket);
    if (index == table->count)
        return refused(9, ticket);
    memmove(&table->jobs[index], &table->jobs[index + 1], (table->count - index - 1) * sizeof table->jobs[0]);
    table->count--;
    return ACCEPTED;
}

/* A job whose window has begun. */
struct ready_job {
    uint64_t deadline;
    uint16_t ticket;
    uint8_t index;
};

/* A binary heap of ready jobs, by deadline, then ticket. */
struct ready_queue {
    size_t count;
    struct ready_job slots[PLACES];
};

static bool is_ready_before(struct ready_job one, struct ready_job other) {
    return one.deadline < other.deadline || (one.deadline == other.deadline && one.ticket < other.ticket);
}

static void put(struct ready_queue *queue, struct ready_job moving) {
    size_t slot = queue->count++;
    while (slot > 0) {
        size_t parent = (slot - 1) / 2;
        if (!is_ready_before(moving, queue->slots[parent]))
            break;
        queue->slots[slot] = queue->slots[parent];
        slot = parent;
    }
    queue->slots[slot] = moving;
}

static struct ready_job take(struct ready_queue *queue) {
    struct ready_job first = queue->slots[0];
    struct ready_job moving = queue->slots[--queue->count];
    size_t slot = 0;
    size_t child;
    while ((child = 2 * slot + 1) < queue->count) {
        if (child + 1 < queue->count && is_ready_before(queue->slots[child + 1], queue->slots[child]))
            child++;
        if (!is_ready_before(queue->slots[child], moving))
            break;
        queue->slots[slot] = queue->slots[child];
        slot = child;
    }
    queue->slots[slot] = moving;
    return first;
}

static void make_ready(struct ready_queue *queue, const struct plain_table *table, uint64_t now) {
    queue->count = 0;
    for (size_t i = 0; i < table->count; i++) {
        const struct plain_job *job = &table->jobs[i];
        if (job->arrival <= now)
            put(queue, (struct ready_job){job->deadline, job->ticket, (uint8_t)i});
    }
}

/* Serves the ready jobs until the setting is used up, and answers how many entries it wrote. */
static size_t serve(struct plain_table *table, uint64_t now, uint8_t setting, struct timed_entry *entries) {
    struct ready_queue queue;
    size_t count = 0;
    unsigned left = setting;
    make_ready(&queue, table, now);
    while (left > 0 && queue.count > 0) {
        struct plain_job *job = &table->jobs[take(&queue).index];
        unsigned units = job->work < left ? job->work : left;
        job->work = (uint16_t)(job->work - units);
        entries[count++] = (struct timed_entry){job->ticket, (uint16_t)units};
        left -= units;
    }
    return count;
}

static void close_done(struct plain_table *table) {
    size_t left = 0;
    for (size_t i = 0; i < table->count; i++)
        if (table->jobs[i].work > 0)
            table->jobs[left++] = table->jobs[i];
    table->count = left;
}

/* The settings in force as bytes. */
static void make_settings(const struct plain_book *book, uint8_t *bytes) {
    struct planner_demand demands[PLACES];
    struct planner_settings_list list;
    make_demands(&book->table, book->now, demands);
    plain_settings_of(demands, book->table.count, &list);
    for (size_t tick = 0; tick < TICKS; tick++)
        bytes[tick] = (uint8_t)list.settings[tick];
}

struct timed_answer plain_tick(struct plain_book *book, struct timed_entry *entries) {
    uint8_t settings[TICKS];
    if (book->now == LAST_TICK)
        return refused(11, book->now);
    make_settings(book, settings);
    size_t count = serve(&book->table, book->now, settings[0], entries);
    close_done(&book->table);
    book->now++;
    return (struct timed_answer){0, {settings[0], count, 0}};
}

/* The number in so many bytes, the high byte first. */
static void put_number(uint8_t *bytes, unsigned len, uint64_t number) {
    for (unsigned i = len; i > 0; i--) {
        bytes[i - 1] = (uint8_t)number;
        number >>= 8;
    }
}

void plain_save(const struct plain_book *book, uint8_t image[IMAGE_LEN]) {
    memset(image, 0, IMAGE_LEN);
    image[0] = 0x43;
    put_number(image + 4, 6, book->now);
    put_number(image + 16, 2, book->top);
    for (size_t i = 0; i < book->table.count; i++) {
        const struct plain_job *job = &book->table.jobs[i];
        uint8_t *record = image + 24 * (i + 1);
        record[0] = 0x4a;
        put_number(record + 2, 2, job->ticket);
        put_number(record + 4, 6, job->arrival);
        put_number(record + 10, 6, job->deadline);
        put_number(record + 16, 2, job->work);
    }
}
