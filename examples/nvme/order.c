/* Which jobs wait for which: of two, one of which changes octets that the other is about, the one that came later. So no block is
 * read half changed, and each has what the last of those that changed it left. */
#include "store.h"

enum { NARROW_SHIFT = 20, NARROW = 1 << NARROW_SHIFT, SAME_LOCK = 8 }; /* lists in a row that have one lock */

uint32_t job_spans(const struct job *job) {
    return job->kind == JOB_DEALLOCATE ? job->spans : 1;
}

struct span job_span(const struct job *job, uint32_t i) {
    struct span span = {job->at, job->at + job->n};
    if (job->kind == JOB_DEALLOCATE) memcpy(&span, job->octets + i * sizeof span, sizeof span); /* they lie in a capsule, anywhere */
    return span;
}

static int is_change(const struct job *job) {
    return job->kind == JOB_WRITE || job->kind == JOB_ZERO || job->kind == JOB_DEALLOCATE;
}

/* Whether two are about the same octets. Their spans are in order, so the one that ends first is of no more interest. */
static int meet(const struct job *one, const struct job *other) {
    uint32_t i = 0, j = 0, ones = job_spans(one), others = job_spans(other);
    if (one->at >= other->at + other->n || other->at >= one->at + one->n) return 0;
    while (i < ones && j < others) {
        struct span a = job_span(one, i), b = job_span(other, j);
        if (a.end <= b.at)
            i++;
        else if (b.end <= a.at)
            j++;
        else
            return 1;
    }
    return 0;
}

static int collide(const struct job *one, const struct job *other) {
    return (is_change(one) || is_change(other)) && meet(one, other);
}

/* ---- lists and their locks */

static int is_wide(const struct job *job) {
    return job->n > NARROW;
}

static struct job **list_of(struct order *order, const struct job *job) {
    return is_wide(job) ? &order->wide : &order->narrow[(job->at >> NARROW_SHIFT) % ORDER_LISTS];
}

/* The narrow lists in which those may stand that a job meets, from the first on: they begin in a MiB of the job's, or in the one
 * before. */
static uint64_t first_near(const struct job *job) {
    return (job->at >> NARROW_SHIFT) + ORDER_LISTS - 1;
}

static uint64_t count_near(const struct job *job) {
    uint64_t count = (job->n >> NARROW_SHIFT) + 3;
    return count < ORDER_LISTS ? count : ORDER_LISTS;
}

/* The i-th list near a job: the last is that of the wide ones. */
static struct job *list_near(const struct order *order, const struct job *job, uint64_t i) {
    return i == count_near(job) ? order->wide : order->narrow[(first_near(job) + i) % ORDER_LISTS];
}

static uint32_t lock_of(uint64_t list) {
    return 1u << (list % ORDER_LISTS / SAME_LOCK % ORDER_LOCKS);
}

#define ALL UINT32_MAX /* locks */

/* The locks of the lists near a job, as bits: of a narrow one at most two. */
static uint32_t locks_of(const struct job *job) {
    return is_wide(job) ? ALL : lock_of(first_near(job)) | lock_of(first_near(job) + count_near(job) - 1);
}

/* All take locks from the first to the last. */
static void lock(struct order *order, uint32_t locks) {
    for (; locks; locks &= locks - 1) pthread_mutex_lock(&order->locks[__builtin_ctz(locks)].mutex);
}

static void unlock(struct order *order, uint32_t locks) {
    for (; locks; locks &= locks - 1) pthread_mutex_unlock(&order->locks[__builtin_ctz(locks)].mutex);
}

/* ---- what the store calls */

void order_open(struct order *order) {
    for (int i = 0; i < ORDER_LOCKS; i++) pthread_mutex_init(&order->locks[i].mutex, 0);
}

/* Finds out how many jobs a job has to wait for. */
static void look(const struct order *order, struct job *job) {
    job->waits_for = 0;
    job->is_awaited = 0;
    job->number = 1;
    for (uint64_t i = 0; i <= count_near(job); i++)
        for (struct job *it = list_near(order, job, i); it; it = it->behind) {
            if (!collide(job, it)) continue;
            it->is_awaited = 1;
            job->waits_for++;
            if (job->number <= it->number) job->number = it->number + 1;
        }
}

enum entry order_enter(struct order *order, struct job *job) {
    uint32_t locks = locks_of(job);
    enum entry entry = ENTRY_CUT;
    lock(order, locks);
    if (!job->lane->is_cut) {
        struct job **list = list_of(order, job);
        look(order, job);
        entry = job->waits_for == 0 ? ENTRY_FIRST : ENTRY_BEHIND;
        job->behind = *list;
        job->link = list;
        if (*list) (*list)->link = &job->behind;
        *list = job;
    }
    unlock(order, locks);
    return entry;
}

/* Whoever waited for a job that is over, and for no other, may be done. */
static void let_others(struct order *order, const struct job *job, void (*may)(void *with, struct job *job), void *with) {
    for (uint64_t i = 0; i <= count_near(job); i++)
        for (struct job *it = list_near(order, job, i); it; it = it->behind)
            if (it->number > job->number && collide(it, job) && --it->waits_for == 0) may(with, it);
}

void order_leave(struct order *order, struct job *job, void (*may)(void *with, struct job *job), void *with) {
    uint32_t locks = locks_of(job);
    lock(order, locks);
    *job->link = job->behind;
    if (job->behind) job->behind->link = job->link;
    if (job->is_awaited) let_others(order, job, may, with);
    unlock(order, locks);
}

void order_cut(struct order *order, struct lane *lane) {
    lock(order, ALL);
    lane->is_cut = 1;
    unlock(order, ALL);
}
