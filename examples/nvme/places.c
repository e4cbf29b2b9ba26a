/* Places: how many connections there are, which of them gives way to a new one, and which loop a connection is handed to. */
#include "target.h"

enum { LOAD = 1, IO_LOAD = 8 }; /* of a connection: of an I/O queue more, as hosts have their admin queues rest */

/* ---- those that give way. The lock is held */

static void append(struct places *places, struct queue *queue) {
    queue->older = places->newest;
    queue->newer = 0;
    if (places->newest)
        places->newest->newer = queue;
    else
        places->oldest = queue;
    places->newest = queue;
    queue->gives_way = 1;
}

static void take_out(struct places *places, struct queue *queue) {
    if (!queue->gives_way) return;
    *(queue->older ? &queue->older->newer : &places->oldest) = queue->newer;
    *(queue->newer ? &queue->newer->older : &places->newest) = queue->older;
    queue->gives_way = 0;
}

/* ---- domains. The lock is held */

/* Takes a place in a domain: one that has queues of this address and room for more, or one that is free. Returns 0 if there is
 * none. */
static uint32_t enter_domain(struct places *places, uint32_t address) {
    uint32_t found = 0;
    for (uint32_t number = MOST_DOMAINS; number > 0; number--) {
        const struct domain *it = &places->domains[number];
        int is_joined = it->queues > 0 && it->queues < DOMAIN_QUEUES && it->address == address;
        if (it->queues == 0 || is_joined) found = number;
        if (is_joined) break;
    }
    if (found == 0) return 0;
    places->domains[found].address = address;
    places->domains[found].queues++;
    return found;
}

/* ---- loops. The lock is held */

static struct loop *least_loaded(struct target *target) {
    struct loop *least = target->loops;
    for (struct loop *it = least; it < target->loops + target->options.loops; it++)
        if (it->load < least->load) least = it;
    return least;
}

static void add_load(struct queue *queue, uint32_t load) {
    queue->load += load;
    queue->loop->load += load;
}

static void hand(struct queue *queue) {
    struct queue **last = &queue->loop->handed;
    while (*last) last = &(*last)->next;
    *last = queue;
}

/* ---- a connection's place */

/* Takes the place for a new queue: in the loop of one that gives way, if there are too many, so that both happen in one turn. */
static int take(struct target *target, struct queue *queue, uint32_t address) {
    struct places *places = &target->places;
    int is_full = target->options.most_queues > 0 && places->count >= target->options.most_queues;
    struct queue *gives_way = is_full || places->starting >= MOST_STARTING ? places->oldest : 0;
    if (is_full && !gives_way) return 0;
    if (gives_way) {
        take_out(places, gives_way);
        queue_end(gives_way);
    }
    queue->loop = gives_way ? gives_way->loop : least_loaded(target);
    queue->domain = enter_domain(places, address);
    places->count++;
    places->starting++;
    append(places, queue);
    add_load(queue, LOAD);
    hand(queue);
    loop_wake(queue->loop);
    return 1;
}

int place_take(struct queue *queue, uint32_t address) {
    struct places *places = &queue->target->places;
    pthread_mutex_lock(&places->lock);
    int is_taken = take(queue->target, queue, address);
    pthread_mutex_unlock(&places->lock);
    return is_taken;
}

uint32_t place_count(struct places *places) {
    pthread_mutex_lock(&places->lock);
    uint32_t count = places->count;
    pthread_mutex_unlock(&places->lock);
    return count;
}

void place_enter(struct queue *queue, enum queue_state state) {
    struct places *places = &queue->target->places;
    int was = queue_is_starting(queue->state), is = queue_is_starting(state);
    pthread_mutex_lock(&places->lock);
    places->starting += (uint32_t)is - (uint32_t)was;
    if (!is) take_out(places, queue);
    if (is && !was && !queue->ends && queue->jobs == 0) append(places, queue);
    if (state == CONNECTED && queue->id > 0) add_load(queue, IO_LOAD - LOAD);
    pthread_mutex_unlock(&places->lock);
}

void place_rests(struct queue *queue) {
    struct places *places = &queue->target->places;
    pthread_mutex_lock(&places->lock);
    if (!queue->gives_way && !queue->ends) append(places, queue);
    pthread_mutex_unlock(&places->lock);
}

void place_leave(struct queue *queue) {
    struct places *places = &queue->target->places;
    pthread_mutex_lock(&places->lock);
    take_out(places, queue);
    places->count--;
    if (queue->domain) places->domains[queue->domain].queues--;
    queue->loop->load -= queue->load;
    pthread_mutex_unlock(&places->lock);
}
