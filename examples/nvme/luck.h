/* Calls of the target that fail: one in so many does, none if it is 0; and what calls add up to in a turn of its loop. */
#ifndef LUCK_H
#define LUCK_H

#include "system.h"

struct luck {
    _Atomic uint32_t memory_fails, store_fails, sync_fails;
    _Atomic size_t refused; /* allocations of so many octets are; 0: none */
    _Atomic unsigned sync_us; /* how long a sync takes */
    _Atomic int are_lazy; /* threads wait for longer than they have to */
    _Atomic int spent; /* all numbers of streams were given */
    _Atomic uint32_t syncs, sync_failed; /* how many there were; whether one failed */
};

extern struct luck luck;

/* A loop of the target has its turn in this thread: memory fails in it alone. */
struct lucky_turn {
    int goes_on;
    size_t sent; /* octets, in this turn */
    int accepted; /* connections, in this turn */
};

extern _Thread_local struct lucky_turn lucky_turn;

#endif
