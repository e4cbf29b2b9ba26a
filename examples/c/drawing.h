/* Random bits, by which a program draws STags, so that no peer can guess one (RFC 5042 6.1.1). */
#ifndef DRAWING_H
#define DRAWING_H

#include "sockets.h"

#ifdef HAS_SYSTEM_HEADERS
#include <sys/random.h>
#else
ssize_t getrandom(void *octets, size_t n, unsigned int flags);
#endif

/* Random bits of the system's, which each thread asks for some at a time. If it gives none, ends the program. */
static inline uint32_t random_bits(void) {
    enum { DRAWN = 64 }; /* 256 octets, which getrandom gives whole */
    static _Thread_local uint32_t drawn[DRAWN];
    static _Thread_local size_t left;
    if (left == 0) {
        if (getrandom(drawn, sizeof drawn, 0) != (ssize_t)sizeof drawn) {
            perror("getrandom");
            exit(1);
        }
        left = DRAWN;
    }
    return drawn[--left];
}

#endif
