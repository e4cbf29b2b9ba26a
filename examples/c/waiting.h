/* Waiting for a peer of a stream of loop.h, which may be gone: it is never waited for without end. */
#ifndef WAITING_H
#define WAITING_H

#include "host.h"
#include "loop.h"

enum {
    PATIENCE = 60, /* after so many seconds in which nothing is heard of a peer it is given up */
    PAUSE = 300 /* milliseconds */
};

/* A client that Linux's siw may serve pauses at IWARP_OPENED: what comes right behind the Reply may lie unread there
 * (docs/PEERS.md). */
static inline void pause_for_siw(void) { poll(0, 0, PAUSE); }

/* Writes how far a stream is, whose peer is given up: `it is open` and so on. Returns the text. */
static inline const char *progress_text(struct carried *carried, char *text, size_t n) {
    static const char *const lives[] = {"starting", "open", "ended"};
    struct iwarp_progress progress = {0};
    uint32_t life = 0;
    uint8_t *at;
    size_t left = 0;
    if (iwarp_state(carried->end, carried->stream, &life) != IWARP_OK || life > IWARP_STATE_ENDED ||
        iwarp_progress(carried->end, carried->stream, &progress) != IWARP_OK ||
        iwarp_buffer_at(&carried->frames, &at, &left) != IWARP_OK)
        return "it is closed";
    snprintf(text, n,
             "it is %s; %llu octets were emitted, of which %llu are not written, the next frame has %llu, and %llu have come and "
             "had their turn",
             lives[life], (unsigned long long)progress.sent, (unsigned long long)left, (unsigned long long)progress.due,
             (unsigned long long)progress.in_order);
    return text;
}

/* Prints how far a stream is, whose peer is given up. */
static inline void tell_progress(struct carried *carried) {
    char text[300];
    printf("stream %u: nothing was heard for %d s; %s\n", (unsigned)carried->stream, PATIENCE,
           progress_text(carried, text, sizeof text));
}

/* A turn of a program that has one stream: writes what is due, waits until octets come or the socket takes some, and reads.
 * `*heard` is when something was heard of the peer. Returns TURN_DONE if the connection goes on, and TURN_BROKEN too if the peer
 * is given up. What it sends once the output is shut down keeps the connection no longer open. */
static inline enum turn wait_and_go_on(struct carried *carried, int64_t *heard) {
    enum turn turn = is_writable(carried);
    if (turn != TURN_DONE && turn != TURN_LEFT) return turn;
    struct pollfd ready = {.fd = carried->fd, .events = (short)(turn == TURN_LEFT ? POLLIN | POLLOUT : POLLIN)};
    int64_t left = *heard + PATIENCE - seconds();
    int n = left <= 0 ? 0 : poll(&ready, 1, (int)left * 1000);
    if (n < 0) return is_for_later(errno) ? TURN_DONE : TURN_BROKEN;
    if (n == 0) {
        tell_progress(carried);
        return TURN_BROKEN;
    }
    if (!carried->ended) *heard = seconds();
    return (ready.revents & ~POLLOUT) ? is_readable(carried) : TURN_DONE;
}

#endif
