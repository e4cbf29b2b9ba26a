/* The loop of one stream over a socket that does not wait (docs/EMBEDDING-C.md). What a program does at the steps of its stream is
 * its own: it has a function `act_on`. No call of it waits, and none loses an octet, whatever is refused. */
#ifndef LOOP_H
#define LOOP_H

#include "sockets.h"

/* How many octets are read at a time: FIRST_READ, and four times as many after each read that filled what was asked for, up to
 * MOST_READ, which is 65,536 at most. An idle stream keeps memory for as many as it asked for. SHARED_READ is a dozen small frames. */
#ifndef MOST_READ
#define MOST_READ 65536
#endif
enum { FIRST_READ = MOST_READ < 4096 ? MOST_READ : 4096, SHARED_READ = 256 };

/* A stream, and the socket that carries it. */
struct carried {
    struct iwarp *end;
    uint32_t stream;
    int fd;
    size_t share; /* how many buffers of its domain's pool it may have bound at once; 0: as many as there are */
    unsigned steps; /* how many steps a turn does at most, so that no peer keeps the others waiting; 0: all that there are to do */
    struct iwarp_buffer frames; /* what was emitted, and the socket has not taken yet: made with 0 octets */
    size_t want; /* how many octets are asked for at the next read; 0: FIRST_READ */
    uint64_t written; /* how many octets the socket took */
    int more; /* the last turn did as many steps as it may, and left some */
    int asked; /* the peer's Request has come, and is not answered yet */
    int ended; /* by a fault: once all is written, the output is shut down; go on reading until the peer closes */
};

/* How a turn ends. */
enum turn {
    TURN_DONE, /* nothing is left to do before more comes or is posted */
    TURN_LEFT, /* something is left to write: make a turn when the socket is writable */
    TURN_MORE, /* only where `steps` is set: steps are left to do. Make a turn once others had theirs, whatever comes */
    TURN_CLOSED, /* the peer closed the connection */
    TURN_BROKEN, /* the connection is broken, or the stream has come too far */
    TURN_NO_MEMORY /* nothing is lost: make a turn again later */
};

/* What the program does at a step: at IWARP_ASKED it accepts, rejects, or sets `asked` until it does. */
static void act_on(struct carried *carried, const struct iwarp_event *event);

static enum turn refused(int32_t code) { return code == IWARP_NO_MEMORY ? TURN_NO_MEMORY : TURN_BROKEN; }

/* A read or a write that would wait, or was interrupted: nothing has changed. */
static int is_for_later(int error) { return error == EAGAIN || error == EINTR; }

/* Does a step. Without `steps`, or by a share, it does several: as many as need nothing done. */
static int32_t work_on(struct carried *carried, struct iwarp_event *event) {
    if (carried->share > 0) return iwarp_work_within(carried->end, carried->stream, carried->share, event);
    return (carried->steps > 0 ? iwarp_work : iwarp_work_on)(carried->end, carried->stream, event);
}

/* Does what there is to do, or as many steps as a turn may. */
static enum turn work(struct carried *carried) {
    struct iwarp_event event = {.kind = IWARP_DONE};
    unsigned steps = 0;
    do {
        int32_t code = work_on(carried, &event);
        if (code != IWARP_OK) return refused(code);
        act_on(carried, &event);
        carried->more = event.kind != IWARP_IDLE;
    } while (carried->more && ++steps != carried->steps);
    return carried->more ? TURN_MORE : TURN_DONE;
}

/* How many octets are asked for. By a share no call counts steps: where they are to be bounded, fewer octets are read at a time. */
static size_t octets_wanted(const struct carried *carried) {
    if (carried->share > 0 && carried->steps > 0) return SHARED_READ;
    return carried->want > 0 ? carried->want : FIRST_READ;
}

/* Call it when the socket is readable. */
static enum turn is_readable(struct carried *carried) {
    uint8_t *at;
    size_t room, want = octets_wanted(carried);
    if (carried->asked) return TURN_DONE; /* the window would fill, and nothing makes room before the Request is answered */
    if (carried->more) return work(carried);
    int32_t code = iwarp_room(carried->end, carried->stream, want, &at, &room);
    if (code == IWARP_WINDOW_FULL) return work(carried); /* memory ran out before: there is work left, which makes room */
    if (code != IWARP_OK) return refused(code);
    ssize_t n = recv(carried->fd, at, room, MSG_DONTWAIT);
    if (n == 0) return TURN_CLOSED;
    if (n < 0 && !is_for_later(errno)) return TURN_BROKEN;
    if (n > 0) code = iwarp_came(carried->end, carried->stream, (size_t)n);
    if (n == (ssize_t)want) carried->want = want < MOST_READ / 4 ? 4 * want : MOST_READ;
    return code == IWARP_OK ? work(carried) : refused(code);
}

/* Tells what is left to write. If nothing is, more is emitted first. */
static int32_t gather(struct carried *carried, uint8_t **at, size_t *n) {
    struct iwarp_filling filling;
    int32_t code = iwarp_buffer_at(&carried->frames, at, n);
    if (code != IWARP_OK || *n > 0) return code;
    code = iwarp_fill(carried->end, carried->stream, 65536, &carried->frames, &filling);
    if (code != IWARP_OK) return code;
    if (filling.kind == IWARP_FILL_DENIED) carried->ended = 1;
    return iwarp_buffer_at(&carried->frames, at, n);
}

/* Writes once. What the socket took is dropped, and the rest stays. */
static enum turn write_some(struct carried *carried) {
    uint8_t *at;
    size_t n;
    int32_t code = gather(carried, &at, &n);
    if (code != IWARP_OK) return refused(code);
    if (n == 0) return TURN_DONE;
    ssize_t taken = send(carried->fd, at, n, MSG_NOSIGNAL | MSG_DONTWAIT);
    if (taken < 0 && !is_for_later(errno)) return TURN_BROKEN;
    if (taken > 0) {
        carried->written += (uint64_t)taken;
        code = iwarp_buffer_drop_front(&carried->frames, (size_t)taken);
    }
    return code != IWARP_OK ? refused(code) : taken < (ssize_t)n ? TURN_LEFT : TURN_DONE;
}

/* Call it when the socket is writable and there may be something to write: after is_readable, after postings, after TURN_LEFT and
 * TURN_MORE. */
static enum turn is_writable(struct carried *carried) {
    uint32_t wants;
    enum turn turn = write_some(carried);
    if (turn != TURN_DONE) return turn;
    turn = work(carried); /* what was written may be done */
    if (turn != TURN_DONE) return turn;
    int32_t code = iwarp_wants_write(carried->end, carried->stream, &wants);
    if (code != IWARP_OK) return refused(code);
    if (wants) return TURN_LEFT;
    if (carried->ended) shutdown(carried->fd, SHUT_WR); /* the peer reads the Terminate, and then the end */
    return TURN_DONE;
}

/* Call it when the connection is closed, whichever end closed it: what was posted is handed back, and the stream is forgotten. It
 * takes no memory. */
static enum turn is_closed(struct carried *carried) {
    int32_t code = iwarp_break(carried->end, carried->stream);
    carried->steps = 0;
    enum turn turn = code == IWARP_OK ? work(carried) : refused(code);
    if (turn != TURN_DONE) return turn;
    iwarp_buffer_free(&carried->frames);
    code = iwarp_close(carried->end, carried->stream);
    return code == IWARP_OK ? TURN_DONE : refused(code);
}

#endif
