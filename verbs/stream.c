/* A connection's stream: octets go between it and the socket, and what it reports becomes completions and events. */
#include "calls.h"

#include <sys/epoll.h>
#include <sys/socket.h>

enum { READ_OCTETS = 65536, READS_A_TURN = 16, WRITE_OCTETS = 262144, PUMPS_A_TURN = 64 };

/* ---- what the stream reports */

/* The first request that is handed back once the peer has named a fault tells why; the others are flushed. */
static enum ibv_wc_status why_flushed(struct connection *c) {
    struct pair *pair = c->pair;
    unsigned head = atomic_load_explicit(&pair->head, memory_order_relaxed);
    enum ibv_wr_opcode opcode = pair->sends[head & (pair->size - 1)].opcode;
    int sends = opcode == IBV_WR_SEND || opcode == IBV_WR_SEND_WITH_INV;
    uint32_t layer = c->layer, error = c->error;
    c->layer = LAYER_NONE;
    if (layer == IWARP_LAYER_RDMAP && error == IWARP_RDMAP_PROTECTION) return IBV_WC_REM_ACCESS_ERR;
    if (layer == IWARP_LAYER_DDP && error == IWARP_DDP_TAGGED && !sends) return IBV_WC_REM_ACCESS_ERR;
    if (layer == IWARP_LAYER_DDP && error == IWARP_DDP_UNTAGGED && sends) return IBV_WC_REM_INV_REQ_ERR;
    return IBV_WC_WR_FLUSH_ERR;
}

static void tell(struct connection *c, enum rdma_cm_event_type type, int status) {
    if (!c->id) return;
    struct event *event = event_spare(c->id, type, status);
    if (c->has_stream && type != RDMA_CM_EVENT_DISCONNECTED) event_describe(event, c);
    event_tell(event);
}

void stream_opened(struct connection *c) {
    c->pausing = 0;
    c->established = 1;
    connection_within(c, 0);
    c->pair->qp.qp_base.state = IBV_QPS_RTS;
    tell(c, RDMA_CM_EVENT_ESTABLISHED, 0);
    stream_pump(c);
}

/* The peer has accepted. For siw (docs/PEERS.md) what comes behind that may have to wait a while. */
static void opened(struct connection *c) {
    c->pausing = context.settings.pause_ms > 0;
    if (c->pausing) {
        connection_within(c, context.settings.pause_ms);
        return;
    }
    c->established = 1;
    connection_within(c, 0);
    c->pair->qp.qp_base.state = IBV_QPS_RTS;
    tell(c, RDMA_CM_EVENT_ESTABLISHED, 0);
}

static void refused(struct connection *c, uint32_t code) {
    c->ended = c->told_end = 1;
    tell(c, code == IWARP_REJECTED ? RDMA_CM_EVENT_REJECTED : RDMA_CM_EVENT_CONNECT_ERROR, -ECONNREFUSED);
}

static void faulted(struct connection *c, const struct iwarp_event *event) {
    c->ended = c->faulted = 1;
    c->layer = event->layer;
    c->error = event->error;
    c->code = event->code;
    LOG("%s: %s\n", event->kind == IWARP_FAULT ? "the peer's fault" : "the peer's Terminate",
        iwarp_fault_text(event->layer, event->error, event->code));
    if (event->kind == IWARP_FAULT && event->layer == IWARP_LAYER_DDP && event->error == IWARP_DDP_UNTAGGED &&
        event->code == IWARP_UNTAGGED_TOO_LONG)
        receive_too_short(c->pair);
}

static void act_on(struct connection *c, const struct iwarp_event *event) {
    switch (event->kind) {
    case IWARP_DONE:
        send_part_done(c->pair, IBV_WC_SUCCESS);
        break;
    case IWARP_FLUSHED:
        send_part_done(c->pair, why_flushed(c));
        break;
    case IWARP_RECEIVED:
        if (message_came(c->pair, event) < 0) c->failed = 1;
        break;
    case IWARP_OPENED:
        opened(c);
        break;
    case IWARP_CLOSED_BY_PEER:
        refused(c, event->code);
        break;
    case IWARP_TERMINATED:
    case IWARP_FAULT:
        faulted(c, event);
        break;
    }
}

/* Works until nothing is left, or no receive is there for the next message. -1: the connection is to end. */
static int work(struct connection *c, int ends) {
    struct iwarp_event event;
    do {
        c->stalled = !ends && !c->ended && receive_offer(c->pair) < 0;
        if (c->stalled) return 0;
        int32_t code = iwarp_work_on(c->handle, c->stream, &event);
        receive_withdraw(c->pair);
        if (code != IWARP_OK) {
            LOG("a stream cannot go on: %s\n", iwarp_text(code));
            return -1;
        }
        act_on(c, &event);
        if (c->failed && !ends) return -1;
    } while (event.kind != IWARP_IDLE);
    return 0;
}

/* ---- writing */

/* Appends what is due next, once the socket took all. */
static int fill(struct connection *c, uint8_t **at, size_t *n) {
    struct iwarp_filling filling;
    must(iwarp_buffer_truncate(&c->frames, 0), "iwarp_buffer_truncate");
    c->sent = 0;
    int32_t code = iwarp_fill(c->handle, c->stream, WRITE_OCTETS, &c->frames, &filling);
    if (code == IWARP_NO_MEMORY) connection_retry(c);
    if (code != IWARP_OK) return code == IWARP_NO_MEMORY ? 0 : -1;
    if (filling.kind == IWARP_FILL_DENIED) c->ended = 1;
    must(iwarp_buffer_at(&c->frames, at, n), "iwarp_buffer_at");
    return 0;
}

/* Writes what is due: sets `left` if the socket takes no more. -1: it is broken. (What a socket took is not dropped from the front,
 * which would move the rest each time.) */
static int write_frames(struct connection *c) {
    uint8_t *at;
    size_t n;
    c->left = 0;
    if (c->pausing) return 0;
    for (;;) {
        must(iwarp_buffer_at(&c->frames, &at, &n), "iwarp_buffer_at");
        if (n == c->sent) {
            if (!c->has_stream) return 0;
            n = 0;
            if (fill(c, &at, &n) < 0) return -1;
            if (n == 0) return 0;
        }
        ssize_t taken = send(c->fd, at + c->sent, n - c->sent, MSG_NOSIGNAL | MSG_DONTWAIT);
        if (taken < 0 && errno != EAGAIN && errno != EINTR) {
            c->broken = 1;
            return -1;
        }
        if (taken > 0) c->sent += (size_t)taken;
        c->left = c->sent < n;
        if (c->left) return 0;
    }
}

/* This end's output ends once all is written that the program posted before it disconnected; and behind a Terminate. */
static void end_output(struct connection *c) {
    struct pair *pair = c->pair;
    int drained = !pair || (pair->mid == pair->tail && pair->n_parts == 0);
    if (c->left || c->shut || !(c->ended || (c->closing && drained))) return;
    c->shut = 1;
    shutdown(c->fd, SHUT_WR);
    connection_within(c, LINGER_MS);
}

/* Posts and writes in turns, until nothing is due or the socket takes no more. -1: the connection is to end. */
static int pump(struct connection *c) {
    uint32_t wants = 1;
    c->starved = 0;
    if (sends_post(c->pair) < 0) return -1;
    for (int i = 0; i < PUMPS_A_TURN; i++) {
        if (write_frames(c) < 0 || work(c, 0) < 0 || c->failed) return -1;
        if (c->left || c->pausing) return 0;
        if (sends_post(c->pair) < 0) return -1;
        must(iwarp_wants_write(c->handle, c->stream, &wants), "iwarp_wants_write");
        if (!wants || c->starved) return 0;
    }
    c->left = 1; /* the others have their turn first */
    return 0;
}

void stream_pump(struct connection *c) {
    if (!c->has_stream) return;
    atomic_fetch_add(&c->references, 1);
    if (pump(c) < 0) {
        stream_end(c);
    } else {
        connection_watch(c, (c->stalled ? 0 : EPOLLIN) | (c->left ? EPOLLOUT : 0));
        if (c->ended) pair_flush(c->pair);
        end_output(c);
    }
    connection_release(c);
}

/* ---- reading */

/* Reads once. 1: there may be more; 0: not now; -1: the input has ended, or the stream is to. */
static int read_once(struct connection *c) {
    uint8_t *at;
    size_t room;
    int32_t code = iwarp_room(c->handle, c->stream, READ_OCTETS, &at, &room);
    if (code == IWARP_WINDOW_FULL) return work(c, 0) < 0 ? -1 : 1;
    if (code == IWARP_NO_MEMORY) {
        connection_retry(c);
        return 0;
    }
    if (code != IWARP_OK) return -1;
    ssize_t n = recv(c->fd, at, room, MSG_DONTWAIT);
    if (n < 0 && (errno == EAGAIN || errno == EINTR)) return 0;
    c->input_ended = n == 0;
    c->broken = n < 0;
    if (n <= 0) return -1;
    must(iwarp_came(c->handle, c->stream, (size_t)n), "iwarp_came");
    if (work(c, 0) < 0) return -1;
    return (size_t)n == room;
}

void stream_read(struct connection *c) {
    int more = 1;
    atomic_fetch_add(&c->references, 1);
    if (c->stalled && work(c, 0) < 0) more = -1;
    for (int i = 0; i < READS_A_TURN && more > 0 && !c->stalled; i++) more = read_once(c);
    if (more >= 0) {
        stream_pump(c);
    } else {
        if (!c->broken && c->input_ended) write_frames(c);
        stream_end(c);
    }
    connection_release(c);
}

/* ---- the end */

/* The stream hands back all, and goes. A Terminate, or a Reply that rejects, is still written. */
static void close_stream(struct connection *c) {
    struct iwarp_filling filling;
    if (c->ended && !c->broken && iwarp_fill(c->handle, c->stream, WRITE_OCTETS, &c->frames, &filling) != IWARP_OK)
        LOG("the last frame of a stream is not written\n");
    must(iwarp_break(c->handle, c->stream), "iwarp_break");
    c->ended = 1;
    while (work(c, 1) < 0) usleep(1000); /* memory ran out, which it does not where the peer sends no markers */
    must(iwarp_close(c->handle, c->stream), "iwarp_close");
    c->has_stream = 0;
}

static void leave_pair(struct connection *c) {
    struct pair *pair = c->pair;
    pair->connection = NULL;
    c->pair = NULL;
    pair_flush(pair);
}

static void tell_end(struct connection *c) {
    if (c->told_end) return;
    c->told_end = 1;
    if (c->established) tell(c, RDMA_CM_EVENT_DISCONNECTED, 0);
    else if (c->faulted) tell(c, RDMA_CM_EVENT_CONNECT_ERROR, -EPROTO);
    else if (c->broken || c->input_ended) tell(c, RDMA_CM_EVENT_REJECTED, -ECONNRESET);
    else tell(c, RDMA_CM_EVENT_UNREACHABLE, -ETIMEDOUT);
}

void stream_end(struct connection *c) {
    if (c->state == CLOSED || c->state == LINGERING) return;
    atomic_fetch_add(&c->references, 1);
    if (c->has_stream && c->state == STREAMING) close_stream(c);
    if (c->has_stream) lobby_leave(c);
    if (c->pair) leave_pair(c);
    if (c->state == STREAMING) tell_end(c);
    connection_within(c, 0);
    if (c->broken || c->state < STREAMING) {
        iwarp_buffer_free(&c->frames);
        connection_close(c);
    } else {
        c->state = LINGERING;
        connection_within(c, LINGER_MS);
        linger_turn(c);
    }
    connection_release(c);
}

/* What was reported as done is written out; then the peer may close. (With octets unread a close is a reset, which may overtake what
 * was sent.) */
void linger_turn(struct connection *c) {
    char rest[16384];
    ssize_t n = 1;
    int wrote = write_frames(c) == 0;
    if (wrote && !c->left && !c->shut) {
        c->shut = 1;
        shutdown(c->fd, SHUT_WR);
    }
    for (int i = 0; i < READS_A_TURN && n > 0; i++) n = recv(c->fd, rest, sizeof rest, MSG_DONTWAIT);
    int open = n > 0 || (n < 0 && (errno == EAGAIN || errno == EINTR));
    if (wrote && (c->left || open)) {
        connection_watch(c, (open ? EPOLLIN : 0) | (c->left ? EPOLLOUT : 0));
        return;
    }
    iwarp_buffer_free(&c->frames);
    connection_close(c);
}
