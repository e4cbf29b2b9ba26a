/* Connections before they have a stream of their queue pair: those that listen, those whose Request is read, in the lobby's streams,
 * and those that this end begins. */
#include "calls.h"

#include <netinet/in.h>
#include <netinet/tcp.h>
#include <sys/epoll.h>
#include <sys/socket.h>

/* ---- the lobby */

static int32_t lobby_make(void) {
    if (context.lobby.at) return IWARP_OK;
    int32_t code = iwarp_new(&context.lobby);
    if (code == IWARP_OK) code = iwarp_add_domain(&context.lobby, DOMAIN);
    if (code != IWARP_OK) iwarp_free(&context.lobby);
    return code;
}

static int lobby_open(struct connection *c) {
    uint32_t options = IWARP_ENHANCED | (context.settings.crc ? IWARP_CRC : 0);
    int32_t code = lobby_make();
    if (code == IWARP_OK)
        code = iwarp_open_next(&context.lobby, DOMAIN, IWARP_RESPONDER, options, iwarp_octets(NULL), 0, &c->stream);
    if (code != IWARP_OK) return -1;
    c->handle = &context.lobby;
    c->has_stream = 1;
    return 0;
}

void lobby_leave(struct connection *c) {
    struct iwarp_event event;
    if (!c->has_stream) return;
    must(iwarp_break(&context.lobby, c->stream), "iwarp_break");
    do must(iwarp_work_on(&context.lobby, c->stream, &event), "iwarp_work_on");
    while (event.kind != IWARP_IDLE);
    must(iwarp_close(&context.lobby, c->stream), "iwarp_close");
    c->has_stream = 0;
}

/* ---- who listens */

/* Descriptors or memory ran out: later. */
static void listen_later(struct connection *listener) {
    connection_watch(listener, 0);
    connection_within(listener, RETRY_MS);
}

void listener_turn(struct connection *listener) {
    int one = 1, fd = accept4(listener->fd, NULL, NULL, SOCK_NONBLOCK | SOCK_CLOEXEC);
    if (fd < 0) {
        if (errno == EMFILE || errno == ENFILE || errno == ENOBUFS || errno == ENOMEM) listen_later(listener);
        return;
    }
    if (listener->unasked == MOST_UNASKED) {
        close(fd);
        return;
    }
    setsockopt(fd, IPPROTO_TCP, TCP_NODELAY, &one, sizeof one);
    struct connection *c = connection_new(fd, ASKING, listener->loop, EPOLLIN);
    if (!c) {
        listen_later(listener);
        return;
    }
    c->listener = listener->id;
    c->raw = listener->raw;
    c->counted_by = listener;
    listener->unasked++;
    connection_within(c, START_MS);
    if (lobby_open(c) < 0) connection_close(c);
}

/* A listener goes: those whose Request has not come go too. (They are the manager's, as long as they have no queue pair.) */
static struct connection *one_unasked(struct identifier *listener, struct pair *raw) {
    struct connection *found = NULL;
    pthread_mutex_lock(&context.table);
    for (size_t i = 0; i < context.by_fd_room && !found; i++) {
        struct connection *c = context.by_fd[i];
        if (c && c->state == ASKING && c->listener == listener && c->raw == raw) found = c;
    }
    pthread_mutex_unlock(&context.table);
    return found;
}

void listener_forget(struct connection *listener) {
    for (struct connection *c; (c = one_unasked(listener->id, listener->raw));) {
        lobby_leave(c);
        connection_close(c);
    }
}

/* ---- Requests that come */

/* The Request is there: the program is asked. */
static void asked(struct connection *c) {
    c->state = ASKED;
    connection_within(c, 0);
    connection_watch(c, 0);
    if (c->counted_by) c->counted_by->unasked--;
    c->counted_by = NULL;
    if (c->raw) {
        raw_asked(c);
    } else if (identifier_asked(c) < 0) {
        LOG("a Request is dropped: there is no memory\n");
        lobby_leave(c);
        connection_close(c);
    }
}

/* Works at what came of the Request. 0: more is needed; 1: it is there; -1: it is none. */
static int judge(struct connection *c) {
    struct iwarp_event event;
    do {
        if (iwarp_work_on(&context.lobby, c->stream, &event) != IWARP_OK) return -1;
        if (event.kind == IWARP_FAULT || event.kind == IWARP_CLOSED_BY_PEER) return -1;
        if (event.kind == IWARP_ASKED) return 1;
    } while (event.kind != IWARP_IDLE);
    return c->requested == REQUEST_OCTETS ? -1 : 0;
}

/* Reads a Request, and keeps its octets: once the queue pair is known they are given to a stream in its domain. */
void request_turn(struct connection *c) {
    uint32_t kept;
    ssize_t n = recv(c->fd, c->request + c->requested, REQUEST_OCTETS - c->requested, MSG_DONTWAIT);
    if (n < 0 && (errno == EAGAIN || errno == EINTR)) return;
    int found = -1;
    if (n > 0 && iwarp_deliver(&context.lobby, c->stream, (uint32_t)c->requested, c->request + c->requested, (size_t)n, &kept) ==
                     IWARP_OK) {
        c->requested += (size_t)n;
        found = judge(c);
    }
    if (found == 1) {
        asked(c);
    } else if (found < 0) {
        LOG("a connection that is not iWARP's\n");
        lobby_leave(c);
        connection_close(c);
    }
}

/* Rejects a Request: the Reply is written, and then the connection lingers. */
int request_reject(struct connection *c, const void *private_data, size_t n) {
    struct iwarp_filling filling;
    if (c->state != ASKED) return failed(EINVAL);
    int32_t code = iwarp_buffer_new(0, &c->frames);
    if (code == IWARP_OK) code = iwarp_reject(c->handle, c->stream, iwarp_octets(private_data), n);
    if (code == IWARP_OK) code = iwarp_fill(c->handle, c->stream, 0, &c->frames, &filling);
    lobby_leave(c);
    c->told_end = 1;
    c->id = NULL;
    if (code != IWARP_OK) {
        iwarp_buffer_free(&c->frames);
        connection_close(c);
        return failed(ENOMEM);
    }
    c->state = LINGERING;
    connection_within(c, LINGER_MS);
    linger_turn(c);
    return 0;
}

/* ---- connections that this end begins */

static void connecting_failed(struct connection *c, int error) {
    c->told_end = 1;
    if (c->id) event_tell(event_spare(c->id, event_of(error), -error));
    connection_close(c);
}

/* Opens the stream of an identifier's connection. 0, or an errno. */
static int begin(struct connection *c) {
    struct identifier *id = c->id;
    struct pair *pair = identifier_pair(id, &id->param);
    if (!pair) return EINVAL;
    struct domain *domain = (struct domain *)pair->qp.qp_base.pd;
    pthread_mutex_lock(&domain->lock);
    int error = stream_open(c, pair, IWARP_INITIATOR, id->private_data, id->param.private_data_len) < 0 ? errno : 0;
    if (!error) {
        connection_within(c, ANSWER_MS);
        stream_pump(c);
    }
    pthread_mutex_unlock(&domain->lock);
    return error;
}

/* Linux takes another connect on a socket whose connect was refused; the first one tells that it was. */
void connecting_again(struct connection *c) {
    struct sockaddr *peer = &c->id->id.route.addr.dst_addr;
    socklen_t n = peer->sa_family == AF_INET6 ? sizeof(struct sockaddr_in6) : sizeof(struct sockaddr_in);
    c->again = 0;
    int code = connect(c->fd, peer, n);
    if (code < 0 && errno == ECONNABORTED) code = connect(c->fd, peer, n);
    if (code < 0 && errno != EINPROGRESS) {
        connecting_failed(c, errno);
        return;
    }
    connection_within(c, ANSWER_MS);
    connection_watch(c, EPOLLOUT);
}

/* Whether a connection that was refused is tried again later. */
static int tried_again(struct connection *c, int error) {
    if (error != ECONNREFUSED || !c->id || c->refusals++ == REFUSALS) return 0;
    c->again = 1;
    connection_watch(c, 0);
    connection_within(c, REFUSED_MS);
    return 1;
}

/* The socket is connected, or is not. */
void connecting_turn(struct connection *c) {
    int error = 0;
    socklen_t n = sizeof error;
    struct sockaddr_storage peer;
    socklen_t room = sizeof peer;
    getsockopt(c->fd, SOL_SOCKET, SO_ERROR, &error, &n);
    if (!error && getpeername(c->fd, (struct sockaddr *)&peer, &room) < 0) error = ETIMEDOUT;
    if (c->raw) {
        raw_connected(c, error);
        return;
    }
    if (!error) error = begin(c);
    if (error && !tried_again(c, error)) connecting_failed(c, error);
}
