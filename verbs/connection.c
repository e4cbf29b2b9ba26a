/* Connections: sockets in a table by their descriptors, watched by a loop. One is under the manager's lock until it has a queue pair,
 * and under the lock of that one's domain from then on. */
#include "calls.h"

#include <sys/epoll.h>
#include <sys/socket.h>
#include <time.h>

void must(int32_t code, const char *call) {
    if (code == IWARP_OK) return;
    fprintf(stderr, "iwarp-verbs: %s: %s\n", call, iwarp_text(code));
    abort();
}

long long now_ms(void) {
    struct timespec now;
    clock_gettime(CLOCK_MONOTONIC, &now);
    return now.tv_sec * 1000LL + now.tv_nsec / 1000000;
}

/* ---- the table */

/* Locked: the table. */
static int table_grow(int fd) {
    size_t room = context.by_fd_room ? context.by_fd_room : 64;
    while (room <= (size_t)fd) room *= 2;
    if (room == context.by_fd_room) return 0;
    struct connection **by_fd = realloc(context.by_fd, room * sizeof *by_fd);
    if (!by_fd) return -1;
    memset(by_fd + context.by_fd_room, 0, (room - context.by_fd_room) * sizeof *by_fd);
    context.by_fd = by_fd;
    context.by_fd_room = room;
    return 0;
}

static int table_enter(struct connection *c) {
    pthread_mutex_lock(&context.table);
    int code = table_grow(c->fd);
    if (code == 0) {
        c->generation = ++context.generations;
        context.by_fd[c->fd] = c;
    }
    pthread_mutex_unlock(&context.table);
    return code;
}

static int watch(struct connection *c, int operation, uint32_t interest) {
    struct epoll_event event = {.events = interest, .data.u64 = (uint64_t)c->generation << 32 | (uint32_t)c->fd};
    c->interest = interest;
    return epoll_ctl(c->loop->epoll_fd, operation, c->fd, &event);
}

/* A connection over a socket, which is closed if there is no memory for it. */
struct connection *connection_new(int fd, enum connection_state state, struct loop *loop, uint32_t interest) {
    struct connection *c = calloc(1, sizeof *c);
    if (c) {
        c->fd = fd;
        c->state = state;
        c->loop = loop;
        c->layer = LAYER_NONE;
        atomic_init(&c->references, 1);
        atomic_init(&c->lock, &context.manager);
    }
    if (c && table_enter(c) == 0 && watch(c, EPOLL_CTL_ADD, interest) == 0) return c;
    if (c && c->generation) {
        pthread_mutex_lock(&context.table);
        context.by_fd[fd] = NULL;
        pthread_mutex_unlock(&context.table);
    }
    close(fd);
    free(c);
    return none(ENOMEM);
}

/* What it watches for is kept if there is no memory for more. */
void connection_watch(struct connection *c, uint32_t interest) {
    if (c->interest == interest) return;
    if (interest == 0) epoll_ctl(c->loop->epoll_fd, EPOLL_CTL_DEL, c->fd, NULL);
    else if (watch(c, c->interest ? EPOLL_CTL_MOD : EPOLL_CTL_ADD, interest) < 0) LOG("epoll_ctl: %s\n", strerror(errno));
    c->interest = interest;
}

/* ---- locks and lives */

void connection_lock(struct connection *c) {
    for (;;) {
        pthread_mutex_t *lock = atomic_load(&c->lock);
        pthread_mutex_lock(lock);
        if (atomic_load(&c->lock) == lock) return;
        pthread_mutex_unlock(lock);
    }
}

void connection_unlock(struct connection *c) {
    pthread_mutex_unlock(atomic_load(&c->lock));
}

void connection_release(struct connection *c) {
    if (atomic_fetch_sub(&c->references, 1) != 1) return;
    struct domain *domain = c->domain;
    free(c);
    if (domain) domain_release(domain);
}

/* Sets by when something has to have happened (connection_overdue). */
void connection_within(struct connection *c, long long ms) {
    long long deadline = ms ? now_ms() + ms : 0, before = atomic_exchange(&c->deadline, deadline);
    if (!before && deadline) {
        atomic_fetch_add(&c->loop->timed, 1);
        loop_wake(c->loop);
    } else if (before && !deadline) {
        atomic_fetch_sub(&c->loop->timed, 1);
    }
}

void connection_retry(struct connection *c) {
    c->starved = 1;
    if (!atomic_load(&c->deadline)) connection_within(c, RETRY_MS);
}

void connection_close(struct connection *c) {
    if (c->state == CLOSED) return;
    c->state = CLOSED;
    connection_within(c, 0);
    pthread_mutex_lock(&context.table);
    context.by_fd[c->fd] = NULL;
    pthread_mutex_unlock(&context.table);
    if (c->counted_by) c->counted_by->unasked--;
    c->counted_by = NULL;
    connection_watch(c, 0);
    close(c->fd);
    connection_release(c);
}
