/* Loops: each has an epoll and a thread. A domain's connections are in one loop. A program that polls makes turns of it itself. */
#include "calls.h"

#include <signal.h>
#include <sys/epoll.h>
#include <sys/eventfd.h>
#include <time.h>

enum { EVENTS = 64, POLLED_EVENTS = 16, TICK_MS = 50, STANDS_BACK_NS = 100000, AT_EXIT_MS = 2000 };
static const uint64_t WAKE = UINT64_MAX;

static struct connection *connection_at(uint64_t data) {
    uint32_t fd = (uint32_t)data;
    pthread_mutex_lock(&context.table);
    struct connection *c = fd < context.by_fd_room ? context.by_fd[fd] : NULL;
    if (c && c->generation != data >> 32) c = NULL;
    if (c) atomic_fetch_add(&c->references, 1);
    pthread_mutex_unlock(&context.table);
    return c;
}

/* ---- turns */

static void connection_turn(struct connection *c, uint32_t ready) {
    switch (c->state) {
    case LISTENING:
        listener_turn(c);
        break;
    case CONNECTING:
        connecting_turn(c);
        break;
    case ASKING:
        request_turn(c);
        break;
    case ASKED: /* the peer gave up before it was answered */
        connection_watch(c, 0);
        break;
    case STREAMING:
        if (!c->stalled && (ready & (EPOLLIN | EPOLLHUP | EPOLLERR))) stream_read(c);
        else if (ready & EPOLLOUT) stream_pump(c);
        else connection_watch(c, 0); /* the socket has failed: what came before is read once there is a receive */
        break;
    case LINGERING:
        linger_turn(c);
        break;
    case CLOSED:
        break;
    }
}

/* What was to have happened by now has not. */
static void connection_overdue(struct connection *c) {
    connection_within(c, 0);
    switch (c->state) {
    case LISTENING: /* descriptors or memory had run out */
        connection_watch(c, EPOLLIN);
        break;
    case CONNECTING:
        if (c->again) connecting_again(c);
        else connecting_turn(c);
        break;
    case STREAMING:
        if (c->pausing) stream_opened(c);
        else if (c->closing || c->ended || !c->established) stream_end(c);
        else stream_read(c);
        break;
    case ASKING:
        lobby_leave(c);
        connection_close(c);
        break;
    case LINGERING:
        connection_close(c);
        break;
    default:
        break;
    }
}

/* The manager's lock is over what becomes a queue pair's connection; a program's turn waits for nothing. */
static void turn_at(uint64_t data, uint32_t ready, int waits) {
    struct connection *c = connection_at(data);
    if (!c) return;
    pthread_mutex_t *lock = atomic_load(&c->lock);
    if (waits) connection_lock(c);
    else if (pthread_mutex_trylock(lock) != 0) lock = NULL;
    else if (atomic_load(&c->lock) != lock) {
        pthread_mutex_unlock(lock);
        lock = NULL;
    }
    if (lock) {
        lock = atomic_load(&c->lock);
        connection_turn(c, ready);
        pthread_mutex_unlock(lock);
    }
    connection_release(c);
}

static void turns(const struct epoll_event *events, int n, int waits) {
    for (int i = 0; i < n; i++)
        if (events[i].data.u64 != WAKE) turn_at(events[i].data.u64, events[i].events, waits);
}

/* Those of a loop whose deadline has passed. */
static void overdue_turns(struct loop *loop) {
    struct connection *late[EVENTS];
    int n = 0;
    long long now = now_ms();
    pthread_mutex_lock(&context.table);
    for (size_t i = 0; i < context.by_fd_room && n < EVENTS; i++) {
        struct connection *c = context.by_fd[i];
        long long deadline = c ? atomic_load(&c->deadline) : 0;
        if (!deadline || deadline > now || c->loop != loop) continue;
        atomic_fetch_add(&c->references, 1);
        late[n++] = c;
    }
    pthread_mutex_unlock(&context.table);
    for (int i = 0; i < n; i++) {
        connection_lock(late[i]);
        pthread_mutex_t *lock = atomic_load(&late[i]->lock);
        long long deadline = atomic_load(&late[i]->deadline);
        if (deadline && deadline <= now) connection_overdue(late[i]);
        pthread_mutex_unlock(lock);
        connection_release(late[i]);
    }
}

void loop_poll(struct loop *loop) {
    struct epoll_event events[POLLED_EVENTS];
    atomic_fetch_add_explicit(&loop->turns_of_polls, 1, memory_order_relaxed);
    turns(events, epoll_wait(loop->epoll_fd, events, POLLED_EVENTS, 0), 0);
}

static void empty(int wake_fd) {
    uint64_t n;
    while (read(wake_fd, &n, sizeof n) > 0) {}
}

/* While the program polls, the thread stands back. */
static void *run(void *own) {
    struct loop *loop = own;
    struct epoll_event events[EVENTS];
    unsigned polls = 0;
    for (;;) {
        int n = epoll_wait(loop->epoll_fd, events, EVENTS, atomic_load(&loop->timed) ? TICK_MS : -1);
        if (n < 0 && errno != EINTR) return NULL; /* the program has closed descriptors that are not its own */
        unsigned now = atomic_load_explicit(&loop->turns_of_polls, memory_order_relaxed);
        if (now != polls) {
            struct timespec pause = {0, STANDS_BACK_NS};
            polls = now;
            nanosleep(&pause, NULL);
        } else {
            turns(events, n, 1);
        }
        for (int i = 0; i < n; i++)
            if (events[i].data.u64 == WAKE) empty(loop->wake_fd);
        if (atomic_load(&loop->timed)) overdue_turns(loop);
    }
    return NULL;
}

void loop_wake(struct loop *loop) {
    uint64_t one = 1;
    if (write(loop->wake_fd, &one, sizeof one) < 0) LOG("a loop is not woken\n");
}

/* ---- beginnings */

static int loop_run(struct loop *loop) {
    struct epoll_event wake = {.events = EPOLLIN, .data.u64 = WAKE};
    sigset_t all, old;
    loop->epoll_fd = epoll_create1(EPOLL_CLOEXEC);
    loop->wake_fd = eventfd(0, EFD_CLOEXEC | EFD_NONBLOCK);
    if (loop->epoll_fd < 0 || loop->wake_fd < 0) return -1;
    sigfillset(&all);
    pthread_sigmask(SIG_SETMASK, &all, &old);
    int code = epoll_ctl(loop->epoll_fd, EPOLL_CTL_ADD, loop->wake_fd, &wake);
    if (code == 0) code = pthread_create(&loop->thread, NULL, run, loop);
    pthread_sigmask(SIG_SETMASK, &old, NULL);
    if (code) return -1;
    pthread_detach(loop->thread);
    loop->runs = 1;
    return 0;
}

static struct loop *loop_at(unsigned i) {
    struct loop *loop = &context.loops[i];
    return loop->runs || loop_run(loop) == 0 ? loop : NULL;
}

/* Each domain is in the next one. */
struct loop *loop_of_domain(void) {
    pthread_mutex_lock(&context.table);
    struct loop *loop = loop_at(context.next_loop);
    if (loop) context.next_loop = (context.next_loop + 1) % (unsigned)context.settings.threads;
    pthread_mutex_unlock(&context.table);
    return loop;
}

struct loop *loop_of_manager(void) {
    pthread_mutex_lock(&context.table);
    struct loop *loop = loop_at(0);
    pthread_mutex_unlock(&context.table);
    return loop;
}

static void before_fork(void) {
    pthread_mutex_lock(&context.manager);
    pthread_mutex_lock(&context.telling);
    pthread_mutex_lock(&context.events);
    pthread_mutex_lock(&context.table);
}

static void after_fork(void) {
    pthread_mutex_unlock(&context.table);
    pthread_mutex_unlock(&context.events);
    pthread_mutex_unlock(&context.telling);
    pthread_mutex_unlock(&context.manager);
}

/* A forked child has none of the threads: it begins anew, uses nothing of its parent's, and keeps none of its sockets open. */
static void in_child(void) {
    for (size_t i = 0; i < context.by_fd_room; i++) {
        if (context.by_fd[i]) close(context.by_fd[i]->fd);
        context.by_fd[i] = NULL;
    }
    for (int i = 0; i < MOST_THREADS; i++) {
        if (context.loops[i].runs) {
            close(context.loops[i].epoll_fd);
            close(context.loops[i].wake_fd);
        }
        context.loops[i] = (struct loop){0};
    }
    context.lobby = (struct iwarp)IWARP_CLOSED;
    context.default_pd = NULL;
    context.pairs = NULL;
    context.first_notice = NULL;
    context.last_notice = &context.first_notice;
    after_fork();
}

__attribute__((constructor)) static void begin(void) {
    settings_read(&context.settings);
    device_begin();
    pthread_atfork(before_fork, after_fork, in_child);
}

/* ---- the end */

static int is_unwritten(int fd) {
    pthread_mutex_lock(&context.table);
    struct connection *c = (size_t)fd < context.by_fd_room ? context.by_fd[fd] : NULL;
    if (c) atomic_fetch_add(&c->references, 1);
    pthread_mutex_unlock(&context.table);
    if (!c) return 0;
    connection_lock(c);
    int unwritten = (c->state == LINGERING || c->state == STREAMING) && c->left;
    connection_unlock(c);
    connection_release(c);
    return unwritten;
}

/* What was completed is written out before the process ends, if the peers take it. */
__attribute__((destructor)) static void end(void) {
    struct timespec pause = {0, 1000000};
    for (long long until = now_ms() + AT_EXIT_MS; now_ms() < until; nanosleep(&pause, NULL)) {
        int unwritten = 0;
        pthread_mutex_lock(&context.table);
        int room = (int)context.by_fd_room;
        pthread_mutex_unlock(&context.table);
        for (int fd = 0; fd < room && !unwritten; fd++) unwritten = is_unwritten(fd);
        if (!unwritten) return;
    }
}
