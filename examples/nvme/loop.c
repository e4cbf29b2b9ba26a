/* An event loop: connections, what they can read and write, jobs that are done, and times that are over. */
#include "target.h"

enum { MOST_EVENTS = 64, MOST_ACCEPTS = 64, LOOK_MS = 200, LATE_MS = 1000, REST_MS = 500, DRAIN_MS = 2000 };
enum { PROBES = 3, LONGEST_KEEPALIVE = 32767 }; /* the system's limit, in seconds */

static int watch(struct loop *loop, int fd, void *as) {
    struct epoll_event event = {.events = EPOLLIN, .data.ptr = as};
    return epoll_ctl(loop->epoll, EPOLL_CTL_ADD, fd, &event) == 0;
}

void loop_wake(struct loop *loop) {
    uint64_t one = 1;
    (void)!write(loop->wake, &one, sizeof one);
}

/* ---- connections */

static void set_seconds(int fd, int option, uint64_t ms) {
    int seconds = ms < 1000 ? 1 : ms / 1000 > LONGEST_KEEPALIVE ? LONGEST_KEEPALIVE : (int)(ms / 1000);
    setsockopt(fd, IPPROTO_TCP, option, &seconds, sizeof seconds);
}

/* A host that is gone without a word has its connection ended by the system, as one that takes nothing has by look_at_times. */
static void set_options(const struct target *target, int fd) {
    uint64_t ms = target->options.stall_ms;
    unsigned most_ms = (unsigned)ms;
    int one = 1, probes = PROBES;
    setsockopt(fd, IPPROTO_TCP, TCP_NODELAY, &one, sizeof one);
    setsockopt(fd, SOL_SOCKET, SO_KEEPALIVE, &one, sizeof one);
    set_seconds(fd, TCP_KEEPIDLE, ms / 2);
    set_seconds(fd, TCP_KEEPINTVL, ms / 2 / PROBES);
    setsockopt(fd, IPPROTO_TCP, TCP_KEEPCNT, &probes, sizeof probes);
    setsockopt(fd, IPPROTO_TCP, TCP_USER_TIMEOUT, &most_ms, sizeof most_ms);
}

/* The listener is readable all the while that the system has no descriptor for a connection, so it is not watched for a moment. */
static void rest(struct loop *loop) {
    epoll_ctl(loop->epoll, EPOLL_CTL_DEL, loop->target->listener, 0);
    loop->target->rests_until = loop->now + REST_MS;
}

int loop_watch_listener(struct loop *loop) {
    return watch(loop, loop->target->listener, &loop->target->listener);
}

static void end_rest(struct loop *loop) {
    struct target *target = loop->target;
    if (target->rests_until == 0 || loop->now < target->rests_until || target->ends) return;
    target->rests_until = loop_watch_listener(loop) ? 0 : loop->now + REST_MS;
}

/* Hands a connection to the loop that is to have it. */
static void hand(struct target *target, int fd, uint32_t address) {
    set_options(target, fd);
    struct queue *queue = queue_new(target, fd);
    if (queue && place_take(queue, address)) return;
    say(target, "a connection was refused: there is no memory for more");
    close(fd);
    free(queue);
}

/* A connection gave way to another, and has its memory still. */
static int is_late(struct target *target) {
    return target->options.most_queues > 0 && place_count(&target->places) > target->options.most_queues;
}

/* Takes what has connected, but no more than some, so that others have their turn. */
static void accept_some(struct loop *loop) {
    struct target *target = loop->target;
    struct sockaddr_in from;
    socklen_t n = sizeof from;
    for (int i = 0; i < MOST_ACCEPTS && !is_late(target); i++) {
        int fd = accept4(target->listener, (struct sockaddr *)&from, &n, SOCK_NONBLOCK | SOCK_CLOEXEC);
        if (fd >= 0) {
            hand(target, fd, from.sin_addr.s_addr);
        } else if (errno == EMFILE || errno == ENFILE || errno == ENOBUFS || errno == ENOMEM) {
            rest(loop);
            return;
        } else if (errno == EAGAIN) {
            return;
        }
    }
}

static struct queue *next_handed(struct loop *loop) {
    struct places *places = &loop->target->places;
    pthread_mutex_lock(&places->lock);
    struct queue *queue = loop->handed;
    if (queue) loop->handed = queue->next;
    pthread_mutex_unlock(&places->lock);
    return queue;
}

/* Begins the connections that were handed over, and closes the queues that end. */
static void take_handed(struct loop *loop) {
    for (struct queue *it; (it = next_handed(loop));)
        if (queue_open(it) && !watch(loop, it->fd, it)) queue_close(it);
    if (!loop->has_ends) return;
    loop->has_ends = 0;
    for (struct queue *it = loop->queues; it; it = it->next)
        if (it->ends) queue_close(it);
}

static void sweep(struct loop *loop) {
    loop->sweep = 0;
    for (struct queue *it = loop->queues, *next; it; it = next) {
        next = it->next;
        if (it->state != CLOSED) continue;
        if (it->jobs == 0)
            queue_free(it);
        else
            loop->sweep = 1; /* a worker has a command of it */
    }
}

/* ---- times */

/* Whether a connection has had its time. */
static int is_over(const struct queue *queue) {
    const struct options *options = &queue->target->options;
    uint64_t now = queue->loop->now, in_state = now - queue->since;
    switch (queue->state) {
    case AWAITS_REQUEST:
    case AWAITS_CONNECT:
        return in_state > options->start_ms;
    case DRAINS:
        return in_state > DRAIN_MS;
    case CONNECTED:
        return queue->blocked && now - queue->moved > options->stall_ms;
    case CLOSED:
        break;
    }
    return 0;
}

/* Whether commands wait for memory, perhaps with nothing under way that would have them go on. */
static int waits(const struct queue *queue) {
    return queue->state != CLOSED && (queue->reading.first || queue->fetching.first);
}

/* The controller whose admin queue this is; or null. */
static struct controller *administered(const struct queue *queue) {
    return queue->id == 0 ? queue->controller : 0;
}

static void look_at_times(struct loop *loop) {
    loop->looked = loop->now;
    if (loop == loop->target->loops) end_rest(loop);
    for (struct queue *it = loop->queues; it; it = it->next) {
        if (is_over(it))
            queue_close(it);
        else if (waits(it))
            queue_run(it);
        struct controller *controller = administered(it);
        if (!controller || !controller_is_silent(controller)) continue;
        say(loop->target, "controller %d: no keep alive", it->controller_id);
        controller_close(controller);
    }
}

/* ---- the loop */

/* All that is done is answered before a queue goes on, and takes commands that are done at once: so these are answered later. */
static void take_jobs(struct loop *loop) {
    struct queue *woken = 0;
    for (struct job *job = store_done(&loop->target->store, &loop->finished); job; job = job->next) {
        struct queue *queue = queue_of_job(job);
        command_stored(job);
        if (!queue->is_woken) {
            queue->is_woken = 1;
            queue->next_woken = woken;
            woken = queue;
        }
    }
    for (struct queue *it = woken; it; it = it->next_woken) {
        it->is_woken = 0;
        queue_run(it);
    }
}

/* The store has failed: hosts that asked for events are told. */
static void tell_failure(struct loop *loop) {
    loop->told_failure = 1;
    for (struct queue *it = loop->queues; it; it = it->next) {
        if (!administered(it)) continue;
        events_tell(it->controller);
        queue_run(it);
    }
}

/* Takes no more connections and commands. */
static void begin_end(struct loop *loop) {
    loop->ends_at = loop->now + loop->target->options.stall_ms;
    if (loop == loop->target->loops) close(loop->target->listener);
}

static void take_wake(struct loop *loop) {
    uint64_t count;
    (void)!read(loop->wake, &count, sizeof count);
    take_jobs(loop);
    take_handed(loop);
}

/* A queue that has more to send takes no commands before that is sent, so that they come in lots: its event comes again. */
static void take_event(struct loop *loop, const struct epoll_event *event) {
    struct queue *queue = event->data.ptr;
    if (event->data.ptr == &loop->target->listener) {
        if (!loop->ends_at) accept_some(loop);
    } else if (event->data.ptr == &loop->wake) {
        take_wake(loop);
    } else if (queue->state != CLOSED && !queue->again) {
        if (event->events & ~(uint32_t)EPOLLOUT)
            queue_readable(queue);
        else
            queue_run(queue);
    }
}

/* Has those go on that had more to send than a turn allows. */
static void send_again(struct loop *loop) {
    loop->again = 0;
    for (struct queue *it = loop->queues; it; it = it->next) {
        if (!it->again || it->state == CLOSED) continue;
        it->again = 0;
        queue_run(it);
    }
}

/* Tells the time. A loop that had no turn for long, as the process was stopped, first hears hosts that have spoken meanwhile: it
 * judges none before it has read from all, and the time without a turn does not count. */
static void tell_time(struct loop *loop, int is_timed) {
    uint64_t at = now_ms(), passed = at - loop->woke;
    int is_late = is_timed && passed > LATE_MS;
    loop->woke = at;
    loop->now += is_late ? LOOK_MS : passed;
    loop->turns++;
    if (is_late) loop->unread = loop->queue_count / MOST_EVENTS + 2;
}

static int turn(struct loop *loop, int most_ms) {
    struct epoll_event events[MOST_EVENTS];
    struct target *target = loop->target;
    int is_timed = loop->queues || (loop == target->loops && target->rests_until);
    if (is_timed && (most_ms < 0 || most_ms > LOOK_MS)) most_ms = LOOK_MS;
    if (loop->again) most_ms = 0;
    int n = epoll_wait(loop->epoll, events, MOST_EVENTS, most_ms);
    if (n < 0 && errno != EINTR) return 0;
    tell_time(loop, is_timed);
    if (target->ends && !loop->ends_at) begin_end(loop);
    if (loop->again) send_again(loop);
    for (int i = 0; i < n; i++) take_event(loop, &events[i]);
    if (target->store.failed && !loop->told_failure) tell_failure(loop);
    if (loop->unread > 0)
        loop->unread -= n >= 0;
    else if (loop->now - loop->looked >= LOOK_MS)
        look_at_times(loop);
    for (struct queue *it = loop->ends_at ? loop->queues : 0; it; it = it->next) queue_finish(it);
    if (loop->sweep) sweep(loop);
    return 1;
}

/* A quarter of the time is left to the store, for what is not answered by then. */
int loop_turn(struct loop *loop, int most_ms) {
    uint64_t until = loop->ends_at - loop->target->options.stall_ms / 4;
    return turn(loop, most_ms) && (!loop->ends_at || (loop->queues && loop->now < until));
}

int loop_open(struct loop *loop, struct target *target) {
    loop->target = target;
    loop->now = loop->looked = loop->woke = now_ms();
    loop->epoll = epoll_create1(EPOLL_CLOEXEC);
    loop->wake = loop->finished.told = eventfd(0, EFD_NONBLOCK | EFD_CLOEXEC);
    if (loop->epoll < 0 || loop->wake < 0 || !watch(loop, loop->wake, &loop->wake)) return 0;
    errno = ENOMEM;
    return endpoint_handle(&loop->handle, MOST_DOMAINS) == IWARP_OK;
}

int loop_drain(struct loop *loop, int most_ms) {
    take_handed(loop);
    for (struct queue *it = loop->queues; it; it = it->next) queue_close(it);
    turn(loop, most_ms);
    return loop->queues != 0;
}

void loop_close(struct loop *loop) {
    close(loop->epoll);
    close(loop->wake);
    iwarp_free(&loop->handle);
}
