/* A queue: one connection, from its MPA Request to its end. */
#include "target.h"

/* Whether a connection is one of those of which there are at most MOST_STARTING: it serves no host, or no longer. */
int queue_is_starting(enum queue_state state) {
    return state == AWAITS_REQUEST || state == AWAITS_CONNECT || state == DRAINS;
}

void queue_enter(struct queue *queue, enum queue_state state) {
    place_enter(queue, state);
    queue->state = state;
    queue->since = queue->loop->now;
}

/* ---- a queue's memory */

/* Takes the queue's commands, for as many receive buffers, and posts these. Returns whether there was memory. */
static int make_commands(struct queue *queue, uint32_t count) {
    queue->commands = calloc(count, sizeof *queue->commands);
    if (!queue->commands) return 0;
    queue->commands_made = count;
    for (uint32_t i = 0; i < count; i++) {
        struct command *command = &queue->commands[i];
        command->queue = queue;
        command->next = queue->idle;
        queue->idle = command;
        if (iwarp_buffer_new(CAPSULE_OCTETS, &command->capsule) != IWARP_OK) return 0;
        if (endpoint_receive(&queue->endpoint, &command->capsule) != IWARP_OK) return 0;
    }
    return 1;
}

/* Frames have no more octets than a segment of TCP, as far as the library goes (RFC 5044 4.4 and 5.1). */
static uint32_t mulpdu_of(const struct target *target, int fd) {
    enum { FRAMING = 2 + 4 + 3 }; /* length, CRC and padding */
    int segment = 0;
    socklen_t n = sizeof segment;
    if (target->options.mulpdu) return target->options.mulpdu;
    if (getsockopt(fd, IPPROTO_TCP, TCP_MAXSEG, &segment, &n) != 0 || segment < LEAST_MULPDU + FRAMING) return LEAST_MULPDU;
    return segment - FRAMING > MOST_MULPDU ? MOST_MULPDU : (uint32_t)(segment - FRAMING);
}

/* A queue without a domain is rejected before it opens, so it may be in any. */
static int open_stream(struct queue *queue) {
    struct target *target = queue->target;
    static const uint8_t none = 0;
    struct opening opening = {IWARP_RESPONDER, target->options.options, mulpdu_of(target, queue->fd), &none, 0};
    int32_t code = endpoint_open(&queue->endpoint, &queue->loop->handle, queue->domain ? queue->domain : 1, &opening);
    if (code == IWARP_NUMBERS_SPENT && !atomic_exchange(&target->told_spent, 1))
        complain("all numbers of a loop's streams were given: it takes no connection until the target is started anew");
    return code == IWARP_OK;
}

struct queue *queue_new(struct target *target, int fd) {
    struct queue *queue = calloc(1, sizeof *queue);
    if (!queue) return 0;
    queue->target = target;
    queue->fd = fd;
    queue->state = AWAITS_REQUEST;
    queue->starting.last = &queue->starting.first;
    queue->reading.last = &queue->reading.first;
    queue->fetching.last = &queue->fetching.first;
    queue->answering.last = &queue->answering.first;
    return queue;
}

int queue_open(struct queue *queue) {
    struct loop *loop = queue->loop;
    queue->since = queue->moved = loop->now;
    queue->lane.finished = &loop->finished;
    queue->next = loop->queues;
    queue->link = &loop->queues;
    if (queue->next) queue->next->link = &queue->next;
    loop->queues = queue;
    loop->queue_count++;
    int is_open = open_stream(queue);
    if (!is_open) queue_close(queue);
    return is_open;
}

void queue_close(struct queue *queue) {
    struct controller *controller = queue->controller;
    if (queue->state == CLOSED) return;
    say(queue->target, "queue %d of controller %d: closed", queue->id, queue->controller_id);
    queue_enter(queue, CLOSED);
    queue->controller = 0;
    if (controller && queue->id > 0) controller_leave(controller, queue);
    close(queue->fd);
    commands_drop(queue);
    queue->loop->sweep = 1;
    if (controller && queue->id == 0) controller_close(controller);
}

void queue_end(struct queue *queue) {
    queue->ends = 1;
    queue->loop->has_ends = 1;
    loop_wake(queue->loop);
}

void queue_free(struct queue *queue) {
    for (uint32_t i = 0; i < queue->commands_made; i++) {
        iwarp_buffer_free(&queue->commands[i].capsule);
        iwarp_buffer_free(&queue->commands[i].buffer);
        if (queue->commands[i].sink) endpoint_drop(&queue->endpoint, queue->commands[i].sink);
    }
    for (uint32_t i = 0; i < queue->count; i++) iwarp_buffer_free(&queue->posted[(queue->first + i) % MOST_POSTED].written.buffer);
    command_free_spares(queue);
    *queue->link = queue->next;
    if (queue->next) queue->next->link = queue->link;
    queue->loop->queue_count--;
    endpoint_close(&queue->endpoint);
    free(queue->commands);
    place_leave(queue);
    free(queue);
}

/* ---- what the library tells */

static void reject(struct queue *queue, uint16_t why) {
    uint8_t answer[REJECT_OCTETS] = {0};
    set_field(answer + REJECT_STATUS, 2, why);
    if (endpoint_reject(&queue->endpoint, answer, sizeof answer) != IWARP_OK) queue_close(queue);
}

/* The MPA Request came: its private data tells how many commands the host sends at once. */
static void answer_request(struct queue *queue) {
    uint8_t asked[MOST_PRIVATE + 4], answer[PRIVATE_OCTETS] = {0};
    size_t n;
    if (endpoint_private(&queue->endpoint, asked, sizeof asked, &n) != IWARP_OK ||
        endpoint_reads(&queue->endpoint, &queue->most_reads) != IWARP_OK) {
        queue_close(queue);
        return;
    }
    if (n != PRIVATE_OCTETS) {
        reject(queue, REJECT_LENGTH);
        return;
    }
    uint32_t depth = (uint32_t)field(asked + PRIVATE_HSQSIZE, 2) + 1, receives = (uint32_t)field(asked + PRIVATE_HRQSIZE, 2);
    if (queue->domain == 0) {
        reject(queue, REJECT_NO_RESOURCES);
    } else if (field(asked + PRIVATE_RECFMT, 2) != 0) {
        reject(queue, REJECT_RECFMT);
    } else if (depth < 2 || depth > QUEUE_DEPTH) {
        reject(queue, REJECT_HSQSIZE);
    } else if (receives == 0) {
        reject(queue, REJECT_HRQSIZE);
    } else {
        queue->told_id = (uint16_t)field(asked + PRIVATE_QID, 2);
        queue->depth = (uint16_t)depth;
        set_field(answer + PRIVATE_CRQSIZE, 2, depth);
        if (make_commands(queue, depth + SPARE_COMMANDS) && endpoint_accept(&queue->endpoint, answer, sizeof answer) == IWARP_OK)
            queue_enter(queue, AWAITS_CONNECT);
        else
            queue_close(queue);
    }
}

/* A capsule came. There is an idle command, since there was a receive buffer. */
static void take_capsule(struct queue *queue) {
    struct command *command = queue->idle;
    size_t n;
    if (!command || endpoint_fetch(&queue->endpoint, &command->capsule, &n) != IWARP_OK) {
        queue_close(queue);
        return;
    }
    queue->idle = command->next;
    command_begin(command, n);
}

/* A Write is done: its octets come back into its buffer, which is kept. */
static void take_written(struct queue *queue, struct spare *written) {
    if (endpoint_fetch_sent(&queue->endpoint, &written->buffer) == IWARP_OK) {
        command_keep(queue, written);
    } else {
        iwarp_buffer_free(&written->buffer);
        queue_close(queue);
    }
}

/* The oldest posted message is done or given up. Once a stream has ended, the library gives up each message that is not done, and
 * still tells of a later one that it is: so each takes its entry off the list. What the host's data was awaited for runs if its
 * Read is done and the stream has not ended. */
static void take_posted(struct queue *queue, const struct iwarp_event *event) {
    struct posted posted = queue->posted[queue->first];
    if (queue->count == 0 || posted.message != event->message) {
        queue_close(queue);
        return;
    }
    queue->first = (queue->first + 1) % MOST_POSTED;
    queue->count--;
    if (posted.message == IWARP_MESSAGE_READ) {
        queue->reads--;
        if (event->kind == IWARP_DONE && !queue->endpoint.ended)
            command_fetched(posted.command);
        else
            command_give_up(posted.command);
    } else if (posted.message == IWARP_MESSAGE_WRITE) {
        take_written(queue, &posted.written);
    }
}

static void act(struct queue *queue, const struct iwarp_event *event) {
    switch (event->kind) {
    case IWARP_ASKED:
        answer_request(queue);
        break;
    case IWARP_RECEIVED:
        if (queue->loop->ends_at == 0) take_capsule(queue);
        break;
    case IWARP_DONE:
    case IWARP_FLUSHED:
        take_posted(queue, event);
        break;
    case IWARP_FAULT:
    case IWARP_TERMINATED:
        say(queue->target, "queue %d: %s %d %d %d", queue->id, event->kind == IWARP_FAULT ? "fault" : "terminated",
            (int)event->layer, (int)event->error, (int)event->code);
        break;
    case IWARP_CLOSED_BY_PEER:
        say(queue->target, "start-up frame at fault: %d", (int)event->code);
        break;
    default: /* what is handed back goes with the queue */
        break;
    }
}

/* Does what there is to do until octets come or go. */
static void work(struct queue *queue) {
    struct iwarp_event event = {.kind = IWARP_IDLE};
    do {
        if (endpoint_work(&queue->endpoint, &event) != IWARP_OK) {
            queue_close(queue);
            return;
        }
        act(queue, &event);
    } while (event.kind != IWARP_IDLE && queue->state != CLOSED);
}

/* ---- the socket */

static void set_blocked(struct queue *queue, int blocked) {
    struct epoll_event event = {.events = blocked ? EPOLLIN | EPOLLOUT : EPOLLIN, .data.ptr = queue};
    if (!blocked) queue->moved = queue->loop->now;
    if (queue->blocked == blocked) return;
    queue->blocked = blocked;
    epoll_ctl(queue->loop->epoll, EPOLL_CTL_MOD, queue->fd, &event);
}

/* Whether it may send more in this turn of the loop. If not, it goes on in the next. */
static int has_its_turn(struct queue *queue) {
    if (queue->turn != queue->loop->turns) {
        queue->turn = queue->loop->turns;
        queue->sent = 0;
    }
    queue->again = queue->sent >= MOST_SENT;
    if (queue->again) queue->loop->again = 1;
    return !queue->again;
}

/* Writes out what is due, as far as the socket takes it and it has its turn. Returns whether all was written, and there was
 * something. */
static int write_out(struct queue *queue) {
    uint8_t *at;
    size_t n;
    for (int any = 0; has_its_turn(queue); any = 1) {
        if (endpoint_due(&queue->endpoint, &at, &n) != IWARP_OK) {
            queue_close(queue);
            return 0;
        }
        if (n == 0) {
            set_blocked(queue, 0);
            return any;
        }
        ssize_t went = send(queue->fd, at, n, MSG_NOSIGNAL);
        if (went > 0) {
            queue->moved = queue->loop->now;
            queue->sent += (size_t)went;
            endpoint_wrote(&queue->endpoint, (size_t)went);
        } else if (went < 0 && errno == EAGAIN) {
            set_blocked(queue, 1);
            return 0;
        } else if (went == 0 || errno != EINTR) {
            queue_close(queue);
            return 0;
        }
    }
    return 0;
}

/* The stream has ended, and its last frame is written: ends the output, and waits for the peer to close, so that it gets that. */
static void drain(struct queue *queue) {
    if (queue->state == DRAINS) return;
    shutdown(queue->fd, SHUT_WR);
    queue_enter(queue, DRAINS);
}

void queue_run(struct queue *queue) {
    int went = 1;
    while (went && queue->state != CLOSED) {
        work(queue);
        commands_go_on(queue);
        went = queue->state != CLOSED && write_out(queue);
    }
    if (queue->state != CLOSED && queue->endpoint.ended && !queue->blocked && !queue->again) drain(queue);
}

/* An admin queue goes after its controller's other queues, which end with it. */
static int has_io_queues(const struct queue *queue) {
    return queue->id == 0 && queue->controller && controller_has_io(queue->controller);
}

void queue_finish(struct queue *queue) {
    if (queue->state == AWAITS_REQUEST || queue->state == AWAITS_CONNECT)
        queue_close(queue);
    else if (queue->state == CONNECTED && queue->begun == 0 && !queue->blocked && !queue->again && !has_io_queues(queue))
        drain(queue);
}

void queue_readable(struct queue *queue) {
    uint8_t *at;
    size_t room;
    int lent = endpoint_room(&queue->endpoint, &at, &room) == IWARP_OK;
    ssize_t n = lent ? read(queue->fd, at, room) : 0;
    if (n < 0 && (errno == EAGAIN || errno == EINTR)) return;
    if (n <= 0 || endpoint_came(&queue->endpoint, (size_t)n) != IWARP_OK)
        queue_close(queue);
    else
        queue_run(queue);
}
