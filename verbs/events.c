/* librdmacm: event channels. What they hold, and which channel an identifier has, is under `events`. */
#include "calls.h"

#include <fcntl.h>
#include <sys/eventfd.h>

/* ---- channels */

struct events *events_new(void) {
    struct events *events = calloc(1, sizeof *events);
    if (!events) return none(ENOMEM);
    events->channel.fd = eventfd(0, EFD_SEMAPHORE | EFD_CLOEXEC);
    events->last = &events->first;
    if (events->channel.fd >= 0) return events;
    free(events);
    return NULL;
}

struct rdma_event_channel *rdma_create_event_channel(void) {
    struct events *events = events_new();
    return events ? &events->channel : NULL;
}

/* So many of its identifiers go; with a channel that was destroyed before, what it had goes with the last one. Locked: events. */
void events_let_go(struct events *events, int users) {
    events->users -= users;
    if (!events->destroyed || events->users) return;
    while (events->first) {
        struct event *event = events->first;
        events->first = event->next;
        free(event);
    }
    free(events);
}

/* What another thread may still wait at (rping's does) stays until the next channel is destroyed: it waits on, as with a device. */
void rdma_destroy_event_channel(struct rdma_event_channel *channel) {
    struct events *events = (struct events *)channel;
    pthread_mutex_lock(&context.events);
    struct events *before = context.last_destroyed;
    events->destroyed = 1;
    events->users++;
    context.last_destroyed = events;
    if (before) {
        close(before->channel.fd);
        events_let_go(before, 1);
    }
    pthread_mutex_unlock(&context.events);
}

/* Locked: events. */
static void append(struct events *events, struct event *event) {
    uint64_t one = 1;
    if (events->destroyed) {
        free(event);
        return;
    }
    event->next = NULL;
    *events->last = event;
    events->last = &event->next;
    if (write(events->channel.fd, &one, sizeof one) < 0) LOG("an event is not told\n");
}

/* The channel has one event less to tell of. */
static void untell(struct events *events) {
    uint64_t one;
    int flags = fcntl(events->channel.fd, F_GETFL);
    fcntl(events->channel.fd, F_SETFL, flags | O_NONBLOCK);
    if (read(events->channel.fd, &one, sizeof one) < 0) LOG("an event was not told\n");
    fcntl(events->channel.fd, F_SETFL, flags);
}

/* Takes the events of an identifier out of its channel, and gives them to another one, or frees them. Locked: events. */
void events_move(struct identifier *id, struct events *to) {
    struct events *from = (struct events *)id->id.channel;
    if (from->destroyed) return;
    struct event **at = &from->first;
    while (*at) {
        struct event *event = *at;
        if (event->event.id != &id->id) {
            at = &event->next;
            continue;
        }
        *at = event->next;
        untell(from);
        if (to) append(to, event);
        else free(event);
    }
    from->last = at;
}

/* Takes a Request that the program did not take out of a listener's channel; null if there is none. */
struct event *event_asked(struct identifier *listener) {
    struct events *events = (struct events *)listener->id.channel;
    struct event **at = &events->first, *event = NULL;
    pthread_mutex_lock(&context.events);
    while (*at && (*at)->event.listen_id != &listener->id) at = &(*at)->next;
    if (*at && !events->destroyed) {
        event = *at;
        *at = event->next;
        if (events->last == &event->next) events->last = at;
        untell(events);
    }
    pthread_mutex_unlock(&context.events);
    return event;
}

/* ---- events */

/* An identifier that connects or accepts has two events to spare, so that memory cannot run out when they come. */
int events_reserve(struct identifier *id) {
    for (int i = 0; i < 2; i++) {
        if (!id->spare[i]) id->spare[i] = calloc(1, sizeof *id->spare[i]);
        if (!id->spare[i]) return failed(ENOMEM);
    }
    return 0;
}

static struct event *describe(struct event *event, struct identifier *id, enum rdma_cm_event_type type, int status) {
    event->event = (struct rdma_cm_event){.id = &id->id, .event = type, .status = status};
    return event;
}

struct event *event_new(struct identifier *id, enum rdma_cm_event_type type, int status) {
    struct event *event = calloc(1, sizeof *event);
    return event ? describe(event, id, type, status) : NULL;
}

struct event *event_spare(struct identifier *id, enum rdma_cm_event_type type, int status) {
    int i = id->spare[0] ? 0 : 1;
    struct event *event = id->spare[i];
    id->spare[i] = NULL;
    return describe(event, id, type, status);
}

/* The peer's private data, and how many Reads each end offers the other: at most 16. */
void event_describe(struct event *event, struct connection *c) {
    struct rdma_conn_param *param = &event->event.param.conn;
    struct iwarp_told told;
    size_t n;
    must(iwarp_told(c->handle, c->stream, &told), "iwarp_told");
    if (iwarp_private(c->handle, c->stream, event->private_data, sizeof event->private_data, &n) != IWARP_OK) n = 0;
    uint32_t ord = told.has_word ? told.ord : MOST_READS, ird = told.has_word ? told.ird : MOST_READS;
    param->private_data = n ? event->private_data : NULL;
    param->private_data_len = (uint8_t)(n > UINT8_MAX ? UINT8_MAX : n);
    param->responder_resources = (uint8_t)(ord < MOST_READS ? ord : MOST_READS);
    param->initiator_depth = (uint8_t)(ird < MOST_READS ? ird : MOST_READS);
}

void event_tell(struct event *event) {
    struct rdma_cm_id *id = event->event.listen_id ? event->event.listen_id : event->event.id;
    LOG("%s on %p\n", rdma_event_str(event->event.event), (void *)id);
    pthread_mutex_lock(&context.events);
    append((struct events *)id->channel, event);
    pthread_mutex_unlock(&context.events);
}

/* As Linux's iWARP tells it. */
enum rdma_cm_event_type event_of(int error) {
    if (error == ECONNREFUSED || error == ECONNRESET) return RDMA_CM_EVENT_REJECTED;
    return error == ETIMEDOUT ? RDMA_CM_EVENT_UNREACHABLE : RDMA_CM_EVENT_CONNECT_ERROR;
}

/* ---- the program's calls */

int rdma_get_cm_event(struct rdma_event_channel *channel, struct rdma_cm_event **out) {
    struct events *events = (struct events *)channel;
    struct event *event;
    do {
        uint64_t one;
        if (read(channel->fd, &one, sizeof one) != sizeof one) return -1;
        pthread_mutex_lock(&context.events);
        event = events->first;
        if (event) events->first = event->next;
        if (!events->first) events->last = &events->first;
        pthread_mutex_unlock(&context.events);
    } while (!event);
    struct identifier *listener = (struct identifier *)event->event.listen_id;
    if (listener && listener->sync && rdma_migrate_id(event->event.id, NULL) < 0) {
        rdma_destroy_id(event->event.id);
        free(event);
        return failed(ENOMEM);
    }
    *out = &event->event;
    return 0;
}

int rdma_ack_cm_event(struct rdma_cm_event *event) {
    if (!event) return failed(EINVAL);
    free(event);
    return 0;
}

/* An identifier without a channel of the program's waits for its own event at each call. */
int event_wait(struct identifier *id) {
    if (!id->sync) return 0;
    if (id->id.event) rdma_ack_cm_event(id->id.event);
    id->id.event = NULL;
    if (rdma_get_cm_event(id->id.channel, &id->id.event) < 0) return -1;
    int status = id->id.event->status;
    if (status == 0) return 0;
    if (id->id.event->event == RDMA_CM_EVENT_REJECTED) return failed(ECONNREFUSED);
    return failed(status < 0 ? -status : status);
}
