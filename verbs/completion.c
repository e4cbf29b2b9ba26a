/* Completion queues, and the channels that tell of them. */
#include "calls.h"

#include <sys/eventfd.h>
#include <time.h>

enum {
    POLLS_A_TURN = 64, /* polls that find nothing cost little, and every so many make progress */
    ACKNOWLEDGED_MS = 200
};

/* ---- channels. What they hold is under `telling`. */

struct ibv_comp_channel *ibv_create_comp_channel(struct ibv_context *verbs) {
    struct completion_channel *channel = calloc(1, sizeof *channel);
    if (!channel) return none(ENOMEM);
    channel->channel.context = verbs;
    channel->channel.fd = eventfd(0, EFD_SEMAPHORE | EFD_CLOEXEC);
    channel->last = &channel->first;
    if (channel->channel.fd >= 0) return &channel->channel;
    free(channel);
    return NULL;
}

int ibv_destroy_comp_channel(struct ibv_comp_channel *channel) {
    pthread_mutex_lock(&context.telling);
    int busy = channel->refcnt != 0;
    pthread_mutex_unlock(&context.telling);
    if (busy) return EBUSY;
    close(channel->fd);
    free(channel);
    return 0;
}

static void channel_tell(struct completions *queue) {
    struct completion_channel *channel = (struct completion_channel *)queue->cq.channel;
    uint64_t one = 1;
    if (!channel) return;
    pthread_mutex_lock(&context.telling);
    if (queue->untold++ == 0) {
        queue->next = NULL;
        *channel->last = queue;
        channel->last = &queue->next;
    }
    if (write(channel->channel.fd, &one, sizeof one) < 0) LOG("an event is not told\n");
    pthread_mutex_unlock(&context.telling);
}

/* Takes a queue out of its channel. */
static void channel_unlink(struct completions *queue) {
    struct completion_channel *channel = (struct completion_channel *)queue->cq.channel;
    struct completions **at = &channel->first;
    while (*at != queue) at = &(*at)->next;
    *at = queue->next;
    if (channel->last == &queue->next) channel->last = at;
}

int ibv_get_cq_event(struct ibv_comp_channel *ibv_channel, struct ibv_cq **cq, void **own) {
    struct completion_channel *channel = (struct completion_channel *)ibv_channel;
    for (;;) {
        uint64_t one;
        if (read(ibv_channel->fd, &one, sizeof one) != sizeof one) return -1;
        pthread_mutex_lock(&context.telling);
        struct completions *queue = channel->first;
        if (queue) {
            *cq = (struct ibv_cq *)&queue->cq;
            *own = queue->cq.cq_context;
            queue->told++;
            if (--queue->untold == 0) channel_unlink(queue);
        }
        pthread_mutex_unlock(&context.telling);
        if (queue) return 0; /* else its queue was destroyed */
    }
}

void ibv_ack_cq_events(struct ibv_cq *cq, unsigned n) {
    pthread_mutex_lock(&cq->mutex);
    cq->comp_events_completed += n;
    pthread_cond_signal(&cq->cond);
    pthread_mutex_unlock(&cq->mutex);
}

/* ---- queues */

struct ibv_cq *ibv_create_cq(struct ibv_context *verbs, int n, void *own, struct ibv_comp_channel *channel, int vector) {
    if (n < 1 || n > MOST_CQE || vector < 0 || vector >= verbs->num_comp_vectors) return none(EINVAL);
    struct completions *queue = calloc(1, sizeof *queue);
    if (!queue) return none(ENOMEM);
    queue->size = ring_size((unsigned)n);
    queue->ring = malloc(queue->size * sizeof *queue->ring);
    if (!queue->ring) {
        free(queue);
        return none(ENOMEM);
    }
    queue->cq.context = verbs;
    queue->cq.channel = channel;
    queue->cq.cq_context = own;
    queue->cq.cqe = (int)queue->size;
    pthread_mutex_init(&queue->lock, NULL);
    pthread_mutex_init(&queue->cq.mutex, NULL);
    pthread_cond_init(&queue->cq.cond, NULL);
    queue->full.event = (struct ibv_async_event){.element.cq = (struct ibv_cq *)&queue->cq, .event_type = IBV_EVENT_CQ_ERR};
    pthread_mutex_lock(&context.telling);
    if (channel) channel->refcnt++;
    pthread_mutex_unlock(&context.telling);
    return (struct ibv_cq *)&queue->cq;
}

int ibv_resize_cq(struct ibv_cq *cq, int n) {
    struct completions *queue = (struct completions *)cq;
    if (n < 1 || n > MOST_CQE) return EINVAL;
    unsigned size = ring_size((unsigned)n);
    struct ibv_wc *ring = malloc(size * sizeof *ring);
    if (!ring) return ENOMEM;
    pthread_mutex_lock(&queue->lock);
    unsigned count = atomic_load(&queue->count);
    int fits = count <= size;
    if (fits) {
        for (unsigned i = 0; i < count; i++) ring[i] = queue->ring[(queue->head + i) % queue->size];
        struct ibv_wc *old = queue->ring;
        queue->ring = ring;
        queue->head = 0;
        queue->size = size;
        cq->cqe = (int)size;
        ring = old;
    }
    pthread_mutex_unlock(&queue->lock);
    free(ring);
    return fits ? 0 : EINVAL;
}

/* Waits until all events that the program took are acknowledged, but not for long: fio never does. */
static void await_acknowledgements(struct ibv_cq *cq, unsigned told) {
    struct timespec until;
    int code = 0;
    clock_gettime(CLOCK_REALTIME, &until);
    until.tv_nsec += ACKNOWLEDGED_MS * 1000000L;
    if (until.tv_nsec >= 1000000000L) {
        until.tv_sec++;
        until.tv_nsec -= 1000000000L;
    }
    pthread_mutex_lock(&cq->mutex);
    while (cq->comp_events_completed < told && code == 0) code = pthread_cond_timedwait(&cq->cond, &cq->mutex, &until);
    pthread_mutex_unlock(&cq->mutex);
}

int ibv_destroy_cq(struct ibv_cq *cq) {
    struct completions *queue = (struct completions *)cq;
    pthread_mutex_lock(&context.telling);
    if (cq->channel) {
        if (queue->untold) channel_unlink(queue);
        cq->channel->refcnt--;
    }
    unsigned told = queue->told;
    pthread_mutex_unlock(&context.telling);
    notice_forget(&queue->full);
    await_acknowledgements(cq, told);
    pthread_mutex_destroy(&queue->lock);
    free(queue->ring);
    free(queue);
    return 0;
}

/* A queue that is full takes no more: an asynchronous event tells of it, and the queue pair is at fault. */
void completion_push(struct completions *queue, const struct ibv_wc *wc, int solicited, struct pair *pair) {
    pthread_mutex_lock(&queue->lock);
    unsigned count = atomic_load_explicit(&queue->count, memory_order_relaxed);
    if (count == queue->size || atomic_load(&queue->overrun)) {
        atomic_store(&queue->overrun, 1);
        pthread_mutex_unlock(&queue->lock);
        LOG("a completion queue of %u is full\n", queue->size);
        notice_tell(&queue->full);
        pair_fail(pair);
        return;
    }
    queue->ring[(queue->head + count) % queue->size] = *wc;
    atomic_store_explicit(&queue->count, count + 1, memory_order_release);
    int tell = queue->armed == ARMED || (queue->armed == ARMED_SOLICITED && (solicited || wc->status != IBV_WC_SUCCESS));
    if (tell) queue->armed = UNARMED;
    pthread_mutex_unlock(&queue->lock);
    if (tell) channel_tell(queue);
}

/* Polls that find nothing: who polls makes progress itself, and need not wait for a thread. */
static void poll_nothing(struct completions *queue) {
    struct loop *loop = atomic_load_explicit(&queue->loop, memory_order_relaxed);
    unsigned idle = atomic_load_explicit(&queue->idle, memory_order_relaxed) + 1;
    atomic_store_explicit(&queue->idle, idle, memory_order_relaxed);
    if (idle % POLLS_A_TURN == 0 && loop) loop_poll(loop);
}

int verbs_poll_cq(struct ibv_cq *cq, int most, struct ibv_wc *wc) {
    struct completions *queue = (struct completions *)cq;
    if (atomic_load_explicit(&queue->count, memory_order_acquire) == 0) {
        if (atomic_load_explicit(&queue->overrun, memory_order_relaxed)) return -1;
        poll_nothing(queue);
        if (atomic_load_explicit(&queue->count, memory_order_acquire) == 0) return 0;
    }
    int n = 0;
    pthread_mutex_lock(&queue->lock);
    unsigned count = atomic_load_explicit(&queue->count, memory_order_relaxed);
    for (; n < most && count > 0; n++, count--) {
        wc[n] = queue->ring[queue->head];
        queue->head = (queue->head + 1) % queue->size;
    }
    atomic_store_explicit(&queue->count, count, memory_order_release);
    pthread_mutex_unlock(&queue->lock);
    return n;
}

/* A queue that has completions is told of at once, as by common cards: programs poll some, and wait again. */
int verbs_req_notify_cq(struct ibv_cq *cq, int solicited_only) {
    struct completions *queue = (struct completions *)cq;
    if (!cq->channel) return 0; /* nobody is told */
    pthread_mutex_lock(&queue->lock);
    int tell = !solicited_only && atomic_load(&queue->count) > 0;
    if (tell) queue->armed = UNARMED;
    else if (!solicited_only) queue->armed = ARMED;
    else if (queue->armed == UNARMED) queue->armed = ARMED_SOLICITED;
    pthread_mutex_unlock(&queue->lock);
    if (tell) channel_tell(queue);
    return 0;
}
