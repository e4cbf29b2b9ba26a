/* Receive queues, a queue pair's own and shared ones. A message comes to a buffer of the library's, and is copied to the places of the
 * oldest receive. One that finds none waits, and if too many wait nothing more is read of the socket. */
#include "calls.h"

static struct receives *queue_of(struct pair *pair) {
    return pair->shared ? &pair->shared->queue : &pair->own;
}

static struct message *held_at(struct pair *pair, unsigned i) {
    return &pair->held[(pair->first_held + i) % MOST_HELD];
}

/* ---- queues */

int receives_new(struct receives *queue, unsigned most) {
    queue->most = most ? most : 1;
    queue->size = ring_size(queue->most);
    queue->ring = calloc(queue->size, sizeof *queue->ring);
    return queue->ring ? 0 : -1;
}

/* Adds a receive. Its places are judged when a message comes for them. */
int receive_add(struct receives *queue, unsigned most_places, const struct ibv_recv_wr *wr) {
    if (wr->num_sge < 0 || wr->num_sge > (int)most_places) return EINVAL;
    if (queue->tail - queue->head == queue->most) return ENOMEM;
    struct receive *receive = &queue->ring[queue->tail & (queue->size - 1)];
    receive->wr_id = wr->wr_id;
    receive->n = wr->num_sge;
    receive->len = 0;
    for (int i = 0; i < wr->num_sge; i++) {
        receive->places[i] = wr->sg_list[i];
        receive->len += wr->sg_list[i].length;
    }
    if (receive->len > queue->longest) queue->longest = receive->len;
    queue->used = 1;
    queue->tail++;
    return 0;
}

/* ---- buffers. While a stream works, the pool of its domain has the one that its next message is to have, and else none. */

/* How long that is: as the receive that its message will have, or, where that is not known, as the longest one so far. */
static uint64_t next_length(struct pair *pair) {
    struct receives *queue = queue_of(pair);
    unsigned place = queue->head + pair->bound;
    int known = !pair->shared && pair->n_held == 0 && (int)(queue->tail - place) > 0;
    uint64_t len = known ? queue->ring[place & (queue->size - 1)].len : queue->longest;
    if (!known && len < LEAST_UNKNOWN) len = LEAST_UNKNOWN;
    return len < MOST_OCTETS ? len : MOST_OCTETS;
}

/* The place of a spare buffer of so many octets, one that was made if there is none; SPARES: there is no memory. */
static unsigned spare_of(struct domain *domain, size_t len) {
    unsigned i = 0;
    while (i < SPARES && !(domain->spares[i].buffer.at && domain->spares[i].room == len)) i++;
    if (i < SPARES) return i;
    i = domain->next_spare++ % SPARES;
    struct spare *spare = &domain->spares[i];
    iwarp_buffer_free(&spare->buffer);
    spare->room = len;
    return iwarp_buffer_new(len, &spare->buffer) == IWARP_OK ? i : SPARES;
}

/* Of a queue pair for which receives were never posted, none is offered: a Send ends its stream. */
int receive_offer(struct pair *pair) {
    struct domain *domain = (struct domain *)pair->qp.qp_base.pd;
    if (!queue_of(pair)->used) return 0;
    uint64_t len = next_length(pair);
    if (pair->n_held + pair->bound >= MOST_HELD || (pair->n_held && pair->held_room + len > MOST_HELD_OCTETS)) return -1;
    struct iwarp_buffer *buffer = &held_at(pair, pair->n_held + pair->bound)->buffer; /* for when the message comes */
    unsigned i = buffer->at || iwarp_buffer_new(0, buffer) == IWARP_OK ? spare_of(domain, len) : SPARES;
    if (i < SPARES && iwarp_post_shared_buffer(&domain->handle, DOMAIN, &domain->spares[i].buffer) == IWARP_OK) {
        domain->offered = i;
        return 0;
    }
    LOG("there is no memory for a receive buffer\n");
    connection_retry(pair->connection);
    return -1;
}

void receive_withdraw(struct pair *pair) {
    struct domain *domain = (struct domain *)pair->qp.qp_base.pd;
    uint32_t found;
    if (domain->offered == SPARES) return;
    struct spare *spare = &domain->spares[domain->offered];
    must(iwarp_take_shared_buffer(&domain->handle, DOMAIN, &spare->buffer, &found), "iwarp_take_shared_buffer");
    domain->offered = SPARES;
    if (found) return;
    spare->room = SIZE_MAX; /* its octets are the stream's */
    pair->bound++;
}

/* ---- messages */

static void complete(struct pair *pair, enum ibv_wc_status status, const struct message *message) {
    struct receives *queue = queue_of(pair);
    struct ibv_wc wc = {.wr_id = queue->ring[queue->head & (queue->size - 1)].wr_id, .status = status, .opcode = IBV_WC_RECV,
                        .byte_len = message ? (uint32_t)message->n : 0, .qp_num = pair->qp.qp_base.qp_num};
    uint32_t flags = message ? message->flags : 0;
    if (flags & IWARP_INVALIDATES) {
        wc.wc_flags = IBV_WC_WITH_INV;
        wc.invalidated_rkey = message->stag;
    }
    queue->head++;
    completion_push((struct completions *)pair->qp.qp_base.recv_cq, &wc, (flags & IWARP_SOLICITED) != 0, pair);
}

/* Copies a message to the places of a receive. Each place that it reaches has to be one that may be written. */
static enum ibv_wc_status scatter(struct domain *domain, const struct receive *receive, struct message *message) {
    uint8_t *from;
    size_t left = message->n, all;
    if (left > receive->len) return IBV_WC_LOC_LEN_ERR;
    must(iwarp_buffer_at(&message->buffer, &from, &all), "iwarp_buffer_at");
    for (int i = 0; left > 0; i++) {
        size_t take = left < receive->places[i].length ? left : receive->places[i].length;
        uint8_t *to = region_octets(domain, &receive->places[i], IBV_ACCESS_LOCAL_WRITE);
        if (!to) return IBV_WC_LOC_PROT_ERR;
        if (take) memcpy(to, from, take);
        from += take;
        left -= take;
    }
    return IBV_WC_SUCCESS;
}

/* The oldest message is over: its buffer may be the next one of a stream, in the place of one that is used up, or of any. */
static void let_go(struct pair *pair) {
    struct domain *domain = (struct domain *)pair->qp.qp_base.pd;
    struct message *message = held_at(pair, 0);
    unsigned i = 0;
    while (i < SPARES && domain->spares[i].buffer.at && domain->spares[i].room != SIZE_MAX) i++;
    struct spare *spare = &domain->spares[i < SPARES ? i : domain->next_spare++ % SPARES];
    struct spare of_message = {message->buffer, message->room};
    message->buffer = spare->buffer;
    *spare = of_message;
    pair->held_room -= message->room;
    pair->first_held = (pair->first_held + 1) % MOST_HELD;
    pair->n_held--;
}

static void tell_limit(struct shared *shared) {
    if (!shared || shared->queue.tail - shared->queue.head >= shared->limit) return;
    shared->limit = 0;
    notice_tell(&shared->low);
}

/* Gives messages to receives, as long as there are both. */
int messages_hand_out(struct pair *pair) {
    struct receives *queue = queue_of(pair);
    while (pair->n_held && queue->head != queue->tail) {
        struct message *message = held_at(pair, 0);
        struct receive *receive = &queue->ring[queue->head & (queue->size - 1)];
        enum ibv_wc_status status = scatter((struct domain *)pair->qp.qp_base.pd, receive, message);
        complete(pair, status, message);
        let_go(pair);
        tell_limit(pair->shared);
        if (status != IBV_WC_SUCCESS) return -1;
    }
    return 0;
}

/* A message came. -1: the queue pair is at fault. */
int message_came(struct pair *pair, const struct iwarp_event *event) {
    struct connection *c = pair->connection;
    struct message *message = held_at(pair, pair->n_held);
    uint8_t *at;
    if (iwarp_fetch_buffer(c->handle, c->stream, &message->buffer, &message->n) != IWARP_OK) return -1;
    must(iwarp_buffer_at(&message->buffer, &at, &message->room), "iwarp_buffer_at");
    message->flags = event->flags;
    message->stag = event->stag;
    pair->held_room += message->room;
    pair->bound--;
    pair->n_held++;
    return messages_hand_out(pair);
}

/* ---- ends */

void receive_too_short(struct pair *pair) {
    struct receives *queue = queue_of(pair);
    if (queue->head != queue->tail) complete(pair, IBV_WC_LOC_LEN_ERR, NULL);
}

/* What is left of the queue pair's own receives is given up. Those of a shared queue stay there. */
void receives_flush(struct pair *pair) {
    pair->bound = 0;
    if (pair->shared) notice_tell(&pair->last_receive);
    else
        while (pair->own.head != pair->own.tail) complete(pair, IBV_WC_WR_FLUSH_ERR, NULL);
}

void receives_drop(struct pair *pair) {
    for (unsigned i = 0; i < MOST_HELD; i++) iwarp_buffer_free(&pair->held[i].buffer);
    free(pair->own.ring);
}

/* ---- shared queues */

struct ibv_srq *ibv_create_srq(struct ibv_pd *pd, struct ibv_srq_init_attr *attr) {
    struct domain *domain = (struct domain *)pd;
    if (attr->attr.max_wr > MOST_WR || attr->attr.max_sge > MOST_SGE) return none(EINVAL);
    struct shared *shared = calloc(1, sizeof *shared);
    if (!shared || receives_new(&shared->queue, attr->attr.max_wr) < 0) {
        free(shared);
        return none(ENOMEM);
    }
    shared->srq = (struct ibv_srq){.context = pd->context, .pd = pd, .srq_context = attr->srq_context};
    shared->low.event = (struct ibv_async_event){.element.srq = &shared->srq, .event_type = IBV_EVENT_SRQ_LIMIT_REACHED};
    pthread_mutex_lock(&domain->lock);
    domain->users++;
    pthread_mutex_unlock(&domain->lock);
    return &shared->srq;
}

int ibv_modify_srq(struct ibv_srq *srq, struct ibv_srq_attr *attr, int mask) {
    struct domain *domain = (struct domain *)srq->pd;
    struct shared *shared = (struct shared *)srq;
    if (mask & ~IBV_SRQ_LIMIT) return EOPNOTSUPP;
    pthread_mutex_lock(&domain->lock);
    int fits = !(mask & IBV_SRQ_LIMIT) || attr->srq_limit <= shared->queue.most;
    if (fits && mask) shared->limit = attr->srq_limit;
    pthread_mutex_unlock(&domain->lock);
    return fits ? 0 : EINVAL;
}

int ibv_query_srq(struct ibv_srq *srq, struct ibv_srq_attr *attr) {
    struct domain *domain = (struct domain *)srq->pd;
    struct shared *shared = (struct shared *)srq;
    pthread_mutex_lock(&domain->lock);
    *attr = (struct ibv_srq_attr){.max_wr = shared->queue.most, .max_sge = MOST_SGE, .srq_limit = shared->limit};
    pthread_mutex_unlock(&domain->lock);
    return 0;
}

int ibv_destroy_srq(struct ibv_srq *srq) {
    struct domain *domain = (struct domain *)srq->pd;
    struct shared *shared = (struct shared *)srq;
    pthread_mutex_lock(&domain->lock);
    int busy = shared->pairs != NULL;
    if (!busy) domain->users--;
    pthread_mutex_unlock(&domain->lock);
    if (busy) return EBUSY;
    notice_forget(&shared->low);
    free(shared->queue.ring);
    free(shared);
    return 0;
}
