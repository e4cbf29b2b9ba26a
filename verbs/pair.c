/* Queue pairs. */
#include "calls.h"

#include <poll.h>

/* The completion queue at which the queue pair reports is polled with the loop that its connection is in. */
static void poll_with(struct ibv_cq *cq, struct loop *loop) {
    atomic_store(&((struct completions *)cq)->loop, loop);
}

/* Whether there can be such a queue pair: the errno if not. */
static int judge(const struct ibv_pd *pd, const struct ibv_qp_init_attr *attr) {
    const struct ibv_qp_cap *cap = &attr->cap;
    if (attr->qp_type != IBV_QPT_RC) return EOPNOTSUPP;
    if (!attr->send_cq || !attr->recv_cq || (attr->srq && attr->srq->pd != pd)) return EINVAL;
    if (cap->max_send_wr > MOST_WR || cap->max_recv_wr > MOST_WR || cap->max_send_sge > MOST_SGE || cap->max_recv_sge > MOST_SGE)
        return EINVAL;
    return cap->max_inline_data > MOST_INLINE ? EINVAL : 0;
}

/* The queues: at least one request, and one place, each. */
static int make_queues(struct pair *pair, const struct ibv_qp_init_attr *attr) {
    struct ibv_qp_cap *cap = &pair->cap;
    *cap = attr->cap;
    if (!cap->max_send_wr) cap->max_send_wr = 1;
    if (!cap->max_recv_wr) cap->max_recv_wr = 1;
    if (!cap->max_send_sge) cap->max_send_sge = 1;
    if (!cap->max_recv_sge) cap->max_recv_sge = 1;
    if (cap->max_inline_data < LEAST_INLINE) cap->max_inline_data = LEAST_INLINE;
    pair->size = ring_size(cap->max_send_wr);
    pair->sends = calloc(pair->size, sizeof *pair->sends);
    pair->inlined = malloc((size_t)pair->size * cap->max_inline_data + 1);
    return pair->sends && pair->inlined && receives_new(&pair->own, attr->srq ? 1 : cap->max_recv_wr) == 0 ? 0 : -1;
}

static void pair_free(struct pair *pair) {
    receives_drop(pair);
    free(pair->sends);
    free(pair->inlined);
    pthread_mutex_destroy(&pair->posting);
    free(pair);
}

/* Enters a queue pair into the lists. */
static int enter(struct pair *pair, int by_manager) {
    struct ibv_qp *qp = &pair->qp.qp_base;
    struct domain *domain = (struct domain *)qp->pd;
    pthread_mutex_lock(&context.manager);
    qp->qp_num = ++context.pair_numbers & 0xffffff;
    int code = context.settings.as_roce && !by_manager ? raw_listen(pair) : 0;
    if (code == 0) {
        pair->next = context.pairs;
        context.pairs = pair;
        pthread_mutex_lock(&domain->lock);
        domain->users++;
        if (pair->shared) {
            pair->next_of_shared = pair->shared->pairs;
            pair->shared->pairs = pair;
        }
        pthread_mutex_unlock(&domain->lock);
    }
    pthread_mutex_unlock(&context.manager);
    return code;
}

struct ibv_qp *pair_new(struct ibv_pd *pd, struct ibv_qp_init_attr *attr, int by_manager) {
    int error = judge(pd, attr);
    if (error) return none(error);
    struct pair *pair = calloc(1, sizeof *pair);
    if (!pair) return none(ENOMEM);
    struct ibv_qp *qp = &pair->qp.qp_base;
    *qp = (struct ibv_qp){.context = pd->context, .qp_context = attr->qp_context, .pd = pd, .send_cq = attr->send_cq,
        .recv_cq = attr->recv_cq, .srq = attr->srq, .state = IBV_QPS_RESET, .qp_type = IBV_QPT_RC};
    pair->shared = (struct shared *)attr->srq;
    pair->all_signaled = attr->sq_sig_all;
    pair->last_receive.event = (struct ibv_async_event){.element.qp = qp, .event_type = IBV_EVENT_QP_LAST_WQE_REACHED};
    pthread_mutex_init(&pair->posting, NULL);
    build_calls(&pair->qp);
    if (make_queues(pair, attr) < 0 || enter(pair, by_manager) < 0) {
        pair_free(pair);
        return none(ENOMEM);
    }
    attr->cap = pair->cap;
    poll_with(attr->send_cq, ((struct domain *)pd)->loop);
    poll_with(attr->recv_cq, ((struct domain *)pd)->loop);
    return qp;
}

struct ibv_qp *ibv_create_qp(struct ibv_pd *pd, struct ibv_qp_init_attr *attr) {
    return pair_new(pd, attr, 0);
}

struct ibv_qp *verbs_create_qp_ex(struct ibv_context *verbs, struct ibv_qp_init_attr_ex *attr) {
    const uint64_t operations = IBV_QP_EX_WITH_RDMA_WRITE | IBV_QP_EX_WITH_SEND | IBV_QP_EX_WITH_RDMA_READ |
                                IBV_QP_EX_WITH_LOCAL_INV | IBV_QP_EX_WITH_SEND_WITH_INV;
    (void)verbs;
    if (!(attr->comp_mask & IBV_QP_INIT_ATTR_PD)) return none(EINVAL);
    if (attr->comp_mask & ~(uint32_t)(IBV_QP_INIT_ATTR_PD | IBV_QP_INIT_ATTR_SEND_OPS_FLAGS)) return none(EOPNOTSUPP);
    if ((attr->comp_mask & IBV_QP_INIT_ATTR_SEND_OPS_FLAGS) && (attr->send_ops_flags & ~operations)) return none(EOPNOTSUPP);
    return pair_new(attr->pd, (struct ibv_qp_init_attr *)attr, 0); /* whose fields are in front */
}

struct ibv_qp_ex *ibv_qp_to_qp_ex(struct ibv_qp *qp) {
    return (struct ibv_qp_ex *)qp;
}

struct pair *pair_find(uint32_t number) {
    struct pair *pair = context.pairs;
    while (pair && pair->qp.qp_base.qp_num != number) pair = pair->next;
    return pair;
}

void pair_fail(struct pair *pair) {
    if (pair->connection) pair->connection->failed = 1;
}

/* Takes a queue pair out of the lists. Locked: the manager, and the domain. */
static void leave(struct pair *pair) {
    struct pair **at = &context.pairs;
    while (*at != pair) at = &(*at)->next;
    *at = pair->next;
    if (!pair->shared) return;
    at = &pair->shared->pairs;
    while (*at != pair) at = &(*at)->next_of_shared;
    *at = pair->next_of_shared;
}

int ibv_destroy_qp(struct ibv_qp *qp) {
    struct pair *pair = (struct pair *)qp;
    struct domain *domain = (struct domain *)qp->pd;
    pthread_mutex_lock(&context.manager);
    raw_forget(pair);
    pthread_mutex_lock(&domain->lock);
    if (pair->connection) stream_pump(pair->connection);
    if (pair->connection) stream_end(pair->connection);
    leave(pair);
    domain->users--;
    pthread_mutex_unlock(&domain->lock);
    pthread_mutex_unlock(&context.manager);
    notice_forget(&pair->last_receive);
    pair_free(pair);
    return 0;
}

/* The queue pair is in error: what is posted is given up. What was at a stream was handed back before. */
void pair_flush(struct pair *pair) {
    if (pair->dead) return;
    pair->dead = 1;
    pair->qp.qp_base.state = IBV_QPS_ERR;
    sends_flush(pair);
    receives_flush(pair);
}

static void into_error(struct pair *pair) {
    if (pair->connection) stream_end(pair->connection);
    else pair_flush(pair);
}

/* What is posted is forgotten. */
static void into_reset(struct pair *pair) {
    if (pair->connection) stream_end(pair->connection);
    pair->mid = pair->tail;
    atomic_store(&pair->head, pair->tail);
    pair->own.head = pair->own.tail;
    pair->n_parts = pair->reads = 0;
    pair->under_way = 0;
    pair->n_held = 0;
    pair->held_room = 0;
    pair->dead = 0;
    pair->qp.qp_base.state = IBV_QPS_RESET;
}

int ibv_modify_qp(struct ibv_qp *qp, struct ibv_qp_attr *attr, int mask) {
    struct pair *pair = (struct pair *)qp;
    struct domain *domain = (struct domain *)qp->pd;
    int raw = context.settings.as_roce, code = 0;
    if (!(mask & IBV_QP_STATE)) return 0;
    pthread_mutex_lock(&context.manager);
    pthread_mutex_lock(&domain->lock);
    if (attr->qp_state == IBV_QPS_ERR) into_error(pair);
    else if (attr->qp_state == IBV_QPS_RESET) into_reset(pair);
    else if (attr->qp_state == IBV_QPS_INIT && !pair->dead) qp->state = IBV_QPS_INIT;
    else if (raw && attr->qp_state == IBV_QPS_RTR && (mask & IBV_QP_DEST_QPN) && !pair->connection) code = raw_ready(pair, attr);
    else if (raw && attr->qp_state == IBV_QPS_RTS && !pair->dead) qp->state = IBV_QPS_RTS;
    else if (!pair->connection) code = EOPNOTSUPP; /* a queue pair of iWARP has a connection of the connection manager's */
    pthread_mutex_unlock(&domain->lock);
    pthread_mutex_unlock(&context.manager);
    return code;
}

int ibv_query_qp(struct ibv_qp *qp, struct ibv_qp_attr *attr, int mask, struct ibv_qp_init_attr *init) {
    struct pair *pair = (struct pair *)qp;
    struct domain *domain = (struct domain *)qp->pd;
    (void)mask;
    pthread_mutex_lock(&domain->lock);
    *attr = (struct ibv_qp_attr){.qp_state = qp->state, .cur_qp_state = qp->state, .path_mtu = IBV_MTU_4096, .cap = pair->cap,
        .max_rd_atomic = MOST_READS, .max_dest_rd_atomic = MOST_READS, .port_num = 1};
    pthread_mutex_unlock(&domain->lock);
    *init = (struct ibv_qp_init_attr){.qp_context = qp->qp_context, .send_cq = qp->send_cq, .recv_cq = qp->recv_cq, .srq = qp->srq,
        .cap = pair->cap, .qp_type = qp->qp_type, .sq_sig_all = pair->all_signaled};
    return 0;
}
