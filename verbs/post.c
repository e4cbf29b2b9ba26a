/* ibv_post_send, ibv_post_recv and ibv_post_srq_recv. */
#include "calls.h"

/* Makes progress with what was posted. */
void pair_posted(struct pair *pair) {
    struct connection *c = pair->connection;
    if (pair->dead) {
        sends_flush(pair);
        if (messages_hand_out(pair) == 0 && pair->n_held == 0) receives_flush(pair);
        return;
    }
    if (c && c->state == STREAMING && !c->left) stream_pump(c);
}

/* ---- sends */

/* Copies inline octets, which the program may change once the call returns. */
static int take_inline(struct pair *pair, const struct send *send, const struct ibv_send_wr *wr) {
    uint8_t *to = pair->inlined + (size_t)(send - pair->sends) * pair->cap.max_inline_data;
    if (send->len > pair->cap.max_inline_data || wr->opcode == IBV_WR_RDMA_READ) return EINVAL;
    for (int i = 0; i < wr->num_sge; to += wr->sg_list[i].length, i++)
        if (wr->sg_list[i].length) memcpy(to, (const void *)(uintptr_t)wr->sg_list[i].addr, wr->sg_list[i].length);
    return 0;
}

static int take_opcode(struct send *send, const struct ibv_send_wr *wr) {
    switch (wr->opcode) {
    case IBV_WR_RDMA_WRITE:
    case IBV_WR_RDMA_READ:
        send->to = wr->wr.rdma.remote_addr;
        send->stag = wr->wr.rdma.rkey;
        return wr->opcode == IBV_WR_RDMA_READ && wr->num_sge > 1 ? EINVAL : 0;
    case IBV_WR_SEND:
        return 0;
    case IBV_WR_SEND_WITH_INV:
        send->stag = wr->invalidate_rkey;
        return 0;
    case IBV_WR_LOCAL_INV:
        send->stag = wr->invalidate_rkey;
        send->n = 0;
        return 0;
    default:
        return EOPNOTSUPP; /* immediate data, atomics and windows */
    }
}

static int take_send(struct pair *pair, struct send *send, const struct ibv_send_wr *wr) {
    if (wr->num_sge < 0 || wr->num_sge > (int)pair->cap.max_send_sge) return EINVAL;
    send->wr_id = wr->wr_id;
    send->opcode = wr->opcode;
    send->flags = wr->send_flags;
    send->n = wr->num_sge;
    send->to = send->len = send->posted = 0;
    send->stag = 0;
    send->begun = 0;
    send->fault = IBV_WC_SUCCESS;
    int code = take_opcode(send, wr);
    if (code) return code;
    for (int i = 0; i < send->n; i++) {
        send->places[i] = wr->sg_list[i];
        send->len += wr->sg_list[i].length;
    }
    if (send->len > MOST_OCTETS) return EINVAL;
    return wr->send_flags & IBV_SEND_INLINE ? take_inline(pair, send, wr) : 0;
}

static int may_send(const struct pair *pair) {
    enum ibv_qp_state state = pair->qp.qp_base.state;
    return state == IBV_QPS_RTS || state == IBV_QPS_SQD || state == IBV_QPS_SQE || state == IBV_QPS_ERR;
}

int verbs_post_send(struct ibv_qp *qp, struct ibv_send_wr *wr, struct ibv_send_wr **bad) {
    struct pair *pair = (struct pair *)qp;
    struct domain *domain = (struct domain *)qp->pd;
    int code = 0;
    pthread_mutex_lock(&pair->posting);
    pthread_mutex_lock(&domain->lock);
    for (; wr; wr = wr->next) {
        if (!may_send(pair)) code = EINVAL;
        else if (pair->tail - atomic_load(&pair->head) == pair->cap.max_send_wr) code = ENOMEM;
        else code = take_send(pair, &pair->sends[pair->tail & (pair->size - 1)], wr);
        if (code) break;
        pair->tail++;
    }
    if (code) *bad = wr;
    pair_posted(pair);
    pthread_mutex_unlock(&domain->lock);
    pthread_mutex_unlock(&pair->posting);
    return code;
}

/* ---- receives */

/* Messages may wait for these. */
static void hand_out(struct pair *pair) {
    int fails = messages_hand_out(pair) < 0;
    if (fails) pair_fail(pair);
    if (pair->connection && (fails || pair->connection->stalled)) stream_pump(pair->connection);
}

int verbs_post_recv(struct ibv_qp *qp, struct ibv_recv_wr *wr, struct ibv_recv_wr **bad) {
    struct pair *pair = (struct pair *)qp;
    struct domain *domain = (struct domain *)qp->pd;
    int code = qp->srq ? EINVAL : 0;
    pthread_mutex_lock(&domain->lock);
    for (; wr && !code; wr = code ? wr : wr->next) code = receive_add(&pair->own, pair->cap.max_recv_sge, wr);
    if (code) *bad = wr;
    if (pair->dead) {
        pair_posted(pair);
    } else {
        hand_out(pair);
    }
    pthread_mutex_unlock(&domain->lock);
    return code;
}

int verbs_post_srq_recv(struct ibv_srq *srq, struct ibv_recv_wr *wr, struct ibv_recv_wr **bad) {
    struct shared *shared = (struct shared *)srq;
    struct domain *domain = (struct domain *)srq->pd;
    int code = 0;
    pthread_mutex_lock(&domain->lock);
    for (; wr && !code; wr = code ? wr : wr->next) code = receive_add(&shared->queue, MOST_SGE, wr);
    if (code) *bad = wr;
    for (struct pair *pair = shared->pairs; pair; pair = pair->next_of_shared) hand_out(pair);
    pthread_mutex_unlock(&domain->lock);
    return code;
}
