/* The calls ibv_wr_*: requests are built in the send queue, behind its tail, and count once they are complete. */
#include "calls.h"

static struct pair *pair_of(struct ibv_qp_ex *qp) {
    return (struct pair *)qp;
}

static struct send *current_of(struct pair *pair) {
    return &pair->sends[(pair->tail + pair->built - 1) & (pair->size - 1)];
}

static void begin(struct ibv_qp_ex *qp, enum ibv_wr_opcode opcode, uint32_t stag, uint64_t to) {
    struct pair *pair = pair_of(qp);
    if (pair->tail + pair->built - atomic_load_explicit(&pair->head, memory_order_acquire) >= pair->cap.max_send_wr)
        pair->built_error = ENOMEM;
    if (pair->built_error) return;
    pair->built++;
    struct send *send = current_of(pair);
    send->wr_id = qp->wr_id;
    send->opcode = opcode;
    send->flags = qp->wr_flags & ~(unsigned)IBV_SEND_INLINE;
    send->stag = stag;
    send->to = to;
    send->len = send->posted = 0;
    send->begun = send->n = 0;
    send->fault = IBV_WC_SUCCESS;
}

static void wr_local_inv(struct ibv_qp_ex *qp, uint32_t rkey) {
    begin(qp, IBV_WR_LOCAL_INV, rkey, 0);
}

static void wr_rdma_read(struct ibv_qp_ex *qp, uint32_t rkey, uint64_t to) {
    begin(qp, IBV_WR_RDMA_READ, rkey, to);
}

static void wr_rdma_write(struct ibv_qp_ex *qp, uint32_t rkey, uint64_t to) {
    begin(qp, IBV_WR_RDMA_WRITE, rkey, to);
}

static void wr_send(struct ibv_qp_ex *qp) {
    begin(qp, IBV_WR_SEND, 0, 0);
}

static void wr_send_inv(struct ibv_qp_ex *qp, uint32_t rkey) {
    begin(qp, IBV_WR_SEND_WITH_INV, rkey, 0);
}

static void wr_set_sge_list(struct ibv_qp_ex *qp, size_t n, const struct ibv_sge *places) {
    struct pair *pair = pair_of(qp);
    if (pair->built_error || pair->built == 0) return;
    struct send *send = current_of(pair);
    if (n > pair->cap.max_send_sge || (send->opcode == IBV_WR_RDMA_READ && n > 1)) {
        pair->built_error = EINVAL;
        return;
    }
    send->n = (int)n;
    send->len = 0;
    for (size_t i = 0; i < n; i++) {
        send->places[i] = places[i];
        send->len += places[i].length;
    }
    if (send->len > MOST_OCTETS) pair->built_error = EINVAL;
}

static void wr_set_sge(struct ibv_qp_ex *qp, uint32_t lkey, uint64_t addr, uint32_t n) {
    struct ibv_sge place = {addr, n, lkey};
    wr_set_sge_list(qp, 1, &place);
}

static void wr_set_inline_data_list(struct ibv_qp_ex *qp, size_t n, const struct ibv_data_buf *list) {
    struct pair *pair = pair_of(qp);
    if (pair->built_error || pair->built == 0) return;
    struct send *send = current_of(pair);
    uint8_t *to = pair->inlined + (size_t)(send - pair->sends) * pair->cap.max_inline_data;
    uint64_t len = 0;
    for (size_t i = 0; i < n; i++) len += list[i].length;
    if (len > pair->cap.max_inline_data || send->opcode == IBV_WR_RDMA_READ) {
        pair->built_error = EINVAL;
        return;
    }
    for (size_t i = 0; i < n; to += list[i].length, i++)
        if (list[i].length) memcpy(to, list[i].addr, list[i].length);
    send->flags |= IBV_SEND_INLINE;
    send->len = len;
    send->n = 1;
}

static void wr_set_inline_data(struct ibv_qp_ex *qp, void *addr, size_t n) {
    struct ibv_data_buf one = {addr, n};
    wr_set_inline_data_list(qp, 1, &one);
}

static void wr_start(struct ibv_qp_ex *qp) {
    struct pair *pair = pair_of(qp);
    pthread_mutex_lock(&pair->posting);
    pair->built = 0;
    pair->built_error = 0;
}

static void wr_abort(struct ibv_qp_ex *qp) {
    pthread_mutex_unlock(&pair_of(qp)->posting);
}

static int wr_complete(struct ibv_qp_ex *qp) {
    struct pair *pair = pair_of(qp);
    struct domain *domain = (struct domain *)qp->qp_base.pd;
    int code = pair->built_error;
    pthread_mutex_lock(&domain->lock);
    enum ibv_qp_state state = qp->qp_base.state;
    if (!code && state != IBV_QPS_RTS && state != IBV_QPS_ERR) code = EINVAL;
    if (!code) {
        pair->tail += pair->built;
        pair_posted(pair);
    }
    pthread_mutex_unlock(&domain->lock);
    pthread_mutex_unlock(&pair->posting);
    return code;
}

void build_calls(struct ibv_qp_ex *qp) {
    qp->wr_local_inv = wr_local_inv;
    qp->wr_rdma_read = wr_rdma_read;
    qp->wr_rdma_write = wr_rdma_write;
    qp->wr_send = wr_send;
    qp->wr_send_inv = wr_send_inv;
    qp->wr_set_inline_data = wr_set_inline_data;
    qp->wr_set_inline_data_list = wr_set_inline_data_list;
    qp->wr_set_sge = wr_set_sge;
    qp->wr_set_sge_list = wr_set_sge_list;
    qp->wr_start = wr_start;
    qp->wr_complete = wr_complete;
    qp->wr_abort = wr_abort;
}
