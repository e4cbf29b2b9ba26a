#include "ends.h"

struct ibv_qp_init_attr qp_attr(void) {
    return (struct ibv_qp_init_attr){.cap = {.max_send_wr = 64, .max_recv_wr = 32, .max_send_sge = 4, .max_recv_sge = 2,
                                             .max_inline_data = 64}, .qp_type = IBV_QPT_RC};
}

struct rdma_cm_id *listen_at(const char *port, struct ibv_qp_init_attr *attr) {
    struct rdma_addrinfo hints = {.ai_flags = RAI_PASSIVE, .ai_port_space = RDMA_PS_TCP}, *at;
    struct rdma_cm_id *id;
    MUST(!rdma_getaddrinfo("127.0.0.1", port, &hints, &at) && !rdma_create_ep(&id, at, NULL, attr) && !rdma_listen(id, 64));
    rdma_freeaddrinfo(at);
    return id;
}

struct rdma_cm_id *connect_to(const char *port, struct ibv_qp_init_attr *attr) {
    struct rdma_addrinfo hints = {.ai_port_space = RDMA_PS_TCP}, *at;
    struct rdma_cm_id *id;
    MUST(!rdma_getaddrinfo("127.0.0.1", port, &hints, &at) && !rdma_create_ep(&id, at, NULL, attr));
    rdma_freeaddrinfo(at);
    return id;
}

struct ibv_wc next_wc(struct ibv_cq *cq, struct ibv_comp_channel *channel) {
    struct ibv_wc wc;
    for (;;) {
        struct ibv_cq *of;
        void *own;
        if (ibv_poll_cq(cq, 1, &wc) == 1) return wc;
        MUST(!ibv_req_notify_cq(cq, 0));
        if (ibv_poll_cq(cq, 1, &wc) == 1) return wc;
        MUST(!ibv_get_cq_event(channel, &of, &own) && of == cq);
        ibv_ack_cq_events(cq, 1);
    }
}

struct ibv_wc next_sent(struct rdma_cm_id *id) {
    return next_wc(id->send_cq, id->send_cq_channel);
}

struct ibv_wc next_received(struct rdma_cm_id *id) {
    return next_wc(id->recv_cq, id->recv_cq_channel);
}

static void is_status(const char *queue, enum ibv_wc_status is, enum ibv_wc_status want) {
    if (is == want) return;
    fprintf(stderr, "%s: %s, and not %s\n", queue, ibv_wc_status_str(is), ibv_wc_status_str(want));
    exit(1);
}

void sent(struct rdma_cm_id *id, enum ibv_wc_status want) {
    is_status("sent", next_sent(id).status, want);
}

void received(struct rdma_cm_id *id, enum ibv_wc_status want) {
    is_status("received", next_received(id).status, want);
}
