/* Random Sends, Writes and Reads of several places, inline, unsignaled, fenced, in lists, over many connections at once, every second
 * one with a domain of its own; all are compared. Then an STag that is no longer valid: exercise PORT SEED ROUNDS CONNECTIONS. */
#include "ends.h"

#include <stdatomic.h>

enum { SIZE = 1000000, HALF = SIZE / 2, SLOTS = 32, SLOT = 20000, FIRST = 100, MOST = 64, ECHOES = 16, LONGEST = 15000 };

static const char *port;
static uint64_t seed;
static int rounds;

struct offer {
    uint64_t at, second_at;
    uint32_t rkey, second_rkey;
};

struct end {
    struct rdma_cm_id *id;
    struct ibv_pd *own;
    uint8_t *region, *local, *slots, second[64];
    struct ibv_mr *region_mr, *local_mr, *slots_mr, *second_mr;
};

static uint32_t draw(uint64_t *state) {
    *state = *state * 6364136223846793005u + 1442695040888963407u;
    return (uint32_t)(*state >> 33);
}

/* Gives an identifier its queue pair, in a domain of its own or in the one for all. */
static void create_qp(struct end *end) {
    static atomic_uint ends;
    struct ibv_qp_init_attr attr = qp_attr();
    if (atomic_fetch_add(&ends, 1) % 2) MUST(end->own = ibv_alloc_pd(end->id->verbs));
    MUST(!rdma_create_qp(end->id, end->own, &attr));
}

static void prepare(struct end *end) {
    const int peers_write = IBV_ACCESS_LOCAL_WRITE | IBV_ACCESS_REMOTE_WRITE;
    end->region = calloc(1, SIZE);
    end->local = calloc(1, SIZE);
    end->slots = calloc(SLOTS, SLOT);
    MUST(end->region && end->local && end->slots);
    MUST(end->region_mr = ibv_reg_mr(end->id->pd, end->region, SIZE, peers_write | IBV_ACCESS_REMOTE_READ));
    MUST(end->local_mr = ibv_reg_mr(end->id->pd, end->local, SIZE, IBV_ACCESS_LOCAL_WRITE));
    MUST(end->slots_mr = ibv_reg_mr(end->id->pd, end->slots, SLOTS * SLOT, IBV_ACCESS_LOCAL_WRITE));
    MUST(end->second_mr = ibv_reg_mr(end->id->pd, end->second, sizeof end->second, peers_write));
}

static void leave(struct end *end) {
    rdma_disconnect(end->id);
    ibv_dereg_mr(end->region_mr);
    ibv_dereg_mr(end->local_mr);
    ibv_dereg_mr(end->slots_mr);
    ibv_dereg_mr(end->second_mr);
    rdma_destroy_ep(end->id);
    if (end->own) MUST(!ibv_dealloc_pd(end->own));
    free(end->region);
    free(end->local);
    free(end->slots);
}

/* Each receive has two places. */
static void post_slot(struct end *end, uint64_t i) {
    uint64_t at = (uintptr_t)end->slots + i * SLOT;
    struct ibv_sge places[2] = {{at, FIRST, end->slots_mr->lkey}, {at + FIRST, SLOT - FIRST, end->slots_mr->lkey}};
    struct ibv_recv_wr wr = {.wr_id = i, .sg_list = places, .num_sge = 2}, *bad;
    MUST(!ibv_post_recv(end->id->qp, &wr, &bad));
}

/* ---- the end that echoes */

static void echo(struct end *end, int i, const struct ibv_wc *wc) {
    uint8_t *to = end->local + (i % ECHOES) * SLOT;
    if (wc->wc_flags & IBV_WC_WITH_INV) MUST(wc->invalidated_rkey == end->second_mr->rkey);
    memcpy(to, end->slots + wc->wr_id * SLOT, wc->byte_len);
    post_slot(end, wc->wr_id);
    MUST(!rdma_post_send(end->id, NULL, to, wc->byte_len, end->local_mr, IBV_SEND_SIGNALED));
    sent(end->id, IBV_WC_SUCCESS);
}

static void *serve(void *id) {
    struct end end = {.id = id};
    create_qp(&end);
    prepare(&end);
    for (uint64_t i = 0; i < SLOTS; i++) post_slot(&end, i);
    MUST(!rdma_accept(end.id, NULL));
    struct ibv_wc wc = next_received(end.id);
    MUST(wc.status == IBV_WC_SUCCESS);
    post_slot(&end, wc.wr_id);
    struct offer offer = {(uintptr_t)end.region, (uintptr_t)end.second, end.region_mr->rkey, end.second_mr->rkey};
    memcpy(end.local, &offer, sizeof offer);
    MUST(!rdma_post_send(end.id, NULL, end.local, sizeof offer, end.local_mr, IBV_SEND_SIGNALED));
    sent(end.id, IBV_WC_SUCCESS);
    for (int i = 0; (wc = next_received(end.id)).status == IBV_WC_SUCCESS; i++) echo(&end, i, &wc);
    MUST(wc.status == IBV_WC_WR_FLUSH_ERR);
    for (int i = 1; i < SLOTS; i++) received(end.id, IBV_WC_WR_FLUSH_ERR);
    leave(&end);
    return NULL;
}

/* ---- the end that asks */

struct asker {
    struct end end;
    struct offer offer;
    uint64_t state;
    uint8_t *model, *sent; /* what the peer's region has; what was written last */
};

static void begin(struct asker *asker) {
    struct end *end = &asker->end;
    end->id = connect_to(port, NULL);
    create_qp(end);
    asker->model = calloc(1, SIZE);
    asker->sent = malloc(SIZE);
    MUST(asker->model && asker->sent);
    prepare(end);
    for (uint64_t i = 0; i < SLOTS; i++) post_slot(end, i);
    MUST(!rdma_connect(end->id, NULL));
    MUST(!rdma_post_send(end->id, NULL, NULL, 0, NULL, IBV_SEND_SIGNALED));
    sent(end->id, IBV_WC_SUCCESS);
    struct ibv_wc wc = next_received(end->id);
    MUST(wc.status == IBV_WC_SUCCESS && wc.byte_len == sizeof asker->offer);
    memcpy(&asker->offer, end->slots + wc.wr_id * SLOT, sizeof asker->offer);
    post_slot(end, wc.wr_id);
}

/* What one round does: n octets at `from` are written to `to` of the peer's region, in two places, and read back to `sink`. */
struct plan {
    uint32_t n, to, from, sink, cut, small;
    int inlined;
};

static struct plan draw_plan(struct asker *asker, int round) {
    uint64_t *state = &asker->state;
    struct plan plan = {.n = draw(state) % (round % 8 ? 5000 : 150000), .small = draw(state) % 64, .inlined = draw(state) % 2};
    plan.to = draw(state) % (SIZE - plan.n);
    plan.from = draw(state) % (HALF - plan.n - 64);
    plan.sink = HALF + draw(state) % (HALF - plan.n);
    plan.cut = plan.n ? draw(state) % plan.n : 0;
    return plan;
}

/* A list: a Write of two places, a Read of what it wrote, a fenced Send of what was read, and a small Send. */
static int post_list(struct asker *asker, const struct plan *plan) {
    struct end *end = &asker->end;
    uint64_t local = (uintptr_t)end->local;
    uint32_t lkey = end->local_mr->lkey, length = plan->n < LONGEST ? plan->n : LONGEST;
    int signaled = draw(&asker->state) % 2;
    struct ibv_sge places[2] = {{local + plan->from, plan->cut, lkey}, {local + plan->from + plan->cut, plan->n - plan->cut, lkey}};
    struct ibv_sge all = {local + plan->sink, plan->n, lkey}, part = {local + plan->sink, length, lkey};
    struct ibv_sge tiny = {local + plan->from, plan->small, plan->inlined ? 0 : lkey};
    struct ibv_send_wr wr[4] = {
        {.wr_id = 1, .sg_list = places, .num_sge = 2, .opcode = IBV_WR_RDMA_WRITE},
        {.wr_id = 2, .sg_list = &all, .num_sge = 1, .opcode = IBV_WR_RDMA_READ, .send_flags = signaled ? IBV_SEND_SIGNALED : 0},
        {.wr_id = 3, .sg_list = &part, .num_sge = 1, .opcode = IBV_WR_SEND, .send_flags = IBV_SEND_FENCE | IBV_SEND_SOLICITED},
        {.wr_id = 4, .sg_list = &tiny, .num_sge = 1, .opcode = IBV_WR_SEND,
         .send_flags = IBV_SEND_SIGNALED | (plan->inlined ? IBV_SEND_INLINE : 0)}}, *bad;
    for (int i = 0; i < 2; i++) {
        wr[i].wr.rdma.remote_addr = asker->offer.at + plan->to;
        wr[i].wr.rdma.rkey = asker->offer.rkey;
    }
    for (int i = 0; i < 3; i++) wr[i].next = &wr[i + 1];
    MUST(!ibv_post_send(end->id->qp, wr, &bad));
    return signaled;
}

static void run_round(struct asker *asker, int round) {
    struct end *end = &asker->end;
    struct plan plan = draw_plan(asker, round);
    uint8_t small[64];
    for (uint32_t i = 0; i < plan.n; i++) end->local[plan.from + i] = (uint8_t)draw(&asker->state);
    memcpy(asker->model + plan.to, end->local + plan.from, plan.n);
    memcpy(asker->sent, end->local + plan.from, plan.n);
    memcpy(small, end->local + plan.from, plan.small);
    int signaled = post_list(asker, &plan);
    if (signaled) sent(end->id, IBV_WC_SUCCESS);
    sent(end->id, IBV_WC_SUCCESS);
    MUST(!memcmp(end->local + plan.sink, asker->sent, plan.n));
    for (int i = 0; i < 2; i++) {
        struct ibv_wc wc = next_received(end->id);
        uint32_t n = i ? plan.small : plan.n < LONGEST ? plan.n : LONGEST;
        MUST(wc.status == IBV_WC_SUCCESS && wc.opcode == IBV_WC_RECV && wc.byte_len == n);
        MUST(!memcmp(end->slots + wc.wr_id * SLOT, i ? small : asker->sent, n));
        post_slot(end, wc.wr_id);
    }
}

/* A Send that invalidates, and then a Write to what is no longer valid: the stream ends, and all is flushed. */
static enum ibv_wc_status misuse(struct asker *asker) {
    struct end *end = &asker->end;
    struct offer *offer = &asker->offer;
    struct ibv_sge place = {(uintptr_t)end->local, 8, end->local_mr->lkey};
    struct ibv_send_wr wr = {.sg_list = &place, .num_sge = 1, .opcode = IBV_WR_SEND_WITH_INV, .send_flags = IBV_SEND_SIGNALED,
                             .invalidate_rkey = offer->second_rkey}, *bad;
    MUST(!rdma_post_write(end->id, NULL, end->local, 8, end->local_mr, IBV_SEND_SIGNALED, offer->second_at, offer->second_rkey));
    sent(end->id, IBV_WC_SUCCESS);
    MUST(!ibv_post_send(end->id->qp, &wr, &bad));
    sent(end->id, IBV_WC_SUCCESS);
    received(end->id, IBV_WC_SUCCESS);
    MUST(!rdma_post_write(end->id, NULL, end->local, 8, end->local_mr, 0, offer->second_at, offer->second_rkey));
    MUST(!rdma_post_read(end->id, NULL, end->local, 8, end->local_mr, IBV_SEND_SIGNALED, offer->at, offer->rkey));
    struct ibv_wc wc = next_sent(end->id);
    MUST(wc.status != IBV_WC_SUCCESS);
    for (int i = 0; i < SLOTS - 1; i++) received(end->id, IBV_WC_WR_FLUSH_ERR);
    return wc.status;
}

static void *ask(void *number) {
    struct asker asker = {.state = seed + (uintptr_t)number * 7919};
    struct end *end = &asker.end;
    begin(&asker);
    for (int round = 0; round < rounds; round++) run_round(&asker, round);
    MUST(!rdma_post_read(end->id, NULL, end->local, SIZE, end->local_mr, IBV_SEND_SIGNALED, asker.offer.at, asker.offer.rkey));
    sent(end->id, IBV_WC_SUCCESS);
    MUST(!memcmp(end->local, asker.model, SIZE));
    enum ibv_wc_status status = misuse(&asker);
    leave(end);
    free(asker.model);
    free(asker.sent);
    printf("connection %d: %d rounds, then %s\n", (int)(uintptr_t)number, rounds, ibv_wc_status_str(status));
    return NULL;
}

int main(int argc, char **argv) {
    pthread_t askers[MOST], servers[MOST];
    if (argc != 5) {
        fprintf(stderr, "usage: exercise PORT SEED ROUNDS CONNECTIONS\n");
        return 2;
    }
    port = argv[1];
    seed = strtoull(argv[2], NULL, 0);
    rounds = atoi(argv[3]);
    int connections = atoi(argv[4]);
    MUST(connections > 0 && connections <= MOST);
    struct rdma_cm_id *listener = listen_at(port, NULL), *id;
    for (int i = 0; i < connections; i++) MUST(!pthread_create(&askers[i], NULL, ask, (void *)(uintptr_t)i));
    for (int i = 0; i < connections; i++) {
        MUST(!rdma_get_request(listener, &id));
        MUST(!pthread_create(&servers[i], NULL, serve, id));
    }
    for (int i = 0; i < connections; i++) {
        pthread_join(askers[i], NULL);
        pthread_join(servers[i], NULL);
    }
    rdma_destroy_ep(listener);
    printf("done\n");
    return 0;
}
