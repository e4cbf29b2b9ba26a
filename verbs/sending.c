/* The send queue of a queue pair: its requests are posted to the stream in order, a Write part by part, and complete in order. */
#include "calls.h"

enum step { GOES_ON, WAITS, AT_FAULT };

static struct send *send_at(const struct pair *pair, unsigned place) {
    return &pair->sends[place & (pair->size - 1)];
}

static unsigned head_of(const struct pair *pair) {
    return atomic_load_explicit(&pair->head, memory_order_relaxed);
}

/* ---- completions */

static enum ibv_wc_opcode opcode_of(enum ibv_wr_opcode opcode) {
    switch (opcode) {
    case IBV_WR_RDMA_WRITE: return IBV_WC_RDMA_WRITE;
    case IBV_WR_RDMA_READ: return IBV_WC_RDMA_READ;
    case IBV_WR_LOCAL_INV: return IBV_WC_LOCAL_INV;
    default: return IBV_WC_SEND;
    }
}

/* The oldest request is over. */
static void complete(struct pair *pair, enum ibv_wc_status status) {
    struct send *send = send_at(pair, head_of(pair));
    struct ibv_wc wc = {.wr_id = send->wr_id, .status = status, .opcode = opcode_of(send->opcode), .byte_len = (uint32_t)send->len,
                        .qp_num = pair->qp.qp_base.qp_num};
    int told = status != IBV_WC_SUCCESS || pair->all_signaled || (send->flags & IBV_SEND_SIGNALED);
    if (send->opcode == IBV_WR_RDMA_READ && send->begun) pair->reads--;
    if (pair->mid == head_of(pair)) pair->mid++;
    atomic_store_explicit(&pair->head, head_of(pair) + 1, memory_order_release);
    if (told) completion_push((struct completions *)pair->qp.qp_base.send_cq, &wc, 0, pair);
}

/* The oldest part that is at the stream is done, or was handed back. */
void send_part_done(struct pair *pair, enum ibv_wc_status status) {
    struct part part = pair->parts[pair->first_part];
    struct send *send = send_at(pair, head_of(pair));
    pair->first_part = (pair->first_part + 1) % MOST_MESSAGES;
    pair->n_parts--;
    pair->under_way -= part.len;
    if (send->fault == IBV_WC_SUCCESS) send->fault = status;
    if (part.last) complete(pair, send->fault);
}

/* What is left is given up. What was at the stream was handed back before. */
void sends_flush(struct pair *pair) {
    pair->n_parts = 0;
    pair->under_way = 0;
    while (head_of(pair) != pair->tail) {
        enum ibv_wc_status fault = send_at(pair, head_of(pair))->fault;
        complete(pair, fault == IBV_WC_SUCCESS ? IBV_WC_WR_FLUSH_ERR : fault);
    }
}

/* ---- posting to the stream */

/* Whether the program may use all the places as the request does. */
static int places_fit(struct pair *pair, const struct send *send) {
    struct domain *domain = (struct domain *)pair->qp.qp_base.pd;
    if (send->flags & IBV_SEND_INLINE) return 1;
    for (int i = 0; i < send->n; i++)
        if (!region_octets(domain, &send->places[i], send->opcode == IBV_WR_RDMA_READ ? IBV_ACCESS_LOCAL_WRITE : 0)) return 0;
    return 1;
}

/* Room to gather octets in; null if there is no memory for it. */
static uint8_t *gathering_room(struct domain *domain, uint64_t n) {
    if (n <= domain->gathered_room) return domain->gathered;
    uint8_t *at = malloc(n);
    if (!at) return NULL;
    free(domain->gathered);
    domain->gathered = at;
    domain->gathered_room = n;
    return at;
}

/* Octets of a request, n from the octet `from` on: where they stand, if they lie in one place, else gathered. */
static const uint8_t *octets_of(struct pair *pair, const struct send *send, uint64_t from, uint64_t n) {
    struct domain *domain = (struct domain *)pair->qp.qp_base.pd;
    uint64_t had = 0;
    int i = 0;
    if (n == 0) return iwarp_octets(NULL);
    if (send->flags & IBV_SEND_INLINE) return pair->inlined + (size_t)(send - pair->sends) * pair->cap.max_inline_data + from;
    while (from >= send->places[i].length) from -= send->places[i++].length;
    if (n <= send->places[i].length - from) return region_octets(domain, &send->places[i], 0) + from;
    uint8_t *to = gathering_room(domain, n);
    for (; to && had < n; from = 0, i++) {
        uint64_t left = send->places[i].length - from, take = n - had < left ? n - had : left;
        if (take) memcpy(to + had, region_octets(domain, &send->places[i], 0) + from, take);
        had += take;
    }
    return to;
}

/* The posting of the next part of a request, and how many octets it has. */
static enum step describe(struct pair *pair, struct send *send, struct iwarp_posting *posting, uint64_t *n) {
    *posting = (struct iwarp_posting){.size = sizeof *posting, .stag = send->stag, .to = send->to + send->posted};
    *n = send->len - send->posted;
    switch (send->opcode) {
    case IBV_WR_RDMA_READ:
        posting->kind = IWARP_MESSAGE_READ;
        if (send->n && region_sink((struct domain *)pair->qp.qp_base.pd, &send->places[0], &posting->sink) < 0) {
            send->fault = IBV_WC_LOC_QP_OP_ERR;
            return AT_FAULT;
        }
        posting->sink_to = send->n ? send->places[0].addr + send->posted : 0;
        posting->len = (uint32_t)*n;
        return GOES_ON;
    case IBV_WR_RDMA_WRITE:
        posting->kind = IWARP_MESSAGE_WRITE;
        if (*n > PART) *n = PART;
        break;
    default:
        posting->kind = IWARP_MESSAGE_SEND;
        if (send->flags & IBV_SEND_SOLICITED) posting->flags |= IWARP_SOLICITED;
        if (send->opcode == IBV_WR_SEND_WITH_INV) posting->flags |= IWARP_INVALIDATES;
    }
    return pair->under_way && pair->under_way + *n > PART ? WAITS : GOES_ON;
}

static enum step refused(struct pair *pair, struct send *send, int32_t code) {
    if (code == IWARP_MESSAGES_FULL || code == IWARP_NOT_OPEN) return WAITS;
    if (code == IWARP_NO_MEMORY) {
        connection_retry(pair->connection);
        return WAITS;
    }
    LOG("a request is refused: %s\n", iwarp_text(code));
    send->fault = code == IWARP_NO_REGION || code == IWARP_OUTSIDE ? IBV_WC_LOC_PROT_ERR : IBV_WC_LOC_QP_OP_ERR;
    return AT_FAULT;
}

static enum step post_part(struct pair *pair, struct send *send) {
    struct connection *c = pair->connection;
    struct iwarp_posting posting;
    uint64_t n;
    enum step step = pair->n_parts == MOST_MESSAGES ? WAITS : describe(pair, send, &posting, &n);
    if (step != GOES_ON) return step;
    int reads = posting.kind == IWARP_MESSAGE_READ;
    const uint8_t *octets = reads ? iwarp_octets(NULL) : octets_of(pair, send, send->posted, n);
    int32_t code = octets ? iwarp_post(c->handle, c->stream, &posting, octets, reads ? 0 : n) : IWARP_NO_MEMORY;
    if (code != IWARP_OK) return refused(pair, send, code);
    struct part part = {reads ? 0 : (uint32_t)n, send->posted + n == send->len};
    pair->parts[(pair->first_part + pair->n_parts++) % MOST_MESSAGES] = part;
    pair->under_way += part.len;
    if (reads && !send->begun) pair->reads++;
    send->begun = 1;
    send->posted += n;
    if (part.last) pair->mid++;
    return GOES_ON;
}

/* Makes a region of this end invalid, once all before it is done. */
static enum step invalidate(struct pair *pair, struct send *send) {
    if (pair->mid != head_of(pair)) return WAITS;
    if (iwarp_invalidate(pair->connection->handle, send->stag) != IWARP_OK) {
        send->fault = IBV_WC_LOC_QP_OP_ERR;
        return AT_FAULT;
    }
    complete(pair, IBV_WC_SUCCESS);
    return GOES_ON;
}

static enum step post_next(struct pair *pair) {
    struct send *send = send_at(pair, pair->mid);
    if ((send->flags & IBV_SEND_FENCE) && pair->reads) return WAITS;
    if (send->fault == IBV_WC_SUCCESS && !places_fit(pair, send)) send->fault = IBV_WC_LOC_PROT_ERR;
    if (send->fault != IBV_WC_SUCCESS) return AT_FAULT;
    return send->opcode == IBV_WR_LOCAL_INV ? invalidate(pair, send) : post_part(pair, send);
}

/* Posts to the stream what it takes. -1: the oldest request cannot be posted, and the connection is to end. */
int sends_post(struct pair *pair) {
    enum step step = GOES_ON;
    if (!pair->connection->established || pair->connection->ended) return 0;
    while (pair->mid != pair->tail && step == GOES_ON) step = post_next(pair);
    return step == AT_FAULT && pair->mid == head_of(pair) && pair->n_parts == 0 ? -1 : 0;
}
