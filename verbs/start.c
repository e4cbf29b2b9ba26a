/* How a connection gets its stream, in the domain of its queue pair. */
#include "calls.h"

#include <netinet/tcp.h>
#include <sys/epoll.h>
#include <sys/socket.h>

/* The maximum ULPDU: as TCP's segments have, but for the FPDU's length field, padding and CRC (RFC 5044 appendix A). */
static uint32_t mulpdu_of(int fd) {
    int segment = 0;
    socklen_t n = sizeof segment;
    if (context.settings.mulpdu) return (uint32_t)context.settings.mulpdu;
    if (getsockopt(fd, IPPROTO_TCP, TCP_MAXSEG, &segment, &n) < 0) return 1400;
    segment -= 8;
    return segment < 128 ? 1400 : segment > MOST_MULPDU ? MOST_MULPDU : (uint32_t)segment;
}

/* From now on the connection is its domain's, and in its loop. */
static void join(struct connection *c, struct pair *pair) {
    struct domain *domain = (struct domain *)pair->qp.qp_base.pd;
    connection_within(c, 0);
    if (c->loop != domain->loop) {
        connection_watch(c, 0);
        c->loop = domain->loop;
    }
    atomic_fetch_add(&domain->holders, 1);
    c->domain = domain;
    c->handle = &domain->handle;
    c->pair = pair;
    c->state = STREAMING;
    pair->connection = c;
    atomic_store(&c->lock, &domain->lock);
}

int stream_open(struct connection *c, struct pair *pair, uint32_t role, const void *private_data, size_t n) {
    struct domain *domain = (struct domain *)pair->qp.qp_base.pd;
    uint32_t options = IWARP_ENHANCED | (context.settings.crc ? IWARP_CRC : 0);
    if (role == IWARP_INITIATOR && context.settings.peer_to_peer) options |= IWARP_PEER_TO_PEER;
    if (pair->dead || (pair->connection && pair->connection != c)) return failed(EINVAL);
    int32_t code = c->frames.at ? IWARP_OK : iwarp_buffer_new(0, &c->frames);
    if (code == IWARP_OK)
        code = iwarp_open_shared_next(&domain->handle, DOMAIN, role, options, iwarp_octets(private_data), n, &c->stream);
    if (code != IWARP_OK) {
        LOG("a stream is not opened: %s\n", iwarp_text(code));
        return failed(code == IWARP_PRIVATE_TOO_LONG ? EINVAL : ENOMEM);
    }
    must(iwarp_set_mulpdu(&domain->handle, c->stream, mulpdu_of(c->fd)), "iwarp_set_mulpdu");
    c->has_stream = 1;
    join(c, pair);
    if (pair->qp.qp_base.state < IBV_QPS_RTR) pair->qp.qp_base.state = IBV_QPS_RTR;
    connection_watch(c, EPOLLIN);
    return 0;
}

/* Leaves the lobby: the stream in the queue pair's own domain is given the same Request, and accepts it. */
int stream_accept(struct connection *c, struct pair *pair, const void *private_data, size_t n) {
    struct iwarp_event event;
    uint32_t kept, agreed;
    lobby_leave(c);
    if (stream_open(c, pair, IWARP_RESPONDER, NULL, 0) < 0) return -1;
    int32_t code = iwarp_deliver(c->handle, c->stream, 0, c->request, c->requested, &kept);
    if (code == IWARP_OK) code = iwarp_work_on(c->handle, c->stream, &event);
    if (code == IWARP_OK && event.kind != IWARP_ASKED) return failed(ECONNABORTED);
    if (code == IWARP_OK) code = iwarp_accept(c->handle, c->stream, iwarp_octets(private_data), n, &agreed);
    if (code != IWARP_OK) {
        LOG("a Request is not accepted: %s\n", iwarp_text(code));
        return failed(code == IWARP_NO_MEMORY ? ENOMEM : EINVAL);
    }
    c->established = 1;
    pair->qp.qp_base.state = IBV_QPS_RTS;
    return 0;
}
