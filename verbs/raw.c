/* Queue pairs without the connection manager, if IWARP_VERBS_AS is roce: programs tell each other GID and number by ways of their own,
 * and call ibv_modify_qp. The device looks as one of RoCE then: its GID is an IPv4 address, and a number has the TCP port at which the
 * queue pair listens. At RTR the end with the higher address connects, and says in its private data for which queue pair. */
#include "calls.h"

#include <netinet/in.h>
#include <netinet/tcp.h>
#include <sys/epoll.h>
#include <sys/socket.h>

enum { WITH_PORT = 0x10000, BACKLOG = 4 };
static const char MAGIC[4] = {'I', 'W', 'Q', 'P'};

struct hello {
    char magic[4];
    uint32_t from;
};

void raw_gid(union ibv_gid *gid) {
    memset(gid, 0, sizeof *gid);
    gid->raw[10] = gid->raw[11] = 0xff;
    memcpy(gid->raw + 12, &context.settings.address, sizeof context.settings.address);
}

/* Locked: the manager. */
int raw_listen(struct pair *pair) {
    struct sockaddr_in at = {.sin_family = AF_INET, .sin_addr = context.settings.address};
    socklen_t n = sizeof at;
    int fd = socket(AF_INET, SOCK_STREAM | SOCK_NONBLOCK | SOCK_CLOEXEC, 0);
    if (fd < 0) return -1;
    if (bind(fd, (struct sockaddr *)&at, n) < 0 || listen(fd, BACKLOG) < 0 || getsockname(fd, (struct sockaddr *)&at, &n) < 0) {
        close(fd);
        return -1;
    }
    struct domain *domain = (struct domain *)pair->qp.qp_base.pd;
    pair->listener = connection_new(fd, LISTENING, domain->loop, EPOLLIN);
    if (!pair->listener) return -1;
    pair->listener->raw = pair;
    pair->qp.qp_base.qp_num = WITH_PORT | ntohs(at.sin_port);
    return 0;
}

/* Accepts the peer that asked. Locked: the manager, and the domain. */
static void take(struct pair *pair) {
    struct connection *c = pair->asking;
    pair->asking = NULL;
    if (stream_accept(c, pair, NULL, 0) == 0) {
        stream_pump(c);
        return;
    }
    stream_end(c);
    pair_flush(pair);
}

/* A Request came at the queue pair's own port. Locked: the manager. */
void raw_asked(struct connection *c) {
    struct pair *pair = c->raw;
    struct domain *domain = (struct domain *)pair->qp.qp_base.pd;
    struct hello hello;
    uint8_t private_data[512];
    size_t n = 0;
    if (iwarp_private(c->handle, c->stream, private_data, sizeof private_data, &n) != IWARP_OK) n = 0;
    if (n >= sizeof hello) memcpy(&hello, private_data, sizeof hello);
    pthread_mutex_lock(&domain->lock);
    if (n < sizeof hello || memcmp(hello.magic, MAGIC, sizeof MAGIC) || pair->asking || pair->connection || pair->dead) {
        stream_end(c);
    } else {
        c->from = hello.from;
        pair->asking = c;
        if (pair->peer == hello.from) take(pair);
    }
    pthread_mutex_unlock(&domain->lock);
}

/* Connects to the peer's own port. */
static int begin(struct pair *pair, struct in_addr there) {
    struct sockaddr_in at = {.sin_family = AF_INET, .sin_port = htons((uint16_t)pair->peer), .sin_addr = there};
    struct domain *domain = (struct domain *)pair->qp.qp_base.pd;
    int one = 1, fd = socket(AF_INET, SOCK_STREAM | SOCK_NONBLOCK | SOCK_CLOEXEC, 0);
    if (fd < 0) return errno;
    setsockopt(fd, IPPROTO_TCP, TCP_NODELAY, &one, sizeof one);
    if (connect(fd, (struct sockaddr *)&at, sizeof at) < 0 && errno != EINPROGRESS) {
        close(fd);
        return ECONNREFUSED;
    }
    struct connection *c = connection_new(fd, CONNECTING, domain->loop, EPOLLOUT);
    if (!c) return ENOMEM;
    c->raw = c->pair = pair;
    pair->connection = c;
    connection_within(c, ANSWER_MS);
    return 0;
}

/* The queue pair is told its peer. Locked: the manager, and the domain. An errno, or 0. */
int raw_ready(struct pair *pair, const struct ibv_qp_attr *attr) {
    struct in_addr own = context.settings.address, there = own;
    struct ibv_qp *qp = &pair->qp.qp_base;
    if (attr->ah_attr.is_global) memcpy(&there, attr->ah_attr.grh.dgid.raw + 12, sizeof there);
    pair->peer = attr->dest_qp_num;
    qp->state = IBV_QPS_RTR;
    int order = memcmp(&own, &there, sizeof own);
    if (order == 0) order = qp->qp_num > pair->peer ? 1 : -1;
    if (order > 0) return begin(pair, there);
    if (pair->asking && pair->asking->from == pair->peer) take(pair);
    return 0;
}

/* The socket is connected, or is not. Locked: the manager. */
int raw_connected(struct connection *c, int error) {
    struct pair *pair = c->raw;
    struct domain *domain = (struct domain *)pair->qp.qp_base.pd;
    struct hello hello = {.from = pair->qp.qp_base.qp_num};
    memcpy(hello.magic, MAGIC, sizeof MAGIC);
    pthread_mutex_lock(&domain->lock);
    int code = error ? -1 : stream_open(c, pair, IWARP_INITIATOR, (const uint8_t *)&hello, sizeof hello);
    if (code == 0) {
        connection_within(c, ANSWER_MS);
        stream_pump(c);
    } else {
        stream_end(c);
    }
    pthread_mutex_unlock(&domain->lock);
    return code;
}

/* The queue pair goes. Locked: the manager. */
void raw_forget(struct pair *pair) {
    if (pair->asking) stream_end(pair->asking);
    pair->asking = NULL;
    if (!pair->listener) return;
    listener_forget(pair->listener);
    connection_close(pair->listener);
    pair->listener = NULL;
}
