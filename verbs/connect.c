/* librdmacm: how identifiers are bound, listen, connect, accept and disconnect. */
#include "calls.h"

#include <netinet/in.h>
#include <netinet/tcp.h>
#include <rdma/rdma_verbs.h>
#include <sys/epoll.h>
#include <sys/socket.h>

enum { BACKLOG = 128 };

static socklen_t length_of(const struct sockaddr *at) {
    return at->sa_family == AF_INET6 ? sizeof(struct sockaddr_in6) : sizeof(struct sockaddr_in);
}

static int is_of_ip(const struct sockaddr *at) {
    return at->sa_family == AF_INET || at->sa_family == AF_INET6;
}

static int is_any(const struct sockaddr *at) {
    if (at->sa_family == AF_INET) return ((const struct sockaddr_in *)at)->sin_addr.s_addr == htonl(INADDR_ANY);
    return IN6_IS_ADDR_UNSPECIFIED(&((const struct sockaddr_in6 *)at)->sin6_addr);
}

/* ---- addresses */

int rdma_bind_addr(struct rdma_cm_id *cm_id, struct sockaddr *at) {
    struct identifier *id = (struct identifier *)cm_id;
    socklen_t n = sizeof cm_id->route.addr.src_storage;
    int one = 1;
    if (!is_of_ip(at)) return failed(EAFNOSUPPORT);
    if (id->socket >= 0 || id->connection) return failed(EINVAL);
    int fd = socket(at->sa_family, SOCK_STREAM | SOCK_NONBLOCK | SOCK_CLOEXEC, 0);
    if (fd < 0) return -1;
    setsockopt(fd, SOL_SOCKET, SO_REUSEADDR, &one, sizeof one);
    if (at->sa_family == AF_INET6) setsockopt(fd, IPPROTO_IPV6, IPV6_V6ONLY, &id->only_family, sizeof id->only_family);
    if (bind(fd, at, length_of(at)) < 0 || (!is_any(at) && identifier_bind_device(id) < 0)) {
        int error = errno;
        close(fd);
        return failed(error);
    }
    getsockname(fd, &cm_id->route.addr.src_addr, &n);
    id->socket = fd;
    return 0;
}

/* Tells, in a synchronous call, or by an event. */
static int tell(struct identifier *id, enum rdma_cm_event_type type, int status) {
    struct event *event = event_new(id, type, status);
    if (!event) return failed(ENOMEM);
    event_tell(event);
    return event_wait(id);
}

/* Finds the address of this end, as the route has it. */
int rdma_resolve_addr(struct rdma_cm_id *cm_id, struct sockaddr *src, struct sockaddr *dst, int timeout_ms) {
    struct identifier *id = (struct identifier *)cm_id;
    socklen_t n = sizeof cm_id->route.addr.src_storage;
    (void)timeout_ms;
    if (!dst || !is_of_ip(dst)) return failed(EINVAL);
    if (src && id->socket < 0 && rdma_bind_addr(cm_id, src) < 0) return -1;
    if (identifier_bind_device(id) < 0) return -1;
    memcpy(&cm_id->route.addr.dst_addr, dst, length_of(dst));
    int fd = socket(dst->sa_family, SOCK_DGRAM | SOCK_CLOEXEC, 0);
    if (fd < 0) return -1;
    int status = connect(fd, dst, length_of(dst)) < 0 ? -errno : 0;
    if (id->socket < 0) getsockname(fd, &cm_id->route.addr.src_addr, &n);
    close(fd);
    return tell(id, status ? RDMA_CM_EVENT_ADDR_ERROR : RDMA_CM_EVENT_ADDR_RESOLVED, status);
}

int rdma_resolve_route(struct rdma_cm_id *cm_id, int timeout_ms) {
    (void)timeout_ms;
    if (!is_of_ip(&cm_id->route.addr.dst_addr)) return failed(EINVAL);
    return tell((struct identifier *)cm_id, RDMA_CM_EVENT_ROUTE_RESOLVED, 0);
}

/* ---- connections */

/* Has an identifier have a connection over a socket. Locked: the manager. */
static int adopt(struct identifier *id, int fd, enum connection_state state, uint32_t interest) {
    struct loop *loop = loop_of_manager();
    if (!loop) {
        close(fd);
        return failed(ENOMEM);
    }
    struct connection *c = connection_new(fd, state, loop, interest);
    if (!c) return -1;
    c->id = id;
    atomic_fetch_add(&c->references, 1);
    id->connection = c;
    return 0;
}

int rdma_listen(struct rdma_cm_id *cm_id, int backlog) {
    struct identifier *id = (struct identifier *)cm_id;
    struct sockaddr_in any = {.sin_family = AF_INET};
    if (id->connection) return failed(EINVAL);
    if (id->socket < 0 && rdma_bind_addr(cm_id, (struct sockaddr *)&any) < 0) return -1;
    if (listen(id->socket, backlog > 0 ? backlog : BACKLOG) < 0) return -1;
    pthread_mutex_lock(&context.manager);
    id->listens = 1;
    int code = adopt(id, id->socket, LISTENING, EPOLLIN);
    id->socket = -1;
    pthread_mutex_unlock(&context.manager);
    return code;
}

/* A socket whose connect has begun; -1: it cannot. */
static int begin_socket(struct identifier *id) {
    struct sockaddr *peer = &id->id.route.addr.dst_addr;
    int one = 1, fd = id->socket;
    if (fd < 0) fd = socket(peer->sa_family, SOCK_STREAM | SOCK_NONBLOCK | SOCK_CLOEXEC, 0);
    id->socket = -1;
    if (fd < 0) return -1;
    setsockopt(fd, IPPROTO_TCP, TCP_NODELAY, &one, sizeof one);
    if (connect(fd, peer, length_of(peer)) == 0 || errno == EINPROGRESS) return fd;
    int error = errno;
    close(fd);
    return failed(error);
}

/* A connection of before that is over makes room for another attempt. */
static int forget_before(struct identifier *id) {
    struct connection *c = id->connection;
    if (!c) return 0;
    connection_lock(c);
    int over = c->state == CLOSED || c->state == LINGERING;
    if (over) c->id = NULL;
    connection_unlock(c);
    if (!over) return failed(EISCONN);
    connection_release(c);
    id->connection = NULL;
    return 0;
}

static int keep_param(struct identifier *id, const struct rdma_conn_param *param) {
    if (!param) return 0;
    if (param->private_data_len && !param->private_data) return failed(EINVAL);
    id->param = *param;
    if (param->private_data_len) memcpy(id->private_data, param->private_data, param->private_data_len);
    return 0;
}

int rdma_connect(struct rdma_cm_id *cm_id, struct rdma_conn_param *param) {
    struct identifier *id = (struct identifier *)cm_id;
    if (!is_of_ip(&cm_id->route.addr.dst_addr) || forget_before(id) < 0) return failed(id->connection ? EISCONN : EINVAL);
    if (keep_param(id, param) < 0 || events_reserve(id) < 0) return -1;
    int fd = begin_socket(id);
    if (fd < 0) return -1;
    pthread_mutex_lock(&context.manager);
    int code = identifier_pair(id, param) ? 0 : failed(EINVAL);
    if (code) close(fd);
    else code = adopt(id, fd, CONNECTING, EPOLLOUT);
    if (code == 0) connection_within(id->connection, ANSWER_MS);
    pthread_mutex_unlock(&context.manager);
    return code ? code : event_wait(id);
}

/* Locked: the manager. */
static int accept_asked(struct identifier *id, const struct rdma_conn_param *param) {
    struct connection *c = id->connection;
    struct pair *pair = identifier_pair(id, param);
    if (!c || c->state != ASKED || !pair) return failed(EINVAL);
    struct domain *domain = (struct domain *)pair->qp.qp_base.pd;
    pthread_mutex_lock(&domain->lock);
    int code = stream_accept(c, pair, param ? param->private_data : NULL, param ? param->private_data_len : 0), error = errno;
    if (code == 0) {
        event_tell(event_spare(id, RDMA_CM_EVENT_ESTABLISHED, 0));
        stream_pump(c);
    } else {
        c->told_end = 1;
        stream_end(c);
    }
    pthread_mutex_unlock(&domain->lock);
    return code == 0 ? 0 : failed(error);
}

int rdma_accept(struct rdma_cm_id *cm_id, struct rdma_conn_param *param) {
    struct identifier *id = (struct identifier *)cm_id;
    if (param && param->private_data_len && !param->private_data) return failed(EINVAL);
    if (events_reserve(id) < 0) return -1;
    pthread_mutex_lock(&context.manager);
    int code = accept_asked(id, param);
    pthread_mutex_unlock(&context.manager);
    return code ? code : event_wait(id);
}

int rdma_reject(struct rdma_cm_id *cm_id, const void *private_data, uint8_t n) {
    struct identifier *id = (struct identifier *)cm_id;
    if (!id->connection || (n && !private_data)) return failed(EINVAL);
    connection_lock(id->connection);
    pthread_mutex_t *lock = atomic_load(&id->connection->lock);
    int code = request_reject(id->connection, private_data, n);
    pthread_mutex_unlock(lock);
    return code;
}

/* What was posted is sent, and then this end's output ends. The event comes once the peer's has too. */
int rdma_disconnect(struct rdma_cm_id *cm_id) {
    struct identifier *id = (struct identifier *)cm_id;
    struct connection *c = id->connection;
    if (!c || id->disconnected) return failed(EINVAL);
    connection_lock(c);
    pthread_mutex_t *lock = atomic_load(&c->lock);
    int was = c->established;
    if (c->state == STREAMING && !c->closing) {
        c->closing = 1;
        connection_within(c, LINGER_MS);
        stream_pump(c);
    }
    pthread_mutex_unlock(lock);
    if (!was) return failed(EINVAL);
    id->disconnected = id->sync;
    return event_wait(id);
}

/* ---- synchronous identifiers */

int rdma_get_request(struct rdma_cm_id *listener, struct rdma_cm_id **out) {
    struct identifier *id = (struct identifier *)listener;
    struct rdma_cm_event *event;
    if (!id->sync) return failed(EINVAL);
    if (listener->event) rdma_ack_cm_event(listener->event);
    listener->event = NULL;
    if (rdma_get_cm_event(listener->channel, &event) < 0) return -1;
    if (event->status || event->event != RDMA_CM_EVENT_CONNECT_REQUEST) {
        rdma_ack_cm_event(event);
        return failed(EINVAL);
    }
    struct rdma_cm_id *asked = event->id;
    struct ibv_qp_init_attr attr;
    if (id->listener_attr) attr = *id->listener_attr;
    if (id->listener_attr && !attr.srq) attr.srq = listener->srq;
    if (id->listener_attr && rdma_create_qp(asked, id->listener_pd, &attr) < 0) {
        int error = errno;
        rdma_reject(asked, NULL, 0);
        rdma_ack_cm_event(event);
        rdma_destroy_id(asked);
        return failed(error);
    }
    asked->event = event;
    *out = asked;
    return 0;
}

static int passive_ep(struct identifier *id, struct rdma_addrinfo *at, struct ibv_pd *pd, const struct ibv_qp_init_attr *attr) {
    if (rdma_bind_addr(&id->id, at->ai_src_addr) < 0) return -1;
    id->listener_pd = pd;
    if (pd) id->id.pd = pd;
    if (!attr) return 0;
    id->listener_attr = malloc(sizeof *attr);
    if (!id->listener_attr) return failed(ENOMEM);
    *id->listener_attr = *attr;
    id->listener_attr->qp_type = IBV_QPT_RC;
    return 0;
}

static int active_ep(struct identifier *id, struct rdma_addrinfo *at, struct ibv_pd *pd, struct ibv_qp_init_attr *attr) {
    enum { RESOLVE_MS = 2000 };
    if (rdma_resolve_addr(&id->id, at->ai_src_addr, at->ai_dst_addr, RESOLVE_MS) < 0) return -1;
    if (rdma_resolve_route(&id->id, RESOLVE_MS) < 0) return -1;
    if (!attr) return 0;
    attr->qp_type = IBV_QPT_RC;
    return rdma_create_qp(&id->id, pd, attr);
}

int rdma_create_ep(struct rdma_cm_id **out, struct rdma_addrinfo *at, struct ibv_pd *pd, struct ibv_qp_init_attr *attr) {
    struct rdma_cm_id *cm_id;
    if (rdma_create_id(NULL, &cm_id, NULL, at->ai_port_space) < 0) return -1;
    struct identifier *id = (struct identifier *)cm_id;
    int code = at->ai_flags & RAI_PASSIVE ? passive_ep(id, at, pd, attr) : active_ep(id, at, pd, attr), error = errno;
    if (code == 0) {
        *out = cm_id;
        return 0;
    }
    rdma_destroy_id(cm_id);
    return failed(error);
}

void rdma_destroy_ep(struct rdma_cm_id *id) {
    if (id->qp) rdma_destroy_qp(id);
    if (id->srq) rdma_destroy_srq(id);
    rdma_destroy_id(id);
}
