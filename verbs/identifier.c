/* librdmacm: identifiers, and their queue pairs. */
#include "calls.h"

#include <rdma/rdma_verbs.h>
#include <sys/socket.h>

struct identifier *identifier_new(struct events *channel, void *own, enum rdma_port_space ps) {
    struct identifier *id = calloc(1, sizeof *id);
    if (!id) return none(ENOMEM);
    id->sync = !channel;
    id->socket = -1;
    if (!channel) channel = events_new();
    if (!channel) {
        free(id);
        return NULL;
    }
    id->id = (struct rdma_cm_id){.channel = &channel->channel, .context = own, .ps = ps, .qp_type = IBV_QPT_RC};
    pthread_mutex_lock(&context.events);
    channel->users++;
    pthread_mutex_unlock(&context.events);
    return id;
}

/* The identifier is at the one device there is, and has a domain. */
int identifier_bind_device(struct identifier *id) {
    id->id.verbs = &context.verbs.context;
    id->id.port_num = 1;
    if (id->id.pd) return 0;
    pthread_mutex_lock(&context.manager);
    id->id.pd = default_pd();
    pthread_mutex_unlock(&context.manager);
    return id->id.pd ? 0 : failed(ENOMEM);
}

int rdma_create_id(struct rdma_event_channel *channel, struct rdma_cm_id **out, void *own, enum rdma_port_space ps) {
    if (ps != RDMA_PS_TCP && ps != RDMA_PS_IB) return failed(EPROTONOSUPPORT);
    struct identifier *id = identifier_new((struct events *)channel, own, ps);
    if (!id) return -1;
    *out = &id->id;
    return 0;
}

/* Its connection goes. One that was asked for, and not answered, is closed, which the peer is told as a rejection. */
static void connection_forget(struct identifier *id) {
    struct connection *c = id->connection;
    if (!c) return;
    connection_lock(c);
    c->id = NULL;
    c->told_end = 1;
    if (c->state == LISTENING) listener_forget(c);
    stream_end(c);
    connection_unlock(c);
    connection_release(c);
    id->connection = NULL;
}

/* Leaves its channel, which goes with it if it was made for it alone. */
static void leave_channel(struct identifier *id) {
    struct events *events = (struct events *)id->id.channel;
    if (id->sync) {
        close(events->channel.fd);
        events->destroyed = 1;
    }
    events_let_go(events, 1);
}

/* Requests that the program did not take go with their listener. */
static void requests_forget(struct identifier *listener) {
    for (struct event *event; (event = event_asked(listener)); free(event)) rdma_destroy_id(event->event.id);
}

int rdma_destroy_id(struct rdma_cm_id *cm_id) {
    struct identifier *id = (struct identifier *)cm_id;
    int listens = id->listens;
    connection_forget(id);
    if (listens) requests_forget(id);
    if (id->socket >= 0) close(id->socket);
    pthread_mutex_lock(&context.events);
    events_move(id, NULL);
    leave_channel(id);
    pthread_mutex_unlock(&context.events);
    free(cm_id->event);
    free(id->spare[0]);
    free(id->spare[1]);
    free(id->listener_attr);
    free(id);
    return 0;
}

int rdma_migrate_id(struct rdma_cm_id *cm_id, struct rdma_event_channel *channel) {
    struct identifier *id = (struct identifier *)cm_id;
    struct events *to = channel ? (struct events *)channel : events_new();
    if (!to) return -1;
    pthread_mutex_lock(&context.events);
    events_move(id, to);
    leave_channel(id);
    cm_id->channel = &to->channel;
    to->users++;
    id->sync = !channel;
    pthread_mutex_unlock(&context.events);
    return 0;
}

/* A Request came: the program is told, with an identifier for it. */
int identifier_asked(struct connection *c) {
    struct identifier *listener = c->listener;
    struct identifier *id = identifier_new((struct events *)listener->id.channel, listener->id.context, listener->id.ps);
    socklen_t n = sizeof id->id.route.addr.src_storage, m = n;
    if (!id) return -1;
    id->sync = 0;
    id->id.verbs = &context.verbs.context;
    id->id.port_num = 1;
    id->id.pd = default_pd();
    struct event *event = event_new(id, RDMA_CM_EVENT_CONNECT_REQUEST, 0);
    if (!id->id.pd || !event || events_reserve(id) < 0) {
        free(event);
        rdma_destroy_id(&id->id);
        return -1;
    }
    getsockname(c->fd, &id->id.route.addr.src_addr, &n);
    getpeername(c->fd, &id->id.route.addr.dst_addr, &m);
    atomic_fetch_add(&c->references, 1);
    id->connection = c;
    c->id = id;
    event_describe(event, c);
    event->event.listen_id = &listener->id;
    event_tell(event);
    return 0;
}

/* ---- queue pairs */

/* The queue pair of a connection: the identifier's, or one that the program made, and names by its number. */
struct pair *identifier_pair(struct identifier *id, const struct rdma_conn_param *param) {
    return id->id.qp ? (struct pair *)id->id.qp : param ? pair_find(param->qp_num) : NULL;
}

static void destroy_cqs(struct rdma_cm_id *id) {
    if (id->recv_cq) ibv_destroy_cq(id->recv_cq);
    if (id->recv_cq_channel) ibv_destroy_comp_channel(id->recv_cq_channel);
    if (id->send_cq) ibv_destroy_cq(id->send_cq);
    if (id->send_cq_channel) ibv_destroy_comp_channel(id->send_cq_channel);
    id->recv_cq = id->send_cq = NULL;
    id->recv_cq_channel = id->send_cq_channel = NULL;
}

static struct ibv_cq *create_cq(struct rdma_cm_id *id, uint32_t n, struct ibv_comp_channel **channel) {
    *channel = ibv_create_comp_channel(id->verbs);
    return *channel ? ibv_create_cq(id->verbs, (int)n + 1, id, *channel, 0) : NULL;
}

/* Makes the completion queues that the program did not. */
static int create_cqs(struct rdma_cm_id *id, struct ibv_qp_init_attr_ex *attr) {
    if (!attr->recv_cq) attr->recv_cq = id->recv_cq = create_cq(id, attr->cap.max_recv_wr, &id->recv_cq_channel);
    if (!attr->send_cq) attr->send_cq = id->send_cq = create_cq(id, attr->cap.max_send_wr, &id->send_cq_channel);
    if (attr->recv_cq && attr->send_cq) return 0;
    destroy_cqs(id);
    return -1;
}

static struct ibv_pd *pd_of(struct rdma_cm_id *id, struct ibv_pd *pd) {
    if (identifier_bind_device((struct identifier *)id) < 0) return NULL;
    return pd ? pd : id->pd;
}

int rdma_create_qp_ex(struct rdma_cm_id *id, struct ibv_qp_init_attr_ex *attr) {
    if (id->qp) return failed(EINVAL);
    if (attr->comp_mask & ~(uint32_t)(IBV_QP_INIT_ATTR_PD | IBV_QP_INIT_ATTR_SEND_OPS_FLAGS)) return failed(EOPNOTSUPP);
    struct ibv_pd *pd = pd_of(id, attr->comp_mask & IBV_QP_INIT_ATTR_PD ? attr->pd : NULL);
    if (!pd) return failed(ENOMEM);
    attr->comp_mask |= IBV_QP_INIT_ATTR_PD;
    attr->pd = pd;
    if (!attr->srq) attr->srq = id->srq;
    if (create_cqs(id, attr) < 0) return -1;
    struct ibv_qp *qp = pair_new(pd, (struct ibv_qp_init_attr *)attr, 1);
    if (!qp) {
        int error = errno;
        destroy_cqs(id);
        return failed(error);
    }
    id->pd = pd;
    qp->state = IBV_QPS_INIT;
    id->qp = qp;
    return 0;
}

int rdma_create_qp(struct rdma_cm_id *id, struct ibv_pd *pd, struct ibv_qp_init_attr *attr) {
    struct ibv_qp_init_attr_ex ex = {0};
    memcpy(&ex, attr, sizeof *attr); /* whose fields are in front */
    ex.comp_mask = IBV_QP_INIT_ATTR_PD;
    ex.pd = pd;
    int code = rdma_create_qp_ex(id, &ex);
    if (code == 0) memcpy(attr, &ex, sizeof *attr);
    return code;
}

void rdma_destroy_qp(struct rdma_cm_id *id) {
    struct ibv_qp *qp = id->qp;
    if (!qp) return;
    pthread_mutex_lock(&context.manager); /* a connection that begins may look for it */
    id->qp = NULL;
    pthread_mutex_unlock(&context.manager);
    ibv_destroy_qp(qp);
    destroy_cqs(id);
}

int rdma_create_srq(struct rdma_cm_id *id, struct ibv_pd *pd, struct ibv_srq_init_attr *attr) {
    pd = pd_of(id, pd);
    id->srq = pd ? ibv_create_srq(pd, attr) : NULL;
    return id->srq ? 0 : -1;
}

void rdma_destroy_srq(struct rdma_cm_id *id) {
    ibv_destroy_srq(id->srq);
    id->srq = NULL;
}

int rdma_init_qp_attr(struct rdma_cm_id *id, struct ibv_qp_attr *attr, int *mask) {
    (void)id;
    (void)attr;
    *mask = 0;
    return 0;
}
