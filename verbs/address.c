/* librdmacm: addresses, devices and options. */
#include "calls.h"

#include <netdb.h>
#include <sys/socket.h>

static int copy_address(struct sockaddr **to, socklen_t *n, const struct sockaddr *from, socklen_t m) {
    *to = malloc(m);
    if (!*to) return failed(ENOMEM);
    memcpy(*to, from, m);
    *n = m;
    return 0;
}

/* What the system's own resolver is asked for. */
static struct addrinfo wanted(const struct rdma_addrinfo *hints) {
    struct addrinfo want = {.ai_socktype = SOCK_STREAM, .ai_family = AF_UNSPEC};
    if (!hints) return want;
    want.ai_family = hints->ai_family;
    if (hints->ai_flags & RAI_PASSIVE) want.ai_flags |= AI_PASSIVE;
    if (hints->ai_flags & RAI_NUMERICHOST) want.ai_flags |= AI_NUMERICHOST;
    return want;
}

static int fill_addresses(struct rdma_addrinfo *at, const struct addrinfo *found, const struct rdma_addrinfo *hints) {
    int passive = at->ai_flags & RAI_PASSIVE, code = 0;
    if (found && passive) code = copy_address(&at->ai_src_addr, &at->ai_src_len, found->ai_addr, found->ai_addrlen);
    else if (found) code = copy_address(&at->ai_dst_addr, &at->ai_dst_len, found->ai_addr, found->ai_addrlen);
    else if (hints && hints->ai_dst_len) code = copy_address(&at->ai_dst_addr, &at->ai_dst_len, hints->ai_dst_addr, hints->ai_dst_len);
    if (code == 0 && !at->ai_src_len && hints && hints->ai_src_len)
        code = copy_address(&at->ai_src_addr, &at->ai_src_len, hints->ai_src_addr, hints->ai_src_len);
    return code;
}

int rdma_getaddrinfo(const char *node, const char *service, const struct rdma_addrinfo *hints, struct rdma_addrinfo **out) {
    struct addrinfo want = wanted(hints), *found = NULL;
    if (hints && hints->ai_port_space == RDMA_PS_UDP) return failed(EPROTONOSUPPORT);
    if (!node && !service && !hints) return failed(EINVAL);
    int code = node || service ? getaddrinfo(node, service, &want, &found) : 0;
    if (code) return code;
    struct rdma_addrinfo *at = calloc(1, sizeof *at);
    if (at) {
        at->ai_flags = hints ? hints->ai_flags : 0;
        at->ai_qp_type = IBV_QPT_RC;
        at->ai_port_space = RDMA_PS_TCP;
        at->ai_family = found ? found->ai_family : hints ? hints->ai_family : AF_INET;
    }
    code = at ? fill_addresses(at, found, hints) : failed(ENOMEM);
    if (found) freeaddrinfo(found);
    if (code == 0) {
        *out = at;
        return 0;
    }
    rdma_freeaddrinfo(at);
    return failed(ENOMEM);
}

void rdma_freeaddrinfo(struct rdma_addrinfo *at) {
    if (!at) return;
    free(at->ai_src_addr);
    free(at->ai_dst_addr);
    free(at);
}

static __be16 port_of(const struct sockaddr *at) {
    if (at->sa_family == AF_INET6) return ((const struct sockaddr_in6 *)at)->sin6_port;
    return at->sa_family == AF_INET ? ((const struct sockaddr_in *)at)->sin_port : 0;
}

__be16 rdma_get_src_port(struct rdma_cm_id *id) {
    return port_of(&id->route.addr.src_addr);
}

__be16 rdma_get_dst_port(struct rdma_cm_id *id) {
    return port_of(&id->route.addr.dst_addr);
}

struct ibv_context **rdma_get_devices(int *n) {
    struct ibv_context **list = calloc(2, sizeof *list);
    if (list) list[0] = &context.verbs.context;
    if (n) *n = list != NULL;
    return list;
}

void rdma_free_devices(struct ibv_context **list) {
    free(list);
}

/* A type of service, and a time for acknowledgements, change nothing. */
int rdma_set_option(struct rdma_cm_id *id, int level, int name, void *value, size_t n) {
    if (level != RDMA_OPTION_ID || name != RDMA_OPTION_ID_AFONLY) return 0;
    if (n != sizeof(int)) return failed(EINVAL);
    memcpy(&((struct identifier *)id)->only_family, value, n);
    return 0;
}

int rdma_notify(struct rdma_cm_id *id, enum ibv_event_type type) {
    (void)id;
    (void)type;
    return 0;
}
