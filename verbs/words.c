/* What numbers mean, in libibverbs' and librdmacm's own words. */
#include "calls.h"

static const char *word(const char *const *words, size_t n, size_t i, const char *other) {
    return i < n && words[i] ? words[i] : other;
}
#define WORD(words, i, other) word(words, sizeof words / sizeof *words, (size_t)(i), other)

const char *rdma_event_str(enum rdma_cm_event_type type) {
    static const char *const words[] = {"RDMA_CM_EVENT_ADDR_RESOLVED", "RDMA_CM_EVENT_ADDR_ERROR", "RDMA_CM_EVENT_ROUTE_RESOLVED",
        "RDMA_CM_EVENT_ROUTE_ERROR", "RDMA_CM_EVENT_CONNECT_REQUEST", "RDMA_CM_EVENT_CONNECT_RESPONSE", "RDMA_CM_EVENT_CONNECT_ERROR",
        "RDMA_CM_EVENT_UNREACHABLE", "RDMA_CM_EVENT_REJECTED", "RDMA_CM_EVENT_ESTABLISHED", "RDMA_CM_EVENT_DISCONNECTED",
        "RDMA_CM_EVENT_DEVICE_REMOVAL", "RDMA_CM_EVENT_MULTICAST_JOIN", "RDMA_CM_EVENT_MULTICAST_ERROR", "RDMA_CM_EVENT_ADDR_CHANGE",
        "RDMA_CM_EVENT_TIMEWAIT_EXIT"};
    return WORD(words, type, "UNKNOWN EVENT");
}

const char *ibv_wc_status_str(enum ibv_wc_status status) {
    static const char *const words[] = {"success", "local length error", "local QP operation error", "local EE context operation error",
        "local protection error", "Work Request Flushed Error", "memory management operation error", "bad response error",
        "local access error", "remote invalid request error", "remote access error", "remote operation error",
        "transport retry counter exceeded", "RNR retry counter exceeded", "local RDD violation error",
        "remote invalid RD request", "aborted error", "invalid EE context number", "invalid EE context state", "fatal error",
        "response timeout error", "general error"};
    return WORD(words, status, "unknown");
}

const char *ibv_node_type_str(enum ibv_node_type type) {
    static const char *const words[] = {[IBV_NODE_CA] = "InfiniBand channel adapter", [IBV_NODE_RNIC] = "iWARP NIC"};
    return WORD(words, type, "unknown");
}

const char *ibv_port_state_str(enum ibv_port_state state) {
    static const char *const words[] = {"no state change (NOP)", "down", "init", "armed", "active", "active defer"};
    return WORD(words, state, "invalid state");
}

const char *ibv_event_type_str(enum ibv_event_type type) {
    static const char *const words[] = {[IBV_EVENT_CQ_ERR] = "CQ error", [IBV_EVENT_QP_FATAL] = "local work queue catastrophic error",
        [IBV_EVENT_SRQ_LIMIT_REACHED] = "SRQ limit reached", [IBV_EVENT_QP_LAST_WQE_REACHED] = "last WQE reached"};
    return WORD(words, type, "unknown");
}
