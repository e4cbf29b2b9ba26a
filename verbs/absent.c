/* What the libraries have and this transport has not: each call says so. (A call that is not here would be the libraries' own, which
 * take an object for theirs.) */
#include "calls.h"

#include <rdma/rdma_verbs.h>
#include <rdma/rsocket.h>

/* A parameter that is not looked at. */
#define UNUSED __attribute__((unused))
#define ABSENT { return EOPNOTSUPP; }
#define ABSENT_FAILS { return failed(EOPNOTSUPP); }
#define ABSENT_OBJECT { return none(EOPNOTSUPP); }

/* ---- libibverbs */

struct ibv_ah *ibv_create_ah(UNUSED struct ibv_pd *pd, UNUSED struct ibv_ah_attr *attr) ABSENT_OBJECT
struct ibv_ah *ibv_create_ah_from_wc(UNUSED struct ibv_pd *pd, UNUSED struct ibv_wc *wc, UNUSED struct ibv_grh *grh,
                                     UNUSED uint8_t port) ABSENT_OBJECT
int ibv_init_ah_from_wc(UNUSED struct ibv_context *verbs, UNUSED uint8_t port, UNUSED struct ibv_wc *wc, UNUSED struct ibv_grh *grh,
                        UNUSED struct ibv_ah_attr *attr) ABSENT_FAILS
int ibv_destroy_ah(UNUSED struct ibv_ah *ah) ABSENT
int ibv_resolve_eth_l2_from_gid(UNUSED struct ibv_context *verbs, UNUSED struct ibv_ah_attr *attr, UNUSED uint8_t mac[6],
                                UNUSED uint16_t *vid) ABSENT
int ibv_attach_mcast(UNUSED struct ibv_qp *qp, UNUSED const union ibv_gid *gid, UNUSED uint16_t lid) ABSENT
int ibv_detach_mcast(UNUSED struct ibv_qp *qp, UNUSED const union ibv_gid *gid, UNUSED uint16_t lid) ABSENT

struct ibv_mr *ibv_reg_dmabuf_mr(UNUSED struct ibv_pd *pd, UNUSED uint64_t offset, UNUSED size_t n, UNUSED uint64_t iova,
                                 UNUSED int fd, UNUSED int access) ABSENT_OBJECT
int ibv_rereg_mr(UNUSED struct ibv_mr *mr, UNUSED int flags, UNUSED struct ibv_pd *pd, UNUSED void *addr, UNUSED size_t n,
                 UNUSED int access) {
    errno = EOPNOTSUPP;
    return IBV_REREG_MR_ERR_INPUT;
}

struct ibv_context *ibv_import_device(UNUSED int fd) ABSENT_OBJECT
struct ibv_pd *ibv_import_pd(UNUSED struct ibv_context *verbs, UNUSED uint32_t handle) ABSENT_OBJECT
struct ibv_mr *ibv_import_mr(UNUSED struct ibv_pd *pd, UNUSED uint32_t handle) ABSENT_OBJECT
struct ibv_dm *ibv_import_dm(UNUSED struct ibv_context *verbs, UNUSED uint32_t handle) ABSENT_OBJECT
void ibv_unimport_pd(UNUSED struct ibv_pd *pd) {}
void ibv_unimport_mr(UNUSED struct ibv_mr *mr) {}
void ibv_unimport_dm(UNUSED struct ibv_dm *dm) {}

int ibv_query_ece(UNUSED struct ibv_qp *qp, struct ibv_ece *ece) {
    memset(ece, 0, sizeof *ece);
    return EOPNOTSUPP;
}
int ibv_set_ece(UNUSED struct ibv_qp *qp, UNUSED struct ibv_ece *ece) ABSENT
int ibv_query_qp_data_in_order(UNUSED struct ibv_qp *qp, UNUSED enum ibv_wr_opcode opcode, UNUSED uint32_t flags) {
    return 0;
}

/* ---- librdmacm */

int rdma_establish(UNUSED struct rdma_cm_id *id) ABSENT_FAILS
int rdma_create_srq_ex(UNUSED struct rdma_cm_id *id, UNUSED struct ibv_srq_init_attr_ex *attr) ABSENT_FAILS
int rdma_join_multicast(UNUSED struct rdma_cm_id *id, UNUSED struct sockaddr *at, UNUSED void *own) ABSENT_FAILS
int rdma_join_multicast_ex(UNUSED struct rdma_cm_id *id, UNUSED struct rdma_cm_join_mc_attr_ex *attr, UNUSED void *own) ABSENT_FAILS
int rdma_leave_multicast(UNUSED struct rdma_cm_id *id, UNUSED struct sockaddr *at) ABSENT_FAILS
int rdma_get_remote_ece(UNUSED struct rdma_cm_id *id, struct ibv_ece *ece) {
    memset(ece, 0, sizeof *ece);
    return 0;
}
int rdma_set_local_ece(UNUSED struct rdma_cm_id *id, UNUSED struct ibv_ece *ece) ABSENT_FAILS
int rdma_reject_ece(struct rdma_cm_id *id, const void *private_data, uint8_t n) {
    return rdma_reject(id, private_data, n);
}
int rsocket(UNUSED int domain, UNUSED int type, UNUSED int protocol) ABSENT_FAILS
