/* What the tests of the stand-in share: two ends of a connection in one process, over librdmacm's synchronous identifiers. The tests are
 * ordinary programs over Debian's headers and libraries, and know nothing of the stand-in. */
#ifndef ENDS_H
#define ENDS_H
#define _GNU_SOURCE
#include <errno.h>
#include <pthread.h>
#include <stdint.h>
#include <stdio.h>
#include <stdlib.h>
#include <string.h>
#include <unistd.h>

#include <rdma/rdma_cma.h>
#include <rdma/rdma_verbs.h>

#define MUST(what) \
    do { \
        if (!(what)) { \
            fprintf(stderr, "%s:%d: %s: %s\n", __FILE__, __LINE__, #what, strerror(errno)); \
            exit(1); \
        } \
    } while (0)

struct ibv_qp_init_attr qp_attr(void);
struct rdma_cm_id *listen_at(const char *port, struct ibv_qp_init_attr *attr);
struct rdma_cm_id *connect_to(const char *port, struct ibv_qp_init_attr *attr); /* an identifier; rdma_connect is left to do */
struct ibv_wc next_wc(struct ibv_cq *cq, struct ibv_comp_channel *channel); /* waits for it, by an event */
struct ibv_wc next_sent(struct rdma_cm_id *id);
struct ibv_wc next_received(struct rdma_cm_id *id);
void sent(struct rdma_cm_id *id, enum ibv_wc_status want); /* the next completion of the send queue is such a one */
void received(struct rdma_cm_id *id, enum ibv_wc_status want);

#endif
