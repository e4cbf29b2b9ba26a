/* Accepts each connection, with a queue pair and a region of its own; each fifth it rejects. It ends at SIGTERM, once all it accepted
 * have ended, and tells how many there were: listener PORT. For strangers.py. */
#include "ends.h"

#include <fcntl.h>
#include <poll.h>
#include <signal.h>

enum { SLOT = 512, SLOTS = 8, TURN_MS = 100, LAST_TURNS = 150 };

struct client {
    struct ibv_mr *mr;
    char octets[SLOT * SLOTS];
};

static volatile sig_atomic_t told_to_end;
static int asked, accepted, rejected, refused, ended;

static void end(int number) {
    (void)number;
    told_to_end = 1;
}

static void forget(struct rdma_cm_id *id) {
    struct client *client = id->context;
    rdma_destroy_qp(id);
    ibv_dereg_mr(client->mr);
    free(client);
    rdma_destroy_id(id);
}

static void answer(struct rdma_cm_id *id) {
    struct ibv_qp_init_attr attr = {.cap = {.max_send_wr = 8, .max_recv_wr = SLOTS, .max_send_sge = 1, .max_recv_sge = 1},
                                    .qp_type = IBV_QPT_RC};
    if (++asked % 5 == 0) {
        rdma_reject(id, "no", 2);
        rejected++;
        rdma_destroy_id(id);
        return;
    }
    struct client *client = calloc(1, sizeof *client);
    MUST(client);
    id->context = client;
    MUST(!rdma_create_qp(id, NULL, &attr));
    MUST(client->mr = ibv_reg_mr(id->pd, client->octets, sizeof client->octets,
                                 IBV_ACCESS_LOCAL_WRITE | IBV_ACCESS_REMOTE_WRITE | IBV_ACCESS_REMOTE_READ));
    for (int i = 0; i < SLOTS; i++) MUST(!rdma_post_recv(id, NULL, client->octets + i * SLOT, SLOT, client->mr));
    if (rdma_accept(id, NULL) == 0) {
        accepted++;
        return;
    }
    refused++;
    forget(id);
}

static void turn(struct rdma_event_channel *channel) {
    struct pollfd readable = {.fd = channel->fd, .events = POLLIN};
    struct rdma_cm_event *event;
    if (poll(&readable, 1, TURN_MS) <= 0 || rdma_get_cm_event(channel, &event)) return;
    struct rdma_cm_id *id = event->id;
    enum rdma_cm_event_type type = event->event;
    rdma_ack_cm_event(event);
    if (type == RDMA_CM_EVENT_CONNECT_REQUEST) {
        answer(id);
    } else if (type == RDMA_CM_EVENT_DISCONNECTED) {
        ended++;
        rdma_disconnect(id);
        forget(id);
    }
}

int main(int argc, char **argv) {
    struct rdma_event_channel *channel = rdma_create_event_channel();
    struct rdma_cm_id *listener;
    struct sockaddr_in at = {.sin_family = AF_INET, .sin_addr.s_addr = htonl(INADDR_LOOPBACK)};
    MUST(argc == 2 && channel);
    at.sin_port = htons((uint16_t)atoi(argv[1]));
    signal(SIGTERM, end);
    MUST(!rdma_create_id(channel, &listener, NULL, RDMA_PS_TCP) && !rdma_bind_addr(listener, (struct sockaddr *)&at));
    MUST(!rdma_listen(listener, 64));
    fcntl(channel->fd, F_SETFL, O_NONBLOCK);
    for (int last = 0; !told_to_end || (ended < accepted && last < LAST_TURNS); last += told_to_end) turn(channel);
    printf("asked %d, accepted %d, refused %d, rejected %d, ended %d\n", asked, accepted, refused, rejected, ended);
    rdma_destroy_id(listener);
    rdma_destroy_event_channel(channel);
    return ended == accepted && accepted > 0 ? 0 : 1;
}
