/* What verbs/README.md promises, a case each: promises PORT NAME. With no NAME it tells the names. */
#include "ends.h"

#include <arpa/inet.h>
#include <poll.h>
#include <signal.h>
#include <sys/mman.h>
#include <sys/wait.h>
#include <time.h>

enum { OCTETS = 65536, MANY = 200, BIG = 40 << 20, LIMIT = 16 << 20 };

/* Two ends that are connected, each with a region that the other may use. */
struct pair {
    struct rdma_cm_id *listener, *client, *server;
    uint8_t *ours, *theirs;
    struct ibv_mr *our_mr, *their_mr;
};

static const char *port;

static void *accept_one(void *of) {
    struct pair *pair = of;
    MUST(!rdma_get_request(pair->listener, &pair->server));
    MUST(!rdma_accept(pair->server, NULL));
    return NULL;
}

static struct ibv_mr *region(struct rdma_cm_id *id, uint8_t **at) {
    MUST(*at = calloc(1, OCTETS));
    return ibv_reg_mr(id->pd, *at, OCTETS, IBV_ACCESS_LOCAL_WRITE | IBV_ACCESS_REMOTE_WRITE | IBV_ACCESS_REMOTE_READ);
}

static struct pair connected(struct ibv_qp_init_attr attr) {
    struct pair pair = {.listener = listen_at(port, &attr)};
    pthread_t thread;
    pair.client = connect_to(port, &attr);
    MUST(!pthread_create(&thread, NULL, accept_one, &pair));
    MUST(!rdma_connect(pair.client, NULL));
    pthread_join(thread, NULL);
    MUST(pair.our_mr = region(pair.client, &pair.ours));
    MUST(pair.their_mr = region(pair.server, &pair.theirs));
    return pair;
}

static void close_all(struct pair *pair) {
    ibv_dereg_mr(pair->our_mr);
    ibv_dereg_mr(pair->their_mr);
    rdma_destroy_ep(pair->client);
    rdma_destroy_ep(pair->server);
    rdma_destroy_ep(pair->listener);
    free(pair->ours);
    free(pair->theirs);
}

static void post(struct rdma_cm_id *id, enum ibv_wr_opcode opcode, struct ibv_sge place, uint64_t to, uint32_t rkey) {
    struct ibv_send_wr wr = {.sg_list = &place, .num_sge = 1, .opcode = opcode, .send_flags = IBV_SEND_SIGNALED}, *bad;
    wr.wr.rdma.remote_addr = to;
    wr.wr.rdma.rkey = rkey;
    MUST(!ibv_post_send(id->qp, &wr, &bad));
}

static struct ibv_sge place(uint8_t *at, uint32_t n, uint32_t lkey) {
    return (struct ibv_sge){(uintptr_t)at, n, lkey};
}

/* ---- what lkeys allow */

/* A Send of octets past its region, and one by a key that was taken back, end by a protection error; nothing is sent. */
static void lkey_of_send(void) {
    for (int taken_back = 0; taken_back < 2; taken_back++) {
        struct pair pair = connected(qp_attr());
        struct ibv_mr *mr;
        MUST(mr = ibv_reg_mr(pair.client->pd, pair.ours, 100, 0));
        struct ibv_sge of = place(pair.ours, taken_back ? 100 : 101, mr->lkey);
        if (taken_back) ibv_dereg_mr(mr);
        MUST(!rdma_post_recv(pair.server, NULL, pair.theirs, OCTETS, pair.their_mr));
        post(pair.client, IBV_WR_SEND, of, 0, 0);
        sent(pair.client, IBV_WC_LOC_PROT_ERR);
        received(pair.server, IBV_WC_WR_FLUSH_ERR);
        if (!taken_back) ibv_dereg_mr(mr);
        close_all(&pair);
    }
}

/* A receive, or a Read, into memory that may not be written is an error, and no octet of it changes. */
static void lkey_of_receive(void) {
    for (int reads = 0; reads < 2; reads++) {
        struct pair pair = connected(qp_attr());
        struct ibv_mr *mr;
        MUST(mr = ibv_reg_mr(pair.client->pd, pair.ours, OCTETS, 0));
        memset(pair.theirs, 7, OCTETS);
        if (reads) {
            post(pair.client, IBV_WR_RDMA_READ, place(pair.ours, 100, mr->lkey), (uintptr_t)pair.theirs, pair.their_mr->rkey);
            sent(pair.client, IBV_WC_LOC_PROT_ERR);
        } else {
            MUST(!rdma_post_recv(pair.client, NULL, pair.ours, 100, mr));
            MUST(!rdma_post_send(pair.server, NULL, pair.theirs, 100, pair.their_mr, IBV_SEND_SIGNALED));
            received(pair.client, IBV_WC_LOC_PROT_ERR);
        }
        for (int i = 0; i < OCTETS; i++) MUST(pair.ours[i] == 0);
        ibv_dereg_mr(mr);
        close_all(&pair);
    }
}

/* A peer that names what it may not use ends the connection. */
static void rkey(void) {
    struct pair pair = connected(qp_attr());
    struct ibv_sge two = place(pair.ours, 2, pair.our_mr->lkey);
    struct ibv_send_wr read = {.sg_list = &two, .num_sge = 1, .opcode = IBV_WR_RDMA_READ, .send_flags = IBV_SEND_SIGNALED}, *bad;
    read.wr.rdma.rkey = pair.their_mr->rkey;
    read.wr.rdma.remote_addr = (uintptr_t)pair.theirs;
    struct ibv_send_wr write = read;
    write.opcode = IBV_WR_RDMA_WRITE;
    write.wr.rdma.remote_addr += OCTETS - 1;
    write.next = &read;
    MUST(!ibv_post_send(pair.client->qp, &write, &bad));
    struct ibv_wc wc = next_sent(pair.client);
    MUST(wc.status == IBV_WC_SUCCESS && wc.opcode == IBV_WC_RDMA_WRITE); /* on iWARP a Write is done once it is sent */
    sent(pair.client, IBV_WC_REM_ACCESS_ERR);
    for (int i = 0; i < OCTETS; i++) MUST(pair.theirs[i] == 0);
    close_all(&pair);
}

/* ---- queues */

/* A completion queue that is full: what it has is told, then an event and an error. */
static void full_cq(void) {
    struct ibv_qp_init_attr attr = qp_attr();
    struct pair pair = connected(attr);
    struct ibv_cq *one;
    struct ibv_wc wc;
    struct ibv_async_event event;
    MUST(one = ibv_create_cq(pair.client->verbs, 1, NULL, NULL, 0));
    struct rdma_cm_id *id = connect_to(port, NULL);
    attr.send_cq = attr.recv_cq = one;
    MUST(!rdma_create_qp(id, NULL, &attr));
    for (int i = 0; i < 3; i++) MUST(!rdma_post_recv(id, NULL, pair.ours, 10, pair.our_mr));
    struct ibv_qp_attr error = {.qp_state = IBV_QPS_ERR};
    MUST(!ibv_modify_qp(id->qp, &error, IBV_QP_STATE));
    MUST(!ibv_get_async_event(id->verbs, &event) && event.event_type == IBV_EVENT_CQ_ERR && event.element.cq == one);
    ibv_ack_async_event(&event);
    MUST(ibv_poll_cq(one, 1, &wc) == 1 && wc.status == IBV_WC_WR_FLUSH_ERR && ibv_poll_cq(one, 1, &wc) < 0);
    rdma_destroy_qp(id);
    rdma_destroy_id(id);
    ibv_destroy_cq(one);
    close_all(&pair);
}

/* Messages that come before their receives wait for these, in order. */
static void late_receives(void) {
    struct pair pair = connected(qp_attr());
    MUST(!rdma_post_recv(pair.server, NULL, pair.theirs, 100, pair.their_mr));
    for (int i = 0; i < MANY; i++) {
        pair.ours[0] = (uint8_t)i;
        MUST(!rdma_post_send(pair.client, NULL, pair.ours, 100, pair.our_mr, IBV_SEND_SIGNALED));
        sent(pair.client, IBV_WC_SUCCESS);
    }
    for (int i = 0; i < MANY; i++) {
        received(pair.server, IBV_WC_SUCCESS);
        MUST(pair.theirs[0] == (uint8_t)i);
        MUST(!rdma_post_recv(pair.server, NULL, pair.theirs, 100, pair.their_mr));
    }
    close_all(&pair);
}

/* A message that is longer than its receive: an error at both ends, and nothing is written. */
static void short_receive(void) {
    struct pair pair = connected(qp_attr());
    memset(pair.ours, 7, OCTETS);
    MUST(!rdma_post_recv(pair.server, NULL, pair.theirs, 10, pair.their_mr));
    MUST(!rdma_post_send(pair.client, NULL, pair.ours, 11, pair.our_mr, IBV_SEND_SIGNALED));
    sent(pair.client, IBV_WC_SUCCESS);
    received(pair.server, IBV_WC_LOC_LEN_ERR);
    for (int i = 0; i < OCTETS; i++) MUST(pair.theirs[i] == 0);
    close_all(&pair);
}

/* ---- memory */

/* Reads into a long region for local use, and a peer's Writes into one, around each 16 MiB. */
static void long_regions(void) {
    struct pair pair = connected(qp_attr());
    uint8_t *at = calloc(1, BIG);
    uint8_t *far = calloc(1, BIG);
    struct ibv_mr *mr, *far_mr;
    MUST(at && (mr = ibv_reg_mr(pair.client->pd, at, BIG, IBV_ACCESS_LOCAL_WRITE)));
    MUST(far && (far_mr = ibv_reg_mr(pair.server->pd, far, BIG, IBV_ACCESS_LOCAL_WRITE | IBV_ACCESS_REMOTE_WRITE | IBV_ACCESS_REMOTE_READ)));
    for (int i = 0; i < OCTETS; i++) pair.theirs[i] = (uint8_t)(i * 31);
    for (uint32_t from = LIMIT - 100; from < BIG - OCTETS; from += LIMIT) {
        post(pair.client, IBV_WR_RDMA_READ, place(at + from, OCTETS, mr->lkey), (uintptr_t)pair.theirs, pair.their_mr->rkey);
        sent(pair.client, IBV_WC_SUCCESS);
        MUST(!memcmp(at + from, pair.theirs, OCTETS) && at[from - 1] == 0 && at[from + OCTETS] == 0);
        post(pair.client, IBV_WR_RDMA_WRITE, place(at + from, OCTETS, mr->lkey), (uintptr_t)far + from, far_mr->rkey);
        sent(pair.client, IBV_WC_SUCCESS);
        post(pair.client, IBV_WR_RDMA_READ, place(at, OCTETS, mr->lkey), (uintptr_t)far + from, far_mr->rkey);
        sent(pair.client, IBV_WC_SUCCESS);
        MUST(!memcmp(far + from, pair.theirs, OCTETS) && far[from - 1] == 0 && far[from + OCTETS] == 0 && !memcmp(at, far + from, OCTETS));
    }
    ibv_dereg_mr(mr);
    ibv_dereg_mr(far_mr);
    close_all(&pair);
    free(at);
    free(far);
}

/* ---- ends */

/* Who disconnects, and who is disconnected: each gets the event, and all that is posted is flushed. */
static void disconnect(void) {
    struct pair pair = connected(qp_attr());
    for (int i = 0; i < 5; i++) MUST(!rdma_post_recv(pair.server, NULL, pair.theirs, 10, pair.their_mr));
    MUST(!rdma_post_recv(pair.client, NULL, pair.ours, 10, pair.our_mr));
    MUST(!rdma_disconnect(pair.client));
    MUST(!rdma_disconnect(pair.server));
    for (int i = 0; i < 5; i++) received(pair.server, IBV_WC_WR_FLUSH_ERR);
    received(pair.client, IBV_WC_WR_FLUSH_ERR);
    MUST(!rdma_post_recv(pair.client, NULL, pair.ours, 10, pair.our_mr));
    received(pair.client, IBV_WC_WR_FLUSH_ERR);
    close_all(&pair);
}

/* A process that sends, and then ends in this way. */
static void child(int killed) {
    struct ibv_qp_init_attr attr = qp_attr();
    struct rdma_cm_id *id = connect_to(port, &attr);
    uint8_t *at;
    struct ibv_mr *mr;
    MUST(mr = region(id, &at));
    MUST(!rdma_connect(id, NULL));
    for (int i = 0; i < MANY; i++) {
        at[0] = (uint8_t)i;
        MUST(!rdma_post_send(id, NULL, at, OCTETS, mr, IBV_SEND_SIGNALED));
        sent(id, IBV_WC_SUCCESS);
    }
    if (killed) raise(SIGKILL);
    exit(0);
}

/* What was completed comes, though the sender's process ends at once, and then the end; one that is killed may lose the last. */
static void peer_goes(int killed) {
    struct pair pair = {0};
    pid_t pid = fork();
    if (pid == 0) {
        usleep(300000);
        child(killed);
    }
    struct ibv_qp_init_attr attr = qp_attr();
    pair.listener = listen_at(port, &attr);
    MUST(!rdma_get_request(pair.listener, &pair.server));
    MUST(pair.their_mr = region(pair.server, &pair.theirs));
    for (int i = 0; i < 8; i++) MUST(!rdma_post_recv(pair.server, NULL, pair.theirs, OCTETS, pair.their_mr));
    MUST(!rdma_accept(pair.server, NULL));
    struct ibv_wc wc;
    int n = 0;
    usleep(500000);
    while ((wc = next_received(pair.server)).status == IBV_WC_SUCCESS) {
        n++;
        MUST(!rdma_post_recv(pair.server, NULL, pair.theirs, OCTETS, pair.their_mr));
    }
    MUST(wc.status == IBV_WC_WR_FLUSH_ERR && (killed || n == MANY));
    MUST(!rdma_disconnect(pair.server) && waitpid(pid, NULL, 0) == pid);
    ibv_dereg_mr(pair.their_mr);
    rdma_destroy_ep(pair.server);
    rdma_destroy_ep(pair.listener);
    free(pair.theirs);
}

static void exits(void) {
    peer_goes(0);
}

static void killed(void) {
    peer_goes(1);
}

/* ---- who is no peer */

static int tcp_to(void) {
    struct sockaddr_in at = {.sin_family = AF_INET, .sin_port = htons((uint16_t)atoi(port)), .sin_addr.s_addr = htonl(INADDR_LOOPBACK)};
    int fd = socket(AF_INET, SOCK_STREAM, 0);
    MUST(!connect(fd, (struct sockaddr *)&at, sizeof at));
    return fd;
}

/* One that asks for nothing is closed in the end, and others are served meanwhile. */
static void silent_peer(void) {
    struct pair pair = connected(qp_attr());
    struct pollfd closed = {.fd = tcp_to(), .events = POLLIN};
    char octet;
    time_t begun = time(NULL);
    MUST(poll(&closed, 1, 15000) == 1 && read(closed.fd, &octet, 1) <= 0 && time(NULL) - begun >= 8);
    close(closed.fd);
    close_all(&pair);
}

static void *listen_late(void *unused) {
    (void)unused;
    usleep(150000);
    struct ibv_qp_init_attr attr = qp_attr();
    struct rdma_cm_id *listener = listen_at(port, &attr), *id;
    MUST(!rdma_get_request(listener, &id) && !rdma_accept(id, NULL));
    rdma_destroy_ep(id);
    rdma_destroy_ep(listener);
    return NULL;
}

/* Who listens a little late is reached. */
static void late_listener(void) {
    struct ibv_qp_init_attr attr = qp_attr();
    struct rdma_cm_id *id = connect_to(port, &attr);
    pthread_t thread;
    MUST(!pthread_create(&thread, NULL, listen_late, NULL));
    MUST(!rdma_connect(id, NULL));
    pthread_join(thread, NULL);
    rdma_destroy_ep(id);
}

/* Nobody listens; a port that is taken; somebody listens who is not of iWARP, or closes at once. */
static void no_peer(void) {
    struct ibv_qp_init_attr attr = qp_attr();
    struct rdma_cm_id *id = connect_to(port, &attr), *second;
    MUST(rdma_connect(id, NULL) < 0 && errno == ECONNREFUSED);
    rdma_destroy_ep(id);
    struct sockaddr_in at = {.sin_family = AF_INET, .sin_port = htons((uint16_t)atoi(port)), .sin_addr.s_addr = htonl(INADDR_LOOPBACK)};
    int fd = socket(AF_INET, SOCK_STREAM, 0), one = 1;
    setsockopt(fd, SOL_SOCKET, SO_REUSEADDR, &one, sizeof one);
    MUST(!bind(fd, (struct sockaddr *)&at, sizeof at) && !listen(fd, 1));
    MUST(!rdma_create_id(NULL, &second, NULL, RDMA_PS_TCP));
    MUST(rdma_bind_addr(second, (struct sockaddr *)&at) < 0 && errno == EADDRINUSE);
    rdma_destroy_id(second);
    if (fork() == 0) {
        int peer = accept(fd, NULL, NULL);
        MUST(write(peer, "HTTP/1.1 400 Bad Request\r\n\r\n", 28) == 28);
        usleep(500000);
        close(peer);
        close(accept(fd, NULL, NULL));
        _exit(0);
    }
    for (int i = 0; i < 2; i++) {
        attr = qp_attr();
        id = connect_to(port, &attr);
        MUST(rdma_connect(id, NULL) < 0);
        rdma_destroy_ep(id);
    }
    close(fd);
    wait(NULL);
}

static const struct {
    const char *name;
    void (*run)(void);
} cases[] = {
    {"lkey-of-send", lkey_of_send}, {"lkey-of-receive", lkey_of_receive}, {"rkey", rkey}, {"full-cq", full_cq},
    {"late-receives", late_receives}, {"short-receive", short_receive}, {"long-regions", long_regions}, {"disconnect", disconnect},
    {"exits", exits}, {"killed", killed}, {"silent-peer", silent_peer}, {"late-listener", late_listener},
    {"no-peer", no_peer},
};

int main(int argc, char **argv) {
    for (size_t i = 0; i < sizeof cases / sizeof *cases; i++) {
        if (argc < 3) puts(cases[i].name);
        else if (!strcmp(cases[i].name, argv[2])) {
            port = argv[1];
            cases[i].run();
            return 0;
        }
    }
    return argc < 3 ? 0 : 2;
}
