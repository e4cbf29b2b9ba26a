/* Loads for bench/verbs/run. Each prints one number:
 *
 *   load copy OCTETS MS           a plain copy over loopback TCP, so many octets a call: GB/s
 *   load echo OCTETS ROUNDS       a message that goes to and fro over loopback TCP: microseconds one way
 *   load poll ROUNDS              ibv_poll_cq of a queue with a connection's queue pair and nothing in it: ns
 *   load write PORT THREADS MS    Writes of 64 KiB, by so many threads, each with a domain and a connection of its own: GB/s of all */
#define _GNU_SOURCE
#include <arpa/inet.h>
#include <netinet/tcp.h>
#include <pthread.h>
#include <stdatomic.h>
#include <stdint.h>
#include <stdio.h>
#include <stdlib.h>
#include <string.h>
#include <sys/socket.h>
#include <sys/wait.h>
#include <time.h>
#include <unistd.h>

#include <rdma/rdma_cma.h>
#include <rdma/rdma_verbs.h>

enum { BLOCK = 65536, DEPTH = 16, MOST = 16 };

#define MUST(what) \
    do { \
        if (!(what)) { \
            perror(#what); \
            exit(1); \
        } \
    } while (0)

static double now(void) {
    struct timespec at;
    clock_gettime(CLOCK_MONOTONIC, &at);
    return (double)at.tv_sec + (double)at.tv_nsec / 1e9;
}

/* ---- TCP */

/* Two ends of a connection over loopback: this process has one, a child the other, as it returns 0. */
static pid_t split(int *fd) {
    struct sockaddr_in at = {.sin_family = AF_INET, .sin_addr.s_addr = htonl(INADDR_LOOPBACK)};
    socklen_t n = sizeof at;
    int one = 1, listener = socket(AF_INET, SOCK_STREAM, 0);
    MUST(!bind(listener, (struct sockaddr *)&at, n) && !listen(listener, 1) && !getsockname(listener, (struct sockaddr *)&at, &n));
    pid_t pid = fork();
    *fd = pid == 0 ? socket(AF_INET, SOCK_STREAM, 0) : -1;
    if (pid == 0) MUST(!connect(*fd, (struct sockaddr *)&at, n));
    else *fd = accept(listener, NULL, NULL);
    setsockopt(*fd, IPPROTO_TCP, TCP_NODELAY, &one, sizeof one);
    return pid;
}

static void copy(size_t n, double seconds) {
    int fd;
    uint8_t *octets = calloc(1, n);
    if (split(&fd) == 0) {
        while (write(fd, octets, n) > 0) {}
        exit(0);
    }
    double begun = now(), sum = 0;
    while (now() - begun < seconds) sum += (double)read(fd, octets, n);
    printf("%f\n", sum / (now() - begun) / 1e9);
    close(fd);
}

static void whole(int fd, uint8_t *octets, size_t n, int reads) {
    for (size_t done = 0; done < n;) {
        ssize_t some = reads ? recv(fd, octets + done, n - done, 0) : send(fd, octets + done, n - done, 0);
        MUST(some > 0);
        done += (size_t)some;
    }
}

static void echo(size_t n, int rounds) {
    int fd;
    uint8_t *octets = calloc(1, n);
    int child = split(&fd) == 0;
    double begun = now();
    for (int i = 0; i < rounds; i++) {
        whole(fd, octets, n, child);
        whole(fd, octets, n, !child);
    }
    if (child) exit(0);
    printf("%f\n", (now() - begun) / rounds / 2 * 1e6);
}

/* ---- RDMA */

static const char *port = "0";
static double until;
static atomic_ullong written;

static struct ibv_qp_init_attr attr(void) {
    return (struct ibv_qp_init_attr){.cap = {.max_send_wr = DEPTH, .max_recv_wr = 1, .max_send_sge = 1, .max_recv_sge = 1},
                                     .qp_type = IBV_QPT_RC, .sq_sig_all = 1};
}

static struct ibv_mr *block(struct ibv_pd *pd) {
    uint8_t *at = calloc(1, BLOCK);
    struct ibv_mr *mr = ibv_reg_mr(pd, at, BLOCK, IBV_ACCESS_LOCAL_WRITE | IBV_ACCESS_REMOTE_WRITE);
    MUST(at && mr);
    return mr;
}

/* Tells the peer its block, and waits until the peer goes. */
static void *serve(void *own) {
    struct rdma_cm_id *id = own;
    struct ibv_pd *pd = ibv_alloc_pd(id->verbs);
    struct ibv_qp_init_attr of = attr();
    struct ibv_wc wc;
    MUST(pd && !rdma_create_qp(id, pd, &of));
    struct ibv_mr *mr = block(pd);
    struct { uint64_t at; uint32_t rkey; } offer = {(uintptr_t)mr->addr, mr->rkey};
    struct rdma_conn_param param = {.private_data = &offer, .private_data_len = sizeof offer};
    MUST(!rdma_post_recv(id, NULL, mr->addr, BLOCK, mr) && !rdma_accept(id, &param));
    rdma_get_recv_comp(id, &wc);
    return NULL;
}

static void post(struct rdma_cm_id *id, struct ibv_mr *mr, uint64_t to, uint32_t rkey) {
    MUST(!rdma_post_write(id, NULL, mr->addr, BLOCK, mr, 0, to, rkey));
}

static void *write_blocks(void *own) {
    struct rdma_cm_id *id = own;
    struct ibv_pd *pd = ibv_alloc_pd(id->verbs);
    struct ibv_qp_init_attr of = attr();
    struct ibv_wc wc[DEPTH];
    struct { uint64_t at; uint32_t rkey; } offer;
    MUST(pd && !rdma_create_qp(id, pd, &of));
    struct ibv_mr *mr = block(pd);
    MUST(!rdma_connect(id, NULL) && id->event->param.conn.private_data_len >= sizeof offer);
    memcpy(&offer, id->event->param.conn.private_data, sizeof offer);
    for (int i = 0; i < DEPTH; i++) post(id, mr, offer.at, offer.rkey);
    while (now() < until) {
        int n = ibv_poll_cq(id->send_cq, DEPTH, wc);
        for (int i = 0; i < n; i++) MUST(wc[i].status == IBV_WC_SUCCESS);
        for (int i = 0; i < n; i++) post(id, mr, offer.at, offer.rkey);
        atomic_fetch_add(&written, (unsigned long long)n * BLOCK);
    }
    return NULL;
}

static struct rdma_cm_id *identifier(int passive) {
    struct rdma_addrinfo hints = {.ai_flags = passive ? RAI_PASSIVE : 0, .ai_port_space = RDMA_PS_TCP}, *at;
    struct rdma_cm_id *id;
    MUST(!rdma_getaddrinfo("127.0.0.1", port, &hints, &at) && !rdma_create_ep(&id, at, NULL, NULL));
    return id;
}

static void write_by(int threads, double seconds) {
    pthread_t thread[MOST];
    pid_t pid = fork();
    if (pid == 0) {
        struct rdma_cm_id *listener = identifier(1), *id;
        MUST(!rdma_listen(listener, MOST));
        for (int i = 0; i < threads; i++) MUST(!rdma_get_request(listener, &id) && !pthread_create(&thread[i], NULL, serve, id));
        for (int i = 0; i < threads; i++) pthread_join(thread[i], NULL);
        _exit(0);
    }
    usleep(300000);
    double begun = now();
    until = begun + seconds;
    for (int i = 0; i < threads; i++) MUST(!pthread_create(&thread[i], NULL, write_blocks, identifier(0)));
    for (int i = 0; i < threads; i++) pthread_join(thread[i], NULL);
    printf("%f\n", (double)atomic_load(&written) / (now() - begun) / 1e9);
}

static void poll_nothing(long rounds) {
    struct rdma_cm_id *id;
    struct ibv_qp_init_attr of = attr();
    struct sockaddr_in at = {.sin_family = AF_INET, .sin_addr.s_addr = htonl(INADDR_LOOPBACK)};
    struct ibv_wc wc;
    MUST(!rdma_create_id(NULL, &id, NULL, RDMA_PS_TCP) && !rdma_bind_addr(id, (struct sockaddr *)&at) && !rdma_create_qp(id, NULL, &of));
    double begun = now();
    for (long i = 0; i < rounds; i++) MUST(ibv_poll_cq(id->send_cq, 1, &wc) == 0);
    printf("%f\n", (now() - begun) / (double)rounds * 1e9);
}

int main(int argc, char **argv) {
    const char *kind = argc > 2 ? argv[1] : "";
    if (!strcmp(kind, "copy") && argc == 4) copy((size_t)atol(argv[2]), atof(argv[3]) / 1e3);
    else if (!strcmp(kind, "echo") && argc == 4) echo((size_t)atol(argv[2]), atoi(argv[3]));
    else if (!strcmp(kind, "poll") && argc == 3) poll_nothing(atol(argv[2]));
    else if (!strcmp(kind, "write") && argc == 5) {
        port = argv[2];
        write_by(atoi(argv[3]), atof(argv[4]) / 1e3);
    } else return 2;
    fflush(stdout);
    return 0;
}
