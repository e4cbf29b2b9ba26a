/* The other end of `iwarp connect` and `iwarp listen`, or of the C programs `initiator` and `target`, over libibverbs and
 * librdmacm: so over siw, in the guest that tools/live runs.
 *
 *     siwpeer server ADDRESS PORT    serves one connection. It offers a region of 65,536 octets, whose first octet has tagged
 *                                    offset 0, and whose STag is its private data (4 octets, highest first). It answers a Send
 *                                    with a Send of as many octets of the region
 *     siwpeer client ADDRESS PORT TEXT [read]
 *                                    writes TEXT into the region that its peer offers in that way, reads it back if it is told
 *                                    to, sends it too, and waits for a Send
 *
 * Both print what they receive, in hexadecimal. The status is 0 if a Send came. The region is at address 0, since siw takes a
 * region's address as its first tagged offset: so root runs this, and /proc/sys/vm/mmap_min_addr is 0. */
#include <arpa/inet.h>
#include <errno.h>
#include <rdma/rdma_cma.h>
#include <stdio.h>
#include <stdlib.h>
#include <string.h>
#include <sys/mman.h>
#include <unistd.h>

enum { REGION = 65536, MESSAGE = 1024, DEPTH = 4, SECONDS = 5, MILLISECONDS = 2000 };
enum { RIGHTS = IBV_ACCESS_LOCAL_WRITE | IBV_ACCESS_REMOTE_WRITE | IBV_ACCESS_REMOTE_READ };

static struct rdma_event_channel *channel;
static struct ibv_pd *domain;
static struct ibv_cq *completions;
static struct ibv_mr *region, *incoming, *outgoing;

static void die(const char *call) {
    printf("%s: %s\n", call, strerror(errno));
    exit(1);
}

static void *must(void *got, const char *call) {
    if (!got) die(call);
    return got;
}

static void print_octets(const char *what, const unsigned char *from, unsigned n) {
    printf("%s ", what);
    for (unsigned i = 0; i < n; i++) printf("%02x", from[i]);
    printf("\n");
}

/* The regions, the queue pair, and a receive buffer. */
static void set_up(struct rdma_cm_id *id) {
    domain = must(ibv_alloc_pd(id->verbs), "alloc_pd");
    void *at = mmap(0, REGION, PROT_READ | PROT_WRITE, MAP_PRIVATE | MAP_ANONYMOUS | MAP_FIXED, -1, 0);
    if (at == MAP_FAILED) die("mmap");
    region = must(ibv_reg_mr_iova(domain, at, REGION, 0, RIGHTS), "reg_mr of the region");
    incoming = must(ibv_reg_mr(domain, must(calloc(1, MESSAGE), "calloc"), MESSAGE, RIGHTS), "reg_mr");
    outgoing = must(ibv_reg_mr(domain, must(calloc(1, MESSAGE), "calloc"), MESSAGE, RIGHTS), "reg_mr");
    completions = must(ibv_create_cq(id->verbs, 64, 0, 0, 0), "create_cq");
    struct ibv_qp_init_attr pair = {.send_cq = completions, .recv_cq = completions, .qp_type = IBV_QPT_RC,
        .cap = {.max_send_wr = 16, .max_recv_wr = 16, .max_send_sge = 1, .max_recv_sge = 1}};
    if (rdma_create_qp(id, domain, &pair)) die("create_qp");
    struct ibv_sge buffer = {(uintptr_t)incoming->addr, MESSAGE, incoming->lkey};
    struct ibv_recv_wr request = {.sg_list = &buffer, .num_sge = 1}, *bad;
    if (ibv_post_recv(id->qp, &request, &bad)) die("post_recv");
}

/* Waits for what completes next. */
static struct ibv_wc completion(void) {
    struct ibv_wc done;
    for (int i = 0; i < 1000 * SECONDS; i++) {
        if (ibv_poll_cq(completions, 1, &done) == 1) {
            if (done.status == IBV_WC_SUCCESS) return done;
            printf("%s: %s\n", done.opcode & IBV_WC_RECV ? "receive" : "request", ibv_wc_status_str(done.status));
            exit(1);
        }
        usleep(1000);
    }
    printf("nothing completes\n");
    exit(1);
}

/* Posts a Write, Read or Send of octets of one of this end's regions. */
static void post(struct rdma_cm_id *id, enum ibv_wr_opcode what, const struct ibv_mr *from, unsigned n, unsigned stag) {
    struct ibv_sge octets = {(uintptr_t)from->addr, n, from->lkey};
    struct ibv_send_wr request = {.sg_list = &octets, .num_sge = 1, .opcode = what, .send_flags = IBV_SEND_SIGNALED,
        .wr.rdma = {.rkey = stag}}, *bad;
    if (ibv_post_send(id->qp, &request, &bad)) die("post_send");
}

/* Waits for an event of the connection, which has to be this one; others end the program. */
static struct rdma_cm_event *await(enum rdma_cm_event_type wanted) {
    struct rdma_cm_event *event;
    if (rdma_get_cm_event(channel, &event)) die("get_cm_event");
    if (event->event == wanted) return event;
    printf("%s, status %d\n", rdma_event_str(event->event), event->status);
    exit(1);
}

/* Waits for a Send, and prints it. Returns its length. */
static unsigned await_send(void) {
    struct ibv_wc done = completion();
    while (!(done.opcode & IBV_WC_RECV)) done = completion();
    print_octets("received", incoming->addr, done.byte_len);
    return done.byte_len;
}

static void server(struct sockaddr_in *address) {
    struct rdma_cm_id *listener;
    if (rdma_create_id(channel, &listener, 0, RDMA_PS_TCP)) die("create_id");
    if (rdma_bind_addr(listener, (struct sockaddr *)address)) die("bind_addr");
    if (rdma_listen(listener, 1)) die("listen");
    struct rdma_cm_id *id = await(RDMA_CM_EVENT_CONNECT_REQUEST)->id;
    set_up(id);
    uint32_t stag = htonl(region->rkey);
    struct rdma_conn_param accepted = {.private_data = &stag, .private_data_len = sizeof stag, .responder_resources = DEPTH,
        .initiator_depth = DEPTH};
    if (rdma_accept(id, &accepted)) die("accept");
    unsigned n = await_send();
    memcpy(outgoing->addr, region->addr, n);
    post(id, IBV_WR_SEND, outgoing, n, 0);
    completion();
    await(RDMA_CM_EVENT_ESTABLISHED);
    await(RDMA_CM_EVENT_DISCONNECTED); /* the peer has taken the Send */
    rdma_disconnect(id);
}

static void client(struct sockaddr_in *address, const char *text, int reads) {
    struct rdma_cm_id *id;
    unsigned n = strlen(text);
    if (rdma_create_id(channel, &id, 0, RDMA_PS_TCP)) die("create_id");
    if (rdma_resolve_addr(id, 0, (struct sockaddr *)address, MILLISECONDS)) die("resolve_addr");
    await(RDMA_CM_EVENT_ADDR_RESOLVED);
    if (rdma_resolve_route(id, MILLISECONDS)) die("resolve_route");
    await(RDMA_CM_EVENT_ROUTE_RESOLVED);
    set_up(id);
    struct rdma_conn_param asked = {.responder_resources = DEPTH, .initiator_depth = DEPTH};
    if (rdma_connect(id, &asked)) die("connect");
    const struct rdma_conn_param *reply = &await(RDMA_CM_EVENT_ESTABLISHED)->param.conn;
    uint32_t stag = 0;
    if (reply->private_data_len >= sizeof stag) memcpy(&stag, reply->private_data, sizeof stag);
    stag = ntohl(stag);
    memcpy(outgoing->addr, text, n);
    post(id, IBV_WR_RDMA_WRITE, outgoing, n, stag);
    completion();
    if (reads) {
        post(id, IBV_WR_RDMA_READ, region, n, stag);
        completion();
        print_octets("read", region->addr, n);
    }
    post(id, IBV_WR_SEND, outgoing, n, 0);
    await_send();
    rdma_disconnect(id);
}

int main(int n, char **words) {
    setvbuf(stdout, 0, _IOLBF, 0);
    int serves = n == 4 && strcmp(words[1], "server") == 0, asks = n >= 5 && strcmp(words[1], "client") == 0;
    if (!serves && !asks) return 2;
    struct sockaddr_in address = {.sin_family = AF_INET, .sin_port = htons(atoi(words[3]))};
    if (inet_pton(AF_INET, words[2], &address.sin_addr) != 1 || (asks && strlen(words[4]) > MESSAGE)) return 2;
    channel = must(rdma_create_event_channel(), "create_event_channel");
    if (serves)
        server(&address);
    else
        client(&address, words[4], n > 5);
    return 0;
}
