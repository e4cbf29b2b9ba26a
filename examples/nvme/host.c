/* The host. */
#include "host.h"

static const char host_nqn[] = "nqn.2014-08.org.nvmexpress:uuid:00000000-0000-0000-0000-000000000001";

static void must(int32_t code, const char *call) {
    if (code == IWARP_OK) return;
    fprintf(stderr, "host: %s: refused %d\n", call, (int)code);
    exit(1);
}

/* ---- octets that come and go */

static void received(struct host_queue *queue, const struct iwarp_event *event) {
    uint8_t *cqe;
    size_t n, all;
    must(endpoint_fetch(&queue->endpoint, &queue->response, &n), "fetch");
    must(iwarp_buffer_at(&queue->response, &cqe, &all), "buffer_at");
    uint16_t id = (uint16_t)field(cqe + CQE_CID, 2);
    if (n != CQE_OCTETS || id >= queue->depth || !queue->slots[id].in_hand) {
        fprintf(stderr, "host: a response of %zu octets to %u\n", n, id);
        exit(1);
    }
    struct slot *slot = &queue->slots[id];
    if (event->flags & IWARP_INVALIDATES && event->stag != field(slot->capsule + SQE_SGL + SGL_KEY, 4)) {
        fprintf(stderr, "host: a response to %u invalidates %x\n", id, (unsigned)event->stag);
        exit(1);
    }
    slot->in_hand = 0;
    slot->answered = 1;
    slot->status = (uint16_t)(field(cqe + CQE_STATUS, 2) >> 1);
    slot->result = field(cqe + CQE_RESULT, 8);
    slot->number = queue->answers;
    queue->in_hand--;
    queue->answers++;
    must(endpoint_receive(&queue->endpoint, &queue->response), "receive");
}

static void work(struct host_queue *queue) {
    struct iwarp_event event = {.kind = IWARP_IDLE};
    do {
        must(endpoint_work(&queue->endpoint, &event), "work");
        if (event.kind == IWARP_OPENED) queue->opened = 1;
        if (event.kind == IWARP_RECEIVED) received(queue, &event);
    } while (event.kind != IWARP_IDLE);
}

int host_write_out(struct host_queue *queue) {
    uint8_t *at;
    size_t n;
    for (;;) {
        must(endpoint_due(&queue->endpoint, &at, &n), "due");
        if (n == 0) return 1;
        ssize_t went = send(queue->fd, at, n, MSG_NOSIGNAL);
        if (went < 0 && errno == EAGAIN) return 0;
        if (went <= 0) {
            queue->ended = 1;
            return 1;
        }
        must(endpoint_wrote(&queue->endpoint, (size_t)went), "wrote");
    }
}

int host_step(struct host_queue *queue, int ms) {
    uint8_t *at;
    size_t room;
    short events = host_write_out(queue) ? POLLIN : POLLIN | POLLOUT;
    struct pollfd polled = {queue->fd, events, 0};
    if (queue->host->turn) {
        queue->host->turn();
        ms = 0;
    }
    if (queue->ended || poll(&polled, 1, ms) <= 0) return !queue->ended;
    must(endpoint_room(&queue->endpoint, &at, &room), "room");
    ssize_t n = read(queue->fd, at, room);
    if (n < 0 && errno == EAGAIN) return 1;
    if (n <= 0) {
        queue->ended = 1;
        return 0;
    }
    must(endpoint_came(&queue->endpoint, (size_t)n), "came");
    work(queue);
    host_write_out(queue);
    work(queue);
    if (queue->endpoint.ended) queue->ended = 1;
    return !queue->ended;
}

/* ---- connections */

static int connected_socket(const struct host *host) {
    struct sockaddr_in address = {.sin_family = AF_INET, .sin_port = htons((unsigned short)host->port)};
    struct sockaddr_in from = {.sin_family = AF_INET};
    int one = 1, fd = socket(AF_INET, SOCK_STREAM | SOCK_NONBLOCK | SOCK_CLOEXEC, 0);
    inet_pton(AF_INET, host->address, &address.sin_addr);
    if (fd < 0) return -1;
    setsockopt(fd, IPPROTO_TCP, TCP_NODELAY, &one, sizeof one);
    if (host->from) inet_pton(AF_INET, host->from, &from.sin_addr);
    if (host->from && bind(fd, (struct sockaddr *)&from, sizeof from) != 0) {
        close(fd);
        return -1;
    }
    if (connect(fd, (struct sockaddr *)&address, sizeof address) == 0 || errno == EINPROGRESS) return fd;
    close(fd);
    return -1;
}

static struct host_queue *new_queue(struct host *host, uint16_t id, uint16_t depth) {
    struct host_queue *queue = calloc(1, sizeof *queue);
    if (!queue) exit(1);
    queue->host = host;
    queue->id = id;
    queue->depth = depth;
    queue->slots = calloc(depth, sizeof *queue->slots);
    if (!queue->slots) exit(1);
    for (int i = 0; i < depth; i++) must(iwarp_buffer_new(0, &queue->slots[i].buffer), "buffer_new");
    return queue;
}

int host_open(struct host *host, uint16_t id, uint16_t depth) {
    uint8_t private_data[PRIVATE_OCTETS] = {0};
    struct host_queue *queue = new_queue(host, id, depth);
    host->queues[id] = queue;
    queue->fd = connected_socket(host);
    if (queue->fd < 0) return 0;
    set_field(private_data + PRIVATE_QID, 2, id);
    set_field(private_data + PRIVATE_HRQSIZE, 2, depth);
    set_field(private_data + PRIVATE_HSQSIZE, 2, depth - 1u);
    struct opening opening = {IWARP_INITIATOR, host->options, host->mulpdu, private_data, sizeof private_data};
    must(endpoint_handle(&queue->handle, 1), "handle");
    must(endpoint_open(&queue->endpoint, &queue->handle, 1, &opening), "open");
    for (int i = 0; i < depth; i++) {
        must(iwarp_buffer_new(CQE_OCTETS, &queue->response), "buffer_new");
        must(endpoint_receive(&queue->endpoint, &queue->response), "receive");
        iwarp_buffer_free(&queue->response);
    }
    must(iwarp_buffer_new(0, &queue->response), "buffer_new");
    for (int ms = 0; !queue->opened && ms < HOST_WAIT_MS; ms++)
        if (!host_step(queue, 1)) return 0;
    return queue->opened;
}

void host_close(struct host *host, uint16_t id) {
    struct host_queue *queue = host->queues[id];
    if (!queue) return;
    if (queue->fd >= 0) close(queue->fd);
    for (int i = 0; i < queue->depth; i++) iwarp_buffer_free(&queue->slots[i].buffer);
    iwarp_buffer_free(&queue->response);
    endpoint_close(&queue->endpoint);
    iwarp_free(&queue->handle);
    free(queue->slots);
    free(queue);
    host->queues[id] = 0;
}

/* ---- commands */

uint8_t *host_command(struct host_queue *queue, uint16_t slot, uint8_t opcode, uint32_t nsid) {
    uint8_t *sqe = queue->slots[slot].capsule;
    memset(sqe, 0, SQE_OCTETS);
    queue->slots[slot].n = SQE_OCTETS;
    sqe[SQE_OPCODE] = opcode;
    sqe[SQE_FLAGS] = PSDT_SGL;
    set_field(sqe + SQE_CID, 2, slot);
    set_field(sqe + SQE_NSID, 4, nsid);
    return sqe;
}

uint8_t *host_map(struct host_queue *queue, uint16_t slot, size_t n, uint8_t type) {
    struct slot *it = &queue->slots[slot];
    uint8_t *sgl = it->capsule + SQE_SGL;
    if (it->size != n) {
        iwarp_buffer_free(&it->buffer);
        must(iwarp_buffer_new(n, &it->buffer), "buffer_new");
        it->size = n;
    }
    size_t all;
    must(iwarp_buffer_at(&it->buffer, &it->octets, &all), "buffer_at");
    it->base = 0xff2ee184df000000 + ((uint64_t)slot << 16) + (uint64_t)it->uses++ * PRIVATE_OCTETS;
    const uint32_t rights = IWARP_READ | IWARP_WRITE | IWARP_INVALIDATE;
    must(endpoint_register(&queue->endpoint, it->base, &it->buffer, rights, &it->stag), "register");
    set_field(sgl + SGL_ADDRESS, 8, it->base);
    set_field(sgl + SGL_LENGTH, 3, n);
    set_field(sgl + SGL_KEY, 4, it->stag);
    sgl[SGL_TYPE] = type;
    return it->octets;
}

void host_unmap(struct host_queue *queue, uint16_t slot) {
    struct slot *it = &queue->slots[slot];
    if (it->stag) must(endpoint_take_back(&queue->endpoint, it->stag, &it->buffer), "take_back");
    it->stag = 0;
}

void host_put(struct host_queue *queue, uint16_t slot, const uint8_t *octets, size_t n) {
    struct slot *it = &queue->slots[slot];
    memcpy(it->capsule + SQE_OCTETS, octets, n);
    it->n = SQE_OCTETS + n;
    set_field(it->capsule + SQE_SGL + SGL_LENGTH, 4, n);
    it->capsule[SQE_SGL + SGL_TYPE] = SGL_DATA_OFFSET;
}

void host_submit(struct host_queue *queue, uint16_t slot) {
    struct slot *it = &queue->slots[slot];
    it->answered = 0;
    it->in_hand = 1;
    queue->in_hand++;
    int32_t code = endpoint_send(&queue->endpoint, it->capsule, it->n, 0);
    if (code == IWARP_NOT_OPEN)
        queue->ended = 1;
    else
        must(code, "send");
}

int host_await(struct host_queue *queue, uint16_t slot) {
    struct slot *it = &queue->slots[slot];
    for (int ms = 0; !it->answered && ms < HOST_WAIT_MS; ms++)
        if (!host_step(queue, 1)) return -1;
    host_unmap(queue, slot);
    return it->answered ? it->status : -1;
}

int host_do(struct host_queue *queue, uint16_t slot) {
    host_submit(queue, slot);
    return host_await(queue, slot);
}

void host_blocks(uint8_t *sqe, uint64_t from, uint32_t count) {
    set_field(sqe + SQE_CDW10, 8, from);
    set_field(sqe + SQE_CDW12, 4, count - 1);
}

/* ---- a controller */

int host_connect(struct host *host, uint16_t id) {
    struct host_queue *queue = host->queues[id];
    uint8_t data[CONNECT_OCTETS] = {0}, *sqe = host_command(queue, 0, OPCODE_FABRICS, FABRICS_CONNECT);
    set_field(sqe + CONNECT_QID, 2, id);
    set_field(sqe + CONNECT_SQSIZE, 2, queue->depth - 1u);
    if (id == 0) set_field(sqe + CONNECT_KATO, 4, host->keep_alive);
    memset(data + CONNECT_HOST_ID, 1, HOST_ID_OCTETS);
    set_field(data + CONNECT_CNTLID, 2, id == 0 ? CNTLID_DYNAMIC : host->controller);
    memcpy(data + CONNECT_SUBNQN, host->nqn, strlen(host->nqn));
    const char *name = host->own_name ? host->own_name : host_nqn;
    memcpy(data + CONNECT_HOSTNQN, name, strlen(name));
    if (id == 0)
        memcpy(host_map(queue, 0, sizeof data, SGL_KEYED_INVALIDATE), data, sizeof data);
    else
        host_put(queue, 0, data, sizeof data);
    int status = host_do(queue, 0);
    if (status == 0 && id == 0) host->controller = (uint16_t)queue->slots[0].result;
    return status;
}

static int property(struct host_queue *queue, uint8_t type, uint32_t offset, uint64_t value) {
    uint8_t *sqe = host_command(queue, 0, OPCODE_FABRICS, type);
    sqe[PROPERTY_ATTRIB] = offset == PROPERTY_CAP ? ATTRIB_EIGHT : ATTRIB_FOUR;
    set_field(sqe + PROPERTY_OFFSET, 4, offset);
    set_field(sqe + PROPERTY_VALUE, 8, value);
    return host_do(queue, 0);
}

static int enable(struct host_queue *queue) {
    uint32_t configuration = CC_ENABLE | SQES_64 << CC_IOSQES | CQES_16 << CC_IOCQES;
    if (property(queue, FABRICS_PROPERTY_GET, PROPERTY_CAP, 0) != 0) return 0;
    if (property(queue, FABRICS_PROPERTY_SET, PROPERTY_CC, configuration) != 0) return 0;
    return property(queue, FABRICS_PROPERTY_GET, PROPERTY_CSTS, 0) == 0 && queue->slots[0].result == CSTS_READY;
}

/* How many blocks the namespace has. */
static int identify(struct host *host) {
    struct host_queue *queue = host->queues[0];
    host_command(queue, 0, ADMIN_IDENTIFY, NSID);
    const uint8_t *id = host_map(queue, 0, IDENTIFY_OCTETS, SGL_KEYED_INVALIDATE);
    if (host_do(queue, 0) != 0 || id[NS_LBADS] != 9) return 0;
    host->blocks = field(id + NS_NSZE, 8);
    return 1;
}

static int set_queues(struct host_queue *queue, uint16_t count) {
    uint8_t *sqe = host_command(queue, 0, ADMIN_SET_FEATURES, 0);
    sqe[SQE_CDW10] = FEATURE_QUEUES;
    set_field(sqe + SQE_CDW11, 4, (count - 1u) | (count - 1u) << 16);
    return host_do(queue, 0) == 0 && (queue->slots[0].result & 0xffff) + 1 >= count;
}

int host_begin(struct host *host, uint16_t io_queues, uint16_t depth) {
    enum { ADMIN_DEPTH = 32 };
    if (!host_open(host, 0, ADMIN_DEPTH) || host_connect(host, 0) != 0 || !enable(host->queues[0])) return 0;
    if (!identify(host) || (io_queues > 0 && !set_queues(host->queues[0], io_queues))) return 0;
    for (uint16_t id = 1; id <= io_queues; id++)
        if (!host_open(host, id, depth) || host_connect(host, id) != 0) return 0;
    return 1;
}

void host_end(struct host *host) {
    for (int id = HOST_QUEUES - 1; id >= 0; id--) host_close(host, (uint16_t)id);
}
