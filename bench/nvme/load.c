/* Loads of blocks:
 *
 *     load nvme PORT read|write OCTETS DEPTH MS     a host of the target (examples/nvme), one I/O queue; with one word more, N:
 *                                                   N hosts, each a thread
 *     load plain PORT read|write OCTETS DEPTH MS    the same of the plain server below
 *     load serve MIB                                the plain server: blocks in memory, over TCP, with headers of 16 octets. It
 *                                                   prints `port N`, and serves one connection
 *
 * A load prints how many commands it did in MS milliseconds, and its processor time in ns for each. The time begins once the
 * connections are made. */
#include "../../examples/nvme/host.h"

enum { BUFFERED = 262144, HEAD = 16, MOST_DEPTH = 128, AT_OP = 0, AT_TAG = 2, AT_N = 4, AT_BLOCK = 8, PARTS = 64, MOST_HOSTS = 16 };

static uint64_t now_ns(int clock) {
    struct timespec time;
    clock_gettime(clock, &time);
    return (uint64_t)time.tv_sec * 1000000000 + (uint64_t)time.tv_nsec;
}

static void die(const char *why) {
    perror(why);
    exit(1);
}

/* What is to be done. The blocks are taken in order, again from the first behind the last. */
struct load {
    int writes;
    uint32_t octets, depth;
    uint64_t blocks, next;
    uint64_t ms, commands;
    uint64_t until, spent; /* when the time is over; processor time, before it began */
};

static void begin(struct load *load) {
    load->until = now_ns(CLOCK_MONOTONIC) + load->ms * 1000000;
    load->spent = now_ns(CLOCK_PROCESS_CPUTIME_ID);
}

static uint64_t next_block(struct load *load) {
    uint64_t count = load->octets / HOST_LBA, from = load->next;
    if (from + count > load->blocks) from = 0;
    load->next = from + count;
    return from;
}

static int is_over(const struct load *load) {
    return now_ns(CLOCK_MONOTONIC) >= load->until;
}

/* ---- through the library */

static void submit(struct host_queue *queue, uint16_t slot, struct load *load) {
    uint8_t *sqe = host_command(queue, slot, load->writes ? IO_WRITE : IO_READ, NSID);
    host_blocks(sqe, next_block(load), load->octets / HOST_LBA);
    if (load->writes && load->octets <= 4096) {
        host_put(queue, slot, queue->slots[slot].octets, load->octets); /* in the capsule, as Linux does */
    } else {
        host_map(queue, slot, load->octets, SGL_KEYED_INVALIDATE);
    }
    host_submit(queue, slot);
}

/* A host, and what it does. Each begins at another part of the blocks. */
struct loaded {
    struct host host;
    struct load load;
    pthread_t thread;
};

static void connect_host(struct loaded *it, unsigned port, const struct load *load, unsigned part, unsigned parts) {
    it->host = (struct host){.address = "127.0.0.1", .nqn = "nqn.2026-11.example:iwarp", .port = port, .mulpdu = MOST_MULPDU};
    if (!host_begin(&it->host, 1, HOST_DEPTH)) die("connect");
    struct host_queue *queue = it->host.queues[1];
    it->load = *load;
    it->load.blocks = it->host.blocks;
    it->load.next = it->host.blocks / parts * part;
    for (uint16_t slot = 0; slot < load->depth; slot++) {
        host_command(queue, slot, 0, 0);
        memset(host_map(queue, slot, load->octets, SGL_KEYED), slot, load->octets);
        host_unmap(queue, slot);
    }
}

static void *carry_nvme(void *given) {
    struct loaded *it = given;
    struct load *load = &it->load;
    struct host_queue *queue = it->host.queues[1];
    for (uint16_t slot = 0; slot < load->depth; slot++) submit(queue, slot, load);
    while (!is_over(load)) {
        if (!host_step(queue, 100)) die("the target has ended the connection");
        for (uint16_t slot = 0; slot < load->depth; slot++) {
            if (queue->slots[slot].in_hand) continue;
            if (queue->slots[slot].status != 0) die("a command failed");
            host_unmap(queue, slot);
            load->commands++;
            submit(queue, slot, load);
        }
    }
    return 0;
}

static void run_nvme(unsigned port, struct load *load, unsigned hosts) {
    static struct loaded all[MOST_HOSTS];
    for (unsigned i = 0; i < hosts; i++) connect_host(&all[i], port, load, i, hosts);
    begin(load);
    for (unsigned i = 0; i < hosts; i++) all[i].load.until = load->until;
    for (unsigned i = 1; i < hosts; i++)
        if (pthread_create(&all[i].thread, 0, carry_nvme, &all[i]) != 0) die("thread");
    carry_nvme(&all[0]);
    for (unsigned i = 1; i < hosts; i++) pthread_join(all[i].thread, 0);
    for (unsigned i = 0; i < hosts; i++) {
        load->commands += all[i].load.commands;
        host_end(&all[i].host);
    }
}

/* ---- plain: octets that come, and parts that go */

struct pipe {
    int fd;
    uint8_t in[BUFFERED];
    size_t n, at; /* octets in the buffer, and of them those that were taken */
    struct iovec parts[2 * MOST_DEPTH + 2];
    int count;
};

static void take_in(struct pipe *pipe) {
    memmove(pipe->in, pipe->in + pipe->at, pipe->n - pipe->at);
    pipe->n -= pipe->at;
    pipe->at = 0;
    ssize_t got = read(pipe->fd, pipe->in + pipe->n, BUFFERED - pipe->n);
    if (got <= 0) exit(0); /* the other end has closed */
    pipe->n += (size_t)got;
}

/* The next header with the octets behind it, once all have come. */
static uint8_t *next_message(struct pipe *pipe, uint8_t with_data) {
    uint8_t *head = pipe->in + pipe->at;
    size_t left = pipe->n - pipe->at;
    if (left < HEAD) return 0;
    size_t n = HEAD + (head[AT_OP] == with_data ? (size_t)field(head + AT_N, 4) : 0);
    if (left < n) return 0;
    pipe->at += n;
    return head;
}

static void add(struct pipe *pipe, uint8_t *octets, size_t n) {
    if (n > 0) pipe->parts[pipe->count++] = (struct iovec){octets, n};
}

static void write_parts(struct pipe *pipe) {
    for (int at = 0; at < pipe->count;) {
        ssize_t went = writev(pipe->fd, pipe->parts + at, pipe->count - at < PARTS ? pipe->count - at : PARTS);
        if (went <= 0) exit(0);
        for (; at < pipe->count && (size_t)went >= pipe->parts[at].iov_len; at++) went -= (ssize_t)pipe->parts[at].iov_len;
        if (went == 0) continue;
        pipe->parts[at].iov_base = (uint8_t *)pipe->parts[at].iov_base + went;
        pipe->parts[at].iov_len -= (size_t)went;
    }
    pipe->count = 0;
}

static void set_head(uint8_t *head, int writes, uint16_t tag, uint32_t n, uint64_t block) {
    head[AT_OP] = (uint8_t)writes;
    set_field(head + AT_TAG, 2, tag);
    set_field(head + AT_N, 4, n);
    set_field(head + AT_BLOCK, 8, block);
}

static void serve_one(int fd, uint8_t *disk) {
    static struct pipe pipe;
    static uint8_t heads[MOST_DEPTH][HEAD];
    memset(&pipe, 0, sizeof pipe);
    pipe.fd = fd;
    for (;;) {
        int answers = 0;
        take_in(&pipe);
        for (uint8_t *head; answers < MOST_DEPTH && (head = next_message(&pipe, 1)); answers++) {
            uint8_t *at = disk + field(head + AT_BLOCK, 8) * HOST_LBA;
            size_t n = field(head + AT_N, 4);
            if (head[AT_OP]) memcpy(at, head + HEAD, n);
            memcpy(heads[answers], head, HEAD);
            add(&pipe, heads[answers], HEAD);
            if (!head[AT_OP]) add(&pipe, at, n);
        }
        write_parts(&pipe);
    }
}

static void run_plain(unsigned port, struct load *load) {
    static struct pipe pipe;
    static uint8_t heads[MOST_DEPTH][HEAD];
    struct sockaddr_in address = {.sin_family = AF_INET, .sin_port = htons((unsigned short)port)};
    address.sin_addr.s_addr = htonl(0x7f000001);
    int one = 1;
    pipe.fd = socket(AF_INET, SOCK_STREAM, 0);
    setsockopt(pipe.fd, IPPROTO_TCP, TCP_NODELAY, &one, sizeof one);
    if (connect(pipe.fd, (struct sockaddr *)&address, sizeof address) != 0) die("connect");
    uint8_t *buffers = malloc((size_t)load->depth * load->octets);
    if (!buffers) die("memory");
    memset(buffers, 1, (size_t)load->depth * load->octets);
    begin(load);
    for (uint16_t tag = 0; tag < load->depth; tag++) {
        set_head(heads[tag], load->writes, tag, load->octets, next_block(load));
        add(&pipe, heads[tag], HEAD);
        if (load->writes) add(&pipe, buffers + (size_t)tag * load->octets, load->octets);
    }
    write_parts(&pipe);
    while (!is_over(load)) {
        take_in(&pipe);
        for (uint8_t *head; (head = next_message(&pipe, 0));) {
            uint16_t tag = (uint16_t)field(head + AT_TAG, 2);
            uint8_t *buffer = buffers + (size_t)tag * load->octets;
            if (!load->writes) memcpy(buffer, head + HEAD, load->octets);
            load->commands++;
            set_head(heads[tag], load->writes, tag, load->octets, next_block(load));
            add(&pipe, heads[tag], HEAD);
            if (load->writes) add(&pipe, buffer, load->octets);
        }
        write_parts(&pipe);
    }
}

static int serve(uint64_t mib) {
    struct sockaddr_in address = {.sin_family = AF_INET, .sin_addr.s_addr = htonl(0x7f000001)};
    socklen_t n = sizeof address;
    int one = 1, listener = socket(AF_INET, SOCK_STREAM, 0);
    uint8_t *disk = calloc(1, mib << 20);
    if (!disk || bind(listener, (struct sockaddr *)&address, n) != 0 || listen(listener, 16) != 0) die("bind");
    getsockname(listener, (struct sockaddr *)&address, &n);
    printf("port %d\n", ntohs(address.sin_port));
    fflush(stdout);
    int fd = accept4(listener, 0, 0, 0);
    setsockopt(fd, IPPROTO_TCP, TCP_NODELAY, &one, sizeof one);
    serve_one(fd, disk);
    return 0;
}

int main(int n, char **words) {
    keep_memory();
    signal(SIGPIPE, SIG_IGN);
    if (n == 3 && strcmp(words[1], "serve") == 0) return serve(strtoull(words[2], 0, 10));
    unsigned hosts = n == 8 ? (unsigned)strtoull(words[7], 0, 10) : 1;
    if (n < 7 || n > 8 || hosts == 0 || hosts > MOST_HOSTS) return 2;
    unsigned port = (unsigned)strtoull(words[2], 0, 10);
    struct load load = {.writes = strcmp(words[3], "write") == 0, .octets = (uint32_t)strtoull(words[4], 0, 10),
        .depth = (uint32_t)strtoull(words[5], 0, 10), .ms = strtoull(words[6], 0, 10), .blocks = (64u << 20) / HOST_LBA};
    if (load.depth == 0 || load.depth > MOST_DEPTH || load.octets < HOST_LBA || load.octets > BUFFERED - HEAD) return 2;
    if (strcmp(words[1], "nvme") == 0)
        run_nvme(port, &load, hosts);
    else
        run_plain(port, &load);
    uint64_t spent = now_ns(CLOCK_PROCESS_CPUTIME_ID) - load.spent;
    printf("%llu %llu\n", (unsigned long long)load.commands, (unsigned long long)(spent / (load.commands + 1)));
    return 0;
}
