/* Tests of the order in which commands are done, and of what one host takes from others. */
#include "exercise.h"

#include <sys/wait.h>

enum { SHORT = 4096, BLOCKS = SHORT / HOST_LBA, MOST_ZEROED = 65536, ROUNDS = 30 };

static uint64_t clock_ms(void) {
    struct timespec time;
    clock_gettime(CLOCK_MONOTONIC, &time);
    return (uint64_t)time.tv_sec * 1000 + (uint64_t)time.tv_nsec / 1000000;
}

void put_write(struct host_queue *queue, uint16_t slot, uint64_t from, uint64_t mark) {
    static uint8_t out[SHORT];
    fill(out, SHORT, mark);
    host_blocks(host_command(queue, slot, IO_WRITE, NSID), from, BLOCKS);
    host_put(queue, slot, out, SHORT);
    host_submit(queue, slot);
}

void put_zeroes(struct host_queue *queue, uint16_t slot) {
    host_blocks(host_command(queue, slot, IO_WRITE_ZEROES, NSID), 0, MOST_ZEROED);
    host_submit(queue, slot);
}

int has_mark(struct host_queue *queue, uint64_t from, uint64_t mark) {
    static uint8_t wanted[SHORT], in[SHORT];
    fill(wanted, SHORT, mark);
    CHECK(read_blocks(queue, from, in, SHORT, SGL_KEYED) == 0);
    return memcmp(in, wanted, SHORT) == 0;
}

/* A Write, or a deallocation and a Write, that comes behind a Write Zeroes of its blocks is done behind it. */
void overtakes(void) {
    struct host host = new_host();
    CHECK(host_begin(&host, 1, HOST_DEPTH));
    struct host_queue *queue = host.queues[1];
    int gone = 0;
    for (uint64_t i = 0; i < ROUNDS; i++) {
        uint64_t from = MOST_ZEROED - BLOCKS * (i + 1);
        put_zeroes(queue, 0);
        put_write(queue, 2, from, i + 1);
        CHECK(host_await(queue, 2) == 0 && host_await(queue, 0) == 0);
        gone += !has_mark(queue, from, i + 1);
    }
    if (gone > 0) printf("%d of %d Writes were answered and are gone\n", gone, ROUNDS);
    CHECK(gone == 0);
    host_end(&host);
}

void reset(struct host_queue *queue) {
    struct linger at_once = {1, 0};
    setsockopt(queue->fd, SOL_SOCKET, SO_LINGER, &at_once, sizeof at_once);
    close(queue->fd);
    queue->fd = -1;
}

/* What a host that is gone had asked for does not undo what another writes later. */
void is_stale(void) {
    enum { WRITES = 16 };
    struct host gone = new_host(), host = new_host();
    CHECK(host_begin(&host, 1, HOST_DEPTH) && host_begin(&gone, 1, HOST_DEPTH));
    for (uint16_t slot = 0; slot < HOST_DEPTH - 2; slot++) put_zeroes(gone.queues[1], slot);
    CHECK(host_write_out(gone.queues[1]));
    usleep(20000);
    reset(gone.queues[1]);
    reset(gone.queues[0]);
    usleep(20000);
    struct host_queue *queue = host.queues[1];
    for (uint16_t i = 0; i < WRITES; i++) put_write(queue, (uint16_t)(2 + i), i * 4000u, i + 1);
    for (uint16_t i = 0; i < WRITES; i++) CHECK(host_await(queue, (uint16_t)(2 + i)) == 0);
    host_command(queue, 0, IO_FLUSH, NSID);
    CHECK(host_do(queue, 0) == 0);
    usleep(3000000);
    int stale = 0;
    for (uint16_t i = 0; i < WRITES; i++) stale += !has_mark(queue, i * 4000u, i + 1);
    if (stale > 0) printf("%d of %d Writes were answered and flushed, and are gone\n", stale, WRITES);
    CHECK(stale == 0);
    host_end(&gone);
    host_end(&host);
}

/* ---- bursts */

enum burst { CHAIN, ZEROES, WRITES, READS, BURSTS };
enum { BURST_QUEUES = 7, MOST_DELAY = 100, TRIES = 8, MOST_BURST = 20000 };

/* Deallocates 256 ranges that lie between those of all other commands, but for the last: each command's touches the next one's. */
static void put_chain(struct host_queue *queue, uint16_t slot, uint32_t number, uint32_t all) {
    static uint8_t ranges[MOST_RANGES * RANGE_OCTETS];
    for (uint32_t i = 0; i < MOST_RANGES; i++) {
        uint32_t is_last = i == MOST_RANGES - 1, from = 2 * (i * all + number);
        set_field(ranges + i * RANGE_OCTETS + RANGE_NLB, 4, is_last ? 3 : 1);
        set_field(ranges + i * RANGE_OCTETS + RANGE_SLBA, 8, from);
    }
    uint8_t *sqe = host_command(queue, slot, IO_DATASET_MANAGEMENT, NSID);
    sqe[SQE_CDW10] = MOST_RANGES - 1;
    sqe[SQE_CDW11] = DSM_DEALLOCATE;
    host_put(queue, slot, ranges, sizeof ranges);
    host_submit(queue, slot);
}

static void put_burst(struct host_queue *queue, uint16_t slot, enum burst kind) {
    uint32_t number = (queue->id - 1u) * (HOST_DEPTH - 1) + slot, all = BURST_QUEUES * (HOST_DEPTH - 1);
    if (kind == CHAIN) put_chain(queue, slot, number, all);
    if (kind == ZEROES) put_zeroes(queue, slot);
    if (kind < WRITES) return;
    map_blocks(queue, slot, kind == READS ? IO_READ : IO_WRITE, (number % 64) * (LONGEST / HOST_LBA), LONGEST, SGL_KEYED);
    host_submit(queue, slot);
}

/* A host that sends as many commands as it may, and waits until all are answered; or only for a while. */
static void burst(enum burst kind) {
    struct host host = new_host();
    uint64_t begun = clock_ms();
    uint32_t left = 1;
    CHECK(host_begin(&host, BURST_QUEUES, HOST_DEPTH));
    for (uint16_t slot = 0; slot < HOST_DEPTH - 1; slot++)
        for (uint16_t id = 1; id <= BURST_QUEUES; id++) put_burst(host.queues[id], slot, kind);
    while (left > 0 && clock_ms() - begun < MOST_BURST) {
        left = 0;
        for (uint16_t id = 1; id <= BURST_QUEUES; id++) {
            CHECK(host_step(host.queues[id], 0));
            left += host.queues[id]->in_hand;
        }
    }
    CHECK(left == 0);
    host_end(&host);
}

/* How long a Read takes, in ms. */
static int read_once(struct host *host) {
    static uint8_t in[SHORT];
    uint64_t begun = clock_ms();
    int is_read = read_blocks(host->queues[1], random_number(1000), in, SHORT, SGL_KEYED) == 0;
    int took = (int)(clock_ms() - begun);
    usleep(1000);
    return is_read ? took : MOST_BURST;
}

/* By how much another host's Read takes longer at most while the burst goes on than before, in ms; or -1, if the burst fails. */
static int delay_by(enum burst kind) {
    enum { BEFORE = 300 };
    struct host host = new_host();
    CHECK(host_begin(&host, 1, HOST_DEPTH));
    int calm = 0, worst = 0, status = 0;
    for (int i = 0, took; i < BEFORE; i++, calm = took > calm ? took : calm) took = read_once(&host);
    pid_t child = fork();
    CHECK(child >= 0);
    if (child == 0) {
        burst(kind);
        _exit(0);
    }
    while (worst < MOST_BURST && waitpid(child, &status, WNOHANG) == 0) {
        int took = read_once(&host);
        if (took > worst) worst = took;
    }
    if (worst >= MOST_BURST) kill(child, SIGKILL), waitpid(child, &status, 0);
    host_end(&host);
    if (!WIFEXITED(status) || WEXITSTATUS(status) != 0) return -1;
    return worst > calm ? worst - calm : 0;
}

/* A burst of valid commands of one host delays another's Read by at most 100 ms. A machine that is busy with something else may
 * delay it by more, so one of eight tries is enough. */
void bursts(void) {
    static const char *const names[] = {"deallocations in a chain", "Write Zeroes", "Writes", "Reads"};
    for (enum burst kind = CHAIN; kind < BURSTS; kind++) {
        int best = MOST_BURST;
        for (int i = 0; i < TRIES && best > MOST_DELAY; i++) {
            int delay = delay_by(kind);
            if (delay >= 0 && delay < best) best = delay;
        }
        printf("a burst of %s delays a Read by %d ms\n", names[kind], best);
        CHECK(best <= MOST_DELAY);
    }
}

/* ---- hosts that go */

/* Short Writes, as many as the queue takes. */
static void put_writes(struct host_queue *queue) {
    for (uint16_t slot = 0; slot < queue->depth - 1; slot++) put_write(queue, slot, slot * BLOCKS, slot);
    CHECK(host_write_out(queue));
}

/* On a slow store many hosts come, write, and go without a word: what they asked for goes with them, and another is served. */
void goes_and_comes(void) {
    enum { CONNECTS = 1587, ANSWER_MS = 10000, MOST_KIB = 64 << 10 };
    struct host host = new_host();
    set_harm("write_us 10000");
    CHECK(host_begin(&host, 1, HOST_DEPTH));
    long before = resident();
    for (int i = 0; i < CONNECTS; i++) {
        struct host other = new_host();
        CHECK(host_begin(&other, 1, HOST_DEPTH));
        put_writes(other.queues[1]);
        usleep(1000);
        reset(other.queues[1]);
        reset(other.queues[0]);
        host_end(&other);
    }
    usleep(500000);
    long after = resident();
    uint64_t begun = clock_ms();
    put_write(host.queues[1], 0, 7, 7);
    CHECK(host_await(host.queues[1], 0) == 0);
    uint64_t took = clock_ms() - begun;
    printf("%ld KiB more; a Write takes %d ms\n", after - before, (int)took);
    CHECK(after - before < MOST_KIB && took < ANSWER_MS);
    set_harm("");
    host_end(&host);
}

/* Leaves the store many Writes to do. */
void leaves_waiting(void) {
    struct host host = new_host();
    CHECK(host_begin(&host, 4, HOST_DEPTH));
    for (uint16_t id = 1; id <= 4; id++) put_writes(host.queues[id]);
    usleep(200000);
    CHECK(kill(target_process(), SIGTERM) == 0);
    for (uint16_t id = 1; id <= 4; id++)
        while (host_step(host.queues[id], 10)) {
        }
    host_end(&host);
}

/* The target is stopped for longer than its hosts may be silent, and goes on: each has spoken meanwhile, and none is let go. */
void pauses(void) {
    enum { HOSTS = 120, SLOT = 1 };
    static struct host hosts[HOSTS];
    for (int i = 0; i < HOSTS; i++) {
        hosts[i] = new_host();
        hosts[i].keep_alive = KEPT_MS;
        CHECK(host_begin(&hosts[i], 0, 0));
    }
    CHECK(kill(target_process(), SIGSTOP) == 0);
    usleep(2 * KEPT_MS * 1000);
    for (int i = 0; i < HOSTS; i++) {
        host_command(hosts[i].queues[0], SLOT, ADMIN_KEEP_ALIVE, 0);
        host_submit(hosts[i].queues[0], SLOT);
        CHECK(host_write_out(hosts[i].queues[0]));
    }
    CHECK(kill(target_process(), SIGCONT) == 0);
    int answered = 0;
    for (int i = 0; i < HOSTS; i++) answered += host_await(hosts[i].queues[0], SLOT) == 0;
    printf("%d of %d hosts were answered\n", answered, HOSTS);
    CHECK(answered == HOSTS);
    for (int i = 0; i < HOSTS; i++) host_end(&hosts[i]);
}

/* ---- memory */

long resident(void) {
    char path[64], line[256];
    long kib = -1;
    snprintf(path, sizeof path, "/proc/%d/status", target_process());
    FILE *file = fopen(path, "r");
    CHECK(file);
    while (fgets(line, sizeof line, file))
        if (strncmp(line, "VmRSS:", 6) == 0) kib = strtol(line + 6, 0, 10);
    fclose(file);
    return kib;
}

/* Connections that have the target take as much memory as they can: 6 MiB each. They write much and short, ask for much, and take
 * nothing. */
void takes_its_memory(void) {
    enum { HOSTS = 8, MOST_KIB = 6 << 10 };
    static struct host hosts[HOSTS];
    long before = resident();
    for (int i = 0; i < HOSTS; i++) {
        hosts[i] = new_host();
        CHECK(host_begin(&hosts[i], 1, HOST_DEPTH));
        for (uint16_t slot = 0; slot < HOST_DEPTH - 1; slot++) {
            struct host_queue *queue = hosts[i].queues[1];
            if (slot % 4 == 1) put_write(queue, slot, slot, slot);
            if (slot % 4 == 1) continue;
            map_blocks(queue, slot, slot % 4 == 0 ? IO_WRITE : IO_READ, 0, LONGEST, SGL_KEYED);
            host_submit(queue, slot);
        }
        CHECK(host_write_out(hosts[i].queues[1]));
    }
    usleep(1000000);
    long each = (resident() - before) / HOSTS;
    printf("%ld KiB for each host\n", each);
    CHECK(each <= 2 * MOST_KIB); /* it has an admin queue as well */
    CHECK(each >= MOST_KIB / 4);
    for (int i = 0; i < HOSTS; i++) host_end(&hosts[i]);
}
