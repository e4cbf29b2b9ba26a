/* A host that tries a target:
 *
 *     exercise PORT OPTIONS TEST..
 *
 * runs each test against the target at that port of this machine, and prints `TEST: ok`, or the line of this file at which it
 * failed, with status 1. OPTIONS is IWARP_CRC (2) or 0. Some tests need the target's process in the environment, as TARGET, its
 * subsystem's name, as NQN, or the file by which its calls are harmed, as HARM (harm.c); those with a target that is killed a file
 * that keeps what the disk may have, as MODEL. */
#include "exercise.h"

#include <dirent.h>

enum { MOST_HOSTS = 255, CONNECTS = 200, SILENT = 300 };

const char *test_name, *nqn = "nqn.2026-11.example:iwarp";
unsigned port;
static uint32_t options;
static uint64_t seed = 1;

struct host new_host(void) {
    return (struct host){.address = "127.0.0.1", .nqn = nqn, .port = port, .options = options, .mulpdu = MULPDU};
}

uint32_t random_number(uint32_t below) {
    seed = seed * 6364136223846793005u + 1442695040888963407u;
    return (uint32_t)(seed >> 33) % below;
}

void fill(uint8_t *at, size_t n, uint64_t mark) {
    for (size_t i = 0; i < n; i += 8, mark = mark * 6364136223846793005u + 1442695040888963407u) set_field(at + i, 8, mark);
}

/* ---- reading and writing */

uint8_t *map_blocks(struct host_queue *queue, uint16_t slot, uint8_t opcode, uint64_t from, size_t n, uint8_t type) {
    uint8_t *sqe = host_command(queue, slot, opcode, NSID);
    host_blocks(sqe, from, (uint32_t)(n / HOST_LBA));
    return host_map(queue, slot, n, type);
}

int write_blocks(struct host_queue *queue, uint64_t from, const uint8_t *octets, size_t n, uint8_t type) {
    if (type == SGL_DATA_OFFSET) {
        uint8_t *sqe = host_command(queue, 0, IO_WRITE, NSID);
        host_blocks(sqe, from, (uint32_t)(n / HOST_LBA));
        host_put(queue, 0, octets, n);
    } else {
        memcpy(map_blocks(queue, 0, IO_WRITE, from, n, type), octets, n);
    }
    return host_do(queue, 0);
}

int read_blocks(struct host_queue *queue, uint64_t from, uint8_t *octets, size_t n, uint8_t type) {
    const uint8_t *at = map_blocks(queue, 1, IO_READ, from, n, type);
    int status = host_do(queue, 1);
    if (status == 0) memcpy(octets, at, n);
    return status;
}

/* Transfers of each kind and many lengths come back as they were written, at both ends of the disk too. */
static void compares(void) {
    static uint8_t out[LONGEST], in[LONGEST];
    static const size_t lengths[] = {512, 4096, 4608, 8192, 65536, TRANSFER, 524288, LONGEST};
    struct host host = new_host();
    CHECK(host_begin(&host, 1, HOST_DEPTH));
    struct host_queue *queue = host.queues[1];
    for (unsigned i = 0; i < sizeof lengths / sizeof *lengths; i++) {
        size_t n = lengths[i];
        uint64_t places[] = {0, 7, host.blocks - n / HOST_LBA};
        for (int place = 0; place < 3; place++) {
            fill(out, n, i * 3 + (unsigned)place);
            uint8_t type = place % 2 ? SGL_KEYED : SGL_KEYED_INVALIDATE;
            CHECK(write_blocks(queue, places[place], out, n, n <= 4096 && place == 1 ? SGL_DATA_OFFSET : type) == 0);
            CHECK(read_blocks(queue, places[place], in, n, type) == 0);
            CHECK(memcmp(in, out, n) == 0);
        }
    }
    host_end(&host);
}

/* A pattern over the whole disk, and whether it is there: `stands` after `fills`, of another process of the target too. */
static void whole(int writes) {
    static uint8_t out[LONGEST], in[LONGEST];
    struct host host = new_host();
    CHECK(host_begin(&host, 1, HOST_DEPTH));
    for (uint64_t from = 0; from < host.blocks; from += LONGEST / HOST_LBA) {
        uint64_t left = (host.blocks - from) * HOST_LBA;
        size_t n = left < LONGEST ? (size_t)left : LONGEST;
        fill(out, n, from);
        if (writes) CHECK(write_blocks(host.queues[1], from, out, n, SGL_KEYED_INVALIDATE) == 0);
        if (!writes) CHECK(read_blocks(host.queues[1], from, in, n, SGL_KEYED_INVALIDATE) == 0 && memcmp(in, out, n) == 0);
    }
    host_command(host.queues[1], 0, IO_FLUSH, NSID);
    CHECK(host_do(host.queues[1], 0) == 0);
    host_end(&host);
}

static void fills(void) {
    whole(1);
}

static void stands(void) {
    whole(0);
}

/* ---- several at once */

enum { AT_ONCE = 4, PART = 1 << 20, ROUNDS = 400 };

/* A part of the disk for each slot of each queue, with what should stand there. */
struct part {
    uint8_t octets[PART];
    size_t at, n; /* what is under way */
    int reads;
};

static void begin_transfer(struct host_queue *queue, uint16_t slot, struct part *part, uint64_t from) {
    part->n = (1 + random_number(300)) * HOST_LBA;
    part->at = random_number((uint32_t)((PART - part->n) / HOST_LBA)) * HOST_LBA;
    part->reads = random_number(2) == 0;
    uint8_t *at = map_blocks(queue, slot, part->reads ? IO_READ : IO_WRITE, from + part->at / HOST_LBA, part->n, SGL_KEYED_INVALIDATE);
    if (!part->reads) {
        fill(part->octets + part->at, part->n, seed);
        memcpy(at, part->octets + part->at, part->n);
    }
    host_submit(queue, slot);
}

static void end_transfer(struct host_queue *queue, uint16_t slot, struct part *part) {
    host_unmap(queue, slot);
    CHECK(queue->slots[slot].status == 0);
    if (part->reads) CHECK(memcmp(queue->slots[slot].octets, part->octets + part->at, part->n) == 0);
}

/* Two queues with four transfers at a time each, of random lengths, in parts of the disk around 16 MiB. */
static void four_at_once(void) {
    static struct part parts[2][AT_ONCE];
    const uint64_t from = ((16u << 20) - 3 * PART - PART / 2) / HOST_LBA;
    struct host host = new_host();
    CHECK(host_begin(&host, 2, HOST_DEPTH));
    for (int i = 0; i < 2 * AT_ONCE; i++)
        CHECK(write_blocks(host.queues[1], from + (uint64_t)i * (PART / HOST_LBA), parts[0][0].octets, PART, SGL_KEYED) == 0);
    int left = ROUNDS, in_hand = 0;
    while (left > 0 || in_hand > 0) {
        for (int i = 0; i < 2 * AT_ONCE; i++) {
            struct host_queue *queue = host.queues[1 + i / AT_ONCE];
            uint16_t slot = (uint16_t)(2 + i % AT_ONCE);
            struct part *part = &parts[i / AT_ONCE][i % AT_ONCE];
            if (queue->slots[slot].in_hand) continue;
            if (part->n) {
                end_transfer(queue, slot, part);
                part->n = 0;
                in_hand--;
            }
            if (left == 0) continue;
            begin_transfer(queue, slot, part, from + (uint64_t)i * (PART / HOST_LBA));
            left--;
            in_hand++;
        }
        CHECK(host_step(host.queues[1], 1) && host_step(host.queues[2], 1));
    }
    host_end(&host);
}

/* As many commands as the queue has entries, of 128 KiB each: Writes, then Reads. */
static void full_depth(void) {
    struct host host = new_host();
    CHECK(host_begin(&host, 1, HOST_DEPTH));
    struct host_queue *queue = host.queues[1];
    for (int reads = 0; reads < 2; reads++) {
        for (uint16_t slot = 0; slot < HOST_DEPTH; slot++) {
            uint64_t from = slot * (TRANSFER / HOST_LBA);
            uint8_t *at = map_blocks(queue, slot, reads ? IO_READ : IO_WRITE, from, TRANSFER, SGL_KEYED_INVALIDATE);
            if (!reads) fill(at, TRANSFER, slot);
            if (reads) memset(at, 0, TRANSFER);
            host_submit(queue, slot);
        }
        for (int ms = 0; queue->in_hand > 0 && ms < HOST_WAIT_MS; ms++) CHECK(host_step(queue, 1));
        for (uint16_t slot = 0; slot < HOST_DEPTH; slot++) {
            static uint8_t wanted[TRANSFER];
            host_unmap(queue, slot);
            fill(wanted, TRANSFER, slot);
            CHECK(queue->slots[slot].answered && queue->slots[slot].status == 0);
            CHECK(memcmp(queue->slots[slot].octets, wanted, TRANSFER) == 0);
        }
    }
    host_end(&host);
}

/* ---- the other commands */

int is_zero(const uint8_t *octets, size_t n) {
    for (size_t i = 0; i < n; i++)
        if (octets[i] != 0) return 0;
    return 1;
}

/* Begins, and writes TRANSFER octets at the front of the disk, which `out` has then. */
static struct host_queue *begin_written(struct host *host, uint8_t *out) {
    CHECK(host_begin(host, 1, HOST_DEPTH));
    fill(out, TRANSFER, 5);
    CHECK(write_blocks(host->queues[1], 0, out, TRANSFER, SGL_KEYED) == 0);
    return host->queues[1];
}

static void clears(void) {
    static uint8_t out[TRANSFER], in[TRANSFER];
    struct host host = new_host();
    struct host_queue *queue = begin_written(&host, out);
    host_blocks(host_command(queue, 0, IO_WRITE_ZEROES, NSID), 1, TRANSFER / HOST_LBA - 2);
    CHECK(host_do(queue, 0) == 0);
    CHECK(read_blocks(queue, 0, in, TRANSFER, SGL_KEYED) == 0);
    CHECK(memcmp(in, out, HOST_LBA) == 0 && is_zero(in + HOST_LBA, TRANSFER - 2 * HOST_LBA));
    CHECK(memcmp(in + TRANSFER - HOST_LBA, out + TRANSFER - HOST_LBA, HOST_LBA) == 0);

    uint8_t *sqe = host_command(queue, 0, IO_WRITE, NSID);
    host_blocks(sqe, 0, 1);
    set_field(sqe + SQE_CDW12, 4, RW_FUA);
    host_put(queue, 0, out + HOST_LBA, HOST_LBA);
    CHECK(host_do(queue, 0) == 0);
    host_command(queue, 0, IO_FLUSH, NSID);
    CHECK(host_do(queue, 0) == 0);
    CHECK(read_blocks(queue, 0, in, HOST_LBA, SGL_KEYED) == 0 && memcmp(in, out + HOST_LBA, HOST_LBA) == 0);
    host_end(&host);
}

/* Memory that is given back reads as zero. */
static void deallocates(void) {
    static uint8_t out[TRANSFER], in[TRANSFER];
    struct host host = new_host();
    struct host_queue *queue = begin_written(&host, out);
    uint8_t ranges[2 * RANGE_OCTETS] = {0};
    set_field(ranges + RANGE_NLB, 4, 8);
    set_field(ranges + RANGE_OCTETS + RANGE_NLB, 4, 1);
    set_field(ranges + RANGE_OCTETS + RANGE_SLBA, 8, TRANSFER / HOST_LBA - 1);
    uint8_t *sqe = host_command(queue, 0, IO_DATASET_MANAGEMENT, NSID);
    sqe[SQE_CDW10] = 1;
    sqe[SQE_CDW11] = DSM_DEALLOCATE;
    host_put(queue, 0, ranges, sizeof ranges);
    CHECK(host_do(queue, 0) == 0);
    CHECK(read_blocks(queue, 0, in, TRANSFER, SGL_KEYED) == 0);
    CHECK(is_zero(in, 8 * HOST_LBA) && is_zero(in + TRANSFER - HOST_LBA, HOST_LBA));
    CHECK(memcmp(in + 8 * HOST_LBA, out + 8 * HOST_LBA, TRANSFER - 9 * HOST_LBA) == 0);

    static uint8_t page[4096]; /* as Linux sends it: a page for one range */
    memcpy(page, ranges, RANGE_OCTETS);
    host_command(queue, 0, IO_DATASET_MANAGEMENT, NSID)[SQE_CDW11] = DSM_DEALLOCATE;
    host_put(queue, 0, page, sizeof page);
    CHECK(host_do(queue, 0) == 0);
    host_end(&host);
}

/* Each admin command with what it answers. */
static void administers(void) {
    struct host host = new_host();
    CHECK(host_begin(&host, 1, HOST_DEPTH));
    struct host_queue *queue = host.queues[0];
    host_command(queue, 0, ADMIN_IDENTIFY, 0)[SQE_CDW10] = CNS_CONTROLLER;
    const uint8_t *id = host_map(queue, 0, IDENTIFY_OCTETS, SGL_KEYED_INVALIDATE);
    CHECK(host_do(queue, 0) == 0 && strcmp((const char *)id + ID_SUBNQN, nqn) == 0);
    CHECK(field(id + ID_CNTLID, 2) == host.controller && id[ID_SQES] == 0x66 && id[ID_CQES] == 0x44);
    host_command(queue, 0, ADMIN_IDENTIFY, 0)[SQE_CDW10] = CNS_NAMESPACE_LIST;
    id = host_map(queue, 0, IDENTIFY_OCTETS, SGL_KEYED_INVALIDATE);
    CHECK(host_do(queue, 0) == 0 && field(id, 8) == NSID);
    host_command(queue, 0, ADMIN_IDENTIFY, NSID)[SQE_CDW10] = CNS_DESCRIPTORS;
    id = host_map(queue, 0, IDENTIFY_OCTETS, SGL_KEYED_INVALIDATE);
    CHECK(host_do(queue, 0) == 0 && id[0] == DESCRIPTOR_NGUID && id[1] == NGUID_OCTETS);
    uint8_t *sqe = host_command(queue, 0, ADMIN_GET_LOG_PAGE, 0xffffffff);
    set_field(sqe + SQE_CDW10, 4, LOG_EFFECTS | 1023u << 16);
    const uint8_t *log = host_map(queue, 0, 4096, SGL_KEYED);
    CHECK(host_do(queue, 0) == 0 && log[4 * ADMIN_IDENTIFY] == 1 && log[EFFECTS_IO + 4 * IO_WRITE] == 3 && log[4 * 0x80] == 0);
    sqe = host_command(queue, 0, ADMIN_GET_LOG_PAGE, 0xffffffff);
    set_field(sqe + SQE_CDW10, 4, LOG_HEALTH | 127u << 16);
    log = host_map(queue, 0, 512, SGL_KEYED);
    CHECK(host_do(queue, 0) == 0 && log[HEALTH_SPARE] == 100);
    sqe = host_command(queue, 0, ADMIN_SET_FEATURES, 0);
    sqe[SQE_CDW10] = FEATURE_KEEP_ALIVE;
    set_field(sqe + SQE_CDW11, 4, 12345);
    CHECK(host_do(queue, 0) == 0);
    host_command(queue, 0, ADMIN_GET_FEATURES, 0)[SQE_CDW10] = FEATURE_KEEP_ALIVE;
    CHECK(host_do(queue, 0) == 0 && queue->slots[0].result == 13000);
    host_command(queue, 0, ADMIN_KEEP_ALIVE, 0);
    CHECK(host_do(queue, 0) == 0);
    host_command(queue, 0, ADMIN_ABORT, 0);
    CHECK(host_do(queue, 0) == 0 && queue->slots[0].result == 1);
    for (uint16_t i = 0; i < 4; i++) {
        host_command(queue, (uint16_t)(10 + i), ADMIN_ASYNC_EVENT, 0);
        host_submit(queue, (uint16_t)(10 + i));
    }
    host_command(queue, 0, ADMIN_ASYNC_EVENT, 0);
    CHECK(host_do(queue, 0) == (STATUS_ASYNC_EVENT_LIMIT | STATUS_DO_NOT_RETRY));
    host_end(&host);
}

static void discovers(void) {
    struct host host = new_host();
    host.nqn = DISCOVERY_NQN;
    CHECK(host_open(&host, 0, 32) && host_connect(&host, 0) == 0);
    struct host_queue *queue = host.queues[0];
    uint8_t *sqe = host_command(queue, 0, OPCODE_FABRICS, FABRICS_PROPERTY_SET);
    set_field(sqe + PROPERTY_OFFSET, 4, PROPERTY_CC);
    set_field(sqe + PROPERTY_VALUE, 8, CC_ENABLE);
    CHECK(host_do(queue, 0) == 0);
    sqe = host_command(queue, 0, ADMIN_GET_LOG_PAGE, 0);
    set_field(sqe + SQE_CDW10, 4, LOG_DISCOVERY | 511u << 16);
    const uint8_t *log = host_map(queue, 0, 2048, SGL_KEYED_INVALIDATE), *entry = log + DISCOVERY_ENTRY;
    CHECK(host_do(queue, 0) == 0 && field(log + DISCOVERY_NUMREC, 8) == 1);
    CHECK(strcmp((const char *)entry + ENTRY_SUBNQN, nqn) == 0 && memcmp(entry + ENTRY_TRADDR, "127.0.0.1 ", 10) == 0);
    CHECK(strtoull((const char *)entry + ENTRY_TRSVCID, 0, 10) == port);
    host_command(queue, 0, ADMIN_IDENTIFY, 0)[SQE_CDW10] = CNS_NAMESPACE;
    host_map(queue, 0, IDENTIFY_OCTETS, SGL_KEYED);
    CHECK(host_do(queue, 0) == (STATUS_INVALID_FIELD | STATUS_DO_NOT_RETRY));
    host_end(&host);
}

/* ---- what is refused */

/* A field that is set to a value in a Read of eight blocks, and the status that this gets. */
struct wrong {
    int at, n;
    uint64_t value;
    uint16_t status;
};

static const struct wrong wrongs[] = {
    {SQE_OPCODE, 1, 0x05, STATUS_INVALID_OPCODE},
    {SQE_OPCODE, 1, 0x80, STATUS_INVALID_OPCODE},
    {SQE_FLAGS, 1, 0, STATUS_INVALID_FIELD},
    {SQE_FLAGS, 1, PSDT_SGL | 1, STATUS_INVALID_FIELD},
    {SQE_NSID, 4, 0, STATUS_INVALID_NAMESPACE},
    {SQE_NSID, 4, 2, STATUS_INVALID_NAMESPACE},
    {SQE_NSID, 4, 0xffffffff, STATUS_INVALID_NAMESPACE},
    {SQE_CDW10, 8, 1ull << 55, STATUS_LBA_OUT_OF_RANGE},
    {SQE_CDW10, 8, UINT64_MAX, STATUS_LBA_OUT_OF_RANGE},
    {SQE_CDW12, 4, RW_PRINFO | 7, STATUS_INVALID_FIELD},
    {SQE_CDW12, 4, 0xffff, STATUS_INVALID_FIELD},
    {SQE_CDW12, 4, 8, STATUS_DATA_SGL_LENGTH_INVALID},
    {SQE_SGL + SGL_LENGTH, 3, 4095, STATUS_DATA_SGL_LENGTH_INVALID},
    {SQE_SGL + SGL_LENGTH, 3, 4097, STATUS_DATA_SGL_LENGTH_INVALID},
    {SQE_SGL + SGL_TYPE, 1, 0x00, STATUS_SGL_TYPE_INVALID},
    {SQE_SGL + SGL_TYPE, 1, SGL_DATA_OFFSET, STATUS_SGL_TYPE_INVALID},
    {SQE_SGL + SGL_TYPE, 1, 0x5f, STATUS_SGL_TYPE_INVALID},
};

static void refuses(void) {
    struct host host = new_host();
    CHECK(host_begin(&host, 1, HOST_DEPTH));
    struct host_queue *queue = host.queues[1];
    for (unsigned i = 0; i < sizeof wrongs / sizeof *wrongs; i++) {
        const struct wrong *wrong = &wrongs[i];
        map_blocks(queue, 0, IO_READ, 0, 4096, SGL_KEYED);
        set_field(queue->slots[0].capsule + wrong->at, wrong->n, wrong->value);
        int status = host_do(queue, 0);
        if (status != (wrong->status | STATUS_DO_NOT_RETRY)) printf("wrong field %u: %x\n", i, (unsigned)status);
        CHECK(status == (wrong->status | STATUS_DO_NOT_RETRY));
    }
    uint8_t data[1024] = {0};
    uint8_t *sqe = host_command(queue, 0, IO_WRITE, NSID);
    host_blocks(sqe, 0, 2);
    host_put(queue, 0, data, sizeof data);
    set_field(sqe + SQE_SGL, 8, 1);
    CHECK(host_do(queue, 0) == (STATUS_SGL_OFFSET_INVALID | STATUS_DO_NOT_RETRY));
    sqe = host_command(queue, 0, IO_DATASET_MANAGEMENT, NSID);
    sqe[SQE_CDW11] = DSM_DEALLOCATE;
    set_field(data + RANGE_NLB, 4, 1);
    set_field(data + RANGE_SLBA, 8, host.blocks);
    host_put(queue, 0, data, RANGE_OCTETS);
    CHECK(host_do(queue, 0) == (STATUS_LBA_OUT_OF_RANGE | STATUS_DO_NOT_RETRY));
    host_command(queue, 0, OPCODE_FABRICS, FABRICS_PROPERTY_GET);
    CHECK(host_do(queue, 0) == (STATUS_INVALID_OPCODE | STATUS_DO_NOT_RETRY));
    host_command(queue, 0, OPCODE_FABRICS, FABRICS_CONNECT);
    CHECK(host_do(queue, 0) == (STATUS_COMMAND_SEQUENCE_ERROR | STATUS_DO_NOT_RETRY));
    host_end(&host);
}

/* The status in the private data of a Reply that rejects. */
static uint16_t why_rejected(struct host_queue *queue) {
    uint8_t answer[MOST_PRIVATE + 4];
    size_t n;
    CHECK(endpoint_private(&queue->endpoint, answer, sizeof answer, &n) == IWARP_OK && n == REJECT_OCTETS);
    return (uint16_t)field(answer + REJECT_STATUS, 2);
}

/* A queue of its own for each wrong Connect; commands before a Connect, and before the controller is enabled. */
static void refuses_connects(void) {
    const int busy = STATUS_CONNECT_INVALID | STATUS_DO_NOT_RETRY, early = STATUS_COMMAND_SEQUENCE_ERROR | STATUS_DO_NOT_RETRY;
    struct host host = new_host(), other = new_host();
    CHECK(host_begin(&host, 1, HOST_DEPTH));
    other.controller = host.controller;
    CHECK(host_open(&other, 1, 32) && host_connect(&other, 1) == busy); /* the number is taken */
    CHECK(other.queues[1]->slots[0].result == CONNECT_QID);
    host_close(&other, 1);
    CHECK(host_open(&other, 7, 32) && host_connect(&other, 7) == busy); /* more than was granted */
    host_close(&other, 7);
    other.controller = 0;
    CHECK(host_open(&other, 2, 32) && host_connect(&other, 2) == busy);
    CHECK(other.queues[2]->slots[0].result == (INVALID_IN_DATA | CONNECT_CNTLID));
    map_blocks(other.queues[2], 0, IO_READ, 0, 4096, SGL_KEYED);
    CHECK(host_do(other.queues[2], 0) == early);
    host_close(&other, 2);
    other.nqn = "nqn.2026-11.example:another";
    CHECK(host_open(&other, 0, 32) && host_connect(&other, 0) == busy);
    CHECK(other.queues[0]->slots[0].result == (INVALID_IN_DATA | CONNECT_SUBNQN));
    other.nqn = nqn;
    CHECK(host_connect(&other, 0) == 0); /* the queue is still there */
    host_command(other.queues[0], 0, ADMIN_KEEP_ALIVE, 0);
    CHECK(host_do(other.queues[0], 0) == early);
    host_end(&other);
    CHECK(!host_open(&other, 1, 1)); /* a queue of one entry holds no command */
    CHECK(why_rejected(other.queues[1]) == REJECT_HSQSIZE);
    host_end(&other);
    host_end(&host);
}

/* ---- many connections */

static void connects(void) {
    static uint8_t in[4096];
    for (int i = 0; i < CONNECTS; i++) {
        struct host host = new_host();
        CHECK(host_begin(&host, 1, HOST_DEPTH));
        CHECK(read_blocks(host.queues[1], (uint64_t)i, in, sizeof in, SGL_KEYED_INVALIDATE) == 0);
        host_end(&host);
    }
}

/* The target has time to see that hosts have gone. */
static void let_go(void) {
    usleep(500000);
}

/* As many hosts as the target takes, and one more, which has to wait until another has gone. */
static void many_hosts(void) {
    static struct host hosts[MOST_HOSTS];
    struct host more = new_host();
    let_go();
    for (int i = 0; i < MOST_HOSTS; i++) {
        hosts[i] = new_host();
        CHECK(host_begin(&hosts[i], 0, 0));
    }
    CHECK(host_open(&more, 0, 32) && host_connect(&more, 0) == STATUS_CONNECT_BUSY);
    host_end(&more);
    for (int i = 0; i < MOST_HOSTS; i++) {
        host_command(hosts[i].queues[0], 0, ADMIN_KEEP_ALIVE, 0);
        CHECK(host_do(hosts[i].queues[0], 0) == 0);
    }
    host_end(&hosts[0]);
    let_go();
    CHECK(host_begin(&more, 1, HOST_DEPTH));
    host_end(&more);
    for (int i = 1; i < MOST_HOSTS; i++) host_end(&hosts[i]);
}

/* A host at an address of its own for each domain of the target, and one at another address, which is rejected in its start-up
 * until one of them has gone. Those that are there get their I/O queues all the while. */
static void many_addresses(void) {
    static struct host hosts[MOST_DOMAINS + 1];
    static char addresses[MOST_DOMAINS + 1][INET_ADDRSTRLEN];
    for (unsigned i = 0; i <= MOST_DOMAINS; i++) {
        hosts[i] = new_host();
        hosts[i].from = addresses[i];
        snprintf(addresses[i], sizeof addresses[i], "127.0.%u.1", i);
    }
    struct host *more = &hosts[MOST_DOMAINS];
    let_go();
    for (int i = 0; i < MOST_DOMAINS; i++) CHECK(host_begin(&hosts[i], 0, 0));
    CHECK(!host_open(more, 0, 32));
    CHECK(why_rejected(more->queues[0]) == REJECT_NO_RESOURCES);
    host_end(more);
    CHECK(host_open(&hosts[7], 1, HOST_DEPTH) && host_connect(&hosts[7], 1) == 0);
    host_end(&hosts[0]);
    let_go();
    CHECK(host_begin(more, 1, HOST_DEPTH));
    for (int i = 1; i <= MOST_DOMAINS; i++) host_end(&hosts[i]);
}

/* A host that keeps silent is given up, another is not. */
static void keeps_alive(void) {
    struct host silent = new_host(), alive = new_host();
    silent.keep_alive = alive.keep_alive = 2000;
    CHECK(host_begin(&silent, 1, HOST_DEPTH) && host_begin(&alive, 1, HOST_DEPTH));
    for (int i = 0; i < 40; i++) {
        host_command(alive.queues[0], 0, ADMIN_KEEP_ALIVE, 0);
        CHECK(host_do(alive.queues[0], 0) == 0);
        usleep(100000);
    }
    CHECK(!host_step(silent.queues[0], 100) && !host_step(silent.queues[1], 100));
    CHECK(host_step(alive.queues[1], 0));
    host_end(&silent);
    host_end(&alive);
}

int plain_connection(void) {
    struct sockaddr_in address = {.sin_family = AF_INET, .sin_port = htons((unsigned short)port)};
    address.sin_addr.s_addr = htonl(0x7f000001);
    int fd = socket(AF_INET, SOCK_STREAM, 0);
    CHECK(fd >= 0 && connect(fd, (struct sockaddr *)&address, sizeof address) == 0);
    return fd;
}

/* Sends an octet at a time to connections that were shut for what they said, until none of them is there. */
static void trickle(const int *fds) {
    int open = 1;
    for (int i = 0; open && i < 100; i++) {
        open = 0;
        for (int at = 1; at < SILENT; at += 3) open += send(fds[at], "x", 1, MSG_NOSIGNAL) == 1;
        usleep(50000);
    }
    CHECK(!open);
}

/* Connections that say nothing, or nonsense, hold up nobody, and are closed after a while. */
static void silent_ones(void) {
    static const char begun[] = "MPA ID Req Fra", other[] = "GET / HTTP/1.1\r\nHost: a.disk\r\n\r\n";
    static int fds[SILENT];
    static uint8_t in[4096];
    struct host host = new_host();
    for (int i = 0; i < SILENT; i++) {
        fds[i] = plain_connection();
        if (i % 3 == 0) (void)!write(fds[i], begun, sizeof begun - 1);
        if (i % 3 == 1) (void)!write(fds[i], other, sizeof other - 1);
    }
    CHECK(host_begin(&host, 1, HOST_DEPTH));
    CHECK(read_blocks(host.queues[1], 0, in, sizeof in, SGL_KEYED_INVALIDATE) == 0);
    trickle(fds);
    for (int i = 0; i < SILENT; i++) {
        struct pollfd polled = {fds[i], POLLIN, 0};
        CHECK(poll(&polled, 1, 6000) == 1); /* it is closed */
        close(fds[i]);
    }
    host_end(&host);
}

/* A host that takes nothing of what it asks for holds up nobody, and is closed after a while. */
static void slow_one(void) {
    static uint8_t in[4096];
    struct host slow = new_host(), host = new_host();
    CHECK(host_begin(&slow, 1, HOST_DEPTH) && host_begin(&host, 1, HOST_DEPTH));
    struct host_queue *queue = slow.queues[1];
    for (uint16_t slot = 0; slot < HOST_DEPTH; slot++) {
        map_blocks(queue, slot, IO_READ, 0, LONGEST, SGL_KEYED);
        host_submit(queue, slot);
    }
    CHECK(host_write_out(queue) && !queue->ended);
    for (int i = 0; i < 30; i++) {
        CHECK(read_blocks(host.queues[1], (uint64_t)i, in, sizeof in, SGL_KEYED_INVALIDATE) == 0);
        usleep(100000);
    }
    int open = 1;
    for (int i = 0; open && i < 100000; i++) open = host_step(queue, 10);
    CHECK(!open);
    host_end(&slow);
    host_end(&host);
}

/* ---- a store that fails: the first block is there, the last is not; no file grows */

static void cut_short(void) {
    static uint8_t in[HOST_LBA];
    struct host host = new_host();
    CHECK(host_begin(&host, 1, HOST_DEPTH));
    CHECK(read_blocks(host.queues[1], 0, in, sizeof in, SGL_KEYED) == 0);
    CHECK(read_blocks(host.queues[1], host.blocks - 1, in, sizeof in, SGL_KEYED) == STATUS_UNRECOVERED_READ);
    CHECK(write_blocks(host.queues[1], host.blocks - 1, in, sizeof in, SGL_KEYED) == STATUS_WRITE_FAULT);
    CHECK(read_blocks(host.queues[1], 0, in, sizeof in, SGL_KEYED) == 0);
    host_end(&host);
}

/* ---- connections that break while a command's data is awaited */

enum { AWAITED = 65536, PART_OF_IT = 16370, BETWEEN = AWAITED / HOST_LBA, EARLIER = 64, PAGE = 4096 };

uint8_t *map_range(struct host_queue *queue, uint16_t slot, uint64_t from, uint32_t count) {
    uint8_t *sqe = host_command(queue, slot, IO_DATASET_MANAGEMENT, NSID);
    sqe[SQE_CDW11] = DSM_DEALLOCATE;
    uint8_t *range = host_map(queue, slot, PAGE, SGL_KEYED);
    memset(range, 0, PAGE);
    set_field(range + RANGE_NLB, 4, count);
    set_field(range + RANGE_SLBA, 8, from);
    return range;
}

/* Submits the command of a slot whose data the target has to read, with a Flush behind it. The data stays away, or no more than a
 * part of it comes; the Flush is answered; then the stream ends. */
static void break_awaited(struct host *host, const uint8_t *data, size_t part, enum breaking how) {
    struct host_queue *queue = host->queues[1];
    struct asked asked;
    host_submit(queue, 0);
    host_command(queue, 1, IO_FLUSH, NSID);
    host_submit(queue, 1);
    CHECK(host_write_out(queue) && break_off(queue, &asked));
    if (part > 0) break_answer(queue, &asked, data, part);
    break_by(queue, how);
    CHECK(break_is_seen(queue));
    host_end(host);
}

/* A Write of which the host sends nothing, or a part, stores nothing: the blocks are what they were. */
static void write_unanswered(uint64_t from, size_t part, enum breaking how) {
    static uint8_t earlier[AWAITED], data[AWAITED];
    struct host host = new_host();
    CHECK(host_begin(&host, 1, HOST_DEPTH));
    memset(earlier, 0xee, AWAITED);
    CHECK(write_blocks(host.queues[1], EARLIER, earlier, AWAITED, SGL_KEYED) == 0); /* the target keeps the buffer */
    fill(data, AWAITED, from + 1);
    map_blocks(host.queues[1], 0, IO_WRITE, from, AWAITED, SGL_KEYED);
    break_awaited(&host, data, part, how);
}

/* A deallocation of which the host sends nothing does nothing, and not an earlier one's work once more. */
static void range_unanswered(uint64_t from, enum breaking how) {
    static uint8_t data[AWAITED];
    struct host host = new_host();
    CHECK(host_begin(&host, 1, HOST_DEPTH));
    map_range(host.queues[1], 0, from, BETWEEN);
    CHECK(host_do(host.queues[1], 0) == 0);
    fill(data, AWAITED, from);
    CHECK(write_blocks(host.queues[1], from, data, AWAITED, SGL_KEYED_INVALIDATE) == 0);
    map_range(host.queues[1], 0, EARLIER, 1);
    break_awaited(&host, data, 0, how);
}

/* The key of a Write is wrong: the host's own library ends the connection. */
static void write_with_wrong_key(uint64_t from) {
    struct host host = new_host();
    CHECK(host_begin(&host, 1, HOST_DEPTH));
    struct host_queue *queue = host.queues[1];
    map_blocks(queue, 0, IO_WRITE, from, AWAITED, SGL_KEYED);
    set_field(queue->slots[0].capsule + SQE_SGL + SGL_KEY, 4, queue->slots[0].stag ^ 0x5a5a5a5a);
    host_submit(queue, 0);
    host_command(queue, 1, IO_FLUSH, NSID);
    host_submit(queue, 1);
    for (int i = 0; host_step(queue, 10); i++) CHECK(i < HOST_WAIT_MS / 10);
    host_end(&host);
}

/* Whatever ends a stream while a command's data is awaited, the blocks stay as they were: each ending has some of its own. */
static void ends_badly(void) {
    static uint8_t before[AWAITED], now[AWAITED];
    const uint64_t first = 4096;
    uint64_t places = 0, from = first;
    struct host host = new_host();
    CHECK(host_begin(&host, 1, HOST_DEPTH));
    for (; places < 3 * BREAKINGS + 1; places++) {
        fill(before, AWAITED, first + places * BETWEEN);
        CHECK(write_blocks(host.queues[1], first + places * BETWEEN, before, AWAITED, SGL_KEYED) == 0);
    }
    int breakings = options & IWARP_CRC ? BREAKINGS : BREAK_CRC;
    for (int how = 0; how < breakings; how++) {
        write_unanswered(from + (uint64_t)how * 3 * BETWEEN, 0, (enum breaking)how);
        write_unanswered(from + ((uint64_t)how * 3 + 1) * BETWEEN, PART_OF_IT, (enum breaking)how);
        range_unanswered(from + ((uint64_t)how * 3 + 2) * BETWEEN, (enum breaking)how);
    }
    write_with_wrong_key(from + 3 * BREAKINGS * BETWEEN);
    usleep(100000); /* what would be stored has time to be */
    int changed = 0;
    for (uint64_t i = 0; i < places; i++, from += BETWEEN) {
        fill(before, AWAITED, from);
        CHECK(read_blocks(host.queues[1], from, now, AWAITED, SGL_KEYED) == 0);
        if (memcmp(before, now, AWAITED) == 0) continue;
        printf("ending %d: the blocks from %d begin with %02x\n", (int)i, (int)from, now[0]);
        changed++;
    }
    CHECK(changed == 0);
    host_end(&host);
}

/* ---- what wears a target down */

int target_process(void) {
    const char *text = getenv("TARGET");
    CHECK(text);
    return (int)strtol(text, 0, 10);
}

/* How many files the target has open. */
static int open_files(void) {
    char path[64];
    int count = 0;
    snprintf(path, sizeof path, "/proc/%d/fd", target_process());
    DIR *folder = opendir(path);
    CHECK(folder);
    while (readdir(folder)) count++;
    closedir(folder);
    return count;
}

/* The processor's time that the target has used, in ms. */
static long used_ms(void) {
    char path[64], line[1024];
    unsigned long user = 0, system = 0;
    snprintf(path, sizeof path, "/proc/%d/stat", target_process());
    FILE *file = fopen(path, "r");
    CHECK(file && fgets(line, sizeof line, file));
    fclose(file);
    const char *rest = strrchr(line, ')');
    CHECK(rest && sscanf(rest + 1, " %*c %*d %*d %*d %*d %*d %*u %*u %*u %*u %*u %lu %lu", &user, &system) == 2);
    return (long)(user + system) * 1000 / sysconf(_SC_CLK_TCK);
}

/* Connections that were shut, and that their host leaves open, count among those that have not got as far as Connect. */
static void drains(void) {
    enum { SHUT = 400, MOST_SHUT = 256, OTHERS = 64 };
    static const char other[] = "GET / HTTP/1.1\r\nHost: a.disk\r\n\r\n";
    static int fds[SHUT];
    int most = 0;
    for (int i = 0; i < SHUT; i++) {
        fds[i] = plain_connection();
        CHECK(send(fds[i], other, sizeof other - 1, MSG_NOSIGNAL) > 0);
        if (i % 10 == 9) usleep(5000); /* the target takes them, so that none waits for the system to ask again */
        int now = i % 50 == 49 ? open_files() : 0;
        if (now > most) most = now;
    }
    CHECK(most <= MOST_SHUT + OTHERS);
    for (int i = 0; i < SHUT; i++) close(fds[i]);
}

/* The target has no descriptor for all that connect: it rests meanwhile, and goes on once there is one. */
static void few_files(void) {
    enum { CALLERS = 100 };
    static int fds[CALLERS];
    for (int i = 0; i < CALLERS; i++) fds[i] = plain_connection();
    usleep(100000);
    long before = used_ms();
    usleep(500000);
    CHECK(used_ms() - before < 200);
    for (int i = 0; i < CALLERS; i++) close(fds[i]);
    compares();
}

void expect_close(int fd) {
    struct pollfd polled = {fd, POLLIN, 0};
    CHECK(poll(&polled, 1, 6000) == 1);
    close(fd);
}

/* The target has memory for two connections: of those that say nothing the oldest gives way, and one more than a host's two is
 * closed. */
static void few_places(void) {
    enum { CALLERS = 5 };
    static uint8_t in[4096];
    int fds[CALLERS];
    struct host host = new_host();
    for (int i = 0; i < CALLERS; i++) fds[i] = plain_connection();
    CHECK(host_begin(&host, 1, HOST_DEPTH));
    for (int i = 0; i < CALLERS; i++) expect_close(fds[i]);
    expect_close(plain_connection());
    CHECK(read_blocks(host.queues[1], 0, in, sizeof in, SGL_KEYED_INVALIDATE) == 0);
    host_end(&host);
}

/* A Write that waits for a Read's place, as the host answers none, holds up no command behind it. */
static void passes_by(void) {
    struct host host = new_host();
    struct asked asked;
    CHECK(host_begin(&host, 1, HOST_DEPTH));
    struct host_queue *queue = host.queues[1];
    for (uint16_t slot = 0; slot < 2 * MOST_READS; slot++) {
        map_blocks(queue, slot, IO_WRITE, slot, HOST_LBA, SGL_KEYED);
        host_submit(queue, slot);
    }
    host_command(queue, HOST_DEPTH - 1, IO_FLUSH, NSID);
    host_submit(queue, HOST_DEPTH - 1);
    CHECK(host_write_out(queue) && break_off(queue, &asked));
    CHECK(asked.reads == MOST_READS);
    host_end(&host);
}

/* The system watches whether an idle host is still there: the timer of its connection is that of keepalive. */
static void watches_over(void) {
    struct host host = new_host();
    char line[256];
    int found = 0;
    CHECK(host_begin(&host, 1, HOST_DEPTH));
    usleep(300000);
    FILE *file = fopen("/proc/net/tcp", "r");
    CHECK(file);
    while (fgets(line, sizeof line, file)) {
        unsigned here, state, timer;
        if (sscanf(line, " %*d: %*x:%x %*x:%*x %x %*x:%*x %x:", &here, &state, &timer) != 3) continue;
        found += here == port && state == 1 && timer == 2;
    }
    fclose(file);
    CHECK(found == 2);
    host_end(&host);
}

/* Shuts the controller down, which is over once the answer is there. */
static void shuts_down(void) {
    struct host host = new_host();
    CHECK(host_begin(&host, 1, HOST_DEPTH));
    uint8_t *sqe = host_command(host.queues[0], 0, OPCODE_FABRICS, FABRICS_PROPERTY_SET);
    set_field(sqe + PROPERTY_OFFSET, 4, PROPERTY_CC);
    set_field(sqe + PROPERTY_VALUE, 8, CC_ENABLE | 1 << 14 | SQES_64 << CC_IOSQES | CQES_16 << CC_IOCQES);
    CHECK(host_do(host.queues[0], 0) == 0);
    sqe = host_command(host.queues[0], 0, OPCODE_FABRICS, FABRICS_PROPERTY_GET);
    set_field(sqe + PROPERTY_OFFSET, 4, PROPERTY_CSTS);
    CHECK(host_do(host.queues[0], 0) == 0);
    CHECK((host.queues[0]->slots[0].result & CSTS_SHUTDOWN) == CSTS_SHUTDOWN_DONE);
    host_end(&host);
}

/* ---- who may not */

static void is_not_allowed(void) {
    struct host host = new_host();
    CHECK(host_open(&host, 0, 32) && host_connect(&host, 0) == (STATUS_CONNECT_HOST | STATUS_DO_NOT_RETRY));
    host_end(&host);
    host.nqn = DISCOVERY_NQN;
    CHECK(host_open(&host, 0, 32) && host_connect(&host, 0) == (STATUS_CONNECT_HOST | STATUS_DO_NOT_RETRY));
    host_end(&host);
}

static void is_read_only(void) {
    static uint8_t octets[4096];
    const int protected = STATUS_WRITE_PROTECTED | STATUS_DO_NOT_RETRY;
    struct host host = new_host();
    CHECK(host_begin(&host, 1, HOST_DEPTH));
    CHECK(read_blocks(host.queues[1], 0, octets, sizeof octets, SGL_KEYED) == 0);
    CHECK(write_blocks(host.queues[1], 0, octets, sizeof octets, SGL_KEYED) == protected);
    host_blocks(host_command(host.queues[1], 0, IO_WRITE_ZEROES, NSID), 0, 1);
    CHECK(host_do(host.queues[1], 0) == protected);
    host_command(host.queues[1], 0, IO_FLUSH, NSID);
    CHECK(host_do(host.queues[1], 0) == 0);
    host_end(&host);
}

/* ---- a target that is killed, or told to end, while it works */

enum { VERSIONED = 4096, QUEUES = 4, IN_HAND = 16, LONGEST_RUN = 40, KILL_AFTER = 300 };

/* A block has the version that was answered with success last, or the one that was asked for last; 0: zeroes. At most one Write
 * of a block is under way. At a loss of power it has at least the one that was flushed. */
static struct {
    uint32_t sure[VERSIONED], asked[VERSIONED], flushed[VERSIONED], rounds;
} disk_model;

static struct {
    uint32_t from, count; /* 0: a Flush, or nothing */
    int durable;
    uint32_t sure[VERSIONED]; /* a Flush: when it was asked for */
} runs[1 + QUEUES][IN_HAND];

static uint64_t mark_of(uint32_t block, uint32_t version) {
    return (uint64_t)version << 32 | (block + 1);
}

static void load_model(void) {
    const char *path = getenv("MODEL");
    CHECK(path);
    FILE *file = fopen(path, "r");
    if (file) CHECK(fread(&disk_model, sizeof disk_model, 1, file) == 1);
    if (file) fclose(file);
    seed = ++disk_model.rounds;
}

static void save_model(void) {
    FILE *file = fopen(getenv("MODEL"), "w");
    CHECK(file && fwrite(&disk_model, sizeof disk_model, 1, file) == 1 && fclose(file) == 0);
}

/* Whether each block has what it may have: which version, is known then. */
static void compare_blocks(int after_loss) {
    static uint8_t wanted[HOST_LBA], zeroes[HOST_LBA], in[LONGEST_RUN * HOST_LBA];
    struct host host = new_host();
    load_model();
    CHECK(host_begin(&host, 1, HOST_DEPTH));
    for (uint32_t block = 0; block < VERSIONED; block++) {
        const uint8_t *at = in + block % 32 * HOST_LBA;
        if (block % 32 == 0) CHECK(read_blocks(host.queues[1], block, in, 32 * HOST_LBA, SGL_KEYED) == 0);
        uint32_t version = (uint32_t)(field(at, 8) >> 32);
        fill(wanted, HOST_LBA, mark_of(block, version));
        int is_flushed = version >= disk_model.flushed[block] && version <= disk_model.asked[block];
        CHECK(after_loss ? is_flushed : version == disk_model.sure[block] || version == disk_model.asked[block]);
        CHECK(memcmp(at, version == 0 ? zeroes : wanted, HOST_LBA) == 0);
        disk_model.sure[block] = disk_model.asked[block] = version;
        if (after_loss) disk_model.flushed[block] = version;
    }
    save_model();
    host_end(&host);
}

static void stands_by(void) {
    compare_blocks(0);
}

/* After a loss of power: what was flushed, or written with FUA, is there. */
static void stood_flushed(void) {
    uint32_t blocks = 0;
    load_model();
    for (uint32_t block = 0; block < VERSIONED; block++) blocks += disk_model.flushed[block] > 0;
    CHECK(blocks > VERSIONED / 8);
    compare_blocks(1);
}

static void flushes(void) {
    struct host host = new_host();
    CHECK(host_begin(&host, 1, HOST_DEPTH));
    host_command(host.queues[1], 0, IO_FLUSH, NSID);
    CHECK(host_do(host.queues[1], 0) == 0);
    host_end(&host);
}

/* Whether a Write of these blocks is under way. */
static int is_under_way(uint32_t from, uint32_t count) {
    for (int i = 0; i < (1 + QUEUES) * IN_HAND; i++) {
        uint32_t first = runs[i / IN_HAND][i % IN_HAND].from, end = first + runs[i / IN_HAND][i % IN_HAND].count;
        if (first < end && first < from + count && from < end) return 1;
    }
    return 0;
}

/* Writes a run of blocks anew, or flushes. */
static void begin_run(struct host_queue *queue, uint16_t slot) {
    uint32_t count = 1 + random_number(LONGEST_RUN), from = random_number(VERSIONED - LONGEST_RUN);
    static uint8_t inside[4096];
    host_command(queue, slot, IO_FLUSH, NSID);
    runs[queue->id][slot].count = 0;
    if (random_number(8) > 0 && !is_under_way(from, count)) {
        int is_inside = count * HOST_LBA <= sizeof inside && random_number(2) == 0;
        uint8_t *at = is_inside ? inside : map_blocks(queue, slot, IO_WRITE, from, count * HOST_LBA, SGL_KEYED_INVALIDATE);
        for (uint32_t i = 0; i < count; i++) fill(at + i * HOST_LBA, HOST_LBA, mark_of(from + i, ++disk_model.asked[from + i]));
        if (is_inside) host_blocks(host_command(queue, slot, IO_WRITE, NSID), from, count);
        if (is_inside) host_put(queue, slot, inside, count * HOST_LBA);
        runs[queue->id][slot].durable = random_number(8) == 0;
        if (runs[queue->id][slot].durable) queue->slots[slot].capsule[SQE_CDW12 + 3] |= RW_FUA >> 24;
        runs[queue->id][slot].from = from;
        runs[queue->id][slot].count = count;
    } else {
        memcpy(runs[queue->id][slot].sure, disk_model.sure, sizeof disk_model.sure);
    }
    host_submit(queue, slot);
}

static void end_run(struct host_queue *queue, uint16_t slot) {
    host_unmap(queue, slot);
    CHECK(queue->slots[slot].status == 0);
    for (uint32_t i = 0; i < runs[queue->id][slot].count; i++) {
        uint32_t block = runs[queue->id][slot].from + i;
        disk_model.sure[block] = disk_model.asked[block];
        if (runs[queue->id][slot].durable) disk_model.flushed[block] = disk_model.asked[block];
    }
    for (uint32_t block = 0; runs[queue->id][slot].count == 0 && block < VERSIONED; block++) {
        uint32_t version = runs[queue->id][slot].sure[block];
        if (version > disk_model.flushed[block]) disk_model.flushed[block] = version;
    }
    runs[queue->id][slot].count = 0;
    queue->slots[slot].answered = 0;
}

/* Takes the answers that came. Returns how many. */
static int take_answers(struct host_queue *queue) {
    int count = 0;
    for (uint16_t slot = 0; slot < IN_HAND; slot++) {
        if (!queue->slots[slot].answered) continue;
        end_run(queue, slot);
        count++;
    }
    return count;
}

/* Writes by four queues, and sends the target a signal in the middle. Returns how many answers came after it. */
static int write_until(struct host *host, int number) {
    int answers = 0, late = 0, goes_on = 1;
    load_model();
    CHECK(host_begin(host, QUEUES, HOST_DEPTH));
    while (goes_on) {
        int was_sent = answers >= KILL_AFTER;
        for (uint16_t id = 1; id <= QUEUES; id++) {
            for (uint16_t slot = 0; !was_sent && slot < IN_HAND; slot++)
                if (!host->queues[id]->slots[slot].in_hand) begin_run(host->queues[id], slot);
            goes_on = host_step(host->queues[id], 1) && goes_on;
            int more = take_answers(host->queues[id]);
            answers += more;
            late += was_sent ? more : 0;
        }
        if (!was_sent && answers >= KILL_AFTER) CHECK(kill(target_process(), number) == 0);
    }
    for (uint16_t id = 1; id <= QUEUES; id++) {
        for (int i = 0; i < 1000 && host_step(host->queues[id], 1); i++) late += take_answers(host->queues[id]);
        late += take_answers(host->queues[id]);
    }
    save_model();
    return late;
}

static void is_killed(void) {
    struct host host = new_host();
    write_until(&host, SIGKILL);
    host_end(&host);
}

/* A target that is told to end answers what it has begun: a Write whose data it awaits, too. */
static void is_stopped(void) {
    static uint8_t data[TRANSFER];
    struct host host = new_host(), slow = new_host();
    CHECK(host_begin(&slow, 1, HOST_DEPTH));
    fill(data, TRANSFER, 77);
    memcpy(map_blocks(slow.queues[1], 0, IO_WRITE, VERSIONED, TRANSFER, SGL_KEYED), data, TRANSFER);
    host_submit(slow.queues[1], 0);
    CHECK(host_write_out(slow.queues[1]));
    CHECK(write_until(&host, SIGTERM) > 0);
    CHECK(host_await(slow.queues[1], 0) == 0);
    for (int i = 0; host_step(slow.queues[1], 10); i++) CHECK(i < 500);
    host_end(&host);
    host_end(&slow);
}

/* A target that is told to end does not wait for ever for a host that does not answer. */
static void hangs(void) {
    struct host host = new_host();
    CHECK(host_begin(&host, 1, HOST_DEPTH));
    map_blocks(host.queues[1], 0, IO_WRITE, VERSIONED, TRANSFER, SGL_KEYED);
    host_submit(host.queues[1], 0);
    CHECK(host_write_out(host.queues[1]));
    usleep(100000);
    CHECK(kill(target_process(), SIGTERM) == 0 && break_is_seen(host.queues[1]));
    host_end(&host);
}

/* What is_stopped wrote is there. */
static void was_stopped(void) {
    static uint8_t data[TRANSFER], in[TRANSFER];
    struct host host = new_host();
    CHECK(host_begin(&host, 1, HOST_DEPTH));
    fill(data, TRANSFER, 77);
    CHECK(read_blocks(host.queues[1], VERSIONED, in, TRANSFER, SGL_KEYED) == 0 && memcmp(in, data, TRANSFER) == 0);
    host_end(&host);
    stands_by();
}

static const struct {
    const char *name;
    void (*run)(void);
} tests[] = {
    {"compares", compares},       {"fills", fills},
    {"stands", stands},           {"four-at-once", four_at_once},
    {"full-depth", full_depth},   {"clears", clears},
    {"administers", administers}, {"discovers", discovers},
    {"refuses", refuses},         {"refuses-connects", refuses_connects},
    {"connects", connects},       {"many-hosts", many_hosts},
    {"keeps-alive", keeps_alive}, {"silent-ones", silent_ones},
    {"slow-one", slow_one},       {"cut-short", cut_short},
    {"deallocates", deallocates}, {"many-addresses", many_addresses},
    {"ends-badly", ends_badly},   {"drains", drains},
    {"few-files", few_files},     {"passes-by", passes_by},
    {"shuts-down", shuts_down},   {"watches-over", watches_over},
    {"is-killed", is_killed},     {"stands-by", stands_by},
    {"is-stopped", is_stopped},   {"was-stopped", was_stopped},
    {"read-only", is_read_only},  {"not-allowed", is_not_allowed},
    {"hangs", hangs},             {"few-places", few_places},
    {"overtakes", overtakes},     {"is-stale", is_stale},
    {"bursts", bursts},           {"goes-and-comes", goes_and_comes},
    {"pauses", pauses},           {"leaves-waiting", leaves_waiting},
    {"identity", says_who_it_is}, {"takes-its-memory", takes_its_memory},
    {"fails", store_fails},       {"shuts-down-badly", shuts_down_badly},
    {"features", has_features},   {"reads-committed", reads_committed},
    {"logs", has_logs},           {"is-interrupted", is_interrupted},
    {"flushes", flushes},         {"strange-name", has_a_strange_name},
    {"stood-flushed", stood_flushed}, {"holds-device", holds_device},
    {"spreads", spreads},         {"shares-places", shares_places},
    {"meets", meets},             {"ends-elsewhere", ends_elsewhere},
    {"resets", resets},
};

int main(int n, char **words) {
    if (n < 4) return 2;
    struct rlimit files = {4096, 4096};
    setrlimit(RLIMIT_NOFILE, &files);
    if (getenv("NQN")) nqn = getenv("NQN");
    port = (unsigned)strtoull(words[1], 0, 10);
    options = (uint32_t)strtoull(words[2], 0, 10);
    for (int i = 3; i < n; i++) {
        unsigned at = 0;
        while (at < sizeof tests / sizeof *tests && strcmp(tests[at].name, words[i]) != 0) at++;
        if (at == sizeof tests / sizeof *tests) return 2;
        test_name = words[i];
        tests[at].run();
        printf("%s: ok\n", test_name);
    }
    return 0;
}
