/* Tests of what a disk says of itself: who it is, how it is, and what becomes of it when its file fails. */
#include "exercise.h"

enum { SHORT = 4096, FAULT = STATUS_WRITE_FAULT, NEVER = STATUS_DO_NOT_RETRY };

/* ---- harm */

void set_harm(const char *text) {
    char path[4096];
    CHECK(getenv("HARM") && snprintf(path, sizeof path, "%s.new", getenv("HARM")) < (int)sizeof path);
    FILE *file = fopen(path, "w");
    CHECK(file && fputs(text, file) >= 0 && fclose(file) == 0 && rename(path, getenv("HARM")) == 0);
}

long syncs_done(void) {
    char path[4096];
    snprintf(path, sizeof path, "%s.syncs", getenv("HARM"));
    FILE *file = fopen(path, "r");
    if (!file) return 0;
    CHECK(fseek(file, 0, SEEK_END) == 0);
    long n = ftell(file);
    fclose(file);
    return n;
}

/* ---- admin commands */

int set_property(struct host_queue *queue, uint16_t slot, uint32_t offset, uint64_t value) {
    uint8_t *sqe = host_command(queue, slot, OPCODE_FABRICS, FABRICS_PROPERTY_SET);
    set_field(sqe + PROPERTY_OFFSET, 4, offset);
    set_field(sqe + PROPERTY_VALUE, 8, value);
    return host_do(queue, slot);
}

int get_property(struct host_queue *queue, uint16_t slot, uint32_t offset) {
    uint8_t *sqe = host_command(queue, slot, OPCODE_FABRICS, FABRICS_PROPERTY_GET);
    set_field(sqe + PROPERTY_OFFSET, 4, offset);
    return host_do(queue, slot);
}

static const uint8_t *identify(struct host_queue *queue, uint8_t what) {
    host_command(queue, 0, ADMIN_IDENTIFY, what == CNS_CONTROLLER ? 0 : NSID)[SQE_CDW10] = what;
    const uint8_t *id = host_map(queue, 0, IDENTIFY_OCTETS, SGL_KEYED_INVALIDATE);
    CHECK(host_do(queue, 0) == 0);
    return id;
}

static int get_log(struct host_queue *queue, uint8_t page, uint64_t from, uint8_t *to, uint32_t n) {
    uint8_t *sqe = host_command(queue, 0, ADMIN_GET_LOG_PAGE, 0xffffffff);
    set_field(sqe + SQE_CDW10, 4, page | (n / 4 - 1) << 16);
    set_field(sqe + SQE_CDW12, 8, from);
    const uint8_t *log = host_map(queue, 0, n, SGL_KEYED);
    int status = host_do(queue, 0);
    if (status == 0) memcpy(to, log, n);
    return status;
}

static int feature(struct host_queue *queue, uint8_t opcode, uint8_t number, uint32_t value) {
    uint8_t *sqe = host_command(queue, 0, opcode, 0);
    sqe[SQE_CDW10] = number;
    set_field(sqe + SQE_CDW11, 4, value);
    return host_do(queue, 0);
}

/* ---- who it is */

static void print_octets(const char *name, const uint8_t *at, int n) {
    printf("%s ", name);
    for (int i = 0; i < n; i++) printf("%02x", at[i]);
    putchar('\n');
}

/* Prints what tells this disk from others. The NGUID of the namespace is that of the list of descriptors, and its UUID stands
 * there too. */
void says_who_it_is(void) {
    enum { NEXT = DESCRIPTOR_HEAD + NGUID_OCTETS };
    uint8_t list[2 * NEXT + DESCRIPTOR_HEAD];
    struct host host = new_host();
    CHECK(host_begin(&host, 1, HOST_DEPTH));
    memcpy(list, identify(host.queues[0], CNS_DESCRIPTORS), sizeof list);
    CHECK(list[0] == DESCRIPTOR_NGUID && list[1] == NGUID_OCTETS);
    CHECK(list[NEXT] == DESCRIPTOR_UUID && list[NEXT + 1] == NGUID_OCTETS && list[2 * NEXT] == 0);
    CHECK(memcmp(identify(host.queues[0], CNS_NAMESPACE) + NS_NGUID, list + DESCRIPTOR_HEAD, NGUID_OCTETS) == 0);
    const uint8_t *id = identify(host.queues[0], CNS_CONTROLLER);
    printf("nqn %s\nserial %.*s\n", (const char *)id + ID_SUBNQN, SN_OCTETS, (const char *)id + ID_SN);
    print_octets("nguid", list + DESCRIPTOR_HEAD, NGUID_OCTETS);
    print_octets("uuid", list + NEXT + DESCRIPTOR_HEAD, NGUID_OCTETS);
    host_end(&host);
}

void has_a_strange_name(void) {
    struct host host = new_host();
    host.own_name = "nqn.2026-11.example:\n\x1b[2J\\evil";
    CHECK(host_begin(&host, 1, HOST_DEPTH));
    host_end(&host);
}

/* Has a block device for itself, for a while. */
void holds_device(void) {
    int fd = open(getenv("DEVICE"), O_RDWR | O_EXCL | O_CLOEXEC);
    CHECK(fd >= 0);
    usleep(2000000);
    close(fd);
}

/* ---- a store that fails */

/* Each change, each Flush, and each Read with FUA of a host is refused; another Read is not. */
static void expect_faults(struct host *host) {
    static uint8_t octets[SHORT];
    struct host_queue *queue = host->queues[1];
    CHECK(read_blocks(queue, 0, octets, SHORT, SGL_KEYED) == 0);
    CHECK(write_blocks(queue, 0, octets, SHORT, SGL_KEYED) == FAULT);
    host_blocks(host_command(queue, 0, IO_WRITE_ZEROES, NSID), 0, 1);
    CHECK(host_do(queue, 0) == FAULT);
    map_range(queue, 0, 0, 1);
    CHECK(host_do(queue, 0) == FAULT);
    map_blocks(queue, 0, IO_READ, 0, SHORT, SGL_KEYED);
    queue->slots[0].capsule[SQE_CDW12 + 3] |= RW_FUA >> 24;
    CHECK(host_do(queue, 0) == STATUS_UNRECOVERED_READ);
    host_command(queue, 0, IO_FLUSH, NSID);
    CHECK(host_do(queue, 0) == FAULT);
}

static void expect_errors(struct host_queue *queue) {
    uint8_t log[512];
    CHECK(get_log(queue, LOG_HEALTH, 0, log, sizeof log) == 0);
    CHECK(log[HEALTH_WARNINGS] == (WARNS_RELIABILITY | WARNS_READ_ONLY) && field(log + HEALTH_MEDIA_ERRORS, 8) > 0);
    uint64_t count = field(log + HEALTH_ERROR_ENTRIES, 8);
    CHECK(get_log(queue, LOG_ERRORS, 0, log, ERROR_OCTETS) == 0);
    CHECK(field(log + ERROR_COUNT, 8) == count && field(log + ERROR_STATUS, 2) == FAULT << 1 && field(log + ERROR_NSID, 4) == NSID);
}

/* fdatasync fails once. Hosts are told: by the Flush, an event, the health log and the error log; later ones by the namespace. */
void store_fails(void) {
    enum { EVENT = 9 };
    uint8_t log[512];
    struct host host = new_host(), other = new_host(), later = new_host();
    CHECK(host_begin(&host, 1, HOST_DEPTH) && host_begin(&other, 1, HOST_DEPTH));
    CHECK(get_log(host.queues[0], LOG_HEALTH, 0, log, sizeof log) == 0 && log[HEALTH_WARNINGS] == 0);
    CHECK(get_log(host.queues[0], LOG_ERRORS, 0, log, ERROR_OCTETS) == 0 && is_zero(log, ERROR_OCTETS));
    host_command(host.queues[0], EVENT, ADMIN_ASYNC_EVENT, 0);
    host_submit(host.queues[0], EVENT);
    set_harm("sync_fails 1");
    host_command(other.queues[1], 0, IO_FLUSH, NSID);
    CHECK(host_do(other.queues[1], 0) == FAULT);
    set_harm("");
    CHECK(host_await(host.queues[0], EVENT) == 0);
    CHECK(host.queues[0]->slots[EVENT].result == (EVENT_OF_HEALTH | (uint32_t)LOG_HEALTH << EVENT_PAGE));
    expect_faults(&host);
    expect_faults(&other);
    expect_errors(host.queues[0]);
    CHECK(host_begin(&later, 1, HOST_DEPTH));
    CHECK(identify(later.queues[0], CNS_NAMESPACE)[NS_NSATTR] == NSATTR_WRITE_PROTECTED);
    expect_faults(&later);
    host_end(&later);
    host_end(&other);
    host_end(&host);
}

/* ---- shutdown */

enum { ENABLED = CC_ENABLE | SQES_64 << CC_IOSQES | CQES_16 << CC_IOCQES, SHUT = ENABLED | 1 << 14 };

/* A controller that is reset while its shutdown goes on begins clean. A shutdown whose Flush fails says so, and is over. */
void shuts_down_badly(void) {
    enum { SLOT = 5 };
    struct host host = new_host();
    set_harm("sync_us 500000");
    CHECK(host_begin(&host, 1, HOST_DEPTH));
    struct host_queue *queue = host.queues[0];
    uint8_t *sqe = host_command(queue, SLOT, OPCODE_FABRICS, FABRICS_PROPERTY_SET);
    set_field(sqe + PROPERTY_OFFSET, 4, PROPERTY_CC);
    set_field(sqe + PROPERTY_VALUE, 8, SHUT);
    host_submit(queue, SLOT);
    CHECK(get_property(queue, 0, PROPERTY_CSTS) == 0 && queue->slots[0].result == (CSTS_READY | CSTS_SHUTDOWN_GOES_ON));
    CHECK(set_property(queue, 0, PROPERTY_CC, ENABLED & ~CC_ENABLE) == 0 && set_property(queue, 0, PROPERTY_CC, ENABLED) == 0);
    CHECK(!queue->slots[SLOT].answered && host_await(queue, SLOT) == 0);
    CHECK(get_property(queue, 0, PROPERTY_CSTS) == 0 && queue->slots[0].result == CSTS_READY);
    set_harm("sync_fails 1");
    CHECK(set_property(queue, 0, PROPERTY_CC, SHUT) == FAULT);
    CHECK(get_property(queue, 0, PROPERTY_CSTS) == 0);
    CHECK(queue->slots[0].result == (CSTS_READY | CSTS_FATAL | CSTS_SHUTDOWN_DONE));
    set_harm("");
    host_end(&host);
}

/* ---- what is durable */

/* A Read with FUA brings what is on the medium: it has it brought there. */
void reads_committed(void) {
    static uint8_t out[SHORT];
    struct host host = new_host();
    set_harm("");
    CHECK(host_begin(&host, 1, HOST_DEPTH));
    struct host_queue *queue = host.queues[1];
    fill(out, SHORT, 99);
    CHECK(write_blocks(queue, 8, out, SHORT, SGL_DATA_OFFSET) == 0);
    long before = syncs_done();
    const uint8_t *in = map_blocks(queue, 1, IO_READ, 8, SHORT, SGL_KEYED);
    CHECK(host_do(queue, 1) == 0 && memcmp(in, out, SHORT) == 0 && syncs_done() == before);
    in = map_blocks(queue, 1, IO_READ, 8, SHORT, SGL_KEYED);
    queue->slots[1].capsule[SQE_CDW12 + 3] |= RW_FUA >> 24;
    CHECK(host_do(queue, 1) == 0 && memcmp(in, out, SHORT) == 0 && syncs_done() == before + 1);
    host_end(&host);
}

/* fdatasync is interrupted, which is no failure. */
void is_interrupted(void) {
    struct host host = new_host();
    set_harm("interrupts 3");
    CHECK(host_begin(&host, 1, HOST_DEPTH));
    host_command(host.queues[1], 0, IO_FLUSH, NSID);
    CHECK(host_do(host.queues[1], 0) == 0);
    set_harm("");
    host_end(&host);
}

/* ---- features and logs */

void has_features(void) {
    static const uint8_t id[HOST_ID_OCTETS] = {1, 1, 1, 1, 1, 1, 1, 1, 1, 1, 1, 1, 1, 1, 1, 1};
    enum { GET = ADMIN_GET_FEATURES, SET = ADMIN_SET_FEATURES, UNDER = 1 << TEMPERATURE_KIND, EVENT = 9 };
    struct host host = new_host();
    CHECK(host_begin(&host, 1, HOST_DEPTH));
    struct host_queue *queue = host.queues[0];
    const struct slot *slot = &queue->slots[0];
    CHECK(feature(queue, GET, FEATURE_TEMPERATURE, 0) == 0 && slot->result == 0xffff);
    CHECK(feature(queue, GET, FEATURE_TEMPERATURE, UNDER) == 0 && slot->result == 0);
    CHECK(feature(queue, GET, FEATURE_TEMPERATURE, 1 << TEMPERATURE_SENSOR) == (STATUS_INVALID_FIELD | NEVER));
    CHECK(feature(queue, SET, FEATURE_TEMPERATURE, 350) == 0);
    CHECK(feature(queue, GET, FEATURE_TEMPERATURE, 0) == 0 && slot->result == 350);
    CHECK(feature(queue, SET, FEATURE_ERROR_RECOVERY, 10) == 0);
    CHECK(feature(queue, GET, FEATURE_ERROR_RECOVERY, 0) == 0 && slot->result == 10);
    CHECK(feature(queue, SET, FEATURE_ERROR_RECOVERY, RECOVERY_DULBE) == (STATUS_INVALID_FIELD | NEVER));
    CHECK(feature(queue, SET, FEATURE_ATOMICITY, 1) == 0);
    CHECK(feature(queue, GET, FEATURE_ATOMICITY, 0) == 0 && slot->result == 1);
    CHECK(feature(queue, GET, FEATURE_HOST_ID, 0) == (STATUS_INVALID_FIELD | NEVER));
    CHECK(feature(queue, SET, FEATURE_HOST_ID, 1) == (STATUS_COMMAND_SEQUENCE_ERROR | NEVER));
    uint8_t *sqe = host_command(queue, 0, GET, 0);
    sqe[SQE_CDW10] = FEATURE_HOST_ID;
    sqe[SQE_CDW11] = HOST_ID_128;
    const uint8_t *told = host_map(queue, 0, HOST_ID_OCTETS, SGL_KEYED);
    CHECK(host_do(queue, 0) == 0 && memcmp(told, id, HOST_ID_OCTETS) == 0);
    host_command(queue, EVENT, ADMIN_ASYNC_EVENT, 0);
    host_submit(queue, EVENT);
    CHECK(feature(queue, SET, FEATURE_TEMPERATURE, 280) == 0 && host_await(queue, EVENT) == 0);
    CHECK(queue->slots[EVENT].result == (EVENT_OF_HEALTH | EVENT_TEMPERATURE << EVENT_WHAT | (uint32_t)LOG_HEALTH << EVENT_PAGE));
    host_end(&host);
}

/* A page may be read up to its end, and not from past it. */
void has_logs(void) {
    static const struct {
        uint8_t page;
        uint32_t octets;
    } pages[] = {{LOG_ERRORS, ERROR_OCTETS}, {LOG_HEALTH, 512}, {LOG_FIRMWARE, 512}, {LOG_EFFECTS, 4096}};
    uint8_t log[8];
    struct host host = new_host();
    CHECK(host_begin(&host, 1, HOST_DEPTH));
    for (size_t i = 0; i < sizeof pages / sizeof *pages; i++) {
        CHECK(get_log(host.queues[0], pages[i].page, pages[i].octets - 4, log, 4) == 0);
        CHECK(get_log(host.queues[0], pages[i].page, pages[i].octets + 4, log, 4) == (STATUS_INVALID_FIELD | NEVER));
    }
    host_end(&host);
}
