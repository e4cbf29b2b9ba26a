/* Tests of a target with four loops: each loop has connections of its own, and a host has queues in all of them. */
#include "exercise.h"
#include "model.h"

#include <dirent.h>

enum { LOOPS = 4, QUEUES = 4, WATCHED = 1 }; /* a loop watches an eventfd besides connections; the first one the listener too */

/* ---- connections */

/* How many files an epoll watches; or 0, if the file of that number is none. */
static int count_watched(const char *number) {
    char path[320], line[256] = "";
    int count = 0;
    snprintf(path, sizeof path, "/proc/%d/fd/%s", target_process(), number);
    if (readlink(path, line, sizeof line - 1) < 0 || strcmp(line, "anon_inode:[eventpoll]") != 0) return 0;
    snprintf(path, sizeof path, "/proc/%d/fdinfo/%s", target_process(), number);
    FILE *file = fopen(path, "r");
    CHECK(file);
    while (fgets(line, sizeof line, file)) count += strncmp(line, "tfd:", 4) == 0;
    fclose(file);
    return count;
}

/* How many connections all loops have. Each has to have one at least. */
static int count_connections(void) {
    char path[64];
    int loops = 0, count = 0;
    snprintf(path, sizeof path, "/proc/%d/fd", target_process());
    DIR *folder = opendir(path);
    CHECK(folder);
    for (const struct dirent *it; (it = readdir(folder));) {
        int watched = count_watched(it->d_name);
        if (watched == 0) continue;
        CHECK(watched > WATCHED);
        loops++;
        count += watched - WATCHED;
    }
    closedir(folder);
    CHECK(loops == LOOPS);
    return count - 1;
}

/* A host with as many I/O queues as there are loops has one in each. What one writes all others read. */
void spreads(void) {
    static uint8_t out[TRANSFER], in[TRANSFER];
    struct host host = new_host();
    usleep(300000); /* the target knows that other hosts have gone */
    CHECK(host_begin(&host, QUEUES, HOST_DEPTH));
    CHECK(count_connections() == 1 + QUEUES);
    for (uint16_t id = 1; id <= QUEUES; id++) {
        fill(out, TRANSFER, id);
        CHECK(write_blocks(host.queues[id], 9, out, TRANSFER, SGL_KEYED_INVALIDATE) == 0);
        for (uint16_t other = 1; other <= QUEUES; other++)
            CHECK(read_blocks(host.queues[other], 9, in, TRANSFER, SGL_KEYED) == 0 && memcmp(in, out, TRANSFER) == 0);
    }
    host_end(&host);
}

/* There is memory for four connections, whichever loops they are in: those that say nothing give way, one more is closed, and
 * there is room again once one has gone. */
void shares_places(void) {
    enum { CALLERS = 7 };
    int fds[CALLERS];
    struct host host = new_host();
    for (int i = 0; i < CALLERS; i++) fds[i] = plain_connection();
    CHECK(host_begin(&host, QUEUES - 1, HOST_DEPTH));
    for (int i = 0; i < CALLERS; i++) expect_close(fds[i]);
    expect_close(plain_connection());
    CHECK(count_connections() == QUEUES);
    host_close(&host, QUEUES - 1);
    usleep(200000);
    CHECK(host_open(&host, QUEUES - 1, HOST_DEPTH) && host_connect(&host, QUEUES - 1) == 0);
    expect_close(plain_connection());
    host_end(&host);
}

/* ---- the same blocks by several queues */

enum { REGION = 512, LONGEST_RUN = 128, DEEP = 12, LOOKS = 12, A_LOOK = 300 };

/* What a slot of a queue does. */
static struct {
    int reads;
    uint32_t from, count;
    size_t change; /* of the model */
    uint64_t begun;
} doings[1 + QUEUES][DEEP];

static struct model model;

/* Begins a Read, a Write or a Write Zeroes, of some blocks anywhere. A change may have been done before another that is answered
 * first, as their answers come by several connections. */
static void begin_doing(struct host_queue *queue, uint16_t slot) {
    uint32_t count = 1 + random_number(LONGEST_RUN), from = random_number(REGION - count + 1), kind = random_number(8);
    struct change change = {.from = from, .count = count, .durable = 1};
    doings[queue->id][slot].reads = kind < 4;
    doings[queue->id][slot].from = from;
    doings[queue->id][slot].count = count;
    doings[queue->id][slot].begun = ++model.clock;
    if (kind == 4) {
        host_blocks(host_command(queue, slot, IO_WRITE_ZEROES, NSID), from, count);
        doings[queue->id][slot].change = model_begin(&model, &change, 0);
    } else {
        uint8_t *at = map_blocks(queue, slot, kind < 4 ? IO_READ : IO_WRITE, from, count * HOST_LBA, SGL_KEYED_INVALIDATE);
        fill(at, count * HOST_LBA, model.clock);
        if (kind > 4) doings[queue->id][slot].change = model_begin(&model, &change, at);
    }
    host_submit(queue, slot);
}

static void end_doing(struct host_queue *queue, uint16_t slot) {
    uint32_t from = doings[queue->id][slot].from, count = doings[queue->id][slot].count;
    host_unmap(queue, slot);
    queue->slots[slot].answered = 0;
    CHECK(queue->slots[slot].status == 0);
    if (doings[queue->id][slot].reads)
        CHECK(model_allows(&model, from, count, queue->slots[slot].octets, doings[queue->id][slot].begun));
    else
        model_end(&model, doings[queue->id][slot].change, SUCCEEDED);
}

/* Has all queues be busy with so many commands, and waits for their answers. */
static void meet_for(struct host *host, int left) {
    uint32_t in_hand = 1;
    while (left > 0 || in_hand > 0) {
        in_hand = 0;
        for (uint16_t id = 1; id <= QUEUES; id++) {
            struct host_queue *queue = host->queues[id];
            for (uint16_t slot = 0; slot < DEEP; slot++) {
                if (queue->slots[slot].answered) end_doing(queue, slot);
                if (queue->slots[slot].in_hand || left == 0) continue;
                begin_doing(queue, slot);
                left--;
            }
            CHECK(host_step(queue, 0));
            in_hand += queue->in_hand;
        }
    }
}

/* Whatever queues of several loops do with the same blocks at once, each Read brings blocks that are whole, and may have what
 * they have; and so has the disk in the end (model.h). */
void meets(void) {
    static uint8_t region[REGION * HOST_LBA];
    struct host host = new_host();
    CHECK(host_begin(&host, QUEUES, HOST_DEPTH));
    host_blocks(host_command(host.queues[1], 0, IO_WRITE_ZEROES, NSID), 0, REGION);
    CHECK(host_do(host.queues[1], 0) == 0);
    host.queues[1]->slots[0].answered = 0;
    model_open(&model, REGION);
    for (int i = 0; i < LOOKS; i++) {
        meet_for(&host, A_LOOK);
        for (uint16_t id = 1; id <= QUEUES; id++)
            for (uint16_t slot = 0; slot < DEEP; slot++)
                if (host.queues[id]->slots[slot].answered) end_doing(host.queues[id], slot);
        CHECK(read_blocks(host.queues[1 + i % QUEUES], 0, region, sizeof region, SGL_KEYED) == 0);
        host.queues[1 + i % QUEUES]->slots[1].answered = 0;
        CHECK(model_look(&model, region) == REGION);
    }
    model_close(&model);
    host_end(&host);
}

/* ---- controllers that end, whose I/O queues are in other loops and have commands under way */

enum ending { ADMIN_CLOSED, SILENT, RESET, ENDINGS };
enum { WRITES = 16, APART = 4000, ENABLED = CC_ENABLE | SQES_64 << CC_IOSQES | CQES_16 << CC_IOCQES };

static void end_controller(struct host *host, enum ending how) {
    struct host_queue *admin = host->queues[0];
    if (how == ADMIN_CLOSED) {
        reset(admin);
        usleep(20000); /* the target knows it */
    } else if (how == SILENT) {
        for (int i = 0; host_step(admin, 10); i++) CHECK(i < 1000);
    } else {
        CHECK(set_property(admin, 0, PROPERTY_CC, ENABLED & ~CC_ENABLE) == 0);
    }
}

static void expect_end(struct host_queue *queue) {
    for (int i = 0; host_step(queue, 10); i++) CHECK(i < 1000);
}

/* The host's queues have many clearings and Writes to do, which no worker has begun, and some that the loops have not, as they
 * are heavy. */
static void load_queues(struct host *host) {
    for (uint16_t id = 1; id <= QUEUES; id++) {
        struct host_queue *queue = host->queues[id];
        for (uint16_t slot = 0; slot < HOST_DEPTH - 2; slot++) {
            if (slot % 2 == 0) put_zeroes(queue, slot);
            if (slot % 2 == 1) put_write(queue, slot, (slot % WRITES) * APART, 7777);
        }
        CHECK(host_write_out(queue));
    }
    usleep(20000);
}

static void expect_marks(struct host_queue *queue, enum ending how) {
    int stale = 0;
    for (uint16_t i = 0; i < WRITES; i++) stale += !has_mark(queue, i * APART, 100u * how + i + 1);
    if (stale > 0) printf("ending %d: %d of %d Writes were answered, and are gone\n", (int)how, stale, WRITES);
    CHECK(stale == 0);
}

/* A controller ends, while its I/O queues have commands under way in other loops: their connections end, and nothing that they
 * asked for is done behind what another host asks for from then on. */
void ends_elsewhere(void) {
    struct host host = new_host();
    CHECK(host_begin(&host, 1, HOST_DEPTH));
    for (enum ending how = ADMIN_CLOSED; how < ENDINGS; how++) {
        struct host gone = new_host();
        if (how == SILENT) gone.keep_alive = 1000;
        CHECK(host_begin(&gone, QUEUES, HOST_DEPTH));
        load_queues(&gone);
        end_controller(&gone, how);
        for (uint16_t i = 0; i < WRITES; i++) put_write(host.queues[1], (uint16_t)(2 + i), i * APART, 100u * how + i + 1);
        for (uint16_t i = 0; i < WRITES; i++) CHECK(host_await(host.queues[1], (uint16_t)(2 + i)) == 0);
        expect_marks(host.queues[1], how);
        for (uint16_t id = 1; id <= QUEUES; id++) expect_end(gone.queues[id]);
        host_end(&gone);
        usleep(300000);
        expect_marks(host.queues[1], how);
    }
    host_end(&host);
}

/* A controller that is reset, and enabled again, has its I/O queues anew at once, whichever loops the old ones were in. */
void resets(void) {
    static uint8_t in[TRANSFER];
    enum { TIMES = 20 };
    struct host host = new_host();
    CHECK(host_begin(&host, QUEUES, HOST_DEPTH));
    for (int i = 0; i < TIMES; i++) {
        CHECK(set_property(host.queues[0], 0, PROPERTY_CC, ENABLED & ~CC_ENABLE) == 0);
        CHECK(get_property(host.queues[0], 0, PROPERTY_CSTS) == 0 && host.queues[0]->slots[0].result == 0);
        CHECK(set_property(host.queues[0], 0, PROPERTY_CC, ENABLED) == 0);
        for (uint16_t id = 1; id <= QUEUES; id++) {
            host_close(&host, id);
            CHECK(host_open(&host, id, HOST_DEPTH) && host_connect(&host, id) == 0);
            CHECK(read_blocks(host.queues[id], id, in, sizeof in, SGL_KEYED) == 0);
        }
    }
    host_end(&host);
}
