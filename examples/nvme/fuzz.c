/* A hostile host against the target, in one process:
 *
 *     fuzz [LOOPSx]CAPSULES [SEED [FILE]]
 *     fuzz [LOOPSx]large [SEED [FILE]]
 *
 * sends capsules that are valid but for what was changed at random: fields of the command, its descriptor, the data in the
 * capsule, its length; Connects; start-up frames; Writes to the sinks of another host. What the target writes must lie where its
 * command said. Each life of the host ends in some way: the connection is closed or reset, a Read of the target stays unanswered
 * and a wrong frame comes, a key is wrong, the target is refused memory, its store fails. The other host, which is honest, writes
 * and reads at once what that one was at, while the target's threads are slow to end it, and must not notice. Then the whole disk
 * is compared with a model (model.h).
 *
 * The target has one loop, or as many as are given: the first has its turns where the hosts have theirs, the others have threads.
 * The disk is memory, or the file, which is made. `large` is 100,000 capsules and 1,000 lives over memory, and as many over the
 * file, if one is named, else over memory once more. */
#include "breaks.h"
#include "luck.h"
#include "model.h"
#include "target.h"

enum { DISK_MIB = 1, WORKERS = 2, GUARDED = 65536, GUARD = 0xa5, BURST = 8, LIFE = 90, STEPS = 40, PATIENT_STEPS = 3 };
enum { HOSTILE_DEPTH = 64, HONEST_OCTETS = 8192, HARMLESS = 13, LARGE = 100000, LARGE_LIVES = 1000, WAITS = 20000, RARELY = 40 };
/* What a queue sends in a turn: the most, and what was gathered before. Others send some capsules. */
enum { MOST_SENT_IN_TURN = MOST_SENT + (3 << 16), MOST_ACCEPTED = 64, AT_ONCE = 32 };

/* How a life ends. */
enum end { CLOSED_BY_HOST, RESET, UNANSWERED_READ, WRONG_KEY, NO_MEMORY, STORE_FAILS, SYNC_FAILS, ENDS };

static struct target target;
static struct model model;
static uint64_t seed;
static unsigned long sent, answered, successes, lives, ended, looks, reads, ends[ENDS]; /* of those that came to their chosen end */
static int patience; /* ms that a turn may wait */
static int spoils; /* this life's capsules; else they are right, and the connection lasts until the life's end */
static uint64_t failed; /* by the model's clock: a sync had failed; 0: none has */

static uint32_t random_number(uint32_t below) {
    seed = seed * 6364136223846793005u + 1442695040888963407u;
    return (uint32_t)(seed >> 33) % below;
}

static int one_in(uint32_t n) {
    return random_number(n) == 0;
}

static void die(const char *why) {
    printf("after %lu capsules and %lu lives: %s\n", sent, lives, why);
    exit(1);
}

/* ---- the target */

enum { TURN_US = 50 };

static unsigned loops = 1;
static pthread_t threads[MOST_LOOPS];
static pthread_mutex_t turns[MOST_LOOPS]; /* a loop has a turn */
static _Atomic int pauses, ends_turns; /* loops that have threads have no turns, for a while; or never more */

static void turn_of(unsigned loop, int most_ms) {
    lucky_turn = (struct lucky_turn){.goes_on = 1};
    if (!loop_turn(&target.loops[loop], most_ms)) die("the target cannot go on");
    lucky_turn.goes_on = 0;
    if (lucky_turn.sent > MOST_SENT_IN_TURN) die("a queue sends on and on");
    if (lucky_turn.accepted > MOST_ACCEPTED) die("connections are accepted on and on");
}

static void *run_loop(void *given) {
    unsigned loop = (unsigned)((struct loop *)given - target.loops);
    while (!ends_turns) {
        while (pauses) usleep(TURN_US);
        pthread_mutex_lock(&turns[loop]);
        turn_of(loop, 1);
        pthread_mutex_unlock(&turns[loop]);
    }
    return 0;
}

static void begin_loops(void) {
    ends_turns = 0;
    for (unsigned i = 1; i < loops; i++) pthread_mutex_init(&turns[i], 0);
    for (unsigned i = 1; i < loops; i++)
        if (pthread_create(&threads[i], 0, run_loop, &target.loops[i]) != 0) die("no thread");
}

static void end_loops(void) {
    ends_turns = 1;
    for (unsigned i = 1; i < loops; i++) pthread_join(threads[i], 0);
}

/* Has no loop have a turn, until they go on. */
static void pause_loops(void) {
    pauses = 1;
    for (unsigned i = 1; i < loops; i++) pthread_mutex_lock(&turns[i]);
}

static void resume_loops(void) {
    for (unsigned i = 1; i < loops; i++) pthread_mutex_unlock(&turns[i]);
    pauses = 0;
}

/* A turn of the first loop; others have theirs meanwhile. */
static void turn(void) {
    turn_of(0, patience);
    if (loops > 1 && !patience) usleep(TURN_US);
    if (luck.sync_failed && !failed) failed = ++model.clock;
}

static struct host new_host(void) {
    return (struct host){.address = "127.0.0.1", .nqn = target.identity.nqn, .port = target.port, .mulpdu = MOST_MULPDU, .turn = turn};
}

/* ---- the disk and its model */

/* What a slot asks for: changes, by their numbers; a Read; a Flush; or what must not succeed. */
struct asks {
    enum { NOTHING, CHANGES, CLEARS, READS, SYNCS, FAILS } kind;
    size_t change, changes; /* the first, and how many; CLEARS: ranges */
    uint64_t begun;
};

static struct asks asks[2][HOSTILE_DEPTH]; /* of the admin queue and the I/O queue */
static int shared[2][HOSTILE_DEPTH]; /* the slot's region was named by another slot */
static uint8_t regions[2][HOSTILE_DEPTH][GUARDED]; /* as they were when their commands were sent */

static void look(void) {
    static uint8_t disk[DISK_MIB << 20];
    const uint8_t *octets = target.store.ram;
    uint64_t n = target.store.blocks * LBA_OCTETS;
    pause_loops();
    if (!octets && pread(target.store.fd, disk, n, 0) != (ssize_t)n) die("the file cannot be read");
    uint64_t block = model_look(&model, octets ? octets : disk);
    if (block < model.blocks) {
        const uint8_t *at = (octets ? octets : disk) + block * LBA_OCTETS;
        printf("block %d begins with %02x %02x %02x %02x\n", (int)block, at[0], at[1], at[2], at[3]);
        die("a block has what nobody sent for it");
    }
    resume_loops();
    looks++;
}

/* How many queues the target has whose end it does not know. */
static uint32_t open_queues(void) {
    uint32_t count = 0;
    pause_loops();
    for (unsigned i = 0; i < loops; i++)
        for (const struct queue *it = target.loops[i].queues; it; it = it->next) count += it->state != CLOSED;
    resume_loops();
    return count;
}

/* Waits until the target knows that all others have ended. It may still be at what they asked for. */
static void wait_for_ends(uint32_t count) {
    patience = 1;
    for (int i = 0; open_queues() > count; i++) {
        if (i == WAITS) die("connections are not ended");
        turn();
    }
    patience = 0;
}

/* Waits until the target has only so many queues. */
static void wait_for_queues(uint32_t count) {
    patience = 1;
    for (int i = 0; place_count(&target.places) > count; i++) {
        if (i == WAITS) die("connections are left");
        turn();
    }
    patience = 0;
}

/* The region that a capsule names by its key. */
static struct slot *named_region(const struct host_queue *queue, const uint8_t *sqe) {
    uint32_t key = (uint32_t)field(sqe + SQE_SGL + SGL_KEY, 4);
    for (uint16_t i = 0; key != 0 && i < queue->depth; i++)
        if (queue->slots[i].stag == key) return &queue->slots[i];
    return 0;
}

/* The n octets that a capsule describes, or null. */
static const uint8_t *described(const struct host_queue *queue, const struct slot *slot, uint64_t n) {
    const uint8_t *sqe = slot->capsule, *sgl = sqe + SQE_SGL;
    uint64_t at = field(sgl + SGL_ADDRESS, 8);
    if (sgl[SGL_TYPE] == SGL_DATA_OFFSET) {
        uint64_t inside = slot->n - SQE_OCTETS;
        return field(sgl + SGL_LENGTH, 4) == n && at <= inside && n <= inside - at ? sqe + SQE_OCTETS + at : 0;
    }
    const struct slot *region = named_region(queue, sqe);
    int is_keyed = sgl[SGL_TYPE] == SGL_KEYED || sgl[SGL_TYPE] == SGL_KEYED_INVALIDATE;
    if (!is_keyed || !region || field(sgl + SGL_LENGTH, 3) != n || at < region->base) return 0;
    at -= region->base;
    return at <= GUARDED && n <= GUARDED - at ? region->octets + at : 0;
}

/* Whether the data that a capsule describes lies in a region of another slot, so that nobody knows what it is. */
static int is_foreign(const struct host_queue *queue, const struct slot *slot) {
    const struct slot *region = named_region(queue, slot->capsule);
    return slot->capsule[SQE_SGL + SGL_TYPE] != SGL_DATA_OFFSET && region && region != slot;
}

static int has_blocks(uint64_t from, uint64_t count) {
    return from <= model.blocks && count <= model.blocks - from;
}

/* What a deallocation may clear. */
static void note_ranges(const struct host_queue *queue, const struct slot *slot, struct asks *it) {
    uint32_t count = slot->capsule[SQE_CDW10] + 1u, n = (uint32_t)field(slot->capsule + SQE_SGL + SGL_LENGTH, 3);
    const uint8_t *range = described(queue, slot, n);
    struct change all = {.count = model.blocks, .any = 1, .may = 1};
    if (!(slot->capsule[SQE_CDW11] & DSM_DEALLOCATE)) return;
    it->kind = CLEARS;
    it->change = model.count;
    if (is_foreign(queue, slot)) model_begin(&model, &all, 0);
    if (!is_foreign(queue, slot) && range && n >= count * RANGE_OCTETS)
        for (; count > 0; count--, range += RANGE_OCTETS) {
            struct change change = {.from = field(range + RANGE_SLBA, 8), .count = field(range + RANGE_NLB, 4), .may = 1};
            if (has_blocks(change.from, change.count)) model_begin(&model, &change, 0);
        }
    it->changes = model.count - it->change;
}

/* Notes what a capsule asks for, as it is sent. */
static void note(const struct host_queue *queue, uint16_t number) {
    const struct slot *slot = &queue->slots[number];
    const uint8_t *sqe = slot->capsule;
    struct asks *it = &asks[queue->id][number];
    *it = (struct asks){NOTHING, 0, 0, ++model.clock};
    if (queue->id == 0 || slot->n < SQE_OCTETS) return;
    struct change change = {.from = field(sqe + SQE_CDW10, 8), .count = (field(sqe + SQE_CDW12, 4) & RW_NLB) + 1};
    change.any = sqe[SQE_OPCODE] == IO_WRITE && is_foreign(queue, slot);
    change.durable = (field(sqe + SQE_CDW12, 4) & RW_FUA) != 0;
    const uint8_t *data = sqe[SQE_OPCODE] == IO_WRITE ? described(queue, slot, change.count * LBA_OCTETS) : 0;
    if (sqe[SQE_OPCODE] == IO_DATASET_MANAGEMENT) note_ranges(queue, slot, it);
    if (sqe[SQE_OPCODE] == IO_READ) it->kind = READS;
    if (sqe[SQE_OPCODE] == IO_FLUSH) it->kind = SYNCS;
    if (sqe[SQE_OPCODE] != IO_WRITE && sqe[SQE_OPCODE] != IO_WRITE_ZEROES) return;
    it->kind = FAILS;
    if (!has_blocks(change.from, change.count) || (sqe[SQE_OPCODE] == IO_WRITE && !data)) return;
    it->kind = CHANGES;
    it->changes = 1;
    it->change = model_begin(&model, &change, change.any ? 0 : data);
}

static int is_of_store(uint16_t status) {
    return status == STATUS_WRITE_FAULT || status == STATUS_CAPACITY_EXCEEDED || status == STATUS_WRITE_PROTECTED;
}

/* A Read was answered with success: what it brought is what the blocks may have. */
static void check_read(const struct host_queue *queue, const struct slot *slot, uint64_t begun) {
    uint64_t from = field(slot->capsule + SQE_CDW10, 8), count = (field(slot->capsule + SQE_CDW12, 4) & RW_NLB) + 1;
    const uint8_t *octets = described(queue, slot, count * LBA_OCTETS);
    if (!has_blocks(from, count)) die("a Read beyond the disk succeeds");
    if (!octets || is_foreign(queue, slot) || shared[queue->id][slot - queue->slots]) return;
    if (!model_allows(&model, from, count, octets, begun)) die("a Read brings what the blocks cannot have");
    reads++;
}

/* The capsule of a slot was answered. */
static void note_answer(const struct host_queue *queue, uint16_t number) {
    struct asks *it = &asks[queue->id][number];
    const struct slot *slot = &queue->slots[number];
    if (it->kind == FAILS && slot->status == 0) die("a write succeeds that has no data or no blocks");
    int counts_on_it = it->kind == CHANGES || it->kind == SYNCS;
    if (counts_on_it && slot->status == 0 && failed && it->begun > failed) die("a store that has failed takes a write, or a Flush");
    if (it->kind == READS && slot->status == 0) check_read(queue, slot, it->begun);
    enum outcome outcome = slot->status == 0 ? SUCCEEDED : is_of_store(slot->status) ? FAILED : REFUSED;
    for (size_t i = 0; i < it->changes; i++) model_end(&model, it->change + i, outcome);
    it->kind = NOTHING;
    it->changes = 0;
}

/* The slot whose answer came first, of those that are not noted; or null. */
static const struct slot *next_answer(const struct host_queue *queue) {
    const struct slot *next = 0;
    for (uint16_t i = 0; i < queue->depth; i++) {
        const struct slot *it = &queue->slots[i];
        int is_new = !it->in_hand && it->answered && asks[queue->id][i].kind != NOTHING;
        if (is_new && (!next || it->number < next->number)) next = it;
    }
    return next;
}

static void note_answers(const struct host_queue *queue) {
    for (const struct slot *it; (it = next_answer(queue));) note_answer(queue, (uint16_t)(it - queue->slots));
}

/* ---- capsules */

static const uint8_t admin_opcodes[] = {ADMIN_GET_LOG_PAGE, ADMIN_IDENTIFY, ADMIN_ABORT, ADMIN_SET_FEATURES, ADMIN_GET_FEATURES,
    ADMIN_ASYNC_EVENT, ADMIN_KEEP_ALIVE, OPCODE_FABRICS};
static const uint8_t io_opcodes[] = {IO_FLUSH, IO_WRITE, IO_WRITE, IO_READ, IO_READ, IO_READ, IO_WRITE_ZEROES, IO_DATASET_MANAGEMENT};
static const uint8_t fabrics_types[] = {FABRICS_PROPERTY_SET, FABRICS_CONNECT, FABRICS_PROPERTY_GET, FABRICS_PROPERTY_GET};

/* How many octets the command's data has. */
static size_t choose_admin(uint8_t *sqe) {
    switch (sqe[SQE_OPCODE]) {
    case ADMIN_IDENTIFY:
        sqe[SQE_CDW10] = (uint8_t)random_number(5);
        return IDENTIFY_OCTETS;
    case ADMIN_GET_LOG_PAGE:
        sqe[SQE_CDW10] = (uint8_t)(1 + random_number(6));
        set_field(sqe + SQE_CDW10 + 2, 2, random_number(2048));
        set_field(sqe + SQE_CDW12, 8, random_number(2048) * 4);
        return ((size_t)field(sqe + SQE_CDW10 + 2, 2) + 1) * 4;
    case ADMIN_SET_FEATURES:
    case ADMIN_GET_FEATURES:
        sqe[SQE_CDW10] = (uint8_t)random_number(16);
        set_field(sqe + SQE_CDW11, 4, one_in(2) ? 60000 : random_number(UINT32_MAX));
        return 0;
    case OPCODE_FABRICS:
        sqe[SQE_FCTYPE] = fabrics_types[random_number(4)];
        sqe[PROPERTY_ATTRIB] = (uint8_t)random_number(2);
        set_field(sqe + PROPERTY_OFFSET, 4, random_number(8) * 4);
        set_field(sqe + PROPERTY_VALUE, 8, one_in(3) ? random_number(UINT32_MAX) : 0x460001);
        return sqe[SQE_FCTYPE] == FABRICS_CONNECT ? CONNECT_OCTETS : 0;
    default:
        return 0;
    }
}

static size_t choose_io(uint8_t *sqe, uint64_t blocks) {
    uint32_t count = 1 + random_number(one_in(4) ? 120 : 8);
    if (sqe[SQE_OPCODE] == IO_WRITE && one_in(8)) set_field(sqe + SQE_CDW12, 4, RW_FUA);
    if (sqe[SQE_OPCODE] == IO_FLUSH) return 0;
    if (sqe[SQE_OPCODE] == IO_DATASET_MANAGEMENT) {
        sqe[SQE_CDW10] = (uint8_t)random_number(8);
        sqe[SQE_CDW11] = DSM_DEALLOCATE;
        return (sqe[SQE_CDW10] + 1u) * RANGE_OCTETS;
    }
    host_blocks(sqe, random_number((uint32_t)blocks), count);
    return sqe[SQE_OPCODE] == IO_WRITE_ZEROES ? 0 : count * LBA_OCTETS;
}

/* Changes one field, or some octets anywhere but in the identifier. A wrong address or key, the last fields of the list, has the
 * host's own library end the connection, so they are rarer. */
static void spoil(struct slot *slot) {
    static const struct {
        int at, n;
    } fields[] = {{SQE_OPCODE, 1}, {SQE_FLAGS, 1}, {SQE_NSID, 4}, {SQE_SGL + SGL_LENGTH, 3}, {SQE_SGL + SGL_LENGTH, 1},
        {SQE_SGL + SGL_TYPE, 1}, {SQE_CDW10, 4}, {SQE_CDW10, 1}, {SQE_CDW11, 4}, {SQE_CDW11, 2}, {SQE_CDW12, 4}, {SQE_CDW12, 2},
        {SQE_CDW13, 4}, {SQE_SGL, 8}, {SQE_SGL + SGL_KEY, 4}, {SQE_SGL + SGL_KEY, 1}};
    uint8_t *sqe = slot->capsule;
    if (one_in(8)) {
        for (uint32_t left = 1 + random_number(4); left > 0; left--) {
            size_t at = random_number((uint32_t)slot->n);
            if (at != SQE_CID && at != SQE_CID + 1) sqe[at] ^= (uint8_t)(1u << random_number(8));
        }
    } else if (one_in(50)) {
        slot->n = random_number(one_in(2) ? SQE_OCTETS : HOST_CAPSULE + 1);
    } else {
        unsigned i = random_number(one_in(10) ? sizeof fields / sizeof *fields : HARMLESS);
        uint64_t value = one_in(3) ? 0 : one_in(2) ? UINT64_MAX : (uint64_t)random_number(UINT32_MAX) << random_number(33);
        set_field(sqe + fields[i].at, fields[i].n, value);
    }
}

/* Ranges of blocks that there are, mostly. */
static void make_ranges(uint8_t *at, size_t n, uint64_t blocks) {
    for (; n >= RANGE_OCTETS; at += RANGE_OCTETS, n -= RANGE_OCTETS) {
        set_field(at + RANGE_NLB, 4, random_number(16));
        set_field(at + RANGE_SLBA, 8, random_number((uint32_t)blocks - (one_in(50) ? 0 : 16)));
    }
}

/* The data that the host has for the target. */
static void make_data(struct host_queue *queue, const uint8_t *sqe, uint8_t *at, size_t n) {
    if (queue->id == 1 && sqe[SQE_OPCODE] == IO_DATASET_MANAGEMENT)
        make_ranges(at, n, queue->host->blocks);
    else if (queue->id == 0 || sqe[SQE_OPCODE] == IO_WRITE)
        for (size_t i = 0; i < n; i += 4) set_field(at + i, 4, random_number(UINT32_MAX));
}

/* Maps the slot's region: n octets in the middle of it are named, the others are guards. */
static uint8_t *map_guarded(struct host_queue *queue, uint16_t slot, size_t n) {
    struct slot *it = &queue->slots[slot];
    memset(host_map(queue, slot, GUARDED, one_in(2) ? SGL_KEYED : SGL_KEYED_INVALIDATE), GUARD, GUARDED);
    uint32_t from = random_number(GUARDED - (uint32_t)n + 1);
    set_field(it->capsule + SQE_SGL + SGL_ADDRESS, 8, it->base + from);
    set_field(it->capsule + SQE_SGL + SGL_LENGTH, 3, n);
    return it->octets + from;
}

/* Makes a capsule in a slot: its data in the capsule, or in the slot's region. */
static void make(struct host_queue *queue, uint16_t slot) {
    struct slot *it = &queue->slots[slot];
    const uint8_t *opcodes = queue->id == 0 ? admin_opcodes : io_opcodes;
    uint8_t *sqe = host_command(queue, slot, opcodes[random_number(8)], NSID), data[4096];
    size_t n = queue->id == 0 ? choose_admin(sqe) : choose_io(sqe, queue->host->blocks);
    if (n > 0 && n <= sizeof data && one_in(3)) {
        make_data(queue, sqe, data, n);
        host_put(queue, slot, data, n);
    } else if (n > 0) {
        uint8_t *named = map_guarded(queue, slot, n);
        if (queue->id == 1) make_data(queue, sqe, named, n);
    }
    if (spoils && !one_in(4)) spoil(it);
}

/* Keeps what the slot's region has, which the target writes to only as the capsule says. What another slot's region has, that this
 * capsule names, nobody knows from now on. */
static void keep_region(const struct host_queue *queue, uint16_t slot) {
    const struct slot *it = &queue->slots[slot], *named = named_region(queue, it->capsule);
    shared[queue->id][slot] = 0;
    if (it->stag) memcpy(regions[queue->id][slot], it->octets, GUARDED);
    if (!named || named == it) return;
    const struct asks *of_named = &asks[queue->id][named - queue->slots];
    shared[queue->id][named - queue->slots] = 1;
    if (of_named->kind == CHANGES) model.changes[of_named->change].any = 1;
}

static void submit(struct host_queue *queue, uint16_t slot) {
    keep_region(queue, slot);
    note(queue, slot);
    host_submit(queue, slot);
    sent++;
}

/* Whether a command has the target write to the host's memory. */
static int is_written_to(const struct host_queue *queue, const uint8_t *sqe) {
    return queue->id == 0 || (sqe[SQE_OPCODE] != IO_WRITE && sqe[SQE_OPCODE] != IO_DATASET_MANAGEMENT);
}

/* Takes the slot's region back: only what its capsule names may have been written. */
static void end(struct host_queue *queue, uint16_t slot) {
    struct slot *it = &queue->slots[slot];
    const uint8_t *sgl = it->capsule + SQE_SGL, *was = regions[queue->id][slot];
    uint32_t stag = it->stag;
    size_t all;
    if (stag == 0) return;
    host_unmap(queue, slot);
    if (iwarp_buffer_at(&it->buffer, &it->octets, &all) != IWARP_OK) die("no buffer");
    if (shared[queue->id][slot]) return;
    uint64_t from = field(sgl + SGL_ADDRESS, 8) - it->base, n = field(sgl + SGL_LENGTH, 3);
    int names = it->n >= SQE_OCTETS && field(sgl + SGL_KEY, 4) == stag && from < GUARDED && is_written_to(queue, it->capsule);
    if (!names) from = n = 0;
    if (n > GUARDED - from) n = GUARDED - from;
    if (memcmp(it->octets, was, from) != 0 || memcmp(it->octets + from + n, was + from + n, GUARDED - from - n) != 0)
        die("the target has written outside");
}

/* Steps until all slots are answered, but not for long. */
static void await_some(struct host_queue *queue, const uint16_t *slots, int count) {
    for (int i = 0, left = count; left > 0 && i < STEPS && host_step(queue, 0); i++) {
        patience = i >= STEPS - PATIENT_STEPS;
        left = 0;
        for (int j = 0; j < count; j++) left += queue->slots[slots[j]].in_hand;
    }
    patience = 0;
    note_answers(queue);
    for (int j = 0; j < count; j++) {
        const struct slot *slot = &queue->slots[slots[j]];
        answered += (unsigned)slot->answered;
        successes += slot->answered && slot->status == 0;
    }
}

/* Ends what was answered, and finds slots for what comes next. Returns how many. */
static int free_slots(struct host_queue *queue, uint16_t *slots, int most) {
    int count = 0;
    for (uint16_t slot = 0; slot < queue->depth; slot++) {
        if (queue->slots[slot].in_hand) continue;
        end(queue, slot);
        if (count < most) slots[count++] = slot;
    }
    return count;
}

/* Sends some capsules at a time, and waits for the answers for a while. */
static void burst(struct host_queue *queue) {
    uint16_t slots[BURST];
    int count = free_slots(queue, slots, BURST);
    for (int i = 0; i < count; i++) {
        make(queue, slots[i]);
        submit(queue, slots[i]);
    }
    if (count == 0) queue->ended = 1; /* all are Async Event Requests */
    await_some(queue, slots, count);
}

/* ---- connections */

/* Connects that are spoiled, on a queue that has none. */
static void spoil_connect(void) {
    struct host host = new_host();
    uint16_t id = (uint16_t)random_number(HOST_QUEUES);
    if (host_open(&host, id, (uint16_t)(2 + random_number(HOST_DEPTH - 1)))) {
        struct slot *slot = &host.queues[id]->slots[0];
        uint8_t data[CONNECT_OCTETS] = {0}, *sqe = host_command(host.queues[id], 0, OPCODE_FABRICS, FABRICS_CONNECT);
        set_field(sqe + CONNECT_QID, 2, id);
        set_field(sqe + CONNECT_SQSIZE, 2, 1);
        set_field(data + CONNECT_CNTLID, 2, id == 0 ? CNTLID_DYNAMIC : random_number(10));
        memcpy(data + CONNECT_SUBNQN, target.identity.nqn, strlen(target.identity.nqn));
        data[CONNECT_HOSTNQN] = 'h';
        for (int i = (int)random_number(4); i > 0; i--) data[random_number(CONNECT_OCTETS)] = (uint8_t)random_number(256);
        if (one_in(8)) memset(data + 512, 'h', 256);
        host_put(host.queues[id], 0, data, sizeof data);
        if (one_in(2)) spoil(slot);
        host_submit(host.queues[id], 0);
        for (int i = 0; i < STEPS && slot->in_hand && host_step(host.queues[id], 0); i++) {
        }
        answered += (unsigned)slot->answered;
        sent++;
    }
    host_end(&host);
}

static int plain_connection(void) {
    struct sockaddr_in address = {.sin_family = AF_INET, .sin_port = htons((unsigned short)target.port)};
    address.sin_addr.s_addr = htonl(0x7f000001);
    int fd = socket(AF_INET, SOCK_STREAM, 0);
    if (fd < 0 || connect(fd, (struct sockaddr *)&address, sizeof address) != 0) die("no connection");
    return fd;
}

/* A start-up frame that is spoiled, and octets behind it. */
static void spoil_start(void) {
    static const uint8_t request[] = "MPA ID Req Frame\x10\x02\x00\x24\x00\x80\x00\x00\x00\x00\x00\x00\x20\x00\x1f\x00";
    uint8_t octets[256] = {0};
    int fd = plain_connection();
    memcpy(octets, request, sizeof request);
    for (int i = (int)random_number(4); i > 0; i--) octets[random_number(60)] = (uint8_t)random_number(256);
    for (size_t i = 56; i < sizeof octets; i++) octets[i] = (uint8_t)random_number(256);
    if (send(fd, octets, 20 + random_number(200), MSG_NOSIGNAL) < 0) die("send");
    for (int i = 0; i < 4; i++) turn();
    close(fd);
}

/* ---- how a life ends */

/* A Write of blocks, from a region of the slot. */
static void make_write(struct host_queue *queue, uint16_t slot) {
    uint32_t count = 1 + random_number(120);
    host_blocks(host_command(queue, slot, IO_WRITE, NSID), random_number((uint32_t)queue->host->blocks - count), count);
    make_data(queue, queue->slots[slot].capsule, map_guarded(queue, slot, count * LBA_OCTETS), count * LBA_OCTETS);
}

/* Some Writes whose data the target asks for and does not get, or not all of it; behind them commands that it answers; and then a
 * frame that ends the stream. So what these Writes name stays as it is, and they are not noted. */
static void leave_unanswered(struct host_queue *queue) {
    uint16_t slots[BURST];
    struct asked asked;
    int count = free_slots(queue, slots, BURST), writes = 1 + (int)random_number(3);
    for (int i = 0; i < count; i++) {
        if (i < writes) {
            make_write(queue, slots[i]);
            keep_region(queue, slots[i]);
            host_submit(queue, slots[i]);
            sent++;
        } else {
            uint8_t *sqe = host_command(queue, slots[i], one_in(2) ? IO_FLUSH : IO_WRITE_ZEROES, NSID);
            if (sqe[SQE_OPCODE] == IO_WRITE_ZEROES) host_blocks(sqe, random_number(64), 1 + random_number(8));
            submit(queue, slots[i]);
        }
    }
    patience = 1;
    if (host_write_out(queue) && break_off(queue, &asked)) {
        static const uint8_t part[GUARDED] = {0x77};
        if (one_in(2) && asked.n > 1) break_answer(queue, &asked, part, 1 + random_number(asked.n - 1));
        break_by(queue, (enum breaking)random_number(BREAKINGS));
        if (!break_is_seen(queue)) die("a wrong frame does not end the connection");
    }
    patience = 0;
    queue->ended = 1;
}

/* A Write whose key is wrong, with others around it: the host's library ends the connection. */
static void spoil_key(struct host_queue *queue) {
    uint16_t slots[BURST];
    int count = free_slots(queue, slots, BURST);
    for (int i = 0; i < count; i++) {
        make_write(queue, slots[i]);
        if (i == 1) set_field(queue->slots[slots[i]].capsule + SQE_SGL + SGL_KEY, 4, queue->slots[slots[i]].stag ^ 0x1234567);
        submit(queue, slots[i]);
    }
    await_some(queue, slots, count);
}

static void reset(struct host_queue *queue) {
    struct linger at_once = {1, 0};
    uint16_t slots[BURST];
    int count = free_slots(queue, slots, BURST);
    for (int i = 0; i < count; i++) {
        make_write(queue, slots[i]);
        submit(queue, slots[i]);
    }
    for (uint32_t i = random_number(4); i > 0; i--) host_step(queue, 0);
    setsockopt(queue->fd, SOL_SOCKET, SO_LINGER, &at_once, sizeof at_once);
    close(queue->fd);
    queue->fd = -1;
}

/* A Flush fails. */
static void fail_sync(struct host_queue *queue) {
    uint16_t slot;
    if (free_slots(queue, &slot, 1) == 0) return;
    host_command(queue, slot, IO_FLUSH, NSID);
    submit(queue, slot);
    luck.sync_fails = 1;
    patience = 1;
    for (int i = 0; i < WAITS && queue->slots[slot].in_hand && host_step(queue, 0); i++) {
    }
    patience = 0;
    luck.sync_fails = 0; /* the system tells of an error once */
    if (luck.sync_failed && queue->slots[slot].answered && queue->slots[slot].status == 0) die("a Flush that has failed succeeds");
}

/* Goes on while memory, or the store, fails now and then, or after a sync has failed. */
static void fail_now_and_then(struct host *host, enum end how) {
    if (how == SYNC_FAILS) fail_sync(host->queues[1]);
    if (how == NO_MEMORY) luck.memory_fails = RARELY;
    if (how == STORE_FAILS) luck.store_fails = 3;
    for (int i = 0; i < 4 && !host->queues[1]->ended; i++) burst(host->queues[1]);
}

/* The life of a hostile host. */
static void live(void) {
    struct host host = new_host();
    uint32_t queues = open_queues();
    if (!host_begin(&host, 1, HOSTILE_DEPTH)) die("a host is not served");
    struct host_queue *queue = host.queues[1];
    luck.are_lazy = 1;
    spoils = one_in(2);
    for (uint32_t left = random_number(2 * LIFE / BURST); left > 0 && !host.queues[0]->ended && !queue->ended; left--)
        burst(host.queues[random_number(4) > 0]);
    enum end how = (enum end)random_number(ENDS);
    if (!host.queues[0]->ended && !queue->ended) {
        ends[how]++;
        if (how == RESET) reset(queue);
        if (how == UNANSWERED_READ) leave_unanswered(queue);
        if (how == WRONG_KEY) spoil_key(queue);
        if (how >= NO_MEMORY) fail_now_and_then(&host, how);
        ended += how == CLOSED_BY_HOST;
    }
    for (int id = 0; id < 2; id++)
        for (uint16_t slot = 0; slot < host.queues[id]->depth; slot++) end(host.queues[id], slot);
    lives++;
    ended += host.queues[0]->ended || queue->ended || queue->fd < 0;
    host_end(&host);
    wait_for_ends(queues);
    luck.memory_fails = luck.store_fails = 0;
    model_abandon(&model);
    memset(asks, 0, sizeof asks);
}

/* ---- the honest host */

/* The STag of a sink that awaits its data; or 0. */
static uint32_t sink_of(const struct loop *loop) {
    for (const struct queue *queue = loop->queues; queue; queue = queue->next)
        for (uint32_t i = 0; i < queue->commands_made; i++)
            if (queue->state == CONNECTED && queue->commands[i].sink) return queue->commands[i].sink;
    return 0;
}

static uint32_t find_sink(void) {
    uint32_t sink = 0;
    pause_loops();
    for (unsigned i = 0; i < loops && sink == 0; i++) sink = sink_of(&target.loops[i]);
    resume_loops();
    return sink;
}

/* While the honest host's data is awaited, a host at the same address, which has guessed the STag of the sink, writes there. */
static void reach(struct host_queue *honest) {
    static const uint8_t guess[HONEST_OCTETS];
    struct host hostile = new_host();
    uint32_t sink = 0;
    if (!host_begin(&hostile, 1, HOSTILE_DEPTH)) die("a host is not served");
    host_write_out(honest);
    patience = loops > 1;
    for (int i = 0; i < STEPS && sink == 0; i++) {
        turn();
        sink = find_sink();
    }
    if (sink == 0) die("the honest host's command has no sink");
    if (endpoint_write(&hostile.queues[1]->endpoint, sink, 0, guess, sizeof guess) != IWARP_OK) die("no Write");
    for (int i = 0; i < STEPS * (int)loops && host_step(hostile.queues[1], 0); i++) {
    }
    patience = 0;
    if (!hostile.queues[1]->ended) die("a Write to another host's sink is taken");
    if (find_sink() != sink) die("another host's sink is gone");
    host_end(&hostile);
}

/* Blocks that a host was at which is gone, if there are some. */
static uint64_t choose_blocks(uint64_t count) {
    uint64_t from = random_number((uint32_t)(model.blocks - count));
    uint32_t found = 0;
    for (const struct change *it = model.changes; it < model.changes + model.count; it++)
        if (it->outcome == UNANSWERED && it->count > 0 && one_in(++found)) from = it->from + random_number((uint32_t)it->count);
    return from < model.blocks - count ? from : model.blocks - count;
}

static void check_honest(struct host *honest) {
    struct host_queue *queue = honest->queues[1];
    struct change change = {.count = HONEST_OCTETS / LBA_OCTETS};
    change.from = choose_blocks(change.count);
    uint64_t from = change.from;
    host_blocks(host_command(queue, 0, IO_WRITE, NSID), from, HONEST_OCTETS / LBA_OCTETS);
    uint8_t *out = host_map(queue, 0, HONEST_OCTETS, SGL_KEYED_INVALIDATE);
    for (size_t i = 0; i < HONEST_OCTETS; i++) out[i] = (uint8_t)random_number(256);
    size_t number = model_begin(&model, &change, out);
    host_submit(queue, 0);
    reach(queue);
    patience = 1;
    if (host_await(queue, 0) != 0) die("the honest host cannot write");
    model_end(&model, number, SUCCEEDED);
    host_blocks(host_command(queue, 1, IO_READ, NSID), from, HONEST_OCTETS / LBA_OCTETS);
    const uint8_t *in = host_map(queue, 1, HONEST_OCTETS, SGL_KEYED_INVALIDATE);
    if (host_do(queue, 1) != 0 || memcmp(in, out, HONEST_OCTETS) != 0) die("the honest host reads something else");
    patience = 0;
    luck.are_lazy = 0;
}

/* ---- limits, with the honest host */

/* Reads as many octets as sockets take, and more: no turn sends more than it may. Many connect: no turn takes more than it may. */
static void check_turns(struct host *honest) {
    struct host_queue *queue = honest->queues[1];
    int fds[2 * MOST_ACCEPTED];
    for (uint16_t slot = 0; slot < AT_ONCE; slot++) {
        host_blocks(host_command(queue, slot, IO_READ, NSID), 0, (uint32_t)model.blocks / 2);
        host_map(queue, slot, model.blocks / 2 * LBA_OCTETS, SGL_KEYED_INVALIDATE);
        host_submit(queue, slot);
    }
    for (uint16_t slot = 0; slot < AT_ONCE; slot++)
        if (host_await(queue, slot) != 0) die("the honest host cannot read much");
    for (int i = 0; i < 2 * MOST_ACCEPTED; i++) fds[i] = plain_connection();
    for (int i = 0; i < 8; i++) turn();
    for (int i = 0; i < 2 * MOST_ACCEPTED; i++) close(fds[i]);
}

/* A Read that finds no memory, with nothing else under way, waits for it and is answered once there is some. */
static void check_patience(struct host *honest) {
    enum { OCTETS = 25 * LBA_OCTETS, TURNS = 50 };
    struct host_queue *queue = honest->queues[1];
    host_blocks(host_command(queue, 0, IO_READ, NSID), 1, OCTETS / LBA_OCTETS);
    host_map(queue, 0, OCTETS, SGL_KEYED);
    host_submit(queue, 0);
    luck.refused = OCTETS;
    for (int i = 0; i < TURNS; i++)
        if (!host_step(queue, 0)) die("a host for which there is no memory is let go");
    if (queue->slots[0].answered) die("a Read is answered without memory");
    luck.refused = 0;
    patience = 1;
    if (host_await(queue, 0) != 0) die("a Read that has waited for memory is not answered");
    patience = 0;
}

/* Flushes that come while one is under way are all served by the next. */
static void check_syncs(struct host *honest) {
    struct host_queue *queue = honest->queues[1];
    uint32_t before = luck.syncs;
    luck.sync_us = 20000;
    for (uint16_t slot = 0; slot < AT_ONCE; slot++) {
        host_command(queue, slot, IO_FLUSH, NSID);
        host_submit(queue, slot);
    }
    patience = 1;
    for (uint16_t slot = 0; slot < AT_ONCE; slot++)
        if (host_await(queue, slot) != 0) die("the honest host cannot flush");
    patience = 0;
    luck.sync_us = 0;
    uint32_t count = luck.syncs - before;
    if (target.store.ram ? count > 0 : count == 0 || count > AT_ONCE / 4) die("each Flush has a sync of its own");
}

/* Once all numbers of streams were given, connections are closed, and a line says why: one. */
static void check_spent(void) {
    char said[1024];
    int ends_of_pipe[2], error = dup(STDERR_FILENO), lines = 0;
    if (error < 0 || pipe(ends_of_pipe) != 0 || dup2(ends_of_pipe[1], STDERR_FILENO) < 0) die("no pipe");
    luck.spent = 1;
    for (int i = 0; i < 2; i++) {
        int fd = plain_connection();
        for (int j = 0; j < 4; j++) turn();
        if (read(fd, said, 1) != 0) die("a connection is taken though there is no number");
        close(fd);
    }
    luck.spent = 0;
    dup2(error, STDERR_FILENO);
    close(ends_of_pipe[1]);
    ssize_t n = read(ends_of_pipe[0], said, sizeof said);
    for (ssize_t i = 0; i < n; i++) lines += said[i] == '\n';
    if (lines != 1) die("it does not say that all numbers were given");
    close(ends_of_pipe[0]);
    close(error);
}

/* ---- several loops, with the honest host */

/* The loop that has a queue of a host's controller. */
static unsigned loop_of(const struct host *host, uint16_t id) {
    unsigned found = loops;
    pause_loops();
    for (unsigned i = 0; i < loops; i++)
        for (const struct queue *it = target.loops[i].queues; it; it = it->next)
            if (it->state == CONNECTED && it->controller_id == host->controller && it->id == id) found = i;
    resume_loops();
    return found;
}

/* Begins a host with an I/O queue in a loop that has a thread, and neither the admin queue nor the honest host's I/O queue.
 * Returns the loop. */
static unsigned begin_apart(struct host *host, const struct host *honest) {
    if (!host_begin(host, 1, HOSTILE_DEPTH)) die("a host is not served");
    unsigned apart = loop_of(host, 1);
    if (apart == loops || apart == 0 || apart == loop_of(host, 0) || apart == loop_of(honest, 1)) die("queues are not spread");
    return apart;
}

/* Sends a command of the first blocks, or a Flush, from a host's I/O queue. */
static void put(struct host_queue *queue, uint8_t opcode, uint8_t octet) {
    host_command(queue, 0, opcode, NSID);
    if (opcode != IO_FLUSH) host_blocks(queue->slots[0].capsule, 0, HONEST_OCTETS / LBA_OCTETS);
    if (opcode != IO_FLUSH) memset(host_map(queue, 0, HONEST_OCTETS, SGL_KEYED), octet, HONEST_OCTETS);
    host_submit(queue, 0);
    if (!host_write_out(queue)) die("a capsule is not written");
}

/* A Write whose data is awaited; then its loop stands still, and the data comes. */
static void leave_to_read(struct host_queue *queue, unsigned apart) {
    put(queue, IO_WRITE, 0x77);
    for (int i = 0; find_sink() == 0; i++) {
        if (i == WAITS) die("a Write has no sink");
        turn();
    }
    pthread_mutex_lock(&turns[apart]);
    for (int i = 0; i < STEPS; i++) host_step(queue, 0);
}

/* A controller is reset while the loop of its I/O queue stands still, which has a Write's data to read. Its blocks are then
 * written by the honest host: that Write is never done. */
static void check_cut(struct host *honest) {
    static uint8_t wanted[HONEST_OCTETS];
    struct host host = new_host();
    struct change change = {.count = HONEST_OCTETS / LBA_OCTETS};
    unsigned apart = begin_apart(&host, honest);
    patience = 1;
    leave_to_read(host.queues[1], apart);
    uint8_t *sqe = host_command(host.queues[0], 0, OPCODE_FABRICS, FABRICS_PROPERTY_SET);
    set_field(sqe + PROPERTY_OFFSET, 4, PROPERTY_CC);
    if (host_do(host.queues[0], 0) != 0) die("a controller is not reset");
    memset(wanted, 0x5e, HONEST_OCTETS);
    size_t number = model_begin(&model, &change, wanted);
    put(honest->queues[1], IO_WRITE, wanted[0]);
    if (host_await(honest->queues[1], 0) != 0) die("the honest host cannot write");
    model_end(&model, number, SUCCEEDED);
    pthread_mutex_unlock(&turns[apart]);
    if (!break_is_seen(host.queues[1])) die("an I/O queue of a controller that was reset stays");
    patience = 0;
    host_end(&host);
    wait_for_queues(2);
    look();
}

/* A host has spoken at its I/O queue alone, whose loop stands still: it is not taken for silent. */
static void check_heard(struct host *honest) {
    struct host host = new_host();
    uint64_t until = now_ms() + 2 * KEEP_ALIVE_UNIT;
    host.keep_alive = KEEP_ALIVE_UNIT;
    unsigned apart = begin_apart(&host, honest);
    patience = 1;
    pthread_mutex_lock(&turns[apart]);
    put(host.queues[1], IO_FLUSH, 0);
    while (now_ms() < until) turn();
    if (!host_step(host.queues[0], 0)) die("a host is taken for silent that has spoken");
    pthread_mutex_unlock(&turns[apart]);
    if (host_await(host.queues[1], 0) != 0) die("a host is taken for silent whose loop stood still");
    patience = 0;
    host_end(&host);
    wait_for_queues(2);
}

static void check_limits(struct host *honest) {
    if (loops > 3) {
        check_cut(honest);
        check_heard(honest);
    }
    check_turns(honest);
    check_patience(honest);
    check_syncs(honest);
    if (!target.told_spent) check_spent();
    wait_for_queues(2);
}

/* ---- runs */

static void make_file(const char *path) {
    int fd = open(path, O_RDWR | O_CREAT | O_TRUNC | O_CLOEXEC, 0600);
    if (fd < 0 || ftruncate(fd, (DISK_MIB << 20) + LBA_OCTETS - 1) != 0) {
        perror(path);
        exit(1);
    }
    close(fd);
}

static void start(const struct options *options) {
    if (!target_open(&target, options) || !target_listen(&target)) exit(1);
    failed = luck.sync_failed = 0;
    begin_loops();
}

static void stop(void) {
    end_loops();
    int is_durable = target_close(&target);
    if (target.places.count > 0) die("connections are left");
    if (is_durable != !failed) die("a store that has failed says that it has not");
}

/* Sends so many capsules in at least so many lives, to a target over a new file, or over memory if the path is null. A target whose
 * store has failed is started anew. */
static void run(unsigned long capsules, unsigned long least_lives, const char *path) {
    struct options options = {.address = "127.0.0.1", .nqn = "nqn.2026-11.example:fuzzed", .ram_mib = DISK_MIB,
        .workers = WORKERS, .loops = loops, .start_ms = 10000, .stall_ms = 30000, .file = path};
    unsigned long sent_before = sent, lives_before = lives;
    if (path) make_file(path);
    start(&options);
    model_open(&model, target.store.blocks);
    while (sent - sent_before < capsules || lives - lives_before < least_lives) {
        struct host honest = new_host();
        if (!host_begin(&honest, 1, HOST_DEPTH)) die("the honest host is not served");
        if (lives == lives_before) check_limits(&honest);
        while (!failed && (sent - sent_before < capsules || lives - lives_before < least_lives)) {
            live();
            if (!failed) check_honest(&honest);
            spoil_connect();
            spoil_start();
            wait_for_queues(2);
            look();
        }
        host_end(&honest);
        wait_for_queues(0);
        look();
        if (!failed) continue;
        stop();
        start(&options);
        look();
    }
    stop();
    model_close(&model);
}

int main(int n, char **words) {
    char *x = n > 1 ? strchr(words[1], 'x') : 0;
    if (x) loops = (unsigned)strtoull(words[1], 0, 10);
    if (x) words[1] = x + 1;
    if (loops == 0 || loops > MOST_LOOPS) return 2;
    int is_large = n > 1 && strcmp(words[1], "large") == 0;
    const char *path = n > 3 ? words[3] : 0;
    seed = n > 2 ? strtoull(words[2], 0, 10) : 1;
    signal(SIGPIPE, SIG_IGN);
    if (is_large) {
        run(LARGE, LARGE_LIVES, 0);
        run(LARGE, LARGE_LIVES, path);
    } else {
        run(n > 1 ? (unsigned long)strtoull(words[1], 0, 10) : 10000, 0, path);
    }
    printf("%lu capsules of %lu hosts, %lu of them ended; %lu answered, %lu with success; ", sent, lives, ended, answered, successes);
    printf("compared: %lu Reads, %lu times the disk\n", reads, looks);
    printf("ends: %lu closed, %lu reset, %lu Reads unanswered, %lu wrong keys, ", ends[0], ends[RESET], ends[UNANSWERED_READ], ends[WRONG_KEY]);
    printf("%lu without memory, %lu stores and %lu syncs that fail\n", ends[NO_MEMORY], ends[STORE_FAILS], ends[SYNC_FAILS]);
    return 0;
}
