/* Commands of the I/O queues. */
#include "target.h"

/* Whether blocks lie in the store. */
static int has_blocks(const struct command *command, uint64_t from, uint64_t count) {
    uint64_t all = command->queue->target->store.blocks;
    return from <= all && count <= all - from;
}

static uint16_t check_namespace(struct command *command) {
    return field(command->sqe + SQE_NSID, 4) == NSID ? STATUS_SUCCESS : invalid(STATUS_INVALID_NAMESPACE);
}

static uint64_t first_octet(const struct command *command) {
    return field(command->sqe + SQE_CDW10, 8) << LBA_SHIFT;
}

/* The octets of the blocks that a Read, Write or Write Zeroes names. */
static uint32_t octets_named(const struct command *command) {
    return (uint32_t)((field(command->sqe + SQE_CDW12, 4) & RW_NLB) + 1) << LBA_SHIFT;
}

/* The namespace, the blocks, and that there is no protection information. */
static uint16_t check_blocks(struct command *command) {
    uint16_t status = check_namespace(command);
    if (status != STATUS_SUCCESS) return status;
    if (field(command->sqe + SQE_CDW12, 4) & RW_PRINFO) return invalid(STATUS_INVALID_FIELD);
    uint64_t count = octets_named(command) >> LBA_SHIFT;
    return has_blocks(command, field(command->sqe + SQE_CDW10, 8), count) ? STATUS_SUCCESS : invalid(STATUS_LBA_OUT_OF_RANGE);
}

static uint16_t check_changes(struct command *command) {
    uint16_t status = check_blocks(command);
    if (status != STATUS_SUCCESS) return status;
    command->job.durable = (field(command->sqe + SQE_CDW12, 4) & RW_FUA) != 0;
    return command->queue->target->store.read_only ? invalid(STATUS_WRITE_PROTECTED) : STATUS_SUCCESS;
}

static uint16_t check_read(struct command *command) {
    uint16_t status = check_blocks(command);
    if (status != STATUS_SUCCESS) return status;
    command->job.durable = (field(command->sqe + SQE_CDW12, 4) & RW_FUA) != 0;
    command->direction = TO_HOST;
    command->length = octets_named(command);
    return command->length > MOST_TRANSFER ? invalid(STATUS_INVALID_FIELD) : STATUS_SUCCESS;
}

static void run_read(struct command *command) {
    command_store(command, JOB_READ, first_octet(command), command->length);
}

static uint16_t check_write(struct command *command) {
    uint16_t status = check_changes(command);
    if (status != STATUS_SUCCESS) return status;
    command->direction = FROM_HOST;
    command->length = octets_named(command);
    return command->length > MOST_TRANSFER ? invalid(STATUS_INVALID_FIELD) : STATUS_SUCCESS;
}

static void run_write(struct command *command) {
    command_store(command, JOB_WRITE, first_octet(command), command->length);
}

static void run_zero(struct command *command) {
    command_store(command, JOB_ZERO, first_octet(command), octets_named(command));
}

static void run_flush(struct command *command) {
    command_store(command, JOB_FLUSH, 0, 0);
}

static uint32_t octets_of_ranges(const struct command *command) {
    return (command->sqe[SQE_CDW10] + 1u) * RANGE_OCTETS;
}

/* How many octets the descriptor names. */
static uint32_t described(const struct command *command) {
    return (uint32_t)field(command->sqe + SQE_SGL + SGL_LENGTH, 3);
}

/* Linux always describes a page, however few ranges it has. */
static uint16_t check_dataset(struct command *command) {
    uint16_t status = check_namespace(command);
    if (status != STATUS_SUCCESS) return status;
    if (command->queue->target->store.read_only) return invalid(STATUS_WRITE_PROTECTED);
    command->direction = FROM_HOST;
    command->length = octets_of_ranges(command);
    if (described(command) > command->length && described(command) <= MOST_RANGES * RANGE_OCTETS) command->length = described(command);
    return STATUS_SUCCESS;
}

static int is_later(const void *one, const void *other) {
    const struct span *a = one, *b = other;
    return (a->at > b->at) - (a->at < b->at);
}

/* Sorts spans, and makes one of those that touch. Returns how many are left. */
static uint32_t merge(struct span *spans, uint32_t count) {
    uint32_t left = 0;
    qsort(spans, count, sizeof *spans, is_later);
    for (uint32_t i = 0; i < count; i++) {
        struct span *last = &spans[left - (left > 0)];
        if (left == 0 || spans[i].at > last->end)
            spans[left++] = spans[i];
        else if (spans[i].end > last->end)
            last->end = spans[i].end;
    }
    return left;
}

/* Puts spans of the store in the place of the ranges. Each range has to lie in the namespace, and all together can have no more
 * blocks than it has, unless some overlap: what they ask for is bounded so. */
static uint16_t take_ranges(struct command *command, struct span *spans) {
    uint64_t all = 0;
    uint32_t count = 0;
    const uint8_t *end = command->data + octets_of_ranges(command);
    for (const uint8_t *range = command->data; range < end; range += RANGE_OCTETS) {
        uint64_t from = field(range + RANGE_SLBA, 8), blocks = field(range + RANGE_NLB, 4);
        if (!has_blocks(command, from, blocks)) return invalid(STATUS_LBA_OUT_OF_RANGE);
        if (blocks > 0) spans[count++] = (struct span){from << LBA_SHIFT, (from + blocks) << LBA_SHIFT};
        all += blocks;
    }
    if (all > command->queue->target->store.blocks) return invalid(STATUS_INVALID_FIELD);
    command->job.spans = merge(spans, count);
    memcpy(command->data, spans, command->job.spans * sizeof *spans);
    return STATUS_SUCCESS;
}

/* Ranges that are not to be deallocated are hints of their use, and change nothing. */
static void run_dataset(struct command *command) {
    _Static_assert(sizeof(struct span) == RANGE_OCTETS, "spans fit in the place of ranges");
    struct span spans[MOST_RANGES];
    uint16_t status = take_ranges(command, spans);
    int is_job = field(command->sqe + SQE_CDW11, 4) & DSM_DEALLOCATE && status == STATUS_SUCCESS && command->job.spans > 0;
    if (is_job)
        command_store(command, JOB_DEALLOCATE, spans[0].at, spans[command->job.spans - 1].end - spans[0].at);
    else
        command_complete(command, status);
}

const struct operation io_operations[] = {
    {IO_FLUSH, check_namespace, run_flush},
    {IO_WRITE, check_write, run_write},
    {IO_READ, check_read, run_read},
    {IO_WRITE_ZEROES, check_changes, run_zero},
    {IO_DATASET_MANAGEMENT, check_dataset, run_dataset},
    {0, 0, 0},
};
