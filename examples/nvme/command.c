/* The life of a command: it comes in a capsule, is checked, waits for memory if it has data, has the host's data read, is run, and
 * is answered: data for the host by a Write, the response by a Send behind it. */
#include "target.h"

static void append(struct list *list, struct command *command) {
    command->next = 0;
    *list->last = command;
    list->last = &command->next;
}

static void take_first(struct list *list) {
    list->first = list->first->next;
    if (!list->first) list->last = &list->first;
}

/* A status that says that the same command fails again. */
uint16_t invalid(uint16_t status) {
    return status | STATUS_DO_NOT_RETRY;
}

uint16_t no_data(struct command *command) {
    command->direction = NO_DATA;
    return STATUS_SUCCESS;
}

/* ---- checks */

static const struct operation *find(const struct operation *operations, uint8_t opcode) {
    for (; operations->check; operations++)
        if (operations->opcode == opcode) return operations;
    return 0;
}

/* Which commands the queue takes now. Fabrics commands have their type in the place of an opcode. */
static uint16_t look_up(struct command *command) {
    const struct queue *queue = command->queue;
    const struct controller *controller = queue->controller;
    const uint8_t *sqe = command->sqe;
    if (sqe[SQE_OPCODE] == OPCODE_FABRICS) {
        command->operation = find(fabrics_operations, sqe[SQE_FCTYPE]);
        int connects = command->operation && sqe[SQE_FCTYPE] == FABRICS_CONNECT;
        if (command->operation && connects == (controller != 0)) return invalid(STATUS_COMMAND_SEQUENCE_ERROR);
    } else {
        if (!controller || !(controller->state & CSTS_READY)) return invalid(STATUS_COMMAND_SEQUENCE_ERROR);
        const struct operation *admin = controller->discovery ? discovery_operations : admin_operations;
        command->operation = find(queue->id == 0 ? admin : io_operations, sqe[SQE_OPCODE]);
    }
    return command->operation ? STATUS_SUCCESS : invalid(STATUS_INVALID_OPCODE);
}

/* Whether the descriptor is one for the command's data. */
static uint16_t check_descriptor(const struct command *command) {
    const uint8_t *sgl = command->sqe + SQE_SGL;
    if (command->direction == NO_DATA) return STATUS_SUCCESS;
    if (sgl[SGL_TYPE] == SGL_KEYED || sgl[SGL_TYPE] == SGL_KEYED_INVALIDATE)
        return field(sgl + SGL_LENGTH, 3) == command->length ? STATUS_SUCCESS : invalid(STATUS_DATA_SGL_LENGTH_INVALID);
    if (sgl[SGL_TYPE] != SGL_DATA_OFFSET || command->direction != FROM_HOST) return invalid(STATUS_SGL_TYPE_INVALID);
    if (field(sgl + SGL_LENGTH, 4) != command->length) return invalid(STATUS_DATA_SGL_LENGTH_INVALID);
    uint64_t offset = field(sgl + SGL_ADDRESS, 8);
    if (offset > command->inside || command->length > command->inside - offset) return invalid(STATUS_SGL_OFFSET_INVALID);
    return STATUS_SUCCESS;
}

static uint16_t check(struct command *command) {
    uint8_t flags = command->sqe[SQE_FLAGS];
    if ((flags & FLAGS_PSDT) != PSDT_SGL || flags & FLAGS_FUSE) return invalid(STATUS_INVALID_FIELD);
    uint16_t status = look_up(command);
    if (status == STATUS_SUCCESS) status = command->operation->check(command);
    return status == STATUS_SUCCESS ? check_descriptor(command) : status;
}

void command_begin(struct command *command, size_t n) {
    size_t all;
    if (iwarp_buffer_at(&command->capsule, &command->sqe, &all) != IWARP_OK || n < SQE_OCTETS) {
        queue_close(command->queue);
        return;
    }
    struct controller *controller = command->queue->controller;
    if (controller && !controller->has_spoken) controller->has_spoken = 1; /* read, mostly, so that loops share it */
    command->number = command->queue->came++;
    command->queue->begun++;
    command->then = 0;
    command->inside = n - SQE_OCTETS;
    command->direction = NO_DATA;
    command->length = 0;
    command->data = 0;
    command->result = 0;
    uint16_t status = check(command);
    if (status == STATUS_SUCCESS)
        append(&command->queue->starting, command);
    else
        command_complete(command, status);
}

/* ---- data */

static uint8_t data_type(const struct command *command) {
    return command->sqe[SQE_SGL + SGL_TYPE];
}

void command_keep(struct queue *queue, struct spare *spare) {
    if (queue->spare_count < MOST_COMMANDS) {
        queue->spares[queue->spare_count++] = *spare;
    } else {
        iwarp_buffer_free(&spare->buffer);
        queue->held -= spare->size;
    }
}

void command_free_spares(struct queue *queue) {
    for (; queue->spare_count > 0; queue->spare_count--) {
        struct spare *spare = &queue->spares[queue->spare_count - 1];
        iwarp_buffer_free(&spare->buffer);
        queue->held -= spare->size;
    }
}

/* Takes a buffer that is kept for data of this command's length and direction. Returns whether there was one. */
static int take_spare(struct queue *queue, struct command *command) {
    for (uint32_t i = queue->spare_count; i > 0; i--) {
        struct spare *spare = &queue->spares[i - 1];
        if (spare->size != command->length || spare->direction != command->direction) continue;
        command->buffer = spare->buffer;
        *spare = queue->spares[--queue->spare_count];
        return 1;
    }
    return 0;
}

/* Makes the command a buffer for its data. Returns whether there is room for it. */
static int make_buffer(struct queue *queue, struct command *command) {
    size_t size = command->length;
    if (queue->held + size > MOST_DATA) command_free_spares(queue);
    if (queue->held + size > MOST_DATA || iwarp_buffer_new(size, &command->buffer) != IWARP_OK) return 0;
    queue->held += size;
    return 1;
}

/* Sees to it that the command has a buffer for its data, as long as that. Returns 0 if it has to wait for others to end. */
static int has_buffer(struct command *command) {
    struct queue *queue = command->queue;
    size_t all;
    if (command->size == 0 && (take_spare(queue, command) || make_buffer(queue, command))) command->size = command->length;
    return command->size > 0 && iwarp_buffer_at(&command->buffer, &command->data, &all) == IWARP_OK;
}

/* The command has its buffer no longer. */
static struct spare leave_buffer(struct command *command) {
    struct spare left = {command->buffer, command->size, command->direction};
    command->buffer = (struct iwarp_buffer)IWARP_NO_BUFFER;
    command->size = 0;
    return left;
}

static void note(struct queue *queue, struct posted posted) {
    queue->posted[(queue->first + queue->count++) % MOST_POSTED] = posted;
}

/* Has the host's data read into the buffer. */
static void fetch(struct command *command) {
    struct queue *queue = command->queue;
    const uint8_t *sgl = command->sqe + SQE_SGL;
    struct endpoint *endpoint = &queue->endpoint;
    int32_t code = endpoint_sink(endpoint, &command->buffer, &command->sink);
    if (code == IWARP_OK) {
        uint32_t key = (uint32_t)field(sgl + SGL_KEY, 4);
        code = endpoint_read(endpoint, command->sink, command->length, key, field(sgl + SGL_ADDRESS, 8));
    }
    if (code != IWARP_OK) {
        queue_close(queue);
        return;
    }
    note(queue, (struct posted){.message = IWARP_MESSAGE_READ, .command = command});
    queue->reads++;
}

void command_fetched(struct command *command) {
    size_t all;
    if (endpoint_take_back(&command->queue->endpoint, command->sink, &command->buffer) != IWARP_OK ||
        iwarp_buffer_at(&command->buffer, &command->data, &all) != IWARP_OK) {
        queue_close(command->queue);
        return;
    }
    command->sink = 0;
    command->operation->run(command);
}

void command_give_up(struct command *command) {
    if (endpoint_drop(&command->queue->endpoint, command->sink) == IWARP_OK) command->sink = 0;
    iwarp_buffer_free(&command->buffer);
    command->queue->held -= command->size;
    command->size = 0;
}

/* How long a command takes the store, about. What takes long comes bit by bit, as others wait that are about the same blocks. */
static uint32_t weigh(const struct command *command) {
    if (command->queue->id == 0) return 0;
    if (command->sqe[SQE_OPCODE] == IO_DATASET_MANAGEMENT) return DATASET_WEIGHT;
    if (command->sqe[SQE_OPCODE] != IO_WRITE_ZEROES) return 0;
    return 1 + (uint32_t)(field(command->sqe + SQE_CDW12, 4) & RW_NLB) / (MIB / LBA_OCTETS);
}

/* Begins a command. What needs a buffer waits for it in a list, and a Write for a Read's place too; nothing waits for these. */
static void start(struct command *command) {
    struct queue *queue = command->queue;
    command->weight = weigh(command);
    queue->weight += command->weight;
    if (command->direction == TO_HOST) {
        append(&queue->reading, command);
    } else if (command->direction == NO_DATA) {
        command->operation->run(command);
    } else if (data_type(command) == SGL_DATA_OFFSET) {
        command->data = command->sqe + SQE_OCTETS + field(command->sqe + SQE_SGL + SGL_ADDRESS, 8);
        command->operation->run(command);
    } else if (queue->most_reads == 0) {
        command_complete(command, invalid(STATUS_DATA_TRANSFER_ERROR));
    } else {
        append(&queue->fetching, command);
    }
}

/* Which list's first command is to have a buffer next: the older one, but for a Write that has no place for its Read. */
static struct list *next_for_buffer(struct queue *queue) {
    int has_place = queue->reads < queue->most_reads && queue->count < MOST_POSTED;
    const struct command *reads = queue->reading.first, *writes = has_place ? queue->fetching.first : 0;
    if (writes && (!reads || writes->number < reads->number)) return &queue->fetching;
    return reads ? &queue->reading : 0;
}

static void give_buffers(struct queue *queue) {
    for (struct list *list; queue->state != CLOSED && (list = next_for_buffer(queue)) && has_buffer(list->first);) {
        struct command *command = list->first;
        take_first(list);
        if (command->direction == FROM_HOST)
            fetch(command);
        else
            command->operation->run(command);
    }
}

/* ---- the store */

static struct command *command_of(struct job *job) {
    return (struct command *)job; /* its first field */
}

struct queue *queue_of_job(struct job *job) {
    return command_of(job)->queue;
}

/* Its job is done. The controller may have gone meanwhile. */
static void take_stored(struct command *command) {
    health_note(command->queue->target, &command->job);
    if (command->then && command->queue->controller) command->then(command);
    command_complete(command, command->job.status);
}

void command_store(struct command *command, enum job_kind kind, uint64_t at, uint64_t n) {
    struct job *job = &command->job;
    job->kind = kind;
    job->at = at;
    job->n = n;
    job->octets = command->data;
    job->lane = &command->queue->lane;
    if (store_begin(&command->queue->target->store, job))
        take_stored(command);
    else
        command->queue->jobs++;
}

void command_stored(struct job *job) {
    struct command *command = command_of(job);
    struct queue *queue = command->queue;
    queue->jobs--;
    if (queue->jobs == 0 && queue_is_starting(queue->state)) place_rests(queue);
    take_stored(command);
}

void commands_drop(struct queue *queue) {
    struct store *store = &queue->target->store;
    for (uint32_t i = 0; i < queue->commands_made; i++) queue->jobs -= (uint32_t)store_drop(store, &queue->commands[i].job);
}

/* ---- responses */

void command_complete(struct command *command, uint16_t status) {
    command->status = status;
    append(&command->queue->answering, command);
}

static void make_response(struct command *command, uint8_t *cqe) {
    struct queue *queue = command->queue;
    if (queue->depth > 0) queue->head = (uint16_t)((queue->head + 1) % queue->depth);
    set_field(cqe + CQE_RESULT, 8, command->result);
    set_field(cqe + CQE_SQHD, 2, queue->no_flow ? SQHD_NOT_USED : queue->head);
    set_field(cqe + CQE_SQID, 2, queue->id);
    memcpy(cqe + CQE_CID, command->sqe + SQE_CID, 2);
    set_field(cqe + CQE_STATUS, 2, (uint64_t)command->status << 1);
}

/* Gives the command's buffers and its place back. */
static int32_t release(struct command *command) {
    struct queue *queue = command->queue;
    if (command->size > 0) {
        struct spare left = leave_buffer(command);
        command_keep(queue, &left);
    }
    queue->weight -= command->weight;
    command->weight = 0;
    command->sqe = 0;
    command->next = queue->idle;
    queue->idle = command;
    queue->begun--;
    return endpoint_receive(&queue->endpoint, &command->capsule);
}

void command_hold(struct command *command) {
    command->queue->begun--;
}

void command_resume(struct command *command, uint64_t result) {
    command->queue->begun++;
    command->result = result;
    command_complete(command, STATUS_SUCCESS);
}

void command_forget(struct command *command) {
    command->queue->begun++;
    if (release(command) != IWARP_OK) queue_close(command->queue);
}

/* Posts the buffer's octets themselves. They come back into it once the Write is done (queue.c). */
static int32_t write_data(struct command *command) {
    struct queue *queue = command->queue;
    const uint8_t *sgl = command->sqe + SQE_SGL;
    uint32_t key = (uint32_t)field(sgl + SGL_KEY, 4);
    int32_t code = endpoint_write_buffer(&queue->endpoint, key, field(sgl + SGL_ADDRESS, 8), &command->buffer);
    if (code == IWARP_OK) note(queue, (struct posted){.message = IWARP_MESSAGE_WRITE, .written = leave_buffer(command)});
    return code;
}

/* Returns 0 if the response has to wait for places among the posted messages. */
static int answer(struct command *command) {
    struct queue *queue = command->queue;
    uint8_t cqe[CQE_OCTETS];
    int writes = command->direction == TO_HOST && command->status == STATUS_SUCCESS;
    if (queue->count + 1 + (uint32_t)writes > MOST_POSTED) return 0;
    int32_t code = writes ? write_data(command) : IWARP_OK;
    make_response(command, cqe);
    uint32_t key = data_type(command) == SGL_KEYED_INVALIDATE ? (uint32_t)field(command->sqe + SQE_SGL + SGL_KEY, 4) : 0;
    take_first(&queue->answering);
    if (code == IWARP_OK) code = release(command);
    if (code == IWARP_OK) code = endpoint_send(&queue->endpoint, cqe, CQE_OCTETS, key);
    if (code == IWARP_OK)
        note(queue, (struct posted){.message = IWARP_MESSAGE_SEND});
    else
        queue_close(queue);
    return 1;
}

void commands_go_on(struct queue *queue) {
    if (queue->endpoint.ended) return;
    while (queue->state != CLOSED && queue->starting.first && queue->weight < MOST_WEIGHT) {
        struct command *command = queue->starting.first;
        take_first(&queue->starting);
        start(command);
    }
    give_buffers(queue);
    while (queue->state != CLOSED && queue->answering.first && answer(queue->answering.first)) {
    }
}
