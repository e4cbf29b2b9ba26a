/* Get Features and Set Features. */
#include "target.h"

enum { NO_LEAST = 0, NO_MOST = 0xffff };

/* As they are once the controller begins. Events tell of what the health log warns of. */
void features_reset(struct controller *controller) {
    controller->event_mask = WARNS_TEMPERATURE | WARNS_RELIABILITY | WARNS_READ_ONLY;
    controller->over = NO_MOST;
    controller->under = NO_LEAST;
    controller->recovery = controller->atomicity = 0;
}

/* The Host Identifier comes as data, of 16 octets alone. */
uint16_t check_get_features(struct command *command) {
    command->direction = NO_DATA;
    if (command->sqe[SQE_CDW10] != FEATURE_HOST_ID) return STATUS_SUCCESS;
    if (!(command->sqe[SQE_CDW11] & HOST_ID_128)) return invalid(STATUS_INVALID_FIELD);
    command->direction = TO_HOST;
    command->length = HOST_ID_OCTETS;
    return STATUS_SUCCESS;
}

/* ---- what is read */

static uint16_t tell(struct command *command, uint32_t value) {
    command->result = value;
    return STATUS_SUCCESS;
}

/* The threshold that a value names: of the one temperature there is. Returns null if it names none. */
static uint16_t *threshold_of(struct controller *controller, uint32_t value, uint32_t most_sensor) {
    uint32_t sensor = value >> TEMPERATURE_SENSOR & 0xf, kind = value >> TEMPERATURE_KIND & 0x3;
    if (sensor != 0 && sensor != most_sensor) return 0;
    return kind == 0 ? &controller->over : kind == 1 ? &controller->under : 0;
}

static uint16_t get_threshold(struct command *command) {
    uint32_t value = (uint32_t)field(command->sqe + SQE_CDW11, 4);
    const uint16_t *threshold = threshold_of(command->queue->controller, value, 0);
    return threshold ? tell(command, *threshold) : invalid(STATUS_INVALID_FIELD);
}

/* Number of Queues: each field is one less than a number. */
static uint16_t get_queues(struct command *command) {
    uint32_t most = command->queue->controller->io_queues - 1;
    return tell(command, most | most << 16);
}

static uint16_t get_host_id(struct command *command) {
    memcpy(command->data, command->queue->controller->host_id, HOST_ID_OCTETS);
    return STATUS_SUCCESS;
}

static uint16_t get_nothing(struct command *command) { return tell(command, 0); }
static uint16_t get_recovery(struct command *command) { return tell(command, command->queue->controller->recovery); }
static uint16_t get_write_cache(struct command *command) { return tell(command, 1); }
static uint16_t get_atomicity(struct command *command) { return tell(command, command->queue->controller->atomicity); }
static uint16_t get_events(struct command *command) { return tell(command, command->queue->controller->event_mask); }
static uint16_t get_keep_alive(struct command *command) { return tell(command, command->queue->controller->keep_alive); }

/* ---- what is set */

static uint16_t set_nothing(struct command *command, uint32_t value) {
    (void)command, (void)value;
    return STATUS_SUCCESS;
}

static uint16_t set_threshold(struct command *command, uint32_t value) {
    struct controller *controller = command->queue->controller;
    uint16_t *threshold = threshold_of(controller, value, TEMPERATURE_ALL);
    if (!threshold) return invalid(STATUS_INVALID_FIELD);
    *threshold = (uint16_t)value;
    events_tell(controller);
    return STATUS_SUCCESS;
}

/* There are no deallocated blocks of which a Read could tell. */
static uint16_t set_recovery(struct command *command, uint32_t value) {
    if (value & RECOVERY_DULBE) return invalid(STATUS_INVALID_FIELD);
    command->queue->controller->recovery = value & RECOVERY_TLER;
    return STATUS_SUCCESS;
}

/* It stays: the system's cache cannot be turned off. */
static uint16_t set_write_cache(struct command *command, uint32_t value) {
    (void)command;
    return value & 1 ? STATUS_SUCCESS : invalid(STATUS_INVALID_FIELD);
}

/* As many as are asked for, at most MOST_IO_QUEUES. */
static uint16_t set_queues(struct command *command, uint32_t asked) {
    struct controller *controller = command->queue->controller;
    uint32_t submission = asked & 0xffff, completion = asked >> 16, least = submission < completion ? submission : completion;
    if (submission == 0xffff || completion == 0xffff) return invalid(STATUS_INVALID_FIELD);
    uint32_t granted = least + 1 < MOST_IO_QUEUES ? least + 1 : MOST_IO_QUEUES;
    if (!controller_grant(controller, granted)) return invalid(STATUS_COMMAND_SEQUENCE_ERROR);
    return get_queues(command);
}

static uint16_t set_atomicity(struct command *command, uint32_t value) {
    command->queue->controller->atomicity = value & 1;
    return STATUS_SUCCESS;
}

static uint16_t set_events(struct command *command, uint32_t value) {
    command->queue->controller->event_mask = value;
    events_tell(command->queue->controller);
    return STATUS_SUCCESS;
}

static uint16_t set_keep_alive(struct command *command, uint32_t value) {
    controller_keep_alive(command->queue->controller, value);
    return STATUS_SUCCESS;
}

/* Connect has told it. */
static uint16_t set_host_id(struct command *command, uint32_t value) {
    (void)command, (void)value;
    return invalid(STATUS_COMMAND_SEQUENCE_ERROR);
}

/* ---- all features */

static const struct feature {
    uint8_t number;
    uint16_t (*get)(struct command *command);
    uint16_t (*set)(struct command *command, uint32_t value);
} features[] = {
    {FEATURE_ARBITRATION, get_nothing, set_nothing},
    {FEATURE_POWER, get_nothing, set_nothing},
    {FEATURE_TEMPERATURE, get_threshold, set_threshold},
    {FEATURE_ERROR_RECOVERY, get_recovery, set_recovery},
    {FEATURE_WRITE_CACHE, get_write_cache, set_write_cache},
    {FEATURE_QUEUES, get_queues, set_queues},
    {FEATURE_ATOMICITY, get_atomicity, set_atomicity},
    {FEATURE_ASYNC_EVENTS, get_events, set_events},
    {FEATURE_KEEP_ALIVE, get_keep_alive, set_keep_alive},
    {FEATURE_HOST_ID, get_host_id, set_host_id},
};

/* The one that a command names, or null. */
static const struct feature *feature_of(const struct command *command) {
    for (size_t i = 0; i < sizeof features / sizeof *features; i++)
        if (features[i].number == command->sqe[SQE_CDW10]) return &features[i];
    return 0;
}

void run_get_features(struct command *command) {
    const struct feature *feature = feature_of(command);
    command_complete(command, feature ? feature->get(command) : invalid(STATUS_INVALID_FIELD));
}

void run_set_features(struct command *command) {
    const struct feature *feature = feature_of(command);
    uint32_t value = (uint32_t)field(command->sqe + SQE_CDW11, 4);
    command_complete(command, feature ? feature->set(command, value) : invalid(STATUS_INVALID_FIELD));
}
