/* Get Log Page. */
#include "target.h"

enum { PERCENT = 100, SPARE_THRESHOLD = 10, LONGEST_LOG = 4096, PAGE_512 = 512 };

/* How many octets a page has: none, if there is no such page. */
static uint32_t octets_of(uint8_t page) {
    switch (page) {
    case LOG_ERRORS:
        return ERROR_OCTETS;
    case LOG_HEALTH:
    case LOG_FIRMWARE:
        return PAGE_512;
    case LOG_EFFECTS:
        return LONGEST_LOG;
    case LOG_DISCOVERY:
        return 2 * DISCOVERY_ENTRY;
    default:
        return 0;
    }
}

/* The page, the number of octets and the offset at which the host wants it: not past its end. */
uint16_t check_log(struct command *command) {
    enum { NUMDL = SQE_CDW10 + 2, NUMDU = SQE_CDW11, LPOL = SQE_CDW12 };
    uint8_t page = command->sqe[SQE_CDW10];
    uint64_t dwords = field(command->sqe + NUMDL, 2) + (field(command->sqe + NUMDU, 2) << 16) + 1;
    int discovery = command->queue->controller->discovery;
    command->direction = TO_HOST;
    if (dwords * 4 > MOST_TRANSFER || field(command->sqe + LPOL, 8) % 4 != 0) return invalid(STATUS_INVALID_FIELD);
    command->length = (uint32_t)dwords * 4;
    uint32_t octets = octets_of(page);
    if (octets == 0 || discovery != (page == LOG_DISCOVERY)) return invalid(STATUS_INVALID_LOG_PAGE);
    return field(command->sqe + LPOL, 8) <= octets ? STATUS_SUCCESS : invalid(STATUS_INVALID_FIELD);
}

static void list_effects(uint8_t *log) {
    for (const struct operation *it = admin_operations; it->check; it++)
        set_field(log + EFFECTS_ADMIN + 4 * it->opcode, 4, EFFECT_SUPPORTED);
    for (const struct operation *it = io_operations; it->check; it++) {
        int changes = it->opcode != IO_READ && it->opcode != IO_FLUSH;
        set_field(log + EFFECTS_IO + 4 * it->opcode, 4, changes ? EFFECT_SUPPORTED | EFFECT_CHANGES : EFFECT_SUPPORTED);
    }
}

/* One subsystem, at the address that the host has reached, or that the options tell. */
static void list_subsystems(const struct command *command, uint8_t *log) {
    const struct target *target = command->queue->target;
    uint8_t *entry = log + DISCOVERY_ENTRY;
    char service[TRSVCID_OCTETS], address[INET_ADDRSTRLEN] = "";
    struct sockaddr_in here;
    socklen_t n = sizeof here;
    if (getsockname(command->queue->fd, (struct sockaddr *)&here, &n) == 0)
        inet_ntop(AF_INET, &here.sin_addr, address, sizeof address);
    snprintf(service, sizeof service, "%u", target->port);
    set_field(log + DISCOVERY_GENCTR, 8, 1);
    set_field(log + DISCOVERY_NUMREC, 8, 1);
    entry[ENTRY_TRTYPE] = TRTYPE_RDMA;
    entry[ENTRY_ADRFAM] = ADRFAM_IPV4;
    entry[ENTRY_SUBTYPE] = SUBTYPE_NVM;
    set_field(entry + ENTRY_PORTID, 2, 1);
    set_field(entry + ENTRY_CNTLID, 2, CNTLID_DYNAMIC);
    set_field(entry + ENTRY_ASQSZ, 2, QUEUE_DEPTH);
    set_text(entry + ENTRY_TRSVCID, TRSVCID_OCTETS, service);
    set_string(entry + ENTRY_SUBNQN, NQN_OCTETS, target->identity.nqn);
    set_text(entry + ENTRY_TRADDR, TRADDR_OCTETS, target->options.told_address ? target->options.told_address : address);
    entry[ENTRY_TSAS_QPTYPE] = QPTYPE_CONNECTED;
    entry[ENTRY_TSAS_PRTYPE] = PRTYPE_IWARP;
    entry[ENTRY_TSAS_CMS] = CMS_RDMA_CM;
}

static void tell_health(const struct command *command, uint8_t *log) {
    struct target *target = command->queue->target;
    uint64_t errors = health_errors(target).count;
    log[HEALTH_WARNINGS] = health_warnings(target, command->queue->controller);
    set_field(log + HEALTH_TEMPERATURE, 2, KELVIN);
    log[HEALTH_SPARE] = PERCENT;
    log[HEALTH_THRESHOLD] = SPARE_THRESHOLD;
    set_field(log + HEALTH_MEDIA_ERRORS, 8, errors);
    set_field(log + HEALTH_ERROR_ENTRIES, 8, errors);
}

/* One entry: the last error, whichever host's command it was. */
static void list_errors(struct target *target, uint8_t *log) {
    const struct errors errors = health_errors(target);
    if (errors.count == 0) return;
    set_field(log + ERROR_COUNT, 8, errors.count);
    set_field(log + ERROR_SQID, 2, ERROR_NOT_TOLD);
    set_field(log + ERROR_CID, 2, ERROR_NOT_TOLD);
    set_field(log + ERROR_STATUS, 2, (uint64_t)errors.status << 1);
    set_field(log + ERROR_FIELD, 2, ERROR_NOT_TOLD);
    set_field(log + ERROR_LBA, 8, errors.block);
    set_field(log + ERROR_NSID, 4, NSID);
}

void run_log(struct command *command) {
    uint8_t log[LONGEST_LOG] = {0};
    uint64_t from = field(command->sqe + SQE_CDW12, 8);
    switch (command->sqe[SQE_CDW10]) {
    case LOG_ERRORS:
        list_errors(command->queue->target, log);
        break;
    case LOG_HEALTH:
        tell_health(command, log);
        break;
    case LOG_FIRMWARE:
        log[FIRMWARE_ACTIVE] = 1;
        set_text(log + FIRMWARE_SLOT_1, FR_OCTETS, "1");
        break;
    case LOG_EFFECTS:
        list_effects(log);
        break;
    case LOG_DISCOVERY:
        list_subsystems(command, log);
        break;
    }
    memset(command->data, 0, command->length);
    uint64_t left = from < sizeof log ? sizeof log - from : 0;
    if (left > 0) memcpy(command->data, log + from, command->length < left ? command->length : left);
    command_complete(command, STATUS_SUCCESS);
}
