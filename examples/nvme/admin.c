/* Admin commands. */
#include "target.h"

enum { UNITS_OF_KAS = KEEP_ALIVE_UNIT / 100 };

void set_text(uint8_t *at, size_t n, const char *text) {
    size_t length = strlen(text);
    memset(at, ' ', n);
    memcpy(at, text, length < n ? length : n);
}

void set_string(uint8_t *at, size_t n, const char *text) {
    size_t length = strlen(text);
    memcpy(at, text, length < n ? length : n - 1);
}

/* ---- Identify */

static uint16_t check_identify(struct command *command) {
    uint8_t cns = command->sqe[SQE_CDW10];
    uint32_t nsid = (uint32_t)field(command->sqe + SQE_NSID, 4);
    command->direction = TO_HOST;
    command->length = IDENTIFY_OCTETS;
    if (command->queue->controller->discovery && cns != CNS_CONTROLLER) return invalid(STATUS_INVALID_FIELD);
    switch (cns) {
    case CNS_CONTROLLER:
        return STATUS_SUCCESS;
    case CNS_NAMESPACE:
    case CNS_DESCRIPTORS:
        return nsid == NSID ? STATUS_SUCCESS : invalid(STATUS_INVALID_NAMESPACE);
    case CNS_NAMESPACE_LIST:
        return nsid <= NSID_LIST_MOST ? STATUS_SUCCESS : invalid(STATUS_INVALID_NAMESPACE);
    default:
        return invalid(STATUS_INVALID_FIELD);
    }
}

static void identify_controller(const struct command *command, uint8_t *id) {
    const struct controller *controller = command->queue->controller;
    const struct identity *identity = &command->queue->target->identity;
    set_text(id + ID_SN, SN_OCTETS, identity->serial);
    set_text(id + ID_MN, MN_OCTETS, "iWARP target");
    set_text(id + ID_FR, FR_OCTETS, "1");
    id[ID_CMIC] = CMIC_CONTROLLERS;
    id[ID_MDTS] = MDTS;
    set_field(id + ID_CNTLID, 2, controller->id);
    set_field(id + ID_VER, 4, VERSION_1_3);
    set_field(id + ID_CTRATT, 4, CTRATT_HOST_ID_128 | CTRATT_TBKAS);
    id[ID_CNTRLTYPE] = controller->discovery ? TYPE_DISCOVERY : TYPE_IO;
    id[ID_AERL] = MOST_ASYNC_EVENTS - 1;
    id[ID_FRMW] = FRMW_ONE_READ_ONLY;
    id[ID_LPA] = LPA_EXTENDED | (controller->discovery ? 0 : LPA_EFFECTS);
    set_field(id + ID_KAS, 2, UNITS_OF_KAS);
    set_field(id + ID_MAXCMD, 2, QUEUE_DEPTH);
    set_field(id + ID_SGLS, 4, SGLS_SUPPORTED | SGLS_KEYED | SGLS_OFFSETS);
    set_string(id + ID_SUBNQN, NQN_OCTETS, controller->discovery ? DISCOVERY_NQN : identity->nqn);
    id[ID_SQES] = SQES_64 << 4 | SQES_64;
    id[ID_CQES] = CQES_16 << 4 | CQES_16;
    set_field(id + ID_IOCCSZ, 4, CAPSULE_OCTETS / 16);
    set_field(id + ID_IORCSZ, 4, CQE_OCTETS / 16);
    id[ID_MSDBD] = 1;
    if (controller->discovery) return;
    set_field(id + ID_NN, 4, NSID);
    set_field(id + ID_ONCS, 2, ONCS_DEALLOCATE | ONCS_WRITE_ZEROES);
    id[ID_VWC] = VWC_PRESENT;
}

static void identify_namespace(const struct command *command, uint8_t *id) {
    const struct target *target = command->queue->target;
    set_field(id + NS_NSZE, 8, target->store.blocks);
    set_field(id + NS_NCAP, 8, target->store.blocks);
    set_field(id + NS_NUSE, 8, target->store.blocks);
    id[NS_NMIC] = NMIC_SHARED;
    id[NS_NSATTR] = target->store.read_only || target->store.failed ? NSATTR_WRITE_PROTECTED : 0;
    memcpy(id + NS_NGUID, target->identity.uuid, NGUID_OCTETS);
    id[NS_LBADS] = LBA_SHIFT;
}

/* The same 16 octets twice: as the NGUID, and as the UUID, which is told to later hosts. */
static void list_descriptors(const struct identity *identity, uint8_t *list) {
    static const uint8_t kinds[] = {DESCRIPTOR_NGUID, DESCRIPTOR_UUID};
    for (size_t i = 0; i < sizeof kinds; i++, list += DESCRIPTOR_HEAD + UUID_OCTETS) {
        list[0] = kinds[i];
        list[1] = UUID_OCTETS;
        memcpy(list + DESCRIPTOR_HEAD, identity->uuid, UUID_OCTETS);
    }
}

static void run_identify(struct command *command) {
    uint8_t *id = command->data;
    memset(id, 0, IDENTIFY_OCTETS);
    switch (command->sqe[SQE_CDW10]) {
    case CNS_CONTROLLER:
        identify_controller(command, id);
        break;
    case CNS_NAMESPACE:
        identify_namespace(command, id);
        break;
    case CNS_NAMESPACE_LIST: /* those above the one that is named */
        if (field(command->sqe + SQE_NSID, 4) < NSID) set_field(id, 4, NSID);
        break;
    case CNS_DESCRIPTORS:
        list_descriptors(&command->queue->target->identity, id);
        break;
    }
    command_complete(command, STATUS_SUCCESS);
}

/* ---- the others */

/* No command is ever aborted, which the result tells. */
static void run_abort(struct command *command) {
    command->result = 1;
    command_complete(command, STATUS_SUCCESS);
}

static void run_keep_alive(struct command *command) {
    command_complete(command, STATUS_SUCCESS);
}

const struct operation admin_operations[] = {
    {ADMIN_GET_LOG_PAGE, check_log, run_log},
    {ADMIN_IDENTIFY, check_identify, run_identify},
    {ADMIN_ABORT, no_data, run_abort},
    {ADMIN_SET_FEATURES, no_data, run_set_features},
    {ADMIN_GET_FEATURES, check_get_features, run_get_features},
    {ADMIN_ASYNC_EVENT, no_data, run_async_event},
    {ADMIN_KEEP_ALIVE, no_data, run_keep_alive},
    {0, 0, 0},
};

/* Of a discovery controller. */
const struct operation discovery_operations[] = {
    {ADMIN_GET_LOG_PAGE, check_log, run_log},
    {ADMIN_IDENTIFY, check_identify, run_identify},
    {ADMIN_SET_FEATURES, no_data, run_set_features},
    {ADMIN_GET_FEATURES, check_get_features, run_get_features},
    {ADMIN_ASYNC_EVENT, no_data, run_async_event},
    {ADMIN_KEEP_ALIVE, no_data, run_keep_alive},
    {0, 0, 0},
};
