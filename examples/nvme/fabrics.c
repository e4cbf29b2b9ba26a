/* Fabrics commands: Connect, Property Get, Property Set; and controllers, which begin and end with them. */
#include "target.h"

/* ---- controllers. With the lock, where it says so */

static void lock(struct target *target) {
    pthread_mutex_lock(&target->controllers.lock);
}

static void unlock(struct target *target) {
    pthread_mutex_unlock(&target->controllers.lock);
}

/* With the lock. */
static struct controller *find_controller(struct controllers *controllers, uint16_t id) {
    for (struct controller *it = controllers->all; it < controllers->all + MOST_CONTROLLERS; it++)
        if (it->id == id) return it;
    return 0;
}

/* With the lock: one that is none, and that no queue names. */
static struct controller *find_free(struct controllers *controllers) {
    for (struct controller *it = controllers->all; it < controllers->all + MOST_CONTROLLERS; it++)
        if (it->id == 0 && it->queues == 0) return it;
    return 0;
}

/* With the lock: a controller with an identifier that none has. Returns null if there are MOST_CONTROLLERS. */
static struct controller *new_controller(struct queue *admin) {
    struct controllers *controllers = &admin->target->controllers;
    struct controller *controller = find_free(controllers);
    if (!controller) return 0;
    do controllers->last_id = controllers->last_id == CNTLID_MOST ? 1 : (uint16_t)(controllers->last_id + 1);
    while (find_controller(controllers, controllers->last_id));
    memset(controller, 0, sizeof *controller);
    controller->id = controllers->last_id;
    controller->queues = 1;
    controller->admin = admin;
    controller->io_queues = MOST_IO_QUEUES;
    features_reset(controller);
    controller->heard = admin->loop->now;
    return controller;
}

/* With the lock: the controller is not ready, and has no I/O queues any more. Those of other loops are cut off, so that none of
 * their commands is done behind what comes from now on; their loops close them. Puts the others into a list. */
static void let_go(struct controller *controller, const struct loop *loop, struct queue **own) {
    controller->state = 0;
    for (int i = 1; i <= MOST_IO_QUEUES; i++) {
        struct queue *queue = controller->io[i];
        controller->io[i] = 0;
        if (!queue) continue;
        if (queue->loop == loop) {
            *own++ = queue;
        } else {
            order_cut(&queue->target->store.order, &queue->lane);
            queue_end(queue);
        }
    }
    *own = 0;
}

static void close_io_queues(struct controller *controller) {
    struct queue *own[MOST_IO_QUEUES + 1], *admin = controller->admin;
    lock(admin->target);
    let_go(controller, admin->loop, own);
    unlock(admin->target);
    for (struct queue **it = own; *it; it++) queue_close(*it);
}

void controller_close(struct controller *controller) {
    struct queue *admin = controller->admin;
    lock(admin->target);
    controller->id = 0;
    unlock(admin->target);
    close_io_queues(controller);
    admin->controller = 0;
    say(admin->target, "controller %d: gone", admin->controller_id);
    controller_leave(controller, admin);
    queue_close(admin);
}

/* Where the target ends, an admin queue waits for its I/O queues. */
void controller_leave(struct controller *controller, struct queue *queue) {
    lock(queue->target);
    controller->queues--;
    if (queue == controller->admin)
        controller->admin = 0;
    else if (controller->io[queue->id] == queue)
        controller->io[queue->id] = 0;
    if (queue->target->ends && controller->admin) loop_wake(controller->admin->loop);
    unlock(queue->target);
}

/* With the lock. */
static int has_io(const struct controller *controller) {
    for (int i = 1; i <= MOST_IO_QUEUES; i++)
        if (controller->io[i]) return 1;
    return 0;
}

int controller_has_io(struct controller *controller) {
    lock(controller->admin->target);
    int has = has_io(controller);
    unlock(controller->admin->target);
    return has;
}

int controller_grant(struct controller *controller, uint32_t io_queues) {
    lock(controller->admin->target);
    int is_granted = !has_io(controller);
    if (is_granted) controller->io_queues = io_queues;
    unlock(controller->admin->target);
    return is_granted;
}

/* Whether one of its connections has octets that were not read: its loop has not had a turn, perhaps. */
static int has_unread(struct controller *controller) {
    struct pollfd polled[1 + MOST_IO_QUEUES] = {{controller->admin->fd, POLLIN, 0}};
    lock(controller->admin->target);
    for (int i = 1; i <= MOST_IO_QUEUES; i++)
        polled[i] = (struct pollfd){controller->io[i] ? controller->io[i]->fd : -1, POLLIN, 0};
    int found = poll(polled, 1 + MOST_IO_QUEUES, 0);
    unlock(controller->admin->target);
    return found > 0;
}

int controller_is_silent(struct controller *controller) {
    uint64_t now = controller->admin->loop->now;
    if (atomic_exchange(&controller->has_spoken, 0)) controller->heard = now;
    return controller->keep_alive != 0 && now - controller->heard > controller->keep_alive && !has_unread(controller);
}

/* ---- Connect */

static uint16_t check_connect(struct command *command) {
    command->direction = FROM_HOST;
    command->length = CONNECT_OCTETS;
    return field(command->sqe + CONNECT_RECFMT, 2) == 0 ? STATUS_SUCCESS : invalid(STATUS_CONNECT_FORMAT);
}

/* Connect Invalid Parameters: the result names the field, `at` in the command or in the data. */
static void refuse(struct command *command, uint32_t at) {
    command->result = at;
    command_complete(command, invalid(STATUS_CONNECT_INVALID));
}

/* Whether 256 octets are this text, with a zero behind it. */
static int is_text(const uint8_t *at, const char *text) {
    size_t n = strlen(text);
    return n < NQN_OCTETS && memcmp(at, text, n + 1) == 0;
}

/* Rounds up to the unit that Identify tells (KAS). */
void controller_keep_alive(struct controller *controller, uint32_t ms) {
    uint32_t units = ms / KEEP_ALIVE_UNIT + (ms % KEEP_ALIVE_UNIT != 0);
    controller->keep_alive = units > UINT32_MAX / KEEP_ALIVE_UNIT ? UINT32_MAX : units * KEEP_ALIVE_UNIT;
}

static void connect_admin(struct command *command, int discovery) {
    struct queue *queue = command->queue;
    if (field(command->data + CONNECT_CNTLID, 2) != CNTLID_DYNAMIC) {
        refuse(command, INVALID_IN_DATA | CONNECT_CNTLID);
        return;
    }
    lock(queue->target);
    struct controller *controller = new_controller(queue);
    if (controller) {
        controller->discovery = discovery;
        queue->controller_id = controller->id;
        memcpy(controller->host_id, command->data + CONNECT_HOST_ID, HOST_ID_OCTETS);
        memcpy(controller->host_nqn, command->data + CONNECT_HOSTNQN, NQN_OCTETS);
    }
    unlock(queue->target);
    if (!controller) {
        command_complete(command, STATUS_CONNECT_BUSY);
        return;
    }
    controller_keep_alive(controller, (uint32_t)field(command->sqe + CONNECT_KATO, 4));
    queue->controller = controller;
    char name[4 * NQN_OCTETS + 1];
    escape(name, sizeof name, (const char *)controller->host_nqn);
    say(queue->target, "controller %d: %s of %s", queue->controller_id, discovery ? "discovery" : "host", name);
}

/* With the lock. */
static void connect_io(struct command *command, uint16_t id) {
    struct queue *queue = command->queue;
    uint16_t of = (uint16_t)field(command->data + CONNECT_CNTLID, 2);
    struct controller *controller = of == 0 ? 0 : find_controller(&queue->target->controllers, of);
    if (!controller || controller->discovery)
        refuse(command, INVALID_IN_DATA | CONNECT_CNTLID);
    else if (memcmp(controller->host_id, command->data + CONNECT_HOST_ID, HOST_ID_OCTETS) != 0)
        refuse(command, INVALID_IN_DATA | CONNECT_HOST_ID);
    else if (!is_text(command->data + CONNECT_HOSTNQN, (const char *)controller->host_nqn))
        refuse(command, INVALID_IN_DATA | CONNECT_HOSTNQN);
    else if (id > controller->io_queues || controller->io[id])
        refuse(command, CONNECT_QID);
    else if (!(controller->state & CSTS_READY))
        command_complete(command, invalid(STATUS_COMMAND_SEQUENCE_ERROR));
    else {
        queue->controller = controller;
        queue->controller_id = of;
        controller->io[id] = queue;
        controller->queues++;
    }
}

static void connect_locked(struct command *command, uint16_t id) {
    lock(command->queue->target);
    connect_io(command, id);
    unlock(command->queue->target);
}

/* Whether a host may connect that says to have this name. */
static int is_allowed(const struct options *options, const uint8_t *name) {
    for (unsigned i = 0; i < options->allowed_count; i++)
        if (is_text(name, options->allowed[i])) return 1;
    return options->allowed_count == 0;
}

/* The data of a Connect is there. */
static void run_connect(struct command *command) {
    struct queue *queue = command->queue;
    const struct options *options = &queue->target->options;
    uint16_t id = (uint16_t)field(command->sqe + CONNECT_QID, 2);
    uint32_t depth = (uint32_t)field(command->sqe + CONNECT_SQSIZE, 2) + 1;
    int discovery = is_text(command->data + CONNECT_SUBNQN, DISCOVERY_NQN);
    if (queue->controller) {
        command_complete(command, invalid(STATUS_COMMAND_SEQUENCE_ERROR));
    } else if (id != queue->told_id) {
        refuse(command, CONNECT_QID);
    } else if (depth < 2 || depth > queue->depth) {
        refuse(command, CONNECT_SQSIZE);
    } else if (!discovery && !is_text(command->data + CONNECT_SUBNQN, queue->target->identity.nqn)) {
        refuse(command, INVALID_IN_DATA | CONNECT_SUBNQN);
    } else if (command->data[CONNECT_HOSTNQN] == 0 || !memchr(command->data + CONNECT_HOSTNQN, 0, NQN_OCTETS)) {
        refuse(command, INVALID_IN_DATA | CONNECT_HOSTNQN);
    } else if (!is_allowed(options, command->data + CONNECT_HOSTNQN)) {
        command_complete(command, invalid(STATUS_CONNECT_HOST));
    } else {
        if (id == 0)
            connect_admin(command, discovery);
        else
            connect_locked(command, id);
        if (!queue->controller) return;
        queue->id = id;
        queue->depth = (uint16_t)depth;
        queue->no_flow = (command->sqe[CONNECT_CATTR] & CATTR_NO_SQ_FLOW) != 0;
        queue_enter(queue, CONNECTED);
        command->result = queue->controller_id;
        command_complete(command, STATUS_SUCCESS);
    }
}

/* ---- properties */

static uint16_t check_property(struct command *command) {
    return command->queue->id == 0 ? STATUS_SUCCESS : invalid(STATUS_INVALID_OPCODE);
}

static void run_get(struct command *command) {
    const struct controller *controller = command->queue->controller;
    int size = command->sqe[PROPERTY_ATTRIB] & ATTRIB_SIZE;
    uint32_t offset = (uint32_t)field(command->sqe + PROPERTY_OFFSET, 4);
    uint16_t status = STATUS_SUCCESS;
    enum { READY_TIMEOUT = 30 }; /* 15 s */
    if (size == ATTRIB_EIGHT && offset == PROPERTY_CAP)
        command->result = (QUEUE_DEPTH - 1) | CAP_CQR | (uint64_t)READY_TIMEOUT << CAP_TO | 1ull << CAP_CSS_NVM;
    else if (size == ATTRIB_FOUR && offset == PROPERTY_VS)
        command->result = VERSION_1_3;
    else if (size == ATTRIB_FOUR && offset == PROPERTY_CC)
        command->result = controller->configuration;
    else if (size == ATTRIB_FOUR && offset == PROPERTY_CSTS)
        command->result = controller->state;
    else
        status = invalid(STATUS_INVALID_FIELD);
    command_complete(command, status);
}

/* Whether a configuration is one that the controller can be enabled with. */
static int is_possible(uint32_t configuration) {
    return !(configuration & (CC_CSS | CC_MPS | CC_AMS)) && (configuration >> CC_IOSQES & CC_ENTRY) == SQES_64 &&
           (configuration >> CC_IOCQES & CC_ENTRY) == CQES_16;
}

static void set_configuration(struct controller *controller, uint32_t configuration) {
    uint32_t was = controller->configuration;
    controller->configuration = configuration;
    if (configuration & CC_ENABLE && !(was & CC_ENABLE))
        controller->state = controller->discovery || is_possible(configuration) ? CSTS_READY : CSTS_FATAL;
    if (!(configuration & CC_ENABLE) && was & CC_ENABLE) {
        close_io_queues(controller);
        controller->shutdown = 0;
        features_reset(controller);
        events_drop(controller);
    }
    if (configuration & CC_SHN) return;
    controller->state &= ~(uint32_t)CSTS_SHUTDOWN;
    controller->shutdown = 0;
}

/* The Flush of a shutdown is over. If the controller was reset meanwhile, that is no more of interest. */
static void shut_down(struct command *command) {
    struct controller *controller = command->queue->controller;
    uint32_t state = CSTS_SHUTDOWN_DONE | (command->job.status == STATUS_SUCCESS ? 0 : CSTS_FATAL);
    if (controller->shutdown != command) return;
    controller->shutdown = 0;
    controller->state = (controller->state & ~(uint32_t)CSTS_SHUTDOWN) | state;
}

/* A shutdown is over, and its command answered, once what was written is durable. If that fails, the answer and the controller's
 * state say so. */
static void run_set(struct command *command) {
    int size = command->sqe[PROPERTY_ATTRIB] & ATTRIB_SIZE;
    struct controller *controller = command->queue->controller;
    uint32_t configuration = (uint32_t)field(command->sqe + PROPERTY_VALUE, 4);
    if (size != ATTRIB_FOUR || field(command->sqe + PROPERTY_OFFSET, 4) != PROPERTY_CC) {
        command_complete(command, invalid(STATUS_INVALID_FIELD));
        return;
    }
    int shuts_down = configuration & CC_SHN && !(controller->configuration & CC_SHN);
    set_configuration(controller, configuration);
    if (shuts_down) {
        controller->state |= CSTS_SHUTDOWN_GOES_ON;
        controller->shutdown = command;
        command->then = shut_down;
        command_store(command, JOB_FLUSH, 0, 0);
    } else {
        command_complete(command, STATUS_SUCCESS);
    }
}

const struct operation fabrics_operations[] = {
    {FABRICS_PROPERTY_SET, check_property, run_set},
    {FABRICS_CONNECT, check_connect, run_connect},
    {FABRICS_PROPERTY_GET, check_property, run_get},
    {0, 0, 0},
};
