/* What the files of the target share: a target has a store, places for connections, controllers (one for each Connect of an admin
 * queue) and loops; a loop has queues (one for each connection); a queue has its commands.
 *
 * A loop is a thread. What it has is its own, but for fields that say whose lock they have. Locks are taken in this order: that of
 * the controllers, that of the places, those of the store's order, the store's mutex; those of errors and of lines (say.c) with
 * none behind them. An I/O command takes the store's alone, and only if it fails that of errors. */
#ifndef TARGET_H
#define TARGET_H

#include <stdatomic.h>

#include "endpoint.h"
#include "identity.h"
#include "store.h"

enum {
    QUEUE_DEPTH = 128, /* commands that an I/O queue takes, and the host's default */
    SPARE_COMMANDS = 2, /* a host's next command may come while the response to an earlier one is under way */
    MOST_COMMANDS = QUEUE_DEPTH + SPARE_COMMANDS,
    IN_CAPSULE_OCTETS = 4096,
    CAPSULE_OCTETS = SQE_OCTETS + IN_CAPSULE_OCTETS,
    PAGE_OCTETS = 4096,
    MDTS = 8, /* the longest transfer is 2 to that many pages */
    MOST_TRANSFER = PAGE_OCTETS << MDTS,
    MOST_DATA = 4 * MOST_TRANSFER, /* of a queue: buffers for its commands' data */
    MOST_LOOPS = 16,
    MOST_CONTROLLERS = 255,
    MOST_IO_QUEUES = 7, /* of a controller */
    DOMAIN_QUEUES = 1 + MOST_IO_QUEUES, /* of 128 commands, each of which may have a region: a domain has 1,024 */
    MOST_STARTING = 256, /* connections that have not got as far as Connect, or drain: of more, the oldest is closed */
    MOST_QUEUES = MOST_CONTROLLERS * DOMAIN_QUEUES + MOST_STARTING,
    QUEUE_MIB = 6, /* that a queue takes at most: MOST_DATA, its commands' capsules, and what the library keeps for its stream */
    MOST_ASYNC_EVENTS = 4,
    MOST_WEIGHT = 32, /* of a queue's commands in hand: it takes none behind so many */
    DATASET_WEIGHT = 16, /* of a Dataset Management command; a Write Zeroes weighs one for each MiB */
    MOST_SENT = MIB, /* octets, of a queue in a turn of the loop, and what is gathered then */
    MOST_ALLOWED = 256,
    KEEP_ALIVE_UNIT = 1000 /* ms */
};

/* ---- commands and queues */

struct command;

/* What a command does. `check` tells whether its fields are valid, and sets direction and length; `run` is called once its data is
 * there, if the host sends any, and comes to command_complete. */
struct operation {
    uint8_t opcode;
    uint16_t (*check)(struct command *command);
    void (*run)(struct command *command);
};

enum direction { NO_DATA, TO_HOST, FROM_HOST };

struct command {
    struct job job;
    struct command *next; /* in one of the queue's lists */
    struct queue *queue;
    const struct operation *operation;
    struct iwarp_buffer capsule; /* the receive buffer that it came in, which goes back before the response */
    uint8_t *sqe;
    size_t inside; /* octets of data in the capsule */
    enum direction direction;
    uint32_t length; /* of its data */
    uint8_t *data; /* in `buffer` or in the capsule */
    struct iwarp_buffer buffer;
    size_t size; /* of the buffer; 0: the command has none */
    uint32_t sink; /* the buffer's STag, while the host's data is read; else 0 */
    uint16_t status;
    uint64_t result;
    uint64_t number; /* of those that came at its queue */
    uint32_t weight; /* in its queue */
    void (*then)(struct command *command); /* if not null: what follows once the store has done its job, or failed */
};

/* The oldest first. */
struct list {
    struct command *first, **last;
};

/* A buffer of a queue that no command has. It is kept for data of one direction: what was posted and came back has to be written
 * once more before it can be a sink. */
struct spare {
    struct iwarp_buffer buffer;
    size_t size;
    enum direction direction;
};

/* What was posted, in order, until the library has handed it back. */
struct posted {
    uint32_t message; /* IWARP_MESSAGE_SEND and so on */
    struct command *command; /* of a Read */
    struct spare written; /* the buffer of a Write, which has no octets until they come back */
};

enum queue_state { AWAITS_REQUEST, AWAITS_CONNECT, CONNECTED, DRAINS, CLOSED };

struct queue {
    struct loop *loop;
    struct target *target; /* the loop's */
    struct queue *next, **link; /* among the loop's; or `next` alone, among those that are handed to it */
    struct queue *newer, *older; /* among those that give way. The places' lock */
    int gives_way; /* it is one of these. The places' lock */
    uint32_t load; /* its share of the loop's. The places' lock */
    _Atomic int ends; /* another loop has it closed: its own does so, once it is woken */
    struct controller *controller; /* of a connected one */
    uint16_t controller_id;
    struct endpoint endpoint;
    uint32_t domain; /* 0: there was none, and it is rejected */
    int fd;
    enum queue_state state;
    uint64_t since; /* when the state began, in ms */
    uint64_t moved; /* when octets were last written, or nothing was due */
    int blocked; /* octets are due, and the socket takes none */
    int again; /* octets are due, and it has sent as many as it may in a turn */
    uint64_t turn; /* when it sent last */
    size_t sent; /* octets, in that turn */
    uint16_t id, told_id; /* by Connect; by the MPA Request */
    uint16_t depth, head; /* entries of the submission queue; where its head is */
    int no_flow; /* the host does not want to know the head */
    uint32_t most_reads; /* the peer's IRD */
    uint32_t commands_made;
    struct command *commands;
    struct command *idle;
    uint64_t came; /* commands */
    uint32_t begun; /* those that are not answered */
    uint32_t weight; /* of those that take the store long, and that others may have to wait for */
    struct lane lane; /* its jobs in the store */
    struct list starting; /* have just come */
    struct list reading; /* wait for a buffer */
    struct list fetching; /* wait for a Read's place, and a buffer */
    struct list answering; /* wait for the places of their messages */
    struct posted posted[MOST_POSTED];
    uint32_t first, count; /* of those */
    uint32_t reads, jobs; /* Reads that are posted; commands that workers have */
    int is_woken; /* some of these are done, and it is to go on */
    struct queue *next_woken; /* of those for which that is so */
    struct spare spares[MOST_COMMANDS];
    uint32_t spare_count;
    size_t held; /* octets of the queue's buffers */
};

/* ---- places */

/* The queues of a protection domain, which come from one address. Each loop's handle has all domains. */
struct domain {
    uint32_t address;
    uint32_t queues; /* 0: the domain is free */
};

/* Connections of all loops. */
struct places {
    pthread_mutex_t lock; /* of all that follows */
    uint32_t count, starting; /* queues; those that have not got as far as Connect, or drain */
    struct queue *oldest, *newest; /* of those that give way: they are starting, and no worker has a command of them */
    struct domain domains[MOST_DOMAINS + 1]; /* by number, from 1 */
};

/* ---- controllers */

/* The loop of its admin queue has it, but for what has the controllers' lock: other loops read it, and this loop changes it, with
 * the lock. */
struct controller {
    uint16_t id; /* 0: it is none. The controllers' lock, as all down to `io` */
    uint32_t queues; /* that name it: until there is none, it is no other controller */
    uint32_t io_queues; /* granted */
    int discovery;
    uint8_t host_nqn[NQN_OCTETS], host_id[HOST_ID_OCTETS];
    struct queue *admin, *io[MOST_IO_QUEUES + 1]; /* by queue number, from 1 */
    _Atomic uint32_t state; /* CSTS: all its queues read it. The lock, where it is no longer ready */
    _Atomic int has_spoken; /* a command came at one of its queues since its loop has looked */
    uint32_t configuration; /* CC */
    uint32_t keep_alive; /* ms; 0: the host need not tell that it is there */
    uint64_t heard; /* when its loop has found that it has spoken */
    struct command *shutdown; /* the one that shuts it down, while that goes on */
    struct command *events[MOST_ASYNC_EVENTS]; /* Async Event Requests in hand, the oldest first */
    uint32_t event_count, event_mask;
    uint8_t told; /* critical warnings of which an event told */
    uint16_t over, under; /* thresholds of its temperature, in kelvin */
    uint32_t recovery, atomicity; /* features that change nothing */
};

struct controllers {
    pthread_mutex_t lock;
    uint16_t last_id; /* the lock */
    struct controller all[MOST_CONTROLLERS];
};

/* ---- the target */

/* Commands that failed by a fault of the store. */
struct errors {
    pthread_mutex_t lock; /* of all that follows */
    uint64_t count;
    uint16_t status; /* of the last */
    uint64_t block;
};

struct options {
    const char *file, *address, *told_address, *nqn, *serial; /* the last two may be null */
    uint64_t ram_mib;
    unsigned port, options, mulpdu, workers, loops, verbose;
    unsigned most_queues; /* at once; 0: as many as there can be */
    int read_only;
    uint8_t uuid[UUID_OCTETS];
    int has_uuid;
    uint64_t start_ms, stall_ms;
    const char *allowed[MOST_ALLOWED]; /* the names of hosts; if there are none, each may connect */
    unsigned allowed_count;
};

struct loop {
    _Alignas(CACHE_LINE) struct target *target;
    pthread_t thread; /* but for the first loop, which has the program's */
    int epoll;
    int wake; /* an eventfd: jobs are done, connections are handed over, queues are to end, or the target ends */
    struct iwarp handle; /* of all its queues */
    struct finished finished; /* the store's mutex */
    struct queue *handed; /* connections that it is to begin, the oldest first. The places' lock */
    uint32_t load; /* what it has to do, about. The places' lock */
    _Atomic int has_ends; /* a queue of it `ends` */
    uint64_t now, woke; /* ms; when it had its last turn, by the system's clock */
    uint32_t unread; /* turns, until all that hosts have sent is read, and they are judged */
    uint64_t turns;
    int again; /* a queue has more to send */
    uint64_t ends_at; /* the target ends: what was begun has until then; 0: it does not end */
    struct queue *queues; /* the newest first */
    uint32_t queue_count;
    int sweep; /* a queue was closed, and is to be freed */
    uint64_t looked; /* when times were last looked at */
    int told_failure; /* the store has failed, and hosts were told */
};

struct target {
    struct options options;
    struct store store;
    struct identity identity;
    int listener; /* the first loop's, as `rests_until` */
    uint64_t rests_until; /* the listener, as there is no descriptor left; 0: it does not */
    unsigned port;
    _Atomic int ends; /* it takes no connections and no commands from now on */
    _Atomic int is_broken; /* a loop could not go on */
    _Atomic int told_spent; /* a loop has given all numbers of streams, and it was said */
    struct places places;
    struct controllers controllers;
    struct errors errors;
    struct loop loops[MOST_LOOPS]; /* as many as the options say */
};

/* loops.c: makes a target that is not reached yet. Returns whether it could, and has said why not. */
int target_open(struct target *target, const struct options *options);

/* Begins the loops' threads, but for the first loop; and has the target listen. Return whether they could, and have said why not. */
int target_begin(struct target *target);
int target_listen(struct target *target);

/* Goes on until the target ends, as it was told to or as a loop cannot go on: all its threads have ended then. */
void target_run(struct target *target);

/* Has the target end: it takes no connections and no commands, and what was begun has as long as a host has to take what is sent to
 * it. A signal may call it. */
void target_end(struct target *target);

/* Ends all connections, and closes the store, once no thread of a loop is left. Returns whether what was written is durable. */
int target_close(struct target *target);

/* loop.c: opens a loop of the target. Returns whether it could; else errno tells why not. */
int loop_open(struct loop *loop, struct target *target);

/* Waits for what happens next, at most `most_ms` (-1: for as long as it takes), and does what there is to do. Returns 0 if it
 * cannot go on, or has ended as the target does. */
int loop_turn(struct loop *loop, int most_ms);

/* The first loop takes what connects. Returns whether it could. */
int loop_watch_listener(struct loop *loop);

/* Has another loop look for what it is woken for. */
void loop_wake(struct loop *loop);

/* The target is closed: closes all queues, and frees those of which no worker has a command in at most `most_ms`. Returns whether
 * queues are left. */
int loop_drain(struct loop *loop, int most_ms);
void loop_close(struct loop *loop);

/* places.c: takes a place for a connection, and hands it to a loop: to that which has least to do, or to that of a connection
 * that gives way. Returns 0 if there is none. */
int place_take(struct queue *queue, uint32_t address);
uint32_t place_count(struct places *places); /* that are taken */
void place_enter(struct queue *queue, enum queue_state state); /* the queue comes from one state into another */
void place_rests(struct queue *queue); /* no worker has a command of a starting queue any more */
void place_leave(struct queue *queue);

/* say.c: a line if the options ask for such; a line on standard error. Neither waits for who reads it. */
void say(const struct target *target, const char *format, ...) __attribute__((format(printf, 2, 3)));
void complain(const char *format, ...) __attribute__((format(printf, 1, 2)));

/* What a peer sent as text of a line: all but visible characters by their numbers, as far as there is room. */
void escape(char *to, size_t room, const char *from);

/* queue.c */
struct queue *queue_new(struct target *target, int fd);
int queue_open(struct queue *queue); /* in its loop. Returns whether it could */
void queue_readable(struct queue *queue);
void queue_run(struct queue *queue); /* does all that can be done now */
int queue_is_starting(enum queue_state state);
void queue_finish(struct queue *queue); /* the target ends: closes it, or has it drain once all that was begun is answered */
void queue_enter(struct queue *queue, enum queue_state state);
void queue_close(struct queue *queue); /* its memory stays until queue_free */
void queue_end(struct queue *queue); /* of another loop, which closes it. With a lock by which it stays meanwhile */
void queue_free(struct queue *queue);

/* command.c */
void command_begin(struct command *command, size_t n); /* its capsule came: n octets */
void command_complete(struct command *command, uint16_t status);
void command_store(struct command *command, enum job_kind kind, uint64_t at, uint64_t n); /* has the store work on its data */
void command_stored(struct job *job); /* the store has */
void commands_drop(struct queue *queue); /* nobody wants what the store has not begun of the queue's commands */
void command_fetched(struct command *command); /* its Read is done */
void command_give_up(struct command *command); /* its Read never is: it goes with its queue, and is not run */
void command_keep(struct queue *queue, struct spare *spare); /* keeps a buffer for the queue's next commands */
void command_free_spares(struct queue *queue);
void command_hold(struct command *command); /* it may never be answered: the target's end does not wait for it */
void command_resume(struct command *command, uint64_t result); /* one that was held is answered */
void command_forget(struct command *command); /* one that was held is never answered */
void commands_go_on(struct queue *queue); /* starts and answers those that can be */
struct queue *queue_of_job(struct job *job);

/* health.c: errors of the store; what is wrong, as bits of the health log; and events that tell of it */
void health_note(struct target *target, const struct job *job);
struct errors health_errors(struct target *target); /* as they are now: without the lock */
uint8_t health_warnings(const struct target *target, const struct controller *controller);
void events_tell(struct controller *controller);
void events_drop(struct controller *controller); /* it is reset */
void run_async_event(struct command *command);

/* logs.c, features.c */
uint16_t check_log(struct command *command);
void run_log(struct command *command);
void features_reset(struct controller *controller);
uint16_t check_get_features(struct command *command);
void run_get_features(struct command *command);
void run_set_features(struct command *command);

/* Texts in fields of n octets, filled up with spaces, or with zeroes. */
void set_text(uint8_t *at, size_t n, const char *text);
void set_string(uint8_t *at, size_t n, const char *text);

/* fabrics.c, admin.c, io.c */
extern const struct operation fabrics_operations[], admin_operations[], discovery_operations[], io_operations[];
uint16_t no_data(struct command *command);
uint16_t invalid(uint16_t status);
void controller_close(struct controller *controller); /* in its loop */
void controller_leave(struct controller *controller, struct queue *queue); /* the queue is closed */
int controller_is_silent(struct controller *controller); /* for longer than it may be */
int controller_has_io(struct controller *controller);
int controller_grant(struct controller *controller, uint32_t io_queues); /* unless it has some. Returns whether it could */
void controller_keep_alive(struct controller *controller, uint32_t ms);

#endif
