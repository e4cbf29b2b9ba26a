/* The store: octets in memory or in a file, and jobs on them. A job that changes octets which another is about waits for it, or has
 * it wait: the one that came first is done first. Workers do what need not wait; of those the connections have their turns. Loops
 * share the store: each calls it for jobs of its own. */
#ifndef STORE_H
#define STORE_H

#include "nvme.h"

enum { MIB = 1 << 20, LBA_OCTETS = 512, LBA_SHIFT = 9, MOST_WORKERS = 64 };

enum job_kind { JOB_READ, JOB_WRITE, JOB_FLUSH, JOB_ZERO, JOB_DEALLOCATE };

/* Where a job is: with who asks for it; behind those that it waits for; among those of its lane that may be done; among those that
 * wait to be durable; with a thread that works on it; among those that are done. */
enum job_place { WITH_OWNER, BEHIND_OTHERS, READY, UNSYNCED, TAKEN, DONE };

/* Octets of the store, from `at` to before `end`. */
struct span {
    uint64_t at, end;
};

/* The oldest first. */
struct jobs {
    struct job *first, *last;
};

/* Jobs of a loop's connections that are done. The store's mutex. */
struct finished {
    struct jobs jobs;
    int told; /* an eventfd: there are some */
};

/* The jobs of a connection that may be done. */
struct lane {
    struct lane *next; /* in the ring of those that have jobs */
    struct jobs jobs;
    struct finished *finished; /* where they go once they are done */
    int is_cut; /* no job of it is begun any more. The order's locks */
};

/* What the store is to do: at most one thing at a time for a command. */
struct job {
    struct job *next; /* in a lane, among the unsynced, or the done */
    struct lane *lane;
    enum job_kind kind;
    uint64_t at, n; /* octets of the store; JOB_DEALLOCATE: from the first span's to the last's */
    uint8_t *octets; /* JOB_READ fills them, JOB_WRITE writes them; JOB_DEALLOCATE: spans in order, none touches another */
    uint32_t spans; /* of JOB_DEALLOCATE */
    int durable; /* JOB_WRITE, JOB_ZERO: done once it is on the medium (FUA); JOB_READ: what it reads is */
    uint16_t status;
    enum job_place place;
    int is_dropped; /* nobody wants it: it ends with what is done of it */
    int is_synced; /* a durable JOB_READ: what it reads is on the medium */
    uint32_t part; /* spans that are done; and octets of the next */
    uint64_t done;
    int is_ordered; /* it is in the order */
    uint64_t number; /* above that of each before it that is about the same octets. The order's locks, as all that follows */
    uint32_t waits_for; /* so many that came before */
    int is_awaited; /* some that came behind may wait for it */
    struct job *behind, **link; /* in the order */
};

enum { ORDER_LISTS = 4096, ORDER_LOCKS = 32, CACHE_LINE = 64 };

struct order_lock {
    _Alignas(CACHE_LINE) pthread_mutex_t mutex;
};

/* Jobs that are not over, so that each new one is compared with those near it alone. Loops share it by ranges: who looks at a
 * list or changes it has its lock, and who changes `wide`, or cuts a lane, has all. */
struct order {
    struct order_lock locks[ORDER_LOCKS];
    _Alignas(CACHE_LINE) struct job *narrow[ORDER_LISTS]; /* of at most one MiB, by that in which they begin */
    struct job *wide;
};

/* How a job comes into the order: not, as its lane is cut; with none before it that it has to wait for; behind some. */
enum entry { ENTRY_CUT, ENTRY_FIRST, ENTRY_BEHIND };

void order_open(struct order *order);
enum entry order_enter(struct order *order, struct job *job);

/* Takes a job out of the order: each job that waited for it, and for no other, comes to `may`, with locks held. */
void order_leave(struct order *order, struct job *job, void (*may)(void *with, struct job *job), void *with);

/* No job of the lane is begun from now on: what it has in the order is done before all that comes later, or never. */
void order_cut(struct order *order, struct lane *lane);

/* How many spans a job has, and each of them. */
uint32_t job_spans(const struct job *job);
struct span job_span(const struct job *job, uint32_t i);

struct store {
    uint64_t blocks;
    uint8_t *ram; /* the octets, or null if there is a file */
    int fd, read_only;
    _Atomic int failed; /* what was written may be lost */
    struct order order;
    pthread_mutex_t mutex; /* of all that follows, of lanes and of jobs' places */
    pthread_cond_t more, unsynced_more, ended; /* a job may be done; is to be made durable, or no worker is left; a thread ended */
    struct lane *lanes, *last_lane; /* a ring: those that have jobs, the next first */
    struct jobs unsynced;
    int ends; /* no more jobs come */
    pthread_t threads[1 + MOST_WORKERS]; /* the first makes durable, the others are workers */
    int thread_count, workers; /* that were begun; workers that go on */
    int syncs; /* the first goes on */
};

struct options;

/* Opens the file or block device that the options name, or takes memory if they name none, and starts workers. Returns why it
 * cannot, or null. */
const char *store_open(struct store *store, const struct options *options);

/* Has threads finish what they are at, makes it durable, and closes, in at most so many milliseconds. Returns 0 if a thread is
 * late: it goes on, and the process has to end. Else `failed` tells whether all that was answered with success is durable. */
int store_close(struct store *store, uint64_t most_ms);

/* Begins a job of a lane. Returns 1 if it is done; else a worker does it, and store_done gives it back. */
int store_begin(struct store *store, struct job *job);

/* Nobody wants a job that was begun. Returns 1 if it is out of the store; else a thread works on it, and store_done gives it
 * back. */
int store_drop(struct store *store, struct job *job);

/* The jobs that are done since, as a list, in the order in which they were. */
struct job *store_done(struct store *store, struct finished *finished);

/* medium.c: does a job, or a part of it that takes a few milliseconds. Returns whether the job is done, and sets its status. */
int medium_work(struct store *store, struct job *job);

/* Reads what a job asks for if it is at hand, without waiting. Returns whether it was. */
int medium_read_cached(const struct store *store, struct job *job);

/* Milliseconds, by a clock that goes on. */
uint64_t now_ms(void);

#endif
