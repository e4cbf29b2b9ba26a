/* The store's threads, and the lists from which they take jobs. */
#include "target.h"

/* ---- lists */

static void append(struct jobs *jobs, struct job *job) {
    job->next = 0;
    if (jobs->first)
        jobs->last->next = job;
    else
        jobs->first = job;
    jobs->last = job;
}

static void take_out(struct jobs *jobs, const struct job *job) {
    struct job *before = 0;
    for (struct job *it = jobs->first; it != job; it = it->next) before = it;
    if (before)
        before->next = job->next;
    else
        jobs->first = job->next;
    if (jobs->last == job) jobs->last = before;
}

/* Puts a lane into the ring as the last of all that have their turn. */
static void append_lane(struct store *store, struct lane *lane) {
    lane->next = 0;
    if (store->lanes)
        store->last_lane->next = lane;
    else
        store->lanes = lane;
    store->last_lane = lane;
}

static void take_lane_out(struct store *store, const struct lane *lane) {
    struct lane *before = 0;
    for (struct lane *it = store->lanes; it != lane; it = it->next) before = it;
    if (before)
        before->next = lane->next;
    else
        store->lanes = lane->next;
    if (store->last_lane == lane) store->last_lane = before;
}

/* ---- where jobs go. The mutex is held */

static void make_ready(struct store *store, struct job *job) {
    if (!job->lane->jobs.first) append_lane(store, job->lane);
    append(&job->lane->jobs, job);
    job->place = READY;
    pthread_cond_signal(&store->more);
}

static void make_unsynced(struct store *store, struct job *job) {
    append(&store->unsynced, job);
    job->place = UNSYNCED;
    pthread_cond_signal(&store->unsynced_more);
}

static void make_done(struct job *job) {
    struct finished *to = job->lane->finished;
    uint64_t one = 1;
    if (!to->jobs.first) (void)!write(to->told, &one, sizeof one);
    append(&to->jobs, job);
    job->place = DONE;
}

/* ---- the threads */

/* A store that has failed is only read. */
static int is_refused(const struct store *store, struct job *job) {
    job->status = STATUS_WRITE_FAULT;
    return store->failed && job->kind != JOB_READ;
}

/* Whether a job has to wait until what was written is on the medium: a Read before it is done, others after. */
static int is_to_be_synced(const struct store *store, const struct job *job) {
    int asks = job->kind == JOB_FLUSH || (job->kind != JOB_DEALLOCATE && job->durable);
    return !store->ram && asks && !job->is_synced;
}

/* Does a job, or a part of it. Returns whether there is no more to do but to make it durable. */
static int work_on(struct store *store, struct job *job) {
    if (is_refused(store, job)) return 1;
    job->status = STATUS_SUCCESS;
    if (job->kind == JOB_READ && is_to_be_synced(store, job)) return 1;
    return medium_work(store, job);
}

/* The job for a worker: the oldest of the lane whose turn it is, and then of the next. Returns null once there is none, and the
 * store ends. */
static struct job *take_ready(struct store *store) {
    while (!store->lanes && !store->ends) pthread_cond_wait(&store->more, &store->mutex);
    struct lane *lane = store->lanes;
    if (!lane) return 0;
    struct job *job = lane->jobs.first;
    take_out(&lane->jobs, job);
    take_lane_out(store, lane);
    if (lane->jobs.first) append_lane(store, lane);
    job->place = TAKEN;
    return job;
}

static void *work(void *given) {
    struct store *store = given;
    pthread_mutex_lock(&store->mutex);
    for (struct job *job; (job = take_ready(store));) {
        pthread_mutex_unlock(&store->mutex);
        int is_over = work_on(store, job);
        pthread_mutex_lock(&store->mutex);
        if (!is_over && !job->is_dropped)
            make_ready(store, job);
        else if (job->kind == JOB_READ && is_to_be_synced(store, job))
            make_unsynced(store, job);
        else
            make_done(job);
    }
    store->workers--;
    pthread_cond_signal(&store->unsynced_more);
    pthread_cond_signal(&store->ended);
    pthread_mutex_unlock(&store->mutex);
    return 0;
}

/* The system tells of an error once, and perhaps for what another host has written: the store has failed then, for all. */
static void sync_file(struct store *store) {
    int error = 0;
    if (store->ram || store->read_only || store->failed) return;
    do error = fdatasync(store->fd) == 0 ? 0 : errno;
    while (error == EINTR);
    if (error == 0) return;
    complain("the store has failed, and is only read from now on: %s", strerror(error));
    store->failed = 1;
}

/* All jobs that wait to be durable: none once the workers have ended, and there are none. */
static struct jobs take_unsynced(struct store *store) {
    while (!store->unsynced.first && !(store->ends && store->workers == 0)) pthread_cond_wait(&store->unsynced_more, &store->mutex);
    struct jobs all = store->unsynced;
    store->unsynced = (struct jobs){0};
    for (struct job *it = all.first; it; it = it->next) it->place = TAKEN;
    return all;
}

static void end_sync(struct store *store, struct job *job) {
    uint16_t fault = job->kind == JOB_READ ? STATUS_UNRECOVERED_READ : STATUS_WRITE_FAULT;
    job->status = store->failed ? fault : STATUS_SUCCESS;
    job->is_synced = 1;
    if (job->kind == JOB_READ && !store->failed && !job->is_dropped)
        make_ready(store, job);
    else
        make_done(job);
}

/* Makes durable what was written. One call of the system serves all jobs that wait when it begins, and no worker waits for it. */
static void *sync_jobs(void *given) {
    struct store *store = given;
    pthread_mutex_lock(&store->mutex);
    for (struct jobs jobs; jobs = take_unsynced(store), jobs.first;) {
        pthread_mutex_unlock(&store->mutex);
        sync_file(store);
        pthread_mutex_lock(&store->mutex);
        for (struct job *it = jobs.first, *next; it; it = next) {
            next = it->next;
            end_sync(store, it);
        }
    }
    pthread_mutex_unlock(&store->mutex);
    sync_file(store);
    pthread_mutex_lock(&store->mutex);
    store->syncs = 0;
    pthread_cond_signal(&store->ended);
    pthread_mutex_unlock(&store->mutex);
    return 0;
}

/* ---- the loops' side */

/* Whether the job was done at once, as it takes no time that others would have to wait for. */
static int is_done_at_once(struct store *store, struct job *job) {
    int transfers = job->kind == JOB_READ || job->kind == JOB_WRITE;
    if (store->ram) return transfers && medium_work(store, job);
    return job->kind == JOB_READ && !job->durable && medium_read_cached(store, job);
}

static int begin_flush(struct store *store, struct job *job) {
    job->status = STATUS_SUCCESS;
    if (store->ram) return 1;
    pthread_mutex_lock(&store->mutex);
    make_unsynced(store, job);
    pthread_mutex_unlock(&store->mutex);
    return 0;
}

/* The job waits for no other: a worker may have it, unless its loop has dropped it meanwhile, and is about to take it out. */
static void may_be_done(void *given, struct job *job) {
    struct store *store = given;
    pthread_mutex_lock(&store->mutex);
    if (job->place == BEHIND_OTHERS) make_ready(store, job);
    pthread_mutex_unlock(&store->mutex);
}

static void leave(struct store *store, struct job *job) {
    if (job->is_ordered) order_leave(&store->order, job, may_be_done, store);
    job->is_ordered = 0;
}

/* The job waits for none: it is done at once, or a worker may have it. */
static int begin_first(struct store *store, struct job *job) {
    if (!is_done_at_once(store, job)) {
        may_be_done(store, job);
        return 0;
    }
    leave(store, job);
    job->place = WITH_OWNER;
    return 1;
}

int store_begin(struct store *store, struct job *job) {
    job->is_dropped = job->is_synced = 0;
    job->part = 0;
    job->done = 0;
    if (is_refused(store, job)) return 1;
    if (job->kind == JOB_FLUSH) return begin_flush(store, job);
    job->place = BEHIND_OTHERS;
    job->is_ordered = 1;
    switch (order_enter(&store->order, job)) {
    case ENTRY_FIRST:
        return begin_first(store, job);
    case ENTRY_BEHIND:
        return 0;
    case ENTRY_CUT:
        break;
    }
    job->is_ordered = 0;
    job->place = WITH_OWNER;
    job->status = STATUS_QUEUE_DELETED;
    return 1;
}

int store_drop(struct store *store, struct job *job) {
    pthread_mutex_lock(&store->mutex);
    int is_out = job->place == BEHIND_OTHERS || job->place == READY || job->place == UNSYNCED;
    if (job->place == READY) take_out(&job->lane->jobs, job);
    if (job->place == READY && !job->lane->jobs.first) take_lane_out(store, job->lane);
    if (job->place == UNSYNCED) take_out(&store->unsynced, job);
    if (is_out) job->place = WITH_OWNER;
    job->is_dropped = 1;
    pthread_mutex_unlock(&store->mutex);
    if (is_out) leave(store, job);
    return is_out;
}

/* What was written, and is to be durable, waits for that now. Returns whether it was so. */
static int is_made_unsynced(struct store *store, struct job *job) {
    pthread_mutex_lock(&store->mutex);
    int is_unsynced = job->status == STATUS_SUCCESS && is_to_be_synced(store, job) && !job->is_dropped;
    job->place = WITH_OWNER;
    if (is_unsynced) make_unsynced(store, job);
    pthread_mutex_unlock(&store->mutex);
    return is_unsynced;
}

/* Jobs leave the order here, so that those that waited for them are answered later. */
struct job *store_done(struct store *store, struct finished *finished) {
    struct jobs given = {0};
    pthread_mutex_lock(&store->mutex);
    struct jobs done = finished->jobs;
    finished->jobs = (struct jobs){0};
    pthread_mutex_unlock(&store->mutex);
    for (struct job *it = done.first, *next; it; it = next) {
        next = it->next;
        leave(store, it);
        if (!is_made_unsynced(store, it)) append(&given, it);
    }
    return given.first;
}

/* ---- beginning and end */

/* A block device is opened for itself alone, unless it is only read: so none is that is mounted, or part of another. */
static int open_alone(const char *path, int read_only) {
    struct stat facts;
    int flags = (read_only ? O_RDONLY : O_RDWR) | O_CLOEXEC;
    if (stat(path, &facts) == 0 && S_ISBLK(facts.st_mode) && !read_only) flags |= O_EXCL;
    return open(path, flags);
}

/* Opens the file, and locks it: against other targets, as a lock keeps nobody else off. Returns why it cannot, or null. */
static const char *open_file(struct store *store, const struct options *options) {
    store->read_only = options->read_only;
    store->fd = open_alone(options->file, store->read_only);
    if (store->fd < 0) return errno == EBUSY ? "it is in use: mounted, or a part of another device" : strerror(errno);
    if (flock(store->fd, (store->read_only ? LOCK_SH : LOCK_EX) | LOCK_NB) != 0)
        return errno == EWOULDBLOCK ? "another target has it" : strerror(errno);
    off_t n = lseek(store->fd, 0, SEEK_END);
    if (n < 0) return strerror(errno);
    store->blocks = (uint64_t)n >> LBA_SHIFT;
    return store->blocks > 0 ? 0 : "it has less than a block of 512 octets";
}

static const char *take_memory(struct store *store, const struct options *options) {
    store->ram = calloc(options->ram_mib, MIB);
    store->blocks = options->ram_mib * (MIB >> LBA_SHIFT);
    return store->ram ? 0 : strerror(errno);
}

static void make_conditions(struct store *store) {
    pthread_condattr_t steady;
    pthread_condattr_init(&steady);
    pthread_condattr_setclock(&steady, CLOCK_MONOTONIC);
    pthread_mutex_init(&store->mutex, 0);
    pthread_cond_init(&store->more, 0);
    pthread_cond_init(&store->unsynced_more, 0);
    pthread_cond_init(&store->ended, &steady);
    pthread_condattr_destroy(&steady);
}

/* Counts a thread before it is there, as it may end at once. */
static int begin_thread(struct store *store, void *(*run)(void *), int *goes_on) {
    pthread_mutex_lock(&store->mutex);
    ++*goes_on;
    pthread_mutex_unlock(&store->mutex);
    if (pthread_create(&store->threads[store->thread_count], 0, run, store) != 0) return 0;
    store->thread_count++;
    return 1;
}

const char *store_open(struct store *store, const struct options *options) {
    memset(store, 0, sizeof *store);
    store->fd = -1;
    make_conditions(store);
    order_open(&store->order);
    const char *why = options->file ? open_file(store, options) : take_memory(store, options);
    if (why) return why;
    if (!begin_thread(store, sync_jobs, &store->syncs)) return "no thread";
    for (unsigned i = 0; i < options->workers; i++)
        if (!begin_thread(store, work, &store->workers)) return "no thread";
    return 0;
}

/* Waits until all threads have ended, but no longer than that. Returns whether they have. */
static int await_threads(struct store *store, uint64_t most_ms) {
    enum { SECOND_MS = 1000, MS = 1000000 };
    uint64_t at = now_ms() + most_ms;
    struct timespec until = {.tv_sec = (time_t)(at / SECOND_MS), .tv_nsec = (long)(at % SECOND_MS) * MS};
    pthread_mutex_lock(&store->mutex);
    store->ends = 1;
    pthread_cond_broadcast(&store->more);
    pthread_cond_broadcast(&store->unsynced_more);
    while (store->workers + store->syncs > 0 && pthread_cond_timedwait(&store->ended, &store->mutex, &until) == 0) {
    }
    int have = store->workers + store->syncs == 0;
    pthread_mutex_unlock(&store->mutex);
    return have;
}

int store_close(struct store *store, uint64_t most_ms) {
    if (!await_threads(store, most_ms)) {
        complain("the file takes too long: what was written last may not be durable");
        return 0;
    }
    for (int i = 0; i < store->thread_count; i++) pthread_join(store->threads[i], 0);
    if (!store->ram) close(store->fd);
    free(store->ram);
    return 1;
}
