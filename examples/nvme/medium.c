/* The medium: what the store does to memory, or to a file or block device. */
#include "target.h"

enum { ZEROES = 65536, PIECE = MIB, HOLE = 256 * MIB }; /* octets that are cleared in one go; that are given back */
enum { SLICE_MS = 2 }; /* that a worker clears octets of one job, before it looks for others */

uint64_t now_ms(void) {
    struct timespec time;
    clock_gettime(CLOCK_MONOTONIC, &time);
    return (uint64_t)time.tv_sec * 1000 + (uint64_t)time.tv_nsec / 1000000;
}

/* What is wrong, as a command's status. */
static uint16_t status_of(int error, uint16_t otherwise) {
    switch (error) {
    case ENOSPC:
    case EDQUOT:
        return STATUS_CAPACITY_EXCEEDED;
    case EROFS:
    case EBADF:
        return STATUS_WRITE_PROTECTED;
    default:
        return otherwise;
    }
}

static uint16_t read_file(const struct store *store, uint8_t *octets, uint64_t n, uint64_t at) {
    while (n > 0) {
        ssize_t got = pread(store->fd, octets, n, (off_t)at);
        if (got < 0 && errno == EINTR) continue;
        if (got <= 0) return STATUS_UNRECOVERED_READ; /* 0: the file was cut short */
        octets += got;
        at += (uint64_t)got;
        n -= (uint64_t)got;
    }
    return STATUS_SUCCESS;
}

static uint16_t write_file(const struct store *store, const uint8_t *octets, uint64_t n, uint64_t at) {
    while (n > 0) {
        ssize_t put = pwrite(store->fd, octets, n, (off_t)at);
        if (put < 0 && errno == EINTR) continue;
        if (put <= 0) return status_of(errno, STATUS_WRITE_FAULT);
        octets += put;
        at += (uint64_t)put;
        n -= (uint64_t)put;
    }
    return STATUS_SUCCESS;
}

static uint16_t zero_file(const struct store *store, uint64_t at, uint64_t n) {
    static const uint8_t zeroes[ZEROES];
    if (fallocate(store->fd, FALLOC_FL_ZERO_RANGE | FALLOC_FL_KEEP_SIZE, (off_t)at, (off_t)n) == 0) return STATUS_SUCCESS;
    int cannot = errno == EOPNOTSUPP || errno == EINVAL || errno == ENOSYS || errno == EINTR;
    if (!cannot) return status_of(errno, STATUS_WRITE_FAULT);
    while (n > 0) {
        uint64_t part = n < ZEROES ? n : ZEROES;
        uint16_t status = write_file(store, zeroes, part, at);
        if (status != STATUS_SUCCESS) return status;
        at += part;
        n -= part;
    }
    return STATUS_SUCCESS;
}

/* Gives whole pages of memory back to the system, which has zeroes for them, and clears the others. */
static void give_back(uint8_t *at, uint64_t n) {
    size_t page = PAGE_OCTETS, before = (page - (uintptr_t)at % page) % page, within = n < before ? 0 : (n - before) / page * page;
    if (within == 0 || madvise(at + before, within, MADV_DONTNEED) != 0) before = n, within = 0;
    memset(at, 0, before);
    memset(at + before + within, 0, n - before - within);
}

/* Clears octets of a Write Zeroes, or gives those of a deallocation back. A file system that cannot leaves these as they are, which
 * is allowed. */
static uint16_t clear(const struct store *store, const struct job *job, uint64_t at, uint64_t n) {
    if (store->ram && job->kind == JOB_ZERO)
        memset(store->ram + at, 0, n);
    else if (store->ram)
        give_back(store->ram + at, n);
    else if (job->kind == JOB_ZERO)
        return zero_file(store, at, n);
    else
        (void)!fallocate(store->fd, FALLOC_FL_PUNCH_HOLE | FALLOC_FL_KEEP_SIZE, (off_t)at, (off_t)n);
    return STATUS_SUCCESS;
}

/* Clears as much as there is time for. Returns whether all is done, or it has failed. */
static int clear_some(const struct store *store, struct job *job) {
    uint64_t until = now_ms() + SLICE_MS, most = job->kind == JOB_ZERO ? PIECE : HOLE;
    while (job->part < job_spans(job)) {
        if (now_ms() >= until) return 0;
        struct span span = job_span(job, job->part);
        uint64_t at = span.at + job->done, n = span.end - at < most ? span.end - at : most;
        job->status = clear(store, job, at, n);
        if (job->status != STATUS_SUCCESS) return 1;
        job->done = at + n == span.end ? 0 : job->done + n;
        job->part += at + n == span.end;
    }
    return 1;
}

static uint16_t transfer(const struct store *store, struct job *job) {
    if (!store->ram && job->kind == JOB_READ) return read_file(store, job->octets, job->n, job->at);
    if (!store->ram) return write_file(store, job->octets, job->n, job->at);
    if (job->kind == JOB_READ)
        memcpy(job->octets, store->ram + job->at, job->n);
    else
        memcpy(store->ram + job->at, job->octets, job->n);
    return STATUS_SUCCESS;
}

int medium_work(struct store *store, struct job *job) {
    job->status = STATUS_SUCCESS;
    switch (job->kind) {
    case JOB_READ:
    case JOB_WRITE:
        job->status = transfer(store, job);
        return 1;
    case JOB_ZERO:
    case JOB_DEALLOCATE:
        return clear_some(store, job);
    case JOB_FLUSH:
        break;
    }
    return 1;
}

int medium_read_cached(const struct store *store, struct job *job) {
    struct iovec part = {job->octets, job->n};
    job->status = STATUS_SUCCESS;
    return preadv2(store->fd, &part, 1, (off_t)job->at, RWF_NOWAIT) == (ssize_t)job->n;
}
