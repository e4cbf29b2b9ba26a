/* Calls of the target that fail, and counts of others. The linker has the target's calls come here (--wrap). */
#include "luck.h"

struct luck luck;
_Thread_local struct lucky_turn lucky_turn;
static _Atomic uint32_t calls;

/* A number that each call changes. */
static uint32_t next_number(void) {
    uint64_t number = (calls++ + 1) * 0x9e3779b97f4a7c15u;
    number = (number ^ number >> 31) * 0xbf58476d1ce4e5b9u;
    return (uint32_t)(number >> 32);
}

static int is_unlucky(uint32_t one_in) {
    return one_in && next_number() % one_in == 0;
}

static int is_refused(size_t n) {
    enum { MORE = 64 }; /* octets that an allocation may add */
    size_t refused = luck.refused;
    if (!lucky_turn.goes_on) return 0;
    return is_unlucky(luck.memory_fails) || (refused && n >= refused && n <= refused + MORE);
}

void *__real_malloc(size_t n);
void *__real_calloc(size_t count, size_t n);
void *__real_realloc(void *block, size_t n);
ssize_t __real_pread(int fd, void *octets, size_t n, off_t at);
ssize_t __real_pwrite(int fd, const void *octets, size_t n, off_t at);
ssize_t __real_send(int fd, const void *octets, size_t n, int flags);
int __real_accept4(int fd, struct sockaddr *address, socklen_t *n, int flags);
int __real_pthread_cond_wait(pthread_cond_t *condition, pthread_mutex_t *mutex);
int32_t __real_iwarp_open_next(struct iwarp *handle, uint32_t pd, uint32_t role, uint32_t options, const uint8_t *data, size_t n,
                               uint32_t *stream);
int __real_fdatasync(int fd);
int __real_fallocate(int fd, int mode, off_t at, off_t n);

void *__wrap_malloc(size_t n) {
    return is_refused(n) ? 0 : __real_malloc(n);
}

void *__wrap_calloc(size_t count, size_t n) {
    return is_refused(count * n) ? 0 : __real_calloc(count, n);
}

void *__wrap_realloc(void *block, size_t n) {
    return is_refused(n) ? 0 : __real_realloc(block, n);
}

ssize_t __wrap_pread(int fd, void *octets, size_t n, off_t at) {
    if (!is_unlucky(luck.store_fails)) return __real_pread(fd, octets, n, at);
    errno = EIO;
    return -1;
}

/* What fails may be a part: whole blocks. */
ssize_t __wrap_pwrite(int fd, const void *octets, size_t n, off_t at) {
    enum { BLOCK = 512 };
    if (!is_unlucky(luck.store_fails)) return __real_pwrite(fd, octets, n, at);
    if (n > BLOCK && next_number() % 2) return __real_pwrite(fd, octets, BLOCK, at);
    errno = next_number() % 2 ? ENOSPC : EIO;
    return -1;
}

int __wrap_fdatasync(int fd) {
    luck.syncs++;
    if (luck.sync_us) usleep(luck.sync_us);
    if (!is_unlucky(luck.sync_fails)) return __real_fdatasync(fd);
    luck.sync_failed = 1;
    errno = EIO;
    return -1;
}

/* A file system that cannot clear a range, now and then. */
int __wrap_fallocate(int fd, int mode, off_t at, off_t n) {
    if (next_number() % 2) return __real_fallocate(fd, mode, at, n);
    errno = next_number() % 2 ? EINVAL : EOPNOTSUPP;
    return -1;
}

ssize_t __wrap_send(int fd, const void *octets, size_t n, int flags) {
    ssize_t went = __real_send(fd, octets, n, flags);
    if (lucky_turn.goes_on && went > 0) lucky_turn.sent += (size_t)went;
    return went;
}

int __wrap_accept4(int fd, struct sockaddr *address, socklen_t *n, int flags) {
    int accepted = __real_accept4(fd, address, n, flags);
    lucky_turn.accepted += lucky_turn.goes_on && accepted >= 0;
    return accepted;
}

/* Now and then a thread that was woken sleeps on, and others come before it. */
int __wrap_pthread_cond_wait(pthread_cond_t *condition, pthread_mutex_t *mutex) {
    enum { MOST_US = 3000 };
    int status = __real_pthread_cond_wait(condition, mutex);
    if (!luck.are_lazy || next_number() % 4 > 0) return status;
    pthread_mutex_unlock(mutex);
    usleep(next_number() % MOST_US);
    pthread_mutex_lock(mutex);
    return status;
}

int32_t __wrap_iwarp_open_next(struct iwarp *handle, uint32_t pd, uint32_t role, uint32_t options, const uint8_t *data, size_t n,
                               uint32_t *stream) {
    if (lucky_turn.goes_on && luck.spent) return IWARP_NUMBERS_SPENT;
    return __real_iwarp_open_next(handle, pd, role, options, data, n, stream);
}
