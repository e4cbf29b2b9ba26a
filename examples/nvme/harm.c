/* Harm to a target's calls: a library for LD_PRELOAD. The file that HARM names has lines `WHAT NUMBER`, and is read at each call:
 *
 *     write_us N       a write or a clearing takes so many microseconds more
 *     sync_us N        fdatasync does
 *     sync_fails 1     fdatasync fails
 *     interrupts N     each fdatasync is interrupted so often before it is done
 *     uncached 1       nothing is in the system's cache
 *     unclear 1        no range can be cleared at once
 *     plain 1          files have no attributes
 *     threads N        no more than so many threads can be had
 *     snapshot 1       once fdatasync is done, HARM.disk has what it covered
 *
 * HARM.syncs gets an octet for each fdatasync that was done. */
#define _GNU_SOURCE
#include <dlfcn.h>
#include <errno.h>
#include <fcntl.h>
#include <pthread.h>
#include <stdio.h>
#include <stdlib.h>
#include <string.h>
#include <sys/stat.h>
#include <sys/uio.h>
#include <sys/xattr.h>
#include <unistd.h>

static pthread_rwlock_t changes = PTHREAD_RWLOCK_INITIALIZER; /* no snapshot is taken in the middle of one */

/* The number behind a word, or 0. */
static long harm(const char *what) {
    char text[512] = "";
    const char *path = getenv("HARM");
    int fd = path ? open(path, O_RDONLY | O_CLOEXEC) : -1;
    if (fd < 0) return 0;
    ssize_t n = read(fd, text, sizeof text - 1);
    close(fd);
    const char *at = n > 0 ? strstr(text, what) : 0;
    return at ? strtol(at + strlen(what), 0, 10) : 0;
}

static void wait_us(long us) {
    if (us > 0) usleep((useconds_t)us);
}

/* The system's own call. */
#define REAL(name, type) ((type)dlsym(RTLD_NEXT, name))

typedef ssize_t writes(int fd, const void *octets, size_t n, off_t at);
typedef ssize_t reads(int fd, const struct iovec *parts, int count, off_t at, int flags);
typedef int syncs(int fd);
typedef int clears(int fd, int mode, off_t at, off_t n);
typedef int sets(int fd, const char *name, const void *value, size_t n, int flags);
typedef int creates(pthread_t *thread, const pthread_attr_t *attributes, void *(*run)(void *), void *with);
typedef ssize_t gets(int fd, const char *name, void *value, size_t n);

ssize_t pwrite(int fd, const void *octets, size_t n, off_t at) {
    wait_us(harm("write_us"));
    pthread_rwlock_rdlock(&changes);
    ssize_t put = REAL("pwrite", writes *)(fd, octets, n, at);
    pthread_rwlock_unlock(&changes);
    return put;
}

int fallocate(int fd, int mode, off_t at, off_t n) {
    errno = EOPNOTSUPP;
    if (harm("unclear")) return -1;
    wait_us(harm("write_us"));
    pthread_rwlock_rdlock(&changes);
    int status = REAL("fallocate", clears *)(fd, mode, at, n);
    pthread_rwlock_unlock(&changes);
    return status;
}

ssize_t preadv2(int fd, const struct iovec *parts, int count, off_t at, int flags) {
    errno = EAGAIN;
    return harm("uncached") ? -1 : REAL("preadv2", reads *)(fd, parts, count, at, flags);
}

/* The path of a file beside that of HARM. */
static int open_beside(const char *name, int flags) {
    char path[4096];
    snprintf(path, sizeof path, "%s.%s", getenv("HARM"), name);
    return open(path, flags | O_WRONLY | O_CREAT | O_CLOEXEC, 0600);
}

static void copy(int fd) {
    static char octets[1 << 20];
    int to = open_beside("disk", O_TRUNC);
    off_t at = 0;
    for (ssize_t n; (n = pread(fd, octets, sizeof octets, at)) > 0; at += n)
        if (REAL("pwrite", writes *)(to, octets, (size_t)n, at) != n) abort();
    close(to);
}

int fdatasync(int fd) {
    static _Thread_local long interrupts;
    wait_us(harm("sync_us"));
    errno = EINTR;
    if (interrupts++ < harm("interrupts")) return -1;
    interrupts = 0;
    errno = EIO;
    if (harm("sync_fails")) return -1;
    pthread_rwlock_wrlock(&changes);
    int status = REAL("fdatasync", syncs *)(fd);
    if (status == 0 && harm("snapshot")) copy(fd);
    pthread_rwlock_unlock(&changes);
    int log = open_beside("syncs", O_APPEND);
    if (write(log, ".", 1) != 1) abort();
    close(log);
    return status;
}

int pthread_create(pthread_t *thread, const pthread_attr_t *attributes, void *(*run)(void *), void *with) {
    static long threads;
    long most = harm("threads");
    if (most > 0 && ++threads > most) return EAGAIN;
    return REAL("pthread_create", creates *)(thread, attributes, run, with);
}

int fsetxattr(int fd, const char *name, const void *value, size_t n, int flags) {
    errno = EOPNOTSUPP;
    return harm("plain") ? -1 : REAL("fsetxattr", sets *)(fd, name, value, n, flags);
}

ssize_t fgetxattr(int fd, const char *name, void *value, size_t n) {
    errno = EOPNOTSUPP;
    return harm("plain") ? -1 : REAL("fgetxattr", gets *)(fd, name, value, n);
}
