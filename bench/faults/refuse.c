// Put before the C library, it refuses one request for memory of a process, the one behind the next REFUSED, and then
// makes the file REFUSED_FILE.
#include <errno.h>
#include <fcntl.h>
#include <stdlib.h>
#include <unistd.h>

void *__libc_malloc(size_t);
void *__libc_realloc(void *, size_t);

static long left = -2;

static int refuses(void) {
    if (left == -2) {
        const char *count = getenv("REFUSED");
        left = count ? atol(count) : -1;
    }
    if (left < 0 || left-- > 0)
        return 0;
    int file = open(getenv("REFUSED_FILE"), O_WRONLY | O_CREAT, 0600);
    if (file >= 0)
        close(file);
    errno = ENOMEM;
    return 1;
}

void *malloc(size_t size) { return refuses() ? 0 : __libc_malloc(size); }

void *realloc(void *old, size_t size) { return refuses() ? 0 : __libc_realloc(old, size); }
