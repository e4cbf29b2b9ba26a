/* Memory that is refused at random, for a program that is linked with -Wl,--wrap=malloc,--wrap=calloc,--wrap=realloc: behind the
 * first SPARED requests of each thread, by which it begins, one in ODDS is refused. */
#include <stddef.h>
#include <stdint.h>

enum { SPARED = 50, ODDS = 40 };

static int refuses(void) {
    static _Thread_local uint64_t state = 1;
    static _Thread_local unsigned long requests;
    state ^= state << 13;
    state ^= state >> 7;
    state ^= state << 17;
    return ++requests > SPARED && (state >> 16) % ODDS == 0;
}

void *__real_malloc(size_t n);
void *__real_calloc(size_t count, size_t n);
void *__real_realloc(void *at, size_t n);
void *__wrap_malloc(size_t n);
void *__wrap_calloc(size_t count, size_t n);
void *__wrap_realloc(void *at, size_t n);

void *__wrap_malloc(size_t n) { return refuses() ? 0 : __real_malloc(n); }

void *__wrap_calloc(size_t count, size_t n) { return refuses() ? 0 : __real_calloc(count, n); }

void *__wrap_realloc(void *at, size_t n) { return refuses() ? 0 : __real_realloc(at, n); }
