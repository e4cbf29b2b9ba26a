/* Preloaded before the stand-in, it has one of STARVED_ONE_OF allocations that the stand-in asks for fail, once STARVED_AFTER of them have
 * not. */
#define _GNU_SOURCE
#include <dlfcn.h>
#include <errno.h>
#include <link.h>
#include <stdatomic.h>
#include <stdint.h>
#include <stdio.h>
#include <stdlib.h>
#include <string.h>

void *__libc_malloc(size_t n);
void *__libc_calloc(size_t n, size_t size);
void *__libc_realloc(void *at, size_t n);

static uintptr_t from, to;
static unsigned one_of, after;
static atomic_uint asked, refused;

/* Where the stand-in's code is. */
static int find(struct dl_phdr_info *info, size_t size, void *own) {
    (void)size;
    (void)own;
    if (!strstr(info->dlpi_name, "libiwarp-verbs.so")) return 0;
    for (int i = 0; i < info->dlpi_phnum; i++) {
        const ElfW(Phdr) *part = &info->dlpi_phdr[i];
        if (part->p_type != PT_LOAD || !(part->p_flags & PF_X)) continue;
        from = info->dlpi_addr + part->p_vaddr;
        to = from + part->p_memsz;
    }
    return 1;
}

__attribute__((constructor)) static void begin(void) {
    const char *none = getenv("STARVED_AFTER"), *of = getenv("STARVED_ONE_OF");
    dl_iterate_phdr(find, NULL);
    after = none ? (unsigned)atoi(none) : 0;
    one_of = of ? (unsigned)atoi(of) : 0;
}

static int fails(const void *caller) {
    if (!one_of || (uintptr_t)caller < from || (uintptr_t)caller >= to) return 0;
    unsigned before = atomic_fetch_add(&asked, 1);
    if (before < after || before % one_of) return 0;
    atomic_fetch_add(&refused, 1);
    errno = ENOMEM;
    return 1;
}

void *malloc(size_t n) {
    return fails(__builtin_return_address(0)) ? NULL : __libc_malloc(n);
}

void *calloc(size_t n, size_t size) {
    return fails(__builtin_return_address(0)) ? NULL : __libc_calloc(n, size);
}

void *realloc(void *at, size_t n) {
    return fails(__builtin_return_address(0)) ? NULL : __libc_realloc(at, n);
}

__attribute__((destructor)) static void end(void) {
    dprintf(2, "%u of %u allocations were refused\n", atomic_load(&refused), atomic_load(&asked));
}
