/* Stream numbers that are spent after SERVED streams of each thread, and memory after HANDLES handles, for a program that is linked
 * with -Wl,--wrap=iwarp_open_next,--wrap=iwarp_new. */
#include "../../include/iwarp.h"

enum { SERVED = 3, HANDLES = 60 };

int32_t __real_iwarp_new(struct iwarp *handle);
int32_t __wrap_iwarp_new(struct iwarp *handle);

int32_t __wrap_iwarp_new(struct iwarp *handle) {
    static int made;
    return made++ < HANDLES ? __real_iwarp_new(handle) : IWARP_NO_MEMORY;
}

int32_t __real_iwarp_open_next(struct iwarp *handle, uint32_t pd, uint32_t role, uint32_t options, const uint8_t *private_data,
                               size_t n, uint32_t *stream);
int32_t __wrap_iwarp_open_next(struct iwarp *handle, uint32_t pd, uint32_t role, uint32_t options, const uint8_t *private_data,
                               size_t n, uint32_t *stream);

int32_t __wrap_iwarp_open_next(struct iwarp *handle, uint32_t pd, uint32_t role, uint32_t options, const uint8_t *private_data,
                               size_t n, uint32_t *stream) {
    static _Thread_local int opened;
    if (opened == SERVED) return IWARP_NUMBERS_SPENT;
    opened++;
    return __real_iwarp_open_next(handle, pd, role, options, private_data, n, stream);
}
