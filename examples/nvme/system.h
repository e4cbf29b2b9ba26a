/* What these programs use of the system besides sockets. */
#ifndef SYSTEM_H
#define SYSTEM_H

#include "../c/sockets.h"

#include <fcntl.h>
#include <limits.h>
#include <malloc.h>
#include <netinet/tcp.h>
#include <pthread.h>
#include <sched.h>
#include <signal.h>
#include <stdarg.h>
#include <sys/eventfd.h>
#include <sys/file.h>
#include <sys/mman.h>
#include <sys/resource.h>
#include <sys/stat.h>
#include <sys/sysmacros.h>
#include <sys/uio.h>
#include <sys/xattr.h>

/* Has malloc keep what is freed, as octets of data come and go with each command: else the system clears pages anew each time. */
static inline void keep_memory(void) {
    enum { LONGEST = 4 << 20, KEPT = 32 << 20 };
    mallopt(M_MMAP_THRESHOLD, LONGEST);
    mallopt(M_TRIM_THRESHOLD, KEPT);
}

#endif
