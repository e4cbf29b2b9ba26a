/* Lines of a program that serves, which neither stop nor end it: what standard output does not take is kept, and dropped and counted
 * where that is too much, in whole lines. One line then says how many. No function of stdio prints to standard output meanwhile.
 * Several threads may print: each makes a line of its own, and a line that has ended is put out whole. */
#ifndef LINES_H
#define LINES_H

#include "host.h"

#ifdef HAS_SYSTEM_HEADERS
#include <fcntl.h>
#include <signal.h>
#include <stdarg.h>
#else
typedef __builtin_va_list va_list;
#define va_start(list, last) __builtin_va_start(list, last)
#define va_end(list) __builtin_va_end(list)
#define SIG_IGN ((void (*)(int))1)
enum { O_WRONLY = 1, O_NOCTTY = 0400, O_NONBLOCK = 04000, O_CLOEXEC = 02000000, SEEK_CUR = 1, SIGINT = 2, SIGPIPE = 13, SIGTERM = 15 };
int open(const char *path, int flags, ...);
long lseek(int fd, long offset, int whence);
void (*signal(int number, void (*handler)(int)))(int);
int vsnprintf(char *text, size_t n, const char *format, va_list list);
int atexit(void (*function)(void));
#endif

enum {
    LONGEST_LINE = 16384,
    MOST_WAITING = 1 << 20, /* octets that wait for standard output */
    ONE_WRITE = 4096, /* as many as a pipe takes at once if it takes any */
    LAST_WAIT = 10 /* for so many seconds the program waits at its end for standard output to take the last lines */
};

static _Thread_local struct {
    char octets[LONGEST_LINE];
    size_t n; /* how many they are so far */
} line; /* the one that this thread makes */

static pthread_mutex_t printing = PTHREAD_MUTEX_INITIALIZER; /* whoever has it reads and writes what is below */

static struct {
    int fd;
    int may_wait; /* a write may wait, if it is not for ONE_WRITE octets once poll says that there is room */
    int quiet; /* nothing is printed: set once, at the beginning */
    char waiting[MOST_WAITING]; /* lines that are not taken yet, from `begin` to `end` */
    size_t begin, end;
    unsigned long dropped; /* how many lines were, of which no line has told yet */
} output = {.fd = 1};

/* Adds text to the line that is being made. What is past LONGEST_LINE is cut. */
static inline void __attribute__((format(printf, 1, 2))) add_text(const char *format, ...) {
    va_list list;
    size_t room = LONGEST_LINE - line.n;
    va_start(list, format);
    int n = vsnprintf(line.octets + line.n, room, format, list);
    va_end(list);
    if (n > 0) line.n += (size_t)n < room ? (size_t)n : room - 1;
}

/* Adds octets in hexadecimal, or `-` if there are none. */
static inline void add_octets(const uint8_t *from, size_t n) {
    static const char digits[] = "0123456789abcdef";
    if (output.quiet) return;
    if (n == 0) add_text("-");
    for (size_t i = 0; i < n && line.n + 2 < LONGEST_LINE; i++) {
        line.octets[line.n++] = digits[from[i] >> 4];
        line.octets[line.n++] = digits[from[i] & 15];
    }
}

/* Puts a line behind those that wait, if there is room for it. Returns whether there is. */
static inline int keep(const char *octets, size_t n) {
    size_t waiting = output.end - output.begin;
    if (output.begin > MOST_WAITING / 2) { /* what is moved is less than what was taken */
        memcpy(output.waiting, output.waiting + output.begin, waiting);
        output.begin = 0;
        output.end = waiting;
    }
    if (n + 1 > MOST_WAITING - output.end) return 0;
    memcpy(output.waiting + output.end, octets, n);
    output.end += n + 1;
    output.waiting[output.end - 1] = '\n';
    return 1;
}

/* Has standard output take some octets of those that wait. Returns whether it took any; if not, errno says why. */
static inline int put_some(void) {
    struct pollfd ready = {.fd = output.fd, .events = POLLOUT};
    size_t n = output.end - output.begin;
    errno = EAGAIN;
    if (n == 0 || (output.may_wait && poll(&ready, 1, 0) <= 0)) return 0;
    ssize_t taken = write(output.fd, output.waiting + output.begin, output.may_wait && n > ONE_WRITE ? ONE_WRITE : n);
    if (taken <= 0) return 0;
    output.begin += (size_t)taken;
    if (output.begin == output.end) output.begin = output.end = 0;
    return 1;
}

/* Has standard output take what it takes. Once that was most of it, tells how many lines were dropped. Returns whether it may take
 * more later. */
static inline int put_waiting(void) {
    char told[100];
    while (put_some()) {
    }
    int is_open = errno == EAGAIN || errno == EINTR;
    if (output.dropped == 0 || output.end - output.begin > MOST_WAITING / 4) return is_open;
    int n = snprintf(told, sizeof told, "%lu lines are left out here: standard output did not take them", output.dropped);
    if (keep(told, (size_t)n)) output.dropped = 0;
    return is_open;
}

/* The same. */
static inline int put_lines(void) {
    pthread_mutex_lock(&printing);
    int is_open = put_waiting();
    pthread_mutex_unlock(&printing);
    return is_open;
}

/* Ends the line that was made. If there is no room it is dropped, and so is each after it until most of those before were taken. */
static inline void end_line(void) {
    size_t n = line.n;
    line.n = 0;
    if (output.quiet) return;
    pthread_mutex_lock(&printing);
    int is_kept = output.dropped == 0 && keep(line.octets, n);
    if (!is_kept) {
        put_waiting();
        is_kept = output.dropped == 0 && keep(line.octets, n);
    }
    output.dropped += !is_kept;
    pthread_mutex_unlock(&printing);
}

/* Has standard output take the last lines, and tells at standard error how many it did not take. No thread prints meanwhile. */
static inline void end_lines(void) {
    pthread_mutex_lock(&printing);
    struct pollfd ready = {.fd = output.fd, .events = POLLOUT};
    int64_t until = seconds() + LAST_WAIT;
    while (put_waiting() && output.end > 0 && seconds() < until) poll(&ready, 1, 1000);
    for (size_t i = output.begin; i < output.end; i++) output.dropped += output.waiting[i] == '\n';
    if (output.dropped > 0) fprintf(stderr, "%lu lines were left out: standard output did not take them\n", output.dropped);
    pthread_mutex_unlock(&printing);
}

/* Call it first of all: from then on a reader that goes away does not end the program, and at its end it puts out the last lines.
 * Standard output is opened again, so that no write waits, as other programs may have the descriptor that was given; but for a file,
 * at which none waits. */
static inline void begin_lines(int quiet) {
    signal(SIGPIPE, SIG_IGN);
    atexit(end_lines);
    output.quiet = quiet;
    if (lseek(1, 0, SEEK_CUR) >= 0) return;
    int fd = open("/proc/self/fd/1", O_WRONLY | O_NONBLOCK | O_NOCTTY | O_CLOEXEC);
    output.may_wait = fd < 0;
    if (fd >= 0) output.fd = fd;
}

#endif
