/* Lines for who started the target. They go out at once or not at all: a terminal or pipe that takes none holds up no host. */
#include "target.h"

enum { LONGEST_LINE = 2048 };

static pthread_mutex_t lines = PTHREAD_MUTEX_INITIALIZER; /* of `lost`, and of the order of lines */
static unsigned long lost; /* lines */

/* Whether a line can be written without waiting. A pipe that takes something takes 4,096 octets (PIPE_BUF). */
static int takes_a_line(int fd) {
    struct pollfd polled = {fd, POLLOUT, 0};
    return poll(&polled, 1, 0) == 1 && polled.revents & POLLOUT;
}

/* Writes a line. Returns whether it went. */
static int put_line(int fd, const char *format, va_list words) {
    char line[LONGEST_LINE];
    int n = vsnprintf(line, sizeof line - 1, format, words);
    if (n < 0 || !takes_a_line(fd)) return 0;
    if (n > (int)sizeof line - 2) n = (int)sizeof line - 2;
    line[n] = '\n';
    return write(fd, line, (size_t)n + 1) > 0;
}

static int tell(int fd, const char *format, ...) {
    va_list words;
    va_start(words, format);
    int went = put_line(fd, format, words);
    va_end(words);
    return went;
}

void say(const struct target *target, const char *format, ...) {
    va_list words;
    if (!target->options.verbose) return;
    pthread_mutex_lock(&lines);
    if (lost > 0 && tell(STDOUT_FILENO, "%lu lines were lost, as nobody read them", lost)) lost = 0;
    va_start(words, format);
    if (lost > 0 || !put_line(STDOUT_FILENO, format, words)) lost++;
    va_end(words);
    pthread_mutex_unlock(&lines);
}

void complain(const char *format, ...) {
    va_list words;
    va_start(words, format);
    put_line(STDERR_FILENO, format, words);
    va_end(words);
}

void escape(char *to, size_t room, const char *from) {
    enum { LONGEST = 4 };
    for (char *end = to + room; *from && end - to > LONGEST; from++) {
        int is_plain = *from >= ' ' && *from <= '~' && *from != '\\';
        to += is_plain ? sprintf(to, "%c", *from) : sprintf(to, "\\x%02x", (unsigned)(uint8_t)*from);
    }
    *to = 0;
}
