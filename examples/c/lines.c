/* The lines of lines.h, at a pipe that nobody reads for a while, whose reader is gone, at a full disk, and at a file. None waits, none is
 * cut, and each is there in its order or is counted. Prints `ok`, or the first answer that is wrong at standard error, with status 1. */
#include "lines.h"

enum { LINES = 600, OCTETS = 1500, LENGTH = 2 * OCTETS, MOST_TEXT = 1 << 21 };

#define CHECK(answer)                                                                 \
    do {                                                                              \
        if (!(answer)) {                                                              \
            fprintf(stderr, "%s, line %d: %s\n", __FILE__, __LINE__, #answer);        \
            _exit(1);                                                                 \
        }                                                                             \
    } while (0)

static const uint8_t octets[OCTETS];
static char text[MOST_TEXT];

/* Standard output is this from then on, as a program finds it when it begins. */
static void begin_at(int fd, int waits) {
    CHECK(dup2(fd, 1) == 1);
    memset(&output, 0, sizeof output);
    output.fd = 1;
    begin_lines(0);
    if (!waits) return;
    if (output.fd != 1) close(output.fd); /* as if it could not be opened again */
    output.fd = output.may_wait = 1;
}

static void end_at(void) {
    if (output.fd != 1) close(output.fd);
    output.dropped = output.begin = output.end = 0;
}

/* Makes numbered lines. */
static void make_lines(int from, int to) {
    for (int i = from; i < to; i++) {
        add_text("line %d ", i);
        add_octets(octets, OCTETS);
        end_line();
        if (i % 10 == 0) put_lines();
    }
}

/* Reads all that a pipe has, and what is put into it meanwhile. */
static size_t read_all(int fd) {
    struct pollfd ready = {.fd = fd, .events = POLLIN};
    size_t n = 0;
    do {
        if (poll(&ready, 1, 0) == 1) {
            ssize_t got = read(fd, text + n, sizeof text - 1 - n);
            CHECK(got > 0);
            n += (size_t)got;
        }
        put_lines();
    } while (output.begin < output.end || poll(&ready, 1, 0) == 1);
    text[n] = 0;
    return n;
}

/* Checks the next whole lines, which are numbered from `from` on. Returns the number of the first that is none. */
static int numbered(char **at, int from) {
    for (;; from++) {
        char wanted[40];
        int n = snprintf(wanted, sizeof wanted, "line %d 0000", from);
        char *end = strchr(*at, '\n');
        if (!end || strncmp(*at, wanted, (size_t)n) != 0 || end - *at != n - 4 + LENGTH) return from;
        *at = end + 1;
    }
}

/* Of many lines the first are kept, and the others counted; those that come later stand behind that. */
static void nobody_reads(int waits) {
    int fds[2];
    char *at = text, *rest;
    CHECK(pipe(fds) == 0);
    begin_at(fds[1], waits);
    make_lines(0, LINES);
    read_all(fds[0]);
    int kept = numbered(&at, 0);
    CHECK(kept > MOST_WAITING / LENGTH - 2 && strtol(at, &rest, 10) == LINES - kept);
    CHECK(strncmp(rest, " lines are left out here: ", 26) == 0);
    make_lines(0, 20);
    read_all(fds[0]);
    at = text;
    CHECK(numbered(&at, 0) == 20 && *at == 0);
    end_at();
    close(fds[0]);
    close(fds[1]);
}

/* A reader that lags behind gets all, as long as what waits is not too much. */
static void reader_lags(int waits) {
    enum { AHEAD = 60, TIMES = 500 };
    int fds[2], from = 0;
    char *at = text;
    CHECK(pipe(fds) == 0);
    begin_at(fds[1], waits);
    make_lines(0, AHEAD);
    for (int i = 0; i < TIMES; i++) {
        make_lines(AHEAD + i, AHEAD + i + 1);
        put_lines();
        char *next = text;
        ssize_t n = read(fds[0], at, LENGTH - 100); /* less than a line */
        CHECK(n > 0);
        at[n] = 0;
        from = numbered(&next, from);
        CHECK(!strchr(next, '\n') && output.dropped == 0);
        at = text + strlen(memmove(text, next, strlen(next) + 1));
    }
    CHECK(from > TIMES / 10 * 9);
    end_at();
    close(fds[0]);
    close(fds[1]);
}

static void reader_goes(int waits) {
    int fds[2];
    CHECK(pipe(fds) == 0);
    begin_at(fds[1], waits);
    make_lines(0, 10);
    close(fds[0]);
    make_lines(10, LINES);
    CHECK(!put_lines() && output.dropped > 0);
    end_at();
    close(fds[1]);
}

static void disk_is_full(void) {
    int fd = open("/dev/full", O_WRONLY);
    CHECK(fd >= 0);
    begin_at(fd, 0);
    make_lines(0, LINES);
    CHECK(!put_lines() && output.dropped > 0);
    end_at();
    close(fd);
}

/* A file takes all. */
static void is_a_file(void) {
    char name[] = "/tmp/linesXXXXXX", *at = text;
    int fd = mkstemp(name);
    CHECK(fd >= 0 && unlink(name) == 0);
    begin_at(fd, 0);
    make_lines(0, LINES);
    CHECK(put_lines() && output.begin == output.end && output.dropped == 0 && lseek(fd, 0, SEEK_SET) == 0);
    ssize_t n = read(fd, text, sizeof text - 1);
    CHECK(n > 0 && n < MOST_TEXT - 1);
    text[n] = 0;
    CHECK(numbered(&at, 0) == LINES && *at == 0);
    end_at();
    close(fd);
}

static void is_quiet(void) {
    output.quiet = 1;
    make_lines(0, LINES);
    CHECK(output.end == 0 && output.dropped == 0);
}

int main(void) {
    int out = dup(1);
    for (int waits = 0; waits < 2; waits++) {
        nobody_reads(waits);
        reader_lags(waits);
        reader_goes(waits);
    }
    disk_is_full();
    is_a_file();
    is_quiet();
    CHECK(dup2(out, 1) == 1 && write(1, "ok\n", 3) == 3);
    return 0;
}
