/* How many octets are copied when a Write of 64 KiB is received, read in place, and answered by a Send of the same octets:
 *
 *     copies MULPDU             counts them, and compares what came back
 *     copies MULPDU with        does the same, and prints nothing
 *     copies MULPDU without     prepares all of it, and does nothing
 *
 * It is linked with --wrap for memcpy, memmove, memset and realloc, so that each call of these in the library or here is counted. A
 * copy that was compiled into a loop is no call: `run` finds those by the difference of all octets that `with` and `without` store.
 * The sockets' own copies are the system's. */
#define _POSIX_C_SOURCE 200112L
#include "../../include/iwarp.h"
#include <malloc.h>
#include <stdio.h>
#include <stdlib.h>
#include <string.h>
#include <sys/socket.h>
#include <unistd.h>

enum { DOMAIN = 1, STREAM = 0, MESSAGE = 65536, READ_AT_ONCE = 65536, ROUNDS = 3, MOST_PERCENT = 105 };

/* ---- counts */

static struct counts {
    uint64_t copied, cleared;
} counts;

void *__real_memcpy(void *to, const void *from, size_t n);
void *__real_memmove(void *to, const void *from, size_t n);
void *__real_memset(void *to, int octet, size_t n);
void *__real_realloc(void *block, size_t n);

void *__wrap_memcpy(void *to, const void *from, size_t n) {
    counts.copied += n;
    return __real_memcpy(to, from, n);
}

void *__wrap_memmove(void *to, const void *from, size_t n) {
    counts.copied += n;
    return __real_memmove(to, from, n);
}

void *__wrap_memset(void *to, int octet, size_t n) {
    counts.cleared += n;
    return __real_memset(to, octet, n);
}

/* A block that moves is copied. */
void *__wrap_realloc(void *block, size_t n) {
    size_t before = block ? malloc_usable_size(block) : 0;
    uintptr_t at = (uintptr_t)block;
    void *after = __real_realloc(block, n);
    if (after && (uintptr_t)after != at) counts.copied += before < n ? before : n;
    return after;
}

/* ---- both ends */

/* An end of a connection: what it emits goes to `fd`, and what it reads comes from there. */
struct end {
    struct iwarp handle;
    struct iwarp_buffer out;
    int fd;
};

static struct end host, target;
static struct iwarp_buffer buffer; /* the target's */
static uint32_t stag; /* of the region that it becomes */
static uint8_t message[MESSAGE], answer[MESSAGE];

static void must(int is_so, const char *what) {
    if (is_so) return;
    fprintf(stderr, "%s\n", what);
    exit(2);
}

static void open_end(struct end *end, int fd, uint32_t mulpdu) {
    end->fd = fd;
    must(iwarp_new(&end->handle) == IWARP_OK, "new");
    must(iwarp_buffer_new(0, &end->out) == IWARP_OK, "buffer_new");
    must(iwarp_add_domain(&end->handle, DOMAIN) == IWARP_OK, "add_domain");
    must(iwarp_open(&end->handle, STREAM, DOMAIN, IWARP_PRESET, 0, message, 0) == IWARP_OK, "open");
    must(iwarp_set_mulpdu(&end->handle, STREAM, mulpdu) == IWARP_OK, "set_mulpdu");
}

/* Writes all that is due. */
static void write_out(struct end *end) {
    struct iwarp_emission emission;
    uint8_t *at;
    size_t n;
    must(iwarp_buffer_truncate(&end->out, 0) == IWARP_OK, "truncate");
    do
        must(iwarp_emit_onto(&end->handle, STREAM, &end->out, &emission) == IWARP_OK, "emit_onto");
    while (emission.kind == IWARP_FRAME);
    must(iwarp_buffer_at(&end->out, &at, &n) == IWARP_OK, "buffer_at");
    must(write(end->fd, at, n) == (ssize_t)n, "write");
}

/* Works until there is nothing to do. Returns whether a step of this kind was among what it did. */
static int work(struct end *end, uint32_t kind) {
    struct iwarp_event event;
    int any = 0;
    do {
        must(iwarp_work_on(&end->handle, STREAM, &event) == IWARP_OK && event.kind != IWARP_FAULT, "work_on");
        any |= event.kind == kind;
    } while (event.kind != IWARP_IDLE);
    return any;
}

/* Reads once, to where the octets are to stand. Returns whether a step of this kind came of it. */
static int read_in(struct end *end, uint32_t kind) {
    uint8_t *at;
    size_t room;
    must(iwarp_room(&end->handle, STREAM, READ_AT_ONCE, &at, &room) == IWARP_OK, "room");
    ssize_t n = read(end->fd, at, room);
    must(n > 0 && iwarp_came(&end->handle, STREAM, (size_t)n) == IWARP_OK, "came");
    return work(end, kind);
}

/* ---- a round */

/* The host writes the message into the target's region, and tells it by a Send of no octets. */
static void ask(void) {
    static const uint8_t none = 0;
    must(iwarp_register_buffer(&target.handle, DOMAIN, 0, &buffer, IWARP_WRITE, &stag) == IWARP_OK, "register_buffer");
    must(iwarp_post_recv(&target.handle, STREAM, 1) == IWARP_OK, "post_recv");
    must(iwarp_post_recv(&host.handle, STREAM, MESSAGE) == IWARP_OK, "post_recv");
    must(iwarp_post_write(&host.handle, STREAM, stag, 0, message, MESSAGE, 0) == IWARP_OK, "post_write");
    must(iwarp_post_send(&host.handle, STREAM, &none, 0, 0, 0, 0) == IWARP_OK, "post_send");
    write_out(&host);
    work(&host, IWARP_DONE);
}

/* The target receives the message, and looks at it in place. */
static void receive(void) {
    uint8_t *at;
    size_t n;
    while (!read_in(&target, IWARP_RECEIVED)) {
    }
    must(iwarp_region_at(&target.handle, stag, &at, &n) == IWARP_OK, "region_at");
    must(n == MESSAGE && memcmp(at, message, MESSAGE) == 0, "other octets were written");
}

/* It sends the region's octets themselves. */
static void reply(void) {
    must(iwarp_deregister_buffer(&target.handle, stag, &buffer) == IWARP_OK, "deregister_buffer");
    must(iwarp_post_send_buffer(&target.handle, STREAM, &buffer, 0, 0, 0) == IWARP_OK, "post_send_buffer");
    write_out(&target);
    must(work(&target, IWARP_DONE), "the Send is not done");
    must(iwarp_fetch_sent(&target.handle, STREAM, &buffer) == IWARP_OK, "fetch_sent");
}

static void compare(void) {
    size_t n;
    while (!read_in(&host, IWARP_RECEIVED)) {
    }
    must(iwarp_fetch(&host.handle, STREAM, answer, MESSAGE, &n) == IWARP_OK, "fetch");
    must(n == MESSAGE && memcmp(answer, message, MESSAGE) == 0, "other octets came back");
}

/* The host sends the message from memory that the program keeps. */
static void send_kept(void) {
    struct iwarp_posting send = iwarp_posting_of(IWARP_MESSAGE_SEND);
    struct iwarp_memory memory = {message, MESSAGE};
    must(iwarp_post_memory(&host.handle, STREAM, &send, &memory) == IWARP_OK && memory.len == 0, "post_memory");
    write_out(&host);
    must(work(&host, IWARP_DONE), "the Send is not done");
}

static void receive_it(void) {
    while (!read_in(&target, IWARP_RECEIVED)) {
    }
}

/* ---- what is told */

static int tell(const char *what, struct counts from, struct counts to) {
    uint64_t copied = to.copied - from.copied, cleared = to.cleared - from.cleared;
    int is_missed = copied * 100 > (uint64_t)MESSAGE * MOST_PERCENT;
    printf("%s: %llu octets copied, %.3f of the message%s; %llu cleared\n", what, (unsigned long long)copied,
           (double)copied / MESSAGE, is_missed ? ": MISSED" : "", (unsigned long long)cleared);
    return is_missed;
}

int main(int n, char **words) {
    int fds[2];
    const char *how = n == 3 ? words[2] : "";
    must(n == 2 || n == 3, "copies MULPDU [with|without]");
    for (int i = 0; i < MESSAGE; i++) message[i] = (uint8_t)(i * 31 >> 3 ^ i >> 8);
    must(socketpair(AF_UNIX, SOCK_STREAM, 0, fds) == 0, "socketpair");
    open_end(&host, fds[0], (uint32_t)atoi(words[1]));
    open_end(&target, fds[1], (uint32_t)atoi(words[1]));
    must(iwarp_buffer_new(MESSAGE, &buffer) == IWARP_OK, "buffer_new");
    for (int i = 1; i < ROUNDS; i++) { /* all memory is taken then */
        ask();
        receive();
        reply();
        compare();
    }
    ask();
    if (strcmp(how, "without") == 0) return 0;
    struct counts before = counts;
    receive();
    struct counts between = counts;
    reply();
    struct counts after = counts;
    if (strcmp(how, "with") == 0) return 0;
    compare();
    for (int i = 0; i < 2; i++) must(iwarp_post_recv(&target.handle, STREAM, MESSAGE) == IWARP_OK, "post_recv");
    send_kept();
    receive_it();
    struct counts then = counts;
    send_kept();
    int missed = tell("received and read in place", before, between);
    missed += tell("answered", between, after);
    missed += tell("sent from memory that the program keeps", then, counts);
    return missed > 0;
}
