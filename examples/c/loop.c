/* The loop of loop.h, at both ends of a connection whose sockets take and give 1 to 100 octets at a time, or would wait, or are
 * interrupted. Each request for memory is refused in turn: what arrives is what was posted. Then a peer that goes on before its
 * Request is answered, one whose Read is denied, one that sends many small frames, and one that sends much. Prints `ok`, or the first answer that is wrong, with status 1. It is linked
 * with -Wl,--wrap=malloc,--wrap=realloc,--wrap=send,--wrap=recv. */
#include "host.h"
#include "loop.h"

enum { DOMAIN = 1, SENDS = 8, LONGEST = 1500, REGION = SENDS * LONGEST, ALL = 3 * SENDS, LATER = 3, MOST_PASSES = 100000, PIECE = 100 };

/* ---- chance, memory that is refused, and sockets that take a part */

static uint64_t state = 1;
static unsigned long requests, refused_one; /* how many requests for memory were made, and which of them is refused; 0: none */
static unsigned long reads; /* how often a socket was read */
static size_t asked_for; /* for how many octets it was read last */
static int smooth; /* sockets take and give what there is */

static uint32_t below(uint32_t n) {
    state ^= state << 13;
    state ^= state >> 7;
    state ^= state << 17;
    return (uint32_t)(state >> 16) % n;
}

static void wrong(int line, const char *what) {
    printf("request %lu refused, line %d: %s\n", refused_one, line, what);
    exit(1);
}

#define CHECK(answer)                            \
    do {                                         \
        if (!(answer)) wrong(__LINE__, #answer); \
    } while (0)

/* Makes a call that may be refused once for want of memory. */
#define MUST(call)                                   \
    do {                                             \
        int32_t made = (call);                       \
        if (made == IWARP_NO_MEMORY) made = (call);  \
        CHECK(made == IWARP_OK);                     \
    } while (0)

void *__real_malloc(size_t n);
void *__real_realloc(void *at, size_t n);
ssize_t __real_send(int fd, const void *octets, size_t n, int flags);
ssize_t __real_recv(int fd, void *octets, size_t n, int flags);

void *__wrap_malloc(size_t n) { return ++requests == refused_one ? 0 : __real_malloc(n); }

void *__wrap_realloc(void *at, size_t n) { return ++requests == refused_one ? 0 : __real_realloc(at, n); }

/* Whether a socket answers that the call is to be made later. */
static int puts_off(void) {
    errno = below(2) ? EAGAIN : EINTR;
    return !smooth && below(6) == 0;
}

static size_t piece_of(size_t n) {
    size_t most = 1 + below(PIECE);
    CHECK(n > 0); /* of no octets a socket answers 0, as at the end of input */
    return smooth || n < most ? n : most;
}

ssize_t __wrap_send(int fd, const void *octets, size_t n, int flags) {
    return puts_off() ? -1 : __real_send(fd, octets, piece_of(n), flags);
}

ssize_t __wrap_recv(int fd, void *octets, size_t n, int flags) {
    reads++;
    asked_for = n;
    return puts_off() ? -1 : __real_recv(fd, octets, piece_of(n), flags);
}

/* ---- one end */

struct end {
    struct iwarp handle;
    struct carried carried; /* first of all that the loop knows of it */
    uint32_t region, sink;
    uint8_t messages[SENDS][LONGEST]; /* what it sends */
    size_t lengths[SENDS];
    uint8_t written[REGION]; /* what it writes into the other's region, and reads again */
    unsigned posted, done, received;
    int open, waited;
};

static struct end ends[2];
static uint8_t octets[REGION];

static struct end *end_of(struct carried *carried) { return carried == &ends[0].carried ? &ends[0] : &ends[1]; }

static struct end *other_than(struct end *end) { return end == &ends[0] ? &ends[1] : &ends[0]; }

/* A Send came: it is the next that the other end posted. */
static void received(struct end *end) {
    struct end *other = other_than(end);
    size_t n;
    CHECK(iwarp_fetch(&end->handle, end->carried.stream, octets, sizeof octets, &n) == IWARP_OK);
    CHECK(end->received < SENDS && n == other->lengths[end->received]);
    CHECK(memcmp(octets, other->messages[end->received], n) == 0);
    end->received++;
}

static void act_on(struct carried *carried, const struct iwarp_event *event) {
    struct end *end = end_of(carried);
    switch (event->kind) {
    case IWARP_ASKED: carried->asked = 1; break;
    case IWARP_OPENED: end->open = 1; break;
    case IWARP_DONE: CHECK(event->token == end->done); end->done++; break;
    case IWARP_RECEIVED: received(end); break;
    case IWARP_FAULT: carried->ended = 1; break;
    default: break;
    }
}

/* Accepts the peer's Request, some turns after it came. */
static void answer(struct end *end) {
    uint32_t agreed;
    if (!end->carried.asked || end->waited++ < LATER) return;
    MUST(iwarp_accept(&end->handle, end->carried.stream, octets, 0, &agreed));
    end->carried.asked = 0;
    end->open = 1;
}

/* Posts the next message, if there is memory: a Write, a Send, or a Read of what was written. */
static void post(struct end *end) {
    unsigned number = end->posted / 3;
    uint32_t stream = end->carried.stream, region = other_than(end)->region;
    uint64_t at = (uint64_t)number * LONGEST;
    int32_t code;
    if (!end->open || end->posted == ALL) return;
    if (end->posted % 3 == 0)
        code = iwarp_post_write(&end->handle, stream, region, at, end->written + at, LONGEST, end->posted);
    else if (end->posted % 3 == 1)
        code = iwarp_post_send(&end->handle, stream, end->messages[number], end->lengths[number], 0, 0, end->posted);
    else
        code = iwarp_post_read(&end->handle, stream, end->sink, at, LONGEST, region, at, end->posted);
    CHECK(code == IWARP_OK || code == IWARP_NO_MEMORY);
    end->posted += code == IWARP_OK;
}

static void begin(struct end *end, uint32_t role, uint32_t options, int fd) {
    struct carried *carried = &end->carried;
    *end = (struct end){.handle = IWARP_CLOSED, .carried = {.end = &end->handle, .fd = fd, .frames = IWARP_NO_BUFFER}};
    for (int i = 0; i < REGION; i++) end->written[i] = (uint8_t)below(256);
    for (int i = 0; i < SENDS; i++) {
        end->lengths[i] = below(LONGEST);
        for (size_t k = 0; k < end->lengths[i]; k++) end->messages[i][k] = (uint8_t)below(256);
    }
    memset(octets, 0, sizeof octets);
    MUST(iwarp_new(&end->handle));
    MUST(iwarp_add_domain(&end->handle, DOMAIN));
    MUST(iwarp_register(&end->handle, DOMAIN, 0, octets, REGION, IWARP_WRITE | IWARP_READ, &end->region));
    MUST(iwarp_register(&end->handle, DOMAIN, 0, octets, REGION, IWARP_SINK, &end->sink));
    MUST(iwarp_open_next(&end->handle, DOMAIN, role, options, octets, 0, &carried->stream));
    MUST(iwarp_set_mulpdu(&end->handle, carried->stream, 128 + below(1500)));
    for (int i = 0; i < SENDS; i++) MUST(iwarp_post_recv(&end->handle, carried->stream, LONGEST));
    MUST(iwarp_buffer_new(0, &carried->frames));
    carried->steps = below(8); /* perhaps all */
}

/* Two ends, of which the first asks and the second answers. */
static void begin_both(uint32_t options) {
    int fds[2];
    CHECK(socketpair(AF_UNIX, SOCK_STREAM | SOCK_NONBLOCK, 0, fds) == 0);
    begin(&ends[0], IWARP_INITIATOR, options, fds[0]);
    begin(&ends[1], IWARP_RESPONDER, options, fds[1]);
}

/* Closes the connection at an end, and frees what it has. */
static void finish(struct end *end) {
    struct carried *carried = &end->carried;
    uint32_t number = carried->stream;
    CHECK(is_closed(carried) == TURN_DONE);
    CHECK(iwarp_close(&end->handle, number) == IWARP_NO_SUCH_STREAM);
    close(carried->fd);
    iwarp_free(&end->handle);
}

/* ---- what is posted arrives */

static void may_go_on(enum turn turn) {
    CHECK(turn == TURN_DONE || turn == TURN_LEFT || turn == TURN_MORE || turn == TURN_NO_MEMORY);
}

static void pass(struct end *end) {
    answer(end);
    post(end);
    may_go_on(is_readable(&end->carried));
    may_go_on(is_writable(&end->carried));
}

static int is_settled(struct end *end) { return end->done == ALL && end->received == SENDS; }

/* The other end's region has what was written, and so has the sink, into which it was read again; and what the socket took is what
 * was sent. */
static void arrived(struct end *end) {
    struct end *other = other_than(end);
    CHECK(iwarp_load(&other->handle, other->region, 0, octets, REGION) == IWARP_OK && memcmp(octets, end->written, REGION) == 0);
    CHECK(iwarp_load(&end->handle, end->sink, 0, octets, REGION) == IWARP_OK && memcmp(octets, end->written, REGION) == 0);
}

/* All that an end has sent had its turn at the other: no octet is left anywhere. */
static void same_count(struct end *end) {
    struct iwarp_progress progress, others;
    struct end *other = other_than(end);
    CHECK(iwarp_progress(&end->handle, end->carried.stream, &progress) == IWARP_OK);
    CHECK(iwarp_progress(&other->handle, other->carried.stream, &others) == IWARP_OK);
    CHECK(progress.sent == others.in_order);
}

/* Has an end read until the peer's close is seen. */
static void sees_the_end(struct end *end) {
    enum turn turn = TURN_DONE;
    for (int i = 0; i < MOST_PASSES && turn != TURN_CLOSED; i++) turn = is_readable(&end->carried);
    CHECK(turn == TURN_CLOSED);
}

/* Returns whether a request for memory was refused. */
static int exchange(unsigned long refused) {
    state = 0x9e3779b97f4a7c15u * (refused + 1);
    requests = 0;
    refused_one = refused;
    begin_both(below(4));
    int passes = 0;
    while (!is_settled(&ends[0]) || !is_settled(&ends[1])) {
        CHECK(passes++ < MOST_PASSES);
        pass(&ends[0]);
        pass(&ends[1]);
    }
    for (int i = 0; i < 2; i++) arrived(&ends[i]);
    for (int i = 0; i < 2; i++) same_count(&ends[i]);
    finish(&ends[0]);
    sees_the_end(&ends[1]);
    finish(&ends[1]);
    return requests >= refused;
}

/* ---- a peer that does not wait for the answer */

/* Puts as much behind a Request as a socket takes, and more each time that it is read. */
static void push_on(int fd) {
    static uint8_t junk[REGION];
    while (__real_send(fd, junk, sizeof junk, MSG_NOSIGNAL | MSG_DONTWAIT) > 0) {
    }
}

/* Until it is answered nothing is read, and nothing spins; once it is, what came ends the stream. */
static void waits_for_the_answer(void) {
    struct end *asking = &ends[0], *asked = &ends[1];
    begin_both(0);
    while (is_writable(&asking->carried) != TURN_DONE) {
    }
    while (!asked->carried.asked) may_go_on(is_readable(&asked->carried));
    push_on(asking->carried.fd);
    unsigned long so_far = reads;
    for (int i = 0; i < 1000; i++) CHECK(is_readable(&asked->carried) == TURN_DONE && is_writable(&asked->carried) == TURN_DONE);
    CHECK(reads == so_far);
    asked->waited = LATER;
    answer(asked);
    while (!asked->carried.ended) may_go_on(is_readable(&asked->carried));
    while (is_writable(&asked->carried) != TURN_DONE) {
    }
    finish(asked);
    finish(asking);
}

/* Who reads it all the same finds the window full, although there is nothing to do; and no place for no octets. */
static void fills_the_window(void) {
    struct end *asking = &ends[0], *asked = &ends[1];
    struct iwarp_event event;
    uint32_t stream;
    uint8_t *at = octets;
    size_t n = 1, all = 0;
    begin_both(0);
    stream = asked->carried.stream;
    while (is_writable(&asking->carried) != TURN_DONE) {
    }
    while (!asked->carried.asked) may_go_on(is_readable(&asked->carried));
    CHECK(iwarp_room(&asked->handle, stream, 0, &at, &n) == IWARP_OK && n == 0);
    while (iwarp_room(&asked->handle, stream, 65536, &at, &n) == IWARP_OK) {
        memset(at, 0, n);
        CHECK(iwarp_came(&asked->handle, stream, n) == IWARP_OK);
        CHECK(iwarp_work_on(&asked->handle, stream, &event) == IWARP_OK && event.kind == IWARP_IDLE);
        all += n;
        CHECK(all <= 262144);
    }
    CHECK(iwarp_room(&asked->handle, stream, 65536, &at, &n) == IWARP_WINDOW_FULL);
    finish(asked);
    finish(asking);
}

/* ---- a Read that is denied */

/* Makes turns until both ends are open. */
static void opens_both(void) {
    begin_both(0);
    while (!ends[0].open || !ends[1].open) {
        for (int i = 0; i < 2; i++) {
            answer(&ends[i]);
            may_go_on(is_readable(&ends[i].carried));
            may_go_on(is_writable(&ends[i].carried));
        }
    }
}

/* A region is made invalid once its answer is due: the Terminate is written, and then the end. The peer reads both. */
static void denies(void) {
    struct end *reader = &ends[0], *denier = &ends[1];
    struct carried *denying = &denier->carried;
    enum turn turn = TURN_DONE;
    uint32_t wants = 0, life;
    opens_both();
    while (is_writable(denying) != TURN_DONE) {
    }
    MUST(iwarp_post_write(&reader->handle, reader->carried.stream, denier->region, 0, octets, 8, 0));
    MUST(iwarp_post_read(&reader->handle, reader->carried.stream, reader->sink, 0, 8, denier->region, 0, 1));
    while (!wants) {
        may_go_on(is_writable(&reader->carried));
        may_go_on(is_readable(denying));
        CHECK(iwarp_wants_write(&denier->handle, denying->stream, &wants) == IWARP_OK);
    }
    MUST(iwarp_invalidate(&denier->handle, denier->region));
    for (int i = 0; i < MOST_PASSES && turn != TURN_CLOSED; i++) {
        may_go_on(is_writable(denying));
        turn = is_readable(&reader->carried);
    }
    CHECK(turn == TURN_CLOSED && denying->ended && reader->done == 1);
    CHECK(iwarp_state(&reader->handle, reader->carried.stream, &life) == IWARP_OK && life == IWARP_STATE_ENDED);
    finish(reader);
    sees_the_end(denier);
    finish(denier);
}

/* ---- a peer that sends many small frames, and one that sends much */

/* Opens both ends, over sockets that take and give what there is, and has the first send Writes. The second does at most so many steps
 * a turn. */
static void sends_writes(int count, size_t n, unsigned steps) {
    struct end *from = &ends[0], *to = &ends[1];
    opens_both();
    while (is_readable(&to->carried) == TURN_MORE || is_writable(&to->carried) != TURN_DONE) {
    }
    smooth = 1;
    to->carried.steps = steps;
    for (int i = 0; i < count; i++) {
        MUST(iwarp_post_write(&from->handle, from->carried.stream, to->region, 0, octets, n, from->posted++));
        while (is_writable(&from->carried) == TURN_MORE) {
        }
    }
}

static uint64_t passed(struct end *end) {
    struct iwarp_progress progress;
    CHECK(iwarp_progress(&end->handle, end->carried.stream, &progress) == IWARP_OK);
    return progress.in_order;
}

static void finish_both(void) {
    smooth = 0;
    for (int i = 0; i < 2; i++) finish(&ends[i]);
}

/* No turn does more steps than it may, whichever call it is, or reads before those that are left are done; and all frames have their
 * turn. */
static void bounds_a_turn(void) {
    enum { WRITES = 200, STEPS = 8, FRAME = 20 };
    struct end *to = &ends[1];
    enum turn turn = TURN_MORE;
    int turns = 0;
    sends_writes(WRITES, 0, STEPS);
    uint64_t begun = passed(to);
    unsigned long reads_before = reads;
    while (turn == TURN_MORE) {
        uint64_t before = passed(to);
        turn = turns++ % 2 ? is_writable(&to->carried) : is_readable(&to->carried);
        CHECK(passed(to) - before <= STEPS * FRAME && turns < MOST_PASSES);
    }
    CHECK(turn == TURN_DONE && passed(to) - begun == WRITES * FRAME && turns >= WRITES / STEPS && reads == reads_before + 1);
    to->carried.share = 1; /* then no call counts steps, and a turn reads less */
    CHECK(is_readable(&to->carried) == TURN_DONE && asked_for == SHARED_READ);
    finish_both();
}

/* Each read that fills what was asked for has the next ask for four times as many; one that brings less changes nothing. */
static void reads_grow(void) {
    static const size_t wanted[] = {4096, 16384, 65536, 65536};
    struct end *to = &ends[1];
    sends_writes(15, REGION, 0);
    for (int i = 0; i < 4; i++) {
        CHECK(is_readable(&to->carried) == TURN_DONE && asked_for == wanted[i]);
        CHECK(is_writable(&to->carried) == TURN_DONE);
    }
    finish_both();
    sends_writes(1, 1000, 0);
    for (int i = 0; i < 3; i++) CHECK(is_readable(&to->carried) == TURN_DONE && asked_for == 4096);
    finish_both();
}

int main(void) {
    unsigned long refused = 1;
    while (exchange(refused)) refused++;
    refused_one = 0;
    waits_for_the_answer();
    fills_the_window();
    denies();
    bounds_a_turn();
    reads_grow();
    printf("ok %lu\n", refused - 1);
    return 0;
}
