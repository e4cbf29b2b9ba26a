/* Tests of two handles that are joined in memory: start-up, a Write, a Send, a Read, pools, shares and marks of them, and an end.
 * Prints `ok`, or the first answer that is not as include/iwarp.h says, with status 1. */
#include "host.h"
#include "checks.h"

enum { DOMAIN = 1, STREAM = 0, REGION = 0x01000000 /* the first region of the domain */ };
enum { OPTIONS = IWARP_MARKERS | IWARP_CRC, RIGHTS = IWARP_WRITE | IWARP_READ | IWARP_INVALIDATE };

/* Programs have these numbers compiled in, so they stay. */
_Static_assert(IWARP_PRESET == 0 && IWARP_INITIATOR == 1 && IWARP_RESPONDER == 2, "roles");
_Static_assert(OPTIONS == 3 && RIGHTS == 11 && IWARP_SINK == 4 && (IWARP_SOLICITED | IWARP_INVALIDATES) == 3, "sums");
_Static_assert(IWARP_IDLE == 0 && IWARP_DONE == 1 && IWARP_FLUSHED == 2 && IWARP_FLUSHED_RECV == 3 && IWARP_OPENED == 5, "steps");
_Static_assert(IWARP_PLACED == 7 && IWARP_BUFFERED == 8 && IWARP_REQUESTED == 9 && IWARP_PASSED == 10, "steps");
_Static_assert(IWARP_RECEIVED == 11 && IWARP_FAULT == 13 && IWARP_NOTHING == 0, "steps and emissions");

/* The sequence number of an end's first octet. Numbers wrap within the start-up frame. */
static const uint32_t first_number = 4294967290u;

/* One end: its handle, and the sequence number of the octet that comes next. */
struct end {
    struct iwarp handle;
    uint32_t next;
};

static const uint8_t *octets(const char *text) { return (const uint8_t *)text; }

static int is_text(const uint8_t *out, const char *text) { return memcmp(out, text, strlen(text)) == 0; }

static int32_t post_text(struct end *end, const char *text, uint64_t token) {
    return iwarp_post_send(&end->handle, STREAM, octets(text), strlen(text), 0, 0, token);
}

static struct end opened(uint32_t role, const char *private_data) {
    struct end end = {IWARP_CLOSED, first_number};
    CHECK(iwarp_new(&end.handle) == IWARP_OK);
    CHECK(iwarp_add_domain(&end.handle, DOMAIN) == IWARP_OK);
    CHECK(iwarp_open(&end.handle, STREAM, DOMAIN, role, OPTIONS, octets(private_data), strlen(private_data)) == IWARP_OK);
    CHECK(iwarp_first_number(&end.handle, STREAM, first_number) == IWARP_OK);
    return end;
}

/* One with a stream that is open at once, and takes its buffers from a pool. Its peer's numbers begin at 0. */
static struct end sharing(void) {
    struct end end = {IWARP_CLOSED, 0};
    CHECK(iwarp_new(&end.handle) == IWARP_OK);
    CHECK(iwarp_add_domain(&end.handle, DOMAIN) == IWARP_OK);
    CHECK(iwarp_share(&end.handle, DOMAIN) == IWARP_OK);
    CHECK(iwarp_open_shared(&end.handle, STREAM, DOMAIN, IWARP_PRESET, OPTIONS, iwarp_octets(NULL), 0) == IWARP_OK);
    return end;
}

/* The same, with a peer whose numbers wrap. */
static struct end sharing_wrapped(void) {
    struct end end = sharing();
    CHECK(iwarp_first_number(&end.handle, STREAM, first_number) == IWARP_OK);
    end.next = first_number;
    return end;
}

static void close_both(struct end *a, struct end *b) {
    iwarp_free(&a->handle);
    iwarp_free(&b->handle);
}

/* A call that does work at a stream. */
typedef int32_t work_call(struct iwarp *handle, uint32_t stream, struct iwarp_event *event);

/* The kinds of steps: the last is IWARP_IDLE. */
#define STEPS(...) ((const uint32_t[]){__VA_ARGS__})

/* Works until there is nothing to do: whether the steps are of these kinds. */
static int does(work_call *work, struct end *end, const uint32_t *steps) {
    struct iwarp_event event;
    do {
        CHECK(work(&end->handle, STREAM, &event) == IWARP_OK);
        if (event.kind != *steps++) return 0;
    } while (event.kind != IWARP_IDLE);
    return 1;
}

/* Delivers what one end emits to the other, at most 100 frames. Returns how many. */
static int carry(struct end *from, struct end *to) {
    enum { MOST = 100 };
    uint8_t frame[600];
    struct iwarp_emission emission;
    uint32_t kept;
    size_t n;
    for (int frames = 0; frames < MOST; frames++) {
        CHECK(iwarp_emit(&from->handle, STREAM, frame, sizeof frame, &n, &emission) == IWARP_OK);
        if (emission.kind == IWARP_NOTHING) return frames;
        CHECK(iwarp_deliver(&to->handle, STREAM, to->next, frame, n, &kept) == IWARP_OK && kept == 1);
        to->next += (uint32_t)n;
    }
    return MOST;
}

/* Both ends after start-up: `b` has a region and a receive buffer. */
static void connect_both(struct end *a, struct end *b) {
    uint32_t stag, agreed;
    *a = opened(IWARP_INITIATOR, "from a");
    *b = opened(IWARP_RESPONDER, "");
    CHECK(iwarp_register(&b->handle, DOMAIN, 4096, octets("................"), 16, RIGHTS, &stag) == IWARP_OK);
    CHECK(iwarp_post_recv(&b->handle, STREAM, 32) == IWARP_OK);
    carry(a, b);
    CHECK(does(iwarp_work, b, STEPS(IWARP_ASKED, IWARP_IDLE)));
    CHECK(iwarp_accept(&b->handle, STREAM, octets("from b"), 6, &agreed) == IWARP_OK);
    carry(b, a);
}

/* ---- both ends, from start-up to an end */

static void start_up(void) {
    struct end a, b;
    uint8_t private_data[8] = {0};
    size_t n;
    connect_both(&a, &b);
    CHECK(does(iwarp_work, &a, STEPS(IWARP_OPENED, IWARP_IDLE)));
    CHECK(iwarp_private(&a.handle, STREAM, private_data, sizeof private_data, &n) == IWARP_OK);
    CHECK(memcmp(private_data, "from b\0\0", 8) == 0);
    CHECK(iwarp_private(&b.handle, STREAM, private_data, sizeof private_data, &n) == IWARP_OK);
    CHECK(memcmp(private_data, "from a\0\0", 8) == 0);
    CHECK(n == 6);
    CHECK(iwarp_first_number(&b.handle, STREAM, 0) == IWARP_LATE);
    close_both(&a, &b);
}

static void written_and_sent(void) {
    struct end a, b;
    struct iwarp_facts facts;
    uint8_t out[8];
    size_t n;
    memset(out, '_', sizeof out);
    connect_both(&a, &b);
    CHECK(does(iwarp_work, &a, STEPS(IWARP_OPENED, IWARP_IDLE)));
    CHECK(iwarp_post_write(&a.handle, STREAM, REGION, 4098, octets("octets"), 6, 7) == IWARP_OK);
    CHECK(iwarp_post_send(&a.handle, STREAM, octets("hi"), 2, IWARP_SOLICITED | IWARP_INVALIDATES, REGION, 0) == IWARP_OK);
    CHECK(carry(&a, &b) == 2);
    CHECK(does(iwarp_work, &a, STEPS(IWARP_DONE, IWARP_DONE, IWARP_IDLE)));
    CHECK(does(iwarp_work, &b, STEPS(IWARP_PLACED, IWARP_PASSED, IWARP_BUFFERED, IWARP_RECEIVED, IWARP_IDLE)));
    CHECK(iwarp_fetch(&b.handle, STREAM, out, sizeof out, &n) == IWARP_OK);
    CHECK(is_text(out, "hi______"));
    CHECK(iwarp_load(&b.handle, REGION, 4097, out, sizeof out) == IWARP_OK);
    CHECK(is_text(out, ".octets."));
    /* It is fetched, and the region is invalid. */
    CHECK(iwarp_fetch(&b.handle, STREAM, out, sizeof out, &n) == IWARP_OK);
    CHECK(n == 0);
    CHECK(iwarp_facts(&b.handle, REGION, &facts) == IWARP_OK && facts.valid == 0);
    close_both(&a, &b);
}

static void worked_on(void) {
    struct end a, b;
    uint8_t out[8];
    size_t n;
    memset(out, '_', sizeof out);
    connect_both(&a, &b);
    CHECK(does(iwarp_work_on, &a, STEPS(IWARP_OPENED, IWARP_IDLE)));
    CHECK(iwarp_post_write(&a.handle, STREAM, REGION, 4098, octets("octets"), 6, 7) == IWARP_OK);
    CHECK(post_text(&a, "hi", 0) == IWARP_OK);
    carry(&a, &b);
    CHECK(does(iwarp_work_on, &a, STEPS(IWARP_DONE, IWARP_DONE, IWARP_IDLE)));
    /* Placed and passed are not reported: the Send is received. */
    CHECK(does(iwarp_work_on, &b, STEPS(IWARP_RECEIVED, IWARP_IDLE)));
    CHECK(iwarp_fetch(&b.handle, STREAM, out, sizeof out, &n) == IWARP_OK);
    CHECK(is_text(out, "hi______"));
    CHECK(iwarp_load(&b.handle, REGION, 4097, out, sizeof out) == IWARP_OK);
    CHECK(is_text(out, ".octets."));
    close_both(&a, &b);
}

static void read_back(void) {
    struct end a, b;
    uint8_t out[4] = {0};
    uint32_t sink;
    size_t n;
    connect_both(&a, &b);
    CHECK(does(iwarp_work, &a, STEPS(IWARP_OPENED, IWARP_IDLE)));
    CHECK(iwarp_register(&a.handle, DOMAIN, 0, out, sizeof out, IWARP_SINK, &sink) == IWARP_OK);
    CHECK(iwarp_store(&b.handle, REGION, 4100, octets("read"), 4) == IWARP_OK);
    CHECK(iwarp_post_read(&a.handle, STREAM, REGION, 0, 4, REGION, 4100, 9) == IWARP_OK);
    CHECK(carry(&a, &b) == 1);
    CHECK(does(iwarp_work, &b, STEPS(IWARP_REQUESTED, IWARP_IDLE)));
    CHECK(carry(&b, &a) == 1);
    CHECK(does(iwarp_work, &a, STEPS(IWARP_PLACED, IWARP_PASSED, IWARP_DONE, IWARP_IDLE)));
    CHECK(iwarp_deregister(&a.handle, sink, out, sizeof out, &n) == IWARP_OK);
    CHECK(is_text(out, "read"));
    close_both(&a, &b);
}

static void broken(void) {
    struct end a, b;
    connect_both(&a, &b);
    CHECK(does(iwarp_work, &a, STEPS(IWARP_OPENED, IWARP_IDLE)));
    CHECK(post_text(&a, "lost", 0) == IWARP_OK);
    CHECK(iwarp_break(&a.handle, STREAM) == IWARP_OK);
    CHECK(carry(&a, &b) == 0);
    /* The Send is given up; at the other end the receive buffer comes back. */
    CHECK(does(iwarp_work, &a, STEPS(IWARP_FLUSHED, IWARP_IDLE)));
    CHECK(iwarp_break(&b.handle, STREAM) == IWARP_OK);
    CHECK(does(iwarp_work, &b, STEPS(IWARP_FLUSHED_RECV, IWARP_IDLE)));
    close_both(&a, &b);
}

/* Does a step at an end, and returns the token that is told. */
static uint64_t told_next(struct end *end, uint32_t stream) {
    struct iwarp_event event;
    CHECK(iwarp_work(&end->handle, stream, &event) == IWARP_OK);
    return event.token;
}

static void tokens(void) {
    struct end a = opened(IWARP_PRESET, "");
    CHECK(post_text(&a, "lost", 70) == IWARP_OK);
    CHECK(post_text(&a, "too", 80) == IWARP_OK);
    CHECK(iwarp_break(&a.handle, STREAM) == IWARP_OK);
    CHECK(told_next(&a, STREAM) == 70);
    CHECK(told_next(&a, STREAM) == 80);
    CHECK(told_next(&a, STREAM) == 0);
    iwarp_free(&a.handle);
}

/* Gives a stream a receive buffer, and has it hand that back. */
static void hand_back(struct end *end, uint32_t stream, size_t n) {
    CHECK(iwarp_post_recv(&end->handle, stream, n) == IWARP_OK);
    CHECK(iwarp_break(&end->handle, stream) == IWARP_OK);
    told_next(end, stream);
}

/* What two streams hand back is fetched where it was handed back. */
static void fetched_by_stream(void) {
    struct end a = opened(IWARP_PRESET, "");
    uint8_t out[8];
    size_t n;
    CHECK(iwarp_open(&a.handle, 1, DOMAIN, IWARP_PRESET, OPTIONS, iwarp_octets(NULL), 0) == IWARP_OK);
    hand_back(&a, STREAM, 3);
    hand_back(&a, 1, 5);
    CHECK(iwarp_fetch(&a.handle, STREAM, out, sizeof out, &n) == IWARP_OK);
    CHECK(n == 3);
    CHECK(iwarp_fetch(&a.handle, 1, out, sizeof out, &n) == IWARP_OK);
    CHECK(n == 5);
    iwarp_free(&a.handle);
}

/* ---- receive buffers out of a pool */

/* The second end takes its buffers from a pool. */
static void from_a_pool(void) {
    struct end a = opened(IWARP_PRESET, ""), b = sharing_wrapped();
    struct iwarp_buffer buffer = IWARP_NO_BUFFER;
    uint8_t out[4];
    uint32_t found;
    size_t n;
    memset(out, '_', sizeof out);
    CHECK(iwarp_post_shared(&b.handle, DOMAIN, 2) == IWARP_OK);
    CHECK(iwarp_post_shared(&b.handle, DOMAIN, 3) == IWARP_OK);
    CHECK(post_text(&a, "hi", 0) == IWARP_OK);
    carry(&a, &b);
    CHECK(does(iwarp_work, &b, STEPS(IWARP_BUFFERED, IWARP_RECEIVED, IWARP_IDLE)));
    CHECK(iwarp_fetch(&b.handle, STREAM, out, sizeof out, &n) == IWARP_OK);
    CHECK(is_text(out, "hi__"));
    /* The buffer that is left in the pool is taken out: the Send is at fault. */
    CHECK(iwarp_buffer_new(0, &buffer) == IWARP_OK);
    CHECK(iwarp_take_shared_buffer(&b.handle, DOMAIN, &buffer, &found) == IWARP_OK && found == 1);
    CHECK(post_text(&a, "hi", 0) == IWARP_OK);
    carry(&a, &b);
    CHECK(does(iwarp_work, &b, STEPS(IWARP_FAULT, IWARP_IDLE)));
    iwarp_buffer_free(&buffer);
    close_both(&a, &b);
}

/* A frame, and the sequence number of its first octet. */
struct frame {
    uint32_t number;
    size_t n;
    uint8_t octets[700];
};

/* Posts a Send of 600 octets, all of them this one. */
static void post_octets(struct end *end, int octet) {
    uint8_t message[600];
    memset(message, octet, sizeof message);
    CHECK(iwarp_post_send(&end->handle, STREAM, message, sizeof message, 0, 0, 0) == IWARP_OK);
}

/* Emits a frame whose first octet has this sequence number. */
static void emit(struct end *end, uint32_t number, struct frame *frame) {
    struct iwarp_emission emission;
    frame->number = number;
    CHECK(iwarp_emit(&end->handle, STREAM, frame->octets, sizeof frame->octets, &frame->n, &emission) == IWARP_OK);
}

static void deliver(struct end *end, const struct frame *frame) {
    uint32_t kept;
    CHECK(iwarp_deliver(&end->handle, STREAM, frame->number, frame->octets, frame->n, &kept) == IWARP_OK && kept == 1);
}

/* Delivers a frame, and returns the kind of the step that is told by work with this share. */
static uint32_t told_within(struct end *end, const struct frame *frame, size_t share) {
    struct iwarp_event event;
    deliver(end, frame);
    CHECK(iwarp_work_within(&end->handle, STREAM, share, &event) == IWARP_OK);
    return event.kind;
}

/* Of two Sends the second comes first. Tells how many buffers it binds, and returns what is then told of the first, with this
 * share. */
static uint32_t second_first(size_t share, uint64_t *bound) {
    struct end a = opened(IWARP_PRESET, ""), b = sharing_wrapped();
    struct iwarp_progress progress;
    struct frame one, two;
    CHECK(iwarp_post_shared(&b.handle, DOMAIN, 600) == IWARP_OK);
    CHECK(iwarp_post_shared(&b.handle, DOMAIN, 600) == IWARP_OK);
    post_octets(&a, 7);
    post_octets(&a, 8);
    emit(&a, first_number, &one);
    emit(&a, first_number + (uint32_t)one.n, &two);
    told_within(&b, &two, share);
    CHECK(iwarp_progress(&b.handle, STREAM, &progress) == IWARP_OK);
    *bound = progress.bound;
    uint32_t kind = told_within(&b, &one, share);
    close_both(&a, &b);
    return kind;
}

/* With a share of one the first Send finds no buffer, and the stream ends; with one of two it is received. */
static void from_a_share(void) {
    uint64_t bound;
    CHECK(second_first(1, &bound) == IWARP_FAULT && bound == 1);
    CHECK(second_first(2, &bound) == IWARP_RECEIVED && bound == 1);
}

/* ---- a high-water mark of a pool */

enum { SENDS = 7 };

/* No share, and a mark of one buffer. */
static const struct iwarp_limits limits = {.size = sizeof limits, .share = SIZE_MAX, .mark = 1};

static int32_t work_marked(struct iwarp *handle, uint32_t stream, struct iwarp_event *event) {
    return iwarp_work_marked(handle, stream, &limits, event);
}

/* The frames of the Sends, in order. */
static void emit_sends(struct frame frames[SENDS]) {
    struct end sender = opened(IWARP_PRESET, "");
    uint32_t number = 0;
    for (int i = 0; i < SENDS; i++) {
        post_octets(&sender, 7);
        emit(&sender, number, &frames[i]);
        number += (uint32_t)frames[i].n;
    }
    iwarp_free(&sender.handle);
}

/* The frame of one Send, out of a pool of two buffers, by work with these limits: the first event. */
static struct iwarp_event told_by(const struct iwarp_limits *these) {
    struct end sender = opened(IWARP_PRESET, ""), end = sharing();
    struct frame frame;
    struct iwarp_event event;
    post_octets(&sender, 7);
    emit(&sender, 0, &frame);
    for (int i = 0; i < 2; i++) CHECK(iwarp_post_shared(&end.handle, DOMAIN, 600) == IWARP_OK);
    deliver(&end, &frame);
    CHECK(iwarp_work_marked(&end.handle, STREAM, these, &event) == IWARP_OK);
    close_both(&sender, &end);
    return event;
}

static struct iwarp_limits limits_of(size_t size, size_t share, size_t mark, uint64_t flags) {
    return (struct iwarp_limits){.size = size, .share = share, .mark = mark, .flags = flags, .reserved = {9, 9, 9, 9}};
}

static int tells_by(size_t size, size_t share, size_t mark, uint64_t flags, uint32_t kind) {
    struct iwarp_limits these = limits_of(size, share, mark, flags);
    struct iwarp_event event = told_by(&these);
    CHECK(event.flags == (kind == IWARP_BUFFERED ? IWARP_ABOVE_MARK : 0));
    return event.kind == kind;
}

enum { OLD = 56 /* octets of the struct of 1.2, which has no flags */, NEW = 64 };
_Static_assert(sizeof(struct iwarp_limits) == NEW, "limits");

/* A cleared struct sets no limit. That of 1.2 sets both, whatever stands where the flags are now. */
static void a_cleared_struct_binds_nothing(void) {
    struct iwarp_limits cleared;
    memset(&cleared, 0, sizeof cleared);
    cleared.size = sizeof cleared;
    CHECK(told_by(&cleared).kind == IWARP_RECEIVED);
    cleared.size = OLD;
    CHECK(told_by(&cleared).kind == IWARP_FAULT);
    CHECK(tells_by(OLD, SIZE_MAX, 0, 0, IWARP_BUFFERED));
    CHECK(tells_by(OLD, SIZE_MAX, 0, IWARP_HAS_SHARE, IWARP_BUFFERED));
    CHECK(tells_by(OLD, SIZE_MAX, SIZE_MAX, 99, IWARP_RECEIVED));
    CHECK(tells_by(NEW - 1, 0, SIZE_MAX, IWARP_HAS_MARK, IWARP_FAULT));
}

/* The flags say which limits count; without one those that are not 0. */
static void flags_say_which_limits_count(void) {
    struct iwarp_limits unknown = limits_of(NEW, 1, 1, 4);
    struct iwarp_event event;
    struct end end = sharing();
    CHECK(tells_by(NEW, 0, 0, IWARP_HAS_SHARE, IWARP_FAULT));
    CHECK(tells_by(NEW, 0, 0, IWARP_HAS_MARK, IWARP_BUFFERED));
    CHECK(tells_by(NEW, 0, 0, IWARP_HAS_SHARE | IWARP_HAS_MARK, IWARP_FAULT));
    CHECK(tells_by(NEW, 1, 0, IWARP_HAS_SHARE | IWARP_HAS_MARK, IWARP_BUFFERED));
    CHECK(tells_by(NEW, 1, 0, IWARP_HAS_SHARE, IWARP_RECEIVED));
    CHECK(tells_by(NEW, 1, 1, 0, IWARP_RECEIVED));
    CHECK(tells_by(NEW + 64, 0, 0, 0, IWARP_RECEIVED));
    CHECK(iwarp_work_marked(&end.handle, 5, &unknown, &event) == IWARP_BAD_BITS);
    unknown.size = OLD;
    CHECK(iwarp_work_marked(&end.handle, 5, &unknown, &event) == IWARP_NO_SUCH_STREAM);
    iwarp_free(&end.handle);
}

/* 2,048 Writes of no octets, each two steps, and a Send behind them. */
static void carry_writes_and_a_send(struct end *sender, struct end *end) {
    struct iwarp_event event;
    for (int i = 0; i < 2048; i++) {
        CHECK(iwarp_post_write(&sender->handle, STREAM, REGION, 0, iwarp_octets(NULL), 0, 0) == IWARP_OK);
        CHECK(carry(sender, end) == 1);
        CHECK(iwarp_work(&sender->handle, STREAM, &event) == IWARP_OK && event.kind == IWARP_DONE);
    }
    CHECK(post_text(sender, "hi", 0) == IWARP_OK);
    CHECK(carry(sender, end) == 1);
}

/* What is told after 4,096 steps alone has no flag: it binds a first buffer, and the mark is one. */
static void many_steps_are_no_mark(void) {
    struct end sender = opened(IWARP_PRESET, ""), end = sharing();
    struct iwarp_event event;
    CHECK(iwarp_post_shared(&end.handle, DOMAIN, 2) == IWARP_OK);
    carry_writes_and_a_send(&sender, &end);
    CHECK(iwarp_work(&end.handle, STREAM, &event) == IWARP_OK && event.kind == IWARP_PLACED);
    CHECK(work_marked(&end.handle, STREAM, &event) == IWARP_OK);
    CHECK(event.kind == IWARP_BUFFERED && event.flags == 0);
    CHECK(does(work_marked, &end, STEPS(IWARP_RECEIVED, IWARP_IDLE)));
    close_both(&sender, &end);
}

/* A frame comes, and all is done that there is to do: whether what is told is of these kinds. */
static int tells(struct end *end, const struct frame *frame, const uint32_t *steps) {
    deliver(end, frame);
    return does(work_marked, end, steps);
}

static void a_mark_is_told_once_until_less_is_bound(void) {
    struct end end = sharing();
    struct frame frames[SENDS];
    emit_sends(frames);
    for (int i = 0; i < SENDS; i++) CHECK(iwarp_post_shared(&end.handle, DOMAIN, 600) == IWARP_OK);
    /* Behind a hole one buffer is bound, then two, then three. */
    CHECK(tells(&end, &frames[1], STEPS(IWARP_IDLE)));
    CHECK(tells(&end, &frames[2], STEPS(IWARP_BUFFERED, IWARP_IDLE)));
    CHECK(tells(&end, &frames[3], STEPS(IWARP_IDLE)));
    /* The hole is filled: all four are received, and none is bound. */
    CHECK(tells(&end, &frames[0], STEPS(IWARP_RECEIVED, IWARP_RECEIVED, IWARP_RECEIVED, IWARP_RECEIVED, IWARP_IDLE)));
    CHECK(tells(&end, &frames[5], STEPS(IWARP_IDLE)));
    CHECK(tells(&end, &frames[6], STEPS(IWARP_BUFFERED, IWARP_IDLE)));
    iwarp_free(&end.handle);
}

static void the_struct_is_judged_before_the_stream(void) {
    struct iwarp end = IWARP_CLOSED;
    struct iwarp_limits shorter = limits;
    struct iwarp_event event;
    shorter.size = OLD - 1;
    CHECK(iwarp_work_marked(&end, 5, &shorter, &event) == IWARP_IS_CLOSED);
    CHECK(iwarp_new(&end) == IWARP_OK);
    CHECK(iwarp_work_marked(&end, 5, &shorter, &event) == IWARP_BAD_STRUCT);
    CHECK(iwarp_work_marked(&end, 5, &limits, &event) == IWARP_NO_SUCH_STREAM);
    iwarp_free(&end);
}

int main(void) {
    start_up();
    written_and_sent();
    worked_on();
    read_back();
    broken();
    tokens();
    fetched_by_stream();
    from_a_pool();
    from_a_share();
    a_mark_is_told_once_until_less_is_bound();
    the_struct_is_judged_before_the_stream();
    a_cleared_struct_binds_nothing();
    flags_say_which_limits_count();
    many_steps_are_no_mark();
    puts("ok");
    return 0;
}
