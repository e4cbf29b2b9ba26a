/* Tests of calls on one handle: octets that change hands, streams that are closed, buffers that are filled with frames, places
 * that are lent, and structs that begin with their size. What a call refuses, and what a refusal leaves, is proved (crates/iw_c).
 * Prints `ok`, or the first answer that is not as include/iwarp.h says, with status 1. */
#include "host.h"
#include "checks.h"

enum { DOMAIN = 1, STREAM = 0, REGION = 0x01000000 /* the first region of the domain */ };

/* Programs have these numbers compiled in, so they stay. */
_Static_assert(IWARP_PRESET == 0 && IWARP_INITIATOR == 1 && IWARP_RESPONDER == 2 && IWARP_ENHANCED == 4, "openings");
_Static_assert(IWARP_WRITE == 1 && IWARP_SINK == 4 && IWARP_SOLICITED == 1 && IWARP_INVALIDATES == 2, "rights and flags");
_Static_assert(IWARP_MESSAGE_WRITE == 1 && IWARP_MESSAGE_SEND == 2 && IWARP_MESSAGE_READ == 3, "messages");
_Static_assert(IWARP_IDLE == 0 && IWARP_FLUSHED == 2 && IWARP_FLUSHED_RECV == 3, "steps");
_Static_assert(IWARP_NOTHING == 0 && IWARP_FRAME == 1 && IWARP_FILL_ALL == 0 && IWARP_FILL_MORE == 1, "emissions");

static const uint8_t *octets(const char *text) { return (const uint8_t *)text; }

/* A handle with a domain. */
static struct iwarp with_domain(void) {
    struct iwarp end = IWARP_CLOSED;
    CHECK(iwarp_new(&end) == IWARP_OK && iwarp_add_domain(&end, DOMAIN) == IWARP_OK);
    return end;
}

/* Opens a stream that is open at once, under a number that is picked, or is given. */
static int32_t open_preset(struct iwarp *end, uint32_t stream) {
    return iwarp_open(end, stream, DOMAIN, IWARP_PRESET, 0, iwarp_octets(NULL), 0);
}

static int32_t open_next(struct iwarp *end, uint32_t role, uint32_t *stream) {
    return iwarp_open_next(end, DOMAIN, role, 0, iwarp_octets(NULL), 0, stream);
}

static int32_t post_text(struct iwarp *end, uint32_t stream, const char *text, uint64_t token) {
    return iwarp_post_send(end, stream, octets(text), strlen(text), 0, 0, token);
}

/* How many octets a buffer has. */
static size_t length(struct iwarp_buffer *buffer) {
    uint8_t *at;
    size_t n = 0;
    CHECK(iwarp_buffer_at(buffer, &at, &n) == IWARP_OK);
    return n;
}

/* ---- octets that change hands with no copy: regions, frames, receive buffers and messages */

/* A handle with an open stream, in a domain that has a pool. */
static struct iwarp with_pool(void) {
    struct iwarp end = with_domain();
    CHECK(iwarp_share(&end, DOMAIN) == IWARP_OK && open_preset(&end, STREAM) == IWARP_OK);
    return end;
}

static void made(void) {
    struct iwarp_buffer buffer = IWARP_NO_BUFFER;
    CHECK(iwarp_buffer_truncate(&buffer, 1) == IWARP_BUFFER_MISSING);
    CHECK(iwarp_buffer_new(8, &buffer) == IWARP_OK);
    CHECK(iwarp_buffer_new(8, &buffer) == IWARP_BUFFER_EXISTS);
    CHECK(iwarp_buffer_truncate(&buffer, 9) == IWARP_OK);
    CHECK(length(&buffer) == 8);
    CHECK(iwarp_buffer_truncate(&buffer, 3) == IWARP_OK);
    CHECK(length(&buffer) == 3);
    iwarp_buffer_free(&buffer);
    CHECK(iwarp_buffer_truncate(&buffer, 1) == IWARP_BUFFER_MISSING);
}

static void registered(void) {
    struct iwarp end = with_pool();
    struct iwarp_buffer buffer = IWARP_NO_BUFFER;
    uint32_t stag;
    CHECK(iwarp_register_buffer(&end, DOMAIN, 0, &buffer, IWARP_WRITE, &stag) == IWARP_BUFFER_MISSING);
    CHECK(iwarp_buffer_new(4, &buffer) == IWARP_OK);
    CHECK(iwarp_register_buffer(&end, 2, 0, &buffer, IWARP_WRITE, &stag) == IWARP_NO_DOMAIN);
    CHECK(length(&buffer) == 4);
    CHECK(iwarp_register_buffer(&end, DOMAIN, 100, &buffer, IWARP_WRITE, &stag) == IWARP_OK);
    CHECK(length(&buffer) == 0);
    CHECK(iwarp_store(&end, stag, 100, octets("abcd"), 4) == IWARP_OK);
    CHECK(iwarp_deregister_buffer(&end, stag, &buffer) == IWARP_OK);
    CHECK(length(&buffer) == 4);
    CHECK(iwarp_drop_region(&end, stag) == IWARP_NO_REGION);
    iwarp_buffer_free(&buffer);
    iwarp_free(&end);
}

/* Two frames stand one behind the other, and are written out at once. */
static void emitted(void) {
    struct iwarp end = with_pool();
    struct iwarp_buffer frames = IWARP_NO_BUFFER;
    struct iwarp_emission emission;
    CHECK(iwarp_buffer_new(0, &frames) == IWARP_OK);
    CHECK(post_text(&end, STREAM, "hi", 0) == IWARP_OK);
    CHECK(post_text(&end, STREAM, "there", 0) == IWARP_OK);
    CHECK(iwarp_emit_onto(&end, STREAM, &frames, &emission) == IWARP_OK && emission.kind == IWARP_FRAME);
    CHECK(length(&frames) == 28);
    CHECK(iwarp_emit_onto(&end, STREAM, &frames, &emission) == IWARP_OK && emission.from == 28);
    CHECK(iwarp_emit_onto(&end, STREAM, &frames, &emission) == IWARP_OK && emission.kind == IWARP_NOTHING);
    CHECK(length(&frames) == 60);
    iwarp_buffer_free(&frames);
    iwarp_free(&end);
}

/* A receive buffer that is flushed comes back whole, and goes to the pool and out of it. */
static void handed_back(void) {
    struct iwarp end = with_pool();
    struct iwarp_buffer buffer = IWARP_NO_BUFFER;
    struct iwarp_event event;
    uint32_t found;
    size_t n;
    CHECK(iwarp_buffer_new(32, &buffer) == IWARP_OK);
    CHECK(iwarp_post_recv_buffer(&end, STREAM, &buffer) == IWARP_OK);
    CHECK(length(&buffer) == 0);
    CHECK(iwarp_break(&end, STREAM) == IWARP_OK);
    CHECK(iwarp_work(&end, STREAM, &event) == IWARP_OK);
    iwarp_buffer_free(&buffer);
    CHECK(iwarp_buffer_new(3, &buffer) == IWARP_OK);
    CHECK(iwarp_fetch_buffer(&end, STREAM + 1, &buffer, &n) == IWARP_NO_SUCH_STREAM);
    CHECK(length(&buffer) == 3);
    CHECK(iwarp_fetch_buffer(&end, STREAM, &buffer, &n) == IWARP_OK && n == 32);
    CHECK(iwarp_post_shared_buffer(&end, DOMAIN, &buffer) == IWARP_OK);
    CHECK(iwarp_take_shared_buffer(&end, DOMAIN, &buffer, &found) == IWARP_OK && found == 1);
    CHECK(iwarp_take_shared_buffer(&end, DOMAIN, &buffer, &found) == IWARP_OK && found == 0);
    CHECK(length(&buffer) == 32);
    iwarp_buffer_free(&buffer);
    iwarp_free(&end);
}

/* Does a step, and moves the octets of the message that it tells into the buffer. Whether it tells this token, and they are so
 * many. */
static int is_next_sent(struct iwarp *end, struct iwarp_buffer *buffer, uint64_t token, size_t n) {
    struct iwarp_event event;
    CHECK(iwarp_work(end, STREAM, &event) == IWARP_OK);
    CHECK(iwarp_fetch_sent(end, STREAM, buffer) == IWARP_OK);
    return event.token == token && length(buffer) == n;
}

/* What is posted from a buffer comes back when it is done or flushed, and what is copied does not. */
static void sent(void) {
    struct iwarp end = with_pool();
    struct iwarp_buffer buffer = IWARP_NO_BUFFER, frames = IWARP_NO_BUFFER;
    struct iwarp_emission emission;
    CHECK(iwarp_buffer_new(0, &frames) == IWARP_OK);
    CHECK(iwarp_buffer_new(32, &buffer) == IWARP_OK);
    CHECK(iwarp_post_send_buffer(&end, STREAM, &buffer, 4, 0, 1) == IWARP_BAD_BITS);
    CHECK(length(&buffer) == 32);
    CHECK(iwarp_post_send_buffer(&end, STREAM, &buffer, 0, 0, 1) == IWARP_OK);
    CHECK(length(&buffer) == 0);
    CHECK(post_text(&end, STREAM, "hi", 2) == IWARP_OK);
    CHECK(iwarp_emit_onto(&end, STREAM, &frames, &emission) == IWARP_OK);
    CHECK(iwarp_emit_onto(&end, STREAM, &frames, &emission) == IWARP_OK);
    CHECK(is_next_sent(&end, &buffer, 1, 32));
    CHECK(is_next_sent(&end, &buffer, 2, 0));
    iwarp_buffer_free(&frames);
    iwarp_buffer_free(&buffer);
    iwarp_free(&end);
}

/* And if the call is refused, the buffer keeps them. */
static void flushed(void) {
    struct iwarp end = with_pool();
    struct iwarp_buffer buffer = IWARP_NO_BUFFER;
    CHECK(iwarp_buffer_new(8, &buffer) == IWARP_OK);
    CHECK(iwarp_post_write_buffer(&end, STREAM, 7, 0, &buffer, 3) == IWARP_OK);
    CHECK(iwarp_break(&end, STREAM) == IWARP_OK);
    CHECK(is_next_sent(&end, &buffer, 3, 8));
    CHECK(iwarp_fetch_sent(&end, STREAM + 1, &buffer) == IWARP_NO_SUCH_STREAM);
    CHECK(iwarp_post_write_buffer(&end, STREAM, 7, 0, &buffer, 4) == IWARP_NOT_OPEN);
    CHECK(length(&buffer) == 8);
    iwarp_buffer_free(&buffer);
    iwarp_free(&end);
}

/* What came back is posted again, shorter, and then has a frame put behind it, and is a region. */
static void sent_again(void) {
    struct iwarp end = with_pool();
    struct iwarp_buffer buffer = IWARP_NO_BUFFER, frames = IWARP_NO_BUFFER;
    struct iwarp_emission emission;
    uint32_t stag;
    CHECK(iwarp_buffer_new(0, &frames) == IWARP_OK);
    CHECK(iwarp_buffer_new(32, &buffer) == IWARP_OK);
    CHECK(iwarp_post_send_buffer(&end, STREAM, &buffer, 0, 0, 1) == IWARP_OK);
    CHECK(iwarp_emit_onto(&end, STREAM, &frames, &emission) == IWARP_OK);
    CHECK(is_next_sent(&end, &buffer, 1, 32));
    CHECK(iwarp_buffer_truncate(&buffer, 16) == IWARP_OK);
    CHECK(iwarp_post_send_buffer(&end, STREAM, &buffer, 0, 0, 2) == IWARP_OK);
    CHECK(iwarp_emit_onto(&end, STREAM, &frames, &emission) == IWARP_OK);
    CHECK(is_next_sent(&end, &buffer, 2, 16));
    CHECK(post_text(&end, STREAM, "hi", 3) == IWARP_OK);
    CHECK(iwarp_emit_onto(&end, STREAM, &buffer, &emission) == IWARP_OK);
    CHECK(length(&buffer) == 44);
    CHECK(iwarp_register_buffer(&end, DOMAIN, 0, &buffer, IWARP_WRITE, &stag) == IWARP_OK);
    CHECK(length(&buffer) == 0);
    CHECK(iwarp_deregister_buffer(&end, stag, &buffer) == IWARP_OK);
    CHECK(length(&buffer) == 44);
    iwarp_buffer_free(&frames);
    iwarp_buffer_free(&buffer);
    iwarp_free(&end);
}

/* ---- streams whose numbers the endpoint gives, and streams that are closed */

static void numbers_are_given(void) {
    struct iwarp end = IWARP_CLOSED;
    uint32_t stream;
    CHECK(open_next(&end, IWARP_PRESET, &stream) == IWARP_IS_CLOSED);
    CHECK(iwarp_new(&end) == IWARP_OK);
    CHECK(open_next(&end, IWARP_PRESET, &stream) == IWARP_NO_DOMAIN);
    CHECK(iwarp_add_domain(&end, DOMAIN) == IWARP_OK);
    CHECK(iwarp_open_shared_next(&end, DOMAIN, IWARP_PRESET, 0, iwarp_octets(NULL), 0, &stream) == IWARP_NOT_SHARED);
    CHECK(open_next(&end, IWARP_PRESET, &stream) == IWARP_OK && stream == 64);
    CHECK(iwarp_share(&end, DOMAIN) == IWARP_OK);
    CHECK(iwarp_open_shared_next(&end, DOMAIN, IWARP_PRESET, 0, iwarp_octets(NULL), 0, &stream) == IWARP_OK && stream == 65);
    CHECK(open_next(&end, 3, &stream) == IWARP_BAD_ROLE);
    CHECK(open_next(&end, IWARP_PRESET, &stream) == IWARP_OK && stream == 66);
    iwarp_free(&end);
}

/* The kind of the event that the next step of a stream reports. */
static uint32_t next_event(struct iwarp *end, uint32_t stream) {
    struct iwarp_event event;
    CHECK(iwarp_work_on(end, stream, &event) == IWARP_OK);
    return event.kind;
}

static void streams_are_closed(void) {
    struct iwarp end = with_domain();
    uint32_t stream;
    uint8_t out[4];
    size_t n = 9;
    CHECK(open_next(&end, IWARP_PRESET, &stream) == IWARP_OK);
    CHECK(iwarp_post_recv(&end, stream, 3) == IWARP_OK);
    CHECK(post_text(&end, stream, "hi", 5) == IWARP_OK);
    CHECK(iwarp_close(&end, stream) == IWARP_NOT_AT_REST);
    CHECK(iwarp_break(&end, stream) == IWARP_OK);
    CHECK(next_event(&end, stream) == IWARP_FLUSHED);
    CHECK(next_event(&end, stream) == IWARP_FLUSHED_RECV);
    CHECK(next_event(&end, stream) == IWARP_IDLE);
    CHECK(iwarp_close(&end, stream) == IWARP_OK);
    CHECK(iwarp_close(&end, stream) == IWARP_NO_SUCH_STREAM);
    CHECK(iwarp_fetch(&end, stream, out, sizeof out, &n) == IWARP_NO_SUCH_STREAM);
    CHECK(n == 9);
    CHECK(open_next(&end, IWARP_PRESET, &stream) == IWARP_OK && stream == 65);
    iwarp_free(&end);
}

/* ---- buffers that are filled with frames, and of which the front is dropped */

enum { FRAME = 28 /* octets of the frame of a Send of two */ };

/* A handle with an open stream, at which three Sends are posted. */
static struct iwarp with_sends(void) {
    struct iwarp end = with_domain();
    CHECK(open_preset(&end, STREAM) == IWARP_OK);
    CHECK(post_text(&end, STREAM, "ab", 1) == IWARP_OK);
    CHECK(post_text(&end, STREAM, "cd", 2) == IWARP_OK);
    CHECK(post_text(&end, STREAM, "ef", 3) == IWARP_OK);
    return end;
}

/* Fills a buffer: whether that stopped for this reason, and so many frames and octets were appended. */
static int fills(struct iwarp *end, size_t most, struct iwarp_buffer *buffer, uint32_t kind, uint64_t frames, uint64_t n) {
    struct iwarp_filling filling;
    CHECK(iwarp_fill(end, STREAM, most, buffer, &filling) == IWARP_OK);
    return filling.kind == kind && filling.frames == frames && filling.n == n;
}

/* A first frame goes in whatever its length, and no other is one too many. */
static void filled(void) {
    struct iwarp end = with_sends();
    struct iwarp_buffer buffer = IWARP_NO_BUFFER;
    CHECK(iwarp_buffer_new(3, &buffer) == IWARP_OK);
    CHECK(fills(&end, 0, &buffer, IWARP_FILL_MORE, 1, FRAME));
    CHECK(length(&buffer) == 31);
    CHECK(fills(&end, 55, &buffer, IWARP_FILL_MORE, 1, FRAME));
    CHECK(fills(&end, 56, &buffer, IWARP_FILL_ALL, 1, FRAME));
    CHECK(fills(&end, 56, &buffer, IWARP_FILL_ALL, 0, 0));
    CHECK(length(&buffer) == 87);
    /* Behind a first frame that is longer it is not looked whether more is due; behind one that fits it is. */
    CHECK(post_text(&end, STREAM, "gh", 4) == IWARP_OK);
    CHECK(fills(&end, FRAME - 1, &buffer, IWARP_FILL_MORE, 1, FRAME));
    CHECK(fills(&end, FRAME - 1, &buffer, IWARP_FILL_ALL, 0, 0));
    CHECK(post_text(&end, STREAM, "ij", 5) == IWARP_OK);
    CHECK(fills(&end, FRAME, &buffer, IWARP_FILL_ALL, 1, FRAME));
    iwarp_buffer_free(&buffer);
    iwarp_free(&end);
}

/* What a socket took is dropped, and the rest is in front. */
static void dropped(void) {
    struct iwarp end = with_sends();
    struct iwarp_buffer buffer = IWARP_NO_BUFFER;
    CHECK(iwarp_buffer_drop_front(&buffer, 1) == IWARP_BUFFER_MISSING);
    CHECK(iwarp_buffer_new(0, &buffer) == IWARP_OK);
    CHECK(fills(&end, 99, &buffer, IWARP_FILL_ALL, 3, 84));
    CHECK(iwarp_buffer_drop_front(&buffer, 80) == IWARP_OK);
    CHECK(length(&buffer) == 4);
    CHECK(iwarp_buffer_drop_front(&buffer, 5) == IWARP_OK);
    CHECK(length(&buffer) == 0);
    iwarp_buffer_free(&buffer);
    iwarp_free(&end);
}

/* ---- places that are lent to read to, and regions for one stream */

enum { GIVEN = 64 /* the first number that is given */ };

/* A handle with an open stream whose number was given. */
static struct iwarp with_stream(void) {
    struct iwarp end = with_domain();
    uint32_t stream;
    CHECK(open_next(&end, IWARP_PRESET, &stream) == IWARP_OK);
    return end;
}

/* Whether a place is lent for so many octets. They are written, as by a read. */
static int lends(struct iwarp *end, uint32_t stream, size_t want, size_t room) {
    uint8_t *at;
    size_t n;
    CHECK(iwarp_room(end, stream, want, &at, &n) == IWARP_OK);
    memset(at, 0, n);
    return n == room;
}

static void places_are_lent(void) {
    struct iwarp end = with_stream();
    uint8_t *at;
    size_t n;
    CHECK(iwarp_room(&end, 1, 8, &at, &n) == IWARP_NO_SUCH_STREAM);
    CHECK(iwarp_came(&end, 1, 8) == IWARP_NO_SUCH_STREAM);
    CHECK(iwarp_came(&end, GIVEN, 1) == IWARP_NOT_LENT);
    CHECK(lends(&end, GIVEN, 8, 8));
    CHECK(iwarp_came(&end, GIVEN, 9) == IWARP_NOT_LENT);
    CHECK(iwarp_came(&end, GIVEN, 5) == IWARP_OK);
    CHECK(iwarp_came(&end, GIVEN, 3) == IWARP_NOT_LENT);
    CHECK(lends(&end, GIVEN, 99999, 65536));
    CHECK(iwarp_break(&end, GIVEN) == IWARP_OK);
    CHECK(lends(&end, GIVEN, 99999, 4096));
    CHECK(iwarp_came(&end, GIVEN, 4096) == IWARP_OK);
    iwarp_free(&end);
}

/* Places are lent at two streams at once, and each is taken for what it is. Calls that tell or post something leave them, and
 * work at their stream takes them back. */
static void places_are_lent_at_once(void) {
    struct iwarp end = with_stream();
    struct iwarp_progress progress;
    struct iwarp_event event;
    uint32_t other;
    CHECK(open_next(&end, IWARP_PRESET, &other) == IWARP_OK);
    CHECK(lends(&end, GIVEN, 8, 8));
    CHECK(lends(&end, other, 16, 16));
    CHECK(iwarp_post_recv(&end, GIVEN, 4) == IWARP_OK);
    CHECK(post_text(&end, GIVEN, "hi", 0) == IWARP_OK);
    CHECK(iwarp_progress(&end, GIVEN, &progress) == IWARP_OK);
    CHECK(iwarp_came(&end, GIVEN, 9) == IWARP_NOT_LENT);
    CHECK(iwarp_came(&end, GIVEN, 8) == IWARP_OK);
    CHECK(iwarp_work(&end, GIVEN, &event) == IWARP_OK);
    CHECK(iwarp_came(&end, other, 16) == IWARP_OK);
    CHECK(lends(&end, other, 16, 16));
    CHECK(iwarp_work(&end, other, &event) == IWARP_OK);
    CHECK(iwarp_came(&end, other, 1) == IWARP_NOT_LENT);
    iwarp_free(&end);
}

/* Calls that are refused leave a place lent, but for those that take it back whatever they return. */
static void a_refused_call_leaves_a_place_lent(void) {
    struct iwarp end = with_stream();
    struct iwarp_limits shorter = {.size = 55};
    struct iwarp_event event;
    CHECK(lends(&end, GIVEN, 8, 8));
    CHECK(iwarp_came(&end, GIVEN, 0) == IWARP_NOT_LENT);
    CHECK(iwarp_came(&end, GIVEN, 9) == IWARP_NOT_LENT);
    CHECK(iwarp_close(&end, GIVEN) == IWARP_NOT_AT_REST);
    CHECK(iwarp_came(&end, GIVEN, 8) == IWARP_OK);
    CHECK(lends(&end, GIVEN, 8, 8));
    CHECK(iwarp_work_marked(&end, GIVEN, &shorter, &event) == IWARP_BAD_STRUCT);
    CHECK(iwarp_came(&end, GIVEN, 8) == IWARP_NOT_LENT);
    iwarp_free(&end);
}

static int32_t register_for(struct iwarp *end, uint32_t stream, uint32_t rights, uint32_t *stag) {
    return iwarp_register_for(end, stream, 0, octets("abcd"), 4, rights, stag);
}

static void a_region_is_for_one_stream(void) {
    struct iwarp end = with_stream();
    struct iwarp_facts facts;
    uint32_t stag, none;
    CHECK(register_for(&end, 1, IWARP_WRITE, &stag) == IWARP_NO_SUCH_STREAM);
    CHECK(register_for(&end, GIVEN, 16, &stag) == IWARP_BAD_BITS);
    CHECK(register_for(&end, GIVEN, IWARP_WRITE, &stag) == IWARP_OK);
    CHECK(iwarp_facts(&end, stag, &facts) == IWARP_OK && facts.limited == 1 && facts.stream == GIVEN);
    CHECK(iwarp_break(&end, GIVEN) == IWARP_OK);
    CHECK(register_for(&end, GIVEN, IWARP_WRITE, &none) == IWARP_ENDED);
    CHECK(iwarp_close(&end, GIVEN) == IWARP_OK);
    CHECK(iwarp_facts(&end, stag, &facts) == IWARP_OK && facts.valid == 0);
    iwarp_free(&end);
}

/* ---- structs that begin with their size: what is told in them, and what is posted by them */

enum { SIZED = 7 /* the stream, whose number was picked */ };

/* A message to region 9 of the peer at tagged offset 100, or a Read of 5 octets from there. What is reserved is not read. */
static struct iwarp_posting posting(uint32_t kind, uint64_t flags) {
    return (struct iwarp_posting){.size = sizeof(struct iwarp_posting), .kind = kind, .stag = 9, .sink = REGION, .len = 5,
                                  .flags = flags, .to = 100, .sink_to = 4096, .token = 77, .reserved = {1, 1, 1, 1}};
}

/* Structs that are marked all over. */
static struct iwarp_region marked_region(size_t size) {
    return (struct iwarp_region){size, {90, 90, 90, 90, 90, 90}, {90, 90, 90, 90}};
}

static struct iwarp_peer marked_peer(size_t size) {
    return (struct iwarp_peer){size, {90, 90, 90, 90, 90, 90, 90, 90, 90, 90}, {90, 90, 90, 90}};
}

/* A handle with an open stream and a region of 16 octets. */
static struct iwarp with_region(void) {
    struct iwarp_options options = {.size = 48, .flags = 0, .reserved = {1, 1, 1, 1}};
    struct iwarp end = IWARP_CLOSED;
    const uint8_t zeroes[16] = {0};
    uint32_t stag;
    CHECK(iwarp_new_with(&end, &options) == IWARP_OK);
    CHECK(iwarp_add_domain(&end, DOMAIN) == IWARP_OK);
    CHECK(iwarp_register(&end, DOMAIN, 4096, zeroes, sizeof zeroes, IWARP_WRITE | IWARP_SINK, &stag) == IWARP_OK);
    CHECK(open_preset(&end, SIZED) == IWARP_OK);
    return end;
}

static void region_told(void) {
    struct iwarp end = with_region();
    struct iwarp_region told = marked_region(71);
    CHECK(iwarp_region_facts(&end, REGION, &told) == IWARP_BAD_STRUCT);
    CHECK(told.facts.base == 90);
    told.size = 72;
    CHECK(iwarp_region_facts(&end, 1, &told) == IWARP_NO_REGION);
    CHECK(told.reserved[3] == 90);
    CHECK(iwarp_region_facts(&end, REGION, &told) == IWARP_OK);
    CHECK(told.size == 72);
    CHECK(told.facts.base == 4096);
    CHECK(told.facts.len == 16);
    CHECK(told.facts.rights == (IWARP_WRITE | IWARP_SINK));
    CHECK(told.facts.valid == 1);
    CHECK(told.facts.limited == 0);
    CHECK(told.reserved[0] == 0);
    CHECK(told.reserved[3] == 0);
    iwarp_free(&end);
}

/* A Request of revision 2 tells that 16 Reads are taken, and are wanted. */
static void request_told(struct iwarp *end, struct iwarp_peer *told) {
    struct iwarp asking = with_domain();
    struct iwarp_emission emission;
    struct iwarp_event event;
    uint8_t out[64];
    uint32_t kept;
    size_t n;
    CHECK(iwarp_open(&asking, SIZED, DOMAIN, IWARP_INITIATOR, IWARP_ENHANCED, iwarp_octets(NULL), 0) == IWARP_OK);
    CHECK(iwarp_emit(&asking, SIZED, out, sizeof out, &n, &emission) == IWARP_OK);
    CHECK(iwarp_open(end, 8, DOMAIN, IWARP_RESPONDER, IWARP_ENHANCED, iwarp_octets(NULL), 0) == IWARP_OK);
    CHECK(iwarp_deliver(end, 8, 0, out, n, &kept) == IWARP_OK && kept == 1);
    CHECK(iwarp_work(end, 8, &event) == IWARP_OK);
    CHECK(iwarp_peer_facts(end, 8, told) == IWARP_OK);
    CHECK(told->told.revision == 2);
    CHECK(told->told.has_word == 1);
    CHECK(told->told.ird == 16);
    CHECK(told->told.ord == 16);
    iwarp_free(&asking);
}

/* The struct of a later version, of 200 octets: those that this one does not have are left alone. */
static void peer_told(void) {
    struct iwarp end = with_region();
    struct {
        struct iwarp_peer peer;
        uint8_t later[120];
    } longer = {marked_peer(79), {90}};
    struct iwarp_peer *told = &longer.peer;
    _Static_assert(sizeof longer == 200, "longer");
    CHECK(iwarp_peer_facts(&end, SIZED, told) == IWARP_BAD_STRUCT);
    told->size = 200;
    CHECK(iwarp_peer_facts(&end, 1, told) == IWARP_NO_SUCH_STREAM);
    CHECK(told->told.ird == 90);
    CHECK(iwarp_peer_facts(&end, SIZED, told) == IWARP_OK);
    CHECK(told->size == 200);
    CHECK(longer.later[0] == 90);
    CHECK(told->told.revision == 0);
    CHECK(told->told.rtr_read == 0);
    CHECK(told->reserved[2] == 0);
    request_told(&end, told);
    iwarp_free(&end);
}

/* The next frame of the stream, which has so many octets. */
static size_t frame(struct iwarp *end, uint8_t *out, size_t room) {
    struct iwarp_emission emission;
    size_t n;
    CHECK(iwarp_emit(end, SIZED, out, room, &n, &emission) == IWARP_OK);
    return n;
}

static void post_by_structs(struct iwarp *end) {
    struct iwarp_posting send = posting(IWARP_MESSAGE_SEND, 0), invalidating = posting(IWARP_MESSAGE_SEND, 3);
    struct iwarp_posting write = posting(IWARP_MESSAGE_WRITE, 0), read = posting(IWARP_MESSAGE_READ, 0);
    CHECK(iwarp_post(end, SIZED, &send, octets("hi"), 2) == IWARP_OK);
    CHECK(iwarp_post(end, SIZED, &invalidating, octets("hi"), 2) == IWARP_OK);
    CHECK(iwarp_post(end, SIZED, &write, octets("there"), 5) == IWARP_OK);
    CHECK(iwarp_post(end, SIZED, &read, octets("unread"), 6) == IWARP_OK);
}

static void post_by_numbers(struct iwarp *end) {
    CHECK(iwarp_post_send(end, SIZED, octets("hi"), 2, 0, 9, 1) == IWARP_OK);
    CHECK(iwarp_post_send(end, SIZED, octets("hi"), 2, 3, 9, 2) == IWARP_OK);
    CHECK(iwarp_post_write(end, SIZED, 9, 100, octets("there"), 5, 3) == IWARP_OK);
    CHECK(iwarp_post_read(end, SIZED, REGION, 4096, 5, 9, 100, 4) == IWARP_OK);
}

/* A Send, a Write and a Read are on the wire as those of the calls that take numbers. */
static void posted(void) {
    struct iwarp by_struct = with_region(), by_numbers = with_region();
    struct iwarp_event event;
    uint8_t first[28] = {0}, one[64] = {0}, two[64] = {0};
    post_by_structs(&by_struct);
    post_by_numbers(&by_numbers);
    CHECK(frame(&by_struct, first, sizeof first) == 28);
    CHECK(memcmp(first, "\x00\x14\x41\x43\0\0\0\0\0\0\0\0\0\0\0\x01\0\0\0\0hi\0\0\0\0\0\0", 28) == 0);
    frame(&by_numbers, two, sizeof two);
    for (int i = 0; i < 3; i++) {
        size_t n = frame(&by_struct, one, sizeof one);
        CHECK(frame(&by_numbers, two, sizeof two) == n);
        CHECK(n > 24);
        CHECK(memcmp(one, two, sizeof one) == 0);
    }
    CHECK(iwarp_work(&by_struct, SIZED, &event) == IWARP_OK);
    CHECK(event.token == 77);
    iwarp_free(&by_struct);
    iwarp_free(&by_numbers);
}

static int32_t post_buffer(struct iwarp *end, uint32_t kind, uint64_t flags, struct iwarp_buffer *buffer) {
    struct iwarp_posting described = posting(kind, flags);
    return iwarp_post_buffer(end, SIZED, &described, buffer);
}

static void posted_from_a_buffer(void) {
    struct iwarp end = with_region();
    struct iwarp_buffer buffer = IWARP_NO_BUFFER;
    struct iwarp_event event;
    uint8_t out[28] = {0};
    CHECK(post_buffer(&end, IWARP_MESSAGE_SEND, 0, &buffer) == IWARP_BUFFER_MISSING);
    CHECK(iwarp_buffer_new(2, &buffer) == IWARP_OK);
    CHECK(post_buffer(&end, IWARP_MESSAGE_READ, 0, &buffer) == IWARP_BAD_STRUCT);
    CHECK(post_buffer(&end, IWARP_MESSAGE_SEND, 4, &buffer) == IWARP_BAD_BITS);
    CHECK(post_buffer(&end, IWARP_MESSAGE_SEND, 1, &buffer) == IWARP_OK);
    CHECK(frame(&end, out, sizeof out) == 28);
    CHECK(memcmp(out, "\x00\x14\x41\x45\0\0\0\0\0\0\0\0\0\0\0\x01\0\0\0\0\0\0\0\0\0\0\0\0", 28) == 0);
    CHECK(iwarp_work(&end, SIZED, &event) == IWARP_OK);
    CHECK(event.token == 77);
    CHECK(iwarp_fetch_sent(&end, SIZED, &buffer) == IWARP_OK);
    CHECK(post_buffer(&end, IWARP_MESSAGE_WRITE, 0, &buffer) == IWARP_OK);
    CHECK(frame(&end, out, sizeof out) == 24);
    iwarp_buffer_free(&buffer);
    iwarp_free(&end);
}

/* A buffer is looked for before its struct is judged; of that the size and kind, the flags, and then whether it is a Read. */
static void reasons_have_their_order(void) {
    struct iwarp end = with_region();
    struct iwarp_buffer none = IWARP_NO_BUFFER, buffer = IWARP_NO_BUFFER;
    struct iwarp_registration registration = {.size = 71};
    struct iwarp_region region = marked_region(71);
    struct iwarp_peer peer = marked_peer(79);
    uint32_t stag;
    CHECK(iwarp_buffer_new(2, &buffer) == IWARP_OK);
    CHECK(post_buffer(&end, 0, 4, &none) == IWARP_BUFFER_MISSING);
    CHECK(post_buffer(&end, 0, 4, &buffer) == IWARP_BAD_STRUCT);
    CHECK(post_buffer(&end, IWARP_MESSAGE_READ, 1, &buffer) == IWARP_BAD_BITS);
    CHECK(post_buffer(&end, IWARP_MESSAGE_READ, 0, &buffer) == IWARP_BAD_STRUCT);
    CHECK(iwarp_register_buffer_as(&end, &registration, &none, &stag) == IWARP_BUFFER_MISSING);
    CHECK(iwarp_register_buffer_as(&end, &registration, &buffer, &stag) == IWARP_BAD_STRUCT);
    CHECK(iwarp_region_facts(&end, 1, &region) == IWARP_BAD_STRUCT);
    CHECK(iwarp_peer_facts(&end, 1, &peer) == IWARP_BAD_STRUCT);
    iwarp_buffer_free(&buffer);
    iwarp_free(&end);
    CHECK(post_buffer(&end, 0, 4, &none) == IWARP_IS_CLOSED);
    CHECK(iwarp_region_facts(&end, 1, &region) == IWARP_IS_CLOSED);
}

static void a_posting_is_of_its_kind(void) {
    struct iwarp_posting read = iwarp_posting_of(IWARP_MESSAGE_READ), cleared;
    memset(&cleared, 0, sizeof cleared);
    cleared.size = sizeof cleared;
    cleared.kind = IWARP_MESSAGE_READ;
    CHECK(memcmp(&read, &cleared, sizeof read) == 0);
}

int main(void) {
    made();
    registered();
    emitted();
    handed_back();
    sent();
    flushed();
    sent_again();
    numbers_are_given();
    streams_are_closed();
    filled();
    dropped();
    places_are_lent();
    places_are_lent_at_once();
    a_refused_call_leaves_a_place_lent();
    a_region_is_for_one_stream();
    region_told();
    peer_told();
    posted();
    posted_from_a_buffer();
    reasons_have_their_order();
    a_posting_is_of_its_kind();
    puts("ok");
    return 0;
}
