/* Octets that are not copied, and numbers that mean nothing: each call on a buffer, with what it refuses. Prints `ok`, or the
 * line of the first answer that is not as include/iwarp.h says, with status 1. */
#include "host.h"
#include "checks.h"

enum { DOMAIN = 1, STREAM = 0, LENGTH = 100 };

static struct iwarp end = IWARP_CLOSED;
static struct iwarp_buffer buffer = IWARP_NO_BUFFER, none = IWARP_NO_BUFFER;
static uint8_t *first; /* the address of the buffer's octets: it stays the same, whoever has them */

/* Whether the buffer has its octets, or none. */
static int has(size_t n) {
    uint8_t *at = 0;
    size_t len = 0;
    return iwarp_buffer_at(&buffer, &at, &len) == IWARP_OK && len == n && (n == 0 || at == first);
}

static void makes(void) {
    size_t n = 0;
    CHECK(iwarp_version() == IWARP_VERSION);
    CHECK(iwarp_buffer_at(&buffer, &first, &n) == IWARP_BUFFER_MISSING);
    CHECK(iwarp_buffer_truncate(&buffer, 0) == IWARP_BUFFER_MISSING);
    CHECK(iwarp_buffer_drop_front(&buffer, 0) == IWARP_BUFFER_MISSING);
    CHECK(iwarp_buffer_new(LENGTH + 1, &buffer) == IWARP_OK);
    CHECK(iwarp_buffer_new(LENGTH, &buffer) == IWARP_BUFFER_EXISTS);
    CHECK(iwarp_buffer_truncate(&buffer, LENGTH) == IWARP_OK);
    CHECK(iwarp_buffer_at(&buffer, &first, &n) == IWARP_OK && n == LENGTH);
    for (int i = 0; i < LENGTH; i++) first[i] = (uint8_t)i;
}

/* What no stream, domain, right, option or flag has for its number; and lengths that are too long. */
static void refuses(void) {
    struct iwarp_event event;
    struct iwarp_emission emission;
    uint32_t stag;
    uint8_t octet = 0;
    CHECK(iwarp_register_buffer(&end, DOMAIN, 0, &buffer, IWARP_WRITE, &stag) == IWARP_IS_CLOSED);
    CHECK(iwarp_new(&end) == IWARP_OK);
    CHECK(iwarp_add_domain(&end, 0) == IWARP_BAD_DOMAIN && iwarp_add_domain(&end, 256) == IWARP_BAD_DOMAIN);
    CHECK(iwarp_add_domain(&end, DOMAIN) == IWARP_OK);
    CHECK(iwarp_open(&end, 64, DOMAIN, IWARP_PRESET, 0, &octet, 0) == IWARP_BAD_NUMBER);
    CHECK(iwarp_open(&end, 256, DOMAIN, IWARP_PRESET, 0, &octet, 0) == IWARP_BAD_NUMBER);
    CHECK(iwarp_open(&end, STREAM, DOMAIN + 256, IWARP_PRESET, 0, &octet, 0) == IWARP_NO_DOMAIN);
    CHECK(iwarp_open(&end, STREAM, DOMAIN, IWARP_PRESET, 8, &octet, 0) == IWARP_BAD_BITS);
    CHECK(iwarp_open(&end, STREAM, DOMAIN, IWARP_PRESET, 0, &octet, 0) == IWARP_OK);
    CHECK(iwarp_work(&end, STREAM + 256, &event) == IWARP_NO_SUCH_STREAM);
    CHECK(iwarp_emit_onto(&end, STREAM + 256, &buffer, &emission) == IWARP_NO_SUCH_STREAM);
    CHECK(iwarp_register_buffer(&end, DOMAIN, 0, &none, IWARP_WRITE, &stag) == IWARP_BUFFER_MISSING);
    CHECK(iwarp_register_buffer(&end, DOMAIN + 256, 0, &buffer, IWARP_WRITE, &stag) == IWARP_NO_DOMAIN);
    CHECK(iwarp_register_buffer(&end, DOMAIN, 0, &buffer, 16, &stag) == IWARP_BAD_BITS);
    CHECK(iwarp_register(&end, DOMAIN, 0, &octet, 1, 16, &stag) == IWARP_BAD_BITS);
    CHECK(iwarp_post_send(&end, STREAM, &octet, 1, 4, 0, 0) == IWARP_BAD_BITS);
    CHECK(iwarp_post_recv(&end, STREAM, 16777217) == IWARP_BUFFER_TOO_LONG);
    CHECK(has(LENGTH));
}

static void registers(void) {
    uint8_t *at = 0, octet = 0;
    uint32_t stag = 0;
    size_t n = 0;
    CHECK(iwarp_register_buffer(&end, DOMAIN, 0, &buffer, IWARP_WRITE, &stag) == IWARP_OK && has(0));
    CHECK(iwarp_region_at(&end, stag, &at, &n) == IWARP_OK && at == first && n == LENGTH);
    CHECK(iwarp_load(&end, stag, 99, &octet, 1) == IWARP_OK && octet == 99);
    at[99] = 7;
    CHECK(iwarp_load(&end, stag, 99, &octet, 1) == IWARP_OK && octet == 7);
    CHECK(iwarp_deregister_buffer(&end, stag, &none) == IWARP_BUFFER_MISSING);
    CHECK(iwarp_deregister_buffer(&end, stag, &buffer) == IWARP_OK && has(LENGTH));
    CHECK(iwarp_deregister_buffer(&end, stag, &buffer) == IWARP_NO_REGION && has(LENGTH));
    CHECK(iwarp_region_at(&end, stag, &at, &n) == IWARP_NO_REGION);
    CHECK(iwarp_register(&end, DOMAIN, 0, &octet, 1, IWARP_WRITE, &stag) == IWARP_OK);
    CHECK(iwarp_drop_region(&end, stag) == IWARP_OK && iwarp_drop_region(&end, stag) == IWARP_NO_REGION);
}

/* The bits tell the slot and the key of an STag of a slot that no region had: 700 and 9. Without them it is the next one. */
static void draws(void) {
    struct iwarp_registration registration = {.size = sizeof registration, .flags = IWARP_DRAWN, .drawn = 9 * 1024 + 700};
    struct iwarp_facts facts;
    uint32_t stag = 0;
    registration.pd = DOMAIN;
    registration.stream = STREAM;
    registration.rights = IWARP_READ;
    registration.base = 5;
    CHECK(iwarp_register_buffer_as(&end, &registration, &none, &stag) == IWARP_BUFFER_MISSING);
    CHECK(iwarp_register_buffer_as(&end, &registration, &buffer, &stag) == IWARP_OK && has(0));
    CHECK(stag == ((uint32_t)DOMAIN << 24) + (700 << 8) + 9);
    CHECK(iwarp_deregister_buffer(&end, stag, &buffer) == IWARP_OK && has(LENGTH));
    registration.flags = IWARP_LIMITED;
    CHECK(iwarp_register_buffer_as(&end, &registration, &buffer, &stag) == IWARP_OK && has(0));
    CHECK(iwarp_facts(&end, stag, &facts) == IWARP_OK && facts.limited == 1 && facts.stream == STREAM && facts.base == 5);
    CHECK(stag >> 8 == (uint32_t)DOMAIN << 16);
    CHECK(iwarp_deregister_buffer(&end, stag, &buffer) == IWARP_OK && has(LENGTH));
    registration.flags = 4;
    CHECK(iwarp_register_buffer_as(&end, &registration, &buffer, &stag) == IWARP_BAD_BITS && has(LENGTH));
    registration.size--;
    CHECK(iwarp_register_buffer_as(&end, &registration, &buffer, &stag) == IWARP_BAD_STRUCT && has(LENGTH));
}

/* The event that the next step of a stream reports is of this kind, and has this token. */
static int tells(uint32_t stream, uint32_t kind, uint64_t token) {
    struct iwarp_event event;
    return iwarp_work_on(&end, stream, &event) == IWARP_OK && event.kind == kind && event.token == token;
}

/* A message that is posted from the buffer gives the octets back once it is done, or is given up; one that is copied gives
 * none. */
static void sends(void) {
    struct iwarp_emission emission;
    struct iwarp_buffer frames = IWARP_NO_BUFFER;
    uint32_t stream;
    uint8_t *at, octet = 0;
    size_t n = 1;
    CHECK(iwarp_open_next(&end, DOMAIN, IWARP_PRESET, 0, &octet, 0, &stream) == IWARP_OK);
    CHECK(iwarp_buffer_new(0, &frames) == IWARP_OK);
    CHECK(iwarp_post_send_buffer(&end, stream, &none, 0, 0, 1) == IWARP_BUFFER_MISSING);
    CHECK(iwarp_post_send_buffer(&end, stream, &buffer, 4, 0, 1) == IWARP_BAD_BITS && has(LENGTH));
    CHECK(iwarp_post_send_buffer(&end, stream + 1, &buffer, 0, 0, 1) == IWARP_NO_SUCH_STREAM && has(LENGTH));
    CHECK(iwarp_post_write_buffer(&end, stream, 7, 0, &none, 1) == IWARP_BUFFER_MISSING);
    CHECK(iwarp_fetch_sent(&end, stream, &none) == IWARP_BUFFER_MISSING);
    CHECK(iwarp_fetch_sent(&end, stream + 1, &buffer) == IWARP_NO_SUCH_STREAM && has(LENGTH));
    CHECK(iwarp_post_send_buffer(&end, stream, &buffer, 0, 0, 1) == IWARP_OK && has(0));
    CHECK(iwarp_post_send(&end, stream, &octet, 1, 0, 0, 2) == IWARP_OK);
    do CHECK(iwarp_emit_onto(&end, stream, &frames, &emission) == IWARP_OK);
    while (emission.kind != IWARP_NOTHING);
    CHECK(tells(stream, IWARP_DONE, 1) && iwarp_fetch_sent(&end, stream, &buffer) == IWARP_OK && has(LENGTH));
    CHECK(tells(stream, IWARP_DONE, 2) && iwarp_fetch_sent(&end, stream, &frames) == IWARP_OK);
    CHECK(iwarp_buffer_at(&frames, &at, &n) == IWARP_OK && n == 0);
    CHECK(iwarp_post_write_buffer(&end, stream, 7, 0, &buffer, 3) == IWARP_OK && has(0));
    CHECK(iwarp_break(&end, stream) == IWARP_OK && tells(stream, IWARP_FLUSHED, 3));
    CHECK(iwarp_fetch_sent(&end, stream, &buffer) == IWARP_OK && has(LENGTH));
    CHECK(iwarp_post_write_buffer(&end, stream, 7, 0, &buffer, 4) == IWARP_NOT_OPEN && has(LENGTH));
    for (int i = 0; i < LENGTH; i++) CHECK(first[i] == (i == 99 ? 7 : i));
    iwarp_buffer_free(&frames);
}

/* How many octets a buffer has. */
static size_t length(struct iwarp_buffer *frames) {
    uint8_t *at;
    size_t n = 0;
    CHECK(iwarp_buffer_at(frames, &at, &n) == IWARP_OK);
    return n;
}

/* A call of iwarp_fill appends so many frames, and stops for this reason. */
static int fills(uint32_t stream, size_t most, struct iwarp_buffer *frames, uint32_t kind, uint64_t count) {
    struct iwarp_filling filling;
    size_t had = length(frames);
    return iwarp_fill(&end, stream, most, frames, &filling) == IWARP_OK && filling.kind == kind && filling.frames == count &&
           length(frames) == had + filling.n && filling.layer == 0 && filling.error == 0 && filling.code == 0 &&
           filling.reserved[0] == 0 && filling.reserved[3] == 0;
}

/* Frames are gathered, up to so many octets, and dropped from the front as a socket takes them. */
static void gathers(void) {
    struct iwarp_filling filling = {.kind = 7};
    struct iwarp_buffer frames = IWARP_NO_BUFFER;
    struct iwarp closed = IWARP_CLOSED;
    uint8_t *at, *later, octet = 0;
    uint32_t stream;
    size_t n, frame;
    CHECK(iwarp_open_next(&end, DOMAIN, IWARP_PRESET, 0, &octet, 0, &stream) == IWARP_OK);
    CHECK(iwarp_fill(&closed, stream + 1, 0, &none, &filling) == IWARP_IS_CLOSED);
    CHECK(iwarp_fill(&end, stream + 1, 0, &none, &filling) == IWARP_BUFFER_MISSING);
    CHECK(iwarp_buffer_new(3, &frames) == IWARP_OK);
    CHECK(iwarp_fill(&end, stream + 1, 0, &frames, &filling) == IWARP_NO_SUCH_STREAM && filling.kind == 7 && length(&frames) == 3);
    for (uint64_t i = 0; i < 5; i++) CHECK(iwarp_post_send(&end, stream, &octet, 1, 0, 0, i) == IWARP_OK);
    CHECK(fills(stream, 0, &frames, IWARP_FILL_MORE, 1));
    frame = length(&frames) - 3;
    CHECK(fills(stream, 2 * frame - 1, &frames, IWARP_FILL_MORE, 1) && fills(stream, 2 * frame, &frames, IWARP_FILL_MORE, 2));
    CHECK(fills(stream, SIZE_MAX, &frames, IWARP_FILL_ALL, 1) && fills(stream, 0, &frames, IWARP_FILL_ALL, 0));
    CHECK(iwarp_buffer_at(&frames, &at, &n) == IWARP_OK && n == 3 + 5 * frame);
    octet = at[n - 1];
    CHECK(iwarp_buffer_drop_front(&frames, n - 1) == IWARP_OK && iwarp_buffer_at(&frames, &later, &n) == IWARP_OK && n == 1);
    CHECK(*later == octet && later == at);
    CHECK(iwarp_buffer_drop_front(&frames, 2) == IWARP_OK && length(&frames) == 0);
    for (uint64_t i = 0; i < 5; i++) CHECK(tells(stream, IWARP_DONE, i));
    iwarp_buffer_free(&frames);
}

/* Hands all that one end's buffer has to the other's stream, and works there until there is nothing to do. */
static void carries(struct iwarp_buffer *frames, struct iwarp *to, uint32_t stream) {
    struct iwarp_event event;
    uint8_t *at, *place;
    size_t n, room;
    CHECK(iwarp_buffer_at(frames, &at, &n) == IWARP_OK);
    CHECK(iwarp_room(to, stream, n, &place, &room) == IWARP_OK && room == n);
    memcpy(place, at, n);
    CHECK(iwarp_came(to, stream, n) == IWARP_OK && iwarp_buffer_truncate(frames, 0) == IWARP_OK);
    do CHECK(iwarp_work_on(to, stream, &event) == IWARP_OK);
    while (event.kind != IWARP_IDLE);
}

/* Where a Read's answer is denied the frames before it stand, and the next call appends the Terminate. */
static void denies(void) {
    struct iwarp reader = IWARP_CLOSED;
    struct iwarp_filling filling;
    struct iwarp_buffer frames = IWARP_NO_BUFFER;
    uint8_t octet = 0;
    uint32_t stream, stag, sink, life;
    CHECK(iwarp_buffer_new(0, &frames) == IWARP_OK);
    CHECK(iwarp_open_next(&end, DOMAIN, IWARP_PRESET, 0, &octet, 0, &stream) == IWARP_OK);
    CHECK(iwarp_register(&end, DOMAIN, 0, &octet, 1, IWARP_READ, &stag) == IWARP_OK);
    CHECK(iwarp_new(&reader) == IWARP_OK && iwarp_add_domain(&reader, DOMAIN) == IWARP_OK);
    CHECK(iwarp_open(&reader, STREAM, DOMAIN, IWARP_PRESET, 0, &octet, 0) == IWARP_OK);
    CHECK(iwarp_register(&reader, DOMAIN, 0, &octet, 1, IWARP_SINK, &sink) == IWARP_OK);
    for (uint64_t i = 0; i < 2; i++) CHECK(iwarp_post_read(&reader, STREAM, sink, 0, 1, stag, 0, i) == IWARP_OK);
    CHECK(iwarp_fill(&reader, STREAM, SIZE_MAX, &frames, &filling) == IWARP_OK && filling.frames == 2);
    carries(&frames, &end, stream);
    CHECK(fills(stream, 0, &frames, IWARP_FILL_MORE, 1)); /* the first answer */
    CHECK(iwarp_post_send(&end, stream, &octet, 1, 0, 0, 9) == IWARP_OK && iwarp_invalidate(&end, stag) == IWARP_OK);
    size_t had = length(&frames);
    CHECK(iwarp_fill(&end, stream, SIZE_MAX, &frames, &filling) == IWARP_OK && filling.kind == IWARP_FILL_DENIED);
    CHECK(filling.layer == IWARP_LAYER_RDMAP && filling.error == IWARP_RDMAP_PROTECTION && filling.code == IWARP_RDMAP_INVALID_STAG);
    CHECK(length(&frames) == had + filling.n && (filling.frames > 0) == (filling.n > 0));
    CHECK(iwarp_state(&end, stream, &life) == IWARP_OK && life == IWARP_STATE_ENDED);
    CHECK(fills(stream, SIZE_MAX, &frames, IWARP_FILL_ALL, 1)); /* the Terminate */
    carries(&frames, &reader, STREAM);
    CHECK(iwarp_state(&reader, STREAM, &life) == IWARP_OK && life == IWARP_STATE_ENDED);
    iwarp_buffer_free(&frames);
    iwarp_free(&reader);
}

/* Opens a stream that is open at once. */
static uint32_t opens(void) {
    uint8_t octet = 0;
    uint32_t stream;
    CHECK(iwarp_open_next(&end, DOMAIN, IWARP_PRESET, 0, &octet, 0, &stream) == IWARP_OK);
    return stream;
}

/* A place is lent at a stream for so many octets. */
static uint8_t *lends(uint32_t stream, size_t n) {
    uint8_t *at = 0;
    size_t room = 0;
    CHECK(iwarp_room(&end, stream, n, &at, &room) == IWARP_OK && room == n);
    return at;
}

/* Places are lent at two streams at once, and filled while calls on the other stream go on, as the system does that reads by itself. A
 * call in between on the same stream takes its place back. */
static void lends_at_once(void) {
    struct iwarp_event event;
    struct iwarp_filling filling;
    struct iwarp_buffer frames = IWARP_NO_BUFFER;
    uint32_t one = opens(), two = opens(), kept;
    uint8_t octet = 0;
    CHECK(iwarp_buffer_new(0, &frames) == IWARP_OK);
    for (size_t n = 1; n <= 60000; n = 3 * n + 1) {
        uint8_t *at_one = lends(one, n), *at_two = lends(two, n);
        memset(at_one, 0, n);
        CHECK(iwarp_post_recv(&end, one, 1) == IWARP_OK && iwarp_post_send(&end, one, &octet, 1, 0, 0, 0) == IWARP_OK);
        CHECK(iwarp_came(&end, one, n) == IWARP_OK && iwarp_work_on(&end, one, &event) == IWARP_OK);
        CHECK(iwarp_fill(&end, one, SIZE_MAX, &frames, &filling) == IWARP_OK);
        memset(at_two, 0, n);
        CHECK(iwarp_came(&end, two, n) == IWARP_OK && iwarp_came(&end, two, 1) == IWARP_NOT_LENT);
        CHECK(iwarp_break(&end, one) == IWARP_OK && iwarp_break(&end, two) == IWARP_OK);
        one = opens();
        two = opens();
    }
    lends(one, 8);
    CHECK(iwarp_work_on(&end, one, &event) == IWARP_OK && iwarp_came(&end, one, 8) == IWARP_NOT_LENT);
    lends(one, 8);
    CHECK(iwarp_fill(&end, one, 0, &frames, &filling) == IWARP_OK && iwarp_came(&end, one, 8) == IWARP_NOT_LENT);
    lends(one, 8);
    CHECK(iwarp_deliver(&end, one, 8, &octet, 1, &kept) == IWARP_OK && iwarp_came(&end, one, 8) == IWARP_NOT_LENT);
    lends(one, 8);
    CHECK(iwarp_break(&end, one) == IWARP_OK && iwarp_came(&end, one, 8) == IWARP_NOT_LENT);
    lends(two, 8);
    lends(two, 4);
    CHECK(iwarp_came(&end, two, 5) == IWARP_NOT_LENT && iwarp_came(&end, two, 4) == IWARP_OK);
    iwarp_buffer_free(&frames);
}

/* A receive buffer comes back whole, and goes into a pool and out of it. */
static void receives(void) {
    struct iwarp_event event;
    uint32_t found = 2;
    uint8_t octet = 0;
    size_t n = 1;
    CHECK(iwarp_fetch(&end, STREAM + 1, &octet, 1, &n) == IWARP_NO_SUCH_STREAM && n == 1);
    CHECK(iwarp_fetch_buffer(&end, STREAM + 1, &buffer, &n) == IWARP_NO_SUCH_STREAM && n == 1 && has(LENGTH));
    CHECK(iwarp_post_recv_buffer(&end, STREAM, &none) == IWARP_BUFFER_MISSING);
    CHECK(iwarp_post_recv_buffer(&end, STREAM, &buffer) == IWARP_OK && has(0));
    CHECK(iwarp_break(&end, STREAM) == IWARP_OK);
    CHECK(iwarp_work_on(&end, STREAM, &event) == IWARP_OK && event.kind == IWARP_FLUSHED_RECV);
    CHECK(iwarp_fetch_buffer(&end, STREAM, &buffer, &n) == IWARP_OK && n == LENGTH && has(LENGTH));
    CHECK(iwarp_post_recv_buffer(&end, STREAM, &buffer) == IWARP_ENDED && has(LENGTH));
    CHECK(iwarp_post_shared_buffer(&end, DOMAIN, &buffer) == IWARP_NOT_SHARED && has(LENGTH));
    CHECK(iwarp_share(&end, DOMAIN) == IWARP_OK);
    CHECK(iwarp_post_shared_buffer(&end, DOMAIN, &buffer) == IWARP_OK && has(0));
    CHECK(iwarp_take_shared_buffer(&end, DOMAIN, &buffer, &found) == IWARP_OK && found == 1 && has(LENGTH));
    CHECK(iwarp_take_shared_buffer(&end, DOMAIN, &buffer, &found) == IWARP_OK && found == 0 && has(LENGTH));
}

int main(void) {
    makes();
    refuses();
    registers();
    draws();
    sends();
    gathers();
    denies();
    lends_at_once();
    receives();
    iwarp_buffer_free(&buffer);
    iwarp_buffer_free(&buffer);
    iwarp_free(&end);
    puts("ok");
    return 0;
}
