/* Memory that the program keeps: a file is mapped, registered, written to by a peer, and handed back; messages are sent from it; and
 * one region has more octets than a copy may. Prints `ok`, or the line of the first answer that is not as include/iwarp.h says, with
 * status 1. */
#define _DEFAULT_SOURCE
#include "host.h"
#include "checks.h"
#include <sys/mman.h>

enum { DOMAIN = 1, STREAM = 0, ROOM = 66000, LENGTH = 16384, AT = 5000, BASE = 1 << 20, MOST = 16777216, LARGE = 3 * MOST };

static struct iwarp sender = IWARP_CLOSED, target = IWARP_CLOSED;
static uint8_t *mapped; /* the file's octets, which the target's peers write to */
static const uint8_t *seen; /* the same, by another mapping */

static void opens(struct iwarp *end) {
    CHECK(iwarp_new(end) == IWARP_OK && iwarp_add_domain(end, DOMAIN) == IWARP_OK);
    CHECK(iwarp_open(end, STREAM, DOMAIN, IWARP_PRESET, IWARP_CRC | IWARP_MARKERS, iwarp_octets(NULL), 0) == IWARP_OK);
}

/* Hands what the sender emits to the target. */
static void delivers(void) {
    static uint8_t frame[ROOM];
    static uint32_t next;
    struct iwarp_emission emission;
    uint32_t kept;
    size_t n;
    do {
        CHECK(iwarp_emit(&sender, STREAM, frame, sizeof frame, &n, &emission) == IWARP_OK);
        CHECK(iwarp_deliver(&target, STREAM, next, frame, n, &kept) == IWARP_OK && kept == 1);
        next += (uint32_t)n;
    } while (emission.kind != IWARP_NOTHING);
}

/* And works there, where nothing is told. */
static void carries(void) {
    struct iwarp_event event;
    delivers();
    CHECK(iwarp_work_on(&target, STREAM, &event) == IWARP_OK && event.kind == IWARP_IDLE);
}

/* Whether the file, seen by its other mapping, has these octets at a place. */
static int file_has(size_t at, const char *octets) {
    return memcmp(seen + at, octets, strlen(octets)) == 0;
}

static struct iwarp_registration registration(void) {
    struct iwarp_registration registration;
    memset(&registration, 0, sizeof registration);
    registration.size = sizeof registration;
    registration.pd = DOMAIN;
    registration.base = BASE;
    registration.rights = IWARP_WRITE | IWARP_READ;
    return registration;
}

/* A peer writes into the file, and nothing is copied on the way: the region's octets are the mapping's. */
static void is_written(void) {
    struct iwarp_registration described = registration();
    struct iwarp_memory memory = {mapped, LENGTH}, other = {NULL, 0};
    struct iwarp_buffer buffer = IWARP_NO_BUFFER;
    uint32_t stag = 0;
    uint8_t *at = 0;
    size_t n = 0;
    CHECK(iwarp_register_memory(&target, &described, &memory, &stag) == IWARP_OK && memory.len == 0);
    CHECK(iwarp_region_at(&target, stag, &at, &n) == IWARP_OK && at == mapped && n == LENGTH);
    CHECK(iwarp_post_write(&sender, STREAM, stag, BASE + AT, (const uint8_t *)"written by a peer", 17, 0) == IWARP_OK);
    carries();
    CHECK(file_has(AT, "written by a peer"));
    CHECK(iwarp_store(&target, stag, BASE, (const uint8_t *)"by its owner", 12) == IWARP_OK && file_has(0, "by its owner"));
    CHECK(iwarp_buffer_new(0, &buffer) == IWARP_OK);
    CHECK(iwarp_deregister_buffer(&target, stag, &buffer) == IWARP_OTHER_MEMORY);
    iwarp_buffer_free(&buffer);
    CHECK(iwarp_deregister_memory(&target, stag, &other) == IWARP_OK && other.at == mapped && other.len == LENGTH);
    CHECK(iwarp_deregister_memory(&target, stag, &other) == IWARP_NO_REGION && other.at == mapped);
}

/* The next event at the sender tells of the message with this token. */
static int is_done(uint64_t token) {
    struct iwarp_event event;
    CHECK(iwarp_work_on(&sender, STREAM, &event) == IWARP_OK);
    return event.kind == IWARP_DONE && event.token == token;
}

/* Messages go out from the file, of which a Send has no octet copied before its frames; so does one of no octets. */
static void is_sent(void) {
    struct iwarp_posting write = iwarp_posting_of(IWARP_MESSAGE_WRITE), send = iwarp_posting_of(IWARP_MESSAGE_SEND);
    struct iwarp_memory memory = {mapped + AT, 17}, whole = {(uint8_t *)seen, LENGTH}, none = {NULL, 0};
    struct iwarp_buffer buffer = IWARP_NO_BUFFER;
    struct iwarp_event event;
    uint8_t octets[17], *at = NULL;
    size_t n = 0;
    CHECK(is_done(0) && iwarp_buffer_new(sizeof octets, &buffer) == IWARP_OK);
    CHECK(iwarp_register_buffer(&target, DOMAIN, BASE, &buffer, IWARP_WRITE, &write.stag) == IWARP_OK);
    write.to = BASE, write.token = 70, send.token = 71;
    CHECK(iwarp_post_memory(&sender, STREAM, &write, &memory) == IWARP_OK && memory.len == 0);
    carries();
    CHECK(is_done(70) && iwarp_load(&target, write.stag, BASE, octets, sizeof octets) == IWARP_OK);
    CHECK(memcmp(octets, "written by a peer", sizeof octets) == 0);
    CHECK(iwarp_post_recv(&target, STREAM, LENGTH) == IWARP_OK && iwarp_post_recv(&target, STREAM, 0) == IWARP_OK);
    CHECK(iwarp_post_memory(&sender, STREAM, &send, &whole) == IWARP_OK && whole.len == 0);
    delivers();
    CHECK(is_done(71) && iwarp_work_on(&target, STREAM, &event) == IWARP_OK && event.kind == IWARP_RECEIVED && event.len == LENGTH);
    CHECK(iwarp_fetch_buffer(&target, STREAM, &buffer, &n) == IWARP_OK && n == LENGTH);
    CHECK(iwarp_buffer_at(&buffer, &at, &n) == IWARP_OK);
    CHECK(n == LENGTH && memcmp(at, seen, LENGTH) == 0);
    CHECK(iwarp_post_memory(&sender, STREAM, &send, &none) == IWARP_OK);
    delivers();
    CHECK(is_done(71) && iwarp_work_on(&target, STREAM, &event) == IWARP_OK && event.kind == IWARP_RECEIVED && event.len == 0);
    CHECK(iwarp_drop_region(&target, write.stag) == IWARP_OK);
    iwarp_buffer_free(&buffer);
}

/* What is not posted leaves the memory with the program. */
static void is_not_sent(void) {
    struct iwarp_posting send = iwarp_posting_of(IWARP_MESSAGE_SEND), read = iwarp_posting_of(IWARP_MESSAGE_READ);
    struct iwarp_memory memory = {mapped, LENGTH}, large = {NULL, MOST + 1};
    struct iwarp_event event;
    CHECK(iwarp_post_memory(&sender, STREAM, &read, &memory) == IWARP_BAD_STRUCT);
    CHECK(iwarp_post_memory(&sender, STREAM + 1, &send, &memory) == IWARP_NO_SUCH_STREAM);
    large.at = mmap(NULL, large.len, PROT_READ | PROT_WRITE, MAP_PRIVATE | MAP_ANONYMOUS, -1, 0);
    CHECK(large.at != MAP_FAILED && iwarp_post_memory(&sender, STREAM, &send, &large) == IWARP_MESSAGE_TOO_LONG);
    CHECK(large.len == MOST + 1 && munmap(large.at, large.len) == 0);
    send.flags = 4;
    CHECK(iwarp_post_memory(&sender, STREAM, &send, &memory) == IWARP_BAD_BITS);
    send.flags = 0;
    CHECK(memory.at == mapped && memory.len == LENGTH);
    /* A message that was posted and not sent is handed back as flushed, and its octets are the program's. */
    CHECK(iwarp_post_memory(&sender, STREAM, &send, &memory) == IWARP_OK && iwarp_break(&sender, STREAM) == IWARP_OK);
    CHECK(iwarp_work_on(&sender, STREAM, &event) == IWARP_OK && event.kind == IWARP_FLUSHED);
    mapped[0] = 8;
}

/* A peer writes behind the first 16 MiB of one region, up to its end and no further. */
static void is_large(void) {
    struct iwarp_registration described = registration();
    struct iwarp_memory memory = {NULL, LARGE};
    uint32_t stag = 0;
    uint8_t *at = mmap(NULL, LARGE, PROT_READ | PROT_WRITE, MAP_PRIVATE | MAP_ANONYMOUS, -1, 0);
    CHECK(at != MAP_FAILED);
    memory.at = at;
    CHECK(iwarp_register_memory(&target, &described, &memory, &stag) == IWARP_OK);
    CHECK(iwarp_post_write(&sender, STREAM, stag, BASE + 2 * (uint64_t)MOST + 5, (const uint8_t *)"far in", 6, 0) == IWARP_OK);
    CHECK(iwarp_post_write(&sender, STREAM, stag, BASE + LARGE - 3, (const uint8_t *)"end", 3, 0) == IWARP_OK);
    carries();
    CHECK(is_done(0) && is_done(0) && memcmp(at + 2 * MOST + 5, "far in", 6) == 0 && memcmp(at + LARGE - 3, "end", 3) == 0);
    CHECK(iwarp_store(&target, stag, BASE + LARGE - 2, (const uint8_t *)"end", 3) == IWARP_OUTSIDE);
    CHECK(iwarp_deregister_memory(&target, stag, &memory) == IWARP_OK && memory.at == at && munmap(at, LARGE) == 0);
}

/* What is refused leaves the memory with the program. */
static void is_refused(void) {
    struct iwarp_registration described = registration();
    struct iwarp_memory memory = {mapped, LENGTH}, none = {NULL, 0};
    uint32_t stag = 0;
    described.pd = DOMAIN + 1;
    CHECK(iwarp_register_memory(&target, &described, &memory, &stag) == IWARP_NO_DOMAIN);
    described.rights = 16;
    CHECK(iwarp_register_memory(&target, &described, &memory, &stag) == IWARP_BAD_BITS);
    described.size = 0;
    CHECK(iwarp_register_memory(&target, &described, &memory, &stag) == IWARP_BAD_STRUCT);
    CHECK(memory.at == mapped && memory.len == LENGTH && stag == 0);
    CHECK(iwarp_register(&target, DOMAIN, 0, (const uint8_t *)"copied", 6, IWARP_WRITE, &stag) == IWARP_OK);
    CHECK(iwarp_deregister_memory(&target, stag, &none) == IWARP_OTHER_MEMORY && none.len == 0);
    CHECK(iwarp_drop_region(&target, stag) == IWARP_OK);
}

/* A region of no octets, one that is dropped, one whose STag is drawn for a stream, and one that is there to the end: none of the
 * memory is freed. */
static void is_not_freed(void) {
    struct iwarp_registration described = registration();
    struct iwarp_memory memory = {NULL, 0};
    uint32_t stag = 0;
    CHECK(iwarp_register_memory(&target, &described, &memory, &stag) == IWARP_OK);
    CHECK(iwarp_deregister_memory(&target, stag, &memory) == IWARP_OK && memory.len == 0);
    memory.at = mapped, memory.len = LENGTH;
    CHECK(iwarp_register_memory(&target, &described, &memory, &stag) == IWARP_OK && iwarp_drop_region(&target, stag) == IWARP_OK);
    described.flags = IWARP_LIMITED | IWARP_DRAWN;
    described.stream = STREAM;
    described.drawn = 0x12345678;
    memory.at = mapped, memory.len = LENGTH;
    CHECK(iwarp_register_memory(&target, &described, &memory, &stag) == IWARP_OK);
    CHECK(iwarp_deregister_memory(&target, stag, &memory) == IWARP_OK && memory.at == mapped);
    CHECK(iwarp_register_memory(&target, &described, &memory, &stag) == IWARP_OK);
    iwarp_free(&target);
    mapped[0] = 7;
    CHECK(seen[0] == 7);
}

/* Maps a new file, for its two uses. */
static void map(void) {
    FILE *file = tmpfile();
    CHECK(file && ftruncate(fileno(file), LENGTH) == 0);
    mapped = mmap(NULL, LENGTH, PROT_READ | PROT_WRITE, MAP_SHARED, fileno(file), 0);
    seen = mmap(NULL, LENGTH, PROT_READ, MAP_SHARED, fileno(file), 0);
    CHECK(mapped != MAP_FAILED && seen != MAP_FAILED && seen != mapped && fclose(file) == 0);
}

int main(void) {
    map();
    opens(&sender);
    opens(&target);
    is_written();
    is_sent();
    is_large();
    is_refused();
    is_not_sent();
    is_not_freed();
    iwarp_free(&sender);
    CHECK(munmap(mapped, LENGTH) == 0 && munmap((void *)seen, LENGTH) == 0);
    printf("ok\n");
    return 0;
}
