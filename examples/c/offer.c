/* A region that is offered to a peer, looked at and withdrawn, and a receive buffer that is posted again for each message, as
 * docs/EMBEDDING-C.md shows them: two ends in one process. Prints what came, and what was written. */
#include "host.h"

enum { DOMAIN = 1, STREAM = 0, LENGTH = 16 };

static struct iwarp end = IWARP_CLOSED, peer = IWARP_CLOSED;
static struct iwarp_buffer offered = IWARP_NO_BUFFER, message = IWARP_NO_BUFFER, frames = IWARP_NO_BUFFER;
static uint32_t stag;

/* Ends the program if a call was refused. */
static void must(int32_t code, const char *call) {
    if (code == IWARP_OK) return;
    fprintf(stderr, "%s: %s\n", call, iwarp_text(code));
    exit(1);
}

static void use(const uint8_t *at, size_t n) { printf("%.*s\n", (int)n, (const char *)at); }

static void offer(size_t n) {
    must(iwarp_buffer_new(n, &offered), "buffer_new");
    must(iwarp_register_buffer(&end, DOMAIN, 0, &offered, IWARP_WRITE, &stag), "register_buffer");
}

/* What peers have written, in place: until the region is invalid they may go on. */
static void look(void) {
    uint8_t *at;
    size_t n;
    must(iwarp_invalidate(&end, stag), "invalidate");
    must(iwarp_region_at(&end, stag, &at, &n), "region_at");
    use(at, n);
}

static void withdraw(void) {
    must(iwarp_deregister_buffer(&end, stag, &offered), "deregister_buffer");
    iwarp_buffer_free(&offered);
}

/* A message came: the buffer in which it stands is posted again. */
static void received(void) {
    uint8_t *at;
    size_t n, all;
    must(iwarp_fetch_buffer(&end, STREAM, &message, &n), "fetch_buffer");
    must(iwarp_buffer_at(&message, &at, &all), "buffer_at");
    use(at, n);
    must(iwarp_post_recv_buffer(&end, STREAM, &message), "post_recv_buffer");
}

static void begin(struct iwarp *handle) {
    must(iwarp_new(handle), "new");
    must(iwarp_add_domain(handle, DOMAIN), "add_domain");
    must(iwarp_open(handle, STREAM, DOMAIN, IWARP_PRESET, IWARP_CRC, iwarp_octets(NULL), 0), "open");
}

/* Hands what the peer emits to the end, and acts on what comes of it. */
static void carry(void) {
    struct iwarp_filling filling;
    struct iwarp_event event;
    uint8_t *at, *place;
    size_t n, room;
    must(iwarp_fill(&peer, STREAM, SIZE_MAX, &frames, &filling), "fill");
    must(iwarp_buffer_at(&frames, &at, &n), "buffer_at");
    must(iwarp_room(&end, STREAM, n, &place, &room), "room");
    memcpy(place, at, room);
    must(iwarp_came(&end, STREAM, room), "came");
    must(iwarp_buffer_drop_front(&frames, room), "buffer_drop_front");
    do {
        must(iwarp_work_on(&end, STREAM, &event), "work_on");
        if (event.kind == IWARP_RECEIVED) received();
    } while (event.kind != IWARP_IDLE);
}

int main(void) {
    begin(&end);
    begin(&peer);
    must(iwarp_buffer_new(0, &frames), "buffer_new");
    must(iwarp_buffer_new(LENGTH, &message), "buffer_new");
    must(iwarp_post_recv_buffer(&end, STREAM, &message), "post_recv_buffer");
    offer(5);
    must(iwarp_post_write(&peer, STREAM, stag, 0, (const uint8_t *)"there", 5, 0), "post_write");
    must(iwarp_post_send(&peer, STREAM, (const uint8_t *)"hello", 5, 0, 0, 0), "post_send");
    carry();
    must(iwarp_post_send(&peer, STREAM, (const uint8_t *)"again", 5, 0, 0, 0), "post_send");
    carry();
    look();
    withdraw();
    iwarp_buffer_free(&frames);
    iwarp_free(&end);
    iwarp_free(&peer);
    return 0;
}
