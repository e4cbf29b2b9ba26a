/* A program that has nothing of the repository but <iwarp.h> and the library: two ends in one process, of which one sends the
 * other a message. Prints `received hello`. */
#include <iwarp.h>
#include <stdio.h>
#include <stdlib.h>
#include <string.h>

enum { DOMAIN = 1, STREAM = 0, ROOM = 66000 };

static void must(int32_t code, const char *call) {
    if (code == IWARP_OK) return;
    fprintf(stderr, "%s: refused %d\n", call, (int)code);
    exit(1);
}

static void begin(struct iwarp *end) {
    must(iwarp_new(end), "new");
    must(iwarp_add_domain(end, DOMAIN), "add_domain");
    must(iwarp_open(end, STREAM, DOMAIN, IWARP_PRESET, IWARP_CRC, iwarp_octets(NULL), 0), "open");
}

/* Hands what one end emits to the other. */
static void carry(struct iwarp *from, struct iwarp *to) {
    static uint8_t frame[ROOM];
    static uint32_t next;
    struct iwarp_emission emission;
    uint32_t kept;
    size_t n;
    for (;;) {
        must(iwarp_emit(from, STREAM, frame, sizeof frame, &n, &emission), "emit");
        if (emission.kind == IWARP_NOTHING) return;
        must(iwarp_deliver(to, STREAM, next, frame, n, &kept), "deliver");
        next += (uint32_t)n;
    }
}

/* Posts a Send by a struct that later versions may add to. */
static void send_text(struct iwarp *end, const char *text) {
    struct iwarp_posting posting;
    memset(&posting, 0, sizeof posting);
    posting.size = sizeof posting;
    posting.kind = IWARP_MESSAGE_SEND;
    must(iwarp_post(end, STREAM, &posting, (const uint8_t *)text, strlen(text)), "post");
}

int main(void) {
    struct iwarp a = IWARP_CLOSED, b = IWARP_CLOSED;
    struct iwarp_event event;
    uint8_t message[16];
    size_t n = 0;
    if (iwarp_version() < IWARP_VERSION) return 1; /* it may lack what this header has */
    begin(&a);
    begin(&b);
    must(iwarp_post_recv(&b, STREAM, sizeof message), "post_recv");
    send_text(&a, "hello");
    carry(&a, &b);
    must(iwarp_work_on(&b, STREAM, &event), "work_on");
    if (event.kind != IWARP_RECEIVED) return 1;
    must(iwarp_fetch(&b, STREAM, message, sizeof message, &n), "fetch");
    printf("received %.*s\n", (int)n, (const char *)message);
    iwarp_free(&a);
    iwarp_free(&b);
    return 0;
}
