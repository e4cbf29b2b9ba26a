/* An initiator: it writes a text into the region that its peer offers, sends the text too, and prints what is sent back.
 * `initiator --help` says how it is run. `target` is its peer, and so is `iwarp listen`, which takes revision 2 of MPA with its
 * option `--enhanced`. */
#include "waiting.h"

enum { DOMAIN = 1, STREAM = 0, BUFFER = 4096 };

static struct iwarp end = IWARP_CLOSED;
static struct carried carried = {.end = &end, .stream = STREAM, .frames = IWARP_NO_BUFFER};
static const char *text;
static uint32_t options;
static int received;
static int over; /* nothing is awaited any more */

/* Ends the program if a call was refused. */
static void must(int32_t code, const char *call) {
    if (code == IWARP_OK) return;
    fprintf(stderr, "%s: %s\n", call, iwarp_text(code));
    exit(1);
}

/* To real peers, which take IWARP_ENHANCED, the end of the output is that of the connection: it ends once they have answered.
 * `iwarp listen` answers at the end of its input. */
static int answer_first(void) { return (options & IWARP_ENHANCED) != 0; }

/* The output is shut down once all is written. */
static void end_output(void) { carried.ended = 1; }

/* The private data of the Reply names the peer's region: posts a Write of the text there, and a Send. */
static void post(void) {
    uint8_t name[4];
    size_t n;
    int32_t code = iwarp_private(&end, STREAM, name, sizeof name, &n);
    if (code == IWARP_NO_ROOM || (code == IWARP_OK && n != sizeof name)) {
        printf("the peer's private data is no STag\n");
        over = 1;
        return;
    }
    must(code, "private");
    uint32_t stag = (uint32_t)name[0] << 24 | (uint32_t)name[1] << 16 | (uint32_t)name[2] << 8 | name[3];
    const uint8_t *from = (const uint8_t *)text;
    must(iwarp_post_write(&end, STREAM, stag, 0, from, strlen(text), 0), "post_write");
    must(iwarp_post_send(&end, STREAM, from, strlen(text), 0, 0, 0), "post_send");
    if (!answer_first()) end_output();
}

/* The stream is open, with an RTR if one was asked for. */
static void opened(uint32_t agreed) {
    if ((options & IWARP_PEER_TO_PEER) && !(agreed & (IWARP_RTR_WRITE | IWARP_RTR_READ))) {
        printf("the peer agrees to no RTR\n");
        over = 1;
    } else {
        if (options & IWARP_ENHANCED) pause_for_siw();
        post();
    }
}

static void print_message(void) {
    static uint8_t message[BUFFER];
    size_t n;
    must(iwarp_fetch(&end, STREAM, message, sizeof message, &n), "fetch");
    printf("received ");
    for (size_t i = 0; i < n; i++) printf("%02x", message[i]);
    printf(n == 0 ? "-\n" : "\n");
}

static void act_on(struct carried *at, const struct iwarp_event *event) {
    switch (event->kind) {
    case IWARP_OPENED:
        opened(event->flags);
        break;
    case IWARP_RECEIVED:
        print_message();
        received = 1;
        end_output();
        break;
    case IWARP_FAULT:
    case IWARP_TERMINATED:
        printf("fault %u %u %u\n", (unsigned)event->layer, (unsigned)event->error, (unsigned)event->code);
        at->ended = 1;
        break;
    case IWARP_CLOSED_BY_PEER:
        printf("closed %u\n", (unsigned)event->code);
        over = 1;
        break;
    default:
        break;
    }
}

static const char usage[] =
    "usage: initiator PORT TEXT [OPTIONS]\n"
    "\n"
    "Connects to a port of 127.0.0.1, writes TEXT into the region that the peer offers, sends it too,\n"
    "and prints what is sent back. The status is 1 if nothing is sent back, or if an RTR was asked\n"
    "for and none is agreed on.\n"
    "\n"
    "  PORT     1 to 65535\n"
    "  TEXT     at most 4096 octets\n"
    "  OPTIONS  a sum of 1 for markers, 2 for CRCs, 4 for revision 2 of MPA and, with 4, 8 for the\n"
    "           peer-to-peer model; 0 if left out\n";

int main(int n, char **all) {
    struct words words = words_of(n, all, 2, 3, usage);
    unsigned short port = (unsigned short)number_of(&words, 0, 1, 65535, 0);
    text = words.at[1];
    options = (uint32_t)number_of(&words, 2, 0, IWARP_MARKERS | IWARP_CRC | IWARP_ENHANCED | IWARP_PEER_TO_PEER, 0);
    if (strlen(text) > BUFFER) misused(&words, "TEXT", " has more than 4096 octets");
    if ((options & IWARP_PEER_TO_PEER) && !(options & IWARP_ENHANCED)) misused(&words, words.at[2], ": 8 comes only with 4");
    must(iwarp_new(&end), "new");
    must(iwarp_add_domain(&end, DOMAIN), "add_domain");
    must(iwarp_open(&end, STREAM, DOMAIN, IWARP_INITIATOR, options, iwarp_octets(NULL), 0), "open");
    must(iwarp_post_recv(&end, STREAM, BUFFER), "post_recv");
    must(iwarp_buffer_new(0, &carried.frames), "buffer_new");
    carried.fd = connect_to(port);
    int64_t heard = seconds();
    while (!over && wait_and_go_on(&carried, &heard) == TURN_DONE) {
    }
    is_closed(&carried);
    close(carried.fd);
    iwarp_free(&end);
    return received ? 0 : 1;
}
