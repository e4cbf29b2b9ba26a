/* Many initiators at once, for tests of `target`: each writes a text of its own into the region that it is offered, sends it too,
 * and compares what is sent back. `crowd --help` says how it is run. */
#include "waiting.h"

enum { DOMAIN = 1, TEXT = 32, EVENTS = 64, MOST = 100000 };

struct initiator {
    struct carried carried; /* its stream and its socket, first of all */
    uint32_t waits_for; /* EPOLLIN or EPOLLOUT */
    uint32_t stag; /* of the region that it is offered */
    int open; /* it may post */
    int over; /* its connection is to be closed */
    char text[TEXT];
};

static struct iwarp end = IWARP_CLOSED;
static struct initiator *initiators;
static uint32_t options;
static int poller, wrong;
static long count, together, live, answered;
static long arrived; /* how many are open, or over */
static int posting;
static int waits; /* for a line, before it posts */

static void must(int32_t code, const char *call) {
    if (code == IWARP_OK) return;
    fprintf(stderr, "%s: %s\n", call, iwarp_text(code));
    exit(1);
}

static void watch(int fd, int how, uint32_t events, void *data) {
    struct epoll_event event = {.events = events, .data = {.ptr = data}};
    if (epoll_ctl(poller, how, fd, &event) == 0) return;
    perror("epoll_ctl");
    exit(1);
}

/* ---- a stream */

static void post(struct initiator *initiator) {
    uint32_t stream = initiator->carried.stream;
    const uint8_t *text = (const uint8_t *)initiator->text;
    must(iwarp_post_write(&end, stream, initiator->stag, 0, text, TEXT, 0), "post_write");
    must(iwarp_post_send(&end, stream, text, TEXT, 0, 0, 0), "post_send");
}

static void opened(struct initiator *initiator) {
    uint8_t name[4];
    size_t n;
    must(iwarp_private(&end, initiator->carried.stream, name, sizeof name, &n), "private");
    initiator->stag = (uint32_t)name[0] << 24 | (uint32_t)name[1] << 16 | (uint32_t)name[2] << 8 | name[3];
    initiator->open = 1;
    arrived++;
    if (posting) post(initiator);
}

static void compare(struct initiator *initiator) {
    char message[TEXT];
    size_t n;
    must(iwarp_fetch(&end, initiator->carried.stream, (uint8_t *)message, TEXT, &n), "fetch");
    if (n != TEXT || memcmp(message, initiator->text, TEXT) != 0) {
        printf("stream %u: another text came back\n", (unsigned)initiator->carried.stream);
        wrong = 1;
    }
    answered++;
    initiator->over = 1;
}

static void act_on(struct carried *carried, const struct iwarp_event *event) {
    struct initiator *initiator = (struct initiator *)carried;
    switch (event->kind) {
    case IWARP_OPENED:
        opened(initiator);
        break;
    case IWARP_RECEIVED:
        compare(initiator);
        break;
    case IWARP_FAULT:
    case IWARP_TERMINATED:
    case IWARP_CLOSED_BY_PEER:
        initiator->over = 1;
        break;
    default:
        break;
    }
}

/* ---- a connection */

static void finish(struct initiator *initiator) {
    if (!initiator->open) arrived++;
    if (is_closed(&initiator->carried) != TURN_DONE) exit(1);
    close(initiator->carried.fd);
    initiator->carried.fd = -1;
    live--;
}

static void go_on(struct initiator *initiator) {
    enum turn turn = initiator->over ? TURN_CLOSED : is_writable(&initiator->carried);
    uint32_t events = turn == TURN_LEFT ? EPOLLOUT : EPOLLIN;
    if (initiator->over || (turn != TURN_DONE && turn != TURN_LEFT)) {
        finish(initiator);
        return;
    }
    if (events != initiator->waits_for) watch(initiator->carried.fd, EPOLL_CTL_MOD, events, initiator);
    initiator->waits_for = events;
}

static void attend(struct initiator *initiator) {
    if (initiator->waits_for == EPOLLIN && is_readable(&initiator->carried) != TURN_DONE) initiator->over = 1;
    go_on(initiator);
}

static void begin(struct initiator *initiator, long number, unsigned short port) {
    struct carried *carried = &initiator->carried;
    *initiator = (struct initiator){.carried = {.end = &end, .frames = IWARP_NO_BUFFER}, .waits_for = EPOLLIN};
    snprintf(initiator->text, TEXT, "initiator %ld", number);
    must(iwarp_open_next(&end, DOMAIN, IWARP_INITIATOR, options, iwarp_octets(NULL), 0, &carried->stream), "open_next");
    must(iwarp_post_recv(&end, carried->stream, TEXT), "post_recv");
    must(iwarp_buffer_new(0, &carried->frames), "buffer_new");
    carried->fd = connect_to(port);
    watch(carried->fd, EPOLL_CTL_ADD, EPOLLIN, initiator);
    live++;
    go_on(initiator);
}

/* ---- all of them */

/* Tells that enough are open, and waits until a line came, or the end of input. */
static void wait_for_line(void) {
    char octet;
    puts("open");
    fflush(stdout);
    while (read(0, &octet, 1) == 1 && octet != '\n') {
    }
}

/* Posts at those that are open, once enough are. */
static void begin_to_post(void) {
    if (posting || arrived < together) return;
    if (waits) wait_for_line();
    posting = 1;
    for (struct initiator *initiator = initiators; initiator < initiators + count; initiator++) {
        if (!initiator->open || initiator->carried.fd < 0) continue;
        post(initiator);
        go_on(initiator);
    }
}

static void give_up(void) {
    for (long i = 0; i < count; i++)
        if (initiators[i].carried.fd >= 0) tell_progress(&initiators[i].carried);
    printf("%ld answered, %ld still wait\n", answered, live);
    exit(1);
}

static void serve(void) {
    struct epoll_event events[EVENTS];
    while (live > 0) {
        begin_to_post();
        int n = epoll_wait(poller, events, EVENTS, PATIENCE * 1000);
        if (n == 0) give_up();
        for (int i = 0; i < n; i++) attend(events[i].data.ptr);
    }
}

static const char usage[] =
    "usage: crowd [--wait] PORT COUNT [OPTIONS [TOGETHER]]\n"
    "\n"
    "Makes COUNT connections to `target`, all at once, and prints how many were answered, and how\n"
    "many were closed in place of that. The status is 1 if another text came back, or nothing was\n"
    "heard for 60 seconds.\n"
    "\n"
    "  PORT      1 to 65535\n"
    "  COUNT     1 to 100000; each takes a descriptor (ulimit -Hn)\n"
    "  OPTIONS   a sum of 1 for markers, 2 for CRCs and 4 for revision 2 of MPA; 0 if left out\n"
    "  TOGETHER  nothing is posted before so many are open, or were closed; 1 if left out\n"
    "  --wait    prints `open` then, and posts once a line came at standard input\n";

int main(int n, char **all) {
    waits = n > 1 && strcmp(all[1], "--wait") == 0;
    n -= waits;
    all += waits;
    struct words words = words_of(n, all, 2, 4, usage);
    unsigned short port = (unsigned short)number_of(&words, 0, 1, 65535, 0);
    count = number_of(&words, 1, 1, MOST, 0);
    options = (uint32_t)number_of(&words, 2, 0, IWARP_MARKERS | IWARP_CRC | IWARP_ENHANCED, 0);
    together = number_of(&words, 3, 1, count, 1);
    raise_descriptors();
    initiators = calloc((size_t)count, sizeof *initiators);
    poller = epoll_create1(0);
    if (!initiators || poller < 0) return 1;
    must(iwarp_new(&end), "new");
    must(iwarp_add_domain(&end, DOMAIN), "add_domain");
    for (long i = 0; i < count; i++) begin(&initiators[i], i, port);
    serve();
    printf("%ld answered, %ld closed\n", answered, count - answered);
    close(poller);
    iwarp_free(&end);
    free(initiators);
    return wrong;
}
