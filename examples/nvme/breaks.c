/* Frames that are made by hand. */
#include "breaks.h"

/* Fields of DDP and RDMAP headers (RFC 5040 4, RFC 5041 4), the highest octet first; and lengths in octets. */
enum { DDP_TAGGED = 0x80, DDP_LAST = 0x40, DDP_VERSION = 1, RDMAP_VERSION = 0x40, RDMAP_OPCODE = 0x0f };
enum { OPCODE_WRITE = 0, OPCODE_READ = 1, OPCODE_ANSWER = 2, OPCODE_SEND = 3, OPCODE_TERMINATE = 7, OPCODE_NONE = 9 };
enum { TAGGED_HEAD = 14, UNTAGGED_HEAD = 18, READ_OCTETS = 28, TERMINATE_OCTETS = 4, FRAMING = 6, MOST_FRAME = 65536 };
enum { NO_REGION = 0x7badbad7, WAITS_MS = 2000 };

static void set_high(uint8_t *at, int n, uint64_t number) {
    for (; n > 0; number >>= 8) at[--n] = (uint8_t)number;
}

static uint64_t high(const uint8_t *at, int n) {
    uint64_t number = 0;
    for (int i = 0; i < n; i++) number = number << 8 | at[i];
    return number;
}

static uint32_t crc32c(const uint8_t *octets, size_t n) {
    uint32_t crc = 0xffffffff;
    for (size_t i = 0; i < n; i++) {
        crc ^= octets[i];
        for (int bit = 0; bit < 8; bit++) crc = crc >> 1 ^ (crc & 1 ? 0x82f63b78 : 0);
    }
    return ~crc;
}

static void write_all(const struct host_queue *queue, const uint8_t *octets, size_t n) {
    while (n > 0) {
        struct pollfd polled = {queue->fd, POLLOUT, 0};
        ssize_t went = send(queue->fd, octets, n, MSG_NOSIGNAL);
        if (went > 0) {
            octets += went;
            n -= (size_t)went;
        } else if (went == 0 || (errno != EAGAIN && errno != EINTR) || poll(&polled, 1, WAITS_MS) != 1) {
            return; /* the target has ended it */
        }
    }
}

/* Writes a frame whose header and data stand behind two octets for its length, with room behind for padding and the CRC. */
static void write_frame(const struct host_queue *queue, uint8_t *frame, size_t n, int is_spoiled) {
    size_t all = (2 + n + 3) / 4 * 4;
    set_high(frame, 2, n);
    memset(frame + 2 + n, 0, all - 2 - n);
    set_field(frame + all, 4, crc32c(frame, all) ^ (is_spoiled ? 1u : 0));
    write_all(queue, frame, all + 4);
}

static void set_tagged(uint8_t *head, uint8_t opcode, uint32_t stag, uint64_t to) {
    head[0] = DDP_TAGGED | DDP_LAST | DDP_VERSION;
    head[1] = RDMAP_VERSION | opcode;
    set_high(head + 2, 4, stag);
    set_high(head + 6, 8, to);
}

/* The first message of an untagged queue. */
static void set_untagged(uint8_t *head, uint8_t opcode, uint32_t number) {
    memset(head, 0, UNTAGGED_HEAD);
    head[0] = DDP_LAST | DDP_VERSION;
    head[1] = RDMAP_VERSION | opcode;
    set_high(head + 6, 4, number);
    set_high(head + 10, 4, 1);
}

void break_by(struct host_queue *queue, enum breaking how) {
    uint8_t frame[FRAMING + 64] = {0}, *head = frame + 2;
    size_t n = TAGGED_HEAD + 8;
    set_tagged(head, OPCODE_WRITE, NO_REGION, 0);
    if (how == BREAK_VERSION) head[0] ^= DDP_VERSION;
    if (how == BREAK_OPCODE) head[1] = RDMAP_VERSION | OPCODE_NONE;
    if (how == BREAK_READ) {
        set_untagged(head, OPCODE_READ, 1);
        set_high(head + UNTAGGED_HEAD + 12, 4, 8);
        set_high(head + UNTAGGED_HEAD + 16, 4, NO_REGION);
        n = UNTAGGED_HEAD + READ_OCTETS;
    } else if (how == BREAK_TERMINATE) {
        set_untagged(head, OPCODE_TERMINATE, 2);
        n = UNTAGGED_HEAD + TERMINATE_OCTETS;
    }
    write_frame(queue, frame, n, how == BREAK_CRC);
}

void break_answer(struct host_queue *queue, const struct asked *asked, const uint8_t *octets, size_t n) {
    static uint8_t frame[MOST_FRAME];
    set_tagged(frame + 2, OPCODE_ANSWER, asked->sink, asked->to);
    if (n < asked->n) frame[2] ^= DDP_LAST;
    memcpy(frame + 2 + TAGGED_HEAD, octets, n);
    write_frame(queue, frame, TAGGED_HEAD + n, 0);
}

/* ---- what the target sends */

/* Reads what has come, after at most `ms`. Returns -1 at the end. */
static ssize_t read_some(struct host_queue *queue, uint8_t *at, size_t room, int ms) {
    struct pollfd polled = {queue->fd, POLLIN, 0};
    if (queue->host->turn) {
        queue->host->turn();
        ms = 0;
    }
    if (poll(&polled, 1, ms) != 1) return 0;
    ssize_t n = read(queue->fd, at, room);
    if (n < 0 && (errno == EAGAIN || errno == EINTR)) return 0;
    return n > 0 ? n : -1;
}

/* Counts the frames that are whole, and returns how many octets they have. */
static size_t count_frames(const uint8_t *octets, size_t n, struct asked *asked) {
    size_t at = 0;
    while (n - at >= FRAMING) {
        const uint8_t *head = octets + at + 2, *body = head + UNTAGGED_HEAD;
        size_t all = (2 + (size_t)high(octets + at, 2) + 3) / 4 * 4 + 4;
        if (all > n - at) break;
        uint8_t opcode = head[1] & RDMAP_OPCODE;
        if (opcode == OPCODE_READ && asked->reads++ == 0) {
            asked->sink = (uint32_t)high(body, 4);
            asked->to = high(body + 4, 8);
            asked->n = (uint32_t)high(body + 12, 4);
        }
        asked->sends += opcode >= OPCODE_SEND && opcode < OPCODE_TERMINATE;
        at += all;
    }
    return at;
}

int break_off(struct host_queue *queue, struct asked *asked) {
    static uint8_t octets[2 * MOST_FRAME];
    size_t n = 0;
    *asked = (struct asked){0};
    for (int ms = 0; ms < WAITS_MS && (asked->reads == 0 || asked->sends == 0); ms++) {
        ssize_t got = read_some(queue, octets + n, sizeof octets - n, 1);
        if (got < 0) return 0;
        n += (size_t)got;
        size_t whole = count_frames(octets, n, asked);
        n -= whole;
        for (size_t i = 0; i < n; i++) octets[i] = octets[whole + i];
    }
    return asked->reads > 0 && asked->sends > 0;
}

int break_is_seen(struct host_queue *queue) {
    static uint8_t octets[MOST_FRAME];
    for (int ms = 0; ms < WAITS_MS; ms++)
        if (read_some(queue, octets, sizeof octets, 1) < 0) return 1;
    return 0;
}
