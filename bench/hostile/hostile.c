/* What hostile peers make an endpoint hold, and what honest ones beside them still reach.
 *
 *     hostile [SECONDS]
 *
 * First each way to make an endpoint hold memory, with 20 streams that do nothing else. Then eight honest streams, by turns alone
 * at one endpoint and, at another, beside a hundred hostile ones, 20 of each way, which are closed and opened anew without end. What
 * an octet of the honest ones costs must not grow by more than a quarter, and no honest stream may end; that is so where streams have
 * receive buffers of their own, where honest ones and strangers have a pool each, and where all share a pool of which each stream may
 * bind its share (iwarp_work_within; iwarp_work_marked, which has a mark too). With one pool for all and no shares, strangers take its
 * buffers: that is shown too. The status is 1 if a limit is missed. */
#define _POSIX_C_SOURCE 199309L
#include "../../include/iwarp.h"
#include <malloc.h>
#include <stdio.h>
#include <stdlib.h>
#include <string.h>
#include <time.h>

enum { HONEST = 8, OF_EACH = 20, SECONDS = 60, FRIENDS = 1, STRANGERS = 2 };
enum { REGION = 16384, SEND = 64, BUFFER = 256, OWN_BUFFERS = 4, POOL = 1024, LONG_READ = 1 << 24, MOST_READ = 65536 };
/* A stranger's turns before it comes anew; the octets of a segment; the window, and how far its octets may lie ahead. */
enum { LIFE = 400, SEGMENT = 1408, WINDOW = 262144, SPACING = 512, EACH_LOST = 16 };
/* Rounds between two looks at the clock, and in all; what a stream may hold (docs/LIMITS.md); the least speed beside strangers. */
enum { ROUNDS = 200, MOST_ROUNDS = 1 << 20, MOST_HELD = 800000, LEAST_PERCENT = 80 };
/* Turns that are compared, and what one by shares may take of one with a pool, in percent. */
enum { TURNS = 20000, MOST_BY_SHARES = 105 };

/* How hostile peers make an endpoint hold memory. */
enum way { ISLANDS, BUFFERS, READS, START_UP, LIES, WAYS };
static const char *const names[WAYS] = {
    "islands of one octet", "buffers bound by Sends whose turn never comes", "Reads that are never taken",
    "start-up frames that never end", "markers that lie, behind a hole",
};
enum { HOSTILE = OF_EACH * WAYS, SHARE = POOL / (HONEST + HOSTILE), MARK = SHARE / 2 };

/* Where receive buffers come from: each stream has its own; all share a pool; strangers share one, and honest peers another; all share
 * a pool, and each stream binds at most its share; the same, and it is told when one binds more than a mark. */
enum sharing { OWN, ONE_POOL, POOL_EACH, BY_SHARE, BY_MARK };

static void must(int is_so, const char *what) {
    if (is_so) return;
    fprintf(stderr, "%s\n", what);
    exit(2);
}

static double processor_time(void) {
    struct timespec time;
    clock_gettime(CLOCK_PROCESS_CPUTIME_ID, &time);
    return 1e9 * (double)time.tv_sec + (double)time.tv_nsec;
}

static double seconds(void) {
    struct timespec time;
    clock_gettime(CLOCK_MONOTONIC, &time);
    return (double)time.tv_sec + 1e-9 * (double)time.tv_nsec;
}

/* The octets that malloc has given out. */
static double held(void) {
    struct mallinfo2 facts = mallinfo2();
    return (double)facts.uordblks + (double)facts.hblkhd;
}

/* ---- what strangers send */

static uint8_t sends[16384], requests[4096], request[20 + 512], lies[WINDOW];
static size_t first_send, all_sends, all_requests;

/* Appends what a stream is to send to `out`, and tells how long its first frame is. */
static size_t emitted(struct iwarp *end, uint32_t stream, uint8_t *out, size_t room, size_t *first) {
    struct iwarp_emission emission;
    size_t n, all = 0;
    *first = 0;
    while (iwarp_emit(end, stream, out + all, room - all, &n, &emission) == IWARP_OK && emission.kind == IWARP_FRAME) {
        if (all == 0) *first = n;
        all += n;
    }
    return all;
}

/* The frames of 256 Sends of an octet, and of 16 Reads of the region with this STag, of a peer that puts markers. */
static void make_frames(uint32_t stag) {
    struct iwarp end = IWARP_CLOSED;
    uint32_t stream;
    size_t first;
    must(iwarp_new(&end) == IWARP_OK && iwarp_add_domain(&end, FRIENDS) == IWARP_OK, "new");
    must(iwarp_open_next(&end, FRIENDS, IWARP_PRESET, IWARP_MARKERS, sends, 0, &stream) == IWARP_OK, "open");
    for (int i = 0; i < 256; i++) must(iwarp_post_send(&end, stream, sends, 1, 0, 0, 0) == IWARP_OK, "post_send");
    all_sends = emitted(&end, stream, sends, sizeof sends, &first_send);
    must(iwarp_open_next(&end, FRIENDS, IWARP_PRESET, IWARP_MARKERS, sends, 0, &stream) == IWARP_OK, "open");
    for (int i = 0; i < 16; i++) must(iwarp_post_read(&end, stream, stag, 0, LONG_READ, stag, 0, 0) == IWARP_OK, "post_read");
    all_requests = emitted(&end, stream, requests, sizeof requests, &first);
    iwarp_free(&end);
}

/* The fixed octets of a Request with 512 octets of private data (RFC 5044 7.1); and octets in which each marker points to a frame
 * of 65,535 octets right behind it, or to some place before it. */
static void make_octets(void) {
    memcpy(request, "MPA ID Req Frame", 16);
    request[17] = 1;
    request[18] = 2;
    for (size_t at = 0; at + SPACING <= sizeof lies; at += SPACING) {
        if (at / SPACING % 2 == 0) {
            lies[at + 4] = lies[at + 5] = 255;
        } else {
            lies[at + 2] = (uint8_t)(at >> 9);
            lies[at + 3] = (uint8_t)(at >> 7 & 252);
        }
    }
}

/* ---- a server, and its honest peers */

struct honest {
    uint32_t at_client, at_server, stag;
    int has_ended;
};

struct stranger {
    enum way way;
    uint32_t stream, turns;
    int has_ended;
};

struct place {
    enum sharing sharing;
    struct iwarp server, client;
    struct iwarp_buffer frames;
    uint32_t source; /* the region that strangers may read */
    struct honest honest[HONEST];
    struct stranger strangers[HOSTILE];
    int count; /* of the strangers */
    uint64_t ended; /* honest streams */
    double spent[WAYS]; /* on strangers, in nanoseconds */
    uint64_t turns[WAYS];
};

static uint8_t octets[REGION];

static int shares(const struct place *place) {
    return place->sharing != OWN;
}

static uint32_t domain_of_strangers(const struct place *place) {
    return place->sharing == POOL_EACH ? STRANGERS : FRIENDS;
}

static void lend(struct place *place, uint32_t domain, uint32_t stream) {
    int32_t code = shares(place) ? iwarp_post_shared(&place->server, domain, BUFFER) : iwarp_post_recv(&place->server, stream, BUFFER);
    must(code == IWARP_OK, "no receive buffer");
}

static uint32_t opened(struct place *place, uint32_t domain, uint32_t role, uint32_t options) {
    uint32_t stream;
    int32_t code = shares(place) ? iwarp_open_shared_next(&place->server, domain, role, options, octets, 0, &stream)
                                 : iwarp_open_next(&place->server, domain, role, options, octets, 0, &stream);
    must(code == IWARP_OK, "open");
    for (int i = 0; !shares(place) && i < OWN_BUFFERS; i++) lend(place, domain, stream);
    return stream;
}

static void give_pool(struct place *place, uint32_t domain) {
    must(iwarp_share(&place->server, domain) == IWARP_OK, "share");
    for (int i = 0; i < POOL; i++) lend(place, domain, 0);
}

static void meet(struct place *place, struct honest *honest) {
    honest->has_ended = 0;
    honest->at_server = opened(place, FRIENDS, IWARP_PRESET, 0);
    must(iwarp_open_next(&place->client, FRIENDS, IWARP_PRESET, 0, octets, 0, &honest->at_client) == IWARP_OK, "open");
    must(iwarp_register_for(&place->server, honest->at_server, 0, octets, REGION, IWARP_WRITE, &honest->stag) == IWARP_OK, "register");
}

/* With so many honest streams. */
static void set_up(struct place *place, enum sharing sharing, int honest) {
    memset(place, 0, sizeof *place);
    place->sharing = sharing;
    must(iwarp_new(&place->server) == IWARP_OK && iwarp_new(&place->client) == IWARP_OK, "new");
    must(iwarp_buffer_new(0, &place->frames) == IWARP_OK, "buffer_new");
    for (uint32_t domain = FRIENDS; domain <= STRANGERS; domain++) {
        must(iwarp_add_domain(&place->server, domain) == IWARP_OK, "add_domain");
        if (shares(place)) give_pool(place, domain);
    }
    must(iwarp_add_domain(&place->client, FRIENDS) == IWARP_OK, "add_domain");
    must(iwarp_register(&place->server, domain_of_strangers(place), 0, octets, REGION, IWARP_READ, &place->source) == IWARP_OK, "register");
    make_frames(place->source);
    for (int i = 0; i < honest; i++) meet(place, &place->honest[i]);
}

static void tear_down(struct place *place) {
    iwarp_buffer_free(&place->frames);
    iwarp_free(&place->client);
    iwarp_free(&place->server);
}

static int32_t work_on(struct place *place, uint32_t stream, struct iwarp_event *event) {
    static const struct iwarp_limits limits = {.size = sizeof limits, .share = SHARE, .mark = MARK};
    if (place->sharing == BY_MARK) return iwarp_work_marked(&place->server, stream, &limits, event);
    if (place->sharing == BY_SHARE) return iwarp_work_within(&place->server, stream, SHARE, event);
    return iwarp_work_on(&place->server, stream, event);
}

/* Works until there is nothing to do. Returns whether the stream has ended. */
static int work_off(struct place *place, uint32_t domain, uint32_t stream) {
    static uint8_t message[BUFFER];
    struct iwarp_event event;
    size_t n;
    int has_ended = 0;
    do {
        must(work_on(place, stream, &event) == IWARP_OK, "work_on");
        if (event.kind == IWARP_FAULT || event.kind == IWARP_TERMINATED || event.kind == IWARP_CLOSED_BY_PEER) has_ended = 1;
        if (event.kind != IWARP_RECEIVED && event.kind != IWARP_FLUSHED_RECV) continue;
        must(iwarp_fetch(&place->server, stream, message, sizeof message, &n) == IWARP_OK, "fetch");
        /* What a stream had taken out of a pool goes back to it; a queue of its own has ended. */
        if (shares(place) || event.kind == IWARP_RECEIVED) lend(place, domain, stream);
    } while (event.kind != IWARP_IDLE);
    return has_ended;
}

/* Has the client of a stream emit a Write and a Send. */
static void emit_one(struct place *place, struct honest *honest) {
    struct iwarp_filling filling;
    struct iwarp_event event;
    must(iwarp_post_write(&place->client, honest->at_client, honest->stag, 0, octets, REGION, 0) == IWARP_OK, "post_write");
    must(iwarp_post_send(&place->client, honest->at_client, octets, SEND, 0, 0, 0) == IWARP_OK, "post_send");
    must(iwarp_buffer_truncate(&place->frames, 0) == IWARP_OK, "truncate");
    must(iwarp_fill(&place->client, honest->at_client, SIZE_MAX, &place->frames, &filling) == IWARP_OK, "fill");
    do must(iwarp_work_on(&place->client, honest->at_client, &event) == IWARP_OK, "work_on");
    while (event.kind != IWARP_IDLE);
}

/* The server reads what the client of a stream sent, and acts on it. */
static void serve_one(struct place *place, struct honest *honest) {
    uint8_t *from, *at;
    size_t n, room;
    must(iwarp_buffer_at(&place->frames, &from, &n) == IWARP_OK, "buffer_at");
    must(iwarp_room(&place->server, honest->at_server, MOST_READ, &at, &room) == IWARP_OK && room >= n, "room");
    memcpy(at, from, n);
    must(iwarp_came(&place->server, honest->at_server, n) == IWARP_OK, "came");
    honest->has_ended = work_off(place, FRIENDS, honest->at_server);
    place->ended += (uint64_t)honest->has_ended;
}

/* A turn of each honest stream. Returns the processor time of the server, in nanoseconds a stream; 0 if all have ended. */
static double serve_honest(struct place *place) {
    double took = 0;
    int served = 0;
    for (int i = 0; i < HONEST; i++) {
        if (place->honest[i].has_ended) continue;
        emit_one(place, &place->honest[i]);
        double from = processor_time();
        serve_one(place, &place->honest[i]);
        took += processor_time() - from;
        served++;
    }
    return served == 0 ? 0 : took / served;
}

/* ---- strangers */

static void arrive(struct place *place, struct stranger *stranger) {
    uint32_t role = stranger->way == START_UP ? IWARP_RESPONDER : IWARP_PRESET;
    stranger->stream = opened(place, domain_of_strangers(place), role, IWARP_MARKERS);
    stranger->turns = 0;
    stranger->has_ended = 0;
}

static void leave(struct place *place, struct stranger *stranger) {
    must(iwarp_break(&place->server, stranger->stream) == IWARP_OK, "break");
    work_off(place, domain_of_strangers(place), stranger->stream);
    must(iwarp_close(&place->server, stranger->stream) == IWARP_OK, "close");
}

static void deliver(struct place *place, struct stranger *stranger, size_t number, const uint8_t *from, size_t n) {
    uint32_t kept;
    must(iwarp_deliver(&place->server, stranger->stream, (uint32_t)number, from, n, &kept) == IWARP_OK, "deliver");
    if (work_off(place, domain_of_strangers(place), stranger->stream)) stranger->has_ended = 1;
}

/* A turn of a stranger: one segment comes of it, at most. */
static void attack(struct place *place, struct stranger *stranger) {
    size_t turn = stranger->turns++, at;
    switch (stranger->way) {
    case ISLANDS: /* three a turn, so that all 1,024 come in a life */
        for (size_t i = 3 * turn; i < 3 * turn + 3; i++) deliver(place, stranger, 2 * i + 1, octets, 1);
        break;
    case BUFFERS: /* all but the first frame, again and again */
        deliver(place, stranger, first_send, sends + first_send, all_sends - first_send);
        break;
    case READS:
        if (turn == 0) deliver(place, stranger, 0, requests, all_requests);
        break;
    case START_UP: /* an octet at a time, but for the last */
        if (turn + 1 < sizeof request) deliver(place, stranger, turn, request + turn, 1);
        break;
    default: /* segments behind a hole of one, of which some never come */
        at = (turn + 1) * SEGMENT;
        if (at + SEGMENT <= sizeof lies && turn % EACH_LOST != 0) deliver(place, stranger, at, lies + at, SEGMENT);
    }
}

static void attack_by_all(struct place *place) {
    for (int i = 0; i < place->count; i++) {
        struct stranger *stranger = &place->strangers[i];
        double from = processor_time();
        if (stranger->has_ended || stranger->turns >= LIFE) {
            leave(place, stranger);
            arrive(place, stranger);
        }
        attack(place, stranger);
        place->spent[stranger->way] += processor_time() - from;
        place->turns[stranger->way]++;
    }
}

static void invite(struct place *place, enum way way) {
    for (int i = 0; i < OF_EACH; i++) {
        struct stranger *stranger = &place->strangers[place->count++];
        stranger->way = way;
        arrive(place, stranger);
    }
}

/* ---- what is held */

static int tell_held(enum way way) {
    static struct place place;
    double most = 0;
    set_up(&place, ONE_POOL, 0);
    double before = held();
    invite(&place, way);
    for (int turn = 0; turn < LIFE; turn++) {
        attack_by_all(&place);
        double now = (held() - before) / OF_EACH;
        if (now > most) most = now;
    }
    tear_down(&place);
    int is_missed = most > MOST_HELD;
    printf("  %-46s %9.0f%s\n", names[way], most, is_missed ? ": MISSED" : "");
    return is_missed;
}

/* ---- speed */

static int above(const void *a, const void *b) {
    double x = *(const double *)a, y = *(const double *)b;
    return (x > y) - (x < y);
}

static double median(double *times, int n) {
    qsort(times, (size_t)n, sizeof *times, above);
    return times[n / 2];
}

/* Medians of what a turn of an honest stream costs, alone and beside strangers. Returns how many rounds were done. */
static int measure(struct place *alone, struct place *beside, double until, double *most, double *costs) {
    static double times[2][MOST_ROUNDS];
    int rounds = 0;
    while (rounds + ROUNDS <= MOST_ROUNDS && seconds() < until && beside->ended < HONEST) {
        for (int round = 0; round < ROUNDS; round++, rounds++) {
            times[0][rounds] = serve_honest(alone);
            attack_by_all(beside);
            times[1][rounds] = serve_honest(beside);
        }
        if (held() > *most) *most = held();
    }
    for (int which = 0; which < 2; which++) costs[which] = median(times[which], rounds);
    return rounds;
}

static void tell_strangers(const struct place *place) {
    printf("  a turn of a stranger, by its way:");
    for (int way = 0; way < WAYS; way++) printf(" %.0f", place->spent[way] / (double)place->turns[way]);
    printf(" ns\n");
}

/* With one pool and no shares the honest streams are not asked for anything. */
static int tell_speed(const char *what, enum sharing sharing, double lasts) {
    static struct place alone, beside;
    double costs[2];
    set_up(&alone, sharing, HONEST);
    set_up(&beside, sharing, HONEST);
    double before = held(), most = before;
    for (int way = 0; way < WAYS; way++) invite(&beside, (enum way)way);
    int rounds = measure(&alone, &beside, seconds() + lasts, &most, costs);
    double percent = 100 * costs[0] / costs[1];
    int is_missed = sharing != ONE_POOL && (beside.ended > 0 || percent < LEAST_PERCENT);
    printf("%s: %d rounds, strangers held %.1f MB at most\n", what, rounds, (most - before) / 1e6);
    if (beside.ended > 0) printf("  %llu of %d honest streams ended\n", (unsigned long long)beside.ended, HONEST);
    if (beside.ended < HONEST) printf("  a turn of an honest stream: %.0f ns alone, %.0f beside: %.0f %%\n", costs[0], costs[1], percent);
    if (sharing != ONE_POOL)
        printf("= %s | %.2f | >= %.2f | speed alone%s\n", what, percent / 100, LEAST_PERCENT / 100.0, is_missed ? " | missed" : "");
    tell_strangers(&beside);
    tear_down(&alone);
    tear_down(&beside);
    return is_missed;
}

/* What a turn of an honest stream costs alone, with a pool, by shares, and with a mark: medians of turns that go one after another,
 * since the processor's speed may change. */
static int tell_shares(void) {
    enum { BY = 3 };
    static const enum sharing by[BY] = { POOL_EACH, BY_SHARE, BY_MARK };
    static struct place places[BY];
    static double times[BY][TURNS];
    double costs[BY];
    for (int i = 0; i < BY; i++) set_up(&places[i], by[i], HONEST);
    for (int turn = 0; turn < TURNS; turn++)
        for (int i = 0; i < BY; i++) times[i][turn] = serve_honest(&places[i]);
    for (int i = 0; i < BY; i++) {
        costs[i] = median(times[i], TURNS);
        tear_down(&places[i]);
    }
    int is_missed = 100 * costs[1] > MOST_BY_SHARES * costs[0];
    printf("a turn of an honest stream, by turns: %.0f ns with a pool, by shares %.2f of that, with a mark too %.2f\n", costs[0],
        costs[1] / costs[0], costs[2] / costs[0]);
    printf("= a turn by shares | %.2f | <= %.2f | times with a pool%s\n", costs[1] / costs[0], MOST_BY_SHARES / 100.0,
        is_missed ? " | missed" : "");
    printf("= a turn with a mark | %.2f | | times with a pool\n", costs[2] / costs[0]);
    return is_missed;
}

int main(int count, char **words) {
    double lasts = count > 1 ? atof(words[1]) : SECONDS;
    int missed = 0;
    make_octets();
    printf("held at most, octets a stream of %d:\n", OF_EACH);
    for (int way = 0; way < WAYS; way++) missed += tell_held((enum way)way);
    missed += tell_speed("receive buffers of their own", OWN, lasts / 5);
    missed += tell_speed("a pool for honest peers, another for strangers", POOL_EACH, lasts / 5);
    missed += tell_speed("one pool for all, by shares", BY_SHARE, lasts / 5);
    missed += tell_speed("one pool for all, by shares and a mark", BY_MARK, lasts / 5);
    missed += tell_speed("one pool for all", ONE_POOL, lasts / 5);
    missed += tell_shares();
    return missed != 0;
}
