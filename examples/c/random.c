/* Random calls, and two ends under a model, for some seconds:
 *
 *     random SECONDS [SEED]
 *
 * Each round has a seed. In one kind of round all calls are made, with any arguments that their types and the header allow, on two
 * handles and three buffers: an answer must be a code of the header, a call that is refused must leave what it may write as it
 * was, and there is memory missing only if the program refused some. In the other kind two ends exchange Sends, Writes and Reads
 * over a link that cuts, repeats and exchanges octets, and each message, region and token must be as a model has it. Memory is
 * refused at random in both. Prints `ok` and the number of rounds, or the seed of the first that is wrong, with status 1. It is
 * linked with -Wl,--wrap=malloc,--wrap=realloc. */
#include "host.h"

/* ---- chance, and memory that is refused */

static uint64_t state, round_seed;
static unsigned refuse; /* of 1,000 requests for memory, how many are refused */
static unsigned long refused; /* how many were */

static uint32_t chance(void) {
    state ^= state << 13;
    state ^= state >> 7;
    state ^= state << 17;
    return (uint32_t)(state >> 16);
}

static uint32_t below(uint32_t n) { return chance() % n; }

static int refuses(void) {
    if (refuse == 0 || below(1000) >= refuse) return 0;
    refused++;
    return 1;
}

void *__real_malloc(size_t n);
void *__real_realloc(void *at, size_t n);

void *__wrap_malloc(size_t n) { return refuses() ? 0 : __real_malloc(n); }

void *__wrap_realloc(void *at, size_t n) { return refuses() ? 0 : __real_realloc(at, n); }

static const char *doing; /* what is tried: the name of a call, or two ends */

static void wrong(int line, const char *what) {
    printf("seed %llu, %s, line %d: %s\n", (unsigned long long)round_seed, doing, line, what);
    exit(1);
}

#define CHECK(answer)                                  \
    do {                                               \
        if (!(answer)) wrong(__LINE__, #answer);       \
    } while (0)

/* ---- any calls */

enum { HANDLES = 2, BUFFERS = 3, LONGEST = 3000 };

/* What a call may write, as it is before. */
enum { MARK = 0x5a5a5a5a };

static struct iwarp handles[HANDLES];
static struct iwarp_buffer buffers[BUFFERS];
static uint8_t given[LONGEST], out[LONGEST], before[LONGEST];
static uint32_t stags[16];
static uint32_t streams[4]; /* numbers that the library gave */
static unsigned long refused_before;

static uint32_t any_stream(void) { return below(20) ? (below(3) ? below(4) : streams[below(4)]) : chance(); }

static uint32_t any_domain(void) { return below(20) ? 1 + below(2) : chance(); }

static uint32_t any_stag(void) { return below(10) ? stags[below(16)] : chance(); }

static uint32_t any_bits(uint32_t all) { return below(20) ? chance() & all : chance(); }

static uint64_t any_place(void) { return below(4) ? below(LONGEST) : ((uint64_t)chance() << 32) + chance(); }

static size_t any_length(void) { return below(3) ? below(80) : below(LONGEST); }

/* Whether an answer is one that the header has, and memory is missing only if some was refused. */
static int answered(int32_t code) {
    CHECK(code >= 0 && strcmp(iwarp_text(code), iwarp_text(-1)) != 0);
    CHECK(code != IWARP_NO_MEMORY || refused > refused_before);
    return code == IWARP_OK;
}

static void keeps_out(int done) { CHECK(done || memcmp(out, before, sizeof out) == 0); }

/* A call answers IWARP_NO_SUCH_STREAM just if the handle is open, the buffer that it takes was made, and there is no such stream. */
static int fetched(int32_t code, struct iwarp *handle, uint32_t stream, int is_made) {
    uint32_t life;
    int there = iwarp_state(handle, stream, &life) != IWARP_NO_SUCH_STREAM;
    CHECK((code == IWARP_NO_SUCH_STREAM) == (is_made && !there));
    return answered(code);
}

static size_t has(struct iwarp_buffer *buffer, uint8_t **at) {
    size_t n = MARK;
    *at = 0;
    return iwarp_buffer_at(buffer, at, &n) == IWARP_OK ? n : MARK;
}

/* What a call is made with. */
struct call {
    struct iwarp *handle, *other;
    struct iwarp_buffer *buffer;
    uint8_t *at; /* the buffer's octets */
    size_t had; /* how many they are; MARK if it was not made */
    uint32_t pd, stag, stream;
    size_t n; /* how many octets it has, or has room for */
};

/* The buffer has so many octets, at the same address. */
static void keeps_buffer(const struct call *call) {
    uint8_t *later;
    CHECK(has(call->buffer, &later) == call->had && later == call->at);
}

/* A call took the buffer's octets, or was refused and left them. */
static void takes(int done, const struct call *call) {
    uint8_t *later;
    size_t n = has(call->buffer, &later);
    CHECK(done ? n == 0 : n == call->had && (n == 0 || later == call->at));
}

/* A struct that begins with its size has this one, or is mostly refused. */
static size_t any_size(size_t whole) {
    switch (below(10)) {
    case 0: return below((uint32_t)whole);
    case 1: return whole + chance();
    default: return whole;
    }
}

/* A struct that is too short is refused, and nothing is written into it. What is reserved becomes 0. */
static void call_region_facts(const struct call *call) {
    struct iwarp_region region = {.size = any_size(sizeof region), .facts.base = MARK, .reserved = {MARK}}, was = region;
    struct iwarp_facts facts;
    int32_t code = iwarp_region_facts(call->handle, call->stag, &region), told = iwarp_facts(call->handle, call->stag, &facts);
    CHECK(code == (told != IWARP_IS_CLOSED && region.size < sizeof region ? IWARP_BAD_STRUCT : told));
    if (!answered(code)) {
        CHECK(memcmp(&region, &was, sizeof region) == 0);
        return;
    }
    CHECK(memcmp(&region.facts, &facts, sizeof facts) == 0 && region.size == was.size);
    CHECK(region.reserved[0] == 0 && region.reserved[3] == 0);
}

static void call_peer_facts(const struct call *call) {
    struct iwarp_peer peer = {.size = any_size(sizeof peer), .told.ird = MARK, .reserved = {MARK}}, was = peer;
    struct iwarp_told told;
    int32_t code = iwarp_peer_facts(call->handle, call->stream, &peer), known = iwarp_told(call->handle, call->stream, &told);
    CHECK(code == (known != IWARP_IS_CLOSED && peer.size < sizeof peer ? IWARP_BAD_STRUCT : known));
    if (!answered(code)) {
        CHECK(memcmp(&peer, &was, sizeof peer) == 0);
        return;
    }
    CHECK(memcmp(&peer.told, &told, sizeof told) == 0 && peer.size == was.size);
    CHECK(peer.reserved[0] == 0 && peer.reserved[3] == 0);
}

static struct iwarp_posting any_posting(void) {
    struct iwarp_posting posting = {.size = any_size(sizeof posting), .kind = below(20) ? 1 + below(3) : chance()};
    posting.stag = any_stag();
    posting.sink = any_stag();
    posting.len = below(4) ? below(LONGEST) : chance();
    posting.flags = below(20) ? (posting.kind == IWARP_MESSAGE_SEND ? below(4) : 0) : any_place();
    posting.to = any_place();
    posting.sink_to = any_place();
    posting.token = chance();
    posting.reserved[below(4)] = chance();
    return posting;
}

/* The reason that a struct has by itself. */
static int32_t wrong_in(const struct iwarp_posting *posting) {
    if (posting->size < sizeof *posting) return IWARP_BAD_STRUCT;
    if (posting->kind < IWARP_MESSAGE_WRITE || posting->kind > IWARP_MESSAGE_READ) return IWARP_BAD_STRUCT;
    return posting->flags > (posting->kind == IWARP_MESSAGE_SEND ? 3 : 0) ? IWARP_BAD_BITS : IWARP_OK;
}

static int32_t wrong_for_a_buffer(const struct iwarp_posting *posting) {
    int32_t reason = wrong_in(posting);
    return reason == IWARP_OK && posting->kind == IWARP_MESSAGE_READ ? IWARP_BAD_STRUCT : reason;
}

/* If no closed handle or missing buffer is told, the struct's own reason is, if it has one. */
static int judged(int32_t code, int32_t reason) {
    CHECK(code == IWARP_IS_CLOSED || code == IWARP_BUFFER_MISSING || (reason ? code == reason : code != IWARP_BAD_STRUCT));
    return answered(code);
}

static struct iwarp_registration any_registration(void) {
    struct iwarp_registration registration = {.size = any_size(sizeof registration), .base = any_place(), .rights = any_bits(15)};
    registration.flags = below(20) ? below(4) : any_place();
    registration.pd = any_domain();
    registration.stream = any_stream();
    registration.drawn = chance();
    registration.reserved[below(4)] = chance();
    return registration;
}

/* The reason that a struct has by itself. */
static int32_t wrong_to_register(const struct iwarp_registration *registration) {
    if (registration->size < sizeof *registration) return IWARP_BAD_STRUCT;
    return registration->flags > 3 || registration->rights > 15 ? IWARP_BAD_BITS : IWARP_OK;
}

/* A region is registered as a struct says, under an STag that names no other; or none is, and nothing is told. */
static int registered(struct iwarp *handle, int32_t code, const struct iwarp_registration *registration, uint32_t stag, size_t n) {
    struct iwarp_facts facts;
    uint32_t limited = registration->flags & IWARP_LIMITED;
    if (!judged(code, wrong_to_register(registration))) {
        CHECK(stag == MARK);
        return 0;
    }
    CHECK(iwarp_facts(handle, stag, &facts) == IWARP_OK && facts.valid && facts.len == n && facts.base == registration->base);
    CHECK(facts.rights == registration->rights && facts.limited == limited && facts.stream == (limited ? registration->stream : 0));
    CHECK(limited || stag >> 24 == registration->pd);
    stags[below(16)] = stag;
    return 1;
}

static void call_register_as(const struct call *call) {
    struct iwarp_registration registration = any_registration();
    uint32_t stag = MARK;
    int32_t code = iwarp_register_as(call->handle, &registration, given, call->n, &stag);
    registered(call->handle, code, &registration, stag, call->n);
}

static void call_register_buffer_as(const struct call *call) {
    struct iwarp_registration registration = any_registration();
    uint32_t stag = MARK;
    int32_t code = iwarp_register_buffer_as(call->handle, &registration, call->buffer, &stag);
    takes(registered(call->handle, code, &registration, stag, call->had), call);
}

/* Memory that the program keeps: each piece is registered once in a round. */
enum { PIECES = 200, PIECE = 300 };
static uint8_t pieces[PIECES][PIECE];
static uint32_t registered_pieces;

static void call_register_memory(const struct call *call) {
    if (registered_pieces == PIECES) return;
    struct iwarp_registration registration = any_registration();
    struct iwarp_memory memory = {pieces[registered_pieces], below(PIECE + 1)}, was = memory;
    uint32_t stag = MARK;
    uint8_t *at;
    size_t n;
    int32_t code = iwarp_register_memory(call->handle, &registration, &memory, &stag);
    if (!registered(call->handle, code, &registration, stag, was.len)) {
        CHECK(memory.len == was.len && (was.len == 0 || memory.at == was.at));
        return;
    }
    CHECK(memory.len == 0 && iwarp_region_at(call->handle, stag, &at, &n) == IWARP_OK && n == was.len && (n == 0 || at == was.at));
    registered_pieces++;
}

/* What comes back is the region's own memory, if that is a piece; else another call takes the region, if there is one. */
static void call_deregister_memory(const struct call *call) {
    struct iwarp_memory memory = {NULL, MARK};
    uint8_t *at = NULL;
    size_t n = 0;
    int32_t there = iwarp_region_at(call->handle, call->stag, &at, &n), code = iwarp_deregister_memory(call->handle, call->stag, &memory);
    int kept = n > 0 && at >= pieces[0] && at < pieces[0] + sizeof pieces;
    if (there != IWARP_OK || code == IWARP_OTHER_MEMORY) {
        CHECK(!kept && (there == IWARP_OK || code == there) && memory.at == NULL && memory.len == MARK);
        return;
    }
    CHECK(code == IWARP_OK && memory.len == n && (n == 0 || (kept && memory.at == at)));
    CHECK(iwarp_region_at(call->handle, call->stag, &at, &n) == IWARP_NO_REGION);
    if (memory.len > 0) memset(memory.at, 1, memory.len);
}

/* A handle that is open stays as it is; another is opened by options. */
static void call_new_with(const struct call *call) {
    struct iwarp_options options = {.size = any_size(sizeof options), .flags = below(4) ? 0 : any_place(), .reserved = {MARK}};
    struct iwarp one = IWARP_CLOSED;
    void *at = call->handle->at;
    int32_t reason = options.size < sizeof options ? IWARP_BAD_STRUCT : options.flags ? IWARP_BAD_BITS : IWARP_OK;
    if (at) {
        CHECK(iwarp_new_with(call->handle, &options) == (reason ? reason : IWARP_ALREADY_OPEN) && call->handle->at == at);
        return;
    }
    int32_t code = iwarp_new_with(&one, &options);
    CHECK(reason ? code == reason : code == IWARP_OK || code == IWARP_NO_MEMORY);
    CHECK(answered(code) == (one.at != 0));
    iwarp_free(&one);
}

/* The first n octets go, and the others stay as they are. */
static void call_drop_front(const struct call *call) {
    static uint8_t kept[LONGEST];
    uint8_t *later;
    size_t had = call->had, n = call->n, left = had == MARK || n > had ? 0 : had - n;
    if (left > sizeof kept) left = sizeof kept;
    if (left > 0) memcpy(kept, call->at + n, left);
    if (!answered(iwarp_buffer_drop_front(call->buffer, n))) {
        CHECK(had == MARK);
        return;
    }
    CHECK(has(call->buffer, &later) == (n > had ? 0 : had - n) && (left == 0 || memcmp(later, kept, left) == 0));
}

static void call_add_domain(const struct call *call) { answered(iwarp_add_domain(call->handle, call->pd)); }

/* A region was registered under the STag that is told, or none was and none is told. Returns whether one was. */
static int named(int32_t code, uint32_t stag) {
    int done = answered(code);
    if (done)
        stags[below(16)] = stag;
    else
        CHECK(stag == MARK);
    return done;
}

static void call_register(const struct call *call) {
    uint32_t stag = MARK;
    int32_t code = iwarp_register(call->handle, call->pd, any_place(), given, call->n, any_bits(15), &stag);
    named(code, stag);
}

static void call_register_for(const struct call *call) {
    uint32_t stag = MARK;
    int32_t code = iwarp_register_for(call->handle, any_stream(), any_place(), given, call->n, any_bits(15), &stag);
    named(code, stag);
}

/* The buffer's octets are a region's then, or it keeps them. */
static void takes_region(int done, const struct call *call) {
    uint8_t *later;
    if (done)
        CHECK(has(call->buffer, &later) == 0);
    else
        keeps_buffer(call);
}

static void call_register_buffer(const struct call *call) {
    uint32_t stag = MARK;
    int32_t code = iwarp_register_buffer(call->handle, call->pd, any_place(), call->buffer, any_bits(15), &stag);
    takes_region(named(code, stag), call);
}

static void call_register_buffer_for(const struct call *call) {
    uint32_t stag = MARK;
    int32_t code = iwarp_register_buffer_for(call->handle, any_stream(), any_place(), call->buffer, any_bits(15), &stag);
    takes_region(named(code, stag), call);
}

static void call_deregister(const struct call *call) {
    size_t n = MARK;
    keeps_out(answered(iwarp_deregister(call->handle, call->stag, out, call->n, &n)));
}

static void call_deregister_buffer(const struct call *call) {
    if (!answered(iwarp_deregister_buffer(call->handle, call->stag, call->buffer))) keeps_buffer(call);
}

static void call_drop_region(const struct call *call) { answered(iwarp_drop_region(call->handle, call->stag)); }

static void call_region_at(const struct call *call) {
    uint8_t *at;
    size_t n = MARK;
    if (!answered(iwarp_region_at(call->handle, call->stag, &at, &n))) {
        CHECK(n == MARK);
        return;
    }
    for (size_t i = 0; i < n; i += 97) at[i] ^= 1;
}

static void call_invalidate(const struct call *call) {
    if (below(8) == 0) answered(iwarp_invalidate(call->handle, call->stag));
}

static void call_store(const struct call *call) { answered(iwarp_store(call->handle, call->stag, any_place(), given, call->n)); }

static void call_load(const struct call *call) {
    keeps_out(answered(iwarp_load(call->handle, call->stag, any_place(), out, call->n)));
}

static void call_facts(const struct call *call) {
    struct iwarp_facts facts;
    if (answered(iwarp_facts(call->handle, call->stag, &facts))) CHECK(facts.valid < 2 && facts.rights < 16 && facts.limited < 2);
}

static void call_buffer_new(const struct call *call) {
    uint8_t *later;
    if (answered(iwarp_buffer_new(call->n, call->buffer)))
        CHECK(call->had == MARK && has(call->buffer, &later) == call->n);
    else
        CHECK(has(call->buffer, &later) == call->had);
}

static void call_truncate(const struct call *call) {
    uint8_t *later;
    if (answered(iwarp_buffer_truncate(call->buffer, call->n)))
        CHECK(has(call->buffer, &later) == (call->n < call->had ? call->n : call->had));
}

static void call_buffer_free(const struct call *call) {
    if (below(4) == 0) iwarp_buffer_free(call->buffer);
}

/* A stream was opened under the number that is told, or none was and none is told. */
static void opened(int32_t code, const uint32_t *number) {
    if (answered(code))
        streams[below(4)] = *number;
    else
        CHECK(*number == MARK);
}

static void call_open_next(const struct call *call) {
    uint32_t number = MARK;
    int32_t code = iwarp_open_next(call->handle, call->pd, below(3), any_bits(15), given, below(600), &number);
    opened(code, &number);
}

static void call_open_shared_next(const struct call *call) {
    uint32_t number = MARK;
    int32_t code = iwarp_open_shared_next(call->handle, call->pd, below(3), any_bits(15), given, below(600), &number);
    opened(code, &number);
}

static uint32_t any_role(void) { return below(20) ? below(3) : chance(); }

static void call_open(const struct call *call) {
    answered(iwarp_open(call->handle, call->stream, call->pd, any_role(), any_bits(15), given, below(600)));
}

static void call_open_shared(const struct call *call) {
    answered(iwarp_open_shared(call->handle, call->stream, call->pd, any_role(), any_bits(15), given, below(600)));
}

static void call_close(const struct call *call) { answered(iwarp_close(call->handle, call->stream)); }

static void call_accept(const struct call *call) {
    uint32_t agreed = MARK;
    if (!answered(iwarp_accept(call->handle, call->stream, given, below(600), &agreed))) CHECK(agreed == MARK);
}

static void call_reject(const struct call *call) {
    if (below(4) == 0) answered(iwarp_reject(call->handle, call->stream, given, below(600)));
}

static void call_private(const struct call *call) {
    size_t n = MARK;
    keeps_out(answered(iwarp_private(call->handle, call->stream, out, call->n, &n)));
}

static void call_told(const struct call *call) {
    struct iwarp_told told;
    if (answered(iwarp_told(call->handle, call->stream, &told)))
        CHECK(told.revision < 3 && told.markers < 2 && told.has_word <= told.revision / 2);
}

static void call_state(const struct call *call) {
    uint32_t life = MARK;
    CHECK(answered(iwarp_state(call->handle, call->stream, &life)) ? life <= IWARP_STATE_ENDED : life == MARK);
}

static void call_break(const struct call *call) {
    if (below(8) == 0) answered(iwarp_break(call->handle, call->stream));
}

static void call_set_mulpdu(const struct call *call) {
    answered(iwarp_set_mulpdu(call->handle, call->stream, below(4) ? 128 + below(3000) : chance()));
}

static void call_first_number(const struct call *call) { answered(iwarp_first_number(call->handle, call->stream, chance())); }

static void call_share(const struct call *call) { answered(iwarp_share(call->handle, call->pd)); }

static void call_post_shared(const struct call *call) { answered(iwarp_post_shared(call->handle, call->pd, call->n)); }

static void call_post_shared_buffer(const struct call *call) {
    takes(answered(iwarp_post_shared_buffer(call->handle, call->pd, call->buffer)), call);
}

static void call_take_shared_buffer(const struct call *call) {
    uint32_t found = MARK;
    if (answered(iwarp_take_shared_buffer(call->handle, call->pd, call->buffer, &found))) {
        CHECK(found < 2);
        return;
    }
    CHECK(found == MARK);
    keeps_buffer(call);
}

/* The next emission is one just if it was told. */
static void call_due(const struct call *call) {
    struct iwarp *handle = call->handle;
    struct iwarp_emission emission;
    uint32_t wants = MARK;
    size_t n;
    if (!answered(iwarp_wants_write(handle, call->stream, &wants)))
        CHECK(wants == MARK);
    else if (answered(iwarp_emit(handle, call->stream, out, sizeof out, &n, &emission)))
        CHECK(wants == (emission.kind != IWARP_NOTHING));
}

/* None, or some buffers. */
static size_t any_share(void) { return below(4) ? below(4) : SIZE_MAX; }

/* Does steps with any limits, those of 1.2 too, of 56 octets and without flags. Their struct's own reason is told, if it has one, but
 * for a closed handle's. */
static int32_t work_marked(struct iwarp *handle, uint32_t stream, struct iwarp_event *event) {
    struct iwarp_limits limits = {.size = any_size(below(2) ? sizeof limits : 56), .share = any_share(), .mark = any_share()};
    limits.flags = below(5);
    int32_t code = iwarp_work_marked(handle, stream, &limits, event);
    CHECK(code == IWARP_IS_CLOSED || (code == IWARP_BAD_STRUCT) == (limits.size < 56));
    CHECK(code == IWARP_IS_CLOSED || (code == IWARP_BAD_BITS) == (limits.size >= sizeof limits && limits.flags > 3));
    return code;
}

/* A call on a stream by which a place that is lent there is taken back, whatever it answers. */
static void call_in_between(struct iwarp *handle, uint32_t stream) {
    struct iwarp_event event;
    struct iwarp_emission emission;
    uint32_t kept;
    size_t n;
    switch (below(6)) {
    case 0: answered(iwarp_work(handle, stream, &event)); break;
    case 1: answered(iwarp_work_on(handle, stream, &event)); break;
    case 3: answered(iwarp_work_within(handle, stream, below(4), &event)); break;
    case 4: answered(work_marked(handle, stream, &event)); break;
    case 2: answered(iwarp_emit(handle, stream, out, below(2) ? sizeof out : 0, &n, &emission)); break;
    default: answered(iwarp_deliver(handle, stream, below(400), given, below(80), &kept)); break;
    }
}

/* Octets are written to the place that is lent, and counted, whatever other streams do meanwhile; or a call on this stream takes the
 * place back. */
static void call_room(const struct call *call) {
    struct iwarp *handle = call->handle;
    uint32_t stream = call->stream;
    size_t want = below(3) ? below(400) : chance(), n = MARK;
    uint32_t other = any_stream();
    uint8_t *at = 0;
    if (!answered(iwarp_room(handle, stream, want, &at, &n))) {
        CHECK(n == MARK && at == 0);
        return;
    }
    CHECK(n <= want && n <= 65536);
    CHECK(iwarp_came(handle, stream, n + 1 + below(100)) == IWARP_NOT_LENT);
    if (below(8) == 0) {
        call_in_between(handle, stream);
        CHECK(iwarp_came(handle, stream, 1 + below((uint32_t)n + 1)) == IWARP_NOT_LENT);
        return;
    }
    for (int i = 0; other != stream && i < 3; i++) call_in_between(handle, other);
    for (size_t i = 0; i < n; i++) at[i] = (uint8_t)chance();
    size_t came = below(2) ? n : below((uint32_t)n + 1);
    CHECK(answered(iwarp_came(handle, stream, came)) == (came > 0));
    CHECK(iwarp_came(handle, stream, 1) == (came > 0 || n == 0 ? IWARP_NOT_LENT : IWARP_OK));
}

/* What a call of iwarp_fill tells is what the buffer has more, and what the stream has sent more; or nothing changed. */
static int filled(struct iwarp *handle, uint32_t stream, size_t most, struct iwarp_buffer *buffer, struct iwarp_filling *filling) {
    struct iwarp_progress before = {.sent = MARK}, after = {.sent = MARK};
    uint8_t *at;
    size_t had = has(buffer, &at);
    uint32_t wants = 2;
    int32_t told = iwarp_progress(handle, stream, &before);
    *filling = (struct iwarp_filling){.kind = MARK};
    int done = answered(iwarp_fill(handle, stream, most, buffer, filling));
    CHECK(iwarp_progress(handle, stream, &after) == told);
    if (!done) {
        CHECK(filling->kind == MARK && has(buffer, &at) == had && after.sent == before.sent && after.due == before.due);
        return 0;
    }
    CHECK(told == IWARP_OK && filling->kind <= IWARP_FILL_DENIED && filling->reserved[0] == 0);
    CHECK(has(buffer, &at) == had + filling->n && after.sent == before.sent + filling->n);
    CHECK((filling->frames > 0) == (filling->n > 0) && (filling->n <= most || filling->frames == 1));
    CHECK(iwarp_wants_write(handle, stream, &wants) == IWARP_OK);
    switch (filling->kind) {
    case IWARP_FILL_ALL: CHECK(!wants); break;
    case IWARP_FILL_MORE: CHECK(filling->frames > 0 && (wants || filling->n > most || refused > refused_before)); break;
    default: CHECK(wants); break; /* a Terminate is due */
    }
    return 1;
}

static void call_fill(const struct call *call) {
    struct iwarp_filling filling;
    filled(call->handle, call->stream, below(2) ? call->n : below(3), call->buffer, &filling);
}

/* Does a step, or steps; perhaps with a share of a pool, or a mark. */
static int32_t any_work(struct iwarp *handle, uint32_t stream, struct iwarp_event *event) {
    switch (below(4)) {
    case 0: return iwarp_work(handle, stream, event);
    case 1: return iwarp_work_on(handle, stream, event);
    case 2: return work_marked(handle, stream, event);
    default: return iwarp_work_within(handle, stream, below(4) ? below(4) : chance(), event);
    }
}

static void call_work(const struct call *call) {
    struct iwarp_event event = {.kind = MARK};
    if (answered(any_work(call->handle, call->stream, &event)))
        CHECK(event.kind <= IWARP_TRIED && event.reserved[0] == 0);
    else
        CHECK(event.kind == MARK);
}

static void call_post(const struct call *call) {
    struct iwarp_posting posting = any_posting();
    size_t n = below(8) ? call->n : 0;
    judged(iwarp_post(call->handle, call->stream, &posting, iwarp_octets(n ? given : 0), n), wrong_in(&posting));
}

static void call_post_buffer(const struct call *call) {
    struct iwarp_posting posting = any_posting();
    takes(judged(iwarp_post_buffer(call->handle, call->stream, &posting, call->buffer), wrong_for_a_buffer(&posting)), call);
}

static void call_post_send(const struct call *call) {
    answered(iwarp_post_send(call->handle, call->stream, given, call->n, any_bits(3), any_stag(), chance()));
}

static void call_post_send_buffer(const struct call *call) {
    takes(answered(iwarp_post_send_buffer(call->handle, call->stream, call->buffer, any_bits(3), any_stag(), chance())), call);
}

static void call_post_write(const struct call *call) {
    answered(iwarp_post_write(call->handle, call->stream, any_stag(), any_place(), given, call->n, chance()));
}

static void call_post_write_buffer(const struct call *call) {
    takes(answered(iwarp_post_write_buffer(call->handle, call->stream, any_stag(), any_place(), call->buffer, chance())), call);
}

static void call_post_read(const struct call *call) {
    uint32_t n = below(4) ? below(LONGEST) : chance();
    answered(iwarp_post_read(call->handle, call->stream, any_stag(), any_place(), n, any_stag(), any_place(), chance()));
}

static void call_post_recv(const struct call *call) {
    answered(iwarp_post_recv(call->handle, call->stream, below(40) ? call->n : (size_t)chance() << 8));
}

static void call_post_recv_buffer(const struct call *call) {
    takes(answered(iwarp_post_recv_buffer(call->handle, call->stream, call->buffer)), call);
}

static void call_progress(const struct call *call) {
    struct iwarp_progress progress = {.sent = MARK};
    if (!answered(iwarp_progress(call->handle, call->stream, &progress)))
        CHECK(progress.sent == MARK);
    else
        CHECK(progress.bound <= 256 && progress.reserved[0] == 0);
}

/* What the one handle emits comes to the other. */
static void call_emit_and_deliver(const struct call *call) {
    static uint8_t frame[66000];
    static uint32_t next[HANDLES][4];
    struct iwarp_emission emission;
    uint32_t kept = MARK, stream = call->stream;
    size_t n = MARK;
    if (!answered(iwarp_emit(call->handle, stream, frame, sizeof frame, &n, &emission)) || stream >= 4) return;
    uint32_t *number = &next[call->other == &handles[1]][stream];
    if (answered(iwarp_deliver(call->other, stream, *number, frame, n, &kept)) && kept == 1) *number += (uint32_t)n;
}

static void call_emit(const struct call *call) {
    struct iwarp_emission emission = {.kind = MARK};
    size_t n, room = call->n < 40 ? call->n : sizeof out;
    if (!answered(iwarp_emit(call->handle, call->stream, out, room, &n, &emission))) CHECK(emission.kind == MARK);
}

/* If it is refused, the buffer's octets may stand at another address. */
static void call_emit_onto(const struct call *call) {
    struct iwarp_emission emission = {.kind = MARK};
    uint8_t *later;
    if (!answered(iwarp_emit_onto(call->handle, call->stream, call->buffer, &emission)))
        CHECK(emission.kind == MARK && has(call->buffer, &later) == call->had);
}

static void call_deliver(const struct call *call) {
    uint32_t kept = MARK, number = below(3) ? below(400) : chance();
    if (!answered(iwarp_deliver(call->handle, call->stream, number, given, call->n, &kept))) CHECK(kept == MARK);
}

static void call_fetch(const struct call *call) {
    size_t n = MARK, room = below(8) ? call->n : 0;
    int32_t code = iwarp_fetch(call->handle, call->stream, iwarp_out(room ? out : 0), room, &n);
    keeps_out(fetched(code, call->handle, call->stream, 1));
}

static void call_fetch_buffer(const struct call *call) {
    size_t n = MARK;
    int32_t code = iwarp_fetch_buffer(call->handle, call->stream, call->buffer, &n);
    if (fetched(code, call->handle, call->stream, call->had != MARK)) return;
    CHECK(n == MARK);
    keeps_buffer(call);
}

static void call_fetch_sent(const struct call *call) {
    int32_t code = iwarp_fetch_sent(call->handle, call->stream, call->buffer);
    if (!fetched(code, call->handle, call->stream, call->had != MARK)) keeps_buffer(call);
}

/* All calls, and how often each is made: of five one is about memory, one about streams and pools, and three about postings and octets
 * that come and go. */
enum { OF_MEMORY = 18 * 21, OF_STREAMS = 23 * 21, OF_OCTETS = 18 * 23 * 3 };

#define ROW(name, often) {#name, often, call_##name}

static const struct {
    const char *name;
    uint32_t often;
    void (*make)(const struct call *call);
} calls[] = {
    ROW(add_domain, OF_MEMORY),
    ROW(register, OF_MEMORY),
    ROW(register_for, OF_MEMORY),
    ROW(register_as, OF_MEMORY),
    ROW(register_buffer, OF_MEMORY),
    ROW(register_buffer_for, OF_MEMORY),
    ROW(register_buffer_as, OF_MEMORY),
    ROW(register_memory, OF_MEMORY),
    ROW(deregister, OF_MEMORY),
    ROW(deregister_buffer, OF_MEMORY),
    ROW(deregister_memory, OF_MEMORY),
    ROW(drop_region, OF_MEMORY),
    ROW(region_at, OF_MEMORY),
    ROW(region_facts, OF_MEMORY),
    ROW(facts, OF_MEMORY),
    ROW(invalidate, OF_MEMORY),
    ROW(store, OF_MEMORY),
    ROW(load, OF_MEMORY),
    ROW(buffer_new, OF_MEMORY),
    ROW(buffer_free, OF_MEMORY),
    ROW(truncate, OF_MEMORY),
    ROW(drop_front, OF_MEMORY),
    ROW(new_with, OF_MEMORY),
    ROW(open, OF_STREAMS),
    ROW(open_next, OF_STREAMS),
    ROW(open_shared, OF_STREAMS),
    ROW(open_shared_next, OF_STREAMS),
    ROW(close, OF_STREAMS),
    ROW(accept, OF_STREAMS),
    ROW(reject, OF_STREAMS),
    ROW(private, OF_STREAMS),
    ROW(told, OF_STREAMS),
    ROW(peer_facts, OF_STREAMS),
    ROW(state, OF_STREAMS),
    ROW(break, OF_STREAMS),
    ROW(set_mulpdu, OF_STREAMS),
    ROW(first_number, OF_STREAMS),
    ROW(share, OF_STREAMS),
    ROW(post_shared, OF_STREAMS),
    ROW(post_shared_buffer, OF_STREAMS),
    ROW(take_shared_buffer, OF_STREAMS),
    ROW(post, OF_OCTETS),
    ROW(post_buffer, OF_OCTETS),
    ROW(post_send, OF_OCTETS),
    ROW(post_send_buffer, OF_OCTETS),
    ROW(post_write, OF_OCTETS),
    ROW(post_write_buffer, OF_OCTETS),
    ROW(post_read, OF_OCTETS),
    ROW(post_recv, OF_OCTETS),
    ROW(post_recv_buffer, OF_OCTETS),
    ROW(room, OF_OCTETS),
    ROW(deliver, OF_OCTETS),
    ROW(emit_and_deliver, OF_OCTETS),
    ROW(emit, OF_OCTETS),
    ROW(emit_onto, OF_OCTETS),
    ROW(fill, OF_OCTETS),
    ROW(due, OF_OCTETS),
    ROW(work, OF_OCTETS),
    ROW(progress, OF_OCTETS),
    ROW(fetch, OF_OCTETS),
    ROW(fetch_buffer, OF_OCTETS),
    ROW(fetch_sent, OF_OCTETS),
};

enum { CALLS = sizeof calls / sizeof *calls };

/* Makes any of the calls. */
static void make_one(struct iwarp *handle, struct iwarp *other, struct iwarp_buffer *buffer) {
    static uint32_t all; /* how often all are made together */
    struct call call = {.handle = handle, .other = other, .buffer = buffer, .n = any_length()};
    call.pd = any_domain();
    call.stag = any_stag();
    call.stream = any_stream();
    call.had = has(buffer, &call.at);
    if (all == 0)
        for (size_t i = 0; i < CALLS; i++) all += calls[i].often;
    uint32_t left = below(all), which = 0;
    while (left >= calls[which].often) left -= calls[which++].often;
    doing = calls[which].name;
    calls[which].make(&call);
}

static void any_calls(void) {
    registered_pieces = 0;
    doing = "new";
    for (int i = 0; i < HANDLES; i++) {
        refused_before = refused;
        if (!answered(iwarp_new(&handles[i]))) handles[i].at = 0;
    }
    for (int i = 0; i < 3000; i++) {
        int which = (int)below(HANDLES);
        struct iwarp *handle = &handles[which], *other = &handles[1 - which];
        struct iwarp_buffer *buffer = &buffers[below(BUFFERS)];
        refused_before = refused;
        for (int k = 0; k < 8; k++) given[below(LONGEST)] = (uint8_t)chance();
        memcpy(before, out, sizeof out);
        make_one(handle, other, buffer);
        if (below(2000) == 0) {
            doing = "new";
            iwarp_free(handle);
            refused_before = refused;
            answered(iwarp_new(handle));
        }
    }
    for (int i = 0; i < HANDLES; i++) iwarp_free(&handles[i]);
    for (int i = 0; i < BUFFERS; i++) iwarp_buffer_free(&buffers[i]);
}

/* ---- two ends and a model */

enum { STREAM = 64, DOMAIN = 1, REGION = 200000, MESSAGE = 2000, POSTED = 200, TURNS = 2000, SENT = 1 << 20, MOST_EMITTED = 90000 };

/* What one end has posted, and what of it was reported as done. */
struct sender {
    struct iwarp end;
    uint32_t stag; /* the other end's region */
    uint32_t sink;
    int pooled; /* its stream takes receive buffers from a pool, of which it has a share */
    uint64_t posted, done;
    uint8_t messages[POSTED][MESSAGE];
    size_t lengths[POSTED];
    size_t ahead[POSTED]; /* for each Send how much was written by the Writes that were posted before it */
    const uint8_t *from[TURNS]; /* for each message that was posted from a buffer the octets that this had; 0 for the others */
    size_t had[TURNS]; /* how many they are */
    struct iwarp_buffer buffer; /* one that messages are posted from, and that gets their octets back */
    unsigned sends, received; /* how many were posted, and how many came at the other end */
    uint8_t written[REGION]; /* the other end's region, once all that was posted is placed: Writes do not overlap */
    size_t end_of_written;
    uint8_t *sent; /* all that a socket took of what was emitted */
    size_t emitted, delivered; /* how much that is, and up to where the other end had all of it */
    struct iwarp_buffer frames; /* what was emitted and not yet taken */
    size_t reached; /* past the last octet of it that the other end had */
};

static struct sender ends[2];

/* Makes a call again for as long as memory is refused. */
#define MUST(call)                                                                  \
    do {                                                                            \
        int32_t code;                                                               \
        do {                                                                        \
            refused_before = refused;                                               \
            code = (call);                                                          \
            answered(code);                                                         \
        } while (code == IWARP_NO_MEMORY);                                          \
        CHECK(code == IWARP_OK);                                                    \
    } while (0)

/* Registers a region. If it is the first of a new domain, and its STag is drawn, the bits tell slot and key. */
static void offer(struct sender *sender, const uint8_t *octets, uint32_t rights, int is_first, uint32_t *stag) {
    struct iwarp_registration registration = {.size = sizeof registration, .flags = below(2) ? IWARP_DRAWN : 0};
    registration.pd = DOMAIN;
    registration.rights = rights;
    registration.drawn = chance();
    uint32_t slot = registration.drawn % 1024, key = registration.drawn / 1024 % 255;
    MUST(iwarp_register_as(&sender->end, &registration, octets, REGION, stag));
    if (is_first) CHECK(*stag == ((uint32_t)DOMAIN << 24) + (registration.flags ? (slot << 8) + key : 0));
}

/* Opens the stream, with receive buffers of its own or in a pool. */
static void open_stream(struct sender *sender, uint32_t options) {
    uint32_t number;
    sender->pooled = below(2);
    if (sender->pooled) {
        MUST(iwarp_share(&sender->end, DOMAIN));
        MUST(iwarp_open_shared_next(&sender->end, DOMAIN, IWARP_PRESET, options, given, 0, &number));
    } else {
        MUST(iwarp_open_next(&sender->end, DOMAIN, IWARP_PRESET, options, given, 0, &number));
    }
    CHECK(number == STREAM);
    for (int i = 0; i < POSTED; i++) {
        if (sender->pooled)
            MUST(iwarp_post_shared(&sender->end, DOMAIN, MESSAGE));
        else
            MUST(iwarp_post_recv(&sender->end, STREAM, MESSAGE));
    }
}

static void begin(struct sender *sender, struct sender *other, uint32_t options) {
    MUST(iwarp_new(&sender->end));
    MUST(iwarp_add_domain(&sender->end, DOMAIN));
    MUST(iwarp_buffer_new(0, &sender->buffer));
    MUST(iwarp_buffer_new(0, &sender->frames));
    offer(sender, other->written, IWARP_WRITE | IWARP_READ, 1, &other->stag);
    offer(sender, sender->written, IWARP_SINK, 0, &sender->sink);
    CHECK(other->stag >> 8 != sender->sink >> 8);
    open_stream(sender, options);
    MUST(iwarp_set_mulpdu(&sender->end, STREAM, 128 + below(1500)));
}

/* Has a buffer that messages are posted from as many octets as these, and these. */
static void fill(struct sender *sender, const uint8_t *octets, size_t n) {
    uint8_t *at;
    if (has(&sender->buffer, &at) < n || below(4) == 0) {
        iwarp_buffer_free(&sender->buffer);
        MUST(iwarp_buffer_new(n, &sender->buffer));
    }
    MUST(iwarp_buffer_truncate(&sender->buffer, n));
    CHECK(has(&sender->buffer, &at) == n);
    memcpy(at, octets, n);
    sender->from[sender->posted] = octets;
    sender->had[sender->posted] = n;
}

/* Posts what a struct describes, of a copy or from a buffer. */
static void post_described(struct sender *sender, uint32_t kind, const uint8_t *octets, size_t n) {
    struct iwarp_posting posting = {.size = sizeof posting, .kind = kind, .stag = sender->stag, .token = sender->posted};
    posting.to = sender->end_of_written;
    if (below(2)) {
        MUST(iwarp_post(&sender->end, STREAM, &posting, octets, n));
        return;
    }
    fill(sender, octets, n);
    MUST(iwarp_post_buffer(&sender->end, STREAM, &posting, &sender->buffer));
}

/* Posts a Send, of a copy or from a buffer, by either kind of call. */
static void post_send(struct sender *sender, const uint8_t *octets, size_t n) {
    switch (below(4)) {
    case 0:
    case 1:
        post_described(sender, IWARP_MESSAGE_SEND, octets, n);
        break;
    case 2:
        MUST(iwarp_post_send(&sender->end, STREAM, octets, n, 0, 0, sender->posted));
        break;
    default:
        fill(sender, octets, n);
        MUST(iwarp_post_send_buffer(&sender->end, STREAM, &sender->buffer, 0, 0, sender->posted));
    }
}

static void post_write(struct sender *sender, const uint8_t *octets, size_t n) {
    switch (below(4)) {
    case 0:
    case 1:
        post_described(sender, IWARP_MESSAGE_WRITE, octets, n);
        break;
    case 2:
        MUST(iwarp_post_write(&sender->end, STREAM, sender->stag, sender->end_of_written, octets, n, sender->posted));
        break;
    default:
        fill(sender, octets, n);
        MUST(iwarp_post_write_buffer(&sender->end, STREAM, sender->stag, sender->end_of_written, &sender->buffer, sender->posted));
    }
}

/* Posts a Read into this end's region of what stands at the same place of the other's. */
static void post_read(struct sender *sender, uint64_t to, uint32_t n) {
    struct iwarp_posting posting = {.size = sizeof posting, .kind = IWARP_MESSAGE_READ, .stag = sender->stag, .sink = sender->sink};
    if (below(2)) {
        MUST(iwarp_post_read(&sender->end, STREAM, sender->sink, to, n, sender->stag, to, sender->posted));
        return;
    }
    posting.to = posting.sink_to = to;
    posting.len = n;
    posting.token = sender->posted;
    MUST(iwarp_post(&sender->end, STREAM, &posting, iwarp_octets(0), 0));
}

/* A message is done: gets its octets back if it was posted from a buffer, and none if not; or leaves them. */
static void get_back(struct sender *sender) {
    const uint8_t *octets = sender->from[sender->done];
    uint8_t *at;
    if (below(8) == 0) return;
    MUST(iwarp_fetch_sent(&sender->end, STREAM, &sender->buffer));
    CHECK(has(&sender->buffer, &at) == (octets ? sender->had[sender->done] : 0));
    CHECK(!octets || memcmp(at, octets, sender->had[sender->done]) == 0);
}

static void post(struct sender *sender) {
    size_t n = below(MESSAGE), to = below((uint32_t)(REGION - n));
    uint8_t *writes = sender->written + sender->end_of_written;
    if (sender->posted - sender->done >= 100) return;
    switch (below(3)) {
    case 0:
        if (sender->sends == POSTED) return;
        for (size_t i = 0; i < n; i++) sender->messages[sender->sends][i] = (uint8_t)chance();
        sender->lengths[sender->sends] = n;
        sender->ahead[sender->sends] = sender->end_of_written;
        post_send(sender, sender->messages[sender->sends], n);
        sender->sends++;
        break;
    case 1:
        if (sender->end_of_written + n > REGION) return;
        for (size_t i = 0; i < n; i++) writes[i] = (uint8_t)chance();
        post_write(sender, writes, n);
        sender->end_of_written += n;
        break;
    default:
        post_read(sender, to, (uint32_t)n);
    }
    sender->posted++;
}

/* Emits a frame to where the socket's octets are. */
static void emit_one(struct sender *sender) {
    struct iwarp_emission emission;
    uint32_t wants;
    size_t n;
    MUST(iwarp_wants_write(&sender->end, STREAM, &wants));
    MUST(iwarp_emit(&sender->end, STREAM, sender->sent + sender->emitted, SENT - sender->emitted, &n, &emission));
    CHECK(emission.kind != IWARP_DENIED && wants == (emission.kind != IWARP_NOTHING) && (wants || n == 0));
    sender->emitted += n;
}

/* Puts frames behind those that are not taken yet, and again for as long as memory is refused. */
static void emit_some(struct sender *sender) {
    struct iwarp_filling filling;
    do refused_before = refused;
    while (!filled(&sender->end, STREAM, below(4) ? below(20000) : below(3), &sender->frames, &filling));
    CHECK(filling.kind != IWARP_FILL_DENIED);
}

/* A socket takes some of the frames: they are dropped, and the rest stays. All that was emitted was taken, or is left. */
static void take_some(struct sender *sender) {
    struct iwarp_progress progress;
    uint8_t *at;
    size_t n = has(&sender->frames, &at), taken = below(3) ? n : below((uint32_t)n + 1);
    if (n > 0 && taken == 0) taken = 1;
    if (taken > 0) memcpy(sender->sent + sender->emitted, at, taken);
    sender->emitted += taken;
    MUST(iwarp_buffer_drop_front(&sender->frames, taken));
    CHECK(has(&sender->frames, &at) == n - taken);
    MUST(iwarp_progress(&sender->end, STREAM, &progress));
    CHECK(progress.sent == sender->emitted + n - taken);
}

static void emit(struct sender *sender) {
    uint8_t *at;
    size_t left = has(&sender->frames, &at);
    int is_full = sender->emitted + left + MOST_EMITTED > SENT;
    if (!is_full && left == 0 && below(2))
        emit_one(sender);
    else if (!is_full && (left == 0 || below(3)))
        emit_some(sender);
    take_some(sender);
}

/* Whether an end's region shows the first octets that the other end has written. */
static int shows(struct sender *sender, struct sender *other, size_t n) {
    static uint8_t region[REGION];
    MUST(iwarp_load(&sender->end, other->stag, 0, region, n));
    return memcmp(region, other->written, n) == 0;
}

/* No more buffers of the pool are bound than Sends are under way. */
static void shares(struct sender *sender, struct sender *other) {
    struct iwarp_progress progress;
    MUST(iwarp_progress(&sender->end, STREAM, &progress));
    CHECK(progress.bound <= (sender->pooled ? other->sends - other->received : 0));
}

/* The step by which the stream comes to have more buffers bound than the mark is told: then it has one more. */
static void work_to_mark(struct sender *sender, struct iwarp_event *event) {
    struct iwarp_limits limits = {.size = sizeof limits, .mark = below(4), .flags = IWARP_HAS_MARK};
    struct iwarp_progress before, after;
    MUST(iwarp_progress(&sender->end, STREAM, &before));
    MUST(iwarp_work_marked(&sender->end, STREAM, &limits, event));
    MUST(iwarp_progress(&sender->end, STREAM, &after));
    if (event->kind == IWARP_BUFFERED)
        CHECK(after.bound == limits.mark + 1 && event->flags == IWARP_ABOVE_MARK);
    else
        CHECK(before.bound > limits.mark || after.bound <= limits.mark);
}

/* Does a step, or steps. The share is all that are posted to the pool: none is lacking. */
static void do_steps(struct sender *sender, struct iwarp_event *event) {
    switch (below(3)) {
    case 0: MUST(iwarp_work(&sender->end, STREAM, event)); break;
    case 1: MUST(iwarp_work_within(&sender->end, STREAM, POSTED, event)); break;
    default: work_to_mark(sender, event); break;
    }
}

static void work(struct sender *sender, struct sender *other) {
    struct iwarp_event event;
    size_t n;
    do {
        do_steps(sender, &event);
        switch (event.kind) {
        case IWARP_DONE:
            CHECK(event.token == sender->done);
            get_back(sender);
            sender->done++;
            break;
        case IWARP_RECEIVED:
            MUST(iwarp_fetch(&sender->end, STREAM, out, sizeof out, &n));
            CHECK(other->received < other->sends && n == other->lengths[other->received]);
            CHECK(memcmp(out, other->messages[other->received], n) == 0);
            CHECK(shows(sender, other, other->ahead[other->received]));
            other->received++;
            shares(sender, other);
            break;
        case IWARP_FAULT: case IWARP_TERMINATED: case IWARP_FLUSHED: case IWARP_FLUSHED_RECV:
            CHECK(!"an honest stream ends");
        }
    } while (event.kind != IWARP_IDLE);
}

/* n octets of what was emitted have come. */
static void has_come(struct sender *from, size_t at, size_t n) {
    if (at <= from->delivered && at + n > from->delivered) from->delivered = at + n;
    if (at + n > from->reached) from->reached = at + n;
}

/* Delivers the octets past the last that came, in the place that is lent for them. */
static void carry_in_place(struct sender *from, struct sender *to) {
    size_t at = from->reached, n = from->emitted - at < 3000 ? from->emitted - at : 1 + below(3000), room;
    uint8_t *place;
    if (n == 0) return;
    MUST(iwarp_room(&to->end, STREAM, n, &place, &room));
    CHECK(room == n);
    memcpy(place, from->sent + at, n);
    MUST(iwarp_came(&to->end, STREAM, n));
    has_come(from, at, n);
}

/* Delivers some of what was emitted: the next octets, those further on, or those that came before. */
static void carry(struct sender *from, struct sender *to) {
    size_t at = from->delivered, ahead = from->emitted - at, n;
    uint32_t kept;
    switch (below(6)) {
    case 2:
    case 3: carry_in_place(from, to); return;
    case 0: at += ahead ? below((uint32_t)ahead) : 0; break;
    case 1: at -= at ? below((uint32_t)(at < 5000 ? at : 5000)) : 0; break;
    default: break;
    }
    n = from->emitted - at < 3000 ? from->emitted - at : 1 + below(3000);
    MUST(iwarp_deliver(&to->end, STREAM, (uint32_t)at, from->sent + at, n, &kept));
    CHECK(kept == 1);
    has_come(from, at, n);
}

/* All that was posted is done, and has come. */
static void settled(struct sender *sender, struct sender *other) {
    CHECK(sender->done == sender->posted && sender->received == sender->sends);
    CHECK(shows(other, sender, REGION));
}

/* A stream that is open is not closed; once it has ended and handed back what was posted, it is. */
static void finish(struct sender *sender) {
    struct iwarp_event event;
    CHECK(iwarp_close(&sender->end, STREAM) == IWARP_NOT_AT_REST);
    MUST(iwarp_break(&sender->end, STREAM));
    do {
        MUST(iwarp_work(&sender->end, STREAM, &event));
    } while (event.kind != IWARP_IDLE);
    MUST(iwarp_close(&sender->end, STREAM));
    CHECK(iwarp_close(&sender->end, STREAM) == IWARP_NO_SUCH_STREAM);
    CHECK(iwarp_fetch_sent(&sender->end, STREAM, &sender->buffer) == IWARP_NO_SUCH_STREAM);
    iwarp_buffer_free(&sender->buffer);
    iwarp_buffer_free(&sender->frames);
    iwarp_free(&sender->end);
}

static void two_ends(void) {
    uint32_t options = below(4);
    doing = "two ends";
    for (int i = 0; i < 2; i++) ends[i] = (struct sender){.end = IWARP_CLOSED, .sent = ends[i].sent};
    for (int i = 0; i < 2; i++) begin(&ends[i], &ends[1 - i], options);
    for (int i = 0; i < 2000; i++) {
        int which = (int)below(2);
        struct sender *sender = &ends[which], *other = &ends[1 - which];
        switch (below(4)) {
        case 0:
            if (i < 1200) post(sender);
            break;
        case 1: emit(sender); break;
        case 2: carry(sender, other); break;
        default: work(sender, other); break;
        }
        /* the window has room for what is not delivered yet */
        while (sender->emitted - sender->delivered > 60000) carry(sender, other);
    }
    /* a pass may end with a response that has just become due, so two in a row must change nothing */
    for (int quiet = 0; quiet < 2; quiet++) {
        for (int i = 0; i < 2; i++) {
            size_t emitted = ends[i].emitted;
            uint64_t done = ends[i].done;
            emit(&ends[i]);
            while (ends[i].delivered < ends[i].emitted) carry(&ends[i], &ends[1 - i]);
            work(&ends[1 - i], &ends[i]);
            work(&ends[i], &ends[1 - i]);
            if (ends[i].emitted != emitted || ends[i].done != done) quiet = -1;
        }
    }
    for (int i = 0; i < 2; i++)
        if (ends[i].emitted + MOST_EMITTED <= SENT && ends[1 - i].emitted + MOST_EMITTED <= SENT) settled(&ends[i], &ends[1 - i]);
    for (int i = 0; i < 2; i++) finish(&ends[i]);
}

int main(int n, char **words) {
    int64_t until = seconds() + (n > 1 ? strtol(words[1], 0, 10) : 20);
    uint64_t seed = n > 2 ? strtoul(words[2], 0, 10) : 1;
    unsigned long rounds = 0;
    for (int i = 0; i < 2; i++)
        if (!(ends[i].sent = malloc(SENT))) return 1;
    do {
        round_seed = seed + rounds;
        state = round_seed * 0x9e3779b97f4a7c15u + 1;
        refuse = below(2) ? 0 : 1 + below(100);
        if (rounds % 2)
            two_ends();
        else
            any_calls();
        rounds++;
    } while (seconds() < until && n <= 3);
    refuse = 0;
    for (int i = 0; i < 2; i++) free(ends[i].sent);
    printf("ok %lu\n", rounds);
    return 0;
}
