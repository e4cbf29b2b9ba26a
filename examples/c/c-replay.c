/* Replays a schedule of two endpoints, as `iwarp replay` does, through the C interface alone. `c-replay --help` says how it is
 * run. */
#include "host.h"

enum { STREAMS = 64, WORDS = 9, FRAME = 66000, MOST_READS = 16 };

/* A growing buffer of octets. */
struct octets {
    uint8_t *at;
    size_t n, room;
};

/* An end: what it emitted at each of its streams, the sequence number of the peer's first octet, and which of them were
 * opened, and for revision 2 of MPA. */
struct end {
    struct iwarp handle;
    struct octets emitted[STREAMS];
    uint32_t first[STREAMS];
    int opened[STREAMS];
    int enhanced[STREAMS];
};

static struct end ends[2];
static char *words[WORDS];
static int count;
static uint8_t frame[FRAME];
static struct octets scratch;

static void fail(void) {
    fflush(0);
    exit(2);
}

static void make_room(struct octets *octets, size_t n) {
    if (n <= octets->room) return;
    octets->room = 2 * n;
    octets->at = realloc(octets->at, octets->room);
    if (octets->at == 0) fail();
}

static void append(struct octets *octets, const uint8_t *more, size_t n) {
    make_room(octets, octets->n + n + 1);
    memcpy(octets->at + octets->n, more, n);
    octets->n += n;
}

/* ---- words */

static uint64_t number(const char *word) {
    uint64_t n = 0;
    if (*word == 0) fail();
    for (; *word; word++) {
        if (*word < '0' || *word > '9') fail();
        n = 10 * n + (uint64_t)(*word - '0');
    }
    return n;
}

static uint32_t sequence_number(const char *word) {
    uint64_t n = number(word);
    if (n > UINT32_MAX) fail();
    return (uint32_t)n;
}

static int digit(char letter) {
    if (letter >= '0' && letter <= '9') return letter - '0';
    if (letter >= 'a' && letter <= 'f') return letter - 'a' + 10;
    if (letter >= 'A' && letter <= 'F') return letter - 'A' + 10;
    fail();
    return 0;
}

static uint32_t stag(const char *word) {
    uint32_t n = 0;
    if (strlen(word) != 8) fail();
    for (; *word; word++) n = n << 4 | (uint32_t)digit(*word);
    return n;
}

/* Octets: hexadecimal digits, perhaps with a count; or `-` for none. */
static struct octets *octets(const char *word) {
    size_t times = 1, digits = 0;
    scratch.n = 0;
    make_room(&scratch, 1);
    if (strcmp(word, "-") == 0) return &scratch;
    while (word[digits] && word[digits] != '*') digits++;
    if (word[digits] == '*') times = number(word + digits + 1);
    make_room(&scratch, times * digits / 2 + 1);
    for (size_t i = 0; i < times; i++)
        for (size_t k = 0; k + 1 < digits; k += 2) scratch.at[scratch.n++] = (uint8_t)(digit(word[k]) << 4 | digit(word[k + 1]));
    return &scratch;
}

/* The sum of the letters that a word has: 1 for the first of `all`, 2 for the second, 4 for the third, and so on. */
static uint32_t letters(const char *word, const char *all) {
    uint32_t sum = 0;
    for (; *word && *word != '-'; word++)
        for (uint32_t i = 0; all[i]; i++)
            if (all[i] == *word) sum |= 1u << i;
    return sum;
}

static int one_of(const char *word, const char *const *all) {
    for (int i = 0; all[i]; i++)
        if (strcmp(word, all[i]) == 0) return i;
    fail();
    return 0;
}

/* ---- what is printed */

static void print_octets(const uint8_t *from, size_t n) {
    static const char digits[] = "0123456789abcdef";
    if (n == 0) printf("-");
    for (size_t i = 0; i < n; i++) {
        putchar(digits[from[i] >> 4]);
        putchar(digits[from[i] & 15]);
    }
}

/* The letters that a sum has; a dash if it has none of them. */
static void print_letters(uint32_t sum, const char *all) {
    int some = 0;
    for (uint32_t i = 0; all[i]; i++) {
        if (!(sum >> i & 1)) continue;
        putchar(all[i]);
        some = 1;
    }
    if (!some) putchar('-');
}

/* How traces name a refusal: each word numbers its own refusals. */
struct refusal {
    int32_t code;
    const char *words, *text;
};

static const struct refusal refusals[] = {
    {IWARP_BAD_DOMAIN, "domain", "1 BadDomain"},
    {IWARP_DOMAIN_TAKEN, "domain", "2 DomainTaken"},
    {IWARP_NO_DOMAIN, "register", "1 NoDomain"},
    {IWARP_DOMAIN_FULL, "register", "2 DomainFull"},
    {IWARP_REGION_TOO_LONG, "register", "3 TooLong"},
    {IWARP_BASE_WRAP, "register", "4 BaseWrap"},
    {IWARP_NO_REGION, "deregister invalidate store", "1 NoRegion"},
    {IWARP_OUTSIDE, "store", "2 Outside"},
    {IWARP_NUMBER_TAKEN, "open", "1 NumberTaken"},
    {IWARP_BAD_NUMBER, "open", "2 BadNumber"},
    {IWARP_NO_DOMAIN, "open", "3 NoDomain"},
    {IWARP_PRIVATE_TOO_LONG, "open", "6 PrivateTooLong"},
    {IWARP_NO_DOMAIN, "share pool unpool", "1 NoDomain"},
    {IWARP_ALREADY_SHARED, "share", "2 AlreadyShared"},
    {IWARP_NOT_SHARED, "pool unpool", "2 NotShared"},
    {IWARP_POOL_FULL, "pool", "3 Full"},
    {IWARP_NUMBER_TAKEN, "openshared", "1 NumberTaken"},
    {IWARP_BAD_NUMBER, "openshared", "2 BadNumber"},
    {IWARP_NO_DOMAIN, "openshared", "3 NoDomain"},
    {IWARP_NOT_SHARED, "openshared", "4 NotShared"},
    {IWARP_NOT_ASKED, "accept reject", "1 NotAsked"},
    {IWARP_PRIVATE_TOO_LONG, "accept reject", "2 PrivateTooLong"},
    {IWARP_BUFFERS_FULL, "recv", "1 Full"},
    {IWARP_ENDED, "recv", "3 Ended"},
    {IWARP_SHARED, "recv", "4 Shared"},
    {IWARP_MESSAGES_FULL, "send write read", "1 Full"},
    {IWARP_MESSAGE_TOO_LONG, "send write read", "2 TooLong"},
    {IWARP_NOT_OPEN, "send write read", "3 NotOpen"},
    {IWARP_NO_READS, "read", "5 NoReads"},
    {IWARP_LATE, "first", "1 Late"},
    {IWARP_BAD_SIZE, "mulpdu", "1 BadSize"},
};

/* Whether a word is in a list of words. */
static int stands_in(const char *word, const char *list) {
    size_t n = strlen(word);
    while (*list) {
        size_t k = 0;
        while (list[k] && list[k] != ' ') k++;
        if (k == n && memcmp(word, list, n) == 0) return 1;
        list += list[k] ? k + 1 : k;
    }
    return 0;
}

/* Prints the refusal, if the call was refused. Returns whether it was done. */
static int ended(int32_t code) {
    if (code == IWARP_OK) return 1;
    for (size_t i = 0; i < sizeof refusals / sizeof *refusals; i++)
        if (refusals[i].code == code && stands_in(words[1], refusals[i].words)) {
            printf("refused %s\n", refusals[i].text);
            return 0;
        }
    fail();
    return 0;
}

static void ok(int32_t code) {
    if (ended(code)) printf("ok\n");
}

/* Prints the octets of a part of a region; `-` for none. */
static void print_part(struct end *end, uint32_t region, uint64_t to, uint64_t n) {
    scratch.n = (size_t)n;
    make_room(&scratch, scratch.n + 1);
    if (n > 0 && iwarp_load(&end->handle, region, to, scratch.at, scratch.n) != IWARP_OK) fail();
    print_octets(scratch.at, scratch.n);
}

static void print_private(struct end *end, uint32_t stream) {
    uint8_t data[512];
    size_t n;
    if (iwarp_private(&end->handle, stream, data, sizeof data, &n) != IWARP_OK) fail();
    print_octets(data, n);
}

static struct iwarp_told told_at(struct end *end, uint32_t stream) {
    struct iwarp_told told;
    if (iwarp_told(&end->handle, stream, &told) != IWARP_OK) fail();
    return told;
}

/* The peer's IRD and ORD, at a stream that was opened for revision 2 of MPA. */
static void print_told(struct end *end, uint32_t stream) {
    if (!end->enhanced[stream]) return;
    struct iwarp_told told = told_at(end, stream);
    if (told.has_word)
        printf("%u %u ", told.ird, told.ord);
    else
        printf("- - ");
}

/* The ORD that was agreed on, at such a stream. */
static void print_ord(struct end *end, uint32_t stream) {
    if (!end->enhanced[stream]) return;
    struct iwarp_told told = told_at(end, stream);
    printf(" %u", told.has_word && told.ird < MOST_READS ? told.ird : MOST_READS);
}

static void print_fetched(struct end *end, uint32_t stream, uint64_t n) {
    make_room(&scratch, (size_t)n + 1);
    if (iwarp_fetch(&end->handle, stream, scratch.at, scratch.room, &scratch.n) != IWARP_OK) fail();
    print_octets(scratch.at, scratch.n);
}

/* ---- steps and emissions */

static const char *const messages[] = {"", "write", "send", "read"};
static const char *const startup_faults[] = {"", "BadKey", "BadRev", "BadLength", "Rejected"};
static const char *const kinds[] = {"plain", "solicited", "invalidate", "both", 0};

static void print_fault(const char *name, uint32_t layer, uint32_t error, uint32_t code) {
    printf("%s %d %d %d\n", name, (int)layer, (int)error, (int)code);
}

static void print_received(struct end *end, uint32_t stream, const struct iwarp_event *event) {
    printf("received ");
    print_fetched(end, stream, event->len);
    printf(" %s ", kinds[event->flags]);
    if (event->flags & IWARP_INVALIDATES)
        printf("%08x\n", event->stag);
    else
        printf("-\n");
}

static void print_step(struct end *end, uint32_t stream, const struct iwarp_event *event) {
    switch (event->kind) {
    case IWARP_IDLE: printf("idle\n"); break;
    case IWARP_DONE: printf("done %s\n", messages[event->message]); break;
    case IWARP_FLUSHED: printf("flushed %s\n", messages[event->message]); break;
    case IWARP_FLUSHED_RECV:
        printf("flushed recv ");
        print_fetched(end, stream, event->len);
        printf("\n");
        break;
    case IWARP_ASKED:
        printf("asked ");
        print_told(end, stream);
        print_private(end, stream);
        printf("\n");
        break;
    case IWARP_OPENED:
        printf("opened ");
        print_letters(event->flags, "sec");
        print_ord(end, stream);
        printf(" ");
        print_told(end, stream);
        print_private(end, stream);
        printf("\n");
        break;
    case IWARP_CLOSED_BY_PEER: printf("closed %d %s\n", (int)event->code, startup_faults[event->code]); break;
    case IWARP_PLACED:
        printf("placed %s %08x %llu ", event->right == IWARP_WRITE ? "write" : "sink", event->stag, (unsigned long long)event->to);
        print_part(end, event->stag, event->to, event->len);
        printf("\n");
        break;
    case IWARP_BUFFERED: printf("buffered %u %u %llu\n", event->msn, event->mo, (unsigned long long)event->len); break;
    case IWARP_REQUESTED:
        printf("requested %llu %08x %llu\n", (unsigned long long)event->len, event->stag, (unsigned long long)event->to);
        break;
    case IWARP_PASSED: printf("passed\n"); break;
    case IWARP_RECEIVED: print_received(end, stream, event); break;
    case IWARP_TERMINATED: print_fault("terminated", event->layer, event->error, event->code); break;
    case IWARP_FAULT: print_fault("fault", event->layer, event->error, event->code); break;
    case IWARP_TRIED: printf("tried %llu\n", (unsigned long long)event->to); break;
    default: fail();
    }
}

/* How far a stream is, and how often it took a slow path. */
static struct iwarp_progress progress(struct end *end, uint32_t stream) {
    struct iwarp_progress progress;
    if (iwarp_progress(&end->handle, stream, &progress) != IWARP_OK) fail();
    return progress;
}

static void work(struct end *end, uint32_t stream) {
    struct iwarp_event event;
    uint64_t tried = progress(end, stream).tried;
    if (iwarp_work(&end->handle, stream, &event) != IWARP_OK) fail();
    if (progress(end, stream).tried != tried + (event.kind == IWARP_TRIED)) fail();
    print_step(end, stream, &event);
}

static void emit(struct end *end, uint32_t stream) {
    struct iwarp_emission emission;
    size_t n;
    if (iwarp_emit(&end->handle, stream, frame, sizeof frame, &n, &emission) != IWARP_OK) fail();
    switch (emission.kind) {
    case IWARP_NOTHING: printf("nothing\n"); return;
    case IWARP_DENIED: print_fault("fault", emission.layer, emission.error, emission.code); return;
    case IWARP_FRAME: printf("frame %llu ", (unsigned long long)emission.from); break;
    default: printf("fetched %llu ", (unsigned long long)emission.from); break;
    }
    append(&end->emitted[stream], frame, n);
    print_octets(frame, n);
    if (emission.kind == IWARP_FETCHED) {
        printf(" %08x %llu ", emission.stag, (unsigned long long)emission.to);
        print_part(end, emission.stag, emission.to, emission.n);
    }
    printf("\n");
}

static void set_first(struct end *end, uint32_t stream, uint32_t first) {
    int32_t code = iwarp_first_number(&end->handle, stream, first);
    if (code == IWARP_OK) end->first[stream] = first;
    ok(code);
}

static void deliver(struct end *end, uint32_t stream, uint32_t number, const uint8_t *at, size_t n) {
    uint32_t kept;
    uint64_t dropped = progress(end, stream).dropped;
    if (iwarp_deliver(&end->handle, stream, number, at, n, &kept) != IWARP_OK) fail();
    if (progress(end, stream).dropped != dropped + !kept) fail();
    printf(kept ? "kept\n" : "dropped\n");
}

/* Delivers octets that the other end emitted. */
static void deliver_sent(struct end *end, struct end *other, uint32_t stream, uint64_t from, uint64_t n) {
    struct octets *sent = &other->emitted[stream];
    if (from > sent->n || n > sent->n - from) fail();
    make_room(sent, 1);
    deliver(end, stream, end->first[stream] + (uint32_t)from, sent->at + from, (size_t)n);
}

/* ---- events */

static void do_register(struct end *end) {
    uint32_t given;
    struct octets *from = octets(words[5]);
    int32_t code = iwarp_register(&end->handle, (uint32_t)number(words[2]), number(words[3]), from->at, from->n,
                                  letters(words[4], "wrsi"), &given);
    if (ended(code)) printf("%08x\n", given);
}

static void do_deregister(struct end *end) {
    struct iwarp_facts facts;
    size_t n = 0;
    uint32_t region = stag(words[2]);
    if (iwarp_facts(&end->handle, region, &facts) == IWARP_OK) n = (size_t)facts.len;
    make_room(&scratch, n + 1);
    if (!ended(iwarp_deregister(&end->handle, region, scratch.at, scratch.room, &n))) return;
    printf("ok ");
    print_octets(scratch.at, n);
    printf("\n");
}

static void do_unpool(struct end *end) {
    struct iwarp_buffer buffer = IWARP_NO_BUFFER;
    uint32_t found;
    uint8_t *at;
    size_t n;
    if (iwarp_buffer_new(0, &buffer) != IWARP_OK) fail();
    if (ended(iwarp_take_shared_buffer(&end->handle, (uint32_t)number(words[2]), &buffer, &found))) {
        if (iwarp_buffer_at(&buffer, &at, &n) != IWARP_OK) fail();
        if (found) {
            printf("ok ");
            print_octets(at, n);
        } else {
            printf("empty");
        }
        printf("\n");
    }
    iwarp_buffer_free(&buffer);
}

/* Does a call that needs no stream. Returns whether this was one. */
static int at_memory(struct end *end) {
    const char *word = words[1];
    printf("%s %s ", words[0], word);
    if (strcmp(word, "register") == 0) {
        do_register(end);
        return 1;
    }
    printf("%s ", words[2]);
    if (strcmp(word, "domain") == 0) {
        ok(iwarp_add_domain(&end->handle, (uint32_t)number(words[2])));
    } else if (strcmp(word, "share") == 0) {
        ok(iwarp_share(&end->handle, (uint32_t)number(words[2])));
    } else if (strcmp(word, "pool") == 0) {
        ok(iwarp_post_shared(&end->handle, (uint32_t)number(words[2]), (size_t)number(words[3])));
    } else if (strcmp(word, "unpool") == 0) {
        do_unpool(end);
    } else if (strcmp(word, "deregister") == 0) {
        do_deregister(end);
    } else if (strcmp(word, "invalidate") == 0) {
        ok(iwarp_invalidate(&end->handle, stag(words[2])));
    } else if (strcmp(word, "store") == 0) {
        struct octets *from = octets(words[4]);
        ok(iwarp_store(&end->handle, stag(words[2]), number(words[3]), from->at, from->n));
    } else {
        return 0;
    }
    return 1;
}

static const char *const roles[] = {"preset", "initiator", "responder", 0};

static void do_open(struct end *end, uint32_t stream) {
    uint32_t role = (uint32_t)one_of(words[4], roles);
    struct octets *private_data = octets(words[6]);
    size_t n = role == IWARP_INITIATOR ? private_data->n : 0;
    uint32_t pd = (uint32_t)number(words[3]);
    uint32_t options = letters(words[5], "mcep");
    int32_t code = strcmp(words[1], "open") == 0
                       ? iwarp_open(&end->handle, stream, pd, role, options, private_data->at, n)
                       : iwarp_open_shared(&end->handle, stream, pd, role, options, private_data->at, n);
    if (code == IWARP_OK) {
        end->opened[stream] = 1;
        end->enhanced[stream] = (options & IWARP_ENHANCED) != 0;
    }
    ok(code);
}

static void do_accept(struct end *end, uint32_t stream) {
    uint32_t agreed;
    struct octets *private_data = octets(words[3]);
    if (!ended(iwarp_accept(&end->handle, stream, private_data->at, private_data->n, &agreed))) return;
    printf("ok ");
    print_letters(agreed, "sec");
    print_ord(end, stream);
    printf("\n");
}

static void do_post(struct end *end, uint32_t stream) {
    const char *word = words[1];
    if (strcmp(word, "send") == 0) {
        uint32_t flags = (uint32_t)one_of(words[3], kinds);
        uint32_t region = flags & IWARP_INVALIDATES ? stag(words[4]) : 0;
        struct octets *from = octets(words[5]);
        ok(iwarp_post_send(&end->handle, stream, from->at, from->n, flags, region, 0));
    } else if (strcmp(word, "write") == 0) {
        struct octets *from = octets(words[5]);
        ok(iwarp_post_write(&end->handle, stream, stag(words[3]), number(words[4]), from->at, from->n, 0));
    } else {
        ok(iwarp_post_read(&end->handle, stream, stag(words[3]), number(words[4]), (uint32_t)number(words[5]), stag(words[6]),
                           number(words[7]), 0));
    }
}

static void at_stream(struct end *end, struct end *other, uint32_t stream) {
    const char *word = words[1];
    if (stands_in(word, "open openshared")) {
        do_open(end, stream);
        return;
    }
    if (stream >= STREAMS || !end->opened[stream]) fail();
    if (strcmp(word, "accept") == 0) {
        do_accept(end, stream);
    } else if (strcmp(word, "reject") == 0) {
        struct octets *private_data = octets(words[3]);
        ok(iwarp_reject(&end->handle, stream, private_data->at, private_data->n));
    } else if (strcmp(word, "recv") == 0) {
        ok(iwarp_post_recv(&end->handle, stream, (size_t)number(words[3])));
    } else if (strcmp(word, "first") == 0) {
        set_first(end, stream, sequence_number(words[3]));
    } else if (strcmp(word, "mulpdu") == 0) {
        ok(iwarp_set_mulpdu(&end->handle, stream, (uint32_t)number(words[3])));
    } else if (strcmp(word, "deliver") == 0) {
        deliver_sent(end, other, stream, number(words[3]), number(words[4]));
    } else if (strcmp(word, "raw") == 0) {
        struct octets *from = octets(words[4]);
        deliver(end, stream, sequence_number(words[3]), from->at, from->n);
    } else if (strcmp(word, "break") == 0) {
        ok(iwarp_break(&end->handle, stream));
    } else if (strcmp(word, "emit") == 0) {
        emit(end, stream);
    } else if (strcmp(word, "work") == 0) {
        work(end, stream);
    } else {
        do_post(end, stream);
    }
}

/* Runs one line: one event, or as many as it says. */
static void event(void) {
    struct end *end = &ends[words[0][0] == 'b'], *other = &ends[words[0][0] != 'b'];
    static const char without_stream[] = "domain register deregister invalidate store share pool unpool";
    if (count < 3) fail();
    if (stands_in(words[1], without_stream)) {
        at_memory(end);
        return;
    }
    uint64_t stream = number(words[2]), times = 1;
    if (count == 4 && stands_in(words[1], "emit work")) times = number(words[3]);
    for (uint64_t i = 0; i < times; i++) {
        printf("%s %s %s ", words[0], words[1], words[2]);
        at_stream(end, other, (uint32_t)stream);
    }
}

static void line(char *text) {
    count = 0;
    if (*text == 0 || *text == '#') return;
    for (;;) {
        if (count == WORDS) fail();
        words[count++] = text;
        while (*text && *text != ' ') text++;
        if (*text == 0) break;
        *text++ = 0;
    }
    event();
}

static const char usage[] =
    "usage: c-replay < SCHEDULE\n"
    "\n"
    "Reads a schedule of two endpoints on its standard input, and prints the trace\n"
    "(docs/SCHEDULES.md). The status is 2 if a line is not in the language, or names a stream or\n"
    "octets that do not exist.\n";

int main(int n, char **all) {
    struct octets schedule = {0};
    words_of(n, all, 0, 0, usage);
    for (;;) {
        ssize_t got = read(0, frame, sizeof frame);
        if (got <= 0) break;
        append(&schedule, frame, (size_t)got);
    }
    append(&schedule, (const uint8_t *)"", 1);
    if (iwarp_new(&ends[0].handle) != IWARP_OK || iwarp_new(&ends[1].handle) != IWARP_OK) fail();
    for (char *text = (char *)schedule.at; *text;) {
        char *end = text;
        while (*end && *end != '\n') end++;
        char last = *end;
        *end = 0;
        line(text);
        text = last ? end + 1 : end;
    }
    for (int i = 0; i < 2; i++) {
        iwarp_free(&ends[i].handle);
        for (int k = 0; k < STREAMS; k++) free(ends[i].emitted[k].at);
    }
    free(scratch.at);
    free(schedule.at);
    fflush(0);
    return 0;
}
