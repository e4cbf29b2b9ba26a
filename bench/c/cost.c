/* What calls cost through the C interface, beside the same calls from Rattle (crates/bench_handle), in one run, by turns: the
 * median of many rounds of each, in processor time. A line each: what it is, the nanoseconds in Rattle, and those in C. */
#define _POSIX_C_SOURCE 199309L
#define IWARP_NO_ATTRIBUTES /* what is timed looks at no code */
#include "../../include/iwarp.h"
#include <malloc.h>
#include <stdio.h>
#include <stdlib.h>
#include <string.h>
#include <time.h>

enum { CALLS = 200000, ROUNDS = 101, MESSAGES = 2000, REGION = 65536 };
enum { STREAM = 0, PEERS_STAG = 1 << 24 };

uint64_t handle_bench_idle(uint32_t stream, uint64_t calls);
uint64_t handle_bench_write(uint32_t stream, const uint8_t *frames, size_t n, uint64_t writes);
uint64_t handle_bench_send(uint32_t stream, size_t most, _Bool is_send, const uint8_t *octets, size_t n, uint64_t messages);

static uint8_t octets[REGION], written[REGION], frames[2 * REGION], frame[66000];

typedef int32_t working(struct iwarp *, uint32_t, struct iwarp_event *);

/* Processor time, in nanoseconds. */
static double now(void) {
    struct timespec time;
    clock_gettime(CLOCK_PROCESS_CPUTIME_ID, &time);
    return 1e9 * (double)time.tv_sec + (double)time.tv_nsec;
}

static void must(int is_so, const char *what) {
    if (is_so) return;
    fprintf(stderr, "%s\n", what);
    exit(2);
}

static void opened(struct iwarp *end) {
    iwarp_new(end);
    iwarp_add_domain(end, 1);
    must(iwarp_open(end, STREAM, 1, IWARP_PRESET, 0, octets, 0) == IWARP_OK, "open");
}

/* With a region that the peer may write. Returns its STag. */
static uint32_t opened_to_writes(struct iwarp *end) {
    uint32_t stag;
    opened(end);
    must(iwarp_register(end, 1, 0, octets, REGION, IWARP_WRITE, &stag) == IWARP_OK, "register");
    return stag;
}

/* Works until there is nothing to do. */
static void work_off(struct iwarp *end, working *work) {
    struct iwarp_event event;
    while (work(end, STREAM, &event) == IWARP_OK && event.kind != IWARP_IDLE) {}
}

/* ---- a call with nothing to do */

static double idle_in_c(void) {
    struct iwarp end = IWARP_CLOSED;
    struct iwarp_event event;
    opened(&end);
    double from = now();
    for (int i = 0; i < CALLS; i++) iwarp_work(&end, STREAM, &event);
    double took = now() - from;
    iwarp_free(&end);
    return took / CALLS;
}

static double idle_in_rattle(void) {
    double from = now();
    handle_bench_idle(STREAM, CALLS);
    return (now() - from) / CALLS;
}

/* ---- receiving */

/* The octets of the last Write must have been placed. */
static double writes_in_c(size_t n, working *work) {
    static uint8_t placed[REGION];
    struct iwarp end = IWARP_CLOSED;
    uint32_t kept;
    double from = now();
    uint32_t stag = opened_to_writes(&end);
    for (uint64_t i = 0; i < MESSAGES; i++) {
        iwarp_deliver(&end, STREAM, (uint32_t)(i * n), frames, n, &kept);
        work_off(&end, work);
    }
    double took = now() - from;
    must(iwarp_load(&end, stag, 0, placed, REGION) == IWARP_OK && memcmp(placed, written, REGION) == 0, "other octets were placed");
    iwarp_free(&end);
    return took / MESSAGES;
}

static double writes_in_rattle(size_t n) {
    double from = now();
    must(handle_bench_write(STREAM, frames, n, MESSAGES) == MESSAGES * n, "other octets had their turn in Rattle");
    return (now() - from) / MESSAGES;
}

/* The frames of a Write of the whole region. */
static size_t emitted(void) {
    struct iwarp end = IWARP_CLOSED;
    struct iwarp_emission emission;
    size_t n, all = 0;
    uint32_t stag = opened_to_writes(&end);
    for (int i = 0; i < REGION; i++) written[i] = (uint8_t)(i * 31 >> 3);
    iwarp_post_write(&end, STREAM, stag, 0, written, REGION, 0);
    while (iwarp_emit(&end, STREAM, frame, sizeof frame, &n, &emission) == IWARP_OK && emission.kind == IWARP_FRAME) {
        memcpy(frames + all, frame, n);
        all += n;
    }
    iwarp_free(&end);
    return all;
}

/* ---- sending */

/* How a message is posted: its octets are copied, or the buffer's own. */
enum posting { COPIED_WRITE, COPIED_SEND, WRITE, SEND };

static int32_t post(struct iwarp *end, enum posting posting, struct iwarp_buffer *payload) {
    switch (posting) {
    case COPIED_WRITE:
        return iwarp_post_write(end, STREAM, PEERS_STAG, 0, written, REGION, 0);
    case COPIED_SEND:
        return iwarp_post_send(end, STREAM, written, REGION, 0, 0, 0);
    case WRITE:
        return iwarp_post_write_buffer(end, STREAM, PEERS_STAG, 0, payload, 0);
    default:
        return iwarp_post_send_buffer(end, STREAM, payload, 0, 0, 0);
    }
}

typedef size_t emitting(struct iwarp *, struct iwarp_buffer *);

/* Emits all that is due, at once. Returns how many octets that is. */
static size_t emit_all(struct iwarp *end, struct iwarp_buffer *out) {
    struct iwarp_filling filling;
    iwarp_buffer_truncate(out, 0);
    must(iwarp_fill(end, STREAM, SIZE_MAX, out, &filling) == IWARP_OK && filling.kind == IWARP_FILL_ALL, "fill");
    return (size_t)filling.n;
}

/* The same, frame by frame. */
static size_t emit_each(struct iwarp *end, struct iwarp_buffer *out) {
    struct iwarp_emission emission;
    uint8_t *at;
    size_t n;
    iwarp_buffer_truncate(out, 0);
    while (iwarp_emit_onto(end, STREAM, out, &emission) == IWARP_OK && emission.kind == IWARP_FRAME) {}
    iwarp_buffer_at(out, &at, &n);
    return n;
}

static double sends_in_c(enum posting posting, emitting *emit, uint64_t *emitted) {
    struct iwarp end = IWARP_CLOSED;
    struct iwarp_buffer out = IWARP_NO_BUFFER, payload = IWARP_NO_BUFFER;
    double from = now();
    opened(&end);
    iwarp_buffer_new(0, &out);
    iwarp_buffer_new(REGION, &payload);
    *emitted = 0;
    for (int i = 0; i < MESSAGES; i++) {
        must(post(&end, posting, &payload) == IWARP_OK, "post");
        *emitted += emit(&end, &out);
        work_off(&end, iwarp_work_on);
        if (posting == WRITE || posting == SEND) must(iwarp_fetch_sent(&end, STREAM, &payload) == IWARP_OK, "fetch_sent");
    }
    iwarp_buffer_free(&payload);
    iwarp_buffer_free(&out);
    iwarp_free(&end);
    return (now() - from) / MESSAGES;
}

static double sends_in_rattle(_Bool is_send, uint64_t emitted) {
    double from = now();
    must(handle_bench_send(STREAM, SIZE_MAX, is_send, written, REGION, MESSAGES) == emitted, "other octets were emitted in Rattle");
    return (now() - from) / MESSAGES;
}

/* ---- times */

static int above(const void *a, const void *b) {
    double x = *(const double *)a, y = *(const double *)b;
    return (x > y) - (x < y);
}

static double median(double *times) {
    qsort(times, ROUNDS, sizeof *times, above);
    return times[ROUNDS / 2];
}

static void tell(const char *what, double *times, double *rattle) {
    printf("%s\t%.1f\t%.1f\n", what, median(rattle), median(times));
}

int main(void) {
    /* No round is to pay for pages that another gave back. */
    mallopt(M_TRIM_THRESHOLD, 1 << 30);
    mallopt(M_MMAP_THRESHOLD, 1 << 30);
    static double idle[ROUNDS], idle_rattle[ROUNDS], stepwise[ROUNDS], at_once[ROUNDS], write_rattle[ROUNDS];
    static double sent[SEND + 1][ROUNDS], each[ROUNDS], sent_rattle[2][ROUNDS];
    size_t n = emitted();
    for (int i = 0; i < ROUNDS; i++) {
        uint64_t emitted_octets[SEND + 1], emitted_each;
        idle[i] = idle_in_c();
        idle_rattle[i] = idle_in_rattle();
        stepwise[i] = writes_in_c(n, iwarp_work);
        at_once[i] = writes_in_c(n, iwarp_work_on);
        write_rattle[i] = writes_in_rattle(n);
        for (enum posting posting = COPIED_WRITE; posting <= SEND; posting++)
            sent[posting][i] = sends_in_c(posting, emit_all, &emitted_octets[posting]);
        each[i] = sends_in_c(SEND, emit_each, &emitted_each);
        must(emitted_each == emitted_octets[SEND], "other octets were emitted frame by frame");
        sent_rattle[0][i] = sends_in_rattle(0, emitted_octets[WRITE]);
        sent_rattle[1][i] = sends_in_rattle(1, emitted_octets[SEND]);
    }
    tell("a call with nothing to do", idle, idle_rattle);
    tell("a Write of 64 KiB, received by iwarp_work_on", at_once, write_rattle);
    tell("  by iwarp_work, step by step", stepwise, write_rattle);
    tell("a Write of 64 KiB, sent from a buffer by iwarp_fill", sent[WRITE], sent_rattle[0]);
    tell("  copied when it is posted", sent[COPIED_WRITE], sent_rattle[0]);
    tell("a Send of 64 KiB, sent from a buffer by iwarp_fill", sent[SEND], sent_rattle[1]);
    tell("  copied when it is posted", sent[COPIED_SEND], sent_rattle[1]);
    tell("  by iwarp_emit_onto, frame by frame", each, sent_rattle[1]);
    return 0;
}
