/* All loops: how they begin and end, with the target. */
#include "target.h"

enum { BACKLOG = 128 };

/* Says why the target cannot begin. */
static int fail(const char *what, const char *why) {
    fprintf(stderr, "%s: %s\n", what, why);
    return 0;
}

static int fail_at_address(const struct options *options) {
    fprintf(stderr, "%s, port %u: %s\n", options->address, options->port, strerror(errno));
    return 0;
}

/* Takes the address, and finds out the port. */
static int take_address(struct target *target) {
    struct sockaddr_in address = {.sin_family = AF_INET, .sin_port = htons((unsigned short)target->options.port)};
    socklen_t n = sizeof address;
    int one = 1;
    if (inet_pton(AF_INET, target->options.address, &address.sin_addr) != 1) {
        errno = EINVAL;
        return 0;
    }
    target->listener = socket(AF_INET, SOCK_STREAM | SOCK_NONBLOCK | SOCK_CLOEXEC, 0);
    if (target->listener < 0) return 0;
    setsockopt(target->listener, SOL_SOCKET, SO_REUSEADDR, &one, sizeof one);
    if (bind(target->listener, (struct sockaddr *)&address, n) != 0) return 0;
    if (getsockname(target->listener, (struct sockaddr *)&address, &n) != 0) return 0;
    target->port = ntohs(address.sin_port);
    return 1;
}

int target_open(struct target *target, const struct options *options) {
    memset(target, 0, sizeof *target);
    target->options = *options;
    pthread_mutex_init(&target->places.lock, 0);
    pthread_mutex_init(&target->controllers.lock, 0);
    pthread_mutex_init(&target->errors.lock, 0);
    const char *why = store_open(&target->store, options);
    if (why) return fail(options->file ? options->file : "memory for the store", why);
    identity_find(&target->identity, options, target->store.fd);
    for (unsigned i = 0; i < options->loops; i++)
        if (!loop_open(&target->loops[i], target)) return fail("a loop", strerror(errno));
    return take_address(target) || fail_at_address(options);
}

/* A loop that cannot go on has the target end. */
static void *run(void *given) {
    struct loop *loop = given;
    while (loop_turn(loop, -1)) {
    }
    if (!loop->ends_at) {
        loop->target->is_broken = 1;
        target_end(loop->target);
    }
    return 0;
}

int target_begin(struct target *target) {
    for (unsigned i = 1; i < target->options.loops; i++) {
        int error = pthread_create(&target->loops[i].thread, 0, run, &target->loops[i]);
        if (error != 0) return fail("a thread of a loop", strerror(error));
    }
    return 1;
}

int target_listen(struct target *target) {
    return (listen(target->listener, BACKLOG) == 0 && loop_watch_listener(target->loops)) || fail_at_address(&target->options);
}

void target_run(struct target *target) {
    run(target->loops);
    for (unsigned i = 1; i < target->options.loops; i++) pthread_join(target->loops[i].thread, 0);
}

void target_end(struct target *target) {
    target->ends = 1;
    for (unsigned i = 0; i < target->options.loops; i++) loop_wake(&target->loops[i]);
}

/* What is left of the time in which the target has to end. */
static uint64_t time_left(const struct loop *loop) {
    uint64_t until = loop->ends_at ? loop->ends_at : loop->now + loop->target->options.stall_ms;
    return loop->now < until ? until - loop->now : 0;
}

int target_close(struct target *target) {
    struct loop *first = target->loops;
    if (!first->ends_at) {
        target->ends = 1;
        loop_turn(first, 0);
    }
    for (int left = 1; left && time_left(first) > 0;) {
        left = 0;
        for (unsigned i = 0; i < target->options.loops; i++) left += loop_drain(&target->loops[i], 1);
    }
    if (!store_close(&target->store, time_left(first))) return 0;
    for (unsigned i = 0; i < target->options.loops; i++) loop_close(&target->loops[i]);
    return !target->store.failed;
}
