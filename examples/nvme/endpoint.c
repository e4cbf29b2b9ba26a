/* The calls of the library. */
#include "endpoint.h"

#include "../c/drawing.h"

/* Messages are told in posting order, so the target knows them without a token. */
enum { NO_TOKEN = 0, READ_AT_ONCE = 65536, GATHERED = 131072 };

int32_t endpoint_handle(struct iwarp *handle, uint32_t domains) {
    int32_t code = iwarp_new(handle);
    for (uint32_t domain = 1; code == IWARP_OK && domain <= domains; domain++) code = iwarp_add_domain(handle, domain);
    return code;
}

int32_t endpoint_open(struct endpoint *endpoint, struct iwarp *handle, uint32_t domain, const struct opening *opening) {
    uint32_t options = opening->options | IWARP_ENHANCED;
    *endpoint = (struct endpoint){.domain = domain, .out = IWARP_NO_BUFFER};
    int32_t code = iwarp_buffer_new(0, &endpoint->out);
    if (code != IWARP_OK) return code;
    code = iwarp_open_next(handle, domain, opening->role, options, opening->private_data, opening->n, &endpoint->stream);
    if (code != IWARP_OK) return code;
    endpoint->handle = handle;
    return iwarp_set_mulpdu(handle, endpoint->stream, opening->mulpdu);
}

/* A stream that has ended hands back what was posted, one thing after the other; what is not fetched is freed. */
void endpoint_close(struct endpoint *endpoint) {
    struct iwarp_event event = {.kind = IWARP_IDLE};
    iwarp_buffer_free(&endpoint->out);
    if (!endpoint->handle) return;
    iwarp_break(endpoint->handle, endpoint->stream);
    while (endpoint_work(endpoint, &event) == IWARP_OK && event.kind != IWARP_IDLE) {
    }
    iwarp_close(endpoint->handle, endpoint->stream);
    endpoint->handle = 0;
}

int32_t endpoint_room(struct endpoint *endpoint, uint8_t **at, size_t *room) {
    return iwarp_room(endpoint->handle, endpoint->stream, READ_AT_ONCE, at, room);
}

int32_t endpoint_came(struct endpoint *endpoint, size_t n) {
    return iwarp_came(endpoint->handle, endpoint->stream, n);
}

int32_t endpoint_work(struct endpoint *endpoint, struct iwarp_event *event) {
    int32_t code = iwarp_work_on(endpoint->handle, endpoint->stream, event);
    if (code != IWARP_OK) return code;
    if (event->kind == IWARP_FAULT || event->kind == IWARP_TERMINATED || event->kind == IWARP_CLOSED_BY_PEER) endpoint->ended = 1;
    return code;
}

/* Gathers the frames that are due, up to GATHERED octets. Where a Read of the peer's is denied, the Terminate is gathered too. */
static int32_t gather(struct endpoint *endpoint) {
    struct iwarp_filling filling;
    do {
        int32_t code = iwarp_fill(endpoint->handle, endpoint->stream, GATHERED, &endpoint->out, &filling);
        if (code != IWARP_OK) return code;
        if (filling.kind == IWARP_FILL_DENIED) endpoint->ended = 1;
    } while (filling.kind == IWARP_FILL_DENIED);
    return IWARP_OK;
}

int32_t endpoint_due(struct endpoint *endpoint, uint8_t **at, size_t *n) {
    int32_t code = iwarp_buffer_at(&endpoint->out, at, n);
    if (code == IWARP_OK && *n == endpoint->written) {
        code = iwarp_buffer_truncate(&endpoint->out, 0);
        if (code == IWARP_OK) code = gather(endpoint);
        if (code == IWARP_OK) code = iwarp_buffer_at(&endpoint->out, at, n);
        endpoint->written = 0;
    }
    *at += endpoint->written;
    *n -= endpoint->written;
    return code;
}

int32_t endpoint_wrote(struct endpoint *endpoint, size_t n) {
    endpoint->written += n;
    return IWARP_OK;
}

int32_t endpoint_private(struct endpoint *endpoint, uint8_t *out, size_t room, size_t *n) {
    return iwarp_private(endpoint->handle, endpoint->stream, out, room, n);
}

int32_t endpoint_reads(struct endpoint *endpoint, uint32_t *reads) {
    struct iwarp_told told;
    int32_t code = iwarp_told(endpoint->handle, endpoint->stream, &told);
    if (code != IWARP_OK) return code;
    *reads = told.has_word && told.ird < MOST_READS ? told.ird : MOST_READS;
    return code;
}

int32_t endpoint_accept(struct endpoint *endpoint, const uint8_t *private_data, size_t n) {
    uint32_t agreed;
    return iwarp_accept(endpoint->handle, endpoint->stream, private_data, n, &agreed);
}

int32_t endpoint_reject(struct endpoint *endpoint, const uint8_t *private_data, size_t n) {
    endpoint->ended = 1;
    return iwarp_reject(endpoint->handle, endpoint->stream, private_data, n);
}

int32_t endpoint_receive(struct endpoint *endpoint, struct iwarp_buffer *buffer) {
    return iwarp_post_recv_buffer(endpoint->handle, endpoint->stream, buffer);
}

int32_t endpoint_fetch(struct endpoint *endpoint, struct iwarp_buffer *buffer, size_t *n) {
    return iwarp_fetch_buffer(endpoint->handle, endpoint->stream, buffer, n);
}

int32_t endpoint_send(struct endpoint *endpoint, const uint8_t *octets, size_t n, uint32_t stag) {
    return iwarp_post_send(endpoint->handle, endpoint->stream, octets, n, stag ? IWARP_INVALIDATES : 0, stag, NO_TOKEN);
}

int32_t endpoint_write(struct endpoint *endpoint, uint32_t stag, uint64_t to, const uint8_t *octets, size_t n) {
    return iwarp_post_write(endpoint->handle, endpoint->stream, stag, to, octets, n, NO_TOKEN);
}

int32_t endpoint_read(struct endpoint *endpoint, uint32_t sink, size_t n, uint32_t source, uint64_t source_to) {
    return iwarp_post_read(endpoint->handle, endpoint->stream, sink, 0, (uint32_t)n, source, source_to, NO_TOKEN);
}

int32_t endpoint_write_buffer(struct endpoint *endpoint, uint32_t stag, uint64_t to, struct iwarp_buffer *buffer) {
    return iwarp_post_write_buffer(endpoint->handle, endpoint->stream, stag, to, buffer, NO_TOKEN);
}

int32_t endpoint_fetch_sent(struct endpoint *endpoint, struct iwarp_buffer *buffer) {
    return iwarp_fetch_sent(endpoint->handle, endpoint->stream, buffer);
}

int32_t endpoint_register(struct endpoint *endpoint, uint64_t base, struct iwarp_buffer *buffer, uint32_t rights, uint32_t *stag) {
    return iwarp_register_buffer(endpoint->handle, endpoint->domain, base, buffer, rights, stag);
}

int32_t endpoint_sink(struct endpoint *endpoint, struct iwarp_buffer *buffer, uint32_t *stag) {
    struct iwarp_registration registration = {.size = sizeof registration, .flags = IWARP_LIMITED | IWARP_DRAWN};
    registration.stream = endpoint->stream;
    registration.rights = IWARP_SINK;
    registration.drawn = random_bits();
    return iwarp_register_buffer_as(endpoint->handle, &registration, buffer, stag);
}

int32_t endpoint_take_back(struct endpoint *endpoint, uint32_t stag, struct iwarp_buffer *buffer) {
    return iwarp_deregister_buffer(endpoint->handle, stag, buffer);
}

int32_t endpoint_drop(struct endpoint *endpoint, uint32_t stag) {
    return iwarp_drop_region(endpoint->handle, stag);
}
