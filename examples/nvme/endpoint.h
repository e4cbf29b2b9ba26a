/* The iWARP end of one connection: a stream, in a domain of a handle that connections share. All calls of the library but those on
 * buffers are made in endpoint.c. */
#ifndef ENDPOINT_H
#define ENDPOINT_H

#include "system.h"

/* Limits of the library (docs/LIMITS.md). */
enum { MOST_POSTED = 256, MOST_READS = 16, MOST_DOMAINS = 255, LEAST_MULPDU = 128, MOST_MULPDU = 64512, MOST_PRIVATE = 508 };

struct endpoint {
    struct iwarp *handle; /* null: it has no stream */
    uint32_t domain, stream;
    struct iwarp_buffer out; /* frames that are to be written out */
    size_t written; /* so many of their octets are */
    int ended; /* the stream has ended: once what is due is written, the connection is to be closed */
};

/* How an endpoint begins. */
struct opening {
    uint32_t role, options, mulpdu;
    const uint8_t *private_data; /* of an initiator */
    size_t n;
};

/* Each function that returns an int32_t returns what the library returned: IWARP_OK, or why it did nothing (iwarp.h). */

/* Opens a handle with the domains from 1 to `domains`. */
int32_t endpoint_handle(struct iwarp *handle, uint32_t domains);

/* Opens an endpoint for a connection that was made. Whatever it returns, endpoint_close frees what it took. */
int32_t endpoint_open(struct endpoint *endpoint, struct iwarp *handle, uint32_t domain, const struct opening *opening);
void endpoint_close(struct endpoint *endpoint);

/* Lends a place to read the socket to, of `*room` octets; and takes the `n` octets that were read there. No other call of the
 * handle may come between. */
int32_t endpoint_room(struct endpoint *endpoint, uint8_t **at, size_t *room);
int32_t endpoint_came(struct endpoint *endpoint, size_t n);

/* Tells what there is to do next: IWARP_IDLE, if nothing. */
int32_t endpoint_work(struct endpoint *endpoint, struct iwarp_event *event);

/* Tells which octets are to be written next: `*n` is 0 if none. */
int32_t endpoint_due(struct endpoint *endpoint, uint8_t **at, size_t *n);

/* The first `n` octets that are due were written. */
int32_t endpoint_wrote(struct endpoint *endpoint, size_t n);

/* The private data of the peer's start-up frame, and how many Reads it takes at once. */
int32_t endpoint_private(struct endpoint *endpoint, uint8_t *out, size_t room, size_t *n);
int32_t endpoint_reads(struct endpoint *endpoint, uint32_t *reads);
int32_t endpoint_accept(struct endpoint *endpoint, const uint8_t *private_data, size_t n);
int32_t endpoint_reject(struct endpoint *endpoint, const uint8_t *private_data, size_t n);

/* Posts a receive buffer. The message that comes takes it, and endpoint_fetch gives it back. */
int32_t endpoint_receive(struct endpoint *endpoint, struct iwarp_buffer *buffer);
int32_t endpoint_fetch(struct endpoint *endpoint, struct iwarp_buffer *buffer, size_t *n);

/* Post a Write, a Send, which invalidates a region of the peer if `stag` is not 0, and a Read. */
int32_t endpoint_write(struct endpoint *endpoint, uint32_t stag, uint64_t to, const uint8_t *octets, size_t n);
int32_t endpoint_send(struct endpoint *endpoint, const uint8_t *octets, size_t n, uint32_t stag);
int32_t endpoint_read(struct endpoint *endpoint, uint32_t sink, size_t n, uint32_t source, uint64_t source_to);

/* Posts a Write of a buffer's octets themselves. endpoint_fetch_sent gives them back once it is done. */
int32_t endpoint_write_buffer(struct endpoint *endpoint, uint32_t stag, uint64_t to, struct iwarp_buffer *buffer);
int32_t endpoint_fetch_sent(struct endpoint *endpoint, struct iwarp_buffer *buffer);

/* Registers a buffer's octets, the first at tagged offset `base`: for all streams of the domain, or as a sink for this stream
 * alone, the first at 0, by an STag that is drawn, since the peer sees it. */
int32_t endpoint_register(struct endpoint *endpoint, uint64_t base, struct iwarp_buffer *buffer, uint32_t rights, uint32_t *stag);
int32_t endpoint_sink(struct endpoint *endpoint, struct iwarp_buffer *buffer, uint32_t *stag);

/* Takes a region's octets back, or frees them with it. */
int32_t endpoint_take_back(struct endpoint *endpoint, uint32_t stag, struct iwarp_buffer *buffer);
int32_t endpoint_drop(struct endpoint *endpoint, uint32_t stag);

#endif
