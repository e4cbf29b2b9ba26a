/* Ways in which a host breaks its connection: frames that are made by hand, behind all that the host's library has written. The
 * library takes no part in the connection from then on. */
#ifndef BREAKS_H
#define BREAKS_H

#include "host.h"

enum breaking { BREAK_VERSION, BREAK_OPCODE, BREAK_WRITE, BREAK_READ, BREAK_TERMINATE, BREAK_CRC, BREAKINGS };

/* A Read that the target asks for. */
struct asked {
    int reads, sends; /* Read Requests and Sends that came */
    uint32_t sink, n; /* of the first Read Request: where its octets go, and how many they are */
    uint64_t to;
};

/* Takes what the target sends past the library, until a Read Request and a Send have come. Returns whether they have. */
int break_off(struct host_queue *queue, struct asked *asked);

/* Answers the Read with its first n octets, and no more. */
void break_answer(struct host_queue *queue, const struct asked *asked, const uint8_t *octets, size_t n);

/* Sends a frame by which the target's stream ends: a version of DDP or an opcode that there is not, a Write to a region or a Read
 * of one that there is not, a Terminate, or, if the streams have CRCs, a wrong CRC. */
void break_by(struct host_queue *queue, enum breaking how);

/* Waits until the target has ended the connection. Returns whether it has. */
int break_is_seen(struct host_queue *queue);

#endif
