/* Who a disk is: a UUID that no other disk has, unless it was told to, and names that follow from it. */
#ifndef IDENTITY_H
#define IDENTITY_H

#include "nvme.h"

enum { UUID_OCTETS = 16, UUID_TEXT = 37 };

struct identity {
    uint8_t uuid[UUID_OCTETS]; /* the NGUID as well */
    char nqn[NQN_OCTETS]; /* the subsystem's name */
    char serial[SN_OCTETS + 1];
};

struct options;

/* Reads a UUID, such as 123e4567-e89b-42d3-a456-426614174000. Returns whether the text is one, and not all zero. */
int uuid_read(const char *text, uint8_t *uuid);

/* Finds the identity of a store: of the file or block device that `fd` is, or of memory, if it is negative. The options may set
 * the UUID, the name and the serial number. */
void identity_find(struct identity *identity, const struct options *options, int fd);

#endif
