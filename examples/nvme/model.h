/* A model of the disk: what each block may have, by what hosts asked for and what they were told. A block whose write was answered
 * with success has what was written, or what a write did that was answered later, or not yet; any other has what it had, or what a
 * host sent for it. */
#ifndef MODEL_H
#define MODEL_H

#include "system.h"

enum outcome { UNANSWERED, SUCCEEDED, REFUSED, FAILED }; /* FAILED: by the store, perhaps after a part */

/* Something that was asked for and changes blocks. */
struct change {
    uint64_t from, count; /* blocks */
    uint8_t *octets; /* what they are to have; null: zeroes */
    int any; /* nobody knows what they are to have */
    int durable; /* it may have been done some time before its answer (FUA) */
    int may; /* its success does not say that it was done (a deallocation) */
    enum outcome outcome;
    uint64_t begun, ended; /* by the model's clock */
};

struct model {
    uint64_t blocks, clock;
    uint8_t *octets; /* the disk when it was last looked at */
    struct change *changes; /* since */
    size_t count, room;
};

/* A disk of zeroes. */
void model_open(struct model *model, uint64_t blocks);
void model_close(struct model *model);

/* Something is asked for. Returns its number, until the model looks at the disk. */
size_t model_begin(struct model *model, const struct change *change, const uint8_t *octets);
void model_end(struct model *model, size_t number, enum outcome outcome);

/* Who asked for what has no answer is gone, and the target knows it: it is done before what is asked for from now on, or never. */
void model_abandon(struct model *model);

/* Whether a Read may have got these octets, which was asked for at that time. */
int model_allows(const struct model *model, uint64_t from, uint64_t count, const uint8_t *octets, uint64_t begun);

/* Looks at the whole disk, while nothing is asked for and nothing goes on. Returns the number of blocks if all is as it may be, or
 * the first block that is not. What is there is what the disk has from now on. */
uint64_t model_look(struct model *model, const uint8_t *disk);

#endif
