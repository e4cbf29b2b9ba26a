/* The model of the disk. */
#include "model.h"

enum { BLOCK = 512, FIRST_ROOM = 256 };

static void *must_have(void *memory) {
    if (memory) return memory;
    fprintf(stderr, "model: no memory\n");
    exit(1);
}

void model_open(struct model *model, uint64_t blocks) {
    *model = (struct model){.blocks = blocks, .room = FIRST_ROOM};
    model->octets = must_have(calloc(blocks, BLOCK));
    model->changes = must_have(calloc(model->room, sizeof *model->changes));
}

static void forget_changes(struct model *model) {
    for (size_t i = 0; i < model->count; i++) free(model->changes[i].octets);
    model->count = 0;
}

void model_close(struct model *model) {
    forget_changes(model);
    free(model->changes);
    free(model->octets);
}

size_t model_begin(struct model *model, const struct change *change, const uint8_t *octets) {
    if (model->count == model->room) {
        model->room *= 2;
        model->changes = must_have(realloc(model->changes, model->room * sizeof *model->changes));
    }
    struct change *it = &model->changes[model->count];
    *it = *change;
    it->octets = 0;
    if (octets) {
        it->octets = must_have(malloc(change->count * BLOCK));
        memcpy(it->octets, octets, change->count * BLOCK);
    }
    it->outcome = UNANSWERED;
    it->begun = ++model->clock;
    it->ended = UINT64_MAX;
    return model->count++;
}

void model_end(struct model *model, size_t number, enum outcome outcome) {
    model->changes[number].outcome = outcome;
    model->changes[number].ended = ++model->clock;
}

void model_abandon(struct model *model) {
    model->clock++;
    for (struct change *it = model->changes; it < model->changes + model->count; it++)
        if (it->ended == UINT64_MAX) it->ended = model->clock;
}

/* ---- what blocks may have */

static int touches(const struct change *change, uint64_t block) {
    return block >= change->from && block - change->from < change->count;
}

static int is_sure(const struct change *change) {
    return change->outcome == SUCCEEDED && !change->may;
}

/* When a change surely was done. */
static uint64_t done_after(const struct change *change) {
    return change->durable ? change->begun : change->ended;
}

/* When the last change was done that surely was, of those that ended before a time. */
static uint64_t last_sure(const struct model *model, uint64_t block, uint64_t before) {
    uint64_t last = 0;
    for (const struct change *it = model->changes; it < model->changes + model->count; it++)
        if (touches(it, block) && is_sure(it) && it->ended < before && done_after(it) > last) last = done_after(it);
    return last;
}

static int has(const struct change *change, uint64_t block, const uint8_t *octets) {
    static const uint8_t zeroes[BLOCK];
    const uint8_t *wanted = change->octets ? change->octets + (block - change->from) * BLOCK : zeroes;
    return change->any || memcmp(octets, wanted, BLOCK) == 0;
}

/* Whether a block may have these octets for who asks at a time. Changes are done in the order of their answers: one that ended before
 * another that was surely done is not to be seen. */
static int may_have(const struct model *model, uint64_t block, const uint8_t *octets, uint64_t asked) {
    uint64_t last = last_sure(model, block, asked);
    if (last == 0 && memcmp(octets, model->octets + block * BLOCK, BLOCK) == 0) return 1;
    for (const struct change *it = model->changes; it < model->changes + model->count; it++)
        if (touches(it, block) && it->outcome != REFUSED && it->ended >= last && has(it, block, octets)) return 1;
    return 0;
}

int model_allows(const struct model *model, uint64_t from, uint64_t count, const uint8_t *octets, uint64_t begun) {
    for (uint64_t i = 0; i < count; i++)
        if (!may_have(model, from + i, octets + i * BLOCK, begun)) return 0;
    return 1;
}

/* Which blocks a change touches. */
static uint8_t *touched(const struct model *model) {
    uint8_t *marks = must_have(calloc(model->blocks, 1));
    for (const struct change *it = model->changes; it < model->changes + model->count; it++) memset(marks + it->from, 1, it->count);
    return marks;
}

uint64_t model_look(struct model *model, const uint8_t *disk) {
    uint8_t *marks = touched(model);
    uint64_t block = 0;
    for (; block < model->blocks; block++) {
        const uint8_t *now = disk + block * BLOCK;
        if (memcmp(now, model->octets + block * BLOCK, BLOCK) != 0 && !marks[block]) break;
        if (marks[block] && !may_have(model, block, now, UINT64_MAX)) break;
    }
    free(marks);
    if (block < model->blocks) return block;
    forget_changes(model);
    memcpy(model->octets, disk, model->blocks * BLOCK);
    return block;
}
