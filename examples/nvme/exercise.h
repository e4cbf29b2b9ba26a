/* What the tests of exercise.c, orders.c, states.c and cores.c share. */
#ifndef EXERCISE_H
#define EXERCISE_H

#include "breaks.h"

enum { MULPDU = 16384, TRANSFER = 131072, LONGEST = 1048576, KEPT_MS = 2000 };

#define CHECK(answer)                                                     \
    do {                                                                  \
        if (!(answer)) {                                                  \
            printf("%s: line %d: %s\n", test_name, __LINE__, #answer);    \
            exit(1);                                                      \
        }                                                                 \
    } while (0)

extern const char *test_name;
extern const char *nqn; /* of the target's subsystem */
extern unsigned port;

struct host new_host(void);
uint32_t random_number(uint32_t below);

/* Octets that tell blocks, and what was written there, apart. */
void fill(uint8_t *at, size_t n, uint64_t mark);
int is_zero(const uint8_t *octets, size_t n);

/* Begins a command on blocks, with n octets of the host's memory, and returns these. */
uint8_t *map_blocks(struct host_queue *queue, uint16_t slot, uint8_t opcode, uint64_t from, size_t n, uint8_t type);
int write_blocks(struct host_queue *queue, uint64_t from, const uint8_t *octets, size_t n, uint8_t type);
int read_blocks(struct host_queue *queue, uint64_t from, uint8_t *octets, size_t n, uint8_t type);

/* Deallocates blocks, by a range in the host's memory. */
uint8_t *map_range(struct host_queue *queue, uint16_t slot, uint64_t from, uint32_t count);

/* Begins a short Write; or a Write Zeroes of the first 32 MiB. Whether what was written stands there. */
void put_write(struct host_queue *queue, uint16_t slot, uint64_t from, uint64_t mark);
void put_zeroes(struct host_queue *queue, uint16_t slot);
int has_mark(struct host_queue *queue, uint64_t from, uint64_t mark);

/* A connection that says nothing; and waits until the target has closed it. */
int plain_connection(void);
void expect_close(int fd);

/* Sets a property of the controller, or gets it: the slot's result. Return the status. */
int set_property(struct host_queue *queue, uint16_t slot, uint32_t offset, uint64_t value);
int get_property(struct host_queue *queue, uint16_t slot, uint32_t offset);

/* The target's process, and a number of its memory, in KiB. */
int target_process(void);
long resident(void);

/* Ends a connection at once. */
void reset(struct host_queue *queue);

/* Tells the library under the target's calls what to do (harm.c), or nothing more. How often it has made the file durable. */
void set_harm(const char *text);
long syncs_done(void);

/* Tests. */
void overtakes(void);
void is_stale(void);
void bursts(void);
void goes_and_comes(void);
void leaves_waiting(void);
void pauses(void);
void takes_its_memory(void);
void says_who_it_is(void);
void store_fails(void);
void shuts_down_badly(void);
void reads_committed(void);
void is_interrupted(void);
void has_features(void);
void has_logs(void);
void has_a_strange_name(void);
void holds_device(void);
void spreads(void);
void shares_places(void);
void meets(void);
void ends_elsewhere(void);
void resets(void);

#endif
