/* A host: the other end of the target, over the same library. It is what the check, the fuzzer and the benchmark have in the place
 * of a kernel. */
#ifndef HOST_H
#define HOST_H

#include "endpoint.h"
#include "nvme.h"

enum { HOST_DEPTH = 128, HOST_QUEUES = 8, HOST_CAPSULE = SQE_OCTETS + 4096, HOST_WAIT_MS = 20000, HOST_LBA = 512 };

/* A command, by its identifier; and its data, for which a region is registered while it is in hand. */
struct slot {
    int in_hand, answered;
    struct iwarp_buffer buffer;
    uint8_t *octets; /* the buffer's */
    size_t size;
    uint32_t stag; /* 0: no region */
    uint64_t base;
    uint32_t uses;
    uint8_t capsule[HOST_CAPSULE];
    size_t n; /* octets of the capsule */
    uint16_t status;
    uint64_t result, number; /* of the answer: how many came before at its queue */
};

struct host_queue {
    struct host *host;
    struct iwarp handle;
    struct endpoint endpoint;
    int fd, opened, ended; /* `ended`: by the target, or by a fault */
    uint16_t id, depth;
    struct iwarp_buffer response;
    struct slot *slots; /* as many as the queue is deep */
    uint32_t in_hand;
    uint64_t answers;
};

struct host {
    const char *address, *nqn;
    const char *own_name; /* as it gives it; null: one of its own */
    const char *from; /* the address of its own that it connects from; null: any */
    unsigned port;
    uint32_t options, mulpdu, keep_alive;
    uint16_t controller;
    uint64_t blocks;
    void (*turn)(void); /* if not null, lets the target go on: it is in the same process */
    struct host_queue *queues[HOST_QUEUES];
};

/* Makes a connection, up to the MPA Reply. Returns whether it was accepted. */
int host_open(struct host *host, uint16_t id, uint16_t depth);
void host_close(struct host *host, uint16_t id);

/* Connects a queue, by the NVMe command. Returns its status, or -1. */
int host_connect(struct host *host, uint16_t id);

/* All of it: the admin queue, what the controller says, and I/O queues. Returns whether all went well. */
int host_begin(struct host *host, uint16_t io_queues, uint16_t depth);
void host_end(struct host *host);

/* Begins a command in a slot: its entry is zero but for opcode and identifier. */
uint8_t *host_command(struct host_queue *queue, uint16_t slot, uint8_t opcode, uint32_t nsid);

/* Registers n octets of the slot, for the target to read and write, and names them in the entry. Returns their address. */
uint8_t *host_map(struct host_queue *queue, uint16_t slot, size_t n, uint8_t type);

/* Takes the slot's region back. */
void host_unmap(struct host_queue *queue, uint16_t slot);

/* Puts n octets into the capsule, and describes them in the entry. */
void host_put(struct host_queue *queue, uint16_t slot, const uint8_t *octets, size_t n);

/* Sends the slot's capsule. */
void host_submit(struct host_queue *queue, uint16_t slot);

/* Writes and reads what can be, and waits at most `ms` for something. Returns 0 once the connection has ended. */
int host_step(struct host_queue *queue, int ms);

/* Only writes what is due. Returns whether the socket took all. */
int host_write_out(struct host_queue *queue);

/* Waits for the response to the slot's capsule, or sends the capsule and waits. Returns its status, or -1. */
int host_await(struct host_queue *queue, uint16_t slot);
int host_do(struct host_queue *queue, uint16_t slot);

/* Describes blocks in a Read's, Write's or Write Zeroes' entry. */
void host_blocks(uint8_t *sqe, uint64_t from, uint32_t count);

#endif
