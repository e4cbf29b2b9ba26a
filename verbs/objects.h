/* The objects of a stand-in for libibverbs and librdmacm over the C library of the proved endpoint (include/iwarp.h) and ordinary
 * TCP sockets. What a program sees of an object (struct ibv_qp_ex and so on, as rdma-core 44 lays them out) stands in front of it.
 *
 *   device, settings, words, absent    the device; the environment; texts; what is not there
 *   memory                             a domain is a handle of the library with one protection domain; a region for peers is one of its
 *                                      own, with a drawn STag that is lkey and rkey
 *   completion                         completion queues and channels
 *   pair, post, build                  queue pairs, posting, ibv_wr_*
 *   sending                            a queue's requests become postings of its stream: a Write in parts, a Read up to the end of a
 *                                      region; FENCE and local invalidation hold the queue
 *   receiving                          while a stream works, its domain's pool has the one buffer that its next message needs
 *   connection, requests, start,       sockets; Requests are read by streams of a lobby, as the queue pair and its domain are not known,
 *   stream                             and read again there; octets and events
 *   progress                           loops, each with an epoll and a thread, over several domains; a poll that finds nothing makes a
 *                                      turn at times; the end of the process
 *   events, identifier, connect,       librdmacm
 *   address
 *   raw                                queue pairs without it
 *
 * Locks, in the order in which they are taken:
 *
 * - `posting` of a queue pair: who fills its send queue;
 * - `manager` of the context: identifiers' connections before they have a queue pair, the lobby, the list of queue pairs;
 * - `lock` of a domain: its handle, regions, queue pairs, shared queues, and the connections of these;
 * - one of the last, none under another: `lock` of a completion queue, `telling` (completion channels, asynchronous events),
 *   `events` (events of identifiers), `table` (connections by descriptor). */
#ifndef VERBS_OBJECTS_H
#define VERBS_OBJECTS_H
#ifndef _GNU_SOURCE
#define _GNU_SOURCE
#endif
#include <errno.h>
#include <pthread.h>
#include <stdatomic.h>
#include <stdint.h>
#include <stdio.h>
#include <stdlib.h>
#include <string.h>
#include <unistd.h>

#include <infiniband/verbs.h>
#include <rdma/rdma_cma.h>

#include "iwarp.h"

enum {
    DOMAIN = 1, /* each ibv_pd has a handle of its own, with one domain */
    MOST_OCTETS = 16777216, /* iwarp.h: of a message */
    MOST_MESSAGES = 256, /* iwarp.h: posted to a stream */
    MOST_READS = 16,
    MOST_WR = 16384,
    MOST_SGE = 16,
    MOST_INLINE = 1024,
    MOST_CQE = 4194303,
    MOST_PRIVATE = 508,
    MOST_HELD = 256, /* messages of a queue pair that wait for a receive */
    MOST_HELD_OCTETS = 16777216, /* of their buffers, or one message */
    MOST_UNASKED = 1024, /* connections whose Request has not come, of a listener */
    LEAST_UNKNOWN = 65536, /* octets of a receive buffer for a message that comes before its receive */
    LEAST_INLINE = 64,
    SPARES = 4,
    PART = 262144, /* octets of a Write that are posted at a time, and of all postings of a stream (or one message) */
    MOST_MULPDU = 64512,
    MOST_THREADS = 64,
    ROWS = 1021, /* of a domain's table of regions */
    REQUEST_OCTETS = 532, /* of the longest MPA Request */
    START_MS = 10000, /* a peer has this long to send its Request, */
    ANSWER_MS = 60000, /* to answer ours, */
    LINGER_MS = 5000, /* and to close the connection once this end has */
    RETRY_MS = 50, /* after memory or descriptors ran out */
    REFUSED_MS = 100, REFUSALS = 3 /* how often a connection that is refused is tried again, and when: perftest's server listens anew */
};

struct connection;
struct pair;

/* ---- memory */

/* A region that a peer may use has an STag, which is its lkey and rkey. One for local use has an lkey of the domain's own, and an STag
 * once a Read is posted to it. */
struct region {
    struct ibv_mr mr;
    struct region *next; /* in its row */
    uint64_t base; /* what addresses its first octet, with lkey and rkey */
    unsigned access;
    uint32_t stag;
    int is_registered;
};

struct spare { /* a receive buffer of the library's that waits for use */
    struct iwarp_buffer buffer;
    size_t room;
};

struct domain {
    struct ibv_pd pd;
    pthread_mutex_t lock;
    struct iwarp handle;
    struct region *rows[ROWS]; /* by lkey */
    struct loop *loop;
    uint32_t next_key;
    unsigned users; /* regions, queue pairs and shared queues */
    atomic_uint holders; /* the program, and connections */
    struct spare spares[SPARES];
    unsigned offered, next_spare; /* offered: that which is in the pool while a stream works; SPARES: none */
    uint8_t *gathered; /* the octets of a message of several places */
    size_t gathered_room;
};

/* ---- completions */

struct notice { /* of ibv_get_async_event */
    struct notice *next;
    struct ibv_async_event event;
    int queued;
};

struct completion_channel {
    struct ibv_comp_channel channel;
    struct completions *first, **last; /* queues of which something is to be told */
};

enum arming { UNARMED, ARMED_SOLICITED, ARMED };

struct completions {
    struct ibv_cq_ex cq;
    pthread_mutex_t lock;
    struct ibv_wc *ring;
    unsigned size, head;
    atomic_uint count;
    enum arming armed;
    atomic_int overrun; /* it was full once: it takes no more */
    _Atomic(struct loop *) loop;
    atomic_uint idle; /* polls that found nothing */
    struct completions *next;
    unsigned untold, told; /* events that wait in the channel, and those that the program took */
    struct notice full;
};

/* ---- queues. Places count on without end; they are those of a ring whose size is a power of two. */

struct receive {
    uint64_t wr_id, len;
    int n;
    struct ibv_sge places[MOST_SGE];
};

struct receives {
    struct receive *ring;
    unsigned most, size, head, tail;
    uint64_t longest; /* of those that ever were posted */
    int used;
};

struct shared {
    struct ibv_srq srq;
    struct receives queue;
    struct pair *pairs;
    unsigned limit;
    struct notice low;
};

struct message { /* that came, and waits for a receive */
    struct iwarp_buffer buffer;
    size_t n, room;
    uint32_t flags, stag;
};

struct send {
    uint64_t wr_id, to, len;
    uint64_t posted; /* octets of it */
    enum ibv_wr_opcode opcode;
    unsigned flags;
    uint32_t stag;
    enum ibv_wc_status fault; /* IBV_WC_SUCCESS: none is known */
    int begun; /* some of it was posted to the stream */
    int n;
    struct ibv_sge places[MOST_SGE];
};

struct part { /* of a send: what was posted to the stream by one call */
    uint32_t len;
    int last;
};

struct pair {
    struct ibv_qp_ex qp;
    struct ibv_qp_cap cap;
    int all_signaled;
    int dead; /* in error: what is posted is flushed */
    pthread_mutex_t posting;

    struct send *sends; /* head..mid: at the stream, or done; mid..tail: waiting */
    uint8_t *inlined; /* of each place its inline octets */
    unsigned size, mid, tail, reads;
    atomic_uint head;
    struct part parts[MOST_MESSAGES];
    unsigned first_part, n_parts;
    uint64_t under_way; /* octets of parts */
    unsigned built; /* wr_start to wr_complete: places behind `tail` */
    int built_error;

    struct receives own;
    struct shared *shared;
    unsigned bound; /* receive buffers that its stream has taken */
    struct message held[MOST_HELD];
    unsigned first_held, n_held;
    size_t held_room;
    struct notice last_receive;

    struct connection *connection;
    struct pair *next, *next_of_shared;
    struct connection *listener, *asking; /* raw.c */
    uint32_t peer;
};

/* ---- connections */

enum connection_state { LISTENING, CONNECTING, ASKING, ASKED, STREAMING, LINGERING, CLOSED };

struct connection {
    int fd;
    uint32_t generation; /* with the descriptor, what epoll tells of it */
    atomic_uint references;
    _Atomic(pthread_mutex_t *) lock; /* the manager's, or its domain's */
    enum connection_state state;
    struct loop *loop;
    struct identifier *id, *listener; /* listener: until it is asked for */
    struct pair *pair, *raw;
    struct domain *domain;
    struct iwarp *handle;
    uint32_t stream;
    int has_stream, established, pausing, told_end;
    int closing, shut; /* the program disconnects; this end's output has ended */
    int ended, failed, broken, faulted; /* the stream has ended; it is to end; the socket has failed; a fault was told */
    int input_ended; /* the peer's output has ended */
    int left, stalled, starved; /* the socket takes no more now; there is no receive, so that nothing is read; no memory */
    uint32_t interest; /* what epoll watches for */
    uint32_t layer, error, code; /* of the peer's Terminate, or of the fault; LAYER_NONE */
    struct iwarp_buffer frames; /* of which the socket took `sent` octets */
    size_t sent;
    atomic_llong deadline; /* in ms of CLOCK_MONOTONIC; 0: none */
    unsigned refusals; /* of a connection that this end begins; it is tried again at the deadline if `again` is set */
    int again;
    unsigned unasked; /* of a listener */
    struct connection *counted_by; /* the listener */
    uint32_t from; /* raw.c: the peer's queue pair */
    uint8_t request[REQUEST_OCTETS];
    size_t requested;
};
enum { LAYER_NONE = 255 };

struct loop {
    int epoll_fd, wake_fd;
    pthread_t thread;
    int runs;
    atomic_uint turns_of_polls;
    atomic_int timed; /* connections that have a deadline */
};

/* ---- identifiers of the connection manager */

struct event {
    struct rdma_cm_event event;
    struct event *next;
    uint8_t private_data[MOST_PRIVATE + 4];
};

struct events {
    struct rdma_event_channel channel;
    int users, destroyed;
    struct event *first, **last;
};

struct identifier {
    struct rdma_cm_id id;
    struct connection *connection; /* the one that it has, or had */
    struct event *spare[2]; /* for how connecting ends, and for the connection's end */
    int sync, listens, disconnected, only_family;
    int socket; /* bound, and not in use; -1 */
    struct ibv_pd *listener_pd;
    struct ibv_qp_init_attr *listener_attr;
    struct rdma_conn_param param;
    uint8_t private_data[256];
};

/* ---- the context: all that is not of an object */

struct settings {
    int log, crc, peer_to_peer, as_roce, pause_ms, mulpdu, threads;
    struct in_addr address;
};

struct context {
    struct verbs_context verbs;
    struct ibv_device device;
    struct settings settings;
    pthread_mutex_t manager, telling, events, table;
    struct iwarp lobby; /* where Requests are read before their queue pair is known */
    struct ibv_pd *default_pd;
    struct events *last_destroyed;
    struct pair *pairs;
    uint32_t pair_numbers;
    struct notice *first_notice, **last_notice;
    struct loop loops[MOST_THREADS];
    unsigned next_loop;
    struct connection **by_fd;
    size_t by_fd_room;
    uint32_t generations;
};

extern struct context context;

#endif
