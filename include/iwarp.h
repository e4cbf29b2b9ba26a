/* An iWARP endpoint for C programs: RDMAP over DDP over MPA (RFC 5040, 5041, 5044), over sockets that the program owns.
 *
 * A handle holds the registered regions of one end and its streams, by number. It does no input or output, starts no
 * thread, keeps no time and calls nothing of the program but malloc, realloc and free. The program
 *
 * 1. opens a handle (iwarp_new), adds a protection domain (iwarp_add_domain), and registers what peers may use
 *    (iwarp_register);
 * 2. opens a stream for each connection (iwarp_open_next; iwarp_open, to pick its number), and posts receive buffers
 *    (iwarp_post_recv); or gives the domain a pool of receive buffers (iwarp_share, iwarp_post_shared), and opens streams
 *    that share it (iwarp_open_shared_next, iwarp_open_shared);
 * 3. when octets came: reads them to the place that iwarp_room lends, and has iwarp_came count them; or hands them in with
 *    the sequence number of the first of them, which is the number of octets that came before it, modulo 2^32
 *    (iwarp_deliver). Then it calls iwarp_work_on, or iwarp_work, until it reports IWARP_IDLE. At IWARP_ASKED it calls
 *    iwarp_accept or iwarp_reject and goes on;
 * 4. when the socket is writable: calls iwarp_fill, writes the buffer out, and drops what was written
 *    (iwarp_buffer_drop_front): what the socket did not take is written before more is emitted. Or it calls iwarp_emit, for
 *    one frame in memory of its own, until it reports IWARP_NOTHING. iwarp_wants_write tells when to wait for that;
 * 5. after IWARP_OPENED or a successful iwarp_accept: posts Writes, Sends and Reads (iwarp_post_write and so on, or iwarp_post),
 *    then does 4;
 * 6. when the connection closed: calls iwarp_break, then iwarp_work_on until IWARP_IDLE, which hands back what was
 *    posted, and iwarp_close, which frees the stream's memory.
 *
 * A caller must uphold, at each call:
 *
 * - `handle` points to a `struct iwarp` that is closed (`IWARP_CLOSED`), or as the last call on it left it; `buffer` to a
 *   `struct iwarp_buffer` that is IWARP_NO_BUFFER, or as the last call on it left it. If one is copied, only one of the
 *   copies is used from then on. Nothing else writes its field.
 * - The program reads and writes the octets of its buffers and regions, at the addresses that iwarp_buffer_at and
 *   iwarp_region_at tell, only between calls on that buffer or on that region's handle, and passes no pointer to them to
 *   such a call. It writes to octets that were posted from a buffer only after they were fetched.
 * - The program, or the system for it, writes to a place that iwarp_room lent only until the place is taken back: by the next
 *   call of iwarp_room, iwarp_came, iwarp_deliver, iwarp_work, iwarp_work_on, iwarp_work_within, iwarp_work_marked, iwarp_emit,
 *   iwarp_emit_onto, iwarp_fill, iwarp_accept, iwarp_reject, iwarp_break or iwarp_close on that stream, whatever it returns, and by
 *   iwarp_free; but a refused iwarp_came (IWARP_NOT_LENT) or iwarp_close (IWARP_NOT_AT_REST) leaves it lent. Calls on other streams,
 *   and others on that stream, may go on meanwhile.
 * - No pointer is null, even if its count is 0: pass `iwarp_octets(p)` and `iwarp_out(p)` for a `p` that may be. `octets` and
 *   `private_data` point to `n` octets that can be read, and that nothing writes during the call; `out` points to `room` octets
 *   that can be written. What the pointers of one call point to does not overlap.
 * - A struct that begins with `size` is whole, as this header or a later one has it, and `size` is its `sizeof`.
 * - One call at a time on a handle and on a buffer, from any thread: a call begins once the one before it has returned.
 *   Calls on several handles may go on at once.
 * - No call from a signal handler, nor from the forked child of a process that has threads.
 * - The program's malloc, realloc and free are of one allocator, and align to 16.
 *
 * Each function that returns an int32_t returns IWARP_OK, or the first reason why it did nothing. If it does not return
 * IWARP_OK, the handle, the buffer and all that the call may write are as they were, with five exceptions: a length is written
 * with IWARP_NO_ROOM (by iwarp_emit with IWARP_NO_MEMORY too); the steps that iwarp_work_on, iwarp_work_within or
 * iwarp_work_marked did before a refused one stay done; a place that iwarp_room lent is taken back by the calls named above;
 * iwarp_emit_onto and iwarp_fill may leave the buffer's octets at another address; and iwarp_post_send_buffer says what may become of
 * a buffer. IWARP_NO_MEMORY means that malloc failed; the call may be made again. A call that copies octets, or allocates a receive
 * buffer, does so first, so it may return IWARP_NO_MEMORY in place of a reason that the region, the stream or the pool has;
 * iwarp_post_send_buffer, iwarp_post_write_buffer and iwarp_post_buffer, which allocate a few octets first, may too. Any other call
 * that takes a buffer returns it only if no other reason holds.
 *
 * A peer's mistake is never a return code: iwarp_work reports IWARP_FAULT, iwarp_emit IWARP_DENIED, or iwarp_fill
 * IWARP_FILL_DENIED, and that stream has ended.
 *
 * A call gives work to no stream but its own: a stream at which iwarp_work reported IWARP_IDLE, and iwarp_wants_write 0 behind that,
 * would report so again until the next call on it, whatever is done to other streams, to regions and to pools. So a program of many
 * streams asks those that it called, and need not ask each.
 *
 * Later versions 1.x add to this header, and take nothing away: a program that was compiled with this one runs with their
 * libraries. They may report kinds of events, set flags and return codes that are not named here: a program passes over an event
 * or a flag that it does not know, and takes such a code for a refusal. They may put something into what is reserved, or behind the
 * fields of a struct that begins with `size`: of such a struct a library writes no octet past `size`, and of one that it reads it
 * looks at a later field only if a bit of `flags` says so. A library takes a struct that is longer than its own, leaving the octets
 * behind alone, and refuses one that is shorter than in the version that had it first (IWARP_BAD_STRUCT), and a bit that it does
 * not know (IWARP_BAD_BITS): so a program that asks for what a later version added is told where that is not there.
 *
 * A frame has its turn when all octets before it have been processed; messages complete only then, in order. The
 * in-order point is where the last frame that had its turn ends. A stream place is a count of octets, from the first
 * of the connection. */
#ifndef IWARP_H
#define IWARP_H

/* For a compiler without headers. */
#ifdef __has_include
#if !__has_include(<stddef.h>) || !__has_include(<stdint.h>)
#define IWARP_NO_HEADERS
#endif
#endif
#ifndef IWARP_NO_HEADERS
#include <stddef.h>
#include <stdint.h>
#else
typedef __SIZE_TYPE__ size_t;
typedef __UINT8_TYPE__ uint8_t;
typedef __UINT32_TYPE__ uint32_t;
typedef __INT32_TYPE__ int32_t;
typedef __UINT64_TYPE__ uint64_t;
#endif

/* A compiler that can warns of a null pointer, and of a code that is not looked at, but for those of iwarp_break and iwarp_close, which
 * end what is over. A program that wants no such warning defines IWARP_NO_ATTRIBUTES before it includes this header. */
#if defined(__GNUC__) && !defined(IWARP_NO_ATTRIBUTES)
#define IWARP_CHECKED __attribute__((warn_unused_result, nonnull))
#define IWARP_NONNULL __attribute__((nonnull))
#else
#define IWARP_CHECKED
#define IWARP_NONNULL
#endif

/* (Three functions have the name of a struct, which g++ -Wshadow would warn of.) */
#if defined(__cplusplus) && defined(__GNUC__) && !defined(__clang__)
#pragma GCC diagnostic push
#pragma GCC diagnostic ignored "-Wshadow"
#endif

#ifdef __cplusplus
extern "C" {
#endif

/* The version of this header: 10,000 for each major number, 100 for each minor one, 1 for each revision. */
#define IWARP_VERSION 10300

/* An endpoint, or none. */
struct iwarp {
    void *at;
};

#define IWARP_CLOSED { 0 }

/* Octets that the library allocates, and that the program reads and writes where they stand; or none. */
struct iwarp_buffer {
    void *at;
};

#define IWARP_NO_BUFFER { 0 }

/* Why a call did nothing. */
enum {
    IWARP_OK = 0,
    IWARP_IS_CLOSED = 1, /* the handle has no endpoint */
    IWARP_ALREADY_OPEN = 2,
    IWARP_NO_MEMORY = 3,
    IWARP_NO_ROOM = 4, /* the buffer is too short; `*n` is the length that is needed */
    IWARP_NO_SUCH_STREAM = 5, /* no stream was opened under this number, or it was closed */
    IWARP_NO_REGION = 6, /* the STag names no region */
    IWARP_OUTSIDE = 7, /* not all the octets lie in the region */
    IWARP_BAD_DOMAIN = 8, /* a domain that is added has a number from 1 to 255 (other calls: IWARP_NO_DOMAIN) */
    IWARP_DOMAIN_TAKEN = 9,
    IWARP_NO_DOMAIN = 10, /* the domain was not added, or none can have this number */
    IWARP_DOMAIN_FULL = 11, /* it has 1,024 regions */
    IWARP_REGION_TOO_LONG = 12, /* more than 16,777,216 octets, or than 2^46 in memory that the program keeps */
    IWARP_BASE_WRAP = 13, /* base + n is above 2^64 */
    IWARP_NUMBER_TAKEN = 14, /* the stream's number was opened before */
    IWARP_BAD_NUMBER = 15, /* the number that was picked is above 63 */
    IWARP_BAD_ROLE = 16,
    IWARP_PRIVATE_TOO_LONG = 17, /* more than 512 octets; more than 508 in an enhanced start-up frame */
    IWARP_NOT_ASKED = 18, /* no MPA Request is pending */
    IWARP_NOT_OPEN = 19, /* the stream is not open yet, or has ended */
    IWARP_MESSAGES_FULL = 20, /* 256 messages are posted and not yet done */
    IWARP_MESSAGE_TOO_LONG = 21, /* more than 16,777,216 octets */
    IWARP_BUFFERS_FULL = 22, /* 256 receive buffers are posted */
    IWARP_ENDED = 23, /* the stream has ended */
    IWARP_BAD_SIZE = 24, /* outside 128 to 64,512 */
    IWARP_TOO_FAR = 25, /* the stream has taken in, or emitted, more than 2^62 octets */
    IWARP_LATE = 26, /* octets were delivered on the stream before */
    IWARP_ALREADY_SHARED = 27, /* the domain already has a pool */
    IWARP_NOT_SHARED = 28, /* the domain has no pool */
    IWARP_POOL_FULL = 29, /* the pool has 1,024 buffers */
    IWARP_SHARED = 30, /* the stream takes its receive buffers from its domain's pool */
    IWARP_BUFFER_MISSING = 31, /* the buffer was not made, or was freed */
    IWARP_BUFFER_EXISTS = 32, /* the buffer was made before, and not freed */
    IWARP_BUFFER_TOO_LONG = 33, /* a receive buffer of more than 16,777,216 octets */
    IWARP_BAD_BITS = 34, /* rights, options or flags have a bit that this header does not name */
    IWARP_NO_READS = 35, /* the peer takes no Reads: its IRD is 0 */
    IWARP_NOT_AT_REST = 36, /* the stream is open, or has something left to hand back or to emit */
    IWARP_NUMBERS_SPENT = 37, /* all numbers of streams, up to 2^32 - 1, were given */
    IWARP_WINDOW_FULL = 38, /* the stream's window has no room before iwarp_work makes some */
    IWARP_NOT_LENT = 39, /* no place is lent for so many octets, since it was taken back for instance; or they are none */
    IWARP_BAD_STRUCT = 40, /* a struct's `size` is less than in the version that had it first, or its `kind` is none that the call takes */
    IWARP_OTHER_MEMORY = 41 /* the region's octets are in memory that the program keeps, or are not: another call hands them back */
};

/* Tells the address of a text that says what a code means. The text is never freed. */
void iwarp_text_at(int32_t code, const char **text) IWARP_NONNULL;

/* Returns a text that says what a code means. */
static inline const char *iwarp_text(int32_t code) {
    const char *text;
    iwarp_text_at(code, &text);
    return text;
}

/* Returns a pointer to octets as it is, or in place of null one to no octets: for a call that reads 0 octets. */
static inline const uint8_t *iwarp_octets(const uint8_t *octets) {
    static const uint8_t none = 0;
    return octets ? octets : &none;
}

/* Returns a pointer to room as it is, or in place of null one to no room: for a call that may write 0 octets. */
static inline uint8_t *iwarp_out(uint8_t *out) {
    static uint8_t none = 0;
    return out ? out : &none;
}

/* ---- handles and domains */

/* Tells the version of the library: IWARP_VERSION, as it was when the library was built. */
uint32_t iwarp_version(void);

/* Opens a closed handle with a new endpoint, which has no domain and no stream. */
int32_t iwarp_new(struct iwarp *handle) IWARP_CHECKED;

/* How a handle is opened. What is reserved is 0, and not read. */
struct iwarp_options {
    size_t size; /* sizeof(struct iwarp_options) */
    uint64_t flags; /* 0: none is named yet */
    uint64_t reserved[4];
};

/* As iwarp_new, with options. The struct is judged first: IWARP_BAD_STRUCT, then IWARP_BAD_BITS. */
int32_t iwarp_new_with(struct iwarp *handle, const struct iwarp_options *options) IWARP_CHECKED;

/* Frees all that the handle has, and closes it. A closed handle stays closed, so a second call does nothing. */
void iwarp_free(struct iwarp *handle) IWARP_NONNULL;

/* Adds a protection domain: `pd` is 1 to 255. Streams reach only regions of their own domain. */
int32_t iwarp_add_domain(struct iwarp *handle, uint32_t pd) IWARP_CHECKED;

/* ---- buffers */

/* Makes a buffer of `n` zero octets, where malloc puts them (for another alignment iwarp_register_memory makes a region of the
 * program's own memory). They can become a region, a receive buffer or a message and come back, with nothing copied: they stay at
 * their address until they are freed, or iwarp_fill or iwarp_emit_onto is called with the buffer. The room that they take stays when
 * iwarp_buffer_truncate or iwarp_buffer_drop_front makes them fewer. */
int32_t iwarp_buffer_new(size_t n, struct iwarp_buffer *buffer) IWARP_CHECKED;

/* Frees the buffer's octets: then it is IWARP_NO_BUFFER. A second call does nothing. */
void iwarp_buffer_free(struct iwarp_buffer *buffer) IWARP_NONNULL;

/* Tells the address of the buffer's octets, and how many they are. With 0 octets the address is of no use. */
int32_t iwarp_buffer_at(struct iwarp_buffer *buffer, uint8_t **at, size_t *n) IWARP_CHECKED;

/* Keeps the first `n` octets, or all if there are no more. The memory of the others stays with the buffer, for what is put
 * behind those that are kept. */
int32_t iwarp_buffer_truncate(struct iwarp_buffer *buffer, size_t n) IWARP_CHECKED;

/* Drops the first `n` octets, or all if there are no more: after a write that took a part. The others move to the front, all of them at
 * each call, and the memory stays with the buffer. Have iwarp_fill append no more at once than a few writes take: 16 MiB that go out by
 * 1,460 octets are moved 96 GB in all, 64 KiB 1.4 MB. */
int32_t iwarp_buffer_drop_front(struct iwarp_buffer *buffer, size_t n) IWARP_CHECKED;

/* ---- regions */

/* What a region may be used for. */
enum iwarp_right {
    IWARP_WRITE = 1, /* a peer's Writes are placed in it */
    IWARP_READ = 2, /* a peer's Reads are answered from it */
    IWARP_SINK = 4, /* this end's Reads are placed in it */
    IWARP_INVALIDATE = 8 /* a peer may invalidate it */
};

struct iwarp_facts {
    uint64_t base; /* the tagged offset of its first octet */
    uint64_t len;
    uint32_t rights; /* a sum of IWARP_WRITE and so on */
    uint32_t valid; /* 1 if peers may use it, else 0 */
    uint32_t limited; /* 1 if it is limited to one stream, else 0 */
    uint32_t stream; /* the stream that it is limited to; 0 if it is not limited */
};

/* Registers a copy of the octets as a region, the first of them at tagged offset `base`. `*stag` is the STag by which
 * peers name it. */
int32_t iwarp_register(struct iwarp *handle, uint32_t pd, uint64_t base, const uint8_t *octets, size_t n, uint32_t rights,
                       uint32_t *stag) IWARP_CHECKED;

/* Deregisters a region, valid or not, and copies its octets to the front of `out`. From then on its STag names no
 * region. `*n` is how many octets it has, with IWARP_NO_ROOM too. */
int32_t iwarp_deregister(struct iwarp *handle, uint32_t stag, uint8_t *out, size_t room, size_t *n) IWARP_CHECKED;

/* Registers the buffer's octets themselves, as iwarp_register does a copy: nothing is copied, and the buffer has no octets
 * then. If it is refused, the buffer keeps them. */
int32_t iwarp_register_buffer(struct iwarp *handle, uint32_t pd, uint64_t base, struct iwarp_buffer *buffer, uint32_t rights,
                              uint32_t *stag) IWARP_CHECKED;

/* Registers a copy of the octets for one stream: the region is in the stream's domain, and to the peers of other streams its
 * STag is as one of another domain (RFC 5042 6.1.1). When the stream is closed it becomes invalid, and stays registered.
 * IWARP_ENDED: the stream has ended. */
int32_t iwarp_register_for(struct iwarp *handle, uint32_t stream, uint64_t base, const uint8_t *octets, size_t n,
                           uint32_t rights, uint32_t *stag) IWARP_CHECKED;

/* Registers the buffer's octets themselves for one stream, as iwarp_register_for does a copy, and takes them as
 * iwarp_register_buffer does. */
int32_t iwarp_register_buffer_for(struct iwarp *handle, uint32_t stream, uint64_t base, struct iwarp_buffer *buffer,
                                  uint32_t rights, uint32_t *stag) IWARP_CHECKED;

/* How a region is registered. */
enum {
    IWARP_LIMITED = 1, /* it is limited to one stream, as by iwarp_register_for */
    IWARP_DRAWN = 2 /* its STag is drawn by random bits, so that no peer can tell the next one (RFC 5042 6.1.1) */
};

/* A region to register. Fields that its flags leave out are not read; nor is what is reserved, which is 0. */
struct iwarp_registration {
    size_t size; /* sizeof(struct iwarp_registration) */
    uint64_t flags; /* a sum of IWARP_LIMITED and IWARP_DRAWN */
    uint64_t base; /* the tagged offset of its first octet */
    uint32_t rights; /* a sum of IWARP_WRITE and so on */
    uint32_t pd; /* its domain; without IWARP_LIMITED */
    uint32_t stream; /* the stream that it is limited to, whose domain is its own; with IWARP_LIMITED */
    uint32_t drawn; /* random bits of the program's, new for each region, as getrandom gives them; with IWARP_DRAWN */
    uint64_t reserved[4];
};

/* Registers a copy of the octets as a region that a struct describes, as iwarp_register or iwarp_register_for does. Those give the
 * STag of the domain's lowest free slot, under its next key: a peer can guess it. With IWARP_DRAWN the low ten bits of `drawn` choose
 * the slot, the first free one from that place on, of 1,024, and the others the key, any of the 255 that are not the slot's last one.
 * The first such region of a domain may take the memory for all its slots, 24,576 octets. Behind IWARP_IS_CLOSED the struct is
 * judged first: IWARP_BAD_STRUCT, then IWARP_BAD_BITS, for the flags and for the rights. */
int32_t iwarp_register_as(struct iwarp *handle, const struct iwarp_registration *registration, const uint8_t *octets, size_t n,
                          uint32_t *stag) IWARP_CHECKED;

/* Registers the buffer's octets themselves, as iwarp_register_as does a copy, and takes them as iwarp_register_buffer does.
 * IWARP_BUFFER_MISSING comes behind IWARP_IS_CLOSED and before the struct is judged. */
int32_t iwarp_register_buffer_as(struct iwarp *handle, const struct iwarp_registration *registration,
                                 struct iwarp_buffer *buffer, uint32_t *stag) IWARP_CHECKED;

/* Memory that the program keeps: mapped from a file, of large pages, or aligned for O_DIRECT. A struct of zeroes has none. */
struct iwarp_memory {
    uint8_t *at; /* if `len` is 0 it may be NULL, and a call may change it */
    size_t len; /* how many octets */
};

/* Registers memory that the program keeps, as a region that a struct describes: nothing is copied, and the struct `memory` has none
 * then. What a peer writes stands in that memory, and what it reads is read there. The library neither frees it nor moves it. It may
 * have 2^46 octets.
 *
 * The program keeps the memory as it is, all its octets readable and writable, until iwarp_deregister_memory hands it back, or the
 * region is deregistered or dropped, or the handle is freed. Until then it reads and writes it only as iwarp_region_at says, in no
 * other thread or process and by no device while a call on the handle runs, and registers no octet of it twice. */
int32_t iwarp_register_memory(struct iwarp *handle, const struct iwarp_registration *registration, struct iwarp_memory *memory,
                              uint32_t *stag) IWARP_CHECKED;

/* Deregisters a region, valid or not, whose memory the program keeps, and tells in `memory` where it is; what stood in that struct is
 * forgotten. IWARP_OTHER_MEMORY: the region's octets are a buffer's, or a copy. */
int32_t iwarp_deregister_memory(struct iwarp *handle, uint32_t stag, struct iwarp_memory *memory) IWARP_CHECKED;

/* Deregisters a region, valid or not: its octets are the buffer's then, with nothing copied, and those that the buffer had
 * are freed. `buffer` was made, with 0 octets for instance, or is the one that the region was registered from. IWARP_OTHER_MEMORY:
 * the program keeps the region's memory (iwarp_deregister_memory). */
int32_t iwarp_deregister_buffer(struct iwarp *handle, uint32_t stag, struct iwarp_buffer *buffer) IWARP_CHECKED;

/* Deregisters a region, valid or not, and frees its octets; memory that the program keeps is not freed. */
int32_t iwarp_drop_region(struct iwarp *handle, uint32_t stag) IWARP_CHECKED;

/* Tells the address of a region's octets, valid or not, and how many they are; it is null if there are none. They stay there
 * until the region is deregistered. */
int32_t iwarp_region_at(struct iwarp *handle, uint32_t stag, uint8_t **at, size_t *n) IWARP_CHECKED;

/* Makes a region invalid: peers can no longer use it. It stays registered. */
int32_t iwarp_invalidate(struct iwarp *handle, uint32_t stag) IWARP_CHECKED;

/* Writes octets into a region, valid or not, at tagged offset `to`. */
int32_t iwarp_store(struct iwarp *handle, uint32_t stag, uint64_t to, const uint8_t *octets, size_t n) IWARP_CHECKED;

/* Reads `n` octets of a region, valid or not, at tagged offset `to`. */
int32_t iwarp_load(struct iwarp *handle, uint32_t stag, uint64_t to, uint8_t *out, size_t n) IWARP_CHECKED;

/* Writes the facts of a region, valid or not. */
int32_t iwarp_facts(struct iwarp *handle, uint32_t stag, struct iwarp_facts *facts) IWARP_CHECKED;

/* The facts of a region, and what later versions add to them. What is reserved becomes 0. */
struct iwarp_region {
    size_t size; /* sizeof(struct iwarp_region): the call reads it, and leaves it */
    struct iwarp_facts facts;
    uint64_t reserved[4];
};

/* As iwarp_facts, into a struct that can grow. Behind IWARP_IS_CLOSED the struct is judged first: IWARP_BAD_STRUCT, then
 * IWARP_NO_REGION. */
int32_t iwarp_region_facts(struct iwarp *handle, uint32_t stag, struct iwarp_region *region) IWARP_CHECKED;

/* ---- streams */

/* How a stream begins. */
enum {
    IWARP_PRESET = 0, /* open at once, with no start-up frames: both ends must have the same options */
    IWARP_INITIATOR = 1, /* it sends the Request */
    IWARP_RESPONDER = 2 /* it waits for the Request, and for iwarp_accept */
};

/* What an end asks for. */
enum {
    IWARP_MARKERS = 1, /* the peer is to put markers into what it sends */
    IWARP_CRC = 2, /* CRCs are to be used, in both directions */
    IWARP_ENHANCED = 4, /* revision 2 of MPA (RFC 6581), whose start-up frames tell how many Reads each end takes */
    IWARP_PEER_TO_PEER = 8 /* the peer-to-peer model (RFC 6581 9.2): of an initiator, with IWARP_ENHANCED */
};

/* What both ends agree on. */
enum {
    IWARP_SENDS_MARKERS = 1,
    IWARP_EXPECTS_MARKERS = 2,
    IWARP_USES_CRC = 4,
    IWARP_RTR_WRITE = 8, /* this end first sends an RTR, a Write of no octets */
    IWARP_RTR_READ = 16 /* this end first sends an RTR, a Read of no octets */
};

/* Opens a stream in a domain under a number from 0 to 63, which no later stream of this handle can have. `options` is a
 * sum of IWARP_MARKERS, IWARP_CRC and so on. The private data goes into an initiator's MPA Request; other roles do not use
 * it, but more than 512 octets are refused at each. With IWARP_ENHANCED an initiator's Request has revision 2, and a
 * responder takes a Request of revision 1 or 2 and answers in kind; without it both ends have revision 1 alone. Peers such
 * as Linux's ask by revision 2.
 *
 * With IWARP_PEER_TO_PEER too, the Request asks for the peer-to-peer model: the first frame that this end emits once the
 * stream is open is the RTR, by which the responder may send before the initiator posts anything. The RTR is no posting:
 * no event tells of it. A responder with IWARP_ENHANCED takes such a Request as well. IWARP_BAD_BITS is returned if
 * another role has IWARP_PEER_TO_PEER, or if it comes without IWARP_ENHANCED. */
int32_t iwarp_open(struct iwarp *handle, uint32_t stream, uint32_t pd, uint32_t role, uint32_t options,
                   const uint8_t *private_data, size_t n) IWARP_CHECKED;

/* As iwarp_open, but the library picks the number: `*stream`. The numbers count from 64 up, each is given once, and as many
 * streams may be open as memory has room for. For connections without end: open each stream by this call, and close it by
 * iwarp_close. */
int32_t iwarp_open_next(struct iwarp *handle, uint32_t pd, uint32_t role, uint32_t options, const uint8_t *private_data,
                        size_t n, uint32_t *stream) IWARP_CHECKED;

/* Accepts the pending MPA Request, with this private data in the Reply. `*agreed` is a sum of IWARP_SENDS_MARKERS and
 * so on. Messages may be posted from then on; but behind the Reply a responder emits nothing before the initiator's first frame had
 * its turn (RFC 5044 7.1.2). */
int32_t iwarp_accept(struct iwarp *handle, uint32_t stream, const uint8_t *private_data, size_t n, uint32_t *agreed) IWARP_CHECKED;

/* Rejects the pending MPA Request, with this private data in the Reply. The stream has then ended; the Reply is still
 * to be emitted. */
int32_t iwarp_reject(struct iwarp *handle, uint32_t stream, const uint8_t *private_data, size_t n) IWARP_CHECKED;

/* Copies the private data of the peer's start-up frame to the front of `out`: at most 512 octets, none before that
 * frame was read. `*n` is how many octets they are, with IWARP_NO_ROOM too. */
int32_t iwarp_private(struct iwarp *handle, uint32_t stream, uint8_t *out, size_t room, size_t *n) IWARP_CHECKED;

/* What the peer told in its start-up frame. Before that was read, and on a preset stream, all fields are 0. */
struct iwarp_told {
    uint32_t revision; /* of MPA: 1 or 2 */
    uint32_t markers; /* 1 if this end is to put markers into what it sends */
    uint32_t crc; /* 1 if CRCs are to be used, in both directions */
    uint32_t has_word; /* 1 if the frame is enhanced (RFC 6581 9) and tells what follows, else 0, and so is what follows */
    uint32_t ird; /* how many Reads the peer takes at once: this end has no more outstanding, and never more than 16 */
    uint32_t ord; /* how many Reads the peer wants to have outstanding */
    uint32_t peer_to_peer; /* 1 if it asks for the peer-to-peer model (A); the RTR may be a */
    uint32_t rtr_send; /* Send (B), */
    uint32_t rtr_write; /* Write (C) or */
    uint32_t rtr_read; /* Read (D) */
};

/* Writes what the peer told in its start-up frame, once that was read: at IWARP_ASKED, and from IWARP_OPENED on. */
int32_t iwarp_told(struct iwarp *handle, uint32_t stream, struct iwarp_told *told) IWARP_CHECKED;

/* What the peer told in its start-up frame, and what later versions add to that. What is reserved becomes 0. */
struct iwarp_peer {
    size_t size; /* sizeof(struct iwarp_peer): the call reads it, and leaves it */
    struct iwarp_told told;
    uint64_t reserved[4];
};

/* As iwarp_told, into a struct that can grow. Behind IWARP_IS_CLOSED the struct is judged first: IWARP_BAD_STRUCT, then
 * IWARP_NO_SUCH_STREAM. */
int32_t iwarp_peer_facts(struct iwarp *handle, uint32_t stream, struct iwarp_peer *peer) IWARP_CHECKED;

/* How far a stream is in its life. */
enum {
    IWARP_STATE_STARTING = 0, /* its start-up goes on: of postings only receive buffers are taken */
    IWARP_STATE_OPEN = 1, /* messages may be posted */
    IWARP_STATE_ENDED = 2 /* it has ended; a start-up frame or a Terminate may still be due */
};

/* Tells whether a stream is starting, is open or has ended: IWARP_STATE_STARTING and so on. */
int32_t iwarp_state(struct iwarp *handle, uint32_t stream, uint32_t *state) IWARP_CHECKED;

/* Reports that the connection broke or closed: the stream has ended, and nothing more is emitted, not even a pending
 * Terminate. */
int32_t iwarp_break(struct iwarp *handle, uint32_t stream) IWARP_NONNULL;

/* Forgets a stream and frees its memory. The stream must be at rest: it has ended, iwarp_work reports IWARP_IDLE, and
 * iwarp_emit IWARP_NOTHING; iwarp_break drops what is left to emit. What it handed back and was not fetched is freed. Its
 * number stays taken: a later call on it returns IWARP_NO_SUCH_STREAM. The tables in which streams are found keep room for as many
 * as were open at once, some 125 octets for each, until iwarp_free. */
int32_t iwarp_close(struct iwarp *handle, uint32_t stream) IWARP_NONNULL;

/* Sets the maximum ULPDU of the frames that a stream emits from then on, 128 to 64,512 octets. It is 1,400 at first. */
int32_t iwarp_set_mulpdu(struct iwarp *handle, uint32_t stream, uint32_t size) IWARP_CHECKED;

/* ---- what is posted */

/* How a Send is posted, and how one was received. */
enum {
    IWARP_SOLICITED = 1,
    IWARP_INVALIDATES = 2 /* `stag` names a region of the receiver that the Send invalidates */
};

/* Posts a Send of a copy of the octets. `flags` is a sum of IWARP_SOLICITED and IWARP_INVALIDATES; `stag` is used only
 * with the latter. `token`, of each call that posts a message, is any number of the program's: the event that tells that
 * this message is done or flushed has it. */
int32_t iwarp_post_send(struct iwarp *handle, uint32_t stream, const uint8_t *octets, size_t n, uint32_t flags, uint32_t stag,
                        uint64_t token) IWARP_CHECKED;

/* Posts a Write of a copy of the octets, to a region of the peer at tagged offset `to`. */
int32_t iwarp_post_write(struct iwarp *handle, uint32_t stream, uint32_t stag, uint64_t to, const uint8_t *octets, size_t n,
                         uint64_t token) IWARP_CHECKED;

/* Posts a Send of the buffer's octets themselves, as iwarp_post_send does of a copy: nothing is copied, and the buffer has none
 * then. It keeps memory for as many octets, which is not written, for when they come back. Once IWARP_DONE or IWARP_FLUSHED tells
 * of this message, iwarp_fetch_sent moves them back into a buffer. If the call is refused, the buffer keeps its octets. Only after
 * IWARP_NO_MEMORY may it have none: the library had no memory to give them back. Then they wait at the stream, in place of what
 * iwarp_fetch_sent would have moved, and that call moves them into a buffer. */
int32_t iwarp_post_send_buffer(struct iwarp *handle, uint32_t stream, struct iwarp_buffer *buffer, uint32_t flags, uint32_t stag,
                               uint64_t token) IWARP_CHECKED;

/* Posts a Write of the buffer's octets themselves, as iwarp_post_write does of a copy, and takes them as iwarp_post_send_buffer
 * does. */
int32_t iwarp_post_write_buffer(struct iwarp *handle, uint32_t stream, uint32_t stag, uint64_t to, struct iwarp_buffer *buffer,
                                uint64_t token) IWARP_CHECKED;

/* Posts a Read of `size` octets, from a region of the peer into one of this end. */
int32_t iwarp_post_read(struct iwarp *handle, uint32_t stream, uint32_t sink, uint64_t sink_to, uint32_t size,
                        uint32_t source, uint64_t source_to, uint64_t token) IWARP_CHECKED;

/* What is posted, and what an event tells of. (IWARP_WRITE and IWARP_READ are rights, with other numbers: iwarp_posting_of takes none
 * of them.) */
enum iwarp_message { IWARP_MESSAGE_WRITE = 1, IWARP_MESSAGE_SEND = 2, IWARP_MESSAGE_READ = 3 };

/* A message to post. Fields that its kind does not need are not read; nor is what is reserved, which is 0. */
struct iwarp_posting {
    size_t size; /* sizeof(struct iwarp_posting) */
    uint32_t kind; /* IWARP_MESSAGE_WRITE, IWARP_MESSAGE_SEND or IWARP_MESSAGE_READ */
    uint32_t stag; /* the peer's region: that a Write goes to, a Read comes from, or a Send with IWARP_INVALIDATES invalidates */
    uint32_t sink; /* the region of this end that a Read goes to */
    uint32_t len; /* how many octets a Read asks for */
    uint64_t flags; /* of a Send, a sum of IWARP_SOLICITED and IWARP_INVALIDATES; of others 0 */
    uint64_t to; /* the tagged offset in the peer's region, of a Write or a Read */
    uint64_t sink_to; /* the tagged offset that a Read goes to */
    uint64_t token;
    uint64_t reserved[4];
};

/* Returns a struct that is cleared but for its size and this kind. A compiler that tells enums apart warns if it is given a right; one
 * of C++ refuses it. */
static inline struct iwarp_posting iwarp_posting_of(enum iwarp_message kind) {
    struct iwarp_posting posting = {sizeof(struct iwarp_posting), (uint32_t)kind, 0, 0, 0, 0, 0, 0, 0, {0, 0, 0, 0}};
    return posting;
}

/* Posts the message that a struct describes, as iwarp_post_send, iwarp_post_write or iwarp_post_read does: a Send or a Write of a
 * copy of the octets, or a Read, which does not use them. Behind IWARP_IS_CLOSED the struct is judged first: IWARP_BAD_STRUCT, then
 * IWARP_BAD_BITS. */
int32_t iwarp_post(struct iwarp *handle, uint32_t stream, const struct iwarp_posting *posting, const uint8_t *octets, size_t n) IWARP_CHECKED;

/* Posts the Send or Write that a struct describes of the buffer's octets themselves, as iwarp_post_send_buffer or
 * iwarp_post_write_buffer does, with the same exception. The first that applies is told of IWARP_IS_CLOSED, IWARP_BUFFER_MISSING,
 * IWARP_BAD_STRUCT, IWARP_BAD_BITS, and IWARP_BAD_STRUCT again for a Read, which has no octets; then those of the stream. */
int32_t iwarp_post_buffer(struct iwarp *handle, uint32_t stream, const struct iwarp_posting *posting, struct iwarp_buffer *buffer) IWARP_CHECKED;

/* Posts the Send or Write that a struct describes of memory that the program keeps: its octets are copied into frames alone, as these
 * are emitted, and the struct `memory` has none then. Until IWARP_DONE or IWARP_FLUSHED tells of this message, or the handle is freed,
 * the program leaves them as they are, and neither registers nor posts any of them again; from then on they are the program's, and no
 * call hands them back. They are never written, so they may be read-only. The first that applies is told of IWARP_IS_CLOSED,
 * IWARP_BAD_STRUCT, IWARP_BAD_BITS, and IWARP_BAD_STRUCT again for a Read; then those of the stream, and IWARP_NO_MEMORY last. A call
 * that is refused leaves `memory` as it is. */
int32_t iwarp_post_memory(struct iwarp *handle, uint32_t stream, const struct iwarp_posting *posting, struct iwarp_memory *memory) IWARP_CHECKED;

/* Posts a receive buffer of `n` octets, at most 16,777,216. A Send that finds no buffer ends the stream. */
int32_t iwarp_post_recv(struct iwarp *handle, uint32_t stream, size_t n) IWARP_CHECKED;

/* Posts the buffer's octets themselves as a receive buffer, at most 16,777,216: nothing is copied, and the buffer has none
 * then. If it is refused, the buffer keeps them. */
int32_t iwarp_post_recv_buffer(struct iwarp *handle, uint32_t stream, struct iwarp_buffer *buffer) IWARP_CHECKED;

/* ---- receive buffers that the streams of a domain share */

/* Gives the domain an empty pool of receive buffers. */
int32_t iwarp_share(struct iwarp *handle, uint32_t pd) IWARP_CHECKED;

/* Posts a receive buffer of `n` octets, at most 16,777,216, to the domain's pool, after the others. A pool holds at most
 * 1,024. A Send takes the oldest buffer when any of its segments is placed first. A Send that finds the pool empty, or the
 * oldest buffer too short, ends its own stream only. */
int32_t iwarp_post_shared(struct iwarp *handle, uint32_t pd, size_t n) IWARP_CHECKED;

/* Posts the buffer's octets themselves to the domain's pool, as iwarp_post_recv_buffer does to a stream. */
int32_t iwarp_post_shared_buffer(struct iwarp *handle, uint32_t pd, struct iwarp_buffer *buffer) IWARP_CHECKED;

/* Takes the oldest buffer out of the domain's pool. If there is one, `*found` is 1, and its octets are the buffer's, whose own
 * are freed; if the pool has none, `*found` is 0 and the buffer keeps its octets. */
int32_t iwarp_take_shared_buffer(struct iwarp *handle, uint32_t pd, struct iwarp_buffer *buffer, uint32_t *found) IWARP_CHECKED;

/* As iwarp_open, but the stream takes its receive buffers from its domain's pool, and iwarp_post_recv returns
 * IWARP_SHARED. A buffer that the stream took comes back with IWARP_RECEIVED or IWARP_FLUSHED_RECV. It does not return
 * to the pool: the program posts another. */
int32_t iwarp_open_shared(struct iwarp *handle, uint32_t stream, uint32_t pd, uint32_t role, uint32_t options,
                          const uint8_t *private_data, size_t n) IWARP_CHECKED;

/* As iwarp_open_shared, but the library picks the number, as iwarp_open_next does. */
int32_t iwarp_open_shared_next(struct iwarp *handle, uint32_t pd, uint32_t role, uint32_t options,
                               const uint8_t *private_data, size_t n, uint32_t *stream) IWARP_CHECKED;

/* ---- delivery, work and emission */

/* Sets the sequence number of the peer's first octet. It is 0 if never set. Of several calls before the first delivery
 * the last counts; after it the call returns IWARP_LATE. A program that sees TCP's own numbers sets the one that
 * follows the number of the peer's SYN. A program that reads a socket does not need this call. */
int32_t iwarp_first_number(struct iwarp *handle, uint32_t stream, uint32_t number) IWARP_CHECKED;

/* Takes octets that came, in any order; `number` is the sequence number of the first of them. A program that reads a
 * socket adds up the lengths of its reads in a uint32_t: the sum is the number for the next read. Numbers wrap, as
 * TCP's do: 0 follows 4294967295. A number stands for the nearest place to the in-order point that has it, less than
 * 2^31 octets past that point or at most 2^31 before it. Octets before the in-order point are ignored. `*kept` is 1, or
 * 0 if all of the octets are dropped: because one lies 262,144 or more past the in-order point, because there would be
 * more than 1,024 islands (runs of octets with a gap before them), or because the stream has ended. If the
 * octets come from a socket, deliver at most 131,072 at a time, and call iwarp_work_on until it reports IWARP_IDLE in
 * between: then those of an open stream are dropped only if it has ended. */
int32_t iwarp_deliver(struct iwarp *handle, uint32_t stream, uint32_t number, const uint8_t *octets, size_t n, uint32_t *kept) IWARP_CHECKED;

/* Lends the place past the last octet that came, so that a program reads a socket to where the octets are to stand. `*at` is
 * its address, and `*n` for how many octets it has room: at most `want`, and at most 65,536. With `want` 0 none are lent: a read
 * of no octets looks like the end of input. Read at most so many to it, and call iwarp_came. Until then the place stays lent, at
 * many streams at once, as for reads that the system does meanwhile; the head of this file says by which calls on this stream it is
 * taken back. IWARP_WINDOW_FULL: call iwarp_work_on until it reports IWARP_IDLE, which makes room, unless the peer's Request has
 * come: then nothing makes room before iwarp_accept or iwarp_reject. A stream that has ended lends a place as well, of at most 4,096
 * octets, the same to all such streams; what comes is dropped. */
int32_t iwarp_room(struct iwarp *handle, uint32_t stream, size_t want, uint8_t **at, size_t *n) IWARP_CHECKED;

/* Tells the library that the program read `n` octets to the front of the place that is lent at this stream. They come right behind
 * the last octet that came, so no sequence number is needed. None of them is dropped, unless the stream has ended. The place is then
 * no longer lent. IWARP_NOT_LENT: `n` is 0, or more than are lent, which stay lent; if the place was taken back none are, and what was
 * written there is lost. IWARP_NO_MEMORY stands in the contract alone: what is lent has its memory. */
int32_t iwarp_came(struct iwarp *handle, uint32_t stream, size_t n) IWARP_CHECKED;

/* What a step of work did. */
enum {
    IWARP_IDLE = 0, /* nothing: there is nothing to do until more octets come or more is emitted */
    IWARP_DONE = 1, /* the oldest posted message is done: `message`, `token`. A Write or Send: its last frame was emitted whole, into
                     * the program's memory, which says nothing of the socket, nor that the peer placed or received it. A Read: its octets
                     * are in its region */
    IWARP_FLUSHED = 2, /* the stream has ended: the oldest posted message is given up: `message`, `token`; a later one may be done */
    IWARP_FLUSHED_RECV = 3, /* the stream has ended: its oldest receive buffer, of `len` octets, can be fetched */
    IWARP_ASKED = 4, /* the peer's MPA Request came: accept or reject it; iwarp_told tells what it asks for */
    IWARP_OPENED = 5, /* the peer accepted: `flags`, IWARP_SENDS_MARKERS and so on; `len` Reads may be outstanding */
    IWARP_CLOSED_BY_PEER = 6, /* the peer's start-up frame has ended the stream: `code`, IWARP_BAD_KEY and so on */
    IWARP_PLACED = 7, /* `len` octets were placed in region `stag` at `to`, by `right`: IWARP_WRITE or IWARP_SINK. With 0 octets
                       * nothing is checked or touched, and there may be no such region */
    IWARP_BUFFERED = 8, /* `len` octets of Send `msn` were placed in its buffer, at offset `mo`: `flags`, IWARP_ABOVE_MARK */
    IWARP_REQUESTED = 9, /* the peer asked to read `len` octets of region `stag` at `to` */
    IWARP_PASSED = 10, /* a frame had its turn */
    IWARP_RECEIVED = 11, /* a Send of `len` octets can be fetched: `flags`, IWARP_SOLICITED and IWARP_INVALIDATES with `stag` */
    IWARP_TERMINATED = 12, /* the stream has ended: the peer's Terminate names a fault, `layer`, `error`, `code` */
    IWARP_FAULT = 13, /* the stream has ended by a fault of the peer's, `layer`, `error`, `code` */
    IWARP_TRIED = 14 /* the frame at stream place `to` was judged before its turn, and is left until its turn */
};

/* By this step the stream came to have more buffers of its pool bound than the mark: of iwarp_work_marked alone, from 1.3 on. */
enum { IWARP_ABOVE_MARK = 1 };

/* What is wrong with a start-up frame. */
enum { IWARP_BAD_KEY = 1, IWARP_BAD_REVISION = 2, IWARP_BAD_LENGTH = 3, IWARP_REJECTED = 4 };

/* Fields that the comment on its kind does not name are 0. Those that are reserved are 0 too; a later version may put
 * something into them. */
struct iwarp_event {
    uint32_t kind; /* IWARP_IDLE and so on */
    uint32_t message;
    uint32_t right;
    uint32_t flags;
    uint32_t stag;
    uint32_t msn;
    uint32_t mo;
    uint32_t layer; /* of a fault: its layer, error type and error code (RFC 5040 4.8) */
    uint32_t error;
    uint32_t code;
    uint64_t to;
    uint64_t len;
    uint64_t token; /* that of the call by which the message was posted */
    uint64_t reserved[4];
};

/* Does one step at a stream. Call it until it reports IWARP_IDLE: after octets were delivered, after some were emitted,
 * and after iwarp_break. Get a message or buffer that it reports with iwarp_fetch or iwarp_fetch_buffer, before the next one is
 * reported on this stream: then that one takes its place. Get the octets of a message that was posted from a buffer with
 * iwarp_fetch_sent, before the next IWARP_DONE or IWARP_FLUSHED on this stream. */
int32_t iwarp_work(struct iwarp *handle, uint32_t stream, struct iwarp_event *event) IWARP_CHECKED;

/* Calls iwarp_work as long as it returns IWARP_OK and reports IWARP_PLACED, IWARP_BUFFERED, IWARP_REQUESTED,
 * IWARP_PASSED or IWARP_TRIED, at most 4,096 times, and returns and reports what the last call did. So it reports what
 * the program has to act on, IWARP_IDLE, or, after 4,096 steps, one of those five. If a call is refused, the steps
 * before it stay done. */
int32_t iwarp_work_on(struct iwarp *handle, uint32_t stream, struct iwarp_event *event) IWARP_CHECKED;

/* As iwarp_work_on, but a step is lent the pool of the stream's domain only while the stream has fewer than `share` of its buffers
 * bound, so that a peer takes no more than its share from the others (RFC 5042 6.4.3.1). A Send that would bind one more ends the
 * stream, as one that finds the pool empty does (IWARP_UNTAGGED_NO_BUFFER). A buffer is bound when a segment of a Send is placed in
 * it first, which may be before the Sends in front have come, until IWARP_RECEIVED or IWARP_FLUSHED_RECV reports it: so let the
 * share be as many as the Sends that the peer may have under way. iwarp_progress tells how many are bound. While a pool's buffers and
 * those that are bound are together as many as the shares of all its streams, a stream with fewer than its share bound finds one. A
 * stream with receive buffers of its own does as by iwarp_work_on. */
int32_t iwarp_work_within(struct iwarp *handle, uint32_t stream, size_t share, struct iwarp_event *event) IWARP_CHECKED;

/* Which limits count. */
enum {
    IWARP_HAS_SHARE = 1,
    IWARP_HAS_MARK = 2
};

/* How many buffers of its domain's pool a stream may take, and from how many on it is told. What is reserved is not read; it is 0. With
 * no flag the limits that are not 0 count: so a cleared struct sets none. */
struct iwarp_limits {
    size_t size; /* sizeof(struct iwarp_limits) */
    size_t share; /* the share, as iwarp_work_within has it; SIZE_MAX: none; with IWARP_HAS_SHARE also 0: no buffer at all */
    size_t mark; /* the high-water mark; SIZE_MAX: none; with IWARP_HAS_MARK also 0: the first buffer is told */
    uint64_t flags; /* a sum of IWARP_HAS_SHARE and IWARP_HAS_MARK: these limits count, and no other; or 0 */
    uint64_t reserved[4];
};

/* As iwarp_work_within, with the share of a struct, and it also stops at the step by which the stream comes to have more than `mark`
 * of the pool's buffers bound: the high-water notification of RFC 5042 6.4.3.1. It reports IWARP_BUFFERED then, once, and again only
 * after the stream had `mark` or fewer bound. So a program can end the stream (iwarp_break), or post more buffers, before other
 * streams find the pool empty. iwarp_work_on and iwarp_work_within pass over that step: work at the stream by this call alone.
 * iwarp_progress tells how many are bound: IWARP_BUFFERED may also come after 4,096 steps, as by iwarp_work_on, without
 * IWARP_ABOVE_MARK then. Behind IWARP_IS_CLOSED the struct is judged first: IWARP_BAD_STRUCT, then IWARP_BAD_BITS; then no step is done.
 *
 * In 1.2 the struct had 56 octets and no flags. Of such a struct both limits count, 0 too: a share of 0 ends the stream at its first
 * Send. A library of 1.2 takes any struct so: a program that is to run with it gives SIZE_MAX for what it does not set. */
int32_t iwarp_work_marked(struct iwarp *handle, uint32_t stream, const struct iwarp_limits *limits, struct iwarp_event *event) IWARP_CHECKED;

/* Copies the message or buffer that was reported last on this stream to the front of `out`, and forgets it. `*n` is how many
 * octets it has, with IWARP_NO_ROOM too; 0 if there is none. */
int32_t iwarp_fetch(struct iwarp *handle, uint32_t stream, uint8_t *out, size_t room, size_t *n) IWARP_CHECKED;

/* Moves into the buffer what iwarp_fetch would copy, and forgets it: the whole receive buffer, as it was posted, of which the
 * first `*n` octets are the message, or all if it was flushed. The octets that the buffer had are freed. If nothing was told,
 * it has none then, and `*n` is 0. A program that posts it again (iwarp_post_recv_buffer) has one buffer for each Send that
 * it awaits, and none is made or cleared for each message. */
int32_t iwarp_fetch_buffer(struct iwarp *handle, uint32_t stream, struct iwarp_buffer *buffer, size_t *n) IWARP_CHECKED;

/* Moves into the buffer the octets of the message that IWARP_DONE or IWARP_FLUSHED told of last on this stream, if it was posted
 * from a buffer, and forgets them: the same octets, whole. The octets that the buffer had are freed. If that message was not
 * posted from a buffer, or its octets were fetched, the buffer has none then. With the next IWARP_DONE or IWARP_FLUSHED on the
 * stream, octets that were not fetched are freed. After IWARP_NO_MEMORY they can still be fetched. The octets stay at their
 * address, and none is written: fill them there and post the buffer again. If instead they become a region or a receive buffer,
 * or iwarp_fill or iwarp_emit_onto is called with the buffer, the library first rewrites all of them in place, once, which takes
 * longer than a copy: so keep buffers for messages apart from those for regions and for frames. */
int32_t iwarp_fetch_sent(struct iwarp *handle, uint32_t stream, struct iwarp_buffer *buffer) IWARP_CHECKED;

/* What a call of iwarp_emit did. */
enum {
    IWARP_NOTHING = 0, /* nothing is due */
    IWARP_FRAME = 1, /* a frame, whose first octet has the stream place `from` */
    IWARP_FETCHED = 2, /* the same of a Read Response, with `n` octets of region `stag` at `to`. With 0 there may be no such region */
    IWARP_DENIED = 3 /* no frame: the peer may not read that, and the stream has ended by a fault, `layer`, `error`, `code` */
};

/* Fields that the comment on its kind does not name are 0, and so are those that are reserved. */
struct iwarp_emission {
    uint32_t kind; /* IWARP_NOTHING and so on */
    uint32_t stag;
    uint32_t layer;
    uint32_t error;
    uint32_t code;
    uint32_t spare; /* reserved */
    uint64_t from;
    uint64_t to;
    uint64_t n;
    uint64_t reserved[4];
};

/* Emits the next frame of a stream to the front of `out`. Write it to the stream's connection, whole and in order. Call
 * it until it reports IWARP_NOTHING; after IWARP_DENIED a Terminate is due. `*n` is how many octets the frame has, with
 * IWARP_NO_ROOM and IWARP_NO_MEMORY too: then nothing else has changed. 66,000 octets are enough for any frame. */
int32_t iwarp_emit(struct iwarp *handle, uint32_t stream, uint8_t *out, size_t room, size_t *n, struct iwarp_emission *emission) IWARP_CHECKED;

/* Emits the next frame of a stream behind the octets of a buffer, so that several frames can be written by one call. Once
 * they are written, iwarp_buffer_truncate with 0 leaves the memory for the next. The buffer's octets may stand at another
 * address then, also if the call returns IWARP_NO_MEMORY. That comes only if the buffer has no room for what is due, or a Read is
 * begun while none is outstanding. */
int32_t iwarp_emit_onto(struct iwarp *handle, uint32_t stream, struct iwarp_buffer *buffer, struct iwarp_emission *emission) IWARP_CHECKED;

/* Where a call of iwarp_fill stopped. */
enum {
    IWARP_FILL_ALL = 0, /* nothing more is due */
    IWARP_FILL_MORE = 1, /* frames were appended, and more may be due: one more would be too much, or there is no memory for one; or the
                          * first has more than `most` octets, and nothing may be due behind it */
    IWARP_FILL_DENIED = 2 /* the peer may not read what is due, and the stream has ended by a fault, `layer`, `error`, `code` */
};

/* `layer`, `error` and `code` are 0 but for IWARP_FILL_DENIED, and so are the fields that are reserved. */
struct iwarp_filling {
    uint32_t kind; /* IWARP_FILL_ALL and so on */
    uint32_t layer;
    uint32_t error;
    uint32_t code;
    uint64_t frames; /* that were appended */
    uint64_t n; /* their octets */
    uint64_t reserved[4];
};

/* Appends to a buffer what a stream is to send, frame by frame, until nothing is due, or one frame more would make what this call
 * appends more than `most` octets. A first frame is appended whatever its length, so 0 stands for one. The stream counts as sent
 * what was appended: write the buffer out whole and in order. What the socket took is dropped by iwarp_buffer_drop_front (or by
 * iwarp_buffer_truncate with 0, once it took all). Then call again: after IWARP_FILL_MORE what is due next is appended, after
 * IWARP_FILL_DENIED the Terminate. Frames before either stand in the buffer. A refusal means that nothing has changed, but that the
 * buffer's octets may stand at another address. It is the first that applies of IWARP_IS_CLOSED, IWARP_BUFFER_MISSING,
 * IWARP_NO_SUCH_STREAM, IWARP_TOO_FAR and IWARP_NO_MEMORY; the last comes only if no frame was appended, and the buffer has no
 * room for the first, or that begins a Read while none is outstanding. */
int32_t iwarp_fill(struct iwarp *handle, uint32_t stream, size_t most, struct iwarp_buffer *buffer, struct iwarp_filling *filling) IWARP_CHECKED;

/* Tells whether iwarp_emit has anything to report: `*wants` is 0 if it would report IWARP_NOTHING, else 1. A program waits for
 * its socket to be writable if it is 1, or if some of what was emitted is not yet written. */
int32_t iwarp_wants_write(struct iwarp *handle, uint32_t stream, uint32_t *wants) IWARP_CHECKED;

/* How far a stream is, in octets, and how often it took a path that costs more than others and does not end it (RFC 5042 6.4.4). What
 * is reserved becomes 0. */
struct iwarp_progress {
    uint64_t sent; /* emitted, the start-up frame among them */
    uint64_t in_order; /* of the peer's, before the in-order point */
    uint64_t due; /* of the next frame, which the next call of iwarp_emit gives; 0 if that reports IWARP_NOTHING or IWARP_DENIED */
    uint64_t bound; /* how many buffers of its domain's pool it has bound; 0 in libraries before 1.2 */
    uint64_t dropped; /* how many calls of iwarp_deliver on it dropped what they had; 0 in libraries before 1.2 */
    uint64_t tried; /* how many frames were judged before their turn, and again in it (IWARP_TRIED); 0 in libraries before 1.2 */
    uint64_t reserved[1];
};

/* Tells how far a stream is. Whether to call iwarp_emit is told by iwarp_wants_write: `due` is 0 too if IWARP_DENIED is to be
 * reported. */
int32_t iwarp_progress(struct iwarp *handle, uint32_t stream, struct iwarp_progress *progress) IWARP_CHECKED;

/* ---- faults: why a stream ended, as the numbers of a Terminate */

/* The layer of a fault (RFC 5040 4.8). */
enum {
    IWARP_LAYER_RDMAP = 0,
    IWARP_LAYER_DDP = 1,
    IWARP_LAYER_MPA = 2
};

/* The error types of RDMAP (RFC 5040 4.8). */
enum {
    IWARP_RDMAP_CATASTROPHIC = 0,
    IWARP_RDMAP_PROTECTION = 1,
    IWARP_RDMAP_OPERATION = 2
};

/* The error codes of remote protection and remote operation errors (RFC 5040 4.8). */
enum {
    IWARP_RDMAP_INVALID_STAG = 0,
    IWARP_RDMAP_BOUNDS = 1,
    IWARP_RDMAP_RIGHTS = 2,
    IWARP_RDMAP_NOT_ASSOCIATED = 3,
    IWARP_RDMAP_TO_WRAP = 4,
    IWARP_RDMAP_VERSION = 5,
    IWARP_RDMAP_UNEXPECTED = 6,
    IWARP_RDMAP_STREAM_CATASTROPHIC = 7,
    IWARP_RDMAP_GLOBAL_CATASTROPHIC = 8,
    IWARP_RDMAP_CANNOT_INVALIDATE = 9,
    IWARP_RDMAP_UNSPECIFIED = 255
};

/* The error types of DDP (RFC 5041 8.2). */
enum {
    IWARP_DDP_CATASTROPHIC = 0,
    IWARP_DDP_TAGGED = 1,
    IWARP_DDP_UNTAGGED = 2
};

/* The error codes of tagged buffer errors (RFC 5041 8.2). */
enum {
    IWARP_TAGGED_INVALID_STAG = 0,
    IWARP_TAGGED_BOUNDS = 1,
    IWARP_TAGGED_NOT_ASSOCIATED = 2,
    IWARP_TAGGED_TO_WRAP = 3,
    IWARP_TAGGED_VERSION = 4
};

/* The error codes of untagged buffer errors (RFC 5041 8.2). */
enum {
    IWARP_UNTAGGED_INVALID_QN = 1,
    IWARP_UNTAGGED_NO_BUFFER = 2,
    IWARP_UNTAGGED_MSN_RANGE = 3,
    IWARP_UNTAGGED_INVALID_MO = 4,
    IWARP_UNTAGGED_TOO_LONG = 5,
    IWARP_UNTAGGED_VERSION = 6
};

/* The error type of MPA, and its error codes (RFC 5044 8, RFC 6581 8). */
enum {
    IWARP_MPA_ERROR = 0,
    IWARP_MPA_CONNECTION_LOST = 1,
    IWARP_MPA_CRC_MISMATCH = 2,
    IWARP_MPA_MARKER_MISMATCH = 3,
    IWARP_MPA_INVALID_FRAME = 4,
    IWARP_MPA_CATASTROPHIC = 5,
    IWARP_MPA_INSUFFICIENT_IRD = 6,
    IWARP_MPA_NO_MATCHING_RTR = 7
};

/* Tells the address of a text that says, with the names of the RFCs, what a fault means. The three numbers are those of
 * an event or an emission. The text is never freed. */
void iwarp_fault_text_at(uint32_t layer, uint32_t error, uint32_t code, const char **text) IWARP_NONNULL;

/* Returns a text that says what a fault means. */
static inline const char *iwarp_fault_text(uint32_t layer, uint32_t error, uint32_t code) {
    const char *text;
    iwarp_fault_text_at(layer, error, code, &text);
    return text;
}

#ifdef __cplusplus
}
#endif

#if defined(__cplusplus) && defined(__GNUC__) && !defined(__clang__)
#pragma GCC diagnostic pop
#endif

#endif
