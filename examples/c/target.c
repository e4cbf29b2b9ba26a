/* A storage target for many peers. Each peer has a region of its own: it writes there, then sends a Send, and the target sends
 * back as many octets of the region as the Send had. `target --help` says how it is run; `iwarp connect --port Q` is its peer.
 *
 * Each connection has a stream, which is opened for it and closed once it is over, and a region that is registered for this
 * stream, so that no peer reaches another's region, whatever STag it names; and the STag is drawn, so that none can guess it. A
 * domain has room for 1,024 regions, so there is a domain for each 1,024 connections: one more is added when all places are taken.
 * A connection that finds no room, or would pass --most-memory, is closed, and one for which memory runs out is ended; the others
 * go on. If the system has no descriptor left, connections wait until there is one, for which the oldest that is not open gives way.
 *
 * A region is made invalid before its octets are read: until then its peer may change them (RFC 5042 6.2.2). Nothing blocks: what
 * a socket does not take is kept, and the connection is not read while it is; what standard output does not take is dropped
 * (lines.h). A connection has --start seconds to open, whatever comes (RFC 5044 7.1.2), and is dropped once nothing of use went for
 * --stall seconds: no octet was placed in its region, no Send came, and its peer took nothing. A turn of a connection does at most
 * STEPS steps, so that peers which send many small frames do not hold up the others.
 *
 * Of several threads (--threads) each has a handle, an epoll and connections of its own. The first accepts, and hands each socket to
 * the thread that has the fewest connections, by a pipe. What they share, under a lock, is counts, and the list of connections that
 * are not open: so limits, and who gives way, are of all threads together.
 *
 * After a fault the Terminate is written out, the output is shut down, and what still comes is read and dropped until the peer
 * closes: a socket that is closed with octets unread resets the connection, and its peer may lose the Terminate. */
#include "drawing.h"
#include "lines.h"
#include "waiting.h"

enum { BUFFER = 4096, REGION = BUFFER, EVENTS = 64, PLACES = 1024, MOST_DOMAINS = 255, MOST_BUFFERS = 1024, STEPS = 8 };
/* What a connection takes at most: less than 1 MiB for what came, 1 MiB for 256 answers that are posted, and 1 MiB that the system
 * keeps for its socket (SOCKET_BUFFER). */
enum { CONNECTION_MIB = 3, MOST_MIB = 1 << 20 };
enum { MOST_SECONDS = 86400, GRACE = 1 /* for so many seconds a connection does not give way */ };
enum { MOST_THREADS = 64 };

struct connection {
    struct carried carried; /* its stream and its socket, first of all; the socket is -1 if the place is free */
    struct server *server; /* the thread's, whose it is */
    struct sockaddr_in peer;
    uint32_t domain;
    struct iwarp_memory region; /* its region's memory, which is the program's own; none while it is registered */
    int registered;
    uint32_t stag;
    uint32_t waits_for; /* EPOLLIN or EPOLLOUT */
    int open; /* its peer's Request was accepted */
    int received; /* a Send came from its peer */
    int failed;
    int over; /* it is to be closed: a call was refused that the stream needs */
    int closing; /* its peer's start-up frame is wrong, which ends the connection (RFC 5044 7.1.1), once all is written */
    int64_t since; /* when it came; of an open one, when it was opened, or something of use went last */
    uint64_t written; /* how many octets had gone out then */
    int gives_way; /* with the lock: it is to give way to another, and is no longer in the list of those that are not open */
    struct connection *previous; /* with the lock: in that list */
    struct connection *next; /* the same; of a free place, another */
};

/* A domain, with a place for each region that it has room for. */
struct domain {
    struct connection *places;
    int lacking; /* how many buffers of its pool there was no memory for */
};

/* What a thread has of its own, but for the last fields. */
struct server {
    struct iwarp end;
    struct iwarp_buffer message; /* a receive buffer, between two postings */
    struct domain domains[MOST_DOMAINS]; /* that of number 1 is the first */
    uint32_t added; /* how many domains there are */
    struct connection *free_places;
    int poller;
    int64_t now, looked; /* seconds */
    int ends; /* it was told to end */
    pthread_t thread;
    int pipe[2]; /* other threads write notices to it */
    long live; /* with the lock: how many connections it has, or is handed */
    int is_spent; /* with the lock: its handle has no stream numbers left */
};

/* What a thread is told. */
struct notice {
    enum {
        CAME, /* a connection is handed to it */
        GIVE_WAY, /* one of its connections is to give way */
        GO_ON, /* (to the first thread) a connection is over, which was waited for */
        STOP, /* (to the first thread) no more connections are to be taken */
        END
    } what;
    int fd; /* of CAME */
    struct sockaddr_in peer;
    struct connection *gives_way; /* of GIVE_WAY; of CAME too, if there was no place, else null */
};

static struct server servers[MOST_THREADS]; /* that of the first thread is the first */
static long threads = 1;
static uint32_t most; /* how many domains a thread may have */
static long places; /* how many connections there may be at a time */
static uint32_t options;
static int pooled; /* how many buffers a domain's pool has; 0 if each stream has its own */
static long share; /* how many of them a stream may have bound at once; 0: all */
static long most_memory; /* in MiB; 0: as much as there is */
static long start = 10, stall = PATIENCE; /* seconds */

/* What the threads share: whoever has the lock reads and writes it. It is taken where a connection comes, is open, or is over. */
static pthread_mutex_t lock = PTHREAD_MUTEX_INITIALIZER;
static struct {
    struct connection *oldest, *newest; /* of the list of those that are not open */
    long live; /* how many connections were accepted, and are not over */
    long spent; /* how many threads have no stream numbers left */
    int failures;
    int is_awaited; /* the first thread waits for a connection to be over */
} shared;

/* What the first thread alone has. */
static int listener;
static long count, begun;
static int listens; /* whether the listener is watched */
static int64_t resumes; /* no connection is taken before this second: there was no descriptor */

/* Ends the program if a call was refused that has no reason to be. */
static void must(int32_t code, const char *call) {
    if (code == IWARP_OK) return;
    fprintf(stderr, "%s: %s\n", call, iwarp_text(code));
    exit(1);
}

/* Ends a line with the peer's address. */
static void end_line_of(const struct sockaddr_in *peer) {
    char text[ADDRESS_TEXT];
    address_text(peer, text);
    add_text(" from %s", text);
    end_line();
}

static int watch(const struct server *server, int fd, int how, uint32_t events, void *data) {
    struct epoll_event event = {.events = events, .data = {.ptr = data}};
    return epoll_ctl(server->poller, how, fd, &event);
}

static void note_failure(void) {
    pthread_mutex_lock(&lock);
    shared.failures++;
    pthread_mutex_unlock(&lock);
}

/* Writes to a thread's pipe. It waits while the pipe is full, which its thread empties, whatever others do. */
static void tell(const struct server *server, const struct notice *notice) {
    while (write(server->pipe[1], notice, sizeof *notice) < 0) {
        if (errno == EINTR) continue;
        perror("pipe");
        exit(1);
    }
}

/* ---- domains, and places for connections */

/* Posts buffers to a pool that there was no memory for. */
static void fill_pool(struct server *server, uint32_t number) {
    int *lacking = &server->domains[number - 1].lacking;
    while (*lacking > 0 && iwarp_post_shared(&server->end, number, BUFFER) == IWARP_OK) --*lacking;
}

static void free_place(struct server *server, uint32_t domain, struct connection *place) {
    *place = (struct connection){.carried = {.fd = -1}, .server = server, .domain = domain, .next = server->free_places};
    server->free_places = place;
}

/* Adds the next domain, with a pool if there are to be pools. Returns whether it could: it may be called again. */
static int add_domain(struct server *server) {
    struct domain *domain = &server->domains[server->added];
    uint32_t number = server->added + 1;
    if (server->added == most) return 0;
    if (!domain->places) domain->places = calloc(PLACES, sizeof *domain->places);
    if (!domain->places) return 0;
    int32_t code = iwarp_add_domain(&server->end, number);
    if (code != IWARP_OK && code != IWARP_DOMAIN_TAKEN) return 0; /* it is taken if there was no memory for its pool before */
    if (pooled && iwarp_share(&server->end, number) != IWARP_OK) return 0;
    for (int i = PLACES; i-- > 0;) free_place(server, number, &domain->places[i]);
    domain->lacking = pooled;
    server->added++;
    return 1;
}

/* Frees what a thread has; each buffer of a pool has come back. */
static void free_server(struct server *server) {
    uint32_t found;
    for (uint32_t number = 1; pooled && number <= server->added; number++) {
        int n = server->domains[number - 1].lacking;
        do {
            must(iwarp_take_shared_buffer(&server->end, number, &server->message, &found), "take_shared_buffer");
            n += (int)found;
        } while (found);
        if (n != pooled) note_failure();
    }
    iwarp_free(&server->end);
    iwarp_buffer_free(&server->message);
    for (int i = 0; i < MOST_DOMAINS; i++) free(server->domains[i].places);
    close(server->poller);
}

/* ---- connections that are not open, the oldest first: with the lock */

static void put_last(struct connection *connection) {
    connection->next = 0;
    connection->previous = shared.newest;
    *(shared.newest ? &shared.newest->next : &shared.oldest) = connection;
    shared.newest = connection;
}

static void take_out(struct connection *connection) {
    if (connection->gives_way) return;
    *(connection->previous ? &connection->previous->next : &shared.oldest) = connection->next;
    *(connection->next ? &connection->next->previous : &shared.newest) = connection->previous;
}

/* Picks the oldest that had its GRACE, of one thread or, if that is null, of all: it is to give way. Null if there is none. */
static struct connection *pick(const struct server *server, int64_t now) {
    struct connection *oldest = shared.oldest;
    while (oldest && server && oldest->server != server) oldest = oldest->next;
    if (!oldest || now - oldest->since <= GRACE) return 0;
    take_out(oldest);
    oldest->gives_way = 1;
    return oldest;
}

/* ---- a connection's stream */

/* Opens a stream. */
static int32_t open_stream(struct connection *connection) {
    struct iwarp *end = connection->carried.end;
    uint32_t domain = connection->domain, *stream = &connection->carried.stream;
    if (!pooled) return iwarp_open_next(end, domain, IWARP_RESPONDER, options, iwarp_octets(NULL), 0, stream);
    fill_pool(connection->server, domain);
    return iwarp_open_shared_next(end, domain, IWARP_RESPONDER, options, iwarp_octets(NULL), 0, stream);
}

/* Registers a connection's region for its stream, by an STag that is drawn. */
static int32_t offer(struct connection *connection) {
    struct iwarp_registration registration = {.size = sizeof registration, .flags = IWARP_LIMITED | IWARP_DRAWN};
    registration.stream = connection->carried.stream;
    registration.rights = IWARP_WRITE;
    registration.drawn = random_bits();
    return iwarp_register_memory(connection->carried.end, &registration, &connection->region, &connection->stag);
}

/* Zeroes, since the target sends back what its peer has not written too. */
static int32_t make_region(struct connection *connection) {
    connection->region.at = calloc(REGION, 1);
    connection->region.len = connection->region.at ? REGION : 0;
    return connection->region.at ? IWARP_OK : IWARP_NO_MEMORY;
}

/* Makes what a stream needs: a receive buffer, unless there is a pool, and a region. */
static int32_t equip(struct connection *connection) {
    uint32_t stream = connection->carried.stream;
    int32_t code = pooled ? IWARP_OK : iwarp_post_recv(connection->carried.end, stream, BUFFER);
    if (code == IWARP_OK) code = iwarp_buffer_new(0, &connection->carried.frames);
    if (code == IWARP_OK) code = make_region(connection);
    if (code == IWARP_OK) code = offer(connection);
    connection->registered = code == IWARP_OK;
    return code;
}

/* Accepts the peer's Request, with its region's STag, highest octet first, as private data. */
static int32_t answer(struct connection *connection) {
    uint32_t stag = connection->stag, agreed;
    uint8_t name[4] = {(uint8_t)(stag >> 24), (uint8_t)(stag >> 16), (uint8_t)(stag >> 8), (uint8_t)stag};
    int32_t code = iwarp_accept(connection->carried.end, connection->carried.stream, name, 4, &agreed);
    if (code != IWARP_OK) return code;
    pthread_mutex_lock(&lock);
    take_out(connection);
    pthread_mutex_unlock(&lock);
    connection->open = 1;
    connection->since = connection->server->now;
    return code;
}

/* Posts the buffer that was fetched to its pool again, if it is a pool's. */
static void give_back(struct connection *connection) {
    struct server *server = connection->server;
    if (!pooled) return;
    int32_t code = iwarp_post_shared_buffer(&server->end, connection->domain, &server->message);
    if (code == IWARP_NO_MEMORY) server->domains[connection->domain - 1].lacking++;
    else must(code, "post_shared_buffer");
}

/* A Send came: sends back as many octets of the region, which its peer can no longer write. */
static int32_t echo(struct connection *connection) {
    struct server *server = connection->server;
    uint32_t stream = connection->carried.stream;
    uint8_t reply[BUFFER], *region, *at;
    size_t n, all;
    must(iwarp_fetch_buffer(&server->end, stream, &server->message, &n), "fetch_buffer");
    must(iwarp_buffer_at(&server->message, &at, &all), "buffer_at");
    add_text("stream %u received ", (unsigned)stream);
    add_octets(at, n);
    end_line_of(&connection->peer);
    give_back(connection);
    connection->received = 1;
    connection->since = server->now;
    must(iwarp_invalidate(&server->end, connection->stag), "invalidate");
    must(iwarp_region_at(&server->end, connection->stag, &region, &all), "region_at");
    memcpy(reply, region, n);
    return iwarp_post_send(&server->end, stream, reply, n, 0, 0, 0);
}

/* The stream has ended: a receive buffer comes back. */
static void get_back(struct connection *connection) {
    size_t n;
    must(iwarp_fetch_buffer(connection->carried.end, connection->carried.stream, &connection->server->message, &n), "fetch_buffer");
    give_back(connection);
}

static void tell_fault(const struct connection *connection, const struct iwarp_event *event) {
    add_text("stream %u fault %u %u %u %s", (unsigned)connection->carried.stream, (unsigned)event->layer, (unsigned)event->error,
             (unsigned)event->code, iwarp_fault_text(event->layer, event->error, event->code));
    end_line_of(&connection->peer);
}

/* A call that the connection needs was refused, for want of memory or because its peer asks for too much: it is to be closed. */
static void give_up(struct connection *connection, int32_t code) {
    add_text("stream %u is given up: %s", (unsigned)connection->carried.stream, iwarp_text(code));
    end_line_of(&connection->peer);
    connection->over = connection->failed = 1;
}

static void act_on(struct carried *carried, const struct iwarp_event *event) {
    struct connection *connection = (struct connection *)carried;
    int32_t code;
    switch (event->kind) {
    case IWARP_ASKED:
    case IWARP_RECEIVED:
        code = event->kind == IWARP_ASKED ? answer(connection) : echo(connection);
        if (code != IWARP_OK) give_up(connection, code);
        break;
    case IWARP_PLACED:
        if (event->len > 0) connection->since = connection->server->now;
        break;
    case IWARP_FLUSHED_RECV:
        get_back(connection);
        break;
    case IWARP_FAULT:
    case IWARP_TERMINATED:
        tell_fault(connection, event);
        connection->failed = carried->ended = 1;
        break;
    case IWARP_CLOSED_BY_PEER:
        add_text("stream %u closed %u", (unsigned)carried->stream, (unsigned)event->code);
        end_line_of(&connection->peer);
        connection->failed = connection->closing = 1;
        break;
    default: /* a message is done, or is flushed */
        break;
    }
}

/* ---- a connection */

/* A connection failed, also if there is no other reason: its peer asked to read what it may not, or, before the target itself ends, it
 * sent nothing. */
static int has_failed(const struct connection *connection) {
    int denied = connection->carried.ended, mute = !connection->received;
    if (connection->failed) return 1;
    if (!denied && (!mute || connection->server->ends)) return 0;
    add_text("stream %u: %s", (unsigned)connection->carried.stream, denied ? "a Read was denied" : "no Send came");
    end_line_of(&connection->peer);
    return 1;
}

/* A place is free, and a descriptor. */
static void leave(struct connection *connection) {
    struct server *server = connection->server;
    int failed = has_failed(connection);
    close(connection->carried.fd);
    pthread_mutex_lock(&lock);
    if (!connection->open) take_out(connection);
    shared.failures += failed;
    shared.live--;
    server->live--;
    int is_awaited = shared.is_awaited;
    shared.is_awaited = 0;
    pthread_mutex_unlock(&lock);
    free_place(server, connection->domain, connection);
    if (server == servers)
        resumes = 0;
    else if (is_awaited)
        tell(servers, &(struct notice){.what = GO_ON});
}

/* The connection is over: gets back what was posted, closes the stream and gets back the region. Nothing here takes memory. */
static void finish(struct connection *connection) {
    if (is_closed(&connection->carried) != TURN_DONE) {
        fprintf(stderr, "stream %u can't be closed\n", (unsigned)connection->carried.stream);
        exit(1);
    }
    if (connection->registered)
        must(iwarp_deregister_memory(connection->carried.end, connection->stag, &connection->region), "deregister_memory");
    free(connection->region.at);
    connection->region.at = NULL;
    leave(connection);
}

/* Ends a connection that has had its time, and tells how far it was. */
static void drop(struct connection *connection, const char *why, long seconds) {
    char text[300];
    struct carried *carried = &connection->carried;
    add_text("stream %u: %s %ld s; %s", (unsigned)carried->stream, why, seconds, progress_text(carried, text, sizeof text));
    end_line_of(&connection->peer);
    connection->failed = 1;
    finish(connection);
}

static void give_way(struct connection *connection) {
    drop(connection, "it gives way to another, as it is not open after", GRACE);
}

/* Has the poller tell when the socket can be written, if there is something to write, or more to do, else when it can be read. */
static void wait_for(struct connection *connection, uint32_t events) {
    int is_new = connection->waits_for != events;
    if (is_new && watch(connection->server, connection->carried.fd, EPOLL_CTL_MOD, events, connection) != 0) exit(1);
    connection->waits_for = events;
}

/* Writes what is due, a turn for each connection, and says what the connection waits for. */
static void go_on(struct connection *connection) {
    struct carried *carried = &connection->carried;
    enum turn turn = is_writable(carried);
    if (turn == TURN_NO_MEMORY) give_up(connection, IWARP_NO_MEMORY);
    if (turn == TURN_BROKEN) connection->failed = 1;
    if (connection->open && carried->written > connection->written) connection->since = connection->server->now;
    connection->written = carried->written;
    int goes_on = turn == TURN_DONE ? !connection->closing : turn == TURN_LEFT || turn == TURN_MORE;
    if (goes_on && !connection->over)
        wait_for(connection, turn == TURN_DONE ? EPOLLIN : EPOLLOUT);
    else
        finish(connection);
}

/* Octets came, or the peer's close. */
static void hear(struct connection *connection) {
    enum turn turn = is_readable(&connection->carried);
    if (turn == TURN_NO_MEMORY) give_up(connection, IWARP_NO_MEMORY);
    if ((turn == TURN_DONE || turn == TURN_MORE) && !connection->over)
        go_on(connection);
    else
        finish(connection);
}

/* The socket is ready for what the connection waits for. */
static void attend(struct connection *connection) {
    if (connection->waits_for == EPOLLIN)
        hear(connection);
    else
        go_on(connection);
}

/* ---- a connection that comes */

static void stop_listening(void) {
    close(listener);
    listener = -1;
    listens = 0;
}

/* A handle gives a stream number once (iwarp_open_next): its thread is handed no more connections. Once that is so of all, the program
 * ends after those that it serves. */
static void be_spent(struct server *server) {
    if (server->is_spent) return;
    pthread_mutex_lock(&lock);
    server->is_spent = 1;
    int are_all = ++shared.spent == threads;
    pthread_mutex_unlock(&lock);
    if (!are_all) return;
    add_text("no more connections are taken: %s", iwarp_text(IWARP_NUMBERS_SPENT));
    end_line();
    if (server == servers)
        stop_listening();
    else
        tell(servers, &(struct notice){.what = STOP});
}

static void refuse(int fd, const struct sockaddr_in *peer, const char *why) {
    add_text("a connection was refused: %s", why);
    end_line_of(peer);
    close(fd);
    note_failure();
}

/* A free place, or none. If there is no memory for more places, a connection of this thread's may give way. */
static struct connection *take_place(struct server *server) {
    if (!server->free_places && !add_domain(server)) {
        pthread_mutex_lock(&lock);
        struct connection *oldest = pick(server, server->now);
        pthread_mutex_unlock(&lock);
        if (oldest) give_way(oldest);
    }
    struct connection *place = server->free_places;
    if (place) server->free_places = place->next;
    return place;
}

/* Opens the stream of a connection that came. If that is refused, ends it. */
static void equip_or_end(struct connection *connection) {
    struct server *server = connection->server;
    int is_watched = watch(server, connection->carried.fd, EPOLL_CTL_ADD, EPOLLIN, connection) == 0;
    int32_t code = is_watched ? open_stream(connection) : IWARP_NO_MEMORY;
    if (code == IWARP_NUMBERS_SPENT) be_spent(server);
    if (code != IWARP_OK) {
        add_text("a connection was refused: no room");
        end_line_of(&connection->peer);
        connection->failed = 1;
        leave(connection);
        return;
    }
    code = equip(connection);
    if (code == IWARP_OK) return;
    give_up(connection, code);
    finish(connection);
}

/* A connection came to the thread that serves it. */
static void begin(struct server *server, int fd, const struct sockaddr_in *peer) {
    struct connection *connection = take_place(server);
    pthread_mutex_lock(&lock);
    if (connection) {
        connection->since = server->now;
        put_last(connection);
    } else {
        shared.live--;
        server->live--;
    }
    pthread_mutex_unlock(&lock);
    if (!connection) {
        refuse(fd, peer, "no place is free");
        return;
    }
    connection->carried =
        (struct carried){.end = &server->end, .fd = fd, .share = (size_t)share, .steps = STEPS, .frames = IWARP_NO_BUFFER};
    connection->peer = *peer;
    connection->waits_for = EPOLLIN;
    equip_or_end(connection);
}

/* ---- what a thread is told */

/* Whether it is still to give way: it may be over, and its place free, or another's. */
static int has_to_give_way(const struct connection *connection) {
    pthread_mutex_lock(&lock);
    int gives_way = connection->gives_way;
    pthread_mutex_unlock(&lock);
    return gives_way;
}

static void heed(struct server *server, const struct notice *notice) {
    if (notice->gives_way && has_to_give_way(notice->gives_way)) give_way(notice->gives_way);
    switch (notice->what) {
    case CAME:
        begin(server, notice->fd, &notice->peer);
        break;
    case GIVE_WAY:
        break;
    case GO_ON:
        resumes = 0;
        break;
    case STOP:
        stop_listening();
        break;
    case END:
        server->ends = 1;
        break;
    }
}

/* A pipe takes and gives notices whole, as they are short. */
static void read_notices(struct server *server) {
    struct notice notices[EVENTS];
    ssize_t n = read(server->pipe[0], notices, sizeof notices);
    for (const struct notice *it = notices; n > 0; n -= (ssize_t)sizeof *it) heed(server, it++);
}

/* ---- the first thread, which accepts */

static int wants_more(void) { return listener >= 0 && (count == 0 || begun < count); }

/* Picks the thread for a connection that came, and counts it: the one that has the fewest, or, if there is no place, that of the
 * connection that is to give way. Returns null if there is none. */
static struct server *pick_server(struct connection **gives_way) {
    struct server *picked = 0;
    pthread_mutex_lock(&lock);
    if (shared.live < places) {
        for (struct server *server = servers; server < servers + threads; server++)
            if (!server->is_spent && (!picked || server->live < picked->live)) picked = server;
    } else {
        *gives_way = pick(0, servers->now);
        if (*gives_way) picked = (*gives_way)->server;
    }
    if (picked) {
        shared.live++;
        picked->live++;
    }
    pthread_mutex_unlock(&lock);
    return picked;
}

/* A connection came. It is closed if it finds no place. */
static void hand_over(int fd, const struct sockaddr_in *peer) {
    struct notice notice = {.what = CAME, .fd = fd, .peer = *peer};
    struct server *server = pick_server(&notice.gives_way);
    begun++;
    if (!server)
        refuse(fd, peer, "no place is free");
    else if (server == servers)
        heed(server, &notice);
    else
        tell(server, &notice);
}

/* There is no descriptor: has the oldest connection that is not open give way. Returns whether it did: if it is another thread's, this
 * one is told later. */
static int make_way(void) {
    struct notice notice = {.what = GIVE_WAY};
    pthread_mutex_lock(&lock);
    notice.gives_way = pick(0, servers->now);
    struct server *server = notice.gives_way ? notice.gives_way->server : 0;
    shared.is_awaited = 1;
    pthread_mutex_unlock(&lock);
    if (server && server != servers) tell(server, &notice);
    if (server != servers) return 0;
    heed(server, &notice);
    return 1;
}

/* Takes the connections that came, some at a time. */
static void welcome(void) {
    for (int i = 0; i < EVENTS && wants_more(); i++) {
        struct sockaddr_in peer = {0};
        socklen_t n = sizeof peer;
        int fd = accept(listener, (struct sockaddr *)&peer, &n);
        if (fd >= 0) {
            hand_over(fd, &peer);
        } else if (is_for_later(errno)) {
            return;
        } else if ((errno != EMFILE && errno != ENFILE) || !make_way()) {
            resumes = servers->now + 1;
            return;
        }
    }
}

/* Watches the listener, if connections are taken now. Returns whether there is more to serve. */
static int goes_on(void) {
    int wanted = wants_more() && seconds() >= resumes;
    if (wanted != listens && listener >= 0 && watch(servers, listener, EPOLL_CTL_MOD, wanted ? EPOLLIN : 0, &listener) != 0) exit(1);
    listens = wanted;
    pthread_mutex_lock(&lock);
    int is_all = !wants_more() && shared.live == 0;
    shared.is_awaited = !wanted;
    pthread_mutex_unlock(&lock);
    return !is_all && !servers->ends;
}

/* ---- a thread */

/* Drops each connection that is not open after --start seconds, and each at which nothing of use went for --stall. It looks once a
 * second. */
static void drop_late(struct server *server) {
    if (server->looked == server->now) return;
    server->looked = server->now;
    for (uint32_t i = 0; i < server->added * PLACES; i++) {
        struct connection *connection = &server->domains[i / PLACES].places[i % PLACES];
        int64_t age = server->now - connection->since;
        if (connection->carried.fd < 0) continue;
        if (!connection->open && age > start) drop(connection, "it is not open after", start);
        else if (connection->open && age > stall) drop(connection, "nothing of use went for", stall);
    }
}

/* A turn for each connection at which something is to do. What comes is taken last, as others may give way to it. */
static void attend_all(struct server *server) {
    struct epoll_event events[EVENTS];
    int came = 0, told = 0, n = epoll_wait(server->poller, events, EVENTS, 1000);
    server->now = seconds();
    if (n < 0 && errno != EINTR) exit(1);
    for (int i = 0; i < n; i++) {
        void *data = events[i].data.ptr;
        if (data == &listener)
            came = 1;
        else if (data == server)
            told = 1;
        else
            attend(data);
    }
    if (told) read_notices(server);
    if (came) welcome();
}

/* Serves until there is no more, or the thread is told to end, and ends the connections that are left. */
static void serve(struct server *server) {
    while (server == servers ? goes_on() : !server->ends) {
        attend_all(server);
        drop_late(server);
        put_lines();
    }
    server->ends = 1;
    if (server == servers && listener >= 0) stop_listening();
    for (uint32_t i = 0; i < server->added * PLACES; i++) {
        struct connection *connection = &server->domains[i / PLACES].places[i % PLACES];
        if (connection->carried.fd >= 0) finish(connection);
    }
}

static void *run(void *server) {
    serve(server);
    free_server(server);
    return 0;
}

/* Ends the program, as a thread cannot have what it needs. */
static void lacks(int number, const char *what, const char *why) {
    fprintf(stderr, "thread %d of %ld: %s: %s\n", number + 1, threads, what, why);
    exit(1);
}

/* Makes what each thread needs, and begins all but the first. */
static void begin_threads(void) {
    for (int i = 0; i < threads; i++) {
        struct server *server = &servers[i];
        int32_t code = iwarp_new(&server->end);
        if (code == IWARP_OK) code = iwarp_buffer_new(0, &server->message);
        if (code != IWARP_OK) lacks(i, "a handle", iwarp_text(code));
        server->poller = epoll_create1(0);
        if (server->poller < 0) lacks(i, "epoll", strerror(errno));
        if (pipe(server->pipe) != 0 || watch(server, server->pipe[0], EPOLL_CTL_ADD, EPOLLIN, server) != 0)
            lacks(i, "a pipe", strerror(errno));
    }
    for (int i = 1; i < threads; i++) {
        int error = pthread_create(&servers[i].thread, 0, run, &servers[i]);
        if (error != 0) lacks(i, "pthread_create", strerror(error));
    }
}

static void end_threads(void) {
    for (int i = 1; i < threads; i++) tell(&servers[i], &(struct notice){.what = END});
    for (int i = 1; i < threads; i++) pthread_join(servers[i].thread, 0);
    for (int i = 0; i < threads; i++) {
        close(servers[i].pipe[0]);
        close(servers[i].pipe[1]);
    }
}

/* A first SIGTERM or SIGINT ends the program in good order. There may be more of them: `timeout` sends two. */
static void stop(int number) {
    struct notice notice = {.what = END};
    int error = errno;
    signal(number, SIG_IGN);
    if (write(servers->pipe[1], &notice, sizeof notice) < 0) _exit(1);
    errno = error;
}

static const char usage[] =
    "usage: target [OPTION]... [COUNT [OPTIONS [PORT [BUFFERS [DOMAINS]]]]]\n"
    "\n"
    "Prints `port Q`, serves COUNT connections at that port of 127.0.0.1, and prints a line for each\n"
    "Send that it received, and for each connection that failed, with the reason and the peer's\n"
    "address. Lines that standard output does not take are dropped, and counted by another line. The\n"
    "status is 1 if a connection failed.\n"
    "\n"
    "  COUNT    how many connections are served, 1 if left out; 0 for connections without end\n"
    "  OPTIONS  a sum of 1 for markers, 2 for CRCs and 4 for revision 2 of MPA; 0 if left out\n"
    "  PORT     0, which it is if left out, for any port that is free\n"
    "  BUFFERS  1 to 1024: the streams of a domain share so many receive buffers; 0 if left out:\n"
    "           each stream has its own\n"
    "  DOMAINS  1 to 255, 255 if left out: for each, 1024 connections are served at a time; each\n"
    "           takes a descriptor (ulimit -Hn)\n"
    "\n"
    "  --threads N        1 to 64: so many threads serve, each with a handle of its own; 1 if left out. A\n"
    "                     connection is handed to the one that has the fewest. COUNT, DOMAINS and all below\n"
    "                     are for all threads together; BUFFERS are shared by streams of one thread\n"
    "  --pool-share N     1 to 1024: of the BUFFERS that streams share, each may have so many bound to\n"
    "                     Sends at once; one more ends that stream alone. As many as there are if left out\n"
    "  --most-memory MIB  3 to 1048576: for all connections together, 3 for each; one that would pass\n"
    "                     it is closed. As many as find a place if left out\n"
    "  --start SECONDS    1 to 86400: a connection that is not open after so many is closed, whatever\n"
    "                     came; 10 if left out. Where descriptors, places or MIB are short, the oldest\n"
    "                     that is not open gives way after a second\n"
    "  --stall SECONDS    1 to 86400: an open connection is closed once nothing of use went for so many:\n"
    "                     no octet was placed (which --pool-share does not count), no Send came, and the\n"
    "                     peer took nothing; 60 if left out\n"
    "  --quiet            prints `port Q` alone\n"
    "\n"
    "SIGTERM or SIGINT closes all connections, and ends the program.\n";

/* Options that have a number. If there is another word in its place, one line is told, or the usage too. */
static const struct option {
    const char *name;
    long least, most;
    long *number;
    const char *usage;
} numbered[] = {
    {"--threads", 1, MOST_THREADS, &threads, NULL},
    {"--pool-share", 1, MOST_BUFFERS, &share, usage},
    {"--most-memory", CONNECTION_MIB, MOST_MIB, &most_memory, usage},
    {"--start", 1, MOST_SECONDS, &start, usage},
    {"--stall", 1, MOST_SECONDS, &stall, usage},
};

static const struct option *option_of(const char *word) {
    for (size_t i = 0; i < sizeof numbered / sizeof *numbered; i++)
        if (strcmp(numbered[i].name, word) == 0) return &numbered[i];
    return 0;
}

/* Takes the options in front of the other words, which begin behind them then. Returns whether nothing is to be printed. */
static int take_options(int *n, char ***all) {
    int quiet = 0;
    for (;;) {
        const struct option *option = *n > 1 ? option_of((*all)[1]) : 0;
        int is_quiet = *n > 1 && strcmp((*all)[1], "--quiet") == 0;
        if (option) {
            struct words words = words_of(*n < 3 ? *n : 3, *all, 2, 2, option->usage);
            *option->number = number_of(&words, 1, option->least, option->most, 0);
        } else if (!is_quiet) {
            return quiet;
        }
        quiet |= is_quiet;
        *n -= option ? 2 : 1;
        *all += option ? 2 : 1;
    }
}

int main(int n, char **all) {
    int quiet = take_options(&n, &all);
    struct words words = words_of(n, all, 0, 5, usage);
    count = number_of(&words, 0, 0, 1000000000, 1);
    options = (uint32_t)number_of(&words, 1, 0, IWARP_MARKERS | IWARP_CRC | IWARP_ENHANCED, 0);
    unsigned short port = (unsigned short)number_of(&words, 2, 0, 65535, 0);
    pooled = (int)number_of(&words, 3, 0, MOST_BUFFERS, 0);
    most = (uint32_t)number_of(&words, 4, 1, MOST_DOMAINS, MOST_DOMAINS);
    places = (long)most * PLACES;
    if (most_memory > 0 && most_memory / CONNECTION_MIB < places) places = most_memory / CONNECTION_MIB;
    raise_descriptors();
    begin_lines(quiet);
    begin_threads();
    signal(SIGTERM, stop);
    signal(SIGINT, stop);
    listener = listen_at(port, SOCK_NONBLOCK);
    if (watch(servers, listener, EPOLL_CTL_ADD, 0, &listener) != 0) return 1;
    serve(servers);
    end_threads();
    free_server(servers);
    return shared.failures > 0;
}
