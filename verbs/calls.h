/* The calls between the files of the stand-in. `locked` says which lock the caller has. */
#ifndef VERBS_CALLS_H
#define VERBS_CALLS_H
#include "objects.h"

#define LOG(...) do { if (context.settings.log) fprintf(stderr, "iwarp-verbs: " __VA_ARGS__); } while (0)

/* Sets errno, and returns -1, or no object. */
static inline int failed(int error) {
    errno = error;
    return -1;
}

static inline void *none(int error) {
    errno = error;
    return NULL;
}

/* The least power of two that is at least n. */
static inline unsigned ring_size(unsigned n) {
    unsigned size = 1;
    while (size < n) size *= 2;
    return size;
}

void must(int32_t code, const char *call); /* ends the process if a call is refused that cannot be */
long long now_ms(void);

/* settings.c */
void settings_read(struct settings *settings);

/* device.c */
void device_begin(void);
void notice_tell(struct notice *notice);
void notice_forget(struct notice *notice);

/* memory.c; locked: the domain */
struct region *region_find(struct domain *domain, uint32_t lkey);
uint8_t *region_octets(struct domain *domain, const struct ibv_sge *place, unsigned access);
int region_sink(struct domain *domain, const struct ibv_sge *place, uint32_t *stag);
void domain_release(struct domain *domain); /* not locked */
struct ibv_pd *default_pd(void); /* of identifiers without one; locked: the manager */

/* completion.c */
void completion_push(struct completions *queue, const struct ibv_wc *wc, int solicited, struct pair *pair);
int verbs_poll_cq(struct ibv_cq *cq, int most, struct ibv_wc *wc);
int verbs_req_notify_cq(struct ibv_cq *cq, int solicited_only);

/* post.c, build.c */
int verbs_post_send(struct ibv_qp *qp, struct ibv_send_wr *wr, struct ibv_send_wr **bad);
int verbs_post_recv(struct ibv_qp *qp, struct ibv_recv_wr *wr, struct ibv_recv_wr **bad);
int verbs_post_srq_recv(struct ibv_srq *srq, struct ibv_recv_wr *wr, struct ibv_recv_wr **bad);
void pair_posted(struct pair *pair); /* locked: the domain */
void build_calls(struct ibv_qp_ex *qp);

/* sending.c; locked: the domain */
int sends_post(struct pair *pair); /* to the stream, as many as it takes; -1: the queue pair is at fault */
void send_part_done(struct pair *pair, enum ibv_wc_status status);
void sends_flush(struct pair *pair);

/* receiving.c; locked: the domain */
int receives_new(struct receives *queue, unsigned most);
int receive_add(struct receives *queue, unsigned most_places, const struct ibv_recv_wr *wr);
int receive_offer(struct pair *pair); /* to the next Send that the stream works at; -1: there is none, and it has to wait */
void receive_withdraw(struct pair *pair); /* what no Send took */
int message_came(struct pair *pair, const struct iwarp_event *event);
int messages_hand_out(struct pair *pair); /* -1: the queue pair is at fault */
void receive_too_short(struct pair *pair); /* the oldest, for the message that came */
void receives_flush(struct pair *pair);
void receives_drop(struct pair *pair);

/* pair.c */
struct ibv_qp *verbs_create_qp_ex(struct ibv_context *verbs, struct ibv_qp_init_attr_ex *attr);
struct ibv_qp *pair_new(struct ibv_pd *pd, struct ibv_qp_init_attr *attr, int by_manager);
struct pair *pair_find(uint32_t number); /* locked: the manager */
void pair_flush(struct pair *pair); /* locked: its domain */
void pair_fail(struct pair *pair); /* locked: its domain; its connection ends at the next turn */

/* connection.c */
struct connection *connection_new(int fd, enum connection_state state, struct loop *loop, uint32_t interest);
void connection_lock(struct connection *c);
void connection_unlock(struct connection *c);
void connection_release(struct connection *c);
void connection_watch(struct connection *c, uint32_t interest);
void connection_within(struct connection *c, long long ms); /* sets the deadline; 0: none */
void connection_retry(struct connection *c); /* memory ran out */
void connection_close(struct connection *c); /* the socket, at once; locked: the connection */

/* start.c; locked: the manager and the pair's domain */
int stream_open(struct connection *c, struct pair *pair, uint32_t role, const void *private_data, size_t n);
int stream_accept(struct connection *c, struct pair *pair, const void *private_data, size_t n);

/* stream.c; locked: the connection */
void stream_pump(struct connection *c); /* posts what waits, and writes; may end the connection */
void stream_read(struct connection *c);
void stream_end(struct connection *c); /* hands all back, tells the identifier, and closes the socket or lingers */
void stream_opened(struct connection *c); /* the peer has accepted */
void linger_turn(struct connection *c);

/* progress.c */
struct loop *loop_of_domain(void); /* running: for the next domain; null: it cannot */
struct loop *loop_of_manager(void); /* likewise, for connections that have no domain yet */
void loop_wake(struct loop *loop);
void loop_poll(struct loop *loop);

/* requests.c; locked: the connection */
void listener_turn(struct connection *listener);
int request_reject(struct connection *c, const void *private_data, size_t n);
void request_turn(struct connection *c);
void connecting_turn(struct connection *c);
void connecting_again(struct connection *c);
void listener_forget(struct connection *listener); /* locked: the manager */
void lobby_leave(struct connection *c);

/* events.c */
struct events *events_new(void);
void events_let_go(struct events *events, int users);
void events_move(struct identifier *id, struct events *to);
struct event *event_asked(struct identifier *listener); /* a Request that the program did not take */
int events_reserve(struct identifier *id); /* has two events to spare */
struct event *event_new(struct identifier *id, enum rdma_cm_event_type type, int status);
struct event *event_spare(struct identifier *id, enum rdma_cm_event_type type, int status);
void event_describe(struct event *event, struct connection *c); /* what the peer told; locked: the connection */
void event_tell(struct event *event);
enum rdma_cm_event_type event_of(int error); /* by which an attempt to connect ends */
int event_wait(struct identifier *id); /* of a synchronous identifier: the next event */

/* identifier.c */
struct identifier *identifier_new(struct events *channel, void *own, enum rdma_port_space ps);
int identifier_asked(struct connection *c); /* locked: the manager */
int identifier_bind_device(struct identifier *id);
struct pair *identifier_pair(struct identifier *id, const struct rdma_conn_param *param);

/* raw.c */
void raw_gid(union ibv_gid *gid);
int raw_listen(struct pair *pair);
void raw_asked(struct connection *c);
int raw_ready(struct pair *pair, const struct ibv_qp_attr *attr);
int raw_connected(struct connection *c, int error);
void raw_forget(struct pair *pair);

#endif
