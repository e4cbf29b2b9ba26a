/* libibverbs: one made-up device, iwarp0, and what it tells of itself. */
#include "calls.h"

#include <sys/eventfd.h>
#undef ibv_query_port

/* ---- what it is */

static void device_gid(union ibv_gid *gid) {
    if (context.settings.as_roce) raw_gid(gid);
    else memcpy(gid->raw, "\x02\x00iwarp\x00\x00\x00\x00\x00\x00\x00\x00\x01", sizeof gid->raw);
}

/* Copies a struct to a program that may have been built with a shorter or longer one. */
static void copy_struct(void *to, size_t room, const void *from, size_t n) {
    memset(to, 0, room);
    memcpy(to, from, room < n ? room : n);
}

static int query_port(struct ibv_context *verbs, uint8_t port, struct ibv_port_attr *attr, size_t size) {
    (void)verbs;
    if (port != 1) return EINVAL;
    struct ibv_port_attr all = {.state = IBV_PORT_ACTIVE, .max_mtu = IBV_MTU_4096, .active_mtu = IBV_MTU_4096, .gid_tbl_len = 1,
        .max_msg_sz = MOST_OCTETS, .pkey_tbl_len = 1, .lid = 1, .max_vl_num = 1, .active_width = 2, .active_speed = 32,
        .phys_state = 5, .link_layer = IBV_LINK_LAYER_ETHERNET};
    copy_struct(attr, size, &all, sizeof all);
    return 0;
}

int ibv_query_port(struct ibv_context *verbs, uint8_t port, struct _compat_ibv_port_attr *attr) {
    return query_port(verbs, port, (struct ibv_port_attr *)attr, offsetof(struct ibv_port_attr, port_cap_flags2));
}

int ibv_query_device(struct ibv_context *verbs, struct ibv_device_attr *attr) {
    (void)verbs;
    *attr = (struct ibv_device_attr){.node_guid = 1, .sys_image_guid = 1, .max_mr_size = (uint64_t)1 << 46, .page_size_cap = 4096,
        .vendor_id = 1, .vendor_part_id = 1, .max_qp = 65536, .max_qp_wr = MOST_WR, .max_sge = MOST_SGE, .max_sge_rd = 1,
        .max_cq = 65536, .max_cqe = MOST_CQE, .max_mr = 262144, .max_pd = 65536, .max_qp_rd_atom = MOST_READS,
        .max_res_rd_atom = 65536, .max_qp_init_rd_atom = MOST_READS, .atomic_cap = IBV_ATOMIC_NONE, .max_srq = 65536,
        .max_srq_wr = MOST_WR, .max_srq_sge = MOST_SGE, .max_pkeys = 1, .phys_port_cnt = 1};
    uint32_t version = iwarp_version();
    snprintf(attr->fw_ver, sizeof attr->fw_ver, "iwarp %u.%u.%u", version / 10000, version / 100 % 100, version % 100);
    return 0;
}

static int query_device_ex(struct ibv_context *verbs, const struct ibv_query_device_ex_input *input, struct ibv_device_attr_ex *attr,
                           size_t size) {
    struct ibv_device_attr_ex all = {.phys_port_cnt_ex = 1};
    if (input && input->comp_mask) return EINVAL;
    ibv_query_device(verbs, &all.orig_attr);
    copy_struct(attr, size, &all, sizeof all);
    return 0;
}

struct ibv_device **ibv_get_device_list(int *n) {
    struct ibv_device **list = calloc(2, sizeof *list);
    if (list) list[0] = &context.device;
    if (n) *n = list != NULL;
    return list;
}

void ibv_free_device_list(struct ibv_device **list) {
    free(list);
}

const char *ibv_get_device_name(struct ibv_device *device) {
    return device->name;
}

__be64 ibv_get_device_guid(struct ibv_device *device) {
    (void)device;
    return 1;
}

int ibv_get_device_index(struct ibv_device *device) {
    (void)device;
    return 0;
}

struct ibv_context *ibv_open_device(struct ibv_device *device) {
    return device == &context.device ? &context.verbs.context : none(ENODEV);
}

/* The context is one for all: it stays. */
int ibv_close_device(struct ibv_context *verbs) {
    (void)verbs;
    return 0;
}

int ibv_query_gid(struct ibv_context *verbs, uint8_t port, int index, union ibv_gid *gid) {
    (void)verbs;
    if (index || port != 1) return failed(EINVAL);
    device_gid(gid);
    return 0;
}

int _ibv_query_gid_ex(struct ibv_context *verbs, uint32_t port, uint32_t index, struct ibv_gid_entry *entry, uint32_t flags,
                      size_t size) {
    struct ibv_gid_entry all = {.port_num = 1, .gid_type = context.settings.as_roce ? IBV_GID_TYPE_ROCE_V2 : IBV_GID_TYPE_IB};
    (void)verbs;
    if (flags) return EINVAL;
    if (index || port != 1) return ENODATA;
    device_gid(&all.gid);
    copy_struct(entry, size, &all, sizeof all);
    return 0;
}

ssize_t _ibv_query_gid_table(struct ibv_context *verbs, struct ibv_gid_entry *entries, size_t n, uint32_t flags, size_t size) {
    if (n == 0) return -EINVAL;
    int code = _ibv_query_gid_ex(verbs, 1, 0, entries, flags, size);
    return code ? -code : 1;
}

int ibv_query_gid_type(struct ibv_context *verbs, uint8_t port, unsigned index, int *type) {
    (void)verbs;
    if (index || port != 1) return failed(EINVAL);
    *type = 0;
    return 0;
}

int ibv_query_pkey(struct ibv_context *verbs, uint8_t port, int index, __be16 *pkey) {
    (void)verbs;
    if (index || port != 1) return failed(EINVAL);
    *pkey = 0xffff;
    return 0;
}

int ibv_get_pkey_index(struct ibv_context *verbs, uint8_t port, __be16 pkey) {
    (void)verbs;
    return pkey == 0xffff && port == 1 ? 0 : failed(EINVAL);
}

/* A child that is forked begins anew, with nothing of its parent's (progress.c). */
int ibv_fork_init(void) {
    return 0;
}

enum ibv_fork_status ibv_is_fork_initialized(void) {
    return IBV_FORK_UNNEEDED;
}

/* ---- asynchronous events */

/* Tells of an event; of one that was not taken yet, not again. */
void notice_tell(struct notice *notice) {
    uint64_t one = 1;
    pthread_mutex_lock(&context.telling);
    int is_new = !notice->queued;
    if (is_new) {
        notice->queued = 1;
        notice->next = NULL;
        *context.last_notice = notice;
        context.last_notice = &notice->next;
    }
    pthread_mutex_unlock(&context.telling);
    if (is_new && write(context.verbs.context.async_fd, &one, sizeof one) < 0) LOG("an event is not told\n");
}

/* Locked: telling. */
static void notice_unlink(struct notice *notice) {
    struct notice **at = &context.first_notice;
    while (*at != notice) at = &(*at)->next;
    *at = notice->next;
    if (context.last_notice == &notice->next) context.last_notice = at;
    notice->queued = 0;
}

/* Its object goes. */
void notice_forget(struct notice *notice) {
    pthread_mutex_lock(&context.telling);
    if (notice->queued) notice_unlink(notice);
    pthread_mutex_unlock(&context.telling);
}

int ibv_get_async_event(struct ibv_context *verbs, struct ibv_async_event *event) {
    for (;;) {
        uint64_t one;
        if (read(verbs->async_fd, &one, sizeof one) != sizeof one) return -1;
        pthread_mutex_lock(&context.telling);
        struct notice *notice = context.first_notice;
        if (notice) {
            *event = notice->event;
            notice_unlink(notice);
        }
        pthread_mutex_unlock(&context.telling);
        if (notice) return 0;
    }
}

void ibv_ack_async_event(struct ibv_async_event *event) {
    (void)event;
}

/* ---- the context */

static struct ibv_mw *no_window(struct ibv_pd *pd, enum ibv_mw_type type) {
    (void)pd;
    (void)type;
    return none(EOPNOTSUPP);
}

struct context context = {
    .device = {.node_type = IBV_NODE_RNIC, .transport_type = IBV_TRANSPORT_IWARP, .name = "iwarp0", .dev_name = "uverbs0",
               .dev_path = "/sys/class/infiniband_verbs/uverbs0", .ibdev_path = "/sys/class/infiniband/iwarp0"},
    .verbs = {.query_port = query_port, .create_qp_ex = verbs_create_qp_ex, .query_device_ex = query_device_ex,
              .sz = sizeof(struct verbs_context),
              .context = {.device = &context.device, .cmd_fd = -1, .async_fd = -1, .num_comp_vectors = 1,
                          .abi_compat = __VERBS_ABI_IS_EXTENDED, .mutex = PTHREAD_MUTEX_INITIALIZER,
                          .ops = {.alloc_mw = no_window, .poll_cq = verbs_poll_cq, .req_notify_cq = verbs_req_notify_cq,
                                  .post_srq_recv = verbs_post_srq_recv, .post_send = verbs_post_send, .post_recv = verbs_post_recv}}},
    .manager = PTHREAD_MUTEX_INITIALIZER,
    .telling = PTHREAD_MUTEX_INITIALIZER,
    .events = PTHREAD_MUTEX_INITIALIZER,
    .table = PTHREAD_MUTEX_INITIALIZER,
    .lobby = IWARP_CLOSED,
};

void device_begin(void) {
    context.last_notice = &context.first_notice;
    context.verbs.context.async_fd = eventfd(0, EFD_SEMAPHORE | EFD_CLOEXEC);
    if (!context.settings.as_roce) return;
    context.device.node_type = IBV_NODE_CA;
    context.device.transport_type = IBV_TRANSPORT_IB;
}
