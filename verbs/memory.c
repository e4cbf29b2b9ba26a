/* Protection domains and memory regions. What an lkey allows is judged here. */
#include "calls.h"

#include <sys/random.h>
#undef ibv_reg_mr
#undef ibv_reg_mr_iova

enum { OF_PEERS = IBV_ACCESS_REMOTE_WRITE | IBV_ACCESS_REMOTE_READ };

/* ---- domains */

struct ibv_pd *ibv_alloc_pd(struct ibv_context *verbs) {
    struct domain *domain = calloc(1, sizeof *domain);
    if (!domain) return none(ENOMEM);
    domain->loop = loop_of_domain();
    if (!domain->loop || iwarp_new(&domain->handle) != IWARP_OK || iwarp_add_domain(&domain->handle, DOMAIN) != IWARP_OK ||
        iwarp_share(&domain->handle, DOMAIN) != IWARP_OK) {
        iwarp_free(&domain->handle);
        free(domain);
        return none(ENOMEM);
    }
    pthread_mutex_init(&domain->lock, NULL);
    domain->pd.context = verbs;
    domain->offered = SPARES;
    atomic_init(&domain->holders, 1);
    domain->next_key = 0xf0000000; /* keys of local memory: no STag of domain 1 is among them */
    return &domain->pd;
}

void domain_release(struct domain *domain) {
    if (atomic_fetch_sub(&domain->holders, 1) != 1) return;
    iwarp_free(&domain->handle);
    for (int i = 0; i < SPARES; i++) iwarp_buffer_free(&domain->spares[i].buffer);
    free(domain->gathered);
    pthread_mutex_destroy(&domain->lock);
    free(domain);
}

int ibv_dealloc_pd(struct ibv_pd *pd) {
    struct domain *domain = (struct domain *)pd;
    pthread_mutex_lock(&domain->lock);
    int busy = domain->users != 0;
    pthread_mutex_unlock(&domain->lock);
    if (busy) return EBUSY;
    domain_release(domain);
    return 0;
}

struct ibv_pd *default_pd(void) {
    if (!context.default_pd) context.default_pd = ibv_alloc_pd(&context.verbs.context);
    return context.default_pd;
}

/* ---- what a place may be used for */

struct region *region_find(struct domain *domain, uint32_t lkey) {
    struct region *region = domain->rows[lkey % ROWS];
    while (region && region->mr.lkey != lkey) region = region->next;
    return region;
}

/* The octets of a place, if its lkey is one of the domain's, all of them lie in that region, and it gives this access; else null.
 * A place of no octets needs no region. */
uint8_t *region_octets(struct domain *domain, const struct ibv_sge *place, unsigned access) {
    if (place->length == 0) return (uint8_t *)iwarp_octets(NULL);
    struct region *region = region_find(domain, place->lkey);
    if (!region || (region->access & access) != access || place->addr < region->base) return NULL;
    uint64_t from = place->addr - region->base;
    if (from > region->mr.length || place->length > region->mr.length - from) return NULL;
    return (uint8_t *)region->mr.addr + from;
}

static unsigned rights_of(unsigned access) {
    return (access & IBV_ACCESS_REMOTE_WRITE ? IWARP_WRITE : 0) | (access & IBV_ACCESS_REMOTE_READ ? IWARP_READ : 0) |
           (access & IBV_ACCESS_LOCAL_WRITE ? IWARP_SINK : 0) | (access & OF_PEERS ? IWARP_INVALIDATE : 0);
}

/* Registers a region's memory with the library, by an STag that is drawn. */
static int32_t region_register(struct domain *domain, struct region *region, unsigned rights) {
    struct iwarp_registration registration = {.size = sizeof registration, .flags = IWARP_DRAWN, .base = region->base, .pd = DOMAIN,
                                              .rights = rights};
    struct iwarp_memory memory = {region->mr.addr, region->mr.length};
    if (getrandom(&registration.drawn, sizeof registration.drawn, 0) != (ssize_t)sizeof registration.drawn) return IWARP_NO_MEMORY;
    int32_t code = iwarp_register_memory(&domain->handle, &registration, &memory, &region->stag);
    region->is_registered = code == IWARP_OK;
    if (code != IWARP_OK) LOG("%zu octets are not registered: %s\n", region->mr.length, iwarp_text(code));
    return code;
}

/* Where a Read is placed: the region's STag. -1: there is none. */
int region_sink(struct domain *domain, const struct ibv_sge *place, uint32_t *stag) {
    struct region *region = region_find(domain, place->lkey);
    *stag = place->lkey;
    if (!region || region->access & OF_PEERS) return 0;
    if (!region->is_registered && region_register(domain, region, IWARP_SINK) != IWARP_OK) return -1;
    *stag = region->stag;
    return 0;
}

/* ---- regions */

static void unregister(struct domain *domain, struct region *region) {
    struct iwarp_memory memory = {0};
    if (region->is_registered) must(iwarp_deregister_memory(&domain->handle, region->stag, &memory), "iwarp_deregister_memory");
}

/* Gives a region its keys. Locked: the domain. */
static int region_name(struct domain *domain, struct region *region) {
    struct ibv_mr *mr = &region->mr;
    if (!(region->access & OF_PEERS)) {
        mr->lkey = mr->rkey = domain->next_key++;
        return 0;
    }
    if (region_register(domain, region, rights_of(region->access)) != IWARP_OK) return failed(ENOMEM);
    mr->lkey = mr->rkey = region->stag;
    return 0;
}

static struct ibv_mr *region_new(struct ibv_pd *pd, void *addr, size_t length, uint64_t base, unsigned access) {
    struct domain *domain = (struct domain *)pd;
    unsigned writes = IBV_ACCESS_REMOTE_WRITE | IBV_ACCESS_REMOTE_ATOMIC;
    if (((access & writes) && !(access & IBV_ACCESS_LOCAL_WRITE)) || base + length < base) return none(EINVAL);
    if (access & (IBV_ACCESS_ON_DEMAND | IBV_ACCESS_MW_BIND)) return none(EOPNOTSUPP);
    struct region *region = calloc(1, sizeof *region);
    if (!region) return none(ENOMEM);
    region->mr = (struct ibv_mr){.context = pd->context, .pd = pd, .addr = addr, .length = length};
    region->base = base;
    region->access = access;
    pthread_mutex_lock(&domain->lock);
    int code = region_name(domain, region);
    if (code == 0) {
        struct region **row = &domain->rows[region->mr.lkey % ROWS];
        region->next = *row;
        *row = region;
        domain->users++;
    }
    pthread_mutex_unlock(&domain->lock);
    if (code == 0) return &region->mr;
    free(region);
    return NULL;
}

struct ibv_mr *ibv_reg_mr_iova2(struct ibv_pd *pd, void *addr, size_t n, uint64_t iova, unsigned access) {
    return region_new(pd, addr, n, access & IBV_ACCESS_ZERO_BASED ? 0 : iova, access);
}

struct ibv_mr *ibv_reg_mr_iova(struct ibv_pd *pd, void *addr, size_t n, uint64_t iova, int access) {
    return ibv_reg_mr_iova2(pd, addr, n, iova, (unsigned)access);
}

struct ibv_mr *ibv_reg_mr(struct ibv_pd *pd, void *addr, size_t n, int access) {
    return ibv_reg_mr_iova2(pd, addr, n, (uintptr_t)addr, (unsigned)access);
}

int ibv_dereg_mr(struct ibv_mr *mr) {
    struct region *region = (struct region *)mr;
    struct domain *domain = (struct domain *)mr->pd;
    pthread_mutex_lock(&domain->lock);
    struct region **at = &domain->rows[mr->lkey % ROWS];
    while (*at != region) at = &(*at)->next;
    *at = region->next;
    unregister(domain, region);
    domain->users--;
    pthread_mutex_unlock(&domain->lock);
    free(region);
    return 0;
}
