/* A plain account of Metal's memory types (type_account.h): one for each location, and a request goes to the one of its own. */
#ifndef METAL_ACCOUNT_H
#define METAL_ACCOUNT_H
#include "type_account.h"

#define METAL_TYPES 3

struct metal_account {
    bool has_set;
    struct type_account types[METAL_TYPES];
    /* the request that is under way, or was last */
    pilhangko_memory_request request;
    const char *name;
    bool awaits_heap;
    size_t type;
    struct placed placed;
};

/* Sizes of blocks are whole multiples of 4 MB up to 256 MB, the largest not below the first. */
static inline void metal_begin(struct metal_account *a, const pilhangko_metal_heaps_settings *s) {
    memset(a, 0, sizeof *a);
    a->has_set = s->has_residency_set;
    type_begin(&a->types[0], s->device_block_size, s->largest_device_block_size, 1);
    type_begin(&a->types[1], s->host_block_size, s->largest_host_block_size, 1);
    type_begin(&a->types[2], s->host_block_size, s->largest_host_block_size, 1);
}

static inline uint64_t metal_capacity(const struct metal_account *a) {
    uint64_t sum = 0;
    for (size_t i = 0; i < METAL_TYPES; i++) sum += type_capacity(&a->types[i]);
    return sum;
}

/* The heap that the device is asked for, by its memory type: MTLStorageMode and MTLCPUCacheMode. */
static inline bool metal_asks_for(const struct metal_account *a, const pilhangko_metal_heaps_question *q) {
    static const uint32_t modes[] = {2, 0, 0}, caches[] = {0, 1, 0};
    return q->memory_type == a->type && q->size == a->placed.block_size && q->dedicated == a->placed.dedicated &&
           q->location == a->type + 2 && q->storage_mode == modes[a->type] && q->cpu_cache_mode == caches[a->type];
}

static inline pilhangko_status metal_request(struct metal_account *a, const pilhangko_metal_heaps_request *r, const char *name) {
    const pilhangko_memory_request request = {r->size, r->alignment, PILHANGKO_KIND_LINEAR, false};
    pilhangko_status status;
    if (a->awaits_heap) return PILHANGKO_AWAITS_ANSWER;
    if (r->size == 0 || r->alignment == 0 || (r->alignment & (r->alignment - 1)) != 0) return PILHANGKO_INVALID;
    if (r->location < 1 || r->location > 4) return PILHANGKO_INVALID;
    a->type = r->location <= 2 ? 0 : r->location - 2;
    a->request = request;
    a->name = name;
    status = type_allocate(&a->types[a->type], &request, name, metal_capacity(a), &a->placed);
    a->awaits_heap = status == PILHANGKO_OK && a->placed.needs_block;
    return status;
}

/* The question is answered by a heap. */
static inline void metal_granted(struct metal_account *a, uint64_t heap) {
    a->awaits_heap = false;
    a->placed.piece = type_install(&a->types[a->type], &a->placed, &a->request, a->name, heap);
}

/* The index of a live piece in its slot's account, or -1. */
static inline long metal_find(const struct metal_account *a, const pilhangko_heaps_piece *piece) {
    return piece->memory_type < METAL_TYPES ? type_find(&a->types[piece->memory_type], &piece->piece) : -1;
}
#endif
