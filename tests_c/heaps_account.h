/* A plain account of DirectX 12's memory types (type_account.h): at resource heap tier 1 one for each location and category, else one for
 * each location; a request goes to the one of its own. A memory type has records of committed resources beside its blocks. */
#ifndef HEAPS_ACCOUNT_H
#define HEAPS_ACCOUNT_H
#include "type_account.h"

#define HEAPS_TYPES 9
#define HEAPS_RECORDS 512

struct records {
    pilhangko_heaps_committed of[HEAPS_RECORDS];
    size_t count;
    uint64_t bytes;
};

struct heaps_account {
    uint32_t tier;
    size_t type_count;
    struct type_account types[HEAPS_TYPES];
    struct records records[HEAPS_TYPES];
    /* the request that is under way, or was last */
    pilhangko_memory_request request;
    const char *name;
    bool awaits_heap;
    size_t type;
    struct placed placed;
    /* the committed resource that is asked for, or was last */
    bool awaits_resource;
    pilhangko_heaps_committed asked;
};

/* Sizes of blocks are whole multiples of 4 MB up to 256 MB, the largest not below the first. */
static inline void heaps_begin(struct heaps_account *a, const pilhangko_heaps_settings *s) {
    memset(a, 0, sizeof *a);
    a->tier = s->heap_tier;
    a->type_count = s->heap_tier == 1 ? 9 : 3;
    for (size_t i = 0; i < a->type_count; i++) {
        const bool is_device = i < a->type_count / 3;
        type_begin(&a->types[i], is_device ? s->device_block_size : s->host_block_size,
            is_device ? s->largest_device_block_size : s->largest_host_block_size, 1);
    }
}

static inline uint64_t heaps_capacity(const struct heaps_account *a) {
    uint64_t sum = 0;
    for (size_t i = 0; i < a->type_count; i++) sum += type_capacity(&a->types[i]);
    return sum;
}

static inline bool is_known(uint32_t location, uint32_t category) {
    return location >= 1 && location <= 4 && category >= 1 && category <= 3;
}

static inline size_t serving_type(const struct heaps_account *a, uint32_t location, uint32_t category) {
    const size_t place = location <= 2 ? 0 : location - 2;
    return a->tier == 1 ? 3 * place + category - 1 : place;
}

/* The heap that the driver is asked for, by its memory type: D3D12_HEAP_TYPE, D3D12_CPU_PAGE_PROPERTY, D3D12_MEMORY_POOL, and flags. */
static inline bool asks_for(const struct heaps_account *a, const pilhangko_heaps_question *q) {
    static const uint32_t heap_types[] = {1, 4, 4}, pages[] = {0, 2, 3}, pools[] = {0, 1, 1}, flags[] = {0xc0, 0x84, 0x44};
    const size_t place = a->tier == 1 ? a->type / 3 : a->type;
    return q->memory_type == a->type && q->size == a->placed.block_size && q->dedicated == a->placed.dedicated && q->alignment == 4 * MB &&
           q->heap_type == heap_types[place] && q->cpu_page_property == pages[place] && q->memory_pool == pools[place] &&
           q->flags == (a->tier == 1 ? flags[a->type % 3] : 0);
}

static inline pilhangko_status heaps_request(struct heaps_account *a, const pilhangko_heaps_request *r, const char *name) {
    const pilhangko_memory_request request = {r->size, r->alignment, PILHANGKO_KIND_LINEAR, false};
    pilhangko_status status;
    if (a->awaits_heap) return PILHANGKO_AWAITS_ANSWER;
    if (r->size == 0 || r->alignment == 0 || (r->alignment & (r->alignment - 1)) != 0) return PILHANGKO_INVALID;
    if (!is_known(r->location, r->category)) return PILHANGKO_INVALID;
    a->type = serving_type(a, r->location, r->category);
    a->request = request;
    a->name = name;
    status = type_allocate(&a->types[a->type], &request, name, heaps_capacity(a), &a->placed);
    a->awaits_heap = status == PILHANGKO_OK && a->placed.needs_block;
    return status;
}

/* The question is answered by a heap. */
static inline void heaps_granted(struct heaps_account *a, uint64_t heap) {
    a->awaits_heap = false;
    a->placed.piece = type_install(&a->types[a->type], &a->placed, &a->request, a->name, heap);
}

/* The index of a live piece in its slot's account, or -1. */
static inline long heaps_find(const struct heaps_account *a, const pilhangko_heaps_piece *piece) {
    return piece->memory_type < a->type_count ? type_find(&a->types[piece->memory_type], &piece->piece) : -1;
}

static inline pilhangko_status record_request(struct heaps_account *a, uint64_t size, uint32_t location, uint32_t category) {
    if (a->awaits_resource) return PILHANGKO_AWAITS_ANSWER;
    if (!is_known(location, category)) return PILHANGKO_INVALID;
    const size_t type = serving_type(a, location, category);
    if (size > UINT64_MAX - a->records[type].bytes) return PILHANGKO_OUT_OF_MEMORY;
    a->awaits_resource = true;
    a->asked = (pilhangko_heaps_committed){type, 0, size};
    return PILHANGKO_OK;
}

static inline void record_made(struct heaps_account *a, uint64_t resource) {
    struct records *r = &a->records[a->asked.memory_type];
    CHECK(r->count < HEAPS_RECORDS);
    a->awaits_resource = false;
    a->asked.resource = resource;
    r->of[r->count++] = a->asked;
    r->bytes += a->asked.size;
}

/* Forgets a record that is the same in all three, if there is one. */
static inline bool record_forgotten(struct heaps_account *a, const pilhangko_heaps_committed *c) {
    if (c->memory_type >= a->type_count) return false;
    struct records *r = &a->records[c->memory_type];
    for (size_t i = 0; i < r->count; i++) {
        if (r->of[i].resource != c->resource || r->of[i].size != c->size) continue;
        r->of[i] = r->of[--r->count];
        r->bytes -= c->size;
        return true;
    }
    return false;
}
#endif
