/* What the files of Pilhangko's Vulkan binding know of a binding. Not for its users. */
#ifndef PILHANGKO_VULKAN_BINDING_H
#define PILHANGKO_VULKAN_BINDING_H
#include "pilhangko_vulkan_resource.h"
#include "pilhangko_vulkan_request.h"
#include "pilhangko_shared.h"

/* A live allocation. Its serial number never comes again, so one that was freed is told apart from each later one. */
struct live {
    uint32_t next_spare;
    uint64_t serial; /* 0 of a spare record */
    pilhangko_allocator_piece piece;
    uint64_t user_data;
};

/* What a binding and its pools have in common: the device, the lock, and what bounds their blocks together. */
struct common {
    pilhangko_vulkan_device over; /* its two pointers lead to the next two fields */
    pilhangko_vulkan_functions functions;
    VkAllocationCallbacks callbacks;
    bool memory_budget, device_address;
    bool is_locked_outside; /* whether the caller sees to it that one call is made at a time */
    mutex lock;             /* of their allocators, live allocations and captures, and of the last two fields */
    VkPhysicalDeviceMemoryProperties properties;
    VkDeviceSize atom, granularity; /* nonCoherentAtomSize, bufferImageGranularity */
    size_t most_blocks;             /* maxMemoryAllocationCount; 0 where it bounds nothing */
    pilhangko_budget limits[VK_MAX_MEMORY_HEAPS];
    struct binding *first; /* the binding; behind it its pools */
};

/* A binding, be it a pool of another one. */
struct binding {
    pilhangko_allocator allocator;
    uint64_t number; /* no other binding of the process has it, nor had */
    struct common *common;
    struct binding *next_pool;
    uint32_t type_bits; /* the memory types that its blocks may be of */
    const void *next;   /* what is chained where its blocks are asked for; NULL for nothing */
    size_t most_blocks; /* how many a pool may have; 0 where that isn't bounded */
    struct table live;
    uint64_t last_serial, live_count;
    size_t block_count;
    uint64_t changes; /* how often what bounds its memory types may have changed */
    struct capture capture;
};

static inline struct binding *binding_of(const pilhangko_vulkan *vulkan) {
    return (struct binding *)vulkan->opaque;
}

/* From here on until `leave` no other thread is in a call that looks at an allocator, live allocations or a capture of it and its pools. */
static inline struct binding *enter(const struct binding *binding) {
    struct binding *b = (struct binding *)binding;
    if (!b->common->is_locked_outside) lock_mutex(&b->common->lock);
    return b;
}

static inline void leave(struct binding *b) {
    if (!b->common->is_locked_outside) unlock_mutex(&b->common->lock);
}

/* The record of an allocation, or NULL where it isn't live or another binding's. */
static inline const struct live *find(const struct binding *b, const pilhangko_vulkan_allocation *allocation) {
    const struct live *it;
    if (allocation->owner != b->number || allocation->serial == 0 || allocation->index >= b->live.count) return NULL;
    it = (const struct live *)record_of(&b->live, allocation->index);
    return it->serial == allocation->serial ? it : NULL;
}

/* A copy of a live allocation's piece; false where it isn't live. */
static inline bool live_piece(
    const struct binding *binding, const pilhangko_vulkan_allocation *allocation, pilhangko_allocator_piece *piece) {
    struct binding *b = enter(binding);
    const struct live *it = find(b, allocation);
    if (it) *piece = it->piece;
    leave(b);
    return it != NULL;
}

/* ---- what blocks there are, between enter and leave ---- */

/* The sum of the sizes of a memory type's blocks. */
static inline VkDeviceSize held_of_type(const struct binding *b, uint32_t memory_type) {
    uint64_t bytes = 0;
    const pilhangko_status status = pilhangko_allocator_type_capacity(&b->allocator, memory_type, &bytes);
    return status == PILHANGKO_OK ? bytes : 0;
}

/* The sum of the sizes of a binding's blocks in a heap, without its pools'. */
static inline VkDeviceSize held_of_heap(const struct binding *b, uint32_t heap) {
    const VkPhysicalDeviceMemoryProperties *p = &b->common->properties;
    VkDeviceSize bytes = 0;
    for (uint32_t i = 0; i < p->memoryTypeCount; i++)
        if (p->memoryTypes[i].heapIndex == heap) bytes += held_of_type(b, i);
    return bytes;
}

/* The same of a binding and its pools together. */
static inline VkDeviceSize held_by_all(const struct common *c, uint32_t heap) {
    VkDeviceSize bytes = 0;
    for (const struct binding *it = c->first; it; it = it->next_pool) bytes += held_of_heap(it, heap);
    return bytes;
}

static inline size_t blocks_of_all(const struct common *c) {
    size_t blocks = 0;
    for (const struct binding *it = c->first; it; it = it->next_pool) blocks += it->block_count;
    return blocks;
}

/* ---- bounds that a binding and its pools share, between enter and leave ---- */

/* What the others leave of a bound. */
static inline uint64_t left_of(uint64_t bound, uint64_t others) {
    return bound > others ? bound - others : 0;
}

/* How many blocks it may have. */
static inline void share_blocks(struct binding *b) {
    const struct common *c = b->common;
    const bool has_most = c->most_blocks > 0 || b->most_blocks > 0;
    size_t most = b->most_blocks > 0 ? b->most_blocks : SIZE_MAX;
    pilhangko_status status;
    if (c->most_blocks > 0) {
        const size_t left = (size_t)left_of(c->most_blocks, blocks_of_all(c) - b->block_count);
        most = left < most ? left : most;
    }
    status = pilhangko_allocator_set_most_blocks(&b->allocator, has_most, has_most ? most : 0);
    (void)status; /* no question is open */
}

/* How many bytes its blocks may have in a heap. */
static inline void share_heap(struct binding *b, uint32_t heap) {
    const pilhangko_budget *limit = &b->common->limits[heap];
    const VkDeviceSize others = limit->exists ? held_by_all(b->common, heap) - held_of_heap(b, heap) : 0;
    const pilhangko_status status = pilhangko_allocator_set_heap_limit(&b->allocator, heap, limit->exists, left_of(limit->bytes, others));
    (void)status; /* the heap is there, and no question is open */
}

/* Bounds each one by what the others leave: behind each change of a bound, and of blocks where there are pools. */
static inline void share_bounds(const struct common *c) {
    for (struct binding *it = c->first; it; it = it->next_pool) {
        share_blocks(it);
        for (uint32_t heap = 0; heap < c->properties.memoryHeapCount; heap++) share_heap(it, heap);
        it->changes++;
    }
}

/* A block has come or gone. */
static inline void share_again(const struct common *c) {
    if (c->first->next_pool) share_bounds(c);
}

#endif
