/* A plain account of an allocator: memory types (type_account.h), which of them serves a request, and the second attempt of an upload. A
 * request goes to the first memory type that it allows which has all that its location prefers, else to the first one that has all that it
 * needs. A refused upload has one more attempt, at the first memory type that has what uploads need. A request by flags goes to the memory types
 * that have all required ones: to the one with the least preferred flags missing and avoided ones there, of equal ones the first, and while one
 * has no room to the next. Where blocks are smaller, no shared block has more than an eighth of a heap of at most 1 GB; where a budget or a limit has no
 * room for one, it has as many bytes as they leave; and once one above the request was refused, half of it is asked for, and then half of that. */
#ifndef ALLOCATOR_ACCOUNT_H
#define ALLOCATOR_ACCOUNT_H
#include "type_account.h"

#define ACCOUNT_TYPES 6
#define ACCOUNT_HEAPS 4

/* Vulkan's flags of a memory type: 1 the device's own, 2 seen by the host, 4 coherent, 8 cached; by PILHANGKO_LOCATION_.. */
static const uint32_t preferred_flags[] = {0, 0, 1, 7, 14}, required_flags[] = {0, 0, 1, 6, 6};

struct allocator_account {
    size_t type_count;
    uint32_t flags[ACCOUNT_TYPES];
    uint64_t heap_size[ACCOUNT_TYPES]; /* of each memory type's heap */
    size_t heap[ACCOUNT_TYPES];        /* and its index */
    size_t heap_count;
    bool has_limit[ACCOUNT_HEAPS];
    uint64_t limit[ACCOUNT_HEAPS]; /* of each heap's blocks, where it has one */
    bool has_most;
    size_t most_blocks; /* of all memory types, where that is bounded */
    bool smaller_blocks;
    struct type_account types[ACCOUNT_TYPES];
    /* the request that is under way, or was last */
    pilhangko_allocator_request request;
    const char *name;
    bool awaits_answer, is_second; /* whether a question is open, and of which attempt */
    bool by_flags;                 /* whether flags choose, and not the location */
    pilhangko_preference preference;
    uint32_t left; /* by flags: the memory types that weren't tried */
    size_t type;                   /* of the attempt */
    unsigned halvings;             /* of its block, after refusals */
    struct placed placed;          /* what the attempt came to */
};

static inline uint64_t allocator_capacity(const struct allocator_account *a) {
    uint64_t sum = 0;
    for (size_t i = 0; i < a->type_count; i++) sum += type_capacity(&a->types[i]);
    return sum;
}

/* Whether the block that a memory type needs would be above its heap's limit, beside the blocks of all that heap's memory types. */
static inline bool is_above_limit(const struct allocator_account *a, size_t type) {
    const size_t heap = a->heap[type];
    uint64_t sum = a->placed.block_size;
    if (!a->has_limit[heap]) return false;
    for (size_t i = 0; i < a->type_count; i++)
        if (a->heap[i] == heap) sum += type_capacity(&a->types[i]);
    return sum > a->limit[heap];
}

static inline size_t block_count(const struct allocator_account *a) {
    size_t count = 0;
    for (size_t i = 0; i < a->type_count; i++)
        for (size_t slot = 0; slot < a->types[i].slot_count; slot++) count += a->types[i].slots[slot].exists;
    return count;
}

/* Allocates in a memory type whose shared blocks have at most so many bytes, rounded down to 4 MB, which the smallest one has. */
static inline pilhangko_status allocate_bounded(struct allocator_account *a, size_t type, const pilhangko_memory_request *request, uint64_t most) {
    struct type_account *t = &a->types[type];
    const uint64_t first = t->block_size, largest = t->largest_block_size, whole = most < 4 * MB ? 4 * MB : most - most % (4 * MB);
    pilhangko_status status;
    if (whole < first) t->block_size = whole;
    if (whole < largest) t->largest_block_size = whole;
    status = type_allocate(t, request, a->name, allocator_capacity(a), &a->placed);
    t->block_size = first;
    t->largest_block_size = largest;
    return status;
}

/* Allocates in a memory type, where the request is within its heap, and a block that it needs within that heap's limit and not one too many. */
static inline pilhangko_status allocate_in_type(
    struct allocator_account *a, size_t type, const pilhangko_memory_request *request, bool asks, uint64_t most) {
    pilhangko_status status;
    a->type = type;
    if (request->size > a->heap_size[type]) return PILHANGKO_OUT_OF_MEMORY;
    status = allocate_bounded(a, type, request, most);
    if (status != PILHANGKO_OK || !a->placed.needs_block) return status;
    if (!asks) return PILHANGKO_OUT_OF_MEMORY;
    if (a->has_most && block_count(a) >= a->most_blocks) return PILHANGKO_BUDGET_EXCEEDED;
    return is_above_limit(a, type) ? PILHANGKO_BUDGET_EXCEEDED : PILHANGKO_OK;
}

static inline uint64_t what_is_left(uint64_t bound, uint64_t held) {
    return bound > held ? bound - held : 0;
}

/* What a memory type's budget and its heap's limit leave, of so many bytes. */
static inline uint64_t bytes_left(const struct allocator_account *a, size_t type, uint64_t most) {
    const struct type_account *t = &a->types[type];
    const size_t heap = a->heap[type];
    uint64_t sum = 0, least = most;
    for (size_t i = 0; i < a->type_count; i++) sum += a->heap[i] == heap ? type_capacity(&a->types[i]) : 0;
    if (a->has_limit[heap] && what_is_left(a->limit[heap], sum) < least) least = what_is_left(a->limit[heap], sum);
    if (t->has_budget && what_is_left(t->budget, type_capacity(t)) < least) least = what_is_left(t->budget, type_capacity(t));
    return least;
}

/* The first attempts at a memory type, up to a question. */
static inline pilhangko_status first_attempts(struct allocator_account *a, size_t type, const pilhangko_memory_request *request, bool asks) {
    const uint64_t most = a->smaller_blocks && a->heap_size[type] <= 1024 * MB ? a->heap_size[type] / 8 : UINT64_MAX;
    const pilhangko_status status = allocate_in_type(a, type, request, asks, asks ? most : UINT64_MAX);
    a->halvings = 0;
    if (!asks || !a->smaller_blocks || status != PILHANGKO_BUDGET_EXCEEDED) return status;
    return allocate_in_type(a, type, request, asks, bytes_left(a, type, most));
}

/* The first memory type that is allowed and has the flags, or the count of memory types. */
static inline size_t first_type(const struct allocator_account *a, uint32_t flags) {
    size_t i = 0;
    while (i < a->type_count && (!(a->request.memory_type_bits >> i & 1) || (a->flags[i] & flags) != flags)) i++;
    return i;
}

static inline pilhangko_memory_request attempt_request(const struct allocator_account *a) {
    const pilhangko_allocator_request *r = &a->request;
    pilhangko_memory_request request = {r->size, r->alignment, r->kind, r->scheme != PILHANGKO_SCHEME_MANAGED};
    return request;
}

/* ---- by flags */

static inline unsigned flag_count(uint32_t flags) {
    unsigned count = 0;
    for (unsigned i = 0; i < 32; i++) count += flags >> i & 1;
    return count;
}

/* How many preferred flags a memory type lacks, and how many avoided ones it has. */
static inline unsigned type_cost(const struct allocator_account *a, size_t type) {
    const uint32_t flags = a->flags[type];
    return flag_count(a->preference.preferred & ~flags) + flag_count(a->preference.avoided & flags);
}

/* The cheapest memory type of those that are left, of equal ones the first; or the count of memory types. */
static inline size_t cheapest_type(const struct allocator_account *a) {
    size_t best = a->type_count;
    for (size_t i = 0; i < a->type_count; i++) {
        if (!(a->left >> i & 1) || (a->flags[i] & a->preference.required) != a->preference.required) continue;
        if (best == a->type_count || type_cost(a, i) < type_cost(a, best)) best = i;
    }
    return best;
}

static inline bool lacks_room(pilhangko_status status) {
    return status == PILHANGKO_OUT_OF_MEMORY || status == PILHANGKO_BUDGET_EXCEEDED;
}

/* The memory types that are left are tried, before which the last one was refused so. */
static inline pilhangko_status account_go_down(struct allocator_account *a, pilhangko_status last) {
    const pilhangko_memory_request request = attempt_request(a);
    for (size_t type = cheapest_type(a); type < a->type_count; type = cheapest_type(a)) {
        a->left &= ~(UINT32_C(1) << type);
        last = first_attempts(a, type, &request, !a->preference.never_allocate);
        if (last == PILHANGKO_OK) a->awaits_answer = a->placed.needs_block;
        if (!lacks_room(last)) break;
    }
    return last;
}

/* ---- by location */

static inline pilhangko_status account_second_attempt(struct allocator_account *a, pilhangko_status refused);

/* Attempts the request at a memory type: it leads to a piece, to a question, or to its refusal. */
static inline pilhangko_status account_attempt(struct allocator_account *a, size_t type) {
    pilhangko_memory_request request = attempt_request(a);
    const pilhangko_status status = first_attempts(a, type, &request, true);
    if (status != PILHANGKO_OK) return account_second_attempt(a, status);
    a->awaits_answer = a->placed.needs_block;
    return PILHANGKO_OK;
}

static inline pilhangko_status account_second_attempt(struct allocator_account *a, pilhangko_status refused) {
    if (a->is_second || a->request.location != PILHANGKO_LOCATION_CPU_TO_GPU) return refused;
    a->is_second = true;
    return account_attempt(a, first_type(a, required_flags[PILHANGKO_LOCATION_CPU_TO_GPU]));
}

static inline bool is_valid_request(const pilhangko_allocator_request *r) {
    return r->size != 0 && r->alignment != 0 && (r->alignment & (r->alignment - 1)) == 0 && (r->kind == 1 || r->kind == 2) &&
           r->location >= 1 && r->location <= 4 && r->scheme >= 1 && r->scheme <= 3;
}

static inline pilhangko_status account_begin_request(
    struct allocator_account *a, const pilhangko_allocator_request *request, const char *name) {
    size_t type;
    if (a->awaits_answer) return PILHANGKO_AWAITS_ANSWER;
    if (!is_valid_request(request)) return PILHANGKO_INVALID;
    a->request = *request;
    a->name = name;
    a->by_flags = a->is_second = false;
    type = first_type(a, preferred_flags[request->location]);
    if (type == a->type_count) type = first_type(a, required_flags[request->location]);
    if (type == a->type_count) return PILHANGKO_NO_MEMORY_TYPE;
    return account_attempt(a, type);
}

static inline pilhangko_status account_begin_by_flags(
    struct allocator_account *a, const pilhangko_allocator_request *request, const char *name, const pilhangko_preference *preference) {
    if (a->awaits_answer) return PILHANGKO_AWAITS_ANSWER;
    if (!is_valid_request(request)) return PILHANGKO_INVALID;
    a->request = *request;
    a->name = name;
    a->by_flags = true;
    a->preference = *preference;
    a->left = request->memory_type_bits;
    return account_go_down(a, PILHANGKO_NO_MEMORY_TYPE);
}

/* A smaller block of the same memory type, where one may serve. */
static inline pilhangko_status account_smaller(struct allocator_account *a, pilhangko_status refused) {
    const pilhangko_memory_request request = attempt_request(a);
    const struct placed block = a->placed;
    pilhangko_status status;
    if (!a->smaller_blocks || !lacks_room(refused) || a->halvings == 2) return refused;
    if (block.dedicated || request.size >= block.block_size || block.block_size <= 4 * MB) return refused;
    a->halvings++;
    status = allocate_in_type(a, a->type, &request, true, block.block_size / 2);
    if (status == PILHANGKO_OK) a->awaits_answer = a->placed.needs_block;
    return status;
}

/* The question is answered by a refusal. */
static inline pilhangko_status account_refused(struct allocator_account *a, pilhangko_status refused) {
    a->awaits_answer = false;
    refused = account_smaller(a, refused);
    if (refused == PILHANGKO_OK) return PILHANGKO_OK;
    if (a->by_flags) return lacks_room(refused) ? account_go_down(a, refused) : refused;
    return account_second_attempt(a, refused);
}

/* The question is answered by memory. */
static inline void account_granted(struct allocator_account *a, uint64_t memory) {
    pilhangko_memory_request request = attempt_request(a);
    a->awaits_answer = false;
    a->placed.piece = type_install(&a->types[a->type], &a->placed, &request, a->name, memory);
}

static inline bool same_allocation(const struct allocator_account *a, const pilhangko_allocator_piece *piece) {
    return piece->memory_type == a->type && (piece->address != 0) == ((a->flags[a->type] & 2) != 0) &&
           same_piece(&piece->piece, &a->placed.piece);
}

/* The index of a live piece in its slot's account, or -1. */
static inline long allocator_find(const struct allocator_account *a, const pilhangko_allocator_piece *piece) {
    return piece->memory_type < a->type_count ? type_find(&a->types[piece->memory_type], &piece->piece) : -1;
}
#endif
