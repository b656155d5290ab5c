/* A plain account of a memory type: its slots, each empty or a block with an account of its own (account.h). Its rules: a shared block
 * serves where one has a place, of several the one in the highest slot; a request that asks for a block of its own, or is larger than the
 * next shared block, gets one; shared blocks double with their count; a dedicated block goes into the lowest empty slot, a shared one into
 * the highest; a block without pieces goes, unless it is the only shared one. A piece's second place is one in a slot above its own. */
#ifndef TYPE_ACCOUNT_H
#define TYPE_ACCOUNT_H
#include "account.h"

#define ACCOUNT_SLOTS 64
#define MB (UINT64_C(1) << 20)

struct slot {
    bool exists, dedicated;
    uint64_t block;
    struct account account;
};

/* Block sizes are whole multiples of 4 MB up to 256 MB, the largest not below the first. */
struct type_account {
    struct slot slots[ACCOUNT_SLOTS];
    size_t slot_count;
    uint64_t block_size, largest_block_size, page;
    bool has_budget;
    uint64_t budget;
};

/* What a request leads to: a piece, or a block that is needed. */
struct placed {
    bool needs_block, dedicated;
    uint64_t block_size;
    pilhangko_memory_piece piece;
};

static inline void type_begin(struct type_account *t, uint64_t block_size, uint64_t largest_block_size, uint64_t page) {
    t->slot_count = 0;
    t->block_size = block_size;
    t->largest_block_size = largest_block_size;
    t->page = page;
    t->has_budget = false;
    t->budget = 0;
}

static inline uint64_t type_capacity(const struct type_account *t) {
    uint64_t sum = 0;
    for (size_t i = 0; i < t->slot_count; i++) sum += t->slots[i].exists ? t->slots[i].account.size : 0;
    return sum;
}

static inline size_t shared_blocks(const struct type_account *t) {
    size_t n = 0;
    for (size_t i = 0; i < t->slot_count; i++) n += t->slots[i].exists && !t->slots[i].dedicated;
    return n;
}

static inline uint64_t next_shared_size(const struct type_account *t) {
    size_t doublings = shared_blocks(t) < 7 ? shared_blocks(t) : 7;
    uint64_t size = t->block_size << doublings;
    return size < t->largest_block_size ? size : t->largest_block_size;
}

static inline bool same_piece(const pilhangko_memory_piece *a, const pilhangko_memory_piece *b) {
    return a->slot == b->slot && a->number == b->number && a->offset == b->offset && a->size == b->size && a->block == b->block;
}

static inline size_t new_slot(const struct type_account *t, bool dedicated) {
    size_t found = t->slot_count;
    for (size_t i = 0; i < t->slot_count; i++)
        if (!t->slots[i].exists && (!dedicated || found == t->slot_count)) found = i;
    return found;
}

/* Serves a request in a shared block of a slot from `first` on, if one of them has a place. */
static inline bool type_place(
    struct type_account *t, size_t first, const pilhangko_memory_request *r, const char *name, pilhangko_memory_piece *placed) {
    for (size_t i = t->slot_count; i-- > first;) {
        struct slot *slot = &t->slots[i];
        pilhangko_memory_piece piece = {i, 0, 0, r->size, slot->block};
        if (!slot->exists || slot->dedicated ||
            !account_allocate(&slot->account, r->size, r->alignment, r->kind, name, &piece.offset, &piece.number))
            continue;
        *placed = piece;
        return true;
    }
    return false;
}

/* Serves a request in a shared block, or says which block is needed, or why there may be none. all_bytes is the sum of the sizes of all
 * blocks, those of other memory types too. */
static inline pilhangko_status type_allocate(
    struct type_account *t, const pilhangko_memory_request *r, const char *name, uint64_t all_bytes, struct placed *placed) {
    uint64_t shared = next_shared_size(t);
    bool dedicated = r->dedicated || r->size > shared;
    uint64_t size = dedicated ? r->size : shared;
    memset(placed, 0, sizeof *placed);
    if (!dedicated && type_place(t, 0, r, name, &placed->piece)) return PILHANGKO_OK;
    if (size > UINT64_MAX - all_bytes) return PILHANGKO_OUT_OF_MEMORY;
    if (t->has_budget && type_capacity(t) + size > t->budget) return PILHANGKO_BUDGET_EXCEEDED;
    placed->needs_block = true;
    placed->dedicated = dedicated;
    placed->block_size = size;
    return PILHANGKO_OK;
}

/* Puts in the block that is needed, and the piece in it. */
static inline pilhangko_memory_piece type_install(
    struct type_account *t, const struct placed *needed, const pilhangko_memory_request *r, const char *name, uint64_t block) {
    pilhangko_memory_piece piece = {new_slot(t, needed->dedicated), 1, 0, r->size, block};
    struct slot *slot = &t->slots[piece.slot];
    CHECK(piece.slot < ACCOUNT_SLOTS);
    t->slot_count += piece.slot == t->slot_count;
    slot->exists = true;
    slot->dedicated = needed->dedicated;
    slot->block = block;
    account_begin(&slot->account, needed->block_size, needed->dedicated ? 1 : t->page);
    CHECK(account_allocate(&slot->account, r->size, r->alignment, r->kind, name, &piece.offset, &piece.number));
    CHECK(piece.offset == 0);
    return piece;
}

/* The index of a live piece in its slot's account, or -1. */
static inline long type_find(const struct type_account *t, const pilhangko_memory_piece *piece) {
    if (!piece->number || piece->slot >= t->slot_count) return -1;
    const struct slot *slot = &t->slots[piece->slot];
    if (!slot->exists || slot->block != piece->block) return -1;
    size_t at = account_find(&slot->account, piece->offset, piece->number);
    if (at == slot->account.count || slot->account.chunks[at].end != piece->offset + piece->size) return -1;
    return (long)at;
}

/* Frees the live piece at that index; says whether its block goes. */
static inline bool type_free(struct type_account *t, const pilhangko_memory_piece *piece, long at) {
    struct slot *slot = &t->slots[piece->slot];
    account_free(&slot->account, (size_t)at);
    bool goes = account_pieces(&slot->account) == 0 && (slot->dedicated || shared_blocks(t) > 1);
    slot->exists = !goes;
    return goes;
}
#endif
