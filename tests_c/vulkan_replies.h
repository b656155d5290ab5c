/* What gpu_trace has to reply to a capture of a Vulkan binding, by its account. */
#ifndef VULKAN_REPLIES_H
#define VULKAN_REPLIES_H
#include "allocator_account.h"

struct replies {
    FILE *file; /* where they go; NULL for nowhere */
    const struct allocator_account *account;
    pilhangko_budget captured[ACCOUNT_TYPES]; /* the bounds as the capture has them by now */
    pilhangko_budget bounds[ACCOUNT_TYPES];   /* as they were before the request */
};

static inline void replies_begin(struct replies *r, FILE *file, const struct allocator_account *account) {
    memset(r, 0, sizeof *r);
    r->file = file;
    r->account = account;
}

static inline void replies_line(const struct replies *r, const char *line) {
    if (r->file) fprintf(r->file, "%s\n", line);
}

static inline uint64_t held_in(const struct allocator_account *a, size_t heap) {
    uint64_t bytes = 0;
    for (size_t i = 0; i < a->type_count; i++) bytes += a->heap[i] == heap ? type_capacity(&a->types[i]) : 0;
    return bytes;
}

/* The bound of a memory type: its own, what the other memory types of its heap leave of that heap's limit, or what it has where no block may
 * come; the least of these. */
static inline pilhangko_budget bound_of(const struct allocator_account *a, size_t type) {
    const size_t heap = a->heap[type];
    const uint64_t has = type_capacity(&a->types[type]), others = held_in(a, heap) - has, limit = a->limit[heap];
    uint64_t least = a->types[type].has_budget ? a->types[type].budget : UINT64_MAX;
    const bool is_full = a->has_most && block_count(a) >= a->most_blocks;
    if (a->has_limit[heap] && least > (limit > others ? limit - others : 0)) least = limit > others ? limit - others : 0;
    if (is_full && least > has) least = has;
    const bool exists = a->types[type].has_budget || a->has_limit[heap] || is_full;
    const pilhangko_budget bound = {exists, exists ? least : 0};
    return bound;
}

/* Before an allocation and at the end the capture has those bounds that are others than before. */
static inline void replies_bounds(struct replies *r) {
    for (size_t i = 0; i < r->account->type_count; i++) {
        if (r->bounds[i].exists != r->captured[i].exists || r->bounds[i].bytes != r->captured[i].bytes) replies_line(r, "ok");
        r->captured[i] = r->bounds[i];
    }
}

/* Those that are captured, if anything is, before what comes next. */
static inline void replies_look(struct replies *r) {
    for (size_t i = 0; i < r->account->type_count; i++) r->bounds[i] = bound_of(r->account, i);
}

static inline const char *word_of(bool it) {
    return it ? "true" : "false";
}

static inline void replies_allocation(struct replies *r, const pilhangko_allocator_piece *it, bool dedicated) {
    const pilhangko_memory_piece *p = &it->piece;
    char line[200];
    replies_bounds(r);
    snprintf(line, sizeof line, "ok type %zu slot %zu offset %llu size %llu chunk %llu dedicated %s mapped %s", it->memory_type, p->slot,
        (unsigned long long)p->offset, (unsigned long long)p->size, (unsigned long long)p->number, word_of(dedicated), word_of(it->address != 0));
    replies_line(r, line);
}

static inline void replies_no_place(struct replies *r) {
    replies_bounds(r);
    replies_line(r, "none");
}

/* INVALID requests aren't captured, and of those by flags only what they lead to; the two statuses that have the number 6 in a trace are told apart
 * here. */
static inline void replies_refusal(struct replies *r, pilhangko_status status) {
    char line[32];
    if (status == PILHANGKO_INVALID || r->account->by_flags) return;
    replies_bounds(r);
    snprintf(line, sizeof line, "error E%u", status == PILHANGKO_DRIVER_REFUSED ? 6 : status);
    replies_line(r, line);
}
#endif
