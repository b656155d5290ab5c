/* Plans by the rules alone, to compare with: every offset that can be the least one is tried against all that is placed, and the orders are
 * sorted by plain comparison of keys. */
#ifndef PLAN_ACCOUNT_H
#define PLAN_ACCOUNT_H
#include "test.h"
#include <string.h>

#define MOST_RESOURCES 400

struct planned {
    bool fits;
    uint64_t offsets[MOST_RESOURCES];
    uint64_t heap_size;
};

__extension__ typedef unsigned __int128 wide;

static bool alive_together(const pilhangko_plan_resource *a, const pilhangko_plan_resource *b) {
    return a->first_pass <= b->last_pass && b->first_pass <= a->last_pass;
}

/* Whether two that are alive together would lie apart at these offsets. */
static bool lie_apart(const pilhangko_plan_resource *a, wide o, const pilhangko_plan_resource *b, wide p, uint64_t page) {
    bool bytes = o < p + b->size && p < o + a->size;
    bool pages = o / page <= (p + b->size - 1) / page && p / page <= (o + a->size - 1) / page;
    return !bytes && !(a->kind != b->kind && pages);
}

static wide rounded_up(wide x, uint64_t to) {
    return (x + to - 1) / to * to;
}

static wide bytes_alive(const pilhangko_plan_resource *r, size_t count, uint64_t pass) {
    wide bytes = 0;
    for (size_t i = 0; i < count; i++) bytes += r[i].first_pass <= pass && pass <= r[i].last_pass ? r[i].size : 0;
    return bytes;
}

static wide peak_of(const pilhangko_plan_resource *r, size_t count) {
    wide peak = 0;
    for (size_t i = 0; i < count; i++) {
        wide bytes = bytes_alive(r, count, r[i].first_pass);
        if (bytes > peak) peak = bytes;
    }
    return peak;
}

/* What an order compares: the greatest first. */
struct key {
    wide parts[3];
};

/* of the resource's passes the one with the most bytes; the first of equal ones */
static struct key breadth_key(const pilhangko_plan_resource *r, size_t count, size_t i) {
    wide most = 0, before = 0;
    uint64_t at = 0;
    for (size_t k = 0; k < count; k++) { /* bytes grow only where a life begins */
        uint64_t pass = r[k].first_pass > r[i].first_pass ? r[k].first_pass : r[i].first_pass;
        if (pass > r[i].last_pass) continue;
        wide bytes = bytes_alive(r, count, pass);
        if (bytes > most || (bytes == most && pass < at)) most = bytes, at = pass;
    }
    before = UINT64_MAX - at;
    return (struct key){{most, before, r[i].size}};
}

static struct key key_of(const pilhangko_plan_resource *r, size_t count, pilhangko_plan_order order, size_t i) {
    wide passes = (wide)(r[i].last_pass - r[i].first_pass) + 1;
    unsigned log2 = 63;
    while (!(r[i].size >> log2)) log2--;
    switch (order) {
    case PILHANGKO_PLAN_ORDER_SIZE: return (struct key){{r[i].size, 0, 0}};
    case PILHANGKO_PLAN_ORDER_AREA: return (struct key){{r[i].size * passes, 0, 0}};
    case PILHANGKO_PLAN_ORDER_ALIGNMENT: return (struct key){{r[i].alignment, r[i].size, 0}};
    case PILHANGKO_PLAN_ORDER_MAGNITUDE: return (struct key){{log2, passes, r[i].size}};
    case PILHANGKO_PLAN_ORDER_BREADTH: return breadth_key(r, count, i);
    }
    abort();
}

static bool goes_before(const struct key *a, const struct key *b) {
    for (unsigned part = 0; part < 3; part++)
        if (a->parts[part] != b->parts[part]) return a->parts[part] > b->parts[part];
    return false;
}

static void indices_in(const pilhangko_plan_resource *r, size_t count, pilhangko_plan_order order, size_t *indices) {
    static struct key keys[MOST_RESOURCES];
    for (size_t i = 0; i < count; i++) keys[i] = key_of(r, count, order, i);
    for (size_t i = 0; i < count; i++) {
        size_t at = i;
        for (; at > 0 && goes_before(&keys[i], &keys[indices[at - 1]]); at--) indices[at] = indices[at - 1];
        indices[at] = i;
    }
}

/* whether the resource may lie at o beside the first placed ones */
static bool is_free(const pilhangko_plan_resource *r, const size_t *placed, size_t many, const uint64_t *offsets, size_t i, wide o, uint64_t page) {
    for (size_t k = 0; k < many; k++)
        if (alive_together(&r[i], &r[placed[k]]) && !lie_apart(&r[i], o, &r[placed[k]], offsets[placed[k]], page)) return false;
    return true;
}

/* The least offset is 0, or the first multiple behind a placed resource or behind its last page. */
static wide least_offset(const pilhangko_plan_resource *r, const size_t *placed, size_t many, const uint64_t *offsets, size_t i, uint64_t page) {
    wide least = 0;
    bool found = is_free(r, placed, many, offsets, i, 0, page);
    for (size_t k = 0; k < many && !(found && least == 0); k++) {
        wide end = (wide)offsets[placed[k]] + r[placed[k]].size;
        wide tries[2] = {rounded_up(end, r[i].alignment), rounded_up(rounded_up(end, page), r[i].alignment)};
        for (unsigned t = 0; t < 2; t++) {
            if ((found && tries[t] >= least) || !is_free(r, placed, many, offsets, i, tries[t], page)) continue;
            found = true;
            least = tries[t];
        }
    }
    return least;
}

static void plan_in(const pilhangko_plan_resource *r, size_t count, uint64_t page, pilhangko_plan_order order, struct planned *plan) {
    static size_t indices[MOST_RESOURCES];
    indices_in(r, count, order, indices);
    *plan = (struct planned){.fits = true};
    for (size_t k = 0; k < count; k++) {
        wide o = least_offset(r, indices, k, plan->offsets, indices[k], page), end = o + r[indices[k]].size;
        if (end > UINT64_MAX) {
            plan->fits = false;
            return;
        }
        plan->offsets[indices[k]] = (uint64_t)o;
        if (end > plan->heap_size) plan->heap_size = (uint64_t)end;
    }
}

/* The order that is chosen, and its plan; 0 where no order's heap fits. */
static unsigned best_plan(const pilhangko_plan_resource *r, size_t count, uint64_t page, struct planned *best) {
    static struct planned next;
    unsigned chosen = 0;
    for (unsigned order = 1; order <= 5; order++) {
        plan_in(r, count, page, order, &next);
        if (!next.fits || (chosen && best->heap_size <= next.heap_size)) continue;
        chosen = order;
        *best = next;
    }
    return chosen;
}

/* The resources whose life ended before this one's begins, and which share a byte with it. */
static inline size_t reused_by(const pilhangko_plan_resource *r, size_t count, const uint64_t *offsets, size_t i, size_t *found) {
    size_t many = 0;
    for (size_t k = 0; k < count; k++)
        if (r[k].last_pass < r[i].first_pass && (wide)offsets[k] < (wide)offsets[i] + r[i].size && (wide)offsets[i] < (wide)offsets[k] + r[k].size)
            found[many++] = k;
    return many;
}
#endif
