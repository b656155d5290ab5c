/* A plain account of one block: a row of pieces and gaps, searched from the front on. It knows nothing of the library but the rules:
 * a piece lies at the least place of the shortest gap that it fits in, of equal gaps in the first; pieces of different kinds share no
 * page; a piece that leaves a rest has a new number, one that fills its gap the gap's; a piece that is freed leaves its number to
 * the gap, unless a gap before it has one. */
#ifndef ACCOUNT_H
#define ACCOUNT_H
#include "test.h"

#define ACCOUNT_CHUNKS 1024

struct chunk {
    uint64_t start, offset, end, number;
    uint32_t kind; /* 0: a gap */
    const char *name;
    uint64_t word;
};

struct account {
    uint64_t size, page, next_number;
    size_t count;
    struct chunk chunks[ACCOUNT_CHUNKS];
};

static inline void account_begin(struct account *a, uint64_t size, uint64_t page) {
    a->size = size;
    a->page = page;
    a->next_number = 2;
    a->count = 1;
    a->chunks[0] = (struct chunk){0, 0, size, 1, 0, "", 0};
}

/* wide enough for each sum of sizes and alignments */
__extension__ typedef unsigned __int128 wide;

static inline wide rounded_up(wide n, uint64_t alignment) {
    return (n + alignment - 1) / alignment * alignment;
}

/* Whether the request fits in the gap at that index, and where. */
static inline bool account_fits(const struct account *a, size_t at, uint64_t size, uint64_t alignment, uint32_t kind, uint64_t *offset) {
    const struct chunk *gap = &a->chunks[at];
    wide place = rounded_up(gap->start, alignment);
    if (at > 0 && a->chunks[at - 1].kind != kind && place / a->page == (gap->start - 1) / a->page)
        place = rounded_up(((wide)(gap->start - 1) / a->page + 1) * a->page, alignment);
    if (place + size > gap->end) return false;
    if (at + 1 < a->count && a->chunks[at + 1].kind != kind && (place + size - 1) / a->page == gap->end / a->page) return false;
    *offset = (uint64_t)place;
    return true;
}

static inline bool account_allocate(
    struct account *a, uint64_t size, uint64_t alignment, uint32_t kind, const char *name, uint64_t *offset, uint64_t *number) {
    size_t best = a->count;
    uint64_t best_offset = 0, place;
    for (size_t i = 0; i < a->count; i++) {
        const struct chunk *c = &a->chunks[i];
        if (c->kind || !account_fits(a, i, size, alignment, kind, &place)) continue;
        if (best < a->count && a->chunks[best].end - a->chunks[best].start <= c->end - c->start) continue;
        best = i;
        best_offset = place;
    }
    if (best == a->count) return false;
    struct chunk gap = a->chunks[best];
    struct chunk piece = {gap.start, best_offset, best_offset + size, gap.number, kind, name ? name : "", 0};
    if (piece.end < gap.end) {
        CHECK(a->count < ACCOUNT_CHUNKS);
        piece.number = a->next_number++;
        memmove(&a->chunks[best + 1], &a->chunks[best], (a->count - best) * sizeof a->chunks[0]);
        a->count++;
        a->chunks[best + 1].start = a->chunks[best + 1].offset = piece.end;
    }
    a->chunks[best] = piece;
    *offset = piece.offset;
    *number = piece.number;
    return true;
}

/* The index of a live piece, or the count where there is none. */
static inline size_t account_find(const struct account *a, uint64_t offset, uint64_t number) {
    for (size_t i = 0; i < a->count; i++)
        if (a->chunks[i].kind && a->chunks[i].number == number && a->chunks[i].offset == offset) return i;
    return a->count;
}

static inline void account_drop(struct account *a, size_t at) {
    memmove(&a->chunks[at], &a->chunks[at + 1], (a->count - at - 1) * sizeof a->chunks[0]);
    a->count--;
}

static inline void account_free(struct account *a, size_t at) {
    a->chunks[at].kind = 0;
    a->chunks[at].offset = a->chunks[at].start;
    if (at + 1 < a->count && !a->chunks[at + 1].kind) {
        a->chunks[at].end = a->chunks[at + 1].end;
        account_drop(a, at + 1);
    }
    if (at > 0 && !a->chunks[at - 1].kind) {
        a->chunks[at - 1].end = a->chunks[at].end;
        account_drop(a, at);
    }
}

static inline uint64_t account_pieces(const struct account *a) {
    uint64_t pieces = 0;
    for (size_t i = 0; i < a->count; i++) pieces += a->chunks[i].kind != 0;
    return pieces;
}

/* What is counted of the block, and each piece by a visit, are the account's. */
static inline void account_same(const struct account *a, const pilhangko_virtual_statistics *s) {
    uint64_t bytes = 0, longest = 0;
    size_t pieces = 0, gaps = 0;
    for (size_t i = 0; i < a->count; i++) {
        uint64_t length = a->chunks[i].end - a->chunks[i].start;
        if (a->chunks[i].kind) {
            pieces++;
            bytes += length;
        } else {
            gaps++;
            longest = length > longest ? length : longest;
        }
    }
    CHECK(s->size == a->size && s->pieces == pieces && s->piece_bytes == bytes && s->gaps == gaps && s->longest_gap == longest);
}

/* The view of the first piece from a place on is the account's. */
static inline void account_shows(const struct account *a, uint64_t from, const pilhangko_piece_view *view) {
    for (size_t i = 0; i < a->count; i++) {
        const struct chunk *c = &a->chunks[i];
        if (!c->kind || c->offset < from) continue;
        CHECK(view->exists && view->number == c->number && view->start == c->start && view->offset == c->offset && view->end == c->end &&
              view->kind == c->kind && view->word == c->word);
        return;
    }
    CHECK(!view->exists && view->number == 0 && view->start == 0 && view->offset == 0 && view->end == 0 && view->kind == 0 && view->word == 0);
}

/* The views of all pieces from a place on, in an array with that much room, are the account's; each view's number was UINT64_MAX. */
static inline void account_shows_all(const struct account *a, uint64_t from, const pilhangko_piece_view *views, size_t room, size_t count) {
    size_t shown = 0;
    for (size_t i = 0; i < a->count && shown < room; i++)
        if (a->chunks[i].kind && a->chunks[i].offset >= from) account_shows(a, a->chunks[i].offset, &views[shown++]);
    CHECK(count == shown);
    for (size_t i = shown; i < room; i++) CHECK(views[i].number == UINT64_MAX);
}

/* The name of the first piece from a place on, copied into `room` bytes, is the account's; `bytes` was filled with '?'. */
static inline void account_names(const struct account *a, uint64_t from, const char *bytes, size_t room, size_t length) {
    const char *name = "";
    for (size_t i = 0; i < a->count; i++) {
        if (!a->chunks[i].kind || a->chunks[i].offset < from) continue;
        name = a->chunks[i].name;
        break;
    }
    size_t copied = strlen(name) < room ? strlen(name) : room;
    CHECK(length == strlen(name) && memcmp(bytes, name, copied) == 0);
    for (size_t i = copied; i < room; i++) CHECK(bytes[i] == '?');
}

/* The names of all pieces from a place on, as many as there are lengths for and as far as there is room, are the account's; the lengths
 * were SIZE_MAX, and the bytes '?'. */
static inline void account_names_all(
    const struct account *a, uint64_t from, const size_t *lengths, size_t room, const char *bytes, size_t bytes_room, size_t count) {
    size_t shown = 0, filled = 0;
    for (size_t i = 0; i < a->count && shown < room; i++) {
        if (!a->chunks[i].kind || a->chunks[i].offset < from) continue;
        size_t length = strlen(a->chunks[i].name), copied = length < bytes_room - filled ? length : bytes_room - filled;
        CHECK(lengths[shown++] == length && memcmp(bytes + filled, a->chunks[i].name, copied) == 0);
        filled += copied;
    }
    CHECK(count == shown);
    for (size_t i = shown; i < room; i++) CHECK(lengths[i] == SIZE_MAX);
    for (size_t i = filled; i < bytes_room; i++) CHECK(bytes[i] == '?');
}
#endif
