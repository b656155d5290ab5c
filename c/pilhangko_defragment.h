/* Moves that stay open over frames, over any API: what a binding's file compiles once it has included pilhangko_moves.h, and said which allocations
 * may move at all:
 *   #define MAY_MOVE(allocation) ((void)(allocation), true)
 * Not for its users. */
#include <stdlib.h>

/* ---- what is open ---- */

struct NAMED(_open_move) {
    NAMED(_allocation) from, to;
};

/* What no two allocations have alike. */
struct name {
    uint64_t owner, serial;
};

static struct name name_of(const NAMED(_allocation) *allocation) {
    struct name name;
    name.owner = allocation->owner;
    name.serial = allocation->serial;
    return name;
}

static int compare_names(const void *left, const void *right) {
    const struct name *a = (const struct name *)left, *b = (const struct name *)right;
    if (a->owner != b->owner) return a->owner < b->owner ? -1 : 1;
    return (a->serial > b->serial) - (a->serial < b->serial);
}

/* The index of the open move with a second place; it->open where there is none. */
static size_t find_open(const NAMED(_defragmentation) *it, const NAMED(_allocation) *to) {
    const struct name wanted = name_of(to);
    size_t at = 0;
    for (; at < it->open; at++) {
        const struct name name = name_of(&it->open_moves[at].to);
        if (compare_names(&name, &wanted) == 0) break;
    }
    return at;
}

/* Without open moves there is no list of them. */
static void drop_empty_list(NAMED(_defragmentation) *it) {
    if (it->open > 0) return;
    free(it->open_moves);
    it->open_moves = NULL;
    it->room = 0;
    it->binding = NULL;
}

/* Whether there is room for one more. */
static bool has_room(NAMED(_defragmentation) *it) {
    const size_t room = it->room ? 2 * it->room : 16;
    struct NAMED(_open_move) *moves;
    if (it->open < it->room) return true;
    moves = (struct NAMED(_open_move) *)realloc(it->open_moves, room * sizeof *moves);
    if (!moves) return false;
    it->open_moves = moves;
    it->room = room;
    return true;
}

static void forget(NAMED(_defragmentation) *it, size_t at) {
    it->open_moves[at] = it->open_moves[--it->open];
    drop_empty_list(it);
}

static bool is_live(const NAMED() *binding, const NAMED(_allocation) *allocation) {
    bool live = false;
    return NAMED(_is_live)(binding, allocation, &live) == PILHANGKO_OK && live;
}

/* ---- a frame ---- */

/* An allocation of the table that may move. */
struct candidate {
    size_t slot, index;
};

static int compare_candidates(const void *left, const void *right) {
    const struct candidate *a = (const struct candidate *)left, *b = (const struct candidate *)right;
    if (a->slot != b->slot) return a->slot < b->slot ? -1 : 1;
    return (a->index > b->index) - (a->index < b->index);
}

/* The names of all places of open moves, ordered; NULL where the host has no memory. */
static struct name *open_names(const NAMED(_defragmentation) *it) {
    struct name *names = (struct name *)malloc((2 * it->open + 1) * sizeof *names);
    if (!names) return NULL;
    for (size_t i = 0; i < it->open; i++) {
        names[2 * i] = name_of(&it->open_moves[i].from);
        names[2 * i + 1] = name_of(&it->open_moves[i].to);
    }
    qsort(names, 2 * it->open, sizeof *names, compare_names);
    return names;
}

/* The allocations that may move and are no place of an open move, those in the lowest slot first; returns how many. */
static size_t gather(const NAMED(_defragmentation) *it, const struct name *names, const NAMED(_movable) *movables,
    size_t count, struct candidate *candidates) {
    size_t found = 0;
    for (size_t i = 0; i < count; i++) {
        const struct name name = name_of(&movables[i].allocation);
        if (!MAY_MOVE(&movables[i].allocation) || bsearch(&name, names, 2 * it->open, sizeof name, compare_names)) continue;
        candidates[found].slot = movables[i].allocation.piece.piece.slot;
        candidates[found++].index = i;
    }
    qsort(candidates, found, sizeof *candidates, compare_candidates);
    return found;
}

/* Proposes a move within the bytes that are left, and opens it. */
static pilhangko_status propose_one(NAMED() *binding, NAMED(_defragmentation) *it, const NAMED(_movable) *movable,
    uint64_t *bytes, bool *moves) {
    struct NAMED(_open_move) *move;
    pilhangko_status status;
    if (!has_room(it)) return PILHANGKO_HOST_OUT_OF_MEMORY;
    move = &it->open_moves[it->open];
    status = propose_within(binding, movable, bytes, moves, &move->to);
    if (status != PILHANGKO_OK || !*moves) return status;
    move->from = movable->allocation;
    it->open++;
    return PILHANGKO_OK;
}

/* Proposes moves of the candidates. */
static pilhangko_status propose_all(NAMED() *binding, NAMED(_defragmentation) *it, const NAMED(_movable) *movables,
    const struct candidate *candidates, size_t count, uint64_t bytes, NAMED(_move) *moves, size_t room) {
    size_t made = 0;
    for (size_t i = 0; i < count && made < room; i++) {
        bool has_place;
        const pilhangko_status status = propose_one(binding, it, &movables[candidates[i].index], &bytes, &has_place);
        if (status != PILHANGKO_OK) return status;
        if (!has_place) continue;
        moves[made].index = candidates[i].index;
        moves[made++].to = it->open_moves[it->open - 1].to;
    }
    return PILHANGKO_OK;
}

/* Abandons the open moves but the first so many. */
static void abandon_rest(NAMED() *binding, NAMED(_defragmentation) *it, size_t kept) {
    while (it->open > kept) {
        const pilhangko_status status = NAMED(_free)(binding, &it->open_moves[--it->open].to);
        (void)status; /* it is live, unless another thread freed it */
    }
}

/* ---- the calls ---- */

/* Whether a call may go on: its other pointers aren't NULL, and no moves of another binding are open. */
static pilhangko_status looks_right(const NAMED() *binding, const NAMED(_defragmentation) *it, bool has_pointers) {
    if (!binding || !it || !has_pointers) return PILHANGKO_NULL_POINTER;
    if (!binding->opaque) return PILHANGKO_NO_HANDLE;
    return it->open == 0 || it->binding == binding->opaque ? PILHANGKO_OK : PILHANGKO_NOT_LIVE;
}

pilhangko_status PILHANGKO_CALL NAMED(_defragmentation_propose)(NAMED() *binding, NAMED(_defragmentation) *it,
    const NAMED(_movable) *movables, size_t count, uint64_t bytes, NAMED(_move) *moves, size_t room, size_t *proposed) {
    struct name *names;
    struct candidate *candidates;
    size_t before;
    pilhangko_status status = looks_right(binding, it, (movables || !count) && (moves || !room) && proposed);
    if (status != PILHANGKO_OK) return status;
    before = it->open;
    names = open_names(it);
    candidates = names ? (struct candidate *)malloc((count + 1) * sizeof *candidates) : NULL;
    status = PILHANGKO_HOST_OUT_OF_MEMORY;
    if (candidates) {
        const size_t found = gather(it, names, movables, count, candidates);
        status = propose_all(binding, it, movables, candidates, found, bytes, moves, room);
    }
    free(candidates);
    free(names);
    if (status == PILHANGKO_OK) {
        *proposed = it->open - before;
        it->done = it->open == 0;
    } else {
        abandon_rest(binding, it, before);
    }
    it->binding = binding->opaque;
    drop_empty_list(it);
    return status;
}

pilhangko_status PILHANGKO_CALL NAMED(_defragmentation_finish)(
    NAMED() *binding, NAMED(_defragmentation) *it, const NAMED(_allocation) *to) {
    const pilhangko_status status = looks_right(binding, it, to != NULL);
    uint64_t bytes = 0;
    size_t at;
    if (status != PILHANGKO_OK) return status;
    at = find_open(it, to);
    if (at == it->open || !is_live(binding, &it->open_moves[at].to)) return PILHANGKO_NOT_LIVE;
    if (NAMED(_free_counted)(binding, &it->open_moves[at].from, &bytes) != PILHANGKO_OK) bytes = 0; /* the caller freed it */
    it->moves_finished++;
    it->bytes_moved += it->open_moves[at].to.size;
    it->blocks_given_back += bytes > 0;
    it->bytes_given_back += bytes;
    forget(it, at);
    return PILHANGKO_OK;
}

pilhangko_status PILHANGKO_CALL NAMED(_defragmentation_abandon)(
    NAMED() *binding, NAMED(_defragmentation) *it, const NAMED(_allocation) *to) {
    pilhangko_status status = looks_right(binding, it, to != NULL);
    size_t at;
    if (status != PILHANGKO_OK) return status;
    at = find_open(it, to);
    if (at == it->open) return PILHANGKO_NOT_LIVE;
    status = NAMED(_free)(binding, &it->open_moves[at].to);
    (void)status; /* or the caller freed it */
    forget(it, at);
    return PILHANGKO_OK;
}

pilhangko_status PILHANGKO_CALL NAMED(_defragmentation_end)(NAMED() *binding, NAMED(_defragmentation) *it) {
    pilhangko_status status = looks_right(binding, it, true);
    while (status == PILHANGKO_OK && it->open > 0) {
        const struct NAMED(_open_move) last = it->open_moves[it->open - 1];
        const bool is_finished = !is_live(binding, &last.from) && is_live(binding, &last.to);
        status = is_finished ? NAMED(_defragmentation_finish)(binding, it, &last.to)
                             : NAMED(_defragmentation_abandon)(binding, it, &last.to);
    }
    return status;
}
