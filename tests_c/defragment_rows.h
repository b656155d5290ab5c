/* Moves that stay open over frames, by any binding over its fake device: rows, each status, each request for host memory refused in turn. All blocks
 * have 4 MB. Of several blocks with a place the one in the highest slot serves, and in it the first of equal gaps. A test says before how its
 * binding's names begin, and what a request asks for (NAMED and BYTES_OF, as in c/pilhangko_moves.h), and has
 *   binds            a binding over a device as it begins; another_binding over the same device
 *   request_for      a request for so many bytes, aligned to 64, without a name
 *   asks             for an allocation
 *   word_of          the caller's word of an allocation, which a visit shows too
 *   block_count      of the device, piece_count of a binding
 *   ends             destroys a binding: nothing is left */
#ifndef DEFRAGMENT_ROWS_H
#define DEFRAGMENT_ROWS_H

#define OK ((pilhangko_status)PILHANGKO_OK)
#define PIECES 16
#define SMALL 64 /* pieces that fill a block */

static NAMED(_movable) allocates(NAMED() *binding, uint64_t size, uint64_t word) {
    NAMED(_movable) made;
    made.request = request_for(size);
    made.request.name = "a name that takes host memory of its own";
    made.request.user_data = word;
    IS(asks(binding, &made.request, &made.allocation), OK);
    return made;
}

static void frees(NAMED() *binding, const NAMED(_allocation) *allocation) {
    IS(NAMED(_free)(binding, allocation), OK);
}

static bool lives(const NAMED() *binding, const NAMED(_allocation) *allocation) {
    bool live = false;
    IS(NAMED(_is_live)(binding, allocation, &live), OK);
    return live;
}

/* Four blocks of 4 MB that were full of pieces of 1 MB: 0 and 1 are left in slot 0, 4 to 6 in slot 1, 8 to 10 in slot 2, 12 and 13 in slot 3. */
struct scene {
    NAMED() binding;
    NAMED(_defragmentation) it;
    NAMED(_movable) pieces[PIECES];
    NAMED(_movable) table[PIECES]; /* those that live, the last first */
    size_t count;
    NAMED(_move) moves[PIECES];
    size_t proposed;
};

static const bool is_left[PIECES] = {1, 1, 0, 0, 1, 1, 1, 0, 1, 1, 1, 0, 1, 1, 0, 0};

static void fills_table(struct scene *s) {
    s->count = 0;
    for (unsigned i = PIECES; i-- > 0;)
        if (is_left[i]) s->table[s->count++] = s->pieces[i];
}

static struct scene begins(void) {
    struct scene s;
    memset(&s, 0, sizeof s);
    s.binding = binds();
    for (unsigned i = 0; i < PIECES; i++) {
        s.pieces[i] = allocates(&s.binding, MB, 100 + i);
        CHECK(s.pieces[i].allocation.piece.piece.slot == i / 4 && s.pieces[i].allocation.offset == i % 4 * MB);
        s.pieces[i].request.user_data = 7; /* a move keeps the first place's word */
        if (i % 2) IS(NAMED(_set_user_data)(&s.binding, &s.pieces[i].allocation, 200 + i), OK);
    }
    for (unsigned i = 0; i < PIECES; i++)
        if (!is_left[i]) frees(&s.binding, &s.pieces[i].allocation);
    fills_table(&s);
    return s;
}

static void ends_scene(struct scene *s) {
    IS(NAMED(_defragmentation_end)(&s->binding, &s->it), OK);
    CHECK(s->it.open == 0 && !s->it.open_moves);
    for (unsigned i = 0; i < PIECES; i++)
        if (is_left[i]) frees(&s->binding, &s->pieces[i].allocation);
    ends(&s->binding);
}

/* A frame that proposes so many moves; then so many are open. */
static void proposes(struct scene *s, uint64_t bytes, size_t room, size_t proposed, size_t open, bool done) {
    const uint64_t questions = fake.questions;
    IS(NAMED(_defragmentation_propose)(&s->binding, &s->it, s->table, s->count, bytes, s->moves, room, &s->proposed), OK);
    CHECK(s->proposed == proposed && s->it.open == open && s->it.done == done && fake.questions == questions);
}

/* A move of the last frame is of this piece, to that place. */
static NAMED(_allocation) is_move(const struct scene *s, size_t at, unsigned piece, size_t slot, uint64_t offset) {
    const NAMED(_move) *move = &s->moves[at];
    CHECK(s->table[move->index].allocation.serial == s->pieces[piece].allocation.serial);
    CHECK(move->to.piece.piece.slot == slot && move->to.offset == offset && move->to.size == MB);
    CHECK(word_of(&s->binding, &move->to) == (piece % 2 ? 200 : 100) + piece && lives(&s->binding, &s->pieces[piece].allocation));
    return move->to;
}

/* A finished move: the piece is the second place from now on. */
static void finishes(struct scene *s, unsigned piece, const NAMED(_allocation) *to) {
    const size_t open = s->it.open;
    const long requests = heap_requests;
    IS(NAMED(_defragmentation_finish)(&s->binding, &s->it, to), OK);
    CHECK(heap_requests == requests && s->it.open == open - 1);
    CHECK(!lives(&s->binding, &s->pieces[piece].allocation) && lives(&s->binding, to));
    s->pieces[piece].allocation = *to;
    fills_table(s);
}

static void counts(const struct scene *s, uint64_t moves, uint64_t bytes, uint64_t blocks, uint64_t given_back) {
    CHECK(s->it.moves_finished == moves && s->it.bytes_moved == bytes && s->it.blocks_given_back == blocks);
    CHECK(s->it.bytes_given_back == given_back && block_count() == 4 - blocks);
}

/* Moves of two frames are open at once; they end in another order than they began. */
static void over_frames(void) {
    struct scene s = begins();
    proposes(&s, MB + MB / 2, PIECES, 1, 1, false); /* bytes for one */
    const NAMED(_allocation) first = is_move(&s, 0, 1, 3, 2 * MB); /* of slot 0 the first of the table */
    proposes(&s, 8 * MB, 2, 2, 3, false);                                   /* room for two; the one that is open isn't proposed again */
    const NAMED(_allocation) second = is_move(&s, 0, 0, 3, 3 * MB), third = is_move(&s, 1, 6, 2, 3 * MB);
    proposes(&s, 8 * MB, PIECES, 0, 3, false); /* all above is full, but not done: three are open */
    finishes(&s, 6, &third);
    counts(&s, 1, MB, 0, 0);
    IS(NAMED(_defragmentation_finish)(&s.binding, &s.it, &third), PILHANGKO_NOT_LIVE); /* twice */
    IS(NAMED(_defragmentation_abandon)(&s.binding, &s.it, &third), PILHANGKO_NOT_LIVE);
    CHECK(lives(&s.binding, &third));
    const long requests = heap_requests;
    IS(NAMED(_defragmentation_abandon)(&s.binding, &s.it, &first), OK);
    CHECK(heap_requests == requests && !lives(&s.binding, &first) && lives(&s.binding, &s.pieces[1].allocation) && s.it.open == 1);
    IS(NAMED(_defragmentation_finish)(&s.binding, &s.it, &first), PILHANGKO_NOT_LIVE);
    finishes(&s, 0, &second);
    counts(&s, 2, 2 * MB, 0, 0);
    proposes(&s, 8 * MB, PIECES, 1, 1, false); /* what was abandoned is proposed anew */
    const NAMED(_allocation) again = is_move(&s, 0, 1, 3, 2 * MB);
    finishes(&s, 1, &again);
    counts(&s, 3, 3 * MB, 1, 4 * MB); /* slot 0 is empty */
    proposes(&s, 8 * MB, PIECES, 0, 0, true);
    frees(&s.binding, &s.pieces[12].allocation);
    s.pieces[12] = allocates(&s.binding, MB / 2, 0); /* at the same place, and half of it is left */
    fills_table(&s);
    proposes(&s, 8 * MB, PIECES, 0, 0, true);
    frees(&s.binding, &s.pieces[13].allocation);
    s.pieces[13] = allocates(&s.binding, MB / 2, 0);
    fills_table(&s);
    proposes(&s, 8 * MB, PIECES, 1, 1, false); /* there is a gap once more */
    ends_scene(&s);
}

/* Bounds below the smallest piece and without room, and a table of nothing; places of open moves are passed over. */
static void by_bounds(void) {
    struct scene s = begins();
    proposes(&s, MB - 1, PIECES, 0, 0, true);
    proposes(&s, 8 * MB, 0, 0, 0, true);
    CHECK(!s.it.open_moves); /* without open moves it holds nothing */
    IS(NAMED(_defragmentation_propose)(&s.binding, &s.it, NULL, 0, 8 * MB, NULL, 0, &s.proposed), OK);
    CHECK(s.proposed == 0);
    s.count = 9; /* all but piece 0, which stays */
    proposes(&s, 3 * MB, PIECES, 3, 3, false);
    (void)is_move(&s, 0, 1, 3, 2 * MB);
    (void)is_move(&s, 1, 6, 3, 3 * MB);
    const NAMED(_allocation) second = is_move(&s, 2, 5, 2, 3 * MB);
    frees(&s.binding, &s.pieces[13].allocation); /* both places could move there */
    s.table[0] = s.pieces[5];
    s.table[1] = s.pieces[5];
    s.table[1].allocation = second;
    s.count = 2;
    proposes(&s, 8 * MB, PIECES, 0, 3, false);
    s.table[1] = s.pieces[4];
    proposes(&s, 8 * MB, PIECES, 1, 4, false);
    (void)is_move(&s, 0, 4, 3, MB);
    IS(NAMED(_defragmentation_end)(&s.binding, &s.it), OK);
    s.pieces[13] = allocates(&s.binding, MB, 0);
    ends_scene(&s);
}

/* Whoever frees a place of an open move has ended it; then it is told. */
static void by_frees(void) {
    struct scene s = begins();
    proposes(&s, 8 * MB, PIECES, 3, 3, false);
    const NAMED(_allocation) a = is_move(&s, 0, 1, 3, 2 * MB), b = is_move(&s, 1, 0, 3, 3 * MB), c = is_move(&s, 2, 6, 2, 3 * MB);
    frees(&s.binding, &s.pieces[1].allocation);
    IS(NAMED(_defragmentation_finish)(&s.binding, &s.it, &a), OK);
    CHECK(lives(&s.binding, &a));
    s.pieces[1].allocation = a;
    frees(&s.binding, &b);
    IS(NAMED(_defragmentation_finish)(&s.binding, &s.it, &b), PILHANGKO_NOT_LIVE); /* or no place would be left */
    CHECK(lives(&s.binding, &s.pieces[0].allocation) && s.it.open == 2);
    IS(NAMED(_defragmentation_abandon)(&s.binding, &s.it, &b), OK);
    CHECK(lives(&s.binding, &s.pieces[0].allocation) && s.it.open == 1);
    frees(&s.binding, &s.pieces[6].allocation);
    counts(&s, 1, MB, 0, 0);
    IS(NAMED(_defragmentation_end)(&s.binding, &s.it), OK);
    CHECK(lives(&s.binding, &c)); /* the only place that is left */
    counts(&s, 2, 2 * MB, 0, 0);
    s.pieces[6].allocation = c;
    ends_scene(&s);
}

static void statuses(void) {
    struct scene s = begins();
    NAMED() empty = {0}, other = another_binding(), *binding = &s.binding;
    NAMED(_defragmentation) another = {0};
    NAMED(_allocation) alone;
    bool moves = false;
    proposes(&s, MB, PIECES, 1, 1, false);
    const NAMED(_move) open = s.moves[0];
    IS(NAMED(_propose_move)(binding, &s.pieces[0].allocation, &s.pieces[0].request, &moves, &alone), OK);
    s.proposed = 99;
    IS(NAMED(_defragmentation_propose)(NULL, &s.it, s.table, s.count, MB, s.moves, 1, &s.proposed), PILHANGKO_NULL_POINTER);
    IS(NAMED(_defragmentation_propose)(binding, NULL, s.table, s.count, MB, s.moves, 1, &s.proposed), PILHANGKO_NULL_POINTER);
    IS(NAMED(_defragmentation_propose)(binding, &s.it, NULL, s.count, MB, s.moves, 1, &s.proposed), PILHANGKO_NULL_POINTER);
    IS(NAMED(_defragmentation_propose)(binding, &s.it, s.table, s.count, MB, NULL, 1, &s.proposed), PILHANGKO_NULL_POINTER);
    IS(NAMED(_defragmentation_propose)(binding, &s.it, s.table, s.count, MB, s.moves, 1, NULL), PILHANGKO_NULL_POINTER);
    IS(NAMED(_defragmentation_propose)(&empty, &s.it, s.table, s.count, MB, s.moves, 1, &s.proposed), PILHANGKO_NO_HANDLE);
    IS(NAMED(_defragmentation_propose)(&other, &s.it, NULL, 0, MB, s.moves, 1, &s.proposed), PILHANGKO_NOT_LIVE);
    IS(NAMED(_defragmentation_propose)(&other, &another, s.table, s.count, MB, s.moves, 1, &s.proposed), PILHANGKO_NOT_LIVE);
    pilhangko_status (*const ends_one[])(NAMED() *, NAMED(_defragmentation) *, const NAMED(_allocation) *) = {
        NAMED(_defragmentation_finish), NAMED(_defragmentation_abandon)};
    for (unsigned i = 0; i < 2; i++) {
        IS(ends_one[i](NULL, &s.it, &open.to), PILHANGKO_NULL_POINTER);
        IS(ends_one[i](binding, NULL, &open.to), PILHANGKO_NULL_POINTER);
        IS(ends_one[i](binding, &s.it, NULL), PILHANGKO_NULL_POINTER);
        IS(ends_one[i](&empty, &s.it, &open.to), PILHANGKO_NO_HANDLE);
        IS(ends_one[i](&other, &s.it, &open.to), PILHANGKO_NOT_LIVE);
        IS(ends_one[i](binding, &another, &open.to), PILHANGKO_NOT_LIVE);                /* not its own */
        IS(ends_one[i](binding, &s.it, &alone), PILHANGKO_NOT_LIVE);                     /* a second place of nobody's */
        IS(ends_one[i](binding, &s.it, &s.pieces[1].allocation), PILHANGKO_NOT_LIVE);    /* a first place */
    }
    IS(NAMED(_defragmentation_end)(NULL, &s.it), PILHANGKO_NULL_POINTER);
    IS(NAMED(_defragmentation_end)(binding, NULL), PILHANGKO_NULL_POINTER);
    IS(NAMED(_defragmentation_end)(&empty, &s.it), PILHANGKO_NO_HANDLE);
    IS(NAMED(_defragmentation_end)(&other, &s.it), PILHANGKO_NOT_LIVE);
    IS(NAMED(_defragmentation_end)(binding, &another), OK);
    CHECK(s.it.open == 1 && another.open == 0 && s.proposed == 99 && lives(binding, &open.to) && lives(binding, &s.pieces[1].allocation));
    frees(binding, &alone);
    IS(NAMED(_destroy)(&other, NULL), OK);
    ends_scene(&s);
}

/* A request in the middle of the table is no piece's: the moves of this frame are abandoned, and the one of an earlier frame stays open. */
static void a_frame_is_refused(void) {
    struct scene s = begins();
    proposes(&s, MB, PIECES, 1, 1, false);
    const NAMED(_allocation) first = is_move(&s, 0, 1, 3, 2 * MB);
    BYTES_OF(&s.table[5].request) = MB - 1; /* piece 6 */
    s.proposed = 99;
    IS(NAMED(_defragmentation_propose)(&s.binding, &s.it, s.table, s.count, 8 * MB, s.moves, PIECES, &s.proposed), PILHANGKO_INVALID);
    CHECK(s.proposed == 99 && s.it.open == 1 && lives(&s.binding, &first));
    fills_table(&s);
    proposes(&s, 8 * MB, PIECES, 2, 3, false);
    (void)is_move(&s, 0, 0, 3, 3 * MB);
    (void)is_move(&s, 1, 6, 2, 3 * MB);
    ends_scene(&s);
}

/* ---- lack of host memory */

/* The frame once more, where one of its requests was refused: nothing has changed. Says whether it was. */
static bool tried(NAMED() *binding, NAMED(_defragmentation) *it, const NAMED(_movable) *table,
    NAMED(_move) *moves, size_t *proposed) {
    const size_t open = it->open;
    const bool done = it->done;
    const pilhangko_status status = NAMED(_defragmentation_propose)(binding, it, table, SMALL, 4 * MB, moves, 7, proposed);
    if (status == PILHANGKO_OK) return false;
    IS(status, PILHANGKO_HOST_OUT_OF_MEMORY);
    CHECK(heap_refused > 0 && heap_requests >= heap_refused && it->open == open && it->done == done && *proposed == 99);
    CHECK((open == 0) == !it->open_moves);
    heap_refused = 0;
    CHECK(piece_count(binding) == 24 + SMALL + open);
    IS(NAMED(_defragmentation_propose)(binding, it, table, SMALL, 4 * MB, moves, 7, proposed), OK);
    return true;
}

/* A full block's moves into one with 40 places, seven a frame; half of them are finished, the last first. Whether the nth request for host memory
 * was refused. */
static bool moves_forty(long nth) {
    NAMED() binding = binds();
    NAMED(_defragmentation) it = {0};
    NAMED(_movable) table[SMALL], above[SMALL];
    NAMED(_allocation) to[SMALL];
    NAMED(_move) moves[7];
    size_t proposed, all = 0;
    bool was_refused = false;
    for (unsigned i = 0; i < SMALL; i++) table[i] = allocates(&binding, 4 * MB / SMALL, 0);
    for (unsigned i = 0; i < SMALL; i++) above[i] = allocates(&binding, 4 * MB / SMALL, 0);
    for (unsigned i = 24; i < SMALL; i++) frees(&binding, &above[i].allocation);
    heap_requests = 0;
    heap_refused = nth;
    do {
        proposed = 99;
        was_refused |= tried(&binding, &it, table, moves, &proposed);
        for (size_t i = 0; i < proposed; i++) {
            CHECK(moves[i].index == all && moves[i].to.offset == (24 + all) * 4 * MB / SMALL);
            to[all++] = moves[i].to;
        }
    } while (proposed > 0);
    CHECK(all == 40 && it.open == 40 && !it.done);
    const long requests = heap_requests; /* no later call needs any */
    while (all-- > 20) {
        IS(NAMED(_defragmentation_finish)(&binding, &it, &to[all]), OK);
        table[all].allocation = to[all];
    }
    IS(NAMED(_defragmentation_end)(&binding, &it), OK);
    CHECK(it.open == 0 && it.moves_finished == 20 && it.bytes_moved == 20 * 4 * MB / SMALL && heap_requests == requests);
    heap_refused = 0;
    for (unsigned i = 0; i < SMALL; i++) frees(&binding, &table[i].allocation);
    for (unsigned i = 0; i < 24; i++) frees(&binding, &above[i].allocation);
    ends(&binding);
    return was_refused;
}

static void each_request_for_host_memory_refused(void) {
    long n = 1;
    while (moves_forty(n)) n++;
    CHECK(n > 40); /* the frames' own, the list's as it grows, and the library's for 40 pieces */
}

static void rows(void) {
    over_frames();
    by_bounds();
    by_frees();
    statuses();
    a_frame_is_refused();
    each_request_for_host_memory_refused();
}
#endif
