/* Random moves that stay open over frames beside an account, by any binding. A test says before how its binding's names begin, and what a request asks
 * for (NAMED and BYTES_OF, as in c/pilhangko_moves.h), has its BINDING and the account's CAPACITY, its `live` allocations and the `stale` ones, and
 *   some_allocation   a live one or a stale one; live_at, the index of one, live_count where it isn't live
 *   reply_no_place    what is replied to a capture where one stays
 *   may_move          whether a live one may move at all
 *   kind_of           the kind of its piece
 *   request_again     the request that it was made by
 *   keeps_second      meets an allocation that the account placed, replies it and keeps it
 *   goes_by_account   what lies there is gone, and its piece is freed in the account */
#ifndef DEFRAGMENT_RANDOM_H
#define DEFRAGMENT_RANDOM_H

#define OPEN 40
#define FRAME 6

/* A move that is open until it is told that it isn't: either place may be freed before. */
struct open_move {
    NAMED(_allocation) from, to;
};

static NAMED(_defragmentation) defragmentation, counted; /* the binding's, and what the account counts */
static struct open_move open_moves[OPEN];
static unsigned finished, emptied, abandoned, not_open;

static void begins_moves(void) {
    memset(&defragmentation, 0, sizeof defragmentation);
    memset(&counted, 0, sizeof counted);
}

static bool is_place(const NAMED(_allocation) *a) {
    for (size_t i = 0; i < counted.open; i++)
        if (open_moves[i].from.serial == a->serial || open_moves[i].to.serial == a->serial) return true;
    return false;
}

static void is_counted(void) {
    CHECK(defragmentation.open == counted.open && defragmentation.moves_finished == counted.moves_finished);
    CHECK(defragmentation.bytes_moved == counted.bytes_moved && defragmentation.blocks_given_back == counted.blocks_given_back);
    CHECK(defragmentation.bytes_given_back == counted.bytes_given_back && !defragmentation.open_moves == !counted.open);
}

/* The moves of a frame by the account. */
struct frame {
    size_t count, indices[FRAME]; /* of the allocations that move */
    pilhangko_memory_piece places[FRAME];
    unsigned staying[FRAME + 1]; /* how many have no place before the first that moves, between two, and behind the last: a capture has these, too */
};

static void foretell_frame(struct frame *f, uint64_t bytes, size_t room) {
    memset(f, 0, sizeof *f);
    for (size_t slot = 0; slot < ACCOUNT_SLOTS; slot++)
        for (size_t i = 0; i < live_count && f->count < room; i++) {
            const NAMED(_allocation) *a = &live[i].allocation;
            const pilhangko_memory_request asks = {a->size, live[i].alignment, kind_of(&live[i]), false};
            if (!may_move(&live[i]) || a->piece.piece.slot != slot || a->size > bytes || is_place(a)) continue;
            if (!type_place(&account.types[a->piece.memory_type], slot + 1, &asks, "", &f->places[f->count])) {
                f->staying[f->count]++;
                continue;
            }
            bytes -= a->size;
            f->indices[f->count++] = i;
        }
}

static void opens(const struct live *of, const pilhangko_memory_piece *place, const NAMED(_allocation) *to) {
    struct live it = *of;
    it.allocation = *to;
    account.type = of->allocation.piece.memory_type;
    account.placed.piece = *place;
    account.placed.piece.block = account.types[account.type].slots[place->slot].block; /* by now it may have been told */
    open_moves[counted.open].from = of->allocation;
    open_moves[counted.open++].to = *to;
    keeps_second(&it);
}

static void proposes_frame(void) {
    static NAMED(_movable) movables[LIVE];
    const size_t left = LIVE - live_count < OPEN - counted.open ? LIVE - live_count : OPEN - counted.open;
    const size_t wanted = random_below(FRAME + 1), room = wanted < left ? wanted : left, count = live_count;
    const uint64_t bytes = random_below(2 * MB), first = fake.questions;
    NAMED(_move) moves[FRAME];
    struct frame f;
    size_t proposed = 99;
    for (size_t i = 0; i < count; i++) {
        movables[i].allocation = live[i].allocation;
        movables[i].request = request_again(&live[i]);
        CHECK(BYTES_OF(&movables[i].request) == live[i].allocation.size);
    }
    foretell_frame(&f, bytes, room);
    IS(NAMED(_defragmentation_propose)(BINDING, &defragmentation, movables, count, bytes, moves, room, &proposed), PILHANGKO_OK);
    CHECK(proposed == f.count && fake.questions == first);
    for (size_t i = 0; i <= f.count; i++) {
        for (unsigned stays = 0; stays < f.staying[i]; stays++) reply_no_place();
        if (i == f.count) break;
        CHECK(moves[i].index == f.indices[i]);
        opens(&live[f.indices[i]], &f.places[i], &moves[i].to);
    }
    CHECK(defragmentation.done == (counted.open == 0));
    is_counted();
}

/* A place is freed with its move, where it is live; how many bytes go back. */
static uint64_t goes(const NAMED(_allocation) *a) {
    const size_t i = live_at(a);
    const uint64_t before = CAPACITY;
    if (i == live_count) return 0;
    goes_by_account(i);
    reply("ok");
    stale[random_below(STALE)] = *a;
    live[i] = live[--live_count];
    return before - CAPACITY;
}

static void is_finished(const struct open_move *move) {
    const uint64_t bytes = goes(&move->from);
    counted.moves_finished++;
    counted.bytes_moved += move->to.size;
    counted.blocks_given_back += bytes > 0;
    counted.bytes_given_back += bytes;
    finished++;
    emptied += bytes > 0;
}

static void is_abandoned(const struct open_move *move) {
    (void)goes(&move->to);
    abandoned++;
}

/* One that is open is told to be done or to have failed; at times it isn't open, or its second place is gone. */
static void ends_move(void) {
    const bool finishes = random_below(3) > 0;
    const NAMED(_allocation) to = counted.open > 0 && random_below(10) ? open_moves[random_below(counted.open)].to : some_allocation();
    size_t at = 0;
    while (at < counted.open && open_moves[at].to.serial != to.serial) at++;
    const bool may = at < counted.open && (!finishes || live_at(&to) < live_count);
    if (may) {
        const struct open_move move = open_moves[at];
        open_moves[at] = open_moves[--counted.open];
        if (finishes) is_finished(&move);
        else is_abandoned(&move);
    }
    not_open += !may;
    IS(finishes ? NAMED(_defragmentation_finish)(BINDING, &defragmentation, &to) : NAMED(_defragmentation_abandon)(BINDING, &defragmentation, &to),
        may ? (pilhangko_status)PILHANGKO_OK : PILHANGKO_NOT_LIVE);
    is_counted();
}

static void ends_moves(void) {
    while (counted.open > 0) {
        const struct open_move move = open_moves[--counted.open];
        if (live_at(&move.from) < live_count || live_at(&move.to) == live_count) is_abandoned(&move);
        else is_finished(&move);
    }
    IS(NAMED(_defragmentation_end)(BINDING, &defragmentation), PILHANGKO_OK);
    is_counted();
}

static void tells_of_moves(void) {
    printf("%u moves finished, %u blocks emptied, %u abandoned, %u not open\n", finished, emptied, abandoned, not_open);
    CHECK(finished > 100 && emptied > 5 && abandoned > 100 && not_open > 100);
}
#endif
