/* 200,000 random calls on allocators of Metal's memory, each beside a plain account of its memory types: every status, question, piece and
 * heap has to be the account's, and each heap joins and leaves a residency set just where there is one. The device refuses some heaps, and
 * questions stay open for a while. */
#include "metal_account.h"

#define STALE 256

static pilhangko_metal_heaps heaps;
static struct metal_account account;
static uint64_t next_heap;
static pilhangko_heaps_piece stale[STALE];
static unsigned allocated, asked, refused, over_budget, invalid, awaiting, freed, went, dead, moved, stayed;

static const char *const names[] = {NULL, "", "piece", "a longer name of a piece", "\xc3\xa4"};

static const char *some_name(void) {
    return names[random_below(sizeof names / sizeof *names)];
}

static bool same_heaps_piece(const pilhangko_heaps_piece *piece) {
    return piece->memory_type == account.type && same_piece(&piece->piece, &account.placed.piece);
}

/* all that kind doesn't name is zero */
static void is_progress(const pilhangko_metal_heaps_progress *p) {
    static const pilhangko_heaps_piece no_piece;
    const pilhangko_metal_heaps_question *q = &p->question;
    CHECK(p->status == PILHANGKO_OK && p->kind == (account.awaits_heap ? PILHANGKO_PROGRESS_QUESTION : PILHANGKO_PROGRESS_PIECE));
    if (account.awaits_heap) {
        CHECK(metal_asks_for(&account, q) && p->piece.memory_type == 0 && same_piece(&p->piece.piece, &no_piece.piece));
        return;
    }
    CHECK(same_heaps_piece(&p->piece) && q->memory_type == 0 && q->size == 0 && q->location == 0 && q->storage_mode == 0 &&
          q->cpu_cache_mode == 0 && !q->dedicated);
}

static void begins(void) {
    const uint64_t large = random_below(40);
    pilhangko_metal_heaps_request r;
    pilhangko_metal_heaps_progress p;
    const char *name = some_name();
    r.size = 1 + random_below(large == 0 ? 12 * MB : large < 6 ? 2 * MB : 300000);
    r.alignment = UINT64_C(1) << random_below(17);
    if (random_below(100) == 0) r.size = 0;
    if (random_below(100) == 0) r.alignment = random_below(8);
    r.location = (pilhangko_location)(random_below(60) == 0 ? random_below(7) : 1 + random_below(4));
    const pilhangko_status status = metal_request(&account, &r, name);
    IS(pilhangko_metal_heaps_begin(&heaps, &r, name, &p), status);
    over_budget += status == PILHANGKO_BUDGET_EXCEEDED;
    invalid += status == PILHANGKO_INVALID;
    awaiting += status == PILHANGKO_AWAITS_ANSWER;
    if (status != PILHANGKO_OK) return;
    is_progress(&p);
    allocated += !account.awaits_heap;
    asked += account.awaits_heap;
}

static void answers(void) {
    pilhangko_metal_heaps_grant grant;
    pilhangko_metal_heaps_progress p;
    const pilhangko_status status = account.awaits_heap ? PILHANGKO_OK : PILHANGKO_AWAITS_NO_ANSWER;
    if (random_below(4) == 0) {
        IS(pilhangko_metal_heaps_refused(&heaps, &p), status);
        if (status != PILHANGKO_OK) return;
        CHECK(p.kind == PILHANGKO_PROGRESS_REFUSED && p.piece.piece.number == 0 && p.question.size == 0);
        CHECK(p.status == PILHANGKO_DRIVER_REFUSED);
        account.awaits_heap = false;
        refused++;
        return;
    }
    IS(pilhangko_metal_heaps_granted(&heaps, ++next_heap, &grant), status);
    if (status != PILHANGKO_OK) return;
    metal_granted(&account, next_heap);
    CHECK(same_heaps_piece(&grant.piece) && grant.joins == account.has_set);
}

static pilhangko_heaps_piece some_piece(void) {
    pilhangko_heaps_piece piece = stale[random_below(STALE)];
    for (unsigned tries = 0; random_below(10) < 9 && tries < 12; tries++) {
        const size_t type = random_below(METAL_TYPES);
        const struct type_account *t = &account.types[type];
        if (t->slot_count == 0) continue;
        const size_t i = random_below(t->slot_count);
        if (!t->slots[i].exists) continue;
        const struct chunk *c = &t->slots[i].account.chunks[random_below(t->slots[i].account.count)];
        if (!c->kind) continue;
        piece = (pilhangko_heaps_piece){type, {i, c->number, c->offset, c->end - c->offset, t->slots[i].block}};
        if (random_below(20) == 0) piece.piece.size++;
        if (random_below(40) == 0) piece.memory_type = random_below(5);
        break;
    }
    return piece;
}

static void frees(void) {
    const pilhangko_heaps_piece piece = some_piece();
    const long at = metal_find(&account, &piece);
    pilhangko_metal_heap back = {true, 99, true};
    const pilhangko_status status = account.awaits_heap ? PILHANGKO_AWAITS_ANSWER : at >= 0 ? PILHANGKO_OK : PILHANGKO_NOT_LIVE;
    IS(pilhangko_metal_heaps_free(&heaps, &piece, &back), status);
    dead += status == PILHANGKO_NOT_LIVE;
    if (status != PILHANGKO_OK) {
        CHECK(back.exists && back.heap == 99 && back.leaves);
        return;
    }
    const bool goes = type_free(&account.types[piece.memory_type], &piece.piece, at);
    CHECK(back.exists == goes && back.heap == (goes ? piece.piece.block : 0) && back.leaves == (goes && account.has_set));
    stale[random_below(STALE)] = piece;
    freed++;
    went += goes;
}

static void renames(void) {
    const pilhangko_heaps_piece piece = some_piece();
    const long at = metal_find(&account, &piece);
    const bool is_text = random_below(20) != 0;
    const char *name = is_text ? some_name() : "\xff";
    bool is_live;
    IS(pilhangko_metal_heaps_is_live(&heaps, &piece, &is_live), PILHANGKO_OK);
    CHECK(is_live == (at >= 0));
    pilhangko_status status = at >= 0 ? PILHANGKO_OK : PILHANGKO_NOT_LIVE;
    if (!is_text) status = PILHANGKO_INVALID;
    if (account.awaits_heap) status = PILHANGKO_AWAITS_ANSWER;
    IS(pilhangko_metal_heaps_rename(&heaps, &piece, name), status);
    if (status != PILHANGKO_OK) return;
    static uint64_t word;
    struct chunk *c = &account.types[piece.memory_type].slots[piece.piece.slot].account.chunks[at];
    IS(pilhangko_metal_heaps_set_word(&heaps, &piece, ++word), PILHANGKO_OK);
    c->name = name ? name : "";
    c->word = word;
}

/* A second place for a piece, at times by a request that isn't of it. */
static void proposes(void) {
    const pilhangko_heaps_piece piece = some_piece();
    const long at = metal_find(&account, &piece);
    const char *name = some_name();
    pilhangko_metal_heaps_request r = {piece.piece.size, UINT64_C(1) << random_below(17), (pilhangko_location)random_below(6)};
    if (random_below(100) == 0) r.alignment = random_below(8);
    if (random_below(20) == 0) r.size++;
    const bool is_of_piece = r.size != 0 && r.size == piece.piece.size && r.alignment != 0 && (r.alignment & (r.alignment - 1)) == 0 && r.location >= 1 && r.location <= 4;
    const pilhangko_memory_request asks = {r.size, r.alignment, PILHANGKO_KIND_LINEAR, false};
    const pilhangko_status live = at >= 0 ? PILHANGKO_OK : PILHANGKO_NOT_LIVE, valid = is_of_piece ? live : (pilhangko_status)PILHANGKO_INVALID;
    const pilhangko_status status = account.awaits_heap ? PILHANGKO_AWAITS_ANSWER : valid;
    pilhangko_heaps_piece to = {7, {7, 7, 7, 7, 7}};
    pilhangko_memory_piece place = {0, 0, 0, 0, 0};
    const bool wanted =
        status == PILHANGKO_OK && type_place(&account.types[piece.memory_type], piece.piece.slot + 1, &asks, name, &place);
    bool moves = !wanted;
    IS(pilhangko_metal_heaps_propose_move(&heaps, &piece, &r, name, &moves, &to), status);
    if (status != PILHANGKO_OK) {
        CHECK(moves && to.memory_type == 7 && to.piece.number == 7);
        return;
    }
    CHECK(moves == wanted && same_piece(&to.piece, &place) && to.memory_type == (wanted ? piece.memory_type : 0));
    moved += moves;
    stayed += !moves;
}

static void bounds(void) {
    const size_t type = random_below(METAL_TYPES + 1);
    const bool has = random_below(3) == 0, is_there = type < METAL_TYPES;
    const uint64_t bytes = random_below(64 * MB);
    pilhangko_budget told;
    pilhangko_status status = is_there ? PILHANGKO_OK : PILHANGKO_NO_SUCH_TYPE;
    if (account.awaits_heap) status = PILHANGKO_AWAITS_ANSWER;
    IS(pilhangko_metal_heaps_set_budget(&heaps, type, has, bytes), status);
    if (status == PILHANGKO_OK) account.types[type].has_budget = has, account.types[type].budget = bytes;
    IS(pilhangko_metal_heaps_budget(&heaps, type, &told), PILHANGKO_OK);
    CHECK(told.exists == (is_there && account.types[type].has_budget));
    CHECK(told.bytes == (told.exists ? account.types[type].budget : 0));
}

/* ---- looks */

static void looks_at_slot(size_t type, size_t slot) {
    const bool is_there = type < METAL_TYPES && slot < account.types[type].slot_count && account.types[type].slots[slot].exists;
    const struct slot *s = is_there ? &account.types[type].slots[slot] : NULL;
    pilhangko_metal_heap heap;
    pilhangko_memory_block_statistics counts;
    pilhangko_piece_view views[8];
    size_t count;
    IS(pilhangko_metal_heaps_block(&heaps, type, slot, &heap), PILHANGKO_OK);
    CHECK(heap.exists == is_there && heap.heap == (is_there ? s->block : 0) && heap.leaves == (is_there && account.has_set));
    IS(pilhangko_metal_heaps_block_statistics(&heaps, type, slot, &counts), PILHANGKO_OK);
    CHECK(counts.exists == is_there && counts.pieces == (is_there ? account_pieces(&s->account) : 0));
    CHECK(counts.size == (is_there ? s->account.size : 0) && counts.shared == (is_there && !s->dedicated));
    IS(pilhangko_metal_heaps_pieces(&heaps, type, slot, 0, views, 8, &count), PILHANGKO_OK);
    CHECK(count == (counts.pieces < 8 ? counts.pieces : 8));
    for (size_t i = 0, at = 0; i < count; i++, at++) {
        while (!s->account.chunks[at].kind) at++;
        const struct chunk *c = &s->account.chunks[at];
        CHECK(views[i].number == c->number && views[i].start == c->start && views[i].offset == c->offset && views[i].end == c->end &&
              views[i].word == c->word);
    }
}

static void looks(void) {
    const size_t type = random_below(METAL_TYPES + 2);
    const bool is_there = type < METAL_TYPES;
    const pilhangko_status status = is_there ? PILHANGKO_OK : PILHANGKO_NO_SUCH_TYPE;
    pilhangko_type_statistics s;
    uint64_t bytes;
    IS(pilhangko_metal_heaps_capacity(&heaps, &bytes), PILHANGKO_OK);
    CHECK(bytes == metal_capacity(&account));
    IS(pilhangko_metal_heaps_type_statistics(&heaps, type, &s), status);
    IS(pilhangko_metal_heaps_type_capacity(&heaps, type, &bytes), status);
    looks_at_slot(type, random_below(is_there ? account.types[type].slot_count + 2 : 2));
    if (!is_there) return;
    const struct type_account *t = &account.types[type];
    CHECK(s.capacity == type_capacity(t) && bytes == s.capacity && s.slots == t->slot_count && s.shared_blocks == shared_blocks(t));
    CHECK(s.has_budget == t->has_budget && s.budget == (t->has_budget ? t->budget : 0));
}

static void step(void) {
    const uint64_t what = random_below(1000);
    if (account.awaits_heap && random_below(3) != 0) answers();
    else if (what < 350) begins();
    else if (what < 360) answers();
    else if (what < 840) frees();
    else if (what < 900) proposes();
    else if (what < 940) renames();
    else if (what < 945) bounds();
    else looks();
}

int main(void) {
    for (unsigned run = 0; run < 4; run++) {
        const pilhangko_metal_heaps_settings settings = {run % 2 == 1, 4 * MB, (run / 2 ? 8 : 16) * MB, 4 * MB, (run / 2 ? 16 : 4) * MB};
        random_state = run;
        metal_begin(&account, &settings);
        IS(pilhangko_metal_heaps_create(&heaps, &settings), PILHANGKO_OK);
        for (unsigned i = 0; i < 50000; i++) step();
        looks();
        IS(pilhangko_metal_heaps_destroy(&heaps), PILHANGKO_OK);
    }
    printf("200000 calls: %u pieces allocated, %u heaps asked for, %u refused, %u over budget, %u invalid, %u while a question is open, "
           "%u freed, %u heaps went, %u not live, %u second places, %u none\n",
        allocated, asked, refused, over_budget, invalid, awaiting, freed, went, dead, moved, stayed);
    CHECK(allocated > 20000 && asked > 1000 && refused > 200 && over_budget > 100 && invalid > 1000 && awaiting > 100 && freed > 20000);
    CHECK(went > 500 && dead > 1000 && moved > 500 && stayed > 1000);
    return 0;
}
