/* 200,000 random calls on allocators of DirectX 12's memory, each beside a plain account of its memory types and committed resources: every
 * status, question, piece, heap and record has to be the account's. The driver refuses some heaps and some resources, and questions of both
 * sorts stay open for a while. */
#include "heaps_account.h"

#define STALE 256
#define E_OUTOFMEMORY_CODE (-2147024882)

static pilhangko_heaps heaps;
static struct heaps_account account;
static uint64_t next_heap, next_resource;
static pilhangko_heaps_piece stale[STALE];
static pilhangko_heaps_committed stale_records[STALE];
static unsigned allocated, asked, refused, over_budget, invalid, awaiting, freed, went, dead, recorded, unmade, forgotten, unknown, moved, stayed;

static const char *const names[] = {NULL, "", "piece", "a longer name of a piece", "\xc3\xa4"};

static const char *some_name(void) {
    return names[random_below(sizeof names / sizeof *names)];
}

static uint32_t some_location(void) {
    return random_below(60) == 0 ? (uint32_t)random_below(7) : 1 + (uint32_t)random_below(4);
}

static uint32_t some_category(void) {
    return random_below(60) == 0 ? (uint32_t)random_below(6) : 1 + (uint32_t)random_below(3);
}

static bool same_heaps_piece(const pilhangko_heaps_piece *piece) {
    return piece->memory_type == account.type && same_piece(&piece->piece, &account.placed.piece);
}

/* all that kind doesn't name is zero */
static void is_progress(const pilhangko_heaps_progress *p) {
    static const pilhangko_heaps_piece no_piece;
    const pilhangko_heaps_question *q = &p->question;
    CHECK(p->status == PILHANGKO_OK && p->kind == (account.awaits_heap ? PILHANGKO_PROGRESS_QUESTION : PILHANGKO_PROGRESS_PIECE));
    if (account.awaits_heap) {
        CHECK(asks_for(&account, q) && p->piece.memory_type == 0 && same_piece(&p->piece.piece, &no_piece.piece));
        return;
    }
    CHECK(same_heaps_piece(&p->piece) && q->memory_type == 0 && q->size == 0 && q->alignment == 0 && q->heap_type == 0 &&
          q->cpu_page_property == 0 && q->memory_pool == 0 && q->flags == 0 && !q->dedicated);
}

static void begins(void) {
    const uint64_t large = random_below(40);
    pilhangko_heaps_request r;
    pilhangko_heaps_progress p;
    const char *name = some_name();
    r.size = 1 + random_below(large == 0 ? 12 * MB : large < 6 ? 2 * MB : 300000);
    r.alignment = UINT64_C(1) << random_below(17);
    if (random_below(100) == 0) r.size = 0;
    if (random_below(100) == 0) r.alignment = random_below(8);
    r.location = (pilhangko_location)some_location();
    r.category = (pilhangko_category)some_category();
    const pilhangko_status status = heaps_request(&account, &r, name);
    IS(pilhangko_heaps_begin(&heaps, &r, name, &p), status);
    over_budget += status == PILHANGKO_BUDGET_EXCEEDED;
    invalid += status == PILHANGKO_INVALID;
    awaiting += status == PILHANGKO_AWAITS_ANSWER;
    if (status != PILHANGKO_OK) return;
    is_progress(&p);
    allocated += !account.awaits_heap;
    asked += account.awaits_heap;
}

static void answers(void) {
    pilhangko_heaps_piece piece;
    pilhangko_heaps_progress p;
    const pilhangko_status status = account.awaits_heap ? PILHANGKO_OK : PILHANGKO_AWAITS_NO_ANSWER;
    if (random_below(4) == 0) {
        static const int32_t codes[] = {E_OUTOFMEMORY_CODE, -2147024809, 0, -1};
        const int32_t code = codes[random_below(4)];
        IS(pilhangko_heaps_refused(&heaps, code, &p), status);
        if (status != PILHANGKO_OK) return;
        CHECK(p.kind == PILHANGKO_PROGRESS_REFUSED && p.piece.piece.number == 0 && p.question.size == 0);
        CHECK(p.status == (code == E_OUTOFMEMORY_CODE ? PILHANGKO_OUT_OF_MEMORY : PILHANGKO_DRIVER_REFUSED));
        account.awaits_heap = false;
        refused++;
        return;
    }
    IS(pilhangko_heaps_granted(&heaps, ++next_heap, &piece), status);
    if (status != PILHANGKO_OK) return;
    heaps_granted(&account, next_heap);
    CHECK(same_heaps_piece(&piece));
}

static pilhangko_heaps_piece some_piece(void) {
    pilhangko_heaps_piece piece = stale[random_below(STALE)];
    for (unsigned tries = 0; random_below(10) < 9 && tries < 12; tries++) {
        const size_t type = random_below(account.type_count);
        const struct type_account *t = &account.types[type];
        if (t->slot_count == 0) continue;
        const size_t i = random_below(t->slot_count);
        if (!t->slots[i].exists) continue;
        const struct chunk *c = &t->slots[i].account.chunks[random_below(t->slots[i].account.count)];
        if (!c->kind) continue;
        piece = (pilhangko_heaps_piece){type, {i, c->number, c->offset, c->end - c->offset, t->slots[i].block}};
        if (random_below(20) == 0) piece.piece.size++;
        if (random_below(40) == 0) piece.memory_type = random_below(12);
        break;
    }
    return piece;
}

static void frees(void) {
    const pilhangko_heaps_piece piece = some_piece();
    const long at = heaps_find(&account, &piece);
    pilhangko_memory_block back = {true, 99};
    const pilhangko_status status = account.awaits_heap ? PILHANGKO_AWAITS_ANSWER : at >= 0 ? PILHANGKO_OK : PILHANGKO_NOT_LIVE;
    IS(pilhangko_heaps_free(&heaps, &piece, &back), status);
    dead += status == PILHANGKO_NOT_LIVE;
    if (status != PILHANGKO_OK) {
        CHECK(back.exists && back.block == 99);
        return;
    }
    const bool goes = type_free(&account.types[piece.memory_type], &piece.piece, at);
    CHECK(back.exists == goes && back.block == (goes ? piece.piece.block : 0));
    stale[random_below(STALE)] = piece;
    freed++;
    went += goes;
}

static void renames(void) {
    const pilhangko_heaps_piece piece = some_piece();
    const long at = heaps_find(&account, &piece);
    const char *name = random_below(20) == 0 ? "\xff" : some_name();
    bool is_live;
    IS(pilhangko_heaps_is_live(&heaps, &piece, &is_live), PILHANGKO_OK);
    CHECK(is_live == (at >= 0));
    const pilhangko_status status = account.awaits_heap                   ? PILHANGKO_AWAITS_ANSWER
                                    : name && !strcmp(name, "\xff") ? PILHANGKO_INVALID
                                    : at >= 0                             ? PILHANGKO_OK
                                                                          : PILHANGKO_NOT_LIVE;
    IS(pilhangko_heaps_rename(&heaps, &piece, name), status);
    if (status != PILHANGKO_OK) return;
    static uint64_t word;
    struct chunk *c = &account.types[piece.memory_type].slots[piece.piece.slot].account.chunks[at];
    IS(pilhangko_heaps_set_word(&heaps, &piece, ++word), PILHANGKO_OK);
    c->name = name ? name : "";
    c->word = word;
}

/* A second place for a piece, at times by a request that isn't of it. */
static void proposes(void) {
    const pilhangko_heaps_piece piece = some_piece();
    const long at = heaps_find(&account, &piece);
    const char *name = some_name();
    pilhangko_heaps_request r = {piece.piece.size, UINT64_C(1) << random_below(17), (pilhangko_location)some_location(),
        (pilhangko_category)some_category()};
    if (random_below(100) == 0) r.alignment = random_below(8);
    if (random_below(20) == 0) r.size++;
    const bool is_of_piece = r.size != 0 && r.size == piece.piece.size && r.alignment != 0 && (r.alignment & (r.alignment - 1)) == 0 && is_known(r.location, r.category);
    const pilhangko_memory_request asks = {r.size, r.alignment, PILHANGKO_KIND_LINEAR, false};
    const pilhangko_status live = at >= 0 ? PILHANGKO_OK : PILHANGKO_NOT_LIVE, valid = is_of_piece ? live : (pilhangko_status)PILHANGKO_INVALID;
    const pilhangko_status status = account.awaits_heap ? PILHANGKO_AWAITS_ANSWER : valid;
    pilhangko_heaps_piece to = {7, {7, 7, 7, 7, 7}};
    pilhangko_memory_piece place = {0, 0, 0, 0, 0};
    const bool wanted =
        status == PILHANGKO_OK && type_place(&account.types[piece.memory_type], piece.piece.slot + 1, &asks, name, &place);
    bool moves = !wanted;
    IS(pilhangko_heaps_propose_move(&heaps, &piece, &r, name, &moves, &to), status);
    if (status != PILHANGKO_OK) {
        CHECK(moves && to.memory_type == 7 && to.piece.number == 7);
        return;
    }
    CHECK(moves == wanted && same_piece(&to.piece, &place) && to.memory_type == (wanted ? piece.memory_type : 0));
    moved += moves;
    stayed += !moves;
}

static void bounds(void) {
    const size_t type = random_below(account.type_count + 1);
    const bool has = random_below(3) == 0;
    const uint64_t bytes = random_below(64 * MB);
    pilhangko_budget told;
    const pilhangko_status status = account.awaits_heap            ? PILHANGKO_AWAITS_ANSWER
                                    : type < account.type_count ? PILHANGKO_OK
                                                                   : PILHANGKO_NO_SUCH_TYPE;
    IS(pilhangko_heaps_set_budget(&heaps, type, has, bytes), status);
    if (status == PILHANGKO_OK) {
        account.types[type].has_budget = has;
        account.types[type].budget = bytes;
    }
    IS(pilhangko_heaps_budget(&heaps, type, &told), PILHANGKO_OK);
    CHECK(told.exists == (type < account.type_count && account.types[type].has_budget));
    CHECK(told.bytes == (told.exists ? account.types[type].budget : 0));
}

/* ---- committed resources */

static void begins_committed(void) {
    const uint32_t location = some_location(), category = some_category();
    const uint64_t size = random_below(30) == 0 ? UINT64_MAX - random_below(1000) : random_below(1000000);
    const pilhangko_status status = record_request(&account, size, location, category);
    IS(pilhangko_heaps_begin_committed(&heaps, size, (pilhangko_location)location, (pilhangko_category)category), status);
}

static void answers_committed(void) {
    const pilhangko_status status = account.awaits_resource ? PILHANGKO_OK : PILHANGKO_AWAITS_NO_ANSWER;
    pilhangko_heaps_committed c;
    if (random_below(5) == 0 || (account.awaits_resource && account.records[account.asked.memory_type].count == HEAPS_RECORDS)) {
        IS(pilhangko_heaps_not_made(&heaps), status);
        unmade += status == PILHANGKO_OK;
        account.awaits_resource = false;
        return;
    }
    /* some handles come again */
    const uint64_t resource = random_below(10) == 0 ? next_resource / 2 : ++next_resource;
    IS(pilhangko_heaps_made(&heaps, resource, &c), status);
    if (status != PILHANGKO_OK) return;
    record_made(&account, resource);
    CHECK(c.memory_type == account.asked.memory_type && c.resource == resource && c.size == account.asked.size);
    recorded++;
}

static pilhangko_heaps_committed some_record(void) {
    const struct records *r = &account.records[random_below(account.type_count)];
    pilhangko_heaps_committed c = stale_records[random_below(STALE)];
    if (r->count > 0 && random_below(10) < 8) c = r->of[random_below(r->count)];
    if (random_below(20) == 0) c.size++;
    if (random_below(20) == 0) c.memory_type = random_below(12);
    return c;
}

static void forgets(void) {
    const pilhangko_heaps_committed c = some_record();
    if (account.awaits_resource) {
        IS(pilhangko_heaps_forget_committed(&heaps, &c), PILHANGKO_AWAITS_ANSWER);
        return;
    }
    const bool was_there = record_forgotten(&account, &c);
    IS(pilhangko_heaps_forget_committed(&heaps, &c), was_there ? PILHANGKO_OK : PILHANGKO_NOT_LIVE);
    stale_records[random_below(STALE)] = c;
    forgotten += was_there;
    unknown += !was_there;
}

/* ---- looks */

static void looks_at_slot(size_t type, size_t slot) {
    const bool is_there = type < account.type_count && slot < account.types[type].slot_count && account.types[type].slots[slot].exists;
    const struct slot *there = is_there ? &account.types[type].slots[slot] : NULL;
    const uint64_t from = random_below(9 * MB);
    pilhangko_memory_block block;
    pilhangko_memory_block_statistics counted;
    pilhangko_piece_view views[20];
    char all[100];
    size_t lengths[20], room = random_below(21), all_room = random_below(sizeof all + 1), shown, named;
    memset(views, 0xff, sizeof views);
    memset(all, '?', sizeof all);
    memset(lengths, 0xff, sizeof lengths);
    IS(pilhangko_heaps_block(&heaps, type, slot, &block), PILHANGKO_OK);
    CHECK(block.exists == is_there && block.block == (there ? there->block : 0));
    IS(pilhangko_heaps_block_statistics(&heaps, type, slot, &counted), PILHANGKO_OK);
    IS(pilhangko_heaps_pieces(&heaps, type, slot, from, views, room, &shown), PILHANGKO_OK);
    IS(pilhangko_heaps_piece_names(&heaps, type, slot, from, lengths, room, all, all_room, &named), PILHANGKO_OK);
    CHECK(counted.exists == is_there && shown == named);
    if (!there) {
        CHECK(shown == 0 && !counted.shared && counted.size == 0 && counted.pieces == 0 && counted.piece_bytes == 0);
        CHECK(counted.gaps == 0 && counted.longest_gap == 0);
        return;
    }
    CHECK(counted.shared == !there->dedicated);
    pilhangko_virtual_statistics same = {counted.size, counted.pieces, counted.piece_bytes, counted.gaps, counted.longest_gap};
    account_same(&there->account, &same);
    account_shows_all(&there->account, from, views, room, shown);
    account_names_all(&there->account, from, lengths, room, all, all_room, named);
}

static void looks_at_type(size_t type) {
    const bool is_there = type < account.type_count;
    const pilhangko_status status = is_there ? PILHANGKO_OK : PILHANGKO_NO_SUCH_TYPE;
    pilhangko_type_statistics s;
    pilhangko_heaps_committed_statistics records;
    uint64_t bytes;
    IS(pilhangko_heaps_type_statistics(&heaps, type, &s), status);
    IS(pilhangko_heaps_type_capacity(&heaps, type, &bytes), status);
    IS(pilhangko_heaps_committed_of(&heaps, type, &records), status);
    if (!is_there) return;
    const struct type_account *t = &account.types[type];
    CHECK(s.capacity == type_capacity(t) && bytes == s.capacity && s.slots == t->slot_count && s.shared_blocks == shared_blocks(t));
    CHECK(s.has_budget == t->has_budget && s.budget == (t->has_budget ? t->budget : 0));
    CHECK(records.count == account.records[type].count && records.bytes == account.records[type].bytes);
}

static void looks(void) {
    const size_t type = random_below(account.type_count + 2);
    uint64_t bytes;
    size_t count;
    IS(pilhangko_heaps_capacity(&heaps, &bytes), PILHANGKO_OK);
    CHECK(bytes == heaps_capacity(&account));
    IS(pilhangko_heaps_type_count(&heaps, &count), PILHANGKO_OK);
    CHECK(count == account.type_count);
    looks_at_type(type);
    looks_at_slot(type, random_below(type < account.type_count ? account.types[type].slot_count + 2 : 2));
}

static void step(void) {
    const uint64_t what = random_below(1000);
    if (account.awaits_heap && random_below(3) != 0) answers();
    else if (account.awaits_resource && random_below(3) == 0) answers_committed();
    else if (what < 260) begins();
    else if (what < 270) answers();
    else if (what < 640) frees();
    else if (what < 690) proposes();
    else if (what < 730) renames();
    else if (what < 735) bounds();
    else if (what < 840) begins_committed();
    else if (what < 850) answers_committed();
    else if (what < 960) forgets();
    else looks();
}

int main(void) {
    for (unsigned run = 0; run < 4; run++) {
        const pilhangko_heaps_settings settings = {1 + run % 3, 4 * MB, (run % 2 ? 8 : 16) * MB, 4 * MB, (run % 2 ? 16 : 4) * MB};
        random_state = run;
        heaps_begin(&account, &settings);
        IS(pilhangko_heaps_create(&heaps, &settings), PILHANGKO_OK);
        for (unsigned i = 0; i < 50000; i++) step();
        looks();
        IS(pilhangko_heaps_destroy(&heaps), PILHANGKO_OK);
    }
    printf("200000 calls: %u pieces allocated, %u heaps asked for, %u refused, %u over budget, %u invalid, %u while a question is open, "
           "%u freed, %u heaps went, %u not live, %u second places, %u none; %u resources recorded, %u not made, %u forgotten, %u unknown\n",
        allocated, asked, refused, over_budget, invalid, awaiting, freed, went, dead, moved, stayed, recorded, unmade, forgotten, unknown);
    CHECK(allocated > 20000 && asked > 1000 && refused > 200 && over_budget > 100 && invalid > 1000 && awaiting > 100 && freed > 20000);
    CHECK(moved > 300 && stayed > 1000);
    CHECK(went > 500 && dead > 1000 && recorded > 5000 && unmade > 1000 && forgotten > 5000 && unknown > 1000);
    return 0;
}
