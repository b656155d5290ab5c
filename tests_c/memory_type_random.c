/* 100,000 random calls on a memory type, each beside a plain account of its slots: every status, block and piece has to be the account's.
 * The driver refuses some blocks. */
#include "type_account.h"

#define STALE 256

static pilhangko_memory_type type;
static struct type_account account;
static uint64_t next_block;
static pilhangko_memory_piece stale[STALE];
static unsigned allocated, needed, abandoned, over_budget, freed, went, dead;

static void puts_in(const struct placed *block, const pilhangko_memory_request *request) {
    pilhangko_memory_piece piece, wanted = type_install(&account, block, request, "piece", ++next_block);
    IS(pilhangko_memory_type_install(&type, next_block, &piece), PILHANGKO_OK);
    CHECK(same_piece(&piece, &wanted));
}

static void prepare(void) {
    uint64_t large = random_below(40);
    pilhangko_memory_request request = {1 + random_below(large == 0  ? 12 * MB
                                                         : large < 6 ? 2 * MB
                                                                     : 300000),
        UINT64_C(1) << random_below(12), 1 + (uint32_t)random_below(2), random_below(30) == 0};
    pilhangko_memory_prepared prepared;
    struct placed wanted;
    pilhangko_status status = type_allocate(&account, &request, "piece", type_capacity(&account), &wanted);
    IS(pilhangko_memory_type_prepare(&type, &request, "piece", &prepared), status);
    over_budget += status == PILHANGKO_BUDGET_EXCEEDED;
    if (status != PILHANGKO_OK) return;
    CHECK(prepared.needs_block == wanted.needs_block && prepared.dedicated == wanted.dedicated);
    CHECK(prepared.block_size == wanted.block_size && same_piece(&prepared.piece, &wanted.piece));
    allocated += !wanted.needs_block;
    if (!wanted.needs_block) return;
    IS(pilhangko_memory_type_prepare(&type, &request, "piece", &prepared), PILHANGKO_AWAITS_BLOCK);
    needed++;
    if (random_below(4) == 0) {
        IS(pilhangko_memory_type_abandon(&type), PILHANGKO_OK);
        abandoned++;
    } else {
        puts_in(&wanted, &request);
    }
}

static pilhangko_memory_piece some_piece(void) {
    pilhangko_memory_piece piece = stale[random_below(STALE)];
    for (unsigned tries = 0; account.slot_count > 0 && random_below(10) < 9 && tries < 8; tries++) {
        size_t i = random_below(account.slot_count);
        if (!account.slots[i].exists) continue;
        const struct chunk *c = &account.slots[i].account.chunks[random_below(account.slots[i].account.count)];
        if (!c->kind) continue;
        piece = (pilhangko_memory_piece){i, c->number, c->offset, c->end - c->offset, account.slots[i].block};
        if (random_below(20) == 0) piece.size++;
        break;
    }
    return piece;
}

static void free_piece(void) {
    pilhangko_memory_piece piece = some_piece();
    pilhangko_memory_block gone = {true, 99};
    long at = type_find(&account, &piece);
    if (at < 0) {
        IS(pilhangko_memory_type_free(&type, &piece, &gone), PILHANGKO_NOT_LIVE);
        CHECK(gone.exists && gone.block == 99);
        dead++;
        return;
    }
    uint64_t block = account.slots[piece.slot].block;
    bool goes = type_free(&account, &piece, at);
    IS(pilhangko_memory_type_free(&type, &piece, &gone), PILHANGKO_OK);
    CHECK(gone.exists == goes && gone.block == (goes ? block : 0));
    stale[random_below(STALE)] = piece;
    freed++;
    went += goes;
}

/* the pieces of the block in that slot, from a place on, by each kind of visit */
static void look_at_pieces(size_t i, const pilhangko_memory_block_statistics *counted) {
    uint64_t from = random_below(9 * MB);
    pilhangko_piece_view view;
    IS(pilhangko_memory_type_next_piece(&type, i, from, &view), PILHANGKO_OK);
    pilhangko_piece_view views[20];
    size_t view_room = random_below(21), shown;
    for (size_t j = 0; j < 20; j++) views[j].number = UINT64_MAX;
    IS(pilhangko_memory_type_pieces(&type, i, from, views, view_room, &shown), PILHANGKO_OK);
    char all[100];
    size_t lengths[20], named, all_room = random_below(sizeof all + 1);
    memset(all, '?', sizeof all);
    memset(lengths, 0xff, sizeof lengths);
    IS(pilhangko_memory_type_piece_names(&type, i, from, lengths, view_room, all, all_room, &named), PILHANGKO_OK);
    if (!counted->exists) {
        CHECK(shown == 0 && named == 0 && (!view_room || (views[0].number == UINT64_MAX && lengths[0] == SIZE_MAX)));
        CHECK(!view.exists && view.number == 0 && !counted->shared && counted->size == 0);
        CHECK(counted->pieces == 0 && counted->piece_bytes == 0 && counted->gaps == 0 && counted->longest_gap == 0);
        return;
    }
    CHECK(counted->shared == !account.slots[i].dedicated);
    pilhangko_virtual_statistics same = {
        counted->size, counted->pieces, counted->piece_bytes, counted->gaps, counted->longest_gap};
    account_same(&account.slots[i].account, &same);
    account_shows(&account.slots[i].account, from, &view);
    account_shows_all(&account.slots[i].account, from, views, view_room, shown);
    account_names_all(&account.slots[i].account, from, lengths, view_room, all, all_room, named);
    char bytes[16];
    size_t room = random_below(sizeof bytes + 1), length;
    memset(bytes, '?', sizeof bytes);
    IS(pilhangko_memory_type_piece_name(&type, i, from, bytes, room, &length), PILHANGKO_OK);
    account_names(&account.slots[i].account, from, bytes, room, length);
}

static void look(void) {
    pilhangko_memory_statistics s;
    IS(pilhangko_memory_type_statistics(&type, &s), PILHANGKO_OK);
    CHECK(s.capacity == type_capacity(&account) && s.slots == account.slot_count && s.shared_blocks == shared_blocks(&account) &&
          !s.awaits_block);
    CHECK(s.has_budget == account.has_budget && s.budget == (account.has_budget ? account.budget : 0));
    size_t i = random_below(account.slot_count + 2);
    pilhangko_memory_block block;
    IS(pilhangko_memory_type_block(&type, i, &block), PILHANGKO_OK);
    CHECK(
        block.exists == (i < account.slot_count && account.slots[i].exists) && block.block == (block.exists ? account.slots[i].block : 0));
    pilhangko_memory_block_statistics counted;
    IS(pilhangko_memory_type_block_statistics(&type, i, &counted), PILHANGKO_OK);
    CHECK(counted.exists == block.exists);
    look_at_pieces(i, &counted);
    pilhangko_memory_piece piece = some_piece();
    bool is_live;
    IS(pilhangko_memory_type_is_live(&type, &piece, &is_live), PILHANGKO_OK);
    CHECK(is_live == (type_find(&account, &piece) >= 0));
    static uint64_t word;
    IS(pilhangko_memory_type_rename(&type, &piece, "another name"), is_live ? PILHANGKO_OK : PILHANGKO_NOT_LIVE);
    IS(pilhangko_memory_type_set_word(&type, &piece, ++word), is_live ? PILHANGKO_OK : PILHANGKO_NOT_LIVE);
    if (!is_live) return;
    struct chunk *c = &account.slots[piece.slot].account.chunks[type_find(&account, &piece)];
    c->name = "another name";
    c->word = word;
}

static void step(void) {
    uint64_t what = random_below(1000);
    if (what < 480) prepare();
    else if (what < 950) free_piece();
    else if (what < 998) look();
    else {
        account.has_budget = random_below(2) == 0;
        account.budget = random_below(64 * MB);
        IS(pilhangko_memory_type_set_budget(&type, account.has_budget, account.budget), PILHANGKO_OK);
    }
}

int main(void) {
    const uint64_t pages[] = {1, 64, 1024, 65536};
    for (unsigned run = 0; run < 4; run++) {
        random_state = run;
        const uint64_t size = 4 * MB, largest = (run % 2 ? 8 : 16) * MB;
        const pilhangko_memory_type_settings settings = {run % 2 == 0, pages[run], size, largest, size, largest, false, 0};
        type_begin(&account, size, largest, pages[run]);
        IS(pilhangko_memory_type_create(&type, &settings), PILHANGKO_OK);
        for (unsigned i = 0; i < 25000; i++) step();
        look();
        IS(pilhangko_memory_type_destroy(&type), PILHANGKO_OK);
    }
    printf("100000 calls: %u pieces allocated, %u blocks needed, %u abandoned, %u over budget, %u freed, %u blocks went, %u not live\n",
        allocated, needed, abandoned, over_budget, freed, went, dead);
    CHECK(allocated > 10000 && needed > 1000 && abandoned > 100 && over_budget > 100 && freed > 10000 && went > 500 && dead > 1000);
    return 0;
}
