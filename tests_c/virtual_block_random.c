/* 100,000 random calls on a virtual block, each beside a plain account: every status, offset and number has to be the account's. */
#include "account.h"

#define STALE 256

static pilhangko_virtual_block block;
static struct account account;
static pilhangko_virtual_piece stale[STALE]; /* pieces that were freed, some of which are live again */
static unsigned allocated, refused, freed, dead, renamed;

static const char *const names[] = {NULL, "", "vertices", "h\xc3\xa4lft", "a name of more than a few bytes, so that it lies elsewhere"};
static const char *const bad_names[] = {"\xff", "cut \xe2\x82", "\xc0\x80"};

static void allocate(void) {
    pilhangko_virtual_request request = {
        1 + random_below(random_below(8) ? 300 : 4000), UINT64_C(1) << random_below(8), 1 + (uint32_t)random_below(2)};
    pilhangko_virtual_piece piece;
    uint64_t offset, number;
    const char *called = names[random_below(5)];
    if (account_allocate(&account, request.size, request.alignment, request.kind, called, &offset, &number)) {
        IS(pilhangko_virtual_block_allocate(&block, &request, called, &piece), PILHANGKO_OK);
        CHECK(piece.offset == offset && piece.number == number);
        allocated++;
    } else {
        IS(pilhangko_virtual_block_allocate(&block, &request, called, &piece), PILHANGKO_OUT_OF_MEMORY);
        refused++;
    }
}

/* a live piece, a stale one, or one that never was */
static pilhangko_virtual_piece some_piece(void) {
    uint64_t of = random_below(10);
    if (of < 7) {
        for (size_t tries = 0; tries < 8; tries++) {
            const struct chunk *c = &account.chunks[random_below(account.count)];
            if (c->kind) return (pilhangko_virtual_piece){c->offset, c->number};
        }
    }
    if (of < 9) return stale[random_below(STALE)];
    return (pilhangko_virtual_piece){random_below(account.size), random_below(account.next_number + 2)};
}

static void free_piece(void) {
    pilhangko_virtual_piece piece = some_piece();
    size_t at = piece.number ? account_find(&account, piece.offset, piece.number) : account.count;
    if (at == account.count) {
        IS(pilhangko_virtual_block_free(&block, &piece), PILHANGKO_NOT_LIVE);
        dead++;
        return;
    }
    IS(pilhangko_virtual_block_free(&block, &piece), PILHANGKO_OK);
    account_free(&account, at);
    stale[random_below(STALE)] = piece;
    freed++;
}

static void name(void) {
    pilhangko_virtual_piece piece = some_piece();
    if (random_below(4) == 0) {
        IS(pilhangko_virtual_block_rename(&block, &piece, bad_names[random_below(3)]), PILHANGKO_INVALID);
        return;
    }
    const char *called = names[random_below(5)];
    size_t at = piece.number ? account_find(&account, piece.offset, piece.number) : account.count;
    bool live = at < account.count;
    IS(pilhangko_virtual_block_rename(&block, &piece, called), live ? PILHANGKO_OK : PILHANGKO_NOT_LIVE);
    IS(pilhangko_virtual_block_set_word(&block, &piece, renamed + 1), live ? PILHANGKO_OK : PILHANGKO_NOT_LIVE);
    if (live) account.chunks[at].name = called ? called : "", account.chunks[at].word = renamed + 1;
    renamed += live;
}

static void step(void) {
    uint64_t what = random_below(1000), from = random_below(account.size + 10);
    pilhangko_virtual_statistics statistics;
    pilhangko_piece_view view;
    if (what < 500) allocate();
    else if (what < 900) free_piece();
    else if (what < 997) name();
    else if (what < 999) {
        pilhangko_virtual_request bad = {random_below(2), 3, 1};
        pilhangko_virtual_piece piece;
        IS(pilhangko_virtual_block_allocate(&block, &bad, NULL, &piece), PILHANGKO_INVALID);
        IS(pilhangko_virtual_block_create(&block, 10, 1), PILHANGKO_IN_USE);
    } else {
        IS(pilhangko_virtual_block_clear(&block), PILHANGKO_OK);
        account_begin(&account, account.size, account.page);
    }
    IS(pilhangko_virtual_block_statistics(&block, &statistics), PILHANGKO_OK);
    account_same(&account, &statistics);
    IS(pilhangko_virtual_block_next_piece(&block, from, &view), PILHANGKO_OK);
    account_shows(&account, from, &view);
    pilhangko_piece_view views[40];
    size_t view_room = random_below(41), shown;
    for (size_t i = 0; i < 40; i++) views[i].number = UINT64_MAX;
    IS(pilhangko_virtual_block_pieces(&block, from, view_room ? views : NULL, view_room, &shown), PILHANGKO_OK);
    account_shows_all(&account, from, views, view_room, shown);
    char bytes[80];
    size_t room = random_below(sizeof bytes + 1), length;
    memset(bytes, '?', sizeof bytes);
    IS(pilhangko_virtual_block_piece_name(&block, from, room ? bytes : NULL, room, &length), PILHANGKO_OK);
    account_names(&account, from, bytes, room, length);
    char all[400];
    size_t lengths[40], all_room = random_below(sizeof all + 1);
    memset(all, '?', sizeof all);
    memset(lengths, 0xff, sizeof lengths);
    IS(pilhangko_virtual_block_piece_names(&block, from, lengths, view_room, all_room ? all : NULL, all_room, &shown), PILHANGKO_OK);
    account_names_all(&account, from, lengths, view_room, all, all_room, shown);
}

int main(void) {
    const uint64_t pages[] = {1, 64, 1024, 1u << 20};
    for (unsigned run = 0; run < 4; run++) {
        random_state = run;
        account_begin(&account, 20000, pages[run]);
        IS(pilhangko_virtual_block_create(&block, account.size, pages[run]), PILHANGKO_OK);
        for (unsigned i = 0; i < 25000; i++) step();
        IS(pilhangko_virtual_block_destroy(&block), PILHANGKO_OK);
    }
    printf("100000 calls: %u pieces allocated, %u refused, %u freed, %u not live, %u renamed\n", allocated, refused, freed, dead, renamed);
    CHECK(allocated > 10000 && refused > 1000 && freed > 10000 && dead > 1000 && renamed > 1000);
    return 0;
}
