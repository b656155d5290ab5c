/* Allocators of Metal's memory: rows that were worked out by hand, and each status of each call. */
#include "test.h"

#define MB (UINT64_C(1) << 20)

/* on the device's side blocks of 8 MB; on the host's 4 MB, doubling up to 8 MB */
static const pilhangko_metal_heaps_settings with_set = {true, 8 * MB, 0, 4 * MB, 8 * MB}, without_set = {false, 8 * MB, 0, 4 * MB, 8 * MB};

static pilhangko_metal_heaps made_by(const pilhangko_metal_heaps_settings *settings) {
    pilhangko_metal_heaps h = {0};
    IS(pilhangko_metal_heaps_create(&h, settings), PILHANGKO_OK);
    return h;
}

static pilhangko_metal_heaps made(void) {
    return made_by(&with_set);
}

static pilhangko_metal_heaps_request asks(uint64_t size, pilhangko_location location) {
    pilhangko_metal_heaps_request r = {size, 1, location};
    return r;
}

static pilhangko_metal_heaps_request asks_device(uint64_t size) {
    return asks(size, PILHANGKO_LOCATION_GPU_ONLY);
}

/* what no call may leave behind where it is refused */
static pilhangko_metal_heaps_progress untouched(void) {
    pilhangko_metal_heaps_progress p = {9, 9, {9, {9, 9, 9, 9, 9}}, {9, 9, 9, 9, 9, true}};
    return p;
}

static bool is_untouched(const pilhangko_metal_heaps_progress *p) {
    return p->kind == 9 && p->status == 9 && p->piece.memory_type == 9 && p->piece.piece.slot == 9 && p->piece.piece.number == 9 &&
           p->piece.piece.offset == 9 && p->piece.piece.size == 9 && p->piece.piece.block == 9 && p->question.memory_type == 9 &&
           p->question.size == 9 && p->question.location == 9 && p->question.storage_mode == 9 && p->question.cpu_cache_mode == 9 &&
           p->question.dedicated;
}

static void has_no_piece(const pilhangko_heaps_piece *p) {
    CHECK(p->memory_type == 0 && p->piece.slot == 0 && p->piece.number == 0 && p->piece.offset == 0 && p->piece.size == 0 &&
          p->piece.block == 0);
}

static void has_no_question(const pilhangko_metal_heaps_question *q) {
    CHECK(q->memory_type == 0 && q->size == 0 && q->location == 0 && q->storage_mode == 0 && q->cpu_cache_mode == 0 && !q->dedicated);
}

static void is_question(const pilhangko_metal_heaps_progress *p, uint64_t size, size_t type, bool dedicated) {
    CHECK(p->kind == PILHANGKO_PROGRESS_QUESTION && p->status == PILHANGKO_OK);
    CHECK(p->question.size == size && p->question.memory_type == type && p->question.dedicated == dedicated);
    has_no_piece(&p->piece);
}

static void is_piece(
    const pilhangko_heaps_piece *p, size_t type, size_t slot, uint64_t number, uint64_t offset, uint64_t size, uint64_t heap) {
    CHECK(p->memory_type == type && p->piece.slot == slot && p->piece.number == number);
    CHECK(p->piece.offset == offset && p->piece.size == size && p->piece.block == heap);
}

static pilhangko_heaps_piece granted(pilhangko_metal_heaps *h, uint64_t heap, bool joins) {
    pilhangko_metal_heaps_grant grant = {.joins = !joins};
    IS(pilhangko_metal_heaps_granted(h, heap, &grant), PILHANGKO_OK);
    CHECK(grant.joins == joins);
    return grant.piece;
}

static void has_capacity(const pilhangko_metal_heaps *h, uint64_t expected) {
    uint64_t bytes = 7;
    IS(pilhangko_metal_heaps_capacity(h, &bytes), PILHANGKO_OK);
    CHECK(bytes == expected);
}

static void is_live(const pilhangko_metal_heaps *h, const pilhangko_heaps_piece *piece, bool expected) {
    bool live = !expected;
    IS(pilhangko_metal_heaps_is_live(h, piece, &live), PILHANGKO_OK);
    CHECK(live == expected);
}

static void frees(pilhangko_metal_heaps *h, const pilhangko_heaps_piece *piece, bool exists, uint64_t heap, bool leaves) {
    pilhangko_metal_heap back = {!exists, heap + 1, !leaves};
    is_live(h, piece, true);
    IS(pilhangko_metal_heaps_free(h, piece, &back), PILHANGKO_OK);
    CHECK(back.exists == exists && back.heap == heap && back.leaves == leaves);
    is_live(h, piece, false);
}

/* ---- which memory type serves, and which heap is asked for */

/* the place among the memory types, MTLStorageMode and MTLCPUCacheMode of each location, from UNKNOWN on */
static const uint32_t places[4][3] = {{0, 2, 0}, {0, 2, 0}, {1, 0, 1}, {2, 0, 0}};

static void questions(void) {
    for (uint32_t location = 1; location <= 4; location++) {
        pilhangko_metal_heaps h = made();
        pilhangko_metal_heaps_request r = asks(100, (pilhangko_location)location);
        pilhangko_metal_heaps_progress p;
        const uint32_t *place = places[location - 1];
        IS(pilhangko_metal_heaps_begin(&h, &r, NULL, &p), PILHANGKO_OK);
        is_question(&p, place[0] == 0 ? 8 * MB : 4 * MB, place[0], false);
        CHECK(p.question.storage_mode == place[1] && p.question.cpu_cache_mode == place[2]);
        CHECK(p.question.location == (location == 1 ? PILHANGKO_LOCATION_GPU_ONLY : location)); /* the memory type's own */
        IS(pilhangko_metal_heaps_destroy(&h), PILHANGKO_OK);
    }
}

/* ---- rows */

static void rows(bool has_set) {
    pilhangko_metal_heaps h = made_by(has_set ? &with_set : &without_set);
    pilhangko_metal_heaps_request r = asks_device(100);
    pilhangko_metal_heaps_progress p = untouched();
    pilhangko_heaps_piece first, second, own;
    has_capacity(&h, 0);
    IS(pilhangko_metal_heaps_begin(&h, &r, "first", &p), PILHANGKO_OK);
    is_question(&p, 8 * MB, 0, false);
    has_capacity(&h, 0); /* a block that is awaited isn't one */
    first = granted(&h, 1001, has_set);
    is_piece(&first, 0, 0, 2, 0, 100, 1001);
    has_capacity(&h, 8 * MB);
    r = asks(50, PILHANGKO_LOCATION_UNKNOWN);
    r.alignment = 65536;
    IS(pilhangko_metal_heaps_begin(&h, &r, NULL, &p), PILHANGKO_OK);
    CHECK(p.kind == PILHANGKO_PROGRESS_PIECE && p.status == PILHANGKO_OK);
    is_piece(&p.piece, 0, 0, 3, 65536, 50, 1001);
    has_no_question(&p.question);
    second = p.piece;
    r = asks_device(8 * MB + 1); /* larger than the next shared block: it has a heap of its own */
    IS(pilhangko_metal_heaps_begin(&h, &r, "own", &p), PILHANGKO_OK);
    is_question(&p, 8 * MB + 1, 0, true);
    own = granted(&h, 1002, has_set);
    is_piece(&own, 0, 1, 1, 0, 8 * MB + 1, 1002);
    has_capacity(&h, 16 * MB + 1);
    frees(&h, &own, true, 1002, has_set); /* a piece's own heap goes */
    frees(&h, &first, false, 0, false);
    frees(&h, &second, false, 0, false); /* the last shared block stays */
    has_capacity(&h, 8 * MB);
    IS(pilhangko_metal_heaps_destroy(&h), PILHANGKO_OK);
    IS(pilhangko_metal_heaps_destroy(&h), PILHANGKO_NO_HANDLE);
}

static void refusals_of_the_device(void) {
    pilhangko_metal_heaps h = made();
    pilhangko_metal_heaps_request r = asks_device(100);
    pilhangko_metal_heaps_progress p;
    for (unsigned i = 0; i < 3; i++) {
        IS(pilhangko_metal_heaps_begin(&h, &r, NULL, &p), PILHANGKO_OK);
        is_question(&p, 8 * MB, 0, false);
        IS(pilhangko_metal_heaps_refused(&h, &p), PILHANGKO_OK);
        CHECK(p.kind == PILHANGKO_PROGRESS_REFUSED && p.status == PILHANGKO_DRIVER_REFUSED);
        has_no_piece(&p.piece);
        has_no_question(&p.question);
        p = untouched();
        IS(pilhangko_metal_heaps_refused(&h, &p), PILHANGKO_AWAITS_NO_ANSWER); /* the request is over */
        CHECK(is_untouched(&p));
    }
    has_capacity(&h, 0);
    IS(pilhangko_metal_heaps_destroy(&h), PILHANGKO_OK);
}

static void out_of_turn(void) {
    pilhangko_metal_heaps h = made();
    pilhangko_metal_heaps_request r = asks_device(100), own = asks_device(9 * MB), bad = asks(0, (pilhangko_location)0);
    pilhangko_metal_heaps_progress p = untouched();
    pilhangko_metal_heaps_grant kept = {{4, {4, 4, 4, 4, 4}}, true};
    pilhangko_heaps_piece piece;
    pilhangko_metal_heap back = {true, 3, true};
    pilhangko_budget budget;
    IS(pilhangko_metal_heaps_granted(&h, 1, &kept), PILHANGKO_AWAITS_NO_ANSWER);
    IS(pilhangko_metal_heaps_refused(&h, &p), PILHANGKO_AWAITS_NO_ANSWER);
    CHECK(kept.piece.memory_type == 4 && kept.piece.piece.number == 4 && kept.joins && is_untouched(&p));
    IS(pilhangko_metal_heaps_begin(&h, &r, NULL, &p), PILHANGKO_OK);
    piece = granted(&h, 1, true);
    IS(pilhangko_metal_heaps_begin(&h, &own, NULL, &p), PILHANGKO_OK);
    p = untouched();
    IS(pilhangko_metal_heaps_begin(&h, &r, NULL, &p), PILHANGKO_AWAITS_ANSWER);
    IS(pilhangko_metal_heaps_begin(&h, &bad, "\xff", &p), PILHANGKO_AWAITS_ANSWER);
    CHECK(is_untouched(&p));
    IS(pilhangko_metal_heaps_free(&h, &piece, &back), PILHANGKO_AWAITS_ANSWER);
    IS(pilhangko_metal_heaps_free(&h, &kept.piece, &back), PILHANGKO_AWAITS_ANSWER);
    CHECK(back.exists && back.heap == 3 && back.leaves);
    IS(pilhangko_metal_heaps_rename(&h, &piece, "name"), PILHANGKO_AWAITS_ANSWER);
    IS(pilhangko_metal_heaps_rename(&h, &kept.piece, "\xff"), PILHANGKO_AWAITS_ANSWER);
    IS(pilhangko_metal_heaps_set_word(&h, &piece, 1), PILHANGKO_AWAITS_ANSWER);
    IS(pilhangko_metal_heaps_set_word(&h, &kept.piece, 1), PILHANGKO_AWAITS_ANSWER);
    IS(pilhangko_metal_heaps_set_budget(&h, 0, true, 1), PILHANGKO_AWAITS_ANSWER);
    IS(pilhangko_metal_heaps_set_budget(&h, 9, true, 1), PILHANGKO_AWAITS_ANSWER);
    is_live(&h, &piece, true);
    has_capacity(&h, 8 * MB);
    IS(pilhangko_metal_heaps_budget(&h, 0, &budget), PILHANGKO_OK);
    CHECK(!budget.exists && budget.bytes == 0);
    piece = granted(&h, 2, true);
    frees(&h, &piece, true, 2, true);
    IS(pilhangko_metal_heaps_begin(&h, &own, NULL, &p), PILHANGKO_OK);
    IS(pilhangko_metal_heaps_destroy(&h), PILHANGKO_OK); /* with a question open */
}

static void budgets(void) {
    pilhangko_metal_heaps h = made();
    pilhangko_metal_heaps_request r = asks_device(100), own = asks_device(9 * MB);
    pilhangko_metal_heaps_progress p = untouched();
    pilhangko_budget budget = {false, 9};
    IS(pilhangko_metal_heaps_set_budget(&h, 0, true, 8 * MB), PILHANGKO_OK);
    IS(pilhangko_metal_heaps_set_budget(&h, 3, true, 1), PILHANGKO_NO_SUCH_TYPE);
    IS(pilhangko_metal_heaps_budget(&h, 0, &budget), PILHANGKO_OK);
    CHECK(budget.exists && budget.bytes == 8 * MB);
    IS(pilhangko_metal_heaps_budget(&h, 1, &budget), PILHANGKO_OK);
    CHECK(!budget.exists && budget.bytes == 0);
    IS(pilhangko_metal_heaps_begin(&h, &r, NULL, &p), PILHANGKO_OK); /* just within */
    granted(&h, 1, true);
    p = untouched();
    IS(pilhangko_metal_heaps_begin(&h, &own, NULL, &p), PILHANGKO_BUDGET_EXCEEDED);
    own.size = UINT64_MAX - 8 * MB + 1; /* the sum of all blocks' sizes decides before the budget does */
    IS(pilhangko_metal_heaps_begin(&h, &own, NULL, &p), PILHANGKO_OUT_OF_MEMORY);
    own.location = PILHANGKO_LOCATION_CPU_TO_GPU; /* of all memory types together */
    IS(pilhangko_metal_heaps_begin(&h, &own, NULL, &p), PILHANGKO_OUT_OF_MEMORY);
    CHECK(is_untouched(&p));
    own = asks_device(9 * MB);
    IS(pilhangko_metal_heaps_set_budget(&h, 0, false, 5), PILHANGKO_OK);
    IS(pilhangko_metal_heaps_budget(&h, 0, &budget), PILHANGKO_OK);
    CHECK(!budget.exists && budget.bytes == 0);
    IS(pilhangko_metal_heaps_begin(&h, &own, NULL, &p), PILHANGKO_OK);
    IS(pilhangko_metal_heaps_destroy(&h), PILHANGKO_OK);
}

static void request_statuses(void) {
    pilhangko_metal_heaps h = made();
    pilhangko_metal_heaps_request good = asks_device(100);
    pilhangko_metal_heaps_progress p = untouched();
    for (unsigned field = 0; field < 5; field++) {
        pilhangko_metal_heaps_request bad = good;
        if (field == 0) bad.size = 0;
        if (field == 1) bad.alignment = 0;
        if (field == 2) bad.alignment = 6;
        if (field == 3) bad.location = (pilhangko_location)0;
        if (field == 4) bad.location = (pilhangko_location)5;
        IS(pilhangko_metal_heaps_begin(&h, &bad, NULL, &p), PILHANGKO_INVALID);
    }
    IS(pilhangko_metal_heaps_begin(&h, &good, "\xfe", &p), PILHANGKO_INVALID);
    CHECK(is_untouched(&p));
    IS(pilhangko_metal_heaps_create(&h, &with_set), PILHANGKO_IN_USE);
    IS(pilhangko_metal_heaps_destroy(&h), PILHANGKO_OK);
}

static void piece_statuses(void) {
    pilhangko_metal_heaps h = made();
    pilhangko_metal_heaps_request good = asks_device(100);
    pilhangko_metal_heaps_progress p;
    pilhangko_metal_heap back = {true, 3, true};
    pilhangko_heaps_piece piece;
    IS(pilhangko_metal_heaps_begin(&h, &good, NULL, &p), PILHANGKO_OK);
    piece = granted(&h, 7, true);
    for (unsigned field = 0; field < 8; field++) {
        pilhangko_heaps_piece wrong = piece;
        if (field == 0) wrong.piece.slot++;
        if (field == 1) wrong.piece.number++;
        if (field == 2) wrong.piece.offset++;
        if (field == 3) wrong.piece.size--;
        if (field == 4) wrong.piece.block++;
        if (field == 5) wrong.piece.number = 0;
        if (field == 6) wrong.memory_type = 1;
        if (field == 7) wrong.memory_type = SIZE_MAX;
        is_live(&h, &wrong, false);
        IS(pilhangko_metal_heaps_free(&h, &wrong, &back), PILHANGKO_NOT_LIVE);
        IS(pilhangko_metal_heaps_rename(&h, &wrong, "name"), PILHANGKO_NOT_LIVE);
        IS(pilhangko_metal_heaps_rename(&h, &wrong, "\xff"), PILHANGKO_INVALID);
        IS(pilhangko_metal_heaps_set_word(&h, &wrong, 1), PILHANGKO_NOT_LIVE);
    }
    CHECK(back.exists && back.heap == 3 && back.leaves);
    IS(pilhangko_metal_heaps_rename(&h, &piece, "\xf5"), PILHANGKO_INVALID);
    IS(pilhangko_metal_heaps_rename(&h, &piece, "another name"), PILHANGKO_OK);
    frees(&h, &piece, false, 0, false);
    IS(pilhangko_metal_heaps_free(&h, &piece, &back), PILHANGKO_NOT_LIVE);
    IS(pilhangko_metal_heaps_destroy(&h), PILHANGKO_OK);
}

/* ---- words */

static void has_word(const pilhangko_metal_heaps *h, const pilhangko_heaps_piece *piece, uint64_t expected) {
    pilhangko_piece_view view = {.word = 77};
    size_t shown;
    IS(pilhangko_metal_heaps_pieces(h, piece->memory_type, piece->piece.slot, piece->piece.offset, &view, 1, &shown), PILHANGKO_OK);
    CHECK(shown == 1 && view.number == piece->piece.number && view.word == expected);
}

/* A word stays through renames, also of a piece that has a heap of its own, and the next piece in its place has none. */
static void words(void) {
    pilhangko_metal_heaps h = made();
    pilhangko_metal_heaps_request r = asks_device(100), large = asks_device(9 * MB);
    pilhangko_metal_heaps_progress p;
    pilhangko_heaps_piece piece, own;
    IS(pilhangko_metal_heaps_begin(&h, &r, NULL, &p), PILHANGKO_OK);
    piece = granted(&h, 1, true);
    IS(pilhangko_metal_heaps_begin(&h, &large, "own", &p), PILHANGKO_OK);
    own = granted(&h, 2, true);
    has_word(&h, &piece, 0);
    has_word(&h, &own, 0);
    IS(pilhangko_metal_heaps_set_word(&h, &piece, UINT64_MAX), PILHANGKO_OK);
    IS(pilhangko_metal_heaps_set_word(&h, &own, 7), PILHANGKO_OK);
    IS(pilhangko_metal_heaps_rename(&h, &piece, "a name that takes host memory of its own"), PILHANGKO_OK);
    IS(pilhangko_metal_heaps_rename(&h, &own, NULL), PILHANGKO_OK);
    has_word(&h, &piece, UINT64_MAX);
    has_word(&h, &own, 7);
    frees(&h, &piece, false, 0, false);
    IS(pilhangko_metal_heaps_begin(&h, &r, NULL, &p), PILHANGKO_OK);
    is_piece(&p.piece, 0, 0, 3, 0, 100, 1);
    IS(pilhangko_metal_heaps_set_word(&h, &piece, 1), PILHANGKO_NOT_LIVE);
    has_word(&h, &p.piece, 0);
    has_word(&h, &own, 7);
    IS(pilhangko_metal_heaps_destroy(&h), PILHANGKO_OK);
}

/* ---- visits, also while a question is open */

static pilhangko_metal_heaps with_three_pieces(void) {
    pilhangko_metal_heaps h = made();
    pilhangko_metal_heaps_request r = asks_device(100);
    pilhangko_metal_heaps_progress p;
    IS(pilhangko_metal_heaps_begin(&h, &r, "first", &p), PILHANGKO_OK);
    granted(&h, 1001, true);
    r.alignment = 256;
    IS(pilhangko_metal_heaps_begin(&h, &r, "se\"cond", &p), PILHANGKO_OK);
    is_piece(&p.piece, 0, 0, 3, 256, 100, 1001);
    r = asks(5 * MB, PILHANGKO_LOCATION_GPU_TO_CPU);
    IS(pilhangko_metal_heaps_begin(&h, &r, "own", &p), PILHANGKO_OK);
    is_question(&p, 5 * MB, 2, true);
    const pilhangko_heaps_piece own = granted(&h, 1002, true);
    is_piece(&own, 2, 0, 1, 0, 5 * MB, 1002);
    return h;
}

static void counts_of_types(const pilhangko_metal_heaps *h) {
    pilhangko_type_statistics s = {9, 9, 9, true, 9, 9, 9, 9, 9};
    uint64_t bytes = 9;
    IS(pilhangko_metal_heaps_type_capacity(h, 3, &bytes), PILHANGKO_NO_SUCH_TYPE);
    CHECK(bytes == 9);
    IS(pilhangko_metal_heaps_type_capacity(h, 2, &bytes), PILHANGKO_OK);
    CHECK(bytes == 5 * MB);
    IS(pilhangko_metal_heaps_type_statistics(h, 3, &s), PILHANGKO_NO_SUCH_TYPE);
    CHECK(s.capacity == 9 && s.slots == 9 && s.longest_gap == 9);
    IS(pilhangko_metal_heaps_type_statistics(h, 0, &s), PILHANGKO_OK);
    CHECK(s.capacity == 8 * MB && s.slots == 1 && s.shared_blocks == 1 && s.has_budget && s.budget == 9 * MB);
    CHECK(s.pieces == 2 && s.piece_bytes == 356 && s.gaps == 1 && s.longest_gap == 8 * MB - 356);
    IS(pilhangko_metal_heaps_statistics(h, &s), PILHANGKO_OK);
    CHECK(s.capacity == 13 * MB && s.slots == 2 && s.shared_blocks == 1 && !s.has_budget && s.budget == 0);
    CHECK(s.pieces == 3 && s.piece_bytes == 5 * MB + 356 && s.gaps == 1 && s.longest_gap == 8 * MB - 356);
}

static void blocks_of_slots(const pilhangko_metal_heaps *h) {
    pilhangko_metal_heap heap = {false, 9, false};
    pilhangko_memory_block_statistics s = {false, true, 9, 9, 9, 9, 9};
    IS(pilhangko_metal_heaps_block(h, 0, 0, &heap), PILHANGKO_OK);
    CHECK(heap.exists && heap.heap == 1001 && heap.leaves);
    IS(pilhangko_metal_heaps_block(h, 2, 0, &heap), PILHANGKO_OK);
    CHECK(heap.exists && heap.heap == 1002 && heap.leaves);
    IS(pilhangko_metal_heaps_block(h, 2, 1, &heap), PILHANGKO_OK);
    CHECK(!heap.exists && heap.heap == 0 && !heap.leaves);
    IS(pilhangko_metal_heaps_block(h, SIZE_MAX, 0, &heap), PILHANGKO_OK);
    CHECK(!heap.exists && heap.heap == 0 && !heap.leaves);
    IS(pilhangko_metal_heaps_block_statistics(h, 0, 0, &s), PILHANGKO_OK);
    CHECK(s.exists && s.shared && s.size == 8 * MB && s.pieces == 2 && s.piece_bytes == 356 && s.gaps == 1 && s.longest_gap == 8 * MB - 356);
    IS(pilhangko_metal_heaps_block_statistics(h, 3, 0, &s), PILHANGKO_OK);
    CHECK(!s.exists && !s.shared && s.size == 0 && s.pieces == 0 && s.piece_bytes == 0 && s.gaps == 0 && s.longest_gap == 0);
}

static void pieces_of_slots(const pilhangko_metal_heaps *h) {
    pilhangko_piece_view views[3];
    size_t count = 9, lengths[3];
    char names[12] = "...........";
    IS(pilhangko_metal_heaps_pieces(h, 0, 0, 0, views, 3, &count), PILHANGKO_OK);
    CHECK(count == 2 && views[0].exists && views[0].number == 2 && views[0].start == 0 && views[0].offset == 0 && views[0].end == 100);
    CHECK(views[1].number == 3 && views[1].start == 100 && views[1].offset == 256 && views[1].end == 356);
    IS(pilhangko_metal_heaps_pieces(h, 0, 0, 1, views, 3, &count), PILHANGKO_OK);
    CHECK(count == 1 && views[0].number == 3);
    IS(pilhangko_metal_heaps_pieces(h, 0, 0, 0, NULL, 0, &count), PILHANGKO_OK);
    CHECK(count == 0);
    IS(pilhangko_metal_heaps_piece_names(h, 0, 0, 0, lengths, 3, names, 11, &count), PILHANGKO_OK);
    CHECK(count == 2 && lengths[0] == 5 && lengths[1] == 7 && !strcmp(names, "firstse\"con"));
    IS(pilhangko_metal_heaps_piece_names(h, 0, 0, 1, lengths, 3, names, 11, &count), PILHANGKO_OK);
    CHECK(count == 1 && lengths[0] == 7 && !strncmp(names, "se\"cond\"con", 11));
    IS(pilhangko_metal_heaps_piece_names(h, 2, 1, 0, lengths, 3, names, 11, &count), PILHANGKO_OK);
    CHECK(count == 0);
}

static const char report_of_three[] =
    "{\"allocations\":[{\"name\":\"first\",\"offset\":0,\"size\":100},{\"name\":\"se\\\"cond\",\"offset\":256,\"size\":100},"
    "{\"name\":\"own\",\"offset\":0,\"size\":5242880}],\"blocks\":[{\"allocations\":{\"end\":2,\"start\":0},\"size\":8388608},"
    "{\"allocations\":{\"end\":3,\"start\":2},\"size\":5242880}],\"schema\":\"gpu_report.allocator\",\"total_allocated_bytes\":5243236,"
    "\"total_capacity_bytes\":13631488,\"version\":1}";
static const char second_leak[] = "leak detected: {\n    memory type: 0\n    memory block: 0\n    chunk: {\n        chunk_id: 3,\n"
                                  "        size: 0x100,\n        offset: 0x64,\n        allocation_type: Linear,\n"
                                  "        name: se\"cond\n    }\n}";

static void texts(const pilhangko_metal_heaps *h) {
    char text[500] = {0};
    size_t length = 9;
    IS(pilhangko_metal_heaps_report(h, NULL, 0, &length), PILHANGKO_OK);
    CHECK(length == strlen(report_of_three) && length < sizeof text);
    IS(pilhangko_metal_heaps_report(h, text, sizeof text, &length), PILHANGKO_OK);
    CHECK(!strcmp(text, report_of_three));
    memset(text, 0, sizeof text);
    IS(pilhangko_metal_heaps_leak(h, 1, text, sizeof text, &length), PILHANGKO_OK);
    CHECK(!strcmp(text, second_leak) && length == strlen(second_leak));
    memset(text, 0, sizeof text);
    IS(pilhangko_metal_heaps_leak(h, 3, text, sizeof text, &length), PILHANGKO_OK);
    CHECK(text[0] == 0 && length == 0);
    IS(pilhangko_metal_heaps_leak(h, 1, NULL, 0, &length), PILHANGKO_OK);
    CHECK(length == strlen(second_leak));
}

static void visits(void) {
    pilhangko_metal_heaps h = with_three_pieces();
    pilhangko_metal_heaps_request r = asks_device(8 * MB);
    pilhangko_metal_heaps_progress p;
    IS(pilhangko_metal_heaps_set_budget(&h, 0, true, 9 * MB), PILHANGKO_OK);
    counts_of_types(&h);
    IS(pilhangko_metal_heaps_set_budget(&h, 0, true, 16 * MB), PILHANGKO_OK);
    IS(pilhangko_metal_heaps_begin(&h, &r, "awaited", &p), PILHANGKO_OK);
    is_question(&p, 8 * MB, 0, false);
    blocks_of_slots(&h);
    pieces_of_slots(&h);
    texts(&h);
    IS(pilhangko_metal_heaps_destroy(&h), PILHANGKO_OK);
}

/* ---- empty handles, and pointers that are NULL */

static void each_call(pilhangko_metal_heaps *h, bool tells, pilhangko_status expected) {
    pilhangko_metal_heaps_request r = asks_device(100);
    pilhangko_metal_heaps_progress p;
    pilhangko_metal_heaps_grant grant;
    pilhangko_heaps_piece piece = {0, {0, 1, 0, 1, 1}};
    pilhangko_metal_heap shown;
    pilhangko_budget budget;
    pilhangko_type_statistics type;
    pilhangko_memory_block_statistics block;
    pilhangko_piece_view views[1];
    uint64_t bytes;
    size_t count, lengths[1];
    bool live;
    char text[1];
    IS(pilhangko_metal_heaps_begin(h, &r, NULL, tells ? &p : NULL), expected);
    IS(pilhangko_metal_heaps_granted(h, 1, tells ? &grant : NULL), expected);
    IS(pilhangko_metal_heaps_refused(h, tells ? &p : NULL), expected);
    IS(pilhangko_metal_heaps_free(h, &piece, tells ? &shown : NULL), expected);
    IS(pilhangko_metal_heaps_is_live(h, &piece, tells ? &live : NULL), expected);
    IS(pilhangko_metal_heaps_budget(h, 0, tells ? &budget : NULL), expected);
    IS(pilhangko_metal_heaps_capacity(h, tells ? &bytes : NULL), expected);
    IS(pilhangko_metal_heaps_type_statistics(h, 0, tells ? &type : NULL), expected);
    IS(pilhangko_metal_heaps_statistics(h, tells ? &type : NULL), expected);
    IS(pilhangko_metal_heaps_type_capacity(h, 0, tells ? &bytes : NULL), expected);
    IS(pilhangko_metal_heaps_block(h, 0, 0, tells ? &shown : NULL), expected);
    IS(pilhangko_metal_heaps_block_statistics(h, 0, 0, tells ? &block : NULL), expected);
    IS(pilhangko_metal_heaps_pieces(h, 0, 0, 0, views, 1, tells ? &count : NULL), expected);
    IS(pilhangko_metal_heaps_piece_names(h, 0, 0, 0, lengths, 1, text, 1, tells ? &count : NULL), expected);
    IS(pilhangko_metal_heaps_report(h, text, 1, tells ? &count : NULL), expected);
    IS(pilhangko_metal_heaps_leak(h, 0, text, 1, tells ? &count : NULL), expected);
    if (!tells) return;
    IS(pilhangko_metal_heaps_rename(h, &piece, NULL), expected);
    IS(pilhangko_metal_heaps_set_word(h, &piece, 1), expected);
    IS(pilhangko_metal_heaps_set_budget(h, 0, true, 1), expected);
    IS(pilhangko_metal_heaps_destroy(h), expected);
}

static void empty_handles_and_null(void) {
    pilhangko_metal_heaps h = {0};
    pilhangko_metal_heaps_progress p;
    pilhangko_metal_heap back;
    bool live;
    size_t count;
    char text[1];
    each_call(&h, true, PILHANGKO_NO_HANDLE);
    each_call(NULL, true, PILHANGKO_NULL_POINTER);
    each_call(&h, false, PILHANGKO_NULL_POINTER);
    IS(pilhangko_metal_heaps_create(NULL, &with_set), PILHANGKO_NULL_POINTER);
    IS(pilhangko_metal_heaps_create(&h, NULL), PILHANGKO_NULL_POINTER);
    IS(pilhangko_metal_heaps_begin(&h, NULL, NULL, &p), PILHANGKO_NULL_POINTER);
    IS(pilhangko_metal_heaps_free(&h, NULL, &back), PILHANGKO_NULL_POINTER);
    IS(pilhangko_metal_heaps_rename(&h, NULL, NULL), PILHANGKO_NULL_POINTER);
    IS(pilhangko_metal_heaps_set_word(&h, NULL, 1), PILHANGKO_NULL_POINTER);
    IS(pilhangko_metal_heaps_is_live(&h, NULL, &live), PILHANGKO_NULL_POINTER);
    IS(pilhangko_metal_heaps_pieces(&h, 0, 0, 0, NULL, 1, &count), PILHANGKO_NULL_POINTER);
    IS(pilhangko_metal_heaps_piece_names(&h, 0, 0, 0, NULL, 1, text, 1, &count), PILHANGKO_NULL_POINTER);
    IS(pilhangko_metal_heaps_piece_names(&h, 0, 0, 0, &count, 1, NULL, 1, &count), PILHANGKO_NULL_POINTER);
    IS(pilhangko_metal_heaps_report(&h, NULL, 1, &count), PILHANGKO_NULL_POINTER);
    IS(pilhangko_metal_heaps_leak(&h, 0, NULL, 1, &count), PILHANGKO_NULL_POINTER);
}

int main(void) {
    questions();
    rows(true);
    rows(false);
    refusals_of_the_device();
    out_of_turn();
    budgets();
    request_statuses();
    piece_statuses();
    words();
    visits();
    empty_handles_and_null();
    return 0;
}
