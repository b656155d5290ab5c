/* Memory types: rows that were worked out by hand, and each status of each call. */
#include "test.h"

#define MB (UINT64_C(1) << 20)

/* on the host's side blocks of 4 MB, doubling up to 8 MB; on the device's 8 MB */
static pilhangko_memory_type_settings settings(bool is_host) {
    pilhangko_memory_type_settings s = {is_host, 64, 8 * MB, 0, 4 * MB, 8 * MB, false, 0};
    return s;
}

static void needs(pilhangko_memory_type *type, uint64_t size, bool dedicated, uint64_t block_size, bool own) {
    pilhangko_memory_request request = {size, 1, PILHANGKO_KIND_LINEAR, dedicated};
    pilhangko_memory_prepared prepared = {false, false, 1, {1, 1, 1, 1, 1}};
    IS(pilhangko_memory_type_prepare(type, &request, "block", &prepared), PILHANGKO_OK);
    CHECK(prepared.needs_block && prepared.block_size == block_size && prepared.dedicated == own);
    CHECK(prepared.piece.number == 0 && prepared.piece.slot == 0 && prepared.piece.size == 0 && prepared.piece.offset == 0 &&
          prepared.piece.block == 0);
}

static void installs(
    pilhangko_memory_type *type, uint64_t block, size_t slot, uint64_t number, uint64_t size, pilhangko_memory_piece *piece) {
    IS(pilhangko_memory_type_install(type, block, piece), PILHANGKO_OK);
    CHECK(piece->slot == slot && piece->number == number && piece->offset == 0 && piece->size == size && piece->block == block);
}

static void allocates(pilhangko_memory_type *type, uint64_t size, size_t slot, uint64_t number, uint64_t offset, uint64_t block,
    pilhangko_memory_piece *piece) {
    pilhangko_memory_request request = {size, 1, PILHANGKO_KIND_LINEAR, false};
    pilhangko_memory_prepared prepared;
    IS(pilhangko_memory_type_prepare(type, &request, NULL, &prepared), PILHANGKO_OK);
    CHECK(!prepared.needs_block && !prepared.dedicated && prepared.block_size == 0);
    *piece = prepared.piece;
    CHECK(piece->slot == slot && piece->number == number && piece->offset == offset && piece->size == size && piece->block == block);
}

static void frees(pilhangko_memory_type *type, const pilhangko_memory_piece *piece, bool exists, uint64_t block) {
    pilhangko_memory_block gone = {!exists, block + 1};
    bool is_live = false;
    IS(pilhangko_memory_type_is_live(type, piece, &is_live), PILHANGKO_OK);
    CHECK(is_live);
    IS(pilhangko_memory_type_free(type, piece, &gone), PILHANGKO_OK);
    CHECK(gone.exists == exists && gone.block == (exists ? block : 0));
    IS(pilhangko_memory_type_is_live(type, piece, &is_live), PILHANGKO_OK);
    CHECK(!is_live);
}

static void counts(const pilhangko_memory_type *type, uint64_t capacity, size_t slots, size_t shared_blocks, bool awaits_block) {
    pilhangko_memory_statistics s;
    IS(pilhangko_memory_type_statistics(type, &s), PILHANGKO_OK);
    CHECK(s.capacity == capacity && s.slots == slots && s.shared_blocks == shared_blocks && s.awaits_block == awaits_block);
}

static void has_block(const pilhangko_memory_type *type, size_t slot, bool exists, uint64_t block) {
    pilhangko_memory_block b;
    IS(pilhangko_memory_type_block(type, slot, &b), PILHANGKO_OK);
    CHECK(b.exists == exists && b.block == (exists ? block : 0));
}

/* two pieces in a shared block, one in a second of twice its size, one larger than the next, and one that asks for a block of its own */
static void five_pieces(pilhangko_memory_type *type, pilhangko_memory_piece piece[5]) {
    pilhangko_memory_type_settings s = settings(true);
    IS(pilhangko_memory_type_create(type, &s), PILHANGKO_OK);
    counts(type, 0, 0, 0, false);
    needs(type, 100, false, 4 * MB, false);
    counts(type, 0, 0, 0, true);
    installs(type, 1001, 0, 2, 100, &piece[0]);
    allocates(type, 50, 0, 3, 100, 1001, &piece[1]);
    needs(type, 4 * MB, false, 8 * MB, false);
    installs(type, 1002, 1, 2, 4 * MB, &piece[2]);
    needs(type, 8 * MB + 1, false, 8 * MB + 1, true);
    installs(type, 1003, 2, 1, 8 * MB + 1, &piece[3]);
    needs(type, 10, true, 10, true);
    installs(type, 1004, 3, 1, 10, &piece[4]);
    counts(type, 4 * MB + 8 * MB + 8 * MB + 1 + 10, 4, 2, false);
}

static void blocks_come_and_go(void) {
    pilhangko_memory_type type = {0};
    pilhangko_memory_piece piece[5];
    five_pieces(&type, piece);
    has_block(&type, 0, true, 1001);
    has_block(&type, 3, true, 1004);
    has_block(&type, 4, false, 0);
    has_block(&type, SIZE_MAX, false, 0);
    frees(&type, &piece[3], true, 1003); /* a piece's own block goes */
    has_block(&type, 2, false, 0);
    frees(&type, &piece[0], false, 0);
    frees(&type, &piece[1], true, 1001); /* the first shared block is without pieces, and another one is live */
    frees(&type, &piece[2], false, 0);   /* the last shared block stays */
    counts(&type, 8 * MB + 10, 4, 1, false);
    allocates(&type, 7, 1, 3, 0, 1002, &piece[0]);
    needs(&type, 8 * MB, false, 8 * MB, false);
    installs(&type, 1005, 2, 1, 8 * MB, &piece[1]); /* the highest empty slot; the piece fills its block */
    needs(&type, 1, true, 1, true);
    installs(&type, 1006, 0, 1, 1, &piece[2]); /* the lowest empty slot */
    IS(pilhangko_memory_type_destroy(&type), PILHANGKO_OK);
    IS(pilhangko_memory_type_destroy(&type), PILHANGKO_NO_HANDLE);
}

static void statistics_of_blocks(void) {
    pilhangko_memory_type type = {0};
    pilhangko_memory_piece piece[5];
    five_pieces(&type, piece);
    pilhangko_memory_block_statistics counted;
    IS(pilhangko_memory_type_block_statistics(&type, 0, &counted), PILHANGKO_OK);
    CHECK(counted.exists && counted.shared && counted.size == 4 * MB);
    CHECK(counted.pieces == 2 && counted.piece_bytes == 150 && counted.gaps == 1 && counted.longest_gap == 4 * MB - 150);
    IS(pilhangko_memory_type_block_statistics(&type, 3, &counted), PILHANGKO_OK);
    CHECK(counted.exists && !counted.shared && counted.size == 10);
    CHECK(counted.pieces == 1 && counted.piece_bytes == 10 && counted.gaps == 0 && counted.longest_gap == 0);
    IS(pilhangko_memory_type_block_statistics(&type, 4, &counted), PILHANGKO_OK);
    CHECK(!counted.exists && counted.pieces == 0);
    IS(pilhangko_memory_type_destroy(&type), PILHANGKO_OK);
}

static void views_of_pieces(void) {
    pilhangko_memory_type type = {0};
    pilhangko_memory_piece piece[5];
    five_pieces(&type, piece);
    pilhangko_piece_view view;
    IS(pilhangko_memory_type_next_piece(&type, 0, 1, &view), PILHANGKO_OK);
    CHECK(view.exists && view.number == piece[1].number && view.start == 100 && view.offset == 100 && view.end == 150 &&
          view.kind == PILHANGKO_KIND_LINEAR);
    IS(pilhangko_memory_type_next_piece(&type, 0, 101, &view), PILHANGKO_OK);
    CHECK(!view.exists);
    pilhangko_piece_view views[3] = {{.number = 77}, {.number = 77}, {.number = 77}};
    size_t shown = 9;
    IS(pilhangko_memory_type_pieces(&type, 0, 0, views, 1, &shown), PILHANGKO_OK);
    CHECK(shown == 1 && views[0].exists && views[0].offset == 0 && views[1].number == 77);
    IS(pilhangko_memory_type_pieces(&type, 0, 1, views, 3, &shown), PILHANGKO_OK);
    CHECK(shown == 1 && views[0].number == 3 && views[0].offset == 100 && views[1].number == 77);
    IS(pilhangko_memory_type_pieces(&type, 9, 0, views, 3, &shown), PILHANGKO_OK);
    CHECK(shown == 0 && views[0].number == 3);
    IS(pilhangko_memory_type_next_piece(&type, 9, 0, &view), PILHANGKO_OK);
    CHECK(!view.exists);
    IS(pilhangko_memory_type_destroy(&type), PILHANGKO_OK);
}

static void names_of_pieces(void) {
    pilhangko_memory_type type = {0};
    pilhangko_memory_piece piece[5];
    five_pieces(&type, piece);
    char bytes[8] = "???????";
    size_t length, shown;
    IS(pilhangko_memory_type_piece_name(&type, 0, 0, bytes, 7, &length), PILHANGKO_OK);
    CHECK(length == 5 && !strcmp(bytes, "block??"));
    size_t lengths[2] = {77, 77};
    char names[8] = "???????";
    IS(pilhangko_memory_type_piece_names(&type, 0, 0, lengths, 2, names, 7, &shown), PILHANGKO_OK);
    CHECK(shown == 2 && lengths[0] == 5 && lengths[1] == 0 && !strcmp(names, "block??"));
    IS(pilhangko_memory_type_piece_names(&type, 9, 0, lengths, 2, names, 7, &shown), PILHANGKO_OK);
    CHECK(shown == 0 && lengths[0] == 5);
    IS(pilhangko_memory_type_piece_name(&type, 9, 0, bytes, 7, &length), PILHANGKO_OK);
    CHECK(length == 0 && !strcmp(bytes, "block??"));
    IS(pilhangko_memory_type_destroy(&type), PILHANGKO_OK);
}

static void sides(void) {
    pilhangko_memory_type type = {0};
    pilhangko_memory_type_settings s = settings(false);
    IS(pilhangko_memory_type_create(&type, &s), PILHANGKO_OK);
    needs(&type, 100, false, 8 * MB, false);
    IS(pilhangko_memory_type_abandon(&type), PILHANGKO_OK);
    IS(pilhangko_memory_type_destroy(&type), PILHANGKO_OK);
    s.device_block_size = 5 * MB; /* rounded up to 8 MB */
    IS(pilhangko_memory_type_create(&type, &s), PILHANGKO_OK);
    needs(&type, 100, false, 8 * MB, false);
    IS(pilhangko_memory_type_destroy(&type), PILHANGKO_OK);
    s.device_block_size = UINT64_MAX; /* 256 MB at most */
    IS(pilhangko_memory_type_create(&type, &s), PILHANGKO_OK);
    needs(&type, 100, false, 256 * MB, false);
    IS(pilhangko_memory_type_destroy(&type), PILHANGKO_OK);
}

static void budgets(void) {
    pilhangko_memory_type type = {0};
    pilhangko_memory_type_settings s = settings(true);
    pilhangko_memory_request request = {100, 1, PILHANGKO_KIND_LINEAR, true}, huge = {UINT64_MAX, 1, PILHANGKO_KIND_LINEAR, false};
    pilhangko_memory_prepared prepared = {false, false, 9, {9, 9, 9, 9, 9}};
    pilhangko_memory_statistics statistics;
    pilhangko_memory_piece piece;
    s.has_budget = true;
    s.budget = 4 * MB;
    IS(pilhangko_memory_type_create(&type, &s), PILHANGKO_OK);
    IS(pilhangko_memory_type_statistics(&type, &statistics), PILHANGKO_OK);
    CHECK(statistics.has_budget && statistics.budget == 4 * MB);
    needs(&type, 100, false, 4 * MB, false); /* just within */
    installs(&type, 1, 0, 2, 100, &piece);
    IS(pilhangko_memory_type_prepare(&type, &request, NULL, &prepared), PILHANGKO_BUDGET_EXCEEDED);
    IS(pilhangko_memory_type_prepare(&type, &huge, NULL, &prepared), PILHANGKO_OUT_OF_MEMORY); /* 2^64 + 4 MB - 1 */
    CHECK(prepared.block_size == 9 && prepared.piece.number == 9);
    counts(&type, 4 * MB, 1, 1, false);
    IS(pilhangko_memory_type_set_budget(&type, true, 0), PILHANGKO_OK); /* frees no block */
    allocates(&type, 100, 0, 3, 100, 1, &piece);
    IS(pilhangko_memory_type_set_budget(&type, false, 5), PILHANGKO_OK);
    IS(pilhangko_memory_type_statistics(&type, &statistics), PILHANGKO_OK);
    CHECK(!statistics.has_budget && statistics.budget == 0);
    IS(pilhangko_memory_type_prepare(&type, &huge, NULL, &prepared), PILHANGKO_OUT_OF_MEMORY);
    needs(&type, UINT64_MAX - 4 * MB, false, UINT64_MAX - 4 * MB, true);
    installs(&type, 2, 1, 1, UINT64_MAX - 4 * MB, &piece);
    counts(&type, UINT64_MAX, 2, 1, false);
    IS(pilhangko_memory_type_prepare(&type, &request, NULL, &prepared), PILHANGKO_OUT_OF_MEMORY);
    IS(pilhangko_memory_type_destroy(&type), PILHANGKO_OK);
}

static void has_word(const pilhangko_memory_type *type, const pilhangko_memory_piece *piece, uint64_t expected) {
    pilhangko_piece_view view = {.word = 77}, views[1] = {{.word = 77}};
    size_t shown;
    IS(pilhangko_memory_type_next_piece(type, piece->slot, piece->offset, &view), PILHANGKO_OK);
    IS(pilhangko_memory_type_pieces(type, piece->slot, piece->offset, views, 1, &shown), PILHANGKO_OK);
    CHECK(view.number == piece->number && view.word == expected && shown == 1 && views[0].word == expected);
}

/* A word stays through renames, also of a piece that has a block of its own, and the next piece in its place has none. */
static void words(void) {
    pilhangko_memory_type type = {0};
    const pilhangko_memory_type_settings s = settings(true);
    pilhangko_memory_piece piece, own, again;
    IS(pilhangko_memory_type_create(&type, &s), PILHANGKO_OK);
    needs(&type, 100, false, 4 * MB, false);
    installs(&type, 1, 0, 2, 100, &piece);
    needs(&type, 100, true, 100, true);
    installs(&type, 2, 1, 1, 100, &own);
    has_word(&type, &piece, 0);
    has_word(&type, &own, 0);
    IS(pilhangko_memory_type_set_word(&type, &piece, UINT64_MAX), PILHANGKO_OK);
    IS(pilhangko_memory_type_set_word(&type, &own, 7), PILHANGKO_OK);
    IS(pilhangko_memory_type_rename(&type, &piece, "a name that takes host memory of its own"), PILHANGKO_OK);
    IS(pilhangko_memory_type_rename(&type, &own, NULL), PILHANGKO_OK);
    has_word(&type, &piece, UINT64_MAX);
    has_word(&type, &own, 7);
    needs(&type, 4 * MB, false, 8 * MB, false);
    IS(pilhangko_memory_type_set_word(&type, &piece, 1), PILHANGKO_AWAITS_BLOCK);
    has_word(&type, &piece, UINT64_MAX);
    IS(pilhangko_memory_type_abandon(&type), PILHANGKO_OK);
    frees(&type, &piece, false, 0);
    allocates(&type, 100, 0, 3, 0, 1, &again);
    IS(pilhangko_memory_type_set_word(&type, &piece, 1), PILHANGKO_NOT_LIVE);
    has_word(&type, &again, 0);
    has_word(&type, &own, 7);
    IS(pilhangko_memory_type_destroy(&type), PILHANGKO_OK);
}

static void awaited(void) {
    pilhangko_memory_type type = {0};
    pilhangko_memory_type_settings s = settings(true);
    pilhangko_memory_request request = {100, 1, PILHANGKO_KIND_LINEAR, false}, bad = {0, 0, 0, false};
    pilhangko_memory_prepared prepared = {false, false, 9, {9, 9, 9, 9, 9}};
    pilhangko_memory_block gone = {true, 3};
    pilhangko_memory_piece piece, kept = {4, 4, 4, 4, 4};
    bool is_live;
    IS(pilhangko_memory_type_create(&type, &s), PILHANGKO_OK);
    IS(pilhangko_memory_type_install(&type, 1, &kept), PILHANGKO_AWAITS_NO_BLOCK);
    CHECK(kept.slot == 4 && kept.number == 4);
    IS(pilhangko_memory_type_abandon(&type), PILHANGKO_AWAITS_NO_BLOCK);
    needs(&type, 100, false, 4 * MB, false);
    installs(&type, 1, 0, 2, 100, &piece);
    needs(&type, 4 * MB, false, 8 * MB, false);
    IS(pilhangko_memory_type_prepare(&type, &request, NULL, &prepared), PILHANGKO_AWAITS_BLOCK);
    IS(pilhangko_memory_type_prepare(&type, &bad, NULL, &prepared), PILHANGKO_AWAITS_BLOCK);
    CHECK(prepared.block_size == 9);
    IS(pilhangko_memory_type_free(&type, &piece, &gone), PILHANGKO_AWAITS_BLOCK);
    IS(pilhangko_memory_type_free(&type, &kept, &gone), PILHANGKO_AWAITS_BLOCK);
    CHECK(gone.exists && gone.block == 3);
    IS(pilhangko_memory_type_rename(&type, &piece, "name"), PILHANGKO_AWAITS_BLOCK);
    IS(pilhangko_memory_type_set_budget(&type, true, 1), PILHANGKO_AWAITS_BLOCK);
    IS(pilhangko_memory_type_is_live(&type, &piece, &is_live), PILHANGKO_OK);
    CHECK(is_live);
    counts(&type, 4 * MB, 1, 1, true);
    IS(pilhangko_memory_type_abandon(&type), PILHANGKO_OK);
    IS(pilhangko_memory_type_abandon(&type), PILHANGKO_AWAITS_NO_BLOCK);
    counts(&type, 4 * MB, 1, 1, false);
    allocates(&type, 100, 0, 3, 100, 1, &piece);
    needs(&type, 4 * MB, false, 8 * MB, false);
    IS(pilhangko_memory_type_destroy(&type), PILHANGKO_OK); /* with a block awaited */
}

static void request_and_piece_statuses(void) {
    pilhangko_memory_type type = {0};
    pilhangko_memory_type_settings s = settings(true);
    const pilhangko_memory_request bad[] = {{0, 1, 1, false}, {1, 0, 1, false}, {1, 6, 1, true}, {1, 1, 0, false}, {1, 1, 3, false}};
    pilhangko_memory_request good = {1, 1, PILHANGKO_KIND_LINEAR, false};
    pilhangko_memory_prepared prepared = {false, false, 9, {9, 9, 9, 9, 9}};
    pilhangko_memory_piece piece;
    pilhangko_memory_block gone = {true, 3};
    bool is_live = true;
    IS(pilhangko_memory_type_create(&type, &s), PILHANGKO_OK);
    for (size_t i = 0; i < sizeof bad / sizeof bad[0]; i++)
        IS(pilhangko_memory_type_prepare(&type, &bad[i], NULL, &prepared), PILHANGKO_INVALID);
    IS(pilhangko_memory_type_prepare(&type, &good, "\xfe", &prepared), PILHANGKO_INVALID);
    CHECK(prepared.block_size == 9);
    needs(&type, 100, false, 4 * MB, false);
    installs(&type, 7, 0, 2, 100, &piece);
    for (unsigned field = 0; field < 6; field++) {
        pilhangko_memory_piece wrong = piece;
        if (field == 0) wrong.slot++;
        if (field == 1) wrong.number++;
        if (field == 2) wrong.offset++;
        if (field == 3) wrong.size--;
        if (field == 4) wrong.block++;
        if (field == 5) wrong.number = 0;
        is_live = true;
        IS(pilhangko_memory_type_is_live(&type, &wrong, &is_live), PILHANGKO_OK);
        CHECK(!is_live);
        IS(pilhangko_memory_type_free(&type, &wrong, &gone), PILHANGKO_NOT_LIVE);
        IS(pilhangko_memory_type_rename(&type, &wrong, "name"), PILHANGKO_NOT_LIVE);
        IS(pilhangko_memory_type_rename(&type, &wrong, "\xff"), PILHANGKO_INVALID);
        IS(pilhangko_memory_type_set_word(&type, &wrong, 1), PILHANGKO_NOT_LIVE);
    }
    CHECK(gone.exists && gone.block == 3);
    IS(pilhangko_memory_type_rename(&type, &piece, "\xf5"), PILHANGKO_INVALID);
    IS(pilhangko_memory_type_rename(&type, &piece, "another name"), PILHANGKO_OK);
    frees(&type, &piece, false, 0);
    IS(pilhangko_memory_type_free(&type, &piece, &gone), PILHANGKO_NOT_LIVE);
    IS(pilhangko_memory_type_destroy(&type), PILHANGKO_OK);
}

/* A place for each thing that a call reports. */
struct results {
    pilhangko_memory_prepared prepared;
    pilhangko_memory_block gone;
    pilhangko_memory_statistics statistics;
    pilhangko_memory_block_statistics counted;
    pilhangko_piece_view view;
    size_t length;
    bool is_live;
};

static void unmade_memory_type(void) {
    pilhangko_memory_type type = {0};
    pilhangko_memory_request request = {100, 1, PILHANGKO_KIND_LINEAR, false};
    pilhangko_memory_piece piece = {0, 1, 0, 1, 1};
    struct results to;
    IS(pilhangko_memory_type_prepare(&type, &request, NULL, &to.prepared), PILHANGKO_NO_HANDLE);
    IS(pilhangko_memory_type_install(&type, 1, &piece), PILHANGKO_NO_HANDLE);
    IS(pilhangko_memory_type_abandon(&type), PILHANGKO_NO_HANDLE);
    IS(pilhangko_memory_type_free(&type, &piece, &to.gone), PILHANGKO_NO_HANDLE);
    IS(pilhangko_memory_type_rename(&type, &piece, NULL), PILHANGKO_NO_HANDLE);
    IS(pilhangko_memory_type_set_word(&type, &piece, 1), PILHANGKO_NO_HANDLE);
    IS(pilhangko_memory_type_is_live(&type, &piece, &to.is_live), PILHANGKO_NO_HANDLE);
    IS(pilhangko_memory_type_set_budget(&type, true, 1), PILHANGKO_NO_HANDLE);
    IS(pilhangko_memory_type_block(&type, 0, &to.gone), PILHANGKO_NO_HANDLE);
    IS(pilhangko_memory_type_statistics(&type, &to.statistics), PILHANGKO_NO_HANDLE);
    IS(pilhangko_memory_type_block_statistics(&type, 0, &to.counted), PILHANGKO_NO_HANDLE);
    IS(pilhangko_memory_type_next_piece(&type, 0, 0, &to.view), PILHANGKO_NO_HANDLE);
    IS(pilhangko_memory_type_pieces(&type, 0, 0, &to.view, 1, &to.length), PILHANGKO_NO_HANDLE);
    IS(pilhangko_memory_type_piece_names(&type, 0, 0, NULL, 0, NULL, 0, &to.length), PILHANGKO_NO_HANDLE);
    IS(pilhangko_memory_type_piece_name(&type, 0, 0, NULL, 0, &to.length), PILHANGKO_NO_HANDLE);
    IS(pilhangko_memory_type_destroy(&type), PILHANGKO_NO_HANDLE);
}

static void created_once(void) {
    pilhangko_memory_type type = {0};
    pilhangko_memory_type_settings s = settings(true);
    pilhangko_memory_piece piece;
    s.page_size = 0;
    IS(pilhangko_memory_type_create(&type, &s), PILHANGKO_INVALID);
    s.page_size = 96;
    IS(pilhangko_memory_type_create(&type, &s), PILHANGKO_INVALID);
    s.page_size = 1;
    IS(pilhangko_memory_type_create(&type, &s), PILHANGKO_OK);
    needs(&type, 100, false, 4 * MB, false);
    installs(&type, 7, 0, 2, 100, &piece);
    IS(pilhangko_memory_type_create(&type, &s), PILHANGKO_IN_USE);
    s.page_size = 0;
    IS(pilhangko_memory_type_create(&type, &s), PILHANGKO_IN_USE);
    counts(&type, 4 * MB, 1, 1, false);
    IS(pilhangko_memory_type_destroy(&type), PILHANGKO_OK);
}

static void null_pointers_of_calls(void) {
    pilhangko_memory_type type = {0};
    pilhangko_memory_type_settings s = settings(true);
    pilhangko_memory_request request = {100, 1, PILHANGKO_KIND_LINEAR, false};
    pilhangko_memory_piece piece = {0, 1, 0, 1, 1};
    struct results to;
    IS(pilhangko_memory_type_create(NULL, &s), PILHANGKO_NULL_POINTER);
    IS(pilhangko_memory_type_create(&type, NULL), PILHANGKO_NULL_POINTER);
    IS(pilhangko_memory_type_prepare(NULL, &request, NULL, &to.prepared), PILHANGKO_NULL_POINTER);
    IS(pilhangko_memory_type_prepare(&type, NULL, NULL, &to.prepared), PILHANGKO_NULL_POINTER);
    IS(pilhangko_memory_type_prepare(&type, &request, NULL, NULL), PILHANGKO_NULL_POINTER);
    IS(pilhangko_memory_type_install(NULL, 1, &piece), PILHANGKO_NULL_POINTER);
    IS(pilhangko_memory_type_install(&type, 1, NULL), PILHANGKO_NULL_POINTER);
    IS(pilhangko_memory_type_abandon(NULL), PILHANGKO_NULL_POINTER);
    IS(pilhangko_memory_type_free(NULL, &piece, &to.gone), PILHANGKO_NULL_POINTER);
    IS(pilhangko_memory_type_free(&type, NULL, &to.gone), PILHANGKO_NULL_POINTER);
    IS(pilhangko_memory_type_free(&type, &piece, NULL), PILHANGKO_NULL_POINTER);
    IS(pilhangko_memory_type_rename(NULL, &piece, NULL), PILHANGKO_NULL_POINTER);
    IS(pilhangko_memory_type_rename(&type, NULL, NULL), PILHANGKO_NULL_POINTER);
    IS(pilhangko_memory_type_set_word(NULL, &piece, 1), PILHANGKO_NULL_POINTER);
    IS(pilhangko_memory_type_set_word(&type, NULL, 1), PILHANGKO_NULL_POINTER);
    IS(pilhangko_memory_type_is_live(NULL, &piece, &to.is_live), PILHANGKO_NULL_POINTER);
    IS(pilhangko_memory_type_is_live(&type, NULL, &to.is_live), PILHANGKO_NULL_POINTER);
    IS(pilhangko_memory_type_is_live(&type, &piece, NULL), PILHANGKO_NULL_POINTER);
    IS(pilhangko_memory_type_set_budget(NULL, true, 1), PILHANGKO_NULL_POINTER);
    IS(pilhangko_memory_type_destroy(NULL), PILHANGKO_NULL_POINTER);
}

static void null_pointers_of_visits(void) {
    pilhangko_memory_type type = {0};
    struct results to;
    IS(pilhangko_memory_type_block(NULL, 0, &to.gone), PILHANGKO_NULL_POINTER);
    IS(pilhangko_memory_type_block(&type, 0, NULL), PILHANGKO_NULL_POINTER);
    IS(pilhangko_memory_type_statistics(NULL, &to.statistics), PILHANGKO_NULL_POINTER);
    IS(pilhangko_memory_type_block_statistics(NULL, 0, &to.counted), PILHANGKO_NULL_POINTER);
    IS(pilhangko_memory_type_block_statistics(&type, 0, NULL), PILHANGKO_NULL_POINTER);
    IS(pilhangko_memory_type_next_piece(NULL, 0, 0, &to.view), PILHANGKO_NULL_POINTER);
    IS(pilhangko_memory_type_next_piece(&type, 0, 0, NULL), PILHANGKO_NULL_POINTER);
    IS(pilhangko_memory_type_pieces(NULL, 0, 0, &to.view, 1, &to.length), PILHANGKO_NULL_POINTER);
    IS(pilhangko_memory_type_pieces(&type, 0, 0, NULL, 1, &to.length), PILHANGKO_NULL_POINTER);
    IS(pilhangko_memory_type_pieces(&type, 0, 0, &to.view, 1, NULL), PILHANGKO_NULL_POINTER);
    IS(pilhangko_memory_type_piece_names(NULL, 0, 0, NULL, 0, NULL, 0, &to.length), PILHANGKO_NULL_POINTER);
    IS(pilhangko_memory_type_piece_names(&type, 0, 0, NULL, 1, NULL, 0, &to.length), PILHANGKO_NULL_POINTER);
    IS(pilhangko_memory_type_piece_names(&type, 0, 0, NULL, 0, NULL, 1, &to.length), PILHANGKO_NULL_POINTER);
    IS(pilhangko_memory_type_piece_names(&type, 0, 0, NULL, 0, NULL, 0, NULL), PILHANGKO_NULL_POINTER);
    IS(pilhangko_memory_type_piece_name(NULL, 0, 0, NULL, 0, &to.length), PILHANGKO_NULL_POINTER);
    IS(pilhangko_memory_type_piece_name(&type, 0, 0, NULL, 1, &to.length), PILHANGKO_NULL_POINTER);
    IS(pilhangko_memory_type_piece_name(&type, 0, 0, NULL, 0, NULL), PILHANGKO_NULL_POINTER);
    IS(pilhangko_memory_type_statistics(&type, NULL), PILHANGKO_NULL_POINTER);
}

int main(void) {
    blocks_come_and_go();
    statistics_of_blocks();
    views_of_pieces();
    names_of_pieces();
    sides();
    budgets();
    words();
    awaited();
    request_and_piece_statuses();
    unmade_memory_type();
    created_once();
    null_pointers_of_calls();
    null_pointers_of_visits();
    return 0;
}
