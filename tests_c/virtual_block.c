/* Virtual blocks: rows whose places were worked out by hand, and each status of each call. */
#include "test.h"

#define MANY ((size_t)400000)

static void allocates(pilhangko_virtual_block *block, uint64_t size, uint64_t alignment, uint32_t kind, uint64_t offset, uint64_t number,
    pilhangko_virtual_piece *piece) {
    pilhangko_virtual_request request = {size, alignment, kind};
    IS(pilhangko_virtual_block_allocate(block, &request, "piece", piece), PILHANGKO_OK);
    CHECK(piece->offset == offset);
    CHECK(piece->number == number);
}

static void has(const pilhangko_virtual_block *block, size_t pieces) {
    size_t count = 77;
    IS(pilhangko_virtual_block_leak_count(block, &count), PILHANGKO_OK);
    CHECK(count == pieces);
}

/* the shortest gap, of equal ones the first; alignment; numbers */
static void places(void) {
    pilhangko_virtual_block block = {0};
    pilhangko_virtual_piece a, b, c, d, e, f;
    IS(pilhangko_virtual_block_create(&block, 1000, 1), PILHANGKO_OK);
    allocates(&block, 100, 1, PILHANGKO_KIND_LINEAR, 0, 2, &a);
    allocates(&block, 50, 1, PILHANGKO_KIND_LINEAR, 100, 3, &b);
    allocates(&block, 100, 1, PILHANGKO_KIND_NON_LINEAR, 150, 4, &c);
    allocates(&block, 60, 64, PILHANGKO_KIND_LINEAR, 256, 5, &d); /* padding from 250 to 256 */
    has(&block, 4);
    IS(pilhangko_virtual_block_free(&block, &b), PILHANGKO_OK);
    IS(pilhangko_virtual_block_free(&block, &b), PILHANGKO_NOT_LIVE);
    allocates(&block, 40, 1, PILHANGKO_KIND_LINEAR, 100, 6, &e); /* the gap of 50, not the rest of the block */
    allocates(&block, 10, 1, PILHANGKO_KIND_LINEAR, 140, 3, &f); /* fills it: the gap's number */
    IS(pilhangko_virtual_block_free(&block, &a), PILHANGKO_OK);
    IS(pilhangko_virtual_block_free(&block, &e), PILHANGKO_OK); /* joins the gap before it: [0, 140) */
    allocates(&block, 140, 1, PILHANGKO_KIND_LINEAR, 0, 2, &a);
    IS(pilhangko_virtual_block_free(&block, &e), PILHANGKO_NOT_LIVE);
    has(&block, 4);
    IS(pilhangko_virtual_block_destroy(&block), PILHANGKO_OK);
}

/* pieces of different kinds share no page of 64 bytes */
static void pages(void) {
    pilhangko_virtual_block block = {0};
    pilhangko_virtual_piece a, b, c;
    IS(pilhangko_virtual_block_create(&block, 256, 64), PILHANGKO_OK);
    allocates(&block, 10, 1, PILHANGKO_KIND_LINEAR, 0, 2, &a);
    allocates(&block, 10, 1, PILHANGKO_KIND_LINEAR, 10, 3, &b);
    allocates(&block, 10, 1, PILHANGKO_KIND_NON_LINEAR, 64, 4, &c);
    IS(pilhangko_virtual_block_destroy(&block), PILHANGKO_OK);
}

/* a block of 1,000 bytes with a piece in [10, 74), of which 54 bytes are padding, and one in [74, 90), of which 6 are */
static void two_of_three(pilhangko_virtual_block *block, pilhangko_virtual_piece pieces[3]) {
    pilhangko_virtual_statistics s;
    IS(pilhangko_virtual_block_create(block, 1000, 64), PILHANGKO_OK);
    allocates(block, 10, 1, PILHANGKO_KIND_LINEAR, 0, 2, &pieces[0]);
    allocates(block, 10, 1, PILHANGKO_KIND_NON_LINEAR, 64, 3, &pieces[1]);
    allocates(block, 10, 16, PILHANGKO_KIND_NON_LINEAR, 80, 4, &pieces[2]);
    IS(pilhangko_virtual_block_statistics(block, &s), PILHANGKO_OK);
    CHECK(s.size == 1000 && s.pieces == 3 && s.piece_bytes == 90 && s.gaps == 1 && s.longest_gap == 910);
    IS(pilhangko_virtual_block_free(block, &pieces[0]), PILHANGKO_OK);
    IS(pilhangko_virtual_block_statistics(block, &s), PILHANGKO_OK);
    CHECK(s.size == 1000 && s.pieces == 2 && s.piece_bytes == 80 && s.gaps == 2 && s.longest_gap == 910);
}

static void visit_by_steps(void) {
    pilhangko_virtual_block block = {0};
    pilhangko_virtual_piece pieces[3];
    pilhangko_piece_view view;
    two_of_three(&block, pieces);
    size_t seen = 0;
    for (uint64_t from = 0;; from = view.offset + 1) {
        IS(pilhangko_virtual_block_next_piece(&block, from, &view), PILHANGKO_OK);
        if (!view.exists) break;
        seen++;
        CHECK(view.number == pieces[seen].number && view.offset == pieces[seen].offset && view.kind == PILHANGKO_KIND_NON_LINEAR);
        CHECK(view.start == (seen == 1 ? 10 : 74) && view.end == (seen == 1 ? 74 : 90));
    }
    CHECK(seen == 2 && view.number == 0 && view.start == 0 && view.offset == 0 && view.end == 0 && view.kind == 0);
    IS(pilhangko_virtual_block_next_piece(&block, UINT64_MAX, &view), PILHANGKO_OK);
    CHECK(!view.exists);
    IS(pilhangko_virtual_block_destroy(&block), PILHANGKO_OK);
}

static void visit_by_one_call(void) {
    pilhangko_virtual_block block = {0};
    pilhangko_virtual_piece pieces[3];
    two_of_three(&block, pieces);
    pilhangko_piece_view views[3] = {{.number = 77}, {.number = 77}, {.number = 77}};
    size_t shown = 9;
    IS(pilhangko_virtual_block_pieces(&block, 0, views, 3, &shown), PILHANGKO_OK);
    CHECK(shown == 2 && views[0].number == pieces[1].number && views[1].number == pieces[2].number && views[2].number == 77);
    CHECK(views[1].exists && views[1].start == 74 && views[1].offset == 80 && views[1].end == 90);
    CHECK(views[1].kind == PILHANGKO_KIND_NON_LINEAR);
    IS(pilhangko_virtual_block_pieces(&block, 65, &views[2], 1, &shown), PILHANGKO_OK);
    CHECK(shown == 1 && views[2].number == pieces[2].number);
    IS(pilhangko_virtual_block_pieces(&block, 81, views, 3, &shown), PILHANGKO_OK);
    CHECK(shown == 0 && views[0].number == pieces[1].number);
    IS(pilhangko_virtual_block_pieces(&block, 0, NULL, 0, &shown), PILHANGKO_OK);
    CHECK(shown == 0);
    IS(pilhangko_virtual_block_destroy(&block), PILHANGKO_OK);
}

static void one_name(void) {
    pilhangko_virtual_block block = {0};
    pilhangko_virtual_piece pieces[3];
    two_of_three(&block, pieces);
    char bytes[8] = "???????";
    size_t length = 9;
    IS(pilhangko_virtual_block_rename(&block, &pieces[2], "name"), PILHANGKO_OK);
    IS(pilhangko_virtual_block_piece_name(&block, 80, bytes, 7, &length), PILHANGKO_OK);
    CHECK(length == 4 && !strcmp(bytes, "name???"));
    IS(pilhangko_virtual_block_piece_name(&block, 0, bytes, 2, &length), PILHANGKO_OK);
    CHECK(length == 5 && !strcmp(bytes, "pime???"));
    IS(pilhangko_virtual_block_piece_name(&block, 81, bytes, 7, &length), PILHANGKO_OK);
    CHECK(length == 0 && !strcmp(bytes, "pime???"));
    IS(pilhangko_virtual_block_piece_name(&block, 0, NULL, 0, &length), PILHANGKO_OK);
    CHECK(length == 5);
    IS(pilhangko_virtual_block_destroy(&block), PILHANGKO_OK);
    IS(pilhangko_virtual_block_piece_name(&block, 0, bytes, 7, &length), PILHANGKO_NO_HANDLE);
    CHECK(length == 5 && !strcmp(bytes, "pime???"));
}

static void all_names(void) {
    pilhangko_virtual_block block = {0};
    pilhangko_virtual_piece pieces[3];
    two_of_three(&block, pieces);
    IS(pilhangko_virtual_block_rename(&block, &pieces[2], "name"), PILHANGKO_OK);
    size_t lengths[3] = {77, 77, 77}, shown;
    char names[12] = "???????????";
    IS(pilhangko_virtual_block_piece_names(&block, 0, lengths, 3, names, 11, &shown), PILHANGKO_OK);
    CHECK(shown == 2 && lengths[0] == 5 && lengths[1] == 4 && lengths[2] == 77 && !strcmp(names, "piecename??"));
    IS(pilhangko_virtual_block_piece_names(&block, 65, lengths, 1, names, 2, &shown), PILHANGKO_OK);
    CHECK(shown == 1 && lengths[0] == 4 && lengths[1] == 4 && !strcmp(names, "naecename??"));
    IS(pilhangko_virtual_block_piece_names(&block, 0, lengths, 1, names, 11, &shown), PILHANGKO_OK);
    CHECK(shown == 1 && lengths[0] == 5 && !strcmp(names, "piecename??"));
    IS(pilhangko_virtual_block_piece_names(&block, 0, NULL, 0, NULL, 0, &shown), PILHANGKO_OK);
    CHECK(shown == 0);
    IS(pilhangko_virtual_block_destroy(&block), PILHANGKO_OK);
    IS(pilhangko_virtual_block_piece_names(&block, 0, lengths, 3, names, 11, &shown), PILHANGKO_NO_HANDLE);
    CHECK(shown == 0 && !strcmp(names, "piecename??"));
}

static void has_word(const pilhangko_virtual_block *block, uint64_t expected) {
    pilhangko_piece_view view = {.word = 77}, views[1] = {{.word = 77}};
    size_t shown;
    IS(pilhangko_virtual_block_next_piece(block, 0, &view), PILHANGKO_OK);
    IS(pilhangko_virtual_block_pieces(block, 0, views, 1, &shown), PILHANGKO_OK);
    CHECK(view.exists && view.word == expected && shown == 1 && views[0].word == expected);
}

/* A word stays through renames, and the next piece in its place has none. */
static void words(void) {
    pilhangko_virtual_block block = {0};
    pilhangko_virtual_piece piece, again;
    pilhangko_piece_view view = {.word = 77};
    IS(pilhangko_virtual_block_create(&block, 100, 1), PILHANGKO_OK);
    IS(pilhangko_virtual_block_next_piece(&block, 0, &view), PILHANGKO_OK);
    CHECK(!view.exists && view.word == 0);
    allocates(&block, 10, 1, PILHANGKO_KIND_LINEAR, 0, 2, &piece);
    has_word(&block, 0);
    IS(pilhangko_virtual_block_set_word(&block, &piece, UINT64_MAX), PILHANGKO_OK);
    has_word(&block, UINT64_MAX);
    IS(pilhangko_virtual_block_set_word(&block, &piece, 7), PILHANGKO_OK);
    IS(pilhangko_virtual_block_rename(&block, &piece, "a name that takes host memory of its own"), PILHANGKO_OK);
    has_word(&block, 7);
    IS(pilhangko_virtual_block_rename(&block, &piece, NULL), PILHANGKO_OK);
    has_word(&block, 7);
    IS(pilhangko_virtual_block_free(&block, &piece), PILHANGKO_OK);
    allocates(&block, 10, 1, PILHANGKO_KIND_LINEAR, 0, 3, &again);
    IS(pilhangko_virtual_block_set_word(&block, &piece, 8), PILHANGKO_NOT_LIVE);
    has_word(&block, 0);
    IS(pilhangko_virtual_block_set_word(&block, &again, 9), PILHANGKO_OK);
    IS(pilhangko_virtual_block_clear(&block), PILHANGKO_OK);
    allocates(&block, 10, 1, PILHANGKO_KIND_LINEAR, 0, 2, &again);
    has_word(&block, 0);
    IS(pilhangko_virtual_block_destroy(&block), PILHANGKO_OK);
}

static void readings_of_no_block(void) {
    pilhangko_virtual_block block = {0};
    pilhangko_virtual_statistics s = {.size = 3};
    pilhangko_piece_view view = {.number = 4};
    size_t shown = 0;
    IS(pilhangko_virtual_block_statistics(&block, &s), PILHANGKO_NO_HANDLE);
    IS(pilhangko_virtual_block_next_piece(&block, 0, &view), PILHANGKO_NO_HANDLE);
    IS(pilhangko_virtual_block_pieces(&block, 0, &view, 1, &shown), PILHANGKO_NO_HANDLE);
    CHECK(s.size == 3 && view.number == 4 && shown == 0);
}

/* a visit of many pieces by one call, which would take minutes if each step began at the front */
static void visit_of_many(void) {
    static pilhangko_piece_view views[MANY + 1];
    pilhangko_virtual_block block = {0};
    pilhangko_virtual_piece piece;
    size_t shown;
    IS(pilhangko_virtual_block_create(&block, 2 * MANY, 1), PILHANGKO_OK);
    for (size_t i = 0; i < MANY; i++) allocates(&block, 2, 1, PILHANGKO_KIND_LINEAR, 2 * i, i + 1 < MANY ? i + 2 : 1, &piece);
    IS(pilhangko_virtual_block_pieces(&block, 0, views, MANY + 1, &shown), PILHANGKO_OK);
    CHECK(shown == MANY && !views[MANY].exists);
    for (size_t i = 0; i < MANY; i++) CHECK(views[i].offset == 2 * i && views[i].number == (i + 1 < MANY ? i + 2 : 1));
    IS(pilhangko_virtual_block_destroy(&block), PILHANGKO_OK);
}

static void allocate_statuses(void) {
    pilhangko_virtual_block block = {0};
    pilhangko_virtual_piece piece = {11, 22};
    pilhangko_virtual_request good = {10, 1, PILHANGKO_KIND_LINEAR};
    const pilhangko_virtual_request bad[] = {{0, 1, 1}, {10, 0, 1}, {10, 3, 1}, {10, 1, 0}, {10, 1, 3}, {10, UINT64_MAX, 2}, {0, 0, 0}};
    IS(pilhangko_virtual_block_allocate(&block, &good, NULL, &piece), PILHANGKO_NO_HANDLE);
    IS(pilhangko_virtual_block_create(&block, 100, 16), PILHANGKO_OK);
    for (size_t i = 0; i < sizeof bad / sizeof bad[0]; i++)
        IS(pilhangko_virtual_block_allocate(&block, &bad[i], NULL, &piece), PILHANGKO_INVALID);
    IS(pilhangko_virtual_block_allocate(&block, &good, "\xff", &piece), PILHANGKO_INVALID);
    IS(pilhangko_virtual_block_allocate(&block, &good, "half \xc3", &piece), PILHANGKO_INVALID);
    pilhangko_virtual_request large = {101, 1, PILHANGKO_KIND_LINEAR}, largest = {UINT64_MAX, 1, PILHANGKO_KIND_LINEAR},
                              aligned = {10, UINT64_C(1) << 63, PILHANGKO_KIND_LINEAR};
    IS(pilhangko_virtual_block_allocate(&block, &large, NULL, &piece), PILHANGKO_OUT_OF_MEMORY);
    IS(pilhangko_virtual_block_allocate(&block, &largest, NULL, &piece), PILHANGKO_OUT_OF_MEMORY);
    CHECK(piece.offset == 11 && piece.number == 22);
    has(&block, 0);
    IS(pilhangko_virtual_block_allocate(&block, &aligned, NULL, &piece), PILHANGKO_OK); /* offset 0 has every alignment */
    IS(pilhangko_virtual_block_allocate(&block, &aligned, NULL, &piece), PILHANGKO_OUT_OF_MEMORY);
    IS(pilhangko_virtual_block_allocate(&block, &good, "h\xc3\xa4lft", &piece), PILHANGKO_OK);
    IS(pilhangko_virtual_block_destroy(&block), PILHANGKO_OK);
}

static void handle_statuses(void) {
    pilhangko_virtual_block block = {0};
    pilhangko_virtual_piece piece = {0, 2}, allocated;
    size_t count = 5;
    IS(pilhangko_virtual_block_free(&block, &piece), PILHANGKO_NO_HANDLE);
    IS(pilhangko_virtual_block_rename(&block, &piece, "a"), PILHANGKO_NO_HANDLE);
    IS(pilhangko_virtual_block_set_word(&block, &piece, 1), PILHANGKO_NO_HANDLE);
    IS(pilhangko_virtual_block_clear(&block), PILHANGKO_NO_HANDLE);
    IS(pilhangko_virtual_block_leak_count(&block, &count), PILHANGKO_NO_HANDLE);
    CHECK(count == 5);
    IS(pilhangko_virtual_block_destroy(&block), PILHANGKO_NO_HANDLE);
    IS(pilhangko_virtual_block_create(&block, 0, 1), PILHANGKO_INVALID);
    IS(pilhangko_virtual_block_create(&block, 100, 0), PILHANGKO_INVALID);
    IS(pilhangko_virtual_block_create(&block, 100, 48), PILHANGKO_INVALID);
    IS(pilhangko_virtual_block_destroy(&block), PILHANGKO_NO_HANDLE);
    IS(pilhangko_virtual_block_create(&block, UINT64_MAX, UINT64_C(1) << 63), PILHANGKO_OK);
    allocates(&block, UINT64_MAX, 1, PILHANGKO_KIND_LINEAR, 0, 1, &allocated);
    IS(pilhangko_virtual_block_create(&block, 100, 1), PILHANGKO_IN_USE);
    IS(pilhangko_virtual_block_create(&block, 0, 0), PILHANGKO_IN_USE);
    has(&block, 1);
    IS(pilhangko_virtual_block_destroy(&block), PILHANGKO_OK);
    IS(pilhangko_virtual_block_destroy(&block), PILHANGKO_NO_HANDLE);
}

static void piece_statuses(void) {
    pilhangko_virtual_block block = {0};
    pilhangko_virtual_piece a, b;
    IS(pilhangko_virtual_block_create(&block, 100, 1), PILHANGKO_OK);
    allocates(&block, 10, 1, PILHANGKO_KIND_LINEAR, 0, 2, &a);
    pilhangko_virtual_piece wrong[] = {{0, 0}, {1, 2}, {0, 3}, {0, 1}, {10, 1}, {UINT64_MAX, UINT64_MAX}};
    for (size_t i = 0; i < sizeof wrong / sizeof wrong[0]; i++) {
        IS(pilhangko_virtual_block_free(&block, &wrong[i]), PILHANGKO_NOT_LIVE);
        IS(pilhangko_virtual_block_rename(&block, &wrong[i], "name"), PILHANGKO_NOT_LIVE);
        IS(pilhangko_virtual_block_rename(&block, &wrong[i], "\x80"), PILHANGKO_INVALID);
        IS(pilhangko_virtual_block_set_word(&block, &wrong[i], 1), PILHANGKO_NOT_LIVE);
    }
    IS(pilhangko_virtual_block_rename(&block, &a, "\xed\xa0\x80"), PILHANGKO_INVALID); /* a surrogate */
    IS(pilhangko_virtual_block_rename(&block, &a, "another name"), PILHANGKO_OK);
    IS(pilhangko_virtual_block_rename(&block, &a, NULL), PILHANGKO_OK);
    has(&block, 1);
    allocates(&block, 10, 1, PILHANGKO_KIND_NON_LINEAR, 10, 3, &b);
    IS(pilhangko_virtual_block_clear(&block), PILHANGKO_OK);
    has(&block, 0);
    IS(pilhangko_virtual_block_free(&block, &a), PILHANGKO_NOT_LIVE);
    allocates(&block, 100, 1, PILHANGKO_KIND_LINEAR, 0, 1, &b);
    IS(pilhangko_virtual_block_destroy(&block), PILHANGKO_OK);
}

static void null_pointers(void) {
    pilhangko_virtual_block block = {0};
    pilhangko_virtual_request request = {10, 1, PILHANGKO_KIND_LINEAR};
    pilhangko_virtual_piece piece = {0, 0};
    pilhangko_virtual_statistics statistics;
    pilhangko_piece_view view;
    size_t count;
    IS(pilhangko_virtual_block_create(NULL, 1, 1), PILHANGKO_NULL_POINTER);
    IS(pilhangko_virtual_block_allocate(NULL, &request, NULL, &piece), PILHANGKO_NULL_POINTER);
    IS(pilhangko_virtual_block_allocate(&block, NULL, NULL, &piece), PILHANGKO_NULL_POINTER);
    IS(pilhangko_virtual_block_allocate(&block, &request, NULL, NULL), PILHANGKO_NULL_POINTER);
    IS(pilhangko_virtual_block_free(NULL, &piece), PILHANGKO_NULL_POINTER);
    IS(pilhangko_virtual_block_free(&block, NULL), PILHANGKO_NULL_POINTER);
    IS(pilhangko_virtual_block_rename(NULL, &piece, NULL), PILHANGKO_NULL_POINTER);
    IS(pilhangko_virtual_block_rename(&block, NULL, NULL), PILHANGKO_NULL_POINTER);
    IS(pilhangko_virtual_block_set_word(NULL, &piece, 1), PILHANGKO_NULL_POINTER);
    IS(pilhangko_virtual_block_set_word(&block, NULL, 1), PILHANGKO_NULL_POINTER);
    IS(pilhangko_virtual_block_clear(NULL), PILHANGKO_NULL_POINTER);
    IS(pilhangko_virtual_block_leak_count(NULL, &count), PILHANGKO_NULL_POINTER);
    IS(pilhangko_virtual_block_leak_count(&block, NULL), PILHANGKO_NULL_POINTER);
    IS(pilhangko_virtual_block_statistics(NULL, &statistics), PILHANGKO_NULL_POINTER);
    IS(pilhangko_virtual_block_statistics(&block, NULL), PILHANGKO_NULL_POINTER);
    IS(pilhangko_virtual_block_next_piece(NULL, 0, &view), PILHANGKO_NULL_POINTER);
    IS(pilhangko_virtual_block_next_piece(&block, 0, NULL), PILHANGKO_NULL_POINTER);
    IS(pilhangko_virtual_block_pieces(NULL, 0, &view, 1, &count), PILHANGKO_NULL_POINTER);
    IS(pilhangko_virtual_block_pieces(&block, 0, NULL, 1, &count), PILHANGKO_NULL_POINTER);
    IS(pilhangko_virtual_block_pieces(&block, 0, &view, 1, NULL), PILHANGKO_NULL_POINTER);
    IS(pilhangko_virtual_block_piece_names(NULL, 0, NULL, 0, NULL, 0, &count), PILHANGKO_NULL_POINTER);
    IS(pilhangko_virtual_block_piece_names(&block, 0, NULL, 1, NULL, 0, &count), PILHANGKO_NULL_POINTER);
    IS(pilhangko_virtual_block_piece_names(&block, 0, NULL, 0, NULL, 1, &count), PILHANGKO_NULL_POINTER);
    IS(pilhangko_virtual_block_piece_names(&block, 0, NULL, 0, NULL, 0, NULL), PILHANGKO_NULL_POINTER);
    IS(pilhangko_virtual_block_piece_name(NULL, 0, NULL, 0, &count), PILHANGKO_NULL_POINTER);
    IS(pilhangko_virtual_block_piece_name(&block, 0, NULL, 1, &count), PILHANGKO_NULL_POINTER);
    IS(pilhangko_virtual_block_piece_name(&block, 0, NULL, 0, NULL), PILHANGKO_NULL_POINTER);
    IS(pilhangko_virtual_block_destroy(NULL), PILHANGKO_NULL_POINTER);
}

/* each status has a name and a text of its own */
static void status_words(void) {
    const pilhangko_status statuses[] = {PILHANGKO_OK, PILHANGKO_OUT_OF_MEMORY, PILHANGKO_INVALID, PILHANGKO_NOT_LIVE,
        PILHANGKO_HOST_OUT_OF_MEMORY, PILHANGKO_BUDGET_EXCEEDED, PILHANGKO_NO_HANDLE, PILHANGKO_IN_USE, PILHANGKO_AWAITS_BLOCK,
        PILHANGKO_AWAITS_NO_BLOCK, PILHANGKO_NULL_POINTER, PILHANGKO_FAILED_TO_MAP, PILHANGKO_NO_MEMORY_TYPE, PILHANGKO_INVALID_DEVICE,
        PILHANGKO_DRIVER_REFUSED, PILHANGKO_NO_SUCH_TYPE, PILHANGKO_TOO_MANY_TYPES, PILHANGKO_NO_SUCH_HEAP, PILHANGKO_AWAITS_ANSWER,
        PILHANGKO_AWAITS_NO_ANSWER, PILHANGKO_TOO_MANY_FRAMES, PILHANGKO_LAYOUT_NEEDS_DEVICE10, PILHANGKO_FORMATS_NEED_LAYOUT,
        PILHANGKO_FORMATS_NEED_DEVICE12, PILHANGKO_INVALID_TIER, 17};
    const size_t count = sizeof statuses / sizeof statuses[0];
    for (size_t i = 0; i < count; i++)
        for (size_t j = 0; j < i; j++) {
            CHECK(strcmp(pilhangko_status_name(statuses[i]), pilhangko_status_name(statuses[j])) != 0);
            CHECK(strcmp(pilhangko_status_text(statuses[i]), pilhangko_status_text(statuses[j])) != 0);
        }
    CHECK(!strcmp(pilhangko_status_name(PILHANGKO_BUDGET_EXCEEDED), "PILHANGKO_BUDGET_EXCEEDED"));
    CHECK(!strcmp(pilhangko_status_name(17), "unknown status") && !strcmp(pilhangko_status_text(17), "unknown status"));
}

int main(void) {
    places();
    pages();
    visit_by_steps();
    visit_by_one_call();
    one_name();
    all_names();
    words();
    readings_of_no_block();
    visit_of_many();
    allocate_statuses();
    handle_statuses();
    piece_statuses();
    null_pointers();
    status_words();
    return 0;
}
