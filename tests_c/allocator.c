/* Allocators: rows that were worked out by hand, and each status of each call. */
#include "test.h"

#define MB (UINT64_C(1) << 20)

/* memory type 0 is the device's, 1 the host's, 2 the device's that the host can see, in a small heap */
static const pilhangko_device_memory_type types[] = {{1, 0}, {6, 1}, {7, 2}};
static const pilhangko_device_heap heaps[] = {{1024 * MB, 1}, {512 * MB, 0}, {16 * MB, 1}};

/* on the host's side blocks of 4 MB, doubling up to 8 MB; on the device's 8 MB */
static const pilhangko_allocator_settings settings = {64, 8 * MB, 0, 4 * MB, 8 * MB};

/* where the tests' driver maps its memory */
static uint64_t address_of(bool mapped, uint64_t memory) {
    return mapped ? memory << 32 : 0;
}

static pilhangko_allocator made(void) {
    pilhangko_allocator a = {0};
    IS(pilhangko_allocator_create(&a, types, 3, heaps, 3, &settings), PILHANGKO_OK);
    return a;
}

static pilhangko_allocator_request asks(uint64_t size, uint32_t bits, uint32_t location) {
    pilhangko_allocator_request r = {size, 1, bits, PILHANGKO_KIND_LINEAR, location, PILHANGKO_SCHEME_MANAGED, 0};
    return r;
}

static void has_no_piece(const pilhangko_allocator_piece *p) {
    CHECK(p->memory_type == 0 && p->address == 0 && p->piece.slot == 0 && p->piece.number == 0 && p->piece.offset == 0 && p->piece.size == 0 &&
          p->piece.block == 0);
}

static void has_no_question(const pilhangko_allocator_question *q) {
    CHECK(q->size == 0 && q->memory_type == 0 && !q->dedicated && !q->mapped);
}

static void is_question(const pilhangko_allocator_progress *p, uint64_t size, size_t type, bool mapped, bool dedicated) {
    CHECK(p->kind == PILHANGKO_PROGRESS_QUESTION && p->status == PILHANGKO_OK);
    CHECK(p->question.size == size && p->question.memory_type == type && p->question.mapped == mapped && p->question.dedicated == dedicated);
    has_no_piece(&p->piece);
}

static void is_refused(const pilhangko_allocator_progress *p, pilhangko_status status) {
    CHECK(p->kind == PILHANGKO_PROGRESS_REFUSED && p->status == status);
    has_no_piece(&p->piece);
    has_no_question(&p->question);
}

static void is_piece(const pilhangko_allocator_piece *p, size_t type, bool mapped, size_t slot, uint64_t number, uint64_t offset,
    uint64_t size, uint64_t memory) {
    CHECK(p->memory_type == type && p->address == address_of(mapped, memory) && p->piece.slot == slot && p->piece.number == number);
    CHECK(p->piece.offset == offset && p->piece.size == size && p->piece.block == memory);
}

static void has_capacity(const pilhangko_allocator *a, uint64_t expected) {
    uint64_t bytes = 7;
    IS(pilhangko_allocator_capacity(a, &bytes), PILHANGKO_OK);
    CHECK(bytes == expected);
}

static void is_live(const pilhangko_allocator *a, const pilhangko_allocator_piece *piece, bool expected) {
    bool live = !expected;
    IS(pilhangko_allocator_is_live(a, piece, &live), PILHANGKO_OK);
    CHECK(live == expected);
}

static void frees(pilhangko_allocator *a, const pilhangko_allocator_piece *piece, bool exists, bool mapped, uint64_t memory) {
    pilhangko_allocator_memory back = {!exists, !mapped, memory + 1, 1};
    is_live(a, piece, true);
    IS(pilhangko_allocator_free(a, piece, &back), PILHANGKO_OK);
    CHECK(back.exists == exists && back.mapped == mapped && back.memory == memory && back.address == address_of(mapped, memory));
    is_live(a, piece, false);
}

/* ---- a driver that grants memory in order of number and refuses those that it is told to */

static uint64_t last_memory;
static int32_t next_code;
static int32_t driver_allocates(const pilhangko_allocator_question *question, uint64_t *memory) {
    int32_t code = next_code;
    CHECK(question->size > 0);
    next_code = 0;
    if (code == 0) *memory = ++last_memory;
    return code;
}

static pilhangko_status allocates(
    pilhangko_allocator *allocator, const pilhangko_allocator_request *request, pilhangko_allocator_piece *piece) {
    pilhangko_allocator_progress p;
    pilhangko_status status = pilhangko_allocator_begin(allocator, request, "vertices", &p);
    while (status == PILHANGKO_OK && p.kind == PILHANGKO_PROGRESS_QUESTION) {
        uint64_t memory;
        int32_t code = driver_allocates(&p.question, &memory);
        if (code == 0) return pilhangko_allocator_granted(allocator, memory, address_of(p.question.mapped, memory), piece);
        status = pilhangko_allocator_refused(allocator, code, &p);
    }
    if (status == PILHANGKO_OK && p.kind == PILHANGKO_PROGRESS_PIECE) *piece = p.piece;
    return status == PILHANGKO_OK ? p.status : status;
}

static void whole_requests(void) {
    pilhangko_allocator a = made();
    pilhangko_allocator_request device = asks(100, 7, PILHANGKO_LOCATION_GPU_ONLY), upload = asks(100, 7, PILHANGKO_LOCATION_CPU_TO_GPU);
    pilhangko_allocator_piece piece;
    last_memory = 40;
    IS(allocates(&a, &device, &piece), PILHANGKO_OK);
    is_piece(&piece, 0, false, 0, 2, 0, 100, 41);
    IS(allocates(&a, &device, &piece), PILHANGKO_OK);
    is_piece(&piece, 0, false, 0, 3, 100, 100, 41);
    next_code = -2; /* the upload's first attempt; the second one is granted */
    IS(allocates(&a, &upload, &piece), PILHANGKO_OK);
    is_piece(&piece, 1, true, 0, 2, 0, 100, 42);
    next_code = -2;
    device.scheme = PILHANGKO_SCHEME_BUFFER;
    IS(allocates(&a, &device, &piece), PILHANGKO_OUT_OF_MEMORY);
    IS(pilhangko_allocator_destroy(&a), PILHANGKO_OK);
}

/* ---- rows */

/* a piece with a block of its own */
static pilhangko_allocator_piece own_piece(
    pilhangko_allocator *a, const pilhangko_allocator_request *request, uint32_t memory_type, bool mapped, uint64_t memory) {
    pilhangko_allocator_progress p;
    pilhangko_allocator_piece piece;
    IS(pilhangko_allocator_begin(a, request, "own", &p), PILHANGKO_OK);
    is_question(&p, request->size, memory_type, mapped, true);
    IS(pilhangko_allocator_granted(a, memory, address_of(mapped, memory), &piece), PILHANGKO_OK);
    return piece;
}

static void pieces_and_questions(void) {
    pilhangko_allocator a = made();
    pilhangko_allocator_request r = asks(100, 7, PILHANGKO_LOCATION_GPU_ONLY);
    pilhangko_allocator_progress p = {9, 9, {9, 9, {9, 9, 9, 9, 9}}, {9, 9, true, true}};
    pilhangko_allocator_piece first, second, own, read;
    has_capacity(&a, 0);
    IS(pilhangko_allocator_begin(&a, &r, "first", &p), PILHANGKO_OK);
    is_question(&p, 8 * MB, 0, false, false);
    has_capacity(&a, 0); /* a block that is awaited isn't one */
    IS(pilhangko_allocator_granted(&a, 1001, 0, &first), PILHANGKO_OK);
    is_piece(&first, 0, false, 0, 2, 0, 100, 1001);
    has_capacity(&a, 8 * MB);
    r = asks(50, 7, PILHANGKO_LOCATION_UNKNOWN); /* the first memory type that is allowed */
    IS(pilhangko_allocator_begin(&a, &r, NULL, &p), PILHANGKO_OK);
    CHECK(p.kind == PILHANGKO_PROGRESS_PIECE && p.status == PILHANGKO_OK);
    is_piece(&p.piece, 0, false, 0, 3, 100, 50, 1001);
    has_no_question(&p.question);
    second = p.piece;
    r = asks(10, 7, PILHANGKO_LOCATION_GPU_ONLY);
    r.scheme = PILHANGKO_SCHEME_BUFFER;
    r.resource = 77;
    own = own_piece(&a, &r, 0, false, 1002);
    is_piece(&own, 0, false, 1, 1, 0, 10, 1002);
    r = asks(20, 7, PILHANGKO_LOCATION_GPU_TO_CPU);
    r.scheme = PILHANGKO_SCHEME_IMAGE;
    r.resource = 78;
    read = own_piece(&a, &r, 1, true, 1003);
    is_piece(&read, 1, true, 0, 1, 0, 20, 1003);
    has_capacity(&a, 8 * MB + 30);
    frees(&a, &own, true, false, 1002); /* a piece's own block goes */
    frees(&a, &read, true, true, 1003);
    frees(&a, &first, false, false, 0);
    frees(&a, &second, false, false, 0); /* the last shared block stays */
    has_capacity(&a, 8 * MB);
    IS(pilhangko_allocator_destroy(&a), PILHANGKO_OK);
    IS(pilhangko_allocator_destroy(&a), PILHANGKO_NO_HANDLE);
}

static void refusals_of_the_driver(void) {
    pilhangko_allocator a = made();
    pilhangko_allocator_request device = asks(100, 7, PILHANGKO_LOCATION_GPU_ONLY), upload = asks(100, 7, PILHANGKO_LOCATION_CPU_TO_GPU),
                                narrow = asks(100, 4, PILHANGKO_LOCATION_CPU_TO_GPU);
    pilhangko_allocator_progress p;
    pilhangko_allocator_piece piece;
    IS(pilhangko_allocator_begin(&a, &device, NULL, &p), PILHANGKO_OK);
    IS(pilhangko_allocator_refused(&a, -2, &p), PILHANGKO_OK);
    is_refused(&p, PILHANGKO_OUT_OF_MEMORY);
    IS(pilhangko_allocator_refused(&a, -2, &p), PILHANGKO_AWAITS_NO_ANSWER); /* the request is over */
    IS(pilhangko_allocator_begin(&a, &device, NULL, &p), PILHANGKO_OK);
    IS(pilhangko_allocator_refused(&a, -1, &p), PILHANGKO_OK);
    is_refused(&p, PILHANGKO_DRIVER_REFUSED);
    IS(pilhangko_allocator_begin(&a, &upload, NULL, &p), PILHANGKO_OK);
    is_question(&p, 4 * MB, 2, true, false);
    IS(pilhangko_allocator_refused(&a, -2, &p), PILHANGKO_OK);
    is_question(&p, 4 * MB, 1, true, false); /* the second attempt */
    IS(pilhangko_allocator_granted(&a, 2001, address_of(true, 2001), &piece), PILHANGKO_OK);
    is_piece(&piece, 1, true, 0, 2, 0, 100, 2001);
    IS(pilhangko_allocator_begin(&a, &upload, NULL, &p), PILHANGKO_OK);
    is_question(&p, 4 * MB, 2, true, false);
    IS(pilhangko_allocator_mapping_refused(&a, true, -5, &p), PILHANGKO_OK);
    CHECK(p.kind == PILHANGKO_PROGRESS_PIECE && p.status == PILHANGKO_OK); /* the second attempt finds a place */
    is_piece(&p.piece, 1, true, 0, 3, 100, 100, 2001);
    IS(pilhangko_allocator_begin(&a, &narrow, NULL, &p), PILHANGKO_OK);
    is_question(&p, 4 * MB, 2, true, false);
    IS(pilhangko_allocator_mapping_refused(&a, true, -5, &p), PILHANGKO_OK);
    is_question(&p, 4 * MB, 2, true, false); /* the second attempt is at the same memory type */
    IS(pilhangko_allocator_mapping_refused(&a, false, 0, &p), PILHANGKO_OK);
    is_refused(&p, PILHANGKO_FAILED_TO_MAP);
    IS(pilhangko_allocator_begin(&a, &narrow, NULL, &p), PILHANGKO_OK);
    IS(pilhangko_allocator_mapping_refused(&a, false, 0, &p), PILHANGKO_OK);
    IS(pilhangko_allocator_mapping_refused(&a, true, -5, &p), PILHANGKO_OK);
    is_refused(&p, PILHANGKO_FAILED_TO_MAP);
    has_capacity(&a, 4 * MB);
    IS(pilhangko_allocator_destroy(&a), PILHANGKO_OK);
}

static void out_of_turn(void) {
    pilhangko_allocator a = made();
    pilhangko_allocator_request r = asks(100, 7, PILHANGKO_LOCATION_GPU_ONLY), own = r, bad = asks(0, 0, 0);
    pilhangko_allocator_progress p = {9, 9, {9, 9, {9, 9, 9, 9, 9}}, {9, 9, true, true}};
    pilhangko_allocator_piece piece, kept = {4, 4, {4, 4, 4, 4, 4}};
    pilhangko_allocator_memory back = {true, true, 3, 3};
    pilhangko_budget budget;
    own.scheme = PILHANGKO_SCHEME_IMAGE;
    IS(pilhangko_allocator_granted(&a, 1, 0, &kept), PILHANGKO_AWAITS_NO_ANSWER);
    IS(pilhangko_allocator_refused(&a, -2, &p), PILHANGKO_AWAITS_NO_ANSWER);
    IS(pilhangko_allocator_mapping_refused(&a, true, -5, &p), PILHANGKO_AWAITS_NO_ANSWER);
    CHECK(kept.memory_type == 4 && kept.address == 4 && kept.piece.number == 4 && p.kind == 9 && p.status == 9 && p.question.size == 9);
    IS(pilhangko_allocator_begin(&a, &r, NULL, &p), PILHANGKO_OK);
    IS(pilhangko_allocator_granted(&a, 1, 0, &piece), PILHANGKO_OK);
    IS(pilhangko_allocator_begin(&a, &own, NULL, &p), PILHANGKO_OK);
    p.kind = 9;
    IS(pilhangko_allocator_begin(&a, &r, NULL, &p), PILHANGKO_AWAITS_ANSWER);
    IS(pilhangko_allocator_begin(&a, &bad, "\xff", &p), PILHANGKO_AWAITS_ANSWER);
    CHECK(p.kind == 9);
    IS(pilhangko_allocator_free(&a, &piece, &back), PILHANGKO_AWAITS_ANSWER);
    IS(pilhangko_allocator_free(&a, &kept, &back), PILHANGKO_AWAITS_ANSWER);
    CHECK(back.exists && back.mapped && back.memory == 3 && back.address == 3);
    IS(pilhangko_allocator_rename(&a, &piece, "name"), PILHANGKO_AWAITS_ANSWER);
    IS(pilhangko_allocator_rename(&a, &kept, "\xff"), PILHANGKO_AWAITS_ANSWER);
    IS(pilhangko_allocator_set_word(&a, &piece, 1), PILHANGKO_AWAITS_ANSWER);
    IS(pilhangko_allocator_set_word(&a, &kept, 1), PILHANGKO_AWAITS_ANSWER);
    IS(pilhangko_allocator_set_budget(&a, 0, true, 1), PILHANGKO_AWAITS_ANSWER);
    IS(pilhangko_allocator_set_budget(&a, 9, true, 1), PILHANGKO_AWAITS_ANSWER);
    is_live(&a, &piece, true);
    has_capacity(&a, 8 * MB);
    IS(pilhangko_allocator_budget(&a, 0, &budget), PILHANGKO_OK);
    CHECK(!budget.exists && budget.bytes == 0);
    IS(pilhangko_allocator_granted(&a, 2, 0, &kept), PILHANGKO_OK);
    frees(&a, &kept, true, false, 2);
    IS(pilhangko_allocator_begin(&a, &own, NULL, &p), PILHANGKO_OK);
    IS(pilhangko_allocator_destroy(&a), PILHANGKO_OK); /* with a question open */
}

static void budgets(void) {
    pilhangko_allocator a = made();
    pilhangko_allocator_request r = asks(100, 1, PILHANGKO_LOCATION_GPU_ONLY), own = r;
    pilhangko_allocator_progress p = {9, 9, {9, 9, {9, 9, 9, 9, 9}}, {9, 9, true, true}};
    pilhangko_allocator_piece piece;
    pilhangko_budget budget = {false, 9};
    own.scheme = PILHANGKO_SCHEME_BUFFER;
    IS(pilhangko_allocator_set_budget(&a, 0, true, 8 * MB), PILHANGKO_OK);
    IS(pilhangko_allocator_set_budget(&a, 3, true, 1), PILHANGKO_NO_SUCH_TYPE);
    IS(pilhangko_allocator_set_budget(&a, SIZE_MAX, false, 1), PILHANGKO_NO_SUCH_TYPE);
    IS(pilhangko_allocator_budget(&a, 0, &budget), PILHANGKO_OK);
    CHECK(budget.exists && budget.bytes == 8 * MB);
    IS(pilhangko_allocator_budget(&a, 1, &budget), PILHANGKO_OK);
    CHECK(!budget.exists && budget.bytes == 0);
    IS(pilhangko_allocator_budget(&a, 3, &budget), PILHANGKO_OK);
    CHECK(!budget.exists && budget.bytes == 0);
    IS(pilhangko_allocator_begin(&a, &r, NULL, &p), PILHANGKO_OK); /* just within */
    IS(pilhangko_allocator_granted(&a, 1, 0, &piece), PILHANGKO_OK);
    p.kind = 9;
    IS(pilhangko_allocator_begin(&a, &own, NULL, &p), PILHANGKO_BUDGET_EXCEEDED);
    CHECK(p.kind == 9);
    IS(pilhangko_allocator_set_budget(&a, 0, false, 5), PILHANGKO_OK);
    IS(pilhangko_allocator_budget(&a, 0, &budget), PILHANGKO_OK);
    CHECK(!budget.exists && budget.bytes == 0);
    IS(pilhangko_allocator_begin(&a, &own, NULL, &p), PILHANGKO_OK);
    IS(pilhangko_allocator_destroy(&a), PILHANGKO_OK);
}

static void devices(void) {
    pilhangko_allocator a = {0};
    pilhangko_allocator_settings odd = settings;
    const pilhangko_device_memory_type astray[] = {{1, 0}, {6, 3}};
    pilhangko_device_memory_type many[33] = {{1, 0}};
    pilhangko_allocator_request r = asks(100, 7, PILHANGKO_LOCATION_UNKNOWN);
    pilhangko_allocator_progress p;
    odd.page_size = 48;
    IS(pilhangko_allocator_create(&a, types, 3, heaps, 3, &odd), PILHANGKO_INVALID_DEVICE);
    odd.page_size = 0;
    IS(pilhangko_allocator_create(&a, types, 3, heaps, 3, &odd), PILHANGKO_INVALID_DEVICE);
    IS(pilhangko_allocator_create(&a, many, 33, heaps, 3, &odd), PILHANGKO_INVALID_DEVICE);
    IS(pilhangko_allocator_create(&a, astray, 2, heaps, 3, &settings), PILHANGKO_NO_SUCH_HEAP);
    IS(pilhangko_allocator_create(&a, types, 3, heaps, 2, &settings), PILHANGKO_NO_SUCH_HEAP);
    IS(pilhangko_allocator_create(&a, many, 33, heaps, 3, &settings), PILHANGKO_TOO_MANY_TYPES);
    IS(pilhangko_allocator_create(&a, many, 33, heaps, 0, &settings), PILHANGKO_TOO_MANY_TYPES);
    IS(pilhangko_allocator_create(&a, many, 32, heaps, 3, &settings), PILHANGKO_OK);
    IS(pilhangko_allocator_create(&a, many, 33, heaps, 3, &settings), PILHANGKO_IN_USE);
    IS(pilhangko_allocator_destroy(&a), PILHANGKO_OK);
    IS(pilhangko_allocator_create(&a, NULL, 0, NULL, 0, &settings), PILHANGKO_OK);
    IS(pilhangko_allocator_begin(&a, &r, NULL, &p), PILHANGKO_NO_MEMORY_TYPE);
    IS(pilhangko_allocator_destroy(&a), PILHANGKO_OK);
}

static void request_statuses(void) {
    pilhangko_allocator a = made();
    pilhangko_allocator_request good = asks(100, 7, PILHANGKO_LOCATION_GPU_ONLY);
    pilhangko_allocator_progress p = {9, 9, {9, 9, {9, 9, 9, 9, 9}}, {9, 9, true, true}};
    for (unsigned field = 0; field < 9; field++) {
        pilhangko_allocator_request bad = good;
        if (field == 0) bad.size = 0;
        if (field == 1) bad.alignment = 0;
        if (field == 2) bad.alignment = 6;
        if (field == 3) bad.kind = 0;
        if (field == 4) bad.kind = 3;
        if (field == 5) bad.location = 0;
        if (field == 6) bad.location = 5;
        if (field == 7) bad.scheme = 0;
        if (field == 8) bad.scheme = 4;
        IS(pilhangko_allocator_begin(&a, &bad, NULL, &p), PILHANGKO_INVALID);
    }
    IS(pilhangko_allocator_begin(&a, &good, "\xfe", &p), PILHANGKO_INVALID);
    good.memory_type_bits = 2;
    IS(pilhangko_allocator_begin(&a, &good, NULL, &p), PILHANGKO_NO_MEMORY_TYPE);
    good.memory_type_bits = 7;
    good.size = 1024 * MB + 1; /* larger than its heap */
    IS(pilhangko_allocator_begin(&a, &good, NULL, &p), PILHANGKO_OUT_OF_MEMORY);
    CHECK(p.kind == 9 && p.status == 9 && p.piece.memory_type == 9 && p.question.size == 9);
    IS(pilhangko_allocator_destroy(&a), PILHANGKO_OK);
}

static void piece_statuses(void) {
    pilhangko_allocator a = made();
    pilhangko_allocator_request good = asks(100, 7, PILHANGKO_LOCATION_GPU_ONLY);
    pilhangko_allocator_progress p;
    pilhangko_allocator_memory back = {true, true, 3, 3};
    pilhangko_allocator_piece piece;
    IS(pilhangko_allocator_begin(&a, &good, NULL, &p), PILHANGKO_OK);
    IS(pilhangko_allocator_granted(&a, 7, 0, &piece), PILHANGKO_OK);
    for (unsigned field = 0; field < 9; field++) {
        pilhangko_allocator_piece wrong = piece;
        if (field == 0) wrong.piece.slot++;
        if (field == 1) wrong.piece.number++;
        if (field == 2) wrong.piece.offset++;
        if (field == 3) wrong.piece.size--;
        if (field == 4) wrong.piece.block++;
        if (field == 5) wrong.piece.number = 0;
        if (field == 6) wrong.memory_type = 1;
        if (field == 7) wrong.memory_type = SIZE_MAX;
        if (field == 8) wrong.address = 1;
        is_live(&a, &wrong, false);
        IS(pilhangko_allocator_free(&a, &wrong, &back), PILHANGKO_NOT_LIVE);
        IS(pilhangko_allocator_rename(&a, &wrong, "name"), PILHANGKO_NOT_LIVE);
        IS(pilhangko_allocator_rename(&a, &wrong, "\xff"), PILHANGKO_INVALID);
        IS(pilhangko_allocator_set_word(&a, &wrong, 1), PILHANGKO_NOT_LIVE);
    }
    CHECK(back.exists && back.mapped && back.memory == 3 && back.address == 3);
    IS(pilhangko_allocator_rename(&a, &piece, "\xf5"), PILHANGKO_INVALID);
    IS(pilhangko_allocator_rename(&a, &piece, "another name"), PILHANGKO_OK);
    frees(&a, &piece, false, false, 0);
    IS(pilhangko_allocator_free(&a, &piece, &back), PILHANGKO_NOT_LIVE);
    IS(pilhangko_allocator_destroy(&a), PILHANGKO_OK);
}

/* ---- words */

static void has_word(const pilhangko_allocator *a, const pilhangko_allocator_piece *piece, uint64_t expected) {
    pilhangko_piece_view view = {.word = 77};
    size_t shown;
    IS(pilhangko_allocator_pieces(a, piece->memory_type, piece->piece.slot, piece->piece.offset, &view, 1, &shown), PILHANGKO_OK);
    CHECK(shown == 1 && view.number == piece->piece.number && view.word == expected);
}

/* A word stays through renames, also of a piece that has memory of its own, and the next piece in its place has none. */
static void words(void) {
    pilhangko_allocator a = made();
    pilhangko_allocator_request r = asks(100, 7, PILHANGKO_LOCATION_GPU_ONLY), large = r;
    pilhangko_allocator_progress p;
    pilhangko_allocator_piece piece, own;
    large.scheme = PILHANGKO_SCHEME_IMAGE;
    IS(pilhangko_allocator_begin(&a, &r, NULL, &p), PILHANGKO_OK);
    IS(pilhangko_allocator_granted(&a, 1, 0, &piece), PILHANGKO_OK);
    IS(pilhangko_allocator_begin(&a, &large, "own", &p), PILHANGKO_OK);
    IS(pilhangko_allocator_granted(&a, 2, 0, &own), PILHANGKO_OK);
    has_word(&a, &piece, 0);
    has_word(&a, &own, 0);
    IS(pilhangko_allocator_set_word(&a, &piece, UINT64_MAX), PILHANGKO_OK);
    IS(pilhangko_allocator_set_word(&a, &own, 7), PILHANGKO_OK);
    IS(pilhangko_allocator_rename(&a, &piece, "a name that takes host memory of its own"), PILHANGKO_OK);
    IS(pilhangko_allocator_rename(&a, &own, NULL), PILHANGKO_OK);
    has_word(&a, &piece, UINT64_MAX);
    has_word(&a, &own, 7);
    frees(&a, &piece, false, false, 0);
    IS(pilhangko_allocator_begin(&a, &r, NULL, &p), PILHANGKO_OK);
    is_piece(&p.piece, 0, false, 0, 3, 0, 100, 1);
    IS(pilhangko_allocator_set_word(&a, &piece, 1), PILHANGKO_NOT_LIVE);
    has_word(&a, &p.piece, 0);
    has_word(&a, &own, 7);
    IS(pilhangko_allocator_destroy(&a), PILHANGKO_OK);
}

/* ---- visits, also while a question is open */

static pilhangko_allocator with_three_pieces(void) {
    pilhangko_allocator a = made();
    pilhangko_allocator_request r = asks(100, 7, PILHANGKO_LOCATION_GPU_ONLY);
    pilhangko_allocator_progress p;
    pilhangko_allocator_piece piece;
    IS(pilhangko_allocator_begin(&a, &r, "first", &p), PILHANGKO_OK);
    IS(pilhangko_allocator_granted(&a, 1001, 0, &piece), PILHANGKO_OK);
    r.alignment = 256;
    IS(pilhangko_allocator_begin(&a, &r, "se\"cond", &p), PILHANGKO_OK);
    is_piece(&p.piece, 0, false, 0, 3, 256, 100, 1001);
    r.location = PILHANGKO_LOCATION_GPU_TO_CPU;
    r.scheme = PILHANGKO_SCHEME_IMAGE;
    IS(pilhangko_allocator_begin(&a, &r, "own", &p), PILHANGKO_OK);
    IS(pilhangko_allocator_granted(&a, 1002, address_of(true, 1002), &piece), PILHANGKO_OK);
    is_piece(&piece, 1, true, 0, 1, 0, 100, 1002);
    return a;
}

static void counts_of_types(const pilhangko_allocator *a) {
    pilhangko_type_statistics s = {9, 9, 9, true, 9, 9, 9, 9, 9};
    uint64_t bytes = 9;
    IS(pilhangko_allocator_type_capacity(a, 3, &bytes), PILHANGKO_NO_SUCH_TYPE);
    CHECK(bytes == 9);
    IS(pilhangko_allocator_type_capacity(a, 0, &bytes), PILHANGKO_OK);
    CHECK(bytes == 8 * MB);
    IS(pilhangko_allocator_type_capacity(a, 1, &bytes), PILHANGKO_OK);
    CHECK(bytes == 100);
    IS(pilhangko_allocator_type_statistics(a, 3, &s), PILHANGKO_NO_SUCH_TYPE);
    CHECK(s.capacity == 9 && s.slots == 9 && s.longest_gap == 9);
    IS(pilhangko_allocator_type_statistics(a, 0, &s), PILHANGKO_OK);
    CHECK(s.capacity == 8 * MB && s.slots == 1 && s.shared_blocks == 1 && s.has_budget && s.budget == 9 * MB);
    CHECK(s.pieces == 2 && s.piece_bytes == 356 && s.gaps == 1 && s.longest_gap == 8 * MB - 356);
    IS(pilhangko_allocator_type_statistics(a, 1, &s), PILHANGKO_OK);
    CHECK(s.capacity == 100 && s.slots == 1 && s.shared_blocks == 0 && !s.has_budget && s.budget == 0);
    CHECK(s.pieces == 1 && s.piece_bytes == 100 && s.gaps == 0 && s.longest_gap == 0);
    IS(pilhangko_allocator_type_statistics(a, 2, &s), PILHANGKO_OK);
    CHECK(s.capacity == 0 && s.slots == 0 && s.shared_blocks == 0 && s.pieces == 0 && s.piece_bytes == 0);
    IS(pilhangko_allocator_statistics(a, &s), PILHANGKO_OK);
    CHECK(s.capacity == 8 * MB + 100 && s.slots == 2 && s.shared_blocks == 1 && !s.has_budget && s.budget == 0);
    CHECK(s.pieces == 3 && s.piece_bytes == 456 && s.gaps == 1 && s.longest_gap == 8 * MB - 356);
}

static void begins_at(const pilhangko_allocator *a, uint32_t bits, pilhangko_location location, pilhangko_status status, size_t wanted) {
    size_t type = 9;
    IS(pilhangko_allocator_best_type(a, bits, location, &type), status);
    CHECK(type == wanted);
}

static void types_of_locations(const pilhangko_allocator *a) {
    begins_at(a, 7, PILHANGKO_LOCATION_GPU_ONLY, PILHANGKO_OK, 0);
    begins_at(a, 6, PILHANGKO_LOCATION_GPU_ONLY, PILHANGKO_OK, 2);
    begins_at(a, 2, PILHANGKO_LOCATION_GPU_ONLY, PILHANGKO_NO_MEMORY_TYPE, 9);
    begins_at(a, 7, PILHANGKO_LOCATION_CPU_TO_GPU, PILHANGKO_OK, 2);
    begins_at(a, 3, PILHANGKO_LOCATION_CPU_TO_GPU, PILHANGKO_OK, 1);
    begins_at(a, 1, PILHANGKO_LOCATION_CPU_TO_GPU, PILHANGKO_NO_MEMORY_TYPE, 9);
    begins_at(a, 7, PILHANGKO_LOCATION_GPU_TO_CPU, PILHANGKO_OK, 1); /* none is cached */
    begins_at(a, 5, PILHANGKO_LOCATION_GPU_TO_CPU, PILHANGKO_OK, 2);
    begins_at(a, 6, PILHANGKO_LOCATION_UNKNOWN, PILHANGKO_OK, 1);
    begins_at(a, ~UINT32_C(7), PILHANGKO_LOCATION_UNKNOWN, PILHANGKO_NO_MEMORY_TYPE, 9);
    begins_at(a, 7, 0, PILHANGKO_INVALID, 9);
    begins_at(a, 7, 5, PILHANGKO_INVALID, 9);
}

static void blocks_of_slots(const pilhangko_allocator *a) {
    pilhangko_allocator_live_block block = {false, true, false, 9, 9, 9};
    pilhangko_memory_block_statistics s = {false, true, 9, 9, 9, 9, 9};
    IS(pilhangko_allocator_block(a, 0, 0, &block), PILHANGKO_OK);
    CHECK(block.exists && !block.mapped && block.shared && block.memory == 1001 && block.address == 0 && block.size == 8 * MB);
    IS(pilhangko_allocator_block(a, 1, 0, &block), PILHANGKO_OK);
    CHECK(block.exists && block.mapped && !block.shared && block.memory == 1002 && block.address == address_of(true, 1002) && block.size == 100);
    IS(pilhangko_allocator_block(a, 1, 1, &block), PILHANGKO_OK);
    CHECK(!block.exists && !block.mapped && !block.shared && block.memory == 0 && block.address == 0 && block.size == 0);
    IS(pilhangko_allocator_block(a, SIZE_MAX, 0, &block), PILHANGKO_OK);
    CHECK(!block.exists && !block.mapped && !block.shared && block.memory == 0 && block.address == 0 && block.size == 0);
    IS(pilhangko_allocator_block_statistics(a, 0, 0, &s), PILHANGKO_OK);
    CHECK(s.exists && s.shared && s.size == 8 * MB && s.pieces == 2 && s.piece_bytes == 356 && s.gaps == 1 && s.longest_gap == 8 * MB - 356);
    IS(pilhangko_allocator_block_statistics(a, 1, 0, &s), PILHANGKO_OK);
    CHECK(s.exists && !s.shared && s.size == 100 && s.pieces == 1 && s.piece_bytes == 100 && s.gaps == 0);
    IS(pilhangko_allocator_block_statistics(a, 3, 0, &s), PILHANGKO_OK);
    CHECK(!s.exists && !s.shared && s.size == 0 && s.pieces == 0 && s.piece_bytes == 0 && s.gaps == 0 && s.longest_gap == 0);
}

static void pieces_of_slots(const pilhangko_allocator *a) {
    pilhangko_piece_view views[3];
    size_t count = 9, lengths[3];
    char names[12] = "...........";
    IS(pilhangko_allocator_pieces(a, 0, 0, 0, views, 3, &count), PILHANGKO_OK);
    CHECK(count == 2 && views[0].exists && views[0].number == 2 && views[0].start == 0 && views[0].offset == 0 && views[0].end == 100);
    CHECK(views[1].number == 3 && views[1].start == 100 && views[1].offset == 256 && views[1].end == 356);
    CHECK(views[1].kind == PILHANGKO_KIND_LINEAR);
    IS(pilhangko_allocator_pieces(a, 0, 0, 1, views, 3, &count), PILHANGKO_OK);
    CHECK(count == 1 && views[0].number == 3);
    IS(pilhangko_allocator_pieces(a, 0, 0, 0, NULL, 0, &count), PILHANGKO_OK);
    CHECK(count == 0);
    IS(pilhangko_allocator_pieces(a, 3, 0, 0, views, 3, &count), PILHANGKO_OK);
    CHECK(count == 0);
    IS(pilhangko_allocator_piece_names(a, 0, 0, 0, lengths, 3, names, 11, &count), PILHANGKO_OK);
    CHECK(count == 2 && lengths[0] == 5 && lengths[1] == 7 && !strcmp(names, "firstse\"con"));
    IS(pilhangko_allocator_piece_names(a, 1, 0, 0, lengths, 3, names, 11, &count), PILHANGKO_OK);
    CHECK(count == 1 && lengths[0] == 3 && !strncmp(names, "ownst", 5));
    IS(pilhangko_allocator_piece_names(a, 1, 1, 0, lengths, 3, names, 11, &count), PILHANGKO_OK);
    CHECK(count == 0);
}

static const char report_of_three[] =
    "{\"allocations\":[{\"name\":\"first\",\"offset\":0,\"size\":100},{\"name\":\"se\\\"cond\",\"offset\":256,\"size\":100},"
    "{\"name\":\"own\",\"offset\":0,\"size\":100}],\"blocks\":[{\"allocations\":{\"end\":2,\"start\":0},\"size\":8388608},"
    "{\"allocations\":{\"end\":3,\"start\":2},\"size\":100}],\"schema\":\"gpu_report.allocator\",\"total_allocated_bytes\":456,"
    "\"total_capacity_bytes\":8388708,\"version\":1}";

static const char second_leak[] = "leak detected: {\n    memory type: 0\n    memory block: 0\n    chunk: {\n        chunk_id: 3,\n"
                                  "        size: 0x100,\n        offset: 0x64,\n        allocation_type: Linear,\n"
                                  "        name: se\"cond\n    }\n}";
static const char third_leak[] = "leak detected: {\n    memory type: 1\n    memory block: 0\n    dedicated allocation: {\n"
                                 "        size: 0x64,\n        name: own\n    }\n}";

static void texts(const pilhangko_allocator *a) {
    char text[500] = {0};
    size_t length = 9;
    IS(pilhangko_allocator_report(a, NULL, 0, &length), PILHANGKO_OK);
    CHECK(length == strlen(report_of_three) && length < sizeof text);
    IS(pilhangko_allocator_report(a, text, sizeof text, &length), PILHANGKO_OK);
    CHECK(!strcmp(text, report_of_three) && length == strlen(report_of_three));
    memset(text, 0, sizeof text);
    IS(pilhangko_allocator_report(a, text, 10, &length), PILHANGKO_OK);
    CHECK(!strncmp(text, report_of_three, 10) && text[10] == 0 && length == strlen(report_of_three));
    memset(text, 0, sizeof text);
    IS(pilhangko_allocator_leak(a, 1, text, sizeof text, &length), PILHANGKO_OK);
    CHECK(!strcmp(text, second_leak) && length == strlen(second_leak));
    memset(text, 0, sizeof text);
    IS(pilhangko_allocator_leak(a, 2, text, sizeof text, &length), PILHANGKO_OK);
    CHECK(!strcmp(text, third_leak) && length == strlen(third_leak));
    memset(text, 0, sizeof text);
    IS(pilhangko_allocator_leak(a, 3, text, sizeof text, &length), PILHANGKO_OK);
    CHECK(text[0] == 0 && length == 0);
    IS(pilhangko_allocator_leak(a, 0, NULL, 0, &length), PILHANGKO_OK);
    CHECK(length == strlen(second_leak) - 2 - 2); /* its offset has one digit less and its size 0x64, its name two bytes less */
}

static void visits(void) {
    pilhangko_allocator a = with_three_pieces();
    pilhangko_allocator_request r = asks(8 * MB, 7, PILHANGKO_LOCATION_GPU_ONLY);
    pilhangko_allocator_progress p;
    IS(pilhangko_allocator_set_budget(&a, 0, true, 9 * MB), PILHANGKO_OK);
    counts_of_types(&a);
    IS(pilhangko_allocator_set_budget(&a, 0, true, 16 * MB), PILHANGKO_OK);
    IS(pilhangko_allocator_begin(&a, &r, "awaited", &p), PILHANGKO_OK);
    is_question(&p, 8 * MB, 0, false, false);
    types_of_locations(&a);
    blocks_of_slots(&a);
    pieces_of_slots(&a);
    texts(&a);
    IS(pilhangko_allocator_destroy(&a), PILHANGKO_OK);
}

/* ---- empty handles, and pointers that are NULL */

static void each_call(pilhangko_allocator *a, bool tells, pilhangko_status expected) {
    pilhangko_allocator_request r = asks(100, 7, PILHANGKO_LOCATION_GPU_ONLY);
    pilhangko_allocator_progress p;
    pilhangko_allocator_piece piece = {0, 0, {0, 1, 0, 1, 1}};
    pilhangko_allocator_memory back;
    pilhangko_allocator_live_block shown;
    pilhangko_budget budget;
    pilhangko_type_statistics type;
    pilhangko_memory_block_statistics block;
    pilhangko_piece_view views[1];
    uint64_t bytes;
    size_t count, lengths[1];
    bool live;
    char text[1];
    IS(pilhangko_allocator_begin(a, &r, NULL, tells ? &p : NULL), expected);
    IS(pilhangko_allocator_granted(a, 1, 0, tells ? &piece : NULL), expected);
    IS(pilhangko_allocator_refused(a, -2, tells ? &p : NULL), expected);
    IS(pilhangko_allocator_mapping_refused(a, true, -5, tells ? &p : NULL), expected);
    IS(pilhangko_allocator_free(a, &piece, tells ? &back : NULL), expected);
    IS(pilhangko_allocator_is_live(a, &piece, tells ? &live : NULL), expected);
    IS(pilhangko_allocator_budget(a, 0, tells ? &budget : NULL), expected);
    IS(pilhangko_allocator_capacity(a, tells ? &bytes : NULL), expected);
    IS(pilhangko_allocator_type_statistics(a, 0, tells ? &type : NULL), expected);
    IS(pilhangko_allocator_statistics(a, tells ? &type : NULL), expected);
    IS(pilhangko_allocator_type_capacity(a, 0, tells ? &bytes : NULL), expected);
    IS(pilhangko_allocator_best_type(a, 7, PILHANGKO_LOCATION_GPU_ONLY, tells ? &count : NULL), expected);
    IS(pilhangko_allocator_block(a, 0, 0, tells ? &shown : NULL), expected);
    IS(pilhangko_allocator_block_statistics(a, 0, 0, tells ? &block : NULL), expected);
    IS(pilhangko_allocator_pieces(a, 0, 0, 0, views, 1, tells ? &count : NULL), expected);
    IS(pilhangko_allocator_piece_names(a, 0, 0, 0, lengths, 1, text, 1, tells ? &count : NULL), expected);
    IS(pilhangko_allocator_report(a, text, 1, tells ? &count : NULL), expected);
    IS(pilhangko_allocator_leak(a, 0, text, 1, tells ? &count : NULL), expected);
    if (!tells) return;
    IS(pilhangko_allocator_rename(a, &piece, NULL), expected);
    IS(pilhangko_allocator_set_word(a, &piece, 1), expected);
    IS(pilhangko_allocator_set_budget(a, 0, true, 1), expected);
    IS(pilhangko_allocator_destroy(a), expected);
}

static void empty_handles_and_null(void) {
    pilhangko_allocator a = {0};
    size_t count;
    char text[1];
    each_call(&a, true, PILHANGKO_NO_HANDLE);
    each_call(NULL, true, PILHANGKO_NULL_POINTER);
    each_call(&a, false, PILHANGKO_NULL_POINTER);
    IS(pilhangko_allocator_create(NULL, types, 3, heaps, 3, &settings), PILHANGKO_NULL_POINTER);
    IS(pilhangko_allocator_create(&a, NULL, 3, heaps, 3, &settings), PILHANGKO_NULL_POINTER);
    IS(pilhangko_allocator_pieces(&a, 0, 0, 0, NULL, 1, &count), PILHANGKO_NULL_POINTER);
    IS(pilhangko_allocator_piece_names(&a, 0, 0, 0, NULL, 1, text, 1, &count), PILHANGKO_NULL_POINTER);
    IS(pilhangko_allocator_piece_names(&a, 0, 0, 0, &count, 1, NULL, 1, &count), PILHANGKO_NULL_POINTER);
    IS(pilhangko_allocator_set_word(&a, NULL, 1), PILHANGKO_NULL_POINTER);
    IS(pilhangko_allocator_report(&a, NULL, 1, &count), PILHANGKO_NULL_POINTER);
    IS(pilhangko_allocator_leak(&a, 0, NULL, 1, &count), PILHANGKO_NULL_POINTER);
    IS(pilhangko_allocator_create(&a, types, 3, NULL, 3, &settings), PILHANGKO_NULL_POINTER);
    IS(pilhangko_allocator_create(&a, types, 3, heaps, 3, NULL), PILHANGKO_NULL_POINTER);
}

int main(void) {
    whole_requests();
    pieces_and_questions();
    refusals_of_the_driver();
    out_of_turn();
    budgets();
    devices();
    request_statuses();
    piece_statuses();
    words();
    visits();
    empty_handles_and_null();
    return 0;
}
