/* Allocators of DirectX 12's memory: rows that were worked out by hand, and each status of each call. */
#include "test.h"

#define MB (UINT64_C(1) << 20)
#define E_OUTOFMEMORY_CODE (-2147024882)
#define E_INVALIDARG_CODE (-2147024809)

/* on the device's side blocks of 8 MB; on the host's 4 MB, doubling up to 8 MB */
static const pilhangko_heaps_settings settings = {2, 8 * MB, 0, 4 * MB, 8 * MB};

static pilhangko_heaps made_at(uint32_t tier) {
    pilhangko_heaps h = {0};
    pilhangko_heaps_settings s = settings;
    s.heap_tier = tier;
    IS(pilhangko_heaps_create(&h, &s), PILHANGKO_OK);
    return h;
}

static pilhangko_heaps made(void) {
    return made_at(2);
}

static pilhangko_heaps_request asks(uint64_t size, pilhangko_location location, pilhangko_category category) {
    pilhangko_heaps_request r = {size, 1, location, category};
    return r;
}

static pilhangko_heaps_request asks_device(uint64_t size) {
    return asks(size, PILHANGKO_LOCATION_GPU_ONLY, PILHANGKO_CATEGORY_BUFFER);
}

/* what no call may leave behind where it is refused */
static pilhangko_heaps_progress untouched(void) {
    pilhangko_heaps_progress p = {9, 9, {9, {9, 9, 9, 9, 9}}, {9, 9, 9, 9, 9, 9, 9, true}};
    return p;
}

static bool is_untouched(const pilhangko_heaps_progress *p) {
    return p->kind == 9 && p->status == 9 && p->piece.memory_type == 9 && p->piece.piece.slot == 9 && p->piece.piece.number == 9 &&
           p->piece.piece.offset == 9 && p->piece.piece.size == 9 && p->piece.piece.block == 9 && p->question.memory_type == 9 &&
           p->question.size == 9 && p->question.alignment == 9 && p->question.heap_type == 9 && p->question.cpu_page_property == 9 &&
           p->question.memory_pool == 9 && p->question.flags == 9 && p->question.dedicated;
}

static void has_no_piece(const pilhangko_heaps_piece *p) {
    CHECK(p->memory_type == 0 && p->piece.slot == 0 && p->piece.number == 0 && p->piece.offset == 0 && p->piece.size == 0 &&
          p->piece.block == 0);
}

static void has_no_question(const pilhangko_heaps_question *q) {
    CHECK(q->memory_type == 0 && q->size == 0 && q->alignment == 0 && q->heap_type == 0 && q->cpu_page_property == 0 &&
          q->memory_pool == 0 && q->flags == 0 && !q->dedicated);
}

static void is_question(const pilhangko_heaps_progress *p, uint64_t size, size_t type, bool dedicated) {
    CHECK(p->kind == PILHANGKO_PROGRESS_QUESTION && p->status == PILHANGKO_OK);
    CHECK(p->question.size == size && p->question.memory_type == type && p->question.dedicated == dedicated);
    CHECK(p->question.alignment == 4 * MB);
    has_no_piece(&p->piece);
}

static void is_refused(const pilhangko_heaps_progress *p, pilhangko_status status) {
    CHECK(p->kind == PILHANGKO_PROGRESS_REFUSED && p->status == status);
    has_no_piece(&p->piece);
    has_no_question(&p->question);
}

static void is_piece(
    const pilhangko_heaps_piece *p, size_t type, size_t slot, uint64_t number, uint64_t offset, uint64_t size, uint64_t heap) {
    CHECK(p->memory_type == type && p->piece.slot == slot && p->piece.number == number);
    CHECK(p->piece.offset == offset && p->piece.size == size && p->piece.block == heap);
}

static void has_capacity(const pilhangko_heaps *h, uint64_t expected) {
    uint64_t bytes = 7;
    IS(pilhangko_heaps_capacity(h, &bytes), PILHANGKO_OK);
    CHECK(bytes == expected);
}

static void is_live(const pilhangko_heaps *h, const pilhangko_heaps_piece *piece, bool expected) {
    bool live = !expected;
    IS(pilhangko_heaps_is_live(h, piece, &live), PILHANGKO_OK);
    CHECK(live == expected);
}

static void frees(pilhangko_heaps *h, const pilhangko_heaps_piece *piece, bool exists, uint64_t heap) {
    pilhangko_memory_block back = {!exists, heap + 1};
    is_live(h, piece, true);
    IS(pilhangko_heaps_free(h, piece, &back), PILHANGKO_OK);
    CHECK(back.exists == exists && back.block == heap);
    is_live(h, piece, false);
}

/* ---- a driver that makes heaps in order of number and refuses those that it is told to */

static uint64_t last_heap;
static int32_t next_code;
static int32_t driver_creates_heap(const pilhangko_heaps_question *question, uint64_t *heap) {
    int32_t code = next_code;
    CHECK(question->size > 0);
    next_code = 0;
    if (code == 0) *heap = ++last_heap;
    return code;
}

static pilhangko_status allocates(pilhangko_heaps *heaps, const pilhangko_heaps_request *request, pilhangko_heaps_piece *piece) {
    pilhangko_heaps_progress p;
    pilhangko_status status = pilhangko_heaps_begin(heaps, request, "vertices", &p);
    if (status == PILHANGKO_OK && p.kind == PILHANGKO_PROGRESS_QUESTION) {
        uint64_t heap;
        int32_t code = driver_creates_heap(&p.question, &heap);
        if (code == 0) return pilhangko_heaps_granted(heaps, heap, piece);
        status = pilhangko_heaps_refused(heaps, code, &p);
    }
    if (status == PILHANGKO_OK && p.kind == PILHANGKO_PROGRESS_PIECE) *piece = p.piece;
    return status == PILHANGKO_OK ? p.status : status;
}

static void whole_requests(void) {
    pilhangko_heaps h = made();
    pilhangko_heaps_request device = asks_device(100), upload = asks(100, PILHANGKO_LOCATION_CPU_TO_GPU, PILHANGKO_CATEGORY_BUFFER);
    pilhangko_heaps_piece piece;
    last_heap = 40;
    IS(allocates(&h, &device, &piece), PILHANGKO_OK);
    is_piece(&piece, 0, 0, 2, 0, 100, 41);
    IS(allocates(&h, &device, &piece), PILHANGKO_OK);
    is_piece(&piece, 0, 0, 3, 100, 100, 41);
    next_code = E_OUTOFMEMORY_CODE; /* there is no second attempt */
    IS(allocates(&h, &upload, &piece), PILHANGKO_OUT_OF_MEMORY);
    IS(allocates(&h, &upload, &piece), PILHANGKO_OK);
    is_piece(&piece, 1, 0, 2, 0, 100, 42);
    IS(pilhangko_heaps_destroy(&h), PILHANGKO_OK);
}

/* ---- which memory type serves, and which heap is asked for */

static void asked_for(const pilhangko_heaps_question *q, uint32_t heap_type, uint32_t page, uint32_t pool, uint32_t flags) {
    CHECK(q->heap_type == heap_type && q->cpu_page_property == page && q->memory_pool == pool && q->flags == flags);
}

/* D3D12_HEAP_TYPE, D3D12_CPU_PAGE_PROPERTY, D3D12_MEMORY_POOL and the place among the memory types of each location, from UNKNOWN on */
static const uint32_t places[4][4] = {{1, 0, 0, 0}, {1, 0, 0, 0}, {4, 2, 1, 1}, {4, 3, 1, 2}};
static const uint32_t flags_of[3] = {0xc0, 0x84, 0x44};

static void questions_of_tier(uint32_t tier) {
    for (uint32_t location = 1; location <= 4; location++) {
        for (uint32_t category = 1; category <= 3; category++) {
            pilhangko_heaps h = made_at(tier);
            pilhangko_heaps_request r = asks(100, (pilhangko_location)location, (pilhangko_category)category);
            pilhangko_heaps_progress p;
            const uint32_t *place = places[location - 1];
            size_t count = 0;
            IS(pilhangko_heaps_begin(&h, &r, NULL, &p), PILHANGKO_OK);
            is_question(&p, place[3] == 0 ? 8 * MB : 4 * MB, tier == 1 ? 3 * place[3] + category - 1 : place[3], false);
            asked_for(&p.question, place[0], place[1], place[2], tier == 1 ? flags_of[category - 1] : 0);
            IS(pilhangko_heaps_type_count(&h, &count), PILHANGKO_OK);
            CHECK(count == (tier == 1 ? 9 : 3));
            IS(pilhangko_heaps_destroy(&h), PILHANGKO_OK);
        }
    }
}

static void tiers(void) {
    pilhangko_heaps h = {0};
    pilhangko_heaps_settings s = settings;
    s.heap_tier = 0;
    IS(pilhangko_heaps_create(&h, &s), PILHANGKO_INVALID_TIER);
    questions_of_tier(1);
    questions_of_tier(2);
    questions_of_tier(3); /* later tiers are as 2 */
    s.heap_tier = UINT32_MAX;
    IS(pilhangko_heaps_create(&h, &s), PILHANGKO_OK);
    s.heap_tier = 0;
    IS(pilhangko_heaps_create(&h, &s), PILHANGKO_IN_USE);
    IS(pilhangko_heaps_destroy(&h), PILHANGKO_OK);
}

/* ---- rows */

static void pieces_and_questions(void) {
    pilhangko_heaps h = made();
    pilhangko_heaps_request r = asks_device(100);
    pilhangko_heaps_progress p = untouched();
    pilhangko_heaps_piece first, second, own;
    has_capacity(&h, 0);
    IS(pilhangko_heaps_begin(&h, &r, "first", &p), PILHANGKO_OK);
    is_question(&p, 8 * MB, 0, false);
    has_capacity(&h, 0); /* a block that is awaited isn't one */
    IS(pilhangko_heaps_granted(&h, 1001, &first), PILHANGKO_OK);
    is_piece(&first, 0, 0, 2, 0, 100, 1001);
    has_capacity(&h, 8 * MB);
    r = asks(50, PILHANGKO_LOCATION_UNKNOWN, PILHANGKO_CATEGORY_OTHER_TEXTURE);
    r.alignment = 65536;
    IS(pilhangko_heaps_begin(&h, &r, NULL, &p), PILHANGKO_OK);
    CHECK(p.kind == PILHANGKO_PROGRESS_PIECE && p.status == PILHANGKO_OK);
    is_piece(&p.piece, 0, 0, 3, 65536, 50, 1001); /* at tier 2 categories share heaps */
    has_no_question(&p.question);
    second = p.piece;
    r = asks_device(8 * MB + 1); /* larger than the next shared block: it has a heap of its own */
    IS(pilhangko_heaps_begin(&h, &r, "own", &p), PILHANGKO_OK);
    is_question(&p, 8 * MB + 1, 0, true);
    asked_for(&p.question, 1, 0, 0, 0);
    IS(pilhangko_heaps_granted(&h, 1002, &own), PILHANGKO_OK);
    is_piece(&own, 0, 1, 1, 0, 8 * MB + 1, 1002);
    has_capacity(&h, 16 * MB + 1);
    frees(&h, &own, true, 1002); /* a piece's own heap goes */
    frees(&h, &first, false, 0);
    frees(&h, &second, false, 0); /* the last shared block stays */
    has_capacity(&h, 8 * MB);
    IS(pilhangko_heaps_destroy(&h), PILHANGKO_OK);
    IS(pilhangko_heaps_destroy(&h), PILHANGKO_NO_HANDLE);
}

static void categories_at_tier_1(void) {
    pilhangko_heaps h = made_at(1);
    pilhangko_heaps_request buffer = asks_device(100), target = asks(100, PILHANGKO_LOCATION_GPU_ONLY, PILHANGKO_CATEGORY_RTV_DSV_TEXTURE);
    pilhangko_heaps_progress p;
    pilhangko_heaps_piece piece;
    IS(pilhangko_heaps_begin(&h, &buffer, NULL, &p), PILHANGKO_OK);
    IS(pilhangko_heaps_granted(&h, 7, &piece), PILHANGKO_OK);
    is_piece(&piece, 0, 0, 2, 0, 100, 7);
    IS(pilhangko_heaps_begin(&h, &target, NULL, &p), PILHANGKO_OK);
    is_question(&p, 8 * MB, 1, false); /* a buffer's heap has no place for a render target */
    IS(pilhangko_heaps_granted(&h, 8, &piece), PILHANGKO_OK);
    is_piece(&piece, 1, 0, 2, 0, 100, 8);
    IS(pilhangko_heaps_destroy(&h), PILHANGKO_OK);
}

static void refusals_of_the_driver(void) {
    pilhangko_heaps h = made();
    pilhangko_heaps_request r = asks_device(100);
    pilhangko_heaps_progress p;
    static const int32_t codes[] = {E_OUTOFMEMORY_CODE, E_INVALIDARG_CODE, 0, 1, INT32_MIN};
    for (size_t i = 0; i < sizeof codes / sizeof *codes; i++) {
        IS(pilhangko_heaps_begin(&h, &r, NULL, &p), PILHANGKO_OK);
        is_question(&p, 8 * MB, 0, false);
        IS(pilhangko_heaps_refused(&h, codes[i], &p), PILHANGKO_OK);
        is_refused(&p, codes[i] == E_OUTOFMEMORY_CODE ? PILHANGKO_OUT_OF_MEMORY : PILHANGKO_DRIVER_REFUSED);
        p = untouched();
        IS(pilhangko_heaps_refused(&h, codes[i], &p), PILHANGKO_AWAITS_NO_ANSWER); /* the request is over */
        CHECK(is_untouched(&p));
    }
    has_capacity(&h, 0);
    IS(pilhangko_heaps_destroy(&h), PILHANGKO_OK);
}

static void out_of_turn(void) {
    pilhangko_heaps h = made();
    pilhangko_heaps_request r = asks_device(100), own = asks_device(9 * MB), bad = asks(0, (pilhangko_location)0, (pilhangko_category)0);
    pilhangko_heaps_progress p = untouched();
    pilhangko_heaps_piece piece, kept = {4, {4, 4, 4, 4, 4}};
    pilhangko_memory_block back = {true, 3};
    pilhangko_budget budget;
    IS(pilhangko_heaps_granted(&h, 1, &kept), PILHANGKO_AWAITS_NO_ANSWER);
    IS(pilhangko_heaps_refused(&h, -2, &p), PILHANGKO_AWAITS_NO_ANSWER);
    CHECK(kept.memory_type == 4 && kept.piece.number == 4 && is_untouched(&p));
    IS(pilhangko_heaps_begin(&h, &r, NULL, &p), PILHANGKO_OK);
    IS(pilhangko_heaps_granted(&h, 1, &piece), PILHANGKO_OK);
    IS(pilhangko_heaps_begin(&h, &own, NULL, &p), PILHANGKO_OK);
    p = untouched();
    IS(pilhangko_heaps_begin(&h, &r, NULL, &p), PILHANGKO_AWAITS_ANSWER);
    IS(pilhangko_heaps_begin(&h, &bad, "\xff", &p), PILHANGKO_AWAITS_ANSWER);
    CHECK(is_untouched(&p));
    IS(pilhangko_heaps_free(&h, &piece, &back), PILHANGKO_AWAITS_ANSWER);
    IS(pilhangko_heaps_free(&h, &kept, &back), PILHANGKO_AWAITS_ANSWER);
    CHECK(back.exists && back.block == 3);
    IS(pilhangko_heaps_rename(&h, &piece, "name"), PILHANGKO_AWAITS_ANSWER);
    IS(pilhangko_heaps_rename(&h, &kept, "\xff"), PILHANGKO_AWAITS_ANSWER);
    IS(pilhangko_heaps_set_word(&h, &piece, 1), PILHANGKO_AWAITS_ANSWER);
    IS(pilhangko_heaps_set_word(&h, &kept, 1), PILHANGKO_AWAITS_ANSWER);
    IS(pilhangko_heaps_set_budget(&h, 0, true, 1), PILHANGKO_AWAITS_ANSWER);
    IS(pilhangko_heaps_set_budget(&h, 9, true, 1), PILHANGKO_AWAITS_ANSWER);
    is_live(&h, &piece, true);
    has_capacity(&h, 8 * MB);
    IS(pilhangko_heaps_budget(&h, 0, &budget), PILHANGKO_OK);
    CHECK(!budget.exists && budget.bytes == 0);
    IS(pilhangko_heaps_granted(&h, 2, &kept), PILHANGKO_OK);
    frees(&h, &kept, true, 2);
    IS(pilhangko_heaps_begin(&h, &own, NULL, &p), PILHANGKO_OK);
    IS(pilhangko_heaps_destroy(&h), PILHANGKO_OK); /* with a question open */
}

static void budgets(void) {
    pilhangko_heaps h = made();
    pilhangko_heaps_request r = asks_device(100), own = asks_device(9 * MB);
    pilhangko_heaps_progress p = untouched();
    pilhangko_heaps_piece piece;
    pilhangko_budget budget = {false, 9};
    IS(pilhangko_heaps_set_budget(&h, 0, true, 8 * MB), PILHANGKO_OK);
    IS(pilhangko_heaps_set_budget(&h, 3, true, 1), PILHANGKO_NO_SUCH_TYPE);
    IS(pilhangko_heaps_set_budget(&h, SIZE_MAX, false, 1), PILHANGKO_NO_SUCH_TYPE);
    IS(pilhangko_heaps_budget(&h, 0, &budget), PILHANGKO_OK);
    CHECK(budget.exists && budget.bytes == 8 * MB);
    IS(pilhangko_heaps_budget(&h, 1, &budget), PILHANGKO_OK);
    CHECK(!budget.exists && budget.bytes == 0);
    IS(pilhangko_heaps_budget(&h, 3, &budget), PILHANGKO_OK);
    CHECK(!budget.exists && budget.bytes == 0);
    IS(pilhangko_heaps_begin(&h, &r, NULL, &p), PILHANGKO_OK); /* just within */
    IS(pilhangko_heaps_granted(&h, 1, &piece), PILHANGKO_OK);
    p = untouched();
    IS(pilhangko_heaps_begin(&h, &own, NULL, &p), PILHANGKO_BUDGET_EXCEEDED);
    CHECK(is_untouched(&p));
    own.size = UINT64_MAX - 8 * MB + 1; /* the sum of all blocks' sizes decides before the budget does */
    IS(pilhangko_heaps_begin(&h, &own, NULL, &p), PILHANGKO_OUT_OF_MEMORY);
    CHECK(is_untouched(&p));
    own.location = PILHANGKO_LOCATION_CPU_TO_GPU; /* of all memory types together */
    IS(pilhangko_heaps_begin(&h, &own, NULL, &p), PILHANGKO_OUT_OF_MEMORY);
    own = asks_device(9 * MB);
    IS(pilhangko_heaps_set_budget(&h, 0, false, 5), PILHANGKO_OK);
    IS(pilhangko_heaps_budget(&h, 0, &budget), PILHANGKO_OK);
    CHECK(!budget.exists && budget.bytes == 0);
    IS(pilhangko_heaps_begin(&h, &own, NULL, &p), PILHANGKO_OK);
    IS(pilhangko_heaps_destroy(&h), PILHANGKO_OK);
}

static void request_statuses(void) {
    pilhangko_heaps h = made();
    pilhangko_heaps_request good = asks_device(100);
    pilhangko_heaps_progress p = untouched();
    for (unsigned field = 0; field < 7; field++) {
        pilhangko_heaps_request bad = good;
        if (field == 0) bad.size = 0;
        if (field == 1) bad.alignment = 0;
        if (field == 2) bad.alignment = 6;
        if (field == 3) bad.location = (pilhangko_location)0;
        if (field == 4) bad.location = (pilhangko_location)5;
        if (field == 5) bad.category = (pilhangko_category)0;
        if (field == 6) bad.category = (pilhangko_category)4;
        IS(pilhangko_heaps_begin(&h, &bad, NULL, &p), PILHANGKO_INVALID);
    }
    IS(pilhangko_heaps_begin(&h, &good, "\xfe", &p), PILHANGKO_INVALID);
    CHECK(is_untouched(&p));
    IS(pilhangko_heaps_destroy(&h), PILHANGKO_OK);
}

static void piece_statuses(void) {
    pilhangko_heaps h = made();
    pilhangko_heaps_request good = asks_device(100);
    pilhangko_heaps_progress p;
    pilhangko_memory_block back = {true, 3};
    pilhangko_heaps_piece piece;
    IS(pilhangko_heaps_begin(&h, &good, NULL, &p), PILHANGKO_OK);
    IS(pilhangko_heaps_granted(&h, 7, &piece), PILHANGKO_OK);
    for (unsigned field = 0; field < 8; field++) {
        pilhangko_heaps_piece wrong = piece;
        if (field == 0) wrong.piece.slot++;
        if (field == 1) wrong.piece.number++;
        if (field == 2) wrong.piece.offset++;
        if (field == 3) wrong.piece.size--;
        if (field == 4) wrong.piece.block++;
        if (field == 5) wrong.piece.number = 0;
        if (field == 6) wrong.memory_type = 1;
        if (field == 7) wrong.memory_type = SIZE_MAX;
        is_live(&h, &wrong, false);
        IS(pilhangko_heaps_free(&h, &wrong, &back), PILHANGKO_NOT_LIVE);
        IS(pilhangko_heaps_rename(&h, &wrong, "name"), PILHANGKO_NOT_LIVE);
        IS(pilhangko_heaps_rename(&h, &wrong, "\xff"), PILHANGKO_INVALID);
        IS(pilhangko_heaps_set_word(&h, &wrong, 1), PILHANGKO_NOT_LIVE);
    }
    CHECK(back.exists && back.block == 3);
    IS(pilhangko_heaps_rename(&h, &piece, "\xf5"), PILHANGKO_INVALID);
    IS(pilhangko_heaps_rename(&h, &piece, "another name"), PILHANGKO_OK);
    frees(&h, &piece, false, 0);
    IS(pilhangko_heaps_free(&h, &piece, &back), PILHANGKO_NOT_LIVE);
    IS(pilhangko_heaps_destroy(&h), PILHANGKO_OK);
}

/* ---- committed resources */

static void has_committed(const pilhangko_heaps *h, size_t type, size_t count, uint64_t bytes) {
    pilhangko_heaps_committed_statistics s = {9, 9};
    IS(pilhangko_heaps_committed_of(h, type, &s), PILHANGKO_OK);
    CHECK(s.count == count && s.bytes == bytes);
}

static pilhangko_heaps_committed commits(
    pilhangko_heaps *h, uint64_t size, pilhangko_location location, pilhangko_category category, uint64_t resource) {
    pilhangko_heaps_committed c;
    IS(pilhangko_heaps_begin_committed(h, size, location, category), PILHANGKO_OK);
    IS(pilhangko_heaps_made(h, resource, &c), PILHANGKO_OK);
    CHECK(c.resource == resource && c.size == size);
    return c;
}

static void committed_rows(void) {
    pilhangko_heaps h = made_at(1);
    pilhangko_heaps_committed_statistics s = {9, 9};
    pilhangko_heaps_committed first, same, texture, other;
    first = commits(&h, 100, PILHANGKO_LOCATION_GPU_ONLY, PILHANGKO_CATEGORY_BUFFER, 77);
    CHECK(first.memory_type == 0);
    texture = commits(&h, 1000, PILHANGKO_LOCATION_GPU_TO_CPU, PILHANGKO_CATEGORY_OTHER_TEXTURE, 77);
    CHECK(texture.memory_type == 8);
    same = commits(&h, 100, PILHANGKO_LOCATION_UNKNOWN, PILHANGKO_CATEGORY_BUFFER, 77); /* handles may be equal */
    has_committed(&h, 0, 2, 200);
    has_committed(&h, 8, 1, 1000);
    has_committed(&h, 1, 0, 0);
    IS(pilhangko_heaps_committed_of(&h, 9, &s), PILHANGKO_NO_SUCH_TYPE);
    IS(pilhangko_heaps_committed_of(&h, SIZE_MAX, &s), PILHANGKO_NO_SUCH_TYPE);
    CHECK(s.count == 9 && s.bytes == 9);
    has_capacity(&h, 0); /* a committed resource is no block */
    for (unsigned field = 0; field < 4; field++) {
        other = first;
        if (field == 0) other.resource++;
        if (field == 1) other.size++;
        if (field == 2) other.memory_type = 1;
        if (field == 3) other.memory_type = SIZE_MAX;
        IS(pilhangko_heaps_forget_committed(&h, &other), PILHANGKO_NOT_LIVE);
    }
    IS(pilhangko_heaps_begin_committed(&h, 5, PILHANGKO_LOCATION_GPU_ONLY, PILHANGKO_CATEGORY_BUFFER), PILHANGKO_OK);
    IS(pilhangko_heaps_not_made(&h), PILHANGKO_OK);
    has_committed(&h, 0, 2, 200);
    IS(pilhangko_heaps_forget_committed(&h, &first), PILHANGKO_OK);
    has_committed(&h, 0, 1, 100);
    IS(pilhangko_heaps_forget_committed(&h, &same), PILHANGKO_OK);
    IS(pilhangko_heaps_forget_committed(&h, &same), PILHANGKO_NOT_LIVE);
    has_committed(&h, 0, 0, 0);
    has_committed(&h, 8, 1, 1000);
    IS(pilhangko_heaps_destroy(&h), PILHANGKO_OK);
}

static void committed_statuses(void) {
    pilhangko_heaps h = made();
    pilhangko_heaps_committed c = {4, 4, 4};
    const pilhangko_location device = PILHANGKO_LOCATION_GPU_ONLY;
    const pilhangko_category buffer = PILHANGKO_CATEGORY_BUFFER;
    IS(pilhangko_heaps_made(&h, 1, &c), PILHANGKO_AWAITS_NO_ANSWER);
    IS(pilhangko_heaps_not_made(&h), PILHANGKO_AWAITS_NO_ANSWER);
    CHECK(c.memory_type == 4 && c.resource == 4 && c.size == 4);
    IS(pilhangko_heaps_begin_committed(&h, 1, (pilhangko_location)0, buffer), PILHANGKO_INVALID);
    IS(pilhangko_heaps_begin_committed(&h, 1, (pilhangko_location)5, buffer), PILHANGKO_INVALID);
    IS(pilhangko_heaps_begin_committed(&h, 1, device, (pilhangko_category)0), PILHANGKO_INVALID);
    IS(pilhangko_heaps_begin_committed(&h, 1, device, (pilhangko_category)4), PILHANGKO_INVALID);
    c = commits(&h, UINT64_MAX - 10, device, buffer, 1);
    IS(pilhangko_heaps_begin_committed(&h, 11, device, PILHANGKO_CATEGORY_OTHER_TEXTURE), PILHANGKO_OUT_OF_MEMORY);
    (void)commits(&h, 10, device, buffer, 2);
    (void)commits(&h, 0, device, buffer, 3);
    (void)commits(&h, UINT64_MAX, PILHANGKO_LOCATION_CPU_TO_GPU, buffer, 4); /* each memory type has a sum of its own */
    IS(pilhangko_heaps_begin_committed(&h, 1, PILHANGKO_LOCATION_GPU_TO_CPU, buffer), PILHANGKO_OK);
    IS(pilhangko_heaps_begin_committed(&h, 1, device, buffer), PILHANGKO_AWAITS_ANSWER);
    IS(pilhangko_heaps_begin_committed(&h, 1, (pilhangko_location)0, buffer), PILHANGKO_AWAITS_ANSWER);
    IS(pilhangko_heaps_forget_committed(&h, &c), PILHANGKO_AWAITS_ANSWER);
    c.size = 0;
    IS(pilhangko_heaps_forget_committed(&h, &c), PILHANGKO_AWAITS_ANSWER);
    has_committed(&h, 0, 3, UINT64_MAX);
    IS(pilhangko_heaps_destroy(&h), PILHANGKO_OK); /* with a question open */
}

/* a question of each sort may be open, and neither stands in the way of the other's calls */
static void both_questions(void) {
    pilhangko_heaps h = made();
    pilhangko_heaps_request r = asks_device(100);
    pilhangko_heaps_progress p;
    pilhangko_heaps_piece piece;
    pilhangko_heaps_committed c = commits(&h, 30, PILHANGKO_LOCATION_GPU_ONLY, PILHANGKO_CATEGORY_BUFFER, 1);
    IS(pilhangko_heaps_begin(&h, &r, NULL, &p), PILHANGKO_OK);
    IS(pilhangko_heaps_made(&h, 2, &c), PILHANGKO_AWAITS_NO_ANSWER);
    IS(pilhangko_heaps_forget_committed(&h, &c), PILHANGKO_OK);
    IS(pilhangko_heaps_begin_committed(&h, 40, PILHANGKO_LOCATION_GPU_ONLY, PILHANGKO_CATEGORY_BUFFER), PILHANGKO_OK);
    IS(pilhangko_heaps_granted(&h, 5, &piece), PILHANGKO_OK);
    IS(pilhangko_heaps_granted(&h, 6, &piece), PILHANGKO_AWAITS_NO_ANSWER);
    IS(pilhangko_heaps_set_budget(&h, 0, true, 1), PILHANGKO_OK);
    frees(&h, &piece, false, 0);
    IS(pilhangko_heaps_made(&h, 2, &c), PILHANGKO_OK);
    CHECK(c.memory_type == 0 && c.resource == 2 && c.size == 40);
    has_committed(&h, 0, 1, 40);
    IS(pilhangko_heaps_destroy(&h), PILHANGKO_OK);
}

/* ---- by which call a resource is made */

static void chooses(pilhangko_device_version version, bool in_layout, bool has_formats, pilhangko_status status, uint32_t expected) {
    pilhangko_create_call call = (pilhangko_create_call)9;
    IS(pilhangko_heaps_choose_call(version, in_layout, has_formats, &call), status);
    CHECK((uint32_t)call == (status == PILHANGKO_OK ? expected : 9));
}

static void calls(void) {
    static const pilhangko_device_version versions[] = {PILHANGKO_DEVICE, PILHANGKO_DEVICE10, PILHANGKO_DEVICE12};
    for (size_t i = 0; i < 3; i++) {
        chooses(versions[i], false, false, PILHANGKO_OK, PILHANGKO_CALL_IN_STATE);
        chooses(versions[i], false, true, PILHANGKO_FORMATS_NEED_LAYOUT, 0);
    }
    chooses(PILHANGKO_DEVICE, true, false, PILHANGKO_LAYOUT_NEEDS_DEVICE10, 0);
    chooses(PILHANGKO_DEVICE, true, true, PILHANGKO_FORMATS_NEED_DEVICE12, 0);
    chooses(PILHANGKO_DEVICE10, true, false, PILHANGKO_OK, PILHANGKO_CALL_IN_LAYOUT);
    chooses(PILHANGKO_DEVICE10, true, true, PILHANGKO_FORMATS_NEED_DEVICE12, 0);
    chooses(PILHANGKO_DEVICE12, true, false, PILHANGKO_OK, PILHANGKO_CALL_IN_LAYOUT_WITH_FORMATS);
    chooses(PILHANGKO_DEVICE12, true, true, PILHANGKO_OK, PILHANGKO_CALL_IN_LAYOUT_WITH_FORMATS);
    for (uint32_t version = 1; version < 40; version++) {
        if (version == 10 || version == 12) continue;
        for (unsigned told = 0; told < 4; told++)
            chooses((pilhangko_device_version)version, told / 2 == 1, told % 2 == 1, PILHANGKO_INVALID, 0);
    }
    IS(pilhangko_heaps_choose_call(PILHANGKO_DEVICE, false, false, NULL), PILHANGKO_NULL_POINTER);
}

/* ---- words */

static void has_word(const pilhangko_heaps *h, const pilhangko_heaps_piece *piece, uint64_t expected) {
    pilhangko_piece_view view = {.word = 77};
    size_t shown;
    IS(pilhangko_heaps_pieces(h, piece->memory_type, piece->piece.slot, piece->piece.offset, &view, 1, &shown), PILHANGKO_OK);
    CHECK(shown == 1 && view.number == piece->piece.number && view.word == expected);
}

/* A word stays through renames, also of a piece that has a heap of its own, and the next piece in its place has none. */
static void words(void) {
    pilhangko_heaps h = made();
    pilhangko_heaps_request r = asks_device(100), large = asks_device(9 * MB);
    pilhangko_heaps_progress p;
    pilhangko_heaps_piece piece, own;
    IS(pilhangko_heaps_begin(&h, &r, NULL, &p), PILHANGKO_OK);
    IS(pilhangko_heaps_granted(&h, 1, &piece), PILHANGKO_OK);
    IS(pilhangko_heaps_begin(&h, &large, "own", &p), PILHANGKO_OK);
    IS(pilhangko_heaps_granted(&h, 2, &own), PILHANGKO_OK);
    has_word(&h, &piece, 0);
    has_word(&h, &own, 0);
    IS(pilhangko_heaps_set_word(&h, &piece, UINT64_MAX), PILHANGKO_OK);
    IS(pilhangko_heaps_set_word(&h, &own, 7), PILHANGKO_OK);
    IS(pilhangko_heaps_rename(&h, &piece, "a name that takes host memory of its own"), PILHANGKO_OK);
    IS(pilhangko_heaps_rename(&h, &own, NULL), PILHANGKO_OK);
    has_word(&h, &piece, UINT64_MAX);
    has_word(&h, &own, 7);
    frees(&h, &piece, false, 0);
    IS(pilhangko_heaps_begin(&h, &r, NULL, &p), PILHANGKO_OK);
    is_piece(&p.piece, 0, 0, 3, 0, 100, 1);
    IS(pilhangko_heaps_set_word(&h, &piece, 1), PILHANGKO_NOT_LIVE);
    has_word(&h, &p.piece, 0);
    has_word(&h, &own, 7);
    IS(pilhangko_heaps_destroy(&h), PILHANGKO_OK);
}

/* ---- visits, also while questions are open */

static pilhangko_heaps with_three_pieces(void) {
    pilhangko_heaps h = made();
    pilhangko_heaps_request r = asks_device(100);
    pilhangko_heaps_progress p;
    pilhangko_heaps_piece piece;
    IS(pilhangko_heaps_begin(&h, &r, "first", &p), PILHANGKO_OK);
    IS(pilhangko_heaps_granted(&h, 1001, &piece), PILHANGKO_OK);
    r.alignment = 256;
    IS(pilhangko_heaps_begin(&h, &r, "se\"cond", &p), PILHANGKO_OK);
    is_piece(&p.piece, 0, 0, 3, 256, 100, 1001);
    r.location = PILHANGKO_LOCATION_GPU_TO_CPU;
    r.size = 5 * MB;
    IS(pilhangko_heaps_begin(&h, &r, "own", &p), PILHANGKO_OK);
    is_question(&p, 5 * MB, 2, true);
    IS(pilhangko_heaps_granted(&h, 1002, &piece), PILHANGKO_OK);
    is_piece(&piece, 2, 0, 1, 0, 5 * MB, 1002);
    return h;
}

static void counts_of_types(const pilhangko_heaps *h) {
    pilhangko_type_statistics s = {9, 9, 9, true, 9, 9, 9, 9, 9};
    uint64_t bytes = 9;
    IS(pilhangko_heaps_type_capacity(h, 3, &bytes), PILHANGKO_NO_SUCH_TYPE);
    CHECK(bytes == 9);
    IS(pilhangko_heaps_type_capacity(h, 0, &bytes), PILHANGKO_OK);
    CHECK(bytes == 8 * MB);
    IS(pilhangko_heaps_type_capacity(h, 2, &bytes), PILHANGKO_OK);
    CHECK(bytes == 5 * MB);
    IS(pilhangko_heaps_type_statistics(h, 3, &s), PILHANGKO_NO_SUCH_TYPE);
    CHECK(s.capacity == 9 && s.slots == 9 && s.longest_gap == 9);
    IS(pilhangko_heaps_type_statistics(h, 0, &s), PILHANGKO_OK);
    CHECK(s.capacity == 8 * MB && s.slots == 1 && s.shared_blocks == 1 && s.has_budget && s.budget == 9 * MB);
    CHECK(s.pieces == 2 && s.piece_bytes == 356 && s.gaps == 1 && s.longest_gap == 8 * MB - 356);
    IS(pilhangko_heaps_type_statistics(h, 2, &s), PILHANGKO_OK);
    CHECK(s.capacity == 5 * MB && s.slots == 1 && s.shared_blocks == 0 && !s.has_budget && s.budget == 0);
    CHECK(s.pieces == 1 && s.piece_bytes == 5 * MB && s.gaps == 0 && s.longest_gap == 0);
    IS(pilhangko_heaps_type_statistics(h, 1, &s), PILHANGKO_OK);
    CHECK(s.capacity == 0 && s.slots == 0 && s.shared_blocks == 0 && s.pieces == 0 && s.piece_bytes == 0);
    IS(pilhangko_heaps_statistics(h, &s), PILHANGKO_OK);
    CHECK(s.capacity == 13 * MB && s.slots == 2 && s.shared_blocks == 1 && !s.has_budget && s.budget == 0);
    CHECK(s.pieces == 3 && s.piece_bytes == 5 * MB + 356 && s.gaps == 1 && s.longest_gap == 8 * MB - 356);
}

static void blocks_of_slots(const pilhangko_heaps *h) {
    pilhangko_memory_block block = {false, 9};
    pilhangko_memory_block_statistics s = {false, true, 9, 9, 9, 9, 9};
    IS(pilhangko_heaps_block(h, 0, 0, &block), PILHANGKO_OK);
    CHECK(block.exists && block.block == 1001);
    IS(pilhangko_heaps_block(h, 2, 0, &block), PILHANGKO_OK);
    CHECK(block.exists && block.block == 1002);
    IS(pilhangko_heaps_block(h, 2, 1, &block), PILHANGKO_OK);
    CHECK(!block.exists && block.block == 0);
    IS(pilhangko_heaps_block(h, SIZE_MAX, 0, &block), PILHANGKO_OK);
    CHECK(!block.exists && block.block == 0);
    IS(pilhangko_heaps_block_statistics(h, 0, 0, &s), PILHANGKO_OK);
    CHECK(s.exists && s.shared && s.size == 8 * MB && s.pieces == 2 && s.piece_bytes == 356 && s.gaps == 1 && s.longest_gap == 8 * MB - 356);
    IS(pilhangko_heaps_block_statistics(h, 3, 0, &s), PILHANGKO_OK);
    CHECK(!s.exists && !s.shared && s.size == 0 && s.pieces == 0 && s.piece_bytes == 0 && s.gaps == 0 && s.longest_gap == 0);
}

static void pieces_of_slots(const pilhangko_heaps *h) {
    pilhangko_piece_view views[3];
    size_t count = 9, lengths[3];
    char names[12] = "...........";
    IS(pilhangko_heaps_pieces(h, 0, 0, 0, views, 3, &count), PILHANGKO_OK);
    CHECK(count == 2 && views[0].exists && views[0].number == 2 && views[0].start == 0 && views[0].offset == 0 && views[0].end == 100);
    CHECK(views[1].number == 3 && views[1].start == 100 && views[1].offset == 256 && views[1].end == 356);
    CHECK(views[1].kind == PILHANGKO_KIND_LINEAR); /* all pieces are */
    IS(pilhangko_heaps_pieces(h, 0, 0, 1, views, 3, &count), PILHANGKO_OK);
    CHECK(count == 1 && views[0].number == 3);
    IS(pilhangko_heaps_pieces(h, 0, 0, 0, NULL, 0, &count), PILHANGKO_OK);
    CHECK(count == 0);
    IS(pilhangko_heaps_pieces(h, 3, 0, 0, views, 3, &count), PILHANGKO_OK);
    CHECK(count == 0);
    IS(pilhangko_heaps_piece_names(h, 0, 0, 0, lengths, 3, names, 11, &count), PILHANGKO_OK);
    CHECK(count == 2 && lengths[0] == 5 && lengths[1] == 7 && !strcmp(names, "firstse\"con"));
    IS(pilhangko_heaps_piece_names(h, 2, 0, 0, lengths, 3, names, 11, &count), PILHANGKO_OK);
    CHECK(count == 1 && lengths[0] == 3 && !strncmp(names, "ownst", 5));
    IS(pilhangko_heaps_piece_names(h, 2, 1, 0, lengths, 3, names, 11, &count), PILHANGKO_OK);
    CHECK(count == 0);
}

static const char report_of_three[] =
    "{\"allocations\":[{\"name\":\"first\",\"offset\":0,\"size\":100},{\"name\":\"se\\\"cond\",\"offset\":256,\"size\":100},"
    "{\"name\":\"own\",\"offset\":0,\"size\":5242880}],\"blocks\":[{\"allocations\":{\"end\":2,\"start\":0},\"size\":8388608},"
    "{\"allocations\":{\"end\":3,\"start\":2},\"size\":5242880}],\"schema\":\"gpu_report.allocator\",\"total_allocated_bytes\":5243236,"
    "\"total_capacity_bytes\":13631488,\"version\":1}";

static const char second_leak[] = "leak detected: {\n    memory type: 0\n    memory block: 0\n    chunk: {\n        chunk_id: 3,\n"
                                  "        size: 0x100,\n        offset: 0x64,\n        allocation_type: Linear,\n"
                                  "        name: se\"cond\n    }\n}";
static const char third_leak[] = "leak detected: {\n    memory type: 2\n    memory block: 0\n    dedicated allocation: {\n"
                                 "        size: 0x500000,\n        name: own\n    }\n}";

static void texts(const pilhangko_heaps *h) {
    char text[500] = {0};
    size_t length = 9;
    IS(pilhangko_heaps_report(h, NULL, 0, &length), PILHANGKO_OK);
    CHECK(length == strlen(report_of_three) && length < sizeof text);
    IS(pilhangko_heaps_report(h, text, sizeof text, &length), PILHANGKO_OK);
    CHECK(!strcmp(text, report_of_three) && length == strlen(report_of_three));
    memset(text, 0, sizeof text);
    IS(pilhangko_heaps_report(h, text, 10, &length), PILHANGKO_OK);
    CHECK(!strncmp(text, report_of_three, 10) && text[10] == 0 && length == strlen(report_of_three));
    memset(text, 0, sizeof text);
    IS(pilhangko_heaps_leak(h, 1, text, sizeof text, &length), PILHANGKO_OK);
    CHECK(!strcmp(text, second_leak) && length == strlen(second_leak));
    memset(text, 0, sizeof text);
    IS(pilhangko_heaps_leak(h, 2, text, sizeof text, &length), PILHANGKO_OK);
    CHECK(!strcmp(text, third_leak) && length == strlen(third_leak));
    memset(text, 0, sizeof text);
    IS(pilhangko_heaps_leak(h, 3, text, sizeof text, &length), PILHANGKO_OK);
    CHECK(text[0] == 0 && length == 0);
    IS(pilhangko_heaps_leak(h, 0, NULL, 0, &length), PILHANGKO_OK);
    CHECK(length == strlen(second_leak) - 2 - 2); /* its offset has one digit less and its size 0x64, its name two bytes less */
}

static void visits(void) {
    pilhangko_heaps h = with_three_pieces();
    pilhangko_heaps_request r = asks_device(8 * MB);
    pilhangko_heaps_progress p;
    IS(pilhangko_heaps_set_budget(&h, 0, true, 9 * MB), PILHANGKO_OK);
    counts_of_types(&h);
    IS(pilhangko_heaps_set_budget(&h, 0, true, 16 * MB), PILHANGKO_OK);
    IS(pilhangko_heaps_begin_committed(&h, 5, PILHANGKO_LOCATION_GPU_ONLY, PILHANGKO_CATEGORY_BUFFER), PILHANGKO_OK);
    IS(pilhangko_heaps_begin(&h, &r, "awaited", &p), PILHANGKO_OK);
    is_question(&p, 8 * MB, 0, false);
    blocks_of_slots(&h);
    pieces_of_slots(&h);
    texts(&h);
    IS(pilhangko_heaps_destroy(&h), PILHANGKO_OK);
}

/* ---- empty handles, and pointers that are NULL */

static void each_committed_call(pilhangko_heaps *h, bool tells, pilhangko_status expected) {
    pilhangko_heaps_committed committed = {0, 1, 1};
    pilhangko_heaps_committed_statistics records;
    IS(pilhangko_heaps_made(h, 1, tells ? &committed : NULL), expected);
    IS(pilhangko_heaps_committed_of(h, 0, tells ? &records : NULL), expected);
    if (!tells) return;
    IS(pilhangko_heaps_begin_committed(h, 1, PILHANGKO_LOCATION_GPU_ONLY, PILHANGKO_CATEGORY_BUFFER), expected);
    IS(pilhangko_heaps_not_made(h), expected);
    IS(pilhangko_heaps_forget_committed(h, &committed), expected);
}

static void each_call(pilhangko_heaps *h, bool tells, pilhangko_status expected) {
    pilhangko_heaps_request r = asks_device(100);
    pilhangko_heaps_progress p;
    pilhangko_heaps_piece piece = {0, {0, 1, 0, 1, 1}};
    pilhangko_memory_block shown;
    pilhangko_budget budget;
    pilhangko_type_statistics type;
    pilhangko_memory_block_statistics block;
    pilhangko_piece_view views[1];
    uint64_t bytes;
    size_t count, lengths[1];
    bool live;
    char text[1];
    IS(pilhangko_heaps_begin(h, &r, NULL, tells ? &p : NULL), expected);
    IS(pilhangko_heaps_granted(h, 1, tells ? &piece : NULL), expected);
    IS(pilhangko_heaps_refused(h, -2, tells ? &p : NULL), expected);
    IS(pilhangko_heaps_free(h, &piece, tells ? &shown : NULL), expected);
    IS(pilhangko_heaps_is_live(h, &piece, tells ? &live : NULL), expected);
    IS(pilhangko_heaps_type_count(h, tells ? &count : NULL), expected);
    IS(pilhangko_heaps_budget(h, 0, tells ? &budget : NULL), expected);
    IS(pilhangko_heaps_capacity(h, tells ? &bytes : NULL), expected);
    IS(pilhangko_heaps_type_statistics(h, 0, tells ? &type : NULL), expected);
    IS(pilhangko_heaps_statistics(h, tells ? &type : NULL), expected);
    IS(pilhangko_heaps_type_capacity(h, 0, tells ? &bytes : NULL), expected);
    IS(pilhangko_heaps_block(h, 0, 0, tells ? &shown : NULL), expected);
    IS(pilhangko_heaps_block_statistics(h, 0, 0, tells ? &block : NULL), expected);
    IS(pilhangko_heaps_pieces(h, 0, 0, 0, views, 1, tells ? &count : NULL), expected);
    IS(pilhangko_heaps_piece_names(h, 0, 0, 0, lengths, 1, text, 1, tells ? &count : NULL), expected);
    IS(pilhangko_heaps_report(h, text, 1, tells ? &count : NULL), expected);
    IS(pilhangko_heaps_leak(h, 0, text, 1, tells ? &count : NULL), expected);
    if (!tells) return;
    IS(pilhangko_heaps_rename(h, &piece, NULL), expected);
    IS(pilhangko_heaps_set_word(h, &piece, 1), expected);
    IS(pilhangko_heaps_set_budget(h, 0, true, 1), expected);
    IS(pilhangko_heaps_destroy(h), expected);
}

static void empty_handles_and_null(void) {
    pilhangko_heaps h = {0};
    pilhangko_heaps_progress p;
    pilhangko_memory_block back;
    bool live;
    size_t count;
    char text[1];
    each_call(&h, true, PILHANGKO_NO_HANDLE);
    each_call(NULL, true, PILHANGKO_NULL_POINTER);
    each_call(&h, false, PILHANGKO_NULL_POINTER);
    each_committed_call(&h, true, PILHANGKO_NO_HANDLE);
    each_committed_call(NULL, true, PILHANGKO_NULL_POINTER);
    each_committed_call(&h, false, PILHANGKO_NULL_POINTER);
    IS(pilhangko_heaps_create(NULL, &settings), PILHANGKO_NULL_POINTER);
    IS(pilhangko_heaps_create(&h, NULL), PILHANGKO_NULL_POINTER);
    IS(pilhangko_heaps_begin(&h, NULL, NULL, &p), PILHANGKO_NULL_POINTER);
    IS(pilhangko_heaps_free(&h, NULL, &back), PILHANGKO_NULL_POINTER);
    IS(pilhangko_heaps_rename(&h, NULL, NULL), PILHANGKO_NULL_POINTER);
    IS(pilhangko_heaps_set_word(&h, NULL, 1), PILHANGKO_NULL_POINTER);
    IS(pilhangko_heaps_is_live(&h, NULL, &live), PILHANGKO_NULL_POINTER);
    IS(pilhangko_heaps_forget_committed(&h, NULL), PILHANGKO_NULL_POINTER);
    IS(pilhangko_heaps_pieces(&h, 0, 0, 0, NULL, 1, &count), PILHANGKO_NULL_POINTER);
    IS(pilhangko_heaps_piece_names(&h, 0, 0, 0, NULL, 1, text, 1, &count), PILHANGKO_NULL_POINTER);
    IS(pilhangko_heaps_piece_names(&h, 0, 0, 0, &count, 1, NULL, 1, &count), PILHANGKO_NULL_POINTER);
    IS(pilhangko_heaps_report(&h, NULL, 1, &count), PILHANGKO_NULL_POINTER);
    IS(pilhangko_heaps_leak(&h, 0, NULL, 1, &count), PILHANGKO_NULL_POINTER);
}

int main(void) {
    whole_requests();
    tiers();
    pieces_and_questions();
    categories_at_tier_1();
    refusals_of_the_driver();
    out_of_turn();
    budgets();
    request_statuses();
    piece_statuses();
    committed_rows();
    committed_statuses();
    both_questions();
    calls();
    words();
    visits();
    empty_handles_and_null();
    return 0;
}
