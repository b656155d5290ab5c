/* Requests by flags at an allocator, and limits of heaps: rows that were worked out by hand. The order of memory types, what goes on after a refusal
 * and what doesn't, requests that ask for no block, what the blocks of a heap may sum up to, and how many there may be. */
#include "test.h"

#define MB (UINT64_C(1) << 20)

enum { LOCAL = 1, VISIBLE = 2, COHERENT = 4, CACHED = 8, LAZY = 16 };

/* a card with a small window that the host writes through, host memory plain and cached, and lazily allocated memory */
static const pilhangko_device_memory_type types[] = {{LOCAL, 0}, {VISIBLE | COHERENT, 1}, {LOCAL | VISIBLE | COHERENT, 2},
    {VISIBLE | COHERENT | CACHED, 1}, {LOCAL | LAZY, 0}};
static const pilhangko_device_heap heaps[] = {{1024 * MB, 1}, {512 * MB, 0}, {16 * MB, 1}};
static const pilhangko_allocator_settings settings = {1, 4 * MB, 0, 4 * MB, 0};

static pilhangko_allocator made(void) {
    pilhangko_allocator a = {0};
    IS(pilhangko_allocator_create(&a, types, 5, heaps, 3, &settings), PILHANGKO_OK);
    return a;
}

static pilhangko_allocator_request asks(uint64_t size, uint32_t bits) {
    const pilhangko_allocator_request r = {size, 1, bits, PILHANGKO_KIND_LINEAR, PILHANGKO_LOCATION_UNKNOWN, PILHANGKO_SCHEME_MANAGED, 0};
    return r;
}

static void is_asked(const pilhangko_allocator_progress *p, size_t type) {
    CHECK(p->kind == PILHANGKO_PROGRESS_QUESTION && p->status == PILHANGKO_OK);
    CHECK(p->question.memory_type == type && p->question.mapped == ((types[type].flags & VISIBLE) != 0));
}

static void is_refused(const pilhangko_allocator_progress *p, pilhangko_status status) {
    CHECK(p->kind == PILHANGKO_PROGRESS_REFUSED && p->status == status);
}

/* The memory types that are asked in turn, while the driver has no memory left. */
static void has_order(uint32_t bits, pilhangko_preference preference, const size_t *order, size_t count) {
    pilhangko_allocator a = made();
    const pilhangko_allocator_request r = asks(100, bits);
    pilhangko_allocator_progress p;
    IS(pilhangko_allocator_begin_by_flags(&a, &r, "in order", &preference, &p), PILHANGKO_OK);
    for (size_t i = 0; i < count; i++) {
        is_asked(&p, order[i]);
        IS(pilhangko_allocator_refused(&a, -2, &p), PILHANGKO_OK);
    }
    is_refused(&p, PILHANGKO_OUT_OF_MEMORY);
    IS(pilhangko_allocator_destroy(&a), PILHANGKO_OK);
}

static void orders(void) {
    /* nothing is said: by index */
    has_order(31, (pilhangko_preference){0, 0, 0, false}, (size_t[]){0, 1, 2, 3, 4}, 5);
    /* staging: seen by the host, and best not on the card nor cached: 1 costs nothing, 2 and 3 one each */
    has_order(31, (pilhangko_preference){VISIBLE | COHERENT, 0, LOCAL | CACHED, false}, (size_t[]){1, 2, 3}, 3);
    /* uniforms: seen by the host, best on the card: 2, then those that lack it */
    has_order(31, (pilhangko_preference){VISIBLE, LOCAL, 0, false}, (size_t[]){2, 1, 3}, 3);
    /* readback: best cached, and not on the card: 3 costs nothing, 1 one, 2 two */
    has_order(31, (pilhangko_preference){VISIBLE, CACHED, LOCAL, false}, (size_t[]){3, 1, 2}, 3);
    /* attachments of one pass: best lazily allocated: 4 costs nothing, 0 and 2 one each */
    has_order(31, (pilhangko_preference){LOCAL, LAZY, 0, false}, (size_t[]){4, 0, 2}, 3);
    /* targets: best not where the host sees it, nor lazy */
    has_order(31, (pilhangko_preference){LOCAL, 0, VISIBLE | LAZY, false}, (size_t[]){0, 2, 4}, 3);
    /* only what the request allows */
    has_order(12, (pilhangko_preference){0, VISIBLE, 0, false}, (size_t[]){2, 3}, 2);
    /* bits that no memory type has */
    has_order(UINT32_MAX, (pilhangko_preference){0, UINT32_C(1) << 30, UINT32_C(1) << 31, false}, (size_t[]){0, 1, 2, 3, 4}, 5);
}

static void refusals(void) {
    pilhangko_allocator a = made();
    const pilhangko_preference device = {LOCAL, 0, VISIBLE | LAZY, false}, none = {CACHED | LOCAL, 0, 0, false}, any = {0, 0, 0, false};
    const pilhangko_allocator_request r = asks(100, 31), large = asks(1025 * MB, 31), no_bits = asks(100, 0);
    pilhangko_allocator_request bad = r;
    pilhangko_allocator_progress p;
    IS(pilhangko_allocator_begin_by_flags(&a, &r, "none", &none, &p), PILHANGKO_NO_MEMORY_TYPE);
    IS(pilhangko_allocator_begin_by_flags(&a, &no_bits, "none", &any, &p), PILHANGKO_NO_MEMORY_TYPE);
    IS(pilhangko_allocator_begin_by_flags(&a, &large, "large", &any, &p), PILHANGKO_OUT_OF_MEMORY);
    bad.size = 0;
    IS(pilhangko_allocator_begin_by_flags(&a, &bad, "empty", &any, &p), PILHANGKO_INVALID);
    bad = r;
    bad.location = 0;
    IS(pilhangko_allocator_begin_by_flags(&a, &bad, "nowhere", &any, &p), PILHANGKO_INVALID);
    IS(pilhangko_allocator_begin_by_flags(&a, &r, "\xff", &any, &p), PILHANGKO_INVALID);
    IS(pilhangko_allocator_begin_by_flags(NULL, &r, "null", &any, &p), PILHANGKO_NULL_POINTER);
    IS(pilhangko_allocator_begin_by_flags(&a, &r, "null", NULL, &p), PILHANGKO_NULL_POINTER);
    /* another code than lack of memory ends the request, and so does a mapping that is refused */
    IS(pilhangko_allocator_begin_by_flags(&a, &r, "lost", &device, &p), PILHANGKO_OK);
    is_asked(&p, 0);
    IS(pilhangko_allocator_begin_by_flags(&a, &r, "two", &device, &p), PILHANGKO_AWAITS_ANSWER);
    IS(pilhangko_allocator_refused(&a, -4, &p), PILHANGKO_OK);
    is_refused(&p, PILHANGKO_DRIVER_REFUSED);
    IS(pilhangko_allocator_begin_by_flags(&a, &r, "unmapped", &(pilhangko_preference){VISIBLE, 0, 0, false}, &p), PILHANGKO_OK);
    is_asked(&p, 1);
    IS(pilhangko_allocator_mapping_refused(&a, true, -5, &p), PILHANGKO_OK);
    is_refused(&p, PILHANGKO_FAILED_TO_MAP);
    /* a budget is no end: 0 has none left, so 2 is asked */
    IS(pilhangko_allocator_set_budget(&a, 0, true, 1), PILHANGKO_OK);
    IS(pilhangko_allocator_begin_by_flags(&a, &r, "bounded", &device, &p), PILHANGKO_OK);
    is_asked(&p, 2);
    IS(pilhangko_allocator_refused(&a, -2, &p), PILHANGKO_OK);
    is_asked(&p, 4);
    IS(pilhangko_allocator_refused(&a, -2, &p), PILHANGKO_OK);
    is_refused(&p, PILHANGKO_OUT_OF_MEMORY);
    /* nor is a heap that is too small: 17 MB pass the window's 16 */
    const pilhangko_allocator_request seventeen = asks(17 * MB, 31);
    IS(pilhangko_allocator_begin_by_flags(&a, &seventeen, "wide", &(pilhangko_preference){VISIBLE, LOCAL, 0, false}, &p), PILHANGKO_OK);
    is_asked(&p, 1);
    IS(pilhangko_allocator_refused(&a, -2, &p), PILHANGKO_OK);
    is_asked(&p, 3);
    /* the last one's cause counts, and it may be a budget */
    IS(pilhangko_allocator_refused(&a, -2, &p), PILHANGKO_OK);
    is_refused(&p, PILHANGKO_OUT_OF_MEMORY);
    IS(pilhangko_allocator_set_budget(&a, 4, true, 1), PILHANGKO_OK);
    IS(pilhangko_allocator_begin_by_flags(&a, &r, "bounded", &(pilhangko_preference){LAZY, 0, 0, false}, &p), PILHANGKO_BUDGET_EXCEEDED);
    IS(pilhangko_allocator_destroy(&a), PILHANGKO_OK);
}

/* Without a new block: a place in one that is there, in the cheapest memory type that has one. */
static void places(void) {
    pilhangko_allocator a = made();
    const pilhangko_preference host = {VISIBLE, LOCAL, 0, true};
    const pilhangko_allocator_request r = asks(100, 31);
    pilhangko_allocator_request own = r;
    pilhangko_allocator_progress p;
    pilhangko_allocator_piece piece;
    IS(pilhangko_allocator_begin_by_flags(&a, &r, "none", &host, &p), PILHANGKO_OUT_OF_MEMORY);
    IS(pilhangko_allocator_begin_by_flags(&a, &r, "first", &(pilhangko_preference){CACHED, 0, 0, false}, &p), PILHANGKO_OK);
    is_asked(&p, 3);
    IS(pilhangko_allocator_granted(&a, 7, 70, &piece), PILHANGKO_OK);
    /* 2 and 1 cost less, and have no block */
    IS(pilhangko_allocator_begin_by_flags(&a, &r, "second", &host, &p), PILHANGKO_OK);
    CHECK(p.kind == PILHANGKO_PROGRESS_PIECE && p.piece.memory_type == 3 && p.piece.address == 70);
    CHECK(p.piece.piece.block == 7 && p.piece.piece.offset == 100 && p.piece.piece.size == 100);
    /* memory of its own is a new block */
    own.scheme = PILHANGKO_SCHEME_BUFFER;
    IS(pilhangko_allocator_begin_by_flags(&a, &own, "own", &host, &p), PILHANGKO_OUT_OF_MEMORY);
    IS(pilhangko_allocator_destroy(&a), PILHANGKO_OK);
}

static void is_limit(const pilhangko_allocator *a, size_t heap, bool exists, uint64_t bytes) {
    pilhangko_budget limit = {!exists, 77};
    IS(pilhangko_allocator_heap_limit(a, heap, &limit), PILHANGKO_OK);
    CHECK(limit.exists == exists && limit.bytes == bytes);
}

static void is_bound(const pilhangko_allocator *a, size_t type, bool exists, uint64_t bytes) {
    pilhangko_budget bound = {!exists, 77};
    IS(pilhangko_allocator_bound(a, type, &bound), PILHANGKO_OK);
    CHECK(bound.exists == exists && bound.bytes == bytes);
}

/* A new block of that memory type, of 4 MB. */
static void grows(pilhangko_allocator *a, uint32_t type, uint64_t memory, pilhangko_allocator_piece *piece) {
    const pilhangko_allocator_request r = asks(4 * MB, UINT32_C(1) << type);
    pilhangko_allocator_progress p;
    IS(pilhangko_allocator_begin(a, &r, "a block", &p), PILHANGKO_OK);
    is_asked(&p, type);
    CHECK(p.question.size == 4 * MB);
    IS(pilhangko_allocator_granted(a, memory, types[type].flags & VISIBLE ? memory * 10 : 0, piece), PILHANGKO_OK);
}

/* The blocks of memory types 1 and 3 lie in heap 1, and those of 0 and 4 in heap 0. */
static void limits(void) {
    pilhangko_allocator a = made(), empty = {0};
    pilhangko_allocator_piece piece;
    pilhangko_allocator_progress p;
    pilhangko_allocator_memory back;
    pilhangko_budget limit;
    const pilhangko_allocator_request plain = asks(4 * MB, 2), cached = asks(4 * MB, 8), host = asks(4 * MB, 10), local = asks(4 * MB, 1);
    is_limit(&a, 1, false, 0);
    IS(pilhangko_allocator_set_heap_limit(&a, 3, true, 1), PILHANGKO_NO_SUCH_HEAP);
    is_limit(&a, 3, false, 0);
    IS(pilhangko_allocator_set_heap_limit(&a, 1, true, 12 * MB), PILHANGKO_OK);
    is_limit(&a, 1, true, 12 * MB);
    is_limit(&a, 0, false, 0);
    is_bound(&a, 0, false, 0);
    is_bound(&a, 1, true, 12 * MB);
    is_bound(&a, 3, true, 12 * MB);
    is_bound(&a, 99, false, 0);
    grows(&a, 1, 1, &piece);
    grows(&a, 3, 2, &piece);
    grows(&a, 1, 3, &piece);
    /* each has what the other leaves, or its budget where that is less */
    is_bound(&a, 1, true, 8 * MB);
    is_bound(&a, 3, true, 4 * MB);
    IS(pilhangko_allocator_set_budget(&a, 1, true, 8 * MB + 1), PILHANGKO_OK);
    IS(pilhangko_allocator_set_budget(&a, 3, true, 4 * MB - 1), PILHANGKO_OK);
    is_bound(&a, 1, true, 8 * MB);
    is_bound(&a, 3, true, 4 * MB - 1);
    IS(pilhangko_allocator_set_budget(&a, 1, false, 0), PILHANGKO_OK);
    IS(pilhangko_allocator_set_budget(&a, 3, false, 0), PILHANGKO_OK);
    /* 12 MB are there: neither memory type of the heap has a fourth block, by its location or by flags, but heap 0 has */
    IS(pilhangko_allocator_begin(&a, &plain, "four", &p), PILHANGKO_BUDGET_EXCEEDED);
    IS(pilhangko_allocator_begin(&a, &cached, "four", &p), PILHANGKO_BUDGET_EXCEEDED);
    IS(pilhangko_allocator_begin_by_flags(&a, &host, "four", &(pilhangko_preference){VISIBLE, 0, 0, false}, &p), PILHANGKO_BUDGET_EXCEEDED);
    IS(pilhangko_allocator_begin(&a, &local, "other", &p), PILHANGKO_OK);
    is_asked(&p, 0);
    IS(pilhangko_allocator_set_heap_limit(&a, 1, false, 0), PILHANGKO_AWAITS_ANSWER);
    IS(pilhangko_allocator_refused(&a, -2, &p), PILHANGKO_OK);
    is_refused(&p, PILHANGKO_OUT_OF_MEMORY);
    /* an upload goes to the window instead, and by flags to what costs more */
    IS(pilhangko_allocator_begin_by_flags(&a, &(pilhangko_allocator_request){4 * MB, 1, 31, PILHANGKO_KIND_LINEAR, PILHANGKO_LOCATION_UNKNOWN,
           PILHANGKO_SCHEME_MANAGED, 0}, "window", &(pilhangko_preference){VISIBLE, 0, LOCAL, false}, &p), PILHANGKO_OK);
    is_asked(&p, 2);
    IS(pilhangko_allocator_refused(&a, -2, &p), PILHANGKO_OK);
    is_refused(&p, PILHANGKO_OUT_OF_MEMORY);
    /* a block that went back counts no more; a limit below what is there takes nothing away, and one byte less is too little */
    uint64_t bytes;
    IS(pilhangko_allocator_free(&a, &piece, &back), PILHANGKO_OK);
    CHECK(back.exists && back.memory == 3);
    IS(pilhangko_allocator_set_heap_limit(&a, 1, true, 0), PILHANGKO_OK);
    is_bound(&a, 1, true, 0);
    IS(pilhangko_allocator_begin(&a, &cached, "three", &p), PILHANGKO_BUDGET_EXCEEDED);
    IS(pilhangko_allocator_capacity(&a, &bytes), PILHANGKO_OK);
    CHECK(bytes == 8 * MB);
    IS(pilhangko_allocator_set_heap_limit(&a, 1, true, 12 * MB - 1), PILHANGKO_OK);
    IS(pilhangko_allocator_begin(&a, &cached, "three", &p), PILHANGKO_BUDGET_EXCEEDED);
    IS(pilhangko_allocator_set_heap_limit(&a, 1, true, 12 * MB), PILHANGKO_OK);
    grows(&a, 3, 4, &piece);
    IS(pilhangko_allocator_set_heap_limit(&a, 1, false, 9), PILHANGKO_OK);
    is_limit(&a, 1, false, 0);
    grows(&a, 3, 5, &piece);
    IS(pilhangko_allocator_destroy(&a), PILHANGKO_OK);
    IS(pilhangko_allocator_set_heap_limit(&empty, 0, true, 1), PILHANGKO_NO_HANDLE);
    IS(pilhangko_allocator_heap_limit(&empty, 0, &limit), PILHANGKO_NO_HANDLE);
    IS(pilhangko_allocator_bound(&empty, 0, &limit), PILHANGKO_NO_HANDLE);
    IS(pilhangko_allocator_bound(&a, 0, NULL), PILHANGKO_NULL_POINTER);
    IS(pilhangko_allocator_bound(NULL, 0, &limit), PILHANGKO_NULL_POINTER);
    IS(pilhangko_allocator_set_heap_limit(NULL, 0, true, 1), PILHANGKO_NULL_POINTER);
    IS(pilhangko_allocator_heap_limit(&a, 0, NULL), PILHANGKO_NULL_POINTER);
}

/* Of all memory types together there are at most so many blocks. */
static void block_counts(void) {
    pilhangko_allocator a = made(), empty = {0};
    pilhangko_allocator_piece piece;
    pilhangko_allocator_progress p;
    pilhangko_allocator_memory back;
    const pilhangko_allocator_request plain = asks(4 * MB, 2), small = asks(100, 1);
    bool has_most = true;
    size_t most = 7;
    IS(pilhangko_allocator_most_blocks(&a, &has_most, &most), PILHANGKO_OK);
    CHECK(!has_most && most == 0);
    IS(pilhangko_allocator_set_most_blocks(&a, true, 2), PILHANGKO_OK);
    IS(pilhangko_allocator_most_blocks(&a, &has_most, &most), PILHANGKO_OK);
    CHECK(has_most && most == 2);
    grows(&a, 0, 1, &piece);
    is_bound(&a, 0, false, 0);
    grows(&a, 1, 2, &piece);
    is_bound(&a, 0, true, 4 * MB);
    is_bound(&a, 2, true, 0);
    IS(pilhangko_allocator_begin(&a, &plain, "three", &p), PILHANGKO_BUDGET_EXCEEDED);
    IS(pilhangko_allocator_begin(&a, &small, "three", &p), PILHANGKO_BUDGET_EXCEEDED);
    IS(pilhangko_allocator_begin_by_flags(&a, &plain, "three", &(pilhangko_preference){0, 0, 0, false}, &p), PILHANGKO_BUDGET_EXCEEDED);
    /* where a block goes another one may come */
    IS(pilhangko_allocator_set_most_blocks(&a, true, 3), PILHANGKO_OK);
    grows(&a, 1, 3, &piece);
    IS(pilhangko_allocator_begin(&a, &plain, "four", &p), PILHANGKO_BUDGET_EXCEEDED);
    IS(pilhangko_allocator_free(&a, &piece, &back), PILHANGKO_OK);
    CHECK(back.exists && back.memory == 3);
    grows(&a, 3, 4, &piece);
    IS(pilhangko_allocator_set_most_blocks(&a, true, 0), PILHANGKO_OK);
    IS(pilhangko_allocator_begin(&a, &plain, "none", &p), PILHANGKO_BUDGET_EXCEEDED);
    IS(pilhangko_allocator_set_most_blocks(&a, false, 0), PILHANGKO_OK);
    IS(pilhangko_allocator_begin(&a, &plain, "five", &p), PILHANGKO_OK);
    is_asked(&p, 1);
    IS(pilhangko_allocator_set_most_blocks(&a, true, 9), PILHANGKO_AWAITS_ANSWER);
    IS(pilhangko_allocator_destroy(&a), PILHANGKO_OK);
    IS(pilhangko_allocator_set_most_blocks(&empty, true, 1), PILHANGKO_NO_HANDLE);
    IS(pilhangko_allocator_most_blocks(&empty, &has_most, &most), PILHANGKO_NO_HANDLE);
    IS(pilhangko_allocator_set_most_blocks(NULL, true, 1), PILHANGKO_NULL_POINTER);
    IS(pilhangko_allocator_most_blocks(&a, NULL, &most), PILHANGKO_NULL_POINTER);
}

int main(void) {
    block_counts();
    limits();
    orders();
    refusals();
    places();
    return 0;
}
