/* Smaller blocks where memory is short: rows that were worked out by hand. An eighth of a small heap, what bounds leave, a half and a quarter
 * after refusals, memory of its own for what is above the smaller block, and what has no second try. */
#include "test.h"

#define MB (UINT64_C(1) << 20)

enum { LOCAL = 1, VISIBLE = 2, COHERENT = 4, OUT_OF_DEVICE_MEMORY = -2, DEVICE_LOST = -4, MAP_FAILED = -5 };

/* memory of the card, memory of the host, and a window that both see */
static const pilhangko_device_memory_type types[] = {{LOCAL, 0}, {VISIBLE | COHERENT, 1}, {LOCAL | VISIBLE | COHERENT, 2}};
static const pilhangko_device_heap heaps[] = {{8192 * MB, 1}, {4096 * MB, 0}, {2048 * MB, 1}};

/* Blocks of 256 MB on the card, and of 64 MB where the host sees them. */
static pilhangko_allocator made_over(const pilhangko_device_heap *over, uint64_t block, uint64_t host_block) {
    const pilhangko_allocator_settings settings = {1, block, 0, host_block, 0};
    pilhangko_allocator a = {0};
    bool smaller = true;
    IS(pilhangko_allocator_create(&a, types, 3, over, 3, &settings), PILHANGKO_OK);
    IS(pilhangko_allocator_smaller_blocks(&a, &smaller), PILHANGKO_OK);
    CHECK(!smaller);
    IS(pilhangko_allocator_set_smaller_blocks(&a, true), PILHANGKO_OK);
    IS(pilhangko_allocator_smaller_blocks(&a, &smaller), PILHANGKO_OK);
    CHECK(smaller);
    return a;
}

static pilhangko_allocator made(void) {
    return made_over(heaps, 256 * MB, 64 * MB);
}

static pilhangko_allocator_request asks(uint64_t size, pilhangko_location location) {
    const pilhangko_allocator_request r = {size, 1, 7, PILHANGKO_KIND_LINEAR, location, PILHANGKO_SCHEME_MANAGED, 0};
    return r;
}

static void is_asked(const pilhangko_allocator_progress *p, size_t type, uint64_t size, bool dedicated) {
    CHECK(p->kind == PILHANGKO_PROGRESS_QUESTION && p->status == PILHANGKO_OK);
    CHECK(p->question.memory_type == type && p->question.size == size && p->question.dedicated == dedicated);
}

/* What is asked for in turn, while the driver has no memory left. */
struct row {
    size_t type;
    uint64_t size;
    bool dedicated;
};

static void refuses_all(pilhangko_allocator *a, pilhangko_allocator_progress *p, const struct row *rows, size_t count) {
    for (size_t i = 0; i < count; i++) {
        is_asked(p, rows[i].type, rows[i].size, rows[i].dedicated);
        IS(pilhangko_allocator_refused(a, OUT_OF_DEVICE_MEMORY, p), PILHANGKO_OK);
    }
    CHECK(p->kind == PILHANGKO_PROGRESS_REFUSED && p->status == PILHANGKO_OUT_OF_MEMORY);
    IS(pilhangko_allocator_destroy(a), PILHANGKO_OK);
}

static void has_rows(pilhangko_allocator a, const pilhangko_allocator_request *r, const struct row *rows, size_t count) {
    pilhangko_allocator_progress p;
    IS(pilhangko_allocator_begin(&a, r, "in turn", &p), PILHANGKO_OK);
    refuses_all(&a, &p, rows, count);
}

static void halves(void) {
    const pilhangko_allocator_request small = asks(100, PILHANGKO_LOCATION_GPU_ONLY), half = asks(128 * MB, PILHANGKO_LOCATION_GPU_ONLY);
    const pilhangko_allocator_request third = asks(100 * MB, PILHANGKO_LOCATION_GPU_ONLY), most = asks(255 * MB, PILHANGKO_LOCATION_GPU_ONLY);
    const pilhangko_allocator_request whole = asks(256 * MB, PILHANGKO_LOCATION_GPU_ONLY), large = asks(257 * MB, PILHANGKO_LOCATION_GPU_ONLY);
    pilhangko_allocator_request own = small;
    own.scheme = PILHANGKO_SCHEME_BUFFER;
    has_rows(made(), &small, (struct row[]){{0, 256 * MB, false}, {0, 128 * MB, false}, {0, 64 * MB, false}}, 3);
    /* a request that fills the half is not above it, and has no smaller one */
    has_rows(made(), &half, (struct row[]){{0, 256 * MB, false}, {0, 128 * MB, false}}, 2);
    /* above the smaller block: memory of its own, which has no smaller one */
    has_rows(made(), &third, (struct row[]){{0, 256 * MB, false}, {0, 128 * MB, false}, {0, 100 * MB, true}}, 3);
    has_rows(made(), &most, (struct row[]){{0, 256 * MB, false}, {0, 255 * MB, true}}, 2);
    has_rows(made(), &whole, (struct row[]){{0, 256 * MB, false}}, 1);
    has_rows(made(), &large, (struct row[]){{0, 257 * MB, true}}, 1);
    has_rows(made(), &own, (struct row[]){{0, 100, true}}, 1);
    /* sizes are multiples of 4 MB, and the smallest has no half */
    has_rows(made_over(heaps, 4 * MB, 4 * MB), &small, (struct row[]){{0, 4 * MB, false}}, 1);
    has_rows(made_over(heaps, 8 * MB, 4 * MB), &small, (struct row[]){{0, 8 * MB, false}, {0, 4 * MB, false}}, 2);
    has_rows(made_over(heaps, 12 * MB, 4 * MB), &small, (struct row[]){{0, 12 * MB, false}, {0, 4 * MB, false}}, 2);
    has_rows(made_over(heaps, 20 * MB, 4 * MB), &small, (struct row[]){{0, 20 * MB, false}, {0, 8 * MB, false}, {0, 4 * MB, false}}, 3);
}

/* Each memory type has its three, before the next one. */
static void goes_on(void) {
    const pilhangko_allocator_request upload = asks(100, PILHANGKO_LOCATION_CPU_TO_GPU), any = asks(100, PILHANGKO_LOCATION_UNKNOWN);
    pilhangko_allocator a = made();
    pilhangko_allocator_progress p;
    has_rows(made(), &upload, (struct row[]){{2, 64 * MB, false}, {2, 32 * MB, false}, {2, 16 * MB, false}, {1, 64 * MB, false},
        {1, 32 * MB, false}, {1, 16 * MB, false}}, 6);
    IS(pilhangko_allocator_begin_by_flags(&a, &any, "by flags", &(pilhangko_preference){0, VISIBLE, 0, false}, &p), PILHANGKO_OK);
    refuses_all(&a, &p, (struct row[]){{1, 64 * MB, false}, {1, 32 * MB, false}, {1, 16 * MB, false}, {2, 64 * MB, false}, {2, 32 * MB, false},
        {2, 16 * MB, false}, {0, 256 * MB, false}, {0, 128 * MB, false}, {0, 64 * MB, false}}, 9);
}

/* Other refusals than lack of memory have no smaller block, and neither has an allocator that doesn't ask for it. */
static void ends(void) {
    const pilhangko_allocator_request small = asks(100, PILHANGKO_LOCATION_GPU_ONLY), read = asks(100, PILHANGKO_LOCATION_GPU_TO_CPU);
    pilhangko_allocator a = made(), empty = {0};
    pilhangko_allocator_progress p;
    bool smaller = false;
    IS(pilhangko_allocator_begin(&a, &small, "lost", &p), PILHANGKO_OK);
    IS(pilhangko_allocator_set_smaller_blocks(&a, false), PILHANGKO_AWAITS_ANSWER);
    IS(pilhangko_allocator_refused(&a, DEVICE_LOST, &p), PILHANGKO_OK);
    CHECK(p.kind == PILHANGKO_PROGRESS_REFUSED && p.status == PILHANGKO_DRIVER_REFUSED);
    IS(pilhangko_allocator_begin(&a, &read, "unmapped", &p), PILHANGKO_OK);
    is_asked(&p, 1, 64 * MB, false);
    IS(pilhangko_allocator_mapping_refused(&a, true, MAP_FAILED, &p), PILHANGKO_OK);
    CHECK(p.kind == PILHANGKO_PROGRESS_REFUSED && p.status == PILHANGKO_FAILED_TO_MAP);
    IS(pilhangko_allocator_smaller_blocks(&a, &smaller), PILHANGKO_OK);
    CHECK(smaller);
    IS(pilhangko_allocator_set_smaller_blocks(&a, false), PILHANGKO_OK);
    IS(pilhangko_allocator_begin(&a, &small, "whole", &p), PILHANGKO_OK);
    refuses_all(&a, &p, (struct row[]){{0, 256 * MB, false}}, 1);
    IS(pilhangko_allocator_set_smaller_blocks(&empty, true), PILHANGKO_NO_HANDLE);
    IS(pilhangko_allocator_smaller_blocks(&empty, &smaller), PILHANGKO_NO_HANDLE);
    IS(pilhangko_allocator_set_smaller_blocks(NULL, true), PILHANGKO_NULL_POINTER);
    IS(pilhangko_allocator_smaller_blocks(&a, NULL), PILHANGKO_NULL_POINTER);
}

/* The half is granted: its pieces share it, and the next block is a whole one again. */
static void is_shared(void) {
    const pilhangko_allocator_request first = asks(60 * MB, PILHANGKO_LOCATION_GPU_ONLY), next = asks(100 * MB, PILHANGKO_LOCATION_GPU_ONLY);
    pilhangko_allocator a = made();
    pilhangko_allocator_progress p;
    pilhangko_allocator_piece piece;
    uint64_t bytes;
    IS(pilhangko_allocator_begin(&a, &first, "first", &p), PILHANGKO_OK);
    IS(pilhangko_allocator_refused(&a, OUT_OF_DEVICE_MEMORY, &p), PILHANGKO_OK);
    is_asked(&p, 0, 128 * MB, false);
    IS(pilhangko_allocator_granted(&a, 5, 0, &piece), PILHANGKO_OK);
    CHECK(piece.memory_type == 0 && piece.piece.block == 5 && piece.piece.offset == 0 && piece.piece.size == 60 * MB);
    IS(pilhangko_allocator_begin(&a, &first, "beside it", &p), PILHANGKO_OK);
    CHECK(p.kind == PILHANGKO_PROGRESS_PIECE && p.piece.piece.block == 5 && p.piece.piece.offset == 60 * MB);
    IS(pilhangko_allocator_capacity(&a, &bytes), PILHANGKO_OK);
    CHECK(bytes == 128 * MB);
    IS(pilhangko_allocator_begin(&a, &next, "next", &p), PILHANGKO_OK);
    is_asked(&p, 0, 256 * MB, false);
    IS(pilhangko_allocator_destroy(&a), PILHANGKO_OK);
}

/* The first block of a card's heap of so many bytes. */
static void has_first(uint64_t heap, uint64_t block, bool dedicated, uint64_t size) {
    const pilhangko_device_heap over[] = {{heap, 1}, {4096 * MB, 0}, {2048 * MB, 1}};
    const pilhangko_allocator_request r = asks(size, PILHANGKO_LOCATION_GPU_ONLY);
    pilhangko_allocator a = made_over(over, 256 * MB, 64 * MB);
    pilhangko_allocator_progress p;
    IS(pilhangko_allocator_begin(&a, &r, "first", &p), PILHANGKO_OK);
    is_asked(&p, 0, block, dedicated);
    IS(pilhangko_allocator_destroy(&a), PILHANGKO_OK);
}

static void small_heaps(void) {
    has_first(1024 * MB + 1, 256 * MB, false, 100);
    has_first(1024 * MB, 128 * MB, false, 100);
    has_first(1024 * MB - 1, 124 * MB, false, 100);
    has_first(256 * MB, 32 * MB, false, 32 * MB);
    has_first(256 * MB, 32 * MB + 1, true, 32 * MB + 1);
    has_first(100 * MB, 12 * MB, false, 100);
    has_first(20 * MB, 4 * MB, false, 100);
    has_first(1 * MB, 4 * MB, false, 100);
    const pilhangko_device_heap over[] = {{256 * MB, 1}, {4096 * MB, 0}, {2048 * MB, 1}};
    const pilhangko_allocator_request r = asks(100, PILHANGKO_LOCATION_GPU_ONLY);
    has_rows(made_over(over, 256 * MB, 64 * MB), &r, (struct row[]){{0, 32 * MB, false}, {0, 16 * MB, false}, {0, 8 * MB, false}}, 3);
}

static pilhangko_status begins(pilhangko_allocator *a, uint64_t size, const char *name, pilhangko_allocator_progress *p) {
    const pilhangko_allocator_request r = asks(size, PILHANGKO_LOCATION_GPU_ONLY);
    return pilhangko_allocator_begin(a, &r, name, p);
}

/* What a heap's limit and a memory type's budget leave is asked for, in whole multiples of 4 MB. */
static void within_bounds(void) {
    pilhangko_allocator a = made();
    pilhangko_allocator_progress p;
    pilhangko_allocator_piece piece;
    IS(begins(&a, 200 * MB, "first", &p), PILHANGKO_OK);
    IS(pilhangko_allocator_granted(&a, 1, 0, &piece), PILHANGKO_OK);
    IS(pilhangko_allocator_set_heap_limit(&a, 0, true, 395 * MB), PILHANGKO_OK);
    /* 256 of 395 MB are held: 139 are left, of which 136 are whole */
    IS(begins(&a, 150 * MB, "above", &p), PILHANGKO_BUDGET_EXCEEDED);
    IS(begins(&a, 200 * MB, "above", &p), PILHANGKO_BUDGET_EXCEEDED);
    IS(begins(&a, 100 * MB, "within", &p), PILHANGKO_OK);
    is_asked(&p, 0, 136 * MB, false);
    /* and the driver may have no room even for that */
    IS(pilhangko_allocator_refused(&a, OUT_OF_DEVICE_MEMORY, &p), PILHANGKO_OK);
    is_asked(&p, 0, 100 * MB, true);
    IS(pilhangko_allocator_refused(&a, OUT_OF_DEVICE_MEMORY, &p), PILHANGKO_OK);
    CHECK(p.kind == PILHANGKO_PROGRESS_REFUSED && p.status == PILHANGKO_OUT_OF_MEMORY);
    /* the budget leaves less than the limit: 280 - 256 MB */
    IS(pilhangko_allocator_set_budget(&a, 0, true, 280 * MB), PILHANGKO_OK);
    IS(begins(&a, 60 * MB, "above both", &p), PILHANGKO_BUDGET_EXCEEDED);
    IS(begins(&a, 20 * MB, "in a gap", &p), PILHANGKO_OK);
    CHECK(p.kind == PILHANGKO_PROGRESS_PIECE && p.piece.piece.block == 1 && p.piece.piece.offset == 200 * MB);
    IS(begins(&a, 40 * MB, "no gap", &p), PILHANGKO_BUDGET_EXCEEDED);
    IS(begins(&a, 24 * MB, "in the last gap", &p), PILHANGKO_OK);
    CHECK(p.kind == PILHANGKO_PROGRESS_PIECE && p.piece.piece.offset == 220 * MB);
    IS(begins(&a, 24 * MB, "all that is left", &p), PILHANGKO_OK);
    is_asked(&p, 0, 24 * MB, false);
    IS(pilhangko_allocator_granted(&a, 2, 0, &piece), PILHANGKO_OK);
    /* nothing is left, and a new block has 4 MB at least */
    IS(begins(&a, 16 * MB, "nothing", &p), PILHANGKO_BUDGET_EXCEEDED);
    /* one block more than there may be isn't smaller */
    IS(pilhangko_allocator_set_budget(&a, 0, false, 0), PILHANGKO_OK);
    IS(pilhangko_allocator_set_most_blocks(&a, true, 2), PILHANGKO_OK);
    IS(begins(&a, 200 * MB, "too many", &p), PILHANGKO_BUDGET_EXCEEDED);
    IS(pilhangko_allocator_set_most_blocks(&a, false, 0), PILHANGKO_OK);
    IS(begins(&a, 16 * MB, "within the limit", &p), PILHANGKO_OK);
    is_asked(&p, 0, 112 * MB, false); /* 395 - 280 = 115 */
    IS(pilhangko_allocator_destroy(&a), PILHANGKO_OK);
}

int main(void) {
    within_bounds();
    halves();
    goes_on();
    ends();
    is_shared();
    small_heaps();
    return 0;
}
