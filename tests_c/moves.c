/* Moves: rows that were worked out by hand, and each status of the calls that look for a second place. */
#include "test.h"

#define MB (UINT64_C(1) << 20)

static bool is_none(const pilhangko_memory_piece *p) {
    return p->slot == 0 && p->number == 0 && p->offset == 0 && p->size == 0 && p->block == 0;
}

/* ---- Vulkan: one memory type, blocks of 4 MB, pages of 1 KB */

static uint64_t last_memory;

static pilhangko_allocator allocator_made(void) {
    const pilhangko_device_memory_type type = {7, 0};
    const pilhangko_device_heap heap = {1024 * MB, 1};
    const pilhangko_allocator_settings settings = {1024, 4 * MB, 4 * MB, 4 * MB, 4 * MB};
    pilhangko_allocator a = {0};
    IS(pilhangko_allocator_create(&a, &type, 1, &heap, 1, &settings), PILHANGKO_OK);
    last_memory = 0;
    return a;
}

static pilhangko_allocator_request asks(uint64_t size) {
    const pilhangko_allocator_request r = {size, 256, 1, PILHANGKO_KIND_LINEAR, PILHANGKO_LOCATION_CPU_TO_GPU, PILHANGKO_SCHEME_MANAGED, 0};
    return r;
}

static pilhangko_allocator_piece allocated(pilhangko_allocator *a, uint64_t size) {
    const pilhangko_allocator_request r = asks(size);
    pilhangko_allocator_progress p;
    IS(pilhangko_allocator_begin(a, &r, "a piece", &p), PILHANGKO_OK);
    if (p.kind == PILHANGKO_PROGRESS_QUESTION) {
        last_memory++;
        IS(pilhangko_allocator_granted(a, last_memory, last_memory << 32, &p.piece), PILHANGKO_OK);
    }
    return p.piece;
}

static bool frees(pilhangko_allocator *a, const pilhangko_allocator_piece *piece) {
    pilhangko_allocator_memory back;
    IS(pilhangko_allocator_free(a, piece, &back), PILHANGKO_OK);
    return back.exists;
}

static void moves_to(pilhangko_allocator *a, const pilhangko_allocator_piece *from, size_t slot, uint64_t offset, pilhangko_allocator_piece *to) {
    const pilhangko_allocator_request r = asks(from->piece.size);
    bool moves = false;
    IS(pilhangko_allocator_propose_move(a, from, &r, "a piece", &moves, to), PILHANGKO_OK);
    CHECK(moves && to->memory_type == 0 && to->piece.slot == slot && to->piece.offset == offset && to->piece.size == from->piece.size);
    CHECK(to->piece.block == slot + 1 && to->address == (uint64_t)(slot + 1) << 32);
}

static void stays(pilhangko_allocator *a, const pilhangko_allocator_piece *from) {
    const pilhangko_allocator_request r = asks(from->piece.size);
    pilhangko_allocator_piece to = {7, 7, {7, 7, 7, 7, 7}};
    bool moves = true;
    IS(pilhangko_allocator_propose_move(a, from, &r, "a piece", &moves, &to), PILHANGKO_OK);
    CHECK(!moves && to.memory_type == 0 && to.address == 0 && is_none(&to.piece));
}

static void is_live(const pilhangko_allocator *a, const pilhangko_allocator_piece *piece, bool expected) {
    bool live = !expected;
    IS(pilhangko_allocator_is_live(a, piece, &live), PILHANGKO_OK);
    CHECK(live == expected);
}

/* Two blocks are full; what is freed in the second one makes place for the first one's pieces, until that block goes. */
static void a_block_empties(void) {
    pilhangko_allocator a = allocator_made();
    const pilhangko_allocator_piece first = allocated(&a, 2 * MB), second = allocated(&a, 2 * MB), third = allocated(&a, 2 * MB),
                                    fourth = allocated(&a, 2 * MB);
    pilhangko_allocator_piece to, again;
    uint64_t bytes;
    stays(&a, &first); /* there is no gap */
    CHECK(!frees(&a, &third));
    moves_to(&a, &first, 1, 0, &to);
    is_live(&a, &first, true);
    is_live(&a, &to, true);
    stays(&a, &second); /* the second place takes room like any piece */
    CHECK(!frees(&a, &to)); /* abandoned */
    is_live(&a, &first, true);
    moves_to(&a, &first, 1, 0, &to);
    CHECK(!frees(&a, &first)); /* done: the block has another piece */
    is_live(&a, &to, true);
    CHECK(!frees(&a, &fourth));
    stays(&a, &to); /* nothing lies above, and its own block doesn't count */
    moves_to(&a, &second, 1, 2 * MB, &again);
    CHECK(frees(&a, &second)); /* the first block is empty, and another one is shared */
    IS(pilhangko_allocator_capacity(&a, &bytes), PILHANGKO_OK);
    CHECK(bytes == 4 * MB);
    CHECK(!frees(&a, &to) && !frees(&a, &again)); /* the last shared block stays */
    IS(pilhangko_allocator_destroy(&a), PILHANGKO_OK);
}

/* The highest slot with a place comes first; in it the shortest gap. */
static void the_highest_block_comes_first(void) {
    pilhangko_allocator a = allocator_made();
    pilhangko_allocator_piece pieces[12], to;
    for (unsigned i = 0; i < 12; i++) pieces[i] = allocated(&a, MB);
    CHECK(pieces[4].piece.slot == 1 && pieces[8].piece.slot == 2);
    CHECK(!frees(&a, &pieces[4]) && !frees(&a, &pieces[5]) && !frees(&a, &pieces[9]) && !frees(&a, &pieces[11]));
    moves_to(&a, &pieces[0], 2, MB, &to);
    moves_to(&a, &pieces[1], 2, 3 * MB, &to);
    moves_to(&a, &pieces[2], 1, 0, &to);
    stays(&a, &pieces[6]); /* slot 2 is full */
    IS(pilhangko_allocator_destroy(&a), PILHANGKO_OK);
}

/* A gap beside a piece of another kind has to have its pages to itself. */
static void pages_keep_kinds_apart(void) {
    pilhangko_allocator a = allocator_made();
    const pilhangko_allocator_piece first = allocated(&a, 4 * MB - 512), above = allocated(&a, 512), filling = allocated(&a, 4 * MB - 512);
    const pilhangko_allocator_request r = {512, 256, 1, PILHANGKO_KIND_NON_LINEAR, PILHANGKO_LOCATION_CPU_TO_GPU, PILHANGKO_SCHEME_MANAGED, 0};
    pilhangko_allocator_piece to;
    bool moves = true;
    CHECK(first.piece.slot == 0 && above.piece.slot == 0 && filling.piece.slot == 1);
    /* 512 bytes are left behind `filling`, on its last page */
    IS(pilhangko_allocator_propose_move(&a, &above, &r, NULL, &moves, &to), PILHANGKO_OK);
    CHECK(!moves);
    moves_to(&a, &above, 1, 4 * MB - 512, &to);
    IS(pilhangko_allocator_destroy(&a), PILHANGKO_OK);
}

static void each_status_of_allocators(void) {
    pilhangko_allocator a = {0};
    pilhangko_allocator_piece to = {7, 7, {7, 7, 7, 7, 7}}, piece = to, wrong;
    pilhangko_allocator_request r = asks(MB);
    pilhangko_allocator_progress p;
    bool moves = true;
    IS(pilhangko_allocator_propose_move(&a, &piece, &r, NULL, &moves, &to), PILHANGKO_NO_HANDLE);
    a = allocator_made();
    piece = allocated(&a, MB);
    IS(pilhangko_allocator_propose_move(NULL, &piece, &r, NULL, &moves, &to), PILHANGKO_NULL_POINTER);
    IS(pilhangko_allocator_propose_move(&a, NULL, &r, NULL, &moves, &to), PILHANGKO_NULL_POINTER);
    IS(pilhangko_allocator_propose_move(&a, &piece, NULL, NULL, &moves, &to), PILHANGKO_NULL_POINTER);
    IS(pilhangko_allocator_propose_move(&a, &piece, &r, NULL, NULL, &to), PILHANGKO_NULL_POINTER);
    IS(pilhangko_allocator_propose_move(&a, &piece, &r, NULL, &moves, NULL), PILHANGKO_NULL_POINTER);
    const pilhangko_allocator_request wrongs[] = {{0, 256, 1, 1, 3, 1, 0}, {MB - 1, 256, 1, 1, 3, 1, 0}, {MB, 3, 1, 1, 3, 1, 0},
        {MB, 256, 1, 3, 3, 1, 0}, {MB, 256, 1, 1, 5, 1, 0}, {MB, 256, 1, 1, 3, 2, 9}, {MB, 256, 1, 1, 3, 3, 9}, {MB, 256, 1, 1, 3, 4, 0}};
    for (size_t i = 0; i < sizeof wrongs / sizeof *wrongs; i++)
        IS(pilhangko_allocator_propose_move(&a, &piece, &wrongs[i], NULL, &moves, &to), PILHANGKO_INVALID);
    IS(pilhangko_allocator_propose_move(&a, &piece, &r, "\xff", &moves, &to), PILHANGKO_INVALID);
    for (unsigned i = 0; i < 6; i++) {
        wrong = piece;
        if (i == 0) wrong.memory_type = 1;
        if (i == 1) wrong.address++;
        if (i == 2) wrong.piece.slot = 1;
        if (i == 3) wrong.piece.number++;
        if (i == 4) wrong.piece.number = 0;
        if (i == 5) wrong.piece.block++;
        IS(pilhangko_allocator_propose_move(&a, &wrong, &r, NULL, &moves, &to), PILHANGKO_NOT_LIVE);
    }
    const pilhangko_allocator_request large = asks(8 * MB);
    IS(pilhangko_allocator_begin(&a, &large, NULL, &p), PILHANGKO_OK);
    CHECK(p.kind == PILHANGKO_PROGRESS_QUESTION);
    IS(pilhangko_allocator_propose_move(&a, &piece, &r, NULL, &moves, &to), PILHANGKO_AWAITS_ANSWER);
    CHECK(moves && to.memory_type == 7 && to.address == 7 && to.piece.number == 7);
    IS(pilhangko_allocator_destroy(&a), PILHANGKO_OK);
}

/* ---- DirectX 12 and Metal: blocks of 4 MB for GPU_ONLY */

static pilhangko_heaps_piece heaps_allocated(pilhangko_heaps *h, uint64_t heap, const pilhangko_heaps_request *r) {
    pilhangko_heaps_progress p;
    IS(pilhangko_heaps_begin(h, r, "a piece", &p), PILHANGKO_OK);
    if (p.kind == PILHANGKO_PROGRESS_QUESTION) IS(pilhangko_heaps_granted(h, heap, &p.piece), PILHANGKO_OK);
    return p.piece;
}

static void heaps_move(void) {
    const pilhangko_heaps_settings settings = {2, 4 * MB, 4 * MB, 4 * MB, 4 * MB};
    const pilhangko_heaps_request r = {3 * MB, 65536, PILHANGKO_LOCATION_GPU_ONLY, PILHANGKO_CATEGORY_BUFFER},
                                  other = {2 * MB, 65536, PILHANGKO_LOCATION_GPU_ONLY, PILHANGKO_CATEGORY_BUFFER};
    pilhangko_heaps h = {0};
    pilhangko_heaps_piece to = {7, {7, 7, 7, 7, 7}}, first, second;
    pilhangko_memory_block back;
    pilhangko_heaps_progress p;
    bool moves = true;
    IS(pilhangko_heaps_propose_move(&h, &to, &r, NULL, &moves, &to), PILHANGKO_NO_HANDLE);
    IS(pilhangko_heaps_create(&h, &settings), PILHANGKO_OK);
    first = heaps_allocated(&h, 10, &r);
    second = heaps_allocated(&h, 11, &r);
    IS(pilhangko_heaps_propose_move(NULL, &first, &r, NULL, &moves, &to), PILHANGKO_NULL_POINTER);
    IS(pilhangko_heaps_propose_move(&h, NULL, &r, NULL, &moves, &to), PILHANGKO_NULL_POINTER);
    IS(pilhangko_heaps_propose_move(&h, &first, NULL, NULL, &moves, &to), PILHANGKO_NULL_POINTER);
    IS(pilhangko_heaps_propose_move(&h, &first, &r, NULL, NULL, &to), PILHANGKO_NULL_POINTER);
    IS(pilhangko_heaps_propose_move(&h, &first, &r, NULL, &moves, NULL), PILHANGKO_NULL_POINTER);
    IS(pilhangko_heaps_propose_move(&h, &first, &other, NULL, &moves, &to), PILHANGKO_INVALID);
    IS(pilhangko_heaps_propose_move(&h, &first, &r, "\xff", &moves, &to), PILHANGKO_INVALID);
    CHECK(moves && to.memory_type == 7 && to.piece.number == 7);
    IS(pilhangko_heaps_propose_move(&h, &first, &r, NULL, &moves, &to), PILHANGKO_OK);
    CHECK(!moves && to.memory_type == 0 && is_none(&to.piece));
    IS(pilhangko_heaps_free(&h, &second, &back), PILHANGKO_OK); /* an empty shared block goes where another is left */
    CHECK(back.exists && back.block == 11);
    second = heaps_allocated(&h, 12, &r);
    const pilhangko_heaps_piece filling = heaps_allocated(&h, 0, &(const pilhangko_heaps_request){MB, 65536, PILHANGKO_LOCATION_GPU_ONLY, 1});
    CHECK(filling.piece.slot == 1); /* so that the block stays */
    IS(pilhangko_heaps_free(&h, &second, &back), PILHANGKO_OK);
    IS(pilhangko_heaps_propose_move(&h, &second, &r, NULL, &moves, &to), PILHANGKO_NOT_LIVE);
    IS(pilhangko_heaps_propose_move(&h, &first, &r, "moved", &moves, &to), PILHANGKO_OK);
    CHECK(moves && to.memory_type == 0 && to.piece.slot == 1 && to.piece.offset == 0 && to.piece.size == 3 * MB && to.piece.block == 12);
    IS(pilhangko_heaps_free(&h, &first, &back), PILHANGKO_OK);
    CHECK(back.exists && back.block == 10);
    IS(pilhangko_heaps_begin(&h, &r, NULL, &p), PILHANGKO_OK);
    CHECK(p.kind == PILHANGKO_PROGRESS_QUESTION);
    IS(pilhangko_heaps_propose_move(&h, &to, &r, NULL, &moves, &to), PILHANGKO_AWAITS_ANSWER);
    IS(pilhangko_heaps_destroy(&h), PILHANGKO_OK);
}

static pilhangko_heaps_piece metal_allocated(pilhangko_metal_heaps *h, uint64_t heap, const pilhangko_metal_heaps_request *r) {
    pilhangko_metal_heaps_progress p;
    pilhangko_metal_heaps_grant grant;
    IS(pilhangko_metal_heaps_begin(h, r, "a piece", &p), PILHANGKO_OK);
    if (p.kind == PILHANGKO_PROGRESS_PIECE) return p.piece;
    IS(pilhangko_metal_heaps_granted(h, heap, &grant), PILHANGKO_OK);
    return grant.piece;
}

static void metal_heaps_move(void) {
    const pilhangko_metal_heaps_settings settings = {true, 4 * MB, 4 * MB, 4 * MB, 4 * MB};
    const pilhangko_metal_heaps_request r = {3 * MB, 256, PILHANGKO_LOCATION_GPU_ONLY}, other = {2 * MB, 256, PILHANGKO_LOCATION_GPU_ONLY},
                                        small = {MB, 256, PILHANGKO_LOCATION_GPU_ONLY};
    pilhangko_metal_heaps h = {0};
    pilhangko_heaps_piece to = {7, {7, 7, 7, 7, 7}}, first, second;
    pilhangko_metal_heap back;
    pilhangko_metal_heaps_progress p;
    bool moves = true;
    IS(pilhangko_metal_heaps_propose_move(&h, &to, &r, NULL, &moves, &to), PILHANGKO_NO_HANDLE);
    IS(pilhangko_metal_heaps_create(&h, &settings), PILHANGKO_OK);
    first = metal_allocated(&h, 10, &r);
    second = metal_allocated(&h, 11, &r);
    CHECK(metal_allocated(&h, 0, &small).piece.slot == 1);
    IS(pilhangko_metal_heaps_propose_move(NULL, &first, &r, NULL, &moves, &to), PILHANGKO_NULL_POINTER);
    IS(pilhangko_metal_heaps_propose_move(&h, NULL, &r, NULL, &moves, &to), PILHANGKO_NULL_POINTER);
    IS(pilhangko_metal_heaps_propose_move(&h, &first, NULL, NULL, &moves, &to), PILHANGKO_NULL_POINTER);
    IS(pilhangko_metal_heaps_propose_move(&h, &first, &r, NULL, NULL, &to), PILHANGKO_NULL_POINTER);
    IS(pilhangko_metal_heaps_propose_move(&h, &first, &r, NULL, &moves, NULL), PILHANGKO_NULL_POINTER);
    IS(pilhangko_metal_heaps_propose_move(&h, &first, &other, NULL, &moves, &to), PILHANGKO_INVALID);
    IS(pilhangko_metal_heaps_propose_move(&h, &first, &r, "\xff", &moves, &to), PILHANGKO_INVALID);
    CHECK(moves && to.memory_type == 7 && to.piece.number == 7);
    IS(pilhangko_metal_heaps_propose_move(&h, &first, &r, NULL, &moves, &to), PILHANGKO_OK);
    CHECK(!moves && to.memory_type == 0 && is_none(&to.piece));
    IS(pilhangko_metal_heaps_free(&h, &second, &back), PILHANGKO_OK);
    IS(pilhangko_metal_heaps_propose_move(&h, &second, &r, NULL, &moves, &to), PILHANGKO_NOT_LIVE);
    IS(pilhangko_metal_heaps_propose_move(&h, &first, &r, "moved", &moves, &to), PILHANGKO_OK);
    CHECK(moves && to.memory_type == 0 && to.piece.slot == 1 && to.piece.offset == 0 && to.piece.size == 3 * MB && to.piece.block == 11);
    IS(pilhangko_metal_heaps_free(&h, &first, &back), PILHANGKO_OK);
    CHECK(back.exists && back.heap == 10 && back.leaves);
    IS(pilhangko_metal_heaps_begin(&h, &r, NULL, &p), PILHANGKO_OK);
    CHECK(p.kind == PILHANGKO_PROGRESS_QUESTION);
    IS(pilhangko_metal_heaps_propose_move(&h, &to, &r, NULL, &moves, &to), PILHANGKO_AWAITS_ANSWER);
    IS(pilhangko_metal_heaps_destroy(&h), PILHANGKO_OK);
}

int main(void) {
    a_block_empties();
    the_highest_block_comes_first();
    pages_keep_kinds_apart();
    each_status_of_allocators();
    heaps_move();
    metal_heaps_move();
    return 0;
}
