/* A run of calls with each of its requests for host memory refused in turn. The call whose request is refused returns
 * PILHANGKO_HOST_OUT_OF_MEMORY and changes nothing that can be seen; the same call then succeeds. At the end no memory is held. */
#include "refusing_heap.h"
#include "test.h"

#define MB (UINT64_C(1) << 20)

static unsigned refusals;

/* The call once more, where its request was refused. `same` is what may not have changed. */
#define TRIED(call, same) \
    do { \
        pilhangko_status tried_ = (call); \
        if (tried_ == PILHANGKO_HOST_OUT_OF_MEMORY) { \
            CHECK(heap_requests >= heap_refused && heap_refused > 0); \
            refusals++; \
            heap_refused = 0; \
            CHECK(same); \
            tried_ = (call); \
        } \
        IS(tried_, PILHANGKO_OK); \
    } while (0)

static bool block_has(const pilhangko_virtual_block *block, size_t pieces) {
    size_t count;
    return pilhangko_virtual_block_leak_count(block, &count) == PILHANGKO_OK && count == pieces;
}

static bool type_has(const pilhangko_memory_type *type, uint64_t capacity, size_t slots) {
    pilhangko_memory_statistics s;
    return pilhangko_memory_type_statistics(type, &s) == PILHANGKO_OK && s.capacity == capacity && s.slots == slots && !s.awaits_block;
}

static void virtual_blocks(void) {
    pilhangko_virtual_block block = {0};
    pilhangko_virtual_piece pieces[40], untouched = {5, 6};
    TRIED(pilhangko_virtual_block_create(&block, 4096, 1), pilhangko_virtual_block_destroy(&block) == PILHANGKO_NO_HANDLE);
    for (unsigned i = 0; i < 40; i++) {
        pilhangko_virtual_request request = {1 + i, 4, 1 + i % 2};
        pieces[i] = untouched;
        TRIED(pilhangko_virtual_block_allocate(&block, &request, "a name that takes memory of its own", &pieces[i]),
            block_has(&block, i) && pieces[i].offset == 5 && pieces[i].number == 6);
    }
    long before = heap_requests;
    for (unsigned i = 0; i < 40; i += 2) IS(pilhangko_virtual_block_free(&block, &pieces[i]), PILHANGKO_OK);
    CHECK(heap_requests == before); /* free takes no memory */
    for (unsigned i = 1; i < 40; i += 2)
        TRIED(pilhangko_virtual_block_rename(&block, &pieces[i], "another name that takes memory of its own"), block_has(&block, 20));
    TRIED(pilhangko_virtual_block_clear(&block), block_has(&block, 20));
    CHECK(block_has(&block, 0));
    IS(pilhangko_virtual_block_destroy(&block), PILHANGKO_OK);
}

static void rings(void) {
    pilhangko_ring ring = {0};
    pilhangko_ring_counts counts;
    uint64_t offset, frame;
    TRIED(pilhangko_ring_create(&ring, 4096, 3), pilhangko_ring_destroy(&ring) == PILHANGKO_NO_HANDLE);
    long before = heap_requests;
    for (unsigned i = 0; i < 12; i++) {
        for (unsigned j = 0; j < 4; j++) IS(pilhangko_ring_allocate(&ring, 200, 16, &offset), PILHANGKO_OK);
        IS(pilhangko_ring_end_frame(&ring, &frame), PILHANGKO_OK);
        if (i >= 2) IS(pilhangko_ring_retire(&ring, i - 2), PILHANGKO_OK);
    }
    IS(pilhangko_ring_statistics(&ring, &counts), PILHANGKO_OK);
    CHECK(counts.frames == 2);
    CHECK(heap_requests == before); /* no call but create takes memory */
    IS(pilhangko_ring_destroy(&ring), PILHANGKO_OK);
}

static void memory_types(void) {
    pilhangko_memory_type type = {0};
    pilhangko_memory_type_settings settings = {true, 1, 4 * MB, 0, 4 * MB, 0, false, 0};
    pilhangko_memory_piece pieces[12];
    TRIED(pilhangko_memory_type_create(&type, &settings), pilhangko_memory_type_destroy(&type) == PILHANGKO_NO_HANDLE);
    uint64_t capacity = 0;
    size_t slots = 0;
    for (unsigned i = 0; i < 12; i++) {
        pilhangko_memory_request request = {i % 3 ? MB : 4 * MB, 1, PILHANGKO_KIND_LINEAR, i % 4 == 3};
        pilhangko_memory_prepared prepared = {false, false, 3, {3, 3, 3, 3, 3}};
        TRIED(pilhangko_memory_type_prepare(&type, &request, "a name that takes memory of its own", &prepared),
            type_has(&type, capacity, slots) && prepared.block_size == 3);
        if (prepared.needs_block) {
            long before = heap_requests;
            IS(pilhangko_memory_type_install(&type, i, &prepared.piece), PILHANGKO_OK);
            CHECK(heap_requests == before); /* nor does install */
            capacity += prepared.block_size;
            slots++;
        }
        pieces[i] = prepared.piece;
    }
    for (unsigned i = 0; i < 12; i++)
        TRIED(
            pilhangko_memory_type_rename(&type, &pieces[i], "another name that takes memory of its own"), type_has(&type, capacity, slots));
    long before = heap_requests;
    pilhangko_memory_block gone;
    for (unsigned i = 0; i < 12; i++) IS(pilhangko_memory_type_free(&type, &pieces[i], &gone), PILHANGKO_OK);
    CHECK(heap_requests == before);
    IS(pilhangko_memory_type_destroy(&type), PILHANGKO_OK);
}

static bool allocator_has(const pilhangko_allocator *allocator, uint64_t capacity) {
    uint64_t bytes;
    return pilhangko_allocator_capacity(allocator, &bytes) == PILHANGKO_OK && bytes == capacity;
}

/* Each piece's second place, which is given up again; a block with a gap of 1 MB is made for them. */
static void second_places(pilhangko_allocator *allocator, const pilhangko_allocator_piece *pieces, uint64_t capacity) {
    const pilhangko_allocator_request large = {3 * MB, 1, 3, PILHANGKO_KIND_LINEAR, 2, PILHANGKO_SCHEME_MANAGED, 0};
    pilhangko_allocator_progress progress;
    pilhangko_allocator_memory gone;
    unsigned moved = 0;
    TRIED(pilhangko_allocator_begin(allocator, &large, NULL, &progress), allocator_has(allocator, capacity));
    CHECK(progress.kind == PILHANGKO_PROGRESS_QUESTION);
    IS(pilhangko_allocator_granted(allocator, 99, 0, &progress.piece), PILHANGKO_OK);
    capacity += 4 * MB;
    for (unsigned i = 0; i < 12; i++) {
        const pilhangko_allocator_request request = {pieces[i].piece.size, 1, 3, PILHANGKO_KIND_LINEAR, 2, PILHANGKO_SCHEME_MANAGED, 0};
        pilhangko_allocator_piece to = {.memory_type = 9};
        pilhangko_allocator_memory back;
        bool moves = false;
        TRIED(pilhangko_allocator_propose_move(allocator, &pieces[i], &request, "a name that takes memory of its own", &moves, &to),
            allocator_has(allocator, capacity) && !moves && to.memory_type == 9);
        if (!moves) continue;
        const long before = heap_requests;
        IS(pilhangko_allocator_free(allocator, &to, &back), PILHANGKO_OK);
        CHECK(heap_requests == before && !back.exists);
        moved++;
    }
    CHECK(moved == 4); /* the pieces of 1 MB there */
    IS(pilhangko_allocator_free(allocator, &progress.piece, &gone), PILHANGKO_OK);
}

/* Requests by flags: a host without memory is told at once, before and behind the driver's refusal, and another memory type isn't tried. */
static void by_flags(void) {
    pilhangko_allocator allocator = {0};
    const pilhangko_device_memory_type types[] = {{1, 0}, {6, 1}};
    const pilhangko_device_heap heaps[] = {{1024 * MB, 1}, {512 * MB, 0}};
    const pilhangko_allocator_settings settings = {1, 4 * MB, 0, 4 * MB, 0};
    const pilhangko_allocator_request request = {MB, 1, 3, PILHANGKO_KIND_LINEAR, PILHANGKO_LOCATION_UNKNOWN, PILHANGKO_SCHEME_MANAGED, 0};
    const pilhangko_preference preference = {0, 1, 0, false};
    TRIED(pilhangko_allocator_create(&allocator, types, 2, heaps, 2, &settings),
        pilhangko_allocator_destroy(&allocator) == PILHANGKO_NO_HANDLE);
    pilhangko_allocator_progress progress = {.kind = 9};
    TRIED(pilhangko_allocator_begin_by_flags(&allocator, &request, "a name that takes memory of its own", &preference, &progress),
        allocator_has(&allocator, 0) && progress.kind == 9);
    CHECK(progress.kind == PILHANGKO_PROGRESS_QUESTION && progress.question.memory_type == 0);
    const long before = heap_requests;
    IS(pilhangko_allocator_refused(&allocator, -2, &progress), PILHANGKO_OK);
    if (heap_refused > before && heap_refused <= heap_requests) {
        CHECK(progress.kind == PILHANGKO_PROGRESS_REFUSED && progress.status == PILHANGKO_HOST_OUT_OF_MEMORY);
        refusals++;
        heap_refused = 0;
    } else {
        CHECK(progress.kind == PILHANGKO_PROGRESS_QUESTION && progress.question.memory_type == 1);
    }
    CHECK(allocator_has(&allocator, 0));
    IS(pilhangko_allocator_destroy(&allocator), PILHANGKO_OK);
}

static void allocators(void) {
    pilhangko_allocator allocator = {0};
    const pilhangko_device_memory_type types[] = {{1, 0}, {6, 1}};
    const pilhangko_device_heap heaps[] = {{1024 * MB, 1}, {512 * MB, 0}};
    const pilhangko_allocator_settings settings = {1, 4 * MB, 0, 4 * MB, 0};
    pilhangko_allocator_piece pieces[12];
    TRIED(pilhangko_allocator_create(&allocator, types, 2, heaps, 2, &settings),
        pilhangko_allocator_destroy(&allocator) == PILHANGKO_NO_HANDLE);
    uint64_t capacity = 0;
    for (unsigned i = 0; i < 12; i++) {
        pilhangko_allocator_request request = {i % 3 ? MB : 4 * MB, 1, 3, PILHANGKO_KIND_LINEAR, 2 + i % 2, 1 + i % 4 / 3, 0};
        pilhangko_allocator_progress progress = {.kind = 9};
        TRIED(pilhangko_allocator_begin(&allocator, &request, "a name that takes memory of its own", &progress),
            allocator_has(&allocator, capacity) && progress.kind == 9);
        pieces[i] = progress.piece;
        if (progress.kind == PILHANGKO_PROGRESS_QUESTION) {
            long before = heap_requests;
            IS(pilhangko_allocator_granted(&allocator, i, i % 2, &pieces[i]), PILHANGKO_OK);
            CHECK(heap_requests == before); /* granted takes no memory */
            capacity += progress.question.size;
        }
    }
    second_places(&allocator, pieces, capacity);
    for (unsigned i = 0; i < 12; i++)
        TRIED(pilhangko_allocator_rename(&allocator, &pieces[i], "another name that takes memory of its own"),
            allocator_has(&allocator, capacity));
    long before = heap_requests;
    pilhangko_allocator_memory back;
    for (unsigned i = 0; i < 12; i++) IS(pilhangko_allocator_free(&allocator, &pieces[i], &back), PILHANGKO_OK);
    CHECK(heap_requests == before);
    IS(pilhangko_allocator_destroy(&allocator), PILHANGKO_OK);
}

static bool heaps_have(const pilhangko_heaps *heaps, uint64_t capacity, size_t committed) {
    pilhangko_heaps_committed_statistics s;
    uint64_t bytes;
    return pilhangko_heaps_capacity(heaps, &bytes) == PILHANGKO_OK && bytes == capacity &&
           pilhangko_heaps_committed_of(heaps, 0, &s) == PILHANGKO_OK && s.count == committed;
}

static void committed_resources(pilhangko_heaps *heaps, uint64_t capacity) {
    pilhangko_heaps_committed committed[12];
    for (unsigned i = 0; i < 12; i++) {
        TRIED(pilhangko_heaps_begin_committed(heaps, 1 + i, PILHANGKO_LOCATION_GPU_ONLY, PILHANGKO_CATEGORY_BUFFER),
            heaps_have(heaps, capacity, i) && pilhangko_heaps_not_made(heaps) == PILHANGKO_AWAITS_NO_ANSWER);
        long before = heap_requests;
        IS(pilhangko_heaps_made(heaps, i, &committed[i]), PILHANGKO_OK);
        CHECK(heap_requests == before); /* made takes no memory */
    }
    long before = heap_requests;
    for (unsigned i = 0; i < 12; i++) IS(pilhangko_heaps_forget_committed(heaps, &committed[i]), PILHANGKO_OK);
    CHECK(heap_requests == before && heaps_have(heaps, capacity, 0));
}

/* The same in heaps. */
static void second_places_in_heaps(pilhangko_heaps *heaps, const pilhangko_heaps_piece *pieces, uint64_t capacity) {
    const pilhangko_heaps_request large = {3 * MB, 1, 2, 1};
    pilhangko_heaps_progress progress;
    pilhangko_memory_block gone;
    unsigned moved = 0;
    TRIED(pilhangko_heaps_begin(heaps, &large, NULL, &progress), heaps_have(heaps, capacity, 0));
    CHECK(progress.kind == PILHANGKO_PROGRESS_QUESTION);
    IS(pilhangko_heaps_granted(heaps, 99, &progress.piece), PILHANGKO_OK);
    capacity += 4 * MB;
    for (unsigned i = 0; i < 12; i++) {
        const pilhangko_heaps_request request = {pieces[i].piece.size, 1, 2, 1};
        pilhangko_heaps_piece to = {.memory_type = 99};
        pilhangko_memory_block back;
        bool moves = false;
        TRIED(pilhangko_heaps_propose_move(heaps, &pieces[i], &request, "a name that takes memory of its own", &moves, &to),
            heaps_have(heaps, capacity, 0) && !moves && to.memory_type == 99);
        if (!moves) continue;
        const long before = heap_requests;
        IS(pilhangko_heaps_free(heaps, &to, &back), PILHANGKO_OK);
        CHECK(heap_requests == before && !back.exists);
        moved++;
    }
    CHECK(moved == 4);
    IS(pilhangko_heaps_free(heaps, &progress.piece, &gone), PILHANGKO_OK);
}

static void all_heaps(void) {
    pilhangko_heaps heaps = {0};
    const pilhangko_heaps_settings settings = {1, 4 * MB, 0, 4 * MB, 0};
    pilhangko_heaps_piece pieces[12];
    TRIED(pilhangko_heaps_create(&heaps, &settings), pilhangko_heaps_destroy(&heaps) == PILHANGKO_NO_HANDLE);
    uint64_t capacity = 0;
    for (unsigned i = 0; i < 12; i++) {
        pilhangko_heaps_request request = {i % 3 ? MB : 4 * MB, 1, 2 + i % 2, 1 + i % 4 / 3};
        pilhangko_heaps_progress progress = {.kind = 9};
        TRIED(pilhangko_heaps_begin(&heaps, &request, "a name that takes memory of its own", &progress),
            heaps_have(&heaps, capacity, 0) && progress.kind == 9);
        pieces[i] = progress.piece;
        if (progress.kind == PILHANGKO_PROGRESS_QUESTION) {
            long before = heap_requests;
            IS(pilhangko_heaps_granted(&heaps, i, &pieces[i]), PILHANGKO_OK);
            CHECK(heap_requests == before); /* granted takes no memory */
            capacity += progress.question.size;
        }
    }
    second_places_in_heaps(&heaps, pieces, capacity);
    for (unsigned i = 0; i < 12; i++)
        TRIED(
            pilhangko_heaps_rename(&heaps, &pieces[i], "another name that takes memory of its own"), heaps_have(&heaps, capacity, 0));
    committed_resources(&heaps, capacity);
    long before = heap_requests;
    pilhangko_memory_block back;
    for (unsigned i = 0; i < 12; i++) IS(pilhangko_heaps_free(&heaps, &pieces[i], &back), PILHANGKO_OK);
    CHECK(heap_requests == before);
    IS(pilhangko_heaps_destroy(&heaps), PILHANGKO_OK);
}

static bool metal_has(const pilhangko_metal_heaps *heaps, uint64_t capacity) {
    uint64_t bytes;
    return pilhangko_metal_heaps_capacity(heaps, &bytes) == PILHANGKO_OK && bytes == capacity;
}

/* The same in Metal's. */
static void second_places_in_metal(pilhangko_metal_heaps *heaps, const pilhangko_metal_heaps_grant *grants, uint64_t capacity) {
    const pilhangko_metal_heaps_request large = {3 * MB, 1, 2};
    pilhangko_metal_heaps_progress progress;
    pilhangko_metal_heaps_grant grant;
    pilhangko_metal_heap gone;
    unsigned moved = 0;
    TRIED(pilhangko_metal_heaps_begin(heaps, &large, NULL, &progress), metal_has(heaps, capacity));
    CHECK(progress.kind == PILHANGKO_PROGRESS_QUESTION);
    IS(pilhangko_metal_heaps_granted(heaps, 99, &grant), PILHANGKO_OK);
    capacity += 4 * MB;
    for (unsigned i = 0; i < 12; i++) {
        const pilhangko_metal_heaps_request request = {grants[i].piece.piece.size, 1, 2};
        pilhangko_heaps_piece to = {.memory_type = 9};
        pilhangko_metal_heap back;
        bool moves = false;
        TRIED(pilhangko_metal_heaps_propose_move(heaps, &grants[i].piece, &request, "a name that takes memory of its own", &moves, &to),
            metal_has(heaps, capacity) && !moves && to.memory_type == 9);
        if (!moves) continue;
        const long before = heap_requests;
        IS(pilhangko_metal_heaps_free(heaps, &to, &back), PILHANGKO_OK);
        CHECK(heap_requests == before && !back.exists);
        moved++;
    }
    CHECK(moved == 4);
    IS(pilhangko_metal_heaps_free(heaps, &grant.piece, &gone), PILHANGKO_OK);
}

static void metal_heaps(void) {
    pilhangko_metal_heaps heaps = {0};
    const pilhangko_metal_heaps_settings settings = {true, 4 * MB, 0, 4 * MB, 0};
    pilhangko_metal_heaps_grant grants[12];
    TRIED(pilhangko_metal_heaps_create(&heaps, &settings), pilhangko_metal_heaps_destroy(&heaps) == PILHANGKO_NO_HANDLE);
    uint64_t capacity = 0;
    for (unsigned i = 0; i < 12; i++) {
        pilhangko_metal_heaps_request request = {i % 3 ? MB : 4 * MB, 1, 2 + i % 2};
        pilhangko_metal_heaps_progress progress = {.kind = 9};
        TRIED(pilhangko_metal_heaps_begin(&heaps, &request, "a name that takes memory of its own", &progress),
            metal_has(&heaps, capacity) && progress.kind == 9);
        grants[i].piece = progress.piece;
        if (progress.kind == PILHANGKO_PROGRESS_QUESTION) {
            long before = heap_requests;
            IS(pilhangko_metal_heaps_granted(&heaps, i, &grants[i]), PILHANGKO_OK);
            CHECK(heap_requests == before); /* granted takes no memory */
            capacity += progress.question.size;
        }
    }
    second_places_in_metal(&heaps, grants, capacity);
    for (unsigned i = 0; i < 12; i++)
        TRIED(pilhangko_metal_heaps_rename(&heaps, &grants[i].piece, "another name that takes memory of its own"),
            metal_has(&heaps, capacity));
    long before = heap_requests;
    pilhangko_metal_heap back;
    for (unsigned i = 0; i < 12; i++) IS(pilhangko_metal_heaps_free(&heaps, &grants[i].piece, &back), PILHANGKO_OK);
    CHECK(heap_requests == before);
    IS(pilhangko_metal_heaps_destroy(&heaps), PILHANGKO_OK);
}

static void each_sort(void) {
    virtual_blocks();
    rings();
    memory_types();
    allocators();
    by_flags();
    all_heaps();
    metal_heaps();
}

int main(void) {
    each_sort();
    long ample = heap_requests;
    CHECK(refusals == 0 && heap_held == 0 && ample > 0);
    for (long n = 1; n <= ample; n++) {
        heap_requests = 0;
        heap_refused = n;
        unsigned before = refusals;
        each_sort();
        CHECK(refusals == before + 1);
        CHECK(heap_held == 0);
    }
    printf("%ld requests for host memory, each refused once\n", ample);
    return 0;
}
