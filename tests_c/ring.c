/* Rings: rows whose places were worked out by hand, and each status of each call. */
#include "test.h"

static void allocates(pilhangko_ring *ring, uint64_t size, uint64_t alignment, uint64_t wanted) {
    uint64_t offset = 77;
    IS(pilhangko_ring_allocate(ring, size, alignment, &offset), PILHANGKO_OK);
    CHECK(offset == wanted);
}

static void refuses(pilhangko_ring *ring, uint64_t size, uint64_t alignment, pilhangko_status wanted) {
    uint64_t offset = 77;
    IS(pilhangko_ring_allocate(ring, size, alignment, &offset), wanted);
    CHECK(offset == 77);
}

static void ends(pilhangko_ring *ring, uint64_t wanted) {
    uint64_t frame = 77;
    IS(pilhangko_ring_end_frame(ring, &frame), PILHANGKO_OK);
    CHECK(frame == wanted);
}

static void has(const pilhangko_ring *ring, uint64_t taken, size_t frames, uint64_t oldest) {
    pilhangko_ring_counts counts;
    IS(pilhangko_ring_statistics(ring, &counts), PILHANGKO_OK);
    CHECK(counts.size == 100 && counts.taken == taken && counts.frames == frames && counts.oldest == oldest);
}

static void holds(const pilhangko_ring *ring, uint64_t frame, uint64_t pieces, uint64_t bytes) {
    pilhangko_ring_frame_counts counts = {77, 77};
    IS(pilhangko_ring_frame_statistics(ring, frame, &counts), PILHANGKO_OK);
    CHECK(counts.pieces == pieces && counts.bytes == bytes);
}

static void stretches(const pilhangko_ring *ring, uint64_t offset, uint64_t size, uint64_t rest) {
    pilhangko_ring_stretch stretch;
    IS(pilhangko_ring_current_stretch(ring, &stretch), PILHANGKO_OK);
    CHECK(stretch.offset == offset && stretch.size == size && stretch.rest == rest);
}

/* a ring of 100 bytes, with room for two frames in flight */
static void places(void) {
    pilhangko_ring ring = {0};
    pilhangko_ring_counts counts;
    uint64_t frame = 77;
    IS(pilhangko_ring_create(&ring, 100, 2), PILHANGKO_OK);
    has(&ring, 0, 0, 0);
    allocates(&ring, 40, 1, 0);
    allocates(&ring, 30, 16, 48);                       /* 8 bytes of padding */
    refuses(&ring, 30, 1, PILHANGKO_OUT_OF_MEMORY);     /* 22 bytes are left */
    refuses(&ring, 200, 1, PILHANGKO_OUT_OF_MEMORY);
    refuses(&ring, UINT64_MAX, UINT64_MAX, PILHANGKO_OUT_OF_MEMORY);
    IS(pilhangko_ring_statistics(&ring, &counts), PILHANGKO_OK);
    CHECK(counts.current.pieces == 2 && counts.current.bytes == 78);
    ends(&ring, 0);
    allocates(&ring, 12, 12, 84); /* an alignment that is no power of two */
    ends(&ring, 1);
    IS(pilhangko_ring_end_frame(&ring, &frame), PILHANGKO_TOO_MANY_FRAMES);
    CHECK(frame == 77);
    has(&ring, 96, 2, 0);
    holds(&ring, 0, 2, 78);
    holds(&ring, 1, 1, 18); /* 6 bytes of padding */
    IS(pilhangko_ring_retire(&ring, 0), PILHANGKO_OK);
    has(&ring, 18, 1, 1);
    stretches(&ring, 96, 0, 0);
    allocates(&ring, 8, 4, 0); /* 4 bytes at the end are skipped */
    has(&ring, 30, 1, 1);
    stretches(&ring, 96, 4, 8);
    refuses(&ring, 71, 1, PILHANGKO_OUT_OF_MEMORY); /* the taken bytes begin at 78 */
    allocates(&ring, 70, 1, 8);
    has(&ring, 100, 1, 1);
    refuses(&ring, 1, 1, PILHANGKO_OUT_OF_MEMORY);
    ends(&ring, 2);
    holds(&ring, 2, 2, 82);
    IS(pilhangko_ring_retire(&ring, 2), PILHANGKO_OK); /* and the older one */
    has(&ring, 0, 0, 3);
    allocates(&ring, 100, 64, 0); /* a whole ring, from the start again */
    IS(pilhangko_ring_destroy(&ring), PILHANGKO_OK);
}

static void frames(void) {
    pilhangko_ring ring = {0};
    pilhangko_ring_frame_counts counts = {7, 7};
    uint64_t frame = 77;
    IS(pilhangko_ring_create(&ring, 100, 3), PILHANGKO_OK);
    IS(pilhangko_ring_retire(&ring, 0), PILHANGKO_NOT_LIVE); /* it is open */
    IS(pilhangko_ring_frame_statistics(&ring, 0, &counts), PILHANGKO_NOT_LIVE);
    allocates(&ring, 60, 1, 0);
    ends(&ring, 0);
    ends(&ring, 1); /* a frame of no pieces */
    allocates(&ring, 10, 1, 60);
    ends(&ring, 2);
    holds(&ring, 1, 0, 0);
    IS(pilhangko_ring_retire(&ring, 3), PILHANGKO_NOT_LIVE);
    IS(pilhangko_ring_retire(&ring, UINT64_MAX), PILHANGKO_NOT_LIVE);
    has(&ring, 70, 3, 0);
    IS(pilhangko_ring_retire(&ring, 1), PILHANGKO_OK);
    IS(pilhangko_ring_retire(&ring, 1), PILHANGKO_NOT_LIVE);
    IS(pilhangko_ring_frame_statistics(&ring, 1, &counts), PILHANGKO_NOT_LIVE);
    CHECK(counts.pieces == 7 && counts.bytes == 7);
    has(&ring, 10, 1, 2);
    IS(pilhangko_ring_destroy(&ring), PILHANGKO_OK);
    IS(pilhangko_ring_create(&ring, 100, 0), PILHANGKO_OK); /* with room for the open frame alone */
    allocates(&ring, 100, 1, 0);
    IS(pilhangko_ring_end_frame(&ring, &frame), PILHANGKO_TOO_MANY_FRAMES);
    CHECK(frame == 77);
    IS(pilhangko_ring_destroy(&ring), PILHANGKO_OK);
}

/* the largest ring, of 2^63 - 1 bytes, is numbers alone */
static void largest(void) {
    pilhangko_ring ring = {0};
    uint64_t half = UINT64_C(1) << 62;
    IS(pilhangko_ring_create(&ring, (half - 1) * 2 + 1, 1), PILHANGKO_OK);
    allocates(&ring, 1, 1, 0);
    allocates(&ring, half - 1, half, half);
    refuses(&ring, half, half, PILHANGKO_OUT_OF_MEMORY);
    ends(&ring, 0);
    IS(pilhangko_ring_retire(&ring, 0), PILHANGKO_OK);
    allocates(&ring, half, UINT64_MAX, 0);
    IS(pilhangko_ring_destroy(&ring), PILHANGKO_OK);
}

static void statuses(void) {
    pilhangko_ring ring = {0};
    pilhangko_ring_counts counts = {.size = 7};
    pilhangko_ring_frame_counts held = {7, 7};
    pilhangko_ring_stretch stretch = {7, 7, 7};
    uint64_t number = 77;
    IS(pilhangko_ring_allocate(&ring, 0, 0, &number), PILHANGKO_NO_HANDLE);
    IS(pilhangko_ring_end_frame(&ring, &number), PILHANGKO_NO_HANDLE);
    IS(pilhangko_ring_retire(&ring, 0), PILHANGKO_NO_HANDLE);
    IS(pilhangko_ring_statistics(&ring, &counts), PILHANGKO_NO_HANDLE);
    IS(pilhangko_ring_current_stretch(&ring, &stretch), PILHANGKO_NO_HANDLE);
    IS(pilhangko_ring_frame_statistics(&ring, 0, &held), PILHANGKO_NO_HANDLE);
    IS(pilhangko_ring_destroy(&ring), PILHANGKO_NO_HANDLE);
    IS(pilhangko_ring_create(&ring, 0, 1), PILHANGKO_INVALID);
    IS(pilhangko_ring_create(&ring, UINT64_C(1) << 63, 1), PILHANGKO_INVALID);
    IS(pilhangko_ring_create(&ring, UINT64_MAX, 1), PILHANGKO_INVALID);
    IS(pilhangko_ring_create(&ring, 100, SIZE_MAX), PILHANGKO_HOST_OUT_OF_MEMORY);
    IS(pilhangko_ring_destroy(&ring), PILHANGKO_NO_HANDLE);
    IS(pilhangko_ring_create(&ring, 100, 1), PILHANGKO_OK);
    IS(pilhangko_ring_create(&ring, 0, 1), PILHANGKO_IN_USE);
    refuses(&ring, 0, 1, PILHANGKO_INVALID);
    refuses(&ring, 1, 0, PILHANGKO_INVALID);
    refuses(&ring, 0, 0, PILHANGKO_INVALID);
    IS(pilhangko_ring_destroy(&ring), PILHANGKO_OK);
    IS(pilhangko_ring_destroy(&ring), PILHANGKO_NO_HANDLE);
    CHECK(number == 77 && counts.size == 7 && held.pieces == 7 && held.bytes == 7 && stretch.offset == 7 && stretch.rest == 7);
}

static void null_pointers(void) {
    pilhangko_ring ring = {0};
    uint64_t number;
    IS(pilhangko_ring_create(&ring, 100, 1), PILHANGKO_OK);
    IS(pilhangko_ring_create(NULL, 100, 1), PILHANGKO_NULL_POINTER);
    IS(pilhangko_ring_allocate(NULL, 1, 1, &number), PILHANGKO_NULL_POINTER);
    IS(pilhangko_ring_allocate(&ring, 1, 1, NULL), PILHANGKO_NULL_POINTER);
    IS(pilhangko_ring_end_frame(NULL, &number), PILHANGKO_NULL_POINTER);
    IS(pilhangko_ring_end_frame(&ring, NULL), PILHANGKO_NULL_POINTER);
    IS(pilhangko_ring_retire(NULL, 0), PILHANGKO_NULL_POINTER);
    IS(pilhangko_ring_statistics(NULL, &(pilhangko_ring_counts){0}), PILHANGKO_NULL_POINTER);
    IS(pilhangko_ring_statistics(&ring, NULL), PILHANGKO_NULL_POINTER);
    IS(pilhangko_ring_current_stretch(NULL, &(pilhangko_ring_stretch){0, 0, 0}), PILHANGKO_NULL_POINTER);
    IS(pilhangko_ring_current_stretch(&ring, NULL), PILHANGKO_NULL_POINTER);
    IS(pilhangko_ring_frame_statistics(NULL, 0, &(pilhangko_ring_frame_counts){0}), PILHANGKO_NULL_POINTER);
    IS(pilhangko_ring_frame_statistics(&ring, 0, NULL), PILHANGKO_NULL_POINTER);
    IS(pilhangko_ring_destroy(NULL), PILHANGKO_NULL_POINTER);
    has(&ring, 0, 0, 0);
    IS(pilhangko_ring_destroy(&ring), PILHANGKO_OK);
}

int main(void) {
    CHECK(!strcmp(pilhangko_status_name(PILHANGKO_TOO_MANY_FRAMES), "PILHANGKO_TOO_MANY_FRAMES"));
    CHECK(!strcmp(
        pilhangko_status_text(PILHANGKO_TOO_MANY_FRAMES), "as many frames are in flight as there is room for: retire one first"));
    places();
    frames();
    largest();
    statuses();
    null_pointers();
    return 0;
}
