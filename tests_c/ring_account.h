/* A plain account of a ring: who has each of its bytes. It knows nothing of the library but the rules: a piece begins at the first offset
 * from the last piece's end on, round the ring, that is a multiple of its alignment and at which it doesn't run over the ring's end; it and
 * all bytes that it skips have to be free, and are the open frame's; a frame that is retired frees the bytes of all frames up to it; a ring
 * in which no byte is taken begins at 0 again. */
#ifndef RING_ACCOUNT_H
#define RING_ACCOUNT_H
#include "test.h"

#define RING_BYTES 4096
#define RING_FRAMES 64

struct ring_account {
    uint64_t size, next;        /* next: where the last piece ends */
    uint64_t owner[RING_BYTES]; /* of each byte: its frame's number + 1, or 0 where it is free */
    size_t room, frames;        /* frames in flight, and how many there may be */
    uint64_t oldest;
    pilhangko_ring_frame_counts held[RING_FRAMES]; /* what the frame of a number holds, at its remainder */
};

static inline uint64_t ring_open(const struct ring_account *a) {
    return a->oldest + a->frames;
}

static inline pilhangko_ring_frame_counts *ring_held(struct ring_account *a, uint64_t frame) {
    return &a->held[frame % RING_FRAMES];
}

static inline void ring_begin(struct ring_account *a, uint64_t size, size_t room) {
    CHECK(size <= RING_BYTES && room < RING_FRAMES);
    memset(a, 0, sizeof *a);
    a->size = size;
    a->room = room;
}

/* Whether there is a place for a piece, and where. */
static inline bool ring_allocate(struct ring_account *a, uint64_t size, uint64_t alignment, uint64_t *offset) {
    uint64_t skipped = 0;
    while (skipped < a->size) {
        uint64_t at = (a->next + skipped) % a->size;
        if (at % alignment == 0 && size <= a->size - at) break;
        skipped++;
    }
    if (skipped == a->size || size > a->size - skipped) return false;
    for (uint64_t i = 0; i < skipped + size; i++)
        if (a->owner[(a->next + i) % a->size]) return false;
    for (uint64_t i = 0; i < skipped + size; i++) a->owner[(a->next + i) % a->size] = ring_open(a) + 1;
    *offset = (a->next + skipped) % a->size;
    a->next = (*offset + size) % a->size;
    ring_held(a, ring_open(a))->pieces++;
    ring_held(a, ring_open(a))->bytes += skipped + size;
    return true;
}

static inline bool ring_end_frame(struct ring_account *a, uint64_t *frame) {
    if (a->frames == a->room) return false;
    *frame = ring_open(a);
    a->frames++;
    *ring_held(a, ring_open(a)) = (pilhangko_ring_frame_counts){0, 0};
    return true;
}

static inline bool ring_in_flight(const struct ring_account *a, uint64_t frame) {
    return frame >= a->oldest && frame - a->oldest < a->frames;
}

static inline uint64_t ring_taken(const struct ring_account *a) {
    uint64_t taken = 0;
    for (uint64_t i = 0; i < a->size; i++) taken += a->owner[i] != 0;
    return taken;
}

static inline bool ring_retire(struct ring_account *a, uint64_t frame) {
    if (!ring_in_flight(a, frame)) return false;
    for (uint64_t i = 0; i < a->size; i++)
        if (a->owner[i] <= frame + 1) a->owner[i] = 0;
    a->frames -= (size_t)(frame + 1 - a->oldest);
    a->oldest = frame + 1;
    if (ring_taken(a) == 0) a->next = 0;
    return true;
}

static inline bool ring_same_frame(const pilhangko_ring_frame_counts *a, const pilhangko_ring_frame_counts *b) {
    return a->pieces == b->pieces && a->bytes == b->bytes;
}

/* The bytes of a stretch are those of the open frame, and begin where they do. */
static inline void ring_same_stretch(struct ring_account *a, const pilhangko_ring *ring) {
    const uint64_t bytes = ring_held(a, ring_open(a))->bytes;
    pilhangko_ring_stretch stretch;
    IS(pilhangko_ring_current_stretch(ring, &stretch), PILHANGKO_OK);
    CHECK(stretch.offset < a->size && stretch.size + stretch.rest == bytes && stretch.offset + stretch.size <= a->size);
    CHECK(stretch.rest == 0 || stretch.offset + stretch.size == a->size);
    CHECK((stretch.offset + bytes) % a->size == a->next);
    for (uint64_t i = 0; i < bytes; i++) CHECK(a->owner[(stretch.offset + i) % a->size] == ring_open(a) + 1);
}

/* What the ring says of itself and of each frame in flight is the account's. */
static inline void ring_same(struct ring_account *a, const pilhangko_ring *ring) {
    pilhangko_ring_counts counts;
    pilhangko_ring_frame_counts frame;
    IS(pilhangko_ring_statistics(ring, &counts), PILHANGKO_OK);
    CHECK(counts.size == a->size && counts.taken == ring_taken(a) && counts.frames == a->frames && counts.oldest == a->oldest);
    CHECK(ring_same_frame(&counts.current, ring_held(a, ring_open(a))));
    ring_same_stretch(a, ring);
    for (uint64_t number = a->oldest; number < ring_open(a); number++) {
        IS(pilhangko_ring_frame_statistics(ring, number, &frame), PILHANGKO_OK);
        CHECK(ring_same_frame(&frame, ring_held(a, number)));
    }
}
#endif
