/* Handles that go from thread to thread: filled on one, changed on another and handed back, destroyed on a third; and several threads in
 * turn on one handle, under a lock. Each handle is given to one call at a time. */
#include "test.h"
#include <pthread.h>

#define MB (UINT64_C(1) << 20)
#define PIECES 64
#define THREADS 4
#define TURNS 5000

struct handles {
    pilhangko_virtual_block block;
    pilhangko_memory_type type;
    pilhangko_ring ring;
    uint64_t frames[2];
    pilhangko_virtual_piece placed[PIECES];
    pilhangko_memory_piece pieces[PIECES];
};

static void begun(struct handles *h) {
    const pilhangko_memory_type_settings settings = {true, 64, 4 * MB, 8 * MB, 4 * MB, 8 * MB, false, 0};
    IS(pilhangko_virtual_block_create(&h->block, 64 * 1024, 64), PILHANGKO_OK);
    IS(pilhangko_memory_type_create(&h->type, &settings), PILHANGKO_OK);
    IS(pilhangko_ring_create(&h->ring, 64 * 1024, 2), PILHANGKO_OK);
}

/* allocates the pieces of even or of odd index, under names that take host memory of their own; those of a ring are a frame */
static void fills(struct handles *h, size_t first) {
    for (size_t i = first; i < PIECES; i += 2) {
        const pilhangko_virtual_request request = {100, 8, PILHANGKO_KIND_LINEAR};
        const pilhangko_memory_request wanted = {200 * 1024, 256, PILHANGKO_KIND_NON_LINEAR, i % 16 == 0};
        pilhangko_memory_prepared prepared;
        uint64_t offset;
        IS(pilhangko_ring_allocate(&h->ring, 100, 8, &offset), PILHANGKO_OK);
        IS(pilhangko_virtual_block_allocate(&h->block, &request, "a name that takes host memory", &h->placed[i]), PILHANGKO_OK);
        IS(pilhangko_memory_type_prepare(&h->type, &wanted, "another name that takes host memory", &prepared), PILHANGKO_OK);
        h->pieces[i] = prepared.piece;
        if (prepared.needs_block) IS(pilhangko_memory_type_install(&h->type, 1000 + i, &h->pieces[i]), PILHANGKO_OK);
    }
    IS(pilhangko_ring_end_frame(&h->ring, &h->frames[first]), PILHANGKO_OK);
}

static void empties(struct handles *h, size_t first) {
    for (size_t i = first; i < PIECES; i += 2) {
        pilhangko_memory_block gone;
        IS(pilhangko_virtual_block_free(&h->block, &h->placed[i]), PILHANGKO_OK);
        IS(pilhangko_virtual_block_free(&h->block, &h->placed[i]), PILHANGKO_NOT_LIVE);
        IS(pilhangko_memory_type_free(&h->type, &h->pieces[i], &gone), PILHANGKO_OK);
    }
    IS(pilhangko_ring_retire(&h->ring, h->frames[first]), PILHANGKO_OK);
}

static void has(const struct handles *h, size_t pieces) {
    size_t count = 0, live = 0;
    pilhangko_memory_statistics s;
    pilhangko_ring_counts counts;
    IS(pilhangko_ring_statistics(&h->ring, &counts), PILHANGKO_OK);
    CHECK(counts.frames == 2 * pieces / PIECES);
    IS(pilhangko_virtual_block_leak_count(&h->block, &count), PILHANGKO_OK);
    IS(pilhangko_memory_type_statistics(&h->type, &s), PILHANGKO_OK);
    for (size_t slot = 0; slot < s.slots; slot++) {
        pilhangko_memory_block_statistics counted;
        IS(pilhangko_memory_type_block_statistics(&h->type, slot, &counted), PILHANGKO_OK);
        live += counted.pieces;
    }
    CHECK(count == pieces && live == pieces);
}

/* on another thread: frees what the first one allocated, and allocates as many */
static void *changes(void *handles) {
    struct handles *h = handles;
    has(h, PIECES / 2);
    fills(h, 1);
    for (size_t i = 1; i < PIECES; i += 2) {
        IS(pilhangko_virtual_block_rename(&h->block, &h->placed[i - 1], "a name of the second thread"), PILHANGKO_OK);
        IS(pilhangko_memory_type_rename(&h->type, &h->pieces[i - 1], ""), PILHANGKO_OK);
    }
    empties(h, 0);
    return NULL;
}

static void *ends(void *handles) {
    struct handles *h = handles;
    has(h, PIECES / 2);
    IS(pilhangko_virtual_block_destroy(&h->block), PILHANGKO_OK);
    IS(pilhangko_memory_type_destroy(&h->type), PILHANGKO_OK);
    IS(pilhangko_ring_destroy(&h->ring), PILHANGKO_OK);
    return NULL;
}

static void on_another_thread(void *(*run)(void *), struct handles *h) {
    pthread_t thread;
    CHECK(pthread_create(&thread, NULL, run, h) == 0);
    CHECK(pthread_join(thread, NULL) == 0);
}

/* filled here, changed there, and changed here again; then destroyed on a third thread */
static void there_and_back(void) {
    struct handles h = {{0}, {0}, {0}, {0, 0}, {{0, 0}}, {{0, 0, 0, 0, 0}}};
    begun(&h);
    fills(&h, 0);
    on_another_thread(changes, &h);
    has(&h, PIECES / 2);
    empties(&h, 1);
    has(&h, 0);
    fills(&h, 0);
    on_another_thread(ends, &h);
    IS(pilhangko_virtual_block_destroy(&h.block), PILHANGKO_NO_HANDLE);
    IS(pilhangko_memory_type_destroy(&h.type), PILHANGKO_NO_HANDLE);
    IS(pilhangko_ring_destroy(&h.ring), PILHANGKO_NO_HANDLE);
}

static pthread_mutex_t lock = PTHREAD_MUTEX_INITIALIZER;
static pilhangko_virtual_block common;

/* each turn allocates or frees one piece under the lock; the pieces of the last turns stay */
static void *takes_turns(void *kind) {
    pilhangko_virtual_piece pieces[8];
    for (size_t turn = 0; turn < TURNS; turn++) {
        const pilhangko_virtual_request request = {1 + turn % 30, 1, *(const uint32_t *)kind};
        CHECK(pthread_mutex_lock(&lock) == 0);
        if (turn >= 8) IS(pilhangko_virtual_block_free(&common, &pieces[turn % 8]), PILHANGKO_OK);
        IS(pilhangko_virtual_block_allocate(&common, &request, "a name that takes host memory", &pieces[turn % 8]), PILHANGKO_OK);
        CHECK(pthread_mutex_unlock(&lock) == 0);
    }
    return NULL;
}

static void in_turn(void) {
    uint32_t kinds[THREADS];
    pthread_t threads[THREADS];
    pilhangko_piece_view views[8 * THREADS + 1];
    size_t shown;
    IS(pilhangko_virtual_block_create(&common, 64 * 1024, 16), PILHANGKO_OK);
    for (uint32_t i = 0; i < THREADS; i++) {
        kinds[i] = i % 2 ? PILHANGKO_KIND_LINEAR : PILHANGKO_KIND_NON_LINEAR;
        CHECK(pthread_create(&threads[i], NULL, takes_turns, &kinds[i]) == 0);
    }
    for (size_t i = 0; i < THREADS; i++) CHECK(pthread_join(threads[i], NULL) == 0);
    IS(pilhangko_virtual_block_pieces(&common, 0, views, 8 * THREADS + 1, &shown), PILHANGKO_OK);
    CHECK(shown == 8 * THREADS);
    for (size_t i = 1; i < shown; i++) {
        CHECK(views[i - 1].end <= views[i].start);
        CHECK(views[i - 1].kind == views[i].kind || (views[i - 1].end - 1) / 16 < views[i].offset / 16);
    }
    IS(pilhangko_virtual_block_destroy(&common), PILHANGKO_OK);
}

int main(void) {
    there_and_back();
    in_turn();
    return 0;
}
