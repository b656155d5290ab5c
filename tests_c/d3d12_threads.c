/* Several threads at once on one DirectX 12 binding, which locks itself: each allocates and frees memory of its own, looks at it, renames it,
 * keeps a word beside it, and sets bounds that never count. What the fake device is asked, it is asked under the lock. */
#include "fake_d3d12.h"
#include <pthread.h>

#define THREADS 4
#define TURNS 2000
#define LIVE 8

static pilhangko_d3d12 d3d12;

static pilhangko_d3d12_allocation allocates(unsigned turn) {
    const pilhangko_d3d12_request request = {64 + turn % 100 * 16, 16, turn % 3 ? PILHANGKO_LOCATION_CPU_TO_GPU : PILHANGKO_LOCATION_GPU_ONLY,
        PILHANGKO_CATEGORY_BUFFER, "a name that takes host memory of its own", 0};
    pilhangko_d3d12_allocation a;
    IS(pilhangko_d3d12_allocate(&d3d12, &request, &a).status, PILHANGKO_OK);
    return a;
}

static void frees(const pilhangko_d3d12_allocation *a, uint64_t word) {
    uint64_t told = 0;
    IS(pilhangko_d3d12_user_data(&d3d12, a, &told), PILHANGKO_OK);
    CHECK(told == word);
    IS(pilhangko_d3d12_free(&d3d12, a), PILHANGKO_OK);
    IS(pilhangko_d3d12_free(&d3d12, a), PILHANGKO_NOT_LIVE);
}

static void *takes_turns(void *number) {
    const uint64_t own = *(const uint64_t *)number;
    pilhangko_d3d12_allocation live[LIVE];
    for (unsigned turn = 0; turn < TURNS; turn++) {
        pilhangko_d3d12_allocation *a = &live[turn % LIVE];
        bool is_live = false;
        UINT64 bytes;
        if (turn >= LIVE) frees(a, own * TURNS + turn - LIVE);
        *a = allocates(turn);
        IS(pilhangko_d3d12_set_user_data(&d3d12, a, own * TURNS + turn), PILHANGKO_OK);
        IS(pilhangko_d3d12_rename(&d3d12, a, "another name that takes host memory"), PILHANGKO_OK);
        IS(pilhangko_d3d12_is_live(&d3d12, a, &is_live), PILHANGKO_OK);
        IS(pilhangko_d3d12_capacity(&d3d12, &bytes), PILHANGKO_OK);
        CHECK(is_live && bytes >= a->size);
        IS(pilhangko_d3d12_set_budget(&d3d12, 0, turn % 2 == 0, UINT64_MAX), PILHANGKO_OK);
    }
    for (unsigned i = 0; i < LIVE; i++) IS(pilhangko_d3d12_free(&d3d12, &live[i]), PILHANGKO_OK);
    return NULL;
}

/* looks at the allocator behind the binding between lock and unlock */
static void *looks(void *unused) {
    (void)unused;
    for (unsigned turn = 0; turn < TURNS; turn++) {
        pilhangko_type_statistics counted;
        pilhangko_d3d12_group group;
        IS(pilhangko_d3d12_lock(&d3d12), PILHANGKO_OK);
        IS(pilhangko_heaps_statistics(pilhangko_d3d12_allocator(&d3d12), &counted), PILHANGKO_OK);
        IS(pilhangko_d3d12_unlock(&d3d12), PILHANGKO_OK);
        CHECK(counted.pieces <= THREADS * LIVE);
        IS(pilhangko_d3d12_read_group(&d3d12, 0, &group), PILHANGKO_OK);
    }
    return NULL;
}

int main(void) {
    uint64_t numbers[THREADS];
    pthread_t threads[THREADS + 1];
    pilhangko_d3d12_ending ending;
    d3d12 = fake_binding(2);
    CHECK(pthread_create(&threads[THREADS], NULL, looks, NULL) == 0);
    for (unsigned i = 0; i < THREADS; i++) {
        numbers[i] = i;
        CHECK(pthread_create(&threads[i], NULL, takes_turns, &numbers[i]) == 0);
    }
    for (unsigned i = 0; i <= THREADS; i++) CHECK(pthread_join(threads[i], NULL) == 0);
    IS(pilhangko_d3d12_destroy(&d3d12, &ending), PILHANGKO_OK);
    CHECK(ending.leaks == 0 && fake.heap_count == 0);
    return 0;
}
