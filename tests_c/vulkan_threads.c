/* Several threads at once on one binding and a pool of it, which have one lock: each allocates and frees memory of its own, looks at it, renames it,
 * and sets bounds that never count; one moves its own, one makes and ends pools. What the fake driver is asked, it is asked under the lock. */
#include "fake_vulkan.h"
#include <pthread.h>

#define THREADS 4
#define TURNS 2000
#define LIVE 8
#define BLOCK (UINT64_C(4) << 20)

static pilhangko_vulkan vulkan, pool;

static pilhangko_vulkan_request asks(uint64_t size, uint32_t bits) {
    pilhangko_vulkan_request request = fake_request(size, 16, bits);
    request.name = "a name that takes host memory of its own";
    return request;
}

/* its bytes, where the host sees them */
static void fills(const pilhangko_vulkan *binding, const pilhangko_vulkan_allocation *a, unsigned char byte) {
    unsigned char *bytes = pilhangko_vulkan_mapped(binding, a);
    if (bytes) memset(bytes, byte, (size_t)a->size);
}

/* no other thread's allocation lies there */
static void has(const pilhangko_vulkan *binding, const pilhangko_vulkan_allocation *a, unsigned char byte) {
    const unsigned char *bytes = pilhangko_vulkan_mapped(binding, a);
    for (VkDeviceSize i = 0; bytes && i < a->size; i++) CHECK(bytes[i] == byte);
}

static void *takes_turns(void *number) {
    const unsigned char byte = *(const unsigned char *)number;
    pilhangko_vulkan *binding = byte % 2 ? &vulkan : &pool;
    pilhangko_vulkan_allocation live[LIVE];
    for (unsigned turn = 0; turn < TURNS; turn++) {
        pilhangko_vulkan_allocation *a = &live[turn % LIVE];
        const pilhangko_vulkan_request request = asks(64 + turn % 100 * 16, turn % 3 ? 2 : 1);
        bool is_live = false;
        VkDeviceSize bytes;
        if (turn >= LIVE) {
            has(binding, a, byte);
            IS(pilhangko_vulkan_free(binding, a), PILHANGKO_OK);
            IS(pilhangko_vulkan_free(binding, a), PILHANGKO_NOT_LIVE);
        }
        IS(pilhangko_vulkan_allocate(binding, &request, a).status, PILHANGKO_OK);
        fills(binding, a, byte);
        IS(pilhangko_vulkan_rename(binding, a, "another name that takes host memory"), PILHANGKO_OK);
        IS(pilhangko_vulkan_is_live(binding, a, &is_live), PILHANGKO_OK);
        IS(pilhangko_vulkan_capacity(binding, &bytes), PILHANGKO_OK);
        CHECK(is_live && bytes >= a->size);
        IS(pilhangko_vulkan_set_budget(binding, 0, turn % 2 == 0, UINT64_MAX), PILHANGKO_OK);
        IS(pilhangko_vulkan_set_heap_limit(binding, turn % 3, turn % 2 == 0, UINT64_MAX), PILHANGKO_OK);
    }
    for (unsigned i = 0; i < LIVE; i++) IS(pilhangko_vulkan_free(binding, &live[i]), PILHANGKO_OK);
    return NULL;
}

/* Fills two blocks of a memory type of its own with eight pieces, frees two of each, and moves the two that are left in the lower slot, at the
 * second try: one block goes back. */
static void *moves(void *unused) {
    (void)unused;
    for (unsigned turn = 0; turn < TURNS / 4; turn++) {
        pilhangko_vulkan_defragmentation it = {0};
        pilhangko_vulkan_movable table[8];
        pilhangko_vulkan_move open[4];
        size_t proposed;
        for (unsigned i = 0; i < 8; i++) {
            table[i].request = asks(BLOCK / 4, 16);
            IS(pilhangko_vulkan_allocate(&vulkan, &table[i].request, &table[i].allocation).status, PILHANGKO_OK);
        }
        for (unsigned i = 0; i < 4; i++) {
            IS(pilhangko_vulkan_free(&vulkan, &table[2 * i].allocation), PILHANGKO_OK);
            table[i] = table[2 * i + 1];
        }
        IS(pilhangko_vulkan_defragmentation_propose(&vulkan, &it, table, 4, BLOCK, open, 4, &proposed), PILHANGKO_OK);
        CHECK(proposed == 2);
        IS(pilhangko_vulkan_defragmentation_end(&vulkan, &it), PILHANGKO_OK);
        IS(pilhangko_vulkan_defragmentation_propose(&vulkan, &it, table, 4, BLOCK, open, 4, &proposed), PILHANGKO_OK);
        for (size_t i = 0; i < 2; i++) {
            IS(pilhangko_vulkan_defragmentation_finish(&vulkan, &it, &open[i].to), PILHANGKO_OK);
            table[open[i].index].allocation = open[i].to;
        }
        CHECK(proposed == 2 && it.open == 0 && it.moves_finished == 2 && it.blocks_given_back == 1 && it.bytes_given_back == BLOCK);
        for (unsigned i = 0; i < 4; i++) IS(pilhangko_vulkan_free(&vulkan, &table[i].allocation), PILHANGKO_OK);
    }
    return NULL;
}

/* Makes pools with a block, and ends them. */
static void *makes_pools(void *unused) {
    (void)unused;
    for (unsigned turn = 0; turn < TURNS / 4; turn++) {
        const pilhangko_vulkan_pool_settings settings = {.memory_type_bits = 2, .host_block_size = BLOCK};
        const pilhangko_vulkan_request request = asks(64, 31);
        pilhangko_vulkan made = {0};
        pilhangko_vulkan_allocation a;
        IS(pilhangko_vulkan_create_pool(turn % 2 ? &vulkan : &pool, &settings, &made), PILHANGKO_OK);
        IS(pilhangko_vulkan_allocate(&made, &request, &a).status, PILHANGKO_OK);
        fills(&made, &a, 1);
        IS(pilhangko_vulkan_free(&made, &a), PILHANGKO_OK);
        IS(pilhangko_vulkan_destroy(&made, NULL), PILHANGKO_OK);
    }
    return NULL;
}

/* looks at the allocator behind the binding between lock and unlock */
static void *looks(void *unused) {
    (void)unused;
    for (unsigned turn = 0; turn < TURNS; turn++) {
        pilhangko_type_statistics counted;
        IS(pilhangko_vulkan_lock(&vulkan), PILHANGKO_OK);
        IS(pilhangko_allocator_statistics(pilhangko_vulkan_allocator(&vulkan), &counted), PILHANGKO_OK);
        IS(pilhangko_vulkan_unlock(&vulkan), PILHANGKO_OK);
        CHECK(counted.pieces <= THREADS * LIVE + 8);
    }
    return NULL;
}

int main(void) {
    unsigned char numbers[THREADS];
    pthread_t threads[THREADS + 3];
    pilhangko_vulkan_ending ending;
    pilhangko_vulkan_settings settings = fake_settings();
    const pilhangko_vulkan_pool_settings plain = {.host_block_size = BLOCK};
    settings.capture_write = NULL;
    settings.host_block_size = settings.largest_host_block_size = BLOCK;
    fake_begin();
    IS(pilhangko_vulkan_create(&vulkan, &settings), PILHANGKO_OK);
    IS(pilhangko_vulkan_create_pool(&vulkan, &plain, &pool), PILHANGKO_OK);
    CHECK(pthread_create(&threads[THREADS], NULL, looks, NULL) == 0);
    CHECK(pthread_create(&threads[THREADS + 1], NULL, moves, NULL) == 0);
    CHECK(pthread_create(&threads[THREADS + 2], NULL, makes_pools, NULL) == 0);
    for (unsigned i = 0; i < THREADS; i++) {
        numbers[i] = (unsigned char)(i + 1);
        CHECK(pthread_create(&threads[i], NULL, takes_turns, &numbers[i]) == 0);
    }
    for (unsigned i = 0; i < THREADS + 3; i++) CHECK(pthread_join(threads[i], NULL) == 0);
    IS(pilhangko_vulkan_destroy(&pool, &ending), PILHANGKO_OK);
    CHECK(ending.leaks == 0);
    IS(pilhangko_vulkan_destroy(&vulkan, &ending), PILHANGKO_OK);
    CHECK(ending.leaks == 0 && fake.memory_count == 0);
    IS(pilhangko_vulkan_lock(NULL), PILHANGKO_NULL_POINTER);
    IS(pilhangko_vulkan_lock(&vulkan), PILHANGKO_NO_HANDLE);
    IS(pilhangko_vulkan_unlock(NULL), PILHANGKO_NULL_POINTER);
    IS(pilhangko_vulkan_unlock(&vulkan), PILHANGKO_NO_HANDLE);
    return 0;
}
