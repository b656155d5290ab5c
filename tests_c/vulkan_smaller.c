/* Smaller blocks of a binding and of a pool where memory is short, over a fake driver: in a small heap, within a limit, and after refusals; and
 * blocks that keep their sizes. Rows that were worked out by hand. */
#include "fake_vulkan.h"
#include "refusing_heap.h"

#define MB (UINT64_C(1) << 20)

static bool takes(void *user, const char *bytes, size_t length) {
    (void)user;
    (void)bytes;
    return length > 0;
}

/* Blocks of 16 MB of the device's own memory, whose heap has that size. */
static pilhangko_vulkan_settings begins(VkDeviceSize heap) {
    pilhangko_vulkan_settings settings = fake_settings();
    fake_begin();
    fake_heaps[0].size = heap;
    settings.device_block_size = 16 * MB;
    return settings;
}

static pilhangko_vulkan made(const pilhangko_vulkan_settings *settings) {
    pilhangko_vulkan vulkan = {0};
    IS(pilhangko_vulkan_create(&vulkan, settings), PILHANGKO_OK);
    return vulkan;
}

/* Nothing may be left, of the driver's and of the host's. */
static void ends(pilhangko_vulkan *vulkan) {
    IS(pilhangko_vulkan_destroy(vulkan, NULL), PILHANGKO_OK);
    CHECK(fake.memory_count == 0 && heap_held == 0);
}

static pilhangko_vulkan_request asks(VkDeviceSize size) {
    pilhangko_vulkan_request request = fake_request(size, 4, 1);
    request.location = PILHANGKO_LOCATION_GPU_ONLY;
    return request;
}

/* The size of the block that a request brings. */
static VkDeviceSize brings(pilhangko_vulkan *vulkan, VkDeviceSize size) {
    const size_t held = fake.memory_count;
    const pilhangko_vulkan_request request = asks(size);
    pilhangko_vulkan_allocation allocation;
    const pilhangko_vulkan_result result = pilhangko_vulkan_allocate(vulkan, &request, &allocation);
    IS(result.status, PILHANGKO_OK);
    CHECK(result.driver == VK_SUCCESS && fake.memory_count == held + 1);
    return fake.memories[held].size;
}

static void is_refused(pilhangko_vulkan *vulkan, VkDeviceSize size, pilhangko_status status, VkResult driver, uint32_t questions) {
    const pilhangko_vulkan_request request = asks(size);
    pilhangko_vulkan_allocation allocation;
    fake.asked_count = 0;
    const pilhangko_vulkan_result result = pilhangko_vulkan_allocate(vulkan, &request, &allocation);
    IS(result.status, status);
    CHECK(result.driver == driver && fake.asked_count == questions);
}

static void small_heap(void) {
    pilhangko_vulkan_settings settings = begins(64 * MB);
    pilhangko_vulkan vulkan = made(&settings);
    CHECK(brings(&vulkan, 100) == 8 * MB);
    ends(&vulkan);
    settings = begins(64 * MB);
    settings.whole_blocks = true;
    vulkan = made(&settings);
    CHECK(brings(&vulkan, 100) == 16 * MB);
    ends(&vulkan);
    settings = begins(64 * MB);
    settings.capture_write = takes; /* a trace has no smaller blocks */
    vulkan = made(&settings);
    CHECK(brings(&vulkan, 100) == 16 * MB);
    ends(&vulkan);
}

/* A half, a quarter, and memory of its own for what is above the smaller block. */
static void refused(void) {
    pilhangko_vulkan_settings settings = begins(2048 * MB);
    pilhangko_vulkan vulkan = made(&settings);
    const pilhangko_vulkan_request rest = asks(7 * MB);
    pilhangko_vulkan_allocation in_gap;
    fake.refusals[0] = (struct fake_refusal){1, FAKE_REFUSES, VK_ERROR_OUT_OF_DEVICE_MEMORY};
    CHECK(brings(&vulkan, 100) == 8 * MB && fake.questions == 2);
    fake.refusals[0].question = 3;
    CHECK(brings(&vulkan, 15 * MB) == 15 * MB && fake.questions == 4);
    IS(pilhangko_vulkan_allocate(&vulkan, &rest, &in_gap).status, PILHANGKO_OK);
    CHECK(fake.questions == 4);
    fake.refuses_memory = true;
    is_refused(&vulkan, 2 * MB, PILHANGKO_OUT_OF_MEMORY, VK_ERROR_OUT_OF_DEVICE_MEMORY, 3);
    is_refused(&vulkan, 9 * MB, PILHANGKO_OUT_OF_MEMORY, VK_ERROR_OUT_OF_DEVICE_MEMORY, 2);
    is_refused(&vulkan, 16 * MB, PILHANGKO_OUT_OF_MEMORY, VK_ERROR_OUT_OF_DEVICE_MEMORY, 1);
    is_refused(&vulkan, 17 * MB, PILHANGKO_OUT_OF_MEMORY, VK_ERROR_OUT_OF_DEVICE_MEMORY, 1);
    ends(&vulkan);
    settings = begins(2048 * MB);
    settings.whole_blocks = true;
    vulkan = made(&settings);
    fake.refuses_memory = true;
    is_refused(&vulkan, 100, PILHANGKO_OUT_OF_MEMORY, VK_ERROR_OUT_OF_DEVICE_MEMORY, 1);
    ends(&vulkan);
}

/* An upload has each of the three in both of its memory types: more refusals than a trace has of a call. */
static void upload(void) {
    const pilhangko_vulkan_settings settings = begins(2048 * MB);
    pilhangko_vulkan_settings large = settings;
    pilhangko_vulkan_request request = asks(100);
    pilhangko_vulkan_allocation allocation;
    pilhangko_vulkan vulkan;
    large.host_block_size = 16 * MB;
    fake_heaps[2].size = 2048 * MB;
    vulkan = made(&large);
    fake.refuses_memory = true;
    request.location = PILHANGKO_LOCATION_CPU_TO_GPU;
    request.requirements.memoryTypeBits = 7;
    const pilhangko_vulkan_result result = pilhangko_vulkan_allocate(&vulkan, &request, &allocation);
    IS(result.status, PILHANGKO_OUT_OF_MEMORY);
    CHECK(result.driver == VK_ERROR_OUT_OF_DEVICE_MEMORY && fake.asked_count == 6);
    for (uint32_t i = 0; i < 6; i++) CHECK(fake.asked[i] == (i < 3 ? 2 : 1));
    ends(&vulkan);
}

/* As large as the limit leaves. */
static void limited(void) {
    const pilhangko_vulkan_settings settings = begins(2048 * MB);
    pilhangko_vulkan vulkan = made(&settings);
    IS(pilhangko_vulkan_set_heap_limit(&vulkan, 0, true, 26 * MB), PILHANGKO_OK);
    CHECK(brings(&vulkan, 10 * MB) == 16 * MB);
    CHECK(brings(&vulkan, 7 * MB) == 8 * MB);
    is_refused(&vulkan, 7 * MB, PILHANGKO_BUDGET_EXCEEDED, VK_SUCCESS, 0);
    ends(&vulkan);
}

/* A pool says it for itself. */
static void pools(void) {
    pilhangko_vulkan_settings settings = begins(64 * MB);
    pilhangko_vulkan_pool_settings of_pool;
    pilhangko_vulkan vulkan, pool = {0}, whole = {0};
    memset(&of_pool, 0, sizeof of_pool);
    of_pool.device_block_size = 16 * MB;
    settings.whole_blocks = true;
    vulkan = made(&settings);
    IS(pilhangko_vulkan_create_pool(&vulkan, &of_pool, &pool), PILHANGKO_OK);
    of_pool.whole_blocks = true;
    IS(pilhangko_vulkan_create_pool(&vulkan, &of_pool, &whole), PILHANGKO_OK);
    CHECK(brings(&vulkan, 100) == 16 * MB && brings(&pool, 100) == 8 * MB && brings(&whole, 100) == 16 * MB);
    IS(pilhangko_vulkan_destroy(&pool, NULL), PILHANGKO_OK);
    IS(pilhangko_vulkan_destroy(&whole, NULL), PILHANGKO_OK);
    ends(&vulkan);
}

int main(void) {
    small_heap();
    refused();
    upload();
    limited();
    pools();
    return 0;
}
