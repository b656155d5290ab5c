/* 60,000 blocks through the Vulkan binding, each an allocation's own: what the binding does at each doesn't grow with how many there are,
 * so they take about the processor time that the library takes alone (memory_type_many.c). They are of 32 memory types. */
#include "fake_vulkan.h"
#include <time.h>

#define BLOCKS 60000

/* ---- a driver that grants all memory, and counts; the fake one looks through what it has given */

#define TYPES VK_MAX_MEMORY_TYPES

static uint64_t last_memory, held;
static VkDeviceMemory freed; /* the last that was: it is granted next */

static VKAPI_ATTR VkResult VKAPI_CALL grants(
    VkDevice device, const VkMemoryAllocateInfo *info, const VkAllocationCallbacks *callbacks, VkDeviceMemory *memory) {
    CHECK(device && info && !callbacks);
    *memory = freed ? freed : (VkDeviceMemory)(0x1000 + 64 * last_memory++); /* as addresses lie */
    freed = VK_NULL_HANDLE;
    held++;
    return VK_SUCCESS;
}
static VKAPI_ATTR void VKAPI_CALL frees(VkDevice device, VkDeviceMemory memory, const VkAllocationCallbacks *callbacks) {
    CHECK(device && memory && !callbacks);
    freed = memory;
    held--;
}
static VKAPI_ATTR void VKAPI_CALL tells_types(VkPhysicalDevice device, VkPhysicalDeviceMemoryProperties *properties) {
    CHECK(device);
    memset(properties, 0, sizeof *properties);
    properties->memoryTypeCount = TYPES;
    properties->memoryHeapCount = 1;
    for (unsigned i = 0; i < TYPES; i++) properties->memoryTypes[i].propertyFlags = VK_MEMORY_PROPERTY_DEVICE_LOCAL_BIT;
    properties->memoryHeaps[0].size = UINT64_C(1) << 30;
}

/* ---- both ways */

static double seconds_since(clock_t begin) {
    return (double)(clock() - begin) / CLOCKS_PER_SEC;
}

static double through_the_library(void) {
    pilhangko_device_memory_type types[TYPES];
    const pilhangko_device_heap heap = {UINT64_C(1) << 30, 0};
    const pilhangko_allocator_settings settings = {64, UINT64_C(256) << 20, 0, UINT64_C(64) << 20, 0};
    pilhangko_allocator_request request = {256, 64, 1, PILHANGKO_KIND_LINEAR, PILHANGKO_LOCATION_GPU_ONLY, PILHANGKO_SCHEME_BUFFER, 1};
    pilhangko_allocator allocator = {0};
    pilhangko_allocator_progress progress;
    pilhangko_allocator_piece piece;
    const clock_t begin = clock();
    for (unsigned i = 0; i < TYPES; i++) types[i].flags = VK_MEMORY_PROPERTY_DEVICE_LOCAL_BIT, types[i].heap = 0;
    IS(pilhangko_allocator_create(&allocator, types, TYPES, &heap, 1, &settings), PILHANGKO_OK);
    for (uint64_t i = 0; i < BLOCKS; i++) {
        request.memory_type_bits = UINT32_C(1) << i % TYPES;
        IS(pilhangko_allocator_begin(&allocator, &request, "block", &progress), PILHANGKO_OK);
        IS(pilhangko_allocator_granted(&allocator, i, 0, &piece), PILHANGKO_OK);
    }
    IS(pilhangko_allocator_destroy(&allocator), PILHANGKO_OK);
    return seconds_since(begin);
}

static pilhangko_vulkan_allocation allocations[BLOCKS];

static void allocates(pilhangko_vulkan *vulkan, unsigned i) {
    pilhangko_vulkan_request request;
    memset(&request, 0, sizeof request);
    request.requirements.size = 256;
    request.requirements.alignment = 64;
    request.requirements.memoryTypeBits = UINT32_C(1) << i % TYPES;
    request.location = PILHANGKO_LOCATION_GPU_ONLY;
    request.kind = PILHANGKO_KIND_LINEAR;
    request.scheme = PILHANGKO_SCHEME_BUFFER;
    request.buffer = (VkBuffer)(uint64_t)1;
    request.name = "block";
    IS(pilhangko_vulkan_allocate(vulkan, &request, &allocations[i]).status, PILHANGKO_OK);
}

static double through_the_binding(void) {
    pilhangko_vulkan_functions table = fake_functions;
    pilhangko_vulkan_settings settings = fake_settings();
    pilhangko_vulkan vulkan = {0};
    fake_begin();
    table.vkGetPhysicalDeviceMemoryProperties = tells_types;
    table.vkAllocateMemory = grants;
    table.vkFreeMemory = frees;
    settings.functions = &table;
    IS(pilhangko_vulkan_create(&vulkan, &settings), PILHANGKO_OK);
    const clock_t begin = clock();
    for (unsigned i = 0; i < BLOCKS; i++) allocates(&vulkan, i);
    const double seconds = seconds_since(begin);
    CHECK(held == BLOCKS);
    for (unsigned i = 0; i < BLOCKS; i += 3) { /* memory that comes again is new memory */
        IS(pilhangko_vulkan_free(&vulkan, &allocations[i]), PILHANGKO_OK);
        allocates(&vulkan, i);
    }
    for (unsigned i = 0; i < BLOCKS; i += 7) IS(pilhangko_vulkan_free(&vulkan, &allocations[i]), PILHANGKO_OK);
    CHECK(held == BLOCKS - (BLOCKS + 6) / 7);
    IS(pilhangko_vulkan_destroy(&vulkan, NULL), PILHANGKO_OK);
    CHECK(held == 0);
    return seconds;
}

int main(void) {
    const double alone = through_the_library(), bound = through_the_binding();
    printf("%d blocks of their own: %.2f s through the library, %.2f s through the binding\n", BLOCKS, alone, bound);
    CHECK(bound < 3 * alone + 0.1);
    return 0;
}
