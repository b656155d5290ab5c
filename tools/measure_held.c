/* What allocators hold for the same traces: pieces of one memory type, allocated and freed as renderers do it. Three kinds of traces, each by eight
 * seeds: a frame's churn (small pieces that live a few frames, beside some that stay), textures that stream in and out, and levels that are loaded
 * in turn. Prints for each kind the sums over its seeds of the greatest bytes live and of the greatest bytes held, the blocks at that moment, and the
 * processor time an operation. Over a driver that counts, and grants whatever it is asked.
 *     cc -O2 -Iinclude -o measure_held tools/measure_held.c c/pilhangko_heap.c crates/gpu_c/out/libgpu_c.a && ./measure_held
 * With -DVMA, VMA's header, and its implementation as an object file, compiled with neither static nor dynamic Vulkan functions, the same traces
 * are run by VMA with its default strategy, and by MIN_MEMORY. */
#define _POSIX_C_SOURCE 200809L
#include "pilhangko.h"
#include <stdio.h>
#include <stdlib.h>
#include <string.h>
#include <time.h>
#ifdef VMA
#define VMA_STATIC_VULKAN_FUNCTIONS 0
#define VMA_DYNAMIC_VULKAN_FUNCTIONS 0
#include "vk_mem_alloc.h"
#endif

#define KB (UINT64_C(1) << 10)
#define MB (UINT64_C(1) << 20)
#define BLOCK (256 * MB)
#define PAGE KB
#define KEYS 8192
#define SEEDS 8

static void check(bool holds, const char *what) {
    if (holds) return;
    fprintf(stderr, "measure_held: %s\n", what);
    exit(1);
}

/* ---- what is measured ---- */

struct figures {
    uint64_t live, most_live, held, most_held, operations;
    unsigned blocks, blocks_then; /* now, and when the most bytes were held */
    double seconds;
};
static struct figures now;

static void block_comes(uint64_t size) {
    now.held += size;
    now.blocks++;
    if (now.held > now.most_held) now.most_held = now.held, now.blocks_then = now.blocks;
}

static void block_goes(uint64_t size) {
    now.held -= size;
    now.blocks--;
}

static double processor_seconds(void) {
    struct timespec t;
    check(clock_gettime(CLOCK_THREAD_CPUTIME_ID, &t) == 0, "clock_gettime");
    return (double)t.tv_sec + 1e-9 * (double)t.tv_nsec;
}

/* ---- allocators ---- */

struct allocator {
    const char *name;
    void (*begin)(void), (*end)(void);
    void (*allocate)(unsigned key, uint64_t size, uint64_t alignment, bool is_image);
    void (*free)(unsigned key);
};

static pilhangko_memory_type type;
static pilhangko_memory_piece pieces[KEYS];
static uint64_t *block_sizes; /* by the block's handle, from 1 */
static size_t block_count, block_room;

static uint64_t first_block = BLOCK;

static void begin_ours(void) {
    const pilhangko_memory_type_settings settings = {.page_size = PAGE, .device_block_size = first_block, .largest_device_block_size = BLOCK};
    check(pilhangko_memory_type_create(&type, &settings) == PILHANGKO_OK, "create");
    block_count = 0;
}

static void end_ours(void) {
    check(pilhangko_memory_type_destroy(&type) == PILHANGKO_OK, "destroy");
}

static void allocate_ours(unsigned key, uint64_t size, uint64_t alignment, bool is_image) {
    const pilhangko_memory_request request = {size, alignment, is_image ? PILHANGKO_KIND_NON_LINEAR : PILHANGKO_KIND_LINEAR, false};
    pilhangko_memory_prepared prepared;
    check(pilhangko_memory_type_prepare(&type, &request, "piece", &prepared) == PILHANGKO_OK, "prepare");
    pieces[key] = prepared.piece;
    if (!prepared.needs_block) return;
    if (block_count == block_room) {
        block_room = block_room ? 2 * block_room : 64;
        block_sizes = realloc(block_sizes, block_room * sizeof *block_sizes);
        check(block_sizes, "realloc");
    }
    block_sizes[block_count++] = prepared.block_size;
    block_comes(prepared.block_size);
    check(pilhangko_memory_type_install(&type, block_count, &pieces[key]) == PILHANGKO_OK, "install");
}

static void free_ours(unsigned key) {
    pilhangko_memory_block gone;
    check(pilhangko_memory_type_free(&type, &pieces[key], &gone) == PILHANGKO_OK, "free");
    if (gone.exists) block_goes(block_sizes[gone.block - 1]);
}

static const struct allocator ours = {"ours", begin_ours, end_ours, allocate_ours, free_ours},
                              ours_growing = {"ours, growing", begin_ours, end_ours, allocate_ours, free_ours};

#ifdef VMA
static VmaAllocator vma;
static VmaAllocation theirs[KEYS];
static VmaAllocationCreateFlags strategy;

static void VKAPI_CALL tells_properties(VkPhysicalDevice device, VkPhysicalDeviceProperties *properties) {
    (void)device;
    memset(properties, 0, sizeof *properties);
    properties->apiVersion = VK_API_VERSION_1_0;
    properties->limits.bufferImageGranularity = PAGE;
    properties->limits.nonCoherentAtomSize = 64;
    properties->limits.maxMemoryAllocationCount = 4096;
}

static void VKAPI_CALL tells_memory(VkPhysicalDevice device, VkPhysicalDeviceMemoryProperties *properties) {
    (void)device;
    memset(properties, 0, sizeof *properties);
    properties->memoryTypeCount = properties->memoryHeapCount = 1;
    properties->memoryTypes[0].propertyFlags = VK_MEMORY_PROPERTY_DEVICE_LOCAL_BIT;
    properties->memoryHeaps[0].size = UINT64_C(64) << 30;
    properties->memoryHeaps[0].flags = VK_MEMORY_HEAP_DEVICE_LOCAL_BIT;
}

static VkResult VKAPI_CALL grants(VkDevice device, const VkMemoryAllocateInfo *info, const VkAllocationCallbacks *callbacks, VkDeviceMemory *memory) {
    uint64_t *size = malloc(sizeof *size);
    (void)device, (void)callbacks;
    check(size, "malloc");
    *size = info->allocationSize;
    block_comes(*size);
    *memory = (VkDeviceMemory)size;
    return VK_SUCCESS;
}

static void VKAPI_CALL gets_back(VkDevice device, VkDeviceMemory memory, const VkAllocationCallbacks *callbacks) {
    (void)device, (void)callbacks;
    block_goes(*(uint64_t *)memory);
    free((void *)memory);
}

/* Those that VMA wants to be there, and never calls here. */
static void VKAPI_CALL unused(void) {
    check(false, "a call that no trace makes");
}

#define NEVER_CALLED(name) .name = (PFN_##name)(PFN_vkVoidFunction)unused

static void begin_vma(void) {
    const VmaVulkanFunctions functions = {
        .vkGetPhysicalDeviceProperties = tells_properties,
        .vkGetPhysicalDeviceMemoryProperties = tells_memory,
        .vkAllocateMemory = grants,
        .vkFreeMemory = gets_back,
        NEVER_CALLED(vkMapMemory),
        NEVER_CALLED(vkUnmapMemory),
        NEVER_CALLED(vkFlushMappedMemoryRanges),
        NEVER_CALLED(vkInvalidateMappedMemoryRanges),
        NEVER_CALLED(vkBindBufferMemory),
        NEVER_CALLED(vkBindImageMemory),
        NEVER_CALLED(vkGetBufferMemoryRequirements),
        NEVER_CALLED(vkGetImageMemoryRequirements),
        NEVER_CALLED(vkCreateBuffer),
        NEVER_CALLED(vkDestroyBuffer),
        NEVER_CALLED(vkCreateImage),
        NEVER_CALLED(vkDestroyImage),
        NEVER_CALLED(vkCmdCopyBuffer),
    };
    const VmaAllocatorCreateInfo info = {.flags = VMA_ALLOCATOR_CREATE_EXTERNALLY_SYNCHRONIZED_BIT, .physicalDevice = (VkPhysicalDevice)&now,
        .device = (VkDevice)&now, .instance = (VkInstance)&now, .preferredLargeHeapBlockSize = BLOCK, .pVulkanFunctions = &functions,
        .vulkanApiVersion = VK_API_VERSION_1_0};
    check(vmaCreateAllocator(&info, &vma) == VK_SUCCESS, "vmaCreateAllocator");
}

static void end_vma(void) {
    vmaDestroyAllocator(vma);
}

/* VMA knows what bufferImageGranularity separates by the kind of its resource, which bare memory doesn't tell: here nothing is separated. */
static void allocate_vma(unsigned key, uint64_t size, uint64_t alignment, bool is_image) {
    const VkMemoryRequirements requirements = {size, alignment, 1};
    const VmaAllocationCreateInfo info = {.flags = strategy, .memoryTypeBits = 1};
    (void)is_image;
    check(vmaAllocateMemory(vma, &requirements, &info, &theirs[key], NULL) == VK_SUCCESS, "vmaAllocateMemory");
}

static void free_vma(unsigned key) {
    vmaFreeMemory(vma, theirs[key]);
}

static const struct allocator vma_default = {"VMA", begin_vma, end_vma, allocate_vma, free_vma},
                              vma_min_memory = {"VMA, MIN_MEMORY", begin_vma, end_vma, allocate_vma, free_vma};
#endif

/* ---- traces ---- */

static uint64_t state;
static uint64_t below(uint64_t n) { /* xorshift64* */
    state ^= state >> 12, state ^= state << 25, state ^= state >> 27;
    return (state * 0x2545F4914F6CDD1Du >> 11) % n;
}

static const struct allocator *runs;
static uint64_t sizes[KEYS]; /* 0: nothing lives under the key */

static void piece_comes(unsigned key, uint64_t size, uint64_t alignment, bool is_image) {
    runs->allocate(key, size, alignment, is_image);
    sizes[key] = size;
    now.live += size;
    now.operations++;
    if (now.live > now.most_live) now.most_live = now.live;
}

static void piece_goes(unsigned key) {
    if (!sizes[key]) return;
    runs->free(key);
    now.live -= sizes[key];
    now.operations++;
    sizes[key] = 0;
}

/* A buffer: mostly some KB, at times some MB. */
static void buffer_comes(unsigned key) {
    piece_comes(key, (1 + below(64)) << (8 + below(10)), 256, false);
}

/* A square texture of 64 to 4,096 pixels a side, of half a byte to 8 bytes a pixel, with its smaller copies. */
static void texture_comes(unsigned key) {
    const uint64_t side = UINT64_C(64) << below(7), bits = UINT64_C(4) << below(5), bytes = side * side * bits / 8;
    piece_comes(key, (bytes + bytes / 3 + 4 * KB - 1) / (4 * KB) * (4 * KB), bytes < 64 * KB ? 4 * KB : 64 * KB, true);
}

/* 3,000 frames: 60 pieces a frame, each for one to four frames, and a piece in ten that stays for some hundreds. */
static void churn(void) {
    static unsigned until[KEYS];
    unsigned next = 0;
    memset(until, 0, sizeof until);
    for (unsigned frame = 1; frame <= 3000; frame++) {
        for (unsigned key = 0; key < KEYS; key++)
            if (until[key] == frame) piece_goes(key);
        for (unsigned i = 0; i < 60; i++) {
            while (sizes[next]) next = (next + 1) % KEYS;
            if (below(12) == 0) texture_comes(next);
            else buffer_comes(next);
            until[next] = frame + 1 + (unsigned)(below(10) ? below(4) : below(300));
        }
    }
}

/* Textures of at most 2 GB together, 20,000 times one more, for which others go: mostly those that came long ago. */
static void streaming(void) {
    unsigned first = 0, next = 0;
    for (unsigned i = 0; i < 20000; i++) {
        texture_comes(next);
        next = (next + 1) % KEYS;
        while (now.live > 2048 * MB) {
            const unsigned ahead = (next + KEYS - first) % KEYS;
            if (below(4) == 0) piece_goes((first + (unsigned)below(ahead)) % KEYS);
            else piece_goes(first), first = (first + 1) % KEYS;
        }
        if ((next + 1) % KEYS == first) piece_goes(first), first = (first + 1) % KEYS;
    }
}

/* 40 levels of 300 to 900 textures and as many buffers; of each a tenth stays for the next one, which loads before the rest goes. */
static void levels(void) {
    for (unsigned level = 0; level < 40; level++) {
        const unsigned half = level % 2 * (KEYS / 2), other = KEYS / 2 - half, count = 300 + (unsigned)below(600);
        for (unsigned i = 0; i < 2 * count; i++) {
            piece_goes(half + i); /* what stayed for one level */
            if (i % 2) buffer_comes(half + i);
            else texture_comes(half + i);
        }
        for (unsigned i = 0; i < KEYS / 2; i++)
            if (below(10)) piece_goes(other + i);
    }
}

static const struct {
    const char *name;
    void (*trace)(void);
} kinds[] = {{"a frame's churn", churn}, {"streaming", streaming}, {"levels", levels}};

static void measure(const struct allocator *allocator) {
    runs = allocator;
    for (size_t kind = 0; kind < 3; kind++) {
        struct figures all = {0};
        for (unsigned seed = 1; seed <= SEEDS; seed++) {
            memset(&now, 0, sizeof now);
            state = 0x9E3779B97F4A7C15u * seed;
            allocator->begin();
            const double began = processor_seconds();
            kinds[kind].trace();
            all.seconds += processor_seconds() - began;
            for (unsigned key = 0; key < KEYS; key++) piece_goes(key);
            allocator->end();
            all.most_live += now.most_live, all.most_held += now.most_held;
            all.blocks_then += now.blocks_then, all.operations += now.operations;
        }
        printf("%-16s %-16s live %6.0f MB, held %6.0f MB (%.3f), %u blocks, %.0f ns an operation\n", allocator->name, kinds[kind].name,
            (double)all.most_live / (double)MB, (double)all.most_held / (double)MB, (double)all.most_held / (double)all.most_live, all.blocks_then,
            1e9 * all.seconds / (double)all.operations);
    }
}

int main(void) {
    measure(&ours);
    first_block = BLOCK / 8; /* and each one twice the last, up to 256 MB: nearly as VMA's come */
    measure(&ours_growing);
#ifdef VMA
    measure(&vma_default);
    strategy = VMA_ALLOCATION_CREATE_STRATEGY_MIN_MEMORY_BIT;
    measure(&vma_min_memory);
#endif
    free(block_sizes);
    return 0;
}
