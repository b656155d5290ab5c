/* What moves give back: of 2,000 pieces in blocks of 16 MB two of three are freed, in random order, and those that are left move, at most 16 MB
 * a round, until none is proposed. Prints the blocks before and behind, what was moved, and the processor time a move, with the free that ends
 * it; no byte is copied. Over the first Vulkan device.
 *     cc -O2 -Iinclude -Iexamples -o measure_moves tools/measure_moves.c c/pilhangko_vulkan*.c c/pilhangko_heap.c \
 *         crates/gpu_c/out/libgpu_c.a -lvulkan && ./measure_moves
 * With -DVMA, VMA's header and its implementation (an object file) the same pieces are moved by its balanced algorithm. */
#define _POSIX_C_SOURCE 200809L
#define PILHANGKO_VULKAN_LINKED
#include "pilhangko_vulkan.h"
#include "vulkan_device.h"
#include <time.h>
#ifdef VMA
#include "vk_mem_alloc.h"
#endif

#define PIECES 2000
#define BLOCK (UINT64_C(16) << 20)
#define ROUND (UINT64_C(16) << 20)

struct figures {
    VkDeviceSize before, behind, moved;
    unsigned moves, rounds;
    double seconds;
};

static struct gpu gpu;

static uint64_t state;
static uint64_t below(uint64_t n) { /* xorshift64* */
    state ^= state >> 12, state ^= state << 25, state ^= state >> 27;
    return (state * 0x2545F4914F6CDD1Du >> 11) % n;
}

static void check(pilhangko_status status) {
    if (status != PILHANGKO_OK) fail(pilhangko_status_text(status), (long)status);
}

static double processor_seconds(void) {
    struct timespec now;
    if (clock_gettime(CLOCK_THREAD_CPUTIME_ID, &now)) fail("clock_gettime", 0);
    return (double)now.tv_sec + 1e-9 * (double)now.tv_nsec;
}

/* A buffer of up to 512 KB or, one of three, an image of up to 256 KB and more. */
static VkMemoryRequirements piece(unsigned i) {
    const VkDeviceSize image = 4 * (64 + i * 7 % 256) * (64 + i * 11 % 256), buffer = 4 * (1 + i * 7919 % 131072);
    const VkMemoryRequirements requirements = {i % 3 == 0 ? image : buffer, 256, 1};
    return requirements;
}

/* Which pieces go, in which order: two of three. */
static unsigned shuffled(unsigned *order) {
    state = 0x9E3779B97F4A7C15u;
    for (unsigned i = 0; i < PIECES; i++) order[i] = i;
    for (unsigned i = PIECES - 1; i > 0; i--) {
        const unsigned j = (unsigned)below(i + 1), was = order[i];
        order[i] = order[j], order[j] = was;
    }
    return PIECES / 3 * 2;
}

/* ---- ours ---- */

static pilhangko_vulkan vulkan;
static pilhangko_vulkan_movable live[PIECES];

static VkDeviceSize held(void) {
    VkDeviceSize bytes;
    check(pilhangko_vulkan_capacity(&vulkan, &bytes));
    return bytes;
}

static void make(unsigned i) {
    live[i].request.requirements = piece(i);
    live[i].request.location = PILHANGKO_LOCATION_UNKNOWN;
    live[i].request.kind = i % 3 == 0 ? PILHANGKO_KIND_NON_LINEAR : PILHANGKO_KIND_LINEAR;
    live[i].request.scheme = PILHANGKO_SCHEME_MANAGED;
    live[i].request.name = "piece";
    check(pilhangko_vulkan_allocate(&vulkan, &live[i].request, &live[i].allocation).status);
}

/* One round: the proposals, and the frees that end them. */
static size_t move_some(size_t count, struct figures *told) {
    static pilhangko_vulkan_move moves[PIECES];
    size_t proposed;
    check(pilhangko_vulkan_propose_moves(&vulkan, live, count, ROUND, moves, PIECES, &proposed));
    for (size_t i = 0; i < proposed; i++) {
        pilhangko_vulkan_allocation *const from = &live[moves[i].index].allocation;
        check(pilhangko_vulkan_free(&vulkan, from));
        *from = moves[i].to;
        told->moved += moves[i].to.size;
    }
    return proposed;
}

static void ours(struct figures *told) {
    unsigned order[PIECES];
    const unsigned dead = shuffled(order);
    size_t count = PIECES, proposed;
    for (unsigned i = 0; i < PIECES; i++) make(i);
    for (unsigned i = 0; i < dead; i++) {
        check(pilhangko_vulkan_free(&vulkan, &live[order[i]].allocation));
        live[order[i]].request.name = NULL;
    }
    for (size_t i = 0; i < count; i++)
        while (i < count && !live[i].request.name) live[i] = live[--count];
    told->before = held();
    const double begin = processor_seconds();
    while ((proposed = move_some(count, told)) > 0) told->moves += (unsigned)proposed, told->rounds++;
    told->seconds = processor_seconds() - begin;
    told->behind = held();
    for (size_t i = 0; i < count; i++) check(pilhangko_vulkan_free(&vulkan, &live[i].allocation));
}

static struct figures run_ours(void) {
    struct figures told;
    pilhangko_vulkan_functions functions;
    pilhangko_vulkan_ending ending;
    memset(&told, 0, sizeof told);
    check(pilhangko_vulkan_load_linked(&functions, gpu.instance, gpu.device, VULKAN_VERSION));
    const pilhangko_vulkan_settings settings = {.physical_device = gpu.physical_device, .device = gpu.device, .functions = &functions,
        .api_version = VULKAN_VERSION, .device_block_size = BLOCK, .largest_device_block_size = BLOCK, .host_block_size = BLOCK,
        .largest_host_block_size = BLOCK};
    check(pilhangko_vulkan_create(&vulkan, &settings));
    ours(&told);
    check(pilhangko_vulkan_destroy(&vulkan, &ending));
    return told;
}

/* ---- VMA's ---- */

#ifdef VMA
static VmaAllocator vma;
static VmaAllocation theirs[PIECES];

static VkDeviceSize vma_held(void) {
    VmaTotalStatistics all;
    vmaCalculateStatistics(vma, &all);
    return all.total.statistics.blockBytes;
}

static void vma_moves(struct figures *told) {
    const VmaDefragmentationInfo info = {.flags = VMA_DEFRAGMENTATION_FLAG_ALGORITHM_BALANCED_BIT, .maxBytesPerPass = ROUND};
    VmaDefragmentationContext context;
    VmaDefragmentationStats stats;
    VkResult result;
    VK(vmaBeginDefragmentation(vma, &info, &context));
    do {
        VmaDefragmentationPassMoveInfo pass;
        result = vmaBeginDefragmentationPass(vma, context, &pass);
        if (result == VK_INCOMPLETE) result = vmaEndDefragmentationPass(vma, context, &pass), told->rounds++;
    } while (result == VK_INCOMPLETE);
    vmaEndDefragmentation(vma, context, &stats);
    told->moves = stats.allocationsMoved;
    told->moved = stats.bytesMoved;
}

static struct figures run_vma(void) {
    unsigned order[PIECES];
    struct figures told;
    const unsigned dead = shuffled(order);
    const VmaAllocatorCreateInfo info = {.physicalDevice = gpu.physical_device, .device = gpu.device, .preferredLargeHeapBlockSize = BLOCK,
        .instance = gpu.instance, .vulkanApiVersion = VULKAN_VERSION};
    const VmaAllocationCreateInfo asks = {.usage = VMA_MEMORY_USAGE_UNKNOWN};
    memset(&told, 0, sizeof told);
    VK(vmaCreateAllocator(&info, &vma));
    for (unsigned i = 0; i < PIECES; i++) {
        const VkMemoryRequirements requirements = piece(i);
        VK(vmaAllocateMemory(vma, &requirements, &asks, &theirs[i], NULL));
    }
    for (unsigned i = 0; i < dead; i++) vmaFreeMemory(vma, theirs[order[i]]);
    told.before = vma_held();
    const double begin = processor_seconds();
    vma_moves(&told);
    told.seconds = processor_seconds() - begin;
    told.behind = vma_held();
    for (unsigned i = dead; i < PIECES; i++) vmaFreeMemory(vma, theirs[order[i]]);
    vmaDestroyAllocator(vma);
    return told;
}
#endif

static void tell(const char *who, struct figures it) {
    printf("%s: %llu MB held before, %llu MB behind; %u moves of %llu MB in %u rounds, %.0f ns a move\n", who,
        (unsigned long long)(it.before >> 20), (unsigned long long)(it.behind >> 20), it.moves, (unsigned long long)(it.moved >> 20), it.rounds,
        it.seconds * 1e9 / (it.moves ? it.moves : 1));
}

int main(void) {
    make_gpu(&gpu);
    for (unsigned turn = 0; turn < 5; turn++) {
        tell("ours", run_ours());
#ifdef VMA
        tell("vma", run_vma());
#endif
    }
    end_gpu(&gpu);
    return 0;
}
