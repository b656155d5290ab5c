/* A ring of the Vulkan binding, in a pool of small blocks: 300 frames, three in flight, each with uploads of other sizes, which the device copies
 * while the host writes the next frames'. What it copied is read back when the frame's fence is signaled, and only then is the frame retired.
 * In C11 and in C++20. */
#define PILHANGKO_VULKAN_LINKED
#include "pilhangko_vulkan.h"
#include "vulkan_device.h"

#define FRAMES 300
#define IN_FLIGHT 3
#define UPLOADS 20       /* of a frame, at most */
#define UPLOAD_BYTES 500 /* of an upload, at most */
#define ALIGNMENT 16
#define UPLOAD_COST (UPLOAD_BYTES + ALIGNMENT - 1) /* with what its alignment may skip */
#define FRAME_COST (UPLOADS * UPLOAD_COST)
#define RING_BYTES ((IN_FLIGHT + 1) * FRAME_COST + UPLOAD_COST - 1) /* so large, it never refuses */
#define PART_BYTES (UPLOADS * UPLOAD_BYTES)                         /* of the buffer that is read back */

struct frame {
    VkCommandBuffer commands;
    VkFence fence;
    uint64_t number;
    VkDeviceSize copied; /* bytes, to the frame's part of the buffer that is read back */
    uint32_t seed;
};

struct uploads {
    struct gpu gpu;
    VkCommandPool pool; /* whose command buffers are recorded anew each time */
    pilhangko_vulkan vulkan, staging; /* the second is a pool of the first, which the ring lies in */
    pilhangko_vulkan_ring ring;
    VkBuffer back; /* what the device copied, a part for each frame in flight */
    pilhangko_vulkan_allocation back_memory;
    struct frame frames[IN_FLIGHT];
    unsigned long pieces, bytes;
};

static void check(pilhangko_status status) {
    if (status != PILHANGKO_OK) fail(pilhangko_status_text(status), (long)status);
}

static uint32_t next(uint32_t *seed) {
    *seed = *seed * 1664525 + 1013904223;
    return *seed >> 16;
}

static void make_rings(struct uploads *u) {
    pilhangko_vulkan_functions functions;
    check(pilhangko_vulkan_load_linked(&functions, u->gpu.instance, u->gpu.device, VULKAN_VERSION));
    const pilhangko_vulkan_settings settings = {
        .physical_device = u->gpu.physical_device, .device = u->gpu.device, .functions = &functions, .api_version = VULKAN_VERSION};
    check(pilhangko_vulkan_create(&u->vulkan, &settings));
    const pilhangko_vulkan_pool_settings small = {.device_block_size = 4 << 20, .host_block_size = 4 << 20};
    check(pilhangko_vulkan_create_pool(&u->vulkan, &small, &u->staging));
    const pilhangko_vulkan_ring_settings ring = {.size = RING_BYTES,
        .frames = IN_FLIGHT,
        .usage = VK_BUFFER_USAGE_TRANSFER_SRC_BIT,
        .placement = {.location = PILHANGKO_VULKAN_LOCATION_STAGING, .name = "uploads"}};
    check(pilhangko_vulkan_ring_create(&u->staging, &ring, &u->ring).status);
    const VkBufferCreateInfo info = {
        .sType = VK_STRUCTURE_TYPE_BUFFER_CREATE_INFO, .size = IN_FLIGHT * PART_BYTES, .usage = VK_BUFFER_USAGE_TRANSFER_DST_BIT};
    const pilhangko_vulkan_placement placement = {.location = PILHANGKO_LOCATION_GPU_TO_CPU, .name = "back"};
    check(pilhangko_vulkan_create_buffer(&u->vulkan, &info, &placement, &u->back, &u->back_memory).status);
}

static void make_frames(struct uploads *u) {
    const VkCommandPoolCreateInfo pool = {
        .sType = VK_STRUCTURE_TYPE_COMMAND_POOL_CREATE_INFO, .flags = VK_COMMAND_POOL_CREATE_RESET_COMMAND_BUFFER_BIT};
    VK(vkCreateCommandPool(u->gpu.device, &pool, NULL, &u->pool));
    for (unsigned i = 0; i < IN_FLIGHT; i++) {
        const VkCommandBufferAllocateInfo info = {
            .sType = VK_STRUCTURE_TYPE_COMMAND_BUFFER_ALLOCATE_INFO, .commandPool = u->pool, .commandBufferCount = 1};
        const VkFenceCreateInfo fence = {.sType = VK_STRUCTURE_TYPE_FENCE_CREATE_INFO};
        VK(vkAllocateCommandBuffers(u->gpu.device, &info, &u->frames[i].commands));
        VK(vkCreateFence(u->gpu.device, &fence, NULL, &u->frames[i].fence));
    }
}

/* One upload: its bytes, and their copy behind those of the frame's other uploads. */
static void upload(struct uploads *u, struct frame *frame, VkDeviceSize part, uint32_t *seed) {
    const uint32_t size = 1 + next(seed) % UPLOAD_BYTES;
    pilhangko_vulkan_ring_piece piece;
    check(pilhangko_vulkan_ring_allocate(&u->ring, size, ALIGNMENT, &piece));
    for (uint32_t i = 0; i < size; i++) ((unsigned char *)piece.mapped)[i] = (unsigned char)next(seed);
    const VkBufferCopy copy = {piece.offset, part + frame->copied, size};
    vkCmdCopyBuffer(frame->commands, u->ring.buffer, u->back, 1, &copy);
    frame->copied += size;
    u->pieces++;
    u->bytes += size;
}

/* The device's copies are visible to the host once the fence is signaled. */
static void show_to_host(VkCommandBuffer commands) {
    const VkMemoryBarrier barrier = {
        .sType = VK_STRUCTURE_TYPE_MEMORY_BARRIER, .srcAccessMask = VK_ACCESS_TRANSFER_WRITE_BIT, .dstAccessMask = VK_ACCESS_HOST_READ_BIT};
    vkCmdPipelineBarrier(commands, VK_PIPELINE_STAGE_TRANSFER_BIT, VK_PIPELINE_STAGE_HOST_BIT, 0, 1, &barrier, 0, NULL, 0, NULL);
}

static void submit(struct uploads *u, unsigned index, uint32_t seed) {
    struct frame *frame = &u->frames[index];
    const VkCommandBufferBeginInfo begins = {
        .sType = VK_STRUCTURE_TYPE_COMMAND_BUFFER_BEGIN_INFO, .flags = VK_COMMAND_BUFFER_USAGE_ONE_TIME_SUBMIT_BIT};
    const VkSubmitInfo info = {.sType = VK_STRUCTURE_TYPE_SUBMIT_INFO, .commandBufferCount = 1, .pCommandBuffers = &frame->commands};
    VK(vkBeginCommandBuffer(frame->commands, &begins));
    frame->seed = seed;
    frame->copied = 0;
    for (uint32_t count = 1 + next(&seed) % UPLOADS; count > 0; count--) upload(u, frame, index * PART_BYTES, &seed);
    show_to_host(frame->commands);
    check(pilhangko_vulkan_ring_flush(&u->staging, &u->ring).status);
    check(pilhangko_vulkan_ring_end_frame(&u->ring, &frame->number));
    VK(vkEndCommandBuffer(frame->commands));
    VK(vkQueueSubmit(u->gpu.queue, 1, &info, frame->fence));
}

/* Waits for a frame, looks at what the device copied, and retires it. */
static void finish(struct uploads *u, unsigned index) {
    struct frame *frame = &u->frames[index];
    const VkDeviceSize part = index * PART_BYTES;
    VK(vkWaitForFences(u->gpu.device, 1, &frame->fence, VK_TRUE, UINT64_MAX));
    VK(vkResetFences(u->gpu.device, 1, &frame->fence));
    check(pilhangko_vulkan_invalidate(&u->vulkan, &u->back_memory, part, frame->copied).status);
    const unsigned char *byte = (const unsigned char *)pilhangko_vulkan_mapped(&u->vulkan, &u->back_memory) + part;
    uint32_t seed = frame->seed;
    for (uint32_t count = 1 + next(&seed) % UPLOADS; count > 0; count--)
        for (uint32_t size = 1 + next(&seed) % UPLOAD_BYTES; size > 0; size--)
            if (*byte++ != (unsigned char)next(&seed)) fail("a byte that was copied isn't the one that was uploaded", (long)frame->number);
    check(pilhangko_vulkan_ring_retire(&u->ring, frame->number));
}

static void end(struct uploads *u) {
    for (unsigned i = 0; i < IN_FLIGHT; i++) vkDestroyFence(u->gpu.device, u->frames[i].fence, NULL);
    vkDestroyCommandPool(u->gpu.device, u->pool, NULL);
    check(pilhangko_vulkan_destroy_buffer(&u->vulkan, u->back, &u->back_memory));
    check(pilhangko_vulkan_ring_destroy(&u->staging, &u->ring));
    check(pilhangko_vulkan_destroy(&u->staging, NULL)); /* before its parent */
    check(pilhangko_vulkan_destroy(&u->vulkan, NULL));
    end_gpu(&u->gpu);
}

int main(void) {
    static struct uploads u;
    make_gpu(&u.gpu);
    make_rings(&u);
    make_frames(&u);
    for (unsigned i = 0; i < FRAMES; i++) {
        if (i >= IN_FLIGHT) finish(&u, i % IN_FLIGHT);
        submit(&u, i % IN_FLIGHT, i);
    }
    for (unsigned i = FRAMES; i < FRAMES + IN_FLIGHT; i++) finish(&u, i % IN_FLIGHT);
    end(&u);
    printf("%d frames, %d in flight: %lu uploads of %lu bytes through a ring of %d, and read back; %u validation messages\n", FRAMES,
        IN_FLIGHT, u.pieces, u.bytes, RING_BYTES, u.gpu.messages);
    return u.gpu.messages != 0;
}
