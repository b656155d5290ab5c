/* Blocks that empty, by the Vulkan binding: 400 buffers and images are made, two of three go, and those that are left move ahead, at most 16 MB
 * a frame, copied by the GPU, until no move is proposed. Exit 0 where every byte is as it was, blocks went back, nothing is left and the
 * validation layer had nothing to say. */
#define PILHANGKO_VULKAN_LINKED
#include "pilhangko_vulkan.h"
#include "vulkan_device.h"

#define RESOURCES 400
#define FRAME_BYTES (UINT64_C(16) << 20)
#define BLOCK_BYTES (UINT64_C(8) << 20)

struct resource {
    VkBuffer buffer;
    VkImage image;
    VkExtent3D extent; /* of an image */
    VkDeviceSize bytes;
    pilhangko_vulkan_allocation allocation;
};

static struct gpu gpu;
static pilhangko_vulkan vulkan;
static struct resource resources[RESOURCES];
static VkFence fence;

static void check(pilhangko_status status) {
    if (status != PILHANGKO_OK) fail(pilhangko_status_text(status), (long)status);
}

/* The four bytes that a resource is filled with. */
static uint32_t word_of(const struct resource *r) {
    return (uint32_t)(r - resources + 1) * 2654435761u;
}

/* ---- commands ---- */

static void begin_commands(void) {
    const VkCommandBufferBeginInfo begins = {
        .sType = VK_STRUCTURE_TYPE_COMMAND_BUFFER_BEGIN_INFO, .flags = VK_COMMAND_BUFFER_USAGE_ONE_TIME_SUBMIT_BIT};
    VK(vkResetCommandPool(gpu.device, gpu.pool, 0));
    VK(vkBeginCommandBuffer(gpu.commands, &begins));
}

/* Submits what was recorded, and waits for its fence. A renderer would go on, and look at the fence a few frames later. */
static void submit_and_wait(void) {
    const VkSubmitInfo info = {.sType = VK_STRUCTURE_TYPE_SUBMIT_INFO, .commandBufferCount = 1, .pCommandBuffers = &gpu.commands};
    VK(vkEndCommandBuffer(gpu.commands));
    VK(vkQueueSubmit(gpu.queue, 1, &info, fence));
    VK(vkWaitForFences(gpu.device, 1, &fence, VK_TRUE, UINT64_MAX));
    VK(vkResetFences(gpu.device, 1, &fence));
}

/* What is written later waits for what was written before; an image also changes its layout. */
static void wait_for_writes(const struct resource *r, VkImageLayout from, VkImageLayout to, VkAccessFlags access) {
    const VkAccessFlags wrote = VK_ACCESS_TRANSFER_WRITE_BIT;
    const VkMemoryBarrier all = {.sType = VK_STRUCTURE_TYPE_MEMORY_BARRIER, .srcAccessMask = wrote, .dstAccessMask = access};
    const VkImageMemoryBarrier layout = {.sType = VK_STRUCTURE_TYPE_IMAGE_MEMORY_BARRIER, .srcAccessMask = wrote, .dstAccessMask = access,
        .oldLayout = from, .newLayout = to, .image = r->image, .subresourceRange = {VK_IMAGE_ASPECT_COLOR_BIT, 0, 1, 0, 1}};
    vkCmdPipelineBarrier(gpu.commands, VK_PIPELINE_STAGE_TRANSFER_BIT, VK_PIPELINE_STAGE_TRANSFER_BIT, 0, 1, &all, 0, NULL,
        r->image != VK_NULL_HANDLE, &layout);
}

/* From here on a resource is read by copies. */
static void begin_reads(const struct resource *r) {
    wait_for_writes(r, VK_IMAGE_LAYOUT_TRANSFER_DST_OPTIMAL, VK_IMAGE_LAYOUT_TRANSFER_SRC_OPTIMAL, VK_ACCESS_TRANSFER_READ_BIT);
}

static void begin_writes(const struct resource *r) {
    wait_for_writes(r, VK_IMAGE_LAYOUT_UNDEFINED, VK_IMAGE_LAYOUT_TRANSFER_DST_OPTIMAL, VK_ACCESS_TRANSFER_WRITE_BIT);
}

/* ---- resources ---- */

static VkBufferCreateInfo buffer_info(const struct resource *r) {
    const VkBufferCreateInfo info = {.sType = VK_STRUCTURE_TYPE_BUFFER_CREATE_INFO, .size = r->bytes,
        .usage = VK_BUFFER_USAGE_TRANSFER_SRC_BIT | VK_BUFFER_USAGE_TRANSFER_DST_BIT};
    return info;
}

static VkImageCreateInfo image_info(const struct resource *r) {
    const VkImageCreateInfo info = {.sType = VK_STRUCTURE_TYPE_IMAGE_CREATE_INFO, .imageType = VK_IMAGE_TYPE_2D,
        .format = VK_FORMAT_R32_UINT, .extent = r->extent, .mipLevels = 1, .arrayLayers = 1, .samples = VK_SAMPLE_COUNT_1_BIT,
        .usage = VK_IMAGE_USAGE_TRANSFER_SRC_BIT | VK_IMAGE_USAGE_TRANSFER_DST_BIT};
    return info;
}

/* A third are images. Sizes are odd, and the same on each run. */
static void make(unsigned i) {
    const pilhangko_vulkan_placement placement = {.location = PILHANGKO_LOCATION_GPU_ONLY, .name = i % 3 == 0 ? "texture" : "vertices"};
    struct resource *r = &resources[i];
    if (i % 3 == 0) {
        const VkExtent3D extent = {64 + i * 7 % 256, 64 + i * 11 % 256, 1};
        r->extent = extent;
        r->bytes = UINT64_C(4) * extent.width * extent.height;
        const VkImageCreateInfo info = image_info(r);
        check(pilhangko_vulkan_create_image(&vulkan, &info, &placement, &r->image, &r->allocation).status);
    } else {
        r->bytes = 4 * (1 + i * 7919 % 131072);
        const VkBufferCreateInfo info = buffer_info(r);
        check(pilhangko_vulkan_create_buffer(&vulkan, &info, &placement, &r->buffer, &r->allocation).status);
    }
}

static void fill(const struct resource *r) {
    const VkClearColorValue color = {.uint32 = {word_of(r)}};
    const VkImageSubresourceRange whole = {VK_IMAGE_ASPECT_COLOR_BIT, 0, 1, 0, 1};
    begin_writes(r);
    if (r->buffer) vkCmdFillBuffer(gpu.commands, r->buffer, 0, VK_WHOLE_SIZE, word_of(r));
    else vkCmdClearColorImage(gpu.commands, r->image, VK_IMAGE_LAYOUT_TRANSFER_DST_OPTIMAL, &color, 1, &whole);
    begin_reads(r);
}

static void destroy(const struct resource *r) {
    if (r->buffer) vkDestroyBuffer(gpu.device, r->buffer, NULL);
    else vkDestroyImage(gpu.device, r->image, NULL);
}

static void drop(const struct resource *r) {
    destroy(r);
    check(pilhangko_vulkan_free(&vulkan, &r->allocation));
}

static bool is_made(const struct resource *r) {
    return r->buffer != VK_NULL_HANDLE || r->image != VK_NULL_HANDLE;
}

/* ---- moves ---- */

/* The request that a resource's memory was allocated by. */
static pilhangko_vulkan_request request_of(const struct resource *r) {
    pilhangko_vulkan_request request;
    memset(&request, 0, sizeof request);
    if (r->buffer) vkGetBufferMemoryRequirements(gpu.device, r->buffer, &request.requirements);
    else vkGetImageMemoryRequirements(gpu.device, r->image, &request.requirements);
    request.location = PILHANGKO_LOCATION_GPU_ONLY;
    request.kind = r->buffer ? PILHANGKO_KIND_LINEAR : PILHANGKO_KIND_NON_LINEAR;
    request.scheme = PILHANGKO_SCHEME_MANAGED;
    request.name = r->buffer ? "vertices" : "texture";
    return request;
}

/* Makes a resource anew at its second place, and records the copy. */
static struct resource copied_to(const struct resource *from, const pilhangko_vulkan_allocation *place) {
    const VkImageLayout read = VK_IMAGE_LAYOUT_TRANSFER_SRC_OPTIMAL, written = VK_IMAGE_LAYOUT_TRANSFER_DST_OPTIMAL;
    const VkBufferCopy bytes = {0, 0, from->bytes};
    const VkImageSubresourceLayers all = {VK_IMAGE_ASPECT_COLOR_BIT, 0, 0, 1};
    const VkImageCopy texels = {.srcSubresource = all, .dstSubresource = all, .extent = from->extent};
    struct resource to = {.extent = from->extent, .bytes = from->bytes, .allocation = *place};
    if (from->buffer) {
        const VkBufferCreateInfo info = buffer_info(from);
        check(pilhangko_vulkan_create_aliasing_buffer(&vulkan, place, 0, &info, &to.buffer).status);
        begin_writes(&to);
        vkCmdCopyBuffer(gpu.commands, from->buffer, to.buffer, 1, &bytes);
    } else {
        const VkImageCreateInfo info = image_info(from);
        check(pilhangko_vulkan_create_aliasing_image(&vulkan, place, 0, &info, &to.image).status);
        begin_writes(&to);
        vkCmdCopyImage(gpu.commands, from->image, read, to.image, written, 1, &texels);
    }
    begin_reads(&to);
    return to;
}

/* One frame: what may move, the second places, the copies; and once the GPU has made these, what was moved is destroyed at its first place, which
 * finishes the move. */
static void move_for_a_frame(pilhangko_vulkan_defragmentation *it) {
    static pilhangko_vulkan_movable movables[RESOURCES];
    static pilhangko_vulkan_move moves[RESOURCES];
    static struct resource *owners[RESOURCES], copies[RESOURCES];
    size_t count = 0, proposed;
    for (unsigned i = 0; i < RESOURCES; i++) {
        if (!is_made(&resources[i])) continue;
        owners[count] = &resources[i];
        movables[count].allocation = resources[i].allocation;
        movables[count++].request = request_of(&resources[i]);
    }
    check(pilhangko_vulkan_defragmentation_propose(&vulkan, it, movables, count, FRAME_BYTES, moves, RESOURCES, &proposed));
    begin_commands();
    for (size_t i = 0; i < proposed; i++) copies[i] = copied_to(owners[moves[i].index], &moves[i].to);
    submit_and_wait();
    for (size_t i = 0; i < proposed; i++) {
        destroy(owners[moves[i].index]);
        *owners[moves[i].index] = copies[i];
        check(pilhangko_vulkan_defragmentation_finish(&vulkan, it, &moves[i].to));
    }
}

/* ---- reading back ---- */

/* Whether each word of a resource is its own. */
static void compare(const struct resource *r) {
    const pilhangko_vulkan_placement placement = {.location = PILHANGKO_LOCATION_GPU_TO_CPU, .name = "readback"};
    const VkBufferCreateInfo info = buffer_info(r);
    const VkBufferImageCopy texels = {.imageSubresource = {VK_IMAGE_ASPECT_COLOR_BIT, 0, 0, 1}, .imageExtent = r->extent};
    const VkBufferCopy bytes = {0, 0, r->bytes};
    struct resource readback = {.bytes = r->bytes};
    check(pilhangko_vulkan_create_buffer(&vulkan, &info, &placement, &readback.buffer, &readback.allocation).status);
    begin_commands();
    if (r->buffer) vkCmdCopyBuffer(gpu.commands, r->buffer, readback.buffer, 1, &bytes);
    else vkCmdCopyImageToBuffer(gpu.commands, r->image, VK_IMAGE_LAYOUT_TRANSFER_SRC_OPTIMAL, readback.buffer, 1, &texels);
    const VkMemoryBarrier to_host = {.sType = VK_STRUCTURE_TYPE_MEMORY_BARRIER, .srcAccessMask = VK_ACCESS_TRANSFER_WRITE_BIT,
        .dstAccessMask = VK_ACCESS_HOST_READ_BIT};
    vkCmdPipelineBarrier(
        gpu.commands, VK_PIPELINE_STAGE_TRANSFER_BIT, VK_PIPELINE_STAGE_HOST_BIT, 0, 1, &to_host, 0, NULL, 0, NULL);
    submit_and_wait();
    check(pilhangko_vulkan_invalidate(&vulkan, &readback.allocation, 0, VK_WHOLE_SIZE).status);
    const uint32_t *words = (const uint32_t *)pilhangko_vulkan_mapped(&vulkan, &readback.allocation);
    for (VkDeviceSize k = 0; k < r->bytes / 4; k++)
        if (words[k] != word_of(r)) fail("other bytes came back", (long)(r - resources));
    drop(&readback);
}

static unsigned long long megabytes_held(void) {
    VkDeviceSize bytes;
    check(pilhangko_vulkan_capacity(&vulkan, &bytes));
    return (unsigned long long)(bytes >> 20);
}

/* Moves until no move is proposed; says what came of it. */
static void move_all(void) {
    pilhangko_vulkan_defragmentation it = {0};
    while (!it.done) move_for_a_frame(&it);
    printf("%llu moves of %llu MB, %llu blocks of %llu MB given back\n", (unsigned long long)it.moves_finished,
        (unsigned long long)(it.bytes_moved >> 20), (unsigned long long)it.blocks_given_back, (unsigned long long)(it.bytes_given_back >> 20));
}

int main(void) {
    pilhangko_vulkan_functions functions;
    pilhangko_vulkan_ending ending;
    const VkFenceCreateInfo fences = {.sType = VK_STRUCTURE_TYPE_FENCE_CREATE_INFO};
    make_gpu(&gpu);
    VK(vkCreateFence(gpu.device, &fences, NULL, &fence));
    check(pilhangko_vulkan_load_linked(&functions, gpu.instance, gpu.device, VULKAN_VERSION));
    const pilhangko_vulkan_settings settings = {.physical_device = gpu.physical_device, .device = gpu.device, .functions = &functions,
        .api_version = VULKAN_VERSION, .device_block_size = BLOCK_BYTES, .largest_device_block_size = BLOCK_BYTES,
        .host_block_size = BLOCK_BYTES, .largest_host_block_size = BLOCK_BYTES};
    check(pilhangko_vulkan_create(&vulkan, &settings));
    for (unsigned i = 0; i < RESOURCES; i++) make(i), fill(&resources[i]);
    submit_and_wait();
    for (unsigned i = 0; i < RESOURCES; i++) {
        if (i % 3 == 1) continue;
        drop(&resources[i]);
        memset(&resources[i], 0, sizeof resources[i]);
    }
    for (unsigned i = 0; i < RESOURCES; i += 9) make(i), begin_commands(), fill(&resources[i]), submit_and_wait();
    const unsigned long long before = megabytes_held();
    move_all();
    const unsigned long long after = megabytes_held();
    printf("%llu MB held before, %llu MB behind\n", before, after);
    for (unsigned i = 0; i < RESOURCES; i++)
        if (is_made(&resources[i])) compare(&resources[i]), drop(&resources[i]);
    check(pilhangko_vulkan_destroy(&vulkan, &ending));
    vkDestroyFence(gpu.device, fence, NULL);
    end_gpu(&gpu);
    printf("%llu allocations left, %u validation messages\n", (unsigned long long)ending.leaks, gpu.messages);
    return ending.leaks || gpu.messages || after >= before;
}
