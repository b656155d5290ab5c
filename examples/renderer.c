/* 1,000 buffers and images of a GPU, filled through an upload buffer and read back through another one, by the Vulkan binding. Exit 0 where
 * every byte came back, nothing is left and the validation layer had nothing to say. `renderer CAPTURE REPLIES` leaves a capture, and what
 * gpu_trace replies to it. */
#define PILHANGKO_VULKAN_LINKED
#include "pilhangko_vulkan.h"
#include "capture_files.h"
#include "vulkan_device.h"

#define RESOURCES 1000

struct resource {
    VkBuffer buffer;
    VkImage image;
    VkExtent3D extent;
    VkDeviceSize bytes, at; /* how many, and where they are in the upload buffer */
    pilhangko_vulkan_allocation allocation;
};

static struct gpu gpu;
static pilhangko_vulkan vulkan;
static struct resource resources[RESOURCES], upload, readback;

static void check(pilhangko_status status) {
    if (status != PILHANGKO_OK) fail(pilhangko_status_text(status), (long)status);
}

static void make_buffer(struct resource *r, VkDeviceSize bytes, const pilhangko_vulkan_placement *placement) {
    const VkBufferCreateInfo info = {.sType = VK_STRUCTURE_TYPE_BUFFER_CREATE_INFO, .size = r->bytes = bytes,
        .usage = VK_BUFFER_USAGE_TRANSFER_SRC_BIT | VK_BUFFER_USAGE_TRANSFER_DST_BIT};
    check(pilhangko_vulkan_create_buffer(&vulkan, &info, placement, &r->buffer, &r->allocation).status);
    reply_place(&r->allocation);
}

static void make_image(struct resource *r, uint32_t width, uint32_t height, const pilhangko_vulkan_placement *placement) {
    const VkImageCreateInfo info = {.sType = VK_STRUCTURE_TYPE_IMAGE_CREATE_INFO, .imageType = VK_IMAGE_TYPE_2D,
        .format = VK_FORMAT_R8G8B8A8_UNORM, .extent = {width, height, 1}, .mipLevels = 1, .arrayLayers = 1,
        .samples = VK_SAMPLE_COUNT_1_BIT, .usage = VK_IMAGE_USAGE_TRANSFER_SRC_BIT | VK_IMAGE_USAGE_TRANSFER_DST_BIT};
    check(pilhangko_vulkan_create_image(&vulkan, &info, placement, &r->image, &r->allocation).status);
    reply_place(&r->allocation);
    r->extent = info.extent;
    r->bytes = UINT64_C(4) * width * height;
}

/* A third are images; some have memory of their own, some by flags in place of a location, some with a chain for the driver. Sizes are odd, and
 * the same on each run. */
static void make(unsigned i) {
    /* a device with VK_KHR_external_memory_fd would name its handle types here */
    static const VkExportMemoryAllocateInfo exported = {.sType = VK_STRUCTURE_TYPE_EXPORT_MEMORY_ALLOCATE_INFO};
    static const pilhangko_vulkan_placement texture = {.location = PILHANGKO_LOCATION_GPU_ONLY, .name = "texture"},
        shared = {.location = PILHANGKO_LOCATION_GPU_ONLY, .name = "shared texture", .next = &exported},
        vertices = {.location = PILHANGKO_LOCATION_GPU_ONLY, .name = "vertices", .minimal_alignment = 256},
        own = {.location = PILHANGKO_LOCATION_GPU_ONLY, .dedicated = true, .name = "own vertices"},
        unseen = {.name = "unseen vertices", .required_flags = VK_MEMORY_PROPERTY_DEVICE_LOCAL_BIT,
            .avoided_flags = VK_MEMORY_PROPERTY_HOST_VISIBLE_BIT};
    if (i % 3 == 0) make_image(&resources[i], 1 + i * 7 % 61, 1 + i * 11 % 67, i % 60 ? &texture : &shared);
    else make_buffer(&resources[i], 4 * (1 + i * 7919 % 16384), i % 50 == 1 ? &own : i % 5 ? &vertices : &unseen);
}

static void drop(struct resource *r) {
    if (r->buffer) check(pilhangko_vulkan_destroy_buffer(&vulkan, r->buffer, &r->allocation));
    else check(pilhangko_vulkan_destroy_image(&vulkan, r->image, &r->allocation));
    memset(r, 0, sizeof *r);
    reply("ok");
}

/* Waits for the copies before; an image also changes its layout. */
static void wait_for_copies(VkImage image, VkImageLayout from, VkImageLayout to, VkPipelineStageFlags stage, VkAccessFlags access) {
    const VkAccessFlags wrote = VK_ACCESS_TRANSFER_WRITE_BIT;
    const VkMemoryBarrier all = {.sType = VK_STRUCTURE_TYPE_MEMORY_BARRIER, .srcAccessMask = wrote, .dstAccessMask = access};
    const VkImageMemoryBarrier layout = {.sType = VK_STRUCTURE_TYPE_IMAGE_MEMORY_BARRIER, .srcAccessMask = wrote, .dstAccessMask = access,
        .oldLayout = from, .newLayout = to, .image = image, .subresourceRange = {VK_IMAGE_ASPECT_COLOR_BIT, 0, 1, 0, 1}};
    vkCmdPipelineBarrier(gpu.commands, VK_PIPELINE_STAGE_TRANSFER_BIT, stage, 0, 1, &all, 0, NULL, image != VK_NULL_HANDLE, &layout);
}

static void copy_there_and_back(const struct resource *r) {
    const VkImageLayout to = VK_IMAGE_LAYOUT_TRANSFER_DST_OPTIMAL, from = VK_IMAGE_LAYOUT_TRANSFER_SRC_OPTIMAL;
    const VkBufferCopy up = {r->at, 0, r->bytes}, down = {0, r->at, r->bytes};
    const VkBufferImageCopy texels = {
        .bufferOffset = r->at, .imageSubresource = {VK_IMAGE_ASPECT_COLOR_BIT, 0, 0, 1}, .imageExtent = r->extent};
    wait_for_copies(r->image, VK_IMAGE_LAYOUT_UNDEFINED, to, VK_PIPELINE_STAGE_TRANSFER_BIT, VK_ACCESS_TRANSFER_WRITE_BIT);
    if (r->buffer) vkCmdCopyBuffer(gpu.commands, upload.buffer, r->buffer, 1, &up);
    else vkCmdCopyBufferToImage(gpu.commands, upload.buffer, r->image, to, 1, &texels);
    wait_for_copies(r->image, to, from, VK_PIPELINE_STAGE_TRANSFER_BIT, VK_ACCESS_TRANSFER_READ_BIT);
    if (r->buffer) vkCmdCopyBuffer(gpu.commands, r->buffer, readback.buffer, 1, &down);
    else vkCmdCopyImageToBuffer(gpu.commands, r->image, from, readback.buffer, 1, &texels);
}

/* Fills all resources, reads them back and compares. */
static void fill_and_compare(void) {
    static const pilhangko_vulkan_placement staging = {.location = PILHANGKO_VULKAN_LOCATION_STAGING, .name = "upload"},
        back = {.location = PILHANGKO_LOCATION_GPU_TO_CPU, .name = "readback"};
    VkDeviceSize bytes = 0;
    for (unsigned i = 0; i < RESOURCES; bytes += resources[i++].bytes) resources[i].at = bytes;
    make_buffer(&upload, bytes, &staging);
    make_buffer(&readback, bytes, &back);
    unsigned char *written = (unsigned char *)pilhangko_vulkan_mapped(&vulkan, &upload.allocation);
    for (VkDeviceSize k = 0; k < bytes; k++) written[k] = (unsigned char)(k * 2654435761u >> 13);
    check(pilhangko_vulkan_flush(&vulkan, &upload.allocation, 0, VK_WHOLE_SIZE).status);
    for (unsigned i = 0; i < RESOURCES; i++) copy_there_and_back(&resources[i]);
    const VkImageLayout none = VK_IMAGE_LAYOUT_UNDEFINED;
    wait_for_copies(VK_NULL_HANDLE, none, none, VK_PIPELINE_STAGE_HOST_BIT, VK_ACCESS_HOST_READ_BIT);
    run_commands(&gpu);
    check(pilhangko_vulkan_invalidate(&vulkan, &readback.allocation, 0, VK_WHOLE_SIZE).status);
    if (memcmp(written, pilhangko_vulkan_mapped(&vulkan, &readback.allocation), bytes)) fail("other bytes came back", 0);
    printf("%u buffers and images with %llu bytes came back whole\n", RESOURCES, (unsigned long long)bytes);
}

int main(int count, char **words) {
    pilhangko_vulkan_functions functions;
    pilhangko_vulkan_ending ending;
    if (!open_files(count, words)) fail("words other than CAPTURE REPLIES", count);
    make_gpu(&gpu);
    check(pilhangko_vulkan_load_linked(&functions, gpu.instance, gpu.device, VULKAN_VERSION));
    const pilhangko_vulkan_settings settings = {.physical_device = gpu.physical_device, .device = gpu.device, .functions = &functions,
        .api_version = VULKAN_VERSION, .buffer_device_address = gpu.has_addresses, .memory_budget = gpu.has_budgets,
        .capture_write = capture ? write_capture : NULL, .capture_user = capture};
    check(pilhangko_vulkan_create(&vulkan, &settings));
    reply("ok");
    for (unsigned i = 0; i < RESOURCES; i++) make(i);
    for (unsigned i = 0; i < RESOURCES; i += 2) drop(&resources[i]); /* half of them go, and others come into the gaps */
    for (unsigned i = 0; i < RESOURCES; i += 2) make(i);
    fill_and_compare();
    for (unsigned i = 0; i < RESOURCES; i++) drop(&resources[i * 7 % RESOURCES]);
    drop(&upload), drop(&readback);
    check(pilhangko_vulkan_destroy(&vulkan, &ending));
    reply("held 0");
    end_gpu(&gpu);
    printf("%llu allocations left, %u validation messages\n", (unsigned long long)ending.leaks, gpu.messages);
    return ending.leaks || gpu.messages || (capture && ending.capture.end != PILHANGKO_VULKAN_CAPTURE_WHOLE);
}
