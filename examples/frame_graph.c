/* A frame of deferred shading: 30 passes over 80 images and 4 buffers that share memory, by the Vulkan binding, in C11 and in C++20. Each
 * resource is filled in its first pass and copied out in its last one; the history of the frame before has memory of its own. Exit 0 where
 * every byte is what its resource was filled with, nothing is left and the validation layer had nothing to say. */
#define PILHANGKO_VULKAN_LINKED
#include "pilhangko_vulkan.h"
#include "vulkan_device.h"

#define PASSES 30
#define IMAGES 80
#define BUFFERS 4
#define MOST (IMAGES + BUFFERS)
#define WIDTH 960u
#define HEIGHT 540u

/* what a resource is filled with: the same texel everywhere */
struct resource {
    VkImageCreateInfo image; /* of a buffer the extent's width has the bytes */
    VkBufferCreateInfo buffer;
    bool is_image;
    uint64_t first, last;
    unsigned value; /* 1 to 250 */
    VkDeviceSize at; /* in the buffer that is read back */
};

static struct gpu gpu;
static pilhangko_vulkan vulkan;
static pilhangko_vulkan_transient transient;
static struct resource resources[MOST], history;
static size_t count;

static void check(pilhangko_status status) {
    if (status != PILHANGKO_OK) fail(pilhangko_status_text(status), (long)status);
}

/* ---- the frame */

static VkDeviceSize texel_bytes(VkFormat format) {
    if (format == VK_FORMAT_R8_UNORM) return 1;
    return format == VK_FORMAT_R16G16B16A16_SFLOAT ? 8 : 4;
}

static VkDeviceSize bytes_of(const struct resource *r) {
    if (!r->is_image) return r->buffer.size;
    return texel_bytes(r->image.format) * r->image.extent.width * r->image.extent.height;
}

static void describe(struct resource *r, VkFormat format, uint32_t width, uint32_t height, uint64_t first, uint64_t last) {
    const VkImageCreateInfo info = {.sType = VK_STRUCTURE_TYPE_IMAGE_CREATE_INFO, .imageType = VK_IMAGE_TYPE_2D, .format = format,
        .extent = {width > 0 ? width : 1, height > 0 ? height : 1, 1}, .mipLevels = 1, .arrayLayers = 1, .samples = VK_SAMPLE_COUNT_1_BIT,
        .usage = VK_IMAGE_USAGE_TRANSFER_SRC_BIT | VK_IMAGE_USAGE_TRANSFER_DST_BIT};
    r->image = info;
    r->is_image = true;
    r->first = first;
    r->last = last;
}

static void image(VkFormat format, uint32_t width, uint32_t height, uint64_t first, uint64_t last) {
    if (count == MOST || last >= PASSES) fail("a frame of 80 images", (long)count);
    describe(&resources[count], format, width, height, first, last);
    resources[count].value = (unsigned)(1 + count * 37 % 250);
    count++;
}

static void buffer(VkDeviceSize bytes, uint64_t first, uint64_t last) {
    const VkBufferCreateInfo info = {.sType = VK_STRUCTURE_TYPE_BUFFER_CREATE_INFO, .size = bytes,
        .usage = VK_BUFFER_USAGE_TRANSFER_SRC_BIT | VK_BUFFER_USAGE_TRANSFER_DST_BIT};
    if (count == MOST) fail("a frame of 4 buffers", (long)count);
    resources[count].buffer = info;
    resources[count].first = first;
    resources[count].last = last;
    resources[count].value = (unsigned)(1 + count * 37 % 250);
    count++;
}

static void shadows_and_geometry(void) {
    const VkFormat depth = VK_FORMAT_D32_SFLOAT, color = VK_FORMAT_R8G8B8A8_UNORM, wide = VK_FORMAT_R16G16B16A16_SFLOAT;
    for (uint64_t i = 0; i < 4; i++) image(depth, 1024, 1024, i, 12);            /* cascades of the sun */
    for (uint64_t i = 0; i < 4; i++) image(depth, 512, 512, 4 + i / 2, 12);      /* shadows of four lamps */
    for (uint64_t i = 0; i < 6; i++) image(wide, 128, 128, 5, 13);               /* a probe's faces */
    image(depth, WIDTH, HEIGHT, 6, 27);                                          /* depth */
    image(color, WIDTH, HEIGHT, 6, 12);                                          /* albedo */
    image(wide, WIDTH, HEIGHT, 6, 15);                                           /* normals */
    image(color, WIDTH, HEIGHT, 6, 14);                                          /* material */
    image(wide, WIDTH, HEIGHT, 6, 26);                                           /* velocity */
    image(color, WIDTH, HEIGHT, 6, 7);                                           /* decals */
    for (uint32_t i = 0; i < 6; i++) image(depth, WIDTH >> (i + 1), HEIGHT >> (i + 1), 7, 9); /* the depth pyramid */
}

static void lighting(void) {
    const VkFormat mask = VK_FORMAT_R8_UNORM, wide = VK_FORMAT_R16G16B16A16_SFLOAT;
    image(mask, WIDTH / 2, HEIGHT / 2, 8, 9);   /* ambient occlusion */
    image(mask, WIDTH / 2, HEIGHT / 2, 9, 10);  /* blurred one way */
    image(mask, WIDTH / 2, HEIGHT / 2, 10, 11); /* and the other */
    image(mask, WIDTH, HEIGHT, 11, 12);         /* and enlarged */
    image(mask, WIDTH, HEIGHT, 9, 12);          /* contact shadows */
    image(wide, 160, 90 * 8, 10, 11);           /* fog that is lit */
    image(wide, 160, 90 * 8, 11, 12);           /* scattered */
    image(wide, 160, 90 * 8, 12, 16);           /* summed up */
    image(wide, WIDTH, HEIGHT, 12, 17);         /* light */
    image(wide, WIDTH / 2, HEIGHT / 2, 13, 14); /* reflections: hits */
    image(wide, WIDTH / 2, HEIGHT / 2, 14, 15); /* colors */
    image(wide, WIDTH, HEIGHT, 15, 17);         /* enlarged */
    image(wide, WIDTH, HEIGHT, 16, 17);         /* transparent things */
    image(mask, WIDTH, HEIGHT, 16, 17);         /* and what they let through */
    image(wide, WIDTH, HEIGHT, 17, 20);         /* all of it */
    buffer(65536, 11, 12);                      /* lists of lights */
    buffer(4096, 16, 16);                       /* draws of particles */
}

static void after_light(void) {
    const VkFormat mask = VK_FORMAT_R8_UNORM, color = VK_FORMAT_R8G8B8A8_UNORM, wide = VK_FORMAT_R16G16B16A16_SFLOAT;
    for (uint32_t i = 0; i < 8; i++) image(wide, WIDTH >> (i + 1), HEIGHT >> (i + 1), 18, 19); /* luminance, ever smaller */
    image(wide, WIDTH / 16, HEIGHT / 16, 18, 19);                                             /* the fastest motion of each tile */
    image(wide, WIDTH / 16, HEIGHT / 16, 18, 19);                                             /* and of its neighbours */
    image(wide, WIDTH, HEIGHT, 19, 22);                                                       /* blurred by motion */
    image(mask, WIDTH, HEIGHT, 19, 21);                                                       /* how far out of focus */
    for (uint64_t i = 0; i < 4; i++) image(wide, WIDTH / 2, HEIGHT / 2, 20 + i / 2, 22);      /* near and far, and blurred */
    image(wide, WIDTH, HEIGHT, 22, 26);                                                       /* with depth of field */
    for (uint32_t i = 0; i < 8; i++) image(wide, WIDTH >> (i + 1), HEIGHT >> (i + 1), 20 + i / 2, 27 - i / 2); /* bloom, down */
    for (uint32_t i = 0; i < 8; i++) image(wide, WIDTH >> (i + 1), HEIGHT >> (i + 1), 27 - i / 2, 28);         /* and up */
    image(wide, WIDTH, HEIGHT, 26, 28);                                                       /* smoothed over time */
    image(wide, WIDTH / 4, HEIGHT / 4, 26, 28);                                               /* flares */
    image(mask, WIDTH, HEIGHT, 27, 28);                                                       /* outlines */
    image(color, WIDTH, HEIGHT, 28, 29);                                                      /* as the screen has it */
    image(color, WIDTH, HEIGHT, 29, 29);                                                      /* sharpened */
    image(color, WIDTH, HEIGHT, 28, 29);                                                      /* the controls */
    buffer(1024, 18, 19);                                                                     /* a histogram */
    buffer(16, 19, 28);                                                                       /* the exposure */
}

/* ---- memory */

static void make_transient(void) {
    static pilhangko_vulkan_transient_resource asked[MOST];
    for (size_t i = 0; i < count; i++) {
        asked[i].buffer_info = resources[i].is_image ? NULL : &resources[i].buffer;
        asked[i].image_info = resources[i].is_image ? &resources[i].image : NULL;
        asked[i].first_pass = resources[i].first;
        asked[i].last_pass = resources[i].last;
    }
    const pilhangko_vulkan_placement placement = {.location = PILHANGKO_LOCATION_GPU_ONLY, .name = "frame"};
    check(pilhangko_vulkan_create_transient(&vulkan, asked, count, &placement, &transient).status);
}

static void tell_plans(void) {
    const double mb = 1 << 20;
    VkDeviceSize peak = 0, heap = 0, unshared = 0;
    for (size_t s = 0; s < transient.set_count; s++) {
        peak += transient.sets[s].plan.peak;
        heap += transient.sets[s].plan.heap_size;
        unshared += transient.sets[s].unshared;
    }
    printf("%d passes, %d images, %d buffers, allocations: %zu; peak %.1f MB, heap %.1f MB, without sharing %.1f MB\n", PASSES, IMAGES, BUFFERS,
        transient.set_count, (double)peak / mb, (double)heap / mb, (double)unshared / mb);
}

/* ---- commands */

static VkImageSubresourceRange whole(const struct resource *r) {
    const VkImageSubresourceRange range = {
        r->image.format == VK_FORMAT_D32_SFLOAT ? (VkImageAspectFlags)VK_IMAGE_ASPECT_DEPTH_BIT : (VkImageAspectFlags)VK_IMAGE_ASPECT_COLOR_BIT,
        0, 1, 0, 1};
    return range;
}

static void change_layout(
    const struct resource *r, VkImage handle, VkImageLayout from, VkImageLayout to, VkAccessFlags before, VkAccessFlags behind) {
    const VkImageMemoryBarrier barrier = {.sType = VK_STRUCTURE_TYPE_IMAGE_MEMORY_BARRIER,
        .srcAccessMask = before,
        .dstAccessMask = behind,
        .oldLayout = from,
        .newLayout = to,
        .srcQueueFamilyIndex = VK_QUEUE_FAMILY_IGNORED,
        .dstQueueFamilyIndex = VK_QUEUE_FAMILY_IGNORED,
        .image = handle,
        .subresourceRange = whole(r)};
    vkCmdPipelineBarrier(
        gpu.commands, VK_PIPELINE_STAGE_TRANSFER_BIT, VK_PIPELINE_STAGE_TRANSFER_BIT, 0, 0, NULL, 0, NULL, 1, &barrier);
}

/* Waits for those whose bytes the resource takes over. */
static void wait_for_reused(size_t i) {
    const VkMemoryBarrier barrier = {.sType = VK_STRUCTURE_TYPE_MEMORY_BARRIER,
        .srcAccessMask = VK_ACCESS_TRANSFER_WRITE_BIT,
        .dstAccessMask = VK_ACCESS_TRANSFER_WRITE_BIT};
    size_t reused;
    check(pilhangko_vulkan_transient_reuses(&transient, i, NULL, 0, &reused));
    if (reused > 0)
        vkCmdPipelineBarrier(
            gpu.commands, VK_PIPELINE_STAGE_TRANSFER_BIT, VK_PIPELINE_STAGE_TRANSFER_BIT, 0, 1, &barrier, 0, NULL, 0, NULL);
}

static void fill_image(const struct resource *r, VkImage handle) {
    const VkImageSubresourceRange range = whole(r);
    const float part = (float)r->value / 255, number = (float)r->value;
    change_layout(r, handle, VK_IMAGE_LAYOUT_UNDEFINED, VK_IMAGE_LAYOUT_TRANSFER_DST_OPTIMAL, 0, VK_ACCESS_TRANSFER_WRITE_BIT);
    if (r->image.format == VK_FORMAT_D32_SFLOAT) {
        const VkClearDepthStencilValue depth = {(float)r->value / 256, 0};
        vkCmdClearDepthStencilImage(gpu.commands, handle, VK_IMAGE_LAYOUT_TRANSFER_DST_OPTIMAL, &depth, 1, &range);
    } else {
        const float one = r->image.format == VK_FORMAT_R16G16B16A16_SFLOAT ? number : part;
        const VkClearColorValue color = {{one, one, one, one}};
        vkCmdClearColorImage(gpu.commands, handle, VK_IMAGE_LAYOUT_TRANSFER_DST_OPTIMAL, &color, 1, &range);
    }
    change_layout(r, handle, VK_IMAGE_LAYOUT_TRANSFER_DST_OPTIMAL, VK_IMAGE_LAYOUT_TRANSFER_SRC_OPTIMAL, VK_ACCESS_TRANSFER_WRITE_BIT,
        VK_ACCESS_TRANSFER_READ_BIT);
}

static void copy_image(const struct resource *r, VkImage handle, VkBuffer readback) {
    const VkBufferImageCopy copy = {.bufferOffset = r->at,
        .imageSubresource = {whole(r).aspectMask, 0, 0, 1},
        .imageExtent = r->image.extent};
    vkCmdCopyImageToBuffer(gpu.commands, handle, VK_IMAGE_LAYOUT_TRANSFER_SRC_OPTIMAL, readback, 1, &copy);
}

static void fill(size_t i) {
    const struct resource *r = &resources[i];
    const VkBufferMemoryBarrier filled = {.sType = VK_STRUCTURE_TYPE_BUFFER_MEMORY_BARRIER,
        .srcAccessMask = VK_ACCESS_TRANSFER_WRITE_BIT,
        .dstAccessMask = VK_ACCESS_TRANSFER_READ_BIT,
        .srcQueueFamilyIndex = VK_QUEUE_FAMILY_IGNORED,
        .dstQueueFamilyIndex = VK_QUEUE_FAMILY_IGNORED,
        .buffer = transient.places[i].buffer,
        .size = VK_WHOLE_SIZE};
    wait_for_reused(i);
    if (r->is_image) {
        fill_image(r, transient.places[i].image);
        return;
    }
    vkCmdFillBuffer(gpu.commands, transient.places[i].buffer, 0, VK_WHOLE_SIZE, r->value * 0x01010101u);
    vkCmdPipelineBarrier(
        gpu.commands, VK_PIPELINE_STAGE_TRANSFER_BIT, VK_PIPELINE_STAGE_TRANSFER_BIT, 0, 0, NULL, 1, &filled, 0, NULL);
}

static void copy_out(size_t i, VkBuffer readback) {
    const struct resource *r = &resources[i];
    const VkBufferCopy copy = {0, r->at, bytes_of(r)};
    if (r->is_image) copy_image(r, transient.places[i].image, readback);
    else vkCmdCopyBuffer(gpu.commands, transient.places[i].buffer, readback, 1, &copy);
}

/* What a pass makes it fills, and what nothing after it needs it copies out. */
static void record_pass(uint64_t pass, VkBuffer readback) {
    for (size_t i = 0; i < count; i++)
        if (resources[i].first == pass) fill(i);
    for (size_t i = 0; i < count; i++)
        if (resources[i].last == pass) copy_out(i, readback);
}

static void let_host_read(void) {
    const VkMemoryBarrier barrier = {.sType = VK_STRUCTURE_TYPE_MEMORY_BARRIER,
        .srcAccessMask = VK_ACCESS_TRANSFER_WRITE_BIT,
        .dstAccessMask = VK_ACCESS_HOST_READ_BIT};
    vkCmdPipelineBarrier(gpu.commands, VK_PIPELINE_STAGE_TRANSFER_BIT, VK_PIPELINE_STAGE_HOST_BIT, 0, 1, &barrier, 0, NULL, 0, NULL);
}

/* ---- what came back */

/* a small whole number as 16 bits of a float */
static unsigned half_of(unsigned n) {
    unsigned exponent = 0;
    while (n >> (exponent + 1)) exponent++;
    return (exponent + 15) << 10 | ((n << (10 - exponent)) & 0x3ff);
}

/* the bytes of one texel, or of one word of a buffer */
static size_t texel_of(const struct resource *r, unsigned char *texel) {
    const float depth = (float)r->value / 256;
    const VkDeviceSize bytes = r->is_image ? texel_bytes(r->image.format) : 4;
    memset(texel, (int)r->value, 8);
    if (r->is_image && r->image.format == VK_FORMAT_D32_SFLOAT) memcpy(texel, &depth, 4);
    for (unsigned i = 0; bytes == 8 && i < 8; i++) texel[i] = (unsigned char)(half_of(r->value) >> 8 * (i % 2));
    return (size_t)bytes;
}

static void compare(const struct resource *r, const unsigned char *mapped) {
    unsigned char texel[8];
    const size_t bytes = texel_of(r, texel);
    for (VkDeviceSize at = 0; at < bytes_of(r); at += bytes)
        if (memcmp(mapped + r->at + at, texel, bytes) != 0) fail("other bytes came back", (long)(r - resources));
}

static void make_binding(void) {
    pilhangko_vulkan_functions functions;
    check(pilhangko_vulkan_load_linked(&functions, gpu.instance, gpu.device, VULKAN_VERSION));
    const pilhangko_vulkan_settings settings = {
        .physical_device = gpu.physical_device, .device = gpu.device, .functions = &functions, .api_version = VULKAN_VERSION};
    check(pilhangko_vulkan_create(&vulkan, &settings));
}

/* Where each resource's bytes go in the buffer that is read back; returns how many they are. */
static VkDeviceSize lay_out(void) {
    VkDeviceSize bytes = 0;
    for (size_t i = 0; i < count; i++) {
        resources[i].at = bytes;
        bytes += (bytes_of(&resources[i]) + 15) / 16 * 16;
    }
    history.at = bytes;
    return bytes + bytes_of(&history);
}

/* Runs the frame, with what the frame before left beside it, and compares what came back. */
static void run_frame(VkImage before, VkBuffer readback, const pilhangko_vulkan_allocation *memory) {
    fill_image(&history, before);
    for (uint64_t pass = 0; pass < PASSES; pass++) record_pass(pass, readback);
    copy_image(&history, before, readback);
    let_host_read();
    run_commands(&gpu);
    check(pilhangko_vulkan_invalidate(&vulkan, memory, 0, VK_WHOLE_SIZE).status);
    const unsigned char *mapped = (const unsigned char *)pilhangko_vulkan_mapped(&vulkan, memory);
    for (size_t i = 0; i < count; i++) compare(&resources[i], mapped);
    compare(&history, mapped);
}

int main(void) {
    pilhangko_vulkan_allocation memory, kept;
    pilhangko_vulkan_ending ending;
    const pilhangko_vulkan_placement alone = {.location = PILHANGKO_LOCATION_GPU_ONLY, .name = "history"};
    const pilhangko_vulkan_placement host = {.location = PILHANGKO_LOCATION_GPU_TO_CPU, .name = "readback"};
    VkBuffer readback;
    VkImage before;
    make_gpu(&gpu);
    make_binding();
    shadows_and_geometry();
    lighting();
    after_light();
    if (count != MOST) fail("a frame of 80 images and 4 buffers", (long)count);
    make_transient();
    tell_plans();
    describe(&history, VK_FORMAT_R16G16B16A16_SFLOAT, WIDTH, HEIGHT, 0, PASSES - 1);
    history.value = 99;
    check(pilhangko_vulkan_create_image(&vulkan, &history.image, &alone, &before, &kept).status);
    const VkBufferCreateInfo info = {
        .sType = VK_STRUCTURE_TYPE_BUFFER_CREATE_INFO, .size = lay_out(), .usage = VK_BUFFER_USAGE_TRANSFER_DST_BIT};
    check(pilhangko_vulkan_create_buffer(&vulkan, &info, &host, &readback, &memory).status);
    run_frame(before, readback, &memory);
    printf("%.1f MB came back as they were filled in\n", (double)info.size / (1 << 20));
    check(pilhangko_vulkan_destroy_transient(&vulkan, &transient));
    check(pilhangko_vulkan_destroy_image(&vulkan, before, &kept));
    check(pilhangko_vulkan_destroy_buffer(&vulkan, readback, &memory));
    check(pilhangko_vulkan_destroy(&vulkan, &ending));
    end_gpu(&gpu);
    printf("%llu allocations left, %u validation messages\n", (unsigned long long)ending.leaks, gpu.messages);
    return ending.leaks != 0 || gpu.messages != 0;
}
