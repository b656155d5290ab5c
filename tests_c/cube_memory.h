/* Memory of the binding's in place of vkcube's own: tools/cube_over_binding.py puts these calls into Khronos' cube.c. Where the variable
 * CUBE_CAPTURE names a file, what is asked of the binding is captured there. */
#ifndef CUBE_MEMORY_H
#define CUBE_MEMORY_H
#define PILHANGKO_VULKAN_LINKED
#include "pilhangko_vulkan.h"
#include <stdio.h>
#include <stdlib.h>

static pilhangko_vulkan cube_vulkan;
static FILE *cube_capture;

static void cube_must(pilhangko_status status) {
    if (status == PILHANGKO_OK) return;
    fprintf(stderr, "cube: %s\n", pilhangko_status_text(status));
    exit(1);
}

static bool cube_writes(void *user, const char *bytes, size_t length) {
    return fwrite(bytes, 1, length, (FILE *)user) == length;
}

static void cube_begin(VkInstance instance, VkPhysicalDevice physical_device, VkDevice device) {
    pilhangko_vulkan_functions functions;
    pilhangko_vulkan_settings settings = {.physical_device = physical_device, .device = device, .functions = &functions};
    const char *name = getenv("CUBE_CAPTURE");
    cube_must(pilhangko_vulkan_load_linked(&functions, instance, device, settings.api_version));
    if (name) cube_capture = fopen(name, "wb");
    if (cube_capture) settings.capture_write = cube_writes;
    settings.capture_user = cube_capture;
    cube_must(pilhangko_vulkan_create(&cube_vulkan, &settings));
}

static void cube_end(void) {
    pilhangko_vulkan_ending ending;
    cube_must(pilhangko_vulkan_destroy(&cube_vulkan, &ending));
    if (cube_capture) fclose(cube_capture);
    printf("cube: %llu leaks, a capture of %zu bytes that ended by %u\n", (unsigned long long)ending.leaks, ending.capture.bytes,
        (unsigned)ending.capture.end);
}

/* vkcube asks for memory by the flags that it needs: memory that the host sees is for uploads. */
static pilhangko_vulkan_placement cube_place(VkMemoryPropertyFlags flags) {
    const bool uploads = (flags & VK_MEMORY_PROPERTY_HOST_VISIBLE_BIT) != 0;
    const pilhangko_vulkan_placement placement = {
        .location = uploads ? PILHANGKO_LOCATION_CPU_TO_GPU : PILHANGKO_LOCATION_GPU_ONLY, .name = uploads ? "seen" : "unseen"};
    return placement;
}

static VkResult cube_buffer(
    const VkBufferCreateInfo *info, VkMemoryPropertyFlags flags, VkBuffer *buffer, pilhangko_vulkan_allocation *memory) {
    const pilhangko_vulkan_placement placement = cube_place(flags);
    cube_must(pilhangko_vulkan_create_buffer(&cube_vulkan, info, &placement, buffer, memory).status);
    return VK_SUCCESS;
}

static VkResult cube_image(
    const VkImageCreateInfo *info, VkMemoryPropertyFlags flags, VkImage *image, pilhangko_vulkan_allocation *memory) {
    const pilhangko_vulkan_placement placement = cube_place(flags);
    cube_must(pilhangko_vulkan_create_image(&cube_vulkan, info, &placement, image, memory).status);
    return VK_SUCCESS;
}

static void *cube_mapped(const pilhangko_vulkan_allocation *memory) {
    return pilhangko_vulkan_mapped(&cube_vulkan, memory);
}

static void cube_destroy_buffer(VkBuffer buffer, const pilhangko_vulkan_allocation *memory) {
    cube_must(pilhangko_vulkan_destroy_buffer(&cube_vulkan, buffer, memory));
}

static void cube_destroy_image(VkImage image, const pilhangko_vulkan_allocation *memory) {
    cube_must(pilhangko_vulkan_destroy_image(&cube_vulkan, image, memory));
}
#endif
