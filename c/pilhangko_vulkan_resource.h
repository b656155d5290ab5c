/* What the files of Pilhangko's Vulkan binding share: results, moves, and the driver's calls for a buffer or an image. Not for its users. */
#ifndef PILHANGKO_VULKAN_RESOURCE_H
#define PILHANGKO_VULKAN_RESOURCE_H

#include "pilhangko_vulkan.h"

static inline pilhangko_vulkan_result result_of(pilhangko_status status, VkResult driver) {
    pilhangko_vulkan_result result;
    result.status = status;
    result.driver = status == PILHANGKO_OK ? VK_SUCCESS : driver;
    return result;
}

/* A result in which the driver has no part. */
static inline pilhangko_vulkan_result undriven(pilhangko_status status) {
    return result_of(status, VK_SUCCESS);
}

/* Whether a table has all functions that may not be NULL. */
static inline bool has_functions(const pilhangko_vulkan_functions *f) {
    return f->vkGetPhysicalDeviceProperties && f->vkGetPhysicalDeviceMemoryProperties && f->vkAllocateMemory && f->vkFreeMemory &&
           f->vkMapMemory && f->vkUnmapMemory && f->vkFlushMappedMemoryRanges && f->vkInvalidateMappedMemoryRanges && f->vkCreateBuffer &&
           f->vkDestroyBuffer && f->vkGetBufferMemoryRequirements && f->vkBindBufferMemory && f->vkCreateImage && f->vkDestroyImage &&
           f->vkGetImageMemoryRequirements && f->vkBindImageMemory;
}

#define NAMED(rest) pilhangko_vulkan##rest
#define BYTES_OF(request) ((request)->requirements.size)
#include "pilhangko_moves.h"

/* A buffer or an image: the other one is null. */
struct resource {
    VkBuffer buffer;
    VkImage image;
};

static inline bool is_image(const struct resource *r) {
    return r->image != VK_NULL_HANDLE;
}

/* A sparse buffer is bound in other ways. */
static inline bool is_bindable_buffer(const VkBufferCreateInfo *info) {
    return !(info->flags & VK_BUFFER_CREATE_SPARSE_BINDING_BIT);
}

/* A sparse image is bound in other ways, one of disjoint planes a plane at a time. */
static inline bool is_bindable_image(const VkImageCreateInfo *info) {
    return !(info->flags & (VK_IMAGE_CREATE_SPARSE_BINDING_BIT | VK_IMAGE_CREATE_DISJOINT_BIT));
}

static inline pilhangko_kind kind_of_image(const VkImageCreateInfo *info) {
    return info->tiling == VK_IMAGE_TILING_LINEAR ? PILHANGKO_KIND_LINEAR : PILHANGKO_KIND_NON_LINEAR;
}

/* Makes a buffer. Where the driver refuses, or gives a null handle, the result says so and the resource is untouched. */
static inline pilhangko_vulkan_result make_buffer(const pilhangko_vulkan_device *d, const VkBufferCreateInfo *info, struct resource *made) {
    VkBuffer buffer = VK_NULL_HANDLE;
    const VkResult driver = d->functions->vkCreateBuffer(d->device, info, d->allocation_callbacks, &buffer);
    if (driver != VK_SUCCESS || buffer == VK_NULL_HANDLE) return result_of(PILHANGKO_VULKAN_CALL_FAILED, driver);
    made->buffer = buffer;
    return undriven(PILHANGKO_OK);
}

/* Makes an image in the same way. */
static inline pilhangko_vulkan_result make_image(const pilhangko_vulkan_device *d, const VkImageCreateInfo *info, struct resource *made) {
    VkImage image = VK_NULL_HANDLE;
    const VkResult driver = d->functions->vkCreateImage(d->device, info, d->allocation_callbacks, &image);
    if (driver != VK_SUCCESS || image == VK_NULL_HANDLE) return result_of(PILHANGKO_VULKAN_CALL_FAILED, driver);
    made->image = image;
    return undriven(PILHANGKO_OK);
}

static inline void destroy_resource(const pilhangko_vulkan_device *d, const struct resource *r) {
    if (is_image(r)) d->functions->vkDestroyImage(d->device, r->image, d->allocation_callbacks);
    else d->functions->vkDestroyBuffer(d->device, r->buffer, d->allocation_callbacks);
}

static inline pilhangko_vulkan_result bind_resource(
    const pilhangko_vulkan_device *d, const struct resource *r, VkDeviceMemory memory, VkDeviceSize offset) {
    const VkResult driver = is_image(r) ? d->functions->vkBindImageMemory(d->device, r->image, memory, offset)
                                        : d->functions->vkBindBufferMemory(d->device, r->buffer, memory, offset);
    return driver == VK_SUCCESS ? undriven(PILHANGKO_OK) : result_of(PILHANGKO_VULKAN_CALL_FAILED, driver);
}

/* What the driver needs for it, before Vulkan 1.1. */
static inline void plain_requirements(const pilhangko_vulkan_device *d, const struct resource *r, VkMemoryRequirements *needs) {
    if (is_image(r)) d->functions->vkGetImageMemoryRequirements(d->device, r->image, needs);
    else d->functions->vkGetBufferMemoryRequirements(d->device, r->buffer, needs);
}

/* What the driver needs for it, and whether it requires or prefers memory for it alone. */
static inline VkMemoryDedicatedRequirements requirements_of(
    const pilhangko_vulkan_device *d, const struct resource *r, VkMemoryRequirements *needs) {
    const bool has_1_1 = d->api_version >= VK_API_VERSION_1_1;
    VkMemoryDedicatedRequirements alone;
    VkMemoryRequirements2 told;
    memset(&alone, 0, sizeof alone);
    alone.sType = VK_STRUCTURE_TYPE_MEMORY_DEDICATED_REQUIREMENTS;
    memset(&told, 0, sizeof told);
    told.sType = VK_STRUCTURE_TYPE_MEMORY_REQUIREMENTS_2;
    told.pNext = &alone;
    if (has_1_1 && is_image(r) && d->functions->vkGetImageMemoryRequirements2) {
        VkImageMemoryRequirementsInfo2 info;
        memset(&info, 0, sizeof info);
        info.sType = VK_STRUCTURE_TYPE_IMAGE_MEMORY_REQUIREMENTS_INFO_2;
        info.image = r->image;
        d->functions->vkGetImageMemoryRequirements2(d->device, &info, &told);
    } else if (has_1_1 && !is_image(r) && d->functions->vkGetBufferMemoryRequirements2) {
        VkBufferMemoryRequirementsInfo2 info;
        memset(&info, 0, sizeof info);
        info.sType = VK_STRUCTURE_TYPE_BUFFER_MEMORY_REQUIREMENTS_INFO_2;
        info.buffer = r->buffer;
        d->functions->vkGetBufferMemoryRequirements2(d->device, &info, &told);
    } else {
        plain_requirements(d, r, &told.memoryRequirements);
    }
    *needs = told.memoryRequirements;
    return alone;
}

#endif
