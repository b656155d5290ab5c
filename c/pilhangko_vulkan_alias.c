/* Buffers and images of Pilhangko's Vulkan binding that share an allocation (include/pilhangko_vulkan.h): compile it with the program, as C11
 * or as C++11. */
#include "pilhangko_vulkan_resource.h"

/* Where a resource is to be bound: an allocation that was live when the call began, and the offset in it. */
struct spot {
    const pilhangko_vulkan_allocation *allocation;
    VkDeviceSize offset;
};

/* Whether what the driver needs for a resource is there. */
static pilhangko_status fits(const struct spot *spot, const VkMemoryRequirements *needs, bool needs_own_memory) {
    const pilhangko_vulkan_allocation *a = spot->allocation;
    if (needs_own_memory || !(needs->memoryTypeBits >> a->piece.memory_type & 1)) return PILHANGKO_INVALID;
    if ((a->piece.piece.offset + spot->offset) % needs->alignment != 0) return PILHANGKO_INVALID;
    if (spot->offset > a->piece.piece.size || needs->size > a->piece.piece.size - spot->offset) return PILHANGKO_VULKAN_OUT_OF_RANGE;
    return PILHANGKO_OK;
}

/* Binds a resource there; destroys it where that can't be. */
static pilhangko_vulkan_result bind_at(const pilhangko_vulkan_device *d, const struct resource *r, const struct spot *spot) {
    const pilhangko_memory_piece *piece = &spot->allocation->piece.piece;
    VkMemoryRequirements needs;
    const VkMemoryDedicatedRequirements alone = requirements_of(d, r, &needs);
    pilhangko_vulkan_result result = undriven(fits(spot, &needs, alone.requiresDedicatedAllocation));
    if (result.status == PILHANGKO_OK) result = bind_resource(d, r, (VkDeviceMemory)piece->block, piece->offset + spot->offset);
    if (result.status != PILHANGKO_OK) destroy_resource(d, r);
    return result;
}

/* The device of a live allocation. */
static pilhangko_status device_of(
    const pilhangko_vulkan *vulkan, const pilhangko_vulkan_allocation *allocation, pilhangko_vulkan_device *device) {
    bool is_live;
    pilhangko_status status = pilhangko_vulkan_is_live(vulkan, allocation, &is_live);
    if (status != PILHANGKO_OK) return status;
    if (!is_live) return PILHANGKO_NOT_LIVE;
    return pilhangko_vulkan_read_device(vulkan, device);
}

pilhangko_vulkan_result PILHANGKO_CALL pilhangko_vulkan_create_aliasing_buffer(const pilhangko_vulkan *vulkan,
    const pilhangko_vulkan_allocation *allocation, VkDeviceSize offset, const VkBufferCreateInfo *info, VkBuffer *buffer) {
    const struct spot spot = {allocation, offset};
    struct resource made = {VK_NULL_HANDLE, VK_NULL_HANDLE};
    pilhangko_vulkan_device device;
    pilhangko_vulkan_result result;
    if (!vulkan || !allocation || !info || !buffer) return undriven(PILHANGKO_NULL_POINTER);
    result = undriven(device_of(vulkan, allocation, &device));
    if (result.status != PILHANGKO_OK) return result;
    if (!is_bindable_buffer(info)) return undriven(PILHANGKO_INVALID);
    result = make_buffer(&device, info, &made);
    if (result.status == PILHANGKO_OK) result = bind_at(&device, &made, &spot);
    if (result.status == PILHANGKO_OK) *buffer = made.buffer;
    return result;
}

pilhangko_vulkan_result PILHANGKO_CALL pilhangko_vulkan_create_aliasing_image(const pilhangko_vulkan *vulkan,
    const pilhangko_vulkan_allocation *allocation, VkDeviceSize offset, const VkImageCreateInfo *info, VkImage *image) {
    const struct spot spot = {allocation, offset};
    struct resource made = {VK_NULL_HANDLE, VK_NULL_HANDLE};
    pilhangko_vulkan_device device;
    pilhangko_vulkan_result result;
    if (!vulkan || !allocation || !info || !image) return undriven(PILHANGKO_NULL_POINTER);
    result = undriven(device_of(vulkan, allocation, &device));
    if (result.status != PILHANGKO_OK) return result;
    if (!is_bindable_image(info)) return undriven(PILHANGKO_INVALID);
    result = make_image(&device, info, &made);
    if (result.status == PILHANGKO_OK) result = bind_at(&device, &made, &spot);
    if (result.status == PILHANGKO_OK) *image = made.image;
    return result;
}
