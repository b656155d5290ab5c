/* Mapped bytes of Pilhangko's Vulkan binding (include/pilhangko_vulkan.h): compile it with c/pilhangko_vulkan.c, as C11 or as C++11. */
#include "pilhangko_vulkan_binding.h"

void *PILHANGKO_CALL pilhangko_vulkan_mapped(const pilhangko_vulkan *vulkan, const pilhangko_vulkan_allocation *allocation) {
    pilhangko_allocator_piece piece;
    if (!vulkan || !allocation || !vulkan->opaque) return NULL;
    if (!live_piece(binding_of(vulkan), allocation, &piece) || piece.address == 0) return NULL;
    return (char *)(uintptr_t)piece.address + piece.piece.offset;
}

/* The range of a block that a flush of a piece's bytes is about: whole units of nonCoherentAtomSize, or up to the block's end. */
static VkMappedMemoryRange whole_atoms(
    const pilhangko_allocator_live_block *block, VkDeviceSize atom, VkDeviceSize first, VkDeviceSize size) {
    const VkDeviceSize begin = first & ~(atom - 1), end = first + size;
    VkMappedMemoryRange range;
    memset(&range, 0, sizeof range);
    range.sType = VK_STRUCTURE_TYPE_MAPPED_MEMORY_RANGE;
    range.memory = (VkDeviceMemory)block->memory;
    range.offset = begin;
    range.size = end - begin;
    /* up to the next unit, unless the block ends before it; the sum could pass 2^64 */
    if (end % atom != 0) range.size += atom - end % atom < block->size - end ? atom - end % atom : block->size - end;
    return range;
}

/* The live block that a piece lies in. */
static pilhangko_status block_of(const struct binding *binding, const pilhangko_allocator_piece *piece, pilhangko_allocator_live_block *block) {
    struct binding *b = enter(binding);
    const pilhangko_status status = pilhangko_allocator_block(&b->allocator, piece->memory_type, piece->piece.slot, block);
    leave(b);
    return status;
}

/* Bytes of a live mapped allocation: the piece, and so many bytes from an offset in it on. */
struct bytes {
    pilhangko_allocator_piece live;
    VkDeviceSize offset, size;
};

/* All from the offset on. */
static pilhangko_status find_rest(
    const struct binding *b, const pilhangko_vulkan_allocation *allocation, VkDeviceSize offset, struct bytes *bytes) {
    if (!live_piece(b, allocation, &bytes->live)) return PILHANGKO_NOT_LIVE;
    if (bytes->live.address == 0) return PILHANGKO_VULKAN_NOT_MAPPED;
    if (offset > bytes->live.piece.size) return PILHANGKO_VULKAN_OUT_OF_RANGE;
    bytes->offset = offset;
    bytes->size = bytes->live.piece.size - offset;
    return PILHANGKO_OK;
}

/* So many of them. */
static pilhangko_status find_bytes(const struct binding *b, const pilhangko_vulkan_allocation *allocation, VkDeviceSize offset,
    VkDeviceSize size, struct bytes *bytes) {
    const pilhangko_status status = find_rest(b, allocation, offset, bytes);
    if (status != PILHANGKO_OK) return status;
    if (size > bytes->size) return PILHANGKO_VULKAN_OUT_OF_RANGE;
    bytes->size = size;
    return PILHANGKO_OK;
}

/* Where the host sees the first of them. */
static char *address_of(const struct bytes *bytes) {
    return (char *)(uintptr_t)bytes->live.address + bytes->live.piece.offset + bytes->offset;
}

/* Flushes or invalidates them, where their memory needs that. */
static pilhangko_vulkan_result make_visible(const struct binding *b, const struct bytes *bytes, bool invalidates) {
    pilhangko_allocator_live_block block;
    pilhangko_status status;
    VkMappedMemoryRange range;
    VkResult driver;
    if (bytes->size == 0 || (b->common->properties.memoryTypes[bytes->live.memory_type].propertyFlags & VK_MEMORY_PROPERTY_HOST_COHERENT_BIT))
        return undriven(PILHANGKO_OK);
    status = block_of(b, &bytes->live, &block);
    if (status != PILHANGKO_OK) return undriven(status);
    range = whole_atoms(&block, b->common->atom, bytes->live.piece.offset + bytes->offset, bytes->size);
    driver = invalidates ? b->common->over.functions->vkInvalidateMappedMemoryRanges(b->common->over.device, 1, &range)
                         : b->common->over.functions->vkFlushMappedMemoryRanges(b->common->over.device, 1, &range);
    return driver == VK_SUCCESS ? undriven(PILHANGKO_OK) : result_of(PILHANGKO_VULKAN_CALL_FAILED, driver);
}

static pilhangko_vulkan_result flush(
    const struct binding *b, const pilhangko_vulkan_allocation *allocation, VkDeviceSize offset, VkDeviceSize size, bool invalidates) {
    struct bytes bytes;
    const pilhangko_status status =
        size == VK_WHOLE_SIZE ? find_rest(b, allocation, offset, &bytes) : find_bytes(b, allocation, offset, size, &bytes);
    return status == PILHANGKO_OK ? make_visible(b, &bytes, invalidates) : undriven(status);
}

pilhangko_vulkan_result PILHANGKO_CALL pilhangko_vulkan_flush(
    const pilhangko_vulkan *vulkan, const pilhangko_vulkan_allocation *allocation, VkDeviceSize offset, VkDeviceSize size) {
    if (!vulkan || !allocation) return undriven(PILHANGKO_NULL_POINTER);
    if (!vulkan->opaque) return undriven(PILHANGKO_NO_HANDLE);
    return flush(binding_of(vulkan), allocation, offset, size, false);
}

pilhangko_vulkan_result PILHANGKO_CALL pilhangko_vulkan_invalidate(
    const pilhangko_vulkan *vulkan, const pilhangko_vulkan_allocation *allocation, VkDeviceSize offset, VkDeviceSize size) {
    if (!vulkan || !allocation) return undriven(PILHANGKO_NULL_POINTER);
    if (!vulkan->opaque) return undriven(PILHANGKO_NO_HANDLE);
    return flush(binding_of(vulkan), allocation, offset, size, true);
}

pilhangko_vulkan_result PILHANGKO_CALL pilhangko_vulkan_copy_to(const pilhangko_vulkan *vulkan, const void *from, size_t size,
    const pilhangko_vulkan_allocation *allocation, VkDeviceSize offset) {
    struct bytes bytes;
    pilhangko_status status;
    if (!vulkan || (!from && size) || !allocation) return undriven(PILHANGKO_NULL_POINTER);
    if (!vulkan->opaque) return undriven(PILHANGKO_NO_HANDLE);
    status = find_bytes(binding_of(vulkan), allocation, offset, size, &bytes);
    if (status != PILHANGKO_OK) return undriven(status);
    if (size > 0) memcpy(address_of(&bytes), from, size);
    return make_visible(binding_of(vulkan), &bytes, false);
}

pilhangko_vulkan_result PILHANGKO_CALL pilhangko_vulkan_copy_from(const pilhangko_vulkan *vulkan,
    const pilhangko_vulkan_allocation *allocation, VkDeviceSize offset, void *to, size_t size) {
    struct bytes bytes;
    pilhangko_status status;
    pilhangko_vulkan_result result;
    if (!vulkan || !allocation || (!to && size)) return undriven(PILHANGKO_NULL_POINTER);
    if (!vulkan->opaque) return undriven(PILHANGKO_NO_HANDLE);
    status = find_bytes(binding_of(vulkan), allocation, offset, size, &bytes);
    if (status != PILHANGKO_OK) return undriven(status);
    result = make_visible(binding_of(vulkan), &bytes, true);
    if (result.status == PILHANGKO_OK && size > 0) memcpy(to, address_of(&bytes), size);
    return result;
}
