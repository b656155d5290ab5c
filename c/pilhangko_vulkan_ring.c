/* Rings of Pilhangko's Vulkan binding (include/pilhangko_vulkan.h): compile it with the program, as C11 or as C++11. The ring says where
 * pieces lie and which bytes are the open frame's, the binding makes and flushes the buffer. */
#include "pilhangko_vulkan_resource.h"

/* A mapped buffer for a ring. */
static pilhangko_vulkan_result make_ring_buffer(
    pilhangko_vulkan *vulkan, const pilhangko_vulkan_ring_settings *settings, pilhangko_vulkan_ring *made) {
    VkBufferCreateInfo info;
    pilhangko_vulkan_result result;
    memset(&info, 0, sizeof info);
    info.sType = VK_STRUCTURE_TYPE_BUFFER_CREATE_INFO;
    info.size = settings->size;
    info.usage = settings->usage;
    info.sharingMode = VK_SHARING_MODE_EXCLUSIVE;
    result = pilhangko_vulkan_create_buffer(vulkan, &info, &settings->placement, &made->buffer, &made->allocation);
    if (result.status != PILHANGKO_OK) return result;
    made->mapped = pilhangko_vulkan_mapped(vulkan, &made->allocation);
    if (made->mapped) return result;
    result = undriven(pilhangko_vulkan_destroy_buffer(vulkan, made->buffer, &made->allocation));
    return result.status == PILHANGKO_OK ? undriven(PILHANGKO_VULKAN_NOT_MAPPED) : result;
}

pilhangko_vulkan_result PILHANGKO_CALL pilhangko_vulkan_ring_create(
    pilhangko_vulkan *vulkan, const pilhangko_vulkan_ring_settings *settings, pilhangko_vulkan_ring *ring) {
    pilhangko_vulkan_ring made;
    pilhangko_vulkan_result result;
    if (!vulkan || !settings || !ring) return undriven(PILHANGKO_NULL_POINTER);
    if (!vulkan->opaque) return undriven(PILHANGKO_NO_HANDLE);
    memset(&made, 0, sizeof made);
    result = undriven(pilhangko_ring_create(&ring->ring, settings->size, settings->frames));
    if (result.status != PILHANGKO_OK) return result;
    result = make_ring_buffer(vulkan, settings, &made);
    if (result.status != PILHANGKO_OK) {
        (void)pilhangko_ring_destroy(&ring->ring);
        return result;
    }
    ring->buffer = made.buffer;
    ring->allocation = made.allocation;
    ring->mapped = made.mapped;
    return result;
}

pilhangko_status PILHANGKO_CALL pilhangko_vulkan_ring_allocate(
    pilhangko_vulkan_ring *ring, VkDeviceSize size, VkDeviceSize alignment, pilhangko_vulkan_ring_piece *piece) {
    uint64_t offset;
    pilhangko_status status;
    if (!ring || !piece) return PILHANGKO_NULL_POINTER;
    status = pilhangko_ring_allocate(&ring->ring, size, alignment, &offset);
    if (status != PILHANGKO_OK) return status;
    piece->offset = offset;
    piece->mapped = (char *)ring->mapped + offset;
    return status;
}

pilhangko_vulkan_result PILHANGKO_CALL pilhangko_vulkan_ring_flush(const pilhangko_vulkan *vulkan, const pilhangko_vulkan_ring *ring) {
    pilhangko_ring_stretch stretch;
    pilhangko_vulkan_result result;
    if (!vulkan || !ring) return undriven(PILHANGKO_NULL_POINTER);
    result = undriven(pilhangko_ring_current_stretch(&ring->ring, &stretch));
    if (result.status != PILHANGKO_OK) return result;
    result = pilhangko_vulkan_flush(vulkan, &ring->allocation, stretch.offset, stretch.size);
    if (result.status != PILHANGKO_OK) return result;
    return pilhangko_vulkan_flush(vulkan, &ring->allocation, 0, stretch.rest);
}

pilhangko_status PILHANGKO_CALL pilhangko_vulkan_ring_end_frame(pilhangko_vulkan_ring *ring, uint64_t *frame) {
    if (!ring || !frame) return PILHANGKO_NULL_POINTER;
    return pilhangko_ring_end_frame(&ring->ring, frame);
}

pilhangko_status PILHANGKO_CALL pilhangko_vulkan_ring_retire(pilhangko_vulkan_ring *ring, uint64_t frame) {
    if (!ring) return PILHANGKO_NULL_POINTER;
    return pilhangko_ring_retire(&ring->ring, frame);
}

pilhangko_status PILHANGKO_CALL pilhangko_vulkan_ring_destroy(pilhangko_vulkan *vulkan, pilhangko_vulkan_ring *ring) {
    pilhangko_status status;
    if (!vulkan || !ring) return PILHANGKO_NULL_POINTER;
    if (ring->buffer == VK_NULL_HANDLE) return PILHANGKO_NO_HANDLE;
    status = pilhangko_vulkan_destroy_buffer(vulkan, ring->buffer, &ring->allocation);
    if (status != PILHANGKO_OK) return status;
    (void)pilhangko_ring_destroy(&ring->ring);
    memset(ring, 0, sizeof *ring);
    return status;
}
