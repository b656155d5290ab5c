/* Rings of Pilhangko's DirectX 12 binding (include/pilhangko_d3d12.h): compile it with the program, as C11 or as C++11. The ring says where
 * pieces lie, the binding makes the buffer, and the driver maps it. */
#include "pilhangko_d3d12_driver.h"

/* A mapped buffer for a ring. */
static pilhangko_d3d12_result make_ring_buffer(
    pilhangko_d3d12 *d3d12, const pilhangko_d3d12_ring_settings *settings, pilhangko_d3d12_ring *made) {
    D3D12_RESOURCE_DESC desc;
    pilhangko_d3d12_device over;
    pilhangko_d3d12_result result;
    pilhangko_status status;
    HRESULT driver;
    memset(&desc, 0, sizeof desc);
    desc.Dimension = D3D12_RESOURCE_DIMENSION_BUFFER;
    desc.Width = settings->size;
    desc.Height = desc.DepthOrArraySize = desc.MipLevels = 1;
    desc.SampleDesc.Count = 1;
    desc.Layout = D3D12_TEXTURE_LAYOUT_ROW_MAJOR;
    result = pilhangko_d3d12_create_resource(d3d12, &desc, &settings->placement, &made->buffer, &made->allocation);
    if (result.status != PILHANGKO_OK) return result;
    driver = map_buffer(made->buffer, &made->mapped);
    if (driver >= 0 && made->mapped) return result;
    status = pilhangko_d3d12_destroy_resource(d3d12, made->buffer, &made->allocation);
    if (status == PILHANGKO_OK) status = pilhangko_d3d12_read_device(d3d12, &over);
    return status == PILHANGKO_OK ? refused_by(over.device, PILHANGKO_D3D12_CALL_FAILED, driver) : undriven(status);
}

pilhangko_d3d12_result PILHANGKO_CALL pilhangko_d3d12_ring_create(
    pilhangko_d3d12 *d3d12, const pilhangko_d3d12_ring_settings *settings, pilhangko_d3d12_ring *ring) {
    pilhangko_d3d12_ring made;
    pilhangko_d3d12_result result;
    if (!d3d12 || !settings || !ring) return undriven(PILHANGKO_NULL_POINTER);
    if (!d3d12->opaque) return undriven(PILHANGKO_NO_HANDLE);
    memset(&made, 0, sizeof made);
    result = undriven(pilhangko_ring_create(&ring->ring, settings->size, settings->frames));
    if (result.status != PILHANGKO_OK) return result;
    result = make_ring_buffer(d3d12, settings, &made);
    if (result.status != PILHANGKO_OK) {
        (void)pilhangko_ring_destroy(&ring->ring);
        return result;
    }
    ring->buffer = made.buffer;
    ring->allocation = made.allocation;
    ring->mapped = made.mapped;
    return result;
}

pilhangko_status PILHANGKO_CALL pilhangko_d3d12_ring_allocate(
    pilhangko_d3d12_ring *ring, UINT64 size, UINT64 alignment, pilhangko_d3d12_ring_piece *piece) {
    uint64_t offset;
    pilhangko_status status;
    if (!ring || !piece) return PILHANGKO_NULL_POINTER;
    status = pilhangko_ring_allocate(&ring->ring, size, alignment, &offset);
    if (status != PILHANGKO_OK) return status;
    piece->offset = offset;
    piece->mapped = (char *)ring->mapped + offset;
    return status;
}

pilhangko_status PILHANGKO_CALL pilhangko_d3d12_ring_end_frame(pilhangko_d3d12_ring *ring, uint64_t *frame) {
    if (!ring || !frame) return PILHANGKO_NULL_POINTER;
    return pilhangko_ring_end_frame(&ring->ring, frame);
}

pilhangko_status PILHANGKO_CALL pilhangko_d3d12_ring_retire(pilhangko_d3d12_ring *ring, uint64_t frame) {
    if (!ring) return PILHANGKO_NULL_POINTER;
    return pilhangko_ring_retire(&ring->ring, frame);
}

pilhangko_status PILHANGKO_CALL pilhangko_d3d12_ring_destroy(pilhangko_d3d12 *d3d12, pilhangko_d3d12_ring *ring) {
    pilhangko_status status;
    if (!d3d12 || !ring) return PILHANGKO_NULL_POINTER;
    if (!ring->buffer) return PILHANGKO_NO_HANDLE;
    status = pilhangko_d3d12_destroy_resource(d3d12, ring->buffer, &ring->allocation);
    if (status != PILHANGKO_OK) return status;
    (void)pilhangko_ring_destroy(&ring->ring);
    memset(ring, 0, sizeof *ring);
    return status;
}
