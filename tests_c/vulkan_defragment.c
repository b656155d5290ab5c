/* Moves that stay open over frames, by the Vulkan binding over a fake driver. */
#include "fake_vulkan.h"
#include "refusing_heap.h"

#define NAMED(rest) pilhangko_vulkan##rest
#define BYTES_OF(request) ((request)->requirements.size)
#define MB (UINT64_C(1) << 20)
#define COHERENT 2 /* a memory type that the host sees */

static pilhangko_vulkan another_binding(void) {
    pilhangko_vulkan vulkan = {0};
    pilhangko_vulkan_settings settings = fake_settings();
    settings.largest_host_block_size = settings.largest_device_block_size = 4 * MB;
    IS(pilhangko_vulkan_create(&vulkan, &settings), PILHANGKO_OK);
    return vulkan;
}

static pilhangko_vulkan binds(void) {
    fake_begin();
    return another_binding();
}

static pilhangko_vulkan_request request_for(VkDeviceSize size) {
    return fake_request(size, 64, COHERENT);
}

static pilhangko_status asks(pilhangko_vulkan *vulkan, const pilhangko_vulkan_request *request, pilhangko_vulkan_allocation *allocation) {
    return pilhangko_vulkan_allocate(vulkan, request, allocation).status;
}

static uint64_t word_of(const pilhangko_vulkan *vulkan, const pilhangko_vulkan_allocation *allocation) {
    const pilhangko_allocator_piece *piece = &allocation->piece;
    pilhangko_vulkan_allocation_told told;
    pilhangko_piece_view view;
    size_t shown;
    IS(pilhangko_vulkan_read_allocation(vulkan, allocation, &told), PILHANGKO_OK);
    IS(pilhangko_allocator_pieces(
           pilhangko_vulkan_allocator(vulkan), piece->memory_type, piece->piece.slot, piece->piece.offset, &view, 1, &shown), PILHANGKO_OK);
    CHECK(shown == 1 && view.number == piece->piece.number && view.word == told.user_data);
    return told.user_data;
}

static size_t block_count(void) {
    return fake.memory_count;
}

static uint64_t piece_count(const pilhangko_vulkan *vulkan) {
    pilhangko_type_statistics counted;
    IS(pilhangko_allocator_statistics(pilhangko_vulkan_allocator(vulkan), &counted), PILHANGKO_OK);
    return counted.pieces;
}

static void ends(pilhangko_vulkan *vulkan) {
    pilhangko_vulkan_ending ending;
    IS(pilhangko_vulkan_destroy(vulkan, &ending), PILHANGKO_OK);
    CHECK(ending.leaks == 0 && fake.memory_count == 0 && heap_held == 0);
}

#include "defragment_rows.h"

int main(void) {
    rows();
    return 0;
}
