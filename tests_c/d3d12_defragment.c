/* Moves that stay open over frames, by the DirectX 12 binding over a fake device: the rows of all bindings, and resources that are made anew. */
#include "fake_d3d12.h"
#include "refusing_heap.h"

#define NAMED(rest) pilhangko_d3d12##rest
#define BYTES_OF(request) ((request)->size)
#define MB (UINT64_C(1) << 20)

static pilhangko_d3d12 another_binding(void) {
    pilhangko_d3d12 d3d12 = {0};
    const pilhangko_d3d12_settings settings = fake_settings();
    IS(pilhangko_d3d12_create(&d3d12, &settings).status, PILHANGKO_OK);
    return d3d12;
}

static pilhangko_d3d12 binds(void) {
    fake_begin(2);
    return another_binding();
}

static pilhangko_d3d12_request request_for(uint64_t size) {
    const pilhangko_d3d12_request request = {size, 64, PILHANGKO_LOCATION_GPU_ONLY, PILHANGKO_CATEGORY_BUFFER, NULL, 0};
    return request;
}

static pilhangko_status asks(pilhangko_d3d12 *d3d12, const pilhangko_d3d12_request *request, pilhangko_d3d12_allocation *allocation) {
    return pilhangko_d3d12_allocate(d3d12, request, allocation).status;
}

static uint64_t word_of(const pilhangko_d3d12 *d3d12, const pilhangko_d3d12_allocation *allocation) {
    const pilhangko_heaps_piece *piece = &allocation->piece;
    pilhangko_piece_view view;
    size_t shown;
    uint64_t word;
    IS(pilhangko_d3d12_user_data(d3d12, allocation, &word), PILHANGKO_OK);
    IS(pilhangko_heaps_pieces(
           pilhangko_d3d12_allocator(d3d12), piece->memory_type, piece->piece.slot, piece->piece.offset, &view, 1, &shown), PILHANGKO_OK);
    CHECK(shown == 1 && view.number == piece->piece.number && view.word == word);
    return word;
}

static size_t block_count(void) {
    return fake.heap_count;
}

static uint64_t piece_count(const pilhangko_d3d12 *d3d12) {
    pilhangko_type_statistics counted;
    IS(pilhangko_heaps_statistics(pilhangko_d3d12_allocator(d3d12), &counted), PILHANGKO_OK);
    return counted.pieces;
}

static void ends(pilhangko_d3d12 *d3d12) {
    pilhangko_d3d12_ending ending;
    IS(pilhangko_d3d12_destroy(d3d12, &ending), PILHANGKO_OK);
    CHECK(ending.leaks == 0 && fake.heap_count == 0 && fake.resource_count == 0 && fake.references == 1 && heap_held == 0);
}

#include "defragment_rows.h"

/* ---- resources */

#define PLACED 3 /* buffers of 2 MB, two in the lower heap and one in the upper one */

static ID3D12Resource *makes(
    pilhangko_d3d12 *d3d12, const D3D12_RESOURCE_DESC *desc, bool committed, pilhangko_d3d12_movable *movable) {
    pilhangko_d3d12_placement placement;
    ID3D12Resource *resource = NULL;
    memset(&placement, 0, sizeof placement);
    placement.location = PILHANGKO_LOCATION_GPU_ONLY;
    placement.committed = committed;
    IS(pilhangko_d3d12_create_resource(d3d12, desc, &placement, &resource, &movable->allocation).status, PILHANGKO_OK);
    IS(pilhangko_d3d12_read_request(d3d12, desc, placement.location, NULL, &movable->request), PILHANGKO_OK);
    return resource;
}

/* The buffer is made anew at its second place, and the old one released. */
static ID3D12Resource *made_anew(
    pilhangko_d3d12 *d3d12, ID3D12Resource *old, const D3D12_RESOURCE_DESC *desc, const pilhangko_d3d12_allocation *to) {
    pilhangko_d3d12_placement placement;
    ID3D12Resource *resource = NULL;
    memset(&placement, 0, sizeof placement);
    IS(pilhangko_d3d12_place_resource(d3d12, to, 0, desc, &placement, &resource).status, PILHANGKO_OK);
    CHECK(fake_resource_of(resource)->heap == fake_heap_of(to->heap) && fake_resource_of(resource)->offset == to->offset);
    ID3D12Resource_Release(old);
    return resource;
}

/* A committed resource stays, wherever it stands in the table; of the placed ones of the lower heap the first has a place in the upper one. */
static void resources_move(void) {
    pilhangko_d3d12 d3d12 = binds();
    pilhangko_d3d12_defragmentation it = {0};
    const D3D12_RESOURCE_DESC desc = fake_buffer(2 * MB);
    pilhangko_d3d12_movable table[PLACED + 1];
    pilhangko_d3d12_move moves[PLACED + 1];
    ID3D12Resource *resources[PLACED + 1];
    size_t proposed = 99;
    for (unsigned i = 0; i <= PLACED; i++) resources[i] = makes(&d3d12, &desc, i == 0, &table[i]);
    CHECK(fake.heap_count == 2 && !table[0].allocation.heap);
    IS(pilhangko_d3d12_defragmentation_propose(&d3d12, &it, table, 1, 8 * MB, moves, 1, &proposed), PILHANGKO_OK);
    CHECK(proposed == 0 && it.done);
    IS(pilhangko_d3d12_defragmentation_propose(&d3d12, &it, table, PLACED + 1, 8 * MB, moves, PLACED + 1, &proposed), PILHANGKO_OK);
    CHECK(proposed == 1 && !it.done && moves[0].index == 1 && moves[0].to.heap == table[3].allocation.heap && moves[0].to.offset == 2 * MB);
    resources[1] = made_anew(&d3d12, resources[1], &desc, &moves[0].to);
    IS(pilhangko_d3d12_defragmentation_finish(&d3d12, &it, &moves[0].to), PILHANGKO_OK);
    table[1].allocation = moves[0].to;
    IS(pilhangko_d3d12_defragmentation_propose(&d3d12, &it, table, PLACED + 1, 8 * MB, moves, PLACED + 1, &proposed), PILHANGKO_OK);
    CHECK(proposed == 0 && it.done && it.moves_finished == 1 && it.bytes_moved == 2 * MB && it.blocks_given_back == 0);
    for (unsigned i = 0; i <= PLACED; i++) IS(pilhangko_d3d12_destroy_resource(&d3d12, resources[i], &table[i].allocation), PILHANGKO_OK);
    ends(&d3d12);
}

int main(void) {
    rows();
    resources_move();
    return 0;
}
