/* Moves that stay open over frames, by the Metal binding over a fake device: the rows of all bindings, and resources that are made anew. */
#include "pilhangko_metal.h"

#include "fake_metal.h"
#include "refusing_heap.h"
#include "test.h"

#define NAMED(rest) pilhangko_metal##rest
#define BYTES_OF(request) ((request)->size)
#define MB (UINT64_C(1) << 20)

static FakeDevice *device;

static pilhangko_metal another_binding(void) {
    pilhangko_metal metal = {0};
    const pilhangko_metal_settings settings = {.device = device, .device_block_size = 4 * MB, .host_block_size = 4 * MB};
    IS(pilhangko_metal_create(&metal, &settings), PILHANGKO_OK);
    return metal;
}

static pilhangko_metal binds(void) {
    memset(&fake, 0, sizeof fake);
    fake.devices = 1;
    return another_binding();
}

static pilhangko_metal_request request_for(uint64_t size) {
    const pilhangko_metal_request request = {size, 64, PILHANGKO_LOCATION_GPU_ONLY, NULL, 0};
    return request;
}

static pilhangko_status asks(pilhangko_metal *metal, const pilhangko_metal_request *request, pilhangko_metal_allocation *allocation) {
    return pilhangko_metal_allocate(metal, request, allocation);
}

static uint64_t word_of(const pilhangko_metal *metal, const pilhangko_metal_allocation *allocation) {
    const pilhangko_heaps_piece *piece = &allocation->piece;
    pilhangko_piece_view view;
    size_t shown;
    uint64_t word;
    IS(pilhangko_metal_user_data(metal, allocation, &word), PILHANGKO_OK);
    IS(pilhangko_metal_heaps_pieces(
           pilhangko_metal_allocator(metal), piece->memory_type, piece->piece.slot, piece->piece.offset, &view, 1, &shown), PILHANGKO_OK);
    CHECK(shown == 1 && view.number == piece->piece.number && view.word == word);
    return word;
}

static size_t block_count(void) {
    return fake.heaps;
}

static uint64_t piece_count(const pilhangko_metal *metal) {
    pilhangko_type_statistics counted;
    IS(pilhangko_metal_heaps_statistics(pilhangko_metal_allocator(metal), &counted), PILHANGKO_OK);
    return counted.pieces;
}

static void ends(pilhangko_metal *metal) {
    pilhangko_metal_ending ending;
    IS(pilhangko_metal_destroy(metal, &ending), PILHANGKO_OK);
    CHECK(ending.leaks == 0 && fake.heaps == 0 && fake.resources == 0 && fake.devices == 1 && heap_held == 0);
}

#include "defragment_rows.h"

/* ---- resources */

#define BUFFERS 3 /* of 2 MB, two in the lower heap and one in the upper one */

static id<MTLBuffer> makes(pilhangko_metal *metal, pilhangko_metal_movable *movable) {
    const pilhangko_metal_placement placement = {PILHANGKO_LOCATION_GPU_ONLY, NULL, 0};
    id<MTLBuffer> buffer = nil;
    IS(pilhangko_metal_create_buffer(metal, 2 * MB, &placement, &buffer, &movable->allocation), PILHANGKO_OK);
    IS(pilhangko_metal_read_buffer_request(metal, 2 * MB, placement.location, NULL, &movable->request), PILHANGKO_OK);
    return buffer;
}

/* The buffer is made anew by the heap of its second place, and the old one released. */
static id<MTLBuffer> made_anew(id<MTLBuffer> old, const pilhangko_metal_allocation *to) {
    id<MTLBuffer> buffer = [to->heap newBufferWithLength:2 * MB options:[to->heap resourceOptions] offset:(NSUInteger)to->offset];
    CHECK(buffer != nil);
    [old release];
    return buffer;
}

/* Of the buffers of the lower heap the first has a place in the upper one. */
static void resources_move(void) {
    pilhangko_metal metal = binds();
    pilhangko_metal_defragmentation it = {0};
    pilhangko_metal_movable table[BUFFERS];
    pilhangko_metal_move moves[BUFFERS];
    id<MTLBuffer> buffers[BUFFERS];
    size_t proposed = 99;
    for (unsigned i = 0; i < BUFFERS; i++) buffers[i] = makes(&metal, &table[i]);
    CHECK(fake.heaps == 2);
    IS(pilhangko_metal_defragmentation_propose(&metal, &it, table, BUFFERS, 8 * MB, moves, BUFFERS, &proposed), PILHANGKO_OK);
    CHECK(proposed == 1 && !it.done && moves[0].index == 0 && moves[0].to.heap == table[2].allocation.heap && moves[0].to.offset == 2 * MB);
    buffers[0] = made_anew(buffers[0], &moves[0].to);
    IS(pilhangko_metal_defragmentation_finish(&metal, &it, &moves[0].to), PILHANGKO_OK);
    table[0].allocation = moves[0].to;
    IS(pilhangko_metal_defragmentation_propose(&metal, &it, table, BUFFERS, 8 * MB, moves, BUFFERS, &proposed), PILHANGKO_OK);
    CHECK(proposed == 0 && it.done && it.moves_finished == 1 && it.bytes_moved == 2 * MB && it.blocks_given_back == 0);
    for (unsigned i = 0; i < BUFFERS; i++) {
        [buffers[i] release];
        IS(pilhangko_metal_free(&metal, &table[i].allocation), PILHANGKO_OK);
    }
    ends(&metal);
}

int main(void) {
    NSAutoreleasePool *pool = [[NSAutoreleasePool alloc] init];
    device = [[FakeDevice alloc] init];
    rows();
    resources_move();
    [device release];
    [pool drain];
    return 0;
}
