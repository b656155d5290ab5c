/* Rings of the DirectX 12 binding over a fake device: rows that were worked out by hand, each status of each call, each question to the
 * driver and each request for host memory refused in turn. */
#include "fake_d3d12.h"
#include "refusing_heap.h"

#define OK ((pilhangko_status)PILHANGKO_OK)

static void ends(pilhangko_d3d12 *d3d12) {
    pilhangko_d3d12_ending ending;
    IS(pilhangko_d3d12_destroy(d3d12, &ending), OK);
    CHECK(ending.leaks == 0 && fake.heap_count == 0 && fake.resource_count == 0 && heap_held == 0);
}

static pilhangko_d3d12_ring_settings settings_of(UINT64 size, size_t frames, pilhangko_location location) {
    pilhangko_d3d12_ring_settings settings;
    memset(&settings, 0, sizeof settings);
    settings.size = size;
    settings.frames = frames;
    settings.placement.location = location;
    settings.placement.state = D3D12_RESOURCE_STATE_GENERIC_READ;
    settings.placement.name = "uploads";
    return settings;
}

static pilhangko_d3d12_ring rings(pilhangko_d3d12 *d3d12, UINT64 size, size_t frames) {
    pilhangko_d3d12_ring ring = {{0}, NULL, {NULL, 0, 0, {0, {0, 0, 0, 0, 0}}, 0, 0, 0}, NULL};
    const pilhangko_d3d12_ring_settings settings = settings_of(size, frames, PILHANGKO_LOCATION_CPU_TO_GPU);
    const pilhangko_d3d12_result result = pilhangko_d3d12_ring_create(d3d12, &settings, &ring);
    IS(result.status, OK);
    CHECK(result.driver == S_OK);
    return ring;
}

static void allocates(pilhangko_d3d12_ring *ring, UINT64 size, UINT64 alignment, UINT64 wanted) {
    pilhangko_d3d12_ring_piece piece;
    IS(pilhangko_d3d12_ring_allocate(ring, size, alignment, &piece), OK);
    CHECK(piece.offset == wanted && piece.mapped == fake_resource_of(ring->buffer)->bytes + wanted);
    memset(piece.mapped, 1, (size_t)size);
}

static void ends_frame(pilhangko_d3d12_ring *ring, uint64_t wanted) {
    uint64_t frame = 77;
    IS(pilhangko_d3d12_ring_end_frame(ring, &frame), OK);
    CHECK(frame == wanted);
}

static void rows(void) {
    pilhangko_d3d12 d3d12 = {0};
    const pilhangko_d3d12_settings settings = fake_settings();
    fake_begin(1);
    IS(pilhangko_d3d12_create(&d3d12, &settings).status, OK);
    pilhangko_d3d12_ring first = rings(&d3d12, 70000, 1), ring = rings(&d3d12, 1000, 2);
    pilhangko_d3d12_ring_piece piece = {7, NULL};
    pilhangko_ring_counts counts;
    uint64_t frame = 77;
    const struct fake_resource *r = fake_resource_of(ring.buffer);
    CHECK(ring.allocation.piece.memory_type == 3 && ring.allocation.heap == first.allocation.heap && ring.allocation.offset == 131072);
    CHECK(r->desc.Width == 1000 && r->desc.Height == 1 && r->desc.DepthOrArraySize == 1 && r->desc.MipLevels == 1);
    CHECK(r->desc.SampleDesc.Count == 1 && r->desc.Layout == D3D12_TEXTURE_LAYOUT_ROW_MAJOR && r->desc.Format == DXGI_FORMAT_UNKNOWN);
    CHECK(r->begins == D3D12_RESOURCE_STATE_GENERIC_READ && r->name_length == 7 && ring.mapped == r->bytes);
    allocates(&ring, 600, 256, 0);
    allocates(&ring, 100, 256, 768);
    IS(pilhangko_d3d12_ring_allocate(&ring, 200, 1, &piece), PILHANGKO_OUT_OF_MEMORY);
    ends_frame(&ring, 0);
    ends_frame(&ring, 1);
    IS(pilhangko_d3d12_ring_end_frame(&ring, &frame), PILHANGKO_TOO_MANY_FRAMES);
    IS(pilhangko_ring_statistics(&ring.ring, &counts), OK);
    CHECK(counts.taken == 868 && counts.frames == 2);
    IS(pilhangko_d3d12_ring_retire(&ring, 2), PILHANGKO_NOT_LIVE);
    IS(pilhangko_d3d12_ring_retire(&ring, 1), OK);
    allocates(&ring, 1000, 1, 0);
    CHECK(piece.offset == 7 && frame == 77);
    IS(pilhangko_d3d12_ring_destroy(&d3d12, &ring), OK);
    IS(pilhangko_d3d12_ring_destroy(&d3d12, &ring), PILHANGKO_NO_HANDLE);
    IS(pilhangko_d3d12_ring_destroy(&d3d12, &first), OK);
    ends(&d3d12);
}

static void is_refused(pilhangko_d3d12 *d3d12, pilhangko_d3d12_ring_settings settings, pilhangko_status status, HRESULT driver) {
    pilhangko_d3d12_ring ring, before;
    memset(&ring, 0, sizeof ring);
    before = ring;
    const pilhangko_d3d12_result result = pilhangko_d3d12_ring_create(d3d12, &settings, &ring);
    IS(result.status, status);
    CHECK(result.driver == driver && memcmp(&ring, &before, sizeof ring) == 0 && fake.resource_count == 0);
}

static void statuses(void) {
    pilhangko_d3d12 d3d12 = fake_binding(2), empty = {0}, other = {0};
    const pilhangko_d3d12_settings over = fake_settings();
    const pilhangko_d3d12_ring_settings good = settings_of(1000, 2, PILHANGKO_LOCATION_CPU_TO_GPU);
    pilhangko_d3d12_ring ring, none;
    pilhangko_d3d12_ring_piece piece;
    uint64_t frame;
    memset(&none, 0, sizeof none);
    IS(pilhangko_d3d12_ring_create(NULL, &good, &none).status, PILHANGKO_NULL_POINTER);
    IS(pilhangko_d3d12_ring_create(&d3d12, NULL, &none).status, PILHANGKO_NULL_POINTER);
    IS(pilhangko_d3d12_ring_create(&d3d12, &good, NULL).status, PILHANGKO_NULL_POINTER);
    IS(pilhangko_d3d12_ring_create(&empty, &good, &none).status, PILHANGKO_NO_HANDLE);
    is_refused(&d3d12, settings_of(0, 2, PILHANGKO_LOCATION_CPU_TO_GPU), PILHANGKO_INVALID, S_OK);
    is_refused(&d3d12, settings_of(1000, 2, (pilhangko_location)9), PILHANGKO_INVALID, S_OK);
    is_refused(&d3d12, settings_of(1000, 2, PILHANGKO_LOCATION_GPU_ONLY), PILHANGKO_D3D12_CALL_FAILED, FAKE_WRONG); /* it isn't mapped */
    IS(pilhangko_d3d12_ring_allocate(NULL, 1, 1, &piece), PILHANGKO_NULL_POINTER);
    IS(pilhangko_d3d12_ring_allocate(&none, 1, 1, NULL), PILHANGKO_NULL_POINTER);
    IS(pilhangko_d3d12_ring_allocate(&none, 1, 1, &piece), PILHANGKO_NO_HANDLE);
    IS(pilhangko_d3d12_ring_end_frame(NULL, &frame), PILHANGKO_NULL_POINTER);
    IS(pilhangko_d3d12_ring_end_frame(&none, NULL), PILHANGKO_NULL_POINTER);
    IS(pilhangko_d3d12_ring_end_frame(&none, &frame), PILHANGKO_NO_HANDLE);
    IS(pilhangko_d3d12_ring_retire(NULL, 0), PILHANGKO_NULL_POINTER);
    IS(pilhangko_d3d12_ring_retire(&none, 0), PILHANGKO_NO_HANDLE);
    IS(pilhangko_d3d12_ring_destroy(NULL, &none), PILHANGKO_NULL_POINTER);
    IS(pilhangko_d3d12_ring_destroy(&d3d12, NULL), PILHANGKO_NULL_POINTER);
    IS(pilhangko_d3d12_ring_destroy(&d3d12, &none), PILHANGKO_NO_HANDLE);
    ring = rings(&d3d12, 1000, 2);
    IS(pilhangko_d3d12_ring_create(&d3d12, &good, &ring).status, PILHANGKO_IN_USE);
    IS(pilhangko_d3d12_ring_allocate(&ring, 0, 1, &piece), PILHANGKO_INVALID);
    IS(pilhangko_d3d12_ring_allocate(&ring, 1, 0, &piece), PILHANGKO_INVALID);
    IS(pilhangko_d3d12_ring_destroy(&empty, &ring), PILHANGKO_NO_HANDLE);
    IS(pilhangko_d3d12_create(&other, &over).status, OK);
    IS(pilhangko_d3d12_ring_destroy(&other, &ring), PILHANGKO_NOT_LIVE);
    IS(pilhangko_d3d12_destroy(&other, NULL), OK);
    allocates(&ring, 1000, 1, 0);
    IS(pilhangko_d3d12_ring_destroy(&d3d12, &ring), OK);
    ends(&d3d12);
}

/* The heap, the buffer and the mapping are asked for: what was made is undone. */
static void each_question_refused(void) {
    static const struct {
        enum fake_answer answer;
        HRESULT code, told;
        pilhangko_status of_heap, of_others;
    } ways[] = {{FAKE_REFUSES, FAKE_WRONG, FAKE_WRONG, PILHANGKO_DRIVER_REFUSED, PILHANGKO_D3D12_CALL_FAILED},
        {FAKE_REFUSES, FAKE_REMOVED, FAKE_HUNG, PILHANGKO_D3D12_DEVICE_REMOVED, PILHANGKO_D3D12_DEVICE_REMOVED},
        {FAKE_GIVES_NOTHING, S_OK, S_OK, PILHANGKO_DRIVER_REFUSED, PILHANGKO_D3D12_CALL_FAILED}};
    for (size_t way = 0; way < 3; way++) {
        for (uint64_t question = 1; question <= 3; question++) {
            pilhangko_d3d12 d3d12 = fake_binding(2);
            fake_refuse(question, ways[way].answer, ways[way].code);
            is_refused(&d3d12, settings_of(1000, 2, PILHANGKO_LOCATION_CPU_TO_GPU), question == 1 ? ways[way].of_heap : ways[way].of_others,
                ways[way].told);
            CHECK(fake.questions == question);
            pilhangko_d3d12_ring ring = rings(&d3d12, 1000, 2);
            IS(pilhangko_d3d12_ring_destroy(&d3d12, &ring), OK);
            ends(&d3d12);
        }
    }
}

static void each_host_request_refused(void) {
    unsigned failed = 0;
    for (long request = 1;; request++) {
        pilhangko_d3d12 d3d12 = fake_binding(2);
        pilhangko_d3d12_ring ring;
        const pilhangko_d3d12_ring_settings settings = settings_of(1000, 2, PILHANGKO_LOCATION_CPU_TO_GPU);
        memset(&ring, 0, sizeof ring);
        heap_requests = 0;
        heap_refused = request;
        const pilhangko_status status = pilhangko_d3d12_ring_create(&d3d12, &settings, &ring).status;
        const bool is_over = heap_requests < request;
        heap_refused = 0;
        IS(status, is_over ? OK : PILHANGKO_HOST_OUT_OF_MEMORY);
        CHECK(is_over == (ring.buffer != NULL));
        if (is_over) IS(pilhangko_d3d12_ring_destroy(&d3d12, &ring), OK);
        ends(&d3d12);
        if (is_over) break;
        failed++;
    }
    CHECK(failed > 3);
}

int main(void) {
    rows();
    statuses();
    each_question_refused();
    each_host_request_refused();
    return 0;
}
