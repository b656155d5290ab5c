/* 1,000 buffers and textures of a GPU, filled through a ring over an upload buffer and read back through another buffer, by the DirectX 12
 * binding. Exit 0 where every byte came back and nothing is left. `d3d12_renderer TIER CAPTURE REPLIES` leaves a capture, and what gpu_trace
 * replies to it; TIER is the resource heap tier, 0 for the device's. */
#include "d3d12_device.h"

#include "d3d12_capture_files.h"

#define RESOURCES 1000
#define ROW 256   /* D3D12_TEXTURE_DATA_PITCH_ALIGNMENT */
#define PLACE 512 /* D3D12_TEXTURE_DATA_PLACEMENT_ALIGNMENT */

struct resource {
    ID3D12Resource *it;
    D3D12_RESOURCE_DESC desc;
    UINT64 bytes, from, to; /* how many in a copy, and where they are in the ring and in the readback buffer */
    pilhangko_d3d12_allocation allocation;
};

static struct gpu gpu;
static pilhangko_d3d12 d3d12;
static pilhangko_d3d12_ring uploads;
static unsigned char *uploaded; /* the ring's first byte */
static struct resource resources[RESOURCES], readback;
static unsigned buffers, textures, targets, committed;

static void check(pilhangko_status status) {
    if (status != PILHANGKO_OK) fail(pilhangko_status_text(status), (long)status);
}

static void check_result(pilhangko_d3d12_result result) {
    if (result.status != PILHANGKO_OK) fail(pilhangko_status_text(result.status), (long)result.driver);
}

static UINT64 capacity(void) {
    UINT64 bytes;
    check(pilhangko_d3d12_capacity(&d3d12, &bytes));
    return bytes;
}

static bool is_buffer(const struct resource *r) {
    return r->desc.Dimension == D3D12_RESOURCE_DIMENSION_BUFFER;
}

static D3D12_RESOURCE_DESC buffer_desc(UINT64 bytes) {
    D3D12_RESOURCE_DESC d;
    memset(&d, 0, sizeof d);
    d.Dimension = D3D12_RESOURCE_DIMENSION_BUFFER;
    d.Width = bytes;
    d.Height = d.DepthOrArraySize = d.MipLevels = 1;
    d.SampleDesc.Count = 1;
    d.Layout = D3D12_TEXTURE_LAYOUT_ROW_MAJOR;
    return d;
}

static D3D12_RESOURCE_DESC texture_desc(UINT width, UINT height, D3D12_RESOURCE_FLAGS flags) {
    D3D12_RESOURCE_DESC d;
    memset(&d, 0, sizeof d);
    d.Dimension = D3D12_RESOURCE_DIMENSION_TEXTURE2D;
    d.Width = width;
    d.Height = height;
    d.DepthOrArraySize = d.MipLevels = 1;
    d.Format = DXGI_FORMAT_R8G8B8A8_UNORM;
    d.SampleDesc.Count = 1;
    d.Flags = flags;
    return d;
}

static void create(struct resource *r, pilhangko_location location, bool is_committed, const char *name) {
    pilhangko_d3d12_placement placement;
    memset(&placement, 0, sizeof placement);
    placement.location = location;
    placement.state = D3D12_RESOURCE_STATE_COPY_DEST;
    placement.committed = is_committed;
    placement.name = name;
    check_result(pilhangko_d3d12_create_resource(&d3d12, &r->desc, &placement, &r->it, &r->allocation));
    reply_place(&r->allocation, capacity());
}

/* A third are textures, some of them render targets; one in fifty is committed. Sizes are odd, and the same on each run. */
static void make(unsigned i) {
    struct resource *r = &resources[i];
    const UINT width = 1 + i * 7 % 61, height = 1 + i * 11 % 67;
    if (i % 3 == 0) {
        r->desc = texture_desc(width, height, i % 9 == 0 ? D3D12_RESOURCE_FLAG_ALLOW_RENDER_TARGET : D3D12_RESOURCE_FLAG_NONE);
        r->bytes = (UINT64)((width * 4 + ROW - 1) / ROW * ROW) * height;
        create(r, PILHANGKO_LOCATION_GPU_ONLY, i % 50 == 1, "texture");
    } else {
        r->bytes = 4 * (1 + i * 7919 % 16384);
        r->desc = buffer_desc(r->bytes);
        create(r, PILHANGKO_LOCATION_GPU_ONLY, i % 50 == 1, "vertices");
    }
}

static void drop(struct resource *r) {
    check(pilhangko_d3d12_destroy_resource(&d3d12, r->it, &r->allocation));
    if (pilhangko_d3d12_free(&d3d12, &r->allocation) != PILHANGKO_NOT_LIVE) fail("a second free", 0);
    reply_freed(capacity());
    memset(r, 0, sizeof *r);
}

static void count(const struct resource *r) {
    if (is_buffer(r)) buffers++;
    else if (r->desc.Flags == D3D12_RESOURCE_FLAG_NONE) textures++;
    else targets++;
    committed += !r->allocation.heap;
}

static D3D12_TEXTURE_COPY_LOCATION whole(const struct resource *r) {
    D3D12_TEXTURE_COPY_LOCATION l;
    memset(&l, 0, sizeof l);
    l.pResource = r->it;
    l.Type = D3D12_TEXTURE_COPY_TYPE_SUBRESOURCE_INDEX;
    return l;
}

/* A texture's rows in a buffer. */
static D3D12_TEXTURE_COPY_LOCATION rows(ID3D12Resource *buffer, UINT64 offset, const struct resource *of) {
    D3D12_TEXTURE_COPY_LOCATION l;
    memset(&l, 0, sizeof l);
    l.pResource = buffer;
    l.Type = D3D12_TEXTURE_COPY_TYPE_PLACED_FOOTPRINT;
    l.PlacedFootprint.Offset = offset;
    l.PlacedFootprint.Footprint.Format = of->desc.Format;
    l.PlacedFootprint.Footprint.Width = (UINT)of->desc.Width;
    l.PlacedFootprint.Footprint.Height = of->desc.Height;
    l.PlacedFootprint.Footprint.Depth = 1;
    l.PlacedFootprint.Footprint.RowPitch = (UINT)(of->bytes / of->desc.Height);
    return l;
}

static void copy_there_and_back(const struct resource *r) {
    const D3D12_TEXTURE_COPY_LOCATION there = whole(r), from = rows(uploads.buffer, r->from, r), to = rows(readback.it, r->to, r);
    D3D12_RESOURCE_BARRIER wait;
    memset(&wait, 0, sizeof wait);
    wait.Type = D3D12_RESOURCE_BARRIER_TYPE_TRANSITION;
    wait.Transition.pResource = r->it;
    wait.Transition.Subresource = D3D12_RESOURCE_BARRIER_ALL_SUBRESOURCES;
    wait.Transition.StateBefore = D3D12_RESOURCE_STATE_COPY_DEST;
    wait.Transition.StateAfter = D3D12_RESOURCE_STATE_COPY_SOURCE;
    if (is_buffer(r)) ID3D12GraphicsCommandList_CopyBufferRegion(gpu.commands, r->it, 0, uploads.buffer, r->from, r->bytes);
    else ID3D12GraphicsCommandList_CopyTextureRegion(gpu.commands, &there, 0, 0, 0, &from, NULL);
    ID3D12GraphicsCommandList_ResourceBarrier(gpu.commands, 1, &wait);
    if (is_buffer(r)) ID3D12GraphicsCommandList_CopyBufferRegion(gpu.commands, readback.it, r->to, r->it, 0, r->bytes);
    else ID3D12GraphicsCommandList_CopyTextureRegion(gpu.commands, &to, 0, 0, 0, &there, NULL);
}

/* How many bytes of a resource came back; a texture's rows have bytes between them that are nobody's. */
static UINT64 compare(const struct resource *r, const unsigned char *read) {
    const UINT64 pitch = is_buffer(r) ? r->bytes : r->bytes / r->desc.Height, row = is_buffer(r) ? r->bytes : r->desc.Width * 4;
    UINT64 bytes = 0;
    for (UINT64 at = 0; at < r->bytes; at += pitch, bytes += row)
        if (memcmp(uploaded + r->from + at, read + r->to + at, (size_t)row)) fail("other bytes came back", (long)r->to);
    return bytes;
}

/* All resources' bytes, each at a place of its own of the readback buffer. */
static UINT64 line_up(void) {
    UINT64 bytes = 0;
    for (unsigned i = 0; i < RESOURCES; i++) {
        resources[i].to = bytes;
        bytes += (resources[i].bytes + PLACE - 1) / PLACE * PLACE;
    }
    return bytes;
}

static void make_ring(UINT64 bytes) {
    pilhangko_d3d12_ring_settings settings;
    memset(&settings, 0, sizeof settings);
    settings.size = bytes;
    settings.frames = 1;
    settings.placement.location = PILHANGKO_LOCATION_CPU_TO_GPU;
    settings.placement.state = D3D12_RESOURCE_STATE_GENERIC_READ;
    settings.placement.name = "uploads";
    check_result(pilhangko_d3d12_ring_create(&d3d12, &settings, &uploads));
    reply_place(&uploads.allocation, capacity());
    uploaded = (unsigned char *)uploads.mapped;
}

/* The bytes to send, and the copies that do it. */
static void fill(struct resource *r) {
    pilhangko_d3d12_ring_piece piece;
    check(pilhangko_d3d12_ring_allocate(&uploads, r->bytes, PLACE, &piece));
    for (UINT64 k = 0; k < r->bytes; k++) ((unsigned char *)piece.mapped)[k] = (unsigned char)((piece.offset + k) * 2654435761u >> 13);
    r->from = piece.offset;
    copy_there_and_back(r);
}

/* Fills all resources, reads them back and compares. */
static void fill_and_compare(void) {
    const UINT64 bytes = line_up();
    const D3D12_RANGE nothing = {0, 0};
    UINT64 same = 0;
    uint64_t frame;
    void *read;
    make_ring(bytes + PLACE);
    readback.desc = buffer_desc(bytes);
    create(&readback, PILHANGKO_LOCATION_GPU_TO_CPU, false, "readback");
    for (unsigned i = 0; i < RESOURCES; i++) fill(&resources[i]);
    check(pilhangko_d3d12_ring_end_frame(&uploads, &frame));
    run_commands(&gpu);
    DID(ID3D12Resource_Map(readback.it, 0, NULL, &read));
    for (unsigned i = 0; i < RESOURCES; i++) same += compare(&resources[i], (const unsigned char *)read);
    ID3D12Resource_Unmap(readback.it, 0, &nothing);
    check(pilhangko_d3d12_ring_retire(&uploads, frame));
    for (unsigned i = 0; i < RESOURCES; i++) count(&resources[i]);
    printf("%u resources with %llu bytes came back whole: %u buffers, %u textures, %u render targets; %u of them committed\n", RESOURCES,
        (unsigned long long)same, buffers, textures, targets, committed);
}

/* Where there is an adapter, each memory type has a bound from here on. */
static void follow_budgets(void) {
    size_t types;
    check(pilhangko_heaps_type_count(pilhangko_d3d12_allocator(&d3d12), &types));
    for (uint32_t i = 0; i < 2; i++) {
        pilhangko_d3d12_group group;
        check(pilhangko_d3d12_read_group(&d3d12, i, &group));
        printf("group %u: %llu bytes in heaps, %llu committed; the process has %llu of %llu\n", i, (unsigned long long)group.held,
            (unsigned long long)group.committed, (unsigned long long)group.usage, (unsigned long long)group.budget);
    }
    if (pilhangko_d3d12_update_budgets(&d3d12) == PILHANGKO_D3D12_NO_BUDGETS) return;
    while (types-- > 0) reply("ok");
}

static void make_binding(uint32_t heap_tier) {
    pilhangko_d3d12_settings settings;
    memset(&settings, 0, sizeof settings);
    settings.device = gpu.device;
    settings.adapter = gpu.adapter;
    settings.heap_tier = heap_tier;
    settings.device_block_size = settings.host_block_size = UINT64_C(8) << 20;
    settings.largest_device_block_size = settings.largest_host_block_size = UINT64_C(32) << 20;
    settings.capture_write = capture ? write_capture : NULL;
    settings.capture_user = capture;
    check_result(pilhangko_d3d12_create(&d3d12, &settings));
    reply("ok");
}

int main(int count_of_words, char **words) {
    pilhangko_d3d12_ending ending;
    if (count_of_words > 1 && (count_of_words != 4 || !open_files(words[2], words[3]))) fail("words other than TIER CAPTURE REPLIES", 0);
    make_gpu(&gpu);
    make_binding(count_of_words > 1 && words[1][0] == '1');
    for (unsigned i = 0; i < RESOURCES; i++) make(i);
    for (unsigned i = 0; i < RESOURCES; i += 2) drop(&resources[i]); /* half of them go, and others come into the gaps */
    for (unsigned i = 0; i < RESOURCES; i += 2) make(i);
    follow_budgets();
    fill_and_compare();
    for (unsigned i = 0; i < RESOURCES; i++) drop(&resources[i * 7 % RESOURCES]);
    check(pilhangko_d3d12_ring_destroy(&d3d12, &uploads));
    reply_freed(capacity());
    drop(&readback);
    check(pilhangko_d3d12_destroy(&d3d12, &ending));
    reply("held 0");
    if (capture) fclose(capture), fclose(replies);
    const unsigned long left = end_gpu(&gpu);
    printf("%llu allocations and %lu references to the device left\n", (unsigned long long)ending.leaks, left);
    return ending.leaks || left || (capture && ending.capture.end != PILHANGKO_D3D12_CAPTURE_WHOLE);
}
