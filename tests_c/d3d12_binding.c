/* The DirectX 12 binding over a fake device: rows that were worked out by hand, each status of each call, each question to the driver and
 * each request for host memory refused in turn. */
#include "fake_d3d12.h"
#include "refusing_heap.h"

#define MB (UINT64_C(1) << 20)
#define OK ((pilhangko_status)PILHANGKO_OK)
#define TARGET D3D12_RESOURCE_FLAG_ALLOW_RENDER_TARGET
#define DEPTH D3D12_RESOURCE_FLAG_ALLOW_DEPTH_STENCIL

/* Nothing may be left, of the driver's and of the host's. */
static void ends(pilhangko_d3d12 *d3d12, uint64_t leaks) {
    pilhangko_d3d12_ending ending = {99, {9, 9}};
    IS(pilhangko_d3d12_destroy(d3d12, &ending), OK);
    CHECK(ending.leaks == leaks && ending.capture.end == PILHANGKO_D3D12_CAPTURE_NONE && ending.capture.bytes == 0);
    CHECK(!d3d12->opaque && fake.heap_count == 0 && fake.references == 1 && fake.adapter.references == 1 && heap_held == 0);
}

static pilhangko_d3d12_request asks(UINT64 size, UINT64 alignment, pilhangko_location location, pilhangko_category category) {
    const pilhangko_d3d12_request request = {size, alignment, location, category, "row", 0};
    return request;
}

static pilhangko_d3d12_placement goes_to(pilhangko_location location) {
    pilhangko_d3d12_placement p;
    memset(&p, 0, sizeof p);
    p.location = location;
    p.state = D3D12_RESOURCE_STATE_COPY_DEST;
    return p;
}

struct made {
    ID3D12Resource *resource;
    pilhangko_d3d12_allocation allocation;
};

static struct made creates(pilhangko_d3d12 *d3d12, const D3D12_RESOURCE_DESC *desc, const pilhangko_d3d12_placement *placement) {
    struct made it;
    memset(&it, 0, sizeof it);
    const pilhangko_d3d12_result result = pilhangko_d3d12_create_resource(d3d12, desc, placement, &it.resource, &it.allocation);
    IS(result.status, OK);
    CHECK(result.driver == S_OK && it.resource);
    return it;
}

static void drops(pilhangko_d3d12 *d3d12, const struct made *it) {
    IS(pilhangko_d3d12_destroy_resource(d3d12, it->resource, &it->allocation), OK);
    IS(pilhangko_d3d12_destroy_resource(d3d12, it->resource, &it->allocation), PILHANGKO_NOT_LIVE);
}

static pilhangko_d3d12_allocation allocates(pilhangko_d3d12 *d3d12, const pilhangko_d3d12_request *request) {
    pilhangko_d3d12_allocation a;
    const pilhangko_d3d12_result result = pilhangko_d3d12_allocate(d3d12, request, &a);
    IS(result.status, OK);
    CHECK(result.driver == S_OK);
    return a;
}

static void is_at(const pilhangko_d3d12_allocation *a, size_t type, uint64_t heap, UINT64 offset, UINT64 size) {
    CHECK(a->piece.memory_type == type && fake_heap_of(a->heap)->number == heap && a->offset == offset && a->size == size);
    CHECK(a->piece.piece.block == (uintptr_t)a->heap && a->piece.piece.offset == offset && a->piece.piece.size == size);
}

static bool has_heap(UINT64 size, D3D12_HEAP_TYPE type, int page, int pool, unsigned flags) {
    const D3D12_HEAP_DESC *h = &fake.last_heap;
    return h->SizeInBytes == size && h->Properties.Type == type && (int)h->Properties.CPUPageProperty == page &&
           (int)h->Properties.MemoryPoolPreference == pool && (unsigned)h->Flags == flags;
}

/* ---- rows */

/* At tier 2 a memory type for each location: the first serves all that asks for none. */
static void rows_of_tier_2(void) {
    pilhangko_d3d12 d3d12 = fake_binding(2);
    const D3D12_RESOURCE_DESC buffer = fake_buffer(100), texture = fake_texture(300, 300, 0), target = fake_texture(10, 10, TARGET);
    const pilhangko_d3d12_placement on_gpu = goes_to(PILHANGKO_LOCATION_GPU_ONLY), anywhere = goes_to(PILHANGKO_LOCATION_UNKNOWN);
    const pilhangko_d3d12_placement up = goes_to(PILHANGKO_LOCATION_CPU_TO_GPU), back = goes_to(PILHANGKO_LOCATION_GPU_TO_CPU);
    const struct made a = creates(&d3d12, &buffer, &on_gpu);
    CHECK(has_heap(4 * MB, D3D12_HEAP_TYPE_DEFAULT, 0, 0, 0));
    const struct made b = creates(&d3d12, &texture, &anywhere), c = creates(&d3d12, &target, &on_gpu);
    is_at(&a.allocation, 0, 1, 0, 65536);
    is_at(&b.allocation, 0, 1, 65536, 393216); /* 360,000 bytes in whole units */
    is_at(&c.allocation, 0, 1, 458752, 65536);
    const struct made d = creates(&d3d12, &buffer, &up);
    CHECK(has_heap(4 * MB, D3D12_HEAP_TYPE_CUSTOM, D3D12_CPU_PAGE_PROPERTY_WRITE_COMBINE, D3D12_MEMORY_POOL_L0, 0));
    const struct made e = creates(&d3d12, &buffer, &back);
    CHECK(has_heap(4 * MB, D3D12_HEAP_TYPE_CUSTOM, D3D12_CPU_PAGE_PROPERTY_WRITE_BACK, D3D12_MEMORY_POOL_L0, 0));
    is_at(&d.allocation, 1, 2, 0, 65536);
    is_at(&e.allocation, 2, 3, 0, 65536);
    CHECK(fake_resource_of(a.resource)->begins == D3D12_RESOURCE_STATE_COPY_DEST && !fake_resource_of(a.resource)->in_layout);
    drops(&d3d12, &b);
    const struct made f = creates(&d3d12, &target, &on_gpu);
    is_at(&f.allocation, 0, 1, 65536, 65536); /* in the gap */
    drops(&d3d12, &a);
    drops(&d3d12, &c);
    drops(&d3d12, &d);
    drops(&d3d12, &e);
    drops(&d3d12, &f);
    CHECK(fake.heap_count == 3 && fake.resource_count == 0); /* the only shared heap of each memory type stays */
    ends(&d3d12, 0);
}

/* At tier 1 each location has a memory type for each category. */
static void rows_of_tier_1(void) {
    static const unsigned denied[] = {0xc0, 0x84, 0x44};
    static const pilhangko_location locations[] = {PILHANGKO_LOCATION_GPU_ONLY, PILHANGKO_LOCATION_CPU_TO_GPU, PILHANGKO_LOCATION_GPU_TO_CPU};
    pilhangko_d3d12 d3d12 = fake_binding(1);
    const D3D12_RESOURCE_DESC descs[] = {fake_buffer(1), fake_texture(1, 1, DEPTH), fake_texture(1, 1, 0)};
    struct made made[9];
    for (size_t i = 0; i < 9; i++) {
        const pilhangko_d3d12_placement p = goes_to(locations[i / 3]);
        made[i] = creates(&d3d12, &descs[i % 3], &p);
        is_at(&made[i].allocation, i, i + 1, 0, 65536);
        CHECK((unsigned)fake.last_heap.Flags == denied[i % 3]);
    }
    for (size_t i = 0; i < 9; i++) drops(&d3d12, &made[i]);
    ends(&d3d12, 0);
}

/* Resources that are larger than a heap, or aligned more, and the sum of the heaps. */
static void rows_of_large_resources(void) {
    pilhangko_d3d12 d3d12 = fake_binding(2);
    pilhangko_d3d12_placement p = goes_to(PILHANGKO_LOCATION_CPU_TO_GPU);
    const D3D12_RESOURCE_DESC large = fake_buffer(9 * MB), little = fake_buffer(1);
    D3D12_RESOURCE_DESC samples = fake_texture(64, 64, TARGET), tiny = fake_texture(16, 16, 0);
    UINT64 capacity = 0;
    const struct made a = creates(&d3d12, &large, &p); /* more than the next shared heap: a heap of its own */
    CHECK(has_heap(9 * MB, D3D12_HEAP_TYPE_CUSTOM, 2, 1, 0));
    const struct made b = creates(&d3d12, &little, &p);
    CHECK(fake.last_heap.SizeInBytes == 4 * MB);
    samples.SampleDesc.Count = 4;
    tiny.Alignment = FAKE_SMALL;
    p.location = PILHANGKO_LOCATION_GPU_ONLY;
    const struct made c = creates(&d3d12, &tiny, &p), d = creates(&d3d12, &samples, &p);
    is_at(&c.allocation, 0, 3, 0, 4096);
    is_at(&d.allocation, 0, 4, 0, 65536); /* at a multiple of 4 MB, which the third heap doesn't have */
    IS(pilhangko_d3d12_capacity(&d3d12, &capacity), OK);
    CHECK(capacity == 21 * MB);
    drops(&d3d12, &a);
    drops(&d3d12, &d);
    IS(pilhangko_d3d12_capacity(&d3d12, &capacity), OK);
    CHECK(capacity == 8 * MB && fake.heap_count == 2);
    drops(&d3d12, &b);
    drops(&d3d12, &c);
    ends(&d3d12, 0);
}

/* A committed resource has the properties of its location's heaps and no heap; its record is counted. */
static void committed_rows(void) {
    static const struct {
        pilhangko_location location;
        D3D12_HEAP_TYPE type;
        int page, pool;
    } each[] = {{PILHANGKO_LOCATION_UNKNOWN, D3D12_HEAP_TYPE_DEFAULT, 0, 0}, {PILHANGKO_LOCATION_GPU_ONLY, D3D12_HEAP_TYPE_DEFAULT, 0, 0},
        {PILHANGKO_LOCATION_CPU_TO_GPU, D3D12_HEAP_TYPE_CUSTOM, 2, 1}, {PILHANGKO_LOCATION_GPU_TO_CPU, D3D12_HEAP_TYPE_CUSTOM, 3, 1}};
    for (size_t i = 0; i < 4; i++) {
        pilhangko_d3d12 d3d12 = fake_binding(2);
        const size_t type = i < 2 ? 0 : i - 1;
        const D3D12_RESOURCE_DESC desc = fake_buffer(100000);
        pilhangko_heaps_committed_statistics counted = {9, 9};
        pilhangko_d3d12_placement p = goes_to(each[i].location);
        pilhangko_heaps_piece none;
        memset(&none, 0, sizeof none);
        p.committed = true;
        p.committed_flags = D3D12_HEAP_FLAG_SHARED;
        const struct made it = creates(&d3d12, &desc, &p);
        const struct fake_resource *r = fake_resource_of(it.resource);
        CHECK(!r->heap && r->flags == D3D12_HEAP_FLAG_SHARED && r->properties.Type == each[i].type);
        CHECK((int)r->properties.CPUPageProperty == each[i].page && (int)r->properties.MemoryPoolPreference == each[i].pool);
        CHECK(!it.allocation.heap && it.allocation.offset == 0 && it.allocation.size == 131072);
        CHECK(memcmp(&it.allocation.piece, &none, sizeof none) == 0 && fake.heap_count == 0);
        IS(pilhangko_heaps_committed_of(pilhangko_d3d12_allocator(&d3d12), type, &counted), OK);
        CHECK(counted.count == 1 && counted.bytes == 131072);
        drops(&d3d12, &it);
        IS(pilhangko_heaps_committed_of(pilhangko_d3d12_allocator(&d3d12), type, &counted), OK);
        CHECK(counted.count == 0 && counted.bytes == 0 && fake.resource_count == 0);
        ends(&d3d12, 0);
    }
}

/* A caller who holds a reference of its own frees the allocation behind its last release. */
static void references(void) {
    pilhangko_d3d12 d3d12 = fake_binding(2);
    const D3D12_RESOURCE_DESC desc = fake_buffer(5 * MB);
    pilhangko_d3d12_placement p = goes_to(PILHANGKO_LOCATION_GPU_ONLY);
    struct made it = creates(&d3d12, &desc, &p);
    CHECK(fake_resource_of(it.resource)->references == 1 && fake_heap_of(it.allocation.heap)->references == 1);
    ID3D12Resource_AddRef(it.resource);
    ID3D12Resource_Release(it.resource);
    ID3D12Resource_Release(it.resource);
    IS(pilhangko_d3d12_free(&d3d12, &it.allocation), OK);
    CHECK(fake.heap_count == 0); /* it was the resource's own */
    p.committed = true;
    it = creates(&d3d12, &desc, &p);
    IS(pilhangko_d3d12_free(&d3d12, &it.allocation), OK);
    CHECK(fake_resource_of(it.resource)->references == 1); /* still the caller's */
    ID3D12Resource_Release(it.resource);
    ends(&d3d12, 0);
}

/* Resources beside one another, and over one another, at an allocation. */
static void placing_rows(void) {
    pilhangko_d3d12 d3d12 = fake_binding(2);
    const pilhangko_d3d12_placement p = goes_to(PILHANGKO_LOCATION_UNKNOWN); /* doesn't count */
    const D3D12_RESOURCE_DESC whole = fake_buffer(327680), part = fake_buffer(1);
    pilhangko_d3d12_request q;
    ID3D12Resource *r[3] = {NULL, NULL, NULL};
    const struct made before = creates(&d3d12, &part, &p);
    IS(pilhangko_d3d12_read_request(&d3d12, &whole, PILHANGKO_LOCATION_GPU_ONLY, "several", &q), OK);
    CHECK(q.size == 327680 && q.alignment == 65536 && q.category == PILHANGKO_CATEGORY_BUFFER && !strcmp(q.name, "several") && q.user_data == 0);
    const pilhangko_d3d12_allocation a = allocates(&d3d12, &q);
    is_at(&a, 0, 1, 65536, 327680);
    IS(pilhangko_d3d12_place_resource(&d3d12, &a, 65536, &part, &p, &r[0]).status, OK);
    CHECK(fake_resource_of(r[0])->offset == 131072 && fake_resource_of(r[0])->heap == fake_heap_of(a.heap));
    IS(pilhangko_d3d12_place_resource(&d3d12, &a, 262144, &part, &p, &r[1]).status, OK);
    IS(pilhangko_d3d12_place_resource(&d3d12, &a, 1, &part, &p, &r[2]).status, PILHANGKO_D3D12_OUT_OF_RANGE);
    IS(pilhangko_d3d12_place_resource(&d3d12, &a, 327680, &part, &p, &r[2]).status, PILHANGKO_D3D12_OUT_OF_RANGE);
    IS(pilhangko_d3d12_place_resource(&d3d12, &a, UINT64_MAX, &part, &p, &r[2]).status, PILHANGKO_D3D12_OUT_OF_RANGE);
    IS(pilhangko_d3d12_place_resource(&d3d12, &a, 65536, &whole, &p, &r[2]).status, PILHANGKO_D3D12_OUT_OF_RANGE);
    CHECK(!r[2] && fake.resource_count == 3);
    fake.may_alias = true;
    IS(pilhangko_d3d12_place_resource(&d3d12, &a, 0, &whole, &p, &r[2]).status, OK);
    for (size_t i = 0; i < 3; i++) ID3D12Resource_Release(r[i]);
    IS(pilhangko_d3d12_free(&d3d12, &a), OK);
    r[2] = NULL;
    IS(pilhangko_d3d12_place_resource(&d3d12, &a, 0, &whole, &p, &r[2]).status, PILHANGKO_NOT_LIVE);
    CHECK(!r[2]);
    drops(&d3d12, &before);
    ends(&d3d12, 0);
}

/* A texture in a layout, with formats or without: all that was asked for reaches the driver, or the newest interface's lack is told. */
static void in_layout(pilhangko_d3d12 *d3d12, int version, pilhangko_d3d12_placement p, pilhangko_status lack) {
    const D3D12_RESOURCE_DESC desc = fake_texture(65, 7, TARGET);
    struct made it;
    memset(&it, 0, sizeof it);
    p.in_layout = true;
    p.state = (D3D12_RESOURCE_STATES)4; /* a layout's number, and any goes on */
    IS(pilhangko_d3d12_create_resource(d3d12, &desc, &p, &it.resource, &it.allocation).status, lack);
    CHECK((it.resource != NULL) == (lack == OK));
    if (lack != OK) return;
    const struct fake_resource *r = fake_resource_of(it.resource);
    CHECK(version >= 10 && r->in_layout && r->begins == 4 && r->has_clear_value && r->clear_value.Color[3] == 4);
    CHECK(r->format_count == p.format_count && (p.format_count == 0 || r->formats[1] == p.formats[1]));
    CHECK(memcmp(&r->desc, &desc, offsetof(D3D12_RESOURCE_DESC, Flags) + sizeof desc.Flags) == 0);
    drops(d3d12, &it);
}

/* States by ID3D12Device, layouts by ID3D12Device10, castable formats by ID3D12Device12. */
static void layouts(int version, bool committed) {
    static const DXGI_FORMAT formats[] = {DXGI_FORMAT_R8G8B8A8_UNORM, DXGI_FORMAT_R8G8B8A8_UNORM_SRGB};
    static const D3D12_CLEAR_VALUE clear_value = {DXGI_FORMAT_R8G8B8A8_UNORM, {{1, 2, 3, 4}}};
    const D3D12_RESOURCE_DESC desc = fake_texture(65, 7, TARGET);
    const pilhangko_d3d12_settings settings = fake_settings();
    pilhangko_d3d12_placement p = goes_to(PILHANGKO_LOCATION_GPU_ONLY);
    pilhangko_d3d12 d3d12 = {0};
    pilhangko_d3d12_device over;
    struct made it;
    fake_begin(2);
    fake.version = version;
    IS(pilhangko_d3d12_create(&d3d12, &settings).status, OK);
    CHECK(fake.references == (version ? 3u : 2u)); /* the device's, and the newer interface's */
    IS(pilhangko_d3d12_read_device(&d3d12, &over), OK);
    CHECK(over.version == (uint32_t)version && over.device == settings.device && over.adapter == settings.adapter && over.heap_tier == 2);
    p.committed = committed;
    p.clear_value = &clear_value;
    const struct made in_state = creates(&d3d12, &desc, &p);
    CHECK(!fake_resource_of(in_state.resource)->in_layout && fake_resource_of(in_state.resource)->has_clear_value);
    in_layout(&d3d12, version, p, version < 10 ? PILHANGKO_LAYOUT_NEEDS_DEVICE10 : PILHANGKO_OK);
    p.format_count = 2;
    p.formats = formats;
    in_layout(&d3d12, version, p, version < 12 ? PILHANGKO_FORMATS_NEED_DEVICE12 : PILHANGKO_OK);
    IS(pilhangko_d3d12_create_resource(&d3d12, &desc, &p, &it.resource, &it.allocation).status, PILHANGKO_FORMATS_NEED_LAYOUT);
    drops(&d3d12, &in_state);
    ends(&d3d12, 0);
}

static size_t name_of(const char *name, ID3D12Resource **resource, bool committed) {
    static pilhangko_d3d12 d3d12;
    const D3D12_RESOURCE_DESC desc = fake_buffer(1);
    pilhangko_d3d12_placement p = goes_to(PILHANGKO_LOCATION_GPU_ONLY);
    static struct made last;
    if (last.resource) drops(&d3d12, &last);
    memset(&last, 0, sizeof last);
    if (!resource) {
        ends(&d3d12, 0);
        return 0;
    }
    if (!d3d12.opaque) d3d12 = fake_binding(2);
    p.name = name;
    p.committed = committed;
    last = creates(&d3d12, &desc, &p);
    *resource = last.resource;
    return fake_resource_of(last.resource)->name_length;
}

/* Names of resources: UTF-8 in WCHARs of two or four bytes, cut where they are long; of a committed one also text that isn't UTF-8. */
static void names(void) {
    const bool is_wide = sizeof(WCHAR) == 4;
    char long_name[300];
    ID3D12Resource *r;
    memset(long_name, 'x', sizeof long_name - 1);
    long_name[sizeof long_name - 1] = 0;
    CHECK(name_of(NULL, &r, false) == 0);
    CHECK(name_of("abc", &r, false) == 3 && fake_resource_of(r)->name[2] == 'c');
    CHECK(name_of("t\xc3\xa4\xe2\x82\xac", &r, false) == 3 && fake_resource_of(r)->name[1] == 0xe4 && fake_resource_of(r)->name[2] == 0x20ac);
    CHECK(name_of("\xf0\x9f\x8e\x83!", &r, false) == (is_wide ? 2u : 3u));
    CHECK((uint32_t)fake_resource_of(r)->name[0] == (is_wide ? 0x1f383u : 0xd83cu) && fake_resource_of(r)->name[is_wide ? 1 : 2] == '!');
    CHECK(name_of(long_name, &r, false) == 127);
    CHECK(name_of("\xff\xff z", &r, true) == 4 && fake_resource_of(r)->name[3] == 'z');
    CHECK(name_of("\xf7\xbf\xbf\xbf", &r, true) == 1 && name_of("\xe2", &r, true) == 1);
    (void)name_of(NULL, NULL, false);
}

/* ---- create */

static void texts(void) {
    for (pilhangko_status status = PILHANGKO_D3D12_CALL_FAILED; status <= PILHANGKO_D3D12_NO_CAPTURE; status++) {
        CHECK(!strncmp(pilhangko_status_name(status), "PILHANGKO_D3D12_", 16));
        CHECK(strcmp(pilhangko_status_text(status), "unknown status"));
    }
    CHECK(!strcmp(pilhangko_status_text(PILHANGKO_D3D12_DEVICE_REMOVED), "the device was removed"));
    CHECK(!strcmp(pilhangko_status_text(406), "unknown status") && !strcmp(pilhangko_status_name(406), "unknown status"));
}

static void is_not_made(const pilhangko_d3d12_settings *settings, pilhangko_status status, HRESULT driver) {
    pilhangko_d3d12 d3d12 = {0};
    const pilhangko_d3d12_result result = pilhangko_d3d12_create(&d3d12, settings);
    IS(result.status, status);
    CHECK(result.driver == driver && !d3d12.opaque && fake.references == 1 && fake.adapter.references == 1 && heap_held == 0);
}

static void creations(void) {
    pilhangko_d3d12 d3d12 = {0};
    const pilhangko_d3d12_settings good = fake_settings();
    pilhangko_d3d12_settings s = good;
    pilhangko_d3d12_device over;
    fake_begin(2);
    IS(pilhangko_d3d12_create(NULL, &good).status, PILHANGKO_NULL_POINTER);
    is_not_made(NULL, PILHANGKO_NULL_POINTER, S_OK);
    s.device = NULL;
    is_not_made(&s, PILHANGKO_NULL_POINTER, S_OK);
    fake.tier_code = FAKE_WRONG;
    is_not_made(&good, PILHANGKO_D3D12_CALL_FAILED, FAKE_WRONG);
    fake.tier_code = FAKE_REMOVED;
    is_not_made(&good, PILHANGKO_D3D12_DEVICE_REMOVED, FAKE_HUNG);
    fake.tells_reason = false;
    is_not_made(&good, PILHANGKO_D3D12_DEVICE_REMOVED, FAKE_REMOVED);
    s = good;
    s.heap_tier = 1; /* the device isn't asked */
    s.adapter = NULL;
    IS(pilhangko_d3d12_create(&d3d12, &s).status, OK);
    IS(pilhangko_d3d12_create(&d3d12, &s).status, PILHANGKO_IN_USE);
    IS(pilhangko_d3d12_read_device(&d3d12, &over), OK);
    CHECK(over.heap_tier == 1 && !over.adapter && !over.is_unified && fake.references == 2 && fake.adapter.references == 1);
    ends(&d3d12, 0);
    fake.tier_code = S_OK;
    fake.tier = (D3D12_RESOURCE_HEAP_TIER)0;
    is_not_made(&good, PILHANGKO_INVALID_TIER, S_OK);
    fake.tier = (D3D12_RESOURCE_HEAP_TIER)3; /* a later one is as 2 */
    fake.is_unified = true;
    IS(pilhangko_d3d12_create(&d3d12, &good).status, OK);
    IS(pilhangko_d3d12_read_device(&d3d12, &over), OK);
    CHECK(over.heap_tier == 3 && over.adapter == good.adapter && over.is_unified && fake.adapter.references == 2);
    ends(&d3d12, 0);
}

/* Block sizes by default, and the caller's heap flags beside the allocator's. */
static void settings_rows(void) {
    const D3D12_RESOURCE_DESC desc = fake_buffer(1);
    const pilhangko_d3d12_placement on_gpu = goes_to(PILHANGKO_LOCATION_GPU_ONLY), up = goes_to(PILHANGKO_LOCATION_CPU_TO_GPU);
    pilhangko_d3d12_settings s = fake_settings();
    pilhangko_d3d12 d3d12 = {0};
    s.device_block_size = s.host_block_size = s.largest_host_block_size = 0;
    s.heap_flags = (D3D12_HEAP_FLAGS)0x1000; /* D3D12_HEAP_FLAG_CREATE_NOT_ZEROED */
    s.externally_synchronized = true;
    fake_begin(1);
    fake.heap_flags = s.heap_flags;
    IS(pilhangko_d3d12_create(&d3d12, &s).status, OK);
    const struct made a = creates(&d3d12, &desc, &on_gpu);
    CHECK(has_heap(256 * MB, D3D12_HEAP_TYPE_DEFAULT, 0, 0, 0x10c0));
    const struct made b = creates(&d3d12, &desc, &up);
    CHECK(has_heap(64 * MB, D3D12_HEAP_TYPE_CUSTOM, 2, 1, 0x10c0));
    drops(&d3d12, &a);
    drops(&d3d12, &b);
    ends(&d3d12, 0);
}

/* ---- each call */

/* Each call on an empty handle, or with a pointer that is NULL: which one is NULL by its place. */
static void each_call(pilhangko_d3d12 *d, unsigned null, pilhangko_status expected) {
    const pilhangko_d3d12_request request = asks(100, 1, PILHANGKO_LOCATION_GPU_ONLY, PILHANGKO_CATEGORY_BUFFER);
    const D3D12_RESOURCE_DESC desc = fake_buffer(1);
    const pilhangko_d3d12_placement p = goes_to(PILHANGKO_LOCATION_GPU_ONLY);
    pilhangko_d3d12_allocation a;
    pilhangko_d3d12_request told;
    ID3D12Resource *r = NULL, *some = (ID3D12Resource *)(void *)&fake;
    bool is_live;
    uint64_t word;
    memset(&a, 0, sizeof a);
#define AT(place, pointer) (null == (place) ? NULL : (pointer))
    if (null <= 2) IS(pilhangko_d3d12_allocate(AT(0, d), AT(1, &request), AT(2, &a)).status, expected);
    if (null <= 1) IS(pilhangko_d3d12_free(AT(0, d), AT(1, &a)), expected);
    if (null <= 1) IS(pilhangko_d3d12_rename(AT(0, d), AT(1, &a), "name"), expected);
    if (null <= 2) IS(pilhangko_d3d12_is_live(AT(0, d), AT(1, &a), AT(2, &is_live)), expected);
    if (null <= 1) IS(pilhangko_d3d12_set_user_data(AT(0, d), AT(1, &a), 5), expected);
    if (null <= 2) IS(pilhangko_d3d12_user_data(AT(0, d), AT(1, &a), AT(2, &word)), expected);
    if (null <= 2) IS(pilhangko_d3d12_read_request(AT(0, d), AT(1, &desc), PILHANGKO_LOCATION_GPU_ONLY, NULL, AT(2, &told)), expected);
    if (null <= 4) IS(pilhangko_d3d12_create_resource(AT(0, d), AT(1, &desc), AT(2, &p), AT(3, &r), AT(4, &a)).status, expected);
    if (null <= 2) IS(pilhangko_d3d12_destroy_resource(AT(0, d), AT(1, some), AT(2, &a)), expected);
    if (null <= 4)
        IS(pilhangko_d3d12_place_resource(AT(0, d), AT(1, &a), 0, AT(2, &desc), AT(3, &p), AT(4, &r)).status, expected);
    CHECK(!r);
}

static void each_small_call(pilhangko_d3d12 *d, bool tells, pilhangko_status expected) {
    UINT64 bytes;
    pilhangko_d3d12_group group;
    pilhangko_budget budget;
    pilhangko_d3d12_device device;
    pilhangko_d3d12_capture capture;
    IS(pilhangko_d3d12_capacity(d, tells ? &bytes : NULL), expected);
    IS(pilhangko_d3d12_read_group(d, 0, tells ? &group : NULL), expected);
    IS(pilhangko_d3d12_budget(d, 0, tells ? &budget : NULL), expected);
    IS(pilhangko_d3d12_read_device(d, tells ? &device : NULL), expected);
    IS(pilhangko_d3d12_end_capture(d, tells ? &capture : NULL), expected);
    if (!tells) return;
    IS(pilhangko_d3d12_update_budgets(d), expected);
    IS(pilhangko_d3d12_set_budget(d, 0, true, 1), expected);
    IS(pilhangko_d3d12_lock(d), expected);
    IS(pilhangko_d3d12_unlock(d), expected);
    IS(pilhangko_d3d12_destroy(d, NULL), expected);
    CHECK(!pilhangko_d3d12_allocator(d));
}

static void empty_handles_and_null(void) {
    pilhangko_d3d12 empty = {0}, d3d12 = fake_binding(2);
    pilhangko_d3d12_placement p = goes_to(PILHANGKO_LOCATION_GPU_ONLY);
    const D3D12_RESOURCE_DESC desc = fake_buffer(1);
    pilhangko_d3d12_allocation a;
    ID3D12Resource *r = NULL;
    each_call(&empty, 9, PILHANGKO_NO_HANDLE);
    each_small_call(&empty, true, PILHANGKO_NO_HANDLE);
    for (unsigned null = 0; null <= 4; null++) each_call(&d3d12, null, PILHANGKO_NULL_POINTER);
    each_small_call(NULL, true, PILHANGKO_NULL_POINTER);
    each_small_call(&d3d12, false, PILHANGKO_NULL_POINTER);
    p.format_count = 1; /* without a list */
    IS(pilhangko_d3d12_create_resource(&d3d12, &desc, &p, &r, &a).status, PILHANGKO_NULL_POINTER);
    CHECK(!r && fake.questions == 0);
    ends(&d3d12, 0);
}

/* ---- refusals without a question */

static void is_refused(pilhangko_d3d12 *d3d12, const pilhangko_d3d12_request *request, pilhangko_status status, HRESULT driver) {
    pilhangko_d3d12_allocation a, before;
    memset(&a, 7, sizeof a);
    before = a;
    const pilhangko_d3d12_result result = pilhangko_d3d12_allocate(d3d12, request, &a);
    IS(result.status, status);
    CHECK(result.driver == driver && memcmp(&a, &before, sizeof a) == 0);
}

static void is_uncreated(pilhangko_d3d12 *d3d12, const D3D12_RESOURCE_DESC *desc, const pilhangko_d3d12_placement *p,
    pilhangko_status status, HRESULT driver) {
    struct made it, before;
    memset(&it, 7, sizeof it);
    before = it;
    const pilhangko_d3d12_result result = pilhangko_d3d12_create_resource(d3d12, desc, p, &it.resource, &it.allocation);
    IS(result.status, status);
    CHECK(result.driver == driver && memcmp(&it, &before, sizeof it) == 0);
}

static void invalid_requests(void) {
    pilhangko_d3d12 d3d12 = fake_binding(2);
    const pilhangko_d3d12_request good = asks(100, 4, PILHANGKO_LOCATION_GPU_ONLY, PILHANGKO_CATEGORY_BUFFER);
    pilhangko_d3d12_request bad[6] = {good, good, good, good, good, good}, told = good;
    D3D12_RESOURCE_DESC none = fake_buffer(0), one = fake_buffer(1);
    pilhangko_d3d12_placement p = goes_to(PILHANGKO_LOCATION_GPU_ONLY);
    bad[0].size = 0;
    bad[1].alignment = 3;
    bad[2].location = (pilhangko_location)0;
    bad[3].location = (pilhangko_location)5;
    bad[4].category = (pilhangko_category)4;
    bad[5].name = "\xff";
    for (size_t i = 0; i < 6; i++) is_refused(&d3d12, &bad[i], PILHANGKO_INVALID, S_OK);
    IS(pilhangko_d3d12_read_request(&d3d12, &none, PILHANGKO_LOCATION_GPU_ONLY, NULL, &told), PILHANGKO_INVALID);
    CHECK(told.size == 100 && told.name == good.name);
    is_uncreated(&d3d12, &none, &p, PILHANGKO_INVALID, S_OK);
    p.committed = true;
    is_uncreated(&d3d12, &none, &p, PILHANGKO_INVALID, S_OK);
    p.location = (pilhangko_location)0;
    is_uncreated(&d3d12, &one, &p, PILHANGKO_INVALID, S_OK);
    p.committed = false;
    is_uncreated(&d3d12, &one, &p, PILHANGKO_INVALID, S_OK);
    p = goes_to(PILHANGKO_LOCATION_GPU_ONLY);
    p.name = "\xc3";
    is_uncreated(&d3d12, &one, &p, PILHANGKO_INVALID, S_OK);
    CHECK(fake.questions == 0);
    ends(&d3d12, 0);
}

/* A description of nothing with formats in a state, at an allocation that isn't live, out of range: one cause after the other. */
static void causes_in_order(void) {
    pilhangko_d3d12 d3d12 = fake_binding(2);
    const pilhangko_d3d12_request good = asks(100, 4, PILHANGKO_LOCATION_GPU_ONLY, PILHANGKO_CATEGORY_BUFFER);
    const D3D12_RESOURCE_DESC none = fake_buffer(0);
    const DXGI_FORMAT format = DXGI_FORMAT_R8G8B8A8_UNORM;
    pilhangko_d3d12_placement p = goes_to(PILHANGKO_LOCATION_GPU_ONLY);
    pilhangko_d3d12_allocation a;
    ID3D12Resource *r = NULL;
    memset(&a, 0, sizeof a);
    p.format_count = 1;
    p.formats = &format;
    is_uncreated(&d3d12, &none, &p, PILHANGKO_FORMATS_NEED_LAYOUT, S_OK);
    IS(pilhangko_d3d12_place_resource(&d3d12, &a, 9, &none, &p, &r).status, PILHANGKO_FORMATS_NEED_LAYOUT);
    p.format_count = 0;
    IS(pilhangko_d3d12_place_resource(&d3d12, &a, 9, &none, &p, &r).status, PILHANGKO_NOT_LIVE);
    CHECK(!r && fake.questions == 0);
    a = allocates(&d3d12, &good);
    IS(pilhangko_d3d12_place_resource(&d3d12, &a, 999, &none, &p, &r).status, PILHANGKO_INVALID);
    IS(pilhangko_d3d12_rename(&d3d12, &a, "\xff"), PILHANGKO_INVALID);
    IS(pilhangko_d3d12_free(&d3d12, &a), OK);
    IS(pilhangko_d3d12_rename(&d3d12, &a, "\xff"), PILHANGKO_INVALID); /* the name first */
    IS(pilhangko_d3d12_rename(&d3d12, &a, "name"), PILHANGKO_NOT_LIVE);
    ends(&d3d12, 0);
}

/* Sums of sizes and bounds: the driver isn't asked. */
static void causes_without_a_question(void) {
    pilhangko_d3d12 d3d12 = fake_binding(2);
    const D3D12_RESOURCE_DESC little = fake_buffer(1), all = fake_buffer(UINT64_MAX);
    pilhangko_d3d12_request r = asks(100, 4, PILHANGKO_LOCATION_GPU_ONLY, PILHANGKO_CATEGORY_BUFFER);
    pilhangko_d3d12_placement p = goes_to(PILHANGKO_LOCATION_GPU_ONLY);
    pilhangko_budget budget;
    IS(pilhangko_d3d12_set_budget(&d3d12, 0, true, 4 * MB - 1), OK);
    IS(pilhangko_d3d12_set_budget(&d3d12, 3, true, 1), PILHANGKO_NO_SUCH_TYPE);
    IS(pilhangko_d3d12_budget(&d3d12, 0, &budget), OK);
    CHECK(budget.exists && budget.bytes == 4 * MB - 1);
    IS(pilhangko_d3d12_budget(&d3d12, 3, &budget), OK);
    CHECK(!budget.exists && budget.bytes == 0);
    is_refused(&d3d12, &r, PILHANGKO_BUDGET_EXCEEDED, S_OK);
    is_uncreated(&d3d12, &little, &p, PILHANGKO_BUDGET_EXCEEDED, S_OK);
    IS(pilhangko_d3d12_set_budget(&d3d12, 0, false, 0), OK);
    CHECK(fake.questions == 0);
    const pilhangko_d3d12_allocation a = allocates(&d3d12, &r);
    r.size = UINT64_MAX;
    is_refused(&d3d12, &r, PILHANGKO_OUT_OF_MEMORY, S_OK);
    IS(pilhangko_d3d12_free(&d3d12, &a), OK);
    p.committed = true;
    const struct made one = creates(&d3d12, &little, &p);
    CHECK(fake.questions == 2);
    is_uncreated(&d3d12, &all, &p, PILHANGKO_OUT_OF_MEMORY, S_OK); /* 65,536 bytes and 2^64 - 65,536 */
    CHECK(fake.questions == 2);
    drops(&d3d12, &one);
    ends(&d3d12, 0);
}

/* ---- allocations that are stale or another binding's */

static void is_unknown(pilhangko_d3d12 *d3d12, const pilhangko_d3d12_allocation *a) {
    const D3D12_RESOURCE_DESC desc = fake_buffer(1);
    const pilhangko_d3d12_placement p = goes_to(PILHANGKO_LOCATION_GPU_ONLY);
    ID3D12Resource *r = NULL;
    bool is_live = true;
    uint64_t word = 7;
    IS(pilhangko_d3d12_free(d3d12, a), PILHANGKO_NOT_LIVE);
    IS(pilhangko_d3d12_rename(d3d12, a, "name"), PILHANGKO_NOT_LIVE);
    IS(pilhangko_d3d12_set_user_data(d3d12, a, 1), PILHANGKO_NOT_LIVE);
    IS(pilhangko_d3d12_user_data(d3d12, a, &word), PILHANGKO_NOT_LIVE);
    IS(pilhangko_d3d12_destroy_resource(d3d12, (ID3D12Resource *)(void *)&fake, a), PILHANGKO_NOT_LIVE);
    IS(pilhangko_d3d12_place_resource(d3d12, a, 0, &desc, &p, &r).status, PILHANGKO_NOT_LIVE);
    IS(pilhangko_d3d12_is_live(d3d12, a, &is_live), OK);
    CHECK(!is_live && word == 7 && !r);
}

static void other_allocations(void) {
    pilhangko_d3d12 first = fake_binding(2), second = {0};
    const pilhangko_d3d12_settings settings = fake_settings();
    const pilhangko_d3d12_request r = asks(100, 4, PILHANGKO_LOCATION_GPU_ONLY, PILHANGKO_CATEGORY_BUFFER);
    pilhangko_d3d12_allocation changed;
    IS(pilhangko_d3d12_create(&second, &settings).status, OK);
    const pilhangko_d3d12_allocation a = allocates(&first, &r), b = allocates(&second, &r);
    CHECK(a.serial == b.serial && a.index == b.index && a.owner != b.owner);
    is_unknown(&second, &a);
    is_unknown(&first, &b);
    changed = a;
    changed.index = 99999;
    is_unknown(&first, &changed);
    changed = a;
    changed.serial = 0;
    is_unknown(&first, &changed);
    IS(pilhangko_d3d12_free(&first, &a), OK);
    const pilhangko_d3d12_allocation c = allocates(&first, &r); /* in the same place, and the same record */
    CHECK(c.index == a.index && c.offset == a.offset && c.heap == a.heap && c.serial == a.serial + 1);
    is_unknown(&first, &a);
    IS(pilhangko_d3d12_free(&first, &c), OK);
    IS(pilhangko_d3d12_destroy(&first, NULL), OK);
    IS(pilhangko_d3d12_create(&first, &settings).status, OK);
    const pilhangko_d3d12_allocation d = allocates(&first, &r);
    is_unknown(&first, &a); /* of a predecessor, as is this one with its numbers */
    changed = d;
    changed.owner = a.owner;
    is_unknown(&first, &changed);
    IS(pilhangko_d3d12_free(&second, &b), OK);
    IS(pilhangko_d3d12_destroy(&second, NULL), OK);
    ends(&first, 1);
}

/* A visit shows the word of an allocation in a heap, too. */
static void has_word(const pilhangko_d3d12 *d3d12, const pilhangko_d3d12_allocation *a, uint64_t expected) {
    pilhangko_piece_view view;
    size_t shown;
    uint64_t word = 7;
    IS(pilhangko_d3d12_user_data(d3d12, a, &word), OK);
    CHECK(word == expected);
    if (!a->heap) return;
    IS(pilhangko_heaps_pieces(pilhangko_d3d12_allocator(d3d12), a->piece.memory_type, a->piece.piece.slot, a->offset, &view, 1, &shown), OK);
    CHECK(shown == 1 && view.number == a->piece.piece.number && view.word == expected);
}

/* A word of the caller's stays with its allocation, through other calls too, and begins as it is handed in. */
static void words(void) {
    pilhangko_d3d12 d3d12 = fake_binding(2);
    const D3D12_RESOURCE_DESC desc = fake_buffer(1);
    pilhangko_d3d12_placement p = goes_to(PILHANGKO_LOCATION_GPU_ONLY);
    pilhangko_d3d12_request r = asks(100, 4, PILHANGKO_LOCATION_GPU_ONLY, PILHANGKO_CATEGORY_BUFFER);
    struct made made[40];
    for (unsigned i = 0; i < 40; i++) {
        p.committed = i % 2 == 1;
        p.user_data = i % 4 < 2 ? 0 : i;
        made[i] = creates(&d3d12, &desc, &p);
        has_word(&d3d12, &made[i].allocation, p.user_data);
        IS(pilhangko_d3d12_set_user_data(&d3d12, &made[i].allocation, UINT64_MAX - i), OK);
    }
    for (unsigned i = 0; i < 40; i++) {
        has_word(&d3d12, &made[i].allocation, UINT64_MAX - i);
        IS(pilhangko_d3d12_rename(&d3d12, &made[i].allocation, "renamed"), i % 2 == 1 ? PILHANGKO_NOT_LIVE : OK);
        has_word(&d3d12, &made[i].allocation, UINT64_MAX - i);
        drops(&d3d12, &made[i]);
    }
    p.user_data = 0;
    for (unsigned i = 0; i < 2; i++) {
        p.committed = i == 1;
        made[i] = creates(&d3d12, &desc, &p);
        has_word(&d3d12, &made[i].allocation, 0); /* not what was freed before it */
        drops(&d3d12, &made[i]);
    }
    r.user_data = 5;
    const pilhangko_d3d12_allocation a = allocates(&d3d12, &r);
    has_word(&d3d12, &a, 5);
    ends(&d3d12, 1);
}

/* ---- groups and what the allocator tells */

static void is_group(const pilhangko_d3d12 *d3d12, uint32_t group, UINT64 held, UINT64 committed, UINT64 usage, UINT64 budget) {
    pilhangko_d3d12_group read;
    IS(pilhangko_d3d12_read_group(d3d12, group, &read), OK);
    CHECK(read.held == held && read.committed == committed && read.usage == usage && read.budget == budget);
    CHECK(read.has_budget == fake.tells_budgets);
}

static void is_bound(const pilhangko_d3d12 *d3d12, uint32_t memory_type, uint64_t bytes) {
    pilhangko_budget budget;
    IS(pilhangko_d3d12_budget(d3d12, memory_type, &budget), OK);
    CHECK(budget.exists && budget.bytes == bytes);
}

/* Bounds by what is left of 100 MB for the process in group 0, and of 26 MB in group 1. */
static void follows(pilhangko_d3d12 *d3d12, uint32_t tier, bool is_unified) {
    static const uint64_t bounds[2][3] = {{74, 10, 6}, {74, 74, 70}}; /* in MB: by two groups, and by one */
    IS(pilhangko_d3d12_update_budgets(d3d12), OK);
    for (uint32_t place = 0; place < 3; place++) is_bound(d3d12, tier == 1 ? 3 * place : place, bounds[is_unified][place] * MB);
    fake.budget[0] = fake.budget[1] = 0; /* nothing is left: what is held may stay */
    IS(pilhangko_d3d12_update_budgets(d3d12), OK);
    is_bound(d3d12, 0, 4 * MB);
    fake.budget[0] = UINT64_MAX; /* a sum that passes 64 bits is the largest number */
    fake.usage[0] = 0;
    IS(pilhangko_d3d12_update_budgets(d3d12), OK);
    is_bound(d3d12, 0, UINT64_MAX);
}

/* 4 MB for GPU_ONLY, 4 MB for CPU_TO_GPU, and a committed resource for GPU_TO_CPU. */
static void groups(uint32_t tier, bool is_unified) {
    const D3D12_RESOURCE_DESC desc = fake_buffer(1);
    const pilhangko_d3d12_settings settings = fake_settings();
    pilhangko_d3d12_placement p[3] = {
        goes_to(PILHANGKO_LOCATION_GPU_ONLY), goes_to(PILHANGKO_LOCATION_CPU_TO_GPU), goes_to(PILHANGKO_LOCATION_GPU_TO_CPU)};
    pilhangko_d3d12 d3d12 = {0};
    pilhangko_d3d12_group none;
    struct made made[3];
    p[2].committed = true;
    fake_begin(tier);
    fake.is_unified = is_unified;
    IS(pilhangko_d3d12_create(&d3d12, &settings).status, OK);
    for (size_t i = 0; i < 3; i++) made[i] = creates(&d3d12, &desc, &p[i]);
    fake.usage[0] = 30 * MB, fake.budget[0] = 100 * MB, fake.usage[1] = 20 * MB, fake.budget[1] = 26 * MB;
    is_group(&d3d12, 0, is_unified ? 8 * MB : 4 * MB, is_unified ? 65536 : 0, 0, 0);
    IS(pilhangko_d3d12_update_budgets(&d3d12), PILHANGKO_D3D12_NO_BUDGETS);
    fake.tells_budgets = true;
    is_group(&d3d12, 0, is_unified ? 8 * MB : 4 * MB, is_unified ? 65536 : 0, 30 * MB, 100 * MB);
    is_group(&d3d12, 1, is_unified ? 0 : 4 * MB, is_unified ? 0 : 65536, 20 * MB, 26 * MB);
    IS(pilhangko_d3d12_read_group(&d3d12, 2, &none), PILHANGKO_D3D12_NO_SUCH_GROUP);
    follows(&d3d12, tier, is_unified);
    for (size_t i = 0; i < 3; i++) drops(&d3d12, &made[i]);
    ends(&d3d12, 0);
}

static void without_an_adapter(void) {
    pilhangko_d3d12_settings settings = fake_settings();
    pilhangko_d3d12 d3d12 = {0};
    fake_begin(2);
    settings.adapter = NULL;
    IS(pilhangko_d3d12_create(&d3d12, &settings).status, OK);
    is_group(&d3d12, 0, 0, 0, 0, 0);
    IS(pilhangko_d3d12_update_budgets(&d3d12), PILHANGKO_D3D12_NO_BUDGETS);
    ends(&d3d12, 0);
}

/* The report and the texts of leaks are the allocator's. */
static void readings(void) {
    pilhangko_d3d12 d3d12 = fake_binding(2);
    pilhangko_d3d12_request r = asks(100, 4, PILHANGKO_LOCATION_GPU_ONLY, PILHANGKO_CATEGORY_BUFFER);
    const pilhangko_heaps *allocator = pilhangko_d3d12_allocator(&d3d12);
    pilhangko_type_statistics counted;
    char text[2000];
    size_t length = 0;
    r.name = "a name in a report";
    const pilhangko_d3d12_allocation a = allocates(&d3d12, &r);
    IS(pilhangko_d3d12_lock(&d3d12), OK);
    IS(pilhangko_heaps_statistics(allocator, &counted), OK);
    CHECK(counted.pieces == 1 && counted.piece_bytes == 100 && counted.capacity == 4 * MB);
    IS(pilhangko_heaps_report(allocator, text, sizeof text - 1, &length), OK);
    text[length] = 0;
    CHECK(length > 0 && strstr(text, "a name in a report"));
    IS(pilhangko_heaps_leak(allocator, 0, text, sizeof text - 1, &length), OK);
    text[length] = 0;
    CHECK(length > 0 && strstr(text, "a name in a report"));
    IS(pilhangko_d3d12_unlock(&d3d12), OK);
    IS(pilhangko_d3d12_free(&d3d12, &a), OK);
    ends(&d3d12, 0);
}

/* ---- refusals of the driver */

static const struct way {
    enum fake_answer answer;
    HRESULT code;
    pilhangko_status of_heap, of_resource;
} ways[] = {{FAKE_REFUSES, FAKE_NO_MEMORY, PILHANGKO_OUT_OF_MEMORY, PILHANGKO_D3D12_CALL_FAILED},
    {FAKE_REFUSES, FAKE_WRONG, PILHANGKO_DRIVER_REFUSED, PILHANGKO_D3D12_CALL_FAILED},
    {FAKE_REFUSES, FAKE_REMOVED, PILHANGKO_D3D12_DEVICE_REMOVED, PILHANGKO_D3D12_DEVICE_REMOVED},
    {FAKE_GIVES_NOTHING, S_OK, PILHANGKO_DRIVER_REFUSED, PILHANGKO_D3D12_CALL_FAILED}};
#define WAYS (sizeof ways / sizeof *ways)

static void driver_refusals(void) {
    const D3D12_RESOURCE_DESC desc = fake_buffer(1);
    const pilhangko_d3d12_request r = asks(100, 4, PILHANGKO_LOCATION_GPU_ONLY, PILHANGKO_CATEGORY_BUFFER);
    for (size_t i = 0; i < WAYS; i++) {
        pilhangko_d3d12 d3d12 = fake_binding(2);
        pilhangko_d3d12_placement p = goes_to(PILHANGKO_LOCATION_GPU_ONLY);
        const HRESULT driver = ways[i].code == FAKE_REMOVED ? FAKE_HUNG : ways[i].code;
        UINT64 capacity = 9;
        ID3D12Resource *placed = NULL;
        fake_refuse(1, ways[i].answer, ways[i].code);
        is_refused(&d3d12, &r, ways[i].of_heap, driver);
        fake_refuse(1, ways[i].answer, ways[i].code);
        is_uncreated(&d3d12, &desc, &p, ways[i].of_heap, driver);
        IS(pilhangko_d3d12_capacity(&d3d12, &capacity), OK);
        CHECK(capacity == 0);
        fake_refuse(2, ways[i].answer, ways[i].code);
        is_uncreated(&d3d12, &desc, &p, ways[i].of_resource, driver);
        IS(pilhangko_d3d12_capacity(&d3d12, &capacity), OK);
        CHECK(capacity == 4 * MB); /* the heap stays for the next one */
        const pilhangko_d3d12_allocation a = allocates(&d3d12, &r);
        fake_refuse(1, ways[i].answer, ways[i].code);
        const pilhangko_d3d12_placement at = goes_to(PILHANGKO_LOCATION_UNKNOWN);
        IS(pilhangko_d3d12_place_resource(&d3d12, &a, 0, &desc, &at, &placed).status, PILHANGKO_D3D12_OUT_OF_RANGE);
        IS(pilhangko_d3d12_free(&d3d12, &a), OK);
        fake.refused = 0;
        pilhangko_d3d12_request whole = r;
        whole.size = whole.alignment = 65536;
        const pilhangko_d3d12_allocation b = allocates(&d3d12, &whole);
        fake_refuse(1, ways[i].answer, ways[i].code);
        const pilhangko_d3d12_result result = pilhangko_d3d12_place_resource(&d3d12, &b, 0, &desc, &at, &placed);
        IS(result.status, ways[i].of_resource);
        CHECK(result.driver == driver && !placed);
        IS(pilhangko_d3d12_free(&d3d12, &b), OK);
        p.committed = true;
        fake_refuse(1, ways[i].answer, ways[i].code);
        is_uncreated(&d3d12, &desc, &p, ways[i].of_resource, driver);
        const struct made it = creates(&d3d12, &desc, &p); /* nothing is left of that request */
        drops(&d3d12, &it);
        ends(&d3d12, 0);
    }
}

/* ---- a script whose questions, and whose requests for host memory, are refused in turn */

#define THINGS 40

/* of one name each, so that they take host memory */
static pilhangko_d3d12_result makes(pilhangko_d3d12 *d3d12, unsigned i, struct made *it) {
    static const pilhangko_location locations[] = {PILHANGKO_LOCATION_UNKNOWN, PILHANGKO_LOCATION_GPU_ONLY, PILHANGKO_LOCATION_CPU_TO_GPU,
        PILHANGKO_LOCATION_GPU_TO_CPU};
    const D3D12_RESOURCE_DESC desc = i % 3 ? fake_buffer(1 + i * 40000) : fake_texture(100 + i, 50 * i + 1, i % 2 ? TARGET : 0);
    pilhangko_d3d12_placement p = goes_to(locations[i % 4]);
    pilhangko_d3d12_request request = asks(1 + i * 100000, UINT64_C(1) << i % 17, locations[i % 4], PILHANGKO_CATEGORY_BUFFER);
    p.name = request.name = "a name that takes host memory of its own";
    p.committed = i % 5 == 1;
    if (i % 4 == 3) return pilhangko_d3d12_allocate(d3d12, &request, &it->allocation);
    return pilhangko_d3d12_create_resource(d3d12, &desc, &p, &it->resource, &it->allocation);
}

static pilhangko_status unmakes(pilhangko_d3d12 *d3d12, const struct made *it) {
    return it->resource ? pilhangko_d3d12_destroy_resource(d3d12, it->resource, &it->allocation)
                        : pilhangko_d3d12_free(d3d12, &it->allocation);
}

/* What the binding counts is what the device has. */
static void all_there(const pilhangko_d3d12 *d3d12, const struct made *made) {
    UINT64 capacity = 0;
    size_t resources = 0;
    for (unsigned i = 0; i < THINGS; i++) {
        bool is_live = false;
        if (!made[i].allocation.serial) continue;
        IS(pilhangko_d3d12_is_live(d3d12, &made[i].allocation, &is_live), OK);
        CHECK(is_live);
        resources += made[i].resource != NULL;
    }
    IS(pilhangko_d3d12_capacity(d3d12, &capacity), OK);
    for (size_t i = 0; i < FAKE_THINGS; i++) capacity -= fake.heaps[i].references > 0 ? fake.heaps[i].desc.SizeInBytes : 0;
    CHECK(capacity == 0 && resources == fake.resource_count);
}

/* Runs the script; says how many calls were refused, and the last one's result. Nothing that frees takes host memory, but for a capture. */
static unsigned script(pilhangko_d3d12 *d3d12, bool is_captured, pilhangko_d3d12_result *last) {
    static struct made made[THINGS];
    unsigned refusals = 0;
    memset(made, 0, sizeof made);
    for (unsigned i = 0; i < THINGS; i++) {
        const pilhangko_d3d12_result it = makes(d3d12, i, &made[i]);
        if (it.status != OK) *last = it, refusals++;
        all_there(d3d12, made);
        if (it.status != OK || i % 4 != 3) continue;
        const pilhangko_status renamed = pilhangko_d3d12_rename(d3d12, &made[i].allocation, "another name that takes host memory");
        if (renamed != OK) last->status = renamed, last->driver = S_OK, refusals++;
    }
    const long before = heap_requests;
    for (unsigned i = 0; i < THINGS; i++) {
        if (!made[i].allocation.serial) continue;
        IS(unmakes(d3d12, &made[i]), OK);
        memset(&made[i], 0, sizeof made[i]);
        all_there(d3d12, made);
    }
    CHECK(is_captured || heap_requests == before);
    return refusals;
}

static void each_question_refused(uint32_t tier) {
    unsigned failed = 0;
    for (size_t way = 0; way < WAYS; way++) {
        for (uint64_t question = 1;; question++) {
            pilhangko_d3d12 d3d12 = fake_binding(tier);
            pilhangko_d3d12_result last = {PILHANGKO_OK, S_OK};
            fake_refuse(question, ways[way].answer, ways[way].code);
            const unsigned refusals = script(&d3d12, false, &last);
            const bool is_over = fake.questions < question;
            CHECK(refusals == !is_over); /* there is no second attempt */
            failed += refusals;
            if (refusals) {
                CHECK(last.status == ways[way].of_heap || last.status == ways[way].of_resource);
                CHECK(last.driver == (ways[way].code == FAKE_REMOVED ? FAKE_HUNG : ways[way].code));
            }
            ends(&d3d12, 0);
            if (is_over) break;
        }
    }
    printf("tier %u: %u refused questions ended a call\n", tier, failed);
    CHECK(failed > 150);
}

static bool takes_all(void *user, const char *bytes, size_t length) {
    (void)bytes;
    *(size_t *)user += length;
    return true;
}

/* Where the request is the capture's, the capture ends and no call fails; else one call fails, and says that host memory is lacking. */
static void each_host_request_refused(void) {
    unsigned failed = 0, captures = 0;
    for (long request = 1;; request++) {
        pilhangko_d3d12 d3d12 = {0};
        size_t written = 0;
        pilhangko_d3d12_settings settings = fake_settings();
        pilhangko_d3d12_result last = {PILHANGKO_OK, S_OK};
        pilhangko_d3d12_ending ending;
        settings.capture_write = takes_all;
        settings.capture_user = &written;
        fake_begin(2);
        heap_requests = 0;
        heap_refused = request;
        if (pilhangko_d3d12_create(&d3d12, &settings).status == PILHANGKO_HOST_OUT_OF_MEMORY) {
            CHECK(!d3d12.opaque && heap_held == 0 && fake.references == 1 && fake.adapter.references == 1);
            failed++;
            continue;
        }
        const unsigned refusals = script(&d3d12, true, &last);
        const bool is_over = heap_requests < request;
        IS(pilhangko_d3d12_destroy(&d3d12, &ending), OK);
        const bool ended = ending.capture.end == PILHANGKO_D3D12_CAPTURE_NO_HOST_MEMORY;
        CHECK(ending.leaks == 0 && fake.heap_count == 0 && fake.resource_count == 0 && fake.references == 1 && heap_held == 0);
        CHECK(ending.capture.bytes == written && (refusals == 0 || last.status == PILHANGKO_HOST_OUT_OF_MEMORY));
        CHECK(refusals + ended == !is_over);
        failed += refusals;
        captures += ended;
        if (is_over) break;
    }
    heap_refused = 0;
    printf("%u refused requests for host memory ended a call, %u a capture\n", failed, captures);
    CHECK(failed > 10 && captures > 1);
}

int main(void) {
    rows_of_tier_2();
    rows_of_tier_1();
    rows_of_large_resources();
    committed_rows();
    references();
    placing_rows();
    for (int committed = 0; committed < 2; committed++) {
        layouts(0, committed);
        layouts(10, committed);
        layouts(12, committed);
    }
    names();
    texts();
    creations();
    settings_rows();
    empty_handles_and_null();
    invalid_requests();
    causes_in_order();
    causes_without_a_question();
    other_allocations();
    words();
    groups(2, false);
    groups(2, true);
    groups(1, false);
    groups(1, true);
    without_an_adapter();
    readings();
    driver_refusals();
    each_question_refused(2);
    each_question_refused(1);
    each_host_request_refused();
    return 0;
}
