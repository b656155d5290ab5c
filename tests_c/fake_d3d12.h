/* A DirectX 12 device and adapter made of numbers. They grant heaps and resources, check what Direct3D wants of its caller (drivers on Linux
 * don't check it), and refuse the questions that they are told to. A question is a call that may be refused: for a heap, a resource or a
 * mapping. */
#ifndef FAKE_D3D12_H
#define FAKE_D3D12_H
#define COBJMACROS
#include "pilhangko_d3d12.h"
#include "test.h"

#define FAKE_THINGS 1024
#define FAKE_FORMATS 4
#define FAKE_UNIT UINT64_C(65536)
#define FAKE_SMALL UINT64_C(4096)
#define FAKE_LARGE (UINT64_C(4) << 20)
#define FAKE_REMOVED ((HRESULT)0x887a0005) /* DXGI_ERROR_DEVICE_REMOVED */
#define FAKE_HUNG ((HRESULT)0x887a0006)    /* DXGI_ERROR_DEVICE_HUNG: why it was */
#define FAKE_NO_MEMORY ((HRESULT)0x8007000e)
#define FAKE_WRONG ((HRESULT)0x80070057) /* E_INVALIDARG */

/* how a question is answered: by a grant, a code, or S_OK with nothing */
enum fake_answer { FAKE_GRANTS, FAKE_REFUSES, FAKE_GIVES_NOTHING };

typedef void (*fake_function)(void);

/* Heaps and resources begin with the address of their functions, as interfaces do. One without references is gone. */
struct fake_heap {
    const fake_function *functions;
    ULONG references;
    uint64_t number; /* 1, 2, .. as heaps and committed resources were made */
    D3D12_HEAP_DESC desc;
};

struct fake_resource {
    const fake_function *functions;
    ULONG references;
    uint64_t number;        /* of a committed one */
    struct fake_heap *heap; /* NULL of a committed one */
    UINT64 offset, size;
    D3D12_HEAP_PROPERTIES properties; /* of a committed one, as its flags */
    D3D12_HEAP_FLAGS flags;
    D3D12_RESOURCE_DESC desc;
    uint32_t begins; /* the state or the layout */
    bool in_layout;
    UINT32 format_count;
    DXGI_FORMAT formats[FAKE_FORMATS];
    bool has_clear_value;
    D3D12_CLEAR_VALUE clear_value;
    size_t name_length;
    WCHAR name[130];
    unsigned char *bytes; /* where it is mapped */
};

static struct {
    const fake_function *functions; /* of the device */
    ULONG references;               /* to the device by any of its interfaces */
    struct {
        const fake_function *functions;
        ULONG references;
    } adapter;
    struct fake_heap heaps[FAKE_THINGS];
    struct fake_resource resources[FAKE_THINGS];
    size_t heap_count, resource_count; /* those that are there */
    uint64_t last_number, questions;
    uint64_t refused; /* the question that is, counted from 1 */
    enum fake_answer answer;
    HRESULT code;
    int version; /* 0, 10 or 12 */
    D3D12_RESOURCE_HEAP_TIER tier;
    HRESULT tier_code;
    uint32_t heaps_tier; /* which rules heaps have to keep */
    D3D12_HEAP_FLAGS heap_flags; /* of each heap, beside the allocator's */
    bool is_unified, may_alias, tells_budgets, tells_reason;
    UINT64 usage[2], budget[2];
    D3D12_HEAP_DESC last_heap;
} fake;

/* How the next question is answered; code is the driver's. What stands behind a refused pointer is nobody's. */
static inline enum fake_answer fake_asked(HRESULT *code, void **out) {
    const enum fake_answer answer = ++fake.questions == fake.refused ? fake.answer : FAKE_GRANTS;
    *code = answer == FAKE_REFUSES ? fake.code : S_OK;
    *out = answer == FAKE_REFUSES ? (void *)&fake : NULL;
    return answer;
}

static inline bool fake_is_id(const GUID *id, unsigned long first, unsigned second) {
    return id->Data1 == first && id->Data2 == second;
}

/* ---- heaps */

static inline struct fake_heap *fake_heap_of(const ID3D12Heap *heap) {
    struct fake_heap *h = (struct fake_heap *)(uintptr_t)heap;
    CHECK(h >= fake.heaps && h < fake.heaps + FAKE_THINGS && h->references > 0);
    return h;
}

static ULONG STDMETHODCALLTYPE fake_heap_release(ID3D12Heap *heap) {
    struct fake_heap *h = fake_heap_of(heap);
    if (--h->references > 0) return h->references;
    for (size_t i = 0; i < FAKE_THINGS; i++) CHECK(fake.resources[i].references == 0 || fake.resources[i].heap != h);
    fake.heap_count--;
    return 0;
}

/* What a heap may hold: all, or at tier 1 one category alone. */
static inline void fake_look_at_flags(D3D12_HEAP_FLAGS flags) {
    const unsigned denied = (unsigned)flags & 0xc4; /* DENY_BUFFERS 4, DENY_RT_DS_TEXTURES 0x40, DENY_NON_RT_DS_TEXTURES 0x80 */
    CHECK(((unsigned)flags & ~0xc4u) == (unsigned)fake.heap_flags);
    CHECK(fake.heaps_tier == 1 ? denied == 0xc0 || denied == 0x84 || denied == 0x44 : denied == 0);
}

static HRESULT STDMETHODCALLTYPE fake_create_heap(ID3D12Device *device, const D3D12_HEAP_DESC *desc, const GUID *id, void **heap) {
    const D3D12_HEAP_PROPERTIES *p = &desc->Properties;
    HRESULT code;
    struct fake_heap *h = fake.heaps;
    CHECK((void *)device == (void *)&fake && fake_is_id(id, 0x6b3b2502, 0x6e51));
    CHECK(desc->SizeInBytes > 0 && desc->Alignment == FAKE_LARGE && p->CreationNodeMask == 0 && p->VisibleNodeMask == 0);
    if (p->Type == D3D12_HEAP_TYPE_DEFAULT) CHECK(p->CPUPageProperty == 0 && p->MemoryPoolPreference == 0);
    else CHECK(p->Type == D3D12_HEAP_TYPE_CUSTOM && p->CPUPageProperty >= 2 && p->MemoryPoolPreference == D3D12_MEMORY_POOL_L0);
    fake_look_at_flags(desc->Flags);
    fake.last_heap = *desc;
    if (fake_asked(&code, heap) != FAKE_GRANTS) return code;
    while (h->references > 0) CHECK(++h < fake.heaps + FAKE_THINGS);
    static fake_function functions[8];
    functions[2] = (fake_function)fake_heap_release;
    h->functions = functions;
    h->references = 1;
    h->number = ++fake.last_number;
    h->desc = *desc;
    fake.heap_count++;
    *heap = h;
    return S_OK;
}

/* ---- resources: what they need follows from their description alone */

static inline UINT64 fake_alignment(const D3D12_RESOURCE_DESC *desc) {
    return desc->SampleDesc.Count > 1 ? FAKE_LARGE : desc->Alignment == FAKE_SMALL ? FAKE_SMALL : FAKE_UNIT;
}
static inline UINT64 fake_size(const D3D12_RESOURCE_DESC *desc) {
    const UINT64 unit = fake_alignment(desc) == FAKE_SMALL ? FAKE_SMALL : FAKE_UNIT;
    const UINT64 bytes = desc->Dimension == D3D12_RESOURCE_DIMENSION_BUFFER ? desc->Width : desc->Width * desc->Height * 4;
    return (bytes + unit - 1) / unit * unit;
}

/* A description without a width is of no resource; one of all bits has a size that is as large as can be. */
static inline void fake_tell_needs(const D3D12_RESOURCE_DESC *desc, D3D12_RESOURCE_ALLOCATION_INFO *info) {
    info->SizeInBytes = desc->Width == 0 ? UINT64_MAX : desc->Width == UINT64_MAX ? UINT64_MAX - FAKE_UNIT + 1 : fake_size(desc);
    info->Alignment = fake_alignment(desc);
}

static D3D12_RESOURCE_ALLOCATION_INFO *STDMETHODCALLTYPE fake_needs(
    ID3D12Device *device, D3D12_RESOURCE_ALLOCATION_INFO *info, UINT mask, UINT count, const D3D12_RESOURCE_DESC *desc) {
    CHECK((void *)device == (void *)&fake && mask == 0 && count == 1 && fake.version != 12);
    fake_tell_needs(desc, info);
    return info;
}

/* D3D12_RESOURCE_DESC1 has the same fields, and then a region, which is zeros. */
static inline void fake_read_desc1(const void *desc1, D3D12_RESOURCE_DESC *desc) {
    const size_t shared = offsetof(D3D12_RESOURCE_DESC, Flags) + sizeof desc->Flags;
    const unsigned char region[12] = {0};
    memset(desc, 0, sizeof *desc);
    memcpy(desc, desc1, shared);
    CHECK(memcmp((const char *)desc1 + shared, region, sizeof region) == 0);
}

static D3D12_RESOURCE_ALLOCATION_INFO *STDMETHODCALLTYPE fake_needs_3(void *device, D3D12_RESOURCE_ALLOCATION_INFO *info, UINT mask,
    UINT count, const void *desc1, const UINT32 *format_counts, const DXGI_FORMAT *const *formats, void *infos) {
    D3D12_RESOURCE_DESC desc;
    CHECK(device == (void *)&fake && mask == 0 && count == 1 && !infos && fake.version == 12);
    CHECK(*format_counts == 0 || *formats);
    fake_read_desc1(desc1, &desc);
    fake_tell_needs(&desc, info);
    return info;
}

static inline struct fake_resource *fake_resource_of(const ID3D12Resource *resource) {
    struct fake_resource *r = (struct fake_resource *)(uintptr_t)resource;
    CHECK(r >= fake.resources && r < fake.resources + FAKE_THINGS && r->references > 0);
    return r;
}

static ULONG STDMETHODCALLTYPE fake_resource_add_ref(ID3D12Resource *resource) {
    return ++fake_resource_of(resource)->references;
}

static ULONG STDMETHODCALLTYPE fake_resource_release(ID3D12Resource *resource) {
    struct fake_resource *r = fake_resource_of(resource);
    if (--r->references > 0) return r->references;
    CHECK(!r->heap || r->heap->references > 0);
    free(r->bytes);
    r->bytes = NULL;
    fake.resource_count--;
    return 0;
}

static HRESULT STDMETHODCALLTYPE fake_set_name(ID3D12Resource *resource, const WCHAR *name) {
    struct fake_resource *r = fake_resource_of(resource);
    for (r->name_length = 0; name[r->name_length]; r->name_length++) {
        CHECK(r->name_length < 128);
        r->name[r->name_length] = name[r->name_length];
    }
    return FAKE_NO_MEMORY; /* nobody hears of it */
}

static HRESULT STDMETHODCALLTYPE fake_map(ID3D12Resource *resource, UINT index, const D3D12_RANGE *read, void **bytes) {
    struct fake_resource *r = fake_resource_of(resource);
    const D3D12_HEAP_PROPERTIES *p = r->heap ? &r->heap->desc.Properties : &r->properties;
    HRESULT code;
    CHECK(index == 0 && read && read->Begin == read->End && !r->bytes);
    if (fake_asked(&code, bytes) != FAKE_GRANTS) return code;
    if (p->Type == D3D12_HEAP_TYPE_DEFAULT) return FAKE_WRONG;
    r->bytes = (unsigned char *)calloc(1, (size_t)r->size);
    CHECK(r->bytes);
    *bytes = r->bytes;
    return S_OK;
}

/* Within its heap, aligned, of its category, and apart from each other resource there. */
static inline void fake_look_at_place(const struct fake_resource *r) {
    const unsigned denied = (unsigned)r->heap->desc.Flags & 0xc4;
    const bool is_buffer = r->desc.Dimension == D3D12_RESOURCE_DIMENSION_BUFFER, is_target = ((unsigned)r->desc.Flags & 3) != 0;
    CHECK(r->offset % fake_alignment(&r->desc) == 0);
    CHECK(r->offset <= r->heap->desc.SizeInBytes && r->size <= r->heap->desc.SizeInBytes - r->offset);
    CHECK(denied == 0 || denied == (is_buffer ? 0xc0u : is_target ? 0x84u : 0x44u));
    for (size_t i = 0; i < FAKE_THINGS && !fake.may_alias; i++) {
        const struct fake_resource *o = &fake.resources[i];
        if (o->references > 0 && o->heap == r->heap) CHECK(o->offset + o->size <= r->offset || r->offset + r->size <= o->offset);
    }
}

static inline HRESULT fake_make(struct fake_resource *made, const D3D12_RESOURCE_DESC *desc, const D3D12_CLEAR_VALUE *clear_value,
    const GUID *id, void **resource) {
    HRESULT code;
    struct fake_resource *r = fake.resources;
    static fake_function functions[12];
    CHECK(fake_is_id(id, 0x696442be, 0xa72e));
    made->desc = *desc;
    made->size = fake_size(desc);
    made->has_clear_value = clear_value != NULL;
    if (clear_value) made->clear_value = *clear_value;
    if (made->heap) fake_look_at_place(made);
    if (fake_asked(&code, resource) != FAKE_GRANTS) return code;
    while (r->references > 0) CHECK(++r < fake.resources + FAKE_THINGS);
    functions[1] = (fake_function)fake_resource_add_ref;
    functions[2] = (fake_function)fake_resource_release;
    functions[6] = (fake_function)fake_set_name;
    functions[8] = (fake_function)fake_map;
    *r = *made;
    r->functions = functions;
    r->references = 1;
    r->number = r->heap ? 0 : ++fake.last_number;
    fake.resource_count++;
    *resource = r;
    return S_OK;
}

static inline struct fake_resource fake_begins(uint32_t begins, bool in_layout) {
    struct fake_resource r;
    memset(&r, 0, sizeof r);
    r.begins = begins;
    r.in_layout = in_layout;
    return r;
}

static inline void fake_keep_formats(struct fake_resource *r, UINT32 count, const DXGI_FORMAT *formats) {
    CHECK(count <= FAKE_FORMATS && (count > 0) == (formats != NULL) && (count == 0 || fake.version == 12));
    r->format_count = count;
    for (UINT32 i = 0; i < count; i++) r->formats[i] = formats[i];
}

static HRESULT STDMETHODCALLTYPE fake_create_placed(ID3D12Device *device, ID3D12Heap *heap, UINT64 offset, const D3D12_RESOURCE_DESC *desc,
    D3D12_RESOURCE_STATES state, const D3D12_CLEAR_VALUE *clear_value, const GUID *id, void **resource) {
    struct fake_resource r = fake_begins((uint32_t)state, false);
    CHECK((void *)device == (void *)&fake);
    r.heap = fake_heap_of(heap);
    r.offset = offset;
    return fake_make(&r, desc, clear_value, id, resource);
}

static HRESULT STDMETHODCALLTYPE fake_create_committed(ID3D12Device *device, const D3D12_HEAP_PROPERTIES *properties, D3D12_HEAP_FLAGS flags,
    const D3D12_RESOURCE_DESC *desc, D3D12_RESOURCE_STATES state, const D3D12_CLEAR_VALUE *clear_value, const GUID *id, void **resource) {
    struct fake_resource r = fake_begins((uint32_t)state, false);
    CHECK((void *)device == (void *)&fake);
    r.properties = *properties;
    r.flags = flags;
    return fake_make(&r, desc, clear_value, id, resource);
}

static HRESULT STDMETHODCALLTYPE fake_create_placed_2(void *device, ID3D12Heap *heap, UINT64 offset, const void *desc1, UINT layout,
    const D3D12_CLEAR_VALUE *clear_value, UINT32 format_count, const DXGI_FORMAT *formats, const GUID *id, void **resource) {
    struct fake_resource r = fake_begins(layout, true);
    D3D12_RESOURCE_DESC desc;
    CHECK(device == (void *)&fake && fake.version >= 10);
    fake_read_desc1(desc1, &desc);
    r.heap = fake_heap_of(heap);
    r.offset = offset;
    fake_keep_formats(&r, format_count, formats);
    return fake_make(&r, &desc, clear_value, id, resource);
}

static HRESULT STDMETHODCALLTYPE fake_create_committed_3(void *device, const D3D12_HEAP_PROPERTIES *properties, D3D12_HEAP_FLAGS flags,
    const void *desc1, UINT layout, const D3D12_CLEAR_VALUE *clear_value, void *session, UINT32 format_count, const DXGI_FORMAT *formats,
    const GUID *id, void **resource) {
    struct fake_resource r = fake_begins(layout, true);
    D3D12_RESOURCE_DESC desc;
    CHECK(device == (void *)&fake && fake.version >= 10 && !session);
    fake_read_desc1(desc1, &desc);
    r.properties = *properties;
    r.flags = flags;
    fake_keep_formats(&r, format_count, formats);
    return fake_make(&r, &desc, clear_value, id, resource);
}

/* ---- the device and its adapter */

/* ID3D12Device10 and ID3D12Device12 alone are asked for. */
static HRESULT STDMETHODCALLTYPE fake_query(void *device, const GUID *id, void **it) {
    const int asked = fake_is_id(id, 0x517f8718, 0xaa66) ? 10 : fake_is_id(id, 0x5af5c532, 0x4c91) ? 12 : 0;
    CHECK(device == (void *)&fake && asked != 0);
    *it = NULL;
    if (fake.version < asked) return E_NOINTERFACE;
    fake.references++;
    *it = device;
    return S_OK;
}

static ULONG STDMETHODCALLTYPE fake_add_ref(void *device) {
    CHECK(device == (void *)&fake);
    return ++fake.references;
}

static ULONG STDMETHODCALLTYPE fake_release(void *device) {
    CHECK(device == (void *)&fake && fake.references > 1); /* the test's stays */
    return --fake.references;
}

static HRESULT STDMETHODCALLTYPE fake_features(ID3D12Device *device, D3D12_FEATURE feature, void *data, UINT size) {
    CHECK((void *)device == (void *)&fake);
    if (feature == D3D12_FEATURE_D3D12_OPTIONS) {
        CHECK(size == sizeof(D3D12_FEATURE_DATA_D3D12_OPTIONS));
        ((D3D12_FEATURE_DATA_D3D12_OPTIONS *)data)->ResourceHeapTier = fake.tier;
        return fake.tier_code;
    }
    CHECK(feature == D3D12_FEATURE_ARCHITECTURE && size == sizeof(D3D12_FEATURE_DATA_ARCHITECTURE));
    ((D3D12_FEATURE_DATA_ARCHITECTURE *)data)->UMA = fake.is_unified;
    return S_OK;
}

static HRESULT STDMETHODCALLTYPE fake_removed_reason(ID3D12Device *device) {
    CHECK((void *)device == (void *)&fake);
    return fake.tells_reason ? FAKE_HUNG : S_OK;
}

static ULONG STDMETHODCALLTYPE fake_adapter_add_ref(void *adapter) {
    CHECK(adapter == (void *)&fake.adapter);
    return ++fake.adapter.references;
}

static ULONG STDMETHODCALLTYPE fake_adapter_release(void *adapter) {
    CHECK(adapter == (void *)&fake.adapter && fake.adapter.references > 1);
    return --fake.adapter.references;
}

/* DXGI_QUERY_VIDEO_MEMORY_INFO: budget, usage, and two more words */
static HRESULT STDMETHODCALLTYPE fake_video_memory(void *adapter, UINT node, UINT group, UINT64 *told) {
    CHECK(adapter == (void *)&fake.adapter && node == 0 && group < 2);
    told[0] = fake.budget[group];
    told[1] = fake.usage[group];
    told[2] = told[3] = 7;
    return fake.tells_budgets ? S_OK : FAKE_WRONG;
}

/* the numbers of functions by the header; those of newer interfaces than it has are checked against Microsoft's by d3d12_functions.c */
#define FAKE_AT(name) (offsetof(ID3D12DeviceVtbl, name) / sizeof(fake_function))
#define FAKE_COMMITTED_3 76
#define FAKE_PLACED_2 77
#define FAKE_NEEDS_3 80
#define FAKE_VIDEO_MEMORY 14

static inline void fake_begin(uint32_t tier) {
    static fake_function device[FAKE_NEEDS_3 + 1], adapter[FAKE_VIDEO_MEMORY + 1];
    CHECK(fake.heap_count == 0 && fake.resource_count == 0 && fake.references <= 1 && fake.adapter.references <= 1);
    memset(&fake, 0, sizeof fake);
    device[FAKE_AT(QueryInterface)] = (fake_function)fake_query;
    device[FAKE_AT(AddRef)] = (fake_function)fake_add_ref;
    device[FAKE_AT(Release)] = (fake_function)fake_release;
    device[FAKE_AT(CheckFeatureSupport)] = (fake_function)fake_features;
    device[FAKE_AT(GetResourceAllocationInfo)] = (fake_function)fake_needs;
    device[FAKE_AT(CreateCommittedResource)] = (fake_function)fake_create_committed;
    device[FAKE_AT(CreateHeap)] = (fake_function)fake_create_heap;
    device[FAKE_AT(CreatePlacedResource)] = (fake_function)fake_create_placed;
    device[FAKE_AT(GetDeviceRemovedReason)] = (fake_function)fake_removed_reason;
    device[FAKE_COMMITTED_3] = (fake_function)fake_create_committed_3;
    device[FAKE_PLACED_2] = (fake_function)fake_create_placed_2;
    device[FAKE_NEEDS_3] = (fake_function)fake_needs_3;
    adapter[1] = (fake_function)fake_adapter_add_ref;
    adapter[2] = (fake_function)fake_adapter_release;
    adapter[FAKE_VIDEO_MEMORY] = (fake_function)fake_video_memory;
    fake.functions = device;
    fake.adapter.functions = adapter;
    fake.references = fake.adapter.references = 1;
    fake.tier = (D3D12_RESOURCE_HEAP_TIER)tier;
    fake.heaps_tier = tier;
    fake.tells_reason = true;
}

/* The next question but so many is answered so. */
static inline void fake_refuse(uint64_t which, enum fake_answer answer, HRESULT code) {
    fake.refused = fake.questions + which;
    fake.answer = answer;
    fake.code = code;
}

/* Settings over the fake device and adapter: blocks of 4 MB, on the host's side doubling up to 8 MB. */
static inline pilhangko_d3d12_settings fake_settings(void) {
    pilhangko_d3d12_settings settings;
    memset(&settings, 0, sizeof settings);
    settings.device = (ID3D12Device *)(void *)&fake;
    settings.adapter = (struct IDXGIAdapter3 *)(void *)&fake.adapter;
    settings.device_block_size = settings.host_block_size = UINT64_C(4) << 20;
    settings.largest_host_block_size = UINT64_C(8) << 20;
    return settings;
}

/* A binding over a device of that tier. */
static inline pilhangko_d3d12 fake_binding(uint32_t tier) {
    pilhangko_d3d12 d3d12 = {0};
    const pilhangko_d3d12_settings settings = fake_settings();
    fake_begin(tier);
    IS(pilhangko_d3d12_create(&d3d12, &settings).status, PILHANGKO_OK);
    return d3d12;
}

static inline D3D12_RESOURCE_DESC fake_buffer(UINT64 bytes) {
    D3D12_RESOURCE_DESC d;
    memset(&d, 0, sizeof d);
    d.Dimension = D3D12_RESOURCE_DIMENSION_BUFFER;
    d.Width = bytes;
    d.Height = d.DepthOrArraySize = d.MipLevels = 1;
    d.SampleDesc.Count = 1;
    d.Layout = D3D12_TEXTURE_LAYOUT_ROW_MAJOR;
    return d;
}

static inline D3D12_RESOURCE_DESC fake_texture(UINT64 width, UINT height, D3D12_RESOURCE_FLAGS flags) {
    D3D12_RESOURCE_DESC d;
    memset(&d, 0, sizeof d);
    d.Dimension = D3D12_RESOURCE_DIMENSION_TEXTURE2D;
    d.Width = width;
    d.Height = height;
    d.DepthOrArraySize = d.MipLevels = 1;
    d.Format = DXGI_FORMAT_R8G8B8A8_UNORM;
    d.SampleDesc.Count = 1;
    d.Flags = flags;
    return d;
}
#endif
