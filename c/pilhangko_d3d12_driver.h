/* What the files of Pilhangko's DirectX 12 binding share: results, moves, and the driver's calls. Not for its users.
 *
 * Interfaces are called by the numbers of their functions, which never change: so C and C++ call them in one way, and those that are newer
 * than the program's headers can be called too. */
#ifndef PILHANGKO_D3D12_DRIVER_H
#define PILHANGKO_D3D12_DRIVER_H

#include "pilhangko_d3d12.h"

/* ---- results ---- */

#define REMOVED ((HRESULT)0x887a0005) /* DXGI_ERROR_DEVICE_REMOVED */

static inline pilhangko_d3d12_result result_of(pilhangko_status status, HRESULT driver) {
    pilhangko_d3d12_result result;
    result.status = status;
    result.driver = status == PILHANGKO_OK || driver >= 0 ? S_OK : driver;
    return result;
}

/* A result in which the driver has no part. */
static inline pilhangko_d3d12_result undriven(pilhangko_status status) {
    return result_of(status, S_OK);
}

/* ---- moves ---- */

#define NAMED(rest) pilhangko_d3d12##rest
#define BYTES_OF(request) ((request)->size)
#include "pilhangko_moves.h"

/* ---- interfaces ---- */

/* The numbers of the functions that are called. */
enum {
    QUERY_INTERFACE = 0,
    ADD_REF = 1,
    RELEASE = 2,
    SET_NAME = 6,                        /* ID3D12Object */
    MAP = 8,                             /* ID3D12Resource */
    CHECK_FEATURE_SUPPORT = 13,          /* ID3D12Device */
    GET_RESOURCE_ALLOCATION_INFO = 25,   /* ID3D12Device */
    CREATE_COMMITTED_RESOURCE = 27,      /* ID3D12Device */
    CREATE_HEAP = 28,                    /* ID3D12Device */
    CREATE_PLACED_RESOURCE = 29,         /* ID3D12Device */
    GET_DEVICE_REMOVED_REASON = 37,      /* ID3D12Device */
    CREATE_COMMITTED_RESOURCE_3 = 76,    /* ID3D12Device10 */
    CREATE_PLACED_RESOURCE_2 = 77,       /* ID3D12Device10 */
    GET_RESOURCE_ALLOCATION_INFO_3 = 80, /* ID3D12Device12 */
    QUERY_VIDEO_MEMORY_INFO = 14         /* IDXGIAdapter3 */
};

static const GUID heap_id = {0x6b3b2502, 0x6e51, 0x45b3, {0x90, 0xee, 0x98, 0x84, 0x26, 0x5e, 0x8d, 0xf3}};
static const GUID resource_id = {0x696442be, 0xa72e, 0x4059, {0xbc, 0x79, 0x5b, 0x5c, 0x98, 0x04, 0x0f, 0xad}};
static const GUID device10_id = {0x517f8718, 0xaa66, 0x49f9, {0xb0, 0x2b, 0xa7, 0xab, 0x89, 0xc0, 0x60, 0x31}};
static const GUID device12_id = {0x5af5c532, 0x4c91, 0x4cd0, {0xb5, 0x41, 0x15, 0xa4, 0x05, 0x39, 0x5f, 0xc5}};

typedef HRESULT(STDMETHODCALLTYPE *query_interface_call)(void *, const GUID *, void **);
typedef ULONG(STDMETHODCALLTYPE *reference_call)(void *);
typedef HRESULT(STDMETHODCALLTYPE *set_name_call)(ID3D12Resource *, const WCHAR *);
typedef HRESULT(STDMETHODCALLTYPE *map_call)(ID3D12Resource *, UINT, const D3D12_RANGE *, void **);
typedef HRESULT(STDMETHODCALLTYPE *check_feature_call)(ID3D12Device *, D3D12_FEATURE, void *, UINT);
typedef HRESULT(STDMETHODCALLTYPE *create_heap_call)(ID3D12Device *, const D3D12_HEAP_DESC *, const GUID *, void **);
typedef HRESULT(STDMETHODCALLTYPE *create_committed_call)(ID3D12Device *, const D3D12_HEAP_PROPERTIES *, D3D12_HEAP_FLAGS,
    const D3D12_RESOURCE_DESC *, D3D12_RESOURCE_STATES, const D3D12_CLEAR_VALUE *, const GUID *, void **);
typedef HRESULT(STDMETHODCALLTYPE *create_placed_call)(ID3D12Device *, ID3D12Heap *, UINT64, const D3D12_RESOURCE_DESC *,
    D3D12_RESOURCE_STATES, const D3D12_CLEAR_VALUE *, const GUID *, void **);
typedef HRESULT(STDMETHODCALLTYPE *removed_reason_call)(ID3D12Device *);

/* D3D12_RESOURCE_DESC1: its last field, which comes where D3D12_RESOURCE_DESC has its padding, is all zeros here. */
struct desc1 {
    UINT64 words[8];
};
/* layout: a D3D12_BARRIER_LAYOUT. Protected sessions aren't handed on. */
typedef HRESULT(STDMETHODCALLTYPE *create_committed_3_call)(void *, const D3D12_HEAP_PROPERTIES *, D3D12_HEAP_FLAGS, const struct desc1 *,
    UINT layout, const D3D12_CLEAR_VALUE *, void *session, UINT32, const DXGI_FORMAT *, const GUID *, void **);
typedef HRESULT(STDMETHODCALLTYPE *create_placed_2_call)(void *, ID3D12Heap *, UINT64, const struct desc1 *, UINT layout,
    const D3D12_CLEAR_VALUE *, UINT32, const DXGI_FORMAT *, const GUID *, void **);

/* DXGI_QUERY_VIDEO_MEMORY_INFO */
struct video_memory_info {
    UINT64 budget, usage, available, reserved;
};
typedef HRESULT(STDMETHODCALLTYPE *video_memory_call)(void *, UINT node, UINT group, struct video_memory_info *);

/* Functions that return a struct are given its address as second argument on Windows and by vkd3d; older headers declare that wrongly for
 * C. With Microsoft's headers on Linux they return it. */
#if defined(_WIN32) || defined(__vkd3d_d3d12_h__)
typedef D3D12_RESOURCE_ALLOCATION_INFO *(STDMETHODCALLTYPE *allocation_info_call)(
    ID3D12Device *, D3D12_RESOURCE_ALLOCATION_INFO *, UINT, UINT, const D3D12_RESOURCE_DESC *);
typedef D3D12_RESOURCE_ALLOCATION_INFO *(STDMETHODCALLTYPE *allocation_info_3_call)(void *, D3D12_RESOURCE_ALLOCATION_INFO *, UINT, UINT,
    const struct desc1 *, const UINT32 *, const DXGI_FORMAT *const *, void *);
#define TELLS_INFO(device, info, ...) \
    ((void)((allocation_info_call)function_of((device), GET_RESOURCE_ALLOCATION_INFO))((device), (info), __VA_ARGS__))
#define TELLS_INFO_3(device, info, ...) \
    ((void)((allocation_info_3_call)function_of((device), GET_RESOURCE_ALLOCATION_INFO_3))((device), (info), __VA_ARGS__))
#else
typedef D3D12_RESOURCE_ALLOCATION_INFO(STDMETHODCALLTYPE *allocation_info_call)(ID3D12Device *, UINT, UINT, const D3D12_RESOURCE_DESC *);
typedef D3D12_RESOURCE_ALLOCATION_INFO(STDMETHODCALLTYPE *allocation_info_3_call)(
    void *, UINT, UINT, const struct desc1 *, const UINT32 *, const DXGI_FORMAT *const *, void *);
#define TELLS_INFO(device, info, ...) \
    (*(info) = ((allocation_info_call)function_of((device), GET_RESOURCE_ALLOCATION_INFO))((device), __VA_ARGS__))
#define TELLS_INFO_3(device, info, ...) \
    (*(info) = ((allocation_info_3_call)function_of((device), GET_RESOURCE_ALLOCATION_INFO_3))((device), __VA_ARGS__))
#endif

typedef void (*any_function)(void);

/* The function of an interface that has this number: an interface begins with the address of the table of its functions. */
static inline any_function function_of(const void *interface_, unsigned number) {
    const any_function *functions;
    any_function function;
    memcpy(&functions, interface_, sizeof functions);
    memcpy(&function, functions + number, sizeof function);
    return function;
}

static inline void add_reference(void *interface_) {
    (void)((reference_call)function_of(interface_, ADD_REF))(interface_);
}

static inline void release_reference(void *interface_) {
    (void)((reference_call)function_of(interface_, RELEASE))(interface_);
}

/* ---- the device ---- */

/* A device by its newest interface that can be of use; newer is NULL where that is ID3D12Device. */
struct driver {
    ID3D12Device *device;
    void *newer;
    pilhangko_device_version version;
};

static inline bool is_answered(ID3D12Device *device, const GUID *id, void **newer) {
    *newer = NULL;
    return ((query_interface_call)function_of(device, QUERY_INTERFACE))(device, id, newer) >= 0 && *newer;
}

/* It takes a reference to the newer interface, if there is one. */
static inline void find_newest(struct driver *d) {
    if (is_answered(d->device, &device12_id, &d->newer)) d->version = PILHANGKO_DEVICE12;
    else if (is_answered(d->device, &device10_id, &d->newer)) d->version = PILHANGKO_DEVICE10;
    else d->version = PILHANGKO_DEVICE;
}

/* How a refused question is told: a device that was removed says why. */
static inline pilhangko_d3d12_result refused_by(ID3D12Device *device, pilhangko_status status, HRESULT driver) {
    if (driver != REMOVED) return result_of(status, driver);
    driver = ((removed_reason_call)function_of(device, GET_DEVICE_REMOVED_REASON))(device);
    return result_of(PILHANGKO_D3D12_DEVICE_REMOVED, driver < 0 ? driver : REMOVED);
}

static inline HRESULT tells_tier(ID3D12Device *device, uint32_t *tier) {
    D3D12_FEATURE_DATA_D3D12_OPTIONS options;
    HRESULT driver;
    memset(&options, 0, sizeof options);
    driver = ((check_feature_call)function_of(device, CHECK_FEATURE_SUPPORT))(device, D3D12_FEATURE_D3D12_OPTIONS, &options, sizeof options);
    if (driver >= 0) *tier = (uint32_t)options.ResourceHeapTier;
    return driver;
}

/* Whether the device says that it has one memory; no where it doesn't say. */
static inline bool tells_unified(ID3D12Device *device) {
    D3D12_FEATURE_DATA_ARCHITECTURE it;
    memset(&it, 0, sizeof it);
    return ((check_feature_call)function_of(device, CHECK_FEATURE_SUPPORT))(device, D3D12_FEATURE_ARCHITECTURE, &it, sizeof it) >= 0 && it.UMA;
}

static inline bool tells_budget(void *adapter, uint32_t group, struct video_memory_info *info) {
    memset(info, 0, sizeof *info);
    if (!adapter) return false;
    if (((video_memory_call)function_of(adapter, QUERY_VIDEO_MEMORY_INFO))(adapter, 0, group, info) >= 0) return true;
    memset(info, 0, sizeof *info);
    return false;
}

/* ---- heaps and resources ---- */

static inline HRESULT make_heap(
    ID3D12Device *device, const pilhangko_heaps_question *question, D3D12_HEAP_FLAGS more_flags, ID3D12Heap **heap) {
    D3D12_HEAP_DESC desc;
    memset(&desc, 0, sizeof desc);
    desc.SizeInBytes = question->size;
    desc.Alignment = question->alignment;
    desc.Properties.Type = (D3D12_HEAP_TYPE)question->heap_type;
    desc.Properties.CPUPageProperty = (D3D12_CPU_PAGE_PROPERTY)question->cpu_page_property;
    desc.Properties.MemoryPoolPreference = (D3D12_MEMORY_POOL)question->memory_pool;
    desc.Flags = (D3D12_HEAP_FLAGS)((uint32_t)more_flags | question->flags);
    *heap = NULL;
    return ((create_heap_call)function_of(device, CREATE_HEAP))(device, &desc, &heap_id, (void **)heap);
}

static inline struct desc1 desc1_of(const D3D12_RESOURCE_DESC *desc) {
    struct desc1 d;
    memset(&d, 0, sizeof d);
    memcpy(&d, desc, offsetof(D3D12_RESOURCE_DESC, Flags) + sizeof desc->Flags);
    return d;
}

/* What a resource needs, by the newest interface, which knows of castable formats; false where the device says that there is no such one. */
static inline bool tells_needs(const struct driver *d, const D3D12_RESOURCE_DESC *desc, UINT32 format_count, const DXGI_FORMAT *formats,
    D3D12_RESOURCE_ALLOCATION_INFO *info) {
    memset(info, 0, sizeof *info);
    if (d->version == PILHANGKO_DEVICE12) {
        const struct desc1 desc1 = desc1_of(desc);
        TELLS_INFO_3(d->newer, info, 0, 1, &desc1, &format_count, &formats, NULL);
    } else {
        TELLS_INFO(d->device, info, 0, 1, desc);
    }
    return info->SizeInBytes != UINT64_MAX;
}

static inline pilhangko_category category_of(const D3D12_RESOURCE_DESC *desc) {
    const UINT target = (UINT)D3D12_RESOURCE_FLAG_ALLOW_RENDER_TARGET | (UINT)D3D12_RESOURCE_FLAG_ALLOW_DEPTH_STENCIL;
    if (desc->Dimension == D3D12_RESOURCE_DIMENSION_BUFFER) return PILHANGKO_CATEGORY_BUFFER;
    return (UINT)desc->Flags & target ? PILHANGKO_CATEGORY_RTV_DSV_TEXTURE : PILHANGKO_CATEGORY_OTHER_TEXTURE;
}

/* Where a resource goes: in a heap, or in memory of its own, where heap is NULL. */
struct place {
    ID3D12Heap *heap;
    UINT64 offset;
    D3D12_HEAP_PROPERTIES properties;
};

static inline HRESULT make_in_state(ID3D12Device *device, const struct place *where, const D3D12_RESOURCE_DESC *desc,
    const pilhangko_d3d12_placement *p, void **made) {
    if (where->heap)
        return ((create_placed_call)function_of(device, CREATE_PLACED_RESOURCE))(
            device, where->heap, where->offset, desc, p->state, p->clear_value, &resource_id, made);
    return ((create_committed_call)function_of(device, CREATE_COMMITTED_RESOURCE))(
        device, &where->properties, p->committed_flags, desc, p->state, p->clear_value, &resource_id, made);
}

static inline HRESULT make_in_layout(void *newer, const struct place *where, const D3D12_RESOURCE_DESC *desc,
    const pilhangko_d3d12_placement *p, UINT32 format_count, void **made) {
    const struct desc1 desc1 = desc1_of(desc);
    const DXGI_FORMAT *formats = format_count ? p->formats : NULL;
    if (where->heap)
        return ((create_placed_2_call)function_of(newer, CREATE_PLACED_RESOURCE_2))(
            newer, where->heap, where->offset, &desc1, (UINT)p->state, p->clear_value, format_count, formats, &resource_id, made);
    return ((create_committed_3_call)function_of(newer, CREATE_COMMITTED_RESOURCE_3))(newer, &where->properties, p->committed_flags, &desc1,
        (UINT)p->state, p->clear_value, NULL, format_count, formats, &resource_id, made);
}

/* Makes a resource by the call that was chosen; *resource is NULL where the driver made none. */
static inline HRESULT make_resource(const struct driver *d, pilhangko_create_call call, const struct place *where,
    const D3D12_RESOURCE_DESC *desc, const pilhangko_d3d12_placement *p, ID3D12Resource **resource) {
    void *made = NULL;
    const HRESULT driver =
        call == PILHANGKO_CALL_IN_STATE
            ? make_in_state(d->device, where, desc, p, &made)
            : make_in_layout(d->newer, where, desc, p, call == PILHANGKO_CALL_IN_LAYOUT_WITH_FORMATS ? p->format_count : 0, &made);
    *resource = driver >= 0 ? (ID3D12Resource *)made : NULL;
    return driver;
}

/* The whole buffer's address, for writing: the host reads nothing of it. */
static inline HRESULT map_buffer(ID3D12Resource *buffer, void **mapped) {
    const D3D12_RANGE nothing = {0, 0};
    *mapped = NULL;
    return ((map_call)function_of(buffer, MAP))(buffer, 0, &nothing, mapped);
}

/* ---- names ---- */

/* The next character of UTF-8 text, behind which *at stands then. Of text that isn't UTF-8 it is some character. */
static inline uint32_t next_character(const unsigned char **at) {
    uint32_t code = *(*at)++;
    unsigned more = code >= 0xf0 ? 3 : code >= 0xe0 ? 2 : code >= 0xc0 ? 1 : 0;
    if (more) code &= 0x3fu >> more;
    for (; more && (**at & 0xc0) == 0x80; more--) code = code << 6 | (*(*at)++ & 0x3fu);
    return code <= 0x10ffff ? code : 0xfffd;
}

/* The resource's name for the debug layer and tools, in WCHARs, which have two bytes on Windows and four with vkd3d; cut where it is long.
 * It is no promise, so a refusal is dropped. */
static inline void set_name(ID3D12Resource *resource, const char *name) {
    const unsigned char *at = (const unsigned char *)name;
    WCHAR wide[129];
    size_t length = 0;
    if (!name) return;
    while (*at && length < 127) {
        uint32_t code = next_character(&at);
        if (sizeof(WCHAR) == 2 && code >= 0x10000) {
            wide[length++] = (WCHAR)(0xd7c0 + (code >> 10));
            code = 0xdc00 | (code & 0x3ff);
        }
        wide[length++] = (WCHAR)code;
    }
    wide[length] = 0;
    (void)((set_name_call)function_of(resource, SET_NAME))(resource, wide);
}

#endif
