/* The Metal binding over a fake device: rows that were worked out by hand, each status of each call, each question to the device and each
 * request for host memory refused in turn, threads, and how captures end. */
#include "pilhangko_metal.h"

#include "fake_metal.h"
#include "refusing_heap.h"
#include "test.h"
#include <pthread.h>

#define MB (UINT64_C(1) << 20)

static FakeDevice *device;

static void fake_begin(void) {
    memset(&fake, 0, sizeof fake);
    fake.devices = 1;
    fake.has_residency_sets = true;
}

/* Blocks of 4 MB, and a residency set. */
static pilhangko_metal_settings fake_settings(void) {
    pilhangko_metal_settings settings = {
        .device = device, .has_residency_set = true, .device_block_size = 4 * MB, .host_block_size = 4 * MB};
    return settings;
}

static pilhangko_metal binding_by(const pilhangko_metal_settings *settings) {
    pilhangko_metal metal = {0};
    IS(pilhangko_metal_create(&metal, settings), PILHANGKO_OK);
    return metal;
}

static pilhangko_metal fake_binding(void) {
    const pilhangko_metal_settings settings = fake_settings();
    fake_begin();
    return binding_by(&settings);
}

/* Nothing may be left but the leaks that are told, of the device's and of the host's. */
static void ends(pilhangko_metal *metal, uint64_t leaks) {
    pilhangko_metal_ending ending = {99, {9, 9}};
    IS(pilhangko_metal_destroy(metal, &ending), PILHANGKO_OK);
    CHECK(ending.leaks == leaks && ending.capture.end == PILHANGKO_METAL_CAPTURE_NONE && ending.capture.bytes == 0);
    CHECK(fake.heaps == 0 && fake.resources == 0 && fake.sets == 0 && fake.devices == 1 && heap_held == 0);
    IS(pilhangko_metal_destroy(metal, &ending), PILHANGKO_NO_HANDLE);
    CHECK(ending.leaks == leaks);
}

static pilhangko_metal_request asks(uint64_t size, pilhangko_location location) {
    pilhangko_metal_request r = {size, 256, location, "row", 0};
    return r;
}

static pilhangko_metal_allocation allocates(pilhangko_metal *metal, const pilhangko_metal_request *request) {
    pilhangko_metal_allocation a;
    IS(pilhangko_metal_allocate(metal, request, &a), PILHANGKO_OK);
    return a;
}

static const FakeHeap *heap_of(const pilhangko_metal_allocation *a) {
    return (FakeHeap *)a->heap;
}

static void is_at(const pilhangko_metal_allocation *a, NSUInteger heap, uint64_t offset, uint64_t size, size_t type) {
    CHECK(heap_of(a)->number == heap && a->offset == offset && a->size == size && a->piece.memory_type == type);
}

static void is_live(const pilhangko_metal *metal, const pilhangko_metal_allocation *a, bool expected) {
    bool live = !expected;
    IS(pilhangko_metal_is_live(metal, a, &live), PILHANGKO_OK);
    CHECK(live == expected);
}

/* ---- rows */

/* The set is the device's first object, the heaps are those behind it. */
static void memory_rows(void) {
    pilhangko_metal metal = fake_binding();
    const pilhangko_metal_request own = asks(100, PILHANGKO_LOCATION_GPU_ONLY), up = asks(50, PILHANGKO_LOCATION_CPU_TO_GPU),
                                  down = asks(60, PILHANGKO_LOCATION_GPU_TO_CPU), any = asks(70, PILHANGKO_LOCATION_UNKNOWN),
                                  large = asks(5 * MB, PILHANGKO_LOCATION_GPU_ONLY);
    uint64_t capacity = 0;
    CHECK(fake.questions == 1 && fake.sets == 1 && fake.heaps == 0);
    const pilhangko_metal_allocation a = allocates(&metal, &own), b = allocates(&metal, &own), c = allocates(&metal, &up),
                                     d = allocates(&metal, &down), e = allocates(&metal, &any), f = allocates(&metal, &large);
    is_at(&a, 2, 0, 100, 0);
    is_at(&b, 2, 256, 100, 0);
    is_at(&c, 3, 0, 50, 1);
    is_at(&d, 4, 0, 60, 2);
    is_at(&e, 2, 512, 70, 0);
    is_at(&f, 5, 0, 5 * MB, 0); /* larger than a block of 4 MB */
    CHECK(fake.questions == 5 && fake.members == 4 && fake.commits == 0);
    IS(pilhangko_metal_capacity(&metal, &capacity), PILHANGKO_OK);
    CHECK(capacity == 17 * MB && fake.heap_bytes == 17 * MB);
    CHECK(heap_of(&a)->options == (MTLResourceStorageModePrivate | MTLResourceHazardTrackingModeUntracked));
    CHECK(heap_of(&c)->options == (MTLResourceCPUCacheModeWriteCombined | MTLResourceHazardTrackingModeUntracked));
    CHECK(heap_of(&d)->options == MTLResourceHazardTrackingModeUntracked);
    IS(pilhangko_metal_commit(&metal), PILHANGKO_OK);
    CHECK(fake.commits == 1 && fake.committed == 4);
    IS(pilhangko_metal_free(&metal, &f), PILHANGKO_OK); /* its heap was its own: it leaves the set and goes */
    CHECK(fake.heaps == 3 && fake.members == 3 && fake.committed == 4);
    is_live(&metal, &f, false);
    is_live(&metal, &e, true);
    ends(&metal, 5);
}

/* A visit shows an allocation's word, too. */
static void has_word(const pilhangko_metal *metal, const pilhangko_metal_allocation *a, uint64_t expected) {
    pilhangko_piece_view view;
    size_t shown;
    uint64_t word = 9;
    IS(pilhangko_metal_user_data(metal, a, &word), PILHANGKO_OK);
    IS(pilhangko_metal_heaps_pieces(pilhangko_metal_allocator(metal), a->piece.memory_type, a->piece.piece.slot, a->offset, &view, 1, &shown),
        PILHANGKO_OK);
    CHECK(word == expected && shown == 1 && view.number == a->piece.piece.number && view.word == expected);
}

/* Each kind is as long as it was asked for, at the size and the alignment that the device told. */
static void resource_rows(void) {
    const pilhangko_metal_placement shared = {PILHANGKO_LOCATION_CPU_TO_GPU, "vertices", 3}, own = {PILHANGKO_LOCATION_GPU_ONLY, NULL, 4};
    pilhangko_metal metal = fake_binding();
    MTLTextureDescriptor *descriptor = [[MTLTextureDescriptor alloc] init];
    id<MTLBuffer> buffer = nil;
    id<MTLTexture> texture = nil;
    id<MTLAccelerationStructure> structure = nil;
    pilhangko_metal_allocation at[3];
    [descriptor setWidth:100];
    [descriptor setHeight:50];
    IS(pilhangko_metal_create_buffer(&metal, 1000, &shared, &buffer, &at[0]), PILHANGKO_OK);
    is_at(&at[0], 2, 0, 1024, 1);
    CHECK([buffer length] == 1000 && [[buffer label] isEqualToString:@"vertices"] && [buffer contents] != NULL);
    IS(pilhangko_metal_create_acceleration_structure(&metal, 300, &own, &structure, &at[1]), PILHANGKO_OK);
    is_at(&at[1], 3, 0, 512, 0);
    CHECK([structure size] == 300 && [structure label] == nil);
    IS(pilhangko_metal_create_texture(&metal, descriptor, &own, &texture, &at[2]), PILHANGKO_OK);
    is_at(&at[2], 3, 16384, 32768, 0); /* 20,000 bytes in whole 16,384 */
    CHECK([texture heapOffset] == 16384 && [descriptor resourceOptions] == 0);
    CHECK([buffer retainCount] == 1 && [texture retainCount] == 1 && [structure retainCount] == 1);
    for (unsigned i = 0; i < 3; i++) has_word(&metal, &at[i], i == 0 ? 3 : 4);
    [buffer release];
    [texture release];
    [structure release];
    [descriptor release];
    for (unsigned i = 0; i < 3; i++) IS(pilhangko_metal_free(&metal, &at[i]), PILHANGKO_OK);
    ends(&metal, 0);
}

static void request_rows(void) {
    pilhangko_metal metal = fake_binding();
    MTLTextureDescriptor *descriptor = [[MTLTextureDescriptor alloc] init];
    pilhangko_metal_request r;
    [descriptor setWidth:64];
    [descriptor setHeight:64];
    IS(pilhangko_metal_read_buffer_request(&metal, 257, PILHANGKO_LOCATION_GPU_TO_CPU, "b", &r), PILHANGKO_OK);
    CHECK(r.size == 512 && r.alignment == 256 && r.location == PILHANGKO_LOCATION_GPU_TO_CPU && strcmp(r.name, "b") == 0);
    IS(pilhangko_metal_read_texture_request(&metal, descriptor, PILHANGKO_LOCATION_GPU_ONLY, NULL, &r), PILHANGKO_OK);
    CHECK(r.size == 16384 && r.alignment == 16384 && r.location == PILHANGKO_LOCATION_GPU_ONLY && r.name == NULL);
    IS(pilhangko_metal_read_acceleration_structure_request(&metal, 1, PILHANGKO_LOCATION_GPU_ONLY, "s", &r), PILHANGKO_OK);
    CHECK(r.size == 256 && r.alignment == 256 && strcmp(r.name, "s") == 0 && r.user_data == 0);
    const pilhangko_metal_allocation a = allocates(&metal, &r);
    is_at(&a, 2, 0, 256, 0);
    [descriptor release];
    ends(&metal, 1);
}

static void settings_rows(void) {
    pilhangko_metal_settings usual = {.device = device}, outside = {.device = device, .externally_synchronized = true};
    const pilhangko_metal_request own = asks(1, PILHANGKO_LOCATION_GPU_ONLY), up = asks(1, PILHANGKO_LOCATION_CPU_TO_GPU);
    fake_begin();
    pilhangko_metal metal = binding_by(&usual);
    CHECK(pilhangko_metal_residency_set(&metal) == nil && fake.questions == 0);
    const pilhangko_metal_allocation a = allocates(&metal, &own), b = allocates(&metal, &up);
    CHECK(heap_of(&a)->size == 256 * MB && heap_of(&b)->size == 64 * MB && fake.members == 0);
    IS(pilhangko_metal_commit(&metal), PILHANGKO_OK);
    CHECK(fake.commits == 0);
    ends(&metal, 2);
    metal = binding_by(&outside);
    IS(pilhangko_metal_lock(&metal), PILHANGKO_OK); /* without effect: the next call would wait for ever */
    (void)allocates(&metal, &own);
    IS(pilhangko_metal_unlock(&metal), PILHANGKO_OK);
    ends(&metal, 1);
}

/* What the allocator behind it tells. */
static void told_rows(void) {
    pilhangko_metal metal = fake_binding();
    pilhangko_metal_request r = asks(100, PILHANGKO_LOCATION_GPU_TO_CPU);
    r.user_data = UINT64_MAX;
    const pilhangko_metal_allocation a = allocates(&metal, &r);
    const pilhangko_metal_heaps *heaps = pilhangko_metal_allocator(&metal);
    pilhangko_type_statistics type;
    char text[512];
    size_t length = 0;
    has_word(&metal, &a, UINT64_MAX);
    IS(pilhangko_metal_set_user_data(&metal, &a, 77), PILHANGKO_OK);
    IS(pilhangko_metal_rename(&metal, &a, "depth"), PILHANGKO_OK);
    has_word(&metal, &a, 77);
    IS(pilhangko_metal_lock(&metal), PILHANGKO_OK);
    IS(pilhangko_metal_heaps_type_statistics(heaps, 2, &type), PILHANGKO_OK);
    CHECK(type.pieces == 1 && type.capacity == 4 * MB);
    IS(pilhangko_metal_heaps_leak(heaps, 0, text, sizeof text, &length), PILHANGKO_OK);
    CHECK(length < sizeof text);
    text[length] = 0;
    CHECK(strstr(text, "depth"));
    IS(pilhangko_metal_heaps_report(heaps, text, sizeof text - 1, &length), PILHANGKO_OK);
    CHECK(length < sizeof text - 1);
    text[length] = 0;
    CHECK(strstr(text, "{\"name\":\"depth\",\"offset\":0,\"size\":100}"));
    IS(pilhangko_metal_unlock(&metal), PILHANGKO_OK);
    ends(&metal, 1);
}

static void budget_rows(void) {
    pilhangko_metal metal = fake_binding();
    const pilhangko_metal_request own = asks(3 * MB, PILHANGKO_LOCATION_GPU_ONLY);
    pilhangko_metal_allocation a;
    pilhangko_metal_memory memory;
    pilhangko_budget told;
    (void)allocates(&metal, &own);
    fake.working_set = 11 * MB;
    fake.used_elsewhere = 4 * MB;
    IS(pilhangko_metal_read_memory(&metal, &memory), PILHANGKO_OK);
    CHECK(memory.held == 4 * MB && memory.usage == 8 * MB && memory.budget == 11 * MB);
    IS(pilhangko_metal_update_budgets(&metal), PILHANGKO_OK); /* 3 MB are left */
    IS(pilhangko_metal_budget(&metal, 0, &told), PILHANGKO_OK);
    CHECK(told.exists && told.bytes == 7 * MB);
    IS(pilhangko_metal_budget(&metal, 2, &told), PILHANGKO_OK);
    CHECK(told.exists && told.bytes == 3 * MB);
    IS(pilhangko_metal_allocate(&metal, &own, &a), PILHANGKO_BUDGET_EXCEEDED);
    IS(pilhangko_metal_set_budget(&metal, 0, false, 0), PILHANGKO_OK);
    IS(pilhangko_metal_set_budget(&metal, 3, false, 0), PILHANGKO_NO_SUCH_TYPE);
    (void)allocates(&metal, &own);
    fake.working_set = 0; /* nothing is left: what is held may stay */
    IS(pilhangko_metal_update_budgets(&metal), PILHANGKO_OK);
    IS(pilhangko_metal_budget(&metal, 0, &told), PILHANGKO_OK);
    CHECK(told.exists && told.bytes == 8 * MB);
    fake.working_set = UINT64_MAX;
    IS(pilhangko_metal_update_budgets(&metal), PILHANGKO_OK);
    IS(pilhangko_metal_budget(&metal, 0, &told), PILHANGKO_OK);
    CHECK(told.bytes == UINT64_MAX - 4 * MB); /* 12 MB are used, of which 8 MB are the memory type's */
    ends(&metal, 2);
}

/* ---- statuses */

static void creations(void) {
    pilhangko_metal_settings settings = fake_settings(), none = {0};
    pilhangko_metal metal = {0};
    fake_begin();
    IS(pilhangko_metal_create(NULL, &settings), PILHANGKO_NULL_POINTER);
    IS(pilhangko_metal_create(&metal, NULL), PILHANGKO_NULL_POINTER);
    IS(pilhangko_metal_create(&metal, &none), PILHANGKO_NULL_POINTER);
    const NSUInteger references = [device retainCount];
    fake.refused[0] = 1;
    IS(pilhangko_metal_create(&metal, &settings), PILHANGKO_DRIVER_REFUSED); /* the residency set */
    CHECK(!metal.opaque && fake.questions == 1 && heap_held == 0);
    fake.has_residency_sets = false;
    IS(pilhangko_metal_create(&metal, &settings), PILHANGKO_DRIVER_REFUSED); /* it isn't asked */
    CHECK(!metal.opaque && fake.questions == 1 && heap_held == 0 && [device retainCount] == references);
    fake.has_residency_sets = true;
    IS(pilhangko_metal_create(&metal, &settings), PILHANGKO_OK);
    CHECK([device retainCount] == references + 1);
    IS(pilhangko_metal_create(&metal, &settings), PILHANGKO_IN_USE);
    ends(&metal, 0);
    CHECK([device retainCount] == references);
    IS(pilhangko_metal_destroy(NULL, NULL), PILHANGKO_NULL_POINTER);
}

/* All pointers of a call, of which one is to be NULL. */
struct pointers {
    pilhangko_metal *metal;
    const pilhangko_metal_request *request;
    const pilhangko_metal_placement *placement;
    MTLTextureDescriptor *descriptor;
    pilhangko_metal_allocation *a;
    id<MTLBuffer> *buffer;
    id<MTLTexture> *texture;
    id<MTLAccelerationStructure> *structure;
};

static void each_making_call(const struct pointers *p, pilhangko_status expected) {
    pilhangko_metal_request r;
    IS(pilhangko_metal_allocate(p->metal, p->request, p->a), expected);
    IS(pilhangko_metal_create_buffer(p->metal, 1, p->placement, p->buffer, p->a), expected);
    IS(pilhangko_metal_create_texture(p->metal, p->descriptor, p->placement, p->texture, p->a), expected);
    IS(pilhangko_metal_create_acceleration_structure(p->metal, 1, p->placement, p->structure, p->a), expected);
    if (p->metal && p->descriptor && expected == PILHANGKO_NULL_POINTER) return;
    IS(pilhangko_metal_read_texture_request(p->metal, p->descriptor, PILHANGKO_LOCATION_GPU_ONLY, NULL, &r), expected);
}

static void each_small_call(pilhangko_metal *m, pilhangko_status expected) {
    pilhangko_metal_allocation a = {.serial = 1};
    pilhangko_metal_request r;
    pilhangko_metal_memory memory;
    pilhangko_metal_capture capture;
    pilhangko_budget budget;
    uint64_t number;
    bool live;
    IS(pilhangko_metal_read_buffer_request(m, 1, PILHANGKO_LOCATION_GPU_ONLY, NULL, &r), expected);
    IS(pilhangko_metal_read_acceleration_structure_request(m, 1, PILHANGKO_LOCATION_GPU_ONLY, NULL, &r), expected);
    IS(pilhangko_metal_free(m, &a), expected);
    IS(pilhangko_metal_rename(m, &a, "x"), expected);
    IS(pilhangko_metal_is_live(m, &a, &live), expected);
    IS(pilhangko_metal_set_user_data(m, &a, 1), expected);
    IS(pilhangko_metal_user_data(m, &a, &number), expected);
    IS(pilhangko_metal_capacity(m, &number), expected);
    IS(pilhangko_metal_commit(m), expected);
    IS(pilhangko_metal_read_memory(m, &memory), expected);
    IS(pilhangko_metal_update_budgets(m), expected);
    IS(pilhangko_metal_set_budget(m, 0, true, 1), expected);
    IS(pilhangko_metal_budget(m, 0, &budget), expected);
    IS(pilhangko_metal_lock(m), expected);
    IS(pilhangko_metal_unlock(m), expected);
    IS(pilhangko_metal_end_capture(m, &capture), expected);
    IS(pilhangko_metal_destroy(m, NULL), expected);
    CHECK(pilhangko_metal_allocator(m) == NULL && pilhangko_metal_residency_set(m) == nil);
}

/* The other pointers of the small calls. */
static void small_null_pointers(pilhangko_metal *m) {
    const pilhangko_metal_allocation a = {.serial = 1};
    IS(pilhangko_metal_read_buffer_request(m, 1, PILHANGKO_LOCATION_GPU_ONLY, NULL, NULL), PILHANGKO_NULL_POINTER);
    IS(pilhangko_metal_read_acceleration_structure_request(m, 1, PILHANGKO_LOCATION_GPU_ONLY, NULL, NULL), PILHANGKO_NULL_POINTER);
    IS(pilhangko_metal_free(m, NULL), PILHANGKO_NULL_POINTER);
    IS(pilhangko_metal_rename(m, NULL, "x"), PILHANGKO_NULL_POINTER);
    IS(pilhangko_metal_is_live(m, NULL, NULL), PILHANGKO_NULL_POINTER);
    IS(pilhangko_metal_is_live(m, &a, NULL), PILHANGKO_NULL_POINTER);
    IS(pilhangko_metal_set_user_data(m, NULL, 1), PILHANGKO_NULL_POINTER);
    IS(pilhangko_metal_user_data(m, &a, NULL), PILHANGKO_NULL_POINTER);
    IS(pilhangko_metal_capacity(m, NULL), PILHANGKO_NULL_POINTER);
    IS(pilhangko_metal_read_memory(m, NULL), PILHANGKO_NULL_POINTER);
    IS(pilhangko_metal_budget(m, 0, NULL), PILHANGKO_NULL_POINTER);
    IS(pilhangko_metal_end_capture(m, NULL), PILHANGKO_NULL_POINTER);
}

static void empty_handles_and_null(void) {
    const pilhangko_metal_request r = asks(1, PILHANGKO_LOCATION_GPU_ONLY);
    const pilhangko_metal_placement placement = {PILHANGKO_LOCATION_GPU_ONLY, NULL, 0};
    MTLTextureDescriptor *descriptor = [[MTLTextureDescriptor alloc] init];
    pilhangko_metal empty = {0}, metal = fake_binding();
    pilhangko_metal_allocation a;
    id<MTLBuffer> buffer = nil;
    id<MTLTexture> texture = nil;
    id<MTLAccelerationStructure> structure = nil;
    const struct pointers all = {&metal, &r, &placement, descriptor, &a, &buffer, &texture, &structure};
    struct pointers p = all;
    p.metal = &empty;
    each_making_call(&p, PILHANGKO_NO_HANDLE);
    p.metal = NULL;
    each_making_call(&p, PILHANGKO_NULL_POINTER);
    p = all, p.a = NULL;
    each_making_call(&p, PILHANGKO_NULL_POINTER);
    IS(pilhangko_metal_allocate(&metal, NULL, &a), PILHANGKO_NULL_POINTER);
    p = all, p.placement = NULL, p.request = NULL;
    each_making_call(&p, PILHANGKO_NULL_POINTER);
    p = all, p.buffer = NULL, p.texture = NULL, p.structure = NULL, p.request = NULL;
    each_making_call(&p, PILHANGKO_NULL_POINTER);
    IS(pilhangko_metal_create_texture(&metal, nil, &placement, &texture, &a), PILHANGKO_NULL_POINTER);
    IS(pilhangko_metal_read_texture_request(&metal, nil, PILHANGKO_LOCATION_GPU_ONLY, NULL, NULL), PILHANGKO_NULL_POINTER);
    IS(pilhangko_metal_read_texture_request(&metal, descriptor, PILHANGKO_LOCATION_GPU_ONLY, NULL, NULL), PILHANGKO_NULL_POINTER);
    each_small_call(&empty, PILHANGKO_NO_HANDLE);
    each_small_call(NULL, PILHANGKO_NULL_POINTER);
    small_null_pointers(&metal);
    [descriptor release];
    ends(&metal, 0);
}

static void is_refused(pilhangko_metal *metal, const pilhangko_metal_request *r, pilhangko_status status) {
    pilhangko_metal_allocation a = {.offset = 5, .serial = 6};
    IS(pilhangko_metal_allocate(metal, r, &a), status);
    CHECK(a.offset == 5 && a.serial == 6);
}

static void invalid_requests(void) {
    pilhangko_metal metal = fake_binding();
    const pilhangko_metal_placement placement = {PILHANGKO_LOCATION_GPU_ONLY, NULL, 0}, named = {PILHANGKO_LOCATION_GPU_ONLY, "\xff", 0},
                                    nowhere = {(pilhangko_location)9, NULL, 0};
    pilhangko_metal_allocation a = {.serial = 6};
    id<MTLBuffer> buffer = nil;
    pilhangko_metal_request r = asks(0, PILHANGKO_LOCATION_GPU_ONLY);
    is_refused(&metal, &r, PILHANGKO_INVALID);
    r = asks(1, PILHANGKO_LOCATION_GPU_ONLY), r.alignment = 3;
    is_refused(&metal, &r, PILHANGKO_INVALID);
    r = asks(1, (pilhangko_location)0);
    is_refused(&metal, &r, PILHANGKO_INVALID);
    r = asks(1, PILHANGKO_LOCATION_GPU_ONLY), r.name = "\xff";
    is_refused(&metal, &r, PILHANGKO_INVALID);
    IS(pilhangko_metal_create_buffer(&metal, 0, &placement, &buffer, &a), PILHANGKO_INVALID);
    IS(pilhangko_metal_create_buffer(&metal, 1, &named, &buffer, &a), PILHANGKO_INVALID);
    IS(pilhangko_metal_create_buffer(&metal, 1, &nowhere, &buffer, &a), PILHANGKO_INVALID);
    CHECK(buffer == nil && a.serial == 6 && fake.questions == 1);
    r = asks(UINT64_MAX - 255, PILHANGKO_LOCATION_GPU_ONLY);
    const pilhangko_metal_request one = asks(1, PILHANGKO_LOCATION_GPU_ONLY);
    (void)allocates(&metal, &one);
    is_refused(&metal, &r, PILHANGKO_OUT_OF_MEMORY); /* with 4 MB the sum would pass 2^64 - 1 */
    ends(&metal, 1);
}

/* Of another binding, of one that was destroyed, freed, and made up. */
static void foreign_allocations(void) {
    pilhangko_metal metal = fake_binding(), other = {0};
    const pilhangko_metal_settings settings = fake_settings();
    const pilhangko_metal_request r = asks(1, PILHANGKO_LOCATION_GPU_ONLY);
    IS(pilhangko_metal_create(&other, &settings), PILHANGKO_OK);
    const pilhangko_metal_allocation a = allocates(&metal, &r), b = allocates(&other, &r);
    pilhangko_metal_allocation made_up = a;
    is_live(&metal, &b, false);
    IS(pilhangko_metal_free(&metal, &b), PILHANGKO_NOT_LIVE);
    IS(pilhangko_metal_rename(&metal, &b, "x"), PILHANGKO_NOT_LIVE);
    IS(pilhangko_metal_set_user_data(&metal, &b, 1), PILHANGKO_NOT_LIVE);
    made_up.index = 1000;
    is_live(&metal, &made_up, false);
    made_up = a, made_up.serial = 0;
    is_live(&metal, &made_up, false);
    IS(pilhangko_metal_free(&metal, &a), PILHANGKO_OK);
    const pilhangko_metal_allocation again = allocates(&metal, &r); /* the same place, another serial number */
    CHECK(again.index == a.index && again.offset == a.offset);
    is_live(&metal, &a, false);
    is_live(&metal, &again, true);
    IS(pilhangko_metal_destroy(&metal, NULL), PILHANGKO_OK);
    is_live(&other, &again, false);
    IS(pilhangko_metal_destroy(&other, NULL), PILHANGKO_OK);
    CHECK(fake.heaps == 0 && heap_held == 0);
}

/* ---- one script, with each question and each request for host memory refused in turn */

#define THINGS 12

struct thing {
    bool lives;
    FakeResource *resource;
    pilhangko_metal_allocation allocation;
};

static const pilhangko_metal_placement placements[] = {{PILHANGKO_LOCATION_GPU_ONLY, "a name that takes host memory of its own", 0},
    {PILHANGKO_LOCATION_CPU_TO_GPU, NULL, 0}, {PILHANGKO_LOCATION_GPU_TO_CPU, "own", 0}};

static pilhangko_status makes_texture(pilhangko_metal *metal, NSUInteger bytes, const pilhangko_metal_placement *p, struct thing *t) {
    MTLTextureDescriptor *descriptor = [[MTLTextureDescriptor alloc] init];
    id<MTLTexture> texture = nil;
    [descriptor setWidth:bytes / 4];
    [descriptor setHeight:1];
    const pilhangko_status status = pilhangko_metal_create_texture(metal, descriptor, p, &texture, &t->allocation);
    t->resource = (FakeResource *)texture;
    [descriptor release];
    return status;
}

static pilhangko_status makes(pilhangko_metal *metal, unsigned i, struct thing *t) {
    const NSUInteger bytes = 1000 + 2 * MB * (i % 2) + 4 * i;
    const pilhangko_metal_placement *p = &placements[i % 3];
    const pilhangko_metal_request plain = asks(bytes, p->location);
    id<MTLBuffer> buffer = nil;
    id<MTLAccelerationStructure> structure = nil;
    pilhangko_status status;
    if (i % 4 == 0) return pilhangko_metal_allocate(metal, &plain, &t->allocation);
    if (i % 4 == 3) return makes_texture(metal, bytes, p, t);
    if (i % 4 == 1) status = pilhangko_metal_create_buffer(metal, bytes, p, &buffer, &t->allocation);
    else status = pilhangko_metal_create_acceleration_structure(metal, bytes, p, &structure, &t->allocation);
    t->resource = i % 4 == 1 ? (FakeResource *)buffer : (FakeResource *)structure;
    return status;
}

/* What is there: the device's resources are those that were made, and each that lives is live. */
static void all_there(const pilhangko_metal *metal, const struct thing *things) {
    unsigned resources = 0;
    uint64_t capacity;
    for (unsigned i = 0; i < THINGS; i++) {
        resources += things[i].resource != nil;
        if (things[i].lives) is_live(metal, &things[i].allocation, true);
    }
    IS(pilhangko_metal_capacity(metal, &capacity), PILHANGKO_OK);
    CHECK(resources == fake.resources && capacity == fake.heap_bytes && fake.members == fake.heaps);
}

/* Runs the script; says how many calls were refused, and the last one's status. Nothing that frees takes host memory, but for a capture. */
static unsigned script(pilhangko_metal *metal, bool is_captured, pilhangko_status *last) {
    struct thing things[THINGS];
    unsigned refusals = 0;
    memset(things, 0, sizeof things);
    for (unsigned i = 0; i < THINGS; i++) {
        pilhangko_status status = makes(metal, i, &things[i]);
        things[i].lives = status == PILHANGKO_OK;
        if (things[i].lives) status = pilhangko_metal_rename(metal, &things[i].allocation, "another name that takes host memory");
        if (status != PILHANGKO_OK) *last = status, refusals++;
        all_there(metal, things);
    }
    const long before = heap_requests;
    for (unsigned i = 0; i < THINGS; i++) {
        if (!things[i].lives) continue;
        [things[i].resource release];
        IS(pilhangko_metal_free(metal, &things[i].allocation), PILHANGKO_OK);
        memset(&things[i], 0, sizeof things[i]);
        all_there(metal, things);
    }
    CHECK(is_captured || heap_requests == before);
    return refusals;
}

static void each_question_refused(void) {
    unsigned failed = 0;
    for (uint64_t question = 2;; question++) { /* 1 is the residency set: creations() */
        pilhangko_metal metal = fake_binding();
        pilhangko_status last = PILHANGKO_OK;
        fake.refused[0] = question;
        const unsigned refusals = script(&metal, false, &last);
        const bool is_over = fake.questions < question;
        CHECK(refusals == !is_over && (is_over || last == PILHANGKO_DRIVER_REFUSED));
        failed += refusals;
        ends(&metal, 0);
        if (is_over) break;
    }
    printf("%u refused questions ended a call\n", failed);
    CHECK(failed > 5);
}

/* A heap that makes no resource keeps no piece of it. */
static void each_resource_refused(void) {
    pilhangko_metal metal = fake_binding();
    pilhangko_status last = PILHANGKO_OK;
    fake.refuses_resources = true;
    CHECK(script(&metal, false, &last) == 9 && last == PILHANGKO_METAL_CALL_FAILED); /* all but the plain allocations */
    ends(&metal, 0);
}

static bool takes_all(void *user, const char *bytes, size_t length) {
    (void)bytes;
    *(size_t *)user += length;
    return true;
}

/* Where the request is the capture's, the capture ends and no call fails; else one call fails, and says that host memory is lacking. */
static void each_host_request_refused(void) {
    unsigned failed = 0, captures = 0;
    for (long request = 1;; request++) {
        pilhangko_metal metal = {0};
        size_t written = 0;
        pilhangko_metal_settings settings = fake_settings();
        pilhangko_status last = PILHANGKO_OK;
        pilhangko_metal_ending ending;
        settings.capture_write = takes_all;
        settings.capture_user = &written;
        fake_begin();
        heap_requests = 0;
        heap_refused = request;
        if (pilhangko_metal_create(&metal, &settings) == PILHANGKO_HOST_OUT_OF_MEMORY) {
            CHECK(!metal.opaque && heap_held == 0 && fake.sets == 0);
            failed++;
            continue;
        }
        const unsigned refusals = script(&metal, true, &last);
        const bool is_over = heap_requests < request;
        IS(pilhangko_metal_destroy(&metal, &ending), PILHANGKO_OK);
        const bool ended = ending.capture.end == PILHANGKO_METAL_CAPTURE_NO_HOST_MEMORY;
        CHECK(ending.leaks == 0 && fake.heaps == 0 && fake.resources == 0 && fake.sets == 0 && heap_held == 0);
        CHECK(ending.capture.bytes == written && (refusals == 0 || last == PILHANGKO_HOST_OUT_OF_MEMORY));
        CHECK(refusals + ended == !is_over);
        failed += refusals;
        captures += ended;
        if (is_over) break;
    }
    heap_refused = 0;
    printf("%u refused requests for host memory ended a call, %u a capture\n", failed, captures);
    CHECK(failed > 10 && captures > 1);
}

/* ---- threads */

static pilhangko_metal shared_binding;

static void *allocates_and_frees(void *user) {
    pilhangko_metal_request r = asks(1000 + 50000 * (uint64_t)(uintptr_t)user, PILHANGKO_LOCATION_CPU_TO_GPU);
    pilhangko_metal_allocation held[20];
    GSRegisterCurrentThread();
    for (unsigned i = 0; i < 2000; i++) {
        if (i >= 20) IS(pilhangko_metal_free(&shared_binding, &held[i % 20]), PILHANGKO_OK);
        IS(pilhangko_metal_allocate(&shared_binding, &r, &held[i % 20]), PILHANGKO_OK);
        IS(pilhangko_metal_set_user_data(&shared_binding, &held[i % 20], i), PILHANGKO_OK);
    }
    GSUnregisterCurrentThread();
    return NULL;
}

static void threads(void) {
    pthread_t all[4];
    shared_binding = fake_binding();
    for (uintptr_t i = 0; i < 4; i++) CHECK(pthread_create(&all[i], NULL, allocates_and_frees, (void *)(i + 1)) == 0);
    for (unsigned i = 0; i < 4; i++) CHECK(pthread_join(all[i], NULL) == 0);
    ends(&shared_binding, 80);
}

/* ---- captures */

static struct {
    char bytes[1 << 21];
    size_t length, room;
} written;

static bool takes(void *user, const char *bytes, size_t length) {
    (void)user;
    if (length > written.room - written.length) return false;
    memcpy(written.bytes + written.length, bytes, length);
    written.length += length;
    return true;
}

static pilhangko_metal captured(size_t room) {
    pilhangko_metal_settings settings = fake_settings();
    fake_begin();
    settings.capture_write = takes;
    written.length = 0;
    written.room = room;
    return binding_by(&settings);
}

static void is_written(const char *expected) {
    if (written.length == strlen(expected) && memcmp(written.bytes, expected, written.length) == 0) return;
    fprintf(stderr, "the capture is\n%.*s", (int)written.length, written.bytes);
    exit(1);
}

#define DEVICE_LINES "metal\nresidency yes\nsizes 4194304 4194304 0 0\n"

static void captures_by_hand(void) {
    pilhangko_metal metal = captured(sizeof written.bytes);
    const pilhangko_metal_placement placement = {PILHANGKO_LOCATION_GPU_TO_CPU, "two words\xc3\xa9", 0};
    const pilhangko_metal_request own = asks(10, PILHANGKO_LOCATION_GPU_ONLY);
    pilhangko_metal_capture capture;
    pilhangko_metal_allocation a;
    id<MTLBuffer> buffer = nil;
    fake.refused[0] = 3;
    IS(pilhangko_metal_create_buffer(&metal, 100, &placement, &buffer, &a), PILHANGKO_OK);
    is_refused(&metal, &own, PILHANGKO_DRIVER_REFUSED);
    IS(pilhangko_metal_rename(&metal, &a, NULL), PILHANGKO_OK); /* which has no line */
    IS(pilhangko_metal_commit(&metal), PILHANGKO_OK);
    IS(pilhangko_metal_set_budget(&metal, 2, true, UINT64_MAX), PILHANGKO_OK);
    [buffer release];
    IS(pilhangko_metal_free(&metal, &a), PILHANGKO_OK);
    IS(pilhangko_metal_free(&metal, &a), PILHANGKO_NOT_LIVE);
    CHECK(written.length == 0); /* nothing before the end */
    IS(pilhangko_metal_end_capture(&metal, &capture), PILHANGKO_OK);
    CHECK(capture.end == PILHANGKO_METAL_CAPTURE_WHOLE && capture.bytes == written.length);
    is_written(DEVICE_LINES "refuse 3 null\nnew\nalloc 1 256 256 GpuToCpu two_words__\nalloc 2 10 256 GpuOnly row\ncommit\nfree 1\n"
                            "budget 2 18446744073709551615\n");
    IS(pilhangko_metal_end_capture(&metal, &capture), PILHANGKO_METAL_NO_CAPTURE);
    (void)allocates(&metal, &own);
    ends(&metal, 1);
    metal = captured(sizeof written.bytes);
    IS(pilhangko_metal_destroy(&metal, NULL), PILHANGKO_OK);
    is_written(DEVICE_LINES "new\ndestroy\n");
}

/* A budget stands where it changed and counts: before the next request that finds one, and at the end. */
static void captured_budgets(void) {
    pilhangko_metal metal = captured(sizeof written.bytes);
    const pilhangko_metal_request r = asks(10, PILHANGKO_LOCATION_GPU_ONLY);
    pilhangko_metal_allocation a;
    for (unsigned frame = 0; frame < 100000; frame++) {
        IS(pilhangko_metal_set_budget(&metal, 0, true, (64 * MB) + (frame < 100 ? frame : 100)), PILHANGKO_OK);
        IS(pilhangko_metal_set_budget(&metal, 1, true, 9 * MB), PILHANGKO_OK);
    }
    a = allocates(&metal, &r);
    IS(pilhangko_metal_set_budget(&metal, 0, true, 100 * MB), PILHANGKO_OK); /* there and back */
    IS(pilhangko_metal_set_budget(&metal, 0, true, 64 * MB + 100), PILHANGKO_OK);
    IS(pilhangko_metal_set_budget(&metal, 1, false, 0), PILHANGKO_OK);
    IS(pilhangko_metal_free(&metal, &a), PILHANGKO_OK);
    IS(pilhangko_metal_destroy(&metal, NULL), PILHANGKO_OK);
    is_written(DEVICE_LINES "new\nbudget 0 67108964\nbudget 1 9437184\nalloc 1 10 256 GpuOnly row\nfree 1\nbudget 1 none\ndestroy\n");
}

static void too_long_captures(void) {
    static const char remark[] = "# the capture ends here: the next call would make the trace too long\n";
    pilhangko_metal metal = captured(sizeof written.bytes);
    const pilhangko_metal_request r = asks(100, PILHANGKO_LOCATION_GPU_ONLY);
    pilhangko_metal_ending ending;
    for (unsigned i = 0; i < 30000; i++) {
        const pilhangko_metal_allocation a = allocates(&metal, &r);
        IS(pilhangko_metal_free(&metal, &a), PILHANGKO_OK);
    }
    IS(pilhangko_metal_destroy(&metal, &ending), PILHANGKO_OK);
    CHECK(ending.capture.end == PILHANGKO_METAL_CAPTURE_TOO_LONG && ending.capture.bytes == written.length);
    CHECK(written.length <= 1048576 && written.length > 1048576 - 400); /* one more call would not have had room */
    CHECK(memcmp(written.bytes, DEVICE_LINES "new\n", strlen(DEVICE_LINES "new\n")) == 0);
    CHECK(memcmp(written.bytes + written.length - strlen(remark), remark, strlen(remark)) == 0);
}

static void unwritten_captures(void) {
    const size_t all = strlen(DEVICE_LINES "new\n");
    for (size_t room = 0; room < 80; room++) {
        pilhangko_metal metal = captured(room);
        pilhangko_metal_capture capture;
        IS(pilhangko_metal_end_capture(&metal, &capture), PILHANGKO_OK);
        CHECK(capture.bytes == written.length);
        CHECK(capture.end == (room < all ? PILHANGKO_METAL_CAPTURE_NOT_WRITTEN : PILHANGKO_METAL_CAPTURE_WHOLE));
        ends(&metal, 0);
    }
}

int main(void) {
    NSAutoreleasePool *pool = [[NSAutoreleasePool alloc] init];
    device = [[FakeDevice alloc] init];
    memory_rows();
    resource_rows();
    request_rows();
    settings_rows();
    told_rows();
    budget_rows();
    creations();
    empty_handles_and_null();
    invalid_requests();
    foreign_allocations();
    each_question_refused();
    each_resource_refused();
    each_host_request_refused();
    threads();
    captures_by_hand();
    captured_budgets();
    too_long_captures();
    unwritten_captures();
    [device release];
    CHECK(fake.devices == 0);
    [pool drain];
    return 0;
}
