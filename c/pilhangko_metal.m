/* Pilhangko's Metal binding (include/pilhangko_metal.h): compile it with the program, as Objective-C, with ARC or without. It asks the
 * device what the allocator wants to know; the allocator decides all else, and keeps what it decided. */
#include "pilhangko_metal.h"
#include "pilhangko_shared.h"

#define NAMED(rest) pilhangko_metal##rest
#define BYTES_OF(request) ((request)->size)
#include "pilhangko_moves.h"

/* ---- references ---- */

/* The allocator keeps objects as numbers, and so does the binding: each stands for one reference. */
#if defined(__has_feature)
#if __has_feature(objc_arc)
#define HAS_ARC
#endif
#endif
#ifdef HAS_ARC
#define KEPT(object) ((uintptr_t)(__bridge_retained void *)(object))   /* the reference that an object came with */
#define RETAINED(object) ((uintptr_t)(__bridge_retained void *)(object)) /* one more */
#define LENT(kind, number) ((__bridge kind)(void *)(uintptr_t)(number))
#define LET_GO(number) ((void)(__bridge_transfer id)(void *)(uintptr_t)(number))
#define DROP(object) ((void)(object)) /* a variable's reference, which goes with it */
#define WITH_REFERENCE __attribute__((ns_returns_retained)) /* what a function returns, as by `new` */
#else
#define KEPT(object) ((uintptr_t)(object))
#define RETAINED(object) ((uintptr_t)[(object) retain])
#define LENT(kind, number) ((kind)(uintptr_t)(number))
#define LET_GO(number) [(id)(uintptr_t)(number) release]
#define DROP(object) [(object) release]
#define WITH_REFERENCE
#endif

/* ---- records ---- */

/* A live allocation. Its serial number never comes again, so one that was freed is told apart from each later one. */
struct live {
    uint32_t next_spare;
    uint64_t serial; /* 0 of a spare record */
    uint64_t word;   /* the caller's */
    pilhangko_heaps_piece piece;
};

struct binding {
    pilhangko_metal_heaps heaps;
    uint64_t number;       /* no other binding of the process has it, nor had */
    uintptr_t device, set; /* references; set is 0 where there is none */
    bool is_locked_outside; /* whether the caller sees to it that one call is made at a time */
    mutex lock;             /* of the allocator, the live allocations and the capture */
    struct table live;
    uint64_t last_serial, live_count;
    uint64_t changes; /* how often a budget may have changed */
    struct capture capture;
};

static struct binding *binding_of(const pilhangko_metal *metal) {
    return (struct binding *)metal->opaque;
}

static id<MTLDevice> device_of(const struct binding *b) {
    return LENT(id<MTLDevice>, b->device);
}

static id<MTLResidencySet> set_of(const struct binding *b) {
    return LENT(id<MTLResidencySet>, b->set);
}

/* From here on until `leave` no other thread is in a call that looks at the allocator, the live allocations or the capture. */
static struct binding *enter(const struct binding *binding) {
    struct binding *b = (struct binding *)binding;
    if (!b->is_locked_outside) lock_mutex(&b->lock);
    return b;
}

static void leave(struct binding *b) {
    if (!b->is_locked_outside) unlock_mutex(&b->lock);
}

/* The record of an allocation, or NULL where it isn't live or another binding's. */
static struct live *find(const struct binding *b, const pilhangko_metal_allocation *allocation) {
    struct live *it;
    if (allocation->owner != b->number || allocation->serial == 0 || allocation->index >= b->live.count) return NULL;
    it = (struct live *)record_of(&b->live, allocation->index);
    return it->serial == allocation->serial ? it : NULL;
}

/* A copy of a live allocation's record; false where it isn't live. */
static bool find_copy(const struct binding *binding, const pilhangko_metal_allocation *allocation, struct live *copy) {
    struct binding *b = enter(binding);
    const struct live *it = find(b, allocation);
    if (it) *copy = *it;
    leave(b);
    return it != NULL;
}

/* Keeps another word with a live allocation, and with its piece, for those who visit that. */
static void keep_word(struct binding *b, struct live *it, uint64_t word) {
    const pilhangko_status status = pilhangko_metal_heaps_set_word(&b->heaps, &it->piece, word);
    (void)status; /* the piece is live, and no question is open */
    it->word = word;
}

/* Keeps a piece as a live allocation, and tells it. */
static void keep_allocation(
    struct binding *b, const pilhangko_heaps_piece *piece, uint64_t word, pilhangko_metal_allocation *allocation) {
    const uint32_t index = spare_record(&b->live);
    struct live *it = (struct live *)record_of(&b->live, index);
    it->serial = ++b->last_serial;
    it->piece = *piece;
    if (word != 0) keep_word(b, it, word);
    b->live_count++;
    allocation->heap = LENT(id<MTLHeap>, piece->piece.block);
    allocation->offset = piece->piece.offset;
    allocation->size = piece->piece.size;
    allocation->piece = *piece;
    allocation->owner = b->number;
    allocation->serial = it->serial;
    allocation->index = index;
}

/* ---- captures ---- */

/* What a call asked the device: for one heap at most. */
struct asked {
    pilhangko_capture_answer answer;
    size_t count;
};

static void capture_bounds(struct binding *b) {
    pilhangko_type_statistics type;
    if (!lacks_bounds(&b->capture, b->changes)) return;
    for (size_t i = 0; pilhangko_metal_heaps_type_statistics(&b->heaps, i, &type) == PILHANGKO_OK; i++) {
        const pilhangko_budget now = {type.has_budget, type.budget};
        capture_bound(&b->capture, i, &now);
    }
    b->capture.seen = b->changes;
}

/* The call `allocate`. An allocation is called by its serial number; one that was refused by the next one's. */
static void capture_allocation(struct binding *b, const pilhangko_metal_heaps_request *request, const char *name, pilhangko_status status,
    const struct asked *asked) {
    if (!has_line(&b->capture, status)) return;
    capture_bounds(b);
    expect_kept(&b->capture, pilhangko_capture_metal_heaps_allocated(
        &b->capture.kept, b->last_serial + 1, request, name, &asked->answer, asked->count));
}

/* The call `propose_move` of the allocation with this serial number, whether there was a second place or none. */
static void capture_proposal(struct binding *b, uint64_t from, const pilhangko_metal_heaps_request *request, const char *name) {
    if (!is_captured(&b->capture)) return;
    capture_bounds(b);
    expect_kept(&b->capture, pilhangko_capture_metal_heaps_moved(&b->capture.kept, from, b->last_serial + 1, request, name));
}

/* Writes the capture, and ends it. */
static pilhangko_metal_capture end_capture(struct binding *b, bool is_destroyed) {
    struct capture_told ended;
    pilhangko_metal_capture told;
    capture_bounds(b);
    ended = finish_capture(&b->capture, is_destroyed);
    told.end = (pilhangko_metal_capture_end)ended.end;
    told.bytes = ended.bytes;
    return told;
}

/* ---- memory ---- */

/* A label in an object's own text; none where it has none, or where there is no host memory for one. */
static void set_label(id<MTLResource> resource, const char *name) {
    NSString *label = name ? [[NSString alloc] initWithUTF8String:name] : nil;
    if (!label) return;
    [resource setLabel:label];
    DROP(label);
}

/* The heap of the question that is open; nil where the device makes none. */
WITH_REFERENCE static id<MTLHeap> make_heap(const struct binding *b, const pilhangko_metal_heaps_question *question) {
    MTLHeapDescriptor *descriptor = [[MTLHeapDescriptor alloc] init];
    id<MTLHeap> heap;
    [descriptor setType:MTLHeapTypePlacement];
    [descriptor setSize:(NSUInteger)question->size];
    [descriptor setStorageMode:(MTLStorageMode)question->storage_mode];
    [descriptor setCpuCacheMode:(MTLCPUCacheMode)question->cpu_cache_mode];
    heap = descriptor ? [device_of(b) newHeapWithDescriptor:descriptor] : nil;
    DROP(descriptor);
    return heap;
}

/* Asks for the heap, and tells the answer. */
static pilhangko_status ask_heap(struct binding *b, struct asked *asked, pilhangko_metal_heaps_progress *progress) {
    id<MTLHeap> heap = make_heap(b, &progress->question);
    pilhangko_metal_heaps_grant grant;
    pilhangko_status status;
    asked->answer.refused = !heap;
    asked->count = 1;
    if (!heap) return pilhangko_metal_heaps_refused(&b->heaps, progress);
    status = pilhangko_metal_heaps_granted(&b->heaps, KEPT(heap), &grant);
    if (status != PILHANGKO_OK) return status;
    if (grant.joins) [set_of(b) addAllocation:heap];
    progress->kind = PILHANGKO_PROGRESS_PIECE;
    progress->piece = grant.piece;
    return PILHANGKO_OK;
}

/* What the allocator is asked for. */
static pilhangko_metal_heaps_request asks_for(const pilhangko_metal_request *request) {
    pilhangko_metal_heaps_request asks;
    asks.size = request->size;
    asks.alignment = request->alignment;
    asks.location = request->location;
    return asks;
}

static pilhangko_status allocate_alone(
    struct binding *b, const pilhangko_metal_request *request, pilhangko_metal_allocation *allocation) {
    pilhangko_metal_heaps_request asks;
    pilhangko_metal_heaps_progress progress;
    struct asked asked = {{false, 0}, 0};
    pilhangko_status status;
    /* before the device is asked, so that nothing can fail behind its grant */
    if (!has_spare(&b->live)) return PILHANGKO_HOST_OUT_OF_MEMORY;
    asks = asks_for(request);
    status = pilhangko_metal_heaps_begin(&b->heaps, &asks, request->name, &progress);
    if (status == PILHANGKO_OK && progress.kind == PILHANGKO_PROGRESS_QUESTION) status = ask_heap(b, &asked, &progress);
    if (status == PILHANGKO_OK) status = progress.status;
    capture_allocation(b, &asks, request->name, status, &asked);
    if (status == PILHANGKO_OK) keep_allocation(b, &progress.piece, request->user_data, allocation);
    return status;
}

static pilhangko_status allocate(
    struct binding *binding, const pilhangko_metal_request *request, pilhangko_metal_allocation *allocation) {
    struct binding *b = enter(binding);
    const pilhangko_status status = allocate_alone(b, request, allocation);
    leave(b);
    return status;
}

/* Gives a heap back to the device. */
static void give_back(const struct binding *b, const pilhangko_metal_heap *heap) {
    if (heap->leaves) [set_of(b) removeAllocation:LENT(id<MTLHeap>, heap->heap)];
    LET_GO(heap->heap);
}

static pilhangko_status free_alone(struct binding *b, const pilhangko_metal_allocation *allocation) {
    const struct live *it = find(b, allocation);
    pilhangko_metal_heap back;
    pilhangko_status status;
    if (!it) return PILHANGKO_NOT_LIVE;
    status = pilhangko_metal_heaps_free(&b->heaps, &it->piece, &back);
    if (status != PILHANGKO_OK) return status;
    capture_free(&b->capture, it->serial);
    make_spare(&b->live, allocation->index);
    b->live_count--;
    if (back.exists) give_back(b, &back);
    return PILHANGKO_OK;
}

static pilhangko_status free_allocation(struct binding *binding, const pilhangko_metal_allocation *allocation) {
    struct binding *b = enter(binding);
    const pilhangko_status status = free_alone(b, allocation);
    leave(b);
    return status;
}

pilhangko_status PILHANGKO_CALL pilhangko_metal_free_counted(
    pilhangko_metal *metal, const pilhangko_metal_allocation *allocation, uint64_t *bytes) {
    struct binding *b = enter(binding_of(metal));
    uint64_t before = 0, behind = 0;
    pilhangko_status status = pilhangko_metal_heaps_capacity(&b->heaps, &before);
    if (status == PILHANGKO_OK) status = free_alone(b, allocation);
    if (status == PILHANGKO_OK) status = pilhangko_metal_heaps_capacity(&b->heaps, &behind);
    leave(b);
    if (status == PILHANGKO_OK) *bytes = before - behind;
    return status;
}

static pilhangko_status propose_alone(struct binding *b, const pilhangko_metal_allocation *from, const pilhangko_metal_request *request,
    bool *moves, pilhangko_metal_allocation *to) {
    const pilhangko_metal_heaps_request asks = asks_for(request);
    const struct live *it = find(b, from);
    struct live first;
    pilhangko_heaps_piece place;
    pilhangko_status status;
    if (!it) return PILHANGKO_NOT_LIVE;
    first = *it; /* the record may lie elsewhere behind has_spare */
    if (!has_spare(&b->live)) return PILHANGKO_HOST_OUT_OF_MEMORY;
    status = pilhangko_metal_heaps_propose_move(&b->heaps, &first.piece, &asks, request->name, moves, &place);
    if (status != PILHANGKO_OK) return status;
    capture_proposal(b, first.serial, &asks, request->name);
    if (!*moves) return PILHANGKO_OK;
    keep_allocation(b, &place, first.word, to);
    return PILHANGKO_OK;
}

pilhangko_status PILHANGKO_CALL pilhangko_metal_propose_move(pilhangko_metal *metal, const pilhangko_metal_allocation *from,
    const pilhangko_metal_request *request, bool *moves, pilhangko_metal_allocation *to) {
    struct binding *b;
    pilhangko_status status;
    if (!metal || !from || !request || !moves || !to) return PILHANGKO_NULL_POINTER;
    if (!metal->opaque) return PILHANGKO_NO_HANDLE;
    b = enter(binding_of(metal));
    status = propose_alone(b, from, request, moves, to);
    leave(b);
    return status;
}

pilhangko_status PILHANGKO_CALL pilhangko_metal_allocate(
    pilhangko_metal *metal, const pilhangko_metal_request *request, pilhangko_metal_allocation *allocation) {
    if (!metal || !request || !allocation) return PILHANGKO_NULL_POINTER;
    if (!metal->opaque) return PILHANGKO_NO_HANDLE;
    return allocate(binding_of(metal), request, allocation);
}

pilhangko_status PILHANGKO_CALL pilhangko_metal_free(pilhangko_metal *metal, const pilhangko_metal_allocation *allocation) {
    if (!metal || !allocation) return PILHANGKO_NULL_POINTER;
    if (!metal->opaque) return PILHANGKO_NO_HANDLE;
    return free_allocation(binding_of(metal), allocation);
}

pilhangko_status PILHANGKO_CALL pilhangko_metal_rename(
    pilhangko_metal *metal, const pilhangko_metal_allocation *allocation, const char *name) {
    struct binding *b;
    const struct live *it;
    pilhangko_heaps_piece none;
    pilhangko_status status;
    if (!metal || !allocation) return PILHANGKO_NULL_POINTER;
    if (!metal->opaque) return PILHANGKO_NO_HANDLE;
    b = enter(binding_of(metal));
    it = find(b, allocation);
    memset(&none, 0, sizeof none); /* no live piece: the name is looked at first all the same */
    status = pilhangko_metal_heaps_rename(&b->heaps, it ? &it->piece : &none, name);
    leave(b);
    return status;
}

pilhangko_status PILHANGKO_CALL pilhangko_metal_is_live(
    const pilhangko_metal *metal, const pilhangko_metal_allocation *allocation, bool *is_live) {
    struct live it;
    if (!metal || !allocation || !is_live) return PILHANGKO_NULL_POINTER;
    if (!metal->opaque) return PILHANGKO_NO_HANDLE;
    *is_live = find_copy(binding_of(metal), allocation, &it);
    return PILHANGKO_OK;
}

pilhangko_status PILHANGKO_CALL pilhangko_metal_set_user_data(
    pilhangko_metal *metal, const pilhangko_metal_allocation *allocation, uint64_t word) {
    struct binding *b;
    struct live *it;
    if (!metal || !allocation) return PILHANGKO_NULL_POINTER;
    if (!metal->opaque) return PILHANGKO_NO_HANDLE;
    b = enter(binding_of(metal));
    it = find(b, allocation);
    if (it) keep_word(b, it, word);
    leave(b);
    return it ? PILHANGKO_OK : PILHANGKO_NOT_LIVE;
}

pilhangko_status PILHANGKO_CALL pilhangko_metal_user_data(
    const pilhangko_metal *metal, const pilhangko_metal_allocation *allocation, uint64_t *word) {
    struct live it;
    if (!metal || !allocation || !word) return PILHANGKO_NULL_POINTER;
    if (!metal->opaque) return PILHANGKO_NO_HANDLE;
    if (!find_copy(binding_of(metal), allocation, &it)) return PILHANGKO_NOT_LIVE;
    *word = it.word;
    return PILHANGKO_OK;
}

/* The sum of the sizes of the heaps. */
static uint64_t held_by(const struct binding *binding) {
    struct binding *b = enter(binding);
    uint64_t bytes = 0;
    const pilhangko_status status = pilhangko_metal_heaps_capacity(&b->heaps, &bytes);
    leave(b);
    return status == PILHANGKO_OK ? bytes : 0;
}

pilhangko_status PILHANGKO_CALL pilhangko_metal_capacity(const pilhangko_metal *metal, uint64_t *bytes) {
    if (!metal || !bytes) return PILHANGKO_NULL_POINTER;
    if (!metal->opaque) return PILHANGKO_NO_HANDLE;
    *bytes = held_by(binding_of(metal));
    return PILHANGKO_OK;
}

const pilhangko_metal_heaps *PILHANGKO_CALL pilhangko_metal_allocator(const pilhangko_metal *metal) {
    return metal && metal->opaque ? &binding_of(metal)->heaps : NULL;
}

pilhangko_status PILHANGKO_CALL pilhangko_metal_lock(const pilhangko_metal *metal) {
    if (!metal) return PILHANGKO_NULL_POINTER;
    if (!metal->opaque) return PILHANGKO_NO_HANDLE;
    (void)enter(binding_of(metal));
    return PILHANGKO_OK;
}

pilhangko_status PILHANGKO_CALL pilhangko_metal_unlock(const pilhangko_metal *metal) {
    if (!metal) return PILHANGKO_NULL_POINTER;
    if (!metal->opaque) return PILHANGKO_NO_HANDLE;
    leave(binding_of(metal));
    return PILHANGKO_OK;
}

/* ---- what a resource needs ---- */

/* The options of a heap for that location: what the device has to know before there is a heap to tell them. */
static MTLResourceOptions options_for(pilhangko_location location) {
    switch (location) {
    case PILHANGKO_LOCATION_CPU_TO_GPU: return MTLResourceStorageModeShared | MTLResourceCPUCacheModeWriteCombined;
    case PILHANGKO_LOCATION_GPU_TO_CPU: return MTLResourceStorageModeShared;
    default: return MTLResourceStorageModePrivate;
    }
}

static void tell_request(MTLSizeAndAlign needs, const pilhangko_metal_placement *p, pilhangko_metal_request *request) {
    request->size = needs.size;
    request->alignment = needs.align;
    request->location = p->location;
    request->name = p->name;
    request->user_data = p->user_data;
}

static void read_buffer(const struct binding *b, NSUInteger length, const pilhangko_metal_placement *p, pilhangko_metal_request *request) {
    tell_request([device_of(b) heapBufferSizeAndAlignWithLength:length options:options_for(p->location)], p, request);
}

static void read_structure(const struct binding *b, NSUInteger size, const pilhangko_metal_placement *p, pilhangko_metal_request *request) {
    tell_request([device_of(b) heapAccelerationStructureSizeAndAlignWithSize:size], p, request);
}

static void read_texture(
    const struct binding *b, MTLTextureDescriptor *descriptor, const pilhangko_metal_placement *p, pilhangko_metal_request *request) {
    tell_request([device_of(b) heapTextureSizeAndAlignWithDescriptor:descriptor], p, request);
}

/* A copy of the caller's descriptor with the options of a heap, or nil. */
WITH_REFERENCE static MTLTextureDescriptor *descriptor_with(MTLTextureDescriptor *descriptor, MTLResourceOptions options) {
    MTLTextureDescriptor *own = [descriptor copy];
    [own setResourceOptions:options];
    return own;
}

pilhangko_status PILHANGKO_CALL pilhangko_metal_read_buffer_request(const pilhangko_metal *metal, NSUInteger length,
    pilhangko_location location, const char *name, pilhangko_metal_request *request) {
    const pilhangko_metal_placement p = {location, name, 0};
    if (!metal || !request) return PILHANGKO_NULL_POINTER;
    if (!metal->opaque) return PILHANGKO_NO_HANDLE;
    read_buffer(binding_of(metal), length, &p, request);
    return PILHANGKO_OK;
}

pilhangko_status PILHANGKO_CALL pilhangko_metal_read_texture_request(const pilhangko_metal *metal, MTLTextureDescriptor *descriptor,
    pilhangko_location location, const char *name, pilhangko_metal_request *request) {
    const pilhangko_metal_placement p = {location, name, 0};
    MTLTextureDescriptor *own;
    if (!metal || !descriptor || !request) return PILHANGKO_NULL_POINTER;
    if (!metal->opaque) return PILHANGKO_NO_HANDLE;
    own = descriptor_with(descriptor, options_for(location));
    if (!own) return PILHANGKO_HOST_OUT_OF_MEMORY;
    read_texture(binding_of(metal), own, &p, request);
    DROP(own);
    return PILHANGKO_OK;
}

pilhangko_status PILHANGKO_CALL pilhangko_metal_read_acceleration_structure_request(const pilhangko_metal *metal, NSUInteger size,
    pilhangko_location location, const char *name, pilhangko_metal_request *request) {
    const pilhangko_metal_placement p = {location, name, 0};
    if (!metal || !request) return PILHANGKO_NULL_POINTER;
    if (!metal->opaque) return PILHANGKO_NO_HANDLE;
    read_structure(binding_of(metal), size, &p, request);
    return PILHANGKO_OK;
}

/* ---- resources ---- */

/* What came of the heap's call for a resource: names it, or frees its allocation. */
static pilhangko_status made(struct binding *b, id<MTLResource> resource, const char *name, const pilhangko_metal_allocation *where) {
    if (!resource) {
        const pilhangko_status status = free_allocation(b, where);
        return status == PILHANGKO_OK ? PILHANGKO_METAL_CALL_FAILED : status;
    }
    set_label(resource, name);
    return PILHANGKO_OK;
}

pilhangko_status PILHANGKO_CALL pilhangko_metal_create_buffer(pilhangko_metal *metal, NSUInteger length,
    const pilhangko_metal_placement *placement, id<MTLBuffer> PILHANGKO_METAL_GIVEN *buffer, pilhangko_metal_allocation *allocation) {
    pilhangko_metal_request needs;
    pilhangko_metal_allocation where;
    pilhangko_status status;
    id<MTLBuffer> it;
    if (!metal || !placement || !buffer || !allocation) return PILHANGKO_NULL_POINTER;
    if (!metal->opaque) return PILHANGKO_NO_HANDLE;
    read_buffer(binding_of(metal), length, placement, &needs);
    status = allocate(binding_of(metal), &needs, &where);
    if (status != PILHANGKO_OK) return status;
    it = [where.heap newBufferWithLength:length options:[where.heap resourceOptions] offset:(NSUInteger)where.offset];
    status = made(binding_of(metal), it, placement->name, &where);
    if (status != PILHANGKO_OK) return status;
    *buffer = it;
    *allocation = where;
    return PILHANGKO_OK;
}

/* A texture by a descriptor of the binding's own. */
static pilhangko_status create_texture(struct binding *b, MTLTextureDescriptor *own, const pilhangko_metal_placement *placement,
    id<MTLTexture> PILHANGKO_METAL_GIVEN *texture, pilhangko_metal_allocation *allocation) {
    pilhangko_metal_request needs;
    pilhangko_metal_allocation where;
    pilhangko_status status;
    id<MTLTexture> it;
    read_texture(b, own, placement, &needs);
    status = allocate(b, &needs, &where);
    if (status != PILHANGKO_OK) return status;
    [own setResourceOptions:[where.heap resourceOptions]];
    it = [where.heap newTextureWithDescriptor:own offset:(NSUInteger)where.offset];
    status = made(b, it, placement->name, &where);
    if (status != PILHANGKO_OK) return status;
    *texture = it;
    *allocation = where;
    return PILHANGKO_OK;
}

pilhangko_status PILHANGKO_CALL pilhangko_metal_create_texture(pilhangko_metal *metal, MTLTextureDescriptor *descriptor,
    const pilhangko_metal_placement *placement, id<MTLTexture> PILHANGKO_METAL_GIVEN *texture, pilhangko_metal_allocation *allocation) {
    MTLTextureDescriptor *own;
    pilhangko_status status;
    if (!metal || !descriptor || !placement || !texture || !allocation) return PILHANGKO_NULL_POINTER;
    if (!metal->opaque) return PILHANGKO_NO_HANDLE;
    own = descriptor_with(descriptor, options_for(placement->location));
    if (!own) return PILHANGKO_HOST_OUT_OF_MEMORY;
    status = create_texture(binding_of(metal), own, placement, texture, allocation);
    DROP(own);
    return status;
}

pilhangko_status PILHANGKO_CALL pilhangko_metal_create_acceleration_structure(pilhangko_metal *metal, NSUInteger size,
    const pilhangko_metal_placement *placement, id<MTLAccelerationStructure> PILHANGKO_METAL_GIVEN *structure,
    pilhangko_metal_allocation *allocation) {
    pilhangko_metal_request needs;
    pilhangko_metal_allocation where;
    pilhangko_status status;
    id<MTLAccelerationStructure> it;
    if (!metal || !placement || !structure || !allocation) return PILHANGKO_NULL_POINTER;
    if (!metal->opaque) return PILHANGKO_NO_HANDLE;
    read_structure(binding_of(metal), size, placement, &needs);
    status = allocate(binding_of(metal), &needs, &where);
    if (status != PILHANGKO_OK) return status;
    it = [where.heap newAccelerationStructureWithSize:size offset:(NSUInteger)where.offset];
    status = made(binding_of(metal), it, placement->name, &where);
    if (status != PILHANGKO_OK) return status;
    *structure = it;
    *allocation = where;
    return PILHANGKO_OK;
}

/* ---- the residency set ---- */

id<MTLResidencySet> PILHANGKO_CALL pilhangko_metal_residency_set(const pilhangko_metal *metal) {
    return metal && metal->opaque ? set_of(binding_of(metal)) : nil;
}

pilhangko_status PILHANGKO_CALL pilhangko_metal_commit(pilhangko_metal *metal) {
    struct binding *b;
    if (!metal) return PILHANGKO_NULL_POINTER;
    if (!metal->opaque) return PILHANGKO_NO_HANDLE;
    b = enter(binding_of(metal));
    [set_of(b) commit];
    if (is_captured(&b->capture)) expect_kept(&b->capture, pilhangko_capture_set_committed(&b->capture.kept));
    leave(b);
    return PILHANGKO_OK;
}

/* ---- budgets ---- */

pilhangko_status PILHANGKO_CALL pilhangko_metal_read_memory(const pilhangko_metal *metal, pilhangko_metal_memory *read) {
    if (!metal || !read) return PILHANGKO_NULL_POINTER;
    if (!metal->opaque) return PILHANGKO_NO_HANDLE;
    read->held = held_by(binding_of(metal));
    read->usage = [device_of(binding_of(metal)) currentAllocatedSize];
    read->budget = [device_of(binding_of(metal)) recommendedMaxWorkingSetSize];
    return PILHANGKO_OK;
}

/* Sets the bound of each memory type to what the device still gives, between enter and leave: no heap comes or goes meanwhile. */
static pilhangko_status follow_device(struct binding *b) {
    const uint64_t usage = [device_of(b) currentAllocatedSize], budget = [device_of(b) recommendedMaxWorkingSetSize];
    const uint64_t left = budget > usage ? budget - usage : 0;
    pilhangko_status status = PILHANGKO_OK;
    uint64_t held;
    for (uint32_t i = 0; status == PILHANGKO_OK && pilhangko_metal_heaps_type_capacity(&b->heaps, i, &held) == PILHANGKO_OK; i++)
        status = pilhangko_metal_heaps_set_budget(&b->heaps, i, true, left <= UINT64_MAX - held ? held + left : UINT64_MAX);
    b->changes++;
    return status;
}

pilhangko_status PILHANGKO_CALL pilhangko_metal_update_budgets(pilhangko_metal *metal) {
    struct binding *b;
    pilhangko_status status;
    if (!metal) return PILHANGKO_NULL_POINTER;
    if (!metal->opaque) return PILHANGKO_NO_HANDLE;
    b = enter(binding_of(metal));
    status = follow_device(b);
    leave(b);
    return status;
}

pilhangko_status PILHANGKO_CALL pilhangko_metal_set_budget(
    pilhangko_metal *metal, uint32_t memory_type, bool has_budget, uint64_t bytes) {
    struct binding *b;
    pilhangko_status status;
    if (!metal) return PILHANGKO_NULL_POINTER;
    if (!metal->opaque) return PILHANGKO_NO_HANDLE;
    b = enter(binding_of(metal));
    status = pilhangko_metal_heaps_set_budget(&b->heaps, memory_type, has_budget, bytes);
    b->changes++;
    leave(b);
    return status;
}

pilhangko_status PILHANGKO_CALL pilhangko_metal_budget(const pilhangko_metal *metal, uint32_t memory_type, pilhangko_budget *budget) {
    struct binding *b;
    pilhangko_status status;
    if (!metal || !budget) return PILHANGKO_NULL_POINTER;
    if (!metal->opaque) return PILHANGKO_NO_HANDLE;
    b = enter(binding_of(metal));
    status = pilhangko_metal_heaps_budget(&b->heaps, memory_type, budget);
    leave(b);
    return status;
}

/* ---- create and destroy ---- */

static pilhangko_metal_heaps_settings heaps_settings(const pilhangko_metal_settings *settings) {
    pilhangko_metal_heaps_settings s;
    s.has_residency_set = settings->has_residency_set;
    s.device_block_size = or_else(settings->device_block_size, UINT64_C(256) << 20);
    s.largest_device_block_size = settings->largest_device_block_size;
    s.host_block_size = or_else(settings->host_block_size, UINT64_C(64) << 20);
    s.largest_host_block_size = settings->largest_host_block_size;
    return s;
}

static void keep_settings(struct binding *b, const pilhangko_metal_settings *settings) {
    memset(b, 0, sizeof *b);
    b->number = next_number();
    b->device = RETAINED(settings->device);
    begin_table(&b->live, sizeof(struct live));
    b->is_locked_outside = settings->externally_synchronized;
    b->capture.write = settings->capture_write;
    b->capture.user = settings->capture_user;
}

/* Asks the device for a residency set: a reference, or 0 where it makes none. Devices of older systems don't know the question. */
static uintptr_t make_set(id<MTLDevice> device) {
    MTLResidencySetDescriptor *descriptor;
    id<MTLResidencySet> set;
    if (![device respondsToSelector:@selector(newResidencySetWithDescriptor:error:)]) return 0;
    descriptor = [[MTLResidencySetDescriptor alloc] init];
    set = descriptor ? [device newResidencySetWithDescriptor:descriptor error:NULL] : nil;
    DROP(descriptor);
    return KEPT(set);
}

/* Gives back what a binding without heaps holds. */
static void forget(struct binding *b) {
    (void)pilhangko_metal_heaps_destroy(&b->heaps);
    drop_capture(&b->capture);
    if (b->set) LET_GO(b->set);
    LET_GO(b->device);
    free(b->live.records);
    free(b);
}

/* Makes the allocator, its capture, the residency set and the lock. */
static pilhangko_status begin_binding(struct binding *b, const pilhangko_metal_settings *settings) {
    const pilhangko_metal_heaps_settings s = heaps_settings(settings);
    pilhangko_status status;
    keep_settings(b, settings);
    status = pilhangko_metal_heaps_create(&b->heaps, &s);
    if (status == PILHANGKO_OK && is_captured(&b->capture)) status = pilhangko_capture_of_metal_heaps(&b->capture.kept, &s);
    if (status != PILHANGKO_OK) return status;
    if (s.has_residency_set) b->set = make_set(settings->device);
    if (s.has_residency_set && !b->set) return PILHANGKO_DRIVER_REFUSED;
    return make_mutex(&b->lock) ? PILHANGKO_OK : PILHANGKO_HOST_OUT_OF_MEMORY;
}

pilhangko_status PILHANGKO_CALL pilhangko_metal_create(pilhangko_metal *metal, const pilhangko_metal_settings *settings) {
    struct binding *b;
    pilhangko_status status;
    if (!metal || !settings || !settings->device) return PILHANGKO_NULL_POINTER;
    if (metal->opaque) return PILHANGKO_IN_USE;
    b = (struct binding *)malloc(sizeof *b);
    if (!b) return PILHANGKO_HOST_OUT_OF_MEMORY;
    status = begin_binding(b, settings);
    if (status != PILHANGKO_OK) {
        forget(b);
        return status;
    }
    metal->opaque = b;
    return PILHANGKO_OK;
}

pilhangko_status PILHANGKO_CALL pilhangko_metal_end_capture(pilhangko_metal *metal, pilhangko_metal_capture *capture) {
    struct binding *b;
    pilhangko_status status = PILHANGKO_OK;
    if (!metal || !capture) return PILHANGKO_NULL_POINTER;
    if (!metal->opaque) return PILHANGKO_NO_HANDLE;
    b = enter(binding_of(metal));
    if (!is_captured(&b->capture)) status = PILHANGKO_METAL_NO_CAPTURE;
    else *capture = end_capture(b, false);
    leave(b);
    return status;
}

/* Gives all heaps back, as a visit of the slots shows them. */
static void give_back_all(const struct binding *b) {
    pilhangko_type_statistics type;
    pilhangko_metal_heap heap;
    for (size_t i = 0; pilhangko_metal_heaps_type_statistics(&b->heaps, i, &type) == PILHANGKO_OK; i++)
        for (size_t slot = 0; slot < type.slots; slot++)
            if (pilhangko_metal_heaps_block(&b->heaps, i, slot, &heap) == PILHANGKO_OK && heap.exists) give_back(b, &heap);
}

pilhangko_status PILHANGKO_CALL pilhangko_metal_destroy(pilhangko_metal *metal, pilhangko_metal_ending *ending) {
    struct binding *b;
    pilhangko_metal_ending told;
    if (!metal) return PILHANGKO_NULL_POINTER;
    b = binding_of(metal);
    if (!b) return PILHANGKO_NO_HANDLE;
    told.leaks = b->live_count;
    told.capture = end_capture(b, true);
    give_back_all(b);
    drop_mutex(&b->lock);
    forget(b);
    metal->opaque = NULL;
    if (ending) *ending = told;
    return PILHANGKO_OK;
}
