/* Pilhangko's DirectX 12 binding (include/pilhangko_d3d12.h): compile it with the program, as C11 or as C++11. It asks the driver what the
 * allocator wants to know; the allocator decides all else, and keeps what it decided. */
#include "pilhangko_d3d12_driver.h"
#include "pilhangko_shared.h"

/* ---- records ---- */

/* A live allocation. Its serial number never comes again, so one that was freed is told apart from each later one. */
struct live {
    uint32_t next_spare;
    bool is_committed;
    uint64_t serial;                     /* 0 of a spare record */
    uint64_t word;                       /* the caller's */
    pilhangko_heaps_piece piece;         /* of one in a heap */
    pilhangko_heaps_committed committed; /* of a committed resource */
};

struct binding {
    pilhangko_heaps heaps;
    uint64_t number; /* no other binding of the process has it, nor had */
    struct driver driver;
    pilhangko_d3d12_device over;
    D3D12_HEAP_FLAGS heap_flags;
    size_t type_count;
    bool is_locked_outside; /* whether the caller sees to it that one call is made at a time */
    mutex lock;             /* of the allocator, the live allocations and the capture */
    struct table live;
    uint64_t last_serial, live_count;
    uint64_t changes; /* how often a budget may have changed */
    struct capture capture;
};

static struct binding *binding_of(const pilhangko_d3d12 *d3d12) {
    return (struct binding *)d3d12->opaque;
}

/* From here on until `leave` no other thread is in a call that looks at the allocator, the live allocations or the capture. */
static struct binding *enter(const struct binding *binding) {
    struct binding *b = (struct binding *)binding;
    if (!b->is_locked_outside) lock_mutex(&b->lock);
    return b;
}

static void leave(struct binding *b) {
    if (!b->is_locked_outside) unlock_mutex(&b->lock);
}

/* The record of an allocation, or NULL where it isn't live or another binding's. */
static struct live *find(const struct binding *b, const pilhangko_d3d12_allocation *allocation) {
    struct live *it;
    if (allocation->owner != b->number || allocation->serial == 0 || allocation->index >= b->live.count) return NULL;
    it = (struct live *)record_of(&b->live, allocation->index);
    return it->serial == allocation->serial ? it : NULL;
}

/* A copy of a live allocation's record; false where it isn't live. */
static bool find_copy(const struct binding *binding, const pilhangko_d3d12_allocation *allocation, struct live *copy) {
    struct binding *b = enter(binding);
    const struct live *it = find(b, allocation);
    if (it) *copy = *it;
    leave(b);
    return it != NULL;
}

/* Keeps a live allocation, and tells it but for its place. */
static struct live *keep(struct binding *b, pilhangko_d3d12_allocation *allocation) {
    const uint32_t index = spare_record(&b->live);
    struct live *it = (struct live *)record_of(&b->live, index);
    it->serial = ++b->last_serial;
    b->live_count++;
    memset(allocation, 0, sizeof *allocation);
    allocation->owner = b->number;
    allocation->serial = it->serial;
    allocation->index = index;
    return it;
}

/* ---- captures ---- */

/* What a call asked the driver: one question at most. */
struct asked {
    pilhangko_capture_answer answer;
    size_t count;
    HRESULT driver;
};

/* An answer; null without an error has no code. Returns the code. */
static int32_t note_answer(struct asked *asked, bool refused, HRESULT driver) {
    asked->answer.refused = refused;
    asked->answer.code = driver < 0 ? (int32_t)driver : 0;
    asked->count = 1;
    asked->driver = driver;
    return asked->answer.code;
}

static void capture_bounds(struct binding *b) {
    if (!lacks_bounds(&b->capture, b->changes)) return;
    for (size_t i = 0; i < b->type_count; i++) {
        pilhangko_budget now;
        if (pilhangko_heaps_budget(&b->heaps, i, &now) == PILHANGKO_OK) capture_bound(&b->capture, i, &now);
    }
    b->capture.seen = b->changes;
}

/* The call `allocate`. An allocation is called by its serial number; one that was refused by the next one's. */
static void capture_allocation(
    struct binding *b, const pilhangko_heaps_request *request, const char *name, pilhangko_status status, const struct asked *asked) {
    if (!has_line(&b->capture, status)) return;
    capture_bounds(b);
    expect_kept(&b->capture, pilhangko_capture_heaps_allocated(
        &b->capture.kept, b->last_serial + 1, request, name, &asked->answer, asked->count));
}

/* A committed resource. */
static void capture_committed(
    struct binding *b, const pilhangko_heaps_request *needs, const char *name, pilhangko_status status, const struct asked *asked) {
    if (!has_line(&b->capture, status)) return;
    capture_bounds(b);
    expect_kept(&b->capture, pilhangko_capture_heaps_committed(
        &b->capture.kept, b->last_serial + 1, needs, name, &asked->answer, asked->count));
}

/* The call `propose_move` of the allocation with this serial number, whether there was a second place or none. */
static void capture_proposal(struct binding *b, uint64_t from, const pilhangko_heaps_request *request, const char *name) {
    if (!is_captured(&b->capture)) return;
    capture_bounds(b);
    expect_kept(&b->capture, pilhangko_capture_heaps_moved(&b->capture.kept, from, b->last_serial + 1, request, name));
}

static void capture_return(struct binding *b, const struct live *it) {
    if (!it->is_committed) capture_free(&b->capture, it->serial);
    else if (is_captured(&b->capture)) expect_kept(&b->capture, pilhangko_capture_released(&b->capture.kept, it->serial));
}

/* Writes the capture, and ends it. */
static pilhangko_d3d12_capture end_capture(struct binding *b, bool is_destroyed) {
    struct capture_told ended;
    pilhangko_d3d12_capture told;
    capture_bounds(b);
    ended = finish_capture(&b->capture, is_destroyed);
    told.end = (pilhangko_d3d12_capture_end)ended.end;
    told.bytes = ended.bytes;
    return told;
}

/* ---- memory ---- */

static ID3D12Heap *heap_of(uint64_t block) {
    return (ID3D12Heap *)(uintptr_t)block;
}

/* Asks the driver for the heap of the question that is open, and tells the answer. */
static pilhangko_status ask_heap(struct binding *b, struct asked *asked, pilhangko_heaps_progress *progress) {
    ID3D12Heap *heap;
    const HRESULT driver = make_heap(b->driver.device, &progress->question, b->heap_flags, &heap);
    const bool refused = driver < 0 || !heap;
    const int32_t code = note_answer(asked, refused, driver);
    if (refused) return pilhangko_heaps_refused(&b->heaps, code, progress);
    progress->kind = PILHANGKO_PROGRESS_PIECE;
    return pilhangko_heaps_granted(&b->heaps, (uintptr_t)heap, &progress->piece);
}

/* What the allocator is asked for. */
static pilhangko_heaps_request asks_for(const pilhangko_d3d12_request *request) {
    pilhangko_heaps_request asks;
    asks.size = request->size;
    asks.alignment = request->alignment;
    asks.location = request->location;
    asks.category = request->category;
    return asks;
}

/* Keeps another word with a live allocation, and with its piece, where it has one, for those who visit that. */
static void keep_word(struct binding *b, struct live *it, uint64_t word) {
    if (!it->is_committed) {
        const pilhangko_status status = pilhangko_heaps_set_word(&b->heaps, &it->piece, word);
        (void)status; /* the piece is live, and no question is open */
    }
    it->word = word;
}

/* Keeps a piece as a live allocation, and tells it. */
static void keep_piece(struct binding *b, const pilhangko_heaps_piece *piece, uint64_t word, pilhangko_d3d12_allocation *allocation) {
    struct live *it = keep(b, allocation);
    it->piece = *piece;
    if (word != 0) keep_word(b, it, word);
    allocation->heap = heap_of(piece->piece.block);
    allocation->offset = piece->piece.offset;
    allocation->size = piece->piece.size;
    allocation->piece = *piece;
}

static pilhangko_d3d12_result allocate_alone(
    struct binding *b, const pilhangko_heaps_request *request, const char *name, uint64_t word, pilhangko_d3d12_allocation *allocation) {
    pilhangko_heaps_progress progress;
    struct asked asked = {{false, 0}, 0, S_OK};
    pilhangko_status status;
    /* before the driver is asked, so that nothing can fail behind its grant */
    if (!has_spare(&b->live)) return undriven(PILHANGKO_HOST_OUT_OF_MEMORY);
    status = pilhangko_heaps_begin(&b->heaps, request, name, &progress);
    if (status == PILHANGKO_OK && progress.kind == PILHANGKO_PROGRESS_QUESTION) status = ask_heap(b, &asked, &progress);
    if (status == PILHANGKO_OK) status = progress.status;
    capture_allocation(b, request, name, status, &asked);
    if (status != PILHANGKO_OK) return refused_by(b->driver.device, status, asked.driver);
    keep_piece(b, &progress.piece, word, allocation);
    return undriven(PILHANGKO_OK);
}

static pilhangko_d3d12_result allocate(struct binding *binding, const pilhangko_heaps_request *request, const char *name, uint64_t word,
    pilhangko_d3d12_allocation *allocation) {
    struct binding *b = enter(binding);
    const pilhangko_d3d12_result result = allocate_alone(b, request, name, word, allocation);
    leave(b);
    return result;
}

static pilhangko_status free_alone(struct binding *b, const pilhangko_d3d12_allocation *allocation) {
    const struct live *it = find(b, allocation);
    pilhangko_memory_block back = {false, 0};
    pilhangko_status status;
    if (!it) return PILHANGKO_NOT_LIVE;
    status = it->is_committed ? pilhangko_heaps_forget_committed(&b->heaps, &it->committed)
                              : pilhangko_heaps_free(&b->heaps, &it->piece, &back);
    if (status != PILHANGKO_OK) return status;
    capture_return(b, it);
    make_spare(&b->live, allocation->index);
    b->live_count--;
    if (back.exists) release_reference(heap_of(back.block));
    return PILHANGKO_OK;
}

static pilhangko_status free_allocation(struct binding *binding, const pilhangko_d3d12_allocation *allocation) {
    struct binding *b = enter(binding);
    const pilhangko_status status = free_alone(b, allocation);
    leave(b);
    return status;
}

pilhangko_status PILHANGKO_CALL pilhangko_d3d12_free_counted(
    pilhangko_d3d12 *d3d12, const pilhangko_d3d12_allocation *allocation, uint64_t *bytes) {
    struct binding *b = enter(binding_of(d3d12));
    uint64_t before = 0, behind = 0;
    pilhangko_status status = pilhangko_heaps_capacity(&b->heaps, &before);
    if (status == PILHANGKO_OK) status = free_alone(b, allocation);
    if (status == PILHANGKO_OK) status = pilhangko_heaps_capacity(&b->heaps, &behind);
    leave(b);
    if (status == PILHANGKO_OK) *bytes = before - behind;
    return status;
}

static pilhangko_status propose_alone(struct binding *b, const pilhangko_d3d12_allocation *from, const pilhangko_d3d12_request *request,
    bool *moves, pilhangko_d3d12_allocation *to) {
    const pilhangko_heaps_request asks = asks_for(request);
    const struct live *it = find(b, from);
    struct live first;
    pilhangko_heaps_piece place;
    pilhangko_status status;
    if (!it || it->is_committed) return PILHANGKO_NOT_LIVE;
    first = *it; /* the record may lie elsewhere behind has_spare */
    if (!has_spare(&b->live)) return PILHANGKO_HOST_OUT_OF_MEMORY;
    status = pilhangko_heaps_propose_move(&b->heaps, &first.piece, &asks, request->name, moves, &place);
    if (status != PILHANGKO_OK) return status;
    capture_proposal(b, first.serial, &asks, request->name);
    if (!*moves) return PILHANGKO_OK;
    keep_piece(b, &place, first.word, to);
    return PILHANGKO_OK;
}

pilhangko_status PILHANGKO_CALL pilhangko_d3d12_propose_move(pilhangko_d3d12 *d3d12, const pilhangko_d3d12_allocation *from,
    const pilhangko_d3d12_request *request, bool *moves, pilhangko_d3d12_allocation *to) {
    struct binding *b;
    pilhangko_status status;
    if (!d3d12 || !from || !request || !moves || !to) return PILHANGKO_NULL_POINTER;
    if (!d3d12->opaque) return PILHANGKO_NO_HANDLE;
    b = enter(binding_of(d3d12));
    status = propose_alone(b, from, request, moves, to);
    leave(b);
    return status;
}

pilhangko_d3d12_result PILHANGKO_CALL pilhangko_d3d12_allocate(
    pilhangko_d3d12 *d3d12, const pilhangko_d3d12_request *request, pilhangko_d3d12_allocation *allocation) {
    pilhangko_heaps_request asks;
    if (!d3d12 || !request || !allocation) return undriven(PILHANGKO_NULL_POINTER);
    if (!d3d12->opaque) return undriven(PILHANGKO_NO_HANDLE);
    asks = asks_for(request);
    return allocate(binding_of(d3d12), &asks, request->name, request->user_data, allocation);
}

pilhangko_status PILHANGKO_CALL pilhangko_d3d12_free(pilhangko_d3d12 *d3d12, const pilhangko_d3d12_allocation *allocation) {
    if (!d3d12 || !allocation) return PILHANGKO_NULL_POINTER;
    if (!d3d12->opaque) return PILHANGKO_NO_HANDLE;
    return free_allocation(binding_of(d3d12), allocation);
}

pilhangko_status PILHANGKO_CALL pilhangko_d3d12_rename(
    pilhangko_d3d12 *d3d12, const pilhangko_d3d12_allocation *allocation, const char *name) {
    struct binding *b;
    const struct live *it;
    pilhangko_heaps_piece none;
    pilhangko_status status;
    if (!d3d12 || !allocation) return PILHANGKO_NULL_POINTER;
    if (!d3d12->opaque) return PILHANGKO_NO_HANDLE;
    b = enter(binding_of(d3d12));
    it = find(b, allocation);
    memset(&none, 0, sizeof none); /* no live piece, as a committed resource's: the name is looked at first all the same */
    status = pilhangko_heaps_rename(&b->heaps, it ? &it->piece : &none, name);
    if (status == PILHANGKO_OK) capture_rename(&b->capture, allocation->serial, name);
    leave(b);
    return status;
}

pilhangko_status PILHANGKO_CALL pilhangko_d3d12_is_live(
    const pilhangko_d3d12 *d3d12, const pilhangko_d3d12_allocation *allocation, bool *is_live) {
    struct live it;
    if (!d3d12 || !allocation || !is_live) return PILHANGKO_NULL_POINTER;
    if (!d3d12->opaque) return PILHANGKO_NO_HANDLE;
    *is_live = find_copy(binding_of(d3d12), allocation, &it);
    return PILHANGKO_OK;
}

pilhangko_status PILHANGKO_CALL pilhangko_d3d12_set_user_data(
    pilhangko_d3d12 *d3d12, const pilhangko_d3d12_allocation *allocation, uint64_t word) {
    struct binding *b;
    struct live *it;
    if (!d3d12 || !allocation) return PILHANGKO_NULL_POINTER;
    if (!d3d12->opaque) return PILHANGKO_NO_HANDLE;
    b = enter(binding_of(d3d12));
    it = find(b, allocation);
    if (it) keep_word(b, it, word);
    leave(b);
    return it ? PILHANGKO_OK : PILHANGKO_NOT_LIVE;
}

pilhangko_status PILHANGKO_CALL pilhangko_d3d12_user_data(
    const pilhangko_d3d12 *d3d12, const pilhangko_d3d12_allocation *allocation, uint64_t *word) {
    struct live it;
    if (!d3d12 || !allocation || !word) return PILHANGKO_NULL_POINTER;
    if (!d3d12->opaque) return PILHANGKO_NO_HANDLE;
    if (!find_copy(binding_of(d3d12), allocation, &it)) return PILHANGKO_NOT_LIVE;
    *word = it.word;
    return PILHANGKO_OK;
}

pilhangko_status PILHANGKO_CALL pilhangko_d3d12_capacity(const pilhangko_d3d12 *d3d12, UINT64 *bytes) {
    struct binding *b;
    uint64_t sum;
    pilhangko_status status;
    if (!d3d12 || !bytes) return PILHANGKO_NULL_POINTER;
    if (!d3d12->opaque) return PILHANGKO_NO_HANDLE;
    b = enter(binding_of(d3d12));
    status = pilhangko_heaps_capacity(&b->heaps, &sum);
    leave(b);
    if (status == PILHANGKO_OK) *bytes = sum;
    return status;
}

const pilhangko_heaps *PILHANGKO_CALL pilhangko_d3d12_allocator(const pilhangko_d3d12 *d3d12) {
    return d3d12 && d3d12->opaque ? &binding_of(d3d12)->heaps : NULL;
}

pilhangko_status PILHANGKO_CALL pilhangko_d3d12_lock(const pilhangko_d3d12 *d3d12) {
    if (!d3d12) return PILHANGKO_NULL_POINTER;
    if (!d3d12->opaque) return PILHANGKO_NO_HANDLE;
    (void)enter(binding_of(d3d12));
    return PILHANGKO_OK;
}

pilhangko_status PILHANGKO_CALL pilhangko_d3d12_unlock(const pilhangko_d3d12 *d3d12) {
    if (!d3d12) return PILHANGKO_NULL_POINTER;
    if (!d3d12->opaque) return PILHANGKO_NO_HANDLE;
    leave(binding_of(d3d12));
    return PILHANGKO_OK;
}

pilhangko_status PILHANGKO_CALL pilhangko_d3d12_read_device(const pilhangko_d3d12 *d3d12, pilhangko_d3d12_device *read) {
    if (!d3d12 || !read) return PILHANGKO_NULL_POINTER;
    if (!d3d12->opaque) return PILHANGKO_NO_HANDLE;
    *read = binding_of(d3d12)->over;
    return PILHANGKO_OK;
}

/* ---- resources ---- */

pilhangko_status PILHANGKO_CALL pilhangko_d3d12_read_request(const pilhangko_d3d12 *d3d12, const D3D12_RESOURCE_DESC *desc,
    pilhangko_location location, const char *name, pilhangko_d3d12_request *request) {
    D3D12_RESOURCE_ALLOCATION_INFO info;
    if (!d3d12 || !desc || !request) return PILHANGKO_NULL_POINTER;
    if (!d3d12->opaque) return PILHANGKO_NO_HANDLE;
    if (!tells_needs(&binding_of(d3d12)->driver, desc, 0, NULL, &info)) return PILHANGKO_INVALID;
    request->size = info.SizeInBytes;
    request->alignment = info.Alignment;
    request->location = location;
    request->category = category_of(desc);
    request->name = name;
    request->user_data = 0;
    return PILHANGKO_OK;
}

/* A resource that is to be made: by which call, and what it needs. */
struct wanted {
    const D3D12_RESOURCE_DESC *desc;
    const pilhangko_d3d12_placement *placement;
    pilhangko_create_call call;
    pilhangko_heaps_request needs;
};

static pilhangko_status choose(
    const struct binding *b, const D3D12_RESOURCE_DESC *desc, const pilhangko_d3d12_placement *p, struct wanted *wanted) {
    wanted->desc = desc;
    wanted->placement = p;
    return pilhangko_heaps_choose_call(b->driver.version, p->in_layout, p->format_count > 0, &wanted->call);
}

static pilhangko_status find_needs(const struct binding *b, struct wanted *wanted) {
    const pilhangko_d3d12_placement *p = wanted->placement;
    D3D12_RESOURCE_ALLOCATION_INFO info;
    if (!tells_needs(&b->driver, wanted->desc, p->format_count, p->formats, &info)) return PILHANGKO_INVALID;
    wanted->needs.size = info.SizeInBytes;
    wanted->needs.alignment = info.Alignment;
    wanted->needs.location = p->location;
    wanted->needs.category = category_of(wanted->desc);
    return PILHANGKO_OK;
}

/* Makes the resource at a place of a heap. */
static pilhangko_d3d12_result place_at(
    const struct binding *b, const struct wanted *wanted, ID3D12Heap *heap, UINT64 offset, ID3D12Resource **resource) {
    struct place where;
    HRESULT driver;
    memset(&where, 0, sizeof where);
    where.heap = heap;
    where.offset = offset;
    driver = make_resource(&b->driver, wanted->call, &where, wanted->desc, wanted->placement, resource);
    return *resource ? undriven(PILHANGKO_OK) : refused_by(b->driver.device, PILHANGKO_D3D12_CALL_FAILED, driver);
}

static pilhangko_d3d12_result create_placed(
    struct binding *b, const struct wanted *wanted, ID3D12Resource **resource, pilhangko_d3d12_allocation *allocation) {
    const pilhangko_d3d12_placement *p = wanted->placement;
    pilhangko_d3d12_result result = allocate(b, &wanted->needs, p->name, p->user_data, allocation);
    if (result.status != PILHANGKO_OK) return result;
    result = place_at(b, wanted, allocation->heap, allocation->offset, resource);
    if (result.status != PILHANGKO_OK) (void)free_allocation(b, allocation);
    return result;
}

/* A committed resource has the properties of its location's heaps. */
static D3D12_HEAP_PROPERTIES committed_properties(pilhangko_location location) {
    const bool is_upload = location == PILHANGKO_LOCATION_CPU_TO_GPU, is_readback = location == PILHANGKO_LOCATION_GPU_TO_CPU;
    D3D12_HEAP_PROPERTIES p;
    memset(&p, 0, sizeof p);
    p.Type = D3D12_HEAP_TYPE_DEFAULT;
    if (!is_upload && !is_readback) return p;
    p.Type = D3D12_HEAP_TYPE_CUSTOM;
    p.CPUPageProperty = is_upload ? D3D12_CPU_PAGE_PROPERTY_WRITE_COMBINE : D3D12_CPU_PAGE_PROPERTY_WRITE_BACK;
    p.MemoryPoolPreference = D3D12_MEMORY_POOL_L0;
    return p;
}

/* Asks the driver for the committed resource that is begun, and tells the answer. */
static pilhangko_status ask_committed(
    struct binding *b, const struct wanted *wanted, struct asked *asked, ID3D12Resource **resource, pilhangko_heaps_committed *record) {
    struct place where;
    pilhangko_status status;
    HRESULT driver;
    memset(&where, 0, sizeof where);
    where.properties = committed_properties(wanted->placement->location);
    driver = make_resource(&b->driver, wanted->call, &where, wanted->desc, wanted->placement, resource);
    (void)note_answer(asked, !*resource, driver);
    if (*resource) return pilhangko_heaps_made(&b->heaps, (uintptr_t)*resource, record);
    status = pilhangko_heaps_not_made(&b->heaps);
    if (status == PILHANGKO_OK) status = PILHANGKO_D3D12_CALL_FAILED;
    return status;
}

static pilhangko_d3d12_result create_committed_alone(
    struct binding *b, const struct wanted *wanted, ID3D12Resource **resource, pilhangko_d3d12_allocation *allocation) {
    const pilhangko_heaps_request *needs = &wanted->needs;
    pilhangko_heaps_committed record;
    struct asked asked = {{false, 0}, 0, S_OK};
    pilhangko_status status;
    struct live *it;
    if (!has_spare(&b->live)) return undriven(PILHANGKO_HOST_OUT_OF_MEMORY);
    status = pilhangko_heaps_begin_committed(&b->heaps, needs->size, needs->location, needs->category);
    if (status == PILHANGKO_OK) status = ask_committed(b, wanted, &asked, resource, &record);
    capture_committed(b, needs, wanted->placement->name, status, &asked);
    if (status != PILHANGKO_OK) return refused_by(b->driver.device, status, asked.driver);
    it = keep(b, allocation);
    it->is_committed = true;
    it->committed = record;
    it->word = wanted->placement->user_data;
    allocation->size = record.size;
    return undriven(PILHANGKO_OK);
}

static pilhangko_d3d12_result create_committed(
    struct binding *binding, const struct wanted *wanted, ID3D12Resource **resource, pilhangko_d3d12_allocation *allocation) {
    struct binding *b = enter(binding);
    const pilhangko_d3d12_result result = create_committed_alone(b, wanted, resource, allocation);
    leave(b);
    return result;
}

static bool has_pointers(const D3D12_RESOURCE_DESC *desc, const pilhangko_d3d12_placement *p) {
    return desc && p && (p->formats || p->format_count == 0);
}

pilhangko_d3d12_result PILHANGKO_CALL pilhangko_d3d12_create_resource(pilhangko_d3d12 *d3d12, const D3D12_RESOURCE_DESC *desc,
    const pilhangko_d3d12_placement *placement, ID3D12Resource **resource, pilhangko_d3d12_allocation *allocation) {
    pilhangko_d3d12_allocation kept;
    pilhangko_d3d12_result result;
    ID3D12Resource *made = NULL;
    struct wanted wanted;
    struct binding *b;
    pilhangko_status status;
    if (!d3d12 || !has_pointers(desc, placement) || !resource || !allocation) return undriven(PILHANGKO_NULL_POINTER);
    b = binding_of(d3d12);
    if (!b) return undriven(PILHANGKO_NO_HANDLE);
    status = choose(b, desc, placement, &wanted);
    if (status == PILHANGKO_OK) status = find_needs(b, &wanted);
    if (status != PILHANGKO_OK) return undriven(status);
    result = placement->committed ? create_committed(b, &wanted, &made, &kept) : create_placed(b, &wanted, &made, &kept);
    if (result.status != PILHANGKO_OK) return result;
    set_name(made, placement->name);
    *resource = made;
    *allocation = kept;
    return result;
}

pilhangko_status PILHANGKO_CALL pilhangko_d3d12_destroy_resource(
    pilhangko_d3d12 *d3d12, ID3D12Resource *resource, const pilhangko_d3d12_allocation *allocation) {
    struct live it;
    if (!d3d12 || !resource || !allocation) return PILHANGKO_NULL_POINTER;
    if (!d3d12->opaque) return PILHANGKO_NO_HANDLE;
    if (!find_copy(binding_of(d3d12), allocation, &it)) return PILHANGKO_NOT_LIVE;
    release_reference(resource); /* before its heap may go */
    return free_allocation(binding_of(d3d12), allocation);
}

/* Whether a resource fits at an offset of a piece; its place counts from the heap's start. */
static bool fits(const pilhangko_memory_piece *piece, UINT64 offset, const pilhangko_heaps_request *needs) {
    if (offset > piece->size || needs->size > piece->size - offset) return false;
    return needs->alignment == 0 || (piece->offset + offset) % needs->alignment == 0;
}

pilhangko_d3d12_result PILHANGKO_CALL pilhangko_d3d12_place_resource(pilhangko_d3d12 *d3d12, const pilhangko_d3d12_allocation *allocation,
    UINT64 offset, const D3D12_RESOURCE_DESC *desc, const pilhangko_d3d12_placement *placement, ID3D12Resource **resource) {
    pilhangko_d3d12_result result;
    ID3D12Resource *made = NULL;
    struct wanted wanted;
    struct live it;
    struct binding *b;
    pilhangko_status status;
    if (!d3d12 || !allocation || !has_pointers(desc, placement) || !resource) return undriven(PILHANGKO_NULL_POINTER);
    b = binding_of(d3d12);
    if (!b) return undriven(PILHANGKO_NO_HANDLE);
    status = choose(b, desc, placement, &wanted);
    if (status != PILHANGKO_OK) return undriven(status);
    if (!find_copy(b, allocation, &it) || it.is_committed) return undriven(PILHANGKO_NOT_LIVE);
    status = find_needs(b, &wanted);
    if (status != PILHANGKO_OK) return undriven(status);
    if (!fits(&it.piece.piece, offset, &wanted.needs)) return undriven(PILHANGKO_D3D12_OUT_OF_RANGE);
    result = place_at(b, &wanted, heap_of(it.piece.piece.block), it.piece.piece.offset + offset, &made);
    if (result.status != PILHANGKO_OK) return result;
    set_name(made, placement->name);
    *resource = made;
    return result;
}

/* ---- budgets ---- */

#define GROUPS 2

/* The segment group in which a memory type lies: the first third of them is for GPU_ONLY. */
static uint32_t group_of(const struct binding *b, size_t memory_type) {
    return b->over.is_unified || memory_type < b->type_count / 3 ? 0 : 1;
}

/* What a memory type holds, between enter and leave. */
static UINT64 held_of_type(const struct binding *b, size_t memory_type) {
    uint64_t bytes = 0;
    const pilhangko_status status = pilhangko_heaps_type_capacity(&b->heaps, memory_type, &bytes);
    return status == PILHANGKO_OK ? bytes : 0;
}

static UINT64 committed_of_type(const struct binding *b, size_t memory_type) {
    pilhangko_heaps_committed_statistics committed = {0, 0};
    const pilhangko_status status = pilhangko_heaps_committed_of(&b->heaps, memory_type, &committed);
    return status == PILHANGKO_OK ? committed.bytes : 0;
}

/* What a group holds. */
static void read_held(const struct binding *binding, uint32_t group, pilhangko_d3d12_group *read) {
    struct binding *b = enter(binding);
    for (size_t i = 0; i < b->type_count; i++) {
        if (group_of(b, i) != group) continue;
        read->held += held_of_type(b, i);
        read->committed += committed_of_type(b, i);
    }
    leave(b);
}

pilhangko_status PILHANGKO_CALL pilhangko_d3d12_read_group(const pilhangko_d3d12 *d3d12, uint32_t group, pilhangko_d3d12_group *read) {
    struct video_memory_info info;
    if (!d3d12 || !read) return PILHANGKO_NULL_POINTER;
    if (!d3d12->opaque) return PILHANGKO_NO_HANDLE;
    if (group >= GROUPS) return PILHANGKO_D3D12_NO_SUCH_GROUP;
    memset(read, 0, sizeof *read);
    read_held(binding_of(d3d12), group, read);
    read->has_budget = tells_budget(binding_of(d3d12)->over.adapter, group, &info);
    read->usage = info.usage;
    read->budget = info.budget;
    return PILHANGKO_OK;
}

/* Sets the bound of each memory type to what its group still gives, between enter and leave: no heap comes or goes meanwhile. */
static pilhangko_status follow_adapter(struct binding *b) {
    struct video_memory_info info[GROUPS];
    pilhangko_status status = PILHANGKO_OK;
    if (!tells_budget(b->over.adapter, 0, &info[0]) || !tells_budget(b->over.adapter, 1, &info[1])) return PILHANGKO_D3D12_NO_BUDGETS;
    for (uint32_t i = 0; i < b->type_count && status == PILHANGKO_OK; i++) {
        const struct video_memory_info *of = &info[group_of(b, i)];
        const UINT64 left = of->budget > of->usage ? of->budget - of->usage : 0, held = held_of_type(b, i);
        status = pilhangko_heaps_set_budget(&b->heaps, i, true, left <= UINT64_MAX - held ? held + left : UINT64_MAX);
    }
    b->changes++;
    return status;
}

pilhangko_status PILHANGKO_CALL pilhangko_d3d12_update_budgets(pilhangko_d3d12 *d3d12) {
    struct binding *b;
    pilhangko_status status;
    if (!d3d12) return PILHANGKO_NULL_POINTER;
    if (!d3d12->opaque) return PILHANGKO_NO_HANDLE;
    b = enter(binding_of(d3d12));
    status = follow_adapter(b);
    leave(b);
    return status;
}

pilhangko_status PILHANGKO_CALL pilhangko_d3d12_set_budget(
    pilhangko_d3d12 *d3d12, uint32_t memory_type, bool has_budget, UINT64 bytes) {
    struct binding *b;
    pilhangko_status status;
    if (!d3d12) return PILHANGKO_NULL_POINTER;
    if (!d3d12->opaque) return PILHANGKO_NO_HANDLE;
    b = enter(binding_of(d3d12));
    status = pilhangko_heaps_set_budget(&b->heaps, memory_type, has_budget, bytes);
    b->changes++;
    leave(b);
    return status;
}

pilhangko_status PILHANGKO_CALL pilhangko_d3d12_budget(const pilhangko_d3d12 *d3d12, uint32_t memory_type, pilhangko_budget *budget) {
    struct binding *b;
    pilhangko_status status;
    if (!d3d12 || !budget) return PILHANGKO_NULL_POINTER;
    if (!d3d12->opaque) return PILHANGKO_NO_HANDLE;
    b = enter(binding_of(d3d12));
    status = pilhangko_heaps_budget(&b->heaps, memory_type, budget);
    leave(b);
    return status;
}

/* ---- create and destroy ---- */

static pilhangko_heaps_settings heaps_settings(const pilhangko_d3d12_settings *settings, uint32_t heap_tier) {
    pilhangko_heaps_settings s;
    s.heap_tier = heap_tier;
    s.device_block_size = or_else(settings->device_block_size, UINT64_C(256) << 20);
    s.largest_device_block_size = settings->largest_device_block_size;
    s.host_block_size = or_else(settings->host_block_size, UINT64_C(64) << 20);
    s.largest_host_block_size = settings->largest_host_block_size;
    return s;
}

static void keep_settings(struct binding *b, const pilhangko_d3d12_settings *settings) {
    memset(b, 0, sizeof *b);
    b->number = next_number();
    b->driver.device = b->over.device = settings->device;
    b->over.adapter = settings->adapter;
    b->over.heap_tier = settings->heap_tier;
    b->heap_flags = settings->heap_flags;
    b->is_locked_outside = settings->externally_synchronized;
    begin_table(&b->live, sizeof(struct live));
    b->capture.write = settings->capture_write;
    b->capture.user = settings->capture_user;
}

/* Reads the device, and makes the allocator over it. */
static pilhangko_d3d12_result begin_binding(struct binding *b, const pilhangko_d3d12_settings *settings) {
    const HRESULT driver = settings->heap_tier ? S_OK : tells_tier(settings->device, &b->over.heap_tier);
    const pilhangko_heaps_settings s = heaps_settings(settings, b->over.heap_tier);
    pilhangko_status status;
    if (driver < 0) return refused_by(settings->device, PILHANGKO_D3D12_CALL_FAILED, driver);
    status = pilhangko_heaps_create(&b->heaps, &s);
    if (status != PILHANGKO_OK) return undriven(status);
    status = pilhangko_heaps_type_count(&b->heaps, &b->type_count);
    if (status == PILHANGKO_OK && is_captured(&b->capture)) status = pilhangko_capture_of_heaps(&b->capture.kept, &s);
    if (status == PILHANGKO_OK && !make_mutex(&b->lock)) status = PILHANGKO_HOST_OUT_OF_MEMORY;
    if (status != PILHANGKO_OK) {
        drop_capture(&b->capture);
        (void)pilhangko_heaps_destroy(&b->heaps);
        return undriven(status);
    }
    find_newest(&b->driver);
    b->over.version = b->driver.version;
    b->over.is_unified = tells_unified(settings->device);
    add_reference(settings->device);
    if (settings->adapter) add_reference(settings->adapter);
    return undriven(PILHANGKO_OK);
}

pilhangko_d3d12_result PILHANGKO_CALL pilhangko_d3d12_create(pilhangko_d3d12 *d3d12, const pilhangko_d3d12_settings *settings) {
    struct binding *b;
    pilhangko_d3d12_result result;
    if (!d3d12 || !settings || !settings->device) return undriven(PILHANGKO_NULL_POINTER);
    if (d3d12->opaque) return undriven(PILHANGKO_IN_USE);
    b = (struct binding *)malloc(sizeof *b);
    if (!b) return undriven(PILHANGKO_HOST_OUT_OF_MEMORY);
    keep_settings(b, settings);
    result = begin_binding(b, settings);
    if (result.status == PILHANGKO_OK) d3d12->opaque = b;
    else free(b);
    return result;
}

pilhangko_status PILHANGKO_CALL pilhangko_d3d12_end_capture(pilhangko_d3d12 *d3d12, pilhangko_d3d12_capture *capture) {
    struct binding *b;
    pilhangko_status status = PILHANGKO_OK;
    if (!d3d12 || !capture) return PILHANGKO_NULL_POINTER;
    if (!d3d12->opaque) return PILHANGKO_NO_HANDLE;
    b = enter(binding_of(d3d12));
    if (!is_captured(&b->capture)) status = PILHANGKO_D3D12_NO_CAPTURE;
    else *capture = end_capture(b, false);
    leave(b);
    return status;
}

/* Releases the heaps of a memory type, as a visit of its slots shows them. */
static void release_heaps(const struct binding *b, size_t memory_type) {
    pilhangko_type_statistics type;
    pilhangko_memory_block block;
    if (pilhangko_heaps_type_statistics(&b->heaps, memory_type, &type) != PILHANGKO_OK) return;
    for (size_t slot = 0; slot < type.slots; slot++)
        if (pilhangko_heaps_block(&b->heaps, memory_type, slot, &block) == PILHANGKO_OK && block.exists)
            release_reference(heap_of(block.block));
}

/* Releases what the binding holds: its heaps, the adapter, and the device last. */
static void release_all(const struct binding *b) {
    for (size_t i = 0; i < b->type_count; i++) release_heaps(b, i);
    if (b->over.adapter) release_reference(b->over.adapter);
    if (b->driver.newer) release_reference(b->driver.newer);
    release_reference(b->driver.device);
}

pilhangko_status PILHANGKO_CALL pilhangko_d3d12_destroy(pilhangko_d3d12 *d3d12, pilhangko_d3d12_ending *ending) {
    struct binding *b;
    pilhangko_d3d12_ending told;
    if (!d3d12) return PILHANGKO_NULL_POINTER;
    b = binding_of(d3d12);
    if (!b) return PILHANGKO_NO_HANDLE;
    told.leaks = b->live_count;
    told.capture = end_capture(b, true);
    release_all(b);
    (void)pilhangko_heaps_destroy(&b->heaps);
    free(b->live.records);
    drop_mutex(&b->lock);
    free(b);
    d3d12->opaque = NULL;
    if (ending) *ending = told;
    return PILHANGKO_OK;
}
