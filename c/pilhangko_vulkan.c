/* Pilhangko's Vulkan binding (include/pilhangko_vulkan.h): compile it with the program, as C11 or as C++11. It asks the driver what the
 * allocator wants to know; the allocator decides all else, and keeps what it decided. */
#include "pilhangko_vulkan_binding.h"

/* ---- captures ---- */

/* The bounds of memory types by which the next request is served, where the capture hasn't them. A trace bounds no heaps, and not how many blocks
 * there are: each memory type has what it may have now. */
struct bounds {
    pilhangko_budget of_types[VK_MAX_MEMORY_TYPES];
    bool are_known;
    uint64_t changes;
};

static void note_bounds(const struct binding *b, struct bounds *bounds) {
    bounds->changes = b->changes;
    bounds->are_known = !lacks_bounds(&b->capture, b->changes);
    for (uint32_t i = 0; !bounds->are_known && i < b->common->properties.memoryTypeCount; i++) {
        const pilhangko_status status = pilhangko_allocator_bound(&b->allocator, i, &bounds->of_types[i]);
        (void)status; /* the allocator is there */
    }
}

static void capture_bounds(struct binding *b, const struct bounds *bounds) {
    for (uint32_t i = 0; !bounds->are_known && i < b->common->properties.memoryTypeCount; i++)
        capture_bound(&b->capture, i, &bounds->of_types[i]);
    b->capture.seen = bounds->changes;
}

/* The same as they are now. */
static void capture_bounds_now(struct binding *b) {
    struct bounds bounds;
    note_bounds(b, &bounds);
    capture_bounds(b, &bounds);
}

/* How many answers a captured call has at most: its binding has no smaller blocks, so it makes two attempts, each with a question for memory
 * and one for its mapping. */
#define MOST_ANSWERS 4

/* What a call asked the driver. */
struct asked {
    pilhangko_capture_answer answers[MOST_ANSWERS];
    size_t count;
    VkResult driver; /* the last code of a refusal */
};

/* An answer; null without an error has VK_SUCCESS. */
static void note_answer(struct asked *asked, bool refused, VkResult driver) {
    if (driver != VK_SUCCESS) asked->driver = driver;
    if (asked->count == MOST_ANSWERS) return;
    asked->answers[asked->count].refused = refused;
    asked->answers[asked->count++].code = (int32_t)driver;
}

/* Questions of attempts that are over, where only the last one's are captured. */
static void forget_questions(struct asked *asked) {
    asked->count = 0;
}

static bool is_refused_last(const struct asked *asked) {
    return asked->count > 0 && asked->answers[asked->count - 1].refused;
}

/* The call `allocate`, before which these were the bounds. An allocation is called by its serial number; one that was refused by the next one's.
 * One that flags chose the memory for is one of its memory type alone; where it was refused it changed nothing, and isn't captured. */
static void capture_call(struct binding *b, const struct wanted *wanted, const struct bounds *bounds, pilhangko_status status, size_t type,
    const struct asked *asked) {
    pilhangko_allocator_request asks = wanted->asks;
    if (!has_line(&b->capture, status) || (wanted->by_flags && status != PILHANGKO_OK)) return;
    if (wanted->by_flags) asks.memory_type_bits = UINT32_C(1) << type;
    capture_bounds(b, bounds);
    expect_kept(&b->capture, pilhangko_capture_allocator_allocated(
        &b->capture.kept, b->last_serial + 1, &asks, wanted->name, asked->answers, asked->count));
}

/* The call `propose_move` of the allocation with this serial number, whether there was a second place or none. */
static void capture_proposal(struct binding *b, uint64_t from, const struct wanted *wanted) {
    if (!is_captured(&b->capture)) return;
    capture_bounds_now(b);
    expect_kept(&b->capture,
        pilhangko_capture_allocator_moved(&b->capture.kept, from, b->last_serial + 1, &wanted->asks, wanted->name));
}

/* Writes the capture, and ends it. */
static pilhangko_vulkan_capture end_capture(struct binding *b, bool is_destroyed) {
    struct capture_told ended;
    pilhangko_vulkan_capture told;
    capture_bounds_now(b);
    ended = finish_capture(&b->capture, is_destroyed);
    told.end = (pilhangko_vulkan_capture_end)ended.end;
    told.bytes = ended.bytes;
    return told;
}

/* ---- asking the driver ---- */

/* Whether a chain has a struct of this type. */
static bool has_struct(const void *chain, VkStructureType type) {
    for (const VkBaseInStructure *it = (const VkBaseInStructure *)chain; it; it = it->pNext)
        if (it->sType == type) return true;
    return false;
}

/* Asks for memory: for the resource alone that the request names, if it names one, and with the request's chain. A struct that is in the
 * chain counts in place of the binding's own. */
static VkResult ask_memory(
    const struct binding *b, const struct wanted *wanted, const pilhangko_allocator_question *question, VkDeviceMemory *memory) {
    VkMemoryAllocateInfo info;
    VkMemoryDedicatedAllocateInfo alone;
    VkMemoryAllocateFlagsInfo flags;
    memset(&info, 0, sizeof info);
    info.sType = VK_STRUCTURE_TYPE_MEMORY_ALLOCATE_INFO;
    info.pNext = wanted->next;
    info.allocationSize = question->size;
    info.memoryTypeIndex = (uint32_t)question->memory_type;
    memset(&alone, 0, sizeof alone);
    alone.sType = VK_STRUCTURE_TYPE_MEMORY_DEDICATED_ALLOCATE_INFO;
    if (wanted->asks.scheme == PILHANGKO_SCHEME_BUFFER) alone.buffer = (VkBuffer)wanted->asks.resource;
    else alone.image = (VkImage)wanted->asks.resource;
    if (wanted->asks.resource != 0 && b->common->over.api_version >= VK_API_VERSION_1_1 && !has_struct(wanted->next, alone.sType)) {
        alone.pNext = info.pNext;
        info.pNext = &alone;
    }
    memset(&flags, 0, sizeof flags);
    flags.sType = VK_STRUCTURE_TYPE_MEMORY_ALLOCATE_FLAGS_INFO;
    flags.flags = VK_MEMORY_ALLOCATE_DEVICE_ADDRESS_BIT;
    if (b->common->device_address && !has_struct(wanted->next, flags.sType)) {
        flags.pNext = info.pNext;
        info.pNext = &flags;
    }
    *memory = VK_NULL_HANDLE;
    return b->common->over.functions->vkAllocateMemory(b->common->over.device, &info, b->common->over.allocation_callbacks, memory);
}

static pilhangko_status memory_refused(struct binding *b, VkResult driver, pilhangko_allocator_progress *progress) {
    return pilhangko_allocator_refused(&b->allocator, driver == VK_SUCCESS ? VK_ERROR_OUT_OF_DEVICE_MEMORY : driver, progress);
}

static pilhangko_status mapping_refused(
    struct binding *b, VkResult driver, VkDeviceMemory memory, pilhangko_allocator_progress *progress) {
    /* unmaps it too, where a null address is a mapping to the driver */
    b->common->over.functions->vkFreeMemory(b->common->over.device, memory, b->common->over.allocation_callbacks);
    return pilhangko_allocator_mapping_refused(&b->allocator, driver != VK_SUCCESS, driver, progress);
}

/* Asks the driver the question that is open, and tells the answer. */
static pilhangko_status ask(
    struct binding *b, const struct wanted *wanted, struct asked *asked, pilhangko_allocator_progress *progress) {
    const pilhangko_allocator_question question = progress->question;
    void *mapped = NULL;
    VkDeviceMemory memory;
    pilhangko_status status;
    VkResult driver = ask_memory(b, wanted, &question, &memory);
    bool refused = driver != VK_SUCCESS || memory == VK_NULL_HANDLE;
    note_answer(asked, refused, driver);
    if (refused) return memory_refused(b, driver, progress);
    if (question.mapped) {
        driver = b->common->over.functions->vkMapMemory(b->common->over.device, memory, 0, VK_WHOLE_SIZE, 0, &mapped);
        refused = driver != VK_SUCCESS || !mapped;
        note_answer(asked, refused, driver);
        if (refused) return mapping_refused(b, driver, memory, progress);
    }
    progress->kind = PILHANGKO_PROGRESS_PIECE;
    status = pilhangko_allocator_granted(&b->allocator, (uint64_t)memory, (uintptr_t)mapped, &progress->piece);
    b->block_count++;
    b->changes++;
    share_again(b->common);
    return status;
}

/* ---- memory ---- */

/* Keeps another word with a live allocation, and with its piece, for those who visit that. */
static void keep_word(struct binding *b, struct live *it, uint64_t user_data) {
    const pilhangko_status status = pilhangko_allocator_set_word(&b->allocator, &it->piece, user_data);
    (void)status; /* the piece is live, and no question is open */
    it->user_data = user_data;
}

/* Keeps a piece as a live allocation, and tells it. */
static void keep_allocation(struct binding *b, const pilhangko_allocator_piece *piece, uint64_t user_data, bool dedicated,
    pilhangko_vulkan_allocation *allocation) {
    const uint32_t index = spare_record(&b->live);
    struct live *it = (struct live *)record_of(&b->live, index);
    it->serial = ++b->last_serial;
    it->piece = *piece;
    if (user_data != 0) keep_word(b, it, user_data);
    b->live_count++;
    allocation->memory = (VkDeviceMemory)piece->piece.block;
    allocation->offset = piece->piece.offset;
    allocation->size = piece->piece.size;
    allocation->dedicated = dedicated;
    allocation->piece = *piece;
    allocation->owner = b->number;
    allocation->serial = it->serial;
    allocation->index = index;
}

static pilhangko_status begin(struct binding *b, const struct wanted *wanted, pilhangko_allocator_progress *progress) {
    if (wanted->by_flags) return pilhangko_allocator_begin_by_flags(&b->allocator, &wanted->asks, wanted->name, &wanted->preference, progress);
    return pilhangko_allocator_begin(&b->allocator, &wanted->asks, wanted->name, progress);
}

/* What the binding asks its allocator and the driver for. */
static pilhangko_status wants(const struct binding *b, const pilhangko_vulkan_request *request, struct wanted *wanted) {
    const pilhangko_status status = asks_for(&b->common->properties, b->common->atom, b->type_bits, request, wanted);
    if (status == PILHANGKO_OK && !wanted->next) wanted->next = b->next;
    return status;
}

static pilhangko_vulkan_result allocate_alone(
    struct binding *b, const pilhangko_vulkan_request *request, pilhangko_vulkan_allocation *allocation) {
    struct wanted wanted;
    pilhangko_allocator_progress progress;
    struct bounds bounds;
    struct asked asked;
    pilhangko_status status = wants(b, request, &wanted);
    if (status != PILHANGKO_OK) return undriven(status);
    /* before the driver is asked, so that nothing can fail behind its grant */
    if (!has_spare(&b->live)) return undriven(PILHANGKO_HOST_OUT_OF_MEMORY);
    memset(&asked, 0, sizeof asked);
    note_bounds(b, &bounds);
    status = begin(b, &wanted, &progress);
    while (status == PILHANGKO_OK && progress.kind == PILHANGKO_PROGRESS_QUESTION) {
        if (wanted.by_flags) forget_questions(&asked);
        status = ask(b, &wanted, &asked, &progress);
    }
    if (status == PILHANGKO_OK) status = progress.status;
    if (wanted.by_flags && is_refused_last(&asked)) forget_questions(&asked); /* the last one's place was there */
    capture_call(b, &wanted, &bounds, status, status == PILHANGKO_OK ? progress.piece.memory_type : 0, &asked);
    if (status != PILHANGKO_OK) return result_of(status, asked.driver);
    keep_allocation(b, &progress.piece, request->user_data, wanted.asks.scheme != PILHANGKO_SCHEME_MANAGED, allocation);
    return undriven(PILHANGKO_OK);
}

/* Gives memory back to the driver. */
static void give_back(const struct binding *b, uint64_t memory, bool mapped) {
    if (mapped) b->common->over.functions->vkUnmapMemory(b->common->over.device, (VkDeviceMemory)memory);
    b->common->over.functions->vkFreeMemory(b->common->over.device, (VkDeviceMemory)memory, b->common->over.allocation_callbacks);
}

static pilhangko_status free_alone(struct binding *b, const pilhangko_vulkan_allocation *allocation) {
    const struct live *it = find(b, allocation);
    pilhangko_allocator_memory back;
    pilhangko_status status;
    if (!it) return PILHANGKO_NOT_LIVE;
    status = pilhangko_allocator_free(&b->allocator, &it->piece, &back);
    if (status != PILHANGKO_OK) return status;
    capture_free(&b->capture, it->serial);
    make_spare(&b->live, allocation->index);
    b->live_count--;
    if (back.exists) {
        give_back(b, back.memory, back.mapped);
        b->block_count--;
        b->changes++;
        share_again(b->common);
    }
    return PILHANGKO_OK;
}

pilhangko_status PILHANGKO_CALL pilhangko_vulkan_free_counted(
    pilhangko_vulkan *vulkan, const pilhangko_vulkan_allocation *allocation, VkDeviceSize *bytes) {
    struct binding *b = enter(binding_of(vulkan));
    uint64_t before = 0, behind = 0;
    pilhangko_status status = pilhangko_allocator_capacity(&b->allocator, &before);
    if (status == PILHANGKO_OK) status = free_alone(b, allocation);
    if (status == PILHANGKO_OK) status = pilhangko_allocator_capacity(&b->allocator, &behind);
    leave(b);
    if (status == PILHANGKO_OK) *bytes = before - behind;
    return status;
}

static pilhangko_status propose_alone(struct binding *b, const pilhangko_vulkan_allocation *from, const pilhangko_vulkan_request *request,
    bool *moves, pilhangko_vulkan_allocation *to) {
    const struct live *it = find(b, from);
    struct live first;
    struct wanted wanted;
    pilhangko_allocator_piece place;
    pilhangko_status status;
    if (!it) return PILHANGKO_NOT_LIVE;
    first = *it; /* the record may lie elsewhere behind has_spare */
    status = wants(b, request, &wanted);
    if (status != PILHANGKO_OK) return status;
    if (!has_spare(&b->live)) return PILHANGKO_HOST_OUT_OF_MEMORY;
    status = pilhangko_allocator_propose_move(&b->allocator, &first.piece, &wanted.asks, wanted.name, moves, &place);
    if (status != PILHANGKO_OK) return status;
    capture_proposal(b, first.serial, &wanted);
    if (!*moves) return PILHANGKO_OK;
    keep_allocation(b, &place, first.user_data, false, to);
    return PILHANGKO_OK;
}

pilhangko_status PILHANGKO_CALL pilhangko_vulkan_propose_move(pilhangko_vulkan *vulkan, const pilhangko_vulkan_allocation *from,
    const pilhangko_vulkan_request *request, bool *moves, pilhangko_vulkan_allocation *to) {
    struct binding *b;
    pilhangko_status status;
    if (!vulkan || !from || !request || !moves || !to) return PILHANGKO_NULL_POINTER;
    if (!vulkan->opaque) return PILHANGKO_NO_HANDLE;
    b = enter(binding_of(vulkan));
    status = propose_alone(b, from, request, moves, to);
    leave(b);
    return status;
}

pilhangko_vulkan_result PILHANGKO_CALL pilhangko_vulkan_allocate(
    pilhangko_vulkan *vulkan, const pilhangko_vulkan_request *request, pilhangko_vulkan_allocation *allocation) {
    struct binding *b;
    pilhangko_vulkan_result result;
    if (!vulkan || !request || !allocation) return undriven(PILHANGKO_NULL_POINTER);
    if (!vulkan->opaque) return undriven(PILHANGKO_NO_HANDLE);
    b = enter(binding_of(vulkan));
    result = allocate_alone(b, request, allocation);
    leave(b);
    return result;
}

pilhangko_status PILHANGKO_CALL pilhangko_vulkan_free(pilhangko_vulkan *vulkan, const pilhangko_vulkan_allocation *allocation) {
    struct binding *b;
    pilhangko_status status;
    if (!vulkan || !allocation) return PILHANGKO_NULL_POINTER;
    if (!vulkan->opaque) return PILHANGKO_NO_HANDLE;
    b = enter(binding_of(vulkan));
    status = free_alone(b, allocation);
    leave(b);
    return status;
}

pilhangko_status PILHANGKO_CALL pilhangko_vulkan_rename(
    pilhangko_vulkan *vulkan, const pilhangko_vulkan_allocation *allocation, const char *name) {
    struct binding *b;
    const struct live *it;
    pilhangko_allocator_piece none;
    pilhangko_status status;
    if (!vulkan || !allocation) return PILHANGKO_NULL_POINTER;
    if (!vulkan->opaque) return PILHANGKO_NO_HANDLE;
    b = enter(binding_of(vulkan));
    it = find(b, allocation);
    memset(&none, 0, sizeof none); /* no live piece: the name is looked at first all the same */
    status = pilhangko_allocator_rename(&b->allocator, it ? &it->piece : &none, name);
    if (status == PILHANGKO_OK) capture_rename(&b->capture, allocation->serial, name);
    leave(b);
    return status;
}

pilhangko_status PILHANGKO_CALL pilhangko_vulkan_is_live(
    const pilhangko_vulkan *vulkan, const pilhangko_vulkan_allocation *allocation, bool *is_live) {
    pilhangko_allocator_piece piece;
    if (!vulkan || !allocation || !is_live) return PILHANGKO_NULL_POINTER;
    if (!vulkan->opaque) return PILHANGKO_NO_HANDLE;
    *is_live = live_piece(binding_of(vulkan), allocation, &piece);
    return PILHANGKO_OK;
}

pilhangko_status PILHANGKO_CALL pilhangko_vulkan_read_allocation(
    const pilhangko_vulkan *vulkan, const pilhangko_vulkan_allocation *allocation, pilhangko_vulkan_allocation_told *told) {
    struct binding *b;
    const struct live *it;
    pilhangko_allocator_live_block block;
    pilhangko_status status = PILHANGKO_NOT_LIVE;
    if (!vulkan || !allocation || !told) return PILHANGKO_NULL_POINTER;
    if (!vulkan->opaque) return PILHANGKO_NO_HANDLE;
    b = enter(binding_of(vulkan));
    it = find(b, allocation);
    if (it) status = pilhangko_allocator_block(&b->allocator, it->piece.memory_type, it->piece.piece.slot, &block);
    if (status == PILHANGKO_OK) {
        told->mapped = it->piece.address == 0 ? NULL : (char *)(uintptr_t)it->piece.address + it->piece.piece.offset;
        told->user_data = it->user_data;
        told->property_flags = b->common->properties.memoryTypes[it->piece.memory_type].propertyFlags;
        told->block_size = block.size;
        told->block_shared = block.shared;
    }
    leave(b);
    return status;
}

pilhangko_status PILHANGKO_CALL pilhangko_vulkan_set_user_data(
    pilhangko_vulkan *vulkan, const pilhangko_vulkan_allocation *allocation, uint64_t user_data) {
    struct binding *b;
    struct live *it;
    if (!vulkan || !allocation) return PILHANGKO_NULL_POINTER;
    if (!vulkan->opaque) return PILHANGKO_NO_HANDLE;
    b = enter(binding_of(vulkan));
    it = (struct live *)find(b, allocation);
    if (it) keep_word(b, it, user_data);
    leave(b);
    return it ? PILHANGKO_OK : PILHANGKO_NOT_LIVE;
}

pilhangko_status PILHANGKO_CALL pilhangko_vulkan_capacity(const pilhangko_vulkan *vulkan, VkDeviceSize *bytes) {
    struct binding *b;
    uint64_t sum;
    pilhangko_status status;
    if (!vulkan || !bytes) return PILHANGKO_NULL_POINTER;
    if (!vulkan->opaque) return PILHANGKO_NO_HANDLE;
    b = enter(binding_of(vulkan));
    status = pilhangko_allocator_capacity(&b->allocator, &sum);
    leave(b);
    if (status == PILHANGKO_OK) *bytes = sum;
    return status;
}

const pilhangko_allocator *PILHANGKO_CALL pilhangko_vulkan_allocator(const pilhangko_vulkan *vulkan) {
    return vulkan && vulkan->opaque ? &binding_of(vulkan)->allocator : NULL;
}

pilhangko_status PILHANGKO_CALL pilhangko_vulkan_lock(const pilhangko_vulkan *vulkan) {
    if (!vulkan) return PILHANGKO_NULL_POINTER;
    if (!vulkan->opaque) return PILHANGKO_NO_HANDLE;
    (void)enter(binding_of(vulkan));
    return PILHANGKO_OK;
}

pilhangko_status PILHANGKO_CALL pilhangko_vulkan_unlock(const pilhangko_vulkan *vulkan) {
    if (!vulkan) return PILHANGKO_NULL_POINTER;
    if (!vulkan->opaque) return PILHANGKO_NO_HANDLE;
    leave(binding_of(vulkan));
    return PILHANGKO_OK;
}

pilhangko_status PILHANGKO_CALL pilhangko_vulkan_read_device(const pilhangko_vulkan *vulkan, pilhangko_vulkan_device *read) {
    const struct binding *b;
    if (!vulkan || !read) return PILHANGKO_NULL_POINTER;
    b = binding_of(vulkan);
    if (!b) return PILHANGKO_NO_HANDLE;
    *read = b->common->over;
    read->memory_type_bits = b->type_bits;
    return PILHANGKO_OK;
}

/* ---- create and destroy ---- */

/* What a binding and a pool are both made with. */
struct block_settings {
    VkDeviceSize device_size, largest_device_size, host_size, largest_host_size;
    bool whole;
    pilhangko_vulkan_write capture_write;
    void *capture_user;
};

/* Makes the allocator, and begins its capture, where there is to be one. */
static pilhangko_status create_allocator(struct binding *b, const struct block_settings *blocks) {
    const VkPhysicalDeviceMemoryProperties *p = &b->common->properties;
    const pilhangko_allocator_settings s = {b->common->granularity, or_else(blocks->device_size, UINT64_C(256) << 20),
        blocks->largest_device_size, or_else(blocks->host_size, UINT64_C(64) << 20), blocks->largest_host_size};
    pilhangko_device_memory_type types[VK_MAX_MEMORY_TYPES];
    pilhangko_device_heap heaps[VK_MAX_MEMORY_HEAPS];
    pilhangko_status status;
    for (uint32_t i = 0; i < p->memoryTypeCount; i++) {
        types[i].flags = p->memoryTypes[i].propertyFlags;
        types[i].heap = p->memoryTypes[i].heapIndex;
    }
    for (uint32_t i = 0; i < p->memoryHeapCount; i++) {
        heaps[i].size = p->memoryHeaps[i].size;
        heaps[i].flags = p->memoryHeaps[i].flags;
    }
    status = pilhangko_allocator_create(&b->allocator, types, p->memoryTypeCount, heaps, p->memoryHeapCount, &s);
    if (status != PILHANGKO_OK) return status;
    if (is_captured(&b->capture)) { /* (a trace has no smaller blocks) */
        status = pilhangko_capture_of_allocator(&b->capture.kept, types, p->memoryTypeCount, heaps, p->memoryHeapCount, &s);
        if (status != PILHANGKO_OK) (void)pilhangko_allocator_destroy(&b->allocator);
        return status;
    }
    return pilhangko_allocator_set_smaller_blocks(&b->allocator, !blocks->whole);
}

/* Begins a binding without blocks over what it has in common with its pools, or with the binding that it is a pool of. */
static pilhangko_status begin_binding(struct binding *b, struct common *common, const struct block_settings *blocks) {
    b->number = next_number();
    b->common = common;
    b->type_bits = UINT32_MAX;
    begin_table(&b->live, sizeof(struct live));
    b->capture.write = blocks->capture_write;
    b->capture.user = blocks->capture_user;
    return create_allocator(b, blocks);
}

static void keep_settings(struct common *c, const pilhangko_vulkan_settings *settings) {
    c->functions = *settings->functions;
    c->over.physical_device = settings->physical_device;
    c->over.device = settings->device;
    c->over.functions = &c->functions;
    c->over.api_version = settings->api_version;
    c->over.memory_type_bits = UINT32_MAX;
    if (settings->allocation_callbacks) {
        c->callbacks = *settings->allocation_callbacks;
        c->over.allocation_callbacks = &c->callbacks;
    }
    c->memory_budget = settings->memory_budget;
    c->device_address = settings->buffer_device_address;
    c->is_locked_outside = settings->externally_synchronized;
}

static pilhangko_status read_properties(struct common *c) {
    VkPhysicalDeviceProperties device;
    memset(&device, 0, sizeof device);
    c->functions.vkGetPhysicalDeviceProperties(c->over.physical_device, &device);
    c->functions.vkGetPhysicalDeviceMemoryProperties(c->over.physical_device, &c->properties);
    c->atom = device.limits.nonCoherentAtomSize;
    c->granularity = device.limits.bufferImageGranularity;
    c->most_blocks = device.limits.maxMemoryAllocationCount;
    if (!is_power_of_two(c->atom)) return PILHANGKO_VULKAN_INVALID_ATOM_SIZE;
    if (c->properties.memoryTypeCount > VK_MAX_MEMORY_TYPES) return PILHANGKO_TOO_MANY_TYPES;
    if (c->properties.memoryHeapCount > VK_MAX_MEMORY_HEAPS) return PILHANGKO_VULKAN_TOO_MANY_HEAPS;
    return PILHANGKO_OK;
}

/* A binding that is no pool. */
struct parent {
    struct binding binding;
    struct common common;
};

/* Reads the device, and makes the allocator over it. */
static pilhangko_status begin_parent(struct parent *parent, const pilhangko_vulkan_settings *settings) {
    const struct block_settings blocks = {settings->device_block_size, settings->largest_device_block_size, settings->host_block_size,
        settings->largest_host_block_size, settings->whole_blocks, settings->capture_write, settings->capture_user};
    pilhangko_status status;
    keep_settings(&parent->common, settings);
    status = read_properties(&parent->common);
    if (status != PILHANGKO_OK) return status;
    status = begin_binding(&parent->binding, &parent->common, &blocks);
    if (status != PILHANGKO_OK) return status;
    parent->common.first = &parent->binding;
    share_bounds(&parent->common);
    if (make_mutex(&parent->common.lock)) return status;
    (void)pilhangko_allocator_destroy(&parent->binding.allocator);
    drop_capture(&parent->binding.capture);
    return PILHANGKO_HOST_OUT_OF_MEMORY;
}

pilhangko_status PILHANGKO_CALL pilhangko_vulkan_create(pilhangko_vulkan *vulkan, const pilhangko_vulkan_settings *settings) {
    struct parent *parent;
    pilhangko_status status;
    if (!vulkan || !settings || !settings->physical_device || !settings->device || !settings->functions) return PILHANGKO_NULL_POINTER;
    if (vulkan->opaque) return PILHANGKO_IN_USE;
    if (!has_functions(settings->functions)) return PILHANGKO_VULKAN_NO_FUNCTION;
    if (settings->memory_budget && !settings->functions->vkGetPhysicalDeviceMemoryProperties2) return PILHANGKO_VULKAN_NO_FUNCTION;
    parent = (struct parent *)malloc(sizeof *parent);
    if (!parent) return PILHANGKO_HOST_OUT_OF_MEMORY;
    memset(parent, 0, sizeof *parent);
    status = begin_parent(parent, settings);
    if (status == PILHANGKO_OK) vulkan->opaque = &parent->binding;
    else free(parent);
    return status;
}

static pilhangko_status begin_pool(struct binding *pool, struct common *common, const pilhangko_vulkan_pool_settings *settings) {
    const struct block_settings blocks = {settings->device_block_size, settings->largest_device_block_size, settings->host_block_size,
        settings->largest_host_block_size, settings->whole_blocks, settings->capture_write, settings->capture_user};
    const pilhangko_status status = begin_binding(pool, common, &blocks);
    if (settings->memory_type_bits != 0) pool->type_bits = settings->memory_type_bits;
    pool->next = settings->next;
    pool->most_blocks = settings->most_blocks;
    return status;
}

/* Whether the device has one of these memory types. */
static bool has_type(const struct common *c, uint32_t bits) {
    for (uint32_t i = 0; i < c->properties.memoryTypeCount; i++)
        if (bits >> i & 1) return true;
    return false;
}

/* Behind the binding that it is a pool of, between enter and leave. */
static void join(struct binding *pool) {
    struct binding *first = pool->common->first;
    pool->next_pool = first->next_pool;
    first->next_pool = pool;
    share_bounds(pool->common);
}

pilhangko_status PILHANGKO_CALL pilhangko_vulkan_create_pool(
    pilhangko_vulkan *parent, const pilhangko_vulkan_pool_settings *settings, pilhangko_vulkan *pool) {
    struct binding *made;
    pilhangko_status status;
    if (!parent || !settings || !pool) return PILHANGKO_NULL_POINTER;
    if (!parent->opaque) return PILHANGKO_NO_HANDLE;
    if (pool->opaque) return PILHANGKO_IN_USE;
    if (settings->memory_type_bits != 0 && !has_type(binding_of(parent)->common, settings->memory_type_bits)) return PILHANGKO_NO_SUCH_TYPE;
    if (has_struct(settings->next, VK_STRUCTURE_TYPE_MEMORY_DEDICATED_ALLOCATE_INFO)) return PILHANGKO_INVALID;
    made = (struct binding *)malloc(sizeof *made);
    if (!made) return PILHANGKO_HOST_OUT_OF_MEMORY;
    memset(made, 0, sizeof *made);
    status = begin_pool(made, binding_of(parent)->common, settings);
    if (status != PILHANGKO_OK) {
        free(made);
        return status;
    }
    (void)enter(made);
    join(made);
    leave(made);
    pool->opaque = made;
    return status;
}

pilhangko_status PILHANGKO_CALL pilhangko_vulkan_end_capture(pilhangko_vulkan *vulkan, pilhangko_vulkan_capture *capture) {
    struct binding *b;
    pilhangko_status status = PILHANGKO_OK;
    if (!vulkan || !capture) return PILHANGKO_NULL_POINTER;
    if (!vulkan->opaque) return PILHANGKO_NO_HANDLE;
    b = enter(binding_of(vulkan));
    if (!is_captured(&b->capture)) status = PILHANGKO_VULKAN_NO_CAPTURE;
    else *capture = end_capture(b, false);
    leave(b);
    return status;
}

/* Gives all blocks back, as a visit of the slots shows them. */
static void give_back_all(const struct binding *b) {
    pilhangko_type_statistics type;
    pilhangko_allocator_live_block block;
    for (size_t i = 0; pilhangko_allocator_type_statistics(&b->allocator, i, &type) == PILHANGKO_OK; i++)
        for (size_t slot = 0; slot < type.slots; slot++)
            if (pilhangko_allocator_block(&b->allocator, i, slot, &block) == PILHANGKO_OK && block.exists)
                give_back(b, block.memory, block.mapped);
}

/* A pool goes, between enter and leave. */
static void part(const struct binding *pool) {
    struct binding *before = pool->common->first;
    while (before->next_pool != pool) before = before->next_pool;
    before->next_pool = pool->next_pool;
    share_bounds(pool->common);
}

pilhangko_status PILHANGKO_CALL pilhangko_vulkan_destroy(pilhangko_vulkan *vulkan, pilhangko_vulkan_ending *ending) {
    struct binding *b;
    bool is_pool;
    pilhangko_vulkan_ending told;
    if (!vulkan) return PILHANGKO_NULL_POINTER;
    b = binding_of(vulkan);
    if (!b) return PILHANGKO_NO_HANDLE;
    is_pool = b->common->first != b;
    if (!is_pool && b->next_pool) return PILHANGKO_IN_USE;
    (void)enter(b);
    told.leaks = b->live_count;
    told.capture = end_capture(b, true);
    give_back_all(b);
    if (is_pool) part(b);
    leave(b);
    (void)pilhangko_allocator_destroy(&b->allocator);
    free(b->live.records);
    if (!is_pool) drop_mutex(&b->common->lock);
    free(b); /* a parent whole: it begins with its binding */
    vulkan->opaque = NULL;
    if (ending) *ending = told;
    return PILHANGKO_OK;
}
