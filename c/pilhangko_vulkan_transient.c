/* Transient resources over Pilhangko's Vulkan binding (include/pilhangko_vulkan.h): compile it with c/pilhangko_vulkan.c, as C11 or as C++11.
 * It makes the resources, asks the driver what they need, and binds them where pilhangko_plan puts them. */
#include "pilhangko_vulkan_resource.h"
#include "pilhangko_vulkan_request.h"
#include <stdlib.h>

/* ---- what a call works on ---- */

struct work {
    pilhangko_vulkan *vulkan;
    pilhangko_vulkan_device device;
    VkDeviceSize page_size;
    pilhangko_vulkan_request request; /* what is asked for each set, but for what its resources need */
    uint32_t type_bits;               /* of the memory types that have what it needs */
    pilhangko_vulkan_transient made;
    pilhangko_memory_needs *needs; /* of each resource, and the set that it is in */
    size_t *sets;
    pilhangko_plan_resource *members; /* of one set: what is planned of them, and where they go */
    uint64_t *offsets;
};

static void *zeroed(size_t count, size_t size) {
    void *memory = count <= SIZE_MAX / size ? malloc(count * size) : NULL;
    if (memory) memset(memory, 0, count * size);
    return memory;
}

static void forget_work(struct work *w) {
    free(w->needs);
    free(w->sets);
    free(w->members);
    free(w->offsets);
}

static void forget_made(pilhangko_vulkan_transient *made) {
    free(made->places);
    free(made->sets);
    memset(made, 0, sizeof *made);
}

static bool has_room(struct work *w, size_t count) {
    w->made.places = (pilhangko_vulkan_transient_place *)zeroed(count, sizeof *w->made.places);
    w->made.sets = (pilhangko_vulkan_transient_set *)zeroed(count, sizeof *w->made.sets);
    w->needs = (pilhangko_memory_needs *)zeroed(count, sizeof *w->needs);
    w->sets = (size_t *)zeroed(count, sizeof *w->sets);
    w->members = (pilhangko_plan_resource *)zeroed(count, sizeof *w->members);
    w->offsets = (uint64_t *)zeroed(count, sizeof *w->offsets);
    return w->made.places && w->made.sets && w->needs && w->sets && w->members && w->offsets;
}

static VkDeviceSize page_size_of(const pilhangko_vulkan_device *d) {
    VkPhysicalDeviceProperties properties;
    d->functions->vkGetPhysicalDeviceProperties(d->physical_device, &properties);
    return properties.limits.bufferImageGranularity;
}

/* The memory types that have what the location needs. */
static uint32_t types_of_location(pilhangko_vulkan *vulkan, pilhangko_location location) {
    const pilhangko_allocator *allocator = pilhangko_vulkan_allocator(vulkan);
    uint32_t bits = 0;
    size_t best;
    (void)pilhangko_vulkan_lock(vulkan);
    for (uint32_t i = 0; i < VK_MAX_MEMORY_TYPES; i++)
        if (pilhangko_allocator_best_type(allocator, UINT32_C(1) << i, location, &best) == PILHANGKO_OK) bits |= UINT32_C(1) << i;
    (void)pilhangko_vulkan_unlock(vulkan);
    return bits;
}

/* The memory types that have all flags which that requires. */
static uint32_t types_by_flags(const pilhangko_vulkan_device *d, const pilhangko_preference *flags) {
    VkPhysicalDeviceMemoryProperties properties;
    d->functions->vkGetPhysicalDeviceMemoryProperties(d->physical_device, &properties);
    return serving_types(&properties, flags);
}

/* Takes over what is asked for each set. */
static pilhangko_status begin_work(struct work *w, const pilhangko_vulkan_placement *placement) {
    struct wanted wanted;
    w->request = request_for(placement);
    if (placement->dedicated || placement->location > PILHANGKO_VULKAN_LOCATION_STAGING) return PILHANGKO_INVALID;
    if (choose(&w->request, &wanted) != PILHANGKO_OK) return PILHANGKO_INVALID;
    w->type_bits = wanted.by_flags ? types_by_flags(&w->device, &wanted.preference) : types_of_location(w->vulkan, placement->location);
    w->type_bits &= w->device.memory_type_bits;
    if (placement->memory_type_bits != 0) w->type_bits &= placement->memory_type_bits;
    return PILHANGKO_OK;
}

/* ---- resources ---- */

static bool can_be_made(const pilhangko_vulkan_transient_resource *r) {
    if (!r->buffer_info == !r->image_info || r->first_pass > r->last_pass) return false;
    return r->buffer_info ? is_bindable_buffer(r->buffer_info) : is_bindable_image(r->image_info);
}

static struct resource resource_of(const pilhangko_vulkan_transient_place *place) {
    struct resource r;
    r.buffer = place->buffer;
    r.image = place->image;
    return r;
}

static pilhangko_vulkan_result make_resource(
    const pilhangko_vulkan_device *d, const pilhangko_vulkan_transient_resource *r, struct resource *made) {
    return r->buffer_info ? make_buffer(d, r->buffer_info, made) : make_image(d, r->image_info, made);
}

static pilhangko_vulkan_result bind_place(const struct work *w, const pilhangko_vulkan_transient_place *place) {
    const pilhangko_vulkan_allocation *a = &w->made.sets[place->set].allocation;
    const struct resource r = resource_of(place);
    return bind_resource(&w->device, &r, a->memory, a->offset + place->offset);
}

/* Destroys what was made, and frees the allocations that there are: the resources first, as the driver wants it. */
static void undo(pilhangko_vulkan *vulkan, const pilhangko_vulkan_device *d, pilhangko_vulkan_transient *made) {
    for (size_t i = 0; i < made->place_count; i++) {
        const struct resource r = resource_of(&made->places[i]);
        destroy_resource(d, &r);
    }
    for (size_t s = 0; s < made->set_count; s++) {
        const pilhangko_status freed = pilhangko_vulkan_free(vulkan, &made->sets[s].allocation);
        (void)freed; /* each is live */
    }
    forget_made(made);
}

/* ---- sets ---- */

/* What a plan has to know of a resource. */
static pilhangko_plan_resource planned_of(const pilhangko_vulkan_transient_resource *r, const VkMemoryRequirements *needs) {
    pilhangko_plan_resource planned;
    planned.size = needs->size;
    planned.alignment = needs->alignment;
    planned.kind = r->buffer_info ? PILHANGKO_KIND_LINEAR : kind_of_image(r->image_info);
    planned.first_pass = r->first_pass;
    planned.last_pass = r->last_pass;
    return planned;
}

/* Makes each resource, and asks what it needs. */
static pilhangko_vulkan_result make_all(struct work *w, const pilhangko_vulkan_transient_resource *resources, size_t count) {
    for (size_t i = 0; i < count; i++) {
        pilhangko_vulkan_transient_place *place = &w->made.places[i];
        struct resource made = {VK_NULL_HANDLE, VK_NULL_HANDLE};
        VkMemoryRequirements needs;
        const pilhangko_vulkan_result result = make_resource(&w->device, &resources[i], &made);
        if (result.status != PILHANGKO_OK) return result;
        place->buffer = made.buffer;
        place->image = made.image;
        w->made.place_count = i + 1;
        w->needs[i].dedicated = requirements_of(&w->device, &made, &needs).requiresDedicatedAllocation == VK_TRUE;
        w->needs[i].memory_type_bits = needs.memoryTypeBits & w->type_bits;
        place->planned = planned_of(&resources[i], &needs);
    }
    return undriven(PILHANGKO_OK);
}

/* Puts each resource in a set. sets_there is how many there are. */
static pilhangko_status gather(struct work *w, size_t *sets_there) {
    const pilhangko_status status = pilhangko_plan_sets(w->needs, w->made.place_count, w->sets);
    if (status != PILHANGKO_OK) return status;
    for (size_t i = 0; i < w->made.place_count; i++) {
        w->made.places[i].set = w->sets[i];
        w->made.sets[w->sets[i]].unshared += w->made.places[i].planned.size;
        if (w->sets[i] >= *sets_there) *sets_there = w->sets[i] + 1;
    }
    return status;
}

/* The resources of a set, in their order; returns how many they are. */
static size_t members_of(const pilhangko_vulkan_transient *made, size_t s, pilhangko_plan_resource *members) {
    size_t count = 0;
    for (size_t i = 0; i < made->place_count; i++)
        if (made->places[i].set == s) members[count++] = made->places[i].planned;
    return count;
}

/* Plans a set, and says which memory its heap takes. */
static pilhangko_status plan_set(struct work *w, size_t s, pilhangko_heap_memory *memory) {
    const size_t count = members_of(&w->made, s, w->members);
    size_t next = 0;
    const pilhangko_status status = pilhangko_plan(w->members, count, w->page_size, w->offsets, &w->made.sets[s].plan);
    if (status != PILHANGKO_OK) return status;
    for (size_t i = 0; i < w->made.place_count; i++)
        if (w->made.places[i].set == s) w->made.places[i].offset = w->offsets[next++];
    return pilhangko_plan_memory(w->members, count, w->made.sets[s].plan.heap_size, w->page_size, memory);
}

/* What is asked for a set. One that is dedicated has one resource. */
static pilhangko_vulkan_request request_of(const struct work *w, size_t s, const pilhangko_heap_memory *memory) {
    pilhangko_vulkan_request request = w->request;
    request.requirements.size = memory->size;
    request.requirements.alignment = memory->alignment;
    request.requirements.memoryTypeBits = UINT32_MAX;
    request.kind = memory->kind;
    for (size_t i = 0; i < w->made.place_count; i++) {
        const pilhangko_vulkan_transient_place *place = &w->made.places[i];
        if (place->set != s) continue;
        request.requirements.memoryTypeBits &= w->needs[i].memory_type_bits;
        if (!w->needs[i].dedicated) continue;
        request.scheme = place->image != VK_NULL_HANDLE ? PILHANGKO_SCHEME_IMAGE : PILHANGKO_SCHEME_BUFFER;
        request.image = place->image;
        request.buffer = place->buffer;
    }
    return request;
}

static pilhangko_vulkan_result allocate_set(struct work *w, size_t s, const pilhangko_heap_memory *memory) {
    const pilhangko_vulkan_request request = request_of(w, s, memory);
    w->made.sets[s].dedicated = request.scheme != PILHANGKO_SCHEME_MANAGED;
    return pilhangko_vulkan_allocate(w->vulkan, &request, &w->made.sets[s].allocation);
}

/* Plans and allocates each set, then binds each resource. */
static pilhangko_vulkan_result place_all(struct work *w, size_t sets_there) {
    for (size_t s = 0; s < sets_there; s++) {
        pilhangko_heap_memory memory;
        pilhangko_vulkan_result result = undriven(plan_set(w, s, &memory));
        if (result.status != PILHANGKO_OK) return result;
        result = allocate_set(w, s, &memory);
        if (result.status != PILHANGKO_OK) return result;
        w->made.set_count = s + 1;
    }
    for (size_t i = 0; i < w->made.place_count; i++) {
        const pilhangko_vulkan_result result = bind_place(w, &w->made.places[i]);
        if (result.status != PILHANGKO_OK) return result;
    }
    return undriven(PILHANGKO_OK);
}

static pilhangko_vulkan_result create(
    struct work *w, const pilhangko_vulkan_transient_resource *resources, size_t count, pilhangko_vulkan_transient *transient) {
    size_t sets_there = 0;
    pilhangko_vulkan_result result = make_all(w, resources, count);
    if (result.status == PILHANGKO_OK) result = undriven(gather(w, &sets_there));
    if (result.status == PILHANGKO_OK) result = place_all(w, sets_there);
    if (result.status == PILHANGKO_OK) *transient = w->made;
    else undo(w->vulkan, &w->device, &w->made);
    return result;
}

/* ---- the calls ---- */

pilhangko_vulkan_result PILHANGKO_CALL pilhangko_vulkan_create_transient(pilhangko_vulkan *vulkan,
    const pilhangko_vulkan_transient_resource *resources, size_t count, const pilhangko_vulkan_placement *placement,
    pilhangko_vulkan_transient *transient) {
    struct work w;
    pilhangko_status status;
    pilhangko_vulkan_result result;
    if (!vulkan || (!resources && count) || !placement || !transient) return undriven(PILHANGKO_NULL_POINTER);
    memset(&w, 0, sizeof w);
    status = pilhangko_vulkan_read_device(vulkan, &w.device);
    if (status != PILHANGKO_OK) return undriven(status);
    if (transient->places || transient->sets) return undriven(PILHANGKO_IN_USE);
    w.vulkan = vulkan;
    status = begin_work(&w, placement);
    if (status != PILHANGKO_OK) return undriven(status);
    for (size_t i = 0; i < count; i++)
        if (!can_be_made(&resources[i])) return undriven(PILHANGKO_INVALID);
    if (count == 0) return undriven(PILHANGKO_OK);
    if (has_room(&w, count)) {
        w.page_size = page_size_of(&w.device);
        result = create(&w, resources, count, transient);
    } else {
        forget_made(&w.made);
        result = undriven(PILHANGKO_HOST_OUT_OF_MEMORY);
    }
    forget_work(&w);
    return result;
}

/* The reuses within a set, as indices of its members. */
static pilhangko_status reused_members(const pilhangko_vulkan_transient *transient, size_t s, size_t index, pilhangko_plan_resource *members,
    uint64_t *offsets, size_t *found, size_t *count) {
    const size_t members_there = members_of(transient, s, members);
    size_t next = 0, member = 0;
    for (size_t i = 0; i < transient->place_count; i++) {
        if (transient->places[i].set != s) continue;
        if (i == index) member = next;
        offsets[next++] = transient->places[i].offset;
    }
    return pilhangko_plan_reuses(members, members_there, offsets, member, found, members_there, count);
}

/* The place of each member of a set that was found, as far as there is room. */
static void tell_places(const pilhangko_vulkan_transient *transient, size_t s, const size_t *found, size_t count, size_t *reused, size_t room) {
    size_t member = 0, told = 0;
    for (size_t i = 0; i < transient->place_count && told < count && told < room; i++) {
        if (transient->places[i].set != s) continue;
        if (found[told] == member++) reused[told++] = i;
    }
}

pilhangko_status PILHANGKO_CALL pilhangko_vulkan_transient_reuses(
    const pilhangko_vulkan_transient *transient, size_t index, size_t *reused, size_t room, size_t *reused_count) {
    pilhangko_plan_resource *members;
    uint64_t *offsets;
    size_t *found, count = 0;
    pilhangko_status status = PILHANGKO_HOST_OUT_OF_MEMORY;
    if (!transient || (!reused && room) || !reused_count) return PILHANGKO_NULL_POINTER;
    if (index >= transient->place_count) return PILHANGKO_INVALID;
    members = (pilhangko_plan_resource *)zeroed(transient->place_count, sizeof *members);
    offsets = (uint64_t *)zeroed(transient->place_count, sizeof *offsets);
    found = (size_t *)zeroed(transient->place_count, sizeof *found);
    if (members && offsets && found)
        status = reused_members(transient, transient->places[index].set, index, members, offsets, found, &count);
    if (status == PILHANGKO_OK) {
        tell_places(transient, transient->places[index].set, found, count, reused, room);
        *reused_count = count;
    }
    free(members);
    free(offsets);
    free(found);
    return status;
}

pilhangko_status PILHANGKO_CALL pilhangko_vulkan_destroy_transient(pilhangko_vulkan *vulkan, pilhangko_vulkan_transient *transient) {
    pilhangko_vulkan_device device;
    pilhangko_status status;
    if (!vulkan || !transient) return PILHANGKO_NULL_POINTER;
    status = pilhangko_vulkan_read_device(vulkan, &device);
    if (status != PILHANGKO_OK) return status;
    for (size_t s = 0; s < transient->set_count; s++) {
        bool is_live = false;
        status = pilhangko_vulkan_is_live(vulkan, &transient->sets[s].allocation, &is_live);
        if (status != PILHANGKO_OK) return status;
        if (!is_live) return PILHANGKO_NOT_LIVE;
    }
    undo(vulkan, &device, transient);
    return PILHANGKO_OK;
}
