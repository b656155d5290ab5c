/* Buffers and images with memory, by Pilhangko's Vulkan binding (include/pilhangko_vulkan.h): compile it with c/pilhangko_vulkan.c, as C11 or as
 * C++11. */
#include "pilhangko_vulkan_resource.h"
#include "pilhangko_vulkan_request.h"

/* The binding that a call is of, and its device. */
struct home {
    pilhangko_vulkan *vulkan;
    pilhangko_vulkan_device device;
};

static pilhangko_status find_home(pilhangko_vulkan *vulkan, struct home *home) {
    home->vulkan = vulkan;
    return pilhangko_vulkan_read_device(vulkan, &home->device);
}

/* Allocates memory for a resource: its own where that is asked for or the driver requires it, and where the driver prefers it and there is
 * such memory. */
static pilhangko_vulkan_result allocate_for(const struct home *home, const struct resource *r, pilhangko_kind kind,
    const pilhangko_vulkan_placement *placement, pilhangko_vulkan_allocation *allocation) {
    pilhangko_vulkan_request request = request_for(placement);
    pilhangko_vulkan_result first, second;
    VkMemoryDedicatedRequirements alone;
    bool may_share;
    alone = requirements_of(&home->device, r, &request.requirements);
    may_share = !placement->dedicated && !placement->next && placement->location != PILHANGKO_VULKAN_LOCATION_TRANSIENT &&
                !alone.requiresDedicatedAllocation;
    request.kind = kind;
    if (!may_share || alone.prefersDedicatedAllocation) request.scheme = is_image(r) ? PILHANGKO_SCHEME_IMAGE : PILHANGKO_SCHEME_BUFFER;
    request.buffer = r->buffer;
    request.image = r->image;
    first = pilhangko_vulkan_allocate(home->vulkan, &request, allocation);
    if (first.status == PILHANGKO_OK || first.status == PILHANGKO_HOST_OUT_OF_MEMORY) return first;
    if (!may_share || request.scheme == PILHANGKO_SCHEME_MANAGED) return first;
    request.scheme = PILHANGKO_SCHEME_MANAGED;
    second = pilhangko_vulkan_allocate(home->vulkan, &request, allocation);
    return result_of(second.status, second.driver != VK_SUCCESS ? second.driver : first.driver);
}

/* Gives a resource memory and binds it; destroys it where that fails. */
static pilhangko_vulkan_result place(const struct home *home, const struct resource *r, pilhangko_kind kind,
    const pilhangko_vulkan_placement *placement, pilhangko_vulkan_allocation *allocation) {
    pilhangko_vulkan_allocation made;
    pilhangko_vulkan_result result = allocate_for(home, r, kind, placement, &made);
    if (result.status != PILHANGKO_OK) {
        destroy_resource(&home->device, r);
        return result;
    }
    result = bind_resource(&home->device, r, made.memory, made.offset);
    if (result.status != PILHANGKO_OK) {
        pilhangko_status freed;
        destroy_resource(&home->device, r);
        freed = pilhangko_vulkan_free(home->vulkan, &made);
        (void)freed; /* it is live */
        return result;
    }
    *allocation = made;
    return result;
}

pilhangko_vulkan_result PILHANGKO_CALL pilhangko_vulkan_create_buffer(pilhangko_vulkan *vulkan, const VkBufferCreateInfo *info,
    const pilhangko_vulkan_placement *placement, VkBuffer *buffer, pilhangko_vulkan_allocation *allocation) {
    struct resource made = {VK_NULL_HANDLE, VK_NULL_HANDLE};
    struct home home;
    pilhangko_vulkan_result result;
    if (!vulkan || !info || !placement || !buffer || !allocation) return undriven(PILHANGKO_NULL_POINTER);
    result = undriven(find_home(vulkan, &home));
    if (result.status != PILHANGKO_OK) return result;
    if (!is_bindable_buffer(info)) return undriven(PILHANGKO_INVALID);
    result = make_buffer(&home.device, info, &made);
    if (result.status != PILHANGKO_OK) return result;
    result = place(&home, &made, PILHANGKO_KIND_LINEAR, placement, allocation);
    if (result.status == PILHANGKO_OK) *buffer = made.buffer;
    return result;
}

pilhangko_vulkan_result PILHANGKO_CALL pilhangko_vulkan_create_image(pilhangko_vulkan *vulkan, const VkImageCreateInfo *info,
    const pilhangko_vulkan_placement *placement, VkImage *image, pilhangko_vulkan_allocation *allocation) {
    struct resource made = {VK_NULL_HANDLE, VK_NULL_HANDLE};
    struct home home;
    pilhangko_vulkan_result result;
    if (!vulkan || !info || !placement || !image || !allocation) return undriven(PILHANGKO_NULL_POINTER);
    result = undriven(find_home(vulkan, &home));
    if (result.status != PILHANGKO_OK) return result;
    if (!is_bindable_image(info)) return undriven(PILHANGKO_INVALID);
    result = make_image(&home.device, info, &made);
    if (result.status != PILHANGKO_OK) return result;
    result = place(&home, &made, kind_of_image(info), placement, allocation);
    if (result.status == PILHANGKO_OK) *image = made.image;
    return result;
}

/* The resource goes before its memory, as the driver wants it. */
static pilhangko_status destroy_placed(
    pilhangko_vulkan *vulkan, const struct resource *r, const pilhangko_vulkan_allocation *allocation) {
    struct home home;
    bool is_live = false;
    pilhangko_status status = find_home(vulkan, &home);
    if (status == PILHANGKO_OK) status = pilhangko_vulkan_is_live(vulkan, allocation, &is_live);
    if (status != PILHANGKO_OK) return status;
    if (!is_live) return PILHANGKO_NOT_LIVE;
    destroy_resource(&home.device, r);
    return pilhangko_vulkan_free(vulkan, allocation);
}

pilhangko_status PILHANGKO_CALL pilhangko_vulkan_destroy_buffer(
    pilhangko_vulkan *vulkan, VkBuffer buffer, const pilhangko_vulkan_allocation *allocation) {
    struct resource gone = {buffer, VK_NULL_HANDLE};
    if (!vulkan || buffer == VK_NULL_HANDLE || !allocation) return PILHANGKO_NULL_POINTER;
    return destroy_placed(vulkan, &gone, allocation);
}

pilhangko_status PILHANGKO_CALL pilhangko_vulkan_destroy_image(
    pilhangko_vulkan *vulkan, VkImage image, const pilhangko_vulkan_allocation *allocation) {
    struct resource gone = {VK_NULL_HANDLE, image};
    if (!vulkan || image == VK_NULL_HANDLE || !allocation) return PILHANGKO_NULL_POINTER;
    return destroy_placed(vulkan, &gone, allocation);
}
