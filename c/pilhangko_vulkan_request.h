/* What a request of Pilhangko's Vulkan binding asks of the allocator. Not for its users. */
#ifndef PILHANGKO_VULKAN_REQUEST_H
#define PILHANGKO_VULKAN_REQUEST_H

#include "pilhangko_vulkan.h"

/* What the allocator is asked for, and the chain that goes with the questions to the driver. */
struct wanted {
    pilhangko_allocator_request asks;
    bool by_flags;
    pilhangko_preference preference; /* it counts by flags */
    const void *next;
    const char *name;
};

/* What a placement asks for, of memory that may be shared. */
static inline pilhangko_vulkan_request request_for(const pilhangko_vulkan_placement *placement) {
    pilhangko_vulkan_request request;
    memset(&request, 0, sizeof request);
    request.location = placement->location;
    request.scheme = PILHANGKO_SCHEME_MANAGED;
    request.name = placement->name;
    request.minimal_alignment = placement->minimal_alignment;
    request.memory_type_bits = placement->memory_type_bits;
    request.next = placement->next;
    request.required_flags = placement->required_flags;
    request.preferred_flags = placement->preferred_flags;
    request.avoided_flags = placement->avoided_flags;
    request.never_allocate = placement->never_allocate;
    request.user_data = placement->user_data;
    return request;
}

static inline bool is_power_of_two(VkDeviceSize n) {
    return n != 0 && (n & (n - 1)) == 0;
}

/* Whether a memory type that the bits allow needs flushes. */
static inline bool may_need_flushes(const VkPhysicalDeviceMemoryProperties *p, uint32_t bits) {
    const VkMemoryPropertyFlags both = VK_MEMORY_PROPERTY_HOST_VISIBLE_BIT | VK_MEMORY_PROPERTY_HOST_COHERENT_BIT;
    for (uint32_t i = 0; i < p->memoryTypeCount; i++)
        if ((bits >> i & 1) && (p->memoryTypes[i].propertyFlags & both) == VK_MEMORY_PROPERTY_HOST_VISIBLE_BIT) return true;
    return false;
}

/* The greater of two alignments, where the second isn't 0, which is none. 0, which the allocator refuses, where one is no power of two. */
static inline VkDeviceSize greater_alignment(VkDeviceSize needed, VkDeviceSize wanted) {
    if (wanted == 0) return needed;
    if (!is_power_of_two(needed) || !is_power_of_two(wanted)) return 0;
    return needed > wanted ? needed : wanted;
}

/* Whether flags choose the memory, in place of the location or for one of this binding's, and which. INVALID where both are told. */
static inline pilhangko_status choose(const pilhangko_vulkan_request *request, struct wanted *wanted) {
    const bool is_staging = request->location == PILHANGKO_VULKAN_LOCATION_STAGING,
               is_transient = request->location == PILHANGKO_VULKAN_LOCATION_TRANSIENT,
               has_flags = request->required_flags || request->preferred_flags || request->avoided_flags;
    pilhangko_preference *flags = &wanted->preference;
    if ((is_staging || is_transient) && has_flags) return PILHANGKO_INVALID;
    wanted->by_flags = is_staging || is_transient || has_flags || request->never_allocate;
    flags->required = request->required_flags;
    flags->preferred = request->preferred_flags;
    flags->avoided = request->avoided_flags;
    flags->never_allocate = request->never_allocate;
    wanted->asks.location = request->location;
    if (!wanted->by_flags) return PILHANGKO_OK;
    wanted->asks.location = PILHANGKO_LOCATION_UNKNOWN;
    if (is_staging) flags->required = VK_MEMORY_PROPERTY_HOST_VISIBLE_BIT | VK_MEMORY_PROPERTY_HOST_COHERENT_BIT;
    if (is_staging) flags->avoided = VK_MEMORY_PROPERTY_DEVICE_LOCAL_BIT | VK_MEMORY_PROPERTY_HOST_CACHED_BIT;
    if (is_transient) flags->required = VK_MEMORY_PROPERTY_DEVICE_LOCAL_BIT;
    if (is_transient) flags->preferred = VK_MEMORY_PROPERTY_LAZILY_ALLOCATED_BIT; /* which the driver allows for transient attachments alone */
    return is_staging || is_transient || request->location <= PILHANGKO_LOCATION_UNKNOWN ? PILHANGKO_OK : PILHANGKO_INVALID;
}

/* The memory types for which a feature has to be enabled, which these flags don't speak of. */
static inline uint32_t unspoken_types(const VkPhysicalDeviceMemoryProperties *p, VkMemoryPropertyFlags spoken) {
    const VkMemoryPropertyFlags by_feature =
        VK_MEMORY_PROPERTY_PROTECTED_BIT | VK_MEMORY_PROPERTY_DEVICE_COHERENT_BIT_AMD | VK_MEMORY_PROPERTY_RDMA_CAPABLE_BIT_NV;
    uint32_t bits = 0;
    for (uint32_t i = 0; i < p->memoryTypeCount; i++)
        if (p->memoryTypes[i].propertyFlags & by_feature & ~spoken) bits |= UINT32_C(1) << i;
    return bits;
}

/* The memory types that serve by flags: those that have all required ones. */
static inline uint32_t serving_types(const VkPhysicalDeviceMemoryProperties *p, const pilhangko_preference *flags) {
    uint32_t bits = 0;
    for (uint32_t i = 0; i < p->memoryTypeCount; i++)
        if ((p->memoryTypes[i].propertyFlags & flags->required) == flags->required) bits |= UINT32_C(1) << i;
    return bits & ~unspoken_types(p, flags->required | flags->preferred);
}

/* What the allocator is asked for, of these memory types. Memory with a chain, and a transient one, is a piece's own: for a buffer alone that isn't
 * named, where no resource is. */
static inline pilhangko_status asks_for(const VkPhysicalDeviceMemoryProperties *p, VkDeviceSize atom, uint32_t type_bits,
    const pilhangko_vulkan_request *request, struct wanted *wanted) {
    const bool for_buffer = request->scheme == PILHANGKO_SCHEME_BUFFER, for_image = request->scheme == PILHANGKO_SCHEME_IMAGE;
    pilhangko_allocator_request *asks = &wanted->asks;
    const bool is_alone = request->next || request->location == PILHANGKO_VULKAN_LOCATION_TRANSIENT;
    if ((for_buffer && request->buffer == VK_NULL_HANDLE) || (for_image && request->image == VK_NULL_HANDLE)) return PILHANGKO_INVALID;
    if (choose(request, wanted) != PILHANGKO_OK) return PILHANGKO_INVALID;
    wanted->next = request->next;
    wanted->name = request->name;
    asks->size = request->requirements.size;
    asks->alignment = greater_alignment(request->requirements.alignment, request->minimal_alignment);
    asks->memory_type_bits = request->requirements.memoryTypeBits & type_bits;
    if (request->memory_type_bits != 0) asks->memory_type_bits &= request->memory_type_bits;
    if (wanted->by_flags) asks->memory_type_bits &= ~unspoken_types(p, wanted->preference.required | wanted->preference.preferred);
    asks->kind = request->kind;
    asks->scheme = is_alone && request->scheme == PILHANGKO_SCHEME_MANAGED ? PILHANGKO_SCHEME_BUFFER : request->scheme;
    asks->resource = for_buffer ? (uint64_t)request->buffer : for_image ? (uint64_t)request->image : 0;
    if (asks->alignment < atom && is_power_of_two(asks->alignment) && may_need_flushes(p, asks->memory_type_bits))
        asks->alignment = atom;
    return PILHANGKO_OK;
}

#endif
