/* A Vulkan driver made of numbers. It grants memory, buffers and images, checks what Vulkan wants of its caller, and refuses the questions
 * that it is told to. A question is a call that may be refused: for memory, a mapping, a buffer, an image, a binding or a flush. */
#ifndef FAKE_VULKAN_H
#define FAKE_VULKAN_H
#include "pilhangko_vulkan.h"
#include "test.h"

#define FAKE_THINGS 1024
#define FAKE_ASKED 64
#define FAKE_ATOM 64
#define FAKE_GRANULARITY 1024

/* how a question is answered: by a grant, a code, or VK_SUCCESS with nothing */
enum fake_answer { FAKE_GRANTS, FAKE_REFUSES, FAKE_GIVES_NOTHING };

struct fake_memory {
    VkDeviceMemory handle;
    VkDeviceSize size;
    uint32_t type;
    bool mapped, has_address;
    uint64_t alone_for; /* the buffer or image, or 0 */
    unsigned char *bytes;
    VkMemoryAllocateFlags flags;
    float priority;                             /* 0 where none is chained */
    VkExternalMemoryHandleTypeFlags handle_types; /* for export, likewise */
};

struct fake_resource {
    uint64_t handle;
    bool is_image, is_alone, is_bound;
    VkMemoryRequirements needs;
};

/* the refusal of a question, counted from 1 */
struct fake_refusal {
    uint64_t question;
    enum fake_answer answer;
    VkResult code;
};

static struct {
    struct fake_memory memories[FAKE_THINGS];
    struct fake_resource resources[FAKE_THINGS];
    size_t memory_count, resource_count;
    uint64_t last_handle, questions;
    struct fake_refusal refusals[2];
    uint32_t type_bits; /* what buffers and images may take */
    uint32_t type_count, heap_count;
    VkDeviceSize atom, granularity, usage, budget;
    uint32_t most_memories; /* maxMemoryAllocationCount; 0 for no bound */
    uint64_t flushes, invalidations;
    VkMappedMemoryRange range; /* of the latest flush or invalidation */
    const void *callbacks_user;
    bool refuses_memory;          /* whether the device has none left */
    uint32_t asked[FAKE_ASKED];   /* of which memory types memory was asked for since asked_count was set to 0 */
    uint32_t asked_count;
} fake;

/* those of the device: `fake_begin` brings the usual ones */
static VkMemoryType fake_types[VK_MAX_MEMORY_TYPES];
static VkMemoryHeap fake_heaps[VK_MAX_MEMORY_HEAPS];

/* the device's own; the host's; both, in a small heap; the host's, cached and not coherent; the host's, cached */
static const VkMemoryType fake_usual_types[] = {{1, 0}, {6, 1}, {7, 2}, {10, 1}, {14, 1}};
static const VkMemoryHeap fake_usual_heaps[] = {{UINT64_C(1) << 30, 1}, {UINT64_C(1) << 29, 0}, {UINT64_C(24) << 20, 1}};

static inline void fake_begin(void) {
    CHECK(fake.memory_count == 0 && fake.resource_count == 0);
    memset(&fake, 0, sizeof fake);
    memcpy(fake_types, fake_usual_types, sizeof fake_usual_types);
    memcpy(fake_heaps, fake_usual_heaps, sizeof fake_usual_heaps);
    fake.type_bits = 31;
    fake.type_count = 5;
    fake.heap_count = 3;
    fake.atom = FAKE_ATOM;
    fake.granularity = FAKE_GRANULARITY;
}

static inline const struct fake_refusal *fake_refusal_of(uint64_t question) {
    for (size_t i = 0; i < 2; i++)
        if (fake.refusals[i].question == question && fake.refusals[i].answer != FAKE_GRANTS) return &fake.refusals[i];
    return NULL;
}

/* How the next question is answered; code is the driver's. */
static inline enum fake_answer fake_asked(VkResult *code) {
    const struct fake_refusal *refusal = fake_refusal_of(++fake.questions);
    *code = refusal && refusal->answer == FAKE_REFUSES ? refusal->code : VK_SUCCESS;
    return refusal ? refusal->answer : FAKE_GRANTS;
}

static inline void fake_callbacks(const VkAllocationCallbacks *callbacks) {
    CHECK((callbacks ? callbacks->pUserData : NULL) == fake.callbacks_user);
}

static inline struct fake_memory *fake_memory_of(VkDeviceMemory handle) {
    for (size_t i = 0; i < fake.memory_count; i++)
        if (fake.memories[i].handle == handle) return &fake.memories[i];
    CHECK(!"memory that is held");
    return NULL;
}

static inline struct fake_resource *fake_resource_of(uint64_t handle, bool is_image) {
    for (size_t i = 0; i < fake.resource_count; i++)
        if (fake.resources[i].handle == handle && fake.resources[i].is_image == is_image) return &fake.resources[i];
    CHECK(!"a buffer or image that exists");
    return NULL;
}

/* ---- memory */

static inline void fake_read_dedicated(const VkMemoryDedicatedAllocateInfo *alone, struct fake_memory *memory) {
    CHECK((alone->buffer == VK_NULL_HANDLE) != (alone->image == VK_NULL_HANDLE));
    memory->alone_for = alone->buffer ? (uint64_t)alone->buffer : (uint64_t)alone->image;
    CHECK(fake_resource_of(memory->alone_for, alone->image != VK_NULL_HANDLE)->needs.size == memory->size);
}

static inline void fake_read_flags(const VkMemoryAllocateFlagsInfo *info, struct fake_memory *memory) {
    CHECK((info->flags & VK_MEMORY_ALLOCATE_DEVICE_ADDRESS_BIT) && info->deviceMask == 0);
    memory->flags = info->flags;
    memory->has_address = true;
}

/* Reads a struct of the chain; returns a bit of its own for each that may be there. */
static inline unsigned fake_read_struct(const VkBaseInStructure *it, struct fake_memory *memory) {
    switch (it->sType) {
    case VK_STRUCTURE_TYPE_MEMORY_DEDICATED_ALLOCATE_INFO:
        fake_read_dedicated((const VkMemoryDedicatedAllocateInfo *)it, memory);
        return 1;
    case VK_STRUCTURE_TYPE_MEMORY_ALLOCATE_FLAGS_INFO:
        fake_read_flags((const VkMemoryAllocateFlagsInfo *)it, memory);
        return 2;
    case VK_STRUCTURE_TYPE_MEMORY_PRIORITY_ALLOCATE_INFO_EXT:
        memory->priority = ((const VkMemoryPriorityAllocateInfoEXT *)it)->priority;
        return 4;
    case VK_STRUCTURE_TYPE_EXPORT_MEMORY_ALLOCATE_INFO:
        memory->handle_types = ((const VkExportMemoryAllocateInfo *)it)->handleTypes;
        return 8;
    default: CHECK(!"a struct that may be chained"); return 0;
    }
}

/* No struct is chained twice. */
static inline void fake_read_chain(const VkMemoryAllocateInfo *info, struct fake_memory *memory) {
    unsigned read = 0;
    for (const VkBaseInStructure *it = (const VkBaseInStructure *)info->pNext; it; it = it->pNext) {
        const unsigned bit = fake_read_struct(it, memory);
        CHECK(!(read & bit));
        read |= bit;
    }
}

static VKAPI_ATTR VkResult VKAPI_CALL fake_allocate(
    VkDevice device, const VkMemoryAllocateInfo *info, const VkAllocationCallbacks *callbacks, VkDeviceMemory *memory) {
    struct fake_memory made = {.size = info->allocationSize, .type = info->memoryTypeIndex};
    VkResult code;
    enum fake_answer answer = fake_asked(&code);
    CHECK(device && info->sType == VK_STRUCTURE_TYPE_MEMORY_ALLOCATE_INFO && info->allocationSize > 0);
    CHECK(info->memoryTypeIndex < fake.type_count && fake.memory_count < FAKE_THINGS);
    CHECK(info->allocationSize <= fake_heaps[fake_types[info->memoryTypeIndex].heapIndex].size);
    CHECK(fake.most_memories == 0 || fake.memory_count < fake.most_memories);
    if (fake.asked_count < FAKE_ASKED) fake.asked[fake.asked_count++] = info->memoryTypeIndex;
    fake_callbacks(callbacks);
    fake_read_chain(info, &made);
    if (fake.refuses_memory) return VK_ERROR_OUT_OF_DEVICE_MEMORY;
    if (answer != FAKE_GRANTS) return code;
    made.handle = (VkDeviceMemory)++fake.last_handle;
    fake.memories[fake.memory_count++] = made;
    *memory = made.handle;
    return VK_SUCCESS;
}

static VKAPI_ATTR void VKAPI_CALL fake_free(VkDevice device, VkDeviceMemory handle, const VkAllocationCallbacks *callbacks) {
    struct fake_memory *memory = fake_memory_of(handle);
    CHECK(device && !memory->mapped); /* unmapped before */
    fake_callbacks(callbacks);
    *memory = fake.memories[--fake.memory_count];
}

static VKAPI_ATTR VkResult VKAPI_CALL fake_map(
    VkDevice device, VkDeviceMemory handle, VkDeviceSize offset, VkDeviceSize size, VkMemoryMapFlags flags, void **bytes) {
    struct fake_memory *memory = fake_memory_of(handle);
    VkResult code;
    enum fake_answer answer = fake_asked(&code);
    CHECK(device && offset == 0 && size == VK_WHOLE_SIZE && flags == 0);
    CHECK(!memory->mapped && (fake_types[memory->type].propertyFlags & VK_MEMORY_PROPERTY_HOST_VISIBLE_BIT));
    if (answer == FAKE_REFUSES) return code;
    *bytes = NULL;
    if (answer != FAKE_GRANTS) return VK_SUCCESS; /* no address, and so no mapping that could be undone */
    memory->mapped = true;
    memory->bytes = calloc(1, memory->size);
    CHECK(memory->bytes);
    *bytes = memory->bytes;
    return VK_SUCCESS;
}

static VKAPI_ATTR void VKAPI_CALL fake_unmap(VkDevice device, VkDeviceMemory handle) {
    struct fake_memory *memory = fake_memory_of(handle);
    CHECK(device && memory->mapped);
    memory->mapped = false;
    free(memory->bytes);
    memory->bytes = NULL;
}

static inline VkResult fake_range(VkDevice device, uint32_t count, const VkMappedMemoryRange *range) {
    const struct fake_memory *memory = fake_memory_of(range->memory);
    VkResult code;
    enum fake_answer answer = fake_asked(&code);
    CHECK(device && count == 1 && range->sType == VK_STRUCTURE_TYPE_MAPPED_MEMORY_RANGE && !range->pNext && memory->mapped);
    CHECK(range->size > 0 && range->size <= memory->size && range->offset <= memory->size - range->size);
    CHECK(range->offset % fake.atom == 0 && (range->size % fake.atom == 0 || range->offset + range->size == memory->size));
    CHECK(!(fake_types[memory->type].propertyFlags & VK_MEMORY_PROPERTY_HOST_COHERENT_BIT));
    fake.range = *range;
    return answer == FAKE_GRANTS ? VK_SUCCESS : code ? code : VK_ERROR_OUT_OF_HOST_MEMORY;
}

static VKAPI_ATTR VkResult VKAPI_CALL fake_flush(VkDevice device, uint32_t count, const VkMappedMemoryRange *ranges) {
    fake.flushes++;
    return fake_range(device, count, ranges);
}

static VKAPI_ATTR VkResult VKAPI_CALL fake_invalidate(VkDevice device, uint32_t count, const VkMappedMemoryRange *ranges) {
    fake.invalidations++;
    return fake_range(device, count, ranges);
}

/* ---- buffers and images: what they need follows from their bytes alone */

static inline VkMemoryRequirements fake_needs(VkDeviceSize bytes) {
    VkMemoryRequirements needs = {(bytes + 15) / 16 * 16, UINT64_C(16) << bytes % 9, fake.type_bits};
    return needs;
}
static inline bool fake_requires_dedicated(VkDeviceSize bytes) {
    return bytes % 31 == 0;
}
static inline bool fake_prefers_dedicated(VkDeviceSize bytes) {
    return bytes % 29 == 0;
}

static inline VkResult fake_make(bool is_image, VkDeviceSize bytes, const VkAllocationCallbacks *callbacks, uint64_t *handle) {
    VkResult code;
    enum fake_answer answer = fake_asked(&code);
    fake_callbacks(callbacks);
    CHECK(fake.resource_count < FAKE_THINGS);
    if (answer != FAKE_GRANTS) return code;
    struct fake_resource made = {
        ++fake.last_handle, is_image, fake_requires_dedicated(bytes) || fake_prefers_dedicated(bytes), false, fake_needs(bytes)};
    fake.resources[fake.resource_count++] = made;
    *handle = made.handle;
    return VK_SUCCESS;
}

static VKAPI_ATTR VkResult VKAPI_CALL fake_create_buffer(
    VkDevice device, const VkBufferCreateInfo *info, const VkAllocationCallbacks *callbacks, VkBuffer *buffer) {
    uint64_t handle = 0;
    CHECK(device && info->sType == VK_STRUCTURE_TYPE_BUFFER_CREATE_INFO);
    VkResult code = fake_make(false, info->size, callbacks, &handle);
    if (handle) *buffer = (VkBuffer)handle;
    return code;
}

static VKAPI_ATTR VkResult VKAPI_CALL fake_create_image(
    VkDevice device, const VkImageCreateInfo *info, const VkAllocationCallbacks *callbacks, VkImage *image) {
    uint64_t handle = 0;
    CHECK(device && info->sType == VK_STRUCTURE_TYPE_IMAGE_CREATE_INFO);
    VkResult code = fake_make(true, info->extent.width, callbacks, &handle);
    if (handle) *image = (VkImage)handle;
    return code;
}

static inline void fake_destroy(uint64_t handle, bool is_image, const VkAllocationCallbacks *callbacks) {
    fake_callbacks(callbacks);
    *fake_resource_of(handle, is_image) = fake.resources[fake.resource_count - 1];
    fake.resource_count--;
}
static VKAPI_ATTR void VKAPI_CALL fake_destroy_buffer(VkDevice device, VkBuffer buffer, const VkAllocationCallbacks *callbacks) {
    CHECK(device);
    fake_destroy((uint64_t)buffer, false, callbacks);
}
static VKAPI_ATTR void VKAPI_CALL fake_destroy_image(VkDevice device, VkImage image, const VkAllocationCallbacks *callbacks) {
    CHECK(device);
    fake_destroy((uint64_t)image, true, callbacks);
}

static inline void fake_tell_needs(const struct fake_resource *resource, VkMemoryRequirements2 *needs) {
    VkMemoryDedicatedRequirements *alone = (VkMemoryDedicatedRequirements *)needs->pNext;
    CHECK(needs->sType == VK_STRUCTURE_TYPE_MEMORY_REQUIREMENTS_2);
    CHECK(alone && alone->sType == VK_STRUCTURE_TYPE_MEMORY_DEDICATED_REQUIREMENTS && !alone->pNext);
    needs->memoryRequirements = resource->needs;
    alone->requiresDedicatedAllocation = resource->is_alone && resource->handle % 2 == 0;
    alone->prefersDedicatedAllocation = resource->is_alone && resource->handle % 2 == 1;
}
static VKAPI_ATTR void VKAPI_CALL fake_buffer_needs(VkDevice device, VkBuffer buffer, VkMemoryRequirements *needs) {
    CHECK(device);
    *needs = fake_resource_of((uint64_t)buffer, false)->needs;
}
static VKAPI_ATTR void VKAPI_CALL fake_image_needs(VkDevice device, VkImage image, VkMemoryRequirements *needs) {
    CHECK(device);
    *needs = fake_resource_of((uint64_t)image, true)->needs;
}
static VKAPI_ATTR void VKAPI_CALL fake_buffer_needs_2(
    VkDevice device, const VkBufferMemoryRequirementsInfo2 *info, VkMemoryRequirements2 *needs) {
    CHECK(device && info->sType == VK_STRUCTURE_TYPE_BUFFER_MEMORY_REQUIREMENTS_INFO_2);
    fake_tell_needs(fake_resource_of((uint64_t)info->buffer, false), needs);
}
static VKAPI_ATTR void VKAPI_CALL fake_image_needs_2(
    VkDevice device, const VkImageMemoryRequirementsInfo2 *info, VkMemoryRequirements2 *needs) {
    CHECK(device && info->sType == VK_STRUCTURE_TYPE_IMAGE_MEMORY_REQUIREMENTS_INFO_2);
    fake_tell_needs(fake_resource_of((uint64_t)info->image, true), needs);
}

static inline VkResult fake_bind(uint64_t handle, bool is_image, VkDeviceMemory memory_handle, VkDeviceSize offset) {
    struct fake_resource *resource = fake_resource_of(handle, is_image);
    const struct fake_memory *memory = fake_memory_of(memory_handle);
    VkResult code;
    enum fake_answer answer = fake_asked(&code);
    CHECK(!resource->is_bound && offset % resource->needs.alignment == 0 && (resource->needs.memoryTypeBits >> memory->type & 1));
    CHECK(resource->needs.size <= memory->size && offset <= memory->size - resource->needs.size);
    CHECK(!memory->alone_for || (memory->alone_for == handle && offset == 0));
    if (answer != FAKE_GRANTS) return code ? code : VK_ERROR_OUT_OF_HOST_MEMORY;
    resource->is_bound = true;
    return VK_SUCCESS;
}
static VKAPI_ATTR VkResult VKAPI_CALL fake_bind_buffer(VkDevice device, VkBuffer buffer, VkDeviceMemory memory, VkDeviceSize offset) {
    CHECK(device);
    return fake_bind((uint64_t)buffer, false, memory, offset);
}
static VKAPI_ATTR VkResult VKAPI_CALL fake_bind_image(VkDevice device, VkImage image, VkDeviceMemory memory, VkDeviceSize offset) {
    CHECK(device);
    return fake_bind((uint64_t)image, true, memory, offset);
}

/* ---- the device */

static VKAPI_ATTR void VKAPI_CALL fake_properties(VkPhysicalDevice device, VkPhysicalDeviceProperties *properties) {
    CHECK(device);
    memset(properties, 0, sizeof *properties);
    properties->limits.bufferImageGranularity = fake.granularity;
    properties->limits.nonCoherentAtomSize = fake.atom;
    properties->limits.maxMemoryAllocationCount = fake.most_memories;
}

static VKAPI_ATTR void VKAPI_CALL fake_memory_properties(VkPhysicalDevice device, VkPhysicalDeviceMemoryProperties *properties) {
    CHECK(device);
    memset(properties, 0, sizeof *properties);
    properties->memoryTypeCount = fake.type_count;
    properties->memoryHeapCount = fake.heap_count;
    memcpy(properties->memoryTypes, fake_types, sizeof fake_types);
    memcpy(properties->memoryHeaps, fake_heaps, sizeof fake_heaps);
}

static VKAPI_ATTR void VKAPI_CALL fake_memory_properties_2(VkPhysicalDevice device, VkPhysicalDeviceMemoryProperties2 *properties) {
    VkPhysicalDeviceMemoryBudgetPropertiesEXT *budgets = (VkPhysicalDeviceMemoryBudgetPropertiesEXT *)properties->pNext;
    CHECK(device && properties->sType == VK_STRUCTURE_TYPE_PHYSICAL_DEVICE_MEMORY_PROPERTIES_2);
    CHECK(budgets && budgets->sType == VK_STRUCTURE_TYPE_PHYSICAL_DEVICE_MEMORY_BUDGET_PROPERTIES_EXT && !budgets->pNext);
    for (unsigned i = 0; i < 3; i++) {
        budgets->heapUsage[i] = fake.usage + i;
        budgets->heapBudget[i] = fake.budget;
    }
}

static const pilhangko_vulkan_functions fake_functions = {fake_properties, fake_memory_properties, fake_allocate, fake_free, fake_map,
    fake_unmap, fake_flush, fake_invalidate, fake_create_buffer, fake_destroy_buffer, fake_buffer_needs, fake_bind_buffer,
    fake_create_image, fake_destroy_image, fake_image_needs, fake_bind_image, fake_buffer_needs_2, fake_image_needs_2,
    fake_memory_properties_2};

/* Settings over the fake device: blocks of 4 MB, on the host's side doubling up to 8 MB. */
static inline pilhangko_vulkan_settings fake_settings(void) {
    pilhangko_vulkan_settings settings;
    memset(&settings, 0, sizeof settings);
    settings.physical_device = (VkPhysicalDevice)(uintptr_t)1;
    settings.device = (VkDevice)(uintptr_t)2;
    settings.functions = &fake_functions;
    settings.api_version = VK_API_VERSION_1_1;
    settings.device_block_size = settings.host_block_size = UINT64_C(4) << 20;
    settings.largest_host_block_size = UINT64_C(8) << 20;
    return settings;
}

/* A binding over the device as it begins. */
static inline pilhangko_vulkan fake_binding(void) {
    pilhangko_vulkan vulkan = {0};
    const pilhangko_vulkan_settings settings = fake_settings();
    fake_begin();
    IS(pilhangko_vulkan_create(&vulkan, &settings), PILHANGKO_OK);
    return vulkan;
}

/* A request for memory that may be shared, of one of these types, wherever it is. */
static inline pilhangko_vulkan_request fake_request(VkDeviceSize size, VkDeviceSize alignment, uint32_t bits) {
    pilhangko_vulkan_request request;
    memset(&request, 0, sizeof request);
    request.requirements.size = size;
    request.requirements.alignment = alignment;
    request.requirements.memoryTypeBits = bits;
    request.location = PILHANGKO_LOCATION_UNKNOWN;
    request.kind = PILHANGKO_KIND_LINEAR;
    request.scheme = PILHANGKO_SCHEME_MANAGED;
    return request;
}
#endif
