/* 1,000 real buffers and images on a Vulkan device, placed by Pilhangko: the library says where each lies and which block is needed, and
 * this program asks the driver. Each is written through the mapping, read back, and freed in random order. Exit 0 where every byte
 * held, nothing is left and the validation layer, where it is installed, had nothing to say. */
#include "pilhangko.h"
#include <stdio.h>
#include <stdlib.h>
#include <string.h>
#include <vulkan/vulkan.h>

#define RESOURCES 1000
#define BLOCKS 4096
#define MB (UINT64_C(1) << 20)

static void fail(const char *what, long code) {
    fprintf(stderr, "failed: %s (%ld)\n", what, code);
    exit(1);
}
#define VK(call) \
    do { \
        VkResult result_ = (call); \
        if (result_ != VK_SUCCESS) fail(#call, result_); \
    } while (0)
#define PILHANGKO(call) \
    do { \
        pilhangko_status status_ = (call); \
        if (status_ != PILHANGKO_OK) fail(pilhangko_status_text(status_), (long)status_); \
    } while (0)

/* A block: the driver's memory, mapped as a whole. Its address is the handle that the library keeps. */
struct block {
    VkDeviceMemory memory;
    unsigned char *bytes;
    bool live;
};

/* A buffer or an image, where it lies, and the byte that all of its own are. */
struct resource {
    VkBuffer buffer;
    VkImage image;
    uint32_t type;
    pilhangko_memory_piece piece;
    unsigned char pattern;
};

static VkInstance instance;
static VkDebugUtilsMessengerEXT messenger;
static VkPhysicalDevice physical_device;
static VkDevice device;
static VkPhysicalDeviceMemoryProperties memory_properties;
static VkDeviceSize granularity;

static pilhangko_memory_type memory_types[VK_MAX_MEMORY_TYPES];
static struct block blocks[BLOCKS];
static struct resource resources[RESOURCES];
static unsigned live_blocks, most_blocks, made_blocks, own_blocks, messages;

/* splitmix64: the same sizes and the same order on each run */
static uint64_t random_state = 42;
static uint64_t random_below(uint64_t n) {
    uint64_t z = (random_state += 0x9E3779B97F4A7C15u);
    z = (z ^ (z >> 30)) * 0xBF58476D1CE4E5B9u;
    z = (z ^ (z >> 27)) * 0x94D049BB133111EBu;
    return (z ^ (z >> 31)) % n;
}

/* ---- the device ---- */

static VKAPI_ATTR VkBool32 VKAPI_CALL reported(VkDebugUtilsMessageSeverityFlagBitsEXT severity, VkDebugUtilsMessageTypeFlagsEXT kind,
    const VkDebugUtilsMessengerCallbackDataEXT *data, void *user) {
    (void)severity, (void)kind, (void)user;
    messages++;
    fprintf(stderr, "validation: %s\n", data->pMessage);
    return VK_FALSE;
}

static const char *const validation_layer = "VK_LAYER_KHRONOS_validation";

static bool has_validation(void) {
    uint32_t count = 0;
    bool found = false;
    VK(vkEnumerateInstanceLayerProperties(&count, NULL));
    VkLayerProperties *layers = (VkLayerProperties *)calloc(count ? count : 1, sizeof *layers);
    if (!layers) fail("host memory", 0);
    VK(vkEnumerateInstanceLayerProperties(&count, layers));
    for (uint32_t i = 0; i < count; i++) found |= !strcmp(layers[i].layerName, validation_layer);
    free(layers);
    return found;
}

static void make_instance(bool validates) {
    const char *extension = VK_EXT_DEBUG_UTILS_EXTENSION_NAME;
    VkDebugUtilsMessengerCreateInfoEXT listens = {
        .sType = VK_STRUCTURE_TYPE_DEBUG_UTILS_MESSENGER_CREATE_INFO_EXT, .pfnUserCallback = reported};
    listens.messageSeverity = VK_DEBUG_UTILS_MESSAGE_SEVERITY_WARNING_BIT_EXT | VK_DEBUG_UTILS_MESSAGE_SEVERITY_ERROR_BIT_EXT;
    listens.messageType = VK_DEBUG_UTILS_MESSAGE_TYPE_VALIDATION_BIT_EXT;
    VkApplicationInfo application = {.sType = VK_STRUCTURE_TYPE_APPLICATION_INFO, .apiVersion = VK_API_VERSION_1_1};
    VkInstanceCreateInfo info = {.sType = VK_STRUCTURE_TYPE_INSTANCE_CREATE_INFO, .pApplicationInfo = &application};
    if (validates) {
        info.pNext = &listens;
        info.enabledLayerCount = info.enabledExtensionCount = 1;
        info.ppEnabledLayerNames = &validation_layer;
        info.ppEnabledExtensionNames = &extension;
    }
    VK(vkCreateInstance(&info, NULL, &instance));
    if (!validates) return;
    PFN_vkCreateDebugUtilsMessengerEXT create =
        (PFN_vkCreateDebugUtilsMessengerEXT)vkGetInstanceProcAddr(instance, "vkCreateDebugUtilsMessengerEXT");
    VK(create(instance, &listens, NULL, &messenger));
}

static void make_device(bool validates) {
    uint32_t count = 1;
    VkResult found = vkEnumeratePhysicalDevices(instance, &count, &physical_device);
    if ((found != VK_SUCCESS && found != VK_INCOMPLETE) || count == 0) fail("no device", found);
    VkPhysicalDeviceProperties properties;
    vkGetPhysicalDeviceProperties(physical_device, &properties);
    vkGetPhysicalDeviceMemoryProperties(physical_device, &memory_properties);
    granularity = properties.limits.bufferImageGranularity;
    float priority = 1;
    VkDeviceQueueCreateInfo queue = {.sType = VK_STRUCTURE_TYPE_DEVICE_QUEUE_CREATE_INFO, .queueCount = 1, .pQueuePriorities = &priority};
    VkDeviceCreateInfo info = {.sType = VK_STRUCTURE_TYPE_DEVICE_CREATE_INFO, .queueCreateInfoCount = 1, .pQueueCreateInfos = &queue};
    VK(vkCreateDevice(physical_device, &info, NULL, &device));
    printf("%s: %u memory types, bufferImageGranularity %llu, validation %s\n", properties.deviceName, memory_properties.memoryTypeCount,
        (unsigned long long)granularity, validates ? "on" : "off");
}

static void end_device(void) {
    vkDestroyDevice(device, NULL);
    if (messenger) {
        PFN_vkDestroyDebugUtilsMessengerEXT destroy =
            (PFN_vkDestroyDebugUtilsMessengerEXT)vkGetInstanceProcAddr(instance, "vkDestroyDebugUtilsMessengerEXT");
        destroy(instance, messenger, NULL);
    }
    vkDestroyInstance(instance, NULL);
}

/* ---- blocks ---- */

static struct block *new_block(uint32_t type, uint64_t size) {
    struct block *block = blocks;
    while (block < blocks + BLOCKS && block->live) block++;
    if (block == blocks + BLOCKS) fail("too many blocks", BLOCKS);
    VkMemoryAllocateInfo info = {.sType = VK_STRUCTURE_TYPE_MEMORY_ALLOCATE_INFO, .allocationSize = size, .memoryTypeIndex = type};
    if (vkAllocateMemory(device, &info, NULL, &block->memory) != VK_SUCCESS) return NULL;
    VK(vkMapMemory(device, block->memory, 0, VK_WHOLE_SIZE, 0, (void **)&block->bytes));
    block->live = true;
    made_blocks++;
    if (++live_blocks > most_blocks) most_blocks = live_blocks;
    return block;
}

static struct block *block_of(uint64_t handle) {
    return (struct block *)(uintptr_t)handle;
}

static void free_block(uint64_t handle) {
    struct block *block = block_of(handle);
    vkUnmapMemory(device, block->memory);
    vkFreeMemory(device, block->memory, NULL);
    block->live = false;
    live_blocks--;
}

/* A piece of a memory type: of a block that is there, or of a new one. */
static pilhangko_memory_piece place(uint32_t type, const pilhangko_memory_request *request, const char *name) {
    pilhangko_memory_prepared prepared;
    PILHANGKO(pilhangko_memory_type_prepare(&memory_types[type], request, name, &prepared));
    if (!prepared.needs_block) return prepared.piece;
    struct block *block = new_block(type, prepared.block_size);
    if (!block) {
        PILHANGKO(pilhangko_memory_type_abandon(&memory_types[type]));
        fail("the driver has no memory", (long)prepared.block_size);
    }
    own_blocks += prepared.dedicated;
    PILHANGKO(pilhangko_memory_type_install(&memory_types[type], (uint64_t)(uintptr_t)block, &prepared.piece));
    return prepared.piece;
}

/* ---- buffers and images ---- */

static void make_buffer(struct resource *r, VkMemoryRequirements *needs) {
    uint64_t size = random_below(100) == 0 ? 1 + random_below(9 * MB) : 1 + random_below(65536);
    VkBufferCreateInfo info = {.sType = VK_STRUCTURE_TYPE_BUFFER_CREATE_INFO,
        .size = size,
        .usage = VK_BUFFER_USAGE_TRANSFER_SRC_BIT | VK_BUFFER_USAGE_UNIFORM_BUFFER_BIT};
    VK(vkCreateBuffer(device, &info, NULL, &r->buffer));
    vkGetBufferMemoryRequirements(device, r->buffer, needs);
}

static void make_image(struct resource *r, VkImageTiling tiling, VkMemoryRequirements *needs) {
    VkImageCreateInfo info = {.sType = VK_STRUCTURE_TYPE_IMAGE_CREATE_INFO,
        .imageType = VK_IMAGE_TYPE_2D,
        .format = VK_FORMAT_R8G8B8A8_UNORM,
        .mipLevels = 1,
        .arrayLayers = 1,
        .samples = VK_SAMPLE_COUNT_1_BIT,
        .tiling = tiling,
        .usage = VK_IMAGE_USAGE_TRANSFER_SRC_BIT | VK_IMAGE_USAGE_TRANSFER_DST_BIT};
    info.extent.width = 1 + (uint32_t)random_below(200);
    info.extent.height = 1 + (uint32_t)random_below(200);
    info.extent.depth = 1;
    VK(vkCreateImage(device, &info, NULL, &r->image));
    vkGetImageMemoryRequirements(device, r->image, needs);
}

static uint32_t type_for(uint32_t bits) {
    const VkMemoryPropertyFlags wanted = VK_MEMORY_PROPERTY_HOST_VISIBLE_BIT | VK_MEMORY_PROPERTY_HOST_COHERENT_BIT;
    for (uint32_t type = 0; type < memory_properties.memoryTypeCount; type++)
        if ((bits >> type & 1) && (memory_properties.memoryTypes[type].propertyFlags & wanted) == wanted) return type;
    fail("no memory type that the host can see", (long)bits);
    return 0;
}

/* A third of the resources are images, half of these in the device's own layout; one in fifty asks for a block of its own. */
static void make(unsigned i) {
    struct resource *r = &resources[i];
    VkMemoryRequirements needs;
    memset(r, 0, sizeof *r);
    if (i % 3) make_buffer(r, &needs);
    else make_image(r, i % 2 ? VK_IMAGE_TILING_LINEAR : VK_IMAGE_TILING_OPTIMAL, &needs);
    bool own_layout = i % 3 == 0 && i % 2 == 0;
    char name[32];
    snprintf(name, sizeof name, "%s %u", r->buffer ? "buffer" : "image", i);
    pilhangko_memory_request request = {.size = needs.size,
        .alignment = needs.alignment,
        .kind = own_layout ? PILHANGKO_KIND_NON_LINEAR : PILHANGKO_KIND_LINEAR,
        .dedicated = random_below(50) == 0};
    r->type = type_for(needs.memoryTypeBits);
    r->piece = place(r->type, &request, name);
    struct block *block = block_of(r->piece.block);
    if (r->buffer) VK(vkBindBufferMemory(device, r->buffer, block->memory, r->piece.offset));
    else VK(vkBindImageMemory(device, r->image, block->memory, r->piece.offset));
    r->pattern = (unsigned char)random_below(256);
    memset(block->bytes + r->piece.offset, r->pattern, r->piece.size);
}

static void look(const struct resource *r) {
    const unsigned char *bytes = block_of(r->piece.block)->bytes + r->piece.offset;
    for (uint64_t k = 0; k < r->piece.size; k++)
        if (bytes[k] != r->pattern) fail("another resource wrote here, at byte", (long)k);
}

static void drop(unsigned i) {
    struct resource *r = &resources[i];
    pilhangko_memory_block gone;
    look(r);
    if (r->buffer) vkDestroyBuffer(device, r->buffer, NULL);
    else vkDestroyImage(device, r->image, NULL);
    PILHANGKO(pilhangko_memory_type_free(&memory_types[r->type], &r->piece, &gone));
    if (gone.exists) free_block(gone.block);
    if (pilhangko_memory_type_free(&memory_types[r->type], &r->piece, &gone) != PILHANGKO_NOT_LIVE)
        fail("a second free was served", (long)i);
}

/* ---- the run ---- */

static void make_memory_types(void) {
    for (uint32_t type = 0; type < memory_properties.memoryTypeCount; type++) {
        VkMemoryPropertyFlags flags = memory_properties.memoryTypes[type].propertyFlags;
        pilhangko_memory_type_settings settings = {.is_host = (flags & VK_MEMORY_PROPERTY_HOST_VISIBLE_BIT) != 0,
            .page_size = granularity,
            .device_block_size = 8 * MB,
            .largest_device_block_size = 32 * MB,
            .host_block_size = 8 * MB,
            .largest_host_block_size = 32 * MB};
        PILHANGKO(pilhangko_memory_type_create(&memory_types[type], &settings));
    }
}

static void end_memory_types(void) {
    for (uint32_t type = 0; type < memory_properties.memoryTypeCount; type++) {
        pilhangko_memory_statistics statistics;
        PILHANGKO(pilhangko_memory_type_statistics(&memory_types[type], &statistics));
        for (size_t slot = 0; slot < statistics.slots; slot++) { /* the one shared block that a type keeps */
            pilhangko_memory_block block;
            PILHANGKO(pilhangko_memory_type_block(&memory_types[type], slot, &block));
            if (block.exists) free_block(block.block);
        }
        PILHANGKO(pilhangko_memory_type_destroy(&memory_types[type]));
    }
}

static void shuffle(unsigned *order) {
    for (unsigned i = RESOURCES - 1; i > 0; i--) {
        unsigned j = (unsigned)random_below(i + 1), t = order[i];
        order[i] = order[j];
        order[j] = t;
    }
}

static uint64_t capacity(void) {
    uint64_t sum = 0;
    for (uint32_t type = 0; type < memory_properties.memoryTypeCount; type++) {
        pilhangko_memory_statistics statistics;
        PILHANGKO(pilhangko_memory_type_statistics(&memory_types[type], &statistics));
        sum += statistics.capacity;
    }
    return sum;
}

int main(void) {
    static unsigned order[RESOURCES];
    bool validates = has_validation();
    make_instance(validates);
    make_device(validates);
    make_memory_types();
    for (unsigned i = 0; i < RESOURCES; i++) make(order[i] = i);
    printf("%u resources in %u blocks, %.1f MB\n", RESOURCES, live_blocks, (double)capacity() / (double)MB);
    shuffle(order);
    for (unsigned i = 0; i < RESOURCES / 2; i++) drop(order[i]); /* half of them go, and others come into the gaps */
    for (unsigned i = 0; i < RESOURCES / 2; i++) make(order[i]);
    for (unsigned i = 0; i < RESOURCES; i++) look(&resources[i]);
    shuffle(order);
    for (unsigned i = 0; i < RESOURCES; i++) drop(order[i]);
    end_memory_types();
    if (live_blocks) fail("blocks that were not freed", (long)live_blocks);
    end_device();
    printf("%u blocks made, %u of them a piece's own, %u live at most; %u validation messages\n", made_blocks, own_blocks, most_blocks,
        messages);
    return messages != 0;
}
