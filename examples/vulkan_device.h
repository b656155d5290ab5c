/* What examples/renderer.c has of Vulkan besides memory: an instance with the validation layer where that is installed, the first device,
 * and a queue with one command buffer. */
#ifndef VULKAN_DEVICE_H
#define VULKAN_DEVICE_H
#include <stdbool.h>
#include <stdio.h>
#include <stdlib.h>
#include <string.h>
#include <vulkan/vulkan.h>

static void fail(const char *what, long code) {
    fprintf(stderr, "failed: %s (%ld)\n", what, code);
    exit(1);
}
#define VK(call) \
    do { \
        VkResult result_ = (call); \
        if (result_ != VK_SUCCESS) fail(#call, result_); \
    } while (0)

#define VULKAN_VERSION VK_API_VERSION_1_2

struct gpu {
    VkInstance instance;
    VkDebugUtilsMessengerEXT messenger; /* null where the validation layer isn't installed */
    VkPhysicalDevice physical_device;
    VkDevice device;
    VkQueue queue;
    VkCommandPool pool;
    VkCommandBuffer commands;
    bool has_budgets, has_addresses; /* VK_EXT_memory_budget and bufferDeviceAddress, enabled where the device has them */
    unsigned messages;               /* of the validation layer */
};

static VKAPI_ATTR VkBool32 VKAPI_CALL reported(VkDebugUtilsMessageSeverityFlagBitsEXT severity, VkDebugUtilsMessageTypeFlagsEXT kind,
    const VkDebugUtilsMessengerCallbackDataEXT *data, void *user) {
    (void)severity, (void)kind;
    ((struct gpu *)user)->messages++;
    fprintf(stderr, "validation: %s\n", data->pMessage);
    return VK_FALSE;
}

static bool has_validation(void) {
    static VkLayerProperties layers[64];
    uint32_t count = 64;
    const VkResult told = vkEnumerateInstanceLayerProperties(&count, layers);
    if (told != VK_SUCCESS && told != VK_INCOMPLETE) return false;
    for (uint32_t i = 0; i < count; i++)
        if (!strcmp(layers[i].layerName, "VK_LAYER_KHRONOS_validation")) return true;
    return false;
}

static void make_instance(struct gpu *gpu) {
    static const char *const layer = "VK_LAYER_KHRONOS_validation", *const extension = VK_EXT_DEBUG_UTILS_EXTENSION_NAME;
    const VkDebugUtilsMessengerCreateInfoEXT listens = {.sType = VK_STRUCTURE_TYPE_DEBUG_UTILS_MESSENGER_CREATE_INFO_EXT,
        .messageSeverity = VK_DEBUG_UTILS_MESSAGE_SEVERITY_WARNING_BIT_EXT | VK_DEBUG_UTILS_MESSAGE_SEVERITY_ERROR_BIT_EXT,
        .messageType = VK_DEBUG_UTILS_MESSAGE_TYPE_VALIDATION_BIT_EXT,
        .pfnUserCallback = reported,
        .pUserData = gpu};
    const VkApplicationInfo application = {.sType = VK_STRUCTURE_TYPE_APPLICATION_INFO, .apiVersion = VULKAN_VERSION};
    VkInstanceCreateInfo info = {.sType = VK_STRUCTURE_TYPE_INSTANCE_CREATE_INFO, .pApplicationInfo = &application};
    const bool validates = has_validation();
    if (validates) {
        info.pNext = &listens;
        info.enabledLayerCount = info.enabledExtensionCount = 1;
        info.ppEnabledLayerNames = &layer;
        info.ppEnabledExtensionNames = &extension;
    }
    VK(vkCreateInstance(&info, NULL, &gpu->instance));
    if (!validates) return;
    PFN_vkCreateDebugUtilsMessengerEXT create =
        (PFN_vkCreateDebugUtilsMessengerEXT)vkGetInstanceProcAddr(gpu->instance, "vkCreateDebugUtilsMessengerEXT");
    VK(create(gpu->instance, &listens, NULL, &gpu->messenger));
}

static bool has_extension(const struct gpu *gpu, const char *name) {
    static VkExtensionProperties extensions[512];
    uint32_t count = 512;
    const VkResult told = vkEnumerateDeviceExtensionProperties(gpu->physical_device, NULL, &count, extensions);
    if (told != VK_SUCCESS && told != VK_INCOMPLETE) return false;
    for (uint32_t i = 0; i < count; i++)
        if (!strcmp(extensions[i].extensionName, name)) return true;
    return false;
}

static void make_device(struct gpu *gpu) {
    static const char *const budget = VK_EXT_MEMORY_BUDGET_EXTENSION_NAME;
    const float priority = 1;
    uint32_t count = 1;
    const VkResult found = vkEnumeratePhysicalDevices(gpu->instance, &count, &gpu->physical_device);
    if ((found != VK_SUCCESS && found != VK_INCOMPLETE) || count == 0) fail("no device", found);
    VkPhysicalDeviceBufferDeviceAddressFeatures addresses = {.sType = VK_STRUCTURE_TYPE_PHYSICAL_DEVICE_BUFFER_DEVICE_ADDRESS_FEATURES};
    VkPhysicalDeviceFeatures2 features = {.sType = VK_STRUCTURE_TYPE_PHYSICAL_DEVICE_FEATURES_2, .pNext = &addresses};
    vkGetPhysicalDeviceFeatures2(gpu->physical_device, &features);
    memset(&features.features, 0, sizeof features.features);
    addresses.bufferDeviceAddressCaptureReplay = addresses.bufferDeviceAddressMultiDevice = VK_FALSE;
    gpu->has_addresses = addresses.bufferDeviceAddress;
    gpu->has_budgets = has_extension(gpu, budget);
    const VkDeviceQueueCreateInfo queue = {
        .sType = VK_STRUCTURE_TYPE_DEVICE_QUEUE_CREATE_INFO, .queueCount = 1, .pQueuePriorities = &priority};
    const VkDeviceCreateInfo info = {.sType = VK_STRUCTURE_TYPE_DEVICE_CREATE_INFO,
        .pNext = &features,
        .queueCreateInfoCount = 1,
        .pQueueCreateInfos = &queue,
        .enabledExtensionCount = gpu->has_budgets,
        .ppEnabledExtensionNames = &budget};
    VK(vkCreateDevice(gpu->physical_device, &info, NULL, &gpu->device));
}

static void make_commands(struct gpu *gpu) {
    const VkCommandPoolCreateInfo pool = {.sType = VK_STRUCTURE_TYPE_COMMAND_POOL_CREATE_INFO};
    const VkCommandBufferBeginInfo begins = {
        .sType = VK_STRUCTURE_TYPE_COMMAND_BUFFER_BEGIN_INFO, .flags = VK_COMMAND_BUFFER_USAGE_ONE_TIME_SUBMIT_BIT};
    vkGetDeviceQueue(gpu->device, 0, 0, &gpu->queue);
    VK(vkCreateCommandPool(gpu->device, &pool, NULL, &gpu->pool));
    const VkCommandBufferAllocateInfo info = {
        .sType = VK_STRUCTURE_TYPE_COMMAND_BUFFER_ALLOCATE_INFO, .commandPool = gpu->pool, .commandBufferCount = 1};
    VK(vkAllocateCommandBuffers(gpu->device, &info, &gpu->commands));
    VK(vkBeginCommandBuffer(gpu->commands, &begins));
}

static void make_gpu(struct gpu *gpu) {
    VkPhysicalDeviceProperties properties;
    memset(gpu, 0, sizeof *gpu);
    make_instance(gpu);
    make_device(gpu);
    make_commands(gpu);
    vkGetPhysicalDeviceProperties(gpu->physical_device, &properties);
    printf("%s, validation %s\n", properties.deviceName, gpu->messenger ? "on" : "off");
}

/* Runs what was recorded, to its end. */
static inline void run_commands(struct gpu *gpu) {
    const VkSubmitInfo info = {.sType = VK_STRUCTURE_TYPE_SUBMIT_INFO, .commandBufferCount = 1, .pCommandBuffers = &gpu->commands};
    VK(vkEndCommandBuffer(gpu->commands));
    VK(vkQueueSubmit(gpu->queue, 1, &info, VK_NULL_HANDLE));
    VK(vkQueueWaitIdle(gpu->queue));
}

static void end_gpu(struct gpu *gpu) {
    vkDestroyCommandPool(gpu->device, gpu->pool, NULL);
    vkDestroyDevice(gpu->device, NULL);
    if (gpu->messenger) {
        PFN_vkDestroyDebugUtilsMessengerEXT destroy =
            (PFN_vkDestroyDebugUtilsMessengerEXT)vkGetInstanceProcAddr(gpu->instance, "vkDestroyDebugUtilsMessengerEXT");
        destroy(gpu->instance, gpu->messenger, NULL);
    }
    vkDestroyInstance(gpu->instance, NULL);
}
#endif
