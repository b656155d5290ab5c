/* The functions that Pilhangko's Vulkan binding calls, from a loader (include/pilhangko_vulkan.h): compile it with c/pilhangko_vulkan.c, as C11
 * or as C++11. */
#include "pilhangko_vulkan_resource.h"

#define LOAD(get, of, name) loaded.name = (PFN_##name)get(of, #name)

pilhangko_status PILHANGKO_CALL pilhangko_vulkan_load(pilhangko_vulkan_functions *functions, VkInstance instance, VkDevice device,
    uint32_t api_version, PFN_vkGetInstanceProcAddr get_instance_proc_addr, PFN_vkGetDeviceProcAddr get_device_proc_addr) {
    pilhangko_vulkan_functions loaded;
    PFN_vkGetDeviceProcAddr get = get_device_proc_addr;
    const bool has_1_1 = api_version >= VK_API_VERSION_1_1;
    if (!functions || !instance || !device || !get_instance_proc_addr) return PILHANGKO_NULL_POINTER;
    if (!get) get = (PFN_vkGetDeviceProcAddr)get_instance_proc_addr(instance, "vkGetDeviceProcAddr");
    if (!get) return PILHANGKO_VULKAN_NO_FUNCTION;
    memset(&loaded, 0, sizeof loaded);
    LOAD(get_instance_proc_addr, instance, vkGetPhysicalDeviceProperties);
    LOAD(get_instance_proc_addr, instance, vkGetPhysicalDeviceMemoryProperties);
    LOAD(get, device, vkAllocateMemory);
    LOAD(get, device, vkFreeMemory);
    LOAD(get, device, vkMapMemory);
    LOAD(get, device, vkUnmapMemory);
    LOAD(get, device, vkFlushMappedMemoryRanges);
    LOAD(get, device, vkInvalidateMappedMemoryRanges);
    LOAD(get, device, vkCreateBuffer);
    LOAD(get, device, vkDestroyBuffer);
    LOAD(get, device, vkGetBufferMemoryRequirements);
    LOAD(get, device, vkBindBufferMemory);
    LOAD(get, device, vkCreateImage);
    LOAD(get, device, vkDestroyImage);
    LOAD(get, device, vkGetImageMemoryRequirements);
    LOAD(get, device, vkBindImageMemory);
    if (has_1_1) {
        LOAD(get, device, vkGetBufferMemoryRequirements2);
        LOAD(get, device, vkGetImageMemoryRequirements2);
        LOAD(get_instance_proc_addr, instance, vkGetPhysicalDeviceMemoryProperties2);
    } else {
        loaded.vkGetPhysicalDeviceMemoryProperties2 =
            (PFN_vkGetPhysicalDeviceMemoryProperties2)get_instance_proc_addr(instance, "vkGetPhysicalDeviceMemoryProperties2KHR");
    }
    if (!has_functions(&loaded)) return PILHANGKO_VULKAN_NO_FUNCTION;
    *functions = loaded;
    return PILHANGKO_OK;
}
