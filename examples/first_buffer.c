/* One buffer that the host writes and the GPU reads, by the Vulkan binding, in C11 and in C++20. */
#define PILHANGKO_VULKAN_LINKED
#include "pilhangko_vulkan.h"
#include "vulkan_device.h"

static void check(pilhangko_status status) {
    if (status != PILHANGKO_OK) fail(pilhangko_status_text(status), (long)status);
}

int main(void) {
    struct gpu gpu;
    pilhangko_vulkan vulkan = {0};
    pilhangko_vulkan_functions functions;
    pilhangko_vulkan_allocation allocation;
    VkBuffer buffer;
    make_gpu(&gpu);
    check(pilhangko_vulkan_load_linked(&functions, gpu.instance, gpu.device, VULKAN_VERSION));
    const pilhangko_vulkan_settings settings = {
        .physical_device = gpu.physical_device, .device = gpu.device, .functions = &functions, .api_version = VULKAN_VERSION};
    check(pilhangko_vulkan_create(&vulkan, &settings));
    const VkBufferCreateInfo info = {
        .sType = VK_STRUCTURE_TYPE_BUFFER_CREATE_INFO, .size = 4096, .usage = VK_BUFFER_USAGE_UNIFORM_BUFFER_BIT};
    const pilhangko_vulkan_placement placement = {.location = PILHANGKO_LOCATION_CPU_TO_GPU, .name = "uniforms"};
    check(pilhangko_vulkan_create_buffer(&vulkan, &info, &placement, &buffer, &allocation).status);
    memset(pilhangko_vulkan_mapped(&vulkan, &allocation), 1, info.size);
    check(pilhangko_vulkan_flush(&vulkan, &allocation, 0, VK_WHOLE_SIZE).status);
    check(pilhangko_vulkan_destroy_buffer(&vulkan, buffer, &allocation));
    check(pilhangko_vulkan_destroy(&vulkan, NULL));
    end_gpu(&gpu);
    return gpu.messages != 0;
}
