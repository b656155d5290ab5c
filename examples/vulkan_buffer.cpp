// Buffers of a Vulkan device from C++20: guards for the device's allocator and for a buffer with its memory. Exit 0 where each buffer kept
// its bytes, none is left and the validation layer had nothing to say.
#define PILHANGKO_VULKAN_LINKED
#include "pilhangko_vulkan.h"
#include "vulkan_device.h"
#include <algorithm>
#include <cstddef>
#include <span>
#include <stdexcept>
#include <utility>
#include <vector>

static void check(pilhangko_status status) {
    if (status != PILHANGKO_OK) throw std::runtime_error(pilhangko_status_text(status));
}

// A device's allocator. Calls of it and of its buffers never overlap.
class Allocator {
public:
    explicit Allocator(const gpu &gpu) {
        pilhangko_vulkan_functions functions;
        check(pilhangko_vulkan_load_linked(&functions, gpu.instance, gpu.device, VULKAN_VERSION));
        const pilhangko_vulkan_settings settings = {
            .physical_device = gpu.physical_device, .device = gpu.device, .functions = &functions, .api_version = VULKAN_VERSION};
        check(pilhangko_vulkan_create(&vulkan, &settings));
    }
    ~Allocator() { pilhangko_vulkan_destroy(&vulkan, nullptr); }
    Allocator(const Allocator &) = delete;
    Allocator &operator=(const Allocator &) = delete;

    pilhangko_vulkan *get() { return &vulkan; }
    std::size_t live() const {
        pilhangko_type_statistics statistics = {};
        check(pilhangko_allocator_statistics(pilhangko_vulkan_allocator(&vulkan), &statistics));
        return statistics.pieces;
    }

private:
    pilhangko_vulkan vulkan = {};
};

// A buffer with its memory. It goes before its allocator, and may be moved.
class Buffer {
public:
    Buffer(Allocator &allocator, const VkBufferCreateInfo &info, const pilhangko_vulkan_placement &placement)
        : vulkan(allocator.get()) {
        check(pilhangko_vulkan_create_buffer(vulkan, &info, &placement, &buffer, &allocation).status);
    }
    ~Buffer() {
        if (buffer && pilhangko_vulkan_destroy_buffer(vulkan, buffer, &allocation) != PILHANGKO_OK) fail("a buffer that was not live", 0);
    }
    Buffer(Buffer &&other) noexcept
        : vulkan(other.vulkan), buffer(std::exchange(other.buffer, VkBuffer(VK_NULL_HANDLE))), allocation(other.allocation) {}
    Buffer &operator=(Buffer &&other) noexcept {
        std::swap(vulkan, other.vulkan);
        std::swap(buffer, other.buffer);
        std::swap(allocation, other.allocation);
        return *this;
    }

    VkBuffer get() const { return buffer; }
    // Its bytes as the host sees them, the alignment's padding at their end included; none where it can't.
    std::span<unsigned char> bytes() {
        auto *mapped = static_cast<unsigned char *>(pilhangko_vulkan_mapped(vulkan, &allocation));
        return mapped ? std::span(mapped, allocation.size) : std::span<unsigned char>();
    }
    void flush() { check(pilhangko_vulkan_flush(vulkan, &allocation, 0, VK_WHOLE_SIZE).status); }

private:
    pilhangko_vulkan *vulkan;
    VkBuffer buffer = VK_NULL_HANDLE;
    pilhangko_vulkan_allocation allocation = {};
};

struct Gpu : gpu {
    Gpu() { make_gpu(this); }
    ~Gpu() { end_gpu(this); }
    Gpu(const Gpu &) = delete;
};

static bool keep_their_bytes(Allocator &allocator) {
    const VkBufferCreateInfo info = {
        .sType = VK_STRUCTURE_TYPE_BUFFER_CREATE_INFO, .size = 4096, .usage = VK_BUFFER_USAGE_UNIFORM_BUFFER_BIT};
    const pilhangko_vulkan_placement placement = {.location = PILHANGKO_LOCATION_CPU_TO_GPU, .name = "uniforms"};
    std::vector<Buffer> buffers;
    for (unsigned char frame = 0; frame < 100; frame++) {
        buffers.emplace_back(allocator, info, placement); /* the vector moves those that it has where it grows */
        std::ranges::fill(buffers.back().bytes(), frame);
        buffers.back().flush();
    }
    std::swap(buffers.front(), buffers.back());
    buffers.erase(buffers.begin() + 10, buffers.begin() + 90);
    std::printf("%zu of 100 buffers are live\n", allocator.live());
    if (allocator.live() != 20 || buffers.front().bytes()[0] != 99 || buffers.back().bytes()[0] != 0) return false;
    return std::ranges::all_of(buffers, [](Buffer &it) {
        const auto bytes = it.bytes();
        return it.get() && bytes.size() >= 4096 && std::ranges::all_of(bytes, [&](unsigned char byte) { return byte == bytes[0]; });
    });
}

int main() try {
    Gpu gpu;
    {
        Allocator allocator(gpu);
        if (!keep_their_bytes(allocator)) fail("a buffer has other bytes", 0);
        if (allocator.live() != 0) fail("buffers that were not freed", 0);
    }
    return gpu.messages != 0;
} catch (const std::runtime_error &refused) {
    fail(refused.what(), 0);
}
