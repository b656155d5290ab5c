// The DirectX 12 binding from C++, on Windows: a ComPtr holds a resource, and a guard its allocation, which goes last. Exit 0 where each
// buffer kept its bytes and none is left.
#include <windows.h>

#include <d3d12.h>
#include <wrl/client.h>

#include "pilhangko_d3d12.h"
#include <cstdio>
#include <cstring>
#include <stdexcept>
#include <utility>
#include <vector>
using Microsoft::WRL::ComPtr;

static void check(pilhangko_d3d12_result result) {
    if (result.status != PILHANGKO_OK) throw std::runtime_error(pilhangko_status_text(result.status));
}

// A device's allocator.
class Allocator {
public:
    explicit Allocator(ID3D12Device *device) {
        pilhangko_d3d12_settings settings = {};
        settings.device = device;
        check(pilhangko_d3d12_create(&d3d12, &settings));
    }
    ~Allocator() {
        pilhangko_d3d12_ending ending;
        if (pilhangko_d3d12_destroy(&d3d12, &ending) != PILHANGKO_OK || ending.leaks != 0) std::terminate();
    }
    Allocator(const Allocator &) = delete;
    Allocator &operator=(const Allocator &) = delete;
    pilhangko_d3d12 *get() { return &d3d12; }

private:
    pilhangko_d3d12 d3d12 = {};
};

// A resource with its memory: the reference is released first, then the allocation is freed. It goes before its allocator, and may be moved.
class Resource {
public:
    Resource(Allocator &allocator, const D3D12_RESOURCE_DESC &desc, const pilhangko_d3d12_placement &placement) : d3d12(allocator.get()) {
        check(pilhangko_d3d12_create_resource(d3d12, &desc, &placement, resource.GetAddressOf(), &allocation));
    }
    Resource(Resource &&other) noexcept
        : resource(std::move(other.resource)), d3d12(std::exchange(other.d3d12, nullptr)), allocation(other.allocation) {}
    Resource(const Resource &) = delete;
    Resource &operator=(const Resource &) = delete;
    ~Resource() {
        resource.Reset();
        if (d3d12 && pilhangko_d3d12_free(d3d12, &allocation) != PILHANGKO_OK) std::terminate();
    }
    ID3D12Resource *operator->() const { return resource.Get(); }

private:
    ComPtr<ID3D12Resource> resource;
    pilhangko_d3d12 *d3d12;
    pilhangko_d3d12_allocation allocation = {};
};

static bool keep_their_bytes(Allocator &allocator) {
    D3D12_RESOURCE_DESC desc = {};
    desc.Dimension = D3D12_RESOURCE_DIMENSION_BUFFER;
    desc.Width = 4096;
    desc.Height = desc.DepthOrArraySize = desc.MipLevels = 1;
    desc.SampleDesc.Count = 1;
    desc.Layout = D3D12_TEXTURE_LAYOUT_ROW_MAJOR;
    pilhangko_d3d12_placement placement = {};
    placement.location = PILHANGKO_LOCATION_CPU_TO_GPU;
    placement.state = D3D12_RESOURCE_STATE_GENERIC_READ;
    placement.name = "uniforms";
    std::vector<Resource> buffers;
    std::vector<unsigned char *> bytes;
    for (int frame = 0; frame < 100; frame++) {
        void *mapped = nullptr;
        buffers.emplace_back(allocator, desc, placement); // the vector moves those that it has where it grows
        if (FAILED(buffers.back()->Map(0, nullptr, &mapped))) return false;
        bytes.push_back(static_cast<unsigned char *>(mapped));
        std::memset(mapped, frame, 4096);
    }
    for (int frame = 0; frame < 100; frame++)
        if (bytes[frame][0] != frame || bytes[frame][4095] != frame) return false;
    std::printf("%zu buffers kept their bytes\n", buffers.size());
    return true;
}

int main() try {
    ComPtr<ID3D12Device> device;
    if (FAILED(D3D12CreateDevice(nullptr, D3D_FEATURE_LEVEL_11_0, IID_PPV_ARGS(&device)))) throw std::runtime_error("no device");
    Allocator allocator(device.Get());
    return keep_their_bytes(allocator) ? 0 : 1;
} catch (const std::runtime_error &refused) {
    std::fprintf(stderr, "failed: %s\n", refused.what());
    return 1;
}
