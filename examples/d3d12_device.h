/* What examples/d3d12_renderer.c has of DirectX 12 besides memory: a device, a queue and one list of commands, of vkd3d's library or of
 * Windows, also under Wine. Only there DXGI's adapter tells budgets. */
#ifndef D3D12_DEVICE_H
#define D3D12_DEVICE_H
#define COBJMACROS
#define INITGUID
#ifdef _WIN32
#include <windows.h>

#include <d3d12.h>
#include <dxgi1_4.h>
#else
#include <vkd3d.h>
#include <vkd3d_utils.h>
#endif
#include "pilhangko_d3d12.h"
#include <stdio.h>
#include <stdlib.h>
#include <string.h>

static void fail(const char *what, long code) {
    fprintf(stderr, "failed: %s (%ld)\n", what, code);
    exit(1);
}
#define DID(call) \
    do { \
        const HRESULT result_ = (call); \
        if (result_ < 0) fail(#call, (long)result_); \
    } while (0)

struct gpu {
    ID3D12Device *device;
    struct IDXGIAdapter3 *adapter; /* NULL without DXGI */
    ID3D12CommandQueue *queue;
    ID3D12CommandAllocator *memory;
    ID3D12GraphicsCommandList *commands;
    ID3D12Fence *fence;
};

#ifdef _WIN32
typedef HANDLE event;

static void make_device(struct gpu *g) {
    IDXGIFactory4 *factory;
    IDXGIAdapter1 *adapter;
    DID(CreateDXGIFactory1(&IID_IDXGIFactory4, (void **)&factory));
    DID(IDXGIFactory4_EnumAdapters1(factory, 0, &adapter));
    DID(IDXGIAdapter1_QueryInterface(adapter, &IID_IDXGIAdapter3, (void **)&g->adapter));
    DID(D3D12CreateDevice((IUnknown *)adapter, D3D_FEATURE_LEVEL_11_0, &IID_ID3D12Device, (void **)&g->device));
    IDXGIAdapter1_Release(adapter);
    IDXGIFactory4_Release(factory);
}

static void drop_adapter(struct gpu *g) {
    IDXGIAdapter3_Release(g->adapter);
}

static event make_event(void) {
    return CreateEventA(NULL, FALSE, FALSE, NULL);
}

static void wait_for(event it) {
    if (WaitForSingleObject(it, 60000) != WAIT_OBJECT_0) fail("the fence", 0);
    CloseHandle(it);
}
#else
typedef HANDLE event;

static void make_device(struct gpu *g) {
    DID(D3D12CreateDevice(NULL, D3D_FEATURE_LEVEL_11_0, &IID_ID3D12Device, (void **)&g->device));
}

static void drop_adapter(struct gpu *g) {
    (void)g;
}

static event make_event(void) {
    return vkd3d_create_event();
}

static void wait_for(event it) {
    if (vkd3d_wait_event(it, VKD3D_INFINITE) != VKD3D_WAIT_OBJECT_0) fail("the fence", 0);
    vkd3d_destroy_event(it);
}
#endif

static void make_gpu(struct gpu *g) {
    D3D12_COMMAND_QUEUE_DESC queue;
    memset(g, 0, sizeof *g);
    make_device(g);
    memset(&queue, 0, sizeof queue);
    queue.Type = D3D12_COMMAND_LIST_TYPE_DIRECT;
    DID(ID3D12Device_CreateCommandQueue(g->device, &queue, &IID_ID3D12CommandQueue, (void **)&g->queue));
    DID(ID3D12Device_CreateCommandAllocator(g->device, queue.Type, &IID_ID3D12CommandAllocator, (void **)&g->memory));
    DID(ID3D12Device_CreateCommandList(
        g->device, 0, queue.Type, g->memory, NULL, &IID_ID3D12GraphicsCommandList, (void **)&g->commands));
    DID(ID3D12Device_CreateFence(g->device, 0, D3D12_FENCE_FLAG_NONE, &IID_ID3D12Fence, (void **)&g->fence));
}

/* Runs what was recorded, and waits for it. */
static void run_commands(struct gpu *g) {
    ID3D12CommandList *list = (ID3D12CommandList *)g->commands;
    const event done = make_event();
    DID(ID3D12GraphicsCommandList_Close(g->commands));
    ID3D12CommandQueue_ExecuteCommandLists(g->queue, 1, &list);
    DID(ID3D12CommandQueue_Signal(g->queue, g->fence, 1));
    DID(ID3D12Fence_SetEventOnCompletion(g->fence, 1, done));
    wait_for(done);
    DID(ID3D12Device_GetDeviceRemovedReason(g->device));
}

/* Releases all, and says how many references to the device are left. */
static unsigned long end_gpu(struct gpu *g) {
    ID3D12Fence_Release(g->fence);
    ID3D12GraphicsCommandList_Release(g->commands);
    ID3D12CommandAllocator_Release(g->memory);
    ID3D12CommandQueue_Release(g->queue);
    drop_adapter(g);
    return (unsigned long)ID3D12Device_Release(g->device);
}
#endif
