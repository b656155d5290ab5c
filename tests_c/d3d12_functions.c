/* The numbers by which the DirectX 12 binding calls the functions of interfaces, and the layout of what it hands on, beside a header's own
 * tables: the platform's, and for the newer interfaces Microsoft's. To compile it is to run it. */
#define COBJMACROS
#include "../c/pilhangko_d3d12_driver.h"
#define IS_NUMBER(table, function, number) \
    typedef char table##_##function[offsetof(table, function) == (number) * sizeof(any_function) ? 1 : -1]

IS_NUMBER(ID3D12DeviceVtbl, QueryInterface, QUERY_INTERFACE);
IS_NUMBER(ID3D12DeviceVtbl, AddRef, ADD_REF);
IS_NUMBER(ID3D12DeviceVtbl, Release, RELEASE);
IS_NUMBER(ID3D12DeviceVtbl, CheckFeatureSupport, CHECK_FEATURE_SUPPORT);
IS_NUMBER(ID3D12DeviceVtbl, GetResourceAllocationInfo, GET_RESOURCE_ALLOCATION_INFO);
IS_NUMBER(ID3D12DeviceVtbl, CreateCommittedResource, CREATE_COMMITTED_RESOURCE);
IS_NUMBER(ID3D12DeviceVtbl, CreateHeap, CREATE_HEAP);
IS_NUMBER(ID3D12DeviceVtbl, CreatePlacedResource, CREATE_PLACED_RESOURCE);
IS_NUMBER(ID3D12DeviceVtbl, GetDeviceRemovedReason, GET_DEVICE_REMOVED_REASON);
IS_NUMBER(ID3D12ResourceVtbl, Release, RELEASE);
IS_NUMBER(ID3D12ResourceVtbl, SetName, SET_NAME);
IS_NUMBER(ID3D12ResourceVtbl, Map, MAP);
IS_NUMBER(ID3D12HeapVtbl, Release, RELEASE);

#ifdef __ID3D12Device11_INTERFACE_DEFINED__
IS_NUMBER(ID3D12Device10Vtbl, CreateCommittedResource3, CREATE_COMMITTED_RESOURCE_3);
IS_NUMBER(ID3D12Device10Vtbl, CreatePlacedResource2, CREATE_PLACED_RESOURCE_2);
/* the first function behind ID3D12Device11 */
typedef char device12_goes_on[sizeof(ID3D12Device11Vtbl) == GET_RESOURCE_ALLOCATION_INFO_3 * sizeof(any_function) ? 1 : -1];
typedef char desc1_has_its_size[sizeof(struct desc1) == sizeof(D3D12_RESOURCE_DESC1) ? 1 : -1];
typedef char desc1_begins_as_desc[offsetof(D3D12_RESOURCE_DESC1, Flags) == offsetof(D3D12_RESOURCE_DESC, Flags) ? 1 : -1];
#endif
#ifdef __IDXGIAdapter3_INTERFACE_DEFINED__
IS_NUMBER(IDXGIAdapter3Vtbl, QueryVideoMemoryInfo, QUERY_VIDEO_MEMORY_INFO);
typedef char memory_info_has_its_size[sizeof(struct video_memory_info) == sizeof(DXGI_QUERY_VIDEO_MEMORY_INFO) ? 1 : -1];
#endif
