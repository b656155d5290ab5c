//! Buffers and textures on vkd3d's DirectX 12, where there is one: the driver makes them where the allocator says, and the host's bytes stay.
#![cfg(all(target_os = "linux", target_arch = "x86_64"))]
#![allow(missing_docs)]

use pilhangko::d3d12::{
    Allocator, AllocatorCreateDesc, HeapProperties, ID3D12DeviceVersion, Interface, Resource, ResourceCategory,
    ResourceCreateDesc, ResourceDesc, ResourceStateOrBarrierLayout, ResourceType,
};
use pilhangko::{AllocationSizes, MemoryLocation};
use std::ffi::{c_char, c_int, c_void, CStr};
use std::{ptr, slice};

extern "C" {
    fn dlopen(name: *const c_char, flags: c_int) -> *mut c_void;
    fn dlsym(library: *mut c_void, name: *const c_char) -> *mut c_void;
}

type CreateDevice = unsafe extern "win64" fn(*mut c_void, u32, *const [u8; 16], *mut *mut c_void) -> i32;
type Map = unsafe extern "win64" fn(*mut c_void, u32, *const [usize; 2], *mut *mut u8) -> i32;

/// `IID_ID3D12Device`: 189819f1-1db6-4b57-be54-1821339b85f7.
const ID3D12_DEVICE: [u8; 16] =
    [0xf1, 0x19, 0x98, 0x18, 0xb6, 0x1d, 0x57, 0x4b, 0xbe, 0x54, 0x18, 0x21, 0x33, 0x9b, 0x85, 0xf7];
const FEATURE_LEVEL_11_0: u32 = 0xb000;

fn symbol(library: &CStr, name: &CStr) -> Option<*mut c_void> {
    // SAFETY: both names end in a 0.
    let found = unsafe {
        let library = dlopen(library.as_ptr(), 2);
        if library.is_null() {
            return None;
        }
        dlsym(library, name.as_ptr())
    };
    (!found.is_null()).then_some(found)
}

/// vkd3d's device, if it makes one.
fn device() -> Option<Interface> {
    let create = symbol(c"libvkd3d-utils.so.1", c"D3D12CreateDevice")?;
    let mut device = ptr::null_mut();
    // SAFETY: the function has this type; what it writes is null or a device with a reference.
    unsafe {
        let create = std::mem::transmute::<*mut c_void, CreateDevice>(create);
        let code = create(ptr::null_mut(), FEATURE_LEVEL_11_0, &ID3D12_DEVICE, &mut device);
        Interface::from_raw(if code < 0 { ptr::null_mut() } else { device })
    }
}

fn desc_of(index: u32) -> ResourceDesc {
    let flags = u32::from(index % 2 == 0);
    match index % 3 {
        0 => ResourceDesc {
            dimension: 3,
            width: 1 + u64::from(index),
            height: 200 - index,
            layout: 0,
            format: 28,
            flags,
            ..ResourceDesc::buffer(1)
        },
        _ => ResourceDesc::buffer(1 + u64::from(index) * 1000),
    }
}

/// Where the host sees a buffer's bytes.
fn mapped(it: &Resource, length: u64) -> &'static mut [u8] {
    const MAP: usize = 8;
    let mut bytes = ptr::null_mut();
    let resource = it.resource().as_raw();
    // SAFETY: it is an ID3D12Resource, whose functions its first word leads to; it stays mapped as long as it lives.
    unsafe {
        let functions = resource.cast::<*const *const c_void>().read();
        let map = std::mem::transmute::<*const c_void, Map>(functions.add(MAP).read());
        assert!(map(resource, 0, &[0, 0], &mut bytes) >= 0 && !bytes.is_null());
        slice::from_raw_parts_mut(bytes, length as usize)
    }
}

#[test]
fn resources_lie_where_the_allocator_says() {
    std::env::set_var("VKD3D_DEBUG", "none");
    let Some(device) = device() else {
        eprintln!("no vkd3d device here: no real DirectX 12 was asked");
        return;
    };
    let mut allocator = Allocator::new(&AllocatorCreateDesc {
        allocation_sizes: AllocationSizes::new(8 << 20, 8 << 20),
        ..AllocatorCreateDesc::new(ID3D12DeviceVersion::newest(&device))
    })
    .unwrap();
    let properties = HeapProperties { heap_type: 1, ..HeapProperties::default() };
    let own = ResourceType::Committed { heap_properties: &properties, heap_flags: 0 };
    let mut live = Vec::new();
    for index in 0..150_u32 {
        let desc = desc_of(index);
        let is_upload = desc.dimension == 1 && index % 2 == 1;
        let location = if is_upload { MemoryLocation::CpuToGpu } else { MemoryLocation::GpuOnly };
        let it = allocator
            .create_resource(&ResourceCreateDesc {
                name: "resource",
                memory_location: location,
                resource_category: ResourceCategory::from(&desc),
                resource_desc: &desc,
                castable_formats: &[],
                clear_value: None,
                initial_state_or_layout: ResourceStateOrBarrierLayout::ResourceState(0),
                resource_type: if index % 10 == 0 { &own } else { &ResourceType::Placed },
            })
            .unwrap();
        assert!(it.size >= desc.width && it.allocation().is_none_or(|at| at.size() == it.size));
        let bytes = is_upload.then(|| mapped(&it, desc.width));
        if let Some(bytes) = &bytes {
            assert_eq!(bytes.len() as u64, desc.width);
        }
        live.push((it, bytes, index));
    }
    for (_, bytes, index) in &mut live {
        if let Some(bytes) = bytes {
            bytes.fill(*index as u8);
        }
    }
    let uploads = live.iter().filter(|(_, bytes, _)| bytes.is_some()).count();
    assert_eq!(uploads, 50);
    for (it, bytes, index) in live {
        assert!(bytes.is_none_or(|bytes| bytes.iter().all(|&byte| byte == index as u8)));
        allocator.free_resource(it).unwrap();
    }
    assert_eq!((allocator.statistics().pieces, allocator.committed(0).unwrap().num_allocations), (0, 0));
    eprintln!("150 resources on vkd3d");
}
