//! A device by ash's handles.

use ash::vk::{self, Handle};
use pilhangko::vulkan::{
    Device, DeviceFunctions, DeviceLimits, MemoryHeap, MemoryPropertyFlags, MemoryType, PhysicalDeviceMemoryProperties,
};
use pilhangko::{AllocationError, Fault, Result};

/// What an allocator needs of a device. The error: the instance doesn't know one of the functions that ask for memory and flush it.
///
/// # Safety
///
/// As with `pilhangko::vulkan::Device::new`.
pub(super) unsafe fn device_of(
    instance: &ash::Instance,
    physical_device: vk::PhysicalDevice,
    device: &ash::Device,
) -> Result<Device> {
    let handle = device.handle();
    // SAFETY: instance and device are live, as the caller promises, and what is loaded are functions of that device.
    let functions = unsafe { DeviceFunctions::load(|name| instance.get_device_proc_addr(handle, name.as_ptr())) };
    let functions = functions.ok_or(AllocationError::InvalidAllocatorCreateDesc(Fault {
        text: "the device lacks a function of Vulkan 1.0.",
        code: None,
    }))?;
    // SAFETY: the physical device is the instance's
    let (memory, limits) = unsafe {
        let limits = instance.get_physical_device_properties(physical_device).limits;
        (instance.get_physical_device_memory_properties(physical_device), limits)
    };
    let limits = DeviceLimits {
        buffer_image_granularity: limits.buffer_image_granularity,
        non_coherent_atom_size: limits.non_coherent_atom_size,
        max_memory_allocation_count: limits.max_memory_allocation_count,
    };
    // SAFETY: as the caller promises
    Ok(unsafe { Device::new(handle.as_raw(), functions, told(&memory), limits) })
}

/// The memory types and heaps in the crate pilhangko's own structs.
fn told(memory: &vk::PhysicalDeviceMemoryProperties) -> PhysicalDeviceMemoryProperties {
    let mut told = PhysicalDeviceMemoryProperties {
        memory_type_count: memory.memory_type_count,
        memory_heap_count: memory.memory_heap_count,
        ..PhysicalDeviceMemoryProperties::default()
    };
    for (to, from) in told.memory_types.iter_mut().zip(&memory.memory_types) {
        let property_flags = MemoryPropertyFlags(from.property_flags.as_raw());
        *to = MemoryType { property_flags, heap_index: from.heap_index };
    }
    for (to, from) in told.memory_heaps.iter_mut().zip(&memory.memory_heaps) {
        *to = MemoryHeap { size: from.size, flags: from.flags.as_raw() };
    }
    told
}
