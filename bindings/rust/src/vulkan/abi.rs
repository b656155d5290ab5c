//! The part of Vulkan's ABI that the allocator calls, as the specification lays it out.

use std::ffi::{c_void, CStr};
use std::ops::BitOr;

/// A `VkDeviceMemory` as a number (ash: `vk::DeviceMemory::from_raw(memory.0)`). 0 is none.
#[repr(transparent)]
#[derive(Clone, Copy, Debug, Default, PartialEq, Eq, Hash, PartialOrd, Ord)]
pub struct DeviceMemory(pub u64);

/// A `VkBuffer` as a number (ash: `Buffer(buffer.as_raw())`). 0 is none.
#[repr(transparent)]
#[derive(Clone, Copy, Debug, Default, PartialEq, Eq, Hash, PartialOrd, Ord)]
pub struct Buffer(pub u64);

/// A `VkImage` as a number (ash: `Image(image.as_raw())`). 0 is none.
#[repr(transparent)]
#[derive(Clone, Copy, Debug, Default, PartialEq, Eq, Hash, PartialOrd, Ord)]
pub struct Image(pub u64);

/// What memory is like: `VkMemoryPropertyFlags`.
#[repr(transparent)]
#[derive(Clone, Copy, Debug, Default, PartialEq, Eq, Hash)]
pub struct MemoryPropertyFlags(pub u32);

impl MemoryPropertyFlags {
    /// Fast to reach for the device.
    pub const DEVICE_LOCAL: Self = MemoryPropertyFlags(1);
    /// The host can map it.
    pub const HOST_VISIBLE: Self = MemoryPropertyFlags(2);
    /// What the host writes the device sees without flushing, and the reverse.
    pub const HOST_COHERENT: Self = MemoryPropertyFlags(4);
    /// The host reads it through its cache.
    pub const HOST_CACHED: Self = MemoryPropertyFlags(8);
    /// Backed by memory as the device writes there, if at all.
    pub const LAZILY_ALLOCATED: Self = MemoryPropertyFlags(16);
    /// The device alone sees it, in protected queues.
    pub const PROTECTED: Self = MemoryPropertyFlags(32);
    /// What the device writes it sees itself without barriers (VK_AMD_device_coherent_memory).
    pub const DEVICE_COHERENT_AMD: Self = MemoryPropertyFlags(64);
    /// Other devices reach it over a network (VK_NV_external_memory_rdma).
    pub const RDMA_CAPABLE_NV: Self = MemoryPropertyFlags(256);

    /// Whether all of these flags are set.
    pub fn contains(self, flags: Self) -> bool {
        self.0 & flags.0 == flags.0
    }
}

impl BitOr for MemoryPropertyFlags {
    type Output = Self;

    fn bitor(self, other: Self) -> Self {
        MemoryPropertyFlags(self.0 | other.0)
    }
}

/// A memory type of a device: `VkMemoryType`.
#[repr(C)]
#[derive(Clone, Copy, Debug, Default, PartialEq, Eq)]
pub struct MemoryType {
    /// What memory of this type is like.
    pub property_flags: MemoryPropertyFlags,
    /// The index of the heap that it lies in.
    pub heap_index: u32,
}

/// A heap of a device: `VkMemoryHeap`.
#[repr(C)]
#[derive(Clone, Copy, Debug, Default, PartialEq, Eq)]
pub struct MemoryHeap {
    /// Its size in bytes.
    pub size: u64,
    /// `VkMemoryHeapFlags`.
    pub flags: u32,
}

/// The memory types and heaps of a device: `VkPhysicalDeviceMemoryProperties`. Another binding's type of that name can be transmuted to it.
#[repr(C)]
#[derive(Clone, Copy, Debug, Default, PartialEq, Eq)]
pub struct PhysicalDeviceMemoryProperties {
    /// How many of the memory types count.
    pub memory_type_count: u32,
    /// The memory types.
    pub memory_types: [MemoryType; 32],
    /// How many of the heaps count.
    pub memory_heap_count: u32,
    /// The heaps.
    pub memory_heaps: [MemoryHeap; 16],
}

/// What a buffer or an image needs: `VkMemoryRequirements`.
#[repr(C)]
#[derive(Clone, Copy, Debug, Default, PartialEq, Eq)]
pub struct MemoryRequirements {
    /// How many bytes: not 0.
    pub size: u64,
    /// A power of two.
    pub alignment: u64,
    /// Bit `i` says that memory type `i` serves.
    pub memory_type_bits: u32,
}

/// `VkMemoryAllocateInfo`.
#[repr(C)]
#[derive(Debug)]
pub struct MemoryAllocateInfo {
    /// `STRUCTURE_TYPE`.
    pub s_type: i32,
    /// What is chained to it, or null.
    pub next: *const c_void,
    /// How many bytes.
    pub allocation_size: u64,
    /// Of which memory type.
    pub memory_type_index: u32,
}

impl MemoryAllocateInfo {
    /// `VK_STRUCTURE_TYPE_MEMORY_ALLOCATE_INFO`.
    pub const STRUCTURE_TYPE: i32 = 5;
}

/// `VkMemoryAllocateFlagsInfo`.
#[repr(C)]
#[derive(Debug)]
pub struct MemoryAllocateFlagsInfo {
    /// `STRUCTURE_TYPE`.
    pub s_type: i32,
    /// What is chained to it, or null.
    pub next: *const c_void,
    /// `VkMemoryAllocateFlags`.
    pub flags: u32,
    /// The devices of a group; it counts where a flag says so.
    pub device_mask: u32,
}

impl MemoryAllocateFlagsInfo {
    /// `VK_STRUCTURE_TYPE_MEMORY_ALLOCATE_FLAGS_INFO`.
    pub const STRUCTURE_TYPE: i32 = 1_000_060_000;
    /// `VK_MEMORY_ALLOCATE_DEVICE_ADDRESS_BIT`: shaders may read the address of what lies in the memory.
    pub const DEVICE_ADDRESS: u32 = 2;
}

/// `VkMemoryDedicatedAllocateInfo`.
#[repr(C)]
#[derive(Debug)]
pub struct MemoryDedicatedAllocateInfo {
    /// `STRUCTURE_TYPE`.
    pub s_type: i32,
    /// What is chained to it, or null.
    pub next: *const c_void,
    /// The image that the memory is for, or none.
    pub image: Image,
    /// The buffer that the memory is for, or none.
    pub buffer: Buffer,
}

impl MemoryDedicatedAllocateInfo {
    /// `VK_STRUCTURE_TYPE_MEMORY_DEDICATED_ALLOCATE_INFO`.
    pub const STRUCTURE_TYPE: i32 = 1_000_127_001;
}

/// `VkMappedMemoryRange`.
#[repr(C)]
#[derive(Debug)]
pub struct MappedMemoryRange {
    /// `STRUCTURE_TYPE`.
    pub s_type: i32,
    /// Null.
    pub next: *const c_void,
    /// The memory, which is mapped.
    pub memory: DeviceMemory,
    /// Where the range begins, in bytes.
    pub offset: u64,
    /// How many bytes it has.
    pub size: u64,
}

impl MappedMemoryRange {
    /// `VK_STRUCTURE_TYPE_MAPPED_MEMORY_RANGE`.
    pub const STRUCTURE_TYPE: i32 = 6;
}

/// `VK_SUCCESS`.
pub(crate) const SUCCESS: i32 = 0;

/// `VK_ERROR_OUT_OF_DEVICE_MEMORY`.
pub(crate) const OUT_OF_DEVICE_MEMORY: i32 = -2;

/// `VK_WHOLE_SIZE`.
pub(crate) const WHOLE_SIZE: u64 = u64::MAX;

/// `vkAllocateMemory`: device, what is asked for, no host allocator, where the memory's handle is written; it returns a `VkResult`.
pub type AllocateMemory =
    unsafe extern "system" fn(*mut c_void, *const MemoryAllocateInfo, *const c_void, *mut DeviceMemory) -> i32;

/// `vkFreeMemory`: device, memory, no host allocator.
pub type FreeMemory = unsafe extern "system" fn(*mut c_void, DeviceMemory, *const c_void);

/// `vkMapMemory`: device, memory, offset, size, no flags, where the address is written; it returns a `VkResult`.
pub type MapMemory = unsafe extern "system" fn(*mut c_void, DeviceMemory, u64, u64, u32, *mut *mut c_void) -> i32;

/// `vkUnmapMemory`: device, memory.
pub type UnmapMemory = unsafe extern "system" fn(*mut c_void, DeviceMemory);

/// `vkFlushMappedMemoryRanges` or `vkInvalidateMappedMemoryRanges`: device, how many ranges, the ranges; it returns a `VkResult`.
pub type SyncMappedMemoryRanges = unsafe extern "system" fn(*mut c_void, u32, *const MappedMemoryRange) -> i32;

/// Any of Vulkan's functions, as `vkGetDeviceProcAddr` returns it (`PFN_vkVoidFunction`).
pub type VoidFunction = unsafe extern "system" fn();

/// The six functions of a device that the allocator calls.
#[derive(Clone, Copy, Debug)]
pub struct DeviceFunctions {
    /// `vkAllocateMemory`.
    pub allocate_memory: AllocateMemory,
    /// `vkFreeMemory`.
    pub free_memory: FreeMemory,
    /// `vkMapMemory`.
    pub map_memory: MapMemory,
    /// `vkUnmapMemory`.
    pub unmap_memory: UnmapMemory,
    /// `vkFlushMappedMemoryRanges`.
    pub flush_mapped_memory_ranges: SyncMappedMemoryRanges,
    /// `vkInvalidateMappedMemoryRanges`.
    pub invalidate_mapped_memory_ranges: SyncMappedMemoryRanges,
}

impl DeviceFunctions {
    /// The functions by their names, as `vkGetDeviceProcAddr` returns them; `None` where one is missing.
    ///
    /// # Safety
    ///
    /// `find` returns the function of that name, with the C type that Vulkan gives it, or `None`.
    pub unsafe fn load(mut find: impl FnMut(&CStr) -> Option<VoidFunction>) -> Option<Self> {
        let mut named = |name: &CStr| find(name);
        // SAFETY: the function of each name has the type that stands here for it.
        unsafe {
            Some(DeviceFunctions {
                allocate_memory: std::mem::transmute::<VoidFunction, AllocateMemory>(named(c"vkAllocateMemory")?),
                free_memory: std::mem::transmute::<VoidFunction, FreeMemory>(named(c"vkFreeMemory")?),
                map_memory: std::mem::transmute::<VoidFunction, MapMemory>(named(c"vkMapMemory")?),
                unmap_memory: std::mem::transmute::<VoidFunction, UnmapMemory>(named(c"vkUnmapMemory")?),
                flush_mapped_memory_ranges: std::mem::transmute::<VoidFunction, SyncMappedMemoryRanges>(named(
                    c"vkFlushMappedMemoryRanges",
                )?),
                invalidate_mapped_memory_ranges: std::mem::transmute::<VoidFunction, SyncMappedMemoryRanges>(named(
                    c"vkInvalidateMappedMemoryRanges",
                )?),
            })
        }
    }
}

#[cfg(test)]
mod tests {
    use super::*;
    use std::mem::{offset_of, size_of};

    /// Sizes and offsets that a C compiler gives vulkan.h's structs on 64-bit systems.
    #[test]
    fn structs_are_laid_out_as_in_vulkan_h() {
        assert_eq!(size_of::<PhysicalDeviceMemoryProperties>(), 520);
        assert_eq!(offset_of!(PhysicalDeviceMemoryProperties, memory_heap_count), 260);
        assert_eq!(offset_of!(PhysicalDeviceMemoryProperties, memory_heaps), 264);
        assert_eq!(size_of::<MemoryRequirements>(), 24);
        assert_eq!(size_of::<MemoryAllocateInfo>(), 32);
        assert_eq!(offset_of!(MemoryAllocateInfo, allocation_size), 16);
        assert_eq!(offset_of!(MemoryAllocateInfo, memory_type_index), 24);
        assert_eq!(size_of::<MemoryAllocateFlagsInfo>(), 24);
        assert_eq!(offset_of!(MemoryAllocateFlagsInfo, flags), 16);
        assert_eq!(size_of::<MemoryDedicatedAllocateInfo>(), 32);
        assert_eq!(offset_of!(MemoryDedicatedAllocateInfo, image), 16);
        assert_eq!(offset_of!(MemoryDedicatedAllocateInfo, buffer), 24);
        assert_eq!(size_of::<MappedMemoryRange>(), 40);
        assert_eq!(offset_of!(MappedMemoryRange, memory), 16);
        assert_eq!(offset_of!(MappedMemoryRange, size), 32);
    }
}
