//! The part of Vulkan's ABI that makes buffers and images and reads budgets, as the specification lays it out.

use super::abi::{Buffer, DeviceMemory, Image, MemoryRequirements, PhysicalDeviceMemoryProperties, VoidFunction};
use std::ffi::{c_void, CStr};
use std::mem::transmute;

/// `VkBufferCreateInfo`. Another binding's struct of that name has this layout (ash: `&*(&raw const info).cast()`).
#[repr(C)]
#[derive(Clone, Copy, Debug)]
pub struct BufferCreateInfo {
    /// `STRUCTURE_TYPE`.
    pub s_type: i32,
    /// What is chained to it, or null.
    pub next: *const c_void,
    /// `VkBufferCreateFlags`.
    pub flags: u32,
    /// How many bytes.
    pub size: u64,
    /// `VkBufferUsageFlags`.
    pub usage: u32,
    /// `VkSharingMode`.
    pub sharing_mode: i32,
    /// How many queue families there are.
    pub queue_family_index_count: u32,
    /// The queue families, which count where it is shared by several at once.
    pub queue_family_indices: *const u32,
}

impl BufferCreateInfo {
    /// `VK_STRUCTURE_TYPE_BUFFER_CREATE_INFO`.
    pub const STRUCTURE_TYPE: i32 = 12;

    /// A buffer of so many bytes for these uses (`VkBufferUsageFlags`), of one queue family at a time.
    pub const fn new(size: u64, usage: u32) -> Self {
        BufferCreateInfo {
            s_type: Self::STRUCTURE_TYPE,
            next: std::ptr::null(),
            flags: 0,
            size,
            usage,
            sharing_mode: 0,
            queue_family_index_count: 0,
            queue_family_indices: std::ptr::null(),
        }
    }
}

/// `VkImageCreateInfo`. Another binding's struct of that name has this layout (ash: `&*(&raw const info).cast()`).
#[repr(C)]
#[derive(Clone, Copy, Debug)]
pub struct ImageCreateInfo {
    /// `STRUCTURE_TYPE`.
    pub s_type: i32,
    /// What is chained to it, or null.
    pub next: *const c_void,
    /// `VkImageCreateFlags`.
    pub flags: u32,
    /// `VkImageType`.
    pub image_type: i32,
    /// `VkFormat`.
    pub format: i32,
    /// Width, height and depth.
    pub extent: [u32; 3],
    /// How many mip levels it has.
    pub mip_levels: u32,
    /// How many layers it has.
    pub array_layers: u32,
    /// `VkSampleCountFlagBits`.
    pub samples: u32,
    /// `VkImageTiling`.
    pub tiling: i32,
    /// `VkImageUsageFlags`.
    pub usage: u32,
    /// `VkSharingMode`.
    pub sharing_mode: i32,
    /// How many queue families there are.
    pub queue_family_index_count: u32,
    /// The queue families, which count where it is shared by several at once.
    pub queue_family_indices: *const u32,
    /// `VkImageLayout`.
    pub initial_layout: i32,
}

impl ImageCreateInfo {
    /// `VK_STRUCTURE_TYPE_IMAGE_CREATE_INFO`.
    pub const STRUCTURE_TYPE: i32 = 14;
    /// `VK_IMAGE_TILING_LINEAR`.
    pub const LINEAR: i32 = 1;
}

/// `VkMemoryDedicatedRequirements`.
#[repr(C)]
#[derive(Debug)]
pub struct MemoryDedicatedRequirements {
    /// `STRUCTURE_TYPE`.
    pub s_type: i32,
    /// What is chained to it, or null.
    pub next: *mut c_void,
    /// Whether the driver prefers memory for the resource alone: a `VkBool32`.
    pub prefers_dedicated_allocation: u32,
    /// Whether it requires that.
    pub requires_dedicated_allocation: u32,
}

impl MemoryDedicatedRequirements {
    /// `VK_STRUCTURE_TYPE_MEMORY_DEDICATED_REQUIREMENTS`.
    pub const STRUCTURE_TYPE: i32 = 1_000_127_000;
}

/// `VkMemoryRequirements2`.
#[repr(C)]
#[derive(Debug)]
pub struct MemoryRequirements2 {
    /// `STRUCTURE_TYPE`.
    pub s_type: i32,
    /// What is chained to it, or null.
    pub next: *mut c_void,
    /// What the resource needs.
    pub memory_requirements: MemoryRequirements,
}

impl MemoryRequirements2 {
    /// `VK_STRUCTURE_TYPE_MEMORY_REQUIREMENTS_2`.
    pub const STRUCTURE_TYPE: i32 = 1_000_146_003;
}

/// `VkBufferMemoryRequirementsInfo2` or `VkImageMemoryRequirementsInfo2`: which resource is asked about.
#[repr(C)]
#[derive(Debug)]
pub struct ResourceMemoryRequirementsInfo2<R> {
    /// `BUFFER` or `IMAGE`.
    pub s_type: i32,
    /// What is chained to it, or null.
    pub next: *const c_void,
    /// The buffer or the image.
    pub resource: R,
}

impl ResourceMemoryRequirementsInfo2<Buffer> {
    /// `VK_STRUCTURE_TYPE_BUFFER_MEMORY_REQUIREMENTS_INFO_2`.
    pub const STRUCTURE_TYPE: i32 = 1_000_146_000;
}

impl ResourceMemoryRequirementsInfo2<Image> {
    /// `VK_STRUCTURE_TYPE_IMAGE_MEMORY_REQUIREMENTS_INFO_2`.
    pub const STRUCTURE_TYPE: i32 = 1_000_146_001;
}

/// `vkCreateBuffer` or `vkCreateImage`: device, description, no host allocator, where the handle is written; it returns a `VkResult`.
pub type CreateResource<I, R> = unsafe extern "system" fn(*mut c_void, *const I, *const c_void, *mut R) -> i32;

/// `vkDestroyBuffer` or `vkDestroyImage`: device, resource, no host allocator.
pub type DestroyResource<R> = unsafe extern "system" fn(*mut c_void, R, *const c_void);

/// `vkGetBufferMemoryRequirements` or `vkGetImageMemoryRequirements`: device, resource, where the answer is written.
pub type GetMemoryRequirements<R> = unsafe extern "system" fn(*mut c_void, R, *mut MemoryRequirements);

/// `vkBindBufferMemory` or `vkBindImageMemory`: device, resource, memory, offset; it returns a `VkResult`.
pub type BindMemory<R> = unsafe extern "system" fn(*mut c_void, R, DeviceMemory, u64) -> i32;

/// `vkGetBufferMemoryRequirements2` or `vkGetImageMemoryRequirements2`: device, which resource, where the answer is written.
pub type GetMemoryRequirements2<R> =
    unsafe extern "system" fn(*mut c_void, *const ResourceMemoryRequirementsInfo2<R>, *mut MemoryRequirements2);

/// The functions of a device that make one sort of resource.
#[derive(Clone, Copy, Debug)]
pub struct FunctionsOf<I, R> {
    /// `vkCreate..`.
    pub create: CreateResource<I, R>,
    /// `vkDestroy..`.
    pub destroy: DestroyResource<R>,
    /// `vkGet..MemoryRequirements`.
    pub get_memory_requirements: GetMemoryRequirements<R>,
    /// `vkBind..Memory`.
    pub bind_memory: BindMemory<R>,
    /// `vkGet..MemoryRequirements2`; without it no resource has memory of its own because the driver requires or prefers that.
    pub get_memory_requirements2: Option<GetMemoryRequirements2<R>>,
}

/// The functions of a device that make buffers and images.
#[derive(Clone, Copy, Debug)]
pub struct ResourceFunctions {
    /// Those for buffers.
    pub buffers: FunctionsOf<BufferCreateInfo, Buffer>,
    /// Those for images.
    pub images: FunctionsOf<ImageCreateInfo, Image>,
}

impl ResourceFunctions {
    /// The functions by their names, as `vkGetDeviceProcAddr` returns them; `None` where one of Vulkan 1.0 is missing. Those of 1.1 are asked
    /// for where the device has that version.
    ///
    /// # Safety
    ///
    /// `find` returns the function of that name, with the C type that Vulkan gives it, or `None`.
    pub unsafe fn load(has_1_1: bool, mut find: impl FnMut(&CStr) -> Option<VoidFunction>) -> Option<Self> {
        let mut of_1_1 = |name: &CStr| find(name).filter(|_| has_1_1);
        let (buffer2, image2) = (of_1_1(c"vkGetBufferMemoryRequirements2"), of_1_1(c"vkGetImageMemoryRequirements2"));
        // SAFETY: the function of each name has the type that stands here for it.
        unsafe {
            let buffers = FunctionsOf {
                create: transmute::<VoidFunction, CreateResource<_, _>>(find(c"vkCreateBuffer")?),
                destroy: transmute::<VoidFunction, DestroyResource<_>>(find(c"vkDestroyBuffer")?),
                get_memory_requirements: transmute::<VoidFunction, GetMemoryRequirements<_>>(find(
                    c"vkGetBufferMemoryRequirements",
                )?),
                bind_memory: transmute::<VoidFunction, BindMemory<_>>(find(c"vkBindBufferMemory")?),
                get_memory_requirements2: buffer2.map(|it| transmute::<VoidFunction, GetMemoryRequirements2<_>>(it)),
            };
            let images = FunctionsOf {
                create: transmute::<VoidFunction, CreateResource<_, _>>(find(c"vkCreateImage")?),
                destroy: transmute::<VoidFunction, DestroyResource<_>>(find(c"vkDestroyImage")?),
                get_memory_requirements: transmute::<VoidFunction, GetMemoryRequirements<_>>(find(
                    c"vkGetImageMemoryRequirements",
                )?),
                bind_memory: transmute::<VoidFunction, BindMemory<_>>(find(c"vkBindImageMemory")?),
                get_memory_requirements2: image2.map(|it| transmute::<VoidFunction, GetMemoryRequirements2<_>>(it)),
            };
            Some(ResourceFunctions { buffers, images })
        }
    }
}

/// `VkPhysicalDeviceMemoryBudgetPropertiesEXT`.
#[repr(C)]
#[derive(Debug)]
pub struct MemoryBudgetProperties {
    /// `STRUCTURE_TYPE`.
    pub s_type: i32,
    /// What is chained to it, or null.
    pub next: *mut c_void,
    /// How many bytes of each heap the process may have.
    pub heap_budget: [u64; 16],
    /// How many it has.
    pub heap_usage: [u64; 16],
}

impl MemoryBudgetProperties {
    /// `VK_STRUCTURE_TYPE_PHYSICAL_DEVICE_MEMORY_BUDGET_PROPERTIES_EXT`.
    pub const STRUCTURE_TYPE: i32 = 1_000_237_000;
}

/// `VkPhysicalDeviceMemoryProperties2`.
#[repr(C)]
#[derive(Debug)]
pub struct PhysicalDeviceMemoryProperties2 {
    /// `STRUCTURE_TYPE`.
    pub s_type: i32,
    /// What is chained to it, or null.
    pub next: *mut c_void,
    /// The memory types and heaps.
    pub memory_properties: PhysicalDeviceMemoryProperties,
}

impl PhysicalDeviceMemoryProperties2 {
    /// `VK_STRUCTURE_TYPE_PHYSICAL_DEVICE_MEMORY_PROPERTIES_2`.
    pub const STRUCTURE_TYPE: i32 = 1_000_059_006;
}

/// `vkGetPhysicalDeviceMemoryProperties2` or its `KHR`: physical device, where the answer is written.
pub type GetPhysicalDeviceMemoryProperties2 =
    unsafe extern "system" fn(*mut c_void, *mut PhysicalDeviceMemoryProperties2);

#[cfg(test)]
mod tests {
    use super::*;
    use std::mem::{offset_of, size_of};

    /// Sizes and offsets that a C compiler gives vulkan.h's structs on 64-bit systems.
    #[test]
    fn structs_are_laid_out_as_in_vulkan_h() {
        assert_eq!(size_of::<BufferCreateInfo>(), 56);
        assert_eq!(offset_of!(BufferCreateInfo, size), 24);
        assert_eq!(offset_of!(BufferCreateInfo, queue_family_indices), 48);
        assert_eq!(size_of::<ImageCreateInfo>(), 88);
        assert_eq!(offset_of!(ImageCreateInfo, extent), 28);
        assert_eq!(offset_of!(ImageCreateInfo, tiling), 52);
        assert_eq!(offset_of!(ImageCreateInfo, queue_family_indices), 72);
        assert_eq!(offset_of!(ImageCreateInfo, initial_layout), 80);
        assert_eq!(size_of::<MemoryDedicatedRequirements>(), 24);
        assert_eq!(offset_of!(MemoryDedicatedRequirements, prefers_dedicated_allocation), 16);
        assert_eq!(size_of::<MemoryRequirements2>(), 40);
        assert_eq!(offset_of!(MemoryRequirements2, memory_requirements), 16);
        assert_eq!(size_of::<ResourceMemoryRequirementsInfo2<Buffer>>(), 24);
        assert_eq!(size_of::<MemoryBudgetProperties>(), 272);
        assert_eq!(offset_of!(MemoryBudgetProperties, heap_usage), 144);
        assert_eq!(size_of::<PhysicalDeviceMemoryProperties2>(), 536);
        assert_eq!(offset_of!(PhysicalDeviceMemoryProperties2, memory_properties), 16);
    }
}
