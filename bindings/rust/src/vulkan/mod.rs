//! The Vulkan allocator, under the names of the crate gpu-allocator. It asks the driver through function pointers, so that any binding
//! of Vulkan serves.
//!
//! ```no_run
//! use pilhangko::vulkan::{
//!     AllocationCreateDesc, AllocationScheme, Allocator, AllocatorCreateDesc, Device, DeviceFunctions, DeviceLimits,
//!     MemoryRequirements, PhysicalDeviceMemoryProperties, VoidFunction,
//! };
//! use pilhangko::MemoryLocation;
//! # fn function_of(_: &std::ffi::CStr) -> Option<VoidFunction> { None }
//! # let (handle, properties, granularity, atom, most) = (1, PhysicalDeviceMemoryProperties::default(), 1, 1, 4096);
//!
//! // SAFETY: functions, properties, limits and handle are those of one live device, which outlives the allocator.
//! let functions = unsafe { DeviceFunctions::load(function_of) }.expect("Vulkan 1.0 has these functions");
//! let limits = DeviceLimits {
//!     buffer_image_granularity: granularity,
//!     non_coherent_atom_size: atom,
//!     max_memory_allocation_count: most,
//! };
//! let device = unsafe { Device::new(handle, functions, properties, limits) };
//! let mut allocator = Allocator::new(&AllocatorCreateDesc::new(device))?;
//! let mut upload = allocator.allocate(&AllocationCreateDesc {
//!     name: "upload buffer",
//!     requirements: MemoryRequirements { size: 65536, alignment: 256, memory_type_bits: u32::MAX },
//!     location: MemoryLocation::CpuToGpu,
//!     linear: true,
//!     allocation_scheme: AllocationScheme::GpuAllocatorManaged,
//! })?;
//! upload.mapped_slice_mut().expect("uploads are mapped").fill(7);
//! allocator.free(upload)?;
//! # Ok::<(), pilhangko::AllocationError>(())
//! ```

mod abi;
mod allocation;
mod allocator;
mod allocator_handle;
mod answer;
mod budgets;
mod capture;
mod defragmentation;
mod device;
mod flushing;
mod options;
mod pool;
mod reading;
mod resource_abi;
mod resources;
mod shared;
mod transient;
mod upload_ring;
mod visit;

pub use abi::{
    AllocateMemory, Buffer, DeviceFunctions, DeviceMemory, FreeMemory, Image, MapMemory, MappedMemoryRange,
    MemoryAllocateFlagsInfo, MemoryAllocateInfo, MemoryDedicatedAllocateInfo, MemoryHeap, MemoryPropertyFlags,
    MemoryRequirements, MemoryType, PhysicalDeviceMemoryProperties, SyncMappedMemoryRanges, UnmapMemory, VoidFunction,
};
pub(crate) use allocator::next_owner;
pub(crate) use allocator_handle::location_number;

pub use crate::capture::{Capture, CaptureEnd};
pub use crate::defragmentation::{DefragmentationStatistics, MoveKey};
pub use crate::statistics::TypeStatistics;
pub use allocation::{Allocation, AllocationBlock};
pub use allocator::{AllocationCreateDesc, AllocationScheme, Allocator, AllocatorCreateDesc};
pub use budgets::{Heap, HeapBudget};
pub use defragmentation::{Defragmentation, Move};
pub use device::{Device, DeviceLimits};
pub use options::{AllocationOptions, Chain};
pub use pool::PoolCreateDesc;
pub use resource_abi::{
    BindMemory, BufferCreateInfo, CreateResource, DestroyResource, FunctionsOf, GetMemoryRequirements,
    GetMemoryRequirements2, GetPhysicalDeviceMemoryProperties2, ImageCreateInfo, MemoryBudgetProperties,
    MemoryDedicatedRequirements, MemoryRequirements2, PhysicalDeviceMemoryProperties2, ResourceFunctions,
    ResourceMemoryRequirementsInfo2,
};
pub use resources::Placement;
pub use shared::SharedAllocator;
pub use transient::{Transient, TransientCreateDesc, TransientPlace, TransientResource, TransientSet};
pub use upload_ring::{Upload, UploadRing};
