//! The DirectX 12 allocator, under the names of the crate gpu-allocator. It calls the interfaces of a device by their binary interface, so that
//! any binding of DirectX 12 serves: pass its pointers (windows: `device.as_raw()`), and take a resource's. Structs have the layout of
//! d3d12.h's, and enums their numbers.
//!
//! Interfaces have Windows' calling convention, as vkd3d's do on Linux.
//!
//! ```no_run
//! use pilhangko::d3d12::{
//!     Allocator, AllocatorCreateDesc, ID3D12DeviceVersion, Interface, ResourceCategory, ResourceCreateDesc, ResourceDesc,
//!     ResourceStateOrBarrierLayout, ResourceType,
//! };
//! use pilhangko::MemoryLocation;
//! # let id3d12_device = std::ptr::null_mut();
//! const GENERIC_READ: u32 = 0xac3;
//!
//! // SAFETY: it is an ID3D12Device.
//! let device = unsafe { Interface::from_borrowed(id3d12_device) }.expect("there is a device");
//! let mut allocator = Allocator::new(&AllocatorCreateDesc::new(ID3D12DeviceVersion::newest(&device)))?;
//! let upload = allocator.create_resource(&ResourceCreateDesc {
//!     name: "upload buffer",
//!     memory_location: MemoryLocation::CpuToGpu,
//!     resource_category: ResourceCategory::Buffer,
//!     resource_desc: &ResourceDesc::buffer(65536),
//!     castable_formats: &[],
//!     clear_value: None,
//!     initial_state_or_layout: ResourceStateOrBarrierLayout::ResourceState(GENERIC_READ),
//!     resource_type: &ResourceType::Placed,
//! })?;
//! let id3d12_resource = upload.resource().as_raw(); // map it, record copies of it ..
//! allocator.free_resource(upload)?;
//! # Ok::<(), pilhangko::AllocationError>(())
//! ```

mod abi;
mod allocation;
mod allocator;
mod allocator_handle;
mod capture;
mod defragmentation;
mod device;
mod interface;

pub use crate::capture::{Capture, CaptureEnd};
pub use crate::defragmentation::{DefragmentationStatistics, MoveKey};
pub use crate::statistics::TypeStatistics;
pub use abi::{ClearValue, HeapProperties, ResourceDesc};
pub use allocation::{Allocation, Resource};
pub use allocator::{
    AllocationCreateDesc, Allocator, AllocatorCreateDesc, CommittedAllocationStatistics, ResourceCategory,
    ResourceCreateDesc, ResourceStateOrBarrierLayout, ResourceType,
};
pub use defragmentation::{Defragmentation, Move};
pub use device::ID3D12DeviceVersion;
pub use interface::Interface;
