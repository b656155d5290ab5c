//! Vulkan's allocator, over ash.

mod allocation;
mod allocator;
mod device;
mod slab;

pub use allocation::Allocation;
pub use allocator::{AllocationCreateDesc, AllocationScheme, Allocator, AllocatorCreateDesc};
pub use slab::MappedAllocationSlab;
