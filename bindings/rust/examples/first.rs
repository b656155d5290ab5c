//! A buffer that the host writes, on a Vulkan device: the allocator in ten lines.

#[path = "support/vulkan.rs"]
mod vulkan;

use pilhangko::vulkan::{
    AllocationCreateDesc, AllocationScheme, Allocator, AllocatorCreateDesc, Device, MemoryRequirements,
};
use pilhangko::{MemoryLocation, Result};

fn upload(device: Device) -> Result<()> {
    let mut allocator = Allocator::new(&AllocatorCreateDesc::new(device))?;
    let mut upload = allocator.allocate(&AllocationCreateDesc {
        name: "upload buffer",
        requirements: MemoryRequirements { size: 65536, alignment: 256, memory_type_bits: u32::MAX },
        location: MemoryLocation::CpuToGpu,
        linear: true,
        allocation_scheme: AllocationScheme::GpuAllocatorManaged,
    })?;
    upload.mapped_slice_mut().expect("uploads are mapped").fill(7);
    println!("{} bytes at offset {} of their block", upload.size(), upload.offset());
    allocator.free(upload)?;
    Ok(())
}

fn main() -> Result<()> {
    match vulkan::Vulkan::open() {
        Some(vulkan) => upload(vulkan.device()),
        None => {
            println!("no Vulkan device here");
            Ok(())
        }
    }
}
