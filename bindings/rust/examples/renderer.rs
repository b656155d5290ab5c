//! 1,000 real buffers and images on a Vulkan device: each is made, written through its mapping and read back; half are destroyed in random
//! order while others come into their places, and at last all. With a folder as argument it leaves there what it asked of the allocator, as
//! a trace, and what it was told: `gpu_trace < FOLDER/renderer.trace` writes just FOLDER/renderer.replies.

#[path = "support/vulkan.rs"]
mod vulkan;

use pilhangko::vulkan::{Allocation, AllocationCreateDesc, AllocationScheme, Allocator, AllocatorCreateDesc};
use pilhangko::{AllocationSizes, MemoryLocation, Result};
use std::path::Path;
use vulkan::{Resource, Vulkan};

const RESOURCES: usize = 1000;
const MB: u64 = 1 << 20;

/// A resource, where it lies, and the byte that all of its own are.
struct Placed {
    resource: Resource,
    allocation: Allocation,
    pattern: u8,
}

struct Renderer<'a> {
    vulkan: &'a Vulkan,
    allocator: Allocator,
    random: u64,
    replies: Vec<String>,
}

impl Renderer<'_> {
    /// The same numbers on each run.
    fn below(&mut self, bound: u64) -> u64 {
        self.random = self.random.wrapping_mul(6364136223846793005).wrapping_add(1442695040888963407);
        (self.random >> 33) % bound
    }

    /// A third are images, half of these in the device's own layout; one in fifty has memory of its own.
    fn make(&mut self, index: usize) -> Result<Placed> {
        let (is_image, linear) = (index % 3 == 0, index % 6 != 0);
        let (width, height) = (1 + self.below(200) as u32, 1 + self.below(200) as u32);
        let size = if self.below(100) == 0 { 1 + self.below(9 * MB) } else { 1 + self.below(65536) };
        let (resource, requirements) =
            if is_image { self.vulkan.create_image(width, height, linear) } else { self.vulkan.create_buffer(size) };
        let allocation_scheme = match (self.below(50), resource) {
            (0, Resource::Buffer(buffer)) => AllocationScheme::DedicatedBuffer(buffer),
            (0, Resource::Image(image)) => AllocationScheme::DedicatedImage(image),
            _ => AllocationScheme::GpuAllocatorManaged,
        };
        let mut allocation = self.allocator.allocate(&AllocationCreateDesc {
            name: &format!("{} {index}", if is_image { "image" } else { "buffer" }),
            requirements,
            location: MemoryLocation::CpuToGpu,
            linear,
            allocation_scheme,
        })?;
        self.vulkan.bind(resource, &allocation);
        let pattern = self.below(256) as u8;
        allocation.mapped_slice_mut().expect("uploads are mapped").fill(pattern);
        let it = &allocation;
        let (place, chunk) = ((it.memory_type_index(), it.memory_block_index()), it.chunk_id().map_or(0, u64::from));
        self.replies.push(
            format!("ok type {} slot {} offset {} ", place.0, place.1, it.offset())
                + &format!("size {} chunk {chunk} dedicated {} mapped true", it.size(), it.is_dedicated()),
        );
        Ok(Placed { resource, allocation, pattern })
    }

    fn end(&mut self, placed: Placed) -> Result<()> {
        let bytes = placed.allocation.mapped_slice().expect("uploads are mapped");
        assert!(bytes.iter().all(|&byte| byte == placed.pattern), "another resource wrote here");
        self.vulkan.destroy(placed.resource);
        self.replies.push("ok".to_owned());
        Ok(self.allocator.free(placed.allocation)?)
    }

    fn run(&mut self) -> Result<()> {
        let mut live = (0..RESOURCES).map(|index| self.make(index)).collect::<Result<Vec<Placed>>>()?;
        let report = self.allocator.generate_report();
        println!("{RESOURCES} resources in {} blocks, {} MB", report.blocks.len(), report.total_capacity_bytes / MB);
        for count in (RESOURCES / 2..RESOURCES).rev() {
            let placed = live.swap_remove(self.below(count as u64 + 1) as usize);
            self.end(placed)?;
        }
        for index in 0..RESOURCES / 2 {
            live.push(self.make(index)?);
        }
        live.into_iter().try_for_each(|placed| self.end(placed))
    }
}

fn main() -> std::result::Result<(), Box<dyn std::error::Error>> {
    let Some(vulkan) = Vulkan::open() else {
        println!("no Vulkan device here");
        return Ok(());
    };
    println!("{}, validation {}", vulkan.device_name, if vulkan.validates { "on" } else { "off" });
    let sizes = AllocationSizes::new(8 * MB, 8 * MB).with_max_host_memblock_size(32 * MB);
    let desc =
        AllocatorCreateDesc { allocation_sizes: sizes, capture: true, ..AllocatorCreateDesc::new(vulkan.device()) };
    let allocator = Allocator::new(&desc)?;
    let mut renderer = Renderer { vulkan: &vulkan, allocator, random: 42, replies: vec!["ok".to_owned()] };
    renderer.run()?;
    let left = renderer.allocator.generate_report().allocations.len();
    let capture = renderer.allocator.destroy().ok_or("the calls are captured")?;
    renderer.replies.push("held 0".to_owned());
    if let Some(folder) = std::env::args_os().nth(1) {
        std::fs::write(Path::new(&folder).join("renderer.trace"), capture.to_string())?;
        std::fs::write(Path::new(&folder).join("renderer.replies"), renderer.replies.join("\n") + "\n")?;
    }
    println!("{left} allocations left, {} validation messages", vulkan.messages());
    if left + vulkan.messages() > 0 {
        Err("something is left, or was said".into())
    } else {
        Ok(())
    }
}
