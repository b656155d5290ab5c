//! Buffers and images on a Vulkan device, where there is one: the driver binds them where the allocator says, and the validation layer,
//! where it is installed, has nothing to say.
#![allow(missing_docs)]

#[path = "../examples/support/vulkan.rs"]
mod vulkan;

use pilhangko::vulkan::{
    AllocationCreateDesc, AllocationScheme, Allocator, AllocatorCreateDesc, BufferCreateInfo, MemoryRequirements,
    Placement, PoolCreateDesc,
};
use pilhangko::{AllocationSizes, MemoryLocation};
use vulkan::{image_info, Resource, Vulkan};

const LOCATIONS: [MemoryLocation; 4] =
    [MemoryLocation::Unknown, MemoryLocation::GpuOnly, MemoryLocation::CpuToGpu, MemoryLocation::GpuToCpu];

/// Buffers, and images of both kinds, of different sizes.
fn created(vulkan: &Vulkan, index: u32) -> (Resource, MemoryRequirements, bool) {
    let (resource, needs) = match index % 3 {
        0 => vulkan.create_buffer(1 + u64::from(index) * 1000),
        kind => vulkan.create_image(1 + index, 200 - index, kind == 1),
    };
    (resource, needs, index % 3 != 2)
}

fn own(resource: Resource) -> AllocationScheme {
    match resource {
        Resource::Buffer(buffer) => AllocationScheme::DedicatedBuffer(buffer),
        Resource::Image(image) => AllocationScheme::DedicatedImage(image),
    }
}

#[test]
fn resources_are_bound_where_the_allocator_says() {
    let Some(vulkan) = Vulkan::open() else {
        eprintln!("no Vulkan device here: no real driver was asked");
        return;
    };
    let mut allocator = Allocator::new(&AllocatorCreateDesc::new(vulkan.device())).unwrap();
    let mut live = Vec::new();
    for index in 0..150 {
        let (resource, requirements, linear) = created(&vulkan, index);
        let mut it = allocator
            .allocate(&AllocationCreateDesc {
                name: "resource",
                requirements,
                location: LOCATIONS[index as usize % 4],
                linear,
                allocation_scheme: if index % 10 == 0 { own(resource) } else { AllocationScheme::GpuAllocatorManaged },
            })
            .unwrap();
        assert!(it.offset() % requirements.alignment == 0 && it.size() == requirements.size);
        vulkan.bind(resource, &it);
        if let Some(bytes) = it.mapped_slice_mut() {
            bytes.fill(index as u8);
        }
        live.push((resource, it, index));
    }
    for (resource, it, index) in live {
        assert!(it.mapped_slice().is_none_or(|bytes| bytes.iter().all(|&byte| byte == index as u8)));
        vulkan.destroy(resource);
        allocator.free(it).unwrap();
    }
    drop(allocator);
    assert_eq!(vulkan.messages(), 0);
}

/// Buffers and images that the allocator makes: staging, attachments that are stored nowhere, and others.
#[test]
fn resources_are_made_with_their_memory() {
    let Some(vulkan) = Vulkan::open() else {
        eprintln!("no Vulkan device here: no real driver was asked");
        return;
    };
    let mut allocator = Allocator::new(&AllocatorCreateDesc::new(vulkan.whole_device())).unwrap();
    let (mut buffers, mut images) = (Vec::new(), Vec::new());
    for index in 0..150u32 {
        let own = Placement { dedicated: true, ..Placement::new("own", MemoryLocation::GpuToCpu) };
        let placement = [Placement::staging("staging"), Placement::new("target", MemoryLocation::GpuOnly), own];
        let placement = placement[index as usize % 3];
        let attachment = image_info(1 + index, 200 - index, false, 0x40 | 0x10); // a transient one, for colours
        let linear = image_info(1 + index, 200 - index, true, 1 | 2);
        // SAFETY: the device makes such buffers and images.
        unsafe {
            buffers.push(
                allocator.create_buffer(&BufferCreateInfo::new(1 + u64::from(index) * 999, 3), &placement).unwrap(),
            );
            images.push(allocator.create_image(&linear, &placement).unwrap());
            images.push(allocator.create_image(&attachment, &Placement::transient("attachment")).unwrap());
        }
    }
    if vulkan.has_budgets {
        allocator.update_budgets().unwrap();
        assert!(allocator.read_heap(0).unwrap().budget.is_some_and(|it| it.budget > 0));
    }
    let held = (0..).map_while(|heap| allocator.read_heap(heap)).map(|it| it.held);
    assert_eq!(held.sum::<u64>(), allocator.capacity());
    for (_, it) in &mut buffers {
        if let Some(bytes) = it.mapped_slice_mut() {
            bytes.fill(7);
            allocator.flush(it, ..).unwrap();
        }
    }
    for (buffer, it) in buffers {
        assert!(it.mapped_slice().is_none_or(|bytes| bytes.iter().all(|&byte| byte == 7)));
        // SAFETY: it is bound there, and the device doesn't use it.
        unsafe { allocator.destroy_buffer(buffer, it) }.unwrap();
    }
    for (image, it) in images {
        // SAFETY: it is bound there, and the device doesn't use it.
        unsafe { allocator.destroy_image(image, it) }.unwrap();
    }
    drop(allocator);
    assert_eq!(vulkan.messages(), 0);
}

/// A pool and its allocator over one device: the blocks of both are what is held.
#[test]
fn a_pool_has_blocks_of_its_own() {
    let Some(vulkan) = Vulkan::open() else {
        eprintln!("no Vulkan device here: no real driver was asked");
        return;
    };
    let mut allocator = Allocator::new(&AllocatorCreateDesc::new(vulkan.whole_device())).unwrap();
    let allocation_sizes = AllocationSizes::new(4 << 20, 4 << 20);
    let desc = PoolCreateDesc { allocation_sizes, most_blocks: Some(2), ..PoolCreateDesc::default() };
    let mut pool = allocator.create_pool(&desc).unwrap();
    let placement = Placement::new("buffer", MemoryLocation::CpuToGpu);
    let mut live = Vec::new();
    for index in 0..40u64 {
        let info = BufferCreateInfo::new(100_000 + index, 3);
        let a = if index % 4 == 0 { &mut allocator } else { &mut pool };
        // SAFETY: the device makes such buffers.
        let (buffer, mut it) = unsafe { a.create_buffer(&info, &placement) }.unwrap();
        it.mapped_slice_mut().expect("uploads are mapped").fill(index as u8);
        live.push((index, buffer, it));
    }
    assert_eq!(pool.capacity(), 4 << 20);
    let held = (0..).map_while(|heap| pool.read_heap(heap)).map(|it| it.held);
    assert_eq!(held.sum::<u64>(), allocator.capacity() + pool.capacity());
    for (index, buffer, it) in live {
        assert!(it.mapped_slice().expect("uploads are mapped").iter().all(|&byte| byte == index as u8));
        let a = if index % 4 == 0 { &mut allocator } else { &mut pool };
        // SAFETY: it is bound there, and the device doesn't use it.
        unsafe { a.destroy_buffer(buffer, it) }.unwrap();
    }
    drop((allocator, pool));
    assert_eq!(vulkan.messages(), 0);
}
