//! Each request of the archive for host memory is refused in turn: the call says so and changes nothing, and the next try succeeds.

#[path = "../tests/common/mod.rs"]
pub(crate) mod common;
#[cfg(target_arch = "x86_64")]
#[path = "../tests/fake_d3d12/mod.rs"]
mod fake_d3d12;

use crate::heap::refusing::{has_refused, held, refuse};
use crate::memory_type::{MemoryRequest, Prepared};
use crate::plan::{MemoryNeeds, Resource};
use crate::virtual_block::VirtualRequest;
use crate::vulkan::{
    AllocationCreateDesc, AllocationScheme, Allocator, AllocatorCreateDesc, CaptureEnd, Defragmentation, Device,
    MemoryRequirements, Move, PoolCreateDesc, TransientCreateDesc, TransientResource, UploadRing,
};
use crate::{plan, AllocationError, AllocationSizes, Kind, MemoryLocation, MemoryType, Result, Ring, VirtualBlock};
use common::FakeDriver;

/// Names that are too long to be kept without host memory.
const NAME: &str =
    "a name of a hundred bytes or so, which has to lie in memory that the host is asked for by each of these calls";
const OTHER: &str = "another name of a hundred bytes or so, which has to lie in memory that the host is asked for by each of these calls";

/// Tries a call with its first request for host memory refused, then with its second one, and so on until it makes no more.
/// `unchanged` looks at what a refused call left. Returns what the call returned at last, and how often it was refused.
fn in_turn<S, T>(state: &mut S, mut call: impl FnMut(&mut S) -> Result<T>, mut unchanged: impl FnMut(&S)) -> (T, u64) {
    for nth in 1.. {
        refuse(nth);
        let result = call(state);
        let is_refused = has_refused();
        refuse(0);
        match result {
            Ok(value) => {
                assert!(!is_refused, "refused memory is told");
                return (value, nth - 1);
            }
            Err(error) => {
                assert!(is_refused);
                assert_eq!(error, AllocationError::HostOutOfMemory);
                unchanged(state);
            }
        }
    }
    unreachable!("a call makes finitely many requests")
}

#[test]
fn of_a_virtual_block() {
    let request = VirtualRequest { size: 10, alignment: 1, kind: Kind::Linear };
    let ((mut block, _), refusals) = in_turn(&mut (), |()| Ok((VirtualBlock::new(1000, 1)?, ())), |()| ());
    assert!(refusals > 0);
    for count in 0..20 {
        let untouched = |it: &VirtualBlock| assert_eq!(it.statistics().pieces, count);
        let (piece, refusals) = in_turn(&mut block, |it| it.allocate(&request, NAME), untouched);
        assert!(refusals > 0);
        let named = |it: &VirtualBlock| {
            assert_eq!(it.named_pieces().unwrap().last().map(|it| it.name.clone()), Some(NAME.to_owned()));
        };
        let ((), refusals) = in_turn(&mut block, |it| it.rename(piece, OTHER), named);
        assert!(refusals > 0);
    }
    let full = |it: &VirtualBlock| assert_eq!(it.statistics().pieces, 20);
    in_turn(&mut block, VirtualBlock::clear, full);
    assert_eq!(block.statistics().pieces, 0);
    block.allocate(&request, NAME).unwrap();
    assert!(held() > 0);
    drop(block);
    assert_eq!(held(), 0);
}

#[test]
fn of_a_ring() {
    let (mut ring, refusals) = in_turn(&mut (), |()| Ring::new(100, 2), |()| ());
    assert!(refusals > 0);
    refuse(1); // no later call needs any
    for number in 0..10 {
        assert_eq!((ring.allocate(40, 1), ring.allocate(10, 1)), (Ok(0), Ok(40)));
        assert_eq!(ring.end_frame().map(|it| it.number), Some(number));
        assert!(ring.retire(crate::ring::Frame { number }));
        assert_eq!(ring.statistics().taken + ring.current_stretch().size, 0);
    }
    assert!(!has_refused());
    refuse(0);
    assert!(held() > 0);
    drop(ring);
    assert_eq!(held(), 0);
}

#[test]
fn of_a_memory_type() {
    let settings = crate::memory_type::MemoryTypeSettings::default();
    let (mut it, refusals) = in_turn(&mut (), |()| MemoryType::new(&settings), |()| ());
    assert!(refusals > 0);
    for handle in 1..5 {
        let request = MemoryRequest { size: 100, alignment: 1, kind: Kind::Linear, dedicated: true };
        let before = it.statistics();
        let unchanged = |it: &MemoryType| assert_eq!(it.statistics(), before);
        let install = |it: &mut MemoryType| match it.prepare(&request, NAME)? {
            Prepared::Piece(piece) => Ok(piece),
            Prepared::NeedsBlock(pending) => Ok(pending.install(handle)),
        };
        let (piece, refusals) = in_turn(&mut it, install, unchanged);
        assert!(refusals > 0);
        assert_eq!(piece.handle, handle);
    }
    assert!(held() > 0);
    drop(it);
    assert_eq!(held(), 0);
}

#[test]
fn of_the_vulkan_allocator() {
    let driver = FakeDriver::new(&[(1, 0), (7, 0)], &[1 << 30], 64);
    let desc = AllocatorCreateDesc::new(driver.device());
    let (mut allocator, refusals) = in_turn(&mut (), |()| Allocator::new(&desc), |()| ());
    assert!(refusals > 0);
    let schemes = [AllocationScheme::GpuAllocatorManaged, AllocationScheme::DedicatedBuffer(crate::vulkan::Buffer(1))];
    let mut live = Vec::new();
    for (location, scheme) in
        [MemoryLocation::GpuOnly, MemoryLocation::CpuToGpu].into_iter().zip(schemes).cycle().take(8)
    {
        let request = AllocationCreateDesc {
            name: NAME,
            requirements: MemoryRequirements { size: 100, alignment: 4, memory_type_bits: 3 },
            location,
            linear: true,
            allocation_scheme: scheme,
        };
        let (capacity, questions) = (allocator.capacity(), driver.state().questions);
        let unchanged = |it: &Allocator| {
            assert_eq!((it.capacity(), driver.state().questions), (capacity, questions));
        };
        let (piece, refusals) = in_turn(&mut allocator, |it| it.allocate(&request), unchanged);
        assert!(refusals > 0);
        live.push(piece);
    }
    let blocks = driver.state().held.len();
    assert_eq!(blocks, 5); // a shared block, and four of a piece's own
    for piece in live {
        refuse(1); // free needs none
        allocator.free(piece).unwrap();
        assert!(!has_refused());
        refuse(0);
    }
    drop(allocator);
    driver.assert_left_empty();
    assert_eq!(held(), 0);
}

/// What came of a run that is captured: how many calls were refused, how far the capture goes, and whether it has all that were made.
type Captured = (usize, CaptureEnd, bool);

/// Makes, renames and frees some allocations of a captured allocator, or of a pool.
fn captured_run(device: Device, of_a_pool: bool) -> Result<Captured> {
    let mut allocator =
        Allocator::new(&AllocatorCreateDesc { capture: !of_a_pool, ..AllocatorCreateDesc::new(device) })?;
    if of_a_pool {
        allocator = allocator.create_pool(&PoolCreateDesc { capture: true, ..PoolCreateDesc::default() })?;
    }
    let request = AllocationCreateDesc {
        name: NAME,
        requirements: MemoryRequirements { size: 100, alignment: 4, memory_type_bits: 3 },
        location: MemoryLocation::CpuToGpu,
        linear: true,
        allocation_scheme: AllocationScheme::GpuAllocatorManaged,
    };
    let made: Vec<_> = (0..4).map(|_| allocator.allocate(&request)).collect();
    let mut errors: Vec<_> = made.iter().filter_map(|it| it.as_ref().err().copied()).collect();
    let mut live: Vec<_> = made.into_iter().flatten().collect();
    errors.extend(live.iter_mut().filter_map(|it| allocator.rename_allocation(it, OTHER).err()));
    assert!(errors.iter().all(|error| *error == AllocationError::HostOutOfMemory));
    let pieces = live.len();
    live.into_iter().for_each(|it| allocator.free(it).unwrap());
    let capture = allocator.destroy().expect("its calls are recorded");
    let has_all = capture.lines().filter(|it| it.starts_with("alloc ")).count() == pieces;
    Ok((errors.len(), capture.end(), has_all))
}

/// Each request for host memory of a run is refused in turn. Where it is the capture's, the capture ends and no call fails; else one call fails,
/// and the capture hasn't it.
fn of_captures(run: impl Fn() -> Result<Captured>) {
    let (mut not_made, mut failed, mut ended) = (0, 0, 0);
    for nth in 1.. {
        refuse(nth);
        let run = run();
        let is_refused = has_refused();
        refuse(0);
        assert_eq!(held(), 0);
        match run {
            Err(error) => {
                assert_eq!(error, AllocationError::HostOutOfMemory);
                not_made += 1;
            }
            Ok((refusals, end, has_all)) => {
                let is_cut = end == CaptureEnd::HostOutOfMemory;
                assert_eq!(refusals + usize::from(is_cut), usize::from(is_refused));
                assert!(is_cut || (end == CaptureEnd::Whole && has_all));
                (failed, ended) = (failed + refusals, ended + usize::from(is_cut));
            }
        }
        if !is_refused {
            break;
        }
    }
    assert!(not_made > 1 && failed > 5 && ended > 5, "{not_made} {failed} {ended}");
}

#[test]
fn of_the_vulkan_allocators_captures() {
    for of_a_pool in [false, true] {
        of_captures(|| {
            let driver = FakeDriver::new(&[(1, 0), (7, 0)], &[1 << 30], 64);
            let run = captured_run(driver.device(), of_a_pool);
            driver.assert_left_empty();
            run
        });
    }
}

#[test]
fn of_pools() {
    let driver = FakeDriver::new(&[(1, 0), (7, 0)], &[1 << 30], 64);
    let mut allocator = Allocator::new(&AllocatorCreateDesc::new(driver.device())).unwrap();
    let desc = PoolCreateDesc::default();
    let unchanged = |it: &Allocator| assert_eq!((it.capacity(), driver.state().questions), (0, 0));
    let (mut pool, refusals) = in_turn(&mut allocator, |it| it.create_pool(&desc), unchanged);
    assert!(refusals > 0);
    let request = AllocationCreateDesc {
        name: NAME,
        requirements: MemoryRequirements { size: 100, alignment: 4, memory_type_bits: 3 },
        location: MemoryLocation::CpuToGpu,
        linear: true,
        allocation_scheme: AllocationScheme::GpuAllocatorManaged,
    };
    let (piece, refusals) = in_turn(&mut pool, |it| it.allocate(&request), unchanged);
    assert!(refusals > 0);
    refuse(1); // no later call needs any
    pool.free(piece).unwrap();
    drop(allocator);
    drop(pool);
    assert!(!has_refused());
    refuse(0);
    assert_eq!(held(), 0);
    driver.assert_left_empty();
}

#[test]
fn of_buffers_and_requests_by_flags() {
    use crate::vulkan::{AllocationOptions, BufferCreateInfo, Placement};
    let driver = FakeDriver::new(&[(1, 0), (6, 0)], &[1 << 30], 64);
    driver.state().needs = common::resources::Needs { alignment: 4, memory_type_bits: 3, ..Default::default() };
    let mut allocator = Allocator::new(&AllocatorCreateDesc::new(driver.whole_device())).unwrap();
    let info = BufferCreateInfo::new(100, 1);
    let placement = Placement::staging(NAME);
    for pieces in [0, 2] {
        let unchanged = |it: &Allocator| {
            assert_eq!((it.statistics().pieces, driver.state().resources.len()), (pieces, pieces / 2));
        };
        // SAFETY: the driver makes a buffer of any description.
        let call = |it: &mut Allocator| unsafe { it.create_buffer(&info, &placement) };
        let ((buffer, allocation), refusals) = in_turn(&mut allocator, call, unchanged);
        assert!(refusals > 0);
        let request = AllocationCreateDesc {
            name: NAME,
            requirements: MemoryRequirements { size: 100, alignment: 4, memory_type_bits: 3 },
            location: MemoryLocation::Unknown,
            linear: true,
            allocation_scheme: AllocationScheme::DedicatedBuffer(buffer),
        };
        let options = AllocationOptions::transient();
        let unchanged = |it: &Allocator| assert_eq!(it.statistics().pieces, pieces + 1);
        let (own, refusals) = in_turn(&mut allocator, |it| it.allocate_with(&request, &options), unchanged);
        assert!(refusals > 0 && own.is_dedicated() && allocation.memory_type_index() == 1);
        std::mem::forget((own, allocation)); // they leak
    }
    drop(allocator);
    driver.state().resources.clear();
    driver.assert_left_empty();
}

#[test]
fn of_a_plan() {
    let resource =
        |first_pass| Resource { size: 100, alignment: 4, kind: Kind::Linear, first_pass, last_pass: first_pass };
    let resources: Vec<_> = (0..40).map(|index| resource(index / 2)).collect();
    let (mut planned, refusals) = in_turn(&mut (), |()| plan(&resources, 1), |()| ());
    assert!(refusals > 0);
    assert_eq!((planned.heap_size(), planned.peak()), (200, 200));
    let (reused, refusals) = in_turn(&mut (), |()| planned.reuses(39), |()| ());
    assert!(refusals > 0);
    assert_eq!(reused.len(), 19);
    let (memory, refusals) = in_turn(&mut planned, |it| it.memory(), |_| ());
    assert!(refusals > 0);
    assert_eq!(memory.size, 200);
    let needs = [1, 2, 4].map(|memory_type_bits| MemoryNeeds { memory_type_bits, dedicated: false });
    let (sets, refusals) = in_turn(&mut (), |()| plan::sets(&needs), |()| ());
    assert!(refusals > 0);
    assert_eq!(sets, [0, 1, 2]);
    drop((planned, reused));
    assert_eq!(held(), 0);
}

#[test]
fn of_an_upload_ring() {
    let driver = FakeDriver::new(&[(7, 0)], &[1 << 30], 64);
    let mut allocator = Allocator::new(&AllocatorCreateDesc::new(driver.device())).unwrap();
    let request = AllocationCreateDesc {
        name: "uploads",
        requirements: MemoryRequirements { size: 100, alignment: 4, memory_type_bits: 1 },
        location: MemoryLocation::CpuToGpu,
        linear: true,
        allocation_scheme: AllocationScheme::GpuAllocatorManaged,
    };
    let mut given = Some(allocator.allocate(&request).unwrap());
    let over = |it: &mut Option<_>| {
        UploadRing::new(it.take().expect("it came back"), 2).map_err(|(error, allocation)| {
            *it = Some(allocation);
            error
        })
    };
    let came_back = |it: &Option<_>| assert!(it.as_ref().is_some_and(|it| allocator.is_live(it)));
    let (mut ring, refusals) = in_turn(&mut given, over, came_back);
    assert!(refusals > 0);
    refuse(1); // no later call needs any
    assert_eq!(ring.allocate(40, 1).map(|upload| upload.offset), Ok(0));
    ring.flush(&allocator).unwrap();
    let frame = ring.end_frame().unwrap();
    assert!(ring.retire(frame));
    assert_eq!(ring.statistics().taken, 0);
    assert!(!has_refused());
    refuse(0);
    allocator.free(ring.into_allocation()).unwrap();
    drop(allocator);
    driver.assert_left_empty();
    assert_eq!(held(), 0);
}

#[test]
fn of_transient_resources() {
    let driver = FakeDriver::new(&[(1, 0), (1, 0)], &[1 << 30], 64);
    let mut allocator = Allocator::new(&AllocatorCreateDesc::new(driver.device())).unwrap();
    let buffer = |memory_type_bits, pass| TransientResource {
        requirements: MemoryRequirements { size: 100, alignment: 4, memory_type_bits },
        linear: true,
        first_pass: pass,
        last_pass: pass,
    };
    let resources = [buffer(1, 0), buffer(2, 0), buffer(1, 1)];
    let desc = TransientCreateDesc::new(NAME, &resources, MemoryLocation::GpuOnly);
    let nothing_left = |it: &Allocator| assert_eq!(it.statistics().pieces, 0);
    let (made, refusals) = in_turn(&mut allocator, |it| it.allocate_transient(&desc), nothing_left);
    assert!(refusals > 0);
    assert_eq!(allocator.statistics().pieces, 2); // two sets
    let (reused, refusals) = in_turn(&mut (), |()| made.reuses(2), |()| ());
    assert!(refusals > 0);
    assert_eq!(reused, [0]);
    refuse(1); // free_transient needs none
    allocator.free_transient(made).unwrap();
    assert!(!has_refused());
    refuse(0);
    drop(allocator);
    driver.assert_left_empty();
    assert_eq!(held(), 0);
}

#[test]
fn of_a_defragmentation() {
    let driver = FakeDriver::new(&[(1, 0)], &[1 << 30], 64);
    let sizes = AllocationSizes::new(4 << 20, 4 << 20);
    let desc = AllocatorCreateDesc { allocation_sizes: sizes, ..AllocatorCreateDesc::new(driver.device()) };
    let mut allocator = Allocator::new(&desc).unwrap();
    let request = AllocationCreateDesc {
        name: NAME,
        requirements: MemoryRequirements { size: 1 << 20, alignment: 4, memory_type_bits: 1 },
        location: MemoryLocation::GpuOnly,
        linear: true,
        allocation_scheme: AllocationScheme::GpuAllocatorManaged,
    };
    let mut live: Vec<_> = (0..8).map(|_| allocator.allocate(&request).unwrap()).collect();
    live.drain(5..).for_each(|it| allocator.free(it).unwrap()); // three gaps above four pieces
    let movables: Vec<_> = live.iter().map(|it| (it, request.clone())).collect();
    let mut both = (Defragmentation::new(), allocator);
    for open in [0, 2] {
        let frame = |(it, allocator): &mut (Defragmentation, Allocator)| {
            it.propose(allocator, &movables, 1 << 30, 2).map(<[Move]>::len)
        };
        let unchanged = |(it, allocator): &(Defragmentation, Allocator)| {
            assert_eq!((it.open().len(), allocator.statistics().pieces), (open, 5 + open));
        };
        let (proposed, refusals) = in_turn(&mut both, frame, unchanged);
        assert_eq!((proposed, both.0.open().len()), (2 - open / 2, 2 + open / 2));
        assert!(refusals > 0);
    }
    let (mut it, mut allocator) = both;
    refuse(1); // no later call needs any
    let key = it.open()[1].key();
    it.finish(&mut allocator, key, &mut live[1]).unwrap();
    let key = it.open()[0].key();
    it.abandon(&mut allocator, key).unwrap();
    assert_eq!(it.end(&mut allocator).map(|it| it.moves).map_err(|(error, _)| error), Ok(1));
    assert!(!has_refused());
    refuse(0);
    live.into_iter().for_each(|it| allocator.free(it).unwrap());
    drop(allocator);
    driver.assert_left_empty();
    assert_eq!(held(), 0);
}

#[cfg(target_arch = "x86_64")]
fn d3d12_resource<'a>(
    resource_desc: &'a crate::d3d12::ResourceDesc,
    resource_type: &'a crate::d3d12::ResourceType<'a>,
) -> crate::d3d12::ResourceCreateDesc<'a> {
    crate::d3d12::ResourceCreateDesc {
        name: NAME,
        memory_location: MemoryLocation::GpuOnly,
        resource_category: resource_desc.into(),
        resource_desc,
        castable_formats: &[],
        clear_value: None,
        initial_state_or_layout: crate::d3d12::ResourceStateOrBarrierLayout::ResourceState(0),
        resource_type,
    }
}

#[cfg(target_arch = "x86_64")]
#[test]
fn of_the_d3d12_allocator() {
    use crate::d3d12::{self, ResourceDesc, ResourceType};
    let device = fake_d3d12::FakeDevice::new(2, 0);
    let desc = d3d12::AllocatorCreateDesc::new(device.version());
    let (mut allocator, refusals) = in_turn(&mut (), |()| d3d12::Allocator::new(&desc), |()| ());
    assert!(refusals > 0);
    let (buffer, properties) = (ResourceDesc::buffer(100), d3d12::HeapProperties::default());
    let own = ResourceType::Committed { heap_properties: &properties, heap_flags: 0 };
    let mut live = Vec::new();
    for resource_type in [&ResourceType::Placed, &own].into_iter().cycle().take(40) {
        let wanted = d3d12_resource(&buffer, resource_type);
        let (capacity, questions) = (allocator.capacity(), device.state().questions);
        let unchanged = |it: &d3d12::Allocator| {
            assert_eq!((it.capacity(), device.state().questions), (capacity, questions));
        };
        let (it, _) = in_turn(&mut allocator, |it| it.create_resource(&wanted), unchanged);
        live.push(it);
    }
    let count = live.len();
    refuse(1); // free_resource needs none
    live.into_iter().for_each(|it| allocator.free_resource(it).unwrap());
    assert!(!has_refused() && count == 40);
    refuse(0);
    drop(allocator);
    drop(desc);
    device.assert_left_empty();
    assert_eq!(held(), 0);
}

/// Makes pieces, renames them and asks for moves of them, makes a placed resource and committed ones, and lets all go.
#[cfg(target_arch = "x86_64")]
fn captured_d3d12_run(device: &fake_d3d12::FakeDevice) -> Result<Captured> {
    use crate::d3d12::{self, ResourceDesc, ResourceType};
    let desc = d3d12::AllocatorCreateDesc { capture: true, ..d3d12::AllocatorCreateDesc::new(device.version()) };
    let mut allocator = d3d12::Allocator::new(&desc)?;
    let request = d3d12::AllocationCreateDesc {
        name: NAME,
        location: MemoryLocation::GpuOnly,
        size: 100,
        alignment: 4,
        resource_category: d3d12::ResourceCategory::Buffer,
    };
    let (buffer, properties) = (ResourceDesc::buffer(100), d3d12::HeapProperties::default());
    let own = ResourceType::Committed { heap_properties: &properties, heap_flags: 0 };
    let made = [(); 4].map(|()| allocator.allocate(&request));
    let resources =
        [&ResourceType::Placed, &own, &own].map(|it| allocator.create_resource(&d3d12_resource(&buffer, it)));
    let mut errors: Vec<_> = made.iter().filter_map(|it| it.as_ref().err().copied()).collect();
    errors.extend(resources.iter().filter_map(|it| it.as_ref().err().copied()));
    let mut live: Vec<_> = made.into_iter().flatten().collect();
    errors.extend(live.iter_mut().filter_map(|it| allocator.rename_allocation(it, OTHER).err()));
    let moves: Vec<_> = live.iter().map(|it| allocator.propose_move(it, &request)).collect();
    errors.extend(moves.iter().filter_map(|it| it.as_ref().err().copied()));
    assert!(errors.iter().all(|error| *error == AllocationError::HostOutOfMemory));
    let asked = live.len() + resources.iter().flatten().count() + moves.iter().flatten().count();
    live.into_iter().for_each(|it| allocator.free(it).unwrap());
    resources.into_iter().flatten().for_each(|it| allocator.free_resource(it).unwrap());
    let capture = allocator.destroy().expect("its calls are recorded");
    let asks = |line: &String| ["alloc ", "create ", "move "].iter().any(|word| line.starts_with(word));
    Ok((errors.len(), capture.end(), capture.lines().filter(asks).count() == asked))
}

#[cfg(target_arch = "x86_64")]
#[test]
fn of_the_d3d12_allocators_captures() {
    of_captures(|| {
        let device = fake_d3d12::FakeDevice::new(2, 0);
        let run = captured_d3d12_run(&device);
        device.assert_left_empty();
        run
    });
}

#[cfg(target_arch = "x86_64")]
#[test]
fn of_a_defragmentation_of_d3d12() {
    use crate::d3d12::{self, ResourceCategory};
    let device = fake_d3d12::FakeDevice::new(2, 0);
    let desc = d3d12::AllocatorCreateDesc {
        allocation_sizes: AllocationSizes::new(4 << 20, 4 << 20),
        ..d3d12::AllocatorCreateDesc::new(device.version())
    };
    let mut allocator = d3d12::Allocator::new(&desc).unwrap();
    let request = d3d12::AllocationCreateDesc {
        name: NAME,
        location: MemoryLocation::GpuOnly,
        size: 1 << 20,
        alignment: 1 << 16,
        resource_category: ResourceCategory::Buffer,
    };
    let mut live: Vec<_> = (0..8).map(|_| allocator.allocate(&request).unwrap()).collect();
    live.drain(5..).for_each(|it| allocator.free(it).unwrap()); // three gaps above four pieces
    let movables: Vec<_> = live.iter().map(|it| (it, request.clone())).collect();
    let mut both = (d3d12::Defragmentation::new(), allocator);
    let frame = |(it, allocator): &mut (d3d12::Defragmentation, d3d12::Allocator)| {
        it.propose(allocator, &movables, 1 << 30, 2).map(<[d3d12::Move]>::len)
    };
    let unchanged = |(it, allocator): &(d3d12::Defragmentation, d3d12::Allocator)| {
        assert_eq!((it.open().len(), allocator.statistics().pieces), (0, 5));
    };
    let (proposed, refusals) = in_turn(&mut both, frame, unchanged);
    assert!(proposed == 2 && refusals > 0);
    let (mut it, mut allocator) = both;
    refuse(1); // no later call needs any
    let key = it.open()[1].key();
    it.finish(&mut allocator, key, &mut live[1]).unwrap();
    assert_eq!(it.end(&mut allocator).map(|it| it.moves).map_err(|(error, _)| error), Ok(1));
    assert!(!has_refused());
    refuse(0);
    live.into_iter().for_each(|it| allocator.free(it).unwrap());
    drop(allocator);
    drop(desc);
    device.assert_left_empty();
    assert_eq!(held(), 0);
}
