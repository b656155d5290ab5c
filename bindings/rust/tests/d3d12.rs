//! The DirectX 12 allocator over a fake device: rows that were worked out by hand, each refusal, and random calls beside an account of the
//! test's own.
#![cfg(target_arch = "x86_64")]
#![allow(missing_docs)]

mod fake_d3d12;

use fake_d3d12::{
    alignment_by_rule, heap_at, made, size_by_rule, FakeDevice, HUNG, MB, NO_MEMORY, REMOVED, UNIT, WRONG,
};
use pilhangko::d3d12::{
    Allocation, AllocationCreateDesc, Allocator, AllocatorCreateDesc, ClearValue, CommittedAllocationStatistics,
    Defragmentation, DefragmentationStatistics, HeapProperties, ID3D12DeviceVersion, Interface, Move, MoveKey,
    Resource, ResourceCategory, ResourceCreateDesc, ResourceDesc, ResourceStateOrBarrierLayout, ResourceType,
};
use pilhangko::{AllocationError, AllocationSizes, Fault, Level, Logger, MemoryLocation};
use std::sync::{Arc, Mutex};

const LOCATIONS: [MemoryLocation; 4] =
    [MemoryLocation::GpuOnly, MemoryLocation::CpuToGpu, MemoryLocation::GpuToCpu, MemoryLocation::Unknown];
const DEFAULT: HeapProperties = HeapProperties {
    heap_type: 1,
    cpu_page_property: 0,
    memory_pool_preference: 0,
    creation_node_mask: 0,
    visible_node_mask: 0,
};

fn small_blocks(device: &FakeDevice) -> AllocatorCreateDesc {
    AllocatorCreateDesc {
        allocation_sizes: AllocationSizes::new(4 * MB, 4 * MB).with_max_host_memblock_size(8 * MB),
        ..AllocatorCreateDesc::new(device.version())
    }
}

fn allocator_over(device: &FakeDevice) -> Allocator {
    Allocator::new(&small_blocks(device)).unwrap()
}

fn texture(width: u64, height: u32, flags: u32) -> ResourceDesc {
    ResourceDesc { dimension: 3, width, height, layout: 0, format: 28, flags, ..ResourceDesc::buffer(1) }
}

fn wanted<'a>(desc: &'a ResourceDesc, location: MemoryLocation, of: &'a ResourceType<'a>) -> ResourceCreateDesc<'a> {
    ResourceCreateDesc {
        name: "resource",
        memory_location: location,
        resource_category: ResourceCategory::from(desc),
        resource_desc: desc,
        castable_formats: &[],
        clear_value: None,
        initial_state_or_layout: ResourceStateOrBarrierLayout::ResourceState(0x400),
        resource_type: of,
    }
}

fn own_memory(properties: &HeapProperties) -> ResourceType<'_> {
    ResourceType::Committed { heap_properties: properties, heap_flags: 0x1000 }
}

fn bytes(size: u64, alignment: u64) -> AllocationCreateDesc<'static> {
    AllocationCreateDesc {
        name: "bytes",
        location: MemoryLocation::GpuOnly,
        size,
        alignment,
        resource_category: ResourceCategory::Buffer,
    }
}

fn assert_at(resource: &Resource, memory_type: usize, offset: u64, size: u64) {
    let allocation = resource.allocation().expect("it is placed");
    assert_eq!((allocation.memory_type_index(), allocation.offset(), allocation.size()), (memory_type, offset, size));
    assert_eq!((resource.size, made(resource.resource()).offset), (size, offset));
}

#[test]
fn at_tier_2_a_location_has_a_memory_type() {
    let device = FakeDevice::new(2, 0);
    let mut allocator = allocator_over(&device);
    let placed = ResourceType::Placed;
    let (buffer, image, target) = (ResourceDesc::buffer(100), texture(300, 300, 0), texture(10, 10, 1));
    let a = allocator.create_resource(&wanted(&buffer, MemoryLocation::GpuOnly, &placed)).unwrap();
    let heap = device.state().last_heap;
    assert_eq!((heap.size, heap.properties, heap.flags), (4 * MB, DEFAULT, 0));
    let b = allocator.create_resource(&wanted(&image, MemoryLocation::Unknown, &placed)).unwrap();
    let c = allocator.create_resource(&wanted(&target, MemoryLocation::GpuOnly, &placed)).unwrap();
    assert_at(&a, 0, 0, UNIT);
    assert_at(&b, 0, UNIT, 6 * UNIT);
    assert_at(&c, 0, 7 * UNIT, UNIT);
    for (memory_type, page) in [(1, 2), (2, 3)] {
        let it = allocator.create_resource(&wanted(&buffer, LOCATIONS[memory_type], &placed)).unwrap();
        assert_at(&it, memory_type, 0, UNIT);
        let properties = device.state().last_heap.properties;
        assert_eq!(
            (properties.heap_type, properties.cpu_page_property, properties.memory_pool_preference),
            (4, page, 1)
        );
        allocator.free_resource(it).unwrap();
    }
    assert_eq!(made(a.resource()).begins, 0x400);
    assert_eq!((allocator.capacity(), device.state().heaps), (12 * MB, 3));
    for it in [a, b, c] {
        allocator.free_resource(it).unwrap();
    }
    assert_eq!((allocator.capacity(), device.resource_count()), (12 * MB, 0)); // the only shared ones stay
    drop(allocator);
    device.assert_left_empty();
}

/// Heaps of 4 MB, each with room for two pieces of 2 MB.
#[test]
fn a_piece_moves_to_a_higher_heap() {
    let device = FakeDevice::new(2, 0);
    let mut a = allocator_over(&device);
    let wanted = bytes(2 * MB, UNIT);
    let [mut first, second, third, fourth] = [(); 4].map(|()| a.allocate(&wanted).unwrap());
    let shown = |a: &Allocator, it: &Allocation| {
        let pieces = a.named_pieces(it.memory_type_index(), it.memory_block_index()).unwrap();
        pieces.iter().find(|piece| piece.view.offset == it.offset()).unwrap().view.word
    };
    assert_eq!((first.user_data(), shown(&a, &first)), (0, 0));
    a.set_user_data(&mut first, u64::MAX).unwrap();
    a.rename_allocation(&mut first, "renamed").unwrap();
    assert!(a.propose_move(&first, &wanted).unwrap().is_none()); // no heap has a gap
    a.free(third).unwrap();
    let to = a.propose_move(&first, &wanted).unwrap().unwrap();
    assert_eq!((to.memory_type_index(), to.offset(), to.size()), (0, 0, 2 * MB));
    assert!(a.is_live(&first) && a.is_live(&to));
    for (word, it) in [(u64::MAX, &first), (u64::MAX, &to), (0, &second)] {
        assert_eq!((it.user_data(), shown(&a, it)), (word, word));
    }
    a.free(first).unwrap(); // done
    a.free(fourth).unwrap();
    let again = a.propose_move(&second, &wanted).unwrap().unwrap();
    assert_eq!(again.offset(), 2 * MB);
    a.free(second).unwrap(); // the lower heap is empty, and is released
    assert_eq!((a.capacity(), device.state().heaps), (4 * MB, 1));
    let invalid = Err(AllocationError::InvalidAllocationCreateDesc);
    for wrong in [bytes(MB, UNIT), bytes(2 * MB, 3)] {
        assert_eq!(a.propose_move(&to, &wrong).map(|_| ()), invalid);
    }
    let mut other = allocator_over(&device);
    assert_eq!(other.propose_move(&to, &wanted).map(|_| ()).unwrap_err().number(), 6);
    a.free(to).unwrap();
    a.free(again).unwrap();
    drop((a, other));
    device.assert_left_empty();
}

/// Four heaps of 4 MB that were full of pieces of 1 MB: 0 and 1 are left in slot 0, 4 to 6 in slot 1, 8 to 10 in slot 2, 12 and 13 in slot 3.
/// Of several heaps with a place the one in the highest slot serves.
struct Scene {
    it: Defragmentation,
    allocator: Allocator,
    pieces: Vec<Option<Allocation>>,
    device: FakeDevice,
}

impl Scene {
    fn new() -> Self {
        let device = FakeDevice::new(2, 0);
        let mut allocator = allocator_over(&device);
        let mut pieces: Vec<_> = (0..16).map(|_| Some(allocator.allocate(&bytes(MB, UNIT)).unwrap())).collect();
        for gone in [2, 3, 7, 11, 14, 15] {
            allocator.free(pieces[gone].take().unwrap()).unwrap();
        }
        Scene { it: Defragmentation::new(), allocator, pieces, device }
    }

    /// A frame over the pieces, the last first: of each move its key, the piece, and slot and offset of the second place.
    fn frame(&mut self, most: u64, moves: usize) -> Vec<(MoveKey, usize, usize, u64)> {
        let live: Vec<_> = (0..16).rev().filter(|&piece| self.pieces[piece].is_some()).collect();
        let movables: Vec<_> = live.iter().map(|&it| (self.pieces[it].as_ref().unwrap(), bytes(MB, UNIT))).collect();
        let questions = self.device.state().questions;
        let opened = self.it.propose(&mut self.allocator, &movables, most, moves).unwrap();
        assert_eq!(self.device.state().questions, questions);
        let row = |it: &Move| (it.key(), live[it.index()], it.to().memory_block_index(), it.to().offset());
        opened.iter().map(row).collect()
    }

    fn finish(&mut self, (key, piece, slot, offset): (MoveKey, usize, usize, u64)) {
        let it = self.pieces[piece].as_mut().unwrap();
        self.it.finish(&mut self.allocator, key, it).unwrap();
        assert_eq!((it.memory_block_index(), it.offset(), it.size()), (slot, offset, MB));
        assert!(self.allocator.is_live(it));
    }

    fn end(mut self) -> DefragmentationStatistics {
        let told = self.it.end(&mut self.allocator).map_err(|(error, _)| error).unwrap();
        self.pieces.into_iter().flatten().for_each(|it| self.allocator.free(it).unwrap());
        assert_eq!(self.allocator.statistics().pieces, 0); // no second place is left
        drop(self.allocator);
        self.device.assert_left_empty();
        told
    }
}

/// Where the moves of a frame lead: the piece, slot and offset.
fn places(moves: &[(MoveKey, usize, usize, u64)]) -> Vec<(usize, usize, u64)> {
    moves.iter().map(|&(_, piece, slot, offset)| (piece, slot, offset)).collect()
}

/// Moves of two frames are open at once; they end in another order than they began, and a heap goes.
#[test]
fn moves_stay_open_over_frames() {
    let mut s = Scene::new();
    assert!(s.frame(MB - 1, 16).is_empty() && s.it.is_done());
    let first = s.frame(MB + MB / 2, 16);
    assert_eq!(places(&first), [(1, 3, 2 * MB)]); // of slot 0 the first of the list
    let second = s.frame(8 * MB, 2); // the one that is open isn't proposed again
    assert_eq!(places(&second), [(0, 3, 3 * MB), (6, 2, 3 * MB)]);
    assert!(s.frame(8 * MB, 16).is_empty() && !s.it.is_done()); // all above is full, but three are open
    assert_eq!(s.it.open().iter().map(Move::key).collect::<Vec<_>>(), [first[0].0, second[0].0, second[1].0]);
    s.finish(second[1]);
    s.it.abandon(&mut s.allocator, first[0].0).unwrap();
    s.finish(second[0]);
    assert_eq!((s.it.statistics().moves, s.device.state().heaps), (2, 4));
    let again = s.frame(8 * MB, 16);
    assert_eq!(places(&again), [(1, 3, 2 * MB)]); // what was abandoned is proposed anew
    s.finish(again[0]); // slot 0 is empty
    assert!(s.frame(8 * MB, 16).is_empty() && s.it.is_done() && s.device.state().heaps == 3);
    let told =
        DefragmentationStatistics { moves: 3, bytes_moved: 3 * MB, blocks_given_back: 1, bytes_given_back: 4 * MB };
    assert_eq!(s.end(), told);
}

/// What isn't open is refused, and nothing changes; the end abandons what is open.
#[test]
fn a_move_that_is_not_open_does_not_end() {
    let (mut s, mut other) = (Scene::new(), Scene::new());
    let moves = s.frame(8 * MB, 16);
    s.finish(moves[0]);
    // finished before; of another piece
    for (key, piece) in [(moves[0].0, 1), (moves[1].0, 6)] {
        let it = s.pieces[piece].as_mut().unwrap();
        let place = (it.memory_block_index(), it.offset());
        assert_eq!(s.it.finish(&mut s.allocator, key, it).unwrap_err().number(), 6);
        assert_eq!((it.memory_block_index(), it.offset(), s.allocator.is_live(it)), (place.0, place.1, true));
    }
    assert_eq!(s.it.abandon(&mut s.allocator, moves[0].0).unwrap_err().number(), 6);
    // another defragmentation, and another allocator
    assert_eq!(other.it.abandon(&mut s.allocator, moves[1].0).unwrap_err().number(), 6);
    assert_eq!(s.it.abandon(&mut other.allocator, moves[1].0).unwrap_err().number(), 6);
    let it = s.pieces[0].as_mut().unwrap();
    assert_eq!(s.it.finish(&mut other.allocator, moves[1].0, it).unwrap_err().number(), 6);
    let (error, it) = std::mem::take(&mut s.it).end(&mut other.allocator).unwrap_err();
    assert_eq!((error.number(), it.open().len()), (6, 2));
    s.it = it;
    // a request in the middle of a list is no piece's
    let list =
        [(other.pieces[0].as_ref().unwrap(), bytes(MB, UNIT)), (other.pieces[4].as_ref().unwrap(), bytes(1, UNIT))];
    let refused = other.it.propose(&mut other.allocator, &list, 8 * MB, 16).map(<[Move]>::len);
    assert_eq!(refused, Err(AllocationError::InvalidAllocationCreateDesc));
    assert_eq!((other.it.open().len(), other.allocator.statistics().pieces), (0, 10));
    assert_eq!((s.end().moves, other.end().moves), (1, 0));
}

#[test]
fn at_tier_1_a_location_has_one_for_each_category() {
    let device = FakeDevice::new(1, 0);
    let mut allocator = allocator_over(&device);
    let descs = [ResourceDesc::buffer(1), texture(1, 1, 2), texture(1, 1, 0)];
    let mut live = Vec::new();
    for memory_type in 0..9 {
        let desc = &descs[memory_type % 3];
        let it = allocator.create_resource(&wanted(desc, LOCATIONS[memory_type / 3], &ResourceType::Placed)).unwrap();
        assert_at(&it, memory_type, 0, UNIT);
        assert_eq!(device.state().last_heap.flags, [0xc0, 0x84, 0x44][memory_type % 3]);
        live.push(it);
    }
    live.into_iter().for_each(|it| allocator.free_resource(it).unwrap());
    drop(allocator);
    device.assert_left_empty();
}

#[test]
fn committed_resources_are_recorded() {
    let device = FakeDevice::new(2, 0);
    let mut allocator = allocator_over(&device);
    let upload = HeapProperties { heap_type: 2, ..DEFAULT };
    let (own, buffer) = (own_memory(&upload), ResourceDesc::buffer(100_000));
    let it = allocator.create_resource(&wanted(&buffer, MemoryLocation::CpuToGpu, &own)).unwrap();
    let resource = made(it.resource());
    assert!(resource.heap.is_null() && it.allocation().is_none());
    assert_eq!((resource.properties, resource.flags, it.size), (upload, 0x1000, 2 * UNIT));
    let counted = |num_allocations, total_size| Some(CommittedAllocationStatistics { num_allocations, total_size });
    assert_eq!((allocator.committed(1), allocator.committed(0)), (counted(1, 2 * UNIT), counted(0, 0)));
    assert_eq!((allocator.committed(3), allocator.capacity()), (None, 0));
    let questions = device.state().questions;
    let too_large = ResourceDesc::buffer(u64::MAX - UNIT + 1);
    assert_eq!(
        allocator.create_resource(&wanted(&too_large, MemoryLocation::CpuToGpu, &own)).unwrap_err(),
        AllocationError::OutOfMemory
    );
    assert_eq!(device.state().questions, questions); // the sum would pass 2^64 - 1: the driver isn't asked
    allocator.free_resource(it).unwrap();
    assert_eq!(allocator.committed(1), counted(0, 0));
    drop(allocator);
    device.assert_left_empty();
}

fn layouts(version: u32, of: &ResourceType<'_>) {
    let device = FakeDevice::new(2, version);
    let mut allocator = allocator_over(&device);
    let target = texture(65, 7, 1);
    let clear = ClearValue { format: 28, color: [1.0, 2.0, 3.0, 4.0] };
    let mut desc = wanted(&target, MemoryLocation::GpuOnly, of);
    desc.clear_value = Some(&clear);
    desc.castable_formats = &[28, 29];
    assert_eq!(allocator.create_resource(&desc).unwrap_err(), AllocationError::CastableFormatsRequiresEnhancedBarriers);
    desc.initial_state_or_layout = ResourceStateOrBarrierLayout::BarrierLayout(4);
    match allocator.create_resource(&desc) {
        Ok(it) => {
            assert_eq!((version, made(it.resource()).formats.as_slice()), (12, [28, 29].as_slice()));
            allocator.free_resource(it).unwrap();
        }
        Err(error) => {
            assert!(version < 12 && error == AllocationError::CastableFormatsRequiresAtLeastDevice12, "{error}");
        }
    }
    desc.castable_formats = &[];
    match allocator.create_resource(&desc) {
        Ok(it) => {
            let resource = made(it.resource());
            assert!(version >= 10 && resource.in_layout && resource.formats.is_empty());
            assert_eq!((resource.begins, resource.clear_value), (4, Some(clear)));
            allocator.free_resource(it).unwrap();
        }
        Err(error) => assert!(version == 0 && error == AllocationError::BarrierLayoutNeedsDevice10, "{error}"),
    }
    drop(allocator);
    device.assert_left_empty();
}

#[test]
fn layouts_and_formats_need_newer_interfaces() {
    for version in [0, 10, 12] {
        layouts(version, &ResourceType::Placed);
        layouts(version, &own_memory(&DEFAULT));
        let device = FakeDevice::new(2, version);
        let number = match device.version() {
            ID3D12DeviceVersion::Device(_) => 0,
            ID3D12DeviceVersion::Device10(_) => 10,
            ID3D12DeviceVersion::Device12(_) => 12,
        };
        assert_eq!(number, version);
        device.assert_left_empty();
    }
}

#[test]
fn allocators_need_a_tier() {
    let device = FakeDevice::new(0, 0);
    let error = Allocator::new(&small_blocks(&device)).unwrap_err();
    assert!(matches!(error, AllocationError::InvalidAllocatorCreateDesc(_)), "{error}");
    device.state().tier_code = WRONG;
    let fault = Fault { text: "ID3D12Device::CheckFeatureSupport failed", code: Some(WRONG.into()) };
    assert_eq!(Allocator::new(&small_blocks(&device)).unwrap_err(), AllocationError::Internal(fault));
    device.assert_left_empty();
}

#[test]
fn refusals_of_the_driver_undo_all() {
    let device = FakeDevice::new(2, 0);
    let mut allocator = allocator_over(&device);
    let buffer = ResourceDesc::buffer(1);
    let placed = wanted(&buffer, MemoryLocation::GpuOnly, &ResourceType::Placed);
    let own = own_memory(&DEFAULT);
    let committed = wanted(&buffer, MemoryLocation::GpuOnly, &own);
    let internal = |text, code: i32| AllocationError::Internal(Fault { text, code: Some(code.into()) });
    device.refuse(1, Some(NO_MEMORY));
    assert_eq!(allocator.create_resource(&placed).unwrap_err(), AllocationError::OutOfMemory);
    device.refuse(1, Some(WRONG));
    let failed = internal("ID3D12Device::CreateHeap failed", WRONG);
    assert_eq!(allocator.allocate(&bytes(1, 1)).unwrap_err(), failed);
    device.refuse(1, None);
    let error = allocator.allocate(&bytes(1, 1)).unwrap_err();
    assert!(matches!(error, AllocationError::Internal(Fault { code: None, .. })), "{error}");
    assert_eq!(allocator.capacity(), 0);
    for (code, error) in [
        (Some(NO_MEMORY), internal("ID3D12Device::CreatePlacedResource failed", NO_MEMORY)),
        (Some(REMOVED), internal("ID3D12Device::CreatePlacedResource DEVICE_REMOVED", HUNG)),
    ] {
        device.refuse(if allocator.capacity() == 0 { 2 } else { 1 }, code);
        assert_eq!(allocator.create_resource(&placed).unwrap_err(), error);
    }
    assert_eq!((allocator.capacity(), allocator.statistics().pieces), (4 * MB, 0));
    device.refuse(1, Some(REMOVED));
    let removed = internal("ID3D12Device::CreateCommittedResource DEVICE_REMOVED", HUNG);
    assert_eq!(allocator.create_resource(&committed).unwrap_err(), removed);
    device.refuse(1, None);
    allocator.create_resource(&committed).unwrap_err();
    assert_eq!(allocator.committed(0).unwrap().num_allocations, 0);
    let it = allocator.create_resource(&committed).unwrap();
    allocator.free_resource(it).unwrap();
    drop(allocator);
    device.assert_left_empty();
}

#[test]
fn invalid_requests_and_budgets_ask_nothing() {
    let device = FakeDevice::new(2, 0);
    let mut allocator = allocator_over(&device);
    for (size, alignment) in [(0, 1), (1, 0), (1, 3)] {
        let error = allocator.allocate(&bytes(size, alignment)).unwrap_err();
        assert_eq!(error, AllocationError::InvalidAllocationCreateDesc);
    }
    allocator.set_budget(0, Some(4 * MB - 1)).unwrap();
    assert_eq!(allocator.allocate(&bytes(1, 1)).unwrap_err(), AllocationError::BudgetExceeded);
    assert_eq!((allocator.budget(0), allocator.budget(1), allocator.budget(3)), (Some(4 * MB - 1), None, None));
    assert!(allocator.set_budget(3, None).is_err());
    assert_eq!(device.state().questions, 0);
    allocator.set_budget(0, None).unwrap();
    let it = allocator.allocate(&bytes(1, 1)).unwrap();
    assert_eq!(allocator.allocate(&bytes(u64::MAX, 1)).unwrap_err(), AllocationError::OutOfMemory);
    allocator.free(it).unwrap();
    drop(allocator);
    device.assert_left_empty();
}

#[test]
fn what_is_anothers_comes_back() {
    let device = FakeDevice::new(2, 0);
    let (mut first, mut second) = (allocator_over(&device), allocator_over(&device));
    let mut a = first.allocate(&bytes(100, 4)).unwrap();
    let b = second.allocate(&bytes(100, 4)).unwrap();
    assert!(first.is_live(&a) && !second.is_live(&a) && second.is_live(&b));
    assert!(second.rename_allocation(&mut a, "other").is_err());
    assert!(second.set_user_data(&mut a, 1).is_err());
    assert_eq!((a.name(), a.user_data()), (Some("bytes"), 0));
    first.rename_allocation(&mut a, "other").unwrap();
    assert_eq!(a.name(), Some("other"));
    let (error, a) = second.free(a).unwrap_err();
    assert!(matches!(error, AllocationError::Internal(_)), "{error}");
    first.free(a).unwrap();
    second.free(b).unwrap();
    let (buffer, own) = (ResourceDesc::buffer(1), own_memory(&DEFAULT));
    for of in [&ResourceType::Placed, &own] {
        let it = first.create_resource(&wanted(&buffer, MemoryLocation::GpuOnly, of)).unwrap();
        let (_, it) = second.free_resource(it).unwrap_err();
        assert_eq!(device.resource_count(), 1);
        first.free_resource(it).unwrap();
    }
    drop((first, second));
    device.assert_left_empty();
}

/// Heaps live as long as what lies there, also behind their allocator.
#[test]
fn resources_hold_their_heaps() {
    let device = FakeDevice::new(2, 0);
    let mut allocator = allocator_over(&device);
    let large = ResourceDesc::buffer(9 * MB);
    let it = allocator.create_resource(&wanted(&large, MemoryLocation::GpuOnly, &ResourceType::Placed)).unwrap();
    let further: Interface = it.resource().clone();
    drop(further);
    let bare = allocator.allocate(&bytes(1, 1)).unwrap();
    drop(allocator);
    assert_eq!(device.state().heaps, 2);
    drop(it);
    assert_eq!(device.state().heaps, 1);
    drop(bare);
    device.assert_left_empty();
}

#[test]
fn reports_and_leaks_name_what_is_live() {
    let device = FakeDevice::new(2, 0);
    let lines: Arc<Mutex<Vec<String>>> = Arc::default();
    let kept = Arc::clone(&lines);
    let mut desc = small_blocks(&device);
    desc.logger = Some(Logger::new(move |level, line| kept.lock().unwrap().push(format!("{level:?} {line}"))));
    desc.debug_settings.log_allocations = true;
    let mut allocator = Allocator::new(&desc).unwrap();
    drop(desc);
    let (a, b) = (allocator.allocate(&bytes(100, 4)).unwrap(), allocator.allocate(&bytes(6 * MB, 4)).unwrap());
    let report = allocator.generate_report();
    let rows: Vec<_> = report.allocations.iter().map(|it| (it.name.as_str(), it.offset, it.size)).collect();
    assert_eq!(rows, [("bytes", 0, 100), ("bytes", 0, 6 * MB)]);
    let blocks: Vec<_> = report.blocks.iter().map(|it| (it.size, it.allocations.clone())).collect();
    assert_eq!(blocks, [(4 * MB, 0..1), (6 * MB, 1..2)]);
    assert_eq!((report.total_allocated_bytes, report.total_capacity_bytes), (100 + 6 * MB, 10 * MB));
    assert!(allocator.report_json().unwrap().contains("\"bytes\""));
    assert_eq!(allocator.named_pieces(0, 0).unwrap().len(), 1);
    assert_eq!((allocator.block_statistics(0, 1).unwrap().pieces, allocator.block_statistics(0, 2)), (1, None));
    allocator.free(a).unwrap();
    lines.lock().unwrap().clear();
    drop(allocator);
    let lines = std::mem::take(&mut *lines.lock().unwrap());
    assert_eq!(lines.len(), 1);
    assert!(lines[0].starts_with("Warn leak detected") && lines[0].contains("bytes"), "{}", lines[0]);
    drop(b);
    device.assert_left_empty();
    assert!(Level::Warn > Level::Error);
}

fn panics(call: impl FnOnce()) -> bool {
    std::panic::catch_unwind(std::panic::AssertUnwindSafe(call)).is_err()
}

#[test]
fn heaps_go_back_where_the_logger_panics() {
    let device = FakeDevice::new(2, 0);
    let mut desc = small_blocks(&device);
    desc.logger = Some(Logger::new(|_, line| panic!("no line is wanted: {line}")));
    desc.debug_settings.log_frees = true;
    let mut allocator = Allocator::new(&desc).unwrap();
    drop(desc);
    let (own, leak) = (allocator.allocate(&bytes(9 * MB, 4)).unwrap(), allocator.allocate(&bytes(100, 4)).unwrap());
    assert_eq!(allocator.capacity(), 9 * MB + 4 * MB);
    assert!(panics(|| allocator.free(own).unwrap()));
    assert_eq!(allocator.capacity(), 4 * MB);
    assert!(panics(|| drop(allocator)));
    drop(leak);
    device.assert_left_empty();
}

#[test]
fn allocators_and_what_they_give_go_from_thread_to_thread() {
    fn goes<T: Send>() {}
    goes::<Allocator>();
    goes::<Allocation>();
    goes::<Resource>();
}

/// splitmix64
struct Random(u64);
impl Random {
    fn below(&mut self, n: u64) -> u64 {
        self.0 = self.0.wrapping_add(0x9e37_79b9_7f4a_7c15);
        let mut z = self.0;
        z = (z ^ (z >> 30)).wrapping_mul(0xbf58_476d_1ce4_e5b9);
        z = (z ^ (z >> 27)).wrapping_mul(0x94d0_49bb_1331_11eb);
        (z ^ (z >> 31)) % n
    }
}

enum Live {
    Bare(Allocation),
    Resource(Resource),
}

fn some_desc(random: &mut Random) -> ResourceDesc {
    let largest = if random.below(30) == 0 { 9 * MB } else { 300_000 };
    let size = 1 + random.below(largest);
    let mut desc = match random.below(2) {
        0 => ResourceDesc::buffer(size),
        _ => texture(1 + random.below(400), 1 + random.below(400) as u32, random.below(3) as u32),
    };
    if desc.dimension == 3 && random.below(20) == 0 {
        desc.sample_desc[0] = 4;
    }
    desc
}

/// The account: what is live, and the sums of it. The device looks at places, heaps at what lies there.
fn random_calls(seed: u64, tier: u32) -> (usize, usize) {
    let device = FakeDevice::new(tier, 0);
    let mut allocator = allocator_over(&device);
    let (mut random, mut live, mut made_count, mut refused) = (Random(seed), Vec::<Live>::new(), 0, 0);
    for _ in 0..20_000 {
        if random.below(2) == 0 && !live.is_empty() {
            let at = random.below(live.len() as u64) as usize;
            match live.swap_remove(at) {
                Live::Bare(it) => allocator.free(it).unwrap(),
                Live::Resource(it) => allocator.free_resource(it).unwrap(),
            }
        } else if live.len() < 200 {
            let (desc, location) = (some_desc(&mut random), LOCATIONS[random.below(4) as usize]);
            let own = own_memory(&DEFAULT);
            let of = if random.below(8) == 0 { &own } else { &ResourceType::Placed };
            if random.below(10) == 0 {
                device.refuse(1, [Some(NO_MEMORY), Some(WRONG), None][random.below(3) as usize]);
            }
            let served = match random.below(4) {
                0 => {
                    let version = device.version();
                    let bare = AllocationCreateDesc::from_d3d12_resource_desc(&version, &desc, "bare", location);
                    assert_eq!((bare.size, bare.alignment), (size_by_rule(&desc), alignment_by_rule(&desc)));
                    allocator.allocate(&bare).map(Live::Bare)
                }
                _ => allocator.create_resource(&wanted(&desc, location, of)).map(Live::Resource),
            };
            device.state().refused = None;
            match served {
                Ok(it) => live.push(it),
                Err(error) => {
                    assert!(matches!(error, AllocationError::OutOfMemory | AllocationError::Internal(_)), "{error}");
                    refused += 1;
                }
            }
            made_count += 1;
        }
        assert_counts(&device, &allocator, &live);
    }
    assert_apart(live.iter().filter_map(place_of));
    for it in live {
        match it {
            Live::Bare(it) => allocator.free(it).unwrap(),
            Live::Resource(it) => allocator.free_resource(it).unwrap(),
        }
    }
    drop(allocator);
    device.assert_left_empty();
    (made_count, refused)
}

fn assert_counts(device: &FakeDevice, allocator: &Allocator, live: &[Live]) {
    let resources = live.iter().filter(|it| matches!(it, Live::Resource(_))).count();
    let placed = live.iter().filter_map(place_of).count();
    let committed: usize = (0..).map_while(|it| allocator.committed(it)).map(|it| it.num_allocations).sum();
    assert_eq!((device.resource_count(), allocator.statistics().pieces), (resources, placed));
    assert_eq!(committed, live.len() - placed);
}

fn place_of(it: &Live) -> Option<&Allocation> {
    match it {
        Live::Bare(it) => Some(it),
        Live::Resource(it) => it.allocation(),
    }
}

/// No two pieces share a byte, and each lies within its heap.
fn assert_apart<'a>(pieces: impl Iterator<Item = &'a Allocation>) {
    // SAFETY: nothing is placed there.
    let place = |it: &Allocation| (unsafe { it.heap() }, it.offset(), it.size());
    let mut places: Vec<_> = pieces.map(place).collect();
    places.sort_unstable();
    for pair in places.windows(2) {
        let ((heap, offset, size), (other, at, _)) = (pair[0], pair[1]);
        assert!(heap != other || offset + size <= at);
    }
    assert!(places.iter().all(|&(heap, offset, size)| offset + size <= heap_at(heap).desc.size));
}

#[test]
fn random_calls_hold_what_the_account_says() {
    for (seed, tier) in [(1, 1), (2, 2)] {
        let (made_count, refused) = random_calls(seed, tier);
        assert!(made_count > 5000 && refused > 100, "{made_count} {refused}");
    }
}

/// A piece with its number, and what asks for it.
struct Numbered {
    number: usize,
    piece: Allocation,
    wanted: AllocationCreateDesc<'static>,
}

/// Pieces, and moves that are open over frames: by key and number of the piece.
struct Account {
    random: Random,
    allocator: Allocator,
    it: Defragmentation,
    live: Vec<Numbered>,
    open: Vec<(MoveKey, usize)>,
    finished: u64,
}

impl Account {
    fn allocate(&mut self, number: usize) {
        let wanted = bytes(1 + self.random.below(600_000), 1 << self.random.below(17));
        let piece = self.allocator.allocate(&wanted).unwrap();
        self.live.push(Numbered { number, piece, wanted });
    }

    /// One without an open move goes.
    fn free(&mut self) {
        let at = self.random.below(self.live.len() as u64) as usize;
        if self.open.iter().all(|&(_, number)| number != self.live[at].number) {
            self.allocator.free(self.live.swap_remove(at).piece).unwrap();
        }
    }

    fn frame(&mut self) {
        let movables: Vec<_> = self.live.iter().map(|it| (&it.piece, it.wanted.clone())).collect();
        let most = self.random.below(2 * MB);
        let opened = self.it.propose(&mut self.allocator, &movables, most, 6).unwrap();
        assert!(opened.len() <= 6 && opened.iter().map(|one| one.to().size()).sum::<u64>() <= most);
        for one in opened {
            let from = &self.live[one.index()];
            assert!(one.to().memory_block_index() > from.piece.memory_block_index());
            assert_eq!((one.to().size(), one.to().offset() % from.wanted.alignment), (from.piece.size(), 0));
            self.open.push((one.key(), from.number));
        }
    }

    /// An open move is finished, or abandoned.
    fn end_one(&mut self) {
        let at = self.random.below(self.open.len() as u64) as usize;
        let (key, number) = self.open.swap_remove(at);
        if self.random.below(3) == 0 {
            return self.it.abandon(&mut self.allocator, key).unwrap();
        }
        let it = self.live.iter_mut().find(|it| it.number == number).unwrap();
        self.it.finish(&mut self.allocator, key, &mut it.piece).unwrap();
        self.finished += 1;
    }

    fn assert_counts(&self) {
        let pieces = self.live.iter().map(|it| &it.piece).chain(self.it.open().iter().map(Move::to));
        assert_eq!(self.allocator.statistics().pieces, self.live.len() + self.open.len());
        assert_eq!((self.it.open().len(), self.it.statistics().moves), (self.open.len(), self.finished));
        assert_apart(pieces);
    }
}

#[test]
fn random_moves_are_counted() {
    let device = FakeDevice::new(2, 0);
    let (random, allocator, it) = (Random(3), allocator_over(&device), Defragmentation::new());
    let mut a = Account { random, allocator, it, live: Vec::new(), open: Vec::new(), finished: 0 };
    for number in 0..20_000 {
        match a.random.below(10) {
            0..=3 if a.live.len() < 150 => a.allocate(number),
            4..=6 if !a.live.is_empty() => a.free(),
            7 => a.frame(),
            _ if !a.open.is_empty() => a.end_one(),
            _ => {}
        }
        a.assert_counts();
    }
    let Account { mut allocator, it, live, finished, .. } = a;
    let told = it.end(&mut allocator).map_err(|(error, _)| error).unwrap();
    assert!(told.moves == finished && finished > 500 && told.blocks_given_back > 5, "{told:?}");
    live.into_iter().for_each(|it| allocator.free(it.piece).unwrap());
    assert_eq!(allocator.statistics().pieces, 0);
    drop(allocator);
    device.assert_left_empty();
}
