//! Captures of the DirectX 12 allocator, over a fake device.

use super::{assert_replays, behind_budgets};
use crate::common::Random;
use crate::fake_d3d12::{heap_at, made, FakeDevice, MB, NO_MEMORY, REMOVED, UNIT, WRONG};
use pilhangko::d3d12::{
    Allocation, AllocationCreateDesc, Allocator, AllocatorCreateDesc, CaptureEnd, HeapProperties, Resource,
    ResourceCategory, ResourceCreateDesc, ResourceDesc, ResourceStateOrBarrierLayout, ResourceType,
};
use pilhangko::{AllocationError, AllocationSizes, MemoryLocation, Result};

const LOCATIONS: [MemoryLocation; 4] =
    [MemoryLocation::Unknown, MemoryLocation::GpuOnly, MemoryLocation::CpuToGpu, MemoryLocation::GpuToCpu];
const CATEGORIES: [ResourceCategory; 3] =
    [ResourceCategory::Buffer, ResourceCategory::RtvDsvTexture, ResourceCategory::OtherTexture];
const DEFAULT: HeapProperties = HeapProperties {
    heap_type: 1,
    cpu_page_property: 0,
    memory_pool_preference: 0,
    creation_node_mask: 0,
    visible_node_mask: 0,
};
const OWN: ResourceType<'_> = ResourceType::Committed { heap_properties: &DEFAULT, heap_flags: 0 };

/// Heaps of 4 MB.
fn described(device: &FakeDevice) -> AllocatorCreateDesc {
    AllocatorCreateDesc {
        capture: true,
        allocation_sizes: AllocationSizes::new(4 * MB, 4 * MB),
        ..AllocatorCreateDesc::new(device.version())
    }
}

fn bytes(name: &str, size: u64) -> AllocationCreateDesc<'_> {
    let (location, resource_category) = (MemoryLocation::GpuOnly, ResourceCategory::Buffer);
    AllocationCreateDesc { name, location, size, alignment: UNIT, resource_category }
}

fn wanted<'a>(
    name: &'a str,
    desc: &'a ResourceDesc,
    memory_location: MemoryLocation,
    resource_type: &'a ResourceType<'a>,
) -> ResourceCreateDesc<'a> {
    ResourceCreateDesc {
        name,
        memory_location,
        resource_category: ResourceCategory::from(desc),
        resource_desc: desc,
        castable_formats: &[],
        clear_value: None,
        initial_state_or_layout: ResourceStateOrBarrierLayout::ResourceState(0),
        resource_type,
    }
}

#[test]
fn without_capture_there_is_none() {
    let device = FakeDevice::new(2, 0);
    let a = Allocator::new(&AllocatorCreateDesc { capture: false, ..described(&device) }).unwrap();
    assert!(a.capture().is_none() && a.destroy().is_none());
    device.assert_left_empty();
}

/// Resources: refused, committed, placed, and placed nowhere; those that stay.
fn make_resources(device: &FakeDevice, a: &mut Allocator) -> (Resource, Resource) {
    let (buffer, image) = (ResourceDesc::buffer(100_000), ResourceDesc { dimension: 3, ..ResourceDesc::buffer(256) });
    let image = ResourceDesc { height: 256, ..image };
    let upload = wanted("an upload", &buffer, MemoryLocation::CpuToGpu, &OWN);
    device.refuse(1, None);
    assert!(a.create_resource(&upload).is_err());
    let upload = a.create_resource(&upload).unwrap();
    let placed = wanted("placed", &image, MemoryLocation::GpuOnly, &ResourceType::Placed);
    let placed = a.create_resource(&placed).unwrap();
    let small = ResourceDesc::buffer(1);
    device.refuse(1, Some(REMOVED)); // its heap is there: the place itself is refused
    assert!(a.create_resource(&wanted("lost", &small, MemoryLocation::GpuOnly, &ResourceType::Placed)).is_err());
    (upload, placed)
}

/// A piece moves to the heap in slot 1, once there is a place; that place, and another piece there.
fn move_piece(a: &mut Allocator, first: Allocation) -> [Allocation; 2] {
    let second = a.allocate(&bytes("second", 3 * MB)).unwrap();
    let third = a.allocate(&bytes("third", MB)).unwrap();
    assert_eq!((second.memory_block_index(), third.memory_block_index()), (1, 1));
    assert!(a.propose_move(&first, &bytes("first", MB)).is_err()); // not its size
    assert!(a.propose_move(&first, &bytes("first", 2 * MB)).unwrap().is_none());
    a.free(second).unwrap();
    let mut moved = a.propose_move(&first, &bytes("moved", 2 * MB)).unwrap().unwrap();
    assert_eq!((moved.memory_block_index(), moved.offset()), (1, 0));
    a.rename_allocation(&mut moved, "größe").unwrap();
    a.free(first).unwrap();
    [moved, third]
}

/// What is refused before any question: kept, but for what is invalid and what is another allocator's.
fn refused_requests(device: &FakeDevice, a: &mut Allocator) {
    let questions = device.state().questions;
    a.set_budget(0, Some(8 * MB)).unwrap(); // as much as there is
    assert!(a.set_budget(3, None).is_err());
    assert_eq!(a.allocate(&bytes("none", 0)).unwrap_err(), AllocationError::InvalidAllocationCreateDesc);
    let large = AllocationCreateDesc { location: MemoryLocation::Unknown, ..bytes("large", 4 * MB) };
    assert_eq!(a.allocate(&large).unwrap_err(), AllocationError::BudgetExceeded);
    assert_eq!(device.state().questions, questions);
    let mut other = Allocator::new(&described(device)).unwrap();
    let mut it = other.allocate(&bytes("other's", 1)).unwrap();
    assert!(a.rename_allocation(&mut it, "x").is_err() && a.propose_move(&it, &bytes("x", 1)).is_err());
    let (_, it) = a.free(it).unwrap_err();
    other.free(it).unwrap();
}

const EXPECTED: &str = "\
d3d12
tier 2
sizes 4194304 4194304 4194304 4194304
refuse 1 -2147024882
refuse 3 null
new
alloc 1 2097152 65536 GpuOnly buffer first
alloc 1 2097152 65536 GpuOnly buffer first
create 2 committed CpuToGpu buffer buffer 131072 1 1 0 state:0 none none an_upload
create 2 committed CpuToGpu buffer buffer 131072 1 1 0 state:0 none none an_upload
alloc 3 262144 65536 GpuOnly texture placed
alloc 4 65536 65536 GpuOnly buffer lost
free 4
alloc 5 3145728 65536 GpuOnly buffer second
alloc 6 1048576 65536 GpuOnly buffer third
move 1 7 2097152 65536 GpuOnly buffer first
free 5
move 1 7 2097152 65536 GpuOnly buffer moved
rename 7 gr____e
free 1
budget 0 8388608
alloc 8 4194304 65536 Unknown buffer large
release 2
free 3
budget 0 none
budget 1 1
alloc 8 100 256 GpuToCpu target _
create 9 committed GpuOnly buffer buffer 65536 1 1 0 state:0 none none left
destroy
";

const REPLIES: [&str; 24] = [
    "ok",
    "error E1",
    "ok type 0 slot 0 offset 0 size 2097152 chunk 2 heap 1",
    "error E6",
    "ok resource 2 size 131072",
    "ok type 0 slot 0 offset 2097152 size 262144 chunk 3 heap 1",
    "ok type 0 slot 0 offset 2359296 size 65536 chunk 4 heap 1",
    "ok",
    "ok type 0 slot 1 offset 0 size 3145728 chunk 2 heap 3",
    "ok type 0 slot 1 offset 3145728 size 1048576 chunk 1 heap 3",
    "none",
    "ok",
    "ok type 0 slot 1 offset 0 size 2097152 chunk 3 heap 3",
    "ok",
    "ok",
    "ok",
    "error E11",
    "ok",
    "ok",
    "ok",
    "ok",
    "ok type 2 slot 0 offset 0 size 100 chunk 2 heap 4",
    "ok resource 5 size 65536",
    "held 1",
];

#[test]
fn a_capture_is_what_was_asked() {
    let device = FakeDevice::new(2, 0);
    let mut a = Allocator::new(&described(&device)).unwrap();
    device.refuse(1, Some(NO_MEMORY));
    assert_eq!(a.allocate(&bytes("first", 2 * MB)).unwrap_err(), AllocationError::OutOfMemory);
    let first = a.allocate(&bytes("first", 2 * MB)).unwrap();
    let (upload, placed) = make_resources(&device, &mut a);
    let pieces = move_piece(&mut a, first);
    refused_requests(&device, &mut a);
    a.free_resource(upload).unwrap();
    a.free_resource(placed).unwrap();
    a.set_budget(0, None).unwrap();
    a.set_budget(1, Some(1)).unwrap();
    let (location, resource_category) = (MemoryLocation::GpuToCpu, ResourceCategory::RtvDsvTexture);
    let unnamed = AllocationCreateDesc { location, resource_category, alignment: 256, ..bytes("", 100) };
    let unnamed = a.allocate(&unnamed).unwrap();
    let small = ResourceDesc::buffer(1);
    let left = a.create_resource(&wanted("left", &small, MemoryLocation::GpuOnly, &OWN)).unwrap();
    assert_eq!(a.capture().unwrap().to_string(), EXPECTED.strip_suffix("destroy\n").unwrap());
    let capture = a.destroy().unwrap();
    drop((pieces, unnamed, left)); // what they hold goes behind the allocator
    device.assert_left_empty();
    assert_eq!((capture.end(), capture.to_string()), (CaptureEnd::Whole, EXPECTED.to_owned()));
    assert!(capture.lines().eq(EXPECTED.lines()));
    assert_replays(&capture, &REPLIES.map(str::to_owned));
}

#[test]
fn budgets_are_captured_where_they_change_and_count() {
    let device = FakeDevice::new(1, 0);
    let mut a = Allocator::new(&described(&device)).unwrap();
    for frame in 0..1000 {
        a.set_budget(8, Some(4 * MB + frame)).unwrap();
    }
    assert!(a.allocate(&bytes("none", 0)).is_err()); // invalid: it finds no budgets
    a.set_budget(8, Some(5 * MB)).unwrap();
    let it = a.allocate(&bytes("a", 1)).unwrap();
    a.set_budget(8, None).unwrap(); // there and back
    a.set_budget(8, Some(5 * MB)).unwrap();
    a.free(it).unwrap();
    a.set_budget(0, Some(6 * MB)).unwrap();
    let expected = "budget 8 5242880\nalloc 1 1 65536 GpuOnly buffer a\nfree 1\nbudget 0 6291456\n";
    let commands = |text: String| text.split_once("new\n").unwrap().1.to_owned();
    assert_eq!(commands(a.capture().unwrap().to_string()), expected);
    a.set_budget(8, None).unwrap();
    assert_eq!(commands(a.destroy().unwrap().to_string()), format!("{expected}budget 8 none\ndestroy\n"));
    device.assert_left_empty();
}

/// No size that the device tells is refused.
#[test]
fn a_committed_resource_of_no_bytes_is_captured() {
    let device = FakeDevice::new(2, 0);
    let mut a = Allocator::new(&described(&device)).unwrap();
    let none = ResourceDesc::buffer(0);
    let it = a.create_resource(&wanted("none", &none, MemoryLocation::GpuOnly, &OWN)).unwrap();
    assert_eq!(it.size, 0);
    a.free_resource(it).unwrap();
    let line = "create 1 committed GpuOnly buffer buffer 0 1 1 0 state:0 none none none";
    assert!(a.destroy().unwrap().lines().skip(4).eq([line, "release 1", "destroy"]));
    device.assert_left_empty();
}

/// A run of random calls with the replies that its trace is to have.
struct Run {
    random: Random,
    device: FakeDevice,
    allocator: Allocator,
    live: Vec<Allocation>,
    resources: Vec<Resource>,
    replies: Vec<String>,
    refused: u64,
    moved: u64,
}

fn reply<T>(result: &Result<T>, told: impl FnOnce(&T) -> String) -> String {
    result.as_ref().map_or_else(|error| format!("error E{}", error.number()), told)
}

fn placed(it: &Allocation) -> String {
    let (memory_type, slot, offset, size) = (it.memory_type_index(), it.memory_block_index(), it.offset(), it.size());
    let chunk = it.chunk_id().map_or(0, u64::from);
    // SAFETY: nothing is placed there.
    let heap = heap_at(unsafe { it.heap() }).number;
    format!("ok type {memory_type} slot {slot} offset {offset} size {size} chunk {chunk} heap {heap}")
}

/// A placed resource is its allocation alone.
fn created(it: &Resource) -> String {
    let committed = || format!("ok resource {} size {}", made(it.resource()).number, it.size);
    it.allocation().map_or_else(committed, placed)
}

impl Run {
    fn new(seed: u64, tier: u32) -> Self {
        let device = FakeDevice::new(tier, 0);
        let allocator = Allocator::new(&described(&device)).unwrap();
        let replies = vec!["ok".to_owned()];
        Run {
            random: Random(seed),
            device,
            allocator,
            live: Vec::new(),
            resources: Vec::new(),
            replies,
            refused: 0,
            moved: 0,
        }
    }

    /// Perhaps the next question is refused.
    fn maybe_refuse(&mut self) {
        self.device.state().refused = None;
        if self.random.one_in(6) {
            self.device.refuse(1, self.random.of(&[Some(NO_MEMORY), Some(WRONG), None]));
        }
    }

    fn allocate(&mut self) {
        let largest = if self.random.one_in(30) { 9 * MB } else { 2 * MB };
        let desc = AllocationCreateDesc {
            location: self.random.of(&LOCATIONS),
            resource_category: self.random.of(&CATEGORIES),
            alignment: 1 << self.random.below(18),
            ..bytes("piece", 1 + self.random.below(largest))
        };
        self.maybe_refuse();
        let result = self.allocator.allocate(&desc);
        self.replies.push(reply(&result, placed));
        self.refused += u64::from(result.is_err());
        self.live.extend(result);
    }

    /// The device refuses no place here: nobody would see where that was.
    fn create(&mut self) {
        let desc = ResourceDesc::buffer(1 + self.random.below(300_000));
        let resource_type = self.random.of(&[OWN, ResourceType::Placed]);
        self.device.state().refused = None;
        if matches!(resource_type, ResourceType::Committed { .. }) {
            self.maybe_refuse();
        }
        let wanted = wanted("resource", &desc, MemoryLocation::GpuOnly, &resource_type);
        let result = self.allocator.create_resource(&wanted);
        self.replies.push(reply(&result, created));
        self.refused += u64::from(result.is_err());
        self.resources.extend(result);
    }

    fn free(&mut self) {
        if !self.resources.is_empty() && self.random.one_in(3) {
            let at = self.random.below(self.resources.len() as u64) as usize;
            self.allocator.free_resource(self.resources.swap_remove(at)).unwrap();
            self.replies.push("ok".to_owned());
        } else if !self.live.is_empty() {
            let at = self.random.below(self.live.len() as u64) as usize;
            self.allocator.free(self.live.swap_remove(at)).unwrap();
            self.replies.push("ok".to_owned());
        }
    }

    fn move_or_rename(&mut self) {
        if self.live.is_empty() {
            return;
        }
        let at = self.random.below(self.live.len() as u64) as usize;
        if self.random.one_in(3) {
            self.allocator.rename_allocation(&mut self.live[at], "renamed").unwrap();
            return self.replies.push("ok".to_owned());
        }
        let from = &self.live[at];
        let to = self.allocator.propose_move(from, &bytes("moved", from.size())).unwrap();
        self.moved += u64::from(to.is_some());
        self.replies.push(to.as_ref().map_or_else(|| "none".to_owned(), placed));
        self.live.extend(to);
    }

    fn step(&mut self) {
        match self.random.below(20) {
            0 => {
                let budget = (!self.random.one_in(2)).then(|| self.random.below(100 * MB));
                self.allocator.set_budget(self.random.below(3) as usize, budget).unwrap();
            }
            1..=4 => self.move_or_rename(),
            5..=10 if self.live.len() < 60 => self.allocate(),
            11..=12 if self.resources.len() < 30 => self.create(),
            _ => self.free(),
        }
    }
}

#[test]
fn random_runs_replay_with_the_same_replies() {
    for (seed, tier) in [(1, 1), (2, 2), (3, 2)] {
        let mut run = Run::new(seed, tier);
        (0..5000).for_each(|_| run.step());
        let Run { device, allocator, live, resources, mut replies, refused, moved, .. } = run;
        assert!(refused > 50 && moved > 50, "{refused} {moved}");
        let committed = resources.iter().filter(|it| it.allocation().is_none()).count();
        let capture = allocator.destroy().expect("the run is captured");
        drop((live, resources));
        device.assert_left_empty();
        assert_eq!(capture.end(), CaptureEnd::Whole);
        replies.push(format!("held {committed}"));
        assert_replays(&capture, &behind_budgets(&capture, replies));
    }
}
