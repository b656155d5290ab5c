//! Rings over a mapped allocation: where their pieces lie, and that what a frame in flight has stays.
#![allow(missing_docs)]

mod common;

use common::{FakeDriver, Random, MB};
use pilhangko::ring::{Frame, FrameStatistics, Stretch};
use pilhangko::vulkan::{
    Allocation, AllocationCreateDesc, AllocationScheme, Allocator, AllocatorCreateDesc, MemoryRequirements, UploadRing,
};
use pilhangko::{AllocationError, Fault, MemoryLocation};
use std::collections::VecDeque;

fn driver() -> Box<FakeDriver> {
    FakeDriver::new(&[(1, 0), (6, 1)], &[64 * MB, 64 * MB], 1)
}

fn allocates(allocator: &mut Allocator, size: u64, location: MemoryLocation, memory_type_bits: u32) -> Allocation {
    let request = AllocationCreateDesc {
        name: "uploads",
        requirements: MemoryRequirements { size, alignment: 256, memory_type_bits },
        location,
        linear: true,
        allocation_scheme: AllocationScheme::GpuAllocatorManaged,
    };
    allocator.allocate(&request).unwrap()
}

#[test]
fn pieces_lie_in_the_allocation() {
    let driver = driver();
    let mut allocator = Allocator::new(&AllocatorCreateDesc::new(driver.device())).unwrap();
    let beside = allocates(&mut allocator, 300, MemoryLocation::CpuToGpu, 3);
    let allocation = allocates(&mut allocator, 100, MemoryLocation::CpuToGpu, 3);
    assert!(allocation.offset() > 0);
    let mut ring = UploadRing::new(allocation, 1).unwrap();
    let upload = ring.allocate(10, 4).unwrap();
    upload.bytes.fill(7);
    assert_eq!((upload.offset, upload.bytes.len()), (0, 10));
    let upload = ring.allocate(20, 16).unwrap();
    upload.bytes.fill(8);
    assert_eq!((upload.offset, upload.bytes.len()), (16, 20));
    let written = ring.allocation().mapped_slice().unwrap();
    assert_eq!((&written[..10], &written[16..36]), (&[7; 10][..], &[8; 20][..]));
    assert_eq!(ring.current_stretch(), Stretch { offset: 0, size: 36, rest: 0 });
    assert_eq!(ring.allocate(80, 1).unwrap_err(), AllocationError::OutOfMemory);
    assert_eq!(ring.allocate(0, 1).unwrap_err(), AllocationError::InvalidAllocationCreateDesc);
    let frame = ring.end_frame().unwrap();
    assert_eq!(ring.end_frame(), None);
    assert_eq!(ring.frame_statistics(frame), Some(FrameStatistics { pieces: 2, bytes: 36 }));
    assert!(ring.retire(frame) && !ring.retire(frame));
    assert_eq!((ring.statistics().taken, ring.statistics().size), (0, 100));
    allocator.free(ring.into_allocation()).unwrap();
    allocator.free(beside).unwrap();
    drop(allocator);
    driver.assert_left_empty();
}

#[test]
fn the_open_frame_is_flushed_round_the_end() {
    let driver = FakeDriver::new(&[(1, 0), (10, 1)], &[64 * MB, 64 * MB], 1).with_atoms(64);
    let mut allocator = Allocator::new(&AllocatorCreateDesc::new(driver.device())).unwrap();
    let allocation = allocates(&mut allocator, 256, MemoryLocation::Unknown, 2);
    let mut ring = UploadRing::new(allocation, 2).unwrap();
    let flushed = |ring: &UploadRing| {
        driver.state().visible.clear();
        assert_eq!(ring.flush(&allocator), Ok(()));
        driver.state().visible.iter().map(|it| (it.invalidated, it.offset, it.size)).collect::<Vec<_>>()
    };
    assert_eq!(flushed(&ring), []);
    assert_eq!(ring.allocate(100, 1).unwrap().offset, 0);
    assert_eq!(flushed(&ring), [(false, 0, 128)]);
    let first = ring.end_frame().unwrap();
    assert_eq!(flushed(&ring), []);
    assert_eq!(ring.allocate(100, 1).unwrap().offset, 100);
    assert_eq!(flushed(&ring), [(false, 64, 192)]);
    ring.end_frame().unwrap();
    assert!(ring.retire(first));
    assert_eq!(ring.allocate(50, 1).unwrap().offset, 200);
    assert_eq!(ring.allocate(60, 1).unwrap().offset, 0);
    assert_eq!(flushed(&ring), [(false, 192, 64), (false, 0, 64)]);
    allocator.free(ring.into_allocation()).unwrap();
    drop(allocator);
    driver.assert_left_empty();
}

#[test]
fn memory_that_the_host_cannot_see_is_refused() {
    let driver = driver();
    let mut allocator = Allocator::new(&AllocatorCreateDesc::new(driver.device())).unwrap();
    let unseen = allocates(&mut allocator, 100, MemoryLocation::GpuOnly, 3);
    let (error, unseen) = UploadRing::new(unseen, 1).unwrap_err();
    assert_eq!(error, AllocationError::FailedToMap(Fault { text: "the allocation isn't mapped", code: None }));
    assert!(allocator.is_live(&unseen));
    assert!(UploadRing::new(Allocation::default(), 1).unwrap_err().1.is_null());
    let seen = allocates(&mut allocator, 100, MemoryLocation::CpuToGpu, 3);
    let (error, seen) = UploadRing::new(seen, usize::MAX).unwrap_err();
    assert_eq!(error, AllocationError::HostOutOfMemory);
    allocator.free(seen).unwrap();
    allocator.free(unseen).unwrap();
    drop(allocator);
    driver.assert_left_empty();
}

/// What a frame wrote: each piece's offset and bytes.
type Written = Vec<(usize, Vec<u8>)>;

/// A ring of the size that its requests are reckoned to need refuses none, and what a frame wrote stays until it is retired.
#[test]
fn frames_in_flight_keep_their_bytes() {
    const FRAMES: usize = 3;
    const PIECES: u64 = 10;
    const COST: u64 = 64 + 15;
    let driver = driver();
    let mut allocator = Allocator::new(&AllocatorCreateDesc::new(driver.device())).unwrap();
    let size = (FRAMES as u64 + 1) * PIECES * COST + COST - 1;
    let allocation = allocates(&mut allocator, size, MemoryLocation::CpuToGpu, 3);
    let mut ring = UploadRing::new(allocation, FRAMES).unwrap();
    let (mut random, mut flying) = (Random(3), VecDeque::<(Frame, Written)>::new());
    for _ in 0..5000 {
        let mut written = Written::new();
        for _ in 0..random.below(PIECES + 1) {
            let upload = ring.allocate(1 + random.below(64), 1 << random.below(5)).unwrap();
            upload.bytes.fill_with(|| random.below(256) as u8);
            written.push((upload.offset as usize, upload.bytes.to_vec()));
        }
        flying.push_back((ring.end_frame().unwrap(), written));
        let bytes = ring.allocation().mapped_slice().unwrap();
        for (offset, wanted) in flying.iter().flat_map(|(_, written)| written) {
            assert_eq!(&bytes[*offset..*offset + wanted.len()], &wanted[..]);
        }
        while flying.len() == FRAMES || (!flying.is_empty() && random.one_in(3)) {
            assert!(ring.retire(flying.pop_front().unwrap().0));
        }
    }
    allocator.free(ring.into_allocation()).unwrap();
    drop(allocator);
    driver.assert_left_empty();
}
