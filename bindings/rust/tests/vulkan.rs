//! The Vulkan allocator over a driver of the test's: rows that were worked out by hand.
#![allow(missing_docs)]

mod common;

use common::{Asked, FakeDriver, Refusal, Visible, MB};
use pilhangko::memory_type::BlockStatistics;
use pilhangko::vulkan::{
    Allocation, AllocationCreateDesc, AllocationScheme, Allocator, AllocatorCreateDesc, Buffer, Defragmentation,
    DefragmentationStatistics, Image, MemoryPropertyFlags, MemoryRequirements, Move, MoveKey, SharedAllocator,
    TypeStatistics,
};
use pilhangko::{AllocationError, AllocationSizes, AllocatorDebugSettings, Fault, Level, Logger, MemoryLocation};
use std::sync::{Arc, Mutex};
use std::thread;

/// Memory type 0 is the device's, 1 the host's, 2 the device's that the host can see, in a small heap.
const TYPES: [(u32, u32); 3] = [(1, 0), (6, 1), (7, 2)];
const HEAPS: [u64; 3] = [1024 * MB, 512 * MB, 16 * MB];

fn driver() -> Box<FakeDriver> {
    FakeDriver::new(&TYPES, &HEAPS, 64)
}

/// On the host's side blocks of 4 MB, doubling up to 8 MB; on the device's 8 MB.
fn described(driver: &FakeDriver) -> AllocatorCreateDesc {
    AllocatorCreateDesc {
        buffer_device_address: true,
        allocation_sizes: AllocationSizes::new(8 * MB, 4 * MB).with_max_host_memblock_size(8 * MB),
        whole_blocks: true, // each memory type is asked once
        ..AllocatorCreateDesc::new(driver.device())
    }
}

fn made(driver: &FakeDriver) -> Allocator {
    Allocator::new(&described(driver)).expect("the device makes sense")
}

fn request(size: u64, location: MemoryLocation) -> AllocationCreateDesc<'static> {
    AllocationCreateDesc {
        name: "piece",
        requirements: MemoryRequirements { size, alignment: 1, memory_type_bits: 7 },
        location,
        linear: true,
        allocation_scheme: AllocationScheme::GpuAllocatorManaged,
    }
}

/// Memory type, slot, offset, size, chunk id, whether it is dedicated, whether it is mapped.
fn place(it: &Allocation) -> (usize, usize, u64, u64, u64, bool, bool) {
    let chunk_id = it.chunk_id().map_or(0, u64::from);
    let is_mapped = it.mapped_ptr().is_some();
    (it.memory_type_index(), it.memory_block_index(), it.offset(), it.size(), chunk_id, it.is_dedicated(), is_mapped)
}

fn memory(it: &Allocation) -> u64 {
    // SAFETY: the handle is only looked up.
    unsafe { it.memory() }.0
}

fn asked_for(driver: &FakeDriver, it: &Allocation) -> Asked {
    driver.state().held[&memory(it)].asked
}

#[test]
fn pieces_lie_in_blocks_and_blocks_come_and_go() {
    let driver = driver();
    let mut a = made(&driver);
    assert_eq!(a.capacity(), 0);
    let first = a.allocate(&request(100, MemoryLocation::GpuOnly)).unwrap();
    assert_eq!(place(&first), (0, 0, 0, 100, 2, false, false));
    let whole = Asked { size: 8 * MB, memory_type: 0, device_address: true, ..Asked::default() };
    assert_eq!(asked_for(&driver, &first), whole);
    let second = a.allocate(&request(50, MemoryLocation::Unknown)).unwrap();
    assert_eq!(place(&second), (0, 0, 100, 50, 3, false, false));
    assert_eq!(memory(&second), memory(&first));
    let for_buffer = AllocationScheme::DedicatedBuffer(Buffer(77));
    let own = AllocationCreateDesc { allocation_scheme: for_buffer, ..request(10, MemoryLocation::GpuOnly) };
    let own = a.allocate(&own).unwrap();
    assert_eq!(place(&own), (0, 1, 0, 10, 1, true, false));
    assert_eq!(asked_for(&driver, &own), Asked { size: 10, buffer: Buffer(77), ..whole });
    let for_image = AllocationScheme::DedicatedImage(Image(78));
    let read = AllocationCreateDesc { allocation_scheme: for_image, ..request(20, MemoryLocation::GpuToCpu) };
    let read = a.allocate(&read).unwrap();
    assert_eq!(place(&read), (1, 0, 0, 20, 1, true, true));
    assert_eq!(asked_for(&driver, &read), Asked { size: 20, memory_type: 1, image: Image(78), ..whole });
    assert_eq!(a.capacity(), 8 * MB + 30);
    let large = a.allocate(&request(9 * MB, MemoryLocation::GpuOnly)).unwrap(); // larger than the next shared block
    assert_eq!(place(&large), (0, 2, 0, 9 * MB, 1, false, false));
    for (gone, held) in [(own, 3), (read, 2), (large, 1), (first, 1), (second, 1)] {
        assert!(a.is_live(&gone));
        a.free(gone).unwrap();
        assert_eq!(driver.state().held.len(), held); // the last shared block stays
    }
    assert_eq!(a.capacity(), 8 * MB);
    drop(a);
    driver.assert_left_empty();
}

/// Blocks of 4 MB of one memory type, each with room for two pieces of 2 MB.
#[test]
fn a_piece_moves_to_a_higher_block_and_back() {
    let driver = FakeDriver::new(&[(7, 0)], &[1024 * MB], 64);
    let sizes = AllocationSizes::new(4 * MB, 4 * MB);
    let desc = AllocatorCreateDesc { allocation_sizes: sizes, ..AllocatorCreateDesc::new(driver.device()) };
    let mut a = Allocator::new(&desc).unwrap();
    let wanted = request(2 * MB, MemoryLocation::CpuToGpu);
    let [first, second, third, fourth] = [(); 4].map(|()| a.allocate(&wanted).unwrap());
    assert_eq!((place(&first).1, place(&third).1), (0, 1));
    assert!(a.propose_move(&first, &wanted).unwrap().is_none()); // no block has a gap
    a.free(third).unwrap();
    let to = a.propose_move(&first, &AllocationCreateDesc { name: "moved", ..wanted.clone() }).unwrap().unwrap();
    assert_eq!(place(&to), (0, 1, 0, 2 * MB, 2, false, true));
    assert_eq!((memory(&to), to.name()), (memory(&fourth), Some("moved")));
    assert!(a.is_live(&first) && a.is_live(&to));
    a.free(to).unwrap(); // abandoned
    let to = a.propose_move(&first, &wanted).unwrap().unwrap();
    a.free(first).unwrap(); // done
    assert!(a.propose_move(&to, &wanted).unwrap().is_none()); // nothing lies above it
    a.free(fourth).unwrap();
    let again = a.propose_move(&second, &wanted).unwrap().unwrap();
    a.free(second).unwrap(); // the lower block is empty, and goes
    assert_eq!((a.capacity(), driver.state().held.len()), (4 * MB, 1));
    let invalid = Err(AllocationError::InvalidAllocationCreateDesc);
    let alone = AllocationScheme::DedicatedBuffer(Buffer(7));
    for wrong in [
        request(MB, MemoryLocation::CpuToGpu),
        AllocationCreateDesc { allocation_scheme: alone, ..wanted.clone() },
        AllocationCreateDesc {
            requirements: MemoryRequirements { alignment: 3, ..wanted.requirements },
            ..wanted.clone()
        },
    ] {
        assert_eq!(a.propose_move(&to, &wrong).map(|_| ()), invalid);
    }
    let mut other = Allocator::new(&desc).unwrap();
    for (allocator, stranger) in [(&mut other, &to), (&mut a, &Allocation::default())] {
        let refused = allocator.propose_move(stranger, &wanted).map(|_| ()).unwrap_err();
        assert_eq!(refused.number(), 6);
    }
    a.free(to).unwrap();
    a.free(again).unwrap();
    drop((a, other));
    driver.assert_left_empty();
}

/// Blocks of 4 MB are full of pieces of 1 MB; then the second and the third have a gap each, at their ends.
#[test]
fn the_moves_of_a_frame_empty_the_lowest_block_first() {
    let driver = FakeDriver::new(&[(7, 0)], &[1024 * MB], 64);
    let sizes = AllocationSizes::new(4 * MB, 4 * MB);
    let desc = AllocatorCreateDesc { allocation_sizes: sizes, ..AllocatorCreateDesc::new(driver.device()) };
    let mut a = Allocator::new(&desc).unwrap();
    let wanted = request(MB, MemoryLocation::CpuToGpu);
    let mut live: Vec<Allocation> = (0..12).map(|_| a.allocate(&wanted).unwrap()).collect();
    a.free(live.remove(11)).unwrap();
    a.free(live.remove(7)).unwrap();
    live.reverse(); // the lowest slot stands last
    let movables: Vec<_> = live.iter().map(|it| (it, wanted.clone())).collect();
    assert!(a.propose_moves(&movables, MB - 1).unwrap().is_empty());
    let moves = a.propose_moves(&movables, 2 * MB - 1).unwrap();
    assert_eq!(
        moves.iter().map(|(index, to)| (*index, place(to).1, to.offset())).collect::<Vec<_>>(),
        [(6, 2, 3 * MB)]
    );
    moves.into_iter().for_each(|(_, to)| a.free(to).unwrap());
    let mut wrong = movables.clone();
    wrong[7].1.requirements.size = 1;
    assert_eq!(a.propose_moves(&wrong, 8 * MB).map(|_| ()), Err(AllocationError::InvalidAllocationCreateDesc));
    let moves = a.propose_moves(&movables, 8 * MB).unwrap(); // both gaps are free still
    assert_eq!(
        moves.iter().map(|(index, to)| (*index, place(to).1, to.offset())).collect::<Vec<_>>(),
        [(6, 2, 3 * MB), (7, 1, 3 * MB)]
    );
    moves.into_iter().for_each(|(_, to)| a.free(to).unwrap());
    live.into_iter().for_each(|it| a.free(it).unwrap());
    drop(a);
    driver.assert_left_empty();
}

/// Four blocks of 4 MB that were full of pieces of 1 MB: 0 and 1 are left in slot 0, 4 to 6 in slot 1, 8 to 10 in slot 2, 12 and 13 in slot 3.
/// Of several blocks with a place the one in the highest slot serves.
struct Scene {
    it: Defragmentation,
    allocator: Allocator,
    pieces: Vec<Option<Allocation>>,
    driver: Box<FakeDriver>,
}

impl Scene {
    fn new() -> Self {
        let driver = FakeDriver::new(&[(7, 0)], &[1024 * MB], 64);
        let sizes = AllocationSizes::new(4 * MB, 4 * MB);
        let desc = AllocatorCreateDesc { allocation_sizes: sizes, ..AllocatorCreateDesc::new(driver.device()) };
        let mut allocator = Allocator::new(&desc).unwrap();
        let wanted = request(MB, MemoryLocation::CpuToGpu);
        let mut pieces: Vec<_> = (0..16).map(|_| Some(allocator.allocate(&wanted).unwrap())).collect();
        for gone in [2, 3, 7, 11, 14, 15] {
            allocator.free(pieces[gone].take().unwrap()).unwrap();
        }
        Scene { it: Defragmentation::new(), allocator, pieces, driver }
    }

    /// A frame over the pieces, the last first: of each move its key, the piece, and slot and offset of the second place.
    fn frame(&mut self, bytes: u64, moves: usize) -> Vec<(MoveKey, usize, usize, u64)> {
        let live: Vec<_> = (0..16).rev().filter(|&piece| self.pieces[piece].is_some()).collect();
        let wanted = request(MB, MemoryLocation::CpuToGpu);
        let movables: Vec<_> = live.iter().map(|&it| (self.pieces[it].as_ref().unwrap(), wanted.clone())).collect();
        let questions = self.driver.state().questions;
        let opened = self.it.propose(&mut self.allocator, &movables, bytes, moves).unwrap();
        assert_eq!(self.driver.state().questions, questions);
        let row = |it: &Move| (it.key(), live[it.index()], it.to().memory_block_index(), it.to().offset());
        opened.iter().map(row).collect()
    }

    fn finish(&mut self, (key, piece, slot, offset): (MoveKey, usize, usize, u64)) {
        let it = self.pieces[piece].as_mut().unwrap();
        self.it.finish(&mut self.allocator, key, it).unwrap();
        assert_eq!((it.memory_block_index(), it.offset(), it.size()), (slot, offset, MB));
        assert!(self.allocator.is_live(it));
    }

    fn counts(&self, moves: u64, bytes_moved: u64, blocks_given_back: u64, bytes_given_back: u64) {
        let expected = DefragmentationStatistics { moves, bytes_moved, blocks_given_back, bytes_given_back };
        assert_eq!(self.it.statistics(), expected);
        assert_eq!(self.driver.state().held.len() as u64, 4 - blocks_given_back);
    }

    fn end(mut self) -> DefragmentationStatistics {
        let told = self.it.end(&mut self.allocator).map_err(|(error, _)| error).unwrap();
        self.pieces.into_iter().flatten().for_each(|it| self.allocator.free(it).unwrap());
        assert_eq!(self.allocator.statistics().pieces, 0); // no second place is left
        drop(self.allocator);
        self.driver.assert_left_empty();
        told
    }
}

/// Where the moves of a frame lead: the piece, slot and offset.
fn places(moves: &[(MoveKey, usize, usize, u64)]) -> Vec<(usize, usize, u64)> {
    moves.iter().map(|&(_, piece, slot, offset)| (piece, slot, offset)).collect()
}

/// Moves of two frames are open at once; they end in another order than they began.
#[test]
fn moves_stay_open_over_frames() {
    let mut s = Scene::new();
    assert!(s.frame(MB - 1, 16).is_empty() && s.it.is_done());
    assert!(s.frame(8 * MB, 0).is_empty() && s.it.is_done());
    let first = s.frame(MB + MB / 2, 16);
    assert_eq!(places(&first), [(1, 3, 2 * MB)]); // of slot 0 the first of the list
    let second = s.frame(8 * MB, 2); // the one that is open isn't proposed again
    assert_eq!(places(&second), [(0, 3, 3 * MB), (6, 2, 3 * MB)]);
    assert!(s.frame(8 * MB, 16).is_empty() && !s.it.is_done()); // all above is full, but three are open
    assert_eq!(s.it.open().iter().map(Move::key).collect::<Vec<_>>(), [first[0].0, second[0].0, second[1].0]);
    s.finish(second[1]);
    s.counts(1, MB, 0, 0);
    s.it.abandon(&mut s.allocator, first[0].0).unwrap();
    s.finish(second[0]);
    s.counts(2, 2 * MB, 0, 0);
    let again = s.frame(8 * MB, 16);
    assert_eq!(places(&again), [(1, 3, 2 * MB)]); // what was abandoned is proposed anew
    s.finish(again[0]);
    s.counts(3, 3 * MB, 1, 4 * MB); // slot 0 is empty
    assert!(s.frame(8 * MB, 16).is_empty() && s.it.is_done());
    let told =
        DefragmentationStatistics { moves: 3, bytes_moved: 3 * MB, blocks_given_back: 1, bytes_given_back: 4 * MB };
    assert_eq!(s.end(), told);
}

/// What isn't open is refused, and nothing changes; the end abandons what is open.
#[test]
fn a_move_that_is_not_open_does_not_end() {
    let mut s = Scene::new();
    let moves = s.frame(8 * MB, 16);
    assert_eq!(places(&moves), [(1, 3, 2 * MB), (0, 3, 3 * MB), (6, 2, 3 * MB)]);
    s.finish(moves[0]);
    let place_of = |it: &Allocation| (it.memory_block_index(), it.offset());
    // finished before; of another piece; of the null allocation
    for (key, piece) in [(moves[0].0, 1), (moves[1].0, 6)] {
        let it = s.pieces[piece].as_mut().unwrap();
        let place = place_of(it);
        let error = s.it.finish(&mut s.allocator, key, it).unwrap_err();
        assert_eq!((error.number(), place_of(it), s.it.open().len()), (6, place, 2));
        assert!(s.allocator.is_live(it));
    }
    assert!(s.it.finish(&mut s.allocator, moves[1].0, &mut Allocation::default()).is_err());
    assert_eq!(s.it.abandon(&mut s.allocator, moves[0].0).unwrap_err().number(), 6);
    // another defragmentation, and another allocator
    let mut other = Scene::new();
    assert_eq!(other.it.abandon(&mut s.allocator, moves[1].0).unwrap_err().number(), 6);
    assert_eq!(s.it.abandon(&mut other.allocator, moves[1].0).unwrap_err().number(), 6);
    let it = s.pieces[0].as_mut().unwrap();
    let error = s.it.finish(&mut other.allocator, moves[1].0, it).unwrap_err();
    assert_eq!((error.number(), s.it.open().len(), s.allocator.is_live(it)), (6, 2, true));
    let (error, it) = std::mem::take(&mut s.it).end(&mut other.allocator).unwrap_err();
    assert_eq!((error.number(), it.open().len()), (6, 2));
    s.it = it;
    s.counts(1, MB, 0, 0);
    assert!(s.it.open().iter().all(|it| s.allocator.is_live(it.to())));
    // a request in the middle of a list is no piece's
    let moves = other.frame(MB, 16);
    let wanted = request(MB, MemoryLocation::CpuToGpu);
    let list = [
        (other.pieces[0].as_ref().unwrap(), wanted.clone()),
        (other.pieces[4].as_ref().unwrap(), request(1, MemoryLocation::CpuToGpu)),
    ];
    let refused = other.it.propose(&mut other.allocator, &list, 8 * MB, 16).map(<[Move]>::len);
    assert_eq!(refused, Err(AllocationError::InvalidAllocationCreateDesc));
    assert_eq!((other.it.open().len(), other.it.open()[0].key()), (1, moves[0].0));
    assert_eq!(other.allocator.statistics().pieces, 10 + 1);
    assert_eq!((s.end().moves, other.end().moves), (1, 0));
}

/// Of memory that needs flushes: each byte comes along, and where the driver refuses a flush the allocation stays.
#[test]
fn a_mapped_piece_moves_with_its_bytes() {
    let driver = FakeDriver::new(&[(10, 0), (1, 0)], &[1024 * MB], 64).with_atoms(64);
    let sizes = AllocationSizes::new(4 * MB, 4 * MB);
    let desc = AllocatorCreateDesc { allocation_sizes: sizes, ..AllocatorCreateDesc::new(driver.device()) };
    let mut a = Allocator::new(&desc).unwrap();
    let wanted = request(2 * MB, MemoryLocation::Unknown);
    let [mut first, second, third, fourth] = [(); 4].map(|()| a.allocate(&wanted).unwrap());
    a.free(third).unwrap();
    for (index, byte) in first.mapped_slice_mut().unwrap().iter_mut().enumerate() {
        *byte = ((index * 31) >> 3) as u8;
    }
    for refused in 1..=2 {
        let question = driver.state().questions + refused; // the invalidation, or the flush
        driver.refuse(question, Refusal::Code(-1));
        let before = place(&first);
        assert_eq!(a.move_mapped(&mut first, &wanted).unwrap_err().number(), 6);
        assert_eq!(place(&first), before);
    }
    assert_eq!(a.move_mapped(&mut first, &wanted), Ok(true));
    assert_eq!((place(&first).1, memory(&first)), (1, memory(&fourth)));
    assert!(first.mapped_slice().unwrap().iter().enumerate().all(|(index, &byte)| byte == ((index * 31) >> 3) as u8));
    assert_eq!(a.move_mapped(&mut first, &wanted), Ok(false)); // nothing lies above it
    let on_device = AllocationCreateDesc { location: MemoryLocation::GpuOnly, ..wanted.clone() };
    let mut unseen = a.allocate(&on_device).unwrap();
    assert_eq!(a.move_mapped(&mut unseen, &on_device).unwrap_err().number(), 6);
    assert_eq!(a.move_mapped(&mut Allocation::default(), &wanted).unwrap_err().number(), 6);
    for it in [first, second, fourth, unseen] {
        a.free(it).unwrap();
    }
    drop(a);
    driver.assert_left_empty();
}

#[test]
fn without_device_addresses_nothing_is_chained() {
    let driver = driver();
    let mut a = Allocator::new(&AllocatorCreateDesc::new(driver.device())).unwrap();
    let it = a.allocate(&request(100, MemoryLocation::GpuToCpu)).unwrap();
    let size = 64 * MB; // the default on the host's side
    assert_eq!(asked_for(&driver, &it), Asked { size, memory_type: 1, ..Asked::default() });
    assert_eq!(it.memory_properties(), MemoryPropertyFlags::HOST_VISIBLE | MemoryPropertyFlags::HOST_COHERENT);
    drop(a);
    driver.assert_left_empty();
}

/// Four requests with the questions that they lead to: 1 is for the memory of the first; 2 and 3 for memory and mapping of the second,
/// 4 and 5 of the third, 6 and 7 of the fourth.
fn four_requests() -> [AllocationCreateDesc<'static>; 4] {
    let mut narrow = request(100, MemoryLocation::CpuToGpu);
    narrow.requirements.memory_type_bits = 4;
    narrow.allocation_scheme = AllocationScheme::DedicatedBuffer(Buffer(5));
    [
        request(100, MemoryLocation::GpuOnly),
        request(100, MemoryLocation::GpuToCpu),
        request(100, MemoryLocation::CpuToGpu),
        narrow,
    ]
}

/// Why the request of a question is refused, where it has no second attempt.
fn refusal_of(question: u64, refusal: Refusal) -> AllocationError {
    let is_mapping = question == 3;
    match (is_mapping, refusal) {
        (false, Refusal::Null | Refusal::Code(-2)) => AllocationError::OutOfMemory,
        (false, Refusal::Code(code)) => AllocationError::Internal(Fault {
            text: "Unexpected error in vkAllocateMemory",
            code: Some(i64::from(code)),
        }),
        (true, Refusal::Null) => {
            AllocationError::FailedToMap(Fault { text: "Returned mapped pointer is null", code: None })
        }
        (true, Refusal::Code(code)) => {
            AllocationError::FailedToMap(Fault { text: "vkMapMemory failed", code: Some(i64::from(code)) })
        }
    }
}

#[test]
fn each_question_is_refused_in_turn() {
    for question in 1..=7 {
        for refusal in [Refusal::Code(-2), Refusal::Code(-1), Refusal::Code(-5), Refusal::Null] {
            let driver = driver();
            driver.refuse(question, refusal);
            let mut a = made(&driver);
            let results: Vec<_> = four_requests().iter().map(|it| a.allocate(it)).collect();
            let refused = match question {
                1 => Some(0),
                2 | 3 => Some(1),
                _ => None, // uploads have a second attempt
            };
            for (index, result) in results.iter().enumerate() {
                let error = result.as_ref().err();
                let expected = (refused == Some(index)).then(|| refusal_of(question, refusal));
                assert_eq!(error, expected.as_ref(), "request {index}, question {question}, {refusal:?}");
            }
            // the third one's second attempt is at memory type 1, where the second one's block has a place
            let third = results[2].as_ref().unwrap();
            let is_fallback = matches!(question, 4 | 5);
            assert_eq!(third.memory_type_index(), if is_fallback { 1 } else { 2 });
            assert_eq!(a.capacity(), driver.state().bytes());
            let again = refused.map(|index| a.allocate(&four_requests()[index]).expect("the next try is granted"));
            for it in results.into_iter().flatten().chain(again) {
                a.free(it).unwrap();
            }
            assert_eq!(a.capacity(), driver.state().bytes());
            drop(a);
            driver.assert_left_empty();
        }
    }
}

#[test]
fn an_upload_is_refused_where_both_attempts_are() {
    let driver = driver();
    let mut a = made(&driver);
    driver.refuse(1, Refusal::Code(-1));
    driver.refuse(2, Refusal::Null);
    assert_eq!(a.allocate(&request(100, MemoryLocation::CpuToGpu)).unwrap_err(), AllocationError::OutOfMemory);
    driver.refuse(3, Refusal::Null);
    driver.refuse(5, Refusal::Code(-5));
    let error = a.allocate(&request(100, MemoryLocation::CpuToGpu)).unwrap_err();
    assert_eq!(error.to_string(), "Failed to map memory: vkMapMemory failed (code -5)");
    assert_eq!((a.capacity(), driver.state().questions), (0, 5));
    let served = a.allocate(&request(100, MemoryLocation::CpuToGpu)).unwrap();
    assert_eq!(place(&served), (2, 0, 0, 100, 2, false, true));
    drop(a);
    driver.assert_left_empty();
}

#[test]
fn requests_are_refused_by_their_cause_before_the_driver_is_asked() {
    let driver = driver();
    let mut a = made(&driver);
    let mut refused = |size, alignment, memory_type_bits, location| {
        let requirements = MemoryRequirements { size, alignment, memory_type_bits };
        a.allocate(&AllocationCreateDesc { requirements, ..request(1, location) }).unwrap_err()
    };
    assert_eq!(refused(0, 1, 7, MemoryLocation::GpuOnly), AllocationError::InvalidAllocationCreateDesc);
    assert_eq!(refused(1, 0, 7, MemoryLocation::GpuOnly), AllocationError::InvalidAllocationCreateDesc);
    assert_eq!(refused(1, 6, 0, MemoryLocation::GpuOnly), AllocationError::InvalidAllocationCreateDesc);
    assert_eq!(refused(1, 1, 2, MemoryLocation::GpuOnly), AllocationError::NoCompatibleMemoryTypeFound);
    assert_eq!(refused(1, 1, 1, MemoryLocation::CpuToGpu), AllocationError::NoCompatibleMemoryTypeFound);
    assert_eq!(refused(1, 1, 0, MemoryLocation::Unknown), AllocationError::NoCompatibleMemoryTypeFound);
    assert_eq!(refused(1024 * MB + 1, 1, 7, MemoryLocation::GpuOnly), AllocationError::OutOfMemory);
    assert_eq!(refused(512 * MB + 1, 1, 7, MemoryLocation::CpuToGpu), AllocationError::OutOfMemory); // both heaps
    assert_eq!(driver.state().questions, 0);
}

#[test]
fn a_location_begins_at_its_best_type() {
    let driver = driver();
    let a = made(&driver);
    assert_eq!([7, 6, 2].map(|bits| a.best_type(bits, MemoryLocation::GpuOnly)), [Some(0), Some(2), None]);
    assert_eq!([7, 3, 1].map(|bits| a.best_type(bits, MemoryLocation::CpuToGpu)), [Some(2), Some(1), None]);
    assert_eq!([7, 5].map(|bits| a.best_type(bits, MemoryLocation::GpuToCpu)), [Some(1), Some(2)]); // none is cached
    assert_eq!([6, !7].map(|bits| a.best_type(bits, MemoryLocation::Unknown)), [Some(1), None]);
}

#[test]
fn budgets_bound_the_blocks_of_a_memory_type() {
    let driver = driver();
    let mut a = made(&driver);
    assert_eq!(a.budget(0), None);
    a.set_budget(0, Some(8 * MB)).unwrap();
    assert_eq!((a.budget(0), a.budget(1), a.budget(3)), (Some(8 * MB), None, None));
    let error = a.set_budget(3, Some(1)).unwrap_err();
    assert_eq!(error, AllocationError::Internal(Fault { text: "No such memory type.", code: None }));
    let it = a.allocate(&request(100, MemoryLocation::GpuOnly)).unwrap(); // just within
    let own = AllocationCreateDesc {
        allocation_scheme: AllocationScheme::DedicatedBuffer(Buffer(1)),
        ..request(1, MemoryLocation::GpuOnly)
    };
    assert_eq!(a.allocate(&own).unwrap_err(), AllocationError::BudgetExceeded);
    assert_eq!(driver.state().questions, 1);
    a.set_budget(0, None).unwrap();
    let own = a.allocate(&own).unwrap();
    a.free(own).unwrap();
    a.free(it).unwrap();
}

#[test]
fn devices_that_make_no_sense_are_refused() {
    let of_driver = |driver: Box<FakeDriver>| {
        Allocator::new(&AllocatorCreateDesc::new(driver.device())).err().map(|error| error.to_string())
    };
    let texts =
        |types: &[(u32, u32)], heaps: &[u64], granularity| of_driver(FakeDriver::new(types, heaps, granularity));
    let invalid = |text| Some(format!("Invalid AllocatorCreateDesc {text}"));
    // each with its first cause, in the order of the C binding
    let odd = |atom| FakeDriver::new(&[(1, 9); 33], &HEAPS, 48).with_heap_count(17).with_atoms(atom);
    assert_eq!(of_driver(odd(0)), invalid("non-coherent atom size is not a power of two."));
    assert_eq!(of_driver(odd(48)), invalid("non-coherent atom size is not a power of two."));
    assert_eq!(of_driver(odd(64)), invalid("more than 32 memory types."));
    let heaps = FakeDriver::new(&[(1, 9)], &HEAPS, 48).with_heap_count(17);
    assert_eq!(of_driver(heaps), invalid("more than 16 memory heaps."));
    assert_eq!(texts(&[(1, 9)], &HEAPS, 48), invalid("buffer image granularity is not a power of two."));
    assert_eq!(texts(&TYPES, &HEAPS, 0), invalid("buffer image granularity is not a power of two."));
    assert_eq!(texts(&TYPES, &HEAPS[..2], 1), invalid("memory type with a heap index out of range."));
    assert_eq!(texts(&[(1, 0); 32], &HEAPS, 1), None);
    assert_eq!(texts(&[], &[], 1), None);
}

#[test]
fn bytes_are_where_the_piece_is() {
    let driver = driver();
    let mut a = made(&driver);
    let mut pieces: Vec<Allocation> =
        (1..=20).map(|size| a.allocate(&request(size * 1000, MemoryLocation::CpuToGpu)).unwrap()).collect();
    for (byte, it) in (1..).zip(&mut pieces) {
        it.mapped_slice_mut().unwrap().fill(byte);
    }
    for (byte, it) in (1..).zip(&pieces) {
        let bytes = it.mapped_slice().unwrap();
        assert_eq!(bytes.len() as u64, it.size());
        assert!(bytes.iter().all(|&it| it == byte));
        let start = driver.state().held[&memory(it)].mapped.unwrap() as u64;
        assert_eq!(bytes.as_ptr() as u64, start + it.offset());
    }
    let hidden = a.allocate(&request(10, MemoryLocation::GpuOnly)).unwrap();
    assert!(hidden.mapped_slice().is_none() && hidden.mapped_ptr().is_none());
}

#[test]
fn the_null_allocation_is_no_piece() {
    let driver = driver();
    let mut a = made(&driver);
    let mut null = Allocation::default();
    assert!(null.is_null() && !a.is_live(&null));
    assert_eq!(place(&null), (usize::MAX, usize::MAX, 0, 0, 0, false, false));
    assert_eq!((memory(&null), null.memory_properties()), (0, MemoryPropertyFlags(0)));
    assert!(null.mapped_slice_mut().is_none());
    assert_eq!(null.name(), None);
    a.rename_allocation(&mut null, "nothing").unwrap();
    assert_eq!(null.name(), Some("nothing"));
    a.free(null).unwrap();
}

#[test]
fn an_allocation_of_another_allocator_is_refused() {
    let (mine, yours) = (driver(), driver());
    let (mut a, mut b) = (made(&mine), made(&yours));
    let not_live =
        AllocationError::Internal(Fault { text: "Allocation does not belong to this allocator.", code: None });
    // the same memory type, slot, place and chunk id in both
    let mut of_a = a.allocate(&request(100, MemoryLocation::GpuOnly)).unwrap();
    let of_b = b.allocate(&request(100, MemoryLocation::GpuOnly)).unwrap();
    assert_eq!((place(&of_a), memory(&of_a)), (place(&of_b), memory(&of_b)));
    assert!(!b.is_live(&of_a) && a.is_live(&of_a));
    assert_eq!(b.rename_allocation(&mut of_a, "x").unwrap_err(), not_live);
    assert_eq!(of_a.name(), Some("piece"));
    // what is refused comes back, and its own allocator frees it
    let (error, of_a) = b.free(of_a).unwrap_err();
    assert_eq!(error, not_live);
    assert_eq!((place(&of_a), of_a.name()), ((0, 0, 0, 100, 2, false, false), Some("piece")));
    assert!(a.is_live(&of_a) && b.is_live(&of_b));
    a.free(of_a).unwrap();
    assert_eq!(a.statistics().pieces, 0);
    let of_a = a.allocate(&request(100, MemoryLocation::GpuOnly)).unwrap();
    drop(a);
    assert_eq!(b.free(of_a).unwrap_err().0, not_live);
    b.free(of_b).unwrap();
    drop(b);
    yours.assert_left_empty();
    mine.assert_left_empty();
}

#[test]
fn reports_show_pieces_and_blocks_in_order() {
    let driver = driver();
    let mut a = made(&driver);
    let named = |name, size, location| AllocationCreateDesc { name, ..request(size, location) };
    let upload = a.allocate(&named("upload", 100, MemoryLocation::CpuToGpu)).unwrap();
    let mut first = a.allocate(&named("first", 1000, MemoryLocation::GpuOnly)).unwrap();
    let second = a.allocate(&named("second", 500, MemoryLocation::GpuOnly)).unwrap();
    a.rename_allocation(&mut first, "target").unwrap();
    assert_eq!(first.name(), Some("target"));
    let report = a.generate_report();
    let rows: Vec<_> = report.allocations.iter().map(|it| (it.name.as_str(), it.offset, it.size)).collect();
    assert_eq!(rows, [("target", 0, 1000), ("second", 1000, 500), ("upload", 0, 100)]);
    let blocks: Vec<_> = report.blocks.iter().map(|it| (it.size, it.allocations.clone())).collect();
    assert_eq!(blocks, [(8 * MB, 0..2), (4 * MB, 2..3)]);
    assert_eq!((report.total_allocated_bytes, report.total_capacity_bytes), (1600, 12 * MB));
    let text =
        "AllocatorReport { summary: 1.56 KB / 12.00 MB, blocks: 2, allocations: 3, largest: [\"target\": 1000.00 B] }";
    assert_eq!(format!("{a:.1?}"), text);
    a.free(first).unwrap();
    a.free(upload).unwrap();
    let left = a.allocate(&named("", 400, MemoryLocation::GpuOnly)).unwrap(); // in the first one's place
    let report = a.generate_report();
    let rows: Vec<_> = report.allocations.iter().map(|it| (it.name.as_str(), it.offset, it.size)).collect();
    assert_eq!(rows, [("", 0, 400), ("second", 1000, 500)]);
    assert_eq!(report.blocks[1].allocations, 2..2);
    drop((second, left));
}

/// As `?` does in a function that returns `AllocationError`.
#[test]
fn what_free_refuses_is_an_error() {
    fn frees(allocator: &mut Allocator, allocation: Allocation) -> pilhangko::Result<()> {
        Ok(allocator.free(allocation)?)
    }
    let (mine, yours) = (driver(), driver());
    let (mut a, mut b) = (made(&mine), made(&yours));
    let of_a = a.allocate(&request(100, MemoryLocation::GpuOnly)).unwrap();
    assert!(matches!(frees(&mut b, of_a), Err(AllocationError::Internal(_))));
    let of_a = a.allocate(&request(100, MemoryLocation::GpuOnly)).unwrap();
    assert_eq!(frees(&mut a, of_a), Ok(()));
}

/// The device, memory types and requests of the C binding's rows (tests_c/vulkan_binding.c), and the same places.
#[test]
fn allocations_that_may_need_flushes_lie_in_whole_atoms() {
    let types = [(1, 0), (6, 1), (7, 2), (10, 1), (14, 1)];
    let driver = FakeDriver::new(&types, &[1 << 30, 1 << 29, 24 * MB], 1024).with_atoms(64);
    let sizes = AllocationSizes::new(4 * MB, 4 * MB).with_max_host_memblock_size(8 * MB);
    let desc = AllocatorCreateDesc { allocation_sizes: sizes, ..AllocatorCreateDesc::new(driver.device()) };
    let mut a = Allocator::new(&desc).unwrap();
    let mut placed = |size, alignment, memory_type_bits, location| {
        let requirements = MemoryRequirements { size, alignment, memory_type_bits };
        let it = a.allocate(&AllocationCreateDesc { requirements, ..request(1, location) });
        it.map(|it| (it.memory_type_index(), it.memory_block_index(), it.offset(), it.size()))
    };
    assert_eq!(placed(100, 4, 31, MemoryLocation::GpuOnly), Ok((0, 0, 0, 100)));
    assert_eq!(placed(100, 4, 31, MemoryLocation::GpuOnly), Ok((0, 0, 128, 100))); // memory type 3 is allowed too
    assert_eq!(placed(100, 4, 1, MemoryLocation::GpuOnly), Ok((0, 0, 228, 100))); // here it isn't
    assert_eq!(placed(100, 4, 8, MemoryLocation::Unknown), Ok((3, 0, 0, 100)));
    assert_eq!(placed(100, 4, 8, MemoryLocation::Unknown), Ok((3, 0, 128, 100)));
    assert_eq!(placed(100, 256, 8, MemoryLocation::Unknown), Ok((3, 0, 256, 100)));
    assert_eq!(placed(100, 48, 8, MemoryLocation::Unknown), Err(AllocationError::InvalidAllocationCreateDesc));
    assert_eq!(placed(100, 0, 8, MemoryLocation::Unknown), Err(AllocationError::InvalidAllocationCreateDesc));
}

/// An allocation of memory type `memory_type`, alone.
fn of_type(a: &mut Allocator, size: u64, memory_type: u32) -> Allocation {
    let requirements = MemoryRequirements { size, alignment: 4, memory_type_bits: 1 << memory_type };
    a.allocate(&AllocationCreateDesc { requirements, ..request(1, MemoryLocation::Unknown) }).unwrap()
}

/// Memory types: the device's own, the host's, and the host's that isn't coherent, whose atoms are of 64 bytes.
fn driver_with_flushes() -> Box<FakeDriver> {
    FakeDriver::new(&[(1, 0), (6, 1), (10, 1)], &[1 << 30, 1 << 30], 1).with_atoms(64)
}

fn faulty(text: &'static str, code: Option<i64>) -> Result<(), AllocationError> {
    Err(AllocationError::Internal(Fault { text, code }))
}

#[test]
fn flushes_grow_to_whole_atoms() {
    let driver = driver_with_flushes();
    let mut a = made(&driver);
    let large = of_type(&mut a, 10 * MB + 10, 2); // a block of its size alone, which ends within an atom
    let (first, second) = (of_type(&mut a, 100, 2), of_type(&mut a, 100, 2));
    assert_eq!((large.offset(), second.offset()), (0, 128));
    let made_visible = |call: &dyn Fn() -> Result<(), AllocationError>| {
        driver.state().visible.clear();
        assert_eq!(call(), Ok(()));
        let state = driver.state();
        state.visible.iter().map(|it| (it.invalidated, it.memory, it.offset, it.size)).collect::<Vec<_>>()
    };
    let shared = memory(&second);
    assert_eq!(made_visible(&|| a.flush(&second, ..)), [(false, shared, 128, 128)]);
    assert_eq!(made_visible(&|| a.flush(&second, 64..65)), [(false, shared, 192, 64)]);
    assert_eq!(made_visible(&|| a.flush(&second, 63..=64)), [(false, shared, 128, 128)]);
    assert_eq!(made_visible(&|| a.invalidate(&second, ..64)), [(true, shared, 128, 64)]);
    assert_eq!(made_visible(&|| a.invalidate(&second, 99..)), [(true, shared, 192, 64)]);
    assert_eq!(made_visible(&|| a.flush(&large, 10 * MB + 9..)), [(false, memory(&large), 10 * MB, 10)]);
    assert_eq!(made_visible(&|| a.flush(&second, 100..)), []);
    assert_eq!(made_visible(&|| a.flush(&second, 7..7)), []);
    let coherent = of_type(&mut a, 100, 1);
    assert_eq!(made_visible(&|| a.flush(&coherent, ..)), []);
    for it in [large, first, second, coherent] {
        a.free(it).unwrap();
    }
    drop(a);
    driver.assert_left_empty();
}

#[test]
fn copies_are_flushed() {
    let driver = driver_with_flushes();
    let mut a = made(&driver);
    let (mut it, mut unmapped) = (of_type(&mut a, 100, 2), of_type(&mut a, 100, 0));
    let visible = || std::mem::take(&mut driver.state().visible);
    assert_eq!(a.copy_to(b"abcd", &mut it, 62), Ok(()));
    assert_eq!(&it.mapped_slice().unwrap()[61..67], b"\0abcd\0");
    let memory = memory(&it);
    assert_eq!(visible(), [Visible { invalidated: false, memory, offset: 0, size: 128 }]);
    let mut back = [9; 2];
    assert_eq!(a.copy_from(&it, 64, &mut back), Ok(()));
    assert_eq!((back, visible()), (*b"cd", vec![Visible { invalidated: true, memory, offset: 64, size: 64 }]));
    let outside = faulty("Range is not inside the allocation.", None);
    assert_eq!(a.copy_to(b"ab", &mut it, 99), outside);
    assert_eq!(a.copy_from(&it, u64::MAX, &mut back), outside);
    assert_eq!(a.copy_to(b"ab", &mut unmapped, 0), faulty("Allocation is not mapped.", None));
    assert_eq!(a.copy_from(&unmapped, 0, &mut back), faulty("Allocation is not mapped.", None));
    assert_eq!((back, visible()), (*b"cd", vec![]));
    let next = driver.state().questions + 1;
    driver.refuse(next, Refusal::Code(-1));
    driver.refuse(next + 1, Refusal::Code(-2));
    assert_eq!(a.copy_to(b"e", &mut it, 0), faulty("vkFlushMappedMemoryRanges failed", Some(-1)));
    assert_eq!(a.copy_from(&it, 0, &mut back), faulty("vkInvalidateMappedMemoryRanges failed", Some(-2)));
    assert_eq!((back, it.mapped_slice().unwrap()[0]), (*b"cd", b'e'));
}

#[test]
fn flushes_are_refused_by_their_cause() {
    let (driver, other) = (driver_with_flushes(), driver_with_flushes());
    let (mut a, mut b) = (made(&driver), made(&other));
    let (it, unmapped, foreign) = (of_type(&mut a, 100, 2), of_type(&mut a, 100, 0), of_type(&mut b, 100, 2));
    let outside = faulty("Range is not inside the allocation.", None);
    assert_eq!(a.flush(&it, 101..), outside);
    assert_eq!(a.flush(&it, ..101), outside);
    assert_eq!(a.invalidate(&it, 1..=u64::MAX), outside);
    #[allow(clippy::reversed_empty_ranges, reason = "it is what is refused")]
    let reversed = a.invalidate(&it, 2..1);
    assert_eq!(reversed, outside);
    assert_eq!(a.flush(&unmapped, ..), faulty("Allocation is not mapped.", None));
    let elsewhere = faulty("Allocation does not belong to this allocator.", None);
    assert_eq!(a.invalidate(&foreign, ..), elsewhere);
    assert_eq!(a.flush(&Allocation::default(), ..), elsewhere);
    assert_eq!(driver.state().visible, []);
    let next = driver.state().questions + 1;
    driver.refuse(next, Refusal::Code(-1));
    driver.refuse(next + 1, Refusal::Code(-2));
    assert_eq!(a.flush(&it, ..), faulty("vkFlushMappedMemoryRanges failed", Some(-1)));
    assert_eq!(a.invalidate(&it, ..), faulty("vkInvalidateMappedMemoryRanges failed", Some(-2)));
    assert_eq!(a.flush(&it, ..), Ok(()));
    drop((a, b));
}

/// The lines that a logger was handed.
type Lines = Arc<Mutex<Vec<(Level, String)>>>;

fn listening() -> (Logger, Lines) {
    let lines = Lines::default();
    let kept = Arc::clone(&lines);
    (Logger::new(move |level, line| kept.lock().unwrap().push((level, line.to_owned()))), lines)
}

#[test]
fn leaks_are_logged_when_the_allocator_goes() {
    let driver = driver();
    let (logger, lines) = listening();
    let mut a = Allocator::new(&AllocatorCreateDesc { logger: Some(logger), ..described(&driver) }).unwrap();
    let image = AllocationCreateDesc { name: "a", linear: false, ..request(100, MemoryLocation::GpuOnly) };
    let own = AllocationCreateDesc { name: "b", ..request(9 * MB, MemoryLocation::GpuOnly) };
    let freed = a.allocate(&request(10, MemoryLocation::GpuOnly)).unwrap();
    let leaks = (a.allocate(&image).unwrap(), a.allocate(&own).unwrap());
    a.free(freed).unwrap();
    drop(a);
    driver.assert_left_empty();
    // the page of the buffer that is freed ends at 64: padding from 10 on, 154 bytes in all
    let shared = "\
leak detected: {
    memory type: 0
    memory block: 0
    chunk: {
        chunk_id: 3,
        size: 0x9a,
        offset: 0xa,
        allocation_type: NonLinear,
        name: a
    }
}";
    let dedicated = "\
leak detected: {
    memory type: 0
    memory block: 1
    dedicated allocation: {
        size: 0x900000,
        name: b
    }
}";
    let expected = [(Level::Warn, shared.to_owned()), (Level::Warn, dedicated.to_owned())];
    assert_eq!(*lines.lock().unwrap(), expected);
    drop(leaks);
}

#[test]
fn what_is_asked_for_is_logged() {
    let driver = FakeDriver::new(&[(7, 0)], &[300 * MB], 1);
    let (logger, lines) = listening();
    let debug_settings = AllocatorDebugSettings {
        log_memory_information: true,
        log_leaks_on_shutdown: false,
        log_allocations: true,
        log_frees: true,
    };
    let mut a = Allocator::new(&AllocatorCreateDesc {
        logger: Some(logger),
        debug_settings,
        ..AllocatorCreateDesc::new(driver.device())
    })
    .unwrap();
    let it = a.allocate(&request(100, MemoryLocation::GpuOnly)).unwrap();
    let _leak = a.allocate(&request(200, MemoryLocation::GpuOnly)).unwrap();
    a.free(it).unwrap();
    a.free(Allocation::default()).unwrap();
    drop(a);
    let expected = [
        "memory type count: 1",
        "memory heap count: 1",
        "memory type[0]: prop flags: 0x7, heap[0]",
        "heap[0] flags: 0x0, size: 300 MiB",
        "Allocating `piece` of 100 bytes with an alignment of 1.",
        "Allocating `piece` of 200 bytes with an alignment of 1.",
        "Freeing `piece`.",
        "Freeing `<null>`.",
    ];
    assert_eq!(*lines.lock().unwrap(), expected.map(|line| (Level::Debug, line.to_owned())));
}

/// A logger that takes no line at all.
fn panicking() -> Logger {
    Logger::new(|_, line| panic!("no line is wanted: {line}"))
}

fn panics(call: impl FnOnce()) -> bool {
    std::panic::catch_unwind(std::panic::AssertUnwindSafe(call)).is_err()
}

#[test]
fn blocks_go_back_where_the_logger_panics_at_a_leak() {
    let driver = driver();
    let mut a = Allocator::new(&AllocatorCreateDesc { logger: Some(panicking()), ..described(&driver) }).unwrap();
    let _leaks = [MemoryLocation::GpuOnly, MemoryLocation::CpuToGpu].map(|it| a.allocate(&request(100, it)).unwrap());
    assert_eq!(driver.state().held.len(), 2);
    assert!(panics(|| drop(a)));
    driver.assert_left_empty();
}

#[test]
fn an_allocation_is_freed_where_the_logger_panics_at_its_line() {
    let driver = driver();
    let debug_settings = AllocatorDebugSettings { log_frees: true, ..AllocatorDebugSettings::default() };
    let desc = AllocatorCreateDesc { logger: Some(panicking()), debug_settings, ..described(&driver) };
    let mut a = Allocator::new(&desc).unwrap();
    let own = AllocationCreateDesc { name: "b", ..request(9 * MB, MemoryLocation::GpuOnly) };
    let own = a.allocate(&own).unwrap();
    assert!(panics(|| a.free(own).unwrap()));
    assert_eq!((a.statistics(), driver.state().held.len()), (TypeStatistics { slots: 1, ..Default::default() }, 0));
}

#[test]
fn what_may_go_to_another_thread() {
    fn is_send<T: Send>() {}
    fn is_sync<T: Sync>() {}
    is_send::<Allocator>();
    is_send::<pilhangko::VirtualBlock>();
    is_send::<pilhangko::MemoryType>();
    is_send::<Allocation>();
    is_sync::<Allocation>();
}

#[test]
fn an_allocator_and_its_allocations_go_from_thread_to_thread() {
    let driver = driver();
    let a = Mutex::new(made(&driver));
    thread::scope(|scope| {
        for byte in 1..=4 {
            let a = &a;
            scope.spawn(move || {
                for size in 1..=500 {
                    let mut it = a.lock().unwrap().allocate(&request(size, MemoryLocation::CpuToGpu)).unwrap();
                    it.mapped_slice_mut().unwrap().fill(byte);
                    thread::yield_now();
                    assert!(it.mapped_slice().unwrap().iter().all(|&it| it == byte));
                    a.lock().unwrap().free(it).unwrap();
                }
            });
        }
    });
    let a = a.into_inner().unwrap();
    assert!(a.generate_report().allocations.is_empty());
    drop(a);
    driver.assert_left_empty();
}

/// Four threads at once on one allocator; each one's bytes stay its own.
#[test]
fn a_shared_allocator_serves_several_threads_at_once() {
    let driver = driver();
    let shared = SharedAllocator::new(made(&driver));
    thread::scope(|scope| {
        for number in 1..=4 {
            let shared = shared.clone();
            scope.spawn(move || {
                let mut live = Vec::new();
                for turn in 0..500 {
                    let mut it = shared.allocate(&request(100 + turn % 7 * 50, MemoryLocation::GpuToCpu)).unwrap();
                    it.mapped_slice_mut().expect("readbacks are mapped").fill(number);
                    live.push(it);
                    if turn % 3 == 0 {
                        let freed: Allocation = live.swap_remove(turn as usize % live.len());
                        assert!(freed.mapped_slice().unwrap().iter().all(|byte| *byte == number));
                        shared.free(freed).unwrap();
                    }
                    assert!(shared.lock().capacity() >= 4 * MB);
                }
                live.into_iter().for_each(|it| shared.free(it).unwrap());
            });
        }
    });
    let mut allocator = shared.into_inner().expect("the threads' clones are gone");
    assert_eq!(allocator.statistics().pieces, 0);
    let foreign = made(&driver).allocate(&request(100, MemoryLocation::GpuOnly)).unwrap();
    assert!(!allocator.is_live(&foreign));
    assert!(allocator.free(foreign).is_err());
    drop(allocator);
    driver.assert_left_empty();
}

#[test]
fn pieces_of_different_kinds_share_no_page() {
    let driver = driver();
    let mut a = made(&driver);
    let image = AllocationCreateDesc { linear: false, ..request(10, MemoryLocation::GpuOnly) };
    let offsets: Vec<u64> = [request(10, MemoryLocation::GpuOnly), request(10, MemoryLocation::GpuOnly), image]
        .iter()
        .map(|it| a.allocate(it).unwrap().offset())
        .collect();
    assert_eq!(offsets, [0, 10, 64]); // the page is 64 bytes
}

#[test]
fn a_report_is_told_as_json() {
    let driver = driver();
    let mut a = made(&driver);
    let empty = concat!(
        r#"{"allocations":[],"blocks":[],"schema":"gpu_report.allocator","#,
        r#""total_allocated_bytes":0,"total_capacity_bytes":0,"version":1}"#
    );
    assert_eq!(a.report_json().unwrap(), empty);
    let quoted = AllocationCreateDesc { name: "a \"b\"", ..request(100, MemoryLocation::GpuOnly) };
    let _leak = a.allocate(&quoted).unwrap();
    let expected = concat!(
        r#"{"allocations":[{"name":"a \"b\"","offset":0,"size":100}],"#,
        r#""blocks":[{"allocations":{"end":1,"start":0},"size":8388608}],"schema":"gpu_report.allocator","#,
        r#""total_allocated_bytes":100,"total_capacity_bytes":8388608,"version":1}"#
    );
    assert_eq!(a.report_json().unwrap(), expected);
}

#[test]
fn what_is_counted_and_shown_of_memory_types_and_blocks() {
    let driver = driver();
    let mut a = made(&driver);
    let image = AllocationCreateDesc { linear: false, ..request(100, MemoryLocation::GpuOnly) };
    let _live = (a.allocate(&request(10, MemoryLocation::GpuOnly)).unwrap(), a.allocate(&image).unwrap());
    a.set_budget(0, Some(9 * MB)).unwrap();
    let counted = TypeStatistics {
        capacity: 8 * MB,
        slots: 1,
        shared_blocks: 1,
        budget: Some(9 * MB),
        pieces: 2,
        piece_bytes: 164, // with the padding from 10 to 64
        gaps: 1,
        longest_gap: 8 * MB - 164,
    };
    assert_eq!(a.type_statistics(0), Some(counted));
    assert_eq!((a.type_statistics(1), a.type_statistics(3)), (Some(TypeStatistics::default()), None));
    let of_block =
        BlockStatistics { size: 8 * MB, shared: true, pieces: 2, piece_bytes: 164, gaps: 1, longest_gap: 8 * MB - 164 };
    assert_eq!(
        (a.block_statistics(0, 0), a.block_statistics(0, 1), a.block_statistics(9, 0)),
        (Some(of_block), None, None)
    );
    let shown: Vec<_> =
        a.named_pieces(0, 0).unwrap().iter().map(|it| (it.view.start, it.view.offset, it.view.end)).collect();
    assert_eq!(shown, [(0, 0, 10), (10, 64, 164)]);
    assert_eq!(a.named_pieces(2, 0).unwrap(), []);
    assert_eq!(a.generate_report().total_allocated_bytes, 164);
    let upload = a.allocate(&request(MB, MemoryLocation::CpuToGpu)).unwrap();
    let together = TypeStatistics {
        capacity: 12 * MB,
        slots: 2,
        shared_blocks: 2,
        budget: None,
        pieces: 3,
        piece_bytes: 164 + MB,
        gaps: 2,
        longest_gap: 8 * MB - 164,
    };
    assert_eq!(a.statistics(), together);
    a.free(upload).unwrap();
}
