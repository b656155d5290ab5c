//! Memory types: rows that were worked out by hand.
#![allow(missing_docs)]

mod common;

use common::MB;
use pilhangko::memory_type::{
    BlockStatistics, MemoryPiece, MemoryRequest, MemoryStatistics, MemoryType, MemoryTypeSettings, Prepared,
};
use pilhangko::{AllocationError, AllocationSizes, Kind};
use std::thread;

/// On the host's side blocks of 4 MB, doubling up to 8 MB.
fn settings() -> MemoryTypeSettings {
    MemoryTypeSettings {
        is_host: true,
        page_size: 64,
        allocation_sizes: AllocationSizes::new(8 * MB, 4 * MB).with_max_host_memblock_size(8 * MB),
        budget: None,
    }
}

fn request(size: u64) -> MemoryRequest {
    MemoryRequest { size, alignment: 1, kind: Kind::Linear, dedicated: false }
}

/// A piece of a new block, of the size and kind that are expected.
fn installed(it: &mut MemoryType, asked: MemoryRequest, (size, is_own): (u64, bool), handle: u64) -> MemoryPiece {
    match it.prepare(&asked, "block").unwrap() {
        Prepared::Piece(piece) => panic!("{piece:?} is of a block that is there"),
        Prepared::NeedsBlock(pending) => {
            assert_eq!((pending.size(), pending.is_dedicated()), (size, is_own));
            pending.install(handle)
        }
    }
}

fn shared(it: &mut MemoryType, asked: MemoryRequest) -> MemoryPiece {
    match it.prepare(&asked, "").unwrap() {
        Prepared::Piece(piece) => piece,
        Prepared::NeedsBlock(pending) => panic!("{pending:?} is needed"),
    }
}

fn place(it: &MemoryPiece) -> (usize, u64, u64, u64, u64) {
    (it.slot, it.chunk_id.get(), it.offset, it.size, it.handle)
}

#[test]
fn blocks_come_and_go() {
    let mut it = MemoryType::new(&settings()).unwrap();
    let a = installed(&mut it, request(100), (4 * MB, false), 1001);
    assert_eq!(place(&a), (0, 2, 0, 100, 1001));
    let b = shared(&mut it, request(50));
    assert_eq!(place(&b), (0, 3, 100, 50, 1001));
    let c = installed(&mut it, request(4 * MB), (8 * MB, false), 1002); // twice the size
    let d = installed(&mut it, request(8 * MB + 1), (8 * MB + 1, true), 1003); // larger than the next shared block
    let e = installed(&mut it, MemoryRequest { dedicated: true, ..request(10) }, (10, true), 1004);
    assert_eq!((place(&d), place(&e)), ((2, 1, 0, 8 * MB + 1, 1003), (3, 1, 0, 10, 1004)));
    let counted = MemoryStatistics { capacity: 20 * MB + 11, slots: 4, shared_blocks: 2, budget: None };
    assert_eq!(it.statistics(), counted);
    assert_eq!(it.blocks().collect::<Vec<_>>(), [(0, 1001), (1, 1002), (2, 1003), (3, 1004)]);
    let of_first =
        BlockStatistics { size: 4 * MB, shared: true, pieces: 2, piece_bytes: 150, gaps: 1, longest_gap: 4 * MB - 150 };
    assert_eq!(it.block_statistics(0), Some(of_first));
    assert_eq!((it.block_statistics(4), it.block(4), it.next_piece(4, 0)), (None, None, None));
    it.set_word(&b, 7).unwrap();
    it.set_word(&e, u64::MAX).unwrap();
    it.rename(&b, "second").unwrap();
    let words = |slot| it.pieces(slot).unwrap().into_iter().map(|it| it.word).collect::<Vec<_>>();
    assert_eq!((words(0), words(3)), (vec![0, 7], vec![u64::MAX]));
    let names: Vec<_> = it.named_pieces(0).unwrap().into_iter().map(|it| (it.view.offset, it.name)).collect();
    assert_eq!(names, [(0, "block".to_owned()), (100, "second".to_owned())]);
    assert_eq!(it.pieces(9).unwrap(), []);
    assert_eq!(it.next_piece(0, 1).map(|it| (it.offset, it.end)), Some((100, 150)));
    assert_eq!(it.free(&d), Ok(Some(1003))); // a piece's own block goes
    assert_eq!(it.free(&a), Ok(None));
    assert!(it.is_live(&b));
    assert_eq!(it.free(&b), Ok(Some(1001))); // without pieces, and another shared one is live
    assert!(!it.is_live(&b) && it.free(&b).is_err() && it.set_word(&b, 1).is_err());
    assert_eq!(it.free(&c), Ok(None)); // the last shared block stays
    assert_eq!(it.blocks().collect::<Vec<_>>(), [(1, 1002), (3, 1004)]);
}

#[test]
fn a_block_that_is_abandoned_or_dropped_leaves_nothing() {
    let mut it = MemoryType::new(&settings()).unwrap();
    for is_dropped in [false, true] {
        let Prepared::NeedsBlock(pending) = it.prepare(&request(100), "x").unwrap() else { panic!("a block is there") };
        if is_dropped {
            drop(pending);
        } else {
            pending.abandon();
        }
        assert_eq!(it.statistics(), MemoryStatistics::default());
    }
    let Prepared::NeedsBlock(pending) = it.prepare(&request(100), "x").unwrap() else { panic!("a block is there") };
    std::mem::forget(pending); // the block is awaited for ever
    let awaits = "Internal error: A block is awaited.";
    assert_eq!(it.prepare(&request(1), "").unwrap_err().to_string(), awaits);
    assert_eq!(it.set_budget(None).unwrap_err().to_string(), awaits);
}

#[test]
fn requests_are_refused_by_their_cause() {
    let odd = MemoryTypeSettings { page_size: 3, ..settings() };
    assert_eq!(MemoryType::new(&odd).unwrap_err(), AllocationError::InvalidAllocationCreateDesc);
    let mut it = MemoryType::new(&MemoryTypeSettings { budget: Some(4 * MB), ..settings() }).unwrap();
    assert_eq!(it.prepare(&request(0), "").unwrap_err(), AllocationError::InvalidAllocationCreateDesc);
    installed(&mut it, request(1), (4 * MB, false), 1); // just within
    assert_eq!(it.prepare(&request(5 * MB), "").unwrap_err(), AllocationError::BudgetExceeded);
    assert_eq!(it.statistics().budget, Some(4 * MB));
    it.set_budget(None).unwrap();
    installed(&mut it, request(5 * MB), (8 * MB, false), 2);
    let own = MemoryRequest { dedicated: true, ..request(u64::MAX) };
    assert_eq!(it.prepare(&own, "").unwrap_err(), AllocationError::OutOfMemory); // the sizes would pass u64::MAX
    assert_eq!(it.statistics().budget, None);
}

#[test]
fn a_memory_type_goes_to_another_thread() {
    let mut it = MemoryType::new(&settings()).unwrap();
    let piece = installed(&mut it, request(100), (4 * MB, false), 7);
    let it = thread::spawn(move || it.free(&piece).map(|_| it)).join().unwrap().unwrap();
    assert_eq!(it.block(0), Some(7));
}
