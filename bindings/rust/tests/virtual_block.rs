//! Virtual blocks: rows that were worked out by hand, and random calls beside a plain account.
#![allow(missing_docs)]

mod common;

use common::Random;
use pilhangko::virtual_block::{VirtualBlock, VirtualPiece, VirtualRequest, VirtualStatistics};
use pilhangko::{AllocationError, Kind, PieceView};
use std::collections::BTreeMap;
use std::thread;

fn request(size: u64, alignment: u64, kind: Kind) -> VirtualRequest {
    VirtualRequest { size, alignment, kind }
}

/// A piece where it is expected.
fn at(block: &mut VirtualBlock, request: VirtualRequest, offset: u64, chunk_id: u64) -> VirtualPiece {
    let piece = block.allocate(&request, "piece").unwrap();
    assert_eq!((piece.offset, piece.chunk_id.get()), (offset, chunk_id));
    piece
}

fn is_not_live<T: std::fmt::Debug>(result: Result<T, AllocationError>) {
    let error = result.unwrap_err();
    assert_eq!(error.to_string(), "Internal error: Allocation does not belong to this allocator.");
}

#[test]
fn the_shortest_gap_serves_and_of_equal_ones_the_first() {
    let mut block = VirtualBlock::new(1000, 1).unwrap();
    let a = at(&mut block, request(100, 1, Kind::Linear), 0, 2);
    let b = at(&mut block, request(50, 1, Kind::Linear), 100, 3);
    at(&mut block, request(100, 1, Kind::NonLinear), 150, 4);
    at(&mut block, request(60, 64, Kind::Linear), 256, 5);
    block.free(b).unwrap();
    is_not_live(block.free(b));
    let e = at(&mut block, request(40, 1, Kind::Linear), 100, 6); // the gap of 50, not the rest of the block
    at(&mut block, request(10, 1, Kind::Linear), 140, 3); // fills it: the gap's chunk id
    block.free(a).unwrap();
    block.free(e).unwrap(); // joins the gap before it
    at(&mut block, request(140, 1, Kind::Linear), 0, 2);
    is_not_live(block.rename(e, "x"));
    assert_eq!(block.statistics().pieces, 4);
    block.clear().unwrap();
    assert_eq!(block.statistics(), VirtualStatistics { size: 1000, gaps: 1, longest_gap: 1000, ..Default::default() });
}

#[test]
fn requests_are_refused_by_their_cause() {
    assert_eq!(VirtualBlock::new(0, 1).unwrap_err(), AllocationError::InvalidAllocationCreateDesc);
    assert_eq!(VirtualBlock::new(1, 0).unwrap_err(), AllocationError::InvalidAllocationCreateDesc);
    assert_eq!(VirtualBlock::new(1, 12).unwrap_err(), AllocationError::InvalidAllocationCreateDesc);
    let mut block = VirtualBlock::new(100, 1).unwrap();
    let mut refused = |size, alignment| block.allocate(&request(size, alignment, Kind::Linear), "").unwrap_err();
    assert_eq!(refused(0, 1), AllocationError::InvalidAllocationCreateDesc);
    assert_eq!(refused(1, 3), AllocationError::InvalidAllocationCreateDesc);
    assert_eq!(refused(101, 1), AllocationError::OutOfMemory);
    assert_eq!(block.statistics().pieces, 0);
}

#[test]
fn pieces_are_shown_in_order_with_their_names() {
    let mut block = VirtualBlock::new(1000, 64).unwrap();
    assert_eq!(block.named_pieces().unwrap(), []);
    let first = at(&mut block, request(10, 1, Kind::Linear), 0, 2);
    let second = at(&mut block, request(10, 1, Kind::NonLinear), 64, 3); // behind 54 bytes of padding
    let third = at(&mut block, request(10, 16, Kind::NonLinear), 80, 4); // behind 6
    block.rename(first, "größe").unwrap();
    block.rename(third, "").unwrap();
    let counted = VirtualStatistics { size: 1000, pieces: 3, piece_bytes: 90, gaps: 1, longest_gap: 910 };
    assert_eq!(block.statistics(), counted);
    let shown = [
        PieceView { chunk_id: first.chunk_id, start: 0, offset: 0, end: 10, kind: Kind::Linear, word: 0 },
        PieceView { chunk_id: second.chunk_id, start: 10, offset: 64, end: 74, kind: Kind::NonLinear, word: 0 },
        PieceView { chunk_id: third.chunk_id, start: 74, offset: 80, end: 90, kind: Kind::NonLinear, word: 0 },
    ];
    assert_eq!(block.pieces().unwrap(), shown);
    let named: Vec<_> = block.named_pieces().unwrap().into_iter().map(|it| (it.view, it.name)).collect();
    let names = ["größe", "piece", ""].map(str::to_owned);
    assert_eq!(named, shown.into_iter().zip(names).collect::<Vec<_>>());
    assert_eq!((block.next_piece(1), block.next_piece(81)), (Some(shown[1]), None));
    assert_eq!(shown[1].size(), 10);
}

#[test]
fn a_piece_keeps_a_word() {
    let mut block = VirtualBlock::new(1000, 1).unwrap();
    let first = at(&mut block, request(10, 1, Kind::Linear), 0, 2);
    let word = |block: &VirtualBlock| block.next_piece(0).map(|it| it.word);
    assert_eq!(word(&block), Some(0));
    block.set_word(first, u64::MAX).unwrap();
    block.rename(first, "a name that takes host memory of its own").unwrap();
    assert_eq!((word(&block), block.pieces().unwrap()[0].word), (Some(u64::MAX), u64::MAX));
    block.free(first).unwrap();
    is_not_live(block.set_word(first, 1));
    at(&mut block, request(10, 1, Kind::Linear), 0, 3);
    is_not_live(block.set_word(first, 1));
    assert_eq!(word(&block), Some(0));
}

#[test]
fn a_block_goes_to_another_thread_and_back() {
    let mut block = VirtualBlock::new(1000, 1).unwrap();
    let first = at(&mut block, request(100, 1, Kind::Linear), 0, 2);
    let mut block = thread::spawn(move || block.free(first).map(|()| block)).join().unwrap().unwrap();
    is_not_live(block.free(first));
    assert_eq!(block.statistics().longest_gap, 1000);
}

/// Live pieces by offset, with end, kind and chunk id.
type Pieces = BTreeMap<u64, (u64, Kind, VirtualPiece)>;

/// A new piece is aligned, inside the block, shares no byte with a neighbour and no page with one of the other kind.
fn enter(pieces: &mut Pieces, asked: &VirtualRequest, piece: VirtualPiece, (size, page): (u64, u64)) {
    let (offset, end) = (piece.offset, piece.offset + asked.size);
    assert!(offset % asked.alignment == 0 && end <= size);
    if let Some((_, &(before, kind, _))) = pieces.range(..=offset).next_back() {
        assert!(before <= offset && (kind == asked.kind || (before - 1) / page < offset / page));
    }
    if let Some((&behind, &(_, kind, _))) = pieces.range(offset..).next() {
        assert!(end <= behind && (kind == asked.kind || (end - 1) / page < behind / page));
    }
    pieces.insert(offset, (end, asked.kind, piece));
}

#[test]
fn random_pieces_are_apart() {
    const SIZE: u64 = 1 << 20;
    const PAGE: u64 = 256;
    let mut random = Random(7);
    let mut block = VirtualBlock::new(SIZE, PAGE).unwrap();
    let mut pieces = Pieces::new();
    let mut refused = 0;
    for _ in 0..20_000 {
        let kind = if random.one_in(3) { Kind::NonLinear } else { Kind::Linear };
        let asked = request(1 + random.below(6000), 1 << random.below(9), kind);
        if random.below(100) < 52 {
            match block.allocate(&asked, "piece") {
                Ok(piece) => enter(&mut pieces, &asked, piece, (SIZE, PAGE)),
                Err(error) => {
                    // no gap of the request, its alignment and a page on both sides is free
                    assert_eq!(error, AllocationError::OutOfMemory);
                    assert!(block.statistics().longest_gap < asked.size + asked.alignment + 2 * PAGE);
                    refused += 1;
                }
            }
        } else if let Some((&offset, &(_, _, piece))) = pieces.range(random.below(SIZE)..).next() {
            block.free(piece).unwrap();
            pieces.remove(&offset);
        }
    }
    assert!(refused > 100 && pieces.len() > 100);
    let shown: Vec<_> = block.pieces().unwrap().iter().map(|it| (it.offset, it.end, it.kind, it.chunk_id)).collect();
    let live: Vec<_> =
        pieces.iter().map(|(&offset, &(end, kind, piece))| (offset, end, kind, piece.chunk_id)).collect();
    assert_eq!(shown, live);
}
