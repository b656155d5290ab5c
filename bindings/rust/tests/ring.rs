//! Rings: rows that were worked out by hand, and random calls beside a plain account of each byte.
#![allow(missing_docs)]

mod common;

use common::Random;
use pilhangko::ring::{Frame, FrameStatistics, Ring, RingStatistics, Stretch};
use pilhangko::AllocationError;
use std::collections::VecDeque;
use std::thread;

fn frame(number: u64) -> Frame {
    Frame { number }
}

fn held(pieces: u64, bytes: u64) -> FrameStatistics {
    FrameStatistics { pieces, bytes }
}

fn counted(taken: u64, frames: usize, oldest: u64, current: FrameStatistics) -> RingStatistics {
    RingStatistics { size: 100, taken, frames, oldest: frame(oldest), current }
}

#[test]
fn pieces_go_to_the_next_place_and_are_freed_by_frames() {
    let mut ring = Ring::new(100, 2).unwrap();
    assert_eq!(ring.statistics(), counted(0, 0, 0, held(0, 0)));
    assert_eq!(ring.allocate(40, 1), Ok(0));
    assert_eq!(ring.allocate(30, 16), Ok(48)); // behind 8 bytes of padding
    assert_eq!(ring.allocate(30, 1), Err(AllocationError::OutOfMemory)); // 22 bytes are left
    assert_eq!(ring.current_stretch(), Stretch { offset: 0, size: 78, rest: 0 });
    assert_eq!(ring.end_frame(), Some(frame(0)));
    assert_eq!(ring.allocate(12, 12), Ok(84)); // an alignment that is no power of two
    assert_eq!(ring.end_frame(), Some(frame(1)));
    assert_eq!(ring.end_frame(), None);
    assert_eq!(ring.statistics(), counted(96, 2, 0, held(0, 0)));
    assert_eq!(ring.frame_statistics(frame(0)), Some(held(2, 78)));
    assert_eq!(ring.frame_statistics(frame(1)), Some(held(1, 18)));
    assert_eq!(ring.frame_statistics(frame(2)), None);
    assert!(ring.retire(frame(0)));
    assert!(!ring.retire(frame(0)));
    assert_eq!(ring.allocate(8, 4), Ok(0)); // 4 bytes at the end are skipped
    assert_eq!(ring.current_stretch(), Stretch { offset: 96, size: 4, rest: 8 });
    assert_eq!(ring.statistics(), counted(30, 1, 1, held(1, 12)));
    assert!(!ring.retire(frame(2))); // it is open
    assert_eq!(ring.end_frame(), Some(frame(2)));
    assert!(ring.retire(frame(2))); // and the older one
    assert_eq!(ring.statistics(), counted(0, 0, 3, held(0, 0)));
    assert_eq!(ring.allocate(100, 64), Ok(0));
}

#[test]
fn requests_are_refused_by_their_cause() {
    for size in [0, 1 << 63, u64::MAX] {
        assert_eq!(Ring::new(size, 1).unwrap_err(), AllocationError::InvalidAllocationCreateDesc);
    }
    assert_eq!(Ring::new(1, usize::MAX).unwrap_err(), AllocationError::HostOutOfMemory);
    let mut ring = Ring::new(100, 0).unwrap();
    for (size, alignment) in [(0, 1), (1, 0), (0, 0)] {
        assert_eq!(ring.allocate(size, alignment), Err(AllocationError::InvalidAllocationCreateDesc));
    }
    assert_eq!(ring.allocate(101, 1), Err(AllocationError::OutOfMemory));
    assert_eq!(ring.end_frame(), None); // there is room for the open frame alone
}

#[test]
fn a_ring_goes_to_another_thread_and_back() {
    let mut ring = Ring::new(100, 1).unwrap();
    let first = ring.allocate(60, 1).and(Ok(ring.end_frame().unwrap())).unwrap();
    let mut ring = thread::spawn(move || ring.retire(first).then_some(ring)).join().unwrap().unwrap();
    assert_eq!(ring.allocate(100, 1), Ok(0));
}

/// Who has each byte of a ring: the number of its frame.
struct Account {
    owners: Vec<Option<u64>>,
    next: usize,
    oldest: u64,
    /// What the frames in flight hold, and the open one.
    frames: VecDeque<FrameStatistics>,
    room: usize,
}

impl Account {
    fn new(size: usize, room: usize) -> Self {
        Account { owners: vec![None; size], next: 0, oldest: 0, frames: VecDeque::from([held(0, 0)]), room }
    }

    fn open(&self) -> u64 {
        self.oldest + self.frames.len() as u64 - 1
    }

    /// The first offset from the last piece on, round the ring, that is aligned and doesn't run over the end, if all bytes up to the
    /// piece's end are free.
    fn allocate(&mut self, size: usize, alignment: usize) -> Option<usize> {
        let whole = self.owners.len();
        let fits = |&skipped: &usize| {
            let at = (self.next + skipped) % whole;
            at % alignment == 0 && size <= whole - at
        };
        let skipped = (0..whole).find(fits).filter(|skipped| skipped + size <= whole)?;
        let places: Vec<_> = (self.next..self.next + skipped + size).map(|place| place % whole).collect();
        if places.iter().any(|&place| self.owners[place].is_some()) {
            return None;
        }
        let open = self.open();
        places.iter().for_each(|&place| self.owners[place] = Some(open));
        let current = self.frames.back_mut()?;
        *current = held(current.pieces + 1, current.bytes + places.len() as u64);
        let offset = (self.next + skipped) % whole;
        self.next = (offset + size) % whole;
        Some(offset)
    }

    fn end_frame(&mut self) -> Option<Frame> {
        let ended = frame(self.open());
        let has_room = self.frames.len() <= self.room;
        has_room.then(|| {
            self.frames.push_back(held(0, 0));
            ended
        })
    }

    fn retire(&mut self, gone: Frame) -> bool {
        if gone.number < self.oldest || gone.number >= self.open() {
            return false;
        }
        self.frames.drain(..=(gone.number - self.oldest) as usize);
        self.oldest = gone.number + 1;
        for owner in &mut self.owners {
            *owner = owner.filter(|&number| number > gone.number);
        }
        if self.taken() == 0 {
            self.next = 0;
        }
        true
    }

    fn taken(&self) -> u64 {
        self.owners.iter().flatten().count() as u64
    }

    fn assert_same(&self, ring: &Ring) {
        let told = ring.statistics();
        let in_flight = self.frames.len() - 1;
        assert_eq!((told.size, told.taken, told.frames), (self.owners.len() as u64, self.taken(), in_flight));
        assert_eq!((told.oldest, Some(&told.current)), (frame(self.oldest), self.frames.back()));
        for (number, held) in (self.oldest..).zip(self.frames.iter().take(in_flight)) {
            assert_eq!(ring.frame_statistics(frame(number)), Some(*held));
        }
        let stretch = ring.current_stretch();
        let places = (stretch.offset..stretch.offset + stretch.size).chain(0..stretch.rest);
        assert!(places.clone().all(|place| self.owners[place as usize] == Some(self.open())));
        assert_eq!(places.count() as u64, told.current.bytes);
    }
}

#[test]
fn two_hundred_thousand_random_calls_beside_an_account() {
    let mut random = Random(76);
    let mut seen = [0; 4];
    for (size, room) in [(1, 1), (7, 2), (100, 3), (255, 0), (512, 4), (777, 2), (1000, 8), (1024, 1)] {
        let (mut ring, mut account) = (Ring::new(size, room).unwrap(), Account::new(size as usize, room));
        for _ in 0..25_000 {
            match random.below(10) {
                0..=5 => {
                    let (size, alignment) = (1 + random.below(size / 4 + 2), 1 + random.below(64));
                    let wanted = account.allocate(size as usize, alignment as usize).map(|offset| offset as u64);
                    assert_eq!(ring.allocate(size, alignment), wanted.ok_or(AllocationError::OutOfMemory));
                    seen[usize::from(wanted.is_some())] += 1;
                }
                6 | 7 => assert_eq!(ring.end_frame(), account.end_frame()),
                _ => {
                    let gone = frame((account.oldest + random.below(account.frames.len() as u64 + 2)).wrapping_sub(1));
                    let wanted = account.retire(gone);
                    assert_eq!(ring.retire(gone), wanted);
                    seen[2 + usize::from(wanted)] += 1;
                }
            }
            account.assert_same(&ring);
        }
    }
    assert!(seen.iter().all(|&times| times > 5000), "{seen:?}");
}
