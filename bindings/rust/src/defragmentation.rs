//! Moves that stay open over frames, of any API's allocations.

use crate::error::internal;
use crate::{AllocationError, Result};
use std::{fmt, mem};

/// An allocation that its allocator can move. It is implemented here alone.
pub trait Movable: fmt::Debug + Sized {
    /// What allocates it.
    type Allocator;

    /// What asks for it.
    type Desc<'a>;

    /// What names it: no other allocation has this name, nor had; a null one has none.
    fn name(&self) -> MoveKey;

    /// Its size in bytes.
    fn bytes(&self) -> u64;

    /// The slot of its block.
    fn slot(&self) -> usize;

    /// A second place for it.
    fn second_place(&self, allocator: &mut Self::Allocator, desc: &Self::Desc<'_>) -> Result<Option<Self>>;

    /// Whether it is live and this allocator's.
    fn check_live(&self, allocator: &Self::Allocator) -> Result<()>;

    /// Frees it.
    fn free(self, allocator: &mut Self::Allocator) -> Result<()>;

    /// The sum of the sizes of an allocator's blocks in bytes.
    fn capacity(allocator: &Self::Allocator) -> u64;
}

/// Makes the allocation of an API one that its allocator can move.
macro_rules! movable {
    ($allocation:ty, $allocator:ty, $desc:ident) => {
        impl $crate::defragmentation::Movable for $allocation {
            type Allocator = $allocator;

            type Desc<'a> = $desc<'a>;

            fn name(&self) -> $crate::defragmentation::MoveKey {
                self.key()
            }

            fn bytes(&self) -> u64 {
                self.size()
            }

            fn slot(&self) -> usize {
                self.memory_block_index()
            }

            fn second_place(&self, allocator: &mut $allocator, desc: &$desc<'_>) -> $crate::Result<Option<Self>> {
                allocator.propose_move(self, desc)
            }

            fn check_live(&self, allocator: &$allocator) -> $crate::Result<()> {
                allocator.live(self).map(|_| ())
            }

            fn free(self, allocator: &mut $allocator) -> $crate::Result<()> {
                Ok(allocator.free(self)?)
            }

            fn capacity(allocator: &$allocator) -> u64 {
                allocator.capacity()
            }
        }
    };
}
pub(crate) use movable;

/// What names an open move. It is the name of the second place, which no other allocation has, nor had.
#[derive(Clone, Copy, Debug, PartialEq, Eq, PartialOrd, Ord, Hash)]
pub struct MoveKey {
    /// The number of its allocator.
    pub(crate) owner: u64,
    /// Its number there.
    pub(crate) number: u64,
}

/// A move that is open.
#[derive(Debug)]
pub struct Move<A> {
    index: usize,
    from: MoveKey,
    to: A,
}

impl<A: Movable> Move<A> {
    /// What finishes or abandons it.
    pub fn key(&self) -> MoveKey {
        self.to.name()
    }

    /// The index of its allocation in the frame that proposed it.
    pub fn index(&self) -> usize {
        self.index
    }

    /// The second place: the resource is made anew there.
    pub fn to(&self) -> &A {
        &self.to
    }
}

/// What came of the moves that were finished.
#[derive(Clone, Copy, Debug, Default, PartialEq, Eq)]
pub struct DefragmentationStatistics {
    /// How many they are.
    pub moves: u64,
    /// The sum of their sizes in bytes.
    pub bytes_moved: u64,
    /// How many blocks went back to the driver with their first places.
    pub blocks_given_back: u64,
    /// The sum of these blocks' sizes in bytes.
    pub bytes_given_back: u64,
}

/// Proposes moves of those allocations that may move: the ones in the lowest slots first, so many at most, while they sum up to at most so many
/// bytes. A move is the index of its allocation here and the second place. Where a proposal fails, those before it are abandoned.
pub(crate) fn propose_some<A: Movable>(
    allocator: &mut A::Allocator,
    movables: &[(&A, A::Desc<'_>)],
    bytes: u64,
    most: usize,
    may_move: impl Fn(&A) -> bool,
) -> Result<Vec<(usize, A)>> {
    let (mut order, mut moves, mut left) = (Vec::new(), Vec::new(), bytes);
    order.try_reserve_exact(movables.len())?;
    moves.try_reserve_exact(most.min(movables.len()))?;
    order.extend((0..movables.len()).filter(|&index| may_move(movables[index].0)));
    order.sort_unstable_by_key(|&index| (movables[index].0.slot(), index));
    for index in order {
        let (allocation, desc) = &movables[index];
        if moves.len() == most {
            break;
        }
        if allocation.bytes() > left {
            continue;
        }
        match allocation.second_place(allocator, desc) {
            Ok(None) => {}
            Ok(Some(to)) => {
                left -= to.bytes();
                moves.push((index, to));
            }
            Err(error) => {
                for (_, to) in moves {
                    to.free(allocator)?;
                }
                return Err(error);
            }
        }
    }
    Ok(moves)
}

/// Moves that stay open over frames: it proposes those of a frame, keeps their second places until they are finished or abandoned, and counts
/// what comes of them. It is for one allocator. Where it is dropped with open moves, their second places leak: [`end`](Self::end) it then.
#[derive(Debug)]
pub struct Defragmentation<A> {
    open: Vec<Move<A>>,
    finished: DefragmentationStatistics,
    is_done: bool,
}

const NOT_OPEN: AllocationError = internal("The move is not open.");

impl<A> Default for Defragmentation<A> {
    fn default() -> Self {
        Defragmentation { open: Vec::new(), finished: DefragmentationStatistics::default(), is_done: false }
    }
}

impl<A: Movable> Defragmentation<A> {
    /// One without open moves.
    pub fn new() -> Self {
        Self::default()
    }

    /// Proposes the moves of a frame: of these allocations, each with the request that it was made for, those in the lowest slots first, so
    /// that low blocks empty, while they sum up to at most so many bytes, and so many at most; it keeps them open. Allocations whose move is
    /// open are passed over, so that the list may be the same in each frame. One that shall stay isn't in it; one of more than so many bytes
    /// stays.
    ///
    /// The errors, and then no move of this frame is open: `HostOutOfMemory` of its lists, those of the allocator's `propose_move`.
    pub fn propose(
        &mut self,
        allocator: &mut A::Allocator,
        movables: &[(&A, A::Desc<'_>)],
        bytes: u64,
        moves: usize,
    ) -> Result<&[Move<A>]> {
        let mut firsts = Vec::new();
        firsts.try_reserve_exact(self.open.len())?;
        firsts.extend(self.open.iter().map(|it| it.from));
        firsts.sort_unstable();
        self.open.try_reserve(moves.min(movables.len()))?;
        let may = |it: &A| firsts.binary_search(&it.name()).is_err();
        let proposed = propose_some(allocator, movables, bytes, moves, may)?;
        let before = self.open.len();
        let opened = proposed.into_iter().map(|(index, to)| Move { index, from: movables[index].0.name(), to });
        self.open.extend(opened);
        self.is_done = self.open.is_empty();
        Ok(&self.open[before..])
    }

    /// Finishes the open move of an allocation: frees its first place, whose block goes back to the driver where it is left empty, and the
    /// allocation is the second one from then on. The resource at the first is destroyed before.
    ///
    /// The error, and then nothing changes: `Internal` where the move isn't open, isn't this allocation's, or isn't of this allocator.
    pub fn finish(&mut self, allocator: &mut A::Allocator, key: MoveKey, allocation: &mut A) -> Result<()> {
        let name = allocation.name();
        let at = self.open.iter().position(|it| it.key() == key && it.from == name).ok_or(NOT_OPEN)?;
        allocation.check_live(allocator)?;
        let before = A::capacity(allocator);
        let first = mem::replace(allocation, self.open.remove(at).to);
        first.free(allocator)?;
        let given_back = before - A::capacity(allocator);
        self.finished.moves += 1;
        self.finished.bytes_moved += allocation.bytes();
        self.finished.blocks_given_back += u64::from(given_back > 0);
        self.finished.bytes_given_back += given_back;
        Ok(())
    }

    /// Abandons an open move: frees its second place. The resource there is destroyed before. The allocation stays where it is, and may be
    /// proposed again.
    ///
    /// The error, and then nothing changes: `Internal` where the move isn't open, or isn't of this allocator.
    pub fn abandon(&mut self, allocator: &mut A::Allocator, key: MoveKey) -> Result<()> {
        let at = self.open.iter().position(|it| it.key() == key).ok_or(NOT_OPEN)?;
        self.open[at].to.check_live(allocator)?;
        self.open.remove(at).to.free(allocator)
    }

    /// Abandons all open moves, and returns what came of the finished ones.
    ///
    /// The error: `Internal` where an open move isn't of this allocator, with all moves that are open still.
    #[allow(clippy::result_large_err, reason = "what is refused comes back")]
    pub fn end(mut self, allocator: &mut A::Allocator) -> Result<DefragmentationStatistics, (AllocationError, Self)> {
        while let Some(it) = self.open.last() {
            let key = it.key();
            if let Err(error) = self.abandon(allocator, key) {
                return Err((error, self));
            }
        }
        Ok(self.finished)
    }

    /// The open moves, in the order in which they were proposed.
    pub fn open(&self) -> &[Move<A>] {
        &self.open
    }

    /// Whether the last frame proposed no move while none was open: within its bounds none of its allocations has a place in a block that is
    /// looked at before its own.
    pub fn is_done(&self) -> bool {
        self.is_done
    }

    /// What came of the finished moves by now.
    pub fn statistics(&self) -> DefragmentationStatistics {
        self.finished
    }
}
