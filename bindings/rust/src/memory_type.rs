//! Memory types: blocks that come and go, each asked of a driver by the caller, and the pieces in them. For any graphics API.
//!
//! ```
//! use pilhangko::memory_type::{MemoryRequest, MemoryType, MemoryTypeSettings, Prepared};
//! use pilhangko::Kind;
//!
//! let mut memory = MemoryType::new(&MemoryTypeSettings::default())?;
//! let request = MemoryRequest { size: 1000, alignment: 256, kind: Kind::Linear, dedicated: false };
//! let piece = match memory.prepare(&request, "vertices")? {
//!     Prepared::Piece(piece) => piece,
//!     Prepared::NeedsBlock(pending) => {
//!         let handle = 7; // the driver's handle of pending.size() bytes; where the driver refuses, pending.abandon()
//!         pending.install(handle)
//!     }
//! };
//! assert_eq!((piece.handle, piece.offset), (7, 0));
//! if let Some(handle) = memory.free(&piece)? {
//!     println!("the block {handle} goes back to the driver");
//! }
//! # Ok::<(), pilhangko::AllocationError>(())
//! ```

use crate::error::{check, check_unrefused};
use crate::pieces::Visited;
use crate::raw::{self, Handle};
use crate::{AllocationSizes, Kind, NamedPiece, PieceView, Result};
use std::num::NonZeroU64;

/// What a memory type is made with.
#[derive(Clone, Copy, Debug, PartialEq, Eq)]
pub struct MemoryTypeSettings {
    /// Whether the host can see the memory: which side's block sizes count.
    pub is_host: bool,
    /// The size of a page in bytes, a power of two: Vulkan's bufferImageGranularity, elsewhere 1.
    pub page_size: u64,
    /// The sizes of shared blocks.
    pub allocation_sizes: AllocationSizes,
    /// The bound of the sum of the blocks' sizes in bytes, if it has one.
    pub budget: Option<u64>,
}

/// Memory of the device alone, without pages, with the default sizes of blocks and without a budget.
impl Default for MemoryTypeSettings {
    fn default() -> Self {
        MemoryTypeSettings { is_host: false, page_size: 1, allocation_sizes: AllocationSizes::default(), budget: None }
    }
}

/// What is asked of a memory type.
#[derive(Clone, Copy, Debug, PartialEq, Eq)]
pub struct MemoryRequest {
    /// How many bytes: not 0.
    pub size: u64,
    /// A power of two; the piece's offset is a multiple of it.
    pub alignment: u64,
    /// The kind of the piece.
    pub kind: Kind,
    /// Whether the piece shall have a block of its own.
    pub dedicated: bool,
}

/// A piece of a memory type. One that was freed is refused until a piece comes that is the same in all five.
#[derive(Clone, Copy, Debug, PartialEq, Eq, Hash)]
pub struct MemoryPiece {
    /// The slot of its block.
    pub slot: usize,
    /// What names it in its block.
    pub chunk_id: NonZeroU64,
    /// Where it begins in its block, in bytes.
    pub offset: u64,
    /// Its size in bytes.
    pub size: u64,
    /// The driver's handle of its block.
    pub handle: u64,
}

impl MemoryPiece {
    pub(crate) fn to_raw(self) -> raw::MemoryPiece {
        raw::MemoryPiece {
            slot: self.slot,
            number: self.chunk_id.get(),
            offset: self.offset,
            size: self.size,
            block: self.handle,
        }
    }

    fn from_raw(piece: &raw::MemoryPiece) -> Self {
        MemoryPiece {
            slot: piece.slot,
            chunk_id: NonZeroU64::new(piece.number).expect("the chunk id of a piece is never 0"),
            offset: piece.offset,
            size: piece.size,
            handle: piece.block,
        }
    }
}

/// What a request results in.
#[derive(Debug)]
pub enum Prepared<'a> {
    /// A piece of a block that is there.
    Piece(MemoryPiece),
    /// A block is needed: ask the driver for it.
    NeedsBlock(PendingBlock<'a>),
}

/// A block that is awaited, with its first piece: all host memory for it is at hand. Dropping it abandons it.
#[derive(Debug)]
pub struct PendingBlock<'a> {
    memory_type: &'a mut MemoryType,
    size: u64,
    dedicated: bool,
    is_settled: bool,
}

impl PendingBlock<'_> {
    /// How many bytes to ask the driver for.
    pub fn size(&self) -> u64 {
        self.size
    }

    /// Whether the block will be its piece's own.
    pub fn is_dedicated(&self) -> bool {
        self.dedicated
    }

    /// Puts in the block under the driver's handle of it, and returns the piece, which begins at the block's start. Nothing refuses it, so
    /// a block that the driver granted is never lost. Handles of live blocks should differ.
    pub fn install(mut self, handle: u64) -> MemoryPiece {
        self.is_settled = true;
        let mut piece = raw::MemoryPiece::default();
        // SAFETY: the handle is the memory type's alone, which is borrowed mutably.
        check_unrefused(unsafe {
            raw::pilhangko_raw_memory_type_install(self.memory_type.handle.as_ptr(), handle, &mut piece)
        });
        MemoryPiece::from_raw(&piece)
    }

    /// Forgets the block, where the driver refused it: the memory type is as it was before the request.
    pub fn abandon(self) {}
}

impl Drop for PendingBlock<'_> {
    fn drop(&mut self) {
        if !self.is_settled {
            // SAFETY: the handle is the memory type's alone, which is borrowed mutably.
            check_unrefused(unsafe { raw::pilhangko_raw_memory_type_abandon(self.memory_type.handle.as_ptr()) });
        }
    }
}

/// What is counted of a memory type.
#[derive(Clone, Copy, Debug, Default, PartialEq, Eq)]
pub struct MemoryStatistics {
    /// The sum of the blocks' sizes in bytes.
    pub capacity: u64,
    /// How many slots there are, the empty ones included.
    pub slots: usize,
    /// How many blocks there are that several pieces may share.
    pub shared_blocks: usize,
    /// The bound of `capacity`, if there is one.
    pub budget: Option<u64>,
}

/// The size of a block of a memory type, and what is counted of it.
#[derive(Clone, Copy, Debug, Default, PartialEq, Eq)]
pub struct BlockStatistics {
    /// Its size in bytes.
    pub size: u64,
    /// Whether pieces share it; else it is one piece's own.
    pub shared: bool,
    /// How many pieces are live.
    pub pieces: usize,
    /// What they take in bytes, with the padding before them.
    pub piece_bytes: u64,
    /// How many gaps there are.
    pub gaps: usize,
    /// The length of the longest gap in bytes, 0 where there is none.
    pub longest_gap: u64,
}

impl BlockStatistics {
    /// What is counted of a block, if there is one.
    pub(crate) fn counted(s: &raw::MemoryBlockStatistics) -> Option<Self> {
        s.exists.then_some(BlockStatistics {
            size: s.size,
            shared: s.shared,
            pieces: s.pieces,
            piece_bytes: s.piece_bytes,
            gaps: s.gaps,
            longest_gap: s.longest_gap,
        })
    }
}

/// The blocks of one memory type and the pieces in them. It holds no memory and asks no driver: it says which block is needed. It may go
/// from thread to thread. The blocks' memory is the caller's to give back to the driver before it drops a memory type (`blocks`).
#[derive(Debug)]
pub struct MemoryType {
    handle: Handle,
}

impl MemoryType {
    /// A memory type without blocks.
    ///
    /// The errors: `InvalidAllocationCreateDesc` where the page size is no power of two, `HostOutOfMemory`.
    pub fn new(settings: &MemoryTypeSettings) -> Result<Self> {
        let sizes = settings.allocation_sizes.parts();
        let settings = raw::MemoryTypeSettings {
            is_host: settings.is_host,
            page_size: settings.page_size,
            device_block_size: sizes.device,
            largest_device_block_size: sizes.largest_device,
            host_block_size: sizes.host,
            largest_host_block_size: sizes.largest_host,
            has_budget: settings.budget.is_some(),
            budget: settings.budget.unwrap_or(0),
        };
        let memory_type = MemoryType { handle: Handle::empty() };
        // SAFETY: the handle is empty and this call's alone, and the settings outlive the call.
        check(unsafe { raw::pilhangko_raw_memory_type_create(memory_type.handle.as_ptr(), &settings) })?;
        Ok(memory_type)
    }

    /// Allocates a piece in a shared block that is there, or says which block is needed. Of the blocks that have a place the one in the
    /// highest slot serves.
    ///
    /// The errors, the first that holds: `InvalidAllocationCreateDesc`, `HostOutOfMemory`; and where a block is needed `OutOfMemory`
    /// where the sum of the blocks' sizes would pass `u64::MAX`, `BudgetExceeded`.
    pub fn prepare(&mut self, request: &MemoryRequest, name: &str) -> Result<Prepared<'_>> {
        let MemoryRequest { size, alignment, kind, dedicated } = *request;
        let request = raw::MemoryRequest { size, alignment, kind: kind.to_raw(), dedicated };
        let mut prepared = raw::MemoryPrepared::default();
        // SAFETY: the handle is this memory type's alone, the name's bytes are as many as is said, and all of it outlives the call.
        check(unsafe {
            raw::pilhangko_raw_memory_type_prepare(
                self.handle.as_ptr(),
                &request,
                name.as_ptr(),
                name.len(),
                &mut prepared,
            )
        })?;
        if !prepared.needs_block {
            return Ok(Prepared::Piece(MemoryPiece::from_raw(&prepared.piece)));
        }
        Ok(Prepared::NeedsBlock(PendingBlock {
            memory_type: self,
            size: prepared.block_size,
            dedicated: prepared.dedicated,
            is_settled: false,
        }))
    }

    /// Frees a piece, and returns the handle of the block that goes back to the driver with it, if one does: a piece's own block, or a
    /// shared block without pieces where another shared one is live. It needs no host memory.
    ///
    /// The error: `Internal` where the piece isn't live.
    pub fn free(&mut self, piece: &MemoryPiece) -> Result<Option<u64>> {
        let mut gone = raw::MemoryBlock::default();
        // SAFETY: the handle is this memory type's alone, and the piece outlives the call.
        check(unsafe { raw::pilhangko_raw_memory_type_free(self.handle.as_ptr(), &piece.to_raw(), &mut gone) })?;
        Ok(gone.exists.then_some(gone.block))
    }

    /// Renames a live piece.
    ///
    /// The errors: `Internal` where it isn't live, `HostOutOfMemory`.
    pub fn rename(&mut self, piece: &MemoryPiece, name: &str) -> Result<()> {
        // SAFETY: the handle is this memory type's alone, the name's bytes are as many as is said, and all of it outlives the call.
        check(unsafe {
            raw::pilhangko_raw_memory_type_rename(self.handle.as_ptr(), &piece.to_raw(), name.as_ptr(), name.len())
        })
    }

    /// Keeps a word of the caller's with a live piece, as with a virtual block.
    ///
    /// The error: `Internal` where it isn't live.
    pub fn set_word(&mut self, piece: &MemoryPiece, word: u64) -> Result<()> {
        // SAFETY: the handle is this memory type's alone, and the piece outlives the call.
        check(unsafe { raw::pilhangko_raw_memory_type_set_word(self.handle.as_ptr(), &piece.to_raw(), word) })
    }

    /// Whether a piece is live.
    pub fn is_live(&self, piece: &MemoryPiece) -> bool {
        let mut is_live = false;
        // SAFETY: the handle is this memory type's alone: it isn't `Sync`. The piece outlives the call.
        check_unrefused(unsafe {
            raw::pilhangko_raw_memory_type_is_live(self.handle.as_ptr(), &piece.to_raw(), &mut is_live)
        });
        is_live
    }

    /// Bounds the sum of the blocks' sizes in bytes, or takes the bound away. A bound below the present sum gives no block back.
    ///
    /// The error: `Internal` where a pending block was forgotten (`std::mem::forget`).
    pub fn set_budget(&mut self, budget: Option<u64>) -> Result<()> {
        // SAFETY: the handle is this memory type's alone.
        check(unsafe {
            raw::pilhangko_raw_memory_type_set_budget(self.handle.as_ptr(), budget.is_some(), budget.unwrap_or(0))
        })
    }

    /// What is counted of the memory type.
    pub fn statistics(&self) -> MemoryStatistics {
        let mut s = raw::MemoryStatistics::default();
        // SAFETY: the handle is this memory type's alone: it isn't `Sync`.
        check_unrefused(unsafe { raw::pilhangko_raw_memory_type_statistics(self.handle.as_ptr(), &mut s) });
        MemoryStatistics {
            capacity: s.capacity,
            slots: s.slots,
            shared_blocks: s.shared_blocks,
            budget: s.has_budget.then_some(s.budget),
        }
    }

    /// The driver's handle of the block in a slot, if one is there.
    pub fn block(&self, slot: usize) -> Option<u64> {
        let mut block = raw::MemoryBlock::default();
        // SAFETY: the handle is this memory type's alone: it isn't `Sync`.
        check_unrefused(unsafe { raw::pilhangko_raw_memory_type_block(self.handle.as_ptr(), slot, &mut block) });
        block.exists.then_some(block.block)
    }

    /// The live blocks: slot and driver's handle of each.
    pub fn blocks(&self) -> impl Iterator<Item = (usize, u64)> + '_ {
        (0..self.statistics().slots).filter_map(|slot| Some((slot, self.block(slot)?)))
    }

    /// What is counted of the block in a slot, if one is there.
    pub fn block_statistics(&self, slot: usize) -> Option<BlockStatistics> {
        let mut s = raw::MemoryBlockStatistics::default();
        // SAFETY: the handle is this memory type's alone: it isn't `Sync`.
        check_unrefused(unsafe { raw::pilhangko_raw_memory_type_block_statistics(self.handle.as_ptr(), slot, &mut s) });
        BlockStatistics::counted(&s)
    }

    /// The first live piece of the block in a slot whose own bytes begin at `from` or behind it. Each call goes over the pieces before it.
    pub fn next_piece(&self, slot: usize, from: u64) -> Option<PieceView> {
        let mut view = raw::PieceView::default();
        // SAFETY: the handle is this memory type's alone: it isn't `Sync`.
        check_unrefused(unsafe {
            raw::pilhangko_raw_memory_type_next_piece(self.handle.as_ptr(), slot, from, &mut view)
        });
        PieceView::shown(&view)
    }

    /// All live pieces of the block in a slot in order of offset, in linear time; none where the slot has no block.
    ///
    /// The error: `HostOutOfMemory`.
    pub fn pieces(&self, slot: usize) -> Result<Vec<PieceView>> {
        BlockAt { memory_type: self, slot }.views()
    }

    /// The same with their names.
    ///
    /// The error: `HostOutOfMemory`.
    pub fn named_pieces(&self, slot: usize) -> Result<Vec<NamedPiece>> {
        BlockAt { memory_type: self, slot }.named()
    }
}

/// The block in a slot, as a visit sees it.
#[derive(Debug)]
struct BlockAt<'a> {
    memory_type: &'a MemoryType,
    slot: usize,
}

impl Visited for BlockAt<'_> {
    fn count(&self) -> usize {
        self.memory_type.block_statistics(self.slot).map_or(0, |counted| counted.pieces)
    }

    fn show(&self, views: &mut [raw::PieceView]) -> (u32, usize) {
        let mut shown = 0;
        // SAFETY: the handle is the memory type's alone: it isn't `Sync`. There is room for as many views as is said.
        let status = unsafe {
            raw::pilhangko_raw_memory_type_pieces(
                self.memory_type.handle.as_ptr(),
                self.slot,
                0,
                views.as_mut_ptr(),
                views.len(),
                &mut shown,
            )
        };
        (status, shown)
    }

    fn show_names(&self, lengths: &mut [usize], names: &mut [u8]) -> (u32, usize) {
        let mut shown = 0;
        // SAFETY: the handle is the memory type's alone: it isn't `Sync`. There is room for as many lengths and bytes as is said.
        let status = unsafe {
            raw::pilhangko_raw_memory_type_piece_names(
                self.memory_type.handle.as_ptr(),
                self.slot,
                0,
                lengths.as_mut_ptr(),
                lengths.len(),
                names.as_mut_ptr(),
                names.len(),
                &mut shown,
            )
        };
        (status, shown)
    }
}

impl Drop for MemoryType {
    fn drop(&mut self) {
        // SAFETY: the handle is this memory type's alone, and isn't used again. An empty one, which `new` left, is refused.
        unsafe { raw::pilhangko_raw_memory_type_destroy(self.handle.as_ptr()) };
    }
}
