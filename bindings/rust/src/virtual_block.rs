//! Virtual blocks: one block of a size that is cut into pieces. Numbers alone: no memory is behind it.
//!
//! For a staging buffer, a descriptor heap, a file.
//!
//! ```
//! use pilhangko::virtual_block::{VirtualBlock, VirtualRequest};
//! use pilhangko::Kind;
//!
//! let mut staging = VirtualBlock::new(64 << 20, 1)?;
//! let request = VirtualRequest { size: 1000, alignment: 256, kind: Kind::Linear };
//! let vertices = staging.allocate(&request, "vertices")?;
//! let indices = staging.allocate(&request, "indices")?;
//! assert_eq!((vertices.offset, indices.offset), (0, 1024));
//! staging.free(vertices)?;
//! # Ok::<(), pilhangko::AllocationError>(())
//! ```

use crate::error::{check, check_unrefused};
use crate::pieces::Visited;
use crate::raw::{self, Handle};
use crate::{Kind, NamedPiece, PieceView, Result};
use std::num::NonZeroU64;

/// What is asked of a virtual block.
#[derive(Clone, Copy, Debug, PartialEq, Eq)]
pub struct VirtualRequest {
    /// How many bytes: not 0.
    pub size: u64,
    /// A power of two; the piece's offset is a multiple of it.
    pub alignment: u64,
    /// The kind of the piece.
    pub kind: Kind,
}

/// A piece of a virtual block. One that was freed is refused until its chunk id and its offset come again: a piece that is allocated later
/// at the same place can have both.
#[derive(Clone, Copy, Debug, PartialEq, Eq, Hash)]
pub struct VirtualPiece {
    /// Where it begins in the block, in bytes.
    pub offset: u64,
    /// What names it in the block.
    pub chunk_id: NonZeroU64,
}

impl VirtualPiece {
    fn to_raw(self) -> raw::VirtualPiece {
        raw::VirtualPiece { offset: self.offset, number: self.chunk_id.get() }
    }
}

/// What is counted of a virtual block.
#[derive(Clone, Copy, Debug, Default, PartialEq, Eq)]
pub struct VirtualStatistics {
    /// The size of the block in bytes.
    pub size: u64,
    /// How many pieces are live.
    pub pieces: usize,
    /// What they take in bytes, with the padding before them.
    pub piece_bytes: u64,
    /// How many gaps there are.
    pub gaps: usize,
    /// The length of the longest gap in bytes, 0 where there is none.
    pub longest_gap: u64,
}

/// One block of a size that is cut into pieces by best fit. It may go from thread to thread, and is dropped with its pieces.
#[derive(Debug)]
pub struct VirtualBlock {
    handle: Handle,
}

impl VirtualBlock {
    /// A block of `size` bytes, not 0, with pages of `page_size` bytes, a power of two: pieces of different kinds share no page.
    ///
    /// The errors: `InvalidAllocationCreateDesc` for the size or the page size, `HostOutOfMemory`.
    pub fn new(size: u64, page_size: u64) -> Result<Self> {
        let block = VirtualBlock { handle: Handle::empty() };
        // SAFETY: the handle is empty and this call's alone.
        check(unsafe { raw::pilhangko_raw_virtual_block_create(block.handle.as_ptr(), size, page_size) })?;
        Ok(block)
    }

    /// Allocates a piece: the least place in the shortest gap in which the request fits, and of equally short gaps in the first.
    ///
    /// The errors, the first that holds: `InvalidAllocationCreateDesc`, `OutOfMemory` where no gap has a place, `HostOutOfMemory`.
    pub fn allocate(&mut self, request: &VirtualRequest, name: &str) -> Result<VirtualPiece> {
        let VirtualRequest { size, alignment, kind } = *request;
        let request = raw::VirtualRequest { size, alignment, kind: kind.to_raw() };
        let mut piece = raw::VirtualPiece::default();
        // SAFETY: the handle is this block's alone, the name's bytes are as many as is said, and all of it outlives the call.
        check(unsafe {
            raw::pilhangko_raw_virtual_block_allocate(
                self.handle.as_ptr(),
                &request,
                name.as_ptr(),
                name.len(),
                &mut piece,
            )
        })?;
        let chunk_id = NonZeroU64::new(piece.number).expect("the chunk id of a piece is never 0");
        Ok(VirtualPiece { offset: piece.offset, chunk_id })
    }

    /// Frees a piece; its place joins the gaps beside it. It needs no host memory.
    ///
    /// The error: `Internal` where no live piece has this chunk id and offset.
    pub fn free(&mut self, piece: VirtualPiece) -> Result<()> {
        // SAFETY: the handle is this block's alone, and the piece outlives the call.
        check(unsafe { raw::pilhangko_raw_virtual_block_free(self.handle.as_ptr(), &piece.to_raw()) })
    }

    /// Renames a live piece.
    ///
    /// The errors: `Internal` where it isn't live, `HostOutOfMemory`.
    pub fn rename(&mut self, piece: VirtualPiece, name: &str) -> Result<()> {
        // SAFETY: the handle is this block's alone, the name's bytes are as many as is said, and all of it outlives the call.
        check(unsafe {
            raw::pilhangko_raw_virtual_block_rename(self.handle.as_ptr(), &piece.to_raw(), name.as_ptr(), name.len())
        })
    }

    /// Keeps a word of the caller's with a live piece, in place of the last one: an index or an address of what lies there, say, so that a visit of
    /// the pieces leads to it. A new piece has 0, a rename keeps it, and it goes with the piece.
    ///
    /// The error: `Internal` where it isn't live.
    pub fn set_word(&mut self, piece: VirtualPiece, word: u64) -> Result<()> {
        // SAFETY: the handle is this block's alone, and the piece outlives the call.
        check(unsafe { raw::pilhangko_raw_virtual_block_set_word(self.handle.as_ptr(), &piece.to_raw(), word) })
    }

    /// Frees all pieces: the block is as `new` made it.
    ///
    /// The error: `HostOutOfMemory`, and all pieces stay.
    pub fn clear(&mut self) -> Result<()> {
        // SAFETY: the handle is this block's alone.
        check(unsafe { raw::pilhangko_raw_virtual_block_clear(self.handle.as_ptr()) })
    }

    /// What is counted of the block: its pieces, what they take, its gaps.
    pub fn statistics(&self) -> VirtualStatistics {
        let mut s = raw::VirtualStatistics::default();
        // SAFETY: the handle is this block's alone: the block isn't `Sync`.
        check_unrefused(unsafe { raw::pilhangko_raw_virtual_block_statistics(self.handle.as_ptr(), &mut s) });
        VirtualStatistics {
            size: s.size,
            pieces: s.pieces,
            piece_bytes: s.piece_bytes,
            gaps: s.gaps,
            longest_gap: s.longest_gap,
        }
    }

    /// The first live piece whose own bytes begin at `from` or behind it. Each call goes over the pieces before it: `pieces` visits all of
    /// them in linear time.
    pub fn next_piece(&self, from: u64) -> Option<PieceView> {
        let mut view = raw::PieceView::default();
        // SAFETY: the handle is this block's alone: the block isn't `Sync`.
        check_unrefused(unsafe { raw::pilhangko_raw_virtual_block_next_piece(self.handle.as_ptr(), from, &mut view) });
        PieceView::shown(&view)
    }

    /// All live pieces in order of offset, in linear time.
    ///
    /// The error: `HostOutOfMemory`.
    pub fn pieces(&self) -> Result<Vec<PieceView>> {
        self.views()
    }

    /// All live pieces in order of offset, with their names, in linear time.
    ///
    /// The error: `HostOutOfMemory`.
    pub fn named_pieces(&self) -> Result<Vec<NamedPiece>> {
        self.named()
    }
}

impl Visited for VirtualBlock {
    fn count(&self) -> usize {
        self.statistics().pieces
    }

    fn show(&self, views: &mut [raw::PieceView]) -> (u32, usize) {
        let mut shown = 0;
        // SAFETY: the handle is this block's alone: the block isn't `Sync`. There is room for as many views as is said.
        let status = unsafe {
            raw::pilhangko_raw_virtual_block_pieces(
                self.handle.as_ptr(),
                0,
                views.as_mut_ptr(),
                views.len(),
                &mut shown,
            )
        };
        (status, shown)
    }

    fn show_names(&self, lengths: &mut [usize], names: &mut [u8]) -> (u32, usize) {
        let mut shown = 0;
        // SAFETY: the handle is this block's alone: the block isn't `Sync`. There is room for as many lengths and bytes as is said.
        let status = unsafe {
            raw::pilhangko_raw_virtual_block_piece_names(
                self.handle.as_ptr(),
                0,
                lengths.as_mut_ptr(),
                lengths.len(),
                names.as_mut_ptr(),
                names.len(),
                &mut shown,
            )
        };
        (status, shown)
    }
}

impl Drop for VirtualBlock {
    fn drop(&mut self) {
        // SAFETY: the handle is this block's alone, and isn't used again. An empty one, which `new` left, is refused.
        unsafe { raw::pilhangko_raw_virtual_block_destroy(self.handle.as_ptr()) };
    }
}
