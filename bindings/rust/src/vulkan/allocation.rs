//! A piece of device memory, as its owner holds it.

use super::abi::{DeviceMemory, MemoryPropertyFlags};
use super::answer::Address;
use crate::defragmentation::MoveKey;
use crate::raw::AllocatorPiece;
use std::ffi::c_void;
use std::num::NonZeroU64;
use std::ptr::NonNull;
use std::slice;

/// A piece of device memory: bytes `offset..offset + size` of `memory`. Bind a buffer or an image to it there, and give it to
/// `Allocator::free` when that resource is destroyed. One that is dropped otherwise is a leak: its bytes are taken until the allocator
/// goes. `Allocation::default()` is the null allocation, which is no piece.
#[derive(Debug, Default)]
pub struct Allocation {
    pub(super) held: Option<Held>,
    pub(super) name: Option<String>,
    pub(super) user_data: u64,
}

/// The block that an allocation lies in.
#[derive(Clone, Copy, Debug, PartialEq, Eq)]
pub struct AllocationBlock {
    /// Its size in bytes.
    pub size: u64,
    /// Whether other allocations may lie in it.
    pub is_shared: bool,
}

/// What an allocation that isn't null stands for.
#[derive(Debug)]
pub(super) struct Held {
    pub(super) piece: AllocatorPiece,
    /// The number of its allocator, which no other has, nor had.
    pub(super) owner: u64,
    /// The number of the request, by which a capture knows it.
    pub(super) number: u64,
    pub(super) flags: MemoryPropertyFlags,
    pub(super) is_dedicated: bool,
}

impl Allocation {
    /// What names the piece in its block; `None` where it is null.
    pub fn chunk_id(&self) -> Option<NonZeroU64> {
        NonZeroU64::new(self.held.as_ref()?.piece.piece.number)
    }

    /// What its memory is like: the flags of its memory type; none where it is null.
    pub fn memory_properties(&self) -> MemoryPropertyFlags {
        self.held.as_ref().map_or(MemoryPropertyFlags::default(), |held| held.flags)
    }

    /// The memory that it lies in, which other pieces share; 0 where it is null.
    ///
    /// # Safety
    ///
    /// Whoever uses the handle binds resources at `offset` that take no more than `size` bytes, doesn't free, map or unmap the memory, and
    /// destroys each resource before the allocation is freed.
    pub unsafe fn memory(&self) -> DeviceMemory {
        self.held.as_ref().map_or(DeviceMemory::default(), |held| DeviceMemory(held.piece.piece.block))
    }

    /// Whether memory of its own was asked for. A block that was made for its size alone doesn't count.
    pub fn is_dedicated(&self) -> bool {
        self.held.as_ref().is_some_and(|held| held.is_dedicated)
    }

    /// Where it begins in its memory, in bytes; a multiple of the alignment that was asked for.
    pub fn offset(&self) -> u64 {
        self.held.as_ref().map_or(0, |held| held.piece.piece.offset)
    }

    /// Its size in bytes, as it was asked for; 0 where it is null.
    pub fn size(&self) -> u64 {
        self.held.as_ref().map_or(0, |held| held.piece.piece.size)
    }

    /// Where the host sees its first byte; `None` where the host can't see its memory, or it is null. It is good until the allocation is
    /// freed or its allocator dropped.
    pub fn mapped_ptr(&self) -> Option<NonNull<c_void>> {
        Some(self.address()?.as_ptr().cast())
    }

    /// Its bytes; `None` where the host can't see its memory, it is null, or it has more bytes than a slice can. Bytes of memory that isn't
    /// coherent have to be flushed and invalidated by the caller.
    pub fn mapped_slice(&self) -> Option<&[u8]> {
        let (address, length) = self.mapped_bytes()?;
        // SAFETY: the piece's bytes are mapped as long as its allocator lives, and are touched no longer (`Device::new`); no other piece
        // shares a byte, and whoever would write through this one borrows it mutably.
        Some(unsafe { slice::from_raw_parts(address.as_ptr(), length) })
    }

    /// Its bytes, to be written; as with `mapped_slice`.
    pub fn mapped_slice_mut(&mut self) -> Option<&mut [u8]> {
        let (address, length) = self.mapped_bytes()?;
        // SAFETY: as with `mapped_slice`; the allocation is borrowed mutably, so that there is no other slice of its bytes.
        Some(unsafe { slice::from_raw_parts_mut(address.as_ptr(), length) })
    }

    /// Whether it is no piece.
    pub fn is_null(&self) -> bool {
        self.held.is_none()
    }

    /// The name that it was allocated or renamed with; `None` where it is null and was never renamed.
    pub fn name(&self) -> Option<&str> {
        self.name.as_deref()
    }

    /// The word of its owner's that it keeps, an index or an address, which visits of pieces show too; 0 until one is set.
    pub fn user_data(&self) -> u64 {
        self.user_data
    }

    /// The index of its memory type; `usize::MAX` where it is null.
    pub fn memory_type_index(&self) -> usize {
        self.held.as_ref().map_or(usize::MAX, |held| held.piece.memory_type)
    }

    /// The slot of its block in its memory type; `usize::MAX` where it is null.
    pub fn memory_block_index(&self) -> usize {
        self.held.as_ref().map_or(usize::MAX, |held| held.piece.piece.slot)
    }

    /// What names it; a null one has no name.
    pub(super) fn key(&self) -> MoveKey {
        self.held.as_ref().map_or(MoveKey { owner: 0, number: 0 }, |it| MoveKey { owner: it.owner, number: it.number })
    }

    fn address(&self) -> Option<Address> {
        let AllocatorPiece { address, piece, .. } = &self.held.as_ref()?.piece;
        // SAFETY: a piece lies inside its block, which is mapped whole.
        Some(unsafe { Address::from_number(*address)?.at(piece.offset) })
    }

    fn mapped_bytes(&self) -> Option<(NonNull<u8>, usize)> {
        let length = isize::try_from(self.size()).ok()?;
        Some((self.address()?.as_ptr(), length.unsigned_abs()))
    }
}
