//! Pieces of heaps and resources, as their owner holds them.

use super::Interface;
use crate::defragmentation::MoveKey;
use crate::raw::{HeapsCommitted, HeapsPiece};
use crate::MemoryLocation;
use std::ffi::c_void;
use std::num::NonZeroU64;

/// A piece of a heap: bytes `offset..offset + size` of `heap`. Place resources there, and give it to `Allocator::free` behind them. One that
/// is dropped otherwise is a leak: its bytes are taken until the allocator goes. It holds a reference to its heap.
#[derive(Debug)]
pub struct Allocation {
    pub(super) piece: HeapsPiece,
    /// The number of its allocator, which no other has, nor had.
    pub(super) owner: u64,
    /// Its number there, which no other allocation or committed resource has, nor had.
    pub(super) number: u64,
    pub(super) heap: Interface,
    pub(super) name: String,
    pub(super) user_data: u64,
}

impl Allocation {
    /// What names the piece in its heap.
    pub fn chunk_id(&self) -> Option<NonZeroU64> {
        NonZeroU64::new(self.piece.piece.number)
    }

    /// The `ID3D12Heap` that it lies in, which other pieces share.
    ///
    /// # Safety
    ///
    /// Whoever uses it places resources at `offset` that take no more than `size` bytes, and releases each before the allocation is freed.
    pub unsafe fn heap(&self) -> *mut c_void {
        self.heap.as_raw()
    }

    /// What names it.
    pub(super) fn key(&self) -> MoveKey {
        MoveKey { owner: self.owner, number: self.number }
    }

    /// Where it begins in its heap, in bytes; a multiple of the alignment that was asked for.
    pub fn offset(&self) -> u64 {
        self.piece.piece.offset
    }

    /// Its size in bytes, as it was asked for.
    pub fn size(&self) -> u64 {
        self.piece.piece.size
    }

    /// Whether it is no piece: never.
    pub fn is_null(&self) -> bool {
        false
    }

    /// The name that it was allocated or renamed with.
    pub fn name(&self) -> Option<&str> {
        Some(&self.name)
    }

    /// The word of its owner's that it keeps, an index or an address, which visits of pieces show too; 0 until one is set.
    pub fn user_data(&self) -> u64 {
        self.user_data
    }

    /// The index of its memory type.
    pub fn memory_type_index(&self) -> usize {
        self.piece.memory_type
    }

    /// The slot of its heap in its memory type.
    pub fn memory_block_index(&self) -> usize {
        self.piece.piece.slot
    }
}

/// What a resource's memory is.
#[derive(Debug)]
pub(super) enum Memory {
    /// A piece of a heap.
    Placed(Allocation),
    /// Its own, by its record.
    Committed {
        /// The record.
        record: HeapsCommitted,
        /// The number of its allocator.
        owner: u64,
        /// Its number there, as an allocation's.
        number: u64,
    },
}

/// A resource with its memory. Give it to `Allocator::free_resource`: one that is dropped otherwise releases its reference, but its piece, or
/// its record, is a leak. References that were cloned are released before.
#[derive(Debug)]
pub struct Resource {
    // released before the heap's reference
    pub(super) resource: Interface,
    pub(super) memory: Memory,
    /// Where its memory lies.
    pub memory_location: MemoryLocation,
    /// Its size in bytes, as the device tells it.
    pub size: u64,
}

impl Resource {
    /// The `ID3D12Resource`.
    pub fn resource(&self) -> &Interface {
        &self.resource
    }

    /// Its piece of a heap; `None` of a committed one.
    pub fn allocation(&self) -> Option<&Allocation> {
        match &self.memory {
            Memory::Placed(allocation) => Some(allocation),
            Memory::Committed { .. } => None,
        }
    }
}
