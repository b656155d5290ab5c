//! A piece of device memory, as its owner holds it.

use super::MappedAllocationSlab;
use ash::vk::{self, Handle};
use pilhangko::vulkan as inner;
use std::ffi::c_void;
use std::num::NonZeroU64;
use std::ptr::NonNull;

/// A piece of device memory: bytes `offset..offset + size` of `memory`. `Allocation::default()` is the null allocation, which is no piece.
#[derive(Debug, Default)]
pub struct Allocation(pub(super) inner::Allocation);

impl Allocation {
    /// What names the piece in its block; `None` where it is null.
    pub fn chunk_id(&self) -> Option<NonZeroU64> {
        self.0.chunk_id()
    }

    /// What its memory is like: the flags of its memory type; none where it is null.
    pub fn memory_properties(&self) -> vk::MemoryPropertyFlags {
        vk::MemoryPropertyFlags::from_raw(self.0.memory_properties().0)
    }

    /// The memory that it lies in, which other pieces share; null where it is null.
    ///
    /// # Safety
    ///
    /// Whoever uses the handle binds resources at `offset` that take no more than `size` bytes, doesn't free, map or unmap the memory, and
    /// destroys each resource before the allocation is freed.
    pub unsafe fn memory(&self) -> vk::DeviceMemory {
        // SAFETY: as the caller promises
        vk::DeviceMemory::from_raw(unsafe { self.0.memory() }.0)
    }

    /// Whether memory of its own was asked for.
    pub fn is_dedicated(&self) -> bool {
        self.0.is_dedicated()
    }

    /// Where it begins in its memory, in bytes; a multiple of the alignment that was asked for.
    pub fn offset(&self) -> u64 {
        self.0.offset()
    }

    /// Its size in bytes, as it was asked for; 0 where it is null.
    pub fn size(&self) -> u64 {
        self.0.size()
    }

    /// Where the host sees its first byte; `None` where the host can't see its memory, or it is null.
    pub fn mapped_ptr(&self) -> Option<NonNull<c_void>> {
        self.0.mapped_ptr()
    }

    /// Its bytes; `None` where the host can't see its memory, or it is null.
    pub fn mapped_slice(&self) -> Option<&[u8]> {
        self.0.mapped_slice()
    }

    /// Its bytes, to be written; as with `mapped_slice`.
    pub fn mapped_slice_mut(&mut self) -> Option<&mut [u8]> {
        self.0.mapped_slice_mut()
    }

    /// Its bytes as a slab that is written before it is read; `None` as with `mapped_slice`.
    pub fn try_as_mapped_slab(&mut self) -> Option<MappedAllocationSlab<'_>> {
        self.0.mapped_slice_mut().map(MappedAllocationSlab::new)
    }

    /// Whether it is no piece.
    pub fn is_null(&self) -> bool {
        self.0.is_null()
    }
}
