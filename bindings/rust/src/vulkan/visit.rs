//! What is read of the proved allocator: its blocks, what is counted of them, and its report.

use super::allocator_handle::{location_number, memory_of, AllocatorHandle};
use super::answer::Memory;
use crate::error::{check, check_unrefused};
use crate::memory_type::BlockStatistics;
use crate::pieces::Visited;
use crate::raw::{self, copied_text};
use crate::statistics::TypeStatistics;
use crate::{MemoryLocation, Result};

/// A live block, as a visit sees it.
#[derive(Clone, Copy, Debug)]
pub(super) struct LiveBlock {
    pub(super) memory_type: usize,
    pub(super) slot: usize,
    pub(super) memory: Memory,
    pub(super) size: u64,
    pub(super) is_shared: bool,
}

impl AllocatorHandle {
    /// The memory type at which a request with these bits begins.
    pub(super) fn best_type(&self, memory_type_bits: u32, location: MemoryLocation) -> Option<usize> {
        let (number, mut index) = (location_number(location), 0);
        // SAFETY: the handle is this allocator's alone: it isn't `Sync`.
        check(unsafe {
            raw::pilhangko_raw_allocator_best_type(self.handle.as_ptr(), memory_type_bits, number, &mut index)
        })
        .ok()?;
        Some(index)
    }

    /// The sum of the sizes of a memory type's blocks in bytes, if it is there.
    pub(super) fn type_capacity(&self, memory_type: usize) -> Option<u64> {
        let mut bytes = 0;
        // SAFETY: the handle is this allocator's alone: it isn't `Sync`.
        check(unsafe { raw::pilhangko_raw_allocator_type_capacity(self.handle.as_ptr(), memory_type, &mut bytes) })
            .ok()?;
        Some(bytes)
    }

    /// What is counted of a memory type, if it is there.
    pub(super) fn type_statistics(&self, memory_type: usize) -> Option<TypeStatistics> {
        let mut s = raw::TypeStatistics::default();
        // SAFETY: the handle is this allocator's alone: it isn't `Sync`.
        check(unsafe { raw::pilhangko_raw_allocator_type_statistics(self.handle.as_ptr(), memory_type, &mut s) })
            .ok()?;
        Some(TypeStatistics::counted(&s))
    }

    /// The live blocks by memory type and slot.
    pub(super) fn blocks(&self) -> impl Iterator<Item = LiveBlock> + '_ {
        (0..)
            .map_while(|memory_type| Some((memory_type, self.type_statistics(memory_type)?.slots)))
            .flat_map(move |(memory_type, slots)| (0..slots).filter_map(move |slot| self.live_block(memory_type, slot)))
    }

    /// The block in a slot of a memory type, if there is one.
    pub(super) fn live_block(&self, memory_type: usize, slot: usize) -> Option<LiveBlock> {
        let mut block = raw::AllocatorBlock::default();
        // SAFETY: the handle is this allocator's alone: it isn't `Sync`.
        check_unrefused(unsafe {
            raw::pilhangko_raw_allocator_block(self.handle.as_ptr(), memory_type, slot, &mut block)
        });
        let memory = memory_of(block.memory, block.address);
        block.exists.then_some(LiveBlock { memory_type, slot, memory, size: block.size, is_shared: block.shared })
    }

    /// The block in a slot, as a visit sees it.
    pub(super) fn block_at(&self, memory_type: usize, slot: usize) -> BlockAt<'_> {
        BlockAt { allocator: self, memory_type, slot }
    }

    /// The report as JSON.
    pub(super) fn report_json(&self) -> Result<String> {
        copied_text(|text, room, length| {
            // SAFETY: the handle is this allocator's alone: it isn't `Sync`. There is room for as many bytes as is said.
            unsafe { raw::pilhangko_raw_allocator_report(self.handle.as_ptr(), text, room, length) }
        })
    }
}

#[cfg(test)]
impl AllocatorHandle {
    /// The library's own text of a live piece as a leak, by its index; empty past the last one.
    pub(super) fn leak(&self, index: usize) -> String {
        let mut text = vec![0; 1 << 10];
        let mut length = 0;
        // SAFETY: the handle is this allocator's alone: it isn't `Sync`. There is room for as many bytes as is said.
        check_unrefused(unsafe {
            raw::pilhangko_raw_allocator_leak(self.handle.as_ptr(), index, text.as_mut_ptr(), text.len(), &mut length)
        });
        text.truncate(length);
        String::from_utf8(text).expect("the text is UTF-8")
    }
}

/// A block of an allocator, as a visit sees it; there may be none.
#[derive(Clone, Copy, Debug)]
pub(super) struct BlockAt<'a> {
    allocator: &'a AllocatorHandle,
    memory_type: usize,
    slot: usize,
}

impl BlockAt<'_> {
    /// What is counted of the block, if there is one.
    pub(super) fn statistics(&self) -> Option<BlockStatistics> {
        let mut s = raw::MemoryBlockStatistics::default();
        // SAFETY: the handle is the allocator's alone: it isn't `Sync`.
        check_unrefused(unsafe {
            raw::pilhangko_raw_allocator_block_statistics(
                self.allocator.handle.as_ptr(),
                self.memory_type,
                self.slot,
                &mut s,
            )
        });
        BlockStatistics::counted(&s)
    }
}

impl Visited for BlockAt<'_> {
    fn count(&self) -> usize {
        self.statistics().map_or(0, |counted| counted.pieces)
    }

    fn show(&self, views: &mut [raw::PieceView]) -> (u32, usize) {
        let mut shown = 0;
        // SAFETY: the handle is the allocator's alone: it isn't `Sync`. There is room for as many views as is said.
        let status = unsafe {
            raw::pilhangko_raw_allocator_pieces(
                self.allocator.handle.as_ptr(),
                self.memory_type,
                self.slot,
                0,
                views.as_mut_ptr(),
                views.len(),
                &mut shown,
            )
        };
        (status, shown)
    }

    fn show_names(&self, lengths: &mut [usize], names: &mut [u8]) -> (u32, usize) {
        let mut shown = 0;
        // SAFETY: the handle is the allocator's alone: it isn't `Sync`. There is room for as many lengths and bytes as is said.
        let status = unsafe {
            raw::pilhangko_raw_allocator_piece_names(
                self.allocator.handle.as_ptr(),
                self.memory_type,
                self.slot,
                0,
                lengths.as_mut_ptr(),
                lengths.len(),
                names.as_mut_ptr(),
                names.len(),
                &mut shown,
            )
        };
        (status, shown)
    }
}
