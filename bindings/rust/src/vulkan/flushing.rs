//! Mapped bytes, made visible to the device or to the host where their memory isn't coherent.

use super::allocation::{Allocation, Held};
use super::allocator::{AllocationCreateDesc, Allocator};
use super::device::{needs_flushes, Way};
use crate::error::{internal, Fault};
use crate::{AllocationError, Result};
use std::mem;
use std::ops::{Bound, Range, RangeBounds};

const NOT_MAPPED: AllocationError = internal("Allocation is not mapped.");

impl Allocator {
    /// Makes what the host wrote to these bytes of a mapped allocation visible to the device; `..` stands for all of them. The range grows to
    /// whole units of `nonCoherentAtomSize`, in which no other allocation lies. Coherent memory asks the driver nothing, and so does an
    /// empty range.
    ///
    /// The errors, all of them `Internal`: the allocation isn't this allocator's or isn't mapped, the range runs past its size, the driver
    /// refuses.
    pub fn flush(&self, allocation: &Allocation, range: impl RangeBounds<u64>) -> Result<()> {
        self.sync(Way::Flush, allocation, &range)
    }

    /// Makes what the device wrote there visible to the host, once the device has finished; as with [`Allocator::flush`].
    pub fn invalidate(&self, allocation: &Allocation, range: impl RangeBounds<u64>) -> Result<()> {
        self.sync(Way::Invalidate, allocation, &range)
    }

    /// Copies bytes into a mapped allocation from an offset on, and flushes them. Where the driver refuses that, they are copied all the same.
    ///
    /// The errors are those of [`Allocator::flush`].
    pub fn copy_to(&self, from: &[u8], allocation: &mut Allocation, offset: u64) -> Result<()> {
        let bytes = offset..offset.saturating_add(from.len() as u64);
        self.mapped(allocation, &bytes)?;
        let seen = allocation.mapped_slice_mut().ok_or(NOT_MAPPED)?;
        seen[offset as usize..][..from.len()].copy_from_slice(from);
        self.flush(allocation, bytes)
    }

    /// Invalidates bytes of a mapped allocation from an offset on, and copies them out. Where the driver refuses that, none is copied.
    ///
    /// The errors are those of [`Allocator::flush`].
    pub fn copy_from(&self, allocation: &Allocation, offset: u64, to: &mut [u8]) -> Result<()> {
        self.invalidate(allocation, offset..offset.saturating_add(to.len() as u64))?;
        let seen = allocation.mapped_slice().ok_or(NOT_MAPPED)?;
        to.copy_from_slice(&seen[offset as usize..][..to.len()]);
        Ok(())
    }

    /// Moves a mapped allocation at once: where there is a second place (see [`Allocator::propose_move`]), its bytes are copied there, invalidated
    /// before and flushed behind, the first place is freed, and the allocation is the second. Whether it moved. The device doesn't use the bytes
    /// meanwhile.
    ///
    /// The errors, and then it stays: `Internal` where it isn't this allocator's or isn't mapped, those of `propose_move`, `Internal` where the
    /// driver refuses.
    pub fn move_mapped(&mut self, allocation: &mut Allocation, desc: &AllocationCreateDesc<'_>) -> Result<bool> {
        self.mapped(allocation, &(..))?;
        let Some(mut second) = self.propose_move(allocation, desc)? else { return Ok(false) };
        if let Err(error) = self.copy_all(allocation, &mut second) {
            self.free(second)?;
            return Err(error);
        }
        self.free(mem::replace(allocation, second))?;
        Ok(true)
    }

    fn copy_all(&self, from: &Allocation, to: &mut Allocation) -> Result<()> {
        self.invalidate(from, ..)?;
        let seen = from.mapped_slice().ok_or(NOT_MAPPED)?;
        self.copy_to(seen, to, 0)
    }

    /// What a live mapped allocation stands for, and which bytes of its block a range of it is.
    fn mapped<'a>(&self, allocation: &'a Allocation, range: &impl RangeBounds<u64>) -> Result<(&'a Held, Range<u64>)> {
        let held = self.live(allocation)?;
        if held.piece.address == 0 {
            return Err(NOT_MAPPED);
        }
        let bytes = bytes_of(held, range).ok_or(internal("Range is not inside the allocation."))?;
        Ok((held, bytes))
    }

    fn sync(&self, way: Way, allocation: &Allocation, range: &impl RangeBounds<u64>) -> Result<()> {
        let (held, bytes) = self.mapped(allocation, range)?;
        if bytes.is_empty() || !needs_flushes(held.flags) {
            return Ok(());
        }
        let block = self.block_of(held).expect("a live piece lies in a block");
        let synced = self.device().sync(way, block.memory.handle, block.size, &bytes);
        synced.map_err(|code| {
            let text = match way {
                Way::Flush => "vkFlushMappedMemoryRanges failed",
                Way::Invalidate => "vkInvalidateMappedMemoryRanges failed",
            };
            AllocationError::Internal(Fault { text, code: Some(i64::from(code)) })
        })
    }
}

/// The bytes of a block that a range of a piece is; `None` where it isn't inside the piece.
fn bytes_of(held: &Held, range: &impl RangeBounds<u64>) -> Option<Range<u64>> {
    let piece = &held.piece.piece;
    let start = match range.start_bound() {
        Bound::Unbounded => 0,
        Bound::Included(&first) => first,
        Bound::Excluded(&before) => before.checked_add(1)?,
    };
    let end = match range.end_bound() {
        Bound::Unbounded => piece.size,
        Bound::Included(&last) => last.checked_add(1)?,
        Bound::Excluded(&behind) => behind,
    };
    (start <= end && end <= piece.size).then(|| piece.offset + start..piece.offset + end)
}
