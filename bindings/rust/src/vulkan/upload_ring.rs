//! A ring over one mapped allocation.

use super::allocation::Allocation;
use super::allocator::Allocator;
use crate::error::Fault;
use crate::ring::{Frame, FrameStatistics, Ring, RingStatistics, Stretch};
use crate::{AllocationError, Result};
use std::ops::Range;

/// A new piece of an upload ring: its bytes, to be written, and where they lie.
#[derive(Debug)]
pub struct Upload<'a> {
    /// Where it begins in the allocation, and so in a buffer that is bound to all of it.
    pub offset: u64,
    /// Its bytes. Whatever was written there before is still in them.
    pub bytes: &'a mut [u8],
}

/// A ring over one mapped allocation: uploads that go to the next place and are freed a frame at a time. Each piece's bytes are lent once,
/// when it is allocated; what a frame in flight has is lent to nobody until that frame is retired.
///
/// Bind a buffer of the allocation's size to it. The allocation goes back to its allocator when the ring is taken apart.
#[derive(Debug)]
pub struct UploadRing {
    ring: Ring,
    allocation: Allocation,
}

impl UploadRing {
    /// A ring over all bytes of an allocation, with room for `frames` frames in flight. [`Ring::new`] says how large it has to be.
    ///
    /// The errors, with the allocation: `FailedToMap` where the host can't see its memory, or it is null; `HostOutOfMemory`.
    // the allocation goes back as from `Allocator::free`
    #[allow(clippy::result_large_err)]
    pub fn new(mut allocation: Allocation, frames: usize) -> std::result::Result<Self, (AllocationError, Allocation)> {
        if allocation.mapped_slice_mut().is_none() {
            let fault = Fault { text: "the allocation isn't mapped", code: None };
            return Err((AllocationError::FailedToMap(fault), allocation));
        }
        match Ring::new(allocation.size(), frames) {
            Ok(ring) => Ok(UploadRing { ring, allocation }),
            Err(error) => Err((error, allocation)),
        }
    }

    /// Allocates a piece of the open frame and lends its bytes. The alignment, any but 0, is that of its offset in the allocation.
    ///
    /// The errors are those of [`Ring::allocate`].
    pub fn allocate(&mut self, size: u64, alignment: u64) -> Result<Upload<'_>> {
        let offset = self.ring.allocate(size, alignment)?;
        let mapped = self.allocation.mapped_slice_mut().expect("the allocation is mapped as long as it lives");
        Ok(Upload { offset, bytes: &mut mapped[range(offset, size)] })
    }

    /// Makes what the host wrote to the open frame's pieces visible to the device, in at most two ranges. Call it before the frame is
    /// submitted. Coherent memory asks the driver nothing.
    ///
    /// The errors are those of [`Allocator::flush`].
    pub fn flush(&self, allocator: &Allocator) -> Result<()> {
        let Stretch { offset, size, rest } = self.current_stretch();
        allocator.flush(&self.allocation, offset..offset + size)?;
        allocator.flush(&self.allocation, ..rest)
    }

    /// Ends the open frame: it is in flight from then on. `None` where as many are as the ring has room for.
    #[must_use = "the frame has to be retired, or its bytes stay taken"]
    pub fn end_frame(&mut self) -> Option<Frame> {
        self.ring.end_frame()
    }

    /// Frees the pieces of a frame and of each older one, once the device has finished with them: from then on their bytes may be lent
    /// again. `false` where it isn't in flight, and then nothing changes.
    #[must_use = "a frame that isn't in flight is refused"]
    pub fn retire(&mut self, frame: Frame) -> bool {
        self.ring.retire(frame)
    }

    /// What is counted of the ring, and of its open frame.
    pub fn statistics(&self) -> RingStatistics {
        self.ring.statistics()
    }

    /// What is counted of a frame; `None` where it isn't in flight.
    pub fn frame_statistics(&self, frame: Frame) -> Option<FrameStatistics> {
        self.ring.frame_statistics(frame)
    }

    /// Where the bytes of the open frame lie in the allocation.
    pub fn current_stretch(&self) -> Stretch {
        self.ring.current_stretch()
    }

    /// The allocation that it is over.
    pub fn allocation(&self) -> &Allocation {
        &self.allocation
    }

    /// The allocation again, with all frames gone.
    pub fn into_allocation(self) -> Allocation {
        self.allocation
    }
}

/// The bytes of a piece among those of its ring, of which there are no more than a slice has.
fn range(offset: u64, size: u64) -> Range<usize> {
    let place = |n: u64| usize::try_from(n).expect("a piece lies within its ring");
    place(offset)..place(offset + size)
}
