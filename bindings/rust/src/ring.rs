//! Rings: one block of a size whose pieces go to the next place and are freed a frame at a time. Numbers alone: no memory is behind it
//! ([`vulkan::UploadRing`](crate::vulkan::UploadRing) has some).
//!
//! For what is written each frame and read by the device a little later: uploads, uniforms, descriptors.
//!
//! ```
//! use pilhangko::ring::Ring;
//!
//! let mut ring = Ring::new(1 << 20, 3)?; // room for three frames in flight
//! let vertices = ring.allocate(1000, 256)?;
//! let indices = ring.allocate(1000, 4)?;
//! assert_eq!((vertices, indices), (0, 1000));
//! let frame = ring.end_frame().expect("none is in flight");
//! // .. once the device has finished with the frame:
//! assert!(ring.retire(frame));
//! # Ok::<(), pilhangko::AllocationError>(())
//! ```

use crate::error::{check, check_unrefused};
use crate::raw::{self, Handle};
use crate::Result;

/// A frame that was ended: the pieces since the frame before it.
#[derive(Clone, Copy, Debug, PartialEq, Eq, PartialOrd, Ord, Hash)]
pub struct Frame {
    /// Frames are numbered from 0, as they end.
    pub number: u64,
}

/// What is counted of a frame.
#[derive(Clone, Copy, Debug, Default, PartialEq, Eq)]
pub struct FrameStatistics {
    /// How many pieces there are in it.
    pub pieces: u64,
    /// Their bytes, those of their padding, and those at the ring's end that they skipped.
    pub bytes: u64,
}

impl FrameStatistics {
    fn counted(counts: &raw::RingFrameCounts) -> Self {
        FrameStatistics { pieces: counts.pieces, bytes: counts.bytes }
    }
}

/// What is counted of a ring.
#[derive(Clone, Copy, Debug, PartialEq, Eq)]
pub struct RingStatistics {
    /// The ring's size in bytes.
    pub size: u64,
    /// The bytes of all frames in flight and of the open one.
    pub taken: u64,
    /// How many frames are in flight: ended and not yet retired.
    pub frames: usize,
    /// The oldest of these, from which on they are numbered; where there is none, what the open one will be.
    pub oldest: Frame,
    /// What is counted of the open frame.
    pub current: FrameStatistics,
}

/// Where bytes of a ring lie that go on from one another, round its end.
#[derive(Clone, Copy, Debug, PartialEq, Eq)]
pub struct Stretch {
    /// Where they begin, an offset in the ring.
    pub offset: u64,
    /// How many there are from there on, up to the ring's end at most.
    pub size: u64,
    /// How many more there are, from the ring's start on.
    pub rest: u64,
}

/// A ring of a size. It may go from thread to thread.
#[derive(Debug)]
pub struct Ring {
    handle: Handle,
}

impl Ring {
    /// A ring of `size` bytes, not 0 and below 2^63, with room for `frames` frames in flight. No later call takes host memory.
    ///
    /// Where no request's size + alignment - 1 is above `m`, those of one frame sum up to at most `M`, and at most `k` frames are in flight,
    /// a ring of `(k + 1) * M + m - 1` bytes with room for `k` frames refuses none.
    ///
    /// The errors: `InvalidAllocationCreateDesc` for the size, `HostOutOfMemory`.
    pub fn new(size: u64, frames: usize) -> Result<Self> {
        let ring = Ring { handle: Handle::empty() };
        // SAFETY: the handle is empty and this call's alone.
        check(unsafe { raw::pilhangko_raw_ring_create(ring.handle.as_ptr(), size, frames) })?;
        Ok(ring)
    }

    /// Allocates a piece of the open frame: its offset is a multiple of the alignment, which may be any but 0. It begins at the first such
    /// offset from the last piece on (from 0 on where nothing is taken), round the ring, at which it doesn't run over the ring's end.
    ///
    /// The errors, the first that holds: `InvalidAllocationCreateDesc` where the size or the alignment is 0, `OutOfMemory` where a piece
    /// there would meet the oldest one that isn't freed.
    pub fn allocate(&mut self, size: u64, alignment: u64) -> Result<u64> {
        let mut offset = 0;
        // SAFETY: the handle is this ring's alone, and the offset outlives the call.
        check(unsafe { raw::pilhangko_raw_ring_allocate(self.handle.as_ptr(), size, alignment, &mut offset) })?;
        Ok(offset)
    }

    /// Ends the open frame: it is in flight from then on. `None` where as many are as the ring has room for.
    #[must_use = "the frame has to be retired, or its bytes stay taken"]
    pub fn end_frame(&mut self) -> Option<Frame> {
        let mut number = 0;
        // SAFETY: the handle is this ring's alone, and the number outlives the call.
        match unsafe { raw::pilhangko_raw_ring_end_frame(self.handle.as_ptr(), &mut number) } {
            raw::TOO_MANY_FRAMES => None,
            status => {
                check_unrefused(status);
                Some(Frame { number })
            }
        }
    }

    /// Frees the pieces of a frame and of each older one, once the device has finished with them. `false` where it isn't in flight, and
    /// then nothing changes.
    #[must_use = "a frame that isn't in flight is refused"]
    pub fn retire(&mut self, frame: Frame) -> bool {
        // SAFETY: the handle is this ring's alone.
        match unsafe { raw::pilhangko_raw_ring_retire(self.handle.as_ptr(), frame.number) } {
            raw::NOT_LIVE => false,
            status => {
                check_unrefused(status);
                true
            }
        }
    }

    /// What is counted of the ring, and of its open frame.
    pub fn statistics(&self) -> RingStatistics {
        let mut counts = raw::RingCounts::default();
        // SAFETY: the handle is this ring's alone: the ring isn't `Sync`.
        check_unrefused(unsafe { raw::pilhangko_raw_ring_statistics(self.handle.as_ptr(), &mut counts) });
        RingStatistics {
            size: counts.size,
            taken: counts.taken,
            frames: counts.frames,
            oldest: Frame { number: counts.oldest },
            current: FrameStatistics::counted(&counts.current),
        }
    }

    /// What is counted of a frame; `None` where it isn't in flight.
    pub fn frame_statistics(&self, frame: Frame) -> Option<FrameStatistics> {
        let mut counts = raw::RingFrameCounts::default();
        // SAFETY: the handle is this ring's alone: the ring isn't `Sync`.
        match unsafe { raw::pilhangko_raw_ring_frame_statistics(self.handle.as_ptr(), frame.number, &mut counts) } {
            raw::NOT_LIVE => None,
            status => {
                check_unrefused(status);
                Some(FrameStatistics::counted(&counts))
            }
        }
    }

    /// Where the bytes of the open frame lie, padding and skipped ones too: what has to be flushed before the device reads them, where the
    /// memory isn't coherent.
    pub fn current_stretch(&self) -> Stretch {
        let mut told = raw::RingStretch::default();
        // SAFETY: the handle is this ring's alone: the ring isn't `Sync`.
        check_unrefused(unsafe { raw::pilhangko_raw_ring_current_stretch(self.handle.as_ptr(), &mut told) });
        Stretch { offset: told.offset, size: told.size, rest: told.rest }
    }
}

impl Drop for Ring {
    fn drop(&mut self) {
        // SAFETY: the handle is this ring's alone, and isn't used again. An empty one, which `new` left, is refused.
        unsafe { raw::pilhangko_raw_ring_destroy(self.handle.as_ptr()) };
    }
}
