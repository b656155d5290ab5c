//! Captures: what was asked of an allocator, as a trace that the program `gpu_trace` replays (docs/TRACE.md). The library keeps them. What the
//! allocator of an API is asked for is recorded in that API's module.

use crate::error::{check, check_unrefused};
use crate::raw::{self, CaptureAnswer, Handle};
use crate::{AllocationError, Result};
use std::cell::Cell;
use std::fmt;
use std::io;
use std::iter;

/// How far a capture goes.
#[derive(Clone, Copy, Debug, PartialEq, Eq)]
pub enum CaptureEnd {
    /// It has each call.
    Whole,
    /// It ends where a trace had no room for the next call; its last line says so.
    TooLong,
    /// It ends where the host refused memory for the next call; its last line says so.
    HostOutOfMemory,
}

/// What was asked of an allocator since it was made, and what its driver refused, as a device trace or a DirectX 12 trace: `gpu_trace` replays it
/// over a simulated device, with the same memory types, slots, places and causes of refusal. `Display` prints the trace.
///
/// Allocations, proposed moves, frees and renamings are recorded, and budgets where an allocation or a move finds them, `Allocator::capture`
/// shows them, or at the end: of several that were set in turn the last, where it is another than before. Null allocations, allocations of other
/// allocators, invalid requests and those that the host had no memory for are left out: they change nothing. A name is brought into a trace's
/// alphabet: `_` stands for each other byte and for an empty name, and it is cut at 64 bytes.
///
/// Of DirectX 12's resources a committed one is recorded, with its release, as a buffer of whole units of 65,536 bytes, where 64 bits hold
/// them, and of a placed one its allocation: where the device refuses to place it, that is freed.
#[derive(Debug)]
pub struct Capture {
    handle: Handle,
    is_destroyed: bool,
    /// How many changes there were, of what bounds follow from, when it was handed bounds last.
    changes: Cell<u64>,
}

/// The library's call that records a request of an API: its number, what was asked for, a name, and what the driver answered.
pub(crate) type RecordRequest<R> =
    unsafe extern "C" fn(*mut Handle, u64, *const R, *const u8, usize, *const CaptureAnswer, usize) -> u32;

/// The library's call that records a proposed move: the numbers of both places, the request again, and a name.
pub(crate) type RecordMove<R> = unsafe extern "C" fn(*mut Handle, u64, u64, *const R, *const u8, usize) -> u32;

/// What the driver answered to the questions of a request. One that is captured has four at most: two attempts in Vulkan, whose allocator has no
/// smaller blocks then, each with a question for memory and one for its mapping. Of another one no more are kept.
#[derive(Debug, Default)]
pub(crate) struct Answers {
    told: [CaptureAnswer; 4],
    count: usize,
}

impl Answers {
    /// Notes that a question was granted.
    pub(crate) fn granted(&mut self) {
        self.push(CaptureAnswer { refused: false, code: 0 });
    }

    /// Notes that a question was refused, by a code or by null, which has none.
    pub(crate) fn refused(&mut self, code: Option<i32>) {
        self.push(CaptureAnswer { refused: true, code: code.unwrap_or(0) });
    }

    fn push(&mut self, answer: CaptureAnswer) {
        if let Some(place) = self.told.get_mut(self.count) {
            *place = answer;
            self.count += 1;
        }
    }

    /// Forgets those of an attempt that isn't captured.
    pub(crate) fn forget(&mut self) {
        self.count = 0;
    }

    /// What was noted, in the order of the questions.
    pub(crate) fn told(&self) -> &[CaptureAnswer] {
        &self.told[..self.count]
    }
}

/// Whether a request with this outcome is recorded: an invalid one, and one for which the host had no memory, changed nothing, and a replay lacks
/// no memory.
pub(crate) fn has_line<T>(result: &Result<T>) -> bool {
    !matches!(result, Err(AllocationError::HostOutOfMemory | AllocationError::InvalidAllocationCreateDesc))
}

impl Capture {
    /// The capture that a call of the library begins in an empty handle.
    pub(crate) fn begun(begin: impl FnOnce(*mut Handle) -> u32) -> Result<Self> {
        let capture = Capture { handle: Handle::empty(), is_destroyed: false, changes: Cell::new(0) };
        check(begin(capture.handle.as_ptr()))?;
        Ok(capture)
    }

    /// Records what a call of the library is told, which never refuses it.
    pub(crate) fn record(&mut self, call: impl FnOnce(*mut Handle) -> u32) {
        check_unrefused(call(self.handle.as_ptr()));
    }

    /// Records a request under its number, which stands for what it made, and what the driver answered.
    ///
    /// # Safety
    ///
    /// The call is one of the library's.
    pub(crate) unsafe fn requested<R>(
        &mut self,
        call: RecordRequest<R>,
        number: u64,
        request: &R,
        name: &str,
        answers: &Answers,
    ) {
        let told = answers.told();
        // SAFETY: the handle is this capture's alone, name and answers are as many as is said, and all of it outlives the call.
        self.record(|capture| unsafe {
            call(capture, number, request, name.as_ptr(), name.len(), told.as_ptr(), told.len())
        });
    }

    /// Records a proposed move of the allocation with this number; the second place, where there is one, stands under `to`.
    ///
    /// # Safety
    ///
    /// The call is one of the library's.
    pub(crate) unsafe fn moved<R>(&mut self, call: RecordMove<R>, number: u64, to: u64, request: &R, name: &str) {
        // SAFETY: the handle is this capture's alone, the name's bytes are as many as is said, and all of it outlives the call.
        self.record(|capture| unsafe { call(capture, number, to, request, name.as_ptr(), name.len()) });
    }

    /// Records that an allocation is freed.
    pub(crate) fn freed(&mut self, number: u64) {
        // SAFETY: the handle is this capture's alone.
        self.record(|capture| unsafe { raw::pilhangko_raw_capture_freed(capture, number) });
    }

    /// Records that an allocation is renamed.
    pub(crate) fn renamed(&mut self, number: u64, name: &str) {
        // SAFETY: the handle is this capture's alone, and the name's bytes, which outlive the call, are as many as is said.
        self.record(|capture| unsafe {
            raw::pilhangko_raw_capture_renamed(capture, number, name.as_ptr(), name.len())
        });
    }

    /// Whether it has the bounds of memory types behind so many changes of what they follow from; an allocator begins without bounds, at 0.
    pub(crate) fn has_bounds(&self, changes: u64) -> bool {
        self.changes.get() == changes
    }

    /// Records the bounds of memory types, from the first on, behind so many changes. The library leaves out those that are as before.
    pub(crate) fn bounded(&self, changes: u64, bounds: impl IntoIterator<Item = Option<u64>>) {
        self.changes.set(changes);
        for (memory_type, bound) in bounds.into_iter().enumerate() {
            // SAFETY: the handle is this capture's alone: it isn't `Sync`.
            check_unrefused(unsafe {
                raw::pilhangko_raw_capture_bounded(
                    self.handle.as_ptr(),
                    memory_type,
                    bound.is_some(),
                    bound.unwrap_or(0),
                )
            });
        }
    }

    /// Records that the allocator goes.
    pub(crate) fn destroyed(&mut self) {
        self.is_destroyed = true;
    }

    /// How far it goes.
    pub fn end(&self) -> CaptureEnd {
        let mut end = 0;
        // SAFETY: the handle is this capture's alone: it isn't `Sync`.
        check_unrefused(unsafe { raw::pilhangko_raw_capture_how_far(self.handle.as_ptr(), &mut end) });
        match end {
            raw::CAPTURE_WHOLE => CaptureEnd::Whole,
            raw::CAPTURE_TOO_LONG => CaptureEnd::TooLong,
            _ => CaptureEnd::HostOutOfMemory,
        }
    }

    /// Passes the text on in parts. It needs no host memory.
    fn pass_on<E>(&self, mut take: impl FnMut(&str) -> std::result::Result<(), E>) -> std::result::Result<(), E> {
        let (mut part, mut from) = ([0; 4096], 0);
        loop {
            let count = self.copy_from(from, &mut part);
            if count == 0 {
                return Ok(());
            }
            take(std::str::from_utf8(&part[..count]).expect("a trace is ASCII"))?;
            from += count;
        }
    }

    /// Copies the text from a byte on, as much as there is room for; says how many bytes that are.
    fn copy_from(&self, from: usize, part: &mut [u8]) -> usize {
        let mut count = 0;
        // SAFETY: the handle is this capture's alone: it isn't `Sync`. There is as much room as is said, and all of it outlives the call.
        check_unrefused(unsafe {
            raw::pilhangko_raw_capture_text(
                self.handle.as_ptr(),
                self.is_destroyed,
                from,
                part.as_mut_ptr(),
                part.len(),
                &mut count,
            )
        });
        count
    }

    /// The line that begins at this byte; `None` at the end.
    fn line_at(&self, from: usize) -> Option<String> {
        let mut part = [0; 512]; // more than the longest line
        let count = self.copy_from(from, &mut part);
        let end = part[..count].iter().position(|byte| *byte == b'\n')?;
        Some(part[..end].iter().copied().map(char::from).collect())
    }

    /// The lines of the trace, without their ends.
    pub fn lines(&self) -> impl Iterator<Item = String> + '_ {
        let mut from = 0;
        iter::from_fn(move || {
            let line = self.line_at(from)?;
            from += line.len() + 1;
            Some(line)
        })
    }

    /// Writes the trace.
    ///
    /// The errors are the writer's.
    pub fn write_to(&self, mut writer: impl io::Write) -> io::Result<()> {
        self.pass_on(|part| writer.write_all(part.as_bytes()))
    }
}

impl fmt::Display for Capture {
    fn fmt(&self, f: &mut fmt::Formatter<'_>) -> fmt::Result {
        self.pass_on(|part| f.write_str(part))
    }
}

impl Drop for Capture {
    fn drop(&mut self) {
        // SAFETY: the handle is this capture's alone, and isn't used again. An empty one, which `begun` left, is refused.
        unsafe { raw::pilhangko_raw_capture_destroy(self.handle.as_ptr()) };
    }
}
