//! What a capture has of the DirectX 12 allocator's calls.

use super::allocator::{AllocationCreateDesc, Allocator};
use super::allocator_handle::raw_request;
use super::device::Made;
use crate::capture::{has_line, Answers, Capture, RecordRequest};
use crate::raw::{self, HeapsRequest, HeapsSettings};
use crate::Result;

impl Answers {
    /// Notes what came of a question for a heap, or for a committed resource.
    pub(super) fn note_made(&mut self, made: &Made) {
        match made {
            Ok(_) => self.granted(),
            Err(code) => self.refused(*code),
        }
    }
}

impl Capture {
    /// The capture of an allocator that is made.
    pub(super) fn of_heaps(settings: &HeapsSettings) -> Result<Self> {
        // SAFETY: the handle is empty and that call's alone, and the settings outlive the call.
        Capture::begun(|capture| unsafe { raw::pilhangko_raw_capture_of_heaps(capture, settings) })
    }

    /// Records that a committed resource is released.
    pub(super) fn released(&mut self, number: u64) {
        // SAFETY: the handle is this capture's alone.
        self.record(|capture| unsafe { raw::pilhangko_raw_capture_released(capture, number) });
    }
}

/// Records calls, where they are recorded at all. What was asked for is called by its number; what was refused had the next one's.
impl Allocator {
    /// A request, and what came of it.
    pub(super) fn record_allocated<T>(
        &mut self,
        desc: &AllocationCreateDesc<'_>,
        result: &Result<T>,
        answers: &Answers,
    ) {
        self.record_requested(raw::pilhangko_raw_capture_heaps_allocated, desc, result, answers);
    }

    /// What a committed resource needs, and what came of it.
    pub(super) fn record_committed<T>(
        &mut self,
        needs: &AllocationCreateDesc<'_>,
        result: &Result<T>,
        answers: &Answers,
    ) {
        self.record_requested(raw::pilhangko_raw_capture_heaps_committed, needs, result, answers);
    }

    fn record_requested<T>(
        &mut self,
        call: RecordRequest<HeapsRequest>,
        desc: &AllocationCreateDesc<'_>,
        result: &Result<T>,
        answers: &Answers,
    ) {
        if !has_line(result) {
            return;
        }
        self.record_bounds();
        if let Some(capture) = &mut self.capture {
            // SAFETY: both callers name calls of the library's.
            unsafe { capture.requested(call, self.last_number + 1, &raw_request(desc), desc.name, answers) };
        }
    }

    /// A proposed move of the allocation with this number, whether there was a second place or none.
    pub(super) fn record_moved(&mut self, number: u64, desc: &AllocationCreateDesc<'_>) {
        self.record_bounds();
        if let Some(capture) = &mut self.capture {
            let call = raw::pilhangko_raw_capture_heaps_moved;
            // SAFETY: the call is the library's.
            unsafe { capture.moved(call, number, self.last_number + 1, &raw_request(desc), desc.name) };
        }
    }

    /// The bounds of memory types as they are now, where the capture may have others.
    pub(super) fn record_bounds(&self) {
        let changes = self.handle.changes;
        if let Some(capture) = self.capture.as_ref().filter(|capture| !capture.has_bounds(changes)) {
            capture.bounded(changes, (0..).map_while(|index| Some(self.type_statistics(index)?.budget)));
        }
    }
}
