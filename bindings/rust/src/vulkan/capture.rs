//! What a capture has of the Vulkan allocator's calls.

use super::allocator_handle::{raw_request, raw_settings};
use super::answer::Answer;
use super::{AllocationCreateDesc, Device};
use crate::capture::{Answers, Capture};
use crate::{raw, AllocationSizes, Result};

impl Answers {
    /// Notes the answer to the question for memory, and to the one for its mapping where that was asked.
    pub(super) fn note(&mut self, mapped: bool, answer: &Answer) {
        match answer {
            Answer::MemoryRefused(refusal) => self.refused(refusal.code()),
            Answer::MappingRefused(refusal) => {
                self.granted();
                self.refused(refusal.code());
            }
            Answer::Granted(_) => (0..=u8::from(mapped)).for_each(|_| self.granted()),
        }
    }
}

impl Capture {
    /// The capture of an allocator that is made.
    pub(super) fn of_allocator(device: &Device, sizes: &AllocationSizes) -> Result<Self> {
        let (types, heaps, settings) = (device.memory_types(), device.memory_heaps(), raw_settings(device, sizes));
        // SAFETY: the handle is empty and that call's alone; types and heaps are as many as is said, and all of it outlives the call.
        Capture::begun(|capture| unsafe {
            raw::pilhangko_raw_capture_of_allocator(
                capture,
                types.as_ptr(),
                types.len(),
                heaps.as_ptr(),
                heaps.len(),
                &settings,
            )
        })
    }

    /// Records a request under its number, which stands for its allocation, and what the driver answered.
    pub(super) fn allocator_allocated(&mut self, number: u64, desc: &AllocationCreateDesc<'_>, answers: &Answers) {
        let call = raw::pilhangko_raw_capture_allocator_allocated;
        // SAFETY: the call is the library's.
        unsafe { self.requested(call, number, &raw_request(desc), desc.name, answers) };
    }

    /// Records a proposed move of the allocation with this number; the second place, where there is one, stands under `to`.
    pub(super) fn allocator_moved(&mut self, number: u64, to: u64, desc: &AllocationCreateDesc<'_>) {
        let call = raw::pilhangko_raw_capture_allocator_moved;
        // SAFETY: the call is the library's.
        unsafe { self.moved(call, number, to, &raw_request(desc), desc.name) };
    }
}

#[cfg(test)]
mod tests {
    use super::*;
    use crate::refused::common::FakeDriver;
    use crate::vulkan::answer::Refusal;
    use crate::vulkan::{AllocationScheme, CaptureEnd, MemoryRequirements};
    use crate::MemoryLocation;

    const DEVICE: &str = "heap 1000\ntype 1 0\ngranularity 64\nsizes 4194304 4194304 4194304 4194304\n";

    const TOO_LONG: &str = "# the capture ends here: the next call would make the trace too long";

    fn begun() -> Capture {
        let driver = FakeDriver::new(&[(1, 0)], &[1000], 64);
        Capture::of_allocator(&driver.device(), &AllocationSizes::new(4 << 20, 4 << 20)).expect("the host has memory")
    }

    fn request(name: &str) -> AllocationCreateDesc<'_> {
        AllocationCreateDesc {
            name,
            requirements: MemoryRequirements { size: 1, alignment: 1, memory_type_bits: 1 },
            location: MemoryLocation::Unknown,
            linear: true,
            allocation_scheme: AllocationScheme::GpuAllocatorManaged,
        }
    }

    fn answered(answers: &[(bool, Answer)]) -> Answers {
        let mut noted = Answers::default();
        answers.iter().for_each(|(mapped, answer)| noted.note(*mapped, answer));
        noted
    }

    #[test]
    fn names_are_brought_into_the_alphabet() {
        let mut capture = begun();
        let long = "x".repeat(65);
        let names = [("a b\n", "a_b_"), ("", "_"), ("é~!\u{7f}", "__~!_"), (&long, &long[..64])];
        let mut expected = format!("{DEVICE}new\n");
        for (number, (name, word)) in (1..).zip(names) {
            capture.renamed(number, name);
            expected += &format!("rename {number} {word}\n");
        }
        assert_eq!(capture.to_string(), expected);
        assert!(capture.lines().eq(expected.lines()));
    }

    #[test]
    fn a_capture_ends_at_a_whole_line_where_a_trace_has_no_more_room() {
        let mut capture = begun();
        let name = "n".repeat(64);
        for number in 0..20_000 {
            capture.allocator_allocated(number, &request(&name), &Answers::default());
        }
        assert_eq!(capture.end(), CaptureEnd::TooLong);
        let text = capture.to_string();
        // a line is 99 to 103 bytes, and the end may need 160
        assert!(text.len() <= 1 << 20 && text.len() > (1 << 20) - 300, "{}", text.len());
        let lines: Vec<&str> = text.strip_prefix(DEVICE).expect("it begins with the device").lines().collect();
        assert_eq!(lines.last(), Some(&TOO_LONG));
        assert_eq!(lines[0], "new");
        for (number, line) in lines[1..lines.len() - 1].iter().enumerate() {
            assert_eq!(*line, format!("alloc {number} 1 1 1 Unknown linear managed {name}"));
        }
        capture.freed(1);
        capture.destroyed();
        assert_eq!(capture.to_string(), text);
        let mut written = Vec::new();
        capture.write_to(&mut written).expect("a list takes all");
        assert_eq!(written, text.as_bytes());
    }

    #[test]
    fn refusals_are_numbered_and_a_forgotten_attempt_leaves_none() {
        let mut capture = begun();
        let code = |code| Answer::MemoryRefused(Refusal::Code(code));
        let answers = [(true, code(-2)), (true, Answer::MappingRefused(Refusal::Null))]; // questions 1, and 2 and 3
        capture.allocator_allocated(0, &request("a"), &answered(&answers));
        let mut answers = answered(&[(false, Answer::MemoryRefused(Refusal::Null))]);
        answers.forget();
        answers.note(false, &code(-1)); // 4
        capture.allocator_allocated(1, &request("b"), &answers);
        let expected = "refuse 1 -2\nrefuse 3 null\nrefuse 4 -1\nnew\n\
            alloc 0 1 1 1 Unknown linear managed a\nalloc 1 1 1 1 Unknown linear managed b\n";
        assert_eq!(capture.to_string(), format!("{DEVICE}{expected}"));
    }
}
