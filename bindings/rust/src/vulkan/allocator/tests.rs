use super::*;
use crate::refused::common::script::Script;
use crate::refused::common::FakeDriver;
use crate::vulkan::answer::Memory;
use crate::vulkan::DeviceMemory;
use std::sync::Mutex;
use std::time::Instant;

/// The lines that are logged of leaks, and the library's own texts of them.
fn leaks(allocator: &mut Allocator) -> (Vec<String>, Vec<String>) {
    let lines: std::sync::Arc<Mutex<Vec<String>>> = std::sync::Arc::default();
    let kept = std::sync::Arc::clone(&lines);
    allocator.log.logger = Some(Logger::new(move |_, line| kept.lock().expect("one thread").push(line.to_owned())));
    allocator.report_memory_leaks(Level::Info);
    allocator.log.logger = None;
    let texts = (0..).map(|index| allocator.handle.leak(index)).take_while(|text| !text.is_empty()).collect();
    let logged = std::mem::take(&mut *lines.lock().expect("one thread"));
    (logged, texts)
}

#[test]
fn leaks_are_logged_in_the_words_of_the_library() {
    let mut script = Script::new(11, false);
    let mut calls = 0..;
    while script.live.len() < 100 || !script.live.iter().any(Allocation::is_dedicated) {
        script.step(calls.next().expect("calls without end"));
    }
    script.end_moves();
    let (logged, texts) = leaks(&mut script.allocator);
    assert_eq!((logged.len(), texts.len()), (script.live.len(), script.live.len()));
    assert!(texts.iter().any(|text| text.contains("dedicated allocation")), "{}", texts.len());
    assert!(texts.iter().any(|text| text.contains("chunk: ")));
    for (line, text) in logged.iter().zip(&texts) {
        assert_eq!(line, text.trim_end());
    }
}

/// What the crate does at each block doesn't grow with how many there are: 20,000 take about the library's own time.
#[test]
fn many_blocks_are_as_quick_as_the_library() {
    let driver = FakeDriver::new(&[(1, 0)], &[1 << 40], 1);
    let own = AllocationCreateDesc {
        name: "own",
        requirements: MemoryRequirements { size: 256, alignment: 1, memory_type_bits: 1 },
        location: MemoryLocation::GpuOnly,
        linear: true,
        allocation_scheme: AllocationScheme::DedicatedBuffer(Buffer(1)),
    };
    let begin = Instant::now();
    let mut handle = AllocatorHandle::new(&driver.device(), &AllocationSizes::default()).unwrap();
    let common = handle.share.common();
    let mut common = lock(&common);
    for number in 1..=20_000 {
        assert!(matches!(handle.begin(&own), Ok(Progress::Question(_))));
        handle.granted(Memory { handle: DeviceMemory(number), address: None }, &mut common);
    }
    let alone = begin.elapsed();
    std::mem::forget(handle); // the driver never gave this memory, and takes none of it back
    let begin = Instant::now();
    let mut allocator = Allocator::new(&AllocatorCreateDesc::new(driver.device())).unwrap();
    let live: Vec<Allocation> = (0..20_000).map(|_| allocator.allocate(&own).unwrap()).collect();
    let whole = begin.elapsed();
    assert!(whole.as_secs_f64() < 4.0 * alone.as_secs_f64() + 2.0, "{whole:?}, of which {alone:?} are the library's");
    live.into_iter().for_each(|it| allocator.free(it).unwrap());
    drop(allocator);
    driver.assert_left_empty();
}

/// A capture is handed bounds behind a change of what they follow from alone: a budget, a limit, or which blocks there are.
#[test]
fn bounds_are_read_behind_changes_alone() {
    let driver = FakeDriver::new(&[(1, 0), (6, 0)], &[100 << 20], 64);
    let allocation_sizes = AllocationSizes::new(4 << 20, 4 << 20);
    let desc = AllocatorCreateDesc { capture: true, allocation_sizes, ..AllocatorCreateDesc::new(driver.device()) };
    let mut a = Allocator::new(&desc).unwrap();
    let request = AllocationCreateDesc {
        name: "piece",
        requirements: MemoryRequirements { size: 256, alignment: 1, memory_type_bits: 3 },
        location: MemoryLocation::GpuOnly,
        linear: true,
        allocation_scheme: AllocationScheme::GpuAllocatorManaged,
    };
    let own =
        AllocationCreateDesc { allocation_scheme: AllocationScheme::DedicatedBuffer(Buffer(1)), ..request.clone() };
    assert!(a.captured_bounds().is_none());
    let _leaks = a.allocate(&request).unwrap();
    assert!(a.captured_bounds().is_some()); // a block came
    let mut piece = a.allocate(&request).unwrap();
    a.rename_allocation(&mut piece, "other").unwrap();
    assert!(a.propose_move(&piece, &request).unwrap().is_none());
    a.free(piece).unwrap();
    assert!(a.captured_bounds().is_none());
    let recorded =
        |a: &Allocator| a.captured_bounds().is_some() && a.capture().is_some() && a.captured_bounds().is_none();
    a.set_budget(1, Some(1)).unwrap();
    assert!(recorded(&a));
    a.set_heap_limit(0, Some(99 << 20)).unwrap();
    assert!(recorded(&a));
    let own = a.allocate(&own).unwrap(); // a block comes
    assert!(recorded(&a));
    a.free(own).unwrap(); // and goes
    assert!(recorded(&a));
}
