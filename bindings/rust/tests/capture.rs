//! Captures: their text, and that `gpu_trace` (the program that PILHANGKO_GPU_TRACE names) replays them with the run's own replies.
#![allow(missing_docs)]

mod common;
#[cfg(target_arch = "x86_64")]
#[path = "capture/d3d12.rs"]
mod d3d12;
#[cfg(target_arch = "x86_64")]
mod fake_d3d12;

use common::script::{reply, Script};
use common::{FakeDriver, Random, Refusal, MB};
use pilhangko::vulkan::{
    Allocation, AllocationCreateDesc, AllocationScheme, Allocator, AllocatorCreateDesc, Buffer, Capture, CaptureEnd,
    Image, MemoryRequirements, PoolCreateDesc,
};
use pilhangko::{AllocationError, AllocationSizes, MemoryLocation};
use std::io::Write;
use std::process::{Command, Stdio};
use std::thread;

fn request<'a>(name: &'a str, size: u64, location: MemoryLocation) -> AllocationCreateDesc<'a> {
    AllocationCreateDesc {
        name,
        requirements: MemoryRequirements { size, alignment: 16, memory_type_bits: 3 },
        location,
        linear: true,
        allocation_scheme: AllocationScheme::GpuAllocatorManaged,
    }
}

/// Two memory types, the device's and the host's, with blocks of 4 MB.
fn described(driver: &FakeDriver) -> AllocatorCreateDesc {
    AllocatorCreateDesc {
        capture: true,
        allocation_sizes: AllocationSizes::new(4 * MB, 4 * MB),
        ..AllocatorCreateDesc::new(driver.device())
    }
}

fn driver() -> Box<FakeDriver> {
    FakeDriver::new(&[(1, 0), (6, 1)], &[100 * MB, 50 * MB], 64)
}

/// What `gpu_trace` replies to a trace, by lines; `None` where there is no such program.
fn replayed(trace: &str) -> Option<Vec<String>> {
    let Some(program) = std::env::var_os("PILHANGKO_GPU_TRACE") else {
        eprintln!("PILHANGKO_GPU_TRACE isn't set: gpu_trace replays no capture here");
        return None;
    };
    let mut child =
        Command::new(program).stdin(Stdio::piped()).stdout(Stdio::piped()).spawn().expect("gpu_trace starts");
    let mut input = child.stdin.take().expect("it has an input");
    let output = thread::scope(|scope| {
        scope.spawn(move || input.write_all(trace.as_bytes()).expect("gpu_trace reads its input"));
        child.wait_with_output().expect("gpu_trace ends")
    });
    assert!(output.status.success(), "{:?}", output.status);
    let text = String::from_utf8(output.stdout).expect("replies are ASCII");
    Some(text.lines().map(str::to_owned).collect())
}

fn assert_replays(capture: &Capture, replies: &[String]) {
    if let Some(replayed) = replayed(&capture.to_string()) {
        for (number, (told, expected)) in replayed.iter().zip(replies).enumerate() {
            assert_eq!(told, expected, "reply {number}");
        }
        assert_eq!(replayed.len(), replies.len());
    }
}

#[test]
fn without_capture_there_is_none() {
    let driver = driver();
    let a = Allocator::new(&AllocatorCreateDesc { capture: false, ..described(&driver) }).unwrap();
    assert!(a.capture().is_none() && a.destroy().is_none());
}

#[test]
fn a_capture_is_what_was_asked() {
    let driver = driver();
    driver.refuse(1, Refusal::Code(-1));
    driver.refuse(4, Refusal::Null); // the mapping of the readback's second try
    let mut a = Allocator::new(&described(&driver)).unwrap();
    assert!(a.allocate(&request("first", 100, MemoryLocation::GpuOnly)).is_err());
    let mut first = a.allocate(&request("first", 100, MemoryLocation::GpuOnly)).unwrap();
    assert!(a.allocate(&request("read back", 100, MemoryLocation::GpuToCpu)).is_err());
    let own = AllocationCreateDesc {
        linear: false,
        allocation_scheme: AllocationScheme::DedicatedImage(Image(9)),
        ..request("", 50, MemoryLocation::GpuOnly)
    };
    let own = a.allocate(&own).unwrap();
    a.rename_allocation(&mut first, "größe").unwrap();
    a.set_budget(0, Some(8 * MB)).unwrap();
    assert!(a.set_budget(7, None).is_err());
    a.free(Allocation::default()).unwrap();
    a.free(first).unwrap();
    let scheme = AllocationScheme::DedicatedBuffer(Buffer(u64::MAX));
    let again = AllocationCreateDesc { allocation_scheme: scheme, ..request("b", 10, MemoryLocation::Unknown) };
    let _leak = a.allocate(&again).unwrap();
    a.free(own).unwrap();
    let capture = a.destroy().unwrap();
    driver.assert_left_empty();
    assert_eq!(capture.end(), CaptureEnd::Whole);
    let expected = "\
heap 104857600
heap 52428800
type 1 0
type 6 1
granularity 64
sizes 4194304 4194304 4194304 4194304
refuse 1 -1
refuse 4 null
new
alloc 1 100 16 3 GpuOnly linear managed first
alloc 2 100 16 3 GpuOnly linear managed first
alloc 3 100 16 3 GpuToCpu linear managed read_back
alloc 4 50 16 3 GpuOnly nonlinear image:9 _
rename 2 gr____e
free 2
budget 0 8388608
alloc 5 10 16 3 Unknown linear buffer:18446744073709551615 b
free 4
destroy
";
    assert_eq!(capture.to_string(), expected);
    let mut written = Vec::new();
    capture.write_to(&mut written).unwrap();
    assert_eq!(written, expected.as_bytes());
    let replies = [
        "ok",
        "error E6",
        "ok type 0 slot 0 offset 0 size 100 chunk 2 dedicated false mapped false",
        "error E2",
        "ok type 0 slot 1 offset 0 size 50 chunk 1 dedicated true mapped false",
        "ok",
        "ok",
        "ok",
        "ok type 0 slot 2 offset 0 size 10 chunk 1 dedicated true mapped false",
        "ok",
        "held 0",
    ];
    assert_replays(&capture, &replies.map(str::to_owned));
}

#[test]
fn budgets_are_captured_where_they_change_and_count() {
    let driver = driver();
    let mut a = Allocator::new(&described(&driver)).unwrap();
    let commands = |a: &Allocator| {
        let text = a.capture().expect("the run is captured").to_string();
        text.split_once("new\n").expect("it begins").1.to_owned()
    };
    for frame in 0..100_000 {
        a.set_budget(0, Some(50 * MB + frame.min(100))).unwrap(); // another each frame, and then the same
        a.set_budget(1, Some(9 * MB)).unwrap();
    }
    assert_eq!(commands(&a), "budget 0 52428900\nbudget 1 9437184\n"); // as they are by now
    let first = a.allocate(&request("a", 100, MemoryLocation::GpuOnly)).unwrap();
    let second = a.allocate(&request("b", 100, MemoryLocation::GpuOnly)).unwrap();
    a.set_budget(0, Some(5)).unwrap(); // there and back
    a.set_budget(0, Some(50 * MB + 100)).unwrap();
    a.set_budget(1, None).unwrap();
    a.free(first).unwrap();
    let third = a.allocate(&request("c", 100, MemoryLocation::GpuOnly)).unwrap();
    a.set_budget(0, None).unwrap();
    a.free(second).unwrap();
    a.free(third).unwrap();
    let expected = "\
budget 0 52428900
budget 1 9437184
alloc 1 100 16 3 GpuOnly linear managed a
alloc 2 100 16 3 GpuOnly linear managed b
free 1
budget 1 none
alloc 3 100 16 3 GpuOnly linear managed c
free 2
free 3
budget 0 none
";
    assert_eq!(commands(&a), expected);
    let capture = a.destroy().unwrap();
    assert_eq!(capture.to_string().split_once("new\n").unwrap().1, format!("{expected}destroy\n"));
}

#[test]
fn random_runs_replay_with_the_same_replies() {
    for seed in 1..=5 {
        let mut script = Script::new(seed, true);
        for number in 0..4000 {
            script.step(number);
        }
        script.told_budgets();
        let Script { allocator, mut replies, live, driver, .. } = script;
        let report = allocator.generate_report();
        let capacity = allocator.capacity();
        let capture = allocator.destroy().expect("the run is captured");
        drop(live);
        driver.assert_left_empty();
        assert_eq!(capture.end(), CaptureEnd::Whole);
        replies.push("held 0".to_owned());
        assert_replays(&capture, &replies);
        // a report and the capacity before the end are those of the run, too
        let text = capture.to_string().replace("\ndestroy\n", "\nreport\ncapacity\ndestroy\n");
        let Some(replayed) = replayed(&text) else { continue };
        let pieces: Vec<&String> = replayed.iter().filter(|line| line.starts_with("piece ")).collect();
        assert_eq!(pieces.len(), report.allocations.len());
        for (piece, row) in pieces.iter().zip(&report.allocations) {
            assert!(piece.ends_with(&format!(" {} {}", row.offset, row.size)), "{piece} {row:?}");
        }
        assert_eq!(replayed[replayed.len() - 2], capacity.to_string());
    }
}

/// The replies to the commands of a capture, where budgets stand between those that were counted.
fn behind_budgets(capture: &Capture, replies: Vec<String>) -> Vec<String> {
    let mut replies = replies.into_iter();
    let commands = capture.lines().skip_while(|line| *line != "new");
    let told = commands.map(|line| if line.starts_with("budget") { Some("ok".to_owned()) } else { replies.next() });
    told.map(|it| it.expect("each command has a reply")).collect()
}

/// Each has what the others leave of 9 blocks and of the heaps' limits: its capture has that as budgets, and replays the same.
#[test]
fn captures_of_pools_replay() {
    let driver = FakeDriver::new(&[(1, 0), (6, 1), (7, 0)], &[100 * MB, 50 * MB], 64).with_most_memories(9);
    let first = Allocator::new(&described(&driver)).unwrap();
    let sizes =
        PoolCreateDesc { capture: true, allocation_sizes: described(&driver).allocation_sizes, ..Default::default() };
    let second = first.create_pool(&PoolCreateDesc { memory_type_bits: Some(5), ..sizes.clone() }).unwrap();
    let third = first.create_pool(&PoolCreateDesc { most_blocks: Some(3), ..sizes }).unwrap();
    let mut all = [first, second, third].map(|a| (a, vec!["ok".to_owned()], Vec::new()));
    let (mut random, mut above_bounds) = (Random(3), 0);
    for _ in 0..6000 {
        let (a, replies, live) = &mut all[random.below(3) as usize];
        match random.below(20) {
            0 => a
                .set_heap_limit(
                    random.below(2) as usize,
                    [None, Some(random.below(40 * MB))][random.below(3).min(1) as usize],
                )
                .unwrap(),
            1..=11 if live.len() < 8 => {
                let location = random.of(&[MemoryLocation::Unknown, MemoryLocation::GpuOnly, MemoryLocation::CpuToGpu]);
                let needs = MemoryRequirements {
                    memory_type_bits: 7,
                    ..request("", 1 + random.below(5 * MB), location).requirements
                };
                let it = a.allocate(&AllocationCreateDesc { requirements: needs, ..request("piece", 1, location) });
                replies.push(reply(&it));
                above_bounds += u64::from(it.as_ref().is_err_and(|error| *error == AllocationError::BudgetExceeded));
                live.extend(it);
            }
            _ if !live.is_empty() => {
                a.free(live.swap_remove(random.below(live.len() as u64) as usize)).unwrap();
                replies.push("ok".to_owned());
            }
            _ => {}
        }
    }
    assert!(above_bounds > 500, "{above_bounds}");
    for (a, mut replies, live) in all {
        drop(live);
        let capture = a.destroy().expect("the run is captured");
        replies.push("held 0".to_owned());
        assert_replays(&capture, &behind_budgets(&capture, replies));
    }
    assert_eq!(driver.state().most_held, 9);
    driver.assert_left_empty();
}

#[test]
fn a_capture_that_is_full_replays_as_far_as_it_goes() {
    let driver = driver();
    let mut a = Allocator::new(&described(&driver)).unwrap();
    let mut replies = vec!["ok".to_owned()];
    while a.capture().is_some_and(|capture| capture.end() == CaptureEnd::Whole) {
        let it = a.allocate(&request("piece", 100, MemoryLocation::GpuOnly)).unwrap();
        let chunk = it.chunk_id().unwrap();
        replies.push(format!("ok type 0 slot 0 offset 0 size 100 chunk {chunk} dedicated false mapped false"));
        a.free(it).unwrap();
        replies.push("ok".to_owned());
    }
    let capture = a.destroy().unwrap();
    assert!(capture.to_string().len() <= 1 << 20);
    let last = capture.lines().last().unwrap();
    assert_eq!(last, "# the capture ends here: the next call would make the trace too long");
    let commands = capture.lines().filter(|line| line.starts_with("alloc") || line.starts_with("free")).count();
    assert_replays(&capture, &replies[..=commands]);
}
