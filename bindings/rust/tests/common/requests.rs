//! What the tests of requests and of pools ask for, and of whom.

use super::resources::{Alone, Needs};
use super::{Asked, Chained, FakeDriver, EXPORT, MB, PRIORITY};
use pilhangko::vulkan::{
    Allocation, AllocationCreateDesc, AllocationScheme, Allocator, AllocatorCreateDesc, Capture, Chain, Device,
    MemoryRequirements,
};
use pilhangko::{AllocationError, AllocationSizes, Fault, MemoryLocation};
use std::ffi::c_void;
use std::ptr::{null, NonNull};

/// The device's own; the host's; both, in a small heap; the host's, which needs flushes.
pub const TYPES: [(u32, u32); 4] = [(1, 0), (6, 1), (7, 2), (10, 1)];
pub const HEAPS: [u64; 3] = [1024 * MB, 512 * MB, 24 * MB];

pub fn driver() -> Box<FakeDriver> {
    let driver = FakeDriver::new(&TYPES, &HEAPS, 1024).with_atoms(64);
    driver.state().needs = Needs { alignment: 16, memory_type_bits: 15, alone: Alone::No };
    driver
}

pub fn made(device: Device) -> Allocator {
    let allocation_sizes = AllocationSizes::new(4 * MB, 4 * MB);
    let desc =
        AllocatorCreateDesc { allocation_sizes, buffer_device_address: true, ..AllocatorCreateDesc::new(device) };
    Allocator::new(&desc).expect("the device makes sense")
}

/// Its calls are recorded.
pub fn captured(device: Device) -> Allocator {
    let allocation_sizes = AllocationSizes::new(4 * MB, 4 * MB);
    let desc = AllocatorCreateDesc { allocation_sizes, capture: true, ..AllocatorCreateDesc::new(device) };
    Allocator::new(&desc).expect("the device makes sense")
}

/// The lines of a capture behind those of the device.
pub fn calls_of(capture: Option<Capture>) -> String {
    let trace = capture.expect("its calls are recorded").to_string();
    trace.split_once("new\n").expect("an allocator is made").1.to_owned()
}

pub fn request(size: u64, alignment: u64, bits: u32, location: MemoryLocation) -> AllocationCreateDesc<'static> {
    AllocationCreateDesc {
        name: "piece",
        requirements: MemoryRequirements { size, alignment, memory_type_bits: bits },
        location,
        linear: true,
        allocation_scheme: AllocationScheme::GpuAllocatorManaged,
    }
}

pub fn memory(it: &Allocation) -> u64 {
    // SAFETY: the handle is only looked up.
    unsafe { it.memory() }.0
}

pub fn asked_for(driver: &FakeDriver, it: &Allocation) -> Asked {
    driver.state().held[&memory(it)].asked
}

pub fn fault(text: &'static str, code: Option<i64>) -> AllocationError {
    AllocationError::Internal(Fault { text, code })
}

/// A priority of three quarters, and one handle type for export.
pub fn exported() -> Chained<u32> {
    Chained { s_type: EXPORT, next: null(), value: 1 }
}

pub fn priority(next: &Chained<u32>) -> Chained<f32> {
    Chained { s_type: PRIORITY, next: (&raw const *next).cast(), value: 0.75 }
}

pub fn chain<T>(first: &T) -> Chain<'_> {
    let first: *const T = first;
    // SAFETY: the structs live as long as they are borrowed, and the driver reads them.
    unsafe { Chain::new(NonNull::new(first.cast_mut().cast::<c_void>()).expect("a struct has an address")) }
}
