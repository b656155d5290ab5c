//! Smaller blocks where memory is short, of an allocator and of a pool, over a driver of the test's: rows that were worked out by hand.
#![allow(missing_docs)]

mod common;

use common::requests::{asked_for, request, TYPES};
use common::{FakeDriver, Refusal, MB};
use pilhangko::vulkan::{Allocation, Allocator, AllocatorCreateDesc, PoolCreateDesc};
use pilhangko::{AllocationError, AllocationSizes, MemoryLocation};

const OUT_OF_DEVICE_MEMORY: Refusal = Refusal::Code(-2);

/// Blocks of 16 MB.
fn desc(driver: &FakeDriver) -> AllocatorCreateDesc {
    let allocation_sizes = AllocationSizes::new(16 * MB, 16 * MB);
    AllocatorCreateDesc { allocation_sizes, ..AllocatorCreateDesc::new(driver.device()) }
}

/// The device's own memory lies in a heap of that size.
fn over(heap: u64) -> Box<FakeDriver> {
    FakeDriver::new(&TYPES, &[heap, 2048 * MB, 2048 * MB], 1024).with_atoms(64)
}

fn device_local(a: &mut Allocator, size: u64) -> Result<Allocation, AllocationError> {
    a.allocate(&request(size, 4, 1, MemoryLocation::GpuOnly))
}

#[test]
fn a_small_heap_has_small_blocks() {
    let driver = over(64 * MB);
    let block = |desc: &AllocatorCreateDesc| {
        let mut a = Allocator::new(desc).unwrap();
        let it = device_local(&mut a, 100).unwrap();
        let size = asked_for(&driver, &it).size;
        a.free(it).unwrap();
        size
    };
    assert_eq!(block(&desc(&driver)), 8 * MB);
    assert_eq!(block(&AllocatorCreateDesc { whole_blocks: true, ..desc(&driver) }), 16 * MB);
    assert_eq!(block(&AllocatorCreateDesc { capture: true, ..desc(&driver) }), 16 * MB); // a trace has no smaller blocks
    driver.assert_left_empty();
}

/// A half, a quarter, and memory of its own for what is above the smaller block.
#[test]
fn a_refused_block_is_halved() {
    let driver = over(2048 * MB);
    let mut a = Allocator::new(&desc(&driver)).unwrap();
    driver.state().refusals.extend([(1, OUT_OF_DEVICE_MEMORY), (3, OUT_OF_DEVICE_MEMORY)]);
    let half = device_local(&mut a, 100).unwrap();
    let own = device_local(&mut a, 15 * MB).unwrap();
    assert_eq!([&half, &own].map(|it| asked_for(&driver, it).size), [8 * MB, 15 * MB]);
    let rest = device_local(&mut a, 7 * MB).unwrap();
    assert_eq!(driver.state().questions, 4);
    driver.state().refusals.extend((5..=10).map(|question| (question, OUT_OF_DEVICE_MEMORY)));
    for (size, questions) in [(2 * MB, 7), (9 * MB, 9), (16 * MB, 10)] {
        assert_eq!(device_local(&mut a, size).map(|_| ()), Err(AllocationError::OutOfMemory));
        assert_eq!(driver.state().questions, questions);
    }
    for it in [half, own, rest] {
        a.free(it).unwrap();
    }
    drop(a);
    driver.assert_left_empty();
}

#[test]
fn whole_blocks_are_asked_for_once() {
    let driver = over(2048 * MB);
    let mut a = Allocator::new(&AllocatorCreateDesc { whole_blocks: true, ..desc(&driver) }).unwrap();
    driver.state().refusals.insert(1, OUT_OF_DEVICE_MEMORY);
    assert_eq!(device_local(&mut a, 100).map(|_| ()), Err(AllocationError::OutOfMemory));
    assert_eq!(driver.state().questions, 1);
    drop(a);
    driver.assert_left_empty();
}

/// As large as the limit leaves; a pool says for itself whether its blocks keep their sizes.
#[test]
fn blocks_are_within_a_limit_and_pools_have_theirs() {
    let driver = over(2048 * MB);
    let mut a = Allocator::new(&desc(&driver)).unwrap();
    a.set_heap_limit(0, Some(42 * MB)).unwrap();
    let first = device_local(&mut a, 10 * MB).unwrap();
    let sizes = AllocationSizes::new(16 * MB, 16 * MB);
    let whole = PoolCreateDesc { allocation_sizes: sizes, whole_blocks: true, ..PoolCreateDesc::default() };
    let mut whole = a.create_pool(&whole).unwrap();
    let mut pool = a.create_pool(&PoolCreateDesc { allocation_sizes: sizes, ..PoolCreateDesc::default() }).unwrap();
    let second = device_local(&mut whole, 100).unwrap();
    assert_eq!(device_local(&mut whole, 16 * MB).map(|_| ()), Err(AllocationError::BudgetExceeded));
    let third = device_local(&mut pool, 100).unwrap(); // 42 - 32 MB are left
    assert_eq!([&first, &second, &third].map(|it| asked_for(&driver, it).size), [16 * MB, 16 * MB, 8 * MB]);
    a.free(first).unwrap();
    whole.free(second).unwrap();
    pool.free(third).unwrap();
    drop((a, whole, pool));
    driver.assert_left_empty();
}
