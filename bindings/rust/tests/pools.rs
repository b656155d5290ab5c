//! Pools: allocators over one device whose blocks are apart, and whose bounds are one, over a driver of the test's.
#![allow(missing_docs)]

mod common;

use common::requests::{
    asked_for, calls_of, captured, chain, driver, exported, made, memory, priority, request, TYPES,
};
use common::{Asked, FakeDriver, Random, Refusal, EXPORT, MB};
use pilhangko::vulkan::{
    Allocation, AllocationCreateDesc, AllocationOptions, AllocationScheme, Allocator, Buffer, Chain, Heap,
    MemoryDedicatedAllocateInfo, PoolCreateDesc, SharedAllocator, TransientCreateDesc, TransientResource,
};
use pilhangko::{AllocationError, AllocationSizes, MemoryLocation};
use std::ptr::{null, NonNull};
use std::thread;

fn sizes() -> PoolCreateDesc {
    PoolCreateDesc { allocation_sizes: AllocationSizes::new(4 * MB, 4 * MB), ..PoolCreateDesc::default() }
}

/// A chain whose structs live to the test's end, as the pool does.
fn kept<T>(first: &T) -> Chain<'static> {
    // SAFETY: each test drops its pools before its structs.
    unsafe { Chain::new(NonNull::from(first).cast()) }
}

fn free_all<const N: usize>(a: &mut Allocator, all: [Allocation; N]) {
    all.into_iter().for_each(|it| a.free(it).unwrap());
}

fn refused(a: &mut Allocator, desc: &AllocationCreateDesc<'_>) -> AllocationError {
    a.allocate(desc).map(|_| ()).unwrap_err()
}

#[test]
fn a_pool_has_memory_types_sizes_and_allocations_of_its_own() {
    let driver = driver();
    let mut a = made(driver.device());
    let allocation_sizes = AllocationSizes::new(8 * MB, 4 * MB);
    let mut pool = a
        .create_pool(&PoolCreateDesc { memory_type_bits: Some(3), allocation_sizes, ..PoolCreateDesc::default() })
        .unwrap();
    let device = request(100, 4, 15, MemoryLocation::GpuOnly);
    let [first, second] = [a.allocate(&device).unwrap(), pool.allocate(&device).unwrap()];
    assert_ne!(memory(&first), memory(&second));
    assert_eq!([&first, &second].map(|it| asked_for(&driver, it).size), [4 * MB, 8 * MB]);
    let upload = pool.allocate(&request(100, 4, 15, MemoryLocation::CpuToGpu)).unwrap(); // in the host's memory
    assert_eq!(upload.memory_type_index(), 1);
    let other = request(100, 4, 12, MemoryLocation::Unknown);
    assert_eq!(refused(&mut pool, &other), AllocationError::NoCompatibleMemoryTypeFound);
    assert_eq!((a.capacity(), pool.capacity()), (4 * MB, 12 * MB));
    assert!(a.is_live(&first) && pool.is_live(&second) && !a.is_live(&second) && !pool.is_live(&first));
    let (_, second) = a.free(second).unwrap_err();
    free_all(&mut a, [first]);
    free_all(&mut pool, [second, upload]);
    drop(a); // either may go first
    let last = pool.allocate(&device).unwrap();
    free_all(&mut pool, [last]);
    drop(pool);
    driver.assert_left_empty();
}

#[test]
fn descriptions_that_make_no_sense() {
    let driver = driver();
    let a = made(driver.device());
    let text = |desc: &PoolCreateDesc| a.create_pool(desc).unwrap_err().to_string();
    let none = PoolCreateDesc { memory_type_bits: Some(16), ..PoolCreateDesc::default() };
    assert_eq!(text(&none), "Invalid AllocatorCreateDesc none of the memory types.");
    let s_type = MemoryDedicatedAllocateInfo::STRUCTURE_TYPE;
    let alone = MemoryDedicatedAllocateInfo { s_type, next: null(), image: Default::default(), buffer: Buffer(7) };
    let alone = PoolCreateDesc { next: Some(kept(&alone)), ..PoolCreateDesc::default() };
    assert_eq!(text(&alone), "Invalid AllocatorCreateDesc memory for one resource in the chain of a pool.");
    assert_eq!(driver.state().questions, 0);
}

/// Each block has the pool's chain; of a request with a chain that one counts.
#[test]
fn chains_go_to_the_driver_for_each_block() {
    let driver = driver();
    let mut a = made(driver.device());
    let (exported, single) = (exported(), common::Chained { s_type: EXPORT, next: null(), value: 2_u32 });
    let priority = priority(&exported);
    let mut pool = a.create_pool(&PoolCreateDesc { next: Some(kept(&priority)), ..sizes() }).unwrap();
    let device = request(100, 4, 1, MemoryLocation::GpuOnly);
    let [first, second] = [&device; 2].map(|it| pool.allocate(it).unwrap());
    let whole = Asked { size: 4 * MB, device_address: true, priority: 75, handle_types: 1, ..Asked::default() };
    assert_eq!((asked_for(&driver, &first), memory(&first)), (whole, memory(&second)));
    let allocation_scheme = AllocationScheme::DedicatedBuffer(Buffer(77));
    let own = pool.allocate(&AllocationCreateDesc { allocation_scheme, ..device.clone() }).unwrap();
    assert_eq!(asked_for(&driver, &own), Asked { size: 100, buffer: Buffer(77), ..whole });
    let options = AllocationOptions { next: Some(chain(&single)), ..AllocationOptions::default() };
    let chained = pool.allocate_with(&device, &options).unwrap();
    assert_eq!(asked_for(&driver, &chained), Asked { size: 100, priority: 0, handle_types: 2, ..whole });
    let plain = a.allocate(&device).unwrap();
    assert_eq!(asked_for(&driver, &plain), Asked { priority: 0, handle_types: 0, ..whole });
    free_all(&mut pool, [first, second, own, chained]);
    free_all(&mut a, [plain]);
    drop((a, pool));
    driver.assert_left_empty();
}

/// The driver grants three: whichever of them asks.
#[test]
fn they_have_no_more_blocks_together_than_the_driver_grants() {
    let driver = FakeDriver::new(&TYPES, &common::requests::HEAPS, 1024).with_most_memories(3);
    let mut a = made(driver.device());
    let mut first = a.create_pool(&PoolCreateDesc { most_blocks: Some(1), ..sizes() }).unwrap();
    let mut second = first.create_pool(&sizes()).unwrap();
    let (device, host) = (request(100, 4, 1, MemoryLocation::GpuOnly), request(100, 4, 2, MemoryLocation::Unknown));
    let in_first = first.allocate(&device).unwrap();
    assert_eq!(refused(&mut first, &host), AllocationError::BudgetExceeded); // its own bound
    let [in_a, in_second] = [a.allocate(&device).unwrap(), second.allocate(&device).unwrap()];
    for it in [&mut a, &mut second] {
        assert_eq!(refused(it, &host), AllocationError::BudgetExceeded);
    }
    free_all(&mut second, [in_second]); // its only shared block stays, until it goes
    assert_eq!(refused(&mut a, &host), AllocationError::BudgetExceeded);
    drop(second);
    let in_its_place = a.allocate(&host).unwrap();
    free_all(&mut a, [in_a, in_its_place]);
    free_all(&mut first, [in_first]);
    drop((a, first));
    driver.assert_left_empty();
}

#[test]
fn a_heap_has_one_limit() {
    let driver = driver();
    let mut a = made(driver.whole_device());
    let mut pool = a.create_pool(&sizes()).unwrap();
    let small = request(100, 4, 1, MemoryLocation::GpuOnly);
    let large = request(5 * MB, 4, 1, MemoryLocation::GpuOnly);
    pool.set_heap_limit(0, Some(9 * MB)).unwrap();
    assert!(pool.set_heap_limit(3, Some(1)).is_err());
    assert_eq!([0, 1, 3].map(|heap| a.heap_limit(heap)), [Some(9 * MB), None, None]);
    let [in_a, in_pool] = [a.allocate(&large).unwrap(), pool.allocate(&small).unwrap()];
    assert_eq!(refused(&mut a, &small), AllocationError::BudgetExceeded); // 5 MB and 4 MB are held
    driver.state().told = (20 * MB, 26 * MB);
    let held = |it: &Allocator, heap| it.read_heap(heap).map(|Heap { held, .. }| held);
    assert_eq!((held(&a, 0), held(&pool, 0), held(&pool, 1)), (Some(9 * MB), Some(9 * MB), Some(0)));
    free_all(&mut a, [in_a]);
    pool.update_budgets().unwrap();
    assert_eq!(a.heap_limit(0), Some(10 * MB)); // 4 MB are held, and 6 MB left
    let in_a = a.allocate(&large).unwrap();
    assert_eq!(refused(&mut pool, &large), AllocationError::BudgetExceeded);
    a.set_heap_limit(0, None).unwrap();
    let third = pool.allocate(&large).unwrap();
    pool.set_budget(0, Some(4 * MB)).unwrap(); // which is its own
    assert_eq!((a.budget(0), refused(&mut pool, &large)), (None, AllocationError::BudgetExceeded));
    free_all(&mut a, [in_a]);
    free_all(&mut pool, [in_pool, third]);
    drop((pool, a));
    driver.assert_left_empty();
}

/// As bounds of memory types a capture has what the others leave.
#[test]
fn captures_of_both() {
    let driver = driver();
    let mut a = captured(driver.device());
    let mut pool = a.create_pool(&PoolCreateDesc { capture: true, memory_type_bits: Some(5), ..sizes() }).unwrap();
    let device = request(100, 4, 15, MemoryLocation::GpuOnly);
    a.set_heap_limit(0, Some(20 * MB)).unwrap();
    let [first, second, third] =
        [pool.allocate(&device).unwrap(), a.allocate(&device).unwrap(), pool.allocate(&device).unwrap()];
    free_all(&mut pool, [first, third]);
    free_all(&mut a, [second]);
    assert_eq!(
        calls_of(pool.destroy()),
        "budget 0 20971520\nalloc 1 100 4 5 GpuOnly linear managed piece\nbudget 0 16777216\n\
        alloc 2 100 4 5 GpuOnly linear managed piece\nfree 1\nfree 2\ndestroy\n"
    );
    assert_eq!(
        calls_of(a.destroy()),
        "budget 0 16777216\nalloc 1 100 64 15 GpuOnly linear managed piece\nfree 1\nbudget 0 20971520\ndestroy\n"
    );
    driver.assert_left_empty();
}

/// Of each memory type that the pool hasn't, none is shared.
#[test]
fn transient_resources_join_by_the_memory_types_of_a_pool() {
    let driver = driver();
    let a = made(driver.device());
    let mut pool = a.create_pool(&PoolCreateDesc { memory_type_bits: Some(6), ..sizes() }).unwrap();
    let resource = |bits, pass| TransientResource {
        requirements: request(MB, 64, bits, MemoryLocation::Unknown).requirements,
        linear: true,
        first_pass: pass,
        last_pass: pass,
    };
    let resources = [resource(3, 0), resource(5, 1), resource(2, 1)]; // the first two have memory type 0 alone in common
    let desc = TransientCreateDesc::new("frame", &resources, MemoryLocation::Unknown);
    let transient = pool.allocate_transient(&desc).unwrap();
    assert_eq!(transient.places().iter().map(|place| place.set).collect::<Vec<_>>(), [0, 1, 0]);
    let types = transient.sets().iter().map(|set| set.allocation().memory_type_index());
    assert_eq!(types.collect::<Vec<_>>(), [1, 2]);
    pool.free_transient(transient).unwrap();
    drop((a, pool));
    driver.assert_left_empty();
}

#[test]
fn each_question_is_refused_in_turn() {
    for question in 1..=6 {
        let driver = driver();
        let mut both = [made(driver.device()), captured(driver.device())];
        both[1] = both[0].create_pool(&sizes()).unwrap();
        driver.refuse(question, Refusal::Code(-2));
        let mut live = [Vec::new(), Vec::new()];
        for (index, bits) in [(0, 1), (1, 2), (0, 8), (1, 1)] {
            let it = both[index].allocate(&request(100, 4, bits, MemoryLocation::Unknown));
            live[index].extend(it);
            let held: Vec<u64> = (0..3).map(|heap| both[index].read_heap(heap).unwrap().held).collect();
            assert_eq!(held.iter().sum::<u64>(), driver.state().bytes());
        }
        assert_eq!(live.iter().map(Vec::len).sum::<usize>(), 3);
        for (a, live) in both.iter_mut().zip(live) {
            live.into_iter().for_each(|it| a.free(it).unwrap());
        }
        drop(both);
        driver.assert_left_empty();
    }
}

/// An allocator and its pools on threads of their own, within 12 blocks: no more are held at any time.
#[test]
fn threads_keep_the_bounds() {
    let driver = FakeDriver::new(&TYPES, &common::requests::HEAPS, 1024).with_most_memories(12);
    let first = made(driver.device());
    let mut all = vec![first];
    for _ in 0..3 {
        let pool = all[0].create_pool(&sizes()).unwrap();
        all.push(pool);
    }
    let refused: u64 = thread::scope(|scope| {
        let threads: Vec<_> =
            (0..).zip(&mut all).map(|(seed, a)| scope.spawn(move || allocates_at_random(a, seed))).collect();
        threads.into_iter().map(|it| it.join().expect("the thread ends")).sum()
    });
    assert!(refused > 0);
    assert_eq!(driver.state().most_held, 12);
    drop(all);
    driver.assert_left_empty();
}

/// Allocates and frees blocks of its own; how many were refused.
fn allocates_at_random(a: &mut Allocator, seed: u64) -> u64 {
    let (mut random, mut live, mut refused) = (Random(seed), Vec::new(), 0);
    for _ in 0..2_000 {
        if live.len() < 5 && !random.one_in(3) {
            match a.allocate(&request(5 * MB, 4, random.of(&[1, 2, 8]), MemoryLocation::Unknown)) {
                Ok(it) => live.push(it),
                Err(error) => {
                    assert_eq!(error, AllocationError::BudgetExceeded);
                    refused += 1;
                    thread::yield_now();
                }
            }
        } else if let Some(it) = live.pop() {
            a.free(it).unwrap();
        }
    }
    live.into_iter().for_each(|it| a.free(it).unwrap());
    refused
}

/// A pool may be shared as any allocator.
#[test]
fn a_shared_pool() {
    let driver = driver();
    let shared = SharedAllocator::new(made(driver.device()));
    let pool = SharedAllocator::new(shared.lock().create_pool(&sizes()).unwrap());
    let it = pool.allocate(&request(100, 4, 1, MemoryLocation::GpuOnly)).unwrap();
    assert!(!shared.lock().is_live(&it));
    pool.free(it).unwrap();
    drop((shared, pool));
    driver.assert_left_empty();
}
