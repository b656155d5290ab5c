//! What requests ask for beside what is needed, buffers and images with memory, budgets by the driver and words of the owner's, over a driver
//! of the test's.
#![allow(missing_docs)]

mod common;

use common::requests::{
    asked_for, calls_of, captured, chain, driver, exported, fault, made, memory, priority, request, HEAPS, TYPES,
};
use common::resources::{Alone, Needs};
use common::{Asked, FakeDriver, Question, Refusal, MB};
use pilhangko::vulkan::{
    Allocation, AllocationBlock, AllocationCreateDesc, AllocationOptions, AllocationScheme, Allocator, Buffer,
    BufferCreateInfo, Heap, HeapBudget, Image, ImageCreateInfo, MemoryAllocateFlagsInfo, MemoryPropertyFlags,
    Placement,
};
use pilhangko::{AllocationError, Fault, MemoryLocation, Result};
use std::ptr::null;

/// Behind one byte a piece begins at its alignment.
#[test]
fn the_greater_alignment_counts() {
    let driver = driver();
    let mut a = made(driver.device());
    let rows = [
        (1, 4, None, Some(4)),
        (1, 4, Some(1), Some(4)),
        (1, 4, Some(256), Some(256)),
        (1, 256, Some(4), Some(256)),
        (8, 4, Some(16), Some(64)), // memory that needs flushes
        (8, 4, Some(128), Some(128)),
        (1, 4, Some(3), None),
        (1, 4, Some(0), None),
        (1, 3, Some(4), None),
        (1, 4, Some(u64::MAX), None),
    ];
    for (bits, needed, minimal_alignment, offset) in rows {
        let first = a.allocate(&request(1, 1, bits, MemoryLocation::Unknown)).unwrap();
        let options = AllocationOptions { minimal_alignment, ..AllocationOptions::default() };
        let it = a.allocate_with(&request(100, needed, bits, MemoryLocation::Unknown), &options);
        let invalid = AllocationError::InvalidAllocationCreateDesc;
        assert_eq!(it.as_ref().map(Allocation::offset), offset.ok_or(&invalid), "{needed} {minimal_alignment:?}");
        [it.ok(), Some(first)].into_iter().flatten().for_each(|it| a.free(it).unwrap());
    }
    drop(a);
    driver.assert_left_empty();
}

#[test]
fn fewer_memory_types_serve() {
    let driver = driver();
    let mut a = made(driver.device());
    let rows = [
        (MemoryLocation::GpuOnly, 15, None, Some(0)),
        (MemoryLocation::GpuOnly, 15, Some(u32::MAX), Some(0)),
        (MemoryLocation::GpuOnly, 15, Some(4), Some(2)),
        (MemoryLocation::GpuOnly, 15, Some(2), None),
        (MemoryLocation::CpuToGpu, 15, Some(2), Some(1)),
        (MemoryLocation::Unknown, 15, Some(8), Some(3)),
        (MemoryLocation::Unknown, 1, Some(2), None),
        (MemoryLocation::Unknown, 15, Some(0), None),
    ];
    for (location, needed, memory_type_bits, index) in rows {
        let options = AllocationOptions { memory_type_bits, ..AllocationOptions::default() };
        let it = a.allocate_with(&request(100, 4, needed, location), &options);
        let none = AllocationError::NoCompatibleMemoryTypeFound;
        assert_eq!(it.as_ref().map(Allocation::memory_type_index), index.ok_or(&none));
        it.into_iter().for_each(|it| a.free(it).unwrap());
    }
    drop(a);
    driver.assert_left_empty();
}

/// A request with a chain has memory of its own, and each attempt has the chain.
#[test]
fn chains_go_to_the_driver() {
    let driver = driver();
    let mut a = made(driver.device());
    let exported = exported();
    let priority = priority(&exported);
    let options = AllocationOptions { next: Some(chain(&priority)), ..AllocationOptions::default() };
    let plain = a.allocate(&request(100, 4, 15, MemoryLocation::GpuOnly)).unwrap();
    let whole = Asked { size: 4 * MB, device_address: true, ..Asked::default() };
    assert_eq!(asked_for(&driver, &plain), whole);
    let own = a.allocate_with(&request(100, 4, 15, MemoryLocation::GpuOnly), &options).unwrap();
    let alone = Asked { size: 100, priority: 75, handle_types: 1, ..whole };
    assert_eq!((asked_for(&driver, &own), own.is_dedicated(), own.offset()), (alone, true, 0));
    assert_eq!(a.read_block(&own), Ok(AllocationBlock { size: 100, is_shared: false }));
    assert_eq!(a.read_block(&plain), Ok(AllocationBlock { size: 4 * MB, is_shared: true }));
    let named = AllocationCreateDesc {
        allocation_scheme: AllocationScheme::DedicatedBuffer(Buffer(77)),
        ..request(100, 4, 1, MemoryLocation::GpuOnly)
    };
    let named = a.allocate_with(&named, &options).unwrap();
    assert_eq!(asked_for(&driver, &named), Asked { buffer: Buffer(77), ..alone });
    let next = driver.state().questions + 1;
    driver.refuse(next, Refusal::Code(-2));
    let upload = a.allocate_with(&request(100, 4, 15, MemoryLocation::CpuToGpu), &options).unwrap();
    assert_eq!(asked_for(&driver, &upload), Asked { memory_type: 1, ..alone });
    assert!(upload.mapped_slice().is_some());
    [plain, own, named, upload].into_iter().for_each(|it| a.free(it).unwrap());
    drop(a);
    driver.assert_left_empty();
}

/// Of a struct that is in the chain the crate chains none: the driver looks for that.
#[test]
fn what_the_chain_has_is_left_out() {
    let driver = driver();
    let mut a = made(driver.device());
    let exported = exported();
    let flags = MemoryAllocateFlagsInfo {
        s_type: MemoryAllocateFlagsInfo::STRUCTURE_TYPE,
        next: (&raw const exported).cast(),
        flags: MemoryAllocateFlagsInfo::DEVICE_ADDRESS | 4, // and the address may be captured
        device_mask: 0,
    };
    let options = AllocationOptions { next: Some(chain(&flags)), ..AllocationOptions::default() };
    let own = a.allocate_with(&request(100, 4, 1, MemoryLocation::GpuOnly), &options).unwrap();
    let alone = Asked { size: 100, device_address: true, handle_types: 1, ..Asked::default() };
    assert_eq!(asked_for(&driver, &own), alone);
    a.free(own).unwrap();
    drop(a);
    driver.assert_left_empty();
}

// ---- flags

fn of(required: u32, preferred: u32, avoided: u32) -> AllocationOptions<'static> {
    AllocationOptions {
        required_flags: MemoryPropertyFlags(required),
        preferred_flags: MemoryPropertyFlags(preferred),
        avoided_flags: MemoryPropertyFlags(avoided),
        ..AllocationOptions::default()
    }
}

#[test]
fn flags_choose_the_cheapest_memory() {
    let driver = driver();
    let mut a = made(driver.device());
    let anywhere = request(100, 4, 15, MemoryLocation::Unknown);
    for (options, index) in [
        (AllocationOptions::staging(), Some(1)),
        (AllocationOptions::transient(), Some(0)),
        (of(6, 1, 0), Some(2)),
        (of(2, 8, 4), Some(3)),
        (of(0, 0, 1), Some(1)),
        (of(0, 16, 0), Some(0)),
        (of(2, 0, u32::MAX), Some(1)),
        (of(16, 0, 0), None),
        (of(9, 0, 0), None),
    ] {
        let it = a.allocate_with(&anywhere, &options);
        let none = AllocationError::NoCompatibleMemoryTypeFound;
        assert_eq!(it.as_ref().map(Allocation::memory_type_index), index.ok_or(&none), "{options:?}");
        it.into_iter().for_each(|it| a.free(it).unwrap());
    }
    for location in [MemoryLocation::GpuOnly, MemoryLocation::CpuToGpu, MemoryLocation::GpuToCpu] {
        let questions = driver.state().questions;
        let never = AllocationOptions { never_allocate: true, ..AllocationOptions::default() };
        for options in [of(1, 0, 0), of(0, 1, 0), of(0, 0, 1), never] {
            let refused = a.allocate_with(&request(100, 4, 15, location), &options).map(|_| ());
            assert_eq!(refused, Err(AllocationError::InvalidAllocationCreateDesc));
        }
        assert_eq!(driver.state().questions, questions);
    }
    drop(a);
    driver.assert_left_empty();
}

/// The next memory type is tried where one has no room; no other refusal leads on. What is refused has no part in a capture.
#[test]
fn full_memory_leads_to_the_next() {
    let driver = driver();
    let mut a = captured(driver.device());
    let anywhere = request(100, 4, 15, MemoryLocation::Unknown);
    driver.refuse(1, Refusal::Code(-2));
    let first = a.allocate_with(&anywhere, &AllocationOptions::staging()).unwrap();
    assert_eq!(first.memory_type_index(), 2);
    a.set_budget(1, Some(0)).unwrap();
    let second = a.allocate_with(&anywhere, &AllocationOptions::staging()).unwrap();
    assert_eq!((second.memory_type_index(), memory(&second)), (2, memory(&first)));
    a.set_budget(1, None).unwrap();
    let questions = driver.state().questions;
    driver.refuse(questions + 1, Refusal::Code(-4));
    let refused = a.allocate_with(&anywhere, &AllocationOptions::staging()).map(|_| ());
    assert_eq!(refused, Err(fault("Unexpected error in vkAllocateMemory", Some(-4))));
    driver.refuse(questions + 3, Refusal::Null);
    let refused = a.allocate_with(&anywhere, &AllocationOptions::staging()).map(|_| ());
    let text = "Returned mapped pointer is null";
    assert_eq!(refused, Err(AllocationError::FailedToMap(Fault { text, code: None })));
    driver.refuse(questions + 4, Refusal::Null);
    driver.refuse(questions + 5, Refusal::Code(-2));
    let large = request(5 * MB, 4, 15, MemoryLocation::Unknown);
    let refused = a.allocate_with(&large, &AllocationOptions::staging()).map(|_| ());
    assert_eq!((refused, driver.state().questions), (Err(AllocationError::OutOfMemory), questions + 5));
    [first, second].into_iter().for_each(|it| a.free(it).unwrap());
    let trace = a.destroy().unwrap().to_string();
    let calls = trace.split_once("new\n").unwrap();
    assert!(!calls.0.contains("refuse"), "{trace}");
    let expected =
        "alloc 1 100 64 4 Unknown linear managed piece\nbudget 1 0\nalloc 2 100 64 4 Unknown linear managed piece\n\
        free 1\nfree 2\nbudget 1 none\ndestroy\n";
    assert_eq!(calls.1, expected);
    driver.assert_left_empty();
}

/// Memory, its mapping, and where the first had no room the same of the next memory type.
#[test]
fn each_question_by_flags_is_refused_in_turn() {
    for (question, refusal, expected) in [
        (1, Refusal::Null, Ok(2)),
        (1, Refusal::Code(-2), Ok(2)),
        (1, Refusal::Code(-1), Err(fault("Unexpected error in vkAllocateMemory", Some(-1)))),
        (2, Refusal::Code(-5), Err(AllocationError::FailedToMap(Fault { text: "vkMapMemory failed", code: Some(-5) }))),
        (3, Refusal::Null, Ok(1)), // which isn't asked
    ] {
        let driver = driver();
        let mut a = made(driver.device());
        let anywhere = request(100, 4, 15, MemoryLocation::Unknown);
        driver.refuse(question, refusal);
        let it = a.allocate_with(&anywhere, &AllocationOptions::staging());
        assert_eq!(it.as_ref().map(Allocation::memory_type_index).map_err(|error| *error), expected);
        assert_eq!(a.capacity(), driver.state().bytes());
        driver.state().refusals.clear();
        let again = a.allocate_with(&anywhere, &AllocationOptions::staging()).unwrap();
        assert_eq!(again.memory_type_index(), 1); // it has room again
        it.into_iter().chain([again]).for_each(|it| a.free(it).unwrap());
        drop(a);
        driver.assert_left_empty();
    }
}

#[test]
fn what_is_there_serves_where_nothing_is_allocated() {
    let driver = driver();
    let mut a = made(driver.device());
    let never = AllocationOptions { never_allocate: true, ..AllocationOptions::default() };
    let anywhere = request(100, 4, 15, MemoryLocation::Unknown);
    assert_eq!(a.allocate_with(&anywhere, &never).map(|_| ()), Err(AllocationError::OutOfMemory));
    let first = a.allocate_with(&anywhere, &AllocationOptions::staging()).unwrap();
    let questions = driver.state().questions;
    let second = a.allocate_with(&anywhere, &never).unwrap();
    assert_eq!(memory(&second), memory(&first));
    let exported = exported();
    let own = AllocationOptions { next: Some(chain(&exported)), ..never };
    assert_eq!(a.allocate_with(&anywhere, &own).map(|_| ()), Err(AllocationError::OutOfMemory));
    assert_eq!(driver.state().questions, questions);
    [first, second].into_iter().for_each(|it| a.free(it).unwrap());
    drop(a);
    driver.assert_left_empty();
}

/// Lazily allocated memory for what the driver allows it for; memory for which a feature is enabled where flags speak of it.
#[test]
fn memory_of_other_sorts() {
    let driver = FakeDriver::new(&[(1, 0), (6 | 64, 1), (7, 2), (17, 0)], &HEAPS, 1024);
    driver.state().needs = Needs { alignment: 16, memory_type_bits: 15, alone: Alone::No };
    let mut a = made(driver.whole_device());
    let (attachment, at) = image(&mut a, &image_info(90, 0, 0), &Placement::transient("attachment")).unwrap();
    assert_eq!((at.memory_type_index(), at.is_dedicated(), asked_for(&driver, &at).image), (3, true, attachment));
    driver.state().needs.memory_type_bits = 7;
    let (other, at_other) = image(&mut a, &image_info(90, 0, 0), &Placement::transient("attachment")).unwrap();
    assert_eq!((at_other.memory_type_index(), at_other.is_dedicated()), (0, true));
    let (staging, at_staging) = buffer(&mut a, 90, &Placement::staging("staging")).unwrap();
    assert_eq!((at_staging.memory_type_index(), at_staging.is_dedicated()), (2, false));
    let anywhere = request(100, 4, 15, MemoryLocation::Unknown);
    for (options, index) in [(of(6, 0, 1), 2), (of(64, 0, 0), 1), (of(6, 64, 1), 1)] {
        let it = a.allocate_with(&anywhere, &options).unwrap();
        assert_eq!(it.memory_type_index(), index);
        a.free(it).unwrap();
    }
    for (it, at) in [(attachment, at), (other, at_other)] {
        // SAFETY: the image is bound there.
        unsafe { a.destroy_image(it, at) }.unwrap();
    }
    destroy(&mut a, staging, at_staging);
    drop(a);
    driver.assert_left_empty();
}

// ---- buffers and images

fn buffer(a: &mut Allocator, size: u64, placement: &Placement<'_>) -> Result<(Buffer, Allocation)> {
    // SAFETY: the driver makes a buffer of any description.
    unsafe { a.create_buffer(&BufferCreateInfo::new(size, 16), placement) }
}

fn image_info(width: u32, tiling: i32, flags: u32) -> ImageCreateInfo {
    ImageCreateInfo {
        s_type: ImageCreateInfo::STRUCTURE_TYPE,
        next: null(),
        flags,
        image_type: 1,
        format: 37,
        extent: [width, 1, 1],
        mip_levels: 1,
        array_layers: 1,
        samples: 1,
        tiling,
        usage: 1,
        sharing_mode: 0,
        queue_family_index_count: 0,
        queue_family_indices: null(),
        initial_layout: 0,
    }
}

fn image(a: &mut Allocator, info: &ImageCreateInfo, placement: &Placement<'_>) -> Result<(Image, Allocation)> {
    // SAFETY: the driver makes an image of any description.
    unsafe { a.create_image(info, placement) }
}

fn destroy(a: &mut Allocator, buffer: Buffer, allocation: Allocation) {
    // SAFETY: the buffer is bound there.
    unsafe { a.destroy_buffer(buffer, allocation) }.unwrap();
}

#[test]
fn buffers_and_images_are_bound_where_they_lie() {
    let driver = driver();
    let mut a = made(driver.whole_device());
    let gpu = Placement::new("resource", MemoryLocation::GpuOnly);
    let (first, at_first) = buffer(&mut a, 90, &gpu).unwrap();
    let (linear, at_linear) = image(&mut a, &image_info(90, ImageCreateInfo::LINEAR, 0), &gpu).unwrap();
    let (pages, at_pages) = image(&mut a, &image_info(90, 0, 0), &gpu).unwrap();
    assert_eq!([&at_first, &at_linear, &at_pages].map(Allocation::offset), [0, 128, 1024]); // a page of its own
    let bound = |handle: u64| driver.state().resources[&handle].bound;
    let block = memory(&at_first);
    assert_eq!([first.0, linear.0, pages.0].map(bound), [0, 128, 1024].map(|offset| Some((block, offset))));
    assert_eq!((at_first.size(), at_first.name(), at_first.is_dedicated()), (96, Some("resource"), false));
    let options = AllocationOptions { minimal_alignment: Some(4096), ..AllocationOptions::default() };
    let (aligned, at_aligned) = buffer(&mut a, 10, &Placement { options, ..gpu }).unwrap();
    assert_eq!(at_aligned.offset(), 4096);
    let (own, at_own) = buffer(&mut a, 90, &Placement { dedicated: true, ..gpu }).unwrap();
    assert_eq!(asked_for(&driver, &at_own).buffer, own);
    let other = made(driver.whole_device()).allocate(&request(1, 1, 1, MemoryLocation::GpuOnly)).unwrap();
    // SAFETY: the allocation isn't this allocator's, and nothing is done.
    let (error, _) = unsafe { a.destroy_buffer(first, other) }.unwrap_err();
    assert_eq!(error, fault("Allocation does not belong to this allocator.", None));
    assert_eq!(driver.state().resources.len(), 5);
    [(first, at_first), (aligned, at_aligned), (own, at_own)].into_iter().for_each(|(it, at)| destroy(&mut a, it, at));
    for (it, at) in [(linear, at_linear), (pages, at_pages)] {
        // SAFETY: the image is bound there.
        unsafe { a.destroy_image(it, at) }.unwrap();
    }
    drop(a);
    driver.assert_left_empty();
}

/// Memory of its own where the driver requires it, and where it prefers it and there is such memory.
#[test]
fn the_driver_says_who_lies_alone() {
    for (alone, is_old, refused, dedicated) in [
        (Alone::No, false, false, Ok(false)),
        (Alone::Prefers, false, false, Ok(true)),
        (Alone::Prefers, false, true, Ok(false)),
        (Alone::Prefers, true, false, Ok(false)),
        (Alone::Requires, false, false, Ok(true)),
        (Alone::Requires, false, true, Err(AllocationError::OutOfMemory)),
    ] {
        let driver = driver();
        let mut a = made(if is_old { driver.old_device() } else { driver.whole_device() });
        driver.state().needs.alone = alone;
        if refused {
            driver.refuse(2, Refusal::Null);
        }
        let it = buffer(&mut a, 90, &Placement::new("resource", MemoryLocation::GpuOnly));
        assert_eq!(it.as_ref().map(|(_, at)| at.is_dedicated()).map_err(|error| *error), dedicated);
        it.into_iter().for_each(|(it, at)| destroy(&mut a, it, at));
        drop(a);
        driver.assert_left_empty();
    }
    let driver = driver();
    let mut a = made(driver.whole_device());
    let exported = exported();
    let options = AllocationOptions { next: Some(chain(&exported)), ..AllocationOptions::default() };
    let chained = Placement { options, ..Placement::new("shared with others", MemoryLocation::GpuOnly) };
    driver.state().needs.alone = Alone::Prefers;
    driver.refuse(2, Refusal::Null);
    assert_eq!(buffer(&mut a, 90, &chained).map(|_| ()), Err(AllocationError::OutOfMemory)); // nothing is shared in its place
    let (it, at) = buffer(&mut a, 90, &chained).unwrap();
    assert_eq!((asked_for(&driver, &at).buffer, asked_for(&driver, &at).handle_types), (it, 1));
    destroy(&mut a, it, at);
    drop(a);
    driver.assert_left_empty();
}

/// What can't be made leaves nothing.
#[test]
fn resources_are_refused_by_their_cause() {
    let driver = driver();
    let mut a = made(driver.whole_device());
    let gpu = Placement::new("resource", MemoryLocation::GpuOnly);
    let sparse = BufferCreateInfo { flags: 1, ..BufferCreateInfo::new(90, 16) };
    // SAFETY: the driver isn't asked.
    let refused = unsafe { a.create_buffer(&sparse, &gpu) };
    assert_eq!(refused.map(|_| ()), Err(AllocationError::InvalidAllocationCreateDesc));
    for flags in [1, 0x200] {
        let refused = image(&mut a, &image_info(90, 0, flags), &gpu).map(|_| ());
        assert_eq!(refused, Err(AllocationError::InvalidAllocationCreateDesc));
    }
    assert_eq!(driver.state().questions, 0);
    let odd = AllocationOptions { minimal_alignment: Some(48), ..AllocationOptions::default() };
    let refused = buffer(&mut a, 90, &Placement { options: odd, ..gpu }).map(|_| ());
    assert_eq!(refused, Err(AllocationError::InvalidAllocationCreateDesc));
    drop(a);
    driver.assert_left_empty();
    let mut a = made(driver.device());
    let refused = buffer(&mut a, 90, &gpu).map(|_| ());
    assert_eq!(refused, Err(fault("The device has no functions for buffers and images.", None)));
}

/// One question after the other: the buffer, its memory, the mapping, the binding.
#[test]
fn each_question_for_a_resource_is_refused_in_turn() {
    for (question, refusal, expected) in [
        (1, Refusal::Code(-1), fault("vkCreateBuffer failed", Some(-1))),
        (1, Refusal::Null, fault("vkCreateBuffer failed", None)),
        (2, Refusal::Code(-4), fault("Unexpected error in vkAllocateMemory", Some(-4))),
        (2, Refusal::Null, AllocationError::OutOfMemory),
        (3, Refusal::Code(-5), AllocationError::FailedToMap(Fault { text: "vkMapMemory failed", code: Some(-5) })),
        (4, Refusal::Code(-2), fault("vkBindBufferMemory failed", Some(-2))),
    ] {
        let driver = driver();
        let mut a = made(driver.whole_device());
        let readback = Placement::new("readback", MemoryLocation::GpuToCpu);
        driver.refuse(question, refusal);
        assert_eq!(buffer(&mut a, 90, &readback).map(|_| ()), Err(expected));
        assert_eq!((driver.state().resources.len(), a.statistics().pieces), (0, 0));
        let (it, at) = buffer(&mut a, 90, &readback).unwrap();
        destroy(&mut a, it, at);
        assert_eq!(driver.state().refused.len(), 1);
        drop(a);
        driver.assert_left_empty();
    }
    let driver = driver();
    let mut a = made(driver.whole_device());
    driver.refuse(3, Refusal::Code(-2));
    let refused = image(&mut a, &image_info(90, 0, 0), &Placement::new("target", MemoryLocation::GpuOnly)).map(|_| ());
    assert_eq!(refused, Err(fault("vkBindImageMemory failed", Some(-2))));
    assert_eq!(driver.state().refused, [(Question::Bind, Refusal::Code(-2))]);
    drop(a);
    driver.assert_left_empty();
}

// ---- budgets, and words of the owner's

#[test]
fn budgets_follow_the_driver() {
    let driver = driver();
    let mut a = made(driver.whole_device());
    let first = a.allocate(&request(100, 4, 1, MemoryLocation::Unknown)).unwrap();
    driver.state().told = (10 * MB, 30 * MB);
    let told = HeapBudget { usage: 10 * MB, budget: 30 * MB };
    assert_eq!(a.read_heap(0), Some(Heap { size: 1024 * MB, flags: 0, held: 4 * MB, budget: Some(told) }));
    let told = HeapBudget { usage: 10 * MB + 2, budget: 30 * MB + 2 };
    assert_eq!(a.read_heap(2), Some(Heap { size: 24 * MB, flags: 0, held: 0, budget: Some(told) }));
    assert_eq!(a.read_heap(3), None);
    a.update_budgets().unwrap();
    assert_eq!([0, 1, 2].map(|heap| a.heap_limit(heap)), [24, 20, 20].map(|bytes| Some(bytes * MB)));
    assert_eq!((a.budget(0), a.heap_limit(3)), (None, None));
    driver.state().told = (30 * MB, 10 * MB); // nothing is left
    a.update_budgets().unwrap();
    assert_eq!([0, 1].map(|heap| a.heap_limit(heap)), [Some(4 * MB), Some(0)]);
    let refused = a.allocate(&request(100, 4, 2, MemoryLocation::Unknown)).map(|_| ());
    assert_eq!(refused, Err(AllocationError::BudgetExceeded));
    driver.state().told = (0, u64::MAX - 16);
    a.update_budgets().unwrap();
    assert_eq!(a.heap_limit(0), Some(u64::MAX));
    assert_eq!((a.type_capacity(0), a.type_capacity(1), a.type_capacity(4)), (Some(4 * MB), Some(0), None));
    a.free(first).unwrap();
    drop(a);
    let mut a = made(driver.device());
    assert_eq!(a.update_budgets(), Err(fault("The device tells of no budgets.", None)));
    assert_eq!(a.read_heap(1), Some(Heap { size: 512 * MB, flags: 0, held: 0, budget: None }));
    drop(a);
    driver.assert_left_empty();
}

/// Memory types 1 and 3 lie in one heap, and together keep its limit; a capture has what the others leave.
#[test]
fn memory_types_of_a_heap_share_its_limit() {
    let driver = driver();
    let mut a = captured(driver.device());
    assert_eq!(a.set_heap_limit(3, Some(1)), Err(fault("No such memory heap.", None)));
    a.set_heap_limit(1, Some(8 * MB)).unwrap();
    let [first, second] = [2, 8].map(|bits| a.allocate(&request(MB, 64, bits, MemoryLocation::Unknown)).unwrap());
    let large = request(4 * MB, 64, 2, MemoryLocation::Unknown);
    assert_eq!(a.allocate(&large).map(|_| ()), Err(AllocationError::BudgetExceeded));
    a.set_budget(1, Some(5 * MB)).unwrap(); // which is more than the limit leaves
    a.free(second).unwrap(); // its block stays, the only shared one
    a.set_heap_limit(1, None).unwrap();
    assert_eq!(a.allocate(&large).map(|_| ()), Err(AllocationError::BudgetExceeded)); // by the budget
    a.free(first).unwrap();
    let calls = calls_of(a.destroy());
    let expected = "budget 1 8388608\nbudget 3 8388608\nalloc 1 1048576 64 2 Unknown linear managed piece\n\
        budget 3 4194304\nalloc 2 1048576 64 8 Unknown linear managed piece\n\
        budget 1 4194304\nalloc 3 4194304 64 2 Unknown linear managed piece\nfree 2\n\
        budget 1 5242880\nbudget 3 none\nalloc 4 4194304 64 2 Unknown linear managed piece\nfree 1\ndestroy\n";
    assert_eq!(calls, expected);
    driver.assert_left_empty();
}

/// Of all memory types together there are no more blocks than the driver grants; a capture has what is held where none may come.
#[test]
fn blocks_are_no_more_than_the_driver_grants() {
    let driver = FakeDriver::new(&TYPES, &HEAPS, 1024).with_most_memories(2);
    let mut a = captured(driver.device());
    let wanted = request(100, 4, 1, MemoryLocation::Unknown);
    let own =
        AllocationCreateDesc { allocation_scheme: AllocationScheme::DedicatedBuffer(Buffer(7)), ..wanted.clone() };
    let [first, alone, second] = [&wanted, &own, &wanted].map(|it| a.allocate(it).unwrap());
    assert_eq!((memory(&second), driver.state().held.len()), (memory(&first), 2));
    let host = request(100, 4, 2, MemoryLocation::Unknown);
    for refused in [&own, &host] {
        assert_eq!(a.allocate(refused).map(|_| ()), Err(AllocationError::BudgetExceeded));
    }
    a.free(alone).unwrap();
    let third = a.allocate(&host).unwrap();
    assert_eq!(driver.state().questions, 4);
    [first, second, third].into_iter().for_each(|it| a.free(it).unwrap());
    let calls = calls_of(a.destroy());
    let expected = "alloc 1 100 4 1 Unknown linear managed piece\nalloc 2 100 4 1 Unknown linear buffer:7 piece\n\
        budget 0 4194404\nbudget 1 0\nbudget 2 0\nbudget 3 0\nalloc 3 100 4 1 Unknown linear managed piece\n\
        alloc 4 100 4 1 Unknown linear buffer:7 piece\nalloc 5 100 4 2 Unknown linear managed piece\nfree 2\n\
        budget 0 none\nbudget 1 none\nbudget 2 none\nbudget 3 none\nalloc 6 100 4 2 Unknown linear managed piece\n\
        free 1\nfree 3\nfree 6\nbudget 0 4194304\nbudget 1 4194304\nbudget 2 0\nbudget 3 0\ndestroy\n";
    assert_eq!(calls, expected);
    driver.assert_left_empty();
}

#[test]
fn an_allocation_keeps_a_word() {
    let driver = driver();
    let mut a = made(driver.device());
    let wanted = request(2 * MB, 4, 2, MemoryLocation::Unknown);
    let handed_in = |user_data| AllocationOptions { user_data, ..AllocationOptions::default() };
    let mut live: Vec<Allocation> = (0..4).map(|word| a.allocate_with(&wanted, &handed_in(word)).unwrap()).collect();
    let shown = |a: &Allocator, it: &Allocation| {
        let pieces = a.named_pieces(it.memory_type_index(), it.memory_block_index()).unwrap();
        pieces.iter().find(|piece| piece.view.offset == it.offset()).unwrap().view.word
    };
    for (word, it) in (0..).zip(&live) {
        assert_eq!((it.user_data(), shown(&a, it)), (word, word));
    }
    a.set_user_data(&mut live[0], u64::MAX).unwrap();
    a.rename_allocation(&mut live[0], "renamed").unwrap();
    a.free(live.remove(2)).unwrap();
    let to = a.propose_move(&live[0], &wanted).unwrap().unwrap();
    assert_eq!((live[0].user_data(), to.user_data(), live[1].user_data()), (u64::MAX, u64::MAX, 1));
    assert_eq!((shown(&a, &live[0]), shown(&a, &to), shown(&a, &live[1])), (u64::MAX, u64::MAX, 1));
    assert!(made(driver.device()).set_user_data(&mut live[1], 9).is_err());
    assert_eq!((live[1].user_data(), shown(&a, &live[1])), (1, 1));
    live.push(to);
    live.into_iter().for_each(|it| a.free(it).unwrap());
    let mut null = Allocation::default();
    assert_eq!((null.user_data(), a.read_block(&null).is_err()), (0, true));
    a.set_user_data(&mut null, 5).unwrap();
    assert_eq!((null.user_data(), null.is_null()), (5, true));
    drop(a);
    driver.assert_left_empty();
}
