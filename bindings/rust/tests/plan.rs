//! Plans: rows that were worked out by hand, and random ones beside an account by the rules alone; and memory that is shared by them.
#![allow(missing_docs)]

mod common;

use common::{FakeDriver, Random, MB};
use pilhangko::plan::{Memory, MemoryNeeds, Order, Resource};
use pilhangko::vulkan::{
    AllocationOptions, Allocator, AllocatorCreateDesc, MemoryPropertyFlags, MemoryRequirements, TransientCreateDesc,
    TransientResource,
};
use pilhangko::{plan, AllocationError, Kind, MemoryLocation};
use std::cmp::Reverse;
use std::collections::BTreeMap;

fn resource(size: u64, kind: Kind, first_pass: u64, last_pass: u64) -> Resource {
    Resource { size, alignment: 4, kind, first_pass, last_pass }
}

#[test]
fn resources_that_never_meet_share_bytes() {
    let image = |first, last| resource(100, Kind::NonLinear, first, last);
    let planned = plan(&[image(0, 1), image(2, 3), image(1, 2)], 1).unwrap();
    assert_eq!(planned.offsets(), [0, 0, 100]);
    assert_eq!((planned.heap_size(), planned.peak(), planned.order()), (200, 200, Order::Size));
    assert_eq!(planned.reuses(0).unwrap(), []);
    assert_eq!(planned.reuses(1).unwrap(), [0]);
    assert_eq!(planned.reuses(3).unwrap_err(), AllocationError::InvalidAllocationCreateDesc);
    let buffer = plan(&[image(0, 0), resource(60, Kind::Linear, 0, 1)], 1024).unwrap();
    assert_eq!((buffer.offsets(), buffer.heap_size()), (&[0, 1024][..], 1084));
    let nothing = plan(&[], 1).unwrap();
    assert_eq!((nothing.offsets(), nothing.heap_size(), nothing.peak()), (&[][..], 0, 0));
}

#[test]
fn plans_are_refused_by_their_cause() {
    let one = resource(8, Kind::Linear, 1, 1);
    let refused = |it: Resource, page| plan(&[one, it], page).unwrap_err();
    for bad in [
        Resource { size: 0, ..one },
        Resource { alignment: 0, ..one },
        Resource { alignment: 12, ..one },
        Resource { last_pass: 0, ..one },
    ] {
        assert_eq!(refused(bad, 1), AllocationError::InvalidAllocationCreateDesc);
    }
    assert_eq!(refused(one, 0), AllocationError::InvalidAllocationCreateDesc);
    assert_eq!(refused(one, 3), AllocationError::InvalidAllocationCreateDesc);
    assert_eq!(refused(Resource { size: u64::MAX - 7, ..one }, 1), AllocationError::OutOfMemory);
}

#[test]
fn a_resource_joins_the_first_set_with_which_it_shares_a_type() {
    let needs = |memory_type_bits| MemoryNeeds { memory_type_bits, dedicated: false };
    let own = MemoryNeeds { memory_type_bits: 15, dedicated: true };
    let sets = plan::sets(&[needs(0b0111), needs(0b1001), needs(0b0110), own, needs(0b1000), needs(0b0001), needs(0)]);
    assert_eq!(sets.unwrap(), [0, 0, 1, 2, 3, 0, 4]); // set 0: types 0 to 2, then 0 alone
    assert_eq!(plan::sets(&[]).unwrap(), []);
}

#[test]
fn memory_of_both_kinds_takes_whole_pages() {
    let heap = |resources: &[Resource]| plan(resources, 1024).unwrap().memory().unwrap();
    let (buffer, image) = (resource(100, Kind::Linear, 0, 0), resource(200, Kind::NonLinear, 0, 0));
    assert_eq!(heap(&[buffer]), Memory { size: 100, alignment: 4, kind: Kind::Linear });
    assert_eq!(heap(&[image, image]), Memory { size: 400, alignment: 4, kind: Kind::NonLinear });
    assert_eq!(heap(&[image, buffer]), Memory { size: 2048, alignment: 1024, kind: Kind::NonLinear });
    assert_eq!(heap(&[]), Memory { size: 0, alignment: 1, kind: Kind::Linear });
    let whole = [Resource { size: u64::MAX, ..image }, Resource { first_pass: 1, last_pass: 1, ..buffer }];
    assert_eq!(plan(&whole, 1024).unwrap().memory().unwrap_err(), AllocationError::OutOfMemory);
}

// ---- the rules, read off

fn are_alive_together(a: &Resource, b: &Resource) -> bool {
    a.first_pass <= b.last_pass && b.first_pass <= a.last_pass
}

fn lie_apart(a: &Resource, o: u128, b: &Resource, p: u128, page: u128) -> bool {
    let (m, n) = (u128::from(a.size), u128::from(b.size));
    let bytes = o < p + n && p < o + m;
    let pages = o / page <= (p + n - 1) / page && p / page <= (o + m - 1) / page;
    !bytes && (a.kind == b.kind || !pages)
}

fn bytes_alive(all: &[Resource], pass: u64) -> u128 {
    all.iter().filter(|it| it.first_pass <= pass && pass <= it.last_pass).map(|it| u128::from(it.size)).sum()
}

/// The indices of resources in an order.
fn indices(all: &[Resource], order: Order) -> Vec<usize> {
    let passes = |it: &Resource| u128::from(it.last_pass - it.first_pass) + 1;
    let mut found: Vec<usize> = (0..all.len()).collect();
    found.sort_by_key(|&index| {
        let it = &all[index];
        let size = u128::from(it.size);
        Reverse(match order {
            Order::Size => [size, 0, 0],
            Order::Area => [size * passes(it), 0, 0],
            Order::Alignment => [it.alignment.into(), size, 0],
            Order::Magnitude => [it.size.ilog2().into(), passes(it), size],
            Order::Breadth => {
                let busiest = (it.first_pass..=it.last_pass).map(|pass| (bytes_alive(all, pass), Reverse(pass))).max();
                let (bytes, Reverse(pass)) = busiest.expect("a life has a pass");
                [bytes, u128::from(u64::MAX - pass), size]
            }
        })
    });
    found
}

/// The offsets of an order, and the heap's size.
fn planned_in(all: &[Resource], order: Order, page: u64) -> (Vec<u64>, u64) {
    let mut placed: BTreeMap<usize, u128> = BTreeMap::new();
    for index in indices(all, order) {
        let it = &all[index];
        let page = u128::from(page);
        let is_free = |o: u128| {
            placed.iter().all(|(&k, &p)| !are_alive_together(it, &all[k]) || lie_apart(it, o, &all[k], p, page))
        };
        let ends = placed.iter().map(|(&k, &p)| p + u128::from(all[k].size));
        let tries = ends.flat_map(|end| [end, end.next_multiple_of(page)]).chain([0]);
        let tries = tries.map(|o| o.next_multiple_of(it.alignment.into()));
        let least = tries.filter(|&o| is_free(o)).min().expect("behind the last one it is free");
        placed.insert(index, least);
    }
    let heap = placed.iter().map(|(&k, &p)| p + u128::from(all[k].size)).max().unwrap_or(0);
    let narrow = |x: u128| u64::try_from(x).expect("small resources have small heaps");
    (placed.values().copied().map(narrow).collect(), narrow(heap))
}

fn at_random(random: &mut Random) -> Vec<Resource> {
    (0..random.below(60))
        .map(|_| {
            let (first_pass, most) = (random.below(30), 1 << (4 + random.below(12)));
            Resource {
                size: 1 + random.below(most),
                alignment: 1 << random.below(9),
                kind: if random.below(2) == 0 { Kind::Linear } else { Kind::NonLinear },
                first_pass,
                last_pass: first_pass + random.below(8),
            }
        })
        .collect()
}

#[test]
fn random_plans_are_those_of_the_rules() {
    let mut random = Random(5);
    let orders = [Order::Size, Order::Area, Order::Alignment, Order::Magnitude, Order::Breadth];
    for round in 0..200 {
        let (all, page) = (at_random(&mut random), [1, 64, 1024][round % 3]);
        let of_order = |order| (planned_in(&all, order, page), order);
        let ((offsets, heap), order) =
            orders.into_iter().map(of_order).min_by_key(|((_, heap), _)| *heap).expect("there are five");
        let planned = plan(&all, page).unwrap();
        assert_eq!((planned.offsets(), planned.heap_size(), planned.order()), (&offsets[..], heap, order));
        let peak = all.iter().map(|it| bytes_alive(&all, it.first_pass)).max().unwrap_or(0);
        assert_eq!(u128::from(planned.peak()), peak);
        for (index, later) in all.iter().enumerate() {
            let shares =
                |k: usize| offsets[k] < offsets[index] + later.size && offsets[index] < offsets[k] + all[k].size;
            let reused = (0..all.len()).filter(|&k| all[k].last_pass < later.first_pass && shares(k));
            assert_eq!(planned.reuses(index).unwrap(), reused.collect::<Vec<_>>());
        }
    }
}

// ---- memory that is shared

fn transient(size: u64, bits: u32, linear: bool, first_pass: u64, last_pass: u64) -> TransientResource {
    let requirements = MemoryRequirements { size, alignment: 16, memory_type_bits: bits };
    TransientResource { requirements, linear, first_pass, last_pass }
}

#[test]
fn a_set_has_one_allocation() {
    let driver = FakeDriver::new(&[(1, 0), (6, 0), (1, 0)], &[1 << 30], 1024);
    let mut allocator = Allocator::new(&AllocatorCreateDesc::new(driver.device())).unwrap();
    // the first and the third share memory type 0, the second has type 2 alone, the fourth fits beside the first two
    let resources = [
        transient(4000, 3, false, 0, 1),
        transient(5000, 4, true, 0, 3),
        transient(4000, 1, false, 2, 3),
        transient(100, 7, true, 1, 2),
    ];
    let desc = TransientCreateDesc::new("frame", &resources, MemoryLocation::GpuOnly);
    let made = allocator.allocate_transient(&desc).unwrap();
    let members: Vec<_> = made.sets().iter().map(|set| set.members().to_vec()).collect();
    assert_eq!(members, [vec![0, 2, 3], vec![1]]);
    let places: Vec<_> = made.places().iter().map(|it| (it.set, it.offset)).collect();
    assert_eq!(places, [(0, 0), (1, 0), (0, 0), (0, 4096)]);
    let sizes: Vec<_> = made.sets().iter().map(|set| set.allocation().size()).collect();
    assert_eq!(sizes, [5120, 5000]); // both kinds: whole pages
    assert_eq!(made.sets()[0].allocation().offset() % 1024, 0);
    assert_eq!((made.sets()[0].plan().heap_size(), made.sets()[0].plan().peak()), (4196, 4100));
    assert_eq!(made.reuses(2).unwrap(), [0]);
    assert_eq!(made.reuses(3).unwrap(), []);
    assert_eq!(made.reuses(4).unwrap_err(), AllocationError::InvalidAllocationCreateDesc);
    let mut other = Allocator::new(&AllocatorCreateDesc::new(driver.device())).unwrap();
    let (error, made) = other.free_transient(made).unwrap_err();
    assert_eq!(error.to_string(), "Internal error: Allocation does not belong to this allocator.");
    allocator.free_transient(made).unwrap();
    assert_eq!(allocator.statistics().pieces, 0);
    drop((allocator, other));
    driver.assert_left_empty();
}

/// Flags choose in place of the location: which memory types serve, and of those that a set has in common the cheapest.
#[test]
fn sets_by_flags() {
    let driver = FakeDriver::new(&[(1, 0), (6, 0), (14, 0), (7, 0)], &[1 << 30], 1024);
    let mut allocator = Allocator::new(&AllocatorCreateDesc::new(driver.device())).unwrap();
    // the first two have memory types 0 and 1 in common, the third 2 and 3 with the second
    let resources = [transient(4000, 3, true, 0, 0), transient(4000, 15, true, 1, 1), transient(4000, 12, true, 2, 2)];
    let cached = AllocationOptions {
        required_flags: MemoryPropertyFlags::HOST_VISIBLE,
        preferred_flags: MemoryPropertyFlags::HOST_CACHED,
        ..AllocationOptions::default()
    };
    let of_three = AllocationOptions { memory_type_bits: Some(13), ..AllocationOptions::default() };
    for (options, sets, types) in [
        (cached, [0, 0, 1], [1, 2]),
        (AllocationOptions::staging(), [0, 0, 1], [1, 2]),
        (of_three, [0, 0, 1], [0, 2]),
        (AllocationOptions { avoided_flags: MemoryPropertyFlags::DEVICE_LOCAL, ..of_three }, [0, 0, 1], [0, 2]),
    ] {
        let desc =
            TransientCreateDesc { options, ..TransientCreateDesc::new("frame", &resources, MemoryLocation::Unknown) };
        let made = allocator.allocate_transient(&desc).unwrap();
        assert_eq!(made.places().iter().map(|it| it.set).collect::<Vec<_>>(), sets);
        let found: Vec<_> = made.sets().iter().map(|set| set.allocation().memory_type_index()).collect();
        assert_eq!(found, types);
        allocator.free_transient(made).unwrap();
    }
    let desc = TransientCreateDesc {
        options: cached,
        ..TransientCreateDesc::new("frame", &resources, MemoryLocation::GpuOnly)
    };
    let error = allocator.allocate_transient(&desc).unwrap_err();
    assert_eq!(error, AllocationError::InvalidAllocationCreateDesc);
    drop(allocator);
    driver.assert_left_empty();
}

#[test]
fn what_fails_leaves_nothing() {
    let driver = FakeDriver::new(&[(1, 0), (6, 0)], &[64 * MB], 1);
    let mut allocator = Allocator::new(&AllocatorCreateDesc::new(driver.device())).unwrap();
    let mut refused = |resources: &[TransientResource]| {
        let desc = TransientCreateDesc::new("frame", resources, MemoryLocation::GpuOnly);
        let error = allocator.allocate_transient(&desc).unwrap_err();
        assert_eq!(allocator.statistics().pieces, 0);
        error
    };
    let fits = transient(100, 1, true, 0, 0);
    assert_eq!(refused(&[fits, transient(0, 1, true, 0, 0)]), AllocationError::InvalidAllocationCreateDesc);
    assert_eq!(refused(&[fits, transient(1, 2, true, 0, 0)]), AllocationError::NoCompatibleMemoryTypeFound);
    assert_eq!(refused(&[fits, transient(65 * MB, 1, true, 1, 1)]), AllocationError::OutOfMemory);
    drop(allocator);
    driver.assert_left_empty();
}
