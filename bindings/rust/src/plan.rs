//! Plans: transient resources of a frame that share the memory of one heap. Numbers alone: no memory is behind it.
//!
//! ```
//! use pilhangko::plan::Resource;
//! use pilhangko::{plan, Kind};
//!
//! let image = |first_pass, last_pass| Resource { size: 4096, alignment: 256, kind: Kind::NonLinear, first_pass, last_pass };
//! let planned = plan(&[image(0, 1), image(1, 2), image(2, 3)], 1)?;
//! assert_eq!(planned.offsets(), [0, 4096, 0]); // the third begins after the first one's life
//! assert_eq!((planned.heap_size(), planned.peak()), (8192, 8192));
//! assert_eq!(planned.reuses(2)?, [0]);
//! # Ok::<(), pilhangko::AllocationError>(())
//! ```

use crate::error::check;
use crate::{raw, Kind, Result};

/// A resource that passes of a frame use. It is alive from its first pass to its last one, both included; passes are numbered in the order
/// in which they run.
#[derive(Clone, Copy, Debug, PartialEq, Eq)]
pub struct Resource {
    /// How many bytes: not 0.
    pub size: u64,
    /// A power of two; the resource's offset is a multiple of it.
    pub alignment: u64,
    /// Its kind: resources of different kinds share no page while both are alive.
    pub kind: Kind,
    /// The first pass in which it is alive.
    pub first_pass: u64,
    /// The last one, not before the first.
    pub last_pass: u64,
}

/// An order in which resources are placed, each at the least offset that is free; of equal ones the one with the least index goes first.
#[derive(Clone, Copy, Debug, PartialEq, Eq, Hash)]
pub enum Order {
    /// The largest size first.
    Size,
    /// The largest product of size and number of passes first.
    Area,
    /// The largest alignment first, of equal ones the largest size.
    Alignment,
    /// The largest power of two in the size first, of equal ones the longest life, of equal ones the largest size.
    Magnitude,
    /// The pass with the most bytes alive first: in each the resources that no pass before it has, the largest first.
    Breadth,
}

impl Order {
    fn told(number: u32) -> Self {
        match number {
            raw::PLAN_ORDER_SIZE => Order::Size,
            raw::PLAN_ORDER_AREA => Order::Area,
            raw::PLAN_ORDER_ALIGNMENT => Order::Alignment,
            raw::PLAN_ORDER_MAGNITUDE => Order::Magnitude,
            raw::PLAN_ORDER_BREADTH => Order::Breadth,
            _ => panic!("libgpu_c.a told the order {number}, which isn't there"),
        }
    }
}

/// Where resources lie in one heap.
#[derive(Debug)]
pub struct Plan {
    resources: Vec<raw::PlanResource>,
    page_size: u64,
    offsets: Vec<u64>,
    told: raw::HeapPlan,
}

/// What memory a resource may lie in.
#[derive(Clone, Copy, Debug, PartialEq, Eq)]
pub struct MemoryNeeds {
    /// Bit N is set where memory type N serves.
    pub memory_type_bits: u32,
    /// Whether nothing else may lie in it.
    pub dedicated: bool,
}

/// Memory to be allocated for a heap.
#[derive(Clone, Copy, Debug, PartialEq, Eq)]
pub struct Memory {
    /// In bytes.
    pub size: u64,
    /// In bytes, a power of two.
    pub alignment: u64,
    /// Its kind.
    pub kind: Kind,
}

/// Which resources share an allocation: the set of each. In their order each one joins the first set, none of them and itself dedicated, with
/// which it has a memory type in common; where there is none, it begins one. Sets are numbered from 0, as they begin.
///
/// The error: `HostOutOfMemory`.
pub fn sets(needs: &[MemoryNeeds]) -> Result<Vec<usize>> {
    let mut asked = Vec::new();
    asked.try_reserve_exact(needs.len())?;
    asked.extend(
        needs
            .iter()
            .map(|&MemoryNeeds { memory_type_bits, dedicated }| raw::MemoryNeeds { memory_type_bits, dedicated }),
    );
    let mut sets = Vec::new();
    sets.try_reserve_exact(needs.len())?;
    sets.resize(needs.len(), 0);
    // SAFETY: both lists have as many entries as is said, and outlive the call.
    check(unsafe { raw::pilhangko_raw_plan_sets(asked.as_ptr(), asked.len(), sets.as_mut_ptr(), sets.len()) })?;
    Ok(sets)
}

/// Places resources in one heap: at the offsets of the order with the smallest heap, of equal ones the first of [`Order`]. Two resources that
/// are alive in one pass share no byte, and no page of `page_size` bytes (a power of two) where their kinds differ.
///
/// The errors: `InvalidAllocationCreateDesc` for the page size or a resource, `OutOfMemory` where in each order the heap's size would pass
/// `u64::MAX`, `HostOutOfMemory`, which can also come before that is known.
pub fn plan(resources: &[Resource], page_size: u64) -> Result<Plan> {
    let mut asked = Vec::new();
    asked.try_reserve_exact(resources.len())?;
    asked.extend(resources.iter().map(|it| raw::PlanResource {
        size: it.size,
        alignment: it.alignment,
        kind: it.kind.to_raw(),
        first_pass: it.first_pass,
        last_pass: it.last_pass,
    }));
    let mut offsets = Vec::new();
    offsets.try_reserve_exact(resources.len())?;
    offsets.resize(resources.len(), 0);
    let mut told = raw::HeapPlan::default();
    // SAFETY: both lists have as many entries as is said, and outlive the call.
    check(unsafe {
        raw::pilhangko_raw_plan(asked.as_ptr(), asked.len(), page_size, offsets.as_mut_ptr(), offsets.len(), &mut told)
    })?;
    Ok(Plan { resources: asked, page_size, offsets, told })
}

impl Plan {
    /// Each resource's first byte in the heap, by its index.
    pub fn offsets(&self) -> &[u64] {
        &self.offsets
    }

    /// The heap's size in bytes: the byte behind the last resource, 0 without resources.
    pub fn heap_size(&self) -> u64 {
        self.told.heap_size
    }

    /// The most bytes that are alive in one pass: no heap is smaller.
    pub fn peak(&self) -> u64 {
        self.told.peak
    }

    /// The order in which the resources were placed.
    pub fn order(&self) -> Order {
        Order::told(self.told.order)
    }

    /// The memory for the heap. Where all resources are of one kind, so is the memory, as large as the heap; where they are of both, it begins
    /// with a page and takes whole ones, so that nothing else lies on them.
    ///
    /// The errors: `OutOfMemory` where whole pages would pass `u64::MAX`, `HostOutOfMemory`.
    pub fn memory(&self) -> Result<Memory> {
        let mut told = raw::HeapMemory::default();
        // SAFETY: the list has as many entries as is said, and outlives the call.
        check(unsafe {
            raw::pilhangko_raw_plan_memory(
                self.resources.as_ptr(),
                self.resources.len(),
                self.told.heap_size,
                self.page_size,
                &mut told,
            )
        })?;
        Ok(Memory { size: told.size, alignment: told.alignment, kind: Kind::of(told.kind == raw::KIND_LINEAR) })
    }

    /// Which resources the one at an index takes bytes over from: those whose life ended before its own begins, and some of whose bytes it
    /// has, the indices ascending. An aliasing barrier goes between each of them and this one, before its first pass.
    ///
    /// The errors: `InvalidAllocationCreateDesc` where no resource has that index, `HostOutOfMemory`.
    pub fn reuses(&self, index: usize) -> Result<Vec<usize>> {
        let (mut found, mut count) = (Vec::new(), 0);
        found.try_reserve_exact(self.resources.len())?;
        found.resize(self.resources.len(), 0);
        // SAFETY: the lists have as many entries as is said, and outlive the call.
        check(unsafe {
            raw::pilhangko_raw_plan_reuses(
                self.resources.as_ptr(),
                self.resources.len(),
                self.offsets.as_ptr(),
                self.offsets.len(),
                index,
                found.as_mut_ptr(),
                found.len(),
                &mut count,
            )
        })?;
        found.truncate(count);
        Ok(found)
    }
}
