//! Budgets by what the driver tells of its heaps.

use super::abi::PhysicalDeviceMemoryProperties;
use super::allocator::Allocator;
use super::device::Device;
use super::pool::lock;
use super::resource_abi::{
    GetPhysicalDeviceMemoryProperties2, MemoryBudgetProperties, PhysicalDeviceMemoryProperties2,
};
use crate::capture::Capture;
use crate::error::internal;
use crate::Result;
use std::ffi::c_void;
use std::ptr;

/// What the driver tells of a heap, for the whole process.
#[derive(Clone, Copy, Debug, PartialEq, Eq)]
pub struct HeapBudget {
    /// How many bytes it has.
    pub usage: u64,
    /// How many it may have.
    pub budget: u64,
}

/// A memory heap as it is now.
#[derive(Clone, Copy, Debug, PartialEq, Eq)]
pub struct Heap {
    /// Its size in bytes.
    pub size: u64,
    /// `VkMemoryHeapFlags`.
    pub flags: u32,
    /// The sum of the sizes of the blocks in it, of the allocator and its pools.
    pub held: u64,
    /// What the driver tells of it, where VK_EXT_memory_budget is enabled.
    pub budget: Option<HeapBudget>,
}

/// The bounds of the memory types, and behind how many changes of what they follow from.
#[derive(Debug)]
pub(super) struct Bounds {
    of_types: [Option<u64>; 32],
    types: usize,
    changes: u64,
}

impl Bounds {
    /// Hands them to a capture.
    pub(super) fn record(&self, capture: &Capture) {
        capture.bounded(self.changes, self.of_types[..self.types].iter().copied());
    }
}

/// Who tells of the heaps.
#[derive(Clone, Copy, Debug)]
pub(super) struct BudgetSource {
    pub(super) physical_device: u64,
    pub(super) tell: GetPhysicalDeviceMemoryProperties2,
}

impl Device {
    /// What the driver tells of its heaps now, where the device has that.
    fn read_budgets(&self) -> Option<MemoryBudgetProperties> {
        let source = self.budgets.as_ref()?;
        let mut told = MemoryBudgetProperties {
            s_type: MemoryBudgetProperties::STRUCTURE_TYPE,
            next: ptr::null_mut(),
            heap_budget: [0; 16],
            heap_usage: [0; 16],
        };
        let mut properties = PhysicalDeviceMemoryProperties2 {
            s_type: PhysicalDeviceMemoryProperties2::STRUCTURE_TYPE,
            next: (&raw mut told).cast(),
            memory_properties: PhysicalDeviceMemoryProperties::default(),
        };
        let physical_device = source.physical_device as usize as *mut c_void;
        // SAFETY: the physical device is live and the function its instance's (`with_memory_budget`); the chain outlives the call.
        unsafe { (source.tell)(physical_device, &mut properties) };
        Some(told)
    }
}

impl Allocator {
    /// What a heap has, and what the driver tells of it now; `None` where there is no such heap.
    pub fn read_heap(&self, heap: usize) -> Option<Heap> {
        let it = self.device().memory_heaps().get(heap)?;
        let held = lock(&self.handle.share.common()).held_in(heap);
        let told = self.device().read_budgets();
        let budget = told.map(|told| HeapBudget { usage: told.heap_usage[heap], budget: told.heap_budget[heap] });
        Some(Heap { size: it.size, flags: it.flags, held, budget })
    }

    /// Limits each heap to what is held there and what it has left now, by the driver: once a frame, say.
    ///
    /// The error: `Internal` where the device tells of no budgets ([`Device::with_memory_budget`]).
    pub fn update_budgets(&mut self) -> Result<()> {
        let common = self.handle.share.common();
        let mut common = lock(&common); // no block comes or goes meanwhile
        let told = self.device().read_budgets().ok_or(internal("The device tells of no budgets."))?;
        for heap in 0..self.device().memory_heaps().len() {
            let left = told.heap_budget[heap].saturating_sub(told.heap_usage[heap]);
            let limit = common.held_in(heap).saturating_add(left);
            common.set_limit(heap, Some(limit));
        }
        drop(common);
        self.follow_others();
        Ok(())
    }

    /// Limits the sum of the sizes of the blocks of all memory types that lie in a heap in bytes, or takes the limit away. A limit below the
    /// present sum gives no block back. (A trace has no limits: a capture bounds each memory type of the heap by what the others leave, as it
    /// changes, and so is refused the same.)
    ///
    /// The error: `Internal` where there is no such heap.
    pub fn set_heap_limit(&mut self, heap: usize, limit: Option<u64>) -> Result<()> {
        if heap >= self.device().memory_heaps().len() {
            return Err(internal("No such memory heap."));
        }
        lock(&self.handle.share.common()).set_limit(heap, limit);
        self.follow_others();
        Ok(())
    }

    /// The limit of a heap in bytes; `None` where it has none, or isn't there.
    pub fn heap_limit(&self, heap: usize) -> Option<u64> {
        lock(&self.handle.share.common()).limit(heap)
    }

    /// Takes over what pools, or the allocator that this is a pool of, leave of the bounds.
    pub(super) fn follow_others(&mut self) {
        let common = self.handle.share.common();
        self.handle.follow(&lock(&common));
    }

    /// The bounds of memory types by which the next request is served, where a capture may have others. A trace bounds no heaps, and not how many
    /// blocks there are: each memory type has what it may have now.
    pub(super) fn captured_bounds(&self) -> Option<Bounds> {
        let changes = self.handle.changes;
        // a request costs little behind one that changed none of this, however many memory types there are
        if self.capture.as_ref()?.has_bounds(changes) {
            return None;
        }
        let (mut of_types, types) = ([None; 32], self.device().memory_types().len());
        (0..types).for_each(|index| of_types[index] = self.handle.bound(index));
        Some(Bounds { of_types, types, changes })
    }

    /// Records them as they are now.
    pub(super) fn record_bounds(&self) {
        if let (Some(capture), Some(bounds)) = (&self.capture, self.captured_bounds()) {
            bounds.record(capture);
        }
    }
}
