//! Pools: allocators over the same device whose blocks are apart, within the same bounds.

use super::abi::MemoryDedicatedAllocateInfo;
use super::allocator::Allocator;
use super::allocator_handle::AllocatorHandle;
use super::device::Device;
use super::options::Chain;
use crate::error::invalid_device;
use crate::{AllocationSizes, Result};
use std::sync::{Arc, Mutex, MutexGuard, PoisonError};

/// What a pool is made with. The default has all memory types, the default sizes, no chain, no bound and no capture.
#[derive(Clone, Debug, Default)]
pub struct PoolCreateDesc {
    /// The memory types that its blocks may be of.
    pub memory_type_bits: Option<u32>,
    /// What is chained to `VkMemoryAllocateInfo` for each of its blocks: what may be asked of any block, as a priority or handle types for export,
    /// and no import. Of a request with a chain that one counts in its place.
    pub next: Option<Chain<'static>>,
    /// How many blocks it may have, where not the device alone bounds that.
    pub most_blocks: Option<usize>,
    /// The sizes of its blocks that pieces share.
    pub allocation_sizes: AllocationSizes,
    /// Whether blocks keep these sizes where memory is short, as of an allocator.
    pub whole_blocks: bool,
    /// Whether its calls are recorded: `Allocator::capture`.
    pub capture: bool,
}

impl Allocator {
    /// Makes a pool: an allocator over the same device, with the same settings and logger, whose blocks are apart. Its requests are narrowed to its
    /// memory types, and its allocations are its own. Either may be dropped first, and each may be called on a thread of its own.
    ///
    /// An allocator and its pools have together no more blocks than the driver grants, and one limit of each heap: [`Allocator::read_heap`],
    /// [`Allocator::update_budgets`] and [`Allocator::set_heap_limit`] speak of all of them. Budgets of memory types are each one's. A pool of a pool is
    /// one of the same allocator.
    ///
    /// The errors: `InvalidAllocatorCreateDesc` where the device has none of the memory types, or a `VkMemoryDedicatedAllocateInfo` is in the chain;
    /// `HostOutOfMemory`.
    pub fn create_pool(&self, desc: &PoolCreateDesc) -> Result<Self> {
        let bits = desc.memory_type_bits.unwrap_or(u32::MAX);
        if (0..).zip(self.device().memory_types()).all(|(index, _): (u32, _)| bits >> index & 1 == 0) {
            return Err(invalid_device("none of the memory types."));
        }
        if desc.next.is_some_and(|chain| chain.has(MemoryDedicatedAllocateInfo::STRUCTURE_TYPE)) {
            return Err(invalid_device("memory for one resource in the chain of a pool."));
        }
        let mut handle = self.handle.apart(&desc.allocation_sizes, desc.most_blocks)?;
        handle.set_smaller_blocks(!desc.whole_blocks && !desc.capture);
        self.apart(desc, handle)
    }
}

/// What bounds an allocator and its pools together, and what they hold.
#[derive(Debug, Default)]
pub(super) struct Common {
    blocks: usize,
    /// By heap, in bytes.
    held: [u64; 16],
    limits: [Option<u64>; 16],
    /// Another one behind each change.
    version: u64,
}

impl Common {
    /// The sum of the sizes of all blocks in a heap.
    pub(super) fn held_in(&self, heap: usize) -> u64 {
        self.held.get(heap).copied().unwrap_or(0)
    }

    /// The limit of a heap.
    pub(super) fn limit(&self, heap: usize) -> Option<u64> {
        self.limits.get(heap).copied().flatten()
    }

    /// Limits a heap that is there.
    pub(super) fn set_limit(&mut self, heap: usize, limit: Option<u64>) {
        self.limits[heap] = limit;
        self.version += 1;
    }
}

/// What one of them holds of it, as the others know it, and what they leave to it.
#[derive(Debug)]
pub(super) struct Share {
    common: Arc<Mutex<Common>>,
    blocks: usize,
    held: [u64; 16],
    /// How many blocks it may have by itself, whatever the others have.
    most_blocks: Option<usize>,
    seen: u64,
}

impl Share {
    /// The first one's.
    pub(super) fn new() -> Self {
        Share::of(Arc::default(), None)
    }

    /// Another one's.
    pub(super) fn another(&self, most_blocks: Option<usize>) -> Self {
        Share::of(Arc::clone(&self.common), most_blocks)
    }

    fn of(common: Arc<Mutex<Common>>, most_blocks: Option<usize>) -> Self {
        Share { common, blocks: 0, held: [0; 16], most_blocks, seen: u64::MAX }
    }

    /// What all of them have in common. Blocks come and go, and limits change, while it is held.
    pub(super) fn common(&self) -> Arc<Mutex<Common>> {
        Arc::clone(&self.common)
    }

    /// How many blocks it may have.
    pub(super) fn most_blocks(&self, common: &Common, device: &Device) -> Option<usize> {
        let granted = device.limits().max_memory_allocation_count as usize;
        let left = (granted > 0).then(|| granted.saturating_sub(common.blocks - self.blocks));
        [left, self.most_blocks].into_iter().flatten().min()
    }

    /// How many bytes its blocks may have in a heap.
    pub(super) fn limit(&self, common: &Common, heap: usize) -> Option<u64> {
        Some(common.limit(heap)?.saturating_sub(common.held[heap] - self.held[heap]))
    }

    /// Whether anything changed since it was asked last.
    pub(super) fn is_stale(&mut self, common: &Common) -> bool {
        let seen = std::mem::replace(&mut self.seen, common.version);
        seen != common.version
    }

    /// It holds so many blocks now, and so many bytes of each heap.
    pub(super) fn tell(&mut self, common: &mut Common, blocks: usize, held: [u64; 16]) {
        common.blocks = common.blocks - self.blocks + blocks;
        for (heap, now) in held.into_iter().enumerate() {
            common.held[heap] = common.held[heap] - self.held[heap] + now;
        }
        (self.blocks, self.held) = (blocks, held);
        common.version += 1;
    }
}

/// The guard of what they have in common. Nothing is done half where a driver's function or a logger panics.
pub(super) fn lock(common: &Mutex<Common>) -> MutexGuard<'_, Common> {
    common.lock().unwrap_or_else(PoisonError::into_inner)
}

impl AllocatorHandle {
    /// Bounds it by what the others leave, where that has changed.
    pub(super) fn follow(&mut self, common: &Common) {
        if !self.share.is_stale(common) {
            return;
        }
        self.changes += 1;
        self.set_most_blocks(self.share.most_blocks(common, self.device()));
        for heap in 0..self.device().memory_heaps().len() {
            self.set_heap_limit(heap, self.share.limit(common, heap));
        }
    }

    /// Tells the others what it holds, where a block came or went.
    pub(super) fn tell(&mut self, common: &mut Common) {
        self.changes += 1;
        let mut held = [0; 16];
        for (index, it) in self.device().memory_types().iter().enumerate() {
            held[it.heap_index as usize] += self.type_capacity(index).unwrap_or(0);
        }
        self.share.tell(common, self.block_count(), held);
    }
}
