//! An allocator for several threads.

use super::{Allocation, AllocationCreateDesc, Allocator};
use crate::{AllocationError, Result};
use std::sync::{Arc, Mutex, MutexGuard, PoisonError};

/// An allocator that any threads may call at once: each call waits for the one before it. Clones stand for the same allocator, which is
/// dropped with the last of them.
#[derive(Clone, Debug)]
pub struct SharedAllocator {
    allocator: Arc<Mutex<Allocator>>,
}

impl SharedAllocator {
    /// Shares an allocator.
    pub fn new(allocator: Allocator) -> Self {
        SharedAllocator { allocator: Arc::new(Mutex::new(allocator)) }
    }

    /// Allocates a piece: see [`Allocator::allocate`].
    pub fn allocate(&self, desc: &AllocationCreateDesc<'_>) -> Result<Allocation> {
        self.lock().allocate(desc)
    }

    /// Frees an allocation: see [`Allocator::free`].
    #[allow(clippy::result_large_err, reason = "what is refused comes back")]
    pub fn free(&self, allocation: Allocation) -> Result<(), (AllocationError, Allocation)> {
        self.lock().free(allocation)
    }

    /// The allocator, for each other call; other threads' calls wait until the guard is dropped.
    pub fn lock(&self) -> MutexGuard<'_, Allocator> {
        // what a call decides, it decides before it logs: a logger that panics leaves nothing half done
        self.allocator.lock().unwrap_or_else(PoisonError::into_inner)
    }

    /// The allocator, where no clone is left.
    pub fn into_inner(self) -> Option<Allocator> {
        let allocator = Arc::into_inner(self.allocator)?;
        Some(allocator.into_inner().unwrap_or_else(PoisonError::into_inner))
    }
}
