//! Moves of the DirectX 12 allocator's allocations.

use super::allocation::Allocation;
use super::allocator::{AllocationCreateDesc, Allocator};
use crate::defragmentation::{self, movable};

/// A move that is open: place the new resource at its second place.
pub type Move = defragmentation::Move<Allocation>;

/// Moves of DirectX 12's allocations that stay open over frames: of those that [`Allocator::allocate`] allocates. A
/// [`Resource`](super::Resource) keeps its piece, or its committed memory, and stays.
/// [Vulkan's](crate::vulkan::Defragmentation) has an example: here the resource is placed anew in the heap and at the offset of the second place, and
/// the one at the first is released before its move is finished.
pub type Defragmentation = defragmentation::Defragmentation<Allocation>;

movable!(Allocation, Allocator, AllocationCreateDesc);
