//! Moves of the Vulkan allocator's allocations.

use super::allocation::Allocation;
use super::allocator::{AllocationCreateDesc, Allocator};
use crate::defragmentation::{self, movable, propose_some};
use crate::error::copied;
use crate::Result;

/// A move that is open: bind the new buffer or image at its second place.
pub type Move = defragmentation::Move<Allocation>;

/// Moves of Vulkan's allocations that stay open over frames.
///
/// ```
/// # use pilhangko::vulkan::{Allocation, AllocationCreateDesc, Allocator, Defragmentation, MoveKey};
/// # use pilhangko::Result;
/// // in each frame, until `it.is_done()`; `resources` are all that may move
/// fn begin_moves(
///     it: &mut Defragmentation,
///     allocator: &mut Allocator,
///     resources: &[(&Allocation, AllocationCreateDesc<'_>)],
/// ) -> Result<Vec<MoveKey>> {
///     let moves = it.propose(allocator, resources, 16 << 20, 64)?;
///     // make the resource of each `one.index()` anew at `one.to()`, and record the copy
///     Ok(moves.iter().map(|one| one.key()).collect())
/// }
///
/// // once the device has made the copy, and the buffer or image at the first place is destroyed
/// fn end_move(
///     it: &mut Defragmentation,
///     allocator: &mut Allocator,
///     key: MoveKey,
///     resource: &mut Allocation,
/// ) -> Result<()> {
///     it.finish(allocator, key, resource) // it is the second place now
/// }
/// ```
pub type Defragmentation = defragmentation::Defragmentation<Allocation>;

impl Allocator {
    /// Looks for a second place for an allocation: the one that this request, which it was made for, would get as a new allocation now, if
    /// that lies in a block that is looked at before its own; `None` where there is none. The driver isn't asked. Both are live then: bind
    /// a new buffer or image at the second, copy, and free the first once the device has finished with both, which ends the move; or free
    /// the second, which abandons it. The second has the first one's user data. The request's memory type bits and location aren't looked at.
    ///
    /// The errors, and then nothing changes: `HostOutOfMemory` of the binding's own, `Internal` where it is null or not this allocator's,
    /// `InvalidAllocationCreateDesc`, also where the size isn't the allocation's or memory for one buffer or image alone is asked for,
    /// `HostOutOfMemory`.
    pub fn propose_move(
        &mut self,
        allocation: &Allocation,
        desc: &AllocationCreateDesc<'_>,
    ) -> Result<Option<Allocation>> {
        let own = copied(desc.name)?;
        self.follow_others();
        let held = self.live(allocation)?;
        let (piece, number) = (held.piece, held.number);
        let requirements = self.narrow(desc.requirements);
        let desc = AllocationCreateDesc { requirements, ..desc.clone() };
        let to = self.handle.propose_move(&piece, &desc)?;
        self.record_bounds();
        if let Some(capture) = &mut self.capture {
            capture.allocator_moved(number, self.requests + 1, &desc);
        }
        let Some(to) = to else { return Ok(None) };
        self.requests += 1;
        let held = self.held(to, desc.allocation_scheme);
        let mut second = Allocation { held: Some(held), name: Some(own), user_data: 0 };
        self.set_user_data(&mut second, allocation.user_data).expect("a new piece is live");
        Ok(Some(second))
    }

    /// Proposes the moves of a frame: of these allocations, each with the request that it was made for, those in the lowest slots first, so
    /// that low blocks empty, while they sum up to at most so many bytes. A move is the index of its allocation here and the second place.
    /// A [`Defragmentation`](super::Defragmentation) keeps those of many frames.
    ///
    /// The errors: `HostOutOfMemory` of the list, and those of `propose_move`, where the moves before it are abandoned.
    pub fn propose_moves(
        &mut self,
        movables: &[(&Allocation, AllocationCreateDesc<'_>)],
        bytes: u64,
    ) -> Result<Vec<(usize, Allocation)>> {
        propose_some(self, movables, bytes, usize::MAX, |_| true)
    }
}

movable!(Allocation, Allocator, AllocationCreateDesc);
