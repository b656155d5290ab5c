//! Buffers and images of a frame that share memory.

use super::abi::MemoryRequirements;
use super::allocation::Allocation;
use super::allocator::{AllocationCreateDesc, AllocationScheme, Allocator};
use super::options::AllocationOptions;
use crate::error::internal;
use crate::plan::{self, plan, Memory, MemoryNeeds, Plan, Resource};
use crate::{AllocationError, Kind, MemoryLocation, Result};

/// What a buffer or an image of a frame needs, and the passes in which it is alive, both included.
#[derive(Clone, Copy, Debug)]
pub struct TransientResource {
    /// What the driver says that it needs.
    pub requirements: MemoryRequirements,
    /// Whether it is a buffer or a linear image, and not an image in the device's own layout.
    pub linear: bool,
    /// The first pass in which it is alive.
    pub first_pass: u64,
    /// The last one, not before the first.
    pub last_pass: u64,
}

/// What is asked for transient resources.
#[derive(Clone, Copy, Debug)]
pub struct TransientCreateDesc<'a> {
    /// A name for reports and leaks, which each allocation has.
    pub name: &'a str,
    /// The resources.
    pub resources: &'a [TransientResource],
    /// Who reads and writes them.
    pub location: MemoryLocation,
    /// What else is asked of their memory: flags in place of the location, for example.
    pub options: AllocationOptions<'a>,
}

impl<'a> TransientCreateDesc<'a> {
    /// Of resources that someone reads and writes, with nothing else asked of their memory.
    pub fn new(name: &'a str, resources: &'a [TransientResource], location: MemoryLocation) -> Self {
        TransientCreateDesc { name, resources, location, options: AllocationOptions::default() }
    }
}

/// Where a resource is to be bound: `offset` bytes behind the offset of its set's allocation.
#[derive(Clone, Copy, Debug, PartialEq, Eq)]
pub struct TransientPlace {
    /// Which of the sets it is in.
    pub set: usize,
    /// Where it begins in the set's allocation, in bytes.
    pub offset: u64,
}

/// Resources that share one allocation.
#[derive(Debug)]
pub struct TransientSet {
    allocation: Allocation,
    plan: Plan,
    members: Vec<usize>,
}

impl TransientSet {
    /// The memory. `Allocator::free_transient` frees it.
    pub fn allocation(&self) -> &Allocation {
        &self.allocation
    }

    /// Where its resources lie in it, by their indices in `members`.
    pub fn plan(&self) -> &Plan {
        &self.plan
    }

    /// The indices of its resources, ascending.
    pub fn members(&self) -> &[usize] {
        &self.members
    }
}

/// Memory that transient resources share. Give it to `Allocator::free_transient` when they are destroyed; its allocations leak where it is
/// dropped otherwise.
#[derive(Debug)]
pub struct Transient {
    sets: Vec<TransientSet>,
    places: Vec<TransientPlace>,
}

impl Transient {
    /// The sets.
    pub fn sets(&self) -> &[TransientSet] {
        &self.sets
    }

    /// Where each resource goes, by its index.
    pub fn places(&self) -> &[TransientPlace] {
        &self.places
    }

    /// Which resources the one at an index takes bytes over from, as with [`Plan::reuses`].
    ///
    /// The errors: `InvalidAllocationCreateDesc` where no resource has that index, `HostOutOfMemory`.
    pub fn reuses(&self, index: usize) -> Result<Vec<usize>> {
        let place = self.places.get(index).ok_or(AllocationError::InvalidAllocationCreateDesc)?;
        let TransientSet { plan, members, .. } = &self.sets[place.set];
        let member = members.binary_search(&index).expect("a resource is a member of its set");
        let mut found = plan.reuses(member)?;
        for one in &mut found {
            *one = members[*one];
        }
        Ok(found)
    }
}

impl Allocator {
    /// Allocates memory that resources share which are never alive in one pass. In their order each one joins the first set with which it
    /// shares a memory type that has what the location or the flags need, or begins one; each set is planned ([`plan()`]), and has one allocation.
    ///
    /// The errors, and then nothing is left: `InvalidAllocationCreateDesc` for a location beside flags; those of [`plan()`], then those of
    /// [`Allocator::allocate_with`].
    pub fn allocate_transient(&mut self, desc: &TransientCreateDesc<'_>) -> Result<Transient> {
        let mut transient = Transient { sets: Vec::new(), places: Vec::new() };
        let result = self.fill(desc, &mut transient);
        if let Err(error) = result {
            for set in transient.sets {
                // it is this allocator's and live
                drop(self.free(set.allocation));
            }
            return Err(error);
        }
        Ok(transient)
    }

    /// Frees what transient resources shared. The resources are destroyed before.
    ///
    /// The error: `Internal` where it isn't this allocator's; then nothing is freed.
    #[allow(clippy::result_large_err, reason = "what is refused comes back")]
    pub fn free_transient(&mut self, transient: Transient) -> Result<(), (AllocationError, Transient)> {
        if transient.sets.iter().any(|set| !self.is_live(&set.allocation)) {
            return Err((internal("Allocation does not belong to this allocator."), transient));
        }
        for set in transient.sets {
            // each is live
            drop(self.free(set.allocation));
        }
        Ok(())
    }

    fn fill(&mut self, desc: &TransientCreateDesc<'_>, transient: &mut Transient) -> Result<()> {
        let needs = self.needs_of(desc)?;
        let sets = plan::sets(&needs)?;
        let count = sets.iter().max().map_or(0, |last| last + 1);
        transient.places.try_reserve_exact(sets.len())?;
        transient.places.extend(sets.iter().map(|&set| TransientPlace { set, offset: 0 }));
        transient.sets.try_reserve_exact(count)?;
        for number in 0..count {
            let members = members_of(&sets, number)?;
            let plan = self.plan_of(desc, &members)?;
            for (&index, &offset) in members.iter().zip(plan.offsets()) {
                transient.places[index].offset = offset;
            }
            let memory_type_bits = members.iter().fold(u32::MAX, |bits, &index| bits & needs[index].memory_type_bits);
            let allocation = self.allocate_set(desc, &plan, memory_type_bits)?;
            transient.sets.push(TransientSet { allocation, plan, members });
        }
        Ok(())
    }

    /// The memory types that have what the location, or in its place the flags need.
    fn serving(&self, desc: &TransientCreateDesc<'_>) -> Result<u32> {
        let serving = if desc.options.preference(desc.location)?.is_some() {
            desc.options.serving(self.device().memory_types())
        } else {
            let bits = (0..u32::BITS).map(|index| 1 << index);
            bits.filter(|&bit| self.best_type(bit, desc.location).is_some()).sum()
        };
        Ok(serving & desc.options.memory_type_bits.unwrap_or(u32::MAX) & self.memory_type_bits)
    }

    /// What each resource needs, of the memory types that serve.
    fn needs_of(&self, desc: &TransientCreateDesc<'_>) -> Result<Vec<MemoryNeeds>> {
        let serving = self.serving(desc)?;
        let mut needs = Vec::new();
        needs.try_reserve_exact(desc.resources.len())?;
        needs.extend(
            desc.resources.iter().map(|it| MemoryNeeds {
                memory_type_bits: it.requirements.memory_type_bits & serving,
                dedicated: false,
            }),
        );
        Ok(needs)
    }

    fn plan_of(&self, desc: &TransientCreateDesc<'_>, members: &[usize]) -> Result<Plan> {
        let mut resources = Vec::new();
        resources.try_reserve_exact(members.len())?;
        resources.extend(members.iter().map(|&index| {
            let TransientResource { requirements, linear, first_pass, last_pass } = desc.resources[index];
            let MemoryRequirements { size, alignment, .. } = requirements;
            Resource { size, alignment, kind: Kind::of(linear), first_pass, last_pass }
        }));
        plan(&resources, self.device().limits().buffer_image_granularity)
    }

    fn allocate_set(
        &mut self,
        desc: &TransientCreateDesc<'_>,
        plan: &Plan,
        memory_type_bits: u32,
    ) -> Result<Allocation> {
        let Memory { size, alignment, kind } = plan.memory()?;
        let request = AllocationCreateDesc {
            name: desc.name,
            requirements: MemoryRequirements { size, alignment, memory_type_bits },
            location: desc.location,
            linear: kind == Kind::Linear,
            allocation_scheme: AllocationScheme::GpuAllocatorManaged,
        };
        self.allocate_with(&request, &desc.options)
    }
}

/// The resources that are in a set.
fn members_of(sets: &[usize], number: usize) -> Result<Vec<usize>> {
    let mut members = Vec::new();
    members.try_reserve_exact(sets.iter().filter(|&&set| set == number).count())?;
    members.extend((0..sets.len()).filter(|&index| sets[index] == number));
    Ok(members)
}
