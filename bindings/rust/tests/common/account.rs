//! A plain account of a Vulkan allocator: what is live, where, in which block; and by which rules a request may be refused. It knows the
//! rules of docs/TRACE.md and nothing of how the library finds a place.
#![allow(dead_code)]

use super::{FakeDriver, Held, Question, Refusal};
use pilhangko::vulkan::{Allocation, AllocationCreateDesc, AllocationOptions, AllocationScheme, Buffer, Image};
use pilhangko::{AllocationError, AllocationSizes, MemoryLocation};
use std::collections::BTreeMap;

const DEVICE_LOCAL: u32 = 1;
const HOST_VISIBLE: u32 = 2;
const HOST_COHERENT: u32 = 4;
const HOST_CACHED: u32 = 8;

/// A piece in a block, by its offset.
#[derive(Clone, Debug)]
pub struct Piece {
    pub end: u64,
    pub linear: bool,
    pub name: String,
}

/// A block of the account.
#[derive(Clone, Debug)]
pub struct Block {
    pub memory: u64,
    pub size: u64,
    pub is_shared: bool,
    pub pieces: BTreeMap<u64, Piece>,
}

#[derive(Debug)]
pub struct Account {
    pub types: Vec<(u32, u32)>,
    pub heaps: Vec<u64>,
    pub page: u64,
    pub atom: u64,
    pub sizes: AllocationSizes,
    pub budgets: Vec<Option<u64>>,
    /// The limits of heaps, and how many blocks there may be.
    pub limits: Vec<Option<u64>>,
    pub most: Option<usize>,
    /// Blocks by memory type and slot.
    pub blocks: Vec<Vec<Option<Block>>>,
}

/// What of the driver a call met with: the questions that it refused.
#[derive(Debug)]
pub struct Met {
    pub refused: Vec<(Question, Refusal)>,
}

impl Account {
    pub fn new(types: &[(u32, u32)], heaps: &[u64], page: u64, atom: u64, sizes: AllocationSizes) -> Self {
        Account {
            types: types.to_vec(),
            heaps: heaps.to_vec(),
            page,
            atom,
            sizes,
            budgets: vec![None; types.len()],
            limits: vec![None; heaps.len()],
            most: None,
            blocks: vec![Vec::new(); types.len()],
        }
    }

    fn is_mapped(&self, memory_type: usize) -> bool {
        self.types[memory_type].0 & HOST_VISIBLE != 0
    }

    fn first_type(&self, bits: u32, flags: u32) -> Option<usize> {
        (0..self.types.len()).find(|&index| bits >> index & 1 == 1 && self.types[index].0 & flags == flags)
    }

    /// The memory types of a request's attempts: the first, and an upload's second.
    fn attempts(&self, desc: &AllocationCreateDesc<'_>) -> (Option<usize>, Option<usize>) {
        let (preferred, required) = match desc.location {
            MemoryLocation::Unknown => (0, 0),
            MemoryLocation::GpuOnly => (DEVICE_LOCAL, DEVICE_LOCAL),
            MemoryLocation::CpuToGpu => (DEVICE_LOCAL | HOST_VISIBLE | HOST_COHERENT, HOST_VISIBLE | HOST_COHERENT),
            MemoryLocation::GpuToCpu => (HOST_VISIBLE | HOST_COHERENT | HOST_CACHED, HOST_VISIBLE | HOST_COHERENT),
        };
        let bits = desc.requirements.memory_type_bits;
        let best = self.first_type(bits, preferred).or_else(|| self.first_type(bits, required));
        let second = match desc.location {
            MemoryLocation::CpuToGpu => self.first_type(bits, required),
            _ => None,
        };
        (best, second)
    }

    fn shared_count(&self, memory_type: usize) -> usize {
        self.blocks[memory_type].iter().flatten().filter(|block| block.is_shared).count()
    }

    fn held(&self, memory_type: usize) -> u64 {
        self.blocks[memory_type].iter().flatten().map(|block| block.size).sum()
    }

    pub fn held_in(&self, heap: usize) -> u64 {
        (0..self.types.len()).filter(|&index| self.types[index].1 as usize == heap).map(|index| self.held(index)).sum()
    }

    /// What bounds a memory type: its budget, what the other memory types of its heap leave of that heap's limit, or what it holds where no block
    /// may come.
    pub fn bound(&self, memory_type: usize) -> Option<u64> {
        let heap = self.types[memory_type].1 as usize;
        let others = self.held_in(heap) - self.held(memory_type);
        let left = self.limits[heap].map(|limit| limit.saturating_sub(others));
        let count = self.blocks.iter().flatten().flatten().count();
        let full = self.most.is_some_and(|most| count >= most).then(|| self.held(memory_type));
        [self.budgets[memory_type], left, full].into_iter().flatten().min()
    }

    pub fn capacity(&self) -> u64 {
        (0..self.types.len()).map(|memory_type| self.held(memory_type)).sum()
    }

    /// The size of the block that a request would need in a memory type, and whether others may share it.
    fn block_for(&self, memory_type: usize, desc: &AllocationCreateDesc<'_>) -> (u64, bool) {
        let shared = self.sizes.memblock_size(self.is_mapped(memory_type), self.shared_count(memory_type));
        let size = desc.requirements.size;
        if desc.allocation_scheme != AllocationScheme::GpuAllocatorManaged || size > shared {
            (size, false)
        } else {
            (shared, true)
        }
    }

    fn is_above_heap(&self, memory_type: usize, size: u64) -> bool {
        size > self.heaps[self.types[memory_type].1 as usize]
    }

    fn is_above_budget(&self, memory_type: usize, desc: &AllocationCreateDesc<'_>) -> bool {
        let needed = self.block_for(memory_type, desc).0;
        self.bound(memory_type).is_some_and(|bound| self.held(memory_type) + needed > bound)
    }

    fn is_above_own_budget(&self, memory_type: usize, desc: &AllocationCreateDesc<'_>) -> bool {
        let needed = self.block_for(memory_type, desc).0;
        self.budgets[memory_type].is_some_and(|budget| self.held(memory_type) + needed > budget)
    }

    /// Whether an attempt may be refused for this cause.
    fn allows(&self, memory_type: usize, desc: &AllocationCreateDesc<'_>, met: &Met, error: &AllocationError) -> bool {
        let last = met.refused.last().copied();
        if self.is_above_heap(memory_type, desc.requirements.size) {
            return *error == AllocationError::OutOfMemory;
        }
        match error {
            AllocationError::BudgetExceeded => self.is_above_budget(memory_type, desc),
            _ if self.is_above_budget(memory_type, desc) => false, // then the driver isn't asked
            AllocationError::OutOfMemory => {
                matches!(last, Some((Question::Memory, Refusal::Null | Refusal::Code(-2))))
            }
            AllocationError::FailedToMap(fault) => match last {
                Some((Question::Mapping, Refusal::Null)) => fault.code.is_none(),
                Some((Question::Mapping, Refusal::Code(code))) => fault.code == Some(i64::from(code)),
                _ => false,
            },
            AllocationError::Internal(fault) => {
                matches!(last, Some((Question::Memory, Refusal::Code(code))) if code != -2 && fault.code == Some(i64::from(code)))
            }
            _ => false,
        }
    }

    /// Whether an attempt must be refused, for causes that are known without a look at gaps.
    fn must_refuse(&self, memory_type: usize, desc: &AllocationCreateDesc<'_>) -> bool {
        let is_own = !self.block_for(memory_type, desc).1;
        self.is_above_heap(memory_type, desc.requirements.size) || (is_own && self.is_above_budget(memory_type, desc))
    }

    /// Looks at a refusal.
    pub fn refused(&self, desc: &AllocationCreateDesc<'_>, met: &Met, error: &AllocationError) {
        let needs = &desc.requirements;
        if needs.size == 0 || !needs.alignment.is_power_of_two() {
            assert_eq!(*error, AllocationError::InvalidAllocationCreateDesc);
            return;
        }
        match self.attempts(desc) {
            (None, _) => assert_eq!(*error, AllocationError::NoCompatibleMemoryTypeFound),
            (_, Some(second)) => assert!(self.allows(second, desc, met, error), "{desc:?} {met:?} {error:?}"),
            (Some(first), None) => assert!(self.allows(first, desc, met, error), "{desc:?} {met:?} {error:?}"),
        }
    }

    /// Looks at a new allocation, and enters it.
    pub fn allocated(&mut self, driver: &FakeDriver, desc: &AllocationCreateDesc<'_>, met: &Met, it: &Allocation) {
        let memory_type = it.memory_type_index();
        let (first, second) = self.attempts(desc);
        let first = first.expect("a memory type serves");
        if memory_type != first {
            assert_eq!(Some(memory_type), second);
        }
        if memory_type != first || !met.refused.is_empty() {
            let is_refused = !met.refused.is_empty() || self.is_above_heap(first, desc.requirements.size);
            assert!(second.is_some() && (is_refused || self.is_above_budget(first, desc)));
        }
        assert!(!self.must_refuse(memory_type, desc));
        // SAFETY: the handle is only looked up.
        let memory = unsafe { it.memory() }.0;
        let held = *driver.state().held.get(&memory).expect("a piece lies in memory that the driver holds");
        self.enter_block(desc, it, memory, &held);
        self.enter_piece(desc, it, &held);
    }

    /// The memory types that have all required flags, in the order in which they are attempted: each preferred flag that is missing and each
    /// avoided one that is there costs one.
    fn order(&self, desc: &AllocationCreateDesc<'_>, options: &AllocationOptions<'_>) -> Vec<usize> {
        let required = options.required_flags.0;
        let serves = |&index: &usize| {
            desc.requirements.memory_type_bits >> index & 1 == 1 && self.types[index].0 & required == required
        };
        let mut order: Vec<usize> = (0..self.types.len()).filter(serves).collect();
        let cost = |index: usize| {
            let flags = self.types[index].0;
            (options.preferred_flags.0 & !flags).count_ones() + (options.avoided_flags.0 & flags).count_ones()
        };
        order.sort_by_key(|&index| cost(index)); // which keeps equal ones in order
        order
    }

    /// Whether a memory type has no room for a request that needs a block, before the driver is asked.
    fn has_no_room(&self, memory_type: usize, desc: &AllocationCreateDesc<'_>) -> bool {
        self.is_above_heap(memory_type, desc.requirements.size) || self.is_above_budget(memory_type, desc)
    }

    /// Looks at a refusal by flags: of the last memory type, or one that led to no other.
    pub fn refused_by_flags(
        &self,
        desc: &AllocationCreateDesc<'_>,
        options: &AllocationOptions<'_>,
        met: &Met,
        error: &AllocationError,
    ) {
        let needs = &desc.requirements;
        if needs.size == 0 || !needs.alignment.is_power_of_two() {
            return assert_eq!(*error, AllocationError::InvalidAllocationCreateDesc);
        }
        assert!(!options.never_allocate || met.refused.is_empty());
        let order = self.order(desc, options);
        let Some(&last) = order.last() else {
            return assert_eq!(*error, AllocationError::NoCompatibleMemoryTypeFound);
        };
        match error {
            // a block that is needed isn't asked for, where its memory type's own budget allows it
            AllocationError::OutOfMemory if options.never_allocate => {
                assert!(self.is_above_heap(last, needs.size) || !self.is_above_own_budget(last, desc));
            }
            AllocationError::OutOfMemory | AllocationError::BudgetExceeded => {
                assert!(self.allows(last, desc, met, error), "{desc:?} {options:?} {met:?} {error:?}");
                let asked = order.iter().filter(|&&index| !self.has_no_room(index, desc)).count();
                assert_eq!(met.refused.len(), if options.never_allocate { 0 } else { asked });
            }
            _ => assert!(order.iter().any(|&index| self.allows(index, desc, met, error)), "{met:?} {error:?}"),
        }
    }

    /// Looks at a new allocation by flags, and enters it; whether it isn't in the cheapest memory.
    pub fn allocated_by_flags(
        &mut self,
        driver: &FakeDriver,
        desc: &AllocationCreateDesc<'_>,
        options: &AllocationOptions<'_>,
        met: &Met,
        it: &Allocation,
    ) -> bool {
        let order = self.order(desc, options);
        let at = order.iter().position(|&index| index == it.memory_type_index()).expect("the memory type serves");
        if options.never_allocate {
            assert!(met.refused.is_empty());
            let block = self.blocks[it.memory_type_index()][it.memory_block_index()].as_ref();
            assert!(block.is_some_and(|block| block.is_shared)); // it was there
        } else {
            let asked = order[..at].iter().filter(|&&index| !self.has_no_room(index, desc)).count();
            assert_eq!(met.refused.len(), asked);
            let lacks = |refused: &(Question, Refusal)| {
                matches!(refused, (Question::Memory, Refusal::Null | Refusal::Code(-2)))
            };
            assert!(met.refused.iter().all(lacks));
        }
        assert!(!self.must_refuse(it.memory_type_index(), desc));
        // SAFETY: the handle is only looked up.
        let memory = unsafe { it.memory() }.0;
        let held = *driver.state().held.get(&memory).expect("a piece lies in memory that the driver holds");
        self.enter_block(desc, it, memory, &held);
        self.enter_piece(desc, it, &held);
        at > 0
    }

    /// Enters the block of an allocation where it is new.
    fn enter_block(&mut self, desc: &AllocationCreateDesc<'_>, it: &Allocation, memory: u64, held: &Held) {
        let (memory_type, slot) = (it.memory_type_index(), it.memory_block_index());
        let known = self.blocks[memory_type].get(slot).and_then(Option::as_ref);
        if let Some(block) = known {
            assert_eq!(block.memory, memory);
            assert!(block.is_shared && !it.is_dedicated());
            return;
        }
        let (size, is_shared) = self.block_for(memory_type, desc);
        // a shared block takes the highest empty slot, a piece's own the lowest
        let slots = &self.blocks[memory_type];
        let empty =
            if is_shared { slots.iter().rposition(Option::is_none) } else { slots.iter().position(Option::is_none) };
        assert_eq!(slot, empty.unwrap_or(slots.len()));
        assert_eq!((held.asked.size, held.asked.memory_type as usize), (size, memory_type));
        assert!(!self.is_above_budget(memory_type, desc));
        let (buffer, image) = match desc.allocation_scheme {
            AllocationScheme::DedicatedBuffer(buffer) => (buffer, Image(0)),
            AllocationScheme::DedicatedImage(image) => (Buffer(0), image),
            AllocationScheme::GpuAllocatorManaged => (Buffer(0), Image(0)),
        };
        assert_eq!((held.asked.buffer, held.asked.image), (buffer, image));
        let block = Some(Block { memory, size, is_shared, pieces: BTreeMap::new() });
        match empty {
            Some(slot) => self.blocks[memory_type][slot] = block,
            None => self.blocks[memory_type].push(block),
        }
    }

    /// Enters a piece: it is aligned, lies inside its block, shares no byte with a neighbour, and no page with one of the other kind.
    fn enter_piece(&mut self, desc: &AllocationCreateDesc<'_>, it: &Allocation, held: &Held) {
        let (offset, size) = (it.offset(), it.size());
        assert_eq!(size, desc.requirements.size);
        assert_eq!(offset % desc.requirements.alignment, 0);
        let flags = self.types[it.memory_type_index()].0;
        let needs_flushes = flags & (HOST_VISIBLE | HOST_COHERENT) == HOST_VISIBLE;
        assert!(!needs_flushes || offset % self.atom == 0);
        assert_eq!(it.is_dedicated(), desc.allocation_scheme != AllocationScheme::GpuAllocatorManaged);
        let start = held.mapped.map(|bytes| bytes as u64 + offset);
        assert_eq!(it.mapped_ptr().map(|it| it.as_ptr() as u64), start);
        assert_eq!(start.is_some(), self.is_mapped(it.memory_type_index()));
        let page = self.page;
        let slots = &mut self.blocks[it.memory_type_index()];
        let block = slots[it.memory_block_index()].as_mut().expect("it was entered");
        let end = offset + size;
        assert!(end <= block.size);
        if let Some((_, before)) = block.pieces.range(..=offset).next_back() {
            assert!(before.end <= offset);
            assert!(before.linear == desc.linear || (before.end - 1) / page < offset / page);
        }
        if let Some((&next, behind)) = block.pieces.range(offset..).next() {
            assert!(end <= next);
            assert!(behind.linear == desc.linear || (end - 1) / page < next / page);
        }
        block.pieces.insert(offset, Piece { end, linear: desc.linear, name: desc.name.to_owned() });
    }

    /// Looks at the second place of an allocation, and enters it: it lies in a shared block that is there, in a higher slot.
    pub fn moved(&mut self, driver: &FakeDriver, desc: &AllocationCreateDesc<'_>, from: &Allocation, to: &Allocation) {
        assert_eq!(to.memory_type_index(), from.memory_type_index());
        assert!(to.memory_block_index() > from.memory_block_index());
        let block = self.blocks[to.memory_type_index()][to.memory_block_index()].as_ref().expect("the block is there");
        // SAFETY: the handle is only looked up.
        assert!(block.is_shared && block.memory == unsafe { to.memory() }.0);
        let held = driver.state().held[&block.memory];
        self.enter_piece(desc, to, &held);
    }

    /// Whether a live piece is for a buffer or a linear image.
    pub fn is_linear(&self, (memory_type, slot, offset): (usize, usize, u64)) -> bool {
        let block = self.blocks[memory_type][slot].as_ref().expect("a piece is here");
        block.pieces[&offset].linear
    }

    /// Strikes out an allocation that is freed, and its block where that goes by the rule.
    pub fn freed(&mut self, (memory_type, slot, offset): (usize, usize, u64)) {
        let is_last = self.shared_count(memory_type) == 1;
        let place = &mut self.blocks[memory_type][slot];
        let block = place.as_mut().expect("a piece was here");
        block.pieces.remove(&offset).expect("a piece was here");
        if block.pieces.is_empty() && !(block.is_shared && is_last) {
            *place = None;
        }
    }

    /// Gives a live piece another name.
    pub fn renamed(&mut self, (memory_type, slot, offset): (usize, usize, u64), name: &str) {
        let block = self.blocks[memory_type][slot].as_mut().expect("a piece is here");
        block.pieces.get_mut(&offset).expect("a piece is here").name = name.to_owned();
    }

    /// The driver holds just the live blocks.
    pub fn assert_held(&self, driver: &FakeDriver) {
        let mut live: Vec<u64> = self.blocks.iter().flatten().flatten().map(|block| block.memory).collect();
        live.sort_unstable();
        let state = driver.state();
        assert!(state.held.keys().copied().eq(live));
        assert_eq!(state.bytes(), self.capacity());
        assert_eq!(state.faults, [""; 0]);
    }
}
