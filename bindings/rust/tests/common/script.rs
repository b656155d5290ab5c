//! Random calls of an allocator, each looked at beside the plain account.
#![allow(dead_code)]

use super::account::{Account, Met};
use super::{FakeDriver, Random, Refusal, MB};
use pilhangko::vulkan::{
    Allocation, AllocationCreateDesc, AllocationOptions, AllocationScheme, Allocator, AllocatorCreateDesc, Buffer,
    Defragmentation, DefragmentationStatistics, Image, MemoryPropertyFlags, MemoryRequirements, MoveKey,
};
use pilhangko::{AllocationError, AllocationSizes, MemoryLocation, Result};
use std::collections::BTreeMap;

const TYPES: [(u32, u32); 6] = [(1, 0), (6, 1), (7, 2), (14, 1), (3, 0), (10, 1)];
const HEAPS: [u64; 3] = [400 * MB, 200 * MB, 24 * MB];
const PAGE: u64 = 1024;
const ATOM: u64 = 256;

/// Names of different lengths, some with characters that a trace hasn't.
const NAMES: [&str; 5] = [
    "",
    "vertices",
    "shadow map 7",
    "größe",
    "a name that is longer than what a trace has room for: 64 bytes and no more",
];

/// What a call returned, in the words of a trace's reply.
pub type Reply = String;

/// An allocator, its driver, the account, and what is live.
#[derive(Debug)]
pub struct Script {
    pub allocator: Allocator,
    pub account: Account,
    pub random: Random,
    pub live: Vec<Allocation>,
    pub replies: Vec<Reply>,
    pub driver: Box<FakeDriver>,
    /// How often each outcome came: error numbers, and 0 for success.
    pub outcomes: BTreeMap<u32, u64>,
    /// How often each outcome came of requests by flags, and how often memory that isn't the cheapest served.
    pub by_flags: BTreeMap<u32, u64>,
    pub dearer: u64,
    /// How often a second place was found, and how often there was none.
    pub moves: BTreeMap<bool, u64>,
    pub defragmentation: Defragmentation,
    /// The open moves, and where their first places lie.
    open: Vec<(MoveKey, (usize, usize, u64))>,
    /// What the account counts of finished moves, and how many moves were abandoned.
    pub finished: DefragmentationStatistics,
    pub abandoned: u64,
    is_captured: bool,
    /// The budgets as the capture has them by now.
    captured_budgets: Vec<Option<u64>>,
}

/// Sizes: most are small, some larger than a block, few larger than a heap.
fn size(random: &mut Random) -> u64 {
    match random.below(400) {
        0 => 0,
        1 => 24 * MB + random.below(400 * MB),
        2..=5 => 4 * MB + random.below(12 * MB),
        6..=40 => random.below(2 * MB),
        _ => 1 + random.below(60_000),
    }
}

fn alignment(random: &mut Random) -> u64 {
    match random.below(200) {
        0 => 0,
        1 => 48,
        2 => 1 << (12 + random.below(11)),
        _ => 1 << random.below(10),
    }
}

fn location(random: &mut Random) -> MemoryLocation {
    random.of(&[
        MemoryLocation::Unknown,
        MemoryLocation::GpuOnly,
        MemoryLocation::CpuToGpu,
        MemoryLocation::CpuToGpu,
        MemoryLocation::GpuToCpu,
    ])
}

pub fn description(random: &mut Random) -> AllocationCreateDesc<'static> {
    let number = random.next();
    AllocationCreateDesc {
        name: random.of(&NAMES),
        requirements: MemoryRequirements {
            size: size(random),
            alignment: alignment(random),
            memory_type_bits: if random.one_in(4) { random.next() as u32 } else { u32::MAX },
        },
        location: location(random),
        linear: !random.one_in(3),
        allocation_scheme: match random.below(40) {
            0 => AllocationScheme::DedicatedBuffer(Buffer(number)),
            1 => AllocationScheme::DedicatedImage(Image(number)),
            _ => AllocationScheme::GpuAllocatorManaged,
        },
    }
}

/// Flags that choose: those for staging, or any.
fn flags(random: &mut Random) -> AllocationOptions<'static> {
    if random.one_in(3) {
        return AllocationOptions { never_allocate: random.one_in(4), ..AllocationOptions::staging() };
    }
    let mut some = |mask| MemoryPropertyFlags((random.next() & random.next() & mask) as u32);
    let (required_flags, preferred_flags, avoided_flags) = (some(15), some(31), some(15));
    let has_none = required_flags.0 | preferred_flags.0 | avoided_flags.0 == 0;
    let never_allocate = has_none || random.one_in(4);
    AllocationOptions { required_flags, preferred_flags, avoided_flags, never_allocate, ..AllocationOptions::default() }
}

/// Where an allocation lies.
fn place(it: &Allocation) -> (usize, usize, u64) {
    (it.memory_type_index(), it.memory_block_index(), it.offset())
}

/// What a trace replies to a request.
pub fn reply(result: &Result<Allocation>) -> Reply {
    match result {
        Err(error) => format!("error E{}", error.number()),
        Ok(it) => reply_of(it),
    }
}

fn reply_of(it: &Allocation) -> Reply {
    format!(
        "ok type {} slot {} offset {} size {} chunk {} dedicated {} mapped {}",
        it.memory_type_index(),
        it.memory_block_index(),
        it.offset(),
        it.size(),
        it.chunk_id().map_or(0, u64::from),
        it.is_dedicated(),
        it.mapped_ptr().is_some()
    )
}

impl Script {
    pub fn new(seed: u64, is_captured: bool) -> Self {
        // on odd runs the driver grants so many memories at once
        let most = (seed % 2 == 1).then_some(25);
        let driver =
            FakeDriver::new(&TYPES, &HEAPS, PAGE).with_atoms(ATOM).with_most_memories(most.unwrap_or(0) as u32);
        let sizes = AllocationSizes::new(8 * MB, 4 * MB).with_max_device_memblock_size(32 * MB);
        let desc = AllocatorCreateDesc {
            allocation_sizes: sizes,
            whole_blocks: true, // the account's are; smaller ones stand beside C's
            buffer_device_address: true,
            capture: is_captured,
            ..AllocatorCreateDesc::new(driver.device())
        };
        Script {
            allocator: Allocator::new(&desc).expect("the device makes sense"),
            account: Account { most, ..Account::new(&TYPES, &HEAPS, PAGE, ATOM, sizes) },
            random: Random(seed),
            live: Vec::new(),
            replies: vec!["ok".to_owned()],
            driver,
            outcomes: BTreeMap::new(),
            by_flags: BTreeMap::new(),
            dearer: 0,
            moves: BTreeMap::new(),
            defragmentation: Defragmentation::new(),
            open: Vec::new(),
            finished: DefragmentationStatistics::default(),
            abandoned: 0,
            is_captured,
            captured_budgets: vec![None; TYPES.len()],
        }
    }

    fn told(&mut self, reply: Reply) {
        if self.is_captured {
            self.replies.push(reply);
        }
    }

    /// The bounds of the memory types, as the account has them now.
    fn bounds(&self) -> Vec<Option<u64>> {
        (0..TYPES.len()).map(|index| self.account.bound(index)).collect()
    }

    /// Before an allocation and at the end a capture has those budgets that are others than before.
    pub fn told_budgets(&mut self) {
        let budgets = self.bounds();
        let changed = budgets.iter().zip(&self.captured_budgets).filter(|(now, before)| now != before).count();
        (0..changed).for_each(|_| self.told("ok".to_owned()));
        self.captured_budgets = budgets;
    }

    /// Lets the driver refuse one of the next four questions, sometimes.
    fn maybe_refuse(&mut self) {
        if self.random.one_in(6) {
            let refusal = self.random.of(&[Refusal::Code(-2), Refusal::Code(-1), Refusal::Code(-5), Refusal::Null]);
            let question = self.driver.state().questions + 1 + self.random.below(4);
            self.driver.refuse(question, refusal);
        }
    }

    pub fn allocate(&mut self) {
        let desc = description(&mut self.random);
        self.maybe_refuse();
        self.driver.state().refused.clear();
        let result = self.allocator.allocate(&desc);
        let met = Met { refused: self.driver.state().refused.clone() };
        // what is invalid is in no capture
        if !result.as_ref().is_err_and(|error| *error == AllocationError::InvalidAllocationCreateDesc) {
            self.told_budgets();
            self.told(reply(&result));
        }
        *self.outcomes.entry(result.as_ref().map_or_else(AllocationError::number, |_| 0)).or_default() += 1;
        match result {
            Err(error) => self.account.refused(&desc, &met, &error),
            Ok(mut it) => {
                self.account.allocated(&self.driver, &desc, &met, &it);
                assert_eq!(it.name(), Some(desc.name));
                mark(&mut it);
                self.live.push(it);
            }
        }
    }

    /// A request whose memory flags choose: a capture has it where it served.
    pub fn allocate_by_flags(&mut self) {
        let desc = AllocationCreateDesc { location: MemoryLocation::Unknown, ..description(&mut self.random) };
        let options = flags(&mut self.random);
        self.maybe_refuse();
        self.driver.state().refused.clear();
        let result = self.allocator.allocate_with(&desc, &options);
        let met = Met { refused: self.driver.state().refused.clone() };
        *self.by_flags.entry(result.as_ref().map_or_else(AllocationError::number, |_| 0)).or_default() += 1;
        match &result {
            Err(error) => self.account.refused_by_flags(&desc, &options, &met, error),
            Ok(it) => {
                self.told_budgets();
                self.told(reply(&result));
                self.dearer += u64::from(self.account.allocated_by_flags(&self.driver, &desc, &options, &met, it));
            }
        }
        if let Ok(mut it) = result {
            mark(&mut it);
            self.live.push(it);
        }
    }

    pub fn free(&mut self) {
        if self.live.is_empty() {
            return;
        }
        let index = self.random.below(self.live.len() as u64) as usize;
        let it = self.live.swap_remove(index);
        assert!(self.allocator.is_live(&it));
        assert_marked(&it);
        let place = place(&it);
        self.allocator.free(it).expect("a live allocation is freed");
        self.account.freed(place);
        self.told("ok".to_owned());
        // its move can't be finished any more
        if let Some(at) = self.open.iter().position(|&(_, from)| from == place) {
            self.abandon(at);
        }
    }

    pub fn rename(&mut self) {
        if self.live.is_empty() {
            return;
        }
        let index = self.random.below(self.live.len() as u64) as usize;
        let name = self.random.of(&NAMES);
        let it = &mut self.live[index];
        self.allocator.rename_allocation(it, name).expect("a live allocation is renamed");
        assert_eq!(it.name(), Some(name));
        self.account.renamed(place(it), name);
        self.told("ok".to_owned());
    }

    /// A second place for a live allocation, which then is live beside it.
    pub fn propose_move(&mut self) {
        if self.live.is_empty() {
            return;
        }
        let index = self.random.below(self.live.len() as u64) as usize;
        let from = &self.live[index];
        // a request that only the allocation's own memory type admits, or any
        let (memory_type_bits, location) = if self.random.one_in(2) {
            (1 << from.memory_type_index(), MemoryLocation::Unknown)
        } else {
            (u32::MAX, location(&mut self.random))
        };
        let desc = AllocationCreateDesc {
            name: self.random.of(&NAMES),
            requirements: MemoryRequirements { size: from.size(), alignment: 16, memory_type_bits },
            location,
            linear: self.account.is_linear(place(from)),
            allocation_scheme: AllocationScheme::GpuAllocatorManaged,
        };
        let questions = self.driver.state().questions;
        let proposed = self.allocator.propose_move(from, &desc).expect("a live allocation of that size may move");
        assert_eq!(self.driver.state().questions, questions);
        *self.moves.entry(proposed.is_some()).or_default() += 1;
        let Some(mut to) = proposed else {
            self.told_budgets();
            self.told("none".to_owned());
            return;
        };
        self.account.moved(&self.driver, &desc, from, &to);
        assert!(self.allocator.is_live(from) && self.allocator.is_live(&to));
        assert_eq!(to.name(), Some(desc.name));
        assert_marked(from);
        mark(&mut to);
        let result = Ok(to);
        self.told_budgets();
        self.told(reply(&result));
        self.live.extend(result);
    }

    /// The moves of a frame over all that is live; they stay open.
    pub fn propose_frame(&mut self) {
        let descs: Vec<_> = self.live.iter().map(|it| self.described_again(it)).collect();
        let movables: Vec<_> = self.live.iter().zip(descs.iter().cloned()).collect();
        let (bytes, most) = (self.random.below(2 * MB), self.random.below(6) as usize);
        let mut candidates: Vec<_> = (0..self.live.len()).filter(|&index| !self.is_open(&self.live[index])).collect();
        candidates.sort_by_key(|&index| self.live[index].memory_block_index());
        let moves = self.defragmentation.propose(&mut self.allocator, &movables, bytes, most).expect("all may move");
        assert!(moves.len() <= most && moves.iter().map(|it| it.to().size()).sum::<u64>() <= bytes);
        let mut placed = BTreeMap::new();
        let mut last = 0;
        for it in moves {
            let from = &self.live[it.index()];
            assert!(self.open.iter().all(|&(_, first)| first != place(from)) && from.memory_block_index() >= last);
            last = from.memory_block_index();
            self.account.moved(&self.driver, &descs[it.index()], from, it.to());
            self.open.push((it.key(), place(from)));
            placed.insert(it.index(), reply_of(it.to()));
        }
        assert_eq!(self.defragmentation.is_done(), self.open.is_empty());
        self.told_frame(&candidates, bytes, most, &placed);
    }

    /// A capture has each proposal of a frame, also those of allocations that stay.
    fn told_frame(&mut self, candidates: &[usize], mut bytes: u64, most: usize, placed: &BTreeMap<usize, Reply>) {
        let mut moved = 0;
        for index in candidates {
            let size = self.live[*index].size();
            if moved == most {
                return;
            }
            if size > bytes {
                continue;
            }
            self.told_budgets();
            self.told(placed.get(index).cloned().unwrap_or_else(|| "none".to_owned()));
            if placed.contains_key(index) {
                (moved, bytes) = (moved + 1, bytes - size);
            }
        }
    }

    fn is_open(&self, it: &Allocation) -> bool {
        self.open.iter().any(|&(_, first)| first == place(it))
    }

    /// A request that an allocation could have been made for.
    fn described_again(&self, it: &Allocation) -> AllocationCreateDesc<'static> {
        AllocationCreateDesc {
            name: "moved",
            requirements: MemoryRequirements {
                size: it.size(),
                alignment: 16,
                memory_type_bits: 1 << it.memory_type_index(),
            },
            location: MemoryLocation::Unknown,
            linear: self.account.is_linear(place(it)),
            allocation_scheme: AllocationScheme::GpuAllocatorManaged,
        }
    }

    /// Finishes an open move, or abandons it.
    pub fn end_move(&mut self) {
        if self.open.is_empty() {
            return;
        }
        let at = self.random.below(self.open.len() as u64) as usize;
        if self.random.one_in(3) {
            self.abandon(at);
        } else {
            self.finish(at);
        }
    }

    fn finish(&mut self, at: usize) {
        let (key, first) = self.open.swap_remove(at);
        let index = self.live.iter().position(|it| place(it) == first).expect("the first place is live");
        let it = &mut self.live[index];
        assert_marked(it);
        let before = self.account.capacity();
        self.account.freed(first);
        let given_back = before - self.account.capacity();
        self.defragmentation.finish(&mut self.allocator, key, it).expect("the move is open");
        mark(it);
        self.finished.moves += 1;
        self.finished.bytes_moved += it.size();
        self.finished.blocks_given_back += u64::from(given_back > 0);
        self.finished.bytes_given_back += given_back;
        assert_eq!(self.defragmentation.statistics(), self.finished);
        assert!(self.defragmentation.abandon(&mut self.allocator, key).is_err());
        self.told("ok".to_owned());
    }

    fn abandon(&mut self, at: usize) {
        let (key, _) = self.open.swap_remove(at);
        let it = self.defragmentation.open().iter().find(|it| it.key() == key).expect("the move is open");
        self.account.freed(place(it.to()));
        self.defragmentation.abandon(&mut self.allocator, key).expect("the move is open");
        self.abandoned += 1;
        self.told("ok".to_owned());
    }

    /// Abandons what is open.
    pub fn end_moves(&mut self) {
        while !self.open.is_empty() {
            self.abandon(0);
        }
        assert!(self.defragmentation.open().is_empty());
    }

    pub fn set_budget(&mut self) {
        let memory_type = self.random.below(TYPES.len() as u64 + 1) as usize;
        let budget = (!self.random.one_in(2)).then(|| self.random.below(120 * MB));
        let result = self.allocator.set_budget(memory_type, budget);
        if memory_type == TYPES.len() {
            assert!(matches!(result, Err(AllocationError::Internal(_))));
        } else {
            result.expect("the memory type is there");
            self.account.budgets[memory_type] = budget;
        }
        let expected = self.account.budgets.get(memory_type).copied().flatten();
        assert_eq!(self.allocator.budget(memory_type), expected);
    }

    pub fn set_heap_limit(&mut self) {
        let heap = self.random.below(HEAPS.len() as u64 + 1) as usize;
        let limit = (!self.random.one_in(2)).then(|| self.random.below(200 * MB));
        let result = self.allocator.set_heap_limit(heap, limit);
        if heap == HEAPS.len() {
            assert!(matches!(result, Err(AllocationError::Internal(_))));
        } else {
            result.expect("the heap is there");
            self.account.limits[heap] = limit;
        }
        assert_eq!(self.allocator.heap_limit(heap), self.account.limits.get(heap).copied().flatten());
    }

    /// A random call. Phases in which more is allocated than freed alternate with the reverse.
    pub fn step(&mut self, number: u64) {
        let allocates = if number / 3000 % 2 == 0 { 55 } else { 40 };
        match self.random.below(100) {
            0 if self.random.one_in(3) => self.set_heap_limit(),
            0 => self.set_budget(),
            1..=3 => self.rename(),
            4..=8 => self.propose_move(),
            9..=10 if self.random.one_in(4) => self.propose_frame(),
            9..=10 => self.end_move(),
            it if it < 8 + allocates && self.random.one_in(4) => self.allocate_by_flags(),
            it if it < 8 + allocates => self.allocate(),
            _ => self.free(),
        }
        self.account.assert_held(&self.driver);
        assert_eq!(self.allocator.capacity(), self.account.capacity());
        if number % 1000 == 0 {
            self.assert_reported();
        }
    }

    /// The report shows what the account has.
    pub fn assert_reported(&self) {
        let report = self.allocator.generate_report();
        let mut rows = report.allocations.iter();
        let mut blocks = report.blocks.iter();
        for block in self.account.blocks.iter().flatten().flatten() {
            let shown = blocks.next().expect("each block is shown");
            assert_eq!((shown.size, shown.allocations.len()), (block.size, block.pieces.len()));
            for (offset, piece) in &block.pieces {
                let row = rows.next().expect("each piece is shown");
                assert_eq!((&row.name, row.offset, row.offset + row.size), (&piece.name, *offset, piece.end));
            }
        }
        assert!(rows.next().is_none() && blocks.next().is_none());
        assert_eq!(report.total_capacity_bytes, self.account.capacity());
        let own: u64 = report.allocations.iter().map(|row| row.size).sum();
        assert!((own..=report.total_capacity_bytes).contains(&report.total_allocated_bytes));
        self.assert_counted(report.total_allocated_bytes);
    }

    /// What is counted of memory types and blocks is what the account has; pieces with their padding sum up to so many bytes.
    fn assert_counted(&self, piece_bytes: u64) {
        let mut bytes = 0;
        for (memory_type, slots) in self.account.blocks.iter().enumerate() {
            let counted = self.allocator.type_statistics(memory_type).expect("the memory type is there");
            let live = || slots.iter().flatten();
            let pieces: usize = live().map(|block| block.pieces.len()).sum();
            let capacity: u64 = live().map(|block| block.size).sum();
            let shared_blocks = live().filter(|block| block.is_shared).count();
            assert_eq!((counted.pieces, counted.capacity, counted.shared_blocks), (pieces, capacity, shared_blocks));
            assert_eq!((counted.slots, counted.budget), (slots.len(), self.account.budgets[memory_type]));
            for (slot, block) in slots.iter().enumerate() {
                let of_block = self.allocator.block_statistics(memory_type, slot);
                assert_eq!(of_block.map(|it| it.pieces), block.as_ref().map(|it| it.pieces.len()));
            }
            bytes += counted.piece_bytes;
        }
        assert_eq!(bytes, piece_bytes);
        assert!(self.allocator.type_statistics(TYPES.len()).is_none());
    }
}

/// Writes where an allocation lies into its first and last bytes.
fn mark(it: &mut Allocation) {
    let mark = mark_of(it);
    if let Some(bytes) = it.mapped_slice_mut() {
        let length = bytes.len().min(mark.len());
        bytes[..length].copy_from_slice(&mark[..length]);
        let end = bytes.len() - length;
        bytes[end..].copy_from_slice(&mark[..length]);
    }
}

fn assert_marked(it: &Allocation) {
    let mark = mark_of(it);
    if let Some(bytes) = it.mapped_slice() {
        let length = bytes.len().min(mark.len());
        assert_eq!(bytes[bytes.len() - length..], mark[..length]);
        if bytes.len() >= 2 * length {
            assert_eq!(bytes[..length], mark[..length]);
        }
    }
}

fn mark_of(it: &Allocation) -> [u8; 8] {
    let (memory_type, slot, offset) = place(it);
    (offset ^ (slot as u64) << 40 ^ (memory_type as u64) << 56 ^ it.size() << 20).to_le_bytes()
}
