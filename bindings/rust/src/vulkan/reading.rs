//! What is read of an allocator: what is counted, its report, and its live pieces as leaks.

use super::allocator::Allocator;
use super::allocator_handle::AllocatorHandle;
use super::visit::LiveBlock;
use crate::error::out_of_host_memory;
use crate::memory_type::BlockStatistics;
use crate::pieces::Visited;
use crate::report::report_of;
use crate::statistics::TypeStatistics;
use crate::{AllocatorReport, Kind, Level, NamedPiece, PieceView, Result};
use std::fmt;

impl Allocator {
    /// The sum of the sizes of the live blocks in bytes.
    pub fn capacity(&self) -> u64 {
        self.handle.capacity()
    }

    /// The sum of the sizes of a memory type's blocks in bytes; `None` where it isn't there.
    pub fn type_capacity(&self, memory_type: usize) -> Option<u64> {
        self.handle.type_capacity(memory_type)
    }

    /// What is counted of a memory type; `None` where it isn't there.
    pub fn type_statistics(&self, memory_type: usize) -> Option<TypeStatistics> {
        self.handle.type_statistics(memory_type)
    }

    /// The same of all memory types together: the sums, and the longest gap of any; without a budget.
    pub fn statistics(&self) -> TypeStatistics {
        let types = (0..).map_while(|memory_type| self.type_statistics(memory_type));
        types.fold(TypeStatistics::default(), TypeStatistics::and)
    }

    /// What is counted of the block in a slot of a memory type, if one is there.
    pub fn block_statistics(&self, memory_type: usize, slot: usize) -> Option<BlockStatistics> {
        self.handle.block_at(memory_type, slot).statistics()
    }

    /// All live pieces of the block in a slot in order of offset, with their names, in linear time; none where the slot has no block.
    ///
    /// The error: `HostOutOfMemory`.
    pub fn named_pieces(&self, memory_type: usize, slot: usize) -> Result<Vec<NamedPiece>> {
        self.handle.block_at(memory_type, slot).named()
    }

    /// What is held: pieces and blocks by memory type, slot and offset. Where the host has no memory for it, the program ends, as it does
    /// wherever Rust's lists have none; `report_json` and `named_pieces` return an error instead.
    pub fn generate_report(&self) -> AllocatorReport {
        let handle = &self.handle;
        let named = |it: LiveBlock| (it.size, handle.block_at(it.memory_type, it.slot).named());
        report_of(handle.capacity(), handle.blocks().map(named)).unwrap_or_else(|_| out_of_host_memory())
    }

    /// The report as JSON (`gpu_report.allocator` of docs/REPORT.md).
    ///
    /// The error: `HostOutOfMemory`.
    pub fn report_json(&self) -> Result<String> {
        self.handle.report_json()
    }

    /// Logs each live allocation as a leak, by memory type, slot and offset, where there is a logger. Where the host has no memory for the
    /// next ones, the last line says so.
    pub fn report_memory_leaks(&self, log_level: Level) {
        self.log.leaks(log_level, |log| leaks(&self.handle, |leak| log(&leak.to_string())));
    }
}

/// Hands each live piece to `tell`, as a leak, by memory type, slot and offset.
fn leaks(handle: &AllocatorHandle, mut tell: impl FnMut(Leak<'_>)) -> Result<()> {
    for LiveBlock { memory_type, slot, is_shared, .. } in handle.blocks() {
        for NamedPiece { view, name } in &handle.block_at(memory_type, slot).named()? {
            tell(Leak { memory_type, slot, is_shared, view, name });
        }
    }
    Ok(())
}

/// A live piece as a leak. It prints the lines that are logged of it: of a piece of a shared block with its padding.
#[derive(Clone, Copy, Debug)]
struct Leak<'a> {
    memory_type: usize,
    slot: usize,
    is_shared: bool,
    view: &'a PieceView,
    name: &'a str,
}

impl fmt::Display for Leak<'_> {
    fn fmt(&self, f: &mut fmt::Formatter<'_>) -> fmt::Result {
        let Leak { memory_type, slot, is_shared, view, name } = self;
        let (chunk_id, start, size) = (view.chunk_id, view.start, view.end - view.start);
        writeln!(f, "leak detected: {{\n    memory type: {memory_type}\n    memory block: {slot}")?;
        if *is_shared {
            let kind = if view.kind == Kind::Linear { "Linear" } else { "NonLinear" };
            writeln!(f, "    chunk: {{\n        chunk_id: {chunk_id},\n        size: {size:#x},")?;
            writeln!(f, "        offset: {start:#x},\n        allocation_type: {kind},")?;
        } else {
            writeln!(f, "    dedicated allocation: {{\n        size: {size:#x},")?;
        }
        write!(f, "        name: {name}\n    }}\n}}")
    }
}
