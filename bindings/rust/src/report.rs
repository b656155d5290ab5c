//! Reports of what an allocator holds.

use crate::{NamedPiece, Result};
use std::cmp::Reverse;
use std::fmt;
use std::ops::Range;

/// One piece of a report.
#[derive(Clone, PartialEq, Eq)]
pub struct AllocationReport {
    /// The name that it was allocated or renamed with.
    pub name: String,
    /// Where its own bytes begin in its block, in bytes.
    pub offset: u64,
    /// Its own size in bytes, without padding.
    pub size: u64,
}

/// One block of a report.
#[derive(Clone, Debug, PartialEq, Eq)]
pub struct MemoryBlockReport {
    /// Its size in bytes.
    pub size: u64,
    /// Which of the report's `allocations` lie in it.
    pub allocations: Range<usize>,
}

/// What these blocks hold: of each its size and its pieces. `capacity` is the sum of all sizes in bytes.
pub(crate) fn report_of(
    capacity: u64,
    blocks: impl Iterator<Item = (u64, Result<Vec<NamedPiece>>)>,
) -> Result<AllocatorReport> {
    let mut report = AllocatorReport {
        allocations: Vec::new(),
        blocks: Vec::new(),
        total_allocated_bytes: 0,
        total_capacity_bytes: capacity,
    };
    for (size, pieces) in blocks {
        let (pieces, start) = (pieces?, report.allocations.len());
        report.total_allocated_bytes += pieces.iter().map(|it| it.view.end - it.view.start).sum::<u64>();
        report.allocations.try_reserve(pieces.len())?;
        report.allocations.extend(pieces.into_iter().map(row));
        report.blocks.try_reserve(1)?;
        report.blocks.push(MemoryBlockReport { size, allocations: start..report.allocations.len() });
    }
    Ok(report)
}

fn row(piece: NamedPiece) -> AllocationReport {
    AllocationReport { offset: piece.view.offset, size: piece.view.size(), name: piece.name }
}

/// What an allocator holds: pieces and blocks by memory type, slot and offset. `{:?}` prints the sums and the pieces, the largest first;
/// a precision (`{:.5?}`) bounds how many.
#[derive(Clone, PartialEq, Eq)]
pub struct AllocatorReport {
    /// The live pieces.
    pub allocations: Vec<AllocationReport>,
    /// The live blocks.
    pub blocks: Vec<MemoryBlockReport>,
    /// What all pieces take in bytes, with the padding before them.
    pub total_allocated_bytes: u64,
    /// The sizes of all blocks in bytes, summed up.
    pub total_capacity_bytes: u64,
}

/// Prints the name and the size: `"vertices": 1.50 KB`. An empty name is shown as `"--"`.
impl fmt::Debug for AllocationReport {
    fn fmt(&self, f: &mut fmt::Formatter<'_>) -> fmt::Result {
        let name = if self.name.is_empty() { "--" } else { &self.name };
        write!(f, "{name:?}: {}", Bytes(self.size))
    }
}

impl fmt::Debug for AllocatorReport {
    fn fmt(&self, f: &mut fmt::Formatter<'_>) -> fmt::Result {
        let mut rows: Vec<&AllocationReport> = self.allocations.iter().collect();
        rows.sort_by_key(|row| Reverse(row.size));
        rows.truncate(f.precision().unwrap_or(usize::MAX));
        write!(
            f,
            "AllocatorReport {{ summary: {} / {}, blocks: {}, allocations: {}, largest: {rows:?} }}",
            Bytes(self.total_allocated_bytes),
            Bytes(self.total_capacity_bytes),
            self.blocks.len(),
            self.allocations.len()
        )
    }
}

/// An amount of bytes; it prints with two decimals in the largest unit that it reaches, each 1,024 of the one before: `1.50 KB`.
#[derive(Clone, Copy, Debug)]
struct Bytes(u64);

impl fmt::Display for Bytes {
    fn fmt(&self, f: &mut fmt::Formatter<'_>) -> fmt::Result {
        const UNITS: [&str; 6] = ["KB", "MB", "GB", "TB", "PB", "EB"];
        if self.0 < 1024 {
            return write!(f, "{}.00 B", self.0);
        }
        let divisions = self.0.ilog2() as usize / 10;
        // below 2^20, so the quotient is exact
        let last = self.0 >> (10 * (divisions - 1));
        write!(f, "{:.2} {}", last as f64 / 1024.0, UNITS[divisions - 1])
    }
}

#[cfg(test)]
mod tests {
    use super::*;

    #[test]
    fn amounts_print_in_their_unit() {
        let amounts = [
            (0, "0.00 B"),
            (1023, "1023.00 B"),
            (1024, "1.00 KB"),
            (1536, "1.50 KB"),
            ((1 << 20) - 1, "1024.00 KB"),
            (5 << 20, "5.00 MB"),
            (3 << 30, "3.00 GB"),
            (7 << 40, "7.00 TB"),
            (2 << 50, "2.00 PB"),
            (u64::MAX, "16.00 EB"),
        ];
        for (amount, text) in amounts {
            assert_eq!(Bytes(amount).to_string(), text);
        }
    }

    #[test]
    fn reports_print_the_largest_first() {
        let row = |name: &str, offset, size| AllocationReport { name: name.to_owned(), offset, size };
        let report = AllocatorReport {
            allocations: vec![row("a", 0, 100), row("", 100, 1536)],
            blocks: vec![MemoryBlockReport { size: 4 << 20, allocations: 0..2 }],
            total_allocated_bytes: 1636,
            total_capacity_bytes: 4 << 20,
        };
        let sums = "summary: 1.60 KB / 4.00 MB, blocks: 1, allocations: 2";
        assert_eq!(
            format!("{report:?}"),
            format!("AllocatorReport {{ {sums}, largest: [\"--\": 1.50 KB, \"a\": 100.00 B] }}")
        );
        assert_eq!(format!("{report:.1?}"), format!("AllocatorReport {{ {sums}, largest: [\"--\": 1.50 KB] }}"));
    }
}
