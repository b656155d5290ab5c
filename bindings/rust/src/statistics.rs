//! What is counted of memory types, of any API.

use crate::raw;

/// What is counted of a memory type, and of all its blocks together.
#[derive(Clone, Copy, Debug, Default, PartialEq, Eq)]
pub struct TypeStatistics {
    /// The sum of the blocks' sizes in bytes.
    pub capacity: u64,
    /// How many slots there are, the empty ones included.
    pub slots: usize,
    /// How many blocks there are that several pieces may share.
    pub shared_blocks: usize,
    /// The bound of `capacity`, if there is one.
    pub budget: Option<u64>,
    /// How many pieces are live.
    pub pieces: usize,
    /// What they take in bytes, with the padding before them.
    pub piece_bytes: u64,
    /// How many gaps there are.
    pub gaps: usize,
    /// The length of the longest gap in bytes, 0 where there is none.
    pub longest_gap: u64,
}

impl TypeStatistics {
    /// What the library counts.
    pub(crate) fn counted(s: &raw::TypeStatistics) -> Self {
        TypeStatistics {
            capacity: s.capacity,
            slots: s.slots,
            shared_blocks: s.shared_blocks,
            budget: s.has_budget.then_some(s.budget),
            pieces: s.pieces,
            piece_bytes: s.piece_bytes,
            gaps: s.gaps,
            longest_gap: s.longest_gap,
        }
    }

    /// Of two memory types together.
    pub(crate) fn and(self, other: Self) -> Self {
        TypeStatistics {
            capacity: self.capacity + other.capacity,
            slots: self.slots + other.slots,
            shared_blocks: self.shared_blocks + other.shared_blocks,
            budget: None,
            pieces: self.pieces + other.pieces,
            piece_bytes: self.piece_bytes + other.piece_bytes,
            gaps: self.gaps + other.gaps,
            longest_gap: self.longest_gap.max(other.longest_gap),
        }
    }
}
