//! Visits of a block's live pieces: what virtual blocks and memory types share.

use crate::error::check_unrefused;
use crate::{raw, Result};
use std::num::NonZeroU64;

/// The kind of a piece. Pieces of different kinds share no page of their block.
#[derive(Clone, Copy, Debug, PartialEq, Eq, Hash)]
pub enum Kind {
    /// Buffers and linear images.
    Linear,
    /// Images in the device's own layout.
    NonLinear,
}

impl Kind {
    pub(crate) fn to_raw(self) -> u32 {
        match self {
            Kind::Linear => raw::KIND_LINEAR,
            Kind::NonLinear => raw::KIND_NON_LINEAR,
        }
    }

    pub(crate) fn of(is_linear: bool) -> Self {
        if is_linear {
            Kind::Linear
        } else {
            Kind::NonLinear
        }
    }
}

/// A live piece as a visit shows it: its padding is `start..offset`, its own bytes `offset..end`.
#[derive(Clone, Copy, Debug, PartialEq, Eq)]
pub struct PieceView {
    /// Its chunk id in the block.
    pub chunk_id: NonZeroU64,
    /// Where its padding begins, in bytes.
    pub start: u64,
    /// Where its own bytes begin.
    pub offset: u64,
    /// Where its bytes end.
    pub end: u64,
    /// Its kind.
    pub kind: Kind,
    /// The word that its owner keeps with it; 0 until one is set.
    pub word: u64,
}

impl PieceView {
    /// Its own size in bytes.
    pub fn size(&self) -> u64 {
        self.end - self.offset
    }

    /// The piece that a visit shows, if it shows one.
    pub(crate) fn shown(view: &raw::PieceView) -> Option<Self> {
        let chunk_id = NonZeroU64::new(view.number).filter(|_| view.exists)?;
        let kind = Kind::of(view.kind == raw::KIND_LINEAR);
        Some(PieceView { chunk_id, start: view.start, offset: view.offset, end: view.end, kind, word: view.word })
    }
}

/// A live piece with its name.
#[derive(Clone, Debug, PartialEq, Eq)]
pub struct NamedPiece {
    /// The piece.
    pub view: PieceView,
    /// The name that it was allocated or renamed with.
    pub name: String,
}

/// A block whose pieces can be visited, as the archive shows them.
pub(crate) trait Visited {
    /// How many pieces are live.
    fn count(&self) -> usize;

    /// Shows pieces from the block's start on, as far as there is room.
    fn show(&self, views: &mut [raw::PieceView]) -> (u32, usize);

    /// Shows these pieces' names: their lengths, and their bytes one after another.
    fn show_names(&self, lengths: &mut [usize], names: &mut [u8]) -> (u32, usize);

    /// All live pieces in order of offset, in linear time.
    fn views(&self) -> Result<Vec<PieceView>> {
        let mut raw_views = filled(self.count(), raw::PieceView::default())?;
        let (status, shown) = self.show(&mut raw_views);
        check_unrefused(status);
        let mut views = Vec::new();
        views.try_reserve_exact(shown)?;
        views.extend(raw_views.iter().take(shown).filter_map(PieceView::shown));
        Ok(views)
    }

    /// The same with their names.
    fn named(&self) -> Result<Vec<NamedPiece>> {
        let views = self.views()?;
        let mut lengths = filled(views.len(), 0)?;
        check_unrefused(self.show_names(&mut lengths, &mut []).0);
        let mut bytes = filled(lengths.iter().sum(), 0)?;
        check_unrefused(self.show_names(&mut lengths, &mut bytes).0);
        let mut pieces = Vec::new();
        pieces.try_reserve_exact(views.len())?;
        let mut rest = bytes.as_slice();
        for (view, length) in views.into_iter().zip(lengths) {
            let (name, behind) = rest.split_at(length);
            rest = behind;
            // names are UTF-8: the archive refuses others
            pieces.push(NamedPiece { view, name: crate::error::copied(&String::from_utf8_lossy(name))? });
        }
        Ok(pieces)
    }
}

/// So many times the same value, or `HostOutOfMemory`.
fn filled<T: Clone>(count: usize, value: T) -> Result<Vec<T>> {
    let mut values = Vec::new();
    values.try_reserve_exact(count)?;
    values.resize(count, value);
    Ok(values)
}
