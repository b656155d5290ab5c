//! The proved allocator, which calls no driver: it says what to ask for, and is told the answer.

use super::allocator::{AllocationCreateDesc, ResourceCategory};
use super::device::ID3D12DeviceVersion;
use super::Interface;
use crate::error::{check, check_unrefused, internal};
use crate::memory_type::BlockStatistics;
use crate::pieces::Visited;
use crate::raw::{
    self, copied_text, Handle, HeapsCommitted, HeapsCommittedStatistics, HeapsPiece, HeapsProgress, HeapsQuestion,
};
use crate::statistics::TypeStatistics;
use crate::vulkan::location_number;
use crate::{AllocationError, AllocationSizes, Fault, MemoryLocation, Result};
use std::ffi::c_void;

/// What a request leads to.
#[derive(Clone, Copy, Debug)]
pub(super) enum Progress {
    /// A piece is allocated.
    Piece(HeapsPiece),
    /// The driver is to be asked for a heap.
    Question(HeapsQuestion),
}

fn category_number(category: ResourceCategory) -> u32 {
    match category {
        ResourceCategory::Buffer => raw::CATEGORY_BUFFER,
        ResourceCategory::RtvDsvTexture => raw::CATEGORY_RTV_DSV_TEXTURE,
        ResourceCategory::OtherTexture => raw::CATEGORY_OTHER_TEXTURE,
    }
}

/// A request for the library.
pub(super) fn raw_request(desc: &AllocationCreateDesc<'_>) -> raw::HeapsRequest {
    raw::HeapsRequest {
        size: desc.size,
        alignment: desc.alignment,
        location: location_number(desc.location),
        category: category_number(desc.resource_category),
    }
}

/// What an allocator without blocks of a device of that resource heap tier is made with, for the library.
pub(super) fn raw_settings(heap_tier: u32, sizes: &AllocationSizes) -> raw::HeapsSettings {
    let sizes = sizes.parts();
    raw::HeapsSettings {
        heap_tier,
        device_block_size: sizes.device,
        largest_device_block_size: sizes.largest_device,
        host_block_size: sizes.host,
        largest_host_block_size: sizes.largest_host,
    }
}

/// By which call a resource is made: it begins in a layout, it has castable formats.
pub(super) fn choose_call(version: &ID3D12DeviceVersion, in_layout: bool, has_formats: bool) -> Result<u32> {
    let mut call = 0;
    // SAFETY: the call's number has a place.
    check(unsafe { raw::pilhangko_raw_heaps_choose_call(version.number(), in_layout, has_formats, &mut call) })?;
    Ok(call)
}

/// The number of an interface, as the library keeps it.
fn number_of(interface: &Interface) -> u64 {
    interface.as_raw() as usize as u64
}

/// A reference to a heap beside the allocator's own.
pub(super) fn heap_of(piece: &HeapsPiece) -> Interface {
    let heap = piece.piece.block as usize as *mut c_void;
    // SAFETY: the number is a heap's, which the allocator holds as long as a piece lies there.
    unsafe { Interface::from_borrowed(heap) }.expect("a heap isn't null")
}

/// The allocator's own reference to a heap, which it gives up.
fn heap_back(heap: u64) -> Option<Interface> {
    // SAFETY: the number is a heap's whose reference the allocator was given, and which it names no more.
    unsafe { Interface::from_raw(heap as usize as *mut c_void) }
}

/// The allocator behind its handle. It holds a reference to each heap: dropping it releases them all, whatever else fails.
#[derive(Debug)]
pub(super) struct AllocatorHandle {
    handle: Handle,
    /// How often a budget was set, by which bounds of memory types may be others.
    pub(super) changes: u64,
}

impl AllocatorHandle {
    /// An allocator without blocks.
    pub(super) fn new(settings: &raw::HeapsSettings) -> Result<Self> {
        let handle = Handle::empty();
        // SAFETY: the handle is empty and this call's alone, and the settings outlive the call.
        match unsafe { raw::pilhangko_raw_heaps_create(handle.as_ptr(), settings) } {
            raw::INVALID_TIER => {
                let text = "the resource heap tier is 0.";
                Err(AllocationError::InvalidAllocatorCreateDesc(Fault { text, code: None }))
            }
            status => check(status).map(|()| AllocatorHandle { handle, changes: 0 }),
        }
    }

    /// Begins a request. A question that it leads to has to be answered before the next request.
    pub(super) fn begin(&mut self, desc: &AllocationCreateDesc<'_>) -> Result<Progress> {
        let mut progress = HeapsProgress::default();
        let request = raw_request(desc);
        let (name, length) = (desc.name.as_ptr(), desc.name.len());
        // SAFETY: the handle is this allocator's alone, the name's bytes are as many as is said, and all of it outlives the call.
        check(unsafe { raw::pilhangko_raw_heaps_begin(self.handle.as_ptr(), &request, name, length, &mut progress) })?;
        match progress.kind {
            raw::PROGRESS_PIECE => Ok(Progress::Piece(progress.piece)),
            _ => Ok(Progress::Question(progress.question)),
        }
    }

    /// The driver made this heap, whose reference is the allocator's now. A question is open.
    pub(super) fn granted(&mut self, heap: Interface) -> HeapsPiece {
        let mut piece = HeapsPiece::default();
        // SAFETY: the handle is this allocator's alone.
        check_unrefused(unsafe {
            raw::pilhangko_raw_heaps_granted(self.handle.as_ptr(), number_of(&heap), &mut piece)
        });
        let _ = heap.into_raw();
        piece
    }

    /// The driver made no heap, with this code, or gave null. A question is open.
    pub(super) fn refused(&mut self, code: Option<i32>) -> AllocationError {
        let mut progress = HeapsProgress::default();
        // SAFETY: the handle is this allocator's alone.
        check_unrefused(unsafe {
            raw::pilhangko_raw_heaps_refused(self.handle.as_ptr(), code.unwrap_or(0), &mut progress)
        });
        match (progress.status, code) {
            (raw::DRIVER_REFUSED, Some(code)) => super::device::fault("ID3D12Device::CreateHeap failed", code),
            (raw::DRIVER_REFUSED, None) => internal("ID3D12Heap pointer is null, but should not be."),
            (status, _) => check(status).expect_err("a refused request has a status but OK"),
        }
    }

    /// Frees a piece, and releases its heap where that goes with it.
    pub(super) fn free(&mut self, piece: &HeapsPiece) -> Result<()> {
        let mut back = raw::MemoryBlock::default();
        // SAFETY: the handle is this allocator's alone, and the piece outlives the call.
        check(unsafe { raw::pilhangko_raw_heaps_free(self.handle.as_ptr(), piece, &mut back) })?;
        if back.exists {
            drop(heap_back(back.block));
        }
        Ok(())
    }

    /// Looks for a second place for a live piece.
    pub(super) fn propose_move(
        &mut self,
        piece: &HeapsPiece,
        desc: &AllocationCreateDesc<'_>,
    ) -> Result<Option<HeapsPiece>> {
        let (mut moves, mut to) = (false, HeapsPiece::default());
        // SAFETY: the handle is this allocator's alone, the name's bytes are as many as is said, and all of it outlives the call.
        check(unsafe {
            raw::pilhangko_raw_heaps_propose_move(
                self.handle.as_ptr(),
                piece,
                &raw_request(desc),
                desc.name.as_ptr(),
                desc.name.len(),
                &mut moves,
                &mut to,
            )
        })?;
        Ok(moves.then_some(to))
    }

    /// Renames a live piece.
    pub(super) fn rename(&mut self, piece: &HeapsPiece, name: &str) -> Result<()> {
        // SAFETY: the handle is this allocator's alone, the name's bytes are as many as is said, and all of it outlives the call.
        check(unsafe { raw::pilhangko_raw_heaps_rename(self.handle.as_ptr(), piece, name.as_ptr(), name.len()) })
    }

    /// Keeps a word with a live piece.
    pub(super) fn set_word(&mut self, piece: &HeapsPiece, word: u64) -> Result<()> {
        // SAFETY: the handle is this allocator's alone, and the piece outlives the call.
        check(unsafe { raw::pilhangko_raw_heaps_set_word(self.handle.as_ptr(), piece, word) })
    }

    /// Whether a piece is live.
    pub(super) fn is_live(&self, piece: &HeapsPiece) -> bool {
        let mut is_live = false;
        // SAFETY: the handle is this allocator's alone: it isn't `Sync`. The piece outlives the call.
        check_unrefused(unsafe { raw::pilhangko_raw_heaps_is_live(self.handle.as_ptr(), piece, &mut is_live) });
        is_live
    }

    /// A committed resource is wanted. It has to be answered before the next one.
    pub(super) fn begin_committed(
        &mut self,
        size: u64,
        location: MemoryLocation,
        category: ResourceCategory,
    ) -> Result<()> {
        let (location, category) = (location_number(location), category_number(category));
        // SAFETY: the handle is this allocator's alone.
        check(unsafe { raw::pilhangko_raw_heaps_begin_committed(self.handle.as_ptr(), size, location, category) })
    }

    /// The driver made it.
    pub(super) fn made(&mut self, resource: &Interface) -> HeapsCommitted {
        let mut committed = HeapsCommitted::default();
        // SAFETY: the handle is this allocator's alone.
        check_unrefused(unsafe {
            raw::pilhangko_raw_heaps_made(self.handle.as_ptr(), number_of(resource), &mut committed)
        });
        committed
    }

    /// The driver didn't make it.
    pub(super) fn not_made(&mut self) {
        // SAFETY: the handle is this allocator's alone.
        check_unrefused(unsafe { raw::pilhangko_raw_heaps_not_made(self.handle.as_ptr()) });
    }

    /// Forgets a committed resource.
    pub(super) fn forget(&mut self, committed: &HeapsCommitted) -> Result<()> {
        // SAFETY: the handle is this allocator's alone, and the record outlives the call.
        check(unsafe { raw::pilhangko_raw_heaps_forget_committed(self.handle.as_ptr(), committed) })
    }

    /// Bounds the sum of the sizes of a memory type's heaps in bytes, or takes the bound away.
    pub(super) fn set_budget(&mut self, memory_type: usize, budget: Option<u64>) -> Result<()> {
        let bytes = budget.unwrap_or(0);
        self.changes += 1;
        // SAFETY: the handle is this allocator's alone.
        check(unsafe {
            raw::pilhangko_raw_heaps_set_budget(self.handle.as_ptr(), memory_type, budget.is_some(), bytes)
        })
    }
}

/// What is read of it.
impl AllocatorHandle {
    /// The budget of a memory type, if it has one.
    pub(super) fn budget(&self, memory_type: usize) -> Option<u64> {
        let mut budget = raw::Budget::default();
        // SAFETY: the handle is this allocator's alone: it isn't `Sync`.
        check_unrefused(unsafe { raw::pilhangko_raw_heaps_budget(self.handle.as_ptr(), memory_type, &mut budget) });
        budget.exists.then_some(budget.bytes)
    }

    /// The sum of the sizes of the heaps in bytes.
    pub(super) fn capacity(&self) -> u64 {
        let mut bytes = 0;
        // SAFETY: the handle is this allocator's alone: it isn't `Sync`.
        check_unrefused(unsafe { raw::pilhangko_raw_heaps_capacity(self.handle.as_ptr(), &mut bytes) });
        bytes
    }

    /// What is counted of a memory type's committed resources, if it is there.
    pub(super) fn committed(&self, memory_type: usize) -> Option<HeapsCommittedStatistics> {
        let mut s = HeapsCommittedStatistics::default();
        // SAFETY: the handle is this allocator's alone: it isn't `Sync`.
        check(unsafe { raw::pilhangko_raw_heaps_committed_of(self.handle.as_ptr(), memory_type, &mut s) }).ok()?;
        Some(s)
    }

    /// What is counted of a memory type, if it is there.
    pub(super) fn type_statistics(&self, memory_type: usize) -> Option<TypeStatistics> {
        let mut s = raw::TypeStatistics::default();
        // SAFETY: the handle is this allocator's alone: it isn't `Sync`.
        check(unsafe { raw::pilhangko_raw_heaps_type_statistics(self.handle.as_ptr(), memory_type, &mut s) }).ok()?;
        Some(TypeStatistics::counted(&s))
    }

    /// The live heaps' numbers with what lies in them, by memory type and slot.
    pub(super) fn blocks(&self) -> impl Iterator<Item = (u64, BlockAt<'_>)> + '_ {
        (0..)
            .map_while(|memory_type| Some((memory_type, self.type_statistics(memory_type)?.slots)))
            .flat_map(move |(memory_type, slots)| (0..slots).map(move |slot| self.block_at(memory_type, slot)))
            .filter_map(|at| Some((at.heap()?, at)))
    }

    /// The block in a slot, as a visit sees it.
    pub(super) fn block_at(&self, memory_type: usize, slot: usize) -> BlockAt<'_> {
        BlockAt { allocator: self, memory_type, slot }
    }

    /// The report as JSON.
    pub(super) fn report_json(&self) -> Result<String> {
        copied_text(|text, room, length| {
            // SAFETY: the handle is this allocator's alone: it isn't `Sync`. There is room for as many bytes as is said.
            unsafe { raw::pilhangko_raw_heaps_report(self.handle.as_ptr(), text, room, length) }
        })
    }

    /// A live piece's text as a leak, by its index; empty past the last one.
    pub(super) fn leak(&self, index: usize) -> Result<String> {
        copied_text(|text, room, length| {
            // SAFETY: as above.
            unsafe { raw::pilhangko_raw_heaps_leak(self.handle.as_ptr(), index, text, room, length) }
        })
    }
}

/// A block of an allocator, as a visit sees it; there may be none.
#[derive(Clone, Copy, Debug)]
pub(super) struct BlockAt<'a> {
    allocator: &'a AllocatorHandle,
    memory_type: usize,
    slot: usize,
}

impl BlockAt<'_> {
    /// The number of its heap, if there is one.
    fn heap(&self) -> Option<u64> {
        let mut block = raw::MemoryBlock::default();
        // SAFETY: the handle is the allocator's alone: it isn't `Sync`.
        check_unrefused(unsafe {
            raw::pilhangko_raw_heaps_block(self.allocator.handle.as_ptr(), self.memory_type, self.slot, &mut block)
        });
        block.exists.then_some(block.block)
    }

    /// What is counted of the block, if there is one.
    pub(super) fn statistics(&self) -> Option<BlockStatistics> {
        let mut s = raw::MemoryBlockStatistics::default();
        let handle = self.allocator.handle.as_ptr();
        // SAFETY: the handle is the allocator's alone: it isn't `Sync`.
        check_unrefused(unsafe {
            raw::pilhangko_raw_heaps_block_statistics(handle, self.memory_type, self.slot, &mut s)
        });
        BlockStatistics::counted(&s)
    }
}

impl Visited for BlockAt<'_> {
    fn count(&self) -> usize {
        self.statistics().map_or(0, |counted| counted.pieces)
    }

    fn show(&self, views: &mut [raw::PieceView]) -> (u32, usize) {
        let (handle, mut shown) = (self.allocator.handle.as_ptr(), 0);
        let (first, room) = (views.as_mut_ptr(), views.len());
        // SAFETY: the handle is the allocator's alone: it isn't `Sync`. There is room for as many views as is said.
        let status =
            unsafe { raw::pilhangko_raw_heaps_pieces(handle, self.memory_type, self.slot, 0, first, room, &mut shown) };
        (status, shown)
    }

    fn show_names(&self, lengths: &mut [usize], names: &mut [u8]) -> (u32, usize) {
        let mut shown = 0;
        // SAFETY: the handle is the allocator's alone: it isn't `Sync`. There is room for as many lengths and bytes as is said.
        let status = unsafe {
            raw::pilhangko_raw_heaps_piece_names(
                self.allocator.handle.as_ptr(),
                self.memory_type,
                self.slot,
                0,
                lengths.as_mut_ptr(),
                lengths.len(),
                names.as_mut_ptr(),
                names.len(),
                &mut shown,
            )
        };
        (status, shown)
    }
}

impl Drop for AllocatorHandle {
    fn drop(&mut self) {
        self.blocks().for_each(|(heap, _)| drop(heap_back(heap)));
        // SAFETY: the handle is this allocator's alone, and isn't used again.
        unsafe { raw::pilhangko_raw_heaps_destroy(self.handle.as_ptr()) };
    }
}
