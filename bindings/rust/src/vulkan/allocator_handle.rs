//! The proved allocator, which calls no driver: it says what to ask for, and is told the answer.

use super::abi::DeviceMemory;
use super::answer::{Address, Memory};
use super::pool::{lock, Common, Share};
use super::{AllocationCreateDesc, AllocationScheme, Device};
use crate::error::{check, check_unrefused};
use crate::raw::{self, AllocatorPiece, AllocatorProgress, Handle};
use crate::{AllocationSizes, Kind, MemoryLocation, Result};

/// What a request leads to.
#[derive(Clone, Copy, Debug)]
pub(super) enum Progress {
    /// A piece is allocated.
    Piece(AllocatorPiece),
    /// The driver is to be asked.
    Question(Question),
    /// The request is refused for this status, and over.
    Refused(u32),
}

/// What the driver is to be asked for.
#[derive(Clone, Copy, Debug)]
pub(super) struct Question {
    pub(super) size: u64,
    pub(super) memory_type: u32,
    pub(super) mapped: bool,
}

impl Progress {
    fn from_raw(progress: &AllocatorProgress) -> Self {
        let question = &progress.question;
        match progress.kind {
            raw::PROGRESS_PIECE => Progress::Piece(progress.piece),
            raw::PROGRESS_QUESTION => Progress::Question(Question {
                size: question.size,
                memory_type: question.memory_type as u32,
                mapped: question.mapped,
            }),
            _ => Progress::Refused(progress.status),
        }
    }
}

/// The driver's memory by its number and the number of its address, as the library keeps them.
pub(super) fn memory_of(memory: u64, address: u64) -> Memory {
    Memory { handle: DeviceMemory(memory), address: Address::from_number(address) }
}

pub(crate) fn location_number(location: MemoryLocation) -> u32 {
    match location {
        MemoryLocation::Unknown => raw::LOCATION_UNKNOWN,
        MemoryLocation::GpuOnly => raw::LOCATION_GPU_ONLY,
        MemoryLocation::CpuToGpu => raw::LOCATION_CPU_TO_GPU,
        MemoryLocation::GpuToCpu => raw::LOCATION_GPU_TO_CPU,
    }
}

/// What an allocator without blocks is made with, for the library.
pub(super) fn raw_settings(device: &Device, sizes: &AllocationSizes) -> raw::AllocatorSettings {
    let sizes = sizes.parts();
    raw::AllocatorSettings {
        page_size: device.limits().buffer_image_granularity,
        device_block_size: sizes.device,
        largest_device_block_size: sizes.largest_device,
        host_block_size: sizes.host,
        largest_host_block_size: sizes.largest_host,
    }
}

/// A request for the library.
pub(super) fn raw_request(desc: &AllocationCreateDesc<'_>) -> raw::AllocatorRequest {
    let (scheme, resource) = match desc.allocation_scheme {
        AllocationScheme::GpuAllocatorManaged => (raw::SCHEME_MANAGED, 0),
        AllocationScheme::DedicatedBuffer(buffer) => (raw::SCHEME_BUFFER, buffer.0),
        AllocationScheme::DedicatedImage(image) => (raw::SCHEME_IMAGE, image.0),
    };
    raw::AllocatorRequest {
        size: desc.requirements.size,
        alignment: desc.requirements.alignment,
        memory_type_bits: desc.requirements.memory_type_bits,
        kind: Kind::of(desc.linear).to_raw(),
        location: location_number(desc.location),
        scheme,
        resource,
    }
}

/// The allocator behind its handle, and the device that its blocks go back to: dropping it gives them all back, whatever else fails.
#[derive(Debug)]
pub(super) struct AllocatorHandle {
    pub(super) handle: Handle,
    device: Device,
    blocks: usize,
    /// How often anything changed that bounds of memory types follow from: a budget, what the others leave, which blocks there are.
    pub(super) changes: u64,
    pub(super) share: Share,
}

impl AllocatorHandle {
    /// An allocator without blocks over a device whose properties make sense.
    pub(super) fn new(device: &Device, sizes: &AllocationSizes) -> Result<Self> {
        AllocatorHandle::over(device, sizes, Share::new())
    }

    /// Another one without blocks, within the same bounds.
    pub(super) fn apart(&self, sizes: &AllocationSizes, most_blocks: Option<usize>) -> Result<Self> {
        AllocatorHandle::over(&self.device, sizes, self.share.another(most_blocks))
    }

    fn over(device: &Device, sizes: &AllocationSizes, share: Share) -> Result<Self> {
        let (types, heaps) = (device.memory_types(), device.memory_heaps());
        let handle = Handle::empty();
        // SAFETY: the handle is empty and this call's alone; types and heaps are as many as is said, and all of it outlives the call.
        check(unsafe {
            raw::pilhangko_raw_allocator_create(
                handle.as_ptr(),
                types.as_ptr(),
                types.len(),
                heaps.as_ptr(),
                heaps.len(),
                &raw_settings(device, sizes),
            )
        })?;
        Ok(AllocatorHandle { handle, device: device.clone(), blocks: 0, changes: 0, share })
    }

    /// The device.
    pub(super) fn device(&self) -> &Device {
        &self.device
    }

    /// Begins a request whose memory flags choose. A question that it leads to has to be answered before the next request.
    pub(super) fn begin_by_flags(
        &mut self,
        desc: &AllocationCreateDesc<'_>,
        preference: &raw::Preference,
    ) -> Result<Progress> {
        let mut progress = AllocatorProgress::default();
        // SAFETY: the handle is this allocator's alone, the name's bytes are as many as is said, and all of it outlives the call.
        check(unsafe {
            raw::pilhangko_raw_allocator_begin_by_flags(
                self.handle.as_ptr(),
                &raw_request(desc),
                desc.name.as_ptr(),
                desc.name.len(),
                preference,
                &mut progress,
            )
        })?;
        Ok(Progress::from_raw(&progress))
    }

    /// Begins a request. A question that it leads to has to be answered before the next request.
    pub(super) fn begin(&mut self, desc: &AllocationCreateDesc<'_>) -> Result<Progress> {
        let mut progress = AllocatorProgress::default();
        // SAFETY: the handle is this allocator's alone, the name's bytes are as many as is said, and all of it outlives the call.
        check(unsafe {
            raw::pilhangko_raw_allocator_begin(
                self.handle.as_ptr(),
                &raw_request(desc),
                desc.name.as_ptr(),
                desc.name.len(),
                &mut progress,
            )
        })?;
        Ok(Progress::from_raw(&progress))
    }

    /// Bounds how many blocks there may be, or takes the bound away.
    pub(super) fn set_most_blocks(&mut self, most: Option<usize>) {
        // SAFETY: the handle is this allocator's alone.
        check_unrefused(unsafe {
            raw::pilhangko_raw_allocator_set_most_blocks(self.handle.as_ptr(), most.is_some(), most.unwrap_or(0))
        });
    }

    /// Says whether blocks are smaller where memory is short.
    pub(super) fn set_smaller_blocks(&mut self, smaller: bool) {
        // SAFETY: the handle is this allocator's alone.
        check_unrefused(unsafe { raw::pilhangko_raw_allocator_set_smaller_blocks(self.handle.as_ptr(), smaller) });
    }

    /// How many blocks there are.
    pub(super) fn block_count(&self) -> usize {
        self.blocks
    }

    /// The driver granted this memory. A question is open.
    pub(super) fn granted(&mut self, memory: Memory, common: &mut Common) -> AllocatorPiece {
        let mut piece = AllocatorPiece::default();
        let address = memory.address.map_or(0, Address::number);
        // SAFETY: the handle is this allocator's alone.
        check_unrefused(unsafe {
            raw::pilhangko_raw_allocator_granted(self.handle.as_ptr(), memory.handle.0, address, &mut piece)
        });
        self.blocks += 1;
        self.tell(common);
        piece
    }

    /// The driver refused the memory, with this code. A question is open.
    pub(super) fn refused(&mut self, code: i32) -> Progress {
        let mut progress = AllocatorProgress::default();
        // SAFETY: the handle is this allocator's alone.
        check_unrefused(unsafe { raw::pilhangko_raw_allocator_refused(self.handle.as_ptr(), code, &mut progress) });
        Progress::from_raw(&progress)
    }

    /// The driver granted the memory, but refused to map it, and the memory has gone back. A question is open.
    pub(super) fn mapping_refused(&mut self, code: Option<i32>) -> Progress {
        let mut progress = AllocatorProgress::default();
        // SAFETY: the handle is this allocator's alone.
        check_unrefused(unsafe {
            raw::pilhangko_raw_allocator_mapping_refused(
                self.handle.as_ptr(),
                code.is_some(),
                code.unwrap_or(0),
                &mut progress,
            )
        });
        Progress::from_raw(&progress)
    }

    /// Frees a piece, and gives its block back to the driver where that goes with it.
    pub(super) fn free(&mut self, piece: &AllocatorPiece) -> Result<()> {
        let (common, mut back) = (self.share.common(), raw::AllocatorMemory::default());
        let mut common = lock(&common);
        // SAFETY: the handle is this allocator's alone, and the piece outlives the call.
        check(unsafe { raw::pilhangko_raw_allocator_free(self.handle.as_ptr(), piece, &mut back) })?;
        if back.exists {
            self.device.give_back(memory_of(back.memory, back.address));
            self.blocks -= 1;
            self.tell(&mut common);
        }
        Ok(())
    }

    /// Looks for a second place for a live piece.
    pub(super) fn propose_move(
        &mut self,
        piece: &AllocatorPiece,
        desc: &AllocationCreateDesc<'_>,
    ) -> Result<Option<AllocatorPiece>> {
        let (mut moves, mut to) = (false, AllocatorPiece::default());
        // SAFETY: the handle is this allocator's alone, the name's bytes are as many as is said, and all of it outlives the call.
        check(unsafe {
            raw::pilhangko_raw_allocator_propose_move(
                self.handle.as_ptr(),
                piece,
                &raw_request(desc),
                desc.name.as_ptr(),
                desc.name.len(),
                &mut moves,
                &mut to,
            )
        })?;
        Ok(moves.then_some(to))
    }

    /// Renames a live piece.
    pub(super) fn rename(&mut self, piece: &AllocatorPiece, name: &str) -> Result<()> {
        // SAFETY: the handle is this allocator's alone, the name's bytes are as many as is said, and all of it outlives the call.
        check(unsafe { raw::pilhangko_raw_allocator_rename(self.handle.as_ptr(), piece, name.as_ptr(), name.len()) })
    }

    /// Keeps a word with a live piece.
    pub(super) fn set_word(&mut self, piece: &AllocatorPiece, word: u64) -> Result<()> {
        // SAFETY: the handle is this allocator's alone, and the piece outlives the call.
        check(unsafe { raw::pilhangko_raw_allocator_set_word(self.handle.as_ptr(), piece, word) })
    }

    /// Whether a piece is live.
    pub(super) fn is_live(&self, piece: &AllocatorPiece) -> bool {
        let mut is_live = false;
        // SAFETY: the handle is this allocator's alone: it isn't `Sync`. The piece outlives the call.
        check_unrefused(unsafe { raw::pilhangko_raw_allocator_is_live(self.handle.as_ptr(), piece, &mut is_live) });
        is_live
    }

    /// Bounds the sum of the sizes of a memory type's blocks in bytes, or takes the bound away.
    pub(super) fn set_budget(&mut self, memory_type: usize, budget: Option<u64>) -> Result<()> {
        let bytes = budget.unwrap_or(0);
        self.changes += 1;
        // SAFETY: the handle is this allocator's alone.
        check(unsafe {
            raw::pilhangko_raw_allocator_set_budget(self.handle.as_ptr(), memory_type, budget.is_some(), bytes)
        })
    }

    /// The budget of a memory type, if it has one.
    pub(super) fn budget(&self, memory_type: usize) -> Option<u64> {
        let mut budget = raw::Budget::default();
        // SAFETY: the handle is this allocator's alone: it isn't `Sync`.
        check_unrefused(unsafe { raw::pilhangko_raw_allocator_budget(self.handle.as_ptr(), memory_type, &mut budget) });
        budget.exists.then_some(budget.bytes)
    }

    /// Limits the sum of the sizes of the blocks that lie in a heap in bytes, or takes the limit away; whether there is such a heap.
    pub(super) fn set_heap_limit(&mut self, heap: usize, limit: Option<u64>) -> bool {
        let bytes = limit.unwrap_or(0);
        // SAFETY: the handle is this allocator's alone.
        let status =
            unsafe { raw::pilhangko_raw_allocator_set_heap_limit(self.handle.as_ptr(), heap, limit.is_some(), bytes) };
        if status != raw::NO_SUCH_HEAP {
            check_unrefused(status);
        }
        status != raw::NO_SUCH_HEAP
    }

    /// The greatest sum that the blocks of a memory type may have now, if anything bounds it.
    pub(super) fn bound(&self, memory_type: usize) -> Option<u64> {
        let mut bound = raw::Budget::default();
        // SAFETY: the handle is this allocator's alone: it isn't `Sync`.
        check_unrefused(unsafe { raw::pilhangko_raw_allocator_bound(self.handle.as_ptr(), memory_type, &mut bound) });
        bound.exists.then_some(bound.bytes)
    }

    /// The sum of the sizes of the live blocks in bytes.
    pub(super) fn capacity(&self) -> u64 {
        let mut bytes = 0;
        // SAFETY: the handle is this allocator's alone: it isn't `Sync`.
        check_unrefused(unsafe { raw::pilhangko_raw_allocator_capacity(self.handle.as_ptr(), &mut bytes) });
        bytes
    }
}

impl Drop for AllocatorHandle {
    fn drop(&mut self) {
        let common = self.share.common();
        let mut common = lock(&common);
        self.blocks().for_each(|block| self.device.give_back(block.memory));
        self.share.tell(&mut common, 0, [0; 16]);
        // SAFETY: the handle is this allocator's alone, and isn't used again.
        unsafe { raw::pilhangko_raw_allocator_destroy(self.handle.as_ptr()) };
    }
}
