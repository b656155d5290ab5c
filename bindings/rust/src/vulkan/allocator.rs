//! The allocator.

use super::abi::{Buffer, Image, MemoryRequirements};
use super::allocation::{Allocation, AllocationBlock, Held};
use super::allocator_handle::{AllocatorHandle, Progress, Question};
use super::answer::{Answer, Refusal};
use super::budgets::Bounds;
use super::device::{Device, Purpose};
use super::options::{AllocationOptions, Chain};
use super::pool::{lock, Common, PoolCreateDesc};
use super::visit::LiveBlock;
use crate::capture::{has_line, Answers, Capture};
use crate::error::{check, copied};
use crate::log::Log;
use crate::raw::{AllocatorPiece, Preference, DRIVER_REFUSED, FAILED_TO_MAP, NOT_LIVE};
use crate::{AllocationError, AllocationSizes, AllocatorDebugSettings, Fault, Level, Logger, MemoryLocation, Result};
use std::fmt;
use std::sync::atomic::{AtomicU64, Ordering};

/// What memory is made for.
#[derive(Clone, Copy, Debug, PartialEq, Eq)]
pub enum AllocationScheme {
    /// This buffer alone (`VkMemoryDedicatedAllocateInfo`).
    DedicatedBuffer(Buffer),
    /// This image alone.
    DedicatedImage(Image),
    /// Whatever the allocator puts there.
    GpuAllocatorManaged,
}

/// What is asked of an allocator.
#[derive(Clone, Debug)]
pub struct AllocationCreateDesc<'a> {
    /// A name for reports and leaks.
    pub name: &'a str,
    /// What the buffer or image needs.
    pub requirements: MemoryRequirements,
    /// Who reads and writes it.
    pub location: MemoryLocation,
    /// Whether it is for a buffer or a linear image, and not for an image in the device's own layout.
    pub linear: bool,
    /// What its memory is made for.
    pub allocation_scheme: AllocationScheme,
}

/// What an allocator is made with.
#[derive(Clone, Debug)]
pub struct AllocatorCreateDesc {
    /// The device that is asked for memory.
    pub device: Device,
    /// What is logged, where there is a logger.
    pub debug_settings: AllocatorDebugSettings,
    /// Whether memory is made so that shaders may read its address: the device's feature `bufferDeviceAddress` is enabled.
    pub buffer_device_address: bool,
    /// The sizes of the blocks that pieces share.
    pub allocation_sizes: AllocationSizes,
    /// Whether blocks keep these sizes where memory is short. Else in a heap of at most 1 GB none that pieces share has more than an eighth of it, or
    /// 4 MB; where a limit or a budget leaves no room for one, it is as large as they leave; and where the driver has none, half of it is asked for,
    /// then a quarter, before another memory type. With a capture they keep them, too, since a trace has no such blocks.
    pub whole_blocks: bool,
    /// Where log lines go.
    pub logger: Option<Logger>,
    /// Whether the calls are recorded: `Allocator::capture`.
    pub capture: bool,
}

impl AllocatorCreateDesc {
    /// A description with the default settings and sizes, without device addresses, without a logger and without a capture.
    pub fn new(device: Device) -> Self {
        AllocatorCreateDesc {
            device,
            debug_settings: AllocatorDebugSettings::default(),
            buffer_device_address: false,
            allocation_sizes: AllocationSizes::default(),
            whole_blocks: false,
            logger: None,
            capture: false,
        }
    }
}

/// Numbers of allocators: none comes again, so that no allocator takes another one's allocation for its own.
pub(crate) fn next_owner() -> u64 {
    static NEXT: AtomicU64 = AtomicU64::new(1);
    NEXT.fetch_add(1, Ordering::Relaxed)
}

/// An allocator of a device's memory. It may go from thread to thread, and serves one call at a time (`Mutex<Allocator>`). Dropping it
/// gives all blocks back to the driver and logs the allocations that are live still.
pub struct Allocator {
    pub(super) handle: AllocatorHandle,
    owner: u64,
    pub(super) requests: u64,
    device_address: bool,
    /// The memory types that its blocks may be of.
    pub(super) memory_type_bits: u32,
    /// What is chained where its blocks are asked for.
    next: Option<Chain<'static>>,
    pub(super) log: Log,
    pub(super) capture: Option<Capture>,
}

impl Allocator {
    /// An allocator without blocks; the driver isn't asked.
    ///
    /// The errors: `InvalidAllocatorCreateDesc` for the first that holds of an atom size that is no power of two, more than 32 memory types,
    /// more than 16 heaps, a granularity that is no power of two and a memory type in a heap that isn't there; `HostOutOfMemory`.
    pub fn new(desc: &AllocatorCreateDesc) -> Result<Self> {
        let AllocatorCreateDesc { device, allocation_sizes, .. } = desc;
        device.check()?;
        let mut allocator = Allocator {
            handle: AllocatorHandle::new(device, allocation_sizes)?,
            owner: next_owner(),
            requests: 0,
            device_address: desc.buffer_device_address,
            memory_type_bits: u32::MAX,
            next: None,
            capture: desc.capture.then(|| Capture::of_allocator(device, allocation_sizes)).transpose()?,
            log: Log::new(desc.debug_settings, desc.logger.as_ref()),
        };
        allocator.handle.set_smaller_blocks(!desc.whole_blocks && !desc.capture);
        allocator.device().describe(&allocator.log);
        Ok(allocator)
    }

    /// The pool over a handle that was made for it.
    pub(super) fn apart(&self, desc: &PoolCreateDesc, handle: AllocatorHandle) -> Result<Self> {
        let capture = desc.capture.then(|| Capture::of_allocator(self.device(), &desc.allocation_sizes)).transpose()?;
        Ok(Allocator {
            handle,
            owner: next_owner(),
            requests: 0,
            device_address: self.device_address,
            memory_type_bits: desc.memory_type_bits.unwrap_or(u32::MAX),
            next: desc.next,
            log: self.log.clone(),
            capture,
        })
    }

    /// Allocates a piece: of a shared block with a place, or of a new one that the driver is asked for. An upload (`CpuToGpu`) whose first
    /// memory type is refused has a second attempt at the first one that the host can write. Where a memory type that the request allows
    /// needs flushes, the alignment is `nonCoherentAtomSize` at least, so that a flush touches no other allocation.
    ///
    /// The errors, the first that holds: `InvalidAllocationCreateDesc`, `NoCompatibleMemoryTypeFound`, and of the attempt that counts
    /// `OutOfMemory` where the request is larger than its heap, `HostOutOfMemory`, `OutOfMemory` where the blocks' sizes would pass
    /// `u64::MAX`, `BudgetExceeded`, and what the driver refuses: `OutOfMemory` for `VK_ERROR_OUT_OF_DEVICE_MEMORY`, `Internal` for another
    /// code, `FailedToMap`. Lack of host memory for the binding's own lists is `HostOutOfMemory` before all of them.
    pub fn allocate(&mut self, desc: &AllocationCreateDesc<'_>) -> Result<Allocation> {
        self.allocate_with(desc, &AllocationOptions::default())
    }

    /// Allocates a piece as `allocate` does, with what the options ask for.
    ///
    /// The errors are those of `allocate`: `InvalidAllocationCreateDesc` for a minimal alignment that is no power of two, and for a location
    /// beside flags, too. By flags the last memory type's counts, and where it never allocates `OutOfMemory` says that no place is there.
    pub fn allocate_with(
        &mut self,
        desc: &AllocationCreateDesc<'_>,
        options: &AllocationOptions<'_>,
    ) -> Result<Allocation> {
        let MemoryRequirements { size, alignment, .. } = desc.requirements;
        self.log.requested(desc.name, size, alignment);
        let preference = options.preference(desc.location)?;
        let by_flags = preference.is_some();
        let requirements = options.narrow(desc.requirements, self.device().memory_types(), by_flags);
        let requirements = self.narrow(requirements);
        let allocation_scheme = options.scheme(desc.allocation_scheme);
        let desc = AllocationCreateDesc { requirements, allocation_scheme, ..desc.clone() };
        self.requests += 1;
        let common = self.handle.share.common();
        let mut common = lock(&common);
        self.handle.follow(&common);
        let (bounds, mut answers) = (self.captured_bounds(), Answers::default());
        let mut result = self.serve(&desc, preference.as_ref(), options.next, &mut common, &mut answers);
        drop(common);
        if let (Ok(it), true) = (&mut result, options.user_data != 0) {
            self.set_user_data(it, options.user_data).expect("a new piece is live");
        }
        self.record(&desc, by_flags, &result, bounds.as_ref(), &answers);
        result
    }

    /// Records a request, where it is captured: one for which the host had no memory, and an invalid one, changed nothing, and so did one by flags
    /// that was refused. One by flags that served is one of its memory type alone.
    fn record(
        &mut self,
        desc: &AllocationCreateDesc<'_>,
        by_flags: bool,
        result: &Result<Allocation>,
        bounds: Option<&Bounds>,
        answers: &Answers,
    ) {
        let (Some(capture), true) = (&mut self.capture, has_line(result)) else { return };
        let narrowed = match result {
            Err(_) if by_flags => return,
            Ok(it) if by_flags => of_type(desc, it.memory_type_index()),
            _ => desc.clone(),
        };
        if let Some(bounds) = bounds {
            bounds.record(capture);
        }
        capture.allocator_allocated(self.requests, &narrowed, answers);
    }

    /// Frees an allocation; its block goes back to the driver where it is left empty and isn't the only shared one of its memory type. It
    /// needs no host memory. The null allocation is freed without effect.
    ///
    /// The error: `Internal` where it isn't this allocator's, beside the allocation, which its own allocator frees.
    #[allow(clippy::result_large_err, reason = "what is refused comes back")]
    pub fn free(&mut self, mut allocation: Allocation) -> Result<(), (AllocationError, Allocation)> {
        let result = self.release(&mut allocation);
        // behind the work, so that nothing is lost where the logger panics
        self.log.freed(allocation.name().unwrap_or("<null>"));
        result.map_err(|error| (error, allocation))
    }

    /// Frees what an allocation holds, and leaves it null but for its name.
    fn release(&mut self, allocation: &mut Allocation) -> Result<()> {
        let Some(held) = &allocation.held else { return Ok(()) };
        self.owns(held)?;
        self.handle.free(&held.piece)?;
        if let Some(capture) = &mut self.capture {
            capture.freed(held.number);
        }
        allocation.held = None;
        Ok(())
    }

    /// Renames an allocation, a null one too.
    ///
    /// The errors, and then nothing changes: `Internal` where it isn't this allocator's, `HostOutOfMemory`.
    pub fn rename_allocation(&mut self, allocation: &mut Allocation, name: &str) -> Result<()> {
        let own = copied(name)?;
        if let Some(held) = &allocation.held {
            self.owns(held)?;
            self.handle.rename(&held.piece, name)?;
            if let Some(capture) = &mut self.capture {
                capture.renamed(held.number, name);
            }
        }
        allocation.name = Some(own);
        Ok(())
    }

    /// Keeps another word of its owner's with an allocation, a null one too.
    ///
    /// The error, and then nothing changes: `Internal` where it isn't this allocator's.
    pub fn set_user_data(&mut self, allocation: &mut Allocation, user_data: u64) -> Result<()> {
        if let Some(held) = &allocation.held {
            self.owns(held)?;
            self.handle.set_word(&held.piece, user_data)?;
        }
        allocation.user_data = user_data;
        Ok(())
    }

    /// Whether an allocation is this allocator's and live.
    pub fn is_live(&self, allocation: &Allocation) -> bool {
        allocation.held.as_ref().is_some_and(|held| self.owns(held).is_ok() && self.handle.is_live(&held.piece))
    }

    /// The block that a live allocation lies in.
    ///
    /// The error: `Internal` where it isn't this allocator's.
    pub fn read_block(&self, allocation: &Allocation) -> Result<AllocationBlock> {
        let block = self.block_of(self.live(allocation)?).expect("a live piece lies in a block");
        Ok(AllocationBlock { size: block.size, is_shared: block.is_shared })
    }

    /// Bounds the sum of the sizes of a memory type's blocks in bytes, or takes the bound away. A bound below the present sum gives no
    /// block back.
    ///
    /// The error: `Internal` where there is no such memory type.
    pub fn set_budget(&mut self, memory_type: usize, budget: Option<u64>) -> Result<()> {
        self.handle.set_budget(memory_type, budget)
    }

    /// The memory type at which a request with these bits begins: the first with all flags that the location prefers, else the first with
    /// all that it must have; `None` where there is neither.
    pub fn best_type(&self, memory_type_bits: u32, location: MemoryLocation) -> Option<usize> {
        self.handle.best_type(memory_type_bits, location)
    }

    /// The budget of a memory type in bytes; `None` where it has none, or isn't there.
    pub fn budget(&self, memory_type: usize) -> Option<u64> {
        self.handle.budget(memory_type)
    }

    /// The device that is asked for memory.
    pub fn device(&self) -> &Device {
        self.handle.device()
    }

    /// What was asked of the allocator by now, where that is recorded, up to the budgets as they are.
    pub fn capture(&self) -> Option<&Capture> {
        self.record_bounds();
        self.capture.as_ref()
    }

    /// Drops the allocator, and returns what was asked of it, up to its end, where that is recorded.
    pub fn destroy(mut self) -> Option<Capture> {
        self.follow_others();
        self.record_bounds();
        let mut capture = self.capture.take()?;
        capture.destroyed();
        Some(capture)
    }

    /// A request from its beginning to its end.
    fn serve(
        &mut self,
        desc: &AllocationCreateDesc<'_>,
        preference: Option<&Preference>,
        next: Option<Chain<'_>>,
        common: &mut Common,
        answers: &mut Answers,
    ) -> Result<Allocation> {
        let name = copied(desc.name)?;
        let piece = self.place(desc, preference, next, common, answers)?;
        Ok(Allocation { held: Some(self.held(piece, desc.allocation_scheme)), name: Some(name), user_data: 0 })
    }

    /// Asks the driver until the request has a piece, or is refused.
    fn place(
        &mut self,
        desc: &AllocationCreateDesc<'_>,
        preference: Option<&Preference>,
        next: Option<Chain<'_>>,
        common: &mut Common,
        answers: &mut Answers,
    ) -> Result<AllocatorPiece> {
        let next = next.or(self.next);
        let purpose = Purpose { scheme: desc.allocation_scheme, device_address: self.device_address, next };
        let mut progress = match preference {
            None => self.handle.begin(desc)?,
            Some(preference) => self.handle.begin_by_flags(desc, preference)?,
        };
        let mut refusal = None;
        loop {
            progress = match progress {
                Progress::Piece(piece) => return Ok(piece),
                Progress::Refused(status) => return Err(error_of(status, refusal)),
                Progress::Question(question) => match self.ask(&question, purpose, preference.is_some(), answers) {
                    Answer::Granted(memory) => return Ok(self.handle.granted(memory, common)),
                    Answer::MemoryRefused(refused) => {
                        refusal = Some(refused);
                        self.handle.refused(refused.memory_code())
                    }
                    Answer::MappingRefused(refused) => {
                        refusal = Some(refused);
                        self.handle.mapping_refused(refused.code())
                    }
                },
            }
        }
    }

    /// What is needed of its memory types, in whole atoms.
    pub(super) fn narrow(&self, needs: MemoryRequirements) -> MemoryRequirements {
        let memory_type_bits = needs.memory_type_bits & self.memory_type_bits;
        self.device().in_whole_atoms(MemoryRequirements { memory_type_bits, ..needs })
    }

    /// Of a request by flags a capture has the attempt that served alone.
    fn ask(&self, question: &Question, purpose: Purpose<'_>, by_flags: bool, answers: &mut Answers) -> Answer {
        let answer = self.device().ask(question, purpose);
        answers.note(question.mapped, &answer);
        if by_flags && !matches!(answer, Answer::Granted(_)) {
            answers.forget();
        }
        answer
    }

    /// What a live allocation of this allocator stands for.
    pub(super) fn live<'a>(&self, allocation: &'a Allocation) -> Result<&'a Held> {
        match &allocation.held {
            Some(held) if self.is_live(allocation) => Ok(held),
            _ => Err(check(NOT_LIVE).expect_err("a piece that isn't live")),
        }
    }

    /// The block that a piece lies in.
    pub(super) fn block_of(&self, held: &Held) -> Option<LiveBlock> {
        self.handle.live_block(held.piece.memory_type, held.piece.piece.slot)
    }

    /// Whether an allocation is of this allocator.
    fn owns(&self, held: &Held) -> Result<()> {
        if held.owner == self.owner {
            Ok(())
        } else {
            check(NOT_LIVE)
        }
    }

    /// What the owner of a new piece holds of it.
    pub(super) fn held(&self, piece: AllocatorPiece, scheme: AllocationScheme) -> Held {
        Held {
            piece,
            owner: self.owner,
            number: self.requests,
            flags: self.device().memory_types()[piece.memory_type].property_flags,
            is_dedicated: scheme != AllocationScheme::GpuAllocatorManaged,
        }
    }
}

/// The request as one for this memory type alone.
fn of_type<'a>(desc: &AllocationCreateDesc<'a>, memory_type: usize) -> AllocationCreateDesc<'a> {
    let requirements = MemoryRequirements { memory_type_bits: 1 << memory_type, ..desc.requirements };
    AllocationCreateDesc { requirements, ..desc.clone() }
}

/// Why a request is refused, by its status and what the driver refused last.
fn error_of(status: u32, refusal: Option<Refusal>) -> AllocationError {
    let code = refusal.and_then(Refusal::code).map(i64::from);
    match status {
        DRIVER_REFUSED => AllocationError::Internal(Fault { text: "Unexpected error in vkAllocateMemory", code }),
        FAILED_TO_MAP if code.is_none() => {
            AllocationError::FailedToMap(Fault { text: "Returned mapped pointer is null", code })
        }
        FAILED_TO_MAP => AllocationError::FailedToMap(Fault { text: "vkMapMemory failed", code }),
        _ => check(status).expect_err("a refused request has a status but OK"),
    }
}

impl fmt::Debug for Allocator {
    fn fmt(&self, f: &mut fmt::Formatter<'_>) -> fmt::Result {
        self.generate_report().fmt(f)
    }
}

/// The blocks go back behind the lines, also where the logger panics.
impl Drop for Allocator {
    fn drop(&mut self) {
        if self.log.settings.log_leaks_on_shutdown {
            self.report_memory_leaks(Level::Warn);
        }
    }
}

#[cfg(test)]
mod tests;
