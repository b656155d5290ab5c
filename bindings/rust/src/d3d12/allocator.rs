//! The allocator.

use super::abi::{ClearValue, HeapProperties, ResourceDesc};
use super::allocation::{Allocation, Memory, Resource};
use super::allocator_handle::{choose_call, heap_of, raw_settings, AllocatorHandle, Progress};
use super::device::{heap_size, ID3D12DeviceVersion, Place, Wanted};
use super::Interface;
use crate::capture::{Answers, Capture};
use crate::error::{check, copied, out_of_host_memory};
use crate::log::Log;
use crate::memory_type::BlockStatistics;
use crate::pieces::Visited;
use crate::raw::{HeapsCommitted, HeapsPiece, NOT_LIVE};
use crate::report::report_of;
use crate::statistics::TypeStatistics;
use crate::vulkan::next_owner;
use crate::{
    AllocationError, AllocationSizes, AllocatorDebugSettings, AllocatorReport, Level, Logger, MemoryLocation,
    NamedPiece, Result,
};
use std::fmt;

/// Of which category a resource is: `ResourceCategory::from(&desc)`. At resource heap tier 1 a heap holds one category alone; at later tiers
/// it doesn't matter.
#[derive(Clone, Copy, Debug, PartialEq, Eq)]
pub enum ResourceCategory {
    /// A buffer.
    Buffer,
    /// A texture that may be a render target or a depth stencil.
    RtvDsvTexture,
    /// Any other texture.
    OtherTexture,
}

/// How a resource begins.
#[derive(Clone, Copy, Debug, PartialEq, Eq)]
pub enum ResourceStateOrBarrierLayout {
    /// In a state: the number of a `D3D12_RESOURCE_STATES`.
    ResourceState(u32),
    /// In a layout: the number of a `D3D12_BARRIER_LAYOUT`. It needs an `ID3D12Device10`.
    BarrierLayout(u32),
}

/// Where a resource goes.
#[derive(Clone, Copy, Debug)]
pub enum ResourceType<'a> {
    /// Into memory of its own.
    Committed {
        /// What the memory is like.
        heap_properties: &'a HeapProperties,
        /// `D3D12_HEAP_FLAGS`.
        heap_flags: u32,
    },
    /// Into a heap.
    Placed,
}

/// What is asked of an allocator.
#[derive(Clone, Debug)]
pub struct AllocationCreateDesc<'a> {
    /// A name for reports and leaks.
    pub name: &'a str,
    /// Who reads and writes it.
    pub location: MemoryLocation,
    /// How many bytes (`ID3D12Device::GetResourceAllocationInfo`): not 0.
    pub size: u64,
    /// A power of two: it too.
    pub alignment: u64,
    /// What is to lie there.
    pub resource_category: ResourceCategory,
}

impl<'a> AllocationCreateDesc<'a> {
    /// What a resource needs, as the device tells it.
    pub fn from_d3d12_resource_desc(
        device: &ID3D12DeviceVersion,
        desc: &ResourceDesc,
        name: &'a str,
        location: MemoryLocation,
    ) -> Self {
        let info = device.allocation_info(desc, &[]);
        let resource_category = ResourceCategory::from(desc);
        AllocationCreateDesc { name, location, size: info.size, alignment: info.alignment, resource_category }
    }
}

/// A resource that is asked for.
#[derive(Clone, Copy, Debug)]
pub struct ResourceCreateDesc<'a> {
    /// A name for reports and leaks.
    pub name: &'a str,
    /// Who reads and writes it.
    pub memory_location: MemoryLocation,
    /// What it is.
    pub resource_category: ResourceCategory,
    /// Its description.
    pub resource_desc: &'a ResourceDesc,
    /// The numbers of `DXGI_FORMAT`s. They need an `ID3D12Device12`, and a layout.
    pub castable_formats: &'a [u32],
    /// What it is cleared to.
    pub clear_value: Option<&'a ClearValue>,
    /// How it begins.
    pub initial_state_or_layout: ResourceStateOrBarrierLayout,
    /// Where it goes.
    pub resource_type: &'a ResourceType<'a>,
}

/// What an allocator is made with.
// `capture` is a field, as in Vulkan's: a literal with gpu-allocator's fields alone lacks `logger` all the same, and has both from
// `..AllocatorCreateDesc::new(device)`.
#[derive(Clone, Debug)]
pub struct AllocatorCreateDesc {
    /// The device that is asked.
    pub device: ID3D12DeviceVersion,
    /// What is logged, where there is a logger.
    pub debug_settings: AllocatorDebugSettings,
    /// The sizes of the blocks that pieces share.
    pub allocation_sizes: AllocationSizes,
    /// Where log lines go.
    pub logger: Option<Logger>,
    /// Whether the calls are recorded: `Allocator::capture`.
    pub capture: bool,
}

impl AllocatorCreateDesc {
    /// A description with the default settings and sizes, without a logger and without a capture.
    pub fn new(device: ID3D12DeviceVersion) -> Self {
        AllocatorCreateDesc {
            device,
            debug_settings: AllocatorDebugSettings::default(),
            allocation_sizes: AllocationSizes::default(),
            logger: None,
            capture: false,
        }
    }
}

/// What is counted of a memory type's committed resources.
#[derive(Clone, Copy, Debug, Default, PartialEq, Eq)]
pub struct CommittedAllocationStatistics {
    /// How many there are.
    pub num_allocations: usize,
    /// The sum of their sizes in bytes.
    pub total_size: u64,
}

/// An allocator of a device's heaps. It may go from thread to thread, and serves one call at a time (`Mutex<Allocator>`). Dropping it releases
/// its heaps and logs the allocations that are live still: these, and resources, hold their heaps as long as they live.
pub struct Allocator {
    pub(super) handle: AllocatorHandle,
    device: ID3D12DeviceVersion,
    owner: u64,
    /// The number of the allocation or committed resource that was made last.
    pub(super) last_number: u64,
    log: Log,
    pub(super) capture: Option<Capture>,
}

impl Allocator {
    /// An allocator without heaps; the device is asked for its resource heap tier.
    ///
    /// The errors: `Internal` where it doesn't tell that, `InvalidAllocatorCreateDesc` where it is 0, `HostOutOfMemory`.
    pub fn new(desc: &AllocatorCreateDesc) -> Result<Self> {
        let settings = raw_settings(desc.device.heap_tier()?, &desc.allocation_sizes);
        Ok(Allocator {
            handle: AllocatorHandle::new(&settings)?,
            device: desc.device.clone(),
            owner: next_owner(),
            last_number: 0,
            log: Log::new(desc.debug_settings, desc.logger.as_ref()),
            capture: desc.capture.then(|| Capture::of_heaps(&settings)).transpose()?,
        })
    }

    /// The device.
    pub fn device(&self) -> &ID3D12DeviceVersion {
        &self.device
    }

    /// Allocates a piece: of a shared heap with a place, or of a new one that the driver is asked for.
    ///
    /// The errors, the first that holds: `HostOutOfMemory` of the binding's own, `InvalidAllocationCreateDesc`, `HostOutOfMemory`,
    /// `OutOfMemory` where the heaps' sizes would pass `u64::MAX`, `BudgetExceeded`, and what the driver refuses: `OutOfMemory` for
    /// `E_OUTOFMEMORY`, `Internal` for another code, or null.
    pub fn allocate(&mut self, desc: &AllocationCreateDesc<'_>) -> Result<Allocation> {
        let AllocationCreateDesc { name, size, alignment, .. } = *desc;
        self.log.requested(name, size, alignment);
        let own = copied(name)?;
        let mut answers = Answers::default();
        let result = self.place(desc, &mut answers);
        self.record_allocated(desc, &result, &answers);
        result.map(|piece| self.held(piece, own))
    }

    /// Begins a request, and asks the driver for the heap that it needs, if it needs one.
    fn place(&mut self, desc: &AllocationCreateDesc<'_>, answers: &mut Answers) -> Result<HeapsPiece> {
        let question = match self.handle.begin(desc)? {
            Progress::Piece(piece) => return Ok(piece),
            Progress::Question(question) => question,
        };
        let made = self.device.create_heap(&question);
        answers.note_made(&made);
        match made {
            Ok(heap) => Ok(self.handle.granted(heap)),
            Err(code) => Err(self.handle.refused(code)),
        }
    }

    /// What the owner of a new piece holds of it.
    fn held(&mut self, piece: HeapsPiece, name: String) -> Allocation {
        self.last_number += 1;
        let (owner, number, heap) = (self.owner, self.last_number, heap_of(&piece));
        Allocation { piece, owner, number, heap, name, user_data: 0 }
    }

    /// Frees an allocation; its heap is released where it is left empty and isn't the only shared one of its memory type. It needs no host
    /// memory.
    ///
    /// The error: `Internal` where it isn't this allocator's, beside the allocation, which its own allocator frees.
    #[allow(clippy::result_large_err, reason = "what is refused comes back")]
    pub fn free(&mut self, allocation: Allocation) -> Result<(), (AllocationError, Allocation)> {
        let result = self.release(&allocation);
        // behind the work, so that nothing is lost where the logger panics
        self.log.freed(&allocation.name);
        result.map_err(|error| (error, allocation))
    }

    fn release(&mut self, allocation: &Allocation) -> Result<()> {
        self.owns(allocation.owner)?;
        self.handle.free(&allocation.piece)?;
        if let Some(capture) = &mut self.capture {
            capture.freed(allocation.number);
        }
        Ok(())
    }

    /// Looks for a second place for an allocation: the one that this request, which it was made for, would get as a new allocation now, if
    /// that lies in a heap that is looked at before its own; `None` where there is none. The driver isn't asked. Both are live then: make
    /// the resource anew at the second, copy, and free the first once the device has finished with both, which ends the move; or free the
    /// second, which abandons it. The second has the first one's user data. The request's location and category aren't looked at.
    ///
    /// The errors, and then nothing changes: `HostOutOfMemory` of the binding's own, `Internal` where it isn't this allocator's,
    /// `InvalidAllocationCreateDesc`, also where the size isn't the allocation's, `HostOutOfMemory`.
    pub fn propose_move(
        &mut self,
        allocation: &Allocation,
        desc: &AllocationCreateDesc<'_>,
    ) -> Result<Option<Allocation>> {
        let own = copied(desc.name)?;
        self.owns(allocation.owner)?;
        let piece = self.handle.propose_move(&allocation.piece, desc)?;
        self.record_moved(allocation.number, desc);
        let Some(piece) = piece else { return Ok(None) };
        let mut second = self.held(piece, own);
        self.set_user_data(&mut second, allocation.user_data).expect("a new piece is live");
        Ok(Some(second))
    }

    /// Renames an allocation.
    ///
    /// The errors, and then nothing changes: `Internal` where it isn't this allocator's, `HostOutOfMemory`.
    pub fn rename_allocation(&mut self, allocation: &mut Allocation, name: &str) -> Result<()> {
        let own = copied(name)?;
        self.owns(allocation.owner)?;
        self.handle.rename(&allocation.piece, name)?;
        if let Some(capture) = &mut self.capture {
            capture.renamed(allocation.number, name);
        }
        allocation.name = own;
        Ok(())
    }

    /// Keeps another word of its owner's with an allocation.
    ///
    /// The error, and then nothing changes: `Internal` where it isn't this allocator's.
    pub fn set_user_data(&mut self, allocation: &mut Allocation, user_data: u64) -> Result<()> {
        self.owns(allocation.owner)?;
        self.handle.set_word(&allocation.piece, user_data)?;
        allocation.user_data = user_data;
        Ok(())
    }

    /// Whether an allocation is this allocator's and live.
    pub fn is_live(&self, allocation: &Allocation) -> bool {
        self.owns(allocation.owner).is_ok() && self.handle.is_live(&allocation.piece)
    }

    /// Makes a resource: in a piece of a heap, or with memory of its own. What was made is undone where something fails.
    ///
    /// The errors, the first that holds: `CastableFormatsRequiresEnhancedBarriers`, `CastableFormatsRequiresAtLeastDevice12`,
    /// `BarrierLayoutNeedsDevice10`; of a placed one those of `allocate`, of a committed one `OutOfMemory` where the sizes of its memory
    /// type's committed resources would pass `u64::MAX`, and `HostOutOfMemory`; then `Internal` with the driver's code, of a device that was
    /// removed with the reason.
    pub fn create_resource(&mut self, desc: &ResourceCreateDesc<'_>) -> Result<Resource> {
        let (begins, in_layout) = match desc.initial_state_or_layout {
            ResourceStateOrBarrierLayout::ResourceState(state) => (state, false),
            ResourceStateOrBarrierLayout::BarrierLayout(layout) => (layout, true),
        };
        let call = choose_call(&self.device, in_layout, !desc.castable_formats.is_empty())?;
        let ResourceCreateDesc { resource_desc, castable_formats, clear_value, .. } = *desc;
        let wanted = Wanted { desc: resource_desc, castable_formats, clear_value, begins, call };
        let needs = self.needs(desc);
        match *desc.resource_type {
            ResourceType::Placed => self.create_placed(&needs, &wanted),
            ResourceType::Committed { heap_properties, heap_flags } => {
                self.create_committed(&needs, &wanted, Place::Committed(heap_properties, heap_flags))
            }
        }
    }

    /// What a resource needs, as the device tells it.
    fn needs<'a>(&self, desc: &ResourceCreateDesc<'a>) -> AllocationCreateDesc<'a> {
        let info = self.device.allocation_info(desc.resource_desc, desc.castable_formats);
        AllocationCreateDesc {
            name: desc.name,
            location: desc.memory_location,
            size: info.size,
            alignment: info.alignment,
            resource_category: desc.resource_category,
        }
    }

    fn create_placed(&mut self, needs: &AllocationCreateDesc<'_>, wanted: &Wanted<'_>) -> Result<Resource> {
        let allocation = self.allocate(needs)?;
        match self.device.create_resource(wanted, Place::In(&allocation.heap, allocation.offset())) {
            Ok(resource) => {
                let memory = Memory::Placed(allocation);
                Ok(Resource { resource, memory, memory_location: needs.location, size: needs.size })
            }
            Err(code) => {
                let error = self.device.resource_refused(true, code);
                self.release(&allocation)?;
                Err(error)
            }
        }
    }

    fn create_committed(
        &mut self,
        needs: &AllocationCreateDesc<'_>,
        wanted: &Wanted<'_>,
        place: Place<'_>,
    ) -> Result<Resource> {
        let mut answers = Answers::default();
        let result = self.ask_committed(needs, wanted, place, &mut answers);
        self.record_committed(needs, &result, &answers);
        let (resource, record) = result?;
        self.last_number += 1;
        let memory = Memory::Committed { record, owner: self.owner, number: self.last_number };
        Ok(Resource { resource, memory, memory_location: needs.location, size: needs.size })
    }

    /// Begins a committed resource, and asks the driver for it.
    fn ask_committed(
        &mut self,
        needs: &AllocationCreateDesc<'_>,
        wanted: &Wanted<'_>,
        place: Place<'_>,
        answers: &mut Answers,
    ) -> Result<(Interface, HeapsCommitted)> {
        self.handle.begin_committed(needs.size, needs.location, needs.resource_category)?;
        let made = self.device.create_resource(wanted, place);
        answers.note_made(&made);
        match made {
            Ok(resource) => {
                let record = self.handle.made(&resource);
                Ok((resource, record))
            }
            Err(code) => {
                self.handle.not_made();
                Err(self.device.resource_refused(false, code))
            }
        }
    }

    /// Forgets a committed resource that is released.
    fn forget(&mut self, record: &HeapsCommitted, number: u64) -> Result<()> {
        self.handle.forget(record)?;
        if let Some(capture) = &mut self.capture {
            capture.released(number);
        }
        Ok(())
    }

    /// Releases a resource, and then frees its memory. References that were cloned are released before.
    ///
    /// The error: `Internal` where it isn't this allocator's, beside the resource, which its own allocator frees.
    #[allow(clippy::result_large_err, reason = "what is refused comes back")]
    pub fn free_resource(&mut self, resource: Resource) -> Result<(), (AllocationError, Resource)> {
        let owner = match &resource.memory {
            Memory::Placed(allocation) => allocation.owner,
            Memory::Committed { owner, .. } => *owner,
        };
        if let Err(error) = self.owns(owner) {
            return Err((error, resource));
        }
        let Resource { resource, memory, .. } = resource;
        drop(resource); // before its heap may go
        let freed = match &memory {
            Memory::Placed(allocation) => self.release(allocation),
            Memory::Committed { record, number, .. } => self.forget(record, *number),
        };
        freed.expect("a resource's memory is live");
        Ok(())
    }

    /// Bounds the sum of the sizes of a memory type's heaps in bytes, or takes the bound away. A bound below the present sum releases no
    /// heap. Committed resources don't count.
    ///
    /// The error: `Internal` where there is no such memory type.
    pub fn set_budget(&mut self, memory_type: usize, budget: Option<u64>) -> Result<()> {
        self.handle.set_budget(memory_type, budget)
    }

    /// The budget of a memory type in bytes; `None` where it has none, or isn't there.
    pub fn budget(&self, memory_type: usize) -> Option<u64> {
        self.handle.budget(memory_type)
    }

    /// What was asked of the allocator by now, where that is recorded, up to the budgets as they are.
    pub fn capture(&self) -> Option<&Capture> {
        self.record_bounds();
        self.capture.as_ref()
    }

    /// Drops the allocator, and returns what was asked of it, up to its end, where that is recorded.
    pub fn destroy(mut self) -> Option<Capture> {
        self.record_bounds();
        let mut capture = self.capture.take()?;
        capture.destroyed();
        Some(capture)
    }

    /// The sum of the sizes of the heaps in bytes.
    pub fn capacity(&self) -> u64 {
        self.handle.capacity()
    }

    /// What is counted of a memory type's committed resources; `None` where it isn't there. Memory types are for `GpuOnly`, `CpuToGpu` and
    /// `GpuToCpu`; at resource heap tier 1 each has three, by category.
    pub fn committed(&self, memory_type: usize) -> Option<CommittedAllocationStatistics> {
        let counted = self.handle.committed(memory_type)?;
        Some(CommittedAllocationStatistics { num_allocations: counted.count, total_size: counted.bytes })
    }

    /// What is counted of a memory type; `None` where it isn't there.
    pub fn type_statistics(&self, memory_type: usize) -> Option<TypeStatistics> {
        self.handle.type_statistics(memory_type)
    }

    /// The same of all memory types together: the sums, and the longest gap of any; without a budget.
    pub fn statistics(&self) -> TypeStatistics {
        let types = (0..).map_while(|memory_type| self.type_statistics(memory_type));
        types.fold(TypeStatistics::default(), TypeStatistics::and)
    }

    /// What is counted of the heap in a slot of a memory type, if one is there.
    pub fn block_statistics(&self, memory_type: usize, slot: usize) -> Option<BlockStatistics> {
        self.handle.block_at(memory_type, slot).statistics()
    }

    /// All live pieces of the heap in a slot in order of offset, with their names, in linear time; none where the slot has no heap.
    ///
    /// The error: `HostOutOfMemory`.
    pub fn named_pieces(&self, memory_type: usize, slot: usize) -> Result<Vec<NamedPiece>> {
        self.handle.block_at(memory_type, slot).named()
    }

    /// What is held: pieces and heaps by memory type, slot and offset. Where the host has no memory for it, the program ends, as it does
    /// wherever Rust's lists have none; `report_json` and `named_pieces` return an error instead.
    pub fn generate_report(&self) -> AllocatorReport {
        let named = self.handle.blocks().map(|(heap, block)| (size_of_heap(heap), block.named()));
        report_of(self.capacity(), named).unwrap_or_else(|_| out_of_host_memory())
    }

    /// The report as JSON (`gpu_report.allocator` of docs/REPORT.md).
    ///
    /// The error: `HostOutOfMemory`.
    pub fn report_json(&self) -> Result<String> {
        self.handle.report_json()
    }

    /// Logs each live allocation as a leak, by memory type, slot and offset, where there is a logger. Where the host has no memory for the
    /// next ones, the last line says so.
    pub fn report_memory_leaks(&self, log_level: Level) {
        self.log.leaks(log_level, |log| {
            for index in 0.. {
                match self.handle.leak(index)? {
                    text if text.is_empty() => break,
                    text => log(text.trim_end()),
                }
            }
            Ok::<(), AllocationError>(())
        });
    }

    /// Whether an allocation is this allocator's and live.
    pub(super) fn live(&self, allocation: &Allocation) -> Result<()> {
        if self.is_live(allocation) {
            Ok(())
        } else {
            check(NOT_LIVE)
        }
    }

    fn owns(&self, owner: u64) -> Result<()> {
        if owner == self.owner {
            Ok(())
        } else {
            check(NOT_LIVE)
        }
    }
}

/// The size of a heap of the allocator's, by its number.
fn size_of_heap(number: u64) -> u64 {
    let mut piece = HeapsPiece::default();
    piece.piece.block = number;
    let heap: Interface = heap_of(&piece);
    // SAFETY: it is a heap.
    unsafe { heap_size(&heap) }
}

impl fmt::Debug for Allocator {
    fn fmt(&self, f: &mut fmt::Formatter<'_>) -> fmt::Result {
        self.generate_report().fmt(f)
    }
}

/// The heaps are released behind the lines, also where the logger panics.
impl Drop for Allocator {
    fn drop(&mut self) {
        if self.log.settings.log_leaks_on_shutdown {
            self.report_memory_leaks(Level::Warn);
        }
    }
}
