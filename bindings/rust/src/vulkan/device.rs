//! The device that an allocator asks for memory.

use super::abi::{
    Buffer, DeviceFunctions, DeviceMemory, Image, MappedMemoryRange, MemoryAllocateFlagsInfo, MemoryAllocateInfo,
    MemoryDedicatedAllocateInfo, MemoryHeap, MemoryPropertyFlags, MemoryRequirements, MemoryType,
    PhysicalDeviceMemoryProperties, SUCCESS, WHOLE_SIZE,
};
use super::allocator_handle::Question;
use super::answer::{Address, Answer, Memory, Refusal};
use super::budgets::BudgetSource;
use super::options::Chain;
use super::resource_abi::{GetPhysicalDeviceMemoryProperties2, ResourceFunctions};
use super::AllocationScheme;
use crate::error::{invalid_device, INVALID_ATOM_SIZE, TOO_MANY_HEAPS, TOO_MANY_TYPES};
use crate::log::Log;
use crate::Result;
use std::ffi::c_void;
use std::ops::Range;
use std::ptr::{self, NonNull};

/// Limits of a device, by their names in `VkPhysicalDeviceLimits`.
#[derive(Clone, Copy, Debug, PartialEq, Eq)]
pub struct DeviceLimits {
    /// `bufferImageGranularity`: the size in bytes of a page that buffers and images may not share.
    pub buffer_image_granularity: u64,
    /// `nonCoherentAtomSize`: the unit in bytes of what is flushed and invalidated.
    pub non_coherent_atom_size: u64,
    /// `maxMemoryAllocationCount`: how many blocks there may be; 0 for any number.
    pub max_memory_allocation_count: u32,
}

/// A Vulkan device as an allocator needs it: the handle, six functions, and what the physical device says of its memory. Clones stand for
/// the same device.
#[derive(Clone, Debug)]
pub struct Device {
    handle: u64,
    functions: DeviceFunctions,
    memory_properties: PhysicalDeviceMemoryProperties,
    limits: DeviceLimits,
    pub(super) resources: Option<ResourceFunctions>,
    pub(super) budgets: Option<BudgetSource>,
}

impl Device {
    /// A device by its `VkDevice` as a number (ash: `device.handle().as_raw()`), its functions, what
    /// `vkGetPhysicalDeviceMemoryProperties` says, and two of its limits.
    ///
    /// # Safety
    ///
    /// The caller promises, as long as an allocator over the device or over a clone of it lives:
    /// - the `VkDevice` is live, and the functions are its own;
    /// - the memory properties and the limits are those of its physical device;
    /// - the buffers and images that requests name (`AllocationScheme`) are live ones of the device, and bufferDeviceAddress is enabled
    ///   where an allocator is made with it;
    /// - no one else frees, maps or unmaps memory that an allocator asked for.
    ///
    /// And of allocations from these allocators, whose mapped bytes are read and written without `unsafe`: no one touches them after their
    /// allocator is dropped, and the device doesn't write bytes while a slice of them is borrowed.
    pub const unsafe fn new(
        handle: u64,
        functions: DeviceFunctions,
        memory_properties: PhysicalDeviceMemoryProperties,
        limits: DeviceLimits,
    ) -> Self {
        Device { handle, functions, memory_properties, limits, resources: None, budgets: None }
    }

    /// The device with functions that make buffers and images.
    ///
    /// # Safety
    ///
    /// The caller promises that they are the device's own.
    pub const unsafe fn with_resources(self, functions: ResourceFunctions) -> Self {
        Device { resources: Some(functions), ..self }
    }

    /// The device, which tells of its budgets: VK_EXT_memory_budget is enabled.
    ///
    /// # Safety
    ///
    /// The caller promises that it is a device of this `VkPhysicalDevice`, and that the function is one of its live instance.
    pub const unsafe fn with_memory_budget(
        self,
        physical_device: u64,
        tell: GetPhysicalDeviceMemoryProperties2,
    ) -> Self {
        Device { budgets: Some(BudgetSource { physical_device, tell }), ..self }
    }

    /// The memory types.
    pub fn memory_types(&self) -> &[MemoryType] {
        let all = &self.memory_properties.memory_types;
        &all[..all.len().min(self.memory_properties.memory_type_count as usize)]
    }

    /// The heaps.
    pub fn memory_heaps(&self) -> &[MemoryHeap] {
        let all = &self.memory_properties.memory_heaps;
        &all[..all.len().min(self.memory_properties.memory_heap_count as usize)]
    }

    /// Its limits.
    pub fn limits(&self) -> DeviceLimits {
        self.limits
    }

    /// Refuses what the library can't be told of, or isn't: more memory types or heaps than there is room for in what says so, and an atom
    /// size that is no power of two.
    pub(super) fn check(&self) -> Result<()> {
        let PhysicalDeviceMemoryProperties { memory_type_count, memory_types, memory_heap_count, memory_heaps } =
            &self.memory_properties;
        if !self.limits.non_coherent_atom_size.is_power_of_two() {
            Err(invalid_device(INVALID_ATOM_SIZE))
        } else if *memory_type_count as usize > memory_types.len() {
            Err(invalid_device(TOO_MANY_TYPES))
        } else if *memory_heap_count as usize > memory_heaps.len() {
            Err(invalid_device(TOO_MANY_HEAPS))
        } else {
            Ok(())
        }
    }

    /// What a request needs, aligned to whole atoms where a memory type that it allows needs flushes: a flush then touches no other
    /// allocation. An alignment that is no power of two stays, to be refused.
    pub(super) fn in_whole_atoms(&self, needs: MemoryRequirements) -> MemoryRequirements {
        let may_need_flushes = (0..).zip(self.memory_types()).any(|(index, memory_type): (u32, _)| {
            needs.memory_type_bits >> index & 1 == 1 && needs_flushes(memory_type.property_flags)
        });
        if may_need_flushes && needs.alignment.is_power_of_two() {
            let alignment = needs.alignment.max(self.limits.non_coherent_atom_size);
            MemoryRequirements { alignment, ..needs }
        } else {
            needs
        }
    }

    /// Asks the driver for the memory of a block, and to map it where it is to be mapped. Memory that it doesn't map goes back.
    pub(super) fn ask(&self, question: &Question, purpose: Purpose<'_>) -> Answer {
        let memory = match self.allocate(question, purpose) {
            Err(refusal) => return Answer::MemoryRefused(refusal),
            Ok(memory) => memory,
        };
        if !question.mapped {
            return Answer::Granted(Memory { handle: memory, address: None });
        }
        match self.map(memory) {
            Ok(address) => Answer::Granted(Memory { handle: memory, address: Some(address) }),
            Err(refusal) => {
                self.free(memory);
                Answer::MappingRefused(refusal)
            }
        }
    }

    /// Gives memory back to the driver, unmapped before where it is mapped.
    pub(super) fn give_back(&self, memory: Memory) {
        if memory.address.is_some() {
            // SAFETY: the device is live and the function its own (`new`), and the memory is mapped.
            unsafe { (self.functions.unmap_memory)(self.as_ptr(), memory.handle) };
        }
        self.free(memory.handle);
    }

    /// Makes bytes of mapped memory, which is of `size` bytes, visible: to the device what the host wrote, or the reverse. They grow to whole
    /// units of `nonCoherentAtomSize`, or up to the memory's end.
    pub(super) fn sync(&self, way: Way, memory: DeviceMemory, size: u64, bytes: &Range<u64>) -> Result<(), i32> {
        let atom = self.limits.non_coherent_atom_size;
        let (first, rest) = (bytes.start - bytes.start % atom, bytes.end % atom);
        let end = if rest == 0 { bytes.end } else { bytes.end + (atom - rest).min(size - bytes.end) };
        let range = MappedMemoryRange {
            s_type: MappedMemoryRange::STRUCTURE_TYPE,
            next: ptr::null(),
            memory,
            offset: first,
            size: end - first,
        };
        let function = match way {
            Way::Flush => self.functions.flush_mapped_memory_ranges,
            Way::Invalidate => self.functions.invalidate_mapped_memory_ranges,
        };
        // SAFETY: the device is live and the function its own (`new`), and the memory is mapped whole.
        match unsafe { function(self.as_ptr(), 1, &range) } {
            SUCCESS => Ok(()),
            code => Err(code),
        }
    }

    /// Logs its memory types and heaps.
    pub(super) fn describe(&self, log: &Log) {
        let (types, heaps) = (self.memory_types(), self.memory_heaps());
        log.device(format_args!("memory type count: {}", types.len()));
        log.device(format_args!("memory heap count: {}", heaps.len()));
        for (index, it) in types.iter().enumerate() {
            let (flags, heap) = (it.property_flags.0, it.heap_index);
            log.device(format_args!("memory type[{index}]: prop flags: {flags:#x}, heap[{heap}]"));
        }
        for (index, heap) in heaps.iter().enumerate() {
            let (flags, size) = (heap.flags, heap.size >> 20);
            log.device(format_args!("heap[{index}] flags: {flags:#x}, size: {size} MiB"));
        }
    }

    pub(super) fn as_ptr(&self) -> *mut c_void {
        self.handle as usize as *mut c_void
    }

    fn allocate(&self, question: &Question, purpose: Purpose<'_>) -> Result<DeviceMemory, Refusal> {
        let has = |s_type| purpose.next.is_some_and(|chain| chain.has(s_type));
        let next = purpose.next.map_or(ptr::null(), Chain::as_ptr);
        let addresses = MemoryAllocateFlagsInfo {
            s_type: MemoryAllocateFlagsInfo::STRUCTURE_TYPE,
            next,
            flags: MemoryAllocateFlagsInfo::DEVICE_ADDRESS,
            device_mask: 0,
        };
        let says_addresses = purpose.device_address && !has(MemoryAllocateFlagsInfo::STRUCTURE_TYPE);
        let with_addresses = if says_addresses { (&raw const addresses).cast() } else { next };
        let says_dedicated = !has(MemoryDedicatedAllocateInfo::STRUCTURE_TYPE);
        let dedicated = says_dedicated.then(|| dedicated_info(purpose.scheme, with_addresses)).flatten();
        let info = MemoryAllocateInfo {
            s_type: MemoryAllocateInfo::STRUCTURE_TYPE,
            next: dedicated.as_ref().map_or(with_addresses, |info| ptr::from_ref(info).cast()),
            allocation_size: question.size,
            memory_type_index: question.memory_type,
        };
        let mut memory = DeviceMemory(0);
        // SAFETY: the device is live and the function its own (`new`); what is chained to the description outlives the call.
        let code = unsafe { (self.functions.allocate_memory)(self.as_ptr(), &info, ptr::null(), &mut memory) };
        match (code, memory) {
            (SUCCESS, DeviceMemory(0)) => Err(Refusal::Null),
            (SUCCESS, memory) => Ok(memory),
            (code, _) => Err(Refusal::Code(code)),
        }
    }

    fn map(&self, memory: DeviceMemory) -> Result<Address, Refusal> {
        let mut address = ptr::null_mut();
        // SAFETY: the device is live and the function its own (`new`); the memory is live, isn't mapped, and the host can see it.
        let code = unsafe { (self.functions.map_memory)(self.as_ptr(), memory, 0, WHOLE_SIZE, 0, &mut address) };
        match (code, NonNull::new(address)) {
            (SUCCESS, Some(address)) => Ok(Address(address.cast())),
            (SUCCESS, None) => Err(Refusal::Null),
            (code, _) => Err(Refusal::Code(code)),
        }
    }

    fn free(&self, memory: DeviceMemory) {
        // SAFETY: the device is live and the function its own (`new`); the memory is live and isn't used again.
        unsafe { (self.functions.free_memory)(self.as_ptr(), memory, ptr::null()) };
    }
}

/// Which way bytes become visible.
#[derive(Clone, Copy, Debug)]
pub(super) enum Way {
    /// To the device, what the host wrote.
    Flush,
    /// To the host, what the device wrote.
    Invalidate,
}

/// Whether the host sees such memory, and the device doesn't see what the host wrote until it is flushed.
pub(super) fn needs_flushes(flags: MemoryPropertyFlags) -> bool {
    flags.contains(MemoryPropertyFlags::HOST_VISIBLE) && !flags.contains(MemoryPropertyFlags::HOST_COHERENT)
}

/// What says that memory is for one buffer or image alone, where it is for one that has a handle.
fn dedicated_info(scheme: AllocationScheme, next: *const c_void) -> Option<MemoryDedicatedAllocateInfo> {
    let (buffer, image) = match scheme {
        AllocationScheme::GpuAllocatorManaged | AllocationScheme::DedicatedBuffer(Buffer(0)) => return None,
        AllocationScheme::DedicatedBuffer(buffer) => (buffer, Image(0)),
        AllocationScheme::DedicatedImage(image) => (Buffer(0), image),
    };
    let s_type = MemoryDedicatedAllocateInfo::STRUCTURE_TYPE;
    Some(MemoryDedicatedAllocateInfo { s_type, next, image, buffer })
}

/// What memory is asked for, as the driver is told it.
#[derive(Clone, Copy, Debug)]
pub(super) struct Purpose<'a> {
    pub(super) scheme: AllocationScheme,
    /// Whether shaders may read its address.
    pub(super) device_address: bool,
    /// What is chained to what the driver is told.
    pub(super) next: Option<Chain<'a>>,
}
