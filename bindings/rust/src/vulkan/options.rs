//! What a request may ask for beside what is needed.

use super::abi::{Buffer, MemoryPropertyFlags, MemoryRequirements, MemoryType};
use super::AllocationScheme;
use crate::raw::Preference;
use crate::{AllocationError, MemoryLocation, Result};
use std::ffi::c_void;
use std::marker::PhantomData;
use std::ptr::NonNull;

/// What a request asks for beside what a buffer or an image needs; the default asks for nothing.
///
/// Where it has flags, or never allocates, these choose the memory in place of the location, which is `Unknown` then: memory types that have all
/// required flags are tried while they have no room, from the cheapest on: each preferred flag that is missing and each avoided one that is
/// there costs one, and of equal ones the first is first. Protected, device-coherent and RDMA-capable memory, for which a feature has to be
/// enabled, serves only where a required or preferred flag says so.
#[derive(Clone, Copy, Debug, Default)]
pub struct AllocationOptions<'a> {
    /// An alignment that counts where the one that is needed is less: a power of two.
    pub minimal_alignment: Option<u64>,
    /// Of the memory types that the requirements allow, those that serve.
    pub memory_type_bits: Option<u32>,
    /// What is chained to `VkMemoryAllocateInfo`. A request with a chain gets memory of its own.
    pub next: Option<Chain<'a>>,
    /// What memory has to be like.
    pub required_flags: MemoryPropertyFlags,
    /// What it had better be like.
    pub preferred_flags: MemoryPropertyFlags,
    /// What it had better not be like.
    pub avoided_flags: MemoryPropertyFlags,
    /// Whether only memory that is there is looked at, and the driver isn't asked.
    pub never_allocate: bool,
    /// The word of its owner's that the allocation begins with.
    pub user_data: u64,
}

/// Memory for which a feature has to be enabled.
const BY_FEATURE: u32 = MemoryPropertyFlags::PROTECTED.0
    | MemoryPropertyFlags::DEVICE_COHERENT_AMD.0
    | MemoryPropertyFlags::RDMA_CAPABLE_NV.0;

impl AllocationOptions<'_> {
    /// For staging: the host writes and the GPU reads once, in the host's memory, and in the device's own only where that has no room.
    pub fn staging() -> Self {
        AllocationOptions {
            required_flags: MemoryPropertyFlags::HOST_VISIBLE | MemoryPropertyFlags::HOST_COHERENT,
            avoided_flags: MemoryPropertyFlags::DEVICE_LOCAL | MemoryPropertyFlags::HOST_CACHED,
            ..AllocationOptions::default()
        }
    }

    /// For an attachment that is stored nowhere (`VK_IMAGE_USAGE_TRANSIENT_ATTACHMENT_BIT`), which has memory of its own: lazily allocated
    /// memory where there is such, which the driver allows for these alone, else device-local memory.
    pub fn transient() -> Self {
        AllocationOptions {
            required_flags: MemoryPropertyFlags::DEVICE_LOCAL,
            preferred_flags: MemoryPropertyFlags::LAZILY_ALLOCATED,
            ..AllocationOptions::default()
        }
    }

    /// The flags that choose, where there are some. The error: a location is told too.
    pub(super) fn preference(&self, location: MemoryLocation) -> Result<Option<Preference>> {
        let AllocationOptions { required_flags, preferred_flags, avoided_flags, never_allocate, .. } = *self;
        let (required, preferred, avoided) = (required_flags.0, preferred_flags.0, avoided_flags.0);
        if required | preferred | avoided == 0 && !never_allocate {
            return Ok(None);
        }
        match location {
            MemoryLocation::Unknown => Ok(Some(Preference { required, preferred, avoided, never_allocate })),
            _ => Err(AllocationError::InvalidAllocationCreateDesc),
        }
    }

    /// Of these memory types the bits of those that serve by its flags: that have all required ones.
    pub(super) fn serving(&self, types: &[MemoryType]) -> u32 {
        let has_all = |it: &MemoryType| it.property_flags.contains(self.required_flags);
        bits_of(types, has_all) & !self.unspoken(types)
    }

    /// Of these memory types the bits of those for which a feature has to be enabled, which the flags that choose don't speak of.
    fn unspoken(&self, types: &[MemoryType]) -> u32 {
        let by_feature = BY_FEATURE & !(self.required_flags.0 | self.preferred_flags.0);
        let is_unspoken = |it: &MemoryType| it.property_flags.0 & by_feature != 0;
        bits_of(types, is_unspoken)
    }

    /// What is needed and asked for together of a device with these memory types, by flags or not. Where an alignment is no power of two there is
    /// none, and the request is refused.
    pub(super) fn narrow(&self, needs: MemoryRequirements, types: &[MemoryType], by_flags: bool) -> MemoryRequirements {
        let alignment = match self.minimal_alignment {
            None => needs.alignment,
            Some(least) if least.is_power_of_two() && needs.alignment.is_power_of_two() => least.max(needs.alignment),
            Some(_) => 0,
        };
        let unspoken = if by_flags { self.unspoken(types) } else { 0 };
        let memory_type_bits = needs.memory_type_bits & self.memory_type_bits.unwrap_or(u32::MAX) & !unspoken;
        MemoryRequirements { size: needs.size, alignment, memory_type_bits }
    }

    /// What the memory is made for: with a chain for one resource alone, be it one without a name.
    pub(super) fn scheme(&self, scheme: AllocationScheme) -> AllocationScheme {
        match scheme {
            AllocationScheme::GpuAllocatorManaged if self.next.is_some() => {
                AllocationScheme::DedicatedBuffer(Buffer(0))
            }
            scheme => scheme,
        }
    }
}

/// The bits of those memory types of which something holds.
fn bits_of(types: &[MemoryType], holds: impl Fn(&MemoryType) -> bool) -> u32 {
    (0..).zip(types).filter(|(_, it)| holds(it)).fold(0, |bits, (index, _): (u32, _)| bits | 1 << index)
}

/// Structs that are chained to `VkMemoryAllocateInfo`: a priority (`VkMemoryPriorityAllocateInfoEXT`), handle types for export
/// (`VkExportMemoryAllocateInfo`), an import .. They stand behind the crate's own; its `VkMemoryDedicatedAllocateInfo` and
/// `VkMemoryAllocateFlagsInfo` are left out where the chain has one.
#[derive(Clone, Copy, Debug)]
pub struct Chain<'a> {
    first: NonNull<BaseInStructure>,
    structs: PhantomData<&'a ()>,
}

// SAFETY: its structs are only read, on whichever thread, and nobody changes them (`new`).
unsafe impl Send for Chain<'_> {}

// SAFETY: as above.
unsafe impl Sync for Chain<'_> {}

impl<'a> Chain<'a> {
    /// A chain by its first struct (ash: `NonNull::from(&info).cast()`). It is only read.
    ///
    /// # Safety
    ///
    /// The caller promises that the structs of the chain live as long as `'a`, or in a pool's description as long as the pool, that nobody changes
    /// them meanwhile, and that memory may be asked for with them of each device on whose allocator the chain is used.
    pub const unsafe fn new(first: NonNull<c_void>) -> Self {
        Chain { first: first.cast(), structs: PhantomData }
    }

    /// Its first struct.
    pub(super) fn as_ptr(self) -> *const c_void {
        self.first.as_ptr().cast_const().cast()
    }

    /// Whether a struct of this type is in it.
    pub(super) fn has(self, s_type: i32) -> bool {
        let mut at = self.first.as_ptr().cast_const();
        while !at.is_null() {
            // SAFETY: the structs of a chain begin so, and live (`new`).
            let it = unsafe { &*at };
            if it.s_type == s_type {
                return true;
            }
            at = it.next;
        }
        false
    }
}

/// How each struct of a chain begins: `VkBaseInStructure`.
#[repr(C)]
#[derive(Debug)]
struct BaseInStructure {
    s_type: i32,
    next: *const BaseInStructure,
}
