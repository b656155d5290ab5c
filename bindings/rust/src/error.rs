//! Why a call is refused.

use crate::vulkan::Allocation;
use crate::{d3d12, raw};
use std::alloc::{handle_alloc_error, Layout};
use std::collections::TryReserveError;
use std::error::Error;
use std::fmt;

/// What the crate's calls return.
pub type Result<V, E = AllocationError> = std::result::Result<V, E>;

/// What went wrong, in fixed words, and with the driver's code where it told one. It prints as `vkMapMemory failed (code -5)`.
#[derive(Clone, Copy, Debug, PartialEq, Eq)]
pub struct Fault {
    /// The words.
    pub text: &'static str,
    /// The code that the driver returned (`VkResult`, `HRESULT`), where it returned one.
    pub code: Option<i64>,
}

impl fmt::Display for Fault {
    fn fmt(&self, f: &mut fmt::Formatter<'_>) -> fmt::Result {
        match self.code {
            None => f.write_str(self.text),
            Some(code) => write!(f, "{} (code {code})", self.text),
        }
    }
}

/// Why a call is refused. A refused call leaves everything as it was.
#[derive(Clone, Copy, Debug, PartialEq, Eq)]
pub enum AllocationError {
    /// No gap has a place for the request; or the request is larger than its heap, the driver has no memory left, or the sum of all
    /// blocks' sizes would pass `u64::MAX` (error E1).
    OutOfMemory,
    /// The driver granted memory, but didn't map it. The memory has gone back (error E2).
    FailedToMap(Fault),
    /// No memory type that the request allows has the flags that its location needs (error E3).
    NoCompatibleMemoryTypeFound,
    /// A size of 0, or an alignment or a page size that is no power of two (error E4).
    InvalidAllocationCreateDesc,
    /// A property of the device makes no sense (error E5).
    InvalidAllocatorCreateDesc(Fault),
    /// The piece isn't live, there is no such memory type, or the driver refused memory with a code that has no error of its own
    /// (error E6).
    Internal(Fault),
    /// A resource that begins in a barrier layout needs `Device10`: DirectX 12 alone (error E7).
    BarrierLayoutNeedsDevice10,
    /// Castable formats need a barrier layout: DirectX 12 alone (error E8).
    CastableFormatsRequiresEnhancedBarriers,
    /// Castable formats need `Device12`: DirectX 12 alone (error E9).
    CastableFormatsRequiresAtLeastDevice12,
    /// The host refused memory that the call needed (error E10).
    HostOutOfMemory,
    /// The block that is needed would carry its memory type past the budget that is set (error E11).
    BudgetExceeded,
}

impl AllocationError {
    /// The number that stands for this error in traces (`error E1`) and in C: 1 to 11.
    pub fn number(&self) -> u32 {
        match self {
            AllocationError::OutOfMemory => 1,
            AllocationError::FailedToMap(_) => 2,
            AllocationError::NoCompatibleMemoryTypeFound => 3,
            AllocationError::InvalidAllocationCreateDesc => 4,
            AllocationError::InvalidAllocatorCreateDesc(_) => 5,
            AllocationError::Internal(_) => 6,
            AllocationError::BarrierLayoutNeedsDevice10 => 7,
            AllocationError::CastableFormatsRequiresEnhancedBarriers => 8,
            AllocationError::CastableFormatsRequiresAtLeastDevice12 => 9,
            AllocationError::HostOutOfMemory => 10,
            AllocationError::BudgetExceeded => 11,
        }
    }
}

impl fmt::Display for AllocationError {
    fn fmt(&self, f: &mut fmt::Formatter<'_>) -> fmt::Result {
        match self {
            AllocationError::OutOfMemory => f.write_str("Out of memory"),
            AllocationError::FailedToMap(fault) => write!(f, "Failed to map memory: {fault}"),
            AllocationError::NoCompatibleMemoryTypeFound => f.write_str("No compatible memory type available"),
            AllocationError::InvalidAllocationCreateDesc => f.write_str("Invalid AllocationCreateDesc"),
            AllocationError::InvalidAllocatorCreateDesc(fault) => write!(f, "Invalid AllocatorCreateDesc {fault}"),
            AllocationError::Internal(fault) => write!(f, "Internal error: {fault}"),
            AllocationError::BarrierLayoutNeedsDevice10 => {
                f.write_str("Initial `BARRIER_LAYOUT` needs at least `Device10`")
            }
            AllocationError::CastableFormatsRequiresEnhancedBarriers => {
                f.write_str("Castable formats require enhanced barriers")
            }
            AllocationError::CastableFormatsRequiresAtLeastDevice12 => {
                f.write_str("Castable formats require at least `Device12`")
            }
            AllocationError::HostOutOfMemory => f.write_str("Out of host memory"),
            AllocationError::BudgetExceeded => f.write_str("Memory budget exceeded"),
        }
    }
}

impl Error for AllocationError {}

/// What `vulkan::Allocator::free` refuses, without the allocation that it hands back: `?` drops that one, which then leaks in its own
/// allocator.
impl From<(AllocationError, Allocation)> for AllocationError {
    fn from((error, _): (AllocationError, Allocation)) -> Self {
        error
    }
}

/// What `d3d12::Allocator::free` refuses, as above.
impl From<(AllocationError, d3d12::Allocation)> for AllocationError {
    fn from((error, _): (AllocationError, d3d12::Allocation)) -> Self {
        error
    }
}

/// What `d3d12::Allocator::free_resource` refuses, as above.
impl From<(AllocationError, d3d12::Resource)> for AllocationError {
    fn from((error, _): (AllocationError, d3d12::Resource)) -> Self {
        error
    }
}

impl From<TryReserveError> for AllocationError {
    fn from(_: TryReserveError) -> Self {
        AllocationError::HostOutOfMemory
    }
}

/// A fault in the library's own words, without a code.
pub(crate) const fn internal(text: &'static str) -> AllocationError {
    AllocationError::Internal(Fault { text, code: None })
}

/// Why a device with more than 32 memory types is refused.
pub(crate) const TOO_MANY_TYPES: &str = "more than 32 memory types.";

/// Why a device with more than 16 memory heaps is refused.
pub(crate) const TOO_MANY_HEAPS: &str = "more than 16 memory heaps.";

/// Why a device with an odd `nonCoherentAtomSize` is refused.
pub(crate) const INVALID_ATOM_SIZE: &str = "non-coherent atom size is not a power of two.";

/// A fault of a device.
pub(crate) const fn invalid_device(text: &'static str) -> AllocationError {
    AllocationError::InvalidAllocatorCreateDesc(Fault { text, code: None })
}

/// What a status of the archive says. A status that no call in its place may return is a defect of the crate, and panics.
pub(crate) fn check(status: u32) -> Result<()> {
    match status {
        raw::OK => Ok(()),
        raw::OUT_OF_MEMORY => Err(AllocationError::OutOfMemory),
        raw::NO_MEMORY_TYPE => Err(AllocationError::NoCompatibleMemoryTypeFound),
        raw::INVALID => Err(AllocationError::InvalidAllocationCreateDesc),
        raw::INVALID_DEVICE => Err(invalid_device("buffer image granularity is not a power of two.")),
        raw::NOT_LIVE => Err(internal("Allocation does not belong to this allocator.")),
        raw::LAYOUT_NEEDS_DEVICE10 => Err(AllocationError::BarrierLayoutNeedsDevice10),
        raw::FORMATS_NEED_LAYOUT => Err(AllocationError::CastableFormatsRequiresEnhancedBarriers),
        raw::FORMATS_NEED_DEVICE12 => Err(AllocationError::CastableFormatsRequiresAtLeastDevice12),
        raw::HOST_OUT_OF_MEMORY => Err(AllocationError::HostOutOfMemory),
        raw::BUDGET_EXCEEDED => Err(AllocationError::BudgetExceeded),
        raw::NO_SUCH_TYPE => Err(internal("No such memory type.")),
        raw::NO_SUCH_HEAP => Err(invalid_device("memory type with a heap index out of range.")),
        raw::AWAITS_BLOCK => Err(internal("A block is awaited.")),
        _ => panic!("libgpu_c.a returned the status {status} where it can't"),
    }
}

/// Looks at the status of a call that nothing refuses.
#[track_caller]
pub(crate) fn check_unrefused(status: u32) {
    assert_eq!(status, raw::OK, "libgpu_c.a refused a call that it never refuses");
}

/// Ends the program as Rust's lists do where the host has no memory for them.
pub(crate) fn out_of_host_memory() -> ! {
    handle_alloc_error(Layout::new::<crate::AllocatorReport>())
}

/// A copy of a text, or `HostOutOfMemory`.
pub(crate) fn copied(text: &str) -> Result<String> {
    let mut copy = String::new();
    copy.try_reserve_exact(text.len())?;
    copy.push_str(text);
    Ok(copy)
}

#[cfg(test)]
mod tests {
    use super::*;

    /// The texts that users of gpu-allocator rely on, and the two that this project adds.
    #[test]
    fn errors_print_their_texts() {
        let fault = Fault { text: "vkMapMemory failed", code: Some(-5) };
        let texts = [
            (AllocationError::OutOfMemory, "Out of memory"),
            (AllocationError::FailedToMap(fault), "Failed to map memory: vkMapMemory failed (code -5)"),
            (AllocationError::NoCompatibleMemoryTypeFound, "No compatible memory type available"),
            (AllocationError::InvalidAllocationCreateDesc, "Invalid AllocationCreateDesc"),
            (
                AllocationError::InvalidAllocatorCreateDesc(Fault { text: "more than 32 memory types.", code: None }),
                "Invalid AllocatorCreateDesc more than 32 memory types.",
            ),
            (internal("No such memory type."), "Internal error: No such memory type."),
            (AllocationError::BarrierLayoutNeedsDevice10, "Initial `BARRIER_LAYOUT` needs at least `Device10`"),
            (AllocationError::CastableFormatsRequiresEnhancedBarriers, "Castable formats require enhanced barriers"),
            (AllocationError::CastableFormatsRequiresAtLeastDevice12, "Castable formats require at least `Device12`"),
            (AllocationError::HostOutOfMemory, "Out of host memory"),
            (AllocationError::BudgetExceeded, "Memory budget exceeded"),
        ];
        for (number, (error, text)) in (1..).zip(texts) {
            assert_eq!(error.to_string(), text);
            assert_eq!(error.number(), number);
        }
    }
}
