//! What the driver answers: memory, where the host sees it, or a refusal.

use super::abi::{DeviceMemory, OUT_OF_DEVICE_MEMORY};
use std::ptr::NonNull;

/// What the driver answers.
#[derive(Clone, Copy, Debug)]
pub(super) enum Answer {
    Granted(Memory),
    MemoryRefused(Refusal),
    MappingRefused(Refusal),
}

/// How the driver refuses: by a code, or by success and a null handle or pointer.
#[derive(Clone, Copy, Debug)]
pub(super) enum Refusal {
    Code(i32),
    Null,
}

impl Refusal {
    /// The code, where there is one.
    pub(super) fn code(self) -> Option<i32> {
        match self {
            Refusal::Code(code) => Some(code),
            Refusal::Null => None,
        }
    }

    /// The code that stands for it where memory was refused: no memory is as if the device had none left.
    pub(super) fn memory_code(self) -> i32 {
        self.code().unwrap_or(OUT_OF_DEVICE_MEMORY)
    }
}

/// Memory that the driver granted, and where the host sees its first byte.
#[derive(Clone, Copy, Debug)]
pub(super) struct Memory {
    pub(super) handle: DeviceMemory,
    pub(super) address: Option<Address>,
}

/// Where the host sees a byte of mapped memory.
#[derive(Clone, Copy, Debug)]
pub(super) struct Address(pub(super) NonNull<u8>);

// SAFETY: an address is the same on each thread; the bytes behind it are read and written by the borrow rules of their allocation alone.
unsafe impl Send for Address {}

// SAFETY: as above: nothing can be done with a shared address but to copy it.
unsafe impl Sync for Address {}

impl Address {
    /// As a number, which isn't 0.
    pub(super) fn number(self) -> u64 {
        self.0.as_ptr() as usize as u64
    }

    /// The address of that number; `None` of 0.
    pub(super) fn from_number(number: u64) -> Option<Self> {
        NonNull::new(number as usize as *mut u8).map(Address)
    }

    /// The address so many bytes further.
    ///
    /// # Safety
    ///
    /// That byte, or the end behind the last one, is of the same mapping.
    pub(super) unsafe fn at(self, offset: u64) -> Self {
        // SAFETY: the mapping reaches so far, as the caller promises.
        Address(unsafe { self.0.add(offset as usize) })
    }

    /// The pointer.
    pub(super) fn as_ptr(self) -> NonNull<u8> {
        self.0
    }
}
