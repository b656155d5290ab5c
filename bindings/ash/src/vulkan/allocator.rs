//! The allocator.

use super::device::device_of;
use super::Allocation;
use crate::AllocatorDebugSettings;
use ash::vk::{self, Handle};
use pilhangko::vulkan as inner;
use pilhangko::{AllocationSizes, AllocatorReport, Level, Logger, MemoryLocation, Result};
use std::backtrace::Backtrace;
use std::fmt;
use std::sync::{Mutex, MutexGuard, PoisonError};

/// What memory is made for.
#[derive(Clone, Copy, Debug, PartialEq, Eq)]
pub enum AllocationScheme {
    /// This buffer alone (`VkMemoryDedicatedAllocateInfo`).
    DedicatedBuffer(vk::Buffer),
    /// This image alone.
    DedicatedImage(vk::Image),
    /// Whatever the allocator puts there.
    GpuAllocatorManaged,
}

/// What is asked of an allocator.
#[derive(Clone, Debug)]
pub struct AllocationCreateDesc<'a> {
    /// A name for reports and leaks.
    pub name: &'a str,
    /// What the buffer or image needs.
    pub requirements: vk::MemoryRequirements,
    /// Who reads and writes it.
    pub location: MemoryLocation,
    /// Whether it is for a buffer or a linear image, and not for an image in the device's own layout.
    pub linear: bool,
    /// What its memory is made for.
    pub allocation_scheme: AllocationScheme,
}

/// What an allocator is made with. Instance, physical device and device are live as long as the allocator is, and what
/// `pilhangko::vulkan::Device::new` asks of its caller holds of them.
pub struct AllocatorCreateDesc {
    /// The instance of the physical device.
    pub instance: ash::Instance,
    /// The device that is asked for memory.
    pub device: ash::Device,
    /// The physical device whose memory types and heaps it has.
    pub physical_device: vk::PhysicalDevice,
    /// What is logged.
    pub debug_settings: AllocatorDebugSettings,
    /// Whether memory is made so that shaders may read its address: the device's feature `bufferDeviceAddress` is enabled.
    pub buffer_device_address: bool,
    /// The sizes of the blocks that pieces share.
    pub allocation_sizes: AllocationSizes,
}

impl fmt::Debug for AllocatorCreateDesc {
    fn fmt(&self, f: &mut fmt::Formatter<'_>) -> fmt::Result {
        f.debug_struct("AllocatorCreateDesc")
            .field("physical_device", &self.physical_device)
            .field("debug_settings", &self.debug_settings)
            .field("buffer_device_address", &self.buffer_device_address)
            .field("allocation_sizes", &self.allocation_sizes)
            .finish_non_exhaustive()
    }
}

/// An allocator of a device's memory. Dropping it gives all blocks back to the driver, and logs the allocations that are live still.
pub struct Allocator {
    // calls that look may come from several threads
    inner: Mutex<inner::Allocator>,
}

impl fmt::Debug for Allocator {
    fn fmt(&self, f: &mut fmt::Formatter<'_>) -> fmt::Result {
        self.lock().fmt(f)
    }
}

impl Allocator {
    /// An allocator without blocks; the driver isn't asked for memory. The errors: `InvalidAllocatorCreateDesc`, `HostOutOfMemory`.
    pub fn new(desc: &AllocatorCreateDesc) -> Result<Self> {
        // SAFETY: as the description's maker promises; gpu-allocator's `new` is as safe
        let device = unsafe { device_of(&desc.instance, desc.physical_device, &desc.device) }?;
        let allocator = inner::Allocator::new(&inner::AllocatorCreateDesc {
            device,
            debug_settings: desc.debug_settings.inner(),
            buffer_device_address: desc.buffer_device_address,
            allocation_sizes: desc.allocation_sizes,
            whole_blocks: true, // as gpu-allocator's
            logger: Some(logger(desc.debug_settings.log_stack_traces)),
            capture: false,
        })?;
        Ok(Allocator { inner: Mutex::new(allocator) })
    }

    /// Allocates a piece: see `pilhangko::vulkan::Allocator::allocate`.
    pub fn allocate(&mut self, desc: &AllocationCreateDesc<'_>) -> Result<Allocation> {
        let vk::MemoryRequirements { size, alignment, memory_type_bits } = desc.requirements;
        let allocation = self.get_mut().allocate(&inner::AllocationCreateDesc {
            name: desc.name,
            requirements: inner::MemoryRequirements { size, alignment, memory_type_bits },
            location: desc.location,
            linear: desc.linear,
            allocation_scheme: inner_scheme(desc.allocation_scheme),
        })?;
        Ok(Allocation(allocation))
    }

    /// Frees an allocation; the null allocation is freed without effect. The error: `Internal` where it isn't this allocator's. (The crate
    /// pilhangko hands such an allocation back; here it is lost, as with gpu-allocator.)
    pub fn free(&mut self, allocation: Allocation) -> Result<()> {
        self.get_mut().free(allocation.0).map_err(|(error, _)| error)
    }

    /// Renames an allocation. The errors, and then nothing changes: `Internal` where it isn't this allocator's, `HostOutOfMemory`.
    pub fn rename_allocation(&mut self, allocation: &mut Allocation, name: &str) -> Result<()> {
        self.get_mut().rename_allocation(&mut allocation.0, name)
    }

    /// Logs each live allocation as a leak.
    pub fn report_memory_leaks(&self, log_level: log::Level) {
        self.lock().report_memory_leaks(inner_level(log_level));
    }

    /// What is held: pieces and blocks by memory type, slot and offset.
    pub fn generate_report(&self) -> AllocatorReport {
        self.lock().generate_report()
    }

    /// The sum of the sizes of the live blocks in bytes.
    pub fn capacity(&self) -> u64 {
        self.lock().capacity()
    }

    fn lock(&self) -> MutexGuard<'_, inner::Allocator> {
        self.inner.lock().unwrap_or_else(PoisonError::into_inner)
    }

    fn get_mut(&mut self) -> &mut inner::Allocator {
        self.inner.get_mut().unwrap_or_else(PoisonError::into_inner)
    }
}

/// Lines for the crate `log`, those of requests and frees with the backtrace of their call where that is wanted.
fn logger(with_stack_traces: bool) -> Logger {
    Logger::new(move |level, line| {
        let level = log_level(level);
        if with_stack_traces && level == log::Level::Debug {
            let trace = Backtrace::force_capture();
            log::log!(target: "gpu_allocator::vulkan", level, "{line}\nBacktrace: {trace}");
        } else {
            log::log!(target: "gpu_allocator::vulkan", level, "{line}");
        }
    })
}

fn inner_scheme(scheme: AllocationScheme) -> inner::AllocationScheme {
    match scheme {
        AllocationScheme::DedicatedBuffer(buffer) => {
            inner::AllocationScheme::DedicatedBuffer(inner::Buffer(buffer.as_raw()))
        }
        AllocationScheme::DedicatedImage(image) => {
            inner::AllocationScheme::DedicatedImage(inner::Image(image.as_raw()))
        }
        AllocationScheme::GpuAllocatorManaged => inner::AllocationScheme::GpuAllocatorManaged,
    }
}

fn log_level(level: Level) -> log::Level {
    match level {
        Level::Error => log::Level::Error,
        Level::Warn => log::Level::Warn,
        Level::Info => log::Level::Info,
        Level::Debug => log::Level::Debug,
        Level::Trace => log::Level::Trace,
    }
}

fn inner_level(level: log::Level) -> Level {
    match level {
        log::Level::Error => Level::Error,
        log::Level::Warn => Level::Warn,
        log::Level::Info => Level::Info,
        log::Level::Debug => Level::Debug,
        log::Level::Trace => Level::Trace,
    }
}
