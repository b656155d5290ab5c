//! Where memory lies, what an allocator logs, and to whom.

use std::fmt;
use std::sync::Arc;

/// Where the memory of an allocation lies, and who reads and writes it.
#[derive(Clone, Copy, Debug, PartialEq, Eq, Hash)]
pub enum MemoryLocation {
    /// Anywhere: the first memory type that the request allows.
    Unknown,
    /// Device-local memory; the host needn't see it.
    GpuOnly,
    /// Written by the host, read by the GPU: uploads. Host-visible and coherent, and device-local where there is such a type.
    CpuToGpu,
    /// Written by the GPU, read by the host: readback. Host-visible and coherent, and cached where there is such a type.
    GpuToCpu,
}

/// Which lines an allocator passes to its logger, where it has one.
#[derive(Clone, Copy, Debug, PartialEq, Eq)]
pub struct AllocatorDebugSettings {
    /// The memory types and heaps of the device, when the allocator is made: level debug.
    pub log_memory_information: bool,
    /// The allocations that are still live when the allocator is dropped: level warn.
    pub log_leaks_on_shutdown: bool,
    /// Each request, be it served or refused: level debug.
    pub log_allocations: bool,
    /// Each allocation that `free` is handed, be it freed or refused: level debug.
    pub log_frees: bool,
}

/// Leaks alone are logged.
impl Default for AllocatorDebugSettings {
    fn default() -> Self {
        AllocatorDebugSettings {
            log_memory_information: false,
            log_leaks_on_shutdown: true,
            log_allocations: false,
            log_frees: false,
        }
    }
}

/// How much a log line matters; the names are those of the crate `log`.
#[derive(Clone, Copy, Debug, PartialEq, Eq, PartialOrd, Ord, Hash)]
pub enum Level {
    /// Something failed.
    Error,
    /// Something that should be looked at, as leaks at the end.
    Warn,
    /// Something that users may want to know.
    Info,
    /// What helps to find a fault.
    Debug,
    /// Steps.
    Trace,
}

/// Where an allocator's log lines go: a closure of the caller's, which may pass them to any logging crate. Clones share it.
///
/// ```
/// use pilhangko::Logger;
/// let logger = Logger::new(|level, line| eprintln!("{level:?}: {line}"));
/// ```
#[derive(Clone)]
pub struct Logger(Arc<Write>);

type Write = dyn Fn(Level, &str) + Send + Sync;

impl Logger {
    /// A logger that hands each line, without a line end behind it, to `write`.
    pub fn new(write: impl Fn(Level, &str) + Send + Sync + 'static) -> Self {
        Logger(Arc::new(write))
    }

    pub(crate) fn log(&self, level: Level, line: &str) {
        (self.0)(level, line);
    }
}

impl fmt::Debug for Logger {
    fn fmt(&self, f: &mut fmt::Formatter<'_>) -> fmt::Result {
        f.write_str("Logger")
    }
}
