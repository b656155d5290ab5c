//! What an allocator logs.

/// Which lines an allocator logs. This allocator keeps no backtraces: where one is asked for, a line that is logged has the backtrace of
/// the call that logs it.
#[derive(Clone, Copy, Debug, PartialEq, Eq)]
pub struct AllocatorDebugSettings {
    /// The memory types and heaps of the device, when the allocator is made: level debug.
    pub log_memory_information: bool,
    /// The allocations that are still live when the allocator is dropped: level warn.
    pub log_leaks_on_shutdown: bool,
    /// Without effect: a leak's line has its name, and no backtrace.
    pub store_stack_traces: bool,
    /// Each request, be it served or refused: level debug.
    pub log_allocations: bool,
    /// Each allocation that `free` is handed, be it freed or refused: level debug.
    pub log_frees: bool,
    /// Whether the lines of requests and frees have the backtrace of their call.
    pub log_stack_traces: bool,
}

/// Leaks alone are logged.
impl Default for AllocatorDebugSettings {
    fn default() -> Self {
        let inner = pilhangko::AllocatorDebugSettings::default();
        AllocatorDebugSettings {
            log_memory_information: inner.log_memory_information,
            log_leaks_on_shutdown: inner.log_leaks_on_shutdown,
            store_stack_traces: false,
            log_allocations: inner.log_allocations,
            log_frees: inner.log_frees,
            log_stack_traces: false,
        }
    }
}

impl AllocatorDebugSettings {
    /// The lines that the crate pilhangko is asked for.
    pub(crate) fn inner(self) -> pilhangko::AllocatorDebugSettings {
        pilhangko::AllocatorDebugSettings {
            log_memory_information: self.log_memory_information,
            log_leaks_on_shutdown: self.log_leaks_on_shutdown,
            log_allocations: self.log_allocations,
            log_frees: self.log_frees,
        }
    }
}
