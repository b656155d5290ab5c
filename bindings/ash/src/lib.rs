//! The crate pilhangko under gpu-allocator's names, in ash's types: Vulkan programs that were written for gpu-allocator 0.28 compile over it
//! as they are.
//!
//! ```toml
//! [dependencies]
//! ash = "0.38"
//! gpu-allocator = { package = "pilhangko-ash", path = "FOLDER/bindings/ash" }
//! ```
//!
//! Log lines go to the crate `log`, with the target `gpu_allocator::vulkan`. Errors are the crate pilhangko's own: a cause's text and code stand
//! in a `Fault`, where gpu-allocator has a `String`.

#![deny(unsafe_op_in_unsafe_fn, missing_docs)]

mod debug_settings;
pub mod vulkan;

pub use debug_settings::AllocatorDebugSettings;
pub use pilhangko::{
    AllocationError, AllocationReport, AllocationSizes, AllocatorReport, Fault, MemoryBlockReport, MemoryLocation,
    Result,
};
