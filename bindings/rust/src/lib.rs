//! Pilhangko: GPU memory allocators whose code is proved, from Rust.
//!
//! [`vulkan`] has the allocator under the names of the crate gpu-allocator: it asks the driver for large blocks, cuts them up by best fit,
//! and gives them back; [`d3d12`] has the one of DirectX 12. [`virtual_block`] and [`memory_type`] are what it stands on, for any graphics API:
//! one block of numbers, and the blocks of one memory type. [`ring`] is a block of numbers for uploads, freed a frame at a time;
//! [`vulkan::UploadRing`] has memory behind it. [`plan()`] lets transient resources of a frame share memory.
//!
//! What decides where a piece lies, which block is asked for and which goes back is the library `libgpu_c.a`, proved and built from
//! contracts; this crate asks the driver, maps memory, and owns the handles. All of it may go from thread to thread, and serves
//! one call at a time.
//!
//! There is a library for Linux, Windows and macOS on x86-64 (with SSE4.2) and aarch64, and for Android on aarch64. The build takes the one in the
//! folder `PILHANGKO_LIB_DIR`, or else the target's that a release has, or else the one that the repository has built.

#![deny(unsafe_op_in_unsafe_fn, missing_docs)]

// the driver of the tests names the crate as its users do
#[cfg(test)]
extern crate self as pilhangko;

mod capture;
pub mod d3d12;
mod defragmentation;
mod error;
mod heap;
mod log;
pub mod memory_type;
mod pieces;
pub mod plan;
mod raw;
#[cfg(test)]
mod refused;
mod report;
pub mod ring;
mod settings;
mod sizes;
mod statistics;
pub mod virtual_block;
pub mod vulkan;

pub use error::{AllocationError, Fault, Result};
pub use memory_type::MemoryType;
pub use pieces::{Kind, NamedPiece, PieceView};
pub use plan::plan;
pub use report::{AllocationReport, AllocatorReport, MemoryBlockReport};
pub use ring::Ring;
pub use settings::{AllocatorDebugSettings, Level, Logger, MemoryLocation};
pub use sizes::AllocationSizes;
pub use virtual_block::VirtualBlock;
