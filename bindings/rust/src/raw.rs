//! The archive's symbols and what crosses to them, as include/pilhangko.h declares them. The types that own a handle (`VirtualBlock`,
//! `Ring`, `MemoryType`, `Capture`, the Vulkan and the DirectX 12 allocator) are the only callers.

use std::cell::UnsafeCell;
use std::ffi::c_void;
use std::ptr;

pub(crate) const OK: u32 = 0;
pub(crate) const OUT_OF_MEMORY: u32 = 1;
pub(crate) const FAILED_TO_MAP: u32 = 2;
pub(crate) const NO_MEMORY_TYPE: u32 = 3;
pub(crate) const INVALID: u32 = 4;
pub(crate) const INVALID_DEVICE: u32 = 5;
pub(crate) const NOT_LIVE: u32 = 6;
pub(crate) const LAYOUT_NEEDS_DEVICE10: u32 = 7;
pub(crate) const FORMATS_NEED_LAYOUT: u32 = 8;
pub(crate) const FORMATS_NEED_DEVICE12: u32 = 9;
pub(crate) const HOST_OUT_OF_MEMORY: u32 = 10;
pub(crate) const BUDGET_EXCEEDED: u32 = 11;
pub(crate) const DRIVER_REFUSED: u32 = 12;
pub(crate) const NO_SUCH_TYPE: u32 = 13;
pub(crate) const NO_SUCH_HEAP: u32 = 15;
pub(crate) const INVALID_TIER: u32 = 16;
pub(crate) const AWAITS_BLOCK: u32 = 102;
pub(crate) const TOO_MANY_FRAMES: u32 = 106;

pub(crate) const KIND_LINEAR: u32 = 1;
pub(crate) const KIND_NON_LINEAR: u32 = 2;

pub(crate) const LOCATION_UNKNOWN: u32 = 1;
pub(crate) const LOCATION_GPU_ONLY: u32 = 2;
pub(crate) const LOCATION_CPU_TO_GPU: u32 = 3;
pub(crate) const LOCATION_GPU_TO_CPU: u32 = 4;

pub(crate) const SCHEME_MANAGED: u32 = 1;
pub(crate) const SCHEME_BUFFER: u32 = 2;
pub(crate) const SCHEME_IMAGE: u32 = 3;

pub(crate) const CATEGORY_BUFFER: u32 = 1;
pub(crate) const CATEGORY_RTV_DSV_TEXTURE: u32 = 2;
pub(crate) const CATEGORY_OTHER_TEXTURE: u32 = 3;

pub(crate) const DEVICE: u32 = 0;
pub(crate) const DEVICE10: u32 = 10;
pub(crate) const DEVICE12: u32 = 12;

pub(crate) const CALL_IN_STATE: u32 = 1;
pub(crate) const CALL_IN_LAYOUT_WITH_FORMATS: u32 = 3;

pub(crate) const CAPTURE_WHOLE: u32 = 1;
pub(crate) const CAPTURE_TOO_LONG: u32 = 2;

pub(crate) const PLAN_ORDER_SIZE: u32 = 1;
pub(crate) const PLAN_ORDER_AREA: u32 = 2;
pub(crate) const PLAN_ORDER_ALIGNMENT: u32 = 3;
pub(crate) const PLAN_ORDER_MAGNITUDE: u32 = 4;
pub(crate) const PLAN_ORDER_BREADTH: u32 = 5;

pub(crate) const PROGRESS_PIECE: u32 = 1;
pub(crate) const PROGRESS_QUESTION: u32 = 2;

/// A handle: one pointer that the caller keeps and the library owns. Each call takes what lies behind it out and returns it, also one
/// that changes nothing, so the pointer stands in a cell, and what holds a handle is never `Sync`.
///
/// ```compile_fail,E0277
/// fn is_sync<T: Sync>() {}
/// is_sync::<pilhangko::vulkan::Allocator>();
/// ```
#[repr(transparent)]
#[derive(Debug)]
pub(crate) struct Handle(UnsafeCell<*mut c_void>);

impl Handle {
    /// An empty handle.
    pub(crate) const fn empty() -> Self {
        Handle(UnsafeCell::new(ptr::null_mut()))
    }

    /// What the library is handed.
    pub(crate) fn as_ptr(&self) -> *mut Handle {
        self.0.get().cast()
    }
}

// SAFETY: the archive's handles may go from thread to thread (the header: "It is given to one call at a time, on any thread").
unsafe impl Send for Handle {}

/// A text of the library's, of which a call copies as much as there is room for and tells the length.
pub(crate) fn copied_text(copy: impl Fn(*mut u8, usize, &mut usize) -> u32) -> crate::Result<String> {
    let mut text = Vec::new();
    loop {
        let (room, mut length) = (text.len(), 0);
        crate::error::check(copy(text.as_mut_ptr(), room, &mut length))?;
        if length <= room {
            return Ok(String::from_utf8(text).expect("the text is UTF-8"));
        }
        text.try_reserve_exact(length)?;
        text.resize(length, 0);
    }
}

#[repr(C)]
#[derive(Debug)]
pub(crate) struct VirtualRequest {
    pub(crate) size: u64,
    pub(crate) alignment: u64,
    pub(crate) kind: u32,
}

#[repr(C)]
#[derive(Debug, Default)]
pub(crate) struct VirtualPiece {
    pub(crate) offset: u64,
    pub(crate) number: u64,
}

#[repr(C)]
#[derive(Debug, Default)]
pub(crate) struct VirtualStatistics {
    pub(crate) size: u64,
    pub(crate) pieces: usize,
    pub(crate) piece_bytes: u64,
    pub(crate) gaps: usize,
    pub(crate) longest_gap: u64,
}

#[repr(C)]
#[derive(Clone, Copy, Debug, Default)]
pub(crate) struct PieceView {
    pub(crate) exists: bool,
    pub(crate) number: u64,
    pub(crate) start: u64,
    pub(crate) offset: u64,
    pub(crate) end: u64,
    pub(crate) kind: u32,
    pub(crate) word: u64,
}

#[repr(C)]
#[derive(Debug, Default)]
pub(crate) struct RingFrameCounts {
    pub(crate) pieces: u64,
    pub(crate) bytes: u64,
}

#[repr(C)]
#[derive(Debug, Default)]
pub(crate) struct RingCounts {
    pub(crate) size: u64,
    pub(crate) taken: u64,
    pub(crate) frames: usize,
    pub(crate) oldest: u64,
    pub(crate) current: RingFrameCounts,
}

#[repr(C)]
#[derive(Debug, Default)]
pub(crate) struct RingStretch {
    pub(crate) offset: u64,
    pub(crate) size: u64,
    pub(crate) rest: u64,
}

#[repr(C)]
#[derive(Debug)]
pub(crate) struct MemoryTypeSettings {
    pub(crate) is_host: bool,
    pub(crate) page_size: u64,
    pub(crate) device_block_size: u64,
    pub(crate) largest_device_block_size: u64,
    pub(crate) host_block_size: u64,
    pub(crate) largest_host_block_size: u64,
    pub(crate) has_budget: bool,
    pub(crate) budget: u64,
}

#[repr(C)]
#[derive(Debug)]
pub(crate) struct MemoryRequest {
    pub(crate) size: u64,
    pub(crate) alignment: u64,
    pub(crate) kind: u32,
    pub(crate) dedicated: bool,
}

#[repr(C)]
#[derive(Clone, Copy, Debug, Default)]
pub(crate) struct MemoryPiece {
    pub(crate) slot: usize,
    pub(crate) number: u64,
    pub(crate) offset: u64,
    pub(crate) size: u64,
    pub(crate) block: u64,
}

#[repr(C)]
#[derive(Debug, Default)]
pub(crate) struct MemoryPrepared {
    pub(crate) needs_block: bool,
    pub(crate) dedicated: bool,
    pub(crate) block_size: u64,
    pub(crate) piece: MemoryPiece,
}

#[repr(C)]
#[derive(Debug, Default)]
pub(crate) struct MemoryBlock {
    pub(crate) exists: bool,
    pub(crate) block: u64,
}

#[repr(C)]
#[derive(Debug, Default)]
pub(crate) struct MemoryStatistics {
    pub(crate) capacity: u64,
    pub(crate) slots: usize,
    pub(crate) shared_blocks: usize,
    pub(crate) has_budget: bool,
    pub(crate) budget: u64,
    pub(crate) awaits_block: bool,
}

#[repr(C)]
#[derive(Debug, Default)]
pub(crate) struct MemoryBlockStatistics {
    pub(crate) exists: bool,
    pub(crate) shared: bool,
    pub(crate) size: u64,
    pub(crate) pieces: usize,
    pub(crate) piece_bytes: u64,
    pub(crate) gaps: usize,
    pub(crate) longest_gap: u64,
}

#[repr(C)]
#[derive(Debug)]
pub(crate) struct AllocatorSettings {
    pub(crate) page_size: u64,
    pub(crate) device_block_size: u64,
    pub(crate) largest_device_block_size: u64,
    pub(crate) host_block_size: u64,
    pub(crate) largest_host_block_size: u64,
}

#[repr(C)]
#[derive(Debug)]
pub(crate) struct AllocatorRequest {
    pub(crate) size: u64,
    pub(crate) alignment: u64,
    pub(crate) memory_type_bits: u32,
    pub(crate) kind: u32,
    pub(crate) location: u32,
    pub(crate) scheme: u32,
    pub(crate) resource: u64,
}

#[repr(C)]
#[derive(Clone, Copy, Debug, Default)]
pub(crate) struct Preference {
    pub(crate) required: u32,
    pub(crate) preferred: u32,
    pub(crate) avoided: u32,
    pub(crate) never_allocate: bool,
}

#[repr(C)]
#[derive(Clone, Copy, Debug, Default)]
pub(crate) struct AllocatorPiece {
    pub(crate) memory_type: usize,
    pub(crate) address: u64,
    pub(crate) piece: MemoryPiece,
}

#[repr(C)]
#[derive(Clone, Copy, Debug, Default)]
pub(crate) struct AllocatorQuestion {
    pub(crate) size: u64,
    pub(crate) memory_type: usize,
    pub(crate) dedicated: bool,
    pub(crate) mapped: bool,
}

#[repr(C)]
#[derive(Debug, Default)]
pub(crate) struct AllocatorProgress {
    pub(crate) kind: u32,
    pub(crate) status: u32,
    pub(crate) piece: AllocatorPiece,
    pub(crate) question: AllocatorQuestion,
}

#[repr(C)]
#[derive(Debug, Default)]
pub(crate) struct AllocatorMemory {
    pub(crate) exists: bool,
    pub(crate) mapped: bool,
    pub(crate) memory: u64,
    pub(crate) address: u64,
}

#[repr(C)]
#[derive(Debug, Default)]
pub(crate) struct AllocatorBlock {
    pub(crate) exists: bool,
    pub(crate) mapped: bool,
    pub(crate) shared: bool,
    pub(crate) memory: u64,
    pub(crate) address: u64,
    pub(crate) size: u64,
}

#[repr(C)]
#[derive(Debug, Default)]
pub(crate) struct Budget {
    pub(crate) exists: bool,
    pub(crate) bytes: u64,
}

#[repr(C)]
#[derive(Debug, Default)]
pub(crate) struct TypeStatistics {
    pub(crate) capacity: u64,
    pub(crate) slots: usize,
    pub(crate) shared_blocks: usize,
    pub(crate) has_budget: bool,
    pub(crate) budget: u64,
    pub(crate) pieces: usize,
    pub(crate) piece_bytes: u64,
    pub(crate) gaps: usize,
    pub(crate) longest_gap: u64,
}

#[repr(C)]
#[derive(Debug)]
pub(crate) struct HeapsSettings {
    pub(crate) heap_tier: u32,
    pub(crate) device_block_size: u64,
    pub(crate) largest_device_block_size: u64,
    pub(crate) host_block_size: u64,
    pub(crate) largest_host_block_size: u64,
}

#[repr(C)]
#[derive(Debug)]
pub(crate) struct HeapsRequest {
    pub(crate) size: u64,
    pub(crate) alignment: u64,
    pub(crate) location: u32,
    pub(crate) category: u32,
}

#[repr(C)]
#[derive(Clone, Copy, Debug, Default)]
pub(crate) struct HeapsPiece {
    pub(crate) memory_type: usize,
    pub(crate) piece: MemoryPiece,
}

#[repr(C)]
#[derive(Clone, Copy, Debug, Default)]
pub(crate) struct HeapsQuestion {
    pub(crate) memory_type: usize,
    pub(crate) size: u64,
    pub(crate) alignment: u64,
    pub(crate) heap_type: u32,
    pub(crate) cpu_page_property: u32,
    pub(crate) memory_pool: u32,
    pub(crate) flags: u32,
    pub(crate) dedicated: bool,
}

#[repr(C)]
#[derive(Debug, Default)]
pub(crate) struct HeapsProgress {
    pub(crate) kind: u32,
    pub(crate) status: u32,
    pub(crate) piece: HeapsPiece,
    pub(crate) question: HeapsQuestion,
}

#[repr(C)]
#[derive(Clone, Copy, Debug, Default)]
pub(crate) struct HeapsCommitted {
    pub(crate) memory_type: usize,
    pub(crate) resource: u64,
    pub(crate) size: u64,
}

#[repr(C)]
#[derive(Debug, Default)]
pub(crate) struct HeapsCommittedStatistics {
    pub(crate) count: usize,
    pub(crate) bytes: u64,
}

/// A memory type of a device, laid out as `VkMemoryType` is.
pub(crate) type DeviceMemoryType = crate::vulkan::MemoryType;

/// A heap of a device, laid out as `VkMemoryHeap` is.
pub(crate) type DeviceHeap = crate::vulkan::MemoryHeap;

#[repr(C)]
#[derive(Clone, Copy, Debug, Default)]
pub(crate) struct CaptureAnswer {
    pub(crate) refused: bool,
    pub(crate) code: i32,
}

#[repr(C)]
#[derive(Clone, Copy, Debug)]
pub(crate) struct PlanResource {
    pub(crate) size: u64,
    pub(crate) alignment: u64,
    pub(crate) kind: u32,
    pub(crate) first_pass: u64,
    pub(crate) last_pass: u64,
}

#[repr(C)]
#[derive(Clone, Copy, Debug, Default)]
pub(crate) struct HeapPlan {
    pub(crate) heap_size: u64,
    pub(crate) peak: u64,
    pub(crate) order: u32,
}

#[repr(C)]
#[derive(Clone, Copy, Debug)]
pub(crate) struct MemoryNeeds {
    pub(crate) memory_type_bits: u32,
    pub(crate) dedicated: bool,
}

#[repr(C)]
#[derive(Clone, Copy, Debug, Default)]
pub(crate) struct HeapMemory {
    pub(crate) size: u64,
    pub(crate) alignment: u64,
    pub(crate) kind: u32,
}

extern "C" {
    pub(crate) fn pilhangko_raw_virtual_block_create(block: *mut Handle, size: u64, page_size: u64) -> u32;
    pub(crate) fn pilhangko_raw_virtual_block_allocate(
        block: *mut Handle,
        request: *const VirtualRequest,
        name: *const u8,
        name_length: usize,
        piece: *mut VirtualPiece,
    ) -> u32;
    pub(crate) fn pilhangko_raw_virtual_block_free(block: *mut Handle, piece: *const VirtualPiece) -> u32;
    pub(crate) fn pilhangko_raw_virtual_block_rename(
        block: *mut Handle,
        piece: *const VirtualPiece,
        name: *const u8,
        name_length: usize,
    ) -> u32;
    pub(crate) fn pilhangko_raw_virtual_block_set_word(
        block: *mut Handle,
        piece: *const VirtualPiece,
        word: u64,
    ) -> u32;
    pub(crate) fn pilhangko_raw_virtual_block_clear(block: *mut Handle) -> u32;
    pub(crate) fn pilhangko_raw_virtual_block_statistics(block: *mut Handle, statistics: *mut VirtualStatistics)
        -> u32;
    pub(crate) fn pilhangko_raw_virtual_block_next_piece(block: *mut Handle, from: u64, piece: *mut PieceView) -> u32;
    pub(crate) fn pilhangko_raw_virtual_block_pieces(
        block: *mut Handle,
        from: u64,
        pieces: *mut PieceView,
        room: usize,
        count: *mut usize,
    ) -> u32;
    pub(crate) fn pilhangko_raw_virtual_block_piece_names(
        block: *mut Handle,
        from: u64,
        lengths: *mut usize,
        room: usize,
        names: *mut u8,
        names_room: usize,
        count: *mut usize,
    ) -> u32;
    pub(crate) fn pilhangko_raw_virtual_block_destroy(block: *mut Handle) -> u32;

    pub(crate) fn pilhangko_raw_ring_create(ring: *mut Handle, size: u64, frames: usize) -> u32;
    pub(crate) fn pilhangko_raw_ring_allocate(ring: *mut Handle, size: u64, alignment: u64, offset: *mut u64) -> u32;
    pub(crate) fn pilhangko_raw_ring_end_frame(ring: *mut Handle, frame: *mut u64) -> u32;
    pub(crate) fn pilhangko_raw_ring_retire(ring: *mut Handle, frame: u64) -> u32;
    pub(crate) fn pilhangko_raw_ring_statistics(ring: *mut Handle, counts: *mut RingCounts) -> u32;
    pub(crate) fn pilhangko_raw_ring_current_stretch(ring: *mut Handle, stretch: *mut RingStretch) -> u32;
    pub(crate) fn pilhangko_raw_ring_frame_statistics(
        ring: *mut Handle,
        frame: u64,
        counts: *mut RingFrameCounts,
    ) -> u32;
    pub(crate) fn pilhangko_raw_ring_destroy(ring: *mut Handle) -> u32;

    pub(crate) fn pilhangko_raw_memory_type_create(
        memory_type: *mut Handle,
        settings: *const MemoryTypeSettings,
    ) -> u32;
    pub(crate) fn pilhangko_raw_memory_type_prepare(
        memory_type: *mut Handle,
        request: *const MemoryRequest,
        name: *const u8,
        name_length: usize,
        prepared: *mut MemoryPrepared,
    ) -> u32;
    pub(crate) fn pilhangko_raw_memory_type_install(
        memory_type: *mut Handle,
        block: u64,
        piece: *mut MemoryPiece,
    ) -> u32;
    pub(crate) fn pilhangko_raw_memory_type_abandon(memory_type: *mut Handle) -> u32;
    pub(crate) fn pilhangko_raw_memory_type_free(
        memory_type: *mut Handle,
        piece: *const MemoryPiece,
        gone: *mut MemoryBlock,
    ) -> u32;
    pub(crate) fn pilhangko_raw_memory_type_rename(
        memory_type: *mut Handle,
        piece: *const MemoryPiece,
        name: *const u8,
        name_length: usize,
    ) -> u32;
    pub(crate) fn pilhangko_raw_memory_type_set_word(
        memory_type: *mut Handle,
        piece: *const MemoryPiece,
        word: u64,
    ) -> u32;
    pub(crate) fn pilhangko_raw_memory_type_is_live(
        memory_type: *mut Handle,
        piece: *const MemoryPiece,
        is_live: *mut bool,
    ) -> u32;
    pub(crate) fn pilhangko_raw_memory_type_set_budget(memory_type: *mut Handle, has_budget: bool, bytes: u64) -> u32;
    pub(crate) fn pilhangko_raw_memory_type_block(
        memory_type: *mut Handle,
        slot: usize,
        block: *mut MemoryBlock,
    ) -> u32;
    pub(crate) fn pilhangko_raw_memory_type_block_statistics(
        memory_type: *mut Handle,
        slot: usize,
        statistics: *mut MemoryBlockStatistics,
    ) -> u32;
    pub(crate) fn pilhangko_raw_memory_type_next_piece(
        memory_type: *mut Handle,
        slot: usize,
        from: u64,
        piece: *mut PieceView,
    ) -> u32;
    pub(crate) fn pilhangko_raw_memory_type_pieces(
        memory_type: *mut Handle,
        slot: usize,
        from: u64,
        pieces: *mut PieceView,
        room: usize,
        count: *mut usize,
    ) -> u32;
    pub(crate) fn pilhangko_raw_memory_type_piece_names(
        memory_type: *mut Handle,
        slot: usize,
        from: u64,
        lengths: *mut usize,
        room: usize,
        names: *mut u8,
        names_room: usize,
        count: *mut usize,
    ) -> u32;
    pub(crate) fn pilhangko_raw_memory_type_statistics(
        memory_type: *mut Handle,
        statistics: *mut MemoryStatistics,
    ) -> u32;
    pub(crate) fn pilhangko_raw_memory_type_destroy(memory_type: *mut Handle) -> u32;

    pub(crate) fn pilhangko_raw_allocator_create(
        allocator: *mut Handle,
        types: *const DeviceMemoryType,
        type_count: usize,
        heaps: *const DeviceHeap,
        heap_count: usize,
        settings: *const AllocatorSettings,
    ) -> u32;
    pub(crate) fn pilhangko_raw_allocator_begin(
        allocator: *mut Handle,
        request: *const AllocatorRequest,
        name: *const u8,
        name_length: usize,
        progress: *mut AllocatorProgress,
    ) -> u32;
    pub(crate) fn pilhangko_raw_allocator_begin_by_flags(
        allocator: *mut Handle,
        request: *const AllocatorRequest,
        name: *const u8,
        name_length: usize,
        preference: *const Preference,
        progress: *mut AllocatorProgress,
    ) -> u32;
    pub(crate) fn pilhangko_raw_allocator_granted(
        allocator: *mut Handle,
        memory: u64,
        address: u64,
        piece: *mut AllocatorPiece,
    ) -> u32;
    pub(crate) fn pilhangko_raw_allocator_refused(
        allocator: *mut Handle,
        code: i32,
        progress: *mut AllocatorProgress,
    ) -> u32;
    pub(crate) fn pilhangko_raw_allocator_mapping_refused(
        allocator: *mut Handle,
        has_code: bool,
        code: i32,
        progress: *mut AllocatorProgress,
    ) -> u32;
    pub(crate) fn pilhangko_raw_allocator_free(
        allocator: *mut Handle,
        piece: *const AllocatorPiece,
        back: *mut AllocatorMemory,
    ) -> u32;
    pub(crate) fn pilhangko_raw_allocator_propose_move(
        allocator: *mut Handle,
        piece: *const AllocatorPiece,
        request: *const AllocatorRequest,
        name: *const u8,
        name_length: usize,
        moves: *mut bool,
        to: *mut AllocatorPiece,
    ) -> u32;
    pub(crate) fn pilhangko_raw_allocator_rename(
        allocator: *mut Handle,
        piece: *const AllocatorPiece,
        name: *const u8,
        name_length: usize,
    ) -> u32;
    pub(crate) fn pilhangko_raw_allocator_set_word(
        allocator: *mut Handle,
        piece: *const AllocatorPiece,
        word: u64,
    ) -> u32;
    pub(crate) fn pilhangko_raw_allocator_is_live(
        allocator: *mut Handle,
        piece: *const AllocatorPiece,
        is_live: *mut bool,
    ) -> u32;
    pub(crate) fn pilhangko_raw_allocator_set_budget(
        allocator: *mut Handle,
        memory_type: usize,
        has_budget: bool,
        bytes: u64,
    ) -> u32;
    pub(crate) fn pilhangko_raw_allocator_budget(
        allocator: *mut Handle,
        memory_type: usize,
        budget: *mut Budget,
    ) -> u32;
    pub(crate) fn pilhangko_raw_allocator_set_heap_limit(
        allocator: *mut Handle,
        heap: usize,
        has_limit: bool,
        bytes: u64,
    ) -> u32;
    pub(crate) fn pilhangko_raw_allocator_bound(allocator: *mut Handle, memory_type: usize, bound: *mut Budget) -> u32;
    pub(crate) fn pilhangko_raw_allocator_set_most_blocks(allocator: *mut Handle, has_most: bool, count: usize) -> u32;
    pub(crate) fn pilhangko_raw_allocator_set_smaller_blocks(allocator: *mut Handle, smaller_blocks: bool) -> u32;
    pub(crate) fn pilhangko_raw_allocator_capacity(allocator: *mut Handle, bytes: *mut u64) -> u32;
    pub(crate) fn pilhangko_raw_allocator_type_capacity(
        allocator: *mut Handle,
        memory_type: usize,
        bytes: *mut u64,
    ) -> u32;
    pub(crate) fn pilhangko_raw_allocator_best_type(
        allocator: *mut Handle,
        memory_type_bits: u32,
        location: u32,
        memory_type: *mut usize,
    ) -> u32;
    pub(crate) fn pilhangko_raw_allocator_type_statistics(
        allocator: *mut Handle,
        memory_type: usize,
        statistics: *mut TypeStatistics,
    ) -> u32;
    pub(crate) fn pilhangko_raw_allocator_block(
        allocator: *mut Handle,
        memory_type: usize,
        slot: usize,
        block: *mut AllocatorBlock,
    ) -> u32;
    pub(crate) fn pilhangko_raw_allocator_block_statistics(
        allocator: *mut Handle,
        memory_type: usize,
        slot: usize,
        statistics: *mut MemoryBlockStatistics,
    ) -> u32;
    pub(crate) fn pilhangko_raw_allocator_pieces(
        allocator: *mut Handle,
        memory_type: usize,
        slot: usize,
        from: u64,
        pieces: *mut PieceView,
        room: usize,
        count: *mut usize,
    ) -> u32;
    pub(crate) fn pilhangko_raw_allocator_piece_names(
        allocator: *mut Handle,
        memory_type: usize,
        slot: usize,
        from: u64,
        lengths: *mut usize,
        room: usize,
        names: *mut u8,
        names_room: usize,
        count: *mut usize,
    ) -> u32;
    pub(crate) fn pilhangko_raw_allocator_report(
        allocator: *mut Handle,
        text: *mut u8,
        room: usize,
        length: *mut usize,
    ) -> u32;
    #[cfg(test)]
    pub(crate) fn pilhangko_raw_allocator_leak(
        allocator: *mut Handle,
        index: usize,
        text: *mut u8,
        room: usize,
        length: *mut usize,
    ) -> u32;
    pub(crate) fn pilhangko_raw_allocator_destroy(allocator: *mut Handle) -> u32;

    pub(crate) fn pilhangko_raw_heaps_create(heaps: *mut Handle, settings: *const HeapsSettings) -> u32;
    pub(crate) fn pilhangko_raw_heaps_begin(
        heaps: *mut Handle,
        request: *const HeapsRequest,
        name: *const u8,
        name_length: usize,
        progress: *mut HeapsProgress,
    ) -> u32;
    pub(crate) fn pilhangko_raw_heaps_granted(heaps: *mut Handle, heap: u64, piece: *mut HeapsPiece) -> u32;
    pub(crate) fn pilhangko_raw_heaps_refused(heaps: *mut Handle, code: i32, progress: *mut HeapsProgress) -> u32;
    pub(crate) fn pilhangko_raw_heaps_free(heaps: *mut Handle, piece: *const HeapsPiece, back: *mut MemoryBlock)
        -> u32;
    pub(crate) fn pilhangko_raw_heaps_propose_move(
        heaps: *mut Handle,
        piece: *const HeapsPiece,
        request: *const HeapsRequest,
        name: *const u8,
        name_length: usize,
        moves: *mut bool,
        to: *mut HeapsPiece,
    ) -> u32;
    pub(crate) fn pilhangko_raw_heaps_rename(
        heaps: *mut Handle,
        piece: *const HeapsPiece,
        name: *const u8,
        name_length: usize,
    ) -> u32;
    pub(crate) fn pilhangko_raw_heaps_set_word(heaps: *mut Handle, piece: *const HeapsPiece, word: u64) -> u32;
    pub(crate) fn pilhangko_raw_heaps_is_live(heaps: *mut Handle, piece: *const HeapsPiece, is_live: *mut bool) -> u32;
    pub(crate) fn pilhangko_raw_heaps_begin_committed(
        heaps: *mut Handle,
        size: u64,
        location: u32,
        category: u32,
    ) -> u32;
    pub(crate) fn pilhangko_raw_heaps_made(heaps: *mut Handle, resource: u64, committed: *mut HeapsCommitted) -> u32;
    pub(crate) fn pilhangko_raw_heaps_not_made(heaps: *mut Handle) -> u32;
    pub(crate) fn pilhangko_raw_heaps_forget_committed(heaps: *mut Handle, committed: *const HeapsCommitted) -> u32;
    pub(crate) fn pilhangko_raw_heaps_committed_of(
        heaps: *mut Handle,
        memory_type: usize,
        statistics: *mut HeapsCommittedStatistics,
    ) -> u32;
    pub(crate) fn pilhangko_raw_heaps_choose_call(
        version: u32,
        in_layout: bool,
        has_formats: bool,
        call: *mut u32,
    ) -> u32;
    pub(crate) fn pilhangko_raw_heaps_set_budget(
        heaps: *mut Handle,
        memory_type: usize,
        has_budget: bool,
        bytes: u64,
    ) -> u32;
    pub(crate) fn pilhangko_raw_heaps_budget(heaps: *mut Handle, memory_type: usize, budget: *mut Budget) -> u32;
    pub(crate) fn pilhangko_raw_heaps_capacity(heaps: *mut Handle, bytes: *mut u64) -> u32;
    pub(crate) fn pilhangko_raw_heaps_type_statistics(
        heaps: *mut Handle,
        memory_type: usize,
        statistics: *mut TypeStatistics,
    ) -> u32;
    pub(crate) fn pilhangko_raw_heaps_block(
        heaps: *mut Handle,
        memory_type: usize,
        slot: usize,
        block: *mut MemoryBlock,
    ) -> u32;
    pub(crate) fn pilhangko_raw_heaps_block_statistics(
        heaps: *mut Handle,
        memory_type: usize,
        slot: usize,
        statistics: *mut MemoryBlockStatistics,
    ) -> u32;
    pub(crate) fn pilhangko_raw_heaps_pieces(
        heaps: *mut Handle,
        memory_type: usize,
        slot: usize,
        from: u64,
        pieces: *mut PieceView,
        room: usize,
        count: *mut usize,
    ) -> u32;
    pub(crate) fn pilhangko_raw_heaps_piece_names(
        heaps: *mut Handle,
        memory_type: usize,
        slot: usize,
        from: u64,
        lengths: *mut usize,
        room: usize,
        names: *mut u8,
        names_room: usize,
        count: *mut usize,
    ) -> u32;
    pub(crate) fn pilhangko_raw_heaps_report(heaps: *mut Handle, text: *mut u8, room: usize, length: *mut usize)
        -> u32;
    pub(crate) fn pilhangko_raw_heaps_leak(
        heaps: *mut Handle,
        index: usize,
        text: *mut u8,
        room: usize,
        length: *mut usize,
    ) -> u32;
    pub(crate) fn pilhangko_raw_heaps_destroy(heaps: *mut Handle) -> u32;

    pub(crate) fn pilhangko_raw_capture_of_allocator(
        capture: *mut Handle,
        types: *const DeviceMemoryType,
        type_count: usize,
        heaps: *const DeviceHeap,
        heap_count: usize,
        settings: *const AllocatorSettings,
    ) -> u32;
    pub(crate) fn pilhangko_raw_capture_allocator_allocated(
        capture: *mut Handle,
        number: u64,
        request: *const AllocatorRequest,
        name: *const u8,
        name_length: usize,
        answers: *const CaptureAnswer,
        answer_count: usize,
    ) -> u32;
    pub(crate) fn pilhangko_raw_capture_allocator_moved(
        capture: *mut Handle,
        from: u64,
        to: u64,
        request: *const AllocatorRequest,
        name: *const u8,
        name_length: usize,
    ) -> u32;
    pub(crate) fn pilhangko_raw_capture_of_heaps(capture: *mut Handle, settings: *const HeapsSettings) -> u32;
    pub(crate) fn pilhangko_raw_capture_heaps_allocated(
        capture: *mut Handle,
        number: u64,
        request: *const HeapsRequest,
        name: *const u8,
        name_length: usize,
        answers: *const CaptureAnswer,
        answer_count: usize,
    ) -> u32;
    pub(crate) fn pilhangko_raw_capture_heaps_committed(
        capture: *mut Handle,
        number: u64,
        request: *const HeapsRequest,
        name: *const u8,
        name_length: usize,
        answers: *const CaptureAnswer,
        answer_count: usize,
    ) -> u32;
    pub(crate) fn pilhangko_raw_capture_heaps_moved(
        capture: *mut Handle,
        from: u64,
        to: u64,
        request: *const HeapsRequest,
        name: *const u8,
        name_length: usize,
    ) -> u32;
    pub(crate) fn pilhangko_raw_capture_freed(capture: *mut Handle, number: u64) -> u32;
    pub(crate) fn pilhangko_raw_capture_released(capture: *mut Handle, number: u64) -> u32;
    pub(crate) fn pilhangko_raw_capture_renamed(
        capture: *mut Handle,
        number: u64,
        name: *const u8,
        name_length: usize,
    ) -> u32;
    pub(crate) fn pilhangko_raw_capture_bounded(
        capture: *mut Handle,
        memory_type: usize,
        has_budget: bool,
        bytes: u64,
    ) -> u32;
    pub(crate) fn pilhangko_raw_capture_how_far(capture: *mut Handle, end: *mut u32) -> u32;
    pub(crate) fn pilhangko_raw_capture_text(
        capture: *mut Handle,
        is_destroyed: bool,
        from: usize,
        bytes: *mut u8,
        room: usize,
        count: *mut usize,
    ) -> u32;
    pub(crate) fn pilhangko_raw_capture_destroy(capture: *mut Handle) -> u32;

    pub(crate) fn pilhangko_raw_plan(
        resources: *const PlanResource,
        count: usize,
        page_size: u64,
        offsets: *mut u64,
        room: usize,
        plan: *mut HeapPlan,
    ) -> u32;
    pub(crate) fn pilhangko_raw_plan_reuses(
        resources: *const PlanResource,
        count: usize,
        offsets: *const u64,
        offset_count: usize,
        index: usize,
        reused: *mut usize,
        room: usize,
        reused_count: *mut usize,
    ) -> u32;
    pub(crate) fn pilhangko_raw_plan_sets(
        needs: *const MemoryNeeds,
        count: usize,
        sets: *mut usize,
        room: usize,
    ) -> u32;
    pub(crate) fn pilhangko_raw_plan_memory(
        resources: *const PlanResource,
        count: usize,
        heap_size: u64,
        page_size: u64,
        memory: *mut HeapMemory,
    ) -> u32;
}
