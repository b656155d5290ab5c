/* Pilhangko: a proved allocator of GPU memory, for C and for all that calls C.
 *
 * It says where pieces lie; it holds no memory of a device and calls no driver. Link libgpu_c.a, and pilhangko_heap.c over the program's
 * malloc, realloc and free (docs/C.md). No call blocks, calls back or starts a thread.
 *
 * Handles. A pilhangko_virtual_block, a pilhangko_ring, a pilhangko_memory_type, a pilhangko_allocator, a pilhangko_heaps, a
 * pilhangko_metal_heaps or a pilhangko_capture is one pointer that the caller keeps and the library owns. The caller upholds:
 *   - It begins zeroed, as in `pilhangko_virtual_block block = {0};`, and is empty then. create fills it, destroy leaves it empty. Each
 *     other call on an empty handle returns PILHANGKO_NO_HANDLE, so a call after destroy and a second destroy are refused.
 *   - It is never copied, and its field is never written or read. (To move it, copy it and never use the old one again.)
 *   - It is given to one call at a time, on any thread: it may go from thread to thread, and back. Calls of one handle on different
 *     threads are ordered by a lock, by a thread's start or join, or by a sequentially consistent atomic. Different handles share nothing:
 *     threads with handles of their own need no lock. The program's malloc, realloc and free have to be callable from each of these
 *     threads, also for a block that another one allocated, as a C library's are.
 *   - It is not used in a signal handler, nor in the forked child of a process with threads.
 * A handle that is never destroyed leaks its host memory. A piece doesn't say which handle it is of: one of another virtual block, memory
 * type, allocator, pilhangko_heaps or pilhangko_metal_heaps, or of one that was destroyed, is taken for the live piece here that has the
 * same numbers, where there is one. (The allocations of a binding do say it.)
 *
 * const. A call on a `const` handle changes nothing that lies behind it. It still needs the handle to itself, since it takes the value out
 * and puts it back: two such calls may not overlap either, and a handle is never itself defined const.
 *
 * Pointers. The calls here test each pointer for NULL and return PILHANGKO_NULL_POINTER. What a call writes to may not overlap with
 * anything else that the call is given. `bool`s are 0 or 1.
 *
 * Values. Sizes, offsets and alignments are in bytes. Sizes, alignments, kinds, names and pieces may be anything: each call tests them.
 * A name is UTF-8 text that ends in a 0, or NULL for none; the library keeps a copy.
 *
 * Statuses. Each call returns PILHANGKO_OK, or says why not. Where several causes hold, the one that is listed first at the call is
 * returned. Any status but PILHANGKO_OK leaves everything as it was, out parameters too.
 */
#ifndef PILHANGKO_H
#define PILHANGKO_H
#include <stdbool.h>
#include <stddef.h>
#include <stdint.h>
#include <string.h>

#define PILHANGKO_VERSION_MAJOR 0
#define PILHANGKO_VERSION_MINOR 1
#define PILHANGKO_VERSION_PATCH 0

/* What stands before the archive's symbols: nothing, which is right for a static library. Define it before this header where a shared
 * library passes the symbols on (__declspec(dllexport), visibility ..). And their calling convention, C's: on Windows a compiler's default
 * may be another one. */
#ifndef PILHANGKO_API
#define PILHANGKO_API
#endif
#ifndef PILHANGKO_CALL
#ifdef _WIN32
#define PILHANGKO_CALL __cdecl
#else
#define PILHANGKO_CALL
#endif
#endif

/* Before each call whose status shall be looked at, which is each but destroy: the compiler warns where it is dropped. Define it before
 * this header, as nothing, to be warned of none. */
#ifndef PILHANGKO_NODISCARD
#if defined(__cplusplus) && __cplusplus >= 201703L || defined(__STDC_VERSION__) && __STDC_VERSION__ >= 202311L
#define PILHANGKO_NODISCARD [[nodiscard]]
#elif defined(__GNUC__)
#define PILHANGKO_NODISCARD __attribute__((warn_unused_result))
#else
#define PILHANGKO_NODISCARD
#endif
#endif

#ifdef __cplusplus
extern "C" {
#endif

/* What a call returns, of this header and of the bindings. pilhangko_status_name and pilhangko_status_text have each one's name and
 * one line of text.
 *
 * 1 to 11 are the allocators' errors by the numbers that they have everywhere in this project. 12 and 13 are two causes that have the
 * number 6 elsewhere, 14 and 15 two that have 5; 16 to 99 are kept for further errors. From 100 on the handle is in another state than the
 * call needs, from 200 on the header's own test of what it was passed has failed, from 300 on it is the Vulkan binding's
 * (pilhangko_vulkan.h), from 400 on the DirectX 12 binding's (pilhangko_d3d12.h), from 500 on the Metal binding's (pilhangko_metal.h). */
typedef uint32_t pilhangko_status;
enum {
    /* The call did what it says. */
    PILHANGKO_OK = 0,
    /* No gap, or no part of a ring, has a place for the request; or the sum of a memory type's block sizes would pass 2^64 - 1. Of an
     * allocator of all memory types: the request is larger than its heap, the driver has no memory left, or the sum of all blocks' sizes, or
     * of a memory type's committed resources, would pass 2^64 - 1. Of a plan: in each order the heap's size would pass 2^64 - 1. */
    PILHANGKO_OUT_OF_MEMORY = 1,
    /* The driver granted memory, but didn't map it. */
    PILHANGKO_FAILED_TO_MAP = 2,
    /* No memory type that the request allows has what its location needs. */
    PILHANGKO_NO_MEMORY_TYPE = 3,
    /* A size of 0, an alignment or a page size that is no power of two, an unknown kind, location, scheme, category or version, or a name
     * that isn't UTF-8. Of a ring: a size of 0 or of 2^63 and more, or an alignment of 0. Of a plan also a last pass before the first, and an
     * index that no resource has. */
    PILHANGKO_INVALID = 4,
    /* The page size of a device is no power of two. */
    PILHANGKO_INVALID_DEVICE = 5,
    /* No live piece, or no record of a committed resource, is the one that is named; or no frame in flight. */
    PILHANGKO_NOT_LIVE = 6,
    /* A resource begins in a barrier layout, and the device is no ID3D12Device10. Of pilhangko_heaps_choose_call alone, as 8 and 9. */
    PILHANGKO_LAYOUT_NEEDS_DEVICE10 = 7,
    /* A resource has castable formats, and begins in a state. */
    PILHANGKO_FORMATS_NEED_LAYOUT = 8,
    /* A resource has castable formats, and the device is no ID3D12Device12. */
    PILHANGKO_FORMATS_NEED_DEVICE12 = 9,
    /* malloc or realloc refused. */
    PILHANGKO_HOST_OUT_OF_MEMORY = 10,
    /* The block that is needed would carry the sum of the memory type's block sizes past its budget. */
    PILHANGKO_BUDGET_EXCEEDED = 11,
    /* The driver refused memory with a code that has no status of its own. */
    PILHANGKO_DRIVER_REFUSED = 12,
    /* No memory type has that index. */
    PILHANGKO_NO_SUCH_TYPE = 13,
    /* A device has more than 32 memory types. */
    PILHANGKO_TOO_MANY_TYPES = 14,
    /* A memory type of a device lies in a heap that isn't there. */
    PILHANGKO_NO_SUCH_HEAP = 15,
    /* The resource heap tier of a device is 0. */
    PILHANGKO_INVALID_TIER = 16,
    /* The handle is empty. */
    PILHANGKO_NO_HANDLE = 100,
    /* create was given a handle that isn't empty. */
    PILHANGKO_IN_USE = 101,
    /* A block is awaited: call install or abandon first. */
    PILHANGKO_AWAITS_BLOCK = 102,
    /* No block is awaited, so there is none to install or to abandon. */
    PILHANGKO_AWAITS_NO_BLOCK = 103,
    /* A question is open: call granted, refused or mapping_refused first; of a committed resource made or not_made. */
    PILHANGKO_AWAITS_ANSWER = 104,
    /* No question is open, so there is none to answer. */
    PILHANGKO_AWAITS_NO_ANSWER = 105,
    /* As many frames are in flight as a ring has room for: call retire first. */
    PILHANGKO_TOO_MANY_FRAMES = 106,
    /* A pointer is NULL that may not be. Only the headers' calls return it; the archive's symbols look at none. */
    PILHANGKO_NULL_POINTER = 200,
    /* The driver refused to make, to bind, to flush or to invalidate, or said VK_SUCCESS and gave a null handle. */
    PILHANGKO_VULKAN_CALL_FAILED = 300,
    /* A function that is needed is missing: the loader doesn't have it, or it is NULL in the table. */
    PILHANGKO_VULKAN_NO_FUNCTION = 301,
    /* The host can't see the allocation's memory. */
    PILHANGKO_VULKAN_NOT_MAPPED = 302,
    /* The range isn't within the allocation. */
    PILHANGKO_VULKAN_OUT_OF_RANGE = 303,
    /* VK_EXT_memory_budget isn't enabled. */
    PILHANGKO_VULKAN_NO_BUDGETS = 304,
    /* No memory heap has that index. */
    PILHANGKO_VULKAN_NO_SUCH_HEAP = 305,
    /* No capture is under way. */
    PILHANGKO_VULKAN_NO_CAPTURE = 306,
    /* The nonCoherentAtomSize of a device is no power of two. */
    PILHANGKO_VULKAN_INVALID_ATOM_SIZE = 307,
    /* A device has more than 16 memory heaps. */
    PILHANGKO_VULKAN_TOO_MANY_HEAPS = 308,
    /* The driver refused to make a resource, to map it or to tell its heap tier, or said S_OK and gave null. */
    PILHANGKO_D3D12_CALL_FAILED = 400,
    /* The device was removed; the driver's code is the reason. */
    PILHANGKO_D3D12_DEVICE_REMOVED = 401,
    /* No adapter was handed in, or it tells no budget. */
    PILHANGKO_D3D12_NO_BUDGETS = 402,
    /* The resource doesn't fit into the allocation there. */
    PILHANGKO_D3D12_OUT_OF_RANGE = 403,
    /* No memory segment group has that index. */
    PILHANGKO_D3D12_NO_SUCH_GROUP = 404,
    /* No capture is under way. */
    PILHANGKO_D3D12_NO_CAPTURE = 405,
    /* A heap made no resource. */
    PILHANGKO_METAL_CALL_FAILED = 500,
    /* No capture is under way. */
    PILHANGKO_METAL_NO_CAPTURE = 501
};

/* How the types of named values are declared: 32 bits everywhere, of an unsigned type where the language lets it be said. A compiler that
 * looks (-Wenum-conversion, which -Wextra has, in C; each one in C++) finds a value of another type in a field. A field may hold any number
 * all the same, and each call tests it. */
#if defined(__cplusplus) || defined(__STDC_VERSION__) && __STDC_VERSION__ >= 202311L
#define PILHANGKO_ENUM(name) enum name : uint32_t
#else
#define PILHANGKO_ENUM(name) enum name
#endif

/* The kind of a piece. Pieces of different kinds share no page of their block. */
typedef PILHANGKO_ENUM(pilhangko_kind) {
    /* Buffers and linear images. */
    PILHANGKO_KIND_LINEAR = 1,
    /* Images in the device's own layout. */
    PILHANGKO_KIND_NON_LINEAR = 2
} pilhangko_kind;
/* -fshort-enums would make them shorter */
typedef char pilhangko_enums_have_32_bits[sizeof(pilhangko_kind) == 4 ? 1 : -1];

/* ---- Virtual blocks: one block of a size, cut into pieces. Numbers alone: no memory is behind it. ---- */

typedef struct pilhangko_virtual_block {
    void *opaque; /* the library's own */
} pilhangko_virtual_block;

/* size: not 0. alignment: a power of two. kind: PILHANGKO_KIND_LINEAR or PILHANGKO_KIND_NON_LINEAR. */
typedef struct pilhangko_virtual_request {
    uint64_t size;
    uint64_t alignment;
    pilhangko_kind kind;
} pilhangko_virtual_request;

/* A piece: where it begins in the block, and its number there, which is never 0. A piece that was freed is refused
 * (PILHANGKO_NOT_LIVE) until its number and its offset come again: a piece that is allocated later at the same place can have both. */
typedef struct pilhangko_virtual_piece {
    uint64_t offset;
    uint64_t number;
} pilhangko_virtual_piece;

/* What is counted of a virtual block. */
typedef struct pilhangko_virtual_statistics {
    uint64_t size;        /* of the block */
    size_t pieces;        /* live pieces */
    uint64_t piece_bytes; /* what they take, with the padding before them */
    size_t gaps;
    uint64_t longest_gap; /* 0 where there is none */
} pilhangko_virtual_statistics;

/* A live piece as a visit shows it, or none: its padding is [start, offset), its own bytes [offset, end). */
typedef struct pilhangko_piece_view {
    bool exists; /* else all is 0 */
    uint64_t number;
    uint64_t start;
    uint64_t offset;
    uint64_t end;
    pilhangko_kind kind;
    uint64_t word; /* the caller's; 0 until it is set */
} pilhangko_piece_view;

/* ---- Rings: one block of a size, whose pieces go to the next place and are freed a frame at a time. Numbers alone, as above. ---- */

typedef struct pilhangko_ring {
    void *opaque; /* the library's own */
} pilhangko_ring;

/* What is counted of a frame. */
typedef struct pilhangko_ring_frame_counts {
    uint64_t pieces;
    uint64_t bytes; /* what they take, with the padding before them and the bytes at the ring's end that they skipped */
} pilhangko_ring_frame_counts;

/* What is counted of a ring. */
typedef struct pilhangko_ring_counts {
    uint64_t size;                       /* of the ring */
    uint64_t taken;                      /* the bytes of all frames in flight and of the open one */
    size_t frames;                       /* frames in flight: ended and not yet retired */
    uint64_t oldest;                     /* the oldest one's number, from which on they count up; where none is, the open one's */
    pilhangko_ring_frame_counts current; /* of the open frame */
} pilhangko_ring_counts;

/* Where bytes of a ring lie that go on from one another, round its end: `size` bytes from `offset` on, and `rest` bytes from 0 on. */
typedef struct pilhangko_ring_stretch {
    uint64_t offset;
    uint64_t size;
    uint64_t rest;
} pilhangko_ring_stretch;

/* ---- Memory types: blocks that come and go, each asked of the driver by the caller. ---- */

typedef struct pilhangko_memory_type {
    void *opaque; /* the library's own */
} pilhangko_memory_type;

/* Sizes of blocks are brought into 4 MB (2^22 bytes) to 256 MB and rounded up to a multiple of 4 MB. The first shared block has the block
 * size of its side, and each further one twice the last one's, at most seven times and up to the largest size of its side; a largest size
 * below the block size counts as that. A request above the next shared block's size gets a block of its own. */
typedef struct pilhangko_memory_type_settings {
    bool is_host;               /* whether the host can see the memory: which side's sizes count */
    uint64_t page_size;         /* a power of two: Vulkan's bufferImageGranularity, elsewhere 1 */
    uint64_t device_block_size; /* 256 MB suit where memory is plenty */
    uint64_t largest_device_block_size;
    uint64_t host_block_size; /* 64 MB suit where memory is plenty */
    uint64_t largest_host_block_size;
    bool has_budget; /* whether the sum of the blocks' sizes has a bound */
    uint64_t budget; /* the bound; it counts where there is one */
} pilhangko_memory_type_settings;

/* As a virtual request. dedicated: the piece shall have a block of its own. */
typedef struct pilhangko_memory_request {
    uint64_t size;
    uint64_t alignment;
    pilhangko_kind kind;
    bool dedicated;
} pilhangko_memory_request;

/* A piece: the slot of its block, its number there (never 0), where it begins in the block, its size, and the driver's handle of the block.
 * A piece that was freed is refused (PILHANGKO_NOT_LIVE) until a piece comes that is the same in all five. */
typedef struct pilhangko_memory_piece {
    size_t slot;
    uint64_t number;
    uint64_t offset;
    uint64_t size;
    uint64_t block;
} pilhangko_memory_piece;

/* What a request results in. Where needs_block, ask the driver for block_size bytes, and then call install or abandon; dedicated says that
 * the block will be the piece's own, and piece is all zeros. Else the piece is allocated, and block_size is 0. */
typedef struct pilhangko_memory_prepared {
    bool needs_block;
    bool dedicated;
    uint64_t block_size;
    pilhangko_memory_piece piece;
} pilhangko_memory_prepared;

/* A block by the driver's handle of it, or none (then block is 0). */
typedef struct pilhangko_memory_block {
    bool exists;
    uint64_t block;
} pilhangko_memory_block;

typedef struct pilhangko_memory_statistics {
    uint64_t capacity;    /* the sum of the blocks' sizes */
    size_t slots;         /* slots, the empty ones included */
    size_t shared_blocks; /* blocks that several pieces may share */
    bool has_budget;
    uint64_t budget;   /* 0 where there is none */
    bool awaits_block; /* whether a block is awaited */
} pilhangko_memory_statistics;

/* The size of the block in a slot, and what is counted of it; or that there is none. */
typedef struct pilhangko_memory_block_statistics {
    bool exists; /* else all is 0 */
    bool shared; /* whether pieces share it; else it is one piece's own */
    uint64_t size;
    size_t pieces;
    uint64_t piece_bytes;
    size_t gaps;
    uint64_t longest_gap;
} pilhangko_memory_block_statistics;

/* ---- Allocators: all memory types of a Vulkan device. It chooses the memory type, and asks its caller for memory. ---- */

typedef struct pilhangko_allocator {
    void *opaque; /* the library's own */
} pilhangko_allocator;

/* A memory type and a heap of the device, laid out as VkMemoryType and VkMemoryHeap are. */
typedef struct pilhangko_device_memory_type {
    uint32_t flags; /* VkMemoryPropertyFlags */
    uint32_t heap;  /* the index of its heap */
} pilhangko_device_memory_type;
typedef struct pilhangko_device_heap {
    uint64_t size;
    uint32_t flags; /* VkMemoryHeapFlags */
} pilhangko_device_heap;

/* Sizes of blocks are as with a memory type. */
typedef struct pilhangko_allocator_settings {
    uint64_t page_size;         /* a power of two: bufferImageGranularity */
    uint64_t device_block_size; /* 256 MB suit where memory is plenty */
    uint64_t largest_device_block_size;
    uint64_t host_block_size; /* 64 MB suit where memory is plenty */
    uint64_t largest_host_block_size;
} pilhangko_allocator_settings;

/* Who reads and writes a piece. */
typedef PILHANGKO_ENUM(pilhangko_location) {
    /* Anyone: the first memory type that the request allows serves. */
    PILHANGKO_LOCATION_UNKNOWN = 1,
    /* The GPU: device-local memory. */
    PILHANGKO_LOCATION_GPU_ONLY = 2,
    /* The host writes and the GPU reads it: uploads. They have a second attempt where the memory that suits best is refused. */
    PILHANGKO_LOCATION_CPU_TO_GPU = 3,
    /* The GPU writes and the host reads it: readback. */
    PILHANGKO_LOCATION_GPU_TO_CPU = 4
} pilhangko_location;

/* What memory is made for. */
typedef PILHANGKO_ENUM(pilhangko_scheme) {
    /* Whatever the allocator puts there. */
    PILHANGKO_SCHEME_MANAGED = 1,
    /* One buffer alone (VkMemoryDedicatedAllocateInfo). */
    PILHANGKO_SCHEME_BUFFER = 2,
    /* One image alone. */
    PILHANGKO_SCHEME_IMAGE = 3
} pilhangko_scheme;

typedef struct pilhangko_allocator_request {
    uint64_t size;             /* not 0 */
    uint64_t alignment;        /* a power of two */
    uint32_t memory_type_bits; /* bit i says that memory type i serves */
    pilhangko_kind kind;
    pilhangko_location location;
    pilhangko_scheme scheme;
    uint64_t resource; /* the VkBuffer or VkImage that it is for alone; it counts where it is for one */
} pilhangko_allocator_request;

/* Which memory a request takes, by flags of memory types (VkMemoryPropertyFlags) in place of its location. Memory types that have all required
 * ones serve, and the cheapest is tried first: the one with the least preferred flags missing and avoided ones there, of equal ones the first. */
typedef struct pilhangko_preference {
    uint32_t required;
    uint32_t preferred;
    uint32_t avoided;
    bool never_allocate; /* whether only blocks that are there are looked at, and no new one is asked for */
} pilhangko_preference;

/* A piece: its memory type, the address at which its block is mapped, as granted was told it, and where it lies; piece.block is the driver's
 * memory. Where the address isn't 0, the piece's own bytes begin at address + piece.offset. */
typedef struct pilhangko_allocator_piece {
    size_t memory_type;
    uint64_t address;
    pilhangko_memory_piece piece;
} pilhangko_allocator_piece;

/* What the driver is to be asked for: memory of this size and type, for the resource alone that the request names, if it names one. */
typedef struct pilhangko_allocator_question {
    uint64_t size;
    size_t memory_type;
    bool dedicated; /* whether it is one piece's own, and not shared */
    bool mapped;    /* whether it is to be mapped, whole */
} pilhangko_allocator_question;

/* What a request leads to. */
typedef PILHANGKO_ENUM(pilhangko_progress_kind) {
    /* A piece is allocated. */
    PILHANGKO_PROGRESS_PIECE = 1,
    /* Ask the driver, and then call granted, refused or mapping_refused. */
    PILHANGKO_PROGRESS_QUESTION = 2,
    /* The request is refused, and over: status says why. Only refused and mapping_refused report it. */
    PILHANGKO_PROGRESS_REFUSED = 3
} pilhangko_progress_kind;

/* kind says which member counts; the others are all zeros. */
typedef struct pilhangko_allocator_progress {
    pilhangko_progress_kind kind;
    pilhangko_status status; /* why the request is refused, else PILHANGKO_OK */
    pilhangko_allocator_piece piece;
    pilhangko_allocator_question question;
} pilhangko_allocator_progress;

/* Memory that goes back to the driver, unmapped first where it is mapped; or none (then all is 0). */
typedef struct pilhangko_allocator_memory {
    bool exists;
    bool mapped;
    uint64_t memory;
    uint64_t address; /* at which it is mapped, as granted was told it */
} pilhangko_allocator_memory;

/* A live block, or none (then all is 0). */
typedef struct pilhangko_allocator_live_block {
    bool exists;
    bool mapped;
    bool shared; /* whether pieces share it; else it is one piece's own */
    uint64_t memory;
    uint64_t address; /* at which it is mapped, as granted was told it */
    uint64_t size;
} pilhangko_allocator_live_block;

/* What is counted of a memory type, and of all its blocks together. */
typedef struct pilhangko_type_statistics {
    uint64_t capacity;    /* the sum of the blocks' sizes */
    size_t slots;         /* slots, the empty ones included */
    size_t shared_blocks; /* blocks that several pieces may share */
    bool has_budget;
    uint64_t budget; /* 0 where there is none */
    size_t pieces;
    uint64_t piece_bytes; /* with the padding before them */
    size_t gaps;
    uint64_t longest_gap;
} pilhangko_type_statistics;

/* A bound in bytes, or none (then bytes is 0). */
typedef struct pilhangko_budget {
    bool exists;
    uint64_t bytes;
} pilhangko_budget;

/* ---- Heaps: all memory types of a DirectX 12 device. It chooses the memory type, and asks for heaps and committed resources. ---- */

typedef struct pilhangko_heaps {
    void *opaque; /* the library's own */
} pilhangko_heaps;

/* Sizes of blocks are as with a memory type. */
typedef struct pilhangko_heaps_settings {
    uint32_t heap_tier;         /* the device's D3D12_RESOURCE_HEAP_TIER: 1, or 2 and each later one */
    uint64_t device_block_size; /* 256 MB suit where memory is plenty */
    uint64_t largest_device_block_size;
    uint64_t host_block_size; /* 64 MB suit where memory is plenty */
    uint64_t largest_host_block_size;
} pilhangko_heaps_settings;

/* Of which category a resource is. At resource heap tier 1 a heap holds one category alone; at later tiers it doesn't matter. */
typedef PILHANGKO_ENUM(pilhangko_category) {
    PILHANGKO_CATEGORY_BUFFER = 1,
    /* A texture that may be a render target or a depth stencil. */
    PILHANGKO_CATEGORY_RTV_DSV_TEXTURE = 2,
    /* Any other texture. */
    PILHANGKO_CATEGORY_OTHER_TEXTURE = 3
} pilhangko_category;

typedef struct pilhangko_heaps_request {
    uint64_t size;      /* not 0: what GetResourceAllocationInfo tells */
    uint64_t alignment; /* a power of two: it too */
    pilhangko_location location;
    pilhangko_category category;
} pilhangko_heaps_request;

/* A piece: its memory type, and where it lies; piece.block is the driver's heap. Place a resource there, at piece.offset. */
typedef struct pilhangko_heaps_piece {
    size_t memory_type;
    pilhangko_memory_piece piece;
} pilhangko_heaps_piece;

/* What the driver is to be asked for: a heap, by the numbers of D3D12_HEAP_DESC. Both node masks are 0. */
typedef struct pilhangko_heaps_question {
    size_t memory_type;
    uint64_t size;
    uint64_t alignment;         /* 4 MB */
    uint32_t heap_type;         /* D3D12_HEAP_TYPE: DEFAULT or CUSTOM */
    uint32_t cpu_page_property; /* D3D12_CPU_PAGE_PROPERTY */
    uint32_t memory_pool;       /* D3D12_MEMORY_POOL */
    uint32_t flags;             /* D3D12_HEAP_FLAGS: 0, or at tier 1 which category alone it may hold */
    bool dedicated;             /* whether it is one piece's own, and not shared */
} pilhangko_heaps_question;

/* kind says which member counts; the others are all zeros. Only refused reports PILHANGKO_PROGRESS_REFUSED. */
typedef struct pilhangko_heaps_progress {
    pilhangko_progress_kind kind;
    pilhangko_status status; /* why the request is refused, else PILHANGKO_OK */
    pilhangko_heaps_piece piece;
    pilhangko_heaps_question question;
} pilhangko_heaps_progress;

/* A committed resource, as it is recorded: its memory type, the driver's handle of it, and its size as the driver told it. */
typedef struct pilhangko_heaps_committed {
    size_t memory_type;
    uint64_t resource;
    uint64_t size;
} pilhangko_heaps_committed;

/* What is counted of a memory type's committed resources. */
typedef struct pilhangko_heaps_committed_statistics {
    size_t count;
    uint64_t bytes; /* the sum of their sizes */
} pilhangko_heaps_committed_statistics;

/* The newest interface that a device has. */
typedef PILHANGKO_ENUM(pilhangko_device_version) {
    /* ID3D12Device: resources begin in a state. */
    PILHANGKO_DEVICE = 0,
    /* ID3D12Device10: they may begin in a barrier layout. */
    PILHANGKO_DEVICE10 = 10,
    /* ID3D12Device12: and then have castable formats. */
    PILHANGKO_DEVICE12 = 12
} pilhangko_device_version;

/* By which call a resource is made. */
typedef PILHANGKO_ENUM(pilhangko_create_call) {
    /* In a state: CreateCommittedResource, CreatePlacedResource. */
    PILHANGKO_CALL_IN_STATE = 1,
    /* In a layout: CreateCommittedResource3, CreatePlacedResource2, without formats. */
    PILHANGKO_CALL_IN_LAYOUT = 2,
    /* The same with the list of castable formats, be it empty. */
    PILHANGKO_CALL_IN_LAYOUT_WITH_FORMATS = 3
} pilhangko_create_call;

/* ---- Metal heaps: all memory types of a Metal device, numbered 0, 1 and 2 for GPU_ONLY, CPU_TO_GPU and GPU_TO_CPU. It asks for heaps, and
 * says which of them join and leave a residency set. A piece is a pilhangko_heaps_piece: place a resource in its heap, at piece.offset. ---- */

typedef struct pilhangko_metal_heaps {
    void *opaque; /* the library's own */
} pilhangko_metal_heaps;

/* Sizes of blocks are as with a memory type. */
typedef struct pilhangko_metal_heaps_settings {
    bool has_residency_set; /* whether heaps are to be members of an MTLResidencySet */
    uint64_t device_block_size;
    uint64_t largest_device_block_size;
    uint64_t host_block_size;
    uint64_t largest_host_block_size;
} pilhangko_metal_heaps_settings;

typedef struct pilhangko_metal_heaps_request {
    uint64_t size;      /* not 0: what heapBufferSizeAndAlign or its like tells */
    uint64_t alignment; /* a power of two: it too */
    pilhangko_location location;
} pilhangko_metal_heaps_request;

/* What the device is to be asked for: a heap of MTLHeapTypePlacement, by the numbers of MTLHeapDescriptor. */
typedef struct pilhangko_metal_heaps_question {
    size_t memory_type;
    uint64_t size;
    pilhangko_location location;
    uint32_t storage_mode;   /* MTLStorageMode: shared or private */
    uint32_t cpu_cache_mode; /* MTLCPUCacheMode */
    bool dedicated;          /* whether it is one piece's own, and not shared */
} pilhangko_metal_heaps_question;

/* kind says which member counts; the others are all zeros. Only refused reports PILHANGKO_PROGRESS_REFUSED. */
typedef struct pilhangko_metal_heaps_progress {
    pilhangko_progress_kind kind;
    pilhangko_status status; /* why the request is refused, else PILHANGKO_OK */
    pilhangko_heaps_piece piece;
    pilhangko_metal_heaps_question question;
} pilhangko_metal_heaps_progress;

/* A piece of the heap that was asked for. */
typedef struct pilhangko_metal_heaps_grant {
    pilhangko_heaps_piece piece;
    bool joins; /* whether that heap is to join the residency set now */
} pilhangko_metal_heaps_grant;

/* A heap by the caller's handle of it, or none (then the others are 0). */
typedef struct pilhangko_metal_heap {
    bool exists;
    uint64_t heap;
    bool leaves; /* whether it is to leave the residency set before it is released */
} pilhangko_metal_heap;

/* ---- Captures: what an allocator above was asked for, and what its driver refused, as a trace that gpu_trace replays (docs/TRACE.md). ---- */

/* It is kept in host memory: at most 1 MiB, each call's lines all or none. */
typedef struct pilhangko_capture {
    void *opaque; /* the library's own */
} pilhangko_capture;

/* What a driver answered to one question. */
typedef struct pilhangko_capture_answer {
    bool refused;
    int32_t code; /* with which it refused; 0 where it gave null without an error */
} pilhangko_capture_answer;

/* How far a capture goes. */
typedef PILHANGKO_ENUM(pilhangko_capture_end) {
    /* It has each call. */
    PILHANGKO_CAPTURE_WHOLE = 1,
    /* It ends where a trace had no room for the next call; its last line says so. */
    PILHANGKO_CAPTURE_TOO_LONG = 2,
    /* It ends where the host refused memory for the next call; its last line says so. */
    PILHANGKO_CAPTURE_HOST_OUT_OF_MEMORY = 3
} pilhangko_capture_end;

/* ---- Plans: transient resources of a frame that share the memory of one heap. No handle: each call is a function of what it is given. ---- */

/* A resource that passes of a frame use. It is alive from its first pass to its last one, both included; passes are numbered in the order in
 * which they run. */
typedef struct pilhangko_plan_resource {
    uint64_t size;      /* not 0 */
    uint64_t alignment; /* a power of two */
    pilhangko_kind kind;
    uint64_t first_pass;
    uint64_t last_pass; /* not before the first */
} pilhangko_plan_resource;

/* An order in which resources are placed, each at the least offset that is free; of equal ones the one with the least index goes first. */
typedef PILHANGKO_ENUM(pilhangko_plan_order) {
    /* The largest size first. */
    PILHANGKO_PLAN_ORDER_SIZE = 1,
    /* The largest product of size and number of passes first. */
    PILHANGKO_PLAN_ORDER_AREA = 2,
    /* The largest alignment first, of equal ones the largest size. */
    PILHANGKO_PLAN_ORDER_ALIGNMENT = 3,
    /* The largest power of two in the size first, of equal ones the longest life, of equal ones the largest size. */
    PILHANGKO_PLAN_ORDER_MAGNITUDE = 4,
    /* The pass with the most bytes alive first: in each the resources that no pass before it has, the largest first. */
    PILHANGKO_PLAN_ORDER_BREADTH = 5
} pilhangko_plan_order;

/* What a plan says beside the offsets. */
typedef struct pilhangko_heap_plan {
    uint64_t heap_size; /* the byte behind the last resource; 0 without resources */
    uint64_t peak;      /* the most bytes that are alive in one pass: no heap is smaller */
    pilhangko_plan_order order;
} pilhangko_heap_plan;

/* What memory a resource may lie in. */
typedef struct pilhangko_memory_needs {
    uint32_t memory_type_bits; /* bit N is set where memory type N serves */
    bool dedicated;            /* whether nothing else may lie in it */
} pilhangko_memory_needs;

/* Memory to be allocated for a heap. */
typedef struct pilhangko_heap_memory {
    uint64_t size;
    uint64_t alignment;
    pilhangko_kind kind;
} pilhangko_heap_memory;

/* ---- The archive's symbols, for callers in other languages. No pointer may be NULL, also not of a name with length 0. ---- */

PILHANGKO_NODISCARD PILHANGKO_API pilhangko_status PILHANGKO_CALL pilhangko_raw_virtual_block_create(
    pilhangko_virtual_block *block, uint64_t size, uint64_t page_size);
PILHANGKO_NODISCARD PILHANGKO_API pilhangko_status PILHANGKO_CALL pilhangko_raw_virtual_block_allocate(
    pilhangko_virtual_block *block, const pilhangko_virtual_request *request, const char *name, size_t name_length,
    pilhangko_virtual_piece *piece);
PILHANGKO_NODISCARD PILHANGKO_API pilhangko_status PILHANGKO_CALL pilhangko_raw_virtual_block_free(
    pilhangko_virtual_block *block, const pilhangko_virtual_piece *piece);
PILHANGKO_NODISCARD PILHANGKO_API pilhangko_status PILHANGKO_CALL pilhangko_raw_virtual_block_rename(
    pilhangko_virtual_block *block, const pilhangko_virtual_piece *piece, const char *name, size_t name_length);
PILHANGKO_NODISCARD PILHANGKO_API pilhangko_status PILHANGKO_CALL pilhangko_raw_virtual_block_set_word(
    pilhangko_virtual_block *block, const pilhangko_virtual_piece *piece, uint64_t word);
PILHANGKO_NODISCARD PILHANGKO_API pilhangko_status PILHANGKO_CALL pilhangko_raw_virtual_block_clear(pilhangko_virtual_block *block);
PILHANGKO_NODISCARD PILHANGKO_API pilhangko_status PILHANGKO_CALL pilhangko_raw_virtual_block_statistics(
    const pilhangko_virtual_block *block, pilhangko_virtual_statistics *statistics);
PILHANGKO_NODISCARD PILHANGKO_API pilhangko_status PILHANGKO_CALL pilhangko_raw_virtual_block_next_piece(
    const pilhangko_virtual_block *block, uint64_t from, pilhangko_piece_view *piece);
PILHANGKO_NODISCARD PILHANGKO_API pilhangko_status PILHANGKO_CALL pilhangko_raw_virtual_block_pieces(
    const pilhangko_virtual_block *block, uint64_t from, pilhangko_piece_view *pieces, size_t room, size_t *count);
PILHANGKO_NODISCARD PILHANGKO_API pilhangko_status PILHANGKO_CALL pilhangko_raw_virtual_block_piece_name(
    const pilhangko_virtual_block *block, uint64_t from, char *name, size_t name_room, size_t *name_length);
PILHANGKO_NODISCARD PILHANGKO_API pilhangko_status PILHANGKO_CALL pilhangko_raw_virtual_block_piece_names(
    const pilhangko_virtual_block *block, uint64_t from, size_t *lengths, size_t room, char *names, size_t names_room, size_t *count);
PILHANGKO_API pilhangko_status PILHANGKO_CALL pilhangko_raw_virtual_block_destroy(pilhangko_virtual_block *block);

PILHANGKO_NODISCARD PILHANGKO_API pilhangko_status PILHANGKO_CALL pilhangko_raw_ring_create(
    pilhangko_ring *ring, uint64_t size, size_t frames);
PILHANGKO_NODISCARD PILHANGKO_API pilhangko_status PILHANGKO_CALL pilhangko_raw_ring_allocate(
    pilhangko_ring *ring, uint64_t size, uint64_t alignment, uint64_t *offset);
PILHANGKO_NODISCARD PILHANGKO_API pilhangko_status PILHANGKO_CALL pilhangko_raw_ring_end_frame(pilhangko_ring *ring, uint64_t *frame);
PILHANGKO_NODISCARD PILHANGKO_API pilhangko_status PILHANGKO_CALL pilhangko_raw_ring_retire(pilhangko_ring *ring, uint64_t frame);
PILHANGKO_NODISCARD PILHANGKO_API pilhangko_status PILHANGKO_CALL pilhangko_raw_ring_statistics(
    const pilhangko_ring *ring, pilhangko_ring_counts *counts);
PILHANGKO_NODISCARD PILHANGKO_API pilhangko_status PILHANGKO_CALL pilhangko_raw_ring_current_stretch(
    const pilhangko_ring *ring, pilhangko_ring_stretch *stretch);
PILHANGKO_NODISCARD PILHANGKO_API pilhangko_status PILHANGKO_CALL pilhangko_raw_ring_frame_statistics(
    const pilhangko_ring *ring, uint64_t frame, pilhangko_ring_frame_counts *counts);
PILHANGKO_API pilhangko_status PILHANGKO_CALL pilhangko_raw_ring_destroy(pilhangko_ring *ring);

PILHANGKO_NODISCARD PILHANGKO_API pilhangko_status PILHANGKO_CALL pilhangko_raw_memory_type_create(
    pilhangko_memory_type *type, const pilhangko_memory_type_settings *settings);
PILHANGKO_NODISCARD PILHANGKO_API pilhangko_status PILHANGKO_CALL pilhangko_raw_memory_type_prepare(
    pilhangko_memory_type *type, const pilhangko_memory_request *request, const char *name, size_t name_length,
    pilhangko_memory_prepared *prepared);
PILHANGKO_NODISCARD PILHANGKO_API pilhangko_status PILHANGKO_CALL pilhangko_raw_memory_type_install(
    pilhangko_memory_type *type, uint64_t block, pilhangko_memory_piece *piece);
PILHANGKO_NODISCARD PILHANGKO_API pilhangko_status PILHANGKO_CALL pilhangko_raw_memory_type_abandon(pilhangko_memory_type *type);
PILHANGKO_NODISCARD PILHANGKO_API pilhangko_status PILHANGKO_CALL pilhangko_raw_memory_type_free(
    pilhangko_memory_type *type, const pilhangko_memory_piece *piece, pilhangko_memory_block *gone);
PILHANGKO_NODISCARD PILHANGKO_API pilhangko_status PILHANGKO_CALL pilhangko_raw_memory_type_rename(
    pilhangko_memory_type *type, const pilhangko_memory_piece *piece, const char *name, size_t name_length);
PILHANGKO_NODISCARD PILHANGKO_API pilhangko_status PILHANGKO_CALL pilhangko_raw_memory_type_set_word(
    pilhangko_memory_type *type, const pilhangko_memory_piece *piece, uint64_t word);
PILHANGKO_NODISCARD PILHANGKO_API pilhangko_status PILHANGKO_CALL pilhangko_raw_memory_type_is_live(
    const pilhangko_memory_type *type, const pilhangko_memory_piece *piece, bool *is_live);
PILHANGKO_NODISCARD PILHANGKO_API pilhangko_status PILHANGKO_CALL pilhangko_raw_memory_type_set_budget(
    pilhangko_memory_type *type, bool has_budget, uint64_t bytes);
PILHANGKO_NODISCARD PILHANGKO_API pilhangko_status PILHANGKO_CALL pilhangko_raw_memory_type_block(
    const pilhangko_memory_type *type, size_t slot, pilhangko_memory_block *block);
PILHANGKO_NODISCARD PILHANGKO_API pilhangko_status PILHANGKO_CALL pilhangko_raw_memory_type_block_statistics(
    const pilhangko_memory_type *type, size_t slot, pilhangko_memory_block_statistics *statistics);
PILHANGKO_NODISCARD PILHANGKO_API pilhangko_status PILHANGKO_CALL pilhangko_raw_memory_type_next_piece(
    const pilhangko_memory_type *type, size_t slot, uint64_t from, pilhangko_piece_view *piece);
PILHANGKO_NODISCARD PILHANGKO_API pilhangko_status PILHANGKO_CALL pilhangko_raw_memory_type_pieces(
    const pilhangko_memory_type *type, size_t slot, uint64_t from, pilhangko_piece_view *pieces, size_t room, size_t *count);
PILHANGKO_NODISCARD PILHANGKO_API pilhangko_status PILHANGKO_CALL pilhangko_raw_memory_type_piece_name(
    const pilhangko_memory_type *type, size_t slot, uint64_t from, char *name, size_t name_room, size_t *name_length);
PILHANGKO_NODISCARD PILHANGKO_API pilhangko_status PILHANGKO_CALL pilhangko_raw_memory_type_piece_names(const pilhangko_memory_type *type,
    size_t slot, uint64_t from, size_t *lengths, size_t room, char *names, size_t names_room, size_t *count);
PILHANGKO_NODISCARD PILHANGKO_API pilhangko_status PILHANGKO_CALL pilhangko_raw_memory_type_statistics(
    const pilhangko_memory_type *type, pilhangko_memory_statistics *statistics);
PILHANGKO_API pilhangko_status PILHANGKO_CALL pilhangko_raw_memory_type_destroy(pilhangko_memory_type *type);

PILHANGKO_NODISCARD PILHANGKO_API pilhangko_status PILHANGKO_CALL pilhangko_raw_allocator_create(pilhangko_allocator *allocator,
    const pilhangko_device_memory_type *types, size_t type_count, const pilhangko_device_heap *heaps, size_t heap_count,
    const pilhangko_allocator_settings *settings);
PILHANGKO_NODISCARD PILHANGKO_API pilhangko_status PILHANGKO_CALL pilhangko_raw_allocator_begin(
    pilhangko_allocator *allocator, const pilhangko_allocator_request *request, const char *name, size_t name_length,
    pilhangko_allocator_progress *progress);
PILHANGKO_NODISCARD PILHANGKO_API pilhangko_status PILHANGKO_CALL pilhangko_raw_allocator_begin_by_flags(
    pilhangko_allocator *allocator, const pilhangko_allocator_request *request, const char *name, size_t name_length,
    const pilhangko_preference *preference, pilhangko_allocator_progress *progress);
PILHANGKO_NODISCARD PILHANGKO_API pilhangko_status PILHANGKO_CALL pilhangko_raw_allocator_granted(
    pilhangko_allocator *allocator, uint64_t memory, uint64_t address, pilhangko_allocator_piece *piece);
PILHANGKO_NODISCARD PILHANGKO_API pilhangko_status PILHANGKO_CALL pilhangko_raw_allocator_refused(
    pilhangko_allocator *allocator, int32_t code, pilhangko_allocator_progress *progress);
PILHANGKO_NODISCARD PILHANGKO_API pilhangko_status PILHANGKO_CALL pilhangko_raw_allocator_mapping_refused(
    pilhangko_allocator *allocator, bool has_code, int32_t code, pilhangko_allocator_progress *progress);
PILHANGKO_NODISCARD PILHANGKO_API pilhangko_status PILHANGKO_CALL pilhangko_raw_allocator_free(
    pilhangko_allocator *allocator, const pilhangko_allocator_piece *piece, pilhangko_allocator_memory *back);
PILHANGKO_NODISCARD PILHANGKO_API pilhangko_status PILHANGKO_CALL pilhangko_raw_allocator_propose_move(pilhangko_allocator *allocator,
    const pilhangko_allocator_piece *piece, const pilhangko_allocator_request *request, const char *name, size_t name_length, bool *moves,
    pilhangko_allocator_piece *to);
PILHANGKO_NODISCARD PILHANGKO_API pilhangko_status PILHANGKO_CALL pilhangko_raw_allocator_rename(
    pilhangko_allocator *allocator, const pilhangko_allocator_piece *piece, const char *name, size_t name_length);
PILHANGKO_NODISCARD PILHANGKO_API pilhangko_status PILHANGKO_CALL pilhangko_raw_allocator_set_word(
    pilhangko_allocator *allocator, const pilhangko_allocator_piece *piece, uint64_t word);
PILHANGKO_NODISCARD PILHANGKO_API pilhangko_status PILHANGKO_CALL pilhangko_raw_allocator_is_live(
    const pilhangko_allocator *allocator, const pilhangko_allocator_piece *piece, bool *is_live);
PILHANGKO_NODISCARD PILHANGKO_API pilhangko_status PILHANGKO_CALL pilhangko_raw_allocator_set_budget(
    pilhangko_allocator *allocator, size_t memory_type, bool has_budget, uint64_t bytes);
PILHANGKO_NODISCARD PILHANGKO_API pilhangko_status PILHANGKO_CALL pilhangko_raw_allocator_budget(
    const pilhangko_allocator *allocator, size_t memory_type, pilhangko_budget *budget);
PILHANGKO_NODISCARD PILHANGKO_API pilhangko_status PILHANGKO_CALL pilhangko_raw_allocator_set_heap_limit(
    pilhangko_allocator *allocator, size_t heap, bool has_limit, uint64_t bytes);
PILHANGKO_NODISCARD PILHANGKO_API pilhangko_status PILHANGKO_CALL pilhangko_raw_allocator_heap_limit(
    const pilhangko_allocator *allocator, size_t heap, pilhangko_budget *limit);
PILHANGKO_NODISCARD PILHANGKO_API pilhangko_status PILHANGKO_CALL pilhangko_raw_allocator_bound(
    const pilhangko_allocator *allocator, size_t memory_type, pilhangko_budget *bound);
PILHANGKO_NODISCARD PILHANGKO_API pilhangko_status PILHANGKO_CALL pilhangko_raw_allocator_set_most_blocks(
    pilhangko_allocator *allocator, bool has_most, size_t count);
PILHANGKO_NODISCARD PILHANGKO_API pilhangko_status PILHANGKO_CALL pilhangko_raw_allocator_most_blocks(
    const pilhangko_allocator *allocator, bool *has_most, size_t *count);
PILHANGKO_NODISCARD PILHANGKO_API pilhangko_status PILHANGKO_CALL pilhangko_raw_allocator_set_smaller_blocks(
    pilhangko_allocator *allocator, bool smaller_blocks);
PILHANGKO_NODISCARD PILHANGKO_API pilhangko_status PILHANGKO_CALL pilhangko_raw_allocator_smaller_blocks(
    const pilhangko_allocator *allocator, bool *smaller_blocks);
PILHANGKO_NODISCARD PILHANGKO_API pilhangko_status PILHANGKO_CALL pilhangko_raw_allocator_capacity(
    const pilhangko_allocator *allocator, uint64_t *bytes);
PILHANGKO_NODISCARD PILHANGKO_API pilhangko_status PILHANGKO_CALL pilhangko_raw_allocator_best_type(
    const pilhangko_allocator *allocator, uint32_t memory_type_bits, pilhangko_location location, size_t *memory_type);
PILHANGKO_NODISCARD PILHANGKO_API pilhangko_status PILHANGKO_CALL pilhangko_raw_allocator_type_capacity(
    const pilhangko_allocator *allocator, size_t memory_type, uint64_t *bytes);
PILHANGKO_NODISCARD PILHANGKO_API pilhangko_status PILHANGKO_CALL pilhangko_raw_allocator_type_statistics(
    const pilhangko_allocator *allocator, size_t memory_type, pilhangko_type_statistics *statistics);
PILHANGKO_NODISCARD PILHANGKO_API pilhangko_status PILHANGKO_CALL pilhangko_raw_allocator_block(
    const pilhangko_allocator *allocator, size_t memory_type, size_t slot, pilhangko_allocator_live_block *block);
PILHANGKO_NODISCARD PILHANGKO_API pilhangko_status PILHANGKO_CALL pilhangko_raw_allocator_block_statistics(
    const pilhangko_allocator *allocator, size_t memory_type, size_t slot, pilhangko_memory_block_statistics *statistics);
PILHANGKO_NODISCARD PILHANGKO_API pilhangko_status PILHANGKO_CALL pilhangko_raw_allocator_pieces(const pilhangko_allocator *allocator,
    size_t memory_type, size_t slot, uint64_t from, pilhangko_piece_view *pieces, size_t room, size_t *count);
PILHANGKO_NODISCARD PILHANGKO_API pilhangko_status PILHANGKO_CALL pilhangko_raw_allocator_piece_names(const pilhangko_allocator *allocator,
    size_t memory_type, size_t slot, uint64_t from, size_t *lengths, size_t room, char *names, size_t names_room, size_t *count);
PILHANGKO_NODISCARD PILHANGKO_API pilhangko_status PILHANGKO_CALL pilhangko_raw_allocator_report(
    const pilhangko_allocator *allocator, char *text, size_t room, size_t *length);
PILHANGKO_NODISCARD PILHANGKO_API pilhangko_status PILHANGKO_CALL pilhangko_raw_allocator_leak(
    const pilhangko_allocator *allocator, size_t index, char *text, size_t room, size_t *length);
PILHANGKO_API pilhangko_status PILHANGKO_CALL pilhangko_raw_allocator_destroy(pilhangko_allocator *allocator);

PILHANGKO_NODISCARD PILHANGKO_API pilhangko_status PILHANGKO_CALL pilhangko_raw_heaps_create(
    pilhangko_heaps *heaps, const pilhangko_heaps_settings *settings);
PILHANGKO_NODISCARD PILHANGKO_API pilhangko_status PILHANGKO_CALL pilhangko_raw_heaps_begin(pilhangko_heaps *heaps,
    const pilhangko_heaps_request *request, const char *name, size_t name_length, pilhangko_heaps_progress *progress);
PILHANGKO_NODISCARD PILHANGKO_API pilhangko_status PILHANGKO_CALL pilhangko_raw_heaps_granted(
    pilhangko_heaps *heaps, uint64_t heap, pilhangko_heaps_piece *piece);
PILHANGKO_NODISCARD PILHANGKO_API pilhangko_status PILHANGKO_CALL pilhangko_raw_heaps_refused(
    pilhangko_heaps *heaps, int32_t code, pilhangko_heaps_progress *progress);
PILHANGKO_NODISCARD PILHANGKO_API pilhangko_status PILHANGKO_CALL pilhangko_raw_heaps_free(
    pilhangko_heaps *heaps, const pilhangko_heaps_piece *piece, pilhangko_memory_block *back);
PILHANGKO_NODISCARD PILHANGKO_API pilhangko_status PILHANGKO_CALL pilhangko_raw_heaps_propose_move(pilhangko_heaps *heaps,
    const pilhangko_heaps_piece *piece, const pilhangko_heaps_request *request, const char *name, size_t name_length, bool *moves,
    pilhangko_heaps_piece *to);
PILHANGKO_NODISCARD PILHANGKO_API pilhangko_status PILHANGKO_CALL pilhangko_raw_heaps_rename(
    pilhangko_heaps *heaps, const pilhangko_heaps_piece *piece, const char *name, size_t name_length);
PILHANGKO_NODISCARD PILHANGKO_API pilhangko_status PILHANGKO_CALL pilhangko_raw_heaps_set_word(
    pilhangko_heaps *heaps, const pilhangko_heaps_piece *piece, uint64_t word);
PILHANGKO_NODISCARD PILHANGKO_API pilhangko_status PILHANGKO_CALL pilhangko_raw_heaps_is_live(
    const pilhangko_heaps *heaps, const pilhangko_heaps_piece *piece, bool *is_live);
PILHANGKO_NODISCARD PILHANGKO_API pilhangko_status PILHANGKO_CALL pilhangko_raw_heaps_begin_committed(
    pilhangko_heaps *heaps, uint64_t size, pilhangko_location location, pilhangko_category category);
PILHANGKO_NODISCARD PILHANGKO_API pilhangko_status PILHANGKO_CALL pilhangko_raw_heaps_made(
    pilhangko_heaps *heaps, uint64_t resource, pilhangko_heaps_committed *committed);
PILHANGKO_NODISCARD PILHANGKO_API pilhangko_status PILHANGKO_CALL pilhangko_raw_heaps_not_made(pilhangko_heaps *heaps);
PILHANGKO_NODISCARD PILHANGKO_API pilhangko_status PILHANGKO_CALL pilhangko_raw_heaps_forget_committed(
    pilhangko_heaps *heaps, const pilhangko_heaps_committed *committed);
PILHANGKO_NODISCARD PILHANGKO_API pilhangko_status PILHANGKO_CALL pilhangko_raw_heaps_committed_of(
    const pilhangko_heaps *heaps, size_t memory_type, pilhangko_heaps_committed_statistics *statistics);
PILHANGKO_NODISCARD PILHANGKO_API pilhangko_status PILHANGKO_CALL pilhangko_raw_heaps_choose_call(
    pilhangko_device_version version, bool in_layout, bool has_formats, pilhangko_create_call *call);
PILHANGKO_NODISCARD PILHANGKO_API pilhangko_status PILHANGKO_CALL pilhangko_raw_heaps_type_count(
    const pilhangko_heaps *heaps, size_t *count);
PILHANGKO_NODISCARD PILHANGKO_API pilhangko_status PILHANGKO_CALL pilhangko_raw_heaps_set_budget(
    pilhangko_heaps *heaps, size_t memory_type, bool has_budget, uint64_t bytes);
PILHANGKO_NODISCARD PILHANGKO_API pilhangko_status PILHANGKO_CALL pilhangko_raw_heaps_budget(
    const pilhangko_heaps *heaps, size_t memory_type, pilhangko_budget *budget);
PILHANGKO_NODISCARD PILHANGKO_API pilhangko_status PILHANGKO_CALL pilhangko_raw_heaps_capacity(
    const pilhangko_heaps *heaps, uint64_t *bytes);
PILHANGKO_NODISCARD PILHANGKO_API pilhangko_status PILHANGKO_CALL pilhangko_raw_heaps_type_capacity(
    const pilhangko_heaps *heaps, size_t memory_type, uint64_t *bytes);
PILHANGKO_NODISCARD PILHANGKO_API pilhangko_status PILHANGKO_CALL pilhangko_raw_heaps_type_statistics(
    const pilhangko_heaps *heaps, size_t memory_type, pilhangko_type_statistics *statistics);
PILHANGKO_NODISCARD PILHANGKO_API pilhangko_status PILHANGKO_CALL pilhangko_raw_heaps_block(
    const pilhangko_heaps *heaps, size_t memory_type, size_t slot, pilhangko_memory_block *block);
PILHANGKO_NODISCARD PILHANGKO_API pilhangko_status PILHANGKO_CALL pilhangko_raw_heaps_block_statistics(
    const pilhangko_heaps *heaps, size_t memory_type, size_t slot, pilhangko_memory_block_statistics *statistics);
PILHANGKO_NODISCARD PILHANGKO_API pilhangko_status PILHANGKO_CALL pilhangko_raw_heaps_pieces(const pilhangko_heaps *heaps,
    size_t memory_type, size_t slot, uint64_t from, pilhangko_piece_view *pieces, size_t room, size_t *count);
PILHANGKO_NODISCARD PILHANGKO_API pilhangko_status PILHANGKO_CALL pilhangko_raw_heaps_piece_names(const pilhangko_heaps *heaps,
    size_t memory_type, size_t slot, uint64_t from, size_t *lengths, size_t room, char *names, size_t names_room, size_t *count);
PILHANGKO_NODISCARD PILHANGKO_API pilhangko_status PILHANGKO_CALL pilhangko_raw_heaps_report(
    const pilhangko_heaps *heaps, char *text, size_t room, size_t *length);
PILHANGKO_NODISCARD PILHANGKO_API pilhangko_status PILHANGKO_CALL pilhangko_raw_heaps_leak(
    const pilhangko_heaps *heaps, size_t index, char *text, size_t room, size_t *length);
PILHANGKO_API pilhangko_status PILHANGKO_CALL pilhangko_raw_heaps_destroy(pilhangko_heaps *heaps);

PILHANGKO_NODISCARD PILHANGKO_API pilhangko_status PILHANGKO_CALL pilhangko_raw_metal_heaps_create(
    pilhangko_metal_heaps *heaps, const pilhangko_metal_heaps_settings *settings);
PILHANGKO_NODISCARD PILHANGKO_API pilhangko_status PILHANGKO_CALL pilhangko_raw_metal_heaps_begin(pilhangko_metal_heaps *heaps,
    const pilhangko_metal_heaps_request *request, const char *name, size_t name_length, pilhangko_metal_heaps_progress *progress);
PILHANGKO_NODISCARD PILHANGKO_API pilhangko_status PILHANGKO_CALL pilhangko_raw_metal_heaps_granted(
    pilhangko_metal_heaps *heaps, uint64_t heap, pilhangko_metal_heaps_grant *grant);
PILHANGKO_NODISCARD PILHANGKO_API pilhangko_status PILHANGKO_CALL pilhangko_raw_metal_heaps_refused(
    pilhangko_metal_heaps *heaps, pilhangko_metal_heaps_progress *progress);
PILHANGKO_NODISCARD PILHANGKO_API pilhangko_status PILHANGKO_CALL pilhangko_raw_metal_heaps_free(
    pilhangko_metal_heaps *heaps, const pilhangko_heaps_piece *piece, pilhangko_metal_heap *back);
PILHANGKO_NODISCARD PILHANGKO_API pilhangko_status PILHANGKO_CALL pilhangko_raw_metal_heaps_propose_move(pilhangko_metal_heaps *heaps,
    const pilhangko_heaps_piece *piece, const pilhangko_metal_heaps_request *request, const char *name, size_t name_length, bool *moves,
    pilhangko_heaps_piece *to);
PILHANGKO_NODISCARD PILHANGKO_API pilhangko_status PILHANGKO_CALL pilhangko_raw_metal_heaps_rename(
    pilhangko_metal_heaps *heaps, const pilhangko_heaps_piece *piece, const char *name, size_t name_length);
PILHANGKO_NODISCARD PILHANGKO_API pilhangko_status PILHANGKO_CALL pilhangko_raw_metal_heaps_set_word(
    pilhangko_metal_heaps *heaps, const pilhangko_heaps_piece *piece, uint64_t word);
PILHANGKO_NODISCARD PILHANGKO_API pilhangko_status PILHANGKO_CALL pilhangko_raw_metal_heaps_is_live(
    const pilhangko_metal_heaps *heaps, const pilhangko_heaps_piece *piece, bool *is_live);
PILHANGKO_NODISCARD PILHANGKO_API pilhangko_status PILHANGKO_CALL pilhangko_raw_metal_heaps_set_budget(
    pilhangko_metal_heaps *heaps, size_t memory_type, bool has_budget, uint64_t bytes);
PILHANGKO_NODISCARD PILHANGKO_API pilhangko_status PILHANGKO_CALL pilhangko_raw_metal_heaps_budget(
    const pilhangko_metal_heaps *heaps, size_t memory_type, pilhangko_budget *budget);
PILHANGKO_NODISCARD PILHANGKO_API pilhangko_status PILHANGKO_CALL pilhangko_raw_metal_heaps_capacity(
    const pilhangko_metal_heaps *heaps, uint64_t *bytes);
PILHANGKO_NODISCARD PILHANGKO_API pilhangko_status PILHANGKO_CALL pilhangko_raw_metal_heaps_type_capacity(
    const pilhangko_metal_heaps *heaps, size_t memory_type, uint64_t *bytes);
PILHANGKO_NODISCARD PILHANGKO_API pilhangko_status PILHANGKO_CALL pilhangko_raw_metal_heaps_type_statistics(
    const pilhangko_metal_heaps *heaps, size_t memory_type, pilhangko_type_statistics *statistics);
PILHANGKO_NODISCARD PILHANGKO_API pilhangko_status PILHANGKO_CALL pilhangko_raw_metal_heaps_block(
    const pilhangko_metal_heaps *heaps, size_t memory_type, size_t slot, pilhangko_metal_heap *block);
PILHANGKO_NODISCARD PILHANGKO_API pilhangko_status PILHANGKO_CALL pilhangko_raw_metal_heaps_block_statistics(
    const pilhangko_metal_heaps *heaps, size_t memory_type, size_t slot, pilhangko_memory_block_statistics *statistics);
PILHANGKO_NODISCARD PILHANGKO_API pilhangko_status PILHANGKO_CALL pilhangko_raw_metal_heaps_pieces(
    const pilhangko_metal_heaps *heaps, size_t memory_type, size_t slot, uint64_t from, pilhangko_piece_view *pieces, size_t room, size_t *count);
PILHANGKO_NODISCARD PILHANGKO_API pilhangko_status PILHANGKO_CALL pilhangko_raw_metal_heaps_piece_names(const pilhangko_metal_heaps *heaps,
    size_t memory_type, size_t slot, uint64_t from, size_t *lengths, size_t room, char *names, size_t names_room, size_t *count);
PILHANGKO_NODISCARD PILHANGKO_API pilhangko_status PILHANGKO_CALL pilhangko_raw_metal_heaps_report(
    const pilhangko_metal_heaps *heaps, char *text, size_t room, size_t *length);
PILHANGKO_NODISCARD PILHANGKO_API pilhangko_status PILHANGKO_CALL pilhangko_raw_metal_heaps_leak(
    const pilhangko_metal_heaps *heaps, size_t index, char *text, size_t room, size_t *length);
PILHANGKO_API pilhangko_status PILHANGKO_CALL pilhangko_raw_metal_heaps_destroy(pilhangko_metal_heaps *heaps);

PILHANGKO_NODISCARD PILHANGKO_API pilhangko_status PILHANGKO_CALL pilhangko_raw_capture_of_allocator(pilhangko_capture *capture,
    const pilhangko_device_memory_type *types, size_t type_count, const pilhangko_device_heap *heaps, size_t heap_count,
    const pilhangko_allocator_settings *settings);
PILHANGKO_NODISCARD PILHANGKO_API pilhangko_status PILHANGKO_CALL pilhangko_raw_capture_of_heaps(
    pilhangko_capture *capture, const pilhangko_heaps_settings *settings);
PILHANGKO_NODISCARD PILHANGKO_API pilhangko_status PILHANGKO_CALL pilhangko_raw_capture_of_metal_heaps(
    pilhangko_capture *capture, const pilhangko_metal_heaps_settings *settings);
PILHANGKO_NODISCARD PILHANGKO_API pilhangko_status PILHANGKO_CALL pilhangko_raw_capture_allocator_allocated(pilhangko_capture *capture,
    uint64_t number, const pilhangko_allocator_request *request, const char *name, size_t name_length,
    const pilhangko_capture_answer *answers, size_t answer_count);
PILHANGKO_NODISCARD PILHANGKO_API pilhangko_status PILHANGKO_CALL pilhangko_raw_capture_heaps_allocated(pilhangko_capture *capture,
    uint64_t number, const pilhangko_heaps_request *request, const char *name, size_t name_length, const pilhangko_capture_answer *answers,
    size_t answer_count);
PILHANGKO_NODISCARD PILHANGKO_API pilhangko_status PILHANGKO_CALL pilhangko_raw_capture_metal_heaps_allocated(pilhangko_capture *capture,
    uint64_t number, const pilhangko_metal_heaps_request *request, const char *name, size_t name_length,
    const pilhangko_capture_answer *answers, size_t answer_count);
PILHANGKO_NODISCARD PILHANGKO_API pilhangko_status PILHANGKO_CALL pilhangko_raw_capture_heaps_committed(pilhangko_capture *capture,
    uint64_t number, const pilhangko_heaps_request *request, const char *name, size_t name_length, const pilhangko_capture_answer *answers,
    size_t answer_count);
PILHANGKO_NODISCARD PILHANGKO_API pilhangko_status PILHANGKO_CALL pilhangko_raw_capture_allocator_moved(
    pilhangko_capture *capture, uint64_t from, uint64_t to, const pilhangko_allocator_request *request, const char *name, size_t name_length);
PILHANGKO_NODISCARD PILHANGKO_API pilhangko_status PILHANGKO_CALL pilhangko_raw_capture_heaps_moved(
    pilhangko_capture *capture, uint64_t from, uint64_t to, const pilhangko_heaps_request *request, const char *name, size_t name_length);
PILHANGKO_NODISCARD PILHANGKO_API pilhangko_status PILHANGKO_CALL pilhangko_raw_capture_metal_heaps_moved(
    pilhangko_capture *capture, uint64_t from, uint64_t to, const pilhangko_metal_heaps_request *request, const char *name, size_t name_length);
PILHANGKO_NODISCARD PILHANGKO_API pilhangko_status PILHANGKO_CALL pilhangko_raw_capture_freed(pilhangko_capture *capture, uint64_t number);
PILHANGKO_NODISCARD PILHANGKO_API pilhangko_status PILHANGKO_CALL pilhangko_raw_capture_released(pilhangko_capture *capture, uint64_t number);
PILHANGKO_NODISCARD PILHANGKO_API pilhangko_status PILHANGKO_CALL pilhangko_raw_capture_renamed(
    pilhangko_capture *capture, uint64_t number, const char *name, size_t name_length);
PILHANGKO_NODISCARD PILHANGKO_API pilhangko_status PILHANGKO_CALL pilhangko_raw_capture_set_committed(pilhangko_capture *capture);
PILHANGKO_NODISCARD PILHANGKO_API pilhangko_status PILHANGKO_CALL pilhangko_raw_capture_bounded(
    pilhangko_capture *capture, size_t memory_type, bool has_budget, uint64_t bytes);
PILHANGKO_NODISCARD PILHANGKO_API pilhangko_status PILHANGKO_CALL pilhangko_raw_capture_how_far(
    const pilhangko_capture *capture, pilhangko_capture_end *end);
PILHANGKO_NODISCARD PILHANGKO_API pilhangko_status PILHANGKO_CALL pilhangko_raw_capture_text(
    const pilhangko_capture *capture, bool is_destroyed, size_t from, char *bytes, size_t room, size_t *count);
PILHANGKO_API pilhangko_status PILHANGKO_CALL pilhangko_raw_capture_destroy(pilhangko_capture *capture);

PILHANGKO_NODISCARD PILHANGKO_API pilhangko_status PILHANGKO_CALL pilhangko_raw_plan(const pilhangko_plan_resource *resources, size_t count,
    uint64_t page_size, uint64_t *offsets, size_t room, pilhangko_heap_plan *plan);
PILHANGKO_NODISCARD PILHANGKO_API pilhangko_status PILHANGKO_CALL pilhangko_raw_plan_reuses(const pilhangko_plan_resource *resources,
    size_t count, const uint64_t *offsets, size_t offset_count, size_t index, size_t *reused, size_t room, size_t *reused_count);
PILHANGKO_NODISCARD PILHANGKO_API pilhangko_status PILHANGKO_CALL pilhangko_raw_plan_sets(
    const pilhangko_memory_needs *needs, size_t count, size_t *sets, size_t room);
PILHANGKO_NODISCARD PILHANGKO_API pilhangko_status PILHANGKO_CALL pilhangko_raw_plan_memory(
    const pilhangko_plan_resource *resources, size_t count, uint64_t heap_size, uint64_t page_size, pilhangko_heap_memory *memory);

/* ---- The calls ---- */

/* A status by its name. */
static inline const char *pilhangko_status_name(pilhangko_status status) {
    switch (status) {
    case PILHANGKO_OK: return "PILHANGKO_OK";
    case PILHANGKO_OUT_OF_MEMORY: return "PILHANGKO_OUT_OF_MEMORY";
    case PILHANGKO_FAILED_TO_MAP: return "PILHANGKO_FAILED_TO_MAP";
    case PILHANGKO_NO_MEMORY_TYPE: return "PILHANGKO_NO_MEMORY_TYPE";
    case PILHANGKO_INVALID: return "PILHANGKO_INVALID";
    case PILHANGKO_INVALID_DEVICE: return "PILHANGKO_INVALID_DEVICE";
    case PILHANGKO_NOT_LIVE: return "PILHANGKO_NOT_LIVE";
    case PILHANGKO_LAYOUT_NEEDS_DEVICE10: return "PILHANGKO_LAYOUT_NEEDS_DEVICE10";
    case PILHANGKO_FORMATS_NEED_LAYOUT: return "PILHANGKO_FORMATS_NEED_LAYOUT";
    case PILHANGKO_FORMATS_NEED_DEVICE12: return "PILHANGKO_FORMATS_NEED_DEVICE12";
    case PILHANGKO_HOST_OUT_OF_MEMORY: return "PILHANGKO_HOST_OUT_OF_MEMORY";
    case PILHANGKO_BUDGET_EXCEEDED: return "PILHANGKO_BUDGET_EXCEEDED";
    case PILHANGKO_DRIVER_REFUSED: return "PILHANGKO_DRIVER_REFUSED";
    case PILHANGKO_NO_SUCH_TYPE: return "PILHANGKO_NO_SUCH_TYPE";
    case PILHANGKO_TOO_MANY_TYPES: return "PILHANGKO_TOO_MANY_TYPES";
    case PILHANGKO_NO_SUCH_HEAP: return "PILHANGKO_NO_SUCH_HEAP";
    case PILHANGKO_INVALID_TIER: return "PILHANGKO_INVALID_TIER";
    case PILHANGKO_NO_HANDLE: return "PILHANGKO_NO_HANDLE";
    case PILHANGKO_IN_USE: return "PILHANGKO_IN_USE";
    case PILHANGKO_AWAITS_BLOCK: return "PILHANGKO_AWAITS_BLOCK";
    case PILHANGKO_AWAITS_NO_BLOCK: return "PILHANGKO_AWAITS_NO_BLOCK";
    case PILHANGKO_AWAITS_ANSWER: return "PILHANGKO_AWAITS_ANSWER";
    case PILHANGKO_AWAITS_NO_ANSWER: return "PILHANGKO_AWAITS_NO_ANSWER";
    case PILHANGKO_TOO_MANY_FRAMES: return "PILHANGKO_TOO_MANY_FRAMES";
    case PILHANGKO_NULL_POINTER: return "PILHANGKO_NULL_POINTER";
    case PILHANGKO_VULKAN_CALL_FAILED: return "PILHANGKO_VULKAN_CALL_FAILED";
    case PILHANGKO_VULKAN_NO_FUNCTION: return "PILHANGKO_VULKAN_NO_FUNCTION";
    case PILHANGKO_VULKAN_NOT_MAPPED: return "PILHANGKO_VULKAN_NOT_MAPPED";
    case PILHANGKO_VULKAN_OUT_OF_RANGE: return "PILHANGKO_VULKAN_OUT_OF_RANGE";
    case PILHANGKO_VULKAN_NO_BUDGETS: return "PILHANGKO_VULKAN_NO_BUDGETS";
    case PILHANGKO_VULKAN_NO_SUCH_HEAP: return "PILHANGKO_VULKAN_NO_SUCH_HEAP";
    case PILHANGKO_VULKAN_NO_CAPTURE: return "PILHANGKO_VULKAN_NO_CAPTURE";
    case PILHANGKO_VULKAN_INVALID_ATOM_SIZE: return "PILHANGKO_VULKAN_INVALID_ATOM_SIZE";
    case PILHANGKO_VULKAN_TOO_MANY_HEAPS: return "PILHANGKO_VULKAN_TOO_MANY_HEAPS";
    case PILHANGKO_D3D12_CALL_FAILED: return "PILHANGKO_D3D12_CALL_FAILED";
    case PILHANGKO_D3D12_DEVICE_REMOVED: return "PILHANGKO_D3D12_DEVICE_REMOVED";
    case PILHANGKO_D3D12_NO_BUDGETS: return "PILHANGKO_D3D12_NO_BUDGETS";
    case PILHANGKO_D3D12_OUT_OF_RANGE: return "PILHANGKO_D3D12_OUT_OF_RANGE";
    case PILHANGKO_D3D12_NO_SUCH_GROUP: return "PILHANGKO_D3D12_NO_SUCH_GROUP";
    case PILHANGKO_D3D12_NO_CAPTURE: return "PILHANGKO_D3D12_NO_CAPTURE";
    case PILHANGKO_METAL_CALL_FAILED: return "PILHANGKO_METAL_CALL_FAILED";
    case PILHANGKO_METAL_NO_CAPTURE: return "PILHANGKO_METAL_NO_CAPTURE";
    default: return "unknown status";
    }
}

/* A status in one line of text. */
static inline const char *pilhangko_status_text(pilhangko_status status) {
    switch (status) {
    case PILHANGKO_OK: return "the call did what it says";
    case PILHANGKO_OUT_OF_MEMORY: return "out of memory: no gap or part of a ring has a place, or the sum of the blocks' sizes would pass 64 bits";
    case PILHANGKO_FAILED_TO_MAP: return "the driver granted memory, but didn't map it";
    case PILHANGKO_NO_MEMORY_TYPE: return "no memory type that the request allows has what its location needs";
    case PILHANGKO_INVALID: return "invalid request: a size, an alignment, a page size, a kind or a name";
    case PILHANGKO_INVALID_DEVICE: return "invalid device: the page size is no power of two";
    case PILHANGKO_NOT_LIVE: return "no live piece, record or frame in flight is the one that is named";
    case PILHANGKO_LAYOUT_NEEDS_DEVICE10: return "a resource that begins in a barrier layout needs an ID3D12Device10";
    case PILHANGKO_FORMATS_NEED_LAYOUT: return "a resource with castable formats has to begin in a barrier layout";
    case PILHANGKO_FORMATS_NEED_DEVICE12: return "a resource with castable formats needs an ID3D12Device12";
    case PILHANGKO_HOST_OUT_OF_MEMORY: return "out of host memory: malloc or realloc refused";
    case PILHANGKO_BUDGET_EXCEEDED: return "the block that is needed would pass the budget";
    case PILHANGKO_DRIVER_REFUSED: return "the driver refused memory with a code that has no status of its own";
    case PILHANGKO_NO_SUCH_TYPE: return "no memory type has that index";
    case PILHANGKO_TOO_MANY_TYPES: return "invalid device: more than 32 memory types";
    case PILHANGKO_NO_SUCH_HEAP: return "invalid device: a memory type lies in a heap that isn't there";
    case PILHANGKO_INVALID_TIER: return "invalid device: the resource heap tier is 0";
    case PILHANGKO_NO_HANDLE: return "the handle is empty";
    case PILHANGKO_IN_USE: return "the handle is in use, and create needs an empty one";
    case PILHANGKO_AWAITS_BLOCK: return "a block is awaited: install or abandon it first";
    case PILHANGKO_AWAITS_NO_BLOCK: return "no block is awaited";
    case PILHANGKO_AWAITS_ANSWER: return "a question is open: answer it first";
    case PILHANGKO_AWAITS_NO_ANSWER: return "no question is open";
    case PILHANGKO_TOO_MANY_FRAMES: return "as many frames are in flight as there is room for: retire one first";
    case PILHANGKO_NULL_POINTER: return "a pointer is NULL that may not be";
    case PILHANGKO_VULKAN_CALL_FAILED: return "the driver refused to make, to bind, to flush or to invalidate";
    case PILHANGKO_VULKAN_NO_FUNCTION: return "a function of Vulkan that is needed is missing";
    case PILHANGKO_VULKAN_NOT_MAPPED: return "the host can't see the allocation's memory";
    case PILHANGKO_VULKAN_OUT_OF_RANGE: return "the range isn't within the allocation";
    case PILHANGKO_VULKAN_NO_BUDGETS: return "VK_EXT_memory_budget isn't enabled";
    case PILHANGKO_VULKAN_NO_SUCH_HEAP: return "no memory heap has that index";
    case PILHANGKO_VULKAN_NO_CAPTURE: return "no capture is under way";
    case PILHANGKO_VULKAN_INVALID_ATOM_SIZE: return "invalid device: nonCoherentAtomSize is no power of two";
    case PILHANGKO_VULKAN_TOO_MANY_HEAPS: return "invalid device: more than 16 memory heaps";
    case PILHANGKO_D3D12_CALL_FAILED: return "the driver refused to make or to map a resource, or to tell its heap tier";
    case PILHANGKO_D3D12_DEVICE_REMOVED: return "the device was removed";
    case PILHANGKO_D3D12_NO_BUDGETS: return "no adapter tells budgets";
    case PILHANGKO_D3D12_OUT_OF_RANGE: return "the resource doesn't fit into the allocation there";
    case PILHANGKO_D3D12_NO_SUCH_GROUP: return "no memory segment group has that index";
    case PILHANGKO_D3D12_NO_CAPTURE: return "no capture is under way";
    case PILHANGKO_METAL_CALL_FAILED: return "a heap made no resource";
    case PILHANGKO_METAL_NO_CAPTURE: return "no capture is under way";
    default: return "unknown status";
    }
}

/* The bytes of a name without its 0; none for NULL. */
static inline size_t pilhangko_name_length(const char *name) {
    return name ? strlen(name) : 0;
}
static inline const char *pilhangko_name_bytes(const char *name) {
    return name ? name : "";
}

/* Makes a block of `size` bytes, not 0, with pages of page_size bytes, a power of two, in an empty handle.
 * IN_USE: the handle isn't empty. INVALID: size or page_size. HOST_OUT_OF_MEMORY. */
PILHANGKO_NODISCARD static inline pilhangko_status pilhangko_virtual_block_create(
    pilhangko_virtual_block *block, uint64_t size, uint64_t page_size) {
    if (!block) return PILHANGKO_NULL_POINTER;
    return pilhangko_raw_virtual_block_create(block, size, page_size);
}

/* Allocates a piece: the least place in the shortest gap in which the request fits, and of equally short gaps in the first.
 * NO_HANDLE. INVALID: the request or the name. OUT_OF_MEMORY: no gap has a place. HOST_OUT_OF_MEMORY. */
PILHANGKO_NODISCARD static inline pilhangko_status pilhangko_virtual_block_allocate(
    pilhangko_virtual_block *block, const pilhangko_virtual_request *request, const char *name, pilhangko_virtual_piece *piece) {
    if (!block || !request || !piece) return PILHANGKO_NULL_POINTER;
    return pilhangko_raw_virtual_block_allocate(block, request, pilhangko_name_bytes(name), pilhangko_name_length(name), piece);
}

/* Frees a piece; its place joins the gaps beside it. It needs no host memory.
 * NO_HANDLE. NOT_LIVE: no live piece has this number and offset. */
PILHANGKO_NODISCARD static inline pilhangko_status pilhangko_virtual_block_free(
    pilhangko_virtual_block *block, const pilhangko_virtual_piece *piece) {
    if (!block || !piece) return PILHANGKO_NULL_POINTER;
    return pilhangko_raw_virtual_block_free(block, piece);
}

/* Renames a live piece.
 * NO_HANDLE. INVALID: the name. NOT_LIVE. HOST_OUT_OF_MEMORY. */
PILHANGKO_NODISCARD static inline pilhangko_status pilhangko_virtual_block_rename(
    pilhangko_virtual_block *block, const pilhangko_virtual_piece *piece, const char *name) {
    if (!block || !piece) return PILHANGKO_NULL_POINTER;
    return pilhangko_raw_virtual_block_rename(block, piece, pilhangko_name_bytes(name), pilhangko_name_length(name));
}

/* Keeps a word of the caller's with a live piece, in place of the last one: the address of what lies there, say, so that a visit of the pieces
 * leads to it. A new piece has 0, a rename keeps it, and it goes with the piece. The library doesn't look at it.
 * NO_HANDLE. NOT_LIVE. */
PILHANGKO_NODISCARD static inline pilhangko_status pilhangko_virtual_block_set_word(
    pilhangko_virtual_block *block, const pilhangko_virtual_piece *piece, uint64_t word) {
    if (!block || !piece) return PILHANGKO_NULL_POINTER;
    return pilhangko_raw_virtual_block_set_word(block, piece, word);
}

/* Frees all pieces: the block is as create made it.
 * NO_HANDLE. HOST_OUT_OF_MEMORY: for the new, empty bookkeeping; all pieces stay. */
PILHANGKO_NODISCARD static inline pilhangko_status pilhangko_virtual_block_clear(pilhangko_virtual_block *block) {
    if (!block) return PILHANGKO_NULL_POINTER;
    return pilhangko_raw_virtual_block_clear(block);
}

/* What is counted of a block: its pieces, what they take, its gaps.
 * NO_HANDLE. */
PILHANGKO_NODISCARD static inline pilhangko_status pilhangko_virtual_block_statistics(
    const pilhangko_virtual_block *block, pilhangko_virtual_statistics *statistics) {
    if (!block || !statistics) return PILHANGKO_NULL_POINTER;
    return pilhangko_raw_virtual_block_statistics(block, statistics);
}

/* How many pieces are live: before destroy, how many leak.
 * NO_HANDLE. */
PILHANGKO_NODISCARD static inline pilhangko_status pilhangko_virtual_block_leak_count(const pilhangko_virtual_block *block, size_t *count) {
    pilhangko_virtual_statistics statistics;
    pilhangko_status status;
    if (!block || !count) return PILHANGKO_NULL_POINTER;
    status = pilhangko_raw_virtual_block_statistics(block, &statistics);
    if (status == PILHANGKO_OK) *count = statistics.pieces;
    return status;
}

/* The first live piece whose own bytes begin at `from` or behind it. A visit of all pieces in order of offset begins at 0 and goes on at
 * the last one's offset + 1, until none exists; the block may change in between. Each step goes over the pieces before it: where there are
 * many, `pieces` visits them all in linear time.
 * NO_HANDLE. */
PILHANGKO_NODISCARD static inline pilhangko_status pilhangko_virtual_block_next_piece(
    const pilhangko_virtual_block *block, uint64_t from, pilhangko_piece_view *piece) {
    if (!block || !piece) return PILHANGKO_NULL_POINTER;
    return pilhangko_raw_virtual_block_next_piece(block, from, piece);
}

/* All live pieces whose own bytes begin at `from` or behind it, in order of offset, as far as the array has room; count is how many it
 * shows, and where that is less than room, none is left. From 0 on and with room for as many as statistics counts, one call visits them
 * all in linear time. In parts a visit goes on at the last one's offset + 1, and each part goes over the pieces before it once more. What
 * stands in the array behind them stays. Where room is 0, pieces may be NULL.
 * NO_HANDLE. */
PILHANGKO_NODISCARD static inline pilhangko_status pilhangko_virtual_block_pieces(
    const pilhangko_virtual_block *block, uint64_t from, pilhangko_piece_view *pieces, size_t room, size_t *count) {
    pilhangko_piece_view none;
    if (!block || (!pieces && room) || !count) return PILHANGKO_NULL_POINTER;
    return pilhangko_raw_virtual_block_pieces(block, from, pieces ? pieces : &none, room, count);
}

/* The name of the piece that next_piece shows from there: copies as many of its bytes as there is room for, and reports how many it has,
 * which can be more; 0 where there is no piece. No 0 is put behind them, and a name that is cut may end within a character. Where
 * name_room is 0, name may be NULL.
 * NO_HANDLE. */
PILHANGKO_NODISCARD static inline pilhangko_status pilhangko_virtual_block_piece_name(
    const pilhangko_virtual_block *block, uint64_t from, char *name, size_t name_room, size_t *name_length) {
    char none;
    if (!block || (!name && name_room) || !name_length) return PILHANGKO_NULL_POINTER;
    return pilhangko_raw_virtual_block_piece_name(block, from, name ? name : &none, name_room, name_length);
}

/* The names of the pieces that `pieces` shows from there with that room, in linear time too: lengths has the length of each one's name,
 * names has their bytes one after another, with no 0 between or behind them, as far as names_room, and count is how many there are. Where
 * the lengths sum up to more than names_room, names are cut, maybe within a character. Where a room is 0, its pointer may be NULL.
 * NO_HANDLE. */
PILHANGKO_NODISCARD static inline pilhangko_status pilhangko_virtual_block_piece_names(
    const pilhangko_virtual_block *block, uint64_t from, size_t *lengths, size_t room, char *names, size_t names_room, size_t *count) {
    size_t no_length;
    char no_name;
    if (!block || (!lengths && room) || (!names && names_room) || !count) return PILHANGKO_NULL_POINTER;
    return pilhangko_raw_virtual_block_piece_names(
        block, from, lengths ? lengths : &no_length, room, names ? names : &no_name, names_room, count);
}

/* Ends a block, with all its pieces, and leaves the handle empty.
 * NO_HANDLE. */
static inline pilhangko_status pilhangko_virtual_block_destroy(pilhangko_virtual_block *block) {
    if (!block) return PILHANGKO_NULL_POINTER;
    return pilhangko_raw_virtual_block_destroy(block);
}

/* Makes a ring of `size` bytes, not 0 and below 2^63, in an empty handle, with room for so many frames in flight. No later call of the ring
 * takes host memory. How large it has to be: where no request's size + alignment - 1 is above m, those of one frame sum up to at most M, and
 * at most k frames are in flight, a ring of (k + 1) * M + m - 1 bytes with room for k frames refuses none.
 * IN_USE: the handle isn't empty. INVALID: size. HOST_OUT_OF_MEMORY. */
PILHANGKO_NODISCARD static inline pilhangko_status pilhangko_ring_create(pilhangko_ring *ring, uint64_t size, size_t frames) {
    if (!ring) return PILHANGKO_NULL_POINTER;
    return pilhangko_raw_ring_create(ring, size, frames);
}

/* Allocates a piece of the open frame, at an offset that is a multiple of the alignment, which may be any but 0. It begins at the first such
 * offset from the last piece on (from 0 on where nothing is taken), round the ring, at which it doesn't run over the ring's end; what is
 * skipped is taken with it.
 * NO_HANDLE. INVALID: size or alignment is 0. OUT_OF_MEMORY: a piece there would meet the oldest one that isn't freed. */
PILHANGKO_NODISCARD static inline pilhangko_status pilhangko_ring_allocate(
    pilhangko_ring *ring, uint64_t size, uint64_t alignment, uint64_t *offset) {
    if (!ring || !offset) return PILHANGKO_NULL_POINTER;
    return pilhangko_raw_ring_allocate(ring, size, alignment, offset);
}

/* Ends the open frame: it is in flight from then on, under the next number, from 0 up. The next piece begins another frame.
 * NO_HANDLE. TOO_MANY_FRAMES: create made no room for one more. */
PILHANGKO_NODISCARD static inline pilhangko_status pilhangko_ring_end_frame(pilhangko_ring *ring, uint64_t *frame) {
    if (!ring || !frame) return PILHANGKO_NULL_POINTER;
    return pilhangko_raw_ring_end_frame(ring, frame);
}

/* Frees the pieces of a frame in flight and of each older one: call it once the device has finished with that frame, when its fence or its
 * timeline semaphore says so.
 * NO_HANDLE. NOT_LIVE: the frame isn't in flight. */
PILHANGKO_NODISCARD static inline pilhangko_status pilhangko_ring_retire(pilhangko_ring *ring, uint64_t frame) {
    if (!ring) return PILHANGKO_NULL_POINTER;
    return pilhangko_raw_ring_retire(ring, frame);
}

/* What is counted of a ring and of its open frame.
 * NO_HANDLE. */
PILHANGKO_NODISCARD static inline pilhangko_status pilhangko_ring_statistics(
    const pilhangko_ring *ring, pilhangko_ring_counts *counts) {
    if (!ring || !counts) return PILHANGKO_NULL_POINTER;
    return pilhangko_raw_ring_statistics(ring, counts);
}

/* Where the bytes of the open frame lie, padding and skipped ones too: flush them before the device reads them, where the ring's memory needs
 * flushes.
 * NO_HANDLE. */
PILHANGKO_NODISCARD static inline pilhangko_status pilhangko_ring_current_stretch(
    const pilhangko_ring *ring, pilhangko_ring_stretch *stretch) {
    if (!ring || !stretch) return PILHANGKO_NULL_POINTER;
    return pilhangko_raw_ring_current_stretch(ring, stretch);
}

/* What is counted of a frame in flight.
 * NO_HANDLE. NOT_LIVE: the frame isn't in flight. */
PILHANGKO_NODISCARD static inline pilhangko_status pilhangko_ring_frame_statistics(
    const pilhangko_ring *ring, uint64_t frame, pilhangko_ring_frame_counts *counts) {
    if (!ring || !counts) return PILHANGKO_NULL_POINTER;
    return pilhangko_raw_ring_frame_statistics(ring, frame, counts);
}

/* Ends a ring, with all its pieces, and leaves the handle empty.
 * NO_HANDLE. */
static inline pilhangko_status pilhangko_ring_destroy(pilhangko_ring *ring) {
    if (!ring) return PILHANGKO_NULL_POINTER;
    return pilhangko_raw_ring_destroy(ring);
}

/* Makes a memory type without blocks in an empty handle.
 * IN_USE: the handle isn't empty. INVALID: page_size. HOST_OUT_OF_MEMORY. */
PILHANGKO_NODISCARD static inline pilhangko_status pilhangko_memory_type_create(
    pilhangko_memory_type *type, const pilhangko_memory_type_settings *settings) {
    if (!type || !settings) return PILHANGKO_NULL_POINTER;
    return pilhangko_raw_memory_type_create(type, settings);
}

/* Allocates a piece in a shared block that is there, or says which block is needed and awaits it. A shared block serves where one has a
 * place, unless the request has a block of its own: it asks for one, or is larger than the next shared block would be. Of the blocks that
 * have a place the one in the highest slot serves.
 * NO_HANDLE. AWAITS_BLOCK. INVALID: the request or the name. HOST_OUT_OF_MEMORY. And where a block is needed: OUT_OF_MEMORY: the sum of the
 * blocks' sizes would pass 2^64 - 1. BUDGET_EXCEEDED: it would pass the budget. */
PILHANGKO_NODISCARD static inline pilhangko_status pilhangko_memory_type_prepare(
    pilhangko_memory_type *type, const pilhangko_memory_request *request, const char *name, pilhangko_memory_prepared *prepared) {
    if (!type || !request || !prepared) return PILHANGKO_NULL_POINTER;
    return pilhangko_raw_memory_type_prepare(type, request, pilhangko_name_bytes(name), pilhangko_name_length(name), prepared);
}

/* Puts in the block that is awaited, under the driver's handle of it, and says where the piece is; it begins at the block's start. It needs
 * no host memory, so that a block which the driver gave is never lost. Handles of live blocks should differ.
 * NO_HANDLE. AWAITS_NO_BLOCK. */
PILHANGKO_NODISCARD static inline pilhangko_status pilhangko_memory_type_install(
    pilhangko_memory_type *type, uint64_t block, pilhangko_memory_piece *piece) {
    if (!type || !piece) return PILHANGKO_NULL_POINTER;
    return pilhangko_raw_memory_type_install(type, block, piece);
}

/* Forgets the block that is awaited, where the driver refused it: nothing has changed since before prepare.
 * NO_HANDLE. AWAITS_NO_BLOCK. */
PILHANGKO_NODISCARD static inline pilhangko_status pilhangko_memory_type_abandon(pilhangko_memory_type *type) {
    if (!type) return PILHANGKO_NULL_POINTER;
    return pilhangko_raw_memory_type_abandon(type);
}

/* Frees a piece. Where gone->exists, the block gone->block went with it: give its memory back to the driver. A piece's own block goes,
 * and so does a shared block without pieces where another shared one is live. It needs no host memory.
 * NO_HANDLE. AWAITS_BLOCK. NOT_LIVE. */
PILHANGKO_NODISCARD static inline pilhangko_status pilhangko_memory_type_free(
    pilhangko_memory_type *type, const pilhangko_memory_piece *piece, pilhangko_memory_block *gone) {
    if (!type || !piece || !gone) return PILHANGKO_NULL_POINTER;
    return pilhangko_raw_memory_type_free(type, piece, gone);
}

/* Renames a live piece.
 * NO_HANDLE. AWAITS_BLOCK. INVALID: the name. NOT_LIVE. HOST_OUT_OF_MEMORY. */
PILHANGKO_NODISCARD static inline pilhangko_status pilhangko_memory_type_rename(
    pilhangko_memory_type *type, const pilhangko_memory_piece *piece, const char *name) {
    if (!type || !piece) return PILHANGKO_NULL_POINTER;
    return pilhangko_raw_memory_type_rename(type, piece, pilhangko_name_bytes(name), pilhangko_name_length(name));
}

/* Keeps a word of the caller's with a live piece, as with a virtual block.
 * NO_HANDLE. AWAITS_BLOCK. NOT_LIVE. */
PILHANGKO_NODISCARD static inline pilhangko_status pilhangko_memory_type_set_word(
    pilhangko_memory_type *type, const pilhangko_memory_piece *piece, uint64_t word) {
    if (!type || !piece) return PILHANGKO_NULL_POINTER;
    return pilhangko_raw_memory_type_set_word(type, piece, word);
}

/* Whether a piece is live.
 * NO_HANDLE. */
PILHANGKO_NODISCARD static inline pilhangko_status pilhangko_memory_type_is_live(
    const pilhangko_memory_type *type, const pilhangko_memory_piece *piece, bool *is_live) {
    if (!type || !piece || !is_live) return PILHANGKO_NULL_POINTER;
    return pilhangko_raw_memory_type_is_live(type, piece, is_live);
}

/* Bounds the sum of the blocks' sizes, or takes the bound away. A bound below the present sum frees no block.
 * NO_HANDLE. AWAITS_BLOCK. */
PILHANGKO_NODISCARD static inline pilhangko_status pilhangko_memory_type_set_budget(
    pilhangko_memory_type *type, bool has_budget, uint64_t bytes) {
    if (!type) return PILHANGKO_NULL_POINTER;
    return pilhangko_raw_memory_type_set_budget(type, has_budget, bytes);
}

/* The block in a slot, if one is there. Slots are numbered from 0 to one less than statistics' slots; behind them there is none.
 * NO_HANDLE. */
PILHANGKO_NODISCARD static inline pilhangko_status pilhangko_memory_type_block(
    const pilhangko_memory_type *type, size_t slot, pilhangko_memory_block *block) {
    if (!type || !block) return PILHANGKO_NULL_POINTER;
    return pilhangko_raw_memory_type_block(type, slot, block);
}

/* What is counted of the block in a slot.
 * NO_HANDLE. */
PILHANGKO_NODISCARD static inline pilhangko_status pilhangko_memory_type_block_statistics(
    const pilhangko_memory_type *type, size_t slot, pilhangko_memory_block_statistics *statistics) {
    if (!type || !statistics) return PILHANGKO_NULL_POINTER;
    return pilhangko_raw_memory_type_block_statistics(type, slot, statistics);
}

/* The first live piece of the block in a slot whose own bytes begin at `from` or behind it; none where the slot has no block. A visit goes
 * as with a virtual block, slot by slot.
 * NO_HANDLE. */
PILHANGKO_NODISCARD static inline pilhangko_status pilhangko_memory_type_next_piece(
    const pilhangko_memory_type *type, size_t slot, uint64_t from, pilhangko_piece_view *piece) {
    if (!type || !piece) return PILHANGKO_NULL_POINTER;
    return pilhangko_raw_memory_type_next_piece(type, slot, from, piece);
}

/* All live pieces of the block in a slot whose own bytes begin at `from` or behind it, as with a virtual block; none where the slot has no
 * block. block_statistics counts them.
 * NO_HANDLE. */
PILHANGKO_NODISCARD static inline pilhangko_status pilhangko_memory_type_pieces(
    const pilhangko_memory_type *type, size_t slot, uint64_t from, pilhangko_piece_view *pieces, size_t room, size_t *count) {
    pilhangko_piece_view none;
    if (!type || (!pieces && room) || !count) return PILHANGKO_NULL_POINTER;
    return pilhangko_raw_memory_type_pieces(type, slot, from, pieces ? pieces : &none, room, count);
}

/* The name of the piece that next_piece shows from there, as with a virtual block.
 * NO_HANDLE. */
PILHANGKO_NODISCARD static inline pilhangko_status pilhangko_memory_type_piece_name(
    const pilhangko_memory_type *type, size_t slot, uint64_t from, char *name, size_t name_room, size_t *name_length) {
    char none;
    if (!type || (!name && name_room) || !name_length) return PILHANGKO_NULL_POINTER;
    return pilhangko_raw_memory_type_piece_name(type, slot, from, name ? name : &none, name_room, name_length);
}

/* The names of the pieces of the block in a slot, as with a virtual block.
 * NO_HANDLE. */
PILHANGKO_NODISCARD static inline pilhangko_status pilhangko_memory_type_piece_names(const pilhangko_memory_type *type, size_t slot,
    uint64_t from, size_t *lengths, size_t room, char *names, size_t names_room, size_t *count) {
    size_t no_length;
    char no_name;
    if (!type || (!lengths && room) || (!names && names_room) || !count) return PILHANGKO_NULL_POINTER;
    return pilhangko_raw_memory_type_piece_names(
        type, slot, from, lengths ? lengths : &no_length, room, names ? names : &no_name, names_room, count);
}

/* What is counted of a memory type.
 * NO_HANDLE. */
PILHANGKO_NODISCARD static inline pilhangko_status pilhangko_memory_type_statistics(
    const pilhangko_memory_type *type, pilhangko_memory_statistics *statistics) {
    if (!type || !statistics) return PILHANGKO_NULL_POINTER;
    return pilhangko_raw_memory_type_statistics(type, statistics);
}

/* Ends a memory type, with all its pieces, and leaves the handle empty. The blocks' memory is the caller's to give back to the
 * driver: go over the slots by pilhangko_memory_type_block first.
 * NO_HANDLE. */
static inline pilhangko_status pilhangko_memory_type_destroy(pilhangko_memory_type *type) {
    if (!type) return PILHANGKO_NULL_POINTER;
    return pilhangko_raw_memory_type_destroy(type);
}

/* Makes an allocator without blocks in an empty handle, over a device that has these memory types and heaps. Where a count is 0, its
 * pointer may be NULL.
 * IN_USE: the handle isn't empty. INVALID_DEVICE. TOO_MANY_TYPES. NO_SUCH_HEAP. HOST_OUT_OF_MEMORY. */
PILHANGKO_NODISCARD static inline pilhangko_status pilhangko_allocator_create(pilhangko_allocator *allocator,
    const pilhangko_device_memory_type *types, size_t type_count, const pilhangko_device_heap *heaps, size_t heap_count,
    const pilhangko_allocator_settings *settings) {
    pilhangko_device_memory_type no_type = {0, 0};
    pilhangko_device_heap no_heap = {0, 0};
    if (!allocator || (!types && type_count) || (!heaps && heap_count) || !settings) return PILHANGKO_NULL_POINTER;
    return pilhangko_raw_allocator_create(allocator, types ? types : &no_type, type_count, heaps ? heaps : &no_heap, heap_count, settings);
}

/* Begins a request: it leads to a piece, or to a question, which stays open until the answer is told.
 * NO_HANDLE. AWAITS_ANSWER. INVALID: the request or the name. NO_MEMORY_TYPE. OUT_OF_MEMORY: the request is above its heap.
 * HOST_OUT_OF_MEMORY. And where a block is needed: OUT_OF_MEMORY: the sum of the blocks' sizes would pass 2^64 - 1. BUDGET_EXCEEDED: its memory
 * type's, then its heap's limit, or the most blocks. (From
 * the first OUT_OF_MEMORY on, of the one attempt that counts: an upload's second one, where it has one.) */
PILHANGKO_NODISCARD static inline pilhangko_status pilhangko_allocator_begin(pilhangko_allocator *allocator,
    const pilhangko_allocator_request *request, const char *name, pilhangko_allocator_progress *progress) {
    if (!allocator || !request || !progress) return PILHANGKO_NULL_POINTER;
    return pilhangko_raw_allocator_begin(allocator, request, pilhangko_name_bytes(name), pilhangko_name_length(name), progress);
}

/* Begins a request whose memory is chosen by flags; its location isn't looked at, but is one of those above. Memory types that serve are tried
 * from the cheapest on, while one has no room: it is above its heap, its budget, or the driver has refused it for lack of memory. Once the driver
 * has refused, refused and mapping_refused go on so.
 * NO_HANDLE. AWAITS_ANSWER. INVALID: the request or the name. NO_MEMORY_TYPE: none serves. Else why the last one that was tried was refused:
 * OUT_OF_MEMORY: the request is above its heap. HOST_OUT_OF_MEMORY: no other one is tried. And where a block is needed: OUT_OF_MEMORY: the sum of the
 * blocks' sizes would pass 2^64 - 1. BUDGET_EXCEEDED: its memory type's. OUT_OF_MEMORY: none is to be asked for. BUDGET_EXCEEDED: its heap's
 * limit, or the most blocks. */
PILHANGKO_NODISCARD static inline pilhangko_status pilhangko_allocator_begin_by_flags(pilhangko_allocator *allocator,
    const pilhangko_allocator_request *request, const char *name, const pilhangko_preference *preference,
    pilhangko_allocator_progress *progress) {
    if (!allocator || !request || !preference || !progress) return PILHANGKO_NULL_POINTER;
    return pilhangko_raw_allocator_begin_by_flags(
        allocator, request, pilhangko_name_bytes(name), pilhangko_name_length(name), preference, progress);
}

/* The driver granted the memory that was asked for, and mapped it at that address where it was to be mapped, 0 where it wasn't: says where
 * the piece is; it begins at the memory's start. It needs no host memory, so that memory which the driver gave is never lost. Memories of
 * live blocks should differ.
 * NO_HANDLE. AWAITS_NO_ANSWER. */
PILHANGKO_NODISCARD static inline pilhangko_status pilhangko_allocator_granted(
    pilhangko_allocator *allocator, uint64_t memory, uint64_t address, pilhangko_allocator_piece *piece) {
    if (!allocator || !piece) return PILHANGKO_NULL_POINTER;
    return pilhangko_raw_allocator_granted(allocator, memory, address, piece);
}

/* The driver refused the memory, with this code (VkResult). An upload may have a second attempt: progress then is its piece or its
 * question. Else progress is the request's refusal: OUT_OF_MEMORY for VK_ERROR_OUT_OF_DEVICE_MEMORY, DRIVER_REFUSED for another code, or
 * what the second attempt was refused for without a question.
 * NO_HANDLE. AWAITS_NO_ANSWER. */
PILHANGKO_NODISCARD static inline pilhangko_status pilhangko_allocator_refused(
    pilhangko_allocator *allocator, int32_t code, pilhangko_allocator_progress *progress) {
    if (!allocator || !progress) return PILHANGKO_NULL_POINTER;
    return pilhangko_raw_allocator_refused(allocator, code, progress);
}

/* The driver granted the memory, but refused to map it, with this code or, where has_code is false, by a null pointer; the caller has given
 * the memory back. Then as with refused, and the refusal is FAILED_TO_MAP.
 * NO_HANDLE. AWAITS_NO_ANSWER. */
PILHANGKO_NODISCARD static inline pilhangko_status pilhangko_allocator_mapping_refused(
    pilhangko_allocator *allocator, bool has_code, int32_t code, pilhangko_allocator_progress *progress) {
    if (!allocator || !progress) return PILHANGKO_NULL_POINTER;
    return pilhangko_raw_allocator_mapping_refused(allocator, has_code, code, progress);
}

/* Frees a piece. Where back->exists, the memory back->memory goes back to the driver, unmapped first where back->mapped. It needs no host
 * memory.
 * NO_HANDLE. AWAITS_ANSWER. NOT_LIVE. */
PILHANGKO_NODISCARD static inline pilhangko_status pilhangko_allocator_free(
    pilhangko_allocator *allocator, const pilhangko_allocator_piece *piece, pilhangko_allocator_memory *back) {
    if (!allocator || !piece || !back) return PILHANGKO_NULL_POINTER;
    return pilhangko_raw_allocator_free(allocator, piece, back);
}

/* Looks for a second place for a live piece: the place that this request, the one that it was made for, would get as a new piece now, if that
 * lies in a block of a higher slot. *moves says whether there is one, and *to is the piece there; no memory is asked for. Then both pieces are
 * live: copy what lies at the first, and free it, which ends the move; or free the second, which abandons it. Where there is none the piece
 * stays where it is, and *to is all zeros. The request's memory_type_bits and location aren't looked at.
 * NO_HANDLE. AWAITS_ANSWER. INVALID: the request or the name, a size that isn't the piece's, or a scheme other than MANAGED. NOT_LIVE.
 * HOST_OUT_OF_MEMORY. */
PILHANGKO_NODISCARD static inline pilhangko_status pilhangko_allocator_propose_move(pilhangko_allocator *allocator,
    const pilhangko_allocator_piece *piece, const pilhangko_allocator_request *request, const char *name, bool *moves,
    pilhangko_allocator_piece *to) {
    if (!allocator || !piece || !request || !moves || !to) return PILHANGKO_NULL_POINTER;
    return pilhangko_raw_allocator_propose_move(allocator, piece, request, pilhangko_name_bytes(name), pilhangko_name_length(name), moves, to);
}

/* Renames a live piece.
 * NO_HANDLE. AWAITS_ANSWER. INVALID: the name. NOT_LIVE. HOST_OUT_OF_MEMORY. */
PILHANGKO_NODISCARD static inline pilhangko_status pilhangko_allocator_rename(
    pilhangko_allocator *allocator, const pilhangko_allocator_piece *piece, const char *name) {
    if (!allocator || !piece) return PILHANGKO_NULL_POINTER;
    return pilhangko_raw_allocator_rename(allocator, piece, pilhangko_name_bytes(name), pilhangko_name_length(name));
}

/* Keeps a word of the caller's with a live piece, as with a virtual block.
 * NO_HANDLE. AWAITS_ANSWER. NOT_LIVE. */
PILHANGKO_NODISCARD static inline pilhangko_status pilhangko_allocator_set_word(
    pilhangko_allocator *allocator, const pilhangko_allocator_piece *piece, uint64_t word) {
    if (!allocator || !piece) return PILHANGKO_NULL_POINTER;
    return pilhangko_raw_allocator_set_word(allocator, piece, word);
}

/* Whether a piece is live.
 * NO_HANDLE. */
PILHANGKO_NODISCARD static inline pilhangko_status pilhangko_allocator_is_live(
    const pilhangko_allocator *allocator, const pilhangko_allocator_piece *piece, bool *is_live) {
    if (!allocator || !piece || !is_live) return PILHANGKO_NULL_POINTER;
    return pilhangko_raw_allocator_is_live(allocator, piece, is_live);
}

/* Bounds the sum of the sizes of a memory type's blocks, or takes the bound away. A bound below the present sum gives no block back.
 * NO_HANDLE. AWAITS_ANSWER. NO_SUCH_TYPE. */
PILHANGKO_NODISCARD static inline pilhangko_status pilhangko_allocator_set_budget(
    pilhangko_allocator *allocator, size_t memory_type, bool has_budget, uint64_t bytes) {
    if (!allocator) return PILHANGKO_NULL_POINTER;
    return pilhangko_raw_allocator_set_budget(allocator, memory_type, has_budget, bytes);
}

/* The budget of a memory type; none where it has none, or isn't there.
 * NO_HANDLE. */
PILHANGKO_NODISCARD static inline pilhangko_status pilhangko_allocator_budget(
    const pilhangko_allocator *allocator, size_t memory_type, pilhangko_budget *budget) {
    if (!allocator || !budget) return PILHANGKO_NULL_POINTER;
    return pilhangko_raw_allocator_budget(allocator, memory_type, budget);
}

/* Bounds the sum of the sizes of the blocks that lie in a heap, of whichever memory type, in bytes, or takes the bound away. A bound below the
 * present sum gives no block back: requests that need a block above it are refused, as by a budget.
 * NO_HANDLE. AWAITS_ANSWER. NO_SUCH_HEAP. */
PILHANGKO_NODISCARD static inline pilhangko_status pilhangko_allocator_set_heap_limit(
    pilhangko_allocator *allocator, size_t heap, bool has_limit, uint64_t bytes) {
    if (!allocator) return PILHANGKO_NULL_POINTER;
    return pilhangko_raw_allocator_set_heap_limit(allocator, heap, has_limit, bytes);
}

/* The limit of a heap; none where it has none, or isn't there.
 * NO_HANDLE. */
PILHANGKO_NODISCARD static inline pilhangko_status pilhangko_allocator_heap_limit(
    const pilhangko_allocator *allocator, size_t heap, pilhangko_budget *limit) {
    if (!allocator || !limit) return PILHANGKO_NULL_POINTER;
    return pilhangko_raw_allocator_heap_limit(allocator, heap, limit);
}

/* The greatest sum that the blocks of a memory type may have now: by its budget, by what its heap's other blocks leave of the heap's limit, and by
 * how many blocks there may be; none where nothing bounds it.
 * NO_HANDLE. */
PILHANGKO_NODISCARD static inline pilhangko_status pilhangko_allocator_bound(
    const pilhangko_allocator *allocator, size_t memory_type, pilhangko_budget *bound) {
    if (!allocator || !bound) return PILHANGKO_NULL_POINTER;
    return pilhangko_raw_allocator_bound(allocator, memory_type, bound);
}

/* Bounds how many blocks there may be, of all memory types together (maxMemoryAllocationCount), or takes the bound away. A bound below their present
 * number gives no block back: requests that need one more are refused (BUDGET_EXCEEDED).
 * NO_HANDLE. AWAITS_ANSWER. */
PILHANGKO_NODISCARD static inline pilhangko_status pilhangko_allocator_set_most_blocks(
    pilhangko_allocator *allocator, bool has_most, size_t count) {
    if (!allocator) return PILHANGKO_NULL_POINTER;
    return pilhangko_raw_allocator_set_most_blocks(allocator, has_most, count);
}

/* Whether that is bounded, and by how many, 0 where it isn't.
 * NO_HANDLE. */
PILHANGKO_NODISCARD static inline pilhangko_status pilhangko_allocator_most_blocks(
    const pilhangko_allocator *allocator, bool *has_most, size_t *count) {
    if (!allocator || !has_most || !count) return PILHANGKO_NULL_POINTER;
    return pilhangko_raw_allocator_most_blocks(allocator, has_most, count);
}

/* Says whether blocks are smaller where memory is short; a new allocator's aren't. In a heap of at most 1 GB no shared block then has more than an
 * eighth of it, or 4 MB; where a budget or a limit leaves no room for one, it is as large as they leave; and where the driver has none, half of it
 * is asked for, then a quarter, before another memory type. A request that is above the smaller block asks for a block of its own.
 * NO_HANDLE. AWAITS_ANSWER. */
PILHANGKO_NODISCARD static inline pilhangko_status pilhangko_allocator_set_smaller_blocks(pilhangko_allocator *allocator, bool smaller_blocks) {
    if (!allocator) return PILHANGKO_NULL_POINTER;
    return pilhangko_raw_allocator_set_smaller_blocks(allocator, smaller_blocks);
}

/* Whether they are.
 * NO_HANDLE. */
PILHANGKO_NODISCARD static inline pilhangko_status pilhangko_allocator_smaller_blocks(
    const pilhangko_allocator *allocator, bool *smaller_blocks) {
    if (!allocator || !smaller_blocks) return PILHANGKO_NULL_POINTER;
    return pilhangko_raw_allocator_smaller_blocks(allocator, smaller_blocks);
}

/* The sum of the sizes of the live blocks. A block that is awaited isn't one.
 * NO_HANDLE. */
PILHANGKO_NODISCARD static inline pilhangko_status pilhangko_allocator_capacity(
    const pilhangko_allocator *allocator, uint64_t *bytes) {
    if (!allocator || !bytes) return PILHANGKO_NULL_POINTER;
    return pilhangko_raw_allocator_capacity(allocator, bytes);
}

/* The memory type at which a request with these bits begins: the first with all flags that the location prefers, else the first with all that
 * it must have.
 * NO_HANDLE. INVALID: the location. NO_MEMORY_TYPE. */
PILHANGKO_NODISCARD static inline pilhangko_status pilhangko_allocator_best_type(
    const pilhangko_allocator *allocator, uint32_t memory_type_bits, pilhangko_location location, size_t *memory_type) {
    if (!allocator || !memory_type) return PILHANGKO_NULL_POINTER;
    return pilhangko_raw_allocator_best_type(allocator, memory_type_bits, location, memory_type);
}

/* The sum of the sizes of a memory type's blocks.
 * NO_HANDLE. NO_SUCH_TYPE. */
PILHANGKO_NODISCARD static inline pilhangko_status pilhangko_allocator_type_capacity(
    const pilhangko_allocator *allocator, size_t memory_type, uint64_t *bytes) {
    if (!allocator || !bytes) return PILHANGKO_NULL_POINTER;
    return pilhangko_raw_allocator_type_capacity(allocator, memory_type, bytes);
}

/* What is counted of a memory type, in linear time. Memory types are numbered from 0 up to the first NO_SUCH_TYPE.
 * NO_HANDLE. NO_SUCH_TYPE. */
PILHANGKO_NODISCARD static inline pilhangko_status pilhangko_allocator_type_statistics(
    const pilhangko_allocator *allocator, size_t memory_type, pilhangko_type_statistics *statistics) {
    if (!allocator || !statistics) return PILHANGKO_NULL_POINTER;
    return pilhangko_raw_allocator_type_statistics(allocator, memory_type, statistics);
}

/* The same of all memory types together: the sums, and the longest gap of any; without a budget.
 * NO_HANDLE. */
PILHANGKO_NODISCARD static inline pilhangko_status pilhangko_allocator_statistics(
    const pilhangko_allocator *allocator, pilhangko_type_statistics *statistics) {
    pilhangko_type_statistics all = {0, 0, 0, false, 0, 0, 0, 0, 0}, one;
    pilhangko_status status;
    size_t memory_type = 0;
    if (!allocator || !statistics) return PILHANGKO_NULL_POINTER;
    while ((status = pilhangko_raw_allocator_type_statistics(allocator, memory_type++, &one)) == PILHANGKO_OK) {
        all.capacity += one.capacity;
        all.slots += one.slots;
        all.shared_blocks += one.shared_blocks;
        all.pieces += one.pieces;
        all.piece_bytes += one.piece_bytes;
        all.gaps += one.gaps;
        if (one.longest_gap > all.longest_gap) all.longest_gap = one.longest_gap;
    }
    if (status != PILHANGKO_NO_SUCH_TYPE) return status;
    *statistics = all;
    return PILHANGKO_OK;
}

/* The block in a slot of a memory type, if one is there. Slots are numbered from 0 to one less than type_statistics' slots; behind them
 * there is none.
 * NO_HANDLE. */
PILHANGKO_NODISCARD static inline pilhangko_status pilhangko_allocator_block(
    const pilhangko_allocator *allocator, size_t memory_type, size_t slot, pilhangko_allocator_live_block *block) {
    if (!allocator || !block) return PILHANGKO_NULL_POINTER;
    return pilhangko_raw_allocator_block(allocator, memory_type, slot, block);
}

/* What is counted of the block in a slot.
 * NO_HANDLE. */
PILHANGKO_NODISCARD static inline pilhangko_status pilhangko_allocator_block_statistics(
    const pilhangko_allocator *allocator, size_t memory_type, size_t slot, pilhangko_memory_block_statistics *statistics) {
    if (!allocator || !statistics) return PILHANGKO_NULL_POINTER;
    return pilhangko_raw_allocator_block_statistics(allocator, memory_type, slot, statistics);
}

/* All live pieces of the block in a slot whose own bytes begin at `from` or behind it, in order of offset; none where the slot has no
 * block. One call with room for what block_statistics counts visits them all, in linear time.
 * NO_HANDLE. */
PILHANGKO_NODISCARD static inline pilhangko_status pilhangko_allocator_pieces(const pilhangko_allocator *allocator, size_t memory_type,
    size_t slot, uint64_t from, pilhangko_piece_view *pieces, size_t room, size_t *count) {
    pilhangko_piece_view none;
    if (!allocator || (!pieces && room) || !count) return PILHANGKO_NULL_POINTER;
    return pilhangko_raw_allocator_pieces(allocator, memory_type, slot, from, pieces ? pieces : &none, room, count);
}

/* The names of the pieces of the block in a slot, as with a virtual block.
 * NO_HANDLE. */
PILHANGKO_NODISCARD static inline pilhangko_status pilhangko_allocator_piece_names(const pilhangko_allocator *allocator, size_t memory_type,
    size_t slot, uint64_t from, size_t *lengths, size_t room, char *names, size_t names_room, size_t *count) {
    size_t no_length;
    char no_name;
    if (!allocator || (!lengths && room) || (!names && names_room) || !count) return PILHANGKO_NULL_POINTER;
    return pilhangko_raw_allocator_piece_names(
        allocator, memory_type, slot, from, lengths ? lengths : &no_length, room, names ? names : &no_name, names_room, count);
}

/* The report of what is allocated as JSON (docs/REPORT.md): copies as many bytes of it as there is room for, with no 0 behind them, and
 * reports how many it has. A first call without room tells how much a second one needs.
 * NO_HANDLE. HOST_OUT_OF_MEMORY. */
PILHANGKO_NODISCARD static inline pilhangko_status pilhangko_allocator_report(
    const pilhangko_allocator *allocator, char *text, size_t room, size_t *length) {
    char none;
    if (!allocator || (!text && room) || !length) return PILHANGKO_NULL_POINTER;
    return pilhangko_raw_allocator_report(allocator, text ? text : &none, room, length);
}

/* One live piece's text, as a leak is reported: the pieces have indices from 0, by memory type, then by slot, then in order of offset; past
 * the last one the text is empty. Copies and reports as report does.
 * NO_HANDLE. HOST_OUT_OF_MEMORY. */
PILHANGKO_NODISCARD static inline pilhangko_status pilhangko_allocator_leak(
    const pilhangko_allocator *allocator, size_t index, char *text, size_t room, size_t *length) {
    char none;
    if (!allocator || (!text && room) || !length) return PILHANGKO_NULL_POINTER;
    return pilhangko_raw_allocator_leak(allocator, index, text ? text : &none, room, length);
}

/* Ends an allocator, with all its pieces and the question that is open, and leaves the handle empty. The blocks' memory is the caller's to
 * give back to the driver: go over types and slots by pilhangko_allocator_block first.
 * NO_HANDLE. */
static inline pilhangko_status pilhangko_allocator_destroy(pilhangko_allocator *allocator) {
    if (!allocator) return PILHANGKO_NULL_POINTER;
    return pilhangko_raw_allocator_destroy(allocator);
}

/* Makes an allocator of a device of that resource heap tier, without blocks and committed resources, in an empty handle.
 * IN_USE: the handle isn't empty. INVALID_TIER: the tier is 0. HOST_OUT_OF_MEMORY. */
PILHANGKO_NODISCARD static inline pilhangko_status pilhangko_heaps_create(
    pilhangko_heaps *heaps, const pilhangko_heaps_settings *settings) {
    if (!heaps || !settings) return PILHANGKO_NULL_POINTER;
    return pilhangko_raw_heaps_create(heaps, settings);
}

/* Begins a request: it leads to a piece, or to a question for a heap, which stays open until the answer is told.
 * NO_HANDLE. AWAITS_ANSWER: a question for a heap is open. INVALID: the request or the name. HOST_OUT_OF_MEMORY. And where a heap is
 * needed: OUT_OF_MEMORY: the sum of the blocks' sizes would pass 2^64 - 1. BUDGET_EXCEEDED. */
PILHANGKO_NODISCARD static inline pilhangko_status pilhangko_heaps_begin(
    pilhangko_heaps *heaps, const pilhangko_heaps_request *request, const char *name, pilhangko_heaps_progress *progress) {
    if (!heaps || !request || !progress) return PILHANGKO_NULL_POINTER;
    return pilhangko_raw_heaps_begin(heaps, request, pilhangko_name_bytes(name), pilhangko_name_length(name), progress);
}

/* The driver made the heap that was asked for: says where the piece is; it begins at the heap's start. It needs no host memory, so that a
 * heap which the driver made is never lost. Heaps of live blocks should differ.
 * NO_HANDLE. AWAITS_NO_ANSWER: no question for a heap is open. */
PILHANGKO_NODISCARD static inline pilhangko_status pilhangko_heaps_granted(
    pilhangko_heaps *heaps, uint64_t heap, pilhangko_heaps_piece *piece) {
    if (!heaps || !piece) return PILHANGKO_NULL_POINTER;
    return pilhangko_raw_heaps_granted(heaps, heap, piece);
}

/* The driver made no heap, with this code (HRESULT), or with S_OK and null. progress is the request's refusal: OUT_OF_MEMORY for
 * E_OUTOFMEMORY, DRIVER_REFUSED for another code. There is no second attempt.
 * NO_HANDLE. AWAITS_NO_ANSWER. */
PILHANGKO_NODISCARD static inline pilhangko_status pilhangko_heaps_refused(
    pilhangko_heaps *heaps, int32_t code, pilhangko_heaps_progress *progress) {
    if (!heaps || !progress) return PILHANGKO_NULL_POINTER;
    return pilhangko_raw_heaps_refused(heaps, code, progress);
}

/* Frees a piece. Where back->exists, the heap back->block goes back to the driver. It needs no host memory.
 * NO_HANDLE. AWAITS_ANSWER. NOT_LIVE. */
PILHANGKO_NODISCARD static inline pilhangko_status pilhangko_heaps_free(
    pilhangko_heaps *heaps, const pilhangko_heaps_piece *piece, pilhangko_memory_block *back) {
    if (!heaps || !piece || !back) return PILHANGKO_NULL_POINTER;
    return pilhangko_raw_heaps_free(heaps, piece, back);
}

/* Looks for a second place for a live piece: the place that this request, the one that it was made for, would get as a new piece now, if that
 * lies in a block of a higher slot. *moves says whether there is one, and *to is the piece there; no heap is asked for. Then both pieces are
 * live: copy what lies at the first, and free it, which ends the move; or free the second, which abandons it. Where there is none the piece
 * stays where it is, and *to is all zeros. The request's location and category aren't looked at.
 * NO_HANDLE. AWAITS_ANSWER. INVALID: the request or the name, or a size that isn't the piece's. NOT_LIVE.
 * HOST_OUT_OF_MEMORY. */
PILHANGKO_NODISCARD static inline pilhangko_status pilhangko_heaps_propose_move(pilhangko_heaps *heaps, const pilhangko_heaps_piece *piece,
    const pilhangko_heaps_request *request, const char *name, bool *moves, pilhangko_heaps_piece *to) {
    if (!heaps || !piece || !request || !moves || !to) return PILHANGKO_NULL_POINTER;
    return pilhangko_raw_heaps_propose_move(heaps, piece, request, pilhangko_name_bytes(name), pilhangko_name_length(name), moves, to);
}

/* Renames a live piece.
 * NO_HANDLE. AWAITS_ANSWER. INVALID: the name. NOT_LIVE. HOST_OUT_OF_MEMORY. */
PILHANGKO_NODISCARD static inline pilhangko_status pilhangko_heaps_rename(
    pilhangko_heaps *heaps, const pilhangko_heaps_piece *piece, const char *name) {
    if (!heaps || !piece) return PILHANGKO_NULL_POINTER;
    return pilhangko_raw_heaps_rename(heaps, piece, pilhangko_name_bytes(name), pilhangko_name_length(name));
}

/* Keeps a word of the caller's with a live piece, as with a virtual block.
 * NO_HANDLE. AWAITS_ANSWER. NOT_LIVE. */
PILHANGKO_NODISCARD static inline pilhangko_status pilhangko_heaps_set_word(
    pilhangko_heaps *heaps, const pilhangko_heaps_piece *piece, uint64_t word) {
    if (!heaps || !piece) return PILHANGKO_NULL_POINTER;
    return pilhangko_raw_heaps_set_word(heaps, piece, word);
}

/* Whether a piece is live.
 * NO_HANDLE. */
PILHANGKO_NODISCARD static inline pilhangko_status pilhangko_heaps_is_live(
    const pilhangko_heaps *heaps, const pilhangko_heaps_piece *piece, bool *is_live) {
    if (!heaps || !piece || !is_live) return PILHANGKO_NULL_POINTER;
    return pilhangko_raw_heaps_is_live(heaps, piece, is_live);
}

/* A committed resource of this size, as the driver tells it, is wanted: all host memory for its record is at hand, and the question is
 * open. Ask the driver, and then call made or not_made. A question for a heap may be open beside it.
 * NO_HANDLE. AWAITS_ANSWER: a committed resource is asked for. INVALID: location or category. OUT_OF_MEMORY: the sum of its memory type's
 * sizes would pass 2^64 - 1. HOST_OUT_OF_MEMORY. */
PILHANGKO_NODISCARD static inline pilhangko_status pilhangko_heaps_begin_committed(
    pilhangko_heaps *heaps, uint64_t size, pilhangko_location location, pilhangko_category category) {
    if (!heaps) return PILHANGKO_NULL_POINTER;
    return pilhangko_raw_heaps_begin_committed(heaps, size, location, category);
}

/* The driver made the committed resource that was asked for: says what is recorded of it. It needs no host memory.
 * NO_HANDLE. AWAITS_NO_ANSWER: no committed resource is asked for. */
PILHANGKO_NODISCARD static inline pilhangko_status pilhangko_heaps_made(
    pilhangko_heaps *heaps, uint64_t resource, pilhangko_heaps_committed *committed) {
    if (!heaps || !committed) return PILHANGKO_NULL_POINTER;
    return pilhangko_raw_heaps_made(heaps, resource, committed);
}

/* The driver made no committed resource: nothing is left of the request.
 * NO_HANDLE. AWAITS_NO_ANSWER: no committed resource is asked for. */
PILHANGKO_NODISCARD static inline pilhangko_status pilhangko_heaps_not_made(pilhangko_heaps *heaps) {
    if (!heaps) return PILHANGKO_NULL_POINTER;
    return pilhangko_raw_heaps_not_made(heaps);
}

/* Forgets a committed resource, which the caller releases. It needs no host memory.
 * NO_HANDLE. AWAITS_ANSWER: a committed resource is asked for. NOT_LIVE: no record is the same in all three. */
PILHANGKO_NODISCARD static inline pilhangko_status pilhangko_heaps_forget_committed(
    pilhangko_heaps *heaps, const pilhangko_heaps_committed *committed) {
    if (!heaps || !committed) return PILHANGKO_NULL_POINTER;
    return pilhangko_raw_heaps_forget_committed(heaps, committed);
}

/* What is counted of a memory type's committed resources.
 * NO_HANDLE. NO_SUCH_TYPE. */
PILHANGKO_NODISCARD static inline pilhangko_status pilhangko_heaps_committed_of(
    const pilhangko_heaps *heaps, size_t memory_type, pilhangko_heaps_committed_statistics *statistics) {
    if (!heaps || !statistics) return PILHANGKO_NULL_POINTER;
    return pilhangko_raw_heaps_committed_of(heaps, memory_type, statistics);
}

/* By which call a resource is made, by the device's newest interface, and whether the resource begins in a barrier layout and has castable
 * formats. It has no handle.
 * INVALID: no interface has that version. FORMATS_NEED_LAYOUT. FORMATS_NEED_DEVICE12. LAYOUT_NEEDS_DEVICE10. */
PILHANGKO_NODISCARD static inline pilhangko_status pilhangko_heaps_choose_call(
    pilhangko_device_version version, bool in_layout, bool has_formats, pilhangko_create_call *call) {
    if (!call) return PILHANGKO_NULL_POINTER;
    return pilhangko_raw_heaps_choose_call(version, in_layout, has_formats, call);
}

/* How many memory types there are: 3, for GPU_ONLY, CPU_TO_GPU and GPU_TO_CPU, or 9 at tier 1, where each of them has one for buffers, one
 * for render targets and depth stencils, and one for other textures.
 * NO_HANDLE. */
PILHANGKO_NODISCARD static inline pilhangko_status pilhangko_heaps_type_count(const pilhangko_heaps *heaps, size_t *count) {
    if (!heaps || !count) return PILHANGKO_NULL_POINTER;
    return pilhangko_raw_heaps_type_count(heaps, count);
}

/* Bounds the sum of the sizes of a memory type's blocks, or takes the bound away. A bound below the present sum gives no block back.
 * NO_HANDLE. AWAITS_ANSWER: a question for a heap is open. NO_SUCH_TYPE. */
PILHANGKO_NODISCARD static inline pilhangko_status pilhangko_heaps_set_budget(
    pilhangko_heaps *heaps, size_t memory_type, bool has_budget, uint64_t bytes) {
    if (!heaps) return PILHANGKO_NULL_POINTER;
    return pilhangko_raw_heaps_set_budget(heaps, memory_type, has_budget, bytes);
}

/* The budget of a memory type; none where it has none, or isn't there.
 * NO_HANDLE. */
PILHANGKO_NODISCARD static inline pilhangko_status pilhangko_heaps_budget(
    const pilhangko_heaps *heaps, size_t memory_type, pilhangko_budget *budget) {
    if (!heaps || !budget) return PILHANGKO_NULL_POINTER;
    return pilhangko_raw_heaps_budget(heaps, memory_type, budget);
}

/* The sum of the sizes of the live blocks. A block that is awaited isn't one, and a committed resource isn't either.
 * NO_HANDLE. */
PILHANGKO_NODISCARD static inline pilhangko_status pilhangko_heaps_capacity(
    const pilhangko_heaps *heaps, uint64_t *bytes) {
    if (!heaps || !bytes) return PILHANGKO_NULL_POINTER;
    return pilhangko_raw_heaps_capacity(heaps, bytes);
}

/* The sum of the sizes of a memory type's blocks.
 * NO_HANDLE. NO_SUCH_TYPE. */
PILHANGKO_NODISCARD static inline pilhangko_status pilhangko_heaps_type_capacity(
    const pilhangko_heaps *heaps, size_t memory_type, uint64_t *bytes) {
    if (!heaps || !bytes) return PILHANGKO_NULL_POINTER;
    return pilhangko_raw_heaps_type_capacity(heaps, memory_type, bytes);
}

/* What is counted of a memory type, in linear time. Memory types are numbered from 0 up to the first NO_SUCH_TYPE.
 * NO_HANDLE. NO_SUCH_TYPE. */
PILHANGKO_NODISCARD static inline pilhangko_status pilhangko_heaps_type_statistics(
    const pilhangko_heaps *heaps, size_t memory_type, pilhangko_type_statistics *statistics) {
    if (!heaps || !statistics) return PILHANGKO_NULL_POINTER;
    return pilhangko_raw_heaps_type_statistics(heaps, memory_type, statistics);
}

/* The same of all memory types together: the sums, and the longest gap of any; without a budget.
 * NO_HANDLE. */
PILHANGKO_NODISCARD static inline pilhangko_status pilhangko_heaps_statistics(
    const pilhangko_heaps *heaps, pilhangko_type_statistics *statistics) {
    pilhangko_type_statistics all = {0, 0, 0, false, 0, 0, 0, 0, 0}, one;
    pilhangko_status status;
    size_t memory_type = 0;
    if (!heaps || !statistics) return PILHANGKO_NULL_POINTER;
    while ((status = pilhangko_raw_heaps_type_statistics(heaps, memory_type++, &one)) == PILHANGKO_OK) {
        all.capacity += one.capacity;
        all.slots += one.slots;
        all.shared_blocks += one.shared_blocks;
        all.pieces += one.pieces;
        all.piece_bytes += one.piece_bytes;
        all.gaps += one.gaps;
        if (one.longest_gap > all.longest_gap) all.longest_gap = one.longest_gap;
    }
    if (status != PILHANGKO_NO_SUCH_TYPE) return status;
    *statistics = all;
    return PILHANGKO_OK;
}

/* The heap of the block in a slot of a memory type, if one is there. Slots are numbered from 0 to one less than type_statistics' slots; behind them
 * there is none.
 * NO_HANDLE. */
PILHANGKO_NODISCARD static inline pilhangko_status pilhangko_heaps_block(
    const pilhangko_heaps *heaps, size_t memory_type, size_t slot, pilhangko_memory_block *block) {
    if (!heaps || !block) return PILHANGKO_NULL_POINTER;
    return pilhangko_raw_heaps_block(heaps, memory_type, slot, block);
}

/* What is counted of the block in a slot.
 * NO_HANDLE. */
PILHANGKO_NODISCARD static inline pilhangko_status pilhangko_heaps_block_statistics(
    const pilhangko_heaps *heaps, size_t memory_type, size_t slot, pilhangko_memory_block_statistics *statistics) {
    if (!heaps || !statistics) return PILHANGKO_NULL_POINTER;
    return pilhangko_raw_heaps_block_statistics(heaps, memory_type, slot, statistics);
}

/* All live pieces of the block in a slot whose own bytes begin at `from` or behind it, in order of offset; none where the slot has no
 * block. One call with room for what block_statistics counts visits them all, in linear time.
 * NO_HANDLE. */
PILHANGKO_NODISCARD static inline pilhangko_status pilhangko_heaps_pieces(const pilhangko_heaps *heaps, size_t memory_type,
    size_t slot, uint64_t from, pilhangko_piece_view *pieces, size_t room, size_t *count) {
    pilhangko_piece_view none;
    if (!heaps || (!pieces && room) || !count) return PILHANGKO_NULL_POINTER;
    return pilhangko_raw_heaps_pieces(heaps, memory_type, slot, from, pieces ? pieces : &none, room, count);
}

/* The names of the pieces of the block in a slot, as with a virtual block.
 * NO_HANDLE. */
PILHANGKO_NODISCARD static inline pilhangko_status pilhangko_heaps_piece_names(const pilhangko_heaps *heaps, size_t memory_type,
    size_t slot, uint64_t from, size_t *lengths, size_t room, char *names, size_t names_room, size_t *count) {
    size_t no_length;
    char no_name;
    if (!heaps || (!lengths && room) || (!names && names_room) || !count) return PILHANGKO_NULL_POINTER;
    return pilhangko_raw_heaps_piece_names(
        heaps, memory_type, slot, from, lengths ? lengths : &no_length, room, names ? names : &no_name, names_room, count);
}

/* The report of what is allocated as JSON (docs/REPORT.md): copies as many bytes of it as there is room for, with no 0 behind them, and
 * reports how many it has. A first call without room tells how much a second one needs.
 * NO_HANDLE. HOST_OUT_OF_MEMORY. */
PILHANGKO_NODISCARD static inline pilhangko_status pilhangko_heaps_report(
    const pilhangko_heaps *heaps, char *text, size_t room, size_t *length) {
    char none;
    if (!heaps || (!text && room) || !length) return PILHANGKO_NULL_POINTER;
    return pilhangko_raw_heaps_report(heaps, text ? text : &none, room, length);
}

/* One live piece's text, as a leak is reported: the pieces have indices from 0, by memory type, then by slot, then in order of offset; past
 * the last one the text is empty. Copies and reports as report does.
 * NO_HANDLE. HOST_OUT_OF_MEMORY. */
PILHANGKO_NODISCARD static inline pilhangko_status pilhangko_heaps_leak(
    const pilhangko_heaps *heaps, size_t index, char *text, size_t room, size_t *length) {
    char none;
    if (!heaps || (!text && room) || !length) return PILHANGKO_NULL_POINTER;
    return pilhangko_raw_heaps_leak(heaps, index, text ? text : &none, room, length);
}

/* Ends an allocator, with all its pieces, records and open questions, and leaves the handle empty. Heaps and committed resources are the
 * caller's to release: go over types and slots by pilhangko_heaps_block first.
 * NO_HANDLE. */
static inline pilhangko_status pilhangko_heaps_destroy(pilhangko_heaps *heaps) {
    if (!heaps) return PILHANGKO_NULL_POINTER;
    return pilhangko_raw_heaps_destroy(heaps);
}

/* Makes an allocator without blocks in an empty handle.
 * IN_USE: the handle isn't empty. HOST_OUT_OF_MEMORY. */
PILHANGKO_NODISCARD static inline pilhangko_status pilhangko_metal_heaps_create(
    pilhangko_metal_heaps *heaps, const pilhangko_metal_heaps_settings *settings) {
    if (!heaps || !settings) return PILHANGKO_NULL_POINTER;
    return pilhangko_raw_metal_heaps_create(heaps, settings);
}

/* Begins a request: it leads to a piece, or to a question for a heap, which stays open until the answer is told.
 * NO_HANDLE. AWAITS_ANSWER: a question is open. INVALID: the request or the name. HOST_OUT_OF_MEMORY. And where a heap is
 * needed: OUT_OF_MEMORY: the sum of the blocks' sizes would pass 2^64 - 1. BUDGET_EXCEEDED. */
PILHANGKO_NODISCARD static inline pilhangko_status pilhangko_metal_heaps_begin(
    pilhangko_metal_heaps *heaps, const pilhangko_metal_heaps_request *request, const char *name, pilhangko_metal_heaps_progress *progress) {
    if (!heaps || !request || !progress) return PILHANGKO_NULL_POINTER;
    return pilhangko_raw_metal_heaps_begin(heaps, request, pilhangko_name_bytes(name), pilhangko_name_length(name), progress);
}

/* The device made the heap that was asked for: says where the piece is, at the heap's start, and whether the heap joins the residency set.
 * It needs no host memory, so that a heap which the device made is never lost. Heaps of live blocks should differ.
 * NO_HANDLE. AWAITS_NO_ANSWER: no question is open. */
PILHANGKO_NODISCARD static inline pilhangko_status pilhangko_metal_heaps_granted(
    pilhangko_metal_heaps *heaps, uint64_t heap, pilhangko_metal_heaps_grant *grant) {
    if (!heaps || !grant) return PILHANGKO_NULL_POINTER;
    return pilhangko_raw_metal_heaps_granted(heaps, heap, grant);
}

/* The device made no heap. progress is the request's refusal: DRIVER_REFUSED. There is no second attempt.
 * NO_HANDLE. AWAITS_NO_ANSWER. */
PILHANGKO_NODISCARD static inline pilhangko_status pilhangko_metal_heaps_refused(
    pilhangko_metal_heaps *heaps, pilhangko_metal_heaps_progress *progress) {
    if (!heaps || !progress) return PILHANGKO_NULL_POINTER;
    return pilhangko_raw_metal_heaps_refused(heaps, progress);
}

/* Frees a piece. Where back->exists, the heap back->heap goes back to the device; where back->leaves, it leaves the residency set before. It
 * needs no host memory.
 * NO_HANDLE. AWAITS_ANSWER. NOT_LIVE. */
PILHANGKO_NODISCARD static inline pilhangko_status pilhangko_metal_heaps_free(
    pilhangko_metal_heaps *heaps, const pilhangko_heaps_piece *piece, pilhangko_metal_heap *back) {
    if (!heaps || !piece || !back) return PILHANGKO_NULL_POINTER;
    return pilhangko_raw_metal_heaps_free(heaps, piece, back);
}

/* Looks for a second place for a live piece: the place that this request, the one that it was made for, would get as a new piece now, if that
 * lies in a block of a higher slot. *moves says whether there is one, and *to is the piece there; no heap is asked for. Then both pieces are
 * live: copy what lies at the first, and free it, which ends the move; or free the second, which abandons it. Where there is none the piece
 * stays where it is, and *to is all zeros. The request's location isn't looked at.
 * NO_HANDLE. AWAITS_ANSWER. INVALID: the request or the name, or a size that isn't the piece's. NOT_LIVE.
 * HOST_OUT_OF_MEMORY. */
PILHANGKO_NODISCARD static inline pilhangko_status pilhangko_metal_heaps_propose_move(pilhangko_metal_heaps *heaps,
    const pilhangko_heaps_piece *piece, const pilhangko_metal_heaps_request *request, const char *name, bool *moves,
    pilhangko_heaps_piece *to) {
    if (!heaps || !piece || !request || !moves || !to) return PILHANGKO_NULL_POINTER;
    return pilhangko_raw_metal_heaps_propose_move(heaps, piece, request, pilhangko_name_bytes(name), pilhangko_name_length(name), moves, to);
}

/* Renames a live piece.
 * NO_HANDLE. AWAITS_ANSWER. INVALID: the name. NOT_LIVE. HOST_OUT_OF_MEMORY. */
PILHANGKO_NODISCARD static inline pilhangko_status pilhangko_metal_heaps_rename(
    pilhangko_metal_heaps *heaps, const pilhangko_heaps_piece *piece, const char *name) {
    if (!heaps || !piece) return PILHANGKO_NULL_POINTER;
    return pilhangko_raw_metal_heaps_rename(heaps, piece, pilhangko_name_bytes(name), pilhangko_name_length(name));
}

/* Keeps a word of the caller's with a live piece, as with a virtual block.
 * NO_HANDLE. AWAITS_ANSWER. NOT_LIVE. */
PILHANGKO_NODISCARD static inline pilhangko_status pilhangko_metal_heaps_set_word(
    pilhangko_metal_heaps *heaps, const pilhangko_heaps_piece *piece, uint64_t word) {
    if (!heaps || !piece) return PILHANGKO_NULL_POINTER;
    return pilhangko_raw_metal_heaps_set_word(heaps, piece, word);
}

/* Whether a piece is live.
 * NO_HANDLE. */
PILHANGKO_NODISCARD static inline pilhangko_status pilhangko_metal_heaps_is_live(
    const pilhangko_metal_heaps *heaps, const pilhangko_heaps_piece *piece, bool *is_live) {
    if (!heaps || !piece || !is_live) return PILHANGKO_NULL_POINTER;
    return pilhangko_raw_metal_heaps_is_live(heaps, piece, is_live);
}

/* Bounds the sum of the sizes of a memory type's blocks, or takes the bound away. A bound below the present sum gives no block back.
 * NO_HANDLE. AWAITS_ANSWER: a question is open. NO_SUCH_TYPE. */
PILHANGKO_NODISCARD static inline pilhangko_status pilhangko_metal_heaps_set_budget(
    pilhangko_metal_heaps *heaps, size_t memory_type, bool has_budget, uint64_t bytes) {
    if (!heaps) return PILHANGKO_NULL_POINTER;
    return pilhangko_raw_metal_heaps_set_budget(heaps, memory_type, has_budget, bytes);
}

/* The budget of a memory type; none where it has none, or isn't there.
 * NO_HANDLE. */
PILHANGKO_NODISCARD static inline pilhangko_status pilhangko_metal_heaps_budget(
    const pilhangko_metal_heaps *heaps, size_t memory_type, pilhangko_budget *budget) {
    if (!heaps || !budget) return PILHANGKO_NULL_POINTER;
    return pilhangko_raw_metal_heaps_budget(heaps, memory_type, budget);
}

/* The sum of the sizes of the live blocks. A block that is awaited isn't one.
 * NO_HANDLE. */
PILHANGKO_NODISCARD static inline pilhangko_status pilhangko_metal_heaps_capacity(
    const pilhangko_metal_heaps *heaps, uint64_t *bytes) {
    if (!heaps || !bytes) return PILHANGKO_NULL_POINTER;
    return pilhangko_raw_metal_heaps_capacity(heaps, bytes);
}

/* The sum of the sizes of a memory type's blocks.
 * NO_HANDLE. NO_SUCH_TYPE. */
PILHANGKO_NODISCARD static inline pilhangko_status pilhangko_metal_heaps_type_capacity(
    const pilhangko_metal_heaps *heaps, size_t memory_type, uint64_t *bytes) {
    if (!heaps || !bytes) return PILHANGKO_NULL_POINTER;
    return pilhangko_raw_metal_heaps_type_capacity(heaps, memory_type, bytes);
}

/* What is counted of a memory type, in linear time. Memory types are numbered from 0 up to the first NO_SUCH_TYPE.
 * NO_HANDLE. NO_SUCH_TYPE. */
PILHANGKO_NODISCARD static inline pilhangko_status pilhangko_metal_heaps_type_statistics(
    const pilhangko_metal_heaps *heaps, size_t memory_type, pilhangko_type_statistics *statistics) {
    if (!heaps || !statistics) return PILHANGKO_NULL_POINTER;
    return pilhangko_raw_metal_heaps_type_statistics(heaps, memory_type, statistics);
}

/* The same of all memory types together: the sums, and the longest gap of any; without a budget.
 * NO_HANDLE. */
PILHANGKO_NODISCARD static inline pilhangko_status pilhangko_metal_heaps_statistics(
    const pilhangko_metal_heaps *heaps, pilhangko_type_statistics *statistics) {
    pilhangko_type_statistics all = {0, 0, 0, false, 0, 0, 0, 0, 0}, one;
    pilhangko_status status;
    size_t memory_type = 0;
    if (!heaps || !statistics) return PILHANGKO_NULL_POINTER;
    while ((status = pilhangko_raw_metal_heaps_type_statistics(heaps, memory_type++, &one)) == PILHANGKO_OK) {
        all.capacity += one.capacity;
        all.slots += one.slots;
        all.shared_blocks += one.shared_blocks;
        all.pieces += one.pieces;
        all.piece_bytes += one.piece_bytes;
        all.gaps += one.gaps;
        if (one.longest_gap > all.longest_gap) all.longest_gap = one.longest_gap;
    }
    if (status != PILHANGKO_NO_SUCH_TYPE) return status;
    *statistics = all;
    return PILHANGKO_OK;
}

/* The heap of the block in a slot of a memory type, if one is there. Slots are numbered from 0 to one less than type_statistics' slots; behind them
 * there is none.
 * NO_HANDLE. */
PILHANGKO_NODISCARD static inline pilhangko_status pilhangko_metal_heaps_block(
    const pilhangko_metal_heaps *heaps, size_t memory_type, size_t slot, pilhangko_metal_heap *block) {
    if (!heaps || !block) return PILHANGKO_NULL_POINTER;
    return pilhangko_raw_metal_heaps_block(heaps, memory_type, slot, block);
}

/* What is counted of the block in a slot.
 * NO_HANDLE. */
PILHANGKO_NODISCARD static inline pilhangko_status pilhangko_metal_heaps_block_statistics(
    const pilhangko_metal_heaps *heaps, size_t memory_type, size_t slot, pilhangko_memory_block_statistics *statistics) {
    if (!heaps || !statistics) return PILHANGKO_NULL_POINTER;
    return pilhangko_raw_metal_heaps_block_statistics(heaps, memory_type, slot, statistics);
}

/* All live pieces of the block in a slot whose own bytes begin at `from` or behind it, in order of offset; none where the slot has no
 * block. One call with room for what block_statistics counts visits them all, in linear time.
 * NO_HANDLE. */
PILHANGKO_NODISCARD static inline pilhangko_status pilhangko_metal_heaps_pieces(const pilhangko_metal_heaps *heaps, size_t memory_type,
    size_t slot, uint64_t from, pilhangko_piece_view *pieces, size_t room, size_t *count) {
    pilhangko_piece_view none;
    if (!heaps || (!pieces && room) || !count) return PILHANGKO_NULL_POINTER;
    return pilhangko_raw_metal_heaps_pieces(heaps, memory_type, slot, from, pieces ? pieces : &none, room, count);
}

/* The names of the pieces of the block in a slot, as with a virtual block.
 * NO_HANDLE. */
PILHANGKO_NODISCARD static inline pilhangko_status pilhangko_metal_heaps_piece_names(const pilhangko_metal_heaps *heaps, size_t memory_type,
    size_t slot, uint64_t from, size_t *lengths, size_t room, char *names, size_t names_room, size_t *count) {
    size_t no_length;
    char no_name;
    if (!heaps || (!lengths && room) || (!names && names_room) || !count) return PILHANGKO_NULL_POINTER;
    return pilhangko_raw_metal_heaps_piece_names(
        heaps, memory_type, slot, from, lengths ? lengths : &no_length, room, names ? names : &no_name, names_room, count);
}

/* The report of what is allocated as JSON (docs/REPORT.md): copies as many bytes of it as there is room for, with no 0 behind them, and
 * reports how many it has. A first call without room tells how much a second one needs.
 * NO_HANDLE. HOST_OUT_OF_MEMORY. */
PILHANGKO_NODISCARD static inline pilhangko_status pilhangko_metal_heaps_report(
    const pilhangko_metal_heaps *heaps, char *text, size_t room, size_t *length) {
    char none;
    if (!heaps || (!text && room) || !length) return PILHANGKO_NULL_POINTER;
    return pilhangko_raw_metal_heaps_report(heaps, text ? text : &none, room, length);
}

/* One live piece's text, as a leak is reported: the pieces have indices from 0, by memory type, then by slot, then in order of offset; past
 * the last one the text is empty. Copies and reports as report does.
 * NO_HANDLE. HOST_OUT_OF_MEMORY. */
PILHANGKO_NODISCARD static inline pilhangko_status pilhangko_metal_heaps_leak(
    const pilhangko_metal_heaps *heaps, size_t index, char *text, size_t room, size_t *length) {
    char none;
    if (!heaps || (!text && room) || !length) return PILHANGKO_NULL_POINTER;
    return pilhangko_raw_metal_heaps_leak(heaps, index, text ? text : &none, room, length);
}

/* Ends an allocator, with all its pieces and the question that is open, and leaves the handle empty. Heaps are the caller's to release: go
 * over types and slots by pilhangko_metal_heaps_block first.
 * NO_HANDLE. */
static inline pilhangko_status pilhangko_metal_heaps_destroy(pilhangko_metal_heaps *heaps) {
    if (!heaps) return PILHANGKO_NULL_POINTER;
    return pilhangko_raw_metal_heaps_destroy(heaps);
}

/* Begins the capture of an allocator that is made of these memory types, heaps and settings, in an empty handle. Where a count is 0, its
 * pointer may be NULL.
 * IN_USE: the handle isn't empty. HOST_OUT_OF_MEMORY. */
PILHANGKO_NODISCARD static inline pilhangko_status pilhangko_capture_of_allocator(pilhangko_capture *capture,
    const pilhangko_device_memory_type *types, size_t type_count, const pilhangko_device_heap *heaps, size_t heap_count,
    const pilhangko_allocator_settings *settings) {
    pilhangko_device_memory_type no_type = {0, 0};
    pilhangko_device_heap no_heap = {0, 0};
    if (!capture || (!types && type_count) || (!heaps && heap_count) || !settings) return PILHANGKO_NULL_POINTER;
    return pilhangko_raw_capture_of_allocator(capture, types ? types : &no_type, type_count, heaps ? heaps : &no_heap, heap_count, settings);
}

/* Begins the capture of an allocator of DirectX 12's memory that is made with these settings, in an empty handle.
 * IN_USE: the handle isn't empty. INVALID_TIER: the heap tier is 0. HOST_OUT_OF_MEMORY. */
PILHANGKO_NODISCARD static inline pilhangko_status pilhangko_capture_of_heaps(
    pilhangko_capture *capture, const pilhangko_heaps_settings *settings) {
    if (!capture || !settings) return PILHANGKO_NULL_POINTER;
    return pilhangko_raw_capture_of_heaps(capture, settings);
}

/* Begins the capture of an allocator of Metal's memory that is made with these settings, in an empty handle. Its residency set is question 1.
 * IN_USE: the handle isn't empty. HOST_OUT_OF_MEMORY. */
PILHANGKO_NODISCARD static inline pilhangko_status pilhangko_capture_of_metal_heaps(
    pilhangko_capture *capture, const pilhangko_metal_heaps_settings *settings) {
    if (!capture || !settings) return PILHANGKO_NULL_POINTER;
    return pilhangko_raw_capture_of_metal_heaps(capture, settings);
}

/* An allocation was asked for, which is called by this number in the trace, whether it was refused or not, and the driver answered these
 * questions in this order. What the host refused memory for, and what is INVALID, changed nothing: keep no such call. A name has at most 64
 * bytes in a trace, and `_` for each one that isn't printed and for an empty name. Where answer_count is 0, answers may be NULL.
 * NO_HANDLE. INVALID: the request or the name. */
PILHANGKO_NODISCARD static inline pilhangko_status pilhangko_capture_allocator_allocated(pilhangko_capture *capture,
    uint64_t number, const pilhangko_allocator_request *request, const char *name, const pilhangko_capture_answer *answers,
    size_t answer_count) {
    pilhangko_capture_answer none = {false, 0};
    if (!capture || !request || (!answers && answer_count)) return PILHANGKO_NULL_POINTER;
    return pilhangko_raw_capture_allocator_allocated(
        capture, number, request, pilhangko_name_bytes(name), pilhangko_name_length(name), answers ? answers : &none, answer_count);
}

/* As pilhangko_capture_allocator_allocated.
 * NO_HANDLE. INVALID: the request or the name. */
PILHANGKO_NODISCARD static inline pilhangko_status pilhangko_capture_heaps_allocated(pilhangko_capture *capture,
    uint64_t number, const pilhangko_heaps_request *request, const char *name, const pilhangko_capture_answer *answers,
    size_t answer_count) {
    pilhangko_capture_answer none = {false, 0};
    if (!capture || !request || (!answers && answer_count)) return PILHANGKO_NULL_POINTER;
    return pilhangko_raw_capture_heaps_allocated(
        capture, number, request, pilhangko_name_bytes(name), pilhangko_name_length(name), answers ? answers : &none, answer_count);
}

/* As pilhangko_capture_allocator_allocated.
 * NO_HANDLE. INVALID: the request or the name. */
PILHANGKO_NODISCARD static inline pilhangko_status pilhangko_capture_metal_heaps_allocated(pilhangko_capture *capture,
    uint64_t number, const pilhangko_metal_heaps_request *request, const char *name, const pilhangko_capture_answer *answers,
    size_t answer_count) {
    pilhangko_capture_answer none = {false, 0};
    if (!capture || !request || (!answers && answer_count)) return PILHANGKO_NULL_POINTER;
    return pilhangko_raw_capture_metal_heaps_allocated(
        capture, number, request, pilhangko_name_bytes(name), pilhangko_name_length(name), answers ? answers : &none, answer_count);
}

/* A committed resource was asked for, as pilhangko_capture_heaps_allocated. The trace makes it as a buffer of whole units of 65,536 bytes, where 64
 * bits hold them. Its alignment and its name may be any, since no allocator is told them.
 * NO_HANDLE. INVALID: location or category. */
PILHANGKO_NODISCARD static inline pilhangko_status pilhangko_capture_heaps_committed(pilhangko_capture *capture,
    uint64_t number, const pilhangko_heaps_request *request, const char *name, const pilhangko_capture_answer *answers,
    size_t answer_count) {
    pilhangko_capture_answer none = {false, 0};
    if (!capture || !request || (!answers && answer_count)) return PILHANGKO_NULL_POINTER;
    return pilhangko_raw_capture_heaps_committed(
        capture, number, request, pilhangko_name_bytes(name), pilhangko_name_length(name), answers ? answers : &none, answer_count);
}

/* A second place was asked for of the allocation `from`; where there is one, it is called `to`.
 * NO_HANDLE. INVALID: the request or the name. */
PILHANGKO_NODISCARD static inline pilhangko_status pilhangko_capture_allocator_moved(
    pilhangko_capture *capture, uint64_t from, uint64_t to, const pilhangko_allocator_request *request, const char *name) {
    if (!capture || !request) return PILHANGKO_NULL_POINTER;
    return pilhangko_raw_capture_allocator_moved(capture, from, to, request, pilhangko_name_bytes(name), pilhangko_name_length(name));
}

/* As pilhangko_capture_allocator_moved.
 * NO_HANDLE. INVALID: the request or the name. */
PILHANGKO_NODISCARD static inline pilhangko_status pilhangko_capture_heaps_moved(
    pilhangko_capture *capture, uint64_t from, uint64_t to, const pilhangko_heaps_request *request, const char *name) {
    if (!capture || !request) return PILHANGKO_NULL_POINTER;
    return pilhangko_raw_capture_heaps_moved(capture, from, to, request, pilhangko_name_bytes(name), pilhangko_name_length(name));
}

/* As pilhangko_capture_allocator_moved.
 * NO_HANDLE. INVALID: the request or the name. */
PILHANGKO_NODISCARD static inline pilhangko_status pilhangko_capture_metal_heaps_moved(
    pilhangko_capture *capture, uint64_t from, uint64_t to, const pilhangko_metal_heaps_request *request, const char *name) {
    if (!capture || !request) return PILHANGKO_NULL_POINTER;
    return pilhangko_raw_capture_metal_heaps_moved(capture, from, to, request, pilhangko_name_bytes(name), pilhangko_name_length(name));
}

/* An allocation is freed.
 * NO_HANDLE. */
PILHANGKO_NODISCARD static inline pilhangko_status pilhangko_capture_freed(pilhangko_capture *capture, uint64_t number) {
    if (!capture) return PILHANGKO_NULL_POINTER;
    return pilhangko_raw_capture_freed(capture, number);
}

/* A committed resource is released.
 * NO_HANDLE. */
PILHANGKO_NODISCARD static inline pilhangko_status pilhangko_capture_released(pilhangko_capture *capture, uint64_t number) {
    if (!capture) return PILHANGKO_NULL_POINTER;
    return pilhangko_raw_capture_released(capture, number);
}

/* An allocation has a new name; a Metal trace has no such line, and can't be read with it.
 * NO_HANDLE. */
PILHANGKO_NODISCARD static inline pilhangko_status pilhangko_capture_renamed(
    pilhangko_capture *capture, uint64_t number, const char *name) {
    if (!capture) return PILHANGKO_NULL_POINTER;
    return pilhangko_raw_capture_renamed(capture, number, pilhangko_name_bytes(name), pilhangko_name_length(name));
}

/* The residency set is committed.
 * NO_HANDLE. */
PILHANGKO_NODISCARD static inline pilhangko_status pilhangko_capture_set_committed(pilhangko_capture *capture) {
    if (!capture) return PILHANGKO_NULL_POINTER;
    return pilhangko_raw_capture_set_committed(capture);
}

/* A memory type has this budget from now on, or none. A line is written where it is another one than the trace has.
 * NO_HANDLE. NO_SUCH_TYPE: from the 33rd on. */
PILHANGKO_NODISCARD static inline pilhangko_status pilhangko_capture_bounded(
    pilhangko_capture *capture, size_t memory_type, bool has_budget, uint64_t bytes) {
    if (!capture) return PILHANGKO_NULL_POINTER;
    return pilhangko_raw_capture_bounded(capture, memory_type, has_budget, bytes);
}

/* How far it goes.
 * NO_HANDLE. */
PILHANGKO_NODISCARD static inline pilhangko_status pilhangko_capture_how_far(const pilhangko_capture *capture, pilhangko_capture_end *end) {
    if (!capture || !end) return PILHANGKO_NULL_POINTER;
    return pilhangko_raw_capture_how_far(capture, end);
}

/* Copies the trace from its byte `from` on, as much as there is room for, and says how many bytes that are: 0 where it has no more. Where the
 * allocator is gone, its last line is `destroy`. Without room, bytes may be NULL.
 * NO_HANDLE. */
PILHANGKO_NODISCARD static inline pilhangko_status pilhangko_capture_text(
    const pilhangko_capture *capture, bool is_destroyed, size_t from, char *bytes, size_t room, size_t *count) {
    char none;
    if (!capture || (!bytes && room) || !count) return PILHANGKO_NULL_POINTER;
    return pilhangko_raw_capture_text(capture, is_destroyed, from, bytes ? bytes : &none, room, count);
}

/* Ends a capture, and leaves the handle empty.
 * NO_HANDLE. */
static inline pilhangko_status pilhangko_capture_destroy(pilhangko_capture *capture) {
    if (!capture) return PILHANGKO_NULL_POINTER;
    return pilhangko_raw_capture_destroy(capture);
}

/* Places resources in one heap: at the offsets of the order with the smallest heap, of equal ones the first of pilhangko_plan_order. Two
 * resources that are alive in one pass share no byte, and no page of page_size bytes (a power of two: bufferImageGranularity) where their
 * kinds differ; each offset is a multiple of its resource's alignment. Fills offsets, which has room for count of them, and plan. Equal
 * resources have equal plans. Where count is 0, resources and offsets may be NULL.
 * INVALID: page_size or a resource. OUT_OF_MEMORY: in each order the heap's size would pass 2^64 - 1. HOST_OUT_OF_MEMORY, which can also come
 * before an OUT_OF_MEMORY is known. */
PILHANGKO_NODISCARD static inline pilhangko_status pilhangko_plan(const pilhangko_plan_resource *resources, size_t count, uint64_t page_size,
    uint64_t *offsets, pilhangko_heap_plan *plan) {
    static const pilhangko_plan_resource no_resource = {0, 0, PILHANGKO_KIND_LINEAR, 0, 0};
    uint64_t no_offset = 0;
    if ((!resources && count) || (!offsets && count) || !plan) return PILHANGKO_NULL_POINTER;
    return pilhangko_raw_plan(resources ? resources : &no_resource, count, page_size, offsets ? offsets : &no_offset, count, plan);
}

/* Which resources the one at an index takes bytes over from: those whose life ended before its own begins, and some of whose bytes it has at
 * these offsets. An aliasing barrier goes between each of them and this one, before its first pass. Copies as many of their indices, which
 * ascend, as there is room for, and reports in reused_count how many there are, which can be more. Where room
 * is 0, reused may be NULL.
 * INVALID: no resource has that index. HOST_OUT_OF_MEMORY. */
PILHANGKO_NODISCARD static inline pilhangko_status pilhangko_plan_reuses(const pilhangko_plan_resource *resources, size_t count,
    const uint64_t *offsets, size_t index, size_t *reused, size_t room, size_t *reused_count) {
    size_t none;
    if (!resources || !offsets || (!reused && room) || !reused_count) return PILHANGKO_NULL_POINTER;
    return pilhangko_raw_plan_reuses(resources, count, offsets, count, index, reused ? reused : &none, room, reused_count);
}

/* Which resources share an allocation: the set of each. In their order each one joins the first set, none of them and itself dedicated, with
 * which it has a memory type in common; where there is none, it begins one. Sets are numbered from 0, as they begin. Fills sets, which has room
 * for count of them. Where count is 0, both may be NULL.
 * HOST_OUT_OF_MEMORY. */
PILHANGKO_NODISCARD static inline pilhangko_status pilhangko_plan_sets(const pilhangko_memory_needs *needs, size_t count, size_t *sets) {
    static const pilhangko_memory_needs no_needs = {0, false};
    size_t no_set = 0;
    if ((!needs || !sets) && count) return PILHANGKO_NULL_POINTER;
    return pilhangko_raw_plan_sets(needs ? needs : &no_needs, count, sets ? sets : &no_set, count);
}

/* The memory for a heap in which these resources lie. Where all are of one kind, so is the memory, as large as the heap; where they are of
 * both, it begins with a page and takes whole ones, so that nothing else lies on them. Where count is 0, resources may be NULL.
 * INVALID: the page size, or a resource. OUT_OF_MEMORY: whole pages would pass 2^64 - 1. HOST_OUT_OF_MEMORY. */
PILHANGKO_NODISCARD static inline pilhangko_status pilhangko_plan_memory(const pilhangko_plan_resource *resources, size_t count,
    uint64_t heap_size, uint64_t page_size, pilhangko_heap_memory *memory) {
    static const pilhangko_plan_resource no_resource = {0, 0, PILHANGKO_KIND_LINEAR, 0, 0};
    if ((!resources && count) || !memory) return PILHANGKO_NULL_POINTER;
    return pilhangko_raw_plan_memory(resources ? resources : &no_resource, count, heap_size, page_size, memory);
}

#ifdef __cplusplus
}
#endif
#endif
