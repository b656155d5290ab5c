/* Pilhangko's Vulkan binding: memory, buffers and images of a VkDevice, placed by a pilhangko_allocator.
 *
 * The binding asks the driver for blocks and maps those that the host can see; the allocator keeps them, and says where each piece lies
 * (pilhangko.h). Compile c/pilhangko_vulkan*.c and c/pilhangko_heap.c with the program, and link libgpu_c.a. It needs Vulkan's headers of
 * version 1.2 or later, and runs on drivers from Vulkan 1.0 on. It calls the driver through a table of functions, so it links no loader; its
 * own host memory is malloc's.
 *
 * Handles. A pilhangko_vulkan is one pointer that begins zeroed, as in `pilhangko_vulkan vulkan = {0};`, and keeps the rules of the handles
 * of pilhangko.h: it is never copied. But any threads may call it at once: it has a lock, which externally_synchronized leaves out; create
 * and destroy stand alone. The physical device and the device outlive it. What Vulkan wants of the caller it still wants: resources that
 * the device uses aren't destroyed, for instance.
 *
 * Statuses. A call that asks the driver returns a pilhangko_vulkan_result: why it failed, and beside it the driver's code. Causes
 * are listed at each call in the order in which they count. Whatever isn't PILHANGKO_OK leaves all as it was, out parameters too; but a
 * block that was made for an allocation may stay for the next ones, as with each free.
 */
#ifndef PILHANGKO_VULKAN_H
#define PILHANGKO_VULKAN_H
#include "pilhangko.h"
#include <vulkan/vulkan.h>

#ifndef VK_VERSION_1_2
#error "pilhangko_vulkan.h needs the Vulkan headers of version 1.2 or later"
#endif

#ifdef __cplusplus
extern "C" {
#endif

/* What a call that asks the driver results in. driver: VK_SUCCESS where status is PILHANGKO_OK; else the last code with which the driver
 * refused in this call, and VK_SUCCESS where it refused nothing, or by null pointers and handles alone. */
typedef struct pilhangko_vulkan_result {
    pilhangko_status status;
    VkResult driver;
} pilhangko_vulkan_result;

/* ---- Functions ---- */

/* The functions of Vulkan that the binding calls. Those of the last three lines may be NULL: without vkGet..MemoryRequirements2 no buffer
 * or image has memory of its own because the driver prefers it, and vkGetPhysicalDeviceMemoryProperties2 serves budgets alone. */
typedef struct pilhangko_vulkan_functions {
    PFN_vkGetPhysicalDeviceProperties vkGetPhysicalDeviceProperties;
    PFN_vkGetPhysicalDeviceMemoryProperties vkGetPhysicalDeviceMemoryProperties;
    PFN_vkAllocateMemory vkAllocateMemory;
    PFN_vkFreeMemory vkFreeMemory;
    PFN_vkMapMemory vkMapMemory;
    PFN_vkUnmapMemory vkUnmapMemory;
    PFN_vkFlushMappedMemoryRanges vkFlushMappedMemoryRanges;
    PFN_vkInvalidateMappedMemoryRanges vkInvalidateMappedMemoryRanges;
    PFN_vkCreateBuffer vkCreateBuffer;
    PFN_vkDestroyBuffer vkDestroyBuffer;
    PFN_vkGetBufferMemoryRequirements vkGetBufferMemoryRequirements;
    PFN_vkBindBufferMemory vkBindBufferMemory;
    PFN_vkCreateImage vkCreateImage;
    PFN_vkDestroyImage vkDestroyImage;
    PFN_vkGetImageMemoryRequirements vkGetImageMemoryRequirements;
    PFN_vkBindImageMemory vkBindImageMemory;
    PFN_vkGetBufferMemoryRequirements2 vkGetBufferMemoryRequirements2;
    PFN_vkGetImageMemoryRequirements2 vkGetImageMemoryRequirements2;
    PFN_vkGetPhysicalDeviceMemoryProperties2 vkGetPhysicalDeviceMemoryProperties2;
} pilhangko_vulkan_functions;

/* Fills the table from a loader. Where api_version, as in the settings below, is less than 1.1, the two vkGet..MemoryRequirements2 are
 * NULL, and vkGetPhysicalDeviceMemoryProperties2 is the one of VK_KHR_get_physical_device_properties2. get_device_proc_addr may be NULL:
 * it is asked of the other one then.
 * NULL_POINTER: a pointer or a handle. NO_FUNCTION: one that may not be NULL; the table is untouched. */
PILHANGKO_NODISCARD PILHANGKO_API pilhangko_status PILHANGKO_CALL pilhangko_vulkan_load(pilhangko_vulkan_functions *functions,
    VkInstance instance, VkDevice device, uint32_t api_version, PFN_vkGetInstanceProcAddr get_instance_proc_addr,
    PFN_vkGetDeviceProcAddr get_device_proc_addr);

/* ---- Create and destroy ---- */

typedef struct pilhangko_vulkan {
    void *opaque; /* the library's own */
} pilhangko_vulkan;

/* Takes the next bytes of a capture, and says whether it could. It calls nothing of the same binding and its pools. */
typedef bool(PILHANGKO_CALL *pilhangko_vulkan_write)(void *user, const char *bytes, size_t length);

/* All zeros but the first three fields are settings that work. A block size of 0 is 256 MB for memory that the host can't see and 64 MB for
 * memory that it can; blocks don't double up where the largest size is 0. (They are brought into 4 MB to 256 MB: see
 * pilhangko_memory_type_settings.) Where memory is short, blocks are smaller (pilhangko_allocator_set_smaller_blocks), but not with whole_blocks, nor
 * with a capture, since a trace has no such blocks. */
typedef struct pilhangko_vulkan_settings {
    VkPhysicalDevice physical_device;
    VkDevice device;
    const pilhangko_vulkan_functions *functions;       /* copied */
    const VkAllocationCallbacks *allocation_callbacks; /* handed to the driver; copied; NULL for none */
    uint32_t api_version;                              /* the lesser of the instance's and the device's; 0 is 1.0 */
    bool buffer_device_address;                        /* whether the feature bufferDeviceAddress is enabled */
    bool memory_budget;                                /* whether VK_EXT_memory_budget is enabled */
    VkDeviceSize device_block_size;
    VkDeviceSize largest_device_block_size;
    VkDeviceSize host_block_size;
    VkDeviceSize largest_host_block_size;
    bool whole_blocks;                    /* whether blocks keep these sizes where memory is short */
    pilhangko_vulkan_write capture_write; /* where the capture goes; NULL for no capture */
    void *capture_user;                   /* handed to capture_write */
    bool externally_synchronized;         /* whether the caller sees to it that one call is made at a time: no lock is taken */
} pilhangko_vulkan_settings;

/* Makes a binding without blocks in an empty handle. It asks the driver for the device's properties, and for no memory. It has no more blocks
 * than maxMemoryAllocationCount (BUDGET_EXCEEDED where one more would be needed), unless that is 0.
 * NULL_POINTER: a pointer or a handle. IN_USE: the handle isn't empty. NO_FUNCTION. HOST_OUT_OF_MEMORY: the binding's own. Of what the
 * driver tells: VULKAN_INVALID_ATOM_SIZE. TOO_MANY_TYPES. VULKAN_TOO_MANY_HEAPS. INVALID_DEVICE: bufferImageGranularity is no power of two.
 * NO_SUCH_HEAP. HOST_OUT_OF_MEMORY. */
PILHANGKO_NODISCARD PILHANGKO_API pilhangko_status PILHANGKO_CALL pilhangko_vulkan_create(
    pilhangko_vulkan *vulkan, const pilhangko_vulkan_settings *settings);

/* How a capture ended. */
typedef PILHANGKO_ENUM(pilhangko_vulkan_capture_end) {
    /* There is none, or its end was told before. */
    PILHANGKO_VULKAN_CAPTURE_NONE = 0,
    /* All calls are in it. */
    PILHANGKO_VULKAN_CAPTURE_WHOLE = 1,
    /* It ends before the call that would have carried it past the longest trace. */
    PILHANGKO_VULKAN_CAPTURE_TOO_LONG = 2,
    /* It ends before the call for whose lines there was no host memory. */
    PILHANGKO_VULKAN_CAPTURE_NO_HOST_MEMORY = 3,
    /* capture_write couldn't take all of it. */
    PILHANGKO_VULKAN_CAPTURE_NOT_WRITTEN = 4
} pilhangko_vulkan_capture_end;
typedef struct pilhangko_vulkan_capture {
    pilhangko_vulkan_capture_end end;
    size_t bytes; /* what capture_write took */
} pilhangko_vulkan_capture;

/* What a binding left: the allocations that nobody freed, and the capture, where it was still under way. */
typedef struct pilhangko_vulkan_ending {
    uint64_t leaks;
    pilhangko_vulkan_capture capture;
} pilhangko_vulkan_ending;

/* Ends a binding: writes the capture, if one is under way, gives each block back to the driver, and leaves the handle empty. Buffers and
 * images are the caller's to destroy before. ending may be NULL.
 * NULL_POINTER: the handle. NO_HANDLE. IN_USE: it has pools. */
PILHANGKO_API pilhangko_status PILHANGKO_CALL pilhangko_vulkan_destroy(pilhangko_vulkan *vulkan, pilhangko_vulkan_ending *ending);

/* ---- Pools ---- */

/* All zeros are settings that work. Sizes of blocks and the capture are as those of a binding. */
typedef struct pilhangko_vulkan_pool_settings {
    uint32_t memory_type_bits; /* the memory types that its blocks may be of; 0 for all of them */
    const void *next;          /* what is chained to VkMemoryAllocateInfo for each of its blocks; NULL for nothing */
    size_t most_blocks;        /* how many it may have; 0 where the device alone bounds that */
    VkDeviceSize device_block_size;
    VkDeviceSize largest_device_block_size;
    VkDeviceSize host_block_size;
    VkDeviceSize largest_host_block_size;
    bool whole_blocks;
    pilhangko_vulkan_write capture_write;
    void *capture_user;
} pilhangko_vulkan_pool_settings;

/* Makes a pool in an empty handle: a binding over the same device whose blocks are apart from its parent's. Each call of a binding serves it: its
 * requests are narrowed to its memory types, and its allocations are refused by its parent (NOT_LIVE), as its parent's are by it.
 * pilhangko_vulkan_destroy ends it. A pool of a pool is one of the same parent.
 *
 * The parent outlives its pools, and a pool's chain lives as long as the pool. It has what may be asked of any block: a priority, handle types for
 * export; no import. Where a request has a chain, that counts in its place.
 *
 * Pools and their parent are called on any threads at once, also to make and end pools: they share the parent's lock, so between lock and unlock of
 * one no other one is called. Together they have no more blocks than the driver grants, and one limit of each heap: read_heap, update_budgets and the
 * calls of limits speak of all of them, whichever is asked. Budgets of memory types are each one's.
 * NULL_POINTER. NO_HANDLE: the parent's. IN_USE: the pool's handle isn't empty. NO_SUCH_TYPE: the device has none of the memory types. INVALID: a
 * VkMemoryDedicatedAllocateInfo in the chain. HOST_OUT_OF_MEMORY. */
PILHANGKO_NODISCARD PILHANGKO_API pilhangko_status PILHANGKO_CALL pilhangko_vulkan_create_pool(
    pilhangko_vulkan *parent, const pilhangko_vulkan_pool_settings *settings, pilhangko_vulkan *pool);

/* ---- Memory ---- */

/* Two locations of this binding's beside those of pilhangko.h, in requests and placements. Staging: the host writes and the GPU reads once, in the
 * host's memory, and in the device's own only where that has no room. Transient: an attachment that is stored nowhere
 * (VK_IMAGE_USAGE_TRANSIENT_ATTACHMENT_BIT), in lazily allocated memory where there is such, else in device-local memory; of its own. */
#define PILHANGKO_VULKAN_LOCATION_STAGING ((pilhangko_location)5)
#define PILHANGKO_VULKAN_LOCATION_TRANSIENT ((pilhangko_location)6)

/* What memory is wanted for. Zeros behind the name ask for nothing more.
 *
 * Where one of the flags or never_allocate isn't 0, flags choose the memory in place of the location, which is 0 or UNKNOWN then: memory types that
 * have all required flags are tried from the cheapest on, while they have no room (pilhangko_preference). So it is with the two locations above,
 * whose flags are the binding's; never_allocate may stand beside them. Protected, device-coherent and RDMA-capable memory, for which a feature has
 * to be enabled, then serves only where a required or preferred flag says so.
 *
 * A request with a chain gets memory of its own, and the driver is asked for that with the chain behind the binding's own structs: a priority
 * (VkMemoryPriorityAllocateInfoEXT), handle types for export (VkExportMemoryAllocateInfo), an import .. It is only read, while the call lasts.
 * VkMemoryDedicatedAllocateInfo and VkMemoryAllocateFlagsInfo in it count in place of the binding's. */
typedef struct pilhangko_vulkan_request {
    VkMemoryRequirements requirements;
    pilhangko_location location;
    pilhangko_kind kind;
    pilhangko_scheme scheme;        /* PILHANGKO_SCHEME_MANAGED, or memory for the buffer or the image alone */
    VkBuffer buffer;                /* it counts where the scheme is PILHANGKO_SCHEME_BUFFER, and isn't null then */
    VkImage image;                  /* it counts where the scheme is PILHANGKO_SCHEME_IMAGE, and isn't null then */
    const char *name;               /* copied; NULL for none */
    VkDeviceSize minimal_alignment; /* a power of two, which counts where the requirements' is less; 0 for none */
    uint32_t memory_type_bits;      /* those of the requirements' memory types that serve; 0 for all of them */
    const void *next;               /* what is chained to VkMemoryAllocateInfo; NULL for nothing */
    VkMemoryPropertyFlags required_flags;
    VkMemoryPropertyFlags preferred_flags;
    VkMemoryPropertyFlags avoided_flags;
    bool never_allocate; /* whether only memory that is there is looked at, and the driver isn't asked */
    uint64_t user_data;  /* the word of the caller's that it begins with */
} pilhangko_vulkan_request;

/* An allocation: bind at offset of memory. The calls read the last three fields alone. One that was freed is refused for good
 * (PILHANGKO_NOT_LIVE), and so is one of another binding, also of one that was destroyed. (Bindings of copies of these sources in
 * different shared libraries are numbered apart: keep their allocations apart.) */
typedef struct pilhangko_vulkan_allocation {
    VkDeviceMemory memory;
    VkDeviceSize offset;
    VkDeviceSize size;
    bool dedicated; /* whether memory of its own was asked for */
    pilhangko_allocator_piece piece;
    uint64_t owner;  /* which binding: 1, 2, .. as the process made them */
    uint64_t serial; /* which of its allocations: 1, 2, .. as they were made */
    uint32_t index;  /* the library's own */
} pilhangko_vulkan_allocation;

/* Allocates memory. Where a memory type that the request allows needs flushes, the alignment is nonCoherentAtomSize at least, so that a
 * flush touches no other allocation.
 * NULL_POINTER. NO_HANDLE. INVALID: a null buffer or image that counts, or a location beside flags. HOST_OUT_OF_MEMORY: the binding's own. Then
 * the causes of pilhangko_allocator_begin, or of .._begin_by_flags (INVALID: a minimal alignment that is no power of two, too), or why the driver
 * refused, as with pilhangko_allocator_refused: OUT_OF_MEMORY, DRIVER_REFUSED or FAILED_TO_MAP. A driver that gives a null handle has no
 * memory left. */
PILHANGKO_NODISCARD PILHANGKO_API pilhangko_vulkan_result PILHANGKO_CALL pilhangko_vulkan_allocate(
    pilhangko_vulkan *vulkan, const pilhangko_vulkan_request *request, pilhangko_vulkan_allocation *allocation);

/* Frees an allocation, and gives its block back to the driver where that goes too.
 * NULL_POINTER. NO_HANDLE. NOT_LIVE. */
PILHANGKO_NODISCARD PILHANGKO_API pilhangko_status PILHANGKO_CALL pilhangko_vulkan_free(
    pilhangko_vulkan *vulkan, const pilhangko_vulkan_allocation *allocation);

/* Where the host sees an allocation; NULL where it can't, or where one of the pointers is NULL, the handle empty or the allocation not
 * live. It stays the same as long as the allocation lives. */
PILHANGKO_NODISCARD PILHANGKO_API void *PILHANGKO_CALL pilhangko_vulkan_mapped(
    const pilhangko_vulkan *vulkan, const pilhangko_vulkan_allocation *allocation);

/* Makes what the host wrote visible to the device (flush), or what the device wrote visible to the host (invalidate): of the bytes
 * [offset, offset + size) of the allocation, up to its end where size is VK_WHOLE_SIZE. The range may be anything: it grows to whole
 * nonCoherentAtomSize units within the block. Coherent memory and ranges without bytes ask the driver nothing.
 * NULL_POINTER. NO_HANDLE. NOT_LIVE. NOT_MAPPED. OUT_OF_RANGE. CALL_FAILED. */
PILHANGKO_NODISCARD PILHANGKO_API pilhangko_vulkan_result PILHANGKO_CALL pilhangko_vulkan_flush(
    const pilhangko_vulkan *vulkan, const pilhangko_vulkan_allocation *allocation, VkDeviceSize offset, VkDeviceSize size);
PILHANGKO_NODISCARD PILHANGKO_API pilhangko_vulkan_result PILHANGKO_CALL pilhangko_vulkan_invalidate(
    const pilhangko_vulkan *vulkan, const pilhangko_vulkan_allocation *allocation, VkDeviceSize offset, VkDeviceSize size);

/* Copies bytes into a mapped allocation from an offset on and flushes them, or invalidates bytes there and copies them out. Where the driver
 * refuses the flush, they are copied all the same; where it refuses the invalidation, none is.
 * NULL_POINTER. NO_HANDLE. NOT_LIVE. NOT_MAPPED. OUT_OF_RANGE. CALL_FAILED. */
PILHANGKO_NODISCARD PILHANGKO_API pilhangko_vulkan_result PILHANGKO_CALL pilhangko_vulkan_copy_to(const pilhangko_vulkan *vulkan,
    const void *from, size_t size, const pilhangko_vulkan_allocation *allocation, VkDeviceSize offset);
PILHANGKO_NODISCARD PILHANGKO_API pilhangko_vulkan_result PILHANGKO_CALL pilhangko_vulkan_copy_from(const pilhangko_vulkan *vulkan,
    const pilhangko_vulkan_allocation *allocation, VkDeviceSize offset, void *to, size_t size);

/* Moves. A second place for a live allocation, in a block that is there: the one that this request, which it was made for, would get as a new
 * allocation, if that lies in a block that is looked at before its own. *moves says whether there is one, and *to is the allocation there, with
 * the first one's word; nothing is asked of the driver. Then both are live: bind a new buffer or image at the second
 * (pilhangko_vulkan_create_aliasing_buffer), copy, and destroy the old one with the first once the device has finished, which ends the move; or
 * free the second, which abandons it. Where *moves is false the allocation stays where it is, and *to as it was. An allocation for one buffer or
 * image alone stays (INVALID).
 * NULL_POINTER. NO_HANDLE. NOT_LIVE. INVALID: a null buffer or image that counts. HOST_OUT_OF_MEMORY: the binding's own. INVALID: the request,
 * its name, or a size that isn't the allocation's. HOST_OUT_OF_MEMORY. */
PILHANGKO_NODISCARD PILHANGKO_API pilhangko_status PILHANGKO_CALL pilhangko_vulkan_propose_move(pilhangko_vulkan *vulkan,
    const pilhangko_vulkan_allocation *from, const pilhangko_vulkan_request *request, bool *moves, pilhangko_vulkan_allocation *to);

/* Moves a mapped allocation at once: where there is a second place, its bytes are copied there (those that the device wrote are invalidated
 * before, and all are flushed behind), the first place is freed, and *allocation is the second. *moved says whether. The device doesn't use
 * the bytes meanwhile, and no other thread does anything with the allocation.
 * NULL_POINTER. NO_HANDLE. NOT_LIVE. NOT_MAPPED. The causes of pilhangko_vulkan_propose_move. CALL_FAILED: the driver refused to invalidate or to
 * flush; the allocation stays where it was. */
PILHANGKO_NODISCARD PILHANGKO_API pilhangko_vulkan_result PILHANGKO_CALL pilhangko_vulkan_move_mapped(pilhangko_vulkan *vulkan,
    pilhangko_vulkan_allocation *allocation, const pilhangko_vulkan_request *request, bool *moved);

/* An allocation that may move, and the request that it was made by. */
typedef struct pilhangko_vulkan_movable {
    pilhangko_vulkan_allocation allocation;
    pilhangko_vulkan_request request;
} pilhangko_vulkan_movable;

/* A move that is open: of which allocation of the table, and its second place. */
typedef struct pilhangko_vulkan_move {
    size_t index;
    pilhangko_vulkan_allocation to;
} pilhangko_vulkan_move;

/* Proposes the moves of a frame: goes over the table, allocations in the lowest slot first, so that low blocks empty, and proposes moves that
 * sum up to so many bytes at most, and that moves has room for. *proposed says how many; they are as those of pilhangko_vulkan_propose_move,
 * and each ends by a free. An allocation with an open move isn't put into the table again (a pilhangko_vulkan_defragmentation sees to that). Where a
 * proposal fails, those before it are abandoned, and what moves holds doesn't count.
 * NULL_POINTER. NO_HANDLE. The causes of pilhangko_vulkan_propose_move. */
PILHANGKO_NODISCARD PILHANGKO_API pilhangko_status PILHANGKO_CALL pilhangko_vulkan_propose_moves(pilhangko_vulkan *vulkan,
    const pilhangko_vulkan_movable *movables, size_t count, VkDeviceSize bytes, pilhangko_vulkan_move *moves, size_t room, size_t *proposed);

/* Moves that stay open over frames, and what came of those that were finished. It begins zeroed, as in `pilhangko_vulkan_defragmentation it = {0};`,
 * and its fields are only read. While moves are open it is one binding's, and holds host memory: end it then. It has no lock: it is given to one
 * call at a time, on any thread. Other threads may call the binding meanwhile, whose own lock holds, but do nothing with the allocations of open
 * moves. */
typedef struct pilhangko_vulkan_defragmentation {
    size_t open;                   /* moves that are neither finished nor abandoned */
    bool done;                     /* whether the last propose found no move while none was open */
    uint64_t moves_finished;
    VkDeviceSize bytes_moved;      /* the sum of their sizes */
    uint64_t blocks_given_back;    /* those that went back to the driver as finish freed first places */
    VkDeviceSize bytes_given_back; /* the sum of these blocks' sizes */
    struct pilhangko_vulkan_open_move *open_moves; /* the library's own, as are the next two */
    size_t room;
    const void *binding;
} pilhangko_vulkan_defragmentation;

/* Proposes the moves of a frame as pilhangko_vulkan_propose_moves does, and remembers them as open. Allocations that are a place of an open move
 * are passed over, so that the table may be the same each frame. One that shall stay isn't put into it; one of more than so many bytes stays.
 * Once none is proposed while none is open, it is done: by these bounds no allocation of the table has a place in a block that is looked at before
 * its own. Where a proposal fails, those before it in this frame are abandoned, and what moves holds doesn't count.
 * NULL_POINTER. NO_HANDLE. NOT_LIVE: moves of another binding are open. HOST_OUT_OF_MEMORY: its own, as it goes. The causes of
 * pilhangko_vulkan_propose_move. */
PILHANGKO_NODISCARD PILHANGKO_API pilhangko_status PILHANGKO_CALL pilhangko_vulkan_defragmentation_propose(pilhangko_vulkan *vulkan,
    pilhangko_vulkan_defragmentation *it, const pilhangko_vulkan_movable *movables, size_t count, VkDeviceSize bytes,
    pilhangko_vulkan_move *moves, size_t room, size_t *proposed);

/* Finishes the open move to this second place: frees the first one, and gives its block back to the driver where that goes too. The buffer or
 * image at the first is destroyed before, by vkDestroyBuffer or vkDestroyImage. (Where pilhangko_vulkan_destroy_buffer or _image freed the first
 * place with it, the move is finished all the same, but no block of it is counted as given back.)
 * NULL_POINTER. NO_HANDLE. NOT_LIVE: no open move of this binding is to this place, or the place was freed. */
PILHANGKO_NODISCARD PILHANGKO_API pilhangko_status PILHANGKO_CALL pilhangko_vulkan_defragmentation_finish(
    pilhangko_vulkan *vulkan, pilhangko_vulkan_defragmentation *it, const pilhangko_vulkan_allocation *to);

/* Abandons the open move to this second place, and frees that, unless it was freed already. The buffer or image there is destroyed before. The
 * allocation stays where it is, and may be proposed again.
 * NULL_POINTER. NO_HANDLE. NOT_LIVE: no open move of this binding is to this place. */
PILHANGKO_NODISCARD PILHANGKO_API pilhangko_status PILHANGKO_CALL pilhangko_vulkan_defragmentation_abandon(
    pilhangko_vulkan *vulkan, pilhangko_vulkan_defragmentation *it, const pilhangko_vulkan_allocation *to);

/* Abandons the open moves; one whose first place isn't live any more is finished instead. What was counted may still be read.
 * NULL_POINTER. NO_HANDLE. NOT_LIVE: moves of another binding are open. */
PILHANGKO_NODISCARD PILHANGKO_API pilhangko_status PILHANGKO_CALL pilhangko_vulkan_defragmentation_end(
    pilhangko_vulkan *vulkan, pilhangko_vulkan_defragmentation *it);

/* Renames a live allocation.
 * NULL_POINTER. NO_HANDLE. INVALID: the name. NOT_LIVE. HOST_OUT_OF_MEMORY. */
PILHANGKO_NODISCARD PILHANGKO_API pilhangko_status PILHANGKO_CALL pilhangko_vulkan_rename(
    pilhangko_vulkan *vulkan, const pilhangko_vulkan_allocation *allocation, const char *name);

/* Whether an allocation is live.
 * NULL_POINTER. NO_HANDLE. */
PILHANGKO_NODISCARD PILHANGKO_API pilhangko_status PILHANGKO_CALL pilhangko_vulkan_is_live(
    const pilhangko_vulkan *vulkan, const pilhangko_vulkan_allocation *allocation, bool *is_live);

/* What a live allocation is. */
typedef struct pilhangko_vulkan_allocation_told {
    void *mapped;                         /* where the host sees it; NULL where it can't */
    uint64_t user_data;                   /* the caller's word */
    VkMemoryPropertyFlags property_flags; /* those of its memory type */
    VkDeviceSize block_size;              /* the size of its memory */
    bool block_shared;                    /* whether other allocations may lie in that memory */
} pilhangko_vulkan_allocation_told;

/* What a live allocation is.
 * NULL_POINTER. NO_HANDLE. NOT_LIVE. */
PILHANGKO_NODISCARD PILHANGKO_API pilhangko_status PILHANGKO_CALL pilhangko_vulkan_read_allocation(
    const pilhangko_vulkan *vulkan, const pilhangko_vulkan_allocation *allocation, pilhangko_vulkan_allocation_told *told);

/* Keeps another word of the caller's with a live allocation, a pointer, an index .. A visit of the allocator's pieces shows it too.
 * NULL_POINTER. NO_HANDLE. NOT_LIVE. */
PILHANGKO_NODISCARD PILHANGKO_API pilhangko_status PILHANGKO_CALL pilhangko_vulkan_set_user_data(
    pilhangko_vulkan *vulkan, const pilhangko_vulkan_allocation *allocation, uint64_t user_data);

/* The sum of the sizes of the blocks.
 * NULL_POINTER. NO_HANDLE. */
PILHANGKO_NODISCARD PILHANGKO_API pilhangko_status PILHANGKO_CALL pilhangko_vulkan_capacity(
    const pilhangko_vulkan *vulkan, VkDeviceSize *bytes);

/* ---- Buffers and images ---- */

/* Where a buffer or an image goes. What stands behind the name is as in a request. */
typedef struct pilhangko_vulkan_placement {
    pilhangko_location location;
    bool dedicated;   /* whether it shall have memory of its own */
    const char *name; /* copied; NULL for none */
    VkDeviceSize minimal_alignment;
    uint32_t memory_type_bits;
    const void *next;
    VkMemoryPropertyFlags required_flags;
    VkMemoryPropertyFlags preferred_flags;
    VkMemoryPropertyFlags avoided_flags;
    bool never_allocate;
    uint64_t user_data;
} pilhangko_vulkan_placement;

/* Makes a buffer or an image with memory and binds it. It has memory of its own where placement says so or has a chain, or the driver requires
 * it; where the driver prefers it, it has if there is such memory, and else shares. What was made is undone where something fails. Buffers and
 * images that are sparse or disjoint are INVALID: bind these to memory of pilhangko_vulkan_allocate.
 * NULL_POINTER. NO_HANDLE. INVALID. CALL_FAILED: vkCreate... Then the causes of pilhangko_vulkan_allocate. CALL_FAILED: vkBind... */
PILHANGKO_NODISCARD PILHANGKO_API pilhangko_vulkan_result PILHANGKO_CALL pilhangko_vulkan_create_buffer(pilhangko_vulkan *vulkan,
    const VkBufferCreateInfo *info, const pilhangko_vulkan_placement *placement, VkBuffer *buffer, pilhangko_vulkan_allocation *allocation);
PILHANGKO_NODISCARD PILHANGKO_API pilhangko_vulkan_result PILHANGKO_CALL pilhangko_vulkan_create_image(pilhangko_vulkan *vulkan,
    const VkImageCreateInfo *info, const pilhangko_vulkan_placement *placement, VkImage *image, pilhangko_vulkan_allocation *allocation);

/* Destroys a buffer or an image of the binding's device, and frees its allocation. Where the allocation isn't live, neither happens.
 * NULL_POINTER: a pointer or a handle. NO_HANDLE. NOT_LIVE. */
PILHANGKO_NODISCARD PILHANGKO_API pilhangko_status PILHANGKO_CALL pilhangko_vulkan_destroy_buffer(
    pilhangko_vulkan *vulkan, VkBuffer buffer, const pilhangko_vulkan_allocation *allocation);
PILHANGKO_NODISCARD PILHANGKO_API pilhangko_status PILHANGKO_CALL pilhangko_vulkan_destroy_image(
    pilhangko_vulkan *vulkan, VkImage image, const pilhangko_vulkan_allocation *allocation);

/* Makes a buffer or an image and binds it at an offset of a live allocation, whose bytes it has in common with all else that is bound there:
 * only one of them holds what it should at a time, and barriers go between their uses. The allocation is the caller's still; the buffer or the
 * image is destroyed before it, by vkDestroyBuffer or vkDestroyImage. An allocation for buffers and images both has kind NON_LINEAR, and size
 * and alignment are multiples of bufferImageGranularity (pilhangko_plan_memory).
 * NULL_POINTER. NO_HANDLE. NOT_LIVE. INVALID: a sparse or disjoint one. CALL_FAILED: vkCreate... And by what the driver needs for it: INVALID:
 * memory of its own, another memory type, or another alignment of its place in the memory. OUT_OF_RANGE: it runs past the allocation's end.
 * CALL_FAILED: vkBind... What was made is undone where something fails. */
PILHANGKO_NODISCARD PILHANGKO_API pilhangko_vulkan_result PILHANGKO_CALL pilhangko_vulkan_create_aliasing_buffer(const pilhangko_vulkan *vulkan,
    const pilhangko_vulkan_allocation *allocation, VkDeviceSize offset, const VkBufferCreateInfo *info, VkBuffer *buffer);
PILHANGKO_NODISCARD PILHANGKO_API pilhangko_vulkan_result PILHANGKO_CALL pilhangko_vulkan_create_aliasing_image(const pilhangko_vulkan *vulkan,
    const pilhangko_vulkan_allocation *allocation, VkDeviceSize offset, const VkImageCreateInfo *info, VkImage *image);

/* ---- Rings ---- */

/* A ring over one buffer that the host sees: uploads that go to the next place and are freed a frame at a time (pilhangko_ring). It begins
 * zeroed and keeps the rules of the handles. pilhangko_ring_statistics and pilhangko_ring_frame_statistics of its ring say what it holds; no
 * other call is made of it, and no field is written. */
typedef struct pilhangko_vulkan_ring {
    pilhangko_ring ring;
    VkBuffer buffer;
    pilhangko_vulkan_allocation allocation;
    void *mapped; /* where the host sees the buffer's first byte */
} pilhangko_vulkan_ring;

typedef struct pilhangko_vulkan_ring_settings {
    VkDeviceSize size;        /* see pilhangko_ring_create for how large it has to be */
    size_t frames;            /* how many may be in flight */
    VkBufferUsageFlags usage; /* VK_BUFFER_USAGE_TRANSFER_SRC_BIT, for example */
    pilhangko_vulkan_placement placement; /* in memory that the host sees: PILHANGKO_LOCATION_CPU_TO_GPU, for example */
} pilhangko_vulkan_ring_settings;

/* A piece: where it begins in the buffer, and where the host writes it. It belongs to the frame that was open, until that is retired. */
typedef struct pilhangko_vulkan_ring_piece {
    VkDeviceSize offset;
    void *mapped;
} pilhangko_vulkan_ring_piece;

/* Makes a buffer for one queue family at a time, with memory that is mapped, and a ring over it, in an empty one.
 * NULL_POINTER. NO_HANDLE: the binding's is empty. The causes of pilhangko_ring_create; those of pilhangko_vulkan_create_buffer.
 * NOT_MAPPED: the host can't see memory of that location. */
PILHANGKO_NODISCARD PILHANGKO_API pilhangko_vulkan_result PILHANGKO_CALL pilhangko_vulkan_ring_create(
    pilhangko_vulkan *vulkan, const pilhangko_vulkan_ring_settings *settings, pilhangko_vulkan_ring *ring);

/* Allocates a piece of the open frame. The buffer's first byte has any alignment that the driver wants of the buffer, so that the piece's
 * offset counts alone.
 * NULL_POINTER. The causes of pilhangko_ring_allocate. */
PILHANGKO_NODISCARD PILHANGKO_API pilhangko_status PILHANGKO_CALL pilhangko_vulkan_ring_allocate(
    pilhangko_vulkan_ring *ring, VkDeviceSize size, VkDeviceSize alignment, pilhangko_vulkan_ring_piece *piece);

/* Makes what the host wrote to the open frame's pieces visible to the device, by pilhangko_vulkan_flush: at most two ranges. Call it before
 * the frame is submitted. Coherent memory asks the driver nothing.
 * NULL_POINTER. NO_HANDLE: the binding's or the ring's. NOT_LIVE: the ring is another binding's. CALL_FAILED. */
PILHANGKO_NODISCARD PILHANGKO_API pilhangko_vulkan_result PILHANGKO_CALL pilhangko_vulkan_ring_flush(
    const pilhangko_vulkan *vulkan, const pilhangko_vulkan_ring *ring);

/* Ends the open frame, and frees the pieces of a frame and of all older ones.
 * NULL_POINTER. The causes of pilhangko_ring_end_frame, and of pilhangko_ring_retire. */
PILHANGKO_NODISCARD PILHANGKO_API pilhangko_status PILHANGKO_CALL pilhangko_vulkan_ring_end_frame(
    pilhangko_vulkan_ring *ring, uint64_t *frame);
PILHANGKO_NODISCARD PILHANGKO_API pilhangko_status PILHANGKO_CALL pilhangko_vulkan_ring_retire(pilhangko_vulkan_ring *ring, uint64_t frame);

/* Destroys the buffer, frees its memory and leaves the ring empty. The device has finished with all its frames before.
 * NULL_POINTER. NO_HANDLE: the binding's or the ring's. NOT_LIVE: the ring is another binding's. */
PILHANGKO_NODISCARD PILHANGKO_API pilhangko_status PILHANGKO_CALL pilhangko_vulkan_ring_destroy(
    pilhangko_vulkan *vulkan, pilhangko_vulkan_ring *ring);

/* ---- Transient resources: buffers and images of a frame that share memory ---- */

/* A buffer or an image, and the passes in which it is alive, both included. */
typedef struct pilhangko_vulkan_transient_resource {
    const VkBufferCreateInfo *buffer_info; /* of a buffer, else NULL */
    const VkImageCreateInfo *image_info;   /* of an image, else NULL */
    uint64_t first_pass;
    uint64_t last_pass;
} pilhangko_vulkan_transient_resource;

/* A buffer or an image that was made: the other one is null. It lies at planned.size bytes from offset on in its set's allocation. */
typedef struct pilhangko_vulkan_transient_place {
    VkBuffer buffer;
    VkImage image;
    size_t set;
    VkDeviceSize offset;
    pilhangko_plan_resource planned; /* what the driver asked for it */
} pilhangko_vulkan_transient_place;

/* Resources that share one allocation. */
typedef struct pilhangko_vulkan_transient_set {
    pilhangko_vulkan_allocation allocation;
    pilhangko_heap_plan plan;
    VkDeviceSize unshared; /* the sum of their sizes */
    bool dedicated;        /* whether it is one resource for which the driver requires memory of its own */
} pilhangko_vulkan_transient_set;

/* It begins zeroed. create_transient fills it, with places in the order of the resources; destroy_transient leaves it zeroed. */
typedef struct pilhangko_vulkan_transient {
    pilhangko_vulkan_transient_place *places;
    size_t place_count;
    pilhangko_vulkan_transient_set *sets;
    size_t set_count;
} pilhangko_vulkan_transient;

/* Makes buffers and images, plans those that can share a memory type together (pilhangko_plan), and binds each set to one allocation, as the
 * placement says. In the order of the resources each one joins the first set with which it shares a memory type that has what the location or the
 * flags need, or begins one; one for which the driver requires memory of its own is a set by itself. What was made is undone where something
 * fails. Buffers and images that are sparse or disjoint, and resources with two infos or none, or whose last pass comes before the first, are
 * INVALID, and so are a dedicated placement and PILHANGKO_VULKAN_LOCATION_TRANSIENT, whose memory isn't shared. Where count is 0, resources may be
 * NULL.
 *
 * What a resource holds is undefined when its first pass begins: it takes bytes over from others. Between these and it goes a barrier
 * (transient_reuses), and an image begins in VK_IMAGE_LAYOUT_UNDEFINED.
 * NULL_POINTER. NO_HANDLE. IN_USE: transient isn't zeroed. INVALID. HOST_OUT_OF_MEMORY: the binding's own. CALL_FAILED: vkCreate... Then the
 * causes of pilhangko_plan and of pilhangko_vulkan_allocate. CALL_FAILED: vkBind... */
PILHANGKO_NODISCARD PILHANGKO_API pilhangko_vulkan_result PILHANGKO_CALL pilhangko_vulkan_create_transient(pilhangko_vulkan *vulkan,
    const pilhangko_vulkan_transient_resource *resources, size_t count, const pilhangko_vulkan_placement *placement,
    pilhangko_vulkan_transient *transient);

/* The places, by their indices, whose bytes the one at an index takes over, as with pilhangko_plan_reuses.
 * NULL_POINTER. INVALID: no place has that index. HOST_OUT_OF_MEMORY. */
PILHANGKO_NODISCARD PILHANGKO_API pilhangko_status PILHANGKO_CALL pilhangko_vulkan_transient_reuses(
    const pilhangko_vulkan_transient *transient, size_t index, size_t *reused, size_t room, size_t *reused_count);

/* Destroys the buffers and images, and frees their allocations. Where one of these isn't live, nothing happens.
 * NULL_POINTER. NO_HANDLE. NOT_LIVE. */
PILHANGKO_NODISCARD PILHANGKO_API pilhangko_status PILHANGKO_CALL pilhangko_vulkan_destroy_transient(
    pilhangko_vulkan *vulkan, pilhangko_vulkan_transient *transient);

/* ---- Budgets ---- */

/* A memory heap. usage and budget are the driver's, of the whole process; they are 0 where has_budget is false. */
typedef struct pilhangko_vulkan_heap {
    VkDeviceSize size;
    VkMemoryHeapFlags flags;
    VkDeviceSize held; /* the sum of the sizes of the blocks, also of pools */
    bool has_budget;   /* whether VK_EXT_memory_budget is enabled */
    VkDeviceSize usage;
    VkDeviceSize budget;
} pilhangko_vulkan_heap;

/* What a heap has, and what the driver tells of it now. Heaps are numbered as the device numbers them.
 * NULL_POINTER. NO_HANDLE. PILHANGKO_VULKAN_NO_SUCH_HEAP. */
PILHANGKO_NODISCARD PILHANGKO_API pilhangko_status PILHANGKO_CALL pilhangko_vulkan_read_heap(
    const pilhangko_vulkan *vulkan, uint32_t heap, pilhangko_vulkan_heap *read);

/* Limits each heap to what is held there and what it has left now, by the driver: once a frame, say.
 * NULL_POINTER. NO_HANDLE. NO_BUDGETS. */
PILHANGKO_NODISCARD PILHANGKO_API pilhangko_status PILHANGKO_CALL pilhangko_vulkan_update_budgets(pilhangko_vulkan *vulkan);

/* Bounds the sum of the sizes of a memory type's blocks, or takes the bound away; and the bound. As with a pilhangko_allocator.
 * NULL_POINTER. NO_HANDLE. And of set_budget, NO_SUCH_TYPE. */
PILHANGKO_NODISCARD PILHANGKO_API pilhangko_status PILHANGKO_CALL pilhangko_vulkan_set_budget(
    pilhangko_vulkan *vulkan, uint32_t memory_type, bool has_budget, VkDeviceSize bytes);
PILHANGKO_NODISCARD PILHANGKO_API pilhangko_status PILHANGKO_CALL pilhangko_vulkan_budget(
    const pilhangko_vulkan *vulkan, uint32_t memory_type, pilhangko_budget *budget);

/* Limits the sum of the sizes of the blocks of all memory types that lie in a heap, or takes the limit away; and the limit, none where the heap has
 * none or isn't there. As with a pilhangko_allocator. (A trace has no limits: a capture bounds each memory type of the heap by what the others
 * leave, as it changes, and so its requests are refused the same.)
 * NULL_POINTER. NO_HANDLE. And of set_heap_limit, PILHANGKO_VULKAN_NO_SUCH_HEAP. */
PILHANGKO_NODISCARD PILHANGKO_API pilhangko_status PILHANGKO_CALL pilhangko_vulkan_set_heap_limit(
    pilhangko_vulkan *vulkan, uint32_t heap, bool has_limit, VkDeviceSize bytes);
PILHANGKO_NODISCARD PILHANGKO_API pilhangko_status PILHANGKO_CALL pilhangko_vulkan_heap_limit(
    const pilhangko_vulkan *vulkan, uint32_t heap, pilhangko_budget *limit);

/* ---- What else the allocator tells ---- */

/* The allocator behind the binding, for each call of pilhangko.h that takes a `const pilhangko_allocator *`: statistics by memory type,
 * blocks and their pieces with names, the report as JSON, and the texts of leaks. NULL where vulkan is NULL or empty. It lives as long as
 * the binding; calls on both never overlap: where other threads use the binding, they stand between lock and unlock. */
PILHANGKO_NODISCARD PILHANGKO_API const pilhangko_allocator *PILHANGKO_CALL pilhangko_vulkan_allocator(const pilhangko_vulkan *vulkan);

/* Keeps the other threads' calls of this binding waiting until unlock, for calls on the allocator behind it. Between them this thread calls
 * nothing of the binding itself and its pools. Without effect where the binding is externally_synchronized.
 * NULL_POINTER. NO_HANDLE. */
PILHANGKO_API pilhangko_status PILHANGKO_CALL pilhangko_vulkan_lock(const pilhangko_vulkan *vulkan);

/* Lets them go on, on the thread that called lock.
 * NULL_POINTER. NO_HANDLE. */
PILHANGKO_API pilhangko_status PILHANGKO_CALL pilhangko_vulkan_unlock(const pilhangko_vulkan *vulkan);

/* ---- The device ---- */

/* What a binding was made over. The pointers are the binding's, and live as long as it. */
typedef struct pilhangko_vulkan_device {
    VkPhysicalDevice physical_device;
    VkDevice device;
    const pilhangko_vulkan_functions *functions;
    const VkAllocationCallbacks *allocation_callbacks; /* NULL for none */
    uint32_t api_version;
    uint32_t memory_type_bits; /* the memory types that its blocks may be of: fewer than all of a pool */
} pilhangko_vulkan_device;

/* What a binding was made over, for calls of the driver beside it.
 * NULL_POINTER. NO_HANDLE. */
PILHANGKO_NODISCARD PILHANGKO_API pilhangko_status PILHANGKO_CALL pilhangko_vulkan_read_device(
    const pilhangko_vulkan *vulkan, pilhangko_vulkan_device *read);

/* ---- Captures ---- */

/* A capture is the trace of a binding's calls from create on: `gpu_trace` replays it, and replies the same places, numbers and refusals
 * (docs/TRACE.md). It has the device and its refusals, then a line for each allocation, free and rename, and before an allocation and at
 * the end one for each memory type whose bound is another than the last line about it says; destroy ends it. An allocation is called by its
 * serial number, a refused one by the next one's. Bytes of a name beyond `!` to `~` are written as `_`, and so is a name of no bytes; a
 * name is cut after 64 bytes. Calls that changed nothing aren't written, but for allocations that were refused for another cause than
 * INVALID and HOST_OUT_OF_MEMORY.
 *
 * The refusals stand before the calls, so the capture is kept in host memory, at most 1 MB, and written when it ends. Where it can't go
 * on, it ends behind a whole call, its last line says why, and the binding works on. This call ends it before destroy does.
 * NULL_POINTER. NO_HANDLE. NO_CAPTURE: there is none, or it was written. */
PILHANGKO_NODISCARD PILHANGKO_API pilhangko_status PILHANGKO_CALL pilhangko_vulkan_end_capture(
    pilhangko_vulkan *vulkan, pilhangko_vulkan_capture *capture);

/* pilhangko_status_name and pilhangko_status_text know each status; these are the names that they had here. */
#define pilhangko_vulkan_status_name pilhangko_status_name
#define pilhangko_vulkan_status_text pilhangko_status_text

#ifdef __cplusplus
}
#endif
#endif

/* As pilhangko_vulkan_load, from a loader that the program links: define PILHANGKO_VULKAN_LINKED before any of the program's inclusions of
 * this header, be it the first one or a later one, and don't define VK_NO_PROTOTYPES. */
#if defined(PILHANGKO_VULKAN_LINKED) && !defined(PILHANGKO_VULKAN_LOAD_LINKED)
#define PILHANGKO_VULKAN_LOAD_LINKED
PILHANGKO_NODISCARD static inline pilhangko_status pilhangko_vulkan_load_linked(
    pilhangko_vulkan_functions *functions, VkInstance instance, VkDevice device, uint32_t api_version) {
    return pilhangko_vulkan_load(functions, instance, device, api_version, vkGetInstanceProcAddr, vkGetDeviceProcAddr);
}
#endif
