/* Pilhangko's DirectX 12 binding: heaps, buffers and textures of an ID3D12Device, placed by a pilhangko_heaps.
 *
 * The binding asks the driver for heaps and resources; the allocator keeps the heaps, and says where each piece lies (pilhangko.h). Compile
 * c/pilhangko_d3d12.c and c/pilhangko_heap.c with the program (c/pilhangko_d3d12_ring.c, too, where it has rings, and
 * c/pilhangko_d3d12_defragment.c where moves stay open over frames), and link libgpu_c.a. It calls interfaces alone, so it links no library of
 * Direct3D; its own host memory is malloc's. The program includes its Direct3D headers first (d3d12.h of the Windows SDK, of mingw-w64 or of
 * directx-headers, or vkd3d.h); without one this header includes d3d12.h on Windows and vkd3d_d3d12.h elsewhere.
 *
 * Handles. A pilhangko_d3d12 is one pointer that begins zeroed, as in `pilhangko_d3d12 d3d12 = {0};`, and keeps the rules of the handles of
 * pilhangko.h: it is never copied. But any threads may call it at once: it has a lock, which externally_synchronized leaves out; create and
 * destroy stand alone. It holds a reference to the device, and to the adapter, until destroy.
 *
 * Lifetimes. A resource that is made here comes with one reference, which is the caller's (a ComPtr's, say), and with an allocation, which
 * is no reference. No placed resource keeps its heap: before an allocation is freed, each reference to what lies there is released, and the
 * GPU is through with it. Whoever frees first and releases later has a resource without memory. A committed resource has memory of its own,
 * which goes with its last reference; its allocation is a record of it.
 *
 * Mapping is the resource's: ID3D12Resource::Map of a buffer in memory that the host sees, as long as the resource lives.
 *
 * Statuses. A call that asks the driver returns a pilhangko_d3d12_result: why it failed, and beside it the driver's code. Causes are listed
 * at each call in the order in which they count. Whatever isn't PILHANGKO_OK leaves all as it was, out parameters too; but a heap that was
 * made for an allocation may stay for the next ones, as with each free.
 */
#ifndef PILHANGKO_D3D12_H
#define PILHANGKO_D3D12_H
#include "pilhangko.h"

#if !defined(__d3d12_h__) && !defined(__vkd3d_d3d12_h__)
#ifdef _WIN32
#include <d3d12.h>
#else
#include <vkd3d_windows.h>

#include <vkd3d_d3d12.h>
#endif
#endif
struct IDXGIAdapter3;

#ifdef __cplusplus
extern "C" {
#endif

/* What a call that asks the driver results in. driver: S_OK where status is PILHANGKO_OK; else the code with which the driver refused, and
 * S_OK where it refused nothing, or by null alone. Where the device was removed, it is what GetDeviceRemovedReason tells. */
typedef struct pilhangko_d3d12_result {
    pilhangko_status status;
    HRESULT driver;
} pilhangko_d3d12_result;

/* ---- Create and destroy ---- */

typedef struct pilhangko_d3d12 {
    void *opaque; /* the library's own */
} pilhangko_d3d12;

/* Takes the next bytes of a capture, and says whether it could. It calls nothing of the same handle. */
typedef bool(PILHANGKO_CALL *pilhangko_d3d12_write)(void *user, const char *bytes, size_t length);

/* All zeros but the device are settings that work. A block size of 0 is 256 MB for GPU_ONLY and 64 MB for the other locations; blocks don't
 * double up where the largest size is 0. (They are brought into 4 MB to 256 MB: see pilhangko_memory_type_settings.) */
typedef struct pilhangko_d3d12_settings {
    ID3D12Device *device;
    struct IDXGIAdapter3 *adapter; /* the device's, which tells budgets; NULL for none */
    uint32_t heap_tier;            /* 0 for what the device tells; 1 to separate categories at tier 2, too */
    D3D12_HEAP_FLAGS heap_flags;   /* of each heap, beside the allocator's: D3D12_HEAP_FLAG_CREATE_NOT_ZEROED, for example */
    UINT64 device_block_size;
    UINT64 largest_device_block_size;
    UINT64 host_block_size;
    UINT64 largest_host_block_size;
    pilhangko_d3d12_write capture_write; /* where the capture goes; NULL for no capture */
    void *capture_user;                  /* handed to capture_write */
    bool externally_synchronized;        /* whether the caller sees to it that one call is made at a time: no lock is taken */
} pilhangko_d3d12_settings;

/* Makes a binding without heaps in an empty handle. It asks the device for its newest interface, its heap tier and its architecture.
 * NULL_POINTER: a pointer, or the device. IN_USE: the handle isn't empty. HOST_OUT_OF_MEMORY: the binding's own. CALL_FAILED: the device
 * doesn't tell its heap tier, and the settings don't. INVALID_TIER: the tier is 0. HOST_OUT_OF_MEMORY. */
PILHANGKO_NODISCARD PILHANGKO_API pilhangko_d3d12_result PILHANGKO_CALL pilhangko_d3d12_create(
    pilhangko_d3d12 *d3d12, const pilhangko_d3d12_settings *settings);

/* How a capture ended. */
typedef PILHANGKO_ENUM(pilhangko_d3d12_capture_end) {
    /* There is none, or its end was told before. */
    PILHANGKO_D3D12_CAPTURE_NONE = 0,
    /* All calls are in it. */
    PILHANGKO_D3D12_CAPTURE_WHOLE = 1,
    /* It ends before the call that would have carried it past the longest trace. */
    PILHANGKO_D3D12_CAPTURE_TOO_LONG = 2,
    /* It ends before the call for whose lines there was no host memory. */
    PILHANGKO_D3D12_CAPTURE_NO_HOST_MEMORY = 3,
    /* capture_write couldn't take all of it. */
    PILHANGKO_D3D12_CAPTURE_NOT_WRITTEN = 4
} pilhangko_d3d12_capture_end;
typedef struct pilhangko_d3d12_capture {
    pilhangko_d3d12_capture_end end;
    size_t bytes; /* what capture_write took */
} pilhangko_d3d12_capture;

/* What a binding left: the allocations that nobody freed, those of committed resources too, and the capture, where it was still under way. */
typedef struct pilhangko_d3d12_ending {
    uint64_t leaks;
    pilhangko_d3d12_capture capture;
} pilhangko_d3d12_ending;

/* Ends a binding: writes the capture, if one is under way, releases each heap, the adapter and the device, and leaves the handle empty.
 * Resources are the caller's to release before. ending may be NULL.
 * NULL_POINTER: the handle. NO_HANDLE. */
PILHANGKO_API pilhangko_status PILHANGKO_CALL pilhangko_d3d12_destroy(pilhangko_d3d12 *d3d12, pilhangko_d3d12_ending *ending);

/* ---- Memory ---- */

/* What memory is wanted for. */
typedef struct pilhangko_d3d12_request {
    UINT64 size;      /* not 0 */
    UINT64 alignment; /* a power of two */
    pilhangko_location location;
    pilhangko_category category;
    const char *name;   /* copied; NULL for none */
    uint64_t user_data; /* the word of the caller's that it begins with */
} pilhangko_d3d12_request;

/* An allocation: place resources in heap, at offset. The heap is lent, and lives as long as the allocation; a committed resource has none,
 * and its piece is all zeros. The calls read the last three fields alone. One that was freed is refused for good (PILHANGKO_NOT_LIVE), and
 * so is one of another binding, also of one that was destroyed. (Bindings of copies of pilhangko_d3d12.c in different shared libraries are
 * numbered apart: keep their allocations apart.) */
typedef struct pilhangko_d3d12_allocation {
    ID3D12Heap *heap; /* NULL of a committed resource */
    UINT64 offset;
    UINT64 size;
    pilhangko_heaps_piece piece;
    uint64_t owner;  /* which binding: 1, 2, .. as the process made them */
    uint64_t serial; /* which of its allocations: 1, 2, .. as they were made */
    uint32_t index;  /* the library's own */
} pilhangko_d3d12_allocation;

/* What a resource needs: GetResourceAllocationInfo's size and alignment, and its category. name is handed on; the word is 0.
 * NULL_POINTER. NO_HANDLE. INVALID: the device says that there is no such resource. */
PILHANGKO_NODISCARD PILHANGKO_API pilhangko_status PILHANGKO_CALL pilhangko_d3d12_read_request(const pilhangko_d3d12 *d3d12,
    const D3D12_RESOURCE_DESC *desc, pilhangko_location location, const char *name, pilhangko_d3d12_request *request);

/* Allocates memory for resources that the caller places there: beside one another, one after the other, or so that they alias. At resource
 * heap tier 1 all are of the request's category.
 * NULL_POINTER. NO_HANDLE. HOST_OUT_OF_MEMORY: the binding's own. Then the causes of pilhangko_heaps_begin, or why the driver refused the
 * heap: DEVICE_REMOVED, or as with pilhangko_heaps_refused OUT_OF_MEMORY or DRIVER_REFUSED. */
PILHANGKO_NODISCARD PILHANGKO_API pilhangko_d3d12_result PILHANGKO_CALL pilhangko_d3d12_allocate(
    pilhangko_d3d12 *d3d12, const pilhangko_d3d12_request *request, pilhangko_d3d12_allocation *allocation);

/* Frees an allocation, and releases its heap where that goes too: release what lies there first. A committed resource's is forgotten, and
 * the resource stays the caller's.
 * NULL_POINTER. NO_HANDLE. NOT_LIVE. */
PILHANGKO_NODISCARD PILHANGKO_API pilhangko_status PILHANGKO_CALL pilhangko_d3d12_free(
    pilhangko_d3d12 *d3d12, const pilhangko_d3d12_allocation *allocation);

/* Moves. A second place for a live allocation, in a heap that is there: the one that this request, which it was made for, would get as a new
 * allocation, if that lies in a heap that is looked at before its own. *moves says whether there is one, and *to is the allocation there, with
 * the first one's word; nothing is asked of the device. Then both are live: make the resource anew at the second
 * (pilhangko_d3d12_place_resource), copy, and free the first once the device has finished, which ends the move; or free the second, which
 * abandons it. Where *moves is false the allocation stays where it is, and *to as it was.
 * NULL_POINTER. NO_HANDLE. NOT_LIVE: also of a committed resource, which stays. HOST_OUT_OF_MEMORY: the binding's own. INVALID: the request, its
 * name, or a size that isn't the allocation's. HOST_OUT_OF_MEMORY. */
PILHANGKO_NODISCARD PILHANGKO_API pilhangko_status PILHANGKO_CALL pilhangko_d3d12_propose_move(pilhangko_d3d12 *d3d12,
    const pilhangko_d3d12_allocation *from, const pilhangko_d3d12_request *request, bool *moves, pilhangko_d3d12_allocation *to);

/* An allocation that may move, and the request that it was made by (of a placed resource the one
 * that pilhangko_d3d12_read_request tells). */
typedef struct pilhangko_d3d12_movable {
    pilhangko_d3d12_allocation allocation;
    pilhangko_d3d12_request request;
} pilhangko_d3d12_movable;

/* A move that is open: of which allocation of the table, and its second place. */
typedef struct pilhangko_d3d12_move {
    size_t index;
    pilhangko_d3d12_allocation to;
} pilhangko_d3d12_move;

/* Moves that stay open over frames, and what came of those that were finished. It begins zeroed, as in `pilhangko_d3d12_defragmentation it = {0};`,
 * and its fields are only read. While moves are open it is one binding's, and holds host memory: end it then. It has no lock: it is given to one
 * call at a time, on any thread. Other threads may call the binding meanwhile, whose own lock holds, but do nothing with the allocations of open
 * moves. (c/pilhangko_d3d12_defragment.c) */
typedef struct pilhangko_d3d12_defragmentation {
    size_t open; /* moves that are neither finished nor abandoned */
    bool done;   /* whether the last propose found no move while none was open */
    uint64_t moves_finished;
    UINT64 bytes_moved;         /* the sum of their sizes */
    uint64_t blocks_given_back; /* heaps that went back to the device as finish freed first places */
    UINT64 bytes_given_back;    /* the sum of their sizes */
    struct pilhangko_d3d12_open_move *open_moves; /* the library's own, as are the next two */
    size_t room;
    const void *binding;
} pilhangko_d3d12_defragmentation;

/* Proposes the moves of a frame, as pilhangko_d3d12_propose_move does, and remembers them as open: goes over the table, allocations in the lowest
 * slot first, so that low heaps empty, and proposes moves that sum up to so many bytes at most, and that moves has room for. *proposed says how
 * many. Allocations that are a place of an open move are passed over, so that the table may be the same each frame, and so are committed resources.
 * One that shall stay isn't put into it; one of more than so many bytes stays. Once none is proposed while none is open, it is done: by these bounds
 * no allocation of the table has a place in a heap that is looked at before its own. Where a proposal fails, those before it in this frame are
 * abandoned, and what moves holds doesn't count.
 * NULL_POINTER. NO_HANDLE. NOT_LIVE: moves of another binding are open. HOST_OUT_OF_MEMORY: its own, as it goes. The causes of
 * pilhangko_d3d12_propose_move. */
PILHANGKO_NODISCARD PILHANGKO_API pilhangko_status PILHANGKO_CALL pilhangko_d3d12_defragmentation_propose(pilhangko_d3d12 *d3d12,
    pilhangko_d3d12_defragmentation *it, const pilhangko_d3d12_movable *movables, size_t count, UINT64 bytes, pilhangko_d3d12_move *moves,
    size_t room, size_t *proposed);

/* Finishes the open move to this second place: frees the first one, and gives its heap back where that goes too. The resource at the first is
 * released before, by its last reference. (Where pilhangko_d3d12_destroy_resource freed the first place with it, the move is finished all the same,
 * but no heap of it is counted as given back.)
 * NULL_POINTER. NO_HANDLE. NOT_LIVE: no open move of this binding is to this place, or the place was freed. */
PILHANGKO_NODISCARD PILHANGKO_API pilhangko_status PILHANGKO_CALL pilhangko_d3d12_defragmentation_finish(
    pilhangko_d3d12 *d3d12, pilhangko_d3d12_defragmentation *it, const pilhangko_d3d12_allocation *to);

/* Abandons the open move to this second place, and frees that, unless it was freed already. The resource there is released before. The
 * allocation stays where it is, and may be proposed again.
 * NULL_POINTER. NO_HANDLE. NOT_LIVE: no open move of this binding is to this place. */
PILHANGKO_NODISCARD PILHANGKO_API pilhangko_status PILHANGKO_CALL pilhangko_d3d12_defragmentation_abandon(
    pilhangko_d3d12 *d3d12, pilhangko_d3d12_defragmentation *it, const pilhangko_d3d12_allocation *to);

/* Abandons the open moves; one whose first place isn't live any more is finished instead. What was counted may still be read.
 * NULL_POINTER. NO_HANDLE. NOT_LIVE: moves of another binding are open. */
PILHANGKO_NODISCARD PILHANGKO_API pilhangko_status PILHANGKO_CALL pilhangko_d3d12_defragmentation_end(
    pilhangko_d3d12 *d3d12, pilhangko_d3d12_defragmentation *it);

/* Renames a live allocation. The names of the resources there are theirs, and the caller's to change by SetName.
 * NULL_POINTER. NO_HANDLE. INVALID: the name. NOT_LIVE: also of a committed resource, whose record has no name. HOST_OUT_OF_MEMORY. */
PILHANGKO_NODISCARD PILHANGKO_API pilhangko_status PILHANGKO_CALL pilhangko_d3d12_rename(
    pilhangko_d3d12 *d3d12, const pilhangko_d3d12_allocation *allocation, const char *name);

/* Whether an allocation is live.
 * NULL_POINTER. NO_HANDLE. */
PILHANGKO_NODISCARD PILHANGKO_API pilhangko_status PILHANGKO_CALL pilhangko_d3d12_is_live(
    const pilhangko_d3d12 *d3d12, const pilhangko_d3d12_allocation *allocation, bool *is_live);

/* A word of the caller's beside a live allocation, a pointer to its own record, for example: puts another one in its place, and reads it. A visit
 * of the allocator's pieces shows it too; a committed resource has no piece.
 * NULL_POINTER. NO_HANDLE. NOT_LIVE. */
PILHANGKO_NODISCARD PILHANGKO_API pilhangko_status PILHANGKO_CALL pilhangko_d3d12_set_user_data(
    pilhangko_d3d12 *d3d12, const pilhangko_d3d12_allocation *allocation, uint64_t word);
PILHANGKO_NODISCARD PILHANGKO_API pilhangko_status PILHANGKO_CALL pilhangko_d3d12_user_data(
    const pilhangko_d3d12 *d3d12, const pilhangko_d3d12_allocation *allocation, uint64_t *word);

/* The sum of the sizes of all heaps. A committed resource has none.
 * NULL_POINTER. NO_HANDLE. */
PILHANGKO_NODISCARD PILHANGKO_API pilhangko_status PILHANGKO_CALL pilhangko_d3d12_capacity(const pilhangko_d3d12 *d3d12, UINT64 *bytes);

/* ---- Resources ---- */

/* Where a resource goes, and how it begins. All zeros but location and state it is placed, begins in a state, and has no name. What it
 * points at is read in the call alone. */
typedef struct pilhangko_d3d12_placement {
    pilhangko_location location;
    D3D12_RESOURCE_STATES state; /* how it begins; with in_layout a D3D12_BARRIER_LAYOUT by its number */
    bool in_layout;              /* needs an ID3D12Device10 */
    UINT32 format_count;         /* castable formats need an ID3D12Device12 and in_layout */
    const DXGI_FORMAT *formats;
    const D3D12_CLEAR_VALUE *clear_value; /* NULL for none */
    bool committed;                       /* whether it shall have memory of its own */
    D3D12_HEAP_FLAGS committed_flags;     /* of the heap that comes with a committed one */
    const char *name;                     /* UTF-8, of the allocation, and by SetName of the resource; copied; NULL for none */
    uint64_t user_data;                   /* as in a request */
} pilhangko_d3d12_placement;

/* Makes a resource with an allocation: placed in a heap, or committed. What was made is undone where something fails. A name of more than
 * 127 UTF-16 units is cut for SetName, and whether the driver takes it isn't told.
 * NULL_POINTER. NO_HANDLE. Of pilhangko_heaps_choose_call: FORMATS_NEED_LAYOUT. FORMATS_NEED_DEVICE12. LAYOUT_NEEDS_DEVICE10. INVALID: the
 * device says that there is no such resource. HOST_OUT_OF_MEMORY: the binding's own. Then of a placed one the causes of
 * pilhangko_d3d12_allocate, of a committed one those of pilhangko_heaps_begin_committed. Then CALL_FAILED or DEVICE_REMOVED: the driver
 * refused the resource. */
PILHANGKO_NODISCARD PILHANGKO_API pilhangko_d3d12_result PILHANGKO_CALL pilhangko_d3d12_create_resource(pilhangko_d3d12 *d3d12,
    const D3D12_RESOURCE_DESC *desc, const pilhangko_d3d12_placement *placement, ID3D12Resource **resource,
    pilhangko_d3d12_allocation *allocation);

/* Releases one reference of a resource, which is the last one, and then frees its allocation. Where the allocation isn't live, neither
 * happens. (`Detach` a ComPtr for it; or reset that, and call free.)
 * NULL_POINTER. NO_HANDLE. NOT_LIVE. */
PILHANGKO_NODISCARD PILHANGKO_API pilhangko_status PILHANGKO_CALL pilhangko_d3d12_destroy_resource(
    pilhangko_d3d12 *d3d12, ID3D12Resource *resource, const pilhangko_d3d12_allocation *allocation);

/* Places a resource at an offset in an allocation, beside others or over them; between those that alias, the caller puts barriers. Of
 * placement, location, committed, committed_flags and user_data don't count. The caller releases it before the allocation is freed.
 * NULL_POINTER. NO_HANDLE. Of pilhangko_heaps_choose_call: as with create_resource. NOT_LIVE: also of a committed resource. INVALID: the
 * device says that there is no such resource. OUT_OF_RANGE: it doesn't fit there, or its place isn't aligned. CALL_FAILED or DEVICE_REMOVED. */
PILHANGKO_NODISCARD PILHANGKO_API pilhangko_d3d12_result PILHANGKO_CALL pilhangko_d3d12_place_resource(pilhangko_d3d12 *d3d12,
    const pilhangko_d3d12_allocation *allocation, UINT64 offset, const D3D12_RESOURCE_DESC *desc,
    const pilhangko_d3d12_placement *placement, ID3D12Resource **resource);

/* ---- Rings ---- */

/* A ring over one buffer that the host sees: uploads that go to the next place and are freed a frame at a time (pilhangko_ring). It begins
 * zeroed and keeps the rules of the handles. pilhangko_ring_statistics and pilhangko_ring_frame_statistics of its ring say what it holds; no
 * other call is made of it, and no field is written. */
typedef struct pilhangko_d3d12_ring {
    pilhangko_ring ring;
    ID3D12Resource *buffer; /* the ring's reference */
    pilhangko_d3d12_allocation allocation;
    void *mapped; /* where the host sees the buffer's first byte, until ring_destroy */
} pilhangko_d3d12_ring;

typedef struct pilhangko_d3d12_ring_settings {
    UINT64 size;                         /* see pilhangko_ring_create for how large it has to be */
    size_t frames;                       /* how many may be in flight */
    pilhangko_d3d12_placement placement; /* in memory that the host sees: PILHANGKO_LOCATION_CPU_TO_GPU, for example */
} pilhangko_d3d12_ring_settings;

/* A piece: where it begins in the buffer, and where the host writes it. It belongs to the frame that was open, until that is retired. */
typedef struct pilhangko_d3d12_ring_piece {
    UINT64 offset;
    void *mapped;
} pilhangko_d3d12_ring_piece;

/* Makes a buffer and maps it, and a ring over it, in an empty one. The memory is coherent: what the host wrote before
 * ExecuteCommandLists, the device reads.
 * NULL_POINTER. NO_HANDLE: the binding's is empty. The causes of pilhangko_ring_create; those of pilhangko_d3d12_create_resource.
 * CALL_FAILED or DEVICE_REMOVED: the driver doesn't map it. */
PILHANGKO_NODISCARD PILHANGKO_API pilhangko_d3d12_result PILHANGKO_CALL pilhangko_d3d12_ring_create(
    pilhangko_d3d12 *d3d12, const pilhangko_d3d12_ring_settings *settings, pilhangko_d3d12_ring *ring);

/* Allocates a piece of the open frame. The buffer's first byte is aligned to 65,536 bytes, so that the piece's offset counts alone:
 * D3D12_CONSTANT_BUFFER_DATA_PLACEMENT_ALIGNMENT, for example.
 * NULL_POINTER. The causes of pilhangko_ring_allocate. */
PILHANGKO_NODISCARD PILHANGKO_API pilhangko_status PILHANGKO_CALL pilhangko_d3d12_ring_allocate(
    pilhangko_d3d12_ring *ring, UINT64 size, UINT64 alignment, pilhangko_d3d12_ring_piece *piece);

/* Ends the open frame, and frees the pieces of a frame and of all older ones.
 * NULL_POINTER. The causes of pilhangko_ring_end_frame, and of pilhangko_ring_retire. */
PILHANGKO_NODISCARD PILHANGKO_API pilhangko_status PILHANGKO_CALL pilhangko_d3d12_ring_end_frame(
    pilhangko_d3d12_ring *ring, uint64_t *frame);
PILHANGKO_NODISCARD PILHANGKO_API pilhangko_status PILHANGKO_CALL pilhangko_d3d12_ring_retire(pilhangko_d3d12_ring *ring, uint64_t frame);

/* Releases the buffer, frees its memory and leaves the ring empty. The device has finished with all its frames before, and other references
 * to the buffer are released.
 * NULL_POINTER. NO_HANDLE: the binding's or the ring's. NOT_LIVE: the ring is another binding's. */
PILHANGKO_NODISCARD PILHANGKO_API pilhangko_status PILHANGKO_CALL pilhangko_d3d12_ring_destroy(
    pilhangko_d3d12 *d3d12, pilhangko_d3d12_ring *ring);

/* ---- Budgets ---- */

/* A memory segment group. usage and budget are IDXGIAdapter3::QueryVideoMemoryInfo's, of the whole process; they are 0 where has_budget is
 * false. */
typedef struct pilhangko_d3d12_group {
    UINT64 held;      /* the sum of the sizes of this binding's heaps */
    UINT64 committed; /* of its committed resources */
    bool has_budget;  /* whether the adapter told one */
    UINT64 usage;
    UINT64 budget;
} pilhangko_d3d12_group;

/* What a group has, and what the adapter tells of it now: 0 is DXGI_MEMORY_SEGMENT_GROUP_LOCAL, where memory for GPU_ONLY lies, 1
 * DXGI_MEMORY_SEGMENT_GROUP_NON_LOCAL, where the rest lies. On a device with one memory (UMA) all of it is in group 0.
 * NULL_POINTER. NO_HANDLE. NO_SUCH_GROUP. */
PILHANGKO_NODISCARD PILHANGKO_API pilhangko_status PILHANGKO_CALL pilhangko_d3d12_read_group(
    const pilhangko_d3d12 *d3d12, uint32_t group, pilhangko_d3d12_group *read);

/* Bounds each memory type by what it holds and what its group has left now, by the adapter: once a frame, say. Memory types of one group
 * share what is left: until the next call they may take it more than once. Committed resources have no bound.
 * NULL_POINTER. NO_HANDLE. NO_BUDGETS. */
PILHANGKO_NODISCARD PILHANGKO_API pilhangko_status PILHANGKO_CALL pilhangko_d3d12_update_budgets(pilhangko_d3d12 *d3d12);

/* Bounds the sum of the sizes of a memory type's heaps, or takes the bound away; and the bound. As with pilhangko_heaps, whose
 * pilhangko_heaps_type_count says how many memory types there are.
 * NULL_POINTER. NO_HANDLE. And of set_budget, NO_SUCH_TYPE. */
PILHANGKO_NODISCARD PILHANGKO_API pilhangko_status PILHANGKO_CALL pilhangko_d3d12_set_budget(
    pilhangko_d3d12 *d3d12, uint32_t memory_type, bool has_budget, UINT64 bytes);
PILHANGKO_NODISCARD PILHANGKO_API pilhangko_status PILHANGKO_CALL pilhangko_d3d12_budget(
    const pilhangko_d3d12 *d3d12, uint32_t memory_type, pilhangko_budget *budget);

/* ---- What else the allocator tells ---- */

/* The allocator behind the binding, for each call of pilhangko.h that takes a `const pilhangko_heaps *`: statistics by memory type, blocks
 * and their pieces with names, committed resources, the report as JSON, and the texts of leaks. NULL where d3d12 is NULL or empty. It lives
 * as long as the binding; calls on both never overlap: where other threads use the binding, they stand between lock and unlock. */
PILHANGKO_NODISCARD PILHANGKO_API const pilhangko_heaps *PILHANGKO_CALL pilhangko_d3d12_allocator(const pilhangko_d3d12 *d3d12);

/* Keeps the other threads' calls of this binding waiting until unlock, for calls on the allocator behind it. Between them this thread calls
 * nothing of the binding itself. Without effect where the binding is externally_synchronized.
 * NULL_POINTER. NO_HANDLE. */
PILHANGKO_API pilhangko_status PILHANGKO_CALL pilhangko_d3d12_lock(const pilhangko_d3d12 *d3d12);

/* Lets them go on, on the thread that called lock.
 * NULL_POINTER. NO_HANDLE. */
PILHANGKO_API pilhangko_status PILHANGKO_CALL pilhangko_d3d12_unlock(const pilhangko_d3d12 *d3d12);

/* ---- The device ---- */

/* What a binding was made over. device and adapter are lent, and live as long as the binding. */
typedef struct pilhangko_d3d12_device {
    ID3D12Device *device;
    struct IDXGIAdapter3 *adapter; /* NULL for none */
    pilhangko_device_version version;
    uint32_t heap_tier; /* as the settings or the device told it */
    bool is_unified;    /* whether all memory is in one group (UMA) */
} pilhangko_d3d12_device;

/* What a binding was made over.
 * NULL_POINTER. NO_HANDLE. */
PILHANGKO_NODISCARD PILHANGKO_API pilhangko_status PILHANGKO_CALL pilhangko_d3d12_read_device(
    const pilhangko_d3d12 *d3d12, pilhangko_d3d12_device *read);

/* ---- Captures ---- */

/* A capture is the trace of a binding's calls from create on: `gpu_trace` replays it, and replies the same places, numbers and refusals
 * (docs/TRACE.md). It has the tier, the sizes of blocks and the refusals, then an `alloc` for each allocation, also for a placed resource's,
 * a `create` for each committed resource, as a buffer of so many whole 65,536 bytes, and lines for frees, renames and bounds. A placed
 * resource that the driver refused is an `alloc` and a `free`. Numbers, names, bounds and what isn't written are as in
 * pilhangko_vulkan.h.
 *
 * It is kept in host memory, at most 1 MB, and written when it ends. Where it can't go on, it ends behind a whole call, its last line says
 * why, and the binding works on. This call ends it before destroy does.
 * NULL_POINTER. NO_HANDLE. NO_CAPTURE: there is none, or it was written. */
PILHANGKO_NODISCARD PILHANGKO_API pilhangko_status PILHANGKO_CALL pilhangko_d3d12_end_capture(
    pilhangko_d3d12 *d3d12, pilhangko_d3d12_capture *capture);

#ifdef __cplusplus
}
#endif
#endif
