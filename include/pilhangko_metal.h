/* Pilhangko's Metal binding: placement heaps, buffers, textures and acceleration structures of an MTLDevice, placed by a
 * pilhangko_metal_heaps.
 *
 * The binding asks the device for heaps and resources; the allocator keeps the heaps, and says where each piece lies (pilhangko.h). Compile
 * c/pilhangko_metal.m and c/pilhangko_heap.c with the program (c/pilhangko_metal_defragment.m, too, where moves stay open over frames), with
 * ARC or without, and link libgpu_c.a and the frameworks Metal and Foundation. It needs the SDK of macOS 15 or iOS 18; devices of older systems
 * make no residency set. Its own host memory is malloc's.
 *
 * Handles. A pilhangko_metal is one pointer that begins zeroed, as in `pilhangko_metal metal = {0};`, and keeps the rules of the handles of
 * pilhangko.h: it is never copied. But any threads may call it at once: it has a lock, which externally_synchronized leaves out; create and
 * destroy stand alone. It retains the device until destroy.
 *
 * Lifetimes. A resource that is made here is the caller's, with one reference, and comes with an allocation, which is no reference. Before
 * an allocation is freed the GPU is through with what lies there, and each reference to it is released: what is made there next has its
 * bytes.
 *
 * Statuses. Causes are listed at each call in the order in which they count. Whatever isn't PILHANGKO_OK leaves all as it was, out
 * parameters too; but a heap that was made for an allocation may stay for the next ones, as with each free. A device gives no code: it
 * refuses by nil.
 */
#ifndef PILHANGKO_METAL_H
#define PILHANGKO_METAL_H
#import <Foundation/Foundation.h>
#import <Metal/Metal.h>

#include "pilhangko.h"

/* An object in a struct, which doesn't retain it; a variable of the caller's that is given a reference; and what takes that reference away
 * and leaves nil. */
#if defined(__has_feature)
#if __has_feature(objc_arc)
#define PILHANGKO_METAL_LENT __unsafe_unretained
#define PILHANGKO_METAL_GIVEN __strong
#define PILHANGKO_METAL_RELEASE(variable) ((void)((variable) = nil))
#endif
#endif
#ifndef PILHANGKO_METAL_LENT
#define PILHANGKO_METAL_LENT
#define PILHANGKO_METAL_GIVEN
#define PILHANGKO_METAL_RELEASE(variable) ([(variable) release], (void)((variable) = nil))
#endif

#ifdef __cplusplus
extern "C" {
#endif

/* ---- Create and destroy ---- */

typedef struct pilhangko_metal {
    void *opaque; /* the library's own */
} pilhangko_metal;

/* Takes the next bytes of a capture, and says whether it could. It calls nothing of the same handle. */
typedef bool(PILHANGKO_CALL *pilhangko_metal_write)(void *user, const char *bytes, size_t length);

/* All zeros but the device are settings that work. A block size of 0 is 256 MB for GPU_ONLY and 64 MB for the other locations; blocks don't
 * double up where the largest size is 0. (They are brought into 4 MB to 256 MB: see pilhangko_memory_type_settings.) */
typedef struct pilhangko_metal_settings {
    PILHANGKO_METAL_LENT id<MTLDevice> device; /* create retains it */
    bool has_residency_set;                    /* whether heaps are members of an MTLResidencySet */
    uint64_t device_block_size;
    uint64_t largest_device_block_size;
    uint64_t host_block_size;
    uint64_t largest_host_block_size;
    pilhangko_metal_write capture_write; /* where the capture goes; NULL for no capture */
    void *capture_user;                  /* handed to capture_write */
    bool externally_synchronized;        /* whether the caller sees to it that one call is made at a time: no lock is taken */
} pilhangko_metal_settings;

/* Makes a binding without heaps in an empty handle. It asks the device for a residency set where the settings say so, and else for nothing.
 * NULL_POINTER: a pointer, or the device. IN_USE: the handle isn't empty. HOST_OUT_OF_MEMORY. DRIVER_REFUSED: the device makes no residency
 * set. */
PILHANGKO_NODISCARD PILHANGKO_API pilhangko_status PILHANGKO_CALL pilhangko_metal_create(
    pilhangko_metal *metal, const pilhangko_metal_settings *settings);

/* How a capture ended. */
typedef PILHANGKO_ENUM(pilhangko_metal_capture_end) {
    /* There is none, or its end was told before. */
    PILHANGKO_METAL_CAPTURE_NONE = 0,
    /* All calls are in it. */
    PILHANGKO_METAL_CAPTURE_WHOLE = 1,
    /* It ends before the call that would have carried it past the longest trace. */
    PILHANGKO_METAL_CAPTURE_TOO_LONG = 2,
    /* It ends before the call for whose lines there was no host memory. */
    PILHANGKO_METAL_CAPTURE_NO_HOST_MEMORY = 3,
    /* capture_write couldn't take all of it. */
    PILHANGKO_METAL_CAPTURE_NOT_WRITTEN = 4
} pilhangko_metal_capture_end;
typedef struct pilhangko_metal_capture {
    pilhangko_metal_capture_end end;
    size_t bytes; /* what capture_write took */
} pilhangko_metal_capture;

/* What a binding left: the allocations that nobody freed, and the capture, where it was still under way. */
typedef struct pilhangko_metal_ending {
    uint64_t leaks;
    pilhangko_metal_capture capture;
} pilhangko_metal_ending;

/* Ends a binding: writes the capture, if one is under way, has each heap leave the residency set, releases heaps, set and device, and leaves
 * the handle empty. Resources are the caller's to release before, and so is the set to be taken from each queue. ending may be NULL.
 * NULL_POINTER: the handle. NO_HANDLE. */
PILHANGKO_API pilhangko_status PILHANGKO_CALL pilhangko_metal_destroy(pilhangko_metal *metal, pilhangko_metal_ending *ending);

/* ---- Memory ---- */

/* What memory is wanted for. */
typedef struct pilhangko_metal_request {
    uint64_t size;      /* not 0 */
    uint64_t alignment; /* a power of two */
    pilhangko_location location;
    const char *name;   /* copied; NULL for none */
    uint64_t user_data; /* the word of the caller's that it begins with */
} pilhangko_metal_request;

/* An allocation: place resources in heap, at offset, with the heap's resourceOptions. The heap is lent, and lives as long as the
 * allocation. The calls read the last three fields alone. One that was freed is refused for good (PILHANGKO_NOT_LIVE), and so is one of
 * another binding, also of one that was destroyed. (Bindings of copies of pilhangko_metal.m in different dynamic libraries are numbered
 * apart: keep their allocations apart.) */
typedef struct pilhangko_metal_allocation {
    PILHANGKO_METAL_LENT id<MTLHeap> heap;
    uint64_t offset;
    uint64_t size;
    pilhangko_heaps_piece piece;
    uint64_t owner;  /* which binding: 1, 2, .. as the process made them */
    uint64_t serial; /* which of its allocations: 1, 2, .. as they were made */
    uint32_t index;  /* the library's own */
} pilhangko_metal_allocation;

/* What a buffer of so many bytes needs, a texture, or an acceleration structure of so many bytes: the size and the alignment that the
 * device tells of it in a heap. name is handed on; the word is 0.
 * NULL_POINTER. NO_HANDLE. Of a texture: HOST_OUT_OF_MEMORY: its descriptor isn't copied. */
PILHANGKO_NODISCARD PILHANGKO_API pilhangko_status PILHANGKO_CALL pilhangko_metal_read_buffer_request(const pilhangko_metal *metal,
    NSUInteger length, pilhangko_location location, const char *name, pilhangko_metal_request *request);
PILHANGKO_NODISCARD PILHANGKO_API pilhangko_status PILHANGKO_CALL pilhangko_metal_read_texture_request(const pilhangko_metal *metal,
    MTLTextureDescriptor *descriptor, pilhangko_location location, const char *name, pilhangko_metal_request *request);
PILHANGKO_NODISCARD PILHANGKO_API pilhangko_status PILHANGKO_CALL pilhangko_metal_read_acceleration_structure_request(
    const pilhangko_metal *metal, NSUInteger size, pilhangko_location location, const char *name, pilhangko_metal_request *request);

/* Allocates memory for resources that the caller places there: beside one another, one after the other, or so that they alias.
 * NULL_POINTER. NO_HANDLE. HOST_OUT_OF_MEMORY: the binding's own. Then the causes of pilhangko_metal_heaps_begin. DRIVER_REFUSED: the device
 * makes no heap. */
PILHANGKO_NODISCARD PILHANGKO_API pilhangko_status PILHANGKO_CALL pilhangko_metal_allocate(
    pilhangko_metal *metal, const pilhangko_metal_request *request, pilhangko_metal_allocation *allocation);

/* Frees an allocation. Where its heap goes too, it leaves the residency set and is released.
 * NULL_POINTER. NO_HANDLE. NOT_LIVE. */
PILHANGKO_NODISCARD PILHANGKO_API pilhangko_status PILHANGKO_CALL pilhangko_metal_free(
    pilhangko_metal *metal, const pilhangko_metal_allocation *allocation);

/* Moves. A second place for a live allocation, in a heap that is there: the one that this request, which it was made for, would get as a new
 * allocation, if that lies in a heap that is looked at before its own. *moves says whether there is one, and *to is the allocation there, with
 * the first one's word; nothing is asked of the device. Then both are live: make the resource anew at the second, by its heap, copy, and free
 * the first once the device has finished, which ends the move; or free the second, which abandons it. Where *moves is false the allocation stays
 * where it is, and *to as it was.
 * NULL_POINTER. NO_HANDLE. NOT_LIVE. HOST_OUT_OF_MEMORY: the binding's own. INVALID: the request, its name, or a size that isn't the
 * allocation's. HOST_OUT_OF_MEMORY. */
PILHANGKO_NODISCARD PILHANGKO_API pilhangko_status PILHANGKO_CALL pilhangko_metal_propose_move(pilhangko_metal *metal,
    const pilhangko_metal_allocation *from, const pilhangko_metal_request *request, bool *moves, pilhangko_metal_allocation *to);

/* An allocation that may move, and the request that it was made by (of a resource the one that
 * pilhangko_metal_read_.._request tells). */
typedef struct pilhangko_metal_movable {
    pilhangko_metal_allocation allocation;
    pilhangko_metal_request request;
} pilhangko_metal_movable;

/* A move that is open: of which allocation of the table, and its second place. */
typedef struct pilhangko_metal_move {
    size_t index;
    pilhangko_metal_allocation to;
} pilhangko_metal_move;

/* Moves that stay open over frames, and what came of those that were finished. It begins zeroed, as in `pilhangko_metal_defragmentation it = {0};`,
 * and its fields are only read. While moves are open it is one binding's, and holds host memory: end it then. It has no lock: it is given to one
 * call at a time, on any thread. Other threads may call the binding meanwhile, whose own lock holds, but do nothing with the allocations of open
 * moves. (c/pilhangko_metal_defragment.m) */
typedef struct pilhangko_metal_defragmentation {
    size_t open; /* moves that are neither finished nor abandoned */
    bool done;   /* whether the last propose found no move while none was open */
    uint64_t moves_finished;
    uint64_t bytes_moved;         /* the sum of their sizes */
    uint64_t blocks_given_back; /* heaps that went back to the device as finish freed first places */
    uint64_t bytes_given_back;    /* the sum of their sizes */
    struct pilhangko_metal_open_move *open_moves; /* the library's own, as are the next two */
    size_t room;
    const void *binding;
} pilhangko_metal_defragmentation;

/* Proposes the moves of a frame, as pilhangko_metal_propose_move does, and remembers them as open: goes over the table, allocations in the lowest
 * slot first, so that low heaps empty, and proposes moves that sum up to so many bytes at most, and that moves has room for. *proposed says how
 * many. Allocations that are a place of an open move are passed over, so that the table may be the same each frame. One that shall stay
 * isn't put into it; one of more than so many bytes stays. Once none is proposed while none is open, it is done: by these bounds no allocation of
 * the table has a place in a heap that is looked at before its own. Where a proposal fails, those before it in this frame are abandoned, and what
 * moves holds doesn't count.
 * NULL_POINTER. NO_HANDLE. NOT_LIVE: moves of another binding are open. HOST_OUT_OF_MEMORY: its own, as it goes. The causes of
 * pilhangko_metal_propose_move. */
PILHANGKO_NODISCARD PILHANGKO_API pilhangko_status PILHANGKO_CALL pilhangko_metal_defragmentation_propose(pilhangko_metal *metal,
    pilhangko_metal_defragmentation *it, const pilhangko_metal_movable *movables, size_t count, uint64_t bytes, pilhangko_metal_move *moves,
    size_t room, size_t *proposed);

/* Finishes the open move to this second place: frees the first one, and gives its heap back where that goes too. The resource at the first is
 * released before.
 * NULL_POINTER. NO_HANDLE. NOT_LIVE: no open move of this binding is to this place, or the place was freed. */
PILHANGKO_NODISCARD PILHANGKO_API pilhangko_status PILHANGKO_CALL pilhangko_metal_defragmentation_finish(
    pilhangko_metal *metal, pilhangko_metal_defragmentation *it, const pilhangko_metal_allocation *to);

/* Abandons the open move to this second place, and frees that, unless it was freed already. The resource there is released before. The
 * allocation stays where it is, and may be proposed again.
 * NULL_POINTER. NO_HANDLE. NOT_LIVE: no open move of this binding is to this place. */
PILHANGKO_NODISCARD PILHANGKO_API pilhangko_status PILHANGKO_CALL pilhangko_metal_defragmentation_abandon(
    pilhangko_metal *metal, pilhangko_metal_defragmentation *it, const pilhangko_metal_allocation *to);

/* Abandons the open moves; one whose first place isn't live any more is finished instead. What was counted may still be read.
 * NULL_POINTER. NO_HANDLE. NOT_LIVE: moves of another binding are open. */
PILHANGKO_NODISCARD PILHANGKO_API pilhangko_status PILHANGKO_CALL pilhangko_metal_defragmentation_end(
    pilhangko_metal *metal, pilhangko_metal_defragmentation *it);

/* Renames a live allocation. The labels of the resources there are theirs.
 * NULL_POINTER. NO_HANDLE. INVALID: the name. NOT_LIVE. HOST_OUT_OF_MEMORY. */
PILHANGKO_NODISCARD PILHANGKO_API pilhangko_status PILHANGKO_CALL pilhangko_metal_rename(
    pilhangko_metal *metal, const pilhangko_metal_allocation *allocation, const char *name);

/* Whether an allocation is live.
 * NULL_POINTER. NO_HANDLE. */
PILHANGKO_NODISCARD PILHANGKO_API pilhangko_status PILHANGKO_CALL pilhangko_metal_is_live(
    const pilhangko_metal *metal, const pilhangko_metal_allocation *allocation, bool *is_live);

/* A word of the caller's beside a live allocation, a pointer to its own record, for example: puts another one in its place, and reads it. A visit
 * of the allocator's pieces shows it too.
 * NULL_POINTER. NO_HANDLE. NOT_LIVE. */
PILHANGKO_NODISCARD PILHANGKO_API pilhangko_status PILHANGKO_CALL pilhangko_metal_set_user_data(
    pilhangko_metal *metal, const pilhangko_metal_allocation *allocation, uint64_t word);
PILHANGKO_NODISCARD PILHANGKO_API pilhangko_status PILHANGKO_CALL pilhangko_metal_user_data(
    const pilhangko_metal *metal, const pilhangko_metal_allocation *allocation, uint64_t *word);

/* The sum of the sizes of the heaps.
 * NULL_POINTER. NO_HANDLE. */
PILHANGKO_NODISCARD PILHANGKO_API pilhangko_status PILHANGKO_CALL pilhangko_metal_capacity(const pilhangko_metal *metal, uint64_t *bytes);

/* ---- Resources ---- */

/* Where a resource goes. */
typedef struct pilhangko_metal_placement {
    pilhangko_location location;
    const char *name;   /* UTF-8, of the allocation and the resource's label; copied; NULL for none */
    uint64_t user_data; /* as in a request */
} pilhangko_metal_placement;

/* Makes a buffer of so many bytes, a texture, or an acceleration structure of so many bytes, with an allocation, and gives it to the
 * caller. Storage mode, CPU cache mode and hazard tracking are the heap's, whatever a texture's descriptor says; the descriptor stays as it
 * is. What was made is undone where something fails.
 * NULL_POINTER. NO_HANDLE. The causes of pilhangko_metal_read_.._request, and of pilhangko_metal_allocate. CALL_FAILED: the heap makes no
 * such resource. */
PILHANGKO_NODISCARD PILHANGKO_API pilhangko_status PILHANGKO_CALL pilhangko_metal_create_buffer(pilhangko_metal *metal, NSUInteger length,
    const pilhangko_metal_placement *placement, id<MTLBuffer> PILHANGKO_METAL_GIVEN *buffer, pilhangko_metal_allocation *allocation);
PILHANGKO_NODISCARD PILHANGKO_API pilhangko_status PILHANGKO_CALL pilhangko_metal_create_texture(pilhangko_metal *metal,
    MTLTextureDescriptor *descriptor, const pilhangko_metal_placement *placement, id<MTLTexture> PILHANGKO_METAL_GIVEN *texture,
    pilhangko_metal_allocation *allocation);
PILHANGKO_NODISCARD PILHANGKO_API pilhangko_status PILHANGKO_CALL pilhangko_metal_create_acceleration_structure(pilhangko_metal *metal,
    NSUInteger size, const pilhangko_metal_placement *placement, id<MTLAccelerationStructure> PILHANGKO_METAL_GIVEN *structure,
    pilhangko_metal_allocation *allocation);

/* ---- The residency set ---- */

/* The set that each heap joins when it is made, and leaves before it is released: lent, for [queue addResidencySet:]. nil where there is
 * none, where metal is NULL, or where it is empty. */
PILHANGKO_NODISCARD PILHANGKO_API id<MTLResidencySet> PILHANGKO_CALL pilhangko_metal_residency_set(const pilhangko_metal *metal);

/* Commits the set, where there is one: the heaps that it has by now are resident from then on. Call it once behind what joined and left,
 * before work is submitted that uses it.
 * NULL_POINTER. NO_HANDLE. */
PILHANGKO_NODISCARD PILHANGKO_API pilhangko_status PILHANGKO_CALL pilhangko_metal_commit(pilhangko_metal *metal);

/* ---- Budgets ---- */

/* What the device tells of its memory now, of the whole process, and what this binding's heaps hold. */
typedef struct pilhangko_metal_memory {
    uint64_t held;   /* the sum of the sizes of the heaps */
    uint64_t usage;  /* currentAllocatedSize */
    uint64_t budget; /* recommendedMaxWorkingSetSize */
} pilhangko_metal_memory;

/* NULL_POINTER. NO_HANDLE. */
PILHANGKO_NODISCARD PILHANGKO_API pilhangko_status PILHANGKO_CALL pilhangko_metal_read_memory(
    const pilhangko_metal *metal, pilhangko_metal_memory *read);

/* Bounds each memory type by what it holds and what the device has left now: once a frame, say. Memory types share what is left: until the
 * next call they may take it more than once.
 * NULL_POINTER. NO_HANDLE. */
PILHANGKO_NODISCARD PILHANGKO_API pilhangko_status PILHANGKO_CALL pilhangko_metal_update_budgets(pilhangko_metal *metal);

/* Bounds the sum of the sizes of a memory type's heaps, or takes the bound away; and the bound. As with a pilhangko_metal_heaps, of which 0,
 * 1 and 2 are GPU_ONLY, CPU_TO_GPU and GPU_TO_CPU.
 * NULL_POINTER. NO_HANDLE. And of set_budget, NO_SUCH_TYPE. */
PILHANGKO_NODISCARD PILHANGKO_API pilhangko_status PILHANGKO_CALL pilhangko_metal_set_budget(
    pilhangko_metal *metal, uint32_t memory_type, bool has_budget, uint64_t bytes);
PILHANGKO_NODISCARD PILHANGKO_API pilhangko_status PILHANGKO_CALL pilhangko_metal_budget(
    const pilhangko_metal *metal, uint32_t memory_type, pilhangko_budget *budget);

/* ---- What else the allocator tells ---- */

/* The allocator behind the binding, for each call of pilhangko.h that takes a `const pilhangko_metal_heaps *`: statistics by memory type,
 * blocks and their pieces with names, the report as JSON, and the texts of leaks. NULL where metal is NULL or empty. It lives as long as the
 * binding; calls on both never overlap: where other threads use the binding, they stand between lock and unlock. */
PILHANGKO_NODISCARD PILHANGKO_API const pilhangko_metal_heaps *PILHANGKO_CALL pilhangko_metal_allocator(const pilhangko_metal *metal);

/* Keeps the other threads' calls of this binding waiting until unlock, for calls on the allocator behind it. Between them this thread calls
 * nothing of the binding itself. Without effect where the binding is externally_synchronized.
 * NULL_POINTER. NO_HANDLE. */
PILHANGKO_API pilhangko_status PILHANGKO_CALL pilhangko_metal_lock(const pilhangko_metal *metal);

/* Lets them go on, on the thread that called lock.
 * NULL_POINTER. NO_HANDLE. */
PILHANGKO_API pilhangko_status PILHANGKO_CALL pilhangko_metal_unlock(const pilhangko_metal *metal);

/* ---- Captures ---- */

/* A capture is the Metal trace of a binding's calls from create on: `gpu_trace` replays it, and replies the same places, numbers and
 * refusals (docs/TRACE.md). It has the settings and the device's refusals, then a line for each allocation, free and commit, and before an
 * allocation and at the end one for each memory type whose bound is another than the last line about it says; destroy ends it. A resource is
 * an allocation of what the device told of it. An allocation is called by its serial number, a refused one by the next one's. A name is
 * written as pilhangko_vulkan.h says of its captures; a rename has no line. Calls that changed nothing aren't written, but for allocations
 * that were refused for another cause than INVALID and HOST_OUT_OF_MEMORY.
 *
 * The refusals stand before the calls, so the capture is kept in host memory, at most 1 MB, and written when it ends. Where it can't go on,
 * it ends behind a whole call, its last line says why, and the binding works on. This call ends it before destroy does.
 * NULL_POINTER. NO_HANDLE. NO_CAPTURE: there is none, or it was written. */
PILHANGKO_NODISCARD PILHANGKO_API pilhangko_status PILHANGKO_CALL pilhangko_metal_end_capture(
    pilhangko_metal *metal, pilhangko_metal_capture *capture);

#ifdef __cplusplus
}
#endif
#endif
