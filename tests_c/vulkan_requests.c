/* What requests and placements ask for beside what is needed, over a fake driver that checks what it is asked: an alignment, some of the memory
 * types, and chains. Rows that were worked out by hand. */
#include "fake_vulkan.h"
#include "refusing_heap.h"

#define MB (UINT64_C(1) << 20)
#define OK ((pilhangko_status)PILHANGKO_OK)

static const VkExportMemoryAllocateInfo exported = {
    VK_STRUCTURE_TYPE_EXPORT_MEMORY_ALLOCATE_INFO, NULL, VK_EXTERNAL_MEMORY_HANDLE_TYPE_OPAQUE_FD_BIT};
static const VkMemoryPriorityAllocateInfoEXT priority = {VK_STRUCTURE_TYPE_MEMORY_PRIORITY_ALLOCATE_INFO_EXT, &exported, 0.75F};

/* Nothing may be left, of the driver's and of the host's. */
static void ends(pilhangko_vulkan *vulkan) {
    pilhangko_vulkan_ending ending;
    IS(pilhangko_vulkan_destroy(vulkan, &ending), PILHANGKO_OK);
    CHECK(ending.leaks == 0 && fake.memory_count == 0 && fake.resource_count == 0 && heap_held == 0);
}

static pilhangko_vulkan_request asks(VkDeviceSize size, VkDeviceSize alignment, uint32_t bits, pilhangko_location location) {
    pilhangko_vulkan_request request = fake_request(size, alignment, bits);
    request.location = location;
    request.name = "row";
    return request;
}

static pilhangko_vulkan_allocation allocates(pilhangko_vulkan *vulkan, const pilhangko_vulkan_request *request) {
    pilhangko_vulkan_allocation allocation;
    const pilhangko_vulkan_result result = pilhangko_vulkan_allocate(vulkan, request, &allocation);
    IS(result.status, PILHANGKO_OK);
    CHECK(result.driver == VK_SUCCESS);
    return allocation;
}

static void frees(pilhangko_vulkan *vulkan, const pilhangko_vulkan_allocation *allocation) {
    IS(pilhangko_vulkan_free(vulkan, allocation), PILHANGKO_OK);
}

/* A refusal leaves the allocation as it was. */
static void is_refused(pilhangko_vulkan *vulkan, const pilhangko_vulkan_request *request, pilhangko_status status) {
    pilhangko_vulkan_allocation allocation = {.offset = 5};
    IS(pilhangko_vulkan_allocate(vulkan, request, &allocation).status, status);
    CHECK(allocation.offset == 5 && allocation.serial == 0);
}

/* ---- alignments: behind one byte a piece begins at its alignment */

static const struct {
    uint32_t bits;
    VkDeviceSize needed, minimal, offset; /* an offset of 0 says that the request is invalid */
} alignments[] = {
    {1, 4, 0, 4},
    {1, 4, 1, 4},
    {1, 4, 4, 4},
    {1, 4, 256, 256},
    {1, 256, 4, 256},
    {1, 1, MB, MB},
    {8, 4, 0, 64}, /* memory that needs flushes, in atoms of 64 */
    {8, 4, 16, 64},
    {8, 4, 128, 128},
    {8, 128, 4, 128},
    {1, 4, 3, 0},
    {1, 16, 12, 0},
    {8, 4, 65, 0},
    {1, 4, UINT64_MAX, 0},
    {1, 3, 4, 0},
    {1, 0, 4, 0},
};

static void alignment_rows(void) {
    pilhangko_vulkan vulkan = fake_binding();
    for (size_t i = 0; i < sizeof alignments / sizeof *alignments; i++) {
        const pilhangko_vulkan_request byte = asks(1, 1, alignments[i].bits, PILHANGKO_LOCATION_UNKNOWN);
        pilhangko_vulkan_request request = asks(100, alignments[i].needed, alignments[i].bits, PILHANGKO_LOCATION_UNKNOWN);
        const pilhangko_vulkan_allocation first = allocates(&vulkan, &byte);
        request.minimal_alignment = alignments[i].minimal;
        if (alignments[i].offset == 0) {
            is_refused(&vulkan, &request, PILHANGKO_INVALID);
        } else {
            const pilhangko_vulkan_allocation a = allocates(&vulkan, &request);
            CHECK(first.offset == 0 && a.memory == first.memory && a.offset == alignments[i].offset && !a.dedicated);
            frees(&vulkan, &a);
        }
        frees(&vulkan, &first);
    }
    ends(&vulkan);
}

/* ---- memory types */

static const struct {
    pilhangko_location location;
    uint32_t needed, wanted;
    int type; /* -1 where no memory type serves */
} bits[] = {
    {PILHANGKO_LOCATION_GPU_ONLY, 31, 0, 0},
    {PILHANGKO_LOCATION_GPU_ONLY, 31, 31, 0},
    {PILHANGKO_LOCATION_GPU_ONLY, 31, ~UINT32_C(0), 0},
    {PILHANGKO_LOCATION_GPU_ONLY, 31, 4, 2},
    {PILHANGKO_LOCATION_GPU_ONLY, 31, 2, -1},
    {PILHANGKO_LOCATION_CPU_TO_GPU, 31, 0, 2},
    {PILHANGKO_LOCATION_CPU_TO_GPU, 31, 18, 1}, /* uploads into the host's memory */
    {PILHANGKO_LOCATION_CPU_TO_GPU, 16, 18, 4},
    {PILHANGKO_LOCATION_GPU_TO_CPU, 31, 10, 1},
    {PILHANGKO_LOCATION_UNKNOWN, 31, 24, 3},
    {PILHANGKO_LOCATION_UNKNOWN, 1, 2, -1},
    {PILHANGKO_LOCATION_UNKNOWN, 31, 32, -1},
};

static void type_rows(void) {
    pilhangko_vulkan vulkan = fake_binding();
    for (size_t i = 0; i < sizeof bits / sizeof *bits; i++) {
        pilhangko_vulkan_request request = asks(100, 4, bits[i].needed, bits[i].location);
        request.memory_type_bits = bits[i].wanted;
        if (bits[i].type < 0) {
            is_refused(&vulkan, &request, PILHANGKO_NO_MEMORY_TYPE);
            continue;
        }
        const pilhangko_vulkan_allocation a = allocates(&vulkan, &request);
        CHECK(a.piece.memory_type == (size_t)bits[i].type);
        frees(&vulkan, &a);
    }
    ends(&vulkan);
}

/* Memory types that aren't wanted don't count: for the alignment, and at an upload's second attempt. */
static void types_left_out(void) {
    pilhangko_vulkan vulkan = fake_binding();
    pilhangko_vulkan_request request = asks(100, 4, 31, PILHANGKO_LOCATION_GPU_ONLY), upload = asks(100, 4, 31, PILHANGKO_LOCATION_CPU_TO_GPU);
    request.memory_type_bits = 1; /* not memory type 3, which needs flushes */
    const pilhangko_vulkan_allocation a = allocates(&vulkan, &request), b = allocates(&vulkan, &request);
    CHECK(a.offset == 0 && b.offset == 100);
    upload.memory_type_bits = 4;
    fake.refusals[0].answer = fake.refusals[1].answer = FAKE_REFUSES;
    fake.refusals[0].code = fake.refusals[1].code = VK_ERROR_OUT_OF_DEVICE_MEMORY;
    fake.refusals[0].question = fake.questions + 1;
    fake.refusals[1].question = fake.questions + 2;
    is_refused(&vulkan, &upload, PILHANGKO_OUT_OF_MEMORY); /* both attempts in memory type 2 */
    fake.refusals[0].question = fake.questions + 1;
    upload.memory_type_bits = 6;
    const pilhangko_vulkan_allocation c = allocates(&vulkan, &upload);
    CHECK(c.piece.memory_type == 1);
    frees(&vulkan, &a);
    frees(&vulkan, &b);
    frees(&vulkan, &c);
    ends(&vulkan);
}

/* ---- chains */

static bool has_chain(const pilhangko_vulkan_allocation *a) {
    const struct fake_memory *memory = fake_memory_of(a->memory);
    return memory->priority == 0.75F && memory->handle_types == VK_EXTERNAL_MEMORY_HANDLE_TYPE_OPAQUE_FD_BIT;
}

/* Memory of its own for each, of its size, for no buffer or image; the chain is only read. */
static void chain_rows(void) {
    pilhangko_vulkan vulkan = fake_binding();
    const VkMemoryPriorityAllocateInfoEXT before = priority;
    pilhangko_vulkan_request request = asks(100, 4, 1, PILHANGKO_LOCATION_GPU_ONLY), image = request;
    const pilhangko_vulkan_allocation plain = allocates(&vulkan, &request);
    request.next = &priority;
    image.next = &priority;
    image.kind = PILHANGKO_KIND_NON_LINEAR;
    const pilhangko_vulkan_allocation a = allocates(&vulkan, &request), b = allocates(&vulkan, &request), c = allocates(&vulkan, &image);
    CHECK(!plain.dedicated && !has_chain(&plain) && fake_memory_of(plain.memory)->size == 4 * MB);
    CHECK(a.dedicated && b.dedicated && c.dedicated && has_chain(&a) && has_chain(&b) && has_chain(&c));
    CHECK(a.memory != b.memory && a.offset == 0 && fake_memory_of(a.memory)->size == 100 && fake_memory_of(a.memory)->alone_for == 0);
    CHECK(before.pNext == priority.pNext && before.priority == priority.priority && !exported.pNext);
    pilhangko_vulkan_allocation_told told;
    IS(pilhangko_vulkan_read_allocation(&vulkan, &a, &told), PILHANGKO_OK);
    CHECK(!told.block_shared && told.block_size == 100);
    frees(&vulkan, &a);
    frees(&vulkan, &b);
    frees(&vulkan, &c);
    CHECK(fake.memory_count == 1);
    frees(&vulkan, &plain);
    ends(&vulkan);
}

/* An upload's second attempt has the chain too; memory with a chain is no second place, and has none. */
static void chains_in_each_attempt(void) {
    pilhangko_vulkan vulkan = fake_binding();
    pilhangko_vulkan_request upload = asks(100, 4, 31, PILHANGKO_LOCATION_CPU_TO_GPU), plain = upload;
    pilhangko_vulkan_allocation to;
    bool moves = true;
    upload.next = &priority;
    fake.refusals[0].answer = FAKE_REFUSES;
    fake.refusals[0].question = 1;
    fake.refusals[0].code = VK_ERROR_OUT_OF_DEVICE_MEMORY;
    const pilhangko_vulkan_allocation a = allocates(&vulkan, &upload);
    CHECK(a.piece.memory_type == 1 && has_chain(&a) && pilhangko_vulkan_mapped(&vulkan, &a) == fake_memory_of(a.memory)->bytes);
    const pilhangko_vulkan_allocation b = allocates(&vulkan, &plain);
    IS(pilhangko_vulkan_propose_move(&vulkan, &b, &upload, &moves, &to), PILHANGKO_INVALID);
    IS(pilhangko_vulkan_propose_move(&vulkan, &a, &upload, &moves, &to), PILHANGKO_INVALID);
    CHECK(moves);
    frees(&vulkan, &a);
    frees(&vulkan, &b);
    ends(&vulkan);
}

static VkBufferCreateInfo buffer_of(VkDeviceSize size) {
    VkBufferCreateInfo info = {.sType = VK_STRUCTURE_TYPE_BUFFER_CREATE_INFO, .size = size};
    return info;
}

static pilhangko_vulkan with_addresses(uint32_t api_version) {
    pilhangko_vulkan vulkan = {0};
    pilhangko_vulkan_settings settings = fake_settings();
    fake_begin();
    settings.buffer_device_address = true;
    settings.api_version = api_version;
    IS(pilhangko_vulkan_create(&vulkan, &settings), PILHANGKO_OK);
    return vulkan;
}

/* Of a buffer or an image: beside what the binding chains for it. */
static void placements(uint32_t api_version) {
    pilhangko_vulkan vulkan = with_addresses(api_version);
    const pilhangko_vulkan_placement with_chain = {.location = PILHANGKO_LOCATION_GPU_ONLY, .name = "shared with others", .next = &priority},
                                     aligned = {.location = PILHANGKO_LOCATION_GPU_ONLY, .minimal_alignment = 4096},
                                     narrow = {.location = PILHANGKO_LOCATION_CPU_TO_GPU, .memory_type_bits = 2},
                                     odd = {.location = PILHANGKO_LOCATION_GPU_ONLY, .minimal_alignment = 48};
    const VkBufferCreateInfo info = buffer_of(90);
    VkImageCreateInfo image_info = {.sType = VK_STRUCTURE_TYPE_IMAGE_CREATE_INFO, .extent = {.width = 90}};
    const bool has_1_1 = api_version >= VK_API_VERSION_1_1;
    pilhangko_vulkan_allocation a, b, c, d;
    VkBuffer one, two, three, four = VK_NULL_HANDLE;
    VkImage image;
    IS(pilhangko_vulkan_create_buffer(&vulkan, &info, &with_chain, &one, &a).status, OK);
    CHECK(a.dedicated && has_chain(&a) && fake_memory_of(a.memory)->size == 96 && fake_memory_of(a.memory)->has_address);
    CHECK(fake_memory_of(a.memory)->alone_for == (has_1_1 ? (uint64_t)one : 0));
    IS(pilhangko_vulkan_create_image(&vulkan, &image_info, &with_chain, &image, &b).status, OK);
    CHECK(b.dedicated && has_chain(&b) && fake_memory_of(b.memory)->alone_for == (has_1_1 ? (uint64_t)image : 0));
    IS(pilhangko_vulkan_destroy_image(&vulkan, image, &b), PILHANGKO_OK);
    IS(pilhangko_vulkan_create_buffer(&vulkan, &info, &aligned, &two, &b).status, OK);
    IS(pilhangko_vulkan_create_buffer(&vulkan, &info, &aligned, &three, &c).status, OK);
    CHECK(!b.dedicated && b.offset == 0 && c.memory == b.memory && c.offset == 4096);
    IS(pilhangko_vulkan_create_buffer(&vulkan, &info, &odd, &four, &d).status, PILHANGKO_INVALID);
    CHECK(four == VK_NULL_HANDLE && fake.resource_count == 3);
    IS(pilhangko_vulkan_create_buffer(&vulkan, &info, &narrow, &four, &d).status, OK);
    CHECK(d.piece.memory_type == 1);
    IS(pilhangko_vulkan_destroy_buffer(&vulkan, one, &a), PILHANGKO_OK);
    IS(pilhangko_vulkan_destroy_buffer(&vulkan, two, &b), PILHANGKO_OK);
    IS(pilhangko_vulkan_destroy_buffer(&vulkan, three, &c), PILHANGKO_OK);
    IS(pilhangko_vulkan_destroy_buffer(&vulkan, four, &d), PILHANGKO_OK);
    ends(&vulkan);
}

/* 145 = 29 * 5: the driver prefers memory of its own for it, and refuses that. With a chain nothing is shared in its place. */
static void refused_chains(void) {
    pilhangko_vulkan vulkan = with_addresses(VK_API_VERSION_1_1);
    const VkBufferCreateInfo info = buffer_of(145);
    pilhangko_vulkan_placement placement = {.location = PILHANGKO_LOCATION_GPU_ONLY, .next = &priority};
    pilhangko_vulkan_allocation a;
    VkBuffer buffer = VK_NULL_HANDLE;
    fake.refusals[0].answer = FAKE_REFUSES;
    fake.refusals[0].question = 2;
    fake.refusals[0].code = VK_ERROR_OUT_OF_DEVICE_MEMORY;
    const pilhangko_vulkan_result result = pilhangko_vulkan_create_buffer(&vulkan, &info, &placement, &buffer, &a);
    CHECK(result.status == PILHANGKO_OUT_OF_MEMORY && result.driver == VK_ERROR_OUT_OF_DEVICE_MEMORY && buffer == VK_NULL_HANDLE);
    CHECK(fake.resource_count == 0 && fake.memory_count == 0);
    placement.next = NULL;
    fake.last_handle++; /* an odd handle: preferred, not required */
    fake.refusals[0].question = fake.questions + 2;
    IS(pilhangko_vulkan_create_buffer(&vulkan, &info, &placement, &buffer, &a).status, OK);
    CHECK(!a.dedicated && fake_memory_of(a.memory)->size == 4 * MB);
    IS(pilhangko_vulkan_destroy_buffer(&vulkan, buffer, &a), PILHANGKO_OK);
    ends(&vulkan);
}

/* What the chain has the binding leaves out. */
static void own_structs(void) {
    pilhangko_vulkan vulkan = with_addresses(VK_API_VERSION_1_1);
    const VkBufferCreateInfo info = buffer_of(96);
    const VkMemoryAllocateFlagsInfo flags = {VK_STRUCTURE_TYPE_MEMORY_ALLOCATE_FLAGS_INFO, &priority,
        VK_MEMORY_ALLOCATE_DEVICE_ADDRESS_BIT | VK_MEMORY_ALLOCATE_DEVICE_ADDRESS_CAPTURE_REPLAY_BIT, 0};
    const pilhangko_vulkan_placement placement = {.location = PILHANGKO_LOCATION_GPU_ONLY, .next = &flags};
    VkMemoryDedicatedAllocateInfo alone = {VK_STRUCTURE_TYPE_MEMORY_DEDICATED_ALLOCATE_INFO, NULL, VK_NULL_HANDLE, VK_NULL_HANDLE};
    pilhangko_vulkan_request request = asks(96, 16, 1, PILHANGKO_LOCATION_GPU_ONLY);
    pilhangko_vulkan_allocation a;
    VkBuffer buffer;
    IS(pilhangko_vulkan_create_buffer(&vulkan, &info, &placement, &buffer, &a).status, OK);
    CHECK(fake_memory_of(a.memory)->flags == flags.flags && has_chain(&a) && fake_memory_of(a.memory)->alone_for == (uint64_t)buffer);
    alone.buffer = buffer; /* two allocations for one buffer: the fake driver counts none of them */
    request.next = &alone;
    const pilhangko_vulkan_allocation b = allocates(&vulkan, &request);
    CHECK(fake_memory_of(b.memory)->alone_for == (uint64_t)buffer && fake_memory_of(b.memory)->flags == VK_MEMORY_ALLOCATE_DEVICE_ADDRESS_BIT);
    request.scheme = PILHANGKO_SCHEME_BUFFER;
    request.buffer = buffer;
    const pilhangko_vulkan_allocation c = allocates(&vulkan, &request);
    CHECK(fake_memory_of(c.memory)->alone_for == (uint64_t)buffer);
    frees(&vulkan, &b);
    frees(&vulkan, &c);
    IS(pilhangko_vulkan_destroy_buffer(&vulkan, buffer, &a), PILHANGKO_OK);
    ends(&vulkan);
}

/* ---- flags */

static const struct {
    uint32_t required, preferred, avoided;
    int type; /* -1 where no memory type serves */
} flags[] = {
    {6, 0, 9, 1},  /* the host's, coherent and not cached */
    {6, 1, 0, 2},  /* the device's own is preferred */
    {2, 8, 4, 3},  /* cached and not coherent */
    {2, 8, 0, 3},  /* the first of two equal ones */
    {2, 12, 0, 4}, /* cached and coherent */
    {0, 0, 2, 0},  /* not seen */
    {0, 16, 0, 0}, /* what none has costs each the same */
    {0, 0, 1, 1},
    {2, 0, ~UINT32_C(0), 1}, /* two flags, of which 1 and 3 are the first with two */
    {16, 0, 0, -1},
    {9, 0, 0, -1},
};

static pilhangko_vulkan_request by_flags(VkDeviceSize size, uint32_t required, uint32_t preferred, uint32_t avoided) {
    pilhangko_vulkan_request request = asks(size, 4, 31, (pilhangko_location)0);
    request.required_flags = required;
    request.preferred_flags = preferred;
    request.avoided_flags = avoided;
    return request;
}

static void flag_rows(void) {
    pilhangko_vulkan vulkan = fake_binding();
    for (size_t i = 0; i < sizeof flags / sizeof *flags; i++) {
        const pilhangko_vulkan_request request = by_flags(100, flags[i].required, flags[i].preferred, flags[i].avoided);
        if (flags[i].type < 0) {
            is_refused(&vulkan, &request, PILHANGKO_NO_MEMORY_TYPE);
            continue;
        }
        const pilhangko_vulkan_allocation a = allocates(&vulkan, &request);
        CHECK(a.piece.memory_type == (size_t)flags[i].type);
        frees(&vulkan, &a);
    }
    ends(&vulkan);
}

/* Whether the driver was asked for memory of these types, in this order. */
static void is_asked(uint32_t count, uint32_t first, uint32_t second, uint32_t third) {
    const uint32_t types[] = {first, second, third};
    CHECK(fake.asked_count == count && memcmp(fake.asked, types, count * sizeof *types) == 0);
    fake.asked_count = 0;
}

static void refuses(uint64_t which, enum fake_answer answer, VkResult code) {
    fake.refusals[which - 1].question = fake.questions + which;
    fake.refusals[which - 1].answer = answer;
    fake.refusals[which - 1].code = code;
}

/* The next memory type is tried where one has no room: by the driver, by its budget, by its heap. No other refusal leads on. */
static void down_the_order(void) {
    pilhangko_vulkan vulkan = fake_binding();
    const pilhangko_vulkan_request staging = by_flags(100, 6, 0, 9), large = by_flags(25 * MB, 6, 1, 0);
    pilhangko_vulkan_allocation allocation;
    refuses(1, FAKE_REFUSES, VK_ERROR_OUT_OF_DEVICE_MEMORY);
    refuses(2, FAKE_GIVES_NOTHING, VK_SUCCESS);
    const pilhangko_vulkan_allocation a = allocates(&vulkan, &staging);
    is_asked(3, 1, 2, 4);
    CHECK(a.piece.memory_type == 4);
    frees(&vulkan, &a);
    const pilhangko_vulkan_allocation b = allocates(&vulkan, &large); /* memory type 2, which is preferred, lies in a heap of 24 MB */
    is_asked(1, 1, 0, 0);
    frees(&vulkan, &b);
    IS(pilhangko_vulkan_set_budget(&vulkan, 1, true, 0), PILHANGKO_OK);
    const pilhangko_vulkan_allocation c = allocates(&vulkan, &staging);
    is_asked(1, 2, 0, 0);
    frees(&vulkan, &c);
    IS(pilhangko_vulkan_set_budget(&vulkan, 1, false, 0), PILHANGKO_OK);
    refuses(1, FAKE_REFUSES, VK_ERROR_DEVICE_LOST);
    const pilhangko_vulkan_result lost = pilhangko_vulkan_allocate(&vulkan, &staging, &allocation);
    CHECK(lost.status == PILHANGKO_DRIVER_REFUSED && lost.driver == VK_ERROR_DEVICE_LOST);
    is_asked(1, 1, 0, 0);
    refuses(2, FAKE_GIVES_NOTHING, VK_SUCCESS);
    is_refused(&vulkan, &staging, PILHANGKO_FAILED_TO_MAP);
    is_asked(1, 1, 0, 0);
    ends(&vulkan);
}

/* Nothing is asked of the driver; what is there serves. */
static void never_allocated(void) {
    pilhangko_vulkan vulkan = fake_binding();
    pilhangko_vulkan_request request = by_flags(100, 0, 0, 0), own = request;
    const pilhangko_vulkan_request host = by_flags(100, 6, 0, 9);
    request.never_allocate = true;
    is_refused(&vulkan, &request, PILHANGKO_OUT_OF_MEMORY);
    const pilhangko_vulkan_allocation a = allocates(&vulkan, &host);
    const uint64_t questions = fake.questions;
    const pilhangko_vulkan_allocation b = allocates(&vulkan, &request); /* memory type 0, the first, has no block */
    CHECK(b.memory == a.memory);
    own.never_allocate = true;
    own.next = &priority; /* memory of its own is never there */
    is_refused(&vulkan, &own, PILHANGKO_OUT_OF_MEMORY);
    request.requirements.size = 5 * MB;
    is_refused(&vulkan, &request, PILHANGKO_OUT_OF_MEMORY);
    CHECK(fake.questions == questions);
    frees(&vulkan, &a);
    frees(&vulkan, &b);
    ends(&vulkan);
}

/* The two locations of the binding's, and where they go when memory is lacking. */
static void own_locations(void) {
    pilhangko_vulkan vulkan = {0};
    pilhangko_vulkan_settings settings = fake_settings();
    pilhangko_vulkan_request staging = asks(100, 4, 31, PILHANGKO_VULKAN_LOCATION_STAGING),
                             transient = asks(100, 4, 31, PILHANGKO_VULKAN_LOCATION_TRANSIENT);
    fake_begin();
    fake_types[3].propertyFlags = VK_MEMORY_PROPERTY_DEVICE_LOCAL_BIT | VK_MEMORY_PROPERTY_LAZILY_ALLOCATED_BIT;
    settings.whole_blocks = true; /* each memory type is asked once */
    IS(pilhangko_vulkan_create(&vulkan, &settings), PILHANGKO_OK);
    const pilhangko_vulkan_allocation a = allocates(&vulkan, &staging), b = allocates(&vulkan, &transient);
    CHECK(a.piece.memory_type == 1 && !a.dedicated && b.piece.memory_type == 3 && b.dedicated && fake_memory_of(b.memory)->size == 100);
    transient.requirements.memoryTypeBits = 23; /* of an image that isn't a transient attachment */
    const pilhangko_vulkan_allocation c = allocates(&vulkan, &transient);
    CHECK(c.piece.memory_type == 0 && c.dedicated);
    frees(&vulkan, &a);
    frees(&vulkan, &b);
    frees(&vulkan, &c);
    fake.asked_count = 0;
    fake.refuses_memory = true;
    transient.requirements.memoryTypeBits = 31;
    is_refused(&vulkan, &transient, PILHANGKO_OUT_OF_MEMORY);
    is_asked(3, 3, 0, 2);
    staging.requirements.size = 5 * MB;
    is_refused(&vulkan, &staging, PILHANGKO_OUT_OF_MEMORY);
    is_asked(3, 1, 2, 4);
    staging.never_allocate = true;
    is_refused(&vulkan, &staging, PILHANGKO_OUT_OF_MEMORY);
    is_asked(0, 0, 0, 0);
    ends(&vulkan);
}

/* A location beside flags is invalid, and so is one that isn't there. */
static void invalid_flags(void) {
    static const pilhangko_location locations[] = {PILHANGKO_LOCATION_GPU_ONLY, PILHANGKO_LOCATION_CPU_TO_GPU, PILHANGKO_LOCATION_GPU_TO_CPU,
        PILHANGKO_VULKAN_LOCATION_STAGING, PILHANGKO_VULKAN_LOCATION_TRANSIENT, (pilhangko_location)7};
    pilhangko_vulkan vulkan = fake_binding();
    for (size_t i = 0; i < sizeof locations / sizeof *locations; i++) {
        pilhangko_vulkan_request required = by_flags(100, 1, 0, 0), preferred = by_flags(100, 0, 1, 0), avoided = by_flags(100, 0, 0, 1);
        required.location = preferred.location = avoided.location = locations[i];
        is_refused(&vulkan, &required, PILHANGKO_INVALID);
        is_refused(&vulkan, &preferred, PILHANGKO_INVALID);
        is_refused(&vulkan, &avoided, PILHANGKO_INVALID);
    }
    pilhangko_vulkan_request none = asks(100, 4, 31, (pilhangko_location)0), never = asks(100, 4, 31, PILHANGKO_LOCATION_GPU_ONLY);
    is_refused(&vulkan, &none, PILHANGKO_INVALID);
    never.never_allocate = true;
    is_refused(&vulkan, &never, PILHANGKO_INVALID);
    CHECK(fake.questions == 0);
    ends(&vulkan);
}

/* Memory for which a feature has to be enabled serves only where flags speak of it. */
static void features(void) {
    pilhangko_vulkan vulkan = {0};
    const pilhangko_vulkan_settings settings = fake_settings();
    const pilhangko_vulkan_request plain = by_flags(100, 6, 0, 9), required = by_flags(100, 64, 0, 0), preferred = by_flags(100, 6, 64, 9);
    fake_begin();
    fake_types[1].propertyFlags |= VK_MEMORY_PROPERTY_DEVICE_COHERENT_BIT_AMD;
    IS(pilhangko_vulkan_create(&vulkan, &settings), PILHANGKO_OK);
    const pilhangko_vulkan_allocation a = allocates(&vulkan, &plain), b = allocates(&vulkan, &required), c = allocates(&vulkan, &preferred);
    CHECK(a.piece.memory_type == 2 && b.piece.memory_type == 1 && c.piece.memory_type == 1);
    frees(&vulkan, &a);
    frees(&vulkan, &b);
    frees(&vulkan, &c);
    ends(&vulkan);
}

/* ---- how many blocks there may be, of all memory types together */

static void most_blocks(void) {
    pilhangko_vulkan vulkan = {0};
    const pilhangko_vulkan_settings settings = fake_settings();
    const pilhangko_vulkan_request shared = asks(100, 4, 1, PILHANGKO_LOCATION_GPU_ONLY), host = asks(100, 4, 2, PILHANGKO_LOCATION_UNKNOWN),
                                   staging = by_flags(100, 6, 0, 9), upload = asks(100, 4, 6, PILHANGKO_LOCATION_CPU_TO_GPU);
    pilhangko_vulkan_request own = shared;
    fake_begin();
    fake.most_memories = 2;
    own.next = &priority;
    IS(pilhangko_vulkan_create(&vulkan, &settings), PILHANGKO_OK);
    const pilhangko_vulkan_allocation a = allocates(&vulkan, &shared), b = allocates(&vulkan, &own), c = allocates(&vulkan, &shared);
    CHECK(c.memory == a.memory && fake.memory_count == 2);
    const uint64_t questions = fake.questions;
    is_refused(&vulkan, &own, PILHANGKO_BUDGET_EXCEEDED);
    is_refused(&vulkan, &host, PILHANGKO_BUDGET_EXCEEDED);
    is_refused(&vulkan, &upload, PILHANGKO_BUDGET_EXCEEDED);
    is_refused(&vulkan, &staging, PILHANGKO_BUDGET_EXCEEDED);
    CHECK(fake.questions == questions);
    frees(&vulkan, &b);
    const pilhangko_vulkan_allocation d = allocates(&vulkan, &staging);
    CHECK(d.piece.memory_type == 1 && fake.memory_count == 2);
    frees(&vulkan, &a);
    frees(&vulkan, &c);
    frees(&vulkan, &d);
    ends(&vulkan);
}

/* ---- in captures: what the allocator is asked for */

static char written[2000];

static bool takes(void *user, const char *bytes, size_t length) {
    (void)user;
    strncat(written, bytes, length);
    return true;
}

static void captured(void) {
    pilhangko_vulkan vulkan = {0};
    pilhangko_vulkan_settings settings = fake_settings();
    pilhangko_vulkan_request request = asks(100, 4, 31, PILHANGKO_LOCATION_GPU_ONLY);
    fake_begin();
    settings.capture_write = takes;
    IS(pilhangko_vulkan_create(&vulkan, &settings), PILHANGKO_OK);
    request.memory_type_bits = 5;
    request.minimal_alignment = 32;
    const pilhangko_vulkan_allocation a = allocates(&vulkan, &request);
    request.next = &priority;
    const pilhangko_vulkan_allocation b = allocates(&vulkan, &request);
    request.minimal_alignment = 33;
    is_refused(&vulkan, &request, PILHANGKO_INVALID);
    frees(&vulkan, &a);
    frees(&vulkan, &b);
    ends(&vulkan);
    CHECK(!strcmp(strstr(written, "new\n"), "new\nalloc 1 100 32 5 GpuOnly linear managed row\nalloc 2 100 32 5 GpuOnly linear buffer:0 row\n"
                                            "free 1\nfree 2\ndestroy\n"));
}

/* By flags a capture has the memory type that served, with its questions alone; what was refused isn't there. */
static void captured_flags(void) {
    pilhangko_vulkan vulkan = {0};
    pilhangko_vulkan_settings settings = fake_settings();
    const pilhangko_vulkan_request staging = by_flags(100, 6, 0, 9), none = by_flags(100, 16, 0, 0),
                                   device = asks(100, 4, 1, PILHANGKO_LOCATION_GPU_ONLY);
    fake_begin();
    written[0] = 0;
    settings.capture_write = takes;
    IS(pilhangko_vulkan_create(&vulkan, &settings), PILHANGKO_OK);
    refuses(1, FAKE_REFUSES, VK_ERROR_OUT_OF_DEVICE_MEMORY);
    const pilhangko_vulkan_allocation a = allocates(&vulkan, &staging);
    is_refused(&vulkan, &none, PILHANGKO_NO_MEMORY_TYPE);
    refuses(1, FAKE_REFUSES, VK_ERROR_DEVICE_LOST);
    is_refused(&vulkan, &device, PILHANGKO_DRIVER_REFUSED);
    const pilhangko_vulkan_allocation b = allocates(&vulkan, &staging); /* memory type 1 has room again */
    refuses(1, FAKE_REFUSES, VK_ERROR_OUT_OF_DEVICE_MEMORY);
    const pilhangko_vulkan_request large = by_flags(4 * MB, 6, 0, 9);
    const pilhangko_vulkan_allocation c = allocates(&vulkan, &large); /* in a block of its own, of memory type 2 */
    frees(&vulkan, &a);
    frees(&vulkan, &b);
    frees(&vulkan, &c);
    ends(&vulkan);
    CHECK(strstr(written, "\nrefuse 3 -4\nnew\nalloc 1 100 64 4 Unknown linear managed row\nalloc 2 100 4 1 GpuOnly linear managed row\n"
                          "alloc 2 100 64 2 Unknown linear managed row\nalloc 3 4194304 64 4 Unknown linear managed row\n"
                          "free 1\nfree 2\nfree 3\ndestroy\n"));
}

/* Where no block may come each memory type is bounded by what it holds. */
static void captured_counts(void) {
    pilhangko_vulkan vulkan = {0};
    pilhangko_vulkan_settings settings = fake_settings();
    const pilhangko_vulkan_request device = asks(100, 4, 1, PILHANGKO_LOCATION_GPU_ONLY), host = asks(100, 4, 2, PILHANGKO_LOCATION_UNKNOWN);
    fake_begin();
    fake.most_memories = 1;
    written[0] = 0;
    settings.capture_write = takes;
    IS(pilhangko_vulkan_create(&vulkan, &settings), PILHANGKO_OK);
    const pilhangko_vulkan_allocation a = allocates(&vulkan, &device);
    is_refused(&vulkan, &host, PILHANGKO_BUDGET_EXCEEDED);
    frees(&vulkan, &a); /* the only shared block stays */
    ends(&vulkan);
    CHECK(!strcmp(strstr(written, "new\n"), "new\nalloc 1 100 4 1 GpuOnly linear managed row\nbudget 0 4194304\nbudget 1 0\nbudget 2 0\n"
                                            "budget 3 0\nbudget 4 0\nalloc 2 100 4 2 Unknown linear managed row\nfree 1\ndestroy\n"));
}

int main(void) {
    alignment_rows();
    type_rows();
    types_left_out();
    chain_rows();
    chains_in_each_attempt();
    placements(VK_API_VERSION_1_0);
    placements(VK_API_VERSION_1_1);
    refused_chains();
    own_structs();
    flag_rows();
    down_the_order();
    never_allocated();
    own_locations();
    invalid_flags();
    features();
    most_blocks();
    captured();
    captured_flags();
    captured_counts();
    return 0;
}
