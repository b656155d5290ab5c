/* Pools over a fake driver: rows that were worked out by hand, each question and each request for host memory refused in turn, and random calls of
 * a binding and two pools, each beside an account of its own, whose bounds are what the others leave. Given the names of six files, the captures
 * of the three go to every other one, and to those between them what gpu_trace has to reply. */
#include "fake_vulkan.h"
#include "refusing_heap.h"
#include "vulkan_replies.h"

#define OK ((pilhangko_status)PILHANGKO_OK)

static const VkExportMemoryAllocateInfo exported = {
    VK_STRUCTURE_TYPE_EXPORT_MEMORY_ALLOCATE_INFO, NULL, VK_EXTERNAL_MEMORY_HANDLE_TYPE_OPAQUE_FD_BIT};
static const VkMemoryPriorityAllocateInfoEXT high = {VK_STRUCTURE_TYPE_MEMORY_PRIORITY_ALLOCATE_INFO_EXT, &exported, 0.75F};
static const VkMemoryPriorityAllocateInfoEXT low = {VK_STRUCTURE_TYPE_MEMORY_PRIORITY_ALLOCATE_INFO_EXT, NULL, 0.25F};

/* Settings of a pool with blocks of 4 MB, and on the host's side up to 8 MB, as those of fake_settings. */
static pilhangko_vulkan_pool_settings pool_settings(uint32_t bits) {
    pilhangko_vulkan_pool_settings settings;
    memset(&settings, 0, sizeof settings);
    settings.memory_type_bits = bits;
    settings.device_block_size = settings.host_block_size = 4 * MB;
    settings.largest_host_block_size = 8 * MB;
    return settings;
}

static pilhangko_vulkan pool_of(pilhangko_vulkan *parent, const pilhangko_vulkan_pool_settings *settings) {
    pilhangko_vulkan pool = {0};
    IS(pilhangko_vulkan_create_pool(parent, settings, &pool), PILHANGKO_OK);
    return pool;
}

static pilhangko_vulkan plain_pool(pilhangko_vulkan *parent, uint32_t bits) {
    const pilhangko_vulkan_pool_settings settings = pool_settings(bits);
    return pool_of(parent, &settings);
}

static void ends_pool(pilhangko_vulkan *pool) {
    pilhangko_vulkan_ending ending;
    IS(pilhangko_vulkan_destroy(pool, &ending), PILHANGKO_OK);
    CHECK(ending.leaks == 0 && !pool->opaque);
}

/* Nothing may be left, of the driver's and of the host's. */
static void ends(pilhangko_vulkan *vulkan) {
    ends_pool(vulkan);
    CHECK(fake.memory_count == 0 && fake.resource_count == 0 && heap_held == 0);
}

static pilhangko_vulkan_request asks(VkDeviceSize size, uint32_t bits, pilhangko_location location) {
    pilhangko_vulkan_request request = fake_request(size, 4, bits);
    request.location = location;
    request.name = "row";
    return request;
}

static pilhangko_vulkan_allocation allocates(pilhangko_vulkan *vulkan, const pilhangko_vulkan_request *request) {
    pilhangko_vulkan_allocation allocation;
    IS(pilhangko_vulkan_allocate(vulkan, request, &allocation).status, PILHANGKO_OK);
    return allocation;
}

static void is_refused(pilhangko_vulkan *vulkan, const pilhangko_vulkan_request *request, pilhangko_status status) {
    pilhangko_vulkan_allocation allocation = {.offset = 5};
    IS(pilhangko_vulkan_allocate(vulkan, request, &allocation).status, status);
    CHECK(allocation.offset == 5 && allocation.serial == 0);
}

static void frees(pilhangko_vulkan *vulkan, const pilhangko_vulkan_allocation *allocation) {
    IS(pilhangko_vulkan_free(vulkan, allocation), PILHANGKO_OK);
}

static VkDeviceSize capacity_of(const pilhangko_vulkan *vulkan) {
    VkDeviceSize bytes = 0;
    IS(pilhangko_vulkan_capacity(vulkan, &bytes), PILHANGKO_OK);
    return bytes;
}

static VkDeviceSize held_of(const pilhangko_vulkan *vulkan, uint32_t heap) {
    pilhangko_vulkan_heap read;
    IS(pilhangko_vulkan_read_heap(vulkan, heap, &read), PILHANGKO_OK);
    return read.held;
}

/* ---- made, and ended */

static void statuses(void) {
    pilhangko_vulkan vulkan = fake_binding(), empty = {0}, pool = {0}, second = {0};
    const VkMemoryDedicatedAllocateInfo alone = {VK_STRUCTURE_TYPE_MEMORY_DEDICATED_ALLOCATE_INFO, NULL, VK_NULL_HANDLE, VK_NULL_HANDLE};
    const VkMemoryPriorityAllocateInfoEXT before = {VK_STRUCTURE_TYPE_MEMORY_PRIORITY_ALLOCATE_INFO_EXT, &alone, 0.5F};
    pilhangko_vulkan_pool_settings settings = pool_settings(32); /* the device has five */
    IS(pilhangko_vulkan_create_pool(NULL, &settings, &pool), PILHANGKO_NULL_POINTER);
    IS(pilhangko_vulkan_create_pool(&vulkan, NULL, &pool), PILHANGKO_NULL_POINTER);
    IS(pilhangko_vulkan_create_pool(&vulkan, &settings, NULL), PILHANGKO_NULL_POINTER);
    IS(pilhangko_vulkan_create_pool(&empty, &settings, &pool), PILHANGKO_NO_HANDLE);
    IS(pilhangko_vulkan_create_pool(&vulkan, &settings, &vulkan), PILHANGKO_IN_USE);
    IS(pilhangko_vulkan_create_pool(&vulkan, &settings, &pool), PILHANGKO_NO_SUCH_TYPE);
    settings.memory_type_bits = 48;
    settings.next = &before;
    IS(pilhangko_vulkan_create_pool(&vulkan, &settings, &pool), PILHANGKO_INVALID);
    CHECK(!pool.opaque && fake.questions == 0);
    pool = plain_pool(&vulkan, 0);
    second = plain_pool(&pool, 0); /* of the same parent */
    IS(pilhangko_vulkan_destroy(&vulkan, NULL), PILHANGKO_IN_USE);
    ends_pool(&pool);
    IS(pilhangko_vulkan_destroy(&vulkan, NULL), PILHANGKO_IN_USE);
    ends_pool(&second);
    ends(&vulkan);
}

static void device_of(const pilhangko_vulkan *vulkan, uint32_t bits) {
    pilhangko_vulkan_device device;
    IS(pilhangko_vulkan_read_device(vulkan, &device), PILHANGKO_OK);
    CHECK(device.device == (VkDevice)(uintptr_t)2 && device.functions->vkAllocateMemory == fake_allocate && device.memory_type_bits == bits);
    CHECK(device.api_version == VK_API_VERSION_1_1 && !device.allocation_callbacks);
}

/* A pool's blocks are its own, of its sizes and memory types, and so are its allocations. */
static void apart(void) {
    pilhangko_vulkan vulkan = fake_binding(), pool = {0};
    pilhangko_vulkan_pool_settings settings = pool_settings(3);
    const pilhangko_vulkan_request device = asks(100, 31, PILHANGKO_LOCATION_GPU_ONLY), any = asks(100, 30, PILHANGKO_LOCATION_UNKNOWN),
                                   upload = asks(100, 31, PILHANGKO_LOCATION_CPU_TO_GPU), cached = asks(100, 28, PILHANGKO_LOCATION_UNKNOWN);
    bool is_live = true;
    settings.device_block_size = 8 * MB;
    pool = pool_of(&vulkan, &settings);
    device_of(&vulkan, UINT32_MAX);
    device_of(&pool, 3);
    const pilhangko_vulkan_allocation a = allocates(&vulkan, &device), b = allocates(&pool, &device), c = allocates(&pool, &any),
                                      d = allocates(&pool, &upload); /* in the host's memory */
    CHECK(a.memory != b.memory && fake_memory_of(a.memory)->size == 4 * MB && fake_memory_of(b.memory)->size == 8 * MB);
    CHECK(c.piece.memory_type == 1 && d.memory == c.memory && pilhangko_vulkan_mapped(&pool, &d));
    is_refused(&pool, &cached, PILHANGKO_NO_MEMORY_TYPE);
    CHECK(capacity_of(&vulkan) == 4 * MB && capacity_of(&pool) == 12 * MB);
    IS(pilhangko_vulkan_free(&vulkan, &b), PILHANGKO_NOT_LIVE);
    IS(pilhangko_vulkan_free(&pool, &a), PILHANGKO_NOT_LIVE);
    IS(pilhangko_vulkan_is_live(&pool, &a, &is_live), PILHANGKO_OK);
    CHECK(!is_live && !pilhangko_vulkan_mapped(&vulkan, &d));
    frees(&vulkan, &a);
    frees(&pool, &b);
    frees(&pool, &c);
    frees(&pool, &d);
    ends_pool(&pool);
    CHECK(fake.memory_count == 1); /* the parent's shared block stays */
    ends(&vulkan);
}

/* Leaks of a pool are told at its end, and its blocks go back. */
static void leaks(void) {
    pilhangko_vulkan vulkan = fake_binding(), pool = plain_pool(&vulkan, 0);
    const pilhangko_vulkan_request host = asks(100, 2, PILHANGKO_LOCATION_UNKNOWN);
    pilhangko_vulkan_ending ending;
    allocates(&pool, &host);
    allocates(&vulkan, &host);
    IS(pilhangko_vulkan_destroy(&pool, &ending), PILHANGKO_OK);
    CHECK(ending.leaks == 1 && ending.capture.end == PILHANGKO_VULKAN_CAPTURE_NONE && fake.memory_count == 1);
    IS(pilhangko_vulkan_destroy(&vulkan, &ending), PILHANGKO_OK);
    CHECK(ending.leaks == 1 && fake.memory_count == 0 && heap_held == 0);
}

/* ---- chains */

static void is_asked_with(const pilhangko_vulkan_allocation *a, float priority, VkExternalMemoryHandleTypeFlags handle_types) {
    const struct fake_memory *memory = fake_memory_of(a->memory);
    CHECK(memory->priority == priority && memory->handle_types == handle_types && memory->has_address);
}

/* Each block of the pool has its chain, behind the binding's own structs; of a request with a chain that one counts. */
static void chains(void) {
    pilhangko_vulkan vulkan = {0}, pool = {0};
    pilhangko_vulkan_settings settings = fake_settings();
    pilhangko_vulkan_pool_settings with_chain = pool_settings(0);
    pilhangko_vulkan_request device = asks(100, 1, PILHANGKO_LOCATION_GPU_ONLY), chained = device;
    const VkBufferCreateInfo info = {.sType = VK_STRUCTURE_TYPE_BUFFER_CREATE_INFO, .size = 100};
    const pilhangko_vulkan_placement placement = {.location = PILHANGKO_LOCATION_GPU_ONLY, .dedicated = true};
    pilhangko_vulkan_allocation own;
    VkBuffer buffer;
    settings.buffer_device_address = true;
    fake_begin();
    IS(pilhangko_vulkan_create(&vulkan, &settings), PILHANGKO_OK);
    with_chain.next = &high;
    pool = pool_of(&vulkan, &with_chain);
    chained.next = &low;
    const pilhangko_vulkan_allocation a = allocates(&pool, &device), b = allocates(&pool, &device), c = allocates(&pool, &chained),
                                      d = allocates(&vulkan, &device);
    CHECK(a.memory == b.memory && !a.dedicated && c.dedicated && c.memory != a.memory);
    is_asked_with(&a, 0.75F, VK_EXTERNAL_MEMORY_HANDLE_TYPE_OPAQUE_FD_BIT);
    is_asked_with(&c, 0.25F, 0);
    is_asked_with(&d, 0.0F, 0);
    IS(pilhangko_vulkan_create_buffer(&pool, &info, &placement, &buffer, &own).status, PILHANGKO_OK);
    is_asked_with(&own, 0.75F, VK_EXTERNAL_MEMORY_HANDLE_TYPE_OPAQUE_FD_BIT);
    CHECK(fake_memory_of(own.memory)->alone_for == (uint64_t)buffer);
    IS(pilhangko_vulkan_destroy_buffer(&pool, buffer, &own), PILHANGKO_OK);
    frees(&pool, &a);
    frees(&pool, &b);
    frees(&pool, &c);
    frees(&vulkan, &d);
    ends_pool(&pool);
    ends(&vulkan);
}

/* ---- what bounds all of them */

/* The driver grants three: whichever of them asks. */
static void counts(void) {
    pilhangko_vulkan vulkan = {0}, first = {0}, second = {0};
    const pilhangko_vulkan_settings settings = fake_settings();
    pilhangko_vulkan_pool_settings one = pool_settings(0);
    const pilhangko_vulkan_request device = asks(100, 1, PILHANGKO_LOCATION_GPU_ONLY), host = asks(100, 2, PILHANGKO_LOCATION_UNKNOWN);
    fake_begin();
    fake.most_memories = 3;
    IS(pilhangko_vulkan_create(&vulkan, &settings), PILHANGKO_OK);
    one.most_blocks = 1;
    first = pool_of(&vulkan, &one);
    second = plain_pool(&vulkan, 0);
    const pilhangko_vulkan_allocation a = allocates(&first, &device);
    is_refused(&first, &host, PILHANGKO_BUDGET_EXCEEDED); /* its own bound */
    const pilhangko_vulkan_allocation b = allocates(&vulkan, &device), c = allocates(&second, &device);
    is_refused(&vulkan, &host, PILHANGKO_BUDGET_EXCEEDED);
    is_refused(&second, &host, PILHANGKO_BUDGET_EXCEEDED);
    frees(&second, &c); /* its only shared block stays, until it goes */
    is_refused(&vulkan, &host, PILHANGKO_BUDGET_EXCEEDED);
    ends_pool(&second);
    const pilhangko_vulkan_allocation d = allocates(&vulkan, &host);
    frees(&first, &a);
    frees(&vulkan, &b);
    frees(&vulkan, &d);
    ends_pool(&first);
    ends(&vulkan);
}

static void limit_is(const pilhangko_vulkan *vulkan, uint32_t heap, bool exists, VkDeviceSize bytes) {
    pilhangko_budget limit = {!exists, bytes + 1};
    IS(pilhangko_vulkan_heap_limit(vulkan, heap, &limit), PILHANGKO_OK);
    CHECK(limit.exists == exists && limit.bytes == bytes);
}

static void limits(void) {
    pilhangko_vulkan vulkan = fake_binding(), pool = plain_pool(&vulkan, 0);
    const pilhangko_vulkan_request small = asks(100, 1, PILHANGKO_LOCATION_GPU_ONLY), large = asks(5 * MB, 1, PILHANGKO_LOCATION_GPU_ONLY);
    IS(pilhangko_vulkan_set_heap_limit(&pool, 0, true, 9 * MB), PILHANGKO_OK);
    IS(pilhangko_vulkan_set_heap_limit(&pool, 3, true, 9 * MB), PILHANGKO_VULKAN_NO_SUCH_HEAP);
    limit_is(&vulkan, 0, true, 9 * MB);
    limit_is(&pool, 1, false, 0);
    limit_is(&pool, 3, false, 0);
    const pilhangko_vulkan_allocation a = allocates(&vulkan, &large), b = allocates(&pool, &small);
    is_refused(&vulkan, &small, PILHANGKO_BUDGET_EXCEEDED); /* nothing is left: 5 MB and 4 MB */
    CHECK(held_of(&vulkan, 0) == 9 * MB && held_of(&pool, 0) == 9 * MB && held_of(&pool, 1) == 0);
    frees(&vulkan, &a); /* a block of its own */
    const pilhangko_vulkan_allocation c = allocates(&pool, &large);
    is_refused(&vulkan, &small, PILHANGKO_BUDGET_EXCEEDED);
    IS(pilhangko_vulkan_set_heap_limit(&vulkan, 0, false, 7), PILHANGKO_OK);
    limit_is(&pool, 0, false, 0);
    const pilhangko_vulkan_allocation d = allocates(&vulkan, &small);
    IS(pilhangko_vulkan_set_heap_limit(&vulkan, 0, true, 1), PILHANGKO_OK); /* gives no block back */
    is_refused(&pool, &large, PILHANGKO_BUDGET_EXCEEDED);
    frees(&pool, &b);
    frees(&pool, &c);
    frees(&vulkan, &d);
    ends_pool(&pool);
    ends(&vulkan);
}

/* The driver leaves 6 MB of the first heap, for all of them together. A budget of a memory type is each one's. */
static void budgets(void) {
    pilhangko_vulkan vulkan = {0}, pool = {0};
    pilhangko_vulkan_settings settings = fake_settings();
    const pilhangko_vulkan_request small = asks(100, 1, PILHANGKO_LOCATION_GPU_ONLY), large = asks(5 * MB, 1, PILHANGKO_LOCATION_GPU_ONLY);
    pilhangko_budget budget;
    settings.memory_budget = true;
    fake_begin();
    fake.usage = 20 * MB;
    fake.budget = 26 * MB;
    IS(pilhangko_vulkan_create(&vulkan, &settings), PILHANGKO_OK);
    pool = plain_pool(&vulkan, 0);
    const pilhangko_vulkan_allocation a = allocates(&vulkan, &small);
    IS(pilhangko_vulkan_update_budgets(&pool), PILHANGKO_OK);
    limit_is(&vulkan, 0, true, 10 * MB);
    const pilhangko_vulkan_allocation b = allocates(&pool, &large);
    is_refused(&vulkan, &large, PILHANGKO_BUDGET_EXCEEDED);
    is_refused(&pool, &large, PILHANGKO_BUDGET_EXCEEDED);
    frees(&pool, &b);
    IS(pilhangko_vulkan_set_budget(&pool, 0, true, 4 * MB), PILHANGKO_OK);
    IS(pilhangko_vulkan_budget(&vulkan, 0, &budget), PILHANGKO_OK);
    CHECK(!budget.exists);
    is_refused(&pool, &large, PILHANGKO_BUDGET_EXCEEDED);
    const pilhangko_vulkan_allocation c = allocates(&vulkan, &large);
    frees(&vulkan, &a);
    frees(&vulkan, &c);
    ends_pool(&pool);
    ends(&vulkan);
}

/* ---- captures */

struct written {
    char bytes[2000];
};

static bool takes(void *user, const char *bytes, size_t length) {
    strncat(((struct written *)user)->bytes, bytes, length);
    return true;
}

/* A pool's capture has its memory types, its sizes, and as bounds of memory types what the others leave. */
static void captured(void) {
    static struct written of_parent, of_pool;
    pilhangko_vulkan vulkan = {0}, pool = {0};
    pilhangko_vulkan_settings settings = fake_settings();
    pilhangko_vulkan_pool_settings blocks = pool_settings(5);
    pilhangko_vulkan_ending ending;
    const pilhangko_vulkan_request device = asks(100, 31, PILHANGKO_LOCATION_GPU_ONLY);
    fake_begin();
    settings.capture_write = blocks.capture_write = takes;
    settings.capture_user = &of_parent;
    blocks.capture_user = &of_pool;
    blocks.next = &high;
    blocks.device_block_size = 8 * MB;
    IS(pilhangko_vulkan_create(&vulkan, &settings), PILHANGKO_OK);
    pool = pool_of(&vulkan, &blocks);
    IS(pilhangko_vulkan_set_heap_limit(&vulkan, 0, true, 20 * MB), PILHANGKO_OK);
    const pilhangko_vulkan_allocation a = allocates(&pool, &device), b = allocates(&vulkan, &device), c = allocates(&pool, &device);
    frees(&pool, &a);
    frees(&pool, &c);
    frees(&vulkan, &b);
    IS(pilhangko_vulkan_destroy(&pool, &ending), PILHANGKO_OK);
    CHECK(ending.capture.end == PILHANGKO_VULKAN_CAPTURE_WHOLE && ending.capture.bytes == strlen(of_pool.bytes));
    ends(&vulkan);
    CHECK(strstr(of_pool.bytes, "granularity 1024\nsizes 8388608 4194304 0 8388608\nnew\n"));
    CHECK(!strcmp(strstr(of_pool.bytes, "new\n"), "new\nbudget 0 20971520\nalloc 1 100 4 5 GpuOnly linear managed row\nbudget 0 16777216\n"
                                                  "alloc 2 100 4 5 GpuOnly linear managed row\nfree 1\nfree 2\ndestroy\n"));
    CHECK(!strcmp(strstr(of_parent.bytes, "new\n"),
        "new\nbudget 0 12582912\nalloc 1 100 64 31 GpuOnly linear managed row\nfree 1\nbudget 0 20971520\ndestroy\n"));
}

/* ---- refusals */

#define THINGS 8

/* Allocates in both, each time in one that may lack a block, and frees all; says how many were refused. */
static unsigned script(pilhangko_vulkan *vulkan, pilhangko_vulkan *pool) {
    pilhangko_vulkan_allocation things[THINGS];
    bool lives[THINGS];
    unsigned refusals = 0;
    for (unsigned i = 0; i < THINGS; i++) {
        const pilhangko_vulkan_request request = asks(1 + i % 3 * 3 * MB, i % 4 < 2 ? 1 : 2, PILHANGKO_LOCATION_UNKNOWN);
        lives[i] = pilhangko_vulkan_allocate(i % 2 ? vulkan : pool, &request, &things[i]).status == PILHANGKO_OK;
        refusals += !lives[i];
        CHECK(capacity_of(vulkan) + capacity_of(pool) == held_of(vulkan, 0) + held_of(pool, 1));
    }
    for (unsigned i = 0; i < THINGS; i++)
        if (lives[i]) frees(i % 2 ? vulkan : pool, &things[i]);
    return refusals;
}

static void each_question_refused(void) {
    unsigned refusals = 0;
    for (uint64_t question = 1;; question++) {
        pilhangko_vulkan vulkan = fake_binding(), pool = plain_pool(&vulkan, 0);
        fake.refusals[0].answer = FAKE_REFUSES;
        fake.refusals[0].code = VK_ERROR_OUT_OF_DEVICE_MEMORY;
        fake.refusals[0].question = question;
        const unsigned refused = script(&vulkan, &pool);
        const bool is_over = fake.questions < question;
        CHECK(refused == !is_over);
        ends_pool(&pool);
        ends(&vulkan);
        refusals += refused;
        if (is_over) break;
    }
    CHECK(refusals > 5);
}

/* Host memory is refused once, where that is no capture's. */
static void each_host_request_refused(void) {
    const pilhangko_vulkan_pool_settings settings = pool_settings(0);
    unsigned without_pool = 0, refusals = 0;
    for (long request = 1;; request++) {
        pilhangko_vulkan vulkan = fake_binding(), pool = {0};
        heap_requests = 0;
        heap_refused = request;
        if (pilhangko_vulkan_create_pool(&vulkan, &settings, &pool) == PILHANGKO_HOST_OUT_OF_MEMORY) {
            CHECK(!pool.opaque);
            ends(&vulkan); /* it has no pool */
            without_pool++;
            continue;
        }
        const unsigned refused = script(&vulkan, &pool);
        const bool is_over = heap_requests < request;
        CHECK(refused == !is_over);
        heap_refused = 0;
        ends_pool(&pool);
        ends(&vulkan);
        refusals += refused;
        if (is_over) break;
    }
    printf("%u refused requests for host memory ended the making of a pool, %u an allocation\n", without_pool, refusals);
    CHECK(without_pool > 1 && refusals > 5);
}

/* ---- random calls: a binding, a pool of some memory types, and one of at most three blocks */

#define MEMBERS 3
#define LIVE 40
#define MOST_BLOCKS 9

static struct member {
    pilhangko_vulkan vulkan;
    struct allocator_account account;
    struct replies replies;
    uint32_t type_bits;
    size_t most_blocks;
    pilhangko_vulkan_allocation live[LIVE];
    size_t live_count;
} members[MEMBERS];

static pilhangko_budget heap_limits[3];
static unsigned allocated, without_room;

static uint64_t without(uint64_t bound, uint64_t others) {
    return bound > others ? bound - others : 0;
}

/* What the others leave to a member. */
static void bounds_account(struct member *m) {
    size_t blocks = MOST_BLOCKS;
    for (unsigned i = 0; i < MEMBERS; i++)
        if (&members[i] != m) blocks = (size_t)without(blocks, block_count(&members[i].account));
    m->account.has_most = true;
    m->account.most_blocks = blocks < m->most_blocks ? blocks : m->most_blocks;
    for (unsigned heap = 0; heap < 3; heap++) {
        uint64_t others = 0;
        for (unsigned i = 0; i < MEMBERS; i++)
            if (&members[i] != m) others += held_in(&members[i].account, heap);
        m->account.has_limit[heap] = heap_limits[heap].exists;
        m->account.limit[heap] = without(heap_limits[heap].bytes, others);
    }
}

/* An allocation; the device may have no memory. What it leads to by the account, and the driver's memory, has to be so. */
static void allocates_one(struct member *m) {
    struct allocator_account *a = &m->account;
    const pilhangko_location locations[] = {PILHANGKO_LOCATION_UNKNOWN, PILHANGKO_LOCATION_GPU_ONLY, PILHANGKO_LOCATION_CPU_TO_GPU,
        PILHANGKO_LOCATION_GPU_TO_CPU};
    const pilhangko_vulkan_request request = asks(1 + random_below(5 * MB), (uint32_t)random_below(32), locations[random_below(4)]);
    const uint32_t bits = request.requirements.memoryTypeBits & m->type_bits;
    const pilhangko_allocator_request asked = {request.requirements.size, bits & 8 ? FAKE_ATOM : 4, bits, PILHANGKO_KIND_LINEAR,
        request.location, PILHANGKO_SCHEME_MANAGED, 0};
    pilhangko_vulkan_allocation made;
    fake.refuses_memory = random_below(8) == 0;
    bounds_account(m);
    replies_look(&m->replies);
    const pilhangko_vulkan_result result = pilhangko_vulkan_allocate(&m->vulkan, &request, &made);
    pilhangko_status status = account_begin_request(a, &asked, "row");
    while (status == PILHANGKO_OK && a->awaits_answer) {
        if (fake.refuses_memory) status = account_refused(a, PILHANGKO_OUT_OF_MEMORY);
        else account_granted(a, result.status == PILHANGKO_OK ? (uint64_t)made.memory : 0);
    }
    IS(result.status, status);
    allocated += status == PILHANGKO_OK;
    without_room += status == PILHANGKO_BUDGET_EXCEEDED;
    if (status != PILHANGKO_OK) {
        replies_refusal(&m->replies, status);
        return;
    }
    CHECK(same_allocation(a, &made.piece));
    replies_allocation(&m->replies, &made.piece, false);
    m->live[m->live_count++] = made;
}

static void frees_some(struct member *m) {
    const size_t index = random_below(m->live_count);
    const pilhangko_vulkan_allocation gone = m->live[index];
    type_free(&m->account.types[gone.piece.memory_type], &gone.piece.piece, allocator_find(&m->account, &gone.piece));
    frees(&m->vulkan, &gone);
    replies_line(&m->replies, "ok");
    m->live[index] = m->live[--m->live_count];
}

static void sets_limit(struct member *m) {
    const uint32_t heap = (uint32_t)random_below(3);
    heap_limits[heap].exists = random_below(3) > 0;
    heap_limits[heap].bytes = heap_limits[heap].exists ? random_below(40 * MB) : 0;
    IS(pilhangko_vulkan_set_heap_limit(&m->vulkan, heap, heap_limits[heap].exists, heap_limits[heap].bytes), PILHANGKO_OK);
    limit_is(&members[random_below(MEMBERS)].vulkan, heap, heap_limits[heap].exists, heap_limits[heap].bytes);
}

static void looks(void) {
    size_t blocks = 0;
    for (unsigned i = 0; i < MEMBERS; i++) {
        CHECK(capacity_of(&members[i].vulkan) == allocator_capacity(&members[i].account));
        blocks += block_count(&members[i].account);
    }
    CHECK(blocks == fake.memory_count && blocks <= MOST_BLOCKS);
    for (unsigned heap = 0; heap < 3; heap++) {
        uint64_t held = 0;
        for (unsigned i = 0; i < MEMBERS; i++) held += held_in(&members[i].account, heap);
        CHECK(held_of(&members[random_below(MEMBERS)].vulkan, heap) == held);
    }
}

static void begins_account(struct member *m, FILE *replies) {
    struct allocator_account *a = &m->account;
    a->type_count = 5;
    a->heap_count = 3;
    a->smaller_blocks = !replies;
    for (size_t i = 0; i < 5; i++) {
        a->flags[i] = fake_types[i].propertyFlags;
        a->heap[i] = fake_types[i].heapIndex;
        a->heap_size[i] = fake_heaps[a->heap[i]].size;
        type_begin(&a->types[i], 4 * MB, a->flags[i] & 2 ? 8 * MB : 4 * MB, FAKE_GRANULARITY);
    }
    replies_begin(&m->replies, replies, a);
    replies_line(&m->replies, "ok");
}

static bool writes(void *user, const char *bytes, size_t length) {
    return fwrite(bytes, 1, length, (FILE *)user) == length;
}

static void begins(FILE *files[2 * MEMBERS]) {
    pilhangko_vulkan_settings settings = fake_settings();
    pilhangko_vulkan_pool_settings pool = pool_settings(0);
    fake_begin();
    fake.most_memories = MOST_BLOCKS;
    settings.capture_write = pool.capture_write = files[0] ? writes : NULL;
    settings.capture_user = files[0];
    IS(pilhangko_vulkan_create(&members[0].vulkan, &settings), PILHANGKO_OK);
    for (unsigned i = 0; i < MEMBERS; i++) {
        members[i].type_bits = i == 1 ? 11 : UINT32_MAX;
        members[i].most_blocks = i == 2 ? 3 : SIZE_MAX;
        begins_account(&members[i], files[2 * i + 1]);
        if (i == 0) continue;
        pool.memory_type_bits = i == 1 ? 11 : 0;
        pool.most_blocks = i == 2 ? 3 : 0;
        pool.capture_user = files[2 * i];
        IS(pilhangko_vulkan_create_pool(&members[0].vulkan, &pool, &members[i].vulkan), PILHANGKO_OK);
    }
}

/* Pools go before their parent; what they held is the others' again. */
static void finishes(void) {
    for (unsigned i = MEMBERS; i-- > 0;) {
        struct member *m = &members[i];
        while (m->live_count > 0) frees_some(m);
        bounds_account(m);
        replies_look(&m->replies);
        replies_bounds(&m->replies);
        replies_line(&m->replies, "held 0");
        ends_pool(&m->vulkan);
        m->account.type_count = 0;
    }
    CHECK(fake.memory_count == 0 && heap_held == 0);
}

static void random_run(uint64_t seed, unsigned steps, FILE *files[2 * MEMBERS]) {
    unsigned target = LIVE;
    random_state = seed;
    memset(heap_limits, 0, sizeof heap_limits);
    begins(files);
    for (unsigned i = 0; i < steps; i++) {
        struct member *m = &members[random_below(MEMBERS)];
        const uint64_t what = random_below(100);
        if (random_below(100) == 0) target = (unsigned)random_below(LIVE);
        if (what < 2) sets_limit(m);
        else if (what < 10) looks();
        else if (m->live_count < LIVE && (what < (m->live_count < target ? 75 : 30) || m->live_count == 0)) allocates_one(m);
        else frees_some(m);
    }
    finishes();
}

static void random_runs(char **names) {
    FILE *files[2 * MEMBERS] = {0};
    for (uint64_t seed = 0; seed < 4; seed++) random_run(seed, 20000, files);
    printf("80000 calls of a binding and two pools: %u allocated, %u above a bound\n", allocated, without_room);
    CHECK(allocated > 5000 && without_room > 5000);
    for (unsigned i = 0; names && i < 2 * MEMBERS; i++) CHECK((files[i] = fopen(names[i], "wb")) != NULL);
    if (names) random_run(9, 6000, files);
    for (unsigned i = 0; names && i < 2 * MEMBERS; i++) CHECK(fclose(files[i]) == 0);
}

int main(int count, char **words) {
    statuses();
    apart();
    leaks();
    chains();
    counts();
    limits();
    budgets();
    captured();
    each_question_refused();
    each_host_request_refused();
    random_runs(count == 1 + 2 * MEMBERS ? words + 1 : NULL);
    return 0;
}
