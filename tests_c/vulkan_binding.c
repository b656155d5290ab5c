/* The Vulkan binding over a fake driver: rows that were worked out by hand, each status of each call, each question to the driver and each
 * request for host memory refused in turn, and how captures end. */
#include "fake_vulkan.h"
#include "refusing_heap.h"

#define MB (UINT64_C(1) << 20)
#define OK ((pilhangko_status)PILHANGKO_OK)

/* Nothing may be left but the leaks that are told, of the driver's and of the host's. */
static void ends(pilhangko_vulkan *vulkan, uint64_t leaks) {
    pilhangko_vulkan_ending ending = {99, {9, 9}};
    IS(pilhangko_vulkan_destroy(vulkan, &ending), PILHANGKO_OK);
    CHECK(ending.leaks == leaks && ending.capture.end == PILHANGKO_VULKAN_CAPTURE_NONE && ending.capture.bytes == 0);
    CHECK(fake.memory_count == 0 && fake.resource_count == 0 && heap_held == 0);
    IS(pilhangko_vulkan_destroy(vulkan, &ending), PILHANGKO_NO_HANDLE);
    CHECK(ending.leaks == leaks);
}

static pilhangko_vulkan_request asks(uint64_t size, uint32_t bits, pilhangko_location location) {
    pilhangko_vulkan_request request = fake_request(size, 4, bits);
    request.location = location;
    request.name = "row";
    return request;
}

static pilhangko_vulkan_allocation allocates(pilhangko_vulkan *vulkan, const pilhangko_vulkan_request *request) {
    pilhangko_vulkan_allocation allocation;
    const pilhangko_vulkan_result result = pilhangko_vulkan_allocate(vulkan, request, &allocation);
    IS(result.status, PILHANGKO_OK);
    CHECK(result.driver == VK_SUCCESS);
    return allocation;
}

static void is_at(const pilhangko_vulkan_allocation *a, uint64_t memory, VkDeviceSize offset, VkDeviceSize size, size_t type) {
    CHECK(a->memory == (VkDeviceMemory)memory && a->offset == offset && a->size == size && a->piece.memory_type == type);
}

/* ---- rows */

static void memory_rows(void) {
    pilhangko_vulkan vulkan = fake_binding();
    const pilhangko_vulkan_request device = asks(100, 31, PILHANGKO_LOCATION_GPU_ONLY),
                                   upload = asks(50, 31, PILHANGKO_LOCATION_CPU_TO_GPU),
                                   readback = asks(60, 31, PILHANGKO_LOCATION_GPU_TO_CPU),
                                   large = asks(5 * MB, 1, PILHANGKO_LOCATION_UNKNOWN);
    CHECK(fake.questions == 0); /* create asks for no memory */
    const pilhangko_vulkan_allocation first = allocates(&vulkan, &device), second = allocates(&vulkan, &device),
                                      up = allocates(&vulkan, &upload), down = allocates(&vulkan, &readback),
                                      own = allocates(&vulkan, &large);
    is_at(&first, 1, 0, 100, 0);
    is_at(&second, 1, 128, 100, 0); /* memory type 3 is allowed too and needs flushes: whole atoms of 64 bytes */
    is_at(&up, 2, 0, 50, 2);
    is_at(&down, 3, 0, 60, 4);
    is_at(&own, 4, 0, 5 * MB, 0); /* larger than a block of 4 MB */
    CHECK(fake_memory_of(first.memory)->size == 4 * MB && fake_memory_of(own.memory)->size == 5 * MB);
    CHECK(fake.questions == 6); /* for four memories and two mappings */
    CHECK(pilhangko_vulkan_mapped(&vulkan, &first) == NULL && pilhangko_vulkan_mapped(&vulkan, &own) == NULL);
    CHECK(pilhangko_vulkan_mapped(&vulkan, &up) == fake_memory_of(up.memory)->bytes);
    CHECK(pilhangko_vulkan_mapped(&vulkan, &down) == fake_memory_of(down.memory)->bytes);
    VkDeviceSize capacity = 0;
    IS(pilhangko_vulkan_capacity(&vulkan, &capacity), PILHANGKO_OK);
    CHECK(capacity == 17 * MB);
    IS(pilhangko_vulkan_free(&vulkan, &own), PILHANGKO_OK); /* its block goes with it */
    CHECK(fake.memory_count == 3);
    IS(pilhangko_vulkan_free(&vulkan, &up), PILHANGKO_OK); /* the only shared block stays */
    CHECK(fake.memory_count == 3);
    IS(pilhangko_vulkan_free(&vulkan, &up), PILHANGKO_NOT_LIVE);
    CHECK(pilhangko_vulkan_mapped(&vulkan, &up) == NULL);
    ends(&vulkan, 3);
}

static void is_flushed(VkDeviceMemory memory, VkDeviceSize offset, VkDeviceSize size, uint64_t flushes, uint64_t invalidations) {
    CHECK(fake.range.memory == memory && fake.range.offset == offset && fake.range.size == size);
    CHECK(fake.flushes == flushes && fake.invalidations == invalidations);
}

static void flush_rows(void) {
    pilhangko_vulkan vulkan = fake_binding();
    pilhangko_vulkan_request shared = asks(100, 8, PILHANGKO_LOCATION_UNKNOWN), odd = asks(9 * MB + 1000, 8, PILHANGKO_LOCATION_UNKNOWN),
                             coherent = asks(100, 2, PILHANGKO_LOCATION_UNKNOWN);
    const pilhangko_vulkan_allocation a = allocates(&vulkan, &shared), b = allocates(&vulkan, &shared), own = allocates(&vulkan, &odd),
                                      c = allocates(&vulkan, &coherent);
    const VkDeviceSize end = 9 * MB + 1000;
    is_at(&b, 1, 128, 100, 3);
    IS(pilhangko_vulkan_flush(&vulkan, &a, 0, VK_WHOLE_SIZE).status, OK);
    is_flushed(a.memory, 0, 128, 1, 0);
    IS(pilhangko_vulkan_flush(&vulkan, &b, 0, 1).status, OK);
    is_flushed(a.memory, 128, 64, 2, 0);
    IS(pilhangko_vulkan_invalidate(&vulkan, &b, 63, 2).status, OK);
    is_flushed(a.memory, 128, 128, 2, 1);
    IS(pilhangko_vulkan_invalidate(&vulkan, &b, 64, VK_WHOLE_SIZE).status, OK);
    is_flushed(a.memory, 192, 64, 2, 2);
    IS(pilhangko_vulkan_flush(&vulkan, &own, end - 1, 1).status, OK); /* 9 MB + 1000 is no whole atom: up to the block's end */
    is_flushed(own.memory, 9 * MB + 960, 40, 3, 2);
    IS(pilhangko_vulkan_flush(&vulkan, &own, 0, VK_WHOLE_SIZE).status, OK);
    is_flushed(own.memory, 0, end, 4, 2);
    IS(pilhangko_vulkan_flush(&vulkan, &a, 100, VK_WHOLE_SIZE).status, OK); /* no bytes */
    IS(pilhangko_vulkan_flush(&vulkan, &a, 5, 0).status, OK);
    IS(pilhangko_vulkan_flush(&vulkan, &c, 0, VK_WHOLE_SIZE).status, OK); /* coherent */
    IS(pilhangko_vulkan_invalidate(&vulkan, &c, 0, VK_WHOLE_SIZE).status, OK);
    IS(pilhangko_vulkan_flush(&vulkan, &a, 101, 0).status, PILHANGKO_VULKAN_OUT_OF_RANGE);
    IS(pilhangko_vulkan_flush(&vulkan, &a, 101, VK_WHOLE_SIZE).status, PILHANGKO_VULKAN_OUT_OF_RANGE);
    IS(pilhangko_vulkan_invalidate(&vulkan, &a, 1, 100).status, PILHANGKO_VULKAN_OUT_OF_RANGE);
    IS(pilhangko_vulkan_invalidate(&vulkan, &a, 1, UINT64_MAX - 1).status, PILHANGKO_VULKAN_OUT_OF_RANGE);
    IS(pilhangko_vulkan_flush(&vulkan, &c, 101, 0).status, PILHANGKO_VULKAN_OUT_OF_RANGE);
    CHECK(fake.flushes == 4 && fake.invalidations == 2);
    ends(&vulkan, 4);
}

static void refuses_next(uint64_t which, enum fake_answer answer, VkResult code) {
    fake.refusals[0].question = fake.questions + which;
    fake.refusals[0].answer = answer;
    fake.refusals[0].code = code;
}

/* Copies flush and invalidate as much as they copy. */
static void copy_rows(void) {
    pilhangko_vulkan vulkan = fake_binding();
    const pilhangko_vulkan_request shared = asks(100, 8, PILHANGKO_LOCATION_UNKNOWN), coherent = asks(100, 2, PILHANGKO_LOCATION_UNKNOWN),
                                   unseen = asks(100, 1, PILHANGKO_LOCATION_UNKNOWN);
    const pilhangko_vulkan_allocation first = allocates(&vulkan, &shared), a = allocates(&vulkan, &shared), c = allocates(&vulkan, &coherent),
                                      d = allocates(&vulkan, &unseen);
    const unsigned char *bytes = pilhangko_vulkan_mapped(&vulkan, &a);
    unsigned char back[4] = {9, 9, 9, 9};
    CHECK(first.offset == 0 && a.offset == 128);
    IS(pilhangko_vulkan_copy_to(&vulkan, "abcd", 4, &a, 62).status, OK);
    CHECK(memcmp(bytes + 62, "abcd", 4) == 0 && bytes[61] == 0 && bytes[66] == 0);
    is_flushed(a.memory, 128, 128, 1, 0);
    IS(pilhangko_vulkan_copy_from(&vulkan, &a, 63, back, 2).status, OK);
    CHECK(memcmp(back, "bc\x09\x09", 4) == 0);
    is_flushed(a.memory, 128, 128, 1, 1);
    IS(pilhangko_vulkan_copy_to(&vulkan, NULL, 0, &a, 100).status, OK);
    IS(pilhangko_vulkan_copy_from(&vulkan, &a, 100, NULL, 0).status, OK);
    IS(pilhangko_vulkan_copy_to(&vulkan, "xyz", 3, &c, 97).status, OK);
    IS(pilhangko_vulkan_copy_from(&vulkan, &c, 98, back, 2).status, OK);
    CHECK(memcmp(back, "yz\x09\x09", 4) == 0);
    IS(pilhangko_vulkan_copy_to(&vulkan, back, 2, &a, 99).status, PILHANGKO_VULKAN_OUT_OF_RANGE);
    IS(pilhangko_vulkan_copy_to(&vulkan, back, SIZE_MAX, &a, 0).status, PILHANGKO_VULKAN_OUT_OF_RANGE);
    IS(pilhangko_vulkan_copy_from(&vulkan, &a, 0, back, SIZE_MAX).status, PILHANGKO_VULKAN_OUT_OF_RANGE);
    IS(pilhangko_vulkan_copy_from(&vulkan, &a, 101, back, 0).status, PILHANGKO_VULKAN_OUT_OF_RANGE);
    IS(pilhangko_vulkan_copy_to(&vulkan, back, 1, &d, 0).status, PILHANGKO_VULKAN_NOT_MAPPED);
    IS(pilhangko_vulkan_copy_from(&vulkan, &d, 0, back, 1).status, PILHANGKO_VULKAN_NOT_MAPPED);
    CHECK(fake.flushes == 1 && fake.invalidations == 1 && memcmp(back, "yz\x09\x09", 4) == 0);
    refuses_next(1, FAKE_REFUSES, VK_ERROR_OUT_OF_HOST_MEMORY);
    const pilhangko_vulkan_result to = pilhangko_vulkan_copy_to(&vulkan, "e", 1, &a, 0);
    CHECK(to.status == PILHANGKO_VULKAN_CALL_FAILED && to.driver == VK_ERROR_OUT_OF_HOST_MEMORY && bytes[0] == 'e');
    refuses_next(1, FAKE_REFUSES, VK_ERROR_OUT_OF_DEVICE_MEMORY);
    const pilhangko_vulkan_result from = pilhangko_vulkan_copy_from(&vulkan, &a, 0, back, 1);
    CHECK(from.status == PILHANGKO_VULKAN_CALL_FAILED && from.driver == VK_ERROR_OUT_OF_DEVICE_MEMORY && back[0] == 'y');
    ends(&vulkan, 4);
}

static VkBufferCreateInfo buffer_of(VkDeviceSize size) {
    VkBufferCreateInfo info;
    memset(&info, 0, sizeof info);
    info.sType = VK_STRUCTURE_TYPE_BUFFER_CREATE_INFO;
    info.size = size;
    return info;
}

static VkImageCreateInfo image_of(uint32_t width, VkImageTiling tiling) {
    VkImageCreateInfo info;
    memset(&info, 0, sizeof info);
    info.sType = VK_STRUCTURE_TYPE_IMAGE_CREATE_INFO;
    info.extent.width = width;
    info.tiling = tiling;
    return info;
}

static const pilhangko_vulkan_placement on_gpu = {.location = PILHANGKO_LOCATION_GPU_ONLY, .name = "resource"};

/* 145 = 29 * 5: the driver prefers memory of its own for it */
static void resource_rows(uint32_t api_version) {
    pilhangko_vulkan vulkan = {0};
    pilhangko_vulkan_settings settings = fake_settings();
    pilhangko_vulkan_allocation a, b, c, d;
    pilhangko_vulkan_placement own = on_gpu;
    const VkBufferCreateInfo plain = buffer_of(90), preferred = buffer_of(145);
    const VkImageCreateInfo linear = image_of(90, VK_IMAGE_TILING_LINEAR), optimal = image_of(90, VK_IMAGE_TILING_OPTIMAL);
    const bool has_dedicated = api_version >= VK_API_VERSION_1_1;
    VkBuffer buffer, alone;
    VkImage image, pages;
    fake_begin();
    settings.api_version = api_version;
    own.dedicated = true;
    IS(pilhangko_vulkan_create(&vulkan, &settings), PILHANGKO_OK);
    IS(pilhangko_vulkan_create_buffer(&vulkan, &plain, &on_gpu, &buffer, &a).status, OK);
    IS(pilhangko_vulkan_create_image(&vulkan, &linear, &on_gpu, &image, &b).status, OK);
    IS(pilhangko_vulkan_create_image(&vulkan, &optimal, &on_gpu, &pages, &c).status, OK);
    CHECK(a.offset == 0 && a.size == 96 && b.offset == 128 && b.memory == a.memory); /* 90 needs an alignment of 16; atoms are of 64 */
    CHECK(c.memory == a.memory && c.offset == 1024);                                 /* a page of its own */
    IS(pilhangko_vulkan_create_buffer(&vulkan, &preferred, &on_gpu, &alone, &d).status, OK);
    CHECK((d.memory != a.memory) == has_dedicated && fake_memory_of(d.memory)->alone_for == (has_dedicated ? (uint64_t)alone : 0));
    IS(pilhangko_vulkan_destroy_buffer(&vulkan, alone, &d), PILHANGKO_OK);
    IS(pilhangko_vulkan_create_buffer(&vulkan, &plain, &own, &alone, &d).status, OK); /* memory of its own in Vulkan 1.0 too */
    CHECK(d.memory != a.memory && d.offset == 0 && fake_memory_of(d.memory)->size == 96);
    CHECK(fake_memory_of(d.memory)->alone_for == (has_dedicated ? (uint64_t)alone : 0));
    IS(pilhangko_vulkan_destroy_buffer(&vulkan, alone, &d), PILHANGKO_OK);
    CHECK(fake.memory_count == 1 && fake.resource_count == 3);
    IS(pilhangko_vulkan_destroy_buffer(&vulkan, buffer, &d), PILHANGKO_NOT_LIVE);
    CHECK(fake.resource_count == 3);
    IS(pilhangko_vulkan_destroy_buffer(&vulkan, buffer, &a), PILHANGKO_OK);
    IS(pilhangko_vulkan_destroy_image(&vulkan, image, &b), PILHANGKO_OK);
    IS(pilhangko_vulkan_destroy_image(&vulkan, pages, &c), PILHANGKO_OK);
    IS(pilhangko_vulkan_destroy_image(&vulkan, pages, &c), PILHANGKO_NOT_LIVE);
    ends(&vulkan, 0);
}

/* What the settings lead to: callbacks, device addresses, default block sizes. */
static void settings_rows(void) {
    pilhangko_vulkan vulkan = {0};
    pilhangko_vulkan_settings settings = fake_settings();
    VkAllocationCallbacks callbacks;
    int user = 0;
    fake_begin();
    memset(&callbacks, 0, sizeof callbacks);
    callbacks.pUserData = &user;
    fake.callbacks_user = &user;
    settings.allocation_callbacks = &callbacks;
    settings.buffer_device_address = true;
    settings.device_block_size = settings.host_block_size = settings.largest_host_block_size = 0;
    fake_heaps[0].size = 2048 * MB; /* no small one */
    IS(pilhangko_vulkan_create(&vulkan, &settings), PILHANGKO_OK);
    callbacks.pUserData = NULL; /* they were copied */
    const pilhangko_vulkan_request device = asks(100, 1, PILHANGKO_LOCATION_UNKNOWN), host = asks(100, 2, PILHANGKO_LOCATION_UNKNOWN);
    const pilhangko_vulkan_allocation a = allocates(&vulkan, &device), b = allocates(&vulkan, &host);
    CHECK(fake_memory_of(a.memory)->size == 256 * MB && fake_memory_of(b.memory)->size == 64 * MB);
    CHECK(fake_memory_of(a.memory)->has_address && fake_memory_of(b.memory)->has_address);
    pilhangko_vulkan_heap heap;
    IS(pilhangko_vulkan_read_heap(&vulkan, 1, &heap), PILHANGKO_OK);
    CHECK(heap.size == 512 * MB && heap.flags == 0 && heap.held == 64 * MB && !heap.has_budget && heap.usage == 0 && heap.budget == 0);
    IS(pilhangko_vulkan_update_budgets(&vulkan), PILHANGKO_VULKAN_NO_BUDGETS);
    CHECK(pilhangko_vulkan_allocator(&vulkan) != NULL);
    uint64_t capacity = 0;
    IS(pilhangko_allocator_capacity(pilhangko_vulkan_allocator(&vulkan), &capacity), PILHANGKO_OK);
    CHECK(capacity == 320 * MB);
    ends(&vulkan, 2);
}

/* ---- statuses */

static PFN_vkVoidFunction VKAPI_CALL loads_nothing(VkInstance instance, const char *name) {
    (void)instance, (void)name;
    return NULL;
}
static PFN_vkVoidFunction VKAPI_CALL loads_one(VkDevice device, const char *name) {
    (void)device;
    return strcmp(name, "vkGetBufferMemoryRequirements2") ? (PFN_vkVoidFunction)fake_free : NULL;
}
static PFN_vkVoidFunction VKAPI_CALL loads_all(VkInstance instance, const char *name) {
    (void)instance;
    if (!strcmp(name, "vkGetDeviceProcAddr")) return (PFN_vkVoidFunction)loads_one;
    return strcmp(name, "vkGetPhysicalDeviceMemoryProperties2KHR") ? (PFN_vkVoidFunction)fake_properties : (PFN_vkVoidFunction)fake_map;
}

static void loaders(void) {
    pilhangko_vulkan_functions f;
    const VkInstance instance = (VkInstance)(uintptr_t)3;
    const VkDevice device = (VkDevice)(uintptr_t)2;
    memset(&f, 0, sizeof f);
    IS(pilhangko_vulkan_load(NULL, instance, device, 0, loads_all, loads_one), PILHANGKO_NULL_POINTER);
    IS(pilhangko_vulkan_load(&f, NULL, device, 0, loads_all, loads_one), PILHANGKO_NULL_POINTER);
    IS(pilhangko_vulkan_load(&f, instance, NULL, 0, loads_all, loads_one), PILHANGKO_NULL_POINTER);
    IS(pilhangko_vulkan_load(&f, instance, device, 0, NULL, loads_one), PILHANGKO_NULL_POINTER);
    IS(pilhangko_vulkan_load(&f, instance, device, 0, loads_nothing, NULL), PILHANGKO_VULKAN_NO_FUNCTION);
    IS(pilhangko_vulkan_load(&f, instance, device, 0, loads_nothing, loads_one), PILHANGKO_VULKAN_NO_FUNCTION);
    CHECK(!f.vkFreeMemory && !f.vkGetPhysicalDeviceProperties);
    IS(pilhangko_vulkan_load(&f, instance, device, VK_API_VERSION_1_0, loads_all, NULL), PILHANGKO_OK);
    CHECK(f.vkFreeMemory && f.vkGetPhysicalDeviceProperties && !f.vkGetBufferMemoryRequirements2 && !f.vkGetImageMemoryRequirements2);
    CHECK((PFN_vkVoidFunction)f.vkGetPhysicalDeviceMemoryProperties2 == (PFN_vkVoidFunction)fake_map);
    IS(pilhangko_vulkan_load(&f, instance, device, VK_API_VERSION_1_1, loads_all, loads_one), PILHANGKO_OK);
    CHECK(!f.vkGetBufferMemoryRequirements2 && f.vkGetImageMemoryRequirements2);
    CHECK((PFN_vkVoidFunction)f.vkGetPhysicalDeviceMemoryProperties2 == (PFN_vkVoidFunction)fake_properties);
}

/* Devices that make no sense, each with its first cause. */
static const struct {
    VkDeviceSize atom, granularity;
    uint32_t types, heaps;
    pilhangko_status status;
} odd_devices[] = {
    {0, 64, 5, 3, PILHANGKO_VULKAN_INVALID_ATOM_SIZE},
    {48, 100, 33, 17, PILHANGKO_VULKAN_INVALID_ATOM_SIZE},
    {64, 100, 33, 17, PILHANGKO_TOO_MANY_TYPES},
    {64, 100, 5, 17, PILHANGKO_VULKAN_TOO_MANY_HEAPS},
    {64, 100, 5, 2, PILHANGKO_INVALID_DEVICE},
    {64, 0, 5, 3, PILHANGKO_INVALID_DEVICE},
    {64, 64, 5, 2, PILHANGKO_NO_SUCH_HEAP},
};

static void texts(void) {
    for (size_t i = 0; i < sizeof odd_devices / sizeof *odd_devices; i++)
        CHECK(!strncmp(pilhangko_status_text(odd_devices[i].status), "invalid device: ", 16));
    for (pilhangko_status status = PILHANGKO_VULKAN_CALL_FAILED; status <= PILHANGKO_VULKAN_TOO_MANY_HEAPS; status++) {
        CHECK(!strncmp(pilhangko_status_name(status), "PILHANGKO_VULKAN_", 17));
        CHECK(strcmp(pilhangko_status_text(status), "unknown status"));
    }
    CHECK(!strcmp(pilhangko_status_text(PILHANGKO_INVALID_DEVICE), "invalid device: the page size is no power of two"));
    CHECK(!strcmp(pilhangko_status_text(PILHANGKO_INVALID_TIER), "invalid device: the resource heap tier is 0"));
    CHECK(!strcmp(pilhangko_status_text(PILHANGKO_VULKAN_INVALID_ATOM_SIZE), "invalid device: nonCoherentAtomSize is no power of two"));
    CHECK(!strcmp(pilhangko_status_text(PILHANGKO_VULKAN_TOO_MANY_HEAPS), "invalid device: more than 16 memory heaps"));
    CHECK(!strcmp(pilhangko_status_text(309), "unknown status") && !strcmp(pilhangko_status_name(309), "unknown status"));
    CHECK(!strcmp(pilhangko_vulkan_status_text(PILHANGKO_OK), pilhangko_status_text(PILHANGKO_OK))); /* by its former name */
}

static void creations(void) {
    pilhangko_vulkan vulkan = {0};
    const pilhangko_vulkan_settings good = fake_settings();
    pilhangko_vulkan_settings bad = good;
    pilhangko_vulkan_functions functions = fake_functions;
    fake_begin();
    IS(pilhangko_vulkan_create(NULL, &good), PILHANGKO_NULL_POINTER);
    IS(pilhangko_vulkan_create(&vulkan, NULL), PILHANGKO_NULL_POINTER);
    bad.device = VK_NULL_HANDLE;
    IS(pilhangko_vulkan_create(&vulkan, &bad), PILHANGKO_NULL_POINTER);
    bad = good;
    bad.physical_device = VK_NULL_HANDLE;
    IS(pilhangko_vulkan_create(&vulkan, &bad), PILHANGKO_NULL_POINTER);
    bad = good;
    bad.functions = NULL;
    IS(pilhangko_vulkan_create(&vulkan, &bad), PILHANGKO_NULL_POINTER);
    bad.functions = &functions;
    functions.vkBindImageMemory = NULL;
    IS(pilhangko_vulkan_create(&vulkan, &bad), PILHANGKO_VULKAN_NO_FUNCTION);
    functions = fake_functions;
    functions.vkGetPhysicalDeviceMemoryProperties2 = NULL;
    bad.memory_budget = true;
    IS(pilhangko_vulkan_create(&vulkan, &bad), PILHANGKO_VULKAN_NO_FUNCTION);
    for (size_t i = 0; i < sizeof odd_devices / sizeof *odd_devices; i++) {
        fake.atom = odd_devices[i].atom;
        fake.granularity = odd_devices[i].granularity;
        fake.type_count = odd_devices[i].types;
        fake.heap_count = odd_devices[i].heaps;
        IS(pilhangko_vulkan_create(&vulkan, &good), odd_devices[i].status);
        CHECK(!vulkan.opaque && heap_held == 0);
    }
    fake_begin();
    IS(pilhangko_vulkan_create(&vulkan, &good), PILHANGKO_OK);
    IS(pilhangko_vulkan_create(&vulkan, &good), PILHANGKO_IN_USE);
    IS(pilhangko_vulkan_destroy(&vulkan, NULL), PILHANGKO_OK);
    CHECK(heap_held == 0);
}

/* Each call on an empty handle, or with a pointer that is NULL: which one is NULL by its place. */
static void each_call(pilhangko_vulkan *v, unsigned null, pilhangko_status expected) {
    pilhangko_vulkan_request request = asks(100, 31, PILHANGKO_LOCATION_GPU_ONLY);
    pilhangko_vulkan_allocation a, *allocation = null == 2 ? NULL : &a;
    const VkBufferCreateInfo buffer_info = buffer_of(10);
    const VkImageCreateInfo image_info = image_of(10, VK_IMAGE_TILING_LINEAR);
    VkBuffer buffer;
    VkImage image;
    pilhangko_vulkan_capture capture;
    memset(&a, 0, sizeof a);
    IS(pilhangko_vulkan_allocate(v, null == 1 ? NULL : &request, allocation).status, expected);
    IS(pilhangko_vulkan_create_buffer(v, &buffer_info, null == 1 ? NULL : &on_gpu, &buffer, allocation).status, expected);
    IS(pilhangko_vulkan_create_buffer(v, null == 1 ? NULL : &buffer_info, &on_gpu, &buffer, allocation).status, expected);
    IS(pilhangko_vulkan_create_buffer(v, &buffer_info, &on_gpu, null ? NULL : &buffer, &a).status, expected);
    IS(pilhangko_vulkan_create_image(v, &image_info, null == 1 ? NULL : &on_gpu, &image, allocation).status, expected);
    IS(pilhangko_vulkan_create_image(v, null == 1 ? NULL : &image_info, &on_gpu, &image, allocation).status, expected);
    IS(pilhangko_vulkan_create_image(v, &image_info, &on_gpu, null ? NULL : &image, &a).status, expected);
    IS(pilhangko_vulkan_destroy_buffer(v, null == 1 ? VK_NULL_HANDLE : (VkBuffer)(uint64_t)7, allocation), expected);
    IS(pilhangko_vulkan_destroy_image(v, null == 1 ? VK_NULL_HANDLE : (VkImage)(uint64_t)7, allocation), expected);
    IS(pilhangko_vulkan_free(v, null ? NULL : &a), expected);
    IS(pilhangko_vulkan_flush(v, null ? NULL : &a, 0, 1).status, expected);
    IS(pilhangko_vulkan_invalidate(v, null ? NULL : &a, 0, 1).status, expected);
    IS(pilhangko_vulkan_copy_to(v, null == 1 ? NULL : &request, 1, allocation, 0).status, expected);
    IS(pilhangko_vulkan_copy_from(v, allocation, 0, null == 1 ? NULL : &request, 1).status, expected);
    IS(pilhangko_vulkan_rename(v, null ? NULL : &a, NULL), expected);
    IS(pilhangko_vulkan_end_capture(v, null ? NULL : &capture), expected);
    CHECK(pilhangko_vulkan_mapped(v, null ? NULL : &a) == NULL);
}

static void each_small_call(pilhangko_vulkan *v, bool tells, pilhangko_status expected) {
    pilhangko_vulkan_allocation a;
    pilhangko_vulkan_heap heap;
    pilhangko_budget budget;
    VkDeviceSize bytes;
    bool live;
    memset(&a, 0, sizeof a);
    IS(pilhangko_vulkan_is_live(v, &a, tells ? &live : NULL), expected);
    IS(pilhangko_vulkan_is_live(v, tells ? &a : NULL, &live), expected);
    IS(pilhangko_vulkan_capacity(v, tells ? &bytes : NULL), expected);
    IS(pilhangko_vulkan_read_heap(v, 0, tells ? &heap : NULL), expected);
    IS(pilhangko_vulkan_budget(v, 0, tells ? &budget : NULL), expected);
    if (!tells) return;
    IS(pilhangko_vulkan_update_budgets(v), expected);
    IS(pilhangko_vulkan_set_budget(v, 0, false, 0), expected);
    IS(pilhangko_vulkan_destroy(v, NULL), expected);
    CHECK(pilhangko_vulkan_allocator(v) == NULL);
}

static void empty_handles_and_null(void) {
    pilhangko_vulkan empty = {0}, vulkan = fake_binding();
    each_call(&empty, 0, PILHANGKO_NO_HANDLE);
    each_call(NULL, 0, PILHANGKO_NULL_POINTER);
    each_call(&empty, 1, PILHANGKO_NULL_POINTER);
    each_call(&vulkan, 1, PILHANGKO_NULL_POINTER);
    each_call(&vulkan, 2, PILHANGKO_NULL_POINTER);
    each_small_call(&empty, true, PILHANGKO_NO_HANDLE);
    each_small_call(NULL, true, PILHANGKO_NULL_POINTER);
    each_small_call(&vulkan, false, PILHANGKO_NULL_POINTER);
    CHECK(fake.questions == 0);
    ends(&vulkan, 0);
}

static void invalid_requests(void) {
    pilhangko_vulkan vulkan = fake_binding();
    const pilhangko_vulkan_request good = asks(100, 31, PILHANGKO_LOCATION_GPU_ONLY);
    pilhangko_vulkan_allocation a;
    for (unsigned field = 0; field < 13; field++) {
        pilhangko_vulkan_request bad = good;
        if (field == 0) bad.requirements.size = 0;
        if (field == 1) bad.requirements.alignment = 0;
        if (field == 2) bad.requirements.alignment = 6;
        if (field == 3) bad.kind = 0;
        if (field == 4) bad.kind = 3;
        if (field == 5) bad.location = 0;
        if (field == 6) bad.location = 7;
        if (field == 7) bad.scheme = 0;
        if (field == 8) bad.scheme = 4;
        if (field == 9) bad.name = "\xff";
        if (field == 10) bad.scheme = PILHANGKO_SCHEME_BUFFER; /* without a buffer */
        if (field == 11) bad.scheme = PILHANGKO_SCHEME_IMAGE;
        if (field == 12) bad.requirements.alignment = 3 * FAKE_ATOM;
        IS(pilhangko_vulkan_allocate(&vulkan, &bad, &a).status, PILHANGKO_INVALID);
    }
    CHECK(fake.questions == 0);
    ends(&vulkan, 0);
}

static void invalid_resources(void) {
    pilhangko_vulkan vulkan = fake_binding();
    VkBufferCreateInfo sparse = buffer_of(10);
    VkImageCreateInfo disjoint = image_of(10, VK_IMAGE_TILING_LINEAR);
    pilhangko_vulkan_placement astray = on_gpu;
    pilhangko_vulkan_allocation a;
    VkBuffer buffer;
    VkImage image;
    sparse.flags = VK_BUFFER_CREATE_SPARSE_BINDING_BIT;
    IS(pilhangko_vulkan_create_buffer(&vulkan, &sparse, &on_gpu, &buffer, &a).status, PILHANGKO_INVALID);
    disjoint.flags = VK_IMAGE_CREATE_DISJOINT_BIT;
    IS(pilhangko_vulkan_create_image(&vulkan, &disjoint, &on_gpu, &image, &a).status, PILHANGKO_INVALID);
    disjoint.flags = VK_IMAGE_CREATE_SPARSE_BINDING_BIT;
    IS(pilhangko_vulkan_create_image(&vulkan, &disjoint, &on_gpu, &image, &a).status, PILHANGKO_INVALID);
    CHECK(fake.questions == 0);
    sparse.flags = 0;
    astray.location = 9;
    IS(pilhangko_vulkan_create_buffer(&vulkan, &sparse, &astray, &buffer, &a).status, PILHANGKO_INVALID);
    CHECK(fake.questions == 1); /* the buffer was made, and undone */
    ends(&vulkan, 0);
}

static void causes_without_a_question(void) {
    pilhangko_vulkan vulkan = fake_binding();
    pilhangko_vulkan_request r = asks(100, 32, PILHANGKO_LOCATION_UNKNOWN); /* a memory type that isn't there */
    pilhangko_vulkan_allocation a;
    pilhangko_vulkan_capture capture;
    IS(pilhangko_vulkan_allocate(&vulkan, &r, &a).status, PILHANGKO_NO_MEMORY_TYPE);
    r = asks(100, 1, PILHANGKO_LOCATION_GPU_TO_CPU);
    IS(pilhangko_vulkan_allocate(&vulkan, &r, &a).status, PILHANGKO_NO_MEMORY_TYPE);
    r = asks(1024 * MB + 1, 1, PILHANGKO_LOCATION_GPU_ONLY);
    IS(pilhangko_vulkan_allocate(&vulkan, &r, &a).status, PILHANGKO_OUT_OF_MEMORY);
    IS(pilhangko_vulkan_set_budget(&vulkan, 0, true, 4 * MB - 1), PILHANGKO_OK);
    r = asks(100, 1, PILHANGKO_LOCATION_GPU_ONLY);
    IS(pilhangko_vulkan_allocate(&vulkan, &r, &a).status, PILHANGKO_BUDGET_EXCEEDED);
    IS(pilhangko_vulkan_set_budget(&vulkan, 5, true, 1), PILHANGKO_NO_SUCH_TYPE);
    CHECK(fake.questions == 0);
    IS(pilhangko_vulkan_set_budget(&vulkan, 0, true, 4 * MB), PILHANGKO_OK);
    a = allocates(&vulkan, &r);
    IS(pilhangko_vulkan_flush(&vulkan, &a, 0, 1).status, PILHANGKO_VULKAN_NOT_MAPPED);
    IS(pilhangko_vulkan_rename(&vulkan, &a, "\xff"), PILHANGKO_INVALID);
    IS(pilhangko_vulkan_rename(&vulkan, &a, NULL), PILHANGKO_OK);
    IS(pilhangko_vulkan_end_capture(&vulkan, &capture), PILHANGKO_VULKAN_NO_CAPTURE);
    ends(&vulkan, 1);
}

/* Allocations of another binding, and pieces that are made up, are refused before anything of them is believed. */
static void foreign_allocations(void) {
    pilhangko_vulkan vulkan = fake_binding(), other = {0};
    const pilhangko_vulkan_settings settings = fake_settings();
    const pilhangko_vulkan_request r = asks(100, 2, PILHANGKO_LOCATION_UNKNOWN);
    IS(pilhangko_vulkan_create(&other, &settings), PILHANGKO_OK);
    const pilhangko_vulkan_allocation mine = allocates(&vulkan, &r), others = allocates(&other, &r);
    CHECK(mine.piece.memory_type == others.piece.memory_type && mine.piece.piece.slot == others.piece.piece.slot);
    CHECK(mine.offset == others.offset && mine.piece.piece.number == others.piece.piece.number);
    for (unsigned field = 0; field < 6; field++) {
        pilhangko_vulkan_allocation wrong = mine;
        bool live = true;
        if (field == 0) wrong = others;
        if (field == 1) wrong.owner = 0;
        if (field == 2) wrong.serial = 0;
        if (field == 3) wrong.serial++;
        if (field == 4) wrong.index++; /* a record that was never used */
        if (field == 5) wrong.index = UINT32_MAX;
        IS(pilhangko_vulkan_is_live(&vulkan, &wrong, &live), PILHANGKO_OK);
        CHECK(!live && pilhangko_vulkan_mapped(&vulkan, &wrong) == NULL);
        IS(pilhangko_vulkan_free(&vulkan, &wrong), PILHANGKO_NOT_LIVE);
        IS(pilhangko_vulkan_flush(&vulkan, &wrong, 0, 1).status, PILHANGKO_NOT_LIVE);
        IS(pilhangko_vulkan_invalidate(&vulkan, &wrong, 0, 1).status, PILHANGKO_NOT_LIVE);
        IS(pilhangko_vulkan_copy_to(&vulkan, &live, sizeof live, &wrong, 0).status, PILHANGKO_NOT_LIVE);
        IS(pilhangko_vulkan_copy_from(&vulkan, &wrong, 0, &live, sizeof live).status, PILHANGKO_NOT_LIVE);
        IS(pilhangko_vulkan_rename(&vulkan, &wrong, "name"), PILHANGKO_NOT_LIVE);
        IS(pilhangko_vulkan_rename(&vulkan, &wrong, "\xff"), PILHANGKO_INVALID);
        IS(pilhangko_vulkan_destroy_buffer(&vulkan, (VkBuffer)(uint64_t)5, &wrong), PILHANGKO_NOT_LIVE);
        IS(pilhangko_vulkan_destroy_image(&vulkan, (VkImage)(uint64_t)5, &wrong), PILHANGKO_NOT_LIVE);
    }
    pilhangko_vulkan_allocation same = mine; /* what else it tells isn't read */
    memset(&same.piece, 7, sizeof same.piece);
    same.memory = VK_NULL_HANDLE;
    same.offset = same.size = 77;
    IS(pilhangko_vulkan_free(&vulkan, &same), PILHANGKO_OK);
    IS(pilhangko_vulkan_free(&other, &others), PILHANGKO_OK);
    IS(pilhangko_vulkan_destroy(&other, NULL), PILHANGKO_OK);
    ends(&vulkan, 0);
}

/* An allocation of a binding that was destroyed isn't a later one's, though that may lie where the first one lay. */
static void allocations_of_a_predecessor(void) {
    const pilhangko_vulkan_request r = asks(100, 2, PILHANGKO_LOCATION_UNKNOWN);
    pilhangko_vulkan vulkan = fake_binding();
    const pilhangko_vulkan_allocation old = allocates(&vulkan, &r);
    const void *const place = vulkan.opaque;
    bool came_again = false;
    ends(&vulkan, 1);
    for (unsigned i = 0; i < 50; i++) {
        bool live = true;
        vulkan = fake_binding();
        came_again |= vulkan.opaque == place;
        const pilhangko_vulkan_allocation young = allocates(&vulkan, &r);
        CHECK(young.serial == old.serial && young.index == old.index && young.memory == old.memory && young.owner > old.owner);
        IS(pilhangko_vulkan_is_live(&vulkan, &old, &live), PILHANGKO_OK);
        CHECK(!live && pilhangko_vulkan_mapped(&vulkan, &old) == NULL);
        IS(pilhangko_vulkan_free(&vulkan, &old), PILHANGKO_NOT_LIVE);
        IS(pilhangko_vulkan_rename(&vulkan, &old, "old"), PILHANGKO_NOT_LIVE);
        IS(pilhangko_vulkan_free(&vulkan, &young), PILHANGKO_OK);
        ends(&vulkan, 0);
    }
    printf("a later binding %s where an earlier one lay\n", came_again ? "lay" : "never lay");
}

/* An allocation that was freed stays refused, also where another one has the same piece. */
static void stale_allocations(void) {
    pilhangko_vulkan vulkan = fake_binding();
    const pilhangko_vulkan_request small = asks(100, 1, PILHANGKO_LOCATION_UNKNOWN), large = asks(20 * MB, 1, PILHANGKO_LOCATION_UNKNOWN);
    const pilhangko_vulkan_allocation first = allocates(&vulkan, &small), beside = allocates(&vulkan, &small);
    pilhangko_vulkan_allocation gone[40];
    IS(pilhangko_vulkan_free(&vulkan, &first), PILHANGKO_OK);
    const pilhangko_vulkan_allocation again = allocates(&vulkan, &small);
    CHECK(memcmp(&again.piece, &first.piece, sizeof first.piece) == 0 && again.index == first.index && beside.offset == 100);
    IS(pilhangko_vulkan_free(&vulkan, &first), PILHANGKO_NOT_LIVE);
    IS(pilhangko_vulkan_free(&vulkan, &again), PILHANGKO_OK);
    for (unsigned i = 0; i < 40; i++) { /* blocks of their own, too */
        gone[i] = allocates(&vulkan, &large);
        for (unsigned j = 0; j < i; j++) IS(pilhangko_vulkan_free(&vulkan, &gone[j]), PILHANGKO_NOT_LIVE);
        if (i < 39) IS(pilhangko_vulkan_free(&vulkan, &gone[i]), PILHANGKO_OK);
    }
    CHECK(fake.memory_count == 2);
    ends(&vulkan, 2);
}

/* What the allocator behind the binding tells of its blocks and pieces. */
static void readings(void) {
    pilhangko_vulkan vulkan = fake_binding();
    const pilhangko_vulkan_request r = asks(100, 2, PILHANGKO_LOCATION_UNKNOWN);
    const pilhangko_vulkan_allocation a = allocates(&vulkan, &r), b = allocates(&vulkan, &r);
    const pilhangko_allocator *allocator = pilhangko_vulkan_allocator(&vulkan);
    pilhangko_type_statistics statistics;
    pilhangko_piece_view pieces[3];
    size_t count, length;
    char text[400];
    IS(pilhangko_allocator_type_statistics(allocator, 1, &statistics), PILHANGKO_OK);
    CHECK(statistics.capacity == 4 * MB && statistics.pieces == 2 && statistics.piece_bytes == 200);
    IS(pilhangko_allocator_pieces(allocator, 1, a.piece.piece.slot, 0, pieces, 3, &count), PILHANGKO_OK);
    CHECK(count == 2 && pieces[0].offset == a.offset && pieces[1].offset == b.offset && pieces[1].end == b.offset + b.size);
    IS(pilhangko_allocator_leak(allocator, 0, text, sizeof text - 1, &length), PILHANGKO_OK);
    CHECK(length > 0 && length < sizeof text);
    text[length] = 0;
    CHECK(strstr(text, "leak detected") && strstr(text, "name: row"));
    IS(pilhangko_vulkan_free(&vulkan, &a), PILHANGKO_OK);
    IS(pilhangko_allocator_leak(allocator, 1, text, sizeof text, &length), PILHANGKO_OK);
    CHECK(length == 0);
    ends(&vulkan, 1);
}

static void has_word(const pilhangko_vulkan *vulkan, const pilhangko_vulkan_allocation *a, uint64_t expected) {
    pilhangko_vulkan_allocation_told told;
    pilhangko_piece_view view;
    size_t shown;
    IS(pilhangko_vulkan_read_allocation(vulkan, a, &told), PILHANGKO_OK);
    IS(pilhangko_allocator_pieces(pilhangko_vulkan_allocator(vulkan), a->piece.memory_type, a->piece.piece.slot, a->offset, &view, 1, &shown),
        PILHANGKO_OK);
    CHECK(told.user_data == expected && shown == 1 && view.number == a->piece.piece.number && view.word == expected);
}

/* A word is handed in with a request or a placement, and changed; a visit of the allocator's pieces shows it. */
static void words(void) {
    pilhangko_vulkan vulkan = fake_binding();
    pilhangko_vulkan_request r = asks(100, 2, PILHANGKO_LOCATION_UNKNOWN);
    pilhangko_vulkan_placement placement = on_gpu;
    const VkBufferCreateInfo info = buffer_of(90);
    pilhangko_vulkan_allocation b;
    VkBuffer buffer;
    r.user_data = UINT64_MAX;
    placement.user_data = 8;
    const pilhangko_vulkan_allocation a = allocates(&vulkan, &r);
    IS(pilhangko_vulkan_create_buffer(&vulkan, &info, &placement, &buffer, &b).status, PILHANGKO_OK);
    has_word(&vulkan, &a, UINT64_MAX);
    has_word(&vulkan, &b, 8);
    IS(pilhangko_vulkan_set_user_data(&vulkan, &a, 7), PILHANGKO_OK);
    IS(pilhangko_vulkan_set_user_data(&vulkan, &b, 0), PILHANGKO_OK);
    IS(pilhangko_vulkan_rename(&vulkan, &a, "a name that takes host memory of its own"), PILHANGKO_OK);
    has_word(&vulkan, &a, 7);
    has_word(&vulkan, &b, 0);
    IS(pilhangko_vulkan_free(&vulkan, &a), PILHANGKO_OK);
    r.user_data = 0;
    const pilhangko_vulkan_allocation again = allocates(&vulkan, &r);
    CHECK(again.memory == a.memory && again.offset == a.offset);
    has_word(&vulkan, &again, 0);
    IS(pilhangko_vulkan_destroy_buffer(&vulkan, buffer, &b), PILHANGKO_OK);
    ends(&vulkan, 1);
}

/* ---- the driver refuses */

static void is_refused(pilhangko_vulkan *vulkan, const pilhangko_vulkan_request *r, pilhangko_status status, VkResult driver) {
    pilhangko_vulkan_allocation a;
    const size_t held = fake.memory_count;
    memset(&a, 7, sizeof a);
    const pilhangko_vulkan_allocation before = a;
    const pilhangko_vulkan_result result = pilhangko_vulkan_allocate(vulkan, r, &a);
    IS(result.status, status);
    CHECK(result.driver == driver && fake.memory_count == held && memcmp(&a, &before, sizeof a) == 0);
}

static void driver_refusals(void) {
    pilhangko_vulkan vulkan = fake_binding();
    const pilhangko_vulkan_request device = asks(100, 1, PILHANGKO_LOCATION_UNKNOWN), host = asks(100, 2, PILHANGKO_LOCATION_UNKNOWN),
                                   large = asks(6 * MB, 1, PILHANGKO_LOCATION_UNKNOWN),
                                   upload = asks(100, 31, PILHANGKO_LOCATION_CPU_TO_GPU);
    refuses_next(1, FAKE_REFUSES, VK_ERROR_OUT_OF_DEVICE_MEMORY);
    is_refused(&vulkan, &device, PILHANGKO_OUT_OF_MEMORY, VK_ERROR_OUT_OF_DEVICE_MEMORY);
    refuses_next(1, FAKE_REFUSES, VK_ERROR_TOO_MANY_OBJECTS);
    is_refused(&vulkan, &device, PILHANGKO_DRIVER_REFUSED, VK_ERROR_TOO_MANY_OBJECTS);
    refuses_next(1, FAKE_GIVES_NOTHING, VK_SUCCESS);
    is_refused(&vulkan, &device, PILHANGKO_OUT_OF_MEMORY, VK_SUCCESS);
    refuses_next(2, FAKE_REFUSES, VK_ERROR_MEMORY_MAP_FAILED);
    is_refused(&vulkan, &host, PILHANGKO_FAILED_TO_MAP, VK_ERROR_MEMORY_MAP_FAILED);
    refuses_next(2, FAKE_GIVES_NOTHING, VK_SUCCESS);
    is_refused(&vulkan, &host, PILHANGKO_FAILED_TO_MAP, VK_SUCCESS);
    (void)allocates(&vulkan, &device);
    refuses_next(1, FAKE_REFUSES, VK_ERROR_OUT_OF_HOST_MEMORY);
    is_refused(&vulkan, &large, PILHANGKO_DRIVER_REFUSED, VK_ERROR_OUT_OF_HOST_MEMORY);
    refuses_next(1, FAKE_REFUSES, VK_ERROR_OUT_OF_DEVICE_MEMORY);
    const pilhangko_vulkan_allocation second = allocates(&vulkan, &upload); /* the second attempt, at memory type 1 */
    CHECK(second.piece.memory_type == 1 && second.piece.address != 0);
    ends(&vulkan, 2);
}

/* ---- one script, with each question and each request for host memory refused in turn */

#define THINGS 12

struct thing {
    bool lives;
    VkBuffer buffer;
    VkImage image;
    pilhangko_vulkan_allocation allocation;
};

static const VkMemoryPriorityAllocateInfoEXT priority = {VK_STRUCTURE_TYPE_MEMORY_PRIORITY_ALLOCATE_INFO_EXT, NULL, 0.5F};
static const pilhangko_vulkan_placement placements[] = {
    {.location = PILHANGKO_LOCATION_GPU_ONLY, .name = "a name that takes host memory of its own", .minimal_alignment = 4096},
    {.location = PILHANGKO_LOCATION_CPU_TO_GPU, .memory_type_bits = 30},
    {.location = PILHANGKO_LOCATION_GPU_TO_CPU, .dedicated = true, .name = "own", .next = &priority},
    {.location = PILHANGKO_VULKAN_LOCATION_STAGING, .name = "staging"},
    {.required_flags = VK_MEMORY_PROPERTY_HOST_VISIBLE_BIT, .avoided_flags = VK_MEMORY_PROPERTY_HOST_COHERENT_BIT, .name = "by flags"}};
enum { PLACEMENTS = sizeof placements / sizeof *placements };

static pilhangko_vulkan_result makes(pilhangko_vulkan *vulkan, unsigned i, struct thing *t) {
    const uint32_t bytes = 1000 + 2 * MB * (i % 2) + i;
    const VkBufferCreateInfo buffer = buffer_of(bytes);
    const VkImageCreateInfo image = image_of(bytes, VK_IMAGE_TILING_OPTIMAL);
    const pilhangko_vulkan_request plain = asks(bytes, 8, PILHANGKO_LOCATION_UNKNOWN);
    if (i % 4 == 0) return pilhangko_vulkan_allocate(vulkan, &plain, &t->allocation);
    if (i % 4 == 3) return pilhangko_vulkan_create_image(vulkan, &image, &placements[i % PLACEMENTS], &t->image, &t->allocation);
    return pilhangko_vulkan_create_buffer(vulkan, &buffer, &placements[i % PLACEMENTS], &t->buffer, &t->allocation);
}

static pilhangko_status unmakes(pilhangko_vulkan *vulkan, struct thing *t) {
    if (t->buffer) return pilhangko_vulkan_destroy_buffer(vulkan, t->buffer, &t->allocation);
    if (t->image) return pilhangko_vulkan_destroy_image(vulkan, t->image, &t->allocation);
    return pilhangko_vulkan_free(vulkan, &t->allocation);
}

/* What is there: the driver's buffers and images are those that were made, and each that lives is live. */
static void all_there(const pilhangko_vulkan *vulkan, const struct thing *things) {
    size_t resources = 0;
    VkDeviceSize capacity, held = 0;
    for (unsigned i = 0; i < THINGS; i++) {
        bool live;
        resources += things[i].buffer != VK_NULL_HANDLE || things[i].image != VK_NULL_HANDLE;
        if (!things[i].lives) continue;
        IS(pilhangko_vulkan_is_live(vulkan, &things[i].allocation, &live), PILHANGKO_OK);
        CHECK(live && fake_memory_of(things[i].allocation.memory));
    }
    for (size_t i = 0; i < fake.memory_count; i++) held += fake.memories[i].size;
    IS(pilhangko_vulkan_capacity(vulkan, &capacity), PILHANGKO_OK);
    CHECK(resources == fake.resource_count && capacity == held);
}

/* Runs the script; says how many calls were refused, and the last one's result. Nothing that frees takes host memory, but for a capture. */
static unsigned script(pilhangko_vulkan *vulkan, bool is_captured, pilhangko_vulkan_result *last) {
    struct thing things[THINGS];
    unsigned refusals = 0;
    memset(things, 0, sizeof things);
    for (unsigned i = 0; i < THINGS; i++) {
        const pilhangko_vulkan_result made_it = makes(vulkan, i, &things[i]);
        things[i].lives = made_it.status == PILHANGKO_OK;
        if (!things[i].lives) *last = made_it, refusals++;
        all_there(vulkan, things);
        if (!things[i].lives || i % 4) continue;
        const pilhangko_vulkan_result flushed = pilhangko_vulkan_flush(vulkan, &things[i].allocation, 0, VK_WHOLE_SIZE);
        if (flushed.status != PILHANGKO_OK) *last = flushed, refusals++;
        const pilhangko_status renamed = pilhangko_vulkan_rename(vulkan, &things[i].allocation, "another name that takes host memory");
        if (renamed != PILHANGKO_OK) last->status = renamed, last->driver = VK_SUCCESS, refusals++;
    }
    const long before = heap_requests;
    for (unsigned i = 0; i < THINGS; i++) {
        if (!things[i].lives) continue;
        IS(unmakes(vulkan, &things[i]), PILHANGKO_OK);
        memset(&things[i], 0, sizeof things[i]);
        all_there(vulkan, things);
    }
    CHECK(is_captured || heap_requests == before);
    return refusals;
}

/* An upload has a second attempt where its memory is refused, so up to one call of the script fails. */
static void each_question_refused(void) {
    const struct fake_refusal ways[] = {{0, FAKE_REFUSES, VK_ERROR_OUT_OF_DEVICE_MEMORY}, {0, FAKE_REFUSES, VK_ERROR_OUT_OF_HOST_MEMORY},
        {0, FAKE_REFUSES, VK_INCOMPLETE}, {0, FAKE_GIVES_NOTHING, VK_SUCCESS}};
    unsigned failed = 0, passed = 0;
    for (unsigned way = 0; way < 4; way++) {
        for (uint64_t question = 1;; question++) {
            pilhangko_vulkan vulkan = fake_binding();
            pilhangko_vulkan_result last = {PILHANGKO_OK, VK_SUCCESS};
            fake.refusals[0] = ways[way];
            fake.refusals[0].question = question;
            const unsigned refusals = script(&vulkan, false, &last);
            const bool is_over = fake.questions < question;
            CHECK(refusals <= !is_over);
            failed += refusals;
            passed += !refusals && !is_over;
            if (refusals)
                CHECK(last.status == PILHANGKO_OUT_OF_MEMORY || last.status == PILHANGKO_DRIVER_REFUSED ||
                      last.status == PILHANGKO_FAILED_TO_MAP || last.status == PILHANGKO_VULKAN_CALL_FAILED);
            if (refusals && ways[way].code) CHECK(last.driver == ways[way].code);
            ends(&vulkan, 0);
            if (is_over) break;
        }
    }
    printf("%u refused questions ended a call, %u an upload's first attempt\n", failed, passed);
    CHECK(failed > 100 && passed > 5);
}

static bool takes_all(void *user, const char *bytes, size_t length) {
    (void)bytes;
    *(size_t *)user += length;
    return true;
}

static pilhangko_vulkan_settings counting_settings(size_t *written) {
    pilhangko_vulkan_settings settings = fake_settings();
    settings.capture_write = takes_all;
    settings.capture_user = written;
    *written = 0;
    return settings;
}

/* Where the request is the capture's, the capture ends and no call fails; else one call fails, and says that host memory is lacking. */
static void each_host_request_refused(void) {
    unsigned failed = 0, captures = 0;
    for (long request = 1;; request++) {
        pilhangko_vulkan vulkan = {0};
        size_t written;
        const pilhangko_vulkan_settings settings = counting_settings(&written);
        pilhangko_vulkan_result last = {PILHANGKO_OK, VK_SUCCESS};
        pilhangko_vulkan_ending ending;
        fake_begin();
        heap_requests = 0;
        heap_refused = request;
        if (pilhangko_vulkan_create(&vulkan, &settings) == PILHANGKO_HOST_OUT_OF_MEMORY) {
            CHECK(!vulkan.opaque && heap_held == 0);
            failed++;
            continue;
        }
        const unsigned refusals = script(&vulkan, true, &last);
        const bool is_over = heap_requests < request;
        IS(pilhangko_vulkan_destroy(&vulkan, &ending), PILHANGKO_OK);
        const bool ended = ending.capture.end == PILHANGKO_VULKAN_CAPTURE_NO_HOST_MEMORY;
        CHECK(ending.leaks == 0 && fake.memory_count == 0 && fake.resource_count == 0 && heap_held == 0);
        CHECK(ending.capture.bytes == written && (refusals == 0 || last.status == PILHANGKO_HOST_OUT_OF_MEMORY));
        CHECK(refusals + ended == !is_over);
        failed += refusals;
        captures += ended;
        if (is_over) break;
    }
    heap_refused = 0;
    printf("%u refused requests for host memory ended a call, %u a capture\n", failed, captures);
    CHECK(failed > 10 && captures > 1);
}

/* ---- how captures end */

struct written {
    char bytes[1100000];
    size_t length, room;
};

static bool takes(void *user, const char *bytes, size_t length) {
    struct written *w = (struct written *)user;
    if (length > w->room - w->length) return false;
    memcpy(w->bytes + w->length, bytes, length);
    w->length += length;
    return true;
}

static struct written written;

static pilhangko_vulkan captured(size_t room) {
    pilhangko_vulkan vulkan = {0};
    pilhangko_vulkan_settings settings = fake_settings();
    fake_begin();
    written.length = 0;
    written.room = room;
    settings.capture_write = takes;
    settings.capture_user = &written;
    IS(pilhangko_vulkan_create(&vulkan, &settings), PILHANGKO_OK);
    return vulkan;
}

static void is_written(const char *expected) {
    CHECK(written.length == strlen(expected) && memcmp(written.bytes, expected, written.length) == 0);
}

#define DEVICE_LINES \
    "heap 1073741824\nheap 536870912\nheap 25165824\ntype 1 0\ntype 6 1\ntype 7 2\ntype 10 1\ntype 14 1\ngranularity 1024\n" \
    "sizes 4194304 4194304 0 8388608\n"

static void captures_by_hand(void) {
    pilhangko_vulkan vulkan = captured(sizeof written.bytes);
    pilhangko_vulkan_request r = asks(100, 6, PILHANGKO_LOCATION_CPU_TO_GPU), own = asks(10, 1, PILHANGKO_LOCATION_GPU_ONLY);
    pilhangko_vulkan_capture capture;
    r.name = "two words\xc3\xa9";
    refuses_next(2, FAKE_GIVES_NOTHING, VK_SUCCESS);
    const pilhangko_vulkan_allocation a = allocates(&vulkan, &r); /* at the second attempt, in memory type 1 */
    refuses_next(1, FAKE_REFUSES, VK_ERROR_DEVICE_LOST);
    is_refused(&vulkan, &own, PILHANGKO_DRIVER_REFUSED, VK_ERROR_DEVICE_LOST);
    IS(pilhangko_vulkan_rename(&vulkan, &a, NULL), PILHANGKO_OK);
    IS(pilhangko_vulkan_set_budget(&vulkan, 3, true, UINT64_MAX), PILHANGKO_OK);
    IS(pilhangko_vulkan_free(&vulkan, &a), PILHANGKO_OK);
    IS(pilhangko_vulkan_free(&vulkan, &a), PILHANGKO_NOT_LIVE);
    CHECK(written.length == 0); /* nothing before the end */
    IS(pilhangko_vulkan_end_capture(&vulkan, &capture), PILHANGKO_OK);
    CHECK(capture.end == PILHANGKO_VULKAN_CAPTURE_WHOLE && capture.bytes == written.length);
    is_written(DEVICE_LINES "refuse 2 null\nrefuse 5 -4\nnew\nalloc 1 100 4 6 CpuToGpu linear managed two_words__\n"
                            "alloc 2 10 4 1 GpuOnly linear managed row\nrename 1 _\nfree 1\nbudget 3 18446744073709551615\n");
    IS(pilhangko_vulkan_end_capture(&vulkan, &capture), PILHANGKO_VULKAN_NO_CAPTURE);
    (void)allocates(&vulkan, &r);
    ends(&vulkan, 1);
    vulkan = captured(sizeof written.bytes);
    IS(pilhangko_vulkan_destroy(&vulkan, NULL), PILHANGKO_OK);
    is_written(DEVICE_LINES "new\ndestroy\n");
}

/* Bounds are in a capture where they change, and of several before an allocation the last: an update each frame doesn't fill it. */
static void captured_budgets(void) {
    const pilhangko_vulkan_request r = asks(100, 1, PILHANGKO_LOCATION_GPU_ONLY);
    pilhangko_vulkan_settings settings = fake_settings();
    pilhangko_vulkan vulkan = {0};
    fake_begin();
    written.length = 0;
    written.room = sizeof written.bytes;
    settings.capture_write = takes;
    settings.capture_user = &written;
    settings.memory_budget = true;
    IS(pilhangko_vulkan_create(&vulkan, &settings), PILHANGKO_OK);
    for (unsigned frame = 0; frame < 100000; frame++) {
        fake.budget = 64 * MB + frame; /* another each frame, and then the same */
        if (frame >= 100) fake.budget = 100 * MB;
        IS(pilhangko_vulkan_update_budgets(&vulkan), PILHANGKO_OK);
    }
    const pilhangko_vulkan_allocation a = allocates(&vulkan, &r), b = allocates(&vulkan, &r);
    IS(pilhangko_vulkan_set_budget(&vulkan, 1, true, 7), PILHANGKO_OK); /* there and back */
    IS(pilhangko_vulkan_set_budget(&vulkan, 1, true, 100 * MB - 1), PILHANGKO_OK);
    IS(pilhangko_vulkan_set_budget(&vulkan, 2, false, 9), PILHANGKO_OK);
    IS(pilhangko_vulkan_set_budget(&vulkan, 4, true, 9), PILHANGKO_OK);
    IS(pilhangko_vulkan_set_budget(&vulkan, 4, true, 10), PILHANGKO_OK);
    IS(pilhangko_vulkan_set_budget(&vulkan, 5, true, 10), PILHANGKO_NO_SUCH_TYPE);
    IS(pilhangko_vulkan_free(&vulkan, &a), PILHANGKO_OK);
    const pilhangko_vulkan_allocation c = allocates(&vulkan, &r);
    IS(pilhangko_vulkan_set_budget(&vulkan, 0, false, 0), PILHANGKO_OK);
    IS(pilhangko_vulkan_set_heap_limit(&vulkan, 0, false, 0), PILHANGKO_OK);
    IS(pilhangko_vulkan_free(&vulkan, &b), PILHANGKO_OK);
    IS(pilhangko_vulkan_free(&vulkan, &c), PILHANGKO_OK);
    IS(pilhangko_vulkan_destroy(&vulkan, NULL), PILHANGKO_OK);
    is_written(DEVICE_LINES "new\nbudget 0 104857600\nbudget 1 104857599\nbudget 2 104857598\nbudget 3 104857599\nbudget 4 104857599\n"
                            "alloc 1 100 4 1 GpuOnly linear managed row\nalloc 2 100 4 1 GpuOnly linear managed row\nfree 1\n"
                            "budget 4 10\nalloc 3 100 4 1 GpuOnly linear managed row\nfree 2\nfree 3\nbudget 0 none\n"
                            "destroy\n");
}

/* A heap's limit bounds each of its memory types by what the others leave, as they come and go: 1, 3 and 4 lie in one heap. */
static void captured_limits(void) {
    const pilhangko_vulkan_request host = asks(100, 2, PILHANGKO_LOCATION_UNKNOWN), cached = asks(3 * MB, 16, PILHANGKO_LOCATION_UNKNOWN),
                                   upload = asks(5 * MB, 6, PILHANGKO_LOCATION_CPU_TO_GPU);
    pilhangko_vulkan vulkan = captured(sizeof written.bytes);
    IS(pilhangko_vulkan_set_heap_limit(&vulkan, 1, true, 8 * MB), PILHANGKO_OK);
    const pilhangko_vulkan_allocation a = allocates(&vulkan, &host), b = allocates(&vulkan, &cached);
    is_refused(&vulkan, &cached, PILHANGKO_BUDGET_EXCEEDED, VK_SUCCESS); /* a block of 8 MB would be needed */
    IS(pilhangko_vulkan_set_heap_limit(&vulkan, 2, true, 5 * MB - 1), PILHANGKO_OK);
    is_refused(&vulkan, &upload, PILHANGKO_BUDGET_EXCEEDED, VK_SUCCESS); /* both attempts: 4 MB are left of one heap, none of the other */
    IS(pilhangko_vulkan_free(&vulkan, &b), PILHANGKO_OK);
    IS(pilhangko_vulkan_free(&vulkan, &a), PILHANGKO_OK);
    IS(pilhangko_vulkan_destroy(&vulkan, NULL), PILHANGKO_OK);
    is_written(DEVICE_LINES "new\nbudget 1 8388608\nbudget 3 8388608\nbudget 4 8388608\nalloc 1 100 4 2 Unknown linear managed row\n"
                            "budget 3 4194304\nbudget 4 4194304\nalloc 2 3145728 4 16 Unknown linear managed row\n"
                            "budget 1 4194304\nbudget 3 0\nalloc 3 3145728 4 16 Unknown linear managed row\n"
                            "budget 2 5242879\nalloc 3 5242880 4 6 CpuToGpu linear managed row\nfree 2\nfree 1\ndestroy\n");
}

/* The capture of pairs of an allocation and its free, each with a number of its own: it goes on to `end` in whole lines. Returns how many
 * lines there are. */
static unsigned is_pairs(size_t at, size_t end) {
    unsigned lines = 0;
    for (; at < end; lines++) {
        char line[100];
        snprintf(line, sizeof line, lines % 2 ? "free %u\n" : "alloc %u 100 4 1 GpuOnly linear managed row\n", 1 + lines / 2);
        CHECK(strlen(line) <= end - at && memcmp(written.bytes + at, line, strlen(line)) == 0);
        at += strlen(line);
    }
    return lines;
}

/* Past the longest trace the capture ends behind a whole call, the last that has room, and says so. */
static void too_long_captures(void) {
    static const char remark[] = "# the capture ends here: the next call would make the trace too long\n", head[] = DEVICE_LINES "new\n";
    const pilhangko_vulkan_request r = asks(100, 1, PILHANGKO_LOCATION_GPU_ONLY);
    pilhangko_vulkan vulkan = captured(sizeof written.bytes);
    pilhangko_vulkan_ending ending;
    for (unsigned i = 0; i < 20000; i++) {
        const pilhangko_vulkan_allocation a = allocates(&vulkan, &r);
        IS(pilhangko_vulkan_free(&vulkan, &a), PILHANGKO_OK);
    }
    IS(pilhangko_vulkan_destroy(&vulkan, &ending), PILHANGKO_OK);
    CHECK(ending.capture.end == PILHANGKO_VULKAN_CAPTURE_TOO_LONG && ending.capture.bytes == written.length);
    CHECK(written.length <= 1048576 && written.length > 1048576 - 400); /* one more call would not have had room */
    CHECK(memcmp(written.bytes, head, sizeof head - 1) == 0);
    const size_t end = written.length - (sizeof remark - 1);
    CHECK(memcmp(written.bytes + end, remark, sizeof remark - 1) == 0);
    CHECK(is_pairs(sizeof head - 1, end) > 20000);
}

static void unwritten_captures(void) {
    for (size_t room = 0; room < 300; room++) {
        pilhangko_vulkan vulkan = captured(room);
        pilhangko_vulkan_capture capture;
        IS(pilhangko_vulkan_end_capture(&vulkan, &capture), PILHANGKO_OK);
        const size_t all = strlen(DEVICE_LINES "new\n");
        CHECK(capture.bytes == written.length);
        CHECK(capture.end == (room < all ? PILHANGKO_VULKAN_CAPTURE_NOT_WRITTEN : PILHANGKO_VULKAN_CAPTURE_WHOLE));
        ends(&vulkan, 0);
    }
}

int main(void) {
    memory_rows();
    flush_rows();
    copy_rows();
    resource_rows(0);
    resource_rows(VK_API_VERSION_1_0);
    resource_rows(VK_API_VERSION_1_1);
    settings_rows();
    loaders();
    texts();
    creations();
    empty_handles_and_null();
    invalid_requests();
    invalid_resources();
    causes_without_a_question();
    foreign_allocations();
    allocations_of_a_predecessor();
    stale_allocations();
    readings();
    words();
    driver_refusals();
    each_question_refused();
    each_host_request_refused();
    captures_by_hand();
    captured_budgets();
    captured_limits();
    too_long_captures();
    unwritten_captures();
    return 0;
}
