/* Buffers and images that share an allocation, and what an allocation says, over a fake driver: rows, each status of each call, and each
 * question to the driver refused in turn. */
#include "fake_vulkan.h"
#include "refusing_heap.h"

#define OK ((pilhangko_status)PILHANGKO_OK)
#define MB (UINT64_C(1) << 20)

/* Nothing may be left, of the driver's and of the host's. */
static void ends(pilhangko_vulkan *vulkan) {
    pilhangko_vulkan_ending ending = {99, {9, 9}};
    IS(pilhangko_vulkan_destroy(vulkan, &ending), PILHANGKO_OK);
    CHECK(ending.leaks == 0 && fake.memory_count == 0 && fake.resource_count == 0 && heap_held == 0);
}

static pilhangko_vulkan_allocation allocates(pilhangko_vulkan *vulkan, VkDeviceSize size, VkDeviceSize alignment, uint32_t bits) {
    pilhangko_vulkan_allocation allocation;
    pilhangko_vulkan_request request = fake_request(size, alignment, bits);
    request.kind = PILHANGKO_KIND_NON_LINEAR;
    request.name = "shared";
    IS(pilhangko_vulkan_allocate(vulkan, &request, &allocation).status, OK);
    return allocation;
}

static VkBufferCreateInfo buffer_of(VkDeviceSize size) {
    VkBufferCreateInfo info = {.sType = VK_STRUCTURE_TYPE_BUFFER_CREATE_INFO, .size = size};
    return info;
}

static VkImageCreateInfo image_of(uint32_t width) {
    VkImageCreateInfo info = {.sType = VK_STRUCTURE_TYPE_IMAGE_CREATE_INFO, .extent = {width, 1, 1}};
    return info;
}

static pilhangko_vulkan_result aliases_buffer(
    const pilhangko_vulkan *vulkan, const pilhangko_vulkan_allocation *allocation, VkDeviceSize offset, VkDeviceSize size, VkBuffer *buffer) {
    const VkBufferCreateInfo info = buffer_of(size);
    return pilhangko_vulkan_create_aliasing_buffer(vulkan, allocation, offset, &info, buffer);
}

static pilhangko_vulkan_result aliases_image(
    const pilhangko_vulkan *vulkan, const pilhangko_vulkan_allocation *allocation, VkDeviceSize offset, uint32_t width, VkImage *image) {
    const VkImageCreateInfo info = image_of(width);
    return pilhangko_vulkan_create_aliasing_image(vulkan, allocation, offset, &info, image);
}

static void drops_buffer(VkBuffer buffer) {
    fake_destroy((uint64_t)buffer, false, NULL);
}

static void drops_image(VkImage image) {
    fake_destroy((uint64_t)image, true, NULL);
}

/* ---- rows: a buffer of 1000 bytes needs 1008 at multiples of 32, an image of width 90 96 at multiples of 16 */

static void rows(void) {
    pilhangko_vulkan vulkan = fake_binding();
    const pilhangko_vulkan_allocation first = allocates(&vulkan, 48, 16, 1), shared = allocates(&vulkan, 4096, 1024, 1);
    VkBuffer buffer = VK_NULL_HANDLE;
    VkImage image = VK_NULL_HANDLE;
    CHECK(shared.offset == 1024);
    IS(aliases_buffer(&vulkan, &shared, 0, 1000, &buffer).status, OK);
    IS(aliases_image(&vulkan, &shared, 0, 90, &image).status, OK); /* the same bytes */
    CHECK(fake_resource_of((uint64_t)buffer, false)->is_bound && fake_resource_of((uint64_t)image, true)->is_bound);
    drops_buffer(buffer);
    IS(aliases_buffer(&vulkan, &shared, 3072, 1000, &buffer).status, OK);
    drops_buffer(buffer);
    IS(aliases_buffer(&vulkan, &shared, 3088, 1000, &buffer).status, PILHANGKO_INVALID); /* 4112 is no multiple of 32 */
    IS(aliases_buffer(&vulkan, &shared, 3104, 1000, &buffer).status, PILHANGKO_VULKAN_OUT_OF_RANGE);
    IS(aliases_buffer(&vulkan, &shared, 4128, 1000, &buffer).status, PILHANGKO_VULKAN_OUT_OF_RANGE);
    IS(aliases_image(&vulkan, &shared, UINT64_MAX - 1023, 90, &image).status, PILHANGKO_VULKAN_OUT_OF_RANGE);
    IS(aliases_image(&vulkan, &shared, 4000, 90, &image).status, OK); /* just within */
    drops_image(image);
    CHECK(fake.resource_count == 1);
    fake_destroy(fake.resources[0].handle, true, NULL);
    IS(pilhangko_vulkan_free(&vulkan, &shared), OK);
    IS(aliases_buffer(&vulkan, &shared, 0, 1000, &buffer).status, PILHANGKO_NOT_LIVE);
    IS(aliases_image(&vulkan, &shared, 0, 90, &image).status, PILHANGKO_NOT_LIVE);
    IS(pilhangko_vulkan_free(&vulkan, &first), OK);
    ends(&vulkan);
}

static void statuses(void) {
    pilhangko_vulkan vulkan = fake_binding(), empty = {0};
    const pilhangko_vulkan_allocation shared = allocates(&vulkan, 4096, 4096, 1);
    VkBufferCreateInfo sparse = buffer_of(1000);
    VkImageCreateInfo disjoint = image_of(90);
    VkBuffer buffer = VK_NULL_HANDLE;
    VkImage image = VK_NULL_HANDLE;
    unsigned alone = 0;
    sparse.flags = VK_BUFFER_CREATE_SPARSE_BINDING_BIT;
    disjoint.flags = VK_IMAGE_CREATE_DISJOINT_BIT;
    IS(pilhangko_vulkan_create_aliasing_buffer(&vulkan, &shared, 0, &sparse, &buffer).status, PILHANGKO_INVALID);
    IS(pilhangko_vulkan_create_aliasing_image(&vulkan, &shared, 0, &disjoint, &image).status, PILHANGKO_INVALID);
    fake.type_bits = 2; /* the allocation's memory type isn't among them */
    IS(aliases_buffer(&vulkan, &shared, 0, 1000, &buffer).status, PILHANGKO_INVALID);
    fake.type_bits = 31;
    for (unsigned i = 0; i < 2; i++) { /* the fake driver requires memory of its own for every second of these */
        const pilhangko_status status = aliases_buffer(&vulkan, &shared, 0, 310, &buffer).status;
        alone += status == PILHANGKO_INVALID;
        if (status == PILHANGKO_OK) drops_buffer(buffer);
    }
    CHECK(alone == 1);
    IS(aliases_buffer(&empty, &shared, 0, 1000, &buffer).status, PILHANGKO_NO_HANDLE);
    IS(aliases_image(&empty, &shared, 0, 90, &image).status, PILHANGKO_NO_HANDLE);
    IS(aliases_buffer(NULL, &shared, 0, 1000, &buffer).status, PILHANGKO_NULL_POINTER);
    IS(aliases_buffer(&vulkan, NULL, 0, 1000, &buffer).status, PILHANGKO_NULL_POINTER);
    IS(aliases_buffer(&vulkan, &shared, 0, 1000, NULL).status, PILHANGKO_NULL_POINTER);
    IS(pilhangko_vulkan_create_aliasing_buffer(&vulkan, &shared, 0, NULL, &buffer).status, PILHANGKO_NULL_POINTER);
    IS(aliases_image(NULL, &shared, 0, 90, &image).status, PILHANGKO_NULL_POINTER);
    IS(aliases_image(&vulkan, NULL, 0, 90, &image).status, PILHANGKO_NULL_POINTER);
    IS(aliases_image(&vulkan, &shared, 0, 90, NULL).status, PILHANGKO_NULL_POINTER);
    IS(pilhangko_vulkan_create_aliasing_image(&vulkan, &shared, 0, NULL, &image).status, PILHANGKO_NULL_POINTER);
    CHECK(fake.resource_count == 0);
    IS(pilhangko_vulkan_free(&vulkan, &shared), OK);
    ends(&vulkan);
}

/* making and binding, each refused by a code and by nothing */
static void each_question_refused(void) {
    static const enum fake_answer answers[] = {FAKE_REFUSES, FAKE_GIVES_NOTHING};
    for (unsigned i = 0; i < 8; i++) {
        const uint64_t question = 1 + i % 2;
        pilhangko_vulkan vulkan = fake_binding();
        const pilhangko_vulkan_allocation shared = allocates(&vulkan, 4096, 4096, 1);
        const uint64_t before = fake.questions;
        VkBuffer buffer = VK_NULL_HANDLE;
        VkImage image = VK_NULL_HANDLE;
        fake.refusals[0] = (struct fake_refusal){before + question, answers[i / 2 % 2], VK_ERROR_OUT_OF_DEVICE_MEMORY};
        const pilhangko_vulkan_result result =
            i < 4 ? aliases_buffer(&vulkan, &shared, 0, 1000, &buffer) : aliases_image(&vulkan, &shared, 0, 90, &image);
        IS(result.status, PILHANGKO_VULKAN_CALL_FAILED);
        CHECK(fake.questions == before + question && fake.resource_count == 0 && buffer == VK_NULL_HANDLE && image == VK_NULL_HANDLE);
        CHECK(answers[i / 2 % 2] == FAKE_GIVES_NOTHING || result.driver == VK_ERROR_OUT_OF_DEVICE_MEMORY);
        IS(pilhangko_vulkan_free(&vulkan, &shared), OK);
        ends(&vulkan);
    }
}

/* ---- what an allocation says: the fake binding has shared blocks of 4 MB */

static void tells(const pilhangko_vulkan *vulkan, const pilhangko_vulkan_allocation *allocation, uint64_t user_data,
    VkMemoryPropertyFlags flags, VkDeviceSize block_size, bool shared) {
    pilhangko_vulkan_allocation_told told = {&told, 77, 77, 77, !shared};
    IS(pilhangko_vulkan_read_allocation(vulkan, allocation, &told), OK);
    CHECK(told.mapped == pilhangko_vulkan_mapped(vulkan, allocation) && (told.mapped != NULL) == ((flags & 2) != 0));
    CHECK(told.user_data == user_data && told.property_flags == flags && told.block_size == block_size && told.block_shared == shared);
}

static void allocations_say(void) {
    pilhangko_vulkan vulkan = fake_binding(), empty = {0};
    const pilhangko_vulkan_allocation device = allocates(&vulkan, 100, 16, 1), host = allocates(&vulkan, 200, 16, 2),
                                      large = allocates(&vulkan, 9 * MB, 16, 1), second = allocates(&vulkan, 100, 16, 2);
    pilhangko_vulkan_allocation_told told = {&told, 77, 77, 77, true};
    tells(&vulkan, &device, 0, 1, 4 * MB, true);
    tells(&vulkan, &host, 0, 6, 4 * MB, true);
    tells(&vulkan, &large, 0, 1, 9 * MB, false);
    IS(pilhangko_vulkan_set_user_data(&vulkan, &host, UINT64_MAX), OK);
    IS(pilhangko_vulkan_set_user_data(&vulkan, &large, 5), OK);
    tells(&vulkan, &device, 0, 1, 4 * MB, true);
    tells(&vulkan, &second, 0, 6, 4 * MB, true); /* not its neighbour's */
    tells(&vulkan, &host, UINT64_MAX, 6, 4 * MB, true);
    tells(&vulkan, &large, 5, 1, 9 * MB, false);
    IS(pilhangko_vulkan_rename(&vulkan, &host, "another name"), OK);
    tells(&vulkan, &host, UINT64_MAX, 6, 4 * MB, true);
    IS(pilhangko_vulkan_free(&vulkan, &host), OK);
    IS(pilhangko_vulkan_read_allocation(&vulkan, &host, &told), PILHANGKO_NOT_LIVE);
    IS(pilhangko_vulkan_set_user_data(&vulkan, &host, 1), PILHANGKO_NOT_LIVE);
    const pilhangko_vulkan_allocation again = allocates(&vulkan, 200, 16, 2);
    tells(&vulkan, &again, 0, 6, 4 * MB, true); /* not what was freed before it */
    IS(pilhangko_vulkan_read_allocation(&empty, &again, &told), PILHANGKO_NO_HANDLE);
    IS(pilhangko_vulkan_set_user_data(&empty, &again, 1), PILHANGKO_NO_HANDLE);
    IS(pilhangko_vulkan_read_allocation(NULL, &again, &told), PILHANGKO_NULL_POINTER);
    IS(pilhangko_vulkan_read_allocation(&vulkan, NULL, &told), PILHANGKO_NULL_POINTER);
    IS(pilhangko_vulkan_read_allocation(&vulkan, &again, NULL), PILHANGKO_NULL_POINTER);
    IS(pilhangko_vulkan_set_user_data(NULL, &again, 1), PILHANGKO_NULL_POINTER);
    IS(pilhangko_vulkan_set_user_data(&vulkan, NULL, 1), PILHANGKO_NULL_POINTER);
    CHECK(told.mapped == &told && told.user_data == 77 && told.property_flags == 77 && told.block_size == 77 && told.block_shared);
    IS(pilhangko_vulkan_free(&vulkan, &again), OK);
    IS(pilhangko_vulkan_free(&vulkan, &second), OK);
    IS(pilhangko_vulkan_free(&vulkan, &device), OK);
    IS(pilhangko_vulkan_free(&vulkan, &large), OK);
    ends(&vulkan);
}

int main(void) {
    rows();
    statuses();
    each_question_refused();
    allocations_say();
    return 0;
}
