/* Transient resources over the Vulkan binding and a fake driver: rows, each status, random sets beside the account of plans
 * (plan_account.h), and each question to the driver and each request for host memory refused in turn. */
#include "fake_vulkan.h"
#include "plan_account.h"
#include "refusing_heap.h"

#define MB (UINT64_C(1) << 20)
#define MOST 60

/* ---- the fake driver, with memory types by size, and a note of where each resource is bound */

static bool types_differ;
static struct bound {
    uint64_t handle;
    VkDeviceMemory memory;
    VkDeviceSize offset;
} bound[FAKE_THINGS];
static size_t bound_count;

/* the device's own memory; that or the host's; memory that both see; any */
static uint32_t bits_of(VkDeviceSize size) {
    static const uint32_t bits[] = {1, 3, 4, 31};
    return types_differ ? bits[size / 16 % 4] : 31;
}

static void narrow(uint64_t handle, bool is_image) {
    struct fake_resource *resource = fake_resource_of(handle, is_image);
    resource->needs.memoryTypeBits = bits_of(resource->needs.size);
}

static VKAPI_ATTR void VKAPI_CALL narrow_buffer(
    VkDevice device, const VkBufferMemoryRequirementsInfo2 *info, VkMemoryRequirements2 *needs) {
    narrow((uint64_t)info->buffer, false);
    fake_buffer_needs_2(device, info, needs);
}

static VKAPI_ATTR void VKAPI_CALL narrow_image(
    VkDevice device, const VkImageMemoryRequirementsInfo2 *info, VkMemoryRequirements2 *needs) {
    narrow((uint64_t)info->image, true);
    fake_image_needs_2(device, info, needs);
}

static VkResult note(VkResult result, uint64_t handle, VkDeviceMemory memory, VkDeviceSize offset) {
    if (result == VK_SUCCESS) bound[bound_count++ % FAKE_THINGS] = (struct bound){handle, memory, offset};
    return result;
}

static VKAPI_ATTR VkResult VKAPI_CALL note_buffer(VkDevice device, VkBuffer buffer, VkDeviceMemory memory, VkDeviceSize offset) {
    return note(fake_bind_buffer(device, buffer, memory, offset), (uint64_t)buffer, memory, offset);
}

static VKAPI_ATTR VkResult VKAPI_CALL note_image(VkDevice device, VkImage image, VkDeviceMemory memory, VkDeviceSize offset) {
    return note(fake_bind_image(device, image, memory, offset), (uint64_t)image, memory, offset);
}

static pilhangko_vulkan made(void) {
    static pilhangko_vulkan_functions functions;
    pilhangko_vulkan vulkan = {0};
    pilhangko_vulkan_settings settings = fake_settings();
    fake_begin();
    functions = fake_functions;
    functions.vkGetBufferMemoryRequirements2 = narrow_buffer;
    functions.vkGetImageMemoryRequirements2 = narrow_image;
    functions.vkBindBufferMemory = note_buffer;
    functions.vkBindImageMemory = note_image;
    settings.functions = &functions;
    IS(pilhangko_vulkan_create(&vulkan, &settings), PILHANGKO_OK);
    bound_count = 0;
    return vulkan;
}

static void ends(pilhangko_vulkan *vulkan) {
    pilhangko_vulkan_ending ending;
    IS(pilhangko_vulkan_destroy(vulkan, &ending), PILHANGKO_OK);
    CHECK(ending.leaks == 0 && fake.memory_count == 0 && fake.resource_count == 0 && heap_held == 0);
}

/* ---- what is asked for */

static VkBufferCreateInfo buffer_infos[MOST];
static VkImageCreateInfo image_infos[MOST];
static pilhangko_vulkan_transient_resource asked[MOST];

static void ask_buffer(size_t i, VkDeviceSize size, uint64_t first, uint64_t last) {
    buffer_infos[i] = (VkBufferCreateInfo){.sType = VK_STRUCTURE_TYPE_BUFFER_CREATE_INFO, .size = size};
    asked[i] = (pilhangko_vulkan_transient_resource){&buffer_infos[i], NULL, first, last};
}

/* of the fake driver's images the width alone counts */
static void ask_image(size_t i, uint32_t size, VkImageTiling tiling, uint64_t first, uint64_t last) {
    image_infos[i] = (VkImageCreateInfo){.sType = VK_STRUCTURE_TYPE_IMAGE_CREATE_INFO, .extent = {size, 1, 1}, .tiling = tiling};
    asked[i] = (pilhangko_vulkan_transient_resource){NULL, &image_infos[i], first, last};
}

static const pilhangko_vulkan_placement on_gpu = {.location = PILHANGKO_LOCATION_GPU_ONLY, .name = "transient"};

static pilhangko_vulkan_result create(pilhangko_vulkan *vulkan, size_t count, pilhangko_vulkan_transient *transient) {
    return pilhangko_vulkan_create_transient(vulkan, asked, count, &on_gpu, transient);
}

/* ---- rows */

/* Two images that are never alive together have one place; a buffer that is alive with both lies on another page, behind them. */
static void shares_memory(void) {
    pilhangko_vulkan vulkan = made();
    pilhangko_vulkan_transient t = {0};
    size_t reused[3], count = 9;
    ask_image(0, 4097, VK_IMAGE_TILING_OPTIMAL, 0, 1);
    ask_image(1, 4097, VK_IMAGE_TILING_OPTIMAL, 2, 3);
    ask_buffer(2, 100, 1, 2);
    IS(create(&vulkan, 3, &t).status, PILHANGKO_OK);
    CHECK(t.place_count == 3 && t.set_count == 1 && !t.sets[0].dedicated);
    CHECK(t.places[0].offset == 0 && t.places[1].offset == 0 && t.places[2].offset == 5120); /* 4112 bytes, in whole pages of 1,024 */
    CHECK(t.sets[0].plan.heap_size == 5120 + 112 && t.sets[0].plan.peak == 4112 + 112 && t.sets[0].unshared == 2 * 4112 + 112);
    CHECK(t.sets[0].allocation.size == 6 * 1024 && t.sets[0].allocation.offset % 1024 == 0);
    CHECK(t.places[0].image && !t.places[0].buffer && t.places[2].buffer && !t.places[2].image);
    IS(pilhangko_vulkan_transient_reuses(&t, 1, reused, 3, &count), PILHANGKO_OK);
    CHECK(count == 1 && reused[0] == 0);
    IS(pilhangko_vulkan_transient_reuses(&t, 2, NULL, 0, &count), PILHANGKO_OK);
    CHECK(count == 0);
    IS(pilhangko_vulkan_transient_reuses(&t, 3, reused, 3, &count), PILHANGKO_INVALID);
    IS(pilhangko_vulkan_destroy_transient(&vulkan, &t), PILHANGKO_OK);
    CHECK(!t.places && !t.sets && t.place_count == 0 && t.set_count == 0);
    IS(pilhangko_vulkan_destroy_transient(&vulkan, &t), PILHANGKO_OK); /* of nothing */
    ends(&vulkan);
}

/* Null pointers, and handles of nothing; no resources are no sets. */
static void statuses_of_pointers(void) {
    pilhangko_vulkan vulkan = made(), none = {0};
    pilhangko_vulkan_transient t = {0};
    size_t count;
    ask_buffer(0, 64, 0, 1);
    IS(pilhangko_vulkan_create_transient(NULL, asked, 1, &on_gpu, &t).status, PILHANGKO_NULL_POINTER);
    IS(pilhangko_vulkan_create_transient(&vulkan, NULL, 1, &on_gpu, &t).status, PILHANGKO_NULL_POINTER);
    IS(pilhangko_vulkan_create_transient(&vulkan, asked, 1, NULL, &t).status, PILHANGKO_NULL_POINTER);
    IS(pilhangko_vulkan_create_transient(&vulkan, asked, 1, &on_gpu, NULL).status, PILHANGKO_NULL_POINTER);
    IS(create(&none, 1, &t).status, PILHANGKO_NO_HANDLE);
    IS(pilhangko_vulkan_destroy_transient(&none, &t), PILHANGKO_NO_HANDLE);
    IS(pilhangko_vulkan_destroy_transient(NULL, &t), PILHANGKO_NULL_POINTER);
    IS(pilhangko_vulkan_destroy_transient(&vulkan, NULL), PILHANGKO_NULL_POINTER);
    IS(create(&vulkan, 0, &t).status, PILHANGKO_OK);
    CHECK(!t.places && fake.questions == 0);
    IS(create(&vulkan, 1, &t).status, PILHANGKO_OK);
    IS(pilhangko_vulkan_transient_reuses(NULL, 0, NULL, 0, &count), PILHANGKO_NULL_POINTER);
    IS(pilhangko_vulkan_transient_reuses(&t, 0, NULL, 1, &count), PILHANGKO_NULL_POINTER);
    IS(pilhangko_vulkan_transient_reuses(&t, 0, NULL, 0, NULL), PILHANGKO_NULL_POINTER);
    IS(pilhangko_vulkan_destroy_transient(&vulkan, &t), PILHANGKO_OK);
    ends(&vulkan);
}

/* What can't be made, or has no memory: nothing is left of it. */
static void statuses_of_resources(void) {
    pilhangko_vulkan vulkan = made();
    pilhangko_vulkan_transient t = {0};
    ask_buffer(0, 64, 2, 1);
    IS(create(&vulkan, 1, &t).status, PILHANGKO_INVALID);
    ask_buffer(0, 64, 0, 1);
    buffer_infos[0].flags = VK_BUFFER_CREATE_SPARSE_BINDING_BIT;
    IS(create(&vulkan, 1, &t).status, PILHANGKO_INVALID);
    ask_image(0, 64, VK_IMAGE_TILING_LINEAR, 0, 1);
    image_infos[0].flags = VK_IMAGE_CREATE_DISJOINT_BIT;
    IS(create(&vulkan, 1, &t).status, PILHANGKO_INVALID);
    asked[0].buffer_info = &buffer_infos[0];
    IS(create(&vulkan, 1, &t).status, PILHANGKO_INVALID);
    asked[0].buffer_info = NULL, asked[0].image_info = NULL;
    IS(create(&vulkan, 1, &t).status, PILHANGKO_INVALID);
    ask_buffer(0, 64, 0, 1);
    const pilhangko_vulkan_placement refused[] = {{.location = PILHANGKO_VULKAN_LOCATION_TRANSIENT}, {.location = (pilhangko_location)7},
        {.location = PILHANGKO_LOCATION_GPU_ONLY, .dedicated = true}, {.location = PILHANGKO_LOCATION_GPU_ONLY, .required_flags = 1},
        {.location = PILHANGKO_VULKAN_LOCATION_STAGING, .avoided_flags = 1}, {.location = PILHANGKO_LOCATION_GPU_TO_CPU, .never_allocate = true}};
    for (size_t i = 0; i < sizeof refused / sizeof *refused; i++)
        IS(pilhangko_vulkan_create_transient(&vulkan, asked, 1, &refused[i], &t).status, PILHANGKO_INVALID);
    CHECK(fake.questions == 0);
    ask_buffer(0, UINT64_C(2) << 30, 0, 0); /* above its heap */
    IS(create(&vulkan, 1, &t).status, PILHANGKO_OUT_OF_MEMORY);
    types_differ = true;
    ask_buffer(0, 64, 0, 1); /* the device's own memory, which no host sees */
    const pilhangko_vulkan_placement upload = {.location = PILHANGKO_LOCATION_CPU_TO_GPU};
    IS(pilhangko_vulkan_create_transient(&vulkan, asked, 1, &upload, &t).status, PILHANGKO_NO_MEMORY_TYPE);
    types_differ = false;
    CHECK(fake.resource_count == 0 && !t.places);
    ends(&vulkan);
}

/* Four buffers, of which memory types 1, 3, 4 and 31 are allowed (bits_of), alive in turn: in which set each is, and the memory type of each set. The
 * last row allows the first one none. */
static const struct {
    pilhangko_vulkan_placement placement;
    size_t sets[4], set_count, types[2];
} choices[] = {
    {{.required_flags = 1}, {0, 0, 1, 0}, 2, {0, 2}}, /* memory types 0 and 2 */
    {{.preferred_flags = 2}, {0, 0, 1, 0}, 2, {0, 2}}, /* what a set has in common comes first */
    {{.location = PILHANGKO_LOCATION_UNKNOWN, .memory_type_bits = 5}, {0, 0, 1, 0}, 2, {0, 2}},
    {{.avoided_flags = 1, .memory_type_bits = 30}, {0}, 0, {0}},
};

static void chosen_memory(void) {
    for (size_t row = 0; row < sizeof choices / sizeof *choices; row++) {
        pilhangko_vulkan vulkan = made();
        pilhangko_vulkan_transient t = {0};
        types_differ = true;
        for (size_t i = 0; i < 4; i++) ask_buffer(i, 64 * 16 + 16 * i, i, i);
        IS(pilhangko_vulkan_create_transient(&vulkan, asked, 4, &choices[row].placement, &t).status,
            choices[row].set_count ? PILHANGKO_OK : PILHANGKO_NO_MEMORY_TYPE);
        CHECK(t.set_count == choices[row].set_count);
        for (size_t i = 0; i < t.place_count; i++) CHECK(t.places[i].set == choices[row].sets[i]);
        for (size_t s = 0; s < t.set_count; s++) CHECK(t.sets[s].allocation.piece.memory_type == choices[row].types[s]);
        IS(pilhangko_vulkan_destroy_transient(&vulkan, &t), PILHANGKO_OK);
        types_differ = false;
        ends(&vulkan);
    }
}

/* Where each memory type is allowed the flags choose as for a buffer, and a chain and an alignment count for the set. */
static void cheapest_memory(void) {
    const VkMemoryPriorityAllocateInfoEXT priority = {VK_STRUCTURE_TYPE_MEMORY_PRIORITY_ALLOCATE_INFO_EXT, NULL, 0.5F};
    const pilhangko_vulkan_placement staged = {.location = PILHANGKO_VULKAN_LOCATION_STAGING, .minimal_alignment = 8192},
                                     cached = {.required_flags = 2, .preferred_flags = 8, .memory_type_bits = 18, .next = &priority};
    pilhangko_vulkan vulkan = made();
    pilhangko_vulkan_transient t = {0};
    const pilhangko_vulkan_request small = fake_request(16, 16, 2);
    pilhangko_vulkan_allocation before;
    IS(pilhangko_vulkan_allocate(&vulkan, &small, &before).status, PILHANGKO_OK);
    ask_buffer(0, 4096, 0, 0);
    ask_buffer(1, 4096, 1, 1);
    IS(pilhangko_vulkan_create_transient(&vulkan, asked, 2, &staged, &t).status, PILHANGKO_OK);
    CHECK(t.set_count == 1 && t.sets[0].allocation.memory == before.memory && t.sets[0].allocation.offset == 8192);
    IS(pilhangko_vulkan_destroy_transient(&vulkan, &t), PILHANGKO_OK);
    IS(pilhangko_vulkan_create_transient(&vulkan, asked, 2, &cached, &t).status, PILHANGKO_OK);
    CHECK(t.set_count == 1 && t.sets[0].allocation.piece.memory_type == 4 && t.sets[0].allocation.size == 4096);
    CHECK(fake_memory_of(t.sets[0].allocation.memory)->priority == 0.5F && fake_memory_of(t.sets[0].allocation.memory)->alone_for == 0);
    IS(pilhangko_vulkan_destroy_transient(&vulkan, &t), PILHANGKO_OK);
    IS(pilhangko_vulkan_free(&vulkan, &before), PILHANGKO_OK);
    ends(&vulkan);
}

/* A pool's resources join by the memory types that it has. */
static void in_a_pool(void) {
    pilhangko_vulkan vulkan = made(), pool = {0};
    const pilhangko_vulkan_pool_settings settings = {.memory_type_bits = 4, .host_block_size = 4 * MB};
    const pilhangko_vulkan_placement anywhere = {.location = PILHANGKO_LOCATION_UNKNOWN};
    pilhangko_vulkan_transient t = {0};
    IS(pilhangko_vulkan_create_pool(&vulkan, &settings, &pool), PILHANGKO_OK);
    ask_image(0, 4096, VK_IMAGE_TILING_OPTIMAL, 0, 0);
    ask_image(1, 4096, VK_IMAGE_TILING_OPTIMAL, 1, 1);
    IS(pilhangko_vulkan_create_transient(&pool, asked, 2, &anywhere, &t).status, PILHANGKO_OK);
    CHECK(t.set_count == 1 && t.sets[0].allocation.piece.memory_type == 2);
    IS(pilhangko_vulkan_destroy_transient(&vulkan, &t), PILHANGKO_NOT_LIVE);
    IS(pilhangko_vulkan_destroy_transient(&pool, &t), PILHANGKO_OK);
    IS(pilhangko_vulkan_destroy(&pool, NULL), PILHANGKO_OK);
    ends(&vulkan);
}

/* Sets that are there already, and those of another binding: nothing is destroyed. */
static void statuses_of_sets(void) {
    pilhangko_vulkan vulkan = made(), other = {0};
    const pilhangko_vulkan_settings settings = fake_settings();
    pilhangko_vulkan_transient t = {0};
    ask_buffer(0, 64, 0, 1);
    IS(create(&vulkan, 1, &t).status, PILHANGKO_OK);
    IS(create(&vulkan, 1, &t).status, PILHANGKO_IN_USE);
    IS(pilhangko_vulkan_create(&other, &settings), PILHANGKO_OK);
    IS(pilhangko_vulkan_destroy_transient(&other, &t), PILHANGKO_NOT_LIVE);
    CHECK(t.place_count == 1 && fake.resource_count == 1);
    IS(pilhangko_vulkan_destroy(&other, NULL), PILHANGKO_OK);
    IS(pilhangko_vulkan_destroy_transient(&vulkan, &t), PILHANGKO_OK);
    ends(&vulkan);
}

/* ---- random sets */

static size_t sets_made, shared_places, dedicated_sets;

static size_t ask_at_random(void) {
    size_t count = 1 + random_below(MOST);
    for (size_t i = 0; i < count; i++) {
        uint64_t size = 1 + random_below(random_below(5) ? 5000 : 200000), first = random_below(20), last = first + random_below(6);
        if (random_below(2)) ask_buffer(i, size, first, last);
        else ask_image(i, (uint32_t)size, random_below(4) ? VK_IMAGE_TILING_OPTIMAL : VK_IMAGE_TILING_LINEAR, first, last);
    }
    return count;
}

/* the memory types that a set's resources may all have */
static uint32_t common_bits(const pilhangko_vulkan_transient *t, size_t s, size_t before) {
    uint32_t bits = 31;
    for (size_t i = 0; i < before; i++)
        if (t->places[i].set == s) bits &= bits_of(t->places[i].planned.size);
    return bits;
}

/* Each resource is in the first set that has a device-local type left for it (types 0 and 2 are), or alone in one. */
static void compare_sets(const pilhangko_vulkan_transient *t) {
    size_t sets_there = 0;
    for (size_t i = 0; i < t->place_count; i++) {
        size_t s = 0, wanted = t->places[i].set;
        if (t->sets[wanted].dedicated) s = sets_there;
        while (s < sets_there && (t->sets[s].dedicated || !(common_bits(t, s, i) & bits_of(t->places[i].planned.size) & 5))) s++;
        CHECK(s == wanted);
        if (s == sets_there) sets_there++;
    }
    CHECK(sets_there == t->set_count);
}

static void compare_set(const pilhangko_vulkan_transient *t, size_t s) {
    static pilhangko_plan_resource members[MOST];
    static struct planned wanted;
    size_t count = 0;
    uint64_t unshared = 0;
    for (size_t i = 0; i < t->place_count; i++)
        if (t->places[i].set == s) members[count++] = t->places[i].planned;
    CHECK(count > 0 && best_plan(members, count, FAKE_GRANULARITY, &wanted) == (unsigned)t->sets[s].plan.order);
    CHECK(wanted.heap_size == t->sets[s].plan.heap_size && peak_of(members, count) == t->sets[s].plan.peak);
    CHECK(t->sets[s].allocation.size >= wanted.heap_size && (!t->sets[s].dedicated || count == 1));
    count = 0;
    for (size_t i = 0; i < t->place_count; i++) {
        if (t->places[i].set != s) continue;
        CHECK(t->places[i].offset == wanted.offsets[count++]);
        unshared += t->places[i].planned.size;
    }
    CHECK(unshared == t->sets[s].unshared);
    sets_made++;
    dedicated_sets += t->sets[s].dedicated;
}

/* Each is bound where its place says, and reuses the places of its own set that the account says. */
static void compare_places(const pilhangko_vulkan_transient *t) {
    for (size_t i = 0; i < t->place_count; i++) {
        const pilhangko_vulkan_transient_place *p = &t->places[i];
        const pilhangko_vulkan_allocation *a = &t->sets[p->set].allocation;
        const struct bound *b = &bound[(bound_count - t->place_count + i) % FAKE_THINGS];
        size_t reused[MOST], count, wanted = 0;
        CHECK(b->handle == (p->buffer ? (uint64_t)p->buffer : (uint64_t)p->image));
        CHECK(b->memory == a->memory && b->offset == a->offset + p->offset);
        CHECK(p->planned.first_pass == asked[i].first_pass && p->planned.last_pass == asked[i].last_pass);
        IS(pilhangko_vulkan_transient_reuses(t, i, reused, MOST, &count), PILHANGKO_OK);
        for (size_t k = 0; k < t->place_count; k++) {
            const pilhangko_vulkan_transient_place *q = &t->places[k];
            if (q->set != p->set || q->planned.last_pass >= p->planned.first_pass || q->offset >= p->offset + p->planned.size ||
                p->offset >= q->offset + q->planned.size)
                continue;
            CHECK(wanted < count && reused[wanted] == k);
            wanted++;
        }
        CHECK(wanted == count);
        shared_places += count;
    }
}

static void random_sets(void) {
    pilhangko_vulkan vulkan = made();
    random_state = 2;
    for (unsigned round = 0; round < 300; round++) {
        pilhangko_vulkan_transient t = {0};
        types_differ = round % 2;
        IS(create(&vulkan, ask_at_random(), &t).status, PILHANGKO_OK);
        compare_sets(&t);
        for (size_t s = 0; s < t.set_count; s++) compare_set(&t, s);
        compare_places(&t);
        IS(pilhangko_vulkan_destroy_transient(&vulkan, &t), PILHANGKO_OK);
        CHECK(fake.resource_count == 0);
    }
    types_differ = false;
    CHECK(shared_places > 0 && dedicated_sets > 0 && sets_made > 300);
    printf("%zu sets as by the rules, %zu of one resource alone, %zu reuses\n", sets_made, dedicated_sets, shared_places);
    ends(&vulkan);
}

/* ---- refusals */

static size_t ask_in_turn(void) {
    ask_image(0, 4096, VK_IMAGE_TILING_OPTIMAL, 0, 1);
    ask_buffer(1, 31 * 62, 0, 2); /* 31: its memory may be its own alone */
    ask_buffer(2, 31 * 63, 1, 2);
    ask_image(3, 9000, VK_IMAGE_TILING_OPTIMAL, 2, 3);
    return 4;
}

static void is_undone(const pilhangko_vulkan_transient *t) {
    CHECK(!t->places && !t->sets && t->place_count == 0 && t->set_count == 0 && fake.resource_count == 0);
}

static void each_question_refused(void) {
    const VkResult codes[] = {VK_ERROR_OUT_OF_DEVICE_MEMORY, VK_ERROR_OUT_OF_HOST_MEMORY};
    unsigned failed = 0;
    for (unsigned way = 0; way < 3; way++) {
        for (uint64_t question = 1, over = 0; !over; question++) {
            pilhangko_vulkan vulkan = made();
            pilhangko_vulkan_transient t = {0};
            fake.refusals[0].question = question;
            fake.refusals[0].answer = way < 2 ? FAKE_REFUSES : FAKE_GIVES_NOTHING;
            fake.refusals[0].code = way < 2 ? codes[way] : VK_SUCCESS;
            pilhangko_vulkan_result result = create(&vulkan, ask_in_turn(), &t);
            over = fake.questions < question;
            CHECK((result.status == PILHANGKO_OK) == over);
            if (!over) {
                CHECK(result.status == PILHANGKO_VULKAN_CALL_FAILED || result.status == PILHANGKO_OUT_OF_MEMORY ||
                      result.status == PILHANGKO_DRIVER_REFUSED);
                if (way < 2) CHECK(result.driver == codes[way]);
                is_undone(&t);
                failed++;
            }
            IS(pilhangko_vulkan_destroy_transient(&vulkan, &t), PILHANGKO_OK);
            ends(&vulkan);
        }
    }
    printf("%u creations failed with a question refused, and left nothing\n", failed);
}

static void each_request_refused(void) {
    unsigned failed = 0;
    for (long n = 1, over = 0; !over; n++) {
        pilhangko_vulkan vulkan = made();
        pilhangko_vulkan_transient t = {0};
        size_t reused[4], count = 9;
        heap_requests = 0, heap_refused = n;
        pilhangko_vulkan_result result = create(&vulkan, ask_in_turn(), &t);
        if (result.status != PILHANGKO_OK) {
            IS(result.status, PILHANGKO_HOST_OUT_OF_MEMORY);
            CHECK(result.driver == VK_SUCCESS && heap_requests >= n);
            is_undone(&t);
            failed++;
            heap_refused = 0;
            IS(create(&vulkan, ask_in_turn(), &t).status, PILHANGKO_OK);
        }
        pilhangko_status status = pilhangko_vulkan_transient_reuses(&t, 3, reused, 4, &count);
        if (status != PILHANGKO_OK) {
            IS(status, PILHANGKO_HOST_OUT_OF_MEMORY);
            CHECK(heap_requests >= n && count == 9);
            failed++;
            IS(pilhangko_vulkan_transient_reuses(&t, 3, reused, 4, &count), PILHANGKO_OK);
        }
        CHECK(count == 1 && reused[0] == 0);
        over = heap_requests < n;
        CHECK(over || (long)failed == n);
        heap_refused = 0;
        IS(pilhangko_vulkan_destroy_transient(&vulkan, &t), PILHANGKO_OK);
        ends(&vulkan);
    }
    printf("%u requests for host memory, each refused once\n", failed);
}

int main(void) {
    shares_memory();
    statuses_of_pointers();
    statuses_of_resources();
    statuses_of_sets();
    chosen_memory();
    cheapest_memory();
    in_a_pool();
    random_sets();
    each_question_refused();
    each_request_refused();
    return 0;
}
