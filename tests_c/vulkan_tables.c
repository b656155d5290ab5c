/* Where buffers and images land on nineteen devices, for each purpose: the memory types that the driver is asked for, in order, are those of the
 * rules, which stand here in plain words, and some that were written down by hand. */
#include "fake_vulkan.h"
#include "memory_tables.h"
#include "refusing_heap.h"

#define OK ((pilhangko_status)PILHANGKO_OK)

/* What memory is for: by a location, or by flags. */
struct purpose {
    const char *name;
    bool is_image, is_transient;
    pilhangko_location location;
    uint32_t required, preferred, avoided;
};

static const struct purpose purposes[] = {
    {"an upload", false, false, PILHANGKO_LOCATION_CPU_TO_GPU, 0, 0, 0},
    {"uniforms", false, false, PILHANGKO_LOCATION_CPU_TO_GPU, 0, 0, 0},
    {"staging", false, false, PILHANGKO_VULKAN_LOCATION_STAGING, 0, 0, 0},
    {"readback", false, false, PILHANGKO_LOCATION_GPU_TO_CPU, 0, 0, 0},
    {"a render target", true, false, PILHANGKO_LOCATION_GPU_ONLY, 0, 0, 0},
    {"a transient attachment", true, true, PILHANGKO_VULKAN_LOCATION_TRANSIENT, 0, 0, 0},
    {"anything", false, false, PILHANGKO_LOCATION_UNKNOWN, 0, 0, 0},
    {"uniforms by flags", false, false, (pilhangko_location)0, SEEN | COHERENT, OWN, CACHED},
    {"readback by flags", false, false, (pilhangko_location)0, SEEN, CACHED, 0},
    {"a target that may lie anywhere", true, false, PILHANGKO_LOCATION_UNKNOWN, 0, OWN, SEEN},
    {"memory that only AMD has", false, false, PILHANGKO_LOCATION_UNKNOWN, UNCACHED_BY_DEVICE, 0, 0},
};
enum { PURPOSES = sizeof purposes / sizeof *purposes };

/* ---- the rules */

/* The memory types that are attempted, in order. */
struct order {
    uint32_t types[2 * VK_MAX_MEMORY_TYPES];
    uint32_t count;
};

/* The first memory type of the bits that has all the flags, or the count of types. */
static uint32_t first_with(const struct memory_table *table, uint32_t bits, uint32_t flags) {
    uint32_t i = 0;
    while (i < table->type_count && (!(bits >> i & 1) || (table->types[i].flags & flags) != flags)) i++;
    return i;
}

static void attempts(const struct memory_table *table, uint32_t type, struct order *order) {
    if (type < table->type_count) order->types[order->count++] = type;
}

/* How many flags there are. */
static uint32_t count_of(uint32_t flags) {
    uint32_t count = 0;
    for (; flags != 0; flags &= flags - 1) count++;
    return count;
}

/* By flags the memory types that have all required ones, and no other that a feature has to be enabled for, are attempted from the cheapest on:
 * each preferred flag that is missing and each avoided one that is there costs one; of equal ones the first is first. */
static struct order order_by_flags(const struct memory_table *table, uint32_t bits, uint32_t required, uint32_t preferred, uint32_t avoided) {
    const uint32_t by_feature = (PROTECTED | 64) & ~(required | preferred);
    struct order order = {{0}, 0};
    for (uint32_t cost = 0; cost <= 32; cost++) {
        for (uint32_t i = 0; i < table->type_count; i++) {
            const uint32_t flags = table->types[i].flags;
            if (!(bits >> i & 1) || (flags & required) != required || (flags & by_feature)) continue;
            if (count_of(preferred & ~flags) + count_of(avoided & flags) == cost) attempts(table, i, &order);
        }
    }
    return order;
}

/* A location begins at the first memory type with all that it prefers, else at the first with all that it needs; an upload that is refused goes on
 * to the first with all that it needs. */
static struct order order_of(const struct memory_table *table, uint32_t bits, const struct purpose *purpose) {
    static const uint32_t preferred[] = {0, 0, OWN, OWN | SEEN | COHERENT, SEEN | COHERENT | CACHED},
                          needed[] = {0, 0, OWN, SEEN | COHERENT, SEEN | COHERENT};
    if (purpose->location == PILHANGKO_VULKAN_LOCATION_STAGING) return order_by_flags(table, bits, SEEN | COHERENT, 0, OWN | CACHED);
    if (purpose->location == PILHANGKO_VULKAN_LOCATION_TRANSIENT) return order_by_flags(table, bits, OWN, LAZY, 0);
    if (purpose->required || purpose->preferred || purpose->avoided)
        return order_by_flags(table, bits, purpose->required, purpose->preferred, purpose->avoided);
    const uint32_t best = first_with(table, bits, preferred[purpose->location]), other = first_with(table, bits, needed[purpose->location]);
    struct order order = {{0}, 0};
    attempts(table, best < table->type_count ? best : other, &order);
    if (order.count > 0 && purpose->location == PILHANGKO_LOCATION_CPU_TO_GPU) attempts(table, other, &order);
    return order;
}

/* ---- by hand: where the first attempt is, by the order of the tables; -1 where no memory type serves */

static const struct {
    size_t purpose;
    int types[MEMORY_TABLES];
} by_hand[] = {
    {1, {4, 4, 9, 3, 3, 2, 2, 0, 1, 0, 2, 2, 0, 0, 1, 1, 1, -1, 0}},
    {2, {2, 2, 9, 2, 2, 1, 1, 0, 1, 0, 1, 1, 0, 0, 1, 1, 1, -1, 0}},
    {3, {3, 3, 10, 5, 5, 3, 3, 0, 2, 0, 1, 1, 1, 0, 3, 1, 1, -1, 0}},
    {4, {1, 1, 7, 0, 0, 0, 0, 0, 0, 0, 0, 0, 0, 0, 0, 0, 0, 0, 0}},
    {5, {1, 1, 7, 0, 0, 0, 0, 0, 0, 0, 0, 0, 2, 2, 4, 2, 0, 0, 0}},
};

static void is_by_hand(size_t table, size_t purpose, const struct order *order) {
    for (size_t i = 0; i < sizeof by_hand / sizeof *by_hand; i++)
        if (by_hand[i].purpose == purpose) CHECK(by_hand[i].types[table] == (order->count > 0 ? (int)order->types[0] : -1));
}

/* ---- the binding over a table */

static pilhangko_vulkan over(const struct memory_table *table) {
    pilhangko_vulkan vulkan = {0};
    pilhangko_vulkan_settings settings = fake_settings();
    fake_begin();
    fake.type_count = table->type_count;
    fake.heap_count = table->heap_count;
    fake.atom = table->atom;
    fake.granularity = table->granularity;
    for (uint32_t i = 0; i < table->heap_count; i++) {
        fake_heaps[i].size = (VkDeviceSize)table->heaps[i].megabytes << 20;
        fake_heaps[i].flags = table->heaps[i].flags;
    }
    for (uint32_t i = 0; i < table->type_count; i++) {
        fake_types[i].propertyFlags = table->types[i].flags;
        fake_types[i].heapIndex = table->types[i].heap;
    }
    settings.device_block_size = settings.host_block_size = settings.largest_host_block_size = 0;
    settings.whole_blocks = true; /* each memory type is asked once */
    IS(pilhangko_vulkan_create(&vulkan, &settings), PILHANGKO_OK);
    return vulkan;
}

/* A buffer or an image, and where it lies. */
struct thing {
    VkBuffer buffer;
    VkImage image;
    pilhangko_vulkan_allocation allocation;
};

static pilhangko_status makes(pilhangko_vulkan *vulkan, const struct purpose *purpose, struct thing *made) {
    const pilhangko_vulkan_placement placement = {.location = purpose->location, .name = purpose->name, .required_flags = purpose->required,
        .preferred_flags = purpose->preferred, .avoided_flags = purpose->avoided};
    VkBufferCreateInfo buffer = {.sType = VK_STRUCTURE_TYPE_BUFFER_CREATE_INFO, .size = 65536};
    VkImageCreateInfo image = {.sType = VK_STRUCTURE_TYPE_IMAGE_CREATE_INFO, .extent = {.width = 65536}};
    if (purpose->is_transient) image.usage = VK_IMAGE_USAGE_TRANSIENT_ATTACHMENT_BIT;
    return purpose->is_image ? pilhangko_vulkan_create_image(vulkan, &image, &placement, &made->image, &made->allocation).status
                             : pilhangko_vulkan_create_buffer(vulkan, &buffer, &placement, &made->buffer, &made->allocation).status;
}

static pilhangko_status unmakes(pilhangko_vulkan *vulkan, const struct thing *made) {
    return made->image ? pilhangko_vulkan_destroy_image(vulkan, made->image, &made->allocation)
                       : pilhangko_vulkan_destroy_buffer(vulkan, made->buffer, &made->allocation);
}

/* The driver grants what it is asked for at first; then it has no memory, and is asked for each attempt's. */
static void lands(const struct memory_table *table, const struct purpose *purpose, const struct order *order) {
    pilhangko_vulkan vulkan = over(table);
    struct thing made = {VK_NULL_HANDLE, VK_NULL_HANDLE, {.offset = 0}};
    fake.type_bits = bits_of(table, purpose->is_image, purpose->is_transient);
    IS(makes(&vulkan, purpose, &made), order->count > 0 ? OK : PILHANGKO_NO_MEMORY_TYPE);
    CHECK(fake.asked_count == (order->count > 0));
    if (order->count > 0) {
        CHECK(made.allocation.piece.memory_type == order->types[0] && fake.asked[0] == order->types[0]);
        CHECK(made.allocation.dedicated == purpose->is_transient);
        IS(unmakes(&vulkan, &made), PILHANGKO_OK);
    }
    IS(pilhangko_vulkan_destroy(&vulkan, NULL), PILHANGKO_OK);
    vulkan = over(table);
    fake.type_bits = bits_of(table, purpose->is_image, purpose->is_transient);
    fake.refuses_memory = true;
    IS(makes(&vulkan, purpose, &made), order->count > 0 ? PILHANGKO_OUT_OF_MEMORY : PILHANGKO_NO_MEMORY_TYPE);
    CHECK(fake.asked_count == order->count && memcmp(fake.asked, order->types, order->count * sizeof *fake.asked) == 0);
    IS(pilhangko_vulkan_destroy(&vulkan, NULL), PILHANGKO_OK);
    CHECK(fake.resource_count == 0 && fake.memory_count == 0 && heap_held == 0);
}

int main(void) {
    for (size_t t = 0; t < MEMORY_TABLES; t++) {
        for (size_t p = 0; p < PURPOSES; p++) {
            const struct memory_table *table = &memory_tables[t];
            const struct order order = order_of(table, bits_of(table, purposes[p].is_image, purposes[p].is_transient), &purposes[p]);
            is_by_hand(t, p, &order);
            lands(table, &purposes[p], &order);
        }
    }
    printf("%u devices, %u purposes\n", (unsigned)MEMORY_TABLES, (unsigned)PURPOSES);
    return 0;
}
