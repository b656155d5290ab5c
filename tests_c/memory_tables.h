/* Memory types and heaps of devices, as their drivers report them, with what buffers and images may take there: numbers for tests, from public
 * lists of devices and from drivers' sources, as they were at the time. */
#ifndef MEMORY_TABLES_H
#define MEMORY_TABLES_H
#include <vulkan/vulkan.h>

/* A type's flags: seen by the device as its own, by the host, coherent, cached; lazily allocated; protected; AMD's device-coherent, uncached. */
enum { OWN = 1, SEEN = 2, COHERENT = 4, CACHED = 8, LAZY = 16, PROTECTED = 32, UNCACHED_BY_DEVICE = 64 | 128 };

struct memory_table {
    const char *name;
    uint32_t heap_count, type_count;
    struct {
        uint32_t megabytes;
        VkMemoryHeapFlags flags;
    } heaps[3];
    struct {
        VkMemoryPropertyFlags flags;
        uint32_t heap;
    } types[11];
    uint32_t atom, granularity;
    uint32_t buffer_bits, image_bits, transient_bits; /* 0 for all types but the protected ones, and the lazy ones where it isn't transient */
};

static const struct memory_table memory_tables[] = {
    {"NVIDIA, 246 MB seen", 3, 5, {{8192, 1}, {16384, 0}, {246, 1}},
        {{0, 1}, {OWN, 0}, {SEEN | COHERENT, 1}, {SEEN | COHERENT | CACHED, 1}, {OWN | SEEN | COHERENT, 2}}, 64, 1024, 0x1f, 0x3, 0x3},
    {"NVIDIA, all seen", 2, 5, {{12288, 1}, {24576, 0}},
        {{0, 1}, {OWN, 0}, {SEEN | COHERENT, 1}, {SEEN | COHERENT | CACHED, 1}, {OWN | SEEN | COHERENT, 0}}, 64, 1024, 0x1f, 0x3, 0x3},
    {"NVIDIA, before 2021", 2, 11, {{6144, 1}, {12288, 0}},
        {{0, 1}, {0, 1}, {0, 1}, {0, 1}, {0, 1}, {0, 1}, {0, 1}, {OWN, 0}, {OWN, 0}, {SEEN | COHERENT, 1}, {SEEN | COHERENT | CACHED, 1}}, 64,
        1024, 0x681, 0x81, 0x81},
    {"AMD by RADV, 256 MB seen", 3, 11, {{16128, 1}, {16384, 0}, {256, 1}},
        {{OWN, 0}, {OWN, 0}, {SEEN | COHERENT, 1}, {OWN | SEEN | COHERENT, 2}, {OWN | SEEN | COHERENT, 2}, {SEEN | COHERENT | CACHED, 1},
            {SEEN | COHERENT | CACHED, 1}, {OWN | UNCACHED_BY_DEVICE, 0}, {SEEN | COHERENT | UNCACHED_BY_DEVICE, 1},
            {OWN | SEEN | COHERENT | UNCACHED_BY_DEVICE, 2}, {SEEN | COHERENT | CACHED | UNCACHED_BY_DEVICE, 1}},
        64, 64, 0x7f, 0x7f, 0x7f},
    {"AMD by RADV, all seen", 2, 7, {{16384, 1}, {16384, 0}},
        {{OWN, 0}, {OWN, 0}, {SEEN | COHERENT, 1}, {OWN | SEEN | COHERENT, 0}, {OWN | SEEN | COHERENT, 0}, {SEEN | COHERENT | CACHED, 1},
            {SEEN | COHERENT | CACHED, 1}},
        64, 64, 0, 0, 0},
    {"AMD on Windows, 256 MB seen", 3, 8, {{7936, 1}, {8192, 0}, {256, 1}},
        {{OWN, 0}, {SEEN | COHERENT, 1}, {OWN | SEEN | COHERENT, 2}, {SEEN | COHERENT | CACHED, 1}, {OWN | UNCACHED_BY_DEVICE, 0},
            {SEEN | COHERENT | UNCACHED_BY_DEVICE, 1}, {OWN | SEEN | COHERENT | UNCACHED_BY_DEVICE, 2},
            {SEEN | COHERENT | CACHED | UNCACHED_BY_DEVICE, 1}},
        128, 1, 0xf, 0x5, 0x5},
    {"AMD integrated, by RADV", 2, 4, {{5120, 0}, {10240, 1}},
        {{OWN, 1}, {SEEN | COHERENT, 0}, {OWN | SEEN | COHERENT, 1}, {SEEN | COHERENT | CACHED, 0}}, 64, 64, 0, 0, 0},
    {"Intel integrated, one type", 1, 1, {{12288, 1}}, {{OWN | SEEN | COHERENT | CACHED, 0}}, 64, 1, 0, 0, 0},
    {"Intel integrated, on Windows", 1, 3, {{8192, 1}}, {{OWN, 0}, {OWN | SEEN | COHERENT, 0}, {OWN | SEEN | COHERENT | CACHED, 0}}, 64, 1024, 0,
        0x1, 0x1},
    {"Intel Atom", 1, 2, {{4096, 1}}, {{OWN | SEEN | COHERENT, 0}, {OWN | SEEN | CACHED, 0}}, 64, 1, 0, 0, 0},
    {"Intel Arc, 256 MB seen", 3, 3, {{7936, 1}, {16384, 0}, {256, 1}}, {{OWN, 0}, {SEEN | COHERENT | CACHED, 1}, {OWN | SEEN | COHERENT, 2}}, 64,
        1, 0, 0, 0},
    {"Intel Arc, all seen", 2, 3, {{8192, 1}, {16384, 0}}, {{OWN, 0}, {SEEN | COHERENT | CACHED, 1}, {OWN | SEEN | COHERENT, 0}}, 64, 1, 0, 0, 0},
    {"ARM Mali, cached and coherent", 1, 4, {{6144, 1}},
        {{OWN | SEEN | COHERENT, 0}, {OWN | SEEN | COHERENT | CACHED, 0}, {OWN | LAZY, 0}, {OWN | PROTECTED, 0}}, 64, 1, 0, 0, 0},
    {"ARM Mali, cached or coherent", 1, 3, {{3072, 1}}, {{OWN | SEEN | COHERENT, 0}, {OWN | SEEN | CACHED, 0}, {OWN | LAZY, 0}}, 64, 1, 0, 0, 0},
    {"Qualcomm Adreno", 1, 5, {{5120, 1}},
        {{OWN, 0}, {OWN | SEEN | COHERENT, 0}, {OWN | SEEN | CACHED, 0}, {OWN | SEEN | COHERENT | CACHED, 0}, {OWN | LAZY, 0}}, 1, 1, 0, 0, 0},
    {"Apple M1, by MoltenVK", 1, 3, {{10240, 1}}, {{OWN, 0}, {OWN | SEEN | COHERENT | CACHED, 0}, {OWN | LAZY, 0}}, 16, 1, 0, 0x3, 0x5},
    {"AMD in a Mac, by MoltenVK", 2, 3, {{4096, 1}, {16384, 0}}, {{OWN, 0}, {SEEN | COHERENT | CACHED, 1}, {OWN | SEEN | CACHED, 0}}, 4096, 1, 0,
        0x1, 0x1},
    {"none coherent", 1, 2, {{4096, 1}}, {{OWN | SEEN, 0}, {OWN | SEEN | CACHED, 0}}, 256, 1, 0, 0, 0},
    {"Mesa's lavapipe", 1, 1, {{2048, 1}}, {{OWN | SEEN | COHERENT | CACHED, 0}}, 64, 64, 0, 0, 0},
};
enum { MEMORY_TABLES = sizeof memory_tables / sizeof *memory_tables };

/* The memory types that a resource may take: those that are told, or else all that fit it. */
static inline uint32_t bits_of(const struct memory_table *table, bool is_image, bool is_transient) {
    const uint32_t told = is_transient ? table->transient_bits : is_image ? table->image_bits : table->buffer_bits;
    uint32_t bits = 0;
    for (uint32_t i = 0; i < table->type_count; i++) {
        const VkMemoryPropertyFlags flags = table->types[i].flags;
        if (!(flags & PROTECTED) && (!(flags & LAZY) || is_transient)) bits |= UINT32_C(1) << i;
    }
    return told ? told : bits;
}
#endif
