/* Budgets and limits of Pilhangko's Vulkan binding (include/pilhangko_vulkan.h): compile it with c/pilhangko_vulkan.c, as C11 or as C++11. */
#include "pilhangko_vulkan_binding.h"

/* What the driver tells of its heaps now. */
static void read_budgets(const struct binding *b, VkPhysicalDeviceMemoryBudgetPropertiesEXT *budgets) {
    VkPhysicalDeviceMemoryProperties2 properties;
    memset(budgets, 0, sizeof *budgets);
    budgets->sType = VK_STRUCTURE_TYPE_PHYSICAL_DEVICE_MEMORY_BUDGET_PROPERTIES_EXT;
    memset(&properties, 0, sizeof properties);
    properties.sType = VK_STRUCTURE_TYPE_PHYSICAL_DEVICE_MEMORY_PROPERTIES_2;
    properties.pNext = budgets;
    b->common->over.functions->vkGetPhysicalDeviceMemoryProperties2(b->common->over.physical_device, &properties);
}

pilhangko_status PILHANGKO_CALL pilhangko_vulkan_read_heap(const pilhangko_vulkan *vulkan, uint32_t heap, pilhangko_vulkan_heap *read) {
    VkPhysicalDeviceMemoryBudgetPropertiesEXT budgets;
    const struct binding *b;
    if (!vulkan || !read) return PILHANGKO_NULL_POINTER;
    b = binding_of(vulkan);
    if (!b) return PILHANGKO_NO_HANDLE;
    if (heap >= b->common->properties.memoryHeapCount) return PILHANGKO_VULKAN_NO_SUCH_HEAP;
    memset(read, 0, sizeof *read);
    read->size = b->common->properties.memoryHeaps[heap].size;
    read->flags = b->common->properties.memoryHeaps[heap].flags;
    (void)enter(b);
    read->held = held_by_all(b->common, heap);
    leave(binding_of(vulkan));
    read->has_budget = b->common->memory_budget;
    if (!b->common->memory_budget) return PILHANGKO_OK;
    read_budgets(b, &budgets);
    read->usage = budgets.heapUsage[heap];
    read->budget = budgets.heapBudget[heap];
    return PILHANGKO_OK;
}

/* Limits each heap to what is held there and what the driver still gives, between enter and leave: no block comes or goes meanwhile. */
static void follow_driver(struct common *c, const VkPhysicalDeviceMemoryBudgetPropertiesEXT *budgets) {
    for (uint32_t heap = 0; heap < c->properties.memoryHeapCount; heap++) {
        const VkDeviceSize left = left_of(budgets->heapBudget[heap], budgets->heapUsage[heap]), held = held_by_all(c, heap);
        c->limits[heap].exists = true;
        c->limits[heap].bytes = left <= UINT64_MAX - held ? held + left : UINT64_MAX;
    }
    share_bounds(c);
}

pilhangko_status PILHANGKO_CALL pilhangko_vulkan_update_budgets(pilhangko_vulkan *vulkan) {
    VkPhysicalDeviceMemoryBudgetPropertiesEXT budgets;
    struct binding *b;
    if (!vulkan) return PILHANGKO_NULL_POINTER;
    if (!vulkan->opaque) return PILHANGKO_NO_HANDLE;
    if (!binding_of(vulkan)->common->memory_budget) return PILHANGKO_VULKAN_NO_BUDGETS;
    b = enter(binding_of(vulkan));
    read_budgets(b, &budgets);
    follow_driver(b->common, &budgets);
    leave(b);
    return PILHANGKO_OK;
}

pilhangko_status PILHANGKO_CALL pilhangko_vulkan_set_budget(
    pilhangko_vulkan *vulkan, uint32_t memory_type, bool has_budget, VkDeviceSize bytes) {
    struct binding *b;
    pilhangko_status status;
    if (!vulkan) return PILHANGKO_NULL_POINTER;
    if (!vulkan->opaque) return PILHANGKO_NO_HANDLE;
    b = enter(binding_of(vulkan));
    status = pilhangko_allocator_set_budget(&b->allocator, memory_type, has_budget, bytes);
    b->changes++;
    leave(b);
    return status;
}

pilhangko_status PILHANGKO_CALL pilhangko_vulkan_budget(const pilhangko_vulkan *vulkan, uint32_t memory_type, pilhangko_budget *budget) {
    struct binding *b;
    pilhangko_status status;
    if (!vulkan || !budget) return PILHANGKO_NULL_POINTER;
    if (!vulkan->opaque) return PILHANGKO_NO_HANDLE;
    b = enter(binding_of(vulkan));
    status = pilhangko_allocator_budget(&b->allocator, memory_type, budget);
    leave(b);
    return status;
}

pilhangko_status PILHANGKO_CALL pilhangko_vulkan_set_heap_limit(
    pilhangko_vulkan *vulkan, uint32_t heap, bool has_limit, VkDeviceSize bytes) {
    struct binding *b;
    pilhangko_status status;
    if (!vulkan) return PILHANGKO_NULL_POINTER;
    if (!vulkan->opaque) return PILHANGKO_NO_HANDLE;
    b = enter(binding_of(vulkan));
    status = pilhangko_allocator_set_heap_limit(&b->allocator, heap, has_limit, bytes);
    if (status == PILHANGKO_OK) {
        b->common->limits[heap].exists = has_limit;
        b->common->limits[heap].bytes = has_limit ? bytes : 0;
        share_bounds(b->common);
    }
    leave(b);
    if (status == PILHANGKO_NO_SUCH_HEAP) return PILHANGKO_VULKAN_NO_SUCH_HEAP;
    return status;
}

pilhangko_status PILHANGKO_CALL pilhangko_vulkan_heap_limit(const pilhangko_vulkan *vulkan, uint32_t heap, pilhangko_budget *limit) {
    struct binding *b;
    if (!vulkan || !limit) return PILHANGKO_NULL_POINTER;
    if (!vulkan->opaque) return PILHANGKO_NO_HANDLE;
    b = enter(binding_of(vulkan));
    memset(limit, 0, sizeof *limit);
    if (heap < b->common->properties.memoryHeapCount) *limit = b->common->limits[heap];
    leave(b);
    return PILHANGKO_OK;
}
