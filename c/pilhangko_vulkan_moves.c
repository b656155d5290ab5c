/* Moves of many allocations, and of mapped ones with their bytes, by Pilhangko's Vulkan binding (include/pilhangko_vulkan.h): compile it with
 * the program, as C11 or as C++11. */
#include "pilhangko_vulkan_resource.h"

/* Copies the bytes of a mapped allocation to its second place. */
static pilhangko_vulkan_result copy_bytes(const pilhangko_vulkan *vulkan, const pilhangko_vulkan_allocation *from,
    const pilhangko_vulkan_allocation *to) {
    const pilhangko_vulkan_result result = pilhangko_vulkan_invalidate(vulkan, from, 0, VK_WHOLE_SIZE);
    if (result.status != PILHANGKO_OK) return result;
    memcpy(pilhangko_vulkan_mapped(vulkan, to), pilhangko_vulkan_mapped(vulkan, from), (size_t)to->size);
    return pilhangko_vulkan_flush(vulkan, to, 0, VK_WHOLE_SIZE);
}

/* Whether a live allocation is mapped. */
static pilhangko_status looks_mapped(const pilhangko_vulkan *vulkan, const pilhangko_vulkan_allocation *allocation) {
    pilhangko_vulkan_allocation_told told;
    const pilhangko_status status = pilhangko_vulkan_read_allocation(vulkan, allocation, &told);
    if (status != PILHANGKO_OK) return status;
    return told.mapped ? PILHANGKO_OK : PILHANGKO_VULKAN_NOT_MAPPED;
}

pilhangko_vulkan_result PILHANGKO_CALL pilhangko_vulkan_move_mapped(
    pilhangko_vulkan *vulkan, pilhangko_vulkan_allocation *allocation, const pilhangko_vulkan_request *request, bool *moved) {
    pilhangko_vulkan_allocation second, gone;
    bool moves = false;
    pilhangko_vulkan_result result;
    if (!vulkan || !allocation || !request || !moved) return undriven(PILHANGKO_NULL_POINTER);
    result = undriven(looks_mapped(vulkan, allocation));
    if (result.status == PILHANGKO_OK) result.status = pilhangko_vulkan_propose_move(vulkan, allocation, request, &moves, &second);
    if (result.status == PILHANGKO_OK && moves) result = copy_bytes(vulkan, allocation, &second);
    if (moves) { /* one of the two places goes */
        gone = result.status == PILHANGKO_OK ? *allocation : second;
        if (result.status == PILHANGKO_OK) *allocation = second;
        if (pilhangko_vulkan_free(vulkan, &gone) != PILHANGKO_OK) return undriven(PILHANGKO_NOT_LIVE); /* another thread freed it */
    }
    if (result.status == PILHANGKO_OK) *moved = moves;
    return result;
}

/* The lowest slot from one on in which an allocation of the table lies; SIZE_MAX where none does. */
static size_t next_slot(const pilhangko_vulkan_movable *movables, size_t count, size_t from) {
    size_t lowest = SIZE_MAX;
    for (size_t i = 0; i < count; i++) {
        const size_t slot = movables[i].allocation.piece.piece.slot;
        if (slot >= from && slot < lowest) lowest = slot;
    }
    return lowest;
}

/* Proposes moves of the allocations in one slot, behind those that were proposed before. */
static pilhangko_status propose_in_slot(pilhangko_vulkan *vulkan, const pilhangko_vulkan_movable *movables, size_t count, size_t slot,
    VkDeviceSize *bytes, pilhangko_vulkan_move *moves, size_t room, size_t *made) {
    for (size_t i = 0; i < count && *made < room; i++) {
        pilhangko_status status;
        bool has_place;
        if (movables[i].allocation.piece.piece.slot != slot) continue;
        status = propose_within(vulkan, &movables[i], bytes, &has_place, &moves[*made].to);
        if (status != PILHANGKO_OK) return status;
        moves[*made].index = i;
        *made += has_place;
    }
    return PILHANGKO_OK;
}

pilhangko_status PILHANGKO_CALL pilhangko_vulkan_propose_moves(pilhangko_vulkan *vulkan, const pilhangko_vulkan_movable *movables, size_t count,
    VkDeviceSize bytes, pilhangko_vulkan_move *moves, size_t room, size_t *proposed) {
    pilhangko_status status = PILHANGKO_OK;
    size_t made = 0;
    if (!vulkan || (!movables && count) || (!moves && room) || !proposed) return PILHANGKO_NULL_POINTER;
    if (!vulkan->opaque) return PILHANGKO_NO_HANDLE;
    for (size_t slot = next_slot(movables, count, 0); slot != SIZE_MAX && status == PILHANGKO_OK; slot = next_slot(movables, count, slot + 1))
        status = propose_in_slot(vulkan, movables, count, slot, &bytes, moves, room, &made);
    if (status == PILHANGKO_OK) *proposed = made;
    while (status != PILHANGKO_OK && made > 0)
        if (pilhangko_vulkan_free(vulkan, &moves[--made].to) != PILHANGKO_OK) return PILHANGKO_NOT_LIVE; /* another thread freed it */
    return status;
}
