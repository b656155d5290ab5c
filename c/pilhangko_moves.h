/* What moves have alike over any API: a free that counts, and a move within a frame's bytes. A file of a binding includes it once it has said
 * how the binding's names begin, and what a request asks for:
 *   #define NAMED(rest) pilhangko_vulkan##rest
 *   #define BYTES_OF(request) ((request)->requirements.size)
 * Not for its users. */
#ifndef PILHANGKO_MOVES_H
#define PILHANGKO_MOVES_H

#ifdef __cplusplus
extern "C" {
#endif
/* As the binding's free, of a handle that isn't empty, and says how many bytes of the driver's went back with it: those of the block, or 0. */
pilhangko_status PILHANGKO_CALL NAMED(_free_counted)(NAMED() *binding, const NAMED(_allocation) *allocation, uint64_t *bytes);
#ifdef __cplusplus
}
#endif

/* Proposes a move, if it keeps within the bytes that are left. */
static inline pilhangko_status propose_within(
    NAMED() *binding, const NAMED(_movable) *it, uint64_t *bytes, bool *moves, NAMED(_allocation) *to) {
    pilhangko_status status;
    *moves = false;
    if (BYTES_OF(&it->request) > *bytes) return PILHANGKO_OK;
    status = NAMED(_propose_move)(binding, &it->allocation, &it->request, moves, to);
    if (status == PILHANGKO_OK && *moves) *bytes -= to->size;
    return status;
}

#endif
