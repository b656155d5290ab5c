/* dlsym itself may ask for memory before the real functions are known: it gets some of this, which is never given back. */
#include <stddef.h>

static _Alignas(16) char early[4096];
static size_t early_used;

static inline int is_early(const void *memory) {
    return (const char *)memory >= early && (const char *)memory < early + sizeof early;
}

static inline void *early_memory(size_t size) {
    size_t taken = (size + 15) & ~(size_t)15;
    if (taken < size || taken > sizeof early - early_used) return NULL;
    early_used += taken;
    return early + early_used - taken;
}
