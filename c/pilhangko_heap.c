/* The heap that libgpu_c.a calls, over the program's malloc, realloc and free: compile it and link it too. The three must belong to one
 * allocator, and malloc and realloc must align a block to each power of two up to 16 that divides its size, as every common C library's
 * do. */
#include <stdbool.h>
#include <stddef.h>
#include <stdlib.h>

/* C's calling convention, by which the archive calls: on Windows a compiler's default may be another one. */
#ifdef _WIN32
#define HEAP_CALL __cdecl
#else
#define HEAP_CALL
#endif

#ifdef __cplusplus
extern "C" {
#endif

/* What a request came to: the memory where it succeeded, and else a pointer that isn't NULL and is never used. */
struct pilhangko_tried {
    bool succeeded;
    void *memory;
};

struct pilhangko_tried HEAP_CALL rattle_alloc(size_t size, size_t alignment);
struct pilhangko_tried HEAP_CALL rattle_realloc(void *memory, size_t kept, size_t size, size_t alignment);
void HEAP_CALL rattle_dealloc(void *memory);

static struct pilhangko_tried tried(void *memory) {
    static char nothing;
    struct pilhangko_tried answer = {memory != NULL, memory ? memory : &nothing};
    return answer;
}

/* malloc(0) may answer NULL with no refusal: ask for the alignment then, which is 1 at least. */
struct pilhangko_tried HEAP_CALL rattle_alloc(size_t size, size_t alignment) {
    return tried(malloc(size ? size : alignment));
}

/* realloc keeps the first bytes, and leaves the memory as it was where it refuses. */
struct pilhangko_tried HEAP_CALL rattle_realloc(void *memory, size_t kept, size_t size, size_t alignment) {
    (void)kept;
    return tried(realloc(memory, size ? size : alignment));
}

void HEAP_CALL rattle_dealloc(void *memory) {
    free(memory);
}

#ifdef __cplusplus
}
#endif
