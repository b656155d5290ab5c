#include "refusing_heap.h"
#include <stdbool.h>
#include <stddef.h>
#include <stdlib.h>

long heap_requests, heap_refused, heap_held;

struct tried {
    bool succeeded;
    void *memory;
};

struct tried rattle_alloc(size_t size, size_t alignment);
struct tried rattle_realloc(void *memory, size_t kept, size_t size, size_t alignment);
void rattle_dealloc(void *memory);

void *refusing_malloc(size_t size) {
    void *memory = ++heap_requests == heap_refused ? NULL : malloc(size);
    heap_held += memory != NULL;
    return memory;
}

void *refusing_realloc(void *memory, size_t size) {
    void *moved = ++heap_requests == heap_refused ? NULL : realloc(memory, size);
    heap_held += moved && !memory;
    return moved;
}

void refusing_free(void *memory) {
    heap_held -= memory != NULL;
    free(memory);
}

static struct tried tried(void *memory) {
    static char nothing;
    struct tried result = {memory != NULL, memory ? memory : &nothing};
    return result;
}

struct tried rattle_alloc(size_t size, size_t alignment) {
    return tried(refusing_malloc(size ? size : alignment));
}

struct tried rattle_realloc(void *memory, size_t kept, size_t size, size_t alignment) {
    (void)kept;
    return tried(refusing_realloc(memory, size ? size : alignment));
}

void rattle_dealloc(void *memory) {
    refusing_free(memory);
}
