/* Preloaded under a built program: keeps the sum of the host memory that it holds, as glibc's chunks with their headers. At each write
   to standard output that sum, in bytes, goes in a line of its own to the file that MEMORY_TO names. */
#define _GNU_SOURCE
#include <dlfcn.h>
#include <fcntl.h>
#include <malloc.h>
#include <stdio.h>
#include <stdlib.h>
#include <unistd.h>

#include "early_memory.h"

static void *(*real_malloc)(size_t);
static void *(*real_realloc)(void *, size_t);
static void (*real_free)(void *);
static ssize_t (*real_write)(int, const void *, size_t);
static size_t held;
static int told = -1;

__attribute__((constructor)) static void begin(void) {
    const char *path = getenv("MEMORY_TO");
    real_malloc = (void *(*)(size_t))dlsym(RTLD_NEXT, "malloc");
    real_realloc = (void *(*)(void *, size_t))dlsym(RTLD_NEXT, "realloc");
    real_free = (void (*)(void *))dlsym(RTLD_NEXT, "free");
    real_write = (ssize_t (*)(int, const void *, size_t))dlsym(RTLD_NEXT, "write");
    held = 0;
    told = path ? open(path, O_WRONLY | O_CREAT | O_TRUNC, 0644) : -1;
}

/* a chunk is what the program can use of it and the word before that, which holds its size */
static size_t chunk(void *memory) { return memory ? malloc_usable_size(memory) + sizeof(size_t) : 0; }

void *malloc(size_t size) {
    if (!real_malloc) return early_memory(size);
    void *got = real_malloc(size);
    held += chunk(got);
    return got;
}

void *realloc(void *old, size_t size) {
    if (!real_realloc || is_early(old)) return NULL;
    size_t was = chunk(old);
    void *got = real_realloc(old, size);
    if (got) held += chunk(got) - was;
    return got;
}

void free(void *memory) {
    if (!real_free || is_early(memory)) return;
    held -= chunk(memory);
    real_free(memory);
}

ssize_t write(int file, const void *bytes, size_t size) {
    if (file == STDOUT_FILENO && told >= 0) {
        char line[32];
        int length = snprintf(line, sizeof line, "%zu\n", held);
        if (real_write(told, line, (size_t)length) != length) _exit(99);
    }
    return real_write(file, bytes, size);
}
