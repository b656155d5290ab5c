/* Preloaded under a built program: refuses one of its requests for host memory, and counts what it asks for.
   REFUSE_NTH=N refuses the Nth request, from 1. COUNT_TO=FILE: at the end the number of requests and of writes to
   standard output go there, in one line. */
#define _GNU_SOURCE
#include <dlfcn.h>
#include <fcntl.h>
#include <stdio.h>
#include <stdlib.h>
#include <unistd.h>

#include "early_memory.h"

static void *(*real_malloc)(size_t);
static void *(*real_realloc)(void *, size_t);
static ssize_t (*real_write)(int, const void *, size_t);
static long requests, writes, refused;

__attribute__((constructor)) static void begin(void) {
    const char *nth = getenv("REFUSE_NTH");
    real_malloc = (void *(*)(size_t))dlsym(RTLD_NEXT, "malloc");
    real_realloc = (void *(*)(void *, size_t))dlsym(RTLD_NEXT, "realloc");
    real_write = (ssize_t (*)(int, const void *, size_t))dlsym(RTLD_NEXT, "write");
    refused = nth ? atol(nth) : 0;
    requests = 0;
    writes = 0;
}

__attribute__((destructor)) static void end(void) {
    const char *path = getenv("COUNT_TO");
    char line[64];
    if (!path) return;
    int file = open(path, O_WRONLY | O_CREAT | O_TRUNC, 0644);
    if (file < 0) return;
    int length = snprintf(line, sizeof line, "%ld %ld\n", requests, writes);
    if (real_write(file, line, (size_t)length) != length) _exit(99);
    close(file);
}

void *malloc(size_t size) {
    if (!real_malloc) return early_memory(size);
    return ++requests == refused ? NULL : real_malloc(size);
}

void *realloc(void *old, size_t size) {
    if (!real_realloc) return NULL;
    return ++requests == refused ? NULL : real_realloc(old, size);
}

ssize_t write(int file, const void *bytes, size_t size) {
    if (file == STDOUT_FILENO) writes++;
    return real_write(file, bytes, size);
}
