/* For examples/d3d12_renderer.c: a file for its capture, and one for what gpu_trace has to reply to that. Both are NULL where none is
 * wanted. */
#ifndef D3D12_CAPTURE_FILES_H
#define D3D12_CAPTURE_FILES_H
#include "pilhangko_d3d12.h"
#include <stdio.h>

static FILE *capture, *replies;

static bool open_files(const char *capture_name, const char *replies_name) {
    capture = fopen(capture_name, "wb");
    replies = fopen(replies_name, "wb");
    return capture && replies;
}

/* Takes the capture's bytes: a pilhangko_d3d12_write. */
static bool PILHANGKO_CALL write_capture(void *user, const char *bytes, size_t length) {
    return fwrite(bytes, 1, length, (FILE *)user) == length;
}

static void reply(const char *line) {
    if (replies) fprintf(replies, "%s\n", line);
}

/* A trace numbers heaps and committed resources as they are made. A heap is new where the sum of all heaps' sizes has grown. */
#define MOST_HEAPS 1024
static struct {
    ID3D12Heap *heaps[MOST_HEAPS];
    unsigned long long numbers[MOST_HEAPS], last;
    UINT64 capacity;
} numbered;

static unsigned long long number_of(ID3D12Heap *heap, bool is_new) {
    size_t i = 0;
    while (i + 1 < MOST_HEAPS && numbered.heaps[i] && numbered.heaps[i] != heap) i++;
    numbered.heaps[i] = heap;
    if (is_new) numbered.numbers[i] = ++numbered.last;
    return numbered.numbers[i];
}

static void reply_place(const pilhangko_d3d12_allocation *a, UINT64 capacity) {
    const pilhangko_memory_piece *p = &a->piece.piece;
    const unsigned long long number = a->heap ? number_of(a->heap, capacity > numbered.capacity) : ++numbered.last;
    numbered.capacity = capacity;
    if (replies && a->heap)
        fprintf(replies, "ok type %llu slot %llu offset %llu size %llu chunk %llu heap %llu\n", (unsigned long long)a->piece.memory_type,
            (unsigned long long)p->slot, (unsigned long long)p->offset, (unsigned long long)p->size, (unsigned long long)p->number, number);
    else if (replies)
        fprintf(replies, "ok resource %llu size %llu\n", number, (unsigned long long)((a->size + 65535) / 65536 * 65536));
}

static void reply_freed(UINT64 capacity) {
    numbered.capacity = capacity;
    reply("ok");
}
#endif
