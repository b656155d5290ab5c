/* For examples/renderer.c: a file for its capture, and one for what gpu_trace has to reply to that. Both are NULL where none is wanted. */
#ifndef CAPTURE_FILES_H
#define CAPTURE_FILES_H
#include "pilhangko_vulkan.h"
#include <stdio.h>

static FILE *capture, *replies;

/* Whether the files are open that the program's words name. */
static bool open_files(int count, char **words) {
    if (count != 3) return count == 1;
    capture = fopen(words[1], "wb");
    replies = fopen(words[2], "wb");
    return capture && replies;
}

/* Takes the capture's bytes: a pilhangko_vulkan_write. */
static bool write_capture(void *user, const char *bytes, size_t length) {
    return fwrite(bytes, 1, length, (FILE *)user) == length;
}

static void reply(const char *line) {
    if (replies) fprintf(replies, "%s\n", line);
}

static void reply_place(const pilhangko_vulkan_allocation *a) {
    const pilhangko_memory_piece *p = &a->piece.piece;
    if (!replies) return;
    fprintf(replies, "ok type %zu slot %zu offset %llu size %llu chunk %llu dedicated %s mapped %s\n", a->piece.memory_type, p->slot,
        (unsigned long long)p->offset, (unsigned long long)p->size, (unsigned long long)p->number, a->dedicated ? "true" : "false",
        a->piece.address ? "true" : "false");
}
#endif
