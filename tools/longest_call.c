/* The longest single call while a virtual block is filled with 100,000 pieces, and while they are freed in mixed order: nanoseconds of the
 * thread's processor time, the least of nine fills. What makes a call long is that it fills a page of each table, and adds a quarter to the
 * chains' heads, which may be copied.
 *     cc -O2 -Iinclude -o longest_call tools/longest_call.c c/pilhangko_heap.c crates/gpu_c/out/libgpu_c.a && ./longest_call */
#define _GNU_SOURCE
#include "pilhangko.h"
#include <stdio.h>
#include <stdlib.h>
#include <time.h>

#define PIECES 100000

static uint64_t now(void) {
    struct timespec t;
    clock_gettime(CLOCK_THREAD_CPUTIME_ID, &t);
    return (uint64_t)t.tv_sec * 1000000000u + (uint64_t)t.tv_nsec;
}

static pilhangko_virtual_piece pieces[PIECES];

static uint64_t longest_allocate(pilhangko_virtual_block *block, uint64_t *sum) {
    uint64_t longest = 0;
    for (uint64_t i = 0; i < PIECES; i++) {
        pilhangko_virtual_request request = {64 + i % 4033, 1u << (i % 9), PILHANGKO_KIND_LINEAR};
        uint64_t began = now(), took;
        if (pilhangko_virtual_block_allocate(block, &request, "w", &pieces[i]) != PILHANGKO_OK) exit(1);
        took = now() - began;
        *sum += took;
        if (took > longest) longest = took;
    }
    return longest;
}

static uint64_t longest_free(pilhangko_virtual_block *block, uint64_t *sum) {
    uint64_t longest = 0;
    for (uint64_t i = 0; i < PIECES; i++) {
        const pilhangko_virtual_piece *piece = &pieces[i * 77773 % PIECES];
        uint64_t began = now(), took;
        if (pilhangko_virtual_block_free(block, piece) != PILHANGKO_OK) exit(1);
        took = now() - began;
        *sum += took;
        if (took > longest) longest = took;
    }
    return longest;
}

int main(void) {
    uint64_t take = UINT64_MAX, gone = UINT64_MAX, takes = UINT64_MAX, frees = UINT64_MAX;
    for (int turn = 0; turn < 9; turn++) {
        pilhangko_virtual_block block = {0};
        uint64_t sum = 0, longest;
        if (pilhangko_virtual_block_create(&block, UINT64_C(1) << 30, 1) != PILHANGKO_OK) return 1;
        longest = longest_allocate(&block, &sum);
        if (longest < take) take = longest;
        if (sum < takes) takes = sum;
        sum = 0;
        longest = longest_free(&block, &sum);
        if (longest < gone) gone = longest;
        if (sum < frees) frees = sum;
        pilhangko_virtual_block_destroy(&block);
    }
    printf("the longest of %d allocations %llu, of as many frees %llu; in the mean %llu and %llu\n", PIECES, (unsigned long long)take,
        (unsigned long long)gone, (unsigned long long)(takes / PIECES), (unsigned long long)(frees / PIECES));
    return 0;
}
