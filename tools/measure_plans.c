/* Plans of random frame graphs: the heap's size over the peak on 1,000 graphs of 20 to 200 passes, with pages of 1,024 bytes, and what it
 * would be without sharing; and the processor time of one plan, which tries all five orders, by the number of resources, the least of five.
 *     cc -O2 -Iinclude -o measure_plans tools/measure_plans.c c/pilhangko_heap.c crates/gpu_c/out/libgpu_c.a && ./measure_plans */
#define _GNU_SOURCE
#include "pilhangko.h"
#include <stdio.h>
#include <stdlib.h>
#include <time.h>

#define MOST 10000
#define GRAPHS 1000
#define PAGE 1024

static uint64_t state = 0x9E3779B97F4A7C15u;
static uint64_t below(uint64_t n) { /* xorshift64* */
    state ^= state >> 12, state ^= state << 25, state ^= state >> 27;
    return (state * 0x2545F4914F6CDD1Du >> 11) % n;
}

static pilhangko_plan_resource resources[MOST + 16];
static uint64_t offsets[MOST + 16];
static size_t count;

static uint64_t least(uint64_t a, uint64_t b) {
    return a < b ? a : b;
}

static uint64_t rounded(uint64_t x, uint64_t to) {
    return (x + to - 1) / to * to;
}

/* an image of so many bytes a pixel */
static uint64_t image(uint64_t width, uint64_t height, uint64_t bytes) {
    return rounded((width ? width : 1) * (height ? height : 1) * bytes, 65536);
}

static void add(uint64_t size, uint64_t alignment, pilhangko_kind kind, uint64_t first, uint64_t last, uint64_t passes) {
    resources[count++] = (pilhangko_plan_resource){size, alignment, kind, least(first, passes - 1), least(last, passes - 1)};
}

/* a resource as renderers have them, or several: targets, chains of bloom, shadow maps, mips, multisampled targets, volumes, buffers */
static void add_some(uint64_t width, uint64_t height, uint64_t passes) {
    static const uint64_t bytes[] = {1, 2, 4, 4, 4, 8, 8, 16}, parts[] = {1, 1, 1, 2, 2, 4}, maps[] = {512, 1024, 2048, 2048, 4096};
    uint64_t first = below(passes), last = first + 1, what = below(100), each;
    if (below(100) < 8) last = first + 1 + below(passes);
    else
        while (last < first + 20 && below(100) < 62) last++;
    if (what < 40) {
        uint64_t part = parts[below(6)];
        add(image(width / part, height / part, bytes[below(8)]), 65536, PILHANGKO_KIND_NON_LINEAR, first, last, passes);
    } else if (what < 53) {
        uint64_t levels = 4 + below(5);
        each = below(2) ? 4 : 8;
        for (uint64_t i = 0; i < levels; i++)
            add(image(width >> (i + 1), height >> (i + 1), each), 65536, PILHANGKO_KIND_NON_LINEAR, first + i, first + 2 * levels - i, passes);
    } else if (what < 61) {
        uint64_t side = maps[below(5)], many = below(3) ? 1 : 4;
        for (uint64_t i = 0; i < many; i++)
            add(image(side, side, below(2) ? 2 : 4), 65536, PILHANGKO_KIND_NON_LINEAR, first + i, last + many, passes);
    } else if (what < 67) {
        each = image(width, height, 4);
        add(rounded(each + each / 3, 65536), 65536, PILHANGKO_KIND_NON_LINEAR, first, last, passes);
    } else if (what < 71) {
        each = image(width, height, 4) * (below(2) ? 2 : 4);
        add(each, below(2) ? 65536 : 4 << 20, PILHANGKO_KIND_NON_LINEAR, first, last, passes);
    } else if (what < 81) {
        add(image(below(2) ? 160 : 240, 90 * 64, below(2) ? 4 : 8), 65536, PILHANGKO_KIND_NON_LINEAR, first, last, passes);
    } else {
        each = 256 + below(UINT64_C(1) << (10 + 4 * below(4)));
        add(rounded(each, 16), UINT64_C(16) << 2 * below(3), PILHANGKO_KIND_LINEAR, first, last, passes);
    }
}

static void make_graph(uint64_t passes, size_t wanted) {
    static const uint64_t sides[4][2] = {{1280, 720}, {1920, 1080}, {2560, 1440}, {3840, 2160}};
    const uint64_t *side = sides[below(4)];
    for (count = 0; count < wanted;) add_some(side[0], side[1], passes);
    if (count > wanted) count = wanted;
}

static pilhangko_heap_plan planned(void) {
    pilhangko_heap_plan plan;
    if (pilhangko_plan(resources, count, PAGE, offsets, &plan) != PILHANGKO_OK) exit(1);
    return plan;
}

static int by_value(const void *a, const void *b) {
    double x = *(const double *)a, y = *(const double *)b;
    return (x > y) - (x < y);
}

static void measure_heaps(void) {
    static double over[GRAPHS], unshared[GRAPHS];
    double sum = 0;
    for (int i = 0; i < GRAPHS; i++) {
        uint64_t passes = 20 + below(181), whole = 0;
        pilhangko_heap_plan plan;
        make_graph(passes, passes + below(2 * passes));
        plan = planned();
        for (size_t k = 0; k < count; k++) whole += resources[k].size;
        over[i] = (double)plan.heap_size / (double)plan.peak;
        unshared[i] = (double)whole / (double)plan.peak;
        sum += over[i];
    }
    qsort(over, GRAPHS, sizeof *over, by_value);
    qsort(unshared, GRAPHS, sizeof *unshared, by_value);
    printf("heap over peak: median %.4f, mean %.4f, 99 of 100 %.3f, worst %.3f; without sharing median %.1f\n", over[GRAPHS / 2], sum / GRAPHS,
        over[GRAPHS * 99 / 100], over[GRAPHS - 1], unshared[GRAPHS / 2]);
}

static double now(void) {
    struct timespec t;
    clock_gettime(CLOCK_THREAD_CPUTIME_ID, &t);
    return (double)t.tv_sec * 1e3 + (double)t.tv_nsec / 1e6;
}

static void measure_time(size_t wanted, uint64_t passes) {
    double best = 1e9;
    make_graph(passes, wanted);
    for (int run = 0; run < 5; run++) {
        double began = now(), took;
        planned();
        took = now() - began;
        if (took < best) best = took;
    }
    printf("%zu resources over %d passes: %.1f ms\n", wanted, (int)passes, best);
}

int main(void) {
    measure_heaps();
    measure_time(80, 30);
    measure_time(500, 100);
    measure_time(2000, 200);
    measure_time(10000, 1000);
    return 0;
}
