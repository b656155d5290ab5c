/* Plans of transient resources: worked rows, each status, and random plans beside an account by the rules alone (plan_account.h). Each
 * request for host memory is refused in turn: the call says so, and changes nothing. */
#include "plan_account.h"
#include "refusing_heap.h"

#define KB (UINT64_C(1) << 10)

static pilhangko_plan_resource linear(uint64_t size, uint64_t alignment, uint64_t first, uint64_t last) {
    return (pilhangko_plan_resource){size, alignment, PILHANGKO_KIND_LINEAR, first, last};
}

static pilhangko_plan_resource image(uint64_t size, uint64_t alignment, uint64_t first, uint64_t last) {
    return (pilhangko_plan_resource){size, alignment, PILHANGKO_KIND_NON_LINEAR, first, last};
}

/* Two that are never alive together have the same bytes, a third lies behind both. */
static void shares_memory(void) {
    const pilhangko_plan_resource r[] = {image(64, 16, 0, 1), image(64, 16, 2, 3), image(32, 16, 1, 2)};
    uint64_t offsets[3];
    pilhangko_heap_plan plan;
    size_t reused[3], count;
    IS(pilhangko_plan(r, 3, 1, offsets, &plan), PILHANGKO_OK);
    CHECK(offsets[0] == 0 && offsets[1] == 0 && offsets[2] == 64);
    CHECK(plan.heap_size == 96 && plan.peak == 96 && plan.order == PILHANGKO_PLAN_ORDER_SIZE);
    IS(pilhangko_plan_reuses(r, 3, offsets, 1, reused, 3, &count), PILHANGKO_OK);
    CHECK(count == 1 && reused[0] == 0);
    IS(pilhangko_plan_reuses(r, 3, offsets, 0, reused, 3, &count), PILHANGKO_OK);
    CHECK(count == 0);
    /* passes that touch at one pass overlap */
    const pilhangko_plan_resource touching[] = {image(64, 16, 0, 2), image(64, 16, 2, 3)};
    IS(pilhangko_plan(touching, 2, 1, offsets, &plan), PILHANGKO_OK);
    CHECK(offsets[0] == 0 && offsets[1] == 64 && plan.heap_size == 128 && plan.peak == 128);
}

/* Kinds share no page while both are alive, and may once they aren't. */
static void keeps_pages_apart(void) {
    const pilhangko_plan_resource r[] = {image(100, 4, 0, 0), linear(60, 4, 0, 1), linear(8, 4, 1, 1)};
    uint64_t offsets[3];
    pilhangko_heap_plan plan;
    IS(pilhangko_plan(r, 3, KB, offsets, &plan), PILHANGKO_OK);
    CHECK(offsets[0] == 0 && offsets[1] == KB && offsets[2] == 0 && plan.heap_size == KB + 60 && plan.peak == 160);
    IS(pilhangko_plan(r, 3, 1, offsets, &plan), PILHANGKO_OK);
    CHECK(offsets[1] == 100 && plan.heap_size == 160);
}

static void statuses(void) {
    pilhangko_plan_resource r[] = {linear(64, 16, 0, 1), image(64, 16, 1, 1)};
    uint64_t offsets[2] = {7, 8};
    pilhangko_heap_plan plan = {5, 6, PILHANGKO_PLAN_ORDER_BREADTH};
    size_t reused[2] = {3, 4}, count = 9;
    IS(pilhangko_plan(NULL, 1, 1, offsets, &plan), PILHANGKO_NULL_POINTER);
    IS(pilhangko_plan(r, 2, 1, NULL, &plan), PILHANGKO_NULL_POINTER);
    IS(pilhangko_plan(r, 2, 1, offsets, NULL), PILHANGKO_NULL_POINTER);
    IS(pilhangko_plan(r, 2, 0, offsets, &plan), PILHANGKO_INVALID);
    IS(pilhangko_plan(r, 2, 3, offsets, &plan), PILHANGKO_INVALID);
    const pilhangko_plan_resource bad[] = {linear(0, 1, 0, 0), linear(1, 0, 0, 0), linear(1, 24, 0, 0), linear(1, 1, 1, 0),
        {1, 1, (pilhangko_kind)0, 0, 0}, {1, 1, (pilhangko_kind)3, 0, 0}};
    for (unsigned i = 0; i < sizeof bad / sizeof *bad; i++) {
        r[1] = bad[i];
        IS(pilhangko_plan(r, 2, 1, offsets, &plan), PILHANGKO_INVALID);
    }
    IS(pilhangko_raw_plan(r, 1, 1, offsets, 2, &plan), PILHANGKO_INVALID);
    IS(pilhangko_raw_plan(r, 1, 1, offsets, 0, &plan), PILHANGKO_INVALID);
    /* two halves of 2^64 bytes pass 64 bits in each order; beside one byte less they don't */
    r[0] = linear(UINT64_C(1) << 63, 1, 0, 0);
    r[1] = linear(UINT64_C(1) << 63, 1, 0, 0);
    IS(pilhangko_plan(r, 2, 1, offsets, &plan), PILHANGKO_OUT_OF_MEMORY);
    r[0] = image(UINT64_MAX, UINT64_C(1) << 63, 0, 0);
    r[1] = linear(1, 1, 0, 0);
    IS(pilhangko_plan(r, 2, 1, offsets, &plan), PILHANGKO_OUT_OF_MEMORY);
    CHECK(offsets[0] == 7 && offsets[1] == 8 && plan.heap_size == 5 && plan.peak == 6 && plan.order == PILHANGKO_PLAN_ORDER_BREADTH);
    r[0] = linear(UINT64_C(1) << 63, 1, 0, 0);
    r[1] = linear((UINT64_C(1) << 63) - 1, 1, 0, 0);
    IS(pilhangko_plan(r, 2, 1, offsets, &plan), PILHANGKO_OK);
    CHECK(plan.heap_size == UINT64_MAX && plan.peak == UINT64_MAX && offsets[0] == 0 && offsets[1] == UINT64_C(1) << 63);
    IS(pilhangko_plan(NULL, 0, 64, NULL, &plan), PILHANGKO_OK);
    CHECK(plan.heap_size == 0 && plan.peak == 0 && plan.order == PILHANGKO_PLAN_ORDER_SIZE);
    IS(pilhangko_plan_reuses(NULL, 2, offsets, 0, reused, 2, &count), PILHANGKO_NULL_POINTER);
    IS(pilhangko_plan_reuses(r, 2, NULL, 0, reused, 2, &count), PILHANGKO_NULL_POINTER);
    IS(pilhangko_plan_reuses(r, 2, offsets, 0, NULL, 2, &count), PILHANGKO_NULL_POINTER);
    IS(pilhangko_plan_reuses(r, 2, offsets, 0, reused, 2, NULL), PILHANGKO_NULL_POINTER);
    IS(pilhangko_plan_reuses(r, 2, offsets, 2, reused, 2, &count), PILHANGKO_INVALID);
    IS(pilhangko_raw_plan_reuses(r, 2, offsets, 1, 0, reused, 2, &count), PILHANGKO_INVALID);
    CHECK(count == 9 && reused[0] == 3 && reused[1] == 4);
}

/* ---- which resources share an allocation, and the memory of a heap ---- */

/* Set 0 may have memory types 0, 1 and 2, then 0 alone; no set has none. */
static void joins_sets(void) {
    const pilhangko_memory_needs needs[] = {{7, false}, {9, false}, {6, false}, {15, true}, {8, false}, {1, false}, {0, false}, {0, false}};
    const size_t wanted[] = {0, 0, 1, 2, 3, 0, 4, 5};
    size_t sets[8];
    IS(pilhangko_plan_sets(needs, 8, sets), PILHANGKO_OK);
    for (size_t i = 0; i < 8; i++) CHECK(sets[i] == wanted[i]);
    IS(pilhangko_plan_sets(NULL, 0, NULL), PILHANGKO_OK);
    sets[0] = 9;
    IS(pilhangko_plan_sets(NULL, 1, sets), PILHANGKO_NULL_POINTER);
    IS(pilhangko_plan_sets(needs, 1, NULL), PILHANGKO_NULL_POINTER);
    IS(pilhangko_raw_plan_sets(needs, 2, sets, 1), PILHANGKO_INVALID);
    IS(pilhangko_raw_plan_sets(needs, 1, sets, 2), PILHANGKO_INVALID);
    CHECK(sets[0] == 9);
}

static void has_memory(const pilhangko_plan_resource *r, size_t count, uint64_t heap_size, uint64_t size, uint64_t alignment, pilhangko_kind kind) {
    pilhangko_heap_memory memory = {7, 8, (pilhangko_kind)9};
    IS(pilhangko_plan_memory(r, count, heap_size, KB, &memory), PILHANGKO_OK);
    CHECK(memory.size == size && memory.alignment == alignment && memory.kind == kind);
}

static void memory_of_heaps(void) {
    const pilhangko_plan_resource r[] = {image(100, 4, 0, 0), image(60, 16, 0, 1), linear(8, 8, 1, 1), linear(4, 4096, 1, 1)};
    const pilhangko_plan_resource bad = linear(0, 1, 0, 0);
    pilhangko_heap_memory memory = {7, 8, (pilhangko_kind)9};
    has_memory(r, 2, 160, 160, 16, PILHANGKO_KIND_NON_LINEAR);
    has_memory(r + 2, 1, 8, 8, 8, PILHANGKO_KIND_LINEAR);
    has_memory(r, 3, 160, KB, KB, PILHANGKO_KIND_NON_LINEAR);
    has_memory(r, 3, KB, KB, KB, PILHANGKO_KIND_NON_LINEAR);
    has_memory(r, 4, KB + 1, 2 * KB, 4096, PILHANGKO_KIND_NON_LINEAR);
    has_memory(r, 1, UINT64_MAX, UINT64_MAX, 4, PILHANGKO_KIND_NON_LINEAR);
    has_memory(NULL, 0, 0, 0, 1, PILHANGKO_KIND_LINEAR);
    IS(pilhangko_plan_memory(r, 3, UINT64_MAX - KB + 2, KB, &memory), PILHANGKO_OUT_OF_MEMORY);
    IS(pilhangko_plan_memory(r, 3, 160, 0, &memory), PILHANGKO_INVALID);
    IS(pilhangko_plan_memory(r, 3, 160, 24, &memory), PILHANGKO_INVALID);
    IS(pilhangko_plan_memory(&bad, 1, 160, KB, &memory), PILHANGKO_INVALID);
    IS(pilhangko_plan_memory(NULL, 1, 160, KB, &memory), PILHANGKO_NULL_POINTER);
    IS(pilhangko_plan_memory(r, 1, 160, KB, NULL), PILHANGKO_NULL_POINTER);
    CHECK(memory.size == 7 && memory.alignment == 8 && memory.kind == 9);
}

/* ---- random plans ---- */

static pilhangko_plan_resource resources[MOST_RESOURCES];
static uint64_t offsets[MOST_RESOURCES];
static size_t orders[6], plans, too_large, shared;

/* sizes and lives as frames have them; now and then all equal, or huge */
static size_t random_resources(uint64_t passes, unsigned kinds) {
    size_t count = random_below(random_below(4) ? 40 : 160);
    bool huge = random_below(12) == 0, equal = random_below(8) == 0;
    for (size_t i = 0; i < count; i++) {
        uint64_t first = random_below(passes), life = random_below(random_below(6) ? 6 : passes);
        uint64_t size = 1 + random_below(UINT64_C(1) << (4 + random_below(14)));
        if (equal) size = 4096;
        if (huge) size <<= 44 + random_below(3);
        resources[i] = (pilhangko_plan_resource){size, UINT64_C(1) << random_below(random_below(3) ? 9 : 14),
            (pilhangko_kind)(kinds < 3 ? kinds : 1 + random_below(2)), first, first + life < passes ? first + life : passes - 1};
    }
    return count;
}

static void compare_reuses(size_t count) {
    static size_t wanted[MOST_RESOURCES], got[MOST_RESOURCES];
    for (size_t i = 0; i < count; i++) {
        size_t many = reused_by(resources, count, offsets, i, wanted), told, room = random_below(count + 1);
        memset(got, 0xff, sizeof got);
        IS(pilhangko_plan_reuses(resources, count, offsets, i, room ? got : NULL, room, &told), PILHANGKO_OK);
        CHECK(told == many);
        CHECK(memcmp(got, wanted, sizeof *got * (many < room ? many : room)) == 0);
        for (size_t k = many; k < room; k++) CHECK(got[k] == SIZE_MAX);
        shared += many;
    }
}

static void compare(uint64_t page) {
    static struct planned wanted;
    size_t count = random_resources(1 + random_below(40), 1 + (unsigned)random_below(4));
    pilhangko_heap_plan plan;
    unsigned order = best_plan(resources, count, page, &wanted);
    if (!order) {
        IS(pilhangko_plan(resources, count, page, offsets, &plan), PILHANGKO_OUT_OF_MEMORY);
        too_large++;
        return;
    }
    IS(pilhangko_plan(resources, count, page, offsets, &plan), PILHANGKO_OK);
    CHECK(plan.order == order && plan.heap_size == wanted.heap_size && plan.peak == peak_of(resources, count));
    CHECK(memcmp(offsets, wanted.offsets, sizeof *offsets * count) == 0);
    compare_reuses(count);
    orders[order]++;
    plans++;
}

static void random_plans(void) {
    static const uint64_t pages[] = {1, 64, KB, 64 * KB};
    random_state = 1;
    for (unsigned round = 0; round < 1500; round++) compare(pages[round % 4]);
    CHECK(too_large > 0 && shared > 0);
    for (unsigned order = 1; order <= 5; order++) CHECK(orders[order] > 0);
    printf("%zu plans as by the rules (by order %zu, %zu, %zu, %zu, %zu), %zu too large, %zu reuses\n", plans, orders[1], orders[2], orders[3],
        orders[4], orders[5], too_large, shared);
}

/* ---- host memory ---- */

static unsigned refusals;

/* the sets of so many resources, and the memory of their heap */
static void gathered_once(size_t count) {
    static const pilhangko_memory_needs needs[] = {{1, false}, {2, false}, {3, false}};
    size_t sets[3] = {9, 9, 9};
    pilhangko_heap_memory memory = {7, 8, PILHANGKO_KIND_LINEAR};
    pilhangko_status status = pilhangko_plan_sets(needs, 3, sets);
    if (status == PILHANGKO_HOST_OUT_OF_MEMORY) {
        refusals++;
        CHECK(sets[0] == 9 && sets[1] == 9 && sets[2] == 9);
        status = pilhangko_plan_sets(needs, 3, sets);
    }
    IS(status, PILHANGKO_OK);
    CHECK(sets[0] == 0 && sets[1] == 1 && sets[2] == 0);
    status = pilhangko_plan_memory(resources, count, 5 * KB - 1, KB, &memory);
    if (status == PILHANGKO_HOST_OUT_OF_MEMORY) {
        refusals++;
        CHECK(memory.size == 7 && memory.alignment == 8 && memory.kind == PILHANGKO_KIND_LINEAR);
        status = pilhangko_plan_memory(resources, count, 5 * KB - 1, KB, &memory);
    }
    IS(status, PILHANGKO_OK);
    CHECK(memory.size == 5 * KB && memory.alignment == KB && memory.kind == PILHANGKO_KIND_NON_LINEAR);
}

/* the calls that a plan's user makes; any refusal leaves what they write to */
static void planned_once(size_t count) {
    static uint64_t written[MOST_RESOURCES];
    pilhangko_heap_plan plan = {5, 6, PILHANGKO_PLAN_ORDER_AREA};
    size_t reused[MOST_RESOURCES], many = 9;
    memset(written, 0x11, sizeof written);
    memset(reused, 0x11, sizeof reused);
    pilhangko_status status = pilhangko_plan(resources, count, KB, written, &plan);
    if (status == PILHANGKO_HOST_OUT_OF_MEMORY) {
        refusals++;
        for (size_t i = 0; i < count; i++) CHECK(written[i] == UINT64_C(0x1111111111111111));
        CHECK(plan.heap_size == 5 && plan.peak == 6 && plan.order == PILHANGKO_PLAN_ORDER_AREA);
        status = pilhangko_plan(resources, count, KB, written, &plan);
    }
    IS(status, PILHANGKO_OK);
    CHECK(memcmp(written, offsets, sizeof *written * count) == 0);
    status = pilhangko_plan_reuses(resources, count, written, count - 1, reused, count, &many);
    if (status == PILHANGKO_HOST_OUT_OF_MEMORY) {
        refusals++;
        CHECK(many == 9);
        for (size_t i = 0; i < count; i++) CHECK(reused[i] == (size_t)UINT64_C(0x1111111111111111));
        status = pilhangko_plan_reuses(resources, count, written, count - 1, reused, count, &many);
    }
    IS(status, PILHANGKO_OK);
    gathered_once(count);
}

static void refused(void) {
    size_t count = 60;
    pilhangko_heap_plan plan;
    for (size_t i = 0; i < count; i++) resources[i] = (i % 3 ? image : linear)(1 + i * 37 % 4000, UINT64_C(1) << i % 9, i / 4, i / 4 + i % 5);
    resources[count - 1].first_pass = resources[count - 1].last_pass = 30; /* behind all others */
    IS(pilhangko_plan(resources, count, KB, offsets, &plan), PILHANGKO_OK);
    heap_requests = heap_refused = 0;
    refusals = 0;
    CHECK(heap_held == 0);
    planned_once(count);
    long ample = heap_requests;
    CHECK(refusals == 0 && ample > 0 && heap_held == 0);
    for (long n = 1; n <= ample; n++) {
        heap_requests = 0;
        heap_refused = n;
        unsigned before = refusals;
        planned_once(count);
        CHECK(refusals == before + 1 && heap_held == 0);
    }
    /* what is refused without a plan takes no memory */
    heap_requests = heap_refused = 0;
    IS(pilhangko_plan(resources, count, 3, offsets, &plan), PILHANGKO_INVALID);
    CHECK(heap_requests == 0);
    printf("%ld requests for host memory, each refused once\n", ample);
}

int main(void) {
    shares_memory();
    keeps_pages_apart();
    statuses();
    joins_sets();
    memory_of_heaps();
    random_plans();
    refused();
    return 0;
}
