/* Rings of the Vulkan binding over a fake driver: rows that were worked out by hand, each status of each call, each question to the driver
 * and each request for host memory refused in turn. */
#include "fake_vulkan.h"
#include "refusing_heap.h"

#define MB (UINT64_C(1) << 20)
#define OK ((pilhangko_status)PILHANGKO_OK)

static const pilhangko_vulkan_placement uploads = {.location = PILHANGKO_LOCATION_CPU_TO_GPU, .name = "uploads"};
static const pilhangko_vulkan_placement anywhere = {.location = PILHANGKO_LOCATION_UNKNOWN, .name = "uploads"};

/* Nothing may be left, of the driver's and of the host's. */
static void ends(pilhangko_vulkan *vulkan) {
    pilhangko_vulkan_ending ending = {99, {9, 9}};
    IS(pilhangko_vulkan_destroy(vulkan, &ending), PILHANGKO_OK);
    CHECK(ending.leaks == 0 && fake.memory_count == 0 && fake.resource_count == 0 && heap_held == 0);
}

static pilhangko_vulkan_ring_settings settings_of(VkDeviceSize size, size_t frames, pilhangko_vulkan_placement placement) {
    const pilhangko_vulkan_ring_settings settings = {size, frames, VK_BUFFER_USAGE_TRANSFER_SRC_BIT, placement};
    return settings;
}

static pilhangko_vulkan_ring rings(pilhangko_vulkan *vulkan, VkDeviceSize size, size_t frames, pilhangko_vulkan_placement placement) {
    pilhangko_vulkan_ring ring = {0};
    const pilhangko_vulkan_ring_settings settings = settings_of(size, frames, placement);
    const pilhangko_vulkan_result result = pilhangko_vulkan_ring_create(vulkan, &settings, &ring);
    IS(result.status, OK);
    CHECK(result.driver == VK_SUCCESS);
    return ring;
}

static void allocates(pilhangko_vulkan_ring *ring, VkDeviceSize size, VkDeviceSize alignment, VkDeviceSize wanted) {
    pilhangko_vulkan_ring_piece piece;
    const struct fake_memory *memory = fake_memory_of(ring->allocation.memory);
    IS(pilhangko_vulkan_ring_allocate(ring, size, alignment, &piece), OK);
    CHECK(piece.offset == wanted && piece.mapped == memory->bytes + ring->allocation.offset + wanted);
    memset(piece.mapped, 1, size);
}

static void ends_frame(pilhangko_vulkan_ring *ring, uint64_t wanted) {
    uint64_t frame = 77;
    IS(pilhangko_vulkan_ring_end_frame(ring, &frame), OK);
    CHECK(frame == wanted);
}

static void holds(const pilhangko_vulkan_ring *ring, uint64_t taken, size_t frames) {
    pilhangko_ring_counts counts;
    IS(pilhangko_ring_statistics(&ring->ring, &counts), OK);
    CHECK(counts.taken == taken && counts.frames == frames);
}

/* ---- rows */

static void coherent_rows(void) {
    pilhangko_vulkan vulkan = fake_binding();
    pilhangko_vulkan_ring first = rings(&vulkan, 5000, 1, uploads), ring = rings(&vulkan, 1000, 2, uploads);
    pilhangko_vulkan_ring_piece piece = {7, NULL};
    uint64_t frame = 77;
    CHECK(ring.allocation.piece.memory_type == 2 && ring.allocation.memory == first.allocation.memory && ring.allocation.offset > 0);
    CHECK(ring.allocation.size >= 1000 && fake_resource_of((uint64_t)ring.buffer, false)->is_bound);
    allocates(&ring, 600, 256, 0);
    allocates(&ring, 100, 256, 768);
    IS(pilhangko_vulkan_ring_allocate(&ring, 200, 1, &piece), PILHANGKO_OUT_OF_MEMORY);
    IS(pilhangko_vulkan_ring_flush(&vulkan, &ring).status, OK);
    CHECK(fake.flushes == 0); /* coherent */
    ends_frame(&ring, 0);
    ends_frame(&ring, 1);
    IS(pilhangko_vulkan_ring_end_frame(&ring, &frame), PILHANGKO_TOO_MANY_FRAMES);
    holds(&ring, 868, 2);
    IS(pilhangko_vulkan_ring_retire(&ring, 2), PILHANGKO_NOT_LIVE);
    IS(pilhangko_vulkan_ring_retire(&ring, 1), OK);
    holds(&ring, 0, 0);
    allocates(&ring, 1000, 1, 0);
    CHECK(piece.offset == 7 && frame == 77);
    IS(pilhangko_vulkan_ring_destroy(&vulkan, &ring), OK);
    IS(pilhangko_vulkan_ring_destroy(&vulkan, &ring), PILHANGKO_NO_HANDLE);
    IS(pilhangko_vulkan_ring_destroy(&vulkan, &first), OK);
    ends(&vulkan);
}

static void is_flushed(const pilhangko_vulkan_ring *ring, VkDeviceSize offset, VkDeviceSize size, uint64_t flushes) {
    CHECK(fake.range.memory == ring->allocation.memory && fake.range.offset == ring->allocation.offset + offset);
    CHECK(fake.range.size == size && fake.flushes == flushes);
}

/* memory type 3 alone, which needs flushes of whole atoms of 64 bytes */
static void flushed_rows(void) {
    pilhangko_vulkan vulkan = fake_binding();
    fake.type_bits = 8;
    pilhangko_vulkan_ring ring = rings(&vulkan, 1000, 2, anywhere);
    IS(pilhangko_vulkan_ring_flush(&vulkan, &ring).status, OK);
    CHECK(fake.flushes == 0); /* no bytes */
    allocates(&ring, 100, 1, 0);
    IS(pilhangko_vulkan_ring_flush(&vulkan, &ring).status, OK);
    is_flushed(&ring, 0, 128, 1);
    allocates(&ring, 500, 4, 100);
    IS(pilhangko_vulkan_ring_flush(&vulkan, &ring).status, OK);
    is_flushed(&ring, 0, 640, 2); /* the frame's, from its first byte to 600 */
    ends_frame(&ring, 0);
    allocates(&ring, 200, 1, 600);
    ends_frame(&ring, 1);
    IS(pilhangko_vulkan_ring_retire(&ring, 0), OK);
    allocates(&ring, 250, 1, 0); /* from 800 on there are 200 bytes, which it skips */
    const pilhangko_vulkan_result result = pilhangko_vulkan_ring_flush(&vulkan, &ring);
    IS(result.status, OK);
    CHECK(result.driver == VK_SUCCESS);
    is_flushed(&ring, 0, 256, 4); /* after one of [768, 1024) */
    IS(pilhangko_vulkan_ring_destroy(&vulkan, &ring), OK);
    ends(&vulkan);
}

/* ---- statuses */

static void is_refused(
    pilhangko_vulkan *vulkan, pilhangko_vulkan_ring *ring, pilhangko_vulkan_ring_settings settings, pilhangko_status status) {
    const VkBuffer before = ring->buffer;
    const pilhangko_vulkan_result result = pilhangko_vulkan_ring_create(vulkan, &settings, ring);
    IS(result.status, status);
    CHECK(result.driver == VK_SUCCESS && ring->buffer == before);
}

static void creations(void) {
    pilhangko_vulkan vulkan = fake_binding(), none = {0};
    pilhangko_vulkan_ring ring = {0};
    const pilhangko_vulkan_placement unseen = {.location = PILHANGKO_LOCATION_GPU_ONLY},
                                     bad = {.location = PILHANGKO_LOCATION_CPU_TO_GPU, .name = "\xff"};
    is_refused(&none, &ring, settings_of(1000, 1, uploads), PILHANGKO_NO_HANDLE);
    is_refused(&vulkan, &ring, settings_of(0, 1, uploads), PILHANGKO_INVALID);
    is_refused(&vulkan, &ring, settings_of(UINT64_C(1) << 63, 1, uploads), PILHANGKO_INVALID);
    is_refused(&vulkan, &ring, settings_of(1000, SIZE_MAX, uploads), PILHANGKO_HOST_OUT_OF_MEMORY);
    CHECK(fake.questions == 0);
    is_refused(&vulkan, &ring, settings_of(1000, 1, unseen), PILHANGKO_VULKAN_NOT_MAPPED);
    is_refused(&vulkan, &ring, settings_of(1000, 1, bad), PILHANGKO_INVALID);
    CHECK(fake.resource_count == 0);
    IS(pilhangko_ring_destroy(&ring.ring), PILHANGKO_NO_HANDLE);
    ring = rings(&vulkan, 1000, 1, uploads);
    is_refused(&vulkan, &ring, settings_of(1000, 1, uploads), PILHANGKO_IN_USE);
    IS(pilhangko_vulkan_ring_destroy(&vulkan, &ring), OK);
    ends(&vulkan);
}

static void empty_rings_and_null(void) {
    pilhangko_vulkan vulkan = fake_binding(), none = {0};
    pilhangko_vulkan_ring ring = {0};
    pilhangko_vulkan_ring_piece piece;
    const pilhangko_vulkan_ring_settings settings = settings_of(1000, 1, uploads);
    uint64_t frame;
    IS(pilhangko_vulkan_ring_allocate(&ring, 1, 1, &piece), PILHANGKO_NO_HANDLE);
    IS(pilhangko_vulkan_ring_flush(&vulkan, &ring).status, PILHANGKO_NO_HANDLE);
    IS(pilhangko_vulkan_ring_end_frame(&ring, &frame), PILHANGKO_NO_HANDLE);
    IS(pilhangko_vulkan_ring_retire(&ring, 0), PILHANGKO_NO_HANDLE);
    IS(pilhangko_vulkan_ring_create(NULL, &settings, &ring).status, PILHANGKO_NULL_POINTER);
    IS(pilhangko_vulkan_ring_create(&vulkan, NULL, &ring).status, PILHANGKO_NULL_POINTER);
    IS(pilhangko_vulkan_ring_create(&vulkan, &settings, NULL).status, PILHANGKO_NULL_POINTER);
    ring = rings(&vulkan, 1000, 1, uploads);
    IS(pilhangko_vulkan_ring_allocate(NULL, 1, 1, &piece), PILHANGKO_NULL_POINTER);
    IS(pilhangko_vulkan_ring_allocate(&ring, 1, 1, NULL), PILHANGKO_NULL_POINTER);
    IS(pilhangko_vulkan_ring_allocate(&ring, 0, 1, &piece), PILHANGKO_INVALID);
    IS(pilhangko_vulkan_ring_allocate(&ring, 1, 0, &piece), PILHANGKO_INVALID);
    IS(pilhangko_vulkan_ring_flush(NULL, &ring).status, PILHANGKO_NULL_POINTER);
    IS(pilhangko_vulkan_ring_flush(&vulkan, NULL).status, PILHANGKO_NULL_POINTER);
    IS(pilhangko_vulkan_ring_flush(&none, &ring).status, PILHANGKO_NO_HANDLE);
    IS(pilhangko_vulkan_ring_end_frame(NULL, &frame), PILHANGKO_NULL_POINTER);
    IS(pilhangko_vulkan_ring_end_frame(&ring, NULL), PILHANGKO_NULL_POINTER);
    IS(pilhangko_vulkan_ring_retire(NULL, 0), PILHANGKO_NULL_POINTER);
    IS(pilhangko_vulkan_ring_destroy(NULL, &ring), PILHANGKO_NULL_POINTER);
    IS(pilhangko_vulkan_ring_destroy(&vulkan, NULL), PILHANGKO_NULL_POINTER);
    IS(pilhangko_vulkan_ring_destroy(&none, &ring), PILHANGKO_NO_HANDLE);
    holds(&ring, 0, 0);
    IS(pilhangko_vulkan_ring_destroy(&vulkan, &ring), OK);
    ends(&vulkan);
}

static void another_bindings_ring(void) {
    pilhangko_vulkan vulkan = fake_binding(), other = {0};
    const pilhangko_vulkan_settings settings = fake_settings();
    IS(pilhangko_vulkan_create(&other, &settings), OK);
    pilhangko_vulkan_ring ring = rings(&vulkan, 1000, 1, uploads);
    allocates(&ring, 10, 1, 0);
    IS(pilhangko_vulkan_ring_flush(&other, &ring).status, PILHANGKO_NOT_LIVE);
    IS(pilhangko_vulkan_ring_destroy(&other, &ring), PILHANGKO_NOT_LIVE);
    holds(&ring, 10, 0);
    IS(pilhangko_vulkan_ring_destroy(&vulkan, &ring), OK);
    IS(pilhangko_vulkan_destroy(&other, NULL), OK);
    ends(&vulkan);
}

/* ---- refusals */

/* A ring in memory that needs flushes, whose frame goes round its end. Counts the calls that were refused, and repeats each. */
static unsigned script(pilhangko_vulkan *vulkan, pilhangko_vulkan_result *last) {
    const pilhangko_vulkan_ring_settings settings = settings_of(1000, 2, anywhere);
    pilhangko_vulkan_ring ring = {0};
    unsigned refused = 0;
    pilhangko_vulkan_result result = pilhangko_vulkan_ring_create(vulkan, &settings, &ring);
    if (result.status != PILHANGKO_OK) {
        refused++;
        *last = result;
        CHECK(fake.resource_count == 0 && ring.buffer == VK_NULL_HANDLE);
        heap_refused = 0;
        ring = rings(vulkan, 1000, 2, anywhere);
    }
    const long before = heap_requests;
    allocates(&ring, 600, 1, 0);
    ends_frame(&ring, 0);
    allocates(&ring, 200, 1, 600);
    ends_frame(&ring, 1);
    IS(pilhangko_vulkan_ring_retire(&ring, 0), OK);
    allocates(&ring, 250, 1, 0);
    result = pilhangko_vulkan_ring_flush(vulkan, &ring);
    if (result.status != PILHANGKO_OK) {
        refused++;
        *last = result;
        IS(pilhangko_vulkan_ring_flush(vulkan, &ring).status, OK);
    }
    is_flushed(&ring, 0, 256, fake.flushes);
    holds(&ring, 650, 1);
    CHECK(heap_requests == before); /* no call but create takes memory */
    IS(pilhangko_vulkan_ring_destroy(vulkan, &ring), OK);
    return refused;
}

static void each_question_refused(void) {
    pilhangko_vulkan_result last;
    pilhangko_vulkan vulkan = fake_binding();
    fake.type_bits = 8;
    CHECK(script(&vulkan, &last) == 0);
    const uint64_t ample = fake.questions;
    CHECK(ample == 6); /* the buffer, its memory, its mapping, its binding, and two flushes */
    ends(&vulkan);
    for (uint64_t n = 1; n <= ample; n++) {
        vulkan = fake_binding();
        fake.type_bits = 8;
        fake.refusals[0] = (struct fake_refusal){n, FAKE_REFUSES, VK_ERROR_OUT_OF_DEVICE_MEMORY};
        CHECK(script(&vulkan, &last) == 1);
        IS(last.status, n == 2 ? PILHANGKO_OUT_OF_MEMORY : n == 3 ? PILHANGKO_FAILED_TO_MAP : PILHANGKO_VULKAN_CALL_FAILED);
        CHECK(last.driver == VK_ERROR_OUT_OF_DEVICE_MEMORY);
        ends(&vulkan);
    }
    printf("%u questions to the driver, each refused once\n", (unsigned)ample);
}

static void each_host_request_refused(void) {
    pilhangko_vulkan_result last;
    pilhangko_vulkan vulkan = fake_binding();
    fake.type_bits = 8;
    heap_requests = 0;
    CHECK(script(&vulkan, &last) == 0);
    const long ample = heap_requests;
    CHECK(ample > 0);
    ends(&vulkan);
    for (long n = 1; n <= ample; n++) {
        vulkan = fake_binding();
        fake.type_bits = 8;
        heap_requests = 0;
        heap_refused = n;
        CHECK(script(&vulkan, &last) == 1);
        IS(last.status, PILHANGKO_HOST_OUT_OF_MEMORY);
        heap_refused = 0;
        ends(&vulkan);
    }
    printf("%ld requests for host memory, each refused once\n", ample);
}

int main(void) {
    coherent_rows();
    flushed_rows();
    creations();
    empty_rings_and_null();
    another_bindings_ring();
    each_question_refused();
    each_host_request_refused();
    return 0;
}
