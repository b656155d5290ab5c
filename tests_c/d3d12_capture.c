/* Captures of the DirectX 12 binding over a fake device: rows that were worked out by hand, bounds, and how a capture ends. */
#include "fake_d3d12.h"
#include "refusing_heap.h"

#define MB (UINT64_C(1) << 20)
#define OK ((pilhangko_status)PILHANGKO_OK)

static struct {
    char bytes[1100000];
    size_t length, room;
} written;

static bool takes(void *user, const char *bytes, size_t length) {
    CHECK(user == &written);
    if (length > written.room - written.length) return false;
    memcpy(written.bytes + written.length, bytes, length);
    written.length += length;
    return true;
}

static pilhangko_d3d12 captured(size_t room, uint32_t tier) {
    pilhangko_d3d12 d3d12 = {0};
    pilhangko_d3d12_settings settings = fake_settings();
    fake_begin(tier);
    written.length = 0;
    written.room = room;
    settings.capture_write = takes;
    settings.capture_user = &written;
    IS(pilhangko_d3d12_create(&d3d12, &settings).status, OK);
    return d3d12;
}

static void ends(pilhangko_d3d12 *d3d12, pilhangko_d3d12_capture_end end) {
    pilhangko_d3d12_ending ending;
    IS(pilhangko_d3d12_destroy(d3d12, &ending), OK);
    CHECK(ending.capture.end == end && ending.leaks == 0 && fake.heap_count == 0 && heap_held == 0);
}

static void is_written(const char *expected) {
    CHECK(written.length == strlen(expected) && memcmp(written.bytes, expected, written.length) == 0);
}

static pilhangko_d3d12_allocation allocates(pilhangko_d3d12 *d3d12, UINT64 size, pilhangko_location location, const char *name) {
    const pilhangko_d3d12_request request = {size, 4, location, PILHANGKO_CATEGORY_OTHER_TEXTURE, name, 0};
    pilhangko_d3d12_allocation a;
    IS(pilhangko_d3d12_allocate(d3d12, &request, &a).status, OK);
    return a;
}

struct made {
    ID3D12Resource *resource;
    pilhangko_d3d12_allocation allocation;
};

static pilhangko_status creates(pilhangko_d3d12 *d3d12, D3D12_RESOURCE_DESC desc, bool committed, const char *name, struct made *it) {
    pilhangko_d3d12_placement p;
    memset(&p, 0, sizeof p);
    p.location = PILHANGKO_LOCATION_GPU_TO_CPU;
    p.committed = committed;
    p.name = name;
    return pilhangko_d3d12_create_resource(d3d12, &desc, &p, &it->resource, &it->allocation).status;
}

static void drops(pilhangko_d3d12 *d3d12, const struct made *it) {
    IS(pilhangko_d3d12_destroy_resource(d3d12, it->resource, &it->allocation), OK);
}

#define DEVICE(tier) "d3d12\ntier " tier "\nsizes 4194304 4194304 0 8388608\n"

/* Allocations, their refusals, renames and frees; nothing before the end. */
static void memory_rows(void) {
    pilhangko_d3d12 d3d12 = captured(sizeof written.bytes, 1);
    const pilhangko_d3d12_request r = {10, 4, PILHANGKO_LOCATION_CPU_TO_GPU, PILHANGKO_CATEGORY_RTV_DSV_TEXTURE, NULL, 0};
    pilhangko_d3d12_request bad = r;
    pilhangko_d3d12_allocation a, b, beside;
    pilhangko_d3d12_capture capture;
    a = allocates(&d3d12, 100, PILHANGKO_LOCATION_UNKNOWN, "two words\xc3\xa9");
    beside = allocates(&d3d12, 100, PILHANGKO_LOCATION_UNKNOWN, "~"); /* in the same heap: no question */
    fake_refuse(1, FAKE_GIVES_NOTHING, S_OK);
    IS(pilhangko_d3d12_allocate(&d3d12, &r, &b).status, PILHANGKO_DRIVER_REFUSED);
    fake_refuse(1, FAKE_REFUSES, FAKE_NO_MEMORY);
    IS(pilhangko_d3d12_allocate(&d3d12, &r, &b).status, PILHANGKO_OUT_OF_MEMORY);
    bad.size = 0; /* isn't written */
    IS(pilhangko_d3d12_allocate(&d3d12, &bad, &b).status, PILHANGKO_INVALID);
    IS(pilhangko_d3d12_allocate(&d3d12, &r, &b).status, OK);
    IS(pilhangko_d3d12_rename(&d3d12, &a, NULL), OK);
    IS(pilhangko_d3d12_set_budget(&d3d12, 8, true, UINT64_MAX), OK);
    IS(pilhangko_d3d12_free(&d3d12, &a), OK);
    IS(pilhangko_d3d12_free(&d3d12, &a), PILHANGKO_NOT_LIVE);
    IS(pilhangko_d3d12_free(&d3d12, &beside), OK);
    CHECK(written.length == 0);
    IS(pilhangko_d3d12_end_capture(&d3d12, &capture), OK);
    CHECK(capture.end == PILHANGKO_D3D12_CAPTURE_WHOLE && capture.bytes == written.length);
    is_written(DEVICE("1") "refuse 2 null\nrefuse 3 -2147024882\nnew\nalloc 1 100 4 Unknown texture two_words__\n"
                           "alloc 2 100 4 Unknown texture ~\nalloc 3 10 4 CpuToGpu target _\nalloc 3 10 4 CpuToGpu target _\n"
                           "alloc 3 10 4 CpuToGpu target _\nrename 1 _\nfree 1\nfree 2\nbudget 8 18446744073709551615\n");
    IS(pilhangko_d3d12_end_capture(&d3d12, &capture), PILHANGKO_D3D12_NO_CAPTURE);
    IS(pilhangko_d3d12_free(&d3d12, &b), OK);
    ends(&d3d12, PILHANGKO_D3D12_CAPTURE_NONE);
    d3d12 = captured(sizeof written.bytes, 2);
    ends(&d3d12, PILHANGKO_D3D12_CAPTURE_WHOLE);
    is_written(DEVICE("2") "new\ndestroy\n");
    d3d12 = captured(sizeof written.bytes, 3); /* a trace has no later tier than 2, which is the same */
    ends(&d3d12, PILHANGKO_D3D12_CAPTURE_WHOLE);
    is_written(DEVICE("2") "new\ndestroy\n");
}

/* A placed resource is an allocation; one that is refused is freed at once. A committed one is a buffer of whole units. */
static void resource_rows(void) {
    pilhangko_d3d12 d3d12 = captured(sizeof written.bytes, 2);
    D3D12_RESOURCE_DESC tiny = fake_texture(16, 16, D3D12_RESOURCE_FLAG_ALLOW_RENDER_TARGET);
    struct made placed, committed, little, odd, none;
    tiny.Alignment = FAKE_SMALL;
    fake_refuse(2, FAKE_REFUSES, FAKE_WRONG); /* the resource, behind its heap: a replay isn't asked that */
    IS(creates(&d3d12, fake_buffer(1), false, "placed", &none), PILHANGKO_D3D12_CALL_FAILED);
    fake_refuse(1, FAKE_REFUSES, FAKE_WRONG);
    IS(creates(&d3d12, fake_buffer(1), true, "own", &none), PILHANGKO_D3D12_CALL_FAILED);
    fake_refuse(1, FAKE_GIVES_NOTHING, S_OK);
    IS(creates(&d3d12, fake_buffer(1), true, "own", &none), PILHANGKO_D3D12_CALL_FAILED);
    IS(creates(&d3d12, fake_buffer(1), false, "placed", &placed), OK);
    IS(creates(&d3d12, fake_buffer(70000), true, "own memory", &committed), OK);
    IS(creates(&d3d12, fake_buffer(UINT64_MAX), true, NULL, &none), PILHANGKO_OUT_OF_MEMORY);
    IS(creates(&d3d12, tiny, true, NULL, &little), OK);
    IS(creates(&d3d12, fake_buffer(1), true, "a\xff", &odd), OK); /* its name may be any bytes */
    IS(creates(&d3d12, fake_buffer(0), true, NULL, &none), PILHANGKO_INVALID);
    drops(&d3d12, &committed);
    drops(&d3d12, &little);
    drops(&d3d12, &odd);
    drops(&d3d12, &placed);
    ends(&d3d12, PILHANGKO_D3D12_CAPTURE_WHOLE);
    is_written(DEVICE("2") "refuse 2 -2147024809\nrefuse 3 null\nnew\nalloc 1 65536 65536 GpuToCpu buffer placed\nfree 1\n"
                           "create 2 committed GpuToCpu buffer buffer 65536 1 1 0 state:0 none none own\n"
                           "create 2 committed GpuToCpu buffer buffer 65536 1 1 0 state:0 none none own\n"
                           "alloc 2 65536 65536 GpuToCpu buffer placed\n"
                           "create 3 committed GpuToCpu buffer buffer 131072 1 1 0 state:0 none none own_memory\n"
                           "create 4 committed GpuToCpu buffer buffer 18446744073709486080 1 1 0 state:0 none none _\n"
                           "create 4 committed GpuToCpu target buffer 65536 1 1 0 state:0 none none _\n"
                           "create 5 committed GpuToCpu buffer buffer 65536 1 1 0 state:0 none none a_\n"
                           "release 3\nrelease 4\nrelease 5\nfree 2\ndestroy\n");
}

/* Bounds are in a capture where they change, and of several before an allocation the last: an update each frame doesn't fill it. */
static void captured_budgets(void) {
    pilhangko_d3d12 d3d12 = captured(sizeof written.bytes, 2);
    struct made it;
    fake.tells_budgets = true;
    fake.budget[1] = 9 * MB;
    for (unsigned frame = 0; frame < 100000; frame++) {
        fake.budget[0] = frame < 100 ? 64 * MB + frame : 100 * MB;
        IS(pilhangko_d3d12_update_budgets(&d3d12), OK);
    }
    const pilhangko_d3d12_allocation a = allocates(&d3d12, 1, PILHANGKO_LOCATION_GPU_ONLY, "a");
    IS(pilhangko_d3d12_set_budget(&d3d12, 1, true, 7), OK); /* there and back */
    IS(pilhangko_d3d12_set_budget(&d3d12, 1, true, 9 * MB), OK);
    IS(pilhangko_d3d12_set_budget(&d3d12, 2, false, 9), OK);
    IS(pilhangko_d3d12_set_budget(&d3d12, 3, true, 10), PILHANGKO_NO_SUCH_TYPE);
    IS(creates(&d3d12, fake_buffer(1), true, "own", &it), OK); /* bounds stand before a committed resource, too */
    IS(pilhangko_d3d12_set_budget(&d3d12, 0, false, 0), OK);
    IS(pilhangko_d3d12_free(&d3d12, &a), OK);
    drops(&d3d12, &it);
    ends(&d3d12, PILHANGKO_D3D12_CAPTURE_WHOLE);
    is_written(DEVICE("2") "new\nbudget 0 104857600\nbudget 1 9437184\nbudget 2 9437184\nalloc 1 1 4 GpuOnly texture a\nbudget 2 none\n"
                           "create 2 committed GpuToCpu buffer buffer 65536 1 1 0 state:0 none none own\nfree 1\nrelease 2\nbudget 0 none\n"
                           "destroy\n");
}

/* The capture of pairs of an allocation and its free, each with a number of its own: it goes on to `end` in whole lines. Returns how many
 * lines there are. */
static unsigned is_pairs(size_t at, size_t end) {
    unsigned lines = 0;
    for (; at < end; lines++) {
        char line[100];
        snprintf(line, sizeof line, lines % 2 ? "free %u\n" : "alloc %u 100 4 GpuOnly texture pair\n", 1 + lines / 2);
        CHECK(strlen(line) <= end - at && memcmp(written.bytes + at, line, strlen(line)) == 0);
        at += strlen(line);
    }
    return lines;
}

/* Past the longest trace the capture ends behind a whole call, the last that has room, and says so. */
static void too_long_captures(void) {
    static const char remark[] = "# the capture ends here: the next call would make the trace too long\n", head[] = DEVICE("2") "new\n";
    pilhangko_d3d12 d3d12 = captured(sizeof written.bytes, 2);
    pilhangko_d3d12_ending ending;
    for (unsigned i = 0; i < 25000; i++) {
        const pilhangko_d3d12_allocation a = allocates(&d3d12, 100, PILHANGKO_LOCATION_GPU_ONLY, "pair");
        IS(pilhangko_d3d12_free(&d3d12, &a), OK);
    }
    IS(pilhangko_d3d12_destroy(&d3d12, &ending), OK);
    CHECK(ending.capture.end == PILHANGKO_D3D12_CAPTURE_TOO_LONG && ending.capture.bytes == written.length);
    CHECK(written.length <= 1048576 && written.length > 1048576 - 400); /* one more call would not have had room */
    CHECK(memcmp(written.bytes, head, sizeof head - 1) == 0);
    const size_t end = written.length - (sizeof remark - 1);
    CHECK(memcmp(written.bytes + end, remark, sizeof remark - 1) == 0);
    CHECK(is_pairs(sizeof head - 1, end) > 20000);
}

static void unwritten_captures(void) {
    const size_t all = strlen(DEVICE("2") "new\n");
    for (size_t room = 0; room < 2 * all; room++) {
        pilhangko_d3d12 d3d12 = captured(room, 2);
        pilhangko_d3d12_capture capture;
        IS(pilhangko_d3d12_end_capture(&d3d12, &capture), OK);
        CHECK(capture.bytes == written.length);
        CHECK(capture.end == (room < all ? PILHANGKO_D3D12_CAPTURE_NOT_WRITTEN : PILHANGKO_D3D12_CAPTURE_WHOLE));
        ends(&d3d12, PILHANGKO_D3D12_CAPTURE_NONE);
    }
}

int main(void) {
    memory_rows();
    resource_rows();
    captured_budgets();
    too_long_captures();
    unwritten_captures();
    return 0;
}
