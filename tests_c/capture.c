/* Captures over the library alone: what each call adds to the text, by the rules of docs/TRACE.md, each status, a text that is read in parts,
 * and where a capture ends: each request for host memory refused in turn, and no more room. */
#include "refusing_heap.h"
#include "test.h"

#define OK ((pilhangko_status)PILHANGKO_OK)
#define LONGEST 1048576
#define COUNT(array) (sizeof(array) / sizeof *(array))

static const char no_memory[] = "# the capture ends here: no host memory for the next call\n",
                  too_long[] = "# the capture ends here: the next call would make the trace too long\n";

static struct text {
    char bytes[LONGEST + 1];
    size_t length;
} read_text, other_text;

/* Reads a text in parts of so many bytes, none of which is written behind those that are there. */
static void reads(const pilhangko_capture *capture, bool is_destroyed, size_t room, struct text *into) {
    static char part[LONGEST + 1];
    size_t count = room;
    into->length = 0;
    while (count == room) {
        memset(part, '?', room);
        IS(pilhangko_capture_text(capture, is_destroyed, into->length, part, room, &count), OK);
        CHECK(count <= room && count <= sizeof into->bytes - into->length && (count == room || part[count] == '?'));
        memcpy(into->bytes + into->length, part, count);
        into->length += count;
    }
}

static void is_text(const pilhangko_capture *capture, bool is_destroyed, const char *expected) {
    const size_t rooms[] = {1, 3, 64, 4096, LONGEST};
    for (size_t i = 0; i < COUNT(rooms); i++) {
        reads(capture, is_destroyed, rooms[i], &read_text);
        if (read_text.length == strlen(expected) && memcmp(read_text.bytes, expected, read_text.length) == 0) continue;
        fprintf(stderr, "the capture is\n%.*sand not\n%s", (int)read_text.length, read_text.bytes, expected);
        exit(1);
    }
}

static void ends(pilhangko_capture *capture, pilhangko_capture_end expected) {
    pilhangko_capture_end end;
    IS(pilhangko_capture_how_far(capture, &end), OK);
    CHECK(end == expected);
    IS(pilhangko_capture_destroy(capture), OK);
    IS(pilhangko_capture_destroy(capture), PILHANGKO_NO_HANDLE);
    CHECK(heap_held == 0);
}

/* ---- the captures of each API */

static const pilhangko_device_memory_type types[] = {{1, 0}, {6, 1}};
static const pilhangko_device_heap heaps[] = {{1000, 1}, {UINT64_MAX, 0}};
static const pilhangko_allocator_settings of_vulkan = {1024, 256, 512, 64, 128};
static const pilhangko_heaps_settings of_d3d12 = {1, 256, 512, 64, 128};
static const pilhangko_metal_heaps_settings of_metal = {true, 256, 512, 64, 128};

#define VULKAN_LINES \
    "heap 1000\nheap 18446744073709551615\ntype 1 0\ntype 6 1\ngranularity 1024\nsizes 256 64 512 128\n"
#define D3D12_LINES "d3d12\ntier 1\nsizes 256 64 512 128\n"
#define METAL_LINES "metal\nresidency yes\nsizes 256 64 512 128\n"

enum api { VULKAN, D3D12, METAL, APIS };

static pilhangko_status begins(enum api api, pilhangko_capture *capture) {
    switch (api) {
    case VULKAN: return pilhangko_capture_of_allocator(capture, types, COUNT(types), heaps, COUNT(heaps), &of_vulkan);
    case D3D12: return pilhangko_capture_of_heaps(capture, &of_d3d12);
    default: return pilhangko_capture_of_metal_heaps(capture, &of_metal);
    }
}

static pilhangko_capture begun(enum api api) {
    pilhangko_capture capture = {0};
    IS(begins(api, &capture), OK);
    return capture;
}

static pilhangko_allocator_request vulkan_asks(pilhangko_location location, pilhangko_kind kind, pilhangko_scheme scheme, uint64_t resource) {
    const pilhangko_allocator_request request = {100, 16, 3, kind, location, scheme, resource};
    return request;
}

static const pilhangko_heaps_request d3d12_asks = {65537, 65536, PILHANGKO_LOCATION_CPU_TO_GPU, PILHANGKO_CATEGORY_RTV_DSV_TEXTURE};
static const pilhangko_metal_heaps_request metal_asks = {256, 4, PILHANGKO_LOCATION_GPU_TO_CPU};

static void vulkan_rows(void) {
    const pilhangko_allocator_request managed = vulkan_asks(PILHANGKO_LOCATION_CPU_TO_GPU, PILHANGKO_KIND_LINEAR, PILHANGKO_SCHEME_MANAGED, 5),
                                      image = vulkan_asks(PILHANGKO_LOCATION_GPU_ONLY, PILHANGKO_KIND_NON_LINEAR, PILHANGKO_SCHEME_IMAGE, 7),
                                      buffer = vulkan_asks(PILHANGKO_LOCATION_UNKNOWN, PILHANGKO_KIND_LINEAR, PILHANGKO_SCHEME_BUFFER, UINT64_MAX);
    const pilhangko_capture_answer twice[] = {{true, -2}, {false, 0}, {true, 0}}, once[] = {{false, -9}, {true, INT32_MIN}};
    pilhangko_capture c = begun(VULKAN);
    is_text(&c, false, VULKAN_LINES "new\n");
    is_text(&c, true, VULKAN_LINES "new\ndestroy\n");
    IS(pilhangko_capture_allocator_allocated(&c, 1, &managed, "a b\n", twice, 3), OK);
    IS(pilhangko_capture_allocator_allocated(&c, 2, &image, NULL, once, 2), OK);
    IS(pilhangko_capture_allocator_allocated(&c, 2, &buffer, "", NULL, 0), OK);
    IS(pilhangko_capture_allocator_moved(&c, 1, 3, &managed, "\xc3\xa9~!\x7f"), OK);
    IS(pilhangko_capture_renamed(&c, 3, "\xff"), OK);
    IS(pilhangko_capture_renamed(&c, 3, NULL), OK);
    IS(pilhangko_capture_freed(&c, UINT64_MAX), OK);
    is_text(&c, false, VULKAN_LINES "refuse 1 -2\nrefuse 3 null\nrefuse 5 -2147483648\nnew\n"
                                    "alloc 1 100 16 3 CpuToGpu linear managed a_b_\nalloc 2 100 16 3 GpuOnly nonlinear image:7 _\n"
                                    "alloc 2 100 16 3 Unknown linear buffer:18446744073709551615 _\n"
                                    "move 1 3 100 16 3 CpuToGpu linear managed __~!_\nrename 3 _\nrename 3 _\nfree 18446744073709551615\n");
    ends(&c, PILHANGKO_CAPTURE_WHOLE);
    IS(pilhangko_capture_of_allocator(&c, NULL, 0, NULL, 0, &of_vulkan), OK);
    is_text(&c, true, "granularity 1024\nsizes 256 64 512 128\nnew\ndestroy\n");
    ends(&c, PILHANGKO_CAPTURE_WHOLE);
}

/* A committed resource is a buffer of whole units, where 64 bits hold them, by a name of any bytes and with any alignment; a tier above 2 is 2. */
static void d3d12_rows(void) {
    const pilhangko_heaps_request asks[] = {{65536, 4, PILHANGKO_LOCATION_UNKNOWN, PILHANGKO_CATEGORY_BUFFER},
        {1, 4, PILHANGKO_LOCATION_GPU_ONLY, PILHANGKO_CATEGORY_OTHER_TEXTURE}, {UINT64_MAX, 4, PILHANGKO_LOCATION_GPU_ONLY, PILHANGKO_CATEGORY_BUFFER},
        {0, 24, PILHANGKO_LOCATION_GPU_TO_CPU, PILHANGKO_CATEGORY_BUFFER}};
    const pilhangko_capture_answer refused = {true, -2147024882}, granted = {false, 0}, null = {true, 0};
    pilhangko_heaps_settings later = of_d3d12;
    pilhangko_capture c = begun(D3D12);
    IS(pilhangko_capture_heaps_allocated(&c, 1, &d3d12_asks, "t", &granted, 1), OK);
    IS(pilhangko_capture_heaps_committed(&c, 2, &d3d12_asks, "own memory\xff", &refused, 1), OK);
    for (unsigned i = 0; i < 4; i++) IS(pilhangko_capture_heaps_committed(&c, 2 + i, &asks[i], NULL, NULL, 0), OK);
    IS(pilhangko_capture_heaps_allocated(&c, 5, &asks[1], "o", &null, 1), OK);
    IS(pilhangko_capture_heaps_moved(&c, 1, 5, &d3d12_asks, "t"), OK);
    IS(pilhangko_capture_released(&c, 2), OK);
    IS(pilhangko_capture_freed(&c, 1), OK);
    is_text(&c, true, D3D12_LINES "refuse 2 -2147024882\nrefuse 3 null\nnew\nalloc 1 65537 65536 CpuToGpu target t\n"
                                  "create 2 committed CpuToGpu target buffer 131072 1 1 0 state:0 none none own_memory_\n"
                                  "create 2 committed Unknown buffer buffer 65536 1 1 0 state:0 none none _\n"
                                  "create 3 committed GpuOnly texture buffer 65536 1 1 0 state:0 none none _\n"
                                  "create 4 committed GpuOnly buffer buffer 18446744073709551615 1 1 0 state:0 none none _\n"
                                  "create 5 committed GpuToCpu buffer buffer 0 1 1 0 state:0 none none _\n"
                                  "alloc 5 1 4 GpuOnly texture o\nmove 1 5 65537 65536 CpuToGpu target t\nrelease 2\nfree 1\ndestroy\n");
    ends(&c, PILHANGKO_CAPTURE_WHOLE);
    later.heap_tier = 3;
    IS(pilhangko_capture_of_heaps(&c, &later), OK);
    is_text(&c, false, "d3d12\ntier 2\nsizes 256 64 512 128\nnew\n");
    ends(&c, PILHANGKO_CAPTURE_WHOLE);
}

/* A residency set is question 1. */
static void metal_rows(void) {
    const pilhangko_capture_answer null = {true, 0};
    pilhangko_metal_heaps_settings without = of_metal;
    pilhangko_capture c = begun(METAL);
    IS(pilhangko_capture_metal_heaps_allocated(&c, 1, &metal_asks, "m", &null, 1), OK);
    IS(pilhangko_capture_set_committed(&c), OK);
    IS(pilhangko_capture_metal_heaps_moved(&c, 1, 2, &metal_asks, NULL), OK);
    is_text(&c, true, METAL_LINES "refuse 2 null\nnew\nalloc 1 256 4 GpuToCpu m\ncommit\nmove 1 2 256 4 GpuToCpu _\ndestroy\n");
    ends(&c, PILHANGKO_CAPTURE_WHOLE);
    without.has_residency_set = false;
    IS(pilhangko_capture_of_metal_heaps(&c, &without), OK);
    IS(pilhangko_capture_metal_heaps_allocated(&c, 1, &metal_asks, "m", &null, 1), OK);
    is_text(&c, false, "metal\nresidency no\nsizes 256 64 512 128\nrefuse 1 null\nnew\nalloc 1 256 4 GpuToCpu m\n");
    ends(&c, PILHANGKO_CAPTURE_WHOLE);
}

/* Bounds are written where they are others than the text has; names are cut. */
static void bounds_and_names(void) {
    char name[66], expected[300];
    pilhangko_capture c = begun(METAL);
    memset(name, 'n', 65);
    name[65] = 0;
    IS(pilhangko_capture_bounded(&c, 0, false, 9), OK);
    IS(pilhangko_capture_bounded(&c, 31, true, UINT64_MAX), OK);
    IS(pilhangko_capture_bounded(&c, 31, true, UINT64_MAX), OK);
    IS(pilhangko_capture_bounded(&c, 0, true, 0), OK);
    IS(pilhangko_capture_bounded(&c, 31, true, 1), OK);
    IS(pilhangko_capture_bounded(&c, 31, false, 1), OK);
    IS(pilhangko_capture_bounded(&c, 31, false, 2), OK);
    IS(pilhangko_capture_bounded(&c, 32, true, 2), PILHANGKO_NO_SUCH_TYPE);
    IS(pilhangko_capture_bounded(&c, SIZE_MAX, false, 0), PILHANGKO_NO_SUCH_TYPE);
    IS(pilhangko_capture_renamed(&c, 0, name), OK);
    snprintf(expected, sizeof expected, METAL_LINES "new\nbudget 31 18446744073709551615\nbudget 0 0\nbudget 31 1\nbudget 31 none\nrename 0 %.64s\n", name);
    is_text(&c, false, expected);
    ends(&c, PILHANGKO_CAPTURE_WHOLE);
}

/* ---- statuses */

/* Each call that takes a handle, with that one. */
#define EACH_CALL(c, expected) \
    do { \
        IS(pilhangko_capture_allocator_allocated(c, 1, &vulkan, NULL, NULL, 0), expected); \
        IS(pilhangko_capture_heaps_allocated(c, 1, &d3d12_asks, NULL, NULL, 0), expected); \
        IS(pilhangko_capture_metal_heaps_allocated(c, 1, &metal_asks, NULL, NULL, 0), expected); \
        IS(pilhangko_capture_heaps_committed(c, 1, &d3d12_asks, NULL, NULL, 0), expected); \
        IS(pilhangko_capture_allocator_moved(c, 1, 2, &vulkan, NULL), expected); \
        IS(pilhangko_capture_heaps_moved(c, 1, 2, &d3d12_asks, NULL), expected); \
        IS(pilhangko_capture_metal_heaps_moved(c, 1, 2, &metal_asks, NULL), expected); \
        IS(pilhangko_capture_freed(c, 1), expected); \
        IS(pilhangko_capture_released(c, 1), expected); \
        IS(pilhangko_capture_renamed(c, 1, NULL), expected); \
        IS(pilhangko_capture_set_committed(c), expected); \
        IS(pilhangko_capture_bounded(c, 0, true, 1), expected); \
        IS(pilhangko_capture_how_far(c, &end), expected); \
        IS(pilhangko_capture_text(c, false, 0, bytes, sizeof bytes, &count), expected); \
    } while (0)

static void empty_handles(void) {
    const pilhangko_allocator_request vulkan = vulkan_asks(PILHANGKO_LOCATION_UNKNOWN, PILHANGKO_KIND_LINEAR, PILHANGKO_SCHEME_MANAGED, 0);
    pilhangko_capture_end end = PILHANGKO_CAPTURE_TOO_LONG;
    char bytes[1] = {'?'};
    size_t count = 99;
    pilhangko_capture c = {0}, *none = NULL;
    EACH_CALL(&c, PILHANGKO_NO_HANDLE);
    IS(pilhangko_capture_destroy(&c), PILHANGKO_NO_HANDLE);
    EACH_CALL(none, PILHANGKO_NULL_POINTER);
    IS(pilhangko_capture_destroy(none), PILHANGKO_NULL_POINTER);
    CHECK(end == PILHANGKO_CAPTURE_TOO_LONG && bytes[0] == '?' && count == 99);
    /* the handle is looked at before the request and the memory type */
    IS(pilhangko_capture_allocator_allocated(&c, 1, &vulkan, "\xff", NULL, 0), PILHANGKO_NO_HANDLE);
    IS(pilhangko_capture_bounded(&c, 32, true, 1), PILHANGKO_NO_HANDLE);
    for (int api = 0; api < APIS; api++) IS(begins((enum api)api, none), PILHANGKO_NULL_POINTER);
}

static void null_pointers(void) {
    pilhangko_capture c = {0};
    size_t count = 99;
    char byte;
    IS(pilhangko_capture_of_allocator(&c, NULL, 1, heaps, 1, &of_vulkan), PILHANGKO_NULL_POINTER);
    IS(pilhangko_capture_of_allocator(&c, types, 1, NULL, 1, &of_vulkan), PILHANGKO_NULL_POINTER);
    IS(pilhangko_capture_of_allocator(&c, types, 1, heaps, 1, NULL), PILHANGKO_NULL_POINTER);
    IS(pilhangko_capture_of_heaps(&c, NULL), PILHANGKO_NULL_POINTER);
    IS(pilhangko_capture_of_metal_heaps(&c, NULL), PILHANGKO_NULL_POINTER);
    c = begun(METAL);
    IS(pilhangko_capture_allocator_allocated(&c, 1, NULL, "a", NULL, 0), PILHANGKO_NULL_POINTER);
    IS(pilhangko_capture_heaps_allocated(&c, 1, NULL, "a", NULL, 0), PILHANGKO_NULL_POINTER);
    IS(pilhangko_capture_heaps_committed(&c, 1, NULL, "a", NULL, 0), PILHANGKO_NULL_POINTER);
    IS(pilhangko_capture_heaps_committed(&c, 1, &d3d12_asks, "a", NULL, 1), PILHANGKO_NULL_POINTER);
    IS(pilhangko_capture_metal_heaps_allocated(&c, 1, NULL, "a", NULL, 0), PILHANGKO_NULL_POINTER);
    IS(pilhangko_capture_metal_heaps_allocated(&c, 1, &metal_asks, "a", NULL, 1), PILHANGKO_NULL_POINTER);
    IS(pilhangko_capture_allocator_moved(&c, 1, 2, NULL, "a"), PILHANGKO_NULL_POINTER);
    IS(pilhangko_capture_heaps_moved(&c, 1, 2, NULL, "a"), PILHANGKO_NULL_POINTER);
    IS(pilhangko_capture_metal_heaps_moved(&c, 1, 2, NULL, "a"), PILHANGKO_NULL_POINTER);
    IS(pilhangko_capture_how_far(&c, NULL), PILHANGKO_NULL_POINTER);
    IS(pilhangko_capture_text(&c, false, 0, NULL, 1, &count), PILHANGKO_NULL_POINTER);
    IS(pilhangko_capture_text(&c, false, 0, &byte, 1, NULL), PILHANGKO_NULL_POINTER);
    CHECK(count == 99);
    IS(pilhangko_capture_text(&c, false, 0, NULL, 0, &count), OK);
    CHECK(count == 0);
    IS(pilhangko_capture_text(&c, false, SIZE_MAX, &byte, 1, &count), OK); /* behind the end */
    CHECK(count == 0);
    is_text(&c, false, METAL_LINES "new\n");
    ends(&c, PILHANGKO_CAPTURE_WHOLE);
}

/* A handle that isn't empty stays as it is, whatever the settings. */
static void beginnings(void) {
    pilhangko_heaps_settings no_tier = of_d3d12;
    pilhangko_capture c = {0};
    no_tier.heap_tier = 0;
    IS(pilhangko_capture_of_heaps(&c, &no_tier), PILHANGKO_INVALID_TIER);
    IS(pilhangko_capture_freed(&c, 1), PILHANGKO_NO_HANDLE);
    c = begun(METAL);
    for (int api = 0; api < APIS; api++) IS(begins((enum api)api, &c), PILHANGKO_IN_USE);
    IS(pilhangko_capture_of_heaps(&c, &no_tier), PILHANGKO_IN_USE);
    is_text(&c, true, METAL_LINES "new\ndestroy\n");
    ends(&c, PILHANGKO_CAPTURE_WHOLE);
}

static void refuses_vulkan(pilhangko_capture *c, const pilhangko_allocator_request *request, const char *name) {
    const pilhangko_capture_answer answer = {true, -2};
    IS(pilhangko_capture_allocator_allocated(c, 1, request, name, &answer, 1), PILHANGKO_INVALID);
    IS(pilhangko_capture_allocator_moved(c, 1, 2, request, name), PILHANGKO_INVALID);
}

/* A committed resource's request needs only its location and its category to be known. */
static void refuses_heaps(pilhangko_capture *c, const pilhangko_heaps_request *request, const char *name, bool is_named) {
    const pilhangko_capture_answer answer = {true, -2};
    IS(pilhangko_capture_heaps_allocated(c, 1, request, name, &answer, 1), PILHANGKO_INVALID);
    if (!is_named) IS(pilhangko_capture_heaps_committed(c, 1, request, name, &answer, 1), PILHANGKO_INVALID);
    IS(pilhangko_capture_heaps_moved(c, 1, 2, request, name), PILHANGKO_INVALID);
}

static void refuses_metal(pilhangko_capture *c, const pilhangko_metal_heaps_request *request, const char *name) {
    const pilhangko_capture_answer answer = {true, 0};
    IS(pilhangko_capture_metal_heaps_allocated(c, 1, request, name, &answer, 1), PILHANGKO_INVALID);
    IS(pilhangko_capture_metal_heaps_moved(c, 1, 2, request, name), PILHANGKO_INVALID);
}

/* What no allocator serves leaves no line, and its questions don't count. */
static void invalid_requests(void) {
    const pilhangko_allocator_request valid = vulkan_asks(PILHANGKO_LOCATION_UNKNOWN, PILHANGKO_KIND_LINEAR, PILHANGKO_SCHEME_MANAGED, 0);
    const pilhangko_capture_answer answer = {true, -2};
    pilhangko_capture c = begun(VULKAN);
    for (unsigned i = 0; i < 5; i++) {
        pilhangko_allocator_request vulkan = valid;
        pilhangko_heaps_request d3d12 = d3d12_asks;
        pilhangko_metal_heaps_request metal = metal_asks;
        if (i == 0) vulkan.size = d3d12.size = metal.size = 0;
        if (i == 1) vulkan.alignment = d3d12.alignment = metal.alignment = 0;
        if (i == 2) vulkan.alignment = d3d12.alignment = metal.alignment = 24;
        if (i == 3) vulkan.location = d3d12.location = metal.location = (pilhangko_location)0;
        if (i == 4) vulkan.location = d3d12.location = metal.location = (pilhangko_location)5;
        refuses_vulkan(&c, &vulkan, NULL);
        refuses_heaps(&c, &d3d12, NULL, i < 3);
        refuses_metal(&c, &metal, NULL);
    }
    for (unsigned wrong = 0; wrong < 5; wrong += 4) {
        pilhangko_allocator_request vulkan = valid;
        pilhangko_heaps_request d3d12 = d3d12_asks;
        vulkan.kind = (pilhangko_kind)wrong;
        refuses_vulkan(&c, &vulkan, NULL);
        vulkan = valid;
        vulkan.scheme = (pilhangko_scheme)wrong;
        refuses_vulkan(&c, &vulkan, NULL);
        d3d12.category = (pilhangko_category)wrong;
        refuses_heaps(&c, &d3d12, NULL, false);
    }
    refuses_vulkan(&c, &valid, "\xff");
    refuses_heaps(&c, &d3d12_asks, "\xff", true);
    refuses_metal(&c, &metal_asks, "\xff");
    IS(pilhangko_capture_allocator_allocated(&c, 1, &valid, NULL, &answer, 1), OK);
    is_text(&c, false, VULKAN_LINES "refuse 1 -2\nnew\nalloc 1 100 16 3 Unknown linear managed _\n");
    ends(&c, PILHANGKO_CAPTURE_WHOLE);
}

/* ---- where a capture ends */

#define STEPS 9

/* One call of each kind that takes host memory. */
static void step(pilhangko_capture *c, unsigned number) {
    const pilhangko_allocator_request vulkan = vulkan_asks(PILHANGKO_LOCATION_CPU_TO_GPU, PILHANGKO_KIND_LINEAR, PILHANGKO_SCHEME_BUFFER, 7);
    const pilhangko_capture_answer answers[] = {{true, -2}, {true, 0}};
    switch (number) {
    case 0: IS(pilhangko_capture_bounded(c, 1, true, 5), OK); break;
    case 1: IS(pilhangko_capture_allocator_allocated(c, 1, &vulkan, "first", answers, 2), OK); break;
    case 2: IS(pilhangko_capture_heaps_allocated(c, 2, &d3d12_asks, "second", answers, 1), OK); break;
    case 3: IS(pilhangko_capture_metal_heaps_allocated(c, 3, &metal_asks, "third", answers + 1, 1), OK); break;
    case 4: IS(pilhangko_capture_heaps_committed(c, 4, &d3d12_asks, "fourth", answers, 2), OK); break;
    case 5: IS(pilhangko_capture_allocator_moved(c, 1, 5, &vulkan, "fifth"), OK); break;
    case 6: IS(pilhangko_capture_renamed(c, 5, "a name"), OK); break;
    case 7: IS(pilhangko_capture_freed(c, 5), OK); break;
    default: IS(pilhangko_capture_released(c, 4), OK); break;
    }
}

/* Whether the text that was read is that of the first calls alone and the remark behind them. */
static bool is_cut(enum api api, unsigned calls, const char *remark) {
    pilhangko_capture c = begun(api);
    const size_t end = read_text.length - strlen(remark);
    bool is_same;
    for (unsigned i = 0; i < calls; i++) step(&c, i);
    reads(&c, false, 4096, &other_text);
    is_same = other_text.length == end && memcmp(other_text.bytes, read_text.bytes, end) == 0;
    IS(pilhangko_capture_destroy(&c), OK);
    return is_same && memcmp(read_text.bytes + end, remark, strlen(remark)) == 0;
}

/* A capture in which the host refused memory once has the calls before that one, however many came behind it, or its device isn't there. */
static bool is_cut_somewhere(enum api api, const pilhangko_capture *c) {
    reads(c, true, 4096, &read_text);
    if (read_text.length == strlen(no_memory) && memcmp(read_text.bytes, no_memory, read_text.length) == 0) return true;
    for (unsigned calls = 0; calls < STEPS; calls++)
        if (is_cut(api, calls, no_memory)) return true;
    return false;
}

static void each_host_request_refused(enum api api) {
    unsigned without = 0, ended = 0;
    for (long request = 1;; request++) {
        pilhangko_capture c = {0};
        pilhangko_capture_end end;
        heap_requests = 0;
        heap_refused = request;
        if (begins(api, &c) == PILHANGKO_HOST_OUT_OF_MEMORY) {
            heap_refused = 0;
            IS(pilhangko_capture_freed(&c, 1), PILHANGKO_NO_HANDLE);
            CHECK(heap_held == 0);
            without++;
            continue;
        }
        for (unsigned i = 0; i < STEPS; i++) step(&c, i);
        const long before = heap_requests;
        IS(pilhangko_capture_how_far(&c, &end), OK);
        reads(&c, true, 4096, &read_text);
        CHECK(heap_requests == before); /* neither takes host memory */
        heap_refused = 0;
        CHECK(end == (before < request ? PILHANGKO_CAPTURE_WHOLE : PILHANGKO_CAPTURE_HOST_OUT_OF_MEMORY));
        if (before >= request) CHECK(is_cut_somewhere(api, &c));
        ended += before >= request;
        IS(pilhangko_capture_destroy(&c), OK);
        CHECK(heap_held == 0);
        if (before < request) break;
    }
    printf("%u refused requests for host memory left no capture, %u ended it\n", without, ended);
    CHECK(without > 0 && ended > STEPS);
}

/* Behind its end each call leaves a capture as it is. */
static void stays(pilhangko_capture *c) {
    reads(c, false, LONGEST, &other_text);
    for (unsigned i = 0; i < STEPS; i++) step(c, i);
    IS(pilhangko_capture_set_committed(c), OK);
    reads(c, true, LONGEST, &read_text); /* the remark, and no `destroy` */
    CHECK(read_text.length == other_text.length && memcmp(read_text.bytes, other_text.bytes, read_text.length) == 0);
}

/* Lines of 74 bytes each, up to the last that has room before `new` and the remark. */
static void too_long_rows(void) {
    static const char head[] = METAL_LINES "new\n";
    char name[66], line[80];
    pilhangko_capture c = begun(METAL);
    memset(name, 'n', 65);
    name[65] = 0;
    snprintf(line, sizeof line, "rename 7 %.64s\n", name);
    for (unsigned i = 0; i < 20000; i++) IS(pilhangko_capture_renamed(&c, 7, name), OK);
    stays(&c);
    const size_t end = read_text.length - strlen(too_long);
    CHECK(read_text.length <= LONGEST && read_text.length > LONGEST - 300 && (end - strlen(head)) % strlen(line) == 0);
    CHECK(memcmp(read_text.bytes, head, strlen(head)) == 0 && memcmp(read_text.bytes + end, too_long, strlen(too_long)) == 0);
    for (size_t at = strlen(head); at < end; at += strlen(line)) CHECK(memcmp(read_text.bytes + at, line, strlen(line)) == 0);
    ends(&c, PILHANGKO_CAPTURE_TOO_LONG);
}

/* Of a call whose questions alone would be too long there is no line. */
static void too_many_refusals(void) {
    static pilhangko_capture_answer answers[100000];
    pilhangko_capture c = begun(METAL);
    for (size_t i = 0; i < COUNT(answers); i++) answers[i].refused = true;
    IS(pilhangko_capture_metal_heaps_allocated(&c, 1, &metal_asks, "few", answers, 1), OK);
    IS(pilhangko_capture_metal_heaps_allocated(&c, 2, &metal_asks, "many", answers, COUNT(answers)), OK);
    stays(&c);
    is_text(&c, true, METAL_LINES "refuse 2 null\nnew\nalloc 1 256 4 GpuToCpu few\n"
                                  "# the capture ends here: the next call would make the trace too long\n");
    ends(&c, PILHANGKO_CAPTURE_TOO_LONG);
}

int main(void) {
    vulkan_rows();
    d3d12_rows();
    metal_rows();
    bounds_and_names();
    empty_handles();
    null_pointers();
    beginnings();
    invalid_requests();
    for (int api = 0; api < APIS; api++) each_host_request_refused((enum api)api);
    too_long_rows();
    too_many_refusals();
    return 0;
}
