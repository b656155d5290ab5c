/* Replays a device trace (docs/TRACE.md) through an allocator and a driver in memory, and prints the replies: the traces of traces/ have
 * them beside them. The trace is well formed. */
#include "test.h"
#include <inttypes.h>

#define MOST_LIVE 4096
#define MOST_MEMORIES 4096
#define MOST_REFUSALS 1024
#define MOST_TYPES 40
#define LINE_ROOM 16384
#define MOST_WORDS 10

/* ---- what the trace says of its device ---- */

struct refusal {
    uint64_t question;
    bool is_null;
    int32_t code;
};

static pilhangko_device_memory_type types[MOST_TYPES];
static pilhangko_device_heap heaps[MOST_TYPES];
static size_t type_count, heap_count;
static pilhangko_allocator_settings settings = {1, 256 << 20, 0, 64 << 20, 0};
static struct refusal refusals[MOST_REFUSALS];
static size_t refusal_count;

/* ---- the driver: memory in order of number, mapped memory of zeros ---- */

struct memory {
    bool held;
    uint64_t size;
    unsigned char *mapped;
};

static struct memory memories[MOST_MEMORIES];
static uint64_t last_memory, questions;

static const struct refusal *refusal_of_next(void) {
    questions++;
    for (size_t i = 0; i < refusal_count; i++)
        if (refusals[i].question == questions) return &refusals[i];
    return NULL;
}

static void gives_back(uint64_t memory, bool mapped) {
    CHECK(memory > 0 && memory < MOST_MEMORIES && memories[memory].held && mapped == (memories[memory].mapped != NULL));
    free(memories[memory].mapped);
    memset(&memories[memory], 0, sizeof memories[memory]);
}

static uint64_t held_memories(void) {
    uint64_t count = 0;
    for (size_t i = 0; i < MOST_MEMORIES; i++) count += memories[i].held;
    return count;
}

/* ---- the allocator, and what the trace's numbers stand for ---- */

struct bound {
    bool is_bound, is_null;
    uint64_t number;
    pilhangko_allocator_piece piece;
    bool is_dedicated;
};

static pilhangko_allocator allocator;
static struct bound live[MOST_LIVE];

static struct bound *bound_to(uint64_t number) {
    for (size_t i = 0; i < MOST_LIVE; i++)
        if (live[i].is_bound && live[i].number == number) return &live[i];
    return NULL;
}

static struct bound *free_binding(void) {
    for (size_t i = 0; i < MOST_LIVE; i++)
        if (!live[i].is_bound) return &live[i];
    CHECK(!"more live allocations than the test has room for");
    return NULL;
}

/* The trace's number of an error: a status that it has no number of its own for is E6. */
static unsigned error_number(pilhangko_status status) {
    return status > 11 ? 6 : status;
}

static void says(bool yes, const char *word, const char *otherwise) {
    printf("%s\n", yes ? word : otherwise);
}

static bool refused(pilhangko_status status) {
    if (status == PILHANGKO_OK) return false;
    printf("error E%u\n", error_number(status));
    return true;
}

/* ---- alloc ---- */

/* Asks the driver, and tells the answer. */
static pilhangko_status answered(pilhangko_allocator_progress *p) {
    const pilhangko_allocator_question question = p->question;
    const struct refusal *no = refusal_of_next();
    if (no) return pilhangko_allocator_refused(&allocator, no->is_null ? -2 : no->code, p);
    no = question.mapped ? refusal_of_next() : NULL;
    if (no) return pilhangko_allocator_mapping_refused(&allocator, !no->is_null, no->code, p);
    CHECK(++last_memory < MOST_MEMORIES);
    memories[last_memory].held = true;
    memories[last_memory].size = question.size;
    if (question.mapped) memories[last_memory].mapped = (unsigned char *)calloc(1, (size_t)question.size);
    CHECK(!question.mapped || memories[last_memory].mapped);
    p->kind = PILHANGKO_PROGRESS_PIECE;
    return pilhangko_allocator_granted(&allocator, last_memory, (uintptr_t)memories[last_memory].mapped, &p->piece);
}

static uint32_t location_of(const char *word) {
    static const char *const words[] = {"Unknown", "GpuOnly", "CpuToGpu", "GpuToCpu"};
    for (uint32_t i = 0; i < 4; i++)
        if (!strcmp(word, words[i])) return i + 1;
    CHECK(!"a location");
    return 0;
}

static pilhangko_allocator_request asks(char **word) {
    pilhangko_allocator_request r = {0, 0, 0, 0, 0, PILHANGKO_SCHEME_MANAGED, 0};
    r.size = strtoull(word[2], NULL, 10);
    r.alignment = strtoull(word[3], NULL, 10);
    r.memory_type_bits = (uint32_t)strtoull(word[4], NULL, 10);
    r.location = location_of(word[5]);
    r.kind = !strcmp(word[6], "linear") ? PILHANGKO_KIND_LINEAR : PILHANGKO_KIND_NON_LINEAR;
    if (strcmp(word[7], "managed") != 0) {
        r.scheme = word[7][0] == 'b' ? PILHANGKO_SCHEME_BUFFER : PILHANGKO_SCHEME_IMAGE;
        r.resource = strtoull(strchr(word[7], ':') + 1, NULL, 10);
    }
    return r;
}

static void binds(uint64_t number, const pilhangko_allocator_piece *piece, bool is_dedicated) {
    struct bound *b = free_binding();
    b->is_bound = true;
    b->is_null = piece == NULL;
    b->number = number;
    b->is_dedicated = is_dedicated;
    if (piece) b->piece = *piece;
}

static void tells_place(const pilhangko_allocator_piece *place, bool is_dedicated) {
    const pilhangko_memory_piece *piece = &place->piece;
    printf("ok type %zu slot %zu offset %" PRIu64 " size %" PRIu64 " chunk %" PRIu64, place->memory_type, piece->slot, piece->offset,
        piece->size, piece->number);
    printf(" dedicated %s mapped %s\n", is_dedicated ? "true" : "false", place->address ? "true" : "false");
}

static void alloc(char **word) {
    const uint64_t number = strtoull(word[1], NULL, 10);
    const pilhangko_allocator_request request = asks(word);
    pilhangko_allocator_progress p;
    pilhangko_status status;
    const bool is_dedicated = request.scheme != PILHANGKO_SCHEME_MANAGED;
    if (bound_to(number)) {
        puts("busy");
        return;
    }
    status = pilhangko_allocator_begin(&allocator, &request, word[8], &p);
    while (status == PILHANGKO_OK && p.kind == PILHANGKO_PROGRESS_QUESTION) status = answered(&p);
    if (refused(status == PILHANGKO_OK ? p.status : status)) return;
    binds(number, &p.piece, is_dedicated);
    tells_place(&p.piece, is_dedicated);
}

/* ---- the other commands of a number ---- */

static void frees(struct bound *b) {
    pilhangko_allocator_memory back = {false, false, 0, 0};
    if (!b->is_null) IS(pilhangko_allocator_free(&allocator, &b->piece, &back), PILHANGKO_OK);
    if (back.exists) gives_back(back.memory, back.mapped);
    b->is_bound = false;
    puts("ok");
}

static void renames(const struct bound *b, const char *name) {
    if (!b->is_null) IS(pilhangko_allocator_rename(&allocator, &b->piece, name), PILHANGKO_OK);
    puts("ok");
}

/* A second place under a number of its own. A null allocation has no size that a request could have. */
static void moves(const struct bound *b, char **word) {
    const uint64_t to = strtoull(word[2], NULL, 10);
    const pilhangko_allocator_request request = asks(word + 1);
    pilhangko_allocator_piece place;
    bool has_place = false;
    if (bound_to(to)) puts("busy");
    else if (b->is_null) puts("error E4");
    else if (refused(pilhangko_allocator_propose_move(&allocator, &b->piece, &request, word[9], &has_place, &place))) return;
    else if (!has_place) puts("none");
    else {
        binds(to, &place, false);
        tells_place(&place, false);
    }
}

/* Where the bytes of an allocation are; NULL, with the reply, where they can't be reached. */
static unsigned char *bytes_of(const struct bound *b, uint64_t at, uint64_t length) {
    const pilhangko_memory_piece *piece = &b->piece.piece;
    if (b->is_null || b->piece.address == 0) {
        puts("none");
        return NULL;
    }
    if (at > piece->size || length > piece->size - at) {
        puts("range");
        return NULL;
    }
    return (unsigned char *)(uintptr_t)b->piece.address + piece->offset + at;
}

static void writes(const struct bound *b, uint64_t at, const char *hex) {
    const size_t length = strlen(hex) / 2;
    unsigned char *bytes = bytes_of(b, at, length);
    for (size_t i = 0; bytes && i < length; i++) {
        char digits[3] = {hex[2 * i], hex[2 * i + 1], 0};
        bytes[i] = (unsigned char)strtoul(digits, NULL, 16);
    }
    if (bytes) puts("ok");
}

static void reads(const struct bound *b, uint64_t at, uint64_t length) {
    const unsigned char *bytes = bytes_of(b, at, length);
    if (!bytes) return;
    for (uint64_t i = 0; i < length; i++) printf("%02x", bytes[i]);
    puts("");
}

/* ---- what is told of the whole ---- */

/* The live pieces of one block, and its line of the report. */
static void reports_block(size_t type, size_t slot, uint64_t memory, size_t *row, char *lines, size_t room) {
    pilhangko_piece_view views[512];
    size_t lengths[512], count, names, at = 0, used = strlen(lines);
    char text[32768];
    IS(pilhangko_allocator_pieces(&allocator, type, slot, 0, views, 512, &count), PILHANGKO_OK);
    IS(pilhangko_allocator_piece_names(&allocator, type, slot, 0, lengths, 512, text, sizeof text, &names), PILHANGKO_OK);
    CHECK(count == names && count < 512);
    for (size_t i = 0; i < count; at += lengths[i++])
        printf("piece %.*s %" PRIu64 " %" PRIu64 "\n", (int)lengths[i], text + at, views[i].offset, views[i].end - views[i].offset);
    snprintf(lines + used, room - used, "block %" PRIu64 " %zu %zu\n", memories[memory].size, *row, *row + count);
    *row += count;
}

static void reports(void) {
    static char lines[65536];
    uint64_t taken = 0, capacity = 0;
    size_t row = 0;
    pilhangko_type_statistics type;
    lines[0] = 0;
    for (size_t t = 0; pilhangko_allocator_type_statistics(&allocator, t, &type) == PILHANGKO_OK; t++) {
        taken += type.piece_bytes;
        capacity += type.capacity;
        for (size_t slot = 0; slot < type.slots; slot++) {
            pilhangko_allocator_live_block block;
            IS(pilhangko_allocator_block(&allocator, t, slot, &block), PILHANGKO_OK);
            if (block.exists) reports_block(t, slot, block.memory, &row, lines, sizeof lines);
        }
    }
    printf("%stotal %" PRIu64 " capacity %" PRIu64 "\n", lines, taken, capacity);
}

static void leaks(void) {
    static char text[4096];
    size_t count = 0, length;
    for (;; count++) {
        IS(pilhangko_allocator_leak(&allocator, count, text, sizeof text, &length), PILHANGKO_OK);
        if (length == 0) break;
        CHECK(length <= sizeof text);
        printf("%.*s\n", (int)length, text);
    }
    printf("leaks %zu\n", count);
}

static void tells_capacity(void) {
    uint64_t bytes;
    IS(pilhangko_allocator_capacity(&allocator, &bytes), PILHANGKO_OK);
    printf("%" PRIu64 "\n", bytes);
}

static void bounds(char **word) {
    const bool has_budget = strcmp(word[2], "none") != 0;
    const uint64_t bytes = has_budget ? strtoull(word[2], NULL, 10) : 0;
    if (!refused(pilhangko_allocator_set_budget(&allocator, (size_t)strtoull(word[1], NULL, 10), has_budget, bytes))) puts("ok");
}

/* Gives each block back, as a visit shows them, and then ends the allocator. */
static void destroys(bool tells) {
    pilhangko_type_statistics type;
    for (size_t t = 0; pilhangko_allocator_type_statistics(&allocator, t, &type) == PILHANGKO_OK; t++)
        for (size_t slot = 0; slot < type.slots; slot++) {
            pilhangko_allocator_live_block block;
            IS(pilhangko_allocator_block(&allocator, t, slot, &block), PILHANGKO_OK);
            if (block.exists) gives_back(block.memory, block.mapped);
        }
    (void)pilhangko_allocator_destroy(&allocator);
    if (tells) printf("held %" PRIu64 "\n", held_memories());
    CHECK(held_memories() == 0);
}

/* ---- lines ---- */

static void refuses(char **word) {
    struct refusal *r = &refusals[refusal_count++];
    CHECK(refusal_count <= MOST_REFUSALS);
    r->question = strtoull(word[1], NULL, 10);
    r->is_null = !strcmp(word[2], "null");
    r->code = r->is_null ? 0 : (int32_t)strtol(word[2], NULL, 10);
}

static bool configures(char **word) {
    if (!strcmp(word[0], "heap")) {
        heaps[heap_count++].size = strtoull(word[1], NULL, 10);
    } else if (!strcmp(word[0], "type")) {
        types[type_count].flags = (uint32_t)strtoull(word[1], NULL, 10);
        types[type_count++].heap = (uint32_t)strtoull(word[2], NULL, 10);
    } else if (!strcmp(word[0], "granularity")) {
        settings.page_size = strtoull(word[1], NULL, 10);
    } else if (!strcmp(word[0], "sizes")) {
        settings.device_block_size = strtoull(word[1], NULL, 10);
        settings.host_block_size = strtoull(word[2], NULL, 10);
        settings.largest_device_block_size = strtoull(word[3], NULL, 10);
        settings.largest_host_block_size = strtoull(word[4], NULL, 10);
    } else if (!strcmp(word[0], "refuse")) {
        refuses(word);
    } else {
        return false;
    }
    CHECK(heap_count < MOST_TYPES && type_count < MOST_TYPES);
    return true;
}

/* A command of a number that has to stand for an allocation. */
static bool serves_bound(char **word) {
    const bool is_one = !strcmp(word[0], "free") || !strcmp(word[0], "rename") || !strcmp(word[0], "write") || !strcmp(word[0], "read") ||
                        !strcmp(word[0], "move");
    struct bound *b = is_one ? bound_to(strtoull(word[1], NULL, 10)) : NULL;
    if (is_one && !b) puts("unbound");
    else if (!strcmp(word[0], "free")) frees(b);
    else if (!strcmp(word[0], "rename")) renames(b, word[2]);
    else if (!strcmp(word[0], "move")) moves(b, word);
    else if (!strcmp(word[0], "write")) writes(b, strtoull(word[2], NULL, 10), word[3]);
    else if (!strcmp(word[0], "read")) reads(b, strtoull(word[2], NULL, 10), strtoull(word[3], NULL, 10));
    return is_one;
}

static void null(uint64_t number) {
    const bool is_busy = bound_to(number) != NULL;
    if (!is_busy) binds(number, NULL, false);
    says(is_busy, "busy", "ok");
}

static void creates(void) {
    const pilhangko_status status = pilhangko_allocator_create(&allocator, types, type_count, heaps, heap_count, &settings);
    const bool is_fault = status == PILHANGKO_TOO_MANY_TYPES || status == PILHANGKO_NO_SUCH_HEAP; /* each fault of a device is E5 */
    if (!refused(is_fault ? (pilhangko_status)PILHANGKO_INVALID_DEVICE : status)) puts("ok");
}

static void serves(char **word) {
    if (configures(word) || serves_bound(word)) return;
    if (!strcmp(word[0], "new")) creates();
    else if (!strcmp(word[0], "alloc")) alloc(word);
    else if (!strcmp(word[0], "null")) null(strtoull(word[1], NULL, 10));
    else if (!strcmp(word[0], "report")) reports();
    else if (!strcmp(word[0], "leaks")) leaks();
    else if (!strcmp(word[0], "capacity")) tells_capacity();
    else if (!strcmp(word[0], "budget")) bounds(word);
    else if (!strcmp(word[0], "destroy")) destroys(true);
    else CHECK(!"a line that says nothing");
}

int main(void) {
    static char line[LINE_ROOM];
    while (fgets(line, sizeof line, stdin)) {
        char *word[MOST_WORDS] = {NULL};
        size_t count = 0;
        if (line[0] == '#' || line[0] == '\n') continue;
        for (char *at = strtok(line, " \n"); at && count < MOST_WORDS; at = strtok(NULL, " \n")) word[count++] = at;
        serves(word);
    }
    destroys(false);
    return 0;
}
