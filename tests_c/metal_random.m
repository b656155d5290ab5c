/* 200,000 random calls of the Metal binding over a fake device that refuses some of its questions, each beside a plain account: every
 * status, place and number has to be the account's, what the device holds the account's blocks, and what is resident these too. A shorter
 * run is captured; given the names of two files, the capture goes to the first, and to the second what gpu_trace has to reply to it. */
#include "pilhangko_metal.h"

#include "fake_metal.h"
#include "metal_account.h"
#include "refusing_heap.h"

#define LIVE 300
#define UNTOLD UINT64_MAX /* the heap of a block in the account before an allocation in it has told it */
#define STALE 64

/* A live allocation, and the resource that lies there, if one does. */
struct live {
    pilhangko_metal_allocation allocation;
    FakeResource *resource;
    uint64_t alignment, word;
};

static pilhangko_metal metal;
static FakeDevice *device;
static struct metal_account account;
static struct live live[LIVE];
static size_t live_count;
static pilhangko_metal_allocation stale[STALE];
static uint64_t last_serial;
static FILE *replies;                                  /* what the captured calls came to, or NULL */
static pilhangko_budget captured_budgets[METAL_TYPES]; /* as the capture has them by now */
static unsigned allocated, made, unmade, refused, over_budget, freed, not_live, renamed, committed, moved, stayed;

static const char *const names[] = {NULL, "", "vertices", "a name that takes host memory of its own", "\xc3\xa9t\xc3\xa9 2",
    "a name of more than sixty-four bytes, which no trace can have as it stands here"};
#define SOME_NAME names[random_below(6)]

/* ---- what has to be replied to a capture */

static void reply(const char *line) {
    if (replies) fprintf(replies, "%s\n", line);
}

/* Before an allocation and at the end the capture has those bounds that are others than before. */
static void reply_budgets(void) {
    for (size_t i = 0; i < METAL_TYPES; i++) {
        const pilhangko_budget now = {account.types[i].has_budget, account.types[i].has_budget ? account.types[i].budget : 0};
        if (now.exists != captured_budgets[i].exists || now.bytes != captured_budgets[i].bytes) reply("ok");
        captured_budgets[i] = now;
    }
}

static void reply_no_place(void) {
    reply_budgets();
    reply("none");
}

static void reply_allocation(NSUInteger heap) {
    const pilhangko_memory_piece *p = &account.placed.piece;
    char line[200];
    reply_budgets();
    snprintf(line, sizeof line, "ok type %zu slot %zu offset %llu size %llu chunk %llu heap %lu", account.type, p->slot,
        (unsigned long long)p->offset, (unsigned long long)p->size, (unsigned long long)p->number, (unsigned long)heap);
    reply(line);
}

/* INVALID requests aren't captured; the two statuses that have the number 6 in a trace are told apart here. */
static void reply_refusal(pilhangko_status status) {
    char line[32];
    if (status == PILHANGKO_INVALID) return;
    reply_budgets();
    snprintf(line, sizeof line, "error E%u", status == PILHANGKO_DRIVER_REFUSED ? 6 : status);
    reply(line);
    refused++;
    over_budget += status == PILHANGKO_BUDGET_EXCEEDED;
}

/* ---- an allocation, foretold */

/* some of the next questions will be refused, and some resources */
static void plans_refusals(void) {
    for (size_t i = 0; i < 2; i++) fake.refused[i] = random_below(3) == 0 ? fake.questions + 1 + random_below(3) : 0;
    fake.refuses_resources = random_below(12) == 0;
}

/* What the account makes of a request; *questions is what the device will have been asked by then. */
static pilhangko_status foretell(const pilhangko_metal_heaps_request *request, uint64_t *questions) {
    const pilhangko_status status = metal_request(&account, request, "");
    if (status != PILHANGKO_OK || !account.awaits_heap) return status;
    ++*questions;
    if (*questions == fake.refused[0] || *questions == fake.refused[1]) {
        account.awaits_heap = false;
        return PILHANGKO_DRIVER_REFUSED;
    }
    metal_granted(&account, UNTOLD);
    return PILHANGKO_OK;
}

static void is_new_heap(uint64_t heap) {
    for (size_t i = 0; i < METAL_TYPES; i++)
        for (size_t j = 0; j < account.types[i].slot_count; j++)
            CHECK(!account.types[i].slots[j].exists || account.types[i].slots[j].block != heap);
}

static const FakeHeap *heap_of(const pilhangko_metal_allocation *a) {
    return (FakeHeap *)a->heap;
}

/* The allocation is the account's, and the next one made. It is the first to tell of a new block its heap. */
static void meets(const pilhangko_metal_allocation *a) {
    static const MTLResourceOptions options[] = {MTLResourceStorageModePrivate, MTLResourceCPUCacheModeWriteCombined, 0};
    const pilhangko_memory_piece *p = &a->piece.piece;
    struct slot *slot = &account.types[account.type].slots[account.placed.piece.slot];
    CHECK(a->serial == ++last_serial);
    if (slot->block == UNTOLD) {
        is_new_heap(p->block);
        slot->block = account.placed.piece.block = p->block;
    }
    CHECK(a->piece.memory_type == account.type && same_piece(p, &account.placed.piece));
    CHECK(a->offset == p->offset && a->size == p->size && (uintptr_t)a->heap == p->block);
    CHECK(heap_of(a)->size == slot->account.size);
    CHECK(heap_of(a)->options == (options[account.type] | MTLResourceHazardTrackingModeUntracked));
}

/* Aligned, within its heap, and apart from each live one. */
static void keeps(const struct live *it) {
    const pilhangko_metal_allocation *a = &it->allocation;
    CHECK(a->offset % it->alignment == 0 && a->offset + a->size <= heap_of(a)->size);
    for (size_t i = 0; i < live_count; i++) {
        const pilhangko_metal_allocation *b = &live[i].allocation;
        CHECK(b->heap != a->heap || a->offset + a->size <= b->offset || b->offset + b->size <= a->offset);
    }
    live[live_count++] = *it;
}

static uint64_t some_size(void) {
    const uint64_t large = random_below(60);
    return 1 + random_below(large == 0 ? 9 * MB : large == 1 ? 30 * MB : large < 20 ? 3 * MB : 200000);
}

static pilhangko_metal_allocation untouched(void) {
    pilhangko_metal_allocation a;
    memset(&a, 7, sizeof a);
    return a;
}

static bool is_untouched(const pilhangko_metal_allocation *a) {
    const pilhangko_metal_allocation wanted = untouched();
    return memcmp(a, &wanted, sizeof wanted) == 0;
}

static void allocates(void) {
    pilhangko_metal_request r = {random_below(100) ? some_size() : 0, UINT64_C(1) << random_below(17),
        (pilhangko_location)(random_below(100) ? 1 + random_below(4) : random_below(7)), SOME_NAME, 0};
    if (random_below(100) == 0) r.alignment = random_below(8);
    const pilhangko_metal_heaps_request asks = {r.size, r.alignment, r.location};
    struct live it = {untouched(), nil, r.alignment, 0};
    uint64_t questions = fake.questions;
    const pilhangko_status status = foretell(&asks, &questions);
    IS(pilhangko_metal_allocate(&metal, &r, &it.allocation), status);
    CHECK(fake.questions == questions);
    if (status != PILHANGKO_OK) {
        CHECK(is_untouched(&it.allocation));
        reply_refusal(status);
        return;
    }
    meets(&it.allocation);
    reply_allocation(heap_of(&it.allocation)->number);
    keeps(&it);
    allocated++;
}

/* ---- resources */

static pilhangko_status create_texture(NSUInteger width, const pilhangko_metal_placement *placement, struct live *it) {
    MTLTextureDescriptor *descriptor = [[MTLTextureDescriptor alloc] init];
    id<MTLTexture> texture = nil;
    [descriptor setWidth:width];
    [descriptor setHeight:1];
    [descriptor setResourceOptions:MTLResourceStorageModeManaged]; /* which counts for nothing */
    const pilhangko_status status = pilhangko_metal_create_texture(&metal, descriptor, placement, &texture, &it->allocation);
    CHECK([descriptor resourceOptions] == MTLResourceStorageModeManaged);
    [descriptor release];
    it->resource = (FakeResource *)texture;
    return status;
}

static pilhangko_status create(unsigned kind, NSUInteger length, const pilhangko_metal_placement *placement, struct live *it) {
    id<MTLBuffer> buffer = nil;
    id<MTLAccelerationStructure> structure = nil;
    pilhangko_status status;
    if (kind == 0) return create_texture(length / 4, placement, it);
    if (kind == 1) status = pilhangko_metal_create_buffer(&metal, length, placement, &buffer, &it->allocation);
    else status = pilhangko_metal_create_acceleration_structure(&metal, length, placement, &structure, &it->allocation);
    it->resource = kind == 1 ? (FakeResource *)buffer : (FakeResource *)structure;
    return status;
}

static uint64_t heap_number_of(const struct slot *slot) {
    return slot->block == UNTOLD ? fake.objects + 1 : ((FakeHeap *)(uintptr_t)slot->block)->number;
}

/* The resource has a piece, but the heap makes none: the piece goes again. Where its heap stays, it is told by the next allocation. */
static void is_unmade(void) {
    struct type_account *t = &account.types[account.type];
    reply_allocation(heap_number_of(&t->slots[account.placed.piece.slot]));
    type_free(t, &account.placed.piece, type_find(t, &account.placed.piece));
    reply("ok");
    last_serial++;
    unmade++;
}

static void creates(void) {
    const unsigned kind = (unsigned)random_below(3);
    const NSUInteger unit = kind == 0 ? FAKE_TEXTURE_UNIT : FAKE_UNIT, length = (some_size() + 3) / 4 * 4;
    const pilhangko_metal_placement placement = {(pilhangko_location)(1 + random_below(4)), SOME_NAME, 0};
    const pilhangko_metal_heaps_request asks = {(length + unit - 1) / unit * unit, unit, placement.location};
    struct live it = {untouched(), nil, unit, 0};
    uint64_t questions = fake.questions;
    pilhangko_status status = foretell(&asks, &questions);
    if (status != PILHANGKO_OK) reply_refusal(status);
    if (status == PILHANGKO_OK && fake.refuses_resources) {
        is_unmade();
        status = PILHANGKO_METAL_CALL_FAILED;
    }
    IS(create(kind, length, &placement, &it), status);
    CHECK(fake.questions == questions);
    if (status != PILHANGKO_OK) {
        CHECK(is_untouched(&it.allocation) && it.resource == nil);
        return;
    }
    meets(&it.allocation);
    CHECK(it.resource->heap == it.allocation.heap && it.resource->offset == it.allocation.offset && it.resource->length == length);
    reply_allocation(heap_of(&it.allocation)->number);
    keeps(&it);
    made++;
}

/* ---- what else may become of an allocation */

static pilhangko_metal_allocation some_allocation(void) {
    if (live_count > 0 && random_below(10)) return live[random_below(live_count)].allocation;
    return stale[random_below(STALE)];
}

/* The index of a live allocation, or the count of all: one that was freed isn't live, though its piece may have come again. */
static size_t live_at(const pilhangko_metal_allocation *a) {
    size_t i = 0;
    while (i < live_count && live[i].allocation.serial != a->serial) i++;
    CHECK(i == live_count || metal_find(&account, &a->piece) >= 0);
    return i;
}

static void frees(void) {
    const pilhangko_metal_allocation a = some_allocation();
    const size_t i = live_at(&a);
    if (i == live_count) {
        IS(pilhangko_metal_free(&metal, &a), PILHANGKO_NOT_LIVE);
        not_live++;
        return;
    }
    type_free(&account.types[a.piece.memory_type], &a.piece.piece, metal_find(&account, &a.piece));
    [live[i].resource release];
    IS(pilhangko_metal_free(&metal, &a), PILHANGKO_OK);
    IS(pilhangko_metal_free(&metal, &a), PILHANGKO_NOT_LIVE);
    reply("ok");
    stale[random_below(STALE)] = a;
    live[i] = live[--live_count];
    freed++;
}

/* Its name, whether it is live, and its word. */
static void renames(void) {
    const pilhangko_metal_allocation a = some_allocation();
    const size_t i = live_at(&a);
    const bool is_live = i < live_count;
    const pilhangko_status status = is_live ? PILHANGKO_OK : PILHANGKO_NOT_LIVE;
    bool told = !is_live;
    uint64_t word = 5;
    IS(pilhangko_metal_is_live(&metal, &a, &told), PILHANGKO_OK);
    CHECK(told == is_live);
    IS(pilhangko_metal_rename(&metal, &a, "\xff"), PILHANGKO_INVALID);
    IS(pilhangko_metal_rename(&metal, &a, SOME_NAME), status);
    IS(pilhangko_metal_user_data(&metal, &a, &word), status);
    CHECK(word == (is_live ? live[i].word : 5));
    word = random_number();
    IS(pilhangko_metal_set_user_data(&metal, &a, word), status);
    if (is_live) live[i].word = word;
    renamed += is_live;
}

/* A second place for an allocation, which then is live beside it: the account's in a slot above. */
static void moves_one(void) {
    const pilhangko_metal_allocation a = some_allocation();
    const size_t i = live_at(&a), type = a.piece.memory_type;
    const bool is_live = i < live_count;
    const pilhangko_metal_request r = {
        random_below(20) ? a.size : a.size + 1, is_live ? live[i].alignment : 1, (pilhangko_location)(2 + type % METAL_TYPES), SOME_NAME, 0};
    const pilhangko_memory_request asks = {a.size, r.alignment, PILHANGKO_KIND_LINEAR, false};
    const pilhangko_status valid = r.size == a.size ? PILHANGKO_OK : PILHANGKO_INVALID;
    const pilhangko_status status = is_live ? valid : (pilhangko_status)PILHANGKO_NOT_LIVE;
    const uint64_t questions = fake.questions;
    struct live it = {untouched(), nil, r.alignment, is_live ? live[i].word : 0};
    uint64_t word = 0;
    bool moves = true;
    if (status == PILHANGKO_OK) account.type = type;
    const bool wanted =
        status == PILHANGKO_OK && type_place(&account.types[type], a.piece.piece.slot + 1, &asks, "", &account.placed.piece);
    IS(pilhangko_metal_propose_move(&metal, &a, &r, &moves, &it.allocation), status);
    CHECK(fake.questions == questions);
    if (status != PILHANGKO_OK || !wanted) {
        CHECK(moves == (status != PILHANGKO_OK) && is_untouched(&it.allocation));
        stayed += status == PILHANGKO_OK;
        if (status == PILHANGKO_OK) reply_no_place();
        return;
    }
    meets(&it.allocation);
    IS(pilhangko_metal_user_data(&metal, &it.allocation, &word), PILHANGKO_OK);
    CHECK(moves && word == it.word);
    reply_allocation(heap_of(&it.allocation)->number);
    keeps(&it);
    moved++;
}

/* ---- moves over frames */

static bool may_move(const struct live *it) {
    (void)it;
    return true;
}

static pilhangko_kind kind_of(const struct live *it) {
    (void)it;
    return PILHANGKO_KIND_LINEAR;
}

static pilhangko_metal_request request_again(const struct live *it) {
    const pilhangko_metal_request r = {
        it->allocation.size, it->alignment, (pilhangko_location)(2 + it->allocation.piece.memory_type), SOME_NAME, 0};
    return r;
}

static void keeps_second(struct live *it) {
    uint64_t word = 0;
    it->resource = nil;
    meets(&it->allocation);
    IS(pilhangko_metal_user_data(&metal, &it->allocation, &word), PILHANGKO_OK);
    CHECK(word == it->word);
    reply_allocation(heap_of(&it->allocation)->number);
    keeps(it);
}

static void goes_by_account(size_t index) {
    const pilhangko_metal_allocation *a = &live[index].allocation;
    type_free(&account.types[a->piece.memory_type], &a->piece.piece, metal_find(&account, &a->piece));
    [live[index].resource release];
}

#define NAMED(rest) pilhangko_metal##rest
#define BYTES_OF(request) ((request)->size)
#define BINDING (&metal)
#define CAPACITY metal_capacity(&account)
#include "defragment_random.h"

/* ---- the set, and bounds */

static void commits(void) {
    IS(pilhangko_metal_commit(&metal), PILHANGKO_OK);
    CHECK(fake.committed == fake.members && fake.commits == (account.has_set ? ++committed : 0));
    reply("ok");
}

static void sets_budget(void) {
    const uint32_t type = (uint32_t)random_below(5);
    const bool has = random_below(2) == 0;
    const uint64_t bytes = random_below(64 * MB);
    pilhangko_budget told;
    IS(pilhangko_metal_set_budget(&metal, type, has, bytes), type < METAL_TYPES ? PILHANGKO_OK : PILHANGKO_NO_SUCH_TYPE);
    if (type < METAL_TYPES) {
        account.types[type].has_budget = has;
        account.types[type].budget = bytes;
    }
    IS(pilhangko_metal_budget(&metal, type, &told), PILHANGKO_OK);
    CHECK(told.exists == (type < METAL_TYPES && has) && told.bytes == (told.exists ? bytes : 0));
}

/* Each memory type is bound by what it has and what the device has left. */
static void updates_budgets(void) {
    fake.used_elsewhere = random_below(64 * MB);
    fake.working_set = random_below(512 * MB);
    const uint64_t usage = metal_capacity(&account) + fake.used_elsewhere, left = fake.working_set > usage ? fake.working_set - usage : 0;
    IS(pilhangko_metal_update_budgets(&metal), PILHANGKO_OK);
    for (uint32_t i = 0; i < METAL_TYPES; i++) {
        pilhangko_budget told;
        account.types[i].has_budget = true;
        account.types[i].budget = type_capacity(&account.types[i]) + left;
        IS(pilhangko_metal_budget(&metal, i, &told), PILHANGKO_OK);
        CHECK(told.exists && told.bytes == account.types[i].budget);
    }
}

/* The device holds the blocks of the account, and the residency set has just these. */
static void looks(void) {
    uint64_t capacity = 0;
    unsigned blocks = 0;
    pilhangko_metal_memory memory;
    for (size_t i = 0; i < METAL_TYPES; i++)
        for (size_t j = 0; j < account.types[i].slot_count; j++) blocks += account.types[i].slots[j].exists;
    IS(pilhangko_metal_capacity(&metal, &capacity), PILHANGKO_OK);
    CHECK(capacity == metal_capacity(&account) && capacity == fake.heap_bytes && blocks == fake.heaps);
    CHECK(fake.members == (account.has_set ? blocks : 0));
    IS(pilhangko_metal_read_memory(&metal, &memory), PILHANGKO_OK);
    CHECK(memory.held == capacity && memory.usage == capacity + fake.used_elsewhere && memory.budget == fake.working_set);
}

/* How many allocations there are comes and goes, so that blocks do. */
static void step(void) {
    static size_t target;
    const uint64_t what = random_below(1000);
    plans_refusals();
    if (random_below(300) == 0) target = random_below(LIVE);
    if (what >= 920) {
        if (what < 950) renames();
        else if (what < 970) commits();
        else if (what < 985) looks();
        else if (what < 998) sets_budget();
        else updates_budgets();
    } else if (live_count < LIVE && what >= 860) {
        moves_one();
    } else if (what >= 790 && what < 796) {
        proposes_frame();
    } else if (what >= 796 && what < 820) {
        ends_move();
    } else if (live_count < LIVE && what < (live_count < target ? 700 : 180)) {
        if (what % 2) allocates();
        else creates();
    } else {
        frees();
    }
}

/* ---- runs */

static bool writes(void *user, const char *bytes, size_t length) {
    return fwrite(bytes, 1, length, (FILE *)user) == length;
}

static void begins(bool has_set, FILE *capture) {
    pilhangko_metal_settings settings = {.device = device,
        .has_residency_set = has_set,
        .device_block_size = 4 * MB,
        .host_block_size = 4 * MB,
        .largest_host_block_size = 8 * MB,
        .capture_write = capture ? writes : NULL,
        .capture_user = capture};
    const pilhangko_metal_heaps_settings asks = {has_set, 4 * MB, 4 * MB, 4 * MB, 8 * MB};
    memset(&fake, 0, sizeof fake);
    fake.devices = 1;
    fake.has_residency_sets = true;
    live_count = last_serial = committed = 0;
    memset(stale, 0, sizeof stale);
    memset(captured_budgets, 0, sizeof captured_budgets);
    begins_moves();
    metal_begin(&account, &asks);
    IS(pilhangko_metal_create(&metal, &settings), PILHANGKO_OK);
    CHECK(fake.questions == has_set && fake.sets == has_set && (pilhangko_metal_residency_set(&metal) != nil) == has_set);
    reply("ok");
}

/* Some allocations leak, with their resources; all heaps go back to the device all the same. */
static void ends(void) {
    pilhangko_metal_ending ending;
    ends_moves();
    looks();
    while (live_count > 7) {
        [live[--live_count].resource release];
        IS(pilhangko_metal_free(&metal, &live[live_count].allocation), PILHANGKO_OK);
        reply("ok");
    }
    for (size_t i = 0; i < live_count; i++) [live[i].resource release];
    IS(pilhangko_metal_destroy(&metal, &ending), PILHANGKO_OK);
    CHECK(ending.leaks == live_count && fake.heaps == 0 && fake.resources == 0 && fake.sets == 0 && fake.members == 0);
    CHECK(ending.capture.end == (replies ? PILHANGKO_METAL_CAPTURE_WHOLE : PILHANGKO_METAL_CAPTURE_NONE));
    reply_budgets();
    reply(account.has_set ? "held 1 members 0" : "held 0 members 0"); /* in a trace the set isn't released */
    CHECK(heap_held == 0);
}

static void captured_run(const char *capture_name, const char *replies_name) {
    FILE *capture = fopen(capture_name, "wb");
    replies = fopen(replies_name, "wb");
    CHECK(capture && replies);
    random_state = 77;
    begins(true, capture);
    for (unsigned i = 0; i < 6000; i++) step();
    ends();
    CHECK(fclose(capture) == 0 && fclose(replies) == 0);
    replies = NULL;
}

int main(int count, char **words) {
    NSAutoreleasePool *pool = [[NSAutoreleasePool alloc] init];
    device = [[FakeDevice alloc] init];
    for (unsigned run = 0; run < 4; run++) {
        random_state = run;
        begins(run % 2 == 0, NULL);
        for (unsigned i = 0; i < 50000; i++) step();
        ends();
    }
    printf("200000 calls: %u allocated, %u made, %u not made, %u refused, %u of them over budget, %u freed, %u not live, %u renamed, "
           "%u moved, %u stayed, ",
        allocated, made, unmade, refused, over_budget, freed, not_live, renamed, moved, stayed);
    tells_of_moves();
    CHECK(allocated > 10000 && made > 10000 && unmade > 500 && refused > 1000 && over_budget > 100 && freed > 20000 && not_live > 1000);
    CHECK(renamed > 1000 && moved > 500 && stayed > 500);
    if (count == 3) captured_run(words[1], words[2]);
    [device release];
    CHECK(fake.devices == 0);
    [pool drain];
    return 0;
}
