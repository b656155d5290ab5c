/* 200,000 random calls of the DirectX 12 binding over a fake device that refuses some of its questions, each beside a plain account: every
 * status, place and number has to be the account's, and what the device holds the account's blocks and records. Shorter runs are captured;
 * given the names of two files for each tier, the capture goes to the first, and to the second what gpu_trace has to reply to it. */
#include "fake_d3d12.h"
#include "heaps_account.h"
#include "refusing_heap.h"

#define LIVE 300
#define UNTOLD UINT64_MAX /* the number of a block in the account before an allocation in it has told it */
#define STALE 64
#define TARGET D3D12_RESOURCE_FLAG_ALLOW_RENDER_TARGET
#define DEPTH D3D12_RESOURCE_FLAG_ALLOW_DEPTH_STENCIL

/* A live allocation, the resource that came with it, if one did, and the caller's word. */
struct live {
    pilhangko_d3d12_allocation allocation;
    ID3D12Resource *resource;
    bool is_committed;
    pilhangko_heaps_committed record;
    uint64_t alignment, word;
};

static pilhangko_d3d12 d3d12;
static struct heaps_account account;
static struct live live[LIVE];
static size_t live_count;
static pilhangko_d3d12_allocation stale[STALE];
static uint64_t last_serial;
static FILE *replies;                                 /* what the captured calls came to, or NULL */
static pilhangko_budget captured_budgets[HEAPS_TYPES]; /* as the capture has them by now */
static unsigned allocated, placed, committed, refused, unplaced, aliased, freed, not_live, renamed, moved, stayed;

static const char *const names[] = {NULL, "", "vertices", "a name that takes host memory of its own", "\xc3\xa9t\xc3\xa9 2",
    "a name of more than sixty-four bytes, which no trace can have as it stands here"};
#define SOME_NAME names[random_below(6)]

/* ---- what has to be replied to a capture */

static void reply(const char *line) {
    if (replies) fprintf(replies, "%s\n", line);
}

/* Before an allocation and at the end the capture has those bounds that are others than before. */
static void reply_budgets(void) {
    for (size_t i = 0; i < account.type_count; i++) {
        const pilhangko_budget now = {account.types[i].has_budget, account.types[i].has_budget ? account.types[i].budget : 0};
        if (now.exists != captured_budgets[i].exists || now.bytes != captured_budgets[i].bytes) reply("ok");
        captured_budgets[i] = now;
    }
}

static void reply_no_place(void) {
    reply_budgets();
    reply("none");
}

static void reply_place(const pilhangko_heaps_piece *p) {
    const struct fake_heap *heap = (const struct fake_heap *)(uintptr_t)p->piece.block;
    char line[200];
    reply_budgets();
    snprintf(line, sizeof line, "ok type %zu slot %zu offset %llu size %llu chunk %llu heap %llu", p->memory_type, p->piece.slot,
        (unsigned long long)p->piece.offset, (unsigned long long)p->piece.size, (unsigned long long)p->piece.number,
        (unsigned long long)heap->number);
    reply(line);
}

/* A trace's resources take whole units. */
static void reply_committed(const struct live *it) {
    char line[100];
    reply_budgets();
    snprintf(line, sizeof line, "ok resource %llu size %llu", (unsigned long long)fake_resource_of(it->resource)->number,
        (unsigned long long)((it->record.size + FAKE_UNIT - 1) / FAKE_UNIT * FAKE_UNIT));
    reply(line);
}

/* INVALID requests aren't captured; what the driver refused has the number 6 in a trace, but for lack of memory for a heap. */
static void reply_refusal(pilhangko_status status) {
    char line[32];
    if (status == PILHANGKO_INVALID) return;
    reply_budgets();
    snprintf(line, sizeof line, "error E%u", status == PILHANGKO_OUT_OF_MEMORY || status == PILHANGKO_BUDGET_EXCEEDED ? status : 6);
    reply(line);
}

/* ---- what a call will come to */

struct foretold {
    pilhangko_status status;
    uint64_t questions; /* those that the driver will be asked */
    HRESULT driver;
};

/* How the driver answers the next question of a call: `of_refusal` is its status where the refusal isn't of a special kind. */
static bool is_answered(struct foretold *f, pilhangko_status of_refusal, bool is_heap) {
    if (fake.questions + ++f->questions != fake.refused || fake.answer == FAKE_GRANTS) return true;
    f->status = of_refusal;
    if (fake.answer == FAKE_GIVES_NOTHING) return false;
    f->driver = fake.code == FAKE_REMOVED ? FAKE_HUNG : fake.code;
    if (is_heap && fake.code == FAKE_NO_MEMORY) f->status = PILHANGKO_OUT_OF_MEMORY;
    if (fake.code == FAKE_REMOVED) f->status = PILHANGKO_D3D12_DEVICE_REMOVED;
    return false;
}

static struct foretold foretell(const pilhangko_heaps_request *request) {
    struct foretold f = {heaps_request(&account, request, ""), 0, S_OK};
    if (f.status != PILHANGKO_OK || !account.awaits_heap) return f;
    if (is_answered(&f, PILHANGKO_DRIVER_REFUSED, true)) heaps_granted(&account, UNTOLD);
    account.awaits_heap = false;
    return f;
}

/* The piece is the account's, and the allocation the next one made. It is the first to tell of a new block its heap. */
static void meets(const pilhangko_heaps_piece *p) {
    struct slot *slot = &account.types[account.type].slots[account.placed.piece.slot];
    if (slot->block == UNTOLD) {
        for (size_t i = 0; i < account.type_count; i++)
            for (size_t j = 0; j < account.types[i].slot_count; j++)
                CHECK(!account.types[i].slots[j].exists || account.types[i].slots[j].block != p->piece.block);
        slot->block = account.placed.piece.block = p->piece.block;
    }
    CHECK(p->memory_type == account.type && same_piece(&p->piece, &account.placed.piece));
    CHECK(((const struct fake_heap *)(uintptr_t)p->piece.block)->desc.SizeInBytes == slot->account.size);
}

/* Aligned, within its heap, and apart from each live one. */
static void is_apart(const struct live *it) {
    const pilhangko_d3d12_allocation *a = &it->allocation;
    CHECK(a->offset % it->alignment == 0 && a->offset + a->size <= fake_heap_of(a->heap)->desc.SizeInBytes);
    for (size_t i = 0; i < live_count; i++) {
        const pilhangko_d3d12_allocation *b = &live[i].allocation;
        CHECK(b->heap != a->heap || a->offset + a->size <= b->offset || b->offset + b->size <= a->offset);
    }
}

static void keeps(struct live *it) {
    const pilhangko_d3d12_allocation *a = &it->allocation;
    CHECK(a->serial == ++last_serial);
    if (!it->is_committed) {
        meets(&a->piece);
        CHECK((uintptr_t)a->heap == a->piece.piece.block && a->offset == a->piece.piece.offset && a->size == a->piece.piece.size);
        is_apart(it);
        reply_place(&a->piece);
    } else {
        CHECK(!a->heap && a->offset == 0 && a->size == it->record.size && a->piece.piece.number == 0);
        reply_committed(it);
    }
    it->word = random_number();
    IS(pilhangko_d3d12_set_user_data(&d3d12, a, it->word), PILHANGKO_OK);
    live[live_count++] = *it;
}

/* ---- calls */

static uint64_t some_size(void) {
    const uint64_t large = random_below(60);
    return 1 + random_below(large == 0 ? 9 * MB : large == 1 ? 30 * MB : large < 20 ? 3 * MB : 200000);
}

/* one of the next two questions may be refused */
static void plans_refusal(void) {
    const HRESULT codes[] = {FAKE_NO_MEMORY, FAKE_NO_MEMORY, FAKE_WRONG, FAKE_REMOVED};
    fake.refused = random_below(3) == 0 ? fake.questions + 1 + random_below(2) : 0;
    fake.answer = (enum fake_answer)(1 + random_below(2));
    fake.code = codes[random_below(4)];
}

static void allocates(void) {
    const pilhangko_d3d12_request request = {random_below(100) ? some_size() : 0,
        random_below(100) ? UINT64_C(1) << random_below(18) : random_below(8),
        (pilhangko_location)(random_below(100) ? 1 + random_below(4) : random_below(7)),
        (pilhangko_category)(random_below(100) ? 1 + random_below(3) : random_below(5)), SOME_NAME, 0};
    const pilhangko_heaps_request asks = {request.size, request.alignment, request.location, request.category};
    const uint64_t first = fake.questions;
    const struct foretold f = foretell(&asks);
    struct live it;
    memset(&it, 7, sizeof it);
    it.is_committed = false;
    it.resource = NULL;
    it.alignment = request.alignment;
    const pilhangko_d3d12_result result = pilhangko_d3d12_allocate(&d3d12, &request, &it.allocation);
    IS(result.status, f.status);
    CHECK(result.driver == f.driver && fake.questions == first + f.questions);
    if (f.status == PILHANGKO_OK) {
        keeps(&it);
        allocated++;
    } else {
        CHECK(it.allocation.offset == UINT64_C(0x0707070707070707));
        reply_refusal(f.status);
        refused++;
    }
}

static D3D12_RESOURCE_DESC some_desc(void) {
    const D3D12_RESOURCE_FLAGS flags[] = {D3D12_RESOURCE_FLAG_NONE, TARGET, DEPTH};
    if (random_below(2)) return fake_buffer(some_size());
    D3D12_RESOURCE_DESC desc = fake_texture(1 + random_below(500), 1 + (UINT)random_below(500), flags[random_below(3)]);
    if (random_below(20) == 0) desc.SampleDesc.Count = 4;
    if (random_below(5) == 0) desc.Alignment = FAKE_SMALL;
    return desc;
}

static uint32_t category_by_rule(const D3D12_RESOURCE_DESC *desc) {
    if (desc->Dimension == D3D12_RESOURCE_DIMENSION_BUFFER) return 1;
    return desc->Flags == TARGET || desc->Flags == DEPTH ? 2 : 3;
}

/* The resource has a piece, but the driver refuses to place it: the piece goes again. */
static void is_unplaced(uint64_t heap) {
    struct slot *slot = &account.types[account.type].slots[account.placed.piece.slot];
    if (slot->block == UNTOLD) slot->block = account.placed.piece.block = heap;
    const pilhangko_heaps_piece piece = {account.type, account.placed.piece};
    const long at = heaps_find(&account, &piece);
    CHECK(at >= 0);
    reply_place(&piece);
    CHECK(!type_free(&account.types[account.type], &piece.piece, at) || slot->block == heap);
    reply("ok");
    last_serial++;
    unplaced++;
}

/* The heap whose number would be the next one's: fake_create_heap takes the first that is free. */
static uint64_t next_heap(void) {
    const struct fake_heap *h = fake.heaps;
    while (h->references > 0) h++;
    return (uintptr_t)h;
}

static void places(void) {
    const D3D12_RESOURCE_DESC desc = some_desc();
    pilhangko_d3d12_placement p;
    struct live it;
    memset(&p, 0, sizeof p);
    memset(&it, 0, sizeof it);
    p.location = (pilhangko_location)(1 + random_below(4));
    p.name = SOME_NAME;
    it.alignment = fake_alignment(&desc);
    const pilhangko_heaps_request asks = {fake_size(&desc), it.alignment, p.location, (pilhangko_category)category_by_rule(&desc)};
    const uint64_t first = fake.questions, heap = next_heap();
    struct foretold f = foretell(&asks);
    const bool has_piece = f.status == PILHANGKO_OK;
    const bool is_placed = has_piece && is_answered(&f, PILHANGKO_D3D12_CALL_FAILED, false);
    /* a replay numbers the heap, be it the resource's own and go again */
    const uint64_t number = fake.last_number + 1;
    if (has_piece && !is_placed) ((struct fake_heap *)(uintptr_t)heap)->number = number;
    if (has_piece && !is_placed) is_unplaced(heap);
    const pilhangko_d3d12_result result = pilhangko_d3d12_create_resource(&d3d12, &desc, &p, &it.resource, &it.allocation);
    IS(result.status, f.status);
    CHECK(result.driver == f.driver && fake.questions == first + f.questions);
    if (is_placed) {
        keeps(&it);
        placed++;
    } else {
        CHECK(!it.resource && it.allocation.serial == 0);
        if (!has_piece) reply_refusal(f.status);
        refused++;
    }
}

static void commits(void) {
    const D3D12_RESOURCE_DESC desc = some_desc();
    const uint64_t first = fake.questions;
    pilhangko_d3d12_placement p;
    struct live it;
    memset(&p, 0, sizeof p);
    memset(&it, 0, sizeof it);
    p.location = (pilhangko_location)(1 + random_below(4));
    p.committed = it.is_committed = true;
    p.name = SOME_NAME;
    struct foretold f = {record_request(&account, fake_size(&desc), p.location, category_by_rule(&desc)), 0, S_OK};
    CHECK(f.status == PILHANGKO_OK);
    const bool is_made = is_answered(&f, PILHANGKO_D3D12_CALL_FAILED, false);
    const pilhangko_d3d12_result result = pilhangko_d3d12_create_resource(&d3d12, &desc, &p, &it.resource, &it.allocation);
    IS(result.status, f.status);
    CHECK(result.driver == f.driver && fake.questions == first + f.questions);
    account.awaits_resource = false;
    if (is_made) {
        record_made(&account, (uintptr_t)it.resource);
        it.record = account.asked;
        keeps(&it);
        committed++;
    } else {
        CHECK(!it.resource && it.allocation.serial == 0);
        reply_refusal(f.status);
        refused++;
    }
}

/* A resource of the caller's at bare memory: it is refused where it doesn't fit, and goes again at once. */
static void aliases(void) {
    const struct live *it = &live[random_below(live_count)];
    const pilhangko_d3d12_allocation *a = &it->allocation;
    const D3D12_RESOURCE_DESC desc = fake_buffer(1 + random_below(200000));
    const uint64_t first = fake.questions, offset = random_below(4) ? random_below(4) * 65536 : random_below(300000);
    pilhangko_d3d12_placement p;
    ID3D12Resource *resource = NULL;
    struct foretold f = {PILHANGKO_OK, 0, S_OK};
    if (it->resource && !it->is_committed) return; /* only bare memory's category is any */
    if (account.tier == 1 && !it->is_committed && it->allocation.piece.memory_type % 3 != 0) return;
    memset(&p, 0, sizeof p);
    fake.may_alias = true;
    if (it->is_committed) f.status = PILHANGKO_NOT_LIVE;
    else if (offset > a->size || fake_size(&desc) > a->size - offset || (a->offset + offset) % FAKE_UNIT) f.status = PILHANGKO_D3D12_OUT_OF_RANGE;
    else (void)is_answered(&f, PILHANGKO_D3D12_CALL_FAILED, false);
    const pilhangko_d3d12_result result = pilhangko_d3d12_place_resource(&d3d12, a, offset, &desc, &p, &resource);
    IS(result.status, f.status);
    CHECK(result.driver == f.driver && fake.questions == first + f.questions && (resource != NULL) == (f.status == PILHANGKO_OK));
    fake.may_alias = false;
    if (!resource) return;
    CHECK(fake_resource_of(resource)->offset == a->offset + offset && fake_resource_of(resource)->heap == fake_heap_of(a->heap));
    ID3D12Resource_Release(resource);
    aliased++;
}

/* A second place for a live one, which then is live beside it: the account's in a slot above. */
static void moves_one(void) {
    const struct live *from = &live[random_below(live_count)];
    const pilhangko_d3d12_allocation a = from->allocation;
    const size_t type = a.piece.memory_type;
    const pilhangko_d3d12_request request = {random_below(20) ? a.size : a.size + 1, from->is_committed ? 1 : from->alignment,
        (pilhangko_location)(2 + (account.tier == 1 ? type / 3 : type)), (pilhangko_category)(account.tier == 1 ? 1 + type % 3 : 1), SOME_NAME, 0};
    const pilhangko_memory_request asks = {a.size, request.alignment, PILHANGKO_KIND_LINEAR, false};
    const pilhangko_status valid = request.size == a.size ? PILHANGKO_OK : PILHANGKO_INVALID;
    const pilhangko_status status = from->is_committed ? (pilhangko_status)PILHANGKO_NOT_LIVE : valid;
    const uint64_t first = fake.questions, word = from->word;
    struct live it;
    bool moves = true;
    memset(&it, 0, sizeof it);
    it.alignment = request.alignment;
    if (status == PILHANGKO_OK) account.type = type;
    const bool wanted =
        status == PILHANGKO_OK && type_place(&account.types[type], a.piece.piece.slot + 1, &asks, "", &account.placed.piece);
    IS(pilhangko_d3d12_propose_move(&d3d12, &a, &request, &moves, &it.allocation), status);
    CHECK(fake.questions == first);
    if (status != PILHANGKO_OK || !wanted) {
        CHECK(moves == (status != PILHANGKO_OK) && it.allocation.serial == 0);
        stayed += status == PILHANGKO_OK;
        if (status == PILHANGKO_OK) reply_no_place();
        return;
    }
    CHECK(moves && pilhangko_d3d12_user_data(&d3d12, &it.allocation, &it.word) == PILHANGKO_OK && it.word == word);
    keeps(&it);
    moved++;
}

static pilhangko_status frees_one(const struct live *it, const pilhangko_d3d12_allocation *a) {
    return it->resource ? pilhangko_d3d12_destroy_resource(&d3d12, it->resource, a) : pilhangko_d3d12_free(&d3d12, a);
}

/* Frees a live one; its heap goes where the account's does. */
static void frees_live(size_t index) {
    const struct live it = live[index];
    const size_t heaps = fake.heap_count;
    uint64_t word = 0;
    bool goes = false;
    IS(pilhangko_d3d12_user_data(&d3d12, &it.allocation, &word), PILHANGKO_OK);
    CHECK(word == it.word);
    if (it.is_committed) {
        CHECK(record_forgotten(&account, &it.record));
    } else {
        const pilhangko_heaps_piece *p = &it.allocation.piece;
        const long at = heaps_find(&account, p);
        CHECK(at >= 0);
        goes = type_free(&account.types[p->memory_type], &p->piece, at);
    }
    IS(frees_one(&it, &it.allocation), PILHANGKO_OK);
    CHECK(fake.heap_count == heaps - goes);
    reply("ok");
    live[index] = live[--live_count];
    stale[random_below(STALE)] = it.allocation;
    freed++;
}

static void frees(void) {
    if (live_count == 0 || random_below(10) == 0) {
        const pilhangko_d3d12_allocation *old = &stale[random_below(STALE)];
        IS(pilhangko_d3d12_free(&d3d12, old), PILHANGKO_NOT_LIVE);
        IS(pilhangko_d3d12_destroy_resource(&d3d12, (ID3D12Resource *)(void *)&fake, old), PILHANGKO_NOT_LIVE);
        not_live++;
    } else {
        frees_live(random_below(live_count));
    }
}

/* ---- moves over frames */

static pilhangko_d3d12_allocation some_allocation(void) {
    if (live_count > 0 && random_below(10)) return live[random_below(live_count)].allocation;
    return stale[random_below(STALE)];
}

/* The index of a live allocation, or the count of all. */
static size_t live_at(const pilhangko_d3d12_allocation *a) {
    size_t i = 0;
    while (i < live_count && live[i].allocation.serial != a->serial) i++;
    return i;
}

/* A committed resource stays. */
static bool may_move(const struct live *it) {
    return !it->is_committed;
}

static pilhangko_kind kind_of(const struct live *it) {
    (void)it;
    return PILHANGKO_KIND_LINEAR;
}

static pilhangko_d3d12_request request_again(const struct live *it) {
    const size_t type = it->allocation.piece.memory_type;
    const pilhangko_d3d12_request request = {it->allocation.size, it->alignment, (pilhangko_location)(2 + (account.tier == 1 ? type / 3 : type)),
        (pilhangko_category)(account.tier == 1 ? 1 + type % 3 : 1), SOME_NAME, 0};
    return request;
}

static void keeps_second(struct live *it) {
    uint64_t word = 0;
    it->resource = NULL;
    IS(pilhangko_d3d12_user_data(&d3d12, &it->allocation, &word), PILHANGKO_OK);
    CHECK(word == it->word);
    keeps(it);
}

static void goes_by_account(size_t index) {
    const pilhangko_heaps_piece *p = &live[index].allocation.piece;
    if (live[index].resource) ID3D12Resource_Release(live[index].resource);
    type_free(&account.types[p->memory_type], &p->piece, heaps_find(&account, p));
}

#define NAMED(rest) pilhangko_d3d12##rest
#define BYTES_OF(request) ((request)->size)
#define BINDING (&d3d12)
#define CAPACITY heaps_capacity(&account)
#include "defragment_random.h"

/* ---- what else may become of an allocation */

static void renames(void) {
    const char *name = random_below(10) ? SOME_NAME : "\xff";
    if (live_count == 0) return;
    const struct live *it = &live[random_below(live_count)];
    const bool is_text = !name || strcmp(name, "\xff");
    const pilhangko_status status = pilhangko_d3d12_rename(&d3d12, &it->allocation, name);
    IS(status, !is_text ? PILHANGKO_INVALID : it->is_committed ? PILHANGKO_NOT_LIVE : PILHANGKO_OK);
    if (status != PILHANGKO_OK) return;
    reply("ok");
    renamed++;
}

/* ---- bounds */

static void sets_budget(void) {
    const uint32_t type = (uint32_t)random_below(account.type_count + 1);
    const bool has_budget = random_below(3) != 0;
    const uint64_t bytes = random_below(100 * MB);
    IS(pilhangko_d3d12_set_budget(&d3d12, type, has_budget, bytes), type < account.type_count ? PILHANGKO_OK : PILHANGKO_NO_SUCH_TYPE);
    if (type == account.type_count) return;
    account.types[type].has_budget = has_budget;
    account.types[type].budget = has_budget ? bytes : 0;
}

/* GPU_ONLY's memory types, the first third, are in group 0. */
static size_t group_by_rule(size_t type) {
    return fake.is_unified || type < account.type_count / 3 ? 0 : 1;
}

static void updates_budgets(void) {
    for (size_t i = 0; i < 2; i++) {
        fake.usage[i] = random_below(300 * MB);
        fake.budget[i] = random_below(500 * MB);
    }
    fake.tells_budgets = random_below(10) != 0;
    IS(pilhangko_d3d12_update_budgets(&d3d12), fake.tells_budgets ? PILHANGKO_OK : PILHANGKO_D3D12_NO_BUDGETS);
    for (size_t i = 0; i < account.type_count && fake.tells_budgets; i++) {
        const size_t group = group_by_rule(i);
        const uint64_t left = fake.budget[group] > fake.usage[group] ? fake.budget[group] - fake.usage[group] : 0;
        account.types[i].has_budget = true;
        account.types[i].budget = type_capacity(&account.types[i]) + left;
    }
}

/* ---- what is told is the account's, and what the device holds */

static void looks_at_types(void) {
    for (uint32_t i = 0; i < account.type_count; i++) {
        pilhangko_type_statistics counted;
        pilhangko_heaps_committed_statistics records;
        pilhangko_budget budget;
        IS(pilhangko_heaps_type_statistics(pilhangko_d3d12_allocator(&d3d12), i, &counted), PILHANGKO_OK);
        CHECK(counted.capacity == type_capacity(&account.types[i]) && counted.shared_blocks == shared_blocks(&account.types[i]));
        IS(pilhangko_heaps_committed_of(pilhangko_d3d12_allocator(&d3d12), i, &records), PILHANGKO_OK);
        CHECK(records.count == account.records[i].count && records.bytes == account.records[i].bytes);
        IS(pilhangko_d3d12_budget(&d3d12, i, &budget), PILHANGKO_OK);
        CHECK(budget.exists == account.types[i].has_budget && budget.bytes == (budget.exists ? account.types[i].budget : 0));
    }
}

static void looks_at_groups(void) {
    for (uint32_t group = 0; group < 2; group++) {
        pilhangko_d3d12_group read;
        IS(pilhangko_d3d12_read_group(&d3d12, group, &read), PILHANGKO_OK);
        CHECK(read.has_budget == fake.tells_budgets && read.usage == (fake.tells_budgets ? fake.usage[group] : 0));
        for (size_t i = 0; i < account.type_count; i++) {
            if (group_by_rule(i) != group) continue;
            read.held -= type_capacity(&account.types[i]);
            read.committed -= account.records[i].bytes;
        }
        CHECK(read.held == 0 && read.committed == 0);
    }
}

static void looks(void) {
    UINT64 capacity = 0, held = 0;
    size_t resources = 0;
    looks_at_types();
    looks_at_groups();
    for (size_t i = 0; i < FAKE_THINGS; i++) held += fake.heaps[i].references > 0 ? fake.heaps[i].desc.SizeInBytes : 0;
    for (size_t i = 0; i < live_count; i++) resources += live[i].resource != NULL;
    IS(pilhangko_d3d12_capacity(&d3d12, &capacity), PILHANGKO_OK);
    CHECK(capacity == held && capacity == heaps_capacity(&account) && resources == fake.resource_count);
}

/* How many allocations there are comes and goes, so that heaps do. */
static void step(void) {
    static size_t target;
    const uint64_t what = random_below(1000);
    plans_refusal();
    if (random_below(300) == 0) target = random_below(LIVE);
    if (what >= 900) {
        if (what < 950) renames();
        else if (what < 970 && live_count > 0) aliases();
        else if (what < 985) looks();
        else if (what < 997) sets_budget();
        else updates_budgets();
    } else if (live_count > 0 && live_count < LIVE && what >= 840) {
        moves_one();
    } else if (what >= 790 && what < 796) {
        proposes_frame();
    } else if (what >= 796 && what < 820) {
        ends_move();
    } else if (live_count < LIVE && what < (live_count < target ? 720 : 180)) {
        if (what % 3 == 0) allocates();
        else if (what % 12 == 1) commits();
        else places();
    } else {
        frees();
    }
}

/* ---- runs */

static bool writes(void *user, const char *bytes, size_t length) {
    return fwrite(bytes, 1, length, (FILE *)user) == length;
}

static void begins(uint32_t tier, FILE *capture) {
    pilhangko_d3d12_settings settings = fake_settings();
    const pilhangko_heaps_settings sizes = {tier, settings.device_block_size, settings.device_block_size, settings.host_block_size,
        settings.largest_host_block_size};
    fake_begin(tier);
    fake.is_unified = random_below(2);
    settings.capture_write = capture ? writes : NULL;
    settings.capture_user = capture;
    live_count = last_serial = 0;
    memset(stale, 0, sizeof stale);
    memset(captured_budgets, 0, sizeof captured_budgets);
    begins_moves();
    heaps_begin(&account, &sizes);
    IS(pilhangko_d3d12_create(&d3d12, &settings).status, PILHANGKO_OK);
    reply("ok");
}

/* Some allocations leak; their heaps go back to the driver all the same, once their resources are released. */
static void ends(void) {
    pilhangko_d3d12_ending ending;
    ends_moves();
    looks();
    while (live_count > 7) frees_live(live_count - 1);
    for (size_t i = 0; i < live_count; i++)
        if (live[i].resource) ID3D12Resource_Release(live[i].resource);
    size_t records = 0;
    for (size_t i = 0; i < live_count; i++) records += live[i].is_committed;
    IS(pilhangko_d3d12_destroy(&d3d12, &ending), PILHANGKO_OK);
    CHECK(ending.leaks == live_count && fake.heap_count == 0 && fake.resource_count == 0 && fake.references == 1);
    CHECK(ending.capture.end == (replies ? PILHANGKO_D3D12_CAPTURE_WHOLE : PILHANGKO_D3D12_CAPTURE_NONE));
    reply_budgets();
    if (replies) fprintf(replies, "held %zu\n", records); /* a replay never releases these */
    CHECK(heap_held == 0);
}

static void captured_run(uint32_t tier, const char *capture_name, const char *replies_name) {
    FILE *capture = fopen(capture_name, "wb");
    replies = fopen(replies_name, "wb");
    CHECK(capture && replies);
    random_state = 77 + tier;
    begins(tier, capture);
    for (unsigned i = 0; i < 6000; i++) step();
    ends();
    CHECK(fclose(capture) == 0 && fclose(replies) == 0);
    replies = NULL;
}

int main(int count, char **words) {
    for (unsigned run = 0; run < 4; run++) {
        random_state = run;
        begins(1 + run % 2, NULL);
        for (unsigned i = 0; i < 50000; i++) step();
        ends();
    }
    printf("200000 calls: %u allocated, %u placed, %u committed, %u refused, %u unplaced, %u aliased, %u freed, %u not live, %u renamed, "
           "%u moved, %u stayed, ",
        allocated, placed, committed, refused, unplaced, aliased, freed, not_live, renamed, moved, stayed);
    tells_of_moves();
    CHECK(allocated > 5000 && placed > 5000 && committed > 1000 && refused > 5000 && unplaced > 500 && aliased > 50);
    CHECK(freed > 15000 && not_live > 1000 && renamed > 1000 && moved > 500 && stayed > 500);
    for (int i = 1; i + 1 < count; i += 2) captured_run((uint32_t)(i + 1) / 2, words[i], words[i + 1]);
    return 0;
}
