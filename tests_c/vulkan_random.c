/* 200,000 random calls of the Vulkan binding over a fake driver that refuses some of its questions, each beside a plain account: every
 * status, place and number has to be the account's, and what the driver holds the account's blocks. A shorter run is captured; given the
 * names of two files, the capture goes to the first, and to the second what gpu_trace has to reply to it. */
#include "fake_vulkan.h"
#include "refusing_heap.h"
#include "vulkan_replies.h"

#define LIVE 300
#define UNTOLD UINT64_MAX /* the number of a block in the account before an allocation in it has told it */
#define STALE 64

/* A live allocation, and the buffer or image that is bound to it, if one is. */
struct live {
    pilhangko_vulkan_allocation allocation;
    VkBuffer buffer;
    VkImage image;
    uint64_t alignment;
    uint32_t kind;
};

static pilhangko_vulkan vulkan;
static struct allocator_account account;
static VkDeviceMemory slot_memory[ACCOUNT_TYPES][ACCOUNT_SLOTS];
static struct live live[LIVE];
static size_t live_count;
static pilhangko_vulkan_allocation stale[STALE];
static uint64_t last_serial;
static struct replies replies; /* what the captured calls came to */
static unsigned allocated, made, refused, second_attempts, freed, not_live, renamed, flushed, shared_after_all, moved, stayed;
static unsigned chained, flagged, dearer;

static const char *const names[] = {NULL, "", "vertices", "a name that takes host memory of its own", "\xc3\xa9t\xc3\xa9 2",
    "a name of more than sixty-four bytes, which no trace can have as it stands here"};
#define SOME_NAME names[random_below(6)]

/* ---- an allocation, foretold */

/* What the driver's refusal of memory is to the allocator; PILHANGKO_OK where it grants. */
static pilhangko_status memory_status(uint64_t question) {
    const struct fake_refusal *r = fake_refusal_of(question);
    if (!r) return PILHANGKO_OK;
    if (r->answer == FAKE_REFUSES) return r->code == VK_ERROR_OUT_OF_DEVICE_MEMORY ? PILHANGKO_OUT_OF_MEMORY : PILHANGKO_DRIVER_REFUSED;
    return PILHANGKO_OUT_OF_MEMORY;
}

struct foretold {
    pilhangko_status status;
    uint64_t questions; /* those that the driver will be asked */
    VkResult driver;
};

static void foretell_answer(struct foretold *f, uint64_t first) {
    pilhangko_status answer = memory_status(first + ++f->questions);
    if (answer == PILHANGKO_OK && (account.flags[account.type] & 2) && fake_refusal_of(first + ++f->questions))
        answer = PILHANGKO_FAILED_TO_MAP;
    if (answer == PILHANGKO_OK) {
        account_granted(&account, UNTOLD);
        slot_memory[account.type][account.placed.piece.slot] = VK_NULL_HANDLE;
        return;
    }
    const struct fake_refusal *r = fake_refusal_of(first + f->questions);
    if (r->answer == FAKE_REFUSES) f->driver = r->code;
    f->status = account_refused(&account, answer);
}

/* What the account makes of a request whose first question would be the one behind `first`; flags choose where there are some. */
static struct foretold foretell(const pilhangko_allocator_request *request, const pilhangko_preference *flags, uint64_t first) {
    replies_look(&replies);
    struct foretold f = {flags ? account_begin_by_flags(&account, request, "", flags) : account_begin_request(&account, request, ""), 0, VK_SUCCESS};
    while (f.status == PILHANGKO_OK && account.awaits_answer) foretell_answer(&f, first);
    if (f.status == PILHANGKO_OK) f.driver = VK_SUCCESS;
    return f;
}

/* No other block has that number or that memory. */
static void is_new_block(uint64_t block, VkDeviceMemory memory) {
    CHECK(block != UNTOLD);
    for (size_t i = 0; i < account.type_count; i++)
        for (size_t j = 0; j < account.types[i].slot_count; j++)
            CHECK(!account.types[i].slots[j].exists || (account.types[i].slots[j].block != block && slot_memory[i][j] != memory));
}

/* The allocation is the account's, and the next one made. It is the first to tell of a new block its number and its memory. */
static void meets(const pilhangko_vulkan_allocation *a) {
    const pilhangko_memory_piece *p = &a->piece.piece;
    const size_t at = account.placed.piece.slot;
    struct slot *slot = &account.types[account.type].slots[at];
    CHECK(a->serial == ++last_serial);
    if (slot->block == UNTOLD) {
        is_new_block(p->block, a->memory);
        slot->block = account.placed.piece.block = p->block;
        slot_memory[account.type][at] = a->memory;
    }
    CHECK(same_allocation(&account, &a->piece));
    CHECK(a->offset == p->offset && a->size == p->size && a->memory == slot_memory[account.type][p->slot]);
    const struct fake_memory *memory = fake_memory_of(a->memory);
    CHECK(memory->size == slot->account.size && memory->type == account.type && memory->has_address);
    unsigned char *bytes = pilhangko_vulkan_mapped(&vulkan, a);
    CHECK(bytes == (a->piece.address ? memory->bytes + a->offset : NULL));
    if (bytes) bytes[0] = bytes[a->size - 1] = 1; /* within the memory, or the sanitizer stops here */
}

/* Aligned, within its block, and apart from each live one; those of different kinds share no page. */
static void is_apart(const struct live *it) {
    const pilhangko_vulkan_allocation *a = &it->allocation;
    CHECK(a->offset % it->alignment == 0);
    for (size_t i = 0; i < live_count; i++) {
        const pilhangko_vulkan_allocation *b = &live[i].allocation;
        if (b->memory != a->memory) continue;
        const pilhangko_vulkan_allocation *low = a->offset < b->offset ? a : b, *high = low == a ? b : a;
        CHECK(low->offset + low->size <= high->offset);
        if (live[i].kind != it->kind) CHECK((low->offset + low->size - 1) / FAKE_GRANULARITY != high->offset / FAKE_GRANULARITY);
    }
}

static void keeps(const struct live *it) {
    is_apart(it);
    live[live_count++] = *it;
}

/* Where a memory type that is allowed needs flushes, whole atoms are an allocation's own. */
static uint64_t raised(uint64_t alignment, uint32_t bits) {
    bool is_power = alignment && !(alignment & (alignment - 1));
    return is_power && alignment < FAKE_ATOM && (bits >> 3 & 1) ? FAKE_ATOM : alignment;
}

/* An alignment that was asked for beside the needed one, or 0. Where one is no power of two there is none by both. */
static uint64_t by_both(uint64_t needed, uint64_t wanted) {
    const bool are_powers = needed && wanted && !(needed & (needed - 1)) && !(wanted & (wanted - 1));
    if (wanted == 0) return needed;
    return !are_powers ? 0 : needed < wanted ? wanted : needed;
}

static const VkMemoryPriorityAllocateInfoEXT priority = {VK_STRUCTURE_TYPE_MEMORY_PRIORITY_ALLOCATE_INFO_EXT, NULL, 0.25F};

/* What a request may ask for beside what is needed. */
struct more {
    VkDeviceSize alignment;
    uint32_t bits;
    const void *next;
    pilhangko_location location;
    pilhangko_preference told; /* its flags, which choose where it has some */
    bool by_flags, is_own;
    pilhangko_preference chosen; /* the flags that choose */
};

/* At times flags choose the memory, the request's own or those of a location of the binding's. */
static void some_flags(struct more *more) {
    const uint64_t way = random_below(10);
    const pilhangko_preference flags = {(uint32_t)(random_below(16) & random_below(16)), (uint32_t)random_below(16), (uint32_t)random_below(16), false},
                               staging = {6, 0, 9, false}, transient = {1, 16, 0, false};
    const bool never = random_below(4) == 0;
    more->location = random_below(100) ? 1 + (uint32_t)random_below(4) : (uint32_t)random_below(5);
    if (way > 3) return;
    more->by_flags = true;
    if (way == 0) more->location = PILHANGKO_VULKAN_LOCATION_STAGING;
    if (way == 1) more->location = PILHANGKO_VULKAN_LOCATION_TRANSIENT;
    if (way > 1) more->location = (uint32_t)random_below(random_below(20) ? 2 : 7);
    if (way > 1) more->told = flags;
    more->told.never_allocate = never;
    more->chosen = way == 0 ? staging : way == 1 ? transient : flags;
    more->chosen.never_allocate = never;
    more->is_own = way == 1;
    if (way > 1) more->by_flags = flags.required || flags.preferred || flags.avoided || never;
}

/* The location that the allocator is asked with: 0, which is none, where both a location and flags are told. */
static pilhangko_location asked_location(const struct more *more) {
    const bool is_ours = more->location == PILHANGKO_VULKAN_LOCATION_STAGING || more->location == PILHANGKO_VULKAN_LOCATION_TRANSIENT;
    const bool has_flags = more->told.required || more->told.preferred || more->told.avoided;
    if (is_ours) return has_flags ? (pilhangko_location)0 : PILHANGKO_LOCATION_UNKNOWN;
    if (!more->by_flags) return more->location;
    return more->location <= PILHANGKO_LOCATION_UNKNOWN ? PILHANGKO_LOCATION_UNKNOWN : (pilhangko_location)0;
}

static struct more some_more(void) {
    struct more more;
    memset(&more, 0, sizeof more);
    some_flags(&more);
    if (random_below(5) == 0) more.alignment = random_below(50) ? UINT64_C(1) << random_below(14) : random_below(8);
    if (random_below(5) == 0) more.bits = (uint32_t)random_below(64);
    if (random_below(20) == 0) more.next = &priority;
    more.is_own = more.is_own || more.next;
    chained += more.next != NULL;
    return more;
}

static void counts_flags(const struct more *more) {
    if (!more->by_flags) return;
    flagged++;
    account.left = account.request.memory_type_bits;
    dearer += type_cost(&account, cheapest_type(&account)) < type_cost(&account, account.type);
}

static uint32_t by_both_bits(uint32_t needed, uint32_t wanted) {
    return wanted ? needed & wanted : needed;
}

/* The chain was handed on: all that has one lies in memory of its own. */
static void is_chained(const pilhangko_vulkan_allocation *a, const void *next) {
    CHECK(fake_memory_of(a->memory)->priority == (next ? priority.priority : 0.0F));
}

static uint64_t some_size(void) {
    const uint64_t large = random_below(60);
    return 1 + random_below(large == 0 ? 9 * MB : large == 1 ? 30 * MB : large < 20 ? 3 * MB : 200000);
}

/* some of the next questions will be refused */
static void plans_refusals(void) {
    const VkResult codes[] = {VK_ERROR_OUT_OF_DEVICE_MEMORY, VK_ERROR_OUT_OF_HOST_MEMORY, VK_ERROR_TOO_MANY_OBJECTS, VK_ERROR_DEVICE_LOST,
        VK_ERROR_MEMORY_MAP_FAILED};
    for (size_t i = 0; i < 2; i++) {
        fake.refusals[i].question = random_below(2) == 0 ? fake.questions + 1 + random_below(4) : 0;
        fake.refusals[i].answer = (enum fake_answer)(1 + random_below(2));
        fake.refusals[i].code = codes[random_below(5)];
    }
    if (fake.refusals[0].question == fake.refusals[1].question) fake.refusals[1].question = 0;
}

static void allocates(void) {
    pilhangko_vulkan_request request;
    memset(&request, 0, sizeof request);
    request.requirements.size = random_below(100) ? some_size() : 0;
    request.requirements.alignment = random_below(100) ? UINT64_C(1) << random_below(13) : random_below(8);
    request.requirements.memoryTypeBits = random_below(3) ? 31 : (uint32_t)random_below(32);
    struct more more = some_more();
    if (random_below(10) == 0 && !more.by_flags) { /* memory that needs flushes */
        request.requirements.memoryTypeBits = 8;
        more.location = PILHANGKO_LOCATION_UNKNOWN;
    }
    request.location = more.location;
    request.kind = random_below(100) ? 1 + (uint32_t)random_below(2) : (uint32_t)random_below(4);
    request.scheme = PILHANGKO_SCHEME_MANAGED;
    request.name = SOME_NAME;
    request.required_flags = more.told.required;
    request.preferred_flags = more.told.preferred;
    request.avoided_flags = more.told.avoided;
    request.never_allocate = more.told.never_allocate;
    request.minimal_alignment = more.alignment;
    request.memory_type_bits = more.bits;
    request.next = more.next;
    const uint32_t bits = by_both_bits(request.requirements.memoryTypeBits, more.bits);
    const uint64_t alignment = raised(by_both(request.requirements.alignment, more.alignment), bits);
    const bool dedicated = more.is_own;
    pilhangko_allocator_request asks = {request.requirements.size, alignment, bits, request.kind, asked_location(&more),
        dedicated ? PILHANGKO_SCHEME_BUFFER : PILHANGKO_SCHEME_MANAGED, 0};
    struct live it = {
        {VK_NULL_HANDLE, 1, 2, true, {3, false, {4, 5, 6, 7, 8}}, 11, 9, 10}, VK_NULL_HANDLE, VK_NULL_HANDLE, alignment, request.kind};
    uint64_t first = fake.questions;
    struct foretold f = foretell(&asks, more.by_flags ? &more.chosen : NULL, first);
    pilhangko_vulkan_result result = pilhangko_vulkan_allocate(&vulkan, &request, &it.allocation);
    IS(result.status, f.status);
    CHECK(result.driver == f.driver && fake.questions == first + f.questions);
    if (f.status == PILHANGKO_OK) {
        meets(&it.allocation);
        is_chained(&it.allocation, more.next);
        CHECK(it.allocation.dedicated == dedicated);
        replies_allocation(&replies, &it.allocation.piece, dedicated);
        keeps(&it);
        allocated++;
        second_attempts += !more.by_flags && account.is_second;
        counts_flags(&more);
    } else {
        CHECK(it.allocation.offset == 1 && it.allocation.piece.piece.number == 5 && it.allocation.serial == 9);
        replies_refusal(&replies, f.status);
        refused++;
    }
}

/* ---- buffers and images */

static pilhangko_vulkan_result create(bool is_image, uint64_t bytes, const pilhangko_vulkan_placement *placement, struct live *it) {
    if (is_image) {
        VkImageCreateInfo info;
        memset(&info, 0, sizeof info);
        info.sType = VK_STRUCTURE_TYPE_IMAGE_CREATE_INFO;
        info.extent.width = (uint32_t)bytes;
        info.tiling = it->kind == PILHANGKO_KIND_LINEAR ? VK_IMAGE_TILING_LINEAR : VK_IMAGE_TILING_OPTIMAL;
        return pilhangko_vulkan_create_image(&vulkan, &info, placement, &it->image, &it->allocation);
    }
    VkBufferCreateInfo info;
    memset(&info, 0, sizeof info);
    info.sType = VK_STRUCTURE_TYPE_BUFFER_CREATE_INFO;
    info.size = bytes;
    return pilhangko_vulkan_create_buffer(&vulkan, &info, placement, &it->buffer, &it->allocation);
}

/* The resource has a piece, but the driver refuses to bind it: the piece goes again. */
static void is_unbound(void) {
    const pilhangko_allocator_piece piece = {account.type, (account.flags[account.type] & 2) != 0, account.placed.piece};
    const long at = allocator_find(&account, &piece);
    CHECK(at >= 0);
    replies_allocation(&replies, &piece, account.request.scheme != PILHANGKO_SCHEME_MANAGED);
    type_free(&account.types[account.type], &piece.piece, at);
    replies_line(&replies, "ok");
    last_serial++;
}

/* The driver's preference for memory of its own was refused: the resource shares. */
static void foretell_shared(
    const pilhangko_allocator_request *asks, const pilhangko_preference *flags, uint64_t first, struct foretold *f) {
    pilhangko_allocator_request shared = *asks;
    replies_refusal(&replies, f->status);
    shared.scheme = PILHANGKO_SCHEME_MANAGED;
    const struct foretold again = foretell(&shared, flags, first + f->questions);
    f->status = again.status;
    f->questions += again.questions;
    if (again.status == PILHANGKO_OK || again.driver != VK_SUCCESS) f->driver = again.driver;
    shared_after_all += again.status == PILHANGKO_OK;
}

/* What the driver will make of a resource: f is what becomes of its memory. */
static struct foretold foretell_resource(const pilhangko_allocator_request *asks, const pilhangko_preference *flags, bool may_share) {
    const uint64_t first = fake.questions;
    const struct fake_refusal *refusal = fake_refusal_of(first + 1);
    struct foretold f = {PILHANGKO_VULKAN_CALL_FAILED, 1, VK_SUCCESS};
    if (refusal) {
        if (refusal->answer == FAKE_REFUSES) f.driver = refusal->code;
        return f;
    }
    f = foretell(asks, flags, first + 1);
    f.questions++;
    if (f.status != PILHANGKO_OK && may_share) foretell_shared(asks, flags, first, &f);
    if (f.status != PILHANGKO_OK) {
        replies_refusal(&replies, f.status);
        return f;
    }
    refusal = fake_refusal_of(first + ++f.questions);
    if (!refusal) return f;
    f.status = PILHANGKO_VULKAN_CALL_FAILED;
    f.driver = refusal->answer == FAKE_REFUSES ? refusal->code : VK_ERROR_OUT_OF_HOST_MEMORY;
    is_unbound();
    return f;
}

static void creates(void) {
    const bool is_image = random_below(2) == 0;
    const uint64_t bytes = some_size();
    const VkMemoryRequirements needs = fake_needs(bytes);
    const struct more more = some_more();
    const pilhangko_vulkan_placement placement = {.location = more.location, .dedicated = random_below(30) == 0, .name = SOME_NAME,
        .minimal_alignment = more.alignment, .memory_type_bits = more.bits, .next = more.next, .required_flags = more.told.required,
        .preferred_flags = more.told.preferred, .avoided_flags = more.told.avoided, .never_allocate = more.told.never_allocate};
    const bool own = placement.dedicated || more.is_own, dedicated = own || fake_requires_dedicated(bytes) || fake_prefers_dedicated(bytes);
    const uint32_t bits = by_both_bits(needs.memoryTypeBits, more.bits);
    const uint32_t scheme = !dedicated ? PILHANGKO_SCHEME_MANAGED : is_image ? PILHANGKO_SCHEME_IMAGE : PILHANGKO_SCHEME_BUFFER;
    const uint64_t first = fake.questions;
    struct live it;
    memset(&it, 0, sizeof it);
    it.kind = is_image && random_below(3) ? PILHANGKO_KIND_NON_LINEAR : PILHANGKO_KIND_LINEAR;
    it.alignment = raised(by_both(needs.alignment, more.alignment), bits);
    const pilhangko_allocator_request asks = {needs.size, it.alignment, bits, it.kind, asked_location(&more), scheme, 0};
    const bool is_preferred = dedicated && !own && (fake.last_handle + 1) % 2 == 1; /* fake_tell_needs */
    const struct foretold f = foretell_resource(&asks, more.by_flags ? &more.chosen : NULL, is_preferred);
    const pilhangko_vulkan_result result = create(is_image, bytes, &placement, &it);
    IS(result.status, f.status);
    CHECK(result.driver == f.driver && fake.questions == first + f.questions);
    if (f.status == PILHANGKO_OK) {
        meets(&it.allocation);
        is_chained(&it.allocation, more.next);
        CHECK(it.allocation.dedicated == (account.request.scheme != PILHANGKO_SCHEME_MANAGED));
        replies_allocation(&replies, &it.allocation.piece, it.allocation.dedicated);
        keeps(&it);
        made++;
        counts_flags(&more);
    } else {
        CHECK(it.buffer == VK_NULL_HANDLE && it.image == VK_NULL_HANDLE && it.allocation.piece.piece.number == 0);
        refused++;
    }
}

/* ---- what else may become of an allocation */

static pilhangko_vulkan_allocation some_allocation(void) {
    if (live_count > 0 && random_below(10)) return live[random_below(live_count)].allocation;
    return stale[random_below(STALE)];
}

/* The index of a live allocation, or the count of all: one that was freed isn't live, though its piece may have come again. */
static size_t live_at(const pilhangko_vulkan_allocation *a) {
    size_t i = 0;
    while (i < live_count && live[i].allocation.serial != a->serial) i++;
    CHECK(i == live_count || allocator_find(&account, &a->piece) >= 0);
    return i;
}

static pilhangko_status frees_one(const struct live *it, const pilhangko_vulkan_allocation *a) {
    if (it->buffer) return pilhangko_vulkan_destroy_buffer(&vulkan, it->buffer, a);
    if (it->image) return pilhangko_vulkan_destroy_image(&vulkan, it->image, a);
    return pilhangko_vulkan_free(&vulkan, a);
}

static void frees(void) {
    const pilhangko_vulkan_allocation a = some_allocation();
    const size_t i = live_at(&a);
    if (i == live_count) {
        IS(pilhangko_vulkan_free(&vulkan, &a), PILHANGKO_NOT_LIVE);
        IS(pilhangko_vulkan_destroy_buffer(&vulkan, (VkBuffer)(uint64_t)9, &a), PILHANGKO_NOT_LIVE);
        CHECK(pilhangko_vulkan_mapped(&vulkan, &a) == NULL);
        not_live++;
        return;
    }
    type_free(&account.types[a.piece.memory_type], &a.piece.piece, allocator_find(&account, &a.piece));
    IS(frees_one(&live[i], &a), PILHANGKO_OK);
    IS(pilhangko_vulkan_free(&vulkan, &a), PILHANGKO_NOT_LIVE);
    replies_line(&replies, "ok");
    stale[random_below(STALE)] = a;
    live[i] = live[--live_count];
    freed++;
}

static void renames(void) {
    const pilhangko_vulkan_allocation a = some_allocation();
    const bool is_live = live_at(&a) < live_count;
    bool told = !is_live;
    IS(pilhangko_vulkan_is_live(&vulkan, &a, &told), PILHANGKO_OK);
    CHECK(told == is_live);
    IS(pilhangko_vulkan_rename(&vulkan, &a, "\xff"), PILHANGKO_INVALID);
    IS(pilhangko_vulkan_rename(&vulkan, &a, SOME_NAME), is_live ? PILHANGKO_OK : PILHANGKO_NOT_LIVE);
    if (is_live) replies_line(&replies, "ok");
    renamed += is_live;
}

/* A second place for an allocation, which then is live beside it: the account's in a slot above. */
static void moves_one(void) {
    const pilhangko_vulkan_allocation a = some_allocation();
    const size_t i = live_at(&a);
    pilhangko_vulkan_request request;
    struct live it;
    bool moves = true;
    memset(&request, 0, sizeof request);
    memset(&it, 0, sizeof it);
    it.kind = i < live_count ? live[i].kind : PILHANGKO_KIND_LINEAR;
    request.requirements.size = random_below(20) ? a.size : a.size + 1;
    request.requirements.alignment = i < live_count ? live[i].alignment : 1;
    request.requirements.memoryTypeBits = random_below(2) ? 31 : 8;
    request.location = 1 + (uint32_t)random_below(4);
    request.kind = it.kind;
    request.scheme = random_below(20) ? PILHANGKO_SCHEME_MANAGED : PILHANGKO_SCHEME_BUFFER;
    request.buffer = (VkBuffer)(uint64_t)9;
    request.name = SOME_NAME;
    it.alignment = raised(request.requirements.alignment, request.requirements.memoryTypeBits);
    const uint64_t first = fake.questions;
    const pilhangko_memory_request asks = {a.size, it.alignment, it.kind, false};
    const bool is_of_it = request.requirements.size == a.size && request.scheme == PILHANGKO_SCHEME_MANAGED;
    const pilhangko_status status = i == live_count ? PILHANGKO_NOT_LIVE : is_of_it ? PILHANGKO_OK : PILHANGKO_INVALID;
    replies_look(&replies);
    if (status == PILHANGKO_OK) account.type = a.piece.memory_type;
    const bool wanted = status == PILHANGKO_OK &&
                        type_place(&account.types[account.type], a.piece.piece.slot + 1, &asks, "", &account.placed.piece);
    IS(pilhangko_vulkan_propose_move(&vulkan, &a, &request, &moves, &it.allocation), status);
    CHECK(fake.questions == first);
    if (status != PILHANGKO_OK) {
        CHECK(moves && it.allocation.serial == 0);
        return;
    }
    CHECK(moves == wanted);
    stayed += !moves;
    if (!moves) {
        CHECK(it.allocation.serial == 0);
        replies_no_place(&replies);
        return;
    }
    meets(&it.allocation);
    CHECK(!it.allocation.dedicated);
    replies_allocation(&replies, &it.allocation.piece, false);
    keeps(&it);
    moved++;
}

/* ---- moves over frames */

static bool may_move(const struct live *it) {
    (void)it;
    return true;
}

static pilhangko_kind kind_of(const struct live *it) {
    return it->kind;
}

static pilhangko_vulkan_request request_again(const struct live *it) {
    pilhangko_vulkan_request request = fake_request(it->allocation.size, it->alignment, 1);
    request.kind = it->kind;
    return request;
}

static void keeps_second(struct live *it) {
    it->buffer = VK_NULL_HANDLE;
    it->image = VK_NULL_HANDLE;
    meets(&it->allocation);
    replies_allocation(&replies, &it->allocation.piece, false);
    keeps(it);
}

static void goes_by_account(size_t index) {
    const pilhangko_allocator_piece *p = &live[index].allocation.piece;
    if (live[index].buffer) fake_destroy_buffer((VkDevice)(uintptr_t)2, live[index].buffer, NULL);
    if (live[index].image) fake_destroy_image((VkDevice)(uintptr_t)2, live[index].image, NULL);
    type_free(&account.types[p->memory_type], &p->piece, allocator_find(&account, p));
}

static void reply(const char *line) {
    replies_line(&replies, line);
}

static void reply_no_place(void) {
    replies_no_place(&replies);
}

#define NAMED(rest) pilhangko_vulkan##rest
#define BYTES_OF(request) ((request)->requirements.size)
#define BINDING (&vulkan)
#define CAPACITY allocator_capacity(&account)
#include "defragment_random.h"

/* A range within the allocation, at times one that isn't. The driver checks that it is whole atoms; it has to cover the bytes. */
static void flushes(void) {
    const pilhangko_vulkan_allocation a = some_allocation();
    const VkDeviceSize offset = random_below(a.size + 2), size = random_below(4) ? random_below(a.size + 2) : VK_WHOLE_SIZE;
    const bool is_live = live_at(&a) < live_count, invalidates = random_below(2) == 0;
    const uint32_t flags = is_live ? account.flags[a.piece.memory_type] : 0;
    const bool is_within = offset <= a.size && (size == VK_WHOLE_SIZE || size <= a.size - offset);
    const VkDeviceSize end = size == VK_WHOLE_SIZE ? a.size : offset + size;
    const bool asks = is_live && (flags & 6) == 2 && is_within && end > offset;
    const struct fake_refusal *refusal = asks ? fake_refusal_of(fake.questions + 1) : NULL;
    const uint64_t first = fake.questions;
    const pilhangko_vulkan_result result =
        invalidates ? pilhangko_vulkan_invalidate(&vulkan, &a, offset, size) : pilhangko_vulkan_flush(&vulkan, &a, offset, size);
    IS(result.status, !is_live       ? PILHANGKO_NOT_LIVE
                      : !(flags & 2) ? PILHANGKO_VULKAN_NOT_MAPPED
                      : !is_within   ? PILHANGKO_VULKAN_OUT_OF_RANGE
                      : refusal      ? PILHANGKO_VULKAN_CALL_FAILED
                                     : (pilhangko_status)PILHANGKO_OK);
    CHECK(fake.questions == first + asks && (result.driver != VK_SUCCESS) == (refusal != NULL));
    if (!asks) return;
    CHECK(fake.range.memory == a.memory && fake.range.offset <= a.offset + offset);
    CHECK(fake.range.offset + fake.range.size >= a.offset + end && fake.range.size < end - offset + 2 * FAKE_ATOM);
    flushed++;
}

static void sets_budget(void) {
    const uint32_t type = (uint32_t)random_below(7);
    const bool has = random_below(2) == 0;
    const uint64_t bytes = random_below(64 * MB);
    pilhangko_budget told;
    IS(pilhangko_vulkan_set_budget(&vulkan, type, has, bytes), type < account.type_count ? PILHANGKO_OK : PILHANGKO_NO_SUCH_TYPE);
    if (type < account.type_count) {
        account.types[type].has_budget = has;
        account.types[type].budget = bytes;
    }
    IS(pilhangko_vulkan_budget(&vulkan, type, &told), PILHANGKO_OK);
    CHECK(told.exists == (type < account.type_count && has) && told.bytes == (told.exists ? bytes : 0));
}

static void sets_limit(void) {
    const uint32_t heap = (uint32_t)random_below(4);
    const bool has = random_below(2) == 0;
    const uint64_t bytes = random_below(100 * MB);
    pilhangko_budget told;
    IS(pilhangko_vulkan_set_heap_limit(&vulkan, heap, has, bytes), heap < 3 ? (pilhangko_status)PILHANGKO_OK : PILHANGKO_VULKAN_NO_SUCH_HEAP);
    if (heap < 3) {
        account.has_limit[heap] = has;
        account.limit[heap] = bytes;
    }
    IS(pilhangko_vulkan_heap_limit(&vulkan, heap, &told), PILHANGKO_OK);
    CHECK(told.exists == (heap < 3 && has) && told.bytes == (told.exists ? bytes : 0));
}

/* Each heap is limited to what it has and what the driver has left of it; the bounds of memory types stay. */
static void updates_budgets(void) {
    fake.usage = random_below(64 * MB);
    fake.budget = random_below(256 * MB);
    IS(pilhangko_vulkan_update_budgets(&vulkan), PILHANGKO_OK);
    for (uint32_t heap = 0; heap < 3; heap++) {
        const uint64_t usage = fake.usage + heap, left = fake.budget > usage ? fake.budget - usage : 0;
        pilhangko_budget told;
        account.has_limit[heap] = true;
        account.limit[heap] = held_in(&account, heap) + left;
        IS(pilhangko_vulkan_heap_limit(&vulkan, heap, &told), PILHANGKO_OK);
        CHECK(told.exists && told.bytes == account.limit[heap]);
    }
}

/* The driver holds the blocks of the account, of each memory type as many and as large. */
static void looks(void) {
    VkDeviceSize capacity = 0, held[3] = {0, 0, 0};
    size_t blocks = 0;
    for (size_t i = 0; i < account.type_count; i++) {
        held[fake_types[i].heapIndex] += type_capacity(&account.types[i]);
        for (size_t j = 0; j < account.types[i].slot_count; j++) blocks += account.types[i].slots[j].exists;
    }
    IS(pilhangko_vulkan_capacity(&vulkan, &capacity), PILHANGKO_OK);
    CHECK(capacity == allocator_capacity(&account) && capacity == held[0] + held[1] + held[2] && blocks == fake.memory_count);
    for (size_t i = 0; i < fake.memory_count; i++) {
        CHECK(fake.memories[i].mapped == ((account.flags[fake.memories[i].type] & 2) != 0));
        held[fake_types[fake.memories[i].type].heapIndex] -= fake.memories[i].size;
    }
    CHECK(held[0] == 0 && held[1] == 0 && held[2] == 0);
    for (uint32_t i = 0; i < 4; i++) {
        pilhangko_vulkan_heap heap;
        IS(pilhangko_vulkan_read_heap(&vulkan, i, &heap), i < 3 ? (pilhangko_status)PILHANGKO_OK : PILHANGKO_VULKAN_NO_SUCH_HEAP);
        if (i == 3) continue;
        CHECK(heap.size == fake_heaps[i].size && heap.flags == fake_heaps[i].flags && heap.has_budget);
        CHECK(heap.usage == fake.usage + i && heap.budget == fake.budget);
        for (size_t j = 0; j < account.type_count; j++)
            if (fake_types[j].heapIndex == i) heap.held -= type_capacity(&account.types[j]);
        CHECK(heap.held == 0);
    }
}

/* How many allocations there are comes and goes, so that blocks do. */
static void step(void) {
    static size_t target;
    const uint64_t what = random_below(1000);
    plans_refusals();
    if (random_below(300) == 0) target = random_below(LIVE);
    if (what >= 880) {
        if (what < 930) flushes();
        else if (what < 970) renames();
        else if (what < 985) looks();
        else if (what < 992) sets_budget();
        else if (what < 998) sets_limit();
        else updates_budgets();
    } else if (live_count < LIVE && what >= 820) {
        moves_one();
    } else if (what >= 790 && what < 796) {
        replies_look(&replies);
        proposes_frame();
    } else if (what >= 796 && what < 820) {
        ends_move();
    } else if (live_count < LIVE && what < (live_count < target ? 700 : 180)) {
        if (what % 3) allocates();
        else creates();
    } else {
        frees();
    }
}

/* ---- runs */

static bool writes(void *user, const char *bytes, size_t length) {
    return fwrite(bytes, 1, length, (FILE *)user) == length;
}

static void begins(FILE *capture, uint32_t most_blocks) {
    pilhangko_vulkan_settings settings = fake_settings();
    fake_begin();
    fake.most_memories = most_blocks;
    account.has_most = most_blocks > 0;
    account.most_blocks = most_blocks;
    account.smaller_blocks = !capture;
    settings.buffer_device_address = settings.memory_budget = true;
    settings.capture_write = capture ? writes : NULL;
    settings.capture_user = capture;
    live_count = last_serial = 0;
    memset(stale, 0, sizeof stale);
    begins_moves();
    replies_begin(&replies, replies.file, &account);
    account.type_count = 5;
    account.heap_count = 3;
    memset(account.has_limit, 0, sizeof account.has_limit);
    account.awaits_answer = false;
    for (size_t i = 0; i < 5; i++) {
        account.flags[i] = fake_types[i].propertyFlags;
        account.heap[i] = fake_types[i].heapIndex;
        account.heap_size[i] = fake_heaps[account.heap[i]].size;
        type_begin(&account.types[i], 4 * MB, account.flags[i] & 2 ? 8 * MB : 4 * MB, FAKE_GRANULARITY);
    }
    IS(pilhangko_vulkan_create(&vulkan, &settings), PILHANGKO_OK);
    replies_line(&replies, "ok");
}

/* Some allocations leak; their blocks go back to the driver all the same. */
static void ends(void) {
    pilhangko_vulkan_ending ending;
    ends_moves();
    looks();
    while (live_count > 7) {
        const struct live it = live[--live_count];
        const pilhangko_allocator_piece *piece = &it.allocation.piece;
        IS(frees_one(&it, &it.allocation), PILHANGKO_OK);
        type_free(&account.types[piece->memory_type], &piece->piece, allocator_find(&account, piece));
        replies_line(&replies, "ok");
    }
    IS(pilhangko_vulkan_destroy(&vulkan, &ending), PILHANGKO_OK);
    CHECK(ending.leaks == live_count && fake.memory_count == 0);
    CHECK(ending.capture.end == (replies.file ? PILHANGKO_VULKAN_CAPTURE_WHOLE : PILHANGKO_VULKAN_CAPTURE_NONE));
    replies_look(&replies);
    replies_bounds(&replies);
    replies_line(&replies, "held 0");
    for (size_t i = 0; i < live_count; i++) { /* the buffers and images of the leaks */
        if (live[i].buffer) fake_destroy_buffer((VkDevice)(uintptr_t)2, live[i].buffer, NULL);
        if (live[i].image) fake_destroy_image((VkDevice)(uintptr_t)2, live[i].image, NULL);
    }
    CHECK(heap_held == 0);
}

static void captured_run(const char *capture_name, const char *replies_name) {
    FILE *capture = fopen(capture_name, "wb");
    replies.file = fopen(replies_name, "wb");
    CHECK(capture && replies.file);
    random_state = 77;
    begins(capture, 12);
    for (unsigned i = 0; i < 6000; i++) step();
    ends();
    CHECK(fclose(capture) == 0 && fclose(replies.file) == 0);
    replies.file = NULL;
}

int main(int count, char **words) {
    for (unsigned run = 0; run < 4; run++) {
        random_state = run;
        begins(NULL, run % 2 * 12);
        for (unsigned i = 0; i < 50000; i++) step();
        ends();
    }
    printf("200000 calls: %u allocated, %u made, %u refused, %u at the second attempt, %u shared after all, %u freed, %u not live, "
           "%u renamed, %u flushed, %u with a chain, %u by flags, %u of these in dearer memory, %u moved, %u stayed, ",
        allocated, made, refused, second_attempts, shared_after_all, freed, not_live, renamed, flushed, chained, flagged, dearer, moved, stayed);
    tells_of_moves();
    CHECK(allocated > 10000 && made > 5000 && refused > 10000 && second_attempts > 200 && freed > 15000 && not_live > 1000);
    CHECK(renamed > 1000 && flushed > 100 && chained > 1000 && flagged > 1000 && dearer > 100 && shared_after_all > 20 && moved > 500 && stayed > 500);
    if (count == 3) captured_run(words[1], words[2]);
    return 0;
}
