/* A target for clang's libFuzzer: an input is a row of calls of five handles of pilhangko.h, each beside a plain account that
 * foretells its status and what it reports. Sizes, alignments, names and pieces may be anything. */
#include "allocator_account.h"
#include "fuzz_handles.h"
#include "ring_account.h"
#include <inttypes.h>
#include <stdarg.h>

#define CALLS 900 /* of one input: the account's rows have room for what they leave */
#define NAME_ROOM 12

size_t fuzz_pieces[5];

/* ---- the input */

static const uint8_t *input;
static size_t input_left;

static uint8_t next_byte(void) {
    if (input_left == 0) return 0;
    input_left--;
    return *input++;
}

static uint64_t next_bytes(unsigned count) {
    uint64_t n = 0;
    while (count-- > 0) n = n << 8 | next_byte();
    return n;
}

/* A number: a small one, one around a power of two, or any. Two calls that take bytes never stand in one expression, whose order a compiler
 * may choose: a row means the same calls to each. */
static uint64_t next_number(void) {
    const uint8_t how = next_byte();
    if (how < 100) return next_byte();
    if (how < 160) return next_bytes(3);
    if (how >= 240) return next_bytes(8);
    const uint64_t power = UINT64_C(1) << next_byte() % 64;
    return power + next_byte() % 5 - 2;
}

/* Some of whole 256 or 65,536 bytes. */
static uint64_t next_size(void) {
    const uint64_t number = next_number();
    return number << next_byte() % 3 * 8;
}

static uint64_t next_alignment(void) {
    return next_byte() % 16 ? UINT64_C(1) << next_byte() % 64 : next_number();
}

static uint32_t next_small(uint32_t count) {
    return next_byte() % count;
}

/* names of their own for the account, which keeps pointers */
static char name_pool[CALLS][NAME_ROOM + 1];
static size_t names_taken;

static const char *next_name(void) {
    static const char *const common[] = {NULL, "", "vertices", "a name that takes host memory of its own"};
    const uint8_t how = next_byte();
    if (how < 200) return common[how % 4];
    char *name = name_pool[names_taken++];
    const size_t length = how % (NAME_ROOM + 1);
    for (size_t i = 0; i < length; i++) name[i] = (char)next_byte();
    name[length] = 0;
    return name;
}

static bool is_between(uint8_t byte, uint8_t least, uint8_t most) {
    return byte >= least && byte <= most;
}

/* How many bytes the character that begins here has, by the Unicode standard's table of well-formed UTF-8; 0 where there is none. A byte
 * behind a text is 0, which goes on no character. */
static size_t character_length(const uint8_t *b) {
    if (b[0] < 0x80) return 1;
    if (is_between(b[0], 0xc2, 0xdf)) return is_between(b[1], 0x80, 0xbf) ? 2 : 0;
    if (is_between(b[0], 0xe0, 0xef)) {
        if (!is_between(b[1], b[0] == 0xe0 ? 0xa0 : 0x80, b[0] == 0xed ? 0x9f : 0xbf)) return 0;
        return is_between(b[2], 0x80, 0xbf) ? 3 : 0;
    }
    if (!is_between(b[0], 0xf0, 0xf4)) return 0;
    if (!is_between(b[1], b[0] == 0xf0 ? 0x90 : 0x80, b[0] == 0xf4 ? 0x8f : 0xbf)) return 0;
    return is_between(b[2], 0x80, 0xbf) && is_between(b[3], 0x80, 0xbf) ? 4 : 0;
}

static bool is_utf8(const char *name) {
    size_t step = 1;
    for (const uint8_t *at = (const uint8_t *)name; name && *at && step; at += step) step = character_length(at);
    return step != 0;
}

static bool is_power(uint64_t n) {
    return n && !(n & (n - 1));
}

/* ---- a virtual block */

static pilhangko_virtual_block block;
static struct account block_account;
static bool has_block;

static pilhangko_status block_status(pilhangko_status status) {
    return has_block ? status : PILHANGKO_NO_HANDLE;
}

static void creates_block(void) {
    const uint64_t size = next_number(), page = next_alignment();
    const pilhangko_status status = has_block ? PILHANGKO_IN_USE : !size || !is_power(page) ? PILHANGKO_INVALID : PILHANGKO_OK;
    IS(pilhangko_virtual_block_create(&block, size, page), status);
    if (status != PILHANGKO_OK) return;
    has_block = true;
    account_begin(&block_account, size, page);
}

static void allocates_in_block(void) {
    const uint64_t size = next_number(), alignment = next_alignment();
    const pilhangko_virtual_request r = {size, alignment, 1 + next_small(3)};
    const char *name = next_name();
    pilhangko_virtual_piece piece = {3, 3}, wanted = {3, 3};
    pilhangko_status status = block_status(PILHANGKO_OK);
    if (has_block && (!r.size || !is_power(r.alignment) || r.kind > 2 || !is_utf8(name))) status = PILHANGKO_INVALID;
    if (status == PILHANGKO_OK && !account_allocate(&block_account, r.size, r.alignment, r.kind, name, &wanted.offset, &wanted.number))
        status = PILHANGKO_OUT_OF_MEMORY;
    IS(pilhangko_virtual_block_allocate(&block, &r, name, &piece), status);
    fuzz_pieces[0] += status == PILHANGKO_OK;
    CHECK(piece.offset == wanted.offset && piece.number == wanted.number);
}

/* A live piece, or one that is made up. */
static pilhangko_virtual_piece some_block_piece(void) {
    pilhangko_virtual_piece piece = {0, 0};
    const uint8_t how = next_byte();
    if (has_block) {
        const struct chunk *c = &block_account.chunks[next_bytes(2) % block_account.count];
        piece.offset = c->offset;
        piece.number = c->number;
    }
    if (how < 20) piece.offset = next_number();
    if (how > 235) piece.number = next_number();
    return piece;
}

static void frees_or_renames_in_block(bool frees) {
    const pilhangko_virtual_piece piece = some_block_piece();
    const char *name = frees ? NULL : next_name();
    const size_t at = has_block ? account_find(&block_account, piece.offset, piece.number) : 0;
    const bool is_live = has_block && at < block_account.count;
    const pilhangko_status live = is_live ? PILHANGKO_OK : PILHANGKO_NOT_LIVE;
    if (frees) {
        IS(pilhangko_virtual_block_free(&block, &piece), block_status(live));
        if (is_live) account_free(&block_account, at);
    } else {
        IS(pilhangko_virtual_block_rename(&block, &piece, name), block_status(is_utf8(name) ? live : (pilhangko_status)PILHANGKO_INVALID));
        if (is_live && is_utf8(name)) block_account.chunks[at].name = name ? name : "";
    }
}

static void sets_word_in_block(void) {
    const pilhangko_virtual_piece piece = some_block_piece();
    const uint64_t word = next_number();
    const size_t at = has_block ? account_find(&block_account, piece.offset, piece.number) : 0;
    const bool is_live = has_block && at < block_account.count;
    IS(pilhangko_virtual_block_set_word(&block, &piece, word), block_status(is_live ? PILHANGKO_OK : PILHANGKO_NOT_LIVE));
    if (is_live) block_account.chunks[at].word = word;
}

static void looks_at_block(void) {
    const uint64_t from = next_number();
    pilhangko_virtual_statistics s;
    pilhangko_piece_view views[8];
    char names[40];
    size_t lengths[8], room = next_byte() % 9, names_room = next_byte() % 41, shown, named;
    IS(pilhangko_virtual_block_statistics(&block, &s), block_status(PILHANGKO_OK));
    memset(views, 0xff, sizeof views);
    memset(lengths, 0xff, sizeof lengths);
    memset(names, '?', sizeof names);
    IS(pilhangko_virtual_block_pieces(&block, from, views, room, &shown), block_status(PILHANGKO_OK));
    IS(pilhangko_virtual_block_piece_names(&block, from, lengths, room, names, names_room, &named), block_status(PILHANGKO_OK));
    if (!has_block) return;
    account_same(&block_account, &s);
    account_shows_all(&block_account, from, views, room, shown);
    account_names_all(&block_account, from, lengths, room, names, names_room, named);
}

static void ends_block(bool clears) {
    if (clears) {
        IS(pilhangko_virtual_block_clear(&block), block_status(PILHANGKO_OK));
        if (has_block) account_begin(&block_account, block_account.size, block_account.page);
    } else {
        IS(pilhangko_virtual_block_destroy(&block), block_status(PILHANGKO_OK));
        has_block = false;
    }
}

/* ---- a memory type */

static pilhangko_memory_type type;
static struct type_account type_account;
static bool has_type, awaits_block;
static pilhangko_memory_request awaited_request;
static struct placed awaited;
static const char *awaited_name;

static uint64_t block_size_near(uint64_t size) {
    const uint64_t within = size < 4 * MB ? 4 * MB : size > 256 * MB ? 256 * MB : size;
    return (within + 4 * MB - 1) / (4 * MB) * (4 * MB);
}

static pilhangko_status type_status(bool changes, pilhangko_status status) {
    return !has_type ? PILHANGKO_NO_HANDLE : changes && awaits_block ? PILHANGKO_AWAITS_BLOCK : status;
}

static void creates_type(void) {
    const uint64_t size = next_number(), largest = next_number(), unused = next_number();
    const bool is_host = next_byte() % 2, has_budget = next_byte() % 4 == 0;
    const uint64_t page = next_alignment();
    const pilhangko_memory_type_settings s = {is_host, page, is_host ? unused : size, is_host ? unused : largest, is_host ? size : unused,
        is_host ? largest : unused, has_budget, next_number()};
    const pilhangko_status status = has_type ? PILHANGKO_IN_USE : !is_power(s.page_size) ? PILHANGKO_INVALID : PILHANGKO_OK;
    IS(pilhangko_memory_type_create(&type, &s), status);
    if (status != PILHANGKO_OK) return;
    has_type = true;
    awaits_block = false;
    const uint64_t first = block_size_near(size), last = block_size_near(largest);
    type_begin(&type_account, first, last < first ? first : last, s.page_size);
    type_account.has_budget = s.has_budget;
    type_account.budget = s.budget;
}

static void prepares(void) {
    const uint64_t size = next_size(), alignment = next_alignment();
    const uint32_t kind = 1 + next_small(3);
    const pilhangko_memory_request r = {size, alignment, kind, next_byte() % 8 == 0};
    const char *name = next_name();
    const bool is_valid = r.size && is_power(r.alignment) && r.kind <= 2 && is_utf8(name);
    pilhangko_memory_prepared told = {false, false, 77, {7, 7, 7, 7, 7}};
    pilhangko_status status = type_status(true, is_valid ? PILHANGKO_OK : PILHANGKO_INVALID);
    struct placed wanted;
    if (has_type && type_account.slot_count >= ACCOUNT_SLOTS - 1) return;
    if (status == PILHANGKO_OK) status = type_allocate(&type_account, &r, name, type_capacity(&type_account), &wanted);
    IS(pilhangko_memory_type_prepare(&type, &r, name, &told), status);
    if (status != PILHANGKO_OK) {
        CHECK(told.block_size == 77 && told.piece.number == 7);
        return;
    }
    CHECK(told.needs_block == wanted.needs_block && told.dedicated == wanted.dedicated && told.block_size == wanted.block_size);
    CHECK(same_piece(&told.piece, &wanted.piece));
    fuzz_pieces[1] += !wanted.needs_block;
    awaits_block = wanted.needs_block;
    awaited = wanted;
    awaited_request = r;
    awaited_name = name;
}

static void installs_or_abandons(bool installs) {
    const uint64_t handle = next_number();
    const pilhangko_status status = type_status(false, awaits_block ? PILHANGKO_OK : PILHANGKO_AWAITS_NO_BLOCK);
    pilhangko_memory_piece piece = {7, 7, 7, 7, 7}, wanted = piece;
    if (status == PILHANGKO_OK && installs) wanted = type_install(&type_account, &awaited, &awaited_request, awaited_name, handle);
    if (installs) IS(pilhangko_memory_type_install(&type, handle, &piece), status);
    else IS(pilhangko_memory_type_abandon(&type), status);
    CHECK(same_piece(&piece, &wanted));
    if (status == PILHANGKO_OK) awaits_block = false;
}

/* A live piece of an account, or one that is made up. */
static pilhangko_memory_piece some_piece(const struct type_account *t) {
    pilhangko_memory_piece piece = {next_byte() % 8, 1, 0, 1, 1};
    const uint8_t how = next_byte();
    if (piece.slot < t->slot_count && t->slots[piece.slot].exists) {
        const struct slot *slot = &t->slots[piece.slot];
        const struct chunk *c = &slot->account.chunks[next_bytes(2) % slot->account.count];
        piece.number = c->number;
        piece.offset = c->offset;
        piece.size = c->end - c->offset;
        piece.block = slot->block;
    }
    if (how == 0) piece.slot = next_number();
    if (how == 1) piece.number = next_number();
    if (how == 2) piece.offset = next_number();
    if (how == 3) piece.size = next_number();
    if (how == 4) piece.block = next_number();
    return piece;
}

static void frees_of_type(void) {
    const pilhangko_memory_piece piece = some_piece(&type_account);
    const long at = has_type ? type_find(&type_account, &piece) : -1;
    const pilhangko_status status = type_status(true, at >= 0 ? PILHANGKO_OK : PILHANGKO_NOT_LIVE);
    pilhangko_memory_block gone = {true, 77};
    IS(pilhangko_memory_type_free(&type, &piece, &gone), status);
    if (status != PILHANGKO_OK) {
        CHECK(gone.exists && gone.block == 77);
        return;
    }
    const uint64_t handle = type_account.slots[piece.slot].block;
    const bool goes = type_free(&type_account, &piece, at);
    CHECK(gone.exists == goes && gone.block == (goes ? handle : 0));
}

static void renames_of_type(void) {
    const pilhangko_memory_piece piece = some_piece(&type_account);
    const char *name = next_name();
    const long at = has_type ? type_find(&type_account, &piece) : -1;
    const pilhangko_status live = at >= 0 ? PILHANGKO_OK : PILHANGKO_NOT_LIVE;
    const pilhangko_status status = type_status(true, is_utf8(name) ? live : (pilhangko_status)PILHANGKO_INVALID);
    bool is_live = at < 0;
    IS(pilhangko_memory_type_is_live(&type, &piece, &is_live), type_status(false, PILHANGKO_OK));
    CHECK(!has_type || is_live == (at >= 0));
    IS(pilhangko_memory_type_rename(&type, &piece, name), status);
    if (status == PILHANGKO_OK) type_account.slots[piece.slot].account.chunks[at].name = name ? name : "";
}

static void sets_word_of_type(void) {
    const pilhangko_memory_piece piece = some_piece(&type_account);
    const uint64_t word = next_number();
    const long at = has_type ? type_find(&type_account, &piece) : -1;
    const pilhangko_status status = type_status(true, at >= 0 ? PILHANGKO_OK : PILHANGKO_NOT_LIVE);
    IS(pilhangko_memory_type_set_word(&type, &piece, word), status);
    if (status == PILHANGKO_OK) type_account.slots[piece.slot].account.chunks[at].word = word;
}

static void bounds_type(void) {
    const bool has = next_byte() % 2;
    const uint64_t bytes = next_number();
    const pilhangko_status status = type_status(true, PILHANGKO_OK);
    IS(pilhangko_memory_type_set_budget(&type, has, bytes), status);
    if (status != PILHANGKO_OK) return;
    type_account.has_budget = has;
    type_account.budget = bytes;
}

static void looks_at_slot(size_t slot, uint64_t from) {
    const bool exists = slot < type_account.slot_count && type_account.slots[slot].exists;
    pilhangko_memory_block there;
    pilhangko_piece_view views[6];
    char names[40];
    size_t lengths[6], room = next_byte() % 7, names_room = next_byte() % 41, shown, named;
    memset(views, 0xff, sizeof views);
    memset(lengths, 0xff, sizeof lengths);
    memset(names, '?', sizeof names);
    IS(pilhangko_memory_type_block(&type, slot, &there), PILHANGKO_OK);
    CHECK(there.exists == exists && there.block == (exists ? type_account.slots[slot].block : 0));
    IS(pilhangko_memory_type_pieces(&type, slot, from, views, room, &shown), PILHANGKO_OK);
    IS(pilhangko_memory_type_piece_names(&type, slot, from, lengths, room, names, names_room, &named), PILHANGKO_OK);
    if (exists) {
        account_shows_all(&type_account.slots[slot].account, from, views, room, shown);
        account_names_all(&type_account.slots[slot].account, from, lengths, room, names, names_room, named);
    } else {
        CHECK(shown == 0 && named == 0);
    }
}

static void looks_at_type(void) {
    pilhangko_memory_statistics s;
    IS(pilhangko_memory_type_statistics(&type, &s), type_status(false, PILHANGKO_OK));
    if (!has_type) return;
    CHECK(s.capacity == type_capacity(&type_account) && s.slots == type_account.slot_count);
    CHECK(s.shared_blocks == shared_blocks(&type_account) && s.awaits_block == awaits_block);
    CHECK(s.has_budget == type_account.has_budget && s.budget == (s.has_budget ? type_account.budget : 0));
    const size_t slot = next_byte() % 8;
    looks_at_slot(slot, next_number());
}

static void ends_type(void) {
    IS(pilhangko_memory_type_destroy(&type), type_status(false, PILHANGKO_OK));
    has_type = awaits_block = false;
}

/* ---- an allocator */

static pilhangko_allocator allocator;
static struct allocator_account account;
static bool has_allocator;

static pilhangko_status allocator_status(bool changes, pilhangko_status status) {
    return !has_allocator ? PILHANGKO_NO_HANDLE : changes && account.awaits_answer ? PILHANGKO_AWAITS_ANSWER : status;
}

static void begins_account(const pilhangko_device_memory_type *types, const pilhangko_device_heap *heaps, size_t count, size_t heap_count,
    const pilhangko_allocator_settings *s) {
    has_allocator = true;
    account.heap_count = heap_count;
    account.has_most = account.smaller_blocks = false;
    for (size_t i = 0; i < ACCOUNT_HEAPS; i++) account.has_limit[i] = false;
    account.type_count = count;
    account.awaits_answer = false;
    for (size_t i = 0; i < count; i++) {
        const bool is_host = types[i].flags & 2;
        const uint64_t first = block_size_near(is_host ? s->host_block_size : s->device_block_size);
        const uint64_t last = block_size_near(is_host ? s->largest_host_block_size : s->largest_device_block_size);
        account.flags[i] = types[i].flags;
        account.heap_size[i] = heaps[types[i].heap].size;
        account.heap[i] = types[i].heap;
        type_begin(&account.types[i], first, last < first ? first : last, s->page_size);
    }
}

static void creates_allocator(void) {
    pilhangko_device_memory_type types[ACCOUNT_TYPES];
    pilhangko_device_heap heaps[3];
    const size_t count = next_byte() % (ACCOUNT_TYPES + 1), heap_count = next_byte() % 4;
    const uint64_t page = next_alignment(), first = next_number() << 8, last = next_number() << 8, other = next_number() << 8,
                   others = next_number() << 8;
    const pilhangko_allocator_settings s = {page, first, last, other, others};
    pilhangko_status valid = is_power(s.page_size) ? PILHANGKO_OK : PILHANGKO_INVALID_DEVICE;
    for (size_t i = 0; i < 3; i++) heaps[i].size = next_byte() % 2 ? 1024 * MB : next_number() << 8, heaps[i].flags = next_byte();
    for (size_t i = 0; i < count; i++) {
        types[i].flags = next_byte();
        types[i].heap = next_byte() % 16 ? next_byte() % 3 % (heap_count ? (uint32_t)heap_count : 1) : next_byte();
        if (valid == PILHANGKO_OK && types[i].heap >= heap_count) valid = PILHANGKO_NO_SUCH_HEAP;
    }
    const pilhangko_status status = has_allocator ? PILHANGKO_IN_USE : valid;
    IS(pilhangko_allocator_create(&allocator, types, count, heaps, heap_count, &s), status);
    if (status == PILHANGKO_OK) begins_account(types, heaps, count, heap_count, &s);
}

static bool is_mapped(size_t type) {
    return account.flags[type] & 2;
}

/* Where the fuzzer maps memory. */
static uint64_t address_of(size_t type, uint64_t memory) {
    return is_mapped(type) ? memory % 1000 + 1 : 0;
}

/* The progress is the account's, and says nothing else. */
static void is_progress(const pilhangko_allocator_progress *p, pilhangko_status status) {
    const pilhangko_allocator_question *q = &p->question;
    const bool asks = status == PILHANGKO_OK && account.awaits_answer, has_piece = status == PILHANGKO_OK && !account.awaits_answer;
    CHECK(p->status == status);
    CHECK(p->kind == (asks ? PILHANGKO_PROGRESS_QUESTION : has_piece ? PILHANGKO_PROGRESS_PIECE : (uint32_t)PILHANGKO_PROGRESS_REFUSED));
    CHECK(has_piece ? same_allocation(&account, &p->piece) : p->piece.piece.number == 0 && p->piece.piece.size == 0);
    if (asks) {
        CHECK(q->size == account.placed.block_size && q->memory_type == account.type && q->mapped == is_mapped(account.type));
        CHECK(q->dedicated == account.placed.dedicated);
    } else {
        CHECK(q->size == 0 && q->memory_type == 0 && !q->dedicated && !q->mapped);
    }
}

/* Whether each memory type's account has room for one more block. */
static bool has_room(void) {
    for (size_t i = 0; has_allocator && i < account.type_count; i++)
        if (account.types[i].slot_count >= ACCOUNT_SLOTS - 1) return false;
    return true;
}

static pilhangko_allocator_request next_request(void) {
    pilhangko_allocator_request r;
    r.size = next_size();
    r.alignment = next_alignment();
    r.memory_type_bits = next_byte() % 4 ? 63 : next_byte();
    r.kind = 1 + next_small(3);
    r.location = 1 + next_small(5);
    r.scheme = next_byte() % 4 ? PILHANGKO_SCHEME_MANAGED : next_small(5);
    r.resource = next_number();
    return r;
}

/* What a request begins with, or leaves untouched. */
static void is_begun(const pilhangko_allocator_progress *p, pilhangko_status status) {
    if (status == PILHANGKO_OK) is_progress(p, status);
    else CHECK(p->kind == UINT32_MAX && p->status == UINT32_MAX && p->question.size == UINT64_MAX);
}

static void begins_request(void) {
    const pilhangko_allocator_request r = next_request();
    const char *name = next_name();
    pilhangko_allocator_progress p;
    if (!has_room()) return;
    memset(&p, 0xff, sizeof p);
    pilhangko_status status = allocator_status(true, is_utf8(name) ? PILHANGKO_OK : PILHANGKO_INVALID);
    if (status == PILHANGKO_OK) status = account_begin_request(&account, &r, name);
    IS(pilhangko_allocator_begin(&allocator, &r, name, &p), status);
    is_begun(&p, status);
}

static void begins_by_flags(void) {
    const pilhangko_allocator_request r = next_request();
    const uint32_t required = next_byte() % 4 ? next_byte() & 3 : next_byte(), preferred = next_byte(), avoided = next_byte();
    const pilhangko_preference preference = {required, preferred, avoided, next_byte() % 4 == 0};
    const char *name = next_name();
    pilhangko_allocator_progress p;
    if (!has_room()) return;
    memset(&p, 0xff, sizeof p);
    pilhangko_status status = allocator_status(true, is_utf8(name) ? PILHANGKO_OK : PILHANGKO_INVALID);
    if (status == PILHANGKO_OK) status = account_begin_by_flags(&account, &r, name, &preference);
    IS(pilhangko_allocator_begin_by_flags(&allocator, &r, name, &preference, &p), status);
    is_begun(&p, status);
}

static void grants(void) {
    const uint64_t memory = next_number();
    pilhangko_allocator_piece piece = {7, 7, {7, 7, 7, 7, 7}};
    const pilhangko_status status = allocator_status(false, account.awaits_answer ? PILHANGKO_OK : PILHANGKO_AWAITS_NO_ANSWER);
    IS(pilhangko_allocator_granted(&allocator, memory, address_of(account.type, memory), &piece), status);
    if (status != PILHANGKO_OK) {
        CHECK(piece.memory_type == 7 && piece.address == 7 && piece.piece.number == 7);
        return;
    }
    account_granted(&account, memory);
    CHECK(same_allocation(&account, &piece) && piece.address == address_of(account.type, memory));
    fuzz_pieces[2]++;
}

static void refuses(bool mapping) {
    const int32_t code = next_byte() % 2 ? -2 : (int32_t)next_bytes(4);
    const bool has_code = next_byte() % 2;
    pilhangko_allocator_progress p;
    const pilhangko_status status = allocator_status(false, account.awaits_answer ? PILHANGKO_OK : PILHANGKO_AWAITS_NO_ANSWER);
    if (mapping) IS(pilhangko_allocator_mapping_refused(&allocator, has_code, code, &p), status);
    else IS(pilhangko_allocator_refused(&allocator, code, &p), status);
    if (status != PILHANGKO_OK) return;
    const pilhangko_status cause = mapping      ? PILHANGKO_FAILED_TO_MAP
                                   : code == -2 ? PILHANGKO_OUT_OF_MEMORY
                                                : (pilhangko_status)PILHANGKO_DRIVER_REFUSED;
    is_progress(&p, account_refused(&account, cause));
}

static pilhangko_allocator_piece some_allocation(void) {
    const size_t at = next_byte() % ACCOUNT_TYPES;
    pilhangko_allocator_piece piece = {at, 0, some_piece(&account.types[has_allocator && at < account.type_count ? at : 0])};
    if (has_allocator && at < account.type_count) piece.address = address_of(at, piece.piece.block);
    if (next_byte() == 0) piece.memory_type = next_number();
    if (next_byte() == 0) piece.address = next_number();
    return piece;
}

/* The index of a live piece in its slot's account, or -1: where it is mapped counts too. */
static long allocation_at(const pilhangko_allocator_piece *piece) {
    const long at = has_allocator ? allocator_find(&account, piece) : -1;
    return at >= 0 && piece->address == address_of(piece->memory_type, piece->piece.block) ? at : -1;
}

static void frees_of_allocator(void) {
    const pilhangko_allocator_piece piece = some_allocation();
    const long at = allocation_at(&piece);
    const pilhangko_status status = allocator_status(true, at >= 0 ? PILHANGKO_OK : PILHANGKO_NOT_LIVE);
    pilhangko_allocator_memory back = {true, true, 77, 77};
    IS(pilhangko_allocator_free(&allocator, &piece, &back), status);
    if (status != PILHANGKO_OK) {
        CHECK(back.exists && back.mapped && back.memory == 77 && back.address == 77);
        return;
    }
    struct type_account *t = &account.types[piece.memory_type];
    const uint64_t memory = t->slots[piece.piece.slot].block;
    const bool goes = type_free(t, &piece.piece, at), mapped = goes && (account.flags[piece.memory_type] & 2);
    CHECK(back.exists == goes && back.mapped == mapped && back.memory == (goes ? memory : 0));
    CHECK(back.address == (goes ? address_of(piece.memory_type, memory) : 0));
}

static void renames_of_allocator(void) {
    const pilhangko_allocator_piece piece = some_allocation();
    const char *name = next_name();
    const long at = allocation_at(&piece);
    const pilhangko_status live = at >= 0 ? PILHANGKO_OK : PILHANGKO_NOT_LIVE;
    bool is_live = at < 0;
    IS(pilhangko_allocator_is_live(&allocator, &piece, &is_live), allocator_status(false, PILHANGKO_OK));
    CHECK(!has_allocator || is_live == (at >= 0));
    IS(pilhangko_allocator_rename(&allocator, &piece, name),
        allocator_status(true, is_utf8(name) ? live : (pilhangko_status)PILHANGKO_INVALID));
}

static void sets_word_of_allocator(void) {
    const pilhangko_allocator_piece piece = some_allocation();
    const uint64_t word = next_number();
    const long at = allocation_at(&piece);
    const pilhangko_status status = allocator_status(true, at >= 0 ? PILHANGKO_OK : PILHANGKO_NOT_LIVE);
    IS(pilhangko_allocator_set_word(&allocator, &piece, word), status);
    if (status == PILHANGKO_OK) account.types[piece.memory_type].slots[piece.piece.slot].account.chunks[at].word = word;
}

/* A second place is told where the account has one; else nothing changes. */
static void proposes_move(void) {
    const pilhangko_allocator_piece piece = some_allocation();
    const char *name = next_name();
    const long at = allocation_at(&piece);
    pilhangko_allocator_request r;
    r.size = next_byte() % 8 ? piece.piece.size : next_size();
    r.alignment = next_alignment();
    r.memory_type_bits = next_byte();
    r.kind = 1 + next_small(3);
    r.location = 1 + next_small(5);
    r.scheme = next_byte() % 8 ? PILHANGKO_SCHEME_MANAGED : next_small(5);
    r.resource = next_number();
    const bool is_of_piece = is_valid_request(&r) && is_utf8(name) && r.size == piece.piece.size && r.scheme == PILHANGKO_SCHEME_MANAGED;
    const pilhangko_status live = at >= 0 ? PILHANGKO_OK : PILHANGKO_NOT_LIVE;
    const pilhangko_status status = allocator_status(true, is_of_piece ? live : (pilhangko_status)PILHANGKO_INVALID);
    const pilhangko_memory_request asks = {r.size, r.alignment, r.kind, false};
    pilhangko_allocator_piece to = {7, 7, {7, 7, 7, 7, 7}};
    pilhangko_memory_piece place = {0, 0, 0, 0, 0};
    const bool wanted =
        status == PILHANGKO_OK && type_place(&account.types[piece.memory_type], piece.piece.slot + 1, &asks, name, &place);
    bool moves = !wanted;
    IS(pilhangko_allocator_propose_move(&allocator, &piece, &r, name, &moves, &to), status);
    if (status != PILHANGKO_OK) {
        CHECK(moves && to.memory_type == 7 && to.address == 7 && to.piece.number == 7);
        return;
    }
    CHECK(moves == wanted && same_piece(&to.piece, &place) && to.memory_type == (wanted ? piece.memory_type : 0));
    CHECK(to.address == (wanted ? address_of(piece.memory_type, place.block) : 0));
}

static void bounds_allocator(void) {
    const size_t at = next_byte() % 16 ? next_byte() % ACCOUNT_TYPES : next_number();
    const bool has = next_byte() % 2, is_there = has_allocator && at < account.type_count;
    const uint64_t bytes = next_size();
    const pilhangko_status status = allocator_status(true, is_there ? PILHANGKO_OK : PILHANGKO_NO_SUCH_TYPE);
    pilhangko_budget told;
    IS(pilhangko_allocator_set_budget(&allocator, at, has, bytes), status);
    if (status == PILHANGKO_OK) {
        account.types[at].has_budget = has;
        account.types[at].budget = bytes;
    }
    IS(pilhangko_allocator_budget(&allocator, at, &told), allocator_status(false, PILHANGKO_OK));
    if (!has_allocator) return;
    const bool bounded = is_there && account.types[at].has_budget;
    CHECK(told.exists == bounded && told.bytes == (bounded ? account.types[at].budget : 0));
}

static void limits_blocks(void) {
    const bool has = next_byte() % 2;
    const size_t count = next_byte() % 16;
    const pilhangko_status status = allocator_status(true, PILHANGKO_OK);
    bool has_most = !has;
    size_t most = 77;
    IS(pilhangko_allocator_set_most_blocks(&allocator, has, count), status);
    if (status == PILHANGKO_OK) {
        account.has_most = has;
        account.most_blocks = count;
    }
    IS(pilhangko_allocator_most_blocks(&allocator, &has_most, &most), allocator_status(false, PILHANGKO_OK));
    if (!has_allocator) return;
    CHECK(has_most == account.has_most && most == (account.has_most ? account.most_blocks : 0));
}

static void sets_smaller_blocks(void) {
    const bool smaller = next_byte() % 4 != 0;
    const pilhangko_status status = allocator_status(true, PILHANGKO_OK);
    IS(pilhangko_allocator_set_smaller_blocks(&allocator, smaller), status);
    if (status == PILHANGKO_OK) account.smaller_blocks = smaller;
    bool told = !account.smaller_blocks;
    IS(pilhangko_allocator_smaller_blocks(&allocator, &told), allocator_status(false, PILHANGKO_OK));
    CHECK(!has_allocator || told == account.smaller_blocks);
}

/* The limit of a heap, which counts for all its memory types. */
static void limits_heap(void) {
    const size_t at = next_byte() % 16 ? next_byte() % ACCOUNT_HEAPS : next_number();
    const bool has = next_byte() % 2, is_there = has_allocator && at < account.heap_count;
    const uint64_t bytes = next_size();
    const pilhangko_status status = allocator_status(true, is_there ? PILHANGKO_OK : PILHANGKO_NO_SUCH_HEAP);
    pilhangko_budget told;
    IS(pilhangko_allocator_set_heap_limit(&allocator, at, has, bytes), status);
    if (status == PILHANGKO_OK) {
        account.has_limit[at] = has;
        account.limit[at] = bytes;
    }
    IS(pilhangko_allocator_heap_limit(&allocator, at, &told), allocator_status(false, PILHANGKO_OK));
    if (!has_allocator) return;
    const bool bounded = is_there && account.has_limit[at];
    CHECK(told.exists == bounded && told.bytes == (bounded ? account.limit[at] : 0));
}

/* What bounds a memory type's blocks now, of whichever sort: a new one may come where it is within that. */
static void same_bound(size_t at) {
    pilhangko_budget told;
    IS(pilhangko_allocator_bound(&allocator, at, &told), allocator_status(false, PILHANGKO_OK));
    if (!has_allocator || at >= account.type_count) return;
    const struct type_account *t = &account.types[at];
    const size_t heap = account.heap[at];
    const bool full = account.has_most && block_count(&account) >= account.most_blocks;
    uint64_t others = 0, least = UINT64_MAX;
    for (size_t i = 0; i < account.type_count; i++) others += i != at && account.heap[i] == heap ? type_capacity(&account.types[i]) : 0;
    if (t->has_budget) least = t->budget;
    if (account.has_limit[heap] && what_is_left(account.limit[heap], others) < least) least = what_is_left(account.limit[heap], others);
    if (full && type_capacity(t) < least) least = type_capacity(t);
    CHECK(told.exists == (t->has_budget || account.has_limit[heap] || full));
    CHECK(told.bytes == (told.exists ? least : 0));
}

static void same_type_statistics(size_t at) {
    const struct type_account *t = &account.types[at];
    const bool is_there = has_allocator && at < account.type_count;
    pilhangko_type_statistics s;
    uint64_t piece_bytes = 0, longest = 0;
    size_t pieces = 0, gaps = 0;
    IS(pilhangko_allocator_type_statistics(&allocator, at, &s), allocator_status(false, is_there ? PILHANGKO_OK : PILHANGKO_NO_SUCH_TYPE));
    if (!is_there) return;
    for (size_t i = 0; i < t->slot_count; i++) {
        const struct account *a = &t->slots[i].account;
        for (size_t j = 0; t->slots[i].exists && j < a->count; j++) {
            const uint64_t length = a->chunks[j].end - a->chunks[j].start;
            pieces += a->chunks[j].kind != 0;
            gaps += a->chunks[j].kind == 0;
            piece_bytes += a->chunks[j].kind ? length : 0;
            longest = !a->chunks[j].kind && length > longest ? length : longest;
        }
    }
    CHECK(s.capacity == type_capacity(t) && s.slots == t->slot_count && s.shared_blocks == shared_blocks(t));
    CHECK(s.has_budget == t->has_budget && s.budget == (t->has_budget ? t->budget : 0));
    CHECK(s.pieces == pieces && s.piece_bytes == piece_bytes && s.gaps == gaps && s.longest_gap == longest);
}

static void same_slot(size_t at, size_t slot, uint64_t from) {
    const bool is_there = has_allocator && at < account.type_count && slot < account.types[at].slot_count;
    const struct slot *there = is_there && account.types[at].slots[slot].exists ? &account.types[at].slots[slot] : NULL;
    pilhangko_allocator_live_block block;
    pilhangko_piece_view views[6];
    char names[40];
    size_t lengths[6], room = next_byte() % 7, names_room = next_byte() % 41, shown, named;
    memset(views, 0xff, sizeof views);
    IS(pilhangko_allocator_block(&allocator, at, slot, &block), allocator_status(false, PILHANGKO_OK));
    IS(pilhangko_allocator_pieces(&allocator, at, slot, from, views, room, &shown), allocator_status(false, PILHANGKO_OK));
    IS(pilhangko_allocator_piece_names(&allocator, at, slot, from, lengths, room, names, names_room, &named),
        allocator_status(false, PILHANGKO_OK));
    if (!has_allocator) return;
    CHECK(block.exists == (there != NULL) && block.memory == (there ? there->block : 0) && block.size == (there ? there->account.size : 0));
    CHECK(block.mapped == (there && is_mapped(at)) && block.address == (there ? address_of(at, there->block) : 0));
    CHECK(block.shared == (there && !there->dedicated) && shown == named);
    if (there) account_shows_all(&there->account, from, views, room, shown);
    else CHECK(shown == 0);
}

/* A text is copied as far as there is room, and its length told whole. */
static void same_texts(size_t index) {
    char text[300];
    size_t length, again, pieces = 0, room = next_byte() % sizeof text;
    memset(text, '?', sizeof text);
    IS(pilhangko_allocator_report(&allocator, NULL, 0, &length), allocator_status(false, PILHANGKO_OK));
    IS(pilhangko_allocator_report(&allocator, text, room, &again), allocator_status(false, PILHANGKO_OK));
    if (!has_allocator) return;
    CHECK(length == again && length >= 2 && (room == 0 || text[0] == '{'));
    for (size_t i = length < room ? length : room; i < sizeof text; i++) CHECK(text[i] == '?');
    for (size_t i = 0; i < account.type_count; i++)
        for (size_t j = 0; j < account.types[i].slot_count; j++)
            if (account.types[i].slots[j].exists) pieces += account_pieces(&account.types[i].slots[j].account);
    IS(pilhangko_allocator_leak(&allocator, index, text, room, &length), PILHANGKO_OK);
    CHECK((length > 0) == (index < pieces));
}

static void looks_at_allocator(void) {
    const size_t at = next_byte() % ACCOUNT_TYPES;
    pilhangko_type_statistics all;
    uint64_t bytes = 0;
    IS(pilhangko_allocator_capacity(&allocator, &bytes), allocator_status(false, PILHANGKO_OK));
    IS(pilhangko_allocator_statistics(&allocator, &all), allocator_status(false, PILHANGKO_OK));
    CHECK(!has_allocator || (bytes == allocator_capacity(&account) && all.capacity == bytes && !all.has_budget));
    same_type_statistics(at);
    same_bound(at);
    const size_t slot = next_byte() % 8;
    same_slot(at, slot, next_number());
    if (next_byte() % 4 == 0) same_texts(next_byte());
}

static void ends_allocator(void) {
    IS(pilhangko_allocator_destroy(&allocator), allocator_status(false, PILHANGKO_OK));
    has_allocator = false;
}

/* ---- a ring */

static pilhangko_ring ring;
static struct ring_account ring_account;
static bool has_ring;

static pilhangko_status ring_status(pilhangko_status status) {
    return has_ring ? status : PILHANGKO_NO_HANDLE;
}

/* of no more bytes and frames than the account has room for, or of too many bytes for any ring */
static void creates_ring(void) {
    uint64_t size = next_number();
    const size_t frames = next_byte() % RING_FRAMES;
    if (size < UINT64_C(1) << 63) size %= RING_BYTES + 1;
    const bool fits = size > 0 && size <= RING_BYTES;
    const pilhangko_status status = has_ring ? PILHANGKO_IN_USE : fits ? PILHANGKO_OK : PILHANGKO_INVALID;
    IS(pilhangko_ring_create(&ring, size, frames), status);
    if (status != PILHANGKO_OK) return;
    has_ring = true;
    ring_begin(&ring_account, size, frames);
}

static void allocates_in_ring(void) {
    const uint64_t size = next_number(), alignment = next_alignment();
    uint64_t offset = 3, wanted = 3;
    pilhangko_status status = ring_status(PILHANGKO_OK);
    if (has_ring && (!size || !alignment)) status = PILHANGKO_INVALID;
    if (status == PILHANGKO_OK && !ring_allocate(&ring_account, size, alignment, &wanted)) status = PILHANGKO_OUT_OF_MEMORY;
    IS(pilhangko_ring_allocate(&ring, size, alignment, &offset), status);
    fuzz_pieces[3] += status == PILHANGKO_OK;
    CHECK(offset == wanted);
}

static void ends_frame_of_ring(void) {
    uint64_t frame = 3, wanted = 3;
    pilhangko_status status = ring_status(PILHANGKO_OK);
    if (has_ring && !ring_end_frame(&ring_account, &wanted)) status = PILHANGKO_TOO_MANY_FRAMES;
    IS(pilhangko_ring_end_frame(&ring, &frame), status);
    CHECK(frame == wanted);
}

/* A frame near the oldest one, or any. */
static uint64_t some_frame(void) {
    const uint8_t how = next_byte();
    return how < 240 ? ring_account.oldest + how % 8 - 1 : next_number();
}

static void retires_in_ring(void) {
    const uint64_t frame = some_frame();
    pilhangko_status status = ring_status(PILHANGKO_OK);
    if (has_ring && !ring_retire(&ring_account, frame)) status = PILHANGKO_NOT_LIVE;
    IS(pilhangko_ring_retire(&ring, frame), status);
}

static void looks_at_ring(void) {
    const uint64_t frame = some_frame();
    pilhangko_ring_counts counts;
    pilhangko_ring_frame_counts held;
    const bool flies = has_ring && ring_in_flight(&ring_account, frame);
    IS(pilhangko_ring_frame_statistics(&ring, frame, &held), ring_status(flies ? PILHANGKO_OK : PILHANGKO_NOT_LIVE));
    if (has_ring) ring_same(&ring_account, &ring);
    else IS(pilhangko_ring_statistics(&ring, &counts), PILHANGKO_NO_HANDLE);
}

static void ends_ring(void) {
    IS(pilhangko_ring_destroy(&ring), ring_status(PILHANGKO_OK));
    has_ring = false;
}

/* ---- a capture: an input never has as many calls as a trace has room for */

#define TRACE_ROOM (1 << 19)

static pilhangko_capture capture;
static bool has_capture;
static struct trace {
    char bytes[TRACE_ROOM];
    size_t length;
} device_lines, call_lines, whole_trace;
static uint64_t capture_questions;
static pilhangko_budget capture_budgets[32];

static pilhangko_status capture_status(pilhangko_status status) {
    return has_capture ? status : PILHANGKO_NO_HANDLE;
}

static void writes(struct trace *trace, const char *format, ...) {
    const size_t room = sizeof trace->bytes - trace->length;
    va_list values;
    va_start(values, format);
    const int length = vsnprintf(trace->bytes + trace->length, room, format, values);
    va_end(values);
    CHECK(length >= 0 && (size_t)length < room);
    trace->length += (size_t)length;
}

/* A name as a trace has it. */
static const char *traced(const char *name) {
    static char word[65];
    size_t length = 0;
    for (; name && name[length] && length < 64; length++) word[length] = name[length] >= '!' && name[length] <= '~' ? name[length] : '_';
    if (length == 0) word[length++] = '_';
    word[length] = 0;
    return word;
}

/* the driver's heaps and memory types needn't be any that an allocator is made of */
static pilhangko_status creates_of_allocator(const pilhangko_allocator_settings *s) {
    pilhangko_device_memory_type types[3];
    pilhangko_device_heap heaps[3];
    const size_t type_count = next_byte() % 4, heap_count = next_byte() % 4;
    for (size_t i = 0; i < 3; i++) {
        heaps[i].size = next_number();
        heaps[i].flags = next_byte();
        types[i].flags = (uint32_t)next_bytes(4);
        types[i].heap = next_byte();
        if (!has_capture && i < heap_count) writes(&device_lines, "heap %" PRIu64 "\n", heaps[i].size);
    }
    for (size_t i = 0; !has_capture && i < type_count; i++)
        writes(&device_lines, "type %" PRIu32 " %" PRIu32 "\n", types[i].flags, types[i].heap);
    if (!has_capture) writes(&device_lines, "granularity %" PRIu64 "\n", s->page_size);
    return pilhangko_capture_of_allocator(&capture, types, type_count, heaps, heap_count, s);
}

static pilhangko_status creates_of_heaps(const pilhangko_allocator_settings *s, uint32_t tier) {
    const pilhangko_heaps_settings of_heaps = {
        tier, s->device_block_size, s->largest_device_block_size, s->host_block_size, s->largest_host_block_size};
    if (!has_capture) writes(&device_lines, "d3d12\ntier %u\n", tier < 2 ? 1 : 2);
    return pilhangko_capture_of_heaps(&capture, &of_heaps);
}

static pilhangko_status creates_of_metal_heaps(const pilhangko_allocator_settings *s) {
    const bool has_set = next_byte() % 2;
    const pilhangko_metal_heaps_settings of_metal = {
        has_set, s->device_block_size, s->largest_device_block_size, s->host_block_size, s->largest_host_block_size};
    if (!has_capture) writes(&device_lines, "metal\nresidency %s\n", has_set ? "yes" : "no");
    if (!has_capture) capture_questions = has_set;
    return pilhangko_capture_of_metal_heaps(&capture, &of_metal);
}

static void creates_capture(void) {
    const uint32_t api = next_small(3), tier = next_small(4);
    const pilhangko_status valid = api == 1 && tier == 0 ? PILHANGKO_INVALID_TIER : PILHANGKO_OK;
    pilhangko_allocator_settings s;
    s.page_size = next_number();
    s.device_block_size = next_number();
    s.largest_device_block_size = next_number();
    s.host_block_size = next_number();
    s.largest_host_block_size = next_number();
    if (!has_capture) device_lines.length = call_lines.length = 0, capture_questions = 0;
    const pilhangko_status status = api == 0 ? creates_of_allocator(&s) : api == 1 ? creates_of_heaps(&s, tier) : creates_of_metal_heaps(&s);
    IS(status, has_capture ? (pilhangko_status)PILHANGKO_IN_USE : valid);
    if (status != PILHANGKO_OK) return;
    writes(&device_lines, "sizes %" PRIu64 " %" PRIu64 " %" PRIu64 " %" PRIu64 "\n", s.device_block_size, s.host_block_size,
        s.largest_device_block_size, s.largest_host_block_size);
    memset(capture_budgets, 0, sizeof capture_budgets);
    has_capture = true;
}

enum captured_api { OF_VULKAN, OF_D3D12, OF_METAL, COMMITTED };

/* What is asked for, by any API: the requests differ in what they have beside these. */
struct captured {
    enum captured_api api;
    pilhangko_allocator_request asks;
    pilhangko_heaps_request asks_heaps;
    pilhangko_metal_heaps_request asks_metal;
    const char *name;
};

static struct captured next_captured(bool moves) {
    struct captured c;
    c.api = (enum captured_api)next_small(moves ? 3 : 4);
    c.asks = next_request();
    c.asks_heaps = (pilhangko_heaps_request){c.asks.size, c.asks.alignment, c.asks.location, 1 + next_small(4)};
    c.asks_metal = (pilhangko_metal_heaps_request){c.asks.size, c.asks.alignment, c.asks.location};
    c.name = next_name();
    return c;
}

static pilhangko_status captured_status(const struct captured *c) {
    bool is_valid = c->asks.location <= 4 && (c->api == COMMITTED || (c->asks.size && is_power(c->asks.alignment)));
    if (c->api == OF_VULKAN) is_valid = is_valid && c->asks.kind <= 2 && c->asks.scheme >= 1 && c->asks.scheme <= 3;
    if (c->api == OF_D3D12 || c->api == COMMITTED) is_valid = is_valid && c->asks_heaps.category <= 3;
    return capture_status(is_valid && (c->api == COMMITTED || is_utf8(c->name)) ? PILHANGKO_OK : PILHANGKO_INVALID);
}

static const char *const locations[] = {"Unknown", "GpuOnly", "CpuToGpu", "GpuToCpu"}, *const categories[] = {"buffer", "target", "texture"};

static void writes_request(const struct captured *c) {
    const pilhangko_allocator_request *r = &c->asks;
    writes(&call_lines, " %" PRIu64 " %" PRIu64, r->size, r->alignment);
    if (c->api == OF_VULKAN) writes(&call_lines, " %" PRIu32, r->memory_type_bits);
    writes(&call_lines, " %s", locations[r->location - 1]);
    if (c->api == OF_VULKAN) writes(&call_lines, r->kind == PILHANGKO_KIND_LINEAR ? " linear" : " nonlinear");
    if (c->api == OF_VULKAN && r->scheme == PILHANGKO_SCHEME_MANAGED) writes(&call_lines, " managed");
    if (c->api == OF_VULKAN && r->scheme == PILHANGKO_SCHEME_BUFFER) writes(&call_lines, " buffer:%" PRIu64, r->resource);
    if (c->api == OF_VULKAN && r->scheme == PILHANGKO_SCHEME_IMAGE) writes(&call_lines, " image:%" PRIu64, r->resource);
    if (c->api == OF_D3D12) writes(&call_lines, " %s", categories[c->asks_heaps.category - 1]);
    writes(&call_lines, " %s\n", traced(c->name));
}

static void writes_committed(const struct captured *c, uint64_t number) {
    const uint64_t units = c->asks.size / 65536 + (c->asks.size % 65536 != 0), whole = units * 65536;
    writes(&call_lines, "create %" PRIu64 " committed %s %s buffer %" PRIu64 " 1 1 0 state:0 none none %s\n", number,
        locations[c->asks.location - 1], categories[c->asks_heaps.category - 1], whole >= c->asks.size ? whole : c->asks.size, traced(c->name));
}

static void captures_request(void) {
    const struct captured c = next_captured(false);
    const uint64_t number = next_number();
    pilhangko_capture_answer answers[3];
    const size_t count = next_byte() % 4;
    for (size_t i = 0; i < 3; i++) {
        answers[i].refused = next_byte() % 2;
        answers[i].code = next_byte() % 2 ? 0 : (int32_t)next_bytes(4);
    }
    const pilhangko_status status = captured_status(&c);
    if (c.api == OF_VULKAN) IS(pilhangko_capture_allocator_allocated(&capture, number, &c.asks, c.name, answers, count), status);
    if (c.api == OF_D3D12) IS(pilhangko_capture_heaps_allocated(&capture, number, &c.asks_heaps, c.name, answers, count), status);
    if (c.api == OF_METAL) IS(pilhangko_capture_metal_heaps_allocated(&capture, number, &c.asks_metal, c.name, answers, count), status);
    if (c.api == COMMITTED) IS(pilhangko_capture_heaps_committed(&capture, number, &c.asks_heaps, c.name, answers, count), status);
    if (status != PILHANGKO_OK) return;
    for (size_t i = 0; i < count; i++) {
        capture_questions++;
        if (answers[i].refused && answers[i].code) writes(&device_lines, "refuse %" PRIu64 " %" PRId32 "\n", capture_questions, answers[i].code);
        if (answers[i].refused && !answers[i].code) writes(&device_lines, "refuse %" PRIu64 " null\n", capture_questions);
    }
    if (c.api == COMMITTED) writes_committed(&c, number);
    else writes(&call_lines, "alloc %" PRIu64, number), writes_request(&c);
    fuzz_pieces[4]++;
}

static void captures_move(void) {
    const struct captured c = next_captured(true);
    const uint64_t from = next_number(), to = next_number();
    const pilhangko_status status = captured_status(&c);
    if (c.api == OF_VULKAN) IS(pilhangko_capture_allocator_moved(&capture, from, to, &c.asks, c.name), status);
    if (c.api == OF_D3D12) IS(pilhangko_capture_heaps_moved(&capture, from, to, &c.asks_heaps, c.name), status);
    if (c.api == OF_METAL) IS(pilhangko_capture_metal_heaps_moved(&capture, from, to, &c.asks_metal, c.name), status);
    if (status != PILHANGKO_OK) return;
    writes(&call_lines, "move %" PRIu64 " %" PRIu64, from, to);
    writes_request(&c);
}

static void captures_small_call(void) {
    const uint32_t what = next_small(4);
    const uint64_t number = next_number();
    const char *name = next_name(); /* which may be any bytes */
    if (what == 0) IS(pilhangko_capture_freed(&capture, number), capture_status(PILHANGKO_OK));
    if (what == 1) IS(pilhangko_capture_released(&capture, number), capture_status(PILHANGKO_OK));
    if (what == 2) IS(pilhangko_capture_renamed(&capture, number, name), capture_status(PILHANGKO_OK));
    if (what == 3) IS(pilhangko_capture_set_committed(&capture), capture_status(PILHANGKO_OK));
    if (!has_capture) return;
    if (what < 2) writes(&call_lines, "%s %" PRIu64 "\n", what == 0 ? "free" : "release", number);
    if (what == 2) writes(&call_lines, "rename %" PRIu64 " %s\n", number, traced(name));
    if (what == 3) writes(&call_lines, "commit\n");
}

static void captures_bound(void) {
    const size_t at = next_byte() % 16 ? next_byte() % 40 : (size_t)next_number();
    const bool has = next_byte() % 2;
    const uint64_t bytes = next_byte() % 2 ? next_byte() % 2 : next_number(); /* often as before */
    const pilhangko_status status = capture_status(at < 32 ? PILHANGKO_OK : PILHANGKO_NO_SUCH_TYPE);
    IS(pilhangko_capture_bounded(&capture, at, has, bytes), status);
    if (status != PILHANGKO_OK) return;
    pilhangko_budget *told = &capture_budgets[at];
    if (has && (!told->exists || told->bytes != bytes)) writes(&call_lines, "budget %zu %" PRIu64 "\n", at, bytes);
    if (!has && told->exists) writes(&call_lines, "budget %zu none\n", at);
    told->exists = has;
    told->bytes = bytes;
}

static void looks_at_capture(void) {
    const bool is_destroyed = next_byte() % 2;
    const size_t near = (size_t)next_bytes(2), any = (size_t)next_number(), room = (size_t)next_bytes(2) % 2000;
    char bytes[2000];
    pilhangko_capture_end end = PILHANGKO_CAPTURE_TOO_LONG;
    size_t count = 77;
    memset(bytes, '?', sizeof bytes);
    whole_trace.length = 0;
    if (has_capture)
        writes(&whole_trace, "%.*snew\n%.*s%s", (int)device_lines.length, device_lines.bytes, (int)call_lines.length, call_lines.bytes,
            is_destroyed ? "destroy\n" : "");
    const size_t length = whole_trace.length, from = any % 8 ? near % (length + 2) : any, rest = from < length ? length - from : 0;
    IS(pilhangko_capture_how_far(&capture, &end), capture_status(PILHANGKO_OK));
    IS(pilhangko_capture_text(&capture, is_destroyed, from, bytes, room, &count), capture_status(PILHANGKO_OK));
    if (!has_capture) {
        CHECK(end == PILHANGKO_CAPTURE_TOO_LONG && count == 77);
        return;
    }
    CHECK(end == PILHANGKO_CAPTURE_WHOLE && count == (rest < room ? rest : room) && !memcmp(bytes, whole_trace.bytes + (rest ? from : 0), count));
    for (size_t i = count; i < sizeof bytes; i++) CHECK(bytes[i] == '?');
}

static void ends_capture(void) {
    IS(pilhangko_capture_destroy(&capture), capture_status(PILHANGKO_OK));
    has_capture = false;
}

/* ---- the calls */

static void calls_block(uint8_t what) {
    if (what < 5) creates_block();
    else if (what < 40) allocates_in_block();
    else if (what < 65) frees_or_renames_in_block(true);
    else if (what < 70) frees_or_renames_in_block(false);
    else if (what < 74) sets_word_in_block();
    else if (what < 83) looks_at_block();
    else ends_block(what == 83);
}

static void calls_type(uint8_t what) {
    if (what < 5) creates_type();
    else if (what < 30) prepares();
    else if (what < 45) installs_or_abandons(what < 43);
    else if (what < 65) frees_of_type();
    else if (what < 69) renames_of_type();
    else if (what < 73) sets_word_of_type();
    else if (what < 76) bounds_type();
    else if (what < 88) looks_at_type();
    else ends_type();
}

static void calls_allocator(uint8_t what) {
    if (what < 5) creates_allocator();
    else if (what < 22) begins_request();
    else if (what < 30) begins_by_flags();
    else if (what < 43) grants();
    else if (what < 50) refuses(what % 2);
    else if (what < 70) frees_of_allocator();
    else if (what < 75) renames_of_allocator();
    else if (what < 80) sets_word_of_allocator();
    else if (what < 83) bounds_allocator();
    else if (what < 84) limits_heap();
    else if (what < 85) limits_blocks();
    else if (what < 87) sets_smaller_blocks();
    else if (what < 94) looks_at_allocator();
    else if (what < 104) proposes_move();
    else ends_allocator();
}

static void calls_ring(uint8_t what) {
    if (what < 4) creates_ring();
    else if (what < 30) allocates_in_ring();
    else if (what < 38) ends_frame_of_ring();
    else if (what < 46) retires_in_ring();
    else if (what < 49) looks_at_ring();
    else ends_ring();
}

static void calls_capture(uint8_t what) {
    if (what < 4) creates_capture();
    else if (what < 20) captures_request();
    else if (what < 26) captures_move();
    else if (what < 34) captures_small_call();
    else if (what < 40) captures_bound();
    else if (what < 49) looks_at_capture();
    else ends_capture();
}

int LLVMFuzzerTestOneInput(const uint8_t *bytes, size_t length) {
    input = bytes;
    input_left = length;
    names_taken = 0;
    type_account.slot_count = 0;
    for (size_t i = 0; i < ACCOUNT_TYPES; i++) account.types[i].slot_count = 0;
    account.awaits_answer = false;
    for (unsigned calls = 0; input_left > 0 && calls < CALLS; calls++) {
        const uint8_t handle = next_byte() % 9;
        const uint8_t what = next_byte();
        if (handle < 2) calls_block(what % 85);
        else if (handle < 4) calls_type(what % 89);
        else if (handle < 7) calls_allocator(what % 105);
        else if (handle < 8) calls_ring(what % 50);
        else calls_capture(what % 50);
    }
    if (has_block) ends_block(false);
    if (has_type) ends_type();
    if (has_allocator) ends_allocator();
    if (has_ring) ends_ring();
    if (has_capture) ends_capture();
    return 0;
}
