/* Moves by the Vulkan binding over a fake driver: rows, each status, each question to the driver and each request for host memory refused in
 * turn. All shared blocks have 4 MB, so that two pieces of 2 MB fill one. */
#include "fake_vulkan.h"
#include "refusing_heap.h"

#define OK ((pilhangko_status)PILHANGKO_OK)
#define MB (UINT64_C(1) << 20)

/* a memory type that the host sees and that needs no flush, and one that needs them */
#define COHERENT 2
#define CACHED 8

static pilhangko_vulkan binds(void) {
    pilhangko_vulkan vulkan = {0};
    pilhangko_vulkan_settings settings = fake_settings();
    settings.largest_host_block_size = settings.largest_device_block_size = 4 * MB;
    fake_begin();
    IS(pilhangko_vulkan_create(&vulkan, &settings), PILHANGKO_OK);
    return vulkan;
}

static pilhangko_vulkan_request asks(VkDeviceSize size, uint32_t bits) {
    pilhangko_vulkan_request request = fake_request(size, 64, bits);
    request.name = "a name that takes host memory of its own";
    return request;
}

static pilhangko_vulkan_allocation allocates(pilhangko_vulkan *vulkan, VkDeviceSize size, uint32_t bits) {
    const pilhangko_vulkan_request request = asks(size, bits);
    pilhangko_vulkan_allocation allocation;
    IS(pilhangko_vulkan_allocate(vulkan, &request, &allocation).status, OK);
    return allocation;
}

static void frees(pilhangko_vulkan *vulkan, const pilhangko_vulkan_allocation *allocation) {
    IS(pilhangko_vulkan_free(vulkan, allocation), OK);
}

static void ends(pilhangko_vulkan *vulkan) {
    pilhangko_vulkan_ending ending;
    IS(pilhangko_vulkan_destroy(vulkan, &ending), OK);
    CHECK(ending.leaks == 0 && fake.memory_count == 0 && heap_held == 0);
}

static void is_live(const pilhangko_vulkan *vulkan, const pilhangko_vulkan_allocation *allocation, bool expected) {
    bool live = !expected;
    IS(pilhangko_vulkan_is_live(vulkan, allocation, &live), OK);
    CHECK(live == expected);
}

/* Three of four pieces in two blocks: the third place is free. */
struct scene {
    pilhangko_vulkan vulkan;
    pilhangko_vulkan_allocation first, second, fourth;
};

static struct scene scene_of(uint32_t bits) {
    struct scene s = {.vulkan = binds()};
    s.first = allocates(&s.vulkan, 2 * MB, bits);
    s.second = allocates(&s.vulkan, 2 * MB, bits);
    const pilhangko_vulkan_allocation third = allocates(&s.vulkan, 2 * MB, bits);
    s.fourth = allocates(&s.vulkan, 2 * MB, bits);
    CHECK(s.first.memory == s.second.memory && third.memory == s.fourth.memory && third.offset == 0 && third.memory != s.first.memory);
    frees(&s.vulkan, &third);
    return s;
}

static void ends_scene(struct scene *s) {
    frees(&s->vulkan, &s->first);
    frees(&s->vulkan, &s->second);
    frees(&s->vulkan, &s->fourth);
    ends(&s->vulkan);
}

static void a_second_place(void) {
    struct scene s = scene_of(COHERENT);
    const pilhangko_vulkan_request request = asks(2 * MB, 31); /* its bits and location don't count */
    pilhangko_vulkan_allocation to, none;
    pilhangko_vulkan_allocation_told told;
    pilhangko_piece_view view;
    size_t shown;
    const uint64_t questions = fake.questions;
    bool moves = false;
    IS(pilhangko_vulkan_set_user_data(&s.vulkan, &s.first, 77), OK);
    IS(pilhangko_vulkan_propose_move(&s.vulkan, &s.first, &request, &moves, &to), OK);
    CHECK(moves && to.memory == s.fourth.memory && to.offset == 0 && to.size == 2 * MB && !to.dedicated && fake.questions == questions);
    IS(pilhangko_vulkan_read_allocation(&s.vulkan, &to, &told), OK);
    CHECK(told.user_data == 77 && told.mapped == pilhangko_vulkan_mapped(&s.vulkan, &to) && told.mapped);
    IS(pilhangko_allocator_pieces(pilhangko_vulkan_allocator(&s.vulkan), to.piece.memory_type, to.piece.piece.slot, 0, &view, 1, &shown), OK);
    CHECK(shown == 1 && view.number == to.piece.piece.number && view.word == 77);
    is_live(&s.vulkan, &s.first, true);
    memset(&none, 7, sizeof none);
    IS(pilhangko_vulkan_propose_move(&s.vulkan, &s.second, &request, &moves, &none), OK);
    CHECK(!moves && none.serial == UINT64_C(0x0707070707070707)); /* the second place takes room like any other */
    frees(&s.vulkan, &to); /* abandoned */
    IS(pilhangko_vulkan_propose_move(&s.vulkan, &s.first, &request, &moves, &to), OK);
    frees(&s.vulkan, &s.first); /* done */
    is_live(&s.vulkan, &to, true);
    s.first = to;
    frees(&s.vulkan, &s.fourth);
    IS(pilhangko_vulkan_propose_move(&s.vulkan, &s.second, &request, &moves, &s.fourth), OK);
    CHECK(moves && fake.memory_count == 2);
    frees(&s.vulkan, &s.second);
    CHECK(fake.memory_count == 1); /* the first block is empty, and went back */
    frees(&s.vulkan, &s.first);
    frees(&s.vulkan, &s.fourth);
    ends(&s.vulkan);
}

static void statuses(void) {
    struct scene s = scene_of(COHERENT);
    const pilhangko_vulkan_settings settings = fake_settings();
    pilhangko_vulkan empty = {0}, other = {0};
    pilhangko_vulkan_allocation to, gone = s.fourth;
    pilhangko_vulkan_request wrong;
    const pilhangko_vulkan_request request = asks(2 * MB, COHERENT);
    bool moves = true;
    memset(&to, 7, sizeof to);
    IS(pilhangko_vulkan_create(&other, &settings), PILHANGKO_OK);
    IS(pilhangko_vulkan_propose_move(NULL, &s.first, &request, &moves, &to), PILHANGKO_NULL_POINTER);
    IS(pilhangko_vulkan_propose_move(&s.vulkan, NULL, &request, &moves, &to), PILHANGKO_NULL_POINTER);
    IS(pilhangko_vulkan_propose_move(&s.vulkan, &s.first, NULL, &moves, &to), PILHANGKO_NULL_POINTER);
    IS(pilhangko_vulkan_propose_move(&s.vulkan, &s.first, &request, NULL, &to), PILHANGKO_NULL_POINTER);
    IS(pilhangko_vulkan_propose_move(&s.vulkan, &s.first, &request, &moves, NULL), PILHANGKO_NULL_POINTER);
    IS(pilhangko_vulkan_propose_move(&empty, &s.first, &request, &moves, &to), PILHANGKO_NO_HANDLE);
    IS(pilhangko_vulkan_propose_move(&other, &s.first, &request, &moves, &to), PILHANGKO_NOT_LIVE);
    gone.serial--;
    IS(pilhangko_vulkan_propose_move(&s.vulkan, &gone, &request, &moves, &to), PILHANGKO_NOT_LIVE);
    for (unsigned i = 0; i < 5; i++) {
        wrong = request;
        if (i == 0) wrong.requirements.size--;
        if (i == 1) wrong.requirements.alignment = 48;
        if (i == 2) wrong.scheme = PILHANGKO_SCHEME_BUFFER;
        if (i == 3) wrong.scheme = PILHANGKO_SCHEME_BUFFER, wrong.buffer = (VkBuffer)(uint64_t)9;
        if (i == 4) wrong.name = "\xff";
        IS(pilhangko_vulkan_propose_move(&s.vulkan, &s.first, &wrong, &moves, &to), PILHANGKO_INVALID);
        IS(pilhangko_vulkan_move_mapped(&s.vulkan, &s.first, &wrong, &moves).status, PILHANGKO_INVALID);
    }
    CHECK(moves && to.serial == UINT64_C(0x0707070707070707));
    IS(pilhangko_vulkan_move_mapped(NULL, &s.first, &request, &moves).status, PILHANGKO_NULL_POINTER);
    IS(pilhangko_vulkan_move_mapped(&s.vulkan, NULL, &request, &moves).status, PILHANGKO_NULL_POINTER);
    IS(pilhangko_vulkan_move_mapped(&s.vulkan, &s.first, NULL, &moves).status, PILHANGKO_NULL_POINTER);
    IS(pilhangko_vulkan_move_mapped(&s.vulkan, &s.first, &request, NULL).status, PILHANGKO_NULL_POINTER);
    IS(pilhangko_vulkan_move_mapped(&empty, &s.first, &request, &moves).status, PILHANGKO_NO_HANDLE);
    IS(pilhangko_vulkan_move_mapped(&s.vulkan, &gone, &request, &moves).status, PILHANGKO_NOT_LIVE);
    pilhangko_vulkan_allocation unseen = allocates(&s.vulkan, 2 * MB, 1);
    IS(pilhangko_vulkan_move_mapped(&s.vulkan, &unseen, &request, &moves).status, PILHANGKO_VULKAN_NOT_MAPPED);
    frees(&s.vulkan, &unseen);
    IS(pilhangko_vulkan_destroy(&other, NULL), OK);
    ends_scene(&s);
}

/* Each byte comes along, and the allocation is the one at the second place. */
static void mapped_ones_move(uint32_t bits) {
    struct scene s = scene_of(bits);
    const pilhangko_vulkan_request request = asks(2 * MB, bits);
    const pilhangko_vulkan_allocation old = s.first;
    unsigned char *bytes = (unsigned char *)pilhangko_vulkan_mapped(&s.vulkan, &s.first);
    bool moved = false;
    for (size_t i = 0; i < 2 * MB; i++) bytes[i] = (unsigned char)(i * 2654435761u >> 13);
    const uint64_t flushes = fake.flushes, invalidations = fake.invalidations;
    IS(pilhangko_vulkan_move_mapped(&s.vulkan, &s.first, &request, &moved).status, OK);
    CHECK(moved && s.first.memory == s.fourth.memory && s.first.offset == 0);
    is_live(&s.vulkan, &old, false);
    bytes = (unsigned char *)pilhangko_vulkan_mapped(&s.vulkan, &s.first);
    for (size_t i = 0; i < 2 * MB; i++) CHECK(bytes[i] == (unsigned char)(i * 2654435761u >> 13));
    CHECK(fake.flushes == flushes + (bits == CACHED) && fake.invalidations == invalidations + (bits == CACHED));
    IS(pilhangko_vulkan_move_mapped(&s.vulkan, &s.first, &request, &moved).status, OK);
    CHECK(!moved && s.first.memory == s.fourth.memory); /* nothing lies above */
    ends_scene(&s);
}

/* Invalidating and flushing, each refused: the allocation stays, with its bytes. */
static void each_question_refused(void) {
    for (uint64_t question = 1; question <= 2; question++) {
        struct scene s = scene_of(CACHED);
        const pilhangko_vulkan_request request = asks(2 * MB, CACHED);
        const pilhangko_vulkan_allocation old = s.first;
        unsigned char *bytes = (unsigned char *)pilhangko_vulkan_mapped(&s.vulkan, &s.first);
        bool moved = true;
        memset(bytes, 42, 2 * MB);
        fake.refusals[0] = (struct fake_refusal){fake.questions + question, FAKE_REFUSES, VK_ERROR_OUT_OF_HOST_MEMORY};
        const pilhangko_vulkan_result result = pilhangko_vulkan_move_mapped(&s.vulkan, &s.first, &request, &moved);
        IS(result.status, PILHANGKO_VULKAN_CALL_FAILED);
        CHECK(result.driver == VK_ERROR_OUT_OF_HOST_MEMORY && moved && s.first.serial == old.serial);
        is_live(&s.vulkan, &s.first, true);
        CHECK(bytes[0] == 42 && bytes[2 * MB - 1] == 42);
        moved = false;
        IS(pilhangko_vulkan_move_mapped(&s.vulkan, &s.first, &request, &moved).status, OK); /* the place is free still */
        CHECK(moved);
        ends_scene(&s);
    }
}

/* ---- the moves of a frame */

#define PIECES 12

struct frame {
    pilhangko_vulkan vulkan;
    pilhangko_vulkan_movable movables[PIECES];
};

/* Blocks of 4 MB are full of pieces of 1 MB; then the second and the third have a gap each, at their ends. */
static struct frame frame_of(void) {
    struct frame f = {.vulkan = binds()};
    for (unsigned i = 0; i < PIECES; i++) {
        f.movables[i].request = asks(MB, COHERENT);
        f.movables[i].allocation = allocates(&f.vulkan, MB, COHERENT);
        CHECK(f.movables[i].allocation.piece.piece.slot == i / 4);
    }
    frees(&f.vulkan, &f.movables[7].allocation);
    frees(&f.vulkan, &f.movables[11].allocation);
    f.movables[7] = f.movables[10]; /* ten are left, in no order of slots */
    return f;
}

static void ends_frame(struct frame *f) {
    for (unsigned i = 0; i < 10; i++) frees(&f->vulkan, &f->movables[i].allocation);
    ends(&f->vulkan);
}

static void is_move(const struct frame *f, const pilhangko_vulkan_move *move, size_t index, size_t slot, VkDeviceSize offset) {
    CHECK(move->index == index && move->to.piece.piece.slot == slot && move->to.offset == offset && move->to.size == MB);
    is_live(&f->vulkan, &f->movables[index].allocation, true);
    is_live(&f->vulkan, &move->to, true);
}

static void moves_of_a_frame(void) {
    struct frame f = frame_of();
    pilhangko_vulkan_move moves[PIECES];
    size_t proposed = 99;
    const pilhangko_vulkan_movable turned[] = {f.movables[5], f.movables[9], f.movables[1], f.movables[0]};
    IS(pilhangko_vulkan_propose_moves(&f.vulkan, turned, 4, MB - 1, moves, PIECES, &proposed), OK);
    CHECK(proposed == 0); /* above the bytes of a frame */
    IS(pilhangko_vulkan_propose_moves(&f.vulkan, turned, 4, 4 * MB, moves, 0, &proposed), OK);
    CHECK(proposed == 0);
    IS(pilhangko_vulkan_propose_moves(&f.vulkan, turned, 4, 2 * MB - 1, moves, PIECES, &proposed), OK);
    CHECK(proposed == 1 && moves[0].index == 2 && moves[0].to.piece.piece.slot == 2); /* of the lowest slot the first of the table */
    frees(&f.vulkan, &moves[0].to);
    IS(pilhangko_vulkan_propose_moves(&f.vulkan, f.movables, 10, 8 * MB, moves, PIECES, &proposed), OK);
    CHECK(proposed == 2); /* there are two gaps above */
    is_move(&f, &moves[0], 0, 2, 3 * MB);
    is_move(&f, &moves[1], 1, 1, 3 * MB);
    frees(&f.vulkan, &moves[0].to);
    frees(&f.vulkan, &moves[1].to);
    IS(pilhangko_vulkan_propose_moves(&f.vulkan, NULL, 0, 8 * MB, NULL, 0, &proposed), OK);
    CHECK(proposed == 0);
    ends_frame(&f);
}

/* A request in the middle of the table is no piece's: what was proposed before it is abandoned. */
static void a_frame_is_refused(void) {
    struct frame f = frame_of();
    pilhangko_vulkan empty = {0};
    pilhangko_vulkan_move moves[PIECES];
    size_t proposed = 99;
    VkDeviceSize before, behind;
    f.movables[1].request.requirements.size = MB - 1;
    IS(pilhangko_vulkan_propose_moves(&f.vulkan, f.movables, 10, 8 * MB, moves, PIECES, &proposed), PILHANGKO_INVALID);
    f.movables[1].request.requirements.size = MB;
    IS(pilhangko_vulkan_capacity(&f.vulkan, &before), OK);
    IS(pilhangko_vulkan_propose_moves(NULL, f.movables, 10, MB, moves, PIECES, &proposed), PILHANGKO_NULL_POINTER);
    IS(pilhangko_vulkan_propose_moves(&f.vulkan, NULL, 10, MB, moves, PIECES, &proposed), PILHANGKO_NULL_POINTER);
    IS(pilhangko_vulkan_propose_moves(&f.vulkan, f.movables, 10, MB, NULL, PIECES, &proposed), PILHANGKO_NULL_POINTER);
    IS(pilhangko_vulkan_propose_moves(&f.vulkan, f.movables, 10, MB, moves, PIECES, NULL), PILHANGKO_NULL_POINTER);
    IS(pilhangko_vulkan_propose_moves(&empty, f.movables, 10, MB, moves, PIECES, &proposed), PILHANGKO_NO_HANDLE);
    CHECK(proposed == 99);
    IS(pilhangko_vulkan_propose_moves(&f.vulkan, f.movables, 10, 8 * MB, moves, PIECES, &proposed), OK);
    CHECK(proposed == 2); /* both gaps are free still */
    frees(&f.vulkan, &moves[0].to);
    frees(&f.vulkan, &moves[1].to);
    IS(pilhangko_vulkan_capacity(&f.vulkan, &behind), OK);
    CHECK(before == behind);
    ends_frame(&f);
}

/* One request for host memory is refused: the call says so, and nothing else changes. */
static void each_request_for_host_memory_refused(void) {
    unsigned refused = 0;
    for (long n = 1;; n++) {
        struct scene s = scene_of(COHERENT);
        const pilhangko_vulkan_request request = asks(2 * MB, COHERENT);
        pilhangko_vulkan_allocation to;
        bool moves = true;
        heap_requests = 0;
        heap_refused = n;
        const pilhangko_status status = pilhangko_vulkan_propose_move(&s.vulkan, &s.first, &request, &moves, &to);
        heap_refused = 0;
        if (status == PILHANGKO_OK) {
            CHECK(moves);
            frees(&s.vulkan, &to);
            ends_scene(&s);
            break;
        }
        IS(status, PILHANGKO_HOST_OUT_OF_MEMORY);
        refused++;
        IS(pilhangko_vulkan_propose_move(&s.vulkan, &s.first, &request, &moves, &to), OK);
        CHECK(moves);
        frees(&s.vulkan, &to);
        ends_scene(&s);
    }
    CHECK(refused > 0);
}

int main(void) {
    a_second_place();
    statuses();
    mapped_ones_move(COHERENT);
    mapped_ones_move(CACHED);
    each_question_refused();
    moves_of_a_frame();
    a_frame_is_refused();
    each_request_for_host_memory_refused();
    return 0;
}
