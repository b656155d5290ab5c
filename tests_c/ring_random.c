/* 200,000 random calls on rings, each beside a plain account: every status, offset, frame and count has to be the account's. And 200,000
 * calls that keep to bounds: a ring of the size that the header tells for them refuses none. */
#include "ring_account.h"

#define RUNS 10
#define CALLS 20000

static pilhangko_ring ring;
static struct ring_account account;
static unsigned allocated, full, ended, crowded, retired, dead;

static void allocate(void) {
    uint64_t size = 1 + random_below(random_below(8) ? account.size / 4 + 2 : account.size + 2), alignment = 1 + random_below(64);
    uint64_t wanted = 0, offset = 77;
    if (random_below(2)) alignment = UINT64_C(1) << random_below(10);
    if (ring_allocate(&account, size, alignment, &wanted)) {
        IS(pilhangko_ring_allocate(&ring, size, alignment, &offset), PILHANGKO_OK);
        CHECK(offset == wanted);
        allocated++;
    } else {
        IS(pilhangko_ring_allocate(&ring, size, alignment, &offset), PILHANGKO_OUT_OF_MEMORY);
        CHECK(offset == 77);
        full++;
    }
}

static void end_frame(void) {
    uint64_t wanted = 0, frame = 77;
    if (ring_end_frame(&account, &wanted)) {
        IS(pilhangko_ring_end_frame(&ring, &frame), PILHANGKO_OK);
        CHECK(frame == wanted);
        ended++;
    } else {
        IS(pilhangko_ring_end_frame(&ring, &frame), PILHANGKO_TOO_MANY_FRAMES);
        CHECK(frame == 77);
        crowded++;
    }
}

/* a frame in flight, one that was retired, the open one, or one that never was */
static void retire(void) {
    uint64_t frame = account.oldest + random_below(account.frames + 3) - 1;
    bool live = ring_retire(&account, frame);
    IS(pilhangko_ring_retire(&ring, frame), live ? PILHANGKO_OK : PILHANGKO_NOT_LIVE);
    retired += live;
    dead += !live;
}

static void refused(void) {
    uint64_t offset = 77;
    pilhangko_ring_frame_counts counts = {7, 7};
    IS(pilhangko_ring_allocate(&ring, 0, 1, &offset), PILHANGKO_INVALID);
    IS(pilhangko_ring_allocate(&ring, 1, 0, &offset), PILHANGKO_INVALID);
    IS(pilhangko_ring_create(&ring, 10, 1), PILHANGKO_IN_USE);
    IS(pilhangko_ring_frame_statistics(&ring, account.oldest - 1, &counts), PILHANGKO_NOT_LIVE);
    IS(pilhangko_ring_frame_statistics(&ring, ring_open(&account), &counts), PILHANGKO_NOT_LIVE);
    CHECK(offset == 77 && counts.pieces == 7 && counts.bytes == 7);
}

static void step(void) {
    uint64_t what = random_below(100);
    if (what < 60) allocate();
    else if (what < 78) end_frame();
    else if (what < 98) retire();
    else refused();
    ring_same(&account, &ring);
}

/* Requests of at most `one` each and `all` a frame, a request counted with what its alignment may skip, and at most so many frames in flight:
 * none is refused. */
static void bounded(uint64_t one, uint64_t all, size_t frames) {
    uint64_t offset, frame, oldest = 0, asked = 0;
    size_t flying = 0;
    IS(pilhangko_ring_create(&ring, (frames + 1) * all + one - 1, frames), PILHANGKO_OK);
    for (unsigned i = 0; i < CALLS; i++) {
        uint64_t cost = 1 + random_below(one), size = 1 + random_below(cost);
        if (asked + cost <= all && random_below(4)) {
            IS(pilhangko_ring_allocate(&ring, size, cost - size + 1, &offset), PILHANGKO_OK);
            CHECK(offset % (cost - size + 1) == 0);
            asked += cost;
        } else if (flying < frames && random_below(2)) {
            IS(pilhangko_ring_end_frame(&ring, &frame), PILHANGKO_OK);
            flying++;
            asked = 0;
        } else if (flying > 0) {
            uint64_t some = random_below(flying);
            IS(pilhangko_ring_retire(&ring, oldest + some), PILHANGKO_OK);
            flying -= (size_t)some + 1;
            oldest += some + 1;
        }
    }
    IS(pilhangko_ring_destroy(&ring), PILHANGKO_OK);
}

int main(void) {
    const uint64_t sizes[RUNS] = {1, 7, 64, 100, 255, 512, 777, 1000, 1024, 4096};
    const size_t rooms[RUNS] = {1, 2, 3, 0, 1, 4, 2, 3, 8, 60};
    for (unsigned run = 0; run < RUNS; run++) {
        random_state = run;
        ring_begin(&account, sizes[run], rooms[run]);
        IS(pilhangko_ring_create(&ring, sizes[run], rooms[run]), PILHANGKO_OK);
        for (unsigned i = 0; i < CALLS; i++) step();
        IS(pilhangko_ring_destroy(&ring), PILHANGKO_OK);
    }
    for (unsigned run = 0; run < RUNS; run++) {
        uint64_t one = 1 + random_below(300);
        bounded(one, one + random_below(2000), 1 + random_below(4));
    }
    printf("200000 calls: %u pieces allocated, %u refused, %u frames ended, %u not, %u retired, %u not live\n", allocated, full, ended, crowded,
        retired, dead);
    printf("200000 calls within bounds: no request refused\n");
    CHECK(allocated > 10000 && full > 1000 && ended > 10000 && crowded > 1000 && retired > 10000 && dead > 1000);
    return 0;
}
