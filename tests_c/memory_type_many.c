/* Blocks of one memory type, each a piece's own: 80,000 of them take about four times as long as 20,000, and not sixteen times, so what a call
 * does doesn't grow with how many there are. */
#include "test.h"
#include <time.h>

#define FEW 20000
#define MANY (4 * FEW)

static pilhangko_memory_piece pieces[MANY];

static void comes(pilhangko_memory_type *type, size_t i) {
    const pilhangko_memory_request request = {256, 64, PILHANGKO_KIND_LINEAR, true};
    pilhangko_memory_prepared prepared;
    IS(pilhangko_memory_type_prepare(type, &request, "block", &prepared), PILHANGKO_OK);
    CHECK(prepared.needs_block && prepared.dedicated && prepared.block_size == 256);
    IS(pilhangko_memory_type_install(type, i, &pieces[i]), PILHANGKO_OK);
}

static void goes(pilhangko_memory_type *type, size_t i) {
    pilhangko_memory_block gone;
    IS(pilhangko_memory_type_free(type, &pieces[i], &gone), PILHANGKO_OK);
    CHECK(gone.exists && gone.block == i);
}

/* the processor's seconds for so many blocks: all come, and every second one goes and comes again, before all go */
static double seconds_for(size_t count) {
    const pilhangko_memory_type_settings settings = {false, 64, UINT64_C(256) << 20, 0, UINT64_C(64) << 20, 0, false, 0};
    pilhangko_memory_type type = {0};
    IS(pilhangko_memory_type_create(&type, &settings), PILHANGKO_OK);
    const clock_t begin = clock();
    for (size_t i = 0; i < count; i++) comes(&type, i);
    for (size_t i = 0; i < count; i += 2) goes(&type, i);
    for (size_t i = 0; i < count; i += 2) comes(&type, i);
    for (size_t i = 0; i < count; i++) goes(&type, i);
    const clock_t end = clock();
    IS(pilhangko_memory_type_destroy(&type), PILHANGKO_OK);
    return (double)(end - begin) / CLOCKS_PER_SEC;
}

static double least_of_five(size_t count) {
    double least = seconds_for(count);
    for (int i = 0; i < 4; i++) {
        const double other = seconds_for(count);
        least = other < least ? other : least;
    }
    return least;
}

int main(void) {
    const double few = least_of_five(FEW), many = least_of_five(MANY);
    printf("%d blocks: %.3f s; %d: %.3f s\n", FEW, few, MANY, many);
    CHECK(many < 10 * few);
    return 0;
}
