/* The numbers of bindings that eight threads make at once: each comes once. In C and in C++, which count by different means. */
#include "../c/pilhangko_shared.h"
#include "test.h"
#include <pthread.h>

#define THREADS 8
#define NUMBERS 200000 /* of each thread */

static uint64_t numbers[THREADS][NUMBERS];
static bool came[THREADS * NUMBERS + 1];

static void *counts(void *own) {
    for (unsigned i = 0; i < NUMBERS; i++) ((uint64_t *)own)[i] = next_number();
    return NULL;
}

int main(void) {
    pthread_t threads[THREADS];
    for (unsigned i = 0; i < THREADS; i++) CHECK(pthread_create(&threads[i], NULL, counts, numbers[i]) == 0);
    for (unsigned i = 0; i < THREADS; i++) CHECK(pthread_join(threads[i], NULL) == 0);
    for (unsigned i = 0; i < THREADS; i++) {
        for (unsigned j = 0; j < NUMBERS; j++) {
            const uint64_t number = numbers[i][j];
            CHECK(number >= 1 && number <= THREADS * NUMBERS && !came[number]);
            came[number] = true;
        }
    }
    return 0;
}
