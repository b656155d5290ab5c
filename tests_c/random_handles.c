/* The rows of calls of fuzz_handles.c with random bytes in place of a fuzzer's: for where there is none. */
#include "fuzz_handles.h"
#include "test.h"

#define ROWS 30000
#define ROW_LENGTH 4096

int main(void) {
    static uint8_t row[ROW_LENGTH];
    for (unsigned i = 0; i < ROWS; i++) {
        const size_t length = 1 + (size_t)random_below(ROW_LENGTH);
        const uint64_t small = random_below(4); /* rows of small bytes have small numbers, and more that fits */
        for (size_t j = 0; j < length; j++) {
            const unsigned bits = random_below(4) < small ? 3 : 8;
            row[j] = (uint8_t)(random_number() >> (64 - bits));
        }
        CHECK(LLVMFuzzerTestOneInput(row, length) == 0);
    }
    printf("%u rows: %zu pieces of virtual blocks, %zu of memory types, %zu in new blocks of allocators, %zu of rings, %zu requests of captures\n",
        ROWS, fuzz_pieces[0], fuzz_pieces[1], fuzz_pieces[2], fuzz_pieces[3], fuzz_pieces[4]);
    for (unsigned i = 0; i < 5; i++) CHECK(fuzz_pieces[i] > 5000);
    return 0;
}
