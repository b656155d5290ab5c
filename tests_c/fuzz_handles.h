/* The fuzzer's target, for what calls it with bytes of its own. */
#ifndef FUZZ_HANDLES_H
#define FUZZ_HANDLES_H
#include <stddef.h>
#include <stdint.h>

int LLVMFuzzerTestOneInput(const uint8_t *bytes, size_t length);

/* Pieces that were allocated so far: in virtual blocks, in memory types' blocks that were there, in allocators' new blocks, in rings; and requests
 * that captures have. */
extern size_t fuzz_pieces[5];
#endif
