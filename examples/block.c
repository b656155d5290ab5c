/* A staging buffer: uploads are placed in one 64 MB buffer of the program's own, and freed once the GPU has read them. The library
 * says where each lies; the bytes are the program's. */
#include "pilhangko.h"
#include <stdio.h>

int main(void) {
    pilhangko_virtual_block staging = {0};
    pilhangko_virtual_piece vertices, texture;
    const pilhangko_virtual_request vertex_request = {.size = 3000, .alignment = 16, .kind = PILHANGKO_KIND_LINEAR};
    const pilhangko_virtual_request texture_request = {.size = 1 << 20, .alignment = 256, .kind = PILHANGKO_KIND_LINEAR};

    pilhangko_status status = pilhangko_virtual_block_create(&staging, UINT64_C(64) << 20, 1);
    if (status == PILHANGKO_OK) status = pilhangko_virtual_block_allocate(&staging, &vertex_request, "vertices", &vertices);
    if (status == PILHANGKO_OK) status = pilhangko_virtual_block_allocate(&staging, &texture_request, "texture", &texture);
    if (status != PILHANGKO_OK) {
        fprintf(stderr, "staging: %s\n", pilhangko_status_text(status));
        pilhangko_virtual_block_destroy(&staging);
        return 1;
    }
    printf("vertices at %llu, texture at %llu\n", (unsigned long long)vertices.offset, (unsigned long long)texture.offset);
    /* .. memcpy to these offsets, record the copies, wait for the GPU .. */
    status = pilhangko_virtual_block_free(&staging, &vertices);
    if (status == PILHANGKO_OK) status = pilhangko_virtual_block_free(&staging, &texture);

    size_t leaks = 0;
    if (status == PILHANGKO_OK) status = pilhangko_virtual_block_leak_count(&staging, &leaks);
    printf("%s, %zu leaks\n", pilhangko_status_name(status), leaks);
    pilhangko_virtual_block_destroy(&staging);
    return status != PILHANGKO_OK || leaks != 0;
}
