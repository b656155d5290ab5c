// A virtual block from C++: a guard that destroys it, and that can't be copied or moved.
#include "pilhangko.h"
#include <cstdio>
#include <stdexcept>

class VirtualBlock {
public:
    VirtualBlock(uint64_t size, uint64_t page_size) { check(pilhangko_virtual_block_create(&block, size, page_size)); }
    ~VirtualBlock() { pilhangko_virtual_block_destroy(&block); }
    VirtualBlock(const VirtualBlock &) = delete;
    VirtualBlock &operator=(const VirtualBlock &) = delete;

    pilhangko_virtual_piece allocate(uint64_t size, uint64_t alignment, const char *name) {
        const pilhangko_virtual_request request = {size, alignment, PILHANGKO_KIND_LINEAR};
        pilhangko_virtual_piece piece;
        check(pilhangko_virtual_block_allocate(&block, &request, name, &piece));
        return piece;
    }
    void free(const pilhangko_virtual_piece &piece) { check(pilhangko_virtual_block_free(&block, &piece)); }

private:
    static void check(pilhangko_status status) {
        if (status != PILHANGKO_OK) throw std::runtime_error(pilhangko_status_text(status));
    }
    pilhangko_virtual_block block = {};
};

int main() {
    VirtualBlock block(1000, 1);
    const pilhangko_virtual_piece first = block.allocate(100, 1, "first");
    const pilhangko_virtual_piece second = block.allocate(100, 64, "second");
    std::printf("first at %llu, second at %llu\n", (unsigned long long)first.offset, (unsigned long long)second.offset);
    block.free(first);
    try {
        block.free(first);
    } catch (const std::runtime_error &refused) {
        std::printf("again: %s\n", refused.what());
        return 0;
    }
    return 1;
}
