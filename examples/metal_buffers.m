/* Buffers and a texture in placement heaps that are resident: examples/README.md. On a Mac, with pilhangko_metal.m and pilhangko_heap.c:
 *     clang -fobjc-arc -Iinclude examples/metal_buffers.m c/pilhangko_metal.m c/pilhangko_heap.c -Llib -lgpu_c -framework Metal -framework Foundation
 */
#include "pilhangko_metal.h"
#include <stdio.h>
#include <stdlib.h>

#define MESHES 100
#define MESH_BYTES 40000

static void check(pilhangko_status status) {
    if (status == PILHANGKO_OK) return;
    fprintf(stderr, "metal_buffers: %s\n", pilhangko_status_text(status));
    exit(1);
}

struct mesh {
    id<MTLBuffer> buffer;
    pilhangko_metal_allocation allocation;
};

/* A mesh that the host writes and the GPU reads. */
static void load(pilhangko_metal *metal, struct mesh *mesh, unsigned number) {
    const pilhangko_metal_placement placement = {PILHANGKO_LOCATION_CPU_TO_GPU, "mesh", number};
    check(pilhangko_metal_create_buffer(metal, MESH_BYTES, &placement, &mesh->buffer, &mesh->allocation));
    memset([mesh->buffer contents], (int)(number % 256), MESH_BYTES);
}

/* Once the GPU is through with it. */
static void unload(pilhangko_metal *metal, struct mesh *mesh) {
    PILHANGKO_METAL_RELEASE(mesh->buffer);
    check(pilhangko_metal_free(metal, &mesh->allocation));
}

/* A texture that the GPU alone sees. */
static void draw(pilhangko_metal *metal) {
    const pilhangko_metal_placement placement = {PILHANGKO_LOCATION_GPU_ONLY, "target", 0};
    MTLTextureDescriptor *descriptor = [[MTLTextureDescriptor alloc] init];
    id<MTLTexture> target = nil;
    pilhangko_metal_allocation allocation;
    [descriptor setPixelFormat:MTLPixelFormatRGBA8Unorm];
    [descriptor setWidth:1920];
    [descriptor setHeight:1080];
    check(pilhangko_metal_create_texture(metal, descriptor, &placement, &target, &allocation));
    check(pilhangko_metal_commit(metal)); /* its heap is resident from here on: [queue addResidencySet:..] once, and encode */
    printf("a target of %llu bytes at %llu\n", (unsigned long long)allocation.size, (unsigned long long)allocation.offset);
    PILHANGKO_METAL_RELEASE(target);
    PILHANGKO_METAL_RELEASE(descriptor);
    check(pilhangko_metal_free(metal, &allocation));
}

int main(void) {
    static struct mesh meshes[MESHES];
    id<MTLDevice> device = MTLCreateSystemDefaultDevice();
    pilhangko_metal_settings settings;
    pilhangko_metal_memory memory;
    pilhangko_metal_ending ending;
    pilhangko_metal metal = {0};
    memset(&settings, 0, sizeof settings);
    settings.device = device;
    settings.has_residency_set = true;
    check(pilhangko_metal_create(&metal, &settings));
    for (unsigned i = 0; i < MESHES; i++) load(&metal, &meshes[i], i);
    check(pilhangko_metal_update_budgets(&metal)); /* once a frame */
    draw(&metal);
    check(pilhangko_metal_read_memory(&metal, &memory));
    printf("%d meshes in heaps of %llu bytes\n", MESHES, (unsigned long long)memory.held);
    for (unsigned i = 0; i < MESHES; i++) unload(&metal, &meshes[i]);
    check(pilhangko_metal_destroy(&metal, &ending));
    printf("%llu leaks\n", (unsigned long long)ending.leaks);
    PILHANGKO_METAL_RELEASE(device);
    return ending.leaks != 0;
}
