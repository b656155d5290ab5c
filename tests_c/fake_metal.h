/* A fake MTLDevice. It keeps what it made, refuses the questions that it is told to, and stops where the binding breaks a rule of Metal's. */
#ifndef FAKE_METAL_H
#define FAKE_METAL_H
#import <Metal/Metal.h>

#include <stdbool.h>

#define FAKE_HEAPS 4096
#define FAKE_RESOURCES 1024
#define FAKE_UNIT 256           /* of buffers and acceleration structures: sizes are whole ones, and offsets multiples */
#define FAKE_TEXTURE_UNIT 16384 /* of textures */

/* What the device has made. Questions are for a residency set, a heap or a resource: those for the first two, which a trace has too, are
 * numbered from 1. */
struct fake_metal {
    uint64_t questions;
    uint64_t refused[2];    /* of these numbers; 0 for none */
    bool refuses_resources; /* each one in a heap */
    bool has_residency_sets; /* whether the device knows the question */
    uint64_t objects;       /* how many sets and heaps were made: they are numbered from 1 */
    unsigned heaps, resources, sets, devices; /* those that live */
    uint64_t heap_bytes;                      /* of the heaps that live */
    uint64_t working_set, used_elsewhere;     /* what the device tells of its memory */
    unsigned members, committed, commits;     /* of the residency set: now, and when it was committed last */
};
extern struct fake_metal fake;

@interface FakeDevice : NSObject <MTLDevice>
@end

@class FakeSet;
@interface FakeHeap : NSObject <MTLHeap> {
@public
    NSUInteger size, number;
    MTLResourceOptions options;
    unsigned members; /* of how many sets it is one */
}
@end

/* One class for all kinds. */
@interface FakeResource : NSObject <MTLBuffer, MTLTexture, MTLAccelerationStructure> {
@public
    FakeHeap *heap;
    NSUInteger offset, length, taken;
    NSString *label;
    char *bytes; /* where the host sees it */
}
@end

@interface FakeSet : NSObject <MTLResidencySet> {
@public
    FakeHeap *members[FAKE_HEAPS]; /* retained, as in Metal */
    unsigned count;
}
@end

/* Stops where the rule doesn't hold. */
void fake_must(bool holds, const char *rule);

/* Another resource that lives in the heap has a byte of it. */
bool fake_overlaps(const FakeHeap *heap, NSUInteger offset, NSUInteger size);
#endif
