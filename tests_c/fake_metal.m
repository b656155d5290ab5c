#import "fake_metal.h"

#include <stdio.h>
#include <stdlib.h>

struct fake_metal fake;

static FakeResource *living[FAKE_RESOURCES];

void fake_must(bool holds, const char *rule) {
    if (holds) return;
    fprintf(stderr, "fake_metal.m: %s\n", rule);
    abort();
}

/* ---- descriptors ---- */

@implementation MTLHeapDescriptor
- (NSUInteger)size {
    return size_;
}
- (void)setSize:(NSUInteger)size {
    size_ = size;
}
- (MTLStorageMode)storageMode {
    return storageMode_;
}
- (void)setStorageMode:(MTLStorageMode)mode {
    storageMode_ = mode;
}
- (MTLCPUCacheMode)cpuCacheMode {
    return cpuCacheMode_;
}
- (void)setCpuCacheMode:(MTLCPUCacheMode)mode {
    cpuCacheMode_ = mode;
}
- (MTLHeapType)type {
    return type_;
}
- (void)setType:(MTLHeapType)type {
    type_ = type;
}
@end

@implementation MTLTextureDescriptor
- (MTLPixelFormat)pixelFormat {
    return pixelFormat_;
}
- (void)setPixelFormat:(MTLPixelFormat)format {
    pixelFormat_ = format;
}
- (NSUInteger)width {
    return width_;
}
- (void)setWidth:(NSUInteger)width {
    width_ = width;
}
- (NSUInteger)height {
    return height_;
}
- (void)setHeight:(NSUInteger)height {
    height_ = height;
}
- (MTLResourceOptions)resourceOptions {
    return resourceOptions_;
}
- (void)setResourceOptions:(MTLResourceOptions)options {
    resourceOptions_ = options;
}
- (id)copyWithZone:(NSZone *)zone {
    MTLTextureDescriptor *copy = [[MTLTextureDescriptor allocWithZone:zone] init];
    [copy setPixelFormat:pixelFormat_];
    [copy setWidth:width_];
    [copy setHeight:height_];
    [copy setResourceOptions:resourceOptions_];
    return copy;
}
@end

@implementation MTLResidencySetDescriptor
@end

/* ---- resources ---- */

static NSUInteger whole(NSUInteger size, NSUInteger unit) {
    return (size + unit - 1) / unit * unit;
}

bool fake_overlaps(const FakeHeap *heap, NSUInteger offset, NSUInteger size) {
    for (unsigned i = 0; i < FAKE_RESOURCES; i++) {
        const FakeResource *it = living[i];
        if (it && it->heap == heap && offset < it->offset + it->taken && it->offset < offset + size) return true;
    }
    return false;
}

static void keep_living(FakeResource *resource) {
    unsigned i = 0;
    while (i < FAKE_RESOURCES && living[i]) i++;
    fake_must(i < FAKE_RESOURCES, "too many resources for the fake");
    living[i] = resource;
    fake.resources++;
}

/* A resource at a place of a heap, or nil where the heap refuses. */
static FakeResource *make_resource(FakeHeap *heap, NSUInteger length, NSUInteger unit, NSUInteger offset) {
    const NSUInteger taken = whole(length, unit);
    FakeResource *it;
    fake_must(length > 0, "a resource without bytes");
    fake_must(offset % unit == 0, "an offset that is no multiple of the resource's alignment");
    fake_must(offset <= heap->size && taken <= heap->size - offset, "a resource over the heap's end");
    fake_must(!fake_overlaps(heap, offset, taken), "a resource over another one");
    if (fake.refuses_resources) return nil;
    it = [[FakeResource alloc] init];
    it->heap = [heap retain];
    it->offset = offset;
    it->length = length;
    it->taken = taken;
    it->bytes = (heap->options & MTLResourceStorageModePrivate) ? NULL : calloc(length, 1);
    keep_living(it);
    return it;
}

@implementation FakeResource
- (NSString *)label {
    return label;
}
- (void)setLabel:(NSString *)text {
    [text retain];
    [label release];
    label = text;
}
- (NSUInteger)heapOffset {
    return offset;
}
- (NSUInteger)allocatedSize {
    return taken;
}
- (NSUInteger)length {
    return length;
}
- (NSUInteger)size {
    return length;
}
- (void *)contents {
    return bytes;
}
- (void)dealloc {
    for (unsigned i = 0; i < FAKE_RESOURCES; i++)
        if (living[i] == self) living[i] = nil;
    fake.resources--;
    free(bytes);
    [label release];
    [heap release];
    [super dealloc];
}
@end

/* ---- heaps ---- */

@implementation FakeHeap
- (NSUInteger)size {
    return size;
}
- (NSUInteger)allocatedSize {
    return size;
}
- (MTLResourceOptions)resourceOptions {
    return options;
}
- (id<MTLBuffer>)newBufferWithLength:(NSUInteger)length options:(MTLResourceOptions)asked offset:(NSUInteger)offset {
    fake_must(asked == options, "a buffer with other options than its heap's");
    return make_resource(self, length, FAKE_UNIT, offset);
}
- (id<MTLTexture>)newTextureWithDescriptor:(MTLTextureDescriptor *)descriptor offset:(NSUInteger)offset {
    fake_must([descriptor resourceOptions] == options, "a texture with other options than its heap's");
    return make_resource(self, [descriptor width] * [descriptor height] * 4, FAKE_TEXTURE_UNIT, offset);
}
- (id<MTLAccelerationStructure>)newAccelerationStructureWithSize:(NSUInteger)length offset:(NSUInteger)offset {
    return make_resource(self, length, FAKE_UNIT, offset);
}
- (void)dealloc {
    fake_must(members == 0, "a heap that goes is a member of a residency set");
    fake.heaps--;
    fake.heap_bytes -= size;
    [super dealloc];
}
@end

/* ---- residency sets ---- */

@implementation FakeSet
- (void)addAllocation:(id<MTLAllocation>)allocation {
    FakeHeap *heap = [(FakeHeap *)allocation retain];
    fake_must(heap->members == 0, "a heap that joins twice");
    fake_must(count < FAKE_HEAPS, "too many members for the fake");
    members[count++] = heap;
    heap->members++;
    fake.members = count;
}
- (void)removeAllocation:(id<MTLAllocation>)allocation {
    unsigned i = 0;
    while (i < count && members[i] != (FakeHeap *)allocation) i++;
    fake_must(i < count, "a heap that leaves and is no member");
    members[i]->members--;
    [members[i] release];
    for (; i + 1 < count; i++) members[i] = members[i + 1];
    fake.members = --count;
}
- (void)commit {
    fake.committed = count;
    fake.commits++;
}
- (void)dealloc {
    fake_must(count == 0, "a set that goes has members");
    fake.sets--;
    [super dealloc];
}
@end

/* ---- the device ---- */

/* Whether the question that comes now is refused. */
static bool refuses_next(void) {
    fake.questions++;
    return fake.questions == fake.refused[0] || fake.questions == fake.refused[1];
}

static MTLSizeAndAlign needs(NSUInteger size, NSUInteger unit) {
    const MTLSizeAndAlign told = {whole(size, unit), unit};
    return told;
}

@implementation FakeDevice
- (id)init {
    self = [super init];
    if (self) fake.devices++;
    return self;
}
- (BOOL)respondsToSelector:(SEL)selector {
    if (!fake.has_residency_sets && sel_isEqual(selector, @selector(newResidencySetWithDescriptor:error:))) return NO;
    return [super respondsToSelector:selector];
}
- (uint64_t)recommendedMaxWorkingSetSize {
    return fake.working_set;
}
- (NSUInteger)currentAllocatedSize {
    return fake.heap_bytes + fake.used_elsewhere;
}
- (MTLSizeAndAlign)heapBufferSizeAndAlignWithLength:(NSUInteger)length options:(MTLResourceOptions)options {
    fake_must(options == MTLResourceStorageModePrivate || (options & ~(NSUInteger)1) == MTLResourceStorageModeShared, "options of a buffer");
    return needs(length, FAKE_UNIT);
}
- (MTLSizeAndAlign)heapTextureSizeAndAlignWithDescriptor:(MTLTextureDescriptor *)descriptor {
    return needs([descriptor width] * [descriptor height] * 4, FAKE_TEXTURE_UNIT);
}
- (MTLSizeAndAlign)heapAccelerationStructureSizeAndAlignWithSize:(NSUInteger)size {
    return needs(size, FAKE_UNIT);
}
- (id<MTLHeap>)newHeapWithDescriptor:(MTLHeapDescriptor *)descriptor {
    FakeHeap *heap;
    fake_must([descriptor type] == MTLHeapTypePlacement, "a heap that isn't for placement");
    if (refuses_next()) return nil;
    heap = [[FakeHeap alloc] init];
    heap->size = [descriptor size];
    heap->options = ([descriptor storageMode] << 4) | [descriptor cpuCacheMode] | MTLResourceHazardTrackingModeUntracked;
    heap->number = ++fake.objects;
    fake.heaps++;
    fake.heap_bytes += heap->size;
    return heap;
}
- (id<MTLResidencySet>)newResidencySetWithDescriptor:(MTLResidencySetDescriptor *)descriptor error:(NSError **)error {
    (void)descriptor;
    if (error) *error = nil;
    if (refuses_next()) return nil;
    fake.objects++;
    fake.sets++;
    return [[FakeSet alloc] init];
}
- (void)dealloc {
    fake.devices--;
    [super dealloc];
}
@end

id<MTLDevice> MTLCreateSystemDefaultDevice(void) {
    fake.has_residency_sets = true;
    fake.working_set = (uint64_t)1 << 34;
    return [[FakeDevice alloc] init];
}
