/* What Pilhangko's Metal binding calls of Metal, declared from the documentation of the API: the tests compile against it where there is no
 * Metal. It has nothing else. */
#ifndef FAKE_METAL_METAL_H
#define FAKE_METAL_METAL_H
#import <Foundation/Foundation.h>

/* ---- values ---- */

typedef NSUInteger MTLCPUCacheMode;
enum { MTLCPUCacheModeDefaultCache = 0, MTLCPUCacheModeWriteCombined = 1 };
typedef NSUInteger MTLStorageMode;
enum { MTLStorageModeShared = 0, MTLStorageModeManaged = 1, MTLStorageModePrivate = 2, MTLStorageModeMemoryless = 3 };
typedef NSUInteger MTLHazardTrackingMode;
enum { MTLHazardTrackingModeDefault = 0, MTLHazardTrackingModeUntracked = 1, MTLHazardTrackingModeTracked = 2 };
typedef NSInteger MTLHeapType;
enum { MTLHeapTypeAutomatic = 0, MTLHeapTypePlacement = 1, MTLHeapTypeSparse = 2 };
typedef NSUInteger MTLResourceOptions;
enum {
    MTLResourceCPUCacheModeDefaultCache = 0,
    MTLResourceCPUCacheModeWriteCombined = 1,
    MTLResourceStorageModeShared = 0 << 4,
    MTLResourceStorageModeManaged = 1 << 4,
    MTLResourceStorageModePrivate = 2 << 4,
    MTLResourceStorageModeMemoryless = 3 << 4,
    MTLResourceHazardTrackingModeUntracked = 1 << 8
};
typedef NSUInteger MTLPixelFormat;
enum { MTLPixelFormatRGBA8Unorm = 70 };

typedef struct {
    NSUInteger size;
    NSUInteger align;
} MTLSizeAndAlign;

/* ---- descriptors ---- */

@interface MTLHeapDescriptor : NSObject {
    NSUInteger size_;
    MTLStorageMode storageMode_;
    MTLCPUCacheMode cpuCacheMode_;
    MTLHeapType type_;
}
- (NSUInteger)size;
- (void)setSize:(NSUInteger)size;
- (MTLStorageMode)storageMode;
- (void)setStorageMode:(MTLStorageMode)mode;
- (MTLCPUCacheMode)cpuCacheMode;
- (void)setCpuCacheMode:(MTLCPUCacheMode)mode;
- (MTLHeapType)type;
- (void)setType:(MTLHeapType)type;
@end

@interface MTLTextureDescriptor : NSObject <NSCopying> {
    MTLPixelFormat pixelFormat_;
    NSUInteger width_, height_;
    MTLResourceOptions resourceOptions_;
}
- (MTLPixelFormat)pixelFormat;
- (void)setPixelFormat:(MTLPixelFormat)format;
- (NSUInteger)width;
- (void)setWidth:(NSUInteger)width;
- (NSUInteger)height;
- (void)setHeight:(NSUInteger)height;
- (MTLResourceOptions)resourceOptions;
- (void)setResourceOptions:(MTLResourceOptions)options;
@end

@interface MTLResidencySetDescriptor : NSObject
@end

/* ---- objects ---- */

@protocol MTLAllocation <NSObject>
- (NSUInteger)allocatedSize;
@end

@protocol MTLResource <MTLAllocation>
- (NSString *)label;
- (void)setLabel:(NSString *)label;
- (NSUInteger)heapOffset;
@end

@protocol MTLBuffer <MTLResource>
- (void *)contents;
- (NSUInteger)length;
@end

@protocol MTLTexture <MTLResource>
@end

@protocol MTLAccelerationStructure <MTLResource>
- (NSUInteger)size;
@end

@protocol MTLHeap <MTLAllocation>
- (NSUInteger)size;
- (MTLResourceOptions)resourceOptions;
- (id<MTLBuffer>)newBufferWithLength:(NSUInteger)length options:(MTLResourceOptions)options offset:(NSUInteger)offset;
- (id<MTLTexture>)newTextureWithDescriptor:(MTLTextureDescriptor *)descriptor offset:(NSUInteger)offset;
- (id<MTLAccelerationStructure>)newAccelerationStructureWithSize:(NSUInteger)size offset:(NSUInteger)offset;
@end

@protocol MTLResidencySet <NSObject>
- (void)addAllocation:(id<MTLAllocation>)allocation;
- (void)removeAllocation:(id<MTLAllocation>)allocation;
- (void)commit;
@end

@protocol MTLDevice <NSObject>
- (uint64_t)recommendedMaxWorkingSetSize;
- (NSUInteger)currentAllocatedSize;
- (MTLSizeAndAlign)heapBufferSizeAndAlignWithLength:(NSUInteger)length options:(MTLResourceOptions)options;
- (MTLSizeAndAlign)heapTextureSizeAndAlignWithDescriptor:(MTLTextureDescriptor *)descriptor;
- (MTLSizeAndAlign)heapAccelerationStructureSizeAndAlignWithSize:(NSUInteger)size;
- (id<MTLHeap>)newHeapWithDescriptor:(MTLHeapDescriptor *)descriptor;
- (id<MTLResidencySet>)newResidencySetWithDescriptor:(MTLResidencySetDescriptor *)descriptor error:(NSError **)error;
@end

#if defined(__has_feature) && defined(__clang__)
__attribute__((ns_returns_retained))
#endif
id<MTLDevice> MTLCreateSystemDefaultDevice(void);
#endif
