/* What tests_c/fake_metal declares its classes over, so that the binding is compiled with ARC where no Foundation is that knows it. Nothing
 * is linked against it. */
#ifndef FAKE_FOUNDATION_H
#define FAKE_FOUNDATION_H
#include <stddef.h>
#include <stdint.h>

typedef signed char BOOL;
typedef long NSInteger;
typedef unsigned long NSUInteger;
#define nil ((id)0)

@class NSString;
@protocol NSObject
- (BOOL)respondsToSelector:(SEL)selector;
@end
@protocol NSCopying
- (id)copy;
@end

__attribute__((objc_root_class))
@interface NSObject <NSObject>
+ (id)alloc;
- (id)init;
- (id)copy;
@end

@interface NSString : NSObject
- (id)initWithUTF8String:(const char *)bytes;
@end

@interface NSError : NSObject
@end
#endif
