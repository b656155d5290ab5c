/* Moves that stay open over frames, by Pilhangko's Vulkan binding (include/pilhangko_vulkan.h): compile it with c/pilhangko_vulkan.c, as C11 or as
 * C++11. */
#include "pilhangko_vulkan_resource.h"

/* What is for one buffer or image alone is refused by its request. */
#define MAY_MOVE(allocation) ((void)(allocation), true)
#include "pilhangko_defragment.h"
