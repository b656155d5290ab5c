/* Moves that stay open over frames, by Pilhangko's Metal binding (include/pilhangko_metal.h): compile it with c/pilhangko_metal.m, as Objective-C,
 * with ARC or without. */
#include "pilhangko_metal.h"

#define NAMED(rest) pilhangko_metal##rest
#define BYTES_OF(request) ((request)->size)
#include "pilhangko_moves.h"

#define MAY_MOVE(allocation) ((void)(allocation), true)
#include "pilhangko_defragment.h"
