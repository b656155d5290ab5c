/* Moves that stay open over frames, by Pilhangko's DirectX 12 binding (include/pilhangko_d3d12.h): compile it with c/pilhangko_d3d12.c, as C11 or as
 * C++11. */
#include "pilhangko_d3d12_driver.h"

/* A committed resource has no heap, and stays. */
#define MAY_MOVE(allocation) ((allocation)->heap != NULL)
#include "pilhangko_defragment.h"
