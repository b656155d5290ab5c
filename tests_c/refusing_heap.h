/* A heap in place of pilhangko_heap.c that refuses one of the requests for memory, and counts what is held. Sources that call malloc
 * themselves are compiled with -Dmalloc=refusing_malloc, and so on. */
#ifndef REFUSING_HEAP_H
#define REFUSING_HEAP_H
#include <stddef.h>
void *refusing_malloc(size_t size);
void *refusing_realloc(void *memory, size_t size);
void refusing_free(void *memory);
extern long heap_requests; /* so far */
extern long heap_refused;  /* the request that is refused, from 1; 0: none */
extern long heap_held;     /* what was given and has not come back */
#endif
