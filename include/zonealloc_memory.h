/* The two functions through which the archive takes memory and gives it back: the program supplies them, or links c/zonealloc_malloc.c.
 * docs/c.md tells what they owe. With ZONEALLOC_NO_STDINT no header is included: bool and size_t are then the includer's. */
#ifndef ZONEALLOC_MEMORY_H
#define ZONEALLOC_MEMORY_H
#ifndef ZONEALLOC_NO_STDINT
#include <stdbool.h>
#include <stddef.h>
#endif
#ifdef __cplusplus
extern "C" {
#endif

/* Whether there is memory, and where: in two registers. */
typedef struct rattle_memory { bool ok; void *at; } rattle_memory_t;

rattle_memory_t rattle_alloc(size_t bytes, size_t align);
void rattle_dealloc(void *at);

#ifdef __cplusplus
}
#endif
#endif
