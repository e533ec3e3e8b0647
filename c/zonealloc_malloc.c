/* The two memory functions of the archive, over the C library's own. docs/c.md tells what they owe. */
#define _POSIX_C_SOURCE 200112L
#include "zonealloc_memory.h"
#include <stdlib.h>

static void *memory_of(size_t bytes, size_t align)
{
    void *at;
    if (align <= sizeof(long double))
        return malloc(bytes);
    return posix_memalign(&at, align, bytes) == 0 ? at : NULL;
}

/* Where there is no memory `at` is some address all the same. (A small block of malloc's may be aligned to its size alone.) */
rattle_memory_t rattle_alloc(size_t bytes, size_t align)
{
    static long double none;
    void *at = memory_of(bytes > align ? bytes : align, align);
    rattle_memory_t memory;
    memory.ok = at != NULL;
    memory.at = memory.ok ? at : &none;
    return memory;
}

void rattle_dealloc(void *at)
{
    free(at);
}
