/* The two memory functions over malloc, with what they gave counted, and refused where a test wants it so. A program that includes this is
 * linked without another rattle_alloc. */
#ifndef COUNTED_MEMORY_H
#define COUNTED_MEMORY_H
#include "zonealloc_memory.h"
#include <stdint.h>
#include <stdlib.h>
#include <string.h>

typedef struct { void *whole; size_t bytes; } before_t;      /* what stands before a block */
static uint64_t asked, in_use, most_in_use, taken, blocks;   /* since the program began, but where a test sets them anew */
static uint64_t refuse_from, refuse_to;                      /* by their numbers, from 1 */

static void count_block(size_t bytes)
{
    blocks++;
    taken += bytes;
    in_use += bytes;
    most_in_use = in_use > most_in_use ? in_use : most_in_use;
}

/* What is given is not zeros. Where there is none, some address is told all the same. */
rattle_memory_t rattle_alloc(size_t bytes, size_t align)
{
    static long double none;
    rattle_memory_t got = { false, &none };
    before_t before;
    unsigned char *at;
    asked++;
    if (asked >= refuse_from && asked <= refuse_to)
        return got;
    before.bytes = bytes;
    before.whole = malloc(bytes + align + sizeof before);
    if (!before.whole)
        return got;
    at = (unsigned char *)before.whole + sizeof before;
    at += (align - (uintptr_t)at % align) % align;
    memcpy(at - sizeof before, &before, sizeof before);
    memset(at, 0xC3, bytes);
    count_block(bytes);
    got.ok = true;
    got.at = at;
    return got;
}

void rattle_dealloc(void *at)
{
    before_t before;
    memcpy(&before, (unsigned char *)at - sizeof before, sizeof before);
    memset(at, 0x3C, before.bytes);
    blocks--;
    in_use -= before.bytes;
    free(before.whole);
}

/* From the one of this number on, counted from now, so many are refused. */
static inline void refuse(uint64_t number, uint64_t count)
{
    refuse_from = asked + number;
    refuse_to = count > UINT64_MAX - refuse_from ? UINT64_MAX : refuse_from + count - 1;
}
#endif
