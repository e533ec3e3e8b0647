/* No C library: memory from an array of the program's own, and the functions that move and fill memory. For x86-64 Linux, of which it asks
 * for two system calls, to write and to exit. It ends with status 0, or with the number of the step that went wrong.
 *
 *     cc -std=c99 -O2 -ffreestanding -fno-stack-protector -nostdlib -static -I../include freestanding.c libzonealloc.a */
#include "zonealloc.h"
#include "zonealloc_memory.h"

enum { WORKERS = 4, ALIGN = 16 };

/* --- memory: docs/c.md tells what these owe --- */

void *memcpy(void *to, const void *from, size_t bytes);

static union { long double aligned; unsigned char bytes[4 << 20]; } memory;
static size_t used, lent, asked, calls;

/* Before each block stands how much it takes with that. What was given back is used again when all is back. */
rattle_memory_t rattle_alloc(size_t bytes, size_t align)
{
    rattle_memory_t got = { false, memory.bytes };
    size_t whole = ALIGN + (bytes + ALIGN - 1) / ALIGN * ALIGN;
    calls++;
    if (align > ALIGN || bytes > sizeof memory || whole > sizeof memory - used)
        return got;
    memcpy(memory.bytes + used, &whole, sizeof whole);
    got.ok = true;
    got.at = memory.bytes + used + ALIGN;
    used += whole;
    lent += whole;
    asked += bytes;
    return got;
}

void rattle_dealloc(void *at)
{
    size_t whole;
    calls++;
    memcpy(&whole, (unsigned char *)at - ALIGN, sizeof whole);
    lent -= whole;
    if (lent == 0)
        used = 0;
}

/* --- what compilers call of themselves: volatile, or they would make these loops calls of the same functions --- */

void *memmove(void *to, const void *from, size_t bytes);
void *memset(void *to, int value, size_t bytes);

void *memcpy(void *to, const void *from, size_t bytes)
{
    volatile unsigned char *at = (unsigned char *)to;
    const unsigned char *next = (const unsigned char *)from;
    while (bytes-- > 0)
        *at++ = *next++;
    return to;
}

void *memmove(void *to, const void *from, size_t bytes)
{
    volatile unsigned char *at = (unsigned char *)to;
    const unsigned char *next = (const unsigned char *)from;
    if ((uintptr_t)to <= (uintptr_t)from)
        return memcpy(to, from, bytes);
    while (bytes-- > 0)
        at[bytes] = next[bytes];
    return to;
}

void *memset(void *to, int value, size_t bytes)
{
    volatile unsigned char *at = (unsigned char *)to;
    while (bytes-- > 0)
        *at++ = (unsigned char)value;
    return to;
}

/* --- the system --- */

static long system_call(long number, long first, long second, long third)
{
    long answer;
    __asm__ volatile("syscall" : "=a"(answer) : "a"(number), "D"(first), "S"(second), "d"(third) : "rcx", "r11", "memory");
    return answer;
}

static void print(const uint8_t *text, size_t bytes)
{
    (void)system_call(1, 1, (long)text, (long)bytes);
}

/* --- the program --- */

static const zone_spec_t normal = { 0, 65536, 128, 10, 6, "Normal" };
static zone_row_t row;
static zone_worker_t workers[WORKERS];

/* Each call but those that make and unmake, once at least; the lists many times. */
static int use_row(void)
{
    zone_counts_t counts;
    zone_page_t page_told;
    zone_pageblock_t pageblock_told;
    uint32_t page, single, order, number, i;
    if (zonealloc_alloc(&workers[0], 0, 4, ZONE_TYPE_MOVABLE, ZONE_LOW, &page) || zonealloc_post(&workers[0], 0, page, 4, 3))
        return 1;
    if (zonealloc_collect(&workers[3], 0, &page, &order) || order != 4 || zonealloc_free(&workers[3], 0, page, order))
        return 1;
    if (zonealloc_alloc_low(&workers[1], 0, 10, &page) || page != 0 || zonealloc_free(&workers[1], 0, page, 10))
        return 1;
    if (zonealloc_isolate(&workers[1], 0, 5) || zonealloc_release(&workers[1], 0, 5, ZONE_TYPE_RECLAIMABLE))
        return 1;
    for (i = 0; i < 1000; i++) {
        if (zonealloc_refill(&workers[2], 0, ZONE_TYPE_MOVABLE, ZONE_ANY) || zonealloc_take(&workers[2], 0, ZONE_TYPE_MOVABLE, &single))
            return 1;
        if (zonealloc_is_lent(&workers[2], 0, single, 0, &number) || number != 1 || zonealloc_put(&workers[2], 0, single))
            return 1;
        if (zonealloc_cached(&workers[2], 0, ZONE_TYPE_MOVABLE, &number) || number != 31 || zonealloc_drain(&workers[2], 0, ZONE_TYPE_MOVABLE, 30))
            return 1;
        if (zonealloc_drain_all(&workers[2], 0))
            return 1;
    }
    if (zonealloc_page(&workers[0], 0, 0, &page_told) || zonealloc_pageblock(&workers[0], 0, 0, &pageblock_told))
        return 1;
    return zonealloc_counts(&workers[0], 0, &counts) != ZONE_OK || counts.free != normal.pages;
}

static int print_info(void)
{
    uint8_t line[ZONE_INFO_LINE];
    size_t bytes;
    if (zonealloc_info(&workers[0], 0, line, sizeof line, &bytes))
        return 1;
    print(line, bytes);
    return 0;
}

static int end_workers(void)
{
    int i;
    for (i = 0; i < WORKERS; i++)
        if (zonealloc_dismiss(&workers[i]))
            return 1;
    return 0;
}

/* Only a making, a dismissal and an unmaking ask for memory or give it back, no more than was said, and all of it comes back. */
static int run(void)
{
    zone_totals_t totals;
    uint64_t most;
    size_t before;
    asked = 0;
    if (zonealloc_bytes(&normal, 1, WORKERS, &most) || most > sizeof memory / 2 || calls != 0)
        return 1;
    if (zonealloc_make(&row, workers, WORKERS, &normal, 1, 31, 62) || asked == 0 || asked > most)
        return 2;
    before = calls;
    if (print_info() || use_row() || print_info())
        return 3;
    if (calls != before)
        return 4;
    if (end_workers())
        return 5;
    before = calls;
    if (zonealloc_gather(&row, 0, &totals) || totals.free != normal.pages || calls != before)
        return 6;
    if (zonealloc_unmake(&row) || lent != 0)
        return 7;
    calls = 0;
    return 0;
}

/* Twice, as a row may be made again where one was. (The system leaves the stack as no caller would.) */
__attribute__((force_align_arg_pointer)) void _start(void);
void _start(void)
{
    int step = run();
    if (step == 0)
        step = run();
    (void)system_call(60, step, 0, 0);
    for (;;)
        ;
}
