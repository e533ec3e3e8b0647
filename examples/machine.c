/* A machine of 16 GiB as pages of 4 KiB, cut into zones as Linux cuts it on x86-64, with a worker for each of eight processors: each runs in a
 * thread, takes blocks of all orders out of the highest zone or one below it, and now and then a page out of the lowest, and gives them back. At
 * the end all pages are free.
 * Argument: how many blocks a thread takes. */
#include "zonealloc_threads.h"
#include <pthread.h>
#include <stdio.h>
#include <stdlib.h>

enum { PROCESSORS = 8, ZONES = 3, HIGHEST = ZONES - 1, HELD = 64 };

/* 16 MiB for devices that reach no further, the rest up to 4 GiB, and the rest. Each keeps a 1,024th of its pages back. */
enum { DMA_END = 1 << 12, DMA32_END = 1 << 20, NORMAL_END = 1 << 22 };
static const zone_spec_t specs[ZONES] = {
    { 0, DMA_END, DMA_END >> 10, 10, 3, "DMA" },
    { DMA_END, DMA32_END - DMA_END, (DMA32_END - DMA_END) >> 10, 10, 5, "DMA32" },
    { DMA32_END, NORMAL_END - DMA32_END, (NORMAL_END - DMA32_END) >> 10, 10, 6, "Normal" }
};

typedef struct processor {
    uint32_t number;
    unsigned long blocks, wrong;
    pthread_t id;
} processor_t;

static zone_pool_t pool;
static processor_t processors[PROCESSORS];

/* Each 97th block is a page for a device, out of the lowest zone, which is too small for a large block of each worker; the others have the
 * orders in turn. */
static int is_for_device(unsigned long block)
{
    return block % 97 == 0;
}

static uint32_t order_of(unsigned long block)
{
    return is_for_device(block) ? 0 : (uint32_t)(block % ZONE_ORDERS);
}

/* So many blocks at a time. */
static void hold(processor_t *own, unsigned long first)
{
    uint32_t zones[HELD], pages[HELD], i;
    for (i = 0; i < HELD; i++) {
        zones[i] = is_for_device(first + i) ? 0 : HIGHEST;
        own->wrong += zone_alloc_pages(&pool, own->number, order_of(first + i), ZONE_TYPE_MOVABLE, ZONE_LOW, &zones[i], &pages[i]) != ZONE_OK;
    }
    for (i = 0; i < HELD; i++)
        own->wrong += zone_free_pages(&pool, own->number, zones[i], pages[i], order_of(first + i)) != ZONE_OK;
}

static void *work(void *given)
{
    processor_t *own = (processor_t *)given;
    unsigned long i;
    for (i = 0; i < own->blocks; i += HELD)
        hold(own, i);
    return NULL;
}

static unsigned long run(unsigned long blocks)
{
    unsigned long wrong = 0;
    uint32_t i;
    for (i = 0; i < PROCESSORS; i++) {
        processors[i].number = i;
        processors[i].blocks = blocks;
        if (pthread_create(&processors[i].id, NULL, work, &processors[i]) != 0)
            exit(2);
    }
    for (i = 0; i < PROCESSORS; i++) {
        (void)pthread_join(processors[i].id, NULL);
        wrong += processors[i].wrong;
    }
    return wrong;
}

/* Whether each page of the zone is free, but for those of workers' lists. */
static int is_whole(uint32_t zone)
{
    zone_totals_t totals;
    if (zone_pool_gather(&pool, zone, &totals) != ZONE_OK)
        return 0;
    printf("%-6.*s free %u cached %u of %u\n", (int)specs[zone].name_len, (const char *)specs[zone].name, (unsigned)totals.free,
           (unsigned)totals.cached, (unsigned)specs[zone].pages);
    return totals.lent == 0 && totals.posted == 0 && totals.free + totals.cached == specs[zone].pages;
}

int main(int argc, char **argv)
{
    unsigned long blocks = argc > 1 ? strtoul(argv[1], NULL, 10) : 100000, wrong;
    uint64_t bytes;
    uint32_t i;
    if (zonealloc_bytes(specs, ZONES, PROCESSORS, &bytes) != ZONE_OK || zone_pool_make(&pool, PROCESSORS, specs, ZONES, 31, 62) != ZONE_OK)
        return 2;
    printf("%u pages of 4 KiB in %u zones; their books take %u MiB at most\n", (unsigned)NORMAL_END, (unsigned)ZONES, (unsigned)(bytes >> 20));
    wrong = run(blocks);
    for (i = 0; i < PROCESSORS; i++)
        wrong += zone_pool_dismiss(&pool, i) != ZONE_OK;
    for (i = 0; i < ZONES; i++)
        wrong += !is_whole(i);
    return zone_pool_unmake(&pool) != ZONE_OK || wrong != 0;
}
