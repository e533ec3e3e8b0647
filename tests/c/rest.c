/* The headers as a kernel has them: types of its own, no other header, and in zonealloc_threads.h a rest of its own. rest_threads.c is the
 * program round it. (It is built with -ffreestanding -nostdinc.) */
typedef __UINT8_TYPE__ uint8_t;
typedef __UINT32_TYPE__ uint32_t;
typedef __UINT64_TYPE__ uint64_t;
typedef __SIZE_TYPE__ size_t;
#ifndef __cplusplus
#define bool _Bool
#endif
#define NULL 0
#define ZONEALLOC_NO_STDINT
static void rest(uint32_t hints);
#define ZONEALLOC_REST(hints) rest(hints)
#include "zonealloc_memory.h"
#include "zonealloc_threads.h"
#include "rest.h"

uint64_t rests[REST_LENGTHS];

/* Counts the rests by their length: 256, 512, .. */
static void rest(uint32_t hints)
{
    uint32_t i, at = 0;
    while (at < REST_LENGTHS - 1 && (uint32_t)ZONE_FIRST_REST << at != hints)
        at++;
    __atomic_fetch_add(&rests[at], 1, __ATOMIC_RELAXED);
    for (i = 0; i < hints; i++)
        ZONE_HINT();
}

enum { PAGES = 4096, HELD = 8 };
static const zone_spec_t normal = { 0, PAGES, 0, 10, 6, { 'N', 'o', 'r', 'm', 'a', 'l' } };
static zone_pool_t pool;

uint32_t begin(uint32_t workers)
{
    return zone_pool_make(&pool, workers, &normal, 1, 3, 6);
}

/* Blocks of several orders and single pages come and go, so many times. How many calls failed. */
uint32_t use(uint32_t worker, uint32_t times)
{
    uint32_t pages[HELD], i, at, zone, failed = 0;
    for (i = 0; i < times; i++) {
        for (at = 0, zone = 0; at < HELD; at++)
            failed += zone_alloc_pages(&pool, worker, at % 4, ZONE_TYPE_MOVABLE, ZONE_ANY, &zone, &pages[at]) != ZONE_OK;
        for (at = 0; at < HELD; at++)
            failed += zone_free_pages(&pool, worker, 0, pages[at], at % 4) != ZONE_OK;
    }
    return failed;
}

/* Whether all pages are where they were, once all workers' lists are. */
uint32_t end(uint32_t workers)
{
    zone_totals_t totals;
    uint32_t i, failed = 0;
    for (i = 0; i < workers; i++) {
        failed += zonealloc_drain_all(&pool.seats[i].worker, 0) != ZONE_OK;
        failed += zone_pool_dismiss(&pool, i) != ZONE_OK;
    }
    failed += zone_pool_gather(&pool, 0, &totals) != ZONE_OK || totals.free != PAGES;
    return failed + (zone_pool_unmake(&pool) != ZONE_OK);
}

/* Each rest is twice as long as the one before, up to the longest. How many are not. */
uint32_t lengths(void)
{
    uint32_t hints = ZONE_FIRST_REST, wrong = 0, at;
    for (at = 0; at < REST_LENGTHS - 1; at++) {
        uint32_t next = zone_rest(hints);
        wrong += next != (at < REST_LENGTHS - 2 ? hints * 2 : hints) || rests[at] != 1;
        hints = next;
    }
    return wrong + (hints != ZONE_LONGEST_REST) + (rests[REST_LENGTHS - 1] != 0);
}
