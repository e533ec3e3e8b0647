/* Four threads, each with a worker, take and give back blocks of two zones, and post some to each other. Then the workers are dismissed,
 * and the pages of each zone are where the threads say that they left them. Without a lock; with -DZONEALLOC_SLEEP over mutexes.
 * Argument: how many calls a thread makes. */
#include "zonealloc_threads.h"
#include <pthread.h>
#include <stdio.h>
#include <stdlib.h>

enum { THREADS = 4, KEPT = 200, ZONES = 2, POSTED = 200 };

typedef struct block { uint32_t zone, page, order; } block_t;

/* What a thread has, and how many pages it posted more than it collected: less than POSTED, and a block. */
typedef struct thread {
    uint32_t me, seed, kept;
    unsigned long calls, refused, wrong;
    int64_t posted[ZONES];
    block_t blocks[KEPT];
    pthread_t id;
} thread_t;

static const zone_spec_t specs[ZONES] = {
    { 0, 4096, 0, 10, 3, "DMA" }, { 4096, 16384, 64, 10, 6, "Normal" }
};
static zone_pool_t pool;
static thread_t threads[THREADS];

static uint32_t next_random(thread_t *thread)
{
    thread->seed = thread->seed * 1664525u + 1013904223u;
    return thread->seed >> 8;
}

static void note_answer(thread_t *thread, uint32_t answer)
{
    if (answer == ZONE_BELOW_MARK || answer == ZONE_NO_BLOCK || answer == ZONE_NOTHING_POSTED)
        thread->refused++;
    else if (answer != ZONE_OK)
        thread->wrong++;
}

static void take_block(thread_t *thread)
{
    block_t *block = &thread->blocks[thread->kept];
    uint32_t answer;
    block->order = next_random(thread) % 8 == 0 ? next_random(thread) % 6 : 0;
    block->zone = next_random(thread) % 4 == 0 ? 0 : 1;
    answer = zone_alloc_pages(&pool, thread->me, block->order, next_random(thread) % ZONE_TYPES, ZONE_LOW, &block->zone, &block->page);
    thread->kept += answer == ZONE_OK;
    note_answer(thread, answer);
}

static block_t some_block(thread_t *thread)
{
    uint32_t i = next_random(thread) % thread->kept;
    block_t block = thread->blocks[i];
    thread->blocks[i] = thread->blocks[--thread->kept];
    return block;
}

static void give_block(thread_t *thread)
{
    block_t block = some_block(thread);
    note_answer(thread, zone_free_pages(&pool, thread->me, block.zone, block.page, block.order));
}

static int may_post(const thread_t *thread)
{
    return thread->kept > 0 && thread->posted[0] + thread->posted[1] < POSTED;
}

static void post_block(thread_t *thread)
{
    zone_worker_t *worker = &pool.seats[thread->me].worker;
    block_t block = some_block(thread);
    uint32_t answer, to = (thread->me + 1) % THREADS;
    ZONE_ASK(&pool, block.zone, answer, zonealloc_post(worker, block.zone, block.page, block.order, to));
    if (answer == ZONE_OK)
        thread->posted[block.zone] += (int64_t)1 << block.order;
    note_answer(thread, answer);
}

static void collect_block(thread_t *thread)
{
    zone_worker_t *worker = &pool.seats[thread->me].worker;
    block_t *block = &thread->blocks[thread->kept];
    uint32_t answer;
    block->zone = next_random(thread) % ZONES;
    ZONE_ASK(&pool, block->zone, answer, zonealloc_collect(worker, block->zone, &block->page, &block->order));
    if (answer == ZONE_OK) {
        thread->posted[block->zone] -= (int64_t)1 << block->order;
        thread->kept++;
    }
    note_answer(thread, answer);
}

static void *work(void *given)
{
    thread_t *thread = (thread_t *)given;
    unsigned long i;
    for (i = 0; i < thread->calls; i++) {
        uint32_t choice = next_random(thread) % 64;
        if (choice < 2 && thread->kept < KEPT)
            collect_block(thread);
        else if (choice == 2 && may_post(thread))
            post_block(thread);
        else if (thread->kept == 0 || (choice < 34 && thread->kept < KEPT))
            take_block(thread);
        else
            give_block(thread);
    }
    return NULL;
}

static int run_threads(unsigned long calls)
{
    uint32_t i;
    for (i = 0; i < THREADS; i++) {
        threads[i].me = i;
        threads[i].seed = 7 + i;
        threads[i].calls = calls;
        if (pthread_create(&threads[i].id, NULL, work, &threads[i]) != 0)
            return 0;
    }
    for (i = 0; i < THREADS; i++)
        (void)pthread_join(threads[i].id, NULL);
    return 1;
}

static int64_t kept_pages(const thread_t *thread, uint32_t zone)
{
    int64_t pages = 0;
    uint32_t i;
    for (i = 0; i < thread->kept; i++)
        if (thread->blocks[i].zone == zone)
            pages += (int64_t)1 << thread->blocks[i].order;
    return pages;
}

/* Whether the archive's totals are those of the threads, and each page is in one of them. */
static int is_gathered(uint32_t zone)
{
    zone_totals_t totals;
    int64_t kept = 0, posted = 0;
    uint32_t i;
    if (zone_pool_gather(&pool, zone, &totals) != ZONE_OK)
        return 0;
    for (i = 0; i < THREADS; i++) {
        kept += kept_pages(&threads[i], zone);
        posted += threads[i].posted[zone];
    }
    printf("zone %u: free %u posted %u cached %u lent %u of %u\n", (unsigned)zone, (unsigned)totals.free, (unsigned)totals.posted,
           (unsigned)totals.cached, (unsigned)totals.lent, (unsigned)specs[zone].pages);
    return totals.lent == kept && totals.posted == posted
        && totals.free + totals.posted + totals.cached + totals.lent == specs[zone].pages;
}

int main(int argc, char **argv)
{
    unsigned long calls = argc > 1 ? strtoul(argv[1], NULL, 10) : 1000000, refused = 0, wrong = 0;
    uint32_t i;
    if (zone_pool_make(&pool, THREADS, specs, ZONES, 31, 62) != ZONE_OK || !run_threads(calls))
        return 1;
    for (i = 0; i < THREADS; i++) {
        wrong += zone_pool_dismiss(&pool, i) != ZONE_OK;
        wrong += threads[i].wrong;
        refused += threads[i].refused;
    }
    for (i = 0; i < ZONES; i++)
        wrong += !is_gathered(i);
    printf("%u threads, %lu calls each: %lu refused, %lu wrong\n", (unsigned)THREADS, calls, refused, wrong);
    return zone_pool_unmake(&pool) != ZONE_OK || wrong != 0;
}
