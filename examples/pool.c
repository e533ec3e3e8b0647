/* A pool of 256 MiB: blocks of 4 KiB to 4 MiB are handed out and given back by their addresses, each aligned to its size. */
#define _DEFAULT_SOURCE
#include "zonealloc.h"
#include <stdio.h>
#include <stdlib.h>
#include <string.h>
#include <sys/mman.h>

enum { PAGE = 4096, PAGES = 65536, LARGEST = 10, BLOCKS = 2000, TURNS = 200000 };

typedef struct pool {
    unsigned char *begin, *pages;   /* what was mapped, and the first page in it */
    int is_mapped;
    zone_row_t row;
    zone_worker_t worker;
} pool_t;

typedef struct block {
    unsigned char *at;
    uint32_t order, stamp;
} block_t;

static const size_t largest_block = (size_t)PAGE << LARGEST;
static const size_t mapped_bytes = (size_t)PAGE * PAGES + ((size_t)PAGE << LARGEST);

/* The first page lies at a multiple of the largest block: then each block lies at a multiple of its own size. */
static int map_pages(pool_t *pool)
{
    void *begin = mmap(NULL, mapped_bytes, PROT_READ | PROT_WRITE, MAP_PRIVATE | MAP_ANONYMOUS, -1, 0);
    pool->is_mapped = begin != MAP_FAILED;
    if (!pool->is_mapped)
        begin = malloc(mapped_bytes);
    if (begin == NULL)
        return 0;
    pool->begin = (unsigned char *)begin;
    pool->pages = pool->begin + (largest_block - (uintptr_t)begin % largest_block) % largest_block;
    return 1;
}

static void unmap_pages(pool_t *pool)
{
    if (pool->is_mapped)
        munmap(pool->begin, mapped_bytes);
    else
        free(pool->begin);
}

static uint32_t pool_make(pool_t *pool)
{
    static const zone_spec_t normal = { 0, PAGES, 256, LARGEST, 6, "Normal" };
    uint32_t answer;
    memset(pool, 0, sizeof *pool);
    if (!map_pages(pool))
        return ZONE_NO_MEMORY;
    answer = zonealloc_make(&pool->row, &pool->worker, 1, &normal, 1, 0, 0);
    if (answer != ZONE_OK)
        unmap_pages(pool);
    return answer;
}

static uint32_t pool_unmake(pool_t *pool)
{
    uint32_t answer = zonealloc_dismiss(&pool->worker);
    if (answer == ZONE_OK)
        answer = zonealloc_unmake(&pool->row);
    unmap_pages(pool);
    return answer;
}

/* A block of 2^order pages, or NULL. */
static unsigned char *pool_take(pool_t *pool, uint32_t order)
{
    uint32_t page;
    if (zonealloc_alloc(&pool->worker, 0, order, ZONE_TYPE_MOVABLE, ZONE_LOW, &page) != ZONE_OK)
        return NULL;
    return pool->pages + (size_t)page * PAGE;
}

static uint32_t pool_give(pool_t *pool, unsigned char *at, uint32_t order)
{
    return zonealloc_free(&pool->worker, 0, (uint32_t)((size_t)(at - pool->pages) / PAGE), order);
}

static void print_info(pool_t *pool)
{
    uint8_t line[ZONE_INFO_LINE];
    size_t len;
    if (zonealloc_info(&pool->worker, 0, line, sizeof line, &len) == ZONE_OK)
        printf("%.*s", (int)len, (const char *)line);
}

/* The stamp stands in the block's first word and in its last. */
static void write_stamp(const block_t *block)
{
    memcpy(block->at, &block->stamp, sizeof block->stamp);
    memcpy(block->at + ((size_t)PAGE << block->order) - sizeof block->stamp, &block->stamp, sizeof block->stamp);
}

static int has_stamp(const block_t *block)
{
    const unsigned char *last = block->at + ((size_t)PAGE << block->order) - sizeof block->stamp;
    return memcmp(block->at, &block->stamp, sizeof block->stamp) == 0 && memcmp(last, &block->stamp, sizeof block->stamp) == 0;
}

static uint32_t next_random(uint32_t *seed)
{
    *seed = *seed * 1664525u + 1013904223u;
    return *seed >> 8;
}

/* Takes a block, or gives back the one that was taken in this place: what was written into it has to be there still. */
static int take_turn(pool_t *pool, block_t *block, uint32_t stamp, uint32_t order)
{
    if (block->at != NULL) {
        int is_whole = has_stamp(block) && pool_give(pool, block->at, block->order) == ZONE_OK;
        block->at = NULL;
        return is_whole;
    }
    block->order = order;
    block->stamp = stamp;
    block->at = pool_take(pool, order);
    if (block->at == NULL)
        return 1;
    write_stamp(block);
    return (uintptr_t)block->at % ((size_t)PAGE << order) == 0;
}

int main(void)
{
    static block_t blocks[BLOCKS];
    static pool_t pool;
    uint32_t seed = 7, wrong = 0, i;
    if (pool_make(&pool) != ZONE_OK)
        return 1;
    print_info(&pool);
    for (i = 0; i < TURNS; i++) {
        block_t *block = &blocks[next_random(&seed) % BLOCKS];
        uint32_t order = next_random(&seed) % 8 != 0 ? next_random(&seed) % 4 : next_random(&seed) % (LARGEST + 1);
        wrong += !take_turn(&pool, block, i, order);
    }
    print_info(&pool);
    for (i = 0; i < BLOCKS; i++)
        if (blocks[i].at != NULL)
            wrong += !take_turn(&pool, &blocks[i], 0, 0);
    print_info(&pool);
    printf("%u blocks were not as they were left\n", (unsigned)wrong);
    return pool_unmake(&pool) != ZONE_OK || wrong != 0;
}
