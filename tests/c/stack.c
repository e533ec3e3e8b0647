/* How deep each call of zonealloc.h gets: each is made on a stack that was filled before, and the lowest byte that it has written tells. Seeded
 * requests to zones of several sizes, filled and emptied again and again, make each call do much as well as little; rows of one zone and of 64
 * are made, with each want of memory, and unmade. Prints of each call how often it was made, and the most bytes below its caller, the return
 * address with them. What it calls of the program, as memset, is counted, too. Answers 1 where a call answers what it can't, or where one gets
 * deeper than docs/kernels.md says. (Over an archive for kernels: cc -static -no-pie.) */
#define _XOPEN_SOURCE 700
#include "zonealloc.h"
#include "zonealloc_memory.h"
#include <stdio.h>
#include <stdlib.h>
#include <string.h>
#include <ucontext.h>

enum { STACK = 16384, FILL = 0xa5, WORKERS = 3, LIVE = 4096, HIGH_LEN = 62, BATCH = 31, ZONES = 3, MANY = 24 };
/* No request gets deeper, and no call at all: docs/kernels.md, and what this program adds to a call. */
enum { MOST_OF_REQUESTS = 1600, MOST = 7168 };

typedef struct block { uint32_t zone, page, order, worker; } block_t;      /* none: order ZONE_ORDERS */

static zone_row_t row;
static zone_worker_t workers[ZONE_WORKERS];
static zone_spec_t specs[ZONE_ZONES];
static size_t n_zones, n_workers;
static block_t live[LIVE];

/* --- memory: of one array, from its beginning for each row; one want can be refused --- */

static unsigned char memory[64 << 20] __attribute__((aligned(64)));
static size_t used;
static long refused_at = -1, allocations;

rattle_memory_t rattle_alloc(size_t bytes, size_t align)
{
    rattle_memory_t got = { 0, memory };
    size_t at = (used + align - 1) / align * align;
    if (allocations++ == refused_at || bytes > sizeof memory - at)
        return got;
    used = at + bytes;
    got.ok = 1;
    got.at = memory + at;
    return got;
}

void rattle_dealloc(void *at)
{
    (void)at;
}

/* --- a call on a stack of its own --- */

/* What a call is given, and what it tells. */
static struct {
    uint32_t worker, zone, order, type, mark, page, to, lent, number, count, pages, origin;
    union {
        zone_counts_t counts; zone_types_t types; zone_page_t page; zone_pageblock_t pageblock; zone_totals_t totals; uint8_t line[ZONE_INFO_LINE];
    } told;
    uint32_t blocks[MANY], orders[MANY];
    size_t len, room, many;
    uint64_t bytes;
} it;

#define W (&workers[it.worker])
static uint32_t nothing(void) { return 0; }
static uint32_t bytes(void) { return zonealloc_bytes(specs, n_zones, (uint32_t)n_workers, &it.bytes); }
static uint32_t make(void) { return zonealloc_make(&row, workers, n_workers, specs, n_zones, BATCH, HIGH_LEN); }
static uint32_t dismiss(void) { return zonealloc_dismiss(W); }
static uint32_t unmake(void) { return zonealloc_unmake(&row); }
static uint32_t take(void) { return zonealloc_take(W, it.zone, it.type, &it.page); }
static uint32_t put(void) { return zonealloc_put(W, it.zone, it.page); }
static uint32_t is_lent(void) { return zonealloc_is_lent(W, it.zone, it.page, it.order, &it.lent); }
static uint32_t cached(void) { return zonealloc_cached(W, it.zone, it.type, &it.count); }
static uint32_t alloc(void) { return zonealloc_alloc(W, it.zone, it.order, it.type, it.mark, &it.page); }
static uint32_t alloc_told(void) { return zonealloc_alloc_told(W, it.zone, it.order, it.type, it.mark, &it.page, &it.origin); }
static uint32_t alloc_low(void) { return zonealloc_alloc_low(W, it.zone, it.order, &it.page); }
static uint32_t give(void) { return zonealloc_free(W, it.zone, it.page, it.order); }
static uint32_t alloc_many(void) { return zonealloc_alloc_many(W, it.zone, it.order, it.type, it.mark, it.blocks, it.room, &it.many); }
static uint32_t free_many(void) { return zonealloc_free_many(W, it.zone, it.blocks, it.room, it.orders, it.room, &it.many); }
static uint32_t alloc_run(void) { return zonealloc_alloc_run(W, it.zone, it.pages, it.order, it.mark, &it.page); }
static uint32_t alloc_run_at(void) { return zonealloc_alloc_run_at(W, it.zone, it.page, it.pages); }
static uint32_t free_run(void) { return zonealloc_free_run(W, it.zone, it.page, it.pages); }
static uint32_t post(void) { return zonealloc_post(W, it.zone, it.page, it.order, it.to); }
static uint32_t collect(void) { return zonealloc_collect(W, it.zone, &it.page, &it.order); }
static uint32_t isolate(void) { return zonealloc_isolate(W, it.zone, it.number); }
static uint32_t release(void) { return zonealloc_release(W, it.zone, it.number, it.type); }
static uint32_t refill(void) { return zonealloc_refill(W, it.zone, it.type, it.mark); }
static uint32_t drain(void) { return zonealloc_drain(W, it.zone, it.type, it.count); }
static uint32_t drain_all(void) { return zonealloc_drain_all(W, it.zone); }
static uint32_t counts(void) { return zonealloc_counts(W, it.zone, &it.told.counts); }
static uint32_t counts_by_type(void) { return zonealloc_counts_by_type(W, it.zone, &it.told.types); }
static uint32_t info(void) { return zonealloc_info(W, it.zone, it.told.line, ZONE_INFO_LINE, &it.len); }
static uint32_t page(void) { return zonealloc_page(W, it.zone, it.page, &it.told.page); }
static uint32_t pageblock(void) { return zonealloc_pageblock(W, it.zone, it.number, &it.told.pageblock); }
static uint32_t gather(void) { return zonealloc_gather(&row, it.zone, &it.told.totals); }

typedef enum { NOTHING, BYTES, MAKE, DISMISS, UNMAKE, TAKE, PUT, IS_LENT, CACHED, ALLOC, ALLOC_TOLD, ALLOC_LOW, FREE, ALLOC_MANY,
               FREE_MANY, ALLOC_RUN, ALLOC_RUN_AT, FREE_RUN, POST, COLLECT, ISOLATE, RELEASE, REFILL, DRAIN, DRAIN_ALL, COUNTS, COUNTS_BY_TYPE, INFO, PAGE, PAGEBLOCK, GATHER, CALLS } call_t;
static struct { const char *name; uint32_t (*call)(void); unsigned long times, deepest; } calls[CALLS] = {
    { "nothing", nothing, 0, 0 }, { "bytes", bytes, 0, 0 }, { "make", make, 0, 0 }, { "dismiss", dismiss, 0, 0 }, { "unmake", unmake, 0, 0 },
    { "take", take, 0, 0 }, { "put", put, 0, 0 }, { "is_lent", is_lent, 0, 0 }, { "cached", cached, 0, 0 }, { "alloc", alloc, 0, 0 },
    { "alloc_told", alloc_told, 0, 0 }, { "alloc_low", alloc_low, 0, 0 }, { "free", give, 0, 0 }, { "alloc_many", alloc_many, 0, 0 },
    { "free_many", free_many, 0, 0 }, { "alloc_run", alloc_run, 0, 0 }, { "alloc_run_at", alloc_run_at, 0, 0 },
    { "free_run", free_run, 0, 0 }, { "post", post, 0, 0 }, { "collect", collect, 0, 0 }, { "isolate", isolate, 0, 0 },
    { "release", release, 0, 0 }, { "refill", refill, 0, 0 }, { "drain", drain, 0, 0 }, { "drain_all", drain_all, 0, 0 }, { "counts", counts, 0, 0 },
    { "counts_by_type", counts_by_type, 0, 0 }, { "info", info, 0, 0 }, { "page", page, 0, 0 }, { "pageblock", pageblock, 0, 0 },
    { "gather", gather, 0, 0 }
};

static unsigned char stack[STACK] __attribute__((aligned(4096)));
static ucontext_t here, there;
static uint32_t (*called)(void);
static volatile uint32_t answer;

static void run(void)
{
    answer = called();
}

/* Makes a call. (The fill is mended where it was written, no more.) */
static uint32_t ask(call_t call)
{
    unsigned long lowest = 0;
    called = calls[call].call;
    there.uc_link = &here;
    there.uc_stack.ss_sp = stack;
    there.uc_stack.ss_size = STACK;
    makecontext(&there, run, 0);
    if (swapcontext(&here, &there) != 0)
        exit(2);
    while (lowest < STACK && stack[lowest] == FILL)
        lowest++;
    calls[call].times++;
    if (calls[call].deepest < STACK - lowest)
        calls[call].deepest = STACK - lowest;
    memset(stack + lowest, FILL, STACK - lowest);
    return answer;
}

/* --- what is asked --- */

static uint32_t seed = 1;

static uint32_t next(uint32_t below)
{
    seed = seed * 1664525u + 1013904223u;
    return (uint32_t)(((uint64_t)(seed >> 4) * below) >> 28);
}

static void demand(int good, int line)
{
    if (good)
        return;
    printf("line %d: answer %u\n", line, (unsigned)answer);
    exit(1);
}
#define DEMAND(good) demand(good, __LINE__)

/* A block to a free place, or none where there is no place. */
static void keep(block_t block)
{
    uint32_t i = next(LIVE);
    if (live[i].order == ZONE_ORDERS)
        live[i] = block;
    else {
        it.worker = block.worker, it.zone = block.zone, it.page = block.page, it.order = block.order;
        DEMAND(ask(FREE) == ZONE_OK);
    }
}

static void keep_answered(uint32_t order)
{
    block_t block = { it.zone, it.page, order, it.worker };
    DEMAND(answer == ZONE_OK || answer == ZONE_NO_BLOCK || answer == ZONE_BELOW_MARK || answer == ZONE_NOTHING_POSTED);
    if (answer == ZONE_OK)
        keep(block);
}

static void give_back(block_t *block)
{
    it.worker = block->worker, it.zone = block->zone, it.page = block->page, it.order = block->order, it.to = next(WORKERS);
    if (block->order == 0 && next(4) != 0 && ask(PUT) != ZONE_LIST_FULL)
        DEMAND(answer == ZONE_OK);
    else
        DEMAND(ask(next(8) == 0 ? POST : FREE) == ZONE_OK);
    block->order = ZONE_ORDERS;
}

static void single(void)
{
    if (ask(TAKE) == ZONE_LIST_EMPTY && ask(REFILL) == ZONE_OK)
        (void)ask(TAKE);
    keep_answered(0);
}

static void drain_some(void)
{
    DEMAND(ask(CACHED) == ZONE_OK);
    if (it.count != 0)
        DEMAND(ask(DRAIN) == ZONE_OK);
    it.zone = next(ZONES);
    DEMAND(ask(DRAIN_ALL) == ZONE_OK);
}

static void look(void)
{
    call_t call = (call_t)(COUNTS + next(PAGEBLOCK - COUNTS + 1));
    it.page = specs[it.zone].base + next(specs[it.zone].pages);
    it.number = next(specs[it.zone].pages) >> specs[it.zone].largest;
    DEMAND(ask(next(2) == 0 ? IS_LENT : call) == ZONE_OK);
}

static void turn_pageblock(void)
{
    it.number = next(specs[it.zone].pages) >> specs[it.zone].largest;
    if (ask(next(2) == 0 ? ISOLATE : RELEASE) != ZONE_OK)
        DEMAND(answer == ZONE_ALREADY_ISOLATED || answer == ZONE_NOT_ISOLATED);
}

/* A run, of any number of pages, which is given back in two parts. */
static void run_of_pages(void)
{
    uint32_t pages = 1 + next(next(2) == 0 ? 8 : 3000), part = 1 + next(pages);
    it.order = next(12), it.pages = pages, it.page = specs[it.zone].base + next(specs[it.zone].pages);
    if (ask(next(2) == 0 ? ALLOC_RUN : ALLOC_RUN_AT) != ZONE_OK) {
        DEMAND(answer == ZONE_BELOW_MARK || answer == ZONE_NO_BLOCK || answer == ZONE_BAD_RUN || answer == ZONE_NOT_FREE);
        return;
    }
    it.page += part, it.pages = pages - part;
    DEMAND(ask(FREE_RUN) == (part == pages ? ZONE_NOT_LENT : ZONE_OK));
    it.page -= part, it.pages = part;
    DEMAND(ask(FREE_RUN) == ZONE_OK);
}

/* Many blocks of one order, which are given back in one call, too. */
static void many_blocks(void)
{
    size_t i;
    it.room = 1 + next(MANY);
    if (ask(ALLOC_MANY) != ZONE_OK)
        DEMAND(answer == ZONE_BELOW_MARK || answer == ZONE_NO_BLOCK);
    for (i = 0; i < MANY; i++)
        it.orders[i] = it.order;
    it.room = it.many;
    if (it.room != 0)
        DEMAND(ask(FREE_MANY) == ZONE_OK && it.many == it.room);
}

/* Requests, which fill the zones and then empty them, again and again. */
static void request(uint32_t is_filling)
{
    block_t *block = &live[next(LIVE)];
    uint32_t kind = next(64);
    it.worker = next(WORKERS), it.zone = next(ZONES), it.type = next(ZONE_TYPES), it.mark = next(3);
    it.order = next(3) == 0 ? next(ZONE_ORDERS) : next(4);
    if (kind < 4)
        look();
    else if (kind == 4)
        turn_pageblock();
    else if (kind == 5)
        drain_some();
    else if (kind < 8)
        run_of_pages();
    else if (kind == 8)
        many_blocks();
    else if (kind < 11)
        keep_answered(ask(COLLECT) == ZONE_OK ? it.order : 0);
    else if (kind < 40 ? is_filling : !is_filling) {
        if (next(3) == 0)
            single();
        else
            keep_answered(ask(next(8) == 0 ? ALLOC_LOW : next(4) == 0 ? ALLOC_TOLD : ALLOC) == ZONE_OK ? it.order : 0);
    } else if (block->order != ZONE_ORDERS)
        give_back(block);
}

/* --- rows --- */

static void open_row(size_t zones, size_t n, uint32_t pages, uint32_t largest)
{
    size_t i;
    uint32_t base = 0;
    for (i = 0; i < zones; i++) {
        specs[i] = (zone_spec_t){ base, pages, pages / 64, largest, 6, { 'N', 'o', 'r', 'm', 'a', 'l' } };
        base += (pages + 1023) / 1024 * 1024;
    }
    n_zones = zones;
    n_workers = n;
    used = 0;
    memset(&row, 0, sizeof row);
    memset(workers, 0, sizeof workers);
    DEMAND(ask(BYTES) == ZONE_OK);
}

static void close_row(void)
{
    for (it.worker = 0; it.worker < n_workers; it.worker++)
        DEMAND(ask(DISMISS) == ZONE_OK);
    for (it.zone = 0; it.zone < n_zones; it.zone++)
        DEMAND(ask(GATHER) == ZONE_OK);
    DEMAND(ask(UNMAKE) == ZONE_OK);
}

/* Each want of memory is refused once, until none is. */
static void refuse_each(size_t zones, size_t n)
{
    open_row(zones, n, 3000, 10);
    for (refused_at = 0; used = 0, allocations = 0, ask(MAKE) != ZONE_OK; refused_at += 1 + refused_at / 8)
        DEMAND(answer == ZONE_NO_MEMORY);
    refused_at = -1;
    close_row();
}

static void use_row(uint32_t pages, uint32_t largest)
{
    uint32_t i;
    open_row(ZONES, WORKERS, pages, largest);
    DEMAND(ask(MAKE) == ZONE_OK);
    for (i = 0; i < LIVE; i++)
        live[i].order = ZONE_ORDERS;
    for (i = 0; i < 60000; i++)
        request(i / 6000 % 2 == 0);
    close_row();
}

static int report(void)
{
    unsigned long bytes;
    int wrong = 0;
    call_t call;
    for (call = BYTES; call < CALLS; call++) {
        bytes = calls[call].deepest - calls[NOTHING].deepest + sizeof(void *);
        printf("%-16s %7lu calls, %5lu bytes at most\n", calls[call].name, calls[call].times, bytes);
        wrong |= calls[call].times == 0 || bytes > (call > UNMAKE ? MOST_OF_REQUESTS : MOST);
    }
    return wrong;
}

int main(void)
{
    memset(stack, FILL, STACK);
    getcontext(&there);
    (void)ask(NOTHING);
    refuse_each(1, 1);
    refuse_each(3, 4);
    refuse_each(ZONE_ZONES, ZONE_WORKERS);
    use_row(700, 3);
    use_row(8192, 10);
    use_row(70000, 10);
    return report();
}
