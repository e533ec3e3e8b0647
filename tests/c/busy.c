/* Two threads: one is nearly always in the one zone of a row, the other makes each call that wants the zone until it is answered ZONE_BUSY,
 * which has to come within so many tries. Such a call has changed nothing: not its results, not its handle, and not what the worker has of
 * its own. The calls are ones that change nothing where nobody is in either, but for frees, posts, drains and dismissals. In the end the pages are where
 * they are known to be. Prints one line and answers 0; or tells what was wrong and answers 1. */
#include "zonealloc.h"
#include "checking.h"
#include <inttypes.h>
#include <pthread.h>
#include <stdio.h>
#include <string.h>

/* The zone has half a pageblock, and so no block of order 10; and its mark is all its pages, so that what is held to it is refused. */
enum { BASE = 1024, PAGES = 512, BATCH = 31, HIGH_LEN = 64, ORDER = 3, TRIES = 20000000 };

static const zone_spec_t spec = { BASE, PAGES, PAGES, 10, 6, { 'N', 'o', 'r', 'm', 'a', 'l' } };
static zone_row_t row;
/* The first makes the calls, the last is the other thread's, and those between are dismissed. */
static zone_worker_t workers[ZONE_WORKERS];
static zone_worker_t *const mine = &workers[0], *const other = &workers[ZONE_WORKERS - 1];

/* --- the thread that is in the zone --- */

static pthread_mutex_t lock = PTHREAD_MUTEX_INITIALIZER;
static int is_over;

static int has_ended(void)
{
    int ended;
    pthread_mutex_lock(&lock);
    ended = is_over;
    pthread_mutex_unlock(&lock);
    return ended;
}

static void end(void)
{
    pthread_mutex_lock(&lock);
    is_over = 1;
    pthread_mutex_unlock(&lock);
}

static void *fill_and_drain(void *nothing)
{
    uint32_t i;
    while (!has_ended())
        for (i = 0; i < 1000; i++) {
            zonealloc_refill(other, 0, i % ZONE_TYPES, ZONE_ANY);
            zonealloc_drain_all(other, 0);
        }
    return nothing;
}

/* --- the calls that are made meanwhile --- */

/* What a call may write. */
typedef struct {
    uint32_t page, order, pages[2], origin;
    zone_counts_t counts;
    zone_types_t types;
    uint8_t line[ZONE_INFO_LINE];
    size_t len;
    zone_page_t noted;
    zone_pageblock_t block;
    zone_totals_t totals;
} told_t;

static told_t told, blank;
static uint32_t lent;        /* the page at which a block of this order is lent */
static size_t many;          /* how many blocks came or went, which is told whatever is answered */

static uint32_t alloc(void) { return zonealloc_alloc(mine, 0, 10, ZONE_TYPE_MOVABLE, ZONE_ANY, &told.page); }
static uint32_t alloc_told(void) { return zonealloc_alloc_told(mine, 0, 10, ZONE_TYPE_MOVABLE, ZONE_ANY, &told.page, &told.origin); }
static uint32_t alloc_low(void) { return zonealloc_alloc_low(mine, 0, 10, &told.page); }
static uint32_t give_back(void) { return zonealloc_free(mine, 0, lent, ORDER); }
static uint32_t alloc_run(void) { return zonealloc_alloc_run(mine, 0, PAGES + 1, 0, ZONE_ANY, &told.page); }
static uint32_t alloc_run_at(void) { return zonealloc_alloc_run_at(mine, 0, BASE, PAGES + 1); }
static uint32_t free_run(void) { return zonealloc_free_run(mine, 0, lent, 1 << ORDER); }
static uint32_t alloc_many(void) { many = 2; return zonealloc_alloc_many(mine, 0, 10, ZONE_TYPE_MOVABLE, ZONE_ANY, told.pages, 2, &many); }
static uint32_t free_many(void)
{
    const uint32_t pages[] = { lent, lent }, orders[] = { ORDER, ORDER };
    many = 2;
    return zonealloc_free_many(mine, 0, pages, 2, orders, 2, &many);
}
static uint32_t post(void) { return zonealloc_post(mine, 0, lent, ORDER, 0); }
static uint32_t collect(void) { return zonealloc_collect(mine, 0, &told.page, &told.order); }
static uint32_t isolate(void) { return zonealloc_isolate(mine, 0, 1); }
static uint32_t release(void) { return zonealloc_release(mine, 0, 0, ZONE_TYPE_MOVABLE); }
static uint32_t refill(void) { return zonealloc_refill(mine, 0, ZONE_TYPE_RECLAIMABLE, ZONE_MIN); }
static uint32_t drain(void) { return zonealloc_drain(mine, 0, ZONE_TYPE_MOVABLE, 1); }
static uint32_t drain_all(void) { return zonealloc_drain_all(mine, 0); }
static uint32_t counts(void) { return zonealloc_counts(mine, 0, &told.counts); }
static uint32_t counts_by_type(void) { return zonealloc_counts_by_type(mine, 0, &told.types); }
static uint32_t info(void) { return zonealloc_info(mine, 0, told.line, ZONE_INFO_LINE, &told.len); }
static uint32_t page(void) { return zonealloc_page(mine, 0, BASE, &told.noted); }
static uint32_t pageblock(void) { return zonealloc_pageblock(mine, 0, 0, &told.block); }
static uint32_t make_reader(void)
{
    zone_reader_t reader = ZONE_NONE;
    uint32_t answer = zonealloc_reader(mine, 0, &reader);
    CHECK((reader.live != 0) == (answer == ZONE_OK) && zonealloc_end_reader(&reader) == (answer == ZONE_OK ? ZONE_OK : ZONE_BAD_HANDLE));
    return answer;
}
static uint32_t gather(void) { return zonealloc_gather(&row, 0, &told.totals); }

/* Each call, and what it is answered where nobody else is in. */
static const struct { const char *name; uint32_t (*call)(void); uint32_t otherwise; } calls[] = {
    { "alloc_told", alloc_told, ZONE_NO_BLOCK },
    { "alloc", alloc, ZONE_NO_BLOCK },       { "alloc_low", alloc_low, ZONE_NO_BLOCK },    { "free", give_back, ZONE_OK },
    { "post", post, ZONE_OK },         { "collect", collect, ZONE_NOTHING_POSTED },  { "isolate", isolate, ZONE_BAD_PAGEBLOCK },
    { "release", release, ZONE_NOT_ISOLATED }, { "refill", refill, ZONE_BELOW_MARK },      { "drain", drain, ZONE_OK },
    { "drain_all", drain_all, ZONE_OK },     { "counts", counts, ZONE_OK },                { "info", info, ZONE_OK },
    { "page", page, ZONE_OK },               { "pageblock", pageblock, ZONE_OK },          { "gather", gather, ZONE_HAS_WORKERS },
    { "counts_by_type", counts_by_type, ZONE_OK }, { "alloc_run", alloc_run, ZONE_NO_BLOCK },
    { "alloc_run_at", alloc_run_at, ZONE_BAD_RUN }, { "free_run", free_run, ZONE_OK },
    { "alloc_many", alloc_many, ZONE_NO_BLOCK }, { "free_many", free_many, ZONE_NOT_LENT },
    { "reader", make_reader, ZONE_OK }
};

/* The block is lent: it is the one that was posted to the worker, or another. */
static void lend(void)
{
    uint32_t is_lent = 0, order, answer;
    CHECK(zonealloc_is_lent(mine, 0, lent, ORDER, &is_lent) == ZONE_OK);
    if (is_lent == 1)
        return;
    do {
        answer = zonealloc_collect(mine, 0, &lent, &order);
        if (answer == ZONE_NOTHING_POSTED)
            answer = zonealloc_alloc(mine, 0, ORDER, ZONE_TYPE_MOVABLE, ZONE_ANY, &lent);
    } while (answer == ZONE_BUSY);
    CHECK(answer == ZONE_OK);
}

/* The block is lent, the worker's list for movable pages has some, and the others have none. */
static void furnish(void)
{
    uint32_t pages = 0, answer = ZONE_OK;
    lend();
    CHECK(zonealloc_cached(mine, 0, ZONE_TYPE_MOVABLE, &pages) == ZONE_OK);
    if (pages > 0)
        return;
    do
        answer = zonealloc_refill(mine, 0, ZONE_TYPE_MOVABLE, ZONE_ANY);
    while (answer == ZONE_BUSY);
    CHECK(answer == ZONE_OK);
}

/* What the worker has of its own, for which no zone is asked. */
typedef struct { uint32_t is_lent, cached[ZONE_TYPES]; } own_t;

static own_t see_own(void)
{
    own_t own;
    uint32_t type;
    CHECK(zonealloc_is_lent(mine, 0, lent, ORDER, &own.is_lent) == ZONE_OK);
    for (type = 0; type < ZONE_TYPES; type++)
        CHECK(zonealloc_cached(mine, 0, type, &own.cached[type]) == ZONE_OK);
    return own;
}

/* Whether the call was answered ZONE_BUSY; then nothing has changed. */
static int is_refused(uint32_t (*call)(void), uint32_t otherwise)
{
    const zone_worker_t handle = *mine;
    const zone_row_t whole = row;
    own_t before = see_own(), after;
    uint32_t answer;
    memcpy(&told, &blank, sizeof told);
    many = 0;
    answer = call();
    if (answer != ZONE_BUSY) {
        CHECK(answer == otherwise && many == (call == free_many));
        furnish();
        return 0;
    }
    after = see_own();
    CHECK(memcmp(&told, &blank, sizeof told) == 0 && many == 0);
    CHECK(handle.live == mine->live && handle.at == mine->at && whole.live == row.live && whole.at == row.at);
    CHECK(memcmp(&before, &after, sizeof after) == 0);
    return 1;
}

static void make_calls(void)
{
    size_t i;
    uint32_t tries;
    for (i = 0; i < sizeof calls / sizeof *calls; i++) {
        for (tries = 0; tries < TRIES && failures == 0 && !is_refused(calls[i].call, calls[i].otherwise); tries++)
            ;
        check(tries < TRIES, calls[i].name, __LINE__);
    }
}

/* Workers are dismissed, each when somebody seems to be in, until one is told that its zone is busy: it has its place there still. */
static void dismiss_some(void)
{
    uint32_t i, busy = 0, tries, free;
    for (i = 1; i < ZONE_WORKERS - 1; i++) {
        const zone_worker_t handle = workers[i];
        for (tries = 0; busy == 0 && tries < TRIES && counts() != ZONE_BUSY; tries++)
            ;
        if (zonealloc_dismiss(&workers[i]) != ZONE_BUSY)
            continue;
        busy++;
        CHECK(handle.live == workers[i].live && handle.at == workers[i].at);
        CHECK(zonealloc_cached(&workers[i], 0, 0, &free) == ZONE_OK && free == 0);
        while (zonealloc_dismiss(&workers[i]) == ZONE_BUSY)
            ;
    }
    CHECK(busy > 0);
}

int main(void)
{
    pthread_t thread;
    memset(&blank, 0xA5, sizeof blank);
    CHECK(zonealloc_make_with_boards(&row, workers, ZONE_WORKERS, &spec, 1, BATCH, HIGH_LEN) == ZONE_OK);
    CHECK(zonealloc_alloc(mine, 0, ORDER, ZONE_TYPE_MOVABLE, ZONE_ANY, &lent) == ZONE_OK);
    furnish();
    if (pthread_create(&thread, NULL, fill_and_drain, NULL) != 0)
        return 1;
    make_calls();
    dismiss_some();
    end();
    CHECK(pthread_join(thread, NULL) == 0);
    CHECK(zonealloc_drain_all(mine, 0) == ZONE_OK && zonealloc_drain_all(other, 0) == ZONE_OK);
    CHECK(zonealloc_dismiss(mine) == ZONE_OK && zonealloc_dismiss(other) == ZONE_OK);
    CHECK(zonealloc_gather(&row, 0, &told.totals) == ZONE_OK);
    CHECK(told.totals.free == PAGES - (1u << ORDER) && told.totals.lent == 1u << ORDER && told.totals.cached == 0);
    CHECK(zonealloc_unmake(&row) == ZONE_OK);
    printf("busy: %u checks, %u failures\n", checks, failures);
    return failures == 0 ? 0 : 1;
}
