/* zone_alloc_pages and zone_free_pages of zonealloc_threads.h, as far as the lists go: which list a page that comes back drains, and when a
 * worker's own lists go back to the zones. One thread. Prints one line and answers 0; or tells what was wrong and answers 1. */
#include "zonealloc_threads.h"
#include "checking.h"

enum { BATCH = 4, HIGH_LEN = 6, LOWER = 64, UPPER = 32, ZONES = 2, CREW = 2 };

/* The upper zone keeps half of its pages back. */
static const zone_spec_t specs[ZONES] = { { 0, LOWER, 0, 6, 3, { 'D', 'M', 'A' } }, { 1024, UPPER, UPPER / 2, 5, 6, { 'N', 'o', 'r', 'm', 'a', 'l' } } };
static zone_pool_t pool;

static void make(uint32_t batch, uint32_t high_len)
{
    CHECK(zone_pool_make(&pool, CREW, specs, ZONES, batch, high_len) == ZONE_OK);
}

static void unmake(void)
{
    CHECK(zone_pool_unmake(&pool) == ZONE_OK);
}

static zone_worker_t *worker(uint32_t number)
{
    return &pool.seats[number].worker;
}

static uint32_t cached(uint32_t number, uint32_t zone, uint32_t type)
{
    uint32_t pages = ZONE_WORKERS;
    CHECK(zonealloc_cached(worker(number), zone, type, &pages) == ZONE_OK);
    return pages;
}

static uint32_t free_pages(uint32_t zone)
{
    zone_counts_t counts = { { 0 }, 0, 0, 0 };
    CHECK(zone_pool_counts(&pool, 0, zone, &counts) == ZONE_OK);
    return counts.free;
}

/* So many pages go to worker 0's list of this type in a zone. */
static void fill(uint32_t zone, uint32_t type, uint32_t count)
{
    uint32_t page = 0;
    while (count-- > 0) {
        CHECK(zonealloc_alloc(worker(0), zone, 0, type, ZONE_ANY, &page) == ZONE_OK);
        CHECK(zonealloc_put(worker(0), zone, page) == ZONE_OK);
    }
}

/* What zone_alloc_pages answers worker 0, and in *zone and *page what it tells. */
static uint32_t ask(uint32_t order, uint32_t type, uint32_t mark, uint32_t *zone, uint32_t *page)
{
    return zone_alloc_pages(&pool, 0, order, type, mark, zone, page);
}

/* Of these lists each is full, and one page more of one of their types comes back: a batch of that list goes to the zone, and no other list
 * changes. */
static void drains_its_own_list(unsigned full, uint32_t type)
{
    uint32_t page = 0, before, i;
    make(BATCH, HIGH_LEN);
    CHECK(zonealloc_alloc(worker(0), 0, 0, type, ZONE_ANY, &page) == ZONE_OK);
    for (i = 0; i < ZONE_TYPES; i++)
        fill(0, i, full >> i & 1 ? HIGH_LEN : BATCH);
    before = free_pages(0);
    CHECK(zone_free_pages(&pool, 0, 0, page, 0) == ZONE_OK);
    for (i = 0; i < ZONE_TYPES; i++)
        CHECK(cached(0, 0, i) == (i == type ? HIGH_LEN - BATCH + 1 : full >> i & 1 ? HIGH_LEN : BATCH));
    CHECK(free_pages(0) == before + BATCH);
    unmake();
}

static void drain_their_own_lists(void)
{
    unsigned full;
    uint32_t type;
    for (full = 1; full < 1u << ZONE_TYPES; full++)
        for (type = 0; type < ZONE_TYPES; type++)
            if (full >> type & 1)
                drains_its_own_list(full, type);
}

/* A page that is not lent is refused, and changes no list, full or not. */
static void drains_nothing_for_a_page_of_nobody(void)
{
    uint32_t i;
    make(BATCH, HIGH_LEN);
    for (i = 0; i < ZONE_TYPES; i++)
        fill(0, i, HIGH_LEN);
    CHECK(zone_free_pages(&pool, 0, 0, LOWER - 1, 0) == ZONE_NOT_LENT);
    CHECK(zone_free_pages(&pool, 0, 0, LOWER, 0) == ZONE_NOT_LENT);
    CHECK(zone_free_pages(&pool, 0, ZONES, 0, 0) == ZONE_BAD_ARGUMENT);
    for (i = 0; i < ZONE_TYPES; i++)
        CHECK(cached(0, 0, i) == HIGH_LEN);
    unmake();
}

/* --- a request that the worker's own lists stand in the way of --- */

/* What is asked, of which zone, with how many pages on which of worker 0's lists of which zone, all pages that are left being worker 1's or, with
 * `is_left`, free; and from which zone it comes, if from any. */
typedef struct { uint32_t order, type, mark, zone, list_zone, list_type, pages, is_left, answer, from; } request_t;

static const request_t requests[] = {
    /* a page, where the list of another type has all that there are */
    { 0, ZONE_TYPE_MOVABLE, ZONE_ANY, 0, 0, ZONE_TYPE_UNMOVABLE, 31, 0, ZONE_OK, 0 },
    { 0, ZONE_TYPE_UNMOVABLE, ZONE_ANY, 0, 0, ZONE_TYPE_MOVABLE, 1, 0, ZONE_OK, 0 },
    /* a block, where the lists have its pages, of its own type or another */
    { 5, ZONE_TYPE_MOVABLE, ZONE_ANY, 1, 1, ZONE_TYPE_MOVABLE, 31, 1, ZONE_OK, 1 },
    { 5, ZONE_TYPE_MOVABLE, ZONE_ANY, 1, 1, ZONE_TYPE_RECLAIMABLE, 31, 1, ZONE_OK, 1 },
    /* asked of the upper zone, where the lower one's lists have it */
    { 0, ZONE_TYPE_MOVABLE, ZONE_ANY, 1, 0, ZONE_TYPE_UNMOVABLE, 31, 0, ZONE_OK, 0 },
    /* held to a mark, which the pages of the lists come above: half of the upper zone's pages, and a quarter more */
    { 3, ZONE_TYPE_MOVABLE, ZONE_MIN, 1, 1, ZONE_TYPE_UNMOVABLE, 10, 1, ZONE_OK, 1 },
    { 3, ZONE_TYPE_MOVABLE, ZONE_LOW, 1, 1, ZONE_TYPE_UNMOVABLE, 10, 1, ZONE_OK, 1 },
    /* the lists of a zone above are not looked at */
    { 0, ZONE_TYPE_MOVABLE, ZONE_ANY, 0, 1, ZONE_TYPE_UNMOVABLE, 31, 0, ZONE_NO_BLOCK, 0 },
    /* what the lists have is not enough, or comes to no block */
    { 6, ZONE_TYPE_MOVABLE, ZONE_ANY, 0, 0, ZONE_TYPE_MOVABLE, 31, 0, ZONE_NO_BLOCK, 0 },
    { 4, ZONE_TYPE_MOVABLE, ZONE_MIN, 0, 0, ZONE_TYPE_MOVABLE, 8, 0, ZONE_BELOW_MARK, 0 },
};

/* Worker 1 takes all pages that are left, of each zone. */
static void take_the_rest(void)
{
    uint32_t zone, page = 0;
    for (zone = 0; zone < ZONES; zone++)
        while (zonealloc_alloc(worker(1), zone, 0, ZONE_TYPE_MOVABLE, ZONE_ANY, &page) == ZONE_OK)
            ;
}

static void ask_one(const request_t *r)
{
    char what[32];
    uint32_t zone = r->zone, page = UPPER, answer, i, lent = 0;
    (void)snprintf(what, sizeof what, "request %u", (unsigned)(r - requests));
    make(31, 62);
    fill(r->list_zone, r->list_type, r->pages);
    if (!r->is_left)
        take_the_rest();
    /* (with mark or order above what the lower zone has it cannot serve for the upper one) */
    while (r->is_left && zonealloc_alloc(worker(1), 0, 0, ZONE_TYPE_MOVABLE, ZONE_ANY, &page) == ZONE_OK)
        ;
    page = UPPER;
    answer = ask(r->order, r->type, r->mark, &zone, &page);
    check(answer == r->answer, what, __LINE__);
    if (answer == ZONE_OK) {
        check(zone == r->from, what, __LINE__);
        CHECK(zonealloc_is_lent(worker(0), zone, page, r->order, &lent) == ZONE_OK && lent == 1);
        CHECK(zone_free_pages(&pool, 0, zone, page, r->order) == ZONE_OK);
    } else {
        check(zone == r->zone && page == UPPER, what, __LINE__);
        for (i = 0; i < ZONE_TYPES; i++)
            check(cached(0, r->zone, i) == 0, what, __LINE__);
    }
    unmake();
}

/* Other workers' lists stay as they are, and so do one's own where a zone serves. */
static void keeps_other_lists(void)
{
    uint32_t zone = 0, page = 0;
    make(31, 62);
    fill(0, ZONE_TYPE_UNMOVABLE, 20);
    CHECK(ask(0, ZONE_TYPE_MOVABLE, ZONE_ANY, &zone, &page) == ZONE_OK && zone == 0);
    CHECK(cached(0, 0, ZONE_TYPE_UNMOVABLE) == 20 && cached(0, 0, ZONE_TYPE_MOVABLE) == 30);
    take_the_rest();
    CHECK(zone_alloc_pages(&pool, 1, 0, ZONE_TYPE_MOVABLE, ZONE_ANY, &zone, &page) == ZONE_NO_BLOCK);
    CHECK(cached(0, 0, ZONE_TYPE_UNMOVABLE) == 20 && cached(0, 0, ZONE_TYPE_MOVABLE) == 30);
    unmake();
}

/* Without lists a page comes from the zone and goes back to it. */
static void has_no_lists(void)
{
    uint32_t zone = 1, page = 0;
    make(0, 0);
    CHECK(ask(0, ZONE_TYPE_MOVABLE, ZONE_ANY, &zone, &page) == ZONE_OK && zone == 1 && free_pages(1) == UPPER - 1);
    CHECK(zone_free_pages(&pool, 0, zone, page, 0) == ZONE_OK && free_pages(1) == UPPER);
    take_the_rest();
    CHECK(ask(0, ZONE_TYPE_MOVABLE, ZONE_ANY, &zone, &page) == ZONE_NO_BLOCK && zone == 1);
    unmake();
}

/* --- runs --- */

/* A run comes from the nearest zone that has one, and what the worker's lists have is no hindrance. */
static void runs_fall_to_lower_zones(void)
{
    uint32_t zone = 1, page = 0;
    make(BATCH, HIGH_LEN);
    /* above the upper zone's mark there are 12 pages */
    CHECK(zone_alloc_run(&pool, 0, 20, 0, ZONE_LOW, &zone, &page) == ZONE_OK && zone == 0 && page == 0);
    zone = 1;
    CHECK(zone_alloc_run(&pool, 0, UPPER, 5, ZONE_ANY, &zone, &page) == ZONE_OK && zone == 1 && page == 1024);
    fill(0, ZONE_TYPE_MOVABLE, HIGH_LEN);
    CHECK(zone_alloc_run(&pool, 1, LOWER - 20, 0, ZONE_ANY, &zone, &page) == ZONE_NO_BLOCK && zone == 1);
    CHECK(zone_alloc_run(&pool, 0, LOWER - 20, 0, ZONE_ANY, &zone, &page) == ZONE_OK && zone == 0 && page == 20);
    CHECK(cached(0, 0, ZONE_TYPE_MOVABLE) == 0 && free_pages(0) == 0);
    CHECK(zone_free_run(&pool, 0, 0, 10, 50) == ZONE_OK && zone_free_run(&pool, 0, 1, 1024, UPPER) == ZONE_OK);
    CHECK(free_pages(0) == 50 && free_pages(1) == UPPER);
    CHECK(zone_alloc_run_at(&pool, 1, 0, 10, 50) == ZONE_OK && zone_alloc_run_at(&pool, 1, 0, 9, 1) == ZONE_NOT_FREE);
    CHECK(zone_free_run(&pool, 0, 0, 10, 50) == ZONE_NOT_LENT && zone_free_run(&pool, 1, 0, 10, 50) == ZONE_OK);
    zone = ZONES;
    CHECK(zone_alloc_run(&pool, 0, 1, 0, ZONE_ANY, &zone, &page) == ZONE_BAD_ARGUMENT && zone == ZONES);
    zone = 1;
    CHECK(zone_alloc_run(&pool, 0, 0, 0, ZONE_ANY, &zone, &page) == ZONE_BAD_ARGUMENT);
    CHECK(zone_alloc_run(&pool, CREW, 1, 0, ZONE_ANY, &zone, &page) == ZONE_BAD_ARGUMENT);
    CHECK(zone_alloc_run_at(&pool, CREW, 0, 0, 1) == ZONE_BAD_ARGUMENT && zone_free_run(&pool, CREW, 0, 0, 1) == ZONE_BAD_ARGUMENT);
    unmake();
}

int main(void)
{
    size_t i;
    drain_their_own_lists();
    drains_nothing_for_a_page_of_nobody();
    for (i = 0; i < sizeof requests / sizeof requests[0]; i++)
        ask_one(&requests[i]);
    keeps_other_lists();
    has_no_lists();
    runs_fall_to_lower_zones();
    printf("lists: %u checks, %u failures\n", checks, failures);
    return failures == 0 ? 0 : 1;
}
