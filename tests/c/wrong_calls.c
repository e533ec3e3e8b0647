/* Calls each export in every way that zonealloc.h says it refuses, and finds that nothing has changed: no handle, no result, and nothing
 * that can be read of the row. Two tables have each number that the header states, in its order. A making is refused its memory at each of its allocations in turn. No call but a making asks for memory, and
 * in the end all of it was given back. At last the row that was called wrongly hands out the pages that one hands out which never was.
 * Memory is counted here, so this is linked without another rattle_alloc. Prints one line and answers 0; or tells what was wrong and
 * answers 1. */
#include "zonealloc.h"
#include "checking.h"
#include "counted_memory.h"
#include <inttypes.h>
#include <stdio.h>
#include <stdlib.h>
#include <string.h>

enum { LOW_ZONE = 40, HIGH_ZONE = 1500, ALL_PAGES = LOW_ZONE + HIGH_ZONE, PAGEBLOCKS = 7, CREW = 3, ZONES = 2, BATCH = 4, HIGH_LEN = 6,
       MOST_ALIGN = 24 };

/* --- what is told of a failure --- */

static void answered(uint32_t answer, uint32_t wanted, const char *call, int line)
{
    checks++;
    if (answer == wanted)
        return;
    failures++;
    printf("line %d: %s answered %" PRIu32 ", not %" PRIu32 "\n", line, call, answer, wanted);
}
#define ANSWERS(wanted, call) answered((call), (wanted), #call, __LINE__)

/* --- a row in which there is something of everything --- */

typedef struct { zone_row_t row; zone_worker_t workers[CREW]; } world_t;
typedef struct { uint32_t lent, order4, other, posted, cached, given; } known_t;   /* pages of the upper zone */

static const zone_spec_t specs[ZONES] = {
    { 1024, LOW_ZONE, 4, 3, 3, { 'D', 'M', 'A' } }, { 2048, HIGH_ZONE, 0, 10, 6, { 'N', 'o', 'r', 'm', 'a', 'l' } }
};

/* All that can be read. */
typedef struct {
    zone_counts_t counts[ZONES];
    zone_types_t types[ZONES];
    size_t len[ZONES];
    uint8_t lines[ZONES][ZONE_INFO_LINE];
    zone_page_t pages[ALL_PAGES];
    zone_pageblock_t pageblocks[PAGEBLOCKS];
    uint32_t cached[CREW][ZONES][ZONE_TYPES];
    uint8_t lent[CREW][ALL_PAGES][ZONE_ORDERS];
    uint32_t live[CREW + 1];
    unsigned char *at[CREW + 1];
} seen_t;

static world_t world, twin;
static known_t known;
static seen_t before, now;

static void see_lent(world_t *w, uint32_t worker, uint32_t zone, uint32_t page, uint8_t *lent)
{
    uint32_t order, is;
    for (order = 0; order < ZONE_ORDERS; order++) {
        ANSWERS(ZONE_OK, zonealloc_is_lent(&w->workers[worker], zone, page, order, &is));
        lent[order] = (uint8_t)is;
    }
}

static void see_zone(world_t *w, uint32_t zone, uint32_t first, uint32_t first_block, seen_t *s)
{
    uint32_t i, worker;
    zone_worker_t *reader = &w->workers[0];
    ANSWERS(ZONE_OK, zonealloc_counts(reader, zone, &s->counts[zone]));
    ANSWERS(ZONE_OK, zonealloc_counts_by_type(reader, zone, &s->types[zone]));
    ANSWERS(ZONE_OK, zonealloc_info(reader, zone, s->lines[zone], ZONE_INFO_LINE, &s->len[zone]));
    for (i = 0; i << specs[zone].largest < specs[zone].pages; i++)
        ANSWERS(ZONE_OK, zonealloc_pageblock(reader, zone, i, &s->pageblocks[first_block + i]));
    for (i = 0; i < specs[zone].pages; i++) {
        ANSWERS(ZONE_OK, zonealloc_page(reader, zone, specs[zone].base + i, &s->pages[first + i]));
        for (worker = 0; worker < CREW; worker++)
            see_lent(w, worker, zone, specs[zone].base + i, s->lent[worker][first + i]);
    }
    for (worker = 0; worker < CREW; worker++)
        for (i = 0; i < ZONE_TYPES; i++)
            ANSWERS(ZONE_OK, zonealloc_cached(&w->workers[worker], zone, i, &s->cached[worker][zone][i]));
}

static void see(world_t *w, seen_t *s)
{
    uint32_t i;
    memset(s, 0, sizeof *s);
    see_zone(w, 0, 0, 0, s);
    see_zone(w, 1, LOW_ZONE, 5, s);
    for (i = 0; i < CREW; i++) {
        s->live[i] = w->workers[i].live;
        s->at[i] = w->workers[i].at;
    }
    s->live[CREW] = w->row.live;
    s->at[CREW] = w->row.at;
}

/* Worker 0 has blocks lent and pages on a list, worker 1 too, and worker 2 is posted to. The last pageblock of the lower zone is
 * isolated. */
static void furnish(world_t *w, known_t *k)
{
    zone_worker_t *own = w->workers;
    uint32_t i;
    ANSWERS(ZONE_OK, zonealloc_make(&w->row, w->workers, CREW, specs, ZONES, BATCH, HIGH_LEN));
    ANSWERS(ZONE_OK, zonealloc_alloc(&own[0], 1, 0, ZONE_TYPE_MOVABLE, ZONE_LOW, &k->lent));
    ANSWERS(ZONE_OK, zonealloc_alloc(&own[0], 1, 4, ZONE_TYPE_UNMOVABLE, ZONE_MIN, &k->order4));
    ANSWERS(ZONE_OK, zonealloc_alloc(&own[1], 1, 0, ZONE_TYPE_RECLAIMABLE, ZONE_ANY, &k->other));
    ANSWERS(ZONE_OK, zonealloc_alloc_low(&own[0], 1, 1, &k->posted));
    ANSWERS(ZONE_OK, zonealloc_post(&own[0], 1, k->posted, 1, 2));
    ANSWERS(ZONE_OK, zonealloc_refill(&own[0], 1, ZONE_TYPE_MOVABLE, ZONE_LOW));
    ANSWERS(ZONE_OK, zonealloc_take(&own[0], 1, ZONE_TYPE_MOVABLE, &k->cached));
    ANSWERS(ZONE_OK, zonealloc_put(&own[0], 1, k->cached));
    ANSWERS(ZONE_OK, zonealloc_alloc(&own[0], 1, 0, ZONE_TYPE_MOVABLE, ZONE_ANY, &k->given));
    ANSWERS(ZONE_OK, zonealloc_free(&own[0], 1, k->given, 0));
    ANSWERS(ZONE_OK, zonealloc_isolate(&own[1], 0, 4));
    for (i = 0; i < HIGH_LEN; i++) {
        uint32_t page = 0;
        ANSWERS(ZONE_OK, zonealloc_alloc(&own[1], 0, 0, ZONE_TYPE_MOVABLE, ZONE_LOW, &page));
        ANSWERS(ZONE_OK, zonealloc_put(&own[1], 0, page));
    }
}

static void unfurnish(world_t *w)
{
    uint32_t i;
    for (i = 0; i < CREW; i++)
        ANSWERS(ZONE_OK, zonealloc_dismiss(&w->workers[i]));
    ANSWERS(ZONE_OK, zonealloc_unmake(&w->row));
}

/* --- a refused call --- */

/* All that a call can tell. Before each call no bit of it is what a call would tell. */
enum { ROOM = 3 };
static struct {
    uint32_t page, order, number, origin, pages[ROOM];
    zone_counts_t counts;
    zone_types_t types;
    zone_page_t noted;
    zone_pageblock_t block;
    zone_totals_t totals;
    zone_reading_t reading;
    uint64_t bytes;
    size_t len;
    uint8_t line[ZONE_INFO_LINE];
} told;

static int is_left(const void *at, size_t len)
{
    const unsigned char *bytes = at;
    size_t i;
    for (i = 0; i < len; i++)
        if (bytes[i] != 0xA5)
            return 0;
    return 1;
}

static int is_no_row(const zone_row_t *row)
{
    return row->live == 0 && row->at == NULL;
}

static int are_no_workers(const zone_worker_t *workers, size_t count)
{
    size_t i;
    for (i = 0; i < count; i++)
        if (workers[i].live != 0 || workers[i].at != NULL)
            return 0;
    return 1;
}

static void *forget(void)
{
    return memset(&told, 0xA5, sizeof told);
}

static void refused(uint32_t answer, uint32_t wanted, const char *call, int line)
{
    uint64_t asked_before = asked;
    answered(answer, wanted, call, line);
    check(is_left(&told, sizeof told), call, line);
    see(&world, &now);
    check(memcmp(&before, &now, sizeof now) == 0, call, line);
    check(asked == asked_before, call, line);
}
/* The call answers this number, and has changed nothing. */
#define REFUSED(wanted, call) (forget(), refused((call), (wanted), #call, __LINE__))

/* How many blocks came or went. It is told whatever is answered. */
static size_t many;
static const uint32_t no_orders[ROOM] = { 0, 0, 0 };

/* The call answers this number, has changed nothing, and tells that no block came or went. */
#define REFUSED_ALL(wanted, call) (many = 77, REFUSED((wanted), call), check(many == 0, #call, __LINE__))

/* --- arguments out of their range --- */

static const uint32_t past[] = { 0, 1, 2, 253, 256, 257, 258, 65536, 0x7FFFFFFF, 0xFFFFFFFF };   /* by how much, or the number itself */
enum { PASTS = sizeof past / sizeof past[0] };

static uint32_t beyond(uint32_t range, uint32_t i)
{
    return past[i] < 253 ? range + past[i] : past[i];
}

/* More pages than there are. */
static uint32_t above(uint32_t pages, uint32_t i)
{
    return past[i] <= pages ? pages + 1 + past[i] : past[i];
}

static void wrong_zones(zone_worker_t *w)
{
    uint32_t i, zone;
    for (i = 0; i < PASTS; i++) {
        zone = beyond(ZONES, i);
        REFUSED(ZONE_BAD_ARGUMENT, zonealloc_take(w, zone, ZONE_TYPE_MOVABLE, &told.page));
        REFUSED(ZONE_BAD_ARGUMENT, zonealloc_put(w, zone, known.lent));
        REFUSED(ZONE_BAD_ARGUMENT, zonealloc_is_lent(w, zone, known.lent, 0, &told.number));
        REFUSED(ZONE_BAD_ARGUMENT, zonealloc_cached(w, zone, ZONE_TYPE_MOVABLE, &told.number));
        REFUSED(ZONE_BAD_ARGUMENT, zonealloc_alloc(w, zone, 0, ZONE_TYPE_MOVABLE, ZONE_ANY, &told.page));
        REFUSED(ZONE_BAD_ARGUMENT, zonealloc_alloc_told(w, zone, 0, ZONE_TYPE_MOVABLE, ZONE_ANY, &told.page, &told.origin));
        REFUSED(ZONE_BAD_ARGUMENT, zonealloc_alloc_low(w, zone, 0, &told.page));
        REFUSED(ZONE_BAD_ARGUMENT, zonealloc_free(w, zone, known.lent, 0));
        REFUSED_ALL(ZONE_BAD_ARGUMENT, zonealloc_alloc_many(w, zone, 0, ZONE_TYPE_MOVABLE, ZONE_ANY, told.pages, ROOM, &many));
        REFUSED_ALL(ZONE_BAD_ARGUMENT, zonealloc_free_many(w, zone, &known.lent, 1, no_orders, 1, &many));
        REFUSED(ZONE_BAD_ARGUMENT, zonealloc_alloc_run(w, zone, 1, 0, ZONE_ANY, &told.page));
        REFUSED(ZONE_BAD_ARGUMENT, zonealloc_alloc_run_at(w, zone, known.given, 1));
        REFUSED(ZONE_BAD_ARGUMENT, zonealloc_free_run(w, zone, known.lent, 1));
        REFUSED(ZONE_BAD_ARGUMENT, zonealloc_post(w, zone, known.lent, 0, 1));
        REFUSED(ZONE_BAD_ARGUMENT, zonealloc_collect(w, zone, &told.page, &told.order));
        REFUSED(ZONE_BAD_ARGUMENT, zonealloc_isolate(w, zone, 0));
        REFUSED(ZONE_BAD_ARGUMENT, zonealloc_release(w, zone, 4, ZONE_TYPE_MOVABLE));
        REFUSED(ZONE_BAD_ARGUMENT, zonealloc_refill(w, zone, ZONE_TYPE_UNMOVABLE, ZONE_ANY));
        REFUSED(ZONE_BAD_ARGUMENT, zonealloc_drain(w, zone, ZONE_TYPE_MOVABLE, 1));
        REFUSED(ZONE_BAD_ARGUMENT, zonealloc_drain_all(w, zone));
        REFUSED(ZONE_BAD_ARGUMENT, zonealloc_counts(w, zone, &told.counts));
        REFUSED(ZONE_BAD_ARGUMENT, zonealloc_counts_by_type(w, zone, &told.types));
        REFUSED(ZONE_BAD_ARGUMENT, zonealloc_info(w, zone, told.line, ZONE_INFO_LINE, &told.len));
        REFUSED(ZONE_BAD_ARGUMENT, zonealloc_page(w, zone, known.lent, &told.noted));
        REFUSED(ZONE_BAD_ARGUMENT, zonealloc_pageblock(w, zone, 0, &told.block));
    }
}

static void wrong_orders(zone_worker_t *w)
{
    uint32_t i, order, pages[2], orders[2] = { 0, 0 };
    pages[0] = known.lent;
    pages[1] = known.order4;
    for (i = 0; i < PASTS; i++) {
        order = beyond(ZONE_ORDERS, i);
        orders[1] = order;
        REFUSED_ALL(ZONE_BAD_ARGUMENT, zonealloc_alloc_many(w, 1, order, ZONE_TYPE_MOVABLE, ZONE_ANY, told.pages, ROOM, &many));
        REFUSED_ALL(ZONE_BAD_ARGUMENT, zonealloc_free_many(w, 1, pages, 2, orders, 2, &many));
        REFUSED(ZONE_BAD_ARGUMENT, zonealloc_is_lent(w, 1, known.lent, order, &told.number));
        REFUSED(ZONE_BAD_ARGUMENT, zonealloc_alloc(w, 1, order, ZONE_TYPE_MOVABLE, ZONE_ANY, &told.page));
        REFUSED(ZONE_BAD_ARGUMENT, zonealloc_alloc_told(w, 1, order, ZONE_TYPE_MOVABLE, ZONE_ANY, &told.page, &told.origin));
        REFUSED(ZONE_BAD_ARGUMENT, zonealloc_alloc_low(w, 1, order, &told.page));
        REFUSED(ZONE_BAD_ARGUMENT, zonealloc_free(w, 1, known.lent, order));
        REFUSED(ZONE_BAD_ARGUMENT, zonealloc_post(w, 1, known.lent, order, 1));
    }
}

static void wrong_types(zone_worker_t *w)
{
    uint32_t i, type;
    for (i = 0; i < PASTS; i++) {
        type = beyond(ZONE_TYPES, i);
        REFUSED(ZONE_BAD_ARGUMENT, zonealloc_take(w, 1, type, &told.page));
        REFUSED(ZONE_BAD_ARGUMENT, zonealloc_cached(w, 1, type, &told.number));
        REFUSED(ZONE_BAD_ARGUMENT, zonealloc_alloc(w, 1, 0, type, ZONE_ANY, &told.page));
        REFUSED(ZONE_BAD_ARGUMENT, zonealloc_alloc_told(w, 1, 0, type, ZONE_ANY, &told.page, &told.origin));
        REFUSED_ALL(ZONE_BAD_ARGUMENT, zonealloc_alloc_many(w, 1, 0, type, ZONE_ANY, told.pages, ROOM, &many));
        REFUSED(ZONE_BAD_ARGUMENT, zonealloc_release(w, 0, 4, type));
        REFUSED(ZONE_BAD_ARGUMENT, zonealloc_refill(w, 1, type, ZONE_ANY));
        REFUSED(ZONE_BAD_ARGUMENT, zonealloc_drain(w, 1, type, 1));
    }
}

static void wrong_numbers(zone_worker_t *w)
{
    uint32_t i;
    for (i = 0; i < PASTS; i++) {
        REFUSED(ZONE_BAD_ARGUMENT, zonealloc_alloc(w, 1, 0, ZONE_TYPE_MOVABLE, beyond(ZONE_LOW + 1, i), &told.page));
        REFUSED(ZONE_BAD_ARGUMENT, zonealloc_alloc_told(w, 1, 0, ZONE_TYPE_MOVABLE, beyond(ZONE_LOW + 1, i), &told.page, &told.origin));
        REFUSED_ALL(ZONE_BAD_ARGUMENT, zonealloc_alloc_many(w, 1, 0, ZONE_TYPE_MOVABLE, beyond(ZONE_LOW + 1, i), told.pages, ROOM, &many));
        REFUSED_ALL(ZONE_BAD_ARGUMENT, zonealloc_free_many(w, 1, &known.lent, 1, no_orders, 1 + (size_t)past[i] % 2 + 1, &many));
        REFUSED(ZONE_BAD_ARGUMENT, zonealloc_refill(w, 1, ZONE_TYPE_UNMOVABLE, beyond(ZONE_LOW + 1, i)));
        REFUSED(ZONE_BAD_ARGUMENT, zonealloc_alloc_run(w, 1, 1, beyond(MOST_ALIGN + 1, i), ZONE_ANY, &told.page));
        REFUSED(ZONE_BAD_ARGUMENT, zonealloc_alloc_run(w, 1, 1, 0, beyond(ZONE_LOW + 1, i), &told.page));
        REFUSED(ZONE_NO_BLOCK, zonealloc_alloc_run(w, 1, above(HIGH_ZONE, i), 0, ZONE_ANY, &told.page));
        REFUSED(ZONE_BAD_RUN, zonealloc_alloc_run_at(w, 1, 2048, above(HIGH_ZONE, i)));
        REFUSED(ZONE_NOT_LENT, zonealloc_free_run(w, 1, known.order4, above(HIGH_ZONE, i)));
        REFUSED(ZONE_BAD_ARGUMENT, zonealloc_post(w, 1, known.lent, 0, beyond(CREW, i)));
        REFUSED(ZONE_BAD_ARGUMENT, zonealloc_drain(w, 1, ZONE_TYPE_MOVABLE, beyond(BATCH + 1, i)));
        REFUSED(ZONE_BAD_PAGEBLOCK, zonealloc_isolate(w, 0, beyond(5, i)));
        REFUSED(ZONE_BAD_PAGEBLOCK, zonealloc_release(w, 0, beyond(5, i), ZONE_TYPE_MOVABLE));
        REFUSED(ZONE_BAD_PAGEBLOCK, zonealloc_isolate(w, 1, beyond(2, i)));
        REFUSED(ZONE_BAD_PAGEBLOCK, zonealloc_release(w, 1, beyond(2, i), ZONE_TYPE_MOVABLE));
        REFUSED(ZONE_BAD_PAGEBLOCK, zonealloc_pageblock(w, 1, beyond(2, i), &told.block));
    }
    REFUSED_ALL(ZONE_BAD_ARGUMENT, zonealloc_alloc_many(w, 1, 0, ZONE_TYPE_MOVABLE, ZONE_ANY, told.pages, 0, &many));
    REFUSED_ALL(ZONE_BAD_ARGUMENT, zonealloc_free_many(w, 1, &known.lent, 0, no_orders, 0, &many));
    REFUSED_ALL(ZONE_BAD_ARGUMENT, zonealloc_free_many(w, 1, &known.lent, 1, no_orders, 0, &many));
    REFUSED_ALL(ZONE_BAD_ARGUMENT, zonealloc_free_many(w, 1, &known.lent, 0, no_orders, 1, &many));
    REFUSED(ZONE_BAD_ARGUMENT, zonealloc_alloc_run(w, 1, 0, 0, ZONE_ANY, &told.page));
    REFUSED(ZONE_BAD_RUN, zonealloc_alloc_run_at(w, 1, known.given, 0));
    REFUSED(ZONE_NOT_LENT, zonealloc_free_run(w, 1, known.lent, 0));
    REFUSED(ZONE_BAD_ARGUMENT, zonealloc_drain(w, 1, ZONE_TYPE_MOVABLE, 0));
    REFUSED(ZONE_BAD_ARGUMENT, zonealloc_drain(w, 1, ZONE_TYPE_UNMOVABLE, 1));
    REFUSED(ZONE_BAD_ARGUMENT, zonealloc_post(w, 1, known.lent, 0, ZONE_WORKERS));
}

/* A page that is in no zone, or in the other one, is lent to nobody. */
static void wrong_pages(zone_worker_t *w)
{
    static const uint32_t pages[] = { 0, 1023, 1024 + LOW_ZONE, 1024, 2047, 2048 + HIGH_ZONE, 67584, 0x7FFFFFFF, 0xFFFFFFFF };
    size_t i;
    for (i = 0; i < sizeof pages / sizeof pages[0]; i++) {
        REFUSED(ZONE_NOT_LENT, zonealloc_put(w, 1, pages[i]));
        REFUSED(ZONE_NOT_LENT, zonealloc_free(w, 1, pages[i], 0));
        REFUSED(ZONE_NOT_LENT, zonealloc_free(w, 1, pages[i], ZONE_ORDERS - 1));
        REFUSED_ALL(ZONE_NOT_LENT, zonealloc_free_many(w, 1, &pages[i], 1, no_orders, 1, &many));
        REFUSED(ZONE_NOT_LENT, zonealloc_free_run(w, 1, pages[i], 1));
        REFUSED(ZONE_NOT_LENT, zonealloc_free_run(w, 1, pages[i], 0xFFFFFFFF));
        REFUSED(ZONE_BAD_RUN, zonealloc_alloc_run_at(w, 1, pages[i], 1));
        REFUSED(ZONE_BAD_RUN, zonealloc_alloc_run_at(w, 1, pages[i], 0xFFFFFFFF));
        REFUSED(ZONE_NOT_LENT, zonealloc_post(w, 1, pages[i], 0, 1));
        REFUSED(ZONE_BAD_ARGUMENT, zonealloc_page(w, 1, pages[i], &told.noted));
        ANSWERS(ZONE_OK, zonealloc_is_lent(w, 1, pages[i], 0, &told.number));
        CHECK(told.number == 0);
    }
}

/* --- what the state of the row refuses --- */

/* Each of these is not lent to worker 0 as a block of one page. */
static void not_lent(zone_worker_t *w)
{
    uint32_t pages[6], i;
    pages[0] = known.order4;          /* lent, with another order */
    pages[1] = known.order4 + 1;      /* a tail */
    pages[2] = known.other;           /* another's */
    pages[3] = known.posted;
    pages[4] = known.cached;
    pages[5] = known.given;           /* given back */
    for (i = 0; i < 6; i++) {
        REFUSED(ZONE_NOT_LENT, zonealloc_put(w, 1, pages[i]));
        REFUSED(ZONE_NOT_LENT, zonealloc_free(w, 1, pages[i], 0));
        REFUSED_ALL(ZONE_NOT_LENT, zonealloc_free_many(w, 1, &pages[i], 1, no_orders, 1, &many));
        REFUSED(ZONE_NOT_LENT, zonealloc_post(w, 1, pages[i], 0, 1));
        ANSWERS(ZONE_OK, zonealloc_is_lent(w, 1, pages[i], 0, &told.number));
        CHECK(told.number == 0);
    }
    for (i = 1; i < ZONE_ORDERS; i++) {
        REFUSED(ZONE_NOT_LENT, zonealloc_free(w, 1, known.lent, i));
        REFUSED(ZONE_NOT_LENT, zonealloc_post(w, 1, known.lent, i, 1));
        if (i != 4)
            REFUSED(ZONE_NOT_LENT, zonealloc_free(w, 1, known.order4, i));
    }
    REFUSED(ZONE_NOT_LENT, zonealloc_free(w, 1, known.posted, 1));
    for (i = 2; i < 6; i++) {
        REFUSED(ZONE_NOT_LENT, zonealloc_free_run(w, 1, pages[i], 1));
        REFUSED(i == 5 ? ZONE_BAD_RUN : ZONE_NOT_FREE, zonealloc_alloc_run_at(w, 1, pages[i], i == 5 ? HIGH_ZONE : 1));
    }
    REFUSED(ZONE_NOT_LENT, zonealloc_free_run(w, 1, known.order4 + 15, 2));
    REFUSED(ZONE_NOT_LENT, zonealloc_free_run(w, 1, known.order4 - 1, 2));
    REFUSED(ZONE_NOT_FREE, zonealloc_alloc_run_at(w, 1, known.order4 + 15, 2));
    REFUSED(ZONE_NOT_FREE, zonealloc_alloc_run_at(w, 1, known.lent, 1));
}

static void no_block(zone_worker_t *w)
{
    uint32_t i;
    REFUSED(ZONE_BELOW_MARK, zonealloc_alloc(w, 0, 5, ZONE_TYPE_MOVABLE, ZONE_MIN, &told.page));
    REFUSED(ZONE_BELOW_MARK, zonealloc_alloc_told(w, 0, 5, ZONE_TYPE_MOVABLE, ZONE_MIN, &told.page, &told.origin));
    REFUSED(ZONE_BELOW_MARK, zonealloc_alloc(w, 0, 10, ZONE_TYPE_UNMOVABLE, ZONE_LOW, &told.page));
    REFUSED(ZONE_BELOW_MARK, zonealloc_alloc_told(w, 0, 10, ZONE_TYPE_UNMOVABLE, ZONE_LOW, &told.page, &told.origin));
    REFUSED_ALL(ZONE_BELOW_MARK, zonealloc_alloc_many(w, 0, 5, ZONE_TYPE_MOVABLE, ZONE_MIN, told.pages, ROOM, &many));
    for (i = 4; i < ZONE_ORDERS; i++) {
        REFUSED(ZONE_NO_BLOCK, zonealloc_alloc(w, 0, i, ZONE_TYPE_MOVABLE, ZONE_ANY, &told.page));
        REFUSED(ZONE_NO_BLOCK, zonealloc_alloc_told(w, 0, i, ZONE_TYPE_MOVABLE, ZONE_ANY, &told.page, &told.origin));
        REFUSED_ALL(ZONE_NO_BLOCK, zonealloc_alloc_many(w, 0, i, ZONE_TYPE_MOVABLE, ZONE_ANY, told.pages, ROOM, &many));
        REFUSED(ZONE_NO_BLOCK, zonealloc_alloc_low(w, 0, i, &told.page));
    }
    REFUSED(ZONE_BELOW_MARK, zonealloc_alloc_run(w, 0, 25, 0, ZONE_MIN, &told.page));
    REFUSED(ZONE_NO_BLOCK, zonealloc_alloc_run(w, 0, 33, 0, ZONE_ANY, &told.page));   /* the last pageblock is isolated */
    REFUSED(ZONE_NO_BLOCK, zonealloc_alloc_run(w, 0, 1, 11, ZONE_ANY, &told.page));
}

static void wrong_states(zone_worker_t *w)
{
    REFUSED(ZONE_LIST_EMPTY, zonealloc_take(w, 1, ZONE_TYPE_UNMOVABLE, &told.page));
    REFUSED(ZONE_LIST_EMPTY, zonealloc_take(w, 0, ZONE_TYPE_MOVABLE, &told.page));
    REFUSED(ZONE_LIST_NOT_EMPTY, zonealloc_refill(w, 1, ZONE_TYPE_MOVABLE, ZONE_ANY));
    REFUSED(ZONE_NOTHING_POSTED, zonealloc_collect(w, 1, &told.page, &told.order));
    REFUSED(ZONE_NOTHING_POSTED, zonealloc_collect(&world.workers[2], 0, &told.page, &told.order));
    REFUSED(ZONE_ALREADY_ISOLATED, zonealloc_isolate(w, 0, 4));
    REFUSED(ZONE_NOT_ISOLATED, zonealloc_release(w, 0, 0, ZONE_TYPE_MOVABLE));
    REFUSED(ZONE_NOT_ISOLATED, zonealloc_release(w, 1, 1, ZONE_TYPE_UNMOVABLE));
    REFUSED(ZONE_HAS_WORKERS, zonealloc_unmake(&world.row));
    REFUSED(ZONE_HAS_WORKERS, zonealloc_gather(&world.row, 0, &told.totals));
    REFUSED(ZONE_HAS_WORKERS, zonealloc_gather(&world.row, 1, &told.totals));
}

/* Worker 1's list in the lower zone is full, and one page more is lent to it for the time of this. */
static void full_list(zone_worker_t *w)
{
    uint32_t page = 0;
    ANSWERS(ZONE_OK, zonealloc_alloc(w, 0, 0, ZONE_TYPE_MOVABLE, ZONE_LOW, &page));
    see(&world, &before);
    REFUSED(ZONE_LIST_FULL, zonealloc_put(w, 0, page));
    REFUSED(ZONE_NOT_LENT, zonealloc_put(w, 0, page + 1));
    ANSWERS(ZONE_OK, zonealloc_free(w, 0, page, 0));
}

/* A row without lists. */
static void no_lists(void)
{
    zone_row_t row = ZONE_NONE;
    zone_worker_t w = ZONE_NONE;
    uint32_t type, page = 0;
    ANSWERS(ZONE_OK, zonealloc_make(&row, &w, 1, specs, ZONES, 0, 0));
    ANSWERS(ZONE_OK, zonealloc_alloc(&w, 1, 0, ZONE_TYPE_MOVABLE, ZONE_ANY, &page));
    for (type = 0; type < ZONE_TYPES; type++) {
        forget();
        ANSWERS(ZONE_NO_LISTS, zonealloc_refill(&w, 1, type, ZONE_ANY));
        ANSWERS(ZONE_LIST_EMPTY, zonealloc_take(&w, 1, type, &told.page));
        ANSWERS(ZONE_BAD_ARGUMENT, zonealloc_drain(&w, 1, type, 1));
        CHECK(is_left(&told, sizeof told));
        ANSWERS(ZONE_OK, zonealloc_cached(&w, 1, type, &told.number));
        CHECK(told.number == 0);
    }
    ANSWERS(ZONE_NO_LISTS, zonealloc_put(&w, 1, page));
    ANSWERS(ZONE_OK, zonealloc_is_lent(&w, 1, page, 0, &told.number));
    CHECK(told.number == 1);
    ANSWERS(ZONE_OK, zonealloc_drain_all(&w, 1));
    ANSWERS(ZONE_OK, zonealloc_dismiss(&w));
    ANSWERS(ZONE_OK, zonealloc_unmake(&row));
}

/* --- handles --- */

/* Nothing is in it. */
static zone_reader_t reader;

/* Nothing is in these handles. */
static void dead_handles(zone_worker_t *w, zone_row_t *row)
{
    REFUSED(ZONE_BAD_HANDLE, zonealloc_take(w, 0, ZONE_TYPE_MOVABLE, &told.page));
    REFUSED(ZONE_BAD_HANDLE, zonealloc_put(w, 1, known.lent));
    REFUSED(ZONE_BAD_HANDLE, zonealloc_is_lent(w, 1, known.lent, 0, &told.number));
    REFUSED(ZONE_BAD_HANDLE, zonealloc_cached(w, 1, ZONE_TYPE_MOVABLE, &told.number));
    REFUSED(ZONE_BAD_HANDLE, zonealloc_alloc(w, 1, 0, ZONE_TYPE_MOVABLE, ZONE_ANY, &told.page));
    REFUSED(ZONE_BAD_HANDLE, zonealloc_alloc_told(w, 1, 0, ZONE_TYPE_MOVABLE, ZONE_ANY, &told.page, &told.origin));
    REFUSED(ZONE_BAD_HANDLE, zonealloc_alloc_low(w, 1, 0, &told.page));
    REFUSED(ZONE_BAD_HANDLE, zonealloc_free(w, 1, known.lent, 0));
    REFUSED_ALL(ZONE_BAD_HANDLE, zonealloc_alloc_many(w, 1, 0, ZONE_TYPE_MOVABLE, ZONE_ANY, told.pages, ROOM, &many));
    REFUSED_ALL(ZONE_BAD_HANDLE, zonealloc_free_many(w, 1, &known.lent, 1, no_orders, 1, &many));
    REFUSED(ZONE_BAD_HANDLE, zonealloc_alloc_run(w, 1, 1, 0, ZONE_ANY, &told.page));
    REFUSED(ZONE_BAD_HANDLE, zonealloc_alloc_run_at(w, 1, known.given, 1));
    REFUSED(ZONE_BAD_HANDLE, zonealloc_free_run(w, 1, known.lent, 1));
    REFUSED(ZONE_BAD_HANDLE, zonealloc_post(w, 1, known.lent, 0, 0));
    REFUSED(ZONE_BAD_HANDLE, zonealloc_collect(w, 1, &told.page, &told.order));
    REFUSED(ZONE_BAD_HANDLE, zonealloc_isolate(w, 1, 0));
    REFUSED(ZONE_BAD_HANDLE, zonealloc_release(w, 0, 4, ZONE_TYPE_MOVABLE));
    REFUSED(ZONE_BAD_HANDLE, zonealloc_refill(w, 1, ZONE_TYPE_UNMOVABLE, ZONE_ANY));
    REFUSED(ZONE_BAD_HANDLE, zonealloc_drain(w, 1, ZONE_TYPE_MOVABLE, 1));
    REFUSED(ZONE_BAD_HANDLE, zonealloc_drain_all(w, 1));
    REFUSED(ZONE_BAD_HANDLE, zonealloc_counts(w, 1, &told.counts));
    REFUSED(ZONE_BAD_HANDLE, zonealloc_counts_by_type(w, 1, &told.types));
    REFUSED(ZONE_BAD_HANDLE, zonealloc_info(w, 1, told.line, ZONE_INFO_LINE, &told.len));
    REFUSED(ZONE_BAD_HANDLE, zonealloc_page(w, 1, known.lent, &told.noted));
    REFUSED(ZONE_BAD_HANDLE, zonealloc_pageblock(w, 1, 0, &told.block));
    REFUSED(ZONE_BAD_HANDLE, zonealloc_reader(w, 1, &reader));
    REFUSED(ZONE_BAD_HANDLE, zonealloc_read(&reader, &told.reading));
    REFUSED(ZONE_BAD_HANDLE, zonealloc_end_reader(&reader));
    REFUSED(ZONE_BAD_HANDLE, zonealloc_dismiss(w));
    REFUSED(ZONE_BAD_HANDLE, zonealloc_unmake(row));
    REFUSED(ZONE_BAD_HANDLE, zonealloc_gather(row, 0, &told.totals));
}

/* Handles that are zeros, that of a worker which was dismissed, and those of a row which was unmade. These may be filled again. */
static void wrong_handles(void)
{
    world_t other;
    zone_row_t none = ZONE_NONE;
    uint32_t i;
    memset(&other, 0, sizeof other);
    dead_handles(&other.workers[0], &other.row);
    CHECK(are_no_workers(other.workers, CREW) && is_no_row(&other.row));
    furnish(&other, &known);
    for (i = 0; i < CREW; i++) {
        ANSWERS(ZONE_OK, zonealloc_dismiss(&other.workers[i]));
        dead_handles(&other.workers[i], &none);
    }
    ANSWERS(ZONE_OK, zonealloc_unmake(&other.row));
    dead_handles(&other.workers[0], &other.row);
    furnish(&other, &known);
    unfurnish(&other);
}

/* A making over a row, over workers, and over the last of its workers alone. */
static void make_over(void)
{
    zone_row_t row = ZONE_NONE;
    zone_worker_t fresh[CREW] = { ZONE_NONE, ZONE_NONE, ZONE_NONE }, none = ZONE_NONE;
    uint32_t answer;
    REFUSED(ZONE_BAD_HANDLE, zonealloc_make(&world.row, fresh, CREW, specs, ZONES, BATCH, HIGH_LEN));
    REFUSED(ZONE_BAD_HANDLE, zonealloc_make(&world.row, world.workers, CREW, specs, ZONES, BATCH, HIGH_LEN));
    REFUSED(ZONE_BAD_HANDLE, zonealloc_make_with_boards(&world.row, world.workers, CREW, specs, ZONES, BATCH, HIGH_LEN));
    REFUSED(ZONE_BAD_HANDLE, zonealloc_make(&row, world.workers, CREW, specs, ZONES, BATCH, HIGH_LEN));
    REFUSED(ZONE_BAD_HANDLE, zonealloc_make(&row, &world.workers[2], 1, specs, ZONES, 0, 0));
    forget();
    fresh[2] = world.workers[1];
    world.workers[1] = none;
    answer = zonealloc_make(&row, fresh, CREW, specs, ZONES, BATCH, HIGH_LEN);
    world.workers[1] = fresh[2];
    refused(answer, ZONE_BAD_HANDLE, "a making over one worker", __LINE__);
    CHECK(are_no_workers(fresh, 2) && is_no_row(&row));
}

/* --- making --- */

static zone_row_t made;
static zone_worker_t crew[ZONE_WORKERS + 1];

/* A making that is refused leaves its handles empty, and no memory. */
static void unmade(uint32_t answer, uint32_t wanted, const char *call, int line)
{
    answered(answer, wanted, call, line);
    check(is_left(&told, sizeof told), call, line);
    check(is_no_row(&made) && are_no_workers(crew, ZONE_WORKERS + 1), call, line);
    check(blocks == 0, call, line);
}
#define UNMADE(wanted, call) (forget(), unmade((call), (wanted), #call, __LINE__))

/* How many bytes a making takes that is refused in any case may be told, but not for pages or a largest order that no zone has. */
static void wrong_bytes(uint32_t wanted, const zone_spec_t *zones, size_t n_zones)
{
    uint32_t answer;
    forget();
    answer = zonealloc_bytes(zones, n_zones, 2, &told.bytes);
    CHECK(answer == wanted || (answer == ZONE_OK && wanted != ZONE_BAD_PAGES && wanted != ZONE_BAD_ARGUMENT));
    CHECK(answer == ZONE_OK || is_left(&told, sizeof told));
    CHECK(blocks == 0);
}

/* A making with the wrong zone first, and with it last. */
static void wrong_spec(uint32_t wanted, zone_spec_t wrong)
{
    zone_spec_t two[2];
    two[0] = wrong;
    UNMADE(wanted, zonealloc_make(&made, crew, 2, two, 1, BATCH, HIGH_LEN));
    wrong_bytes(wanted, two, 1);
    two[0] = specs[0];
    two[1] = wrong;
    UNMADE(wanted, zonealloc_make(&made, crew, 2, two, 2, BATCH, HIGH_LEN));
    wrong_bytes(wanted, two, 2);
}

static void wrong_names(void)
{
    static const uint8_t bytes[] = { 0, ' ', '-', '/', ':', '@', '[', '_', '`', '{', 127, 128, 0xC3, 0xFF };
    static const uint32_t lens[] = { 0, 9, 256, 257, 0xFFFFFFFF };
    zone_spec_t wrong = specs[1];
    size_t i;
    for (i = 0; i < sizeof lens / sizeof lens[0]; i++) {
        wrong.name_len = lens[i];
        wrong_spec(ZONE_BAD_NAME, wrong);
    }
    for (i = 0; i < sizeof bytes; i++) {
        wrong = specs[1];
        wrong.name[i % wrong.name_len] = bytes[i];
        wrong_spec(ZONE_BAD_NAME, wrong);
    }
}

static void wrong_sizes(void)
{
    static const uint32_t bases[] = { 1025, 2047, 0x7FFFFFFF, (1u << 30) + 1024, 0x80000000, 0xFFFFFC00, 0xFFFFFFFF };
    static const uint32_t pages[] = { 0, (1u << 24) + 1, 1u << 25, 0x80000000, 0xFFFFFFFF };
    static const uint32_t mins[] = { HIGH_ZONE + 1, 65536, 0x80000000, 0xFFFFFFFF };
    static const uint32_t orders[] = { 0, 11, 12, 256, 257, 266, 0x80000000, 0xFFFFFFFF };
    zone_spec_t wrong;
    size_t i;
    for (wrong = specs[1], i = 0; i < sizeof bases / sizeof bases[0]; i++) {
        wrong.base = bases[i];
        wrong_spec(ZONE_BAD_BASE, wrong);
    }
    for (wrong = specs[1], i = 0; i < sizeof pages / sizeof pages[0]; i++) {
        wrong.pages = pages[i];
        wrong_spec(ZONE_BAD_PAGES, wrong);
    }
    for (wrong = specs[1], i = 0; i < sizeof mins / sizeof mins[0]; i++) {
        wrong.min = mins[i];
        wrong_spec(ZONE_BAD_MARK, wrong);
    }
    for (wrong = specs[1], i = 0; i < sizeof orders / sizeof orders[0]; i++) {
        wrong.largest = orders[i];
        wrong_spec(ZONE_BAD_ARGUMENT, wrong);
    }
}

/* Zones of which the second begins below the end of the first. */
static void wrong_neighbours(void)
{
    static const uint32_t bases[] = { 0, 1024, 2048, 3072 };
    zone_spec_t two[2];
    size_t i;
    two[0] = two[1] = specs[1];
    two[0].base = 2048;
    for (i = 0; i < sizeof bases / sizeof bases[0]; i++) {
        two[1].base = bases[i];
        UNMADE(ZONE_BAD_BASE, zonealloc_make(&made, crew, 2, two, 2, BATCH, HIGH_LEN));
    }
}

static void wrong_lists(void)
{
    static const uint32_t lists[][2] = {
        { 0, 1 }, { 0, 64 }, { 1, 0 }, { 1, 1 }, { 4, 4 }, { 5, 4 }, { 31, 31 }, { 31, 65 }, { 32, 40 }, { 32, 64 }, { 256, 6 }, { 260, 6 },
        { 4, 262 }, { 0, 256 }, { 256, 0 }, { 256, 256 }, { 4, 0xFFFFFFFF }, { 0xFFFFFFFF, 0 }, { 0xFFFFFFFF, 0xFFFFFFFF }
    };
    size_t i;
    for (i = 0; i < sizeof lists / sizeof lists[0]; i++)
        UNMADE(ZONE_BAD_ARGUMENT, zonealloc_make(&made, crew, 2, specs, ZONES, lists[i][0], lists[i][1]));
}

static void wrong_makings(void)
{
    static zone_spec_t too_many[ZONE_ZONES + 1];
    static const uint32_t many[] = { 0, ZONE_WORKERS + 1, 256, 257, 0x80000000, 0xFFFFFFFF };
    size_t i;
    for (i = 0; i <= ZONE_ZONES; i++) {
        too_many[i] = specs[0];
        too_many[i].base += 1024 * (uint32_t)i;
        too_many[i].name[0] = (uint8_t)('A' + i % 26);
    }
    UNMADE(ZONE_BAD_ARGUMENT, zonealloc_make(&made, crew, 2, too_many, 0, BATCH, HIGH_LEN));
    UNMADE(ZONE_BAD_ARGUMENT, zonealloc_make(&made, crew, 2, too_many, ZONE_ZONES + 1, BATCH, HIGH_LEN));
    UNMADE(ZONE_BAD_ARGUMENT, zonealloc_bytes(too_many, 0, 2, &told.bytes));
    UNMADE(ZONE_BAD_ARGUMENT, zonealloc_bytes(too_many, ZONE_ZONES + 1, 2, &told.bytes));
    UNMADE(ZONE_BAD_WORKERS, zonealloc_make(&made, crew, 0, specs, ZONES, BATCH, HIGH_LEN));
    UNMADE(ZONE_BAD_WORKERS, zonealloc_make(&made, crew, ZONE_WORKERS + 1, specs, ZONES, BATCH, HIGH_LEN));
    for (i = 0; i < sizeof many / sizeof many[0]; i++)
        UNMADE(ZONE_BAD_WORKERS, zonealloc_bytes(specs, ZONES, many[i], &told.bytes));
    wrong_names();
    wrong_sizes();
    wrong_neighbours();
    wrong_lists();
}

static void end_made(uint32_t workers)
{
    uint32_t i;
    for (i = 0; i < workers; i++)
        ANSWERS(ZONE_OK, zonealloc_dismiss(&crew[i]));
    ANSWERS(ZONE_OK, zonealloc_unmake(&made));
    CHECK(blocks == 0);
}

/* A making that is refused so many allocations from this one on. */
static uint32_t try_making(uint32_t workers, uint32_t zones, uint64_t number, uint64_t count)
{
    uint64_t asked_before = asked;
    uint32_t answer;
    refuse(number, count);
    taken = most_in_use = in_use;
    answer = zonealloc_make(&made, crew, workers, specs, zones, BATCH, HIGH_LEN);
    refuse_to = 0;
    CHECK(asked - asked_before < number ? answer == ZONE_OK : answer == ZONE_NO_MEMORY);
    if (answer != ZONE_OK)
        CHECK(is_no_row(&made) && are_no_workers(crew, workers) && blocks == 0);
    return answer;
}

/* The memory of a making is refused from its first allocation on, then from its second on, and so on until none is refused; and each one
 * alone. What a making takes is no more than was told. */
static void little_memory(uint32_t workers, uint32_t zones)
{
    uint64_t bytes = 0, number = 1;
    ANSWERS(ZONE_OK, zonealloc_bytes(specs, zones, workers, &bytes));
    while (try_making(workers, zones, number, UINT64_MAX) != ZONE_OK)
        number++;
    CHECK(number > 1);
    CHECK(taken <= bytes && most_in_use <= bytes);
    end_made(workers);
    for (number = 1; try_making(workers, zones, number, 1) != ZONE_OK;)
        number++;
    end_made(workers);
}

/* --- each number that the header states --- */

/* What a call is made with. A page is one of those that are known, or none of the zone's. Of a run the number is its pages, and the order how it is
 * aligned; of many blocks it is for how many there is room, or how many orders there are for one page. */
typedef enum {
    BYTES, MAKE, MAKE_WITH_BOARDS, DISMISS, UNMAKE, TAKE, PUT, IS_LENT, CACHED, ALLOC, ALLOC_TOLD, ALLOC_LOW, FREE, ALLOC_MANY, FREE_MANY, ALLOC_RUN, ALLOC_RUN_AT, FREE_RUN,
    POST, COLLECT, ISOLATE, RELEASE, REFILL, DRAIN, DRAIN_ALL, COUNTS, COUNTS_BY_TYPE, INFO, PAGE, PAGEBLOCK, GATHER,
    READER, READ, END_READER
} export_t;
typedef enum { MINE, OF_FULL_LIST, WITHOUT_LISTS, WITH_BOARDS, EMPTY } handle_t;
typedef enum { NO_PAGE, BELOW, ABOVE, LENT, ORDER4, OTHERS, SPARE } page_name_t;
enum { UPPER = 1, NO_ZONE = ZONES, NO_TYPE = ZONE_TYPES, NO_MARK = ZONE_LOW + 1, NO_ORDER = ZONE_ORDERS, ABOVE_LARGEST = 4 };

typedef struct { export_t call; uint32_t wanted; handle_t handle; uint32_t zone, order, type, mark, number; page_name_t page; } stated_t;

/* In each row what its number is answered for, and after it all that could be answered further down in the header's list, where one call can
 * have it too: so the rows of a call say in which order its numbers come. ZONE_BUSY is in busy.c, ZONE_ENDED nowhere. */
static const stated_t stated[] = {
    { DISMISS, ZONE_BAD_HANDLE, .handle = EMPTY },
    { UNMAKE, ZONE_BAD_HANDLE, .handle = EMPTY },
    { UNMAKE, ZONE_HAS_WORKERS, .handle = MINE },

    { TAKE, ZONE_BAD_ARGUMENT, .type = NO_TYPE, .handle = EMPTY, .zone = NO_ZONE },
    { TAKE, ZONE_BAD_HANDLE, .handle = EMPTY, .zone = NO_ZONE },
    { TAKE, ZONE_BAD_ARGUMENT, .zone = NO_ZONE },
    { TAKE, ZONE_LIST_EMPTY, .zone = UPPER, .type = ZONE_TYPE_UNMOVABLE },
    { TAKE, ZONE_LIST_EMPTY, .handle = WITHOUT_LISTS },

    { PUT, ZONE_BAD_HANDLE, .handle = EMPTY, .zone = NO_ZONE },
    { PUT, ZONE_BAD_ARGUMENT, .handle = WITHOUT_LISTS, .zone = NO_ZONE },
    { PUT, ZONE_NO_LISTS, .handle = WITHOUT_LISTS, .page = LENT, .zone = UPPER },
    { PUT, ZONE_NO_LISTS, .handle = WITHOUT_LISTS, .page = OTHERS, .zone = UPPER },
    { PUT, ZONE_NO_LISTS, .handle = WITHOUT_LISTS, .page = ABOVE, .zone = UPPER },
    { PUT, ZONE_NOT_LENT, .handle = OF_FULL_LIST, .page = BELOW },
    { PUT, ZONE_NOT_LENT, .handle = OF_FULL_LIST, .page = ABOVE },
    { PUT, ZONE_NOT_LENT, .page = ORDER4, .zone = UPPER },
    { PUT, ZONE_LIST_FULL, .handle = OF_FULL_LIST, .page = SPARE },

    { IS_LENT, ZONE_BAD_ARGUMENT, .order = NO_ORDER, .handle = EMPTY, .zone = NO_ZONE },
    { IS_LENT, ZONE_BAD_HANDLE, .handle = EMPTY, .zone = NO_ZONE },
    { IS_LENT, ZONE_BAD_ARGUMENT, .zone = NO_ZONE },

    { CACHED, ZONE_BAD_ARGUMENT, .type = NO_TYPE, .handle = EMPTY, .zone = NO_ZONE },
    { CACHED, ZONE_BAD_HANDLE, .handle = EMPTY, .zone = NO_ZONE },
    { CACHED, ZONE_BAD_ARGUMENT, .zone = NO_ZONE },

    { ALLOC, ZONE_BAD_ARGUMENT, .order = NO_ORDER, .handle = EMPTY, .zone = NO_ZONE },
    { ALLOC, ZONE_BAD_ARGUMENT, .type = NO_TYPE, .handle = EMPTY, .zone = NO_ZONE },
    { ALLOC, ZONE_BAD_ARGUMENT, .mark = NO_MARK, .handle = EMPTY, .zone = NO_ZONE },
    { ALLOC, ZONE_BAD_HANDLE, .handle = EMPTY, .zone = NO_ZONE },
    { ALLOC, ZONE_BAD_ARGUMENT, .zone = NO_ZONE },
    { ALLOC, ZONE_BELOW_MARK, .mark = ZONE_MIN, .order = ABOVE_LARGEST + 1 },
    { ALLOC, ZONE_NO_BLOCK, .order = ABOVE_LARGEST },

    { ALLOC_TOLD, ZONE_BAD_ARGUMENT, .order = NO_ORDER, .handle = EMPTY, .zone = NO_ZONE },
    { ALLOC_TOLD, ZONE_BAD_ARGUMENT, .type = NO_TYPE, .handle = EMPTY, .zone = NO_ZONE },
    { ALLOC_TOLD, ZONE_BAD_ARGUMENT, .mark = NO_MARK, .handle = EMPTY, .zone = NO_ZONE },
    { ALLOC_TOLD, ZONE_BAD_HANDLE, .handle = EMPTY, .zone = NO_ZONE },
    { ALLOC_TOLD, ZONE_BAD_ARGUMENT, .zone = NO_ZONE },
    { ALLOC_TOLD, ZONE_BELOW_MARK, .mark = ZONE_MIN, .order = ABOVE_LARGEST + 1 },
    { ALLOC_TOLD, ZONE_NO_BLOCK, .order = ABOVE_LARGEST },
    { ALLOC_LOW, ZONE_BAD_ARGUMENT, .order = NO_ORDER, .handle = EMPTY, .zone = NO_ZONE },
    { ALLOC_LOW, ZONE_BAD_HANDLE, .handle = EMPTY, .zone = NO_ZONE },
    { ALLOC_LOW, ZONE_BAD_ARGUMENT, .zone = NO_ZONE },
    { ALLOC_LOW, ZONE_NO_BLOCK, .order = ABOVE_LARGEST },

    { FREE, ZONE_BAD_ARGUMENT, .order = NO_ORDER, .handle = EMPTY, .zone = NO_ZONE },
    { FREE, ZONE_BAD_HANDLE, .handle = EMPTY, .zone = NO_ZONE },
    { FREE, ZONE_BAD_ARGUMENT, .zone = NO_ZONE },
    { FREE, ZONE_NOT_LENT, .page = BELOW },
    { FREE, ZONE_NOT_LENT, .page = ABOVE },
    { FREE, ZONE_NOT_LENT, .page = ABOVE, .order = ABOVE_LARGEST },
    { FREE, ZONE_NOT_LENT, .page = LENT, .zone = UPPER, .order = 1 },

    { ALLOC_MANY, ZONE_BAD_ARGUMENT, .number = ROOM, .order = NO_ORDER, .handle = EMPTY, .zone = NO_ZONE },
    { ALLOC_MANY, ZONE_BAD_ARGUMENT, .number = ROOM, .type = NO_TYPE, .handle = EMPTY, .zone = NO_ZONE },
    { ALLOC_MANY, ZONE_BAD_ARGUMENT, .number = ROOM, .mark = NO_MARK, .handle = EMPTY, .zone = NO_ZONE },
    { ALLOC_MANY, ZONE_BAD_ARGUMENT, .number = 0, .handle = EMPTY, .zone = NO_ZONE },
    { ALLOC_MANY, ZONE_BAD_HANDLE, .number = ROOM, .handle = EMPTY, .zone = NO_ZONE },
    { ALLOC_MANY, ZONE_BAD_ARGUMENT, .number = ROOM, .zone = NO_ZONE },
    { ALLOC_MANY, ZONE_BELOW_MARK, .number = ROOM, .mark = ZONE_MIN, .order = ABOVE_LARGEST + 1 },
    { ALLOC_MANY, ZONE_NO_BLOCK, .number = ROOM, .order = ABOVE_LARGEST },

    { FREE_MANY, ZONE_BAD_ARGUMENT, .number = 0, .handle = EMPTY, .zone = NO_ZONE },
    { FREE_MANY, ZONE_BAD_ARGUMENT, .number = 2, .handle = EMPTY, .zone = NO_ZONE },
    { FREE_MANY, ZONE_BAD_ARGUMENT, .number = 1, .order = NO_ORDER, .handle = EMPTY, .zone = NO_ZONE },
    { FREE_MANY, ZONE_BAD_HANDLE, .number = 1, .handle = EMPTY, .zone = NO_ZONE },
    { FREE_MANY, ZONE_BAD_ARGUMENT, .number = 1, .zone = NO_ZONE },
    { FREE_MANY, ZONE_NOT_LENT, .number = 1, .page = BELOW },
    { FREE_MANY, ZONE_NOT_LENT, .number = 1, .page = ABOVE, .order = ABOVE_LARGEST },
    { FREE_MANY, ZONE_NOT_LENT, .number = 1, .page = LENT, .zone = UPPER, .order = 1 },

    { ALLOC_RUN, ZONE_BAD_ARGUMENT, .number = 0, .handle = EMPTY, .zone = NO_ZONE },
    { ALLOC_RUN, ZONE_BAD_ARGUMENT, .number = 1, .order = MOST_ALIGN + 1, .handle = EMPTY, .zone = NO_ZONE },
    { ALLOC_RUN, ZONE_BAD_ARGUMENT, .number = 1, .mark = NO_MARK, .handle = EMPTY, .zone = NO_ZONE },
    { ALLOC_RUN, ZONE_BAD_HANDLE, .number = 1, .handle = EMPTY, .zone = NO_ZONE },
    { ALLOC_RUN, ZONE_BAD_ARGUMENT, .number = LOW_ZONE + 1, .mark = ZONE_MIN, .zone = NO_ZONE },
    { ALLOC_RUN, ZONE_BELOW_MARK, .number = LOW_ZONE + 1, .mark = ZONE_MIN },
    { ALLOC_RUN, ZONE_NO_BLOCK, .number = 1, .order = MOST_ALIGN },

    { ALLOC_RUN_AT, ZONE_BAD_HANDLE, .handle = EMPTY, .zone = NO_ZONE },
    { ALLOC_RUN_AT, ZONE_BAD_ARGUMENT, .zone = NO_ZONE },
    { ALLOC_RUN_AT, ZONE_BAD_RUN, .page = LENT, .zone = UPPER, .number = 0 },
    { ALLOC_RUN_AT, ZONE_BAD_RUN, .page = BELOW, .number = 2 },
    { ALLOC_RUN_AT, ZONE_BAD_RUN, .page = LENT, .zone = UPPER, .number = HIGH_ZONE },
    { ALLOC_RUN_AT, ZONE_NOT_FREE, .page = LENT, .zone = UPPER, .number = 1 },

    { FREE_RUN, ZONE_BAD_HANDLE, .handle = EMPTY, .zone = NO_ZONE },
    { FREE_RUN, ZONE_BAD_ARGUMENT, .zone = NO_ZONE },
    { FREE_RUN, ZONE_NOT_LENT, .page = LENT, .zone = UPPER, .number = 0 },
    { FREE_RUN, ZONE_NOT_LENT, .page = BELOW, .number = 2 },
    { FREE_RUN, ZONE_NOT_LENT, .page = OTHERS, .zone = UPPER, .number = 1 },

    { POST, ZONE_BAD_ARGUMENT, .order = NO_ORDER, .handle = EMPTY, .zone = NO_ZONE },
    { POST, ZONE_BAD_ARGUMENT, .number = ZONE_WORKERS, .handle = EMPTY, .zone = NO_ZONE },
    { POST, ZONE_BAD_HANDLE, .handle = EMPTY, .zone = NO_ZONE },
    { POST, ZONE_BAD_ARGUMENT, .zone = NO_ZONE, .number = CREW },
    { POST, ZONE_BAD_ARGUMENT, .number = CREW, .page = ABOVE },
    { POST, ZONE_NOT_LENT, .page = ABOVE },
    { POST, ZONE_NOT_LENT, .page = ABOVE, .order = ABOVE_LARGEST },
    { POST, ZONE_NOT_LENT, .page = OTHERS, .zone = UPPER },

    { COLLECT, ZONE_BAD_HANDLE, .handle = EMPTY, .zone = NO_ZONE },
    { COLLECT, ZONE_BAD_ARGUMENT, .zone = NO_ZONE },
    { COLLECT, ZONE_NOTHING_POSTED, .zone = UPPER },

    { ISOLATE, ZONE_BAD_HANDLE, .handle = EMPTY, .zone = NO_ZONE },
    { ISOLATE, ZONE_BAD_ARGUMENT, .zone = NO_ZONE, .number = 5 },
    { ISOLATE, ZONE_BAD_PAGEBLOCK, .number = 5 },
    { ISOLATE, ZONE_ALREADY_ISOLATED, .number = 4 },

    { RELEASE, ZONE_BAD_ARGUMENT, .type = NO_TYPE, .handle = EMPTY, .zone = NO_ZONE },
    { RELEASE, ZONE_BAD_HANDLE, .handle = EMPTY, .zone = NO_ZONE },
    { RELEASE, ZONE_BAD_ARGUMENT, .zone = NO_ZONE, .number = 5 },
    { RELEASE, ZONE_BAD_PAGEBLOCK, .number = 5 },
    { RELEASE, ZONE_NOT_ISOLATED, .number = 0 },

    { REFILL, ZONE_BAD_ARGUMENT, .type = NO_TYPE, .handle = EMPTY, .zone = NO_ZONE },
    { REFILL, ZONE_BAD_ARGUMENT, .mark = NO_MARK, .handle = EMPTY, .zone = NO_ZONE },
    { REFILL, ZONE_BAD_HANDLE, .handle = EMPTY, .zone = NO_ZONE },
    { REFILL, ZONE_BAD_ARGUMENT, .zone = NO_ZONE, .handle = WITHOUT_LISTS },
    { REFILL, ZONE_NO_LISTS, .handle = WITHOUT_LISTS },
    { REFILL, ZONE_LIST_NOT_EMPTY, .zone = UPPER, .type = ZONE_TYPE_MOVABLE },
    { REFILL, ZONE_BELOW_MARK, .mark = ZONE_MIN, .type = ZONE_TYPE_RECLAIMABLE },
    { REFILL, ZONE_NO_BLOCK, .type = ZONE_TYPE_RECLAIMABLE },

    { DRAIN, ZONE_BAD_ARGUMENT, .type = NO_TYPE, .handle = EMPTY, .zone = NO_ZONE },
    { DRAIN, ZONE_BAD_HANDLE, .handle = EMPTY, .zone = NO_ZONE },
    { DRAIN, ZONE_BAD_ARGUMENT, .zone = NO_ZONE },
    { DRAIN, ZONE_BAD_ARGUMENT, .zone = UPPER, .type = ZONE_TYPE_MOVABLE, .number = 0 },
    { DRAIN, ZONE_BAD_ARGUMENT, .zone = UPPER, .type = ZONE_TYPE_MOVABLE, .number = BATCH + 1 },
    { DRAIN, ZONE_BAD_ARGUMENT, .handle = WITHOUT_LISTS, .number = 1 },

    { DRAIN_ALL, ZONE_BAD_HANDLE, .handle = EMPTY, .zone = NO_ZONE },
    { DRAIN_ALL, ZONE_BAD_ARGUMENT, .zone = NO_ZONE },

    { COUNTS, ZONE_BAD_HANDLE, .handle = EMPTY, .zone = NO_ZONE },
    { COUNTS, ZONE_BAD_ARGUMENT, .zone = NO_ZONE },
    { COUNTS_BY_TYPE, ZONE_BAD_HANDLE, .handle = EMPTY, .zone = NO_ZONE },
    { COUNTS_BY_TYPE, ZONE_BAD_ARGUMENT, .zone = NO_ZONE },
    { INFO, ZONE_BAD_HANDLE, .handle = EMPTY, .zone = NO_ZONE },
    { INFO, ZONE_BAD_ARGUMENT, .zone = NO_ZONE },
    { PAGE, ZONE_BAD_HANDLE, .handle = EMPTY, .zone = NO_ZONE },
    { PAGE, ZONE_BAD_ARGUMENT, .zone = NO_ZONE },
    { PAGE, ZONE_BAD_ARGUMENT, .page = BELOW },
    { PAGE, ZONE_BAD_ARGUMENT, .page = ABOVE },
    { PAGEBLOCK, ZONE_BAD_HANDLE, .handle = EMPTY, .zone = NO_ZONE },
    { PAGEBLOCK, ZONE_BAD_ARGUMENT, .zone = NO_ZONE, .number = 5 },
    { PAGEBLOCK, ZONE_BAD_PAGEBLOCK, .number = 5 },

    { GATHER, ZONE_BAD_HANDLE, .handle = EMPTY, .zone = NO_ZONE },
    { GATHER, ZONE_BAD_ARGUMENT, .zone = NO_ZONE },
    { GATHER, ZONE_HAS_WORKERS, .zone = UPPER },

    { READER, ZONE_BAD_HANDLE, .handle = EMPTY, .zone = NO_ZONE },
    { READER, ZONE_BAD_ARGUMENT, .zone = NO_ZONE },
    { READER, ZONE_NO_BOARD, .zone = UPPER },
    { READER, ZONE_NO_MEMORY, .handle = WITH_BOARDS },
    { READ, ZONE_BAD_HANDLE, .handle = EMPTY },
    { END_READER, ZONE_BAD_HANDLE, .handle = EMPTY },
};

/* A row of the same zones without lists, two pages of whose upper zone are lent: to its first worker, and to its second. */
static world_t without_lists;
/* And one with boards. */
static world_t with_boards;

static uint32_t page_of(const stated_t *s, uint32_t spare)
{
    uint32_t zone = s->zone < ZONES ? s->zone : 0, base = specs[zone].base;
    switch (s->page) {
    case BELOW: return base - 1;
    case ABOVE: return base + specs[zone].pages;
    case LENT: return s->handle == WITHOUT_LISTS ? base + 1 : known.lent;
    case OTHERS: return s->handle == WITHOUT_LISTS ? base : known.other;
    case ORDER4: return known.order4;
    case SPARE: return spare;
    case NO_PAGE: break;
    }
    return 0;
}

static uint32_t ask(const stated_t *s, zone_worker_t *w, zone_row_t *row, uint32_t page)
{
    uint32_t orders[2];
    orders[0] = orders[1] = s->order;
    switch (s->call) {
    case ALLOC_MANY: return zonealloc_alloc_many(w, s->zone, s->order, s->type, s->mark, told.pages, s->number, &many);
    case FREE_MANY: return zonealloc_free_many(w, s->zone, &page, 1, orders, s->number, &many);
    case DISMISS: return zonealloc_dismiss(w);
    case UNMAKE: return zonealloc_unmake(row);
    case TAKE: return zonealloc_take(w, s->zone, s->type, &told.page);
    case PUT: return zonealloc_put(w, s->zone, page);
    case IS_LENT: return zonealloc_is_lent(w, s->zone, page, s->order, &told.number);
    case CACHED: return zonealloc_cached(w, s->zone, s->type, &told.number);
    case ALLOC: return zonealloc_alloc(w, s->zone, s->order, s->type, s->mark, &told.page);
    case ALLOC_TOLD: return zonealloc_alloc_told(w, s->zone, s->order, s->type, s->mark, &told.page, &told.origin);
    case ALLOC_LOW: return zonealloc_alloc_low(w, s->zone, s->order, &told.page);
    case FREE: return zonealloc_free(w, s->zone, page, s->order);
    case ALLOC_RUN: return zonealloc_alloc_run(w, s->zone, s->number, s->order, s->mark, &told.page);
    case ALLOC_RUN_AT: return zonealloc_alloc_run_at(w, s->zone, page, s->number);
    case FREE_RUN: return zonealloc_free_run(w, s->zone, page, s->number);
    case POST: return zonealloc_post(w, s->zone, page, s->order, s->number);
    case COLLECT: return zonealloc_collect(w, s->zone, &told.page, &told.order);
    case ISOLATE: return zonealloc_isolate(w, s->zone, s->number);
    case RELEASE: return zonealloc_release(w, s->zone, s->number, s->type);
    case REFILL: return zonealloc_refill(w, s->zone, s->type, s->mark);
    case DRAIN: return zonealloc_drain(w, s->zone, s->type, s->number);
    case DRAIN_ALL: return zonealloc_drain_all(w, s->zone);
    case COUNTS: return zonealloc_counts(w, s->zone, &told.counts);
    case COUNTS_BY_TYPE: return zonealloc_counts_by_type(w, s->zone, &told.types);
    case INFO: return zonealloc_info(w, s->zone, told.line, ZONE_INFO_LINE, &told.len);
    case PAGE: return zonealloc_page(w, s->zone, page, &told.noted);
    case PAGEBLOCK: return zonealloc_pageblock(w, s->zone, s->number, &told.block);
    case GATHER: return zonealloc_gather(row, s->zone, &told.totals);
    case READER: return zonealloc_reader(w, s->zone, &reader);
    case READ: return zonealloc_read(&reader, &told.reading);
    case END_READER: return zonealloc_end_reader(&reader);
    case BYTES: case MAKE: case MAKE_WITH_BOARDS: break;
    }
    return ZONE_OK;
}

static void state_row(const stated_t *s, uint32_t spare)
{
    zone_worker_t none = ZONE_NONE, *const of[] = { &world.workers[0], &world.workers[1], &without_lists.workers[0], &with_boards.workers[0], &none };
    zone_row_t no_row = ZONE_NONE;
    char what[64];
    uint32_t answer;
    (void)snprintf(what, sizeof what, "row %u of the numbers stated", (unsigned)(s - stated));
    forget();
    many = 0;
    if (s->wanted == ZONE_NO_MEMORY)
        refuse(1, UINT64_MAX);
    answer = ask(s, of[s->handle], s->handle == EMPTY ? &no_row : &world.row, page_of(s, spare));
    refuse_to = 0;
    refused(answer, s->wanted, what, __LINE__);
    CHECK(are_no_workers(&none, 1) && is_no_row(&no_row) && many == 0 && reader.live == 0 && reader.at == NULL);
}

/* Each row of the numbers stated, while worker 1 has its full list and a page more, and worker 2 all other pages of the lower zone that are
 * to be had. */
static void stated_numbers(void)
{
    uint32_t spare = 0, page = 0, answer = ZONE_OK;
    size_t i;
    furnish(&world, &known);
    ANSWERS(ZONE_OK, zonealloc_alloc(&world.workers[1], 0, 0, ZONE_TYPE_MOVABLE, ZONE_ANY, &spare));
    while (answer == ZONE_OK)
        answer = zonealloc_alloc(&world.workers[2], 0, 0, ZONE_TYPE_MOVABLE, ZONE_ANY, &page);
    ANSWERS(ZONE_OK, zonealloc_make(&without_lists.row, without_lists.workers, CREW, specs, ZONES, 0, 0));
    ANSWERS(ZONE_OK, zonealloc_make_with_boards(&with_boards.row, with_boards.workers, CREW, specs, ZONES, 0, 0));
    ANSWERS(ZONE_OK, zonealloc_alloc_low(&without_lists.workers[1], 1, 0, &page));
    ANSWERS(ZONE_OK, zonealloc_alloc_low(&without_lists.workers[0], 1, 0, &page));
    see(&world, &before);
    for (i = 0; i < sizeof stated / sizeof stated[0]; i++)
        state_row(&stated[i], spare);
    ANSWERS(ZONE_OK, zonealloc_is_lent(&world.workers[1], 0, spare, ABOVE_LARGEST, &told.number));
    CHECK(told.number == 0);
    ANSWERS(ZONE_OK, zonealloc_is_lent(&without_lists.workers[0], 1, page, 0, &told.number));
    CHECK(told.number == 1);
    ANSWERS(ZONE_OK, zonealloc_free(&without_lists.workers[0], 1, page, 0));
    unfurnish(&without_lists);
    unfurnish(&with_boards);
    unfurnish(&world);
    CHECK(blocks == 0);
}

/* A making of up to two zones. `over` a row that is there, or where no memory is given. */
typedef struct {
    export_t call;
    uint32_t wanted;
    int over, no_memory;
    size_t n_zones, n_workers;
    uint32_t batch, high_len;
    zone_spec_t zones[2];
} making_t;

#define GOOD { 2048, 64, 0, 10, 1, { 'G' } }
#define LONG_NAME { 1024, 64, 0, 10, 9, { 'N' } }
#define BAD_NAME_LARGEST { 1024, 64, 0, 0, 9, { 'N' } }
#define BAD_LARGEST { 1025, 0, 1, 0, 1, { '-' } }
#define BAD_LETTER { 1025, 0, 1, 10, 1, { '-' } }
#define BAD_BASE { 1025, 0, 1, 10, 1, { 'N' } }
#define NO_PAGES { 1024, 0, 1, 10, 1, { 'N' } }
#define BAD_MIN { 1024, 64, 65, 10, 1, { 'N' } }
#define MEETS { 1024, 1025, 0, 0, 9, { '-' } }

/* As `stated`. */
static const making_t makings[] = {
    { BYTES, ZONE_BAD_ARGUMENT, .n_zones = 0, .n_workers = 0 },
    { BYTES, ZONE_BAD_WORKERS, .n_zones = 1, .n_workers = 0, .zones = { BAD_LARGEST } },
    { BYTES, ZONE_BAD_WORKERS, .n_zones = 1, .n_workers = ZONE_WORKERS + 1, .zones = { NO_PAGES } },
    { BYTES, ZONE_BAD_ARGUMENT, .n_zones = 1, .n_workers = 1, .zones = { BAD_LARGEST } },
    { BYTES, ZONE_BAD_ARGUMENT, .n_zones = 2, .n_workers = 1, .zones = { GOOD, BAD_LARGEST } },
    { BYTES, ZONE_BAD_PAGES, .n_zones = 2, .n_workers = 1, .zones = { NO_PAGES, BAD_LARGEST } },
    { BYTES, ZONE_BAD_PAGES, .n_zones = 2, .n_workers = 1, .zones = { GOOD, NO_PAGES } },

    { MAKE, ZONE_BAD_HANDLE, .over = 1, .n_zones = 0, .n_workers = 0 },
    { MAKE, ZONE_BAD_ARGUMENT, .n_zones = 0, .n_workers = 0 },
    { MAKE, ZONE_BAD_WORKERS, .n_zones = 2, .n_workers = 0, .batch = 4, .high_len = 4, .zones = { MEETS, GOOD } },
    { MAKE, ZONE_BAD_WORKERS, .n_zones = 2, .n_workers = ZONE_WORKERS + 1, .batch = 4, .high_len = 4, .zones = { MEETS, GOOD } },
    { MAKE, ZONE_BAD_ARGUMENT, .n_zones = 2, .n_workers = 1, .batch = 4, .high_len = 4, .zones = { MEETS, GOOD } },
    { MAKE, ZONE_BAD_BASE, .n_zones = 2, .n_workers = 1, .batch = 4, .high_len = 6, .zones = { MEETS, GOOD } },
    { MAKE, ZONE_BAD_NAME, .n_zones = 1, .n_workers = 1, .zones = { BAD_NAME_LARGEST } },
    { MAKE, ZONE_BAD_NAME, .n_zones = 2, .n_workers = 1, .zones = { LONG_NAME, { 2048, 64, 0, 0, 1, { 'G' } } } },
    { MAKE, ZONE_BAD_ARGUMENT, .n_zones = 2, .n_workers = 1, .zones = { BAD_LARGEST, { 2048, 64, 0, 10, 9, { 'G' } } } },
    { MAKE, ZONE_BAD_NAME, .n_zones = 1, .n_workers = 1, .zones = { BAD_LETTER } },
    { MAKE, ZONE_BAD_BASE, .n_zones = 1, .n_workers = 1, .zones = { BAD_BASE } },
    { MAKE, ZONE_BAD_PAGES, .n_zones = 1, .n_workers = 1, .zones = { NO_PAGES } },
    { MAKE, ZONE_BAD_MARK, .n_zones = 2, .n_workers = 1, .zones = { BAD_MIN, { 2048, 64, 0, 10, 1, { '-' } } } },
    { MAKE, ZONE_NO_MEMORY, .no_memory = 1, .n_zones = 1, .n_workers = 1, .zones = { GOOD } },
    { MAKE_WITH_BOARDS, ZONE_BAD_HANDLE, .over = 1, .n_zones = 0, .n_workers = 0 },
    { MAKE_WITH_BOARDS, ZONE_BAD_ARGUMENT, .n_zones = 0, .n_workers = 0 },
    { MAKE_WITH_BOARDS, ZONE_BAD_WORKERS, .n_zones = 2, .n_workers = 0, .batch = 4, .high_len = 4, .zones = { MEETS, GOOD } },
    { MAKE_WITH_BOARDS, ZONE_BAD_WORKERS, .n_zones = 2, .n_workers = ZONE_WORKERS + 1, .batch = 4, .high_len = 4, .zones = { MEETS, GOOD } },
    { MAKE_WITH_BOARDS, ZONE_BAD_ARGUMENT, .n_zones = 2, .n_workers = 1, .batch = 4, .high_len = 4, .zones = { MEETS, GOOD } },
    { MAKE_WITH_BOARDS, ZONE_BAD_BASE, .n_zones = 2, .n_workers = 1, .batch = 4, .high_len = 6, .zones = { MEETS, GOOD } },
    { MAKE_WITH_BOARDS, ZONE_BAD_NAME, .n_zones = 1, .n_workers = 1, .zones = { BAD_NAME_LARGEST } },
    { MAKE_WITH_BOARDS, ZONE_BAD_NAME, .n_zones = 2, .n_workers = 1, .zones = { LONG_NAME, { 2048, 64, 0, 0, 1, { 'G' } } } },
    { MAKE_WITH_BOARDS, ZONE_BAD_ARGUMENT, .n_zones = 2, .n_workers = 1, .zones = { BAD_LARGEST, { 2048, 64, 0, 10, 9, { 'G' } } } },
    { MAKE_WITH_BOARDS, ZONE_BAD_NAME, .n_zones = 1, .n_workers = 1, .zones = { BAD_LETTER } },
    { MAKE_WITH_BOARDS, ZONE_BAD_BASE, .n_zones = 1, .n_workers = 1, .zones = { BAD_BASE } },
    { MAKE_WITH_BOARDS, ZONE_BAD_PAGES, .n_zones = 1, .n_workers = 1, .zones = { NO_PAGES } },
    { MAKE_WITH_BOARDS, ZONE_BAD_MARK, .n_zones = 2, .n_workers = 1, .zones = { BAD_MIN, { 2048, 64, 0, 10, 1, { '-' } } } },
    { MAKE_WITH_BOARDS, ZONE_NO_MEMORY, .no_memory = 1, .n_zones = 1, .n_workers = 1, .zones = { GOOD } },
};

static void make_row(const making_t *m)
{
    zone_row_t was;
    uint32_t answer;
    char what[64];
    (void)snprintf(what, sizeof what, "row %u of the makings", (unsigned)(m - makings));
    if (m->over)
        ANSWERS(ZONE_OK, zonealloc_make(&made, crew, 1, specs, ZONES, 0, 0));
    was = made;
    if (m->no_memory)
        refuse(1, UINT64_MAX);
    forget();
    if (m->call == BYTES)
        answer = zonealloc_bytes(m->zones, m->n_zones, (uint32_t)m->n_workers, &told.bytes);
    else if (m->call == MAKE_WITH_BOARDS)
        answer = zonealloc_make_with_boards(&made, crew, m->n_workers, m->zones, m->n_zones, m->batch, m->high_len);
    else
        answer = zonealloc_make(&made, crew, m->n_workers, m->zones, m->n_zones, m->batch, m->high_len);
    refuse_to = 0;
    answered(answer, m->wanted, what, __LINE__);
    CHECK(is_left(&told, sizeof told) && made.live == was.live && made.at == was.at);
    if (m->over)
        end_made(1);
    CHECK(blocks == 0 && is_no_row(&made) && are_no_workers(crew, ZONE_WORKERS + 1));
}

static void stated_makings(void)
{
    size_t i;
    for (i = 0; i < sizeof makings / sizeof makings[0]; i++)
        make_row(&makings[i]);
}

/* --- each export with ample memory --- */

static void good_readings(zone_worker_t *w)
{
    static const char line[] = "Node 0, zone      DMA      0      0      0      5 \n";
    forget();
    ANSWERS(ZONE_OK, zonealloc_info(w, 0, told.line, 20, &told.len));
    CHECK(told.len == sizeof line - 1 && memcmp(told.line, line, 20) == 0 && is_left(told.line + 20, ZONE_INFO_LINE - 20));
    ANSWERS(ZONE_OK, zonealloc_info(w, 0, told.line, ZONE_INFO_LINE, &told.len));
    CHECK(memcmp(told.line, line, sizeof line - 1) == 0 && is_left(told.line + told.len, ZONE_INFO_LINE - told.len));
    forget();
    ANSWERS(ZONE_OK, zonealloc_info(w, 0, told.line, 0, &told.len));
    CHECK(told.len == sizeof line - 1 && is_left(told.line, ZONE_INFO_LINE));
    ANSWERS(ZONE_OK, zonealloc_counts(w, 0, &told.counts));
    CHECK(told.counts.free == LOW_ZONE && told.counts.posted == 0 && told.counts.level == ZONE_ABOVE_HIGH);
    CHECK(told.counts.by_order[3] == 5 && told.counts.by_order[2] == 0);
    ANSWERS(ZONE_OK, zonealloc_page(w, 0, 1032, &told.noted));
    CHECK(told.noted.state == ZONE_FREE && told.noted.order == 3 && told.noted.type == 0 && told.noted.worker == 0);
    ANSWERS(ZONE_OK, zonealloc_pageblock(w, 0, 4, &told.block));
    CHECK(told.block.type == ZONE_TYPE_MOVABLE && told.block.free == 8 && told.block.largest == 3);
}

static void good_lists(zone_worker_t *w)
{
    ANSWERS(ZONE_OK, zonealloc_refill(w, 0, ZONE_TYPE_MOVABLE, ZONE_LOW));
    ANSWERS(ZONE_OK, zonealloc_cached(w, 0, ZONE_TYPE_MOVABLE, &told.number));
    CHECK(told.number == BATCH);
    ANSWERS(ZONE_OK, zonealloc_take(w, 0, ZONE_TYPE_MOVABLE, &told.page));
    CHECK(told.page == 1056);
    ANSWERS(ZONE_OK, zonealloc_is_lent(w, 0, 1056, 0, &told.number));
    CHECK(told.number == 1);
    ANSWERS(ZONE_OK, zonealloc_put(w, 0, 1056));
    ANSWERS(ZONE_OK, zonealloc_drain(w, 0, ZONE_TYPE_MOVABLE, 1));
    ANSWERS(ZONE_OK, zonealloc_drain_all(w, 0));
    ANSWERS(ZONE_OK, zonealloc_counts(w, 0, &told.counts));
    CHECK(told.counts.free == LOW_ZONE);
}

static void good_requests(zone_worker_t *w)
{
    ANSWERS(ZONE_OK, zonealloc_alloc(&w[0], 0, 2, ZONE_TYPE_MOVABLE, ZONE_LOW, &told.page));
    CHECK(told.page == 1056);
    ANSWERS(ZONE_OK, zonealloc_post(&w[0], 0, 1056, 2, 1));
    ANSWERS(ZONE_OK, zonealloc_collect(&w[1], 0, &told.page, &told.order));
    CHECK(told.page == 1056 && told.order == 2);
    ANSWERS(ZONE_OK, zonealloc_free(&w[1], 0, 1056, 2));
    ANSWERS(ZONE_OK, zonealloc_alloc_low(&w[0], 0, 1, &told.page));
    CHECK(told.page == 1024);
    ANSWERS(ZONE_OK, zonealloc_alloc_run(&w[0], 0, 5, 2, ZONE_LOW, &told.page));
    CHECK(told.page == 1028);
    ANSWERS(ZONE_OK, zonealloc_free_run(&w[0], 0, 1029, 4));
    ANSWERS(ZONE_OK, zonealloc_alloc_run_at(&w[1], 0, 1029, 11));
    ANSWERS(ZONE_OK, zonealloc_free_run(&w[1], 0, 1029, 11));
    ANSWERS(ZONE_OK, zonealloc_free(&w[0], 0, 1028, 0));
    ANSWERS(ZONE_OK, zonealloc_isolate(&w[0], 0, 2));
    ANSWERS(ZONE_OK, zonealloc_release(&w[0], 0, 2, ZONE_TYPE_RECLAIMABLE));
}

static void good_calls(void)
{
    uint64_t asked_before, bytes = 0;
    uint32_t i;
    ANSWERS(ZONE_OK, zonealloc_bytes(specs, ZONES, 2, &bytes));
    CHECK(bytes > 0);
    ANSWERS(ZONE_OK, zonealloc_make(&made, crew, 2, specs, ZONES, BATCH, HIGH_LEN));
    asked_before = asked;
    good_readings(&crew[1]);
    good_lists(&crew[1]);
    good_requests(crew);
    ANSWERS(ZONE_OK, zonealloc_dismiss(&crew[1]));
    ANSWERS(ZONE_HAS_WORKERS, zonealloc_unmake(&made));
    ANSWERS(ZONE_OK, zonealloc_dismiss(&crew[0]));
    ANSWERS(ZONE_OK, zonealloc_gather(&made, 0, &told.totals));
    CHECK(told.totals.free == LOW_ZONE - 2 && told.totals.posted == 0 && told.totals.cached == 0 && told.totals.lent == 2);
    forget();
    for (i = 0; i < PASTS; i++)
        ANSWERS(ZONE_BAD_ARGUMENT, zonealloc_gather(&made, beyond(ZONES, i), &told.totals));
    CHECK(is_left(&told, sizeof told));
    ANSWERS(ZONE_OK, zonealloc_unmake(&made));
    CHECK(asked == asked_before);
    CHECK(blocks == 0);
}

/* --- the rows' pages in the end --- */

/* Both rows hand out all their pages alike. */
static void hand_out(uint32_t zone)
{
    uint32_t mine = 0, its = 0, type, answer = ZONE_OK, i;
    for (i = 0; answer == ZONE_OK; i++) {
        type = i % ZONE_TYPES;
        answer = zonealloc_alloc(&world.workers[0], zone, i % 4 == 0, type, ZONE_ANY, &mine);
        ANSWERS(answer, zonealloc_alloc(&twin.workers[0], zone, i % 4 == 0, type, ZONE_ANY, &its));
        CHECK(mine == its);
    }
    CHECK(answer == ZONE_NO_BLOCK);
}

static void wrong_calls(void)
{
    zone_worker_t *w = world.workers;
    furnish(&twin, &known);
    furnish(&world, &known);
    see(&world, &before);
    refuse(1, UINT64_MAX);   /* no memory, and none is wanted */
    wrong_zones(&w[0]);
    wrong_orders(&w[0]);
    wrong_types(&w[0]);
    wrong_numbers(&w[0]);
    wrong_pages(&w[0]);
    not_lent(&w[0]);
    no_block(&w[0]);
    wrong_states(&w[0]);
    make_over();
    refuse_to = 0;
    wrong_handles();
    full_list(&w[1]);
    hand_out(0);
    hand_out(1);
    unfurnish(&world);
    unfurnish(&twin);
    CHECK(blocks == 0);
}

int main(void)
{
    good_calls();
    wrong_makings();
    little_memory(1, 1);
    little_memory(CREW, ZONES);
    little_memory(ZONE_WORKERS, ZONES);
    no_lists();
    stated_makings();
    stated_numbers();
    wrong_calls();
    CHECK(blocks == 0 && in_use == 0);
    printf("wrong calls: %u checks, %u failures\n", checks, failures);
    return failures == 0 ? 0 : 1;
}
