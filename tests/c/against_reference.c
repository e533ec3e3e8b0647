/* against_reference [CALLS [SEED]]: so many calls of the archive beside those of the plain reference, all picked by the seed. Rows of
 * all shapes are made one after the other; about one call in sixteen has a wrong argument. Each answer and each result is compared, and
 * that an answer other than ZONE_OK leaves the results as they were; of every other row also what its boards have after each call. At whiles everything that can be read of a row is compared, and at
 * the end of each row where its pages are. Prints one line and answers 0; or tells the first difference and answers 1. */
#include "reference.h"
#include <inttypes.h>
#include <stdio.h>
#include <stdlib.h>
#include <string.h>

enum { MOST_HELD = 1 << 16, SWEEP_EACH = 4096, TIDE_EACH = 3000, WORKERS_MADE = 2 * ZONE_WORKERS, ALIGNMENTS = 25, MANY = 24 };

typedef enum {
    TAKE, PUT, IS_LENT, CACHED, ALLOC, ALLOC_LOW, FREE, ALLOC_RUN, ALLOC_RUN_AT, FREE_RUN, ALLOC_MANY, FREE_MANY, POST, COLLECT, ISOLATE, RELEASE,
    REFILL, DRAIN, DRAIN_ALL, COUNTS, INFO, PAGE, PAGEBLOCK, DISMISS, UNMAKE, GATHER, CALLS
} kind_t;

static const char *const names[CALLS] = {
    "take", "put", "is_lent", "cached", "alloc", "alloc_low", "free", "alloc_run", "alloc_run_at", "free_run", "alloc_many", "free_many",
    "post", "collect", "isolate", "release", "refill", "drain", "drain_all", "counts", "info", "page", "pageblock", "dismiss", "unmake", "gather"
};
/* How often each is picked while a row lives. The last three are picked apart. */
static const uint32_t weights[CALLS] = { 14, 20, 4, 2, 24, 4, 24, 3, 3, 6, 2, 2, 6, 6, 1, 4, 10, 3, 1, 3, 2, 2, 2, 0, 0, 0 };

/* A call with all arguments that any of them has: the number is a pageblock, a count of pages or of blocks, or a receiver, and of a run the order
 * is how it is aligned. */
typedef struct {
    kind_t kind;
    uint32_t worker, zone, order, type, mark, page, number;
    size_t room;
    uint32_t pages[MANY], orders[MANY];
} call_t;

/* What a call answered, and all that any of them tells. */
typedef struct {
    uint32_t answer;
    uint32_t page, order, number;
    zone_counts_t counts;
    zone_page_t noted;
    zone_pageblock_t block;
    zone_totals_t totals;
    size_t len;
    uint8_t line[ZONE_INFO_LINE];
    size_t many;
    uint32_t pages[MANY];
} told_t;

typedef struct { uint32_t worker, zone, page, order; } held_t;

/* The row, in the archive and in the reference. A worker's handle of the archive has two places, and moves between them. */
static zone_row_t row;
static zone_worker_t workers[WORKERS_MADE];
static reference_row_t plain_row;
static reference_worker_t plain_workers[WORKERS_MADE];
static int moved;

static zone_spec_t specs[ZONE_ZONES];
static uint32_t n_zones, n_workers, n_live, batch, high_len, rows;
static held_t held[MOST_HELD];
static uint32_t n_held;
static uint64_t seed, state, done;
static int ebb;

/* Every other row has boards: a reader of each zone, and after how many requests it read last. */
static zone_reader_t readers[ZONE_ZONES];
static uint64_t places[ZONE_ZONES];
static int has_boards;

/* --- numbers by the seed --- */

static uint32_t any32(void)
{
    state = state * 6364136223846793005u + 1442695040888963407u;
    return (uint32_t)(state >> 33) ^ (uint32_t)(state >> 11);
}

static uint32_t below(uint32_t n)
{
    return (uint32_t)(((uint64_t)any32() * n) >> 32);
}

static int one_in(uint32_t n)
{
    return below(n) == 0;
}

/* --- a call, made of both --- */

#define ASK(NAME, PREFIX, WORKERS, ROW)                                                                           \
    static void NAME(const call_t *c, told_t *t)                                                                  \
    {                                                                                                             \
        memset(t, 0xA5, sizeof *t);                                                                               \
        switch (c->kind) {                                                                                        \
        case TAKE: t->answer = PREFIX##_take(WORKERS, c->zone, c->type, &t->page); break;                         \
        case PUT: t->answer = PREFIX##_put(WORKERS, c->zone, c->page); break;                                     \
        case IS_LENT: t->answer = PREFIX##_is_lent(WORKERS, c->zone, c->page, c->order, &t->number); break;       \
        case CACHED: t->answer = PREFIX##_cached(WORKERS, c->zone, c->type, &t->number); break;                   \
        case ALLOC: t->answer = PREFIX##_alloc(WORKERS, c->zone, c->order, c->type, c->mark, &t->page); break;    \
        case ALLOC_LOW: t->answer = PREFIX##_alloc_low(WORKERS, c->zone, c->order, &t->page); break;              \
        case FREE: t->answer = PREFIX##_free(WORKERS, c->zone, c->page, c->order); break;                         \
        case ALLOC_RUN: t->answer = PREFIX##_alloc_run(WORKERS, c->zone, c->number, c->order, c->mark, &t->page); break; \
        case ALLOC_RUN_AT: t->answer = PREFIX##_alloc_run_at(WORKERS, c->zone, c->page, c->number); break;        \
        case FREE_RUN: t->answer = PREFIX##_free_run(WORKERS, c->zone, c->page, c->number); break;                \
        case ALLOC_MANY:                                                                                          \
            t->answer = PREFIX##_alloc_many(WORKERS, c->zone, c->order, c->type, c->mark, t->pages, c->room, &t->many); \
            break;                                                                                                \
        case FREE_MANY:                                                                                           \
            t->answer = PREFIX##_free_many(WORKERS, c->zone, c->pages, c->number, c->orders, c->number, &t->many); \
            break;                                                                                                \
        case POST: t->answer = PREFIX##_post(WORKERS, c->zone, c->page, c->order, c->number); break;              \
        case COLLECT: t->answer = PREFIX##_collect(WORKERS, c->zone, &t->page, &t->order); break;                 \
        case ISOLATE: t->answer = PREFIX##_isolate(WORKERS, c->zone, c->number); break;                           \
        case RELEASE: t->answer = PREFIX##_release(WORKERS, c->zone, c->number, c->type); break;                  \
        case REFILL: t->answer = PREFIX##_refill(WORKERS, c->zone, c->type, c->mark); break;                      \
        case DRAIN: t->answer = PREFIX##_drain(WORKERS, c->zone, c->type, c->number); break;                      \
        case DRAIN_ALL: t->answer = PREFIX##_drain_all(WORKERS, c->zone); break;                                  \
        case COUNTS: t->answer = PREFIX##_counts(WORKERS, c->zone, &t->counts); break;                            \
        case INFO: t->answer = PREFIX##_info(WORKERS, c->zone, t->line, c->room, &t->len); break;                 \
        case PAGE: t->answer = PREFIX##_page(WORKERS, c->zone, c->page, &t->noted); break;                        \
        case PAGEBLOCK: t->answer = PREFIX##_pageblock(WORKERS, c->zone, c->number, &t->block); break;            \
        case DISMISS: t->answer = PREFIX##_dismiss(WORKERS); break;                                               \
        case UNMAKE: t->answer = PREFIX##_unmake(ROW); break;                                                     \
        case GATHER: t->answer = PREFIX##_gather(ROW, c->zone, &t->totals); break;                                \
        case CALLS: break;                                                                                        \
        }                                                                                                         \
    }
ASK(ask_archive, zonealloc, &workers[moved + c->worker], &row)
ASK(ask_plain, reference, &plain_workers[c->worker], &plain_row)

static void tell_row(void)
{
    uint32_t i;
    printf("  the row: %" PRIu32 " workers, lists %" PRIu32 " %" PRIu32 "\n", n_workers, batch, high_len);
    for (i = 0; i < n_zones; i++)
        printf("  zone %" PRIu32 ": base %" PRIu32 ", pages %" PRIu32 ", min %" PRIu32 ", largest %" PRIu32 "\n", i, specs[i].base,
               specs[i].pages, specs[i].min, specs[i].largest);
}

static void tell_side(const char *who, const told_t *t)
{
    const uint8_t *bytes = (const uint8_t *)t;
    size_t i;
    printf("  %s: answer %" PRIu32 ", page %" PRIu32 ", order %" PRIu32 ", number %" PRIu32 ", len %lu, many %lu\n   ", who, t->answer,
           t->page, t->order, t->number, (unsigned long)t->len, (unsigned long)t->many);
    for (i = offsetof(told_t, counts); i < offsetof(told_t, len); i += sizeof(uint32_t)) {
        uint32_t word;
        memcpy(&word, bytes + i, sizeof word);
        if (word != 0xA5A5A5A5u)
            printf(" +%lu:%" PRIu32, (unsigned long)((i - offsetof(told_t, counts)) / sizeof word), word);
    }
    printf("\n    line \"%.*s\"\n", t->len < ZONE_INFO_LINE ? (int)t->len : 0, (const char *)t->line);
}

/* A result that was left alone is told as 2779096485. Behind + stand the words of counts, page, pageblock and totals, by their place. */
static void differ(const call_t *c, const told_t *archive, const told_t *plain)
{
    printf("seed %" PRIu64 ", call %" PRIu64 ": worker %" PRIu32 " %s: zone %" PRIu32 " order %" PRIu32 " type %" PRIu32 " mark %" PRIu32
           " page %" PRIu32 " number %" PRIu32 " room %lu\n", seed, done, c->worker, names[c->kind], c->zone, c->order, c->type, c->mark,
           c->page, c->number, (unsigned long)c->room);
    tell_side("archive  ", archive);
    tell_side("reference", plain);
    tell_row();
    exit(1);
}

/* What both told, or the end. */
static told_t ask(const call_t *c)
{
    told_t archive, plain;
    ask_archive(c, &archive);
    ask_plain(c, &plain);
    if (memcmp(&archive, &plain, sizeof archive) != 0)
        differ(c, &archive, &plain);
    done++;
    return archive;
}

/* --- what is lent --- */

static void hold(const call_t *c, uint32_t page, uint32_t order)
{
    held_t block = { c->worker, c->zone, page, order };
    if (n_held < MOST_HELD)
        held[n_held++] = block;
}

static void let_go(const call_t *c)
{
    uint32_t i;
    for (i = n_held; i-- > 0;)
        if (held[i].page == c->page && held[i].zone == c->zone && held[i].worker == c->worker) {
            held[i] = held[--n_held];
            return;
        }
}

/* The blocks that begin in a run and are out: those of the worker, mostly. */
static void hold_run(const call_t *c, uint32_t page, uint32_t pages)
{
    zone_page_t noted;
    uint32_t end = page + pages;
    for (; page < end; page += noted.state == ZONE_OUT ? 1u << noted.order : 1) {
        if (reference_page(&plain_workers[c->worker], c->zone, page, &noted) != ZONE_OK)
            return;
        if (noted.state == ZONE_OUT)
            hold(c, page, noted.order);
    }
}

/* The run's blocks are the worker's no more; what two of them may have beyond it is. */
static void let_go_run(const call_t *c)
{
    uint32_t i, first = c->page, end = c->page + c->number;
    for (i = n_held; i-- > 0;) {
        const held_t *it = &held[i];
        uint32_t after = it->page + (1u << it->order);
        if (it->zone != c->zone || it->worker != c->worker || it->page >= c->page + c->number || after <= c->page)
            continue;
        first = it->page < first ? it->page : first;
        end = after > end ? after : end;
        held[i] = held[--n_held];
    }
    hold_run(c, first, end - first);
}

/* What a worker that was dismissed had: one in eight is still asked for. */
static void forget(uint32_t worker)
{
    uint32_t i;
    for (i = n_held; i-- > 0;)
        if (held[i].worker == worker && !one_in(8))
            held[i] = held[--n_held];
}

/* Of many blocks those in front came or went, whatever was answered. */
static void learn_many(const call_t *c, const told_t *t)
{
    call_t one = *c;
    size_t i;
    for (i = 0; i < t->many; i++) {
        one.page = c->kind == ALLOC_MANY ? t->pages[i] : c->pages[i];
        if (c->kind == ALLOC_MANY)
            hold(&one, one.page, c->order);
        else
            let_go(&one);
    }
}

static void learn(const call_t *c, const told_t *t)
{
    if (c->kind == ALLOC_MANY || c->kind == FREE_MANY)
        learn_many(c, t);
    if (t->answer != ZONE_OK)
        return;
    if (c->kind == TAKE)
        hold(c, t->page, 0);
    else if (c->kind == ALLOC || c->kind == ALLOC_LOW)
        hold(c, t->page, c->order);
    else if (c->kind == ALLOC_RUN || c->kind == ALLOC_RUN_AT)
        hold_run(c, c->kind == ALLOC_RUN ? t->page : c->page, c->number);
    else if (c->kind == FREE_RUN)
        let_go_run(c);
    else if (c->kind == COLLECT)
        hold(c, t->page, t->order);
    else if (c->kind == FREE || c->kind == POST || c->kind == PUT)
        let_go(c);
}

/* --- picking a call --- */

static int is_live(uint32_t worker)
{
    return plain_workers[worker].row != NULL;
}

static uint32_t pick_kind(void)
{
    uint32_t all = 0, kind, at;
    for (kind = 0; kind < CALLS; kind++)
        all += weights[kind];
    at = below(all);
    for (kind = 0; at >= weights[kind]; kind++)
        at -= weights[kind];
    if (ebb && (kind == ALLOC || kind == ALLOC_LOW || kind == REFILL) && !one_in(4))
        return kind == REFILL ? DRAIN : FREE;
    if (ebb && (kind == ALLOC_RUN || kind == ALLOC_RUN_AT) && !one_in(4))
        return FREE_RUN;
    if (ebb && kind == ALLOC_MANY && !one_in(4))
        return FREE_MANY;
    if (kind == FREE && (n_held == 0 || (!ebb && !one_in(3))))
        return ALLOC;
    return kind;
}

static uint32_t pick_order(uint32_t zone)
{
    if (one_in(2))
        return 0;
    return one_in(8) ? below(ZONE_ORDERS) : below(specs[zone].largest + 1);
}

/* A block that is lent. Of single pages, for put, some are looked at. */
static void pick_held(call_t *c)
{
    uint32_t tries, i = 0;
    if (n_held == 0)
        return;
    for (tries = 0; tries < (c->kind == PUT ? 16u : 1u); tries++) {
        i = below(n_held);
        if (held[i].order == 0)
            break;
    }
    c->worker = held[i].worker;
    c->zone = held[i].zone;
    c->page = held[i].page;
    c->order = held[i].order;
}

/* Blocks that are lent to one worker, in any order; now and then one of them twice, or of another. */
static void pick_held_blocks(call_t *c)
{
    uint32_t tries, at, is_new;
    pick_held(c);
    for (tries = 1 + below(3 * MANY); n_held > 0 && tries > 0 && c->number < MANY; tries--) {
        const held_t *it = &held[below(n_held)];
        for (is_new = 1, at = 0; at < c->number; at++)
            is_new = is_new && c->pages[at] != it->page;
        if (((it->worker != c->worker || it->zone != c->zone) || !is_new) && !one_in(128))
            continue;
        c->pages[c->number] = it->page;
        c->orders[c->number++] = it->order;
    }
}

/* How many pages to drain: no more than there are, where the list has any. */
static uint32_t pick_count(const call_t *c)
{
    uint32_t len = 0;
    (void)reference_cached(&plain_workers[c->worker], c->zone, c->type, &len);
    return 1 + below(len == 0 ? 64 : len);
}

/* How many pages a run has: few, mostly. */
static uint32_t pick_run_pages(void)
{
    return one_in(8) ? 1 + below(5000) : 1 + below(one_in(2) ? 8 : 100);
}

/* A run at a page that is free, mostly. Half of those are within the free block there, or all of it. */
static void pick_free_run(call_t *c)
{
    zone_page_t noted;
    uint32_t tries, last;
    for (tries = 0; tries < 8; tries++) {
        c->page = specs[c->zone].base + below(specs[c->zone].pages);
        if (reference_page(&plain_workers[c->worker], c->zone, c->page, &noted) == ZONE_OK && noted.state == ZONE_FREE)
            break;
    }
    c->number = pick_run_pages();
    if (tries == 8 || one_in(2))
        return;
    last = (1u << noted.order) - 1;
    c->page += below(last + 1);
    c->number = 1 + below(last + 1);
}

/* A run of lent pages, mostly: a part of a lent block, all of it, or that and what lies behind it. */
static void pick_lent_run(call_t *c)
{
    uint32_t pages = 1u << c->order, skipped = one_in(2) ? 0 : below(pages);
    c->page += skipped;
    switch (below(4)) {
    case 0: c->number = pages - skipped; break;
    case 1: c->number = pages - skipped + pick_run_pages(); break;
    default: c->number = 1 + below(pages - skipped);
    }
}

static uint32_t pick_number(const call_t *c)
{
    uint32_t pageblocks = (specs[c->zone].pages + (1u << specs[c->zone].largest) - 1) >> specs[c->zone].largest;
    return c->kind == POST ? below(n_workers) : c->kind == DRAIN ? pick_count(c) : below(pageblocks);
}

/* A worker that was not dismissed, mostly. */
static uint32_t pick_worker(void)
{
    uint32_t worker = below(n_workers);
    while (!is_live(worker) && !one_in(16))
        worker = below(n_workers);
    return worker;
}

static call_t pick_good(void)
{
    call_t c = { (kind_t)pick_kind(), 0, 0, 0, 0, 0, 0, 0, ZONE_INFO_LINE, { 0 }, { 0 } };
    c.worker = pick_worker();
    c.zone = below(n_zones);
    c.page = specs[c.zone].base + below(specs[c.zone].pages);
    c.order = pick_order(c.zone);
    if (c.kind == FREE || c.kind == FREE_RUN || c.kind == POST || c.kind == PUT || (c.kind == IS_LENT && one_in(2)))
        pick_held(&c);
    c.type = below(ZONE_TYPES);
    c.mark = one_in(2) ? ZONE_ANY : below(ZONE_LOW + 1);
    c.number = pick_number(&c);
    if (c.kind == ALLOC_RUN) {
        c.number = pick_run_pages();
        c.order = one_in(2) ? 0 : below(one_in(4) ? ALIGNMENTS : 12);
    } else if (c.kind == ALLOC_RUN_AT)
        pick_free_run(&c);
    else if (c.kind == FREE_RUN)
        pick_lent_run(&c);
    if (c.kind == FREE_MANY) {
        c.number = 0;
        pick_held_blocks(&c);
    } else if (c.kind == ALLOC_MANY)
        c.room = 1 + below(MANY);
    if (c.kind == INFO && one_in(2))
        c.room = below(ZONE_INFO_LINE + 1);
    return c;
}

static uint32_t out_of(uint32_t range)
{
    return one_in(2) ? range + below(3) : range + below(UINT32_MAX - range);
}

/* A page that is the zone's end, that is before its base, of anywhere, or one beside. */
static uint32_t other_page(const call_t *c)
{
    switch (below(4)) {
    case 0: return specs[c->zone].base + specs[c->zone].pages + below(2);
    case 1: return specs[c->zone].base - 1 - below(2);
    case 2: return any32();
    default: return c->page + 1;
    }
}

static uint32_t other_number(const call_t *c)
{
    switch (c->kind) {
    case FREE_MANY: return 0;
    case POST: return out_of(n_workers);
    case DRAIN: return one_in(2) ? 0 : out_of(65);
    case ALLOC_RUN: case ALLOC_RUN_AT: case FREE_RUN: return one_in(2) ? 0 : any32();
    default: return any32();
    }
}

/* One argument becomes another: out of its range, or of another block. A call that does not have it stays good. */
static void spoil(call_t *c)
{
    uint32_t i = c->kind == FREE_MANY && c->number > 0 ? below(c->number) : 0;
    switch (below(10)) {
    case 0: c->zone = out_of(n_zones); break;
    case 1: c->order = out_of(c->kind == ALLOC_RUN ? ALIGNMENTS : ZONE_ORDERS); break;
    case 2: c->type = out_of(ZONE_TYPES); break;
    case 3: c->mark = out_of(ZONE_LOW + 1); break;
    case 4: c->page = other_page(c); break;
    case 5: c->order = below(ZONE_ORDERS); break;
    case 6: c->pages[i] = other_page(c); break;
    case 7: c->orders[i] = one_in(2) ? below(ZONE_ORDERS) : out_of(ZONE_ORDERS); break;
    case 8: c->room = c->kind == ALLOC_MANY ? 0 : c->room; break;
    default: c->number = other_number(c);
    }
}

/* Of a worker that was dismissed, and of a page that may be anybody's, only good arguments: which of two faults is told is left open. */
static call_t pick(void)
{
    call_t c = pick_good();
    if (one_in(16) && is_live(c.worker) && (c.kind != POST || n_held > 0))
        spoil(&c);
    else if (one_in(32))
        c.worker = below(n_workers);
    return c;
}

/* --- everything that can be read --- */

static void read_zone(uint32_t reader, uint32_t zone)
{
    call_t c = { COUNTS, 0, 0, 0, 0, 0, 0, 0, ZONE_INFO_LINE, { 0 }, { 0 } };
    c.worker = reader;
    c.zone = zone;
    (void)ask(&c);
    c.kind = INFO;
    (void)ask(&c);
    c.kind = PAGE;
    for (c.page = specs[zone].base; c.page < specs[zone].base + specs[zone].pages; c.page++)
        (void)ask(&c);
    c.kind = PAGEBLOCK;
    for (c.number = 0; c.number << specs[zone].largest < specs[zone].pages; c.number++)
        (void)ask(&c);
    c.kind = CACHED;
    for (c.worker = 0; c.worker < n_workers; c.worker++)
        for (c.type = 0; c.type < ZONE_TYPES; c.type++)
            (void)ask(&c);
}

/* Reading is not counted as calls. */
static void read_all(void)
{
    uint64_t before = done;
    uint32_t reader = 0, zone;
    while (!is_live(reader))
        reader++;
    for (zone = 0; zone < n_zones; zone++)
        read_zone(reader, zone);
    done = before;
}

static void move_handles(void)
{
    memcpy(&workers[ZONE_WORKERS - moved], &workers[moved], ZONE_WORKERS * sizeof *workers);
    memset(&workers[moved], 0, ZONE_WORKERS * sizeof *workers);
    moved = ZONE_WORKERS - moved;
}

/* --- a row from its making to its end --- */

/* Of a row of many zones each is small; else one in forty is larger than a narrow one can be. */
static uint32_t pick_pages(void)
{
    if (n_zones > 4)
        return 1 + below(64);
    switch (below(8)) {
    case 0: case 1: case 2: return 1 + below(64);
    case 3: case 4: case 5: return 1 + below(3000);
    case 6: return 1 + below(65536);
    default: return one_in(5) ? 65537 + below(65536) : 65536 - below(3);
    }
}

static void pick_specs(void)
{
    uint32_t i, next = 1024 * (one_in(2) ? below(16) : below(1 << 19));
    memset(specs, 0, sizeof specs);
    n_zones = one_in(12) ? 1 + below(ZONE_ZONES) : 1 + below(4);
    for (i = 0; i < n_zones; i++) {
        specs[i].base = next;
        specs[i].pages = pick_pages();
        specs[i].min = one_in(2) ? 0 : below(specs[i].pages / (one_in(8) ? 1 : 8) + 1);
        specs[i].largest = one_in(3) ? 10 : 1 + below(10);
        specs[i].name_len = 1 + below(8);
        memset(specs[i].name, 'A' + (int)(i % 26), specs[i].name_len);
        next = (next + specs[i].pages + 1023) / 1024 * 1024 + 1024 * below(3);
    }
}

static void pick_row(void)
{
    pick_specs();
    n_workers = one_in(4) ? 1 + below(ZONE_WORKERS) : 1 + below(4);
    batch = one_in(5) ? 0 : 1 + below(31);
    high_len = batch == 0 ? 0 : batch + 1 + below(one_in(2) ? 2 : 64 - batch);
}

static void make_row(void)
{
    uint32_t archive, plain, zone;
    pick_row();
    has_boards = rows % 2 == 1;
    archive = (has_boards ? zonealloc_make_with_boards : zonealloc_make)(&row, &workers[moved], n_workers, specs, n_zones, batch, high_len);
    plain = reference_make(&plain_row, plain_workers, n_workers, specs, n_zones, batch, high_len);
    if (archive != plain || plain != ZONE_OK) {
        printf("seed %" PRIu64 ", call %" PRIu64 ": make: archive %" PRIu32 ", reference %" PRIu32 "\n", seed, done, archive, plain);
        tell_row();
        exit(1);
    }
    n_live = n_workers;
    n_held = 0;
    rows++;
    for (zone = 0; has_boards && zone < n_zones; zone++) {
        places[zone] = 0;
        if (zonealloc_reader(&workers[moved], zone, &readers[zone]) != ZONE_OK)
            exit(1);
    }
}

/* --- what stands on a board --- */

/* How many requests a call made of the zone. (A drain of all lists makes one for each list that has pages.) */
static uint64_t requests(const call_t *c, const told_t *t)
{
    uint64_t last = t->answer < ZONE_BAD_ARGUMENT && t->answer != ZONE_NOT_LENT;
    switch (c->kind) {
    case ALLOC: case ALLOC_LOW: case FREE: case ALLOC_RUN: case ALLOC_RUN_AT: case FREE_RUN: case POST: case COLLECT: case ISOLATE: case RELEASE:
    case REFILL: case DRAIN: return last;
    case ALLOC_MANY: case FREE_MANY: return t->many + (t->answer != ZONE_OK && last);
    default: return 0;
    }
}

/* It has the counts of the reference, after as many requests as were made. */
static void read_board(const call_t *c, const told_t *t)
{
    zone_reading_t reading;
    zone_counts_t counts;
    uint32_t worker = 0;
    if (!has_boards || c->zone >= n_zones)
        return;
    while (!is_live(worker))
        worker++;
    (void)reference_counts(&plain_workers[worker], c->zone, &counts);
    if (zonealloc_read(&readers[c->zone], &reading) == ZONE_OK && reading.free == counts.free
        && memcmp(reading.by_order, counts.by_order, sizeof counts.by_order) == 0
        && (c->kind == DRAIN_ALL || reading.place == places[c->zone] + requests(c, t))) {
        places[c->zone] = reading.place;
        return;
    }
    printf("seed %" PRIu64 ", call %" PRIu64 ": after %s the board of zone %" PRIu32 " has other counts, or another place\n", seed, done,
           names[c->kind], c->zone);
    tell_row();
    exit(1);
}

static void dismiss(uint32_t worker)
{
    call_t c = { DISMISS, 0, 0, 0, 0, 0, 0, 0, 0, { 0 }, { 0 } };
    c.worker = worker;
    n_live -= is_live(worker) ? 1 : 0;
    (void)ask(&c);
    forget(worker);
}

/* Unmaking and gathering are refused while a worker is left. */
static void refuse_end(void)
{
    call_t c = { UNMAKE, 0, 0, 0, 0, 0, 0, 0, 0, { 0 }, { 0 } };
    (void)ask(&c);
    c.kind = GATHER;
    (void)ask(&c);
}

static void gather(uint32_t zone)
{
    call_t c = { GATHER, 0, 0, 0, 0, 0, 0, 0, 0, { 0 }, { 0 } };
    told_t told;
    c.zone = zone;
    told = ask(&c);
    if (told.totals.free + told.totals.posted + told.totals.cached + told.totals.lent == specs[zone].pages)
        return;
    printf("seed %" PRIu64 ", call %" PRIu64 ": the totals of zone %" PRIu32 " are not its pages\n", seed, done, zone);
    tell_row();
    exit(1);
}

static void end_row(void)
{
    call_t c = { UNMAKE, 0, 0, 0, 0, 0, 0, 0, 0, { 0 }, { 0 } };
    uint32_t i;
    read_all();
    refuse_end();
    for (i = 0; i < n_workers; i++)
        if (is_live(i))
            dismiss(i);
    for (c.kind = GATHER, i = 0; i < n_zones; i++)
        gather(i);
    c.zone = out_of(n_zones);
    (void)ask(&c);
    c.kind = UNMAKE;
    (void)ask(&c);
    (void)ask(&c);
    for (i = 0; has_boards && i < n_zones; i++)
        if (zonealloc_end_reader(&readers[i]) != ZONE_OK)
            exit(1);
}

static void run_row(uint64_t calls)
{
    uint64_t i;
    make_row();
    for (i = 1; i <= calls; i++) {
        call_t c = pick();
        told_t told = ask(&c);
        learn(&c, &told);
        read_board(&c, &told);
        if (one_in(TIDE_EACH))
            ebb = !ebb;
        if (one_in(20000) && n_live > 1)
            dismiss(below(n_workers));
        if (i % SWEEP_EACH == 0) {
            read_all();
            move_handles();
        }
    }
    end_row();
}

int main(int argc, char **argv)
{
    uint64_t calls = argc > 1 ? strtoull(argv[1], NULL, 10) : 1000000;
    seed = argc > 2 ? strtoull(argv[2], NULL, 10) : 1;
    state = seed * 2 + 1;
    (void)any32();
    while (done < calls) {
        uint64_t left = calls - done, most = one_in(2) ? 3000 : 30000;
        run_row(left < most ? left : most);
    }
    printf("%" PRIu64 " calls over %" PRIu32 " rows, seed %" PRIu64 ": archive and reference agree\n", done, rows, seed);
    return 0;
}
