#include "reference.h"
#include <stdio.h>
#include <stdlib.h>
#include <string.h>

enum { MOST_PAGES = 1 << 24, MOST_BASE = 1 << 30, BASE_STEP = 1024, MOST_BATCH = 31, LONGEST_LIST = 64, KINDS = 4, MOST_ALIGN = 24 };
/* No page. */
static const uint32_t NONE = UINT32_MAX;

/* A list of heads. The heads of one list are linked by their page entries. */
typedef struct { uint32_t first, last; } list_t;

/* A page: whether it is free, what is noted of it, whether it stands on a worker's list, and its neighbours in the list of heads that it
 * is on. */
typedef struct { uint8_t free, state, order, type, worker, cached; uint32_t before, after; } page_t;

typedef struct { uint32_t type, free; } pageblock_t;

/* Inside, pages are counted from the zone's base. */
typedef struct {
    zone_spec_t spec;
    uint32_t free, available, posted;
    page_t *pages;
    pageblock_t *pageblocks;
    list_t free_lists[ZONE_ORDERS][KINDS];
    list_t posted_lists[ZONE_WORKERS];
} zone_t;

/* A worker's own list, the front first. */
typedef struct { uint32_t len, pages[LONGEST_LIST]; } cache_t;

typedef struct { int live; cache_t caches[ZONE_ZONES][ZONE_TYPES]; } share_t;

struct row {
    uint32_t n_zones, n_workers, batch, high_len;
    zone_t zones[ZONE_ZONES];
    share_t shares[ZONE_WORKERS];
};

/* The runs of a pageblock that are free from end to end: runs[k][i] is the one of 2^k pages whose number in the pageblock is i. */
typedef struct { uint8_t runs[ZONE_ORDERS + 1][1 << (ZONE_ORDERS - 1)]; } whole_t;

/* --- lists of heads --- */

static void put_front(zone_t *zone, list_t *list, uint32_t head)
{
    zone->pages[head].before = NONE;
    zone->pages[head].after = list->first;
    if (list->first == NONE)
        list->last = head;
    else
        zone->pages[list->first].before = head;
    list->first = head;
}

static void put_back(zone_t *zone, list_t *list, uint32_t head)
{
    zone->pages[head].before = list->last;
    zone->pages[head].after = NONE;
    if (list->last == NONE)
        list->first = head;
    else
        zone->pages[list->last].after = head;
    list->last = head;
}

static void take_off(zone_t *zone, list_t *list, uint32_t head)
{
    uint32_t before = zone->pages[head].before, after = zone->pages[head].after;
    if (before == NONE)
        list->first = after;
    else
        zone->pages[before].after = after;
    if (after == NONE)
        list->last = before;
    else
        zone->pages[after].before = before;
}

/* --- maximal blocks, and settling --- */

static uint32_t pageblocks_of(const zone_t *zone)
{
    return (zone->spec.pages + (1u << zone->spec.largest) - 1) >> zone->spec.largest;
}

/* A run that passes the end of the zone is not free. */
static void find_whole(const zone_t *zone, uint32_t begin, whole_t *whole)
{
    uint32_t order, i, in_pageblock = 1u << zone->spec.largest;
    for (i = 0; i < in_pageblock; i++)
        whole->runs[0][i] = begin + i < zone->spec.pages && zone->pages[begin + i].free;
    for (order = 1; order <= zone->spec.largest; order++)
        for (i = 0; i < in_pageblock >> order; i++)
            whole->runs[order][i] = whole->runs[order - 1][2 * i] && whole->runs[order - 1][2 * i + 1];
    whole->runs[zone->spec.largest + 1][0] = 0;
}

/* Whether the block of this order, at a page of the pageblock, is free and maximal: its double is not free, or it is as large as a
 * pageblock. */
static int is_maximal(const whole_t *whole, uint32_t at, uint32_t order)
{
    return at % (1u << order) == 0 && whole->runs[order][at >> order] && !whole->runs[order + 1][at >> (order + 1)];
}

static void unlist_what_left(zone_t *zone, uint32_t begin, uint32_t end, const whole_t *whole, uint32_t was, uint32_t now)
{
    uint32_t head;
    for (head = begin; head < end; head++) {
        page_t *page = &zone->pages[head];
        if (page->state == ZONE_FREE && (was != now || !is_maximal(whole, head - begin, page->order))) {
            take_off(zone, &zone->free_lists[page->order][was], head);
            page->state = ZONE_TAIL;
        }
    }
}

/* In rising order, each at the front: so the highest new head is in front. */
static void list_what_came(zone_t *zone, uint32_t begin, uint32_t end, const whole_t *whole, uint32_t type)
{
    uint32_t head, order;
    for (head = begin; head < end; head++) {
        page_t *page = &zone->pages[head];
        for (order = 0; order <= zone->spec.largest && head % (1u << order) == 0; order++) {
            if (page->state == ZONE_FREE || !is_maximal(whole, head - begin, order))
                continue;
            page->state = ZONE_FREE;
            page->order = (uint8_t)order;
            put_front(zone, &zone->free_lists[order][type], head);
        }
    }
}

static void count_pageblock(zone_t *zone, uint32_t number, uint32_t begin, uint32_t end, uint32_t was)
{
    pageblock_t *block = &zone->pageblocks[number];
    uint32_t page, free = 0;
    for (page = begin; page < end; page++)
        free += zone->pages[page].free;
    zone->free += free - block->free;
    zone->available += (block->type == ZONE_TYPE_ISOLATED ? 0 : free) - (was == ZONE_TYPE_ISOLATED ? 0 : block->free);
    block->free = free;
}

/* After a change in a pageblock, which had this type before. All blocks that change lie in it. */
static void settle(zone_t *zone, uint32_t number, uint32_t was)
{
    uint32_t begin = number << zone->spec.largest, end = begin + (1u << zone->spec.largest), now = zone->pageblocks[number].type;
    whole_t whole;
    if (end > zone->spec.pages)
        end = zone->spec.pages;
    find_whole(zone, begin, &whole);
    unlist_what_left(zone, begin, end, &whole, was, now);
    list_what_came(zone, begin, end, &whole, now);
    count_pageblock(zone, number, begin, end, was);
}

static void set_type(zone_t *zone, uint32_t number, uint32_t type)
{
    uint32_t was = zone->pageblocks[number].type;
    zone->pageblocks[number].type = type;
    settle(zone, number, was);
}

static void set_free(zone_t *zone, uint32_t head, uint32_t order, int free)
{
    uint32_t i, number = head >> zone->spec.largest;
    for (i = 0; i < 1u << order; i++)
        zone->pages[head + i].free = (uint8_t)free;
    settle(zone, number, zone->pageblocks[number].type);
}

/* --- choosing, taking and giving back --- */

static const uint32_t foreign[ZONE_TYPES][2] = {
    { ZONE_TYPE_RECLAIMABLE, ZONE_TYPE_MOVABLE }, { ZONE_TYPE_UNMOVABLE, ZONE_TYPE_MOVABLE }, { ZONE_TYPE_RECLAIMABLE, ZONE_TYPE_UNMOVABLE }
};

static uint32_t choose_own(const zone_t *zone, uint32_t order, uint32_t type)
{
    for (; order <= zone->spec.largest; order++)
        if (zone->free_lists[order][type].first != NONE)
            return zone->free_lists[order][type].first;
    return NONE;
}

static int may_be_claimed(const zone_t *zone, uint32_t head, uint32_t order, uint32_t type)
{
    uint32_t largest = zone->spec.largest;
    return (order >= largest / 2 || type != ZONE_TYPE_MOVABLE) && zone->pageblocks[head >> largest].free >= 1u << (largest - 1);
}

static uint32_t choose_claim(const zone_t *zone, uint32_t order, uint32_t type)
{
    uint32_t at, i, head;
    for (at = zone->spec.largest + 1; at-- > order;)
        for (i = 0; i < 2; i++)
            for (head = zone->free_lists[at][foreign[type][i]].first; head != NONE; head = zone->pages[head].after)
                if (may_be_claimed(zone, head, at, type))
                    return head;
    return NONE;
}

static uint32_t choose_borrow(const zone_t *zone, uint32_t order, uint32_t type)
{
    uint32_t i;
    for (; order <= zone->spec.largest; order++)
        for (i = 0; i < 2; i++)
            if (zone->free_lists[order][foreign[type][i]].first != NONE)
                return zone->free_lists[order][foreign[type][i]].first;
    return NONE;
}

/* The head of the block chosen for this order and type, whose pageblock has the type where it was claimed; or none. */
static uint32_t choose(zone_t *zone, uint32_t order, uint32_t type)
{
    uint32_t head = choose_own(zone, order, type);
    if (head != NONE)
        return head;
    head = choose_claim(zone, order, type);
    if (head != NONE) {
        set_type(zone, head >> zone->spec.largest, type);
        return head;
    }
    return choose_borrow(zone, order, type);
}

static uint32_t choose_lowest(const zone_t *zone, uint32_t order)
{
    uint32_t head;
    for (head = 0; head < zone->spec.pages; head++) {
        const page_t *page = &zone->pages[head];
        if (page->state == ZONE_FREE && page->order >= order && zone->pageblocks[head >> zone->spec.largest].type != ZONE_TYPE_ISOLATED)
            return head;
    }
    return NONE;
}

static void note(zone_t *zone, uint32_t head, uint32_t state, uint32_t order, uint32_t type, uint32_t worker)
{
    page_t *page = &zone->pages[head];
    page->state = (uint8_t)state;
    page->order = (uint8_t)order;
    page->type = (uint8_t)type;
    page->worker = (uint8_t)worker;
}

static void take_out(zone_t *zone, uint32_t head, uint32_t order, uint32_t type, uint32_t worker)
{
    set_free(zone, head, order, 0);
    note(zone, head, ZONE_OUT, order, type, worker);
}

static void give(zone_t *zone, uint32_t head, uint32_t order)
{
    note(zone, head, ZONE_TAIL, 0, 0, 0);
    zone->pages[head].cached = 0;
    set_free(zone, head, order, 1);
}

static uint32_t mark_of(const zone_t *zone, uint32_t mark)
{
    return mark == ZONE_LOW ? zone->spec.min + zone->spec.min / 4 : zone->spec.min;
}

static int passes(const zone_t *zone, uint32_t pages, uint32_t mark)
{
    return mark == ZONE_ANY || zone->available > (uint64_t)mark_of(zone, mark) + pages - 1;
}

static uint32_t level_of(const zone_t *zone)
{
    uint32_t min = zone->spec.min;
    if (zone->available > min + min / 2)
        return ZONE_ABOVE_HIGH;
    if (zone->available > min + min / 4)
        return ZONE_ABOVE_LOW;
    return zone->available > min ? ZONE_ABOVE_MIN : ZONE_SHORT;
}

/* A block that is out in the worker's name from then on: its head, counted from the base. */
static uint32_t alloc(zone_t *zone, uint32_t worker, uint32_t order, uint32_t type, uint32_t mark, uint32_t *head)
{
    if (!passes(zone, 1u << order, mark))
        return ZONE_BELOW_MARK;
    *head = choose(zone, order, type);
    if (*head == NONE)
        return ZONE_NO_BLOCK;
    take_out(zone, *head, order, type, worker);
    return ZONE_OK;
}

/* --- runs of pages --- */

/* The order of the first block of a run's cut: as large as its place, the rest of the run and the largest order allow. */
static uint32_t first_of_cut(const zone_t *zone, uint32_t head, uint32_t pages)
{
    uint32_t order = 0;
    while (order < zone->spec.largest && head % (2u << order) == 0 && 2u << order <= pages)
        order++;
    return order;
}

/* The blocks of a run's cut are out in the worker's name, with this type, or where there is none with that of their pageblocks: an isolated one
 * counts as Movable. */
static void note_cut(zone_t *zone, uint32_t head, uint32_t pages, uint32_t type, uint32_t worker)
{
    uint32_t order, own;
    for (; pages > 0; head += 1u << order, pages -= 1u << order) {
        order = first_of_cut(zone, head, pages);
        own = zone->pageblocks[head >> zone->spec.largest].type;
        note(zone, head, ZONE_OUT, order, type != NONE ? type : own == ZONE_TYPE_ISOLATED ? ZONE_TYPE_MOVABLE : own, worker);
    }
}

/* All of it changes, and then its pageblocks settle, in rising order: no block that changes is of two of them. */
static void set_run_free(zone_t *zone, uint32_t head, uint32_t pages, int free)
{
    uint32_t i, number;
    for (i = 0; i < pages; i++)
        zone->pages[head + i].free = (uint8_t)free;
    for (number = head >> zone->spec.largest; number <= (head + pages - 1) >> zone->spec.largest; number++)
        settle(zone, number, zone->pageblocks[number].type);
}

static void take_run(zone_t *zone, uint32_t head, uint32_t pages, uint32_t worker)
{
    set_run_free(zone, head, pages, 0);
    note_cut(zone, head, pages, NONE, worker);
}

static int is_available(const zone_t *zone, uint32_t page)
{
    return zone->pages[page].free && zone->pageblocks[page >> zone->spec.largest].type != ZONE_TYPE_ISOLATED;
}

/* The first page of the lowest run of available pages that is aligned so, counted from the base; or none. */
static uint32_t choose_run(const zone_t *zone, uint32_t pages, uint32_t align)
{
    uint64_t head, page, step = (uint64_t)1 << align;
    for (head = 0; head + pages <= zone->spec.pages; head = page + 1) {
        head = (zone->spec.base + head + step - 1) / step * step - zone->spec.base;
        for (page = head; page < head + pages && page < zone->spec.pages && is_available(zone, (uint32_t)page);)
            page++;
        if (page == head + pages)
            return (uint32_t)head;
    }
    return NONE;
}

/* The head of the block in which a page lies that is lent to the worker; or none. */
static uint32_t lent_around(const zone_t *zone, uint32_t page, uint32_t worker)
{
    uint32_t order;
    for (order = 0; order <= zone->spec.largest; order++) {
        const page_t *at = &zone->pages[page >> order << order];
        if (at->state == ZONE_OUT && at->order == order && at->worker == worker && !at->cached)
            return page >> order << order;
    }
    return NONE;
}

static int is_lent_run(const zone_t *zone, uint32_t head, uint32_t pages, uint32_t worker)
{
    uint32_t i;
    for (i = 0; i < pages; i++)
        if (lent_around(zone, head + i, worker) == NONE)
            return 0;
    return 1;
}

/* Each block that has a page of the run is no more; what it has beyond the run stays the worker's. */
static void give_run(zone_t *zone, uint32_t head, uint32_t pages, uint32_t worker)
{
    uint32_t page = head, end = head + pages;
    while (page < end) {
        uint32_t first = lent_around(zone, page, worker), after = first + (1u << zone->pages[first].order), type = zone->pages[first].type;
        note(zone, first, ZONE_TAIL, 0, 0, 0);
        if (first < head)
            note_cut(zone, first, head - first, type, worker);
        if (after > end)
            note_cut(zone, end, after - end, type, worker);
        page = after;
    }
    set_run_free(zone, head, pages, 1);
}

/* --- making and unmaking --- */

static int is_letter_or_digit(uint8_t byte)
{
    return (byte >= '0' && byte <= '9') || (byte >= 'A' && byte <= 'Z') || (byte >= 'a' && byte <= 'z');
}

static int is_name(const zone_spec_t *spec)
{
    uint32_t i;
    if (spec->name_len < 1 || spec->name_len > sizeof spec->name)
        return 0;
    for (i = 0; i < spec->name_len; i++)
        if (!is_letter_or_digit(spec->name[i]))
            return 0;
    return 1;
}

static uint32_t check_spec(const zone_spec_t *spec)
{
    if (spec->largest < 1 || spec->largest >= ZONE_ORDERS)
        return ZONE_BAD_ARGUMENT;
    if (!is_name(spec))
        return ZONE_BAD_NAME;
    if (spec->base % BASE_STEP != 0 || spec->base > MOST_BASE)
        return ZONE_BAD_BASE;
    if (spec->pages < 1 || spec->pages > MOST_PAGES)
        return ZONE_BAD_PAGES;
    return spec->min > spec->pages ? ZONE_BAD_MARK : ZONE_OK;
}

static int are_lists(uint32_t batch, uint32_t high_len)
{
    return batch == 0 ? high_len == 0 : batch <= MOST_BATCH && high_len > batch && high_len <= LONGEST_LIST;
}

static uint32_t check_making(size_t n_workers, const zone_spec_t *zones, size_t n_zones, uint32_t batch, uint32_t high_len)
{
    size_t i;
    if (n_zones < 1 || n_zones > ZONE_ZONES || !are_lists(batch, high_len))
        return ZONE_BAD_ARGUMENT;
    for (i = 1; i < n_zones; i++)
        if ((uint64_t)zones[i - 1].base + zones[i - 1].pages > zones[i].base)
            return ZONE_BAD_BASE;
    for (i = 0; i < n_zones; i++) {
        uint32_t answer = check_spec(&zones[i]);
        if (answer != ZONE_OK)
            return answer;
    }
    return n_workers < 1 || n_workers > ZONE_WORKERS ? ZONE_BAD_WORKERS : ZONE_OK;
}

/* The opening: all pages are free, all pageblocks are Movable. */
static int open_zone(zone_t *zone, const zone_spec_t *spec)
{
    uint32_t i;
    zone->spec = *spec;
    memset(zone->free_lists, 0xFF, sizeof zone->free_lists);
    memset(zone->posted_lists, 0xFF, sizeof zone->posted_lists);
    zone->pages = calloc(spec->pages, sizeof *zone->pages);
    zone->pageblocks = calloc(pageblocks_of(zone), sizeof *zone->pageblocks);
    if (!zone->pages || !zone->pageblocks)
        return 0;
    for (i = 0; i < spec->pages; i++)
        zone->pages[i].free = 1;
    for (i = 0; i < pageblocks_of(zone); i++) {
        zone->pageblocks[i].type = ZONE_TYPE_MOVABLE;
        settle(zone, i, ZONE_TYPE_MOVABLE);
    }
    return 1;
}

static void close_row(struct row *row)
{
    uint32_t i;
    for (i = 0; i < row->n_zones; i++) {
        free(row->zones[i].pages);
        free(row->zones[i].pageblocks);
    }
    free(row);
}

static struct row *open_row(size_t n_workers, const zone_spec_t *zones, size_t n_zones)
{
    struct row *row = calloc(1, sizeof *row);
    size_t i;
    if (!row)
        return NULL;
    row->n_zones = (uint32_t)n_zones;
    row->n_workers = (uint32_t)n_workers;
    for (i = 0; i < n_zones; i++)
        if (!open_zone(&row->zones[i], &zones[i])) {
            close_row(row);
            return NULL;
        }
    return row;
}

uint32_t reference_make(reference_row_t *row, reference_worker_t *workers, size_t n_workers, const zone_spec_t *zones, size_t n_zones,
                       uint32_t batch, uint32_t high_len)
{
    uint32_t answer = check_making(n_workers, zones, n_zones, batch, high_len);
    size_t i;
    if (answer != ZONE_OK)
        return answer;
    for (i = 0; i < n_workers; i++)
        if (row->at || workers[i].row)
            return ZONE_BAD_HANDLE;
    row->at = open_row(n_workers, zones, n_zones);
    if (!row->at)
        return ZONE_NO_MEMORY;
    row->at->batch = batch;
    row->at->high_len = high_len;
    for (i = 0; i < n_workers; i++) {
        row->at->shares[i].live = 1;
        workers[i].row = row->at;
        workers[i].number = (uint32_t)i;
    }
    return ZONE_OK;
}

uint32_t reference_dismiss(reference_worker_t *worker)
{
    if (!worker->row)
        return ZONE_BAD_HANDLE;
    worker->row->shares[worker->number].live = 0;
    worker->row = NULL;
    worker->number = 0;
    return ZONE_OK;
}

static int has_workers(const struct row *row)
{
    uint32_t i;
    for (i = 0; i < row->n_workers; i++)
        if (row->shares[i].live)
            return 1;
    return 0;
}

uint32_t reference_unmake(reference_row_t *row)
{
    if (!row->at)
        return ZONE_BAD_HANDLE;
    if (has_workers(row->at))
        return ZONE_HAS_WORKERS;
    close_row(row->at);
    row->at = NULL;
    return ZONE_OK;
}

/* --- what each call of a worker begins with --- */

/* The worker's zone of this number; or none, and what is answered then. First of all it is asked whether one of the call's numbers stands for
 * nothing. */
static zone_t *zone_of(const reference_worker_t *worker, uint32_t zone, int is_wrong, uint32_t *answer)
{
    *answer = is_wrong ? ZONE_BAD_ARGUMENT : !worker->row ? ZONE_BAD_HANDLE : zone >= worker->row->n_zones ? ZONE_BAD_ARGUMENT : ZONE_OK;
    return *answer == ZONE_OK ? &worker->row->zones[zone] : NULL;
}

static cache_t *cache_of(const reference_worker_t *worker, uint32_t zone, uint32_t type)
{
    return &worker->row->shares[worker->number].caches[zone][type];
}

/* A page's number in its zone; or none. */
static uint32_t number_of(const zone_t *zone, uint32_t page)
{
    return page >= zone->spec.base && page - zone->spec.base < zone->spec.pages ? page - zone->spec.base : NONE;
}

/* Whether the page heads a block of this order that is lent to the worker. A page on the worker's list is not lent. */
static int is_lent(const reference_worker_t *worker, const zone_t *zone, uint32_t page, uint32_t order)
{
    uint32_t head = number_of(zone, page);
    const page_t *at = head == NONE ? NULL : &zone->pages[head];
    return at && at->state == ZONE_OUT && at->order == order && at->worker == worker->number && !at->cached;
}

/* --- the worker's own lists --- */

static void put_in_front(zone_t *zone, cache_t *cache, uint32_t page)
{
    memmove(cache->pages + 1, cache->pages, cache->len * sizeof *cache->pages);
    cache->pages[0] = page;
    cache->len++;
    zone->pages[page - zone->spec.base].cached = 1;
}

uint32_t reference_take(reference_worker_t *worker, uint32_t zone, uint32_t type, uint32_t *page)
{
    uint32_t answer;
    zone_t *at = zone_of(worker, zone, type >= ZONE_TYPES, &answer);
    cache_t *cache;
    if (!at)
        return answer;
    cache = cache_of(worker, zone, type);
    if (cache->len == 0)
        return ZONE_LIST_EMPTY;
    *page = cache->pages[0];
    cache->len--;
    memmove(cache->pages, cache->pages + 1, cache->len * sizeof *cache->pages);
    at->pages[*page - at->spec.base].cached = 0;
    return ZONE_OK;
}

uint32_t reference_put(reference_worker_t *worker, uint32_t zone, uint32_t page)
{
    uint32_t answer;
    zone_t *at = zone_of(worker, zone, 0, &answer);
    cache_t *cache;
    if (!at)
        return answer;
    if (worker->row->batch == 0)
        return ZONE_NO_LISTS;
    if (!is_lent(worker, at, page, 0))
        return ZONE_NOT_LENT;
    cache = cache_of(worker, zone, at->pages[page - at->spec.base].type);
    if (cache->len >= worker->row->high_len)
        return ZONE_LIST_FULL;
    put_in_front(at, cache, page);
    return ZONE_OK;
}

uint32_t reference_is_lent(reference_worker_t *worker, uint32_t zone, uint32_t page, uint32_t order, uint32_t *lent)
{
    uint32_t answer;
    zone_t *at = zone_of(worker, zone, order >= ZONE_ORDERS, &answer);
    if (!at)
        return answer;
    *lent = (uint32_t)is_lent(worker, at, page, order);
    return ZONE_OK;
}

uint32_t reference_cached(reference_worker_t *worker, uint32_t zone, uint32_t type, uint32_t *pages)
{
    uint32_t answer;
    zone_t *at = zone_of(worker, zone, type >= ZONE_TYPES, &answer);
    if (!at)
        return answer;
    *pages = cache_of(worker, zone, type)->len;
    return ZONE_OK;
}

/* --- requests to one zone --- */

uint32_t reference_alloc(reference_worker_t *worker, uint32_t zone, uint32_t order, uint32_t type, uint32_t mark, uint32_t *page)
{
    uint32_t answer;
    uint32_t head;
    zone_t *at = zone_of(worker, zone, order >= ZONE_ORDERS || type >= ZONE_TYPES || mark > ZONE_LOW, &answer);
    if (!at)
        return answer;
    answer = alloc(at, worker->number, order, type, mark, &head);
    if (answer == ZONE_OK)
        *page = at->spec.base + head;
    return answer;
}

uint32_t reference_alloc_low(reference_worker_t *worker, uint32_t zone, uint32_t order, uint32_t *page)
{
    uint32_t answer;
    uint32_t head;
    zone_t *at = zone_of(worker, zone, order >= ZONE_ORDERS, &answer);
    if (!at)
        return answer;
    head = choose_lowest(at, order);
    if (head == NONE)
        return ZONE_NO_BLOCK;
    take_out(at, head, order, at->pageblocks[head >> at->spec.largest].type, worker->number);
    *page = at->spec.base + head;
    return ZONE_OK;
}

uint32_t reference_free(reference_worker_t *worker, uint32_t zone, uint32_t page, uint32_t order)
{
    uint32_t answer;
    zone_t *at = zone_of(worker, zone, order >= ZONE_ORDERS, &answer);
    if (!at)
        return answer;
    if (!is_lent(worker, at, page, order))
        return ZONE_NOT_LENT;
    give(at, page - at->spec.base, order);
    return ZONE_OK;
}

uint32_t reference_alloc_many(reference_worker_t *worker, uint32_t zone, uint32_t order, uint32_t type, uint32_t mark, uint32_t *pages,
                              size_t room, size_t *got)
{
    uint32_t answer;
    uint32_t head;
    zone_t *at = zone_of(worker, zone, order >= ZONE_ORDERS || type >= ZONE_TYPES || mark > ZONE_LOW || room == 0, &answer);
    *got = 0;
    if (!at)
        return answer;
    while (*got < room) {
        answer = alloc(at, worker->number, order, type, mark, &head);
        if (answer != ZONE_OK)
            return answer;
        pages[(*got)++] = at->spec.base + head;
    }
    return ZONE_OK;
}

uint32_t reference_free_many(reference_worker_t *worker, uint32_t zone, const uint32_t *pages, size_t n_pages, const uint32_t *orders,
                             size_t n_orders, size_t *freed)
{
    uint32_t answer;
    int is_wrong = n_pages == 0 || n_orders != n_pages;
    size_t i;
    zone_t *at;
    for (i = 0; i < n_orders; i++)
        is_wrong |= orders[i] >= ZONE_ORDERS;
    at = zone_of(worker, zone, is_wrong, &answer);
    *freed = 0;
    if (!at)
        return answer;
    for (; *freed < n_pages; (*freed)++) {
        if (!is_lent(worker, at, pages[*freed], orders[*freed]))
            return ZONE_NOT_LENT;
        give(at, pages[*freed] - at->spec.base, orders[*freed]);
    }
    return ZONE_OK;
}

uint32_t reference_alloc_run(reference_worker_t *worker, uint32_t zone, uint32_t pages, uint32_t align, uint32_t mark, uint32_t *page)
{
    uint32_t answer;
    uint32_t head;
    zone_t *at = zone_of(worker, zone, pages == 0 || align > MOST_ALIGN || mark > ZONE_LOW, &answer);
    if (!at)
        return answer;
    if (!passes(at, pages, mark))
        return ZONE_BELOW_MARK;
    head = choose_run(at, pages, align);
    if (head == NONE)
        return ZONE_NO_BLOCK;
    take_run(at, head, pages, worker->number);
    *page = at->spec.base + head;
    return ZONE_OK;
}

/* The run's first page, counted from the base; or none, where it has no page or is not wholly the zone's. */
static uint32_t run_of(const zone_t *zone, uint32_t page, uint32_t pages)
{
    uint32_t head = number_of(zone, page);
    return head == NONE || pages == 0 || pages > zone->spec.pages - head ? NONE : head;
}

uint32_t reference_alloc_run_at(reference_worker_t *worker, uint32_t zone, uint32_t page, uint32_t pages)
{
    uint32_t answer;
    uint32_t head, i;
    zone_t *at = zone_of(worker, zone, 0, &answer);
    if (!at)
        return answer;
    head = run_of(at, page, pages);
    if (head == NONE)
        return ZONE_BAD_RUN;
    for (i = 0; i < pages; i++)
        if (!at->pages[head + i].free)
            return ZONE_NOT_FREE;
    take_run(at, head, pages, worker->number);
    return ZONE_OK;
}

uint32_t reference_free_run(reference_worker_t *worker, uint32_t zone, uint32_t page, uint32_t pages)
{
    uint32_t answer;
    uint32_t head;
    zone_t *at = zone_of(worker, zone, 0, &answer);
    if (!at)
        return answer;
    head = run_of(at, page, pages);
    if (head == NONE || !is_lent_run(at, head, pages, worker->number))
        return ZONE_NOT_LENT;
    give_run(at, head, pages, worker->number);
    return ZONE_OK;
}

uint32_t reference_post(reference_worker_t *worker, uint32_t zone, uint32_t page, uint32_t order, uint32_t to)
{
    uint32_t answer;
    uint32_t head;
    zone_t *at = zone_of(worker, zone, order >= ZONE_ORDERS || to >= ZONE_WORKERS, &answer);
    if (!at)
        return answer;
    if (to >= worker->row->n_workers)
        return ZONE_BAD_ARGUMENT;
    if (!is_lent(worker, at, page, order))
        return ZONE_NOT_LENT;
    head = page - at->spec.base;
    note(at, head, ZONE_POSTED, order, at->pages[head].type, to);
    put_back(at, &at->posted_lists[to], head);
    at->posted += 1u << order;
    return ZONE_OK;
}

uint32_t reference_collect(reference_worker_t *worker, uint32_t zone, uint32_t *page, uint32_t *order)
{
    uint32_t answer;
    uint32_t head;
    zone_t *at = zone_of(worker, zone, 0, &answer);
    if (!at)
        return answer;
    head = at->posted_lists[worker->number].first;
    if (head == NONE)
        return ZONE_NOTHING_POSTED;
    take_off(at, &at->posted_lists[worker->number], head);
    at->pages[head].state = ZONE_OUT;
    *page = at->spec.base + head;
    *order = at->pages[head].order;
    at->posted -= 1u << *order;
    return ZONE_OK;
}

/* Isolates a pageblock, or releases it with another type. */
static uint32_t retype(const reference_worker_t *worker, uint32_t zone, uint32_t pageblock, uint32_t type)
{
    uint32_t answer;
    int is_isolated;
    zone_t *at = zone_of(worker, zone, 0, &answer);
    if (!at)
        return answer;
    if (pageblock >= pageblocks_of(at))
        return ZONE_BAD_PAGEBLOCK;
    is_isolated = at->pageblocks[pageblock].type == ZONE_TYPE_ISOLATED;
    if (is_isolated == (type == ZONE_TYPE_ISOLATED))
        return is_isolated ? ZONE_ALREADY_ISOLATED : ZONE_NOT_ISOLATED;
    set_type(at, pageblock, type);
    return ZONE_OK;
}

uint32_t reference_isolate(reference_worker_t *worker, uint32_t zone, uint32_t pageblock)
{
    return retype(worker, zone, pageblock, ZONE_TYPE_ISOLATED);
}

uint32_t reference_release(reference_worker_t *worker, uint32_t zone, uint32_t pageblock, uint32_t type)
{
    return type >= ZONE_TYPES ? ZONE_BAD_ARGUMENT : retype(worker, zone, pageblock, type);
}

/* The pages stand on the list in the order taken. */
static uint32_t refill(zone_t *zone, cache_t *cache, uint32_t worker, uint32_t batch, uint32_t type, uint32_t mark)
{
    uint32_t answer = ZONE_OK;
    uint32_t head;
    while (answer == ZONE_OK && cache->len < batch) {
        answer = alloc(zone, worker, 0, type, mark, &head);
        if (answer == ZONE_OK) {
            zone->pages[head].cached = 1;
            cache->pages[cache->len++] = zone->spec.base + head;
        }
    }
    return cache->len > 0 ? ZONE_OK : answer;
}

uint32_t reference_refill(reference_worker_t *worker, uint32_t zone, uint32_t type, uint32_t mark)
{
    uint32_t answer;
    zone_t *at = zone_of(worker, zone, type >= ZONE_TYPES || mark > ZONE_LOW, &answer);
    if (!at)
        return answer;
    if (worker->row->batch == 0)
        return ZONE_NO_LISTS;
    if (cache_of(worker, zone, type)->len > 0)
        return ZONE_LIST_NOT_EMPTY;
    return refill(at, cache_of(worker, zone, type), worker->number, worker->row->batch, type, mark);
}

/* From the back, the last page first. */
static void drain(zone_t *zone, cache_t *cache, uint32_t count)
{
    for (; count > 0; count--)
        give(zone, cache->pages[--cache->len] - zone->spec.base, 0);
}

uint32_t reference_drain(reference_worker_t *worker, uint32_t zone, uint32_t type, uint32_t count)
{
    uint32_t answer;
    zone_t *at = zone_of(worker, zone, type >= ZONE_TYPES, &answer);
    if (!at)
        return answer;
    if (count == 0 || count > cache_of(worker, zone, type)->len)
        return ZONE_BAD_ARGUMENT;
    drain(at, cache_of(worker, zone, type), count);
    return ZONE_OK;
}

uint32_t reference_drain_all(reference_worker_t *worker, uint32_t zone)
{
    uint32_t answer;
    uint32_t type;
    zone_t *at = zone_of(worker, zone, 0, &answer);
    if (!at)
        return answer;
    for (type = 0; type < ZONE_TYPES; type++)
        drain(at, cache_of(worker, zone, type), cache_of(worker, zone, type)->len);
    return ZONE_OK;
}

/* --- reading --- */

static void count_blocks(const zone_t *zone, uint32_t by_order[ZONE_ORDERS])
{
    uint32_t order, type, head;
    for (order = 0; order < ZONE_ORDERS; order++) {
        by_order[order] = 0;
        for (type = 0; type < KINDS; type++)
            for (head = zone->free_lists[order][type].first; head != NONE; head = zone->pages[head].after)
                by_order[order]++;
    }
}

uint32_t reference_counts(reference_worker_t *worker, uint32_t zone, zone_counts_t *counts)
{
    uint32_t answer;
    zone_t *at = zone_of(worker, zone, 0, &answer);
    if (!at)
        return answer;
    count_blocks(at, counts->by_order);
    counts->free = at->free;
    counts->posted = at->posted;
    counts->level = level_of(at);
    return ZONE_OK;
}

uint32_t reference_info(reference_worker_t *worker, uint32_t zone, uint8_t *buffer, size_t room, size_t *len)
{
    uint32_t answer;
    uint32_t by_order[ZONE_ORDERS], order;
    char line[ZONE_INFO_LINE];
    zone_t *at = zone_of(worker, zone, 0, &answer);
    if (!at)
        return answer;
    count_blocks(at, by_order);
    *len = (size_t)sprintf(line, "Node 0, zone %8.*s ", (int)at->spec.name_len, (const char *)at->spec.name);
    for (order = 0; order <= at->spec.largest; order++)
        *len += (size_t)sprintf(line + *len, "%6lu ", (unsigned long)by_order[order]);
    line[(*len)++] = '\n';
    memcpy(buffer, line, room < *len ? room : *len);
    return ZONE_OK;
}

uint32_t reference_page(reference_worker_t *worker, uint32_t zone, uint32_t page, zone_page_t *told)
{
    uint32_t answer;
    zone_t *at = zone_of(worker, zone, 0, &answer);
    const page_t *noted;
    if (!at)
        return answer;
    if (number_of(at, page) == NONE)
        return ZONE_BAD_ARGUMENT;
    noted = &at->pages[number_of(at, page)];
    told->state = noted->state;
    told->order = noted->state == ZONE_TAIL ? 0 : noted->order;
    told->type = noted->state == ZONE_OUT || noted->state == ZONE_POSTED ? noted->type : 0;
    told->worker = noted->state == ZONE_OUT || noted->state == ZONE_POSTED ? noted->worker : 0;
    return ZONE_OK;
}

/* The order of the largest free block in a pageblock; 11 where it has none. */
static uint32_t largest_in(const zone_t *zone, uint32_t pageblock)
{
    uint32_t head = pageblock << zone->spec.largest, end = head + (1u << zone->spec.largest), most = ZONE_ORDERS;
    for (; head < end && head < zone->spec.pages; head++)
        if (zone->pages[head].state == ZONE_FREE && (most == ZONE_ORDERS || zone->pages[head].order > most))
            most = zone->pages[head].order;
    return most;
}

uint32_t reference_pageblock(reference_worker_t *worker, uint32_t zone, uint32_t pageblock, zone_pageblock_t *told)
{
    uint32_t answer;
    zone_t *at = zone_of(worker, zone, 0, &answer);
    if (!at)
        return answer;
    if (pageblock >= pageblocks_of(at))
        return ZONE_BAD_PAGEBLOCK;
    told->type = at->pageblocks[pageblock].type;
    told->free = at->pageblocks[pageblock].free;
    told->largest = largest_in(at, pageblock);
    return ZONE_OK;
}

static void total(const zone_t *zone, zone_totals_t *totals)
{
    uint32_t i;
    memset(totals, 0, sizeof *totals);
    for (i = 0; i < zone->spec.pages; i++) {
        const page_t *page = &zone->pages[i];
        totals->free += page->free;
        if (page->state == ZONE_POSTED)
            totals->posted += 1u << page->order;
        if (page->state == ZONE_OUT && page->cached)
            totals->cached++;
        if (page->state == ZONE_OUT && !page->cached)
            totals->lent += 1u << page->order;
    }
}

uint32_t reference_gather(reference_row_t *row, uint32_t zone, zone_totals_t *totals)
{
    if (!row->at)
        return ZONE_BAD_HANDLE;
    if (zone >= row->at->n_zones)
        return ZONE_BAD_ARGUMENT;
    if (has_workers(row->at))
        return ZONE_HAS_WORKERS;
    total(&row->at->zones[zone], totals);
    return ZONE_OK;
}
