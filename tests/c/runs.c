/* Runs of pages over small zones: what each call answers, and after it the free lists, front first, and the blocks that are out, as they follow
 * from docs/rules.md by hand. C reads no list: a list is read by taking its blocks, in a row to which all that went before was done again. Prints
 * one line and answers 0; or tells what was wrong and answers 1. */
#include "zonealloc.h"
#include "checking.h"
#include <stdlib.h>
#include <string.h>

enum { CREW = 2, READER = 1 };
static zone_row_t row;
static zone_worker_t crew[CREW];

typedef enum { END, ALLOC_RUN, ALLOC_RUN_AT, FREE_RUN, ALLOC_LOW, FREE, POST, COLLECT, ISOLATE, RELEASE } action_t;

/* A call: a page or a pageblock; how many pages, or an order; how a run is aligned, or a type. What it answers, and which page it tells. Then
 * lists as "order: pages; order: pages", and the blocks out of worker 0 as "page of order, page of order". What is NULL is not looked at. */
typedef struct { action_t action; uint32_t worker, at, count, align, mark, answer, page; const char *lists, *out; } step_t;

#define AT(page, pages, answer) ALLOC_RUN_AT, 0, page, pages, 0, 0, answer, page
#define RUN(pages, align, mark, page) ALLOC_RUN, 0, 0, pages, align, mark, ZONE_OK, page
#define NO_RUN(pages, align, mark, answer) ALLOC_RUN, 0, 0, pages, align, mark, answer, 0
#define GIVE(page, pages, answer) FREE_RUN, 0, page, pages, 0, 0, answer, 0

static const zone_spec_t dma = { 0, 4096, 0, 10, 3, "DMA" };
static const step_t reserved[] = {
    { AT(1000, 100, ZONE_OK), "0: ; 1: ; 2: 1100; 3: 992; 4: 1104; 5: 1120 960; 6: 896; 7: 1152 768; 8: 1280 512; 9: 1536 0; 10: 3072 2048",
      "1000 of 3, 1008 of 4, 1024 of 6, 1088 of 3, 1096 of 2" },
    { AT(1099, 1, ZONE_NOT_FREE), NULL, NULL },
    { AT(1100, 4, ZONE_OK), "2: ", NULL },
    { GIVE(1020, 8, ZONE_OK), "2: 1024 1020",
      "1000 of 3, 1008 of 3, 1016 of 2, 1028 of 2, 1032 of 3, 1040 of 4, 1056 of 5, 1088 of 3, 1096 of 2, 1100 of 2" },
    { GIVE(1000, 8, ZONE_OK), "3: ; 4: 992 1104", NULL },
    { FREE_RUN, 1, 1030, 1, 0, 0, ZONE_NOT_LENT, 0, NULL, NULL },
    { GIVE(1008, 12, ZONE_OK), "2: 1024; 10: 0 3072 2048", NULL },
    { GIVE(1028, 76, ZONE_OK), "0: ; 1: ; 2: ; 3: ; 4: ; 5: ; 6: ; 7: ; 8: ; 9: ; 10: 1024 0 3072 2048", "" },
    { END, 0, 0, 0, 0, 0, 0, 0, NULL, NULL }
};

static const zone_spec_t short_zone = { 0, 13, 0, 10, 5, "Short" };
static const step_t across_the_end[] = {
    { AT(5, 6, ZONE_OK), "0: 11 4 12; 2: 0", "5 of 0, 6 of 1, 8 of 1, 10 of 0" },
    { AT(8, 6, ZONE_BAD_RUN), NULL, NULL },
    { AT(0, 0, ZONE_BAD_RUN), NULL, NULL },
    { RUN(3, 0, ZONE_ANY, 0), "0: 3 11 4 12", NULL },
    { NO_RUN(3, 0, ZONE_ANY, ZONE_NO_BLOCK), NULL, NULL },
    { RUN(2, 0, ZONE_ANY, 3), NULL, NULL },
    { GIVE(0, 9, ZONE_OK), "3: 0; 0: 8 11 12", "9 of 0, 10 of 0" },
    { GIVE(2, 5, ZONE_NOT_LENT), NULL, NULL },
    { END, 0, 0, 0, 0, 0, 0, 0, NULL, NULL }
};

static const zone_spec_t wide = { 0, 8192, 0, 10, 4, "Wide" };
static const step_t large_pages[] = {
    { AT(3000, 1, ZONE_OK), NULL, NULL },
    { RUN(4096, 12, ZONE_LOW, 4096), NULL, "3000 of 0, 4096 of 10, 5120 of 10, 6144 of 10, 7168 of 10" },
    { RUN(2000, 0, ZONE_LOW, 0), NULL, NULL },
    { NO_RUN(2000, 0, ZONE_LOW, ZONE_NO_BLOCK), NULL, NULL },
    { ISOLATE, 0, 3, 0, 0, 0, ZONE_OK, 0, NULL, NULL },
    { AT(3072, 8, ZONE_OK), NULL, NULL },
    { RUN(1000, 0, ZONE_LOW, 2000), NULL, NULL },
    { END, 0, 0, 0, 0, 0, 0, 0, NULL, NULL }
};

static const zone_spec_t kept_back = { 0, 8, 2, 10, 4, "Kept" };
static const step_t marks[] = {
    { RUN(6, 0, ZONE_LOW, 0), "1: 6", "0 of 2, 4 of 1" },
    { NO_RUN(5, 0, ZONE_LOW, ZONE_BELOW_MARK), NULL, NULL },
    { NO_RUN(3, 0, ZONE_ANY, ZONE_NO_BLOCK), NULL, NULL },
    { END, 0, 0, 0, 0, 0, 0, 0, NULL, NULL }
};

/* Alignments are of absolute pages, and a run begins where they say though its blocks would fit lower. */
static const zone_spec_t high = { 3072, 3000, 0, 4, 4, "High" };
static const step_t aligned[] = {
    { RUN(10, 11, ZONE_ANY, 4096), NULL, "4096 of 3, 4104 of 1" },
    { RUN(3, 10, ZONE_ANY, 3072), NULL, "3072 of 1, 3074 of 0, 4096 of 3, 4104 of 1" },
    { NO_RUN(1, 24, ZONE_ANY, ZONE_NO_BLOCK), NULL, NULL },
    { NO_RUN(1, 11, ZONE_ANY, ZONE_NO_BLOCK), NULL, NULL },
    { NO_RUN(1, 25, ZONE_ANY, ZONE_BAD_ARGUMENT), NULL, NULL },
    { NO_RUN(0, 0, ZONE_ANY, ZONE_BAD_ARGUMENT), NULL, NULL },
    { NO_RUN(UINT32_MAX, 0, ZONE_ANY, ZONE_NO_BLOCK), NULL, NULL },
    { NO_RUN(UINT32_MAX, 0, ZONE_MIN, ZONE_BELOW_MARK), NULL, NULL },
    { AT(3071, 1, ZONE_BAD_RUN), NULL, NULL },
    { AT(6071, 2, ZONE_BAD_RUN), NULL, NULL },
    { AT(UINT32_MAX, UINT32_MAX, ZONE_BAD_RUN), NULL, NULL },
    { AT(6071, 1, ZONE_OK), NULL, "3072 of 1, 3074 of 0, 4096 of 3, 4104 of 1, 6071 of 0" },
    { GIVE(6071, 2, ZONE_NOT_LENT), NULL, NULL },
    { GIVE(6071, 0, ZONE_NOT_LENT), NULL, NULL },
    { GIVE(UINT32_MAX, UINT32_MAX, ZONE_NOT_LENT), NULL, NULL },
    { END, 0, 0, 0, 0, 0, 0, 0, NULL, NULL }
};

/* A run's blocks are blocks like all others, and blocks are freed as parts of runs. What is posted is nobody's until it is collected. */
static const zone_spec_t small_zone = { 1024, 64, 0, 3, 5, "Small" };
static const step_t like_others[] = {
    { RUN(7, 0, ZONE_ANY, 1024), "0: 1031", "1024 of 2, 1028 of 1, 1030 of 0" },
    { POST, 0, 1028, 1, 0, 0, ZONE_OK, 0, NULL, "1024 of 2, 1030 of 0" },
    { GIVE(1027, 2, ZONE_NOT_LENT), NULL, NULL },
    { FREE_RUN, 1, 1028, 2, 0, 0, ZONE_NOT_LENT, 0, NULL, NULL },
    { COLLECT, 1, 0, 1, 0, 0, ZONE_OK, 1028, NULL, NULL },
    { FREE_RUN, 1, 1029, 1, 0, 0, ZONE_OK, 0, "0: 1029 1031", "1024 of 2, 1030 of 0" },
    { FREE, 0, 1030, 0, 0, 0, ZONE_OK, 0, "0: 1029; 1: 1030", "1024 of 2" },
    { ALLOC_LOW, 0, 0, 3, 0, 0, ZONE_OK, 1032, NULL, "1024 of 2, 1032 of 3" },
    { GIVE(1033, 6, ZONE_OK), "0: 1038 1033 1029; 1: 1036 1034 1030", "1024 of 2, 1032 of 0, 1039 of 0" },
    { FREE_RUN, 0, 1024, 4, 0, 0, ZONE_OK, 0, NULL, "1032 of 0, 1039 of 0" },
    { FREE_RUN, 1, 1028, 1, 0, 0, ZONE_OK, 0, NULL, "1032 of 0, 1039 of 0" },
    { END, 0, 0, 0, 0, 0, 0, 0, NULL, NULL }
};

/* One settling, over two pageblocks; each block has the type of its own pageblock, and one of an isolated pageblock is Movable. */
static const step_t two_pageblocks[] = {
    { ISOLATE, 0, 1, 0, 0, 0, ZONE_OK, 0, NULL, NULL },
    { RELEASE, 0, 1, 0, ZONE_TYPE_UNMOVABLE, 0, ZONE_OK, 0, NULL, NULL },
    { ISOLATE, 0, 2, 0, 0, 0, ZONE_OK, 0, NULL, NULL },
    { AT(1030, 12, ZONE_OK), NULL, "1030 of 1, 1032 of 3, 1040 of 1" },
    { END, 0, 0, 0, 0, 0, 0, 0, NULL, NULL }
};

static uint32_t act(const step_t *s, uint32_t *page)
{
    zone_worker_t *own = &crew[s->worker];
    uint32_t order = s->count;
    switch (s->action) {
    case ALLOC_RUN: return zonealloc_alloc_run(own, 0, s->count, s->align, s->mark, page);
    case ALLOC_RUN_AT: *page = s->at; return zonealloc_alloc_run_at(own, 0, s->at, s->count);
    case FREE_RUN: return zonealloc_free_run(own, 0, s->at, s->count);
    case ALLOC_LOW: return zonealloc_alloc_low(own, 0, s->count, page);
    case FREE: return zonealloc_free(own, 0, s->at, s->count);
    case POST: return zonealloc_post(own, 0, s->at, s->count, 1);
    case COLLECT: return zonealloc_collect(own, 0, page, &order);
    case ISOLATE: return zonealloc_isolate(own, 0, s->at);
    case RELEASE: return zonealloc_release(own, 0, s->at, s->align);
    case END: break;
    }
    return ZONE_OK;
}

static int is_well;   /* of the step that is looked at */

static void want(int good)
{
    is_well = is_well && good;
}

static void open_row(const zone_spec_t *spec)
{
    want(zonealloc_make(&row, crew, CREW, spec, 1, 0, 0) == ZONE_OK);
}

static void close_row(void)
{
    uint32_t i;
    for (i = 0; i < CREW; i++)
        want(zonealloc_dismiss(&crew[i]) == ZONE_OK);
    want(zonealloc_unmake(&row) == ZONE_OK);
}

static void act_all(const step_t *steps, uint32_t n)
{
    uint32_t i, page = 0;
    for (i = 0; i < n; i++)
        (void)act(&steps[i], &page);
}

/* The list of this order has these blocks, the front first, and no more. (All free blocks are Movable, so that an alloc takes the front.) */
static const char *want_list(const char *at, uint32_t order)
{
    zone_counts_t counts;
    uint32_t blocks = 0, page;
    char *after;
    want(zonealloc_counts(&crew[READER], 0, &counts) == ZONE_OK);
    while (*at == ' ' && at[1] >= '0' && at[1] <= '9') {
        uint32_t wanted = (uint32_t)strtoul(at, &after, 10);
        at = after;
        want(zonealloc_alloc(&crew[READER], 0, order, ZONE_TYPE_MOVABLE, ZONE_ANY, &page) == ZONE_OK && page == wanted);
        blocks++;
    }
    want(counts.by_order[order] == blocks);
    return at + strspn(at, "; ");
}

static void want_lists(const zone_spec_t *spec, const step_t *steps, uint32_t n)
{
    const char *at = steps[n - 1].lists;
    char *after;
    while (at != NULL && *at != '\0') {
        uint32_t order = (uint32_t)strtoul(at, &after, 10);
        open_row(spec);
        act_all(steps, n);
        at = want_list(after + 1, order);
        close_row();
    }
}

/* These blocks are out in worker 0's name, and no other page. */
static void want_out(const zone_spec_t *spec, const char *at)
{
    zone_page_t told;
    uint32_t page, next, lent, pages = 0, others = 0;
    char *after;
    if (at == NULL)
        return;
    while (*at != '\0') {
        uint32_t order;
        page = (uint32_t)strtoul(at, &after, 10);
        order = (uint32_t)strtoul(after + strlen(" of"), &after, 10);
        want(zonealloc_is_lent(&crew[0], 0, page, order, &lent) == ZONE_OK && lent == 1);
        pages += 1u << order;
        at = after + strspn(after, ", ");
    }
    for (page = spec->base; page < spec->base + spec->pages; page = next) {
        want(zonealloc_page(&crew[0], 0, page, &told) == ZONE_OK);
        next = page + (told.state == ZONE_TAIL ? 1 : 1u << told.order);
        others += told.state == ZONE_OUT && told.worker == 0 ? 1u << told.order : 0;
    }
    want(others == pages);
}

static void try_steps(const char *name, const zone_spec_t *spec, const step_t *steps)
{
    uint32_t n;
    for (n = 1; steps[n - 1].action != END; n++) {
        const step_t *last = &steps[n - 1];
        uint32_t page = 0;
        is_well = 1;
        open_row(spec);
        act_all(steps, n - 1);
        want(act(last, &page) == last->answer && (last->answer != ZONE_OK || page == last->page));
        want_out(spec, last->out);
        close_row();
        want_lists(spec, steps, n);
        if (!is_well)
            printf("%s, step %u:\n", name, (unsigned)n);
        CHECK(is_well);
    }
}

static uint32_t type_at(uint32_t page)
{
    zone_page_t told;
    CHECK(zonealloc_page(&crew[0], 0, page, &told) == ZONE_OK && told.state == ZONE_OUT);
    return told.type;
}

static void try_types(void)
{
    is_well = 1;
    open_row(&small_zone);
    act_all(two_pageblocks, sizeof two_pageblocks / sizeof *two_pageblocks);
    CHECK(type_at(1030) == ZONE_TYPE_MOVABLE && type_at(1032) == ZONE_TYPE_UNMOVABLE && type_at(1040) == ZONE_TYPE_MOVABLE);
    /* what is left of a block keeps the type that it had, whatever its pageblock became */
    CHECK(zonealloc_isolate(&crew[0], 0, 1) == ZONE_OK && zonealloc_release(&crew[0], 0, 1, ZONE_TYPE_RECLAIMABLE) == ZONE_OK);
    CHECK(zonealloc_free_run(&crew[0], 0, 1034, 2) == ZONE_OK);
    CHECK(type_at(1032) == ZONE_TYPE_UNMOVABLE && type_at(1036) == ZONE_TYPE_UNMOVABLE);
    close_row();
    CHECK(is_well);
}

/* A page on a worker's list is not lent, so it is in no run that is freed; and a list gets pages of a run that were freed. */
static void try_lists(void)
{
    uint32_t page = 0;
    is_well = 1;
    want(zonealloc_make(&row, crew, CREW, &small_zone, 1, 4, 8) == ZONE_OK);
    CHECK(zonealloc_alloc_run(&crew[0], 0, 5, 0, ZONE_ANY, &page) == ZONE_OK && page == 1024);
    CHECK(zonealloc_put(&crew[0], 0, 1028) == ZONE_OK && zonealloc_put(&crew[0], 0, 1024) == ZONE_NOT_LENT);
    CHECK(zonealloc_free_run(&crew[0], 0, 1024, 5) == ZONE_NOT_LENT && zonealloc_free_run(&crew[0], 0, 1028, 1) == ZONE_NOT_LENT);
    CHECK(zonealloc_take(&crew[0], 0, ZONE_TYPE_MOVABLE, &page) == ZONE_OK && page == 1028);
    CHECK(zonealloc_free_run(&crew[0], 0, 1024, 5) == ZONE_OK);
    CHECK(zonealloc_refill(&crew[0], 0, ZONE_TYPE_MOVABLE, ZONE_ANY) == ZONE_OK);
    CHECK(zonealloc_alloc_run_at(&crew[0], 0, 1024, 64) == ZONE_NOT_FREE);
    CHECK(zonealloc_drain_all(&crew[0], 0) == ZONE_OK && zonealloc_alloc_run_at(&crew[0], 0, 1024, 64) == ZONE_OK);
    close_row();
    CHECK(is_well);
}

int main(void)
{
    try_steps("reserved", &dma, reserved);
    try_steps("across the end", &short_zone, across_the_end);
    try_steps("large pages", &wide, large_pages);
    try_steps("marks", &kept_back, marks);
    try_steps("aligned", &high, aligned);
    try_steps("like others", &small_zone, like_others);
    try_steps("two pageblocks", &small_zone, two_pageblocks);
    try_types();
    try_lists();
    printf("runs: %u checks, %u failures\n", checks, failures);
    return failures != 0;
}
