/* zonealloc_counts_by_type over three small zones: after each step what it tells stands in a table written by hand from docs/rules.md, and so does
 * where a block came from that zonealloc_alloc_told allocates. By
 * order the types' blocks are together those of zonealloc_counts, and by type the pageblocks those that zonealloc_pageblock tells. A call
 * that is refused has told nothing. Prints one line and answers 0; or tells what was wrong and answers 1. */
#include "zonealloc.h"
#include "checking.h"
#include <string.h>

enum { ZONES = 3, CREW = 2, COUNTED_ORDERS = 4, A = 1024, B = 2048, C = 3072 };

/* Pageblocks of 4 pages, the sixth of which has one; of 8 pages; and one of 8 that has three. */
static const zone_spec_t specs[ZONES] = { { A, 21, 0, 2, 1, { 'A' } }, { B, 40, 0, 3, 1, { 'B' } }, { C, 3, 0, 3, 1, { 'C' } } };
static zone_row_t row;
static zone_worker_t crew[CREW];

/* What is done before the counts are read; a block is allocated in three ways, by where it comes from. A page or a pageblock is the one that the call names or has to answer. */
typedef enum { NOTHING, OWN, CLAIM, BORROW, FREE, POST, ISOLATE, RELEASE, REFILL, DRAIN } action_t;
typedef struct {
    action_t action;
    uint32_t zone, at, order, type;
    uint32_t free[ZONE_PAGEBLOCK_TYPES][COUNTED_ORDERS], pageblocks[ZONE_PAGEBLOCK_TYPES];
} step_t;

#define UNMOVABLE ZONE_TYPE_UNMOVABLE
#define RECLAIMABLE ZONE_TYPE_RECLAIMABLE
#define MOVABLE ZONE_TYPE_MOVABLE

/* The free blocks of orders 0 to 3 of each type, Unmovable, Reclaimable, Movable and isolated, and the pageblocks of each. */
static const step_t steps[] = {
    /* all of a new zone is Movable; the short pageblock counts as one */
    { NOTHING, 0, 0, 0, 0,            { { 0 },       { 0 },       { 1, 0, 5 },    { 0 } },       { 0, 0, 6, 0 } },
    { NOTHING, 1, 0, 0, 0,            { { 0 },       { 0 },       { 0, 0, 0, 5 }, { 0 } },       { 0, 0, 5, 0 } },
    { NOTHING, 2, 0, 0, 0,            { { 0 },       { 0 },       { 1, 1 },       { 0 } },       { 0, 0, 1, 0 } },
    /* an isolated pageblock and its blocks have a row of their own, and another after the release */
    { ISOLATE, 0, 2, 0, 0,            { { 0 },       { 0 },       { 1, 0, 4 },    { 0, 0, 1 } }, { 0, 0, 5, 1 } },
    { RELEASE, 0, 2, 0, RECLAIMABLE,  { { 0 },       { 0, 0, 1 }, { 1, 0, 4 },    { 0 } },       { 0, 1, 5, 0 } },
    /* a claim takes the pageblock with it, from the first foreign type */
    { CLAIM, 0, A + 8, 0, UNMOVABLE,  { { 1, 1 },    { 0 },       { 1, 0, 4 },    { 0 } },       { 1, 0, 5, 0 } },
    /* what is lent or posted is in no block */
    { OWN, 0, A + 16, 1, MOVABLE,     { { 1, 1 },    { 0 },       { 1, 1, 3 },    { 0 } },       { 1, 0, 5, 0 } },
    { POST, 0, A + 8, 0, 0,           { { 1, 1 },    { 0 },       { 1, 1, 3 },    { 0 } },       { 1, 0, 5, 0 } },
    /* half of a pageblock is lent while it is isolated, and joins the other half there */
    { ISOLATE, 0, 4, 0, 0,            { { 1, 1 },    { 0 },       { 1, 0, 3 },    { 0, 1 } },    { 1, 0, 4, 1 } },
    { FREE, 0, A + 16, 1, 0,          { { 1, 1 },    { 0 },       { 1, 0, 3 },    { 0, 0, 1 } }, { 1, 0, 4, 1 } },
    { RELEASE, 0, 4, 0, UNMOVABLE,    { { 1, 1, 1 }, { 0 },       { 1, 0, 3 },    { 0 } },       { 2, 0, 4, 0 } },
    { ISOLATE, 0, 5, 0, 0,            { { 1, 1, 1 }, { 0 },       { 0, 0, 3 },    { 1 } },       { 2, 0, 3, 1 } },
    /* what is borrowed leaves the pageblock its type: the blocks left count as Movable, and so does what comes back */
    { BORROW, 2, C + 2, 0, UNMOVABLE, { { 0 },       { 0 },       { 0, 1 },       { 0 } },       { 0, 0, 1, 0 } },
    { BORROW, 2, C, 0, RECLAIMABLE,   { { 0 },       { 0 },       { 1 },          { 0 } },       { 0, 0, 1, 0 } },
    { FREE, 2, C + 2, 0, 0,           { { 0 },       { 0 },       { 2 },          { 0 } },       { 0, 0, 1, 0 } },
    { FREE, 2, C, 0, 0,               { { 0 },       { 0 },       { 1, 1 },       { 0 } },       { 0, 0, 1, 0 } },
    /* a batch of four pages on a worker's list is in no block, and drained it is one again */
    { REFILL, 1, 0, 0, MOVABLE,       { { 0 },       { 0 },       { 0, 0, 1, 4 }, { 0 } },       { 0, 0, 5, 0 } },
    { DRAIN, 1, 4, 0, MOVABLE,        { { 0 },       { 0 },       { 0, 0, 0, 5 }, { 0 } },       { 0, 0, 5, 0 } },
    /* each zone has counts of its own */
    { NOTHING, 0, 0, 0, 0,            { { 1, 1, 1 }, { 0 },       { 0, 0, 3 },    { 1 } },       { 2, 0, 3, 1 } },
    { NOTHING, 2, 0, 0, 0,            { { 0 },       { 0 },       { 1, 1 },       { 0 } },       { 0, 0, 1, 0 } }
};
enum { STEPS = sizeof steps / sizeof steps[0] };

static uint32_t act(const step_t *s)
{
    zone_worker_t *own = &crew[0];
    uint32_t page = s->at, origin, answer = ZONE_OK;
    switch (s->action) {
    case OWN: case CLAIM: case BORROW:
        answer = zonealloc_alloc_told(own, s->zone, s->order, s->type, ZONE_ANY, &page, &origin);
        CHECK(origin == (s->action == OWN ? ZONE_OWN : s->action == CLAIM ? ZONE_CLAIMED : ZONE_BORROWED));
        break;
    case FREE: answer = zonealloc_free(own, s->zone, s->at, s->order); break;
    case POST: answer = zonealloc_post(own, s->zone, s->at, s->order, 1); break;
    case ISOLATE: answer = zonealloc_isolate(own, s->zone, s->at); break;
    case RELEASE: answer = zonealloc_release(own, s->zone, s->at, s->type); break;
    case REFILL: answer = zonealloc_refill(own, s->zone, s->type, ZONE_ANY); break;
    case DRAIN: answer = zonealloc_drain(own, s->zone, s->type, s->at); break;
    case NOTHING: break;
    }
    CHECK(page == s->at);
    return answer;
}

/* What is in the table, and no block of an order that is not there. */
static int is_as_written(const step_t *s, const zone_types_t *told)
{
    uint32_t type, order;
    for (type = 0; type < ZONE_PAGEBLOCK_TYPES; type++) {
        if (told->pageblocks[type] != s->pageblocks[type])
            return 0;
        for (order = 0; order < ZONE_ORDERS; order++)
            if (told->free[type][order] != (order < COUNTED_ORDERS ? s->free[type][order] : 0))
                return 0;
    }
    return 1;
}

/* The types together have the zone's blocks. */
static int are_all_blocks(const zone_types_t *told, uint32_t zone)
{
    zone_counts_t counts;
    uint32_t type, order, blocks;
    CHECK(zonealloc_counts(&crew[1], zone, &counts) == ZONE_OK);
    for (order = 0; order < ZONE_ORDERS; order++) {
        for (blocks = 0, type = 0; type < ZONE_PAGEBLOCK_TYPES; type++)
            blocks += told->free[type][order];
        if (blocks != counts.by_order[order])
            return 0;
    }
    return 1;
}

/* Each pageblock counts once, with the type that it tells. */
static int are_all_pageblocks(const zone_types_t *told, uint32_t zone)
{
    zone_pageblock_t block;
    uint32_t left[ZONE_PAGEBLOCK_TYPES], number;
    memcpy(left, told->pageblocks, sizeof left);
    for (number = 0; number << specs[zone].largest < specs[zone].pages; number++) {
        CHECK(zonealloc_pageblock(&crew[1], zone, number, &block) == ZONE_OK);
        left[block.type]--;
    }
    return left[0] == 0 && left[1] == 0 && left[2] == 0 && left[3] == 0;
}

static void follow(void)
{
    zone_types_t told;
    uint32_t i;
    char what[32];
    for (i = 0; i < STEPS; i++) {
        (void)snprintf(what, sizeof what, "step %u", (unsigned)i);
        check(act(&steps[i]) == ZONE_OK, what, __LINE__);
        memset(&told, 0xA5, sizeof told);
        check(zonealloc_counts_by_type(&crew[1], steps[i].zone, &told) == ZONE_OK, what, __LINE__);
        check(is_as_written(&steps[i], &told), what, __LINE__);
        check(are_all_blocks(&told, steps[i].zone), what, __LINE__);
        check(are_all_pageblocks(&told, steps[i].zone), what, __LINE__);
    }
}

/* A refused call tells nothing. */
static void refused(zone_worker_t *worker, uint32_t zone, uint32_t wanted)
{
    zone_types_t told, blank;
    memset(&blank, 0xA5, sizeof blank);
    memcpy(&told, &blank, sizeof told);
    CHECK(zonealloc_counts_by_type(worker, zone, &told) == wanted);
    CHECK(memcmp(&told, &blank, sizeof told) == 0);
}

int main(void)
{
    zone_worker_t none = ZONE_NONE;
    CHECK(zonealloc_make(&row, crew, CREW, specs, ZONES, 4, 6) == ZONE_OK);
    follow();
    refused(&none, 0, ZONE_BAD_HANDLE);
    refused(&none, ZONES, ZONE_BAD_HANDLE);
    refused(&crew[1], ZONES, ZONE_BAD_ARGUMENT);
    refused(&crew[1], 0xFFFFFFFF, ZONE_BAD_ARGUMENT);
    CHECK(zonealloc_dismiss(&crew[1]) == ZONE_OK);
    refused(&crew[1], 0, ZONE_BAD_HANDLE);
    CHECK(zonealloc_dismiss(&crew[0]) == ZONE_OK);
    CHECK(zonealloc_unmake(&row) == ZONE_OK);
    printf("types: %u checks, %u failures\n", checks, failures);
    return failures == 0 ? 0 : 1;
}
