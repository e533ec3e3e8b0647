/* Many blocks in one call, beside the same requests by one call each, in a row that is made the same: answers, pages, and all that can be read of
 * the zone after each. Prints one line and answers 0; or tells what was wrong and answers 1. */
#include "zonealloc.h"
#include "checking.h"
#include <string.h>

enum { BASE = 1024, PAGES = 100, MIN = 8, CREW = 2, ROOM = 128 };
#define UNTOUCHED 0xA5A5A5A5u

typedef struct { zone_row_t row; zone_worker_t crew[CREW]; } side_t;

static const zone_spec_t spec = { BASE, PAGES, MIN, 4, 4, "Many" };
static side_t at_once, one_by_one;
static uint32_t pages[ROOM], orders[ROOM], singly[ROOM];

static void open_rows(void)
{
    memset(&at_once, 0, sizeof at_once);
    memset(&one_by_one, 0, sizeof one_by_one);
    CHECK(zonealloc_make(&at_once.row, at_once.crew, CREW, &spec, 1, 0, 0) == ZONE_OK);
    CHECK(zonealloc_make(&one_by_one.row, one_by_one.crew, CREW, &spec, 1, 0, 0) == ZONE_OK);
}

static void close_row(side_t *side)
{
    uint32_t i;
    for (i = 0; i < CREW; i++)
        CHECK(zonealloc_dismiss(&side->crew[i]) == ZONE_OK);
    CHECK(zonealloc_unmake(&side->row) == ZONE_OK);
}

static void close_rows(void)
{
    close_row(&at_once);
    close_row(&one_by_one);
}

/* The two zones have the same free blocks, and note the same of each page. */
static void want_same(void)
{
    zone_counts_t a, b;
    zone_page_t p, q;
    uint32_t i;
    CHECK(zonealloc_counts(&at_once.crew[1], 0, &a) == ZONE_OK && zonealloc_counts(&one_by_one.crew[1], 0, &b) == ZONE_OK);
    CHECK(memcmp(&a, &b, sizeof a) == 0);
    for (i = 0; i < PAGES; i++) {
        CHECK(zonealloc_page(&at_once.crew[1], 0, BASE + i, &p) == ZONE_OK && zonealloc_page(&one_by_one.crew[1], 0, BASE + i, &q) == ZONE_OK);
        CHECK(memcmp(&p, &q, sizeof p) == 0);
    }
}

/* Blocks of one kind for so many places: the answer and how many were got are as is said, the pages those of single calls, and the places behind
 * them untouched. */
static void allocate(uint32_t order, uint32_t type, uint32_t mark, size_t room, uint32_t wanted, size_t count)
{
    size_t i, got = ROOM + 1;
    uint32_t answer = ZONE_OK;
    for (i = 0; i < ROOM; i++)
        pages[i] = singly[i] = UNTOUCHED;
    CHECK(zonealloc_alloc_many(&at_once.crew[0], 0, order, type, mark, pages, room, &got) == wanted);
    CHECK(got == count);
    for (i = 0; i < room && answer == ZONE_OK; i++)
        answer = zonealloc_alloc(&one_by_one.crew[0], 0, order, type, mark, &singly[i]);
    CHECK(answer == wanted);
    CHECK(memcmp(pages, singly, sizeof pages) == 0);
    CHECK(pages[count] == UNTOUCHED && (count == 0 || pages[count - 1] != UNTOUCHED));
    want_same();
}

/* The blocks that the two arrays name, so many of them: up to the first that is refused they were given back. */
static void give_back(size_t n, uint32_t wanted, size_t count)
{
    size_t i, freed = ROOM + 1;
    uint32_t answer = ZONE_OK;
    CHECK(zonealloc_free_many(&at_once.crew[0], 0, pages, n, orders, n, &freed) == wanted);
    CHECK(freed == count);
    for (i = 0; i < n && answer == ZONE_OK; i++)
        answer = zonealloc_free(&one_by_one.crew[0], 0, pages[i], orders[i]);
    CHECK(answer == wanted);
    want_same();
}

static void are_all_of(uint32_t order)
{
    size_t i;
    for (i = 0; i < ROOM; i++)
        orders[i] = order;
}

/* All that is asked for; then more than there is; and all of it back, in the order in which it came. */
static void all_or_the_rest(void)
{
    open_rows();
    allocate(0, ZONE_TYPE_MOVABLE, ZONE_LOW, 5, ZONE_OK, 5);
    are_all_of(0);
    give_back(5, ZONE_OK, 5);
    allocate(0, ZONE_TYPE_MOVABLE, ZONE_ANY, PAGES, ZONE_OK, PAGES);
    give_back(PAGES, ZONE_OK, PAGES);
    allocate(0, ZONE_TYPE_RECLAIMABLE, ZONE_ANY, ROOM - 1, ZONE_NO_BLOCK, PAGES);
    give_back(PAGES, ZONE_OK, PAGES);
    allocate(4, ZONE_TYPE_UNMOVABLE, ZONE_ANY, 7, ZONE_NO_BLOCK, 6);
    are_all_of(4);
    give_back(6, ZONE_OK, 6);
    allocate(5, ZONE_TYPE_MOVABLE, ZONE_ANY, 7, ZONE_NO_BLOCK, 0);
    close_rows();
}

/* A mark ends it where the next block would take the zone below it: what is left is at least that many pages. */
static void down_to_a_mark(void)
{
    open_rows();
    allocate(0, ZONE_TYPE_MOVABLE, ZONE_MIN, ROOM - 1, ZONE_BELOW_MARK, PAGES - MIN);
    are_all_of(0);
    give_back(PAGES - MIN, ZONE_OK, PAGES - MIN);
    allocate(2, ZONE_TYPE_MOVABLE, ZONE_MIN, ROOM - 1, ZONE_BELOW_MARK, (PAGES - MIN) / 4);
    allocate(2, ZONE_TYPE_MOVABLE, ZONE_MIN, 1, ZONE_BELOW_MARK, 0);
    close_rows();
}

/* Blocks of several orders; one that is not lent with its order; one that is another's; and one that is named twice. */
static void up_to_the_first_refused(void)
{
    uint32_t four[4], others;
    open_rows();
    allocate(2, ZONE_TYPE_MOVABLE, ZONE_ANY, 4, ZONE_OK, 4);
    memcpy(four, pages, sizeof four);
    allocate(0, ZONE_TYPE_MOVABLE, ZONE_ANY, 3, ZONE_OK, 3);
    are_all_of(0);
    memcpy(pages + 3, four, sizeof four);
    orders[3] = 2;
    orders[4] = 1;
    give_back(7, ZONE_NOT_LENT, 4);
    CHECK(zonealloc_alloc(&at_once.crew[1], 0, 0, ZONE_TYPE_MOVABLE, ZONE_ANY, &others) == ZONE_OK);
    CHECK(zonealloc_alloc(&one_by_one.crew[1], 0, 0, ZONE_TYPE_MOVABLE, ZONE_ANY, &others) == ZONE_OK);
    are_all_of(2);
    pages[0] = four[1];
    pages[1] = others;
    pages[2] = four[2];
    orders[1] = 0;
    give_back(3, ZONE_NOT_LENT, 1);
    pages[0] = pages[1] = four[2];
    orders[1] = 2;
    pages[2] = four[3];
    give_back(3, ZONE_NOT_LENT, 1);
    give_back(1, ZONE_NOT_LENT, 0);
    pages[0] = four[3];
    give_back(1, ZONE_OK, 1);
    close_rows();
}

int main(void)
{
    all_or_the_rest();
    down_to_a_mark();
    up_to_the_first_refused();
    printf("many: %u checks, %u failures\n", checks, failures);
    return failures == 0 ? 0 : 1;
}
