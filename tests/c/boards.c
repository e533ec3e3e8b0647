/* Counts that are read beside the lock. Of one thread each reading is what zonealloc_counts tells, and its place how many requests were made, granted and
 * refused; what asks no zone publishes nothing. Of readers in threads, while workers are at work, places never fall, and the counts at a place are
 * the same whoever read them. Prints one line and answers 0; or tells what was wrong and answers 1. */
#include "zonealloc_threads.h"
#include "checking.h"
#include <pthread.h>
#include <string.h>

enum { BASE = 1024, PAGES = 512, CREW = 2, READERS = 3, CALLS = 40000, KEPT = 4096 };

static const zone_spec_t specs[2] = { { BASE, PAGES, 8, 6, 3, { 'O', 'n', 'e' } }, { 4096, 64, 0, 3, 3, { 'T', 'w', 'o' } } };
static zone_row_t row;
static zone_worker_t crew[CREW];
static zone_reader_t readers[READERS];

/* The reader's reading is what the gate tells, after so many requests. */
static void reads(zone_reader_t *reader, uint32_t zone, uint64_t place)
{
    zone_reading_t told;
    zone_counts_t counts;
    CHECK(zonealloc_read(reader, &told) == ZONE_OK && zonealloc_counts(&crew[0], zone, &counts) == ZONE_OK);
    CHECK(told.place == place && told.free == counts.free);
    CHECK(memcmp(told.by_order, counts.by_order, sizeof told.by_order) == 0);
}

static void close_row(void)
{
    uint32_t i;
    for (i = 0; i < CREW; i++)
        CHECK(zonealloc_dismiss(&crew[i]) == ZONE_OK);
    CHECK(zonealloc_unmake(&row) == ZONE_OK);
}

/* Each kind of request once or more, by one thread. */
static void one_thread(void)
{
    uint32_t page, order, block, many[4], orders[4] = { 0, 0, 0, 0 };
    uint64_t n = 0;
    size_t count;
    zone_totals_t totals;
    zone_reading_t told;
    CHECK(zonealloc_make_with_boards(&row, crew, CREW, specs, 2, 4, 8) == ZONE_OK);
    CHECK(zonealloc_reader(&crew[0], 0, &readers[0]) == ZONE_OK && zonealloc_reader(&crew[1], 1, &readers[1]) == ZONE_OK);
    reads(&readers[0], 0, n);
    CHECK(zonealloc_alloc(&crew[0], 0, 3, ZONE_TYPE_MOVABLE, ZONE_LOW, &block) == ZONE_OK);
    reads(&readers[0], 0, ++n);
    /* refused by the zone: a request as any other */
    CHECK(zonealloc_alloc(&crew[0], 0, 9, ZONE_TYPE_MOVABLE, ZONE_ANY, &page) == ZONE_NO_BLOCK);
    reads(&readers[0], 0, ++n);
    /* refused before the zone: no request */
    CHECK(zonealloc_free(&crew[1], 0, block, 3) == ZONE_NOT_LENT);
    reads(&readers[0], 0, n);
    CHECK(zonealloc_post(&crew[0], 0, block, 3, 1) == ZONE_OK && zonealloc_collect(&crew[1], 0, &page, &order) == ZONE_OK);
    n += 2;
    reads(&readers[0], 0, n);
    CHECK(zonealloc_collect(&crew[1], 0, &page, &order) == ZONE_NOTHING_POSTED);
    reads(&readers[0], 0, ++n);
    CHECK(zonealloc_free(&crew[1], 0, block, 3) == ZONE_OK);
    reads(&readers[0], 0, ++n);
    CHECK(zonealloc_alloc_many(&crew[0], 0, 0, ZONE_TYPE_MOVABLE, ZONE_LOW, many, 4, &count) == ZONE_OK && count == 4);
    n += 4;
    reads(&readers[0], 0, n);
    CHECK(zonealloc_free_many(&crew[0], 0, many, 4, orders, 4, &count) == ZONE_OK && count == 4);
    n += 4;
    reads(&readers[0], 0, n);
    CHECK(zonealloc_alloc_run(&crew[0], 0, 21, 0, ZONE_LOW, &page) == ZONE_OK && zonealloc_free_run(&crew[0], 0, page, 21) == ZONE_OK);
    n += 2;
    reads(&readers[0], 0, n);
    CHECK(zonealloc_alloc_low(&crew[0], 0, 2, &page) == ZONE_OK && zonealloc_free(&crew[0], 0, page, 2) == ZONE_OK);
    n += 2;
    reads(&readers[0], 0, n);
    CHECK(zonealloc_isolate(&crew[0], 0, 2) == ZONE_OK && zonealloc_release(&crew[0], 0, 2, ZONE_TYPE_UNMOVABLE) == ZONE_OK);
    n += 2;
    reads(&readers[0], 0, n);
    CHECK(zonealloc_refill(&crew[0], 0, ZONE_TYPE_MOVABLE, ZONE_LOW) == ZONE_OK);
    reads(&readers[0], 0, ++n);
    CHECK(zonealloc_take(&crew[0], 0, ZONE_TYPE_MOVABLE, &page) == ZONE_OK && zonealloc_put(&crew[0], 0, page) == ZONE_OK);
    reads(&readers[0], 0, n);
    CHECK(zonealloc_drain_all(&crew[0], 0) == ZONE_OK);
    reads(&readers[0], 0, ++n);
    /* of the other zone nothing was asked */
    reads(&readers[1], 1, 0);
    /* a reader serves on after its worker and its row */
    CHECK(zonealloc_alloc(&crew[0], 1, 0, ZONE_TYPE_MOVABLE, ZONE_ANY, &page) == ZONE_OK);
    close_row();
    CHECK(zonealloc_read(&readers[1], &told) == ZONE_OK && told.place == 1 && told.free == 63);
    CHECK(zonealloc_gather(&row, 0, &totals) == ZONE_BAD_HANDLE);
    CHECK(zonealloc_end_reader(&readers[0]) == ZONE_OK && zonealloc_end_reader(&readers[1]) == ZONE_OK);
    CHECK(zonealloc_end_reader(&readers[0]) == ZONE_BAD_HANDLE && zonealloc_read(&readers[0], &told) == ZONE_BAD_HANDLE);
}

/* A row without boards has no readers. */
static void without(void)
{
    CHECK(zonealloc_make(&row, crew, CREW, specs, 2, 0, 0) == ZONE_OK);
    CHECK(zonealloc_reader(&crew[0], 2, &readers[0]) == ZONE_BAD_ARGUMENT);
    CHECK(zonealloc_reader(&crew[0], 0, &readers[0]) == ZONE_NO_BOARD && readers[0].live == 0);
    close_row();
    CHECK(zonealloc_reader(&crew[0], 0, &readers[0]) == ZONE_BAD_HANDLE);
}

static volatile int is_over;

/* What a reader saw: how many readings, and the counts of the first places. */
typedef struct { uint64_t readings, fell, last; uint8_t seen[KEPT]; zone_reading_t told[KEPT]; } saw_t;
static saw_t saw[READERS];

static void *reader_thread(void *number)
{
    size_t i = (size_t)(uintptr_t)number;
    saw_t *mine = &saw[i];
    zone_reading_t told;
    int ends;
    do {
        ends = is_over;
        if (zonealloc_read(&readers[i], &told) != ZONE_OK || told.place < mine->last)
            mine->fell++;
        mine->last = told.place;
        mine->readings++;
        if (told.place < KEPT) {
            mine->seen[told.place] = 1;
            mine->told[told.place] = told;
        }
    } while (!ends);
    return NULL;
}

/* Blocks of some orders come and go: each call is a request, granted or refused. */
static void *worker_thread(void *number)
{
    zone_worker_t *worker = &crew[(size_t)(uintptr_t)number];
    uint32_t pages[8], held[8] = { 0 }, i, calls = 0, bad = 0, answer;
    while (calls < CALLS) {
        i = (calls * 5u + (uint32_t)(uintptr_t)number) % 8u;
        answer = held[i] ? zonealloc_free(worker, 0, pages[i], i % 5u) : zonealloc_alloc(worker, 0, i % 5u, ZONE_TYPE_MOVABLE, ZONE_ANY, &pages[i]);
        if (answer == ZONE_BUSY)
            continue;
        bad += answer != ZONE_OK && answer != ZONE_NO_BLOCK;
        held[i] ^= answer == ZONE_OK;
        calls++;
    }
    return (void *)(uintptr_t)bad;
}

static void threads(void)
{
    pthread_t working[CREW], reading[READERS];
    uintptr_t i, j;
    uint64_t readings = 0;
    void *bad;
    zone_reading_t told;
    CHECK(zonealloc_make_with_boards(&row, crew, CREW, specs, 1, 0, 0) == ZONE_OK);
    for (i = 0; i < READERS; i++)
        CHECK(zonealloc_reader(&crew[0], 0, &readers[i]) == ZONE_OK);
    for (i = 0; i < READERS; i++)
        CHECK(pthread_create(&reading[i], NULL, reader_thread, (void *)i) == 0);
    for (i = 0; i < CREW; i++)
        CHECK(pthread_create(&working[i], NULL, worker_thread, (void *)i) == 0);
    for (i = 0; i < CREW; i++)
        CHECK(pthread_join(working[i], &bad) == 0 && bad == NULL);
    is_over = 1;
    for (i = 0; i < READERS; i++)
        CHECK(pthread_join(reading[i], NULL) == 0);
    for (i = 0; i < READERS; i++) {
        CHECK(saw[i].fell == 0 && saw[i].readings > 0);
        readings += saw[i].readings;
        /* nobody was in when the last reading was taken: it is the newest */
        CHECK(zonealloc_read(&readers[i], &told) == ZONE_OK && told.place == (uint64_t)CREW * CALLS);
        for (j = 0; j < KEPT && i > 0; j++)
            if (saw[0].seen[j] && saw[i].seen[j])
                CHECK(memcmp(&saw[0].told[j], &saw[i].told[j], sizeof told) == 0);
        CHECK(zonealloc_end_reader(&readers[i]) == ZONE_OK);
    }
    close_row();
    printf("boards: %lu readings beside %lu requests: ", (unsigned long)readings, (unsigned long)CREW * CALLS);
}

int main(void)
{
    one_thread();
    without();
    threads();
    printf("%u checks, %u failures\n", checks, failures);
    return failures == 0 ? 0 : 1;
}
