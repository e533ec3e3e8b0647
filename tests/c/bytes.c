/* bytes [MAKINGS [SEED]]: so many makings, of rows picked by the seed: what zonealloc_bytes told of each is no less than all that was asked for
 * until it was made, and without boards at most a twentieth more than the most that was in use at a time. Rows of one zone and of 64, of one page and of a million, of each largest
 * order, with one worker and with 32, with lists and without, with boards and without. Prints one line and answers 0; or tells what was wrong and answers 1. */
#include "zonealloc.h"
#include "checking.h"
#include "counted_memory.h"
#include <inttypes.h>

enum { MOST_PAGES = 1 << 20, MOST_OF_A_ROW = 1 << 22 };

static zone_spec_t specs[ZONE_ZONES];
static zone_row_t row;
static zone_worker_t workers[ZONE_WORKERS];
static uint64_t state;
static double worst = 1, sum;

static uint32_t below(uint32_t n)
{
    state = state * 6364136223846793005u + 1442695040888963407u;
    return (uint32_t)(((state >> 33) * n) >> 31);
}

/* As often small as large. */
static uint32_t some_pages(void)
{
    uint32_t most = 1u << below(21);
    return most < MOST_PAGES ? most + below(most) : most;
}

static uint32_t some_zones(void)
{
    uint32_t zones = below(8) == 0 ? 1 + below(ZONE_ZONES) : 1 + below(4), i, base = 0, all = 0;
    for (i = 0; i < zones && all < MOST_OF_A_ROW; i++) {
        const zone_spec_t spec = { base, some_pages(), 0, 1 + below(10), 4, { 'Z', 'o', 'n', 'e' } };
        specs[i] = spec;
        all += spec.pages;
        base = (base + spec.pages + 1023) / 1024 * 1024;
    }
    return i;
}

static void tell(uint32_t zones, uint32_t n_workers, uint32_t batch, uint64_t bytes)
{
    uint32_t i;
    printf("%" PRIu32 " workers, batch %" PRIu32 ": %" PRIu64 " told, %" PRIu64 " asked for, %" PRIu64 " in use at most\n",
           n_workers, batch, bytes, taken, most_in_use);
    for (i = 0; i < zones; i++)
        printf("  zone %" PRIu32 ": pages %" PRIu32 ", largest %" PRIu32 "\n", i, specs[i].pages, specs[i].largest);
}

static void make_one(uint32_t making)
{
    uint32_t zones = some_zones(), n_workers = making % 4 == 0 ? 1 + below(ZONE_WORKERS) : 1 + below(4), batch = below(2) * 31, i;
    uint64_t bytes = 0;
    CHECK(zonealloc_bytes(specs, zones, n_workers, &bytes) == ZONE_OK);
    most_in_use = taken = 0;
    if (making % 3 == 0) {
        bytes += (uint64_t)zones * ZONE_BOARD_BYTES;
        CHECK(zonealloc_make_with_boards(&row, workers, n_workers, specs, zones, batch, 2 * batch) == ZONE_OK);
    } else
        CHECK(zonealloc_make(&row, workers, n_workers, specs, zones, batch, 2 * batch) == ZONE_OK);
    CHECK(taken <= bytes);
    CHECK(bytes <= most_in_use + most_in_use / 20 || making % 3 == 0);
    if (failures != 0)
        tell(zones, n_workers, batch, bytes);
    worst = (double)bytes / (double)most_in_use > worst ? (double)bytes / (double)most_in_use : worst;
    sum += (double)bytes / (double)most_in_use;
    for (i = 0; i < n_workers; i++)
        CHECK(zonealloc_dismiss(&workers[i]) == ZONE_OK);
    CHECK(zonealloc_unmake(&row) == ZONE_OK && in_use == 0);
}

int main(int argc, char **argv)
{
    uint32_t makings = argc > 1 ? (uint32_t)strtoul(argv[1], NULL, 10) : 200, i;
    state = argc > 2 ? strtoull(argv[2], NULL, 10) : 1;
    for (i = 0; i < makings && failures == 0; i++)
        make_one(i);
    printf("bytes: %" PRIu32 " makings, told %.3f times what was in use, %.3f at most: %u checks, %u failures\n", i, sum / i, worst,
           checks, failures);
    return failures == 0 ? 0 : 1;
}
