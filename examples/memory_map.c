/* The memory maps of five machines, as firmware tells them, each as zones over the whole span with holes and all: a worker that keeps them takes
 * the pages that may never be handed out, and the kernel's image. Later it frees parts of the image, which wants them no more, and at last a part
 * of memory is taken out, as if it were unplugged, and put back. Whatever is free is asked for: no page is lost, and none is handed out that is not
 * there. Prints what adds up, and answers 0. */
#include "zonealloc.h"
#include <stdio.h>
#include <string.h>

enum { PAGE = 4096, PAGEBLOCK = 1024, MOST_PAGES = 1 << 24, ENTRIES = 32, MACHINES = 5 };
enum { IMAGE = 4096, IMAGE_PAGES = 11000, INIT = IMAGE + 8000, INIT_PAGES = 2500, REMOVED = 16, HELD = 37 };
enum { KEEPER, USER, CREW };

/* From a byte on, up to another. What is not usable is the firmware's, a device's, or broken: all the same here. */
enum { USABLE = 1, TAKEN = 2 };
typedef struct { uint64_t from, to; uint32_t kind; } entry_t;
typedef struct { const char *name; entry_t entries[ENTRIES]; } machine_t;

static const machine_t machines[MACHINES] = {
    { "virtual machine of 512 MiB", {
        { 0x0, 0x9fc00, USABLE }, { 0x9fc00, 0xa0000, TAKEN }, { 0xf0000, 0x100000, TAKEN }, { 0x100000, 0x1ffe0000, USABLE },
        { 0x1ffe0000, 0x20000000, TAKEN }, { 0xfffc0000, 0x100000000, TAKEN }
    } },
    { "virtual machine of 4 GiB, a quarter of it above the devices", {
        { 0x0, 0x9fc00, USABLE }, { 0x9fc00, 0xa0000, TAKEN }, { 0xf0000, 0x100000, TAKEN }, { 0x100000, 0xbffe0000, USABLE },
        { 0xbffe0000, 0xc0000000, TAKEN }, { 0xfeffc000, 0xff000000, TAKEN }, { 0xfffc0000, 0x100000000, TAKEN },
        { 0x100000000, 0x140000000, USABLE }
    } },
    { "laptop of 16 GiB", {
        { 0x0, 0x1000, TAKEN }, { 0x1000, 0x58000, USABLE }, { 0x58000, 0x59000, TAKEN }, { 0x59000, 0x9e000, USABLE },
        { 0x9e000, 0x100000, TAKEN }, { 0x100000, 0x40000000, USABLE }, { 0x40000000, 0x40400000, TAKEN }, { 0x40400000, 0x4c0f8000, USABLE },
        { 0x4c0f8000, 0x4c123000, TAKEN }, { 0x4c123000, 0x4f9a1000, USABLE }, { 0x4f9a1000, 0x4f9cc000, TAKEN },
        { 0x4f9cc000, 0x55d39000, USABLE }, { 0x55d39000, 0x56f3d000, TAKEN }, { 0x56f3d000, 0x6a6c7000, USABLE },
        { 0x6a6c7000, 0x6bbff000, TAKEN }, { 0x6bbff000, 0x6bc00000, USABLE }, { 0x6bc00000, 0x70000000, TAKEN },
        { 0xe0000000, 0xf0000000, TAKEN }, { 0xfd000000, 0xfe800000, TAKEN }, { 0xfec00000, 0xfec01000, TAKEN },
        { 0xfed00000, 0xfed04000, TAKEN }, { 0xfed10000, 0xfed1a000, TAKEN }, { 0xfed84000, 0xfed85000, TAKEN },
        { 0xfee00000, 0xfee01000, TAKEN }, { 0xff800000, 0x100000000, TAKEN }, { 0x100000000, 0x48e800000, USABLE },
        { 0x48e800000, 0x490000000, TAKEN }
    } },
    { "server of two times 128 GiB", {
        { 0x0, 0x9a000, USABLE }, { 0x9a000, 0xa0000, TAKEN }, { 0xe0000, 0x100000, TAKEN }, { 0x100000, 0x60c46000, USABLE },
        { 0x60c46000, 0x60f46000, TAKEN }, { 0x60f46000, 0x6a2c9000, USABLE }, { 0x6a2c9000, 0x6f800000, TAKEN },
        { 0x6f800000, 0x70000000, USABLE }, { 0x70000000, 0x90000000, TAKEN }, { 0xfd000000, 0xfe800000, TAKEN },
        { 0xfed20000, 0xfed45000, TAKEN }, { 0xff000000, 0x100000000, TAKEN }, { 0x100000000, 0x2080000000, USABLE },
        { 0x2080000000, 0x407ff80000, USABLE }, { 0x407ff80000, 0x4080000000, TAKEN }
    } },
    { "EFI machine of 32 GiB", {
        { 0x0, 0x87000, USABLE }, { 0x87000, 0x88000, TAKEN }, { 0x88000, 0xa0000, USABLE }, { 0x100000, 0x2000000, USABLE },
        { 0x2000000, 0x2a00000, USABLE }, { 0x2a00000, 0x5e5c3000, USABLE }, { 0x5e5c3000, 0x5e5d1000, TAKEN },
        { 0x5e5d1000, 0x5f0d4000, USABLE }, { 0x5f0d4000, 0x5f1a6000, TAKEN }, { 0x5f1a6000, 0x5f42e000, USABLE },
        { 0x5f42e000, 0x5f530000, TAKEN }, { 0x5f530000, 0x61f18000, USABLE }, { 0x61f18000, 0x61f9b000, TAKEN },
        { 0x61f9b000, 0x63cb2000, USABLE }, { 0x63cb2000, 0x63e02000, TAKEN }, { 0x63e02000, 0x6504a000, USABLE },
        { 0x6504a000, 0x65060000, TAKEN }, { 0x65060000, 0x6a411000, USABLE }, { 0x6a411000, 0x6c5ff000, TAKEN },
        { 0x6c5ff000, 0x6c600000, USABLE }, { 0x6c600000, 0x70800000, TAKEN }, { 0xe0000000, 0xf0000000, TAKEN },
        { 0xfe000000, 0xfe011000, TAKEN }, { 0xfec00000, 0xfec01000, TAKEN }, { 0xfee00000, 0xfee01000, TAKEN },
        { 0xff000000, 0x100000000, TAKEN }, { 0x100000000, 0x88f800000, USABLE }
    } }
};

static unsigned wrong;
static zone_row_t row;
static zone_worker_t crew[CREW];

/* What a machine comes to, in pages. */
typedef struct { uint32_t zones, pages, usable, holes, reserved, image, freed, removed; } sums_t;

static void demand(int good, const char *what, int line)
{
    if (good)
        return;
    wrong++;
    printf("line %d: %s\n", line, what);
}
#define DEMAND(what) demand((what), #what, __LINE__)

/* --- the map, by pages --- */

/* A page is usable where all of it is, and no page of which a part is taken is. */
static uint64_t first_of(const entry_t *entry)
{
    return (entry->from + (entry->kind == USABLE ? PAGE - 1 : 0)) / PAGE;
}

static uint64_t end_of(const entry_t *entry)
{
    return (entry->to + (entry->kind == USABLE ? 0 : PAGE - 1)) / PAGE;
}

static int is_usable(const machine_t *machine, uint64_t page)
{
    const entry_t *entry;
    int found = 0;
    for (entry = machine->entries; entry->to != 0; entry++)
        if (first_of(entry) <= page && page < end_of(entry)) {
            if (entry->kind != USABLE)
                return 0;
            found = 1;
        }
    return found;
}

/* The first page after this one at which a range begins or ends. */
static uint64_t next_bound(const machine_t *machine, uint64_t page, uint64_t end)
{
    const entry_t *entry;
    for (entry = machine->entries; entry->to != 0; entry++) {
        if (first_of(entry) > page && first_of(entry) < end)
            end = first_of(entry);
        if (end_of(entry) > page && end_of(entry) < end)
            end = end_of(entry);
    }
    return end;
}

/* The first page after this one of which it is not the same whether it is usable. */
static uint64_t next_change(const machine_t *machine, uint64_t page, uint64_t end)
{
    uint64_t next = page;
    do
        next = next_bound(machine, next, end);
    while (next < end && is_usable(machine, next) == is_usable(machine, page));
    return next;
}

static uint64_t end_of_usable(const machine_t *machine)
{
    const entry_t *entry;
    uint64_t end = 0;
    for (entry = machine->entries; entry->to != 0; entry++)
        if (entry->kind == USABLE && end_of(entry) > end)
            end = end_of(entry);
    return end;
}

/* --- a zone --- */

static uint32_t free_pages(void)
{
    zone_counts_t counts;
    memset(&counts, 0, sizeof counts);
    DEMAND(zonealloc_counts(&crew[USER], 0, &counts) == ZONE_OK);
    return counts.free;
}

/* Takes each hole from here to there. How many pages are usable. */
static uint32_t take_holes(const machine_t *machine, uint32_t from, uint32_t end, sums_t *sums)
{
    uint32_t page, to, usable = 0;
    for (page = from; page < end; page = to) {
        to = (uint32_t)next_change(machine, page, end);
        if (is_usable(machine, page)) {
            usable += to - page;
            continue;
        }
        DEMAND(zonealloc_alloc_run_at(&crew[KEEPER], 0, page, to - page) == ZONE_OK);
        sums->holes++;
        sums->reserved += to - page;
    }
    return usable;
}

/* Each usable range can be had as it is, but for the image, and not a page more at its ends. */
static void ask_for_all(const machine_t *machine, uint32_t from, uint32_t end)
{
    uint32_t page, to, free = free_pages();
    for (page = from; page < end; page = to) {
        int has_image;
        to = (uint32_t)next_change(machine, page, end);
        if (!is_usable(machine, page))
            continue;
        has_image = page < IMAGE + IMAGE_PAGES && to > IMAGE;
        DEMAND(zonealloc_alloc_run_at(&crew[USER], 0, page, to - page) == (has_image ? ZONE_NOT_FREE : ZONE_OK));
        DEMAND(has_image || zonealloc_free_run(&crew[USER], 0, page, to - page) == ZONE_OK);
        DEMAND(to == end || zonealloc_alloc_run_at(&crew[USER], 0, to - 1, 2) == ZONE_NOT_FREE);
    }
    DEMAND(free_pages() == free);
}

/* The kernel's image. What only its beginning wanted is freed later, in parts. */
static void take_image(sums_t *sums)
{
    uint32_t free = free_pages(), part, page;
    DEMAND(zonealloc_alloc_run_at(&crew[KEEPER], 0, IMAGE, IMAGE_PAGES) == ZONE_OK);
    sums->image += IMAGE_PAGES;
    DEMAND(free_pages() == free - IMAGE_PAGES);
    for (page = INIT; page < INIT + INIT_PAGES; page += part) {
        part = (INIT + INIT_PAGES - page + 2) / 3;
        DEMAND(zonealloc_free_run(&crew[KEEPER], 0, page, part) == ZONE_OK);
        sums->freed += part;
    }
    DEMAND(free_pages() == free - IMAGE_PAGES + INIT_PAGES);
    DEMAND(zonealloc_free_run(&crew[USER], 0, IMAGE, 1) == ZONE_NOT_LENT);
}

/* The last whole pageblocks of a zone, all of whose pages are usable: nothing is chosen from them any more, what is lent there is moved away, and
 * then they are taken. After that they come back. */
static void unplug(uint32_t base, uint32_t from, uint32_t end, sums_t *sums)
{
    uint32_t pages = REMOVED * PAGEBLOCK, last = end / PAGEBLOCK * PAGEBLOCK, first = last - pages, free = free_pages(), block, other = 0;
    if (last < from + pages)
        return;
    DEMAND(zonealloc_alloc_run_at(&crew[USER], 0, first + 100, HELD) == ZONE_OK);
    for (block = first; block < last; block += PAGEBLOCK)
        DEMAND(zonealloc_isolate(&crew[KEEPER], 0, (block - base) / PAGEBLOCK) == ZONE_OK);
    DEMAND(zonealloc_alloc_run_at(&crew[KEEPER], 0, first, pages) == ZONE_NOT_FREE);
    DEMAND(zonealloc_alloc_run(&crew[USER], 0, HELD, 0, ZONE_LOW, &other) == ZONE_OK && (other + HELD <= first || other >= last));
    DEMAND(zonealloc_free_run(&crew[USER], 0, first + 100, HELD) == ZONE_OK);
    DEMAND(zonealloc_alloc_run_at(&crew[KEEPER], 0, first, pages) == ZONE_OK);
    DEMAND(free_pages() == free - pages - HELD);
    sums->removed += pages;
    DEMAND(zonealloc_free_run(&crew[KEEPER], 0, first, pages) == ZONE_OK);
    for (block = first; block < last; block += PAGEBLOCK)
        DEMAND(zonealloc_release(&crew[KEEPER], 0, (block - base) / PAGEBLOCK, ZONE_TYPE_MOVABLE) == ZONE_OK);
    DEMAND(zonealloc_free_run(&crew[USER], 0, other, HELD) == ZONE_OK && free_pages() == free);
}

/* In the end nothing but what is kept is lent. */
static void end_zone(uint32_t pages, uint32_t kept)
{
    zone_totals_t totals;
    memset(&totals, 0, sizeof totals);
    DEMAND(zonealloc_dismiss(&crew[KEEPER]) == ZONE_OK && zonealloc_dismiss(&crew[USER]) == ZONE_OK);
    DEMAND(zonealloc_gather(&row, 0, &totals) == ZONE_OK && totals.lent == kept && totals.free == pages - kept);
    DEMAND(zonealloc_unmake(&row) == ZONE_OK);
}

static void run_zone(const machine_t *machine, uint32_t base, uint32_t pages, sums_t *sums)
{
    zone_spec_t spec = { 0, 0, 0, 10, 6, "Normal" };
    uint32_t end = base + pages, usable, before = sums->reserved, kept;
    spec.base = base;
    spec.pages = pages;
    if (zonealloc_make(&row, crew, CREW, &spec, 1, 0, 0) != ZONE_OK) {
        DEMAND(!"there is memory for the zone");
        return;
    }
    usable = take_holes(machine, base, end, sums);
    kept = sums->reserved - before;
    DEMAND(free_pages() == usable && usable + kept == pages);
    if (base == 0) {
        take_image(sums);
        kept += IMAGE_PAGES - INIT_PAGES;
    }
    ask_for_all(machine, base, end);
    unplug(base, base == 0 ? IMAGE + IMAGE_PAGES : base, end, sums);
    sums->zones++;
    sums->pages += pages;
    sums->usable += usable;
    end_zone(pages, kept);
}

/* One zone over all of it, or where that is more than one can have, several. They are made one after the other, to save memory. */
static void run_machine(const machine_t *machine)
{
    sums_t sums;
    uint64_t end = end_of_usable(machine), base, pages;
    memset(&sums, 0, sizeof sums);
    for (base = 0; base < end; base += pages) {
        pages = end - base;
        if (pages > MOST_PAGES)
            pages = MOST_PAGES;
        run_zone(machine, (uint32_t)base, (uint32_t)pages, &sums);
    }
    DEMAND(sums.pages == end && sums.usable + sums.reserved == sums.pages);
    printf("%s\n  zones %u, pages %u: usable %u, reserved %u, in so many holes: %u\n", machine->name, (unsigned)sums.zones, (unsigned)sums.pages,
           (unsigned)sums.usable, (unsigned)sums.reserved, (unsigned)sums.holes);
    printf("  of the image %u, of which freed later %u; taken out and put back %u\n", (unsigned)sums.image, (unsigned)sums.freed,
           (unsigned)sums.removed);
}

int main(void)
{
    size_t i;
    for (i = 0; i < MACHINES; i++)
        run_machine(&machines[i]);
    printf("%s\n", wrong == 0 ? "all pages add up" : "pages do not add up");
    return wrong != 0;
}
