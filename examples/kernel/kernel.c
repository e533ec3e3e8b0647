/* A kernel whose pages come from the allocator (docs/kernels.md). Each processor makes requests, while its timer's handler makes others on the
 * stack that it interrupts. Each page is marked while it is out. In the end all pages add up, or FAILED is told. Words of the command line:
 *   requests=N   of each processor (the first word)        tick=N   nanoseconds between its ticks; 0: no ticks
 *   masked=1     requests are made with interrupts off; then handlers wait for a zone, as it is another processor that is in */
#include <stddef.h>
#include <stdint.h>
static void print(const char *format, const uint64_t *numbers);
static void fail(const char *what, uint64_t line);
#define PRINT(format, ...) print(format, (const uint64_t[]){ __VA_ARGS__ })
#define DEMAND(what) do { if (!(what)) fail(#what, __LINE__); } while (0)
/* What compilers and the archive call of themselves. (The machine's header is named by the Makefile.) */
void *memmove(void *to, const void *from, size_t bytes) {
    volatile uint8_t *at = to;
    const uint8_t *next = from;
    size_t i;
    for (i = 0; i < bytes && at <= next; i++) at[i] = next[i];
    for (; bytes > i; bytes--) at[bytes - 1] = next[bytes - 1];
    return to;
}
void *memcpy(void *to, const void *from, size_t bytes) { return memmove(to, from, bytes); }
void *memset(void *to, int value, size_t bytes) {
    volatile uint8_t *at = to;
    while (bytes-- > 0) *at++ = (uint8_t)value;
    return to;
}
int memcmp(const void *one, const void *other, size_t bytes) {
    const volatile uint8_t *a = one, *b = other;
    for (; bytes > 0 && *a == *b; bytes--) a++, b++;
    return bytes > 0 ? *a - *b : 0;
}
#include MACHINE_HEADER
#define ZONEALLOC_REST(hints) do { uint32_t left = (hints); while (left-- > 0) pause(); } while (0)
#include "zonealloc_threads.h"
#include "zonealloc_memory.h"

/* Workers: of each processor's requests, of each one's handler, and of what stays out. */
enum { KEEPER = 2 * PROCESSORS, WORKERS, LIVE = 1024, BLOCKS = LIVE + 16, BATCH = 31, HIGH_LEN = 62, MEBI = 256 };
typedef struct block { uint32_t zone, page, order; } block_t;           /* none: page 0, which is never handed out */
typedef struct processor {
    struct processor *self;
    uint32_t number, refused, posted, collected, ticks, tick_done, tick_busy, tick_refused;
    uint64_t random;
    block_t blocks[BLOCKS];                                             /* that it has; the last are its handler's */
} processor_t;
static processor_t processors[PROCESSORS];
static uint32_t n_processors, n_zones, requests, tick_length, is_masked, kept_out[3];
static uint32_t tables, n_done, n_off;
static zone_spec_t zones[3];
static zone_pool_t pool;
static uint64_t heap_from, heap_next, heap_to, heap_blocks;

/* --- the console, and the archive's memory --- */
/* %u: a number, %x: one in hexadecimal. */
static void print(const char *format, const uint64_t *numbers) {
    char digits[20];
    uint64_t it, n, base;
    for (; *format; format++) {
        if (*format != '%') { print_byte(*format); continue; }
        base = *++format == 'x' ? 16 : 10;
        for (it = *numbers++, n = 0; n == 0 || it != 0; it /= base) digits[n++] = "0123456789abcdef"[it % base];
        while (n != 0) print_byte(digits[--n]);
    }
}
static void fail(const char *what, uint64_t line) {
    PRINT("FAILED: line %u: ", line);
    print(what, NULL);
    end(1);
}
/* The archive's memory: of a part that is set apart, each block once. */
rattle_memory_t rattle_alloc(size_t bytes, size_t align) {
    uint64_t at = (heap_next + align - 1) / align * align;
    int is_room = at + bytes <= heap_to;
    if (is_room) { heap_next = at + bytes; heap_blocks++; }
    return (rattle_memory_t){ is_room, (void *)at };
}
void rattle_dealloc(void *at) { heap_blocks -= at != NULL; }

/* --- which pages may be handed out, and those that may not --- */
static int is_in(uint64_t page, uint64_t from, uint64_t to) { return from <= page && page < to; }
/* Memory, but for page 0, the kernel and the heap. */
static int is_ours(uint64_t page) {
    uint32_t i;
    int is_memory = 0;
    for (i = 0; i < n_ranges; i++)
        if (is_in(page, ranges[i].from, ranges[i].to) && !(is_memory = ranges[i].is_memory)) return 0;
    return is_memory && page != 0 && !is_in(page, KERNEL_FROM, KERNEL_TO) && !is_in(page * PAGE + ALL, heap_from, heap_to);
}
/* As Linux cuts them: below 16 MiB, below 4 GiB, above; up to the last page that is ours. */
static void cut_zones(void) {
    static const zone_spec_t kinds[] = { { 16 * MEBI, 0, 0, 10, 3, "DMA" }, { 4096 * MEBI, 0, 0, 10, 5, "DMA32" }, { 1 << 24, 0, 0, 10, 6, "Normal" } };
    uint64_t page = 0, first, after;
    uint32_t i;
    for (i = 0; i < 3; i++) {
        for (first = after = 0; page < kinds[i].base && page < memory_end; page++)
            if (is_ours(page)) { first = after == 0 ? page : first; after = page + 1; }
        if (after == 0) continue;
        zones[n_zones] = kinds[i];
        zones[n_zones].base = (uint32_t)(first / 1024 * 1024);
        zones[n_zones].pages = (uint32_t)after - zones[n_zones].base;
        zones[n_zones].min = zones[n_zones].pages / 256;
        n_zones++;
    }
}
/* Keeps pages of a zone from being handed out: they are lent for good. Nobody has asked for pages yet. */
static void reserve(uint32_t zone, uint32_t from, uint32_t to) {
    DEMAND(zonealloc_alloc_run_at(&pool.seats[KEEPER].worker, zone, from, to - from) == ZONE_OK);
    kept_out[zone] += to - from;
}
/* The zones, over the highest memory below 4 GiB that the archive finds enough. */
static void make_zones(void) {
    uint64_t bytes, run, heap = 4096 * MEBI;
    uint32_t zone, page, to, end;
    cut_zones();
    DEMAND(zonealloc_bytes(zones, n_zones, WORKERS, &bytes) == ZONE_OK);
    for (run = 0; run * PAGE < bytes + 16 * PAGE; run = is_ours(heap) ? run + 1 : 0) DEMAND(heap-- != 0);      /* (16: alignments) */
    heap_next = heap_from = heap * PAGE + ALL;
    heap_to = heap_from + run * PAGE;
    PRINT("%u processors; kernel: pages %x-%x; heap: pages %x-%x\n", n_processors, KERNEL_FROM, KERNEL_TO, heap, heap + run);
    DEMAND(zone_pool_make(&pool, WORKERS, zones, n_zones, BATCH, HIGH_LEN) == ZONE_OK);
    for (zone = 0; zone < n_zones; zone++)
        for (page = zones[zone].base, end = page + zones[zone].pages; page < end; page = to) {
            for (to = page + 1; to < end && is_ours(to) == is_ours(page); to++) ;
            if (!is_ours(page)) reserve(zone, page, to);
        }
}

/* --- page tables, of pages that are handed out --- */
static uint32_t new_table(void) {
    uint32_t page, zone = n_zones > 1;                                  /* (the first tables lead to 4 GiB) */
    DEMAND(zone_alloc_pages(&pool, KEEPER, 0, ZONE_TYPE_UNMOVABLE, ZONE_LOW, &zone, &page) == ZONE_OK);
    kept_out[zone]++;
    memset(address_of(page), 0, PAGE);
    return page;
}
static void make_tables(void) {
    uint32_t top = new_table(), middle = new_table(), table = 0;
    uint64_t *of_top = address_of(top), *of_middle = address_of(middle), i;
    for (i = 0; i < 4 * 512 || i * 512 < memory_end; i++) {
        if (i % 512 == 0) { table = new_table(); of_middle[i / 512] = TABLE(table); }
        ((uint64_t *)address_of(table))[i % 512] = LEAF(i * 512);
    }
    of_middle[510] = of_middle[KERNEL_GIBI];
    of_top[256] = of_top[511] = TABLE(middle);
    PRINT("%u tables of pages handed out, for %u GiB\n", (i + 511) / 512 + 2, (i + 511) / 512);
    __atomic_store_n(&tables, top, __ATOMIC_RELEASE);
}

/* --- blocks: their pages are marked while they are out, and nobody else has one --- */
#define MARK(page) (0x5eed0000ull << 32 | (page))
static void mark(block_t block, int is_out) {
    uint32_t page;
    for (page = block.page; page < block.page + (1u << block.order); page++) {
        uint64_t *at = address_of(page), *last = at + PAGE / 8 - 1;
        DEMAND(is_ours(page) && (is_out || *last == MARK(block.page)));
        DEMAND((__atomic_exchange_n(at, is_out ? MARK(page) : 0, __ATOMIC_ACQ_REL) == MARK(page)) == !is_out);
        *last = is_out ? MARK(block.page) : 0;
    }
}
/* Who may not wait makes each call once. */
static uint32_t take(uint32_t seat, block_t *block, uint32_t order, uint32_t type, int waits) {
    zone_worker_t *worker = &pool.seats[seat].worker;
    uint32_t answer;
    *block = (block_t){ n_zones - 1, 0, order };
    if (waits) answer = zone_alloc_pages(&pool, seat, order, type, ZONE_LOW, &block->zone, &block->page);
    else if (order != 0) answer = zonealloc_alloc(worker, block->zone, order, type, ZONE_MIN, &block->page);
    else {
        answer = zonealloc_take(worker, block->zone, type, &block->page);
        if (answer == ZONE_LIST_EMPTY) answer = zonealloc_refill(worker, block->zone, type, ZONE_MIN);
        if (answer == ZONE_OK && block->page == 0) answer = zonealloc_take(worker, block->zone, type, &block->page);
    }
    DEMAND(answer == ZONE_OK || zone_has_none(answer) || (answer == ZONE_BUSY && !waits));
    if (answer == ZONE_OK) mark(*block, 1);
    return answer;
}
static uint32_t give(uint32_t seat, block_t *block, int waits) {
    zone_worker_t *worker = &pool.seats[seat].worker;
    uint32_t answer = ZONE_LIST_FULL;
    mark(*block, 0);
    if (waits) answer = zone_free_pages(&pool, seat, block->zone, block->page, block->order);
    else if (block->order == 0) answer = zonealloc_put(worker, block->zone, block->page);
    if (answer == ZONE_LIST_FULL) answer = zonealloc_free(worker, block->zone, block->page, block->order);
    DEMAND(answer == ZONE_OK || (answer == ZONE_BUSY && !waits));
    if (answer == ZONE_OK) block->page = 0;
    else mark(*block, 1);
    return answer;
}

/* --- requests --- */
static void collect(processor_t *own) {
    uint32_t answer;
    block_t it;
    for (it.zone = 0; it.zone < n_zones; it.zone += answer == ZONE_NOTHING_POSTED) {
        ZONE_ASK(&pool, it.zone, answer, zonealloc_collect(&pool.seats[own->number].worker, it.zone, &it.page, &it.order));
        DEMAND(answer == ZONE_NOTHING_POSTED || (answer == ZONE_OK && give(own->number, &it, 1) == ZONE_OK && ++own->collected != 0));
    }
}
/* A block is taken, or given back, or one in 16 is posted to the next processor. Half are single pages, of the others half of order 0, and so on. */
static void request(processor_t *own) {
    uint64_t random = own->random;
    block_t *block = &own->blocks[random % LIVE];
    uint32_t order = random >> 16 & 1 ? 0 : (uint32_t)__builtin_ctzll(random >> 17 | 1 << 10), answer;
    random ^= random << 13;
    random ^= random >> 7;
    own->random = random ^= random << 17;
    if ((random >> 20 & 63) == 0) collect(own);
    if (block->page == 0) own->refused += take(own->number, block, order, (random >> 32) % 3, 1) != ZONE_OK;
    else if (random >> 40 & 15) give(own->number, block, 1);
    else {
        ZONE_ASK(&pool, block->zone, answer, zonealloc_post(&pool.seats[own->number].worker, block->zone, block->page, block->order,
                                                            (own->number + 1) % n_processors));
        DEMAND(answer == ZONE_OK && ++own->posted != 0);
        block->page = 0;
    }
}
/* The timer's handler. It may have interrupted what is in a zone: told ZONE_BUSY, it leaves the block to another tick. */
void tick(void) {
    processor_t *own = get_own();
    uint32_t seat = PROCESSORS + own->number, answer;
    block_t *block = &own->blocks[LIVE + own->ticks++ % (BLOCKS - LIVE)];
    end_interrupt();
    answer = block->page != 0 ? give(seat, block, is_masked) : take(seat, block, own->ticks % 4 == 0 ? 2 : 0, ZONE_TYPE_UNMOVABLE, is_masked);
    own->tick_done += answer == ZONE_OK;
    own->tick_busy += answer == ZONE_BUSY;
    own->tick_refused += zone_has_none(answer);
}
static void work(processor_t *own) {
    uint32_t i;
    use_tables(tables);
    set_timer(tick_length);
    interrupts_on();
    for (i = 0; i < requests; i++) {
        if (is_masked) interrupts_off();
        request(own);
        interrupts_on();
    }
    __atomic_add_fetch(&n_done, 1, __ATOMIC_ACQ_REL);
    while (__atomic_load_n(&n_done, __ATOMIC_ACQUIRE) < n_processors) pause();      /* (its handler goes on until the last is done) */
    interrupts_off();
    __atomic_add_fetch(&n_off, 1, __ATOMIC_ACQ_REL);
}

/* --- sums --- */
/* Each page of a zone is free, posted, on a list, or out, as the kernel knows. */
static void add_up(void) {
    uint32_t zone, i, k, pages, cached, out;
    uint8_t line[ZONE_INFO_LINE + 1];
    zone_counts_t counts;
    size_t bytes;
    for (zone = 0; zone < n_zones; zone++) {
        for (cached = i = 0; i < WORKERS * ZONE_TYPES; i++, cached += pages)
            DEMAND(zonealloc_cached(&pool.seats[i / ZONE_TYPES].worker, zone, i % ZONE_TYPES, &pages) == ZONE_OK);
        for (out = kept_out[zone], i = 0; i < n_processors; i++)
            for (k = 0; k < BLOCKS; k++)
                if (processors[i].blocks[k].page != 0 && processors[i].blocks[k].zone == zone) out += 1u << processors[i].blocks[k].order;
        DEMAND(zonealloc_info(&pool.seats[KEEPER].worker, zone, line, ZONE_INFO_LINE, &bytes) == ZONE_OK);
        line[bytes] = 0;
        print((const char *)line, NULL);
        DEMAND(zone_pool_counts(&pool, KEEPER, zone, &counts) == ZONE_OK);
        PRINT("zone %u: free %u cached %u posted %u out %u of %u pages\n", zone, counts.free, cached, counts.posted, out, zones[zone].pages);
        DEMAND(counts.free + cached + counts.posted + out == zones[zone].pages);
    }
}
/* What is out goes back, then the lists, then the workers. */
static void end_zones(void) {
    zone_totals_t totals;
    uint32_t i, k;
    for (i = 0; i < n_processors; i++) {
        collect(&processors[i]);
        for (k = 0; k < BLOCKS; k++)
            if (processors[i].blocks[k].page != 0) give(k < LIVE ? i : PROCESSORS + i, &processors[i].blocks[k], 1);
    }
    for (i = 0; i < WORKERS * n_zones; i++) DEMAND(zonealloc_drain_all(&pool.seats[i / n_zones].worker, i % n_zones) == ZONE_OK);
    add_up();
    for (i = 0; i < WORKERS; i++) DEMAND(zone_pool_dismiss(&pool, i) == ZONE_OK);
    for (i = 0; i < n_zones; i++) {
        DEMAND(zone_pool_gather(&pool, i, &totals) == ZONE_OK && totals.posted == 0 && totals.cached == 0);
        DEMAND(totals.lent == kept_out[i] && totals.free == zones[i].pages - kept_out[i]);
    }
    DEMAND(zone_pool_unmake(&pool) == ZONE_OK && heap_blocks == 0);
}

/* --- begin and end, of the first processor; the others wait for its tables --- */
/* The number behind a name on the command line. */
static uint32_t word(const char *name, size_t len, uint32_t otherwise) {
    const char *at = words;
    uint32_t number = 0;
    while (*at && memcmp(at, name, len) != 0) at++;
    if (!*at) return otherwise;
    for (at += len; *at >= '0' && *at <= '9'; at++) number = number * 10 + (uint32_t)(*at - '0');
    return number;
}
void enter_c(uint32_t how, uint64_t told, uint32_t number) {
    processor_t *own = &processors[number];
    own->self = own;
    own->number = number;
    own->random = 0x9e3779b97f4a7c15u + number;
    set_own(own);
    use_gates();
    if (number == 0) {
        read_start(how, told);
        requests = word("requests=", 9, 1000000);
        tick_length = word("tick=", 5, 320000);
        is_masked = word("masked=", 7, 0);
        n_processors = start_others();
        make_zones();
        add_up();
        make_tables();
    }
    while (__atomic_load_n(&tables, __ATOMIC_ACQUIRE) == 0) pause();
    work(own);
    if (number != 0) return;
    while (__atomic_load_n(&n_off, __ATOMIC_ACQUIRE) < n_processors) pause();
    add_up();
    for (own = processors; own < processors + n_processors; own++) {
        PRINT("processor %u: requests %u refused %u posted %u collected %u; ", own->number, requests, own->refused, own->posted, own->collected);
        for (number = 0; stacks[own->number * STACK + number] == 0;) number++;
        PRINT("ticks %u done %u busy %u refused %u; stack %u\n", own->ticks, own->tick_done, own->tick_busy, own->tick_refused, STACK - number);
    }
    end_zones();
    print("all pages add up\n", NULL);
    end(0);
}
