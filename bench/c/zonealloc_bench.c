/* zonealloc_bench WAY [ROUNDS [SEED]]: nanoseconds a call, the shortest of so many rounds, a line for each workload. WAY is
 *     zone      zonealloc_alloc and zonealloc_free
 *     lists     zone_alloc_pages and zone_free_pages of zonealloc_threads.h, with lists of 31 pages, at most 62
 *     malloc    aligned_alloc(4096 << order, 4096 << order) and free, of whatever allocator the process has
 *     calls     take and put on the worker's own list; is_lent, which has no gate to pass, beside a reading of a page, which has
 * The workloads are the same steps for each way, picked by the seed, with the same blocks lent. No way touches the memory of a block. */
#define _POSIX_C_SOURCE 200112L
#define _ISOC11_SOURCE
#include "zonealloc_threads.h"
#include <inttypes.h>
#include <pthread.h>
#include <stdio.h>
#include <stdlib.h>
#include <string.h>
#include <time.h>

enum { PAGES = 65536, MOST_STEPS = 1 << 20, STEPS = 1 << 18, CREW = 4 };
typedef enum { ZONE, LISTS, MALLOC, CALLS } way_t;

/* A step takes a block of an order into a slot, or gives back the one that is in it. The first steps fill, and are not timed. */
typedef struct { uint32_t slot; uint16_t order, gives; } step_t;
typedef struct { step_t steps[MOST_STEPS]; uint32_t len, filled; } script_t;
static script_t script;

static zone_pool_t pool;
static uintptr_t slots[CREW][PAGES];
static uint64_t state, refusals;

static uint32_t below(uint32_t n)
{
    state = state * 6364136223846793005u + 1442695040888963407u;
    return (uint32_t)(((state >> 33) * n) >> 31);
}

static double now(void)
{
    struct timespec at;
    clock_gettime(CLOCK_MONOTONIC, &at);
    return (double)at.tv_sec * 1e9 + (double)at.tv_nsec;
}

static void stop(const char *why)
{
    fprintf(stderr, "zonealloc_bench: %s\n", why);
    exit(1);
}

/* --- a step, in each way: a block is an address, or a page's number and 1; 0 where it was refused --- */

__attribute__((always_inline)) static inline uintptr_t take_block(way_t way, uint32_t worker, uint32_t order)
{
    uint32_t page = 0, zone = 0;
    if (way == MALLOC)
        return (uintptr_t)aligned_alloc((size_t)4096 << order, (size_t)4096 << order);
    if (way == ZONE)
        return zonealloc_alloc(&pool.seats[worker].worker, 0, order, ZONE_TYPE_MOVABLE, ZONE_ANY, &page) == ZONE_OK ? page + 1 : 0;
    return zone_alloc_pages(&pool, worker, order, ZONE_TYPE_MOVABLE, ZONE_ANY, &zone, &page) == ZONE_OK ? page + 1 : 0;
}

__attribute__((always_inline)) static inline void give_block(way_t way, uint32_t worker, uintptr_t block, uint32_t order)
{
    if (way == MALLOC)
        free((void *)block);
    else if (way == ZONE)
        (void)zonealloc_free(&pool.seats[worker].worker, 0, (uint32_t)block - 1, order);
    else
        (void)zone_free_pages(&pool, worker, 0, (uint32_t)block - 1, order);
}

/* How many blocks were refused. */
__attribute__((always_inline)) static inline uint64_t replay_in(way_t way, uint32_t worker, uint32_t from, uint32_t to)
{
    uintptr_t *own = slots[worker];
    uint64_t refused = 0;
    uint32_t i;
    for (i = from; i < to; i++) {
        const step_t *step = &script.steps[i];
        if (!step->gives)
            refused += (own[step->slot] = take_block(way, worker, step->order)) == 0;
        else if (own[step->slot] != 0)
            give_block(way, worker, own[step->slot], step->order);
    }
    return refused;
}

static uint64_t replay(way_t way, uint32_t worker, uint32_t from, uint32_t to)
{
    return way == MALLOC ? replay_in(MALLOC, worker, from, to)
         : way == ZONE ? replay_in(ZONE, worker, from, to) : replay_in(LISTS, worker, from, to);
}

/* --- the workloads --- */

static void add(uint32_t slot, uint32_t order, int gives)
{
    if (script.len == MOST_STEPS)
        stop("too many steps");
    script.steps[script.len++] = (step_t){ slot, (uint16_t)order, (uint16_t)gives };
}

/* So many pages are taken, then given back in the same order. */
static void write_runs(uint32_t run)
{
    uint32_t i;
    while (script.len < STEPS)
        for (i = 0; i < 2 * run; i++)
            add(i % run, 0, i >= run);
}

/* Order k is half as frequent as order k - 1. A zone decides which blocks there are: what it refuses is no step. */
static void write_churn(uint32_t kept)
{
    static uint32_t orders[PAGES];
    static uint8_t has[PAGES];
    uint32_t lent = 0, slot, order;
    memset(has, 0, sizeof has);
    while (script.len - script.filled < STEPS) {
        slot = below(PAGES / 8);
        order = has[slot] ? orders[slot] : (uint32_t)__builtin_ctz(below(1024) | 1024);
        if (!has[slot] && (lent > kept || (slots[0][slot] = take_block(ZONE, 0, order)) == 0)) {
            script.filled = script.filled ? script.filled : script.len;
            continue;
        }
        if (has[slot])
            give_block(ZONE, 0, slots[0][slot], order);
        add(slot, orders[slot] = order, has[slot]);
        lent += has[slot] ? 0u - (1u << order) : 1u << order;
        has[slot] = !has[slot];
    }
    for (slot = 0; slot < PAGES; slot++)
        if (has[slot])
            give_block(ZONE, 0, slots[0][slot], orders[slot]);
}

/* Up to 64 of the pages are given back, picked at random, and then as many are taken. */
static void write_lent(uint32_t count)
{
    uint32_t i, run, holes[64];
    for (i = 0; i < count; i++)
        add(i, 0, 0);
    for (script.filled = script.len; script.len - script.filled < STEPS;) {
        run = 1 + below(64);
        for (i = 0; i < run; i++)
            add(holes[i] = below(count / 64) * 64 + i, 0, 1);
        for (i = 0; i < run; i++)
            add(holes[i], 0, 0);
    }
}

static void write_all(uint32_t count)
{
    static uint32_t left[PAGES];
    uint32_t i, at;
    for (i = 0; i < count; i++)
        add(left[i] = i, 0, 0);
    for (i = count; i > 0; i--) {
        at = below(i);
        add(left[at], 0, 1);
        left[at] = left[i - 1];
    }
}

/* What is lent at the end of the script is given back behind it. */
static uint32_t write_end(void)
{
    static uint16_t has[PAGES];
    uint32_t i, timed = script.len;
    memset(has, 0, sizeof has);
    for (i = 0; i < timed; i++)
        has[script.steps[i].slot] = script.steps[i].gives ? 0 : (uint16_t)(script.steps[i].order + 1);
    for (i = 0; i < PAGES; i++)
        if (has[i])
            add(i, has[i] - 1u, 1);
    return timed;
}

/* --- timing --- */

static double round_of(way_t way, uint32_t worker, uint32_t timed)
{
    uint64_t refused = replay(way, worker, 0, script.filled);
    double took, began = now();
    refused += replay(way, worker, script.filled, timed);
    took = now() - began;
    (void)replay(way, worker, timed, script.len);
    __atomic_add_fetch(&refusals, refused, __ATOMIC_RELAXED);
    return took / (double)(timed - script.filled);
}

static double shortest(way_t way, uint32_t timed, uint32_t rounds)
{
    double least = 0, took;
    for (; rounds > 0; rounds--) {
        took = round_of(way, 0, timed);
        least = least == 0 || took < least ? took : least;
    }
    return least;
}

/* A thread's rounds, begun together with those of the others. Their mean is told. */
typedef struct { way_t way; uint32_t worker, timed, rounds; double took; } task_t;
static pthread_barrier_t together;

static void *run_task(void *at)
{
    task_t *task = at;
    uint32_t i;
    pthread_barrier_wait(&together);
    for (i = 0; i < task->rounds; i++)
        task->took += round_of(task->way, task->worker, task->timed) / task->rounds;
    return NULL;
}

static double threaded(way_t way, uint32_t timed, uint32_t rounds, uint32_t threads)
{
    pthread_t ids[CREW];
    task_t tasks[CREW];
    double mean = 0;
    uint32_t i;
    pthread_barrier_init(&together, NULL, threads);
    for (i = 0; i < threads; i++) {
        tasks[i] = (task_t){ way, i, timed, rounds, 0 };
        if (pthread_create(&ids[i], NULL, run_task, &tasks[i]) != 0)
            stop("no thread");
    }
    for (i = 0; i < threads; i++) {
        pthread_join(ids[i], NULL);
        mean += tasks[i].took / threads;
    }
    pthread_barrier_destroy(&together);
    return mean;
}

static void run_way(way_t way, uint32_t rounds, uint64_t seed)
{
    static const struct { const char *name; void (*write)(uint32_t); uint32_t number; int threads; } loads[] = {
        { "hot pair of a page", write_runs, 1, 0 }, { "runs of 64 pages", write_runs, 64, 0 },
        { "orders 0 to 10, half lent", write_churn, PAGES / 2, 0 }, { "pages, nine tenths lent", write_lent, PAGES / 10 * 9, 0 },
        { "all pages, given at random", write_all, PAGES, 0 },
        { "hot pair", write_runs, 1, 1 }, { "runs of 64", write_runs, 64, 1 }, { "4096 lent, at random", write_lent, 4096, 1 }
    };
    size_t i;
    for (i = 0; i < sizeof loads / sizeof loads[0]; i++) {
        uint32_t timed;
        state = seed;
        script.len = script.filled = 0;
        loads[i].write(loads[i].number);
        timed = write_end();
        if (!loads[i].threads)
            printf("%s\t%.1f\n", loads[i].name, shortest(way, timed, rounds));
        else if (way != ZONE)
            printf("%s, one thread\t%.1f\n%s, four threads\t%.1f\n", loads[i].name, threaded(way, timed, rounds, 1), loads[i].name,
                   threaded(way, timed, rounds, CREW));
    }
    if (refusals != 0)
        fprintf(stderr, "zonealloc_bench: %" PRIu64 " blocks were refused\n", refusals);
}

/* --- single calls --- */

#define TIME(name, calls, rounds, call) do { \
        double least = 0, began, took; \
        uint32_t r, n; \
        for (r = 0; r < (rounds); r++) { \
            for (began = now(), n = 0; n < STEPS; n++) { call; } \
            took = (now() - began) / STEPS / (calls); \
            least = least == 0 || took < least ? took : least; \
        } \
        printf("%s\t%.1f\n", (name), least); \
    } while (0)

/* What a gate adds to a call at the least: the compare-exchange that enters it, and the store that leaves it. */
static inline void bare_gate(void)
{
    static uintptr_t word;
    uintptr_t open = 0;
    if (__atomic_compare_exchange_n(&word, &open, 1, 0, __ATOMIC_ACQUIRE, __ATOMIC_RELAXED))
        __atomic_store_n(&word, 0, __ATOMIC_RELEASE);
}

static void run_calls(uint32_t rounds)
{
    zone_worker_t *own = &pool.seats[0].worker;
    uint32_t page = 0, lent = 0;
    zone_page_t noted;
    if (zonealloc_refill(own, 0, ZONE_TYPE_MOVABLE, ZONE_ANY) != ZONE_OK)
        stop("no pages");
    TIME("take and put, each", 2, rounds, zonealloc_take(own, 0, ZONE_TYPE_MOVABLE, &page); zonealloc_put(own, 0, page));
    TIME("is_lent, no gate", 1, rounds, zonealloc_is_lent(own, 0, n % PAGES, 0, &lent));
    TIME("page, behind the gate", 1, rounds, zonealloc_page(own, 0, n % PAGES, &noted));
    TIME("a gate's two instructions, alone", 1, rounds, bare_gate());
}

int main(int argc, char **argv)
{
    static const zone_spec_t spec = { 0, PAGES, 0, 10, 6, { 'N', 'o', 'r', 'm', 'a', 'l' } };
    static const char *const ways[] = { "zone", "lists", "malloc", "calls" };
    uint32_t rounds = argc > 2 ? (uint32_t)strtoul(argv[2], NULL, 10) : 20, way = 0;
    while (way <= CALLS && (argc < 2 || strcmp(argv[1], ways[way]) != 0))
        way++;
    if (way > CALLS)
        stop("zone, lists, malloc or calls");
    if (zone_pool_make(&pool, CREW, &spec, 1, 31, 62) != ZONE_OK)
        stop("no row");
    if (way == CALLS)
        run_calls(rounds);
    else
        run_way((way_t)way, rounds, argc > 3 ? strtoull(argv[3], NULL, 10) : 1);
    return zone_pool_unmake(&pool) == ZONE_OK ? 0 : 1;
}
