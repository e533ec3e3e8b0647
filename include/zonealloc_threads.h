/* A row for up to 32 threads, each with a worker of its own. There is no lock: a ZONE call that is answered ZONE_BUSY is made again
 * after a rest, so the archive's own gate of the zone is the lock. Each rest is longer than the one before: who is in a zone then makes
 * several calls before its memory moves to another processor. With ZONEALLOC_SLEEP defined before the include, a mutex for each zone
 * stands round the call, and who waits for it sleeps.
 *
 * Where there is no C library, as in a kernel, ZONEALLOC_REST(hints) is defined before the include: a statement that rests for about so many
 * of the processor's hints that a loop waits. They are 256 at first and twice as many each time, and from 4,096 on others may be let run.
 * Then neither sched.h nor string.h is included, and of functions only memset and memcpy are called, which the archive wants as well:
 *     #define ZONEALLOC_REST(hints) do { uint32_t left = (hints); while (left-- > 0) cpu_relax(); } while (0)
 *
 * ANY, below: any threads at the same time, each with a worker whose number no other thread calls with. ALONE is as in zonealloc.h.
 * Each call answers what the calls under it answer, but never ZONE_BUSY. */
#ifndef ZONEALLOC_THREADS_H
#define ZONEALLOC_THREADS_H
#include "zonealloc.h"
#ifndef ZONEALLOC_REST
#include <sched.h>
#include <string.h>
#endif
#ifdef ZONEALLOC_SLEEP
#include <pthread.h>
typedef struct zone_door { unsigned char apart[64]; pthread_mutex_t mutex; } zone_door_t;
#define ZONE_DOOR(act, pool, zone) (void)pthread_mutex_##act(&(pool)->doors[(zone) % ZONE_ZONES].mutex)
#else
typedef struct zone_door { unsigned char mutex; } zone_door_t;
#define ZONE_DOOR(act, pool, zone) (void)(pool)
#endif
/* Each call writes its worker's handle, so no two of them share a line of the cache, nor one of them with what all threads read. */
typedef struct zone_seat { zone_worker_t worker; unsigned char apart[112]; } zone_seat_t;
typedef struct zone_pool {
    zone_seat_t seats[ZONE_WORKERS];
    zone_row_t row;
    uint32_t workers, batch, high_len;
    zone_door_t doors[ZONE_ZONES];
} zone_pool_t;
/* What tells the processor that a loop waits. */
#if defined(__x86_64__) || defined(__i386__)
#define ZONE_HINT() __builtin_ia32_pause()
#elif defined(__aarch64__)
#define ZONE_HINT() __asm__ __volatile__("isb")
#elif defined(__riscv)
#define ZONE_HINT() __asm__ __volatile__(".4byte 0x0100000f")   /* pause, by its number: not every assembler knows the name */
#else
#define ZONE_HINT() (void)0
#endif
/* Rests for so many hints to the processor, and tells how long to rest next. Past the longest rest others may want this processor. */
enum { ZONE_FIRST_REST = 256, ZONE_LONGEST_REST = 4096 };
static inline uint32_t zone_rest(uint32_t hints) {
#ifdef ZONEALLOC_REST
    ZONEALLOC_REST(hints);
    return hints < ZONE_LONGEST_REST ? hints * 2 : hints;
#else
    uint32_t i;
    for (i = 0; i < hints; i++) ZONE_HINT();
    if (hints < ZONE_LONGEST_REST) return hints * 2;
    (void)sched_yield();
    return hints;
#endif
}
/* ANY. A ZONE call, made until it is answered: for those that have no function below, too. (It may read zone twice, or not at all.) */
#define ZONE_ASK(pool, zone, answer, call) do { \
        uint32_t zone_hints = ZONE_FIRST_REST; \
        ZONE_DOOR(lock, pool, zone); \
        while (((answer) = (call)) == ZONE_BUSY) zone_hints = zone_rest(zone_hints); \
        ZONE_DOOR(unlock, pool, zone); \
    } while (0)
/* (memset, where no header declares it) */
static inline void zone_zero(void *at, size_t bytes) {
    unsigned char *it = (unsigned char *)at;
    while (bytes-- > 0) *it++ = 0;
}
/* ALONE. Makes a pool where none is: over one that was not unmade, that would be lost. */
static inline uint32_t zone_pool_make(zone_pool_t *pool, uint32_t workers, const zone_spec_t *zones, size_t n_zones, uint32_t batch,
                                      uint32_t high_len) {
    zone_worker_t made[ZONE_WORKERS];
    uint32_t i, answer;
    zone_zero(pool, sizeof *pool); zone_zero(made, sizeof made);
    if (workers > ZONE_WORKERS) return ZONE_BAD_WORKERS;
    answer = zonealloc_make(&pool->row, made, workers, zones, n_zones, batch, high_len);
    if (answer != ZONE_OK) return answer;
#ifdef ZONEALLOC_SLEEP
    for (i = 0; i < ZONE_ZONES; i++) (void)pthread_mutex_init(&pool->doors[i].mutex, NULL);
#endif
    for (i = 0; i < workers; i++) pool->seats[i].worker = made[i];
    pool->workers = workers; pool->batch = batch; pool->high_len = high_len;
    return ZONE_OK;
}
/* ANY. Ends a worker. (In both forms it rests where a zone other than the lowest is busy.) */
static inline uint32_t zone_pool_dismiss(zone_pool_t *pool, uint32_t worker) {
    uint32_t answer = ZONE_BAD_ARGUMENT;
    if (worker < pool->workers) ZONE_ASK(pool, 0, answer, zonealloc_dismiss(&pool->seats[worker].worker));
    return answer;
}
/* ALONE, as it does not ask again. Where the pages of a zone are, when all workers were dismissed. */
static inline uint32_t zone_pool_gather(zone_pool_t *pool, uint32_t zone, zone_totals_t *totals) {
    return zonealloc_gather(&pool->row, zone, totals);
}
/* ALONE. Ends the workers that are left, and gives back the memory. ZONE_BAD_HANDLE where there is no pool. */
static inline uint32_t zone_pool_unmake(zone_pool_t *pool) {
    uint32_t i, workers = pool->workers;
    for (i = 0; i < workers; i++) (void)zone_pool_dismiss(pool, i);
    for (i = 0; i < ZONE_ZONES && workers != 0; i++) ZONE_DOOR(destroy, pool, i);
    pool->workers = 0; return zonealloc_unmake(&pool->row);
}
/* ANY. Free blocks of each order, free and posted pages, and the level of a zone, all of one moment. */
static inline uint32_t zone_pool_counts(zone_pool_t *pool, uint32_t worker, uint32_t zone, zone_counts_t *counts) {
    uint32_t answer = ZONE_BAD_ARGUMENT;
    if (worker < pool->workers) ZONE_ASK(pool, zone, answer, zonealloc_counts(&pool->seats[worker].worker, zone, counts));
    return answer;
}
/* What is seldom called stands apart, so that what is called often is short where it is called. */
#ifdef __GNUC__
#define ZONE_SELDOM __attribute__((noinline, cold, unused)) static
#else
#define ZONE_SELDOM static inline
#endif
static inline uint32_t zone_listed(zone_pool_t *pool, zone_worker_t *own, uint32_t type, uint32_t mark, uint32_t zone, uint32_t *page) {
    uint32_t answer = zonealloc_take(own, zone, type, page);
    if (answer != ZONE_LIST_EMPTY) return answer;
    ZONE_ASK(pool, zone, answer, zonealloc_refill(own, zone, type, mark));
    return answer == ZONE_OK ? zonealloc_take(own, zone, type, page) : answer;
}
/* A block of this zone alone. */
static inline uint32_t zone_alloc_of(zone_pool_t *pool, zone_worker_t *own, uint32_t order, uint32_t type, uint32_t mark, uint32_t zone,
                                     uint32_t *page) {
    uint32_t answer;
    if (order == 0 && pool->batch != 0) return zone_listed(pool, own, type, mark, zone, page);
    ZONE_ASK(pool, zone, answer, zonealloc_alloc(own, zone, order, type, mark, page));
    return answer;
}
static inline int zone_has_none(uint32_t answer) { return answer == ZONE_NO_BLOCK || answer == ZONE_BELOW_MARK; }
/* Gives back what the worker's lists have of the zones up to this one. Whether that was anything. */
ZONE_SELDOM int zone_drain_down(zone_pool_t *pool, zone_worker_t *own, uint32_t zone) {
    uint32_t at, type, cached, has, answer;
    int some = 0;
    for (at = zone + 1; at-- > 0 && pool->batch != 0;) {
        for (has = 0, type = 0; type < ZONE_TYPES; type++) has += zonealloc_cached(own, at, type, &cached) == ZONE_OK ? cached : 0;
        if (has == 0) continue;
        ZONE_ASK(pool, at, answer, zonealloc_drain_all(own, at));
        some |= answer == ZONE_OK;
    }
    return some;
}
/* A block of a zone below *zone, which gave none, by this answer; or of all of them, once the worker's lists went back. */
ZONE_SELDOM uint32_t zone_alloc_below(zone_pool_t *pool, zone_worker_t *own, uint32_t order, uint32_t type, uint32_t mark, uint32_t *zone,
                                      uint32_t *page, uint32_t answer) {
    uint32_t at = *zone, drained = 0;
    do {
        while (at-- > 0 && zone_has_none(answer)) {
            answer = zone_alloc_of(pool, own, order, type, mark, at, page);
            if (answer == ZONE_OK) *zone = at;
        }
        at = *zone + 1;
    } while (zone_has_none(answer) && drained++ == 0 && zone_drain_down(pool, own, *zone));
    return answer;
}
/* ANY. A block of 2^order pages, of *zone or the nearest zone below that gives one: its first page, and in *zone the zone that it is of.
 * A single page comes from the worker's list, which is filled where it is empty. Where no zone gives a block, the worker's own lists of these
 * zones, of all types, go back to them, and where those had a page all zones are asked once more. Other workers' lists stay as they are.
 * ZONE_BELOW_MARK and ZONE_NO_BLOCK are the lowest zone's answer. */
static inline uint32_t zone_alloc_pages(zone_pool_t *pool, uint32_t worker, uint32_t order, uint32_t type, uint32_t mark, uint32_t *zone,
                                        uint32_t *page) {
    zone_worker_t *own;
    uint32_t answer;
    if (worker >= pool->workers || *zone >= ZONE_ZONES) return ZONE_BAD_ARGUMENT;
    own = &pool->seats[worker].worker;
    answer = zone_alloc_of(pool, own, order, type, mark, *zone, page);
    if (answer == ZONE_OK || !zone_has_none(answer)) return answer;
    return zone_alloc_below(pool, own, order, type, mark, zone, page, answer);
}
/* ANY. The lowest run of so many pages that begins at a multiple of 2^align, of *zone or the nearest zone below that has one: its first page, and
 * in *zone the zone that it is of. Where no zone has one, the worker's own lists of these zones go back to them, and where those had a page all
 * zones are asked once more. ZONE_BELOW_MARK and ZONE_NO_BLOCK are the lowest zone's answer. */
ZONE_SELDOM uint32_t zone_alloc_run(zone_pool_t *pool, uint32_t worker, uint32_t pages, uint32_t align, uint32_t mark, uint32_t *zone,
                                    uint32_t *page) {
    zone_worker_t *own;
    uint32_t at, drained = 0, answer = ZONE_NO_BLOCK;
    if (worker >= pool->workers || *zone >= ZONE_ZONES) return ZONE_BAD_ARGUMENT;
    own = &pool->seats[worker].worker;
    do {
        for (at = *zone + 1; at-- > 0 && zone_has_none(answer);) {
            ZONE_ASK(pool, at, answer, zonealloc_alloc_run(own, at, pages, align, mark, page));
            if (answer == ZONE_OK) *zone = at;
        }
    } while (zone_has_none(answer) && drained++ == 0 && zone_drain_down(pool, own, *zone));
    return answer;
}
/* ANY. So many pages of a zone from this one on. */
static inline uint32_t zone_alloc_run_at(zone_pool_t *pool, uint32_t worker, uint32_t zone, uint32_t page, uint32_t pages) {
    uint32_t answer = ZONE_BAD_ARGUMENT;
    if (worker < pool->workers) ZONE_ASK(pool, zone, answer, zonealloc_alloc_run_at(&pool->seats[worker].worker, zone, page, pages));
    return answer;
}
/* ANY. Gives back so many pages of a zone from this one on, by whatever blocks they are lent. No page of them goes to a list. */
static inline uint32_t zone_free_run(zone_pool_t *pool, uint32_t worker, uint32_t zone, uint32_t page, uint32_t pages) {
    uint32_t answer = ZONE_BAD_ARGUMENT;
    if (worker < pool->workers) ZONE_ASK(pool, zone, answer, zonealloc_free_run(&pool->seats[worker].worker, zone, page, pages));
    return answer;
}
/* The type of a page for which its list has no room: that of the one list that is full, and where more are, what is noted of the page. */
ZONE_SELDOM uint32_t zone_full_type(zone_pool_t *pool, zone_worker_t *own, uint32_t zone, uint32_t page, uint32_t *type) {
    zone_page_t noted;
    uint32_t at, cached, full = 0, answer = ZONE_OK;
    for (at = 0; at < ZONE_TYPES; at++)
        if (zonealloc_cached(own, zone, at, &cached) == ZONE_OK && cached >= pool->high_len) { *type = at; full++; }
    if (full == 1) return ZONE_OK;
    ZONE_ASK(pool, zone, answer, zonealloc_page(own, zone, page, &noted));
    if (answer == ZONE_OK) *type = noted.type;
    return answer;
}
/* A page to its list, from which a batch goes to the zone first. */
ZONE_SELDOM uint32_t zone_put_drained(zone_pool_t *pool, zone_worker_t *own, uint32_t zone, uint32_t page) {
    uint32_t type = 0, answer = zone_full_type(pool, own, zone, page, &type);
    if (answer == ZONE_OK) ZONE_ASK(pool, zone, answer, zonealloc_drain(own, zone, type, pool->batch));
    return answer == ZONE_OK ? zonealloc_put(own, zone, page) : answer;
}
/* ANY. Gives back a block of a zone: a single page to the worker's list of its type, from which a batch goes to the zone first where it is
 * full. No other list changes. */
static inline uint32_t zone_free_pages(zone_pool_t *pool, uint32_t worker, uint32_t zone, uint32_t page, uint32_t order) {
    zone_worker_t *own;
    uint32_t answer;
    if (worker >= pool->workers) return ZONE_BAD_ARGUMENT;
    own = &pool->seats[worker].worker;
    if (order == 0 && pool->batch != 0) answer = zonealloc_put(own, zone, page);
    else ZONE_ASK(pool, zone, answer, zonealloc_free(own, zone, page, order));
    return answer == ZONE_LIST_FULL ? zone_put_drained(pool, own, zone, page) : answer;
}
#endif
