/* A plain reference of a row, written from docs/rules.md alone. The calls are those of zonealloc.h with reference_ in the place of
 * zonealloc_, with the same arguments, answers and results. Nobody is ever found in a zone, so nothing is answered ZONE_BUSY here; nor
 * ZONE_ENDED. It is slow: at each change of a zone a whole pageblock is cut into its maximal blocks anew. */
#ifndef REFERENCE_H
#define REFERENCE_H
#include "zonealloc.h"

struct row;
typedef struct reference_row { struct row *at; } reference_row_t;
typedef struct reference_worker { struct row *row; uint32_t number; } reference_worker_t;

uint32_t reference_make(reference_row_t *row, reference_worker_t *workers, size_t n_workers, const zone_spec_t *zones, size_t n_zones,
                       uint32_t batch, uint32_t high_len);
uint32_t reference_dismiss(reference_worker_t *worker);
uint32_t reference_unmake(reference_row_t *row);

uint32_t reference_take(reference_worker_t *worker, uint32_t zone, uint32_t type, uint32_t *page);
uint32_t reference_put(reference_worker_t *worker, uint32_t zone, uint32_t page);
uint32_t reference_is_lent(reference_worker_t *worker, uint32_t zone, uint32_t page, uint32_t order, uint32_t *lent);
uint32_t reference_cached(reference_worker_t *worker, uint32_t zone, uint32_t type, uint32_t *pages);

uint32_t reference_alloc(reference_worker_t *worker, uint32_t zone, uint32_t order, uint32_t type, uint32_t mark, uint32_t *page);
uint32_t reference_alloc_low(reference_worker_t *worker, uint32_t zone, uint32_t order, uint32_t *page);
uint32_t reference_free(reference_worker_t *worker, uint32_t zone, uint32_t page, uint32_t order);
uint32_t reference_alloc_many(reference_worker_t *worker, uint32_t zone, uint32_t order, uint32_t type, uint32_t mark, uint32_t *pages,
                              size_t room, size_t *got);
uint32_t reference_free_many(reference_worker_t *worker, uint32_t zone, const uint32_t *pages, size_t n_pages, const uint32_t *orders,
                             size_t n_orders, size_t *freed);
uint32_t reference_alloc_run(reference_worker_t *worker, uint32_t zone, uint32_t pages, uint32_t align, uint32_t mark, uint32_t *page);
uint32_t reference_alloc_run_at(reference_worker_t *worker, uint32_t zone, uint32_t page, uint32_t pages);
uint32_t reference_free_run(reference_worker_t *worker, uint32_t zone, uint32_t page, uint32_t pages);
uint32_t reference_post(reference_worker_t *worker, uint32_t zone, uint32_t page, uint32_t order, uint32_t to);
uint32_t reference_collect(reference_worker_t *worker, uint32_t zone, uint32_t *page, uint32_t *order);
uint32_t reference_isolate(reference_worker_t *worker, uint32_t zone, uint32_t pageblock);
uint32_t reference_release(reference_worker_t *worker, uint32_t zone, uint32_t pageblock, uint32_t type);
uint32_t reference_refill(reference_worker_t *worker, uint32_t zone, uint32_t type, uint32_t mark);
uint32_t reference_drain(reference_worker_t *worker, uint32_t zone, uint32_t type, uint32_t count);
uint32_t reference_drain_all(reference_worker_t *worker, uint32_t zone);

uint32_t reference_counts(reference_worker_t *worker, uint32_t zone, zone_counts_t *counts);
uint32_t reference_info(reference_worker_t *worker, uint32_t zone, uint8_t *buffer, size_t room, size_t *len);
uint32_t reference_page(reference_worker_t *worker, uint32_t zone, uint32_t page, zone_page_t *told);
uint32_t reference_pageblock(reference_worker_t *worker, uint32_t zone, uint32_t pageblock, zone_pageblock_t *told);
uint32_t reference_gather(reference_row_t *row, uint32_t zone, zone_totals_t *totals);
#endif
