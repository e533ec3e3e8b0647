//! One thread: each call once at least, and what is refused.

use zonealloc::{Level, Lists, Mark, MigrateType::*, PageState, Refusal, Row, Totals, ZoneSpec};

fn normal() -> ZoneSpec {
    ZoneSpec::new("Normal", 4096, 4096, 16, 10)
}

fn row() -> Row {
    let zones = [ZoneSpec::new("DMA", 0, 2048, 0, 10), normal()];
    Row::make(&zones, 2, Some(Lists { batch: 8, high_len: 16 })).unwrap()
}

#[test]
fn what_does_not_fit_is_refused() {
    let refused = |zone, workers, lists| Row::make(&[zone], workers, lists).err();
    assert_eq!(refused(ZoneSpec::new("no name", 0, 8, 0, 10), 1, None), Some(Refusal::BadName));
    assert_eq!(refused(ZoneSpec::new("NormalPages", 0, 8, 0, 10), 1, None), Some(Refusal::BadName));
    assert_eq!(refused(ZoneSpec::new("Normal", 7, 8, 0, 10), 1, None), Some(Refusal::BadBase));
    assert_eq!(refused(ZoneSpec::new("Normal", 0, 0, 0, 10), 1, None), Some(Refusal::BadPages));
    assert_eq!(refused(ZoneSpec::new("Normal", 0, 8, 9, 10), 1, None), Some(Refusal::BadMark));
    assert_eq!(refused(ZoneSpec::new("Normal", 0, 8, 0, 11), 1, None), Some(Refusal::BadArgument));
    assert_eq!(refused(normal(), 33, None), Some(Refusal::BadWorkers));
    assert_eq!(refused(normal(), 1, Some(Lists { batch: 8, high_len: 8 })), Some(Refusal::BadArgument));
    assert_eq!(Row::make(&[], 1, None).err(), Some(Refusal::BadArgument));
}

#[test]
fn a_block_is_lent_and_given_back() {
    let mut row = row();
    let mut workers: Vec<_> = row.workers().collect();
    let page = workers[0].alloc(1, 4, Movable, Mark::Low).unwrap();
    assert_eq!(workers[0].is_lent(1, page, 4), Ok(true));
    assert_eq!(workers[1].is_lent(1, page, 4), Ok(false));
    assert_eq!(workers[0].page(1, page), Ok(PageState::Out { order: 4, kind: Movable, worker: 0 }));
    assert_eq!(workers[1].free(1, page, 4), Err(Refusal::NotLent));
    assert_eq!(workers[0].free(1, page, 4), Ok(()));
    assert_eq!(workers[0].free(1, page, 4), Err(Refusal::NotLent));
    let (counts, level) = workers[1].counts(1).unwrap();
    assert_eq!((counts.free, counts.by_order[10], level), (4096, 4, Level::High));
    let types = workers[1].counts_by_type(1).unwrap();
    assert_eq!((types.free[Movable as usize][10], types.pageblocks), (4, [0, 0, 4, 0]));
    assert_eq!(workers[1].counts_by_type(2), Err(Refusal::BadArgument));
    let line = "Node 0, zone   Normal      0      0      0      0      0      0      0      0      0      0      4 ";
    assert_eq!(workers[0].info(1).as_deref(), Ok(line));
    assert_eq!(workers[0].alloc(2, 0, Movable, Mark::Any), Err(Refusal::BadArgument));
}

#[test]
fn single_pages_come_from_the_lists() {
    let mut row = row();
    let mut workers: Vec<_> = row.workers().collect();
    assert_eq!(workers[0].take(0, Unmovable), Err(Refusal::ListEmpty));
    workers[0].refill(0, Unmovable, Mark::Low).unwrap();
    assert_eq!(workers[0].refill(0, Unmovable, Mark::Low), Err(Refusal::ListNotEmpty));
    let page = workers[0].take(0, Unmovable).unwrap();
    assert_eq!(workers[0].cached(0, Unmovable), Ok(7));
    assert_eq!(workers[0].put(0, page), Ok(()));
    assert_eq!(workers[0].put(0, page), Err(Refusal::NotLent));
    assert_eq!(workers[0].drain(0, Unmovable, 9), Err(Refusal::BadArgument));
    assert_eq!(workers[0].drain(0, Unmovable, 5), Ok(()));
    assert_eq!(workers[0].drain_all(0), Ok(()));
    assert_eq!(workers[0].cached(0, Unmovable), Ok(0));
}

#[test]
fn an_isolated_pageblock_lends_nothing() {
    let mut row = row();
    let mut workers: Vec<_> = row.workers().collect();
    workers[0].isolate(0, 0).unwrap();
    assert_eq!(workers[1].isolate(0, 0), Err(Refusal::AlreadyIsolated));
    assert_eq!(workers[1].alloc_low(0, 3), Ok(1024));
    let told = workers[0].pageblock(0, 0).unwrap();
    assert_eq!((told.kind, told.free, told.largest), (None, 1024, Some(10)));
    workers[1].release(0, 0, Reclaimable).unwrap();
    assert_eq!(workers[1].pageblock(0, 0).unwrap().kind, Some(Reclaimable));
    assert_eq!(workers[1].pageblock(0, 2), Err(Refusal::BadPageblock));
}

#[test]
fn many_blocks_come_and_go_up_to_the_first_that_is_refused() {
    let mut row = row();
    let mut workers: Vec<_> = row.workers().collect();
    let (mut pages, mut alone) = ([u32::MAX; 6], [0]);
    assert_eq!(workers[0].alloc_many(1, 10, Movable, Mark::Any, &mut pages), (4, Err(Refusal::NoBlock)));
    assert_eq!(pages[4..], [u32::MAX; 2]);
    assert_eq!(workers[1].alloc_many(1, 0, Movable, Mark::Any, &mut alone), (0, Err(Refusal::NoBlock)));
    assert_eq!(workers[1].alloc_many(1, 0, Movable, Mark::Any, &mut []), (0, Err(Refusal::BadArgument)));
    assert_eq!(workers[0].free_many(1, &pages[..3], &[10, 10, 9]), (2, Err(Refusal::NotLent)));
    assert_eq!(workers[0].free_many(1, &pages[2..4], &[10]), (0, Err(Refusal::BadArgument)));
    assert_eq!(workers[0].free_many(1, &pages[2..4], &[10, 10]), (2, Ok(())));
    let (counts, _) = workers[1].counts(1).unwrap();
    assert_eq!((counts.free, counts.by_order[10]), (4096, 4));
}

#[test]
fn a_run_is_any_pages_in_a_row() {
    let mut row = row();
    let mut workers: Vec<_> = row.workers().collect();
    assert_eq!(workers[0].alloc_run_at(1, 5000, 100), Ok(()));
    assert_eq!(workers[1].alloc_run_at(1, 5099, 2), Err(Refusal::NotFree));
    assert_eq!(workers[1].alloc_run_at(1, 4095, 2), Err(Refusal::BadRun));
    assert_eq!(workers[1].alloc_run(1, 905, 0, Mark::Low), Ok(5100));
    assert_eq!(workers[1].alloc_run(1, 10, 11, Mark::Low), Ok(4096));
    assert_eq!(workers[1].alloc_run(1, 4096, 0, Mark::Any), Err(Refusal::NoBlock));
    assert_eq!(workers[1].alloc_run(1, 4096, 0, Mark::Low), Err(Refusal::BelowMark));
    assert_eq!(workers[1].alloc_run(1, 0, 0, Mark::Any), Err(Refusal::BadArgument));
    assert_eq!(workers[1].alloc_run(1, 1, 25, Mark::Any), Err(Refusal::BadArgument));
    assert_eq!(workers[0].free_run(1, 5090, 11), Err(Refusal::NotLent));
    assert_eq!(workers[0].free_run(1, 5037, 63), Ok(()));
    assert_eq!(workers[0].free_run(1, 5000, 37), Ok(()));
    assert_eq!(workers[1].free_run(1, 5100, 905), Ok(()));
    assert_eq!(workers[1].free_run(1, 4096, 10), Ok(()));
    let (counts, _) = workers[0].counts(1).unwrap();
    assert_eq!((counts.free, counts.by_order[10]), (4096, 4));
}

#[test]
fn where_the_pages_are_is_told_in_the_end() {
    let mut row = row();
    let mut workers: Vec<_> = row.workers().collect();
    let page = workers[0].alloc(0, 2, Movable, Mark::Any).unwrap();
    workers[0].post(0, page, 2, 1).unwrap();
    let page = workers[0].alloc(0, 3, Movable, Mark::Any).unwrap();
    workers[0].post(0, page, 3, 1).unwrap();
    assert_eq!(workers[1].collect(0).map(|(_, order)| order), Ok(2));
    assert_eq!(workers[0].collect(0), Err(Refusal::NothingPosted));
    workers[1].refill(0, Movable, Mark::Any).unwrap();
    drop(workers);
    assert_eq!(row.gather(0), Ok(Totals { free: 2048 - 4 - 8 - 8, posted: 8, cached: 8, lent: 4 }));
    assert_eq!(row.gather(1), Ok(Totals { free: 4096, posted: 0, cached: 0, lent: 0 }));
    assert_eq!(row.gather(2), Err(Refusal::BadArgument));
}

#[test]
fn a_row_whose_worker_was_forgotten_stays() {
    let mut row = row();
    let mut workers: Vec<_> = row.workers().collect();
    std::mem::forget(workers.pop());
    drop(workers);
    assert_eq!(row.gather(0), Err(Refusal::HasWorkers));
    assert_eq!(row.workers().len(), 0);
}

#[test]
fn what_a_making_takes_is_known_before() {
    let (one, two) = (Row::bytes(&[normal()], 1).unwrap(), Row::bytes(&[normal()], 2).unwrap());
    assert!(one > 8 * 4096 && two > one);
}

#[test]
fn counts_are_read_beside_the_lock() {
    let mut row = Row::make_with_boards(&[normal()], 1, None).unwrap();
    let mut worker = row.workers().next().unwrap();
    let mut reader = worker.reader(0).unwrap();
    assert_eq!(worker.reader(1).err(), Some(Refusal::BadArgument));
    assert_eq!((reader.read().place, reader.read().free), (0, 4096));
    let page = worker.alloc(0, 4, Movable, Mark::Low).unwrap();
    let reading = reader.read();
    assert_eq!((reading.place, reading.free, reading.by_order[4]), (1, 4080, 1));
    worker.free(0, page, 4).unwrap();
    drop(worker);
    drop(row);
    assert_eq!((reader.read().place, reader.read().free), (2, 4096));
}

#[test]
fn a_row_without_boards_has_no_readers() {
    let mut row = row();
    let mut worker = row.workers().next().unwrap();
    assert_eq!(worker.reader(0).err(), Some(Refusal::NoBoard));
}
