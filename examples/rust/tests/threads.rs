//! Threads, each with a worker of one row.

use std::thread;
use zonealloc::{until_free, Block, Lists, Mark, MigrateType::Movable, Refusal, Row, Worker, ZoneSpec};

const THREADS: u32 = 4;
const CALLS: u32 = 50_000;

/// A page, by the worker's list.
fn take(worker: &mut Worker<'_>) -> Result<u32, Refusal> {
    worker.alloc_pages(0, 0, Movable, Mark::Low).map(|Block { page, .. }| page)
}

/// Takes and gives back pages and blocks, keeps one page, and posts a block to the next worker. Returns how many pages it kept.
fn work(mut worker: Worker<'_>, me: u32) -> Result<u32, Refusal> {
    let mut pages = Vec::new();
    for i in 0..CALLS {
        if i / 100 % 2 == 0 {
            pages.push(take(&mut worker)?);
        } else if let Some(page) = pages.pop() {
            worker.free_pages(0, page, 0)?;
        }
        if i % 50 == 0 {
            let block = until_free(|| worker.alloc(0, 3, Movable, Mark::Low))?;
            until_free(|| worker.free(0, block, 3))?;
        }
    }
    let block = until_free(|| worker.alloc(0, 5, Movable, Mark::Low))?;
    until_free(|| worker.post(0, block, 5, (me + 1) % THREADS))?;
    pages.push(take(&mut worker)?);
    Ok(pages.len() as u32)
}

#[test]
fn each_page_is_where_the_threads_left_it() {
    let zone = ZoneSpec::new("Normal", 0, 16384, 64, 10);
    let mut row = Row::make(&[zone], THREADS, Some(Lists { batch: 31, high_len: 62 })).unwrap();
    let workers = row.workers();
    let kept: u32 = thread::scope(|scope| {
        let threads: Vec<_> = (0..).zip(workers).map(|(me, worker)| scope.spawn(move || work(worker, me))).collect();
        threads.into_iter().map(|it| it.join().unwrap().unwrap()).sum()
    });
    let totals = row.gather(0).unwrap();
    assert_eq!((totals.lent, totals.posted), (kept, THREADS * 32));
    assert_eq!(totals.free + totals.posted + totals.cached + totals.lent, 16384);
}

#[test]
fn a_row_goes_to_another_thread() {
    let row = Row::make(&[ZoneSpec::new("Normal", 0, 1024, 0, 10)], 1, None).unwrap();
    let told = thread::spawn(move || {
        let mut row = row;
        let free = row.workers().next().map(|mut it| it.counts(0).unwrap().0.free);
        (free, row.gather(0).unwrap().free)
    });
    assert_eq!(told.join().unwrap(), (Some(1024), 1024));
}
