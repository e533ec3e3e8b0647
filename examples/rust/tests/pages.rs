//! `alloc_pages` and `free_pages`: which list a page that comes back drains, and when a worker's own lists go back to the zones.

use zonealloc::{Block, Lists, Mark, MigrateType, MigrateType::*, Refusal, Row, Worker, ZoneSpec};

const LISTS: Lists = Lists { batch: 4, high_len: 6 };

fn row(lists: Option<Lists>) -> Row {
    let zones = [ZoneSpec::new("DMA", 0, 32, 0, 5), ZoneSpec::new("Normal", 1024, 64, 0, 6)];
    Row::make(&zones, 2, lists).unwrap()
}

/// So many pages go to the worker's list of this type.
fn fill(worker: &mut Worker<'_>, zone: u32, kind: MigrateType, count: u32) {
    for _ in 0..count {
        let page = worker.alloc(zone, 0, kind, Mark::Any).unwrap();
        worker.put(zone, page).unwrap();
    }
}

fn cached(worker: &mut Worker<'_>, zone: u32) -> [u32; 3] {
    MigrateType::ALL.map(|kind| worker.cached(zone, kind).unwrap())
}

#[test]
fn a_page_drains_the_full_list_of_its_own_type() {
    for (at, kind) in MigrateType::ALL.into_iter().enumerate() {
        for others in [LISTS.batch, LISTS.high_len] {
            let mut row = row(Some(LISTS));
            let mut worker = row.workers().next().unwrap();
            let page = worker.alloc(1, 0, kind, Mark::Any).unwrap();
            let mut wanted = [others; 3];
            for other in MigrateType::ALL {
                fill(&mut worker, 1, other, if other == kind { LISTS.high_len } else { others });
            }
            assert_eq!(worker.free_pages(1, page, 0), Ok(()));
            wanted[at] = LISTS.high_len - LISTS.batch + 1;
            assert_eq!(cached(&mut worker, 1), wanted);
            assert_eq!(worker.free_pages(1, page, 0), Err(Refusal::NotLent));
            assert_eq!(cached(&mut worker, 1), wanted);
        }
    }
}

#[test]
fn a_block_comes_from_the_zone_or_from_one_below() {
    let mut row = row(Some(LISTS));
    let mut worker = row.workers().next().unwrap();
    assert_eq!(worker.alloc_pages(1, 6, Movable, Mark::Low), Ok(Block { zone: 1, page: 1024 }));
    let Block { zone, page } = worker.alloc_pages(1, 0, Movable, Mark::Low).unwrap();
    assert_eq!((zone, cached(&mut worker, 0)), (0, [0, 0, LISTS.batch - 1]));
    assert_eq!(worker.free_pages(0, page, 0), Ok(()));
    assert_eq!(cached(&mut worker, 0), [0, 0, LISTS.batch]);
    assert_eq!(worker.alloc_pages(2, 0, Movable, Mark::Low), Err(Refusal::BadArgument));
}

#[test]
fn ones_own_lists_go_back_where_no_zone_gives() {
    let mut row = row(Some(Lists { batch: 31, high_len: 64 }));
    let mut workers: Vec<_> = row.workers().collect();
    fill(&mut workers[0], 1, Unmovable, 64);
    fill(&mut workers[1], 0, Unmovable, 32);
    assert_eq!(workers[0].alloc_pages(0, 0, Movable, Mark::Any), Err(Refusal::NoBlock));
    assert_eq!(cached(&mut workers[0], 1), [64, 0, 0]);
    assert_eq!(workers[0].alloc_pages(1, 0, Movable, Mark::Any).map(|it| it.zone), Ok(1));
    assert_eq!((cached(&mut workers[0], 1), cached(&mut workers[1], 0)), ([0, 0, 30], [32, 0, 0]));
    assert_eq!(workers[0].alloc_pages(1, 6, Movable, Mark::Any), Err(Refusal::NoBlock));
    assert_eq!(cached(&mut workers[0], 1), [0, 0, 0]);
}

#[test]
fn without_lists_each_page_is_the_zones() {
    let mut row = row(None);
    let mut worker = row.workers().next().unwrap();
    let Block { zone, page } = worker.alloc_pages(1, 0, Movable, Mark::Low).unwrap();
    assert_eq!(worker.put(zone, page), Err(Refusal::NoLists));
    assert_eq!(worker.free_pages(zone, page, 0), Ok(()));
    assert_eq!(worker.counts(1).unwrap().0.free, 64);
}

#[test]
fn no_two_workers_share_a_line() {
    assert_eq!((std::mem::align_of::<Worker<'_>>(), std::mem::size_of::<Worker<'_>>()), (128, 128));
}

#[test]
fn a_row_has_up_to_64_zones() {
    let zones: Vec<_> = (0..65).map(|i| ZoneSpec::new("Zone", i * 1024, 8, 0, 3)).collect();
    let mut row = Row::make(&zones[..64], 1, None).unwrap();
    assert_eq!(row.workers().next().unwrap().alloc(63, 0, Movable, Mark::Any), Ok(63 * 1024));
    assert_eq!(Row::make(&zones, 1, None).err(), Some(Refusal::BadArgument));
}
