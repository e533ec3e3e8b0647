use crate::raw::{self, Handle};
use crate::refusal::answered;
use crate::values::{Counts, CountsByType, InfoLine, Level, Lists, Mark, MigrateType, Origin, PageState, PageblockState};
use crate::{until_free, Reader, Refusal};
use core::marker::PhantomData;

/// One worker's share of a row. When it is dropped it is dismissed: what its lists have and what is lent to it stays noted with the row.
///
/// Where another is in the zone the calls that say *zone* are refused [`Refusal::Busy`]; [`until_free`] makes them again.
///
/// Each call writes the handle, so no two workers lie on one line of the cache, nor on the line that is fetched with it.
#[repr(align(128))]
pub struct Worker<'row> {
    handle: Handle,
    pub(crate) lists: Option<Lists>,
    row: PhantomData<&'row ()>,
}

impl Drop for Worker<'_> {
    fn drop(&mut self) {
        // SAFETY: the handle is what the archive wrote last, and is not used again.
        let _ = until_free(|| answered(unsafe { raw::zonealloc_dismiss(&mut self.handle) }));
    }
}

// SAFETY, of each call below: the handle is what the archive wrote last, and is this worker's alone; the results are this function's own.
impl Worker<'_> {
    pub(crate) fn of(handle: Handle, lists: Option<Lists>) -> Self {
        Worker { handle, lists, row: PhantomData }
    }

    /// The page in front of the worker's list, which is then lent.
    pub fn take(&mut self, zone: u32, kind: MigrateType) -> Result<u32, Refusal> {
        let mut page = 0;
        answered(unsafe { raw::zonealloc_take(&mut self.handle, zone, kind as u32, &mut page) })?;
        Ok(page)
    }

    /// A lent page to the front of the list of its type. In a row without lists it is refused [`Refusal::NoLists`].
    pub fn put(&mut self, zone: u32, page: u32) -> Result<(), Refusal> {
        answered(unsafe { raw::zonealloc_put(&mut self.handle, zone, page) })
    }

    /// Whether the block is lent to this worker with this order.
    pub fn is_lent(&mut self, zone: u32, page: u32, order: u32) -> Result<bool, Refusal> {
        let mut lent = 0;
        answered(unsafe { raw::zonealloc_is_lent(&mut self.handle, zone, page, order, &mut lent) })?;
        Ok(lent != 0)
    }

    /// How many pages the worker's list has.
    pub fn cached(&mut self, zone: u32, kind: MigrateType) -> Result<u32, Refusal> {
        let mut pages = 0;
        answered(unsafe { raw::zonealloc_cached(&mut self.handle, zone, kind as u32, &mut pages) })?;
        Ok(pages)
    }

    /// *Zone.* The first page of a block of 2^order pages, which is then lent.
    pub fn alloc(&mut self, zone: u32, order: u32, kind: MigrateType, mark: Mark) -> Result<u32, Refusal> {
        let mut page = 0;
        answered(unsafe { raw::zonealloc_alloc(&mut self.handle, zone, order, kind as u32, mark as u32, &mut page) })?;
        Ok(page)
    }

    /// *Zone.* As `alloc`, and where the block came from.
    pub fn alloc_told(&mut self, zone: u32, order: u32, kind: MigrateType, mark: Mark) -> Result<(u32, Origin), Refusal> {
        let (mut page, mut origin) = (0, 0);
        answered(unsafe { raw::zonealloc_alloc_told(&mut self.handle, zone, order, kind as u32, mark as u32, &mut page, &mut origin) })?;
        Ok((page, Origin::of(origin)))
    }

    /// *Zone.* The first page of the lowest free block of 2^order pages, which is then lent.
    pub fn alloc_low(&mut self, zone: u32, order: u32) -> Result<u32, Refusal> {
        let mut page = 0;
        answered(unsafe { raw::zonealloc_alloc_low(&mut self.handle, zone, order, &mut page) })?;
        Ok(page)
    }

    /// *Zone.* Gives back a lent block.
    pub fn free(&mut self, zone: u32, page: u32, order: u32) -> Result<(), Refusal> {
        answered(unsafe { raw::zonealloc_free(&mut self.handle, zone, page, order) })
    }

    /// *Zone.* A block of 2^order pages for each place of an array, one after another in one passage of the zone's gate: how many were got, which
    /// are then lent, and where that is not all, the refusal of the next. Their first pages stand in front.
    pub fn alloc_many(&mut self, zone: u32, order: u32, kind: MigrateType, mark: Mark, pages: &mut [u32]) -> (usize, Result<(), Refusal>) {
        let (room, mut got) = (pages.len(), 0);
        let told = unsafe {
            raw::zonealloc_alloc_many(&mut self.handle, zone, order, kind as u32, mark as u32, pages.as_mut_ptr(), room, &mut got)
        };
        (got, answered(told))
    }

    /// *Zone.* Gives back lent blocks, by their first pages and their orders, one after another in one passage of the zone's gate: how many were given
    /// back, and where that is not all, the refusal of the next.
    pub fn free_many(&mut self, zone: u32, pages: &[u32], orders: &[u32]) -> (usize, Result<(), Refusal>) {
        let mut freed = 0;
        let told = unsafe {
            raw::zonealloc_free_many(&mut self.handle, zone, pages.as_ptr(), pages.len(), orders.as_ptr(), orders.len(), &mut freed)
        };
        (freed, answered(told))
    }

    /// *Zone.* The first page of the lowest run of so many free pages that begins at a multiple of 2^align pages. All of them are then lent.
    pub fn alloc_run(&mut self, zone: u32, pages: u32, align: u32, mark: Mark) -> Result<u32, Refusal> {
        let mut page = 0;
        answered(unsafe { raw::zonealloc_alloc_run(&mut self.handle, zone, pages, align, mark as u32, &mut page) })?;
        Ok(page)
    }

    /// *Zone.* Takes so many pages from this one on, which are then lent: also in isolated pageblocks, and held to no mark.
    pub fn alloc_run_at(&mut self, zone: u32, page: u32, pages: u32) -> Result<(), Refusal> {
        answered(unsafe { raw::zonealloc_alloc_run_at(&mut self.handle, zone, page, pages) })
    }

    /// *Zone.* Gives back so many lent pages from this one on, by whatever blocks they are lent: a run, a part of one, or of several.
    pub fn free_run(&mut self, zone: u32, page: u32, pages: u32) -> Result<(), Refusal> {
        answered(unsafe { raw::zonealloc_free_run(&mut self.handle, zone, page, pages) })
    }

    /// *Zone.* Posts a lent block to the worker of this number.
    pub fn post(&mut self, zone: u32, page: u32, order: u32, to: u32) -> Result<(), Refusal> {
        answered(unsafe { raw::zonealloc_post(&mut self.handle, zone, page, order, to) })
    }

    /// *Zone.* The page and the order of the block that was posted to this worker first, which is then lent.
    pub fn collect(&mut self, zone: u32) -> Result<(u32, u32), Refusal> {
        let (mut page, mut order) = (0, 0);
        answered(unsafe { raw::zonealloc_collect(&mut self.handle, zone, &mut page, &mut order) })?;
        Ok((page, order))
    }

    /// *Zone.* Isolates a pageblock: nothing is chosen from it.
    pub fn isolate(&mut self, zone: u32, pageblock: u32) -> Result<(), Refusal> {
        answered(unsafe { raw::zonealloc_isolate(&mut self.handle, zone, pageblock) })
    }

    /// *Zone.* Gives an isolated pageblock a type.
    pub fn release(&mut self, zone: u32, pageblock: u32, kind: MigrateType) -> Result<(), Refusal> {
        answered(unsafe { raw::zonealloc_release(&mut self.handle, zone, pageblock, kind as u32) })
    }

    /// *Zone.* Fills the worker's empty list with up to a batch of pages.
    pub fn refill(&mut self, zone: u32, kind: MigrateType, mark: Mark) -> Result<(), Refusal> {
        answered(unsafe { raw::zonealloc_refill(&mut self.handle, zone, kind as u32, mark as u32) })
    }

    /// *Zone.* Gives back so many pages from the back of the worker's list.
    pub fn drain(&mut self, zone: u32, kind: MigrateType, count: u32) -> Result<(), Refusal> {
        answered(unsafe { raw::zonealloc_drain(&mut self.handle, zone, kind as u32, count) })
    }

    /// *Zone.* Gives back all pages of the worker's lists, a list at a time. Where it is refused the lists before that one are empty.
    pub fn drain_all(&mut self, zone: u32) -> Result<(), Refusal> {
        answered(unsafe { raw::zonealloc_drain_all(&mut self.handle, zone) })
    }

    /// *Zone.* Free blocks of each order, free and posted pages, and the level.
    pub fn counts(&mut self, zone: u32) -> Result<(Counts, Level), Refusal> {
        let mut told = raw::RawCounts::default();
        answered(unsafe { raw::zonealloc_counts(&mut self.handle, zone, &mut told) })?;
        Ok((told.counts, Level::of(told.level)))
    }

    /// *Zone.* Free blocks by their pageblock's type and their order, and pageblocks by their type. It looks at each pageblock.
    pub fn counts_by_type(&mut self, zone: u32) -> Result<CountsByType, Refusal> {
        let mut told = CountsByType::default();
        answered(unsafe { raw::zonealloc_counts_by_type(&mut self.handle, zone, &mut told) })?;
        Ok(told)
    }

    /// *Zone.* A reader of the zone's board. In a row that was made without boards it is refused [`Refusal::NoBoard`].
    pub fn reader(&mut self, zone: u32) -> Result<Reader, Refusal> {
        let mut reader = Reader { handle: Handle::EMPTY };
        answered(unsafe { raw::zonealloc_reader(&mut self.handle, zone, &mut reader.handle) })?;
        Ok(reader)
    }

    /// *Zone.* The info line, without its line feed.
    pub fn info(&mut self, zone: u32) -> Result<InfoLine, Refusal> {
        let (mut line, mut len) = ([0; InfoLine::ROOM], 0);
        answered(unsafe { raw::zonealloc_info(&mut self.handle, zone, line.as_mut_ptr(), line.len(), &mut len) })?;
        Ok(InfoLine::of(line, len))
    }

    /// *Zone.* What is noted of a page.
    pub fn page(&mut self, zone: u32, page: u32) -> Result<PageState, Refusal> {
        let mut told = raw::Page::default();
        answered(unsafe { raw::zonealloc_page(&mut self.handle, zone, page, &mut told) })?;
        let raw::Page { state, order, kind, worker } = told;
        Ok(match state {
            0 => PageState::Tail,
            1 => PageState::Free { order },
            2 => PageState::Out { order, kind: MigrateType::of(kind), worker },
            _ => PageState::Posted { order, kind: MigrateType::of(kind), worker },
        })
    }

    /// *Zone.* What a pageblock is.
    pub fn pageblock(&mut self, zone: u32, pageblock: u32) -> Result<PageblockState, Refusal> {
        let mut told = raw::Pageblock::default();
        answered(unsafe { raw::zonealloc_pageblock(&mut self.handle, zone, pageblock, &mut told) })?;
        let kind = if told.kind == 3 { None } else { Some(MigrateType::of(told.kind)) };
        let largest = if told.largest == 11 { None } else { Some(told.largest) };
        Ok(PageblockState { kind, free: told.free, largest })
    }
}
