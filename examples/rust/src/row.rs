use crate::raw::{self, Handle};
use crate::refusal::answered;
use crate::values::{Lists, Totals, ZoneSpec};
use crate::{Refusal, Worker};
use core::marker::PhantomData;
use core::mem;

/// The most workers of a row.
const MOST: usize = 32;

/// The handles of workers whom nobody has yet, by their numbers.
struct Unused {
    handles: [Handle; MOST],
    next: usize,
    end: usize,
}

impl Unused {
    fn none() -> Unused {
        Unused { handles: [Handle::EMPTY; MOST], next: 0, end: 0 }
    }
}

/// A row of zones. When it is dropped its memory is given back, but where a worker was forgotten and not dropped: then it stays.
pub struct Row {
    handle: Handle,
    lists: Option<Lists>,
    unused: Unused,
}

impl Row {
    /// Makes a row of these zones, the lowest first, with so many workers, who have lists of single pages or none.
    pub fn make(zones: &[ZoneSpec], workers: u32, lists: Option<Lists>) -> Result<Row, Refusal> {
        Row::made(zones, workers, lists, raw::zonealloc_make)
    }

    /// The same with a board for each zone, of which [`Worker::reader`] makes readers.
    pub fn make_with_boards(zones: &[ZoneSpec], workers: u32, lists: Option<Lists>) -> Result<Row, Refusal> {
        Row::made(zones, workers, lists, raw::zonealloc_make_with_boards)
    }

    fn made(zones: &[ZoneSpec], workers: u32, lists: Option<Lists>, make: raw::Make) -> Result<Row, Refusal> {
        let count = workers as usize;
        if count > MOST {
            return Err(Refusal::BadWorkers);
        }
        let Lists { batch, high_len } = lists.unwrap_or(Lists { batch: 0, high_len: 0 });
        let mut row = Row { handle: Handle::EMPTY, lists, unused: Unused::none() };
        let handles = row.unused.handles.as_mut_ptr();
        // SAFETY: there are as many handles and zones as is said, which do not overlap; the handles are empty.
        let number = unsafe { make(&mut row.handle, handles, count, zones.as_ptr(), zones.len(), batch, high_len) };
        answered(number)?;
        row.unused.end = count;
        Ok(row)
    }

    /// How many bytes such a making takes at most.
    pub fn bytes(zones: &[ZoneSpec], workers: u32) -> Result<u64, Refusal> {
        let mut bytes = 0;
        // SAFETY: the zones are as long as is said.
        answered(unsafe { raw::zonealloc_bytes(zones.as_ptr(), zones.len(), workers, &mut bytes) })?;
        Ok(bytes)
    }

    /// The workers of the row, by their numbers. There are none the second time.
    pub fn workers(&mut self) -> Workers<'_> {
        Workers { unused: mem::replace(&mut self.unused, Unused::none()), lists: self.lists, row: PhantomData }
    }

    /// Where the pages of a zone are, when the workers were dropped. What is lent then was never given back.
    pub fn gather(&mut self, zone: u32) -> Result<Totals, Refusal> {
        let mut totals = Totals::default();
        // SAFETY: the handle is what the archive wrote last. No worker is at hand: each of them borrows the row.
        answered(unsafe { raw::zonealloc_gather(&mut self.handle, zone, &mut totals) })?;
        Ok(totals)
    }
}

impl Drop for Row {
    fn drop(&mut self) {
        drop(self.workers());
        // SAFETY: as for `gather`. What is refused leaves the memory where it is.
        let _ = unsafe { raw::zonealloc_unmake(&mut self.handle) };
    }
}

/// The workers of a row, one after the other. Those that are left are dismissed when this is dropped.
pub struct Workers<'row> {
    unused: Unused,
    lists: Option<Lists>,
    row: PhantomData<&'row ()>,
}

impl<'row> Iterator for Workers<'row> {
    type Item = Worker<'row>;

    fn next(&mut self) -> Option<Worker<'row>> {
        if self.unused.next == self.unused.end {
            return None;
        }
        let handle = mem::replace(&mut self.unused.handles[self.unused.next], Handle::EMPTY);
        self.unused.next += 1;
        Some(Worker::of(handle, self.lists))
    }

    fn size_hint(&self) -> (usize, Option<usize>) {
        let left = self.unused.end - self.unused.next;
        (left, Some(left))
    }
}

impl ExactSizeIterator for Workers<'_> {}

impl Drop for Workers<'_> {
    fn drop(&mut self) {
        self.for_each(drop);
    }
}
