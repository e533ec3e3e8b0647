//! Blocks by the worker's lists, as `include/zonealloc_threads.h` has them.

use crate::values::{Block, Lists, Mark, MigrateType};
use crate::{until_free, Refusal, Worker};

/// Whether another zone may have what this one has not.
fn has_none<T>(answer: &Result<T, Refusal>) -> bool {
    matches!(answer, Err(Refusal::NoBlock | Refusal::BelowMark))
}

impl Worker<'_> {
    /// A block of 2^order pages, of this zone or the nearest below that gives one, which is then lent. A single page comes from the worker's
    /// list, which is filled where it is empty. Where no zone gives a block, the worker's own lists of these zones go back to them, and where
    /// those had a page all are asked once more. It is never refused [`Refusal::Busy`].
    pub fn alloc_pages(&mut self, zone: u32, order: u32, kind: MigrateType, mark: Mark) -> Result<Block, Refusal> {
        let answer = self.search(zone, order, kind, mark);
        if has_none(&answer) && self.drain_down(zone) {
            return self.search(zone, order, kind, mark);
        }
        answer
    }

    /// Gives back a block of a zone: a single page to the worker's list of its type, from which a batch goes to the zone first where it is
    /// full. No other list changes. It is never refused [`Refusal::Busy`].
    pub fn free_pages(&mut self, zone: u32, page: u32, order: u32) -> Result<(), Refusal> {
        match self.lists {
            Some(lists) if order == 0 => self.put_or_drain(zone, page, lists),
            _ => until_free(|| self.free(zone, page, order)),
        }
    }

    fn put_or_drain(&mut self, zone: u32, page: u32, lists: Lists) -> Result<(), Refusal> {
        match self.put(zone, page) {
            Err(Refusal::ListFull) => {
                let kind = self.full_kind(zone, page, lists.high_len)?;
                until_free(|| self.drain(zone, kind, lists.batch))?;
                self.put(zone, page)
            }
            answer => answer,
        }
    }

    fn search(&mut self, zone: u32, order: u32, kind: MigrateType, mark: Mark) -> Result<Block, Refusal> {
        let mut at = zone;
        loop {
            let answer = self.page_of(at, order, kind, mark);
            if at == 0 || !has_none(&answer) {
                return answer.map(|page| Block { zone: at, page });
            }
            at -= 1;
        }
    }

    fn page_of(&mut self, zone: u32, order: u32, kind: MigrateType, mark: Mark) -> Result<u32, Refusal> {
        if order != 0 || self.lists.is_none() {
            return until_free(|| self.alloc(zone, order, kind, mark));
        }
        match self.take(zone, kind) {
            Err(Refusal::ListEmpty) => {
                until_free(|| self.refill(zone, kind, mark))?;
                self.take(zone, kind)
            }
            answer => answer,
        }
    }

    /// Gives back what the worker's lists have of the zones up to this one, and tells whether that was anything.
    fn drain_down(&mut self, zone: u32) -> bool {
        let mut some = false;
        for at in (0..=zone).rev() {
            let has = MigrateType::ALL.iter().any(|&kind| self.cached(at, kind) != Ok(0));
            some |= has && until_free(|| self.drain_all(at)).is_ok();
        }
        some
    }

    /// The type of a page for which its list has no room: that of the one list that is full, and where more are, what is noted of the page.
    fn full_kind(&mut self, zone: u32, page: u32, high_len: u32) -> Result<MigrateType, Refusal> {
        let mut full = None;
        for kind in MigrateType::ALL {
            if self.cached(zone, kind)? >= high_len && full.replace(kind).is_some() {
                return until_free(|| self.page(zone, page))?.kind().ok_or(Refusal::NotLent);
            }
        }
        full.ok_or(Refusal::NotLent)
    }
}
