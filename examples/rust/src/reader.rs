use crate::raw::{self, Handle};
use crate::refusal::answered;
use crate::values::Reading;

/// A reader of a zone's board: it reads the zone's counts with no lock, whoever is in the zone. It may outlive its row.
pub struct Reader {
    pub(crate) handle: Handle,
}

impl Reader {
    /// The zone's counts as they were after so many requests, never older than what this reader read before.
    pub fn read(&mut self) -> Reading {
        let mut reading = Reading::default();
        // SAFETY: the handle is what the archive wrote last, and is this reader's alone.
        let answer = answered(unsafe { raw::zonealloc_read(&mut self.handle, &mut reading) });
        debug_assert!(answer.is_ok(), "a reader is in the handle till it is dropped");
        reading
    }
}

impl Drop for Reader {
    fn drop(&mut self) {
        // SAFETY: as for `read`. A handle in which no reader came is empty, and refused.
        let _ = unsafe { raw::zonealloc_end_reader(&mut self.handle) };
    }
}
