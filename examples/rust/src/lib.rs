//! A zoned page allocator, proved: safe wrappers over its static library.
//!
//! A [`Row`] is 1 to 64 zones, a [`Worker`] one worker's share of it, of at most 32. Every number that does not fit is refused by the archive
//! itself, so no call here has a condition. What a handle asks of its holder is in the types:
//!
//! A worker does not outlive its row:
//!
//! ```compile_fail,E0505
//! let mut row = zonealloc::Row::make(&[zonealloc::ZoneSpec::new("Normal", 0, 1024, 0, 10)], 1, None).unwrap();
//! let workers = row.workers();
//! drop(row);
//! drop(workers);
//! ```
//!
//! A worker goes to another thread, and is never used by two at once:
//!
//! ```compile_fail,E0277
//! fn is_sync<T: Sync>() {}
//! is_sync::<zonealloc::Worker<'static>>();
//! ```
//!
//! Nothing here asks for memory but the archive, when a row or a reader is made. Without the feature `std` the crate needs `core` alone: a rest then only
//! waits, and the program supplies the two memory functions, as `examples/freestanding.rs` does.
#![no_std]

#[cfg(feature = "std")]
extern crate std;

mod pages;
mod raw;
mod reader;
mod refusal;
mod row;
mod values;
mod worker;

pub use reader::Reader;
pub use refusal::Refusal;
pub use row::{Row, Workers};
pub use values::{
    Block, Counts, CountsByType, InfoLine, Level, Lists, Mark, MigrateType, Origin, PageState, PageblockState, Reading, Totals, ZoneSpec,
};
pub use worker::Worker;

/// Makes a call until no other is in its zone, with a longer rest each time.
pub fn until_free<T>(mut call: impl FnMut() -> Result<T, Refusal>) -> Result<T, Refusal> {
    let mut hints = 256;
    loop {
        match call() {
            Err(Refusal::Busy) => rest(&mut hints),
            answer => return answer,
        }
    }
}

fn rest(hints: &mut u32) {
    for _ in 0..*hints {
        core::hint::spin_loop();
    }
    if *hints < 4096 {
        *hints *= 2;
    } else {
        #[cfg(feature = "std")]
        std::thread::yield_now();
    }
}
