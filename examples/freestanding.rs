//! No library of Rust but `core`: memory from an array of the program's own. For Linux, whose C library starts and ends the program, and
//! has the functions that move and fill memory. It ends with status 0, or with the number of the step that went wrong.
//!
//!     rustc --edition 2021 -C panic=abort rust/src/lib.rs --crate-type rlib --crate-name zonealloc
//!     rustc --edition 2021 -C panic=abort freestanding.rs --extern zonealloc=libzonealloc.rlib -L FOLDER -l static=zonealloc
//!
//! where FOLDER has libzonealloc.a.
#![no_std]
#![no_main]

use core::cell::UnsafeCell;
use core::panic::PanicInfo;
use core::sync::atomic::{AtomicUsize, Ordering};
use zonealloc::{Block, Lists, Mark, MigrateType, Refusal, Row, ZoneSpec};

#[link(name = "c")]
extern "C" {
    fn abort() -> !;
}

#[panic_handler]
fn panic(_: &PanicInfo) -> ! {
    // SAFETY: it takes nothing and ends the program.
    unsafe { abort() }
}

/// `core` as it comes names this, and calls it where a panic unwinds: here none does.
#[no_mangle]
pub extern "C" fn rust_eh_personality() {}

const ROOM: usize = 4 << 20;

#[repr(align(64))]
struct Memory(UnsafeCell<[u8; ROOM]>);

// SAFETY: each of its bytes is handed out once.
unsafe impl Sync for Memory {}

static MEMORY: Memory = Memory(UnsafeCell::new([0; ROOM]));
static USED: AtomicUsize = AtomicUsize::new(0);
static BLOCKS: AtomicUsize = AtomicUsize::new(0);

/// What `include/zonealloc_memory.h` declares.
#[repr(C)]
pub struct Got {
    ok: bool,
    at: *mut u8,
}

/// What is given back is not used again.
#[no_mangle]
pub extern "C" fn rattle_alloc(bytes: usize, align: usize) -> Got {
    let start = (USED.load(Ordering::Relaxed) + align - 1) / align * align;
    let at: *mut u8 = MEMORY.0.get().cast();
    if align > 64 || start > ROOM || bytes > ROOM - start {
        return Got { ok: false, at };
    }
    USED.store(start + bytes, Ordering::Relaxed);
    BLOCKS.fetch_add(1, Ordering::Relaxed);
    Got { ok: true, at: at.wrapping_add(start) }
}

#[no_mangle]
pub extern "C" fn rattle_dealloc(_at: *mut u8) {
    BLOCKS.fetch_sub(1, Ordering::Relaxed);
}

/// Pages and blocks come and go by the lists, and in the end all are where they were.
fn use_row() -> Result<bool, Refusal> {
    let zones = [ZoneSpec::new("DMA", 0, 4096, 0, 10), ZoneSpec::new("Normal", 4096, 16384, 64, 10)];
    let mut row = Row::make(&zones, 2, Some(Lists { batch: 31, high_len: 62 }))?;
    let mut workers = row.workers();
    let mut worker = workers.next().ok_or(Refusal::BadWorkers)?;
    for i in 0..1000 {
        let Block { zone, page } = worker.alloc_pages(1, i % 11, MigrateType::Movable, Mark::Low)?;
        worker.free_pages(zone, page, i % 11)?;
    }
    worker.drain_all(1)?;
    let told = worker.info(1)?.len();
    drop((worker, workers));
    Ok(told == 99 && row.gather(1)?.free == 16384)
}

#[no_mangle]
pub extern "C" fn main() -> i32 {
    match use_row() {
        Ok(true) if BLOCKS.load(Ordering::Relaxed) == 0 => 0,
        Ok(true) => 1,
        Ok(false) => 2,
        Err(why) => why as i32,
    }
}
