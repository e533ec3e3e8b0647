//! The frames of a kernel's page tables, 4 KiB and 2 MiB each, from a zone: page numbers are physical addresses divided by 4,096. The traits
//! are those of the crate `x86_64`, written out, so that this needs no other crate.
//!
//! For Linux it is a program that tests itself: `cargo run --example frame_allocator`. For a kernel's target, which the archive of its name in
//! build/targets serves, it has `_start` and needs `core` alone; what the archive wants of memory, it has:
//!
//!     cargo build --example frame_allocator --no-default-features --target x86_64-unknown-none        (or aarch64-unknown-none)
#![cfg_attr(target_os = "none", no_std, no_main)]

use core::marker::PhantomData;
use zonealloc::{Lists, Mark, MigrateType, Refusal, Row, Worker, ZoneSpec};

/// How large a frame is, and of which order its block.
pub trait PageSize {
    const SIZE: u64 = 4096 << Self::ORDER;
    const ORDER: u32;
}

pub enum Size4KiB {}

pub enum Size2MiB {}

impl PageSize for Size4KiB {
    const ORDER: u32 = 0;
}

impl PageSize for Size2MiB {
    const ORDER: u32 = 9;
}

/// A frame, by its physical address.
pub struct PhysFrame<S: PageSize> {
    start: u64,
    size: PhantomData<S>,
}

/// # Safety
/// A frame that is answered is nobody's else.
pub unsafe trait FrameAllocator<S: PageSize> {
    fn allocate_frame(&mut self) -> Option<PhysFrame<S>>;
}

pub trait FrameDeallocator<S: PageSize> {
    /// # Safety
    /// Nobody uses the frame.
    unsafe fn deallocate_frame(&mut self, frame: PhysFrame<S>);
}

/// A processor's own: its worker of a row with one zone.
pub struct Frames<'row>(Worker<'row>);

// SAFETY: a block that is lent is lent to nobody else, and begins at a multiple of its size.
unsafe impl<S: PageSize> FrameAllocator<S> for Frames<'_> {
    fn allocate_frame(&mut self) -> Option<PhysFrame<S>> {
        let block = self.0.alloc_pages(0, S::ORDER, MigrateType::Unmovable, Mark::Low).ok()?;
        Some(PhysFrame { start: u64::from(block.page) * Size4KiB::SIZE, size: PhantomData })
    }
}

impl<S: PageSize> FrameDeallocator<S> for Frames<'_> {
    /// A frame that this worker does not have is refused, and then nothing has changed: that is the caller's fault.
    unsafe fn deallocate_frame(&mut self, frame: PhysFrame<S>) {
        let freed = u32::try_from(frame.start / Size4KiB::SIZE).map(|page| self.0.free_pages(0, page, S::ORDER));
        assert_eq!(freed, Ok(Ok(())), "a frame that is not this worker's comes back");
    }
}

/// The memory: from 16 MiB on, 128 MiB.
const FIRST: u32 = 4096;
const PAGES: u32 = 32768;

/// Both sizes by turns until there is no large frame, or each larger than the one before at the same time. Whether no two frames overlap, each is
/// where it has to be, and in the end all are back.
fn is_used_well() -> Result<bool, Refusal> {
    let zones = [ZoneSpec::new("Normal", FIRST, PAGES, 64, 10)];
    let mut row = Row::make(&zones, 1, Some(Lists { batch: 31, high_len: 62 }))?;
    let mut workers = row.workers();
    let mut frames = Frames(workers.next().ok_or(Refusal::BadWorkers)?);
    let mut large: [Option<PhysFrame<Size2MiB>>; 64] = core::array::from_fn(|_| None);
    let mut small: [Option<PhysFrame<Size4KiB>>; 64] = core::array::from_fn(|_| None);
    let mut is_well = true;
    for at in 0..64 {
        (large[at], small[at]) = (frames.allocate_frame(), frames.allocate_frame());
    }
    let inside =
        |start: u64, size: u64| start % size == 0 && start >= u64::from(FIRST) * 4096 && start + size <= u64::from(FIRST + PAGES) * 4096;
    for one in large.iter().flatten() {
        is_well &= inside(one.start, Size2MiB::SIZE) && large.iter().flatten().filter(|other| other.start == one.start).count() == 1;
        is_well &= !small.iter().flatten().any(|other| (one.start..one.start + Size2MiB::SIZE).contains(&other.start));
    }
    for one in small.iter().flatten() {
        is_well &= inside(one.start, Size4KiB::SIZE) && small.iter().flatten().filter(|other| other.start == one.start).count() == 1;
    }
    // all but one of the 64 pageblocks of 2 MiB each: the small ones have that
    is_well &= large.iter().flatten().count() == 63 && small.iter().flatten().count() == 64;
    for at in 0..64 {
        // SAFETY: nothing uses the frames.
        unsafe {
            large[at].take().into_iter().for_each(|it| frames.deallocate_frame(it));
            small[at].take().into_iter().for_each(|it| frames.deallocate_frame(it));
        }
    }
    frames.0.drain_all(0)?;
    drop((frames, workers));
    Ok(is_well && row.gather(0)?.free == PAGES)
}

#[cfg(not(target_os = "none"))]
fn main() {
    assert_eq!(is_used_well(), Ok(true));
    println!("frames: well");
}

/// What a kernel has of its own, in few lines.
#[cfg(target_os = "none")]
mod kernel {
    use core::cell::UnsafeCell;
    use core::sync::atomic::{AtomicUsize, Ordering};

    #[panic_handler]
    fn panic(_: &core::panic::PanicInfo) -> ! {
        loop {
            core::hint::spin_loop();
        }
    }

    #[no_mangle]
    pub extern "C" fn _start() -> ! {
        assert_eq!(super::is_used_well(), Ok(true));
        loop {
            core::hint::spin_loop();
        }
    }

    const ROOM: usize = 1 << 20;

    #[repr(align(64))]
    struct Memory(UnsafeCell<[u8; ROOM]>);

    // SAFETY: each of its bytes is handed out once.
    unsafe impl Sync for Memory {}

    static MEMORY: Memory = Memory(UnsafeCell::new([0; ROOM]));
    static USED: AtomicUsize = AtomicUsize::new(0);

    /// What `include/zonealloc_memory.h` declares.
    #[repr(C)]
    pub struct Got {
        ok: bool,
        at: *mut u8,
    }

    #[no_mangle]
    pub extern "C" fn rattle_alloc(bytes: usize, align: usize) -> Got {
        let start = (USED.load(Ordering::Relaxed) + align - 1) / align * align;
        let at: *mut u8 = MEMORY.0.get().cast();
        if align > 64 || start > ROOM || bytes > ROOM - start {
            return Got { ok: false, at };
        }
        USED.store(start + bytes, Ordering::Relaxed);
        Got { ok: true, at: at.wrapping_add(start) }
    }

    /// What is given back is not used again.
    #[no_mangle]
    pub extern "C" fn rattle_dealloc(_at: *mut u8) {}
}
