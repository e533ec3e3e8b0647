//! What is asked with and what is told, in the layout of the header where it crosses as it is.

use core::fmt;
use core::ops::Deref;

/// A zone, before it is made.
#[repr(C)]
#[derive(Clone, Copy, Debug)]
pub struct ZoneSpec {
    base: u32,
    pages: u32,
    min: u32,
    largest: u32,
    name_len: u32,
    name: [u8; 8],
}

impl ZoneSpec {
    /// A zone of so many pages from page `base` on, with its least mark, and the order of its largest block. A name of more than 8 bytes
    /// is refused when the row is made, as all else that does not fit.
    pub fn new(name: &str, base: u32, pages: u32, min: u32, largest: u32) -> ZoneSpec {
        let mut bytes = [0; 8];
        for (to, from) in bytes.iter_mut().zip(name.bytes()) {
            *to = from;
        }
        let name_len = u32::try_from(name.len()).unwrap_or(u32::MAX);
        ZoneSpec { base, pages, min, largest, name_len, name: bytes }
    }
}

/// The lists of single pages that each worker has: how many pages a list gets or gives back at a time (1 to 31), and how many it has at
/// most (more than that, at most 64).
#[derive(Clone, Copy, Debug)]
pub struct Lists {
    pub batch: u32,
    pub high_len: u32,
}

#[derive(Clone, Copy, Debug, PartialEq, Eq)]
#[repr(u32)]
pub enum MigrateType {
    Unmovable = 0,
    Reclaimable = 1,
    Movable = 2,
}

impl MigrateType {
    pub const ALL: [MigrateType; 3] = [MigrateType::Unmovable, MigrateType::Reclaimable, MigrateType::Movable];

    pub(crate) fn of(number: u32) -> MigrateType {
        MigrateType::ALL[number as usize]
    }
}

/// By which some pages of a zone are kept back.
#[derive(Clone, Copy, Debug, PartialEq, Eq)]
#[repr(u32)]
pub enum Mark {
    Any = 0,
    Min = 1,
    Low = 2,
}

/// Where a block came from: a list of its own type, a list of another whose pageblock was then claimed for the type, or one whose pageblock keeps
/// its type.
#[derive(Clone, Copy, Debug, PartialEq, Eq)]
#[repr(u32)]
pub enum Origin {
    Own = 0,
    Claimed = 1,
    Borrowed = 2,
}

impl Origin {
    pub(crate) fn of(number: u32) -> Origin {
        [Origin::Own, Origin::Claimed, Origin::Borrowed][number as usize]
    }
}

/// The highest mark that the available pages are above.
#[derive(Clone, Copy, Debug, PartialEq, Eq)]
pub enum Level {
    Short,
    Min,
    Low,
    High,
}

impl Level {
    pub(crate) fn of(number: u32) -> Level {
        [Level::Short, Level::Min, Level::Low, Level::High][number as usize]
    }
}

/// How many free blocks a zone has of each order, and how many free and posted pages.
#[repr(C)]
#[derive(Clone, Copy, Debug, Default, PartialEq, Eq)]
pub struct Counts {
    pub by_order: [u32; 11],
    pub free: u32,
    pub posted: u32,
}

/// How many free blocks a zone had of each order, and how many free pages, after so many requests to it.
#[repr(C)]
#[derive(Clone, Copy, Debug, Default, PartialEq, Eq)]
pub struct Reading {
    pub by_order: [u32; 11],
    pub free: u32,
    pub place: u64,
}

/// How many free blocks of each order a zone has in the pageblocks of each type, by the number of the type, and how many pageblocks of each:
/// what `/proc/pagetypeinfo` has. Behind the migrate types come those of isolated pageblocks.
#[repr(C)]
#[derive(Clone, Copy, Debug, Default, PartialEq, Eq)]
pub struct CountsByType {
    pub free: [[u32; 11]; 4],
    pub pageblocks: [u32; 4],
}

/// Where the pages of a zone are, in the end.
#[repr(C)]
#[derive(Clone, Copy, Debug, Default, PartialEq, Eq)]
pub struct Totals {
    pub free: u32,
    pub posted: u32,
    pub cached: u32,
    pub lent: u32,
}

/// What is noted of a page.
#[derive(Clone, Copy, Debug, PartialEq, Eq)]
pub enum PageState {
    Tail,
    Free { order: u32 },
    Out { order: u32, kind: MigrateType, worker: u32 },
    Posted { order: u32, kind: MigrateType, worker: u32 },
}

impl PageState {
    /// The type of the block that the page heads, where it is lent or posted.
    pub fn kind(self) -> Option<MigrateType> {
        match self {
            PageState::Out { kind, .. } | PageState::Posted { kind, .. } => Some(kind),
            PageState::Tail | PageState::Free { .. } => None,
        }
    }
}

/// A block that is lent: its zone, and its first page.
#[derive(Clone, Copy, Debug, PartialEq, Eq)]
pub struct Block {
    pub zone: u32,
    pub page: u32,
}

/// What a pageblock is: of which type, where it is not isolated, how many of its pages are free, and the order of its largest free block.
#[derive(Clone, Copy, Debug, PartialEq, Eq)]
pub struct PageblockState {
    pub kind: Option<MigrateType>,
    pub free: u32,
    pub largest: Option<u32>,
}

/// A zone's info line, as text.
#[derive(Clone, Copy)]
pub struct InfoLine {
    bytes: [u8; InfoLine::ROOM],
    len: usize,
}

impl InfoLine {
    pub(crate) const ROOM: usize = 160;

    /// The line that the archive wrote, with its line feed.
    pub(crate) fn of(bytes: [u8; InfoLine::ROOM], len: usize) -> InfoLine {
        InfoLine { bytes, len: len.saturating_sub(1).min(InfoLine::ROOM) }
    }
}

impl Deref for InfoLine {
    type Target = str;

    fn deref(&self) -> &str {
        core::str::from_utf8(&self.bytes[..self.len]).unwrap_or("")
    }
}

impl fmt::Display for InfoLine {
    fn fmt(&self, f: &mut fmt::Formatter<'_>) -> fmt::Result {
        f.write_str(self)
    }
}

impl fmt::Debug for InfoLine {
    fn fmt(&self, f: &mut fmt::Formatter<'_>) -> fmt::Result {
        write!(f, "{:?}", &**self)
    }
}
