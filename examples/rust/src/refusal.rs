use core::fmt;

/// The refusals by their numbers, which `include/zonealloc.h` explains.
macro_rules! refusals {
    ($($name:ident = $number:literal,)*) => {
        /// Why a call was refused. Nothing has changed then, but where the call's own line says what has.
        #[derive(Clone, Copy, Debug, PartialEq, Eq)]
        #[repr(u32)]
        pub enum Refusal {
            $($name = $number,)*
        }

        /// What a call of the archive answered.
        pub(crate) fn answered(number: u32) -> Result<(), Refusal> {
            match number {
                0 => Ok(()),
                $($number => Err(Refusal::$name),)*
                _ => panic!("the archive answered {number}, which the header does not have"),
            }
        }
    };
}

refusals! {
    BadName = 1,
    BadBase = 2,
    BadPages = 3,
    BadMark = 4,
    BadWorkers = 5,
    NoMemory = 6,
    BelowMark = 10,
    NoBlock = 11,
    NothingPosted = 12,
    BadPageblock = 13,
    AlreadyIsolated = 14,
    NotIsolated = 15,
    BadRun = 16,
    NotFree = 17,
    NotLent = 20,
    ListFull = 21,
    Ended = 30,
    BadArgument = 40,
    BadHandle = 41,
    Busy = 42,
    HasWorkers = 43,
    ListEmpty = 44,
    ListNotEmpty = 45,
    NoLists = 46,
    NoBoard = 47,
}

impl fmt::Display for Refusal {
    fn fmt(&self, f: &mut fmt::Formatter<'_>) -> fmt::Result {
        write!(f, "refused {}: {:?}", *self as u32, self)
    }
}

#[cfg(feature = "std")]
impl std::error::Error for Refusal {}
