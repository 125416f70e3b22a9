//! Why calls are refused.

use std::fmt;

/// Why a call was refused: it changed nothing. `docs/RULES.md` has the faults of each step in their order.
///
/// ```
/// use hl::{Core, Fault, Sizes};
///
/// let core = Core::open(Sizes::checked(4, 2, 2, 2)?)?;
/// assert_eq!(core.take(), Err(Fault::Empty));
/// assert_eq!(Fault::Empty.to_string(), "fault 7 Empty");
/// # Ok::<(), Fault>(())
/// ```
#[derive(Clone, Copy, Debug, PartialEq, Eq, Hash)]
#[non_exhaustive]
pub enum Fault {
    /// There is no such slot.
    NoSlot,
    /// The slot is protected already.
    Occupied,
    /// The slot isn't protected.
    NotProtected,
    /// A look brings an offset below the view's.
    Stale,
    /// The drain list is full.
    DrainFull,
    /// The current epoch is the last, 2^62.
    EpochsSpent,
    /// No action is pending.
    Empty,
    /// The ticket of the oldest pending action, `front`, is above the safe epoch.
    NotReady {
        /// The ticket of the oldest pending action.
        front: u64,
        /// The safe epoch.
        safe: u64,
    },
    /// The ticket isn't that of an action that was taken and isn't done.
    NotTaken,
    /// The address isn't above the offset that it is to move.
    NotAbove,
    /// The address is above the tail.
    AboveTail,
    /// No page begins at the address.
    NotPage,
    /// The address is above the flushed offset.
    AboveFlushed,
    /// A record of no word, or of more words than a page has.
    Size,
    /// The record would enter this page, whose frame isn't free.
    Busy {
        /// The page that can't be entered.
        page: u64,
    },
    /// The record would end above 2^48.
    SpaceSpent,
    /// The address is below the view's read-only offset.
    Below {
        /// The view's read-only offset.
        read_only: u64,
    },
    /// The address is at the view's tail or above.
    Beyond {
        /// The view's tail.
        tail: u64,
    },
    /// The address is below the view's head.
    Evicted {
        /// The view's head.
        head: u64,
    },
    /// No page waits to be flushed.
    NoneSealed,
    /// The page isn't being flushed.
    NotInFlight,
    /// No page waits to be cleaned.
    NoneClosed,
    /// The page isn't being cleaned.
    NotCleaning,
    /// A page couldn't be written: told by [`Pass::flush`](crate::Pass::flush) alone.
    Device,
    /// Memory was refused.
    OutOfMemory,
    /// 4,096 epochs have ended and aren't safe.
    WindowFull,
    /// A size, a frame, a place in a list or a number of pages is out of range.
    OutOfRange,
}

impl Fault {
    /// The fault of this number, which carries these two.
    pub(crate) fn of(number: u64, a: u64, b: u64) -> Fault {
        match number {
            1 => Fault::NoSlot,
            2 => Fault::Occupied,
            3 => Fault::NotProtected,
            4 => Fault::Stale,
            5 => Fault::DrainFull,
            6 => Fault::EpochsSpent,
            7 => Fault::Empty,
            8 => Fault::NotReady { front: a, safe: b },
            9 => Fault::NotTaken,
            10 => Fault::NotAbove,
            11 => Fault::AboveTail,
            12 => Fault::NotPage,
            13 => Fault::AboveFlushed,
            14 => Fault::Size,
            15 => Fault::Busy { page: a },
            16 => Fault::SpaceSpent,
            17 => Fault::Below { read_only: a },
            18 => Fault::Beyond { tail: a },
            19 => Fault::Evicted { head: a },
            20 => Fault::NoneSealed,
            21 => Fault::NotInFlight,
            22 => Fault::NoneClosed,
            23 => Fault::NotCleaning,
            28 => Fault::Device,
            29 => Fault::OutOfMemory,
            32 => Fault::WindowFull,
            254 => Fault::OutOfRange,
            // A pass that has no slot any more has an empty handle.
            255 => Fault::NotProtected,
            _ => unreachable!("an open core tells no fault {number}"),
        }
    }

    /// Its number, as `hl.h` has it.
    pub fn number(self) -> u64 {
        match self {
            Fault::NoSlot => 1,
            Fault::Occupied => 2,
            Fault::NotProtected => 3,
            Fault::Stale => 4,
            Fault::DrainFull => 5,
            Fault::EpochsSpent => 6,
            Fault::Empty => 7,
            Fault::NotReady { .. } => 8,
            Fault::NotTaken => 9,
            Fault::NotAbove => 10,
            Fault::AboveTail => 11,
            Fault::NotPage => 12,
            Fault::AboveFlushed => 13,
            Fault::Size => 14,
            Fault::Busy { .. } => 15,
            Fault::SpaceSpent => 16,
            Fault::Below { .. } => 17,
            Fault::Beyond { .. } => 18,
            Fault::Evicted { .. } => 19,
            Fault::NoneSealed => 20,
            Fault::NotInFlight => 21,
            Fault::NoneClosed => 22,
            Fault::NotCleaning => 23,
            Fault::Device => 28,
            Fault::OutOfMemory => 29,
            Fault::WindowFull => 32,
            Fault::OutOfRange => 254,
        }
    }
}

impl fmt::Display for Fault {
    /// As a script's text has it: its number, its name, and each field's name and number.
    fn fmt(&self, f: &mut fmt::Formatter<'_>) -> fmt::Result {
        write!(f, "fault {} ", self.number())?;
        match *self {
            Fault::NotReady { front, safe } => write!(f, "NotReady front {front} safe {safe}"),
            Fault::Busy { page } => write!(f, "Busy page {page}"),
            Fault::Below { read_only } => write!(f, "Below read_only {read_only}"),
            Fault::Beyond { tail } => write!(f, "Beyond tail {tail}"),
            Fault::Evicted { head } => write!(f, "Evicted head {head}"),
            plain => write!(f, "{plain:?}"),
        }
    }
}

impl std::error::Error for Fault {}
