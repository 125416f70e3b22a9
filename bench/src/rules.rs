//! The words of docs/RULES.md: sizes, steps, replies, faults and what the queries tell.

/// The greatest epoch.
pub const EPOCH_LAST: u64 = 1 << 62;
/// How many epochs at most have ended and are not safe.
pub const WINDOW: u64 = 4096;
/// No address lies at or above this one.
pub const SPACE: u64 = 1 << 48;

/// The four sizes of an allocator.
#[derive(Clone, Copy, Debug, PartialEq, Eq)]
pub struct Sizes {
    pub page_size: u64,
    pub frames: u64,
    pub slots: u64,
    pub drain_places: u64,
}

impl Sizes {
    /// These sizes, where they are in their ranges.
    pub fn checked(page_size: u64, frames: u64, slots: u64, drain_places: u64) -> Option<Sizes> {
        let fit = page_size.is_power_of_two()
            && (4..=4096).contains(&page_size)
            && (2..=256).contains(&frames)
            && (1..=64).contains(&slots)
            && (1..=64).contains(&drain_places);
        fit.then_some(Sizes {
            page_size,
            frames,
            slots,
            drain_places,
        })
    }

    /// Where the word of an address lies among those of all frames.
    pub fn cell_of(self, address: u64) -> usize {
        let cells = self.page_size * self.frames;
        let cell = if cells.is_power_of_two() {
            address & (cells - 1)
        } else {
            address % cells
        };
        cell as usize
    }
}

#[derive(Clone, Copy, Debug, PartialEq, Eq)]
pub enum Step {
    Acquire { slot: u64 },
    Refresh { slot: u64 },
    Release { slot: u64 },
    Bump { tag: u64 },
    Settle,
    Close,
    Bare,
    Take,
    Done { ticket: u64 },
    Raise { to: u64 },
    Shift { to: u64 },
    Allocate { slot: u64, words: u64 },
    Look { slot: u64, read_only: u64, head: u64 },
    Write { slot: u64, address: u64, value: u64 },
    Read { slot: u64, address: u64 },
    FlushTake,
    FlushDone { page: u64, ok: bool },
    CleanTake,
    CleanDone { page: u64 },
}

/// What a protected slot has seen of the offsets.
#[derive(Clone, Copy, Debug, Default, PartialEq, Eq)]
pub struct View {
    pub read_only: u64,
    pub head: u64,
    pub tail: u64,
}

/// What a bump stores beside its ticket.
#[derive(Clone, Copy, Debug, PartialEq, Eq)]
pub enum Kind {
    User(u64),
    Settle(u64),
    Close(u64),
}

/// An action in the drain list.
#[derive(Clone, Copy, Debug, PartialEq, Eq)]
pub struct Waiting {
    pub ticket: u64,
    pub kind: Kind,
}

#[derive(Clone, Copy, Debug, PartialEq, Eq)]
pub enum Reply {
    Entered {
        epoch: u64,
        view: View,
    },
    Left,
    Ticket(u64),
    Bumped(u64),
    /// A taken action, with what it carries: the table of steps shows the ticket alone.
    Taken(Waiting),
    Ran(u64),
    Settled(u64),
    Closed(u64),
    Raised(u64),
    Shifted(u64),
    At(u64),
    Looked(View),
    Written,
    Readable,
    Page(u64),
    Flushed(u64),
    Freed(u64),
}

#[derive(Clone, Copy, Debug, PartialEq, Eq)]
pub enum Fault {
    NoSlot,
    Occupied,
    NotProtected,
    Stale,
    DrainFull,
    EpochsSpent,
    Empty,
    NotReady { front: u64, safe: u64 },
    NotTaken,
    NotAbove,
    AboveTail,
    NotPage,
    AboveFlushed,
    Size,
    Busy { page: u64 },
    SpaceSpent,
    Below { read_only: u64 },
    Beyond { tail: u64 },
    Evicted { head: u64 },
    NoneSealed,
    NotInFlight,
    NoneClosed,
    NotCleaning,
    WindowFull,
    TouchesFull,
    JournalFull,
}

/// The offsets, in their order.
#[derive(Clone, Copy, Debug, Default, PartialEq, Eq)]
pub struct Six {
    pub closed: u64,
    pub head: u64,
    pub flushed: u64,
    pub safe_read_only: u64,
    pub read_only: u64,
    pub tail: u64,
}

#[derive(Clone, Copy, Debug, PartialEq, Eq)]
pub enum FrameState {
    Open,
    Sealed,
    Flushed,
    Closed,
    Free,
}

/// All quantities at once; frames are counted by their state, in the order of `FrameState`.
#[derive(Clone, Copy, Debug, PartialEq, Eq)]
pub struct Snapshot {
    pub epoch: u64,
    pub safe: u64,
    pub protected: u64,
    pub pending: u64,
    pub taken: u64,
    pub six: Six,
    pub frames: [u64; 5],
}
