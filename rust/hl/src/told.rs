//! Sizes, and what calls tell.

use crate::Fault;
use std::fmt;

/// Sizes in their ranges.
#[derive(Clone, Copy, Debug, PartialEq, Eq)]
pub struct Sizes {
    page_size: u64,
    frames: u64,
    slots: u64,
    drain_places: u64,
}

/// Four numbers for [`Sizes::of`], by their names: so none stands in another's place.
#[derive(Clone, Copy, Debug, PartialEq, Eq)]
pub struct RawSizes {
    /// Words a page.
    pub page_size: u64,
    /// Pages in memory.
    pub frames: u64,
    /// Slots for threads.
    pub slots: u64,
    /// Actions that wait or are taken at a time.
    pub drain_places: u64,
}

impl Sizes {
    /// Narrow sizes: words a page, a power of two from 4 to 4,096; 2 to 256 frames; 1 to 64 slots; 1 to 64 places in the
    /// drain list.
    ///
    /// [`Fault::OutOfRange`] where one is out of its range.
    pub fn checked(page_size: u64, frames: u64, slots: u64, drain_places: u64) -> Result<Sizes, Fault> {
        Sizes::within([page_size, frames, slots, drain_places], [4096, 256, 64, 64])
    }

    /// Sizes for an engine: words a page, a power of two from 4 to 2^20; 2 to 2^16 frames; 1 to 1,024 slots; 1 to 4,096
    /// places in the drain list.
    ///
    /// [`Fault::OutOfRange`] where one is out of its range.
    pub fn wide(page_size: u64, frames: u64, slots: u64, drain_places: u64) -> Result<Sizes, Fault> {
        Sizes::within(
            [page_size, frames, slots, drain_places],
            [1 << 20, 1 << 16, 1024, 4096],
        )
    }

    /// The same by names: wide sizes, in the ranges of [`Sizes::wide`].
    ///
    /// [`Fault::OutOfRange`] where one is out of its range.
    pub fn of(raw: RawSizes) -> Result<Sizes, Fault> {
        Sizes::wide(raw.page_size, raw.frames, raw.slots, raw.drain_places)
    }

    /// These numbers as sizes, in the order of [`Sizes::checked`], if none is above the greatest.
    fn within(given: [u64; 4], greatest: [u64; 4]) -> Result<Sizes, Fault> {
        let [page_size, frames, slots, drain_places] = given;
        let ranges = [4, 2, 1, 1].into_iter().zip(greatest);
        let fit = given
            .iter()
            .zip(ranges)
            .all(|(size, (least, most))| (least..=most).contains(size));
        if !fit || !page_size.is_power_of_two() {
            return Err(Fault::OutOfRange);
        }
        Ok(Sizes {
            page_size,
            frames,
            slots,
            drain_places,
        })
    }

    /// Words a page.
    pub fn page_size(self) -> u64 {
        self.page_size
    }

    /// Pages in memory.
    pub fn frames(self) -> u64 {
        self.frames
    }

    /// Slots for threads.
    pub fn slots(self) -> u64 {
        self.slots
    }

    /// Actions that wait or are taken at a time.
    pub fn drain_places(self) -> u64 {
        self.drain_places
    }

    /// The place of an address in a row of `page_size * frames` words.
    pub fn cell_of(self, address: u64) -> usize {
        // A page's size is a power of two, so one division is enough.
        let frame = (address >> self.page_size.trailing_zeros()) % self.frames;
        (frame * self.page_size + (address & (self.page_size - 1))) as usize
    }
}

/// What a slot sees of the log: it may write from `read_only`, and read from `head`, up to `tail`.
#[derive(Clone, Copy, Debug, Default, PartialEq, Eq)]
pub struct View {
    /// It may write from here.
    pub read_only: u64,
    /// It may read from here.
    pub head: u64,
    /// It may write and read below this.
    pub tail: u64,
}

impl fmt::Display for View {
    fn fmt(&self, f: &mut fmt::Formatter<'_>) -> fmt::Result {
        write!(f, "view {} {} {}", self.read_only, self.head, self.tail)
    }
}

/// What a slot learns by entering an epoch.
#[derive(Clone, Copy, Debug, PartialEq, Eq)]
pub struct Entered {
    /// The epoch that it entered.
    pub epoch: u64,
    /// What it sees.
    pub view: View,
}

/// A taken action: its ticket, and its tag where it is a job.
#[derive(Clone, Copy, Debug, PartialEq, Eq)]
pub struct Action {
    /// Its ticket.
    pub ticket: u64,
    /// The tag of its job.
    pub tag: Option<u64>,
}

/// What a done did.
#[derive(Clone, Copy, Debug, PartialEq, Eq)]
pub enum Done {
    /// It was a job of this tag.
    Job(u64),
    /// The safe read-only offset is this one now.
    Settled(u64),
    /// The closed offset is this one now.
    Closed(u64),
}

/// What a pending action is.
#[derive(Clone, Copy, Debug, PartialEq, Eq)]
pub enum Kind {
    /// A job of this tag.
    Job(u64),
    /// It will raise the safe read-only offset to this one.
    Settle(u64),
    /// It will raise the closed offset to this one.
    Close(u64),
}

/// Up to where a log is sealed, and the settle on which that waits.
#[derive(Clone, Copy, Debug, PartialEq, Eq)]
pub struct Sealed {
    /// What was the tail, where a page begins: each page below is sealed once the settle is done.
    pub address: u64,
    /// The ticket of the settle that was stored, if one was due.
    pub ticket: Option<u64>,
}

/// A pending action.
#[derive(Clone, Copy, Debug, PartialEq, Eq)]
pub struct Pending {
    /// Its ticket.
    pub ticket: u64,
    /// What it is.
    pub kind: Kind,
}

/// A frame's state, with its page.
#[derive(Clone, Copy, Debug, PartialEq, Eq)]
pub enum Frame {
    /// Its page may be written.
    Open(u64),
    /// No slot writes its page any more.
    Sealed(u64),
    /// Its page was written to the device.
    Flushed(u64),
    /// No slot reads its page any more.
    Closed(u64),
    /// It has no page.
    Free,
}

/// The offsets in their order, each at most the next.
#[derive(Clone, Copy, Debug, Default, PartialEq, Eq)]
pub struct Offsets {
    /// No slot reads below it.
    pub closed: u64,
    /// A slot that sees it reads from here.
    pub head: u64,
    /// The pages below it are flushed.
    pub flushed: u64,
    /// No slot writes below it.
    pub safe_read_only: u64,
    /// A slot that sees it writes from here.
    pub read_only: u64,
    /// Where the next record is placed.
    pub tail: u64,
}

/// A step of a lag, which brings an offset to where it should be.
#[derive(Clone, Copy, Debug, PartialEq, Eq)]
pub enum LagStep {
    /// A raise of the read-only offset to this address.
    Raise(u64),
    /// A settle.
    Settle,
    /// A shift of the head to this address.
    Shift(u64),
    /// A close.
    Close,
}

/// What may be done to a word of the log.
#[derive(Clone, Copy, Debug, PartialEq, Eq)]
pub enum Region {
    /// The pass may store there.
    Mutable,
    /// The pass may store there no more, and another may still.
    Fuzzy,
    /// No pass may store there.
    ReadOnly,
    /// The pass may not load there: the word is on the device.
    Evicted,
}

/// A slot that holds up the oldest pending action: its epoch isn't above the action's ticket.
#[derive(Clone, Copy, Debug, PartialEq, Eq)]
pub struct Holder {
    /// The slot.
    pub slot: u64,
    /// Its epoch.
    pub epoch: u64,
    /// The ticket of the action.
    pub ticket: u64,
}

/// All quantities.
#[derive(Clone, Copy, Debug, Default, PartialEq, Eq)]
pub struct Snapshot {
    /// The current epoch.
    pub epoch: u64,
    /// The safe epoch.
    pub safe: u64,
    /// How many slots are protected.
    pub protected: u64,
    /// How many actions are pending.
    pub pending: u64,
    /// How many actions are taken and not done.
    pub taken: u64,
    /// The six offsets.
    pub offsets: Offsets,
    /// How many frames are open, sealed, flushed, closed and free.
    pub frames: [u64; 5],
}
