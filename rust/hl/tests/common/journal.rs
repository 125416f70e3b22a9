//! What tests note of a log's calls, in the lines of a script.

use hl::{Done, Entered, Fault, View};
use std::fmt;

/// A call of a log, which prints as the line of a script (`docs/FORMATS.md`).
///
/// Each variant is the call of that name, with the numbers that it is told.
#[derive(Clone, Copy, Debug, PartialEq, Eq)]
pub enum Step {
    Acquire { slot: u64 },
    Refresh { slot: u64 },
    Release { slot: u64 },
    Bump { tag: u64 },
    Settle,
    Close,
    Bare,
    Take,
    Done { ticket: u64 },
    Raise { to: u64 },
    Shift { to: u64 },
    Allocate { slot: u64, words: u64 },
    Look { slot: u64, read_only: u64, head: u64 },
    Store { slot: u64, address: u64, word: u64 },
    Load { slot: u64, address: u64 },
    FlushTake,
    FlushDone { page: u64, ok: bool },
    CleanTake,
    CleanDone { page: u64 },
}

/// What an accepted call told, which prints as the answer to its line.
///
/// Each variant is an answer's first word, with the numbers that the answer has.
#[derive(Clone, Copy, Debug, PartialEq, Eq)]
pub enum Reply {
    Entered(Entered),
    Left,
    Ticket(u64),
    Bumped(u64),
    Taken(u64),
    Done(Done),
    Raised(u64),
    Shifted(u64),
    At(u64),
    Looked(View),
    Stored,
    Loaded(u64),
    Page(u64),
    Flushed(u64),
    Freed(u64),
}

/// A call and its answer.
#[derive(Clone, Copy, Debug, PartialEq, Eq)]
pub struct Entry {
    /// The call.
    pub step: Step,
    /// What it was answered.
    pub reply: Result<Reply, Fault>,
}

impl fmt::Display for Step {
    fn fmt(&self, f: &mut fmt::Formatter<'_>) -> fmt::Result {
        match *self {
            Step::Acquire { slot } => write!(f, "acquire {slot}"),
            Step::Refresh { slot } => write!(f, "refresh {slot}"),
            Step::Release { slot } => write!(f, "release {slot}"),
            Step::Bump { tag } => write!(f, "bump {tag}"),
            Step::Settle => write!(f, "settle"),
            Step::Close => write!(f, "close"),
            Step::Bare => write!(f, "bare"),
            Step::Take => write!(f, "take"),
            Step::Done { ticket } => write!(f, "done {ticket}"),
            Step::Raise { to } => write!(f, "raise {to}"),
            Step::Shift { to } => write!(f, "shift {to}"),
            Step::Allocate { slot, words } => write!(f, "alloc {slot} {words}"),
            Step::Look {
                slot,
                read_only,
                head,
            } => write!(f, "look {slot} {read_only} {head}"),
            Step::Store { slot, address, word } => write!(f, "write {slot} {address} {word}"),
            Step::Load { slot, address } => write!(f, "read {slot} {address}"),
            Step::FlushTake => write!(f, "flush take"),
            Step::FlushDone { page, ok } => {
                write!(f, "flush done {page} {}", if ok { "ok" } else { "failed" })
            }
            Step::CleanTake => write!(f, "clean take"),
            Step::CleanDone { page } => write!(f, "clean done {page}"),
        }
    }
}

impl fmt::Display for Reply {
    fn fmt(&self, f: &mut fmt::Formatter<'_>) -> fmt::Result {
        match *self {
            Reply::Entered(Entered { epoch, view }) => write!(f, "epoch {epoch} {view}"),
            Reply::Left => write!(f, "left"),
            Reply::Ticket(ticket) => write!(f, "ticket {ticket}"),
            Reply::Bumped(epoch) => write!(f, "bumped {epoch}"),
            Reply::Taken(ticket) => write!(f, "taken {ticket}"),
            Reply::Done(Done::Job(tag)) => write!(f, "ran {tag}"),
            Reply::Done(Done::Settled(offset)) => write!(f, "safe_read_only {offset}"),
            Reply::Done(Done::Closed(offset)) => write!(f, "closed {offset}"),
            Reply::Raised(offset) => write!(f, "read_only {offset}"),
            Reply::Shifted(offset) => write!(f, "head {offset}"),
            Reply::At(address) => write!(f, "at {address}"),
            Reply::Looked(view) => write!(f, "{view}"),
            Reply::Stored => write!(f, "written"),
            Reply::Loaded(word) => write!(f, "value {word}"),
            Reply::Page(page) => write!(f, "page {page}"),
            Reply::Flushed(offset) => write!(f, "flushed {offset}"),
            Reply::Freed(page) => write!(f, "freed {page}"),
        }
    }
}
