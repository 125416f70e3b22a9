//! The twin's answers as include/hl.h tells answers.

use crate::door::{Outcome, SixOutcome, SnapshotOutcome};
use crate::rules::{Fault, FrameState, Kind, Reply, Six, Snapshot, View, Waiting};
use crate::twin::Twin;

const OUT_OF_RANGE: u64 = 254;

fn accepted(a: u64, b: u64, c: u64, d: u64) -> Outcome {
    Outcome {
        number: 0,
        a,
        b,
        c,
        d,
    }
}

fn refused(number: u64, a: u64, b: u64) -> Outcome {
    Outcome {
        number,
        a,
        b,
        c: 0,
        d: 0,
    }
}

fn seen(a: u64, view: View) -> Outcome {
    accepted(a, view.read_only, view.head, view.tail)
}

pub fn of_step(told: &Result<Reply, Fault>) -> Outcome {
    match told {
        Ok(reply) => of_reply(reply),
        Err(fault) => of_fault(fault),
    }
}

fn of_reply(reply: &Reply) -> Outcome {
    match *reply {
        Reply::Entered { epoch, view } => seen(epoch, view),
        Reply::Looked(view) => seen(0, view),
        Reply::Left | Reply::Written | Reply::Readable => accepted(0, 0, 0, 0),
        Reply::Taken(Waiting {
            ticket,
            kind: Kind::User(tag),
        }) => accepted(ticket, 1, tag, 0),
        Reply::Taken(Waiting { ticket, .. }) => accepted(ticket, 0, 0, 0),
        Reply::Ran(tag) => accepted(tag, 1, 0, 0),
        Reply::Settled(x) => accepted(x, 2, 0, 0),
        Reply::Closed(x) => accepted(x, 3, 0, 0),
        Reply::Ticket(x)
        | Reply::Bumped(x)
        | Reply::Raised(x)
        | Reply::Shifted(x)
        | Reply::At(x)
        | Reply::Page(x)
        | Reply::Flushed(x)
        | Reply::Freed(x) => accepted(x, 0, 0, 0),
    }
}

fn of_fault(fault: &Fault) -> Outcome {
    match *fault {
        Fault::NoSlot => refused(1, 0, 0),
        Fault::Occupied => refused(2, 0, 0),
        Fault::NotProtected => refused(3, 0, 0),
        Fault::Stale => refused(4, 0, 0),
        Fault::DrainFull => refused(5, 0, 0),
        Fault::EpochsSpent => refused(6, 0, 0),
        Fault::Empty => refused(7, 0, 0),
        Fault::NotReady { front, safe } => refused(8, front, safe),
        Fault::NotTaken => refused(9, 0, 0),
        Fault::NotAbove => refused(10, 0, 0),
        Fault::AboveTail => refused(11, 0, 0),
        Fault::NotPage => refused(12, 0, 0),
        Fault::AboveFlushed => refused(13, 0, 0),
        Fault::Size => refused(14, 0, 0),
        Fault::Busy { page } => refused(15, page, 0),
        Fault::SpaceSpent => refused(16, 0, 0),
        Fault::Below { read_only } => refused(17, read_only, 0),
        Fault::Beyond { tail } => refused(18, tail, 0),
        Fault::Evicted { head } => refused(19, head, 0),
        Fault::NoneSealed => refused(20, 0, 0),
        Fault::NotInFlight => refused(21, 0, 0),
        Fault::NoneClosed => refused(22, 0, 0),
        Fault::NotCleaning => refused(23, 0, 0),
        Fault::WindowFull => refused(32, 0, 0),
        Fault::TouchesFull => refused(25, 0, 0),
        Fault::JournalFull => refused(27, 0, 0),
    }
}

pub fn of_six(six: &Six) -> SixOutcome {
    SixOutcome {
        number: 0,
        closed: six.closed,
        head: six.head,
        flushed: six.flushed,
        safe_read_only: six.safe_read_only,
        read_only: six.read_only,
        tail: six.tail,
    }
}

pub fn of_snapshot(all: &Snapshot) -> SnapshotOutcome {
    SnapshotOutcome {
        number: 0,
        epoch: all.epoch,
        safe: all.safe,
        protected: all.protected,
        pending: all.pending,
        taken: all.taken,
        six: of_six(&all.six),
        frames: all.frames,
    }
}

pub fn of_pending(twin: &Twin, place: u64) -> Outcome {
    let mut pending = twin.pending();
    let count = pending.len() as u64;
    match pending.nth(place as usize) {
        None => refused(OUT_OF_RANGE, 0, 0),
        Some(waiting) => match waiting.kind {
            Kind::User(tag) => accepted(waiting.ticket, 1, tag, count),
            Kind::Settle(stored) => accepted(waiting.ticket, 2, stored, count),
            Kind::Close(stored) => accepted(waiting.ticket, 3, stored, count),
        },
    }
}

pub fn of_frame(frame: Option<(FrameState, Option<u64>)>) -> Outcome {
    match frame {
        None => refused(OUT_OF_RANGE, 0, 0),
        Some((state, None)) => accepted(state as u64, 0, 0, 0),
        Some((state, Some(page))) => accepted(state as u64, 1, page, 0),
    }
}

/// Of a slot below so many.
pub fn of_view(slots: u64, slot: u64, view: Option<View>) -> Outcome {
    if slot >= slots {
        return refused(OUT_OF_RANGE, 0, 0);
    }
    view.map_or(accepted(0, 0, 0, 0), |view| seen(1, view))
}
