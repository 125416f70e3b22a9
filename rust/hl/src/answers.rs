//! What the library's answers tell.

use crate::raw::{Brief, LagSteps, Outcome, Quantities, Six};
use crate::{Action, Done, Entered, Fault, LagStep, Offsets, Region, Sealed, Snapshot, View};

/// The same numbers, read one by one, as the library stores them: a read of two at once, into which the compiler joins
/// them where it may, would wait until both stores have left the processor's buffer.
#[inline(always)]
pub(crate) fn one_by_one(told: &Outcome) -> Outcome {
    // SAFETY: each is read where it stands.
    let read = |number: &u64| unsafe { std::ptr::read_volatile(number) };
    Outcome {
        number: read(&told.number),
        a: read(&told.a),
        b: read(&told.b),
        c: read(&told.c),
        d: read(&told.d),
    }
}

/// The answer of a call that was accepted, or why it was refused.
pub(crate) fn accepted(told: Outcome) -> Result<Outcome, Fault> {
    match told.number {
        0 => Ok(told),
        number => Err(Fault::of(number, told.a, told.b)),
    }
}

/// The one number of a call that was accepted, or why it was refused.
pub(crate) fn number(told: Brief) -> Result<u64, Fault> {
    accepted(told.into()).map(|told| told.a)
}

pub(crate) fn view(told: Outcome) -> View {
    View {
        read_only: told.b,
        head: told.c,
        tail: told.d,
    }
}

pub(crate) fn entered(told: Outcome) -> Entered {
    Entered {
        epoch: told.a,
        view: view(told),
    }
}

pub(crate) fn action(told: Outcome) -> Action {
    Action {
        ticket: told.a,
        tag: (told.b == 1).then_some(told.c),
    }
}

pub(crate) fn sealed(told: Outcome) -> Sealed {
    Sealed {
        address: told.a,
        ticket: (told.b == 1).then_some(told.c),
    }
}

pub(crate) fn done(told: Outcome) -> Done {
    match told.b {
        1 => Done::Job(told.a),
        2 => Done::Settled(told.a),
        _ => Done::Closed(told.a),
    }
}

pub(crate) fn region(number: u64) -> Region {
    match number {
        1 => Region::Mutable,
        2 => Region::Fuzzy,
        3 => Region::ReadOnly,
        _ => Region::Evicted,
    }
}

pub(crate) fn offsets(six: &Six) -> Offsets {
    Offsets {
        closed: six.closed,
        head: six.head,
        flushed: six.flushed,
        safe_read_only: six.safe_read_only,
        read_only: six.read_only,
        tail: six.tail,
    }
}

pub(crate) fn snapshot(all: &Quantities) -> Snapshot {
    Snapshot {
        epoch: all.epoch,
        safe: all.safe,
        protected: all.protected,
        pending: all.pending,
        taken: all.taken,
        offsets: offsets(&all.six),
        frames: all.frames,
    }
}

pub(crate) fn lag(told: LagSteps) -> Result<impl Iterator<Item = LagStep>, Fault> {
    match told.number {
        0 => Ok(told
            .steps
            .into_iter()
            .take(told.count as usize)
            .map(|step| match step.kind {
                1 => LagStep::Raise(step.address),
                2 => LagStep::Settle,
                3 => LagStep::Shift(step.address),
                _ => LagStep::Close,
            })),
        number => Err(Fault::of(number, 0, 0)),
    }
}
