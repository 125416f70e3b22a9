//! What a core tells at each moment of one page's way, and the lags of `docs/FORMATS.md`.

use hl::{Action, Core, Done, Fault, Frame, Kind, LagStep, Offsets, Pending, Sizes, View};

#[test]
fn the_way_of_a_page() -> Result<(), Fault> {
    let core = Core::open(Sizes::checked(4, 2, 2, 4)?)?;
    let mut slot = core.acquire(0)?;
    assert_eq!(
        (slot.allocate(4)?, core.frame(0)?, core.frame(1)?),
        (0, Frame::Open(0), Frame::Free)
    );
    core.raise(4)?;
    let told = (core.settle()?, core.bump(7)?, core.bare()?);
    assert_eq!(told, (1, 2, 3));
    let settle = Pending {
        ticket: 1,
        kind: Kind::Settle(4),
    };
    let job = Pending {
        ticket: 2,
        kind: Kind::Job(7),
    };
    assert_eq!(core.pending().collect::<Vec<_>>(), [settle, job]);

    let view = View {
        read_only: 4,
        head: 0,
        tail: 4,
    };
    assert_eq!((slot.refresh()?.epoch, slot.entered().view), (4, view));
    assert_eq!(core.take()?, Action { ticket: 1, tag: None });
    assert_eq!(
        (core.done(1)?, core.frame(0)?),
        (Done::Settled(4), Frame::Sealed(0))
    );
    assert_eq!(
        core.take()?,
        Action {
            ticket: 2,
            tag: Some(7)
        }
    );
    assert_eq!(core.done(2)?, Done::Job(7));

    assert_eq!((core.flush_take()?, core.flush_done(0, false)?), (0, 0));
    assert_eq!((core.flush_take()?, core.flush_done(0, true)?), (0, 4));
    assert_eq!(
        (core.frame(0)?, core.shift(4)?, core.close()?),
        (Frame::Flushed(0), 4, 4)
    );
    assert_eq!(core.pending().last().map(|last| last.kind), Some(Kind::Close(4)));
    assert_eq!(slot.look(4, 4)?, View { head: 4, ..view });
    assert_eq!(
        (core.view(0), core.view(1)),
        (Some(View { head: 4, ..view }), None)
    );
    slot.refresh()?;
    assert_eq!((core.take()?.ticket, core.done(4)?), (4, Done::Closed(4)));
    assert_eq!(
        (core.frame(0)?, core.clean_take()?, core.clean_done(0)?),
        (Frame::Closed(0), 0, 0)
    );

    let number = slot.keep();
    let all = core.snapshot();
    assert_eq!(
        (all.epoch, all.safe, all.protected, all.pending, all.taken),
        (5, 4, 1, 0, 0)
    );
    assert_eq!(all.frames, [0, 0, 0, 0, 2]);
    let offsets = Offsets {
        closed: 4,
        head: 4,
        flushed: 4,
        safe_read_only: 4,
        read_only: 4,
        tail: 4,
    };
    assert_eq!((all.offsets, core.offsets()), (offsets, offsets));
    core.release(number)
}

#[test]
fn the_steps_of_a_lag() -> Result<(), Fault> {
    let core = Core::open(Sizes::checked(4, 8, 1, 4)?)?;
    let lag = || core.lag(1, 2).map(Iterator::collect::<Vec<_>>);
    let mut slot = core.acquire(0)?;
    slot.allocate(4)?;
    assert_eq!(lag()?, []);
    slot.allocate(4)?;
    core.raise(8)?;
    core.settle()?;
    slot.refresh()?;
    assert_eq!(core.done(core.take()?.ticket)?, Done::Settled(8));
    for _ in 0..2 {
        core.flush_done(core.flush_take()?, true)?;
    }
    for words in [4, 4, 1] {
        slot.allocate(words)?;
    }
    let all = [
        LagStep::Raise(16),
        LagStep::Settle,
        LagStep::Shift(8),
        LagStep::Close,
    ];
    assert_eq!(lag()?, all);
    assert_eq!((core.raise(16)?, core.shift(8)?), (16, 8));
    assert_eq!(lag()?, [LagStep::Settle, LagStep::Close]);
    Ok(())
}
