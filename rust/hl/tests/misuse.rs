//! The error of each misuse that types don't exclude. Those that they do exclude are examples of `Core`, which must not
//! compile.

use hl::{Core, Fault, Log, RawSizes, Sizes};

fn core() -> Core {
    Core::open(Sizes::checked(4, 2, 2, 1).unwrap()).unwrap()
}

#[test]
fn the_library_tells_its_version() {
    assert_eq!(hl::library_version(), hl::VERSION);
}

#[test]
fn sizes_out_of_range() {
    let rows = [
        ("a page of no word", [0, 2, 1, 1]),
        ("a page of 2 words", [2, 2, 1, 1]),
        ("a page of 6 words", [6, 2, 1, 1]),
        ("a page of 8192 words", [8192, 2, 1, 1]),
        ("1 frame", [4, 1, 1, 1]),
        ("257 frames", [4, 257, 1, 1]),
        ("no slot", [4, 2, 0, 1]),
        ("65 slots", [4, 2, 65, 1]),
        ("no place", [4, 2, 1, 0]),
        ("65 places", [4, 2, 1, 65]),
        ("the greatest numbers", [u64::MAX; 4]),
    ];
    for (name, [page_size, frames, slots, drain]) in rows {
        assert_eq!(
            Sizes::checked(page_size, frames, slots, drain),
            Err(Fault::OutOfRange),
            "{name}"
        );
    }
    assert!(Sizes::checked(4, 2, 1, 1).is_ok() && Sizes::checked(4096, 256, 64, 64).is_ok());
    let wide = [
        ("a page of 2^21 words", [1 << 21, 2, 1, 1]),
        ("65537 frames", [4, 65537, 1, 1]),
        ("1025 slots", [4, 2, 1025, 1]),
        ("4097 places", [4, 2, 1, 4097]),
    ];
    for (name, [page_size, frames, slots, drain]) in wide {
        assert_eq!(
            Sizes::wide(page_size, frames, slots, drain),
            Err(Fault::OutOfRange),
            "{name}"
        );
    }
    assert!(Sizes::wide(1 << 20, 1 << 16, 1024, 4096).is_ok());
}

#[test]
fn sizes_by_names() {
    let raw = RawSizes {
        page_size: 8,
        frames: 65536,
        slots: 1,
        drain_places: 2,
    };
    let sizes = Sizes::of(raw).unwrap();
    assert_eq!(
        (
            sizes.page_size(),
            sizes.frames(),
            sizes.slots(),
            sizes.drain_places()
        ),
        (8, 65536, 1, 2)
    );
    assert_eq!(Sizes::of(RawSizes { slots: 1025, ..raw }), Err(Fault::OutOfRange));
}

#[test]
fn calls_out_of_place() {
    let core = core();
    let rows: [(&str, Result<u64, Fault>, Fault); 17] = [
        (
            "a slot that isn't there",
            core.refresh(2).map(|_| 0),
            Fault::NoSlot,
        ),
        (
            "a slot that isn't protected",
            core.refresh(0).map(|_| 0),
            Fault::NotProtected,
        ),
        (
            "a release without an acquire",
            core.release(1).map(|_| 0),
            Fault::NotProtected,
        ),
        ("no action", core.take().map(|_| 0), Fault::Empty),
        ("a done of no action", core.done(1).map(|_| 0), Fault::NotTaken),
        ("a raise to where it is", core.raise(0), Fault::NotAbove),
        ("a raise above the tail", core.raise(1), Fault::AboveTail),
        ("a shift into a page", core.shift(1), Fault::NotPage),
        (
            "a shift above what is flushed",
            core.shift(4),
            Fault::AboveFlushed,
        ),
        (
            "a page where none is sealed",
            core.flush_take(),
            Fault::NoneSealed,
        ),
        ("an end of no flush", core.flush_done(0, true), Fault::NotInFlight),
        (
            "a page where none is closed",
            core.clean_take(),
            Fault::NoneClosed,
        ),
        ("an end of no cleaning", core.clean_done(0), Fault::NotCleaning),
        (
            "a frame that isn't there",
            core.frame(2).map(|_| 0),
            Fault::OutOfRange,
        ),
        (
            "a lag with no mutable page",
            core.lag(0, 1).map(|_| 0),
            Fault::OutOfRange,
        ),
        (
            "a lag with more mutable pages than resident ones",
            core.lag(2, 1).map(|_| 0),
            Fault::OutOfRange,
        ),
        (
            "a lag with all frames resident",
            core.lag(1, 2).map(|_| 0),
            Fault::OutOfRange,
        ),
    ];
    for (name, told, wanted) in rows {
        assert_eq!(told, Err(wanted), "{name}");
    }
}

#[test]
fn slots_and_records() {
    let core = core();
    let slot = core.acquire(0).unwrap();
    assert_eq!(core.acquire(0).map(drop), Err(Fault::Occupied), "a slot twice");
    assert_eq!(
        core.acquire(2).map(drop),
        Err(Fault::NoSlot),
        "a slot that isn't there"
    );
    assert_eq!(slot.allocate(0), Err(Fault::Size), "a record of no word");
    assert_eq!(slot.allocate(5), Err(Fault::Size), "a record of more than a page");
    assert_eq!(
        slot.may_write(0),
        Err(Fault::Beyond { tail: 0 }),
        "a write at the tail"
    );
    assert_eq!(slot.allocate(4).and(slot.allocate(4)), Ok(4));
    assert_eq!(slot.allocate(4), Err(Fault::Busy { page: 2 }), "no free frame");
    assert_eq!(slot.look(4, 0).map(|view| view.read_only), Ok(4));
    assert_eq!(
        slot.may_write(3),
        Err(Fault::Below { read_only: 4 }),
        "a write below the read-only offset"
    );
    assert_eq!(slot.look(3, 0), Err(Fault::Stale), "a look back");
    assert_eq!(
        core.bump(1).and(core.bump(1)),
        Err(Fault::DrainFull),
        "a second action in one place"
    );
    assert_eq!(
        core.take(),
        Err(Fault::NotReady { front: 1, safe: 0 }),
        "a take before its slots moved on"
    );
    drop(slot);
    assert!(core.acquire(0).is_ok(), "a dropped slot is released");
}

#[test]
fn a_former_holder() -> Result<(), Fault> {
    let core = Core::open(Sizes::checked(4, 2, 1, 1)?)?;
    let mut former = core.acquire(0)?;
    core.release(0)?;
    let next = core.acquire(0)?;
    assert_eq!(
        former.refresh(),
        Err(Fault::NotProtected),
        "a former holder's call"
    );
    assert_eq!(
        former.allocate(1),
        Err(Fault::NotProtected),
        "a former holder's record"
    );
    drop(former);
    assert_eq!(core.snapshot().protected, 1, "the next holder stays");
    assert_eq!(next.allocate(1)?, 0);
    Ok(())
}

#[test]
fn a_log_twice() {
    let log = Log::open(Sizes::checked(4, 2, 1, 1).unwrap()).unwrap();
    let mut pass = log.acquire(0).unwrap();
    assert_eq!(log.acquire(0).map(drop), Err(Fault::Occupied), "a slot twice");
    assert_eq!(
        log.acquire(1).map(drop),
        Err(Fault::NoSlot),
        "a slot that isn't there"
    );
    assert_eq!(
        pass.store(0, 1),
        Err(Fault::Beyond { tail: 0 }),
        "a store at the tail"
    );
    assert_eq!(pass.load(0), Err(Fault::Beyond { tail: 0 }), "a load at the tail");
    assert_eq!(
        log.flush_take().map(drop),
        Err(Fault::NoneSealed),
        "a page where none is sealed"
    );
    assert_eq!(
        log.clean_take().map(drop),
        Err(Fault::NoneClosed),
        "a page where none is closed"
    );
    drop(pass);
    assert!(log.acquire(0).is_ok(), "a dropped pass releases its slot");
}
