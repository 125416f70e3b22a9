//! An engine's daily calls on a log: what each answers, and what it leaves where it is refused. The region of an address
//! is compared with the offsets at each of many random steps.

use hl::{Entered, Fault, Lease, Log, Offsets, Region, Sizes, View};
use std::panic::{catch_unwind, AssertUnwindSafe};

fn opened(page_size: u64, frames: u64, slots: u64, places: u64) -> Log {
    Log::open(Sizes::checked(page_size, frames, slots, places).unwrap()).unwrap()
}

fn view(read_only: u64, head: u64, tail: u64) -> View {
    View {
        read_only,
        head,
        tail,
    }
}

#[test]
fn regions() -> Result<(), Fault> {
    let log = opened(4, 4, 2, 4);
    let (mut pass, mut other) = (log.acquire(0)?, log.acquire(1)?);
    assert_eq!((pass.allocate(4), pass.allocate(4)), (Ok(0), Ok(4)));
    assert_eq!(
        (pass.region(7), pass.region(8)),
        (Ok(Region::Mutable), Err(Fault::Beyond { tail: 8 }))
    );
    assert_eq!(other.region(0), Err(Fault::Beyond { tail: 0 }));
    other.refresh()?;

    log.raise(6)?;
    pass.look();
    assert_eq!(
        (pass.region(5), pass.region(6)),
        (Ok(Region::Fuzzy), Ok(Region::Mutable))
    );
    assert_eq!(
        (other.region(5), other.store(5, 1)),
        (Ok(Region::Mutable), Ok(())),
        "it hasn't seen the raise"
    );
    log.settle()?;
    pass.refresh()?;
    other.refresh()?;
    let ticket = log.take()?.ticket;
    assert_eq!(pass.region(5), Ok(Region::Fuzzy), "until it is done");
    log.done(ticket)?;
    assert_eq!(
        (pass.region(5), other.region(5), pass.region(6)),
        (Ok(Region::ReadOnly), Ok(Region::ReadOnly), Ok(Region::Mutable))
    );

    log.flush_take()?.done()?;
    log.shift(4)?;
    assert_eq!(pass.region(3), Ok(Region::ReadOnly), "it hasn't seen the shift");
    pass.look();
    assert_eq!(
        (pass.region(3), pass.region(4)),
        (Ok(Region::Evicted), Ok(Region::ReadOnly))
    );
    Ok(())
}

/// The region by the offsets as they are, for one pass in one thread.
fn wanted(view: View, now: Offsets, address: u64) -> Result<Region, Fault> {
    if address < view.head {
        Ok(Region::Evicted)
    } else if address >= view.tail {
        Err(Fault::Beyond { tail: view.tail })
    } else if address >= view.read_only {
        Ok(Region::Mutable)
    } else if address < now.safe_read_only {
        Ok(Region::ReadOnly)
    } else {
        Ok(Region::Fuzzy)
    }
}

#[test]
fn random_regions() {
    let log = opened(8, 8, 1, 8);
    let mut pass = log.acquire(0).unwrap();
    let (mut state, mut seen) = (47_u64, [0; 5]);
    let mut below = |bound: u64| {
        state = state
            .wrapping_mul(6_364_136_223_846_793_005)
            .wrapping_add(1_442_695_040_888_963_407);
        (state >> 33) % bound
    };
    for made in 0..100_000 {
        let now = log.offsets();
        // Refusals are steps as others.
        match below(9) {
            0 => drop(pass.allocate(1 + below(8))),
            1 => drop(log.raise(now.read_only + below(now.tail - now.read_only + 1))),
            2 => drop(log.shift(now.flushed)),
            3 => drop(if below(2) == 0 { log.settle() } else { log.close() }),
            4 => drop(pass.look()),
            5 => drop(pass.keep_up()),
            6 => drop(pass.help(|_| ())),
            7 => drop(log.flush_take().map(|page| page.done())),
            _ => drop(log.clean_take()),
        }
        let now = log.offsets();
        let address = now.tail + 1 - below(80.min(now.tail + 2));
        let told = pass.region(address);
        assert_eq!(
            told,
            wanted(pass.view(), now, address),
            "{address} after {made} steps"
        );
        seen[told.map_or(4, |region| region as usize)] += 1;
    }
    assert!(seen.iter().all(|times| *times > 1000), "{seen:?}");
}

#[test]
fn up_to_date() -> Result<(), Fault> {
    let log = opened(4, 2, 2, 4);
    let (mut pass, mut other) = (log.acquire(0)?, log.acquire(1)?);
    assert_eq!(pass.keep_up(), Ok(view(0, 0, 0)));
    other.allocate(4)?;
    assert_eq!(pass.keep_up(), Ok(view(0, 0, 0)), "a record is nothing new");
    log.raise(2)?;
    assert_eq!(pass.keep_up(), Ok(view(2, 0, 4)));
    log.bump(7)?;
    pass.keep_up()?;
    assert!(pass.keeps_up(), "it has moved on to the new epoch");
    assert_eq!(log.holders().len(), 1, "the other holds the job up");
    Ok(())
}

#[test]
fn records() -> Result<(), Fault> {
    let log = opened(8, 2, 1, 4);
    let mut pass = log.acquire(0)?;
    let three = [11, 12, 13];
    assert_eq!((pass.append(&three), pass.append(&three)), (Ok(0), Ok(3)));
    assert_eq!(pass.append(&three), Ok(8), "one that begins a page");
    assert_eq!(pass.append(&[]), Err(Fault::Size));
    assert_eq!(pass.append(&[0; 9]), Err(Fault::Size));
    assert_eq!(log.offsets().tail, 11, "nothing was placed");

    let mut words = [1; 4];
    assert_eq!(pass.load_into(5, &mut words), Ok(()));
    assert_eq!(words, [13, 0, 0, 11], "a row across two pages");
    let beyond = Err(Fault::Beyond { tail: 11 });
    assert_eq!(pass.load_into(8, &mut words), beyond);
    assert_eq!(pass.load_into(11, &mut words[..1]), beyond);
    assert_eq!(pass.load_into(u64::MAX, &mut words), beyond);
    assert_eq!(pass.load_into(u64::MAX, &mut []), Ok(()), "no words");
    assert_eq!(words, [13, 0, 0, 11], "no place was written");

    log.raise(8)?;
    log.settle()?;
    assert_eq!(
        (pass.help(|_| ()), pass.help(|_| ())),
        (Ok(false), Ok(true)),
        "the pass itself held it up"
    );
    log.flush_take()?.done()?;
    log.shift(8)?;
    pass.look();
    assert_eq!(
        pass.load_into(7, &mut words[..2]),
        Err(Fault::Evicted { head: 8 })
    );
    assert_eq!(pass.load_into(8, &mut words[..3]), Ok(()));
    assert_eq!(words, [11, 12, 13, 11]);
    assert_eq!(pass.append(&[0; 8]), Err(Fault::Busy { page: 2 }));
    Ok(())
}

#[test]
fn leases() -> Result<(), Fault> {
    let log = opened(8, 2, 1, 4);
    let mut pass = log.acquire(0)?;
    assert_eq!((Lease::default().left(), Lease::default().take(1)), (0, None));
    let mut lease = pass.lease(5)?;
    assert_eq!((log.offsets().tail, pass.view().tail, lease.left()), (5, 5, 5));
    assert_eq!((lease.take(2), lease.take(2)), (Some(0), Some(2)));
    assert_eq!(
        (lease.take(0), lease.take(2), lease.take(u64::MAX), lease.left()),
        (None, None, None, 1)
    );
    assert_eq!((pass.store(3, 7), pass.load(3)), (Ok(()), Ok(7)));
    assert_eq!((lease.take(1), lease.take(1)), (Some(4), None));
    assert_eq!(pass.lease(8)?.take(8), Some(8), "a piece that begins a page");
    assert_eq!(pass.lease(0).map(drop), Err(Fault::Size));
    assert_eq!(pass.lease(9).map(drop), Err(Fault::Size));
    assert_eq!(pass.lease(1).map(drop), Err(Fault::Busy { page: 2 }));
    Ok(())
}

#[test]
fn helps() -> Result<(), Fault> {
    let log = opened(4, 2, 2, 2);
    let (mut pass, mut other) = (log.acquire(0)?, log.acquire(1)?);
    let mut tags = Vec::new();
    assert_eq!(pass.help(|tag| tags.push(tag)), Ok(false), "no action");
    log.bump(7)?;
    pass.allocate(4)?;
    log.raise(4)?;
    log.settle()?;
    assert_eq!(pass.help(|tag| tags.push(tag)), Ok(false), "it isn't ready");
    assert_eq!(pass.view(), view(4, 0, 4), "the pass has moved on");
    other.refresh()?;
    assert_eq!(pass.help(|tag| tags.push(tag)), Ok(true), "a job");
    assert_eq!(pass.help(|tag| tags.push(tag)), Ok(true), "a settle");
    assert_eq!((log.offsets().safe_read_only, tags), (4, vec![7]));

    log.bump(8)?;
    pass.refresh()?;
    other.refresh()?;
    let panicked = catch_unwind(AssertUnwindSafe(|| {
        pass.help(|tag| panic!("a job {tag} that is to panic"))
    }));
    assert!(panicked.is_err());
    let now = log.snapshot();
    assert_eq!((now.pending, now.taken), (0, 0), "it is done");
    Ok(())
}

#[test]
fn rests() -> Result<(), Fault> {
    let log = opened(4, 2, 2, 4);
    let mut pass = log.acquire(0)?;
    pass.append(&[0, 0, 0, 9])?;
    let entered = pass.rest(|| {
        assert_eq!(log.snapshot().protected, 0);
        let settled = log.raise(4).and_then(|_| log.settle()).and_then(|_| log.take());
        assert!(settled.and_then(|action| log.done(action.ticket)).is_ok());
    })?;
    let seen = view(4, 0, 4);
    assert_eq!((entered, pass.view()), (Entered { epoch: 2, view: seen }, seen));
    assert_eq!((pass.slot(), pass.load(3)), (0, Ok(9)));

    let mut next = None;
    assert_eq!(
        pass.rest(|| next = log.acquire(0).ok()),
        Err(Fault::Occupied),
        "another has the slot"
    );
    let without = Fault::NotProtected;
    assert_eq!(pass.rest(|| unreachable!()), Err(without));
    assert_eq!(pass.look(), seen, "it sees nothing new");
    assert_eq!((pass.load(3), pass.region(3)), (Err(without), Err(without)));
    assert_eq!((pass.append(&[1]), pass.keep_up()), (Err(without), Err(without)));
    assert_eq!(pass.lease(1).map(drop), Err(without));
    assert_eq!(pass.help(|_| ()), Err(without));
    drop(pass);
    let mut next = next.expect("a pass");
    assert!(next.refresh().is_ok(), "the next holder stays");

    let panicked = catch_unwind(AssertUnwindSafe(|| {
        next.rest(|| panic!("a work that is to panic"))
    }));
    assert!(panicked.is_err());
    assert_eq!(next.refresh(), Err(without));
    drop(next);
    assert!(log.acquire(0).is_ok(), "its slot is free");
    Ok(())
}
