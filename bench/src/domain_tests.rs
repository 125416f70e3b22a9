//! The rules of the domain's twin, by examples whose answers were written by hand from docs/RULES.md and docs/THREADS.md.

use crate::domain::Domain;
use crate::domain_pass::TOUCHES_MOST;
use crate::rules::{Fault, Kind, Reply, Sizes, Step, View, Waiting};
use crate::twin::Twin;
use std::thread;

/// A domain with pages of 4 words and 2 frames, whose slots are 2.
fn small(riders: usize, journal_most: usize) -> (Domain, Vec<crate::domain::Rider>) {
    Domain::open(Sizes::checked(4, 2, 2, 4).unwrap(), riders, journal_most)
}

fn view(read_only: u64, head: u64, tail: u64) -> View {
    View {
        read_only,
        head,
        tail,
    }
}

#[test]
fn stores_are_judged_by_the_view_and_enter_later() {
    let (domain, mut riders) = small(2, 100);
    let mut flusher = riders.pop().unwrap();
    let mut pass = domain.acquire(0, riders.pop().unwrap()).ok().unwrap();
    assert_eq!(pass.store(0, 5), Err(Fault::Beyond { tail: 0 }));
    assert_eq!(pass.allocate(3), Ok(0));
    assert_eq!(pass.store(2, 7), Ok(()));
    assert_eq!(pass.load(2), Ok(7));
    assert_eq!(pass.load(1), Ok(0));
    assert_eq!(pass.store(3, 5), Err(Fault::Beyond { tail: 3 }));
    assert_eq!(
        domain.make(&mut flusher, Step::Raise { to: 3 }),
        Ok(Reply::Raised(3))
    );
    // It has not seen the read-only offset: the fuzzy region.
    assert_eq!(pass.store(1, 8), Ok(()));
    assert_eq!(pass.refresh(), Ok(view(3, 0, 3)));
    assert_eq!(pass.store(1, 9), Err(Fault::Below { read_only: 3 }));
    assert_eq!(pass.load(1), Ok(8));
    let rider = pass.release().ok().unwrap();
    let ending = domain.close(&[rider, flusher]).unwrap();
    let (slot, address, value) = (0, 2, 7);
    assert_eq!(
        ending.journal,
        [
            Step::Acquire { slot },
            Step::Allocate { slot, words: 3 },
            Step::Raise { to: 3 },
            Step::Write { slot, address, value },
            Step::Write {
                slot,
                address: 1,
                value: 8
            },
            Step::Refresh { slot },
            Step::Release { slot },
        ]
    );
}

#[test]
fn looks_only_raise_the_view() {
    let (domain, mut riders) = small(2, 100);
    let mut flusher = riders.pop().unwrap();
    let mut pass = domain.acquire(1, riders.pop().unwrap()).ok().unwrap();
    assert_eq!(pass.allocate(4), Ok(0));
    assert_eq!(pass.look(), Ok(view(0, 0, 4)));
    assert_eq!(
        domain.make(&mut flusher, Step::Raise { to: 2 }),
        Ok(Reply::Raised(2))
    );
    assert_eq!(pass.look(), Ok(view(2, 0, 4)));
    assert_eq!(pass.look(), Ok(view(2, 0, 4)));
    assert_eq!(pass.store(1, 1), Err(Fault::Below { read_only: 2 }));
    // Of three looks one raised the view: acquire, allocate, raise, that look, allocate.
    assert_eq!(pass.allocate(4), Ok(4));
    assert_eq!(pass.view(), view(2, 0, 8));
    assert_eq!(domain.cut(), 5);
}

#[test]
fn a_pass_has_room_for_32_touches() {
    let (domain, mut riders) = small(1, 100);
    let mut pass = domain.acquire(0, riders.pop().unwrap()).ok().unwrap();
    assert_eq!(pass.allocate(1), Ok(0));
    assert_eq!(TOUCHES_MOST, 32);
    for value in 0..32 {
        assert_eq!(pass.store(0, value), Ok(()));
    }
    assert_eq!(pass.store(0, 32), Err(Fault::TouchesFull));
    assert_eq!(pass.look(), Err(Fault::TouchesFull));
    assert_eq!(pass.load(0), Ok(31));
    assert_eq!(pass.refresh(), Ok(view(0, 0, 1)));
    assert_eq!(pass.store(0, 32), Ok(()));
}

#[test]
fn a_full_journal_refuses_and_a_cut_makes_room() {
    let (domain, mut riders) = small(2, 4);
    let other = riders.pop().unwrap();
    let mut pass = domain.acquire(0, riders.pop().unwrap()).ok().unwrap();
    assert_eq!(pass.allocate(1), Ok(0));
    assert_eq!(pass.store(0, 6), Ok(()));
    assert_eq!(pass.store(0, 7), Ok(()));
    // Two steps are there, and two touches and the refresh want three places.
    assert_eq!(pass.refresh(), Err(Fault::JournalFull));
    assert_eq!(domain.cut(), 2);
    assert_eq!(pass.refresh(), Ok(view(0, 0, 1)));
    let rider = pass.release().ok().unwrap();
    let Err((fault, other)) = domain.acquire(0, other) else {
        panic!("the journal has no room")
    };
    assert_eq!(fault, Fault::JournalFull);
    let ending = domain.close(&[rider, other]).unwrap();
    assert_eq!((ending.steps_cut, ending.journal.len()), (2, 4));
}

#[test]
fn a_close_wants_all_riders() {
    let (domain, mut riders) = small(2, 100);
    let pass = domain.acquire(0, riders.pop().unwrap()).ok().unwrap();
    let _missing = pass.abandon();
    assert!(domain.close(&riders).is_none());
}

#[test]
fn a_page_goes_its_whole_way() {
    let (domain, mut riders) = small(2, 100);
    let mut flusher = riders.pop().unwrap();
    let mut pass = domain.acquire(0, riders.pop().unwrap()).ok().unwrap();
    let mut make = |step| domain.make(&mut flusher, step);
    let page = 0;
    assert_eq!(pass.allocate(4), Ok(0));
    assert_eq!(pass.store(0, 9), Ok(()));
    assert_eq!(pass.allocate(4), Ok(4));
    assert_eq!(pass.allocate(4), Err(Fault::Busy { page: 2 }));
    assert_eq!(make(Step::Raise { to: 4 }), Ok(Reply::Raised(4)));
    assert_eq!(make(Step::Settle), Ok(Reply::Ticket(1)));
    assert_eq!(make(Step::Take), Err(Fault::NotReady { front: 1, safe: 0 }));
    assert_eq!(make(Step::FlushTake), Err(Fault::NoneSealed));
    assert_eq!(pass.refresh(), Ok(view(4, 0, 8)));
    let kind = Kind::Settle(4);
    assert_eq!(make(Step::Take), Ok(Reply::Taken(Waiting { ticket: 1, kind })));
    assert_eq!(make(Step::Done { ticket: 1 }), Ok(Reply::Settled(4)));
    assert_eq!(make(Step::FlushTake), Ok(Reply::Page(0)));
    assert_eq!(make(Step::FlushDone { page, ok: true }), Ok(Reply::Flushed(4)));
    assert_eq!(make(Step::Shift { to: 4 }), Ok(Reply::Shifted(4)));
    assert_eq!(pass.load(0), Ok(9));
    assert_eq!(pass.look(), Ok(view(4, 4, 8)));
    assert_eq!(pass.load(0), Err(Fault::Evicted { head: 4 }));
    assert_eq!(make(Step::Close), Ok(Reply::Ticket(2)));
    assert_eq!(pass.refresh(), Ok(view(4, 4, 8)));
    let kind = Kind::Close(4);
    assert_eq!(make(Step::Take), Ok(Reply::Taken(Waiting { ticket: 2, kind })));
    assert_eq!(make(Step::Done { ticket: 2 }), Ok(Reply::Closed(4)));
    assert_eq!(make(Step::CleanTake), Ok(Reply::Page(0)));
    domain.sweep(page);
    assert_eq!(make(Step::CleanDone { page }), Ok(Reply::Freed(0)));
    // Page 2 lies in the frame of page 0, and its words are 0.
    assert_eq!(pass.allocate(4), Ok(8));
    assert_eq!(pass.load(8), Ok(0));
}

#[test]
fn the_journal_of_four_threads_is_accepted() {
    let sizes = Sizes::checked(64, 64, 4, 4).unwrap();
    let (domain, riders) = Domain::open(sizes, 4, 10_000);
    let ride = |(slot, rider)| {
        let mut pass = domain.acquire(slot, rider).ok().unwrap();
        for round in 0..100 {
            let address = pass.allocate(1).unwrap();
            pass.store(address, 100 * slot + round).unwrap();
            assert_eq!(pass.load(address), Ok(100 * slot + round));
            pass.refresh().unwrap();
        }
        pass.release().ok().unwrap()
    };
    let riders: Vec<_> = thread::scope(|scope| {
        let threads: Vec<_> = (0..)
            .zip(riders)
            .map(|seat| scope.spawn(move || ride(seat)))
            .collect();
        threads.into_iter().map(|thread| thread.join().unwrap()).collect()
    });
    let ending = domain.close(&riders).unwrap();
    // Each thread acquires, releases, and allocates, stores and refreshes a hundred times.
    assert_eq!(ending.journal.len(), 4 * (2 + 3 * 100));
    let mut core = Twin::open(sizes);
    for step in &ending.journal {
        assert!(core.step(step).is_ok());
    }
    assert_eq!(core.snapshot(), ending.snapshot);
    assert_eq!(ending.snapshot.six.tail, 400);
}
