//! Calls of the domain's twin in some threads, for `domains` to time: those that `crates/hl_pace` makes of the proved.

use crate::domain::{Domain, Rider};
use crate::domain_pass::Pass;
use crate::rules::{Fault, Sizes};
use std::sync::Mutex;
use std::thread;

/// How many steps the journal may have.
const JOURNAL_MOST: usize = 1 << 21;

#[derive(Clone, Copy)]
enum Kind {
    /// Adds to a number under a lock of its own: the floor of what a lock costs.
    Lock,
    Refresh,
    Allocate,
    Store,
    Load,
    Look,
}

impl Kind {
    fn named(name: &str) -> Option<Kind> {
        Some(match name {
            "lock" => Kind::Lock,
            "refresh" => Kind::Refresh,
            "allocate" => Kind::Allocate,
            "store" => Kind::Store,
            "load" => Kind::Load,
            "look" => Kind::Look,
            _ => return None,
        })
    }
}

/// Makes so many calls of this kind in each of so many threads, 1 to 8: whether all were accepted. None where the words
/// name nothing.
pub fn run(kind: &str, threads: u64, calls: u64) -> Option<bool> {
    let kind = Kind::named(kind)?;
    let sizes = Sizes::checked(4096, 256, 8, 64).filter(|_| (1..=8).contains(&threads))?;
    let (domain, riders) = Domain::open(sizes, threads as usize, JOURNAL_MOST);
    let floor = Mutex::new(0);
    let (domain, floor) = (&domain, &floor);
    let back: Vec<Option<Rider>> = thread::scope(|scope| {
        let start = |(slot, rider)| scope.spawn(move || call_all(domain, floor, (slot, rider), kind, calls));
        let threads: Vec<_> = (0..).zip(riders).map(start).collect();
        threads
            .into_iter()
            .map(|thread| thread.join().expect("no panic"))
            .collect()
    });
    Some(back.iter().all(Option::is_some))
}

/// Acquires a slot, makes the calls there, and releases it. No rider comes back where a call was refused.
fn call_all(
    domain: &Domain,
    floor: &Mutex<u64>,
    seat: (u64, Rider),
    kind: Kind,
    calls: u64,
) -> Option<Rider> {
    let (slot, rider) = seat;
    let mut pass = domain.acquire(slot, rider).ok()?;
    let address = pass.allocate(1).ok()?;
    for _ in 0..calls {
        call(&mut pass, floor, address, kind).ok()?;
    }
    pass.release().ok()
}

fn call(pass: &mut Pass, floor: &Mutex<u64>, address: u64, kind: Kind) -> Result<(), Fault> {
    match kind {
        Kind::Lock => *floor.lock().expect("nobody panics under it") += 1,
        Kind::Refresh => {
            pass.refresh()?;
        }
        Kind::Allocate => {
            pass.allocate(1)?;
        }
        Kind::Store => {
            if let Err(Fault::TouchesFull) = pass.store(address, 1) {
                pass.refresh()?;
            }
        }
        Kind::Load => {
            pass.load(address)?;
        }
        Kind::Look => {
            pass.look()?;
        }
    }
    Ok(())
}
