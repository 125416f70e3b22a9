//! Nanoseconds of the door's calls beside the twin's, in one run. Both take the same calls, none of which is inlined.

use crate::door::{Door, Outcome};
use crate::rules::{Sizes, Step};
use crate::twin::Twin;
use std::hint::black_box;
use std::time::Instant;

/// Of so many runs of each, in turn, the best counts.
const RUNS: usize = 15;
const CALLS: u64 = 200_000;

/// The calls that are timed. A number is what was answered; none of these calls is refused.
trait Core {
    fn open(sizes: Sizes) -> Self;
    fn make(&mut self, step: Step) -> u64;
}

impl Core for Twin {
    fn open(sizes: Sizes) -> Twin {
        Twin::open(sizes)
    }

    #[inline(always)]
    fn make(&mut self, step: Step) -> u64 {
        // Else the compiler, which sees the twin, could tell that some calls change nothing.
        let twin = black_box(self);
        let answer = match step {
            Step::Acquire { slot } => told(twin.acquire(slot)).epoch,
            Step::Refresh { slot } => told(twin.refresh(slot)).epoch,
            Step::Release { slot } => {
                told(twin.release(slot));
                0
            }
            Step::Settle => told(twin.settle()),
            Step::Close => told(twin.close()),
            Step::Take => told(twin.take()).ticket,
            Step::Done { ticket } => {
                told(twin.done(ticket));
                0
            }
            Step::Raise { to } => told(twin.raise(to)),
            Step::Shift { to } => told(twin.shift(to)),
            Step::Allocate { slot, words } => told(twin.allocate(slot, words)),
            Step::Write { slot, address, .. } => {
                told(twin.write(slot, address));
                0
            }
            Step::FlushTake => told(twin.flush_take()),
            Step::FlushDone { page, ok } => told(twin.flush_done(page, ok)),
            Step::CleanTake => told(twin.clean_take()),
            Step::CleanDone { page } => told(twin.clean_done(page)),
            _ => unreachable!("not timed"),
        };
        black_box(answer)
    }
}

impl Core for Door {
    fn open(sizes: Sizes) -> Door {
        Door::open(sizes)
    }

    #[inline(always)]
    fn make(&mut self, step: Step) -> u64 {
        // Only the two numbers are read, as a caller would: the call is foreign, so none is left out.
        let outcome: Outcome = self.step(&step);
        assert!(outcome.number == 0, "refused");
        black_box(outcome.a)
    }
}

/// An answer that was accepted.
#[inline(always)]
fn told<T, F>(answer: Result<T, F>) -> T {
    match answer {
        Ok(answer) => answer,
        Err(_) => panic!("refused"),
    }
}

/// Nanoseconds of one of so many turns.
fn timed(turns: u64, mut turn: impl FnMut(u64)) -> f64 {
    let start = Instant::now();
    for number in 0..turns {
        turn(black_box(number));
    }
    start.elapsed().as_nanos() as f64 / turns as f64
}

fn sizes(page_size: u64, frames: u64) -> Sizes {
    Sizes::checked(page_size, frames, 64, 64).expect("sizes in range")
}

fn with_slots<C: Core>(sizes: Sizes, slots: u64) -> C {
    let mut core = C::open(sizes);
    for slot in 0..slots {
        core.make(Step::Acquire { slot });
    }
    core
}

fn refresh<C: Core>(slots: u64) -> f64 {
    let mut core: C = with_slots(sizes(64, 16), slots);
    timed(CALLS, |number| {
        let slot = number % slots;
        core.make(Step::Refresh { slot });
    })
}

fn acquire_release<C: Core>() -> f64 {
    let mut core: C = with_slots(sizes(64, 16), 0);
    timed(CALLS, |number| {
        let slot = number % 64;
        core.make(Step::Acquire { slot });
        core.make(Step::Release { slot });
    })
}

fn settle_take_done<C: Core>() -> f64 {
    let mut core: C = with_slots(sizes(64, 16), 0);
    timed(CALLS, |_| {
        core.make(Step::Settle);
        let ticket = core.make(Step::Take);
        core.make(Step::Done { ticket });
    })
}

fn allocate<C: Core>(words: u64) -> f64 {
    let sizes = sizes(4096, 256);
    let mut core: C = with_slots(sizes, 1);
    timed(CALLS.min(sizes.page_size * sizes.frames / words), |_| {
        core.make(Step::Allocate { slot: 0, words });
    })
}

fn write<C: Core>() -> f64 {
    let mut core: C = with_slots(sizes(64, 16), 1);
    core.make(Step::Allocate { slot: 0, words: 64 });
    timed(CALLS, |number| {
        core.make(Step::Write {
            slot: 0,
            address: number % 64,
            value: number,
        });
    })
}

/// A core whose 256 pages of 4 words are all sealed.
fn sealed<C: Core>() -> C {
    let sizes = sizes(4, 256);
    let mut core: C = with_slots(sizes, 1);
    for _ in 0..sizes.frames {
        core.make(Step::Allocate { slot: 0, words: 4 });
    }
    core.make(Step::Raise { to: 4 * sizes.frames });
    core.make(Step::Settle);
    serve(&mut core);
    core
}

/// The one pending action is carried out.
fn serve<C: Core>(core: &mut C) {
    core.make(Step::Refresh { slot: 0 });
    let ticket = core.make(Step::Take);
    core.make(Step::Done { ticket });
}

fn flush<C: Core>() -> f64 {
    let mut core: C = sealed();
    timed(256, |_| flush_one(&mut core))
}

#[inline(always)]
fn flush_one<C: Core>(core: &mut C) {
    let page = core.make(Step::FlushTake);
    core.make(Step::FlushDone { page, ok: true });
}

fn clean<C: Core>() -> f64 {
    let mut core: C = sealed();
    for _ in 0..256 {
        flush_one(&mut core);
    }
    core.make(Step::Shift { to: 4 * 256 });
    core.make(Step::Close);
    serve(&mut core);
    timed(256, |_| {
        let page = core.make(Step::CleanTake);
        core.make(Step::CleanDone { page });
    })
}

fn best(run: fn() -> f64, least: f64) -> f64 {
    run().min(least)
}

/// Prints a row for each of the calls.
pub fn run() {
    let rows: [(&str, fn() -> f64, fn() -> f64); 9] = [
        (
            "refresh, 1 protected",
            || refresh::<Door>(1),
            || refresh::<Twin>(1),
        ),
        (
            "refresh, 64 protected",
            || refresh::<Door>(64),
            || refresh::<Twin>(64),
        ),
        (
            "acquire + release",
            acquire_release::<Door>,
            acquire_release::<Twin>,
        ),
        (
            "settle + take + done",
            settle_take_done::<Door>,
            settle_take_done::<Twin>,
        ),
        ("allocate 1 word", || allocate::<Door>(1), || allocate::<Twin>(1)),
        ("allocate 8 words", || allocate::<Door>(8), || allocate::<Twin>(8)),
        ("write check", write::<Door>, write::<Twin>),
        ("flush take + done", flush::<Door>, flush::<Twin>),
        ("clean take + done", clean::<Door>, clean::<Twin>),
    ];
    println!("nanoseconds a row, the best of {RUNS} runs of each in turn");
    println!("| Calls | Door | Twin | Door by twin |");
    println!("|---|---|---|---|");
    for (name, door, twin) in rows {
        let (mut of_door, mut of_twin) = (f64::MAX, f64::MAX);
        for _ in 0..RUNS {
            of_door = best(door, of_door);
            of_twin = best(twin, of_twin);
        }
        println!(
            "| {name} | {of_door:.1} | {of_twin:.1} | {:.2} |",
            of_door / of_twin
        );
    }
}
