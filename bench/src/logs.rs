//! Nanoseconds of the calls of logs that threads share: the Rust crate's beside a plain one over the twin, and beside
//! them the C++ log's, which `native/tests/pace.cpp` told.

use crate::rules::Sizes;
use crate::twin_log::{TwinLog, TwinPass};
use std::hint::black_box;
use std::sync::Barrier;
use std::thread;
use std::time::Instant;

/// Of so many runs of each, in turn, the best counts.
const RUNS: usize = 9;
const CALLS: u64 = 200_000;
/// Each thread goes round on so many words of its own.
const WORDS: u64 = 64;

trait Log: Sync + Sized {
    type Pass<'a>: Ride
    where
        Self: 'a;
    fn open(sizes: [u64; 4]) -> Self;
    fn acquire(&self, slot: u64) -> Self::Pass<'_>;
}

/// The calls that are timed; none of them is refused.
trait Ride {
    fn refresh(&mut self);
    fn allocate(&mut self, words: u64) -> u64;
    fn store(&mut self, address: u64, word: u64);
    fn load(&mut self, address: u64) -> u64;
    fn look(&mut self) -> u64;
}

impl Log for hl::Log {
    type Pass<'a> = hl::Pass<'a>;

    fn open([page_size, frames, slots, drain]: [u64; 4]) -> hl::Log {
        let sizes = hl::Sizes::checked(page_size, frames, slots, drain).expect("sizes in range");
        hl::Log::open(sizes).expect("memory")
    }

    fn acquire(&self, slot: u64) -> hl::Pass<'_> {
        self.acquire(slot).expect("a free slot")
    }
}

impl Ride for hl::Pass<'_> {
    fn refresh(&mut self) {
        self.refresh().expect("a protected slot");
    }

    fn allocate(&mut self, words: u64) -> u64 {
        self.allocate(words).expect("a free frame")
    }

    fn store(&mut self, address: u64, word: u64) {
        self.store(address, word).expect("an own word");
    }

    fn load(&mut self, address: u64) -> u64 {
        self.load(address).expect("an own word")
    }

    fn look(&mut self) -> u64 {
        self.look().read_only
    }
}

impl Log for TwinLog {
    type Pass<'a> = TwinPass<'a>;

    fn open([page_size, frames, slots, drain]: [u64; 4]) -> TwinLog {
        TwinLog::open(Sizes::checked(page_size, frames, slots, drain).expect("sizes in range"))
    }

    fn acquire(&self, slot: u64) -> TwinPass<'_> {
        self.acquire(slot)
    }
}

impl Ride for TwinPass<'_> {
    fn refresh(&mut self) {
        self.refresh();
    }

    fn allocate(&mut self, words: u64) -> u64 {
        self.allocate(words)
    }

    fn store(&mut self, address: u64, word: u64) {
        assert!((*self).store(address, word), "an own word");
    }

    fn load(&mut self, address: u64) -> u64 {
        (*self).load(address).expect("an own word")
    }

    fn look(&mut self) -> u64 {
        self.look()
    }
}

/// One thread's calls of this name, from their begin to their end.
fn ride<L: Log>(log: &L, slot: u64, barrier: &Barrier, call: &str) -> (Instant, Instant) {
    let mut pass = log.acquire(slot);
    let first = pass.allocate(WORDS);
    barrier.wait();
    let begin = Instant::now();
    match call {
        "refresh" => (0..CALLS).for_each(|_| pass.refresh()),
        "allocate" => (0..CALLS).for_each(|_| {
            black_box(pass.allocate(1));
        }),
        "store" => (0..CALLS).for_each(|i| pass.store(black_box(first + i % WORDS), i)),
        "load" => (0..CALLS).for_each(|i| {
            black_box(pass.load(black_box(first + i % WORDS)));
        }),
        _ => (0..CALLS).for_each(|_| {
            black_box(pass.look());
        }),
    }
    (begin, Instant::now())
}

/// Nanoseconds a call, where so many threads make such calls at once.
fn timed<L: Log>(threads: u64, call: &str) -> f64 {
    let log = L::open([4096, 256, threads, 4]);
    let barrier = Barrier::new(threads as usize);
    let spans: Vec<(Instant, Instant)> = thread::scope(|scope| {
        let start = |slot| {
            let (log, barrier) = (&log, &barrier);
            scope.spawn(move || ride(log, slot, barrier, call))
        };
        let threads: Vec<_> = (0..threads).map(start).collect();
        threads
            .into_iter()
            .map(|thread| thread.join().expect("no panic"))
            .collect()
    });
    let begin = spans.iter().map(|span| span.0).min().expect("a thread");
    let end = spans.iter().map(|span| span.1).max().expect("a thread");
    (end - begin).as_nanos() as f64 / CALLS as f64
}

/// Prints a row for each call and number of threads. The lines are those of the C++ log: a call, threads, nanoseconds.
pub fn run(of_cpp: &str) {
    println!("nanoseconds a call of each thread, the best of {RUNS} runs of each in turn");
    println!("| Calls | Threads | Rust | C++ | Twin | Rust by twin |");
    println!("|---|---|---|---|---|---|");
    for call in ["refresh", "allocate", "store", "load", "look"] {
        for threads in [1, 4] {
            let (mut rust, mut twin) = (f64::MAX, f64::MAX);
            for _ in 0..RUNS {
                rust = rust.min(timed::<hl::Log>(threads, call));
                twin = twin.min(timed::<TwinLog>(threads, call));
            }
            let row = format!("{call} {threads} ");
            let cpp = of_cpp
                .lines()
                .find_map(|line| line.strip_prefix(&row))
                .unwrap_or("");
            println!(
                "| {call} | {threads} | {rust:.1} | {cpp} | {twin:.1} | {:.2} |",
                rust / twin
            );
        }
    }
}
