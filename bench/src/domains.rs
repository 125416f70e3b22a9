//! Nanoseconds of a domain's calls by threads: the proved domain's program beside the twin's, and crossbeam-epoch's pin
//! and unpin. Each is a program `NAME KIND THREADS CALLS`, timed from outside.

use std::env;
use std::io;
use std::path::{Path, PathBuf};
use std::process::Command;
use std::time::{Duration, Instant};

/// Of so many runs of each program, in turn, the best counts.
const RUNS: usize = 7;
const THREADS: [u64; 3] = [1, 2, 4];

/// A program that makes calls.
struct Caller {
    program: PathBuf,
    words: &'static [&'static str],
}

impl Caller {
    /// How long it takes to make so many calls in each thread, with all that is around them.
    fn time(&self, kind: &str, threads: u64, calls: u64) -> io::Result<Duration> {
        let failed = |why: String| {
            let program = self.program.display();
            io::Error::other(format!("{program} {kind} {threads} {calls}: {why}"))
        };
        let start = Instant::now();
        let status = Command::new(&self.program)
            .args(self.words)
            .arg(kind)
            .args([threads.to_string(), calls.to_string()])
            .status()
            .map_err(|error| failed(error.to_string()))?;
        let took = start.elapsed();
        if status.success() {
            Ok(took)
        } else {
            Err(failed(status.to_string()))
        }
    }
}

/// How many calls all threads make together. What enters the journal has an end, and so have words; the others are made
/// often enough to be timed.
fn calls_of(kind: &str) -> u64 {
    match kind {
        "lock" => 8_000_000,
        "load" | "load_beside" | "look" | "lease" | "keep_up" | "pin" => 80_000_000,
        _ => 1_000_000,
    }
}

/// For each program the nanoseconds that a thread waits for a call: its best run less its best run without calls.
fn waits(callers: &[&Caller], kind: &str, threads: u64) -> io::Result<Vec<f64>> {
    let calls = calls_of(kind) / threads;
    let mut best = vec![(Duration::MAX, Duration::MAX); callers.len()];
    for _ in 0..RUNS {
        for (caller, (without, with)) in callers.iter().zip(&mut best) {
            *without = caller.time(kind, threads, 0)?.min(*without);
            *with = caller.time(kind, threads, calls)?.min(*with);
        }
    }
    let wait = |(without, with): &(Duration, Duration)| {
        with.saturating_sub(*without).as_nanos() as f64 / calls as f64
    };
    Ok(best.iter().map(wait).collect())
}

/// Prints a row for each call and number of threads: the program of the proved domain beside the twin's, then what the
/// proved domain alone has, and crossbeam-epoch's calls, where that program is there.
pub fn run(proved: &Path, pin: Option<&Path>) -> io::Result<()> {
    let proved = Caller {
        program: proved.to_path_buf(),
        words: &[],
    };
    let twin = Caller {
        program: env::current_exe()?,
        words: &["pace"],
    };
    println!("nanoseconds that a thread waits for a call, the best of {RUNS} runs of each in turn");
    println!("| Calls | Threads | Proved | Twin | Proved by twin |");
    println!("|---|---|---|---|---|");
    for kind in ["lock", "refresh", "allocate", "store", "load", "look"] {
        for threads in THREADS {
            let waits = waits(&[&proved, &twin], kind, threads)?;
            let (proved, twin) = (waits[0], waits[1]);
            println!(
                "| {kind} | {threads} | {proved:.1} | {twin:.1} | {:.2} |",
                proved / twin
            );
        }
    }
    println!("| Calls | Threads | Proved |");
    println!("|---|---|---|");
    for kind in ["add", "lease", "keep_up"] {
        prints_alone(&proved, kind, kind, &THREADS)?;
    }
    // One of the threads refreshes meanwhile.
    prints_alone(
        &proved,
        "load_beside",
        "load beside a thread that refreshes",
        &THREADS[1..],
    )?;
    let Some(program) = pin else { return Ok(()) };
    let pin = Caller {
        program: program.to_path_buf(),
        words: &[],
    };
    println!("| Calls | Threads | crossbeam-epoch |");
    println!("|---|---|---|");
    prints_alone(&pin, "pin", "pin and unpin", &THREADS)
}

/// Prints a row for each number of threads that make calls which one program alone has.
fn prints_alone(caller: &Caller, kind: &str, name: &str, threads: &[u64]) -> io::Result<()> {
    for &threads in threads {
        let wait = waits(&[caller], kind, threads)?[0];
        println!("| {name} | {threads} | {wait:.1} |");
    }
    Ok(())
}
