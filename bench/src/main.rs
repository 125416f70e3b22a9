//! Plain Rust twins of hl's core and of its domain beside the proved ones: `diff STEPS [SEED]` compares what the cores
//! tell, `speed` how long their calls take, `logs` and `domains` how long calls take by threads. `./hl bench` runs all.

mod diff;
mod domain;
mod domain_pass;
#[cfg(test)]
mod domain_tests;
mod domains;
mod door;
mod drain;
mod epochs;
mod kv;
mod log;
mod logs;
mod pace;
mod pages;
mod random;
mod rules;
mod speed;
mod store;
mod told;
mod twin;
mod twin_log;

use std::path::Path;
use std::process::ExitCode;

const USAGE: &str = "usage: hl_bench diff STEPS [SEED] | hl_bench speed | hl_bench logs < ROWS
       hl_bench kv THREADS SECONDS [--reads PERCENT] [--zipf] [--keys N] [--frames F]
       hl_bench domains PROVED [PIN] | hl_bench pace lock|refresh|allocate|store|load|look THREADS CALLS";

fn main() -> ExitCode {
    let words: Vec<String> = std::env::args().skip(1).collect();
    let words: Vec<&str> = words.iter().map(String::as_str).collect();
    done(&words).unwrap_or_else(|| {
        eprintln!("{USAGE}");
        ExitCode::from(2)
    })
}

/// Does what the words say; None where they say nothing.
fn done(words: &[&str]) -> Option<ExitCode> {
    let succeeded = match *words {
        ["diff", steps] => diff::run(steps.parse().ok()?, 1),
        ["diff", steps, seed] => diff::run(steps.parse().ok()?, seed.parse().ok()?),
        ["speed"] => {
            speed::run();
            true
        }
        ["logs"] => {
            let of_cpp = std::io::read_to_string(std::io::stdin()).unwrap_or_default();
            logs::run(&of_cpp);
            true
        }
        ["pace", kind, threads, calls] => pace::run(kind, threads.parse().ok()?, calls.parse().ok()?)?,
        ["kv", ref words @ ..] => kv::run(words)?,
        ["domains", proved, ref pin @ ..] if pin.len() < 2 => {
            let pin = pin.first().map(Path::new);
            let ran = domains::run(Path::new(proved), pin);
            ran.inspect_err(|error| eprintln!("hl_bench: {error}")).is_ok()
        }
        _ => return None,
    };
    Some(ExitCode::from(u8::from(!succeeded)))
}
