//! Pins and unpins of crossbeam-epoch, for `hl_bench domains` to time: `hl_pin pin THREADS CALLS`.

use std::process::ExitCode;
use std::thread;

fn main() -> ExitCode {
    let words: Vec<String> = std::env::args().skip(1).collect();
    let number = |place: usize| words.get(place).and_then(|word| word.parse::<u64>().ok());
    let (Some("pin"), Some(threads), Some(calls)) = (words.first().map(String::as_str), number(1), number(2))
    else {
        eprintln!("usage: hl_pin pin THREADS CALLS");
        return ExitCode::from(2);
    };
    thread::scope(|scope| {
        for _ in 0..threads {
            scope.spawn(|| {
                for _ in 0..calls {
                    drop(crossbeam_epoch::pin());
                }
            });
        }
    });
    ExitCode::SUCCESS
}
