//! An append-only log: four threads append records, and one writes the pages to a file behind them. At the end the file
//! is read back and compared. Usage: append_log FILE

use hl::{Log, Pass, Sizes};
use std::error::Error;
use std::fs::File;
use std::io::{Read, Seek, SeekFrom, Write};
use std::sync::atomic::{AtomicBool, Ordering};
use std::thread;

const PAGE_SIZE: u64 = 64;
const FRAMES: u64 = 16;
const THREADS: u64 = 4;
const RECORDS: u64 = 10_000;

type Outcome<T = ()> = Result<T, Box<dyn Error + Send + Sync>>;

/// A record: how many words it has, its thread, its number, and words that follow from both.
fn record(thread: u64, number: u64) -> Vec<u64> {
    let length = 3 + number % 8;
    let rest = (3..length).map(|i| thread * RECORDS + number + i);
    [length, thread, number].into_iter().chain(rest).collect()
}

/// Appends a record, and brings the pass up to date.
fn append(pass: &mut Pass<'_>, words: &[u64]) -> Outcome {
    while let Err(fault) = pass.append(words) {
        // No frame is free: the oldest one comes back once every thread has moved on.
        if !matches!(fault, hl::Fault::Busy { .. }) {
            return Err(fault.into());
        }
        thread::yield_now();
        pass.refresh()?;
    }
    pass.keep_up()?;
    Ok(())
}

/// Writes a page.
fn write_page(file: &mut File, page: u64, words: &[u64]) -> std::io::Result<()> {
    let bytes: Vec<u8> = words.iter().flat_map(|word| word.to_le_bytes()).collect();
    file.seek(SeekFrom::Start(page * PAGE_SIZE * 8))?;
    file.write_all(&bytes)
}

/// One turn of the thread that flushes: it seals what lies below an address, writes sealed pages, and frees what is
/// old.
fn serve(log: &Log, file: &mut File, seal_below: u64) -> Outcome {
    let now = log.snapshot();
    if seal_below > now.offsets.read_only {
        log.raise(seal_below)?;
    }
    if now.pending == 0 && now.offsets.safe_read_only < now.offsets.read_only {
        log.settle()?;
    }
    while let Ok(action) = log.take() {
        log.done(action.ticket)?;
    }
    while let Ok(page) = log.flush_take() {
        let mut words = [0; PAGE_SIZE as usize];
        page.copy(&mut words);
        // Where this fails, the page is dropped, and may be taken again; this program gives up.
        write_page(file, page.page(), &words)?;
        page.done()?;
    }
    let now = log.snapshot();
    if now.offsets.flushed > now.offsets.head {
        log.shift(now.offsets.flushed)?;
    }
    if now.pending == 0 && now.offsets.closed < now.offsets.head {
        log.close()?;
    }
    while let Ok(page) = log.clean_take() {
        page.sweep()?;
    }
    Ok(())
}

/// Serves until the appending has ended, and then has the last pages written, with the one that isn't full.
fn flush_all(log: &Log, file: &mut File, ended: &AtomicBool) -> Outcome {
    while !ended.load(Ordering::Acquire) {
        serve(log, file, log.offsets().tail / PAGE_SIZE * PAGE_SIZE)?;
        thread::yield_now();
    }
    let mut pass = log.acquire(0)?;
    // Nobody stored a job.
    pass.flush(
        1000,
        |page, words| write_page(file, page, words).is_ok(),
        |_tag| (),
    )?;
    Ok(())
}

fn fail(error: &dyn Error) -> ! {
    eprintln!("{error}");
    std::process::exit(1)
}

/// Appends all records, and writes all pages.
fn write_log(file: &mut File) -> Outcome {
    let log = &Log::open(Sizes::checked(PAGE_SIZE, FRAMES, THREADS, 4)?)?;
    let ended = &AtomicBool::new(false);
    thread::scope(|scope| {
        let flusher = scope.spawn(|| {
            let served = flush_all(log, file, ended);
            // Nobody could append any more.
            served.unwrap_or_else(|error| fail(&*error));
        });
        let threads = [0, 1, 2, 3].map(|thread| {
            scope.spawn(move || -> Outcome {
                let mut pass = log.acquire(thread)?;
                (0..RECORDS).try_for_each(|number| append(&mut pass, &record(thread, number)))
            })
        });
        let appended: Outcome = threads
            .into_iter()
            .try_for_each(|thread| thread.join().expect("no panic"));
        ended.store(true, Ordering::Release);
        flusher.join().expect("no panic");
        appended
    })
}

/// Whether the file has each thread's records in their order, and nothing else.
fn is_as_appended(file: &mut File) -> Outcome<bool> {
    let mut bytes = Vec::new();
    file.seek(SeekFrom::Start(0))?;
    file.read_to_end(&mut bytes)?;
    let words: Vec<u64> = bytes
        .chunks_exact(8)
        .map(|word| u64::from_le_bytes(word.try_into().expect("8 bytes")))
        .collect();
    let mut next = [0; THREADS as usize];
    for page in words.chunks(PAGE_SIZE as usize) {
        let mut rest = page;
        while let [1..=PAGE_SIZE, thread, ..] = *rest {
            let Some(number) = next.get_mut(thread as usize) else {
                return Ok(false);
            };
            let Some(behind) = rest.strip_prefix(record(thread, *number).as_slice()) else {
                return Ok(false);
            };
            *number += 1;
            rest = behind;
        }
        // What no record was placed on is 0.
        if rest.iter().any(|word| *word != 0) {
            return Ok(false);
        }
    }
    Ok(next == [RECORDS; THREADS as usize])
}

fn main() -> Outcome {
    let path = std::env::args_os().nth(1).ok_or("usage: append_log FILE")?;
    let mut file = File::options()
        .read(true)
        .write(true)
        .create(true)
        .truncate(true)
        .open(path)?;
    write_log(&mut file)?;
    if !is_as_appended(&mut file)? {
        return Err("not as appended".into());
    }
    println!(
        "{} records of {THREADS} threads: read back as appended",
        THREADS * RECORDS
    );
    Ok(())
}
