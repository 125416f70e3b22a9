//! Counters that outlive their memory: four threads add to counters that lie in a log, and one flushes its pages to a
//! device and frees their frames behind them. An add is made in place where its record is mutable, waits where that is
//! fuzzy, and else copies the sum to the tail. At the end each counter is the sum of what the threads added.

use hl::{Fault, LagStep, Lease, Log, Pass, Region, Sizes};
use std::sync::atomic::{AtomicBool, AtomicU64, Ordering};
use std::sync::Mutex;
use std::thread;

const PAGE_SIZE: u64 = 64;
const FRAMES: u64 = 8;
const THREADS: u64 = 4;
const COUNTERS: usize = 1000;
const ADDS: u64 = 20_000;
/// A record is its counter's number and value; a piece has eight.
const RECORD: u64 = 2;
const PIECE: u64 = 16;
/// Where a counter that nobody added to has its record.
const NOWHERE: u64 = u64::MAX;

type Page = [u64; PAGE_SIZE as usize];

/// A device in memory: the pages that were flushed.
#[derive(Default)]
struct Device(Mutex<Vec<Page>>);

impl Device {
    fn write(&self, page: u64, words: Page) {
        let mut pages = self.0.lock().expect("no panic");
        let page = page as usize;
        if page >= pages.len() {
            pages.resize(page + 1, [0; PAGE_SIZE as usize]);
        }
        pages[page] = words;
    }

    /// The word at an address of a page that was flushed.
    fn read(&self, address: u64) -> u64 {
        let pages = self.0.lock().expect("no panic");
        pages[(address / PAGE_SIZE) as usize][(address % PAGE_SIZE) as usize]
    }
}

/// The counters: the log, its device, and where each counter's newest record is.
struct Counters {
    log: Log,
    device: Device,
    index: [AtomicU64; COUNTERS],
}

/// A thread's seat: its pass, and a piece that has room for its next records.
struct Seat<'a> {
    counters: &'a Counters,
    pass: Pass<'a>,
    lease: Lease,
}

impl<'a> Seat<'a> {
    fn new(counters: &'a Counters, slot: u64) -> Result<Seat<'a>, Fault> {
        Ok(Seat {
            counters,
            pass: counters.log.acquire(slot)?,
            lease: Lease::default(),
        })
    }

    fn add(&mut self, counter: usize, more: u64) -> Result<(), Fault> {
        while !self.attempt(counter, more)? {
            // Other threads have to move on, or a frame has to come free.
            if !self.pass.help(|_| ())? {
                thread::yield_now();
            }
        }
        Ok(())
    }

    /// The value of a counter to which nobody adds any more.
    fn value(&mut self, counter: usize) -> Result<u64, Fault> {
        self.pass.refresh()?;
        match self.counters.index[counter].load(Ordering::Acquire) {
            NOWHERE => Ok(0),
            at if self.pass.region(at)? == Region::Evicted => self.on_device(at),
            at => self.in_memory(counter, at),
        }
    }

    /// One attempt, which begins with the log as it is and looks the counter up anew. False: it changed nothing.
    fn attempt(&mut self, counter: usize, more: u64) -> Result<bool, Fault> {
        self.pass.keep_up()?;
        let at = self.counters.index[counter].load(Ordering::Acquire);
        if at == NOWHERE {
            return self.publish(counter, at, more);
        }
        let value = match self.pass.region(at) {
            Ok(Region::Mutable) => return self.pass.fetch_add(at + 1, more).map(|_| true),
            // A thread that hasn't moved on may still add there; or the record is above the tail that the pass saw.
            Ok(Region::Fuzzy) | Err(Fault::Beyond { .. }) => return Ok(false),
            Ok(Region::ReadOnly) => self.in_memory(counter, at)?,
            Ok(Region::Evicted) => self.on_device(at)?,
            Err(fault) => return Err(fault),
        };
        self.publish(counter, at, value + more)
    }

    fn in_memory(&mut self, counter: usize, at: u64) -> Result<u64, Fault> {
        let mut record = [0; RECORD as usize];
        self.pass.load_into(at, &mut record)?;
        assert_eq!(record[0], counter as u64);
        Ok(record[1])
    }

    /// A value on the device. The slot holds nothing back while the thread waits for it: what was evicted stays as it is,
    /// and the index tells whether it is still the newest.
    fn on_device(&mut self, at: u64) -> Result<u64, Fault> {
        let mut value = 0;
        self.pass.rest(|| value = self.counters.device.read(at + 1))?;
        Ok(value)
    }

    /// Places a record, and makes it the newest of its counter if that one is still the newest. Nobody finds it before.
    fn publish(&mut self, counter: usize, newest: u64, value: u64) -> Result<bool, Fault> {
        let at = match self.lease.take(RECORD) {
            Some(at) => at,
            None => match self.pass.lease(PIECE) {
                Ok(lease) => {
                    self.lease = lease;
                    self.lease.take(RECORD).expect("room for a record")
                }
                Err(Fault::Busy { .. }) => return Ok(false),
                Err(fault) => return Err(fault),
            },
        };
        let stored = self
            .pass
            .store(at, counter as u64)
            .and_then(|()| self.pass.store(at + 1, value));
        match stored {
            Ok(()) => Ok(self.counters.index[counter]
                .compare_exchange(newest, at, Ordering::AcqRel, Ordering::Relaxed)
                .is_ok()),
            // The read-only offset has passed the piece: what is left of it is let go.
            Err(Fault::Below { .. }) => {
                self.lease = Lease::default();
                Ok(false)
            }
            Err(fault) => Err(fault),
        }
    }
}

/// One turn of the thread that flushes: the offsets follow the tail, sealed pages are written, and closed ones freed.
fn serve(log: &Log, device: &Device) -> Result<(), Fault> {
    while let Ok(action) = log.take() {
        log.done(action.ticket)?;
    }
    let now = log.snapshot();
    if now.pending == 0 && now.taken == 0 {
        // About two pages are mutable, and five in memory.
        for step in log.lag(2, 5)? {
            match step {
                LagStep::Raise(address) => log.raise(address)?,
                LagStep::Settle => log.settle()?,
                LagStep::Shift(address) => log.shift(address)?,
                LagStep::Close => log.close()?,
            };
        }
    }
    while let Ok(page) = log.flush_take() {
        let mut words = [0; PAGE_SIZE as usize];
        page.copy(&mut words);
        device.write(page.page(), words);
        page.done()?;
    }
    while let Ok(page) = log.clean_take() {
        page.sweep()?;
    }
    Ok(())
}

/// Adds to many counters; what it added to each.
fn add_all(counters: &Counters, slot: u64) -> Result<Vec<u64>, Fault> {
    let mut seat = Seat::new(counters, slot)?;
    let mut sums = vec![0; COUNTERS];
    for i in 0..ADDS {
        // Few counters get half of the adds.
        let most = if i % 2 == 1 { 10 } else { COUNTERS as u64 };
        let counter = ((i * (slot + 7) + i / 9) % most) as usize;
        seat.add(counter, i)?;
        sums[counter] += i;
    }
    Ok(sums)
}

fn fail(fault: Fault) -> ! {
    eprintln!("{fault}");
    std::process::exit(1)
}

fn main() -> Result<(), Fault> {
    let counters = &Counters {
        log: Log::open(Sizes::checked(PAGE_SIZE, FRAMES, THREADS, 4)?)?,
        device: Device::default(),
        index: [(); COUNTERS].map(|()| AtomicU64::new(NOWHERE)),
    };
    let ended = &AtomicBool::new(false);
    let sums: Vec<Vec<u64>> = thread::scope(|scope| {
        scope.spawn(|| {
            while !ended.load(Ordering::Acquire) {
                // Nobody could go on any more.
                serve(&counters.log, &counters.device).unwrap_or_else(|fault| fail(fault));
                thread::yield_now();
            }
        });
        let threads = [0, 1, 2, 3].map(|slot| scope.spawn(move || add_all(counters, slot)));
        let joined = threads.map(|thread| thread.join());
        ended.store(true, Ordering::Release);
        joined
            .into_iter()
            .map(|sums| sums.expect("no panic"))
            .collect::<Result<_, Fault>>()
    })?;
    let mut seat = Seat::new(counters, 0)?;
    for counter in 0..COUNTERS {
        let sum: u64 = sums.iter().map(|row| row[counter]).sum();
        assert_eq!(seat.value(counter)?, sum, "counter {counter}");
    }
    println!(
        "{} adds of {THREADS} threads to {COUNTERS} counters: none was lost",
        THREADS * ADDS
    );
    Ok(())
}
