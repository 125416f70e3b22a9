//! Threads that use the store's twin beside a crew, as those of `crates/hl_kv` use the store.

use crate::domain::{Domain, Rider};
use crate::rules::{Fault, Reply, Sizes, Snapshot, Step};
use crate::store::{zeros, Seat, Store, Trouble, PAGE_SIZE};
use std::sync::atomic::{AtomicBool, AtomicU64, Ordering::SeqCst};
use std::thread;
use std::time::{Duration, Instant};

const JOURNAL: usize = 1 << 15;
const BATCH: u64 = 4096;
const DRAWS: u64 = 1 << 20;
/// How long the crew sleeps after a turn that got nowhere.
const NAP: Duration = Duration::from_micros(50);

struct Plan {
    threads: u64,
    seconds: u64,
    reads: u64,
    zipf: bool,
    keys: u64,
    frames: u64,
}

/// Numbers that look drawn at random: xorshift64*.
struct Random(u64);

impl Random {
    fn of(number: u64) -> Random {
        Random((2 * number + 1).wrapping_mul(0x9E37_79B9_7F4A_7C15))
    }

    fn below(&mut self, end: u64) -> u64 {
        self.0 ^= self.0 >> 12;
        self.0 ^= self.0 << 25;
        self.0 ^= self.0 >> 27;
        (self.0.wrapping_mul(0x2545_F491_4F6C_DD1D) >> 32).wrapping_mul(end) >> 32
    }
}

struct Shared<'a> {
    plan: &'a Plan,
    domain: Domain,
    store: Store,
    /// Keys by Zipf's law; none if each is drawn as often.
    drawn: Vec<u64>,
    sums: Vec<AtomicU64>,
    is_over: AtomicBool,
}

/// Runs the store by the words of `hl_kv`: whether each counter was right. None where the words say something else.
pub fn run(words: &[&str]) -> Option<bool> {
    let plan = plan(words)?;
    let sizes = Sizes::checked(PAGE_SIZE, plan.frames, plan.threads, 16)?;
    let (domain, mut riders) = Domain::open(sizes, plan.threads as usize + 1, JOURNAL);
    let shared = Shared {
        plan: &plan,
        domain,
        store: Store::new(plan.keys),
        drawn: if plan.zipf { draw(plan.keys) } else { Vec::new() },
        sums: zeros(plan.keys),
        is_over: AtomicBool::new(false),
    };
    let crew_rider = riders.pop()?;
    let paces: Result<Vec<u64>, Trouble> = thread::scope(|scope| {
        let crew = scope.spawn(|| serve(&shared, crew_rider));
        let shared = &shared;
        let start = |(number, rider)| scope.spawn(move || work(shared, number, rider));
        let threads: Vec<_> = (0..).zip(riders).map(start).collect();
        let paces = threads
            .into_iter()
            .map(|thread| thread.join().expect("no panic"))
            .collect();
        let checked = check(shared);
        shared.is_over.store(true, SeqCst);
        crew.join().expect("no panic");
        checked.and(paces)
    });
    let paces = paces.inspect_err(|trouble| eprintln!("{trouble:?}")).ok();
    if let Some(paces) = &paces {
        println!("checked {} counters", plan.keys);
        println!("operations a second {}", paces.iter().sum::<u64>());
    }
    Some(paces.is_some())
}

fn plan(words: &[&str]) -> Option<Plan> {
    let (threads, seconds) = (words.first()?.parse().ok()?, words.get(1)?.parse().ok()?);
    let (reads, zipf, keys, frames) = (50, false, 100_000, 256);
    let mut plan = Plan {
        threads,
        seconds,
        reads,
        zipf,
        keys,
        frames,
    };
    let mut rest = words[2..].iter();
    while let Some(word) = rest.next() {
        match *word {
            "--zipf" => plan.zipf = true,
            "--reads" => plan.reads = rest.next()?.parse().ok()?,
            "--keys" => plan.keys = rest.next()?.parse().ok()?,
            "--frames" => plan.frames = rest.next()?.parse().ok()?,
            _ => return None,
        }
    }
    Some(plan)
}

/// Keys by Zipf's law of exponent 0.99.
fn draw(keys: u64) -> Vec<u64> {
    let mut sum = 0;
    let add = |key: u64| {
        sum += (134_217_728.0 / ((key + 1) as f64).powf(0.99)) as u64;
        sum
    };
    let sums: Vec<u64> = (0..keys).map(add).collect();
    let mut random = Random::of(keys);
    let key = |_| {
        let at = random.below(sum);
        sums.partition_point(|sum| *sum <= at) as u64
    };
    (0..DRAWS).map(key).collect()
}

/// What a thread does until its time is over: how many operations a second it made.
fn work(shared: &Shared, number: u64, rider: Rider) -> Result<u64, Trouble> {
    let Shared {
        plan, domain, store, ..
    } = shared;
    let pass = domain.acquire(number, rider).map_err(|(fault, _)| fault)?;
    let mut seat = Seat::new(pass, store);
    let mut sums = vec![0u64; plan.keys as usize];
    let mut random = Random::of(number);
    let (start, mut made) = (Instant::now(), 0);
    while start.elapsed().as_secs() < plan.seconds {
        for _ in 0..BATCH {
            seat.make_room()?;
            let at = random.below(DRAWS) as usize;
            let drawn = shared.drawn.get(at);
            let key = drawn.copied().unwrap_or_else(|| random.below(plan.keys));
            let value = random.below(1000);
            if random.below(100) < plan.reads {
                seat.read(key)?;
            } else {
                seat.add(key, value)?;
                sums[key as usize] = sums[key as usize].wrapping_add(value);
            }
        }
        made += BATCH;
        seat.upsert(plan.keys + number, made)?;
    }
    let millis = start.elapsed().as_millis() as u64;
    for (all, own) in shared.sums.iter().zip(sums) {
        all.fetch_add(own, SeqCst);
    }
    domain.cut();
    seat.pass.release().map_err(|(fault, _)| fault)?;
    Ok(made * 1000 / millis.max(1))
}

/// Whether each counter holds what the threads added.
fn check(shared: &Shared) -> Result<(), Trouble> {
    let pass = shared.domain.acquire(0, Rider::default());
    let mut seat = Seat::new(pass.map_err(|(fault, _)| fault)?, &shared.store);
    for (key, sum) in (0..).zip(&shared.sums) {
        if seat.read(key)?.unwrap_or(0) != sum.load(SeqCst) {
            eprintln!("key {key} differs");
            return Err(Trouble::Differs);
        }
    }
    seat.pass.release().map_err(|(fault, _)| fault)?;
    Ok(())
}

/// The crew: follows the tail, runs actions, writes pages and frees frames until the threads have ended.
fn serve(shared: &Shared, mut rider: Rider) {
    while !shared.is_over.load(SeqCst) {
        match turn(shared, &mut rider) {
            Ok(true) => {}
            Err(Fault::JournalFull) => {
                shared.domain.cut();
            }
            _ => thread::sleep(NAP),
        }
    }
}

/// Whether any step was made.
fn turn(shared: &Shared, rider: &mut Rider) -> Result<bool, Fault> {
    let Shared { domain, store, .. } = shared;
    let mut has_moved = false;
    let now = domain.snapshot();
    if now.pending == 0 && now.taken == 0 {
        for step in lag(shared.plan.frames, &now) {
            domain.make(rider, step)?;
            has_moved = true;
        }
    }
    while let Some(Reply::Taken(waiting)) = made(domain, rider, Step::Take)? {
        let ticket = waiting.ticket;
        insist(domain, rider, Step::Done { ticket });
        has_moved = true;
    }
    while let Some(Reply::Page(page)) = made(domain, rider, Step::FlushTake)? {
        let ok = store.device.write(domain, page);
        insist(domain, rider, Step::FlushDone { page, ok });
        has_moved |= ok;
        if !ok {
            break;
        }
    }
    while let Some(Reply::Page(page)) = made(domain, rider, Step::CleanTake)? {
        domain.sweep(page);
        insist(domain, rider, Step::CleanDone { page });
        has_moved = true;
    }
    Ok(has_moved)
}

/// A step's answer, if it wasn't refused; a full journal is told.
fn made(domain: &Domain, rider: &mut Rider, step: Step) -> Result<Option<Reply>, Fault> {
    match domain.make(rider, step) {
        Err(Fault::JournalFull) => Err(Fault::JournalFull),
        answer => Ok(answer.ok()),
    }
}

/// Makes a step that must be made, whatever is in the journal.
fn insist(domain: &Domain, rider: &mut Rider, step: Step) {
    while let Err(Fault::JournalFull) = domain.make(rider, step) {
        domain.cut();
    }
}

/// The steps of the lag that `hl_kv` asks its crew for.
fn lag(frames: u64, now: &Snapshot) -> Vec<Step> {
    let resident = frames - frames / 4;
    let mutable = resident - resident / 4;
    let pages = now.six.tail.div_ceil(PAGE_SIZE);
    let from = |count| PAGE_SIZE * pages.saturating_sub(count);
    let read_only = now.six.read_only.max(from(mutable));
    let head = now.six.head.max(from(resident).min(now.six.flushed));
    let mut steps = Vec::new();
    let mut push_if = |is_wanted, step| {
        if is_wanted {
            steps.push(step);
        }
    };
    push_if(read_only > now.six.read_only, Step::Raise { to: read_only });
    push_if(read_only > now.six.safe_read_only, Step::Settle);
    push_if(head > now.six.head, Step::Shift { to: head });
    push_if(head > now.six.closed, Step::Close);
    steps
}
