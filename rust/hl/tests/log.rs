//! A log beside the proved core: each call's answer, what loads find, and all quantities, over random steps of one
//! thread and of four. `HL_STEPS` is how many steps each makes.

mod common;

use common::journal::{Entry, Step};
use common::noted::{Clean, Flush, Log, Pass};
use common::{replay, sizes, write_script, Random};
use hl::{Fault, Sizes};
use std::sync::atomic::{AtomicBool, Ordering};
use std::thread;

/// The steps of a round, after which a log is opened anew.
const ROUND: usize = 20_000;

fn steps() -> usize {
    std::env::var("HL_STEPS")
        .ok()
        .and_then(|word| word.parse().ok())
        .unwrap_or(100_000)
}

/// What a flusher has in its hands.
#[derive(Default)]
struct Hands<'a> {
    tickets: Vec<u64>,
    flushes: Vec<Flush<'a>>,
    cleans: Vec<Clean<'a>>,
    tags: u64,
}

/// A step by which the pages go on, where one is due.
fn go_on(log: &Log, hands: &mut Hands<'_>) -> Option<Result<u64, Fault>> {
    let six = log.offsets();
    let page_start = six.tail / log.sizes().page_size() * log.sizes().page_size();
    let waits = log.snapshot().pending > 0;
    Some(if let Some(ticket) = hands.tickets.pop() {
        log.done(ticket).map(|_| 0)
    } else if six.read_only < page_start {
        log.raise(page_start)
    } else if six.safe_read_only < six.read_only && !waits {
        log.settle()
    } else if six.head < six.flushed {
        log.shift(six.flushed)
    } else if six.closed < six.head && !waits {
        log.close()
    } else {
        return None;
    })
}

/// A random step of the actions, the offsets or the pages.
fn serve<'a>(log: &'a Log, hands: &mut Hands<'a>, random: &mut Random) {
    if random.below(2) == 0 && go_on(log, hands).is_some() {
        return;
    }
    let six = log.offsets();
    // Refusals are steps as others.
    let _: Result<u64, Fault> = match random.below(20) {
        0 if hands.tags < 1000 => {
            hands.tags += 1;
            log.bump(hands.tags - 1)
        }
        1 => log.settle(),
        2 => log.close(),
        3 => log.bare(),
        4 => log.done(random.below(9)).map(|_| 0),
        5 => log.raise(random.near(six.tail)),
        6 => log.shift(random.near(six.head)),
        7..=10 => log.take().map(|action| {
            hands.tickets.push(action.ticket);
            action.ticket
        }),
        11..=13 => log.flush_take().map(|page| {
            hands.flushes.push(page);
            0
        }),
        14..=16 => hands.flushes.pop().map_or(Ok(0), |page| {
            page.copy(&mut vec![0; log.sizes().page_size() as usize]);
            if random.below(5) == 0 {
                drop(page);
                Ok(0)
            } else {
                page.done()
            }
        }),
        17 | 18 => log.clean_take().map(|page| {
            hands.cleans.push(page);
            0
        }),
        _ => hands.cleans.pop().map_or(Ok(0), Clean::sweep),
    };
}

/// The addresses of a rider's last records, and how many words it stored and loaded, or was refused.
#[derive(Default)]
struct Own {
    addresses: Vec<u64>,
    words: usize,
}

/// A random step of a pass; its words go to addresses of its own records, and above its tail.
fn ride(pass: &mut Pass<'_>, own: &mut Own, random: &mut Random, sizes: Sizes) {
    let Own { addresses, words } = own;
    let address = if addresses.is_empty() || random.below(8) == 0 {
        pass.view().tail + random.below(3)
    } else {
        random.one_of(addresses)
    };
    match random.below(10) {
        0..=2 => drop(pass.refresh()),
        9 => drop(pass.look()),
        3 => {
            let length = random.below(sizes.page_size() + 2);
            if let Ok(first) = pass.allocate(length) {
                addresses.extend(first..first + length);
                addresses.drain(..addresses.len().saturating_sub(200));
            }
        }
        4 | 5 => {
            *words += 1;
            let _ = pass.store(address, random.next());
        }
        _ => {
            *words += 1;
            let _ = pass.load(address);
        }
    }
}

/// The journal is stepped through, and has all of so many stores and loads.
fn compare(name: &str, log: &Log, words: usize) -> usize {
    let journal: Vec<Entry> = log.take_journal();
    replay(log.sizes(), &journal, log.snapshot());
    let is_of_a_word = |entry: &&Entry| matches!(entry.step, Step::Store { .. } | Step::Load { .. });
    assert_eq!(journal.iter().filter(is_of_a_word).count(), words);
    write_script(name, log.sizes(), &journal);
    journal.len()
}

/// One page's way: what each thread sees of it, and what its copy and its next words are.
#[test]
fn the_way_of_a_page() {
    let log = hl::Log::open(Sizes::checked(4, 2, 2, 4).unwrap()).unwrap();
    let (mut writer, mut reader) = (log.acquire(0).unwrap(), log.acquire(1).unwrap());
    assert_eq!((writer.allocate(4), writer.store(3, 7)), (Ok(0), Ok(())));
    assert_eq!(reader.load(3), Err(Fault::Beyond { tail: 0 }));
    reader.refresh().unwrap();
    assert_eq!(reader.load(3), Ok(7));

    assert_eq!(
        (log.raise(4), writer.store(3, 8)),
        (Ok(4), Ok(())),
        "it hasn't seen the raise"
    );
    assert_eq!(writer.look().read_only, 4);
    assert_eq!(writer.store(3, 9), Err(Fault::Below { read_only: 4 }));
    log.settle().unwrap();
    refresh_and_serve(&log, [&mut writer, &mut reader]);

    drop(log.flush_take().unwrap());
    let page = log.flush_take().unwrap();
    let mut words = [1; 4];
    page.copy(&mut words);
    assert_eq!((page.page(), words, page.done()), (0, [0, 0, 0, 8], Ok(4)));

    assert_eq!(
        (log.shift(4), writer.load(3)),
        (Ok(4), Ok(8)),
        "it hasn't seen the shift"
    );
    assert_eq!(writer.look().head, 4);
    assert_eq!(writer.load(3), Err(Fault::Evicted { head: 4 }));
    log.close().unwrap();
    refresh_and_serve(&log, [&mut writer, &mut reader]);
    assert_eq!(
        (writer.allocate(4), writer.allocate(4)),
        (Ok(4), Err(Fault::Busy { page: 2 }))
    );
    assert_eq!(log.clean_take().unwrap().sweep(), Ok(0));
    assert_eq!(
        (writer.allocate(4), writer.load(11)),
        (Ok(8), Ok(0)),
        "a frame comes back empty"
    );
}

/// Words are changed in one step, and each refusal is that of a store.
#[test]
fn changes_in_one_step() {
    let log = hl::Log::open(Sizes::checked(4, 2, 1, 4).unwrap()).unwrap();
    let mut pass = log.acquire(0).unwrap();
    assert_eq!(pass.fetch_add(0, 1), Err(Fault::Beyond { tail: 0 }));
    pass.allocate(4).unwrap();
    assert_eq!(
        (pass.fetch_add(3, 5), pass.fetch_add(3, u64::MAX)),
        (Ok(0), Ok(5))
    );
    assert_eq!(pass.load(3), Ok(4), "modulo 2^64");
    assert_eq!(
        pass.compare_exchange(3, 5, 9),
        Ok(Err(4)),
        "another word stands there"
    );
    assert_eq!(pass.compare_exchange(3, 4, 9), Ok(Ok(4)));
    assert_eq!(pass.load(3), Ok(9));
    log.raise(4).unwrap();
    pass.look();
    assert_eq!(pass.fetch_add(3, 1), Err(Fault::Below { read_only: 4 }));
    assert_eq!(pass.compare_exchange(3, 9, 1), Err(Fault::Below { read_only: 4 }));
    assert_eq!(pass.load(3), Ok(9));
}

/// A slot that doesn't move on holds the oldest action up, and knows by itself that something is new.
#[test]
fn who_holds_up() {
    let log = hl::Log::open(Sizes::checked(4, 2, 3, 4).unwrap()).unwrap();
    let mut first = log.acquire(0).unwrap();
    let mut last = log.acquire(2).unwrap();
    assert!(log.holders().is_empty(), "no action is pending");
    assert!(first.keeps_up() && last.keeps_up());
    let ticket = log.bump(7).unwrap();
    assert!(!first.keeps_up() && !last.keeps_up(), "an epoch has ended");
    let holder = |slot| hl::Holder {
        slot,
        epoch: 1,
        ticket,
    };
    assert_eq!(log.holders(), [holder(0), holder(2)]);
    first.refresh().unwrap();
    assert_eq!(log.holders(), [holder(2)]);
    assert!(first.keeps_up());
    drop(last);
    assert!(log.holders().is_empty(), "the next take gives it");
    assert_eq!(log.take().unwrap().ticket, ticket);
}

/// Each pass moves on, and the oldest action is carried out.
fn refresh_and_serve(log: &hl::Log, passes: [&mut hl::Pass<'_>; 2]) {
    for pass in passes {
        pass.refresh().unwrap();
    }
    log.done(log.take().unwrap().ticket).unwrap();
}

#[test]
fn one_thread_with_many_slots() {
    let mut random = Random::new(47);
    let (mut made, mut round) = (0, 0);
    while made < steps() {
        let log = Log::open(sizes(round)).unwrap();
        let mut passes: Vec<(Pass<'_>, Own)> = Vec::new();
        let (mut hands, mut words) = (Hands::default(), 0);
        for _ in 0..ROUND {
            let slot = random.below(log.sizes().slots() + 1);
            match random.below(40) {
                0..=2 => passes.extend(log.acquire(slot).map(|pass| (pass, Own::default()))),
                3 if !passes.is_empty() => {
                    let place = random.below(passes.len() as u64) as usize;
                    words += passes.swap_remove(place).1.words;
                }
                4..=20 => serve(&log, &mut hands, &mut random),
                _ => {
                    let place = random.below(passes.len() as u64) as usize;
                    if let Some((pass, own)) = passes.get_mut(place) {
                        ride(pass, own, &mut random, log.sizes());
                    }
                }
            }
        }
        words += passes.drain(..).map(|(_, own)| own.words).sum::<usize>();
        drop(hands);
        made += compare(&format!("rust_one_{round}"), &log, words);
        round += 1;
    }
    println!("{made} steps in {round} rounds");
}

#[test]
fn four_threads_beside_a_flusher() {
    let (mut made, mut round) = (0, 0);
    while made < steps() {
        let log = Log::open(sizes(round)).unwrap();
        let riding = AtomicBool::new(true);
        let words = thread::scope(|scope| {
            let riders: Vec<_> = (0..4)
                .map(|slot| {
                    let log = &log;
                    scope.spawn(move || {
                        let mut random = Random::new(round * 4 + slot + 1);
                        let mut own = Own::default();
                        for _ in 0..20 {
                            let mut pass = log.acquire(slot).unwrap();
                            for _ in 0..ROUND / 160 {
                                ride(&mut pass, &mut own, &mut random, log.sizes());
                            }
                        }
                        own.words
                    })
                })
                .collect();
            scope.spawn(|| {
                let mut random = Random::new(round + 1);
                let mut hands = Hands::default();
                while riding.load(Ordering::Acquire) {
                    serve(&log, &mut hands, &mut random);
                }
            });
            let words = riders.into_iter().map(|rider| rider.join().unwrap()).sum();
            riding.store(false, Ordering::Release);
            words
        });
        made += compare(&format!("rust_four_{round}"), &log, words);
        round += 1;
    }
    println!("{made} steps in {round} rounds");
}
