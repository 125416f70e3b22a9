//! The last pages of a log: sealed and written by one call of a pass, what each answers, and what it leaves where it is
//! refused.

use hl::{Fault, Log, Sealed, Sizes, View};
use std::collections::BTreeMap;
use std::panic::{catch_unwind, AssertUnwindSafe};
use std::sync::Mutex;
use std::thread;

fn opened(frames: u64, slots: u64, places: u64) -> Log {
    Log::open(Sizes::checked(4, frames, slots, places).unwrap()).unwrap()
}

fn view(read_only: u64, head: u64, tail: u64) -> View {
    View {
        read_only,
        head,
        tail,
    }
}

fn sealed(address: u64, ticket: Option<u64>) -> Result<Sealed, Fault> {
    Ok(Sealed { address, ticket })
}

#[test]
fn seals() -> Result<(), Fault> {
    let log = opened(4, 2, 1);
    let (mut pass, mut other) = (log.acquire(0)?, log.acquire(1)?);
    assert_eq!(pass.seal(), sealed(0, None), "there is nothing");
    pass.allocate(3)?;
    assert_eq!(pass.seal(), sealed(4, Some(1)));
    assert_eq!(pass.view(), view(4, 0, 4));
    assert_eq!(other.keep_up(), Ok(view(4, 0, 4)));
    assert_eq!(other.allocate(1), Ok(4));
    assert_eq!(other.seal(), Err(Fault::DrainFull));
    assert_eq!(
        (log.offsets().tail, other.view()),
        (8, view(8, 0, 8)),
        "the page is full, and read-only"
    );
    pass.refresh()?;
    assert_eq!(pass.help(|_| ()), Ok(true));
    assert_eq!(other.seal(), sealed(8, Some(2)), "it goes on");
    Ok(())
}

/// Pages that were written, in their order.
#[derive(Default)]
struct Device(Vec<u64>);

impl Device {
    fn write(&mut self, page: u64, words: &[u64]) -> bool {
        let is_next = page * 4 == self.0.len() as u64;
        if is_next {
            self.0.extend_from_slice(words);
        }
        is_next
    }
}

#[test]
fn flushes() -> Result<(), Fault> {
    let log = opened(4, 1, 2);
    let mut pass = log.acquire(0)?;
    let (mut device, mut jobs, mut asked) = (Device::default(), Vec::new(), 0);
    assert_eq!(pass.flush(1, |_, _| false, |_| ()), Ok(0), "there is nothing");
    pass.append(&[11, 12, 13])?;
    pass.append(&[21, 22, 23])?;
    log.bump(7)?;
    let mut fails = |_: u64, _: &[u64]| {
        asked += 1;
        false
    };
    let told = pass.flush(5, &mut fails, |tag| jobs.push(tag));
    assert_eq!((told, log.offsets().flushed), (Err(Fault::Device), 0));
    let told = pass.flush(5, |page, words| device.write(page, words), |tag| jobs.push(tag));
    assert_eq!((told, jobs), (Ok(8), vec![7]));
    assert_eq!(device.0, [11, 12, 13, 0, 21, 22, 23, 0]);
    assert_eq!(pass.flush(1, &mut fails, |_| ()), Ok(8), "no more is asked");
    assert_eq!(asked, 6);

    pass.append(&[31])?;
    let panicked = catch_unwind(AssertUnwindSafe(|| {
        pass.flush(5, |_, _| panic!("a write that is to panic"), |_| ())
    }));
    assert!(panicked.is_err());
    let told = pass.flush(5, |page, words| device.write(page, words), |_| ());
    assert_eq!((told, &device.0[8..]), (Ok(12), &[31, 0, 0, 0][..]));
    Ok(())
}

#[test]
fn others_stand_in_the_way() -> Result<(), Fault> {
    let log = opened(4, 2, 2);
    let (mut pass, slow) = (log.acquire(0)?, log.acquire(1)?);
    let mut device = Device::default();
    pass.append(&[1])?;
    let told = pass.flush(3, |page, words| device.write(page, words), |_| ());
    assert_eq!(told, Err(Fault::NotReady { front: 1, safe: 0 }));
    log.settle()?;
    pass.append(&[2])?;
    let told = pass.flush(3, |page, words| device.write(page, words), |_| ());
    assert_eq!(told, Err(Fault::DrainFull));
    drop(slow);
    let told = pass.flush(3, |page, words| device.write(page, words), |_| ());
    assert_eq!((told, device.0.len()), (Ok(8), 8));

    pass.append(&[3])?;
    pass.seal()?;
    pass.refresh()?;
    assert_eq!(pass.help(|_| ()), Ok(true));
    let page = log.flush_take()?;
    let told = pass.flush(3, |page, words| device.write(page, words), |_| ());
    assert_eq!(told, Err(Fault::NoneSealed), "another has the page");
    drop(page);
    let told = pass.flush(3, |page, words| device.write(page, words), |_| ());
    assert_eq!((told, device.0.len()), (Ok(12), 12));

    let mut next = None;
    let rested = pass.rest(|| next = log.acquire(0).ok());
    assert_eq!((rested, next.is_some()), (Err(Fault::Occupied), true));
    assert_eq!(pass.seal(), Err(Fault::NotProtected));
    assert_eq!(pass.flush(3, |_, _| true, |_| ()), Err(Fault::NotProtected));
    Ok(())
}

#[test]
fn two_threads_flush() -> Result<(), Fault> {
    const RECORDS: u64 = 200;
    let log = &opened(256, 2, 4);
    let pages = &Mutex::new(BTreeMap::new());
    let ride = |slot: u64| -> Result<(), Fault> {
        let mut pass = log.acquire(slot)?;
        for number in 0..RECORDS {
            pass.append(&[slot + 1, number])?;
            pass.keep_up()?;
            if number % 50 == 49 {
                let write =
                    |page, words: &[u64]| pages.lock().unwrap().insert(page, words.to_vec()).is_none();
                pass.flush(10_000, write, |_| ())?;
            }
        }
        Ok(())
    };
    thread::scope(|scope| {
        let threads = [0, 1].map(|slot| scope.spawn(move || ride(slot)));
        threads.into_iter().try_for_each(|thread| thread.join().unwrap())
    })?;
    let now = log.offsets();
    let pages = pages.lock().unwrap();
    assert_eq!((now.flushed, pages.len() as u64 * 4), (now.tail, now.tail));
    let mut next = [0; 2];
    for record in pages.values().flat_map(|words| words.chunks(2)) {
        if let [rider @ (1 | 2), number] = *record {
            assert_eq!(number, next[rider as usize - 1], "in order");
            next[rider as usize - 1] += 1;
        }
    }
    assert_eq!(next, [RECORDS; 2]);
    Ok(())
}
