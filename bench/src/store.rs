//! The twin of `crates/hl_kv`'s store over the domain's twin: the same records, index, device and operations.

use crate::domain::Domain;
use crate::domain_pass::Pass;
use crate::rules::{Fault, Reply, Step};
use std::sync::atomic::{AtomicU64, Ordering::SeqCst};
use std::sync::OnceLock;
use std::thread;
use std::time::Duration;

pub const PAGE_SIZE: u64 = 4096;
/// How many places for pages the device has.
const PLACES: u64 = 1 << 13;
/// How many pages it keeps.
const PAGES_MOST: u64 = PLACES - 512;
/// Key, value, and the link to the record before it.
const RECORD_WORDS: u64 = 3;
const PIECE_RECORDS: u64 = PAGE_SIZE / RECORD_WORDS / 8;
const SPREAD: u64 = 0x9E37_79B9_7F4A_7C15;
const NAP: Duration = Duration::from_micros(50);

pub fn zeros(count: u64) -> Vec<AtomicU64> {
    (0..count).map(|_| AtomicU64::new(0)).collect()
}

/// A place for a page; 1 + the page's number, 0 while one is written.
struct Place {
    name: AtomicU64,
    words: OnceLock<Vec<AtomicU64>>,
}

/// A ring of places for pages.
pub struct Device {
    places: Vec<Place>,
    pub written: AtomicU64,
    first: AtomicU64,
}

impl Device {
    fn new() -> Device {
        let place = |_| Place {
            name: AtomicU64::new(0),
            words: OnceLock::new(),
        };
        Device {
            places: (0..PLACES).map(place).collect(),
            written: AtomicU64::new(0),
            first: AtomicU64::new(0),
        }
    }

    /// Keeps a page, if there is room.
    pub fn write(&self, domain: &Domain, page: u64) -> bool {
        if self.first.load(SeqCst) + PLACES <= page {
            return false;
        }
        let place = &self.places[(page % PLACES) as usize];
        let words = place.words.get_or_init(|| zeros(PAGE_SIZE));
        place.name.store(0, SeqCst);
        for (address, word) in (page * PAGE_SIZE..).zip(words) {
            word.store(domain.cell(address).load(SeqCst), SeqCst);
        }
        place.name.store(page + 1, SeqCst);
        self.written.fetch_add(1, SeqCst);
        true
    }

    fn word(&self, address: u64) -> Option<u64> {
        let page = address / PAGE_SIZE;
        let place = &self.places[(page % PLACES) as usize];
        let word = place.words.get()?[(address % PAGE_SIZE) as usize].load(SeqCst);
        (place.name.load(SeqCst) == page + 1).then_some(word)
    }
}

/// What the threads share: links to the newest record of each chain, 0 or 1 + an address, and the device.
pub struct Store {
    buckets: Vec<AtomicU64>,
    pub device: Device,
}

impl Store {
    pub fn new(keys: u64) -> Store {
        Store {
            buckets: zeros(keys.next_power_of_two()),
            device: Device::new(),
        }
    }

    fn bucket(&self, key: u64) -> &AtomicU64 {
        let spread = (key.wrapping_mul(SPREAD) >> 32) as usize;
        &self.buckets[spread & (self.buckets.len() - 1)]
    }
}

#[derive(Clone, Copy)]
enum Operation {
    Read,
    Upsert(u64),
    Add(u64),
    Move(u64),
}

/// Why an attempt came to nothing.
#[derive(Debug)]
pub enum Trouble {
    Log(Fault),
    Raced,
    Fuzzy,
    Differs,
}

impl From<Fault> for Trouble {
    fn from(fault: Fault) -> Trouble {
        Trouble::Log(fault)
    }
}

/// A thread's pass, and the piece of the log from which it places records.
pub struct Seat<'a> {
    pub pass: Pass<'a>,
    store: &'a Store,
    piece: std::ops::Range<u64>,
    safe_read_only: u64,
    pub copies: u64,
}

impl<'a> Seat<'a> {
    pub fn new(pass: Pass<'a>, store: &'a Store) -> Seat<'a> {
        Seat {
            pass,
            store,
            piece: 0..0,
            safe_read_only: 0,
            copies: 0,
        }
    }

    pub fn read(&mut self, key: u64) -> Result<Option<u64>, Trouble> {
        self.apply(key, Operation::Read)
    }

    pub fn upsert(&mut self, key: u64, value: u64) -> Result<(), Trouble> {
        self.apply(key, Operation::Upsert(value)).map(drop)
    }

    pub fn add(&mut self, key: u64, more: u64) -> Result<(), Trouble> {
        self.apply(key, Operation::Add(more)).map(drop)
    }

    /// Lets the device's first page go, if few places are left.
    pub fn make_room(&mut self) -> Result<(), Trouble> {
        let device = &self.store.device;
        let first = device.first.load(SeqCst);
        if device.written.load(SeqCst) < first + PAGES_MOST {
            return Ok(());
        }
        for record in 0..PAGE_SIZE / RECORD_WORDS {
            let address = first * PAGE_SIZE + record * RECORD_WORDS;
            if let Some(key) = device.word(address) {
                self.apply(key, Operation::Move(address))?;
            }
        }
        let _ = device.first.compare_exchange(first, first + 1, SeqCst, SeqCst);
        Ok(())
    }

    fn apply(&mut self, key: u64, operation: Operation) -> Result<Option<u64>, Trouble> {
        loop {
            match self.attempt(key, operation) {
                Ok(answer) => return Ok(answer),
                Err(trouble) => self.recover(trouble)?,
            }
        }
    }

    fn attempt(&mut self, key: u64, operation: Operation) -> Result<Option<u64>, Trouble> {
        self.pass.keep_up()?;
        let first = self.store.device.first.load(SeqCst) * PAGE_SIZE;
        let previous = self.store.bucket(key).load(SeqCst);
        let found = self.find(key, previous, first)?;
        let placed = match (operation, found) {
            (Operation::Read, None) => return Ok(None),
            (Operation::Read, Some(record)) => return Ok(Some(self.load(record + 1)?)),
            (Operation::Upsert(value), Some(record)) => match self.pass.store(record + 1, value) {
                Err(Fault::Below { .. }) => Some(value),
                stored => stored.map(|()| None)?,
            },
            (Operation::Upsert(value) | Operation::Add(value), None) => Some(value),
            (Operation::Add(more), Some(record)) => self.add_in_place(record + 1, more)?,
            (Operation::Move(address), Some(record)) if record == address => {
                self.add_in_place(record + 1, 0)?
            }
            (Operation::Move(_), _) => return Ok(None),
        };
        if let Some(value) = placed {
            let newest = self.place(key, value, previous)? + 1;
            let bucket = self.store.bucket(key);
            if bucket.compare_exchange(previous, newest, SeqCst, SeqCst).is_err() {
                return Err(Trouble::Raced);
            }
            self.copies += u64::from(found.is_some());
        }
        Ok(None)
    }

    fn find(&mut self, key: u64, newest: u64, first: u64) -> Result<Option<u64>, Trouble> {
        let mut link = newest;
        while link > first {
            if self.load(link - 1)? == key {
                return Ok(Some(link - 1));
            }
            link = self.load(link + 1)?;
        }
        Ok(None)
    }

    fn load(&mut self, address: u64) -> Result<u64, Trouble> {
        match self.pass.load(address) {
            Err(Fault::Evicted { .. }) => self.store.device.word(address).ok_or(Trouble::Raced),
            loaded => Ok(loaded?),
        }
    }

    fn add_in_place(&mut self, address: u64, more: u64) -> Result<Option<u64>, Trouble> {
        match self.pass.fetch_add(address, more) {
            Err(Fault::Below { .. }) => {}
            added => return Ok(added.map(|_| None)?),
        }
        if self.safe_read_only <= address {
            self.safe_read_only = self.pass.domain().snapshot().six.safe_read_only;
        }
        if self.safe_read_only <= address {
            return Err(Trouble::Fuzzy);
        }
        Ok(Some(self.load(address)?.wrapping_add(more)))
    }

    fn place(&mut self, key: u64, value: u64, previous: u64) -> Result<u64, Fault> {
        if self.piece.is_empty() {
            let words = PIECE_RECORDS * RECORD_WORDS;
            let address = self.pass.allocate(words)?;
            self.piece = address..address + words;
        }
        let mut address = self.piece.start;
        self.piece.start += RECORD_WORDS;
        if address < previous {
            address = self.pass.allocate(RECORD_WORDS)?;
        }
        for (address, word) in (address..).zip([key, value, previous]) {
            let mut stored = self.pass.store(address, word);
            if let Err(Fault::TouchesFull) = stored {
                self.pass.refresh()?;
                stored = self.pass.store(address, word);
            }
            if let Err(Fault::Below { .. }) = stored {
                self.piece = 0..0;
            }
            stored?;
        }
        Ok(address)
    }

    fn recover(&mut self, trouble: Trouble) -> Result<(), Trouble> {
        match trouble {
            Trouble::Raced | Trouble::Log(Fault::Below { .. }) => {}
            Trouble::Fuzzy | Trouble::Log(Fault::Busy { .. }) => self.wait(),
            Trouble::Log(Fault::Beyond { .. } | Fault::TouchesFull | Fault::JournalFull) => {
                if let Err(Fault::JournalFull) = self.pass.refresh() {
                    self.pass.domain().cut();
                }
            }
            _ => return Err(trouble),
        }
        Ok(())
    }

    /// Runs the oldest action if it is safe, else naps.
    fn wait(&mut self) {
        let domain = self.pass.domain();
        if let Ok(Reply::Taken(waiting)) = domain.make(self.pass.rider(), Step::Take) {
            let ticket = waiting.ticket;
            while let Err(Fault::JournalFull) = domain.make(self.pass.rider(), Step::Done { ticket }) {
                domain.cut();
            }
        } else {
            thread::sleep(NAP);
        }
    }
}
