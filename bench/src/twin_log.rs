//! A plain log for threads: the twin under a mutex, beside words that threads store and load without it.

use crate::rules::{Sizes, View};
use crate::twin::Twin;
use std::sync::atomic::{AtomicU64, Ordering};
use std::sync::{Mutex, MutexGuard};

pub struct TwinLog {
    sizes: Sizes,
    twin: Mutex<Twin>,
    read_only: AtomicU64,
    head: AtomicU64,
    cells: Vec<AtomicU64>,
}

/// A protected slot of a twin's log.
pub struct TwinPass<'a> {
    log: &'a TwinLog,
    slot: u64,
    view: View,
}

impl TwinLog {
    pub fn open(sizes: Sizes) -> TwinLog {
        TwinLog {
            sizes,
            twin: Mutex::new(Twin::open(sizes)),
            read_only: AtomicU64::new(0),
            head: AtomicU64::new(0),
            cells: (0..sizes.page_size * sizes.frames).map(AtomicU64::new).collect(),
        }
    }

    fn lock(&self) -> MutexGuard<'_, Twin> {
        self.twin.lock().expect("nobody panics under it")
    }

    pub fn acquire(&self, slot: u64) -> TwinPass<'_> {
        let view = self.lock().acquire(slot).expect("a free slot").view;
        TwinPass {
            log: self,
            slot,
            view,
        }
    }

    fn cell(&self, address: u64) -> &AtomicU64 {
        &self.cells[self.sizes.cell_of(address)]
    }
}

impl TwinPass<'_> {
    pub fn refresh(&mut self) {
        self.view = self.log.lock().refresh(self.slot).expect("a protected slot").view;
    }

    pub fn allocate(&mut self, words: u64) -> u64 {
        let address = self.log.lock().allocate(self.slot, words).expect("a free frame");
        self.view.tail = address + words;
        address
    }

    pub fn look(&mut self) -> u64 {
        let read_only = self.log.read_only.load(Ordering::Acquire);
        self.view.read_only = self.view.read_only.max(read_only);
        self.view.head = self.view.head.max(self.log.head.load(Ordering::Acquire));
        self.view.read_only
    }

    pub fn store(&self, address: u64, word: u64) -> bool {
        let sees = address >= self.view.read_only && address < self.view.tail;
        if sees {
            self.log.cell(address).store(word, Ordering::Release);
        }
        sees
    }

    pub fn load(&self, address: u64) -> Option<u64> {
        let sees = address >= self.view.head && address < self.view.tail;
        sees.then(|| self.log.cell(address).load(Ordering::Acquire))
    }
}
