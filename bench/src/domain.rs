//! The domain's twin, written from docs/RULES.md and docs/THREADS.md: a core and its journal under a mutex, beside words
//! and two offsets that threads store and load without it.

use crate::domain_pass::Pass;
use crate::rules::{Fault, Reply, Sizes, Snapshot, Step};
use crate::twin::Twin;
use std::sync::atomic::{AtomicU64, Ordering::SeqCst};
use std::sync::{Mutex, MutexGuard};

/// The right to act.
#[derive(Debug, Default, PartialEq, Eq)]
pub struct Rider {
    /// How many steps it entered.
    share: u64,
}

/// What lies under the lock.
pub struct Keeper {
    core: Twin,
    /// The steps since the last cut.
    journal: Vec<Step>,
    journal_most: usize,
    steps_cut: u64,
}

pub struct Domain {
    sizes: Sizes,
    keeper: Mutex<Keeper>,
    epoch: AtomicU64,
    read_only: AtomicU64,
    head: AtomicU64,
    cells: Vec<AtomicU64>,
}

/// What a domain leaves.
#[derive(Debug)]
#[cfg_attr(not(test), allow(dead_code))]
pub struct Ending {
    pub journal: Vec<Step>,
    pub steps_cut: u64,
    pub snapshot: Snapshot,
}

impl Keeper {
    /// Makes a step by its own call, and enters it into the journal behind a pass's touches. A refused call changes
    /// nothing: `JournalFull` comes first, then the core's faults.
    pub fn enter<T>(
        &mut self,
        rider: &mut Rider,
        touches: &mut Vec<Step>,
        step: Step,
        call: impl FnOnce(&mut Twin) -> Result<T, Fault>,
    ) -> Result<T, Fault> {
        let count = touches.len() + 1;
        if self.journal.len() + count > self.journal_most {
            return Err(Fault::JournalFull);
        }
        let answer = call(&mut self.core)?;
        self.journal.append(touches);
        self.journal.push(step);
        rider.share += count as u64;
        Ok(answer)
    }
}

impl Domain {
    /// A domain with a journal of so many steps, and so many riders.
    pub fn open(sizes: Sizes, riders: usize, journal_most: usize) -> (Domain, Vec<Rider>) {
        let keeper = Keeper {
            core: Twin::open(sizes),
            journal: Vec::with_capacity(journal_most),
            journal_most,
            steps_cut: 0,
        };
        let domain = Domain {
            sizes,
            keeper: Mutex::new(keeper),
            epoch: AtomicU64::new(1),
            read_only: AtomicU64::new(0),
            head: AtomicU64::new(0),
            cells: (0..sizes.page_size * sizes.frames)
                .map(|_| AtomicU64::new(0))
                .collect(),
        };
        (domain, (0..riders).map(|_| Rider::default()).collect())
    }

    pub fn lock(&self) -> MutexGuard<'_, Keeper> {
        self.keeper.lock().expect("nobody panics under it")
    }

    pub fn cell(&self, address: u64) -> &AtomicU64 {
        &self.cells[self.sizes.cell_of(address)]
    }

    /// The read-only offset and the head, without the lock.
    pub fn offsets(&self) -> (u64, u64) {
        (self.read_only.load(SeqCst), self.head.load(SeqCst))
    }

    /// The current epoch, without the lock.
    pub fn epoch(&self) -> u64 {
        self.epoch.load(SeqCst)
    }

    /// All quantities.
    pub fn snapshot(&self) -> Snapshot {
        self.lock().core.snapshot()
    }

    /// Protects a slot; where that is refused, the rider comes back.
    pub fn acquire(&self, slot: u64, mut rider: Rider) -> Result<Pass<'_>, (Fault, Rider)> {
        let step = Step::Acquire { slot };
        let entered = self
            .lock()
            .enter(&mut rider, &mut Vec::new(), step, |core| core.acquire(slot));
        match entered {
            Ok(entered) => Ok(Pass::new(self, rider, slot, entered)),
            Err(fault) => Err((fault, rider)),
        }
    }
}

impl Domain {
    /// Makes a step that is of no slot. A raise or a shift also stores its offset, and a bump its epoch, for those without
    /// the lock.
    pub fn make(&self, rider: &mut Rider, step: Step) -> Result<Reply, Fault> {
        let mut keeper = self.lock();
        let reply = keeper.enter(rider, &mut Vec::new(), step, |core| core.step(&step))?;
        match reply {
            Reply::Raised(to) => self.read_only.store(to, SeqCst),
            Reply::Shifted(to) => self.head.store(to, SeqCst),
            Reply::Ticket(ended) => self.epoch.store(ended + 1, SeqCst),
            _ => {}
        }
        Ok(reply)
    }

    /// Zeroes the words of a page that was taken to be cleaned.
    pub fn sweep(&self, page: u64) {
        let first = page * self.sizes.page_size;
        for address in first..first + self.sizes.page_size {
            self.cell(address).store(0, SeqCst);
        }
    }

    /// Forgets the steps of the journal: their number.
    pub fn cut(&self) -> u64 {
        let mut keeper = self.lock();
        let count = keeper.journal.len() as u64;
        keeper.journal.clear();
        keeper.steps_cut += count;
        count
    }

    /// Ends the domain, where the steps are as many as these riders entered; else a rider is missing.
    // What is timed doesn't need it.
    #[cfg_attr(not(test), allow(dead_code))]
    pub fn close(self, riders: &[Rider]) -> Option<Ending> {
        let keeper = self.keeper.into_inner().expect("nobody panics under it");
        let steps = keeper.steps_cut + keeper.journal.len() as u64;
        let shares: u64 = riders.iter().map(|rider| rider.share).sum();
        (shares == steps).then(|| Ending {
            snapshot: keeper.core.snapshot(),
            journal: keeper.journal,
            steps_cut: keeper.steps_cut,
        })
    }
}
