//! A log whose calls are noted. Each call under the log's lock is made and noted under one lock of the test, so the
//! journal has them in the log's own order. What a pass does without the lock is noted before its next call under it.

use super::journal::{Entry, Reply, Step};
use hl::{Action, Done, Entered, Fault, Offsets, Sizes, Snapshot, View};
use std::sync::{Mutex, MutexGuard};

pub struct Log {
    log: hl::Log,
    journal: Mutex<Vec<Entry>>,
}

impl Log {
    pub fn open(sizes: Sizes) -> Result<Log, Fault> {
        Ok(Log {
            log: hl::Log::open(sizes)?,
            journal: Mutex::new(Vec::new()),
        })
    }

    pub fn sizes(&self) -> Sizes {
        self.log.sizes()
    }

    pub fn offsets(&self) -> Offsets {
        self.log.offsets()
    }

    pub fn snapshot(&self) -> Snapshot {
        self.log.snapshot()
    }

    pub fn acquire(&self, slot: u64) -> Result<Pass<'_>, Fault> {
        let mut journal = self.lock();
        let told = self.log.acquire(slot);
        let reply = match &told {
            // A slot is protected at the current epoch, which an acquire leaves as it is.
            Ok(pass) => Ok(Reply::Entered(Entered {
                epoch: self.log.snapshot().epoch,
                view: pass.view(),
            })),
            Err(fault) => Err(*fault),
        };
        journal.push(Entry {
            step: Step::Acquire { slot },
            reply,
        });
        told.map(|pass| Pass {
            log: self,
            pass: Some(pass),
            touches: Vec::new(),
        })
    }

    pub fn bump(&self, tag: u64) -> Result<u64, Fault> {
        self.make(Step::Bump { tag }, |log| log.bump(tag), Reply::Ticket)
    }

    pub fn settle(&self) -> Result<u64, Fault> {
        self.make(Step::Settle, hl::Log::settle, Reply::Ticket)
    }

    pub fn close(&self) -> Result<u64, Fault> {
        self.make(Step::Close, hl::Log::close, Reply::Ticket)
    }

    pub fn bare(&self) -> Result<u64, Fault> {
        self.make(Step::Bare, hl::Log::bare, Reply::Bumped)
    }

    pub fn take(&self) -> Result<Action, Fault> {
        self.make(Step::Take, hl::Log::take, |action| Reply::Taken(action.ticket))
    }

    pub fn done(&self, ticket: u64) -> Result<Done, Fault> {
        self.make(Step::Done { ticket }, |log| log.done(ticket), Reply::Done)
    }

    pub fn raise(&self, to: u64) -> Result<u64, Fault> {
        self.make(Step::Raise { to }, |log| log.raise(to), Reply::Raised)
    }

    pub fn shift(&self, to: u64) -> Result<u64, Fault> {
        self.make(Step::Shift { to }, |log| log.shift(to), Reply::Shifted)
    }

    pub fn flush_take(&self) -> Result<Flush<'_>, Fault> {
        let mut journal = self.lock();
        let told = self.log.flush_take();
        let reply = told
            .as_ref()
            .map(|page| Reply::Page(page.page()))
            .map_err(|fault| *fault);
        journal.push(Entry {
            step: Step::FlushTake,
            reply,
        });
        told.map(|page| Flush {
            log: self,
            page: Some(page),
        })
    }

    pub fn clean_take(&self) -> Result<Clean<'_>, Fault> {
        let mut journal = self.lock();
        let told = self.log.clean_take();
        let reply = told
            .as_ref()
            .map(|page| Reply::Page(page.page()))
            .map_err(|fault| *fault);
        journal.push(Entry {
            step: Step::CleanTake,
            reply,
        });
        told.map(|page| Clean {
            log: self,
            page: Some(page),
        })
    }

    /// What was noted.
    pub fn take_journal(&self) -> Vec<Entry> {
        std::mem::take(&mut *self.lock())
    }

    fn lock(&self) -> MutexGuard<'_, Vec<Entry>> {
        self.journal.lock().expect("no thread panicked")
    }

    fn make<T: Copy>(
        &self,
        step: Step,
        call: impl FnOnce(&hl::Log) -> Result<T, Fault>,
        reply: impl FnOnce(T) -> Reply,
    ) -> Result<T, Fault> {
        let mut journal = self.lock();
        let told = call(&self.log);
        journal.push(Entry {
            step,
            reply: told.map(reply),
        });
        told
    }
}

pub struct Pass<'a> {
    log: &'a Log,
    // None once it is dropped.
    pass: Option<hl::Pass<'a>>,
    touches: Vec<Entry>,
}

impl<'a> Pass<'a> {
    fn inner(&mut self) -> &mut hl::Pass<'a> {
        self.pass.as_mut().expect("a pass that is there")
    }

    pub fn view(&self) -> View {
        self.pass.as_ref().expect("a pass that is there").view()
    }

    fn slot(&self) -> u64 {
        self.pass.as_ref().expect("a pass that is there").slot()
    }

    pub fn refresh(&mut self) -> Result<Entered, Fault> {
        let slot = self.slot();
        self.make(Step::Refresh { slot }, hl::Pass::refresh, Reply::Entered)
    }

    pub fn allocate(&mut self, words: u64) -> Result<u64, Fault> {
        let slot = self.slot();
        self.make(
            Step::Allocate { slot, words },
            |pass| pass.allocate(words),
            Reply::At,
        )
    }

    pub fn look(&mut self) -> View {
        let (slot, before) = (self.slot(), self.view());
        let view = self.inner().look();
        if view != before {
            let View { read_only, head, .. } = view;
            self.touches.push(Entry {
                step: Step::Look {
                    slot,
                    read_only,
                    head,
                },
                reply: Ok(Reply::Looked(view)),
            });
        }
        view
    }

    pub fn store(&mut self, address: u64, word: u64) -> Result<(), Fault> {
        let slot = self.slot();
        let told = self.inner().store(address, word);
        self.touches.push(Entry {
            step: Step::Store { slot, address, word },
            reply: told.map(|()| Reply::Stored),
        });
        told
    }

    pub fn load(&mut self, address: u64) -> Result<u64, Fault> {
        let slot = self.slot();
        let told = self.inner().load(address);
        self.touches.push(Entry {
            step: Step::Load { slot, address },
            reply: told.map(Reply::Loaded),
        });
        told
    }

    fn make<T: Copy>(
        &mut self,
        step: Step,
        call: impl FnOnce(&mut hl::Pass<'a>) -> Result<T, Fault>,
        reply: impl FnOnce(T) -> Reply,
    ) -> Result<T, Fault> {
        let mut journal = self.log.lock();
        journal.append(&mut self.touches);
        let told = call(self.pass.as_mut().expect("a pass that is there"));
        journal.push(Entry {
            step,
            reply: told.map(reply),
        });
        told
    }
}

impl Drop for Pass<'_> {
    fn drop(&mut self) {
        let slot = self.slot();
        let mut journal = self.log.lock();
        journal.append(&mut self.touches);
        self.pass = None;
        journal.push(Entry {
            step: Step::Release { slot },
            reply: Ok(Reply::Left),
        });
    }
}

pub struct Flush<'a> {
    log: &'a Log,
    // None once it is done, or dropped.
    page: Option<hl::Flush<'a>>,
}

impl Flush<'_> {
    pub fn copy(&self, words: &mut [u64]) {
        self.page.as_ref().expect("a page that is there").copy(words);
    }

    pub fn done(mut self) -> Result<u64, Fault> {
        let page = self.page.take().expect("a page that is there");
        let number = page.page();
        let step = Step::FlushDone {
            page: number,
            ok: true,
        };
        self.log.make(step, |_| page.done(), Reply::Flushed)
    }
}

impl Drop for Flush<'_> {
    fn drop(&mut self) {
        if let Some(page) = self.page.take() {
            let step = Step::FlushDone {
                page: page.page(),
                ok: false,
            };
            let call = |log: &hl::Log| {
                drop(page);
                Ok(log.offsets().flushed)
            };
            let _ = self.log.make(step, call, Reply::Flushed);
        }
    }
}

pub struct Clean<'a> {
    log: &'a Log,
    // None once it is swept, or dropped.
    page: Option<hl::Clean<'a>>,
}

impl Clean<'_> {
    pub fn sweep(mut self) -> Result<u64, Fault> {
        let page = self.page.take().expect("a page that is there");
        let step = Step::CleanDone { page: page.page() };
        self.log.make(step, |_| page.sweep(), Reply::Freed)
    }
}

impl Drop for Clean<'_> {
    fn drop(&mut self) {
        if let Some(page) = self.page.take() {
            let number = page.page();
            let call = |_: &hl::Log| {
                drop(page);
                Ok(number)
            };
            let _ = self
                .log
                .make(Step::CleanDone { page: number }, call, Reply::Freed);
        }
    }
}
