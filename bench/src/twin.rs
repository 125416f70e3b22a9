//! The twin: a plain core written from docs/RULES.md. Each step is a call of its own, which is not inlined, so that
//! its time is that of a call.

use crate::drain::Drain;
use crate::epochs::Epochs;
use crate::log::Log;
use crate::pages::Pages;
use crate::rules::{Fault, FrameState, Kind, Reply, Six, Sizes, Snapshot, Step, View, Waiting};

pub struct Twin {
    epochs: Epochs,
    views: Vec<View>,
    drain: Drain,
    log: Log,
    pages: Pages,
}

/// What a slot learns by entering an epoch.
#[derive(Clone, Copy)]
pub struct Entered {
    pub epoch: u64,
    pub view: View,
}

impl Twin {
    pub fn open(sizes: Sizes) -> Twin {
        Twin {
            epochs: Epochs::new(sizes.slots),
            views: vec![View::default(); sizes.slots as usize],
            drain: Drain::new(sizes.drain_places),
            log: Log::new(sizes.page_size),
            pages: Pages::new(sizes.page_size, sizes.frames),
        }
    }

    fn enter(&mut self, place: usize) -> Entered {
        let view = self.log.view();
        self.views[place] = view;
        let epoch = self.epochs.current();
        Entered { epoch, view }
    }

    #[inline(never)]
    pub fn acquire(&mut self, slot: u64) -> Result<Entered, Fault> {
        let place = self.epochs.acquire(slot)?;
        Ok(self.enter(place))
    }

    #[inline(never)]
    pub fn refresh(&mut self, slot: u64) -> Result<Entered, Fault> {
        let place = self.epochs.refresh(slot)?;
        Ok(self.enter(place))
    }

    #[inline(never)]
    pub fn release(&mut self, slot: u64) -> Result<(), Fault> {
        self.epochs.release(slot)
    }

    fn bump_with(&mut self, kind: Kind) -> Result<u64, Fault> {
        self.drain.has_room()?;
        self.epochs.may_bump()?;
        let ticket = self.epochs.bump();
        self.drain.put(Waiting { ticket, kind });
        Ok(ticket)
    }

    #[inline(never)]
    pub fn bump(&mut self, tag: u64) -> Result<u64, Fault> {
        self.bump_with(Kind::User(tag))
    }

    #[inline(never)]
    pub fn settle(&mut self) -> Result<u64, Fault> {
        self.bump_with(Kind::Settle(self.log.read_only))
    }

    #[inline(never)]
    pub fn close(&mut self) -> Result<u64, Fault> {
        self.bump_with(Kind::Close(self.log.head))
    }

    #[inline(never)]
    pub fn bare(&mut self) -> Result<u64, Fault> {
        self.epochs.may_bump()?;
        Ok(self.epochs.bump())
    }

    #[inline(never)]
    pub fn take(&mut self) -> Result<Waiting, Fault> {
        self.drain.take(self.epochs.safe())
    }

    #[inline(never)]
    pub fn done(&mut self, ticket: u64) -> Result<Reply, Fault> {
        Ok(match self.drain.done(ticket)? {
            Kind::User(tag) => Reply::Ran(tag),
            Kind::Settle(stored) => Reply::Settled(self.log.settle(stored)),
            Kind::Close(stored) => Reply::Closed(self.log.close(stored)),
        })
    }

    #[inline(never)]
    pub fn raise(&mut self, to: u64) -> Result<u64, Fault> {
        self.log.raise(to)
    }

    #[inline(never)]
    pub fn shift(&mut self, to: u64) -> Result<u64, Fault> {
        self.log.shift(to, self.pages.flushed_until())
    }

    #[inline(never)]
    pub fn allocate(&mut self, slot: u64, words: u64) -> Result<u64, Fault> {
        let slot = self.epochs.protected_slot(slot)?;
        let place = self.log.place(words)?;
        self.pages.enter(self.pages.page_of(place))?;
        self.log.tail = place + words;
        self.views[slot].tail = self.log.tail;
        Ok(place)
    }

    #[inline(never)]
    pub fn look(&mut self, slot: u64, read_only: u64, head: u64) -> Result<View, Fault> {
        let slot = self.epochs.protected_slot(slot)?;
        let view = &mut self.views[slot];
        if read_only < view.read_only || head < view.head {
            return Err(Fault::Stale);
        }
        view.read_only = read_only;
        view.head = head;
        Ok(*view)
    }

    #[inline(never)]
    pub fn write(&self, slot: u64, address: u64) -> Result<(), Fault> {
        let view = &self.views[self.epochs.protected_slot(slot)?];
        if address < view.read_only {
            let read_only = view.read_only;
            Err(Fault::Below { read_only })
        } else if address >= view.tail {
            Err(Fault::Beyond { tail: view.tail })
        } else {
            Ok(())
        }
    }

    #[inline(never)]
    pub fn read(&self, slot: u64, address: u64) -> Result<(), Fault> {
        let view = &self.views[self.epochs.protected_slot(slot)?];
        if address < view.head {
            Err(Fault::Evicted { head: view.head })
        } else if address >= view.tail {
            Err(Fault::Beyond { tail: view.tail })
        } else {
            Ok(())
        }
    }

    #[inline(never)]
    pub fn flush_take(&mut self) -> Result<u64, Fault> {
        self.pages.flush_take(self.log.safe_read_only)
    }

    #[inline(never)]
    pub fn flush_done(&mut self, page: u64, ok: bool) -> Result<u64, Fault> {
        self.pages.flush_done(page, ok)
    }

    #[inline(never)]
    pub fn clean_take(&mut self) -> Result<u64, Fault> {
        self.pages.clean_take(self.log.closed)
    }

    #[inline(never)]
    pub fn clean_done(&mut self, page: u64) -> Result<u64, Fault> {
        self.pages.clean_done(page)
    }

    /// Any step, by its own call.
    pub fn step(&mut self, step: &Step) -> Result<Reply, Fault> {
        let entered = |entered: Entered| Reply::Entered {
            epoch: entered.epoch,
            view: entered.view,
        };
        match *step {
            Step::Acquire { slot } => self.acquire(slot).map(entered),
            Step::Refresh { slot } => self.refresh(slot).map(entered),
            Step::Release { slot } => self.release(slot).map(|()| Reply::Left),
            Step::Bump { tag } => self.bump(tag).map(Reply::Ticket),
            Step::Settle => self.settle().map(Reply::Ticket),
            Step::Close => self.close().map(Reply::Ticket),
            Step::Bare => self.bare().map(Reply::Bumped),
            Step::Take => self.take().map(Reply::Taken),
            Step::Done { ticket } => self.done(ticket),
            Step::Raise { to } => self.raise(to).map(Reply::Raised),
            Step::Shift { to } => self.shift(to).map(Reply::Shifted),
            Step::Allocate { slot, words } => self.allocate(slot, words).map(Reply::At),
            Step::Look {
                slot,
                read_only,
                head,
            } => self.look(slot, read_only, head).map(Reply::Looked),
            Step::Write { slot, address, .. } => self.write(slot, address).map(|()| Reply::Written),
            Step::Read { slot, address } => self.read(slot, address).map(|()| Reply::Readable),
            Step::FlushTake => self.flush_take().map(Reply::Page),
            Step::FlushDone { page, ok } => self.flush_done(page, ok).map(Reply::Flushed),
            Step::CleanTake => self.clean_take().map(Reply::Page),
            Step::CleanDone { page } => self.clean_done(page).map(Reply::Freed),
        }
    }

    pub fn six(&self) -> Six {
        Six {
            closed: self.log.closed,
            head: self.log.head,
            flushed: self.pages.flushed_until(),
            safe_read_only: self.log.safe_read_only,
            read_only: self.log.read_only,
            tail: self.log.tail,
        }
    }

    pub fn snapshot(&self) -> Snapshot {
        Snapshot {
            epoch: self.epochs.current(),
            safe: self.epochs.safe(),
            protected: self.epochs.protected(),
            pending: self.drain.pending().len() as u64,
            taken: self.drain.taken(),
            six: self.six(),
            frames: self.pages.counts(self.log.safe_read_only, self.log.closed),
        }
    }

    /// The pending actions, oldest first.
    pub fn pending(&self) -> impl ExactSizeIterator<Item = &Waiting> {
        self.drain.pending()
    }

    /// A frame's state and its page; None where there is no such frame.
    pub fn frame(&self, frame: u64) -> Option<(FrameState, Option<u64>)> {
        let log = &self.log;
        (frame < self.pages.count()).then(|| self.pages.state(frame as usize, log.safe_read_only, log.closed))
    }

    /// A protected slot's view.
    pub fn view(&self, slot: u64) -> Option<View> {
        let place = self.epochs.protected_slot(slot).ok()?;
        Some(self.views[place])
    }
}
