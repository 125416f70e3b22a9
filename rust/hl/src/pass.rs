//! What a thread does in its slot, under the lock and without it.

use crate::raw::{self, Brief, Handle, Outcome};
use crate::{answers, Entered, Fault, Lease, Log, Region, Sealed, View};

/// A protected slot of a [`Log`], which is released where it is dropped.
///
/// Stores, loads, changes and looks take no lock: they are judged by what the slot has seen, its view. An allocation
/// brings its tail up to date, a look the other two offsets, and a refresh all; refresh often, since a slot that doesn't
/// holds back each action that was stored since. Threads may store to one word, and a load finds one of the words stored
/// there.
#[derive(Debug)]
#[must_use = "a slot is released where its pass is dropped"]
pub struct Pass<'a> {
    log: &'a Log,
    handle: Handle,
    slot: u64,
    view: View,
}

// SAFETY: a `&` gives the slot and the view alone, and every call of the library takes a `&mut`.
unsafe impl Sync for Pass<'_> {}

impl<'a> Pass<'a> {
    pub(crate) fn new(log: &'a Log, handle: Handle, slot: u64, view: View) -> Pass<'a> {
        Pass {
            log,
            handle,
            slot,
            view,
        }
    }

    /// Its slot's number.
    pub fn slot(&self) -> u64 {
        self.slot
    }

    /// The log of its slot.
    pub(crate) fn log(&self) -> &'a Log {
        self.log
    }

    /// What the slot has seen.
    pub fn view(&self) -> View {
        self.view
    }

    /// Moves on to the current epoch, and sees the offsets as they are.
    pub fn refresh(&mut self) -> Result<Entered, Fault> {
        let pass = &mut self.handle;
        let entered = self
            .log
            .ask(|log| unsafe { raw::hl_log_refresh(log, pass) })
            .map(answers::entered)?;
        self.view = entered.view;
        Ok(entered)
    }

    /// Places a record of so many words, and sees the tail behind it: its address. Size, SpaceSpent, Busy.
    pub fn allocate(&mut self, words: u64) -> Result<u64, Fault> {
        let pass = &mut self.handle;
        let address = self
            .log
            .ask_briefly(|log| unsafe { raw::hl_log_allocate(log, pass, words) })?;
        self.view.tail = address + words;
        Ok(address)
    }

    /// Places a piece of so many words, as [`allocate`](Pass::allocate) places a record. Size, SpaceSpent, Busy.
    pub fn lease(&mut self, words: u64) -> Result<Lease, Fault> {
        let address = self.allocate(words)?;
        Ok(Lease::of(address, words))
    }

    /// Places a record and stores its words: its address. The pass sees no raise in between, so no store is refused. Size,
    /// where there are no words or more than a page has; SpaceSpent, Busy.
    pub fn append(&mut self, words: &[u64]) -> Result<u64, Fault> {
        let first = self.allocate(words.len() as u64)?;
        for (address, word) in (first..).zip(words) {
            self.store(address, *word)?;
        }
        Ok(first)
    }

    /// Seals all up to the tail, so that the last pages can be flushed: allocates the words that are left of the tail's
    /// page, raises the read-only offset to the tail, and stores a settle, each where it is due. Once that is done, each
    /// page below is sealed. Sees the offsets as they are, where it is refused too. DrainFull, EpochsSpent, WindowFull: the
    /// settle is refused, and another call goes on from there. A call while a settle waits stores one more.
    pub fn seal(&mut self) -> Result<Sealed, Fault> {
        let pass = &mut self.handle;
        let told = self.log.ask(|log| unsafe { raw::hl_log_seal(log, pass) });
        self.look();
        told.map(answers::sealed)
    }

    /// Brings the pass up to date, as a thread wants before each of its operations: without the lock where nothing is new
    /// to it ([`keeps_up`](Pass::keeps_up)), else by a refresh. What it sees.
    #[inline]
    pub fn keep_up(&mut self) -> Result<View, Fault> {
        if !self.keeps_up() {
            self.refresh()?;
        }
        Ok(self.view)
    }

    /// Helps the log on, as a thread wants between two tries: takes the oldest action, if it is ready, hands the tag of a
    /// job to `job`, and the action is done; then refreshes. Whether it took one. An action is done where its job panics,
    /// too.
    pub fn help(&mut self, job: impl FnOnce(u64)) -> Result<bool, Fault> {
        let helped = match self.carry_out(job) {
            Ok(()) => true,
            Err(Fault::Empty | Fault::NotReady { .. }) => false,
            Err(fault) => return Err(fault),
        };
        self.refresh()?;
        Ok(helped)
    }

    /// Takes the oldest action, hands the tag of a job to `job`, and the action is done. Empty, NotReady.
    pub(crate) fn carry_out(&mut self, job: impl FnOnce(u64)) -> Result<(), Fault> {
        let action = self.log.take()?;
        let _taken = Taken {
            log: self.log,
            ticket: action.ticket,
        };
        if let Some(tag) = action.tag {
            job(tag);
        }
        Ok(())
    }

    /// Releases the slot while `work` runs, as for a wait for a device, so that it holds nothing back; then protects it
    /// again (FASTER's `Suspend` and `Resume`). What was looked up before must be looked up anew. Occupied: another has
    /// the slot now; OutOfMemory. The pass then has no slot, as where `work` panics, and its calls answer NotProtected.
    pub fn rest(&mut self, work: impl FnOnce()) -> Result<Entered, Fault> {
        let (pass, slot) = (&mut self.handle, self.slot);
        self.log
            .ask_briefly(|log| unsafe { raw::hl_log_release(log, pass) })?;
        work();
        let entered = self
            .log
            .ask(|log| unsafe { raw::hl_log_acquire(log, pass, slot) })
            .map(answers::entered)?;
        self.view = entered.view;
        Ok(entered)
    }

    /// Sees the read-only offset and the head as they are now, without the lock.
    #[inline]
    pub fn look(&mut self) -> View {
        // SAFETY of this call and those below: the handle is the pass's, and is used by one thread at a time.
        let told = unsafe { raw::hl_pass_look(&mut self.handle) };
        let told = answers::one_by_one(&told);
        if told.number == 0 {
            self.view = answers::view(told);
        }
        self.view
    }

    /// Whether nothing is new to it: neither offset is above the one that it sees, and the epoch of its slot hasn't
    /// ended. If something is, look or refresh. It takes no lock.
    #[inline]
    pub fn keeps_up(&mut self) -> bool {
        (unsafe { raw::hl_pass_keeps_up(&mut self.handle) }) == 1
    }

    /// Stores a word, without the lock. Below, Beyond.
    #[inline]
    pub fn store(&mut self, address: u64, word: u64) -> Result<(), Fault> {
        answers::number(unsafe { raw::hl_pass_store(&mut self.handle, address, word) }).map(drop)
    }

    /// Loads a word, without the lock; one that was never stored is 0. Evicted, Beyond.
    #[inline]
    pub fn load(&mut self, address: u64) -> Result<u64, Fault> {
        answers::number(unsafe { raw::hl_pass_load(&mut self.handle, address) })
    }

    /// Loads the words from an address on, one after another, as many as there are places, without the lock. Evicted,
    /// Beyond: nothing is loaded then.
    #[inline]
    pub fn load_into(&mut self, address: u64, words: &mut [u64]) -> Result<(), Fault> {
        // The pointer of a row without words isn't null either.
        let (places, count) = (words.as_mut_ptr(), words.len());
        answers::number(unsafe { raw::hl_pass_load_into(&mut self.handle, address, places, count) }).map(drop)
    }

    /// Which region the word of an address is in, by what the pass sees and the safe read-only offset as it is now,
    /// without the lock. Beyond, where the address isn't below the tail that the pass sees, nor evicted.
    ///
    /// A word in the fuzzy region is read-only for all once each pass has moved on and the settle is done; till then what
    /// it has may change.
    #[inline]
    pub fn region(&mut self, address: u64) -> Result<Region, Fault> {
        let Outcome { number, a, .. } = unsafe { raw::hl_pass_region(&mut self.handle, address) };
        answers::number(Brief { number, a }).map(answers::region)
    }

    /// Adds to a word in one step, modulo 2^64, without the lock: what it found. Below, Beyond.
    #[inline]
    pub fn fetch_add(&mut self, address: u64, more: u64) -> Result<u64, Fault> {
        answers::number(unsafe { raw::hl_pass_fetch_add(&mut self.handle, address, more) })
    }

    /// Stores a word where `current` stands, in one step and without the lock: `Ok` with `current`; or `Err` with what it
    /// found, and nothing is stored. Below, Beyond.
    #[inline]
    pub fn compare_exchange(
        &mut self,
        address: u64,
        current: u64,
        word: u64,
    ) -> Result<Result<u64, u64>, Fault> {
        let pass = &mut self.handle;
        let told = unsafe { raw::hl_pass_compare_exchange(pass, address, current, word) };
        let found = answers::number(told)?;
        Ok(if found == current { Ok(found) } else { Err(found) })
    }
}

impl Drop for Pass<'_> {
    fn drop(&mut self) {
        let pass = &mut self.handle;
        if !pass.is_open() {
            return;
        }
        let told = self
            .log
            .ask_briefly(|log| unsafe { raw::hl_log_release(log, pass) });
        debug_assert!(told.is_ok());
        if self.handle.is_open() {
            // SAFETY: as above.
            unsafe { raw::hl_pass_abandon(&mut self.handle) };
        }
    }
}

/// An action that was taken, which is done where this is dropped, whatever its job did.
struct Taken<'a> {
    log: &'a Log,
    ticket: u64,
}

impl Drop for Taken<'_> {
    fn drop(&mut self) {
        let _ = self.log.done(self.ticket);
    }
}
