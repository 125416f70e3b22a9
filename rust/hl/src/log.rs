//! A log for many threads, of which every decision is proved: a mutex around the proved log of `hl_log.h`.

use crate::raw::{self, Brief, Handle, Outcome};
use crate::{answers, Action, Clean, Done, Fault, Flush, Holder, LagStep, Offsets, Pass, Sizes, Snapshot};
use std::sync::atomic::{AtomicU64, Ordering};
use std::sync::{Mutex, PoisonError};

/// Each log's stamp is 2^32 times its number, so that the stamps of its slots are no other log's.
static LOGS: AtomicU64 = AtomicU64::new(0);

/// A log that threads share by a `&`: its steps are made under a mutex, and a [`Pass`] stores and loads its words without
/// it. What this crate adds to the proved log is that mutex, its handles that free themselves, and Rust's types.
///
/// Each thread acquires a slot of its own. Whoever flushes raises the read-only offset and settles it, takes the sealed
/// pages, copies them, shifts the head, closes what lies below it, and sweeps the closed pages.
///
/// An operation of an engine begins with [`Pass::keep_up`], asks for the [`Pass::region`] of a record, and calls
/// [`Pass::help`] between two tries: the example `counters` adds to counters so, whose pages leave memory meanwhile. At the
/// end [`Pass::flush`] has all that is left written.
///
/// ```
/// use hl::{Log, Sizes};
///
/// let log = Log::open(Sizes::checked(4, 2, 1, 4)?)?; // words a page, frames, slots, actions
/// let mut pass = log.acquire(0)?;
/// let address = pass.allocate(4)?;
/// pass.store(address, 2026)?; // without the lock
///
/// log.raise(address + 4)?; // read-only for whoever looks from now on
/// log.settle()?; // and for all, once every slot has moved on
/// pass.refresh()?;
/// let action = log.take()?;
/// log.done(action.ticket)?;
///
/// let page = log.flush_take()?;
/// let mut words = [0; 4];
/// page.copy(&mut words);
/// assert_eq!(words, [2026, 0, 0, 0]);
/// page.done()?; // once they are on the device
/// # Ok::<(), hl::Fault>(())
/// ```
#[derive(Debug)]
pub struct Log {
    sizes: Sizes,
    handle: Mutex<Handle>,
}

impl Log {
    /// A log where nothing was done yet. [`Fault::OutOfMemory`] where memory was refused.
    pub fn open(sizes: Sizes) -> Result<Log, Fault> {
        let mut handle = Handle::CLOSED;
        let stamp = (LOGS.fetch_add(1, Ordering::Relaxed) % (1 << 30)) << 32;
        // SAFETY: the handle is all zero, and nobody else has it.
        match unsafe {
            raw::hl_log_open_wide(
                &mut handle,
                sizes.page_size(),
                sizes.frames(),
                sizes.slots(),
                sizes.drain_places(),
                stamp,
            )
        } {
            0 => Ok(Log {
                sizes,
                handle: Mutex::new(handle),
            }),
            number => Err(Fault::of(number, 0, 0)),
        }
    }

    /// The sizes that it was opened with.
    pub fn sizes(&self) -> Sizes {
        self.sizes
    }

    /// Protects a slot until the pass is dropped. NoSlot, Occupied, OutOfMemory.
    pub fn acquire(&self, slot: u64) -> Result<Pass<'_>, Fault> {
        let mut pass = Handle::CLOSED;
        let entered = self
            .ask(|log| unsafe { raw::hl_log_acquire(log, &mut pass, slot) })
            .map(answers::entered)?;
        Ok(Pass::new(self, pass, slot, entered.view))
    }

    /// Ends the current epoch, and stores a job of this tag: its ticket. DrainFull, EpochsSpent, WindowFull.
    pub fn bump(&self, tag: u64) -> Result<u64, Fault> {
        self.ask_briefly(|log| unsafe { raw::hl_log_bump(log, tag) })
    }

    /// As a bump; its action raises the safe read-only offset to what the read-only offset is now.
    pub fn settle(&self) -> Result<u64, Fault> {
        self.ask_briefly(|log| unsafe { raw::hl_log_settle(log) })
    }

    /// As a bump; its action raises the closed offset to what the head is now.
    pub fn close(&self) -> Result<u64, Fault> {
        self.ask_briefly(|log| unsafe { raw::hl_log_close(log) })
    }

    /// Ends the current epoch, and stores nothing: the epoch that ended. EpochsSpent, WindowFull.
    pub fn bare(&self) -> Result<u64, Fault> {
        self.ask_briefly(|log| unsafe { raw::hl_log_bare(log) })
    }

    /// Takes the oldest pending action. Empty, NotReady.
    pub fn take(&self) -> Result<Action, Fault> {
        self.ask(|log| unsafe { raw::hl_log_take(log) })
            .map(answers::action)
    }

    /// A taken action was carried out. NotTaken.
    pub fn done(&self, ticket: u64) -> Result<Done, Fault> {
        self.ask(|log| unsafe { raw::hl_log_done(log, ticket) })
            .map(answers::done)
    }

    /// Makes what lies below an address read-only for whoever looks from now on. NotAbove, AboveTail.
    pub fn raise(&self, to: u64) -> Result<u64, Fault> {
        self.ask_briefly(|log| unsafe { raw::hl_log_raise(log, to) })
    }

    /// Moves the head up to a page's begin, at most to the flushed offset. NotAbove, NotPage, AboveFlushed.
    pub fn shift(&self, to: u64) -> Result<u64, Fault> {
        self.ask_briefly(|log| unsafe { raw::hl_log_shift(log, to) })
    }

    /// Takes the least sealed page that is neither flushed nor in flight, to be copied. NoneSealed, OutOfMemory.
    pub fn flush_take(&self) -> Result<Flush<'_>, Fault> {
        let mut page = Handle::CLOSED;
        let number = self.ask_briefly(|log| unsafe { raw::hl_log_flush_take(log, &mut page) })?;
        Ok(Flush::new(self, page, number))
    }

    /// Takes the least closed page that is neither freed nor being cleaned, to be swept. NoneClosed, OutOfMemory.
    pub fn clean_take(&self) -> Result<Clean<'_>, Fault> {
        let mut page = Handle::CLOSED;
        let number = self.ask_briefly(|log| unsafe { raw::hl_log_clean_take(log, &mut page) })?;
        Ok(Clean::new(self, page, number))
    }

    /// The six offsets.
    pub fn offsets(&self) -> Offsets {
        answers::offsets(&self.locked(|log| unsafe { raw::hl_log_six(log) }))
    }

    /// All quantities.
    pub fn snapshot(&self) -> Snapshot {
        answers::snapshot(&self.locked(|log| unsafe { raw::hl_log_snapshot(log) }))
    }

    /// As [`Core::lag`](crate::Core::lag).
    pub fn lag(&self, mutable: u64, resident: u64) -> Result<impl Iterator<Item = LagStep>, Fault> {
        answers::lag(self.locked(|log| unsafe { raw::hl_log_lag(log, mutable, resident) }))
    }

    /// The slots that hold the oldest pending action up, least first: each has to refresh or to be released before a
    /// take gives that action. None where no action is pending, and where the next take gives it.
    pub fn holders(&self) -> Vec<Holder> {
        self.locked(|log| {
            (0..)
                .map(|place| unsafe { raw::hl_log_holders(log, place) })
                .map_while(|told| answers::accepted(told).ok())
                .map(|told| Holder {
                    slot: told.a,
                    epoch: told.b,
                    ticket: told.c,
                })
                .collect()
        })
    }

    /// Makes a call of the library under the lock. No call leaves the log between two steps, so a thread that panicked
    /// under it has spoilt nothing.
    // SAFETY of each call: the handle was opened, and its lock is held.
    pub(crate) fn locked<T>(&self, call: impl FnOnce(*mut Handle) -> T) -> T {
        let mut handle = self.handle.lock().unwrap_or_else(PoisonError::into_inner);
        call(&mut *handle)
    }

    pub(crate) fn ask(&self, call: impl FnOnce(*mut Handle) -> Outcome) -> Result<Outcome, Fault> {
        answers::accepted(self.locked(call))
    }

    pub(crate) fn ask_briefly(&self, call: impl FnOnce(*mut Handle) -> Brief) -> Result<u64, Fault> {
        answers::number(self.locked(call))
    }
}

impl Drop for Log {
    fn drop(&mut self) {
        self.locked(|log| unsafe { raw::hl_log_free(log) });
    }
}
