//! A core.

use crate::answers;
use crate::raw::{self, Brief, Handle, Outcome};
use crate::{
    Action, Done, Entered, Fault, Frame, Kind, LagStep, Offsets, Pending, Sizes, Slot, Snapshot, View,
};
use std::cell::{Cell, UnsafeCell};

/// The proved core: epochs, stored actions, offsets and page frames. It is freed where it is dropped.
///
/// A core may go to another thread, and is used by one at a time: it is `Send` and not `Sync`, so threads share it
/// under a `Mutex`, and then name their slots by number. Words and jobs are yours; [`Log`](crate::Log) keeps words, too.
///
/// A refused call changes nothing. `docs/RULES.md` has the faults of each.
///
/// ```
/// use hl::{Core, Fault, Sizes};
///
/// let core = Core::open(Sizes::checked(4, 2, 2, 2)?)?;
/// let mut slot = core.acquire(0)?;
/// let ticket = core.bump(7)?;
/// assert_eq!(core.take(), Err(Fault::NotReady { front: 1, safe: 0 }));
/// slot.refresh()?;
/// assert_eq!(core.take()?.ticket, ticket);
/// drop(slot); // releases it
/// assert_eq!(core.snapshot().protected, 0);
/// # Ok::<(), Fault>(())
/// ```
///
/// A core can't be used once it is moved, nor a slot after its core, nor a core by two threads at once:
///
/// ```compile_fail,E0382
/// let core = hl::Core::open(hl::Sizes::checked(4, 2, 2, 2).unwrap()).unwrap();
/// drop(core);
/// core.bare();
/// ```
///
/// ```compile_fail,E0505
/// let core = hl::Core::open(hl::Sizes::checked(4, 2, 2, 2).unwrap()).unwrap();
/// let slot = core.acquire(0).unwrap();
/// drop(core);
/// slot.number();
/// ```
///
/// ```compile_fail,E0277
/// let core = hl::Core::open(hl::Sizes::checked(4, 2, 2, 2).unwrap()).unwrap();
/// std::thread::scope(|scope| scope.spawn(|| core.bare()));
/// ```
#[derive(Debug)]
pub struct Core {
    handle: UnsafeCell<Handle>,
    sizes: Sizes,
    // How often each slot was released, so that a slot's former holder is known.
    releases: Vec<Cell<u64>>,
}

impl Core {
    /// A core at the empty list. [`Fault::OutOfMemory`] where memory was refused.
    pub fn open(sizes: Sizes) -> Result<Core, Fault> {
        let slots = sizes.slots() as usize;
        let mut releases = Vec::new();
        releases
            .try_reserve_exact(slots)
            .map_err(|_| Fault::OutOfMemory)?;
        releases.resize(slots, Cell::new(0));
        let core = Core {
            handle: UnsafeCell::new(Handle::CLOSED),
            sizes,
            releases,
        };
        let (pages, frames) = (sizes.page_size(), sizes.frames());
        // SAFETY: the handle is all zero, and nobody else has it.
        match unsafe {
            raw::hl_open_wide(
                core.handle.get(),
                pages,
                frames,
                sizes.slots(),
                sizes.drain_places(),
            )
        } {
            0 => Ok(core),
            number => Err(Fault::of(number, 0, 0)),
        }
    }

    /// The sizes that it was opened with.
    pub fn sizes(&self) -> Sizes {
        self.sizes
    }

    /// Protects a slot until the guard is dropped. NoSlot, Occupied.
    pub fn acquire(&self, slot: u64) -> Result<Slot<'_>, Fault> {
        Ok(Slot::new(self, slot, self.enter(slot)?))
    }

    /// Protects a slot until it is released by its number. NoSlot, Occupied.
    pub fn enter(&self, slot: u64) -> Result<Entered, Fault> {
        self.ask(|core| unsafe { raw::hl_acquire(core, slot) })
            .map(answers::entered)
    }

    /// The protected slot moves on to the current epoch, and sees the offsets as they are. NoSlot, NotProtected.
    pub fn refresh(&self, slot: u64) -> Result<Entered, Fault> {
        self.ask(|core| unsafe { raw::hl_refresh(core, slot) })
            .map(answers::entered)
    }

    /// The slot is protected no longer; a [`Slot`] of that number that is still there is of nobody then. NoSlot,
    /// NotProtected.
    pub fn release(&self, slot: u64) -> Result<(), Fault> {
        self.ask_briefly(|core| unsafe { raw::hl_release(core, slot) })?;
        self.releases[slot as usize].set(self.releases_of(slot) + 1);
        Ok(())
    }

    /// How often a slot was released.
    pub(crate) fn releases_of(&self, slot: u64) -> u64 {
        self.releases[slot as usize].get()
    }

    /// Ends the current epoch, and stores a job of this tag: its ticket. DrainFull, EpochsSpent, WindowFull.
    pub fn bump(&self, tag: u64) -> Result<u64, Fault> {
        self.ask_briefly(|core| unsafe { raw::hl_bump(core, tag) })
    }

    /// As a bump; its action raises the safe read-only offset to what the read-only offset is now.
    pub fn settle(&self) -> Result<u64, Fault> {
        self.ask_briefly(|core| unsafe { raw::hl_settle(core) })
    }

    /// As a bump; its action raises the closed offset to what the head is now.
    pub fn close(&self) -> Result<u64, Fault> {
        self.ask_briefly(|core| unsafe { raw::hl_close(core) })
    }

    /// Ends the current epoch, and stores nothing: the epoch that ended. EpochsSpent, WindowFull.
    pub fn bare(&self) -> Result<u64, Fault> {
        self.ask_briefly(|core| unsafe { raw::hl_bare(core) })
    }

    /// Takes the oldest pending action. Empty, NotReady.
    pub fn take(&self) -> Result<Action, Fault> {
        self.ask(|core| unsafe { raw::hl_take(core) })
            .map(answers::action)
    }

    /// A taken action was carried out. NotTaken.
    pub fn done(&self, ticket: u64) -> Result<Done, Fault> {
        self.ask(|core| unsafe { raw::hl_done(core, ticket) })
            .map(answers::done)
    }

    /// Moves the read-only offset up. NotAbove, AboveTail.
    pub fn raise(&self, address: u64) -> Result<u64, Fault> {
        self.ask_briefly(|core| unsafe { raw::hl_raise(core, address) })
    }

    /// Moves the head up. NotAbove, NotPage, AboveFlushed.
    pub fn shift(&self, address: u64) -> Result<u64, Fault> {
        self.ask_briefly(|core| unsafe { raw::hl_shift(core, address) })
    }

    /// Places a record of so many words: its address. NoSlot, NotProtected, Size, SpaceSpent, Busy.
    pub fn allocate(&self, slot: u64, words: u64) -> Result<u64, Fault> {
        self.ask_briefly(|core| unsafe { raw::hl_allocate(core, slot, words) })
    }

    /// The slot sees these two offsets. NoSlot, NotProtected, Stale.
    pub fn look(&self, slot: u64, read_only: u64, head: u64) -> Result<View, Fault> {
        self.ask(|core| unsafe { raw::hl_look(core, slot, read_only, head) })
            .map(answers::view)
    }

    /// Whether the slot may write the word at an address, which is yours to write. NoSlot, NotProtected, Below, Beyond.
    pub fn may_write(&self, slot: u64, address: u64) -> Result<(), Fault> {
        self.ask_briefly(|core| unsafe { raw::hl_write(core, slot, address, 0) })
            .map(drop)
    }

    /// Whether the slot may read the word at an address. NoSlot, NotProtected, Evicted, Beyond.
    pub fn may_read(&self, slot: u64, address: u64) -> Result<(), Fault> {
        self.ask_briefly(|core| unsafe { raw::hl_read(core, slot, address) })
            .map(drop)
    }

    /// Takes the least sealed page that is neither flushed nor in flight. NoneSealed.
    pub fn flush_take(&self) -> Result<u64, Fault> {
        self.ask_briefly(|core| unsafe { raw::hl_flush_take(core) })
    }

    /// The flush of a page ended, well or not: the flushed offset. NotInFlight.
    pub fn flush_done(&self, page: u64, ok: bool) -> Result<u64, Fault> {
        self.ask_briefly(|core| unsafe { raw::hl_flush_done(core, page, ok) })
    }

    /// Takes the least closed page that is neither freed nor being cleaned. NoneClosed.
    pub fn clean_take(&self) -> Result<u64, Fault> {
        self.ask_briefly(|core| unsafe { raw::hl_clean_take(core) })
    }

    /// The words of a page are zeroed, and its frame is free: the page. NotCleaning.
    pub fn clean_done(&self, page: u64) -> Result<u64, Fault> {
        self.ask_briefly(|core| unsafe { raw::hl_clean_done(core, page) })
    }

    /// The six offsets.
    pub fn offsets(&self) -> Offsets {
        // SAFETY: as in `ask`.
        answers::offsets(&unsafe { raw::hl_six(self.handle.get()) })
    }

    /// All quantities.
    pub fn snapshot(&self) -> Snapshot {
        // SAFETY: as in `ask`.
        answers::snapshot(&unsafe { raw::hl_snapshot(self.handle.get()) })
    }

    /// The steps that a flusher makes next, for whoever wants about `mutable` pages at the tail to be written and about
    /// `resident` to be read: a raise, a settle, a shift and a close, in this order, each where its offset isn't there
    /// yet (`docs/FORMATS.md` has the rule). It makes none of them.
    ///
    /// At the offsets as they are the raise and the shift are accepted; the settle and the close can meet what
    /// [`Core::settle`] and [`Core::close`] do. Ask while no action is pending and none is taken: an action takes effect
    /// when it is done, and until then each call tells the settle or the close again.
    ///
    /// OutOfRange unless `1 <= mutable <= resident < frames`: with all frames resident, no page may be closed before the
    /// next one needs its frame.
    ///
    /// ```
    /// use hl::{Core, LagStep, Sizes};
    ///
    /// let core = Core::open(Sizes::checked(4, 4, 1, 4)?)?;
    /// let slot = core.acquire(0)?;
    /// slot.allocate(4)?;
    /// slot.allocate(1)?;
    /// for step in core.lag(1, 2)? {
    ///     match step {
    ///         LagStep::Raise(to) => core.raise(to)?,
    ///         LagStep::Settle => core.settle()?,
    ///         LagStep::Shift(to) => core.shift(to)?,
    ///         LagStep::Close => core.close()?,
    ///     };
    /// }
    /// assert_eq!(core.offsets().read_only, 4);
    /// # Ok::<(), hl::Fault>(())
    /// ```
    pub fn lag(&self, mutable: u64, resident: u64) -> Result<impl Iterator<Item = LagStep>, Fault> {
        // SAFETY: as in `ask`.
        answers::lag(unsafe { raw::hl_lag(self.handle.get(), mutable, resident) })
    }

    /// The pending actions, oldest first.
    pub fn pending(&self) -> impl Iterator<Item = Pending> + '_ {
        (0..).map_while(|place| {
            let told = self.ask(|core| unsafe { raw::hl_pending(core, place) }).ok()?;
            let kind = match told.b {
                1 => Kind::Job(told.c),
                2 => Kind::Settle(told.c),
                _ => Kind::Close(told.c),
            };
            Some(Pending { ticket: told.a, kind })
        })
    }

    /// A frame. OutOfRange where there is no such frame.
    pub fn frame(&self, frame: u64) -> Result<Frame, Fault> {
        let told = self.ask(|core| unsafe { raw::hl_frame(core, frame) })?;
        Ok(match told.a {
            0 => Frame::Open(told.c),
            1 => Frame::Sealed(told.c),
            2 => Frame::Flushed(told.c),
            3 => Frame::Closed(told.c),
            _ => Frame::Free,
        })
    }

    /// A slot's view, where it is protected.
    pub fn view(&self, slot: u64) -> Option<View> {
        let told = self.ask(|core| unsafe { raw::hl_view(core, slot) }).ok()?;
        (told.a == 1).then(|| answers::view(told))
    }

    /// What a call of the library tells.
    // SAFETY of each call: the handle was opened, and is used by one call at a time, since a core is not `Sync` and no
    // call comes back to it.
    fn ask(&self, call: impl FnOnce(*mut Handle) -> Outcome) -> Result<Outcome, Fault> {
        answers::accepted(call(self.handle.get()))
    }

    /// The one number that a call of the library tells.
    fn ask_briefly(&self, call: impl FnOnce(*mut Handle) -> Brief) -> Result<u64, Fault> {
        self.ask(|core| call(core).into()).map(|told| told.a)
    }
}

impl Drop for Core {
    fn drop(&mut self) {
        // SAFETY: the handle is this core's alone; one that wasn't opened is left as it is.
        unsafe { raw::hl_free(self.handle.get()) };
    }
}
