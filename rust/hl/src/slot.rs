//! A protected slot of a core.

use crate::{Core, Entered, Fault, View};

/// A protected slot, which is released where it is dropped. Once the core released it by its number its calls are
/// `NotProtected`, whoever has that slot then.
#[derive(Debug)]
#[must_use = "a slot is released where it is dropped"]
pub struct Slot<'a> {
    core: &'a Core,
    number: u64,
    // How often the slot had been released when this acquired it.
    releases: u64,
    entered: Entered,
}

impl<'a> Slot<'a> {
    pub(crate) fn new(core: &'a Core, number: u64, entered: Entered) -> Slot<'a> {
        Slot {
            core,
            number,
            releases: core.releases_of(number),
            entered,
        }
    }

    /// Its number.
    pub fn number(&self) -> u64 {
        self.number
    }

    /// What it learned by its acquire, or by its last refresh.
    pub fn entered(&self) -> Entered {
        self.entered
    }

    /// Moves on to the current epoch, and sees the offsets as they are.
    pub fn refresh(&mut self) -> Result<Entered, Fault> {
        self.entered = self.core.refresh(self.held()?)?;
        Ok(self.entered)
    }

    /// Places a record of so many words: its address. Size, SpaceSpent, Busy.
    pub fn allocate(&self, words: u64) -> Result<u64, Fault> {
        self.core.allocate(self.held()?, words)
    }

    /// Sees these two offsets. Stale.
    pub fn look(&self, read_only: u64, head: u64) -> Result<View, Fault> {
        self.core.look(self.held()?, read_only, head)
    }

    /// Whether it may write the word at an address. Below, Beyond.
    pub fn may_write(&self, address: u64) -> Result<(), Fault> {
        self.core.may_write(self.held()?, address)
    }

    /// Whether it may read the word at an address. Evicted, Beyond.
    pub fn may_read(&self, address: u64) -> Result<(), Fault> {
        self.core.may_read(self.held()?, address)
    }

    /// Leaves the slot protected, for calls of the core by its number.
    pub fn keep(self) -> u64 {
        std::mem::ManuallyDrop::new(self).number
    }

    /// Its number, if it is still this one's.
    fn held(&self) -> Result<u64, Fault> {
        if self.core.releases_of(self.number) == self.releases {
            Ok(self.number)
        } else {
            Err(Fault::NotProtected)
        }
    }
}

impl Drop for Slot<'_> {
    fn drop(&mut self) {
        // One that the core was told to release by its number is released already.
        if let Ok(number) = self.held() {
            let _ = self.core.release(number);
        }
    }
}
