//! What a thread does in its slot of a domain, under the lock and without it.

use crate::domain::{Domain, Rider};
use crate::rules::{Fault, Step, View};
use crate::twin::Entered;
use std::sync::atomic::Ordering::SeqCst;

/// How many touches a pass has room for.
pub const TOUCHES_MOST: usize = 32;

/// A protected slot, and the looks and stores since its last locked call: its touches.
pub struct Pass<'a> {
    domain: &'a Domain,
    rider: Rider,
    slot: u64,
    epoch: u64,
    view: View,
    touches: Vec<Step>,
    /// Whether a look is among the touches.
    has_looked: bool,
}

impl<'a> Pass<'a> {
    pub fn new(domain: &'a Domain, rider: Rider, slot: u64, entered: Entered) -> Pass<'a> {
        Pass {
            domain,
            rider,
            slot,
            epoch: entered.epoch,
            view: entered.view,
            touches: Vec::with_capacity(TOUCHES_MOST),
            has_looked: false,
        }
    }

    /// What the slot has seen.
    #[cfg(test)]
    pub fn view(&self) -> View {
        self.view
    }

    /// Moves on to the current epoch, and sees the offsets as they are.
    pub fn refresh(&mut self) -> Result<View, Fault> {
        let slot = self.slot;
        let step = Step::Refresh { slot };
        let mut keeper = self.domain.lock();
        let entered = keeper.enter(&mut self.rider, &mut self.touches, step, |core| {
            core.refresh(slot)
        })?;
        self.epoch = entered.epoch;
        self.view = entered.view;
        self.has_looked = false;
        Ok(entered.view)
    }

    /// A refresh, unless nothing is new and there is room for a touch.
    pub fn keep_up(&mut self) -> Result<(), Fault> {
        let (read_only, head) = self.domain.offsets();
        let is_new =
            read_only > self.view.read_only || head > self.view.head || self.domain.epoch() > self.epoch;
        if is_new || self.touches.len() == TOUCHES_MOST {
            self.refresh()?;
        }
        Ok(())
    }

    /// The domain that it is of.
    pub fn domain(&self) -> &'a Domain {
        self.domain
    }

    /// The right to act for no slot.
    pub fn rider(&mut self) -> &mut Rider {
        &mut self.rider
    }

    /// Places a record of so many words: its address.
    pub fn allocate(&mut self, words: u64) -> Result<u64, Fault> {
        let Pass {
            slot,
            view,
            has_looked,
            ..
        } = *self;
        let step = Step::Allocate { slot, words };
        let mut keeper = self.domain.lock();
        let address = keeper.enter(&mut self.rider, &mut self.touches, step, |core| {
            let address = core.allocate(slot, words)?;
            // The allocation set the tail of the core's own view alone.
            if has_looked {
                core.look(slot, view.read_only, view.head)?;
            }
            Ok(address)
        })?;
        self.view.tail = address + words;
        self.has_looked = false;
        Ok(address)
    }

    /// Leaves the slot; where that is refused, the pass comes back.
    pub fn release(mut self) -> Result<Rider, (Fault, Pass<'a>)> {
        let slot = self.slot;
        let step = Step::Release { slot };
        let left = self
            .domain
            .lock()
            .enter(&mut self.rider, &mut self.touches, step, |core| {
                core.release(slot)
            });
        match left {
            Ok(()) => Ok(self.rider),
            Err(fault) => Err((fault, self)),
        }
    }

    /// Gives the rider back, and leaves the slot protected; the touches enter nothing.
    #[cfg(test)]
    pub fn abandon(self) -> Rider {
        self.rider
    }

    fn has_room(&self) -> Result<(), Fault> {
        if self.touches.len() == TOUCHES_MOST {
            Err(Fault::TouchesFull)
        } else {
            Ok(())
        }
    }

    fn may_write(&self, address: u64) -> Result<(), Fault> {
        let View { read_only, tail, .. } = self.view;
        if address < read_only {
            return Err(Fault::Below { read_only });
        }
        if address >= tail {
            return Err(Fault::Beyond { tail });
        }
        self.has_room()
    }

    /// Stores a word: Below, Beyond, TouchesFull.
    pub fn store(&mut self, address: u64, value: u64) -> Result<(), Fault> {
        self.may_write(address)?;
        self.domain.cell(address).store(value, SeqCst);
        let slot = self.slot;
        self.touches.push(Step::Write { slot, address, value });
        Ok(())
    }

    /// Adds to a word in one step: Below, Beyond, TouchesFull.
    pub fn fetch_add(&mut self, address: u64, more: u64) -> Result<u64, Fault> {
        self.may_write(address)?;
        let found = self.domain.cell(address).fetch_add(more, SeqCst);
        let (slot, value) = (self.slot, found.wrapping_add(more));
        self.touches.push(Step::Write { slot, address, value });
        Ok(found)
    }

    /// Loads a word: Evicted, Beyond. It is no touch.
    pub fn load(&self, address: u64) -> Result<u64, Fault> {
        let View { head, tail, .. } = self.view;
        if address < head {
            return Err(Fault::Evicted { head });
        }
        if address >= tail {
            return Err(Fault::Beyond { tail });
        }
        Ok(self.domain.cell(address).load(SeqCst))
    }

    /// Sees the read-only offset and the head as they are; it is a touch where one of them is above the view's.
    pub fn look(&mut self) -> Result<View, Fault> {
        self.has_room()?;
        let (read_only, head) = self.domain.offsets();
        if read_only > self.view.read_only || head > self.view.head {
            self.view.read_only = self.view.read_only.max(read_only);
            self.view.head = self.view.head.max(head);
            let View { read_only, head, .. } = self.view;
            let slot = self.slot;
            self.touches.push(Step::Look {
                slot,
                read_only,
                head,
            });
            self.has_looked = true;
        }
        Ok(self.view)
    }
}
