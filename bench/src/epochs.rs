//! Epochs: who is protected, since which epoch, and what is safe.

use crate::rules::{Fault, EPOCH_LAST, WINDOW};

/// A row of slots beside the current epoch. Epochs start at 1, so 0 stands for a slot that isn't protected.
pub struct Epochs {
    current: u64,
    slots: Vec<u64>,
}

impl Epochs {
    pub fn new(slots: u64) -> Epochs {
        Epochs {
            current: 1,
            slots: vec![0; slots as usize],
        }
    }

    pub fn current(&self) -> u64 {
        self.current
    }

    pub fn protected(&self) -> u64 {
        self.slots.iter().filter(|epoch| **epoch != 0).count() as u64
    }

    /// The least epoch of a protected slot less 1, or the current one less 1 where nobody is protected.
    pub fn safe(&self) -> u64 {
        // An unprotected slot's 0 less 1 wraps to the greatest number, and so never is the least.
        let least = self.slots.iter().map(|epoch| epoch.wrapping_sub(1)).min();
        least.unwrap_or(u64::MAX).min(self.current - 1)
    }

    /// The place of a protected slot in the row.
    pub fn protected_slot(&self, slot: u64) -> Result<usize, Fault> {
        match self.slots.get(slot as usize) {
            None => Err(Fault::NoSlot),
            Some(0) => Err(Fault::NotProtected),
            Some(_) => Ok(slot as usize),
        }
    }

    pub fn acquire(&mut self, slot: u64) -> Result<usize, Fault> {
        match self.slots.get_mut(slot as usize) {
            None => Err(Fault::NoSlot),
            Some(epoch) if *epoch != 0 => Err(Fault::Occupied),
            Some(epoch) => {
                *epoch = self.current;
                Ok(slot as usize)
            }
        }
    }

    pub fn refresh(&mut self, slot: u64) -> Result<usize, Fault> {
        let place = self.protected_slot(slot)?;
        self.slots[place] = self.current;
        Ok(place)
    }

    pub fn release(&mut self, slot: u64) -> Result<(), Fault> {
        let place = self.protected_slot(slot)?;
        self.slots[place] = 0;
        Ok(())
    }

    /// Whether the epoch may rise.
    pub fn may_bump(&self) -> Result<(), Fault> {
        if self.current == EPOCH_LAST {
            Err(Fault::EpochsSpent)
        } else if self.current - 1 - self.safe() == WINDOW {
            Err(Fault::WindowFull)
        } else {
            Ok(())
        }
    }

    /// Ends the current epoch, which is the answer. `may_bump` was asked before.
    pub fn bump(&mut self) -> u64 {
        let ended = self.current;
        self.current += 1;
        ended
    }
}
