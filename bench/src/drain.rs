//! The drain list: the actions that wait for their epoch to be safe, and those that were taken and are not done.

use crate::rules::{Fault, Kind, Waiting};
use std::collections::VecDeque;

pub struct Drain {
    places: usize,
    pending: VecDeque<Waiting>,
    taken: Vec<Waiting>,
}

impl Drain {
    pub fn new(places: u64) -> Drain {
        let places = places as usize;
        Drain {
            places,
            pending: VecDeque::with_capacity(places),
            taken: Vec::with_capacity(places),
        }
    }

    pub fn pending(&self) -> impl ExactSizeIterator<Item = &Waiting> {
        self.pending.iter()
    }

    pub fn taken(&self) -> u64 {
        self.taken.len() as u64
    }

    pub fn has_room(&self) -> Result<(), Fault> {
        if self.pending.len() + self.taken.len() == self.places {
            Err(Fault::DrainFull)
        } else {
            Ok(())
        }
    }

    pub fn put(&mut self, waiting: Waiting) {
        self.pending.push_back(waiting);
    }

    /// The oldest pending action, where its ticket is safe.
    pub fn take(&mut self, safe: u64) -> Result<Waiting, Fault> {
        let oldest = *self.pending.front().ok_or(Fault::Empty)?;
        if oldest.ticket > safe {
            let front = oldest.ticket;
            return Err(Fault::NotReady { front, safe });
        }
        self.pending.pop_front();
        self.taken.push(oldest);
        Ok(oldest)
    }

    pub fn done(&mut self, ticket: u64) -> Result<Kind, Fault> {
        let place = self.taken.iter().position(|held| held.ticket == ticket);
        match place {
            None => Err(Fault::NotTaken),
            Some(place) => Ok(self.taken.remove(place).kind),
        }
    }
}
