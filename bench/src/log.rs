//! The offsets of the log, but for the flushed one, which the pages tell.

use crate::rules::{Fault, View, SPACE};

#[derive(Clone, Copy, Default)]
pub struct Log {
    page_size: u64,
    pub closed: u64,
    pub head: u64,
    pub safe_read_only: u64,
    pub read_only: u64,
    pub tail: u64,
}

impl Log {
    pub fn new(page_size: u64) -> Log {
        Log {
            page_size,
            ..Log::default()
        }
    }

    pub fn view(&self) -> View {
        View {
            read_only: self.read_only,
            head: self.head,
            tail: self.tail,
        }
    }

    pub fn raise(&mut self, to: u64) -> Result<u64, Fault> {
        if to <= self.read_only {
            Err(Fault::NotAbove)
        } else if to > self.tail {
            Err(Fault::AboveTail)
        } else {
            self.read_only = to;
            Ok(to)
        }
    }

    pub fn shift(&mut self, to: u64, flushed: u64) -> Result<u64, Fault> {
        if to <= self.head {
            Err(Fault::NotAbove)
        } else if to & (self.page_size - 1) != 0 {
            Err(Fault::NotPage)
        } else if to > flushed {
            Err(Fault::AboveFlushed)
        } else {
            self.head = to;
            Ok(to)
        }
    }

    pub fn settle(&mut self, stored: u64) -> u64 {
        self.safe_read_only = self.safe_read_only.max(stored);
        self.safe_read_only
    }

    pub fn close(&mut self, stored: u64) -> u64 {
        self.closed = self.closed.max(stored);
        self.closed
    }

    /// Where a record of so many words goes: at the tail where it ends on the tail's page, else on the next page.
    pub fn place(&self, words: u64) -> Result<u64, Fault> {
        if words == 0 || words > self.page_size {
            return Err(Fault::Size);
        }
        let used = self.tail & (self.page_size - 1);
        let place = if used + words <= self.page_size {
            self.tail
        } else {
            self.tail - used + self.page_size
        };
        if place + words > SPACE {
            Err(Fault::SpaceSpent)
        } else {
            Ok(place)
        }
    }
}
