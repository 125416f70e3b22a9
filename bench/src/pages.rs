//! Which pages the frames hold, and what became of each: flushed, in flight, being cleaned, freed.

use crate::rules::{Fault, FrameState};

/// What is known of the page that last entered a frame.
#[derive(Clone, Copy, Default)]
struct Frame {
    page: Option<u64>,
    flushed: bool,
    in_flight: bool,
    freed: bool,
    cleaning: bool,
}

/// The frames, and where the next search starts. All page numbers below `flush_next` are flushed or in flight, all
/// below `clean_next` freed or being cleaned, and those below `run` are flushed.
pub struct Pages {
    shift: u32,
    frames: Vec<Frame>,
    flush_next: u64,
    clean_next: u64,
    run: u64,
}

impl Pages {
    pub fn new(page_size: u64, frames: u64) -> Pages {
        Pages {
            shift: page_size.trailing_zeros(),
            frames: vec![Frame::default(); frames as usize],
            flush_next: 0,
            clean_next: 0,
            run: 0,
        }
    }

    pub fn count(&self) -> u64 {
        self.frames.len() as u64
    }

    fn place_of(&self, page: u64) -> usize {
        page as usize % self.frames.len()
    }

    /// The frame that holds this page, if it is still there.
    fn holding(&mut self, page: u64) -> Option<&mut Frame> {
        let place = self.place_of(page);
        let frame = &mut self.frames[place];
        (frame.page == Some(page)).then_some(frame)
    }

    /// The number of pages that end at or below an offset.
    fn ended(&self, offset: u64) -> u64 {
        offset >> self.shift
    }

    pub fn page_of(&self, address: u64) -> u64 {
        address >> self.shift
    }

    pub fn flushed_until(&self) -> u64 {
        self.run << self.shift
    }

    /// Enters this page, where its frame is free. A page that was entered before stays.
    pub fn enter(&mut self, page: u64) -> Result<(), Fault> {
        let place = self.place_of(page);
        let frame = &mut self.frames[place];
        if frame.page == Some(page) {
            return Ok(());
        }
        if frame.page.is_some() && !frame.freed {
            return Err(Fault::Busy { page });
        }
        *frame = Frame {
            page: Some(page),
            ..Frame::default()
        };
        Ok(())
    }

    pub fn flush_take(&mut self, safe_read_only: u64) -> Result<u64, Fault> {
        for page in self.flush_next..self.ended(safe_read_only) {
            if let Some(frame) = self.holding(page) {
                if !frame.flushed && !frame.in_flight {
                    frame.in_flight = true;
                    self.flush_next = page + 1;
                    return Ok(page);
                }
            }
        }
        Err(Fault::NoneSealed)
    }

    /// The flushed offset after a flush of this page ended.
    pub fn flush_done(&mut self, page: u64, ok: bool) -> Result<u64, Fault> {
        let frame = self.holding(page).filter(|frame| frame.in_flight);
        let frame = frame.ok_or(Fault::NotInFlight)?;
        frame.in_flight = false;
        frame.flushed = ok;
        if ok {
            while self.is_flushed(self.run) {
                self.run += 1;
            }
        } else {
            self.flush_next = self.flush_next.min(page);
        }
        Ok(self.flushed_until())
    }

    fn is_flushed(&self, page: u64) -> bool {
        let frame = &self.frames[self.place_of(page)];
        frame.page == Some(page) && frame.flushed
    }

    pub fn clean_take(&mut self, closed: u64) -> Result<u64, Fault> {
        for page in self.clean_next..self.ended(closed) {
            if let Some(frame) = self.holding(page) {
                if !frame.freed && !frame.cleaning {
                    frame.cleaning = true;
                    self.clean_next = page + 1;
                    return Ok(page);
                }
            }
        }
        Err(Fault::NoneClosed)
    }

    pub fn clean_done(&mut self, page: u64) -> Result<u64, Fault> {
        let frame = self.holding(page).filter(|frame| frame.cleaning);
        let frame = frame.ok_or(Fault::NotCleaning)?;
        frame.cleaning = false;
        frame.freed = true;
        Ok(page)
    }

    /// A frame's state, and its page where it isn't free.
    pub fn state(&self, place: usize, safe_read_only: u64, closed: u64) -> (FrameState, Option<u64>) {
        let frame = &self.frames[place];
        let page = match frame.page {
            Some(page) if !frame.freed => page,
            _ => return (FrameState::Free, None),
        };
        let state = if page < self.ended(closed) {
            FrameState::Closed
        } else if frame.flushed {
            FrameState::Flushed
        } else if page < self.ended(safe_read_only) {
            FrameState::Sealed
        } else {
            FrameState::Open
        };
        (state, Some(page))
    }

    /// How many frames are in each state.
    pub fn counts(&self, safe_read_only: u64, closed: u64) -> [u64; 5] {
        let mut counts = [0; 5];
        for place in 0..self.frames.len() {
            counts[self.state(place, safe_read_only, closed).0 as usize] += 1;
        }
        counts
    }
}
