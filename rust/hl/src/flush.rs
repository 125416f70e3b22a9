//! All pages of a log written, by a thread that has a pass.

use crate::{Fault, Log, Pass};
use std::thread;
use std::time::Duration;

impl Pass<'_> {
    /// Has all below the tail written, as a log wants at its end: seals it, carries out the actions that are ready, hands
    /// the tags of jobs to `job`, and hands each sealed page to `write(page, words)`, which returns whether the page is on
    /// the device. Returns the flushed offset, once it is at what was the tail. Others may flush at the same time, and the
    /// pass stays protected meanwhile, so `write` holds up the actions of others.
    ///
    /// It gives up after so many turns in a row in which neither the safe read-only offset nor the flushed one rose, each of
    /// a millisecond or more, with what stood in the way. What was written stays so, and another call goes on from there.
    ///
    /// - Device: `write` returned false.
    /// - NotReady: a slot that doesn't refresh holds an action up. Empty: another thread took the settle, and it isn't done.
    /// - NoneSealed: another thread has a page in flight.
    /// - DrainFull, WindowFull: no settle could be stored. EpochsSpent at once.
    /// - OutOfMemory at once.
    ///
    /// ```
    /// use hl::{Log, Sizes};
    ///
    /// let log = Log::open(Sizes::checked(4, 2, 1, 4)?)?;
    /// let mut pass = log.acquire(0)?;
    /// pass.append(&[20, 26])?;
    /// let mut device = Vec::new();
    /// let flushed = pass.flush(
    ///     1000,
    ///     |_page, words| {
    ///         device.extend_from_slice(words);
    ///         true
    ///     },
    ///     |_tag| (),
    /// )?;
    /// assert_eq!((flushed, device), (4, vec![20, 26, 0, 0]));
    /// # Ok::<(), hl::Fault>(())
    /// ```
    pub fn flush(
        &mut self,
        turns: u64,
        mut write: impl FnMut(u64, &[u64]) -> bool,
        mut job: impl FnMut(u64),
    ) -> Result<u64, Fault> {
        let log = self.log();
        let mut words = vec![0; log.sizes().page_size() as usize];
        let mut end = None;
        let mut left = turns;
        let mut was = log.offsets();
        loop {
            let waits = self.go_on(&mut end, &mut job)?;
            let unwritten = write_all(log, &mut words, &mut write)?;
            let now = log.offsets();
            if end.is_some_and(|end| now.flushed >= end) {
                return Ok(now.flushed);
            }
            if now.flushed > was.flushed || now.safe_read_only > was.safe_read_only {
                left = turns;
            } else if left <= 1 {
                return Err(unwritten.or(waits).unwrap_or(Fault::NoneSealed));
            } else {
                left -= 1;
                thread::sleep(Duration::from_millis(1));
            }
            was = now;
        }
    }

    /// Seals the log, where that isn't done yet, and carries out the actions that are ready, until all below the end is
    /// sealed. What stood in the way.
    fn go_on(&mut self, end: &mut Option<u64>, mut job: impl FnMut(u64)) -> Result<Option<Fault>, Fault> {
        let mut waits = None;
        if end.is_none() {
            match self.seal() {
                Ok(sealed) => *end = Some(sealed.address),
                Err(fault @ (Fault::DrainFull | Fault::WindowFull)) => waits = Some(fault),
                Err(fault) => return Err(fault),
            }
        }
        if end.is_some_and(|end| self.log().offsets().safe_read_only >= end) {
            return Ok(None);
        }
        let fault = loop {
            if let Err(fault) = self.carry_out(&mut job) {
                break fault;
            }
        };
        self.refresh()?;
        Ok(waits.or(Some(fault)))
    }
}

/// Has each sealed page written. Device where one wasn't.
fn write_all(
    log: &Log,
    words: &mut [u64],
    mut write: impl FnMut(u64, &[u64]) -> bool,
) -> Result<Option<Fault>, Fault> {
    loop {
        let page = match log.flush_take() {
            Ok(page) => page,
            Err(Fault::NoneSealed) => return Ok(None),
            Err(fault) => return Err(fault),
        };
        page.copy(words);
        if !write(page.page(), words) {
            return Ok(Some(Fault::Device));
        }
        page.done()?;
    }
}
