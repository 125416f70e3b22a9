//! Pages that were taken, to be flushed or to be cleaned.

use crate::raw::{self, Handle};
use crate::{answers, Fault, Log};
use std::cell::UnsafeCell;

/// A page that was taken from a log.
#[derive(Debug)]
struct Page<'a> {
    log: &'a Log,
    handle: UnsafeCell<Handle>,
    number: u64,
}

impl<'a> Page<'a> {
    fn new(log: &'a Log, handle: Handle, number: u64) -> Page<'a> {
        Page {
            log,
            handle: UnsafeCell::new(handle),
            number,
        }
    }
}

impl Drop for Page<'_> {
    fn drop(&mut self) {
        if self.handle.get_mut().is_open() {
            // SAFETY: the handle is this page's alone.
            unsafe { raw::hl_page_abandon(self.handle.get()) };
        }
    }
}

/// A sealed page that was taken to be flushed: no thread stores to it any more. Where it is dropped before
/// [`done`](Flush::done), its flush has failed, and the page may be taken again.
#[derive(Debug)]
#[must_use = "a page that is dropped counts as not flushed"]
pub struct Flush<'a>(Page<'a>);

impl<'a> Flush<'a> {
    pub(crate) fn new(log: &'a Log, handle: Handle, number: u64) -> Flush<'a> {
        Flush(Page::new(log, handle, number))
    }

    /// Its number: its first word has the address `page * page_size`.
    pub fn page(&self) -> u64 {
        self.0.number
    }

    /// Copies its words, without the lock.
    ///
    /// # Panics
    ///
    /// Where `words` isn't as long as a page.
    pub fn copy(&self, words: &mut [u64]) {
        let length = self.0.log.sizes().page_size();
        assert_eq!(words.len() as u64, length, "a page has {length} words");
        // SAFETY: the handle is this page's alone, which is not `Sync`, and there is room for a page's words.
        let told = unsafe { raw::hl_log_copy_page(self.0.handle.get(), words.as_mut_ptr(), words.len()) };
        debug_assert!(answers::number(told).is_ok());
    }

    /// It is on the device: the flushed offset.
    pub fn done(mut self) -> Result<u64, Fault> {
        self.end(true)
    }

    fn end(&mut self, ok: bool) -> Result<u64, Fault> {
        let page = self.0.handle.get();
        self.0
            .log
            .ask_briefly(|log| unsafe { raw::hl_log_flush_done(log, page, ok) })
    }
}

impl Drop for Flush<'_> {
    fn drop(&mut self) {
        if self.0.handle.get_mut().is_open() {
            let told = self.end(false);
            debug_assert!(told.is_ok());
        }
    }
}

/// A closed page that was taken to be cleaned: no thread reads it any more. It is swept where it is dropped, too.
#[derive(Debug)]
#[must_use = "a page is swept where it is dropped"]
pub struct Clean<'a>(Page<'a>);

impl<'a> Clean<'a> {
    pub(crate) fn new(log: &'a Log, handle: Handle, number: u64) -> Clean<'a> {
        Clean(Page::new(log, handle, number))
    }

    /// Its number.
    pub fn page(&self) -> u64 {
        self.0.number
    }

    /// Zeroes its words, without the lock, and frees its frame: the page.
    pub fn sweep(mut self) -> Result<u64, Fault> {
        self.end()
    }

    fn end(&mut self) -> Result<u64, Fault> {
        let page = self.0.handle.get();
        // SAFETY: the handle is this page's alone.
        answers::number(unsafe { raw::hl_log_sweep(page) })?;
        self.0
            .log
            .ask_briefly(|log| unsafe { raw::hl_log_clean_done(log, page) })
    }
}

impl Drop for Clean<'_> {
    fn drop(&mut self) {
        if self.0.handle.get_mut().is_open() {
            let told = self.end();
            debug_assert!(told.is_ok());
        }
    }
}
