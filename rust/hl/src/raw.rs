//! The calls of `hl.h` and `hl_log.h`.

use std::os::raw::c_char;

/// What the library keeps of a core, a log, a pass or a page; all zero has none.
#[repr(C)]
#[derive(Debug)]
pub(crate) struct Handle {
    at: *mut u8,
    live: u64,
}

// SAFETY: the headers allow a handle to go from thread to thread, and one call at a time to use it: a call takes it by a
// `*mut`, and what gives one out sees to the rest.
unsafe impl Send for Handle {}

impl Handle {
    pub(crate) const CLOSED: Handle = Handle {
        at: std::ptr::null_mut(),
        live: 0,
    };

    /// Whether it has something.
    pub(crate) fn is_open(&self) -> bool {
        self.live != 0
    }
}

#[repr(C)]
#[derive(Clone, Copy)]
pub(crate) struct Outcome {
    pub(crate) number: u64,
    pub(crate) a: u64,
    pub(crate) b: u64,
    pub(crate) c: u64,
    pub(crate) d: u64,
}

#[repr(C)]
#[derive(Clone, Copy)]
pub(crate) struct Brief {
    pub(crate) number: u64,
    pub(crate) a: u64,
}

impl From<Brief> for Outcome {
    fn from(brief: Brief) -> Outcome {
        let Brief { number, a } = brief;
        Outcome {
            number,
            a,
            b: 0,
            c: 0,
            d: 0,
        }
    }
}

#[repr(C)]
pub(crate) struct Six {
    pub(crate) number: u64,
    pub(crate) closed: u64,
    pub(crate) head: u64,
    pub(crate) flushed: u64,
    pub(crate) safe_read_only: u64,
    pub(crate) read_only: u64,
    pub(crate) tail: u64,
}

#[repr(C)]
pub(crate) struct Quantities {
    pub(crate) number: u64,
    pub(crate) epoch: u64,
    pub(crate) safe: u64,
    pub(crate) protected: u64,
    pub(crate) pending: u64,
    pub(crate) taken: u64,
    pub(crate) six: Six,
    pub(crate) frames: [u64; 5],
}

#[repr(C)]
#[derive(Clone, Copy)]
pub(crate) struct LagStep {
    pub(crate) kind: u64,
    pub(crate) address: u64,
}

#[repr(C)]
pub(crate) struct LagSteps {
    pub(crate) number: u64,
    pub(crate) count: u64,
    pub(crate) steps: [LagStep; 4],
}

extern "C" {
    pub(crate) static hl_version_text: c_char;
    pub(crate) fn hl_open_wide(
        core: *mut Handle,
        page_size: u64,
        frames: u64,
        slots: u64,
        drain_places: u64,
    ) -> u64;
    pub(crate) fn hl_free(core: *mut Handle) -> u64;
    pub(crate) fn hl_acquire(core: *mut Handle, slot: u64) -> Outcome;
    pub(crate) fn hl_refresh(core: *mut Handle, slot: u64) -> Outcome;
    pub(crate) fn hl_release(core: *mut Handle, slot: u64) -> Brief;
    pub(crate) fn hl_bump(core: *mut Handle, tag: u64) -> Brief;
    pub(crate) fn hl_settle(core: *mut Handle) -> Brief;
    pub(crate) fn hl_close(core: *mut Handle) -> Brief;
    pub(crate) fn hl_bare(core: *mut Handle) -> Brief;
    pub(crate) fn hl_take(core: *mut Handle) -> Outcome;
    pub(crate) fn hl_done(core: *mut Handle, ticket: u64) -> Outcome;
    pub(crate) fn hl_raise(core: *mut Handle, address: u64) -> Brief;
    pub(crate) fn hl_shift(core: *mut Handle, address: u64) -> Brief;
    pub(crate) fn hl_allocate(core: *mut Handle, slot: u64, words: u64) -> Brief;
    pub(crate) fn hl_look(core: *mut Handle, slot: u64, read_only: u64, head: u64) -> Outcome;
    pub(crate) fn hl_write(core: *mut Handle, slot: u64, address: u64, value: u64) -> Brief;
    pub(crate) fn hl_read(core: *mut Handle, slot: u64, address: u64) -> Brief;
    pub(crate) fn hl_flush_take(core: *mut Handle) -> Brief;
    pub(crate) fn hl_flush_done(core: *mut Handle, page: u64, ok: bool) -> Brief;
    pub(crate) fn hl_clean_take(core: *mut Handle) -> Brief;
    pub(crate) fn hl_clean_done(core: *mut Handle, page: u64) -> Brief;
    pub(crate) fn hl_six(core: *mut Handle) -> Six;
    pub(crate) fn hl_snapshot(core: *mut Handle) -> Quantities;
    pub(crate) fn hl_lag(core: *mut Handle, mutable_pages: u64, resident_pages: u64) -> LagSteps;
    pub(crate) fn hl_pending(core: *mut Handle, place: u64) -> Outcome;
    pub(crate) fn hl_frame(core: *mut Handle, frame: u64) -> Outcome;
    pub(crate) fn hl_view(core: *mut Handle, slot: u64) -> Outcome;

    pub(crate) fn hl_log_open_wide(
        log: *mut Handle,
        page_size: u64,
        frames: u64,
        slots: u64,
        drain_places: u64,
        stamp: u64,
    ) -> u64;
    pub(crate) fn hl_log_free(log: *mut Handle) -> u64;
    pub(crate) fn hl_log_acquire(log: *mut Handle, pass: *mut Handle, slot: u64) -> Outcome;
    pub(crate) fn hl_log_refresh(log: *mut Handle, pass: *mut Handle) -> Outcome;
    pub(crate) fn hl_log_allocate(log: *mut Handle, pass: *mut Handle, words: u64) -> Brief;
    pub(crate) fn hl_log_release(log: *mut Handle, pass: *mut Handle) -> Brief;
    pub(crate) fn hl_log_seal(log: *mut Handle, pass: *mut Handle) -> Outcome;
    pub(crate) fn hl_log_raise(log: *mut Handle, address: u64) -> Brief;
    pub(crate) fn hl_log_shift(log: *mut Handle, address: u64) -> Brief;
    pub(crate) fn hl_log_bump(log: *mut Handle, tag: u64) -> Brief;
    pub(crate) fn hl_log_settle(log: *mut Handle) -> Brief;
    pub(crate) fn hl_log_close(log: *mut Handle) -> Brief;
    pub(crate) fn hl_log_bare(log: *mut Handle) -> Brief;
    pub(crate) fn hl_log_take(log: *mut Handle) -> Outcome;
    pub(crate) fn hl_log_done(log: *mut Handle, ticket: u64) -> Outcome;
    pub(crate) fn hl_log_flush_take(log: *mut Handle, page: *mut Handle) -> Brief;
    pub(crate) fn hl_log_flush_done(log: *mut Handle, page: *mut Handle, ok: bool) -> Brief;
    pub(crate) fn hl_log_clean_take(log: *mut Handle, page: *mut Handle) -> Brief;
    pub(crate) fn hl_log_clean_done(log: *mut Handle, page: *mut Handle) -> Brief;
    pub(crate) fn hl_log_six(log: *mut Handle) -> Six;
    pub(crate) fn hl_log_snapshot(log: *mut Handle) -> Quantities;
    pub(crate) fn hl_log_lag(log: *mut Handle, mutable_pages: u64, resident_pages: u64) -> LagSteps;
    pub(crate) fn hl_log_holders(log: *mut Handle, place: u64) -> Outcome;
    pub(crate) fn hl_pass_store(pass: *mut Handle, address: u64, word: u64) -> Brief;
    pub(crate) fn hl_pass_fetch_add(pass: *mut Handle, address: u64, more: u64) -> Brief;
    pub(crate) fn hl_pass_compare_exchange(pass: *mut Handle, address: u64, current: u64, word: u64)
        -> Brief;
    pub(crate) fn hl_pass_load(pass: *mut Handle, address: u64) -> Brief;
    pub(crate) fn hl_pass_load_into(pass: *mut Handle, address: u64, words: *mut u64, count: usize) -> Brief;
    pub(crate) fn hl_pass_region(pass: *mut Handle, address: u64) -> Outcome;
    pub(crate) fn hl_pass_look(pass: *mut Handle) -> Outcome;
    pub(crate) fn hl_pass_keeps_up(pass: *mut Handle) -> u64;
    pub(crate) fn hl_pass_abandon(pass: *mut Handle) -> u64;
    pub(crate) fn hl_log_copy_page(page: *mut Handle, words: *mut u64, count: usize) -> Brief;
    pub(crate) fn hl_log_sweep(page: *mut Handle) -> Brief;
    pub(crate) fn hl_page_abandon(page: *mut Handle) -> u64;
}
