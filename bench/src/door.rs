//! The proved core by its door, include/hl.h.

use crate::rules::{Sizes, Step};

/// What a call answers: 0 and up to four numbers, or the number of a fault and what it carries.
#[repr(C)]
#[derive(Clone, Copy, Debug, Default, PartialEq, Eq)]
pub struct Outcome {
    pub number: u64,
    pub a: u64,
    pub b: u64,
    pub c: u64,
    pub d: u64,
}

/// The same where at most one number is told.
#[repr(C)]
#[derive(Clone, Copy)]
struct Brief {
    number: u64,
    a: u64,
}

impl From<Brief> for Outcome {
    fn from(brief: Brief) -> Outcome {
        Outcome {
            number: brief.number,
            a: brief.a,
            ..Outcome::default()
        }
    }
}

#[repr(C)]
#[derive(Clone, Copy, Debug, Default, PartialEq, Eq)]
pub struct SixOutcome {
    pub number: u64,
    pub closed: u64,
    pub head: u64,
    pub flushed: u64,
    pub safe_read_only: u64,
    pub read_only: u64,
    pub tail: u64,
}

#[repr(C)]
#[derive(Clone, Copy, Debug, Default, PartialEq, Eq)]
pub struct SnapshotOutcome {
    pub number: u64,
    pub epoch: u64,
    pub safe: u64,
    pub protected: u64,
    pub pending: u64,
    pub taken: u64,
    pub six: SixOutcome,
    pub frames: [u64; 5],
}

/// What the library keeps; all zero has no core.
#[repr(C)]
#[derive(Debug)]
pub struct Handle {
    at: *mut u8,
    live: u64,
}

extern "C" {
    fn hl_open(core: &mut Handle, page_size: u64, frames: u64, slots: u64, drain: u64) -> u64;
    fn hl_free(core: &mut Handle) -> u64;
    fn hl_acquire(core: &mut Handle, slot: u64) -> Outcome;
    fn hl_refresh(core: &mut Handle, slot: u64) -> Outcome;
    fn hl_release(core: &mut Handle, slot: u64) -> Brief;
    fn hl_bump(core: &mut Handle, tag: u64) -> Brief;
    fn hl_settle(core: &mut Handle) -> Brief;
    fn hl_close(core: &mut Handle) -> Brief;
    fn hl_bare(core: &mut Handle) -> Brief;
    fn hl_take(core: &mut Handle) -> Outcome;
    fn hl_done(core: &mut Handle, ticket: u64) -> Outcome;
    fn hl_raise(core: &mut Handle, address: u64) -> Brief;
    fn hl_shift(core: &mut Handle, address: u64) -> Brief;
    fn hl_allocate(core: &mut Handle, slot: u64, words: u64) -> Brief;
    fn hl_look(core: &mut Handle, slot: u64, read_only: u64, head: u64) -> Outcome;
    fn hl_write(core: &mut Handle, slot: u64, address: u64, value: u64) -> Brief;
    fn hl_read(core: &mut Handle, slot: u64, address: u64) -> Brief;
    fn hl_flush_take(core: &mut Handle) -> Brief;
    fn hl_flush_done(core: &mut Handle, page: u64, ok: bool) -> Brief;
    fn hl_clean_take(core: &mut Handle) -> Brief;
    fn hl_clean_done(core: &mut Handle, page: u64) -> Brief;
    fn hl_six(core: &mut Handle) -> SixOutcome;
    fn hl_snapshot(core: &mut Handle) -> SnapshotOutcome;
    fn hl_pending(core: &mut Handle, place: u64) -> Outcome;
    fn hl_frame(core: &mut Handle, frame: u64) -> Outcome;
    fn hl_view(core: &mut Handle, slot: u64) -> Outcome;
}

/// An open core, which is freed at the end.
pub struct Door {
    core: Handle,
}

// The calls of include/hl.h are safe on a handle that only this type makes and keeps: it is zero or was opened, and a
// `&mut` gives it to one call at a time.
impl Door {
    pub fn closed() -> Door {
        let at = std::ptr::null_mut();
        Door {
            core: Handle { at, live: 0 },
        }
    }

    pub fn open(sizes: Sizes) -> Door {
        let mut door = Door::closed();
        assert_eq!(
            door.try_open(sizes.page_size, sizes.frames, sizes.slots, sizes.drain_places),
            0
        );
        door
    }

    pub fn try_open(&mut self, page_size: u64, frames: u64, slots: u64, drain: u64) -> u64 {
        unsafe { hl_open(&mut self.core, page_size, frames, slots, drain) }
    }

    pub fn free(&mut self) -> u64 {
        unsafe { hl_free(&mut self.core) }
    }

    /// It is inlined, so that where the step is known its own call stands alone, and is timed alone.
    #[inline(always)]
    pub fn step(&mut self, step: &Step) -> Outcome {
        let core = &mut self.core;
        unsafe {
            match *step {
                Step::Acquire { slot } => hl_acquire(core, slot),
                Step::Refresh { slot } => hl_refresh(core, slot),
                Step::Release { slot } => hl_release(core, slot).into(),
                Step::Bump { tag } => hl_bump(core, tag).into(),
                Step::Settle => hl_settle(core).into(),
                Step::Close => hl_close(core).into(),
                Step::Bare => hl_bare(core).into(),
                Step::Take => hl_take(core),
                Step::Done { ticket } => hl_done(core, ticket),
                Step::Raise { to } => hl_raise(core, to).into(),
                Step::Shift { to } => hl_shift(core, to).into(),
                Step::Allocate { slot, words } => hl_allocate(core, slot, words).into(),
                Step::Look {
                    slot,
                    read_only,
                    head,
                } => hl_look(core, slot, read_only, head),
                Step::Write { slot, address, value } => hl_write(core, slot, address, value).into(),
                Step::Read { slot, address } => hl_read(core, slot, address).into(),
                Step::FlushTake => hl_flush_take(core).into(),
                Step::FlushDone { page, ok } => hl_flush_done(core, page, ok).into(),
                Step::CleanTake => hl_clean_take(core).into(),
                Step::CleanDone { page } => hl_clean_done(core, page).into(),
            }
        }
    }

    pub fn six(&mut self) -> SixOutcome {
        unsafe { hl_six(&mut self.core) }
    }

    pub fn snapshot(&mut self) -> SnapshotOutcome {
        unsafe { hl_snapshot(&mut self.core) }
    }

    pub fn pending(&mut self, place: u64) -> Outcome {
        unsafe { hl_pending(&mut self.core, place) }
    }

    pub fn frame(&mut self, frame: u64) -> Outcome {
        unsafe { hl_frame(&mut self.core, frame) }
    }

    pub fn view(&mut self, slot: u64) -> Outcome {
        unsafe { hl_view(&mut self.core, slot) }
    }
}

impl Drop for Door {
    fn drop(&mut self) {
        self.free();
    }
}
