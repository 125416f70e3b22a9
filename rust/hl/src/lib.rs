//! Epoch protection and the page frames of a hybrid log, after FASTER (Chandramouli, Prasaad, Kossmann, Levandoski,
//! Hunter, Barnett, SIGMOD 2018).
//!
//! | Take | For |
//! |---|---|
//! | [`Core`] | words, jobs and threads of your own: the proved core of `hl.h`, for one thread at a time |
//! | [`Log`] | many threads: the proved log of `hl_log.h` under a mutex, whose words threads store and load without it |
//!
//! Every answer is that of a proved call; this crate, which hands them on, is not proved. Its log is compared with its core
//! step by step (`tests/`).
//!
//! The crate links `libhl.a`, which `./hl install FOLDER` of hl's repository makes. It is found in the folder that
//! `HL_DIR` names, by pkg-config, or in the installed folder that this crate lies in.

#![warn(missing_docs)]

mod answers;
mod core;
mod fault;
mod flush;
mod lease;
mod log;
mod pages;
mod pass;
mod raw;
mod slot;
mod told;

pub use crate::core::Core;
pub use fault::Fault;
pub use lease::Lease;
pub use log::Log;
pub use pages::{Clean, Flush};
pub use pass::Pass;
pub use slot::Slot;
pub use told::{
    Action, Done, Entered, Frame, Holder, Kind, LagStep, Offsets, Pending, RawSizes, Region, Sealed, Sizes,
    Snapshot, View,
};

/// The version of this crate.
pub const VERSION: &str = env!("CARGO_PKG_VERSION");

/// The version of the library that the program is linked with, as the library itself tells it.
pub fn library_version() -> &'static str {
    // SAFETY: the library has a text there that ends in a 0 and never changes.
    let text = unsafe { std::ffi::CStr::from_ptr(&raw::hl_version_text) };
    text.to_str().unwrap_or_default()
}
