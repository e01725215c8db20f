#![doc = include_str!("../README.md")]
#![no_std]
#![deny(missing_docs)]
#![deny(unsafe_code)]

extern crate alloc;
#[cfg(test)]
extern crate std;

mod answers;
#[allow(unsafe_code)]
mod ffi;
mod log;
mod session;

pub use answers::{Refusal, Verdict};
pub use ffi::{library_version, sheet_version, MonitorBytes, MONITOR_BYTES, RECORD_BYTES, SHEET_BYTES};
pub use log::{run, Outcome};
pub use session::{Book, Session};

/// The library's version that this package is of, as `GUARD_LIBRARY_VERSION` in `include/guard.h`. A library of another memory layout does not link.
pub const LIBRARY_VERSION: u32 = 8;
