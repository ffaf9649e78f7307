//! Git's times, read and written by the proved library `gix_date`, which this crate calls through its C interface.
//!
//! Names and modules are those of the crate gix-date 0.18.1. Where that takes a `jiff::Zoned`, this crate takes a [`Moment`] of
//! its own, and each refusal has a name ([`Error`]). `docs/RUST.md` lists what differs. The module [`git`] reads and shows dates
//! as Git itself does.
//!
//! Seconds count from 1970-01-01 00:00:00 UTC, and an offset is seconds east of UTC. Many threads may call at once. The library takes
//! memory only for what is printed by a format or a pattern, and for a zone that is no [`Zone::Offset`]. This crate takes memory for
//! each `String` that it gives. The clock, `TZ` and zone files are read only in calls named `now`, `local` or `named`; the crate keeps
//! the machine's zone.
//!
//! ```
//! use gix_date_proved as gix_date;
//! use gix_date::{parse, parse_header, time::format, Moment, Time};
//!
//! let time = parse_header("1660797906 +0800").unwrap();
//! assert_eq!(time, Time::new(1660797906, 28800));
//! assert_eq!(parse("2022-08-18 12:45:06 +0800", None), Ok(time));
//! assert_eq!(time.to_string(), "1660797906 +0800");
//! assert_eq!(time.format(format::ISO8601_STRICT).unwrap(), "2022-08-18T12:45:06+08:00");
//!
//! let now = Moment::at_offset(1698400800, 7200);
//! assert_eq!(parse("yesterday", Some(now)).unwrap().seconds, 1698314400);
//! ```
#![deny(missing_docs, unsafe_code, clippy::undocumented_unsafe_blocks)]

pub mod bytes;
#[allow(unsafe_code)]
mod calls;
mod error;
mod ffi;
pub mod git;
mod git_ffi;
#[cfg(test)]
mod header;
pub mod lines;
mod moment;
pub mod parse;
#[cfg(feature = "serde")]
mod serde;
pub mod signature;
pub mod time;
mod version;

pub use error::{CarefulError, Error};
pub use moment::{FoundZone, Instant, Moment, ReadZone, Zone, Zoned};
pub use parse::careful::{parse_carefully, CarefulOptions, Texts, WithoutOffset};
pub use parse::function::{is_canonical_header, parse, parse_header, parse_with, RawOffsets};
pub use signature::{write_signature, Signature};
pub use time::Format;
pub use version::{Version, VersionError};

/// A time: seconds since 1970, and an offset from UTC. Any two numbers are one. Times are in order of their seconds, then of
/// their offsets.
#[repr(C)]
#[derive(Clone, Copy, Debug, Default, PartialEq, Eq, PartialOrd, Ord, Hash)]
pub struct Time {
    /// Seconds since 1970-01-01 00:00:00 UTC.
    pub seconds: SecondsSinceUnixEpoch,
    /// Seconds east of UTC.
    pub offset: OffsetInSeconds,
}

/// Seconds since 1970-01-01 00:00:00 UTC; below 0 for times before it.
pub type SecondsSinceUnixEpoch = i64;

/// An offset from UTC in seconds; below 0 for places west of it.
pub type OffsetInSeconds = i32;

/// The version of the linked library.
pub fn library_version() -> Version {
    Version::of_number(calls::version())
}

/// The version of gix-date that the linked library ports.
pub fn ported_version() -> Version {
    Version::of_number(calls::ported_version())
}

/// Whether this crate can use the linked library. The build compares the library's headers alone.
pub fn check_library() -> Result<(), VersionError> {
    library_version().serves(Version::of_crate())
}
