//! Time zones.

use super::{FoundZone, ReadZone};
use crate::calls::zone::HeldZone;
use crate::{Error, OffsetInSeconds};
use std::ffi::CString;
use std::sync::Arc;

/// A time zone. Two are equal where they are given alike: a rule is not compared with a file.
///
/// Each call at a moment reads a rule or a file. [`Zone::read()`] reads it once for many calls.
#[derive(Clone, Debug, PartialEq, Eq, Hash)]
#[non_exhaustive]
pub enum Zone {
    /// The zone that always has this offset, in seconds east of UTC, up to 93599 either way.
    Offset(OffsetInSeconds),
    /// The zone of a POSIX rule, `EST5EDT,M3.2.0,M11.1.0`. One that begins with `TZif`, as a file does, is refused.
    Posix(Arc<str>),
    /// The zone of a TZif file, by its bytes.
    Tzif(Arc<[u8]>),
    /// A zone that the library has found. It is read already, and equal to its clones alone.
    Found(FoundZone),
}

impl Default for Zone {
    /// UTC.
    fn default() -> Zone {
        Zone::UTC
    }
}

impl Zone {
    /// The zone that always has the offset 0.
    pub const UTC: Zone = Zone::Offset(0);

    /// The machine's zone: that of the variables `TZ` and `TZDIR`, by the rules of `gix_date_zone_find` in `include/gix_date.h`.
    /// Without `TZ` it is that of `/etc/localtime`.
    ///
    /// The zone is kept for the calls after, so it is equal to theirs. It is found anew where `TZ`, `TZDIR` or the file that they
    /// name has changed: the file's device, inode, length or modification time.
    ///
    /// [`Error::InvalidZone`] where this names no zone that can be read, [`Error::ZoneCountsLeapSeconds`], [`Error::NotText`] of
    /// the variables, [`Error::OutOfMemory`]. No file is read that is a pipe, a device or empty, or has more than 1048576 bytes.
    pub fn local() -> Result<Zone, Error> {
        FoundZone::of_machine().map(Zone::Found)
    }

    /// The zone of this name, such as `America/New_York`: the TZif file below `TZDIR` or `/usr/share/zoneinfo`. It is read each
    /// time.
    ///
    /// A name has ASCII letters, digits, `/`, `_`, `+` and `-`, and does not begin with `/`. [`Error::InvalidZone`] for other
    /// names, and where there is no such zone; else the refusals of [`Zone::local()`].
    pub fn named(name: &str) -> Result<Zone, Error> {
        let is_name = |b: u8| b.is_ascii_alphanumeric() || b"/_+-".contains(&b);
        if name.starts_with('/') || !name.bytes().all(is_name) {
            return Err(Error::InvalidZone);
        }
        // No rule begins with a dot.
        let path = CString::new(format!("./{name}")).expect("a name has no NUL");
        FoundZone::below_folder(path).map(Zone::Found)
    }

    /// Reads this zone once, for any number of calls. It takes memory for all but an offset.
    ///
    /// [`Error::InvalidZone`] of a rule or a file that cannot be read, [`Error::ZoneCountsLeapSeconds`], [`Error::OutOfMemory`]. An
    /// offset is not looked at here: each call refuses one beyond 25:59:59.
    pub fn read(&self) -> Result<ReadZone, Error> {
        let held = match self {
            Zone::Offset(offset) => HeldZone::at_offset(*offset),
            Zone::Posix(rule) if may_be_rule(rule) => HeldZone::read(rule.as_bytes())?,
            Zone::Tzif(file) if may_be_file(file) => HeldZone::read(file)?,
            Zone::Posix(_) | Zone::Tzif(_) => return Err(Error::InvalidZone),
            Zone::Found(found) => return found.read(),
        };
        Ok(ReadZone::new(held))
    }
}

/// Whether the library can only take a text for a rule: it takes one for a file by its first bytes, and an offset begins with a
/// sign, as no rule does.
fn may_be_rule(text: &str) -> bool {
    !may_be_file(text.as_bytes()) && !text.starts_with(['+', '-'])
}

/// Whether the library takes bytes for a file, and not for an offset or a rule.
fn may_be_file(bytes: &[u8]) -> bool {
    bytes.starts_with(b"TZif")
}
