//! Shown dates.

use super::{DateError, DateMode, OwnDateError};
use crate::calls::{self, zone::HeldZone};
use crate::signature::GitTime;
use crate::{Instant, OffsetInSeconds, Time};
use std::fmt;
use std::hash::{Hash, Hasher};
use std::ops::Deref;

/// The most bytes of a shown date: those of a line by [`DateKind::Rfc2822`](super::DateKind::Rfc2822), with eight digits of an
/// offset.
pub(crate) const MAX_SHOWN: usize = 35;

/// A shown date or offset, in a buffer of its own: a `str` of ASCII, of at most 31 bytes, or 35 for the date of a line.
#[derive(Clone, Copy)]
pub struct DateText {
    bytes: [u8; MAX_SHOWN],
    len: usize,
}

impl DateText {
    pub(crate) fn shown(
        time: Time,
        mode: DateMode,
        now: Instant,
        zone: &HeldZone,
    ) -> Result<DateText, DateError> {
        let mut bytes = [0; MAX_SHOWN];
        let len = calls::git::show_date(&time, mode, now, zone, &mut bytes)?;
        Ok(DateText { bytes, len })
    }

    pub(crate) fn of_line(
        time: GitTime,
        mode: DateMode,
        now: Instant,
        zone: &HeldZone,
    ) -> Result<DateText, OwnDateError> {
        let mut bytes = [0; MAX_SHOWN];
        let len = calls::git::show_git_time(time, mode, now, zone, &mut bytes)?;
        Ok(DateText { bytes, len })
    }

    pub(crate) fn of_offset(offset: OffsetInSeconds) -> DateText {
        let mut bytes = [0; MAX_SHOWN];
        let len = calls::git::offset_text(offset, &mut bytes);
        DateText { bytes, len }
    }

    /// The text.
    pub fn as_str(&self) -> &str {
        std::str::from_utf8(&self.bytes[..self.len]).expect("the library writes UTF-8")
    }
}

impl Deref for DateText {
    type Target = str;

    fn deref(&self) -> &str {
        self.as_str()
    }
}

impl AsRef<str> for DateText {
    fn as_ref(&self) -> &str {
        self
    }
}

impl fmt::Debug for DateText {
    fn fmt(&self, f: &mut fmt::Formatter<'_>) -> fmt::Result {
        f.debug_tuple("DateText").field(&self.as_str()).finish()
    }
}

impl fmt::Display for DateText {
    /// The text, in columns as a `str` is.
    fn fmt(&self, f: &mut fmt::Formatter<'_>) -> fmt::Result {
        f.pad(self)
    }
}

impl PartialEq for DateText {
    fn eq(&self, other: &DateText) -> bool {
        self.as_str() == other.as_str()
    }
}

impl Eq for DateText {}

impl PartialEq<str> for DateText {
    fn eq(&self, other: &str) -> bool {
        self.as_str() == other
    }
}

impl PartialEq<&str> for DateText {
    fn eq(&self, other: &&str) -> bool {
        self.as_str() == *other
    }
}

impl Hash for DateText {
    fn hash<H: Hasher>(&self, state: &mut H) {
        self.as_str().hash(state);
    }
}

#[cfg(test)]
mod tests {
    use super::MAX_SHOWN;
    use crate::header::GIT_DATE;

    #[test]
    fn the_most_bytes_are_those_of_the_header() {
        let most = format!("\n#define GIT_DATE_MAX_SHOWN_GIT_TIME {MAX_SHOWN}\n");
        assert!(GIT_DATE.contains(&most));
    }
}
