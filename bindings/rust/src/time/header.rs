//! The text of a time in a commit header.

use crate::parse::TimeBuf;
use crate::{Error, OffsetInSeconds, SecondsSinceUnixEpoch, Time};
use std::fmt;
use std::io;

/// The widest offset that a header text can tell, in seconds: 99:59:59.
const MAX_OFFSET: OffsetInSeconds = 359_999;

impl Time {
    /// The last time that can be written in a header.
    pub const MAX: Time = Time::new(SecondsSinceUnixEpoch::MAX, MAX_OFFSET);

    /// The first time that can be written in a header. Its text is the longest one.
    pub const MIN: Time = Time::new(SecondsSinceUnixEpoch::MIN, -MAX_OFFSET);

    /// A time of its seconds and its offset.
    pub const fn new(seconds: SecondsSinceUnixEpoch, offset: OffsetInSeconds) -> Time {
        Time { seconds, offset }
    }

    /// Whether seconds or offset are not 0.
    pub fn is_set(&self) -> bool {
        *self != Time::default()
    }

    /// How many bytes [`Time::write_to()`] writes.
    pub const fn size(&self) -> usize {
        let digits = match self.seconds.unsigned_abs().checked_ilog10() {
            Some(power) => power as usize + 1,
            None => 1,
        };
        // A sign of the seconds, a space, a sign of the offset, and its four digits.
        (self.seconds < 0) as usize + digits + 6
    }

    /// Writes the text of this time in a commit header. Seconds beyond the whole minutes of the offset are dropped.
    ///
    /// Where the offset is 100 hours or more, the error holds [`Error::OffsetTooWide`], and nothing is written.
    pub fn write_to(&self, out: &mut dyn io::Write) -> io::Result<()> {
        let mut buf = TimeBuf::default();
        let text = self.to_str(&mut buf).map_err(io::Error::other)?;
        out.write_all(text.as_bytes())
    }

    /// The text of this time in a commit header. [`Error::OffsetTooWide`] where the offset is 100 hours or more,
    /// [`Error::OutOfMemory`].
    pub fn to_header(&self) -> Result<String, Error> {
        let mut buf = TimeBuf::default();
        let text = self.to_str(&mut buf)?;
        let mut header = String::new();
        header
            .try_reserve_exact(text.len())
            .map_err(|_| Error::OutOfMemory)?;
        header.push_str(text);
        Ok(header)
    }
}

impl fmt::Display for Time {
    /// The text of this time in a commit header. Where the offset is 100 hours or more, it is the seconds alone, as
    /// [`Time::format_or_unix()`] gives them; the crate gix-date panics there.
    fn fmt(&self, f: &mut fmt::Formatter<'_>) -> fmt::Result {
        match self.to_str(&mut TimeBuf::default()) {
            Ok(text) => f.write_str(text),
            Err(_) => write!(f, "{}", self.seconds),
        }
    }
}
