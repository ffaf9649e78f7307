//! Reading times, and the buffer that holds the text of one.

use crate::calls::{self, MAX_HEADER};
use crate::{Error, Time};
use std::fmt;
use std::str::FromStr;

pub(crate) mod careful;
pub(crate) mod function;

/// A buffer for the header text of any time, by which [`Time::to_str()`] takes no memory. It is empty at first.
#[derive(Clone, Default)]
pub struct TimeBuf {
    bytes: [u8; MAX_HEADER],
    len: usize,
}

impl TimeBuf {
    /// The text that [`Time::to_str()`] put here last; the empty text before that, and after a refusal.
    pub fn as_str(&self) -> &str {
        std::str::from_utf8(&self.bytes[..self.len]).expect("the library writes UTF-8")
    }
}

impl fmt::Debug for TimeBuf {
    fn fmt(&self, f: &mut fmt::Formatter<'_>) -> fmt::Result {
        f.debug_tuple("TimeBuf").field(&self.as_str()).finish()
    }
}

impl Time {
    /// Puts the text of this time in a commit header into a buffer, and gives it.
    ///
    /// [`Error::OffsetTooWide`] where the offset is 100 hours or more; the crate gix-date panics there.
    pub fn to_str<'a>(&self, buf: &'a mut TimeBuf) -> Result<&'a str, Error> {
        buf.len = 0;
        buf.len = calls::write_header(self, &mut buf.bytes)?;
        Ok(buf.as_str())
    }
}

impl FromStr for Time {
    type Err = Error;

    /// Reads the time of a commit header, as leniently as [`parse_header()`](crate::parse_header) does.
    /// [`Error::InvalidTime`].
    fn from_str(text: &str) -> Result<Time, Error> {
        crate::parse_header(text).ok_or(Error::InvalidTime)
    }
}
