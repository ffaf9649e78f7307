//! The calls that read a `&str`.

use crate::{bytes, Error, Moment, Time};

/// Which offsets a raw text (`1660797906 +0800`) may have.
#[derive(Clone, Copy, Debug, Default, PartialEq, Eq, Hash)]
#[non_exhaustive]
pub enum RawOffsets {
    /// Quarters of an hour up to 14:45, which is the rule of [`parse()`].
    #[default]
    Quarter = 0,
    /// Whole minutes up to 23:59.
    WholeMinutes = 1,
}

/// Parses a date in one of the forms that `docs/SPECIFICATION.md` lists. A relative date counts from the moment `now`, by the
/// clock of its zone.
///
/// ```
/// use gix_date_proved::{parse, Error, Moment};
///
/// let time = parse("Thu, 18 Aug 2022 12:45:06 +0800", None)?;
/// assert_eq!(time.offset, 8 * 60 * 60);
/// assert_eq!(parse("2 weeks ago", Some(Moment::at_offset(1698400800, 7200)))?.seconds, 1697191200);
/// assert_eq!(parse("2 weeks ago", None), Err(Error::MissingNow));
/// # Ok::<(), Error>(())
/// ```
///
/// [`Error::UnknownFormat`], [`Error::DateConversion`]; of a relative date [`Error::MissingNow`] and [`Error::Range`]; of the
/// moment [`Error::InvalidInstant`], [`Error::InvalidZone`], [`Error::ZoneCountsLeapSeconds`] and, in a zone that is no offset,
/// [`Error::OutOfMemory`].
pub fn parse(input: &str, now: Option<Moment>) -> Result<Time, Error> {
    bytes::parse(input.as_bytes(), now)
}

/// Parses a date as [`parse()`] does, by a rule for the offsets of raw texts.
pub fn parse_with(input: &str, now: Option<Moment>, raw: RawOffsets) -> Result<Time, Error> {
    bytes::parse_with(input.as_bytes(), now, raw)
}

/// Reads the time of a commit header, leniently: `12abc` is 12, 0. `None` where the text is no time.
///
/// ```
/// use gix_date_proved::{parse_header, Time};
///
/// assert_eq!(parse_header("1660797906 +0800"), Some(Time::new(1660797906, 28800)));
/// assert_eq!(parse_header("yesterday"), None);
/// ```
pub fn parse_header(input: &str) -> Option<Time> {
    bytes::parse_header(input.as_bytes()).ok()
}

/// Whether a text comes back byte for byte when it is read as a header and written.
pub fn is_canonical_header(input: &str) -> bool {
    bytes::is_canonical_header(input.as_bytes())
}
