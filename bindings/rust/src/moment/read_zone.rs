//! Zones that are read once for many calls.

use super::Instant;
use crate::calls::{self, zone::HeldZone};
use crate::git::{
    Approximate, DateError, DateFormat, DateMode, DateText, ExactDate, Expiry, OwnDateError,
};
use crate::lines::{Columns, Done, LineReader};
use crate::signature::GitTime;
use crate::{CarefulError, CarefulOptions, Error, OffsetInSeconds, RawOffsets, Time};
use std::fmt;

/// A zone that the library has read once, for any number of calls. [`Zone::read()`](crate::Zone::read) makes it.
///
/// A call with a [`Moment`](crate::Moment) reads a rule or a file each time, and reading a file takes longer than the call
/// itself. So a program that has many dates reads their zone once.
///
/// ```
/// use gix_date_proved::{Instant, Time, Zone};
///
/// let zone = Zone::Posix("EST5EDT,M3.2.0,M11.1.0".into()).read()?;
/// let now = Instant::at_second(1700000000);
/// assert_eq!(zone.parse("1 hour ago", now)?, Time::new(1699996400, -18000));
/// assert_eq!(zone.approxidate("noon july 1", now)?.time, Time::new(1688230800, -14400));
/// # Ok::<(), Box<dyn std::error::Error>>(())
/// ```
///
/// The methods that read take a `&str` or bytes. They answer and refuse as the calls of the module [`bytes`](crate::bytes) do at
/// a moment in this zone, so an offset beyond 25:59:59 is [`Error::InvalidZone`]. They take no memory.
///
/// Any number of threads may share a zone, as one that is kept for the whole program. Clones share the table of a file.
///
/// ```
/// use gix_date_proved::{ReadZone, Zone};
/// use std::sync::OnceLock;
///
/// static ZONE: OnceLock<ReadZone> = OnceLock::new();
/// let zone = Zone::UTC.read()?;
/// let zone = ZONE.get_or_init(|| zone);
/// # Ok::<(), Box<dyn std::error::Error>>(())
/// ```
pub struct ReadZone(HeldZone);

impl ReadZone {
    pub(super) fn new(held: HeldZone) -> ReadZone {
        ReadZone(held)
    }

    /// The offset at an instant, in seconds east of UTC. [`Error::InvalidInstant`], [`Error::InvalidZone`].
    pub fn offset_at(&self, instant: Instant) -> Result<OffsetInSeconds, Error> {
        self.0.offset_at(instant)
    }

    /// Parses a date as [`parse()`](crate::parse()) does.
    pub fn parse(&self, input: impl AsRef<[u8]>, now: Instant) -> Result<Time, Error> {
        self.parse_with(input, now, RawOffsets::default())
    }

    /// Parses a date as [`parse_with()`](crate::parse_with) does.
    pub fn parse_with(
        &self,
        input: impl AsRef<[u8]>,
        now: Instant,
        raw: RawOffsets,
    ) -> Result<Time, Error> {
        calls::parse_at(input.as_ref(), now, &self.0, raw)
    }

    /// Parses a date as [`parse_carefully()`](crate::parse_carefully) does.
    pub fn parse_carefully(
        &self,
        input: impl AsRef<[u8]>,
        now: Instant,
        options: CarefulOptions,
    ) -> Result<Time, CarefulError> {
        calls::parse_carefully_at(input.as_ref(), now, &self.0, options)
    }

    /// Reads a date as [`git::parse_date()`](crate::git::parse_date) does.
    pub fn parse_date(
        &self,
        input: impl AsRef<[u8]>,
        now: Instant,
    ) -> Result<ExactDate, DateError> {
        calls::git::parse_date(input.as_ref(), now, &self.0)
    }

    /// Reads a date as [`git::approxidate()`](crate::git::approxidate) does.
    pub fn approxidate(
        &self,
        input: impl AsRef<[u8]>,
        now: Instant,
    ) -> Result<Approximate, DateError> {
        calls::git::approxidate(input.as_ref(), now, &self.0)
    }

    /// Reads what expires as [`git::expiry_date()`](crate::git::expiry_date) does.
    pub fn expiry_date(&self, input: impl AsRef<[u8]>, now: Instant) -> Result<Expiry, DateError> {
        calls::git::expiry_date(input.as_ref(), now, &self.0)
    }

    /// A date as [`git::show_date()`](crate::git::show_date) shows it.
    pub fn show_date(
        &self,
        time: Time,
        mode: DateMode,
        now: Instant,
    ) -> Result<DateText, DateError> {
        DateText::shown(time, mode, now, &self.0)
    }

    /// The date of an identity line as [`git::show_git_time()`](crate::git::show_git_time) shows it.
    pub fn show_git_time(
        &self,
        time: GitTime,
        mode: DateMode,
        now: Instant,
    ) -> Result<DateText, OwnDateError> {
        DateText::of_line(time, mode, now, &self.0)
    }

    /// A date as [`git::show_by_format()`](crate::git::show_by_format) shows it.
    pub fn show_by_format(
        &self,
        time: Time,
        format: DateFormat<'_>,
        local: bool,
    ) -> Result<String, DateError> {
        calls::git::show_by_format(&time, format.as_str(), local, &self.0)
    }

    /// Reads each line of a block as [`parse_lines()`](crate::lines::parse_lines) does, at a moment. Headers and signature lines
    /// need none.
    pub fn parse_lines(
        &self,
        block: &[u8],
        reader: LineReader,
        now: Instant,
        columns: Columns<'_>,
    ) -> Done {
        calls::lines::parse_lines_at(block, reader, now, &self.0, columns)
    }

    /// Reads each line of a block as [`git::parse_date()`](crate::git::parse_date) does.
    pub fn parse_date_lines(&self, block: &[u8], now: Instant, columns: Columns<'_>) -> Done {
        calls::lines::parse_date_lines(block, now, &self.0, columns)
    }

    /// Reads each line of a block as [`git::approxidate()`](crate::git::approxidate) does. A line of which nothing is understood is
    /// the moment.
    pub fn approxidate_lines(&self, block: &[u8], now: Instant, columns: Columns<'_>) -> Done {
        calls::lines::approxidate_lines(block, now, &self.0, columns)
    }

    /// The same zone once more. [`Error::OutOfMemory`].
    pub fn try_clone(&self) -> Result<ReadZone, Error> {
        self.0.copied().map(ReadZone)
    }
}

impl Clone for ReadZone {
    /// As [`ReadZone::try_clone()`].
    ///
    /// # Panics
    ///
    /// Where memory is refused.
    fn clone(&self) -> ReadZone {
        self.try_clone()
            .unwrap_or_else(|error| panic!("a zone cannot be cloned: {error}"))
    }
}

impl fmt::Debug for ReadZone {
    /// The name of the type alone, since the library tells nothing of a zone.
    fn fmt(&self, f: &mut fmt::Formatter<'_>) -> fmt::Result {
        f.debug_struct("ReadZone").finish_non_exhaustive()
    }
}
