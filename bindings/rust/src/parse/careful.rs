//! Dates for callers that must not guess.

use crate::{bytes, CarefulError, Moment, RawOffsets, Time};

/// What a date means in which no offset is written: a day alone, or one of Git's own forms such as `2024-01-05 10:00`.
#[derive(Clone, Copy, Debug, Default, PartialEq, Eq, Hash)]
#[non_exhaustive]
pub enum WithoutOffset {
    /// It is in UTC, as for [`parse()`](crate::parse()).
    #[default]
    Utc = 0,
    /// It is in the moment's zone. A time that the zone's clock shows twice is the earlier one, and one that it skips is moved
    /// later.
    MomentsZone = 1,
}

/// Which texts are read.
#[derive(Clone, Copy, Debug, Default, PartialEq, Eq, Hash)]
#[non_exhaustive]
pub enum Texts {
    /// Those that say all that is read, and nothing else.
    ///
    /// Relative texts are `now`, `today`, `yesterday`, and counts with their units, then `ago`: `2 weeks and 3 days ago`, `1.day.ago`.
    /// A count is digits, or `one` to `ten`. A unit is `second`, `minute`, `hour`, `day`, `week`, `month` or `year`, perhaps with
    /// an `s`; no unit may be shortened. Between words may stand white space of ASCII, `,`, `.` and `_`, and `-` directly after a
    /// word. `and` may stand before a count that is not the first. Letters have any case.
    ///
    /// In one of Git's own forms only a fraction of the seconds and an offset may follow the clock. A day of the week has to be that
    /// of the date. Seconds, alone or before an offset, are from 100000000 to the end of the year 9999 by UTC, 253402300799, unless
    /// `@` is before them: other numbers may be dates, or milliseconds.
    #[default]
    Careful = 0,
    /// All that [`parse()`](crate::parse()) reads: `30 min ago` is 30 seconds ago there, and `2024-01-05 10.30` is ten.
    All = 1,
}

/// How [`parse_carefully()`] reads. By default raw offsets are quarters of an hour, dates without an offset are in UTC, and texts
/// have to be careful.
#[derive(Clone, Copy, Debug, Default, PartialEq, Eq, Hash)]
pub struct CarefulOptions {
    /// Which offsets raw texts may have.
    pub raw: RawOffsets,
    /// What a date means in which no offset is written.
    pub without_offset: WithoutOffset,
    /// Which texts are read.
    pub texts: Texts,
}

/// Parses a date as [`parse_with()`](crate::parse_with) does, but refuses it unless each of its characters says something that is
/// used ([`Texts::Careful`]).
///
/// ```
/// use gix_date_proved::{parse_carefully, CarefulError, CarefulOptions, Moment, WithoutOffset};
///
/// let now = Moment::at_offset(1698400800, 7200);
/// let options = CarefulOptions::default();
/// assert_eq!(parse_carefully("2 weeks ago", Some(now.clone()), options)?.seconds, 1697191200);
/// // `min` is no unit.
/// let unclear = parse_carefully("30 min ago", Some(now.clone()), options);
/// assert_eq!(unclear, Err(CarefulError::Unclear(3)));
/// // Behind the hour alone stands no fraction.
/// let dropped = parse_carefully("2024-01-05 10.30", None, options);
/// assert_eq!(dropped, Err(CarefulError::Unclear(13)));
///
/// let local = CarefulOptions {
///     without_offset: WithoutOffset::MomentsZone,
///     ..options
/// };
/// assert_eq!(parse_carefully("2024-01-05 10:00", Some(now), local)?.offset, 7200);
/// # Ok::<(), CarefulError>(())
/// ```
///
/// [`CarefulError::Unclear`] for a text that begins as a date or as a relative text and stops being one, or that
/// [`parse()`](crate::parse()) reads with a guess. [`CarefulError::AfterYear9999`] for a number of seconds above 253402300799, alone
/// or before an offset, without `@`. It may be milliseconds (`1704450600000`), or a date and a clock (`20240105103000`). Else the refusals are those of [`parse()`](crate::parse()), in
/// [`CarefulError::Refused`]. [`Error::MissingNow`](crate::Error::MissingNow) also for a date that
/// has to be in the moment's zone without a moment, and [`Error::Range`](crate::Error::Range) if it has no instant there.
pub fn parse_carefully(
    input: &str,
    now: Option<Moment>,
    options: CarefulOptions,
) -> Result<Time, CarefulError> {
    bytes::parse_carefully(input.as_bytes(), now, options)
}
