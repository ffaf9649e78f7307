//! Dates as Git 2.39.5 itself reads and shows them, which the crate gix-date does not have.
//!
//! - [`parse_date()`]: exact dates, as in `GIT_COMMITTER_DATE`, in mails, and nearly all of `git commit --date`
//! - [`approxidate()`]: dates as people write them, as Git reads `--since` and `REF@{..}`
//! - [`expiry_date()`]: what expires, as in `gc.pruneExpire`
//! - [`show_date()`]: a date as `git log --date=MODE` shows it
//! - [`show_git_time()`]: the same of an identity line's date, with the offset that the line writes
//! - [`show_by_format()`]: a date as `git log --date=format:FORMAT` shows it
//! - [`parse_offset()`], [`offset_text()`]: an offset alone, as `+0530`
//!
//! In every zone each answer is Git's, as it reads the first date of a process, or a refusal by name ([`DateError`]); but a zone that
//! is a rule changes before 1970 too. `docs/GIT_DATES.md` has the rules. Seconds count from 1970-01-01 00:00:00 UTC, an offset is seconds
//! east of UTC, and a place counts bytes from the text's start. Memory is taken only for the zone of a moment that is no
//! offset, and by [`show_by_format()`]. The module [`bytes`] has the calls that read for `&[u8]`, and
//! [`ReadZone`](crate::ReadZone) those for a zone that is read once.
//!
//! ```
//! use gix_date_proved::git::{approxidate, parse_date, show_date};
//! use gix_date_proved::Moment;
//!
//! // 2009-08-30 19:20:00 UTC, a Sunday
//! let now = Moment::at_offset(1251660000, 0);
//! let time = parse_date("Thu, 07 Apr 2005 22:13:13 +0200", &now)?.time;
//! assert_eq!(time.to_string(), "1112904793 +0200");
//! assert_eq!(show_date(time, "human".parse()?, &now)?, "Apr 7 2005");
//!
//! // Git knows no `mins`, so this is the fifth of the month.
//! let text = "5 mins ago";
//! let date = approxidate(text, &now)?;
//! assert_eq!(date.time.seconds, 1249500000);
//! assert_eq!(date.ignored.map(|place| &text[place..]), Some("mins ago"));
//! # Ok::<(), Box<dyn std::error::Error>>(())
//! ```

mod age;
mod error;
mod format;
mod mode;
mod offset;
mod text;

pub use age::{age_at, Age};
pub use error::{DateError, OwnDateError};
pub use format::{DateFormat, FormatFault};
pub use mode::{DateKind, DateMode, UnknownMode};
pub use offset::{offset_from_decimal, offset_text, offset_to_decimal, parse_offset};
pub use text::DateText;
pub(crate) use text::MAX_SHOWN;

use crate::signature::GitTime;
use crate::{bytes, Moment, Time};

/// What [`parse_date()`] reads.
#[derive(Clone, Copy, Debug, PartialEq, Eq, Hash)]
pub struct ExactDate {
    /// The time. Its offset has whole minutes.
    pub time: Time,
    /// Whether the text names its offset, as `+0200`, `Z` or `EST`, so that each zone gives the same date. As in Git, `-0001` names
    /// none, but after `@` it does.
    pub has_offset: bool,
    /// The place of the first word, number or sign of an offset that no rule used, so that a program can say so; else that of
    /// a NUL, which ends the text.
    ///
    /// Not counted are other marks, `ago`, `at`, `on`, `of`, `the`, `and`, the ending of a number as in `7th`, and one `T` between
    /// digits. A day of the week is used, though it is not compared.
    pub ignored: Option<usize>,
}

/// What [`approxidate()`] makes of a text.
#[derive(Clone, Copy, Debug, PartialEq, Eq, Hash)]
pub struct Approximate {
    /// The time. Its offset is the zone's, or the one that an exact date says.
    pub time: Time,
    /// Whether anything was understood, by Git's own count. If not, the time is the moment in whole seconds, if the
    /// zone's clock finds it again: an hour off where that shows it twice, and near it in the last days of 9999.
    pub understood: bool,
    /// The place of the first word, number or sign of an offset that no rule used, as in [`ExactDate::ignored`].
    pub ignored: Option<usize>,
}

/// What expires by a text such as `gc.pruneExpire` has.
#[derive(Clone, Copy, Debug, PartialEq, Eq, Hash)]
pub enum Expiry {
    /// Nothing.
    Never,
    /// All, however new it is.
    All,
    /// What is older than this date.
    Before(Approximate),
}

/// Reads a date as Git's exact reader does. A text without an offset has that of the moment's zone, in folds and gaps as Git finds
/// it.
///
/// The instant matters only to a date such as `7/4/2009` after a clock, which is refused if it is more than ten days ahead.
///
/// ```
/// use gix_date_proved::git::{parse_date, DateError};
/// use gix_date_proved::{Moment, Time};
///
/// let now = Moment::at_offset(1251660000, 0);
/// let date = parse_date("2008-02-14 20:30:45 EST", &now)?;
/// assert_eq!((date.time, date.ignored), (Time::new(1203039045, -18000), None));
/// assert!(date.has_offset);
/// // `IST` is no zone that Git knows, so the moment's is taken.
/// let date = parse_date("2008-02-14 20:30:45 IST", &now)?;
/// assert_eq!((date.time, date.ignored), (Time::new(1203021045, 0), Some(20)));
/// assert!(!date.has_offset);
/// // There is no clock.
/// assert_eq!(parse_date("2008-02-14", &now), Err(DateError::Unreadable));
/// # Ok::<(), DateError>(())
/// ```
///
/// [`DateError::Unreadable`], [`DateError::NumberTooLarge`], [`DateError::YearRefused`], [`DateError::Range`], and
/// [`DateError::Refused`] of the moment.
pub fn parse_date(input: &str, now: &Moment) -> Result<ExactDate, DateError> {
    bytes::parse_date(input.as_bytes(), now)
}

/// Reads a date as people write it, as Git reads `--since`, `--until` and `REF@{..}`.
///
/// A text that [`parse_date()`] reads has its answer. In any other the words and numbers change the moment's clock and date one
/// after the other, in its zone. Git passes over each word that it does not know; [`Approximate::ignored`] tells of that.
///
/// ```
/// use gix_date_proved::git::{approxidate, DateError};
/// use gix_date_proved::Moment;
///
/// let now = Moment::at_offset(1251660000, 0);
/// let friday = approxidate("last friday at noon", &now)?;
/// assert_eq!((friday.time.seconds, friday.ignored), (1251460800, None));
/// // Without a number Git knows no day of the week.
/// let friday = approxidate("friday", &now)?;
/// assert_eq!((friday.time.seconds, friday.ignored), (now.seconds, Some(0)));
/// assert!(!friday.understood);
/// # Ok::<(), DateError>(())
/// ```
///
/// [`DateError::BackTooFar`], and the refusals of [`parse_date()`] but for [`DateError::Unreadable`]. [`DateError::Range`] also
/// at a moment before 1900.
pub fn approxidate(input: &str, now: &Moment) -> Result<Approximate, DateError> {
    bytes::approxidate(input.as_bytes(), now)
}

/// Reads what expires, as Git reads `gc.pruneExpire` and `reflog expire --expire=`.
///
/// `never` and `false` are [`Expiry::Never`], `all` and `now` are [`Expiry::All`]: these words alone, in small letters. Any other
/// text is a date of [`approxidate()`].
///
/// ```
/// use gix_date_proved::git::{expiry_date, DateError, Expiry};
/// use gix_date_proved::Moment;
///
/// let now = Moment::at_offset(1251660000, 0);
/// assert_eq!(expiry_date("never", &now)?, Expiry::Never);
/// match expiry_date("2.weeks.ago", &now)? {
///     Expiry::Before(date) => assert_eq!(date.time.seconds, 1250450400),
///     other => panic!("{other:?}"),
/// }
/// assert_eq!(expiry_date("friday", &now), Err(DateError::Unreadable));
/// # Ok::<(), DateError>(())
/// ```
///
/// The refusals of [`approxidate()`], and [`DateError::Unreadable`] if nothing was understood.
pub fn expiry_date(input: &str, now: &Moment) -> Result<Expiry, DateError> {
    bytes::expiry_date(input.as_bytes(), now)
}

/// A date as `git log --date=MODE` shows it at this moment.
///
/// A mode that is local shows the clock of the moment's zone. Git says the offset of that clock in whole minutes, and as 0 in
/// years outside 1970 to 2099. Other modes show the time's own clock. [`DateKind::Default`] shows no offset of a local clock, nor
/// of an unknown one (`-0001`).
///
/// ```
/// use gix_date_proved::git::{show_date, DateError, DateKind, DateMode};
/// use gix_date_proved::{Moment, Time};
///
/// let now = Moment::at_offset(1251660000, 0);
/// let mode = DateMode { kind: DateKind::Iso8601, local: false };
/// assert_eq!(show_date(Time::new(1251300000, 7200), mode, &now)?, "2009-08-26 17:20:00 +0200");
/// let local = DateMode { local: true, ..mode };
/// assert_eq!(show_date(Time::new(1251300000, 7200), local, &now)?, "2009-08-26 15:20:00 +0000");
/// assert_eq!(show_date(Time::new(-1, 0), mode, &now), Err(DateError::Range));
/// # Ok::<(), DateError>(())
/// ```
///
/// [`DateError::Range`] for these:
/// - in every mode, a time before 1970
/// - [`DateKind::Relative`] and [`DateKind::Human`], local or not: a moment whose whole seconds are before 1970, where Git's ages
///   wrap
/// - [`DateKind::Raw`] and all kinds with a clock, unless local: an offset with seconds, or of 100 hours or more
/// - kinds with a clock, unless local: a clock before 1970; a time or a clock after the year 9999
/// - the same kinds and [`DateKind::Raw`], if local: a time after 9999-12-30 22:00:00 UTC
///
/// Git itself shows offsets of 100 hours and years above 9999. All kinds but [`DateKind::Relative`], [`DateKind::Unix`] and
/// [`DateKind::Raw`] have a clock. [`DateError::Refused`] of the moment.
pub fn show_date(time: Time, mode: DateMode, now: &Moment) -> Result<DateText, DateError> {
    now.zone.read()?.show_date(time, mode, now.instant())
}

/// The time of an identity line as `git log --date=MODE` shows it at this moment: by the line's own clock, and with the offset as
/// it is written. `+0060` stays `+0060`, where [`show_date()`] says `+0100`, and `+051800` is `+51800`.
///
/// A mode that is local, [`DateKind::Relative`] and [`DateKind::Unix`] show what [`show_date()`] shows of the seconds.
/// [`DateKind::Raw`] shows each offset, [`DateKind::Default`] each but `-0001`. [`DateKind::Human`] shows an offset that is written
/// otherwise than that of the zone at this moment.
///
/// ```
/// use gix_date_proved::git::{show_git_time, OwnDateError};
/// use gix_date_proved::signature::IdentRef;
/// use gix_date_proved::Moment;
///
/// let now = Moment::at_offset(1251660000, 0);
/// let shown = IdentRef::from_bytes(b"A <a> 1251300000 +0060").unwrap().date.unwrap().shown;
/// assert_eq!(show_git_time(shown, "iso".parse()?, &now)?, "2009-08-26 16:20:00 +0060");
/// let early = IdentRef::from_bytes(b"A <a> 0 -0100").unwrap().date.unwrap().shown;
/// assert_eq!(show_git_time(early, "iso".parse()?, &now), Err(OwnDateError::BeforeEpoch));
/// # Ok::<(), Box<dyn std::error::Error>>(())
/// ```
///
/// - [`OwnDateError::BeforeEpoch`]: seconds below 0, which no line says. Of kinds with a clock, unless local, also a clock before
///   1970: here Git ends
/// - [`OwnDateError::OffsetTooWide`]: of the same kinds, an offset of more than 35791394 minutes either way
/// - [`OwnDateError::Range`]: of the same kinds, a clock after the year 9999, which Git shows; and where [`show_date()`] refuses
///   seconds from 0 on: in local modes after 9999-12-30 22:00:00 UTC, and ages and human dates at a moment before 1970
/// - [`OwnDateError::Refused`]: of the moment
pub fn show_git_time(
    time: GitTime,
    mode: DateMode,
    now: &Moment,
) -> Result<DateText, OwnDateError> {
    now.zone.read()?.show_git_time(time, mode, now.instant())
}

/// A date as `git log --date=format:FORMAT` shows it, or `--date=format-local:FORMAT` by the clock of the moment's zone.
///
/// Of a local clock `%Z` is the zone's abbreviation. A time's own clock has none: there `%Z` is nothing. Names are English.
///
/// ```
/// use gix_date_proved::git::{show_by_format, DateError, DateFormat};
/// use gix_date_proved::{Moment, Time};
///
/// let (now, time) = (Moment::at_offset(1251660000, 0), Time::new(1251300000, 7200));
/// let format = DateFormat::new("%a %-d %B %Y, %H:%M %z")?;
/// assert_eq!(show_by_format(time, format, false, &now)?, "Wed 26 August 2009, 17:20 +0200");
/// assert_eq!(show_by_format(time, format, true, &now)?, "Wed 26 August 2009, 15:20 +0000");
/// assert_eq!(show_by_format(Time::new(-1, 0), format, false, &now), Err(DateError::Range));
/// # Ok::<(), Box<dyn std::error::Error>>(())
/// ```
///
/// [`DateError::Range`] where [`show_date()`] refuses a clock, and if `%s` is asked of a clock outside the years 1970 to 2099.
/// [`DateError::Refused`] of the moment, and of memory for the text.
pub fn show_by_format(
    time: Time,
    format: DateFormat<'_>,
    local: bool,
    now: &Moment,
) -> Result<String, DateError> {
    now.zone.read()?.show_by_format(time, format, local)
}
