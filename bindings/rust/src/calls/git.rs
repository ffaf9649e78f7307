//! The calls for Git's dates.

use super::zone::HeldZone;
use super::{text_or, FORMAT_ROOM, NO_SUCH_OPTION, OK};
use crate::ffi::{CGitTime, CZone};
use crate::git::{
    Age, Approximate, DateError, DateKind, DateMode, ExactDate, Expiry, FormatFault, OwnDateError,
    UnknownMode, MAX_SHOWN,
};
use crate::git_ffi::{self as ffi, CAge, CApproximate, CExact, CExpiry, CMode};
use crate::signature::GitTime;
use crate::{Error, Instant, OffsetInSeconds, Time};

/// A call that reads a date.
type Reader<T> =
    unsafe extern "C" fn(*const u8, usize, *const Instant, *const CZone, *mut T, *mut usize) -> u32;

/// What one of the three readers reads.
fn read<T: Default>(
    reader: Reader<T>,
    text: &[u8],
    now: Instant,
    zone: &HeldZone,
) -> Result<T, DateError> {
    let (mut date, mut place) = (T::default(), 0);
    let (start, len) = (text.as_ptr(), text.len());
    // SAFETY: readers are the three below. The text is valid for its length, instant and zone are valid, and the date and the place
    // are places of their own.
    let status = unsafe { reader(start, len, &now, zone.place(), &mut date, &mut place) };
    stored(status, date, place)
}

/// What a call stored, or its refusal at a place.
fn stored<T>(status: u32, value: T, place: usize) -> Result<T, DateError> {
    Err(match status {
        OK => return Ok(value),
        18 => DateError::Unreadable,
        19 => DateError::NumberTooLarge(place),
        20 => DateError::BackTooFar(place),
        21 => DateError::YearRefused(place),
        22 => DateError::Range,
        status => DateError::Refused(Error::of_status(status)),
    })
}

/// The place where nothing was ignored.
const NOTHING: usize = usize::MAX;

fn place_of(ignored: usize) -> Option<usize> {
    (ignored != NOTHING).then_some(ignored)
}

impl From<CExact> for ExactDate {
    fn from(date: CExact) -> ExactDate {
        ExactDate {
            time: date.time,
            has_offset: date.has_offset,
            ignored: place_of(date.ignored),
        }
    }
}

impl From<CApproximate> for Approximate {
    fn from(date: CApproximate) -> Approximate {
        Approximate {
            time: date.time,
            understood: date.understood,
            ignored: place_of(date.ignored),
        }
    }
}

impl From<CExpiry> for Expiry {
    fn from(expiry: CExpiry) -> Expiry {
        match expiry.kind {
            0 => Expiry::Never,
            1 => Expiry::All,
            2 => Expiry::Before(expiry.before.into()),
            kind => unreachable!("the library has no kind {kind} of what expires"),
        }
    }
}

pub(crate) fn parse_date(
    text: &[u8],
    now: Instant,
    zone: &HeldZone,
) -> Result<ExactDate, DateError> {
    read(ffi::git_date_parse_at, text, now, zone).map(ExactDate::from)
}

pub(crate) fn approxidate(
    text: &[u8],
    now: Instant,
    zone: &HeldZone,
) -> Result<Approximate, DateError> {
    read(ffi::git_date_approxidate_at, text, now, zone).map(Approximate::from)
}

pub(crate) fn expiry_date(text: &[u8], now: Instant, zone: &HeldZone) -> Result<Expiry, DateError> {
    read(ffi::git_date_expiry_at, text, now, zone).map(Expiry::from)
}

/// The mode of a name. A kind that only a later library has is unknown here.
pub(crate) fn mode_named(name: &str) -> Result<DateMode, UnknownMode> {
    let mut mode = CMode::default();
    // SAFETY: the name is valid for its length, and the mode is a place of its own.
    let status = unsafe { ffi::git_date_mode_named(name.as_ptr(), name.len(), &mut mode) };
    match status {
        OK => Ok(DateMode {
            kind: DateKind::of_number(mode.kind).ok_or(UnknownMode)?,
            local: mode.local,
        }),
        NO_SUCH_OPTION => Err(UnknownMode),
        status => unreachable!("the library answers no status {status} here"),
    }
}

impl From<DateMode> for CMode {
    fn from(mode: DateMode) -> CMode {
        CMode {
            kind: mode.kind as u32,
            local: mode.local,
        }
    }
}

/// The length of the text that now stands at the front of the buffer, which has room for each.
pub(crate) fn show_date(
    time: &Time,
    mode: DateMode,
    now: Instant,
    zone: &HeldZone,
    out: &mut [u8; MAX_SHOWN],
) -> Result<usize, DateError> {
    let mode = mode.into();
    let (out, room, mut len) = (out.as_mut_ptr(), out.len(), 0);
    // SAFETY: time, mode, instant and zone are valid, and the buffer, of the length given, and the length are places of their
    // own.
    let status =
        unsafe { ffi::git_date_show_at(time, &mode, &now, zone.place(), out, room, &mut len) };
    stored(status, len, 0)
}

/// The same of the date of an identity line.
pub(crate) fn show_git_time(
    time: GitTime,
    mode: DateMode,
    now: Instant,
    zone: &HeldZone,
    out: &mut [u8; MAX_SHOWN],
) -> Result<usize, OwnDateError> {
    let (time, mode) = (CGitTime::from(time), mode.into());
    let (zone, out, room, mut len) = (zone.place(), out.as_mut_ptr(), out.len(), 0);
    // SAFETY: time, mode, instant and zone are valid, and the buffer, of the length given, and the length are places of their
    // own.
    let status =
        unsafe { ffi::git_date_show_git_time_at(&time, &mode, &now, zone, out, room, &mut len) };
    own_stored(status, len)
}

/// What such a call stored, or its refusal.
fn own_stored<T>(status: u32, value: T) -> Result<T, OwnDateError> {
    Err(match status {
        OK => return Ok(value),
        12 => OwnDateError::OffsetTooWide,
        22 => OwnDateError::Range,
        31 => OwnDateError::BeforeEpoch,
        status => OwnDateError::Refused(Error::of_status(status)),
    })
}

/// Puts what a format shows into a buffer, and answers the status.
fn put_by_format(
    time: &Time,
    format: &str,
    local: bool,
    zone: &HeldZone,
    out: &mut [u8],
    len: &mut usize,
    place: &mut usize,
) -> u32 {
    let (start, size) = (format.as_ptr(), format.len());
    let (zone, out, room) = (zone.place(), out.as_mut_ptr(), out.len());
    // SAFETY: time and zone are valid, the format is for its length, and the buffer, of the length given, the length and the place
    // are places of their own.
    unsafe { ffi::git_date_show_by_format(time, start, size, local, zone, out, room, len, place) }
}

/// The fault of a status at a place.
fn fault_of(status: u32, place: usize) -> Option<FormatFault> {
    match status {
        24 => Some(FormatFault::FlagRefused(place)),
        25 => Some(FormatFault::UnknownDirective(place)),
        26 => Some(FormatFault::WidthTooLarge(place)),
        _ => None,
    }
}

/// The first fault of a format, which the library tells before all else: also where there is no room, or no memory.
pub(crate) fn format_fault(format: &str) -> Option<FormatFault> {
    let (time, zone) = (Time::default(), HeldZone::at_offset(0));
    let (mut len, mut place) = (0, 0);
    let status = put_by_format(&time, format, false, &zone, &mut [], &mut len, &mut place);
    fault_of(status, place)
}

/// What a format without fault shows.
pub(crate) fn show_by_format(
    time: &Time,
    format: &str,
    local: bool,
    zone: &HeldZone,
) -> Result<String, DateError> {
    text_or(
        FORMAT_ROOM,
        |out, len| put_by_format(time, format, local, zone, out, len, &mut 0),
        |status| stored(status, (), 0),
    )
}

/// An age of this unit. The last number is that of a later time.
fn age_of(age: CAge) -> Option<Age> {
    Some(match age.unit {
        0 => Age::Seconds(age.count),
        1 => Age::Minutes(age.count),
        2 => Age::Hours(age.count),
        3 => Age::Days(age.count),
        4 => Age::Weeks(age.count),
        5 => Age::Months(age.count),
        6 => Age::Years(age.count, age.months),
        7 => return None,
        unit => unreachable!("the library has no unit {unit} of ages"),
    })
}

pub(crate) fn age_at(time: &Time, now: Instant) -> Result<Option<Age>, DateError> {
    let mut age = CAge::default();
    // SAFETY: time and instant are valid, and the age is a place of its own.
    let status = unsafe { ffi::git_date_age_at(time, &now, &mut age) };
    stored(status, age, 0).map(age_of)
}

pub(crate) fn parse_offset(text: &[u8]) -> Result<OffsetInSeconds, Error> {
    let mut offset = 0;
    // SAFETY: the text is valid for its length, and the offset is a place of its own.
    let status = unsafe { ffi::git_date_parse_offset(text.as_ptr(), text.len(), &mut offset) };
    super::stored(status, offset)
}

/// The length of an offset's text that now stands at the front of the buffer, which has room for each.
pub(crate) fn offset_text(offset: OffsetInSeconds, out: &mut [u8; MAX_SHOWN]) -> usize {
    let mut len = 0;
    // SAFETY: the buffer, of the length given, and the length are places of their own.
    let status =
        unsafe { ffi::git_date_offset_text(offset, out.as_mut_ptr(), out.len(), &mut len) };
    debug_assert_eq!(status, OK);
    len
}

pub(crate) fn offset_from_decimal(decimal: i32) -> OffsetInSeconds {
    // SAFETY: the call takes a number.
    unsafe { ffi::git_date_offset_from_decimal(decimal) }
}

pub(crate) fn offset_to_decimal(offset: OffsetInSeconds) -> i32 {
    // SAFETY: the call takes a number.
    unsafe { ffi::git_date_offset_to_decimal(offset) }
}

#[cfg(test)]
mod tests {
    use super::*;
    use crate::header::{numbers, GIT_DATE, GIX_DATE};

    #[test]
    fn each_status_is_its_error() {
        let statuses = numbers(GIT_DATE, "git_date_status", "GIT_DATE_");
        assert_eq!(statuses.len(), 8);
        for (name, number) in statuses {
            if let Some(fault) = fault_of(number, 7) {
                assert_eq!(format!("{fault:?}"), format!("{name}(7)"));
                continue;
            }
            let error = format!("{:?}", stored(number, (), 7).unwrap_err());
            assert_eq!(error.trim_end_matches("(7)"), name);
            let has_place = ["NumberTooLarge", "BackTooFar", "YearRefused"];
            assert_eq!(error.ends_with("(7)"), has_place.contains(&&*name));
        }
        assert_eq!(stored(OK, 5, 7), Ok(5));
        assert_eq!(stored(9, 5, 7), Err(Error::InvalidInstant.into()));
    }

    #[test]
    fn statuses_of_a_date_of_a_line_are_its_errors() {
        let of_headers = [
            numbers(GIX_DATE, "gix_date_status", "GIX_DATE_"),
            numbers(GIT_DATE, "git_date_status", "GIT_DATE_"),
        ]
        .concat();
        let due = [
            ("BeforeEpoch", OwnDateError::BeforeEpoch),
            ("OffsetTooWide", OwnDateError::OffsetTooWide),
            ("Range", OwnDateError::Range),
        ];
        for (name, error) in due {
            let (_, number) = of_headers.iter().rfind(|(of, _)| of == name).unwrap();
            assert_eq!(own_stored(*number, ()), Err(error));
        }
        assert_eq!(own_stored(OK, 5), Ok(5));
        assert_eq!(own_stored(10, 5), Err(Error::InvalidZone.into()));
    }

    #[test]
    fn each_kind_of_what_expires_has_its_number() {
        let kinds = numbers(GIT_DATE, "git_date_expiry_kind", "GIT_DATE_");
        assert_eq!(kinds.len(), 3);
        for (name, kind) in kinds {
            let before = CApproximate::default();
            let expiry = format!("{:?}", Expiry::from(CExpiry { kind, before }));
            assert_eq!(expiry.split('(').next(), Some(&*name));
        }
    }

    #[test]
    fn each_unit_of_ages_has_its_number() {
        let units = numbers(GIT_DATE, "git_date_unit", "GIT_DATE_");
        assert_eq!(units.len(), 8);
        for (name, unit) in units {
            let (count, months) = (5, 0);
            let age = age_of(CAge {
                unit,
                count,
                months,
            });
            match age.map(|age| format!("{age:?}")) {
                Some(age) => assert_eq!(age.split('(').next(), Some(&*name)),
                None => assert_eq!(name, "Future"),
            }
        }
    }

    #[test]
    fn nothing_has_the_place_of_the_header() {
        assert!(GIT_DATE.contains("\n#define GIT_DATE_NOTHING SIZE_MAX\n"));
        assert_eq!(place_of(NOTHING), None);
        assert_eq!(place_of(0), Some(0));
    }
}
