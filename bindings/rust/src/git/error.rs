//! Why Git's dates are refused.

use crate::Error;
use std::fmt;

/// Why a call of this module refuses. A place counts bytes from the text's start, and a character of the text begins there.
#[derive(Clone, Copy, Debug, PartialEq, Eq, Hash)]
#[non_exhaustive]
pub enum DateError {
    /// Git reads no date either: the text says no year, month or time of day, or none that Git knows. Never of
    /// [`approxidate()`](super::approxidate); of [`expiry_date()`](super::expiry_date) if nothing is understood.
    Unreadable,
    /// The digits at this place say more than 2147483647, and are neither an epoch nor a fraction. Git cuts such numbers.
    NumberTooLarge(usize),
    /// The date leads back beyond what Git can say, by the word or number at this place. No exact date does.
    BackTooFar(usize),
    /// The date at this place begins with a year that Git refuses, of which it would keep month and day: `1900-02-03`.
    YearRefused(usize),
    /// The date is before 1970-01-01 00:00:00 UTC, or leads to an instant that cannot be computed with. Of
    /// [`show_date()`](super::show_date): Git cannot show the time, or it is beyond what is shown here.
    Range,
    /// The moment is refused ([`Error::InvalidInstant`], [`Error::InvalidZone`], [`Error::ZoneCountsLeapSeconds`]), or memory for its
    /// zone ([`Error::OutOfMemory`]). Of [`show_by_format()`](super::show_by_format) also memory for the text.
    Refused(Error),
}

impl From<Error> for DateError {
    fn from(error: Error) -> DateError {
        DateError::Refused(error)
    }
}

impl fmt::Display for DateError {
    fn fmt(&self, f: &mut fmt::Formatter<'_>) -> fmt::Result {
        match self {
            DateError::Unreadable => f.write_str(
                "not a date with a time of day; expected one such as \"2005-04-07 22:13:13 +0200\"",
            ),
            DateError::NumberTooLarge(place) => {
                write!(f, "the number at byte {place} is too large")
            }
            DateError::BackTooFar(place) => {
                write!(f, "the date at byte {place} leads back too far")
            }
            DateError::YearRefused(place) => {
                write!(
                    f,
                    "the year at byte {place} is refused; expected 1970 to 2099"
                )
            }
            DateError::Range => f.write_str(
                "the date is before 1970 or leads to an instant that cannot be computed with",
            ),
            DateError::Refused(error) => error.fmt(f),
        }
    }
}

impl std::error::Error for DateError {}

/// Why [`show_git_time()`](super::show_git_time) refuses.
#[derive(Clone, Copy, Debug, PartialEq, Eq, Hash)]
#[non_exhaustive]
pub enum OwnDateError {
    /// The clock shows a year after 9999, or no clock of the zone shows the time. Or the moment is before 1970.
    Range,
    /// The time or the line's own clock is before 1970. Git ends: `Timestamp before Unix epoch`.
    BeforeEpoch,
    /// The offset is more than 35791394 minutes, whose seconds 32 bits do not hold.
    OffsetTooWide,
    /// The moment is refused ([`Error::InvalidInstant`], [`Error::InvalidZone`], [`Error::ZoneCountsLeapSeconds`]), or memory for its
    /// zone ([`Error::OutOfMemory`]).
    Refused(Error),
}

impl From<Error> for OwnDateError {
    fn from(error: Error) -> OwnDateError {
        OwnDateError::Refused(error)
    }
}

impl fmt::Display for OwnDateError {
    fn fmt(&self, f: &mut fmt::Formatter<'_>) -> fmt::Result {
        match self {
            OwnDateError::Range => f.write_str(
                "the date is after the year 9999 or leads to an instant that cannot be computed with",
            ),
            OwnDateError::BeforeEpoch => {
                f.write_str("the date is before 1970 by its own clock")
            }
            OwnDateError::OffsetTooWide => f.write_str("the offset is more than 35791394 minutes"),
            OwnDateError::Refused(error) => error.fmt(f),
        }
    }
}

impl std::error::Error for OwnDateError {}

#[cfg(test)]
mod tests {
    use super::*;
    use crate::header::messages;

    #[test]
    fn messages_are_those_of_git_date() {
        let errors = [
            DateError::Unreadable,
            DateError::NumberTooLarge(7),
            DateError::BackTooFar(7),
            DateError::YearRefused(7),
            DateError::Range,
        ];
        let due = messages(include_str!("../../../../crates/git_date/src/error.rt"));
        let due: Vec<_> = due.iter().map(|text| text.replace("{0}", "7")).collect();
        assert_eq!(errors.map(|error| error.to_string()).as_slice(), due);
        let refused = DateError::from(Error::InvalidZone);
        assert_eq!(refused.to_string(), Error::InvalidZone.to_string());
    }

    #[test]
    fn messages_of_lines_are_those_of_git_date() {
        let errors = [
            OwnDateError::Range,
            OwnDateError::BeforeEpoch,
            OwnDateError::OffsetTooWide,
        ];
        let due = messages(include_str!("../../../../crates/git_date/src/show/own.rt"));
        assert_eq!(errors.map(|error| error.to_string()).as_slice(), due);
        let refused = OwnDateError::from(Error::InvalidZone);
        assert_eq!(refused.to_string(), Error::InvalidZone.to_string());
    }
}
