//! Why a call refuses.

use std::fmt;

/// Why a call refuses: the statuses of `include/gix_date.h`, but for those that the types of this crate rule out.
#[derive(Clone, Copy, Debug, PartialEq, Eq, Hash)]
#[non_exhaustive]
pub enum Error {
    /// The bytes are not UTF-8.
    NotText,
    /// The text is no time of a header.
    InvalidTime,
    /// No form that a date may have holds the text, or its offset is above 23:59.
    UnknownFormat,
    /// The day's midnight in UTC is no instant that can be computed with.
    DateConversion,
    /// The text is relative to a moment or a date in its zone, and none was given.
    MissingNow,
    /// The relative text names an instant that cannot be computed, or a date in the moment's zone has none.
    Range,
    /// The moment is outside the instants that can be computed with.
    InvalidInstant,
    /// The offset is beyond 25:59:59, or the rule or the file of the zone cannot be read.
    InvalidZone,
    /// The seconds or the offset are outside what a civil date can be computed for.
    Conversion,
    /// The offset is 100 hours or more, or more than 35791394 minutes in an identity line.
    OffsetTooWide,
    /// The pattern cannot be printed.
    Pattern,
    /// Memory was asked for and refused.
    OutOfMemory,
    /// The line is no signature line.
    NoSignature,
    /// The name or the email holds `<`, `>`, a newline or NUL.
    BadPart,
    /// The name or the email of an identity line to write holds NUL.
    NulInPart,
    /// The name has no bytes.
    EmptyName,
    /// The name holds only bytes that Git cuts off its ends.
    OnlyCrud,
    /// The time is before 1970, so Git cannot write it.
    BeforeEpoch,
    /// The file of the zone counts leap seconds, which no time of Git does.
    ZoneCountsLeapSeconds,
}

impl Error {
    /// The refusal of a status that is neither `GIX_DATE_OK` nor one that only careful calls answer.
    pub(crate) fn of_status(status: u32) -> Error {
        match status {
            1 => Error::NotText,
            4 => Error::InvalidTime,
            5 => Error::UnknownFormat,
            6 => Error::DateConversion,
            7 => Error::MissingNow,
            8 => Error::Range,
            9 => Error::InvalidInstant,
            10 => Error::InvalidZone,
            11 => Error::Conversion,
            12 => Error::OffsetTooWide,
            13 => Error::Pattern,
            14 => Error::OutOfMemory,
            15 => Error::NoSignature,
            16 => Error::BadPart,
            28 => Error::NulInPart,
            29 => Error::EmptyName,
            30 => Error::OnlyCrud,
            31 => Error::BeforeEpoch,
            32 => Error::ZoneCountsLeapSeconds,
            status => unreachable!("the library answers no status {status} here"),
        }
    }
}

impl fmt::Display for Error {
    fn fmt(&self, f: &mut fmt::Formatter<'_>) -> fmt::Result {
        f.write_str(match self {
            Error::NotText => "the bytes are not UTF-8",
            Error::InvalidTime => "not a time: expected seconds since 1970, perhaps an offset such as +0100, and no colon",
            Error::UnknownFormat => "no known date format",
            Error::DateConversion => "the date is beyond the last instant that can be computed with",
            Error::MissingNow => "the date needs a moment, and none was given",
            Error::Range => "the date leads to an instant that cannot be computed with",
            Error::InvalidInstant => "the moment is no instant that can be computed with",
            Error::InvalidZone => "the zone of the moment cannot be read, or its offset is beyond 25:59:59",
            Error::Conversion => "the time is too far from 1970, or its offset from UTC is beyond 25:59:59",
            Error::OffsetTooWide => "an offset of 100 hours or more from UTC cannot be written",
            Error::Pattern => "the pattern cannot be printed",
            Error::OutOfMemory => "out of memory",
            Error::NoSignature => "not a signature line: expected a name, <, an email, > and a time",
            Error::BadPart => "a name or an email holds <, >, a newline or NUL",
            Error::NulInPart => "a name or an email holds NUL",
            Error::EmptyName => "the name is empty",
            Error::OnlyCrud => "the name consists only of disallowed characters",
            Error::BeforeEpoch => "a time before 1970 cannot be written or shown",
            Error::ZoneCountsLeapSeconds => "the file of the zone counts leap seconds",
        })
    }
}

impl std::error::Error for Error {}

/// Why [`parse_carefully()`](crate::parse_carefully) refuses.
#[derive(Clone, Copy, Debug, PartialEq, Eq, Hash)]
#[non_exhaustive]
pub enum CarefulError {
    /// The relative text is not careful: the place, in bytes, of the first word or character that is not understood, or the
    /// text's length if `ago` is missing at its end. The text can be cut there.
    Unclear(usize),
    /// The text is a number of seconds after the year 9999, alone or before an offset, and without `@`. It may be milliseconds, or
    /// a date and a clock in digits alone.
    AfterYear9999,
    /// The text is refused as by [`parse_with()`](crate::parse_with).
    Refused(Error),
}

impl From<Error> for CarefulError {
    fn from(error: Error) -> CarefulError {
        CarefulError::Refused(error)
    }
}

impl fmt::Display for CarefulError {
    fn fmt(&self, f: &mut fmt::Formatter<'_>) -> fmt::Result {
        match self {
            CarefulError::Unclear(place) => write!(
                f,
                "not understood from byte {place} on; expected a date, or counts and whole units, then `ago`, such as \"2 weeks ago\""
            ),
            CarefulError::AfterYear9999 => f.write_str(
                "a number of seconds after the year 9999; if milliseconds were meant, divide them by 1000, and if a date and a clock, \
                 write them as \"2024-01-05 10:30:00\"; `@` before the number reads it as seconds",
            ),
            CarefulError::Refused(error) => error.fmt(f),
        }
    }
}

impl std::error::Error for CarefulError {}

#[cfg(test)]
mod tests {
    use super::Error;
    use crate::header::{numbers, GIX_DATE};

    #[test]
    fn each_status_is_its_error() {
        let statuses = numbers(GIX_DATE, "gix_date_status", "GIX_DATE_");
        assert_eq!(statuses.len(), 25);
        // The types of this crate rule out the first four, and `CarefulError` has the last two.
        let others = [
            "Ok",
            "NoSuchOption",
            "NoRoom",
            "NoIdentity",
            "Unclear",
            "AfterYear9999",
        ];
        for (name, number) in statuses {
            if !others.contains(&name.as_str()) {
                assert_eq!(format!("{:?}", Error::of_status(number)), name);
            }
        }
    }
}
