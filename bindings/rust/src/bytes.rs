//! The calls that read texts, for bytes that may not be UTF-8. Git's dates are read of any bytes; other calls refuse such by
//! [`Error::NotText`].

use crate::git::{Approximate, DateError, ExactDate, Expiry};
use crate::{calls, CarefulError, CarefulOptions, Error, Moment, RawOffsets, Time};

/// Reads the time of a commit header as [`parse_header()`](crate::parse_header) does. [`Error::NotText`],
/// [`Error::InvalidTime`].
pub fn parse_header(input: &[u8]) -> Result<Time, Error> {
    calls::parse_header(input)
}

/// Whether the bytes come back when they are read as a header and written. `false` where they are not UTF-8.
pub fn is_canonical_header(input: &[u8]) -> bool {
    calls::is_canonical_header(input)
}

/// Parses a date as [`parse()`](crate::parse()) does. The same refusals, and [`Error::NotText`].
pub fn parse(input: &[u8], now: Option<Moment>) -> Result<Time, Error> {
    parse_with(input, now, RawOffsets::default())
}

/// Parses a date as [`parse_with()`](crate::parse_with) does. The same refusals, and [`Error::NotText`].
pub fn parse_with(input: &[u8], now: Option<Moment>, raw: RawOffsets) -> Result<Time, Error> {
    match now {
        Some(now) => now.zone.read()?.parse_with(input, now.instant(), raw),
        None => calls::parse(input, raw),
    }
}

/// Parses a date as [`parse_carefully()`](crate::parse_carefully) does. The same refusals, and [`Error::NotText`] in
/// [`CarefulError::Refused`].
pub fn parse_carefully(
    input: &[u8],
    now: Option<Moment>,
    options: CarefulOptions,
) -> Result<Time, CarefulError> {
    match now {
        Some(now) => now
            .zone
            .read()?
            .parse_carefully(input, now.instant(), options),
        None => calls::parse_carefully(input, options),
    }
}

/// Reads a date as [`git::parse_date()`](crate::git::parse_date) does, with its refusals.
pub fn parse_date(input: &[u8], now: &Moment) -> Result<ExactDate, DateError> {
    now.zone.read()?.parse_date(input, now.instant())
}

/// Reads a date as [`git::approxidate()`](crate::git::approxidate) does, with its refusals.
pub fn approxidate(input: &[u8], now: &Moment) -> Result<Approximate, DateError> {
    now.zone.read()?.approxidate(input, now.instant())
}

/// Reads what expires as [`git::expiry_date()`](crate::git::expiry_date) does, with its refusals.
pub fn expiry_date(input: &[u8], now: &Moment) -> Result<Expiry, DateError> {
    now.zone.read()?.expiry_date(input, now.instant())
}
