//! Offsets: their texts, and the numbers that Git's own code has of them.

use super::DateText;
use crate::{calls, Error, OffsetInSeconds};

/// The offset that a text says: a sign, two digits of hours to 25, and perhaps two of minutes, with a colon before them or without.
/// [`Error::InvalidZone`] for any other text.
///
/// ```
/// use gix_date_proved::git::{offset_text, parse_offset};
///
/// assert_eq!(parse_offset("-03:30")?, -12600);
/// assert_eq!(offset_text(-12600), "-0330");
/// # Ok::<(), gix_date_proved::Error>(())
/// ```
pub fn parse_offset(text: &str) -> Result<OffsetInSeconds, Error> {
    calls::git::parse_offset(text.as_bytes())
}

/// The text of an offset as Git writes it: a sign, hours in two digits or more, and two digits of minutes: `+0530`, `+51800`. Seconds
/// beyond whole minutes are dropped.
pub fn offset_text(offset: OffsetInSeconds) -> DateText {
    DateText::of_offset(offset)
}

/// The offset that a number says as Git's own code has it: hours and two digits of minutes, west of UTC below 0. One of more
/// than 2147483647 seconds is that many, and no date is shown with it.
///
/// ```
/// use gix_date_proved::git::offset_from_decimal;
///
/// // `-0130`
/// assert_eq!(offset_from_decimal(-130), -5400);
/// ```
pub fn offset_from_decimal(decimal: i32) -> OffsetInSeconds {
    calls::git::offset_from_decimal(decimal)
}

/// The number that says an offset so: -130 of -5400. Seconds beyond whole minutes are dropped.
pub fn offset_to_decimal(offset: OffsetInSeconds) -> i32 {
    calls::git::offset_to_decimal(offset)
}
