//! Many lines in one call, into arrays of the caller's. No call takes memory.
//!
//! A block is lines that end at `\n`, which the last may lack if it has a byte; `\r` belongs to its line. A call reads the first
//! lines: all, or as many as the shortest array has cells for. [`Done`] says how many lines and bytes these are, so that a caller
//! goes on from there. Each line leaves what the call for one text leaves of it: a [`Status`], and if it is read the seconds and
//! the offset. No other cell changes.
//!
//! ```
//! use gix_date_proved::lines::{parse_lines, Columns, LineError, LineReader, Status};
//! use gix_date_proved::Error;
//!
//! let block = b"1660797906 +0800\nyesterday\n5 +0000";
//! let (mut seconds, mut offsets, mut statuses) = ([0; 2], [0; 2], [Status::default(); 2]);
//! let columns = Columns {
//!     seconds: &mut seconds,
//!     offsets: &mut offsets,
//!     statuses: &mut statuses,
//! };
//! let done = parse_lines(block, LineReader::Headers, columns);
//! assert_eq!((done.lines, &block[done.bytes..]), (2, &b"5 +0000"[..]));
//! assert_eq!((seconds[0], offsets[0]), (1660797906, 28800));
//! assert_eq!(statuses[0].result(), Ok(()));
//! assert_eq!(statuses[1].result(), Err(LineError::Refused(Error::InvalidTime)));
//! ```
//!
//! [`ReadZone`](crate::ReadZone) has the calls for lines at a moment.

use crate::calls::NO_IDENTITY;
use crate::ffi::CIdentParts;
use crate::signature::{FsckId, IdentRef};
use crate::{calls, CarefulOptions, Error, OffsetInSeconds, RawOffsets, SecondsSinceUnixEpoch};
use std::fmt;

/// How each line is read.
#[derive(Clone, Copy, Debug, PartialEq, Eq, Hash)]
#[non_exhaustive]
pub enum LineReader {
    /// As [`parse_with()`](crate::parse_with) reads a date.
    Dates(RawOffsets),
    /// As [`parse_carefully()`](crate::parse_carefully) reads a date.
    Careful(CarefulOptions),
    /// As [`parse_header()`](crate::parse_header) reads a time.
    Headers,
    /// As [`Signature::from_line()`](crate::Signature::from_line) cuts a line, and then as the time of that is read.
    Signatures,
}

/// The arrays that lines go into, with a cell of each for a line.
#[derive(Debug)]
pub struct Columns<'a> {
    /// The seconds of each line that is read.
    pub seconds: &'a mut [SecondsSinceUnixEpoch],
    /// Its offset.
    pub offsets: &'a mut [OffsetInSeconds],
    /// How each line was read.
    pub statuses: &'a mut [Status],
}

/// The arrays that identity lines go into, with a cell of each for a line. An empty array is left out.
#[derive(Debug, Default)]
pub struct IdentColumns<'a> {
    /// The parts of each line that has an identity.
    pub parts: &'a mut [IdentParts],
    /// The seconds that Git shows of each line with a date.
    pub seconds: &'a mut [SecondsSinceUnixEpoch],
    /// Its offset as one decimal number, as [`GitTime`](crate::signature::GitTime) has it.
    pub offsets: &'a mut [i32],
    /// What `git fsck` says of each line.
    pub messages: &'a mut [Message],
    /// Whether each line has an identity, or [`LineError::NoIdentity`].
    pub statuses: &'a mut [Status],
}

/// The parts of an identity line of a block.
#[derive(Clone, Copy, Debug, Default)]
#[repr(transparent)]
pub struct IdentParts(CIdentParts);

impl IdentParts {
    /// What Git shows of the line, each part a slice of the block that was read. Its places count from the front of the block. `None` for a
    /// block that is too short.
    pub fn ident(self, block: &[u8]) -> Option<IdentRef<'_>> {
        IdentRef::in_text(block, self.0)
    }
}

/// What `git fsck` says of an identity line: nothing, by default, or a message.
#[derive(Clone, Copy, Debug, Default, PartialEq, Eq, Hash)]
#[repr(transparent)]
pub struct Message(u32);

impl Message {
    /// The message's ID. `None` if `git fsck` says nothing.
    pub fn id(self) -> Option<FsckId> {
        FsckId::of_number(self.0)
    }
}

/// How many lines a call has read, and how many bytes these have with their newlines.
#[derive(Clone, Copy, Debug, Default, PartialEq, Eq, Hash)]
pub struct Done {
    /// The lines.
    pub lines: usize,
    /// Their bytes. What the call has not read begins there.
    pub bytes: usize,
}

/// How a line was read: it is read, by default, or it is refused.
#[derive(Clone, Copy, Debug, Default, PartialEq, Eq, Hash)]
#[repr(transparent)]
pub struct Status(u32);

impl Status {
    /// Whether the line is read, or why not.
    pub fn result(self) -> Result<(), LineError> {
        Err(match self.0 {
            0 => return Ok(()),
            17 => LineError::Unclear,
            18 => LineError::Unreadable,
            19 => LineError::NumberTooLarge,
            20 => LineError::BackTooFar,
            21 => LineError::YearRefused,
            22 => LineError::DateRange,
            23 => LineError::AfterYear9999,
            NO_IDENTITY => LineError::NoIdentity,
            status => LineError::Refused(Error::of_status(status)),
        })
    }
}

/// Why a line is refused. The place that [`CarefulError`](crate::CarefulError) and [`DateError`](crate::git::DateError) have is not
/// told: call for the line again for it.
#[derive(Clone, Copy, Debug, PartialEq, Eq, Hash)]
#[non_exhaustive]
pub enum LineError {
    /// As by the call for one text.
    Refused(Error),
    /// [`CarefulError::Unclear`](crate::CarefulError::Unclear)
    Unclear,
    /// [`CarefulError::AfterYear9999`](crate::CarefulError::AfterYear9999)
    AfterYear9999,
    /// [`DateError::Unreadable`](crate::git::DateError::Unreadable)
    Unreadable,
    /// [`DateError::NumberTooLarge`](crate::git::DateError::NumberTooLarge)
    NumberTooLarge,
    /// [`DateError::BackTooFar`](crate::git::DateError::BackTooFar)
    BackTooFar,
    /// [`DateError::YearRefused`](crate::git::DateError::YearRefused)
    YearRefused,
    /// [`DateError::Range`](crate::git::DateError::Range)
    DateRange,
    /// The line has no identity, for which [`IdentRef::from_bytes()`] answers `None`.
    NoIdentity,
}

impl fmt::Display for LineError {
    fn fmt(&self, f: &mut fmt::Formatter<'_>) -> fmt::Result {
        f.write_str(match self {
            LineError::Refused(error) => return error.fmt(f),
            LineError::Unclear => "the date is not clear: expected a date, or counts and whole units, then ago",
            LineError::AfterYear9999 => {
                "seconds after the year 9999: perhaps milliseconds, or a date and a clock in digits alone"
            }
            LineError::Unreadable => "not a date that Git reads",
            LineError::NumberTooLarge => "a number of the date is too large",
            LineError::BackTooFar => "the date leads back too far",
            LineError::YearRefused => "the year of the date is refused: expected 1970 to 2099",
            LineError::DateRange => {
                "the date is before 1970 or leads to an instant that cannot be computed with"
            }
            LineError::NoIdentity => "no identity: expected a name, <, an email and >",
        })
    }
}

impl std::error::Error for LineError {}

/// Reads each line of a block. What is relative to a moment is refused by [`Error::MissingNow`].
pub fn parse_lines(block: &[u8], reader: LineReader, columns: Columns<'_>) -> Done {
    calls::lines::parse_lines(block, reader, columns)
}

/// Tells of each line of a block whether it comes back byte for byte when it is read as a header and written
/// ([`is_canonical_header()`](crate::is_canonical_header)).
pub fn check_lines(block: &[u8], canonical: &mut [bool]) -> Done {
    calls::lines::check_lines(block, canonical)
}

/// Tells of each identity line of a block what [`IdentRef::from_bytes()`] and [`fsck()`](crate::signature::fsck()) tell of it, in the arrays
/// that are not empty. It reads as many lines as the shortest of these has cells for, and none where all are empty. Without a date seconds
/// and offset stay as they were, and without an identity the parts too.
///
/// ```
/// use gix_date_proved::lines::{ident_lines, IdentColumns, IdentParts, Message};
/// use gix_date_proved::signature::FsckId;
///
/// let block = b"A <a@b> 5 +0100\nB  <b> 5 -0000 \n";
/// let (mut parts, mut messages) = ([IdentParts::default(); 2], [Message::default(); 2]);
/// let done = ident_lines(
///     block,
///     IdentColumns {
///         parts: &mut parts,
///         messages: &mut messages,
///         ..IdentColumns::default()
///     },
/// );
/// assert_eq!((done.lines, done.bytes), (2, block.len()));
/// assert_eq!(parts[1].ident(block).unwrap().email, b"b");
/// assert_eq!(messages.map(Message::id), [None, Some(FsckId::BadTimezone)]);
/// ```
pub fn ident_lines(block: &[u8], columns: IdentColumns<'_>) -> Done {
    calls::lines::ident_lines(block, columns)
}

#[cfg(test)]
mod tests {
    use super::*;
    use crate::header::{numbers, GIT_DATE, GIX_DATE};

    /// The words of a status in a header's function.
    fn words<'a>(header: &'a str, prefix: &str, name: &str) -> &'a str {
        let (_, rest) = header
            .split_once(&format!("case {prefix}{name}:\n"))
            .unwrap();
        rest.split('"').nth(1).unwrap()
    }

    #[test]
    fn each_status_is_its_error_in_the_words_of_the_headers() {
        let all = [
            (GIX_DATE, "gix_date_status", "GIX_DATE_", 25),
            (GIT_DATE, "git_date_status", "GIT_DATE_", 8),
        ];
        for (header, name, prefix, count) in all {
            let statuses = numbers(header, name, prefix);
            assert_eq!(statuses.len(), count);
            for (name, number) in statuses {
                // No line is refused by these.
                let of_options = ["Ok", "NoSuchOption", "NoRoom"];
                let of_formats = ["FlagRefused", "UnknownDirective", "WidthTooLarge"];
                if of_options.contains(&&*name) || of_formats.contains(&&*name) {
                    continue;
                }
                let error = Status(number).result().unwrap_err();
                let shown = format!("{error:?}");
                let range = prefix == "GIT_DATE_" && name == "Range";
                let due = if range { "DateRange" } else { &name };
                assert_eq!(
                    shown.trim_start_matches("Refused(").trim_end_matches(')'),
                    due
                );
                let constant = header
                    .lines()
                    .find_map(|line| {
                        let (constant, rest) = line.trim().split_once(" = ")?;
                        let digits: String =
                            rest.chars().take_while(char::is_ascii_digit).collect();
                        let is_it = digits == number.to_string() && constant.starts_with(prefix);
                        is_it.then(|| &constant[prefix.len()..]).filter(|constant| {
                            header.contains(&format!("case {prefix}{constant}:"))
                        })
                    })
                    .unwrap();
                assert_eq!(error.to_string(), words(header, prefix, constant));
            }
        }
        assert_eq!(Status::default().result(), Ok(()));
    }

    #[test]
    fn readers_have_the_numbers_of_the_header() {
        let due = numbers(GIX_DATE, "gix_date_line_reader", "GIX_DATE_");
        let names = ["DateLines", "CarefulLines", "HeaderLines", "SignatureLines"];
        assert_eq!(
            due,
            names
                .iter()
                .map(|name| name.to_string())
                .zip(0..)
                .collect::<Vec<_>>()
        );
        let readers = [
            LineReader::Dates(RawOffsets::Quarter),
            LineReader::Careful(CarefulOptions::default()),
            LineReader::Headers,
            LineReader::Signatures,
        ];
        assert_eq!(
            readers.map(|reader| calls::lines::number_of(reader).0),
            [0, 1, 2, 3]
        );
    }
}
