//! Signature lines, and identity lines as Git itself shows, judges and writes them.
//!
//! [`Signature`] takes only lines that Git writes. Histories have others: [`IdentRef`] is what `git log` shows of any, and [`fsck()`]
//! what `git fsck` says of it. [`write_ident()`] cleans a name and an email as `git commit` does.
//!
//! ```
//! use gix_date_proved::signature::{fsck, write_ident, FsckId, IdentRef};
//! use gix_date_proved::Time;
//!
//! let line = b"J\xf6rg <j@e> <b> 5 +0060";
//! let ident = IdentRef::from_bytes(line).unwrap();
//! assert_eq!((ident.name, ident.email), (&b"J\xf6rg"[..], &b"j@e"[..]));
//! let date = ident.date.unwrap();
//! assert_eq!((date.shown.seconds, date.shown.offset), (5, 60));
//! assert_eq!(date.shown.to_time(), Ok(Time::new(5, 3600)));
//! let fault = fsck(line).unwrap();
//! assert_eq!((fault.id, fault.place, fault.id.name()), (FsckId::BadDate, 11, "badDate"));
//! assert_eq!(write_ident(b"J\xf6rg.", b"<j@e>", Time::new(5, 3600)), Ok(b"J\xf6rg <j@e> 5 +0100".to_vec()));
//! ```

use crate::ffi::{CIdentParts, CSpan};
use crate::{calls, parse_header, Error, Time};
use std::fmt;

/// The parts of a signature line, `A U Thor <author@example.com> 1660797906 +0800`, each a slice of it. As a text it is the line.
#[derive(Clone, Copy, Debug, PartialEq, Eq, Hash)]
pub struct Signature<'a> {
    /// What stands before ` <`, which may be empty.
    pub name: &'a str,
    /// What stands between the brackets, which may be empty.
    pub email: &'a str,
    /// What stands after `> `, at least one byte.
    pub time: &'a str,
}

impl<'a> Signature<'a> {
    /// Cuts a line, without its newline, into its parts. [`Error::NoSignature`].
    pub fn from_line(line: &'a str) -> Result<Signature<'a>, Error> {
        let parts = calls::cut_signature(line.as_bytes())?;
        let part = |span: CSpan| &line[span.start..span.start + span.len];
        Ok(Signature {
            name: part(parts.name),
            email: part(parts.email),
            time: part(parts.time),
        })
    }

    /// Cuts a line of bytes as [`Signature::from_line()`] does. [`Error::NotText`], [`Error::NoSignature`].
    ///
    /// A line with a name in Latin-1 is not UTF-8. The time of such a line can be read by itself:
    ///
    /// ```
    /// use gix_date_proved::{bytes, Error, Signature, Time};
    ///
    /// let line = b"Ren\xe9 <rene@example.com> 1660797906 +0800";
    /// assert_eq!(Signature::from_bytes(line), Err(Error::NotText));
    /// let time = line.rsplit(|byte| *byte == b'>').next().unwrap();
    /// assert_eq!(bytes::parse_header(time), Ok(Time::new(1660797906, 28800)));
    /// ```
    pub fn from_bytes(line: &'a [u8]) -> Result<Signature<'a>, Error> {
        let line = std::str::from_utf8(line).map_err(|_| Error::NotText)?;
        Signature::from_line(line)
    }

    /// The time, read as leniently as [`parse_header()`] does. [`Error::InvalidTime`].
    pub fn time(&self) -> Result<Time, Error> {
        parse_header(self.time).ok_or(Error::InvalidTime)
    }
}

impl fmt::Display for Signature<'_> {
    fn fmt(&self, f: &mut fmt::Formatter<'_>) -> fmt::Result {
        write!(f, "{} <{}> {}", self.name, self.email, self.time)
    }
}

/// The signature line of a name, an email and a time, without a newline. [`Error::BadPart`], [`Error::OffsetTooWide`],
/// [`Error::OutOfMemory`].
pub fn write_signature(name: &str, email: &str, time: Time) -> Result<String, Error> {
    calls::write_signature(name, email, &time)
}

/// What Git shows of an identity line, each part a slice of it. It need not be UTF-8.
#[derive(Clone, Copy, Debug, PartialEq, Eq, Hash)]
pub struct IdentRef<'a> {
    /// What stands before the first `<`, without the blanks at its end. It may be empty.
    pub name: &'a [u8],
    /// What stands between the first `<` and the next `>`, which may be empty.
    pub email: &'a [u8],
    /// What follows the email and its `>`, to the line's end.
    pub rest: &'a [u8],
    /// The date after the last `>`; `None` where Git shows none.
    pub date: Option<DateRef<'a>>,
    /// [`write_ident_as_is()`] of this name, this email and the time that is shown writes the same line. `false` without a date.
    pub comes_back: bool,
    /// Where the parts stand.
    pub places: IdentPlaces,
}

/// Where the parts of an identity line stand, in bytes from its front. The name stands at the front.
#[derive(Clone, Copy, Debug, PartialEq, Eq, Hash)]
pub struct IdentPlaces {
    /// Where the email stands: after the first `<`.
    pub email: usize,
    /// Where the rest stands: after the email and its `>`.
    pub rest: usize,
    /// Where the seconds stand: after the last `>` and blanks. Without a date they would stand there.
    pub seconds: usize,
    /// Where the offset stands: after the digits of the seconds and blanks.
    pub offset: usize,
    /// Where the line ends: before its newline or NUL.
    pub end: usize,
}

/// The date of an identity line.
#[derive(Clone, Copy, Debug, PartialEq, Eq, Hash)]
pub struct DateRef<'a> {
    /// One or more digits: seconds since 1970, of any size.
    pub seconds: &'a [u8],
    /// A sign, and one or more digits.
    pub offset: &'a [u8],
    /// What Git shows of these. From 2^63 seconds on, both are 0.
    pub shown: GitTime,
}

/// A time as Git keeps it of an identity line.
#[derive(Clone, Copy, Debug, Default, PartialEq, Eq, Hash)]
pub struct GitTime {
    /// Seconds since 1970: of a line from 0.
    pub seconds: i64,
    /// The offset as one decimal number, hours before the last two digits, minutes in them: `+0530` is 530.
    pub offset: i32,
    /// Whether a minus stands before an offset of 0, as in `-0000`. Beside another offset it means nothing.
    pub minus_zero: bool,
}

impl GitTime {
    /// A time of seconds and an offset's number, with a plus before 0.
    pub const fn new(seconds: i64, offset: i32) -> GitTime {
        GitTime {
            seconds,
            offset,
            minus_zero: false,
        }
    }

    /// The time of these seconds, with the offset in seconds: `+0060` is an hour. [`Error::OffsetTooWide`] above 35791394 minutes.
    /// [`git::show_git_time()`](crate::git::show_git_time) shows the offset as the line writes it.
    pub fn to_time(self) -> Result<Time, Error> {
        calls::ident_time(self)
    }
}

/// The time as a line has it: the seconds, a space, and a sign with at least four digits.
impl fmt::Display for GitTime {
    fn fmt(&self, f: &mut fmt::Formatter<'_>) -> fmt::Result {
        f.pad(calls::git_time_text(*self, &mut [0; 32]))
    }
}

impl<'a> IdentRef<'a> {
    /// What Git shows of a line, which ends before its first newline or NUL. `None` where Git finds no identity: no `<`, or no `>`
    /// after the first.
    pub fn from_bytes(line: &'a [u8]) -> Option<IdentRef<'a>> {
        IdentRef::in_text(line, calls::ident(line)?)
    }

    /// What Git shows of a line by its parts, which stand in this text.
    pub(crate) fn in_text(text: &'a [u8], parts: CIdentParts) -> Option<IdentRef<'a>> {
        let CIdentParts {
            name,
            email,
            rest,
            seconds,
            offset,
            shown,
            has_date,
            comes_back,
        } = parts;
        let part = |span: CSpan| text.get(span.start..span.start + span.len);
        let places = IdentPlaces {
            email: email.start,
            rest: rest.start,
            seconds: seconds.start,
            offset: offset.start,
            end: rest.start + rest.len,
        };
        let date = DateRef {
            seconds: part(seconds)?,
            offset: part(offset)?,
            shown: GitTime {
                seconds: shown.seconds,
                offset: shown.offset,
                minus_zero: shown.minus_zero,
            },
        };
        Some(IdentRef {
            name: part(name)?,
            email: part(email)?,
            rest: part(rest)?,
            date: has_date.then_some(date),
            comes_back,
            places,
        })
    }
}

/// A message of `git fsck`, named as its ID there.
#[derive(Clone, Copy, Debug, PartialEq, Eq, Hash)]
pub enum FsckId {
    /// The line holds NUL.
    NulInHeader,
    /// The line begins with `<`.
    MissingNameBeforeEmail,
    /// The first bracket is `>`.
    BadName,
    /// There is no bracket.
    MissingEmail,
    /// No space stands directly before the first `<`.
    MissingSpaceBeforeEmail,
    /// The bracket after the first `<` is not `>`, or there is none.
    BadEmail,
    /// No space stands directly after that `>`.
    MissingSpaceBeforeDate,
    /// After that space stands `0`, and no space after it.
    ZeroPaddedDate,
    /// The number there is 2^63 or more, or it is negative.
    BadDateOverflow,
    /// No number stands there, or no space after it.
    BadDate,
    /// What follows is not a sign and four digits up to the line's end.
    BadTimezone,
}

impl FsckId {
    /// The message of a number, which is 0 for none.
    pub(crate) fn of_number(number: u32) -> Option<FsckId> {
        FsckId::ALL.get(number.checked_sub(1)? as usize).copied()
    }

    /// All messages, in the order in which Git looks for them.
    pub const ALL: [FsckId; 11] = [
        FsckId::NulInHeader,
        FsckId::MissingNameBeforeEmail,
        FsckId::BadName,
        FsckId::MissingEmail,
        FsckId::MissingSpaceBeforeEmail,
        FsckId::BadEmail,
        FsckId::MissingSpaceBeforeDate,
        FsckId::ZeroPaddedDate,
        FsckId::BadDateOverflow,
        FsckId::BadDate,
        FsckId::BadTimezone,
    ];

    /// The message's ID in Git.
    pub fn name(self) -> &'static str {
        match self {
            FsckId::NulInHeader => "nulInHeader",
            FsckId::MissingNameBeforeEmail => "missingNameBeforeEmail",
            FsckId::BadName => "badName",
            FsckId::MissingEmail => "missingEmail",
            FsckId::MissingSpaceBeforeEmail => "missingSpaceBeforeEmail",
            FsckId::BadEmail => "badEmail",
            FsckId::MissingSpaceBeforeDate => "missingSpaceBeforeDate",
            FsckId::ZeroPaddedDate => "zeroPaddedDate",
            FsckId::BadDateOverflow => "badDateOverflow",
            FsckId::BadDate => "badDate",
            FsckId::BadTimezone => "badTimezone",
        }
    }
}

/// What `git fsck` says of an identity line, and where.
#[derive(Clone, Copy, Debug, PartialEq, Eq, Hash)]
pub struct FsckFault {
    /// The message.
    pub id: FsckId,
    /// How many bytes of the line stand before what is wrong: the NUL, the bracket, the line's end, the date or the offset.
    pub place: usize,
}

/// What `git fsck` says of an identity line, which ends before its first newline: the first of its messages that applies, or `None`
/// if it says nothing.
pub fn fsck(line: &[u8]) -> Option<FsckFault> {
    let (message, place) = calls::fsck(line);
    let id = FsckId::of_number(message)?;
    Some(FsckFault { id, place })
}

/// The identity line that Git writes of a name, an email and a time, without a newline. Name and email are cleaned: without crud at both
/// ends, and then without `<`, `>` and newlines. Crud is a byte from 1 to 32, and each of `. , : ; < > " \ '`.
///
/// [`Error::NulInPart`], [`Error::EmptyName`], [`Error::OnlyCrud`], [`Error::BeforeEpoch`], [`Error::OffsetTooWide`], in this order, and
/// [`Error::OutOfMemory`].
pub fn write_ident(name: &[u8], email: &[u8], time: Time) -> Result<Vec<u8>, Error> {
    calls::write_ident(name, email, &time)
}

/// The identity line of a name, an email and a time as they are, without a newline. [`Error::BadPart`], [`Error::OutOfMemory`].
pub fn write_ident_as_is(name: &[u8], email: &[u8], time: GitTime) -> Result<Vec<u8>, Error> {
    calls::write_ident_as_is(name, email, time)
}

#[cfg(test)]
mod tests {
    use super::FsckId;
    use crate::header::{numbers, GIX_DATE};

    #[test]
    fn messages_are_numbered_as_in_the_header() {
        let due = numbers(GIX_DATE, "gix_date_fsck_message", "GIX_DATE_FSCK_");
        let ours = FsckId::ALL.map(|id| format!("{id:?}"));
        let named: Vec<_> = [("Passes".to_string(), 0)]
            .into_iter()
            .chain(ours.into_iter().zip(1..))
            .collect();
        assert_eq!(named, due);
        for id in FsckId::ALL {
            assert!(id.name().eq_ignore_ascii_case(&format!("{id:?}")));
            assert!(GIX_DATE.contains(&format!("return \"{}\";", id.name())));
        }
    }
}
