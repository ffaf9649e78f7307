//! The ways in which Git shows dates.

use crate::calls;
use std::fmt;
use std::str::FromStr;

/// What of a date is shown. Examples of fixed forms show 1251660000 +0000.
#[derive(Clone, Copy, Debug, Default, PartialEq, Eq, Hash)]
#[non_exhaustive]
pub enum DateKind {
    /// How long ago it was: `2 hours ago`, `1 year, 2 months ago`, or `in the future`.
    Relative = 0,
    /// `2009-08-30T19:20:00+00:00`
    Iso8601Strict = 1,
    /// `2009-08-30 19:20:00 +0000`
    Iso8601 = 2,
    /// `Sun, 30 Aug 2009 19:20:00 +0000`
    Rfc2822 = 3,
    /// `2009-08-30`
    Short = 4,
    /// `Sun Aug 30 19:20:00 2009 +0000`
    #[default]
    Default = 5,
    /// As much as tells the date from now: `3 hours ago`, `Wed 17:20 +0200`, `Tue Aug 25 19:20`, `Jun 15 2016`.
    Human = 6,
    /// `1251660000 +0000`
    Raw = 7,
    /// `1251660000`
    Unix = 8,
}

/// Each kind, at the place of its number.
const KINDS: [DateKind; 9] = [
    DateKind::Relative,
    DateKind::Iso8601Strict,
    DateKind::Iso8601,
    DateKind::Rfc2822,
    DateKind::Short,
    DateKind::Default,
    DateKind::Human,
    DateKind::Raw,
    DateKind::Unix,
];

impl DateKind {
    /// The kind that the library has by this number.
    pub(crate) fn of_number(number: u32) -> Option<DateKind> {
        KINDS.get(number as usize).copied()
    }

    fn name(self) -> &'static str {
        match self {
            DateKind::Relative => "relative",
            DateKind::Iso8601Strict => "iso8601-strict",
            DateKind::Iso8601 => "iso8601",
            DateKind::Rfc2822 => "rfc2822",
            DateKind::Short => "short",
            DateKind::Default => "default",
            DateKind::Human => "human",
            DateKind::Raw => "raw",
            DateKind::Unix => "unix",
        }
    }
}

/// How a date is shown, as Git's option `--date` says it.
///
/// A mode is read from Git's own name by [`str::parse`], and shows that name again, in full.
///
/// ```
/// use gix_date_proved::git::{DateKind, DateMode, UnknownMode};
///
/// let mode: DateMode = "iso-strict-local".parse()?;
/// assert_eq!(mode, DateMode { kind: DateKind::Iso8601Strict, local: true });
/// assert_eq!(mode.to_string(), "iso8601-strict-local");
/// assert_eq!("local".parse::<DateMode>()?.to_string(), "default-local");
/// assert_eq!("format:%Y".parse::<DateMode>(), Err(UnknownMode));
/// # Ok::<(), UnknownMode>(())
/// ```
#[derive(Clone, Copy, Debug, Default, PartialEq, Eq, Hash)]
pub struct DateMode {
    /// What is shown.
    pub kind: DateKind,
    /// Whether the clock is that of the moment's zone. Else it is the time's own.
    pub local: bool,
}

impl FromStr for DateMode {
    type Err = UnknownMode;

    /// The mode of this name, in Git's letter case.
    fn from_str(name: &str) -> Result<DateMode, UnknownMode> {
        calls::git::mode_named(name)
    }
}

impl fmt::Display for DateMode {
    fn fmt(&self, f: &mut fmt::Formatter<'_>) -> fmt::Result {
        f.write_str(self.kind.name())?;
        f.write_str(if self.local { "-local" } else { "" })
    }
}

/// No name of a mode. Git's `auto:` is not offered, and `format:` is [`DateFormat`](super::DateFormat).
#[derive(Clone, Copy, Debug, PartialEq, Eq, Hash)]
pub struct UnknownMode;

impl fmt::Display for UnknownMode {
    fn fmt(&self, f: &mut fmt::Formatter<'_>) -> fmt::Result {
        f.write_str(
            "not a way to show a date; expected one such as \"iso8601-strict\" or \"human-local\"",
        )
    }
}

impl std::error::Error for UnknownMode {}

#[cfg(test)]
mod tests {
    use super::*;
    use crate::header::{messages, numbers, GIT_DATE};

    #[test]
    fn each_kind_has_the_number_of_the_header() {
        let numbers = numbers(GIT_DATE, "git_date_kind", "GIT_DATE_");
        assert_eq!(numbers.len(), KINDS.len());
        for (name, number) in numbers {
            let kind = DateKind::of_number(number).unwrap();
            assert_eq!(format!("{kind:?}"), name);
            assert_eq!(kind as u32, number);
        }
        assert_eq!(DateKind::of_number(9), None);
    }

    #[test]
    fn the_message_is_that_of_git_date() {
        let due = messages(include_str!("../../../../crates/git_date/src/mode.rt"));
        assert_eq!(due, [UnknownMode.to_string()]);
    }
}
