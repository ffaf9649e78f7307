//! Git's formats of dates.

use crate::calls;
use std::fmt;

/// A format of [`show_by_format()`](super::show_by_format), checked once: the text after `format:` of `git log --date`.
///
/// A directive is a percent sign, flags, a width and a letter: `docs/GIT_DATES.md` has what each shows. `%%`, `%s`, `%z` and `%Z`
/// take no flags and no width, the others the flags `_ - 0 ^ #` and a width up to 255. All other text is shown as it is, and may
/// be empty.
///
/// ```
/// use gix_date_proved::git::{DateFormat, FormatFault};
///
/// assert_eq!(DateFormat::new("%Y-%m-%d")?.as_str(), "%Y-%m-%d");
/// assert_eq!(DateFormat::new("at %q"), Err(FormatFault::UnknownDirective(3)));
/// # Ok::<(), FormatFault>(())
/// ```
#[derive(Clone, Copy, Debug, PartialEq, Eq, Hash)]
pub struct DateFormat<'a> {
    text: &'a str,
}

impl<'a> DateFormat<'a> {
    /// The format of a text, or its first fault.
    pub fn new(text: &'a str) -> Result<DateFormat<'a>, FormatFault> {
        match calls::git::format_fault(text) {
            Some(fault) => Err(fault),
            None => Ok(DateFormat { text }),
        }
    }

    /// The text of the format.
    pub fn as_str(&self) -> &'a str {
        self.text
    }
}

/// Why a format is refused. A place is that of a percent sign, in bytes from the format's start.
#[derive(Clone, Copy, Debug, PartialEq, Eq, Hash)]
#[non_exhaustive]
pub enum FormatFault {
    /// Flags or a width stand before `s`, `z`, `Z` or `%`, where Git says another offset, or begins again.
    FlagRefused(usize),
    /// The letter is none of those that all C libraries show alike, or the end cuts the directive off.
    UnknownDirective(usize),
    /// The width is above 255.
    WidthTooLarge(usize),
}

impl fmt::Display for FormatFault {
    fn fmt(&self, f: &mut fmt::Formatter<'_>) -> fmt::Result {
        match self {
            FormatFault::FlagRefused(place) => write!(
                f,
                "the directive at byte {place} takes no flags and no width"
            ),
            FormatFault::UnknownDirective(place) => {
                write!(f, "the directive at byte {place} is unknown")
            }
            FormatFault::WidthTooLarge(place) => {
                write!(f, "the width at byte {place} is above 255")
            }
        }
    }
}

impl std::error::Error for FormatFault {}

#[cfg(test)]
mod tests {
    use super::*;
    use crate::header::messages;

    #[test]
    fn messages_are_those_of_git_date() {
        let faults = [
            FormatFault::FlagRefused(7),
            FormatFault::UnknownDirective(7),
            FormatFault::WidthTooLarge(7),
        ];
        let due: Vec<_> = messages(include_str!(
            "../../../../crates/git_date/src/format/error.rt"
        ))
        .into_iter()
        .filter(|text| text.contains("{0}"))
        .map(|text| text.replace("{0}", "7"))
        .collect();
        assert_eq!(faults.map(|fault| fault.to_string()).as_slice(), due);
    }
}
