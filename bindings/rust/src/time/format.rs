//! The named formats.

use super::{CustomFormat, Format};
use crate::{calls, Error, Time};

// Made by scripts/formats.
/// Seconds since 1970-01-01 00:00:00 UTC: `123456789`.
pub const UNIX: Format = Format::Unix;

/// A time as in a commit header: `1660874655 +0800`.
pub const RAW: Format = Format::Raw;

/// A day: `2018-12-24`.
pub const SHORT: CustomFormat = CustomFormat("%Y-%m-%d");

/// An RFC 2822 date: `Mon, 08 Aug 2022 12:45:06 +0800`.
pub const RFC2822: CustomFormat = CustomFormat("%a, %d %b %Y %H:%M:%S %z");

/// An RFC 2822 date without a zero before the day, as Git prints it (`git log --pretty=%aD`): `Mon,
/// 8 Aug 2022 12:45:06 +0800`.
pub const GIT_RFC2822: CustomFormat = CustomFormat("%a, %-d %b %Y %H:%M:%S %z");

/// A date after ISO 8601, as Git prints it (`git log --pretty=%ai`): `2022-08-17 22:04:58 +0200`.
pub const ISO8601: CustomFormat = CustomFormat("%Y-%m-%d %H:%M:%S %z");

/// A date in the strict form of ISO 8601, as Git 2.39 prints it (`git log --pretty=%aI`):
/// `2022-08-17T21:43:13+08:00`.
pub const ISO8601_STRICT: CustomFormat = CustomFormat("%Y-%m-%dT%H:%M:%S%:z");

/// A date as gitoxide prints it: `Sun Sep 04 2022 10:45:06 -0400`.
pub const GITOXIDE: CustomFormat = CustomFormat("%a %b %d %Y %H:%M:%S %z");

/// A date as Git prints it by default (`git log --pretty=%ad`): `Sun Sep 4 10:45:06 2022 -0400`.
pub const DEFAULT: CustomFormat = CustomFormat("%a %b %-d %H:%M:%S %Y %z");

/// The named formats, each beside its name, in the order of their numbers.
pub const NAMED: [(&str, Format); 9] = [
    ("UNIX", UNIX),
    ("RAW", RAW),
    ("SHORT", Format::Custom(SHORT)),
    ("RFC2822", Format::Custom(RFC2822)),
    ("GIT_RFC2822", Format::Custom(GIT_RFC2822)),
    ("ISO8601", Format::Custom(ISO8601)),
    ("ISO8601_STRICT", Format::Custom(ISO8601_STRICT)),
    ("GITOXIDE", Format::Custom(GITOXIDE)),
    ("DEFAULT", Format::Custom(DEFAULT)),
];
// Made until here.

/// How the library is asked for a format. It prints by a number without reading a pattern, so faster.
#[derive(Debug, PartialEq, Eq)]
enum Request {
    Number(u32),
    Pattern(&'static str),
}

impl From<Format> for Request {
    fn from(format: Format) -> Request {
        let number = NAMED.iter().position(|(_, named)| *named == format);
        match (number, format) {
            (None, Format::Custom(custom)) => Request::Pattern(custom.0),
            (number, _) => Request::Number(number.unwrap_or_default() as u32),
        }
    }
}

impl Time {
    /// The text of this time in a format.
    ///
    /// [`Error::Conversion`] where a pattern needs a civil date and the time has none, [`Error::OffsetTooWide`] for
    /// [`Format::Raw`], [`Error::Pattern`] for a pattern that cannot be printed, [`Error::OutOfMemory`].
    ///
    /// ```
    /// use gix_date_proved::time::{format, CustomFormat, Format};
    /// use gix_date_proved::{Error, Time};
    ///
    /// let time = Time::new(1660797906, 28800);
    /// assert_eq!(time.format(format::SHORT)?, "2022-08-18");
    /// assert_eq!(time.format(Format::Raw)?, "1660797906 +0800");
    /// assert_eq!(time.format(CustomFormat::new("%H:%M"))?, "12:45");
    /// # Ok::<(), Error>(())
    /// ```
    pub fn format(&self, format: impl Into<Format>) -> Result<String, Error> {
        match format.into().into() {
            Request::Number(number) => calls::format(self, number),
            Request::Pattern(pattern) => calls::format_by_pattern(self, pattern),
        }
    }

    /// Prints as [`Time::format`] does, but the seconds for a time without such a text, and if memory runs out.
    ///
    /// ```
    /// use gix_date_proved::{time::format, Time};
    ///
    /// assert_eq!(Time::new(5, 360000).format_or_unix(format::ISO8601), "5");
    /// ```
    pub fn format_or_unix(&self, format: impl Into<Format>) -> String {
        let text = match format.into().into() {
            Request::Number(number) => calls::format_or_unix(self, number),
            Request::Pattern(pattern) => calls::format_by_pattern_or_unix(self, pattern),
        };
        // Only memory is refused here.
        text.unwrap_or_else(|_| self.seconds.to_string())
    }

    /// The text of this time by a pattern of `strftime`, as jiff has its directives, which need not be `'static`.
    /// [`Error::Conversion`], [`Error::Pattern`], [`Error::OutOfMemory`].
    pub fn format_by_pattern(&self, pattern: &str) -> Result<String, Error> {
        calls::format_by_pattern(self, pattern)
    }

    /// Prints as [`Time::format_by_pattern`] does, but the seconds for a time without such a text. [`Error::OutOfMemory`].
    pub fn format_by_pattern_or_unix(&self, pattern: &str) -> Result<String, Error> {
        calls::format_by_pattern_or_unix(self, pattern)
    }
}

#[cfg(test)]
mod tests {
    use super::*;
    use crate::header::GIX_DATE;

    #[test]
    fn each_format_has_the_number_of_the_header() {
        for (number, (name, format)) in (0..).zip(NAMED) {
            assert!(
                GIX_DATE.contains(&format!("GIX_DATE_{name} = {number}")),
                "{name}"
            );
            assert_eq!(Request::from(format), Request::Number(number));
        }
    }

    #[test]
    fn an_equal_pattern_has_the_same_number() {
        assert_eq!(CustomFormat::new("%Y-%m-%d"), SHORT);
        assert_eq!(
            Request::from(Format::Custom(CustomFormat::new("%Y"))),
            Request::Pattern("%Y")
        );
    }

    /// A pattern and its number print the same.
    #[test]
    fn numbers_print_their_patterns() {
        for seconds in [-1, 0, 1660797906, 1662583506] {
            let time = Time::new(seconds, -12600);
            for (_, named) in NAMED {
                if let Format::Custom(custom) = named {
                    assert_eq!(time.format(named), time.format_by_pattern(custom.0));
                }
            }
        }
    }
}
