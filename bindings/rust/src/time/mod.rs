//! Formats, and the calls of [`Time`](crate::Time) that print, write and read the clock.

mod clock;
pub mod format;
mod header;

/// What a time is printed as.
#[derive(Clone, Copy, Debug, PartialEq, Eq, Hash)]
pub enum Format {
    /// By a pattern, such as those in the module [`mod@format`].
    Custom(CustomFormat),
    /// The seconds since 1970: `1660797906`
    Unix,
    /// As in a commit header: `1660797906 +0800`
    Raw,
}

impl Default for Format {
    /// Git's default form, [`format::DEFAULT`].
    fn default() -> Format {
        CustomFormat::default().into()
    }
}

/// A pattern of `strftime`, as the crate jiff has its directives. Two are equal where their patterns are.
#[derive(Clone, Copy, Debug, PartialEq, Eq, Hash)]
pub struct CustomFormat(&'static str);

impl CustomFormat {
    /// The format of a pattern. Whether it can be printed is found by [`Time::format()`](crate::Time::format).
    pub const fn new(pattern: &'static str) -> CustomFormat {
        CustomFormat(pattern)
    }
}

impl Default for CustomFormat {
    /// Git's default form, [`format::DEFAULT`].
    fn default() -> CustomFormat {
        format::DEFAULT
    }
}

impl From<CustomFormat> for Format {
    fn from(format: CustomFormat) -> Format {
        Format::Custom(format)
    }
}
