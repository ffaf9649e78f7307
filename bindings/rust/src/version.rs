//! Versions of the library and of this crate. `build.rs` has this module too.

use std::fmt;

/// A version of the library, or of this crate.
#[derive(Clone, Copy, Debug, PartialEq, Eq, PartialOrd, Ord, Hash)]
pub struct Version {
    /// Another number if callers have to change.
    pub major: u32,
    /// A greater number if there are new calls.
    pub minor: u32,
    /// A greater number for any other change.
    pub patch: u32,
}

impl Version {
    /// The version of a number for C: 1.0.0 is 10000.
    pub(crate) fn of_number(number: u32) -> Version {
        Version {
            major: number / 10_000,
            minor: number / 100 % 100,
            patch: number % 100,
        }
    }

    /// The version of a text such as `1.0.0`.
    pub(crate) fn of_text(text: &str) -> Option<Version> {
        let mut parts = text.split('.').map(|part| part.parse().ok());
        let version = Version {
            major: parts.next()??,
            minor: parts.next()??,
            patch: parts.next()??,
        };
        parts.next().is_none().then_some(version)
    }

    /// The version of this crate.
    pub fn of_crate() -> Version {
        Version::of_text(env!("CARGO_PKG_VERSION")).expect("cargo has three numbers")
    }

    /// Whether a library of this version has all that a crate of the other version calls. The refusal shows both.
    pub fn serves(self, wanted: Version) -> Result<(), VersionError> {
        if self.major == wanted.major && self >= wanted {
            Ok(())
        } else {
            let found = self;
            Err(VersionError { found, wanted })
        }
    }
}

impl fmt::Display for Version {
    fn fmt(&self, f: &mut fmt::Formatter<'_>) -> fmt::Result {
        write!(f, "{}.{}.{}", self.major, self.minor, self.patch)
    }
}

/// The library has a version that this crate cannot use.
#[derive(Clone, Copy, Debug, PartialEq, Eq, Hash)]
pub struct VersionError {
    /// The version of the library.
    pub found: Version,
    /// The least version that the crate can use.
    pub wanted: Version,
}

impl fmt::Display for VersionError {
    fn fmt(&self, f: &mut fmt::Formatter<'_>) -> fmt::Result {
        let (found, wanted) = (self.found, self.wanted);
        write!(
            f,
            "the library gix_date has version {found}, and this crate needs {wanted} or a later {}.x",
            wanted.major
        )
    }
}

impl std::error::Error for VersionError {}
