//! Ages.

use crate::git::DateError;
use crate::{calls, Instant, Time};

/// How long ago a time was, in the unit that Git chooses for it.
#[derive(Clone, Copy, Debug, PartialEq, Eq, Hash)]
pub enum Age {
    /// At most 89.
    Seconds(u32),
    /// 2 to 89.
    Minutes(u32),
    /// 2 to 35.
    Hours(u32),
    /// 2 to 13.
    Days(u32),
    /// 2 to 10.
    Weeks(u32),
    /// 2 to 12.
    Months(u32),
    /// Years, and months beyond them.
    Years(u32, u32),
}

/// How long before a moment a time was, as [`DateKind::Relative`](crate::git::DateKind::Relative) shows it: for a program that
/// says it in another language. `None` is a time after the moment, which Git shows as `in the future`.
///
/// ```
/// use gix_date_proved::git::{age_at, Age, DateError};
/// use gix_date_proved::{Instant, Time};
///
/// let now = Instant::at_second(1251660000);
/// assert_eq!(age_at(Time::new(1214160000, 0), now)?, Some(Age::Years(1, 2)));
/// assert_eq!(age_at(Time::new(1251660001, 0), now)?, None);
/// # Ok::<(), DateError>(())
/// ```
///
/// [`DateError::Range`] for a time or a moment before 1970; [`DateError::Refused`] of the instant.
pub fn age_at(time: Time, now: Instant) -> Result<Option<Age>, DateError> {
    calls::git::age_at(&time, now)
}
