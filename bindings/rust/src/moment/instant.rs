//! Instants, without a zone.

use crate::{Error, SecondsSinceUnixEpoch};
use std::time::{Duration, SystemTime, UNIX_EPOCH};

/// An instant, in no zone. Two are equal where their fields are.
///
/// Any numbers make one. The library computes with those from -377705023201 to 253402207200 seconds, and with nanoseconds up to
/// 999999999 either way. What takes an instant refuses others by [`Error::InvalidInstant`].
#[repr(C)]
#[derive(Clone, Copy, Debug, Default, PartialEq, Eq, Hash)]
pub struct Instant {
    /// Seconds since 1970-01-01 00:00:00 UTC.
    pub seconds: SecondsSinceUnixEpoch,
    /// Nanoseconds that are added to these; they may be below 0.
    pub nanoseconds: i32,
}

impl Instant {
    /// A whole second.
    pub const fn at_second(seconds: SecondsSinceUnixEpoch) -> Instant {
        Instant {
            seconds,
            nanoseconds: 0,
        }
    }

    /// This instant, by the system's clock.
    pub fn now() -> Instant {
        SystemTime::now().into()
    }
}

impl From<SystemTime> for Instant {
    fn from(time: SystemTime) -> Instant {
        // There are less than 1000000000 nanoseconds, which an `i32` holds.
        let (seconds, nanoseconds) = match time.duration_since(UNIX_EPOCH) {
            Ok(after) => (
                0_i64.saturating_add_unsigned(after.as_secs()),
                after.subsec_nanos() as i32,
            ),
            Err(error) => {
                let before = error.duration();
                (
                    0_i64.saturating_sub_unsigned(before.as_secs()),
                    -(before.subsec_nanos() as i32),
                )
            }
        };
        Instant {
            seconds,
            nanoseconds,
        }
    }
}

impl TryFrom<Instant> for SystemTime {
    type Error = Error;

    /// [`Error::InvalidInstant`] where the system has no such time.
    fn try_from(instant: Instant) -> Result<SystemTime, Error> {
        let seconds = Duration::from_secs(instant.seconds.unsigned_abs());
        let nanoseconds = Duration::from_nanos(instant.nanoseconds.unsigned_abs().into());
        moved(UNIX_EPOCH, seconds, instant.seconds < 0)
            .and_then(|time| moved(time, nanoseconds, instant.nanoseconds < 0))
            .ok_or(Error::InvalidInstant)
    }
}

/// A time of the system so much later, or earlier.
fn moved(time: SystemTime, by: Duration, is_back: bool) -> Option<SystemTime> {
    if is_back {
        time.checked_sub(by)
    } else {
        time.checked_add(by)
    }
}
