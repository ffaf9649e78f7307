//! The moment that relative dates count from.

mod found_zone;
mod instant;
mod read_zone;
mod zone;

pub use found_zone::FoundZone;
pub use instant::Instant;
pub use read_zone::ReadZone;
pub use zone::Zone;

use crate::{Error, OffsetInSeconds, SecondsSinceUnixEpoch, Time};
use std::time::SystemTime;

/// A moment: an instant, in a zone. Two are equal where their fields are.
///
/// Any numbers make one. The library computes with the instants from -377705023201 to 253402207200 seconds, and with nanoseconds
/// up to 999999999 either way. What takes a moment refuses others by [`Error::InvalidInstant`].
#[derive(Clone, Debug, PartialEq, Eq, Hash)]
pub struct Moment {
    /// Seconds since 1970-01-01 00:00:00 UTC.
    pub seconds: SecondsSinceUnixEpoch,
    /// Nanoseconds that are added to these; they may be below 0.
    pub nanoseconds: i32,
    /// The zone whose clock a relative date is about.
    pub zone: Zone,
}

/// The name under which gix-date has its moments, which are those of jiff.
pub type Zoned = Moment;

impl Moment {
    /// A whole second, in the zone that always has this offset.
    pub const fn at_offset(seconds: SecondsSinceUnixEpoch, offset: OffsetInSeconds) -> Moment {
        Moment {
            seconds,
            nanoseconds: 0,
            zone: Zone::Offset(offset),
        }
    }

    /// This moment in the machine's zone, or in UTC where it has none that can be read.
    pub fn now() -> Moment {
        Moment::now_local().unwrap_or_else(|_| Moment::now_utc())
    }

    /// This moment in the machine's zone. The refusals of [`Zone::local()`].
    pub fn now_local() -> Result<Moment, Error> {
        Ok(Moment {
            zone: Zone::local()?,
            ..Moment::now_utc()
        })
    }

    /// This moment in UTC.
    pub fn now_utc() -> Moment {
        SystemTime::now().into()
    }

    /// The time of this moment, without the part of a second: half a second before 1970 is 0. Its offset is that of the zone
    /// then.
    ///
    /// [`Error::InvalidInstant`], [`Error::InvalidZone`], [`Error::ZoneCountsLeapSeconds`], and in a zone that is no offset
    /// [`Error::OutOfMemory`].
    pub fn to_time(&self) -> Result<Time, Error> {
        self.zone.read()?.parse("now", self.instant())
    }

    /// The instant, without the zone.
    pub const fn instant(&self) -> Instant {
        Instant {
            seconds: self.seconds,
            nanoseconds: self.nanoseconds,
        }
    }
}

impl From<Time> for Moment {
    /// The moment of a time, in the zone that always has its offset.
    fn from(time: Time) -> Moment {
        Moment::at_offset(time.seconds, time.offset)
    }
}

impl From<SystemTime> for Moment {
    /// The moment of the system's time, in UTC.
    fn from(time: SystemTime) -> Moment {
        let Instant {
            seconds,
            nanoseconds,
        } = time.into();
        Moment {
            seconds,
            nanoseconds,
            zone: Zone::UTC,
        }
    }
}

impl TryFrom<&Moment> for SystemTime {
    type Error = Error;

    /// The instant, without the zone. [`Error::InvalidInstant`] where the system has no such time.
    fn try_from(moment: &Moment) -> Result<SystemTime, Error> {
        moment.instant().try_into()
    }
}
