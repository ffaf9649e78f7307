//! The system's clock, and its times.

use crate::{Error, Moment, Time, Zoned};
use std::time::SystemTime;

impl Time {
    /// The time now, at UTC.
    pub fn now_utc() -> Time {
        SystemTime::now().into()
    }

    /// The time now, at the offset of the machine's zone ([`Zone::local()`](crate::Zone::local)). `None` where it has none
    /// that can be read.
    pub fn now_local() -> Option<Time> {
        Moment::now_local().and_then(|now| now.to_time()).ok()
    }

    /// The time now, at the offset of the machine's zone, or at UTC where it has none that can be read.
    pub fn now_local_or_utc() -> Time {
        Time::now_local().unwrap_or_else(Time::now_utc)
    }

    /// The moment of this time, in the zone that always has its offset. [`Error::Conversion`] where the library cannot
    /// compute with it; [`Moment::from()`] makes it untested.
    pub fn to_zoned(self) -> Result<Zoned, Error> {
        let moment = Moment::from(self);
        match moment.to_time() {
            Ok(_) => Ok(moment),
            Err(_) => Err(Error::Conversion),
        }
    }
}

impl From<SystemTime> for Time {
    /// The system's time at UTC, without the part of a second. So half a second before 1970 is 0, as in gix-date.
    fn from(time: SystemTime) -> Time {
        Time::new(Moment::from(time).seconds, 0)
    }
}

impl TryFrom<Time> for SystemTime {
    type Error = Error;

    /// [`Error::InvalidInstant`] where the system has no such time.
    fn try_from(time: Time) -> Result<SystemTime, Error> {
        SystemTime::try_from(&Moment::from(time))
    }
}
