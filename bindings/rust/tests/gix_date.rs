//! A user of the crate gix-date 0.18.1, with the name of this crate in one line. Each call is written as that crate's users write
//! it; what they have to change is marked by "Differs".

use gix_date_proved as gix_date;

use gix_date::parse::TimeBuf;
use gix_date::time::{CustomFormat, Format};
use gix_date::{OffsetInSeconds, SecondsSinceUnixEpoch, Time, Zoned};
use std::collections::{BTreeSet, HashSet};
use std::str::FromStr;
use std::time::SystemTime;

const DAY: Time = Time {
    seconds: 1660797906,
    offset: 28800,
};

type Fault = Box<dyn std::error::Error + Send + Sync + 'static>;

#[test]
fn times_are_values() {
    let seconds: SecondsSinceUnixEpoch = DAY.seconds;
    let offset: OffsetInSeconds = DAY.offset;
    assert_eq!(gix_date::Time::new(seconds, offset), DAY);
    assert_eq!(Time::default(), Time::new(0, 0));
    assert!(DAY.is_set() && !Time::default().is_set());
    assert!(Time::new(1, 0).is_set() && Time::new(0, 1).is_set());
    assert_eq!(Time::MIN, Time::new(i64::MIN, -359999));
    assert_eq!(Time::MAX, Time::new(i64::MAX, 359999));
    assert_eq!(HashSet::from([DAY, DAY]).len(), 1);
    assert_eq!(BTreeSet::from([DAY, Time::MIN]).first(), Some(&Time::MIN));
    assert!(format!("{DAY:?}").starts_with("Time {"));
}

#[test]
fn headers_are_written_as_before() -> Result<(), Fault> {
    const LONGEST: usize = Time::MIN.size();
    assert_eq!(LONGEST, 26);
    assert_eq!(DAY.to_string(), "1660797906 +0800");
    assert_eq!(DAY.size(), 16);
    let mut out = Vec::new();
    DAY.write_to(&mut out)?;
    assert_eq!(out, b"1660797906 +0800");
    let mut buf = TimeBuf::default();
    // Differs: it refuses where gix-date panics.
    assert_eq!(DAY.to_str(&mut buf)?, "1660797906 +0800");
    assert_eq!(buf.clone().as_str(), "1660797906 +0800");
    Ok(())
}

#[test]
fn headers_are_read_as_before() -> Result<(), Fault> {
    assert_eq!(gix_date::parse_header("1660797906 +0800"), Some(DAY));
    let seconds = gix_date::parse_header("12abc").map(|time| time.seconds);
    assert_eq!(seconds, Some(12));
    assert_eq!("1660797906 +0800".parse::<Time>()?, DAY);
    assert_eq!(Time::from_str("12abc +0100")?, Time::new(12, 3600));
    assert!(Time::from_str("2022-08-18").is_ok_and(|time| time.seconds == 2022));
    assert!(Time::from_str("yesterday").is_err());
    let read = |text: &str| gix_date::parse_header(text).unwrap_or_default();
    assert_eq!(read("none"), Time::default());
    Ok(())
}

#[test]
fn dates_are_parsed_as_before() -> Result<(), Fault> {
    let input = String::from("Thu, 18 Aug 2022 12:45:06 +0800");
    assert_eq!(gix_date::parse(&input, None)?, DAY);
    assert_eq!(gix_date::parse("@1660797906 +0800", None)?, DAY);
    assert!(gix_date::parse("banana", None).is_err());
    // Differs: the moment is not jiff's.
    let now = gix_date::Moment::at_offset(1698400800, 7200);
    let time = gix_date::parse("1 week ago", Some(now))?;
    assert_eq!(time, Time::new(1697796000, 7200));
    Ok(())
}

#[test]
fn formats_are_as_before() -> Result<(), Fault> {
    use gix_date::time::format;
    assert_eq!(DAY.format(gix_date::time::format::SHORT)?, "2022-08-18");
    assert_eq!(
        DAY.format(Format::Custom(format::RFC2822))?,
        "Thu, 18 Aug 2022 12:45:06 +0800"
    );
    let early = Time::new(1662612306, 28800);
    for (format, text) in [
        (format::RFC2822, "Thu, 08 Sep 2022 12:45:06 +0800"),
        (format::GIT_RFC2822, "Thu, 8 Sep 2022 12:45:06 +0800"),
        (format::ISO8601, "2022-09-08 12:45:06 +0800"),
        (format::ISO8601_STRICT, "2022-09-08T12:45:06+08:00"),
        (format::GITOXIDE, "Thu Sep 08 2022 12:45:06 +0800"),
        (format::DEFAULT, "Thu Sep 8 12:45:06 2022 +0800"),
    ] {
        assert_eq!(early.format(format)?, text);
        assert_eq!(early.format_or_unix(format), text);
        assert_eq!(gix_date::parse(text, None)?, early);
    }
    assert_eq!(DAY.format(format::UNIX)?, "1660797906");
    assert_eq!(DAY.format(Format::Raw)?, DAY.format(format::RAW)?);
    const CLOCK: CustomFormat = CustomFormat::new("%H:%M");
    assert_eq!(DAY.format(CLOCK)?, "12:45");
    let text: String = Time::MAX.format_or_unix(format::ISO8601);
    assert_eq!(text, "9223372036854775807");
    let chosen: Format = if DAY.is_set() {
        format::ISO8601.into()
    } else {
        format::UNIX
    };
    assert!(matches!(chosen, Format::Custom(_)));
    assert!(Time::MAX.format(chosen).is_err());
    Ok(())
}

#[test]
fn the_clock_is_read_as_before() -> Result<(), Fault> {
    let before = Time::from(SystemTime::now()).seconds;
    let now = gix_date::Time::now_utc();
    let local = Time::now_local_or_utc();
    assert_eq!(now.offset, 0);
    assert!(before <= now.seconds && now.seconds <= local.seconds);
    let zoned = Zoned::now();
    assert_eq!(zoned.to_time()?.offset, local.offset);
    // A machine may have no zone.
    if let Some(found) = Time::now_local() {
        assert_eq!(found.offset, local.offset);
    }
    let ago = gix_date::parse("10 seconds ago", Some(Zoned::now()))?;
    assert!(before - 10 <= ago.seconds && ago.seconds < Time::now_utc().seconds);
    let ago = gix_date::parse("1 hour ago", Some(SystemTime::now().into()))?;
    assert!(before - 3600 <= ago.seconds && ago.offset == 0);
    let yesterday = gix_date::parse("yesterday", Some(DAY.to_zoned()?))?;
    assert_eq!(yesterday, Time::new(DAY.seconds - 86400, DAY.offset));
    Ok(())
}
