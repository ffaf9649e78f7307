//! Zones that are read once: each call in each kind of zone, refusals, clones and threads. The answers are those of jiff and of
//! Git; `rows.rs` runs all rows with a moment in such zones too.

use gix_date_proved::git::{Approximate, DateError, DateKind, DateMode, Expiry, OwnDateError};
use gix_date_proved::signature::GitTime;
use gix_date_proved::{
    bytes, parse, parse_carefully, CarefulError, CarefulOptions, Error, Instant, Moment,
    RawOffsets, ReadZone, Time, WithoutOffset, Zone,
};
use std::path::Path;
use std::sync::OnceLock;
use std::time::{Duration, SystemTime, UNIX_EPOCH};
use std::{fs, thread};

const RULE: &str = "EST5EDT,M3.2.0,M11.1.0";

/// The file of New York's zone for 2023.
fn file() -> Vec<u8> {
    let folder = Path::new(env!("CARGO_MANIFEST_DIR")).join("../../crates/gix_date_rows/data");
    fs::read(folder.join("new_york_2023.tzif")).unwrap()
}

/// New York's zone by its rule, and by its file.
fn new_york() -> [Zone; 2] {
    [Zone::Posix(RULE.into()), Zone::Tzif(file().into())]
}

fn careful() -> CarefulOptions {
    CarefulOptions {
        without_offset: WithoutOffset::MomentsZone,
        ..CarefulOptions::default()
    }
}

fn local() -> DateMode {
    DateMode {
        kind: DateKind::Iso8601,
        local: true,
    }
}

/// The date of a line.
const OF_LINE: GitTime = GitTime::new(1699189106, 60);

/// Each call in New York's zone, all with the zone that was read once.
fn answers_in_new_york(zone: &ReadZone) {
    let in_fold = Instant::at_second(1699165800);
    assert_eq!(
        zone.parse("now", in_fold),
        Ok(Time::new(1699165800, -18000))
    );
    let hour = Time::new(1699158600, -14400);
    assert_eq!(zone.parse("1 hour ago", in_fold), Ok(hour));
    let any = RawOffsets::WholeMinutes;
    assert_eq!(zone.parse_with("1 hour ago", in_fold, any), Ok(hour));
    assert_eq!(
        zone.parse_with("@5 +0007", in_fold, any),
        Ok(Time::new(5, 420))
    );
    let twice = zone.parse_carefully("2023-11-05 01:30", in_fold, careful());
    assert_eq!(twice, Ok(Time::new(1699162200, -14400)));

    let now = Instant::at_second(1700000000);
    let skipped = zone.parse_date("2023-03-12 02:30", now).unwrap();
    assert_eq!(skipped.time, Time::new(1678606200, -18000));
    let noon = zone.approxidate("noon july 1", now).unwrap();
    assert_eq!(noon.time, Time::new(1688230800, -14400));
    let months = Approximate {
        time: Time::new(1692051200, -14400),
        understood: true,
        ignored: None,
    };
    let expiry = zone.expiry_date("3 months ago", now);
    assert_eq!(expiry, Ok(Expiry::Before(months)));

    let now = Instant::at_second(1699189200);
    let offsets = [1699163999, 1699164000].map(|at| zone.offset_at(Instant::at_second(at)));
    assert_eq!(offsets, [Ok(-14400), Ok(-18000)]);
    let shown = zone.show_date(Time::new(1699189106, 0), local(), now);
    assert_eq!(shown.unwrap(), "2023-11-05 07:58:26 -0500");
    let shown = zone.show_git_time(OF_LINE, local(), now);
    assert_eq!(shown.unwrap(), "2023-11-05 07:58:26 -0500");
}

#[test]
fn a_rule_and_a_file_serve_all_calls() {
    for zone in new_york() {
        let zone = zone.read().unwrap();
        for _ in 0..3 {
            answers_in_new_york(&zone);
        }
    }
}

#[test]
fn an_offset_serves_all_calls() {
    let zone = Zone::Offset(7200).read().unwrap();
    let now = Instant::at_second(1698400800);
    let weeks = Time::new(1697191200, 7200);
    assert_eq!(zone.parse("2 weeks ago", now), Ok(weeks));
    assert_eq!(
        zone.parse_with("2 weeks ago", now, RawOffsets::Quarter),
        Ok(weeks)
    );
    assert_eq!(
        zone.parse_carefully("2024-01-05 10:00", now, careful()),
        Ok(Time::new(1704441600, 7200))
    );

    let zone = Zone::UTC.read().unwrap();
    let now = Instant::at_second(1251660000);
    let text = "2008-02-14 20:30:45 IST";
    let date = zone.parse_date(text, now).unwrap();
    assert_eq!(
        (date.time, date.ignored),
        (Time::new(1203021045, 0), Some(20))
    );
    let date = zone.approxidate("noon yesterday", now).unwrap();
    assert_eq!(date.time, Time::new(1251547200, 0));
    assert_eq!(zone.expiry_date("never", now), Ok(Expiry::Never));
    let time = Time::new(1251300000, 7200);
    let shown = zone.show_date(time, local(), now).unwrap();
    assert_eq!(shown, "2009-08-26 15:20:00 +0000");
    let shown = zone.show_git_time(OF_LINE, local(), now).unwrap();
    assert_eq!(shown, "2023-11-05 12:58:26 +0000");
}

#[test]
fn texts_are_refused_as_at_a_moment() {
    let now = Instant::at_second(1698400800);
    for zone in new_york().into_iter().chain([Zone::UTC]) {
        let zone = zone.read().unwrap();
        assert_eq!(zone.parse("banana", now), Err(Error::UnknownFormat));
        assert_eq!(zone.parse("12023 years ago", now), Err(Error::Range));
        let unclear = zone.parse_carefully("30 min ago", now, careful());
        assert_eq!(unclear, Err(CarefulError::Unclear(3)));
        let unreadable = Err(DateError::Unreadable);
        assert_eq!(zone.parse_date("2008-02-14", now), unreadable);
        let back = Err(DateError::BackTooFar(0));
        assert_eq!(zone.approxidate("25000 days ago", now), back);
        let unreadable = Err(DateError::Unreadable);
        assert_eq!(zone.expiry_date("ALL", now), unreadable);
        let range = Err(DateError::Range);
        assert_eq!(zone.show_date(Time::new(-1, 0), local(), now), range);
    }
}

/// What refuses each call in a zone at an instant.
fn refusals(zone: &ReadZone, now: Instant) -> [Option<Error>; 9] {
    let of_date = |answer| match answer {
        DateError::Refused(error) => error,
        other => panic!("{other:?}"),
    };
    let careful = match zone.parse_carefully("now", now, careful()) {
        Err(CarefulError::Refused(error)) => Some(error),
        Err(other) => panic!("{other:?}"),
        Ok(_) => None,
    };
    [
        zone.offset_at(now).err(),
        zone.parse("now", now).err(),
        zone.parse_with("now", now, RawOffsets::WholeMinutes).err(),
        careful,
        zone.parse_date("2008-02-14 20:30:45", now)
            .err()
            .map(of_date),
        zone.approxidate("yesterday", now).err().map(of_date),
        zone.expiry_date("never", now).err().map(of_date),
        zone.show_date(Time::new(0, 0), local(), now)
            .err()
            .map(of_date),
        match zone.show_git_time(OF_LINE, local(), now) {
            Err(OwnDateError::Refused(error)) => Some(error),
            Err(other) => panic!("{other:?}"),
            Ok(_) => None,
        },
    ]
}

#[test]
fn each_call_refuses_what_is_no_instant() {
    for zone in new_york().into_iter().chain([Zone::Offset(3600)]) {
        let zone = zone.read().unwrap();
        let too_late = Instant::at_second(253402207201);
        let whole = Instant {
            seconds: 0,
            nanoseconds: 1_000_000_000,
        };
        for now in [too_late, whole] {
            assert_eq!(refusals(&zone, now), [Some(Error::InvalidInstant); 9]);
        }
        let now = Instant::at_second(1251660000);
        assert_eq!(refusals(&zone, now), [None; 9]);
    }
}

#[test]
fn each_call_refuses_an_offset_that_is_too_wide() {
    for (offset, refusal) in [
        (93599, None),
        (-93599, None),
        (93600, Some(Error::InvalidZone)),
        (-93600, Some(Error::InvalidZone)),
        (i32::MIN, Some(Error::InvalidZone)),
    ] {
        let zone = Zone::Offset(offset).read().unwrap();
        let now = Instant::at_second(1251660000);
        assert_eq!(refusals(&zone, now), [refusal; 9], "{offset}");
    }
}

/// A zone that cannot be read is refused by all that read it.
fn is_refused(zone: Zone) {
    is_refused_by(Error::InvalidZone, zone);
}

fn is_refused_by(error: Error, zone: Zone) {
    assert_eq!(zone.read().unwrap_err(), error, "{zone:?}");
    let at = || Moment {
        zone: zone.clone(),
        ..Moment::at_offset(0, 0)
    };
    assert_eq!(parse("now", Some(at())), Err(error), "{zone:?}");
    assert_eq!(at().to_time(), Err(error), "{zone:?}");
    let careful = parse_carefully("now", Some(at()), careful());
    assert_eq!(careful, Err(CarefulError::Refused(error)), "{zone:?}");
    let date = bytes::approxidate(b"now", &at());
    assert_eq!(date, Err(DateError::Refused(error)), "{zone:?}");
}

#[test]
fn what_is_no_rule_is_refused() {
    for rule in ["", "banana", "EST", "EST5EDT,M3", "EST5 ", ":EST5", "\0"] {
        is_refused(Zone::Posix(rule.into()));
    }
}

#[test]
fn an_offset_as_a_text_is_no_rule() {
    for offset in ["+0200", "-0330", "+02:00", "-03:30", "+02", "-00", "+", "-"] {
        is_refused(Zone::Posix(offset.into()));
    }
}

/// The file of a zone that is always UTC: the header, a table without a change, and the rule. It is ASCII but for its leap seconds.
fn file_of_utc(leaps: &[u8]) -> Vec<u8> {
    let table = |leaps: &[u8]| {
        let mut table = b"TZif2".to_vec();
        table.resize(20, 0);
        for count in [0, 0, leaps.len() as u8 / 12, 0, 1, 4] {
            table.extend([0, 0, 0, count]);
        }
        table.extend(b"\0\0\0\0\0\0UTC\0");
        table.extend(leaps);
        table
    };
    [table(&[]), table(leaps), b"\nUTC0\n".to_vec()].concat()
}

#[test]
fn a_file_that_counts_leap_seconds_is_refused() {
    let leap = [0, 0, 0, 0, 4, 178, 88, 0, 0, 0, 0, 1];
    let file = file_of_utc(&leap);
    is_refused_by(Error::ZoneCountsLeapSeconds, Zone::Tzif(file.into()));
}

#[test]
fn a_file_is_no_rule() {
    let file = file_of_utc(&[]);
    let now = Instant::at_second(5);
    let zone = Zone::Tzif(file[..].into()).read().unwrap();
    assert_eq!(zone.parse("now", now), Ok(Time::new(5, 0)));
    let text = String::from_utf8(file).unwrap();
    for text in [&text, "TZif", "TZif5", "TZif5EDT,M3.2.0,M11.1.0"] {
        is_refused(Zone::Posix(text.into()));
    }
}

#[test]
fn what_is_no_file_is_refused() {
    let file = file();
    for bytes in [
        b"",
        RULE.as_bytes(),
        b"+0200",
        b"TZif",
        &file[..60],
        b"\xff",
    ] {
        is_refused(Zone::Tzif(bytes.into()));
    }
}

#[test]
fn texts_may_be_bytes() {
    let zone = Zone::Offset(7200).read().unwrap();
    let now = Instant::at_second(1698400800);
    let weeks = Ok(Time::new(1697191200, 7200));
    assert_eq!(zone.parse(b"2 weeks ago", now), weeks);
    assert_eq!(zone.parse(b"@5\xff", now), Err(Error::NotText));
    let date = zone.parse_date(b"2009-02-14 01:31:30\xff", now).unwrap();
    assert_eq!(date.time, Time::new(1234567890, 7200));
    let noon = zone.approxidate(b"noon\xffyesterday", now).unwrap();
    assert_eq!(noon.time, Time::new(1698314400, 7200));
    let unread = Err(DateError::Unreadable);
    assert_eq!(zone.expiry_date(b"all\xff", now), unread);
}

#[test]
fn clones_outlive_each_other() {
    for zone in new_york() {
        let first = zone.read().unwrap();
        let second = first.clone();
        let mut third = first.try_clone().unwrap();
        drop(first);
        answers_in_new_york(&second);
        drop(second);
        answers_in_new_york(&third);
        third = third.clone();
        answers_in_new_york(&third);
    }
    let zone = Zone::Offset(7200).read().unwrap();
    let now = zone.clone().parse("now", Instant::at_second(0));
    assert_eq!(now, Ok(Time::new(0, 7200)));
    assert_eq!(format!("{zone:?}"), "ReadZone { .. }");
}

/// A zone that lasts as long as the program.
static SHARED: OnceLock<ReadZone> = OnceLock::new();

#[test]
fn threads_share_a_zone() {
    SHARED.get_or_init(|| Zone::Posix(RULE.into()).read().unwrap());
    for zone in new_york() {
        let zone = &zone.read().unwrap();
        thread::scope(|threads| {
            for _ in 0..8 {
                threads.spawn(|| {
                    for _ in 0..50 {
                        answers_in_new_york(zone);
                        answers_in_new_york(SHARED.get().unwrap());
                    }
                });
            }
            threads.spawn(|| {
                for _ in 0..50 {
                    answers_in_new_york(&zone.clone());
                }
            });
        });
        answers_in_new_york(zone);
    }
}

#[test]
fn threads_share_an_offset() {
    let zone = &Zone::Offset(7200).read().unwrap();
    let now = Instant::at_second(1698400800);
    thread::scope(|threads| {
        for _ in 0..8 {
            threads.spawn(|| {
                for _ in 0..10000 {
                    assert_eq!(zone.offset_at(now), Ok(7200));
                }
            });
        }
    });
}

#[test]
fn instants_are_those_of_the_system() {
    let nano = Duration::from_nanos(1);
    for (system, seconds, nanoseconds) in [
        (UNIX_EPOCH, 0, 0),
        (UNIX_EPOCH + nano, 0, 1),
        (UNIX_EPOCH - nano, 0, -1),
        (UNIX_EPOCH - Duration::new(5, 1), -5, -1),
    ] {
        let instant = Instant {
            seconds,
            nanoseconds,
        };
        assert_eq!(Instant::from(system), instant);
        assert_eq!(Moment::from(system).instant(), instant);
        assert_eq!(SystemTime::try_from(instant), Ok(system));
    }
    assert!(SystemTime::now()
        .duration_since(UNIX_EPOCH)
        .is_ok_and(|now| {
            let later = Instant::now().seconds - now.as_secs() as i64;
            (0..60).contains(&later)
        }));
    assert_eq!(Instant::default(), Instant::at_second(0));
}
