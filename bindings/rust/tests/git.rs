//! The calls of the module `git`, their refusals, and sixteen threads at once. The answers are Git's, or rules of
//! `docs/GIT_DATES.md`; `rows.rs` runs the rows of outside values.

use gix_date_proved::git::{
    age_at, approxidate, expiry_date, offset_from_decimal, offset_text, offset_to_decimal,
    parse_date, parse_offset, show_by_format, show_date, show_git_time, Age, Approximate,
    DateError, DateFormat, DateKind, DateMode, DateText, ExactDate, Expiry, FormatFault,
    OwnDateError, UnknownMode,
};
use gix_date_proved::signature::GitTime;
use gix_date_proved::{bytes, Error, Instant, Moment, Time, Zone};
use std::collections::HashSet;
use std::error::Error as StdError;
use std::path::Path;
use std::{fs, thread};

/// 2009-08-30 19:20:00 UTC, a Sunday.
fn now() -> Moment {
    Moment::at_offset(1251660000, 0)
}

/// A date that names its own offset.
fn exact(seconds: i64, offset: i32, ignored: Option<usize>) -> Result<ExactDate, DateError> {
    Ok(ExactDate {
        time: Time { seconds, offset },
        has_offset: true,
        ignored,
    })
}

/// A date at the offset of a zone.
fn in_zone(seconds: i64, offset: i32, ignored: Option<usize>) -> Result<ExactDate, DateError> {
    let date = exact(seconds, offset, ignored)?;
    Ok(ExactDate {
        has_offset: false,
        ..date
    })
}

fn approximate(seconds: i64, offset: i32, ignored: Option<usize>) -> Approximate {
    Approximate {
        time: Time { seconds, offset },
        understood: true,
        ignored,
    }
}

#[test]
fn exact_dates_are_read() {
    let answers = [
        (
            "Thu, 07 Apr 2005 22:13:13 +0200",
            exact(1112904793, 7200, None),
        ),
        ("2008-02-14 20:30:45 IST", in_zone(1203021045, 0, Some(20))),
        (
            "Thu, 14 Feb 2008 20:30:45 +0000\0 +0500",
            exact(1203021045, 0, Some(31)),
        ),
        ("2005-02-31 10:00 +0000", exact(1109844000, 0, None)),
        ("1234567890 +0530", exact(1234567890, 19800, None)),
        ("2008-02-14", Err(DateError::Unreadable)),
        ("", Err(DateError::Unreadable)),
        (
            "10:00 4294967301-01-02 +0000",
            Err(DateError::NumberTooLarge(6)),
        ),
        ("2100-01-01 10:00 +0000", Err(DateError::YearRefused(0))),
        ("1970-01-01 00:00 +0100", Err(DateError::Range)),
    ];
    for (text, due) in answers {
        assert_eq!(parse_date(text, &now()), due, "{text}");
    }
}

#[test]
fn dates_of_people_are_read() {
    let answers = [
        ("noon yesterday", Ok(approximate(1251547200, 0, None))),
        ("last friday at noon", Ok(approximate(1251460800, 0, None))),
        ("5 mins ago", Ok(approximate(1249500000, 0, Some(2)))),
        (
            "friday",
            Ok(Approximate {
                understood: false,
                ..approximate(1251660000, 0, Some(0))
            }),
        ),
        ("25000 days ago", Err(DateError::BackTooFar(0))),
        ("60 years ago", Err(DateError::Range)),
    ];
    for (text, due) in answers {
        assert_eq!(approxidate(text, &now()), due, "{text}");
    }
}

#[test]
fn what_expires_is_read() {
    let answers = [
        ("never", Ok(Expiry::Never)),
        ("false", Ok(Expiry::Never)),
        ("all", Ok(Expiry::All)),
        ("now", Ok(Expiry::All)),
        ("NOW", Ok(Expiry::Before(approximate(1251660000, 0, None)))),
        (
            "all 5",
            Ok(Expiry::Before(approximate(1249500000, 0, Some(0)))),
        ),
        ("ALL", Err(DateError::Unreadable)),
        ("200 years ago", Err(DateError::BackTooFar(0))),
    ];
    for (text, due) in answers {
        assert_eq!(expiry_date(text, &now()), due, "{text}");
    }
}

#[test]
fn ages_have_the_unit_of_git() {
    let now = Instant::at_second(1251660000);
    let answers = [
        (1251659999, Ok(Some(Age::Seconds(1)))),
        (1251659880, Ok(Some(Age::Minutes(2)))),
        (1214160000, Ok(Some(Age::Years(1, 2)))),
        (1251660001, Ok(None)),
        (-1, Err(DateError::Range)),
    ];
    for (seconds, due) in answers {
        assert_eq!(age_at(Time::new(seconds, 3600), now), due, "{seconds}");
    }
    let early = age_at(Time::new(5, 0), Instant::at_second(-1));
    assert_eq!(early, Err(DateError::Range));
    let late = age_at(Time::new(5, 0), Instant::at_second(i64::MAX));
    assert_eq!(late, Err(Error::InvalidInstant.into()));
}

#[test]
fn offsets_are_numbers_of_hours_and_minutes() {
    for (decimal, offset) in [(0, 0), (530, 19800), (-130, -5400), (-1, -60)] {
        assert_eq!(offset_from_decimal(decimal), offset);
        assert_eq!(offset_to_decimal(offset), decimal);
    }
    assert_eq!(offset_from_decimal(i32::MIN), -i32::MAX);
    assert_eq!(offset_to_decimal(-3661), -101);
}

#[test]
fn offsets_have_texts() {
    for (text, offset) in [("+0000", 0), ("-0130", -5400), ("+0530", 19800)] {
        assert_eq!(parse_offset(text), Ok(offset));
        assert_eq!(offset_text(offset), text);
    }
    assert_eq!(parse_offset("-03:30"), Ok(-12600));
    assert_eq!(parse_offset("+02"), Ok(7200));
    assert_eq!(offset_text(i32::MIN), "-59652314");
    for text in ["", "0200", "+2600", "+0260", "Z"] {
        assert_eq!(parse_offset(text), Err(Error::InvalidZone), "{text}");
    }
}

#[test]
fn bytes_that_are_no_text_are_passed_over() {
    let text = b"2008-02-14 20:30:45\xff";
    let date = parse_date("2008-02-14 20:30:45", &now());
    assert!(date.is_ok());
    assert_eq!(bytes::parse_date(text, &now()), date);
    let guess = approxidate("2008-02-14 20:30:45", &now());
    assert_eq!(bytes::approxidate(text, &now()), guess);
    let expiry = expiry_date("2008-02-14 20:30:45", &now());
    assert_eq!(bytes::expiry_date(text, &now()), expiry);
}

/// A moment in each kind of zone that New York's can be, and the file of it for 2023.
fn in_new_york(seconds: i64) -> [Moment; 2] {
    let folder = Path::new(env!("CARGO_MANIFEST_DIR")).join("../../crates/gix_date_rows/data");
    let file = fs::read(folder.join("new_york_2023.tzif")).unwrap();
    let zones = [
        Zone::Posix("EST5EDT,M3.2.0,M11.1.0".into()),
        Zone::Tzif(file.into()),
    ];
    zones.map(|zone| Moment {
        seconds,
        nanoseconds: 0,
        zone,
    })
}

#[test]
fn each_kind_of_zone_is_that_of_the_clock() {
    for now in in_new_york(1700000000) {
        let skipped = parse_date("2023-03-12 02:30", &now);
        assert_eq!(skipped, in_zone(1678606200, -18000, None));
        let twice = parse_date("2023-11-05 01:30", &now);
        assert_eq!(twice, in_zone(1699162200, -14400, None));
        let july = approximate(1688230800, -14400, None);
        assert_eq!(approxidate("noon july 1", &now), Ok(july));
        let months = approximate(1692051200, -14400, None);
        assert_eq!(
            expiry_date("3 months ago", &now),
            Ok(Expiry::Before(months))
        );
    }
    let local = DateMode {
        kind: DateKind::Iso8601,
        local: true,
    };
    for now in in_new_york(1699189200) {
        let winter = show_date(Time::new(1699189106, 0), local, &now);
        assert_eq!(winter.unwrap(), "2023-11-05 07:58:26 -0500");
        let summer = show_date(Time::new(1698679832, -43200), local, &now);
        assert_eq!(summer.unwrap(), "2023-10-30 11:30:32 -0400");
    }
}

#[test]
fn dates_of_lines_keep_their_offsets() {
    let time = GitTime::new(1251300000, 60);
    let texts = [
        ("relative", "4 days ago"),
        ("iso8601-strict", "2009-08-26T16:20:00+00:60"),
        ("iso8601", "2009-08-26 16:20:00 +0060"),
        ("rfc2822", "Wed, 26 Aug 2009 16:20:00 +0060"),
        ("short", "2009-08-26"),
        ("default", "Wed Aug 26 16:20:00 2009 +0060"),
        ("human", "Wed 16:20 +0060"),
        ("raw", "1251300000 +0060"),
        ("unix", "1251300000"),
        ("iso-local", "2009-08-26 15:20:00 +0000"),
    ];
    for (name, due) in texts {
        let shown = show_git_time(time, name.parse().unwrap(), &now());
        assert_eq!(shown.unwrap(), due);
    }
    let iso = "iso".parse().unwrap();
    let refusals = [
        (0, -100, OwnDateError::BeforeEpoch),
        (0, 59652315, OwnDateError::OffsetTooWide),
        (i64::MAX, 0, OwnDateError::Range),
    ];
    for (seconds, offset, due) in refusals {
        let shown = show_git_time(GitTime::new(seconds, offset), iso, &now());
        assert_eq!(shown, Err(due), "{seconds} {offset}");
    }
    let nowhere = Moment::at_offset(0, 93600);
    let shown = show_git_time(time, iso, &nowhere);
    assert_eq!(shown, Err(Error::InvalidZone.into()));
}

/// What each call answers at a moment.
fn refusals(now: &Moment) -> [Option<DateError>; 4] {
    let time = Time::new(1251300000, 7200);
    [
        parse_date("2008-02-14 20:30:45", now).err(),
        approxidate("yesterday", now).err(),
        expiry_date("never", now).err(),
        show_date(time, DateMode::default(), now).err(),
    ]
}

#[test]
fn moments_that_are_none_are_refused() {
    let at = |zone| Moment { zone, ..now() };
    let zones = [
        Zone::Offset(93600),
        Zone::Posix("banana".into()),
        Zone::Tzif([].into()),
    ];
    for zone in zones {
        let due = Some(DateError::Refused(Error::InvalidZone));
        assert_eq!(refusals(&at(zone.clone())), [due; 4], "{zone:?}");
    }
    for seconds in [253402207201, i64::MIN] {
        let due = Some(DateError::Refused(Error::InvalidInstant));
        let [rule, file] = in_new_york(seconds);
        for now in [Moment::at_offset(seconds, 0), rule, file] {
            assert_eq!(refusals(&now), [due; 4], "{now:?}");
        }
    }
    assert_eq!(refusals(&now()), [None; 4]);
}

#[test]
fn dates_are_shown_in_each_mode() {
    let time = Time::new(1251300000, 7200);
    let texts = [
        ("relative", "4 days ago"),
        ("iso8601-strict", "2009-08-26T17:20:00+02:00"),
        ("iso8601", "2009-08-26 17:20:00 +0200"),
        ("rfc2822", "Wed, 26 Aug 2009 17:20:00 +0200"),
        ("short", "2009-08-26"),
        ("default", "Wed Aug 26 17:20:00 2009 +0200"),
        ("human", "Wed 17:20 +0200"),
        ("raw", "1251300000 +0200"),
        ("unix", "1251300000"),
    ];
    for (name, due) in texts {
        let mode: DateMode = name.parse().unwrap();
        assert_eq!(mode.to_string(), name);
        assert_eq!(show_date(time, mode, &now()).unwrap(), due);
        let local: DateMode = format!("{name}-local").parse().unwrap();
        assert_eq!(
            local,
            DateMode {
                local: true,
                ..mode
            }
        );
        assert_eq!(local.to_string(), format!("{name}-local"));
    }
    for time in [Time::new(-1, 0), Time::new(0, 30), Time::new(0, 360000)] {
        let raw = "raw".parse().unwrap();
        let shown = show_date(time, raw, &now());
        assert_eq!(shown, Err(DateError::Range), "{time:?}");
    }
}

#[test]
fn dates_are_shown_by_formats() {
    let time = Time::new(1251660000, 7200);
    let new_york = Moment {
        zone: Zone::Posix("EST5EDT,M3.2.0,M11.1.0".into()),
        ..now()
    };
    let rows = [
        ("%Y-%m-%d %H:%M:%S %z", false, "2009-08-30 21:20:00 +0200"),
        ("%Y-%m-%d %H:%M %z %Z", true, "2009-08-30 15:20 -0400 EDT"),
        ("[%Z] %s", false, "[] 1251660000"),
        ("%12F %012T %3u", false, "  2009-08-30 000021:20:00 007"),
        ("\u{e9}%%", true, "\u{e9}%"),
        ("", false, ""),
    ];
    for (text, local, due) in rows {
        let format = DateFormat::new(text).unwrap();
        assert_eq!(format.as_str(), text);
        let shown = show_by_format(time, format, local, &new_york);
        assert_eq!(shown.as_deref(), Ok(due), "{text}");
    }
    let long = "%0255d".repeat(1000);
    let shown = show_by_format(time, DateFormat::new(&long).unwrap(), false, &now()).unwrap();
    assert_eq!(shown, format!("{:0>255}", 30).repeat(1000));
    for (text, seconds) in [("%Y", -1), ("%s", 4102444800)] {
        let format = DateFormat::new(text).unwrap();
        let shown = show_by_format(Time::new(seconds, 0), format, false, &now());
        assert_eq!(shown, Err(DateError::Range), "{text}");
    }
    let nowhere = Moment::at_offset(0, 93600);
    let shown = show_by_format(time, DateFormat::new("%Y").unwrap(), false, &nowhere);
    assert_eq!(shown, Err(Error::InvalidZone.into()));
}

#[test]
fn the_first_fault_of_a_format_is_told() {
    let rows = [
        ("%Y %-s", FormatFault::FlagRefused(3)),
        ("100%% %256d", FormatFault::WidthTooLarge(6)),
        ("%q%256d", FormatFault::UnknownDirective(0)),
        ("\u{e9}%", FormatFault::UnknownDirective(2)),
    ];
    for (text, fault) in rows {
        assert_eq!(DateFormat::new(text), Err(fault), "{text}");
    }
}

#[test]
fn modes_have_the_names_of_git() {
    assert_eq!(DateMode::default().to_string(), "default");
    assert_eq!(
        "local".parse::<DateMode>().unwrap().to_string(),
        "default-local"
    );
    for unknown in [
        "",
        "ISO",
        "iso ",
        "local-local",
        "format:%Y",
        "auto:iso",
        "iso\0",
    ] {
        assert_eq!(unknown.parse::<DateMode>(), Err(UnknownMode), "{unknown}");
    }
}

#[test]
fn a_shown_date_is_a_text() -> Result<(), Box<dyn StdError>> {
    let text: DateText = show_date(Time::new(1251300000, 7200), "short".parse()?, &now())?;
    let copy = text;
    assert_eq!(text, copy);
    assert_eq!(text, *"2009-08-26");
    assert_ne!(text, *"2009-08-2");
    assert_ne!(text, "2009-08-2");
    assert_eq!(text.len(), 10);
    assert_eq!(text.split('-').next(), Some("2009"));
    assert_eq!(
        format!("[{text}] [{text:>12}]"),
        "[2009-08-26] [  2009-08-26]"
    );
    assert_eq!(format!("{text:?}"), "DateText(\"2009-08-26\")");
    assert_eq!(AsRef::<str>::as_ref(&text), text.as_str());
    let other = show_date(Time::new(0, 0), "short".parse()?, &now())?;
    assert_ne!(text, other);
    assert_eq!(HashSet::from([text, copy, other]).len(), 2);
    Ok(())
}

#[test]
fn errors_are_errors() {
    let error: Box<dyn StdError> = Box::new(parse_date("", &now()).unwrap_err());
    assert!(error
        .to_string()
        .starts_with("not a date with a time of day"));
    let error = parse_date("now", &Moment::at_offset(0, 93600)).unwrap_err();
    assert_eq!(error.to_string(), Error::InvalidZone.to_string());
    let error: Box<dyn StdError> = Box::new(OwnDateError::from(Error::InvalidZone));
    assert_eq!(error.to_string(), Error::InvalidZone.to_string());
    let error: Box<dyn StdError> = Box::new("ISO".parse::<DateMode>().unwrap_err());
    assert!(error.to_string().starts_with("not a way to show a date"));
}

/// Derives that callers count on, each a bound.
#[test]
fn types_have_their_traits() {
    fn are_keys<T: Copy + std::fmt::Debug + Eq + std::hash::Hash + Send + Sync + 'static>() {}
    are_keys::<ExactDate>();
    are_keys::<Approximate>();
    are_keys::<Expiry>();
    are_keys::<DateError>();
    are_keys::<OwnDateError>();
    are_keys::<DateKind>();
    are_keys::<DateMode>();
    are_keys::<UnknownMode>();
    are_keys::<DateText>();
    assert_eq!(DateKind::default(), DateKind::Default);
}

#[test]
fn threads_share_nothing() {
    let mode = DateMode {
        kind: DateKind::Human,
        local: false,
    };
    let is_same = move || {
        parse_date("2008-02-14 20:30:45 IST", &now()) == in_zone(1203021045, 0, Some(20))
            && approxidate("5 mins ago", &now()) == Ok(approximate(1249500000, 0, Some(2)))
            && expiry_date("never", &now()) == Ok(Expiry::Never)
            && "human".parse() == Ok(mode)
            && show_date(Time::new(1251300000, 7200), mode, &now())
                .is_ok_and(|text| text == "Wed 17:20 +0200")
    };
    let threads: Vec<_> = (0..16)
        .map(|_| thread::spawn(move || (0..200).all(|_| is_same())))
        .collect();
    assert!(threads.into_iter().all(|thread| thread.join().unwrap()));
}
