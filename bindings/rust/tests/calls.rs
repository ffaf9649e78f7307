//! Each call of this crate, its refusals, and sixteen threads at once. The rows of outside values are run by `rows.rs`.

use gix_date_proved::parse::TimeBuf;
use gix_date_proved::signature::{
    fsck, write_ident, write_ident_as_is, FsckFault, FsckId, GitTime, IdentRef,
};
use gix_date_proved::time::{format, CustomFormat, Format};
use gix_date_proved::{
    bytes, check_library, is_canonical_header, library_version, parse, parse_carefully,
    parse_header, parse_with, ported_version, write_signature, CarefulError, CarefulOptions, Error,
    Instant, Moment, RawOffsets, ReadZone, Signature, Texts, Time, Version, WithoutOffset, Zone,
};
use std::collections::HashSet;
use std::io;
use std::thread;
use std::time::{Duration, SystemTime, UNIX_EPOCH};

const DAY: Time = Time {
    seconds: 1660797906,
    offset: 28800,
};

fn time(seconds: i64, offset: i32) -> Result<Time, Error> {
    Ok(Time { seconds, offset })
}

#[test]
fn headers_are_read_and_written() {
    assert_eq!(parse_header("1660797906 +0800"), Some(DAY));
    assert_eq!(parse_header("12abc +0100"), time(12, 3600).ok());
    assert_eq!(parse_header(""), None);
    assert!(is_canonical_header("-5 -0130"));
    assert!(!is_canonical_header("0 -0000"));
    assert_eq!(DAY.to_header().as_deref(), Ok("1660797906 +0800"));
    let least = Time {
        seconds: i64::MIN,
        offset: -359999,
    };
    assert_eq!(
        least.to_header().as_deref(),
        Ok("-9223372036854775808 -9959")
    );
    assert_eq!(
        Time {
            seconds: 0,
            offset: 360000
        }
        .to_header(),
        Err(Error::OffsetTooWide)
    );
}

#[test]
fn no_header_of_an_offset_of_100_hours_panics() {
    let wide = Time::new(5, 360000);
    let mut buf = TimeBuf::default();
    assert_eq!(DAY.to_str(&mut buf), Ok("1660797906 +0800"));
    assert_eq!(wide.to_str(&mut buf), Err(Error::OffsetTooWide));
    assert_eq!(buf.as_str(), "");
    assert_eq!(wide.to_string(), "5");
    let mut out = Vec::new();
    let fault = wide.write_to(&mut out).unwrap_err();
    assert_eq!(fault.to_string(), Error::OffsetTooWide.to_string());
    assert!(out.is_empty());
    for time in [Time::MIN, Time::MAX] {
        assert_eq!(time.to_str(&mut buf).map(str::len), Ok(time.size()));
    }
}

#[test]
fn a_fault_of_the_writer_is_told() {
    let mut full = &mut [0; 5][..];
    let fault = DAY.write_to(&mut full).unwrap_err();
    assert_eq!(fault.kind(), io::ErrorKind::WriteZero);
}

#[test]
fn dates_are_parsed() {
    assert_eq!(parse("Thu, 18 Aug 2022 12:45:06 +0800", None), Ok(DAY));
    assert_eq!(
        parse("2008.02.14 20:30:45 -0500", None),
        time(1203039045, -18000)
    );
    assert_eq!(parse("2018-12-24", None), time(1545609600, 0));
    assert_eq!(parse("@5 +0007", None), Err(Error::UnknownFormat));
    assert_eq!(
        parse_with("@5 +0007", None, RawOffsets::WholeMinutes),
        time(5, 420)
    );
    assert_eq!(parse("9999-12-31", None), Err(Error::DateConversion));
    assert_eq!(parse("yesterday", None), Err(Error::MissingNow));
}

#[test]
fn relative_dates_are_parsed_in_their_zone() {
    let now = Moment::at_offset(1698400800, 7200);
    assert_eq!(
        parse("yesterday", Some(now.clone())),
        time(1698314400, 7200)
    );
    assert_eq!(
        parse("12023 years ago", Some(now.clone())),
        Err(Error::Range)
    );
    assert_eq!(
        parse("now", Some(Moment::at_offset(0, 93600))),
        Err(Error::InvalidZone)
    );
    assert_eq!(
        parse("now", Some(Moment::at_offset(253402207201, 0))),
        Err(Error::InvalidInstant)
    );
    let in_fold = Moment {
        seconds: 1699165800,
        nanoseconds: 0,
        zone: Zone::Posix("EST5EDT,M3.2.0,M11.1.0".into()),
    };
    assert_eq!(
        parse("1 hour ago", Some(in_fold.clone())),
        time(1699158600, -14400)
    );
    let unknown = Moment {
        zone: Zone::Posix("banana".into()),
        ..in_fold.clone()
    };
    assert_eq!(parse("now", Some(unknown)), Err(Error::InvalidZone));
    let empty_file = Moment {
        zone: Zone::Tzif([].into()),
        ..in_fold
    };
    assert_eq!(parse("now", Some(empty_file)), Err(Error::InvalidZone));
}

#[test]
fn dates_are_parsed_carefully() {
    let options = CarefulOptions::default();
    let local = CarefulOptions {
        without_offset: WithoutOffset::MomentsZone,
        ..options
    };
    let lenient = CarefulOptions {
        raw: RawOffsets::WholeMinutes,
        texts: Texts::All,
        ..options
    };
    let now = || Some(Moment::at_offset(1698400800, 7200));
    let answers = [
        ("2024-01-05 10:00", None, options, time(1704448800, 0)),
        ("2024-01-05 10:00", now(), local, time(1704441600, 7200)),
        ("2024-01-05 10:00", None, local, Err(Error::MissingNow)),
        ("2 weeks ago", now(), options, time(1697191200, 7200)),
        ("30 min ago", now(), lenient, time(1698400770, 7200)),
        ("@5 +0007", None, lenient, time(5, 420)),
        ("@5 +0007", None, options, Err(Error::UnknownFormat)),
    ];
    for (text, now, options, due) in answers {
        let due = due.map_err(CarefulError::from);
        assert_eq!(parse_carefully(text, now, options), due, "{text}");
    }
    for (text, place) in [("30 min ago", 3), ("in 2 weeks", 0), ("2 weeks", 7)] {
        let unclear = Err(CarefulError::Unclear(place));
        assert_eq!(parse_carefully(text, None, options), unclear, "{text}");
        assert_eq!(parse_carefully(text, now(), local), unclear, "{text}");
    }
    for text in ["1704450600000", "20240105103000 +0000"] {
        let late = Err(CarefulError::AfterYear9999);
        assert_eq!(parse_carefully(text, now(), local), late, "{text}");
        assert!(parse_carefully(&format!("@{text}"), None, options).is_ok());
    }
    let bytes = bytes::parse_carefully(b"@5\xff", None, options);
    assert_eq!(bytes, Err(CarefulError::Refused(Error::NotText)));
}

#[test]
fn dates_are_parsed_carefully_in_each_zone() {
    let options = CarefulOptions {
        without_offset: WithoutOffset::MomentsZone,
        ..CarefulOptions::default()
    };
    let at = |zone| {
        Some(Moment {
            seconds: 1699165800,
            nanoseconds: 0,
            zone,
        })
    };
    let new_york = || at(Zone::Posix("EST5EDT,M3.2.0,M11.1.0".into()));
    // A clock time that is there twice, and one that is skipped.
    for (text, seconds) in [
        ("2023-11-05 01:30", 1699162200),
        ("2024-03-10 02:30", 1710055800),
    ] {
        let due = time(seconds, -14400).map_err(CarefulError::from);
        assert_eq!(parse_carefully(text, new_york(), options), due, "{text}");
    }
    let invalid = Err(CarefulError::Refused(Error::InvalidZone));
    for zone in [
        Zone::Offset(93600),
        Zone::Posix("banana".into()),
        Zone::Tzif([].into()),
    ] {
        assert_eq!(parse_carefully("now", at(zone), options), invalid);
    }
}

#[test]
fn times_are_printed() {
    assert_eq!(DAY.format(format::SHORT).as_deref(), Ok("2022-08-18"));
    assert_eq!(
        DAY.format(format::RFC2822).as_deref(),
        Ok("Thu, 18 Aug 2022 12:45:06 +0800")
    );
    assert_eq!(DAY.format(Format::Raw).as_deref(), Ok("1660797906 +0800"));
    assert_eq!(DAY.format_by_pattern("%H:%M").as_deref(), Ok("12:45"));
    let long = "%Y-%m-%d %H:%M:%S %z, ".repeat(4);
    assert_eq!(
        DAY.format_by_pattern(&long),
        Ok("2022-08-18 12:45:06 +0800, ".repeat(4))
    );
    assert_eq!(DAY.format_by_pattern("%!"), Err(Error::Pattern));
    assert_eq!(
        DAY.format_by_pattern_or_unix("%!").as_deref(),
        Ok("1660797906")
    );
    let wide = Time {
        seconds: 5,
        offset: 360000,
    };
    assert_eq!(wide.format(Format::Raw), Err(Error::OffsetTooWide));
    assert_eq!(wide.format(format::ISO8601), Err(Error::Conversion));
    assert_eq!(wide.format_or_unix(Format::Raw), "5");
}

#[test]
fn signature_lines_are_cut_and_written() {
    let line = "A U Thor <author@example.com> 1660797906 +0800";
    let signature = Signature::from_line(line).unwrap();
    assert_eq!(
        signature,
        Signature {
            name: "A U Thor",
            email: "author@example.com",
            time: "1660797906 +0800"
        }
    );
    assert_eq!(signature.time(), Ok(DAY));
    assert_eq!(
        write_signature(signature.name, signature.email, DAY).as_deref(),
        Ok(line)
    );
    assert_eq!(Signature::from_line("A <a>"), Err(Error::NoSignature));
    assert_eq!(write_signature("A>", "a", DAY), Err(Error::BadPart));
}

#[test]
fn identity_lines_are_as_git_shows_and_writes_them() {
    let line = b"  J\xf6rg\t <j@e> <b>\t05+0530 x\nA <a> 5 +0000";
    let ident = IdentRef::from_bytes(line).unwrap();
    assert_eq!((ident.name, ident.email), (&b"  J\xf6rg"[..], &b"j@e"[..]));
    let date = ident.date.unwrap();
    assert_eq!((date.seconds, date.offset), (&b"05"[..], &b"+0530"[..]));
    let (seconds, offset) = (5, 530);
    assert_eq!(date.shown, GitTime::new(seconds, offset));
    assert_eq!(date.shown.to_time(), time(5, 19800));
    let offset = -59652315;
    let wide = GitTime::new(seconds, offset);
    assert_eq!(wide.to_time(), Err(Error::OffsetTooWide));
    assert_eq!(
        (ident.rest, ident.comes_back),
        (&b" <b>\t05+0530 x"[..], false)
    );
    let undated = IdentRef::from_bytes(b"A <a> 5").unwrap();
    assert_eq!((undated.date, undated.rest), (None, &b" 5"[..]));
    let at = undated.places;
    assert_eq!(
        (at.email, at.rest, at.seconds, at.offset, at.end),
        (3, 5, 6, 7, 7)
    );
    let kept = b" <> 0 -0000";
    let ident = IdentRef::from_bytes(kept).unwrap();
    let shown = ident.date.unwrap().shown;
    assert!(ident.comes_back && shown.minus_zero && shown.to_string() == "0 -0000");
    let again = write_ident_as_is(ident.name, ident.email, shown);
    assert_eq!(again.as_deref(), Ok(&kept[..]));
    let refused = write_ident_as_is(b"A\0", b"", shown);
    assert_eq!(refused, Err(Error::BadPart));
    assert_eq!(IdentRef::from_bytes(b"A a> 5 +0000"), None);

    let (id, place) = (FsckId::BadDate, 6);
    assert_eq!(fsck(b"A <a> \n5 +0000"), Some(FsckFault { id, place }));
    assert_eq!(fsck(b"\xff <> +5 +0060\n<"), None);

    let line = write_ident(b". J\xf6rg\n", b"<j>@e", DAY);
    assert_eq!(line, Ok(b"J\xf6rg <j@e> 1660797906 +0800".to_vec()));
    let before = Time::new(-1, 360000);
    let wide = Time::new(0, 360000);
    for (name, email, time, error) in [
        (&b""[..], &b"\0"[..], before, Error::NulInPart),
        (b"", b"a", before, Error::EmptyName),
        (b" .", b"a", before, Error::OnlyCrud),
        (b"A", b"a", before, Error::BeforeEpoch),
        (b"A", b"a", wide, Error::OffsetTooWide),
    ] {
        assert_eq!(write_ident(name, email, time), Err(error));
    }
}

#[test]
fn bytes_that_are_no_text_are_refused() {
    let line = b"Ren\xe9 <r@example.com> 1660797906 +0800";
    assert_eq!(Signature::from_bytes(line), Err(Error::NotText));
    assert_eq!(bytes::parse_header(b"5 +0100\xff"), Err(Error::NotText));
    assert_eq!(bytes::parse(b"@5\xff", None), Err(Error::NotText));
    assert!(!bytes::is_canonical_header(b"5 +0100\xff"));
    let line = "Ren\u{e9} <r@example.com> 1660797906 +0800";
    let signature = Signature::from_bytes(line.as_bytes()).unwrap();
    assert_eq!(signature.name, "Ren\u{e9}");
    assert_eq!(signature.to_string(), line);
    assert_eq!(bytes::parse_header(b"5 +0100"), time(5, 3600));
    assert_eq!(bytes::parse_header(b""), Err(Error::InvalidTime));
    let raw = RawOffsets::WholeMinutes;
    assert_eq!(bytes::parse_with(b"@5 +0007", None, raw), time(5, 420));
}

#[test]
fn moments_are_those_of_the_system() {
    let nano = Duration::from_nanos(1);
    for (system, seconds, nanoseconds, second) in [
        (UNIX_EPOCH, 0, 0, 0),
        (UNIX_EPOCH + nano, 0, 1, 0),
        (UNIX_EPOCH - nano, 0, -1, 0),
        (
            UNIX_EPOCH + Duration::new(5, 999_999_999),
            5,
            999_999_999,
            5,
        ),
        (UNIX_EPOCH - Duration::new(5, 1), -5, -1, -5),
    ] {
        let moment = Moment::from(system);
        let due = Moment {
            seconds,
            nanoseconds,
            zone: Zone::UTC,
        };
        assert_eq!(moment, due);
        assert_eq!(SystemTime::try_from(&moment), Ok(system));
        assert_eq!(Time::from(system), Time::new(second, 0));
        assert_eq!(moment.to_time(), Ok(Time::from(system)));
    }
    let later = UNIX_EPOCH + Duration::from_secs(1660797906);
    assert_eq!(SystemTime::try_from(DAY), Ok(later));
    // Systems differ in which times they have.
    if let Ok(first) = SystemTime::try_from(Time::new(i64::MIN, 0)) {
        assert_eq!(Moment::from(first).seconds, i64::MIN);
        let before = Moment {
            nanoseconds: -1,
            ..Moment::from(first)
        };
        assert_eq!(SystemTime::try_from(&before), Err(Error::InvalidInstant));
        assert_eq!(before.to_time(), Err(Error::InvalidInstant));
    }
}

#[test]
fn moments_tell_their_time() {
    let moment = Moment {
        seconds: 1699165800,
        nanoseconds: -1,
        zone: Zone::Posix("EST5EDT,M3.2.0,M11.1.0".into()),
    };
    assert_eq!(moment.to_time(), time(1699165799, -18000));
    assert_eq!(DAY.to_zoned(), Ok(Moment::from(DAY)));
    assert_eq!(Moment::from(DAY).to_time(), Ok(DAY));
    assert_eq!(Time::new(0, 93600).to_zoned(), Err(Error::Conversion));
    assert_eq!(Time::MAX.to_zoned(), Err(Error::Conversion));
}

#[test]
fn moments_and_zones_compare() {
    let zones = [
        Zone::UTC,
        Zone::Offset(3600),
        Zone::Posix("UTC0".into()),
        Zone::Posix("EST5".into()),
        Zone::Tzif([].into()),
        Zone::Tzif(b"UTC0"[..].into()),
    ];
    for (place, zone) in zones.iter().enumerate() {
        let equal = zones.iter().position(|other| other == zone);
        assert_eq!(equal, Some(place));
    }
    assert_eq!(Zone::default(), Zone::UTC);
    let moments = [(0, 0), (0, 1), (1, 0)].map(|(seconds, nanoseconds)| Moment {
        seconds,
        nanoseconds,
        zone: Zone::UTC,
    });
    assert_eq!(HashSet::from(moments).len(), 3);
    assert_ne!(Moment::at_offset(0, 0), Moment::at_offset(0, 3600));
}

#[test]
fn threads_share_nothing() {
    let threads: Vec<_> = (0..16)
        .map(|_| {
            thread::spawn(|| (0..200).all(|_| parse("2022-08-18 12:45:06 +0800", None) == Ok(DAY)))
        })
        .collect();
    assert!(threads.into_iter().all(|thread| thread.join().unwrap()));
}

#[test]
fn times_are_in_order_of_their_seconds() {
    let rising = [(-1, 3600), (0, -3600), (0, 0), (1, -3600)];
    let times: Vec<_> = rising
        .map(|(seconds, offset)| Time { seconds, offset })
        .into();
    assert!(times.windows(2).all(|pair| pair[0] < pair[1]));
    assert_eq!(time(0, 0), Ok(Time::default()));
}

/// Derives that callers count on, each a bound.
#[test]
fn types_have_their_traits() {
    fn are_shared<T: Clone + std::fmt::Debug + Send + Sync + 'static>() {}
    fn are_keys<T: Copy + std::fmt::Debug + Eq + std::hash::Hash>() {}
    fn are_sent<T: Clone + std::fmt::Debug + Send + 'static>() {}
    are_keys::<Time>();
    are_keys::<Error>();
    are_keys::<Format>();
    are_keys::<CustomFormat>();
    are_keys::<RawOffsets>();
    are_keys::<CarefulOptions>();
    are_keys::<CarefulError>();
    are_keys::<Signature<'_>>();
    are_keys::<IdentRef<'_>>();
    are_keys::<GitTime>();
    are_keys::<FsckFault>();
    are_keys::<Instant>();
    are_shared::<Moment>();
    are_shared::<Zone>();
    are_shared::<TimeBuf>();
    are_sent::<ReadZone>();
    assert_eq!(Format::default(), format::DEFAULT.into());
    assert_eq!(CustomFormat::default(), format::DEFAULT);
    assert_eq!(RawOffsets::default(), RawOffsets::Quarter);
    let CarefulOptions {
        raw,
        without_offset,
        texts,
    } = CarefulOptions::default();
    assert_eq!(raw, RawOffsets::Quarter);
    assert_eq!(without_offset, WithoutOffset::Utc);
    assert_eq!(texts, Texts::Careful);
}

#[test]
fn errors_are_errors() {
    let error: Box<dyn std::error::Error> = Box::new(parse("banana", None).unwrap_err());
    assert_eq!(error.to_string(), "no known date format");
    let options = CarefulOptions::default();
    let refused = parse_carefully("banana", None, options).unwrap_err();
    assert_eq!(refused.to_string(), error.to_string());
    let unclear = parse_carefully("2 weeks", None, options).unwrap_err();
    let unclear: Box<dyn std::error::Error> = Box::new(unclear);
    assert!(unclear
        .to_string()
        .starts_with("not understood from byte 7 on; expected a date, or counts"));
    let late = parse_carefully("1704450600000", None, options).unwrap_err();
    assert!(late.to_string().contains("if milliseconds were meant"));
}

fn version([major, minor, patch]: [u32; 3]) -> Version {
    Version {
        major,
        minor,
        patch,
    }
}

#[test]
fn the_library_is_of_the_version_of_this_crate() {
    if let Err(error) = check_library() {
        panic!("{error}");
    }
    assert_eq!(library_version(), Version::of_crate());
    assert_eq!(library_version().to_string(), env!("CARGO_PKG_VERSION"));
    assert_eq!(ported_version().to_string(), "0.18.1");
}

#[test]
fn a_library_serves_crates_of_its_first_number_that_are_not_newer() {
    let [library, wanted] = [[1, 2, 3], [2, 0, 0]].map(version);
    for older in [[1, 2, 3], [1, 2, 2], [1, 1, 9], [1, 0, 0]] {
        assert_eq!(library.serves(version(older)), Ok(()));
    }
    for other in [[1, 2, 4], [1, 3, 0], [2, 0, 0], [0, 18, 1]] {
        assert_ne!(library.serves(version(other)), Ok(()));
    }
    assert_eq!(
        library.serves(wanted).unwrap_err().to_string(),
        "the library gix_date has version 1.2.3, and this crate needs 2.0.0 or a later 2.x"
    );
}
