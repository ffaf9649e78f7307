//! Calls for many lines: each line has what the call for one text answers of it, in one call and in pieces. The lines are all fields
//! of the rows that `rows.rs` runs by the calls for one text.

use gix_date_proved::git::DateError;
use gix_date_proved::lines::{
    check_lines, parse_lines, Columns, Done, LineError, LineReader, Status,
};
use gix_date_proved::{
    bytes, CarefulError, CarefulOptions, Error, Instant, RawOffsets, Signature, Time,
    WithoutOffset, Zone,
};
use std::fs;
use std::path::Path;

const NOW: Instant = Instant::at_second(1699165800);

/// The fields of all rows, a line each, with the last newline.
fn block() -> Vec<u8> {
    let folder = Path::new(env!("CARGO_MANIFEST_DIR")).join("../../crates/gix_date_rows/data");
    let files = fs::read_dir(folder)
        .unwrap()
        .map(|file| file.unwrap().path());
    let rows = files.filter(|path| path.extension().is_some_and(|end| end == "rows"));
    let mut block = rows
        .flat_map(|path| fs::read(path).unwrap())
        .collect::<Vec<_>>();
    for byte in &mut block {
        if *byte == b'\t' {
            *byte = b'\n';
        }
    }
    assert!(block.len() > 100_000 && block.ends_with(b"\n"));
    block
}

/// What is answered of a line.
type Answer = Result<Time, LineError>;

fn answer(result: Result<Time, Error>) -> Answer {
    result.map_err(LineError::Refused)
}

fn careful(result: Result<Time, CarefulError>) -> Answer {
    result.map_err(|error| match error {
        CarefulError::Unclear(_) => LineError::Unclear,
        CarefulError::AfterYear9999 => LineError::AfterYear9999,
        CarefulError::Refused(error) => LineError::Refused(error),
        other => panic!("{other}"),
    })
}

fn date(result: Result<Time, DateError>) -> Answer {
    result.map_err(|error| match error {
        DateError::Unreadable => LineError::Unreadable,
        DateError::NumberTooLarge(_) => LineError::NumberTooLarge,
        DateError::BackTooFar(_) => LineError::BackTooFar,
        DateError::YearRefused(_) => LineError::YearRefused,
        DateError::Range => LineError::DateRange,
        DateError::Refused(error) => LineError::Refused(error),
        other => panic!("{other}"),
    })
}

/// Where a refused line leaves what was there.
const UNTOUCHED: Time = Time::new(-77, -7);

/// What a call for many lines answers of a block, in calls for at most so many lines each.
fn answers(
    block: &[u8],
    most: usize,
    mut call: impl FnMut(&[u8], Columns<'_>) -> Done,
) -> Vec<Answer> {
    let mut answers = Vec::new();
    let mut rest = block;
    while !rest.is_empty() {
        let mut seconds = vec![UNTOUCHED.seconds; most];
        let mut offsets = vec![UNTOUCHED.offset; most];
        let mut statuses = vec![Status::default(); most];
        let columns = Columns {
            seconds: &mut seconds,
            offsets: &mut offsets,
            statuses: &mut statuses,
        };
        let done = call(rest, columns);
        assert!(done.lines == most || done.bytes == rest.len());
        for line in 0..most {
            let time = Time::new(seconds[line], offsets[line]);
            let result = statuses[line].result();
            if line >= done.lines || result.is_err() {
                assert_eq!(time, UNTOUCHED);
            }
            if line < done.lines {
                answers.push(result.map(|()| time));
            }
        }
        rest = &rest[done.bytes..];
    }
    answers
}

/// A block has these answers of a call for many lines, in one call and in pieces, with the last newline and without.
fn has(
    block: &[u8],
    due: impl Fn(&[u8]) -> Answer,
    mut call: impl FnMut(&[u8], Columns<'_>) -> Done,
) {
    let without = block.strip_suffix(b"\n").unwrap();
    let due: Vec<_> = without.split(|byte| *byte == b'\n').map(due).collect();
    for most in [due.len() + 1, 1000, 1] {
        assert_eq!(answers(block, most, &mut call), due);
        assert_eq!(answers(without, most, &mut call), due);
    }
}

#[test]
fn lines_at_no_moment_are_read_as_texts() {
    let block = block();
    for raw in [RawOffsets::Quarter, RawOffsets::WholeMinutes] {
        let reader = LineReader::Dates(raw);
        let due = |line: &[u8]| answer(bytes::parse_with(line, None, raw));
        has(&block, due, |block, columns| {
            parse_lines(block, reader, columns)
        });
    }
    let local = CarefulOptions {
        without_offset: WithoutOffset::MomentsZone,
        ..CarefulOptions::default()
    };
    for options in [CarefulOptions::default(), local] {
        let reader = LineReader::Careful(options);
        let due = |line: &[u8]| careful(bytes::parse_carefully(line, None, options));
        has(&block, due, |block, columns| {
            parse_lines(block, reader, columns)
        });
    }
    let due = |line: &[u8]| answer(bytes::parse_header(line));
    has(&block, due, |block, columns| {
        parse_lines(block, LineReader::Headers, columns)
    });
    let due = |line: &[u8]| answer(Signature::from_bytes(line).and_then(|parts| parts.time()));
    has(&block, due, |block, columns| {
        parse_lines(block, LineReader::Signatures, columns)
    });
}

#[test]
fn lines_at_a_moment_are_read_as_texts() {
    let block = block();
    for zone in [
        Zone::Offset(7200),
        Zone::Posix("EST5EDT,M3.2.0,M11.1.0".into()),
    ] {
        let zone = zone.read().unwrap();
        let texts = |call: &dyn Fn(&[u8]) -> Answer| {
            let lines = block.strip_suffix(b"\n").unwrap();
            lines
                .split(|byte| *byte == b'\n')
                .map(call)
                .collect::<Vec<_>>()
        };
        let options = CarefulOptions::default();
        let dates = texts(&|line| answer(zone.parse(line, NOW)));
        let reader = LineReader::Dates(RawOffsets::default());
        let call =
            |block: &[u8], columns: Columns<'_>| zone.parse_lines(block, reader, NOW, columns);
        assert_eq!(answers(&block, 1000, call), dates);
        let dates = texts(&|line| careful(zone.parse_carefully(line, NOW, options)));
        let reader = LineReader::Careful(options);
        let call =
            |block: &[u8], columns: Columns<'_>| zone.parse_lines(block, reader, NOW, columns);
        assert_eq!(answers(&block, 1000, call), dates);
        let dates = texts(&|line| date(zone.parse_date(line, NOW).map(|date| date.time)));
        let call = |block: &[u8], columns: Columns<'_>| zone.parse_date_lines(block, NOW, columns);
        assert_eq!(answers(&block, 1000, call), dates);
        let dates = texts(&|line| date(zone.approxidate(line, NOW).map(|date| date.time)));
        let call = |block: &[u8], columns: Columns<'_>| zone.approxidate_lines(block, NOW, columns);
        assert_eq!(answers(&block, 1000, call), dates);
    }
}

#[test]
fn lines_are_checked_as_texts() {
    let block = block();
    let without = block.strip_suffix(b"\n").unwrap();
    let lines = without.split(|byte| *byte == b'\n');
    let due: Vec<_> = lines.map(bytes::is_canonical_header).collect();
    assert!(due.contains(&true) && due.contains(&false));
    let mut canonical = vec![false; due.len()];
    let done = check_lines(&block, &mut canonical);
    assert_eq!((done.lines, done.bytes), (due.len(), block.len()));
    assert_eq!(canonical, due);
    let mut canonical = [true; 4];
    let done = check_lines(b"x\n5 +0000\ny", &mut canonical[..1]);
    assert_eq!((done.lines, done.bytes), (1, 2));
    assert_eq!(canonical, [false, true, true, true]);
    assert_eq!(check_lines(b"", &mut canonical), Done::default());
}

#[test]
fn a_moment_that_is_none_is_told_at_each_line() {
    let far = Zone::Offset(93600).read().unwrap();
    let refused = vec![Err(LineError::Refused(Error::InvalidZone)); 2];
    let call = |block: &[u8], columns: Columns<'_>| {
        far.parse_lines(
            block,
            LineReader::Dates(RawOffsets::default()),
            NOW,
            columns,
        )
    };
    assert_eq!(answers(b"5\n6", 3, call), refused);
    let call = |block: &[u8], columns: Columns<'_>| far.approxidate_lines(block, NOW, columns);
    assert_eq!(answers(b"5\n6", 3, call), refused);
    let call = |block: &[u8], columns: Columns<'_>| {
        far.parse_lines(block, LineReader::Headers, NOW, columns)
    };
    assert_eq!(answers(b"5\n", 3, call), [Ok(Time::new(5, 0))]);
}
