//! Runs the rows of outside values that the library is tested by (`crates/gix_date_rows/data`), by this crate's calls.

use gix_date_proved::parse::TimeBuf;
use gix_date_proved::time::{format as formats, Format};
use gix_date_proved::{
    bytes, is_canonical_header, parse, parse_carefully, parse_header, parse_with, write_signature,
    CarefulError, CarefulOptions, Error, Instant, Moment, RawOffsets, ReadZone, Signature, Texts,
    Time, WithoutOffset, Zone,
};
use std::fs;
use std::path::PathBuf;

#[path = "rows/git.rs"]
mod git;
#[path = "rows/idents.rs"]
mod idents;

/// What a call answers: a text, or the name of a refusal.
type Answer = Result<String, String>;

/// Moments at which a text that is not relative means the same.
const ANY: [&str; 6] = [
    "none",
    "1698400800 0 0",
    "1698400800 0 3600",
    "1698400800 0 7200",
    "-1 0 -34200",
    "0 0 93599",
];

fn folder() -> PathBuf {
    PathBuf::from(env!("CARGO_MANIFEST_DIR")).join("../../crates/gix_date_rows/data")
}

/// The bytes of a field without its escapes.
fn unescaped(field: &str) -> Option<Vec<u8>> {
    let mut bytes = Vec::new();
    let mut rest = field;
    while let Some((plain, escape)) = rest.split_once('\\') {
        bytes.extend_from_slice(plain.as_bytes());
        rest = match escape.chars().next()? {
            't' => push(&mut bytes, b'\t', &escape[1..]),
            'n' => push(&mut bytes, b'\n', &escape[1..]),
            'r' => push(&mut bytes, b'\r', &escape[1..]),
            '\\' => push(&mut bytes, b'\\', &escape[1..]),
            'x' => {
                let byte = u8::from_str_radix(escape.get(1..3)?, 16).ok()?;
                push(&mut bytes, byte, &escape[3..])
            }
            _ => {
                let (digits, after) = escape.strip_prefix("u{")?.split_once('}')?;
                let character = char::from_u32(u32::from_str_radix(digits, 16).ok()?)?;
                bytes.extend_from_slice(character.to_string().as_bytes());
                after
            }
        };
    }
    bytes.extend_from_slice(rest.as_bytes());
    Some(bytes)
}

/// Bytes as a text; those that are none so that no text is the same.
fn readable(bytes: Vec<u8>) -> String {
    String::from_utf8(bytes).unwrap_or_else(|error| format!("not text: {:?}", error.as_bytes()))
}

fn push<'a>(bytes: &mut Vec<u8>, byte: u8, rest: &'a str) -> &'a str {
    bytes.push(byte);
    rest
}

fn told<T>(answer: Result<T, Error>, text: impl Fn(T) -> String) -> Answer {
    answer.map(text).map_err(|error| format!("{error:?}"))
}

fn told_time(answer: Result<Time, Error>) -> Answer {
    told(answer, |time| format!("{} {}", time.seconds, time.offset))
}

fn time(fields: &mut &[String]) -> Option<Time> {
    let seconds = text(fields)?.parse().ok()?;
    let offset = text(fields)?.parse().ok()?;
    Some(Time { seconds, offset })
}

/// The next field.
fn text<'a>(fields: &mut &'a [String]) -> Option<&'a str> {
    let (first, rest) = fields.split_first()?;
    *fields = rest;
    Some(first)
}

/// The one answer of all. `None` where there is none.
fn agreeing(answers: impl IntoIterator<Item = Option<Answer>>) -> Option<Answer> {
    let mut answers = answers.into_iter();
    let first = answers.next()??;
    for other in answers {
        if other? != first {
            return Some(Err("CallsDiffer".to_string()));
        }
    }
    Some(first)
}

fn rules(name: &str) -> Option<&'static [RawOffsets]> {
    Some(match name {
        "both" => &[RawOffsets::Quarter, RawOffsets::WholeMinutes],
        "quarters" => &[RawOffsets::Quarter],
        "minutes" => &[RawOffsets::WholeMinutes],
        _ => return None,
    })
}

fn parsed(rules: &[RawOffsets], moments: &str, text: &str) -> Option<Answer> {
    let one = [moments];
    let moments: &[&str] = if moments == "any" { &ANY } else { &one };
    agreeing(moments.iter().flat_map(|at| {
        rules
            .iter()
            .map(move |rule| parsed_at(*rule, at, text))
            .collect::<Vec<_>>()
    }))
}

/// A date parsed at a moment.
fn parsed_at(rule: RawOffsets, at: &str, text: &str) -> Option<Answer> {
    parsed_by(rule, now(at)?, text)
}

/// A moment: `none`, or its seconds, its nanoseconds and its zone.
fn now(text: &str) -> Option<Option<Moment>> {
    if text == "none" {
        return Some(None);
    }
    let (seconds, rest) = text.split_once(' ')?;
    let (nanoseconds, zone) = rest.split_once(' ')?;
    Some(Some(moment(seconds, nanoseconds, zone)?))
}

/// A date parsed carefully by each of these rules, by both calls.
fn parsed_carefully(
    rules: &[RawOffsets],
    options: CarefulOptions,
    at: &str,
    text: &str,
) -> Option<Answer> {
    let now = now(at)?;
    agreeing(rules.iter().flat_map(|raw| {
        let options = CarefulOptions {
            raw: *raw,
            ..options
        };
        let mut answers = vec![
            parse_carefully(text, now.clone(), options),
            bytes::parse_carefully(text.as_bytes(), now.clone(), options),
        ];
        if let Some(now) = &now {
            answers.extend(in_read_zone(now, |zone, now| {
                zone.parse_carefully(text, now, options)
            }));
        }
        answers
            .into_iter()
            .map(|answer| Some(told_carefully(answer)))
    }))
}

fn told_carefully(answer: Result<Time, CarefulError>) -> Answer {
    match answer {
        Ok(time) => told_time(Ok(time)),
        Err(CarefulError::Unclear(place)) => Err(format!("Unclear {place}")),
        Err(CarefulError::Refused(error)) => told_time(Err(error)),
        Err(other) => Err(format!("{other:?}")),
    }
}

/// The options beside the rule for raw offsets.
fn careful_options(without_offset: &str, texts: &str) -> Option<CarefulOptions> {
    Some(CarefulOptions {
        without_offset: match without_offset {
            "utc" => WithoutOffset::Utc,
            "local" => WithoutOffset::MomentsZone,
            _ => return None,
        },
        texts: match texts {
            "careful" => Texts::Careful,
            "all" => Texts::All,
            _ => return None,
        },
        ..CarefulOptions::default()
    })
}

fn moment(seconds: &str, nanoseconds: &str, zone: &str) -> Option<Moment> {
    let (seconds, nanoseconds) = (seconds.parse().ok()?, nanoseconds.parse().ok()?);
    Some(match zone_of(zone)? {
        Zone::Offset(offset) if nanoseconds == 0 => Moment::at_offset(seconds, offset),
        zone => Moment {
            seconds,
            nanoseconds,
            zone,
        },
    })
}

/// A zone: an offset, the name of a TZif file, or a rule.
fn zone_of(zone: &str) -> Option<Zone> {
    Some(match zone.parse() {
        Ok(offset) => Zone::Offset(offset),
        Err(_) if zone.ends_with(".tzif") => Zone::Tzif(fs::read(folder().join(zone)).ok()?.into()),
        Err(_) => Zone::Posix(zone.into()),
    })
}

/// What a call answers twice in the moment's zone, which is read once, and then in a copy of the zone.
fn in_read_zone<T, E: From<Error>>(
    now: &Moment,
    call: impl Fn(&ReadZone, Instant) -> Result<T, E>,
) -> [Result<T, E>; 3] {
    let now_in = |zone: &ReadZone| call(zone, now.instant());
    match now.zone.read() {
        Ok(zone) => [now_in(&zone), now_in(&zone), now_in(&zone.clone())],
        Err(error) => [(); 3].map(|()| Err(error.into())),
    }
}

/// The same by each call that has this rule.
fn parsed_by(rule: RawOffsets, now: Option<Moment>, text: &str) -> Option<Answer> {
    let mut answers = vec![
        parse_with(text, now.clone(), rule),
        bytes::parse_with(text.as_bytes(), now.clone(), rule),
    ];
    if rule == RawOffsets::default() {
        answers.push(parse(text, now.clone()));
        answers.push(bytes::parse(text.as_bytes(), now.clone()));
    }
    if let Some(now) = &now {
        answers.extend(in_read_zone(now, |zone, now| {
            zone.parse_with(text, now, rule)
        }));
    }
    agreeing(answers.into_iter().map(|answer| Some(told_time(answer))))
}

/// The time of a header, by each call that reads it.
fn header(text: &str) -> Option<Answer> {
    agreeing([
        Some(told_time(parse_header(text).ok_or(Error::InvalidTime))),
        Some(told_time(text.parse())),
        Some(told_time(bytes::parse_header(text.as_bytes()))),
    ])
}

/// The text of a header, by each call that writes it and can refuse. `Display` and `size` have to agree.
fn header_text(time: Time) -> Option<Answer> {
    let mut written = Vec::new();
    let written = match time.write_to(&mut written) {
        Ok(()) => Ok(String::from_utf8(written).ok()?),
        Err(_) if written.is_empty() => Err("OffsetTooWide".to_string()),
        Err(_) => return None,
    };
    let shown = match &written {
        Ok(text) if text.len() == time.size() => text.clone(),
        Ok(_) => return Some(Err("SizeDiffers".to_string())),
        Err(_) => time.seconds.to_string(),
    };
    if time.to_string() != shown {
        return Some(Err("DisplayDiffers".to_string()));
    }
    let mut buf = TimeBuf::default();
    let kept = told(time.to_str(&mut buf), str::to_string);
    agreeing([
        Some(written),
        Some(kept),
        Some(told(time.to_header(), |text| text)),
    ])
}

/// The parts of a line, which as a text are the line again.
fn parts(line: &str) -> Option<Answer> {
    let parts = Signature::from_line(line);
    if parts.is_ok_and(|parts| parts.to_string() != line) {
        return Some(Err("DisplayDiffers".to_string()));
    }
    agreeing([parts, Signature::from_bytes(line.as_bytes())].map(|parts| Some(told_parts(parts))))
}

fn told_parts(parts: Result<Signature<'_>, Error>) -> Answer {
    told(parts, |parts| {
        format!("{}<{}>{}", parts.name, parts.email, parts.time)
    })
}

fn format(name: &str) -> Option<Format> {
    let row = formats::NAMED.iter().find(|row| row.0 == name)?;
    Some(row.1)
}

/// A text, where the call that gives the seconds if there is none agrees.
fn printed(time: Time, text: Result<String, Error>, always: Result<String, Error>) -> Answer {
    let due = match &text {
        Ok(text) => text.clone(),
        Err(_) => time.seconds.to_string(),
    };
    if always != Ok(due) {
        return Err("CallsDiffer".to_string());
    }
    told(text, |text| text)
}

/// What the call answers that the fields name. `None` where they name none, or not its arguments.
fn answer(mut fields: &[String]) -> Option<Answer> {
    let row = &mut fields;
    let answer = match text(row)? {
        "parse_header" => header(text(row)?)?,
        "is_canonical_header" => {
            let text = text(row)?;
            let answers = [
                is_canonical_header(text),
                bytes::is_canonical_header(text.as_bytes()),
            ];
            agreeing(answers.map(|is| Some(Ok(if is { "yes" } else { "no" }.into()))))?
        }
        "header_text" => header_text(time(row)?)?,
        "to_zoned" => told_time(time(row)?.to_zoned().and_then(|moment| moment.to_time())),
        "now_local" => told_time(moment(text(row)?, text(row)?, text(row)?)?.to_time()),
        "parse" => parsed(rules(text(row)?)?, text(row)?, text(row)?)?,
        "parse_carefully" => {
            let rules = rules(text(row)?)?;
            let options = careful_options(text(row)?, text(row)?)?;
            parsed_carefully(rules, options, text(row)?, text(row)?)?
        }
        "format" => {
            let format = format(text(row)?)?;
            let time = time(row)?;
            printed(time, time.format(format), Ok(time.format_or_unix(format)))
        }
        "format_by_pattern" => {
            let pattern = text(row)?;
            let time = time(row)?;
            let always = time.format_by_pattern_or_unix(pattern);
            printed(time, time.format_by_pattern(pattern), always)
        }
        "cut_signature" => parts(text(row)?)?,
        "signature_time" => {
            told_time(Signature::from_line(text(row)?).and_then(|parts| parts.time()))
        }
        "write_signature" => {
            let (name, email) = (text(row)?, text(row)?);
            told(write_signature(name, email, time(row)?), |line| line)
        }
        call => git::answer(call, row)?,
    };
    row.is_empty().then_some(answer)
}

/// The same where the fields are not all UTF-8.
fn answer_of_bytes(fields: &[Vec<u8>]) -> Option<Answer> {
    match fields {
        [call, text] if call == b"parse_header" => Some(told_time(bytes::parse_header(text))),
        [call, line] if call == b"cut_signature" => Some(told_parts(Signature::from_bytes(line))),
        [call, moment, text] => git::answer_of_bytes(call, moment, text),
        _ => None,
    }
}

/// What became of a row.
enum Outcome {
    Agrees,
    Differs(String),
}

fn outcome(row: &str) -> Outcome {
    let Some((call, due)) = row.rsplit_once('\t') else {
        return Outcome::Differs("no row".into());
    };
    let fields: Option<Vec<_>> = call.split('\t').map(unescaped).collect();
    let Some(fields) = fields else {
        return Outcome::Differs("no row".into());
    };
    let texts: Result<Vec<_>, _> = fields.iter().cloned().map(String::from_utf8).collect();
    let answer = idents::answer(&fields).or_else(|| match texts {
        Ok(texts) => answer(&texts),
        Err(_) => answer_of_bytes(&fields),
    });
    let due = match due.strip_prefix('!') {
        Some(name) => Some(Err(name.to_string())),
        None => unescaped(due).map(readable).map(Ok),
    };
    match answer {
        Some(answer) if Some(&answer) == due.as_ref() => Outcome::Agrees,
        Some(answer) => Outcome::Differs(format!("it answers {answer:?}")),
        None => Outcome::Differs("no row".into()),
    }
}

/// Runs the rows of a file, says which differ, and answers how many there are and how many differ.
fn run(name: &str) -> (usize, usize) {
    let file = fs::read_to_string(folder().join(name)).unwrap();
    let (mut rows, mut differ) = (0, 0);
    for (number, line) in (1..).zip(file.split('\n')) {
        if line.is_empty() || line.starts_with('#') {
            continue;
        }
        rows += 1;
        match outcome(line) {
            Outcome::Agrees => {}
            Outcome::Differs(why) => {
                differ += 1;
                println!("{name}:{number}: {why}: {line}");
            }
        }
    }
    println!("{name}: {rows} rows, {differ} differ");
    (rows, differ)
}

#[test]
fn rows_agree() {
    let mut names: Vec<_> = fs::read_dir(folder())
        .unwrap()
        .map(|entry| entry.unwrap().file_name().into_string().unwrap())
        .filter(|name| name.ends_with(".rows") && name != "wrong.rows")
        .collect();
    names.sort();
    assert!(names.len() >= 20, "{names:?}");
    for name in names {
        let (rows, differ) = run(&name);
        assert!(rows > 0 && differ == 0, "{name}");
    }
}

#[test]
fn wrong_rows_are_told() {
    let (rows, differ) = run("wrong.rows");
    assert!(rows > 0);
    assert_eq!(rows, differ);
}
