//! The calls of chrono.

use crate::{keeping, Call, OFFSET_IN_SECONDS, SECONDS};
use chrono::{DateTime, FixedOffset, NaiveDate, TimeZone};
use std::hint::black_box;

/// The call of this name, where chrono has one.
pub fn call(name: &str, text: String) -> Option<Call> {
    let (task, format) = name.split_once(' ')?;
    match (task, format) {
        ("parse", "mail") => Some(keeping(move || {
            DateTime::parse_from_rfc2822(black_box(&text)).unwrap()
        })),
        ("parse", "strict") => Some(keeping(move || {
            DateTime::parse_from_rfc3339(black_box(&text)).unwrap()
        })),
        ("parse", "day") => Some(keeping(move || {
            NaiveDate::parse_from_str(black_box(&text), "%Y-%m-%d").unwrap()
        })),
        ("parse", _) => {
            let pattern = pattern(format)?;
            Some(keeping(move || {
                DateTime::parse_from_str(black_box(&text), pattern).unwrap()
            }))
        }
        ("print", "mail") => {
            let date = date()?;
            Some(keeping(move || black_box(date).to_rfc2822()))
        }
        ("print", "strict") => {
            let date = date()?;
            Some(keeping(move || black_box(date).to_rfc3339()))
        }
        ("print", _) => {
            let (date, pattern) = (date()?, pattern(format)?);
            Some(keeping(move || black_box(date).format(pattern).to_string()))
        }
        _ => None,
    }
}

/// The pattern of a format that chrono has no function for.
fn pattern(format: &str) -> Option<&'static str> {
    match format {
        "iso8601" => Some("%Y-%m-%d %H:%M:%S %z"),
        "gitoxide" => Some("%a %b %d %Y %H:%M:%S %z"),
        "default" => Some("%a %b %-d %H:%M:%S %Y %z"),
        _ => None,
    }
}

fn date() -> Option<DateTime<FixedOffset>> {
    FixedOffset::east_opt(OFFSET_IN_SECONDS)?
        .timestamp_opt(SECONDS, 0)
        .single()
}
