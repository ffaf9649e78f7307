//! The calls of time.

use crate::{keeping, Call, OFFSET_IN_SECONDS, SECONDS};
use std::hint::black_box;
use time::format_description::well_known::{Rfc2822, Rfc3339};
use time::format_description::{parse, FormatItem};
use time::{Date, OffsetDateTime, UtcOffset};

/// The call of this name, where time has one. Patterns are parsed beforehand.
pub fn call(name: &str, text: String) -> Option<Call> {
    let (task, format) = name.split_once(' ')?;
    match (task, format) {
        ("parse", "mail") => Some(keeping(move || {
            OffsetDateTime::parse(black_box(&text), &Rfc2822).unwrap()
        })),
        ("parse", "strict") => Some(keeping(move || {
            OffsetDateTime::parse(black_box(&text), &Rfc3339).unwrap()
        })),
        ("parse", "day") => {
            let items = items(format)?;
            Some(keeping(move || {
                Date::parse(black_box(&text), &items).unwrap()
            }))
        }
        ("parse", _) => {
            let items = items(format)?;
            Some(keeping(move || {
                OffsetDateTime::parse(black_box(&text), &items).unwrap()
            }))
        }
        ("print", "mail") => {
            let date = date()?;
            Some(keeping(move || black_box(date).format(&Rfc2822).unwrap()))
        }
        ("print", "strict") => {
            let date = date()?;
            Some(keeping(move || black_box(date).format(&Rfc3339).unwrap()))
        }
        ("print", _) => {
            let (date, items) = (date()?, items(format)?);
            Some(keeping(move || black_box(date).format(&items).unwrap()))
        }
        _ => None,
    }
}

/// The items of a format that time has no name for.
fn items(format: &str) -> Option<Vec<FormatItem<'static>>> {
    let pattern = match format {
        "day" => "[year]-[month]-[day]",
        "iso8601" => {
            "[year]-[month]-[day] [hour]:[minute]:[second] \
             [offset_hour sign:mandatory][offset_minute]"
        }
        "gitoxide" => {
            "[weekday repr:short] [month repr:short] [day] [year] [hour]:[minute]:[second] \
             [offset_hour sign:mandatory][offset_minute]"
        }
        "default" => {
            "[weekday repr:short] [month repr:short] [day padding:none] \
             [hour]:[minute]:[second] [year] [offset_hour sign:mandatory][offset_minute]"
        }
        _ => return None,
    };
    parse(pattern).ok()
}

fn date() -> Option<OffsetDateTime> {
    let offset = UtcOffset::from_whole_seconds(OFFSET_IN_SECONDS).ok()?;
    Some(
        OffsetDateTime::from_unix_timestamp(SECONDS)
            .ok()?
            .to_offset(offset),
    )
}
