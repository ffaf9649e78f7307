//! The calls of rows for identity lines.

use super::{readable, Answer};
use gix_date_proved::signature::{fsck, write_ident, write_ident_as_is, DateRef, IdentRef};
use gix_date_proved::Time;
use std::str::from_utf8;

/// What the call of this name answers. `None` where there is none, or the fields are not its arguments.
pub fn answer(fields: &[Vec<u8>]) -> Option<Answer> {
    let (call, arguments) = fields.split_first()?;
    match (from_utf8(call).ok()?, arguments) {
        ("ident", [line]) => Some(parts(line, b"<", |date| date.seconds)),
        ("ident_label", [line]) => Some(parts(line, b" <", |_| b"")),
        ("ident_again", [line]) => Some(again(line)),
        ("ident_offset", [line]) => Some(date(line).map(|date| readable(date.offset.to_vec()))),
        ("git_time", [line]) => Some(date(line).map(shown)),
        ("ident_time", [line]) => Some(date(line).and_then(time)),
        ("fsck_of", [line]) => Some(message(line)),
        ("write_ident", [name, email, seconds, offset]) => {
            let time = Time::new(number(seconds)?, number(offset)?);
            let line = write_ident(name, email, time);
            Some(line.map(readable).map_err(|error| format!("{error:?}")))
        }
        _ => None,
    }
}

fn number<T: std::str::FromStr>(field: &[u8]) -> Option<T> {
    from_utf8(field).ok()?.parse().ok()
}

fn ident(line: &[u8]) -> Result<IdentRef<'_>, String> {
    IdentRef::from_bytes(line).ok_or("NoIdentity".to_string())
}

/// Name and email, with this text after the name and `>` after the email, and a part of the date.
fn parts<'a>(line: &'a [u8], opening: &[u8], part: impl Fn(DateRef<'a>) -> &'a [u8]) -> Answer {
    let IdentRef {
        name, email, date, ..
    } = ident(line)?;
    let last = date.map_or(&b""[..], part);
    Ok(readable([name, opening, email, b">", last].concat()))
}

/// The line that is written of what Git shows of it, if the same comes back.
fn again(line: &[u8]) -> Answer {
    let ident = ident(line)?;
    match ident.date {
        Some(date) if ident.comes_back => write_ident_as_is(ident.name, ident.email, date.shown)
            .map(readable)
            .map_err(|error| format!("{error:?}")),
        _ => Err("NotBack".to_string()),
    }
}

fn date(line: &[u8]) -> Result<DateRef<'_>, String> {
    ident(line)?.date.ok_or("NoDate".to_string())
}

fn shown(date: DateRef<'_>) -> String {
    format!("{} {:+05}", date.shown.seconds, date.shown.offset)
}

fn time(date: DateRef<'_>) -> Answer {
    let time = date.shown.to_time().map_err(|error| format!("{error:?}"))?;
    Ok(format!("{} {}", time.seconds, time.offset))
}

/// What fsck says, which has its place in the line.
fn message(line: &[u8]) -> Answer {
    match fsck(line) {
        None => Ok("none".to_string()),
        Some(fault) if fault.place <= line.len() => Ok(fault.id.name().to_string()),
        Some(_) => Err("PlaceBeyond".to_string()),
    }
}
