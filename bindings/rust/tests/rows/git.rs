//! The calls of rows for Git's dates.

use super::{in_read_zone, now, text, time, Answer};
use gix_date_proved::git::{
    age_at, approxidate, expiry_date, parse_date, show_by_format, show_date, show_git_time, Age,
    Approximate, DateError, DateFormat, DateKind, DateMode, DateText, ExactDate, Expiry,
    FormatFault, OwnDateError,
};
use gix_date_proved::signature::GitTime;
use gix_date_proved::{bytes, Instant, Moment, ReadZone, Time};

/// What the call of this name answers. `None` where there is none, or the fields are not its arguments.
pub fn answer(call: &str, row: &mut &[String]) -> Option<Answer> {
    match call {
        "parse_date" => told(exact(row)?, |date| shown(date.time)),
        "ignored" => told(exact(row)?, |date| place(date.ignored)),
        "has_offset" => told(exact(row)?, |date| yes_or_no(date.has_offset)),
        "approxidate" => told(guessed(row)?, guess_shown),
        "approximate_ignored" => told(guessed(row)?, |date| place(date.ignored)),
        "expiry_date" => told(expires(row)?, expiry_shown),
        "date_mode" => mode_name(text(row)?),
        "show_date" => {
            let mode: DateMode = text(row)?.parse().ok()?;
            let (moment, time) = (moment(text(row)?)?, time(row)?);
            let shown = told(shows(time, mode, &moment), text_of)?;
            if mode.kind == DateKind::Relative && aged(time, &moment) != shown {
                return Some(Err("CallsDiffer".to_string()));
            }
            Some(shown)
        }
        "show_git_time" => {
            let mode = text(row)?.parse().ok()?;
            let moment = moment(text(row)?)?;
            let Time { seconds, offset } = time(row)?;
            Some(of_line(GitTime::new(seconds, offset), mode, &moment))
        }
        "show_by_format" => {
            let (format, clock) = (text(row)?, text(row)?);
            let local = ["own", "local"].iter().position(|name| *name == clock)? == 1;
            let (moment, time) = (moment(text(row)?)?, time(row)?);
            Some(match DateFormat::new(format) {
                Ok(format) => by_format(time, format, local, &moment),
                Err(fault) => Err(fault_name(fault)),
            })
        }
        _ => None,
    }
}

/// What is shown of the date of a line, which each call has to show.
fn of_line(time: GitTime, mode: DateMode, moment: &Moment) -> Answer {
    let shown = show_git_time(time, mode, moment);
    let in_zone = in_read_zone(moment, |zone, now| zone.show_git_time(time, mode, now));
    if in_zone.iter().any(|other| *other != shown) {
        return Err("CallsDiffer".to_string());
    }
    shown.map(text_of).map_err(|error| match error {
        OwnDateError::Refused(error) => format!("{error:?}"),
        other => format!("{other:?}"),
    })
}

/// What a format shows, which each call has to show.
fn by_format(time: Time, format: DateFormat<'_>, local: bool, moment: &Moment) -> Answer {
    let shown = show_by_format(time, format, local, moment);
    let in_zone = in_read_zone(moment, |zone, _| zone.show_by_format(time, format, local));
    if in_zone.iter().any(|other| *other != shown) {
        return Err("CallsDiffer".to_string());
    }
    shown.map_err(name_of)
}

/// The name of a format's fault, and its place.
fn fault_name(fault: FormatFault) -> String {
    match fault {
        FormatFault::FlagRefused(place) => format!("FlagRefused {place}"),
        FormatFault::UnknownDirective(place) => format!("UnknownDirective {place}"),
        FormatFault::WidthTooLarge(place) => format!("WidthTooLarge {place}"),
        other => format!("{other:?}"),
    }
}

/// What the call of this name answers to bytes that are no text.
pub fn answer_of_bytes(call: &[u8], at: &[u8], text: &[u8]) -> Option<Answer> {
    let moment = moment(std::str::from_utf8(at).ok()?)?;
    match call {
        b"parse_date" => told(
            all([bytes::parse_date(text, &moment)], &moment, |zone, now| {
                zone.parse_date(text, now)
            }),
            |date| shown(date.time),
        ),
        b"has_offset" => told(
            all([bytes::parse_date(text, &moment)], &moment, |zone, now| {
                zone.parse_date(text, now)
            }),
            |date| yes_or_no(date.has_offset),
        ),
        b"approxidate" => told(
            all([bytes::approxidate(text, &moment)], &moment, |zone, now| {
                zone.approxidate(text, now)
            }),
            guess_shown,
        ),
        b"expiry_date" => told(
            all([bytes::expiry_date(text, &moment)], &moment, |zone, now| {
                zone.expiry_date(text, now)
            }),
            expiry_shown,
        ),
        _ => None,
    }
}

fn guess_shown(date: Approximate) -> String {
    shown(date.time) + if date.understood { "" } else { " ?" }
}

fn expiry_shown(expiry: Expiry) -> String {
    match expiry {
        Expiry::Never => "never".to_string(),
        Expiry::All => "all".to_string(),
        Expiry::Before(date) => shown(date.time),
    }
}

/// A moment, which these calls need.
fn moment(text: &str) -> Option<Moment> {
    now(text)?
}

/// What all calls answer.
type All<T> = Vec<Result<T, DateError>>;

/// What calls answer at a moment, and another in its zone, which is read once.
fn all<T, const N: usize>(
    at_moment: [Result<T, DateError>; N],
    moment: &Moment,
    call: impl Fn(&ReadZone, Instant) -> Result<T, DateError>,
) -> All<T> {
    let in_zone = in_read_zone(moment, call);
    at_moment.into_iter().chain(in_zone).collect()
}

fn exact(row: &mut &[String]) -> Option<All<ExactDate>> {
    let (moment, text) = (moment(text(row)?)?, text(row)?);
    let of_bytes = bytes::parse_date(text.as_bytes(), &moment);
    let answers = [parse_date(text, &moment), of_bytes];
    Some(all(answers, &moment, |zone, now| {
        zone.parse_date(text, now)
    }))
}

fn guessed(row: &mut &[String]) -> Option<All<Approximate>> {
    let (moment, text) = (moment(text(row)?)?, text(row)?);
    let of_bytes = bytes::approxidate(text.as_bytes(), &moment);
    let answers = [approxidate(text, &moment), of_bytes];
    Some(all(answers, &moment, |zone, now| {
        zone.approxidate(text, now)
    }))
}

fn expires(row: &mut &[String]) -> Option<All<Expiry>> {
    let (moment, text) = (moment(text(row)?)?, text(row)?);
    let of_bytes = bytes::expiry_date(text.as_bytes(), &moment);
    let answers = [expiry_date(text, &moment), of_bytes];
    Some(all(answers, &moment, |zone, now| {
        zone.expiry_date(text, now)
    }))
}

fn shows(time: Time, mode: DateMode, moment: &Moment) -> All<DateText> {
    all([show_date(time, mode, moment)], moment, |zone, now| {
        zone.show_date(time, mode, now)
    })
}

/// The age of a time in the words of Git.
fn aged(time: Time, moment: &Moment) -> Answer {
    let counted = |count, unit| format!("{count} {unit}{}", if count == 1 { "" } else { "s" });
    let text = match age_at(time, moment.instant()).map_err(name_of)? {
        None => return Ok("in the future".to_string()),
        Some(Age::Seconds(count)) => counted(count, "second"),
        Some(Age::Minutes(count)) => counted(count, "minute"),
        Some(Age::Hours(count)) => counted(count, "hour"),
        Some(Age::Days(count)) => counted(count, "day"),
        Some(Age::Weeks(count)) => counted(count, "week"),
        Some(Age::Months(count)) => counted(count, "month"),
        Some(Age::Years(years, 0)) => counted(years, "year"),
        Some(Age::Years(years, months)) => {
            format!("{}, {}", counted(years, "year"), counted(months, "month"))
        }
    };
    Ok(format!("{text} ago"))
}

/// The one answer of all calls.
fn told<T: Copy + PartialEq>(answers: All<T>, text: impl Fn(T) -> String) -> Option<Answer> {
    let first = answers[0];
    if answers.iter().any(|other| *other != first) {
        return Some(Err("CallsDiffer".to_string()));
    }
    Some(first.map(text).map_err(name_of))
}

/// The name of a refusal, and its place.
fn name_of(error: DateError) -> String {
    match error {
        DateError::NumberTooLarge(place) => format!("NumberTooLarge {place}"),
        DateError::BackTooFar(place) => format!("BackTooFar {place}"),
        DateError::YearRefused(place) => format!("YearRefused {place}"),
        DateError::Refused(error) => format!("{error:?}"),
        other => format!("{other:?}"),
    }
}

fn shown(time: Time) -> String {
    format!("{} {}", time.seconds, time.offset)
}

fn place(ignored: Option<usize>) -> String {
    ignored.map_or("none".to_string(), |place| place.to_string())
}

fn yes_or_no(holds: bool) -> String {
    if holds { "yes" } else { "no" }.to_string()
}

/// A shown date, which says the same in each way to take it.
fn text_of(text: DateText) -> String {
    let shown = text.to_string();
    assert!(text == *shown && text == shown.as_str() && text.as_ref() == shown);
    shown
}

/// The name that a mode shows, by which the mode is found again.
fn mode_name(name: &str) -> Option<Answer> {
    let mode: Result<DateMode, _> = name.parse();
    if mode.is_ok_and(|mode| mode.to_string().parse() != Ok(mode)) {
        return Some(Err("CallsDiffer".to_string()));
    }
    Some(
        mode.map(|mode| mode.to_string())
            .map_err(|error| format!("{error:?}")),
    )
}
