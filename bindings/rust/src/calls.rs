//! The calls of the library, each behind a safe function. No other module has an `unsafe` block.

pub(crate) mod git;
pub(crate) mod lines;
pub(crate) mod zone;

use crate::ffi::{self, CCarefulOptions, CGitTime, CIdentParts, CSignature};
use crate::signature::GitTime;
use crate::{CarefulError, CarefulOptions, Error, Instant, RawOffsets, Time};
use zone::HeldZone;

const OK: u32 = 0;
const NO_SUCH_OPTION: u32 = 2;
const NO_ROOM: u32 = 3;
/// The status of a line without an identity.
pub(crate) const NO_IDENTITY: u32 = 27;
const UNCLEAR: u32 = 17;
const AFTER_YEAR_9999: u32 = 23;

/// The most bytes of a header text.
pub(crate) const MAX_HEADER: usize = 26;

/// What a call stored, or its refusal.
fn stored<T>(status: u32, value: T) -> Result<T, Error> {
    match status {
        OK => Ok(value),
        status => Err(Error::of_status(status)),
    }
}

/// The text that a call puts into a buffer.
fn text_of(room: usize, call: impl Fn(&mut [u8], &mut usize) -> u32) -> Result<String, Error> {
    text_or(room, call, |status| stored(status, ()))
}

/// The same of a call whose statuses have other refusals.
fn text_or<E: From<Error>>(
    room: usize,
    call: impl Fn(&mut [u8], &mut usize) -> u32,
    stored: impl Fn(u32) -> Result<(), E>,
) -> Result<String, E> {
    let bytes = bytes_or(room, call, stored)?;
    Ok(String::from_utf8(bytes).expect("the library writes UTF-8"))
}

/// The bytes that a call puts into a buffer: of this many at first, and then of as many as the call asks for.
fn bytes_or<E: From<Error>>(
    room: usize,
    call: impl Fn(&mut [u8], &mut usize) -> u32,
    stored: impl Fn(u32) -> Result<(), E>,
) -> Result<Vec<u8>, E> {
    let mut len = room;
    let mut bytes = Vec::new();
    loop {
        bytes
            .try_reserve_exact(len)
            .map_err(|_| Error::OutOfMemory)?;
        bytes.resize(len, 0);
        match call(&mut bytes, &mut len) {
            NO_ROOM => bytes.clear(),
            status => {
                stored(status)?;
                bytes.truncate(len);
                return Ok(bytes);
            }
        }
    }
}

pub(crate) fn version() -> u32 {
    // SAFETY: the call has no argument.
    unsafe { ffi::gix_date_version() }
}

pub(crate) fn ported_version() -> u32 {
    // SAFETY: the call has no argument.
    unsafe { ffi::gix_date_ported_version() }
}

pub(crate) fn parse_header(text: &[u8]) -> Result<Time, Error> {
    let mut time = Time::default();
    // SAFETY: the text is valid for its length, and the time is a place of its own.
    let status = unsafe { ffi::gix_date_parse_header(text.as_ptr(), text.len(), &mut time) };
    stored(status, time)
}

pub(crate) fn is_canonical_header(text: &[u8]) -> bool {
    // SAFETY: the text is valid for its length.
    unsafe { ffi::gix_date_is_canonical_header(text.as_ptr(), text.len()) }
}

/// The length of the header text that now stands at the front of the buffer, which has room for each.
pub(crate) fn write_header(time: &Time, out: &mut [u8; MAX_HEADER]) -> Result<usize, Error> {
    let mut len = 0;
    // SAFETY: the time is valid, and the buffer, of the length given, and the length are places of their own.
    let status = unsafe { ffi::gix_date_write_header(time, out.as_mut_ptr(), out.len(), &mut len) };
    stored(status, len)
}

pub(crate) fn parse(text: &[u8], raw: RawOffsets) -> Result<Time, Error> {
    let mut time = Time::default();
    // SAFETY: the text is valid for its length, and the time is a place of its own.
    let status = unsafe { ffi::gix_date_parse(text.as_ptr(), text.len(), raw as u32, &mut time) };
    stored(status, time)
}

pub(crate) fn parse_at(
    text: &[u8],
    now: Instant,
    zone: &HeldZone,
    raw: RawOffsets,
) -> Result<Time, Error> {
    let mut time = Time::default();
    let (start, len, raw) = (text.as_ptr(), text.len(), raw as u32);
    // SAFETY: the text is valid for its length, instant and zone are valid, and the time is a place of its own.
    let status = unsafe { ffi::gix_date_parse_at(start, len, raw, &now, zone.place(), &mut time) };
    stored(status, time)
}

pub(crate) fn parse_carefully(text: &[u8], options: CarefulOptions) -> Result<Time, CarefulError> {
    let options = options.into();
    let (mut time, mut place) = (Time::default(), 0);
    let (start, len) = (text.as_ptr(), text.len());
    // SAFETY: the text is valid for its length, the options are valid, and the time and the place are places of their own.
    let status =
        unsafe { ffi::gix_date_parse_carefully(start, len, &options, &mut time, &mut place) };
    carefully_stored(status, time, place)
}

pub(crate) fn parse_carefully_at(
    text: &[u8],
    now: Instant,
    zone: &HeldZone,
    options: CarefulOptions,
) -> Result<Time, CarefulError> {
    let options = options.into();
    let (mut time, mut place) = (Time::default(), 0);
    let (start, len, zone) = (text.as_ptr(), text.len(), zone.place());
    // SAFETY: the text is valid for its length, options, instant and zone are valid, and the time and the place are places of
    // their own.
    let status = unsafe {
        ffi::gix_date_parse_carefully_at(start, len, &options, &now, zone, &mut time, &mut place)
    };
    carefully_stored(status, time, place)
}

impl From<CarefulOptions> for CCarefulOptions {
    fn from(options: CarefulOptions) -> CCarefulOptions {
        CCarefulOptions {
            raw_offsets: options.raw as u32,
            without_offset: options.without_offset as u32,
            texts: options.texts as u32,
        }
    }
}

/// What a careful call stored, or its refusal, perhaps at a place.
fn carefully_stored(status: u32, time: Time, place: usize) -> Result<Time, CarefulError> {
    match status {
        UNCLEAR => Err(CarefulError::Unclear(place)),
        AFTER_YEAR_9999 => Err(CarefulError::AfterYear9999),
        status => Ok(stored(status, time)?),
    }
}

/// The room that is enough for the text of a time in each named format, and in most others.
const FORMAT_ROOM: usize = 32;

pub(crate) fn format(time: &Time, format: u32) -> Result<String, Error> {
    // SAFETY: the time is valid, and the buffer, of the length given, and the length are places of their own.
    text_of(FORMAT_ROOM, |out, len| unsafe {
        ffi::gix_date_format(time, format, out.as_mut_ptr(), out.len(), len)
    })
}

pub(crate) fn format_or_unix(time: &Time, format: u32) -> Result<String, Error> {
    // SAFETY: as for `format`.
    text_of(FORMAT_ROOM, |out, len| unsafe {
        ffi::gix_date_format_or_unix(time, format, out.as_mut_ptr(), out.len(), len)
    })
}

pub(crate) fn format_by_pattern(time: &Time, pattern: &str) -> Result<String, Error> {
    let (start, size) = (pattern.as_ptr(), pattern.len());
    // SAFETY: as for `format`, and the pattern is valid for its length.
    text_of(FORMAT_ROOM, |out, len| unsafe {
        ffi::gix_date_format_by_pattern(time, start, size, out.as_mut_ptr(), out.len(), len)
    })
}

pub(crate) fn format_by_pattern_or_unix(time: &Time, pattern: &str) -> Result<String, Error> {
    let (start, size) = (pattern.as_ptr(), pattern.len());
    // SAFETY: as for `format`, and the pattern is valid for its length.
    text_of(FORMAT_ROOM, |out, len| unsafe {
        ffi::gix_date_format_by_pattern_or_unix(time, start, size, out.as_mut_ptr(), out.len(), len)
    })
}

pub(crate) fn cut_signature(line: &[u8]) -> Result<CSignature, Error> {
    let mut parts = CSignature::default();
    // SAFETY: the line is valid for its length, and the parts are a place of their own.
    let status = unsafe { ffi::gix_date_cut_signature(line.as_ptr(), line.len(), &mut parts) };
    stored(status, parts)
}

/// The room that is enough for the line of a name and an email: two brackets and two spaces stand between the parts.
fn line_room(name: &[u8], email: &[u8]) -> usize {
    let parts = name.len().saturating_add(email.len());
    parts.saturating_add(4 + MAX_HEADER)
}

pub(crate) fn write_signature(name: &str, email: &str, time: &Time) -> Result<String, Error> {
    let room = line_room(name.as_bytes(), email.as_bytes());
    // SAFETY: name and email are valid for their lengths, the time is valid, and the buffer, of the length given, and the
    // length are places of their own.
    text_of(room, |out, len| unsafe {
        ffi::gix_date_write_signature(
            name.as_ptr(),
            name.len(),
            email.as_ptr(),
            email.len(),
            time,
            out.as_mut_ptr(),
            out.len(),
            len,
        )
    })
}

/// The parts of an identity line. `None` where Git finds no identity, which is the one refusal.
pub(crate) fn ident(line: &[u8]) -> Option<CIdentParts> {
    let mut parts = CIdentParts::default();
    // SAFETY: the line is valid for its length, and the parts are a place of their own.
    let status = unsafe { ffi::gix_date_ident(line.as_ptr(), line.len(), &mut parts) };
    (status == OK).then_some(parts)
}

impl From<GitTime> for CGitTime {
    fn from(time: GitTime) -> CGitTime {
        let GitTime {
            seconds,
            offset,
            minus_zero,
        } = time;
        CGitTime {
            seconds,
            offset,
            minus_zero,
        }
    }
}

/// The most bytes of the text of a line's time: the least seconds, a space, a sign and ten digits.
const MAX_GIT_TIME: usize = 32;

/// The text of a line's time in a buffer, which has room for each.
pub(crate) fn git_time_text(time: GitTime, out: &mut [u8; MAX_GIT_TIME]) -> &str {
    let mut len = 0;
    // SAFETY: the time is valid, and the buffer, of the length given, and the length are places of their own.
    let status = unsafe {
        ffi::gix_date_git_time_text(&CGitTime::from(time), out.as_mut_ptr(), out.len(), &mut len)
    };
    debug_assert_eq!(status, OK);
    std::str::from_utf8(&out[..len]).unwrap_or_default()
}

pub(crate) fn ident_time(shown: GitTime) -> Result<Time, Error> {
    let shown = CGitTime::from(shown);
    let mut time = Time::default();
    // SAFETY: what is shown is valid, and the time is a place of its own.
    let status = unsafe { ffi::gix_date_ident_time(&shown, &mut time) };
    stored(status, time)
}

/// The number of what `git fsck` says of an identity line, which is 0 for nothing, and the place.
pub(crate) fn fsck(line: &[u8]) -> (u32, usize) {
    let mut place = 0;
    // SAFETY: the line is valid for its length, and the place is one of its own.
    let message = unsafe { ffi::gix_date_fsck(line.as_ptr(), line.len(), &mut place) };
    (message, place)
}

pub(crate) fn write_ident(name: &[u8], email: &[u8], time: &Time) -> Result<Vec<u8>, Error> {
    let call = |out: &mut [u8], len: &mut usize| {
        let (name_len, email_len, out_len) = (name.len(), email.len(), out.len());
        let (name, email, out) = (name.as_ptr(), email.as_ptr(), out.as_mut_ptr());
        // SAFETY: name and email are valid for their lengths, the time is valid, and the buffer, of the length given, and the
        // length are places of their own.
        unsafe {
            ffi::gix_date_write_ident(name, name_len, email, email_len, time, out, out_len, len)
        }
    };
    bytes_or(line_room(name, email), call, |status| stored(status, ()))
}

pub(crate) fn write_ident_as_is(
    name: &[u8],
    email: &[u8],
    time: GitTime,
) -> Result<Vec<u8>, Error> {
    let time = CGitTime::from(time);
    let call = |out: &mut [u8], len: &mut usize| {
        let (name_len, email_len, out_len) = (name.len(), email.len(), out.len());
        let (name, email, out) = (name.as_ptr(), email.as_ptr(), out.as_mut_ptr());
        // SAFETY: name and email are valid for their lengths, the time is valid, and the buffer, of the length given, and the
        // length are places of their own.
        unsafe {
            ffi::gix_date_write_ident_as_is(
                name, name_len, email, email_len, &time, out, out_len, len,
            )
        }
    };
    bytes_or(line_room(name, email), call, |status| stored(status, ()))
}
