//! The calls of `include/gix_date.h`. [`Time`] is laid out as its `gix_date_time`, [`Instant`] as its `gix_date_instant`.

use crate::{Instant, Time};
use std::ptr;

#[repr(C)]
#[derive(Clone, Copy, Default)]
pub struct CCarefulOptions {
    pub raw_offsets: u32,
    pub without_offset: u32,
    pub texts: u32,
}

#[repr(C)]
#[derive(Clone, Copy, Debug, Default)]
pub struct CSpan {
    pub start: usize,
    pub len: usize,
}

#[repr(C)]
#[derive(Clone, Copy, Default)]
pub struct CSignature {
    pub name: CSpan,
    pub email: CSpan,
    pub time: CSpan,
}

#[repr(C)]
#[derive(Clone, Copy, Debug, Default)]
pub struct CGitTime {
    pub seconds: i64,
    pub offset: i32,
    pub minus_zero: bool,
}

#[repr(C)]
#[derive(Clone, Copy, Debug, Default)]
pub struct CIdentParts {
    pub name: CSpan,
    pub email: CSpan,
    pub rest: CSpan,
    pub seconds: CSpan,
    pub offset: CSpan,
    pub shown: CGitTime,
    pub has_date: bool,
    pub comes_back: bool,
}

/// A zone that the library may hold memory for.
#[repr(C)]
pub struct CZone {
    kind: u32,
    offset: i32,
    held: *mut u8,
}

impl CZone {
    /// The zone that always has this offset: `GIX_DATE_AT_OFFSET`.
    pub const fn at_offset(offset: i32) -> CZone {
        CZone {
            kind: 0,
            offset,
            held: ptr::null_mut(),
        }
    }
}

extern "C" {
    pub fn gix_date_version() -> u32;
    pub fn gix_date_ported_version() -> u32;
    pub fn gix_date_parse_header(text: *const u8, text_len: usize, time: *mut Time) -> u32;
    pub fn gix_date_is_canonical_header(text: *const u8, text_len: usize) -> bool;
    pub fn gix_date_write_header(
        time: *const Time,
        out: *mut u8,
        out_len: usize,
        len: *mut usize,
    ) -> u32;
    pub fn gix_date_parse(
        text: *const u8,
        text_len: usize,
        raw_offsets: u32,
        time: *mut Time,
    ) -> u32;
    pub fn gix_date_zone_read(text: *const u8, text_len: usize, zone: *mut CZone) -> u32;
    pub fn gix_date_zone_find(tz: *const u8, tzdir: *const u8, zone: *mut CZone) -> u32;
    pub fn gix_date_zone_path(
        tz: *const u8,
        tz_len: usize,
        tzdir: *const u8,
        tzdir_len: usize,
        out: *mut u8,
        out_len: usize,
        len: *mut usize,
    ) -> u32;
    // Steps of `gix_date_zone_find`, which takes them.
    #[allow(dead_code)]
    pub fn gix_date_zone_file(
        path: *const u8,
        bytes: *mut u8,
        bytes_len: usize,
        len: *mut usize,
    ) -> u32;
    #[allow(dead_code)]
    pub fn gix_date_zone_named(
        tz: *const u8,
        tz_len: usize,
        file: *const u8,
        file_len: usize,
        zone: *mut CZone,
    ) -> u32;
    pub fn gix_date_zone_copy(from: *const CZone, zone: *mut CZone) -> u32;
    pub fn gix_date_zone_free(zone: *mut CZone);
    pub fn gix_date_offset_at(instant: *const Instant, zone: *const CZone, offset: *mut i32)
        -> u32;
    pub fn gix_date_parse_at(
        text: *const u8,
        text_len: usize,
        raw_offsets: u32,
        now: *const Instant,
        zone: *const CZone,
        time: *mut Time,
    ) -> u32;
    pub fn gix_date_parse_carefully(
        text: *const u8,
        text_len: usize,
        options: *const CCarefulOptions,
        time: *mut Time,
        place: *mut usize,
    ) -> u32;
    pub fn gix_date_parse_carefully_at(
        text: *const u8,
        text_len: usize,
        options: *const CCarefulOptions,
        now: *const Instant,
        zone: *const CZone,
        time: *mut Time,
        place: *mut usize,
    ) -> u32;
    pub fn gix_date_parse_lines(
        block: *const u8,
        block_len: usize,
        reader: u32,
        options: *const CCarefulOptions,
        seconds: *mut i64,
        seconds_len: usize,
        offsets: *mut i32,
        offsets_len: usize,
        statuses: *mut u32,
        statuses_len: usize,
        bytes: *mut usize,
    ) -> usize;
    pub fn gix_date_parse_lines_at(
        block: *const u8,
        block_len: usize,
        reader: u32,
        options: *const CCarefulOptions,
        now: *const Instant,
        zone: *const CZone,
        seconds: *mut i64,
        seconds_len: usize,
        offsets: *mut i32,
        offsets_len: usize,
        statuses: *mut u32,
        statuses_len: usize,
        bytes: *mut usize,
    ) -> usize;
    pub fn gix_date_check_lines(
        block: *const u8,
        block_len: usize,
        canonical: *mut u8,
        canonical_len: usize,
        bytes: *mut usize,
    ) -> usize;
    pub fn gix_date_format(
        time: *const Time,
        format: u32,
        out: *mut u8,
        out_len: usize,
        len: *mut usize,
    ) -> u32;
    pub fn gix_date_format_or_unix(
        time: *const Time,
        format: u32,
        out: *mut u8,
        out_len: usize,
        len: *mut usize,
    ) -> u32;
    pub fn gix_date_format_by_pattern(
        time: *const Time,
        pattern: *const u8,
        pattern_len: usize,
        out: *mut u8,
        out_len: usize,
        len: *mut usize,
    ) -> u32;
    pub fn gix_date_format_by_pattern_or_unix(
        time: *const Time,
        pattern: *const u8,
        pattern_len: usize,
        out: *mut u8,
        out_len: usize,
        len: *mut usize,
    ) -> u32;
    pub fn gix_date_cut_signature(line: *const u8, line_len: usize, parts: *mut CSignature) -> u32;
    pub fn gix_date_write_signature(
        name: *const u8,
        name_len: usize,
        email: *const u8,
        email_len: usize,
        time: *const Time,
        out: *mut u8,
        out_len: usize,
        len: *mut usize,
    ) -> u32;
    pub fn gix_date_ident(text: *const u8, text_len: usize, ident: *mut CIdentParts) -> u32;
    pub fn gix_date_ident_time(shown: *const CGitTime, time: *mut Time) -> u32;
    pub fn gix_date_fsck(text: *const u8, text_len: usize, place: *mut usize) -> u32;
    pub fn gix_date_ident_lines(
        block: *const u8,
        block_len: usize,
        parts: *mut CIdentParts,
        parts_len: usize,
        seconds: *mut i64,
        seconds_len: usize,
        offsets: *mut i32,
        offsets_len: usize,
        messages: *mut u32,
        messages_len: usize,
        statuses: *mut u32,
        statuses_len: usize,
        bytes: *mut usize,
    ) -> usize;
    pub fn gix_date_write_ident(
        name: *const u8,
        name_len: usize,
        email: *const u8,
        email_len: usize,
        time: *const Time,
        out: *mut u8,
        out_len: usize,
        len: *mut usize,
    ) -> u32;
    pub fn gix_date_write_ident_as_is(
        name: *const u8,
        name_len: usize,
        email: *const u8,
        email_len: usize,
        time: *const CGitTime,
        out: *mut u8,
        out_len: usize,
        len: *mut usize,
    ) -> u32;
    pub fn gix_date_git_time_text(
        time: *const CGitTime,
        out: *mut u8,
        out_len: usize,
        len: *mut usize,
    ) -> u32;
}

#[cfg(test)]
mod tests {
    use super::*;
    use crate::git_ffi::{CAge, CApproximate, CExact, CExpiry, CMode};
    use crate::header::{calls, layouts, Layout, GIT_DATE, GIX_DATE};
    use std::mem::{align_of, size_of, size_of_val};
    use std::ptr::addr_of;

    /// The calls that a source declares, without white space.
    fn declared(source: &str) -> Vec<String> {
        let (_, rest) = source.split_once("\nextern \"C\" {").unwrap();
        let (body, _) = rest.split_once("\n}").unwrap();
        let lines = body.lines().map(str::trim);
        let code = lines.filter(|line| !line.starts_with("//") && !line.starts_with('#'));
        let body: String = code.flat_map(str::split_whitespace).collect();
        let calls = body.replace(",)", ")");
        calls
            .split_terminator(';')
            .map(|call| call.strip_prefix("pub").unwrap().to_string())
            .collect()
    }

    #[test]
    fn calls_are_declared_as_in_the_headers() {
        for (source, header) in [
            (include_str!("ffi.rs"), GIX_DATE),
            (include_str!("git_ffi.rs"), GIT_DATE),
        ] {
            let due = calls(header);
            assert!(due.len() >= 5);
            assert_eq!(declared(source), due);
        }
    }

    impl Default for CZone {
        fn default() -> CZone {
            CZone::at_offset(0)
        }
    }

    /// How this crate lays out a record with these fields.
    macro_rules! layout {
        ($record:ident { $($field:ident),+ }) => {{
            let record = $record::default();
            let start = addr_of!(record) as usize;
            let layout = Layout {
                fields: vec![$((
                    stringify!($field).to_string(),
                    addr_of!(record.$field) as usize - start,
                    size_of_val(&record.$field),
                )),+],
                size: size_of::<$record>(),
                align: align_of::<$record>(),
            };
            layout
        }};
    }

    #[test]
    fn records_are_laid_out_as_in_c() {
        let due = [
            ("gix_date_time", layout!(Time { seconds, offset })),
            (
                "gix_date_instant",
                layout!(Instant {
                    seconds,
                    nanoseconds
                }),
            ),
            (
                "gix_date_careful_options",
                layout!(CCarefulOptions {
                    raw_offsets,
                    without_offset,
                    texts
                }),
            ),
            ("gix_date_span", layout!(CSpan { start, len })),
            (
                "gix_date_signature",
                layout!(CSignature { name, email, time }),
            ),
            (
                "gix_date_git_time",
                layout!(CGitTime {
                    seconds,
                    offset,
                    minus_zero
                }),
            ),
            (
                "gix_date_ident_parts",
                layout!(CIdentParts {
                    name,
                    email,
                    rest,
                    seconds,
                    offset,
                    shown,
                    has_date,
                    comes_back
                }),
            ),
            ("gix_date_zone", layout!(CZone { kind, offset, held })),
            (
                "git_date_exact",
                layout!(CExact {
                    time,
                    ignored,
                    has_offset
                }),
            ),
            (
                "git_date_approximate",
                layout!(CApproximate {
                    time,
                    ignored,
                    understood
                }),
            ),
            ("git_date_expiry", layout!(CExpiry { kind, before })),
            ("git_date_mode", layout!(CMode { kind, local })),
            (
                "git_date_age",
                layout!(CAge {
                    unit,
                    count,
                    months
                }),
            ),
        ];
        assert_eq!(
            layouts(),
            due.map(|(name, layout)| (name.to_string(), layout))
        );
    }
}
