//! The calls of `include/git_date.h`.

use crate::ffi::{CGitTime, CZone};
use crate::{Instant, Time};

#[repr(C)]
#[derive(Clone, Copy, Default)]
pub struct CExact {
    pub time: Time,
    pub ignored: usize,
    pub has_offset: bool,
}

#[repr(C)]
#[derive(Clone, Copy, Default)]
pub struct CApproximate {
    pub time: Time,
    pub ignored: usize,
    pub understood: bool,
}

#[repr(C)]
#[derive(Clone, Copy, Default)]
pub struct CExpiry {
    pub kind: u32,
    pub before: CApproximate,
}

#[repr(C)]
#[derive(Clone, Copy, Default)]
pub struct CMode {
    pub kind: u32,
    pub local: bool,
}

#[repr(C)]
#[derive(Clone, Copy, Default)]
pub struct CAge {
    pub unit: u32,
    pub count: u32,
    pub months: u32,
}

extern "C" {
    pub fn git_date_parse_at(
        text: *const u8,
        text_len: usize,
        now: *const Instant,
        zone: *const CZone,
        date: *mut CExact,
        place: *mut usize,
    ) -> u32;
    pub fn git_date_approxidate_at(
        text: *const u8,
        text_len: usize,
        now: *const Instant,
        zone: *const CZone,
        date: *mut CApproximate,
        place: *mut usize,
    ) -> u32;
    pub fn git_date_expiry_at(
        text: *const u8,
        text_len: usize,
        now: *const Instant,
        zone: *const CZone,
        expiry: *mut CExpiry,
        place: *mut usize,
    ) -> u32;
    pub fn git_date_parse_lines_at(
        block: *const u8,
        block_len: usize,
        now: *const Instant,
        zone: *const CZone,
        seconds: *mut i64,
        seconds_len: usize,
        offsets: *mut i32,
        offsets_len: usize,
        statuses: *mut u32,
        statuses_len: usize,
        bytes: *mut usize,
    ) -> usize;
    pub fn git_date_approxidate_lines_at(
        block: *const u8,
        block_len: usize,
        now: *const Instant,
        zone: *const CZone,
        seconds: *mut i64,
        seconds_len: usize,
        offsets: *mut i32,
        offsets_len: usize,
        statuses: *mut u32,
        statuses_len: usize,
        bytes: *mut usize,
    ) -> usize;
    pub fn git_date_mode_named(name: *const u8, name_len: usize, mode: *mut CMode) -> u32;
    pub fn git_date_show_at(
        time: *const Time,
        mode: *const CMode,
        now: *const Instant,
        zone: *const CZone,
        out: *mut u8,
        out_len: usize,
        len: *mut usize,
    ) -> u32;
    pub fn git_date_show_git_time_at(
        time: *const CGitTime,
        mode: *const CMode,
        now: *const Instant,
        zone: *const CZone,
        out: *mut u8,
        out_len: usize,
        len: *mut usize,
    ) -> u32;
    pub fn git_date_show_by_format(
        time: *const Time,
        format: *const u8,
        format_len: usize,
        local: bool,
        zone: *const CZone,
        out: *mut u8,
        out_len: usize,
        len: *mut usize,
        place: *mut usize,
    ) -> u32;
    pub fn git_date_age_at(time: *const Time, now: *const Instant, age: *mut CAge) -> u32;
    pub fn git_date_parse_offset(text: *const u8, text_len: usize, offset: *mut i32) -> u32;
    pub fn git_date_offset_text(offset: i32, out: *mut u8, out_len: usize, len: *mut usize) -> u32;
    pub fn git_date_offset_from_decimal(decimal: i32) -> i32;
    pub fn git_date_offset_to_decimal(offset: i32) -> i32;
}
