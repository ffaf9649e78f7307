//! The calls that read many lines.

use super::zone::HeldZone;
use crate::ffi::{self, CCarefulOptions, CZone};
use crate::git_ffi;
use crate::lines::{Columns, Done, IdentColumns, LineReader, Status};
use crate::{CarefulOptions, Instant};

/// The number of a reader, and its options.
pub(crate) fn number_of(reader: LineReader) -> (u32, CCarefulOptions) {
    match reader {
        LineReader::Dates(raw) => {
            let options = CarefulOptions {
                raw,
                ..CarefulOptions::default()
            };
            (0, options.into())
        }
        LineReader::Careful(options) => (1, options.into()),
        LineReader::Headers => (2, CCarefulOptions::default()),
        LineReader::Signatures => (3, CCarefulOptions::default()),
    }
}

/// The start of statuses, as the library writes them.
fn start_of(statuses: &mut [Status]) -> *mut u32 {
    // A status is laid out as its number.
    statuses.as_mut_ptr().cast()
}

pub(crate) fn parse_lines(block: &[u8], reader: LineReader, columns: Columns<'_>) -> Done {
    let (number, options) = number_of(reader);
    let Columns {
        seconds,
        offsets,
        statuses,
    } = columns;
    let mut bytes = 0;
    // SAFETY: block and arrays are valid for their lengths, the options are valid, and the arrays and the count are places of
    // their own.
    let lines = unsafe {
        ffi::gix_date_parse_lines(
            block.as_ptr(),
            block.len(),
            number,
            &options,
            seconds.as_mut_ptr(),
            seconds.len(),
            offsets.as_mut_ptr(),
            offsets.len(),
            start_of(statuses),
            statuses.len(),
            &mut bytes,
        )
    };
    Done { lines, bytes }
}

pub(crate) fn parse_lines_at(
    block: &[u8],
    reader: LineReader,
    now: Instant,
    zone: &HeldZone,
    columns: Columns<'_>,
) -> Done {
    let (number, options) = number_of(reader);
    let Columns {
        seconds,
        offsets,
        statuses,
    } = columns;
    let mut bytes = 0;
    // SAFETY: as for `parse_lines`; instant and zone are valid.
    let lines = unsafe {
        ffi::gix_date_parse_lines_at(
            block.as_ptr(),
            block.len(),
            number,
            &options,
            &now,
            zone.place(),
            seconds.as_mut_ptr(),
            seconds.len(),
            offsets.as_mut_ptr(),
            offsets.len(),
            start_of(statuses),
            statuses.len(),
            &mut bytes,
        )
    };
    Done { lines, bytes }
}

pub(crate) fn check_lines(block: &[u8], canonical: &mut [bool]) -> Done {
    let mut bytes = 0;
    let cells = canonical.as_mut_ptr().cast();
    // SAFETY: block and array are valid for their lengths, the array and the count are places of their own, and the library writes
    // 0 and 1 alone, which are bools.
    let lines = unsafe {
        let (start, len) = (block.as_ptr(), block.len());
        ffi::gix_date_check_lines(start, len, cells, canonical.len(), &mut bytes)
    };
    Done { lines, bytes }
}

pub(crate) fn ident_lines(block: &[u8], columns: IdentColumns<'_>) -> Done {
    let IdentColumns {
        parts,
        seconds,
        offsets,
        messages,
        statuses,
    } = columns;
    let mut bytes = 0;
    // SAFETY: block and arrays are valid for their lengths, and the arrays and the count are places of their own. Parts and messages are
    // laid out as what they hold.
    let lines = unsafe {
        ffi::gix_date_ident_lines(
            block.as_ptr(),
            block.len(),
            parts.as_mut_ptr().cast(),
            parts.len(),
            seconds.as_mut_ptr(),
            seconds.len(),
            offsets.as_mut_ptr(),
            offsets.len(),
            messages.as_mut_ptr().cast(),
            messages.len(),
            start_of(statuses),
            statuses.len(),
            &mut bytes,
        )
    };
    Done { lines, bytes }
}

/// A call that reads Git's dates.
type Reader = unsafe extern "C" fn(
    *const u8,
    usize,
    *const Instant,
    *const CZone,
    *mut i64,
    usize,
    *mut i32,
    usize,
    *mut u32,
    usize,
    *mut usize,
) -> usize;

fn read(reader: Reader, block: &[u8], now: Instant, zone: &HeldZone, columns: Columns<'_>) -> Done {
    let Columns {
        seconds,
        offsets,
        statuses,
    } = columns;
    let mut bytes = 0;
    // SAFETY: readers are the two below. All else is as for `parse_lines_at`.
    let lines = unsafe {
        reader(
            block.as_ptr(),
            block.len(),
            &now,
            zone.place(),
            seconds.as_mut_ptr(),
            seconds.len(),
            offsets.as_mut_ptr(),
            offsets.len(),
            start_of(statuses),
            statuses.len(),
            &mut bytes,
        )
    };
    Done { lines, bytes }
}

pub(crate) fn parse_date_lines(
    block: &[u8],
    now: Instant,
    zone: &HeldZone,
    columns: Columns<'_>,
) -> Done {
    read(git_ffi::git_date_parse_lines_at, block, now, zone, columns)
}

pub(crate) fn approxidate_lines(
    block: &[u8],
    now: Instant,
    zone: &HeldZone,
    columns: Columns<'_>,
) -> Done {
    read(
        git_ffi::git_date_approxidate_lines_at,
        block,
        now,
        zone,
        columns,
    )
}
