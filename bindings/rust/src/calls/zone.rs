//! The calls that make and free zones.

use super::{bytes_or, stored};
use crate::ffi::{self, CZone};
use crate::{Error, Instant, OffsetInSeconds};
use std::ffi::CStr;
use std::ptr;

/// What `TZ` means where it is not set: `GIX_DATE_MACHINE_ZONE`.
const MACHINE_ZONE: &str = "/etc/localtime";

/// The room that is enough for the paths of most systems.
const PATH_ROOM: usize = 64;

/// The path of the file that values of `TZ` and `TZDIR` name, which has no bytes where there is none to read. `None` is a value that
/// is not set.
pub(crate) fn path(tz: Option<&CStr>, tzdir: Option<&CStr>) -> Result<Vec<u8>, Error> {
    let tz = tz.map_or(MACHINE_ZONE.as_bytes(), CStr::to_bytes);
    let tzdir = tzdir.unwrap_or_default().to_bytes();
    let call = |out: &mut [u8], len: &mut usize| {
        let (tz_len, tzdir_len, out_len) = (tz.len(), tzdir.len(), out.len());
        let (tz, tzdir, out) = (tz.as_ptr(), tzdir.as_ptr(), out.as_mut_ptr());
        // SAFETY: both values are valid for their lengths, and the buffer, of the length given, and the length are places of
        // their own.
        unsafe { ffi::gix_date_zone_path(tz, tz_len, tzdir, tzdir_len, out, out_len, len) }
    };
    bytes_or(PATH_ROOM, call, |status| stored(status, ()))
}

/// A zone as calls take it. When it is dropped, the library frees what it holds.
pub(crate) struct HeldZone(CZone);

// SAFETY: by its header a zone may go from thread to thread, and no call keeps a pointer to it.
unsafe impl Send for HeldZone {}

// SAFETY: by its header any number of threads may read a zone at once. Only `read` and `drop` write one, which they have alone.
unsafe impl Sync for HeldZone {}

impl HeldZone {
    pub(crate) const fn at_offset(offset: OffsetInSeconds) -> HeldZone {
        HeldZone(CZone::at_offset(offset))
    }

    /// The zone of a text: a TZif file, an offset such as `+0200`, or a POSIX rule.
    pub(crate) fn read(text: &[u8]) -> Result<HeldZone, Error> {
        let mut zone = HeldZone::at_offset(0);
        // SAFETY: the text is valid for its length, and the zone is valid and a place of its own.
        let status = unsafe { ffi::gix_date_zone_read(text.as_ptr(), text.len(), &mut zone.0) };
        stored(status, zone)
    }

    /// The zone that values of `TZ` and `TZDIR` mean. `None` is one that is not set.
    pub(crate) fn find(tz: Option<&CStr>, tzdir: Option<&CStr>) -> Result<HeldZone, Error> {
        let start = |value: Option<&CStr>| value.map_or(ptr::null(), |value| value.as_ptr().cast());
        let mut zone = HeldZone::at_offset(0);
        // SAFETY: each value is NULL or ends at NUL, and the zone is valid and a place of its own.
        let status = unsafe { ffi::gix_date_zone_find(start(tz), start(tzdir), &mut zone.0) };
        stored(status, zone)
    }

    pub(crate) fn copied(&self) -> Result<HeldZone, Error> {
        let mut copy = HeldZone::at_offset(0);
        // SAFETY: both zones are valid, and the copy is a place of its own.
        let status = unsafe { ffi::gix_date_zone_copy(self.place(), &mut copy.0) };
        stored(status, copy)
    }

    pub(crate) fn offset_at(&self, instant: Instant) -> Result<OffsetInSeconds, Error> {
        let mut offset = 0;
        // SAFETY: instant and zone are valid, and the offset is a place of its own.
        let status = unsafe { ffi::gix_date_offset_at(&instant, self.place(), &mut offset) };
        stored(status, offset)
    }

    /// Where the zone lies, for calls.
    pub(super) fn place(&self) -> *const CZone {
        &self.0
    }
}

impl Drop for HeldZone {
    fn drop(&mut self) {
        // SAFETY: the zone is valid, and in no call.
        unsafe { ffi::gix_date_zone_free(&mut self.0) }
    }
}

#[cfg(test)]
mod tests {
    use super::MACHINE_ZONE;
    use crate::header::GIX_DATE;

    #[test]
    fn the_file_of_the_machines_zone_is_that_of_the_header() {
        let line = format!("#define GIX_DATE_MACHINE_ZONE {MACHINE_ZONE:?}\n");
        assert!(GIX_DATE.contains(&line));
    }
}
