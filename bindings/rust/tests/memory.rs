//! Memory that is refused is a refusal: to this crate, which asks Rust's allocator, and to the library, which asks C's. What zones
//! hold is freed.

use gix_date_proved::git::{
    approxidate, expiry_date, parse_date, show_by_format, show_date, show_git_time, DateError,
    DateFormat, DateMode, Expiry, FormatFault,
};
use gix_date_proved::lines::{check_lines, parse_lines, Columns, Done, LineReader, Status};
use gix_date_proved::parse::TimeBuf;
use gix_date_proved::signature::{fsck, write_ident, GitTime, IdentRef};
use gix_date_proved::time::format;
use gix_date_proved::{
    parse, parse_carefully, parse_header, write_signature, CarefulOptions, Error, Instant, Moment,
    ReadZone, Signature, Time, Zone,
};
use std::alloc::{GlobalAlloc, Layout, System};
use std::cell::Cell;
use std::ffi::c_void;
use std::panic::{catch_unwind, AssertUnwindSafe};
use std::path::Path;
use std::{env, fs, ptr};

/// The date of a line.
const OF_LINE: GitTime = GitTime::new(1660797906, 800);

thread_local! {
    static REFUSES: Cell<bool> = const { Cell::new(false) };
    /// Which of C's next requests is refused, counted from 1; 0 if none is.
    static REFUSED: Cell<usize> = const { Cell::new(0) };
    /// How many of C's blocks are held.
    static HELD: Cell<isize> = const { Cell::new(0) };
}

/// The allocator of the system, which refuses all to a thread that asks for that.
struct Refusing;

// SAFETY: what is not refused is the system's.
unsafe impl GlobalAlloc for Refusing {
    unsafe fn alloc(&self, layout: Layout) -> *mut u8 {
        if REFUSES.get() {
            return ptr::null_mut();
        }
        // SAFETY: the layout is that of the caller.
        unsafe { System.alloc(layout) }
    }

    unsafe fn dealloc(&self, start: *mut u8, layout: Layout) {
        // SAFETY: the memory is the system's, by this layout.
        unsafe { System.dealloc(start, layout) }
    }
}

#[global_allocator]
static ALLOCATOR: Refusing = Refusing;

/// What a call answers where all memory is refused.
fn refused<T>(call: impl FnOnce() -> T) -> T {
    REFUSES.set(true);
    let answer = call();
    REFUSES.set(false);
    answer
}

extern "C" {
    fn __libc_malloc(size: usize) -> *mut c_void;
    fn __libc_free(block: *mut c_void);
}

/// Stands before that of the C library.
#[no_mangle]
extern "C" fn malloc(size: usize) -> *mut c_void {
    let place = REFUSED.get();
    REFUSED.set(place.saturating_sub(1));
    if place == 1 {
        return ptr::null_mut();
    }
    // SAFETY: any size may be asked for.
    let block = unsafe { __libc_malloc(size) };
    HELD.set(HELD.get() + isize::from(!block.is_null()));
    block
}

/// Stands before that of the C library.
#[no_mangle]
unsafe extern "C" fn free(block: *mut c_void) {
    HELD.set(HELD.get() - isize::from(!block.is_null()));
    // SAFETY: the block is the caller's, from the C library.
    unsafe { __libc_free(block) }
}

/// What a call answers where one of C's requests is refused after the other, until it makes no more.
fn refused_in_turn<T>(call: impl Fn() -> T) -> Vec<T> {
    let answer = |place| {
        REFUSED.set(place);
        let answer = call();
        (REFUSED.replace(0) == 0).then_some(answer)
    };
    (1..).map_while(answer).collect()
}

/// What a call answers, and how many more of C's blocks are held then.
fn held_by<T>(call: impl FnOnce() -> T) -> (T, isize) {
    let before = HELD.get();
    let answer = call();
    (answer, HELD.get() - before)
}

/// A zone of each kind, how many requests reading it makes, and how many a clone.
fn zones() -> [(Zone, usize, usize); 4] {
    let folder = Path::new(env!("CARGO_MANIFEST_DIR")).join("../../crates/gix_date_rows/data");
    let path = folder.join("new_york_2023.tzif");
    let file = fs::read(&path).unwrap();
    env::set_var("TZ", path);
    [
        (Zone::Offset(7200), 0, 0),
        (Zone::Posix("EST5EDT,M3.2.0,M11.1.0".into()), 1, 1),
        (Zone::Tzif(file.into()), 3, 1),
        (Zone::local().unwrap(), 1, 1),
    ]
}

#[test]
fn a_text_that_has_no_memory_is_refused() {
    let time = Time::new(1660797906, 28800);
    let refusals = refused(|| {
        [
            time.to_header(),
            time.format(format::ISO8601),
            time.format_by_pattern("%I:%M"),
            time.format_by_pattern_or_unix("%I:%M"),
            write_signature("A", "a", time),
        ]
    });
    assert_eq!(refusals, [(); 5].map(|()| Err(Error::OutOfMemory)));
    let line = refused(|| write_ident(b"A", b"a", time));
    assert_eq!(line, Err(Error::OutOfMemory));
}

#[test]
fn a_long_date_that_has_no_memory_is_refused() {
    let (time, now) = (Time::new(1660797906, 28800), Moment::at_offset(0, 0));
    let text = "%0255d".repeat(1000);
    let format = DateFormat::new(&text).unwrap();
    let due = Err(DateError::Refused(Error::OutOfMemory));
    assert_eq!(refused(|| show_by_format(time, format, false, &now)), due);
    let refusals = refused_in_turn(|| show_by_format(time, format, false, &now));
    assert!(!refusals.is_empty() && refusals.iter().all(|answer| *answer == due));
    // A format is checked all the same.
    REFUSED.set(1);
    let fault = DateFormat::new("%0255d%0255d%q").map(|format| format.as_str());
    REFUSED.set(0);
    assert_eq!(fault, Err(FormatFault::UnknownDirective(12)));
}

/// What a call for many lines does of two, which it has to read.
fn two_lines(call: impl FnOnce(&[u8], Columns<'_>) -> Done) {
    let (mut seconds, mut offsets, mut statuses) = ([0; 2], [0; 2], [Status::default(); 2]);
    let columns = Columns {
        seconds: &mut seconds,
        offsets: &mut offsets,
        statuses: &mut statuses,
    };
    let block = b"2008-02-14 20:30:45\n2008-02-14 20:30:45";
    assert_eq!(call(block, columns).lines, 2);
    assert!(statuses.iter().all(|status| status.result().is_ok()));
}

#[test]
fn other_calls_take_no_memory() {
    let time = Time::new(1660797906, 28800);
    let mut buf = TimeBuf::default();
    let mut out = [0; 32];
    refused(|| {
        assert_eq!(parse_header("1660797906 +0800"), Some(time));
        assert_eq!("1660797906 +0800".parse(), Ok(time));
        let now = Moment::at_offset(1660797906, 28800);
        assert_eq!(parse("now", Some(now.clone())), Ok(time));
        let options = CarefulOptions::default();
        assert_eq!(parse_carefully("now", Some(now), options), Ok(time));
        assert_eq!(time.to_str(&mut buf), Ok("1660797906 +0800"));
        assert!(time.write_to(&mut &mut out[..]).is_ok());
        assert!(Signature::from_line("A <a> 5 +0000").is_ok());
        assert!(IdentRef::from_bytes(b"A <a> 5 +0000").is_some_and(|ident| ident.date.is_some()));
        assert_eq!(fsck(b"A <a> 5 +0000"), None);
        let reader = LineReader::Careful(CarefulOptions::default());
        two_lines(|block, columns| parse_lines(block, reader, columns));
        assert_eq!(check_lines(b"5 +0000", &mut [false]).lines, 1);
        let now = Moment::at_offset(1251660000, 0);
        assert!(parse_date("2008-02-14 20:30:45", &now).is_ok());
        assert!(approxidate("yesterday", &now).is_ok());
        assert_eq!(expiry_date("never", &now), Ok(Expiry::Never));
        let mode: DateMode = "rfc2822".parse().unwrap();
        assert!(show_date(time, mode, &now).is_ok_and(|text| text.len() == 31));
        assert!(show_git_time(OF_LINE, mode, &now).is_ok_and(|text| text.len() == 31));
    });
    assert!(out.starts_with(b"1660797906 +0800\0"));
}

/// A call's answers of which each is that memory was refused, and how many they are.
fn are_refusals<T>(answers: Vec<Result<T, Error>>) -> usize {
    let count = answers.len();
    let refusals = answers.into_iter().filter_map(Result::err);
    assert_eq!(
        refusals.collect::<Vec<_>>(),
        vec![Error::OutOfMemory; count]
    );
    count
}

#[test]
fn a_zone_that_has_no_memory_is_refused() {
    let now = Instant::at_second(1699165800);
    for (zone, reads, clones) in zones() {
        assert_eq!(are_refusals(refused_in_turn(|| zone.read())), reads);
        let read = zone.read().unwrap();
        let due = read.parse("yesterday", now);
        assert_eq!(are_refusals(refused_in_turn(|| read.try_clone())), clones);
        assert_eq!(read.parse("yesterday", now), due);
        assert_eq!(read.clone().parse("yesterday", now), due);
    }
}

#[test]
fn a_moment_whose_zone_has_no_memory_is_refused() {
    for (zone, reads, _) in zones() {
        let now = Moment {
            zone,
            ..Moment::at_offset(1699165800, 0)
        };
        let parsed = || parse("yesterday", Some(now.clone()));
        assert_eq!(are_refusals(refused_in_turn(parsed)), reads);
        assert_eq!(are_refusals(refused_in_turn(|| now.to_time())), reads);
        let options = CarefulOptions::default();
        let careful = refused_in_turn(|| parse_carefully("yesterday", Some(now.clone()), options));
        assert_eq!(careful, vec![Err(Error::OutOfMemory.into()); reads]);
        let date = refused_in_turn(|| approxidate("yesterday", &now));
        assert_eq!(date, vec![Err(Error::OutOfMemory.into()); reads]);
    }
}

#[test]
fn a_clone_that_has_no_memory_panics() {
    for (zone, _, clones) in zones() {
        let read = zone.read().unwrap();
        REFUSED.set(1);
        let clone = catch_unwind(AssertUnwindSafe(|| read.clone()));
        REFUSED.set(0);
        assert_eq!(clone.is_err(), clones > 0);
        if let Err(panic) = clone {
            let message = panic.downcast_ref::<String>().unwrap();
            assert_eq!(message, "a zone cannot be cloned: out of memory");
        }
    }
}

#[test]
fn a_zone_that_is_read_takes_no_memory_in_calls() {
    let now = Instant::at_second(1699165800);
    let calls = |zone: &ReadZone| {
        zone.parse("1 hour ago", now).unwrap();
        let options = CarefulOptions::default();
        zone.parse_carefully("yesterday", now, options).unwrap();
        zone.parse_date("2008-02-14 20:30:45", now).unwrap();
        zone.approxidate("yesterday", now).unwrap();
        zone.expiry_date("never", now).unwrap();
        let mode = DateMode::default();
        zone.show_date(Time::new(5, 7200), mode, now).unwrap();
        zone.show_git_time(OF_LINE, mode, now).unwrap();
        let reader = LineReader::Careful(options);
        two_lines(|block, columns| zone.parse_lines(block, reader, now, columns));
        two_lines(|block, columns| zone.parse_date_lines(block, now, columns));
        two_lines(|block, columns| zone.approxidate_lines(block, now, columns));
    };
    for (zone, ..) in zones() {
        let zone = zone.read().unwrap();
        REFUSED.set(1);
        refused(|| calls(&zone));
        assert_eq!(REFUSED.replace(0), 1);
    }
}

#[test]
fn what_zones_hold_is_freed() {
    let now = Instant::at_second(1699165800);
    for (zone, reads, clones) in zones() {
        let (_, held) = held_by(|| {
            let (mut read, held) = held_by(|| zone.read().unwrap());
            assert_eq!(held, reads as isize);
            let (clone, held) = held_by(|| read.clone());
            assert_eq!(held, clones as isize);
            for _ in 0..1000 {
                read.parse("yesterday", now).unwrap();
                read = zone.read().unwrap().clone();
                read.parse("yesterday", now).unwrap();
                read = clone.clone();
            }
        });
        assert_eq!(held, 0);
        let moment = Moment {
            zone,
            ..Moment::at_offset(1699165800, 0)
        };
        let (_, held) = held_by(|| {
            for _ in 0..1000 {
                moment.to_time().unwrap();
                show_date(Time::new(5, 7200), DateMode::default(), &moment).unwrap();
            }
        });
        assert_eq!(held, 0);
    }
}
