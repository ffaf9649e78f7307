//! Zones that the library finds.

use super::ReadZone;
use crate::calls::zone::{self, HeldZone};
use crate::Error;
use std::ffi::{CString, OsStr};
use std::hash::{Hash, Hasher};
use std::os::unix::ffi::{OsStrExt, OsStringExt};
use std::os::unix::fs::MetadataExt;
use std::sync::{Arc, Mutex, PoisonError};
use std::{env, fs};

/// A zone that was found and read, by [`Zone::local()`](crate::Zone::local) or [`Zone::named()`](crate::Zone::named). It is equal to
/// its clones, and to no zone that was found another time.
#[derive(Clone, Debug)]
pub struct FoundZone(Arc<ReadZone>);

impl FoundZone {
    /// The zone of a path below `TZDIR` or `/usr/share/zoneinfo`.
    pub(super) fn below_folder(path: CString) -> Result<FoundZone, Error> {
        Variables::with(Some(path)).zone()
    }

    /// The machine's zone, found anew only where it may have changed.
    pub(super) fn of_machine() -> Result<FoundZone, Error> {
        let variables = Variables::with(variable("TZ"));
        let mut last = LAST.lock().unwrap_or_else(PoisonError::into_inner);
        let found = match last.take().filter(|found| found.is_by(&variables)) {
            Some(found) => found,
            None => Found::by(variables)?,
        };
        Ok(last.insert(found).zone.clone())
    }

    pub(super) fn read(&self) -> Result<ReadZone, Error> {
        self.0.try_clone()
    }
}

impl PartialEq for FoundZone {
    fn eq(&self, other: &FoundZone) -> bool {
        Arc::ptr_eq(&self.0, &other.0)
    }
}

impl Eq for FoundZone {}

impl Hash for FoundZone {
    fn hash<H: Hasher>(&self, state: &mut H) {
        Arc::as_ptr(&self.0).hash(state);
    }
}

/// The machine's zone as it was found last.
static LAST: Mutex<Option<Found>> = Mutex::new(None);

/// A zone, and what it was found by.
struct Found {
    variables: Variables,
    path: Vec<u8>,
    file: Option<FileState>,
    zone: FoundZone,
}

impl Found {
    fn by(variables: Variables) -> Result<Found, Error> {
        let path = zone::path(variables.tz.as_deref(), variables.tzdir.as_deref())?;
        Ok(Found {
            // A file that changes from here on is found anew.
            file: FileState::at(&path),
            zone: variables.zone()?,
            path,
            variables,
        })
    }

    /// Whether these variables and the file would give this zone again.
    fn is_by(&self, variables: &Variables) -> bool {
        self.variables == *variables && self.file == FileState::at(&self.path)
    }
}

/// The variables that say which zone is meant.
#[derive(PartialEq, Eq)]
struct Variables {
    tz: Option<CString>,
    tzdir: Option<CString>,
}

impl Variables {
    fn with(tz: Option<CString>) -> Variables {
        let tzdir = variable("TZDIR");
        Variables { tz, tzdir }
    }

    fn zone(&self) -> Result<FoundZone, Error> {
        let held = HeldZone::find(self.tz.as_deref(), self.tzdir.as_deref())?;
        Ok(FoundZone(Arc::new(ReadZone::new(held))))
    }
}

/// The value of a variable of this process.
fn variable(name: &str) -> Option<CString> {
    let value = env::var_os(name)?.into_vec();
    Some(CString::new(value).expect("a variable ends at NUL"))
}

/// By what a changed file is told from the one before.
#[derive(PartialEq, Eq)]
struct FileState {
    device: u64,
    inode: u64,
    len: u64,
    changed: (i64, i64),
}

impl FileState {
    /// That of the file of a path, if there is one.
    fn at(path: &[u8]) -> Option<FileState> {
        let file = fs::metadata(OsStr::from_bytes(path)).ok()?;
        Some(FileState {
            device: file.dev(),
            inode: file.ino(),
            len: file.len(),
            changed: (file.mtime(), file.mtime_nsec()),
        })
    }
}
