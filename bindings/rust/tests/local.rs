//! The zones of the machine and of names, by the variables of this process. It is one test, since these are shared by threads.

use gix_date_proved::{Error, Instant, Moment, Time, Zone};
use std::collections::HashSet;
use std::path::{Path, PathBuf};
use std::process::Command;
use std::{env, fs, thread};

const RULE: &str = "EST5EDT,M3.2.0,M11.1.0";

/// The offset of a zone in July 2023.
fn offset(zone: Result<Zone, Error>) -> Result<i32, Error> {
    let zone = zone?.read()?;
    zone.offset_at(Instant::at_second(1688169600))
}

/// A new folder of zones.
fn zones() -> PathBuf {
    let data = Path::new(env!("CARGO_MANIFEST_DIR")).join("../../crates/gix_date_rows/data");
    let folder = env::temp_dir().join(format!("gix_date_local_{}", std::process::id()));
    fs::create_dir_all(folder.join("America")).unwrap();
    let new_york = folder.join("America/New_York");
    fs::copy(data.join("new_york_2023.tzif"), new_york).unwrap();
    fs::copy(data.join("kathmandu.tzif"), folder.join("Kathmandu")).unwrap();
    fs::write(folder.join("rule"), RULE).unwrap();
    folder
}

fn now_is_in_the_machines_zone() {
    env::set_var("TZ", RULE);
    assert_eq!(Moment::now().zone, Zone::local().unwrap());
    let offsets = [-18000, -14400];
    assert!(offsets.contains(&Time::now_local().unwrap().offset));
    assert!(offsets.contains(&Time::now_local_or_utc().offset));
    assert_eq!(Moment::now_utc().zone, Zone::UTC);
    assert_eq!(Time::now_utc().offset, 0);

    env::set_var("TZ", "banana");
    assert_eq!(Zone::local(), Err(Error::InvalidZone));
    assert_eq!(Moment::now_local(), Err(Error::InvalidZone));
    assert_eq!(Moment::now().zone, Zone::UTC);
    assert_eq!(Time::now_local(), None);
    assert_eq!(Time::now_local_or_utc().offset, 0);
}

/// The machine's zone, which is another than before, and kept.
fn found_anew(before: &Zone) -> Zone {
    let found = Zone::local().unwrap();
    assert_ne!(found, *before);
    assert_eq!(Zone::local().as_ref(), Ok(&found));
    let others = thread::scope(|threads| threads.spawn(Zone::local).join().unwrap());
    assert_eq!(others.as_ref(), Ok(&found));
    found
}

fn a_change_of_the_variables_is_seen(folder: &Path) {
    env::set_var("TZ", RULE);
    let rule = found_anew(&Zone::UTC);
    env::set_var("TZ", "CET-1");
    let other = found_anew(&rule);
    assert_eq!(offset(Ok(other.clone())), Ok(3600));
    // What was found before is as it was.
    assert_eq!(offset(Ok(rule.clone())), Ok(-14400));
    assert_eq!(HashSet::from([rule.clone(), other, rule.clone()]).len(), 2);
    env::set_var("TZ", RULE);
    found_anew(&rule);
    env::set_var("TZ", "America/New_York");
    env::set_var("TZDIR", folder.join("none"));
    assert_eq!(Zone::local(), Err(Error::InvalidZone));
    env::set_var("TZDIR", folder);
    assert_eq!(offset(Zone::local()), Ok(-14400));
}

fn a_change_of_the_file_is_seen(folder: &Path) {
    env::set_var("TZ", "EST5EDT");
    env::set_var("TZDIR", folder);
    let mut found = found_anew(&Zone::UTC);
    for (change, due) in [
        ("cp Kathmandu EST5EDT", 20700),
        ("cp -p EST5EDT new; mv new EST5EDT", 20700),
        ("touch -d @0 EST5EDT", 20700),
        ("truncate -s 999 EST5EDT; touch -d @0 EST5EDT", 20700),
        ("cp America/New_York EST5EDT", -14400),
        ("rm EST5EDT", -14400),
    ] {
        let mut shell = Command::new("sh");
        let done = shell.args(["-ec", change]).current_dir(folder).status();
        assert!(done.unwrap().success(), "{change}");
        found = found_anew(&found);
        assert_eq!(offset(Ok(found.clone())), Ok(due), "{change}");
    }
}

fn a_name_is_that_of_a_file(folder: &Path) {
    let absolute = folder.join("America/New_York");
    env::set_var("TZDIR", folder);
    assert_eq!(offset(Zone::named("America/New_York")), Ok(-14400));
    // None is a rule, or lies where the process is.
    env::set_current_dir(folder).unwrap();
    for name in [
        "",
        "/America/New_York",
        "America",
        "America/New_York/",
        "rule",
        "Mars",
        "UTC",
        "EST5EDT",
        ":America/New_York",
        "../x",
        "America/../America/New_York",
        "America/New_York\0",
        absolute.to_str().unwrap(),
    ] {
        assert_eq!(Zone::named(name), Err(Error::InvalidZone), "{name}");
    }
    env::set_var("TZDIR", folder.join("none"));
    let hidden = Zone::named("America/New_York");
    assert_eq!(hidden, Err(Error::InvalidZone));
}

fn without_a_variable_it_is_that_of_the_file() {
    env::remove_var("TZ");
    let due = fs::read("/etc/localtime").map_or(Zone::UTC, |file| Zone::Tzif(file.into()));
    assert_eq!(offset(Zone::local()), offset(Ok(due)));
}

#[test]
fn the_zone_is_that_of_the_variables() {
    let folder = zones();
    now_is_in_the_machines_zone();
    a_name_is_that_of_a_file(&folder);
    a_change_of_the_variables_is_seen(&folder);
    a_change_of_the_file_is_seen(&folder);
    without_a_variable_it_is_that_of_the_file();
    fs::remove_dir_all(&folder).unwrap();
}
