//! Times by serde, beside what serde's macros derive for such a struct, as they do in gix-date.

use gix_date::Time;
use serde::de::value::{Error, MapDeserializer, SeqDeserializer};
use serde::de::{DeserializeOwned, IntoDeserializer};

mod derived {
    #[derive(Debug, serde::Serialize, serde::Deserialize)]
    pub struct Time {
        pub seconds: i64,
        pub offset: i32,
    }
}

impl From<derived::Time> for Time {
    fn from(derived: derived::Time) -> Time {
        Time::new(derived.seconds, derived.offset)
    }
}

const TIMES: [(i64, i32); 3] = [(1660797906, 28800), (-1, -5400), (i64::MIN, i32::MAX)];

/// Texts that are a time, and others.
const TEXTS: [&str; 17] = [
    r#"{"seconds":1660797906,"offset":28800}"#,
    r#"{"offset":-5400,"seconds":-1}"#,
    r#"{"zone":{"name":["UTC"]},"seconds":1,"more":null,"offset":2}"#,
    "[1660797906,28800]",
    "[1660797906]",
    "[]",
    "[1,2,3]",
    "{}",
    r#"{"seconds":1}"#,
    r#"{"offset":1}"#,
    r#"{"seconds":1,"seconds":2,"offset":3}"#,
    r#"{"seconds":1,"offset":2,"offset":3}"#,
    r#"{"seconds":"1","offset":2}"#,
    r#"{"seconds":1.5,"offset":2}"#,
    r#"{"seconds":1,"offset":2147483648}"#,
    "null",
    "\"1660797906 +0800\"",
];

#[test]
fn a_time_is_written_as_its_two_fields() {
    let text = serde_json::to_string(&Time::new(1660797906, 28800)).unwrap();
    assert_eq!(text, r#"{"seconds":1660797906,"offset":28800}"#);
    for (seconds, offset) in TIMES {
        let time = serde_json::to_string(&Time::new(seconds, offset)).unwrap();
        let derived = serde_json::to_string(&derived::Time { seconds, offset }).unwrap();
        assert_eq!(time, derived);
        assert_eq!(
            serde_json::from_str::<Time>(&time).unwrap(),
            Time { seconds, offset }
        );
    }
}

#[test]
fn texts_are_read_and_refused_as_by_derived_code() {
    fn read<T: DeserializeOwned + Into<Time>>(text: &str) -> Result<Time, String> {
        match serde_json::from_str::<T>(text) {
            Ok(time) => Ok(time.into()),
            Err(error) => Err(error.to_string()),
        }
    }
    let answers = TEXTS.map(read::<Time>);
    assert_eq!(answers, TEXTS.map(read::<derived::Time>));
    assert_eq!(answers.iter().flatten().count(), 4);
}

/// The answers to fields that are named by places, by bytes, or by nothing, as binary forms do.
fn answers<T: DeserializeOwned + Into<Time>>() -> Vec<Result<Time, Error>> {
    let places = [[(0, 5), (1, 7)], [(1, 7), (0, 5)], [(0, 5), (2, 7)]];
    let bytes: [(&[u8], i32); 3] = [(b"offset", 7), (b"\xff", 0), (b"seconds", 5)];
    let mut all: Vec<Result<T, Error>> = places
        .map(|fields: [(u64, i32); 2]| T::deserialize(MapDeserializer::new(fields.into_iter())))
        .into();
    all.push(T::deserialize(MapDeserializer::new(bytes.into_iter())));
    all.push(T::deserialize(SeqDeserializer::new([5, 7].into_iter())));
    all.push(T::deserialize(
        IntoDeserializer::<Error>::into_deserializer(5),
    ));
    all.into_iter()
        .map(|answer| answer.map(Into::into))
        .collect()
}

#[test]
fn other_forms_are_read_as_by_derived_code() {
    let times = answers::<Time>();
    assert_eq!(times, answers::<derived::Time>());
    assert_eq!(times.iter().flatten().count(), 4);
    assert!(times.iter().flatten().all(|time| *time == Time::new(5, 7)));
}
