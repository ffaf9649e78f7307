//! A [`Time`] by serde, as gix-date's derived code has it. By hand, so that the macros of `serde_derive` are not needed.

use crate::Time;
use serde::de::{Deserialize, Deserializer, Error, IgnoredAny, MapAccess, SeqAccess, Visitor};
use serde::ser::{Serialize, SerializeStruct, Serializer};
use std::fmt;

const FIELDS: &[&str] = &["seconds", "offset"];

impl Serialize for Time {
    fn serialize<S: Serializer>(&self, serializer: S) -> Result<S::Ok, S::Error> {
        let mut fields = serializer.serialize_struct("Time", FIELDS.len())?;
        fields.serialize_field("seconds", &self.seconds)?;
        fields.serialize_field("offset", &self.offset)?;
        fields.end()
    }
}

impl<'de> Deserialize<'de> for Time {
    fn deserialize<D: Deserializer<'de>>(deserializer: D) -> Result<Time, D::Error> {
        deserializer.deserialize_struct("Time", FIELDS, TimeVisitor)
    }
}

/// A field by its name or its place.
enum Field {
    Seconds,
    Offset,
    Unknown,
}

impl<'de> Deserialize<'de> for Field {
    fn deserialize<D: Deserializer<'de>>(deserializer: D) -> Result<Field, D::Error> {
        deserializer.deserialize_identifier(FieldVisitor)
    }
}

struct FieldVisitor;

impl Visitor<'_> for FieldVisitor {
    type Value = Field;

    fn expecting(&self, f: &mut fmt::Formatter<'_>) -> fmt::Result {
        f.write_str("field identifier")
    }

    fn visit_u64<E: Error>(self, place: u64) -> Result<Field, E> {
        Ok(match place {
            0 => Field::Seconds,
            1 => Field::Offset,
            _ => Field::Unknown,
        })
    }

    fn visit_str<E: Error>(self, name: &str) -> Result<Field, E> {
        self.visit_bytes(name.as_bytes())
    }

    fn visit_bytes<E: Error>(self, name: &[u8]) -> Result<Field, E> {
        Ok(match name {
            b"seconds" => Field::Seconds,
            b"offset" => Field::Offset,
            _ => Field::Unknown,
        })
    }
}

struct TimeVisitor;

impl<'de> Visitor<'de> for TimeVisitor {
    type Value = Time;

    fn expecting(&self, f: &mut fmt::Formatter<'_>) -> fmt::Result {
        f.write_str("struct Time")
    }

    fn visit_seq<A: SeqAccess<'de>>(self, mut items: A) -> Result<Time, A::Error> {
        let missing = |place| A::Error::invalid_length(place, &"struct Time with 2 elements");
        let seconds = items.next_element()?.ok_or_else(|| missing(0))?;
        let offset = items.next_element()?.ok_or_else(|| missing(1))?;
        Ok(Time { seconds, offset })
    }

    fn visit_map<A: MapAccess<'de>>(self, mut entries: A) -> Result<Time, A::Error> {
        let (mut seconds, mut offset) = (None, None);
        while let Some(field) = entries.next_key()? {
            match field {
                Field::Seconds if seconds.is_some() => {
                    return Err(A::Error::duplicate_field("seconds"));
                }
                Field::Offset if offset.is_some() => {
                    return Err(A::Error::duplicate_field("offset"));
                }
                Field::Seconds => seconds = Some(entries.next_value()?),
                Field::Offset => offset = Some(entries.next_value()?),
                Field::Unknown => {
                    entries.next_value::<IgnoredAny>()?;
                }
            }
        }
        Ok(Time {
            seconds: seconds.ok_or_else(|| A::Error::missing_field("seconds"))?,
            offset: offset.ok_or_else(|| A::Error::missing_field("offset"))?,
        })
    }
}
