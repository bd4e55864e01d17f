//! The types of the records that bincode reads and writes: bytes as one part of the record, and a case
//! as an 8-byte tag and its value.

use std::fmt;

use serde::de::{Error, SeqAccess, Visitor};
use serde::{Deserialize, Deserializer, Serialize, Serializer};

/// Bytes that serde hands on as a whole, and not one by one.
#[derive(Debug, PartialEq)]
pub struct Bytes<'a>(&'a [u8]);

impl Serialize for Bytes<'_> {
    fn serialize<S: Serializer>(&self, serializer: S) -> Result<S::Ok, S::Error> {
        serializer.serialize_bytes(self.0)
    }
}

impl<'de: 'a, 'a> Deserialize<'de> for Bytes<'a> {
    fn deserialize<D: Deserializer<'de>>(deserializer: D) -> Result<Bytes<'a>, D::Error> {
        <&[u8]>::deserialize(deserializer).map(Bytes)
    }
}

/// A case of the mixed records.
#[derive(Debug, PartialEq)]
pub enum Case<'a> {
    Number(u32),
    Four(u32, u64, Bytes<'a>, Vec<u32>),
    Numbers(Vec<u32>),
    Two(Bytes<'a>, u64),
}

impl Serialize for Case<'_> {
    fn serialize<S: Serializer>(&self, serializer: S) -> Result<S::Ok, S::Error> {
        match self {
            Case::Number(number) => (0_u64, number).serialize(serializer),
            Case::Four(a, b, c, d) => (1_u64, (a, b, c, d)).serialize(serializer),
            Case::Numbers(numbers) => (2_u64, numbers).serialize(serializer),
            Case::Two(a, b) => (3_u64, (a, b)).serialize(serializer),
        }
    }
}

impl<'de: 'a, 'a> Deserialize<'de> for Case<'a> {
    fn deserialize<D: Deserializer<'de>>(deserializer: D) -> Result<Case<'a>, D::Error> {
        deserializer.deserialize_tuple(2, CaseVisitor)
    }
}

/// Takes the tag, then the value that it says.
struct CaseVisitor;

impl<'de> Visitor<'de> for CaseVisitor {
    type Value = Case<'de>;

    fn expecting(&self, f: &mut fmt::Formatter) -> fmt::Result {
        f.write_str("a tag and its value")
    }

    fn visit_seq<A: SeqAccess<'de>>(self, mut parts: A) -> Result<Case<'de>, A::Error> {
        let missing = || A::Error::invalid_length(1, &"a tag and its value");
        let tag: u64 = parts.next_element()?.ok_or_else(missing)?;
        let case = match tag {
            0 => parts.next_element()?.map(Case::Number),
            1 => parts
                .next_element()?
                .map(|(a, b, c, d)| Case::Four(a, b, c, d)),
            2 => parts.next_element()?.map(Case::Numbers),
            3 => parts.next_element()?.map(|(a, b)| Case::Two(a, b)),
            _ => return Err(A::Error::custom("no such tag")),
        };
        case.ok_or_else(missing)
    }
}
