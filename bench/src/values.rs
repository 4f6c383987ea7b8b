//! Values, kept by columns.

use crate::fields;
use crate::refusal::Refusal;
use std::hash::{DefaultHasher, Hash, Hasher};

const MAX_TEXT: usize = 4096;

/// The kind of a column's values.
#[derive(Clone, Copy, Debug, PartialEq, Eq)]
pub enum Kind {
    Int,
    Text,
}

#[derive(Clone, Copy, Debug, PartialEq, Eq, PartialOrd, Ord, Hash)]
pub enum Value<'a> {
    Int(i64),
    Text(&'a [u8]),
}

impl<'a> Value<'a> {
    pub fn read(kind: Kind, text: &'a [u8]) -> Result<Value<'a>, Refusal> {
        match kind {
            Kind::Int => fields::integer(text).map(Value::Int),
            Kind::Text if text.len() > MAX_TEXT => Err(Refusal::TooLong),
            Kind::Text if str::from_utf8(text).is_err() => Err(Refusal::BadUtf8),
            Kind::Text => Ok(Value::Text(text)),
        }
    }

    pub fn hash(self) -> u64 {
        let mut hasher = DefaultHasher::new();
        Hash::hash(&self, &mut hasher);
        hasher.finish()
    }
}

/// The values of a column, one for each version.
#[derive(Debug)]
pub enum Values {
    Int(Vec<i64>),
    /// Where each text starts and ends among the bytes. Those of a whole script fit into 32 bits.
    Text {
        bytes: Vec<u8>,
        places: Vec<(u32, u32)>,
    },
}

impl Values {
    pub fn new(kind: Kind) -> Values {
        match kind {
            Kind::Int => Values::Int(Vec::new()),
            Kind::Text => Values::Text {
                bytes: Vec::new(),
                places: Vec::new(),
            },
        }
    }

    pub fn kind(&self) -> Kind {
        match self {
            Values::Int(_) => Kind::Int,
            Values::Text { .. } => Kind::Text,
        }
    }

    pub fn get(&self, version: usize) -> Value<'_> {
        match self {
            Values::Int(numbers) => Value::Int(numbers[version]),
            Values::Text { bytes, places } => {
                let (start, end) = places[version];
                Value::Text(&bytes[start as usize..end as usize])
            }
        }
    }

    /// Adds a value of the column's kind.
    pub fn push(&mut self, value: Value<'_>) {
        match (self, value) {
            (Values::Int(numbers), Value::Int(number)) => numbers.push(number),
            (Values::Text { bytes, places }, Value::Text(text)) => {
                let start = bytes.len() as u32;
                bytes.extend_from_slice(text);
                places.push((start, bytes.len() as u32));
            }
            _ => unreachable!("values are read by their column's kind"),
        }
    }

    /// Adds the value of a version once more; a text's bytes are shared.
    pub fn repeat(&mut self, version: usize) {
        match self {
            Values::Int(numbers) => numbers.push(numbers[version]),
            Values::Text { places, .. } => places.push(places[version]),
        }
    }

    /// Takes back all values but the first, and all bytes of texts but the first.
    pub fn truncate(&mut self, len: usize, bytes_len: usize) {
        match self {
            Values::Int(numbers) => numbers.truncate(len),
            Values::Text { bytes, places } => {
                places.truncate(len);
                bytes.truncate(bytes_len);
            }
        }
    }

    /// How many bytes its texts have.
    pub fn bytes_len(&self) -> usize {
        match self {
            Values::Int(_) => 0,
            Values::Text { bytes, .. } => bytes.len(),
        }
    }
}
