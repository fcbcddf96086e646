//! Values: their order, their size and their encoding.

use std::collections::{BTreeMap, BTreeSet};

/// A value. The kinds stand in rising order, so the derived order is that of the rules: lower kind
/// first, false before true, integers by size, quotes by number, and all other kinds item by item with a
/// prefix before what extends it; the items of a map are key, value, key, value.
#[derive(Clone, Debug, PartialEq, Eq, PartialOrd, Ord, Hash)]
pub enum Value {
    Boolean(bool),
    Integer(i32),
    Set(BTreeSet<Value>),
    Sequence(Vec<Value>),
    Map(BTreeMap<Value, Value>),
    Tuple(Vec<Value>),
    Quote(u16),
}

impl Value {
    /// The most bytes of a value that a sheet may give.
    pub const MAX_SIZE: usize = 512;

    /// The kind in the encoding.
    pub fn kind(&self) -> u16 {
        match self {
            Value::Boolean(_) => 1,
            Value::Integer(_) => 2,
            Value::Set(_) => 3,
            Value::Sequence(_) => 4,
            Value::Map(_) => 5,
            Value::Tuple(_) => 6,
            Value::Quote(_) => 7,
        }
    }

    /// The number of bytes of the encoding.
    pub fn size(&self) -> usize {
        let contents: usize = match self {
            Value::Boolean(_) => 1,
            Value::Integer(_) => 4,
            Value::Quote(_) => 2,
            Value::Set(members) => members.iter().map(Value::size).sum(),
            Value::Sequence(items) | Value::Tuple(items) => items.iter().map(Value::size).sum(),
            Value::Map(entries) => entries.iter().map(|(k, v)| k.size() + v.size()).sum(),
        };
        4 + contents
    }

    /// The record of the value: length, kind, contents.
    ///
    /// # Panics
    /// When the length does not fit 16 bits; no value of a sheet comes near.
    pub fn encode(&self) -> Vec<u8> {
        let mut bytes = Vec::with_capacity(self.size());
        let length = u16::try_from(self.size()).expect("the length fits 16 bits");
        bytes.extend(length.to_le_bytes());
        bytes.extend(self.kind().to_le_bytes());
        match self {
            Value::Boolean(truth) => bytes.push(u8::from(*truth)),
            Value::Integer(number) => bytes.extend(number.to_le_bytes()),
            Value::Quote(number) => bytes.extend(number.to_le_bytes()),
            Value::Set(members) => bytes.extend(members.iter().flat_map(Value::encode)),
            Value::Sequence(items) | Value::Tuple(items) => {
                bytes.extend(items.iter().flat_map(Value::encode));
            }
            Value::Map(entries) => {
                bytes.extend(
                    entries
                        .iter()
                        .flat_map(|(k, v)| [k.encode(), v.encode()].concat()),
                );
            }
        }
        bytes
    }

    /// The value whose record the bytes are, and nothing else.
    pub fn decode(bytes: &[u8]) -> Option<Value> {
        let value = Value::read(bytes)?;
        let fits = bytes.len() <= Value::MAX_SIZE;
        // What is out of order, or there twice, is not encoded as it stood.
        (fits && value.encode() == bytes).then_some(value)
    }

    fn read(bytes: &[u8]) -> Option<Value> {
        let (head, contents) = bytes.split_at_checked(4)?;
        if usize::from(u16::from_le_bytes([head[0], head[1]])) != bytes.len() {
            return None;
        }
        match u16::from_le_bytes([head[2], head[3]]) {
            1 => Value::boolean(contents),
            2 => Value::integer(contents),
            3 => Some(Value::Set(items(contents)?.into_iter().collect())),
            4 => Some(Value::Sequence(items(contents)?)),
            5 => {
                let items = items(contents)?;
                let entries = items.chunks_exact(2).map(|e| (e[0].clone(), e[1].clone()));
                (items.len() % 2 == 0).then(|| Value::Map(entries.collect()))
            }
            6 => {
                let items = items(contents)?;
                (2..=4)
                    .contains(&items.len())
                    .then_some(Value::Tuple(items))
            }
            7 => Value::quote(contents),
            _ => None,
        }
    }

    /// The boolean with these contents, which are a literal's fields too.
    pub fn boolean(contents: &[u8]) -> Option<Value> {
        match contents {
            [0] => Some(Value::Boolean(false)),
            [1] => Some(Value::Boolean(true)),
            _ => None,
        }
    }

    /// The integer with these contents.
    pub fn integer(contents: &[u8]) -> Option<Value> {
        let bytes = contents.try_into().ok()?;
        Some(Value::Integer(i32::from_le_bytes(bytes)))
    }

    /// The quote with these contents.
    pub fn quote(contents: &[u8]) -> Option<Value> {
        let bytes = contents.try_into().ok()?;
        Some(Value::Quote(u16::from_le_bytes(bytes)))
    }
}

/// The values whose records the bytes are, one after the other.
fn items(mut bytes: &[u8]) -> Option<Vec<Value>> {
    let mut items = Vec::new();
    while !bytes.is_empty() {
        let length = usize::from(u16::from_le_bytes([*bytes.first()?, *bytes.get(1)?]));
        let (item, rest) = bytes.split_at_checked(length)?;
        items.push(Value::read(item)?);
        bytes = rest;
    }
    Some(items)
}

#[cfg(test)]
mod tests {
    use super::*;
    use Value::{Boolean, Integer, Map, Quote, Sequence, Set, Tuple};

    fn integers(numbers: &[i32]) -> Vec<Value> {
        numbers.iter().copied().map(Integer).collect()
    }

    fn set(numbers: &[i32]) -> Value {
        Set(integers(numbers).into_iter().collect())
    }

    fn map(entries: &[(i32, i32)]) -> Value {
        Map(entries
            .iter()
            .map(|&(k, v)| (Integer(k), Integer(v)))
            .collect())
    }

    #[test]
    fn rising_values_are_in_order() {
        let rising = [
            Boolean(false),
            Boolean(true),
            Integer(i32::MIN),
            Integer(-1),
            Integer(0),
            Integer(i32::MAX),
            set(&[]),
            set(&[1]),
            set(&[1, 2]),
            set(&[1, 2, 3]),
            set(&[1, 3]),
            set(&[2]),
            Sequence(vec![]),
            Sequence(integers(&[1])),
            Sequence(integers(&[1, 1])),
            Sequence(integers(&[2])),
            Sequence(vec![set(&[])]),
            map(&[]),
            map(&[(1, 1)]),
            map(&[(1, 1), (2, 0)]),
            map(&[(1, 2)]),
            map(&[(2, 0)]),
            Tuple(integers(&[1, 1])),
            Tuple(integers(&[1, 1, 0])),
            Tuple(integers(&[1, 2])),
            Tuple(vec![Quote(1), Integer(0)]),
            Quote(0),
            Quote(255),
            Quote(256),
            Quote(512),
            Quote(65_535),
        ];
        for (i, left) in rising.iter().enumerate() {
            for (j, right) in rising.iter().enumerate() {
                assert_eq!(left.cmp(right), i.cmp(&j), "{left:?} against {right:?}");
            }
        }
    }

    #[test]
    fn encoding_is_length_kind_contents() {
        assert_eq!(Boolean(true).encode(), [5, 0, 1, 0, 1]);
        assert_eq!(Integer(-2).encode(), [8, 0, 2, 0, 0xFE, 0xFF, 0xFF, 0xFF]);
        assert_eq!(set(&[]).encode(), [4, 0, 3, 0]);
        assert_eq!(
            Set([Boolean(true), Boolean(false)].into()).encode(),
            [14, 0, 3, 0, 5, 0, 1, 0, 0, 5, 0, 1, 0, 1]
        );
        assert_eq!(
            Sequence(vec![Boolean(true)]).encode(),
            [9, 0, 4, 0, 5, 0, 1, 0, 1]
        );
        assert_eq!(
            Map([(Integer(1), Boolean(false))].into()).encode(),
            [17, 0, 5, 0, 8, 0, 2, 0, 1, 0, 0, 0, 5, 0, 1, 0, 0]
        );
        assert_eq!(
            Tuple(vec![Boolean(false), set(&[])]).encode(),
            [13, 0, 6, 0, 5, 0, 1, 0, 0, 4, 0, 3, 0]
        );
        assert_eq!(Quote(513).encode(), [6, 0, 7, 0, 1, 2]);
        for value in [set(&[1, 2]), map(&[(1, 2)]), Tuple(integers(&[1, 2]))] {
            assert_eq!(value.encode().len(), value.size());
        }
    }
}
