//! Values, decoded from their records.

use std::collections::{BTreeMap, BTreeSet};
use std::fmt::{self, Display};

/// A value. The kinds stand in rising order, so the derived order is that of the sheets: lower kind first, false
/// before true, integers by size, quotes by number, the others item by item and a prefix before what extends it.
///
/// ```
/// # use sheets::Value;
/// let value = Value::decode(&[13, 0, 5, 0, 5, 0, 1, 0, 1, 4, 0, 4, 0]).unwrap();
/// assert_eq!(value.to_string(), "{true|->[]}");
/// assert_eq!(value.get(&true.into()), Some(&Value::Sequence(vec![])));
/// assert_eq!(value.get(&1.into()), None);
/// assert!(Value::from(3) < value);
/// ```
#[derive(Clone, Debug, PartialEq, Eq, PartialOrd, Ord, Hash)]
pub enum Value {
    Boolean(bool),
    Integer(i32),
    Set(BTreeSet<Value>),
    Sequence(Vec<Value>),
    Map(BTreeMap<Value, Value>),
    /// 2 to 4 items.
    Tuple(Vec<Value>),
    Quote(u16),
}

impl Value {
    /// The most bytes of a value's record.
    pub const MAX_SIZE: usize = 512;

    /// The value whose record the bytes are, and nothing more; none where they are not a value's record.
    pub fn decode(record: &[u8]) -> Option<Value> {
        let (value, rest) = read(record)?;
        (rest.is_empty() && record.len() <= Value::MAX_SIZE).then_some(value)
    }

    /// The value whose record the bytes start with.
    pub(crate) fn first(bytes: &[u8]) -> Option<Value> {
        let length = u16::from_le_bytes([*bytes.first()?, *bytes.get(1)?]);
        Value::decode(bytes.get(..usize::from(length))?)
    }

    /// The truth of a boolean.
    pub fn as_bool(&self) -> Option<bool> {
        match self {
            Value::Boolean(truth) => Some(*truth),
            _ => None,
        }
    }

    /// The number of an integer.
    pub fn as_integer(&self) -> Option<i32> {
        match self {
            Value::Integer(number) => Some(*number),
            _ => None,
        }
    }

    /// The number of a quote.
    pub fn as_quote(&self) -> Option<u16> {
        match self {
            Value::Quote(number) => Some(*number),
            _ => None,
        }
    }

    /// The members of a set, in rising order.
    pub fn members(&self) -> Option<&BTreeSet<Value>> {
        match self {
            Value::Set(members) => Some(members),
            _ => None,
        }
    }

    /// The items of a sequence or a tuple.
    pub fn items(&self) -> Option<&[Value]> {
        match self {
            Value::Sequence(items) | Value::Tuple(items) => Some(items),
            _ => None,
        }
    }

    /// The entries of a map, in rising order of their keys.
    pub fn entries(&self) -> Option<&BTreeMap<Value, Value>> {
        match self {
            Value::Map(entries) => Some(entries),
            _ => None,
        }
    }

    /// What a map has for a key.
    pub fn get(&self, key: &Value) -> Option<&Value> {
        self.entries()?.get(key)
    }
}

impl From<bool> for Value {
    fn from(truth: bool) -> Value {
        Value::Boolean(truth)
    }
}

impl From<i32> for Value {
    fn from(number: i32) -> Value {
        Value::Integer(number)
    }
}

/// The value of the record that the bytes start with, and the bytes after it.
fn read(bytes: &[u8]) -> Option<(Value, &[u8])> {
    let &[l0, l1, k0, k1, ..] = bytes else {
        return None;
    };
    let length = usize::from(u16::from_le_bytes([l0, l1]));
    let contents = bytes.get(4..length)?;
    let value = match u16::from_le_bytes([k0, k1]) {
        1 => match contents {
            [0] => Value::Boolean(false),
            [1] => Value::Boolean(true),
            _ => return None,
        },
        2 => Value::Integer(i32::from_le_bytes(contents.try_into().ok()?)),
        3 => set(read_all(contents)?)?,
        4 => Value::Sequence(read_all(contents)?),
        5 => map(read_all(contents)?)?,
        6 => Value::Tuple(read_all(contents).filter(|items| (2..=4).contains(&items.len()))?),
        7 => Value::Quote(u16::from_le_bytes(contents.try_into().ok()?)),
        _ => return None,
    };
    Some((value, &bytes[length..]))
}

/// The values of records that stand one after the other.
fn read_all(mut bytes: &[u8]) -> Option<Vec<Value>> {
    let mut values = Vec::new();
    while !bytes.is_empty() {
        let (value, rest) = read(bytes)?;
        values.push(value);
        bytes = rest;
    }
    Some(values)
}

/// Members that ascend strictly.
fn set(members: Vec<Value>) -> Option<Value> {
    let ascending = members.is_sorted_by(|left, right| left < right);
    ascending.then(|| Value::Set(members.into_iter().collect()))
}

/// Key, value, key, value, with keys that ascend strictly.
fn map(items: Vec<Value>) -> Option<Value> {
    let mut entries = BTreeMap::new();
    let mut items = items.into_iter();
    while let Some(key) = items.next() {
        if entries
            .last_key_value()
            .is_some_and(|(last, _)| *last >= key)
        {
            return None;
        }
        entries.insert(key, items.next()?);
    }
    Some(Value::Map(entries))
}

impl Display for Value {
    fn fmt(&self, f: &mut fmt::Formatter) -> fmt::Result {
        match self {
            Value::Boolean(truth) => write!(f, "{truth}"),
            Value::Integer(number) => write!(f, "{number}"),
            Value::Set(members) => enclosed(f, "{", members, "}"),
            Value::Sequence(items) => enclosed(f, "[", items, "]"),
            Value::Map(entries) if entries.is_empty() => f.write_str("{|->}"),
            Value::Map(entries) => enclosed(f, "{", entries.iter().map(Maplet), "}"),
            Value::Tuple(items) => enclosed(f, "mk_(", items, ")"),
            Value::Quote(number) => write!(f, "<{number}>"),
        }
    }
}

/// An entry of a map, which prints as `key|->value`.
struct Maplet<'a>((&'a Value, &'a Value));

impl Display for Maplet<'_> {
    fn fmt(&self, f: &mut fmt::Formatter) -> fmt::Result {
        let (key, value) = self.0;
        write!(f, "{key}|->{value}")
    }
}

/// The items joined by commas, between two brackets.
fn enclosed(
    f: &mut fmt::Formatter,
    open: &str,
    items: impl IntoIterator<Item = impl Display>,
    close: &str,
) -> fmt::Result {
    f.write_str(open)?;
    for (index, item) in items.into_iter().enumerate() {
        let comma = if index == 0 { "" } else { "," };
        write!(f, "{comma}{item}")?;
    }
    f.write_str(close)
}
