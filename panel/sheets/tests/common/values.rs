//! Values in short, and random ones.

use generator::Random;
use reference::value::Value;
use Value::{Boolean, Integer, Map, Quote, Sequence, Set, Tuple};

// ---- values in short

pub const TRUE: Value = Boolean(true);
pub const FALSE: Value = Boolean(false);

pub fn int(number: i32) -> Value {
    Integer(number)
}

pub fn ints(numbers: impl IntoIterator<Item = i32>) -> Vec<Value> {
    numbers.into_iter().map(Integer).collect()
}

pub fn set_of(members: impl IntoIterator<Item = Value>) -> Value {
    Set(members.into_iter().collect())
}

pub fn set(numbers: impl IntoIterator<Item = i32>) -> Value {
    set_of(ints(numbers))
}

pub fn sequence_of(items: impl IntoIterator<Item = Value>) -> Value {
    Sequence(items.into_iter().collect())
}

pub fn sequence(numbers: impl IntoIterator<Item = i32>) -> Value {
    sequence_of(ints(numbers))
}

pub fn map_of(entries: impl IntoIterator<Item = (Value, Value)>) -> Value {
    Map(entries.into_iter().collect())
}

pub fn map(entries: impl IntoIterator<Item = (i32, i32)>) -> Value {
    map_of(entries.into_iter().map(|(k, v)| (int(k), int(v))))
}

// ---- random values

/// What a random value is to be.
#[derive(Clone, Copy, Debug, PartialEq, Eq)]
pub enum Form {
    Any,
    Boolean,
    Integer,
    Quote,
    Small,
    Set,
    Sequence,
    Map,
    Tuple,
    SetOfSets,
    SequenceOfSequences,
}

/// A random well-formed value.
pub fn random_value(random: &mut Random, form: Form) -> Value {
    loop {
        let value = draw(random, form, 3);
        if value.size() <= Value::MAX_SIZE {
            return value;
        }
    }
}

fn draw(random: &mut Random, form: Form, depth: usize) -> Value {
    let below = |random: &mut Random| draw(random, Form::Any, depth.saturating_sub(1));
    match form {
        Form::Any => {
            let forms = [
                Form::Integer,
                Form::Integer,
                Form::Boolean,
                Form::Quote,
                Form::Set,
                Form::Sequence,
                Form::Map,
                Form::Tuple,
            ];
            let form = forms[random.below(if depth == 0 { 4 } else { forms.len() })];
            draw(random, form, depth)
        }
        Form::Boolean => Boolean(random.once_in(2)),
        Form::Integer => Integer(integer(random)),
        Form::Quote => quote(random),
        Form::Small => small(random),
        Form::Set => {
            let member = if random.once_in(2) {
                Form::Any
            } else {
                Form::Small
            };
            let count = count(random);
            set_of((0..count).map(|_| draw(random, member, depth.saturating_sub(1))))
        }
        Form::Sequence => {
            let item = if random.once_in(2) {
                Form::Any
            } else {
                Form::Small
            };
            let count = count(random);
            sequence_of((0..count).map(|_| draw(random, item, depth.saturating_sub(1))))
        }
        Form::Map => {
            let count = count(random);
            map_of((0..count).map(|_| (small(random), below(random))))
        }
        Form::Tuple => Tuple((0..2 + random.below(3)).map(|_| below(random)).collect()),
        Form::SetOfSets => {
            let members = count(random).min(6);
            set_of((0..members).map(|_| draw(random, Form::Set, 1)))
        }
        Form::SequenceOfSequences => {
            let items = count(random).min(6);
            sequence_of((0..items).map(|_| draw(random, Form::Sequence, 1)))
        }
    }
}

/// Mostly few, at times as many as a value may have.
fn count(random: &mut Random) -> usize {
    if random.once_in(8) {
        random.below(80)
    } else {
        random.below(6)
    }
}

/// An integer, or now and then a quote, out of a few, so that values meet each other.
fn small(random: &mut Random) -> Value {
    if random.once_in(8) {
        return quote(random);
    }
    let most = random.pick(&[3, 9, 60]);
    Integer(random.between(-2, most))
}

/// A quote out of a few, or anywhere in the range.
fn quote(random: &mut Random) -> Value {
    match random.below(4) {
        0 => Quote(random.next() as u16),
        1 => Quote(random.pick(&[0, 255, 256, 257, 65_280, 65_535])),
        _ => Quote(random.below(4) as u16),
    }
}

/// An integer: small, at an end of the range, or anywhere in it.
fn integer(random: &mut Random) -> i32 {
    match random.below(6) {
        0 => random.pick(&[i32::MIN, i32::MIN + 1, -1, 0, 1, i32::MAX - 1, i32::MAX]),
        1 => random.next() as i32,
        2 => random.between(-70_000, 70_000),
        _ => random.between(-9, 9),
    }
}
