//! Random patterns, and values made from them. Everything follows from the seed.

use crate::{set_of, Pattern};
use generator::builder::kind;
use generator::Random;
use reference::value::Value;
use std::collections::BTreeMap;

/// The numbers of quotes.
const QUOTES: [u16; 5] = [0, 1, 255, 256, 65_535];

/// What a value is to be.
#[derive(Clone, Copy, PartialEq, Eq)]
enum Want {
    Anything,
    Set,
    Sequence,
    Map,
}

/// Sets with their patterns, or maps with theirs: members are paired and split as entries are.
#[derive(Clone, Copy)]
pub enum Collection {
    Set,
    Map,
}

impl Collection {
    /// An enumeration of so many members or entries, each part written alike.
    fn enumeration(self, count: usize, part: impl FnMut() -> Pattern) -> Pattern {
        let parts = std::iter::repeat_with(part);
        match self {
            Collection::Set => Pattern::Set(parts.take(count).collect()),
            Collection::Map => Pattern::Map(parts.take(2 * count).collect()),
        }
    }

    /// A union or munion.
    fn split(self, left: Pattern, right: Pattern) -> Pattern {
        match self {
            Collection::Set => Pattern::union(left, right),
            Collection::Map => Pattern::munion(left, right),
        }
    }
}

/// Makes patterns, and values for them.
pub struct Maker {
    pub random: Random,
    /// How many names a pattern may hold.
    pub names: usize,
    /// What the names of a pattern are filled in with.
    filled: BTreeMap<u8, Value>,
}

impl Maker {
    pub fn new(seed: u64) -> Maker {
        Maker {
            random: Random::new(seed),
            names: 16,
            filled: BTreeMap::new(),
        }
    }

    // ---- patterns

    /// A random pattern up to a height.
    pub fn pattern(&mut self, height: usize) -> Pattern {
        if height == 0 || self.random.once_in(5) {
            return self.simple();
        }
        match self.random.below(8) {
            0 | 1 => {
                let count = 2 + self.random.below(3);
                Pattern::Tuple(self.patterns(count, height - 1))
            }
            2 => self.enumeration(Collection::Set, height),
            3 => self.sequence_pattern(height),
            4 => self.split(Collection::Set, height),
            5 => self.concatenation(height),
            6 => self.enumeration(Collection::Map, height),
            _ => self.split(Collection::Map, height),
        }
    }

    fn patterns(&mut self, count: usize, height: usize) -> Vec<Pattern> {
        (0..count).map(|_| self.pattern(height)).collect()
    }

    fn simple(&mut self) -> Pattern {
        match self.random.below(24) {
            0..=3 => Pattern::Any,
            4 | 5 => Pattern::Boolean(self.random.once_in(2)),
            6 => Pattern::Integer(self.random.between(-1, 3)),
            7 => Pattern::Quote(self.random.pick(&QUOTES)),
            _ => Pattern::Name(self.random.below(self.names) as u8),
        }
    }

    fn enumeration(&mut self, of: Collection, height: usize) -> Pattern {
        let count = self.random.below(5);
        of.enumeration(count, || self.pattern(height - 1))
    }

    /// A set or map enumeration as a half, so mostly not an empty one.
    fn half_enumeration(&mut self, of: Collection, height: usize) -> Pattern {
        let least = usize::from(!self.random.once_in(8));
        let count = least + self.random.below(4);
        of.enumeration(count, || self.pattern(height - 1))
    }

    fn sequence_pattern(&mut self, height: usize) -> Pattern {
        let count = self.random.below(5);
        Pattern::Sequence(self.patterns(count, height - 1))
    }

    fn split(&mut self, of: Collection, height: usize) -> Pattern {
        let half = |maker: &mut Maker| match maker.random.below(9) {
            0..=2 if height > 1 => maker.half_enumeration(of, height - 1),
            3 if height > 1 => maker.split(of, height - 1),
            4 => maker.pattern(height - 1),
            _ => maker.name_or_any(),
        };
        let left = half(self);
        of.split(left, half(self))
    }

    /// Unions or munions within each other in any shape, of so many parts that are none; of these some are enumerations
    /// that hold one again.
    pub fn tree(&mut self, of: Collection, parts: usize) -> Pattern {
        if parts > 1 {
            let left = 1 + self.random.below(parts - 1);
            let right = parts - left;
            return of.split(self.tree(of, left), self.tree(of, right));
        }
        let count = 1 + self.random.below(3);
        match self.random.below(12) {
            0..=3 => self.name_or_any(),
            4 | 5 => Pattern::Any,
            6..=9 => of.enumeration(count, || self.simple()),
            10 => of.enumeration(1, || of.split(self.name_or_any(), self.name_or_any())),
            _ => self.pattern(1),
        }
    }

    fn concatenation(&mut self, height: usize) -> Pattern {
        let half = |maker: &mut Maker| match maker.random.below(9) {
            0..=2 if height > 1 => maker.sequence_pattern(height - 1),
            3 if height > 1 => maker.concatenation(height - 1),
            4 => maker.pattern(height - 1),
            _ => maker.name_or_any(),
        };
        let left = half(self);
        Pattern::concatenation(left, half(self))
    }

    fn name_or_any(&mut self) -> Pattern {
        if self.random.once_in(6) {
            return Pattern::Any;
        }
        Pattern::Name(self.random.below(self.names) as u8)
    }

    // ---- values

    /// A value of the pattern with its names filled in, equal names with equal values.
    fn filled(&mut self, pattern: &Pattern) -> Value {
        self.filled.clear();
        self.fill(pattern, Want::Anything)
    }

    fn fill(&mut self, pattern: &Pattern, want: Want) -> Value {
        let parts = pattern.parts();
        match pattern {
            Pattern::Name(name) => {
                if let Some(value) = self.filled.get(name) {
                    return value.clone();
                }
                let value = self.value(want);
                self.filled.insert(*name, value.clone());
                value
            }
            Pattern::Any => self.value(want),
            Pattern::Boolean(truth) => Value::Boolean(*truth),
            Pattern::Integer(number) => Value::Integer(*number),
            Pattern::Quote(number) => Value::Quote(*number),
            Pattern::Tuple(_) => Value::Tuple(self.fill_all(parts, Want::Anything)),
            Pattern::Set(_) => set_of(self.fill_all(parts, Want::Anything)),
            Pattern::Sequence(_) => Value::Sequence(self.fill_all(parts, Want::Anything)),
            Pattern::Map(_) => map_of(&self.fill_all(parts, Want::Anything)),
            Pattern::Union(_) => set_of(self.fill_halves(parts, Want::Set)),
            Pattern::Concatenation(_) => Value::Sequence(self.fill_halves(parts, Want::Sequence)),
            Pattern::Munion(_) => map_of(&self.fill_halves(parts, Want::Map)),
        }
    }

    fn fill_all(&mut self, patterns: &[Pattern], want: Want) -> Vec<Value> {
        patterns.iter().map(|part| self.fill(part, want)).collect()
    }

    /// The items of both halves.
    fn fill_halves(&mut self, halves: &[Pattern], want: Want) -> Vec<Value> {
        let halves = self.fill_all(halves, want).into_iter();
        halves.flat_map(items_of).collect()
    }

    /// A random value; sets and maps mostly differ from each other, so that unions of them are disjoint.
    fn value(&mut self, want: Want) -> Value {
        match want {
            Want::Anything => self.any_value(2),
            Want::Set => {
                let (count, most) = self.half();
                set_of((0..count).map(|_| self.small(most)))
            }
            Want::Map => {
                let (count, most) = self.half();
                let entries = (0..count).map(|_| (self.small(most), self.small(4)));
                Value::Map(entries.collect())
            }
            Want::Sequence => {
                let count = self.random.below(5);
                Value::Sequence((0..count).map(|_| self.small(4)).collect())
            }
        }
    }

    /// How many members or entries a half has, mostly one at least, and the greatest integer among them.
    fn half(&mut self) -> (usize, i32) {
        let count = match self.random.below(12) {
            0 => 5 + self.random.below(5),
            1 => 0,
            _ => 1 + self.random.below(3),
        };
        (count, self.random.pick(&[5, 30, 30]))
    }

    fn small(&mut self, most: i32) -> Value {
        match self.random.below(16) {
            0 | 1 => self.any_value(1),
            2 => Value::Quote(255 * self.random.below(most as usize) as u16),
            _ => Value::Integer(self.random.between(-1, most)),
        }
    }

    fn any_value(&mut self, depth: usize) -> Value {
        let count = self.random.below(4);
        match self.random.below(if depth == 0 { 5 } else { 10 }) {
            0 => Value::Boolean(self.random.once_in(2)),
            1..=3 => Value::Integer(self.random.between(-2, 5)),
            4 => Value::Quote(self.random.pick(&QUOTES)),
            5 | 6 => set_of((0..count).map(|_| self.any_value(depth - 1))),
            7 => Value::Sequence((0..count).map(|_| self.any_value(depth - 1)).collect()),
            8 => {
                let entries = (0..count).map(|_| (self.small(3), self.any_value(depth - 1)));
                Value::Map(entries.collect())
            }
            _ => {
                let count = 2 + self.random.below(3);
                Value::Tuple((0..count).map(|_| self.any_value(depth - 1)).collect())
            }
        }
    }

    /// A value with something in it replaced, left out or added, or of another kind.
    fn damaged(&mut self, value: &Value) -> Value {
        let mut items = items_of(value.clone());
        if items.is_empty() || self.random.once_in(6) {
            return self.any_value(2);
        }
        let at = self.random.below(items.len());
        // An entry is a key and a value.
        let width = if matches!(value, Value::Map(_)) { 2 } else { 1 };
        let unit = at / width * width;
        match self.random.below(6) {
            0 => {
                items.drain(unit..unit + width);
            }
            1 => {
                let new: Vec<Value> = (0..width).map(|_| self.small(9)).collect();
                items.splice(unit..unit, new);
            }
            2 => {
                let other = self.random.below(items.len());
                items.swap(at, other);
            }
            _ => items[at] = self.damaged(&items[at]),
        }
        match value {
            Value::Tuple(_) if (2..=4).contains(&items.len()) => Value::Tuple(items),
            Value::Set(_) if !self.random.once_in(9) => set_of(items),
            Value::Map(_) if !self.random.once_in(9) => map_of(&items),
            _ => Value::Sequence(items),
        }
    }

    /// What a binder of the kind is given: a value made from the pattern, or a set of several; once in so
    /// often it is damaged.
    pub fn offer(&mut self, kind: u16, pattern: &Pattern, once_damaged_in: usize) -> Value {
        let one = |maker: &mut Maker| {
            let value = maker.filled(pattern);
            match maker.random.once_in(once_damaged_in) {
                true => maker.damaged(&value),
                false => value,
            }
        };
        if kind == kind::LET {
            return one(self);
        }
        let count = self.random.below(5);
        set_of((0..count).map(|_| one(self)))
    }
}

/// The members or items of a collection, of a map its keys and values; any other value is its one item.
fn items_of(value: Value) -> Vec<Value> {
    match value {
        Value::Set(members) => members.into_iter().collect(),
        Value::Sequence(items) | Value::Tuple(items) => items,
        Value::Map(entries) => entries.into_iter().flat_map(<[Value; 2]>::from).collect(),
        other => vec![other],
    }
}

/// The map of keys and values; of one key the last value, and an item too many is left out.
fn map_of(items: &[Value]) -> Value {
    let entries = items.chunks_exact(2);
    Value::Map(entries.map(|e| (e[0].clone(), e[1].clone())).collect())
}
