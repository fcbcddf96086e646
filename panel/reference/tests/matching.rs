//! Matching against the definition, and patterns with more ways to match than can be counted.

mod common;
use common::*;
use reference::check::accept;
use reference::definition;
use reference::matching::{bindings, Binding, MAX_BINDINGS};
use reference::table::{Record, Table};
use reference::value::Value;
use std::collections::{BTreeMap, BTreeSet};
use std::time::{Duration, Instant};

/// A generator of pseudo-random numbers (xorshift).
struct Random(u64);

impl Random {
    fn below(&mut self, bound: u64) -> u64 {
        self.0 ^= self.0 << 13;
        self.0 ^= self.0 >> 7;
        self.0 ^= self.0 << 17;
        self.0 % bound
    }

    fn pattern(&mut self, height: u32) -> Node {
        let kinds = if height == 0 { 5 } else { 12 };
        let count = self.below(4);
        let part = |random: &mut Random| random.pattern(height - 1);
        match self.below(kinds) {
            0 | 1 => p_name(self.below(6) as u8),
            2 => p_any(),
            3 => p_int(self.below(2) as i32),
            4 => p_quote(self.below(2) as u16),
            5 => p_tuple(&[part(self), part(self)]),
            6 => p_set(&self.patterns(count, height - 1)),
            7 => self.split(kind::P_UNION, height),
            8 => p_seq(&self.patterns(count, height - 1)),
            9 => p_map(&self.patterns(2 * (count % 3), height - 1)),
            10 => self.split(kind::P_MUNION, height),
            _ => p_conc(part(self), part(self)),
        }
    }

    fn patterns(&mut self, count: u64, height: u32) -> Vec<Node> {
        (0..count).map(|_| self.pattern(height)).collect()
    }

    /// A union or munion.
    fn split(&mut self, kind: u16, height: u32) -> Node {
        let halves = [self.half(kind, height - 1), self.half(kind, height - 1)];
        node(kind, &[], &halves)
    }

    /// A part of a union or munion, mostly one that a set or map might match.
    fn half(&mut self, kind: u16, height: u32) -> Node {
        let count = 1 + self.below(3);
        match self.below(8) {
            0 if height > 0 => self.split(kind, height),
            1..=3 if height > 0 && kind == kind::P_UNION => {
                p_set(&self.patterns(count, height - 1))
            }
            1..=3 if height > 0 => p_map(&self.patterns(2 * (1 + count % 2), height - 1)),
            4 => self.pattern(height),
            5 => p_any(),
            _ => p_name(self.below(6) as u8),
        }
    }

    /// A value that the pattern might match.
    fn value(&mut self, table: &Table, pattern: usize) -> Value {
        if self.below(12) == 0 {
            return Value::Integer(self.below(2) as i32);
        }
        match table.record(pattern) {
            Record::TuplePattern(parts) => {
                Value::Tuple(parts.iter().map(|&part| self.value(table, part)).collect())
            }
            Record::SequencePattern(parts) => {
                Value::Sequence(parts.iter().map(|&part| self.value(table, part)).collect())
            }
            Record::SetPattern(parts) => {
                Value::Set(parts.iter().map(|&part| self.value(table, part)).collect())
            }
            Record::MapPattern(parts) => {
                let entries = parts.chunks_exact(2);
                let entry = |e: &[usize]| (self.value(table, e[0]), self.value(table, e[1]));
                Value::Map(entries.map(entry).collect())
            }
            Record::UnionPattern(left, right) => {
                Value::Set(&self.members(table, *left) | &self.members(table, *right))
            }
            Record::MunionPattern(left, right) => {
                let mut entries = self.entries(table, *left);
                entries.extend(self.entries(table, *right));
                Value::Map(entries)
            }
            Record::ConcatenationPattern(left, right) => {
                match (self.value(table, *left), self.value(table, *right)) {
                    (Value::Sequence(one), Value::Sequence(other)) => {
                        Value::Sequence([one, other].concat())
                    }
                    _ => Value::Sequence((0..self.below(4)).map(|_| self.small()).collect()),
                }
            }
            Record::LiteralPattern(literal) if self.below(4) > 0 => literal.clone(),
            _ => self.any(),
        }
    }

    /// A set, a map or a small value.
    fn any(&mut self) -> Value {
        match self.below(12) {
            0..=3 => self.any_set(),
            4 => self.any_map(),
            _ => self.small(),
        }
    }

    /// The members of a set that a part of a union might match.
    fn members(&mut self, table: &Table, part: usize) -> BTreeSet<Value> {
        if matches!(
            table.record(part),
            Record::SetPattern(_) | Record::UnionPattern(..)
        ) {
            if let Value::Set(members) = self.value(table, part) {
                return members;
            }
        }
        if self.below(12) == 0 {
            return (0..8).map(Value::Integer).collect();
        }
        let members = (0..self.below(5)).map(|_| Value::Integer(self.below(9) as i32));
        members.collect()
    }

    /// The entries of a map that a part of a munion might match.
    fn entries(&mut self, table: &Table, part: usize) -> BTreeMap<Value, Value> {
        if matches!(
            table.record(part),
            Record::MapPattern(_) | Record::MunionPattern(..)
        ) {
            if let Value::Map(entries) = self.value(table, part) {
                return entries;
            }
        }
        if self.below(12) == 0 {
            return (0..8).map(|n| (Value::Integer(n), self.small())).collect();
        }
        let entries = (0..self.below(5)).map(|_| {
            let key = Value::Integer(self.below(9) as i32);
            (key, self.small())
        });
        entries.collect()
    }

    fn small(&mut self) -> Value {
        match self.below(4) {
            0 => Value::Quote(self.below(2) as u16),
            _ => Value::Integer(self.below(3) as i32),
        }
    }

    fn any_set(&mut self) -> Value {
        let members = (0..self.below(9)).map(|n| Value::Integer(n as i32));
        Value::Set(members.collect())
    }

    fn any_map(&mut self) -> Value {
        let entries = (0..self.below(9)).map(|n| (Value::Integer(n as i32), self.small()));
        Value::Map(entries.collect())
    }
}

/// How many cases came to what, and how many of them hold each kind.
#[derive(Debug, Default)]
struct Tally {
    /// Refused with 29, refused with 30, without a match, with one.
    met: [usize; 4],
    /// Unions and munions in patterns that are refused with 29.
    wide: [usize; 2],
    /// Unions, munions, map enumerations and quotes in patterns that match.
    matched: [usize; 4],
}

impl Tally {
    fn add(&mut self, table: &Table, found: &Result<Vec<Binding>, u32>) {
        let outcome = match found {
            Err(29) => 0,
            Err(_) => 1,
            Ok(all) if all.is_empty() => 2,
            Ok(_) => 3,
        };
        self.met[outcome] += 1;
        let holds = |is_sought: fn(&Record) -> bool| table.records().iter().any(is_sought);
        let held = [
            holds(|record| matches!(record, Record::UnionPattern(..))),
            holds(|record| matches!(record, Record::MunionPattern(..))),
            holds(|record| matches!(record, Record::MapPattern(_))),
            holds(|record| matches!(record, Record::LiteralPattern(Value::Quote(_)))),
        ];
        let counts: &mut [usize] = match outcome {
            0 => &mut self.wide,
            3 => &mut self.matched,
            _ => &mut [],
        };
        for (count, is_held) in counts.iter_mut().zip(held) {
            *count += usize::from(is_held);
        }
    }
}

#[test]
fn bindings_are_those_of_the_definition() {
    let mut random = Random(0x2545_F491_4F6C_DD1D);
    let mut tally = Tally::default();
    for round in 0..9000 {
        let pattern = match round % 3 {
            0 => random.pattern(3),
            1 => random.split(kind::P_UNION, 3),
            _ => random.split(kind::P_MUNION, 3),
        };
        let sheet = let_(pattern, int(1), int(1));
        let Ok(table) = accept(&sheet.table()) else {
            continue;
        };
        let Record::Let { pattern, .. } = *table.record(table.last()) else {
            unreachable!("a let");
        };
        let value = random.value(&table, pattern);
        if table.records().len() > 12 {
            continue;
        }
        let expected = match definition::bindings(&table, pattern, &value) {
            None => Err(29),
            Some(all) if all.len() > MAX_BINDINGS => Err(30),
            Some(all) => Ok(all.into_iter().collect::<Vec<_>>()),
        };
        tally.add(&table, &expected);
        let found = bindings(&table, pattern, [&value]);
        let records = table.records();
        assert_eq!(found, expected, "round {round}: {records:?} and {value}");
    }
    assert!(tally.met.iter().all(|&count| count > 0), "{tally:?}");
    assert!(tally.wide.iter().all(|&count| count > 100), "{tally:?}");
    assert!(tally.matched.iter().all(|&count| count > 300), "{tally:?}");
}

/// Evaluates within a time that no count of all ways could keep.
fn soon(sheet: &Node) -> (u32, usize, usize) {
    let start = Instant::now();
    let answer = sheet.answer(&[]);
    let taken = start.elapsed();
    assert!(taken < Duration::from_secs(20), "{taken:?}");
    answer
}

/// A union of patterns, nested to the left.
fn unions(parts: impl Iterator<Item = Node>) -> Node {
    parts.reduce(p_union).expect("a part")
}

/// The ways to deal out so many units to so many parts, each with one at least.
fn deals(units: usize, parts: usize) -> usize {
    match (units, parts) {
        (0, 0) => 1,
        (0, _) | (_, 0) => 0,
        _ => parts * (deals(units - 1, parts) + deals(units - 1, parts - 1)),
    }
}

/// A pattern that splits, and a value of so many units.
type Split = (fn(Node, Node) -> Node, fn(i32) -> Node);

/// A set of so many members, and a map of so many entries.
const SPLITS: [Split; 2] = [
    (p_union, |members| range(1, members)),
    (p_munion, |count| entries(1, count)),
];

/// A let over a union or munion of so many parts and a value of so many units: its number and its count.
fn of_split((join, value): Split, part: fn(u8) -> Node, parts: u8, units: i32) -> (u32, usize) {
    let pattern = (0..parts).map(part).reduce(join).expect("a part");
    let (number, _, count) = soon(&let_(pattern, value(units), int(1)));
    (number, count)
}

#[test]
fn splits_in_many_parts() {
    assert_eq!(
        [deals(7, 5), deals(7, 6), deals(7, 7)],
        [16_800, 15_120, 5_040]
    );
    let units_and_parts = (0..=7).flat_map(|units| (2..=16).map(move |parts| (units, parts)));
    for (units, parts) in units_and_parts {
        let ways = deals(units as usize, parts.into());
        // Every part takes a unit at least, so more parts than units match nothing.
        let of_any = if ways == 0 { (23, 0) } else { (32, 1) };
        let of_names = match ways {
            0 => (23, 0),
            1..=MAX_BINDINGS => (32, ways),
            _ => (30, 0),
        };
        for split in SPLITS {
            assert_eq!(of_split(split, |_| p_any(), parts, units), of_any);
            assert_eq!(of_split(split, p_name, parts, units), of_names);
        }
    }
    // A name beside wildcards takes one unit to all but so many as there are wildcards.
    let beside = |n: u8| if n == 0 { p_name(0) } else { p_any() };
    for (parts, bindings) in [(2, 126), (3, 119), (4, 98), (5, 63), (6, 28), (7, 7)] {
        for split in SPLITS {
            assert_eq!(of_split(split, beside, parts, 7), (32, bindings));
        }
    }
}

#[test]
fn unions_of_many_parts() {
    // Four unions of five wildcards, 16,800 ways each: one binding.
    let wild = unions((0..5).map(|_| p_any()));
    let sets = || tuple(&vec![range(1, 7); 4]);
    let sheet = let_(p_tuple(&vec![wild; 4]), sets(), int(1));
    assert_eq!(soon(&sheet), (32, 51, 1));
    // Four unions of four names, 8,400 bindings each.
    let names = |from: u8| unions((from..from + 4).map(p_name));
    let four = || p_tuple(&[names(0), names(4), names(8), names(12)]);
    assert_eq!(soon(&let_(four(), sets(), int(1))), (30, 43, 0));
    // Beside a part that does not match there is none of them.
    let sheet = let_(
        p_tuple(&[four(), p_int(1)]),
        tuple(&[sets(), int(2)]),
        int(1),
    );
    assert_eq!(soon(&sheet), (23, 47, 0));
    let sheet = let_(
        p_tuple(&[p_int(1), four()]),
        tuple(&[int(2), sets()]),
        int(1),
    );
    assert_eq!(soon(&sheet), (23, 47, 0));
    // A wide union among the parts is still found.
    let names = || unions((0..16).map(p_name));
    let parts = names();
    let wide = p_set(&[p_union(p_any(), p_any())]);
    let sheet = let_(
        p_union(parts, wide),
        set(&[range(1, 8), range(1, 6)]),
        int(1),
    );
    assert_eq!(soon(&sheet).0, 29);
}

#[test]
fn names_repeated_in_unions() {
    // a union b union c and the same a beside it.
    let parts = || unions((0..3).map(p_name));
    let value = |beside| tuple(&[range(1, 7), beside]);
    let sheet = let_(p_tuple(&[parts(), p_name(0)]), value(range(1, 4)), int(1));
    // The three members that are left are split.
    assert_eq!(soon(&sheet), (32, 15, 6));
    let sheet = let_(p_tuple(&[parts(), p_name(0)]), value(range(0, 4)), int(1));
    assert_eq!(soon(&sheet), (23, 15, 0));
    let sheet = let_(p_tuple(&[parts(), parts()]), value(range(1, 6)), int(1));
    assert_eq!(soon(&sheet), (23, 19, 0));
    let sheet = let_(p_tuple(&[parts(), parts()]), value(range(1, 7)), int(1));
    assert_eq!(soon(&sheet), (30, 19, 0));
    // With one name in common: the others share out 6 members in 540 ways, 5 in 150, and 2 in none.
    let parts = || unions((0..4).map(p_name));
    for name in [0, 3] {
        for (beside, due) in [(1, (30, 17, 0)), (2, (32, 17, 150)), (5, (23, 17, 0))] {
            let pattern = p_tuple(&[parts(), p_name(name)]);
            assert_eq!(soon(&let_(pattern, value(range(1, beside)), int(1))), due);
        }
    }
    // No two halves are equal.
    for members in 0..=7 {
        let sheet = let_(p_union(p_name(0), p_name(0)), range(1, members), int(1));
        assert_eq!(soon(&sheet), (23, 7, 0));
    }
}

#[test]
fn concatenations_of_many_parts() {
    let items = |count: i32| seq_comp(p_name(15), range(1, count), boolean(true), boolean(true));
    let conc = |parts: Vec<Node>| parts.into_iter().reduce(p_conc).expect("a part");
    let names = |count: u8| conc((0..count).map(p_name).collect());
    assert_eq!(soon(&let_(names(4), items(63), int(1))).0, 30);
    assert_eq!(soon(&let_(names(15), items(63), int(1))).0, 30);
    let any = |count: usize| conc(vec![p_any(); count]);
    assert_eq!(soon(&let_(any(15), items(63), int(1))), (32, 37, 1));
    let one = conc(vec![
        p_any(),
        p_any(),
        p_seq(&[p_name(0)]),
        p_any(),
        p_any(),
    ]);
    assert_eq!(soon(&let_(one, items(63), int(1))), (32, 18, 1));
}
