//! The deepest sheets that are accepted: each nests one form as far as the height or the records allow.

use crate::builder::{binary, kind, unary, Builder};
use crate::{MOST_HEIGHT, MOST_RECORDS};

/// The most items within each other of a value of 512 bytes, 4 for each: [[...[]...]].
const MOST_NESTED: usize = 128;

/// Deep sheets, with a label that says what is nested.
pub fn deepest() -> Vec<(String, Vec<u8>)> {
    let mut sheets: Vec<(String, Vec<u8>)> = FORMS
        .iter()
        .map(|(label, start, wrap)| (label.to_string(), nested(*start, *wrap)))
        .collect();
    sheets.push(("patterns of tuples".into(), patterns(kind::P_TUPLE)));
    sheets.push(("patterns of sequences".into(), patterns(kind::P_SEQUENCE)));
    sheets.push(("patterns of sets".into(), patterns(kind::P_SET)));
    sheets.push(("patterns of maps".into(), patterns(kind::P_MAP)));
    sheets.push(("concatenation patterns".into(), cuts()));
    sheets.push(("union patterns".into(), splits(kind::P_UNION)));
    sheets.push(("munion patterns".into(), splits(kind::P_MUNION)));
    sheets.push(("unions within sets of unions".into(), sets_of_unions()));
    sheets.push(("munions within maps of munions".into(), maps_of_munions()));
    sheets.push(("values within values, compared".into(), values()));
    sheets
}

/// Sheets with as many patterns with parts as the records and a value's size allow, in one pattern that matches in one way: they are matched one after
/// the other, each within the one before.
pub fn widest() -> Vec<(String, Vec<u8>)> {
    vec![
        (
            "tuples of unions of two sets".into(),
            tuples_of_unions(truths_apart, both_truths, &[2, 4, 4]),
        ),
        (
            "tuples of unions of seven sets".into(),
            tuples_of_unions(one_to_seven_apart, one_to_seven, &[2, 4]),
        ),
        (
            "concatenations of empty sequences".into(),
            empty_sequences(),
        ),
        (
            "tuples of munions of two maps".into(),
            tuples_of_unions(entries_apart, both_entries, &[4, 4]),
        ),
        ("maps of empty maps".into(), empty_maps()),
    ]
}

/// A let with a pattern of halves, their halves and so on, that meets an empty sequence.
fn empty_sequences() -> Vec<u8> {
    let mut b = Builder::new();
    // With a value, a body and the let, n empty ones and the n - 1 patterns that join them are all records.
    let mut level: Vec<usize> = (0..(MOST_RECORDS - 2) / 2)
        .map(|_| b.node(kind::P_SEQUENCE, &[]))
        .collect();
    while level.len() > 1 {
        let joined = level.chunks(2).map(|pair| match pair {
            [_, _] => b.node(kind::P_CONCATENATION, pair),
            _ => pair[0],
        });
        level = joined.collect();
    }
    let value = b.node(kind::SEQUENCE, &[]);
    let body = b.integer(5);
    b.node(kind::LET, &[level[0], value, body]);
    b.table()
}

/// A let with a pattern of tuples within tuples, so many parts each, from the outermost on, and of unions in the innermost ones. Lets around it build
/// the value from a set or map that all unions or munions meet.
fn tuples_of_unions(union: Start, set: Start, counts: &[usize]) -> Vec<u8> {
    let mut b = Builder::new();
    let start = set(&mut b);
    let (lets, value) = repeated(&mut b, start, kind::TUPLE, counts);
    let pattern = tuples(&mut b, union, counts);
    let body = b.integer(5);
    let body = b.node(kind::LET, &[pattern, value, body]);
    within_lets(&mut b, lets, body);
    b.table()
}

/// Patterns of lets with their values.
type Lets = Vec<(usize, usize)>;

/// An enumeration of so many equal items, each of these one of so many, from the outermost on, and in the innermost the start: the lets that build it,
/// and the last value.
fn repeated(b: &mut Builder, start: usize, form: u16, counts: &[usize]) -> (Lets, usize) {
    let mut value = start;
    let mut lets = Vec::new();
    for (name, &count) in (0..).zip(counts.iter().rev()) {
        lets.push((b.p_name(name), value));
        let items: Vec<usize> = (0..count).map(|_| b.name(name)).collect();
        value = b.node(form, &items);
    }
    (lets, value)
}

/// A body within lets, the first of them outermost.
fn within_lets(b: &mut Builder, lets: Lets, body: usize) {
    lets.into_iter().rev().fold(body, |body, (name, value)| {
        b.node(kind::LET, &[name, value, body])
    });
}

/// A let with a pattern of maps of one entry, a map as key and as value each, and so on: with 63 of them and 64 empty ones a value has 508 bytes.
fn empty_maps() -> Vec<u8> {
    let mut b = Builder::new();
    let start = b.node(kind::MAP, &[]);
    let (lets, value) = repeated(&mut b, start, kind::MAP, &[2; 6]);
    let mut level: Vec<usize> = (0..64).map(|_| b.node(kind::P_MAP, &[])).collect();
    while level.len() > 1 {
        let entries = level.chunks(2).map(|entry| b.node(kind::P_MAP, entry));
        level = entries.collect();
    }
    let body = b.integer(5);
    let body = b.node(kind::LET, &[level[0], value, body]);
    within_lets(&mut b, lets, body);
    b.table()
}

fn tuples(b: &mut Builder, union: Start, counts: &[usize]) -> usize {
    let Some((&count, inner)) = counts.split_first() else {
        return union(b);
    };
    let parts: Vec<usize> = (0..count).map(|_| tuples(b, union, inner)).collect();
    b.node(kind::P_TUPLE, &parts)
}

/// {false} union {true}.
fn truths_apart(b: &mut Builder) -> usize {
    let halves = [0, 1].map(|truth| {
        let member = b.record(kind::P_BOOLEAN, &[truth], &[]);
        b.node(kind::P_SET, &[member])
    });
    b.node(kind::P_UNION, &halves)
}

/// {false,true}.
fn both_truths(b: &mut Builder) -> usize {
    let members = [b.boolean(false), b.boolean(true)];
    b.node(kind::SET, &members)
}

/// {false |-> -} munion {true |-> -}.
fn entries_apart(b: &mut Builder) -> usize {
    let halves = [0, 1].map(|truth| {
        let entry = [b.record(kind::P_BOOLEAN, &[truth], &[]), b.p_any()];
        b.node(kind::P_MAP, &entry)
    });
    b.node(kind::P_MUNION, &halves)
}

/// {false|->true,true|->false}.
fn both_entries(b: &mut Builder) -> usize {
    let entries = [false, true, true, false].map(|truth| b.boolean(truth));
    b.node(kind::MAP, &entries)
}

/// {1} union ({2} union (.. union {7})).
fn one_to_seven_apart(b: &mut Builder) -> usize {
    let sets: Vec<usize> = (1..=7_i32)
        .map(|number| {
            let member = b.record(kind::P_INTEGER, &number.to_le_bytes(), &[]);
            b.node(kind::P_SET, &[member])
        })
        .collect();
    let joined = sets.into_iter().rev();
    let joined = joined.reduce(|right, left| b.node(kind::P_UNION, &[left, right]));
    joined.expect("a set")
}

/// {1,...,7}.
fn one_to_seven(b: &mut Builder) -> usize {
    b.range(1, 7)
}

type Start = fn(&mut Builder) -> usize;
type Wrap = fn(&mut Builder, usize) -> usize;

const FORMS: &[(&str, Start, Wrap)] = &[
    ("minuses", five, |b, inner| b.unary(unary::NEGATE, inner)),
    ("sums", five, |b, inner| {
        let left = b.integer(1);
        b.binary(binary::PLUS, left, inner)
    }),
    ("conjunctions", truth, |b, inner| {
        let left = b.boolean(true);
        b.binary(binary::AND, left, inner)
    }),
    ("ifs", five, |b, inner| {
        let (test, no) = (b.boolean(true), b.integer(0));
        b.node(kind::IF, &[test, inner, no])
    }),
    ("cards of sets of eight", five, |b, inner| {
        let set = of_eight(b, kind::SET, inner);
        b.unary(unary::CARD, set)
    }),
    ("lengths of sequences of eight", five, |b, inner| {
        let sequence = of_eight(b, kind::SEQUENCE, inner);
        b.unary(unary::LEN, sequence)
    }),
    ("applications of maps of four", five, |b, inner| {
        let map = of_eight(b, kind::MAP, inner);
        let key = b.integer(6);
        b.node(kind::APPLY, &[map, key])
    }),
    ("lets", five, |b, inner| {
        let (pattern, value) = (b.p_any(), b.integer(1));
        b.node(kind::LET, &[pattern, value, inner])
    }),
    ("let-bes", five, |b, inner| {
        let (pattern, set, condition) = over_truths(b);
        b.node(kind::LET_BE, &[pattern, set, condition, inner])
    }),
    ("foralls in conditions", truth, |b, inner| {
        in_condition(b, kind::FORALL, inner)
    }),
    ("exists in conditions", truth, |b, inner| {
        in_condition(b, kind::EXISTS, inner)
    }),
    ("exists1 in conditions", truth, |b, inner| {
        in_condition(b, kind::EXISTS1, inner)
    }),
    ("set comprehensions in elements", five, |b, inner| {
        let (pattern, set, condition) = over_truths(b);
        b.node(kind::SET_COMPREHENSION, &[pattern, set, condition, inner])
    }),
    ("set comprehensions in set operands", truths, |b, inner| {
        let (pattern, condition, element) = (b.p_any(), b.boolean(true), b.boolean(true));
        let operands = [pattern, inner, condition, element];
        b.node(kind::SET_COMPREHENSION, &operands)
    }),
    ("let-bes in set operands", truths, |b, inner| {
        let (pattern, condition, body) = (b.p_any(), b.boolean(true), truths(b));
        b.node(kind::LET_BE, &[pattern, inner, condition, body])
    }),
    ("map comprehensions in keys", five, |b, inner| {
        let (pattern, set, condition) = over_truths(b);
        let value = b.integer(0);
        b.node(
            kind::MAP_COMPREHENSION,
            &[pattern, set, condition, inner, value],
        )
    }),
    ("map comprehensions in values", five, |b, inner| {
        let (pattern, set, condition) = over_truths(b);
        let key = b.integer(0);
        b.node(
            kind::MAP_COMPREHENSION,
            &[pattern, set, condition, key, inner],
        )
    }),
    ("set comprehensions in conditions", truth, |b, inner| {
        let (pattern, set) = (b.p_any(), truths(b));
        let element = b.integer(1);
        let numbers = b.node(kind::SET_COMPREHENSION, &[pattern, set, inner, element]);
        let none = b.node(kind::SET, &[]);
        b.binary(binary::NOT_EQUAL, numbers, none)
    }),
    ("distributed unions of sets", no_members, |b, inner| {
        let sets = b.node(kind::SET, &[inner]);
        b.unary(unary::DUNION, sets)
    }),
    ("applications", five, |b, inner| {
        let items = b.node(kind::SEQUENCE, &[inner]);
        let index = b.integer(1);
        b.node(kind::APPLY, &[items, index])
    }),
];

fn five(b: &mut Builder) -> usize {
    b.integer(5)
}

fn truth(b: &mut Builder) -> usize {
    b.boolean(true)
}

fn no_members(b: &mut Builder) -> usize {
    b.node(kind::SET, &[])
}

/// {true}.
fn truths(b: &mut Builder) -> usize {
    let member = b.boolean(true);
    b.node(kind::SET, &[member])
}

/// The pattern, set and condition of a binder with one binding.
fn over_truths(b: &mut Builder) -> (usize, usize, usize) {
    (b.p_any(), truths(b), b.boolean(true))
}

fn in_condition(b: &mut Builder, kind: u16, inner: usize) -> usize {
    let (pattern, set) = (b.p_any(), truths(b));
    b.node(kind, &[pattern, set, inner])
}

/// An enumeration of eight operands, the last the inner one.
fn of_eight(b: &mut Builder, kind: u16, inner: usize) -> usize {
    let mut operands: Vec<usize> = (0..7).map(|number| b.integer(number)).collect();
    operands.push(inner);
    b.node(kind, &operands)
}

/// Wraps as often as the height, the records and a value's size allow.
fn nested(start: Start, wrap: Wrap) -> Vec<u8> {
    let mut sheet = Builder::new();
    let mut last = start(&mut sheet);
    loop {
        let mut higher = sheet.clone();
        last = wrap(&mut higher, last);
        let is_high = higher.heights().last() > Some(&MOST_HEIGHT);
        if is_high || higher.records.len() > MOST_RECORDS {
            return sheet.table();
        }
        sheet = higher;
    }
}

/// A let that matches nested items one by one: mk_(1,mk_(1,...)), [1,[1,...]], {1,{1,...}} or {1|->{1|->...}}.
fn patterns(form: u16) -> Vec<u8> {
    let mut b = Builder::new();
    let mut pattern = b.p_name(0);
    for _ in 2..MOST_HEIGHT {
        let beside = b.p_any();
        pattern = b.node(form, &[beside, pattern]);
    }
    let enumeration = match form {
        kind::P_TUPLE => kind::TUPLE,
        kind::P_SEQUENCE => kind::SEQUENCE,
        kind::P_MAP => kind::MAP,
        _ => kind::SET,
    };
    let mut value = b.integer(5);
    for _ in 2..MOST_HEIGHT {
        let beside = b.integer(1);
        value = b.node(enumeration, &[beside, value]);
    }
    let body = b.name(0);
    b.node(kind::LET, &[pattern, value, body]);
    b.table()
}

/// The half of a half of a half, as high as a pattern may be.
fn halves(b: &mut Builder, form: u16) -> usize {
    let innermost = b.p_name(0);
    (2..MOST_HEIGHT).fold(innermost, |half, _| {
        let beside = b.p_any();
        b.node(form, &[beside, half])
    })
}

/// A let whose pattern cuts a sequence again and again.
fn cuts() -> Vec<u8> {
    let mut b = Builder::new();
    let pattern = halves(&mut b, kind::P_CONCATENATION);
    let items: Vec<usize> = (0..3).map(|number| b.integer(number)).collect();
    let value = b.node(kind::SEQUENCE, &items);
    let body = b.name(0);
    b.node(kind::LET, &[pattern, value, body]);
    b.table()
}

/// An exists whose pattern splits a set or map again and again: more often than its members or entries, so that nothing matches.
fn splits(form: u16) -> Vec<u8> {
    let mut b = Builder::new();
    let pattern = halves(&mut b, form);
    let whole = match form {
        kind::P_MUNION => b.entries(0, 1, 7),
        _ => b.range(1, 7),
    };
    let set = b.node(kind::SET, &[whole]);
    let condition = b.boolean(true);
    b.node(kind::EXISTS, &[pattern, set, condition]);
    b.table()
}

/// let {{{a} union -} union -} union - = {1,{1,{1,5}}} in a, as deep as it goes.
fn sets_of_unions() -> Vec<u8> {
    let mut b = Builder::new();
    let (mut pattern, mut value) = (b.p_name(0), b.integer(5));
    // A set and a union for each level.
    for _ in 0..(MOST_HEIGHT - 2) / 2 {
        let halves = [b.node(kind::P_SET, &[pattern]), b.p_any()];
        pattern = b.node(kind::P_UNION, &halves);
        let members = [b.integer(1), value];
        value = b.node(kind::SET, &members);
    }
    let body = b.name(0);
    b.node(kind::LET, &[pattern, value, body]);
    b.table()
}

/// let {- |-> {- |-> a} munion -} munion - = {1|->{1|->5,2|->1},2|->1} in a, as deep as it goes.
fn maps_of_munions() -> Vec<u8> {
    let mut b = Builder::new();
    let (mut pattern, mut value) = (b.p_name(0), b.integer(5));
    // A map and a munion for each level.
    for _ in 0..(MOST_HEIGHT - 2) / 2 {
        let entry = [b.p_any(), pattern];
        let halves = [b.node(kind::P_MAP, &entry), b.p_any()];
        pattern = b.node(kind::P_MUNION, &halves);
        let entries = [b.integer(1), value, b.integer(2), b.integer(1)];
        value = b.node(kind::MAP, &entries);
    }
    let body = b.name(0);
    b.node(kind::LET, &[pattern, value, body]);
    b.table()
}

/// Sequences within sequences as deep as 512 bytes allow, built over lets, and compared with themselves.
fn values() -> Vec<u8> {
    const NAMES: u8 = 5;
    let each = MOST_NESTED.div_ceil(usize::from(NAMES));
    let mut b = Builder::new();
    let mut lets = Vec::new();
    let mut left = MOST_NESTED;
    for name in 0..NAMES {
        let pattern = b.p_name(name);
        let mut value = match name.checked_sub(1) {
            Some(before) => b.name(before),
            None => b.node(kind::SEQUENCE, &[]),
        };
        let wraps = each.min(left) - usize::from(name == 0);
        for _ in 0..wraps {
            value = b.node(kind::SEQUENCE, &[value]);
        }
        left -= each.min(left);
        lets.push((pattern, value));
    }
    let sides = [b.name(NAMES - 1), b.name(NAMES - 1)];
    let body = b.binary(binary::EQUAL, sides[0], sides[1]);
    within_lets(&mut b, lets, body);
    b.table()
}
