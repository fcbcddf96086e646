//! The records that build a value in a table.

use generator::builder::{binary, kind};
use generator::Builder;
use reference::value::Value;
use std::collections::{BTreeMap, BTreeSet};

/// The most operands of an enumeration, and the most integers of a range.
const ENUMERATED: usize = 8;
const MOST_IN_RANGE: usize = 63;
/// A run as long as this is shorter as a range or a comprehension.
const RUN: usize = 7;

/// Appends records that build the value, and gives the number of the last: literals and enumerations, joined where
/// they are longer than an enumeration may be. Runs of integers are ranges; runs of equal items or of integers in a
/// sequence, and of keys with one value, are comprehensions over ranges, as far as there are free names for them.
pub fn write(out: &mut Builder, value: &Value, names: &[u8]) -> usize {
    match value {
        Value::Boolean(truth) => out.boolean(*truth),
        Value::Integer(number) => out.integer(*number),
        Value::Quote(number) => out.quote(*number),
        Value::Tuple(items) => enumeration(out, kind::TUPLE, items, names),
        Value::Set(members) => set(out, members, names),
        Value::Sequence(items) => sequence(out, items, names),
        Value::Map(entries) => map(out, entries, names),
    }
}

fn set(out: &mut Builder, members: &BTreeSet<Value>, names: &[u8]) -> usize {
    let members: Vec<&Value> = members.iter().collect();
    let mut parts = Vec::new();
    for piece in pieces(&members, ENUMERATED, |rest| run(rest, is_next)) {
        parts.push(match piece {
            Piece::Run(run) => range(out, run[0], run.len()),
            Piece::Others(others) => enumeration(out, kind::SET, others.iter().copied(), names),
        });
    }
    joined(out, binary::UNION, parts)
}

fn sequence(out: &mut Builder, items: &[Value], names: &[u8]) -> usize {
    let items: Vec<&Value> = items.iter().collect();
    let longest = |rest: &[&Value]| match names {
        [] => 0,
        _ => run(rest, is_next).max(run(rest, Value::eq)),
    };
    let mut parts = Vec::new();
    for piece in pieces(&items, ENUMERATED, longest) {
        parts.push(match piece {
            Piece::Run(run) => items_of_run(out, run, names),
            Piece::Others(others) => {
                enumeration(out, kind::SEQUENCE, others.iter().copied(), names)
            }
        });
    }
    joined(out, binary::CONCATENATE, parts)
}

/// [x | a in set {1,...,n} & true] for equal items, [a | a in set {m,...,n} & true] for integers that rise.
fn items_of_run(out: &mut Builder, run: &[&Value], names: &[u8]) -> usize {
    let (&name, others) = names.split_first().expect("a free name");
    let is_equal = run[0] == run[1];
    let from = if is_equal { &Value::Integer(1) } else { run[0] };
    let (pattern, set) = (out.p_name(name), range(out, from, run.len()));
    let condition = out.boolean(true);
    let element = match is_equal {
        true => write(out, run[0], others),
        false => out.name(name),
    };
    let operands = [pattern, set, condition, element];
    out.node(kind::SEQUENCE_COMPREHENSION, &operands)
}

fn map(out: &mut Builder, entries: &BTreeMap<Value, Value>, names: &[u8]) -> usize {
    let entries: Vec<(&Value, &Value)> = entries.iter().collect();
    let follows = |before: &(&Value, &Value), after: &(&Value, &Value)| {
        is_next(before.0, after.0) && before.1 == after.1
    };
    let longest = |rest: &[(&Value, &Value)]| match names {
        [] => 0,
        _ => run_of(rest, follows),
    };
    let mut parts = Vec::new();
    for piece in pieces(&entries, ENUMERATED / 2, longest) {
        parts.push(match piece {
            Piece::Run(run) => entries_of_run(out, run, names),
            Piece::Others(others) => {
                let items = others.iter().flat_map(|&(key, value)| [key, value]);
                enumeration(out, kind::MAP, items, names)
            }
        });
    }
    joined(out, binary::MUNION, parts)
}

/// {a |-> x | a in set {m,...,n} & true}.
fn entries_of_run(out: &mut Builder, run: &[(&Value, &Value)], names: &[u8]) -> usize {
    let (&name, others) = names.split_first().expect("a free name");
    let (pattern, set) = (out.p_name(name), range(out, run[0].0, run.len()));
    let (condition, key) = (out.boolean(true), out.name(name));
    let value = write(out, run[0].1, others);
    out.node(
        kind::MAP_COMPREHENSION,
        &[pattern, set, condition, key, value],
    )
}

/// So many integers from one on.
fn range(out: &mut Builder, from: &Value, count: usize) -> usize {
    match from {
        Value::Integer(from) => out.range(*from, from + (count as i32 - 1)),
        other => panic!("{other:?} is no integer"),
    }
}

fn enumeration<'a>(
    out: &mut Builder,
    kind: u16,
    items: impl IntoIterator<Item = &'a Value>,
    names: &[u8],
) -> usize {
    let items = items.into_iter().map(|item| write(out, item, names));
    let items: Vec<usize> = items.collect();
    out.node(kind, &items)
}

/// Parts joined by an operator, as a tree that is as low as it can be.
fn joined(out: &mut Builder, operator: u8, mut parts: Vec<usize>) -> usize {
    while parts.len() > 1 {
        let pairs = parts.chunks(2).map(|pair| match *pair {
            [left, right] => out.binary(operator, left, right),
            _ => pair[0],
        });
        parts = pairs.collect();
    }
    parts[0]
}

/// Items that stand next to each other.
enum Piece<'a, T> {
    Run(&'a [T]),
    Others(&'a [T]),
}

/// Cuts items into runs, given how long a run they start with, and into pieces of at most so many others. There is
/// one piece at least.
fn pieces<T>(items: &[T], most: usize, run: impl Fn(&[T]) -> usize) -> Vec<Piece<'_, T>> {
    let mut pieces = Vec::new();
    let mut rest = items;
    while !rest.is_empty() || pieces.is_empty() {
        let is_run = |at: &usize| run(&rest[*at..]) >= RUN;
        let start = (0..rest.len()).find(is_run).unwrap_or(rest.len());
        let length = match start {
            0 if rest.is_empty() => 0,
            0 => run(rest).min(MOST_IN_RANGE),
            _ => start.min(most),
        };
        let (piece, after) = rest.split_at(length);
        pieces.push(match start {
            0 if !piece.is_empty() => Piece::Run(piece),
            _ => Piece::Others(piece),
        });
        rest = after;
    }
    pieces
}

/// How many items at the start follow each other.
fn run(items: &[&Value], follows: impl Fn(&Value, &Value) -> bool) -> usize {
    run_of(items, |before, after| follows(before, after))
}

fn run_of<T>(items: &[T], follows: impl Fn(&T, &T) -> bool) -> usize {
    let following = items
        .windows(2)
        .take_while(|pair| follows(&pair[0], &pair[1]));
    items.len().min(1 + following.count())
}

/// Whether the second is the integer after the first.
fn is_next(before: &Value, after: &Value) -> bool {
    match (before, after) {
        (Value::Integer(before), Value::Integer(after)) => before.checked_add(1) == Some(*after),
        _ => false,
    }
}
