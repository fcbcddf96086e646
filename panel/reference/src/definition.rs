//! Matching by the definition alone: every way of every part, with no limit on the bindings and no thought
//! of time. [`crate::matching`] is held to it.

use std::collections::BTreeSet;

use crate::matching::{Binding, MAX_SPLIT};
use crate::table::{Record, Table};
use crate::value::Value;

/// The distinct bindings of a pattern and a value, whatever their number; nothing where a union pattern is
/// met by a set of too many members, or a munion pattern by a map of too many entries.
pub fn bindings(table: &Table, pattern: usize, value: &Value) -> Option<BTreeSet<Binding>> {
    match (table.record(pattern), value) {
        (Record::NamePattern(name), _) => {
            Some(BTreeSet::from([Binding::from([(*name, value.clone())])]))
        }
        (Record::AnyPattern, _) => matched(true),
        (Record::LiteralPattern(literal), _) => matched(value == literal),
        (Record::TuplePattern(parts), Value::Tuple(items))
        | (Record::SequencePattern(parts), Value::Sequence(items)) => {
            arranged(table, parts, vec![items.clone()])
        }
        (Record::SetPattern(parts), Value::Set(members)) => {
            let members = members.iter().map(|member| vec![member.clone()]);
            arranged(table, parts, members.collect())
        }
        (Record::MapPattern(parts), Value::Map(entries)) => {
            let entries = entries.iter().map(|(k, v)| vec![k.clone(), v.clone()]);
            arranged(table, parts, entries.collect())
        }
        (Record::UnionPattern(left, right), Value::Set(members)) => {
            divided(table, [*left, *right], members, Value::Set)
        }
        (Record::MunionPattern(left, right), Value::Map(entries)) => {
            divided(table, [*left, *right], entries, Value::Map)
        }
        (Record::ConcatenationPattern(left, right), Value::Sequence(items)) => {
            union((0..=items.len()).map(|place| {
                let front = Value::Sequence(items[..place].to_vec());
                let back = Value::Sequence(items[place..].to_vec());
                paired(table, &[*left, *right], &[front, back])
            }))
        }
        _ => matched(false),
    }
}

/// The empty binding, or none.
fn matched(truth: bool) -> Option<BTreeSet<Binding>> {
    Some(truth.then(Binding::new).into_iter().collect())
}

/// Parts that take the items of units, the units in every order: a member is a unit of one item, an entry one of a key
/// and a value, and all the items of a tuple or sequence are one unit. There have to be as many items as parts.
fn arranged(table: &Table, parts: &[usize], units: Vec<Vec<Value>>) -> Option<BTreeSet<Binding>> {
    if units.concat().len() != parts.len() {
        return matched(false);
    }
    let orders = orders(units).into_iter();
    union(orders.map(|order| paired(table, parts, &order.concat())))
}

/// Two parts that take the halves of a set or map, in every split of its members or entries.
fn divided<T: Clone, C: Clone + Default + IntoIterator<Item = T> + Extend<T>>(
    table: &Table,
    parts: [usize; 2],
    whole: &C,
    value: fn(C) -> Value,
) -> Option<BTreeSet<Binding>> {
    let units: Vec<T> = whole.clone().into_iter().collect();
    if units.len() > MAX_SPLIT {
        return None;
    }
    let none = value(C::default());
    union((0..1 << units.len()).filter_map(|chosen: usize| {
        let (mut one, mut other) = (C::default(), C::default());
        for (place, unit) in units.iter().enumerate() {
            let half = if chosen >> place & 1 == 1 {
                &mut one
            } else {
                &mut other
            };
            half.extend([unit.clone()]);
        }
        let halves = [value(one), value(other)];
        // Neither half is empty.
        (!halves.contains(&none)).then(|| paired(table, &parts, &halves))
    }))
}

/// All parts are tried, even after one that does not match.
fn paired(table: &Table, parts: &[usize], items: &[Value]) -> Option<BTreeSet<Binding>> {
    let found: Vec<Option<BTreeSet<Binding>>> = parts
        .iter()
        .zip(items)
        .map(|(&part, item)| bindings(table, part, item))
        .collect();
    let mut joined = BTreeSet::from([Binding::new()]);
    for found in found.into_iter().collect::<Option<Vec<_>>>()? {
        joined = joined
            .iter()
            .flat_map(|one| found.iter().filter_map(|other| joined_binding(one, other)))
            .collect();
    }
    Some(joined)
}

fn joined_binding(one: &Binding, other: &Binding) -> Option<Binding> {
    let mut joined = one.clone();
    for (name, value) in other {
        if joined
            .insert(*name, value.clone())
            .is_some_and(|before| before != *value)
        {
            return None;
        }
    }
    Some(joined)
}

fn union(parts: impl Iterator<Item = Option<BTreeSet<Binding>>>) -> Option<BTreeSet<Binding>> {
    // Every way is tried before the union is refused.
    let parts: Vec<_> = parts.collect();
    let parts: Option<Vec<_>> = parts.into_iter().collect();
    Some(parts?.into_iter().flatten().collect())
}

fn orders(units: Vec<Vec<Value>>) -> Vec<Vec<Vec<Value>>> {
    if units.len() < 2 {
        return vec![units];
    }
    let mut all = Vec::new();
    for first in 0..units.len() {
        let mut rest = units.clone();
        let unit = rest.remove(first);
        for mut order in orders(rest) {
            order.insert(0, unit.clone());
            all.push(order);
        }
    }
    all
}
