//! The operators on values, and the building of compound values. A refusal is its number alone; the
//! record that asks adds the place.

use std::collections::{BTreeMap, BTreeSet};

use crate::answer::{ABSENT, CLASH, OUT_OF_RANGE, TOO_LARGE, WRONG_KIND, ZERO_DIVISOR};
use crate::table::{Binary, Unary};
use crate::value::Value;

/// A result, or the number of a refusal.
pub type Tried<T> = Result<T, u32>;

/// The unary operators.
pub fn unary(operator: Unary, operand: &Value) -> Tried<Value> {
    match operator {
        Unary::Not => Ok(Value::Boolean(!boolean(operand)?)),
        Unary::Minus => in_range(-wide(operand)?),
        Unary::Abs => in_range(wide(operand)?.abs()),
        Unary::Card => Ok(count(set(operand)?.len())),
        Unary::DistributedUnion => {
            let sets = all(set(operand)?, set)?;
            limited(Value::Set(sets.into_iter().flatten().cloned().collect()))
        }
        Unary::DistributedInter => distributed_intersection(&all(set(operand)?, set)?),
        Unary::Len => Ok(count(sequence(operand)?.len())),
        Unary::Hd => sequence(operand)?.first().cloned().ok_or(ABSENT),
        Unary::Tl => {
            let (_, tail) = sequence(operand)?.split_first().ok_or(ABSENT)?;
            Ok(Value::Sequence(tail.to_vec()))
        }
        Unary::Elems => Ok(Value::Set(sequence(operand)?.iter().cloned().collect())),
        Unary::Inds => {
            let length = sequence(operand)?.len();
            limited(Value::Set((1..=length).map(count).collect()))
        }
        Unary::Conc => {
            let sequences = all(sequence(operand)?, sequence)?;
            limited(Value::Sequence(sequences.concat()))
        }
        Unary::Reverse => Ok(Value::Sequence(
            sequence(operand)?.iter().rev().cloned().collect(),
        )),
        Unary::Dom => Ok(Value::Set(map(operand)?.keys().cloned().collect())),
        Unary::Rng => Ok(Value::Set(map(operand)?.values().cloned().collect())),
    }
}

/// Whether the right operand is evaluated only if the left does not settle the result.
pub fn is_conditional(operator: Binary) -> bool {
    matches!(operator, Binary::And | Binary::Or | Binary::Implies)
}

/// What the left operand of a conditional operator settles by itself, if anything.
pub fn settled(operator: Binary, left: bool) -> Option<bool> {
    match (operator, left) {
        (Binary::And, false) => Some(false),
        (Binary::Or, true) | (Binary::Implies, false) => Some(true),
        _ => None,
    }
}

/// The binary operators on two values.
pub fn binary(operator: Binary, left: &Value, right: &Value) -> Tried<Value> {
    let truth = |truth| Ok(Value::Boolean(truth));
    match operator {
        Binary::And | Binary::Or | Binary::Implies => match settled(operator, boolean(left)?) {
            Some(settled) => truth(settled),
            None => truth(boolean(right)?),
        },
        Binary::Equivalent => {
            let (left, right) = both(boolean, left, right)?;
            truth(left == right)
        }
        Binary::Equal => truth(left == right),
        Binary::NotEqual => truth(left != right),
        Binary::Plus
        | Binary::Minus
        | Binary::Times
        | Binary::Div
        | Binary::Rem
        | Binary::Mod
        | Binary::Less
        | Binary::LessOrEqual
        | Binary::Greater
        | Binary::GreaterOrEqual => {
            let (left, right) = both(wide, left, right)?;
            arithmetic(operator, left, right)
        }
        Binary::InSet => truth(set(right)?.contains(left)),
        Binary::NotInSet => truth(!set(right)?.contains(left)),
        Binary::Union
        | Binary::Inter
        | Binary::Difference
        | Binary::Subset
        | Binary::ProperSubset => {
            let (left, right) = both(set, left, right)?;
            on_sets(operator, left, right)
        }
        Binary::Concatenate => {
            let (left, right) = both(sequence, left, right)?;
            limited(Value::Sequence([left, right].concat()))
        }
        Binary::MapUnion => {
            let (left, right) = both(map, left, right)?;
            map_union(left, right)
        }
        Binary::Override => {
            let (left, right) = both(map, left, right)?;
            let entries = left.iter().chain(right);
            limited(Value::Map(entries.map(cloned).collect()))
        }
        Binary::DomainRestrict => {
            let (keys, entries) = (set(left)?, map(right)?);
            Ok(restricted(entries, |key, _| keys.contains(key)))
        }
        Binary::RangeRestrict => {
            let (entries, values) = (map(left)?, set(right)?);
            Ok(restricted(entries, |_, value| values.contains(value)))
        }
    }
}

/// Arithmetic and comparison on integers, which as i64 cannot overflow.
fn arithmetic(operator: Binary, left: i64, right: i64) -> Tried<Value> {
    let divisible = matches!(operator, Binary::Div | Binary::Rem | Binary::Mod);
    if divisible && right == 0 {
        return Err(ZERO_DIVISOR);
    }
    match operator {
        Binary::Plus => in_range(left + right),
        Binary::Minus => in_range(left - right),
        Binary::Times => in_range(left * right),
        // `/` cuts toward zero, and `%` has the dividend's sign.
        Binary::Div => in_range(left / right),
        Binary::Rem => in_range(left % right),
        Binary::Mod => in_range(left - right * floor_quotient(left, right)),
        Binary::Less => Ok(Value::Boolean(left < right)),
        Binary::LessOrEqual => Ok(Value::Boolean(left <= right)),
        Binary::Greater => Ok(Value::Boolean(left > right)),
        Binary::GreaterOrEqual => Ok(Value::Boolean(left >= right)),
        _ => unreachable!("no operator on integers"),
    }
}

/// The greatest integer that is not above left/right.
fn floor_quotient(left: i64, right: i64) -> i64 {
    let cut = left / right;
    let was_cut_upward = left % right != 0 && (left < 0) != (right < 0);
    if was_cut_upward {
        cut - 1
    } else {
        cut
    }
}

fn on_sets(operator: Binary, left: &BTreeSet<Value>, right: &BTreeSet<Value>) -> Tried<Value> {
    match operator {
        Binary::Union => limited(Value::Set(left | right)),
        Binary::Inter => Ok(Value::Set(left & right)),
        Binary::Difference => Ok(Value::Set(left - right)),
        Binary::Subset => Ok(Value::Boolean(left.is_subset(right))),
        Binary::ProperSubset => Ok(Value::Boolean(left.is_subset(right) && left != right)),
        _ => unreachable!("no operator on sets"),
    }
}

fn distributed_intersection(sets: &[&BTreeSet<Value>]) -> Tried<Value> {
    let (first, rest) = sets.split_first().ok_or(ABSENT)?;
    let common = first
        .iter()
        .filter(|member| rest.iter().all(|set| set.contains(member)));
    Ok(Value::Set(common.cloned().collect()))
}

/// The union of two maps: a clash of two values is refused before a size.
fn map_union(left: &BTreeMap<Value, Value>, right: &BTreeMap<Value, Value>) -> Tried<Value> {
    let clash = |(key, value)| left.get(key).is_some_and(|other| other != value);
    if right.iter().any(clash) {
        return Err(CLASH);
    }
    limited(Value::Map(left.iter().chain(right).map(cloned).collect()))
}

fn restricted(entries: &BTreeMap<Value, Value>, keep: impl Fn(&Value, &Value) -> bool) -> Value {
    let kept = entries.iter().filter(|(key, value)| keep(key, value));
    Value::Map(kept.map(cloned).collect())
}

fn cloned((key, value): (&Value, &Value)) -> (Value, Value) {
    (key.clone(), value.clone())
}

/// A sequence or map applied to an argument.
pub fn apply(function: &Value, argument: &Value) -> Tried<Value> {
    match function {
        Value::Sequence(items) => {
            let index = usize::try_from(wide(argument)? - 1).map_err(|_| ABSENT)?;
            items.get(index).cloned().ok_or(ABSENT)
        }
        Value::Map(entries) => entries.get(argument).cloned().ok_or(ABSENT),
        _ => Err(WRONG_KIND),
    }
}

/// The set of the integers from one to another.
pub fn set_range(from: &Value, to: &Value) -> Tried<Value> {
    let (from, to) = both(wide, from, to)?;
    let mut members = BTreeSet::new();
    for number in from..=to {
        add_member(&mut members, in_range(number)?)?;
    }
    Ok(Value::Set(members))
}

/// The set of the operands.
pub fn set_enumeration(operands: Vec<Value>) -> Tried<Value> {
    let mut members = BTreeSet::new();
    for operand in operands {
        add_member(&mut members, operand)?;
    }
    Ok(Value::Set(members))
}

/// The sequence of the operands.
pub fn sequence_enumeration(operands: Vec<Value>) -> Tried<Value> {
    limited(Value::Sequence(operands))
}

/// The map of the operands, which are key, value, key, value.
pub fn map_enumeration(operands: Vec<Value>) -> Tried<Value> {
    let mut entries = BTreeMap::new();
    let mut operands = operands.into_iter();
    while let (Some(key), Some(value)) = (operands.next(), operands.next()) {
        add_entry(&mut entries, key, value)?;
    }
    Ok(Value::Map(entries))
}

/// The tuple of the operands.
pub fn tuple(operands: Vec<Value>) -> Tried<Value> {
    limited(Value::Tuple(operands))
}

/// Adds a member to a set that is being built.
pub fn add_member(members: &mut BTreeSet<Value>, member: Value) -> Tried<()> {
    members.insert(member);
    within_limit(4 + members.iter().map(Value::size).sum::<usize>())
}

/// Adds an item to a sequence that is being built.
pub fn add_item(items: &mut Vec<Value>, item: Value) -> Tried<()> {
    items.push(item);
    within_limit(4 + items.iter().map(Value::size).sum::<usize>())
}

/// Adds an entry to a map that is being built; an equal entry is one entry, another value a clash.
pub fn add_entry(entries: &mut BTreeMap<Value, Value>, key: Value, value: Value) -> Tried<()> {
    if entries.get(&key).is_some_and(|other| *other != value) {
        return Err(CLASH);
    }
    entries.insert(key, value);
    within_limit(
        4 + entries
            .iter()
            .map(|(k, v)| k.size() + v.size())
            .sum::<usize>(),
    )
}

/// The value, unless it is too large.
fn limited(value: Value) -> Tried<Value> {
    within_limit(value.size()).map(|()| value)
}

fn within_limit(size: usize) -> Tried<()> {
    if size > Value::MAX_SIZE {
        return Err(TOO_LARGE);
    }
    Ok(())
}

/// The integer, unless it is out of range.
fn in_range(number: i64) -> Tried<Value> {
    i32::try_from(number)
        .map(Value::Integer)
        .map_err(|_| OUT_OF_RANGE)
}

fn count(count: usize) -> Value {
    Value::Integer(i32::try_from(count).expect("no value has so many items"))
}

/// The truth value of a boolean.
pub fn boolean(value: &Value) -> Tried<bool> {
    match value {
        Value::Boolean(truth) => Ok(*truth),
        _ => Err(WRONG_KIND),
    }
}

/// The members of a set.
pub fn set(value: &Value) -> Tried<&BTreeSet<Value>> {
    match value {
        Value::Set(members) => Ok(members),
        _ => Err(WRONG_KIND),
    }
}

/// The members of a set of integers.
pub fn set_of_integers(value: &Value) -> Tried<&BTreeSet<Value>> {
    let members = set(value)?;
    all(members, wide)?;
    Ok(members)
}

fn wide(value: &Value) -> Tried<i64> {
    match value {
        Value::Integer(number) => Ok(i64::from(*number)),
        _ => Err(WRONG_KIND),
    }
}

fn sequence(value: &Value) -> Tried<&[Value]> {
    match value {
        Value::Sequence(items) => Ok(items),
        _ => Err(WRONG_KIND),
    }
}

fn map(value: &Value) -> Tried<&BTreeMap<Value, Value>> {
    match value {
        Value::Map(entries) => Ok(entries),
        _ => Err(WRONG_KIND),
    }
}

/// Both operands, read as one kind.
fn both<'a, T>(
    read: impl Fn(&'a Value) -> Tried<T>,
    left: &'a Value,
    right: &'a Value,
) -> Tried<(T, T)> {
    Ok((read(left)?, read(right)?))
}

/// All items, read as one kind.
fn all<'a, T>(
    items: impl IntoIterator<Item = &'a Value>,
    read: impl Fn(&'a Value) -> Tried<T>,
) -> Tried<Vec<T>> {
    items.into_iter().map(read).collect()
}

#[cfg(test)]
mod tests {
    use super::*;

    fn of(operator: Binary, left: i32, right: i32) -> Tried<Value> {
        binary(operator, &Value::Integer(left), &Value::Integer(right))
    }

    #[test]
    fn modulus_and_remainder_are_as_the_manual_defines_them() {
        let ends = [i32::MIN, i32::MIN + 1, -14, -3, -1, 1, 3, 14, i32::MAX];
        for left in ends.into_iter().chain([0]) {
            for right in ends {
                let (l, r) = (i64::from(left), i64::from(right));
                let floor = (left as f64 / right as f64).floor() as i64;
                assert_eq!(of(Binary::Mod, left, right), in_range(l - r * floor));
                let cut = (left as f64 / right as f64).trunc() as i64;
                assert_eq!(of(Binary::Div, left, right), in_range(cut));
                assert_eq!(of(Binary::Rem, left, right), in_range(l - r * cut));
            }
        }
    }

    #[test]
    fn arithmetic_ends_at_the_range() {
        assert_eq!(of(Binary::Plus, i32::MAX, 1), Err(OUT_OF_RANGE));
        assert_eq!(of(Binary::Minus, i32::MIN, 1), Err(OUT_OF_RANGE));
        assert_eq!(of(Binary::Times, 65_536, 32_768), Err(OUT_OF_RANGE));
        assert_eq!(
            of(Binary::Times, 65_536, -32_768),
            Ok(Value::Integer(i32::MIN))
        );
        let least = Value::Integer(i32::MIN);
        assert_eq!(unary(Unary::Minus, &least), Err(OUT_OF_RANGE));
        assert_eq!(unary(Unary::Abs, &least), Err(OUT_OF_RANGE));
        for operator in [Binary::Div, Binary::Rem, Binary::Mod] {
            assert_eq!(of(operator, 1, 0), Err(ZERO_DIVISOR));
            let truth = Value::Boolean(true);
            assert_eq!(
                binary(operator, &truth, &Value::Integer(0)),
                Err(WRONG_KIND)
            );
        }
    }

    #[test]
    fn kinds_are_tested() {
        let one = Value::Integer(1);
        let numbers = 1..=15;
        for operator in numbers.map(|n| crate::table::Record::read(&[6, 0, 4, 0, n, 0])) {
            let Some(crate::table::Record::Unary(operator, _)) = operator else {
                panic!("an operator");
            };
            let fits = matches!(operator, Unary::Minus | Unary::Abs);
            assert_eq!(unary(operator, &one).is_ok(), fits, "{operator:?}");
        }
        let set_of_one = Value::Set([one.clone()].into());
        assert_eq!(unary(Unary::DistributedUnion, &set_of_one), Err(WRONG_KIND));
        assert_eq!(unary(Unary::DistributedInter, &set_of_one), Err(WRONG_KIND));
        let sequence_of_one = Value::Sequence(vec![one.clone()]);
        assert_eq!(unary(Unary::Conc, &sequence_of_one), Err(WRONG_KIND));
        assert_eq!(apply(&sequence_of_one, &set_of_one), Err(WRONG_KIND));
        assert_eq!(apply(&one, &one), Err(WRONG_KIND));
        assert_eq!(binary(Binary::InSet, &one, &one), Err(WRONG_KIND));
        assert_eq!(
            binary(Binary::InSet, &one, &set_of_one),
            Ok(Value::Boolean(true))
        );
        assert_eq!(
            binary(Binary::Equal, &one, &set_of_one),
            Ok(Value::Boolean(false))
        );
    }

    #[test]
    fn union_of_maps_tells_a_clash_before_a_size() {
        let entries = |from: i32, value: i32| {
            let entries = (from..from + 31).map(|n| (Value::Integer(n), Value::Integer(value)));
            Value::Map(entries.collect())
        };
        let union = |left, right| binary(Binary::MapUnion, &left, &right);
        assert_eq!(union(entries(0, 0), entries(30, 1)), Err(CLASH));
        assert_eq!(union(entries(0, 0), entries(30, 0)), Err(TOO_LARGE));
        assert_eq!(union(entries(0, 0), entries(0, 0)), Ok(entries(0, 0)));
        let over = |left, right| binary(Binary::Override, &left, &right);
        assert_eq!(over(entries(0, 0), entries(30, 1)), Err(TOO_LARGE));
        assert_eq!(over(entries(0, 0), entries(0, 1)), Ok(entries(0, 1)));
    }
}
