//! Sets and maps at once: what is counted over sets is counted again with maps in their place.

use super::*;

/// The number of bindings of a let over sets, or the refusal; over maps it is the same.
pub fn both(text: &str, value: &Value) -> Tried<usize> {
    both_of(&pattern(text), value)
}

/// The same of a pattern.
pub fn both_of(pattern: &Pattern, value: &Value) -> Tried<usize> {
    let count = |pattern: &Pattern, value| compare(kind::LET, pattern, value).map(|f| f.len());
    let found = count(pattern, value);
    let of_maps = count(&munions(pattern), &maps(value));
    assert_eq!(of_maps, found, "{pattern:?} over maps");
    found
}

/// The number of bindings over members that are sets, or the refusal; over maps it is the same.
pub fn both_over(text: &str, set: &Value) -> Tried<usize> {
    let Value::Set(members) = set else {
        panic!("{set} is no set");
    };
    let members = set_of(members.iter().map(maps));
    let of_maps = over_members(&munions(&pattern(text)), &members);
    let found = count_over(text, set);
    assert_eq!(of_maps.map(|f| f.len()), found, "{text} over maps");
    found
}

/// A pattern with a munion for each union, and {a |-> -, b |-> -} for each {a, b}.
fn munions(pattern: &Pattern) -> Pattern {
    let all = |parts: &[Pattern]| parts.iter().map(munions).collect();
    match pattern {
        Pattern::Union(halves) => {
            let [left, right] = &**halves;
            Pattern::munion(munions(left), munions(right))
        }
        Pattern::Concatenation(halves) => {
            let [left, right] = &**halves;
            Pattern::concatenation(munions(left), munions(right))
        }
        Pattern::Set(parts) => {
            let pairs = parts.iter().flat_map(|part| [munions(part), Pattern::Any]);
            Pattern::Map(pairs.collect())
        }
        Pattern::Tuple(parts) => Pattern::Tuple(all(parts)),
        Pattern::Sequence(parts) => Pattern::Sequence(all(parts)),
        Pattern::Map(_) | Pattern::Munion(_) => panic!("{pattern:?} is over maps"),
        leaf => leaf.clone(),
    }
}

/// A value with a map for each set, whose keys are the members; an integer n has n + 10, and all else 0.
pub fn maps(value: &Value) -> Value {
    let all = |items: &[Value]| items.iter().map(maps).collect();
    let entry = |member: &Value| match member {
        Value::Integer(n) => (member.clone(), Value::Integer(n + 10)),
        _ => (maps(member), Value::Integer(0)),
    };
    match value {
        Value::Set(members) => Value::Map(members.iter().map(entry).collect()),
        Value::Tuple(items) => Value::Tuple(all(items)),
        Value::Sequence(items) => Value::Sequence(all(items)),
        other => other.clone(),
    }
}
