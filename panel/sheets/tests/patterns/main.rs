//! Patterns and the bindings of binders, in sheets: each table builds the value that its pattern meets, and shows what
//! a binding gives each name. The services and the second evaluator must agree on every byte; what is expected is the
//! list of bindings that the second evaluator's matching gives without a table.

#[path = "../common/mod.rs"]
mod common;

mod both;
mod case;
mod examples;
mod limits;
mod maker;
mod maps;
mod pattern;
mod random;
mod windows;

use both::{both, both_of, both_over, maps};
use case::{compare, OF_NAMES, OVER_SETS};
use generator::builder::kind;
use pattern::{pattern, value, Pattern};
use reference::matching::Binding;
use reference::operators::Tried;
use reference::value::Value;

/// The bindings of a let with a pattern in the notation.
fn matched(text: &str, value: &Value) -> Tried<Vec<Binding>> {
    compare(kind::LET, &pattern(text), value)
}

/// The bindings of a pattern over the members of a set, the same for every binder that takes any pattern.
fn over(text: &str, set: &Value) -> Tried<Vec<Binding>> {
    over_members(&pattern(text), set)
}

fn over_members(pattern: &Pattern, set: &Value) -> Tried<Vec<Binding>> {
    let [first, others @ ..] = OVER_SETS;
    let tried = |kind| compare(kind, pattern, set);
    let found = tried(first);
    for kind in others {
        assert_eq!(tried(kind), found, "kind {kind}");
    }
    found
}

/// The number of bindings of a let, or the refusal.
fn count(text: &str, value: &Value) -> Tried<usize> {
    matched(text, value).map(|found| found.len())
}

/// The number of bindings over the members of a set, or the refusal.
fn count_over(text: &str, set: &Value) -> Tried<usize> {
    over(text, set).map(|found| found.len())
}

/// The bindings of a let in their order, each with its values in rising name number.
fn shown(text: &str, with: &str) -> Vec<String> {
    let found = matched(text, &value(with)).expect("bindings");
    let shown = found.iter().map(|binding| {
        let values: Vec<String> = binding.values().map(Value::to_string).collect();
        values.join(" ")
    });
    shown.collect()
}

/// The set of the integers from 1.
fn numbers(count: i32) -> Value {
    set_of((1..=count).map(Value::Integer))
}

/// {1|->11,2|->12,...}, of so many entries.
fn entries(count: i32) -> Value {
    maps(&numbers(count))
}

/// So many empty sets in a sequence: 4 bytes for each, and 4 for the sequence.
fn items(count: usize) -> Value {
    Value::Sequence(vec![value("{}"); count])
}

fn pair(left: Value, right: Value) -> Value {
    Value::Tuple(vec![left, right])
}

fn set_of(members: impl IntoIterator<Item = Value>) -> Value {
    Value::Set(members.into_iter().collect())
}
