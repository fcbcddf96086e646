//! Every operator on many random values, against the second evaluator: the answer, every lent byte, and the value
//! or refusal that its operator gives without a table.

use super::*;
use generator::Random;
use reference::operators;
use reference::table::{Binary, Unary};

/// How many operands or pairs each operator is tried on.
const TRIALS: usize = 4_000;

/// What an operator is made for.
fn form_of_unary(operator: u8) -> Form {
    match operator {
        1 => Form::Boolean,
        2 | 3 => Form::Integer,
        4 => Form::Set,
        5 | 6 => Form::SetOfSets,
        12 => Form::SequenceOfSequences,
        7..=13 => Form::Sequence,
        _ => Form::Map,
    }
}

fn forms_of_binary(operator: u8) -> (Form, Form) {
    match operator {
        1..=4 => (Form::Boolean, Form::Boolean),
        5 | 6 => (Form::Any, Form::Any),
        7..=16 => (Form::Integer, Form::Integer),
        17 | 18 => (Form::Any, Form::Set),
        19..=23 => (Form::Set, Form::Set),
        24 => (Form::Sequence, Form::Sequence),
        25 | 26 => (Form::Map, Form::Map),
        27 => (Form::Set, Form::Map),
        _ => (Form::Map, Form::Set),
    }
}

/// A value of the form, but at times of any.
fn operand(random: &mut Random, form: Form) -> Value {
    if random.once_in(12) {
        random_value(random, Form::Any)
    } else {
        random_value(random, form)
    }
}

/// A second operand that at times has to do with the first: it is equal, or a part of it.
fn second(random: &mut Random, form: Form, first: &Value) -> Value {
    match first {
        _ if random.once_in(8) => first.clone(),
        Value::Set(members) if random.once_in(4) => {
            set_of(members.iter().filter(|_| random.once_in(2)).cloned())
        }
        Value::Map(entries) if form == Form::Map && random.once_in(4) => map_of(
            entries
                .iter()
                .filter(|_| random.once_in(2))
                .map(|(key, value)| (key.clone(), value.clone())),
        ),
        _ => operand(random, form),
    }
}

/// How often a value was given, how often a refusal, and how often no table could build the operands.
#[derive(Debug, Default)]
pub struct Tally {
    values: usize,
    pub refusals: usize,
    left_out: usize,
}

impl Tally {
    fn count(&mut self, outcome: &Outcome) {
        match outcome {
            Ok(_) => self.values += 1,
            Err(_) => self.refusals += 1,
        }
    }

    #[track_caller]
    pub fn assert_both(&self, what: &str) {
        assert!(self.values >= 100, "{what}: {} values", self.values);
        assert!(self.refusals >= 50, "{what}: {} refusals", self.refusals);
    }
}

/// Tries an operation on operands that `draw` gives, as far as a table can build them.
pub fn compare(
    what: &str,
    mut draw: impl FnMut() -> Vec<Value>,
    build: impl Fn(&[&Value]) -> Builder,
    expected_of: impl Fn(&[&Value]) -> Tried<Value>,
) -> Tally {
    let mut tally = Tally::default();
    while tally.values + tally.refusals < TRIALS {
        let drawn = draw();
        let operands: Vec<&Value> = drawn.iter().collect();
        let sheet = build(&operands);
        if !fits(&sheet) {
            tally.left_out += 1;
            continue;
        }
        let outcome = outcome(&sheet);
        tally.count(&outcome);
        let due = expected(expected_of(&operands));
        assert_eq!(outcome, due, "{what} of {operands:?}");
    }
    assert!(tally.left_out * 20 < TRIALS, "{what}: {tally:?}");
    tally
}

#[test]
fn unary_operators() {
    for number in 1..=15 {
        let operator = Unary::from_number(number).expect("an operator");
        let mut random = Random::new(number.into());
        let tally = compare(
            &format!("{operator:?}"),
            || vec![operand(&mut random, form_of_unary(number))],
            |operands| sheet(kind::UNARY, &[number], operands),
            |operands| operators::unary(operator, operands[0]),
        );
        tally.assert_both(&format!("{operator:?}"));
    }
}

fn binary_operator(number: u8) {
    let operator = Binary::from_number(number).expect("an operator");
    let what = format!("{operator:?}");
    let mut random = Random::new(100 + u64::from(number));
    let (first_form, second_form) = forms_of_binary(number);
    let draw = || {
        let left = operand(&mut random, first_form);
        let right = second(&mut random, second_form, &left);
        vec![left, right]
    };
    let tally = compare(
        &what,
        draw,
        |operands| sheet(kind::BINARY, &[number], operands),
        |operands| operators::binary(operator, operands[0], operands[1]),
    );
    match operator {
        Binary::Equal | Binary::NotEqual => assert_eq!(tally.refusals, 0),
        _ => tally.assert_both(&what),
    }
}

#[test]
fn operators_on_booleans_and_any_values() {
    (1..=6).for_each(binary_operator);
}

#[test]
fn operators_on_integers() {
    (7..=16).for_each(binary_operator);
}

#[test]
fn operators_on_sets() {
    (17..=23).for_each(binary_operator);
}

#[test]
fn operators_on_sequences_and_maps() {
    (24..=28).for_each(binary_operator);
}

#[test]
fn set_ranges() {
    let mut random = Random::new(201);
    let draw = || {
        let from = operand(&mut random, Form::Integer);
        let to = match &from {
            Value::Integer(number) if random.once_in(2) => {
                int(number.saturating_add(random.between(-3, 70)))
            }
            _ => operand(&mut random, Form::Integer),
        };
        vec![from, to]
    };
    let tally = compare(
        "set range",
        draw,
        |operands| sheet(kind::RANGE, &[], operands),
        |operands| operators::set_range(operands[0], operands[1]),
    );
    tally.assert_both("set range");
}

#[test]
fn applications() {
    let mut random = Random::new(202);
    let tally = compare(
        "apply",
        || application(&mut random),
        |operands| sheet(kind::APPLY, &[], operands),
        |operands| operators::apply(operands[0], operands[1]),
    );
    tally.assert_both("apply");
}

/// A sequence or map, and an argument that is often one of its indexes or keys.
fn application(random: &mut Random) -> Vec<Value> {
    let form = random.pick(&[Form::Sequence, Form::Map]);
    let function = operand(random, form);
    let argument = match &function {
        Value::Sequence(items) if random.once_in(2) => {
            int(random.between(-1, items.len() as i32 + 2))
        }
        Value::Map(entries) if !entries.is_empty() && random.once_in(2) => {
            let keys: Vec<&Value> = entries.keys().collect();
            random.pick(&keys).clone()
        }
        _ => operand(random, Form::Any),
    };
    vec![function, argument]
}
