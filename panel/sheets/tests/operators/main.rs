//! Every operator on values, in sheets: each table builds its operands, and the services and the second evaluator
//! must agree on every byte. What is expected is told from the values themselves.

#[path = "../common/mod.rs"]
mod common;

mod connectives;
mod ends;
mod examples;
mod maps;
mod random;
mod unions;

use common::values::*;
use common::written::write;
use common::{evaluated, fits};
use generator::builder::kind;
use generator::Builder;
use reference::operators::Tried;
use reference::value::Value;

/// The record of a sheet's value, or the number of its refusal.
type Outcome = Result<Vec<u8>, u16>;

const WRONG_KIND: Outcome = Err(20);
const OUT_OF_RANGE: Outcome = Err(21);
const BY_ZERO: Outcome = Err(22);
const ABSENT: Outcome = Err(26);
const CLASH: Outcome = Err(27);
const TOO_LARGE: Outcome = Err(28);

/// What a sheet without choices comes to; a refusal is at its last record.
#[track_caller]
fn outcome(sheet: &Builder) -> Outcome {
    evaluated(&sheet.table(), &[]).map_err(|answer| {
        let last = sheet.records.len() - 1;
        assert_eq!((usize::from(answer.place), answer.count), (last, 0));
        answer.number
    })
}

/// The sheet of an operator, a set range or an application on values.
fn sheet(kind: u16, operator: &[u8], operands: &[&Value]) -> Builder {
    let mut sheet = Builder::new();
    let names: Vec<u8> = (0..16).collect();
    let operands: Vec<usize> = operands
        .iter()
        .map(|value| write(&mut sheet, value, &names))
        .collect();
    sheet.record(kind, operator, &operands);
    sheet
}

#[track_caller]
fn unary(operator: u8, operand: &Value) -> Outcome {
    outcome(&sheet(kind::UNARY, &[operator], &[operand]))
}

#[track_caller]
fn binary(operator: u8, left: &Value, right: &Value) -> Outcome {
    outcome(&sheet(kind::BINARY, &[operator], &[left, right]))
}

#[track_caller]
fn range(from: &Value, to: &Value) -> Outcome {
    outcome(&sheet(kind::RANGE, &[], &[from, to]))
}

#[track_caller]
fn apply(function: &Value, argument: &Value) -> Outcome {
    outcome(&sheet(kind::APPLY, &[], &[function, argument]))
}

#[track_caller]
fn is(outcome: Outcome, value: Value) {
    assert_eq!(outcome, Ok(value.encode()));
}

#[track_caller]
fn truth(outcome: Outcome, truth: bool) {
    is(outcome, Value::Boolean(truth));
}

/// What the second evaluator's operator gives, without a table.
fn expected(result: Tried<Value>) -> Outcome {
    result
        .map(|value| value.encode())
        .map_err(|number| number as u16)
}

/// The quotes of the manual, each by a number.
mod quote {
    use super::Value;

    pub const FRANCE: Value = Value::Quote(1);
    pub const DENMARK: Value = Value::Quote(2);
    pub const SOUTH_AFRICA: Value = Value::Quote(3);
    pub const SAUDI_ARABIA: Value = Value::Quote(4);
    pub const ENGLAND: Value = Value::Quote(256);
    pub const SPAIN: Value = Value::Quote(257);
    pub const RUMANIA: Value = Value::Quote(512);
    pub const COLOMBIA: Value = Value::Quote(65_280);
    pub const TUNISIA: Value = Value::Quote(65_535);
}
