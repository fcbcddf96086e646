//! and, or and => on all kinds of values. The truth tables are those of the VDM-10 manual, section 3.1.1;
//! a value that is no boolean stands for the undefined there, and the answer is then 20.

use super::*;
use generator::builder::binary;

/// An answer in a table.
const T: Option<bool> = Some(true);
const F: Option<bool> = Some(false);
const UNDEFINED: Option<bool> = None;

/// The columns are those of the right operand: true, false, undefined; the rows are those of the left.
const TABLES: [(u8, [[Option<bool>; 3]; 3]); 3] = [
    (binary::AND, [[T, F, UNDEFINED], [F, F, F], [UNDEFINED; 3]]),
    (binary::OR, [[T, T, T], [T, F, UNDEFINED], [UNDEFINED; 3]]),
    (
        binary::IMPLIES,
        [[T, F, UNDEFINED], [T, T, T], [UNDEFINED; 3]],
    ),
];

/// Values of each other kind, also empty ones and the longest one.
fn no_booleans() -> Vec<Value> {
    vec![
        int(0),
        int(1),
        int(5),
        set([]),
        set_of([TRUE]),
        sequence([]),
        sequence_of([FALSE, TRUE]),
        sequence_of((0..127).map(|_| set([]))),
        map([]),
        map_of([(TRUE, FALSE)]),
        Value::Tuple(vec![TRUE, FALSE]),
        Value::Quote(0),
        Value::Quote(1),
    ]
}

/// The values that stand for a row or a column.
fn values_of(place: usize) -> Vec<Value> {
    match place {
        0 => vec![TRUE],
        1 => vec![FALSE],
        _ => no_booleans(),
    }
}

#[test]
fn truth_tables() {
    for (operator, table) in TABLES {
        for (row, answers) in table.into_iter().enumerate() {
            for (column, answer) in answers.into_iter().enumerate() {
                let expected =
                    answer.map_or(WRONG_KIND, |truth| Ok(Value::Boolean(truth).encode()));
                for left in values_of(row) {
                    for right in values_of(column) {
                        let outcome = binary(operator, &left, &right);
                        assert_eq!(outcome, expected, "{operator}: {left:?}, {right:?}");
                    }
                }
            }
        }
    }
}

/// The manual's examples with an undefined right operand, and the same where it is tested.
#[test]
fn a_left_that_settles_it_is_enough() {
    let five = int(5);
    truth(binary(binary::AND, &FALSE, &five), false);
    truth(binary(binary::OR, &TRUE, &five), true);
    truth(binary(binary::IMPLIES, &FALSE, &five), true);
}

#[test]
fn an_operand_that_is_tested_must_be_boolean() {
    let five = int(5);
    assert_eq!(binary(binary::AND, &TRUE, &five), WRONG_KIND);
    assert_eq!(binary(binary::OR, &FALSE, &five), WRONG_KIND);
    assert_eq!(binary(binary::IMPLIES, &TRUE, &five), WRONG_KIND);
    assert_eq!(binary(binary::AND, &five, &FALSE), WRONG_KIND);
    assert_eq!(binary(binary::OR, &five, &TRUE), WRONG_KIND);
    assert_eq!(binary(binary::IMPLIES, &five, &TRUE), WRONG_KIND);
}

/// The same where the undefined operand is refused by itself: 1 div 0 = 1.
#[test]
fn a_right_that_is_refused_is_met_only_where_it_is_tested() {
    for (operator, settling) in [
        (binary::AND, false),
        (binary::OR, true),
        (binary::IMPLIES, false),
    ] {
        for left in [false, true] {
            let mut sheet = Builder::new();
            let left_record = sheet.boolean(left);
            let (one, zero) = (sheet.integer(1), sheet.integer(0));
            let quotient = sheet.binary(binary::DIV, one, zero);
            let one = sheet.integer(1);
            let right = sheet.binary(binary::EQUAL, quotient, one);
            sheet.binary(operator, left_record, right);
            let met =
                evaluated(&sheet.table(), &[]).map_err(|answer| (answer.number, answer.place));
            match left == settling {
                true => assert!(met.is_ok()),
                false => assert_eq!(met, Err((22, quotient as u16))),
            }
        }
    }
}
