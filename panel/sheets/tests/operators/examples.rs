//! The worked examples of the VDM-10 manual, sections 3.1 and 3.2, that lie in the subset, and those
//! of set ranges and applications; each result byte for byte.

use super::quote::*;
use super::*;
use generator::builder::{binary, unary};

/// The value of an example's inner operator.
fn inner(result: Result<Value, u32>) -> Value {
    result.expect("the inner operator has a value")
}

fn union(left: &Value, right: &Value) -> Value {
    inner(reference::operators::binary(
        reference::table::Binary::Union,
        left,
        right,
    ))
}

#[test]
fn booleans() {
    let (a, b) = (TRUE, FALSE);
    truth(unary(unary::NOT, &a), false);
    truth(unary(unary::NOT, &b), true);
    truth(binary(binary::AND, &a, &b), false);
    truth(binary(binary::OR, &a, &b), true);
    truth(binary(binary::IMPLIES, &a, &b), false);
    truth(binary(binary::IMPLIES, &b, &b), true);
    truth(binary(binary::EQUIVALENT, &a, &b), false);
    truth(binary(binary::EQUIVALENT, &b, &a), false);
    truth(binary(binary::EQUIVALENT, &a, &a), true);
    truth(binary(binary::EQUIVALENT, &b, &b), true);
    truth(binary(binary::EQUAL, &a, &b), false);
    truth(binary(binary::NOT_EQUAL, &a, &b), true);
}

#[test]
fn integers() {
    let (a, d, e) = (int(7), int(-3), int(2));
    is(unary(unary::NEGATE, &a), int(-7));
    is(unary(unary::ABS, &a), int(7));
    is(unary(unary::ABS, &d), int(3));
    is(binary(binary::PLUS, &a, &d), int(4));
    is(binary(binary::DIV, &a, &e), int(3));
    is(binary(binary::DIV, &a, &d), int(-2));
    is(binary(binary::MOD, &a, &e), int(1));
    is(binary(binary::MOD, &a, &d), int(-2));
    is(binary(binary::MOD, &int(-7), &d), int(-1));
    is(binary(binary::REM, &a, &e), int(1));
    is(binary(binary::REM, &a, &d), int(1));
    is(binary(binary::REM, &int(-7), &d), int(-1));
    truth(binary(binary::LESS_OR_EQUAL, &a, &d), false);
    truth(binary(binary::EQUAL, &a, &e), false);
    truth(binary(binary::EQUAL, &a, &int(7)), true);
    is(binary(binary::TIMES, &int(3), &e), int(6));
}

#[test]
fn divisions_of_negative_integers() {
    is(binary(binary::DIV, &int(-14), &int(3)), int(-4));
    is(binary(binary::REM, &int(-14), &int(3)), int(-2));
    is(binary(binary::MOD, &int(-14), &int(3)), int(1));
    is(binary(binary::DIV, &int(-7), &int(2)), int(-3));
    is(binary(binary::REM, &int(-7), &int(2)), int(-1));
    is(binary(binary::MOD, &int(-7), &int(2)), int(1));
    is(binary(binary::MOD, &int(7), &int(-2)), int(-1));
}

#[test]
fn quotes() {
    let a = FRANCE;
    truth(binary(binary::EQUAL, &FRANCE, &DENMARK), false);
    truth(
        binary(binary::NOT_EQUAL, &SAUDI_ARABIA, &SOUTH_AFRICA),
        true,
    );
    truth(binary(binary::NOT_EQUAL, &a, &FRANCE), false);
}

#[test]
fn sets() {
    let s1 = set_of([FRANCE, DENMARK, SOUTH_AFRICA, SAUDI_ARABIA]);
    let s2 = set([2, 4, 6, 8, 11]);
    let s3 = set([]);
    let rest = set([2, 4, 8, 10]);
    truth(binary(binary::IN_SET, &ENGLAND, &s1), false);
    truth(binary(binary::IN_SET, &FRANCE, &s1), true);
    truth(binary(binary::NOT_IN_SET, &int(10), &s2), true);
    is(binary(binary::UNION, &s2, &s3), set([2, 4, 6, 8, 11]));
    is(binary(binary::INTER, &s1, &s3), set([]));
    is(binary(binary::DIFFERENCE, &s2, &rest), set([6, 11]));
    is(
        binary(binary::UNION, &set([6, 11]), &rest),
        set([2, 4, 6, 8, 10, 11]),
    );
    truth(
        binary(binary::EQUAL, &set([2, 4, 6, 8, 10, 11]), &s2),
        false,
    );
    truth(binary(binary::SUBSET, &s1, &s3), false);
    truth(binary(binary::SUBSET, &s3, &s1), true);
    truth(binary(binary::SUBSET, &s2, &s2), true);
    truth(binary(binary::PSUBSET, &s2, &s2), false);
    truth(binary(binary::PSUBSET, &s3, &s2), true);
    is(binary(binary::UNION, &s2, &set([2, 4])), s2.clone());
    truth(
        binary(binary::NOT_EQUAL, &s2, &union(&s2, &set([2, 4]))),
        false,
    );
    is(unary(unary::CARD, &union(&s2, &set([2, 4]))), int(5));
    let sets = set_of([s2.clone(), set([2, 4]), set([4, 5, 6]), set([0, 12])]);
    is(unary(unary::DUNION, &sets), set([0, 2, 4, 5, 6, 8, 11, 12]));
    let sets = set_of([s2, set([2, 4]), set([4, 5, 6])]);
    is(unary(unary::DINTER, &sets), set([4]));
    let power = set_of([set([]), set([2]), set([4]), set([2, 4])]);
    is(unary(unary::DUNION, &power), set([2, 4]));
    is(unary(unary::DINTER, &power), set([]));
}

#[test]
fn sequences() {
    let l1 = sequence([3, 1, 4, 1, 5, 9, 2]);
    let l2 = sequence([2, 7, 1, 8]);
    let l3 = sequence_of([ENGLAND, RUMANIA, COLOMBIA, TUNISIA]);
    let both = sequence([3, 1, 4, 1, 5, 9, 2, 2, 7, 1, 8]);
    is(unary(unary::LEN, &l1), int(7));
    is(binary(binary::CONCATENATE, &l1, &l2), both.clone());
    is(unary(unary::HD, &both), int(3));
    is(
        unary(unary::TL, &both),
        sequence([1, 4, 1, 5, 9, 2, 2, 7, 1, 8]),
    );
    is(unary(unary::LEN, &l3), int(4));
    is(apply(&l3, &int(4)), TUNISIA);
    is(unary(unary::REVERSE, &l1), sequence([2, 9, 5, 1, 4, 1, 3]));
    is(
        unary(unary::CONC, &sequence_of([l1.clone(), l2.clone()])),
        both.clone(),
    );
    truth(binary(binary::EQUAL, &both, &both), true);
    let thrice = sequence([3, 1, 4, 1, 5, 9, 2, 3, 1, 4, 1, 5, 9, 2, 2, 7, 1, 8]);
    is(
        unary(
            unary::CONC,
            &sequence_of([l1.clone(), l1.clone(), l2.clone()]),
        ),
        thrice.clone(),
    );
    truth(binary(binary::EQUAL, &thrice, &both), false);
    is(
        unary(unary::ELEMS, &l3),
        set_of([ENGLAND, RUMANIA, COLOMBIA, TUNISIA]),
    );
    is(unary(unary::ELEMS, &l1), set([1, 2, 3, 4, 5, 9]));
    is(unary(unary::ELEMS, &l2), set([1, 2, 7, 8]));
    is(
        binary(binary::INTER, &set([1, 2, 3, 4, 5, 9]), &set([1, 2, 7, 8])),
        set([1, 2]),
    );
    is(unary(unary::INDS, &l1), set([1, 2, 3, 4, 5, 6, 7]));
    is(unary(unary::INDS, &l2), set([1, 2, 3, 4]));
    is(binary(binary::INTER, &set(1..=7), &set(1..=4)), set(1..=4));
    is(apply(&l1, &int(3)), int(4));
}

#[test]
fn set_ranges() {
    is(range(&int(1), &int(5)), set(1..=5));
    is(range(&int(2), &int(10)), set(2..=10));
    is(range(&int(3), &int(1)), set([]));
    is(range(&int(-2), &int(2)), set([-2, -1, 0, 1, 2]));
}
