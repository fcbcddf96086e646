//! The ends of the ranges and of the sizes, and each refusal in its turn.

use super::*;
use generator::builder::{binary, unary};

#[test]
fn integers_at_the_ends() {
    let (least, greatest) = (int(i32::MIN), int(i32::MAX));
    assert_eq!(unary(unary::NEGATE, &least), OUT_OF_RANGE);
    assert_eq!(unary(unary::ABS, &least), OUT_OF_RANGE);
    is(unary(unary::NEGATE, &greatest), int(-i32::MAX));
    assert_eq!(binary(binary::PLUS, &greatest, &int(1)), OUT_OF_RANGE);
    assert_eq!(binary(binary::MINUS, &least, &int(1)), OUT_OF_RANGE);
    is(binary(binary::PLUS, &greatest, &int(0)), int(i32::MAX));
    is(binary(binary::MINUS, &int(-1), &greatest), int(i32::MIN));
    assert_eq!(
        binary(binary::TIMES, &int(65_536), &int(32_768)),
        OUT_OF_RANGE
    );
    is(
        binary(binary::TIMES, &int(65_536), &int(-32_768)),
        int(i32::MIN),
    );
    assert_eq!(binary(binary::TIMES, &least, &least), OUT_OF_RANGE);
    assert_eq!(binary(binary::DIV, &least, &int(-1)), OUT_OF_RANGE);
    is(binary(binary::REM, &least, &int(-1)), int(0));
    is(binary(binary::MOD, &least, &int(-1)), int(0));
    is(binary(binary::MOD, &least, &greatest), int(i32::MAX - 1));
    is(binary(binary::MOD, &greatest, &least), int(-1));
    is(binary(binary::LESS, &least, &greatest), TRUE);
    is(binary(binary::GREATER, &least, &greatest), FALSE);
    is(binary(binary::LESS_OR_EQUAL, &least, &least), TRUE);
    is(binary(binary::GREATER_OR_EQUAL, &greatest, &greatest), TRUE);
}

#[test]
fn kinds_come_before_zero_and_zero_before_the_range() {
    for operator in [binary::DIV, binary::REM, binary::MOD] {
        assert_eq!(binary(operator, &TRUE, &int(0)), WRONG_KIND);
        assert_eq!(binary(operator, &int(0), &set([])), WRONG_KIND);
        assert_eq!(binary(operator, &int(i32::MIN), &int(0)), BY_ZERO);
    }
}

#[test]
fn absent_parts() {
    assert_eq!(unary(unary::HD, &sequence([])), ABSENT);
    assert_eq!(unary(unary::TL, &sequence([])), ABSENT);
    assert_eq!(unary(unary::DINTER, &set([])), ABSENT);
    is(unary(unary::DUNION, &set([])), set([]));
    is(unary(unary::CONC, &sequence([])), sequence([]));
    let numbers = sequence([5, 6]);
    for index in [i32::MIN, -1, 0, 3, i32::MAX] {
        assert_eq!(apply(&numbers, &int(index)), ABSENT);
    }
    is(apply(&numbers, &int(1)), int(5));
    is(apply(&numbers, &int(2)), int(6));
    assert_eq!(apply(&numbers, &TRUE), WRONG_KIND);
    assert_eq!(apply(&map([(1, 2)]), &int(2)), ABSENT);
    assert_eq!(apply(&map([(1, 2)]), &numbers), ABSENT);
    assert_eq!(apply(&set([1]), &int(1)), WRONG_KIND);
}

#[test]
fn members_of_the_wrong_kind() {
    assert_eq!(
        unary(unary::DUNION, &set_of([set([1]), int(1)])),
        WRONG_KIND
    );
    assert_eq!(
        unary(unary::DINTER, &set_of([set([1]), int(1)])),
        WRONG_KIND
    );
    assert_eq!(
        unary(unary::CONC, &sequence_of([sequence([1]), set([1])])),
        WRONG_KIND
    );
    assert_eq!(binary(binary::IN_SET, &set([1]), &int(1)), WRONG_KIND);
    is(binary(binary::EQUAL, &int(1), &TRUE), FALSE);
    is(binary(binary::NOT_EQUAL, &int(1), &set([1])), TRUE);
}

/// A quote is equal to itself alone.
#[test]
fn quotes_and_what_equals_them() {
    let ends = [0, 1, 255, 256, 257, 65_535];
    let pairs = ends.iter().flat_map(|one| ends.map(|other| (*one, other)));
    for (one, other) in pairs {
        let (left, right) = (Value::Quote(one), Value::Quote(other));
        let number = int(one.into());
        truth(binary(binary::EQUAL, &left, &number), false);
        truth(binary(binary::NOT_EQUAL, &number, &left), true);
        truth(binary(binary::EQUAL, &left, &right), one == other);
        truth(binary(binary::NOT_EQUAL, &left, &right), one != other);
        let members = set_of([number, right]);
        truth(binary(binary::IN_SET, &left, &members), one == other);
        truth(binary(binary::NOT_IN_SET, &left, &members), one != other);
    }
    let map = map_of([(Value::Quote(1), int(5))]);
    is(apply(&map, &Value::Quote(1)), int(5));
    assert_eq!(apply(&map, &int(1)), ABSENT);
}

/// A quote is of the wrong kind for every operator but = and <>, of which < to >= ask for integers.
#[test]
fn what_takes_no_quotes() {
    let (left, right) = (Value::Quote(1), Value::Quote(2));
    for operator in (1..=28).filter(|o| ![binary::EQUAL, binary::NOT_EQUAL].contains(o)) {
        assert_eq!(binary(operator, &left, &right), WRONG_KIND, "{operator}");
    }
    for operator in 1..=15 {
        assert_eq!(unary(operator, &left), WRONG_KIND, "{operator}");
    }
    let members = set_of([left.clone()]);
    assert_eq!(unary(unary::DUNION, &members), WRONG_KIND);
    assert_eq!(unary(unary::DINTER, &members), WRONG_KIND);
    let items = sequence_of([left.clone()]);
    assert_eq!(unary(unary::CONC, &items), WRONG_KIND);
    assert_eq!(apply(&items, &left), WRONG_KIND);
    assert_eq!(apply(&left, &int(1)), WRONG_KIND);
    assert_eq!(range(&left, &right), WRONG_KIND);
    assert_eq!(range(&int(0), &right), WRONG_KIND);
}

/// A quote has 6 bytes: a set of 84 has 508, and one of 85 is too large.
#[test]
fn sets_of_quotes_up_to_512_bytes() {
    let quotes = |numbers: std::ops::Range<u16>| set_of(numbers.map(|n| Value::Quote(771 * n)));
    let (left, right) = (quotes(0..50), quotes(40..84));
    is(binary(binary::UNION, &left, &right), quotes(0..84));
    is(binary(binary::INTER, &left, &right), quotes(40..50));
    is(binary(binary::DIFFERENCE, &left, &right), quotes(0..40));
    is(unary(unary::CARD, &quotes(0..84)), int(84));
    assert_eq!(binary(binary::UNION, &left, &quotes(40..85)), TOO_LARGE);
    let beside = set_of([set([])]);
    let full = binary(binary::UNION, &quotes(0..84), &beside);
    assert_eq!(full.map(|record| record.len()), Ok(512));
    let beside = set_of([TRUE]);
    assert_eq!(binary(binary::UNION, &quotes(0..84), &beside), TOO_LARGE);
}

#[test]
fn set_ranges_up_to_512_bytes() {
    is(range(&int(1), &int(63)), set(1..=63));
    assert_eq!(range(&int(1), &int(64)), TOO_LARGE);
    assert_eq!(range(&int(i32::MIN), &int(i32::MAX)), TOO_LARGE);
    is(range(&int(i32::MAX), &int(i32::MAX)), set([i32::MAX]));
    is(range(&int(i32::MAX), &int(i32::MIN)), set([]));
    is(
        range(&int(i32::MIN), &int(i32::MIN + 62)),
        set(i32::MIN..=i32::MIN + 62),
    );
    assert_eq!(range(&int(1), &FALSE), WRONG_KIND);
}

/// A set, a sequence and a map of exactly 512 bytes; without the filler each has 508.
fn full(filler: Value, numbers: std::ops::Range<i32>) -> [Value; 2] {
    let items = || ints(numbers.clone()).into_iter().chain([filler.clone()]);
    [set_of(items()), sequence_of(items())]
}

#[test]
fn collections_that_just_fit_and_one_more() {
    // 63 integers and an empty set: 4 + 63 * 8 + 4 bytes.
    let [members, items] = full(set([]), 0..63);
    assert_eq!((members.size(), items.size()), (512, 512));
    is(
        binary(binary::UNION, &set(0..63), &set_of([set([])])),
        members.clone(),
    );
    is(binary(binary::UNION, &members, &members), members.clone());
    assert_eq!(binary(binary::UNION, &members, &set([63])), TOO_LARGE);
    assert_eq!(
        binary(binary::UNION, &set(0..63), &set_of([TRUE])),
        TOO_LARGE,
        "513 bytes"
    );
    is(
        binary(
            binary::CONCATENATE,
            &sequence(0..63),
            &sequence_of([set([])]),
        ),
        items.clone(),
    );
    assert_eq!(
        binary(binary::CONCATENATE, &sequence(0..63), &sequence_of([TRUE])),
        TOO_LARGE
    );
    is(unary(unary::ELEMS, &items), members.clone());
    let reversed = sequence_of([set([])].into_iter().chain(ints((0..63).rev())));
    is(unary(unary::REVERSE, &items), reversed);
    is(unary(unary::CARD, &members), int(64));
    is(unary(unary::LEN, &items), int(64));
    is(binary(binary::INTER, &members, &members), members.clone());
    is(binary(binary::DIFFERENCE, &members, &members), set([]));
    is(binary(binary::EQUAL, &members, &members), TRUE);
}

/// Sides of 508 and of 512 bytes: only the finished union is judged.
#[test]
fn unions_of_the_largest_sides() {
    let (lower, upper) = (set(0..63), set(63..126));
    let [evens, odds] = [0, 1].map(|first| set((first..126).step_by(2)));
    for (left, right) in [(&lower, &upper), (&evens, &odds)] {
        assert_eq!((left.size(), right.size()), (508, 508));
        assert_eq!(binary(binary::UNION, left, right), TOO_LARGE);
        assert_eq!(binary(binary::UNION, right, left), TOO_LARGE);
        is(binary(binary::UNION, left, left), left.clone());
    }
    let ([left, _], [right, _]) = (full(set([]), 0..63), full(sequence([]), 0..63));
    assert_eq!(binary(binary::UNION, &left, &right), TOO_LARGE, "516 bytes");
    is(binary(binary::UNION, &left, &lower), left.clone());
    is(binary(binary::UNION, &lower, &left), left);
}

#[test]
fn distributed_operators_up_to_512_bytes() {
    // Two halves of 63 integers: 4 + 63 * 8 bytes, and one more.
    let halves = set_of([set(0..31), set(31..62)]);
    assert_eq!(halves.size(), 508);
    is(unary(unary::DUNION, &halves), set(0..62));
    let halves = sequence_of([sequence(0..31), sequence(31..62)]);
    is(unary(unary::CONC, &halves), sequence(0..62));
    let nested = sequence_of((0..127).map(|_| sequence([])));
    assert_eq!(nested.size(), 512);
    is(unary(unary::CONC, &nested), sequence([]));
    assert_eq!(unary(unary::INDS, &nested), TOO_LARGE);
    is(unary(unary::ELEMS, &nested), set_of([sequence([])]));
}

#[test]
fn indexes_of_63_and_of_64_items() {
    let items = |count| sequence_of((0..count).map(|_| set([])));
    is(unary(unary::INDS, &items(63)), set(1..=63));
    assert_eq!(unary(unary::INDS, &items(64)), TOO_LARGE);
    is(unary(unary::INDS, &items(0)), set([]));
}
