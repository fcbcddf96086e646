//! The operators on maps: the worked examples of the VDM-10 manual, section 3.2.3, that lie in the
//! subset, and the ends of the sizes.

use super::quote::*;
use super::*;
use generator::builder::{binary, unary};

/// A map from quotes to integers.
fn wins<const COUNT: usize>(entries: [(Value, i32); COUNT]) -> Value {
    map_of(entries.map(|(key, wins)| (key, int(wins))))
}

#[test]
fn worked_examples() {
    let m1 = wins([
        (FRANCE, 9),
        (DENMARK, 4),
        (SOUTH_AFRICA, 2),
        (SAUDI_ARABIA, 1),
    ]);
    let m2 = map([(1, 2), (2, 3), (3, 4), (4, 1)]);
    let europe = set_of([FRANCE, ENGLAND, DENMARK, SPAIN]);
    is(
        unary(unary::DOM, &m1),
        set_of([FRANCE, DENMARK, SOUTH_AFRICA, SAUDI_ARABIA]),
    );
    is(unary(unary::RNG, &m1), set([1, 2, 4, 9]));
    is(unary(unary::DOM, &m2), set(1..=4));
    is(unary(unary::RNG, &m2), set(1..=4));
    let merged = wins([
        (FRANCE, 9),
        (DENMARK, 4),
        (ENGLAND, 3),
        (SAUDI_ARABIA, 1),
        (SOUTH_AFRICA, 2),
    ]);
    is(binary(binary::MUNION, &m1, &wins([(ENGLAND, 3)])), merged);
    let overridden = wins([
        (FRANCE, 8),
        (DENMARK, 4),
        (SOUTH_AFRICA, 2),
        (SAUDI_ARABIA, 1),
        (ENGLAND, 4),
    ]);
    is(
        binary(binary::OVERRIDE, &m1, &wins([(FRANCE, 8), (ENGLAND, 4)])),
        overridden,
    );
    let merged = wins([(FRANCE, 9), (ENGLAND, 3), (SPAIN, 4)]);
    is(
        binary(
            binary::MUNION,
            &wins([(FRANCE, 9), (SPAIN, 4)]),
            &wins([(FRANCE, 9), (ENGLAND, 3)]),
        ),
        merged,
    );
    is(
        binary(binary::DOMAIN_RESTRICTION, &europe, &m1),
        wins([(FRANCE, 9), (DENMARK, 4)]),
    );
    is(
        binary(binary::RANGE_RESTRICTION, &m1, &set(2..=10)),
        wins([(FRANCE, 9), (DENMARK, 4), (SOUTH_AFRICA, 2)]),
    );
    is(apply(&m1, &DENMARK), int(4));
    is(apply(&m2, &int(4)), int(1));
    truth(binary(binary::EQUAL, &m2, &m2), true);
    truth(binary(binary::NOT_EQUAL, &m1, &m2), true);
}

#[test]
fn maps_up_to_512_bytes() {
    let entries = |from: i32, value: i32| map((from..from + 31).map(|key| (key, value)));
    assert_eq!(entries(0, 0).size(), 500);
    let last = map_of([(set([]), set([]))]);
    let full = map_of(
        (0..31)
            .map(|key| (int(key), int(0)))
            .chain([(set([]), set([]))]),
    );
    assert_eq!(full.size(), 508);
    is(binary(binary::MUNION, &entries(0, 0), &last), full.clone());
    is(
        binary(binary::OVERRIDE, &entries(0, 0), &last),
        full.clone(),
    );
    let over = map_of([(TRUE, set([]))]);
    is(
        binary(binary::OVERRIDE, &entries(0, 0), &over),
        map_of(
            (0..31)
                .map(|key| (int(key), int(0)))
                .chain([(TRUE, set([]))]),
        ),
    );
    assert_eq!(binary(binary::MUNION, &full, &over), TOO_LARGE);
    assert_eq!(binary(binary::OVERRIDE, &full, &over), TOO_LARGE);
    assert_eq!(
        binary(binary::MUNION, &entries(0, 0), &entries(30, 1)),
        CLASH,
        "before 28"
    );
    assert_eq!(
        binary(binary::MUNION, &entries(0, 0), &entries(30, 0)),
        TOO_LARGE
    );
    assert_eq!(
        binary(binary::OVERRIDE, &entries(0, 0), &entries(30, 1)),
        TOO_LARGE
    );
    is(
        binary(binary::MUNION, &entries(0, 0), &entries(0, 0)),
        entries(0, 0),
    );
    is(
        binary(binary::OVERRIDE, &entries(0, 0), &entries(0, 1)),
        entries(0, 1),
    );
}

#[test]
fn an_override_is_judged_when_finished() {
    // The left value is long, and the right one short: the finished map fits.
    let long = map_of([(int(1), sequence(0..60))]);
    let short = map_of([(int(1), int(0)), (int(2), sequence(0..55))]);
    is(binary(binary::OVERRIDE, &long, &short), short.clone());
    assert_eq!(binary(binary::OVERRIDE, &short, &long), TOO_LARGE);
}

#[test]
fn kinds_of_restrictions() {
    assert_eq!(
        binary(binary::DOMAIN_RESTRICTION, &map([]), &set([])),
        WRONG_KIND
    );
    assert_eq!(
        binary(binary::RANGE_RESTRICTION, &set([]), &map([])),
        WRONG_KIND
    );
    assert_eq!(unary(unary::DOM, &set([])), WRONG_KIND);
    assert_eq!(unary(unary::RNG, &sequence([])), WRONG_KIND);
}
