//! Every kind of pattern by examples.

use super::case::{run, Case};
use super::*;
use crate::common::written::write;
use generator::{Builder, Random};
use sheets::Sheet;

fn factorial(number: usize) -> usize {
    (1..=number).product()
}

/// One value or more of every kind.
fn one_of_each() -> Vec<Value> {
    let mut values: Vec<Value> = [
        "false", "true", "-1", "0", "1", "{}", "{1}", "{1,2}", "[]", "[1]", "mk_(1,2)", "<0>",
        "<1>", "<257>",
    ]
    .map(value)
    .into();
    let entry = (Value::Integer(1), Value::Integer(2));
    values.push(Value::Map([].into()));
    values.push(Value::Map([entry].into()));
    values
}

// ---- union, and munion over maps

/// A set of n members has 2^n − 2 splits, and one of 0 or 1 members none.
#[test]
fn splits_of_up_to_seven_members() {
    for (members, splits) in [0, 0, 2, 6, 14, 30, 62, 126].into_iter().enumerate() {
        let set = numbers(members as i32);
        assert_eq!(both("a union b", &set), Ok(splits));
        assert_eq!(both("a union -", &set), Ok(splits));
        assert_eq!(both("- union a", &set), Ok(splits));
        assert_eq!(both("- union -", &set), Ok(splits.min(1)));
        let of_one = if splits == 0 { 0 } else { members };
        assert_eq!(both("{a} union b", &set), Ok(of_one));
        assert_eq!(both("a union {b}", &set), Ok(of_one));
        // The same over the members of a set, where a set without a split is passed over.
        let sets = set_of([set.clone(), numbers(0), set_of([value("9")])]);
        assert_eq!(both_over("a union b", &sets), Ok(splits));
    }
}

/// The bindings in their order, each with its values in rising name number.
#[test]
fn splits_in_order() {
    for (text, with, expected) in [
        ("a union -", "{1,2}", &["{1}", "{2}"][..]),
        ("{a} union -", "{1,2}", &["1", "2"]),
        (
            "a union -",
            "{1,2,3}",
            &["{1}", "{1,2}", "{1,3}", "{2}", "{2,3}", "{3}"],
        ),
        (
            "a union b",
            "{1,2,3}",
            &[
                "{1} {2,3}",
                "{1,2} {3}",
                "{1,3} {2}",
                "{2} {1,3}",
                "{2,3} {1}",
                "{3} {1,2}",
            ],
        ),
    ] {
        assert_eq!(shown(text, with), expected, "{text} and {with}");
    }
}

#[test]
fn splits_of_splits_in_order() {
    for (text, with, expected) in [
        (
            "a union (b union c)",
            "{1,2,3}",
            &[
                "{1} {2} {3}",
                "{1} {3} {2}",
                "{2} {1} {3}",
                "{2} {3} {1}",
                "{3} {1} {2}",
                "{3} {2} {1}",
            ][..],
        ),
        (
            "{a union b} union c",
            "{1,{2,3}}",
            &["{2} {3} {1}", "{3} {2} {1}"],
        ),
    ] {
        assert_eq!(shown(text, with), expected, "{text} and {with}");
    }
}

#[test]
fn eight_members_are_too_many_whatever_the_halves() {
    for text in [
        "a union b",
        "- union -",
        "a union a",
        "1 union true",
        "{a} union b",
        "{} union {}",
        "{} union a",
        "a union {}",
        "a union (b union c)",
        "[] union mk_(a,b)",
    ] {
        for members in [8, 9, 31] {
            let set = numbers(members);
            assert_eq!(both(text, &set), Err(29), "{text}");
            assert_eq!(both_over(text, &set_of([set])), Err(29), "{text}");
        }
        assert_eq!(count(text, &numbers(63)), Err(29), "{text}");
        // A sequence is no set, whatever its items.
        assert_eq!(both(text, &items(8)), Ok(0), "{text}");
    }
}

/// No half is empty, so {} is none, and halves of one name are not equal.
#[test]
fn halves_that_no_split_gives() {
    for members in 0..=7 {
        for text in [
            "{} union a",
            "a union {}",
            "{} union {}",
            "{} union -",
            "a union a",
            "1 union a",
            "[] union a",
            "(a union b) union {}",
            "{a} union ({} union b)",
            "(a union -) union (- union a)",
        ] {
            assert_eq!(both(text, &numbers(members)), Ok(0), "{text} {members}");
        }
    }
    // Two members of three and the third.
    for (members, ways) in [(0, 0), (1, 0), (2, 0), (3, 6), (4, 12)] {
        assert_eq!(both("{a,b} union c", &numbers(members)), Ok(ways));
    }
}

#[test]
fn unions_in_unions() {
    // Every leaf takes a member at least: 3^n − 3 × 2^n + 3 ways for three of them.
    for (members, ways) in [0, 0, 0, 6, 36, 150].into_iter().enumerate() {
        let set = numbers(members as i32);
        assert_eq!(both("a union (b union c)", &set), Ok(ways));
        assert_eq!(both("(a union b) union c", &set), Ok(ways));
        assert_eq!(
            both("(- union b) union -", &set).map(|n| n > 0),
            Ok(ways > 0)
        );
        let rest = if ways == 0 {
            0
        } else {
            members * (members - 1)
        };
        assert_eq!(both("{a} union ({b} union c)", &set), Ok(rest));
    }
    assert_eq!(both("a union (b union c)", &numbers(6)), Err(30));
    // Four leaves: 4! and 4^5 − 4 × 3^5 + 6 × 2^5 − 4.
    for (members, ways) in [(2, 0), (3, 0), (4, 24), (5, 240)] {
        let found = both("(a union b) union (c union d)", &numbers(members));
        assert_eq!(found, Ok(ways), "{members}");
    }
}

/// A name beside wildcards takes up to as many members as they leave.
#[test]
fn unions_of_wildcards_and_of_members() {
    for (text, bindings) in [
        ("a union (- union -)", 119),
        ("(- union -) union (a union -)", 98),
        ("(- union -) union (a union (- union -))", 63),
        (
            "- union (- union (- union (- union (- union (- union a)))))",
            7,
        ),
        (
            "- union (- union (- union (- union (- union (- union (- union a))))))",
            0,
        ),
    ] {
        assert_eq!(both(text, &numbers(7)), Ok(bindings), "{text}");
    }
    let set = numbers(3);
    assert_eq!(both("{a,b} union {c}", &set), Ok(6));
    assert_eq!(both("{a} union ({b} union {c})", &set), Ok(6));
    assert_eq!(both("({a} union {b}) union {c}", &set), Ok(6));
    assert_eq!(both("{1} union ({a} union {3})", &set), Ok(1));
    assert_eq!(both("{4} union a", &set), Ok(0));
}

#[test]
fn unions_under_other_patterns() {
    for (text, with) in [
        (
            "mk_(a union b, c)",
            (|v| pair(v, value("0"))) as fn(Value) -> Value,
        ),
        ("mk_(0, a union b)", |v| pair(value("0"), v)),
        ("[a union b, c]", |v| Value::Sequence(vec![v, value("0")])),
        ("[0, a union b]", |v| Value::Sequence(vec![value("0"), v])),
        ("{a union b, c}", |v| set_of([v, value("0")])),
        ("{0, a union b}", |v| set_of([v, value("0")])),
        ("{a union b} union c", |v| set_of([v, value("0")])),
        ("c union {a union b}", |v| set_of([v, value("0")])),
        ("[a union b] ^ c", |v| Value::Sequence(vec![v, value("0")])),
        ("c ^ [a union b]", |v| Value::Sequence(vec![value("0"), v])),
    ] {
        assert_eq!(both(text, &with(numbers(7))), Ok(126), "{text}");
        assert_eq!(both(text, &with(numbers(8))), Err(29), "{text}");
        assert_eq!(both(text, &with(items(8))), Ok(0), "{text}");
        // 2 + 6 and none.
        let members = set_of([with(numbers(2)), with(numbers(3)), with(value("1"))]);
        assert_eq!(both_over(text, &members), Ok(8), "{text}");
        let members = set_of([with(numbers(0)), with(numbers(1)), with(numbers(2))]);
        assert_eq!(both_over(text, &members), Ok(2), "{text}");
        let members = set_of([with(numbers(2)), with(numbers(9))]);
        assert_eq!(both_over(text, &members), Err(29), "{text}");
    }
}

/// All parts are tried where kind and count fit, whatever becomes of the others.
#[test]
fn a_set_too_large_beside_a_part_that_does_not_match() {
    for (text, with) in [
        ("mk_(1, a union b)", "mk_(2,{1,...,8})"),
        ("mk_(a union b, 1)", "mk_({1,...,8},2)"),
        ("{1, a union b}", "{2,{1,...,8}}"),
        ("{{}, a union b}", "{1,{1,...,8}}"),
        ("mk_(a, a, b union c)", "mk_(1,2,{1,...,8})"),
        ("mk_(b union c, a, a)", "mk_({1,...,8},1,2)"),
        ("[a, a, b union c]", "[1,2,{1,...,8}]"),
        ("[b union c, a, a]", "[{1,...,8},1,2]"),
        ("[3,-] ^ [a union b]", "[1,2,{1,...,8}]"),
        ("([3] ^ -) ^ [a union b]", "[1,2,{1,...,8}]"),
        ("mk_(1, mk_(2, a union b))", "mk_(0,mk_(0,{1,...,8}))"),
        ("{a union b} union c", "{1,{1,...,8}}"),
        ("{a union b} union {2}", "{1,{1,...,8}}"),
        ("{} union {a union b}", "{1,{1,...,8}}"),
        ("({a union b} union -) union -", "{1,2,{1,...,8}}"),
        ("{} union ({a union b} union {})", "{1,2,{1,...,8}}"),
    ] {
        assert_eq!(both(text, &value(with)), Err(29), "{text} and {with}");
    }
    // Among members of which another matches, and after one that has no match.
    for (text, with) in [
        ("mk_(1, a union b)", "{mk_(1,{1,2}),mk_(2,{1,...,8})}"),
        ("mk_(3, a union b)", "{mk_(1,1),mk_(2,{1,...,8})}"),
        ("mk_(2, a union b)", "{mk_(1,{1,...,8}),mk_(2,{1,2})}"),
        ("a union b", "{{},{1},{1,...,8}}"),
    ] {
        assert_eq!(both_over(text, &value(with)), Err(29), "{text} and {with}");
    }
}

/// Where kind or count do not fit, no part is tried.
#[test]
fn a_set_too_large_that_no_part_meets() {
    for (text, with, bindings) in [
        ("mk_(a union b, c)", "mk_({1,...,8},1,1)", 0),
        ("mk_(a union b, c, d)", "[{1,...,8},1,1]", 0),
        ("[a union b, c]", "[{1,...,8},1,1]", 0),
        ("{a union b, c, d}", "{{1,...,8},1}", 0),
        ("{a union b, c} union d", "{{1,...,8},1}", 0),
        // Of one member there is no split, so the halves meet nothing.
        ("{a union b} union c", "{{1,...,8}}", 0),
        ("c union {a union b}", "{{1,...,8}}", 0),
        ("({a union b} union -) union -", "{1,{1,...,8}}", 0),
        ("- union (- union {a union b})", "{1,{1,...,8}}", 0),
        ("{{a union b} union -} union -", "{1,{{1,...,8}}}", 0),
        ("[a union b] ^ c", "[1,{1,...,8}]", 0),
        ("[] ^ c", "[{1,...,8},1,1]", 1),
        ("a", "{1,...,8}", 1),
    ] {
        assert_eq!(both(text, &value(with)), Ok(bindings), "{text} and {with}");
    }
    let entries = Value::Map([(numbers(8), numbers(8))].into());
    assert_eq!(count("a union b", &entries), Ok(0));
    assert_eq!(count("{a union b}", &set_of([entries])), Ok(0));
}

// ---- set enumeration, and map enumeration

#[test]
fn parts_pair_up_with_members_one_to_one() {
    for (parts, [text, of_entries]) in [
        ["{}", "{|->}"],
        ["{a}", "{a |-> b}"],
        ["{a,b}", "{a |-> b, c |-> d}"],
        ["{a,b,c}", "{a |-> b, c |-> d, e |-> f}"],
        ["{d,c,b,a}", "{h |-> g, f |-> e, d |-> c, b |-> a}"],
    ]
    .into_iter()
    .enumerate()
    {
        let ways = |members: i32| match members as usize == parts {
            true => factorial(parts),
            false => 0,
        };
        for members in 0..=5 {
            let found = both(text, &numbers(members));
            assert_eq!(found, Ok(ways(members)), "{text} {members}");
            let sets = set_of([numbers(members), numbers(members + 1), items(4)]);
            let all = ways(members) + ways(members + 1);
            assert_eq!(both_over(text, &sets), Ok(all), "{text} {members}");
            // A name for each value goes with that of its key.
            let found = count(of_entries, &entries(members));
            assert_eq!(found, Ok(ways(members)), "{of_entries} {members}");
        }
    }
}

#[test]
fn pairings_with_one_binding_count_once() {
    let set = numbers(4);
    for (text, bindings) in [
        ("{-,-,-,-}", 1),
        ("{a,-,-,-}", 4),
        ("{-,a,-,b}", 12),
        ("{a,b,c,-}", 24),
        ("{a,a,-,-}", 0),
        ("{1,a,b,-}", 6),
        ("{4,3,2,1}", 1),
        ("{4,3,2,2}", 0),
        ("{5,a,b,c}", 0),
        ("{true,a,b,c}", 0),
        ("{{},a,b,c}", 0),
    ] {
        assert_eq!(both(text, &set), Ok(bindings), "{text}");
    }
    let members = value("{{1,2},{1,3},{2,3},{3}}");
    assert_eq!(both_over("{a,-}", &members), Ok(3));
    assert_eq!(both_over("{a,b}", &members), Ok(6));
    assert_eq!(both_over("{1,a}", &members), Ok(2));
    assert_eq!(both_over("{-,-}", &members), Ok(1));
    assert_eq!(both_over("a union -", &members), Ok(3));
}

#[test]
fn sets_in_sets() {
    let set = value("{{1,2},{3,4}}");
    assert_eq!(both("{{a,b},{c,d}}", &set), Ok(8));
    assert_eq!(both("{{a,b},c}", &set), Ok(4));
    assert_eq!(both("{{a,-},{1,-}}", &set), Ok(2));
    assert_eq!(both("{a union b,c union d}", &set), Ok(8));
    assert_eq!(both("{a union {1},b}", &set), Ok(1));
    assert_eq!(both("{{a,1},{a,b}}", &set), Ok(0));
    assert_eq!(both("{{a,1},{a,b}}", &value("{{1,2},{2,4}}")), Ok(1));
}

// ---- sequences

#[test]
fn cuts_of_sequences() {
    for length in 0..=6 {
        let sequence = Value::Sequence((1..=length).map(Value::Integer).collect());
        let length = length as usize;
        assert_eq!(count("a ^ b", &sequence), Ok(length + 1));
        assert_eq!(count("a ^ -", &sequence), Ok(length + 1));
        assert_eq!(count("- ^ -", &sequence), Ok(1));
        assert_eq!(count("[a] ^ b", &sequence), Ok(length.min(1)));
        assert_eq!(count("a ^ [b]", &sequence), Ok(length.min(1)));
        assert_eq!(count("a ^ ([b] ^ c)", &sequence), Ok(length));
        assert_eq!(count("[] ^ a", &sequence), Ok(1));
        assert_eq!(count("a ^ []", &sequence), Ok(1));
        assert_eq!(count("[] ^ []", &sequence), Ok(usize::from(length == 0)));
        let twice = (length + 1) * (length + 2) / 2;
        assert_eq!(count("a ^ (b ^ c)", &sequence), Ok(twice));
        assert_eq!(count("(a ^ b) ^ c", &sequence), Ok(twice));
        assert_eq!(count("a ^ a", &sequence), Ok(usize::from(length == 0)));
        assert_eq!(count("a ^ b", &numbers(length as i32)), Ok(0));
    }
}

#[test]
fn cuts_of_equal_items() {
    // Different cuts give different halves, even of equal items.
    assert_eq!(count("a ^ b", &items(5)), Ok(6));
    assert_eq!(count("a ^ a", &items(5)), Ok(0));
    assert_eq!(count("a ^ a", &items(6)), Ok(1));
    assert_eq!(count("a ^ (b ^ a)", &items(6)), Ok(4));
    assert_eq!(count("a ^ ([b] ^ -)", &items(6)), Ok(6));
    assert_eq!(count("- ^ ([b] ^ -)", &items(6)), Ok(1));
    assert_eq!(count("a ^ a", &value("[1,2,1,2]")), Ok(1));
    assert_eq!(count("a ^ a", &value("[1,2,2,1]")), Ok(0));
    assert_eq!(count("a ^ (a ^ a)", &value("[1,1,1,1,1,1]")), Ok(1));
    assert_eq!(count("([a] ^ -) ^ ([a] ^ b)", &value("[1,2,1,3,1]")), Ok(2));
}

#[test]
fn sequences_over_members() {
    let members = value("{[],[1],[2],[1,2],[2,1],[1,2,3],{},{1},1,mk_(1,2)}");
    for (text, bindings) in [
        ("[]", 1),
        ("[a]", 2),
        ("[a,b]", 2),
        ("[a,b,c]", 1),
        ("[a,b,c,d]", 0),
        ("[-,a]", 2),
        ("[-] ^ a", 4),
        ("a ^ b", 15),
        ("a ^ -", 6),
        ("a ^ [2]", 2),
        ("[] ^ a", 6),
    ] {
        assert_eq!(count_over(text, &members), Ok(bindings), "{text}");
    }
}

// ---- names, any and literals

#[test]
fn names_that_stand_twice_get_equal_values() {
    for (text, with, bindings) in [
        ("mk_(a,a)", "mk_({1},{1})", 1),
        ("mk_(a,a)", "mk_({1},[1])", 0),
        ("mk_(a,b,a)", "mk_(1,2,1)", 1),
        ("mk_(a,b,a)", "mk_(1,1,2)", 0),
        ("[a,b,a,b]", "[1,2,1,2]", 1),
        ("{a} union {a}", "{1,2}", 0),
        ("{a,b} union {b,c}", "{1,2,3,4}", 0),
        ("mk_(a union b, b union c)", "mk_({1,2},{2,3})", 1),
        ("mk_(a union b, b union a)", "mk_({1,2},{1,2})", 2),
        ("mk_(a union b, b)", "mk_({1,2},{1,2})", 0),
        ("mk_(a union b, b)", "mk_({1,2},{})", 0),
        ("mk_(a union b, a)", "mk_({1,2},{1})", 1),
        ("mk_(a, a union b)", "mk_({1},{1,2})", 1),
        ("mk_({a,b},[b,a])", "mk_({1,2},[1,2])", 1),
        ("mk_({a,b},[b,b])", "mk_({1,2},[1,2])", 0),
        ("mk_(a ^ b, b ^ a)", "mk_([1,2,3],[3,1,2])", 1),
        ("mk_(a ^ b, b ^ a)", "mk_([1,1],[1,1])", 3),
        ("mk_({a} union b, [a] ^ c)", "mk_({1,2,3},[2,9])", 1),
    ] {
        assert_eq!(both(text, &value(with)), Ok(bindings), "{text} and {with}");
    }
    let members = value("{mk_(1,1),mk_(1,2),mk_(2,2),mk_({},{}),mk_({},[])}");
    assert_eq!(both_over("mk_(a,a)", &members), Ok(3));
}

#[test]
fn every_simple_pattern_and_every_kind_of_value() {
    let literals = ["false", "true", "-1", "0", "1", "<0>", "<1>", "<257>"];
    for value in &one_of_each() {
        for text in literals {
            let is_met = *value == pattern::value(text);
            assert_eq!(count(text, value), Ok(usize::from(is_met)), "{text}");
        }
        assert_eq!(count("-", value), Ok(1));
        let found = matched("p", value).expect("a binding");
        assert_eq!(found, [[(15, value.clone())].into()]);
    }
    let all = set_of(one_of_each());
    assert_eq!(count_over("a", &all), Ok(16));
    assert_eq!(count_over("1", &all), Ok(1));
    assert_eq!(count_over("2", &all), Ok(0));
    assert_eq!(count_over("true", &all), Ok(1));
    assert_eq!(count_over("<257>", &all), Ok(1));
    assert_eq!(count_over("<2>", &all), Ok(0));
}

#[test]
fn integers_at_the_ends() {
    let ends = [
        i32::MIN,
        i32::MIN + 1,
        -256,
        255,
        256,
        65_536,
        i32::MAX - 1,
        i32::MAX,
    ];
    for one in ends {
        for other in ends {
            let bindings = usize::from(one == other);
            let value = Value::Integer(other);
            assert_eq!(count(&one.to_string(), &value), Ok(bindings));
            let text = format!("mk_({one}, a)");
            assert_eq!(count(&text, &pair(value, numbers(1))), Ok(bindings));
        }
    }
    let all = set_of(ends.map(Value::Integer));
    let found = over("a", &all).expect("bindings");
    let bound: Vec<&Value> = found.iter().map(|binding| &binding[&0]).collect();
    assert_eq!(bound, ends.map(Value::Integer).iter().collect::<Vec<_>>());
}

/// A quote is met by that quote alone, and quotes are ordered by their numbers, after every other kind.
#[test]
fn quotes_at_the_ends() {
    let ends = [0, 1, 255, 256, 257, 511, 512, 65_279, 65_280, 65_535];
    for one in ends {
        for other in ends {
            let bindings = usize::from(one == other);
            let value = Value::Quote(other);
            assert_eq!(count(&format!("<{one}>"), &value), Ok(bindings));
            let text = format!("mk_(<{one}>, a)");
            assert_eq!(count(&text, &pair(value, numbers(1))), Ok(bindings));
        }
        assert_eq!(
            count(&format!("<{one}>"), &Value::Integer(one.into())),
            Ok(0)
        );
        assert_eq!(count(&one.to_string(), &Value::Quote(one)), Ok(0));
    }
    let others = one_of_each().into_iter();
    let all = set_of(others.chain(ends.map(Value::Quote)));
    let found = over("a", &all).expect("bindings");
    let bound: Vec<&Value> = found.iter().map(|binding| &binding[&0]).collect();
    assert!(bound.ends_with(&ends.map(Value::Quote).iter().collect::<Vec<_>>()));
    assert_eq!(over("<256>", &all), Ok(vec![[].into()]));
    assert_eq!(over("<2>", &all), Ok(vec![]));
}

/// Quotes as members, keys, values and items of what a pattern meets.
#[test]
fn quotes_within() {
    assert_eq!(shown("{<2>, a}", "{1,<2>}"), ["1"]);
    assert_eq!(shown("{a, b}", "{<2>,<1>}"), ["<1> <2>", "<2> <1>"]);
    assert_eq!(
        shown("{<0> |-> a, <1> |-> b}", "{<1>|->4,<0>|->3}"),
        ["3 4"]
    );
    assert_eq!(shown("{a |-> <1>, - |-> <2>}", "{7|-><2>,8|-><1>}"), ["8"]);
    assert_eq!(shown("{<1>} union a", "{<0>,<1>,{}}"), ["{{},<0>}"]);
    assert_eq!(
        shown("{a |-> <1>} munion b", "{1|-><1>,2|-><0>}"),
        ["1 {2|-><0>}"]
    );
    assert_eq!(shown("[<1>] ^ a", "[<1>,<2>]"), ["[<2>]"]);
    assert_eq!(shown("mk_(a, a)", "mk_(<3>,<3>)"), ["<3>"]);
    assert_eq!(count("mk_(a, a)", &value("mk_(<3>,3)")), Ok(0));
    assert_eq!(count("{<0> |-> a}", &value("{0|->1}")), Ok(0));
}

/// A quote has 6 bytes: 84 of them in a set are 508.
#[test]
fn sets_of_84_quotes() {
    let all = set_of((0..84).map(|n| Value::Quote(771 * n)));
    assert_eq!(all.size(), 508);
    assert_eq!(count_over("a", &all), Ok(84));
    assert_eq!(count_over("<771>", &all), Ok(1));
    assert_eq!(count("a", &all), Ok(1));
    assert_eq!(count("a union b", &all), Err(29));
}

#[test]
fn every_pattern_and_every_kind_of_value() {
    let patterns = [
        "a",
        "-",
        "true",
        "1",
        "<1>",
        "mk_(a,b)",
        "mk_(a,b,c)",
        "{}",
        "{a}",
        "{a,b}",
        "a union b",
        "[]",
        "[a]",
        "[a,b]",
        "a ^ b",
        "{|->}",
        "{a |-> b}",
        "{a |-> b, c |-> d}",
        "a munion b",
    ];
    for text in patterns {
        for value in one_of_each() {
            count(text, &value).expect("no large set");
            count(
                &format!("mk_({text}, p)"),
                &pair(value.clone(), value.clone()),
            )
            .expect("no large set");
            count(
                &format!("{{{text}, p}}"),
                &set_of([value.clone(), numbers(4)]),
            )
            .expect("no large set");
        }
        count_over(text, &set_of(one_of_each())).expect("no large set");
    }
}

/// Over any number of members there is one binding, which gives no name a value.
#[test]
fn patterns_without_names() {
    assert_eq!(over("-", &numbers(63)), Ok(vec![[].into()]));
    assert_eq!(over("7", &numbers(63)), Ok(vec![[].into()]));
    assert_eq!(over("64", &numbers(63)), Ok(vec![]));
    assert_eq!(over("-", &value("{}")), Ok(vec![]));
    let pairs = set_of((1..=25).map(|n| pair(Value::Integer(n), Value::Integer(-n))));
    assert_eq!(over("mk_(-,-)", &pairs), Ok(vec![[].into()]));
    let sets = set_of((1..=6).map(numbers));
    assert_eq!(over("- union -", &sets), Ok(vec![[].into()]));
    assert_eq!(over("{1} union -", &sets), Ok(vec![[].into()]));
    assert_eq!(over("{0} union -", &sets), Ok(vec![]));
    let sequences = set_of((0..=9).map(items));
    assert_eq!(over("- ^ -", &sequences), Ok(vec![[].into()]));
    assert_eq!(over("[{}] ^ [{}]", &sequences), Ok(vec![[].into()]));
}

/// A plain name is bound to each member in turn, in every binder.
#[test]
fn a_name_over_many_members() {
    let mixed = {
        let sets = (0..6).map(numbers);
        let sequences = (0..6).map(items);
        let numbers = (-4..4).map(Value::Integer);
        set_of(sets.chain(sequences).chain(numbers).chain(one_of_each()))
    };
    for set in [
        numbers(63),
        mixed,
        value("{}"),
        value("{{}}"),
        set_of([numbers(62)]),
    ] {
        let Value::Set(members) = &set else {
            panic!("a set");
        };
        for kind in OVER_SETS.into_iter().chain(OF_NAMES) {
            for (name, text) in [(0, "a"), (9, "j"), (15, "p")] {
                let found = compare(kind, &pattern(text), &set);
                let found = found.expect("bindings").into_iter();
                let bound: Vec<Value> = found.map(|mut b| b.remove(&name).unwrap()).collect();
                assert!(bound.iter().eq(members), "kind {kind}");
            }
        }
    }
}

/// Bindings go by their values in rising name number, wherever the names stand.
#[test]
fn order_goes_by_name_number() {
    for text in ["mk_(a,b)", "mk_(b,a)", "mk_(p,a)", "mk_(a,p)", "mk_(k,j)"] {
        let members = value("{mk_(1,{}),mk_(2,1),mk_({},true),mk_({1},{}),mk_([],-1)}");
        assert_eq!(count_over(text, &members), Ok(5), "{text}");
    }
    for text in ["{a,b,c}", "{c,b,a}", "{b,p,a}", "{p,c,o}"] {
        assert_eq!(count(text, &value("{true,[],mk_(1,2)}")), Ok(6), "{text}");
    }
    let quarters: Vec<String> = ["a,b,c,d", "p,o,n,m", "h,e,g,f", "i,k,j,l"]
        .map(|names| format!("mk_({names})"))
        .into();
    let text = format!("mk_({})", quarters.join(","));
    let quarter = |from: i32| Value::Tuple((from..from + 4).map(Value::Integer).collect());
    let all = Value::Tuple([1, 5, 9, 13].map(quarter).into());
    let found = matched(&text, &all).expect("a binding");
    assert_eq!(found[0].len(), 16);
    assert_eq!(found[0][&15], Value::Integer(5));
}

// ---- large ones

/// A concatenation of so many parts.
fn tree(parts: usize, leaf: &mut impl FnMut() -> Pattern) -> Pattern {
    if parts == 1 {
        return leaf();
    }
    let left = tree(parts / 2, leaf);
    Pattern::concatenation(left, tree(parts - parts / 2, leaf))
}

/// let P = V in a name.
fn let_name(pattern: &Pattern, value: &Value, name: u8) -> Builder {
    let mut sheet = Builder::new();
    let operands = [
        pattern.write(&mut sheet),
        write(&mut sheet, value, &[]),
        sheet.name(name),
    ];
    sheet.node(kind::LET, &operands);
    sheet
}

/// 99 parts of a concatenation in 197 records, which is as many as a binder leaves room for, and one fewer.
#[test]
fn patterns_of_many_records() {
    let mut names = (0..16).cycle();
    let mut name = || names.next().map_or(Pattern::Any, Pattern::Name);
    let all = let_name(&tree(99, &mut name), &value("[]"), 0);
    assert_eq!(all.records.len(), Sheet::MAX_RECORDS);
    assert_eq!(run(&all.table(), &[0]), Ok(value("[]")));
    assert_eq!(run(&all.table(), &[1]).unwrap_err().count, 1);
    // One item goes to one of 98 parts, of which all hold names that stand elsewhere too.
    let all = let_name(&tree(98, &mut name), &value("[1]"), 0);
    assert_eq!(run(&all.table(), &[]).unwrap_err().number, 23);
    // The named part gets the item, or not.
    let mut parts = 0..;
    let mut leaf = || match parts.next() {
        Some(50) => Pattern::Name(3),
        _ => Pattern::Any,
    };
    let one = let_name(&tree(98, &mut leaf), &value("[7]"), 3);
    assert_eq!(run(&one.table(), &[]).unwrap_err().count, 2);
    assert_eq!(run(&one.table(), &[0]), Ok(value("[]")));
    assert_eq!(run(&one.table(), &[1]), Ok(value("[7]")));
}

/// [] within so many sequences of one item.
fn nested(depth: usize) -> Value {
    (0..depth).fold(items(0), |value, _| Value::Sequence(vec![value]))
}

/// Name 2 within so many sequence patterns of one part.
fn nested_pattern(depth: usize) -> Pattern {
    (0..depth).fold(Pattern::Name(2), |part, _| Pattern::Sequence(vec![part]))
}

/// A pattern as high as a table allows, over a value as deep.
#[test]
fn deep_patterns() {
    for depth in [0, 1, 10, 30] {
        let by_let = |value| compare(kind::LET, &nested_pattern(depth), &value);
        assert_eq!(by_let(nested(depth)).map(|f| f.len()), Ok(1));
        if depth > 0 {
            assert_eq!(by_let(nested(depth - 1)).map(|f| f.len()), Ok(0));
        }
    }
    // A union within unions leaves each a member: of seven there are six at most.
    for (unions, members, bindings) in [(6, 7, 7), (6, 6, 0), (7, 7, 0), (30, 7, 0)] {
        let pattern = (0..unions).fold(Pattern::Name(1), |part, _| {
            Pattern::union(part, Pattern::Any)
        });
        assert_eq!(both_of(&pattern, &numbers(members)), Ok(bindings));
    }
    // {{{b} union -} union -} union - over {1,{1,{1,5}}}, and a set less.
    let unions = (0..15).fold(Pattern::Name(1), |part, _| {
        Pattern::union(Pattern::Set(vec![part]), Pattern::Any)
    });
    for (sets, bindings) in [(15, 2), (14, 0)] {
        let value = (0..sets).fold(value("5"), |member, _| set_of([value("1"), member]));
        assert_eq!(both_of(&unions, &value), Ok(bindings));
    }
}

/// Patterns over the deepest value, 127 sequences in each other, which five lets build.
#[test]
fn the_deepest_value() {
    assert_eq!(nested(127).size(), Value::MAX_SIZE);
    for depth in [0, 1, 10, 25] {
        let mut sheet = Builder::new();
        let mut inner = sheet.node(kind::SEQUENCE, &[]);
        let mut lets = Vec::new();
        for (name, layers) in [(10, 26), (11, 26), (12, 26), (13, 26), (14, 23)] {
            let value = (0..layers).fold(inner, |v, _| sheet.node(kind::SEQUENCE, &[v]));
            lets.push((sheet.p_name(name), value));
            inner = sheet.name(name);
        }
        let pattern = nested_pattern(depth).write(&mut sheet);
        let body = sheet.name(2);
        let body = sheet.node(kind::LET, &[pattern, inner, body]);
        let lets = lets.into_iter().rev();
        lets.fold(body, |body, (name, value)| {
            sheet.node(kind::LET, &[name, value, body])
        });
        assert_eq!(run(&sheet.table(), &[]), Ok(nested(127 - depth)));
    }
}

/// A value of 512 bytes as a whole, and its halves.
#[test]
fn values_of_512_bytes() {
    let full = items(127);
    assert_eq!(full.size(), Value::MAX_SIZE);
    assert_eq!(count("a", &full), Ok(1));
    assert_eq!(count("[a] ^ b", &full), Ok(1));
    assert_eq!(count("a ^ b", &full), Ok(128));
    assert_eq!(count("mk_(a,b)", &pair(items(62), items(62))), Ok(1));
    let members = set_of([numbers(31), Value::Sequence(vec![Value::Integer(1); 31])]);
    assert_eq!(members.size(), 508);
    assert_eq!(count_over("a", &members), Ok(2));
    assert_eq!(count("{a,b}", &members), Ok(2));
    let sets = set_of((1..=7).map(|n| set_of([numbers(n), value("[]")])));
    assert!(sets.size() <= Value::MAX_SIZE);
    assert_eq!(count("{{[],-}} union a", &sets), Ok(7));
}

/// The same sheet with its records in any order.
#[test]
fn records_in_any_order() {
    let pattern = pattern("mk_({a,b} union c, [d] ^ -)");
    let members = value("{mk_({1,2,3},[4]),mk_({5,6,7},[4,5]),mk_({1,2,3},[]),mk_({1,2},[1])}");
    let case = Case::new(kind::LET_BE, &pattern, &members);
    case.compare();
    assert_eq!(case.expected.as_ref().map(Vec::len), Ok(12));
    let (sheet, mut random) = (case.sheet(), Random::new(41));
    for _ in 0..60 {
        let table = sheet.shuffled(&mut random).table();
        assert_eq!(run(&table, &[]).unwrap_err().count, 12);
        for k in 0..12 {
            assert_eq!(run(&table, &[k]), run(&sheet.table(), &[k]));
        }
    }
}
