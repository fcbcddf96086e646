//! Bindings at the end of a window: 512 bytes hold 128 words, so 128 bindings of one name, 64 of two, 8 of sixteen. Every binding is shown,
//! with every name of the pattern; past the window it is filled again.

use super::*;

/// The words of a window.
const WORDS: usize = 128;

/// Shows every binding, of a let over its members too where it is one value, and gives how many there are.
fn every(kind: u16, text: &str, value: &Value) -> usize {
    let pattern = pattern(text);
    let found = compare(kind, &pattern, value).expect("bindings");
    let members = match kind {
        kind::LET => set_of([value.clone()]),
        _ => value.clone(),
    };
    if members.size() <= Value::MAX_SIZE {
        for kind in OVER_SETS {
            assert_eq!(compare(kind, &pattern, &members).as_ref(), Ok(&found));
        }
    }
    found.len()
}

#[test]
fn one_name_that_fills_a_window() {
    // The 126 halves of seven members; {8,9} has two more, and {7,8} one, for {7} is a half already.
    let sets = |others: &[&str]| {
        let others = others.iter().map(|text| value(text));
        set_of(others.chain([numbers(7)]))
    };
    for (others, bindings) in [
        (&[][..], WORDS - 2),
        (&["{7,8}"], WORDS - 1),
        (&["{8,9}"], WORDS),
        (&["{8,9}", "{7,10}"], WORDS + 1),
    ] {
        let found = every(kind::LET_BE, "a union -", &sets(others));
        assert_eq!(found, bindings, "{others:?}");
    }
    assert_eq!(every(kind::LET, "a union -", &numbers(7)), WORDS - 2);
}

/// The same of a map of seven entries, and of others of two.
#[test]
fn one_name_that_takes_halves_of_maps() {
    let seven = value("{1|->1,2|->2,3|->3,4|->4,5|->5,6|->6,7|->7}");
    let maps = |others: &[&str]| {
        let others = others.iter().map(|text| value(text));
        set_of(others.chain([seven.clone()]))
    };
    for (others, bindings) in [
        (&[][..], WORDS - 2),
        (&["{7|->7,8|->8}"], WORDS - 1),
        (&["{7|->8,8|->8}"], WORDS),
        (&["{8|->8,9|->9}", "{7|->7,10|->0}"], WORDS + 1),
    ] {
        let found = every(kind::LET_BE, "a munion -", &maps(others));
        assert_eq!(found, bindings, "{others:?}");
    }
    assert_eq!(every(kind::LET, "a munion -", &seven), WORDS - 2);
    assert_eq!(every(kind::LET, "b munion a", &seven), WORDS - 2);
}

#[test]
fn several_names_that_fill_a_window() {
    // A sequence of n items has n + 1 cuts; the names before it are the same in all.
    let names = |count: usize| Value::Tuple((0..count).map(|n| Value::Integer(n as i32)).collect());
    for (text, others) in [
        ("a ^ b", 0),
        ("mk_(a, b ^ c)", 1),
        ("mk_(a, b, c ^ d)", 2),
        ("mk_(c, a, d ^ b)", 2),
        ("mk_(p, o, n, m ^ b)", 3),
    ] {
        let most = WORDS / (others + 2);
        for bindings in [most - 1, most, most + 1] {
            let sequence = items(bindings - 1);
            let value = match others {
                0 => sequence,
                _ => match names(others) {
                    Value::Tuple(mut parts) => {
                        parts.push(sequence);
                        Value::Tuple(parts)
                    }
                    _ => unreachable!(),
                },
            };
            assert_eq!(every(kind::LET, text, &value), bindings, "{text}");
        }
    }
}

#[test]
fn sixteen_names() {
    let text = "mk_([a,b,c,d],[e,f,g,h],[i,j,k,l],mk_(m,n,o ^ p))";
    let numbered = |from: i32| Value::Sequence((from..from + 4).map(Value::Integer).collect());
    for bindings in [7, 8, 9, 16, 17, 25] {
        let last = Value::Tuple(vec![
            Value::Integer(12),
            Value::Integer(13),
            items(bindings - 1),
        ]);
        let value = Value::Tuple(vec![numbered(0), numbered(4), numbered(8), last]);
        assert_eq!(every(kind::LET, text, &value), bindings);
    }
}

/// A plain name takes the members as they stand, 127 of the smallest at most.
#[test]
fn a_plain_name() {
    assert_eq!(every(kind::LET_BE, "p", &numbers(63)), 63);
    assert_eq!(every(kind::LET_BE, "a", &numbers(0)), 0);
    assert_eq!(every(kind::LET, "a", &numbers(63)), 1);
    let mixed = set_of([
        numbers(3),
        value("true"),
        value("[]"),
        value("{}"),
        value("7"),
    ]);
    assert_eq!(every(kind::LET_BE, "k", &mixed), 5);
}

/// Names against the order in which they stand in the pattern: bindings go by rising name number.
#[test]
fn names_against_the_order_of_the_pattern() {
    for (text, met, bindings) in [
        ("b union a", "{1,2,3}", 6),
        ("c union (b union a)", "{1,2,3}", 6),
        ("c union (b union a)", "{1,2,3,4}", 36),
        ("b union (c union a)", "{1,2,3,4}", 36),
        ("{c, b, a}", "{1,2,3}", 6),
        ("{p, a} union b", "{1,2,3}", 6),
        ("mk_(b union a, a union b)", "mk_({1,2,3},{1,2,3})", 6),
        ("mk_(b ^ a, a ^ b)", "mk_([1,2,3],[1,2,3])", 2),
        ("[d] ^ (c ^ (b ^ a))", "[1,2,3]", 6),
        ("b munion a", "{1|->1,2|->2,3|->3}", 6),
        ("c munion (b munion a)", "{1|->3,2|->2,3|->1,4|->0}", 36),
        ("{d |-> c, b |-> a}", "{1|->2,2|->1}", 2),
        ("{p |-> a} munion b", "{1|->3,2|->2,3|->1}", 3),
    ] {
        assert_eq!(every(kind::LET, text, &value(met)), bindings, "{text}");
    }
}

/// Seven members split, eight do not.
#[test]
fn seven_and_eight_members() {
    for text in ["a union b", "b union a", "a union -", "- union a"] {
        assert_eq!(every(kind::LET, text, &numbers(7)), 126);
        assert_eq!(count(text, &numbers(8)), Err(29));
    }
}
