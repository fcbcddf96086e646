//! What maps have of their own: keys with their values, and prints of whole sheets.

use super::case::run;
use super::*;
use crate::common::print_by_services;
use crate::common::written::write;
use generator::builder::{binary, unary};
use generator::Builder;

/// So many pairs {1|->11,...} as a set of tuples, which is no map.
fn tuples(count: i32) -> Value {
    set_of((1..=count).map(|n| pair(Value::Integer(n), Value::Integer(n + 10))))
}

// ---- prints

/// The print of a sheet, on which both evaluators agree.
fn printed(sheet: &Builder) -> String {
    let print = print_by_services(&sheet.table());
    assert_eq!(print, reference::print::walk_print(&sheet.table()));
    print
}

/// The same without its first line, in which the records are counted.
fn lines(sheet: &Builder) -> Vec<String> {
    let print = printed(sheet);
    print.lines().skip(1).map(str::to_string).collect()
}

/// let P = V in a body.
fn let_in(text: &str, value: &Value, body: impl FnOnce(&mut Builder) -> usize) -> Builder {
    let mut sheet = Builder::new();
    let operands = [
        pattern(text).write(&mut sheet),
        write(&mut sheet, value, &[]),
        body(&mut sheet),
    ];
    sheet.node(kind::LET, &operands);
    sheet
}

/// let P = V in mk_(a,b,..).
fn let_names(text: &str, with: &str, names: u8) -> Builder {
    let_in(text, &value(with), |sheet| {
        let names: Vec<usize> = (0..names).map(|name| sheet.name(name)).collect();
        sheet.node(kind::TUPLE, &names)
    })
}

/// let P = {c|->c | c in set {1,...,n} & true} in card dom a.
fn card_of_half(text: &str, count: i32) -> Builder {
    let mut sheet = Builder::new();
    let pattern = pattern(text).write(&mut sheet);
    let map = sheet.entries(2, 1, count);
    let half = sheet.name(0);
    let keys = sheet.unary(unary::DOM, half);
    let card = sheet.unary(unary::CARD, keys);
    sheet.node(kind::LET, &[pattern, map, card]);
    sheet
}

const NO_MATCH: [&str; 2] = ["- !23 no-match", "end 1"];
const SPLIT: [&str; 2] = ["- !29 split", "end 1"];

#[test]
fn prints_of_pairings() {
    assert_eq!(
        printed(&let_names("{a |-> b, c |-> d}", "{1|->2,3|->4}", 4)),
        "table 16\n0 =mk_(1,2,3,4)\n1 =mk_(3,4,1,2)\nend 2\n"
    );
    let text = "{a |-> a, b |-> c}";
    assert_eq!(
        lines(&let_names(text, "{1|->1,2|->3}", 3)),
        ["0 =mk_(1,2,3)", "end 1"]
    );
    assert_eq!(
        lines(&let_names(text, "{1|->1,2|->2}", 3)),
        ["0 =mk_(1,2,2)", "1 =mk_(2,1,1)", "end 2"]
    );
    let five = |with: &str| let_in("{|->}", &value(with), |sheet| sheet.integer(5));
    assert_eq!(lines(&five("{|->}")), ["0 =5", "end 1"]);
    assert_eq!(lines(&five("{1|->2}")), NO_MATCH);
}

#[test]
fn prints_of_splits() {
    assert_eq!(
        printed(&let_names("a munion b", "{1|->2,3|->4,5|->6}", 2)),
        "table 14
0 =mk_({1|->2},{3|->4,5|->6})
1 =mk_({1|->2,3|->4},{5|->6})
2 =mk_({1|->2,5|->6},{3|->4})
3 =mk_({3|->4},{1|->2,5|->6})
4 =mk_({3|->4,5|->6},{1|->2})
5 =mk_({5|->6},{1|->2,3|->4})
end 6
"
    );
    assert_eq!(lines(&let_names("a munion b", "{1|->2}", 2)), NO_MATCH);
    assert_eq!(lines(&let_names("a munion b", "{|->}", 2)), NO_MATCH);
    let of_seven = lines(&card_of_half("a munion -", 7));
    assert_eq!(of_seven.last().map(String::as_str), Some("end 126"));
    assert_eq!(lines(&card_of_half("a munion -", 8)), SPLIT);
}

#[test]
fn prints_of_refusals() {
    let one = |text: &str, with: &str, name| let_in(text, &value(with), |s| s.name(name));
    let wide = one("{(a union b) |-> c}", "{{1,...,8}|->0}", 2);
    assert_eq!(lines(&wide), SPLIT);
    assert_eq!(lines(&one("a munion b", "{1,2}", 0)), NO_MATCH);
    assert_eq!(lines(&one("{a |-> b}", "[1]", 0)), NO_MATCH);
    // A map enumeration has an even number of parts, and a munion two.
    for (kind, parts) in [(41, 1), (41, 3), (41, 5), (41, 7), (42, 1), (42, 3)] {
        let mut record = vec![4 + parts, 0, kind, 0];
        record.resize(usize::from(4 + parts), 0);
        assert_eq!(print_by_services(&record), "refused 4 0\n");
    }
}

/// forall {a|->b} in set {{1|->2},{3|->4}} & a < b.
#[test]
fn a_print_of_a_forall() {
    let mut sheet = Builder::new();
    let pattern = pattern("{a |-> b}").write(&mut sheet);
    let set = write(&mut sheet, &value("{{1|->2},{3|->4}}"), &[]);
    let sides = [sheet.name(0), sheet.name(1)];
    let condition = sheet.binary(binary::LESS, sides[0], sides[1]);
    sheet.node(kind::FORALL, &[pattern, set, condition]);
    assert_eq!(lines(&sheet), ["- =true", "end 1"]);
}

/// A let with either is a choice, with one binding too, so it may not stand in a condition.
#[test]
fn lets_in_conditions() {
    for text in [
        "a munion b",
        "{a |-> b}",
        "{|->}",
        "mk_(a, {|->})",
        "[mk_(b munion -, a)]",
    ] {
        let mut sheet = Builder::new();
        let (over, set) = (sheet.p_name(9), sheet.range(1, 0));
        let operands = [
            pattern(text).write(&mut sheet),
            sheet.integer(1),
            sheet.boolean(true),
        ];
        let condition = sheet.node(kind::LET, &operands);
        sheet.node(kind::FORALL, &[over, set, condition]);
        assert_eq!(
            printed(&sheet),
            format!("refused 8 {condition}\n"),
            "{text}"
        );
    }
}

// ---- munion

/// Of n entries each is a half in n ways, taken by its key, its value or both.
#[test]
fn an_entry_and_the_others() {
    for (units, ways) in [0, 0, 2, 3, 4, 5, 6, 7].into_iter().enumerate() {
        for text in [
            "{a |-> b} munion c",
            "a munion {b |-> c}",
            "{a |-> -} munion -",
            "{- |-> a} munion -",
        ] {
            assert_eq!(count(text, &entries(units as i32)), Ok(ways), "{text}");
        }
    }
    let map = entries(3);
    assert_eq!(
        count("{a |-> d} munion ({b |-> e} munion {c |-> f})", &map),
        Ok(6)
    );
    assert_eq!(count("{1 |-> 12} munion a", &map), Ok(0));
    assert_eq!(count("{2 |-> 12} munion a", &map), Ok(1));
    assert_eq!(count("{- |-> 12} munion a", &map), Ok(1));
}

/// The bindings in their order, each with its values in rising name number.
#[test]
fn entries_in_order() {
    for (text, with, expected) in [
        ("a munion -", "{1|->4,2|->3}", &["{1|->4}", "{2|->3}"][..]),
        ("{- |-> a} munion -", "{1|->4,2|->3}", &["3", "4"]),
        (
            "{a |-> b, c |-> d}",
            "{1|->4,2|->3}",
            &["1 4 2 3", "2 3 1 4"],
        ),
        (
            "{b |-> a, d |-> c}",
            "{1|->4,2|->3}",
            &["3 2 4 1", "4 1 3 2"],
        ),
        (
            "b munion a",
            "{1|->4,2|->3,3|->1}",
            &[
                "{1|->4} {2|->3,3|->1}",
                "{1|->4,2|->3} {3|->1}",
                "{1|->4,3|->1} {2|->3}",
                "{2|->3} {1|->4,3|->1}",
                "{2|->3,3|->1} {1|->4}",
                "{3|->1} {1|->4,2|->3}",
            ],
        ),
        (
            "{a munion b |-> -} munion c",
            "{1|->1,{2|->2,3|->3}|->4}",
            &["{2|->2} {3|->3} {1|->1}", "{3|->3} {2|->2} {1|->1}"],
        ),
    ] {
        assert_eq!(shown(text, with), expected, "{text} and {with}");
    }
}

/// Entries are counted, not keys and values; no half of a map is a set.
#[test]
fn entries_are_counted() {
    for units in 0..=8 {
        for text in ["{} munion a", "{a} munion b"] {
            let due = if units < 8 { Ok(0) } else { Err(29) };
            assert_eq!(count(text, &entries(units)), due, "{text} {units}");
        }
    }
    for units in 4..=7 {
        assert!(count("a munion (- munion -)", &entries(units)).is_ok());
    }
}

/// Maps in sets, and maps as the values of maps.
#[test]
fn munions_under_other_patterns() {
    for (text, with) in [
        (
            "{0, a munion b}",
            (|v| set_of([v, value("0")])) as fn(Value) -> Value,
        ),
        ("{a munion b} union c", |v| set_of([v, value("0")])),
        ("{a munion b |-> c}", |v| {
            Value::Map([(v, value("0"))].into())
        }),
        ("{c |-> a munion b}", |v| {
            Value::Map([(value("0"), v)].into())
        }),
        ("c munion {1 |-> a munion b}", |v| {
            Value::Map([(value("1"), v), (value("0"), value("0"))].into())
        }),
    ] {
        assert_eq!(count(text, &with(entries(7))), Ok(126), "{text}");
        assert_eq!(count(text, &with(entries(8))), Err(29), "{text}");
        assert_eq!(count(text, &with(tuples(8))), Ok(0), "{text}");
        let over = |units: [i32; 3]| {
            let members = units.map(|units| with(entries(units)));
            count_over(text, &set_of(members))
        };
        // None, 2 + 6, and 29 whatever the others have.
        assert_eq!(over([1, 2, 3]), Ok(8), "{text}");
        assert_eq!(over([0, 1, 2]), Ok(2), "{text}");
        assert_eq!(over([0, 2, 9]), Err(29), "{text}");
    }
}

/// All parts are tried where kind and count fit, whatever becomes of the others: keys and values too.
#[test]
fn too_many_beside_a_part_that_does_not_match() {
    for (text, with) in [
        ("{a union b |-> 1}", "{{1,...,8}|->0}"),
        ("{1 |-> a union b}", "{0|->{1,...,8}}"),
        ("{1 |-> -, a union b |-> -}", "{0|->0,{1,...,8}|->0}"),
        ("{c |-> c, a union b |-> -}", "{0|->1,{1,...,8}|->0}"),
        ("{a union b |-> -} munion {|->}", "{0|->0,{1,...,8}|->0}"),
        ("{- |-> a union b} munion 1", "{0|->0,1|->{1,...,8}}"),
        (
            "({a union b |-> -} munion -) munion -",
            "{0|->0,1|->1,{1,...,8}|->0}",
        ),
        ("{{a union b} |-> -}", "{{{1,...,8}}|->0}"),
        ("{{1 |-> a union b} |-> -}", "{{0|->{1,...,8}}|->0}"),
        ("{{- |-> a union b}, 1}", "{0,{0|->{1,...,8}}}"),
    ] {
        assert_eq!(count(text, &value(with)), Err(29), "{text} and {with}");
    }
    // Among members of which another matches, and after one that has no match.
    for (text, with) in [
        ("{1 |-> a union b}", "{{1|->{1,2}},{2|->{1,...,8}}}"),
        ("{a union b |-> 3}", "{{0|->3},{{1,...,8}|->2}}"),
    ] {
        assert_eq!(count_over(text, &value(with)), Err(29), "{text} and {with}");
    }
}

/// Where kind or count do not fit, no part is tried; nor is a key as a value.
#[test]
fn too_many_that_no_part_meets() {
    for (text, with, bindings) in [
        ("{a union b |-> c}", "{0|->{1,...,8}}", 0),
        ("{c |-> a union b}", "{{1,...,8}|->0}", 0),
        ("{a union b |-> c}", "{0|->0,{1,...,8}|->0}", 0),
        ("{a union b |-> -, c |-> -}", "{{1,...,8}|->0}", 0),
        ("{a union b, c}", "{{1,...,8}|->0}", 0),
        ("[a union b, c]", "{{1,...,8}|->0}", 0),
        ("mk_(a union b, c)", "{{1,...,8}|->0}", 0),
        // Of one entry there is no split, so the halves meet nothing.
        ("{a union b |-> c} munion -", "{{1,...,8}|->0}", 0),
        (
            "({a union b |-> -} munion -) munion -",
            "{0|->0,{1,...,8}|->0}",
            0,
        ),
        ("{a |-> b}", "{{1,...,8}|->{1,...,8}}", 1),
    ] {
        assert_eq!(count(text, &value(with)), Ok(bindings), "{text} and {with}");
    }
}

// ---- map enumeration

#[test]
fn pairings_of_entries_with_one_binding_count_once() {
    let map = entries(4);
    for (text, bindings) in [
        ("{- |-> a, - |-> -, - |-> -, - |-> -}", 4),
        ("{- |-> -, a |-> -, - |-> -, - |-> b}", 12),
        ("{a |-> b, - |-> -, - |-> -, - |-> -}", 4),
        ("{1 |-> a, b |-> -, - |-> 14, - |-> -}", 2),
        ("{1 |-> 11, 2 |-> 12, 3 |-> 13, 4 |-> 14}", 1),
        ("{1 |-> 12, 2 |-> 11, 3 |-> 13, 4 |-> 14}", 0),
        ("{a |-> a, - |-> -, - |-> -, - |-> -}", 0),
        ("{true |-> a, - |-> -, - |-> -, - |-> -}", 0),
    ] {
        assert_eq!(count(text, &map), Ok(bindings), "{text}");
    }
    // Equal values are not equal entries.
    let same = value("{1|->5,2|->5,3|->5}");
    assert_eq!(count("{- |-> a, - |-> b, - |-> c}", &same), Ok(1));
    assert_eq!(count("{a |-> b, - |-> b, - |-> b}", &same), Ok(3));
    assert_eq!(count("{- |-> a} munion {- |-> a, - |-> b}", &same), Ok(1));
    assert_eq!(count("a munion {- |-> 5}", &same), Ok(3));
}

/// A name that stands twice, in keys and values of one pattern or of several.
#[test]
fn names_that_stand_twice_in_keys_and_values() {
    for (text, with, bindings) in [
        ("{a |-> a}", "{1|->1}", 1),
        ("{a |-> a}", "{1|->2}", 0),
        ("{a |-> a}", "{{1}|->[1]}", 0),
        ("{a |-> b, c |-> b}", "{1|->5,2|->5}", 2),
        ("{a |-> b, c |-> b}", "{1|->5,2|->6}", 0),
        ("{a |-> b, b |-> c}", "{1|->2,2|->3}", 1),
        ("{a |-> b, b |-> a}", "{1|->2,2|->1}", 2),
        ("{a |-> b, b |-> a}", "{1|->2,2|->3}", 0),
        ("{a |-> -, a |-> -}", "{1|->2,2|->1}", 0),
        ("{a |-> b, b |-> c, c |-> a}", "{1|->2,2|->3,3|->1}", 3),
        ("{a |-> {a |-> b}}", "{1|->{1|->7}}", 1),
        ("{a |-> {a |-> b}}", "{1|->{2|->7}}", 0),
        ("{a |-> b} munion {b |-> c}", "{1|->2,2|->3}", 1),
        ("{a |-> a} munion b", "{1|->1,2|->3,4|->4}", 2),
        ("{1 |-> a} munion a", "{1|->{2|->3},2|->3}", 1),
        ("{1 |-> a} munion a", "{1|->{2|->4},2|->3}", 0),
        ("mk_(a munion b, a)", "mk_({1|->1,2|->2},{1|->1})", 1),
        ("mk_(a munion b, a)", "mk_({1|->1,2|->2},{1|->2})", 0),
        (
            "mk_({a |-> b, - |-> -}, [a,b])",
            "mk_({1|->5,2|->6},[2,6])",
            1,
        ),
        (
            "mk_({a |-> b, - |-> -}, [a,b])",
            "mk_({1|->5,2|->6},[2,5])",
            0,
        ),
        ("mk_({a} union b, {a |-> b})", "mk_({1,2,3},{2|->{1,3}})", 1),
    ] {
        assert_eq!(count(text, &value(with)), Ok(bindings), "{text} and {with}");
    }
    let maps = value("{{1|->1},{1|->2},{2|->2},{[]|->[]}}");
    assert_eq!(count_over("{a |-> a}", &maps), Ok(3));
    assert_eq!(count_over("{a |-> b}", &maps), Ok(4));
    assert_eq!(count_over("{a |-> -}", &maps), Ok(3));
}

/// A map is none of the other collections, even where its keys and values are as many as their items.
#[test]
fn maps_and_other_collections() {
    let texts = ["{a, b}", "{a, b, c, d}", "[a, b]", "[a, b, c, d]"];
    let others = [
        "mk_(a, b)",
        "mk_(a, b, c, d)",
        "a union b",
        "a ^ b",
        "{}",
        "[]",
    ];
    for text in texts.into_iter().chain(others) {
        for units in [0, 1, 2, 4, 8] {
            assert_eq!(count(text, &entries(units)), Ok(0), "{text} {units}");
        }
    }
    let four = "{a |-> b, c |-> d, e |-> f, g |-> h}";
    for text in [
        "{a |-> b}",
        "{a |-> b, c |-> d}",
        "{|->}",
        four,
        "a munion b",
    ] {
        for with in [
            "{1,2}",
            "{mk_(1,2),mk_(3,4)}",
            "[1,2]",
            "mk_(1,2)",
            "{}",
            "[]",
        ] {
            assert_eq!(count(text, &value(with)), Ok(0), "{text} and {with}");
        }
        for with in [numbers(8), tuples(4), tuples(8), items(16)] {
            assert_eq!(count(text, &with), Ok(0), "{text} and {with}");
        }
    }
}

// ---- limits

/// Counts of distinct bindings near 255.
#[test]
fn bindings_of_maps_at_the_limit() {
    // n entries have n splits whose second half is one of them: 5 × 51 and 4 × 64.
    let text = "mk_(b munion {- |-> a}, c ^ -)";
    assert_eq!(count(text, &pair(entries(5), items(50))), Ok(255));
    assert_eq!(count(text, &pair(entries(4), items(63))), Err(30));
    // 24 pairings and 6 splits, and 24 and 14.
    let text = "mk_({a |-> b, c |-> d, e |-> f, g |-> h}, i munion -)";
    assert_eq!(count(text, &pair(entries(4), entries(3))), Ok(24 * 6));
    assert_eq!(count(text, &pair(entries(4), entries(4))), Err(30));
    // A map that a set offers: 126, 62 and 62, and then 30 more.
    let moved = |from: i32, units: i32| {
        let entry = |n| (Value::Integer(n), Value::Integer(0));
        Value::Map((from..from + units).map(entry).collect())
    };
    let maps = |last| set_of([moved(1, 7), moved(11, 6), moved(21, 6), moved(31, last)]);
    let over = |last| compare(kind::LET_BE, &pattern("a munion b"), &maps(last));
    assert_eq!(over(2).map(|found| found.len()), Ok(252));
    assert_eq!(over(3).map(|found| found.len()), Err(30));
}

/// Every one of the 126 halves of seven entries, and of 24 pairings of four.
#[test]
fn all_bindings_of_seven_and_of_four_entries() {
    for kind in [kind::LET_BE, kind::FORALL, kind::EXISTS1] {
        let tried = |text, map| {
            let found = compare(kind, &pattern(text), &set_of([map]));
            found.map(|found| found.len())
        };
        assert_eq!(tried("a munion -", entries(7)), Ok(126));
        let text = "{a |-> b, c |-> d, e |-> f, g |-> h}";
        assert_eq!(tried(text, entries(4)), Ok(24));
    }
}

/// A map enumeration as high as a table allows, over a value as deep.
#[test]
fn deep_patterns_over_maps() {
    for depth in [1, 10, 30] {
        let text = (0..depth).fold(Pattern::Name(2), |part, _| {
            Pattern::Map(vec![Pattern::Integer(1), part])
        });
        let map = |depth| {
            (0..depth).fold(value("5"), |value, _| {
                Value::Map([(Value::Integer(1), value)].into())
            })
        };
        let by_let = |value| compare(kind::LET, &text, &value).map(|found| found.len());
        assert_eq!(by_let(map(depth)), Ok(1));
        assert_eq!(by_let(map(depth - 1)), Ok(0));
    }
}

/// A value of 512 bytes, whose halves and entries are taken from it.
#[test]
fn maps_of_512_bytes() {
    // Seven entries of 64 bytes, 8 for the key and 56 for the value.
    let long = |n| (Value::Integer(n), Value::Sequence(vec![value("{}"); 13]));
    let map = Value::Map((1..=7).map(long).collect());
    let whole = pair(map.clone(), items(13));
    assert_eq!(whole.size(), Value::MAX_SIZE);
    let text = pattern("mk_(a munion b, c)");
    assert_eq!(
        compare(kind::LET, &text, &whole).map(|found| found.len()),
        Ok(126)
    );
    assert_eq!(count("{7 |-> a} munion b", &map), Ok(1));
    let sheet = let_in("a munion {7 |-> b}", &map, |sheet| sheet.name(0));
    let half = Value::Map((1..=6).map(long).collect());
    assert_eq!(run(&sheet.table(), &[0]), Ok(half));
}
