//! Patterns over maps: pairing with entries, splits of entries, and what is told of too many of them.

mod common;
use common::binary::*;
use common::*;
use reference::check::accept;
use reference::loose::outcomes;
use reference::print::walk_print;

/// The print of a let without its first line.
fn lines(pattern: Node, value: Node, body: Node) -> Vec<String> {
    let print = walk_print(&let_(pattern, value, body).table());
    print.lines().skip(1).map(str::to_string).collect()
}

/// The names 0, 1 and so on as a tuple.
fn names(count: u8) -> Node {
    tuple(&(0..count).map(name).collect::<Vec<_>>())
}

/// {1|->2,3|->4,...}, of keys and values.
fn of(items: &[i32]) -> Node {
    map(&ints(items))
}

const NO_MATCH: [&str; 2] = ["- !23 no-match", "end 1"];
const SPLIT: [&str; 2] = ["- !29 split", "end 1"];

#[test]
fn entries_are_paired_in_every_way() {
    let pattern = p_map(&[p_name(0), p_name(1), p_name(2), p_name(3)]);
    let sheet = let_(pattern, of(&[1, 2, 3, 4]), names(4));
    let print = "table 16\n0 =mk_(1,2,3,4)\n1 =mk_(3,4,1,2)\nend 2\n";
    assert_eq!(walk_print(&sheet.table()), print);
    // As many pairs as entries, whatever their number.
    let pairs = |count: u8| p_map(&(0..2 * count).map(p_name).collect::<Vec<_>>());
    for parts in 0..=4_u8 {
        for count in 0..=5 {
            let due = match parts {
                _ if i32::from(parts) != count => (23, 0),
                _ => (32, (1..=usize::from(parts)).product()),
            };
            let (number, _, bindings) = let_(pairs(parts), entries(1, count), int(5)).answer(&[]);
            assert_eq!((number, bindings), due, "{parts} and {count}");
        }
    }
    assert_eq!(lines(p_map(&[]), map(&[]), int(5)), ["0 =5", "end 1"]);
    assert_eq!(lines(p_map(&[]), of(&[1, 2]), int(5)), NO_MATCH);
}

#[test]
fn a_key_goes_with_its_value() {
    let pattern = || p_map(&[p_name(0), p_name(0), p_name(1), p_name(2)]);
    let over = |items: &[i32]| lines(pattern(), of(items), names(3));
    assert_eq!(over(&[1, 1, 2, 3]), ["0 =mk_(1,2,3)", "end 1"]);
    assert_eq!(
        over(&[1, 1, 2, 2]),
        ["0 =mk_(1,2,2)", "1 =mk_(2,1,1)", "end 2"]
    );
    assert_eq!(over(&[1, 2, 2, 1]), NO_MATCH);
    // One name for both values, and one for a key and the other's value.
    let values = || p_map(&[p_name(0), p_name(2), p_name(1), p_name(2)]);
    let over = |items: &[i32]| lines(values(), of(items), names(3));
    assert_eq!(
        over(&[1, 5, 2, 5]),
        ["0 =mk_(1,2,5)", "1 =mk_(2,1,5)", "end 2"]
    );
    assert_eq!(over(&[1, 5, 2, 6]), NO_MATCH);
    let crossed = || p_map(&[p_name(0), p_name(1), p_name(1), p_name(2)]);
    let over = |items: &[i32]| lines(crossed(), of(items), names(3));
    assert_eq!(over(&[1, 2, 2, 3]), ["0 =mk_(1,2,3)", "end 1"]);
    assert_eq!(over(&[1, 3, 2, 4]), NO_MATCH);
    // Literals as keys and as values.
    let pattern = || p_map(&[p_int(1), p_name(0), p_any(), p_int(7)]);
    let over = |items: &[i32]| lines(pattern(), of(items), name(0));
    assert_eq!(over(&[1, 6, 2, 7]), ["0 =6", "end 1"]);
    assert_eq!(over(&[1, 7, 2, 7]), ["0 =7", "end 1"]);
    assert_eq!(over(&[1, 7, 2, 6]), NO_MATCH);
    assert_eq!(over(&[7, 1, 2, 7]), NO_MATCH);
}

#[test]
fn munions_split_the_entries_in_every_way() {
    assert_eq!(
        lines(
            p_munion(p_any(), p_name(0)),
            of(&[1, 2, 3, 4, 5, 6]),
            name(0)
        ),
        [
            "0 ={1|->2}",
            "1 ={1|->2,3|->4}",
            "2 ={1|->2,5|->6}",
            "3 ={3|->4}",
            "4 ={3|->4,5|->6}",
            "5 ={5|->6}",
            "end 6"
        ]
    );
    assert_eq!(
        lines(p_munion(p_name(0), p_any()), of(&[1, 2]), name(0)),
        NO_MATCH
    );
    // The halves of a name are not equal, and no half is empty.
    let same = lines(p_munion(p_name(0), p_name(0)), entries(1, 4), name(0));
    assert_eq!(same, NO_MATCH);
    let empty = lines(p_munion(p_map(&[]), p_name(0)), entries(1, 4), name(0));
    assert_eq!(empty, NO_MATCH);
    // A half of entries, and a half split again.
    let entry = || p_map(&[p_name(0), p_name(1)]);
    assert_eq!(
        lines(p_munion(entry(), p_name(2)), of(&[1, 2, 3, 4]), names(3)),
        ["0 =mk_(1,2,{3|->4})", "1 =mk_(3,4,{1|->2})", "end 2"]
    );
    let three = p_munion(entry(), p_munion(p_name(2), p_any()));
    assert_eq!(let_(three, entries(1, 3), int(5)).answer(&[]).2, 6);
}

#[test]
fn seven_entries_and_eight() {
    let card = |pattern, count| {
        let body = un(unary::CARD, un(unary::DOM, name(0)));
        lines(pattern, entries(1, count), body)
    };
    let half = || p_munion(p_name(0), p_any());
    assert_eq!(card(half(), 7).last().expect("a line"), "end 126");
    assert_eq!(card(half(), 8), SPLIT);
    // Also where nothing could match, at the binder, and before 30 from any member.
    let wide = || p_munion(p_any(), p_any());
    assert_eq!(let_(wide(), entries(1, 8), int(1)).answer(&[]), (29, 12, 0));
    for pattern in [
        p_munion(p_map(&[]), p_any()),
        p_munion(p_int(1), p_set(&[])),
        p_munion(p_name(0), p_name(0)),
    ] {
        assert_eq!(lines(pattern, entries(1, 8), int(1)), SPLIT);
    }
    let many = p_munion(p_name(0), p_munion(p_name(1), p_name(2)));
    let members = |to| set(&[entries(1, 7), entries(1, to)]);
    for (to, number) in [(6, 30), (7, 30), (8, 29)] {
        let sheet = let_be(many.clone(), members(to), boolean(true), int(1));
        assert_eq!(sheet.answer(&[]).0, number);
    }
    // Entries are counted, not items: four to seven entries are eight items or more.
    for count in 4..=7 {
        let sheet = let_(half(), entries(1, count), int(1));
        assert_eq!(sheet.answer(&[]).0, 32);
    }
}

/// All parts are tried where kind and count fit: keys and values too.
#[test]
fn too_many_within_a_map() {
    let eight = || range(1, 8);
    let wide = || p_union(p_name(0), p_name(1));
    let in_key = p_map(&[wide(), p_name(2)]);
    let in_value = p_map(&[p_name(2), wide()]);
    let key = || map(&[eight(), int(0)]);
    let value = || map(&[int(0), eight()]);
    assert_eq!(lines(in_key.clone(), key(), name(2)), SPLIT);
    assert_eq!(lines(in_key.clone(), value(), name(2)), NO_MATCH);
    assert_eq!(lines(in_value.clone(), value(), name(2)), SPLIT);
    assert_eq!(lines(in_value.clone(), key(), name(2)), NO_MATCH);
    // Beside a part that does not match, in a half, and as a map within a map.
    let beside = p_map(&[wide(), p_int(1)]);
    assert_eq!(lines(beside, key(), int(1)), SPLIT);
    let two = || map(&[eight(), int(0), int(1), int(1)]);
    assert_eq!(lines(in_key.clone(), two(), int(1)), NO_MATCH);
    let half = p_munion(p_map(&[]), p_munion(in_key.clone(), p_any()));
    let three = map(&[eight(), int(0), int(1), int(1), int(2), int(2)]);
    assert_eq!(lines(half, three, int(1)), SPLIT);
    let half = || p_munion(in_key.clone(), p_any());
    assert_eq!(lines(half(), two(), int(1)), SPLIT);
    assert_eq!(lines(half(), key(), int(1)), NO_MATCH);
    let entry = p_map(&[p_any(), p_munion(p_any(), p_any())]);
    let within = |to| map(&[int(0), entries(1, to)]);
    assert_eq!(lines(entry.clone(), within(8), int(1)), SPLIT);
    assert_eq!(lines(entry, within(7), int(1)), ["0 =1", "end 1"]);
}

#[test]
fn values_of_other_kinds_do_not_match() {
    let munion = || p_munion(p_name(0), p_name(1));
    let entry = || p_map(&[p_name(0), p_name(1)]);
    let pairs = || set(&[tuple(&ints(&[1, 2])), tuple(&ints(&[3, 4]))]);
    for value in [
        set(&ints(&[1, 2])),
        seq(&[int(1)]),
        pairs(),
        tuple(&ints(&[1, 2])),
        int(1),
        boolean(true),
        range(1, 8),
    ] {
        assert_eq!(lines(munion(), value.clone(), name(0)), NO_MATCH);
        assert_eq!(lines(entry(), value.clone(), name(0)), NO_MATCH);
        assert_eq!(lines(p_map(&[]), value, int(1)), NO_MATCH);
    }
    for pattern in [
        p_union(p_name(0), p_name(1)),
        p_conc(p_name(0), p_name(1)),
        p_set(&[p_name(0), p_name(1)]),
        p_set(&[p_name(0), p_name(1), p_any(), p_any()]),
        p_seq(&[p_name(0), p_name(1), p_any(), p_any()]),
        p_tuple(&[p_name(0), p_name(1)]),
    ] {
        assert_eq!(lines(pattern.clone(), of(&[1, 2, 3, 4]), name(0)), NO_MATCH);
        assert_eq!(lines(pattern, entries(1, 8), name(0)), NO_MATCH);
    }
    assert_eq!(lines(p_map(&[]), set(&[]), int(1)), NO_MATCH);
    assert_eq!(lines(p_set(&[]), map(&[]), int(1)), NO_MATCH);
}

#[test]
fn a_let_with_either_is_a_choice_and_others_bind_over_members() {
    // With one binding too, and anywhere in the pattern.
    let one = || p_map(&[p_int(1), p_int(2)]);
    let beside = p_tuple(&[one(), p_any()]);
    let due = ["0 =5", "end 1"];
    assert_eq!(lines(one(), of(&[1, 2]), int(5)), due);
    let value = tuple(&[of(&[1, 2]), int(1)]);
    assert_eq!(lines(beside, value, int(5)), due);
    let maps = set(&[of(&[1, 2]), of(&[3, 4])]);
    let entry = || p_map(&[p_name(0), p_name(1)]);
    let less = bin(LESS, name(0), name(1));
    let sheet = forall(entry(), maps.clone(), less);
    let print = walk_print(&sheet.table());
    assert!(print.ends_with("\n- =true\nend 1\n"), "{print}");
    let sums = set_comp(entry(), maps, boolean(true), bin(PLUS, name(0), name(1)));
    assert_eq!(sums.prints(), "{3,7}");
    // The loose meaning has the outcomes of all bindings.
    let body = un(unary::CARD, un(unary::DOM, name(0)));
    let sheet = let_(p_munion(p_name(0), p_any()), entries(1, 4), body);
    let table = accept(&sheet.table()).expect("an accepted table");
    let all = outcomes(&table).into_iter().map(|o| o.expect("a value"));
    let all: Vec<String> = all.map(|value| value.to_string()).collect();
    assert_eq!(all, ["1", "2", "3"]);
}

/// Distinct bindings are counted, and 255 of them are not too many.
#[test]
fn bindings_of_maps() {
    let count = |pattern: Node, to: i32| {
        let (number, _, bindings) = let_(pattern, entries(1, to), int(1)).answer(&[]);
        (number, bindings)
    };
    let four = || p_map(&(0..8).map(p_name).collect::<Vec<_>>());
    assert_eq!(count(four(), 4), (32, 24));
    assert_eq!(count(p_map(&vec![p_any(); 8]), 4), (32, 1));
    // 24 × 6 pairings and splits, and 24 × 14.
    let both = |to| {
        let pattern = p_tuple(&[four(), p_munion(p_name(8), p_name(9))]);
        let value = tuple(&[entries(1, 4), entries(1, to)]);
        let (number, _, bindings) = let_(pattern, value, int(1)).answer(&[]);
        (number, bindings)
    };
    assert_eq!(both(3), (32, 144));
    assert_eq!(both(4), (30, 0));
}
