//! The sample sheets.

mod common;
use common::binary::*;
use common::*;
use reference::check::check;
use reference::print::walk_print;

#[test]
fn division_remainder_and_modulus() {
    assert_eq!(bin(DIV, int(-7), int(2)).prints(), "-3");
    assert_eq!(bin(REM, int(-7), int(2)).prints(), "-1");
    assert_eq!(bin(MOD, int(-7), int(2)).prints(), "1");
    assert_eq!(bin(MOD, int(7), int(-2)).prints(), "-1");
}

#[test]
fn the_least_integer_by_minus_one() {
    assert_eq!(bin(DIV, int(i32::MIN), int(-1)).answer(&[]), (21, 2, 0));
    assert_eq!(bin(REM, int(i32::MIN), int(-1)).prints(), "0");
}

#[test]
fn set_ranges() {
    let largest = range(1, 63).under(&[]).value.expect("a value");
    assert_eq!(largest.size(), 508);
    assert_eq!(range(1, 64).answer(&[]), (28, 2, 0));
    assert_eq!(range(3, 1).prints(), "{}");
}

/// Of what both sides have the union holds one, and only the finished union is judged by its size.
#[test]
fn unions_of_two_sets() {
    let union = |left, right| bin(UNION, left, right);
    let count = |left, right| un(unary::CARD, union(left, right)).prints();
    let largest = || range(1, 63);
    let full = union(largest(), set(&[set(&[])])).under(&[]).value;
    assert_eq!(full.expect("a value").size(), 512);
    assert_eq!(count(largest(), set(&[set(&[])])), "64");
    assert_eq!(count(largest(), largest()), "63");
    assert_eq!(count(range(1, 32), range(32, 63)), "63");
    let one_more = union(largest(), set(&[boolean(true)]));
    assert_eq!(one_more.answer(&[]), (28, 5, 0));
    assert_eq!(union(largest(), set(&[int(64)])).answer(&[]), (28, 5, 0));
    assert_eq!(union(range(1, 40), range(30, 70)).answer(&[]), (28, 6, 0));
    assert_eq!(union(set(&[]), set(&[])).prints(), "{}");
    let left = set(&[int(1), set(&[])]);
    let right = set(&[boolean(true), set(&[int(1)])]);
    assert_eq!(union(left, right).prints(), "{true,1,{},{1}}");
    assert_eq!(union(int(1), set(&[int(1)])).answer(&[]), (20, 3, 0));
    assert_eq!(union(set(&[int(1)]), int(1)).answer(&[]), (20, 3, 0));
}

#[test]
fn and_goes_from_the_left() {
    assert_eq!(bin(AND, boolean(false), undefined()).prints(), "false");
    assert_eq!(
        bin(AND, undefined(), boolean(false)).answer(&[]),
        (22, 2, 0)
    );
}

#[test]
fn a_set_pattern_pairs_in_every_way() {
    let pattern = p_set(&[p_name(0), p_name(1)]);
    let body = bin(MINUS, name(0), name(1));
    let sheet = let_(pattern.clone(), set(&ints(&[1, 2])), body.clone());
    assert_eq!(walk_print(&sheet.table()), "table 10\n0 =-1\n1 =1\nend 2\n");
    let sheet = let_(pattern, set(&[int(5)]), body);
    assert_eq!(sheet.answer(&[]), (23, 8, 0));
    assert_eq!(
        walk_print(&sheet.table()),
        "table 9\n- !23 no-match\nend 1\n"
    );
}

#[test]
fn a_union_pattern_splits_in_every_way() {
    let sheet = let_(
        p_union(p_name(0), p_name(1)),
        set(&ints(&[1, 2])),
        un(unary::CARD, name(0)),
    );
    let print = "table 9\n0 =1\n1 =1\nend 2\n";
    assert_eq!(walk_print(&sheet.table()), print);
}

/// The lines of a let's print after the first, with the names 0, 1 and so on as a tuple.
fn lines(pattern: Node, value: Node, names: u8) -> Vec<String> {
    let body = tuple(&(0..names).map(name).collect::<Vec<_>>());
    let print = walk_print(&let_(pattern, value, body).table());
    print.lines().skip(1).map(str::to_string).collect()
}

#[test]
fn neither_half_of_a_union_is_empty() {
    let two = || p_union(p_name(0), p_name(1));
    assert_eq!(
        lines(two(), range(1, 3), 2),
        [
            "0 =mk_({1},{2,3})",
            "1 =mk_({1,2},{3})",
            "2 =mk_({1,3},{2})",
            "3 =mk_({2},{1,3})",
            "4 =mk_({2,3},{1})",
            "5 =mk_({3},{1,2})",
            "end 6",
        ]
    );
    let refused = ["- !23 no-match", "end 1"];
    assert_eq!(lines(two(), range(1, 1), 2), refused);
    assert_eq!(lines(two(), range(1, 0), 2), refused);
    let three = || p_union(p_name(0), p_union(p_name(1), p_name(2)));
    assert_eq!(
        lines(three(), range(1, 3), 3),
        [
            "0 =mk_({1},{2},{3})",
            "1 =mk_({1},{3},{2})",
            "2 =mk_({2},{1},{3})",
            "3 =mk_({2},{3},{1})",
            "4 =mk_({3},{1},{2})",
            "5 =mk_({3},{2},{1})",
            "end 6",
        ]
    );
    assert_eq!(lines(three(), range(1, 2), 3), refused);
    // A concatenation keeps its empty parts.
    let cut = let_(p_conc(p_any(), p_name(0)), seq(&[]), name(0));
    assert_eq!(cut.prints_under(&[0]), "[]");
}

#[test]
fn let_be_without_a_binding_or_with_an_undefined_condition() {
    let sheet = let_be(p_name(0), set(&[]), boolean(true), name(0));
    assert_eq!(sheet.answer(&[]), (24, 4, 0));
    let condition = bin(EQUAL, bin(DIV, int(1), name(0)), int(1));
    let sheet = let_be(p_name(0), set(&ints(&[0, 1])), condition, name(0));
    assert_eq!(sheet.answer(&[]), (22, 6, 0));
}

#[test]
fn map_enumerations() {
    assert_eq!(map(&ints(&[1, 2, 1, 2])).prints(), "{1|->2}");
    assert_eq!(map(&ints(&[1, 2, 1, 3])).answer(&[]), (27, 4, 0));
}

#[test]
fn height_32_is_accepted_and_33_is_not() {
    let of_height = |height| (1..height).fold(int(1), |operand, _| un(unary::NEGATE, operand));
    assert_eq!(check(&of_height(32).table()), Ok(32));
    assert_eq!(of_height(32).prints(), "-1");
    assert_eq!(of_height(33).answer(&[]), (9, 32, 0));
}

#[test]
fn a_set_of_7_splits_and_one_of_8_does_not() {
    let sheet = |to| let_(p_union(p_name(0), p_name(1)), range(1, to), name(0));
    assert_eq!(sheet(7).answer(&[]), (32, 7, 126));
    assert_eq!(sheet(7).prints_under(&[0]), "{1}");
    assert_eq!(sheet(7).prints_under(&[125]), "{7}");
    assert_eq!(sheet(8).answer(&[]), (29, 7, 0));
}

/// The table of the worked print.
fn worked() -> Node {
    let condition = bin(NOT_EQUAL, name(0), int(2));
    let_be(
        p_name(0),
        range(1, 3),
        condition,
        bin(PLUS, name(0), int(1)),
    )
}

#[test]
fn the_worked_print() {
    let table = worked().table();
    assert_eq!(table[table.len() - 8..], [8, 0, 0x0D, 0, 0, 3, 6, 9]);
    assert_eq!(walk_print(&table), "table 11\n0 =2\n1 =4\nend 2\n");
}
