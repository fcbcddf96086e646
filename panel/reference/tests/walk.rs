//! The walk: first list, step and print.

mod common;
use common::binary::*;
use common::*;
use reference::answer::Answer;
use reference::check::accept;
use reference::print::walk_print;
use reference::walk::{first, step};

/// A choice among 1 to `count`, bound to a name.
fn choice(bound: u8, count: i32, body: Node) -> Node {
    let_be(p_name(bound), range(1, count), boolean(true), body)
}

#[test]
fn lists_come_in_dictionary_order() {
    // The second choice depends on the first one.
    let second = node(11, &[], &[int(1), name(0)]);
    let body = let_be(
        p_name(1),
        second,
        boolean(true),
        bin(TIMES, name(0), name(1)),
    );
    let sheet = choice(0, 3, body);
    let print = "table 15\n0,0 =1\n1,0 =2\n1,1 =4\n2,0 =3\n2,1 =6\n2,2 =9\nend 6\n";
    assert_eq!(walk_print(&sheet.table()), print);
}

#[test]
fn lists_may_differ_in_length() {
    let test = bin(EQUAL, name(0), int(2));
    let sheet = choice(
        0,
        3,
        if_(test, choice(1, 2, name(1)), bin(DIV, int(1), int(0))),
    );
    let print = "table 20\n0 !22 zero\n1,0 =1\n1,1 =2\n2 !22 zero\nend 4\n";
    assert_eq!(walk_print(&sheet.table()), print);
}

#[test]
fn a_sheet_without_choices_has_one_empty_list() {
    assert_eq!(walk_print(&int(5).table()), "table 1\n- =5\nend 1\n");
    let table = accept(&int(5).table()).expect("a table");
    assert_eq!(first(&table), []);
    assert_eq!(step(&table, &[]), Err(Answer::new(35, 0, 0)));
}

#[test]
fn every_refusal_has_its_word() {
    let of = |sheet: Node| {
        let print = walk_print(&sheet.table());
        print.lines().nth(1).expect("a line").to_string()
    };
    let t = || boolean(true);
    let many = p_tuple(&[p_union(p_name(0), p_name(1)), p_union(p_name(2), p_name(3))]);
    assert_eq!(of(un(1, int(1))), "- !20 kind");
    assert_eq!(of(un(2, int(i32::MIN))), "- !21 range");
    assert_eq!(of(undefined()), "- !22 zero");
    assert_eq!(of(let_(p_int(1), int(2), int(3))), "- !23 no-match");
    assert_eq!(of(let_be(p_any(), set(&[]), t(), t())), "- !24 no-binding");
    assert_eq!(of(iota(p_name(0), set(&[]), t())), "- !25 not-unique");
    assert_eq!(of(un(8, seq(&[]))), "- !26 absent");
    assert_eq!(of(map(&ints(&[1, 2, 1, 3]))), "- !27 clash");
    assert_eq!(of(range(1, 64)), "- !28 large");
    assert_eq!(
        of(let_(p_union(p_any(), p_any()), range(1, 8), t())),
        "- !29 split"
    );
    assert_eq!(
        of(let_(p_munion(p_any(), p_any()), entries(1, 8), t())),
        "- !29 split"
    );
    let sheet = let_(many, tuple(&[range(1, 7), range(1, 7)]), t());
    assert_eq!(of(sheet), "- !30 bindings");
    let line = of(many_choices(0));
    assert_eq!(line, format!("{} !31 choices", ["0"; 64].join(",")));
}

/// 66 choices, of which those of one index in each half are among two.
fn many_choices(index: i32) -> Node {
    let to = if_(bin(EQUAL, name(0), int(index)), int(2), int(1));
    let one = let_be(
        p_name(1),
        node(11, &[], &[int(1), to]),
        boolean(true),
        int(1),
    );
    let half = seq_comp(p_name(0), range(1, 33), boolean(true), one);
    seq(&[half.clone(), half])
}

#[test]
fn a_list_of_64_entries_that_ends_in_31_is_complete() {
    let mut print = "table 37\n".to_string();
    for (low, high) in [("0", "0"), ("0", "1"), ("1", "0"), ("1", "1")] {
        let mut list = ["0"; 64];
        (list[30], list[63]) = (low, high);
        print += &format!("{} !31 choices\n", list.join(","));
    }
    assert_eq!(walk_print(&many_choices(31).table()), print + "end 4\n");
}

#[test]
fn stepping_from_a_list_that_is_not_complete() {
    let sheet = choice(0, 3, choice(1, 2, bin(DIV, int(1), int(0))));
    let table = accept(&sheet.table()).expect("a table");
    assert_eq!(step(&table, &[]), Err(Answer::new(32, 14, 3)));
    assert_eq!(step(&table, &[1]), Err(Answer::new(32, 13, 2)));
    assert_eq!(step(&table, &[3]), Err(Answer::new(33, 14, 3)));
    assert_eq!(step(&table, &[0, 2]), Err(Answer::new(33, 13, 2)));
    assert_eq!(step(&table, &[0, 1, 0]), Err(Answer::new(34, 12, 0)));
    assert_eq!(step(&table, &[0, 1]), Ok(vec![1, 0]));
    assert_eq!(step(&table, &[2, 1]), Err(Answer::new(35, 0, 0)));
}

#[test]
fn the_print_is_cut_after_10_000_lists() {
    let of_choices = |counts: &[i32]| {
        let operands: Vec<Node> = counts
            .iter()
            .map(|&count| choice(0, count, name(0)))
            .collect();
        seq(&operands)
    };
    let print = walk_print(&of_choices(&[10, 10, 10, 10]).table());
    assert_eq!(print.lines().count(), 10_002);
    assert!(print.ends_with("\n9,9,9,9 =[10,10,10,10]\nend 10000\n"));
    let print = walk_print(&of_choices(&[10, 10, 10, 11]).table());
    assert_eq!(print.lines().count(), 10_002);
    assert!(print.ends_with("cut 10000\n"));
}
