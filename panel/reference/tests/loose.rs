//! The loose meaning.

mod common;
use common::binary::*;
use common::*;
use reference::check::accept;
use reference::loose::{outcomes, Outcome};

/// The outcomes as they print, a refusal as its number and place.
fn printed(sheet: &Node) -> Vec<String> {
    let table = accept(&sheet.table()).expect("a table");
    let print = |outcome: Outcome| match outcome {
        Ok(value) => value.to_string(),
        Err(refusal) => format!("!{} {}", refusal.number, refusal.place),
    };
    outcomes(&table).into_iter().map(print).collect()
}

fn choice(bound: u8, to: i32, body: Node) -> Node {
    let_be(p_name(bound), range(1, to), boolean(true), body)
}

#[test]
fn a_certain_sheet_has_one_outcome() {
    assert_eq!(printed(&int(1)), ["1"]);
    assert_eq!(printed(&undefined()), ["!22 2"]);
}

#[test]
fn choices_give_each_outcome_once() {
    let sheet = choice(0, 3, bin(MOD, name(0), int(2)));
    assert_eq!(printed(&sheet), ["0", "1"]);
    let sheet = let_(
        p_union(p_name(0), p_name(1)),
        range(1, 3),
        un(unary::CARD, name(0)),
    );
    assert_eq!(printed(&sheet), ["1", "2"]);
}

#[test]
fn operands_choose_apart() {
    let sheet = seq(&[choice(0, 2, name(0)), choice(0, 2, name(0))]);
    assert_eq!(printed(&sheet), ["[1,1]", "[1,2]", "[2,1]", "[2,2]"]);
    let sheet = seq_comp(p_name(1), range(1, 2), boolean(true), choice(0, 2, name(0)));
    assert_eq!(printed(&sheet), ["[1,1]", "[1,2]", "[2,1]", "[2,2]"]);
}

#[test]
fn a_refusal_ends_only_its_own_choice() {
    // 1 div (a − 1) with a among 1 to 3.
    let sheet = choice(0, 3, bin(DIV, int(1), bin(MINUS, name(0), int(1))));
    assert_eq!(printed(&sheet), ["0", "1", "!22 9"]);
    // An operand refused beside one that is not evaluated then.
    let sheet = seq(&[
        bin(DIV, int(1), choice(0, 1, int(0))),
        choice(0, 2, name(0)),
    ]);
    assert_eq!(printed(&sheet), ["!22 8"]);
    // Conditional operators evaluate the right operand only where the left does not settle it.
    let left = choice(0, 2, bin(EQUAL, name(0), int(1)));
    assert_eq!(printed(&bin(AND, left, undefined())), ["false", "!22 11"]);
}

#[test]
fn clashes_among_chosen_entries() {
    let sheet = map(&[int(1), choice(0, 2, name(0)), int(1), int(2)]);
    assert_eq!(printed(&sheet), ["{1|->2}", "!27 10"]);
}

#[test]
fn let_and_let_be_without_bindings() {
    let sheet = let_(p_set(&[p_name(0)]), choice(1, 2, set(&[name(1)])), name(0));
    assert_eq!(printed(&sheet), ["1", "2"]);
    let over = node(11, &[], &[int(2), name(1)]);
    let sheet = choice(1, 2, let_be(p_name(0), over, boolean(true), name(0)));
    assert_eq!(printed(&sheet), ["2", "!24 11"]);
    let sheet = let_(p_int(2), choice(1, 2, name(1)), int(7));
    assert_eq!(printed(&sheet), ["7", "!23 9"]);
}
