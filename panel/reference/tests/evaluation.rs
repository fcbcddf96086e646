//! Evaluation: each refusal with its place and count, the order of work, and the operators.

mod common;
use common::binary::*;
use common::unary::*;
use common::*;

/// A set of `count` sets of one integer, of 12 bytes each, which is 4 + 12 × count bytes.
fn singletons(count: i32) -> Node {
    set_comp(p_name(9), range(1, count), boolean(true), set(&[name(9)]))
}

#[test]
fn number_10_a_long_list() {
    assert_eq!(int(1).answer(&[0; 65]), (10, 0, 0));
    assert_eq!(int(1).answer(&[0; 64]), (34, 0, 0));
    // After the rules of the table.
    assert_eq!(name(1).answer(&[0; 65]), (7, 0, 0));
}

#[test]
fn number_20_wrong_kind() {
    assert_eq!(un(NOT, int(1)).answer(&[]), (20, 1, 0));
    assert_eq!(bin(PLUS, int(1), boolean(true)).answer(&[]), (20, 2, 0));
    assert_eq!(bin(AND, int(1), undefined()).answer(&[]), (20, 6, 0));
    assert_eq!(bin(AND, boolean(true), int(1)).answer(&[]), (20, 2, 0));
    assert_eq!(bin(OR, boolean(false), int(1)).answer(&[]), (20, 2, 0));
    assert_eq!(bin(IMPLIES, boolean(true), int(1)).answer(&[]), (20, 2, 0));
    assert_eq!(
        bin(EQUIVALENT, boolean(true), int(1)).answer(&[]),
        (20, 2, 0)
    );
    assert_eq!(apply(int(1), int(1)).answer(&[]), (20, 2, 0));
    // The record that tests is the place: the if, the binder.
    assert_eq!(if_(int(1), int(2), int(3)).answer(&[]), (20, 3, 0));
    let over = || set(&[int(1)]);
    assert_eq!(
        let_be(p_name(0), over(), name(0), int(1)).answer(&[]),
        (20, 5, 0)
    );
    assert_eq!(
        let_be(p_name(0), int(1), boolean(true), int(1)).answer(&[]),
        (20, 4, 0)
    );
    assert_eq!(forall(p_name(0), over(), name(0)).answer(&[]), (20, 4, 0));
    assert_eq!(exists(p_name(0), int(1), name(0)).answer(&[]), (20, 3, 0));
    assert_eq!(exists1(p_name(0), over(), name(0)).answer(&[]), (20, 4, 0));
    assert_eq!(iota(p_name(0), over(), name(0)).answer(&[]), (20, 4, 0));
    assert_eq!(
        set_comp(p_name(0), over(), name(0), int(1)).answer(&[]),
        (20, 5, 0)
    );
    assert_eq!(
        map_comp(p_name(0), over(), name(0), int(1), int(1)).answer(&[]),
        (20, 6, 0)
    );
    // A sequence comprehension needs integers, before its conditions.
    let mixed = set(&[int(1), boolean(true)]);
    assert_eq!(
        seq_comp(p_name(0), mixed, undefined(), int(1)).answer(&[]),
        (20, 10, 0)
    );
}

#[test]
fn number_21_integer_out_of_range() {
    assert_eq!(bin(PLUS, int(i32::MAX), int(1)).answer(&[]), (21, 2, 0));
    assert_eq!(un(NEGATE, int(i32::MIN)).answer(&[]), (21, 1, 0));
    assert_eq!(un(ABS, int(i32::MIN)).answer(&[]), (21, 1, 0));
}

#[test]
fn number_22_zero_divisor() {
    for operator in [DIV, REM, MOD] {
        assert_eq!(bin(operator, int(i32::MIN), int(0)).answer(&[]), (22, 2, 0));
    }
    assert_eq!(bin(MOD, boolean(true), int(0)).answer(&[]), (20, 2, 0));
}

#[test]
fn number_23_let_without_a_match() {
    assert_eq!(let_(p_int(1), int(2), undefined()).answer(&[]), (23, 7, 0));
    assert_eq!(
        let_(p_boolean(true), int(1), int(5)).answer(&[]),
        (23, 3, 0)
    );
    let twice = p_tuple(&[p_name(0), p_name(0)]);
    assert_eq!(
        let_(twice.clone(), tuple(&ints(&[1, 2])), name(0)).answer(&[]),
        (23, 7, 0)
    );
    assert_eq!(let_(twice, tuple(&ints(&[2, 2])), name(0)).prints(), "2");
    let loose = p_set(&[p_int(1), p_any()]);
    assert_eq!(
        let_(loose, set(&ints(&[2, 3])), int(1)).answer(&[7]),
        (34, 7, 0)
    );
}

#[test]
fn number_24_no_satisfying_binding() {
    let sheet = let_be(p_name(0), range(1, 3), boolean(false), name(0));
    assert_eq!(sheet.answer(&[]), (24, 6, 0));
    // Members that do not match have no binding.
    let sheet = let_be(p_int(4), range(1, 3), undefined(), int(1));
    assert_eq!(sheet.answer(&[]), (24, 10, 0));
}

#[test]
fn number_25_iota_without_exactly_one() {
    let sheet = |at_most| {
        iota(
            p_name(0),
            range(1, 3),
            bin(LESS_OR_EQUAL, name(0), int(at_most)),
        )
    };
    assert_eq!(sheet(0).answer(&[]), (25, 7, 0));
    assert_eq!(sheet(1).prints(), "1");
    assert_eq!(sheet(2).answer(&[]), (25, 7, 0));
}

#[test]
fn number_26_absent() {
    assert_eq!(un(HD, seq(&[])).answer(&[]), (26, 1, 0));
    assert_eq!(un(TL, seq(&[])).answer(&[]), (26, 1, 0));
    assert_eq!(un(DINTER, set(&[])).answer(&[]), (26, 1, 0));
    for index in [i32::MIN, -1, 0, 3] {
        assert_eq!(
            apply(seq(&ints(&[5, 6])), int(index)).answer(&[]),
            (26, 4, 0)
        );
    }
    assert_eq!(apply(seq(&ints(&[5, 6])), int(2)).prints(), "6");
    assert_eq!(apply(map(&ints(&[5, 6])), int(6)).answer(&[]), (26, 4, 0));
    assert_eq!(apply(map(&ints(&[5, 6])), int(5)).prints(), "6");
}

#[test]
fn number_27_one_key_two_values() {
    let union = |value| bin(MUNION, map(&ints(&[1, 2])), map(&ints(&[1, value])));
    assert_eq!(union(3).answer(&[]), (27, 6, 0));
    assert_eq!(union(2).prints(), "{1|->2}");
    let sheet = |key| map_comp(p_name(0), range(1, 3), boolean(true), key, name(0));
    assert_eq!(sheet(int(1)).answer(&[]), (27, 7, 0));
    assert_eq!(sheet(name(0)).prints(), "{1|->1,2|->2,3|->3}");
    // Each entry is added before the next condition is evaluated.
    let condition = bin(OR, bin(LESS, name(0), int(3)), undefined());
    let sheet = map_comp(p_name(0), range(1, 3), condition, int(1), name(0));
    assert_eq!(sheet.answer(&[]), (27, 15, 0));
}

#[test]
fn number_28_too_large() {
    let half = || range(1, 32);
    assert_eq!(tuple(&[half(), half()]).answer(&[]), (28, 6, 0));
    assert_eq!(seq(&[half(), half()]).answer(&[]), (28, 6, 0));
    assert_eq!(
        set(&[half(), half()]).prints().len(),
        half().prints().len() + 2
    );
    assert_eq!(set(&[half(), range(2, 33)]).answer(&[]), (28, 6, 0));
    assert_eq!(bin(UNION, half(), range(33, 64)).answer(&[]), (28, 6, 0));
    assert_eq!(
        map(&[half(), half(), half(), half()]).answer(&[]),
        (28, 12, 0)
    );
    assert_eq!(
        singletons(42).under(&[]).value.expect("a value").size(),
        508
    );
    assert_eq!(singletons(43).answer(&[]), (28, 7, 0));
    // Whichever comes first among the parts in written order.
    let clash_first = map(&[int(1), int(1), int(1), int(2), half(), range(1, 63)]);
    assert_eq!(clash_first.answer(&[]), (27, 10, 0));
    let size_first = map(&[int(1), int(1), half(), half(), int(1), int(2)]);
    assert_eq!(size_first.answer(&[]), (28, 10, 0));
    // All operands are evaluated before a part is added.
    assert_eq!(
        set(&[half(), range(2, 33), undefined()]).answer(&[]),
        (22, 8, 0)
    );
    // Each element is added before the next binding's condition is evaluated.
    let condition = bin(OR, bin(LESS, name(0), int(3)), undefined());
    let element = node(11, &[], &[name(0), bin(PLUS, name(0), int(31))]);
    let sheet = set_comp(p_name(0), range(1, 3), condition, element);
    assert_eq!(sheet.answer(&[]), (28, 18, 0));
    // The most distant ends of a range.
    assert_eq!(range(i32::MIN, i32::MAX).answer(&[]), (28, 2, 0));
    assert_eq!(range(i32::MAX, i32::MIN).prints(), "{}");
    // The indices of a sequence can be larger than the sequence.
    let of_truths = |count: i32| seq_comp(p_name(0), range(1, count), boolean(true), boolean(true));
    let doubled = |count| un(INDS, bin(CONCATENATE, of_truths(count), of_truths(count)));
    assert_eq!(doubled(31).prints(), range(1, 62).prints());
    assert_eq!(doubled(32).answer(&[]), (28, 15, 0));
}

#[test]
fn number_29_a_wide_union() {
    let wide = || p_union(p_any(), p_any());
    assert_eq!(let_(wide(), range(1, 8), int(1)).answer(&[]), (29, 7, 0));
    // The binder is the place, and its conditions come later.
    let sheet = exists(wide(), set(&[int(1), range(1, 8)]), undefined());
    assert_eq!(sheet.answer(&[]), (29, 13, 0));
    // All parts are tried where kind and count fit.
    let failing = p_tuple(&[p_int(7), wide()]);
    assert_eq!(
        let_(failing.clone(), tuple(&[int(1), range(1, 8)]), int(1)).answer(&[]),
        (29, 11, 0)
    );
    let short = tuple(&[int(1), range(1, 8), int(3)]);
    assert_eq!(let_(failing, short, int(1)).answer(&[]), (23, 12, 0));
    let in_set = p_set(&[wide(), p_int(1)]);
    assert_eq!(
        let_(in_set, set(&[boolean(true), range(1, 8)]), int(1)).answer(&[]),
        (29, 11, 0)
    );
    let in_half = || p_union(p_set(&[wide()]), p_int(4));
    assert_eq!(
        let_(in_half(), set(&[int(1), range(1, 8)]), int(1)).answer(&[]),
        (29, 12, 0)
    );
    // A set of one member has no split whose halves could be tried.
    assert_eq!(
        let_(in_half(), set(&[range(1, 8)]), int(1)).answer(&[]),
        (23, 11, 0)
    );
    let deeper = || p_union(p_union(p_set(&[wide()]), p_any()), p_any());
    assert_eq!(
        let_(deeper(), set(&[int(1), range(1, 8)]), int(1)).answer(&[]),
        (23, 14, 0)
    );
    assert_eq!(
        let_(deeper(), set(&[int(1), int(2), range(1, 8)]), int(1)).answer(&[]),
        (29, 15, 0)
    );
    // A union that cannot match tells a wide set all the same.
    let empty = || p_union(p_set(&[]), p_name(0));
    assert_eq!(let_(empty(), range(1, 8), int(1)).answer(&[]), (29, 7, 0));
    assert_eq!(let_(empty(), range(1, 2), int(1)).answer(&[]), (23, 7, 0));
    let in_cut = p_conc(p_seq(&[p_any(), wide()]), p_seq(&[p_int(4)]));
    let items = seq(&[int(1), range(1, 8), int(1)]);
    assert_eq!(let_(in_cut, items, int(1)).answer(&[]), (29, 15, 0));
    // A union pattern that meets no set is not at fault, and does not look into a map.
    assert_eq!(
        let_(wide(), map(&[int(1), range(1, 8)]), int(1)).answer(&[]),
        (23, 9, 0)
    );
    // Before 30, from any member.
    let many = p_tuple(&[p_union(p_name(0), p_name(1)), p_union(p_name(2), p_name(3))]);
    let members = set(&[
        tuple(&[range(1, 7), range(1, 7)]),
        tuple(&[range(1, 8), range(1, 7)]),
    ]);
    assert_eq!(
        let_be(many, members, boolean(true), int(1)).answer(&[]),
        (29, 24, 0)
    );
}

#[test]
fn number_30_too_many_bindings() {
    let many = || p_tuple(&[p_union(p_name(0), p_name(1)), p_union(p_name(2), p_name(3))]);
    let sheet = |first, second| let_(many(), tuple(&[range(1, first), range(1, second)]), int(1));
    // 14 × 14, 126 × 2, 30 × 14 and 126 × 6.
    assert_eq!(sheet(4, 4).answer(&[]), (32, 15, 196));
    assert_eq!(sheet(7, 2).answer(&[]), (32, 15, 252));
    assert_eq!(sheet(5, 4).answer(&[]), (30, 15, 0));
    assert_eq!(sheet(7, 3).answer(&[]), (30, 15, 0));
    assert_eq!(sheet(7, 1).answer(&[]), (23, 15, 0));
    // Over all members: 126 + 126 + 2 bindings are not too many, and 126 + 126 + 2 + 2 are.
    let sheet = |to| {
        let members = set(&[range(1, 7), range(8, 14), range(15, 16), range(17, to)]);
        let_be(
            p_union(p_name(0), p_name(1)),
            members,
            boolean(true),
            int(1),
        )
    };
    assert_eq!(sheet(17).answer(&[]), (32, 18, 254));
    assert_eq!(sheet(18).answer(&[]), (30, 18, 0));
    // n members have n splits whose first half is one of them, and m items m + 1 cuts: 5 × 51 and 4 × 64.
    let sheet = |members, items| {
        let pattern = p_tuple(&[
            p_union(p_set(&[p_name(0)]), p_name(1)),
            p_conc(p_name(2), p_any()),
        ]);
        let all = seq_comp(p_name(9), range(1, items), boolean(true), boolean(true));
        let_(pattern, tuple(&[range(1, members), all]), int(1))
    };
    assert_eq!(sheet(5, 50).answer(&[]), (32, 20, 255));
    assert_eq!(sheet(4, 63).answer(&[]), (30, 20, 0));
    // A sequence of n items is cut in three in (n + 1) × (n + 2) ÷ 2 ways.
    let cuts = |items: i32| {
        let all = seq_comp(p_name(9), range(1, items), boolean(true), boolean(true));
        let three = p_conc(p_name(0), p_conc(p_name(1), p_name(2)));
        let_(three, all, int(1))
    };
    assert_eq!(cuts(21).answer(&[]), (32, 13, 253));
    assert_eq!(cuts(22).answer(&[]), (30, 13, 0));
    // Distinct bindings count, not ways: of the 126 halves of seven those of six leave the others too little.
    let sheet = let_(
        p_union(p_union(p_name(0), p_any()), p_any()),
        range(1, 7),
        int(1),
    );
    assert_eq!(sheet.answer(&[]), (32, 9, 119));
}

#[test]
fn number_31_a_65th_choice() {
    // One choice for each member of a comprehension.
    let choice = || let_be(p_name(1), range(0, 0), boolean(true), name(1));
    let inner = |count: i32| set_comp(p_name(0), range(1, count), boolean(true), choice());
    let sheet = |count| bin(PLUS, un(CARD, inner(63)), un(CARD, inner(count)));
    assert_eq!(sheet(1).prints_under(&[0; 64]), "2");
    assert_eq!(sheet(2).answer(&[0; 64]), (31, 25, 0));
    assert_eq!(sheet(2).answer(&[0; 63]), (32, 25, 1));
}

#[test]
fn numbers_32_to_34() {
    let sheet = let_be(p_name(0), range(1, 3), boolean(true), name(0));
    assert_eq!(sheet.answer(&[]), (32, 6, 3));
    assert_eq!(sheet.answer(&[3]), (33, 6, 3));
    assert_eq!(sheet.answer(&[255, 0]), (33, 6, 3));
    assert_eq!(sheet.answer(&[2, 0]), (34, 6, 0));
    assert_eq!(sheet.prints_under(&[2]), "3");
    // 34 in place of a refusal has that refusal's place.
    let sheet = bin(PLUS, int(1), bin(DIV, int(1), int(0)));
    assert_eq!(sheet.answer(&[]), (22, 3, 0));
    assert_eq!(sheet.answer(&[0]), (34, 3, 0));
    // 32 and 33 stand although entries are left.
    let sheet = set(&[
        let_be(p_name(0), range(1, 3), boolean(true), name(0)),
        let_be(p_name(0), range(1, 2), boolean(true), name(0)),
    ]);
    assert_eq!(sheet.answer(&[0]), (32, 13, 2));
    assert_eq!(sheet.answer(&[9, 0, 0]), (33, 6, 3));
    assert_eq!(sheet.prints_under(&[2, 1]), "{2,3}");
    // A choice among one binding takes an entry; a let without a loose pattern takes none.
    let sheet = let_(p_set(&[p_any()]), set(&[int(1)]), int(5));
    assert_eq!(sheet.answer(&[]), (32, 5, 1));
    assert_eq!(sheet.prints_under(&[0]), "5");
    assert_eq!(let_(p_name(0), int(1), name(0)).answer(&[0]), (34, 3, 0));
}

#[test]
fn operands_go_in_written_order_before_kinds() {
    assert_eq!(
        bin(PLUS, boolean(true), undefined()).answer(&[]),
        (22, 3, 0)
    );
    assert_eq!(bin(IN_SET, undefined(), int(1)).answer(&[]), (22, 2, 0));
    assert_eq!(apply(int(1), undefined()).answer(&[]), (22, 3, 0));
    assert_eq!(if_(boolean(true), int(1), undefined()).prints(), "1");
    assert_eq!(if_(boolean(false), undefined(), int(2)).prints(), "2");
    assert_eq!(bin(OR, boolean(true), undefined()).prints(), "true");
    assert_eq!(bin(IMPLIES, boolean(false), undefined()).prints(), "true");
    assert_eq!(
        bin(IMPLIES, boolean(true), boolean(false)).prints(),
        "false"
    );
    assert_eq!(
        bin(EQUIVALENT, boolean(false), undefined()).answer(&[]),
        (22, 3, 0)
    );
}

#[test]
fn quantifiers_stop_when_settled() {
    // 1 div (2 − a) = 1 is true at 1, undefined at 2, and false at 0.
    let condition = || bin(EQUAL, bin(DIV, int(1), bin(MINUS, int(2), name(0))), int(1));
    assert_eq!(
        forall(p_name(0), range(0, 2), condition()).prints(),
        "false"
    );
    assert_eq!(exists(p_name(0), range(0, 2), condition()).prints(), "true");
    assert_eq!(
        forall(p_name(0), range(1, 2), condition()).answer(&[]),
        (22, 8, 0)
    );
    assert_eq!(
        exists(p_name(0), range(2, 3), condition()).answer(&[]),
        (22, 8, 0)
    );
    assert_eq!(
        exists1(p_name(0), range(0, 1), condition()).prints(),
        "true"
    );
    assert_eq!(
        exists1(p_name(0), range(0, 2), condition()).answer(&[]),
        (22, 8, 0)
    );
    assert_eq!(iota(p_name(0), range(0, 1), condition()).prints(), "1");
    assert_eq!(
        iota(p_name(0), range(0, 2), condition()).answer(&[]),
        (22, 8, 0)
    );
    assert_eq!(forall(p_name(0), set(&[]), condition()).prints(), "true");
    assert_eq!(exists(p_name(0), set(&[]), condition()).prints(), "false");
    assert_eq!(exists1(p_name(0), set(&[]), condition()).prints(), "false");
    // A pattern without names has one binding however many members match.
    assert_eq!(
        exists1(p_any(), range(1, 5), boolean(true)).prints(),
        "true"
    );
}

#[test]
fn comprehensions_take_bindings_in_order() {
    let odd = || bin(EQUAL, bin(MOD, name(0), int(2)), int(1));
    let square = || bin(TIMES, name(0), name(0));
    let over = || range(-3, 3);
    assert_eq!(
        set_comp(p_name(0), over(), odd(), square()).prints(),
        "{1,9}"
    );
    assert_eq!(
        seq_comp(p_name(0), over(), odd(), square()).prints(),
        "[9,1,1,9]"
    );
    assert_eq!(
        map_comp(p_name(0), over(), odd(), name(0), square()).prints(),
        "{-3|->9,-1|->1,1|->1,3|->9}"
    );
    assert_eq!(
        seq_comp(p_name(0), set(&[]), odd(), square()).prints(),
        "[]"
    );
    assert_eq!(
        map_comp(p_name(0), set(&[]), odd(), int(1), int(1)).prints(),
        "{|->}"
    );
}

#[test]
fn evaluations_of_one_record_choose_separately() {
    let choice = let_be(
        p_name(1),
        range(1, 2),
        boolean(true),
        bin(PLUS, name(0), name(1)),
    );
    let sheet = seq_comp(p_name(0), set(&ints(&[10, 20])), boolean(true), choice);
    assert_eq!(sheet.prints_under(&[0, 0]), "[11,21]");
    assert_eq!(sheet.prints_under(&[0, 1]), "[11,22]");
    assert_eq!(sheet.prints_under(&[1, 0]), "[12,21]");
    assert_eq!(sheet.answer(&[1]), (32, 13, 2));
}

#[test]
fn operators_on_sets() {
    let one = || set(&ints(&[1, 2, 3]));
    let other = || set(&ints(&[3, 4]));
    assert_eq!(bin(UNION, one(), other()).prints(), "{1,2,3,4}");
    assert_eq!(bin(INTER, one(), other()).prints(), "{3}");
    assert_eq!(bin(DIFFERENCE, one(), other()).prints(), "{1,2}");
    assert_eq!(bin(SUBSET, one(), one()).prints(), "true");
    assert_eq!(bin(PSUBSET, one(), one()).prints(), "false");
    assert_eq!(bin(PSUBSET, set(&[int(3)]), one()).prints(), "true");
    assert_eq!(bin(SUBSET, other(), one()).prints(), "false");
    assert_eq!(bin(IN_SET, int(3), one()).prints(), "true");
    assert_eq!(bin(NOT_IN_SET, boolean(true), one()).prints(), "true");
    assert_eq!(un(CARD, one()).prints(), "3");
    assert_eq!(un(DUNION, set(&[one(), other()])).prints(), "{1,2,3,4}");
    assert_eq!(un(DINTER, set(&[one(), other()])).prints(), "{3}");
    assert_eq!(un(DUNION, set(&[])).prints(), "{}");
}

#[test]
fn operators_on_sequences() {
    let items = || seq(&ints(&[3, 1, 3]));
    assert_eq!(un(LEN, items()).prints(), "3");
    assert_eq!(un(HD, items()).prints(), "3");
    assert_eq!(un(TL, items()).prints(), "[1,3]");
    assert_eq!(un(ELEMS, items()).prints(), "{1,3}");
    assert_eq!(un(INDS, items()).prints(), "{1,2,3}");
    assert_eq!(un(INDS, seq(&[])).prints(), "{}");
    assert_eq!(un(REVERSE, seq(&ints(&[1, 2, 3]))).prints(), "[3,2,1]");
    assert_eq!(
        un(CONC, seq(&[items(), seq(&[]), items()])).prints(),
        "[3,1,3,3,1,3]"
    );
    assert_eq!(un(CONC, seq(&[])).prints(), "[]");
    assert_eq!(
        bin(CONCATENATE, items(), seq(&[int(7)])).prints(),
        "[3,1,3,7]"
    );
}

#[test]
fn operators_on_maps() {
    let one = || map(&ints(&[1, 10, 2, 20]));
    let other = || map(&ints(&[2, 10, 3, 30]));
    assert_eq!(un(DOM, one()).prints(), "{1,2}");
    assert_eq!(un(RNG, one()).prints(), "{10,20}");
    assert_eq!(
        bin(OVERRIDE, one(), other()).prints(),
        "{1|->10,2|->10,3|->30}"
    );
    assert_eq!(
        bin(MUNION, one(), map(&ints(&[3, 1]))).prints(),
        "{1|->10,2|->20,3|->1}"
    );
    assert_eq!(
        bin(DOMAIN_RESTRICTION, set(&ints(&[2, 3])), one()).prints(),
        "{2|->20}"
    );
    assert_eq!(
        bin(RANGE_RESTRICTION, one(), set(&ints(&[10, 30]))).prints(),
        "{1|->10}"
    );
    assert_eq!(bin(DOMAIN_RESTRICTION, one(), set(&[])).answer(&[]).0, 20);
    assert_eq!(bin(RANGE_RESTRICTION, set(&[]), one()).answer(&[]).0, 20);
}

#[test]
fn values_print() {
    let nested = tuple(&[map(&[]), seq(&[]), set(&[]), set(&[tuple(&ints(&[-1, 2]))])]);
    assert_eq!(nested.prints(), "mk_({|->},[],{},{mk_(-1,2)})");
    assert_eq!(
        map(&[boolean(true), boolean(false)]).prints(),
        "{true|->false}"
    );
}
