//! Quotes: their order, what takes them as any value, what asks another kind, and patterns of them.

mod common;
use common::binary::*;
use common::unary::*;
use common::*;
use reference::check::accept;
use reference::loose::outcomes;
use reference::print::walk_print;

/// The print of a sheet without its first line.
fn lines(sheet: &Node) -> Vec<String> {
    let print = walk_print(&sheet.table());
    print.lines().skip(1).map(str::to_string).collect()
}

/// What a sheet without choices comes to, as its line has it.
fn line(sheet: &Node) -> String {
    let lines = lines(sheet);
    assert_eq!(lines[1..], ["end 1"]);
    lines[0].strip_prefix("- ").expect("no choice").to_string()
}

#[test]
fn a_quote_is_its_number() {
    for (number, text) in [
        (0, "=<0>"),
        (1, "=<1>"),
        (256, "=<256>"),
        (65_535, "=<65535>"),
    ] {
        assert_eq!(line(&quote(number)), text);
    }
    assert_eq!(
        walk_print(&[6, 0, 22, 0, 255, 255]),
        "table 1\n- =<65535>\nend 1\n"
    );
    assert_eq!(
        walk_print(&[6, 0, 22, 0, 1, 2]),
        "table 1\n- =<513>\nend 1\n"
    );
    assert_eq!(
        quote(513).under(&[]).value.expect("a value").encode(),
        [6, 0, 7, 0, 1, 2]
    );
    assert_eq!(walk_print(&[5, 0, 22, 0, 1]), "refused 4 0\n");
    assert_eq!(walk_print(&[7, 0, 22, 0, 1, 0, 0]), "refused 4 0\n");
    assert_eq!(walk_print(&[6, 0, 23, 0, 0, 0]), "refused 4 0\n");
    assert_eq!(walk_print(&[6, 0, 44, 0, 0, 0]), "refused 4 0\n");
    assert_eq!(walk_print(&p_quote(1).table()), "refused 6 0\n");
}

#[test]
fn quotes_come_after_tuples() {
    let members = [
        quote(2),
        quote(1),
        tuple(&ints(&[1, 1])),
        boolean(true),
        set(&[]),
    ];
    let print = "table 8\n- ={true,{},mk_(1,1),<1>,<2>}\nend 1\n";
    assert_eq!(walk_print(&set(&members).table()), print);
    let members = [65_535, 256, 1, 0, 255, 512, 257].map(quote);
    assert_eq!(
        line(&set(&members)),
        "={<0>,<1>,<255>,<256>,<257>,<512>,<65535>}"
    );
    assert_eq!(line(&seq(&[quote(65_535), quote(0)])), "=[<65535>,<0>]");
    assert_eq!(line(&map(&[quote(0), int(1)])), "={<0>|->1}");
    let entries = [quote(1), int(1), map(&[]), int(2), quote(0), quote(3)];
    assert_eq!(line(&map(&entries)), "={{|->}|->2,<0>|-><3>,<1>|->1}");
    // Bindings too.
    let members = set(&[quote(1), tuple(&ints(&[1, 2])), set(&[])]);
    let sheet = let_be(p_name(0), members, boolean(true), name(0));
    assert_eq!(lines(&sheet), ["0 ={}", "1 =mk_(1,2)", "2 =<1>", "end 3"]);
}

#[test]
fn what_takes_any_value_takes_quotes() {
    let one = || quote(1);
    assert_eq!(line(&bin(EQUAL, one(), one())), "=true");
    assert_eq!(line(&bin(EQUAL, one(), quote(2))), "=false");
    assert_eq!(line(&bin(EQUAL, one(), int(1))), "=false");
    assert_eq!(line(&bin(NOT_EQUAL, one(), int(1))), "=true");
    assert_eq!(line(&bin(NOT_EQUAL, one(), quote(257))), "=true");
    let both = || set(&[int(1), one()]);
    assert_eq!(line(&bin(IN_SET, one(), both())), "=true");
    assert_eq!(line(&bin(IN_SET, quote(2), both())), "=false");
    assert_eq!(line(&bin(NOT_IN_SET, quote(2), both())), "=true");
    assert_eq!(line(&un(CARD, set(&[one(), int(1), one()]))), "=2");
    assert_eq!(line(&un(ELEMS, seq(&[one(), one()]))), "={<1>}");
    assert_eq!(line(&apply(map(&[one(), int(5)]), one())), "=5");
    assert_eq!(line(&apply(map(&[one(), int(5)]), int(1))), "!26 absent");
    let clash = [one(), int(5), one(), int(6)];
    assert_eq!(line(&map(&clash)), "!27 clash");
    assert_eq!(line(&apply(seq(&[one()]), int(1))), "=<1>");
    let union = bin(UNION, set(&[one(), quote(3)]), set(&[quote(2), int(9)]));
    assert_eq!(line(&union), "={9,<1>,<2>,<3>}");
    assert_eq!(line(&if_(boolean(true), one(), int(2))), "=<1>");
    let sheet = set_comp(p_name(0), both(), boolean(true), tuple(&[name(0), one()]));
    assert_eq!(line(&sheet), "={mk_(1,<1>),mk_(<1>,<1>)}");
    let sheet = map_comp(p_name(0), both(), boolean(true), name(0), name(0));
    assert_eq!(line(&sheet), "={1|->1,<1>|-><1>}");
    let sheet = iota(p_name(0), both(), bin(NOT_EQUAL, name(0), int(1)));
    assert_eq!(line(&sheet), "=<1>");
}

/// Asserts that a sheet is refused with 20 at its last record.
fn assert_wrong_kind(sheet: &Node) {
    let table = accept(&sheet.table()).expect("an accepted table");
    assert_eq!(sheet.answer(&[]), (20, table.last(), 0), "{table:?}");
    assert_eq!(line(sheet), "!20 kind");
}

#[test]
fn operators_that_ask_another_kind() {
    let (one, two) = (|| quote(1), || quote(2));
    let binary = (1..=28).filter(|operator| ![EQUAL, NOT_EQUAL].contains(operator));
    let binary = binary.map(|operator| bin(operator, one(), two()));
    let unary = (1..=15).map(|operator| un(operator, one()));
    for sheet in binary.chain(unary).chain([
        bin(PLUS, one(), int(1)),
        bin(LESS, int(1), one()),
        node(kind::RANGE, &[], &[one(), two()]),
        node(kind::RANGE, &[], &[int(0), one()]),
        un(DUNION, set(&[one()])),
        un(DINTER, set(&[one()])),
        un(CONC, seq(&[one()])),
        apply(one(), int(1)),
        apply(seq(&[one()]), one()),
    ]) {
        assert_wrong_kind(&sheet);
    }
}

#[test]
fn conditions_and_sets_that_are_no_quotes() {
    let one = || quote(1);
    let over = || set(&[one()]);
    let t = || boolean(true);
    for sheet in [
        if_(one(), int(1), int(2)),
        seq_comp(p_name(0), over(), t(), name(0)),
        seq_comp(p_name(0), set(&[int(1), one()]), t(), name(0)),
        forall(p_any(), one(), t()),
        let_be(p_any(), one(), t(), t()),
        let_be(p_any(), over(), one(), t()),
        forall(p_any(), over(), one()),
        exists(p_any(), over(), one()),
        exists1(p_any(), over(), one()),
        iota(p_name(0), over(), name(0)),
        set_comp(p_any(), over(), one(), t()),
        map_comp(p_any(), over(), one(), t(), t()),
    ] {
        assert_wrong_kind(&sheet);
    }
}

#[test]
fn a_pattern_of_a_quote_matches_that_quote_alone() {
    let sheet = |value: Node| let_(p_quote(1), value, int(5));
    // No choice is met.
    assert_eq!(line(&sheet(quote(1))), "=5");
    for other in [
        quote(2),
        quote(0),
        quote(257),
        int(1),
        boolean(true),
        set(&[quote(1)]),
        seq(&[quote(1)]),
        tuple(&[quote(1), quote(1)]),
        map(&[]),
    ] {
        assert_eq!(line(&sheet(other)), "!23 no-match");
    }
    assert_eq!(line(&let_(p_int(1), quote(1), int(5))), "!23 no-match");
    assert_eq!(line(&let_(p_name(0), quote(7), name(0))), "=<7>");
    assert_eq!(line(&let_(p_any(), quote(7), int(5))), "=5");
    for pattern in [
        p_set(&[]),
        p_seq(&[]),
        p_map(&[]),
        p_union(p_any(), p_any()),
        p_munion(p_any(), p_any()),
        p_conc(p_any(), p_any()),
        p_tuple(&[p_any(), p_any()]),
    ] {
        assert_eq!(line(&let_(pattern, quote(1), int(5))), "!23 no-match");
    }
}

#[test]
fn patterns_of_quotes_within_others() {
    let pair = |number, item| tuple(&[quote(number), int(item)]);
    let pattern = || p_tuple(&[p_quote(1), p_name(0)]);
    let members = || set(&[pair(0, 1), pair(1, 2)]);
    let sheet = let_be(pattern(), members(), boolean(true), name(0));
    assert_eq!(walk_print(&sheet.table()), "table 13\n0 =2\nend 1\n");
    let sheet = set_comp(pattern(), members(), boolean(true), name(0));
    assert_eq!(line(&sheet), "={2}");
    // Keys and members by their quotes, and names for them.
    let sides = || map(&[quote(0), int(3), quote(1), int(4)]);
    let by_side = p_map(&[p_quote(1), p_name(1), p_quote(0), p_name(0)]);
    let sheet = let_(by_side, sides(), tuple(&[name(0), name(1)]));
    assert_eq!(lines(&sheet), ["0 =mk_(3,4)", "end 1"]);
    let by_item = p_map(&[p_name(0), p_int(4), p_any(), p_any()]);
    let sheet = let_(by_item, sides(), name(0));
    assert_eq!(lines(&sheet), ["0 =<1>", "end 1"]);
    let both = || set(&[quote(2), quote(1)]);
    let sheet = let_(
        p_set(&[p_name(0), p_name(1)]),
        both(),
        seq(&[name(0), name(1)]),
    );
    assert_eq!(lines(&sheet), ["0 =[<1>,<2>]", "1 =[<2>,<1>]", "end 2"]);
    let sheet = let_(p_union(p_set(&[p_quote(2)]), p_name(0)), both(), name(0));
    assert_eq!(lines(&sheet), ["0 ={<1>}", "end 1"]);
    let table = accept(&sheet.table()).expect("an accepted table");
    let all: Vec<_> = outcomes(&table).into_iter().collect();
    assert_eq!(all.len(), 1);
    assert_eq!(all[0].as_ref().expect("a value").to_string(), "{<1>}");
    // A name that stands twice, for equal and different quotes.
    let twice = || p_tuple(&[p_name(0), p_name(0)]);
    assert_eq!(
        line(&let_(twice(), tuple(&[quote(3), quote(3)]), name(0))),
        "=<3>"
    );
    let unlike = tuple(&[quote(3), int(3)]);
    assert_eq!(line(&let_(twice(), unlike, name(0))), "!23 no-match");
}

/// A quote has 6 bytes, so a set of 84 has 508 and one of 85 is too large.
#[test]
fn sets_of_many_quotes() {
    let members = |count: u16| {
        let numbers: Vec<u16> = (0..count).collect();
        let sets = numbers.chunks(8).map(|eight| {
            let eight: Vec<Node> = eight.iter().copied().map(quote).collect();
            set(&eight)
        });
        let sets: Vec<Node> = sets.collect();
        let unions = sets.chunks(8).map(|sets| un(DUNION, set(sets)));
        unions
            .reduce(|left, right| bin(UNION, left, right))
            .expect("a set")
    };
    let value = members(84).under(&[]).value.expect("a value");
    assert_eq!(value.size(), 508);
    assert_eq!(members(85).answer(&[]).0, 28);
    let sheet = let_be(p_name(0), members(84), boolean(true), name(0));
    assert_eq!(lines(&sheet).len(), 85);
    assert_eq!(sheet.prints_under(&[83]), "<83>");
}
