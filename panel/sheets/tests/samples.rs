//! The worked examples and the sample sheets, through the linked services.

mod common;

use common::{print_by_services, samples};
use sheets::{List, Sheet};

/// The table of a sample.
fn table(name: &str) -> Vec<u8> {
    let sample = samples().into_iter().find(|(other, _, _)| other == name);
    sample.expect("a sample of this name").1
}

/// What the lists of a sample end in, in the order of the walk.
fn outcomes(name: &str) -> Vec<String> {
    let mut sheet = Sheet::check(&table(name)).expect("an accepted table");
    let outcomes = sheet.walk().map(|(_, outcome)| match outcome {
        Ok(value) => value.to_string(),
        Err(refusal) => refusal.number().to_string(),
    });
    outcomes.collect()
}

#[test]
fn every_sample_gives_its_print() {
    let samples = samples();
    assert!(samples.len() >= 62);
    for (name, table, expected) in samples {
        assert_eq!(print_by_services(&table), expected, "{name}");
    }
}

#[test]
fn the_worked_print() {
    let table = table("worked-print");
    assert!(table.ends_with(&[0x08, 0x00, 0x0D, 0x00, 0x00, 0x03, 0x06, 0x09]));
    assert_eq!(print_by_services(&table), "table 11\n0 =2\n1 =4\nend 2\n");
}

#[test]
fn division_remainder_and_modulus() {
    assert_eq!(outcomes("div-negative"), ["-3"]);
    assert_eq!(outcomes("rem-negative"), ["-1"]);
    assert_eq!(outcomes("mod-negative"), ["1"]);
    assert_eq!(outcomes("mod-negative-divisor"), ["-1"]);
}

#[test]
fn the_least_integer_by_minus_one() {
    assert_eq!(outcomes("least-div-minus-one"), ["21"]);
    assert_eq!(outcomes("least-rem-minus-one"), ["0"]);
}

#[test]
fn set_ranges() {
    let mut both = common::Both::new();
    assert_eq!(both.evaluate(&table("range-63"), &[]).number, 0);
    assert_eq!(both.result()[..2], 508_u16.to_le_bytes());
    assert_eq!(outcomes("range-64"), ["28"]);
    assert_eq!(outcomes("range-empty"), ["{}"]);
}

#[test]
fn unions_of_two_sets() {
    assert_eq!(outcomes("united-512-bytes"), ["64"]);
    assert_eq!(outcomes("united-513-bytes"), ["28"]);
    assert_eq!(outcomes("united-64-integers"), ["28"]);
    assert_eq!(outcomes("united-70-integers"), ["28"]);
    assert_eq!(outcomes("united-overlapping"), ["mk_(63,63)"]);
    assert_eq!(outcomes("united-in-order"), ["mk_({},{true,1,{},{1}})"]);
    assert_eq!(outcomes("united-left-no-set"), ["20"]);
    assert_eq!(outcomes("united-right-no-set"), ["20"]);
}

#[test]
fn and_goes_from_the_left() {
    assert_eq!(outcomes("and-settled"), ["false"]);
    assert_eq!(outcomes("and-zero"), ["22"]);
}

#[test]
fn a_set_pattern_pairs_in_every_way() {
    assert_eq!(outcomes("pair-of-members"), ["-1", "1"]);
    assert_eq!(outcomes("pair-without-match"), ["23"]);
}

#[test]
fn a_union_pattern_splits_in_every_way() {
    assert_eq!(outcomes("union-of-two"), ["1", "1"]);
    assert_eq!(outcomes("union-of-seven").len(), 126);
    assert_eq!(outcomes("union-of-eight"), ["29"]);
}

#[test]
fn neither_half_of_a_union_is_empty() {
    assert_eq!(outcomes("union-of-one"), ["23"]);
    assert_eq!(outcomes("union-with-empty"), ["23"]);
    assert_eq!(outcomes("union-of-three").len(), 6);
    assert_eq!(outcomes("union-within"), ["23"]);
    assert_eq!(outcomes("union-within-split"), ["29"]);
    assert_eq!(outcomes("sequence-split").len(), 4);
}

#[test]
fn patterns_over_maps() {
    assert_eq!(
        outcomes("pair-of-entries"),
        ["mk_(1,2,3,4)", "mk_(3,4,1,2)"]
    );
    assert_eq!(outcomes("munion-split").len(), 6);
    assert_eq!(outcomes("munion-of-one"), ["23"]);
    assert_eq!(outcomes("munion-of-seven").len(), 126);
    assert_eq!(outcomes("munion-of-eight"), ["29"]);
    assert_eq!(outcomes("union-in-a-key"), ["29"]);
}

#[test]
fn quotes() {
    assert_eq!(outcomes("quotes-in-order"), ["{true,{},mk_(1,1),<1>,<2>}"]);
    assert_eq!(outcomes("quote-ends"), ["[<65535>,<0>]"]);
    assert_eq!(outcomes("quote-as-a-key"), ["{<0>|->1}"]);
    assert_eq!(outcomes("quote-in-a-pattern"), ["2"]);
    assert_eq!(outcomes("quote-matched"), ["5"]);
    assert_eq!(outcomes("quote-not-matched"), ["23"]);
    assert_eq!(outcomes("quote-and-integer"), ["mk_(true,false,true,2)"]);
    assert_eq!(outcomes("quotes-not-compared"), ["20"]);
    assert_eq!(outcomes("quotes-chosen"), ["{}", "mk_(1,2)", "<1>"]);
    assert_eq!(
        outcomes("quotes-shared-out"),
        ["{7|-><1>,8|-><2>}", "{7|-><2>,8|-><1>}"]
    );
    let refusal = Sheet::check(&table("quote-pattern-alone")).unwrap_err();
    assert_eq!((refusal.number(), refusal.place()), (6, 0));
}

/// Quotes as bytes: any two of them, in a record of exactly six.
#[test]
fn bytes_of_quotes() {
    for (table, print) in [
        (&[6, 0, 22, 0, 255, 255][..], "table 1\n- =<65535>\nend 1\n"),
        (&[6, 0, 22, 0, 0, 0], "table 1\n- =<0>\nend 1\n"),
        (&[6, 0, 22, 0, 1, 2], "table 1\n- =<513>\nend 1\n"),
        (&[5, 0, 22, 0, 1], "refused 4 0\n"),
        (&[7, 0, 22, 0, 1, 0, 0], "refused 4 0\n"),
        (&[5, 0, 43, 0, 1], "refused 4 0\n"),
        (&[7, 0, 43, 0, 1, 0, 0], "refused 4 0\n"),
        (&[6, 0, 23, 0, 0, 0], "refused 4 0\n"),
        (&[6, 0, 44, 0, 0, 0], "refused 4 0\n"),
        (&[6, 0, 22, 1, 0, 0], "refused 4 0\n"),
        (&[6, 0, 43, 0, 0, 0], "refused 6 0\n"),
    ] {
        assert_eq!(print_by_services(table), print, "{table:?}");
    }
}

#[test]
fn let_bes_without_a_binding_and_with_an_undefined_condition() {
    assert_eq!(outcomes("let-be-empty"), ["24"]);
    assert_eq!(outcomes("let-be-zero"), ["22"]);
}

#[test]
fn one_key_once_or_with_two_values() {
    assert_eq!(outcomes("map-one-entry"), ["{1|->2}"]);
    assert_eq!(outcomes("map-clash"), ["27"]);
}

#[test]
fn heights_32_and_33() {
    assert_eq!(outcomes("height-32"), ["-5"]);
    let refusal = Sheet::check(&table("height-33")).unwrap_err();
    assert_eq!((refusal.number(), refusal.place()), (9, 32));
}

/// Two splits with one binding count once.
#[test]
fn choices_are_numbered_by_bindings() {
    assert_eq!(outcomes("pairings-counted-once"), ["1", "2", "3"]);
}

#[test]
fn lists_that_are_not_complete() {
    let mut sheet = Sheet::check(&table("worked-print")).expect("an accepted table");
    for (list, number, count) in [
        (List::EMPTY, 32, 2),
        (List::from([2]), 33, 2),
        (List::from([0, 0]), 34, 0),
    ] {
        let refusal = sheet.evaluate(&list).unwrap_err();
        assert_eq!((refusal.number(), refusal.count()), (number, count));
        assert_eq!(refusal.place(), 10);
        assert_eq!(sheet.walk_from(&list).unwrap_err(), refusal);
    }
}
