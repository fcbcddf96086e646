//! The check: every rule with its place.

mod common;
use common::*;
use reference::answer::Refusal;
use reference::check::check;

fn refused(table: &[u8], number: u32, place: usize) {
    assert_eq!(check(table), Err(Refusal::new(number, place)), "{table:?}");
}

/// Tables that differ from an accepted one in the last record.
fn last(records: &[(u16, &[u8])], kind: u16, fields: &[u8]) -> Vec<u8> {
    table_of(&[records, &[(kind, fields)]].concat())
}

const ONE: (u16, &[u8]) = (2, &[1, 0, 0, 0]);
const ANY: (u16, &[u8]) = (33, &[]);
const QUOTE: (u16, &[u8]) = (22, &[1, 2]);
const P_QUOTE: (u16, &[u8]) = (43, &[1, 2]);

#[test]
fn rule_3_the_size_of_the_table() {
    refused(&[], 3, 0);
    refused(&[0; 2401], 3, 0);
    refused(&[0; 2400], 4, 0);
}

#[test]
fn rule_4_the_form_of_records() {
    for bytes in [
        &[5][..],
        &[5, 0, 1],
        &[3, 0, 7, 0],
        &[0, 0, 0, 0],
        &[5, 0, 7, 0],
    ] {
        refused(bytes, 4, 0);
        let after_one = [table_of(&[ONE]), bytes.to_vec()].concat();
        refused(&after_one, 4, 1);
    }
    // Unknown kinds, the high byte of the kind included.
    for kind in [0, 23, 31, 44, 0x0101, 0x0107, 0x0116, 0x0129, 0x012b] {
        for fields in [&[0][..], &[0, 0]] {
            refused(&table_of(&[(kind, fields)]), 4, 0);
        }
    }
    // Unknown literals, operators and names.
    refused(&table_of(&[(1, &[2])]), 4, 0);
    refused(&table_of(&[(34, &[2])]), 4, 0);
    refused(&table_of(&[(3, &[16])]), 4, 0);
    refused(&table_of(&[(32, &[16])]), 4, 0);
    for operator in [0, 16] {
        refused(&last(&[ONE], 4, &[operator, 0]), 4, 1);
    }
    for operator in [0, 29] {
        refused(&last(&[ONE, ONE], 5, &[operator, 0, 1]), 4, 2);
    }
    // The rule goes over the whole table before the next, even past 200 records.
    let mut table = table_of(&[ANY; 300]);
    refused(&table, 5, 200);
    table.push(0);
    refused(&table, 4, 300);
}

#[test]
fn rule_4_the_lengths_of_kinds() {
    let lengths: &[(u16, &[usize])] = &[
        (1, &[5]),
        (2, &[8]),
        (3, &[5]),
        (4, &[6]),
        (5, &[7]),
        (6, &[7]),
        (7, &[4, 5, 6, 7, 8, 9, 10, 11, 12]),
        (8, &[4, 5, 6, 7, 8, 9, 10, 11, 12]),
        (9, &[4, 6, 8, 10, 12]),
        (10, &[6, 7, 8]),
        (11, &[6]),
        (12, &[7]),
        (13, &[8]),
        (14, &[7]),
        (15, &[7]),
        (16, &[7]),
        (17, &[7]),
        (18, &[8]),
        (19, &[8]),
        (20, &[9]),
        (21, &[6]),
        (22, &[6]),
        (32, &[5]),
        (33, &[4]),
        (34, &[5]),
        (35, &[8]),
        (36, &[6, 7, 8]),
        (37, &[4, 5, 6, 7, 8]),
        (38, &[6]),
        (39, &[4, 5, 6, 7, 8]),
        (40, &[6]),
        (41, &[4, 6, 8, 10, 12]),
        (42, &[6]),
        (43, &[6]),
    ];
    for (kind, fits) in lengths {
        for length in 4..20 {
            let mut fields = vec![0; length - 4];
            if matches!(kind, 4 | 5) && !fields.is_empty() {
                fields[0] = 1;
            }
            let refusal = check(&table_of(&[(*kind, &fields)])).err();
            let has_form = refusal != Some(Refusal::new(4, 0));
            assert_eq!(
                has_form,
                fits.contains(&length),
                "kind {kind}, length {length}"
            );
        }
    }
}

#[test]
fn rule_5_the_number_of_records() {
    // A chain of 200 records passes to the rule on heights, and of 201 does not.
    let chain = |records: usize| {
        let mut table = table_of(&[ONE]);
        for record in 1..records {
            push_record(&mut table, 4, &[2, (record - 1) as u8]);
        }
        table
    };
    refused(&chain(200), 9, 32);
    refused(&chain(201), 5, 200);
}

#[test]
fn rule_6_operands() {
    // Not lower.
    refused(&last(&[ONE], 4, &[1, 1]), 6, 0);
    refused(&table_of(&[(4, &[1, 0])]), 6, 0);
    refused(&last(&[ONE], 5, &[7, 0, 1]), 6, 1);
    refused(&last(&[ONE], 5, &[7, 0, 250]), 6, 1);
    // Of the wrong sort: the record that names is at fault, and the other one is named.
    refused(&last(&[ANY], 4, &[1, 0]), 6, 1);
    refused(&last(&[ONE, ONE, ONE], 12, &[0, 1, 2]), 6, 3);
    for kind in [40, 41, 42] {
        refused(&last(&[ANY, ONE], kind, &[0, 1]), 6, 2);
        refused(&last(&[ONE, ANY], kind, &[0, 1]), 6, 2);
        refused(&last(&[ANY], kind, &[0, 0]), 6, 1);
    }
    for (kind, fields) in [(17, &[0, 1, 2][..]), (19, &[0, 1, 2, 3])] {
        for pattern in [ANY, P_QUOTE] {
            let operands = [pattern, ONE, ONE, ONE];
            let table = last(&operands[..fields.len()], kind, fields);
            refused(&table, 6, fields.len());
        }
    }
    // Named before, by a lower record or by an earlier field.
    refused(&last(&[ONE], 5, &[7, 0, 0]), 6, 1);
    refused(&table_of(&[ONE, (4, &[2, 0]), (5, &[7, 0, 1])]), 6, 2);
    // Never named.
    refused(&table_of(&[ONE, ONE]), 6, 0);
    refused(&table_of(&[ONE, ANY, (4, &[2, 0])]), 6, 1);
    // A pattern as the last.
    refused(&table_of(&[ANY]), 6, 0);
    for kind in [38, 41, 42] {
        refused(&table_of(&[ANY, ANY, (kind, &[0, 1])]), 6, 2);
    }
    refused(&table_of(&[(41, &[])]), 6, 0);
    // The lowest fault of any of these.
    refused(&table_of(&[ONE, ONE, (5, &[7, 1, 1])]), 6, 0);
}

/// A quote is an expression, and a pattern of one is none; neither has operands, whatever its bytes are.
#[test]
fn rule_6_quotes() {
    assert_eq!(check(&table_of(&[QUOTE])), Ok(1));
    let table = last(&[P_QUOTE, QUOTE, QUOTE], 12, &[0, 1, 2]);
    assert_eq!(check(&table), Ok(4));
    refused(&last(&[P_QUOTE], 4, &[1, 0]), 6, 1);
    refused(&last(&[QUOTE, ONE, ONE], 12, &[0, 1, 2]), 6, 3);
    refused(&last(&[QUOTE, ANY], 40, &[0, 1]), 6, 2);
    refused(&table_of(&[P_QUOTE]), 6, 0);
}

#[test]
fn rule_7_names() {
    refused(&name(0).table(), 7, 0);
    // The pattern covers the body, and not the value or set.
    assert_eq!(check(&let_(p_name(0), int(1), name(0)).table()), Ok(4));
    refused(&let_(p_name(0), name(0), int(1)).table(), 7, 1);
    refused(&let_(p_name(0), int(1), name(1)).table(), 7, 2);
    refused(
        &let_be(p_name(0), set(&[name(0)]), boolean(true), int(1)).table(),
        7,
        1,
    );
    let t = || boolean(true);
    assert_eq!(
        check(&let_be(p_name(0), set(&[]), name(0), name(0)).table()),
        Ok(5)
    );
    assert_eq!(check(&forall(p_name(0), set(&[]), name(0)).table()), Ok(4));
    assert_eq!(
        check(&set_comp(p_name(0), set(&[]), t(), name(0)).table()),
        Ok(5)
    );
    assert_eq!(
        check(&map_comp(p_name(0), set(&[]), t(), name(0), name(0)).table()),
        Ok(6)
    );
    // Names anywhere in a pattern bind, more than once too.
    let pattern = p_tuple(&[p_set(&[p_name(3)]), p_name(3)]);
    assert_eq!(check(&let_(pattern, int(1), name(3)).table()), Ok(7));
    let entry = || p_map(&[p_name(2), p_name(3)]);
    for bound in [2, 3] {
        let sheet = let_(entry(), int(1), name(bound));
        assert_eq!(check(&sheet.table()), Ok(6));
        let sheet = let_(p_munion(entry(), p_any()), int(1), name(bound));
        assert_eq!(check(&sheet.table()), Ok(8));
    }
    refused(&let_(entry(), int(1), name(4)).table(), 7, 4);
    refused(&let_(entry(), name(2), int(1)).table(), 7, 3);
    refused(
        &let_(p_name(3), int(1), let_(entry(), int(1), int(1))).table(),
        7,
        3,
    );
    // A pattern name that is bound around its binder; not one bound beside it.
    refused(
        &let_(p_name(0), int(1), let_(p_name(0), int(2), int(3))).table(),
        7,
        2,
    );
    let inner = forall(p_union(p_any(), p_name(0)), set(&[]), boolean(true));
    refused(&let_(p_name(0), int(1), inner.clone()).table(), 7, 3);
    assert_eq!(
        check(&let_(p_name(0), inner.clone(), int(1)).table()),
        Ok(9)
    );
    assert_eq!(
        check(&bin(binary::AND, inner.clone(), inner).table()),
        Ok(13)
    );
    // The lowest of both sorts.
    refused(
        &let_(
            p_name(0),
            int(1),
            tuple(&[name(5), let_(p_name(0), int(2), int(3))]),
        )
        .table(),
        7,
        2,
    );
}

#[test]
fn rule_8_looseness_in_a_condition() {
    let choice = || let_be(p_name(1), set(&[boolean(true)]), boolean(true), name(1));
    let loose = || let_(p_set(&[p_name(1)]), set(&[boolean(true)]), name(1));
    let definite = || {
        let_(
            p_tuple(&[p_name(1), p_any()]),
            tuple(&ints(&[1, 2])),
            boolean(true),
        )
    };
    let t = || boolean(true);
    refused(&forall(p_name(0), set(&[]), choice()).table(), 8, 7);
    refused(&forall(p_name(0), set(&[]), un(1, loose())).table(), 8, 7);
    assert_eq!(
        check(&forall(p_name(0), set(&[]), definite()).table()),
        Ok(11)
    );
    let quoted = let_(p_quote(1), quote(1), boolean(true));
    assert_eq!(check(&forall(p_name(0), set(&[]), quoted).table()), Ok(7));
    // Each kind that may match in several ways, anywhere in a pattern, with one binding too.
    for pattern in [
        p_set(&[]),
        p_union(p_any(), p_any()),
        p_conc(p_any(), p_any()),
        p_map(&[]),
        p_map(&[p_any(), p_any()]),
        p_munion(p_any(), p_any()),
    ] {
        for pattern in [pattern.clone(), p_tuple(&[p_any(), pattern])] {
            let condition = let_(pattern, int(1), boolean(true));
            let records = check(&condition.table()).expect("an accepted table");
            let sheet = forall(p_name(0), set(&[]), condition);
            refused(&sheet.table(), 8, 2 + records - 1);
        }
    }
    // In the condition of each binder, and nowhere else.
    for sheet in [
        let_be(p_name(0), set(&[]), choice(), t()),
        exists(p_name(0), set(&[]), choice()),
        exists1(p_name(0), set(&[]), choice()),
        iota(p_name(0), set(&[]), choice()),
        set_comp(p_name(0), set(&[]), choice(), t()),
        seq_comp(p_name(0), set(&[]), choice(), t()),
        map_comp(p_name(0), set(&[]), choice(), t(), t()),
    ] {
        refused(&sheet.table(), 8, 7);
    }
    for sheet in [
        let_be(p_name(0), set(&[choice()]), t(), choice()),
        set_comp(p_name(0), set(&[loose()]), t(), choice()),
        map_comp(p_name(0), set(&[]), t(), choice(), loose()),
        if_(choice(), loose(), t()),
    ] {
        assert!(check(&sheet.table()).is_ok());
    }
    // The place is the lowest let-be or loose let.
    refused(
        &forall(p_name(0), set(&[]), bin(1, choice(), loose())).table(),
        8,
        7,
    );
}

#[test]
fn rule_9_heights() {
    let nested = |leaf: Node, count: usize| (0..count).fold(leaf, |operand, _| un(2, operand));
    refused(&nested(int(1), 32).table(), 9, 32);
    refused(&nested(int(1), 60).table(), 9, 32);
    refused(&nested(quote(1), 32).table(), 9, 32);
    assert_eq!(check(&nested(quote(1), 31).table()), Ok(32));
    // Patterns count as operands.
    let pattern = |count: usize| (0..count).fold(p_any(), |part, _| p_set(&[part]));
    let sheet = |count| let_(pattern(count), int(1), int(2));
    assert_eq!(check(&sheet(30).table()), Ok(34));
    refused(&sheet(31).table(), 9, 34);
    refused(&sheet(32).table(), 9, 32);
}

#[test]
fn the_rules_go_in_order() {
    // 6 before 7, 7 before 8, 8 before 9.
    refused(&table_of(&[(3, &[0]), ONE, ONE, (5, &[7, 0, 1])]), 6, 2);
    let choice = let_be(p_name(1), set(&[]), boolean(true), name(2));
    refused(&forall(p_name(0), set(&[]), choice).table(), 7, 5);
    let deep = (0..40).fold(boolean(true), |operand, _| un(1, operand));
    let choice = let_be(p_name(1), set(&[]), boolean(true), deep);
    refused(&forall(p_name(0), set(&[]), choice).table(), 8, 46);
}
