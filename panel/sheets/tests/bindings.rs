//! The safe bindings: sheets, walks, values and refusals.

mod common;

use generator::{accepted, damaged, Random};
use sheets::{number, List, Refusal, Sheet, Value};

#[test]
fn a_walk_goes_on_from_any_list_that_was_noted() {
    for seed in 0..150 {
        let mut sheet = Sheet::check(&accepted(seed)).expect("an accepted table");
        let all: Vec<_> = sheet.walk().take(60).collect();
        for (index, (list, _)) in all.iter().enumerate().step_by(7) {
            let text = list.to_string();
            let noted: List = text.parse().expect("a list");
            let walk = sheet.walk_from(&noted).expect("a complete list");
            assert_eq!(walk.entries(), list.entries());
            let rest: Vec<_> = walk.take(59 - index).collect();
            assert_eq!(rest, all[index + 1..]);
        }
    }
}

#[test]
fn a_walk_stays_at_the_last_list_and_goes_back_to_the_first() {
    let mut sheet = Sheet::check(&accepted(1)).expect("an accepted table");
    let count = sheet.walk().count();
    let mut walk = sheet.walk();
    assert_eq!((walk.list(), walk.entries()), (None, &[][..]));
    let mut steps = 0;
    while walk.step() {
        steps += 1;
    }
    assert_eq!(steps, count);
    let last = walk.list();
    assert!(!walk.step() && walk.next().is_none() && walk.list() == last);
    walk.first();
    assert_eq!(walk.count(), count - 1);
}

#[test]
fn refused_tables_have_their_rule_and_place() {
    for seed in 0..200 {
        let (rule, table) = damaged(seed);
        let refusal = Sheet::check(&table).unwrap_err();
        let expected = reference::check::check(&table).unwrap_err();
        assert_eq!(refusal.number(), u16::from(rule));
        assert_eq!(usize::from(refusal.place()), expected.place);
        assert_eq!((refusal.count(), refusal.word()), (0, None));
    }
}

#[test]
fn refusals_say_what_is_wrong() {
    let refusal = |table: &str, list: List| -> Refusal {
        let table = records::encode(table).expect("a table");
        Sheet::check(&table)
            .and_then(|mut sheet| sheet.evaluate(&list))
            .unwrap_err()
    };
    let choice = "p-name 0\ninteger 1\ninteger 3\nrange 1 2\nboolean true\nname 0\nlet-be 0 3 4 5";
    let text = |table: &str, list| refusal(table, list).to_string();
    assert_eq!(
        text("name 0", List::EMPTY),
        "refusal 7 at record 0: the name is not bound around the record, or it is bound around the binder of its pattern"
    );
    assert_eq!(
        text("integer 1\nnot 0", List::EMPTY),
        "refusal 20 at record 1: a value is of the wrong kind"
    );
    assert_eq!(
        text(choice, List::EMPTY),
        "refusal 32 at record 6: the list is used up before a choice (3 bindings)"
    );
    assert_eq!(
        text(choice, [1, 0].into()),
        "refusal 34 at record 6: entries are left over"
    );
    assert_eq!(
        refusal("integer 1\nnot 0", List::EMPTY).word(),
        Some("kind")
    );
    assert_eq!(refusal(choice, List::EMPTY).word(), None);
    let numbers: Vec<u16> = number::ALL.iter().map(|(number, _, _)| *number).collect();
    assert_eq!(numbers, (1..=10).chain(20..=35).collect::<Vec<u16>>());
}

/// The value of every list of many sheets, decoded, printed and ordered as the reference has it.
#[test]
fn values_are_decoded_printed_and_ordered() {
    let mut values: Vec<(Value, reference::value::Value)> = Vec::new();
    for seed in 0..600 {
        let table = accepted(seed);
        let mut sheet = Sheet::check(&table).expect("an accepted table");
        for (list, outcome) in sheet.walk().take(3) {
            let expected = reference::eval::evaluate(&table, &list);
            match (outcome, expected.value) {
                (Ok(value), Some(expected)) => {
                    assert_eq!(value.to_string(), expected.to_string());
                    assert_eq!(Value::decode(&expected.encode()).as_ref(), Some(&value));
                    values.push((value, expected));
                }
                (Err(refusal), None) => {
                    assert_eq!(u32::from(refusal.number()), expected.number);
                    assert_eq!(usize::from(refusal.place()), expected.place);
                }
                (outcome, _) => panic!("seed {seed}, {list}: {outcome:?}"),
            }
        }
    }
    assert!(values.len() > 400);
    for (left, expected_left) in &values {
        for (right, expected_right) in &values {
            assert_eq!(left.cmp(right), expected_left.cmp(expected_right));
        }
    }
}

/// Records with one byte changed or cut short are values exactly where the reference has one.
#[test]
fn bytes_that_are_no_value() {
    let mut random = Random::new(4);
    let mut decoded = [0; 2];
    for seed in 0..3_000 {
        let outcome = reference::eval::evaluate(&accepted(seed), &[]);
        let Some(mut record) = outcome.value.map(|value| value.encode()) else {
            continue;
        };
        for _ in 0..20 {
            let at = random.below(record.len());
            let before = record[at];
            record[at] = random.pick(&[before ^ 1, before.wrapping_add(1), 0, 4, 5, 8]);
            let ours = Value::decode(&record).map(|value| value.to_string());
            let expected = reference::value::Value::decode(&record).map(|value| value.to_string());
            assert_eq!(ours, expected, "{record:?}");
            decoded[usize::from(ours.is_some())] += 1;
            record[at] = before;
            assert_eq!(Value::decode(&record[..at]), None);
        }
    }
    assert!(decoded[0] > 1_000 && decoded[1] > 1_000, "{decoded:?}");
}

#[test]
fn accessors() {
    let table =
        "boolean true\ninteger 2\nset 1\ninteger 1\nquote 513\nmap 3 4\nsequence\ntuple 0 2 5 6";
    let table = records::encode(table).expect("a table");
    let value = Sheet::check(&table)
        .and_then(|mut sheet| sheet.evaluate(&List::EMPTY))
        .expect("a value");
    let [truth, set, map, sequence] = value.items().expect("a tuple") else {
        panic!("{value}");
    };
    assert_eq!(truth.as_bool(), Some(true));
    assert!(set
        .members()
        .is_some_and(|members| members.contains(&2.into())));
    let quote = map.get(&1.into()).expect("a value");
    assert_eq!((quote.as_quote(), quote.as_integer()), (Some(513), None));
    assert!(*quote > value && *quote < Value::Quote(514));
    assert_eq!(sequence.items(), Some(&[][..]));
    assert_eq!(
        (
            set.as_bool(),
            truth.as_integer(),
            map.items(),
            truth.as_quote()
        ),
        (None, None, None, None)
    );
    assert_eq!(Value::from(-3).as_integer(), Some(-3));
}

#[test]
fn lists_are_read_and_printed_as_in_the_walk_print() {
    for text in ["-", "0", "255", "0,1,2"] {
        assert_eq!(
            text.parse::<List>().map(|list| list.to_string()),
            Ok(text.into())
        );
    }
    for text in ["", "256", "1,", "-1", "a", " 1"] {
        assert!(text.parse::<List>().is_err(), "{text:?}");
    }
    let longest = [1; List::MAX_LENGTH];
    assert_eq!(List::try_from(&longest[..]).map(|list| list.len()), Ok(64));
}
