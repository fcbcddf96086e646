//! The generated tables are what they are meant to be, as the reference judges them.

use generator::{accepted, at_limits, damaged, deepest, widest};
use reference::check::{accept, check};
use reference::eval::run;
use reference::print::walk_print;
use reference::table::{Record, Table};
use reference::walk::first;

#[test]
fn accepted_sheets_are_accepted() {
    for seed in 0..4000 {
        if let Err(refusal) = check(&accepted(seed)) {
            panic!("seed {seed}: {refusal:?}");
        }
    }
}

#[test]
fn damaged_tables_break_the_rule_that_is_meant() {
    for seed in 0..7000 {
        let (rule, table) = damaged(seed);
        match check(&table) {
            Err(refusal) if refusal.number == u32::from(rule) => {}
            other => panic!("seed {seed}: {other:?}, not {rule}"),
        }
    }
}

/// What the prints of many sheets hold.
#[derive(Default, Debug)]
struct Tally {
    sheets: usize,
    with_choices: usize,
    with_several_lists: usize,
    over_500_lists: usize,
    lists: usize,
    values: usize,
    refusals: [usize; 32],
}

impl Tally {
    fn add(&mut self, print: &str) {
        let lists: Vec<&str> = print.lines().skip(1).collect();
        let lists = &lists[..lists.len() - 1];
        self.sheets += 1;
        self.with_choices += usize::from(!lists[0].starts_with('-'));
        self.with_several_lists += usize::from(lists.len() > 1);
        self.over_500_lists += usize::from(lists.len() > 500);
        for list in lists {
            self.lists += 1;
            match list.split_once('!') {
                None => self.values += 1,
                Some((_, refusal)) => self.refusals[number(refusal)] += 1,
            }
        }
    }
}

fn number(refusal: &str) -> usize {
    let digits = refusal.split(' ').next().unwrap_or_default();
    digits.parse().expect("a refusal's number")
}

fn tally(seeds: impl Iterator<Item = u64>) -> Tally {
    let mut tally = Tally::default();
    for seed in seeds {
        tally.add(&walk_print(&accepted(seed)));
    }
    tally
}

#[test]
fn most_sheets_evaluate_and_many_choose() {
    let tame = tally((0..1200).filter(|seed| seed % 4 != 3));
    assert!(tame.values * 2 > tame.lists, "{tame:?}");
    assert!(tame.refusals[20] * 100 < tame.lists, "{tame:?}");
    assert!(tame.with_choices * 4 > tame.sheets, "{tame:?}");
    assert!(tame.with_several_lists * 5 > tame.sheets, "{tame:?}");
    assert!(tame.over_500_lists * 50 < tame.sheets, "{tame:?}");
}

/// Whether a pattern of a table is of a sort.
type Sought = fn(&Table, usize) -> bool;

/// Whether a pattern is a map enumeration with a name that stands in it twice.
fn is_map_with_repeated_name(table: &Table, pattern: usize) -> bool {
    let Record::MapPattern(parts) = table.record(pattern) else {
        return false;
    };
    let name = |part: &usize| match table.record(*part) {
        Record::NamePattern(name) => Some(*name),
        _ => None,
    };
    let names: Vec<u8> = parts.iter().filter_map(name).collect();
    (1..names.len()).any(|at| names[..at].contains(&names[at]))
}

/// How many of the sheets that are a let with such a pattern have a match, and how many have none.
fn matched(seeds: u64, is_sought: Sought) -> (usize, usize) {
    let (mut matched, mut unmatched) = (0, 0);
    for seed in 0..seeds {
        let table = accept(&accepted(seed)).expect("an accepted table");
        let Record::Let { pattern, .. } = table.record(table.last()) else {
            continue;
        };
        if !is_sought(&table, *pattern) {
            continue;
        }
        let end = run(&table, &first(&table));
        match (end.number, end.place == table.last()) {
            (23, true) => unmatched += 1,
            _ => matched += 1,
        }
    }
    (matched, unmatched)
}

#[test]
fn splits_and_pairings_match_often_but_not_always() {
    let sought: [(&str, Sought, usize); 4] = [
        (
            "unions",
            |table, pattern| matches!(table.record(pattern), Record::UnionPattern(..)),
            3,
        ),
        (
            "munions",
            |table, pattern| matches!(table.record(pattern), Record::MunionPattern(..)),
            3,
        ),
        (
            "maps",
            |table, pattern| matches!(table.record(pattern), Record::MapPattern(_)),
            3,
        ),
        ("maps with a repeated name", is_map_with_repeated_name, 0),
    ];
    for (what, is_sought, times) in sought {
        let (matched, unmatched) = matched(20_000, is_sought);
        assert!(
            matched > times * unmatched,
            "{what}: {matched}, {unmatched}"
        );
        assert!(
            matched.min(unmatched) > 10,
            "{what}: {matched}, {unmatched}"
        );
    }
}

#[test]
fn every_refusal_of_a_run_occurs() {
    let wild = tally((0..3000).filter(|seed| seed % 4 == 3));
    for refusal in 20..=29 {
        assert!(wild.refusals[refusal] > 0, "{refusal}: {wild:?}");
    }
}

/// The last two lines of the print at each limit.
const AT_LIMITS: &[(&str, &str)] = &[
    ("set range of 64", "- !28 large\nend 1"),
    ("set range of the widest", "- !28 large\nend 1"),
    ("set of 513 bytes", "- !28 large\nend 1"),
    ("sequence of 513 bytes", "- !28 large\nend 1"),
    ("map of 513 bytes", "- !28 large\nend 1"),
    ("tuple of 513 bytes", "- !28 large\nend 1"),
    ("no member under a union pattern", "- !23 no-match\nend 1"),
    ("1 member under a union pattern", "- !23 no-match\nend 1"),
    ("2 members under a union pattern", "0 =1\n1 =1\nend 2"),
    ("7 members under a union pattern", "125 =1\nend 126"),
    ("8 members under a union pattern", "- !29 split\nend 1"),
    ("126 × 2 bindings of two unions", "251 =mk_(1,1)\nend 252"),
    ("30 × 14 bindings of two unions", "- !30 bindings\nend 1"),
    ("no entry under a munion pattern", "- !23 no-match\nend 1"),
    ("1 entry under a munion pattern", "- !23 no-match\nend 1"),
    ("2 entries under a munion pattern", "0 =1\n1 =1\nend 2"),
    ("7 entries under a munion pattern", "125 =1\nend 126"),
    ("8 entries under a munion pattern", "- !29 split\nend 1"),
    ("126 × 2 bindings of two munions", "251 =mk_(1,1)\nend 252"),
    ("30 × 14 bindings of two munions", "- !30 bindings\nend 1"),
    (
        "5 × 51 bindings of a munion and a concatenation",
        "254 =mk_(5,50)\nend 255",
    ),
    (
        "4 × 64 bindings of a munion and a concatenation",
        "- !30 bindings\nend 1",
    ),
    (
        "5 × 51 bindings of a union and a concatenation",
        "254 =mk_(5,50)\nend 255",
    ),
    (
        "4 × 64 bindings of a union and a concatenation",
        "- !30 bindings\nend 1",
    ),
    ("quote 0", "- =<0>\nend 1"),
    ("quote 65535", "- =<65535>\nend 1"),
    ("set of 85 quotes", "- !28 large\nend 1"),
    ("84 bindings of quotes", "83 =<63993>\nend 84"),
    ("height 32", "- =-5\nend 1"),
    ("height 33", "refused 9 32"),
    ("200 records", "- =-100\nend 1"),
    ("201 records", "refused 5 200"),
    ("2400 bytes", "refused 6 0"),
    ("2401 bytes", "refused 3 0"),
    ("255 bindings of a let", "254 =mk_(50,4)\nend 255"),
    ("256 bindings of a let", "- !30 bindings\nend 1"),
    ("255 bindings of a let-be", "254 =mk_(50,4)\nend 255"),
    ("256 bindings of a let-be", "- !30 bindings\nend 1"),
    ("255 bindings of a forall", "- =true\nend 1"),
    ("256 bindings of a forall", "- !30 bindings\nend 1"),
    ("255 bindings of an exists", "- =false\nend 1"),
    ("256 bindings of an exists", "- !30 bindings\nend 1"),
    ("255 bindings of an exists1", "- =true\nend 1"),
    ("256 bindings of an exists1", "- !30 bindings\nend 1"),
    (
        "256 bindings of a set comprehension",
        "- !30 bindings\nend 1",
    ),
    (
        "255 bindings of a map comprehension",
        "- ={0|->0,1|->0,2|->0,3|->0,4|->0}\nend 1",
    ),
    (
        "256 bindings of a map comprehension",
        "- !30 bindings\nend 1",
    ),
];

/// Limits whose value is long: the print has one list, and that list a value.
const ONE_VALUE: &[&str] = &[
    "set range of 63",
    "set of 512 bytes",
    "sequence of 512 bytes",
    "map of 512 bytes",
    "tuple of 512 bytes",
    "set of 84 quotes",
    "255 bindings of a set comprehension",
];

#[test]
fn sheets_at_the_limits() {
    for (label, table) in at_limits() {
        let print = walk_print(&table);
        if let Some((_, expected)) = AT_LIMITS.iter().find(|(other, _)| *other == label) {
            assert!(
                print.ends_with(&format!("{expected}\n")),
                "{label}: {print}"
            );
        } else if ONE_VALUE.contains(&label) {
            assert!(
                print.contains("\n- =") && print.ends_with("\nend 1\n"),
                "{label}: {print}"
            );
        } else {
            assert_eq!(print, choices(label), "{label}");
        }
    }
}

/// 64 choices, of which the last has two bindings, and 65, which no list completes to a value.
fn choices(label: &str) -> String {
    let zeros = vec!["0"; 63].join(",");
    match label {
        "64 choices" => format!("table 22\n{zeros},0 =64\n{zeros},1 =65\nend 2\n"),
        "65 choices" => format!("table 30\n{zeros},0 !31 choices\nend 1\n"),
        _ => panic!("nothing is expected of {label}"),
    }
}

/// Each deep sheet is accepted, ends in values and is 31 or 32 high.
#[test]
fn deep_sheets_are_accepted_and_end_in_values() {
    for (label, table) in deepest() {
        let print = walk_print(&table);
        assert!(print.starts_with("table "), "{label}: {print}");
        assert!(!print.contains('!'), "{label}: {print}");
        assert!(is_high(&table), "{label}");
    }
}

/// The sheets of the most patterns are accepted, and their pattern has one binding.
#[test]
fn wide_sheets_have_one_binding() {
    for (label, table) in widest() {
        let print = walk_print(&table);
        assert!(print.ends_with("\n0 =5\nend 1\n"), "{label}: {print}");
        let records = check(&table).expect("an accepted table");
        assert!(records >= 130, "{label}: {records} records");
    }
}

/// Whether two more minuses make a table too high.
fn is_high(table: &[u8]) -> bool {
    let records = check(table).expect("an accepted table") as u8;
    let minuses = [6, 0, 4, 0, 2, records - 1, 6, 0, 4, 0, 2, records];
    let higher = check(&[table, &minuses].concat());
    higher.is_err_and(|refusal| refusal.number == 9)
}
