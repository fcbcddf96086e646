//! Random sheets: the walk against all complete lists, and the loose meaning against all runs.

use generator::{accepted, Random};
use reference::answer::Refusal;
use reference::check::accept;
use reference::eval::run;
use reference::loose::{outcomes, Outcome};
use reference::table::Table;
use reference::walk::{first, step, MAX_CHOICES};
use std::collections::BTreeSet;

/// Adds all complete lists that begin with the given entries, in dictionary order; false if there are
/// more than `most`.
fn complete_lists(
    table: &Table,
    list: &mut Vec<u8>,
    most: usize,
    found: &mut Vec<Vec<u8>>,
) -> bool {
    let end = run(table, list);
    if end.number != 32 {
        assert!(matches!(end.number, 0 | 20..=31));
        found.push(list.clone());
        return found.len() <= most;
    }
    // Each binding leads to a list of its own.
    found.len() + end.count <= most
        && (0..end.count).all(|entry| {
            list.push(u8::try_from(entry).expect("at most 255 bindings"));
            let are_few = complete_lists(table, list, most, found);
            list.pop();
            are_few
        })
}

/// All lists of the walk, as far as the given number.
fn walked(table: &Table, most: usize) -> Vec<Vec<u8>> {
    let mut lists = vec![first(table)];
    while let Ok(next) = step(table, &lists[lists.len() - 1]) {
        lists.push(next);
        if lists.len() > most {
            break;
        }
    }
    lists
}

fn outcome(table: &Table, list: &[u8]) -> Outcome {
    let end = run(table, list);
    end.value.ok_or(Refusal::new(end.number, end.place))
}

/// Lists near a complete one.
fn neighbours(list: &[u8], random: &mut Random) -> Vec<Vec<u8>> {
    let mut lists = Vec::new();
    if let Some(place) = list.len().checked_sub(1) {
        lists.push(list[..random.below(list.len())].to_vec());
        let mut raised = list.to_vec();
        raised[random.below(place + 1)] = random.below(256) as u8;
        lists.push(raised);
    }
    if list.len() < MAX_CHOICES {
        lists.push([list, &[random.below(3) as u8]].concat());
    }
    lists
}

/// Tries one sheet, unless it has more than `most` complete lists; whether its loose meaning was compared.
fn try_sheet(seed: u64, most: usize) -> bool {
    let table = accept(&accepted(seed)).expect("an accepted table");
    let mut lists = Vec::new();
    if !complete_lists(&table, &mut Vec::new(), most, &mut lists) {
        return false;
    }
    assert_eq!(walked(&table, lists.len()), lists);

    let mut random = Random::new(seed);
    for neighbour in neighbours(&lists[random.below(lists.len())], &mut random) {
        match step(&table, &neighbour) {
            Err(answer) if answer.number != 35 => {
                assert!(!lists.contains(&neighbour));
                assert!(matches!(answer.number, 32..=34));
                assert_eq!(answer, run(&table, &neighbour).answer());
            }
            _ => assert!(lists.contains(&neighbour)),
        }
    }

    let of_runs: BTreeSet<Outcome> = lists.iter().map(|list| outcome(&table, list)).collect();
    let meets_a_65th = of_runs
        .iter()
        .any(|o| matches!(o, Err(r) if r.number == 31));
    if !meets_a_65th {
        assert_eq!(outcomes(&table), of_runs);
    }
    !meets_a_65th
}

/// Prints the seed when a test fails.
struct Seed(u64);

impl Drop for Seed {
    fn drop(&mut self) {
        if std::thread::panicking() {
            eprintln!("seed {}", self.0);
        }
    }
}

/// Tries many sheets; how many loose meanings were compared.
fn try_sheets(seeds: std::ops::Range<u64>, most: usize) -> usize {
    let try_one = |seed: &u64| {
        let failing = Seed(*seed);
        try_sheet(failing.0, most)
    };
    seeds.filter(try_one).count()
}

#[test]
fn walks_and_loose_meanings_are_those_of_all_complete_lists() {
    let compared = try_sheets(0..21_000, 24);
    assert!(compared >= 20_000, "{compared} loose meanings");
}

#[test]
fn walks_and_loose_meanings_of_many_lists() {
    let compared = try_sheets(100_000..100_500, 1_000);
    assert!(compared >= 400, "{compared} loose meanings");
}
