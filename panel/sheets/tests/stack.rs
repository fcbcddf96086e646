//! How much stack the services need: the deepest sheets and those with the most patterns run in a thread that has 64 KB of it (docs/PERFORMANCE.md says
//! which take how much).

use generator::{accepted, at_limits, deepest, widest};
use sheets::lent::{self, SCRATCH_SIZE};
use sheets::{Answer, List, Value};
use std::thread;

const STACK: usize = 65_536;
/// The most lists of a sheet that are walked.
const MOST_LISTS: usize = 40;

/// Checks, walks and evaluates; what the run under the last list ends in.
fn walk(table: &[u8], scratch: &mut [u8], result: &mut [u8]) -> Answer {
    let checked = lent::check(table, scratch);
    let (mut entries, mut length) = ([0; List::MAX_LENGTH], 0);
    let mut stepped = lent::first(table, &mut entries, &mut length, scratch);
    let mut ended = checked;
    for _ in 0..MOST_LISTS {
        if stepped.number != 0 {
            break;
        }
        ended = lent::evaluate(table, &entries[..length], scratch, result);
        stepped = lent::step(table, &mut entries, &mut length, scratch);
    }
    ended
}

/// Every call gives the same in a thread of so much stack as in this one.
fn run_in(stack: usize, tables: Vec<(String, Vec<u8>)>) {
    for (label, table) in tables {
        let (mut scratch, mut result) = (vec![1; SCRATCH_SIZE], vec![1; Value::MAX_SIZE]);
        let expected = walk(&table, &mut scratch, &mut result);
        let expected = (expected, scratch, result);
        let small = thread::Builder::new().stack_size(stack).spawn(move || {
            let (mut scratch, mut result) = (vec![1; SCRATCH_SIZE], vec![1; Value::MAX_SIZE]);
            let answer = walk(&table, &mut scratch, &mut result);
            (answer, scratch, result)
        });
        let ours = small.expect("a thread").join().expect("an end");
        assert!(ours == expected, "{label}: {:?}, {:?}", ours.0, expected.0);
    }
}

fn assert_accepted(tables: &[(String, Vec<u8>)]) {
    for (label, table) in tables {
        let answer = lent::check(table, &mut vec![0; SCRATCH_SIZE]);
        assert_eq!(answer.number, 0, "{label}: {answer:?}");
    }
}

#[test]
fn deep_sheets_run_in_64_kilobytes_of_stack() {
    let mut tables = deepest();
    assert_accepted(&tables);
    tables.extend(
        at_limits()
            .into_iter()
            .map(|(l, table)| (l.to_string(), table)),
    );
    tables.extend((0..200).map(|seed| (format!("seed {seed}"), accepted(seed))));
    run_in(STACK, tables);
}

#[test]
fn sheets_of_the_most_patterns_run_in_64_kilobytes_of_stack() {
    let tables = widest();
    assert_accepted(&tables);
    run_in(STACK, tables);
}
