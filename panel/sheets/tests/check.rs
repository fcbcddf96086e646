//! The check, held to the reference: its answer and every lent byte.

mod common;

use common::{bytes, samples, Both};
use generator::{accepted, at_limits, damaged, Random};
use sheets::lent::SCRATCH_SIZE;

/// Compares the tables, and gives how often each number was answered.
fn compare_all(tables: impl Iterator<Item = Vec<u8>>) -> [usize; 10] {
    let mut both = Both::new();
    let mut seen = [0; 10];
    for table in tables {
        seen[usize::from(both.check(&table).number)] += 1;
    }
    seen
}

fn sample_tables() -> impl Iterator<Item = Vec<u8>> {
    samples().into_iter().map(|(_, table, _)| table)
}

#[test]
fn every_length_of_scratch() {
    let mut both = Both::new();
    let mut tables: Vec<Vec<u8>> = sample_tables().collect();
    tables.extend((0..50).map(accepted));
    tables.extend((0..50).map(|seed| damaged(seed).1));
    tables.push(Vec::new());
    for table in tables {
        for length in [0, 1, SCRATCH_SIZE - 1] {
            both.lending.scratch = length;
            assert_eq!(both.check(&table).number, 1);
        }
        for length in [SCRATCH_SIZE, SCRATCH_SIZE + 1, 70_000] {
            both.lending.scratch = length;
            assert_ne!(both.check(&table).number, 1);
        }
    }
}

#[test]
fn samples_and_limits() {
    assert!(sample_tables().count() >= 15);
    compare_all(sample_tables());
    compare_all(at_limits().into_iter().map(|(_, table)| table));
}

#[test]
fn accepted_tables() {
    let seen = compare_all((0..5000).map(accepted));
    assert_eq!(seen[0], 5000);
}

#[test]
fn damaged_tables() {
    let seen = compare_all((0..7000).map(|seed| damaged(seed).1));
    assert_eq!(seen, [0, 0, 0, 1000, 1000, 1000, 1000, 1000, 1000, 1000]);
}

#[test]
fn random_bytes() {
    let mut random = Random::new(1);
    let tables = (0..=2500).flat_map(|length| [(length, 256), (length, 45), (length, 9)]);
    compare_all(tables.map(|(length, bound)| bytes(&mut random, length, bound)));
}

/// Records of 4 bytes, so that rule 4 breaks at every place up to 599.
#[test]
fn every_place_of_rule_4() {
    let mut both = Both::new();
    for before in 0..600 {
        let mut table = [4, 0, 33, 0].repeat(before);
        table.push(0);
        let answer = both.check(&table);
        assert_eq!((answer.number, usize::from(answer.place)), (4, before));
    }
}

/// Accepted tables with one byte changed, and tables cut short.
#[test]
fn changed_tables() {
    let mut both = Both::new();
    let mut random = Random::new(2);
    let mut seen = [0; 10];
    for seed in 0..300 {
        let table = accepted(seed);
        for _ in 0..40 {
            let mut changed = table.clone();
            let at = random.below(table.len());
            let any = random.next() as u8;
            changed[at] = random.pick(&[any, table[at] ^ 1, 0, 22, 32, 37, 41, 42, 43]);
            seen[usize::from(both.check(&changed).number)] += 1;
        }
        let cut = &table[..random.below(table.len())];
        seen[usize::from(both.check(cut).number)] += 1;
    }
    for number in [0, 4, 6, 7] {
        assert!(seen[number] > 0, "{seen:?}");
    }
}

/// Every byte of a small table changed to every value.
#[test]
fn every_change_of_a_byte() {
    let table = sample_tables().min_by_key(Vec::len).expect("a sheet");
    let changes = (0..table.len()).flat_map(|at| (0..=255).map(move |byte| (at, byte)));
    compare_all(changes.map(|(at, byte)| {
        let mut changed = table.clone();
        changed[at] = byte;
        changed
    }));
}
