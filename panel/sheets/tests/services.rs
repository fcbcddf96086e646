//! The four services, held to the reference: the answers and every lent byte. Together the tests make well over
//! 200,000 calls.

mod common;

use common::{bytes, samples, Both, Lending};
use generator::{accepted, at_limits, damaged, deepest, Random};
use sheets::lent::SCRATCH_SIZE;

/// Lengths around what is needed, and of a walk that are no length of a list.
const SCRATCHES: [usize; 6] = [
    0,
    1,
    SCRATCH_SIZE - 1,
    SCRATCH_SIZE,
    SCRATCH_SIZE + 1,
    70_000,
];
const RESULTS: [usize; 6] = [0, 1, 511, 512, 513, 600];
const ENTRIES: [usize; 7] = [0, 1, 2, 63, 64, 65, 100];
const LENGTHS: [usize; 12] = [
    0,
    1,
    2,
    63,
    64,
    65,
    66,
    256,
    1 << 32,
    (1 << 32) + 1,
    1 << 63,
    usize::MAX,
];

/// First list, then steps to the end, each list evaluated; the lists, unless there are more than `most`.
fn walk(both: &mut Both, table: &[u8], most: usize) -> Vec<Vec<u8>> {
    let mut lists: Vec<Vec<u8>> = Vec::new();
    let mut answer = both.first(table);
    while answer.number == 0 && lists.len() < most {
        let list = both.list();
        let ended = both.evaluate(table, &list).number;
        assert!(matches!(ended, 0 | 20..=31), "{list:?} ends in {ended}");
        assert!(lists.last().is_none_or(|last| *last < list), "{list:?}");
        lists.push(list);
        answer = both.step(table);
    }
    assert!(matches!(answer.number, 0 | 35), "{answer:?}");
    lists
}

/// Lists that are short, beyond or left over, near a complete one, and too long.
fn neighbours(list: &[u8], random: &mut Random) -> Vec<Vec<u8>> {
    let mut lists = Vec::new();
    if !list.is_empty() {
        let at = random.below(list.len());
        lists.push(list[..at].to_vec());
        for entry in [list[at].wrapping_add(1), random.next() as u8, 255] {
            let mut beyond = list.to_vec();
            beyond[at] = entry;
            lists.push(beyond);
        }
    }
    let more = bytes(random, 64 - list.len().min(64), 3);
    lists.push([list, &more[..more.len().min(1)]].concat());
    lists.push([list, &more].concat());
    lists.push([list, &more, &[0]].concat());
    lists.push([list, &[0; 200]].concat());
    lists
}

/// Evaluates under a list and steps from it; a list that no walk holds is 10.
fn evaluate_and_step(both: &mut Both, table: &[u8], list: &[u8]) {
    let evaluated = both.evaluate(table, list);
    both.set_walk(&list[..list.len().min(64)], list.len());
    let stepped = both.step(table);
    match evaluated.number {
        0 | 20..=31 => assert!(matches!(stepped.number, 0 | 35), "{stepped:?}"),
        _ => assert_eq!(stepped, evaluated),
    }
}

/// All four services on a table, under some lists.
fn call_all(both: &mut Both, table: &[u8], random: &mut Random) {
    both.check(table);
    both.first(table);
    for (length, bound) in [(0, 1), (1, 2), (3, 3), (64, 2), (65, 256)] {
        let list = bytes(random, length, bound);
        evaluate_and_step(both, table, &list);
    }
}

/// Prints the seed when a test fails.
struct Seed(u64);

impl Drop for Seed {
    fn drop(&mut self) {
        if std::thread::panicking() {
            eprintln!("seed {}", self.0);
        }
    }
}

#[test]
fn whole_walks_and_lists_near_them() {
    let mut both = Both::new();
    let (mut lists, mut longest) = (0, 0);
    for seed in (0..6_000).map(Seed) {
        let table = accepted(seed.0);
        let mut random = Random::new(seed.0);
        both.lending.start = 48 + random.below(16);
        both.check(&table);
        let walked = walk(&mut both, &table, 400);
        lists += walked.len();
        longest = longest.max(walked.len());
        let list = &walked[random.below(walked.len())];
        for neighbour in neighbours(list, &mut random) {
            evaluate_and_step(&mut both, &table, &neighbour);
        }
    }
    assert!(both.calls >= 120_000, "{} calls", both.calls);
    assert!(lists >= 20_000 && longest >= 200, "{lists}, {longest}");
}

/// Calls in random order, each on the walk as the last one left it, with refused ones among them.
#[test]
fn calls_in_random_order() {
    let mut both = Both::new();
    let mut seen = [0; 36];
    for seed in (0..1_500).map(Seed) {
        let table = accepted(10_000 + seed.0);
        let mut random = Random::new(seed.0);
        both.lending = Lending::ENOUGH;
        let length = random.pick(&LENGTHS);
        both.set_walk(&bytes(&mut random, 64, 2), length);
        for _ in 0..60 {
            seen[call_at_random(&mut both, &table, &mut random)] += 1;
        }
    }
    assert!(both.calls >= 90_000, "{} calls", both.calls);
    for number in [0, 1, 2, 10, 20, 22, 23, 24, 25, 26, 27, 28, 32, 33, 34, 35] {
        assert!(seen[number] > 0, "{number}: {seen:?}");
    }
}

/// One call; the number that it answers.
fn call_at_random(both: &mut Both, table: &[u8], random: &mut Random) -> usize {
    both.lending = Lending::ENOUGH;
    let list = both.list();
    let answer = match random.below(16) {
        0 => both.check(table),
        1 | 2 => both.first(table),
        3..=7 => both.step(table),
        8 => both.evaluate(table, &list),
        9 => {
            let near = neighbours(&list, random);
            both.evaluate(table, &near[random.below(near.len())])
        }
        10 | 11 => {
            both.lending.entries = random.below(64);
            both.lending.start += random.below(64 - both.lending.entries);
            first_or_step(both, table, random)
        }
        12 | 13 => {
            both.lending.scratch = random.pick(&SCRATCHES);
            first_or_step(both, table, random)
        }
        14 => {
            both.lending.scratch = random.pick(&SCRATCHES);
            both.lending.result = random.pick(&RESULTS);
            both.evaluate(table, &list)
        }
        _ => {
            both.lending.entries = random.pick(&ENTRIES);
            first_or_step(both, table, random)
        }
    };
    usize::from(answer.number)
}

fn first_or_step(both: &mut Both, table: &[u8], random: &mut Random) -> sheets::Answer {
    if random.once_in(4) {
        both.first(table)
    } else {
        both.step(table)
    }
}

#[test]
fn damaged_tables() {
    let mut both = Both::new();
    for seed in (0..1_400).map(Seed) {
        let (rule, table) = damaged(seed.0);
        let mut random = Random::new(seed.0);
        assert_eq!(both.first(&table).number, u16::from(rule));
        call_all(&mut both, &table, &mut random);
    }
    assert!(both.calls >= 15_000, "{} calls", both.calls);
}

#[test]
fn random_tables() {
    let mut both = Both::new();
    let mut random = Random::new(1);
    for length in 0..=2_500 {
        let bound = random.pick(&[256, 45, 9]);
        let table = bytes(&mut random, length, bound);
        let list = bytes(&mut random, length % 70, 4);
        both.check(&table);
        both.first(&table);
        both.evaluate(&table, &list);
        both.set_walk(&list[..list.len().min(64)], list.len());
        both.step(&table);
    }
    assert!(both.calls >= 10_000, "{} calls", both.calls);
}

/// Accepted tables with one byte changed, many of them accepted still.
#[test]
fn changed_tables() {
    let mut both = Both::new();
    let mut random = Random::new(2);
    let mut still_accepted = 0;
    for seed in (0..400).map(Seed) {
        let table = accepted(20_000 + seed.0);
        for _ in 0..10 {
            let mut changed = table.clone();
            let at = random.below(table.len());
            let any = random.next() as u8;
            changed[at] = random.pick(&[any, table[at] ^ 1, table[at].wrapping_add(1), 0, 5]);
            if both.check(&changed).number == 0 {
                still_accepted += 1;
                walk(&mut both, &changed, 6);
            }
            let list = bytes(&mut random, 2, 2);
            evaluate_and_step(&mut both, &changed, &list);
        }
    }
    assert!(still_accepted > 400, "{still_accepted}");
}

#[test]
fn sheets_at_the_limits_and_deep_ones() {
    let mut both = Both::new();
    let mut random = Random::new(3);
    let at_limits = at_limits()
        .into_iter()
        .map(|(l, table)| (l.to_string(), table));
    for (label, table) in at_limits.chain(deepest()) {
        eprintln!("{label}");
        call_all(&mut both, &table, &mut random);
        if both.check(&table).number == 0 {
            let walked = walk(&mut both, &table, 260);
            let last = walked.last().expect("a list");
            for neighbour in neighbours(last, &mut random) {
                evaluate_and_step(&mut both, &table, &neighbour);
            }
        }
    }
}

/// Every length of every buffer, and every length of a walk.
#[test]
fn lengths_of_buffers() {
    let mut both = Both::new();
    let samples = samples().into_iter().map(|(_, table, _)| table);
    let tables = samples.take(8).chain((0..8).map(|seed| damaged(seed).1));
    for table in tables.chain((0..8).map(accepted)) {
        for scratch in SCRATCHES {
            both.lending.scratch = scratch;
            both.check(&table);
            for result in RESULTS {
                both.lending.result = result;
                for list in [&[][..], &[0], &[0; 65]] {
                    both.evaluate(&table, list);
                }
            }
            for (entries, length) in ENTRIES.iter().flat_map(|&e| LENGTHS.map(|l| (e, l))) {
                both.lending.entries = entries;
                both.set_walk(&vec![0; entries], length);
                both.step(&table);
                both.set_walk(&vec![9; entries], length);
                both.first(&table);
            }
        }
    }
    assert!(both.calls >= 20_000, "{} calls", both.calls);
}
