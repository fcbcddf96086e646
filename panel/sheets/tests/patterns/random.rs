//! Random patterns and values. A value is made from the pattern, its names filled in, so that it mostly
//! matches; then it may be damaged. Each sort of case is counted.

use super::case::Case;
use super::maker::{Collection, Maker};
use super::*;
use reference::answer::WIDE_SPLIT;
use std::collections::{BTreeMap, BTreeSet};

/// The most ways of a case times its bindings: all are gone over for each binding that is shown. Trees of unions and munions have more of them.
const MOST_STEPS: usize = 2_000;
const MOST_STEPS_OF_TREES: usize = 20_000;

/// How many cases of each sort were compared.
#[derive(Debug, Default)]
struct Tally {
    cases: usize,
    /// Left out as too large, or with too many ways.
    left_out: usize,
    unmatched: usize,
    matched: usize,
    /// With several bindings.
    several: usize,
    /// With a binding, though a name stands in the pattern twice.
    repeated: usize,
    /// With a binding, though the pattern may match in several ways.
    loose: usize,
    wide: usize,
    many: usize,
    /// All bindings compared.
    bindings: usize,
    /// Cases with a binding, by the kind of the binder and by the kinds of pattern in it.
    kinds: BTreeMap<u16, usize>,
}

impl Tally {
    /// Compares a case, unless it is too large for a table or has too many ways.
    fn compare(&mut self, case: &Case, most_steps: usize) {
        let bindings = case.expected.as_ref().map_or(0, Vec::len);
        if case.ways(most_steps) * (bindings + 1) > most_steps || !case.fits() {
            self.left_out += 1;
            return;
        }
        case.compare();
        self.cases += 1;
        match &case.expected {
            Err(WIDE_SPLIT) => self.wide += 1,
            Err(_) => self.many += 1,
            Ok(found) if found.is_empty() => self.unmatched += 1,
            Ok(found) => self.add_match(case, found.len()),
        }
    }

    fn add_match(&mut self, case: &Case, bindings: usize) {
        let parts = case.pattern.all().into_iter();
        let mut kinds: BTreeSet<u16> = parts.map(Pattern::kind).collect();
        self.loose += usize::from(case.pattern.is_loose());
        kinds.insert(case.kind);
        for kind in kinds {
            *self.kinds.entry(kind).or_default() += 1;
        }
        let names = case.pattern.names();
        let distinct: BTreeSet<&u8> = names.iter().collect();
        self.repeated += usize::from(distinct.len() < names.len());
        self.matched += 1;
        self.several += usize::from(bindings > 1);
        self.bindings += bindings;
    }

    /// Asserts that so many cases at least were matched with each kind of binder and pattern.
    fn expect_kinds(&self, kinds: impl Iterator<Item = u16>, least: usize) {
        for kind in kinds {
            let count = self.kinds.get(&kind).copied().unwrap_or(0);
            assert!(count >= least, "kind {kind}: {self:?}");
        }
    }
}

const BINDERS: [u16; 7] = {
    let [a, b, c, d, e, f] = OVER_SETS;
    [kind::LET, a, b, c, d, e, f]
};

/// Compares cases of random patterns, of which some values are damaged.
fn compare_random(seed: u64, cases: usize, once_damaged_in: usize) -> Tally {
    let mut maker = Maker::new(seed);
    let mut tally = Tally::default();
    for _ in 0..cases {
        maker.names = maker.random.pick(&[2, 4, 16, 16]);
        let height = 1 + maker.random.below(4);
        let pattern = maker.pattern(height);
        let others = maker.random.pick(&BINDERS);
        let kind = maker.random.pick(&[kind::LET, others]);
        let value = maker.offer(kind, &pattern, once_damaged_in);
        if value.size() <= Value::MAX_SIZE {
            tally.compare(&Case::new(kind, &pattern, &value), MOST_STEPS);
        }
    }
    println!("{tally:?}");
    tally
}

/// Compares cases of random trees of unions or munions over one of these numbers of names, one tree by itself or, once in so many times, two in a tuple.
fn compare_trees(of: Collection, seed: u64, names: &[usize], once_two_in: usize) -> Tally {
    let mut maker = Maker::new(seed);
    let mut tally = Tally::default();
    for _ in 0..4600 {
        maker.names = maker.random.pick(names);
        let parts = 2 + maker.random.below(4);
        let mut pattern = maker.tree(of, parts);
        if maker.random.once_in(once_two_in) {
            let parts = 2 + maker.random.below(2);
            pattern = Pattern::Tuple(vec![pattern, maker.tree(of, parts)]);
        }
        let others = maker.random.pick(&BINDERS);
        let kind = maker.random.pick(&[kind::LET, others]);
        let value = maker.offer(kind, &pattern, 6);
        if value.size() <= Value::MAX_SIZE {
            tally.compare(&Case::new(kind, &pattern, &value), MOST_STEPS_OF_TREES);
        }
    }
    println!("{tally:?}");
    tally
}

#[test]
fn values_made_from_the_pattern() {
    let tally = compare_random(501, 4000, 1_000_000);
    assert!(tally.matched > 1500, "{tally:?}");
    assert!(tally.several > 500, "{tally:?}");
    assert!(tally.repeated > 250, "{tally:?}");
    assert!(tally.loose > 700, "{tally:?}");
    assert!(tally.unmatched > 500, "{tally:?}");
    assert!(tally.wide > 50, "{tally:?}");
    assert!(tally.many > 0, "{tally:?}");
    assert!(tally.bindings > 5000, "{tally:?}");
    tally.expect_kinds(BINDERS.into_iter().chain(32..=43), 80);
}

#[test]
fn damaged_values() {
    let tally = compare_random(502, 4000, 2);
    assert!(tally.matched > 1200, "{tally:?}");
    assert!(tally.several > 400, "{tally:?}");
    assert!(tally.repeated > 150, "{tally:?}");
    assert!(tally.loose > 500, "{tally:?}");
    assert!(tally.unmatched > 900, "{tally:?}");
    assert!(tally.wide > 40, "{tally:?}");
    assert!(tally.bindings > 4000, "{tally:?}");
    tally.expect_kinds(BINDERS.into_iter().chain(32..=43), 60);
}

#[test]
fn trees_of_unions() {
    let tally = compare_trees(Collection::Set, 503, &[3, 16, 16], 3);
    assert!(tally.matched > 500, "{tally:?}");
    assert!(tally.several > 400, "{tally:?}");
    assert!(tally.repeated > 40, "{tally:?}");
    assert!(tally.unmatched > 500, "{tally:?}");
    assert!(tally.wide > 200, "{tally:?}");
    assert!(tally.many > 50, "{tally:?}");
    assert!(tally.bindings > 9000, "{tally:?}");
    tally.expect_kinds(BINDERS.into_iter(), 20);
}

#[test]
fn two_trees_of_unions_with_the_same_names() {
    let tally = compare_trees(Collection::Set, 504, &[2, 3, 4], 1);
    assert!(tally.matched > 150, "{tally:?}");
    assert!(tally.repeated > 80, "{tally:?}");
    assert!(tally.unmatched > 500, "{tally:?}");
}

#[test]
fn trees_of_munions() {
    let tally = compare_trees(Collection::Map, 505, &[3, 16, 16], 3);
    assert!(tally.matched > 400, "{tally:?}");
    assert!(tally.several > 300, "{tally:?}");
    assert!(tally.repeated > 100, "{tally:?}");
    assert!(tally.unmatched > 500, "{tally:?}");
    assert!(tally.wide > 200, "{tally:?}");
    assert!(tally.many > 50, "{tally:?}");
    assert!(tally.bindings > 6000, "{tally:?}");
    tally.expect_kinds(BINDERS.into_iter(), 15);
}

#[test]
fn two_trees_of_munions_with_the_same_names() {
    let tally = compare_trees(Collection::Map, 506, &[2, 3, 4], 1);
    assert!(tally.matched > 70, "{tally:?}");
    assert!(tally.repeated > 50, "{tally:?}");
    assert!(tally.unmatched > 500, "{tally:?}");
}
