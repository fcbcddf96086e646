//! Matching patterns to values: the distinct bindings of a binder, or its refusal 29 or 30.

use std::collections::{BTreeMap, BTreeSet, HashMap, HashSet};
use std::rc::Rc;

use crate::answer::{MANY_BINDINGS, WIDE_SPLIT};
use crate::operators::Tried;
use crate::table::{is_loose_pattern, pattern_names, Record, Table};
use crate::value::Value;

/// A value for each name. The bindings of one pattern hold the same names, so that their order goes by
/// the values taken in rising name number.
pub type Binding = BTreeMap<u8, Value>;

/// The most distinct bindings of a binder.
pub const MAX_BINDINGS: usize = 255;

/// The most members of a set, or entries of a map, that a union or munion pattern splits.
pub const MAX_SPLIT: usize = 7;

/// The distinct bindings of a pattern over the values that a binder offers it, in rising order.
pub fn bindings<'a>(
    table: &Table,
    pattern: usize,
    values: impl IntoIterator<Item = &'a Value>,
) -> Tried<Vec<Binding>> {
    let values: Vec<&Value> = values.into_iter().collect();
    let mut wide = WideSplits::new(table);
    if values.iter().any(|value| wide.meets(pattern, value)) {
        return Err(WIDE_SPLIT);
    }
    let mut matcher = Matcher::new(table, pattern);
    let mut found = BTreeSet::new();
    for value in values {
        let matches = matcher.matches(pattern, value, &Binding::new());
        found.extend(Rc::unwrap_or_clone(matches));
        if found.len() > MAX_BINDINGS {
            return Err(MANY_BINDINGS);
        }
    }
    Ok(found.into_iter().collect())
}

/// Looks for a union or munion pattern met by too many members or entries. All parts are tried where kind
/// and count fit, whatever the others come to.
struct WideSplits<'a> {
    table: &'a Table,
    /// Patterns and values that have been looked at.
    seen: HashSet<(usize, Value)>,
}

impl<'a> WideSplits<'a> {
    fn new(table: &'a Table) -> WideSplits<'a> {
        let seen = HashSet::new();
        WideSplits { table, seen }
    }

    fn meets(&mut self, pattern: usize, value: &Value) -> bool {
        if !holds_split(self.table, pattern)
            || !holds_wide(value)
            || !self.seen.insert((pattern, value.clone()))
        {
            return false;
        }
        let record = self.table.record(pattern);
        let is_wide = match (record, value) {
            (Record::UnionPattern(..), Value::Set(members)) => members.len() > MAX_SPLIT,
            (Record::MunionPattern(..), Value::Map(entries)) => entries.len() > MAX_SPLIT,
            _ => false,
        };
        let parts = parts(record);
        let mut meets = |(&part, item): (&usize, &Value)| self.meets(part, item);
        is_wide || ways(record, value).any(|items| parts.iter().zip(&items).any(&mut meets))
    }
}

fn holds_split(table: &Table, pattern: usize) -> bool {
    let record = table.record(pattern);
    matches!(record, Record::UnionPattern(..) | Record::MunionPattern(..))
        || record
            .operands()
            .iter()
            .any(|&(p, _)| holds_split(table, p))
}

/// Whether a value is, or has within it, a set or map of more than may be split.
fn holds_wide(value: &Value) -> bool {
    match value {
        Value::Boolean(_) | Value::Integer(_) | Value::Quote(_) => false,
        Value::Set(members) => members.len() > MAX_SPLIT || members.iter().any(holds_wide),
        Value::Sequence(items) | Value::Tuple(items) => items.iter().any(holds_wide),
        Value::Map(entries) => {
            let mut items = entries.iter().flat_map(|(key, value)| [key, value]);
            entries.len() > MAX_SPLIT || items.any(holds_wide)
        }
    }
}

/// Matches the parts of one pattern. Ways to match can run into billions where distinct bindings are
/// few, so what a pattern and a value come to is kept; see also [`Limit`].
struct Matcher<'a> {
    table: &'a Table,
    /// How often each name stands in the whole pattern.
    occurrences: BTreeMap<u8, usize>,
    known: HashMap<(usize, Value, Binding), Rc<BTreeSet<Binding>>>,
}

impl<'a> Matcher<'a> {
    fn new(table: &'a Table, pattern: usize) -> Matcher<'a> {
        Matcher {
            table,
            occurrences: occurrences(table, &[pattern]),
            known: HashMap::new(),
        }
    }

    /// The distinct bindings of a pattern and a value, as far as their [`Limit`] goes, that agree with
    /// what some names of the pattern are bound to already.
    fn matches(&mut self, pattern: usize, value: &Value, bound: &Binding) -> Rc<BTreeSet<Binding>> {
        let (matched, binding) = match self.table.record(pattern) {
            Record::NamePattern(name) => {
                let agrees = bound.get(name).is_none_or(|before| before == value);
                (agrees, Binding::from([(*name, value.clone())]))
            }
            Record::AnyPattern => (true, Binding::new()),
            Record::LiteralPattern(literal) => (value == literal, Binding::new()),
            _ => return self.compound(pattern, value, bound),
        };
        Rc::new(BTreeSet::from_iter(matched.then_some(binding)))
    }

    /// [`Matcher::matches`] for a pattern that has parts.
    fn compound(
        &mut self,
        pattern: usize,
        value: &Value,
        bound: &Binding,
    ) -> Rc<BTreeSet<Binding>> {
        let key = (pattern, value.clone(), bound.clone());
        if let Some(known) = self.known.get(&key) {
            return Rc::clone(known);
        }
        let record = self.table.record(pattern);
        let whole = Limit::new(self, &parts(record), bound);
        let steps = self.steps(&parts(record), bound);
        let mut matches = Matches::new(&whole);
        for items in ways(record, value) {
            matches.extend(self.pair_up(&steps, &items, bound));
            if matches.are_complete() {
                break;
            }
        }
        let found = Rc::new(matches.bindings);
        self.known.insert(key, Rc::clone(&found));
        found
    }

    /// The parts of a pattern in the order in which they are matched: loose ones last, when more names
    /// are bound.
    fn steps(&self, parts: &[usize], bound: &Binding) -> Vec<Step> {
        let records = self.table.records();
        let mut places: Vec<usize> = (0..parts.len()).collect();
        places.sort_by_key(|&place| is_loose_pattern(records, parts[place]));
        let ordered: Vec<usize> = places.iter().map(|&place| parts[place]).collect();
        let step = |(index, place): (usize, usize)| Step {
            place,
            part: parts[place],
            names: pattern_names(records, parts[place]),
            limit: Limit::new(self, &ordered[..=index], bound),
        };
        places.into_iter().enumerate().map(step).collect()
    }

    /// The bindings of parts matched to the items in their places.
    fn pair_up(&mut self, steps: &[Step], items: &[Value], bound: &Binding) -> BTreeSet<Binding> {
        let mut joined = BTreeSet::from([bound.clone()]);
        for step in steps {
            let mut matches = Matches::new(&step.limit);
            for one in &joined {
                let bound = restricted(one, &step.names);
                let found = self.matches(step.part, &items[step.place], &bound);
                matches.extend(found.iter().map(|other| join(one, other)));
            }
            joined = matches.bindings;
        }
        joined
    }
}

/// A part of a pattern, at its turn.
struct Step {
    /// Which of the parts it is.
    place: usize,
    part: usize,
    names: BTreeSet<u8>,
    /// The limit of the parts up to this one.
    limit: Limit,
}

/// How many bindings of some parts of a pattern are kept. Of those that agree in the names which the
/// rest of the whole pattern holds too, one more than a binder may have is enough: whatever the rest
/// comes to, they stay together or go together, and if they stay the binder has too many.
struct Limit {
    /// The names that the rest of the whole pattern holds too, unless they are bound already.
    shared: BTreeSet<u8>,
    /// The most that are kept for each binding of the shared names.
    most: usize,
}

impl Limit {
    fn new(matcher: &Matcher, parts: &[usize], bound: &Binding) -> Limit {
        let mut here = occurrences(matcher.table, parts);
        here.retain(|name, _| !bound.contains_key(name));
        let stands_elsewhere = |name: &u8| here[name] < matcher.occurrences[name];
        let shared: BTreeSet<u8> = here.keys().copied().filter(stands_elsewhere).collect();
        let has_only_shared = shared.len() == here.len();
        let most = if has_only_shared { 1 } else { MAX_BINDINGS + 1 };
        Limit { shared, most }
    }
}

/// The bindings kept of some parts of a pattern, matched to some values.
struct Matches<'l> {
    limit: &'l Limit,
    bindings: BTreeSet<Binding>,
    /// How many are kept for each binding of the shared names.
    kept: BTreeMap<Binding, usize>,
}

impl<'l> Matches<'l> {
    fn new(limit: &'l Limit) -> Matches<'l> {
        Matches {
            limit,
            bindings: BTreeSet::new(),
            kept: BTreeMap::new(),
        }
    }

    /// Adds bindings until nothing more can be kept.
    fn extend(&mut self, bindings: impl IntoIterator<Item = Binding>) {
        let mut bindings = bindings.into_iter();
        while !self.are_complete() {
            let Some(binding) = bindings.next() else {
                break;
            };
            let shared = restricted(&binding, &self.limit.shared);
            let kept = self.kept.entry(shared).or_insert(0);
            if *kept < self.limit.most && self.bindings.insert(binding) {
                *kept += 1;
            }
        }
    }

    /// Whether nothing more can be kept.
    fn are_complete(&self) -> bool {
        self.limit.shared.is_empty() && self.bindings.len() >= self.limit.most
    }
}

/// The part of a binding that holds the given names.
fn restricted(binding: &Binding, names: &BTreeSet<u8>) -> Binding {
    let named = binding.iter().filter(|(name, _)| names.contains(name));
    named.map(|(name, value)| (*name, value.clone())).collect()
}

/// How often each name stands in patterns.
fn occurrences(table: &Table, patterns: &[usize]) -> BTreeMap<u8, usize> {
    let mut counts = BTreeMap::new();
    for &pattern in patterns {
        if let Record::NamePattern(name) = table.record(pattern) {
            *counts.entry(*name).or_insert(0) += 1;
        }
        for (name, count) in occurrences(table, &parts(table.record(pattern))) {
            *counts.entry(name).or_insert(0) += count;
        }
    }
    counts
}

/// Two bindings as one; they agree in the names of both.
fn join(one: &Binding, other: &Binding) -> Binding {
    let mut joined = one.clone();
    joined.extend(other.iter().map(|(name, value)| (*name, value.clone())));
    joined
}

/// The parts of a pattern.
fn parts(pattern: &Record) -> Vec<usize> {
    pattern.operands().iter().map(|&(part, _)| part).collect()
}

/// The ways to deal out a value among the parts of a pattern, an item for each part: none where the
/// kind or the count does not fit.
fn ways<'v>(pattern: &Record, value: &'v Value) -> Box<dyn Iterator<Item = Vec<Value>> + 'v> {
    match (pattern, value) {
        (Record::TuplePattern(parts), Value::Tuple(items))
        | (Record::SequencePattern(parts), Value::Sequence(items))
            if parts.len() == items.len() =>
        {
            Box::new(std::iter::once(items.clone()))
        }
        (Record::SetPattern(parts), Value::Set(members)) if parts.len() == members.len() => {
            Box::new(orders(members.iter().map(|member| [member])))
        }
        (Record::MapPattern(parts), Value::Map(entries)) if parts.len() == 2 * entries.len() => {
            Box::new(orders(entries.iter().map(|(key, value)| [key, value])))
        }
        (Record::UnionPattern(..), Value::Set(members)) => {
            Box::new(splits(members.iter().cloned(), Value::Set))
        }
        (Record::MunionPattern(..), Value::Map(entries)) => {
            let entries = entries.iter().map(|(k, v)| (k.clone(), v.clone()));
            Box::new(splits(entries, Value::Map))
        }
        (Record::ConcatenationPattern(..), Value::Sequence(items)) => Box::new(cuts(items)),
        _ => Box::new(std::iter::empty()),
    }
}

/// Every split of a set or map into two, neither of them empty: at least one of its units, which are members or entries,
/// is chosen for the first half, and not all are. Of 0 or 1 units there is none.
fn splits<T: Clone, C: FromIterator<T>>(
    units: impl Iterator<Item = T>,
    half: fn(C) -> Value,
) -> impl Iterator<Item = Vec<Value>> {
    let units: Vec<T> = units.collect();
    let all = (1_usize << units.len()) - 1;
    (1..all).map(move |chosen| {
        let halves = [1, 0].map(|side| {
            let units = units.iter().enumerate();
            let units = units.filter(|(place, _)| chosen >> place & 1 == side);
            half(units.map(|(_, unit)| unit.clone()).collect())
        });
        halves.into()
    })
}

/// Every split of a sequence into a front and a back.
fn cuts(items: &[Value]) -> impl Iterator<Item = Vec<Value>> + '_ {
    (0..=items.len()).map(|place| {
        let (front, back) = items.split_at(place);
        vec![
            Value::Sequence(front.to_vec()),
            Value::Sequence(back.to_vec()),
        ]
    })
}

/// The items of units in every order of the units: of members one each, of entries a key and a value.
fn orders<'v, const WIDTH: usize>(
    units: impl Iterator<Item = [&'v Value; WIDTH]>,
) -> impl Iterator<Item = Vec<Value>> + 'v {
    let units: Vec<[&Value; WIDTH]> = units.collect();
    let all = permutations(&units).into_iter();
    all.map(|order| order.into_iter().flatten().cloned().collect())
}

/// Every order of the units.
fn permutations<T: Copy>(units: &[T]) -> Vec<Vec<T>> {
    if units.is_empty() {
        return vec![vec![]];
    }
    let mut all = Vec::new();
    for first in 0..units.len() {
        let mut rest = units.to_vec();
        let unit = rest.remove(first);
        for order in permutations(&rest) {
            all.push([vec![unit], order].concat());
        }
    }
    all
}
