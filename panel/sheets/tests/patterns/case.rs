//! A binder over a value that its table builds, and every binding of it made visible.

use crate::common::written::write;
use crate::common::{evaluated, fits};
use crate::pattern::Pattern;
use generator::builder::{binary, kind};
use generator::Builder;
use reference::check::accept;
use reference::matching::{self, Binding};
use reference::operators::Tried;
use reference::value::Value;
use sheets::Answer;
use std::collections::BTreeSet;
use std::fmt;

/// The kinds of binders over the members of a set that take any pattern.
pub const OVER_SETS: [u16; 6] = [
    kind::LET_BE,
    kind::FORALL,
    kind::EXISTS,
    kind::EXISTS1,
    kind::SET_COMPREHENSION,
    kind::MAP_COMPREHENSION,
];

/// The kinds of binders over the members of a set that take a name alone.
pub const OF_NAMES: [u16; 2] = [kind::IOTA, kind::SEQUENCE_COMPREHENSION];

/// What a case may cost, in ways of matching: a sheet that shows a binding goes over all of them.
const MOST_STEPS: usize = 100_000;
/// The most names that an enumeration shows.
const ENUMERATED: usize = 8;

/// A value that no binding gives.
const NOWHERE: i32 = 123_456_789;

/// The value that a table comes to under a list, or the answer.
pub fn run(table: &[u8], list: &[u8]) -> Result<Value, Answer> {
    evaluated(table, list).map(|record| Value::decode(&record).expect("a value"))
}

/// A binder and the value of its second operand.
pub struct Case<'a> {
    pub kind: u16,
    pub pattern: &'a Pattern,
    value: &'a Value,
    names: Vec<u8>,
    /// The bindings that the second evaluator's matching gives, or its refusal.
    pub expected: Tried<Vec<Binding>>,
}

/// Holds a binder to the second evaluator, with every binding shown where that does not cost too much, and otherwise
/// some of them with the first and the last; gives the bindings, or the refusal.
pub fn compare(kind: u16, pattern: &Pattern, value: &Value) -> Tried<Vec<Binding>> {
    let case = Case::new(kind, pattern, value);
    case.compare();
    case.expected
}

impl<'a> Case<'a> {
    pub fn new(kind: u16, pattern: &'a Pattern, value: &'a Value) -> Case<'a> {
        let names: BTreeSet<u8> = pattern.names().into_iter().collect();
        let mut case = Case {
            kind,
            pattern,
            value,
            names: names.into_iter().collect(),
            expected: Ok(Vec::new()),
        };
        case.expected = case.matched();
        case
    }

    /// What the pattern is matched with: the value, or its members.
    fn values(&self) -> Vec<&'a Value> {
        match (self.kind, self.value) {
            (kind::LET, value) => vec![value],
            (_, Value::Set(members)) => members.iter().collect(),
            (_, other) => panic!("{other} is no set"),
        }
    }

    fn matched(&self) -> Tried<Vec<Binding>> {
        let mut sheet = Builder::new();
        let pattern = self.pattern.write(&mut sheet);
        let (value, body) = (sheet.node(kind::SET, &[]), sheet.boolean(true));
        sheet.node(kind::LET, &[pattern, value, body]);
        let table = accept(&sheet.table()).expect("an accepted table");
        matching::bindings(&table, pattern, self.values())
    }

    /// In how many ways the pattern is tried, as far as `most` goes.
    pub fn ways(&self, most: usize) -> usize {
        let mut total = 0;
        for value in self.values() {
            total += self.pattern.ways(value, most);
            if total > most {
                break;
            }
        }
        total
    }

    /// Whether tables can hold the case.
    pub fn fits(&self) -> bool {
        let mut shown = vec![self.sheet()];
        if let Ok(found) = &self.expected {
            shown.extend(found.iter().map(|b| self.shows(&self.names, Some(b))));
        }
        shown.iter().all(fits)
    }

    // ---- sheets

    /// The binder with all its names shown.
    pub fn sheet(&self) -> Builder {
        self.shows(&self.names, None)
    }

    /// The binder, with what its names are bound to shown: as the body, the element or the key, or compared with what
    /// one binding gives them.
    fn shows(&self, names: &[u8], binding: Option<&Binding>) -> Builder {
        let mut sheet = Builder::new();
        let all: Vec<u8> = (0..16).collect();
        let pattern = self.pattern.write(&mut sheet);
        let value = write(&mut sheet, self.value, &all);
        let mut operands = vec![pattern, value];
        match self.kind {
            kind::LET => operands.push(show(&mut sheet, names)),
            kind::LET_BE | kind::SET_COMPREHENSION | kind::SEQUENCE_COMPREHENSION => {
                operands.extend([sheet.boolean(true), show(&mut sheet, names)]);
            }
            kind::MAP_COMPREHENSION => {
                operands.extend([sheet.boolean(true), show(&mut sheet, names)]);
                operands.push(sheet.boolean(true));
            }
            _ => operands.push(self.compared(&mut sheet, names, binding)),
        }
        sheet.node(self.kind, &operands);
        sheet
    }

    /// A condition: what the names are bound to is what a binding gives them, or for forall is not.
    fn compared(&self, sheet: &mut Builder, names: &[u8], binding: Option<&Binding>) -> usize {
        let operator = match self.kind {
            kind::FORALL => binary::NOT_EQUAL,
            _ => binary::EQUAL,
        };
        let left = show(sheet, names);
        let free: Vec<u8> = (0..16).filter(|name| !self.names.contains(name)).collect();
        let right = match binding {
            Some(binding) => write(sheet, &shown(names, binding), &free),
            None => sheet.integer(NOWHERE),
        };
        sheet.binary(operator, left, right)
    }

    /// The names to be shown: all at once, or one after the other where a value cannot hold them together.
    fn parts(&self, found: &[Binding]) -> Vec<Vec<u8>> {
        let fits = |binding| shown(&self.names, binding).size() <= Value::MAX_SIZE;
        if self.names.is_empty() || found.iter().all(fits) {
            return vec![self.names.clone()];
        }
        self.names.iter().map(|&name| vec![name]).collect()
    }

    // ---- comparing

    pub fn compare(&self) {
        match &self.expected {
            Err(number) => {
                self.assert_refused(&self.sheet(), &[], *number as u16, 0);
            }
            Ok(found) => {
                for names in self.parts(found) {
                    self.compare_found(&names, found);
                }
            }
        }
    }

    fn compare_found(&self, names: &[u8], found: &[Binding]) {
        match self.kind {
            kind::LET | kind::LET_BE => self.compare_choices(names, found),
            kind::SET_COMPREHENSION | kind::SEQUENCE_COMPREHENSION | kind::MAP_COMPREHENSION => {
                self.compare_collected(names, found);
            }
            _ => self.compare_truths(names, found),
        }
    }

    /// The bindings that are shown one by one: as many as the cost allows, the first and the last among them.
    fn spread(&self, count: usize) -> impl Iterator<Item = usize> {
        let stride = self.ways(usize::MAX) * count / MOST_STEPS + 1;
        (0..count).filter(move |k| k % stride == 0 || k + 1 == count)
    }

    /// A let or let-be: every binding is an entry of the list, and 32 and 33 count them.
    fn compare_choices(&self, names: &[u8], found: &[Binding]) {
        let sheet = self.shows(names, None);
        let count = found.len();
        let none = if self.kind == kind::LET { 23 } else { 24 };
        if count == 0 {
            return self.assert_refused(&sheet, &[], none, 0);
        }
        if self.kind == kind::LET && !self.pattern.is_loose() {
            let value = shown(names, &found[0]);
            assert_eq!(run(&sheet.table(), &[]), Ok(value), "{self}");
            return self.assert_refused(&sheet, &[0], 34, 0);
        }
        self.assert_refused(&sheet, &[], 32, count);
        self.assert_refused(&sheet, &[count as u8], 33, count);
        let table = sheet.table();
        for k in self.spread(count) {
            let value = shown(names, &found[k]);
            assert_eq!(run(&table, &[k as u8]), Ok(value), "{k}: {self}");
        }
    }

    /// A comprehension of all bindings, or 28 where they are too large together.
    fn compare_collected(&self, names: &[u8], found: &[Binding]) {
        let all = found.iter().map(|binding| shown(names, binding));
        let value = match self.kind {
            kind::SEQUENCE_COMPREHENSION => {
                if !all.clone().all(|item| matches!(item, Value::Integer(_))) {
                    let sheet = self.shows(names, None);
                    return self.assert_refused(&sheet, &[], 20, 0);
                }
                Value::Sequence(all.collect())
            }
            kind::SET_COMPREHENSION => Value::Set(all.collect()),
            _ => Value::Map(all.map(|key| (key, Value::Boolean(true))).collect()),
        };
        let sheet = self.shows(names, None);
        if value.size() > Value::MAX_SIZE {
            return self.assert_refused(&sheet, &[], 28, 0);
        }
        assert_eq!(run(&sheet.table(), &[]), Ok(value), "{self}");
    }

    /// A quantifier or iota: that no binding gives what none does, and of each binding that it is there, once.
    fn compare_truths(&self, names: &[u8], found: &[Binding]) {
        let truth = Value::Boolean(self.kind == kind::FORALL);
        let sheet = self.shows(names, None);
        match self.kind {
            kind::IOTA => self.assert_refused(&sheet, &[], 25, 0),
            _ => assert_eq!(run(&sheet.table(), &[]), Ok(truth), "{self}"),
        }
        for k in self.spread(found.len()) {
            let sheet = self.shows(names, Some(&found[k]));
            let due = match self.kind {
                kind::IOTA => found[k][&self.names[0]].clone(),
                _ => Value::Boolean(self.kind != kind::FORALL),
            };
            assert_eq!(run(&sheet.table(), &[]), Ok(due), "{k}: {self}");
        }
    }

    /// A refusal at the binder.
    fn assert_refused(&self, sheet: &Builder, list: &[u8], number: u16, count: usize) {
        let due = Answer {
            number,
            place: (sheet.records.len() - 1) as u16,
            count: count as u32,
        };
        assert_eq!(run(&sheet.table(), list), Err(due), "{self}");
    }
}

/// What the names are bound to: one by itself, others as a sequence, or as a tuple of two.
fn show(sheet: &mut Builder, names: &[u8]) -> usize {
    if let [name] = names {
        return sheet.name(*name);
    }
    let mut halves: Vec<usize> = Vec::new();
    for names in halved(names) {
        let names: Vec<usize> = names.iter().map(|&name| sheet.name(name)).collect();
        halves.push(sheet.node(kind::SEQUENCE, &names));
    }
    match halves[..] {
        [all] => all,
        _ => sheet.node(kind::TUPLE, &halves),
    }
}

/// The value that is shown of a binding.
fn shown(names: &[u8], binding: &Binding) -> Value {
    if let [name] = names {
        return binding[name].clone();
    }
    let half = |names: &[u8]| Value::Sequence(names.iter().map(|n| binding[n].clone()).collect());
    let mut halves: Vec<Value> = halved(names).into_iter().map(half).collect();
    match halves.len() {
        1 => halves.remove(0),
        _ => Value::Tuple(halves),
    }
}

fn halved(names: &[u8]) -> Vec<&[u8]> {
    match names {
        [] => vec![names],
        _ => names.chunks(ENUMERATED).collect(),
    }
}

impl fmt::Display for Case<'_> {
    fn fmt(&self, f: &mut fmt::Formatter) -> fmt::Result {
        let Case {
            kind,
            pattern,
            value,
            ..
        } = self;
        write!(f, "{pattern:?} in kind {kind} with {value}")
    }
}
