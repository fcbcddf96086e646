//! The check of a table: rules 3 to 9, each over the whole table before the next.

use std::collections::BTreeSet;

use crate::answer::{Refusal, HEIGHT, LOOSE_CONDITION, NAMES, OPERANDS, RECORD_COUNT, TABLE_SIZE};
use crate::table::{cut, is_loose_pattern, pattern_names, Record, Role, Table};

/// Checks a table; the number of its records when it is accepted.
pub fn check(table: &[u8]) -> Result<usize, Refusal> {
    accept(table).map(|table| table.records().len())
}

/// Checks a table and gives its records when it is accepted.
pub fn accept(table: &[u8]) -> Result<Table, Refusal> {
    if table.is_empty() || table.len() > Table::MAX_SIZE {
        return Err(Refusal::new(TABLE_SIZE, 0));
    }
    let records = cut(table)?;
    if records.len() > Table::MAX_RECORDS {
        return Err(Refusal::new(RECORD_COUNT, Table::MAX_RECORDS));
    }
    refuse(OPERANDS, operand_faults(&records))?;
    let tree = Tree::new(&records);
    refuse(NAMES, tree.faults(Tree::has_name_fault))?;
    refuse(LOOSE_CONDITION, tree.faults(Tree::is_loose_in_condition))?;
    let heights = heights(&records);
    refuse(
        HEIGHT,
        (0..records.len()).find(|&r| heights[r] > Table::MAX_HEIGHT),
    )?;
    Ok(Table::from_accepted(records))
}

fn refuse(number: u32, lowest_fault: Option<usize>) -> Result<(), Refusal> {
    lowest_fault.map_or(Ok(()), |place| Err(Refusal::new(number, place)))
}

/// Rule 6: the lowest record with an operand that is not lower, of the wrong sort or named before, that
/// is never named though not the last, or that is the last and a pattern.
fn operand_faults(records: &[Record]) -> Option<usize> {
    let last = records.len() - 1;
    let mut named = BTreeSet::new();
    let mut faults = BTreeSet::new();
    for (number, record) in records.iter().enumerate() {
        for (operand, role) in record.operands() {
            let fits = operand < number && fits(&records[operand], role);
            let first_time = named.insert(operand);
            if !fits || !first_time {
                faults.insert(number);
            }
        }
    }
    faults.extend((0..last).filter(|number| !named.contains(number)));
    faults.extend(records[last].is_pattern().then_some(last));
    faults.first().copied()
}

/// Whether a record is of the sort that a role asks for.
fn fits(record: &Record, role: Role) -> bool {
    match role {
        Role::Plain | Role::Condition | Role::Covered => !record.is_pattern(),
        Role::Pattern => record.is_pattern(),
        Role::NamePattern => matches!(record, Record::NamePattern(_)),
    }
}

/// The height of each record: 1 without operands, otherwise one more than the highest operand.
fn heights(records: &[Record]) -> Vec<usize> {
    let mut heights: Vec<usize> = Vec::new();
    for record in records {
        let operands = record.operands();
        let highest = operands.iter().map(|&(operand, _)| heights[operand]).max();
        heights.push(1 + highest.unwrap_or(0));
    }
    heights
}

/// Records that rule 6 has passed, each with the record that names it and the role that it has there.
struct Tree<'a> {
    records: &'a [Record],
    parents: Vec<Option<(usize, Role)>>,
}

impl<'a> Tree<'a> {
    fn new(records: &'a [Record]) -> Tree<'a> {
        let mut parents = vec![None; records.len()];
        for (number, record) in records.iter().enumerate() {
            for (operand, role) in record.operands() {
                parents[operand] = Some((number, role));
            }
        }
        Tree { records, parents }
    }

    fn faults(&self, is_fault: impl Fn(&Self, usize) -> bool) -> Option<usize> {
        (0..self.records.len()).find(|&number| is_fault(self, number))
    }

    /// The records around a record, from the innermost, each with the role that leads down from it.
    fn around(&self, number: usize) -> impl Iterator<Item = (usize, Role)> + '_ {
        std::iter::successors(self.parents[number], |&(parent, _)| self.parents[parent])
    }

    /// Rule 7: a name not bound around it, or a pattern name already bound around its binder.
    fn has_name_fault(&self, number: usize) -> bool {
        match self.records[number] {
            Record::Name(name) => !self.is_bound_around(number, name),
            Record::NamePattern(name) => self.is_bound_around(self.binder(number), name),
            _ => false,
        }
    }

    /// Whether a binder around the record covers it with the name.
    fn is_bound_around(&self, number: usize, name: u8) -> bool {
        self.around(number).any(|(parent, role)| {
            let names = self.records[parent]
                .pattern()
                .map(|pattern| pattern_names(self.records, pattern));
            matches!(role, Role::Condition | Role::Covered)
                && names.is_some_and(|names| names.contains(&name))
        })
    }

    /// The binder of a pattern record: the innermost record around it that is no pattern.
    fn binder(&self, number: usize) -> usize {
        self.around(number)
            .map(|(parent, _)| parent)
            .find(|&parent| !self.records[parent].is_pattern())
            .expect("a pattern is named by a binder or a pattern")
    }

    /// Rule 8: a let-be or a loose let inside a condition.
    fn is_loose_in_condition(&self, number: usize) -> bool {
        let is_loose = match self.records[number] {
            Record::LetBe { .. } => true,
            Record::Let { pattern, .. } => is_loose_pattern(self.records, pattern),
            _ => false,
        };
        is_loose && self.around(number).any(|(_, role)| role == Role::Condition)
    }
}
