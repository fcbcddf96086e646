//! Table records: cutting a table into its records and reading the fields of each.

use std::collections::BTreeSet;

use forms::{kind, HEADER, LAST_NAME};
pub use forms::{Binary, Unary};

use crate::answer::{Refusal, RECORD_FORM};
use crate::value::Value;

/// The binders that give a boolean, or (iota) the value bound.
#[derive(Clone, Copy, Debug, PartialEq, Eq)]
pub enum Quantifier {
    Forall,
    Exists,
    Exists1,
    Iota,
}

/// The operands that the binders 13 to 20 have in common.
#[derive(Clone, Copy, Debug, PartialEq, Eq)]
pub struct Bind {
    pub pattern: usize,
    pub set: usize,
    pub condition: usize,
}

/// A record. Operands are record numbers.
#[derive(Clone, Debug, PartialEq, Eq)]
pub enum Record {
    /// A boolean, integer or quote.
    Literal(Value),
    Name(u8),
    Unary(Unary, usize),
    Binary(Binary, usize, usize),
    If {
        test: usize,
        then: usize,
        otherwise: usize,
    },
    SetEnumeration(Vec<usize>),
    SequenceEnumeration(Vec<usize>),
    /// Key, value, key, value.
    MapEnumeration(Vec<usize>),
    Tuple(Vec<usize>),
    SetRange(usize, usize),
    Let {
        pattern: usize,
        value: usize,
        body: usize,
    },
    LetBe {
        bind: Bind,
        body: usize,
    },
    Quantified(Quantifier, Bind),
    SetComprehension {
        bind: Bind,
        element: usize,
    },
    SequenceComprehension {
        bind: Bind,
        element: usize,
    },
    MapComprehension {
        bind: Bind,
        key: usize,
        value: usize,
    },
    Apply(usize, usize),
    NamePattern(u8),
    AnyPattern,
    /// Matches a boolean, integer or quote.
    LiteralPattern(Value),
    TuplePattern(Vec<usize>),
    SetPattern(Vec<usize>),
    UnionPattern(usize, usize),
    SequencePattern(Vec<usize>),
    ConcatenationPattern(usize, usize),
    /// Key, value, key, value.
    MapPattern(Vec<usize>),
    MunionPattern(usize, usize),
}

/// What an operand is to the record that names it.
#[derive(Clone, Copy, Debug, PartialEq, Eq)]
pub enum Role {
    /// An expression outside the names of the record.
    Plain,
    /// A condition of a binder, within its names.
    Condition,
    /// A body, element, key or value of a binder, within its names.
    Covered,
    /// A pattern.
    Pattern,
    /// A pattern that has to be a name.
    NamePattern,
}

impl Record {
    /// Reads a whole record from its own part of the table; nothing if it is malformed.
    pub fn read(part: &[u8]) -> Option<Record> {
        let kind = u16::from_le_bytes([*part.get(2)?, *part.get(3)?]);
        let fields = part.get(HEADER..)?;
        if !forms::fits(kind, part.len()) {
            return None;
        }
        let at = |index: usize| usize::from(fields[index]);
        let operands = || fields.iter().copied().map(usize::from).collect();
        let bind = || Bind {
            pattern: at(0),
            set: at(1),
            condition: at(2),
        };
        Some(match kind {
            kind::BOOLEAN => Record::Literal(Value::boolean(fields)?),
            kind::INTEGER => Record::Literal(Value::integer(fields)?),
            kind::QUOTE => Record::Literal(Value::quote(fields)?),
            kind::NAME => Record::Name(name(fields)?),
            kind::UNARY => Record::Unary(Unary::from_number(fields[0])?, at(1)),
            kind::BINARY => Record::Binary(Binary::from_number(fields[0])?, at(1), at(2)),
            kind::IF => Record::If {
                test: at(0),
                then: at(1),
                otherwise: at(2),
            },
            kind::SET => Record::SetEnumeration(operands()),
            kind::SEQUENCE => Record::SequenceEnumeration(operands()),
            kind::MAP => Record::MapEnumeration(operands()),
            kind::TUPLE => Record::Tuple(operands()),
            kind::RANGE => Record::SetRange(at(0), at(1)),
            kind::LET => Record::Let {
                pattern: at(0),
                value: at(1),
                body: at(2),
            },
            kind::LET_BE => Record::LetBe {
                bind: bind(),
                body: at(3),
            },
            kind::FORALL => Record::Quantified(Quantifier::Forall, bind()),
            kind::EXISTS => Record::Quantified(Quantifier::Exists, bind()),
            kind::EXISTS1 => Record::Quantified(Quantifier::Exists1, bind()),
            kind::IOTA => Record::Quantified(Quantifier::Iota, bind()),
            kind::SET_COMPREHENSION => Record::SetComprehension {
                bind: bind(),
                element: at(3),
            },
            kind::SEQUENCE_COMPREHENSION => Record::SequenceComprehension {
                bind: bind(),
                element: at(3),
            },
            kind::MAP_COMPREHENSION => Record::MapComprehension {
                bind: bind(),
                key: at(3),
                value: at(4),
            },
            kind::APPLY => Record::Apply(at(0), at(1)),
            kind::P_NAME => Record::NamePattern(name(fields)?),
            kind::P_ANY => Record::AnyPattern,
            kind::P_BOOLEAN => Record::LiteralPattern(Value::boolean(fields)?),
            kind::P_INTEGER => Record::LiteralPattern(Value::integer(fields)?),
            kind::P_QUOTE => Record::LiteralPattern(Value::quote(fields)?),
            kind::P_TUPLE => Record::TuplePattern(operands()),
            kind::P_SET => Record::SetPattern(operands()),
            kind::P_UNION => Record::UnionPattern(at(0), at(1)),
            kind::P_SEQUENCE => Record::SequencePattern(operands()),
            kind::P_CONCATENATION => Record::ConcatenationPattern(at(0), at(1)),
            kind::P_MAP => Record::MapPattern(operands()),
            kind::P_MUNION => Record::MunionPattern(at(0), at(1)),
            _ => return None,
        })
    }

    /// The operands in the order of the fields.
    pub fn operands(&self) -> Vec<(usize, Role)> {
        use Role::{Condition, Covered, Pattern, Plain};
        let all = |operands: &[usize], role| operands.iter().map(|&o| (o, role)).collect();
        let bound = |bind: &Bind, pattern, covered: &[usize]| {
            let mut operands = vec![
                (bind.pattern, pattern),
                (bind.set, Plain),
                (bind.condition, Condition),
            ];
            operands.extend(covered.iter().map(|&o| (o, Covered)));
            operands
        };
        match self {
            Record::Literal(_) | Record::Name(_) => vec![],
            Record::Unary(_, operand) => vec![(*operand, Plain)],
            Record::Binary(_, left, right) => all(&[*left, *right], Plain),
            Record::If {
                test,
                then,
                otherwise,
            } => all(&[*test, *then, *otherwise], Plain),
            Record::SetEnumeration(operands)
            | Record::SequenceEnumeration(operands)
            | Record::MapEnumeration(operands)
            | Record::Tuple(operands) => all(operands, Plain),
            Record::SetRange(from, to) => all(&[*from, *to], Plain),
            Record::Let {
                pattern,
                value,
                body,
            } => vec![(*pattern, Pattern), (*value, Plain), (*body, Covered)],
            Record::LetBe { bind, body } => bound(bind, Pattern, &[*body]),
            Record::Quantified(Quantifier::Iota, bind) => bound(bind, Role::NamePattern, &[]),
            Record::Quantified(_, bind) => bound(bind, Pattern, &[]),
            Record::SetComprehension { bind, element } => bound(bind, Pattern, &[*element]),
            Record::SequenceComprehension { bind, element } => {
                bound(bind, Role::NamePattern, &[*element])
            }
            Record::MapComprehension { bind, key, value } => bound(bind, Pattern, &[*key, *value]),
            Record::Apply(function, argument) => all(&[*function, *argument], Plain),
            Record::NamePattern(_) | Record::AnyPattern | Record::LiteralPattern(_) => vec![],
            Record::TuplePattern(parts)
            | Record::SetPattern(parts)
            | Record::SequencePattern(parts)
            | Record::MapPattern(parts) => all(parts, Pattern),
            Record::UnionPattern(left, right)
            | Record::ConcatenationPattern(left, right)
            | Record::MunionPattern(left, right) => all(&[*left, *right], Pattern),
        }
    }

    pub fn is_pattern(&self) -> bool {
        matches!(
            self,
            Record::NamePattern(_)
                | Record::AnyPattern
                | Record::LiteralPattern(_)
                | Record::TuplePattern(_)
                | Record::SetPattern(_)
                | Record::UnionPattern(..)
                | Record::SequencePattern(_)
                | Record::ConcatenationPattern(..)
                | Record::MapPattern(_)
                | Record::MunionPattern(..)
        )
    }

    /// The pattern of a binder.
    pub fn pattern(&self) -> Option<usize> {
        match self {
            Record::Let { pattern, .. } => Some(*pattern),
            Record::LetBe { bind, .. }
            | Record::Quantified(_, bind)
            | Record::SetComprehension { bind, .. }
            | Record::SequenceComprehension { bind, .. }
            | Record::MapComprehension { bind, .. } => Some(bind.pattern),
            _ => None,
        }
    }
}

fn name(fields: &[u8]) -> Option<u8> {
    Some(fields[0]).filter(|&name| name <= LAST_NAME)
}

/// Cuts a table into its records; rule 4 with the first record at fault.
pub fn cut(table: &[u8]) -> Result<Vec<Record>, Refusal> {
    let mut records = Vec::new();
    let mut rest = table;
    while !rest.is_empty() {
        let (record, after) = first_record(rest).ok_or(Refusal::new(RECORD_FORM, records.len()))?;
        records.push(record);
        rest = after;
    }
    Ok(records)
}

/// The record that starts the table, and what follows it.
fn first_record(table: &[u8]) -> Option<(Record, &[u8])> {
    let length = u16::from_le_bytes([*table.first()?, *table.get(1)?]);
    let (part, after) = table.split_at_checked(usize::from(length))?;
    Some((Record::read(part)?, after))
}

/// An accepted table: one that has passed the check.
#[derive(Clone, Debug, PartialEq, Eq)]
pub struct Table {
    records: Vec<Record>,
}

impl Table {
    pub const MAX_SIZE: usize = 2400;
    pub const MAX_RECORDS: usize = 200;
    pub const MAX_HEIGHT: usize = 32;

    /// Only the check makes tables, so that every table is an accepted one.
    pub(crate) fn from_accepted(records: Vec<Record>) -> Table {
        Table { records }
    }

    pub fn record(&self, number: usize) -> &Record {
        &self.records[number]
    }

    pub fn records(&self) -> &[Record] {
        &self.records
    }

    /// The number of the last record, which is the sheet.
    pub fn last(&self) -> usize {
        self.records.len() - 1
    }
}

/// The names that a pattern holds.
pub fn pattern_names(records: &[Record], pattern: usize) -> BTreeSet<u8> {
    let mut names = BTreeSet::new();
    if let Record::NamePattern(name) = records[pattern] {
        names.insert(name);
    }
    for (part, _) in records[pattern].operands() {
        names.extend(pattern_names(records, part));
    }
    names
}

/// Whether a pattern may match in several ways: it holds a set or map enumeration, union, munion or concatenation.
pub fn is_loose_pattern(records: &[Record], pattern: usize) -> bool {
    let record = &records[pattern];
    matches!(
        record,
        Record::SetPattern(_)
            | Record::UnionPattern(..)
            | Record::ConcatenationPattern(..)
            | Record::MapPattern(_)
            | Record::MunionPattern(..)
    ) || record
        .operands()
        .iter()
        .any(|&(part, _)| is_loose_pattern(records, part))
}
