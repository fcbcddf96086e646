//! Random patterns over the values of a shape.

use crate::builder::kind;
use crate::expressions::QUOTES;
use crate::shape::Shape;
use crate::writer::{Names, Writer};

/// A pattern's record, and the most bindings that one value gives.
#[derive(Clone, Copy)]
pub struct Pattern {
    pub record: usize,
    pub bindings: usize,
}

impl Writer {
    /// A pattern that values of the shape may match; its names are added to `names`.
    /// One that is not loose holds no set or map enumeration, union, munion or concatenation.
    pub fn pattern(
        &mut self,
        shape: &Shape,
        loose: bool,
        depth: usize,
        names: &mut Names,
    ) -> Pattern {
        let inside = depth > 0 && self.random.once_in(2);
        let record = match shape {
            Shape::Tuple(parts) if inside => {
                return self.pattern_list(kind::P_TUPLE, parts, 1, loose, depth, names);
            }
            Shape::Sequence(item, most) if inside && (!loose || self.random.once_in(2)) => {
                let parts = vec![(**item).clone(); self.random.below(most.min(&4) + 1)];
                return self.pattern_list(kind::P_SEQUENCE, &parts, 1, loose, depth, names);
            }
            Shape::Sequence(_, most) if inside && loose => {
                let parts = [shape.clone(), shape.clone()];
                let splits = most + 1;
                return self.pattern_list(
                    kind::P_CONCATENATION,
                    &parts,
                    splits,
                    loose,
                    depth,
                    names,
                );
            }
            Shape::Set(_, most) | Shape::Map(_, _, most)
                if inside && loose && self.splits(*most) =>
            {
                return self.split_pattern(shape, *most, depth, names);
            }
            Shape::Set(_, most) | Shape::Map(_, _, most) if inside && loose => {
                let count = self.random.below(most.min(&4) + 1);
                return self.paired_pattern(shape, count, depth, names);
            }
            _ => match self.literal_pattern(shape) {
                Some(record) => record,
                None => self.name_or_any(shape, names),
            },
        };
        Pattern {
            record,
            bindings: 1,
        }
    }

    /// Now and then a literal of the shape.
    fn literal_pattern(&mut self, shape: &Shape) -> Option<usize> {
        let (kind, constants) = match shape {
            Shape::Boolean if self.random.once_in(5) => {
                (kind::P_BOOLEAN, vec![self.random.below(2) as u8])
            }
            Shape::Integer if self.random.once_in(6) => (
                kind::P_INTEGER,
                self.random.between(0, 4).to_le_bytes().to_vec(),
            ),
            Shape::Quote if self.random.once_in(6) => (
                kind::P_QUOTE,
                self.random.pick(&QUOTES).to_le_bytes().to_vec(),
            ),
            _ => return None,
        };
        Some(self.out.record(kind, &constants, &[]))
    }

    /// An enumeration for sets or maps of the shape, of so many members or entries.
    pub fn paired_pattern(
        &mut self,
        shape: &Shape,
        count: usize,
        depth: usize,
        names: &mut Names,
    ) -> Pattern {
        let (kind, unit) = match shape {
            Shape::Map(key, value, _) => (kind::P_MAP, vec![(**key).clone(), (**value).clone()]),
            Shape::Set(member, _) => (kind::P_SET, vec![(**member).clone()]),
            other => panic!("{other:?} is no shape of sets or maps"),
        };
        let pairings = (1..=count).product();
        let parts = vec![unit; count].concat();
        self.pattern_list(kind, &parts, pairings, true, depth, names)
    }

    /// Whether a set or map of at most so many units is split: rarely one of a member or entry or of none, which has no
    /// split.
    fn splits(&mut self, most: usize) -> bool {
        let times = if most < 2 { 12 } else { 2 };
        most <= 7 && self.random.once_in(times)
    }

    /// A union or munion over sets or maps of the shape, of at most so many members or entries. A half has at least one,
    /// and leaves one to the other.
    pub fn split_pattern(
        &mut self,
        shape: &Shape,
        most: usize,
        depth: usize,
        names: &mut Names,
    ) -> Pattern {
        let kind = match shape {
            Shape::Map(..) => kind::P_MUNION,
            _ => kind::P_UNION,
        };
        let half = shape.of_at_most(most.saturating_sub(1).max(1));
        let splits = (1_usize << most).saturating_sub(2);
        self.pattern_list(kind, &[half.clone(), half], splits, true, depth, names)
    }

    /// A pattern of parts, which are tried on a value in `ways` ways.
    pub fn pattern_list(
        &mut self,
        kind: u16,
        parts: &[Shape],
        ways: usize,
        loose: bool,
        depth: usize,
        names: &mut Names,
    ) -> Pattern {
        let mut operands = Vec::new();
        let mut bindings = ways;
        for part in parts {
            let pattern = self.pattern(part, loose, depth.saturating_sub(1), names);
            operands.push(pattern.record);
            bindings = bindings.saturating_mul(pattern.bindings);
        }
        let record = self.out.node(kind, &operands);
        Pattern { record, bindings }
    }

    /// A name, now and then one that stands in the pattern already, or the pattern for any value.
    fn name_or_any(&mut self, shape: &Shape, names: &mut Names) -> usize {
        if self.random.once_in(12) {
            return self.out.p_any();
        }
        if self.random.once_in(8) {
            if let Some(&(name, _)) = names.iter().find(|(_, other)| other == shape) {
                return self.out.p_name(name);
            }
        }
        self.name_pattern(shape, names)
    }

    /// A pattern name; any value where all names are taken.
    pub fn name_pattern(&mut self, shape: &Shape, names: &mut Names) -> usize {
        let Some(name) = self.fresh_name(names) else {
            return self.out.p_any();
        };
        names.push((name, shape.clone()));
        self.out.p_name(name)
    }
}
