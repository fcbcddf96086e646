//! Random expressions that give values of a shape.

use crate::builder::{binary, kind, unary};
use crate::shape::Shape;
use crate::writer::Writer;

/// The numbers of quotes, few enough to meet each other, in which low and high bytes rise and fall.
pub const QUOTES: [u16; 9] = [0, 1, 2, 255, 256, 257, 512, 65_280, 65_535];

impl Writer {
    /// An expression of the shape, at most about `depth` deep.
    pub fn expression(&mut self, shape: &Shape, depth: usize) -> usize {
        self.fuel -= 1;
        if self.wildly(30) {
            let other = Shape::random(&mut self.random, 2);
            return self.leaf(&other);
        }
        if depth == 0 || self.fuel <= 0 || self.random.once_in(6) {
            return self.leaf(shape);
        }
        if self.random.once_in(if self.in_condition { 4 } else { 2 }) {
            return self.of_any_shape(shape, depth);
        }
        match shape {
            Shape::Boolean => self.boolean(depth),
            Shape::Integer => self.integer(depth),
            Shape::Set(member, most) => self.set(member, *most, depth),
            Shape::Sequence(item, most) => self.sequence(item, *most, depth),
            Shape::Map(key, value, most) => self.map(key, value, *most, depth),
            Shape::Tuple(parts) => self.tuple(parts, depth),
            Shape::Quote => self.leaf(shape),
        }
    }

    /// A name of the shape, or a value written out.
    pub fn leaf(&mut self, shape: &Shape) -> usize {
        let fitting = self.scope.iter().filter(|(_, bound)| bound.fits(shape));
        let names: Vec<u8> = fitting.map(|&(name, _)| name).collect();
        if !names.is_empty() && !self.random.once_in(4) {
            let name = self.random.pick(&names);
            return self.out.name(name);
        }
        match shape {
            Shape::Boolean => {
                let value = self.random.once_in(2);
                self.out.boolean(value)
            }
            Shape::Integer => {
                let value = self.literal();
                self.out.integer(value)
            }
            Shape::Set(member, most) => {
                let count = self.random.below(most.min(&3) + 1);
                self.distinct_members(member, count, 0)
            }
            Shape::Sequence(item, most) => {
                let count = self.random.below(most.min(&3) + 1);
                self.enumeration(kind::SEQUENCE, item, count, 0)
            }
            Shape::Map(key, value, most) => {
                let count = self.random.below(most.min(&2) + 1);
                self.map_enumeration(key, value, count, 0)
            }
            Shape::Tuple(parts) => self.tuple(parts, 1),
            Shape::Quote => {
                let number = self.random.pick(&QUOTES);
                self.out.quote(number)
            }
        }
    }

    fn literal(&mut self) -> i32 {
        if self.wildly(6) {
            let ends = [i32::MIN, i32::MIN + 1, i32::MAX, i32::MAX - 1, 0, 65536];
            return self.random.pick(&ends);
        }
        self.random.between(-2, 6)
    }

    /// The forms that can give any shape.
    fn of_any_shape(&mut self, shape: &Shape, depth: usize) -> usize {
        match self.random.below(10) {
            0 => {
                let test = self.expression(&Shape::Boolean, depth - 1);
                let yes = self.expression(shape, depth - 1);
                let no = self.expression(shape, depth - 1);
                self.out.node(kind::IF, &[test, yes, no])
            }
            1..=6 => self.choosing(shape, depth),
            7 => self.iota(shape, depth),
            8 => self.apply(shape, depth),
            _ => {
                let count = 1 + self.random.below(2);
                let items = self.enumeration(kind::SEQUENCE, shape, count, depth - 1);
                self.out.unary(unary::HD, items)
            }
        }
    }

    fn apply(&mut self, shape: &Shape, depth: usize) -> usize {
        let (applied, argument) = if self.random.once_in(4) {
            let key = Shape::random(&mut self.random, 0);
            let map = self.expression(&Shape::map(key.clone(), shape.clone(), 3), depth - 1);
            (map, self.expression(&key, depth - 1))
        } else {
            let count = 1 + self.random.below(3);
            let items = self.enumeration(kind::SEQUENCE, shape, count, depth - 1);
            let spare = i32::from(self.random.once_in(8));
            let index = self.random.between(1 - spare, count as i32 + spare);
            (items, self.out.integer(index))
        };
        self.out.node(kind::APPLY, &[applied, argument])
    }

    fn boolean(&mut self, depth: usize) -> usize {
        let truth = Shape::Boolean;
        match self.random.below(12) {
            0 => self.unary(unary::NOT, &truth, depth),
            1..=3 => {
                let operators = [binary::AND, binary::OR, binary::IMPLIES, binary::EQUIVALENT];
                self.binary(&operators, &truth, &truth, depth)
            }
            4 | 5 => {
                let shape = Shape::random(&mut self.random, 2);
                self.binary(&[binary::EQUAL, binary::NOT_EQUAL], &shape, &shape, depth)
            }
            6 | 7 => {
                let operators = [
                    binary::LESS,
                    binary::LESS_OR_EQUAL,
                    binary::GREATER,
                    binary::GREATER_OR_EQUAL,
                ];
                self.binary(&operators, &Shape::Integer, &Shape::Integer, depth)
            }
            8 => {
                let member = Shape::random(&mut self.random, 1);
                let set = Shape::set(member.clone(), 4);
                self.binary(&[binary::IN_SET, binary::NOT_IN_SET], &member, &set, depth)
            }
            9 => {
                let set = Shape::set(Shape::random(&mut self.random, 1), 4);
                self.binary(&[binary::SUBSET, binary::PSUBSET], &set, &set, depth)
            }
            _ => self.quantifier(depth),
        }
    }

    fn integer(&mut self, depth: usize) -> usize {
        match self.random.below(10) {
            0 => self.unary(unary::NEGATE, &Shape::Integer, depth),
            1 => self.unary(unary::ABS, &Shape::Integer, depth),
            2 => {
                let set = Shape::set(Shape::random(&mut self.random, 1), 4);
                self.unary(unary::CARD, &set, depth)
            }
            3 => {
                let sequence = Shape::sequence(Shape::random(&mut self.random, 1), 4);
                self.unary(unary::LEN, &sequence, depth)
            }
            4..=7 => {
                let operators = [binary::PLUS, binary::MINUS, binary::TIMES];
                self.binary(&operators, &Shape::Integer, &Shape::Integer, depth)
            }
            _ => {
                let operator = self.random.pick(&[binary::DIV, binary::REM, binary::MOD]);
                let left = self.expression(&Shape::Integer, depth - 1);
                let right = if self.wildly(3) {
                    self.out.integer(0)
                } else if self.random.once_in(5) {
                    self.expression(&Shape::Integer, depth - 1)
                } else {
                    let divisor = self.random.pick(&[-3, -2, -1, 1, 2, 3, 5]);
                    self.out.integer(divisor)
                };
                self.out.binary(operator, left, right)
            }
        }
    }

    fn set(&mut self, member: &Shape, most: usize, depth: usize) -> usize {
        let own = Shape::set(member.clone(), most);
        let half = Shape::set(member.clone(), most / 2);
        if *member == Shape::Integer && self.wildly(8) {
            return self.large_range(depth);
        }
        match self.random.below(13) {
            0 | 1 => {
                let count = self.random.below(most.min(4) + 1);
                self.distinct_members(member, count, depth - 1)
            }
            2 if *member == Shape::Integer => {
                let from = self.random.between(-1, 3);
                self.out.range(from, from + most as i32 - 1)
            }
            3 => {
                let parts = Shape::set(half, 2);
                self.unary(unary::DUNION, &parts, depth)
            }
            4 => {
                let count = 1 + self.random.below(2);
                let sets = self.enumeration(kind::SET, &own, count, depth - 1);
                self.out.unary(unary::DINTER, sets)
            }
            5 => self.unary(unary::ELEMS, &Shape::sequence(member.clone(), most), depth),
            6 if *member == Shape::Integer => {
                let items = Shape::sequence(Shape::random(&mut self.random, 1), most);
                self.unary(unary::INDS, &items, depth)
            }
            7 => {
                let other = Shape::random(&mut self.random, 0);
                self.unary(unary::DOM, &Shape::map(member.clone(), other, most), depth)
            }
            8 => {
                let other = Shape::random(&mut self.random, 0);
                self.unary(unary::RNG, &Shape::map(other, member.clone(), most), depth)
            }
            9 => self.binary(&[binary::UNION], &half, &half, depth),
            10 => {
                let any = Shape::set(member.clone(), 4);
                self.binary(&[binary::INTER, binary::DIFFERENCE], &own, &any, depth)
            }
            _ if most > 0 => self.set_comprehension(member, most, depth),
            _ => self.out.node(kind::SET, &[]),
        }
    }

    /// A set range that may be too large.
    fn large_range(&mut self, depth: usize) -> usize {
        let from = self.expression(&Shape::Integer, depth - 1);
        let far = self.random.between(50, 90);
        let to = self.out.integer(far);
        self.out.node(kind::RANGE, &[from, to])
    }

    fn sequence(&mut self, item: &Shape, most: usize, depth: usize) -> usize {
        let own = Shape::sequence(item.clone(), most);
        let half = Shape::sequence(item.clone(), most / 2);
        match self.random.below(8) {
            0 | 1 => {
                let count = self.random.below(most.min(4) + 1);
                self.enumeration(kind::SEQUENCE, item, count, depth - 1)
            }
            2 => {
                let count = 1 + self.random.below(most.clamp(1, 4));
                let items = self.enumeration(kind::SEQUENCE, item, count, depth - 1);
                self.out.unary(unary::TL, items)
            }
            3 => self.unary(unary::CONC, &Shape::sequence(half, 2), depth),
            4 => self.unary(unary::REVERSE, &own, depth),
            5 => self.binary(&[binary::CONCATENATE], &half, &half, depth),
            _ => match self.sequence_comprehension(item, most, depth) {
                Some(record) => record,
                None => self.leaf(&own),
            },
        }
    }

    fn map(&mut self, key: &Shape, value: &Shape, most: usize, depth: usize) -> usize {
        let own = Shape::map(key.clone(), value.clone(), most);
        let half = Shape::map(key.clone(), value.clone(), most / 2);
        match self.random.below(8) {
            0..=2 => {
                let count = self.random.below(most.min(4) + 1);
                self.map_enumeration(key, value, count, depth - 1)
            }
            3 => self.binary(&[binary::MUNION], &half, &half, depth),
            4 => self.binary(&[binary::OVERRIDE], &half, &half, depth),
            5 => {
                let keys = Shape::set(key.clone(), 4);
                self.binary(&[binary::DOMAIN_RESTRICTION], &keys, &own, depth)
            }
            6 => {
                let values = Shape::set(value.clone(), 4);
                self.binary(&[binary::RANGE_RESTRICTION], &own, &values, depth)
            }
            _ => self.map_comprehension(key, value, most, depth),
        }
    }

    fn tuple(&mut self, parts: &[Shape], depth: usize) -> usize {
        let write = |part: &Shape| self.expression(part, depth - 1);
        let operands: Vec<usize> = parts.iter().map(write).collect();
        self.out.node(kind::TUPLE, &operands)
    }

    fn unary(&mut self, operator: u8, operand: &Shape, depth: usize) -> usize {
        let operand = self.expression(operand, depth - 1);
        self.out.unary(operator, operand)
    }

    fn binary(&mut self, operators: &[u8], left: &Shape, right: &Shape, depth: usize) -> usize {
        let operator = self.random.pick(operators);
        let left = self.expression(left, depth - 1);
        let right = self.expression(right, depth - 1);
        self.out.binary(operator, left, right)
    }

    fn enumeration(&mut self, kind: u16, part: &Shape, count: usize, depth: usize) -> usize {
        let operands: Vec<usize> = (0..count).map(|_| self.expression(part, depth)).collect();
        self.out.node(kind, &operands)
    }

    /// A set of so many members, at most; integers and quotes mostly differ.
    pub fn distinct_members(&mut self, member: &Shape, count: usize, depth: usize) -> usize {
        let count = count.min(8);
        if !member.has_many_literals() || self.random.once_in(5) {
            return self.enumeration(kind::SET, member, count, depth);
        }
        if *member == Shape::Integer && self.random.once_in(2) {
            let from = self.random.between(-1, 3);
            return self.out.range(from, from + count as i32 - 1);
        }
        let literals = self.distinct_literals(member, count);
        self.out.node(kind::SET, &literals)
    }

    /// A set of so many members or a map of so many entries, at most; a map has four at most.
    pub fn distinct_units(&mut self, shape: &Shape, count: usize, depth: usize) -> usize {
        match shape {
            Shape::Map(key, value, _) => self.map_enumeration(key, value, count.min(4), depth),
            Shape::Set(member, _) => self.distinct_members(member, count, depth),
            other => panic!("{other:?} is no shape of sets or maps"),
        }
    }

    /// A map of so many entries, at most; keys that are integers or quotes mostly differ, and some have themselves as
    /// values.
    fn map_enumeration(&mut self, key: &Shape, value: &Shape, count: usize, depth: usize) -> usize {
        let mut operands = Vec::new();
        let literals = key.has_many_literals() && !self.random.once_in(4);
        let is_same = literals && value == key && self.random.once_in(2);
        for index in 0..count {
            operands.push(if literals {
                self.numbered_literal(key, index)
            } else {
                self.expression(key, depth)
            });
            operands.push(if is_same && self.random.once_in(2) {
                self.numbered_literal(key, index)
            } else {
                self.expression(value, depth)
            });
        }
        self.out.node(kind::MAP, &operands)
    }

    /// So many different literals of the shape, integers or quotes, in no order.
    fn distinct_literals(&mut self, shape: &Shape, count: usize) -> Vec<usize> {
        let mut indices: Vec<usize> = (0..QUOTES.len()).collect();
        let mut literals = Vec::new();
        for _ in 0..count {
            let index = indices.swap_remove(self.random.below(indices.len()));
            literals.push(self.numbered_literal(shape, index));
        }
        literals
    }

    /// One of the literals of the shape, integers or quotes; different ones for different indices.
    pub fn numbered_literal(&mut self, shape: &Shape, index: usize) -> usize {
        match shape {
            Shape::Quote => self.out.quote(QUOTES[index]),
            _ => self.out.integer(index as i32 - 1),
        }
    }
}
