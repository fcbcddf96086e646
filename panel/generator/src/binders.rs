//! Random binders: lets, let-bes, quantifiers, iotas and comprehensions.

use crate::builder::{binary, kind};
use crate::patterns::Pattern;
use crate::shape::Shape;
use crate::writer::{Names, Writer};

/// A pattern and the operand that it is matched with.
struct Binding {
    pattern: Pattern,
    operand: usize,
    names: Names,
}

impl Writer {
    /// A let, loose where a choice may stand here.
    fn let_expression(&mut self, shape: &Shape, depth: usize) -> usize {
        let binding = if self.random.once_in(3) {
            self.plain_let(depth)
        } else {
            self.loose_let(depth)
                .unwrap_or_else(|| self.plain_let(depth))
        };
        let body = self.within(&binding.names, |w| w.body(shape, depth - 1));
        self.out
            .node(kind::LET, &[binding.pattern.record, binding.operand, body])
    }

    /// The body of a let or let-be: now and then a choice again.
    fn body(&mut self, shape: &Shape, depth: usize) -> usize {
        if depth > 0 && self.random.once_in(3) {
            return self.choosing(shape, depth);
        }
        self.expression(shape, depth)
    }

    /// A let-be or a let.
    pub fn choosing(&mut self, shape: &Shape, depth: usize) -> usize {
        if self.random.once_in(2) {
            return self.let_expression(shape, depth);
        }
        match self.let_be(shape, depth) {
            Some(record) => record,
            None => self.let_expression(shape, depth),
        }
    }

    fn plain_let(&mut self, depth: usize) -> Binding {
        let shape = Shape::random(&mut self.random, 2);
        let mut names = Names::new();
        let pattern = self.pattern(&shape, false, 2, &mut names);
        let operand = self.expression(&shape, depth - 1);
        Binding {
            pattern,
            operand,
            names,
        }
    }

    /// A pattern with several ways to match, and a value that fits it.
    /// Nothing is left of it where the choice is too wide for this place.
    fn loose_let(&mut self, depth: usize) -> Option<Binding> {
        let before = self.mark();
        let mut names = Names::new();
        let (pattern, operand) = self.matching(depth, &mut names);
        if self.afford_choice(pattern.bindings) {
            return Some(Binding {
                pattern,
                operand,
                names,
            });
        }
        self.return_to(before);
        None
    }

    fn matching(&mut self, depth: usize, names: &mut Names) -> (Pattern, usize) {
        match self.random.below(9) {
            0..=2 => {
                let count = 1 + self.random.below(3);
                self.pairing(count, depth, names)
            }
            3..=5 => self.splitting(depth, names),
            6 | 7 => {
                let most = 1 + self.random.below(4);
                let shape = Shape::sequence(Shape::random(&mut self.random, 1), most);
                let halves = [shape.clone(), shape.clone()];
                let ways = most + 1;
                let pattern =
                    self.pattern_list(kind::P_CONCATENATION, &halves, ways, true, 1, names);
                (pattern, self.expression(&shape, depth - 1))
            }
            _ if depth > 1 => {
                let (first, left) = self.matching(depth - 1, names);
                let (second, right) = self.matching(depth - 1, names);
                let record = self.out.node(kind::P_TUPLE, &[first.record, second.record]);
                let bindings = first.bindings.saturating_mul(second.bindings);
                let operand = self.out.node(kind::TUPLE, &[left, right]);
                (Pattern { record, bindings }, operand)
            }
            _ => self.pairing(1, depth, names),
        }
    }

    /// A set or map enumeration, and a value of as many members or entries.
    fn pairing(&mut self, count: usize, depth: usize, names: &mut Names) -> (Pattern, usize) {
        let part = Shape::random(&mut self.random, 1);
        let shape = self.set_or_map(part, count);
        let pattern = self.paired_pattern(&shape, count, 1, names);
        (pattern, self.distinct_units(&shape, count, depth - 1))
    }

    /// A union or munion, and a value to be split.
    fn splitting(&mut self, depth: usize, names: &mut Names) -> (Pattern, usize) {
        // Integers mostly differ, so that there is something to split.
        let part = if self.random.once_in(3) {
            Shape::random(&mut self.random, 1)
        } else {
            Shape::Integer
        };
        let most = match self.random.below(16) {
            0 => 1,
            _ => 2 + self.random.below(3),
        };
        let shape = self.set_or_map(part, most);
        let pattern = self.split_pattern(&shape, most, 1, names);
        (pattern, self.split_operand(&shape, most, depth))
    }

    /// Sets of such members or, now and then, maps of such keys: to values of the same shape, so that a name may stand for
    /// a key and a value, or of any other.
    fn set_or_map(&mut self, part: Shape, most: usize) -> Shape {
        if !self.random.once_in(3) {
            return Shape::set(part, most);
        }
        let value = if self.random.once_in(2) {
            part.clone()
        } else {
            Shape::random(&mut self.random, 1)
        };
        Shape::map(part, value, most)
    }

    /// A set or map to be split; wildly, one of 7 to 9 members or entries.
    fn split_operand(&mut self, shape: &Shape, most: usize, depth: usize) -> usize {
        let splits_of_seven = 126f64.ln();
        if self.times == 1 && self.lists > splits_of_seven && self.wildly(6) {
            self.lists -= splits_of_seven;
            let most = self.random.between(7, 9);
            return self.numbered(shape, most);
        }
        // Any other may have a member or entry or none, and then it has no split.
        if !self.random.once_in(8) {
            return self.distinct_units(shape, most, depth - 1);
        }
        self.expression(shape, depth - 1)
    }

    /// {1,...,n}, or for maps {a |-> a | a in set {1,...,n} & true} where a name is left for it.
    fn numbered(&mut self, shape: &Shape, most: i32) -> usize {
        match (shape, self.fresh_name(&Names::new())) {
            (Shape::Map(..), Some(name)) => self.out.entries(name, 1, most),
            _ => self.out.range(1, most),
        }
    }

    /// A let-be; nothing where a choice may not stand here.
    fn let_be(&mut self, shape: &Shape, depth: usize) -> Option<usize> {
        let before = self.mark();
        let binding = self.set_binding(6, depth);
        if !self.afford_choice(binding.pattern.bindings) {
            self.return_to(before);
            return None;
        }
        let condition = self.condition(&binding.names, depth);
        let body = self.within(&binding.names, |w| w.body(shape, depth - 1));
        let operands = [binding.pattern.record, binding.operand, condition, body];
        Some(self.out.node(kind::LET_BE, &operands))
    }

    pub fn quantifier(&mut self, depth: usize) -> usize {
        let kind = self
            .random
            .pick(&[kind::FORALL, kind::EXISTS, kind::EXISTS1]);
        let binding = self.set_binding(20, depth);
        let condition = self.condition(&binding.names, depth);
        self.out
            .node(kind, &[binding.pattern.record, binding.operand, condition])
    }

    /// An iota; its condition mostly holds for one member only.
    pub fn iota(&mut self, shape: &Shape, depth: usize) -> usize {
        let mut names = Names::new();
        let Some(name) = self.fresh_name(&names) else {
            return self.leaf(shape);
        };
        names.push((name, shape.clone()));
        let pattern = self.out.p_name(name);
        let sought = shape.has_many_literals() && !self.random.once_in(8);
        let count = if sought { 1 + self.random.below(3) } else { 1 };
        let set = self.distinct_members(shape, count, depth - 1);
        let condition = if sought {
            let bound = self.out.name(name);
            let literal = self.wanted_literal(set, shape);
            self.out.binary(binary::EQUAL, bound, literal)
        } else if self.random.once_in(2) {
            self.out.boolean(true)
        } else {
            self.condition(&names, depth)
        };
        self.out.node(kind::IOTA, &[pattern, set, condition])
    }

    /// A literal of the shape, integer or quote, that stands within the records of a set, to be looked for.
    fn wanted_literal(&mut self, set: usize, shape: &Shape) -> usize {
        let kind = match shape {
            Shape::Quote => kind::QUOTE,
            _ => kind::INTEGER,
        };
        let mut literals = self.out.records[..=set].iter().rev();
        match literals.find(|record| record.kind == kind).cloned() {
            Some(found) => self.out.record(kind, &found.constants, &[]),
            None => self.numbered_literal(shape, 1),
        }
    }

    pub fn set_comprehension(&mut self, member: &Shape, most: usize, depth: usize) -> usize {
        let binding = self.set_binding(most, depth);
        let condition = self.condition(&binding.names, depth);
        let element = self.element(&binding, member, depth);
        let operands = [binding.pattern.record, binding.operand, condition, element];
        self.out.node(kind::SET_COMPREHENSION, &operands)
    }

    /// A sequence comprehension; nothing where no name is left for it.
    pub fn sequence_comprehension(
        &mut self,
        item: &Shape,
        most: usize,
        depth: usize,
    ) -> Option<usize> {
        let name = self.fresh_name(&Names::new())?;
        let names = vec![(name, Shape::Integer)];
        let record = self.out.p_name(name);
        let operand = self.distinct_members(&Shape::Integer, most, depth - 1);
        let pattern = Pattern {
            record,
            bindings: most,
        };
        let binding = Binding {
            pattern,
            operand,
            names,
        };
        let condition = self.condition(&binding.names, depth);
        let element = self.element(&binding, item, depth);
        let operands = [record, operand, condition, element];
        Some(self.out.node(kind::SEQUENCE_COMPREHENSION, &operands))
    }

    /// A map comprehension; its key is mostly a name that it binds, so that keys differ.
    pub fn map_comprehension(
        &mut self,
        key: &Shape,
        value: &Shape,
        most: usize,
        depth: usize,
    ) -> usize {
        let mut names = Names::new();
        let record = self.name_pattern(key, &mut names);
        let operand = self.distinct_members(key, most, depth - 1);
        let pattern = Pattern {
            record,
            bindings: most,
        };
        let binding = Binding {
            pattern,
            operand,
            names,
        };
        let condition = self.condition(&binding.names, depth);
        let key = match binding.names.first() {
            Some(&(name, _)) if !self.random.once_in(4) => self.out.name(name),
            _ => self.element(&binding, key, depth),
        };
        let value = self.element(&binding, value, depth);
        let operands = [record, operand, condition, key, value];
        self.out.node(kind::MAP_COMPREHENSION, &operands)
    }

    fn element(&mut self, binding: &Binding, shape: &Shape, depth: usize) -> usize {
        self.repeated(binding.pattern.bindings, |w| {
            w.within(&binding.names, |w| w.expression(shape, depth - 1))
        })
    }

    /// A pattern over the members of a set, with at most so many bindings in all.
    fn set_binding(&mut self, most: usize, depth: usize) -> Binding {
        let member = Shape::random(&mut self.random, 1);
        let count = most.clamp(1, 2) + self.random.below(most.clamp(2, 4) - 1);
        let before = self.out.records.len();
        let mut names = Names::new();
        let mut pattern = self.pattern(&member, true, 2, &mut names);
        if pattern.bindings.saturating_mul(count) > most {
            self.out.records.truncate(before);
            names.clear();
            let record = self.name_pattern(&member, &mut names);
            let bindings = 1;
            pattern = Pattern { record, bindings };
        }
        pattern.bindings *= count;
        let operand = if self.random.once_in(5) {
            self.expression(&Shape::set(member, count), depth - 1)
        } else {
            self.distinct_members(&member, count, depth - 1)
        };
        Binding {
            pattern,
            operand,
            names,
        }
    }

    /// A boolean that mostly depends on the names just bound.
    fn condition(&mut self, names: &Names, depth: usize) -> usize {
        let outer = std::mem::replace(&mut self.in_condition, true);
        let literals = names.iter().filter(|(_, shape)| shape.has_many_literals());
        let literals: Vec<&(u8, Shape)> = literals.collect();
        let plain = if literals.is_empty() { 2 } else { 4 };
        let record = if self.random.once_in(plain) {
            self.out.boolean(true)
        } else if !literals.is_empty() && !self.random.once_in(3) {
            let (name, shape) = self.random.pick(&literals);
            self.compared(*name, shape)
        } else {
            self.within(names, |w| w.expression(&Shape::Boolean, depth - 1))
        };
        self.in_condition = outer;
        record
    }

    /// A name of an integer or quote compared with a literal.
    fn compared(&mut self, name: u8, shape: &Shape) -> usize {
        let left = self.out.name(name);
        let index = self.random.below(5);
        let right = self.numbered_literal(shape, index);
        let operators = match shape {
            Shape::Quote => &[binary::NOT_EQUAL, binary::EQUAL][..],
            _ => &[
                binary::NOT_EQUAL,
                binary::NOT_EQUAL,
                binary::LESS,
                binary::LESS_OR_EQUAL,
                binary::GREATER,
                binary::GREATER_OR_EQUAL,
            ],
        };
        let operator = self.random.pick(operators);
        self.out.binary(operator, left, right)
    }
}
