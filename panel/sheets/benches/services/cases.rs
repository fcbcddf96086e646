//! The sheets that are measured.

use generator::builder::{binary, kind, unary};
use generator::Builder;

fn build(write: impl FnOnce(&mut Builder) -> usize) -> Vec<u8> {
    let mut builder = Builder::new();
    write(&mut builder);
    builder.table()
}

/// Minuses on a literal, so many records high.
pub fn chain(height: usize) -> Vec<u8> {
    build(|b| {
        let literal = b.integer(5);
        (1..height).fold(literal, |operand, _| b.unary(unary::NEGATE, operand))
    })
}

/// forall a in set {1,...,63} & -(..(-a)) <> a, with an odd number of minuses, 32 records high.
pub fn deep_condition() -> Vec<u8> {
    build(|b| {
        let pattern = b.p_name(0);
        let set = b.range(1, 63);
        let name = b.name(0);
        let minuses = (0..29).fold(name, |operand, _| b.unary(unary::NEGATE, operand));
        let other = b.name(0);
        let differ = b.binary(binary::NOT_EQUAL, minuses, other);
        b.node(kind::FORALL, &[pattern, set, differ])
    })
}

/// The deepest sheet that nests what the label says.
pub fn deepest(label: &str) -> Vec<u8> {
    let sheets = generator::deepest();
    let found = sheets.into_iter().find(|(nested, _)| nested == label);
    found.expect("a label of the deepest sheets").1
}

/// 200 records, as many bytes as their tree allows: sequences of eight, of literals at last.
pub fn largest() -> Vec<u8> {
    build(|b| {
        let mut level: Vec<usize> = (0..174).map(|number| b.integer(number)).collect();
        while level.len() > 1 {
            let parts = level.chunks(8).map(|items| b.node(kind::SEQUENCE, items));
            level = parts.collect();
        }
        level[0]
    })
}

/// let a in set {1,...,40} be st true in let b in set {1,...,25} be st a <> b in a * b.
pub fn nested_choices() -> Vec<u8> {
    build(|b| {
        let outer = b.p_name(0);
        let outer_set = b.range(1, 40);
        let always = b.boolean(true);
        let inner = b.p_name(1);
        let inner_set = b.range(1, 25);
        let condition = of_names(b, binary::NOT_EQUAL);
        let product = of_names(b, binary::TIMES);
        let body = b.node(kind::LET_BE, &[inner, inner_set, condition, product]);
        b.node(kind::LET_BE, &[outer, outer_set, always, body])
    })
}

/// let a union b = {1,...,7} in card a.
pub fn union_of_seven() -> Vec<u8> {
    build(|b| {
        let halves = [b.p_name(0), b.p_name(1)];
        let pattern = b.node(kind::P_UNION, &halves);
        let set = b.range(1, 7);
        let half = b.name(0);
        let body = b.unary(unary::CARD, half);
        b.node(kind::LET, &[pattern, set, body])
    })
}

/// {card {a * b | b in set {1,...,63} & a <> b} | a in set {1,...,63} & true}.
pub fn nested_comprehensions() -> Vec<u8> {
    build(|b| {
        let outer = b.p_name(0);
        let outer_set = b.range(1, 63);
        let always = b.boolean(true);
        let inner = b.p_name(1);
        let inner_set = b.range(1, 63);
        let condition = of_names(b, binary::NOT_EQUAL);
        let product = of_names(b, binary::TIMES);
        let operands = [inner, inner_set, condition, product];
        let products = b.node(kind::SET_COMPREHENSION, &operands);
        let element = b.unary(unary::CARD, products);
        b.node(
            kind::SET_COMPREHENSION,
            &[outer, outer_set, always, element],
        )
    })
}

/// forall a in set {1,...,63} & forall b in set {1,...,63} & a * b = b * a.
pub fn quantifiers() -> Vec<u8> {
    build(|b| {
        let outer = b.p_name(0);
        let outer_set = b.range(1, 63);
        let inner = b.p_name(1);
        let inner_set = b.range(1, 63);
        let products = [of_names(b, binary::TIMES), of_names(b, binary::TIMES)];
        let same = b.binary(binary::EQUAL, products[0], products[1]);
        let condition = b.node(kind::FORALL, &[inner, inner_set, same]);
        b.node(kind::FORALL, &[outer, outer_set, condition])
    })
}

/// let a = {b |-> b * b | b in set {1,...,31} & true} in [a(b) | b in set {1,...,31} & true].
pub fn applied_map() -> Vec<u8> {
    build(|b| {
        let pattern = b.p_name(0);
        let (of_map, map_set, always) = (b.p_name(1), b.range(1, 31), b.boolean(true));
        let key = b.name(1);
        let sides = [b.name(1), b.name(1)];
        let square = b.binary(binary::TIMES, sides[0], sides[1]);
        let operands = [of_map, map_set, always, key, square];
        let map = b.node(kind::MAP_COMPREHENSION, &operands);
        let (of_items, item_set, always) = (b.p_name(1), b.range(1, 31), b.boolean(true));
        let applied = [b.name(0), b.name(1)];
        let item = b.node(kind::APPLY, &applied);
        let operands = [of_items, item_set, always, item];
        let body = b.node(kind::SEQUENCE_COMPREHENSION, &operands);
        b.node(kind::LET, &[pattern, map, body])
    })
}

/// An arithmetic progression: so many integers, from the first on by the step.
pub struct Progression {
    pub first: i32,
    pub step: i32,
    pub count: i32,
}

impl Progression {
    /// {step * c + (first - step) | c in set {1,...,count} & true}.
    fn write(self, b: &mut Builder) -> usize {
        let (pattern, set, always) = (b.p_name(2), b.range(1, self.count), b.boolean(true));
        let (step, name) = (b.integer(self.step), b.name(2));
        let steps = b.binary(binary::TIMES, step, name);
        let before = b.integer(self.first - self.step);
        let element = b.binary(binary::PLUS, steps, before);
        let operands = [pattern, set, always, element];
        b.node(kind::SET_COMPREHENSION, &operands)
    }
}

/// let a = .. in let b = .. in forall c in set {1,...,63} & card (a union b) = 62, where the two sides make up
/// {1,...,62}.
pub fn unions(sides: [Progression; 2]) -> Vec<u8> {
    build(|b| {
        let patterns = [b.p_name(0), b.p_name(1)];
        let sides = sides.map(|side| side.write(b));
        let (pattern, set) = (b.p_name(2), b.range(1, 63));
        let union = of_names(b, binary::UNION);
        let (count, all) = (b.unary(unary::CARD, union), b.integer(62));
        let condition = b.binary(binary::EQUAL, count, all);
        let unions = b.node(kind::FORALL, &[pattern, set, condition]);
        let body = b.node(kind::LET, &[patterns[1], sides[1], unions]);
        b.node(kind::LET, &[patterns[0], sides[0], body])
    })
}

/// Four choices among so many in a tuple: for 10 there are 10,000 lists, for 11 14,641.
pub fn four_choices(members: i32) -> Vec<u8> {
    build(|b| {
        let choices: Vec<usize> = (0..4).map(|name| b.choice(name, 0, members - 1)).collect();
        b.node(kind::TUPLE, &choices)
    })
}

/// An operator on the names 0 and 1.
fn of_names(b: &mut Builder, operator: u8) -> usize {
    let sides = [b.name(0), b.name(1)];
    b.binary(operator, sides[0], sides[1])
}
