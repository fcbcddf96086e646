//! Sheets at each limit, and one past it.

use crate::builder::{binary, kind, unary, Builder};

/// A table for each limit and for one past it, with a label that says which.
pub fn at_limits() -> Vec<(&'static str, Vec<u8>)> {
    let mut sheets = values();
    sheets.extend([
        ("84 bindings of quotes", build(choice_of_quotes)),
        ("64 choices", build(|b| choices(b, 64))),
        ("65 choices", build(|b| choices(b, 65))),
        ("height 32", build(|b| height(b, 32))),
        ("height 33", build(|b| height(b, 33))),
        ("200 records", build(|b| records(b, 200))),
        ("201 records", build(|b| records(b, 201))),
        ("2400 bytes", wide_records(2400)),
        ("2401 bytes", wide_records(2401)),
    ]);
    for (kind, labels) in SPLITS {
        let tables = [0, 1, 2, 7, 8].map(|count| build(|b| splits(b, kind, count)));
        sheets.extend(labels.into_iter().zip(tables));
    }
    for (kind, labels) in PRODUCTS {
        let tables = [
            build(|b| two_splits(b, kind, 7, 2)),
            build(|b| two_splits(b, kind, 5, 4)),
            build(|b| split_and_cut(b, kind, 5, 50)),
            build(|b| split_and_cut(b, kind, 4, 63)),
        ];
        sheets.extend(labels.into_iter().zip(tables));
    }
    sheets.extend(
        BINDERS.map(|(label, kind, lengths)| (label, build(|b| bindings(b, kind, lengths)))),
    );
    sheets
}

/// Values of 512 bytes and over, and the ends of the quotes.
fn values() -> Vec<(&'static str, Vec<u8>)> {
    vec![
        ("set range of 63", build(|b| b.range(1, 63))),
        ("set range of 64", build(|b| b.range(1, 64))),
        (
            "set range of the widest",
            build(|b| b.range(i32::MIN, i32::MAX)),
        ),
        ("set of 512 bytes", build(|b| set_and(b, kind::SEQUENCE))),
        ("set of 513 bytes", build(|b| set_and(b, kind::BOOLEAN))),
        ("sequence of 512 bytes", build(|b| sequence_and(b, 61, 4))),
        ("sequence of 513 bytes", build(|b| sequence_and(b, 63, 1))),
        ("map of 512 bytes", build(|b| map_and(b, kind::SEQUENCE))),
        ("map of 513 bytes", build(|b| map_and(b, kind::BOOLEAN))),
        ("tuple of 512 bytes", build(|b| tuple_and(b, false))),
        ("tuple of 513 bytes", build(|b| tuple_and(b, true))),
        ("quote 0", build(|b| b.quote(0))),
        ("quote 65535", build(|b| b.quote(u16::MAX))),
        ("set of 84 quotes", build(|b| quotes(b, 84))),
        ("set of 85 quotes", build(|b| quotes(b, 85))),
    ]
}

/// Members and entries that a pattern splits.
const SPLITS: [(u16, [&str; 5]); 2] = [
    (
        kind::P_UNION,
        [
            "no member under a union pattern",
            "1 member under a union pattern",
            "2 members under a union pattern",
            "7 members under a union pattern",
            "8 members under a union pattern",
        ],
    ),
    (
        kind::P_MUNION,
        [
            "no entry under a munion pattern",
            "1 entry under a munion pattern",
            "2 entries under a munion pattern",
            "7 entries under a munion pattern",
            "8 entries under a munion pattern",
        ],
    ),
];

/// Bindings of two splits, and of a split and a concatenation.
const PRODUCTS: [(u16, [&str; 4]); 2] = [
    (
        kind::P_UNION,
        [
            "126 × 2 bindings of two unions",
            "30 × 14 bindings of two unions",
            "5 × 51 bindings of a union and a concatenation",
            "4 × 64 bindings of a union and a concatenation",
        ],
    ),
    (
        kind::P_MUNION,
        [
            "126 × 2 bindings of two munions",
            "30 × 14 bindings of two munions",
            "5 × 51 bindings of a munion and a concatenation",
            "4 × 64 bindings of a munion and a concatenation",
        ],
    ),
];

/// Binders of 255 bindings (51 × 5) and of 256 (32 × 8), as splits of two sequences.
const BINDERS: [(&str, u16, [i32; 2]); 14] = [
    ("255 bindings of a let", kind::LET, [50, 4]),
    ("256 bindings of a let", kind::LET, [31, 7]),
    ("255 bindings of a let-be", kind::LET_BE, [50, 4]),
    ("256 bindings of a let-be", kind::LET_BE, [31, 7]),
    ("255 bindings of a forall", kind::FORALL, [50, 4]),
    ("256 bindings of a forall", kind::FORALL, [31, 7]),
    ("255 bindings of an exists", kind::EXISTS, [50, 4]),
    ("256 bindings of an exists", kind::EXISTS, [31, 7]),
    ("255 bindings of an exists1", kind::EXISTS1, [50, 4]),
    ("256 bindings of an exists1", kind::EXISTS1, [31, 7]),
    (
        "255 bindings of a set comprehension",
        kind::SET_COMPREHENSION,
        [50, 4],
    ),
    (
        "256 bindings of a set comprehension",
        kind::SET_COMPREHENSION,
        [31, 7],
    ),
    (
        "255 bindings of a map comprehension",
        kind::MAP_COMPREHENSION,
        [50, 4],
    ),
    (
        "256 bindings of a map comprehension",
        kind::MAP_COMPREHENSION,
        [31, 7],
    ),
];

fn build(write: impl FnOnce(&mut Builder) -> usize) -> Vec<u8> {
    let mut builder = Builder::new();
    write(&mut builder);
    builder.table()
}

/// {1,...,63}, of 508 bytes, with [] or true as one more member.
fn set_and(b: &mut Builder, more: u16) -> usize {
    let numbers = b.range(1, 63);
    let member = empty_or_true(b, more);
    let set = b.node(kind::SET, &[member]);
    b.binary(binary::UNION, numbers, set)
}

fn empty_or_true(b: &mut Builder, more: u16) -> usize {
    if more == kind::BOOLEAN {
        b.boolean(true)
    } else {
        b.node(kind::SEQUENCE, &[])
    }
}

/// [1,...,n] by a comprehension over name 0.
fn numbers(b: &mut Builder, most: i32) -> usize {
    items(b, most, |b| b.name(0))
}

/// So many items by a comprehension over name 0.
fn items(b: &mut Builder, count: i32, item: fn(&mut Builder) -> usize) -> usize {
    let pattern = b.p_name(0);
    let set = b.range(1, count);
    let condition = b.boolean(true);
    let element = item(b);
    b.node(
        kind::SEQUENCE_COMPREHENSION,
        &[pattern, set, condition, element],
    )
}

/// So many integers and then so many booleans.
fn sequence_and(b: &mut Builder, integers: i32, booleans: usize) -> usize {
    let left = numbers(b, integers);
    let items: Vec<usize> = (0..booleans).map(|_| b.boolean(true)).collect();
    let right = b.node(kind::SEQUENCE, &items);
    b.binary(binary::CONCATENATE, left, right)
}

/// {1|->1,...,31|->31}, of 500 bytes, with 0|->[] or 0|->true as one more entry.
fn map_and(b: &mut Builder, more: u16) -> usize {
    let numbers = b.entries(0, 1, 31);
    let key = b.integer(0);
    let value = empty_or_true(b, more);
    let entry = b.node(kind::MAP, &[key, value]);
    b.binary(binary::MUNION, numbers, entry)
}

/// A pair of a sequence of 500 bytes with an integer, of 8, or with [true], of 9.
fn tuple_and(b: &mut Builder, over: bool) -> usize {
    let left = numbers(b, 62);
    let right = if over {
        let item = b.boolean(true);
        b.node(kind::SEQUENCE, &[item])
    } else {
        b.integer(5)
    };
    b.node(kind::TUPLE, &[left, right])
}

/// A set of so many quotes, each of 6 bytes, joined of sets of eight.
fn quotes(b: &mut Builder, count: u16) -> usize {
    let quotes: Vec<usize> = (0..count).map(|number| b.quote(771 * number)).collect();
    let sets: Vec<usize> = quotes.chunks(8).map(|q| b.node(kind::SET, q)).collect();
    let unions = sets.into_iter();
    let unions = unions.reduce(|left, right| b.binary(binary::UNION, left, right));
    unions.expect("a set")
}

/// let a in set S be st true in a, where S is a set of 84 quotes.
fn choice_of_quotes(b: &mut Builder) -> usize {
    let (pattern, set) = (b.p_name(0), quotes(b, 84));
    let (condition, body) = (b.boolean(true), b.name(0));
    b.node(kind::LET_BE, &[pattern, set, condition, body])
}

/// What a pattern of the kind splits: {1,...,n}, or {a |-> a | a in set {1,...,n} & true}.
fn whole(b: &mut Builder, kind: u16, count: i32) -> usize {
    match kind {
        kind::P_MUNION => b.entries(0, 1, count),
        _ => b.range(1, count),
    }
}

/// How many members or entries the half has that a name holds.
fn card(b: &mut Builder, kind: u16, name: u8) -> usize {
    let mut half = b.name(name);
    if kind == kind::P_MUNION {
        half = b.unary(unary::DOM, half);
    }
    b.unary(unary::CARD, half)
}

/// let a union b = {1,...,n} in card a, or the like of a map.
fn splits(b: &mut Builder, kind: u16, count: i32) -> usize {
    let halves = [b.p_name(0), b.p_name(1)];
    let pattern = b.node(kind, &halves);
    let value = whole(b, kind, count);
    let body = card(b, kind, 0);
    b.node(kind::LET, &[pattern, value, body])
}

/// let mk_(a union b, c union d) = mk_({1,...,n},{1,...,m}) in mk_(card a, card c), or the like of maps: n members or
/// entries have 2^n - 2 splits.
fn two_splits(b: &mut Builder, kind: u16, left: i32, right: i32) -> usize {
    let halves = [b.p_name(1), b.p_name(2)];
    let one = b.node(kind, &halves);
    let halves = [b.p_name(3), b.p_name(4)];
    let other = b.node(kind, &halves);
    let pattern = b.node(kind::P_TUPLE, &[one, other]);
    let pair = [whole(b, kind, left), whole(b, kind, right)];
    let value = b.node(kind::TUPLE, &pair);
    let cards = [card(b, kind, 1), card(b, kind, 3)];
    let body = b.node(kind::TUPLE, &cards);
    b.node(kind::LET, &[pattern, value, body])
}

/// let mk_({a} union b, c ^ d) = mk_({1,...,n},[true,...,true]) in mk_(a, len c), or with {a |-> -} munion b: n splits and
/// as many cuts as items, and one.
fn split_and_cut(b: &mut Builder, kind: u16, units: i32, count: i32) -> usize {
    let unit = match kind {
        kind::P_MUNION => {
            let entry = [b.p_name(1), b.p_any()];
            b.node(kind::P_MAP, &entry)
        }
        _ => {
            let member = b.p_name(1);
            b.node(kind::P_SET, &[member])
        }
    };
    let rest = b.p_name(2);
    let one = b.node(kind, &[unit, rest]);
    let halves = [b.p_name(3), b.p_name(4)];
    let other = b.node(kind::P_CONCATENATION, &halves);
    let pattern = b.node(kind::P_TUPLE, &[one, other]);
    let pair = [whole(b, kind, units), items(b, count, |b| b.boolean(true))];
    let value = b.node(kind::TUPLE, &pair);
    let shown = [b.name(1), size(b, 3)];
    let body = b.node(kind::TUPLE, &shown);
    b.node(kind::LET, &[pattern, value, body])
}

/// A sum of 63 choices within a comprehension and of the rest beside it.
/// The last choice has two bindings, the others one.
fn choices(b: &mut Builder, count: usize) -> usize {
    let pattern = b.p_name(0);
    let set = b.range(1, 63);
    let condition = b.boolean(true);
    let element = b.choice(1, 1, 1);
    let items = b.node(
        kind::SEQUENCE_COMPREHENSION,
        &[pattern, set, condition, element],
    );
    let mut sum = b.unary(unary::LEN, items);
    for index in 64..=count {
        let right = b.choice(1, 1, if index == count { 2 } else { 1 });
        sum = b.binary(binary::PLUS, sum, right);
    }
    sum
}

/// Unary minuses on a literal.
fn height(b: &mut Builder, height: usize) -> usize {
    let literal = b.integer(5);
    (1..height).fold(literal, |operand, _| b.unary(unary::NEGATE, operand))
}

/// A sum of ones, with a minus on it where the number of records is even.
fn records(b: &mut Builder, count: usize) -> usize {
    let mut terms: Vec<usize> = (0..count.div_ceil(2)).map(|_| b.integer(1)).collect();
    while terms.len() > 1 {
        let pairs = terms.chunks(2).map(|pair| match *pair {
            [left, right] => b.binary(binary::PLUS, left, right),
            _ => pair[0],
        });
        terms = pairs.collect();
    }
    if count.is_multiple_of(2) {
        return b.unary(unary::NEGATE, terms[0]);
    }
    terms[0]
}

/// Enumerations of 8 operands, 12 bytes each; a table of this size is past rule 3 but not accepted,
/// since 200 records that are each named once have under 1,800 bytes.
fn wide_records(bytes: usize) -> Vec<u8> {
    let mut builder = Builder::new();
    for _ in 0..200 {
        builder.node(kind::SET, &[0; 8]);
    }
    let mut table = builder.table();
    table.resize(bytes, 0);
    table
}

/// A binder over the splits of two sequences, as many as the product of their lengths, each plus one.
fn bindings(b: &mut Builder, kind: u16, lengths: [i32; 2]) -> usize {
    let halves = [b.p_name(1), b.p_name(2)];
    let left = b.node(kind::P_CONCATENATION, &halves);
    let halves = [b.p_name(3), b.p_name(4)];
    let right = b.node(kind::P_CONCATENATION, &halves);
    let pattern = b.node(kind::P_TUPLE, &[left, right]);
    let pair = [numbers(b, lengths[0]), numbers(b, lengths[1])];
    let mut operand = b.node(kind::TUPLE, &pair);
    if kind != kind::LET {
        operand = b.node(kind::SET, &[operand]);
    }
    let mut operands = vec![pattern, operand];
    operands.extend(covered(b, kind));
    b.node(kind, &operands)
}

/// The operands that the names of a binder of splits cover.
fn covered(b: &mut Builder, kind: u16) -> Vec<usize> {
    match kind {
        kind::LET => vec![split_sizes(b)],
        kind::LET_BE => vec![b.boolean(true), split_sizes(b)],
        kind::SET_COMPREHENSION => vec![b.boolean(true), size(b, 1)],
        kind::MAP_COMPREHENSION => vec![b.boolean(true), size(b, 3), b.integer(0)],
        kind::FORALL => vec![total_compared(b, binary::GREATER_OR_EQUAL)],
        kind::EXISTS => vec![total_compared(b, binary::LESS)],
        _ => vec![total_compared(b, binary::EQUAL)],
    }
}

/// The length of the half that a name holds.
fn size(b: &mut Builder, name: u8) -> usize {
    let half = b.name(name);
    b.unary(unary::LEN, half)
}

fn split_sizes(b: &mut Builder) -> usize {
    let sizes = [size(b, 1), size(b, 3)];
    b.node(kind::TUPLE, &sizes)
}

/// The total length of both first halves, compared with 0.
fn total_compared(b: &mut Builder, operator: u8) -> usize {
    let (left, right) = (size(b, 1), size(b, 3));
    let total = b.binary(binary::PLUS, left, right);
    let zero = b.integer(0);
    b.binary(operator, total, zero)
}

#[cfg(test)]
mod tests {
    use super::*;

    fn labelled(label: &str) -> Vec<u8> {
        let mut sheets = at_limits().into_iter();
        sheets.find(|(other, _)| *other == label).unwrap().1
    }

    #[test]
    fn no_label_stands_twice() {
        let mut labels: Vec<_> = at_limits().into_iter().map(|(label, _)| label).collect();
        let count = labels.len();
        labels.sort();
        labels.dedup();
        assert_eq!(labels.len(), count);
    }

    #[test]
    fn sizes() {
        assert_eq!(labelled("2400 bytes").len(), 2400);
        assert_eq!(labelled("2401 bytes").len(), 2401);
        for count in [200, 201] {
            let mut builder = Builder::new();
            records(&mut builder, count);
            assert_eq!(builder.records.len(), count);
        }
        let mut builder = Builder::new();
        height(&mut builder, 33);
        assert_eq!(builder.heights().last(), Some(&33));
    }
}
