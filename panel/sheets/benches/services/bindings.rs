//! Lets and let-bes whose bindings are formed and counted: with an empty list a run ends in 32 once they are, or in 30, or in 23 where there is none. An
//! exists whose first binding settles it takes what forming them takes, and no more; a let-be tests every binding, window by window.

#[allow(dead_code)]
#[path = "../../tests/patterns/pattern.rs"]
mod pattern;
#[path = "../../tests/common/written.rs"]
mod written;

use generator::builder::kind;
use generator::{Builder, Random};

/// Patterns of a let, each with the value that it is matched with.
const LETS: [(&str, &str); 26] = [
    ("mk_(a ^ -, b)", "mk_([],{1,2,3})"),
    ("{a,b,c,d}", "{1,2,3,4}"),
    (
        "a ^ (b ^ c)",
        "[1,2,3,4,5,6,7,8,9,10,11,12,13,14,15,16,17,18,19,20]",
    ),
    ("a union b", "{1,...,7}"),
    ("b union a", "{1,...,7}"),
    ("a union (b union c)", "{1,...,4}"),
    ("a union (b union c)", "{1,...,7}"),
    ("{a} union ({b} union ({c} union d))", "{1,...,7}"),
    ("mk_(a union b, c union d)", "mk_({1,2,3},{1,2,3})"),
    ("mk_(a union b, a union b)", "mk_({1,...,7},{1,...,7})"),
    ("(- union -) union a", "{1,...,7}"),
    ("a union (- union -)", "{1,...,7}"),
    ("- union (- union (- union -))", "{1,...,7}"),
    ("{-} union ({-} union a)", "{1,...,7}"),
    ("- union (a union -)", "{1,...,7}"),
    ("(a union -) union (- union -)", "{1,...,7}"),
    ("((a union {b}) union {-}) union {c}", "{1,...,7}"),
    ("((- union a) union a) union a", "{1,...,7}"),
    (
        "((- union {a}) union {-}) union (- union ({-} union {b}))",
        "{1,...,7}",
    ),
    (
        "(({-} union {-}) union ({-} union {-})) union (({-} union {-}) union a)",
        "{1,...,7}",
    ),
    (
        "({a union b} union c) union -",
        "{{1,2},{3,4},{5,6},{7,8},{9,10},{11,12},{13,14}}",
    ),
    (
        "- ^ (- ^ (- ^ a))",
        "[1,2,3,4,5,6,7,8,9,10,11,12,13,14,15,16,17,18,19,20]",
    ),
    (
        "(- ^ [a]) ^ (- ^ [b])",
        "[1,2,3,4,5,6,7,8,9,10,11,12,13,14,15,16,17,18,19,20]",
    ),
    ("{a|->b,c|->d,e|->f,g|->h}", "{1|->2,3|->4,5|->6,7|->8}"),
    ("a munion b", SEVEN_ENTRIES),
    ("a munion (b munion c)", SEVEN_ENTRIES),
];

/// Seven entries, some with their own key as value and some with another's, so that names which stand in keys and values may match.
const SEVEN_ENTRIES: &str = "{1|->1,2|->1,3|->3,4|->3,5|->5,6|->5,7|->7}";

/// The same of a let-be and of an exists, with their set.
const SETS: [(&str, &str); 2] = [
    ("a", "{1,...,63}"),
    (
        "a union b",
        "{{1},{1,2},{1,2,3},{1,...,4},{1,...,5},{1,...,6},{1,...,7}}",
    ),
];

/// Labels and tables.
pub fn tables() -> Vec<(String, Vec<u8>)> {
    let lets = LETS.map(|(pattern, value)| row(kind::LET, pattern, value));
    let let_bes = SETS.map(|(pattern, set)| row(kind::LET_BE, pattern, set));
    let exists = SETS.map(|(pattern, set)| {
        let (label, table) = row(kind::EXISTS, pattern, set);
        (format!("{label}, formed alone"), table)
    });
    let chains = (4..=8).flat_map(|parts| {
        [
            ("names", 'a', 'p'),
            ("wildcards", '-', '-'),
            ("wildcards and a name at the end", '-', 'a'),
        ]
        .map(|(what, first, last)| {
            let (_, table) = row(kind::LET, &chain(parts, first, last), "{1,...,7}");
            (
                format!("bindings, a union of {parts} parts, {what}, over {{1,...,7}}"),
                table,
            )
        })
    });
    lets.into_iter()
        .chain(let_bes)
        .chain(exists)
        .chain(chains)
        .collect()
}

/// Random unions of two to eight parts over seven members, in any shape: wildcards, distinct names, and sets of one and two of them.
pub fn unions() -> Vec<(String, Vec<u8>)> {
    let union = |seed| {
        let mut random = Random::new(seed);
        let parts = 2 + random.below(7);
        let pattern = Leaves::distinct().tree(Split::Union, &mut random, parts);
        row(kind::LET, &pattern, "{1,...,7}")
    };
    (0..200).map(union).collect()
}

/// Random munions of two to eight parts over seven entries, in any shape: wildcards, names, and maps of one and two entries of them. In one half of these
/// patterns names are distinct, in the other they are few and stand in keys and values again.
pub fn munions() -> Vec<(String, Vec<u8>)> {
    let munion = |seed| {
        let mut random = Random::new(seed);
        let parts = 2 + random.below(7);
        let mut leaves = match seed % 2 {
            0 => Leaves::distinct(),
            _ => Leaves::repeated(),
        };
        let pattern = leaves.tree(Split::Munion, &mut random, parts);
        row(kind::LET, &pattern, SEVEN_ENTRIES)
    };
    (0..200).map(munion).collect()
}

/// Random tuples of two such unions of two to five parts, each over seven members; the names of the first stand in the second too, or are others.
pub fn tuples(is_shared: bool) -> Vec<(String, Vec<u8>)> {
    let tuple = |seed| {
        let mut random = Random::new(seed);
        let parts = [2 + random.below(4), 2 + random.below(4)];
        let mut leaves = Leaves::distinct();
        let left = leaves.tree(Split::Union, &mut random, parts[0]);
        if is_shared {
            leaves = Leaves::distinct();
        }
        let right = leaves.tree(Split::Union, &mut random, parts[1]);
        let pattern = format!("mk_({left}, {right})");
        row(kind::LET, &pattern, "mk_({1,...,7},{1,...,7})")
    };
    (0..200).map(tuple).collect()
}

/// What is split: sets or maps.
#[derive(Clone, Copy)]
enum Split {
    Union,
    Munion,
}

/// The names that a random pattern has at its leaves, beside wildcards.
struct Leaves {
    names: Vec<char>,
    is_repeated: bool,
}

impl Leaves {
    /// Each of sixteen names once, in their order.
    fn distinct() -> Leaves {
        Leaves {
            names: ('a'..='p').collect(),
            is_repeated: false,
        }
    }

    /// Four names, any number of times.
    fn repeated() -> Leaves {
        Leaves {
            names: ('a'..='d').collect(),
            is_repeated: true,
        }
    }

    /// A name or a wildcard.
    fn leaf(&mut self, random: &mut Random) -> char {
        if !random.once_in(2) || self.names.is_empty() {
            return '-';
        }
        match self.is_repeated {
            true => random.pick(&self.names),
            false => self.names.remove(0),
        }
    }

    /// A member, or a key and a value.
    fn unit(&mut self, split: Split, random: &mut Random) -> String {
        match split {
            Split::Union => self.leaf(random).to_string(),
            Split::Munion => format!("{}|->{}", self.leaf(random), self.leaf(random)),
        }
    }

    /// A pattern of so many parts.
    fn tree(&mut self, split: Split, random: &mut Random, parts: usize) -> String {
        if parts > 1 {
            let left = 1 + random.below(parts - 1);
            let halves = [left, parts - left].map(|parts| match self.tree(split, random, parts) {
                half if parts > 1 => format!("({half})"),
                half => half,
            });
            return halves.join(match split {
                Split::Union => " union ",
                Split::Munion => " munion ",
            });
        }
        match random.below(3) {
            0 => self.leaf(random).to_string(),
            1 => format!("{{{}}}", self.unit(split, random)),
            _ => {
                let units = [self.unit(split, random), self.unit(split, random)];
                format!("{{{}}}", units.join(","))
            }
        }
    }
}

fn row(kind: u16, pattern: &str, value: &str) -> (String, Vec<u8>) {
    let mut sheet = Builder::new();
    let mut operands = vec![
        pattern::pattern(pattern).write(&mut sheet),
        written::write(&mut sheet, &pattern::value(value), &[0]),
    ];
    if kind == kind::LET_BE {
        operands.push(sheet.boolean(true));
    }
    operands.push(sheet.boolean(true));
    sheet.node(kind, &operands);
    (format!("bindings, `{pattern}` over {value}"), sheet.table())
}

/// `a union (b union (.. union p))`, or with the same sign for all parts but the last.
fn chain(parts: u8, first: char, last: char) -> String {
    let sign = |part: u8| match first {
        'a' => char::from(b'a' + part),
        sign => sign,
    };
    let innermost = format!("{} union {last}", sign(parts - 2));
    (0..parts - 2).rev().fold(innermost, |text, part| {
        format!("{} union ({text})", sign(part))
    })
}
