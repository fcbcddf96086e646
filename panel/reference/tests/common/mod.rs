//! A tiny builder of tables for the tests: nested records, each placed after its operands.
#![allow(dead_code, unused_imports)]

pub use forms::{binary, kind, unary};
use reference::eval::{evaluate, Evaluation};

/// A record with its operands nested in it.
#[derive(Clone)]
pub struct Node {
    kind: u16,
    bytes: Vec<u8>,
    operands: Vec<Node>,
}

impl Node {
    /// Adds the records of the node after those of a table; the number of the last.
    fn write(&self, table: &mut Vec<u8>, records: &mut u8) -> u8 {
        let operands: Vec<u8> = self
            .operands
            .iter()
            .map(|o| o.write(table, records))
            .collect();
        push_record(table, self.kind, &[self.bytes.clone(), operands].concat());
        *records += 1;
        *records - 1
    }

    /// The table whose last record this is.
    pub fn table(&self) -> Vec<u8> {
        let mut table = Vec::new();
        self.write(&mut table, &mut 0);
        table
    }

    /// Evaluates the sheet.
    pub fn under(&self, list: &[u8]) -> Evaluation {
        evaluate(&self.table(), list)
    }

    /// Number, place and count of an evaluation.
    pub fn answer(&self, list: &[u8]) -> (u32, usize, usize) {
        let end = self.under(list);
        assert_eq!(end.number == 0, end.value.is_some());
        (end.number, end.place, end.count)
    }

    /// The value of an evaluation under an empty list, as it prints.
    pub fn prints(&self) -> String {
        self.prints_under(&[])
    }

    /// The value of an evaluation, as it prints.
    pub fn prints_under(&self, list: &[u8]) -> String {
        let end = self.under(list);
        end.value.expect("a value").to_string()
    }
}

/// Adds a record to a table.
pub fn push_record(table: &mut Vec<u8>, kind: u16, fields: &[u8]) {
    table.extend((4 + fields.len() as u16).to_le_bytes());
    table.extend(kind.to_le_bytes());
    table.extend(fields);
}

/// A table of records, each a kind and its fields.
pub fn table_of(records: &[(u16, &[u8])]) -> Vec<u8> {
    let mut table = Vec::new();
    for (kind, fields) in records {
        push_record(&mut table, *kind, fields);
    }
    table
}

pub fn node(kind: u16, bytes: &[u8], operands: &[Node]) -> Node {
    Node {
        kind,
        bytes: bytes.to_vec(),
        operands: operands.to_vec(),
    }
}

pub fn boolean(truth: bool) -> Node {
    node(kind::BOOLEAN, &[u8::from(truth)], &[])
}

pub fn int(number: i32) -> Node {
    node(kind::INTEGER, &number.to_le_bytes(), &[])
}

pub fn quote(number: u16) -> Node {
    node(kind::QUOTE, &number.to_le_bytes(), &[])
}

pub fn name(name: u8) -> Node {
    node(kind::NAME, &[name], &[])
}

pub fn un(operator: u8, operand: Node) -> Node {
    node(kind::UNARY, &[operator], &[operand])
}

pub fn bin(operator: u8, left: Node, right: Node) -> Node {
    node(kind::BINARY, &[operator], &[left, right])
}

pub fn if_(test: Node, then: Node, otherwise: Node) -> Node {
    node(kind::IF, &[], &[test, then, otherwise])
}

pub fn set(operands: &[Node]) -> Node {
    node(kind::SET, &[], operands)
}

pub fn seq(operands: &[Node]) -> Node {
    node(kind::SEQUENCE, &[], operands)
}

/// Key, value, key, value.
pub fn map(operands: &[Node]) -> Node {
    node(kind::MAP, &[], operands)
}

pub fn tuple(operands: &[Node]) -> Node {
    node(kind::TUPLE, &[], operands)
}

pub fn range(from: i32, to: i32) -> Node {
    node(kind::RANGE, &[], &[int(from), int(to)])
}

pub fn let_(pattern: Node, value: Node, body: Node) -> Node {
    node(kind::LET, &[], &[pattern, value, body])
}

pub fn let_be(pattern: Node, set: Node, condition: Node, body: Node) -> Node {
    node(kind::LET_BE, &[], &[pattern, set, condition, body])
}

pub fn forall(pattern: Node, set: Node, condition: Node) -> Node {
    node(kind::FORALL, &[], &[pattern, set, condition])
}

pub fn exists(pattern: Node, set: Node, condition: Node) -> Node {
    node(kind::EXISTS, &[], &[pattern, set, condition])
}

pub fn exists1(pattern: Node, set: Node, condition: Node) -> Node {
    node(kind::EXISTS1, &[], &[pattern, set, condition])
}

pub fn iota(pattern: Node, set: Node, condition: Node) -> Node {
    node(kind::IOTA, &[], &[pattern, set, condition])
}

pub fn set_comp(pattern: Node, set: Node, condition: Node, element: Node) -> Node {
    node(
        kind::SET_COMPREHENSION,
        &[],
        &[pattern, set, condition, element],
    )
}

pub fn seq_comp(pattern: Node, set: Node, condition: Node, element: Node) -> Node {
    node(
        kind::SEQUENCE_COMPREHENSION,
        &[],
        &[pattern, set, condition, element],
    )
}

pub fn map_comp(pattern: Node, set: Node, condition: Node, key: Node, value: Node) -> Node {
    node(
        kind::MAP_COMPREHENSION,
        &[],
        &[pattern, set, condition, key, value],
    )
}

pub fn apply(function: Node, argument: Node) -> Node {
    node(kind::APPLY, &[], &[function, argument])
}

pub fn p_name(name: u8) -> Node {
    node(kind::P_NAME, &[name], &[])
}

pub fn p_any() -> Node {
    node(kind::P_ANY, &[], &[])
}

pub fn p_boolean(truth: bool) -> Node {
    node(kind::P_BOOLEAN, &[u8::from(truth)], &[])
}

pub fn p_int(number: i32) -> Node {
    node(kind::P_INTEGER, &number.to_le_bytes(), &[])
}

pub fn p_quote(number: u16) -> Node {
    node(kind::P_QUOTE, &number.to_le_bytes(), &[])
}

pub fn p_tuple(parts: &[Node]) -> Node {
    node(kind::P_TUPLE, &[], parts)
}

pub fn p_set(parts: &[Node]) -> Node {
    node(kind::P_SET, &[], parts)
}

pub fn p_union(left: Node, right: Node) -> Node {
    node(kind::P_UNION, &[], &[left, right])
}

pub fn p_seq(parts: &[Node]) -> Node {
    node(kind::P_SEQUENCE, &[], parts)
}

pub fn p_conc(left: Node, right: Node) -> Node {
    node(kind::P_CONCATENATION, &[], &[left, right])
}

/// Key, value, key, value.
pub fn p_map(parts: &[Node]) -> Node {
    node(kind::P_MAP, &[], parts)
}

pub fn p_munion(left: Node, right: Node) -> Node {
    node(kind::P_MUNION, &[], &[left, right])
}

/// {p |-> p | p in set {from,...,to} & true}.
pub fn entries(from: i32, to: i32) -> Node {
    map_comp(
        p_name(15),
        range(from, to),
        boolean(true),
        name(15),
        name(15),
    )
}

/// A set, sequence or the like of integers.
pub fn ints(numbers: &[i32]) -> Vec<Node> {
    numbers.iter().copied().map(int).collect()
}

/// 1 div 0 = 1, which is refused with 22 when evaluated.
pub fn undefined() -> Node {
    bin(binary::EQUAL, bin(binary::DIV, int(1), int(0)), int(1))
}
