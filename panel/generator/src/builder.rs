//! Builds tables: records are appended one by one, and each is known by its number.

use forms::HEADER;
pub use forms::{binary, kind, unary};

use crate::random::Random;

/// One record: its kind, the bytes of its operator or literal, and the records that it names.
#[derive(Clone, Debug, PartialEq, Eq)]
pub struct Record {
    pub kind: u16,
    pub constants: Vec<u8>,
    pub operands: Vec<usize>,
}

impl Record {
    pub fn is_pattern(&self) -> bool {
        self.kind >= kind::P_NAME
    }

    pub fn bytes(&self) -> Vec<u8> {
        let length = (HEADER + self.constants.len() + self.operands.len()) as u16;
        let mut bytes = Vec::from(length.to_le_bytes());
        bytes.extend(self.kind.to_le_bytes());
        bytes.extend(&self.constants);
        bytes.extend(self.operands.iter().map(|&operand| operand as u8));
        bytes
    }
}

/// A table in the making.
#[derive(Clone, Debug, Default)]
pub struct Builder {
    pub records: Vec<Record>,
}

impl Builder {
    pub fn new() -> Self {
        Builder::default()
    }

    /// Appends a record and gives its number.
    pub fn record(&mut self, kind: u16, constants: &[u8], operands: &[usize]) -> usize {
        self.records.push(Record {
            kind,
            constants: constants.to_vec(),
            operands: operands.to_vec(),
        });
        self.records.len() - 1
    }

    /// Appends a record that has operands alone.
    pub fn node(&mut self, kind: u16, operands: &[usize]) -> usize {
        self.record(kind, &[], operands)
    }

    pub fn boolean(&mut self, value: bool) -> usize {
        self.record(kind::BOOLEAN, &[u8::from(value)], &[])
    }

    pub fn integer(&mut self, value: i32) -> usize {
        self.record(kind::INTEGER, &value.to_le_bytes(), &[])
    }

    pub fn quote(&mut self, number: u16) -> usize {
        self.record(kind::QUOTE, &number.to_le_bytes(), &[])
    }

    pub fn name(&mut self, name: u8) -> usize {
        self.record(kind::NAME, &[name], &[])
    }

    pub fn unary(&mut self, operator: u8, operand: usize) -> usize {
        self.record(kind::UNARY, &[operator], &[operand])
    }

    pub fn binary(&mut self, operator: u8, left: usize, right: usize) -> usize {
        self.record(kind::BINARY, &[operator], &[left, right])
    }

    /// The set range between two literals.
    pub fn range(&mut self, from: i32, to: i32) -> usize {
        let from = self.integer(from);
        let to = self.integer(to);
        self.node(kind::RANGE, &[from, to])
    }

    /// {a |-> a | a in set {from,...,to} & true}, where a is the name.
    pub fn entries(&mut self, name: u8, from: i32, to: i32) -> usize {
        let (pattern, set) = (self.p_name(name), self.range(from, to));
        let condition = self.boolean(true);
        let (key, value) = (self.name(name), self.name(name));
        self.node(
            kind::MAP_COMPREHENSION,
            &[pattern, set, condition, key, value],
        )
    }

    /// let a in set {from,...,to} be st true in a, where a is the name.
    pub fn choice(&mut self, name: u8, from: i32, to: i32) -> usize {
        let pattern = self.p_name(name);
        let set = self.range(from, to);
        let condition = self.boolean(true);
        let body = self.name(name);
        self.node(kind::LET_BE, &[pattern, set, condition, body])
    }

    pub fn p_name(&mut self, name: u8) -> usize {
        self.record(kind::P_NAME, &[name], &[])
    }

    pub fn p_any(&mut self) -> usize {
        self.node(kind::P_ANY, &[])
    }

    /// Appends all records of another table and gives the number of its last.
    pub fn graft(&mut self, other: &Builder) -> usize {
        let base = self.records.len();
        for record in &other.records {
            let moved = record.operands.iter().map(|operand| operand + base);
            self.records.push(Record {
                operands: moved.collect(),
                ..record.clone()
            });
        }
        self.records.len() - 1
    }

    pub fn table(&self) -> Vec<u8> {
        self.records.iter().flat_map(Record::bytes).collect()
    }

    /// The height of each record, operands being lower than the records that name them.
    pub fn heights(&self) -> Vec<usize> {
        let mut heights: Vec<usize> = Vec::with_capacity(self.records.len());
        for record in &self.records {
            let highest = record.operands.iter().map(|&operand| heights[operand]);
            heights.push(1 + highest.max().unwrap_or(0));
        }
        heights
    }

    /// The same sheet with its records in another order, operands still before what names them.
    pub fn shuffled(&self, random: &mut Random) -> Builder {
        let mut place = vec![None; self.records.len()];
        let mut result = Builder::new();
        while result.records.len() < self.records.len() {
            let ready: Vec<usize> = (0..self.records.len())
                .filter(|&number| place[number].is_none())
                .filter(|&number| {
                    let operands = &self.records[number].operands;
                    operands.iter().all(|&operand| place[operand].is_some())
                })
                .collect();
            let number = random.pick(&ready);
            let record = &self.records[number];
            let operands: Vec<usize> = record.operands.iter().filter_map(|&o| place[o]).collect();
            place[number] = Some(result.record(record.kind, &record.constants, &operands));
        }
        result
    }
}

#[cfg(test)]
mod tests {
    use super::*;

    fn worked_print() -> Builder {
        let mut b = Builder::new();
        let pattern = b.p_name(0);
        let set = b.range(1, 3);
        let (a, two) = (b.name(0), b.integer(2));
        let condition = b.binary(binary::NOT_EQUAL, a, two);
        let (a, one) = (b.name(0), b.integer(1));
        let body = b.binary(binary::PLUS, a, one);
        b.node(kind::LET_BE, &[pattern, set, condition, body]);
        b
    }

    #[test]
    fn the_last_record_of_the_worked_print() {
        let table = worked_print().table();
        assert!(table.ends_with(&[8, 0, 13, 0, 0, 3, 6, 9]));
    }

    #[test]
    fn heights_of_the_worked_print() {
        assert_eq!(worked_print().heights(), [1, 1, 1, 2, 1, 1, 2, 1, 1, 2, 3]);
    }

    #[test]
    fn shuffling_keeps_operands_lower() {
        let sheet = worked_print();
        for seed in 0..50 {
            let shuffled = sheet.shuffled(&mut Random::new(seed));
            assert_eq!(shuffled.table().len(), sheet.table().len());
            for (number, record) in shuffled.records.iter().enumerate() {
                assert!(record.operands.iter().all(|&operand| operand < number));
            }
            assert_eq!(shuffled.records.last().map(|r| r.kind), Some(kind::LET_BE));
        }
    }
}
