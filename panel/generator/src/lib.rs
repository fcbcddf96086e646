//! Random sheets, sheets at each limit, and damaged tables, for comparison tests.
//!
//! Every sheet follows from its seed alone, so a seed that is printed brings a failure back.

mod binders;
pub mod builder;
mod damage;
mod depths;
mod expressions;
mod limits;
mod patterns;
mod random;
mod shape;
mod writer;

pub use builder::Builder;
pub use damage::damaged;
pub use depths::{deepest, widest};
pub use limits::at_limits;
pub use random::Random;

use shape::Shape;
use writer::Writer;

/// The limits on an accepted table.
const MOST_RECORDS: usize = 200;
const MOST_HEIGHT: usize = 32;

/// A sheet that the rules accept. Mostly it has at most a few hundred complete lists;
/// every fourth seed gives a wild sheet, which is likely to be refused when it runs.
pub fn accepted(seed: u64) -> Vec<u8> {
    sheet(seed, MOST_RECORDS).table()
}

/// An accepted sheet of at most so many records.
fn sheet(seed: u64, most_records: usize) -> Builder {
    let wild = seed % 4 == 3;
    let mut random = Random::new(seed);
    loop {
        let written = attempt(Random::new(random.next()), most_records, wild);
        let high = written
            .heights()
            .into_iter()
            .any(|height| height > MOST_HEIGHT);
        if written.records.len() <= most_records && !high {
            return written;
        }
    }
}

fn attempt(mut random: Random, most_records: usize, wild: bool) -> Builder {
    let fuel = 4 + random.below(most_records / 2);
    let depth = 1 + random.below(8);
    let shape = Shape::random(&mut random, 2);
    let mut writer = Writer::new(random, fuel, wild);
    if writer.random.once_in(4) {
        writer.expression(&shape, depth);
    } else {
        writer.choosing(&shape, depth);
    }
    if writer.random.once_in(3) {
        return writer.out.shuffled(&mut writer.random);
    }
    writer.out
}

#[cfg(test)]
mod tests {
    use super::*;

    #[test]
    fn the_same_seed_gives_the_same_sheet() {
        assert_eq!(accepted(5), accepted(5));
        assert_ne!(accepted(5), accepted(6));
    }

    /// Each record is named once and is lower than what names it.
    #[test]
    fn sheets_are_trees() {
        for seed in 0..2000 {
            let sheet = sheet(seed, MOST_RECORDS);
            let mut named: Vec<usize> = Vec::new();
            for (number, record) in sheet.records.iter().enumerate() {
                assert!(record.operands.iter().all(|&operand| operand < number));
                named.extend(&record.operands);
            }
            named.sort();
            assert_eq!(named, (0..sheet.records.len() - 1).collect::<Vec<_>>());
            assert!(sheet.table().len() <= 2400);
        }
    }

    #[test]
    fn every_kind_and_operator_occurs() {
        let mut kinds = [0; 44];
        let mut unary = [0; 16];
        let mut binary = [0; 29];
        for record in (0..2000).flat_map(|seed| sheet(seed, MOST_RECORDS).records) {
            kinds[usize::from(record.kind)] += 1;
            match record.kind {
                builder::kind::UNARY => unary[usize::from(record.constants[0])] += 1,
                builder::kind::BINARY => binary[usize::from(record.constants[0])] += 1,
                _ => {}
            }
        }
        for kind in (1..=22).chain(32..=43) {
            assert!(kinds[kind] > 20, "kind {kind}: {}", kinds[kind]);
        }
        assert!(unary[1..].iter().all(|&count| count > 10), "{unary:?}");
        assert!(binary[1..].iter().all(|&count| count > 10), "{binary:?}");
    }
}
