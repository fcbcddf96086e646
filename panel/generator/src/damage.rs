//! Damaged tables: each breaks one of the rules 3 to 9, and no earlier one.

use crate::builder::{kind, unary, Builder, Record};
use crate::random::Random;
use crate::sheet;

/// The most records of a sheet that is damaged, so that what is added stays within the limits.
const SMALL: usize = 60;

/// A damaged table, and the rule (3 to 9) that it is meant to break first.
pub fn damaged(seed: u64) -> (u8, Vec<u8>) {
    let mut random = Random::new(!seed);
    let sheet = sheet(random.next(), SMALL);
    let rule = 3 + (seed % 7) as u8;
    let table = match rule {
        3 => wrong_size(&sheet, &mut random),
        4 => malformed(&sheet, &mut random),
        5 => too_many(&sheet, &mut random),
        6 => misnamed(sheet, &mut random).table(),
        7 => badly_bound(sheet, &mut random).table(),
        8 => choosing_condition(sheet, &mut random).table(),
        _ => too_high(sheet, &mut random).table(),
    };
    (rule, table)
}

/// Rule 3: nothing, or over 2,400 bytes.
fn wrong_size(sheet: &Builder, random: &mut Random) -> Vec<u8> {
    if random.once_in(8) {
        return Vec::new();
    }
    let mut table = sheet.table();
    table.resize(2401 + random.below(600), random.below(256) as u8);
    table
}

/// Rule 4: a record that is cut off, or has a wrong length, kind, operator, name or literal.
fn malformed(sheet: &Builder, random: &mut Random) -> Vec<u8> {
    let mut parts: Vec<Vec<u8>> = sheet.records.iter().map(Record::bytes).collect();
    let at = random.below(parts.len());
    match random.below(7) {
        0 => {
            let last = parts.last_mut().expect("a sheet has a record");
            last.truncate(1 + random.below(last.len() - 1));
        }
        1 => parts[at][0] = random.below(4) as u8,
        2 => parts[at][1] = 1 + random.below(255) as u8,
        3 => {
            let unknown = [0, 23, 31, 44, 255, 256 + 1, 256 + 22, 256 + 32];
            let kind: u16 = random.pick(&unknown);
            parts[at][2..4].copy_from_slice(&kind.to_le_bytes());
        }
        4 => parts.push(vec![4; 1 + random.below(3)]),
        5 => parts.insert(at, bad_record(random)),
        _ => parts.insert(at, bad_count(random)),
    }
    parts.concat()
}

/// A record with an unknown operator, name or literal.
fn bad_record(random: &mut Random) -> Vec<u8> {
    let (kind, constant, operands) = random.pick(&[
        (kind::BOOLEAN, 2, 0),
        (kind::BOOLEAN, 255, 0),
        (kind::NAME, 16, 0),
        (kind::UNARY, 0, 1),
        (kind::UNARY, 16, 1),
        (kind::BINARY, 0, 2),
        (kind::BINARY, 29, 2),
        (kind::P_NAME, 16, 0),
        (kind::P_BOOLEAN, 2, 0),
    ]);
    Record {
        kind,
        constants: vec![constant],
        operands: vec![0; operands],
    }
    .bytes()
}

/// Kinds, each with a number of bytes after the header that does not fit it.
const BAD_COUNTS: [(u16, usize); 38] = [
    (kind::BOOLEAN, 2),
    (kind::INTEGER, 3),
    (kind::NAME, 0),
    (kind::UNARY, 3),
    (kind::BINARY, 2),
    (kind::IF, 4),
    (kind::SET, 9),
    (kind::SEQUENCE, 9),
    (kind::MAP, 3),
    (kind::MAP, 10),
    (kind::TUPLE, 1),
    (kind::TUPLE, 5),
    (kind::RANGE, 3),
    (kind::LET, 4),
    (kind::LET_BE, 3),
    (kind::FORALL, 4),
    (kind::IOTA, 2),
    (kind::SET_COMPREHENSION, 5),
    (kind::MAP_COMPREHENSION, 4),
    (kind::APPLY, 1),
    (kind::QUOTE, 1),
    (kind::QUOTE, 3),
    (kind::P_NAME, 2),
    (kind::P_ANY, 1),
    (kind::P_INTEGER, 5),
    (kind::P_TUPLE, 1),
    (kind::P_SET, 5),
    (kind::P_UNION, 3),
    (kind::P_SEQUENCE, 5),
    (kind::P_CONCATENATION, 1),
    (kind::P_MAP, 1),
    (kind::P_MAP, 3),
    (kind::P_MAP, 7),
    (kind::P_MAP, 10),
    (kind::P_MUNION, 1),
    (kind::P_MUNION, 3),
    (kind::P_QUOTE, 1),
    (kind::P_QUOTE, 3),
];

/// A record whose length does not fit its kind.
fn bad_count(random: &mut Random) -> Vec<u8> {
    let (kind, fields) = random.pick(&BAD_COUNTS);
    Record {
        kind,
        constants: vec![1; fields],
        operands: Vec::new(),
    }
    .bytes()
}

/// Rule 5: over 200 records.
fn too_many(sheet: &Builder, random: &mut Random) -> Vec<u8> {
    let mut table = sheet.clone();
    let count = 201 + random.below(200);
    while table.records.len() < count {
        table.node(kind::SET, &[]);
    }
    table.table()
}

/// Rule 6: an operand that is not lower, of the wrong sort or named before; a record never named;
/// a pattern as the last.
fn misnamed(mut sheet: Builder, random: &mut Random) -> Builder {
    let count = sheet.records.len();
    let naming: Vec<usize> = (0..count)
        .filter(|&number| !sheet.records[number].operands.is_empty())
        .collect();
    match random.below(7) {
        0 if !naming.is_empty() => {
            let number = random.pick(&naming);
            let operands = &mut sheet.records[number].operands;
            let index = random.below(operands.len());
            operands[index] = number + random.below(256 - number);
        }
        1 if count > 2 => {
            let first = random.below(count - 1);
            let second = (first + 1 + random.below(count - 2)) % (count - 1);
            let slots = sheet
                .records
                .iter_mut()
                .flat_map(|record| &mut record.operands);
            slots
                .filter(|operand| **operand == second)
                .for_each(|operand| *operand = first);
        }
        2 => replace_leaf(&mut sheet, random),
        3 => {
            sheet.p_any();
        }
        4 => {
            sheet.boolean(true);
        }
        5 => {
            let root = count - 1;
            let pattern = sheet.p_any();
            let condition = sheet.boolean(true);
            sheet.node(kind::IOTA, &[pattern, root, condition]);
        }
        _ => {
            sheet.records.clear();
            let parts = [sheet.p_any(), sheet.p_name(3)];
            sheet.node(kind::P_TUPLE, &parts);
        }
    }
    sheet
}

/// Puts a pattern where a leaf expression stands, or an expression where a leaf pattern does.
fn replace_leaf(sheet: &mut Builder, random: &mut Random) {
    let leaves = sheet.records.iter_mut();
    let mut leaves: Vec<&mut Record> = leaves.filter(|r| r.operands.is_empty()).collect();
    let index = random.below(leaves.len());
    let leaf = &mut leaves[index];
    leaf.constants.clear();
    leaf.kind = if leaf.is_pattern() {
        kind::SET
    } else {
        kind::P_ANY
    };
}

/// Rule 7: a name that nothing binds around it, or that is bound around its binder already.
fn badly_bound(mut sheet: Builder, random: &mut Random) -> Builder {
    let root = sheet.records.len() - 1;
    let bound = pattern_names(&sheet);
    match random.below(4) {
        0 if !bound.is_empty() => {
            let pattern = sheet.p_name(random.pick(&bound));
            let value = sheet.integer(0);
            sheet.node(kind::LET, &[pattern, value, root]);
        }
        1 => {
            let name = random.below(16) as u8;
            let pattern = sheet.p_name(name);
            let unbound = sheet.name(name);
            let set = sheet.node(kind::SET, &[unbound, root]);
            let (condition, element) = (sheet.boolean(true), sheet.name(name));
            let operands = [pattern, set, condition, element];
            sheet.node(kind::SET_COMPREHENSION, &operands);
        }
        2 => match free_name(&sheet, random) {
            Some(name) => unbind_leaf(&mut sheet, name, random),
            None => unbound_beside(&mut sheet, random),
        },
        _ => unbound_beside(&mut sheet, random),
    }
    sheet
}

/// Pairs the sheet with a name, which nothing binds there even where the sheet binds it inside.
fn unbound_beside(sheet: &mut Builder, random: &mut Random) {
    let root = sheet.records.len() - 1;
    let unbound = sheet.name(random.below(16) as u8);
    sheet.node(kind::TUPLE, &[root, unbound]);
}

/// Puts a name that the sheet binds nowhere in place of a leaf expression.
fn unbind_leaf(sheet: &mut Builder, name: u8, random: &mut Random) {
    let leaf = |r: &&mut Record| r.operands.is_empty() && !r.is_pattern();
    let mut leaves: Vec<&mut Record> = sheet.records.iter_mut().filter(leaf).collect();
    let index = random.below(leaves.len());
    leaves[index].kind = kind::NAME;
    leaves[index].constants = vec![name];
}

/// The names that the sheet's patterns hold.
fn pattern_names(sheet: &Builder) -> Vec<u8> {
    let patterns = sheet.records.iter().filter(|r| r.kind == kind::P_NAME);
    patterns.map(|r| r.constants[0]).collect()
}

/// A name that the sheet binds nowhere.
fn free_name(sheet: &Builder, random: &mut Random) -> Option<u8> {
    let bound = pattern_names(sheet);
    let free: Vec<u8> = (0..16).filter(|name| !bound.contains(name)).collect();
    if free.is_empty() {
        return None;
    }
    Some(random.pick(&free))
}

/// Rule 8: a let-be or a loose let inside a condition.
fn choosing_condition(mut sheet: Builder, random: &mut Random) -> Builder {
    let name = free_name(&sheet, random).unwrap_or_else(|| {
        sheet.records.clear();
        sheet.node(kind::SET, &[]);
        0
    });
    let mut b = Builder::new();
    let choice = if random.once_in(2) {
        loose_let(&mut b, &sheet, random)
    } else {
        let pattern = b.p_any();
        let set = b.graft(&sheet);
        let (condition, body) = (b.boolean(true), b.boolean(true));
        b.node(kind::LET_BE, &[pattern, set, condition, body])
    };
    let depth = random.below(4);
    let condition = (0..depth).fold(choice, |operand, _| b.unary(unary::NOT, operand));
    let kind = 13 + random.below(8) as u16;
    let pattern = b.p_name(name);
    let set = b.node(kind::SET, &[]);
    let mut operands = vec![pattern, set, condition];
    let more = match kind {
        kind::FORALL..=kind::IOTA => 0,
        kind::MAP_COMPREHENSION => 2,
        _ => 1,
    };
    operands.extend((0..more).map(|_| b.name(name)));
    b.node(kind, &operands);
    b
}

fn loose_let(b: &mut Builder, sheet: &Builder, random: &mut Random) -> usize {
    let parts = [b.p_any(), b.p_any()];
    let kind = random.pick(&[
        kind::P_SET,
        kind::P_UNION,
        kind::P_CONCATENATION,
        kind::P_MAP,
        kind::P_MUNION,
    ]);
    let mut pattern = b.node(kind, &parts);
    if random.once_in(2) {
        let beside = b.p_any();
        pattern = b.node(kind::P_TUPLE, &[beside, pattern]);
    }
    let value = b.graft(sheet);
    let body = b.boolean(true);
    b.node(kind::LET, &[pattern, value, body])
}

/// Rule 9: a height over 32.
fn too_high(mut sheet: Builder, random: &mut Random) -> Builder {
    let height = sheet.heights().into_iter().max().unwrap_or(0);
    let mut root = sheet.records.len() - 1;
    for _ in height..33 + random.below(8) {
        let operator = 1 + random.below(15) as u8;
        root = sheet.unary(operator, root);
    }
    sheet
}

#[cfg(test)]
mod tests {
    use super::*;

    #[test]
    fn every_rule_occurs_and_follows_from_the_seed() {
        for seed in 0..70 {
            let (rule, table) = damaged(seed);
            assert_eq!(u64::from(rule), 3 + seed % 7);
            assert_eq!(damaged(seed).1, table);
            assert_eq!(rule == 3, table.is_empty() || table.len() > 2400);
        }
    }
}
