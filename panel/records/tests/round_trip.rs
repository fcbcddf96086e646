//! Encoding and decoding undo each other, on every form of record.

use forms::Fields;
use records::{decode, encode};

/// A line of each form with each number of fields that it takes.
fn lines() -> Vec<String> {
    let mut lines = Vec::new();
    for form in forms::all() {
        let fields: Vec<String> = match form.fields {
            Fields::Boolean => ["false", "true"].map(String::from).to_vec(),
            Fields::Integer => [i32::MIN, -1, 0, 256, i32::MAX]
                .map(|n| n.to_string())
                .to_vec(),
            Fields::Quote => [0, 1, 255, 256, u16::MAX].map(|n| n.to_string()).to_vec(),
            Fields::Name => (0..=15).map(|name| name.to_string()).collect(),
            Fields::Operands { least, most, step } => {
                (least..=most).step_by(step).map(operands).collect()
            }
        };
        for written in fields {
            lines.push(format!("{} {written}", form.word).trim_end().to_string());
        }
    }
    lines
}

fn operands(count: usize) -> String {
    let numbers = (0..count).map(|index| (255 - 31 * index).to_string());
    numbers.collect::<Vec<_>>().join(" ")
}

#[test]
fn text_to_bytes_and_back() {
    let lines = lines();
    let labelled = lines.iter().enumerate();
    let canonical: String = labelled.map(|(n, line)| format!("{n}: {line}\n")).collect();
    let table = encode(&lines.join("\n")).unwrap();
    assert_eq!(decode(&table).unwrap(), canonical);
    assert_eq!(encode(&canonical).unwrap(), table);
}

/// Tables that break rule 4 are the ones that cannot be decoded.
#[test]
fn malformed_tables_are_refused() {
    for seed in 0..700 {
        let (rule, table) = generator::damaged(seed);
        if rule != 3 {
            assert_eq!(decode(&table).is_err(), rule == 4, "seed {seed}");
        }
    }
}

/// Of all records of a kind with a few contents, those that decode come back the same.
#[test]
fn bytes_to_text_and_back() {
    let mut well_formed = 0;
    for kind in 0..300 {
        for length in 4..14u16 {
            for first in 0..32u8 {
                let mut record = Vec::from(length.to_le_bytes());
                record.extend(u16::to_le_bytes(kind));
                record.extend((0..length - 4).map(|index| first.wrapping_add((41 * index) as u8)));
                if let Ok(text) = decode(&record) {
                    assert_eq!(encode(&text).unwrap(), record);
                    well_formed += 1;
                }
            }
        }
    }
    assert!(well_formed > 1000);
}

#[test]
fn random_sheets_and_back() {
    for seed in 0..500 {
        let table = generator::accepted(seed);
        let text = decode(&table).unwrap_or_else(|error| panic!("seed {seed}: {error}"));
        assert_eq!(encode(&text).unwrap(), table, "seed {seed}");
        assert_eq!(decode(&encode(&text).unwrap()).unwrap(), text);
    }
}
