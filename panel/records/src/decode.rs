//! From the bytes of a table to the notation.

use forms::{by_kind, kind, Fields, Form, HEADER, LAST_NAME};
use std::fmt;

/// Why bytes cannot be cut into well-formed records: the record's number and the offset of its first byte.
#[derive(Clone, Debug, PartialEq, Eq)]
pub struct Malformed {
    pub record: usize,
    pub offset: usize,
    pub message: String,
}

impl fmt::Display for Malformed {
    fn fmt(&self, f: &mut fmt::Formatter) -> fmt::Result {
        let Malformed {
            record,
            offset,
            message,
        } = self;
        write!(f, "record {record} at byte {offset}: {message}")
    }
}

impl std::error::Error for Malformed {}

/// The text of the table: each record on a line, with its label, its word and its fields.
pub fn decode(table: &[u8]) -> Result<String, Malformed> {
    let mut text = String::new();
    let mut offset = 0;
    let mut record = 0;
    while offset < table.len() {
        let (length, line) = first_record(&table[offset..]).map_err(|message| Malformed {
            record,
            offset,
            message,
        })?;
        text += &format!("{record}: {line}\n");
        offset += length;
        record += 1;
    }
    Ok(text)
}

/// The length and the line of the record that the bytes start with.
fn first_record(bytes: &[u8]) -> Result<(usize, String), String> {
    let &[l0, l1, k0, k1, ..] = bytes else {
        return Err(format!("only {} bytes are left", bytes.len()));
    };
    let length = usize::from(u16::from_le_bytes([l0, l1]));
    let kind = u16::from_le_bytes([k0, k1]);
    if length < HEADER {
        return Err(format!("length {length} is under {HEADER}"));
    }
    let contents = bytes
        .get(HEADER..length)
        .ok_or_else(|| format!("length {length} is past the end"))?;
    let (form, fields) = form_of(kind, contents)?;
    let mut line = form.word.to_string();
    for word in field_words(form, fields)? {
        line += " ";
        line += &word;
    }
    Ok((length, line))
}

/// The form of a record of this kind, and the contents after the operator.
fn form_of(kind: u16, contents: &[u8]) -> Result<(&'static Form, &[u8]), String> {
    if kind != kind::UNARY && kind != kind::BINARY {
        let form = by_kind(kind, None).ok_or_else(|| format!("unknown kind {kind}"))?;
        return Ok((form, contents));
    }
    let (&operator, fields) = contents.split_first().ok_or("no operator")?;
    let form = by_kind(kind, Some(operator))
        .ok_or_else(|| format!("unknown operator {operator} of kind {kind}"))?;
    Ok((form, fields))
}

fn field_words(form: &Form, fields: &[u8]) -> Result<Vec<String>, String> {
    match (form.fields, fields) {
        (Fields::Boolean, [byte @ 0..=1]) => Ok(vec![(*byte == 1).to_string()]),
        (Fields::Boolean, [byte]) => Err(format!("unknown literal {byte}")),
        (Fields::Integer, &[a, b, c, d]) => Ok(vec![i32::from_le_bytes([a, b, c, d]).to_string()]),
        (Fields::Quote, &[low, high]) => Ok(vec![u16::from_le_bytes([low, high]).to_string()]),
        (Fields::Name, [name @ 0..=LAST_NAME]) => Ok(vec![name.to_string()]),
        (Fields::Name, [name]) => Err(format!("unknown name {name}")),
        (Fields::Operands { .. }, _) if form.fields.takes(fields.len()) => {
            Ok(fields.iter().map(u8::to_string).collect())
        }
        _ => Err(format!("the length does not fit `{}`", form.word)),
    }
}

#[cfg(test)]
mod tests {
    use super::*;

    fn malformed(table: &[u8]) -> (usize, usize, String) {
        let Malformed {
            record,
            offset,
            message,
        } = decode(table).unwrap_err();
        (record, offset, message)
    }

    #[test]
    fn one_record_of_each_shape() {
        assert_eq!(decode(&[5, 0, 1, 0, 0]).unwrap(), "0: boolean false\n");
        assert_eq!(
            decode(&[8, 0, 35, 0, 0, 0, 0, 128]).unwrap(),
            "0: p-integer -2147483648\n"
        );
        assert_eq!(decode(&[6, 0, 22, 0, 1, 2]).unwrap(), "0: quote 513\n");
        assert_eq!(
            decode(&[6, 0, 43, 0, 255, 255]).unwrap(),
            "0: p-quote 65535\n"
        );
        assert_eq!(decode(&[5, 0, 32, 0, 3]).unwrap(), "0: p-name 3\n");
        assert_eq!(decode(&[6, 0, 4, 0, 1, 9]).unwrap(), "0: not 9\n");
        assert_eq!(decode(&[6, 0, 41, 0, 1, 9]).unwrap(), "0: p-map 1 9\n");
        assert_eq!(
            decode(&[4, 0, 7, 0, 5, 0, 8, 0, 0]).unwrap(),
            "0: set\n1: sequence 0\n"
        );
        assert_eq!(decode(&[]).unwrap(), "");
    }

    #[test]
    fn malformed_records_have_their_place() {
        assert_eq!(malformed(&[4, 0, 7, 0, 4, 0, 7]).0, 1);
        assert_eq!(
            malformed(&[4, 0, 7, 0, 4, 0, 7]),
            (1, 4, "only 3 bytes are left".into())
        );
        assert_eq!(malformed(&[3, 0, 7, 0]).2, "length 3 is under 4");
        assert_eq!(malformed(&[5, 0, 7, 0]).2, "length 5 is past the end");
        assert_eq!(malformed(&[4, 0, 23, 0]).2, "unknown kind 23");
        assert_eq!(malformed(&[4, 0, 44, 0]).2, "unknown kind 44");
        assert_eq!(malformed(&[4, 0, 1, 1]).2, "unknown kind 257");
        assert_eq!(malformed(&[4, 0, 5, 0]).2, "no operator");
        assert_eq!(
            malformed(&[6, 0, 4, 0, 16, 0]).2,
            "unknown operator 16 of kind 4"
        );
        assert_eq!(malformed(&[5, 0, 3, 0, 16]).2, "unknown name 16");
        assert_eq!(malformed(&[5, 0, 34, 0, 2]).2, "unknown literal 2");
        assert_eq!(
            malformed(&[5, 0, 9, 0, 0]).2,
            "the length does not fit `map`"
        );
        assert_eq!(
            malformed(&[5, 0, 42, 0, 0]).2,
            "the length does not fit `p-munion`"
        );
        assert_eq!(
            malformed(&[5, 0, 22, 0, 0]).2,
            "the length does not fit `quote`"
        );
        assert_eq!(
            malformed(&[7, 0, 43, 0, 0, 0, 0]).2,
            "the length does not fit `p-quote`"
        );
        assert_eq!(
            malformed(&[4, 0, 2, 0]).2,
            "the length does not fit `integer`"
        );
    }
}
