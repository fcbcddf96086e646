//! From the notation to the bytes of a table.

use forms::{by_word, Fields, Form, HEADER, LAST_NAME};
use std::fmt;
use std::str::FromStr;

/// Why a text is not in the notation, and the line (from 1) where.
#[derive(Clone, Debug, PartialEq, Eq)]
pub struct Mistake {
    pub line: usize,
    pub message: String,
}

impl fmt::Display for Mistake {
    fn fmt(&self, f: &mut fmt::Formatter) -> fmt::Result {
        write!(f, "line {}: {}", self.line, self.message)
    }
}

impl std::error::Error for Mistake {}

/// The bytes of the table that the text writes down.
pub fn encode(text: &str) -> Result<Vec<u8>, Mistake> {
    let mut table = Vec::new();
    let mut number = 0;
    for (index, line) in text.lines().enumerate() {
        let written = line.split('#').next().unwrap_or_default();
        let words: Vec<&str> = written.split_whitespace().collect();
        if words.is_empty() {
            continue;
        }
        let record = record(&words, number).map_err(|message| Mistake {
            line: index + 1,
            message,
        })?;
        table.extend(record);
        number += 1;
    }
    Ok(table)
}

/// The bytes of one record, with its label checked.
fn record(words: &[&str], number: usize) -> Result<Vec<u8>, String> {
    let words = unlabelled(words, number)?;
    let (word, fields) = words.split_first().ok_or("a label without a record")?;
    let form = by_word(word).ok_or_else(|| format!("unknown kind `{word}`"))?;
    let mut contents: Vec<u8> = form.operator.into_iter().collect();
    contents.extend(field_bytes(form, fields)?);

    let length = (HEADER + contents.len()) as u16;
    let mut bytes = Vec::with_capacity(usize::from(length));
    bytes.extend(length.to_le_bytes());
    bytes.extend(form.kind.to_le_bytes());
    bytes.extend(contents);
    Ok(bytes)
}

/// The words after the label `N:`, if there is one.
fn unlabelled<'a, 'b>(words: &'a [&'b str], number: usize) -> Result<&'a [&'b str], String> {
    let label = words[0].strip_suffix(':').filter(|label| is_digits(label));
    match label {
        None => Ok(words),
        Some(label) if label.parse() == Ok(number) => Ok(&words[1..]),
        Some(label) => Err(format!("label {label} on record {number}")),
    }
}

fn field_bytes(form: &Form, fields: &[&str]) -> Result<Vec<u8>, String> {
    if let Fields::Operands { .. } = form.fields {
        if !form.fields.takes(fields.len()) {
            let count = fields.len();
            return Err(format!("`{}` does not take {count} operands", form.word));
        }
        return fields.iter().map(|field| operand(field)).collect();
    }
    let &[field] = fields else {
        return Err(format!("`{}` takes one field", form.word));
    };
    match form.fields {
        Fields::Boolean => boolean(field).map(|byte| vec![byte]),
        Fields::Integer => integer(field).map(|value| value.to_le_bytes().to_vec()),
        Fields::Quote => quote(field).map(|number| number.to_le_bytes().to_vec()),
        Fields::Name => name(field).map(|byte| vec![byte]),
        Fields::Operands { .. } => unreachable!("handled above"),
    }
}

fn boolean(field: &str) -> Result<u8, String> {
    match field {
        "false" => Ok(0),
        "true" => Ok(1),
        _ => Err(format!("`{field}` is neither false nor true")),
    }
}

fn integer(field: &str) -> Result<i32, String> {
    number(field).ok_or_else(|| format!("`{field}` is no integer of 32 bits"))
}

fn quote(field: &str) -> Result<u16, String> {
    number(field).ok_or_else(|| format!("`{field}` is no quote from 0 to {}", u16::MAX))
}

fn name(field: &str) -> Result<u8, String> {
    number(field)
        .filter(|&name| name <= LAST_NAME)
        .ok_or_else(|| format!("`{field}` is no name from 0 to {LAST_NAME}"))
}

fn operand(field: &str) -> Result<u8, String> {
    number(field).ok_or_else(|| format!("`{field}` is no record number from 0 to 255"))
}

/// The number that digits, perhaps after a minus, write.
fn number<T: FromStr>(field: &str) -> Option<T> {
    let digits = field.strip_prefix('-').unwrap_or(field);
    if is_digits(digits) {
        field.parse().ok()
    } else {
        None
    }
}

fn is_digits(word: &str) -> bool {
    !word.is_empty() && word.bytes().all(|byte| byte.is_ascii_digit())
}

#[cfg(test)]
mod tests {
    use super::*;

    fn mistake(text: &str) -> (usize, String) {
        let mistake = encode(text).unwrap_err();
        (mistake.line, mistake.message)
    }

    #[test]
    fn one_record_of_each_shape() {
        assert_eq!(encode("boolean true"), Ok(vec![5, 0, 1, 0, 1]));
        assert_eq!(
            encode("integer -2"),
            Ok(vec![8, 0, 2, 0, 254, 255, 255, 255])
        );
        assert_eq!(encode("quote 513"), Ok(vec![6, 0, 22, 0, 1, 2]));
        assert_eq!(encode("p-quote 65535"), Ok(vec![6, 0, 43, 0, 255, 255]));
        assert_eq!(encode("name 15"), Ok(vec![5, 0, 3, 0, 15]));
        assert_eq!(encode("rng 7"), Ok(vec![6, 0, 4, 0, 15, 7]));
        assert_eq!(encode(":> 1 2"), Ok(vec![7, 0, 5, 0, 28, 1, 2]));
        assert_eq!(encode("p-any"), Ok(vec![4, 0, 33, 0]));
        assert_eq!(encode("p-map"), Ok(vec![4, 0, 41, 0]));
        assert_eq!(encode("p-munion 1 2"), Ok(vec![6, 0, 42, 0, 1, 2]));
        assert_eq!(encode("let-be 0 3 6 9"), Ok(vec![8, 0, 13, 0, 0, 3, 6, 9]));
    }

    #[test]
    fn comments_blank_lines_and_labels() {
        let plain = encode("set\nsequence 0").unwrap();
        assert_eq!(
            encode("# a comment\n\n 0: set # empty\n\t1: sequence  0\r\n"),
            Ok(plain)
        );
        assert_eq!(encode("# nothing\n"), Ok(vec![]));
    }

    #[test]
    fn mistakes_have_their_line() {
        assert_eq!(mistake("set\n\nsett").0, 3);
        assert_eq!(mistake("set\n2: set"), (2, "label 2 on record 1".into()));
        assert_eq!(mistake("0:").1, "a label without a record");
        assert_eq!(mistake("name 16").1, "`16` is no name from 0 to 15");
        assert_eq!(mistake("integer 2147483648").0, 1);
        assert_eq!(mistake("integer +1").0, 1);
        assert_eq!(mistake("integer").1, "`integer` takes one field");
        assert_eq!(
            mistake("quote 65536").1,
            "`65536` is no quote from 0 to 65535"
        );
        assert_eq!(mistake("p-quote -1").1, "`-1` is no quote from 0 to 65535");
        assert_eq!(mistake("quote <1>").0, 1);
        assert_eq!(mistake("quote").1, "`quote` takes one field");
        assert_eq!(mistake("map 1").1, "`map` does not take 1 operands");
        assert_eq!(mistake("p-map 1").1, "`p-map` does not take 1 operands");
        assert_eq!(mistake("not 256").0, 1);
        assert_eq!(mistake("boolean 1").1, "`1` is neither false nor true");
    }
}
