//! The walk print: every complete list of a table with the value or refusal that it ends in.

use std::fmt::{self, Display, Formatter, Write};

use crate::check::accept;
use crate::eval::run;
use crate::table::Table;
use crate::value::Value;
use crate::walk::{first, step};

/// The most lists that are printed.
const MAX_LISTS: usize = 10_000;

/// The words for the refusals, from 20 on.
const WORDS: [&str; 12] = [
    "kind",
    "range",
    "zero",
    "no-match",
    "no-binding",
    "not-unique",
    "absent",
    "clash",
    "large",
    "split",
    "bindings",
    "choices",
];

/// The walk print of a table.
pub fn walk_print(table: &[u8]) -> String {
    match accept(table) {
        Ok(table) => lists(&table),
        Err(refusal) => format!("refused {} {}\n", refusal.number, refusal.place),
    }
}

fn lists(table: &Table) -> String {
    let mut print = format!("table {}\n", table.records().len());
    let mut count = 0;
    let mut next = Ok(first(table));
    while let Ok(list) = next {
        if count == MAX_LISTS {
            return print + &format!("cut {MAX_LISTS}\n");
        }
        print += &line(table, &list);
        count += 1;
        next = step(table, &list);
    }
    print + &format!("end {count}\n")
}

fn line(table: &Table, list: &[u8]) -> String {
    let entries: Vec<String> = list.iter().map(u8::to_string).collect();
    let entries = if list.is_empty() {
        "-".to_string()
    } else {
        entries.join(",")
    };
    let end = run(table, list);
    match end.value {
        Some(value) => format!("{entries} ={value}\n"),
        None => format!("{entries} !{} {}\n", end.number, word(end.number)),
    }
}

fn word(number: u32) -> &'static str {
    WORDS[number as usize - 20]
}

impl Display for Value {
    fn fmt(&self, f: &mut Formatter) -> fmt::Result {
        match self {
            Value::Boolean(truth) => write!(f, "{truth}"),
            Value::Integer(number) => write!(f, "{number}"),
            Value::Quote(number) => write!(f, "<{number}>"),
            Value::Set(members) => write!(f, "{{{}}}", joined(members)),
            Value::Sequence(items) => write!(f, "[{}]", joined(items)),
            Value::Map(entries) if entries.is_empty() => write!(f, "{{|->}}"),
            Value::Map(entries) => {
                let entries = entries
                    .iter()
                    .map(|(key, value)| format!("{key}|->{value}"));
                write!(f, "{{{}}}", joined(entries))
            }
            Value::Tuple(items) => write!(f, "mk_({})", joined(items)),
        }
    }
}

fn joined(items: impl IntoIterator<Item = impl Display>) -> String {
    let mut text = String::new();
    for item in items {
        let comma = if text.is_empty() { "" } else { "," };
        write!(text, "{comma}{item}").expect("a string takes any text");
    }
    text
}
