//! The walk program, held to the prints of the sample sheets and of the second evaluator, and the script that runs it.

#[path = "../common/mod.rs"]
mod common;
mod script;

use common::program::{built, print};
use common::{bytes, samples};
use generator::builder::{binary, kind, unary};
use generator::{accepted, at_limits, damaged, Builder, Random};
use reference::print::walk_print;
use sheets::List;
use std::fs::File;
use std::io::{Read, Write};
use std::path::PathBuf;
use std::process::{Child, Command, Output, Stdio};

fn program() -> PathBuf {
    built().expect("crates/walk/out/walk: run `rt run </dev/null` in crates/walk")
}

/// Prints a table, and holds it to the second evaluator.
#[track_caller]
fn compared(table: &[u8]) -> String {
    let print = print(&program(), table);
    assert_eq!(print, walk_print(table));
    print
}

#[test]
fn every_sample_gives_its_print() {
    let samples = samples();
    assert!(samples.len() >= 62);
    for (name, table, expected) in samples {
        assert_eq!(print(&program(), &table), expected, "{name}");
    }
}

#[test]
fn random_sheets() {
    let mut lines = 0;
    for seed in 0..2_000 {
        let table = accepted(seed);
        let print = print(&program(), &table);
        assert_eq!(print, walk_print(&table), "seed {seed}");
        lines += print.lines().count();
    }
    assert!(lines > 10_000, "{lines}");
}

#[test]
fn refused_tables() {
    for seed in 0..280 {
        let (rule, table) = damaged(seed);
        assert!(compared(&table).starts_with(&format!("refused {rule} ")));
    }
}

#[test]
fn sheets_at_the_limits() {
    for (_, table) in at_limits() {
        compared(&table);
    }
}

#[test]
fn any_bytes() {
    let mut random = Random::new(5);
    for length in (0..2_500).step_by(7) {
        for bound in [256, 45, 9] {
            compared(&bytes(&mut random, length, bound));
        }
    }
}

/// At 2,400 bytes the records are looked at, and not at 2,401, however many more there are.
#[test]
fn sizes_of_the_input() {
    let empty_sets = |size: usize| [4, 0, 7, 0].repeat(size / 4);
    assert_eq!(compared(&[]), "refused 3 0\n");
    assert_eq!(compared(&empty_sets(2_400)), "refused 5 200\n");
    for size in [2_401, 2_404, 65_536, 1_000_000] {
        let mut table = empty_sets(size);
        table.resize(size, 0);
        assert_eq!(compared(&table), "refused 3 0\n", "{size}");
    }
}

/// Four choices among 10.
fn ten_thousand(sheet: &mut Builder) -> usize {
    let choices: Vec<usize> = (0..4).map(|name| sheet.choice(name, 0, 9)).collect();
    sheet.node(kind::TUPLE, &choices)
}

#[test]
fn ten_thousand_lists_and_one_more() {
    let mut sheet = Builder::new();
    ten_thousand(&mut sheet);
    let print = compared(&sheet.table());
    assert!(print.ends_with("\n9,9,9,9 =mk_(9,9,9,9)\nend 10000\n"));

    // let p in set {0,1} be st true in if p = 0 then mk_(..) else 5
    let mut sheet = Builder::new();
    let (pattern, set, always) = (sheet.p_name(15), sheet.range(0, 1), sheet.boolean(true));
    let (name, zero) = (sheet.name(15), sheet.integer(0));
    let test = sheet.binary(binary::EQUAL, name, zero);
    let (many, one) = (ten_thousand(&mut sheet), sheet.integer(5));
    let body = sheet.node(kind::IF, &[test, many, one]);
    sheet.node(kind::LET_BE, &[pattern, set, always, body]);
    let print = compared(&sheet.table());
    assert!(print.ends_with("\n0,9,9,9,9 =mk_(9,9,9,9)\ncut 10000\n"));
}

/// let - = mk_(len [62 choices among one], two among 63) in {a |-> {|->} | a in set {-2147483648,...,-2147483607} & true}:
/// a list of 64 entries, and a value whose text is the longest that we know of, 841 signs.
fn long_lines() -> Builder {
    let mut sheet = Builder::new();
    let (pattern, set, always) = (sheet.p_name(0), sheet.range(1, 62), sheet.boolean(true));
    let choice = sheet.choice(1, 1, 1);
    let operands = [pattern, set, always, choice];
    let many = sheet.node(kind::SEQUENCE_COMPREHENSION, &operands);
    let many = sheet.unary(unary::LEN, many);
    let choices = [many, sheet.choice(0, 1, 63), sheet.choice(0, 1, 63)];
    let choices = sheet.node(kind::TUPLE, &choices);
    let (pattern, always) = (sheet.p_name(0), sheet.boolean(true));
    let set = sheet.range(i32::MIN, i32::MIN + 41);
    let (key, value) = (sheet.name(0), sheet.node(kind::MAP, &[]));
    let map = sheet.node(kind::MAP_COMPREHENSION, &[pattern, set, always, key, value]);
    let any = sheet.p_any();
    sheet.node(kind::LET, &[any, choices, map]);
    sheet
}

#[test]
fn the_longest_lines() {
    let entries: Vec<String> = (0..42)
        .map(|key| format!("{}|->{{|->}}", i32::MIN + key))
        .collect();
    let value = format!("{{{}}}", entries.join(","));
    assert_eq!(value.len(), 841);
    let mut list = [0; List::MAX_LENGTH];
    let sheet = long_lines();
    let mut expected = format!("table {}\n", sheet.records.len());
    for last in 0..63 * 63 {
        (list[62], list[63]) = ((last / 63) as u8, (last % 63) as u8);
        expected += &format!("{} ={value}\n", List::from(list));
    }
    expected += "end 3969\n";
    let print = print(&program(), &sheet.table());
    for (line, due) in print.lines().zip(expected.lines()) {
        assert_eq!(line, due);
    }
    assert_eq!(print.len(), expected.len());
}

/// The program on the sheet of long lines, which it has read, with its print going somewhere.
fn printing_to(output: impl Into<Stdio>) -> Child {
    let mut child = Command::new(program())
        .stdin(Stdio::piped())
        .stdout(output)
        .stderr(Stdio::piped())
        .spawn()
        .expect("the program starts");
    let mut input = child.stdin.take().expect("a pipe");
    let table = long_lines().table();
    input.write_all(&table).expect("the program reads");
    child
}

/// Nobody reads on: the program ends quietly, with the status of the signal for that.
#[test]
fn a_closed_pipe() {
    let mut child = printing_to(Stdio::piped());
    let mut output = child.stdout.take().expect("a pipe");
    let mut start = [0; 6];
    output.read_exact(&mut start).expect("a first line");
    assert_eq!(&start, b"table ");
    drop(output);
    let ended = child.wait_with_output().expect("an end");
    assert_eq!(ended.status.code(), Some(141));
    assert_eq!(String::from_utf8_lossy(&ended.stderr), "");
}

/// What else fails is one line on standard error, whatever the status.
#[track_caller]
fn assert_told(ended: Output, line: &str) {
    assert!(ended.stdout.is_empty());
    assert_eq!(String::from_utf8_lossy(&ended.stderr), line);
}

#[test]
fn output_that_cannot_be_written() {
    if let Ok(full) = File::options().write(true).open("/dev/full") {
        let ended = printing_to(full).wait_with_output().expect("an end");
        assert_told(ended, "walk: standard output cannot be written\n");
    }
}

/// A folder cannot be read.
#[test]
fn input_that_cannot_be_read() {
    let folder = File::open("/").expect("the root folder");
    let mut command = Command::new(program());
    let ended = command.stdin(folder).output().expect("an end");
    assert_told(ended, "walk: standard input cannot be read\n");
}
