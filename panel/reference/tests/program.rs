//! The walk program.

mod common;
use common::*;
use std::io::Write;
use std::process::{Command, Stdio};

fn printed(table: &[u8]) -> String {
    let mut program = Command::new(env!("CARGO_BIN_EXE_reference-walk"))
        .stdin(Stdio::piped())
        .stdout(Stdio::piped())
        .spawn()
        .expect("the program starts");
    let mut input = program.stdin.take().expect("an input");
    input.write_all(table).expect("the program reads");
    drop(input);
    let output = program.wait_with_output().expect("the program ends");
    assert!(output.status.success());
    String::from_utf8(output.stdout).expect("a text")
}

#[test]
fn prints_the_worked_example() {
    let table = table_of(&[
        (32, &[0]),
        (2, &1_i32.to_le_bytes()),
        (2, &3_i32.to_le_bytes()),
        (11, &[1, 2]),
        (3, &[0]),
        (2, &2_i32.to_le_bytes()),
        (5, &[6, 4, 5]),
        (3, &[0]),
        (2, &1_i32.to_le_bytes()),
        (5, &[7, 7, 8]),
        (13, &[0, 3, 6, 9]),
    ]);
    assert_eq!(printed(&table), "table 11\n0 =2\n1 =4\nend 2\n");
}

#[test]
fn prints_a_refused_table() {
    assert_eq!(printed(&[]), "refused 3 0\n");
    assert_eq!(printed(&[5, 0, 1, 0, 2]), "refused 4 0\n");
    assert_eq!(printed(&[0; 5000]), "refused 3 0\n");
}
