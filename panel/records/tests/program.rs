//! The program `records`, run as its users run it.

use std::io::Write;
use std::process::{Command, Output, Stdio};

fn records(arguments: &[&str], input: &[u8]) -> Output {
    let mut child = Command::new(env!("CARGO_BIN_EXE_records"))
        .args(arguments)
        .stdin(Stdio::piped())
        .stdout(Stdio::piped())
        .stderr(Stdio::piped())
        .spawn()
        .expect("the program starts");
    let mut stdin = child.stdin.take().expect("its input is a pipe");
    // A program that refuses its arguments may end before it reads.
    let _ = stdin.write_all(input);
    drop(stdin);
    child.wait_with_output().expect("the program ends")
}

fn refused(arguments: &[&str], input: &[u8]) -> String {
    let output = records(arguments, input);
    assert_eq!(output.status.code(), Some(1));
    assert!(output.stdout.is_empty());
    String::from_utf8(output.stderr).expect("a message in UTF-8")
}

#[test]
fn encodes_and_decodes() {
    let encoded = records(&["encode"], b"integer 7\nminus 0 # -7\n");
    assert!(encoded.status.success());
    assert_eq!(
        encoded.stdout,
        [8, 0, 2, 0, 7, 0, 0, 0, 6, 0, 4, 0, 2, 0].as_slice()
    );
    let decoded = records(&["decode"], &encoded.stdout);
    assert!(decoded.status.success());
    assert_eq!(decoded.stdout, b"0: integer 7\n1: minus 0\n".as_slice());
}

#[test]
fn refuses_without_output() {
    assert_eq!(
        refused(&["encode"], b"set\nname x\n"),
        "records: line 2: `x` is no name from 0 to 15\n"
    );
    assert_eq!(
        refused(&["encode"], b"set\n# \xff\n"),
        "records: line 2: not UTF-8\n"
    );
    assert_eq!(
        refused(&["decode"], &[4, 0, 7, 0, 4, 0]),
        "records: record 1 at byte 4: only 2 bytes are left\n"
    );
    assert!(refused(&[], b"").starts_with("records: usage"));
    assert!(refused(&["recode"], b"").starts_with("records: usage"));
}
