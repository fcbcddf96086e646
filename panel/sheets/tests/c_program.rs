//! The header, and a C program over it: compiled with every warning as an error, run on sheets of all sorts.

mod common;

use common::program::print;
use common::samples;
use generator::builder::kind;
use generator::{accepted, damaged, Builder};
use sheets::lent::SCRATCH_SIZE;
use sheets::{number, List, Sheet, Value};
use std::collections::BTreeMap;
use std::fs;
use std::path::{Path, PathBuf};
use std::process::Command;

const WARNINGS: [&str; 9] = [
    "-Wall",
    "-Wextra",
    "-Wpedantic",
    "-Wconversion",
    "-Wshadow",
    "-Wundef",
    "-Wstrict-prototypes",
    "-Wmissing-prototypes",
    "-Werror",
];

fn panel() -> &'static Path {
    let package = Path::new(env!("CARGO_MANIFEST_DIR"));
    package.parent().expect("the workspace")
}

/// Compiles the program over the linked archive.
fn compiled(name: &str) -> PathBuf {
    let program = Path::new(env!("CARGO_TARGET_TMPDIR")).join(name);
    let status = Command::new("cc")
        .args(["-std=c99", "-O2"])
        .args(WARNINGS)
        .arg("-I")
        .arg(panel().join("include"))
        .arg(panel().join("examples/print.c"))
        .arg(env!("ARCHIVE"))
        .arg("-o")
        .arg(&program)
        .status();
    assert!(status.expect("a C compiler").success());
    program
}

#[test]
fn the_program_prints_walks() {
    let program = compiled("print");
    for (name, table, expected) in samples() {
        assert_eq!(print(&program, &table), expected, "{name}");
    }
    for seed in 0..100 {
        for table in [accepted(seed), damaged(seed).1] {
            let expected = reference::print::walk_print(&table);
            assert_eq!(print(&program, &table), expected, "seed {seed}");
        }
    }
}

/// Four choices among 11: 14,641 lists.
#[test]
fn a_long_walk_is_cut() {
    let mut builder = Builder::new();
    let choices: Vec<usize> = (0..4).map(|name| builder.choice(name, 0, 10)).collect();
    builder.node(kind::TUPLE, &choices);
    let print = print(&compiled("print-long"), &builder.table());
    let lines: Vec<&str> = print.lines().collect();
    assert_eq!(lines.len(), 10_002);
    assert_eq!(lines[1], "0,0,0,0 =mk_(0,0,0,0)");
    assert_eq!(lines[10_000], "7,5,7,0 =mk_(7,5,7,0)");
    assert_eq!(lines[10_001], "cut 10000");
}

/// The constants of the header are those of the Rust side.
#[test]
fn constants() {
    let header = fs::read_to_string(panel().join("include/dengwizo.h")).expect("the header");
    let constant = |line: &str| -> Option<(String, usize)> {
        let (name, rest) = line.trim().strip_prefix("DENGWIZO_")?.split_once(" = ")?;
        let digits: String = rest.chars().take_while(char::is_ascii_digit).collect();
        Some((name.to_string(), digits.parse().ok()?))
    };
    let header: BTreeMap<String, usize> = header.lines().filter_map(constant).collect();
    let lengths = [
        ("SCRATCH_SIZE", SCRATCH_SIZE),
        ("VALUE_SIZE", Value::MAX_SIZE),
        ("LIST_LENGTH", List::MAX_LENGTH),
        ("TABLE_SIZE", Sheet::MAX_SIZE),
        ("TABLE_RECORDS", Sheet::MAX_RECORDS),
        ("BOOLEAN", 1),
        ("INTEGER", 2),
        ("SET", 3),
        ("SEQUENCE", 4),
        ("MAP", 5),
        ("TUPLE", 6),
        ("QUOTE", 7),
    ];
    let numbers = number::ALL
        .iter()
        .map(|&(number, name, _)| (name, usize::from(number)));
    let expected: BTreeMap<String, usize> = lengths
        .into_iter()
        .chain(numbers)
        .map(|(name, constant)| (name.to_string(), constant))
        .collect();
    assert_eq!(header, expected);
}
