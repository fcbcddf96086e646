//! The walk programs: ours, and this program once more, which then stands for the second evaluator's.

#[allow(dead_code)]
#[path = "../../tests/common/program.rs"]
mod program;

use std::io::{self, Read, Write};
use std::process::Command;

/// The word that makes this program print a walk.
pub const SECOND: &str = "reference-walk";

/// Our program; nothing where it is not built.
pub fn ours() -> Option<Command> {
    program::built().map(Command::new)
}

pub fn second() -> Command {
    let mut command = Command::new(std::env::current_exe().expect("this program"));
    command.arg(SECOND);
    command
}

/// Runs a program on a table; how many bytes it prints.
pub fn printed(mut command: Command, table: &[u8]) -> u32 {
    let output = program::run(&mut command, table);
    assert!(output.status.success(), "{:?}", output.status);
    output.stdout.len() as u32
}

/// Prints the walk of the table on standard input.
pub fn print() -> io::Result<()> {
    let mut table = Vec::new();
    io::stdin().read_to_end(&mut table)?;
    io::stdout().write_all(reference::print::walk_print(&table).as_bytes())
}
