//! The walk program: reads a table from standard input and prints its walk.

use std::io::{self, Read, Write};
use std::process::ExitCode;

fn main() -> ExitCode {
    let mut table = Vec::new();
    if let Err(error) = io::stdin().read_to_end(&mut table) {
        eprintln!("reference-walk: {error}");
        return ExitCode::FAILURE;
    }
    let print = reference::print::walk_print(&table);
    // Nobody who reads on, or a full device, is no news to whoever closed or filled it.
    match io::stdout().write_all(print.as_bytes()) {
        Ok(()) => ExitCode::SUCCESS,
        Err(_) => ExitCode::FAILURE,
    }
}
