//! `records encode` turns the notation on standard input into a table on standard output;
//! `records decode` does the reverse. A mistake is told on standard error, with status 1.

use std::error::Error;
use std::io::{self, Read, Write};
use std::process::ExitCode;

const USAGE: &str = "usage: records encode < TEXT > TABLE, or: records decode < TABLE > TEXT";

fn main() -> ExitCode {
    match run() {
        Ok(()) => ExitCode::SUCCESS,
        Err(error) => {
            eprintln!("records: {error}");
            ExitCode::FAILURE
        }
    }
}

/// Writes only once the whole input is known to be good.
fn run() -> Result<(), Box<dyn Error>> {
    let arguments: Vec<_> = std::env::args_os().skip(1).collect();
    let [command] = arguments.as_slice() else {
        return Err(USAGE.into());
    };
    let output = match command.to_str() {
        Some("encode") => records::encode(&text(input()?)?)?,
        Some("decode") => records::decode(&input()?)?.into_bytes(),
        _ => return Err(USAGE.into()),
    };
    let mut stdout = io::stdout().lock();
    stdout.write_all(&output)?;
    stdout.flush()?;
    Ok(())
}

fn input() -> io::Result<Vec<u8>> {
    let mut bytes = Vec::new();
    io::stdin().lock().read_to_end(&mut bytes)?;
    Ok(bytes)
}

/// The input as text, or the line of its first byte that is not UTF-8.
fn text(bytes: Vec<u8>) -> Result<String, records::Mistake> {
    String::from_utf8(bytes).map_err(|error| {
        let good = error.utf8_error().valid_up_to();
        let before = &error.as_bytes()[..good];
        records::Mistake {
            line: before.iter().filter(|&&byte| byte == b'\n').count() + 1,
            message: "not UTF-8".to_string(),
        }
    })
}
