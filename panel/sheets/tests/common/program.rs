//! Programs that read a table from standard input and write its print.

use std::env;
use std::io::Write;
use std::path::{Path, PathBuf};
use std::process::{Command, Output, Stdio};

/// The repository.
pub fn repository() -> &'static Path {
    let package = Path::new(env!("CARGO_MANIFEST_DIR"));
    package.ancestors().nth(2).expect("the repository")
}

/// The walk program, or the one that the variable `DENGWIZO_WALK` names; nothing where it is not built.
pub fn built() -> Option<PathBuf> {
    let given = env::var_os("DENGWIZO_WALK").map(PathBuf::from);
    let program = given.unwrap_or_else(|| repository().join("crates/walk/out/walk"));
    program.is_file().then_some(program)
}

/// Runs a command on an input. A program that has read enough may have closed its end.
pub fn run(command: &mut Command, input: &[u8]) -> Output {
    let mut child = command
        .stdin(Stdio::piped())
        .stdout(Stdio::piped())
        .stderr(Stdio::piped())
        .spawn()
        .expect("the program starts");
    let _ = child.stdin.take().expect("a pipe").write_all(input);
    child.wait_with_output().expect("an end")
}

/// What a program prints of a table, with nothing on standard error and status 0.
#[track_caller]
pub fn print(program: &Path, table: &[u8]) -> String {
    let output = run(&mut Command::new(program), table);
    assert_eq!(String::from_utf8_lossy(&output.stderr), "");
    assert!(output.status.success(), "{:?}", output.status);
    String::from_utf8(output.stdout).expect("a text")
}
