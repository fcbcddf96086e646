//! The script `./walk`, in a repository whose program, and whose `rt` and `cargo`, only say what they are given.

use crate::common::program::{repository, run};
use std::fs;
use std::os::unix::fs::symlink;
use std::path::PathBuf;
use std::process::Command;

/// What the script needs besides `rt` and `cargo`.
const TOOLS: [&str; 16] = [
    "bash", "cat", "cp", "dirname", "env", "find", "flock", "grep", "mkdir", "mktemp", "readlink",
    "rm", "sh", "tail", "tee", "touch",
];

/// Proves two crates, builds a program that prints its input, and runs it.
const RT: &str = "echo \"$*\" >>../../rt-calls
echo 'rt: waiting for another rt to finish' >&2
echo 'fn prelude::first: proved' >&2
echo 'logic=proved functions=1' >&2
echo 'crate walk: modules loaded=1 checked=1' >&2
echo 'logic=proved functions=0' >&2
mkdir -p out
cp ../../cat-input out/walk
echo 'refused 3 0'
";

/// Builds a tool that takes any text for a table, but for one with a mistake.
const CARGO: &str = "mkdir -p target/release
cp ../encode-input target/release/records
";

const ENCODE: &str = "text=$(cat)
case $text in
*mistake*)
    echo 'records: line 2: unknown kind `mistake`' >&2
    exit 1
    ;;
esac
echo \"$1 $text\"
";

/// It stands outside this one, in which `rt ci` takes no second crates.txt.
struct Repository(PathBuf);

/// What a call wrote, and its status.
#[derive(Debug, PartialEq)]
struct Ended {
    status: Option<i32>,
    output: String,
    errors: Vec<String>,
}

impl Repository {
    fn new(name: &str) -> Repository {
        let name = format!("walk-{}-{name}", std::process::id());
        let root = std::env::temp_dir().join(name);
        for folder in ["src", "specs", "proofs"] {
            fs::create_dir_all(root.join("crates/walk").join(folder)).expect("a folder");
        }
        for folder in ["bin", "panel/records", "panel/forms"] {
            fs::create_dir_all(root.join(folder)).expect("a folder");
        }
        let made = Repository(root);
        let script = fs::read_to_string(repository().join("walk")).expect("the script");
        made.executable("walk", &script);
        made.write("crates.txt", "prelude:\nwalk: prelude\n");
        made.write("panel/Cargo.toml", "");
        made.program("bin/rt", RT);
        made.program("bin/cargo", CARGO);
        made.program("cat-input", "cat\n");
        made.program("encode-input", ENCODE);
        for tool in TOOLS {
            symlink(found(tool), made.0.join("bin").join(tool)).expect("a link");
        }
        made
    }

    fn write(&self, file: &str, text: &str) {
        fs::write(self.0.join(file), text).expect("a file");
    }

    /// Has a program written by another process: whatever the tests start while this one has a file open for writing has
    /// it open too for a moment, and such a file cannot be run.
    fn executable(&self, file: &str, text: &str) {
        let mut command = Command::new("sh");
        command.args(["-c", "cat >\"$0\" && chmod 755 \"$0\""]);
        let ended = run(command.arg(self.0.join(file)), text.as_bytes());
        assert!(ended.status.success(), "{ended:?}");
    }

    fn program(&self, file: &str, text: &str) {
        self.executable(file, &format!("#!/bin/sh\n{text}"));
    }

    fn remove(&self, file: &str) {
        fs::remove_file(self.0.join(file)).expect("a file");
    }

    fn walk(&self, words: &[&str], input: &str) -> Ended {
        let mut command = Command::new("./walk");
        command.args(words).current_dir(&self.0).env_clear();
        command.env("PATH", self.0.join("bin"));
        let ended = run(&mut command, input.as_bytes());
        let text = |bytes: Vec<u8>| String::from_utf8(bytes).expect("a text");
        Ended {
            status: ended.status.code(),
            output: text(ended.stdout),
            errors: text(ended.stderr).lines().map(str::to_string).collect(),
        }
    }

    fn rt_calls(&self) -> usize {
        let calls = fs::read_to_string(self.0.join("rt-calls"));
        calls.unwrap_or_default().lines().count()
    }
}

impl Drop for Repository {
    fn drop(&mut self) {
        let _ = fs::remove_dir_all(&self.0);
    }
}

fn found(tool: &str) -> PathBuf {
    let path = std::env::var_os("PATH").expect("a path");
    let mut files = std::env::split_paths(&path).map(|folder| folder.join(tool));
    files.find(|file| file.is_file()).expect(tool)
}

/// A call that prints, with lines of progress or without.
fn printed(output: &str, errors: &[&str]) -> Ended {
    Ended {
        status: Some(0),
        output: output.to_string(),
        errors: errors.iter().map(|line| line.to_string()).collect(),
    }
}

/// A call that says one line and prints nothing.
fn refused(status: i32, line: &str) -> Ended {
    Ended {
        status: Some(status),
        output: String::new(),
        errors: vec![line.to_string()],
    }
}

const PROGRESS: [&str; 3] = [
    "walk: proving the program, each crate once; this takes some minutes",
    "walk: proved prelude",
    "walk: proved walk",
];

#[test]
fn the_first_call_builds_and_later_ones_do_not() {
    let made = Repository::new("first-call");
    made.write("a table", "bytes");
    assert_eq!(made.walk(&["a table"], ""), printed("bytes", &PROGRESS));
    assert_eq!(made.walk(&["a table"], ""), printed("bytes", &[]));
    assert_eq!(made.walk(&[], "input"), printed("input", &[]));
    assert_eq!(made.walk(&["-"], "input"), printed("input", &[]));
    assert_eq!(made.rt_calls(), 1);
    made.write("crates/walk/src/main.rt", "changed");
    assert_eq!(made.walk(&[], "input"), printed("input", &PROGRESS));
    assert_eq!(made.walk(&[], "input"), printed("input", &[]));
    made.remove("crates/walk/src/main.rt");
    assert_eq!(made.walk(&[], "input"), printed("input", &PROGRESS));
    assert_eq!(made.rt_calls(), 3);
}

#[test]
fn a_sheet_goes_through_the_notation() {
    let made = Repository::new("sheet");
    made.walk(&[], "");
    made.write("a.sheet", "text");
    let ended = made.walk(&["a.sheet"], "");
    assert_eq!(
        (ended.status, ended.output),
        (Some(0), "encode text\n".into())
    );
    assert_eq!(
        ended.errors[0],
        "walk: building the tool for the notation (cargo)"
    );
    assert!(ended.errors[1].starts_with("walk: built, "));
    assert_eq!(made.walk(&["a.sheet"], ""), printed("encode text\n", &[]));
    made.write("b.sheet", "set\nmistake 1\n");
    assert_eq!(
        made.walk(&["b.sheet"], ""),
        refused(1, "walk: b.sheet: line 2: unknown kind `mistake`")
    );
}

#[test]
fn files_that_are_none() {
    let made = Repository::new("no-file");
    let line = "walk: sheets/none.sheet: no such file";
    assert_eq!(made.walk(&["sheets/none.sheet"], ""), refused(1, line));
    let line = "walk: crates: is a folder";
    assert_eq!(made.walk(&["crates"], ""), refused(1, line));
    assert_eq!(made.rt_calls(), 0);
}

#[test]
fn tools_that_are_missing() {
    let made = Repository::new("no-tools");
    made.write("a.sheet", "text");
    made.remove("bin/cargo");
    made.walk(&[], "");
    let line = "walk: cargo is not on the PATH: the tool for the notation is built with it";
    assert_eq!(made.walk(&["a.sheet"], ""), refused(1, line));
    assert_eq!(made.walk(&[], "input"), printed("input", &[]));
    made.remove("bin/rt");
    assert_eq!(made.walk(&[], "input"), printed("input", &[]));
    made.remove("crates/walk/out/walk");
    let line = "walk: rt is not on the PATH: the program is built with the Rattle kit";
    assert_eq!(made.walk(&[], "input"), refused(1, line));
}

#[test]
fn a_proof_that_fails() {
    let made = Repository::new("no-proof");
    let wrong = "echo 'fn walk::first: not proved' >&2
echo 'a.antt:1:2: error: wrong' >&2
echo 'logic=not-proved' >&2
echo 'rt: the library walk did not build, so nothing above it was checked' >&2
exit 1
";
    made.program("bin/rt", wrong);
    let ended = made.walk(&[], "input");
    assert_eq!((ended.status, ended.output), (Some(1), String::new()));
    let told = [
        "a.antt:1:2: error: wrong",
        "rt: the library walk did not build, so nothing above it was checked",
    ];
    assert_eq!(ended.errors[1..3], told);
    assert!(ended.errors[3].starts_with("walk: rt could not prove the program"));
}

/// What the program says on standard error becomes a status.
#[test]
fn a_program_that_fails() {
    let made = Repository::new("failing");
    made.walk(&[], "");
    made.program("crates/walk/out/walk", "echo 'walk: input is gone' >&2\n");
    assert_eq!(made.walk(&[], ""), refused(1, "walk: input is gone"));
    made.program("crates/walk/out/walk", "kill -PIPE $$\n");
    let ended = made.walk(&[], "");
    assert_eq!((ended.status, ended.errors), (Some(141), vec![]));
}

#[test]
fn words() {
    let made = Repository::new("words");
    for word in ["--help", "-h"] {
        let ended = made.walk(&[word], "");
        assert_eq!(ended.status, Some(0));
        assert!(ended.output.starts_with("usage: ./walk FILE.sheet "));
    }
    let line = "walk: unknown word --print; ./walk --help says more";
    assert_eq!(made.walk(&["--print"], ""), refused(2, line));
    let line = "walk: one file at a time; ./walk --help says more";
    assert_eq!(made.walk(&["a", "b"], ""), refused(2, line));
    made.write("-a", "bytes");
    made.walk(&[], "");
    assert_eq!(made.walk(&["--", "-a"], ""), printed("bytes", &[]));
    assert_eq!(made.rt_calls(), 1);
}
