//! The sample sheets: each, encoded and walked by the reference, gives the print stored beside it.

use std::collections::BTreeSet;
use std::fs;
use std::path::PathBuf;

fn folder() -> PathBuf {
    PathBuf::from(env!("CARGO_MANIFEST_DIR")).join("../../sheets")
}

/// The names of the files in the folder that have this extension, without it.
fn names(extension: &str) -> BTreeSet<String> {
    let entries = fs::read_dir(folder()).expect("the folder of the sheets");
    let files = entries.map(|entry| entry.expect("a file").path());
    files
        .filter(|file| file.extension().is_some_and(|e| e == extension))
        .map(|file| {
            file.file_stem()
                .expect("a name")
                .to_string_lossy()
                .into_owned()
        })
        .collect()
}

fn read(name: &str, extension: &str) -> String {
    let file = folder().join(name).with_extension(extension);
    fs::read_to_string(&file).unwrap_or_else(|error| panic!("{}: {error}", file.display()))
}

#[test]
fn every_sheet_has_a_print_and_every_print_a_sheet() {
    let sheets = names("sheet");
    assert!(sheets.len() >= 15);
    assert_eq!(sheets, names("print"));
}

#[test]
fn every_sheet_gives_its_print() {
    for name in names("sheet") {
        let table =
            records::encode(&read(&name, "sheet")).unwrap_or_else(|e| panic!("{name}: {e}"));
        assert_eq!(
            reference::print::walk_print(&table),
            read(&name, "print"),
            "{name}"
        );
    }
}

/// Without its comments a sample is in the form that `decode` writes.
#[test]
fn sheets_are_canonical() {
    for name in names("sheet") {
        let text = read(&name, "sheet");
        let lines = text.lines().filter(|line| !line.starts_with('#'));
        let bare: String = lines.map(|line| format!("{line}\n")).collect();
        let table = records::encode(&text).unwrap_or_else(|e| panic!("{name}: {e}"));
        assert_eq!(records::decode(&table).unwrap(), bare, "{name}");
    }
}
