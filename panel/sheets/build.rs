//! Links the archive of the proved services, which `links` in Cargo.toml names.
//!
//! It is taken from `target/staticlib` of the repository. Where it is missing, `rt lib` makes it in the crate of the exports,
//! and it is copied there. The variable `DENGWIZO_ARCHIVES` names another folder to take it from.

use std::env;
use std::fs;
use std::io;
use std::path::{Path, PathBuf};
use std::process::{exit, Command};

const FOLDER: &str = "DENGWIZO_ARCHIVES";

fn main() {
    let name = env::var("CARGO_MANIFEST_LINKS").expect("`links` in Cargo.toml");
    let repository = Path::new(env!("CARGO_MANIFEST_DIR"))
        .ancestors()
        .nth(2)
        .expect("the repository");
    let given = env::var_os(FOLDER).map(PathBuf::from);
    let is_given = given.is_some();
    let folder = given.unwrap_or_else(|| repository.join("target/staticlib"));
    let archive = folder.join(format!("lib{name}.a"));
    println!("cargo:rerun-if-env-changed={FOLDER}");
    println!("cargo:rerun-if-changed={}", archive.display());

    if !archive.is_file() && !is_given {
        // A failure shows as the archive that is still missing.
        let _ = make(&name, repository, &archive);
    }
    if !archive.is_file() {
        let archive = archive.display();
        eprintln!(
            "error: {archive} is missing: `rt lib` in crates/{name}_c makes what it is a copy of"
        );
        exit(1);
    }
    println!("cargo:rustc-link-search=native={}", folder.display());
    println!("cargo:rustc-link-lib=static={name}");
    println!("cargo:rustc-env=ARCHIVE={}", archive.display());
}

/// Has the archive made in the crate of the exports, and copies it.
fn make(name: &str, repository: &Path, archive: &Path) -> io::Result<()> {
    let home = repository.join("crates").join(format!("{name}_c"));
    let made = Command::new("rt").arg("lib").current_dir(&home).output()?;
    eprint!("{}", String::from_utf8_lossy(&made.stdout));
    eprint!("{}", String::from_utf8_lossy(&made.stderr));
    if made.status.success() {
        fs::create_dir_all(archive.parent().expect("a folder"))?;
        fs::copy(home.join(format!("out/lib{name}_c.a")), archive)?;
    }
    Ok(())
}
