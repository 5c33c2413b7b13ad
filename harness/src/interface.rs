//! The library as others link it: each C program of harness/c, which includes the header, is compiled, linked with the same
//! archive and run, and so are the tests of the Rust wrapper.

use crate::sweep::Tally;
use std::path::{Path, PathBuf};
use std::process::Command;

pub fn header() -> Tally {
    let mut sources: Vec<PathBuf> = std::fs::read_dir(root().join("harness/c"))
        .and_then(|files| files.map(|file| Ok(file?.path())).collect())
        .unwrap_or_default();
    sources.retain(|source| source.extension().is_some_and(|end| end == "c"));
    sources.sort();
    let mut tally = Tally::default();
    for source in sources {
        tally.add(program(&source));
    }
    tally
}

fn program(source: &Path) -> Tally {
    let root = root();
    let program = root.join("target/harness").join(source.file_stem().expect("a source has a name"));
    let compiled = output(
        Command::new("cc")
            .args(["-std=c99", "-pedantic", "-Wall", "-Wextra", "-Werror", "-O1"])
            .arg("-I")
            .arg(root.join("include"))
            .arg(source)
            .arg(root.join("target/staticlib/libexports.a"))
            .arg("-o")
            .arg(&program),
    );
    let said = compiled.and_then(|_| output(&mut Command::new(&program)));
    counted(said, |line| Some(line.starts_with("ok")))
}

pub fn wrapper() -> Tally {
    let root = root();
    let said = output(
        Command::new("cargo")
            .args(["test", "--offline", "--locked", "--manifest-path"])
            .arg(root.join("wrapper/Cargo.toml"))
            .env("CARGO_TARGET_DIR", root.join("target/wrapper")),
    );
    counted(said, |line| {
        let (_, end) = line.strip_prefix("test ")?.split_once(" ... ")?;
        Some(end == "ok")
    })
}

fn root() -> PathBuf {
    Path::new(env!("CARGO_MANIFEST_DIR")).join("..")
}

/// Counts the lines that tell of a test, by whether it passed. A failed run with no such line counts as one.
fn counted(said: Result<String, String>, passed: impl Fn(&str) -> Option<bool>) -> Tally {
    let mut tally = Tally::default();
    for line in said.as_ref().unwrap_or_else(|said| said).lines() {
        if let Some(right) = passed(line) {
            tally.count(right, || line.to_string());
        }
    }
    match said {
        Err(said) if tally.failed == 0 => tally.count(false, || said),
        _ => {}
    }
    tally
}

/// What the command wrote, as an error if it failed.
fn output(command: &mut Command) -> Result<String, String> {
    let output = command.output().map_err(|e| e.to_string())?;
    let said = String::from_utf8_lossy(&output.stdout).into_owned() + &String::from_utf8_lossy(&output.stderr);
    if output.status.success() { Ok(said) } else { Err(said) }
}
