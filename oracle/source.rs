//! Takes the published files for a build: their text as it is, with more behind it.

use std::env;
use std::fs;
use std::path::{Path, PathBuf};

fn read(from: &Path) -> String {
    println!("cargo::rerun-if-changed={}", from.display());
    fs::read_to_string(from).unwrap_or_else(|why| panic!("{}: {why}", from.display()))
}

/// A file of the folder that SOURCE names.
pub fn published(name: &str) -> String {
    println!("cargo::rerun-if-env-changed=SOURCE");
    let folder = env::var_os("SOURCE").expect("SOURCE names the folder of the published files: see docs/ORACLE.md");
    read(&PathBuf::from(folder).join(format!("src/cpu/{name}.rs")))
}

/// What stands behind `flatten.rs`: its private functions are reached from the end of their own file.
pub fn reach(name: &str) -> String {
    read(&Path::new(env!("CARGO_MANIFEST_DIR")).join(format!("../reach/{name}.rs")))
}

/// Writes the modules, and a file that declares them all.
pub fn write(modules: &[(&str, String)]) {
    let out = PathBuf::from(env::var_os("OUT_DIR").expect("cargo names a folder for what is built"));
    let mut declared = String::new();
    for (name, text) in modules {
        let to = out.join(format!("{name}.rs"));
        fs::write(&to, text).expect("the folder can be written");
        declared += &format!("#[path = {:?}]\npub mod {name};\n", to.display().to_string());
    }
    fs::write(out.join("modules.rs"), declared).expect("the folder can be written");
}
