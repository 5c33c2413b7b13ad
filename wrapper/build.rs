//! Links the archive that `tools/staticlib exports` wrote.

use std::path::Path;

fn main() {
    let archives = Path::new(env!("CARGO_MANIFEST_DIR")).join("../target/staticlib");
    let archive = archives.join("libexports.a");
    assert!(archive.exists(), "no {}: run tools/staticlib exports first", archive.display());
    println!("cargo::rustc-link-search=native={}", archives.display());
    println!("cargo::rustc-link-lib=static=exports");
    println!("cargo::rerun-if-changed={}", archive.display());
}
