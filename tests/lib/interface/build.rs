//! Links the archive that `sh tools/build caif` writes, and with the feature `desk` the
//! one that `sh tools/build desk` writes.

use std::env;

fn main() {
    let here = env::var("CARGO_MANIFEST_DIR").expect("Cargo names the package's folder");
    let folder = format!("{here}/../../../target/staticlib");
    println!("cargo:rustc-link-search=native={folder}");
    link(&folder, "caif");
    if env::var_os("CARGO_FEATURE_DESK").is_some() {
        link(&folder, "desk");
    }
}

fn link(folder: &str, name: &str) {
    println!("cargo:rerun-if-changed={folder}/lib{name}.a");
    println!("cargo:rustc-link-lib=static={name}");
}
