//! Links libjoltwagon.a: the file JOLTWAGON_LIB, or the one that `rt lib` wrote in crates/joltwagon of this repository.
use std::env;
use std::path::PathBuf;

fn main() {
    println!("cargo:rerun-if-env-changed=JOLTWAGON_LIB");
    let own = PathBuf::from(env::var("CARGO_MANIFEST_DIR").unwrap()).join("../../crates/joltwagon/out/libjoltwagon.a");
    let archive = env::var("JOLTWAGON_LIB").map(PathBuf::from).unwrap_or(own);
    let archive = archive.canonicalize().unwrap_or_else(|e| panic!("{}: {e}: run `rt lib` in crates/joltwagon", archive.display()));
    println!("cargo:rerun-if-changed={}", archive.display());
    println!("cargo:rustc-link-search=native={}", archive.parent().unwrap().display());
    println!("cargo:rustc-link-lib=static=joltwagon");
}
