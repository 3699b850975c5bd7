//! Names the files of the original, unchanged, from the folder COCO_SRC; and links the library's archive, where JOLTWAGON_LIB names it.
use std::path::Path;
use std::{env, fs};

const FILES: [&str; 6] = ["hex", "instructions", "obj", "parse", "program", "core"];

fn main() {
    println!("cargo:rerun-if-env-changed=COCO_SRC");
    println!("cargo:rerun-if-env-changed=JOLTWAGON_LIB");
    println!("cargo:rustc-check-cfg=cfg(library)");
    let folder = env::var("COCO_SRC").expect("COCO_SRC names the folder of obj.rs, program.rs and the others");
    let folder = fs::canonicalize(&folder).unwrap_or_else(|e| panic!("{folder}: {e}"));
    let mut text = String::new();
    for name in FILES {
        let file = folder.join(format!("{name}.rs"));
        assert!(file.exists(), "{} is not there", file.display());
        println!("cargo:rerun-if-changed={}", file.display());
        text += &format!("#[path = {file:?}]\npub mod {name};\n");
    }
    fs::write(Path::new(&env::var("OUT_DIR").unwrap()).join("originals.rs"), text).unwrap();
    if let Ok(archive) = env::var("JOLTWAGON_LIB") {
        let archive = fs::canonicalize(&archive).unwrap_or_else(|e| panic!("{archive}: {e}"));
        let stem = archive.file_stem().unwrap().to_str().unwrap();
        println!("cargo:rerun-if-changed={}", archive.display());
        println!("cargo:rustc-link-search=native={}", archive.parent().unwrap().display());
        println!("cargo:rustc-link-lib=static={}", stem.strip_prefix("lib").unwrap());
        println!("cargo:rustc-cfg=library");
    }
}
