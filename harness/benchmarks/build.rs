//! Compiles the calls of capstone, by its own header; CC and AR name the tools, where they are others.
use std::env;
use std::path::Path;
use std::process::Command;

fn main() {
    println!("cargo:rerun-if-changed=src/capstone.c");
    let tool = |name: &str, usual: &str| Command::new(env::var(name).unwrap_or_else(|_| usual.to_string()));
    let out = env::var("OUT_DIR").unwrap();
    let object = Path::new(&out).join("capstone.o");
    let archive = Path::new(&out).join("libcalls.a");
    let run = |command: &mut Command| assert!(command.status().unwrap().success(), "{command:?}");
    run(tool("CC", "cc").args(["-O2", "-Wall", "-c", "src/capstone.c", "-o"]).arg(&object));
    run(tool("AR", "ar").arg("crs").arg(&archive).arg(&object));
    println!("cargo:rustc-link-search=native={out}");
    println!("cargo:rustc-link-lib=static=calls");
    println!("cargo:rustc-link-lib=dylib=capstone");
}
