// Links the static library that `tools/archive` wrote; OUTLINE_LIB names another folder.
use std::path::PathBuf;
use std::{env, process};

fn main() {
    println!("cargo:rerun-if-env-changed=OUTLINE_LIB");
    let here = PathBuf::from(env::var("CARGO_MANIFEST_DIR").unwrap());
    let folder = env::var("OUTLINE_LIB").map_or_else(|_| here.join("../../target/staticlib"), PathBuf::from);
    let archive = folder.join("liboutline.a");
    println!("cargo:rerun-if-changed={}", archive.display());
    if !archive.is_file() {
        eprintln!("driver: no {}; make it with: tools/archive", archive.display());
        process::exit(1);
    }
    println!("cargo:rustc-link-search=native={}", folder.display());
    println!("cargo:rustc-link-lib=static=outline");
}
