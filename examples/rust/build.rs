// Links the static library: from the folder that OUTLINE_LIB names, from this tree, where tools/archive writes it, or from where pkg-config says that tools/install
// put it. Where there is none, that is said, and how to get one.
use std::path::Path;
use std::process::Command;

/// Where pkg-config says that the library is installed.
fn installed() -> Option<String> {
    let said = Command::new("pkg-config").args(["--variable=libdir", "outline"]).output().ok()?;
    let folder = String::from_utf8(said.stdout).ok()?.trim().to_string();
    (said.status.success() && !folder.is_empty()).then_some(folder)
}

fn main() {
    println!("cargo:rerun-if-env-changed=OUTLINE_LIB");
    println!("cargo:rerun-if-env-changed=PKG_CONFIG_PATH");
    let here = std::env::var("CARGO_MANIFEST_DIR").unwrap();
    let has = |folder: &String| Path::new(folder).join("liboutline.a").is_file();
    let tree = format!("{here}/../../target/staticlib");
    let folder = match std::env::var("OUTLINE_LIB") {
        Ok(folder) => folder,
        Err(_) => Some(tree.clone()).filter(has).or_else(installed).unwrap_or(tree),
    };
    if !has(&folder) {
        println!("cargo:warning=no liboutline.a in {folder}: in the repository `tools/archive` proves and writes it, and `tools/install PREFIX` installs it; OUTLINE_LIB names the folder that has it, or pkg-config does");
    }
    println!("cargo:rerun-if-changed={folder}/liboutline.a");
    println!("cargo:rustc-link-search=native={folder}");
    println!("cargo:rustc-link-lib=static=outline");
}
