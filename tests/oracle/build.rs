// Takes the four files of the Rust, byte for byte, into the build folder and names them as modules there.
// Beside engine.rs it lays our hook under the name that engine.rs itself gives to a child module (`engine_tests.rs`).
use std::path::{Path, PathBuf};
use std::{env, fs, process};

const FILES: [&str; 4] = ["core.rs", "engine.rs", "engine_fns.rs", "engine_public.rs"];

fn stop(line: String) -> ! {
    eprintln!("oracle: {line}");
    process::exit(1)
}

fn take(from: &Path, to: &Path) {
    println!("cargo:rerun-if-changed={}", from.display());
    if let Err(why) = fs::copy(from, to) {
        stop(format!("cannot take {} ({why}); set ORACLE_SRC to the folder of the Rust source", from.display()));
    }
}

fn main() {
    println!("cargo:rerun-if-env-changed=ORACLE_SRC");
    let here = PathBuf::from(env::var("CARGO_MANIFEST_DIR").unwrap());
    let out = PathBuf::from(env::var("OUT_DIR").unwrap()).join("clipper");
    let src = match env::var("ORACLE_SRC") {
        Ok(folder) => PathBuf::from(folder),
        Err(_) => here.join("../../../shared/docs/src/src"),
    };
    let _ = fs::remove_dir_all(&out);
    if let Err(why) = fs::create_dir_all(&out) {
        stop(format!("cannot make {} ({why})", out.display()));
    }
    let mut modules = String::new();
    for file in FILES {
        let copy = out.join(file);
        take(&src.join(file), &copy);
        let name = file.trim_end_matches(".rs");
        modules += &format!("#[allow(warnings)]\n#[path = {:?}]\npub mod {name};\n", copy.display().to_string());
    }
    take(&here.join("hook/engine_tests.rs"), &out.join("engine_tests.rs"));
    fs::write(out.join("core_tests.rs"), "").unwrap();
    fs::write(out.join("modules.rs"), modules).unwrap();
    println!("cargo:rustc-cfg=test");
}
