//! Builds the static library of the program's function with `tools/staticlib frames`, which proves every crate under it
//! first, unless nothing has changed since. `MLHE_FRAMES` names a `libframes.a` that is to be linked as it is; `none`
//! links nothing, which is enough for `cargo check` and `cargo clippy`. Offline.

use std::path::{Path, PathBuf};
use std::process::Command;
use std::{env, fs};

fn main() {
    println!("cargo:rerun-if-env-changed=MLHE_FRAMES");
    let library = match env::var_os("MLHE_FRAMES") {
        Some(path) if path == "none" => return,
        Some(path) => PathBuf::from(path),
        None => built(),
    };
    let library = library.canonicalize().unwrap_or_else(|error| panic!("{}: {error}", library.display()));
    println!("cargo:rerun-if-changed={}", library.display());
    println!("cargo:rustc-link-search=native={}", library.parent().expect("a folder").display());
    println!("cargo:rustc-link-lib=static=frames");
}

fn built() -> PathBuf {
    let repository = Path::new(env!("CARGO_MANIFEST_DIR")).join("../..");
    println!("cargo:rerun-if-changed={}", repository.join("crates.txt").display());
    // Not the folders themselves: in their `out/` stands what `rt` makes.
    for name in fs::read_dir(repository.join("crates")).expect("the crates") {
        for part in ["src", "specs", "proofs"] {
            let sources = name.as_ref().expect("a crate").path().join(part);
            if sources.exists() {
                println!("cargo:rerun-if-changed={}", sources.display());
            }
        }
    }
    let script = repository.join("tools/staticlib");
    let output = Command::new(&script).arg("frames").output();
    let output = output.unwrap_or_else(|error| panic!("{}: {error}", script.display()));
    let said = String::from_utf8_lossy(&output.stdout) + String::from_utf8_lossy(&output.stderr);
    assert!(output.status.success(), "tools/staticlib frames failed: {said}");
    repository.join("target/staticlib/libframes.a")
}
