//! Links the static library, from cargo's build folder, where it is put as `libmlhe.a`. Offline.
//!
//! - `MLHE_LIBRARY` names a library that is there, under any name: it is taken as it is.
//! - `MLHE_LIBRARY=none` links nothing, which is enough for `cargo check`, `cargo clippy` and `cargo doc`.
//! - Otherwise `tools/staticlib capi` of the repository runs. It has `rt` prove every crate under `capi_c` first, and
//!   leaves proofs in the crates' folders `out/` and the library in the repository's `target/`, so that what is
//!   unchanged is not proved again. This is the one case in which something is written outside cargo's build folder.
//! - Where there is no `rt`, `target/staticlib/libcapi.a` of the repository is taken, if it is there.

use std::path::{Path, PathBuf};
use std::process::Command;
use std::{env, fs};

/// The status of `tools/staticlib` where there is no `rt`.
const NO_RT: i32 = 127;

fn main() {
    println!("cargo:rerun-if-env-changed=MLHE_LIBRARY");
    println!("cargo:rerun-if-changed=build.rs");
    let library = match env::var_os("MLHE_LIBRARY") {
        Some(path) if path == "none" => return,
        Some(path) => PathBuf::from(path),
        None => built(),
    };
    let library = library.canonicalize().unwrap_or_else(|error| panic!("{}: {error}", library.display()));
    println!("cargo:rerun-if-changed={}", library.display());
    let folder = PathBuf::from(env::var_os("OUT_DIR").expect("cargo names its folder"));
    fs::copy(&library, folder.join("libmlhe.a")).unwrap_or_else(|error| panic!("{}: {error}", library.display()));
    println!("cargo:rustc-link-search=native={}", folder.display());
    println!("cargo:rustc-link-lib=static=mlhe");
}

/// The library in the repository, built anew where `rt` is at hand.
fn built() -> PathBuf {
    let repository = Path::new(env!("CARGO_MANIFEST_DIR")).parent().expect("the repository");
    println!("cargo:rerun-if-changed={}", repository.join("crates.txt").display());
    // Not the folders themselves: in their `out/` stands what `rt` makes.
    for name in fs::read_dir(repository.join("crates")).expect("the crates") {
        for part in ["src", "specs", "proofs"] {
            let sources = name.as_ref().expect("a crate").path().join(part);
            if sources.exists() {
                println!("cargo:rerun-if-changed={}", sources.display());
            }
        }
    }
    let library = repository.join("target/staticlib/libcapi.a");
    let script = repository.join("tools/staticlib");
    let output = Command::new(&script).arg("capi").output();
    let output = output.unwrap_or_else(|error| panic!("{}: {error}", script.display()));
    let is_kept = output.status.code() == Some(NO_RT) && library.exists();
    let said = String::from_utf8_lossy(&output.stdout) + String::from_utf8_lossy(&output.stderr);
    assert!(output.status.success() || is_kept, "tools/staticlib capi failed: {said}");
    library
}
