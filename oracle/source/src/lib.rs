//! Finds the Rust node's source and lays it out for a crate that compiles it.

use std::env;
use std::fs;
use std::path::{Path, PathBuf};

const VARIABLE: &str = "ERGO_RUST_SRC";

/// The folder of the source: the one that the variable names, else ../shared/docs/src beside the repository.
fn folder() -> PathBuf {
    println!("cargo:rerun-if-env-changed={VARIABLE}");
    let beside = || Path::new(env!("CARGO_MANIFEST_DIR")).join("../../../shared/docs/src");
    let folder = env::var_os(VARIABLE).map_or_else(beside, PathBuf::from);
    assert!(folder.is_dir(), "no {}: set {VARIABLE} to the folder that holds chain/src and validation/src", folder.display());
    folder
}

/// Copies `files` of the source's folder `part`, and every file of the calling crate's folder `beside`, into OUT_DIR/src.
/// No text is changed.
pub fn lay_out(part: &str, files: &[&str]) {
    let from = folder().join(part);
    let to = Path::new(&env::var_os("OUT_DIR").expect("OUT_DIR")).join("src");
    fs::remove_dir_all(&to).ok();
    fs::create_dir_all(&to).expect("create OUT_DIR/src");
    println!("cargo:rerun-if-changed=beside");
    let beside = fs::read_dir("beside").expect("folder beside").map(|entry| entry.expect("entry of beside").path());
    for path in files.iter().map(|file| from.join(file)).chain(beside) {
        println!("cargo:rerun-if-changed={}", path.display());
        let copy = to.join(path.file_name().expect("file name"));
        assert!(!copy.exists(), "{} stands there twice", copy.display());
        fs::copy(&path, &copy).unwrap_or_else(|e| panic!("{}: {e}", path.display()));
    }
}
