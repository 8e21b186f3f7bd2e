//! Links the proved library, one archive for each of its crates (built by `.ci/archives`).

use std::env;
use std::path::{Path, PathBuf};

fn main() {
    let dir = match env::var_os("FRINGEMOLE_LIB_DIR") {
        Some(dir) => PathBuf::from(dir),
        None => Path::new(env!("CARGO_MANIFEST_DIR")).join("../../target/staticlib"),
    };
    println!("cargo:rerun-if-env-changed=FRINGEMOLE_LIB_DIR");
    println!("cargo:rustc-link-search=native={}", dir.display());
    for name in ["words_is", "words_read", "words_transfer", "words_write"] {
        println!("cargo:rerun-if-changed={}", dir.join(format!("lib{name}.a")).display());
        println!("cargo:rustc-link-lib=static={name}");
    }
}
