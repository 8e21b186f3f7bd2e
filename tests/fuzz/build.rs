//! Links the proved library (`.ci/archives fringemole`).

use std::env;
use std::path::{Path, PathBuf};

fn main() {
    let dir = match env::var_os("FRINGEMOLE_LIB_DIR") {
        Some(dir) => PathBuf::from(dir),
        None => Path::new(env!("CARGO_MANIFEST_DIR")).join("../../target/staticlib"),
    };
    println!("cargo:rerun-if-env-changed=FRINGEMOLE_LIB_DIR");
    println!("cargo:rerun-if-changed={}", dir.join("libfringemole.a").display());
    println!("cargo:rustc-link-search=native={}", dir.display());
    println!("cargo:rustc-link-lib=static=fringemole");
}
