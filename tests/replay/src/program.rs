//! The proved program, run on a capture.

use std::fs::{self, File};
use std::path::{Path, PathBuf};
use std::process::{Command, Stdio};

pub struct Program {
    path: PathBuf,
    /// A file of our own that holds the capture: a pipe would stop where the program
    /// stops reading.
    capture: PathBuf,
}

impl Program {
    /// `FRINGEMOLE_REPLAY`, or what `.ci/archives replay` has left in `target/bin`.
    pub fn find() -> Result<Program, String> {
        let ours = Path::new(env!("CARGO_MANIFEST_DIR")).join("../../target/bin/replay");
        let path = std::env::var_os("FRINGEMOLE_REPLAY").map_or(ours, PathBuf::from);
        if !path.exists() {
            return Err(format!("{} is not there: .ci/archives replay makes it", path.display()));
        }
        let capture = std::env::temp_dir().join(format!("replay.{}", std::process::id()));
        Ok(Program { path, capture })
    }

    pub fn replay(&self, capture: &[u8]) -> Result<Vec<u8>, String> {
        let told = |error: std::io::Error| format!("{}: {error}", self.path.display());
        fs::write(&self.capture, capture).map_err(told)?;
        let input = File::open(&self.capture).map_err(told)?;
        let ran = Command::new(&self.path).stdin(Stdio::from(input)).output().map_err(told)?;
        if !ran.status.success() || !ran.stderr.is_empty() {
            return Err(format!("{}: {}", self.path.display(), ran.status));
        }
        Ok(ran.stdout)
    }
}

impl Drop for Program {
    fn drop(&mut self) {
        // It may never have been written.
        let _ = fs::remove_file(&self.capture);
    }
}
