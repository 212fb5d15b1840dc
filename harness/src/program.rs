//! A program that reads files in the folder it is started in, and what it must print there.

use std::fs;
use std::path::{Path, PathBuf};
use std::process::{Command, Stdio};
use std::time::{SystemTime, UNIX_EPOCH};

/// A file of a run: its name, and its bytes where it is there.
pub type File<'a> = (&'a str, Option<&'a [u8]>);

pub struct Program(PathBuf);

impl Program {
    /// The path is made whole, since each run has a folder of its own.
    pub fn at(path: &str) -> Result<Program, String> {
        let whole = fs::canonicalize(path).map_err(|error| format!("{path}: {error}"))?;
        Ok(Program(whole))
    }

    /// Starts the program beside these files. It must print just what is expected.
    pub fn must_print(&self, files: &[File], expected: &str) -> Result<(), String> {
        let folder = Folder::new()?;
        for (name, bytes) in files {
            folder.write(name, *bytes)?;
        }
        let printed = folder.run(&self.0)?;
        if printed != expected.as_bytes() {
            let printed = String::from_utf8_lossy(&printed);
            return Err(format!("expected\n{expected}but found\n{printed}"));
        }
        Ok(())
    }
}

/// A folder of its own for each run, which goes away with it.
struct Folder(PathBuf);

impl Folder {
    fn new() -> Result<Folder, String> {
        let (process, now) = (std::process::id(), SystemTime::now());
        let since = now
            .duration_since(UNIX_EPOCH)
            .map_or(0, |time| time.as_nanos());
        let path = std::env::temp_dir().join(format!("harness-{process}-{since}"));
        fs::create_dir(&path).map_err(|error| format!("{}: {error}", path.display()))?;
        Ok(Folder(path))
    }

    fn write(&self, name: &str, bytes: Option<&[u8]>) -> Result<(), String> {
        let Some(bytes) = bytes else {
            return Ok(());
        };
        fs::write(self.0.join(name), bytes).map_err(|error| format!("{name}: {error}"))
    }

    /// What the program prints when it is started here.
    fn run(&self, program: &Path) -> Result<Vec<u8>, String> {
        let mut command = Command::new(program);
        let command = command.current_dir(&self.0).stdin(Stdio::null());
        let output = command
            .output()
            .map_err(|error| format!("{}: {error}", program.display()))?;
        if !output.status.success() || !output.stderr.is_empty() {
            let complaint = String::from_utf8_lossy(&output.stderr);
            return Err(format!("{}\n{complaint}", output.status));
        }
        Ok(output.stdout)
    }
}

impl Drop for Folder {
    fn drop(&mut self) {
        // A folder that stays behind does no harm.
        let _ = fs::remove_dir_all(&self.0);
    }
}
