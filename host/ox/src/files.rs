//! Files, read whole and written whole.

use crate::Failure;
use oxbreathe::LONGEST;
use std::fmt;
use std::fs::{self, File};
use std::io::{self, Read, Write};
use std::path::{Path, PathBuf};

/// What is read: a file, or standard input.
#[derive(Clone, Debug, PartialEq)]
pub struct In(PathBuf);

impl In {
    /// `-` is standard input; a file of that name is `./-`.
    pub fn named(path: PathBuf) -> In {
        In(path)
    }

    pub fn is_standard(&self) -> bool {
        self.0.as_os_str() == "-"
    }

    /// The name as it was given.
    pub fn given(&self) -> String {
        self.0.to_string_lossy().into_owned()
    }

    /// The bytes, as many as the library takes and one more, so that it is the library that says where they are too many.
    pub fn read(&self) -> Result<Vec<u8>, Failure> {
        self.read_at_most(LONGEST + 1)
    }

    /// The bytes of a saved preview, which tells of each record more than the file may have said, perhaps of several files.
    pub fn read_saved(&self) -> Result<Vec<u8>, Failure> {
        self.read_at_most(64 * LONGEST)
    }

    fn read_at_most(&self, most: usize) -> Result<Vec<u8>, Failure> {
        let mut bytes = Vec::new();
        let most = most as u64;
        let read = if self.is_standard() {
            io::stdin().lock().take(most).read_to_end(&mut bytes)
        } else {
            File::open(&self.0).and_then(|file| file.take(most).read_to_end(&mut bytes))
        };
        match read {
            Ok(_) => Ok(bytes),
            Err(error) => Err(failure(self, "cannot be read", &error)),
        }
    }

    /// Whether it is the file of that path, which standard input is not.
    fn is_file(&self, path: &Path) -> bool {
        let same = || Some(self.0.canonicalize().ok()? == path.canonicalize().ok()?);
        !self.is_standard() && same().unwrap_or(false)
    }
}

impl fmt::Display for In {
    fn fmt(&self, to: &mut fmt::Formatter) -> fmt::Result {
        if self.is_standard() { to.write_str("standard input") } else { self.0.display().fmt(to) }
    }
}

fn failure(name: impl fmt::Display, what: &str, error: &io::Error) -> Failure {
    Failure::File(format!("{name} {what}: {error}"))
}

/// A file to be written.
pub struct Out {
    pub path: PathBuf,
    /// Whether it may be there already.
    pub force: bool,
}

impl Out {
    /// Whether it may be written, asked before any work is done. What is read is never overwritten.
    pub fn check(&self, read: &[&In]) -> Result<(), Failure> {
        if self.path.as_os_str() == "-" {
            return Err(Failure::File("- is no output: an output is a file, written whole".to_string()));
        }
        if read.iter().any(|input| input.is_file(&self.path)) {
            return Err(Failure::File(format!("{} is read, and cannot be the output", self.path.display())));
        }
        if !self.force && self.path.symlink_metadata().is_ok() {
            return Err(Failure::File(format!("{} is there already; --force overwrites it", self.path.display())));
        }
        Ok(())
    }

    /// Written beside, and renamed when it is whole: there is never half of it under its name.
    pub fn write(&self, bytes: &[u8]) -> Result<(), Failure> {
        self.check(&[])?;
        let mut beside = self.path.clone().into_os_string();
        beside.push(format!(".{}.new", std::process::id()));
        let beside = PathBuf::from(beside);
        let written = File::create_new(&beside).and_then(|mut file| {
            let whole =
                file.write_all(bytes).and_then(|()| file.sync_all()).and_then(|()| fs::rename(&beside, &self.path));
            if whole.is_err() {
                let _ = fs::remove_file(&beside);
            }
            whole
        });
        written.map_err(|error| failure(self.path.display(), "cannot be written", &error))
    }
}
