//! Files that are written. A file gets its name when it is complete: until then it stands beside it
//! under another one, and where the command fails it is removed.

use crate::failure::{is_stream, shown, Failure};
use std::fs::{self, File, Metadata, OpenOptions};
use std::io::{self, IsTerminal, Seek, SeekFrom, Write};
use std::os::fd::AsFd;
use std::os::unix::fs::{MetadataExt, OpenOptionsExt};
use std::path::{Path, PathBuf};

/// How much is gathered before it is written.
const GATHERED: usize = 1 << 16;

/// All may read and write.
const EVERYONE: u32 = 0o666;

/// A file that is being written, or standard output.
pub struct Output {
    name: String,
    file: File,
    gathered: Vec<u8>,
    unfinished: Option<Unfinished>,
}

/// A file under its first name, and the name that it gets.
struct Unfinished {
    first: PathBuf,
    last: PathBuf,
}

impl Output {
    /// Standard output.
    pub fn standard() -> Result<Output, Failure> {
        let name = "standard output".to_string();
        // Not through std's handle, which looks for the lines in whatever it is given.
        let file = io::stdout().as_fd().try_clone_to_owned();
        let file = File::from(file.map_err(|error| Failure::writing(&name, error))?);
        Ok(Output { name, file, gathered: Vec::new(), unfinished: None })
    }

    /// A file with this name, or standard output for `-`. What is there and is no ordinary file (a
    /// device, a pipe) is written to as it is. None of the inputs can be replaced.
    pub fn create(path: &Path, inputs: &[&Path]) -> Result<Output, Failure> {
        if is_stream(path) {
            return Output::standard();
        }
        let name = shown(path, "standard output");
        let cannot = |error| Failure::writing(&name, error);
        let (file, unfinished) = match fs::metadata(path) {
            Ok(found) if found.is_dir() => {
                return Err(cannot(io::Error::other("it is a directory")));
            }
            Ok(found) if !found.is_file() => {
                (OpenOptions::new().write(true).open(path).map_err(cannot)?, None)
            }
            Ok(found) if inputs.iter().any(|input| is_same(&found, input)) => {
                return Err(cannot(io::Error::other("it is one of the files that are read")));
            }
            // A link stays, and what it leads to is replaced: by a file that no others can read.
            Ok(found) => {
                let last = fs::canonicalize(path).map_err(cannot)?;
                create_beside(last, found.mode() & EVERYONE).map_err(cannot)?
            }
            Err(_) => create_beside(path.to_path_buf(), EVERYONE).map_err(cannot)?,
        };
        Ok(Output { name, file, gathered: Vec::new(), unfinished })
    }

    /// Whether it goes to a terminal.
    pub fn is_terminal(&self) -> bool {
        self.file.is_terminal()
    }

    /// Whether it is an ordinary file.
    pub fn is_file(&self) -> bool {
        self.unfinished.is_some()
    }

    /// Adds these bytes.
    pub fn write(&mut self, bytes: &[u8]) -> Result<(), Failure> {
        if self.gathered.len() + bytes.len() > GATHERED {
            self.flush()?;
        }
        if bytes.len() > GATHERED {
            return self.file.write_all(bytes).map_err(|error| Failure::writing(&self.name, error));
        }
        self.gathered.extend_from_slice(bytes);
        Ok(())
    }

    /// Puts these bytes in place of the first ones. It must be an ordinary file.
    pub fn rewrite_start(&mut self, bytes: &[u8]) -> Result<(), Failure> {
        self.flush()?;
        let done = self.file.seek(SeekFrom::Start(0)).and_then(|_| self.file.write_all(bytes));
        done.map_err(|error| Failure::writing(&self.name, error))
    }

    /// Writes out what is gathered.
    pub fn flush(&mut self) -> Result<(), Failure> {
        let done = self.file.write_all(&self.gathered);
        self.gathered.clear();
        done.map_err(|error| Failure::writing(&self.name, error))
    }

    /// All is written: a file is put on the disk and gets its name.
    pub fn finish(mut self) -> Result<(), Failure> {
        self.flush()?;
        let Some(Unfinished { first, last }) = &self.unfinished else {
            return Ok(());
        };
        let done = self.file.sync_all().and_then(|()| fs::rename(first, last));
        done.map_err(|error| Failure::writing(&self.name, error))?;
        self.unfinished = None;
        Ok(())
    }
}

impl Drop for Output {
    fn drop(&mut self) {
        if let Some(Unfinished { first, .. }) = &self.unfinished {
            // There is nobody left to tell.
            let _ = fs::remove_file(first);
        }
    }
}

/// Whether a path leads to this file.
fn is_same(found: &Metadata, path: &Path) -> bool {
    fs::metadata(path).is_ok_and(|other| (found.dev(), found.ino()) == (other.dev(), other.ino()))
}

/// Creates a file beside the one that it becomes, under a name that nothing has, with these
/// permissions but for those that the umask takes.
fn create_beside(last: PathBuf, mode: u32) -> io::Result<(File, Option<Unfinished>)> {
    let name = last.file_name().ok_or(io::ErrorKind::InvalidInput)?;
    let mut attempt = 0;
    loop {
        let mut name = name.to_os_string();
        name.push(format!(".unfinished-{}-{attempt}", std::process::id()));
        let first = last.with_file_name(name);
        match OpenOptions::new().write(true).create_new(true).mode(mode).open(&first) {
            // One that was killed may have left its file, and had the same number.
            Err(error) if error.kind() == io::ErrorKind::AlreadyExists => attempt += 1,
            file => return Ok((file?, Some(Unfinished { first, last }))),
        }
    }
}
