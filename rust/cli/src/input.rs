//! Files that are read: as mapped parts, or as text from a file or standard input.
//!
//! A mapped file must not be shortened while it is read.
#![allow(unsafe_code)]

use crate::failure::{is_stream, shown, Failure};
use memmap2::{Mmap, MmapOptions};
use std::fs::{self, File, OpenOptions};
use std::io::{self, BufRead, BufReader, Read, Seek, Write};
use std::ops::Deref;
use std::os::fd::AsFd;
use std::os::unix::fs::OpenOptionsExt;
use std::path::Path;

/// A file of which parts are looked at where they lie.
pub struct InputFile {
    /// How messages call it.
    pub name: String,
    /// Its length in bytes when it was opened.
    pub length: u64,
    file: File,
}

impl InputFile {
    /// Opens a file; `-` is standard input. What is no ordinary file, or was read in part, is first
    /// copied to a file without a name, in the folder for temporary files.
    pub fn open(path: &Path) -> Result<InputFile, Failure> {
        let name = shown(path, "standard input");
        let cannot = |error| Failure::reading(&name, error);
        let mut file = if is_stream(path) {
            io::stdin().as_fd().try_clone_to_owned().map(File::from)
        } else {
            File::open(path)
        }
        .map_err(cannot)?;
        let kind = file.metadata().map_err(cannot)?.file_type();
        if kind.is_dir() {
            return Err(cannot(io::Error::other("it is a directory")));
        }
        if !kind.is_file() || file.stream_position().map_err(cannot)? > 0 {
            file = spool(file, &name)?;
        }
        let length = file.metadata().map_err(cannot)?.len();
        Ok(InputFile { name, length, file })
    }

    /// The bytes from here to the end of the file.
    pub fn map_from(&self, offset: u64) -> Result<Part, Failure> {
        let Some(length) = self.length.checked_sub(offset).filter(|&length| length > 0) else {
            return Ok(Part(None));
        };
        let mut options = MmapOptions::new();
        options.offset(offset).len(length as usize);
        // SAFETY: the map is read-only and shared, and nobody here writes to the file. That nobody
        // else shortens it meanwhile is asked of the user (docs/CLI.md).
        let map = unsafe { options.map(&self.file) };
        map.map(|map| Part(Some(map))).map_err(|error| Failure::reading(&self.name, error))
    }
}

/// A mapped part of a file; an empty part needs no map.
pub struct Part(Option<Mmap>);

impl Deref for Part {
    type Target = [u8];

    fn deref(&self) -> &[u8] {
        self.0.as_deref().unwrap_or(&[])
    }
}

/// Copies a stream to a file that has no name and so is gone with the program.
fn spool(mut source: File, name: &str) -> Result<File, Failure> {
    let folder = std::env::temp_dir();
    let copy = format!("a copy of {name} in {}", folder.display());
    let mut file = create_nameless(&folder).map_err(|error| Failure::writing(&copy, error))?;
    let mut buffer = vec![0; BUFFER];
    loop {
        let read = match source.read(&mut buffer) {
            Ok(0) => return Ok(file),
            Ok(read) => read,
            Err(error) if error.kind() == io::ErrorKind::Interrupted => continue,
            Err(error) => return Err(Failure::reading(name, error)),
        };
        file.write_all(&buffer[..read]).map_err(|error| Failure::writing(&copy, error))?;
    }
}

/// Creates a file in this folder and takes its name away.
fn create_nameless(folder: &Path) -> io::Result<File> {
    let mut options = OpenOptions::new();
    options.read(true).write(true).create_new(true).mode(0o600);
    let mut attempt = 0;
    loop {
        let path = folder.join(format!("frubanto-{}-{attempt}", std::process::id()));
        match options.open(&path) {
            Err(error) if error.kind() == io::ErrorKind::AlreadyExists => attempt += 1,
            file => {
                let file = file?;
                fs::remove_file(&path)?;
                return Ok(file);
            }
        }
    }
}

/// How much of a stream is read at once.
const BUFFER: usize = 1 << 20;

/// A text that is read from its start to its end.
pub struct Text {
    /// How messages call it.
    pub name: String,
    /// Its length in bytes, where that is known.
    pub length: Option<u64>,
    /// What is read from.
    pub source: Box<dyn BufRead>,
}

impl Text {
    /// Opens a text; `-` is standard input. One that is compressed is not read, and `remedy` says
    /// how it can be.
    pub fn open(path: &Path, remedy: &str) -> Result<Text, Failure> {
        let name = shown(path, "standard input");
        let cannot = |error| Failure::reading(&name, error);
        let mut length = None;
        let mut source: Box<dyn BufRead> = if is_stream(path) {
            Box::new(BufReader::with_capacity(BUFFER, io::stdin().lock()))
        } else {
            let file = File::open(path).map_err(cannot)?;
            let metadata = file.metadata().map_err(cannot)?;
            length = metadata.is_file().then_some(metadata.len());
            Box::new(BufReader::with_capacity(BUFFER, file))
        };
        let start = source.fill_buf().map_err(cannot)?;
        if start.starts_with(&[0x1F, 0x8B]) || start.starts_with(b"CRAM") {
            return Err(Failure::Unusable(format!("{name} is compressed: {remedy}")));
        }
        Ok(Text { name, length, source })
    }
}
