//! A file of blocks, and the reference under which it is read. Where a block ends is the library's
//! word; a part of the file is mapped only as long as its blocks are under way.

use crate::failure::{is_stream, Failure, Refused};
use crate::input::{InputFile, Part};
use ora::{Reference, Refusal};
use std::ops::Range;
use std::path::Path;
use std::sync::Arc;

/// After so many bytes of blocks the map is made anew, so that what is done with can be let go.
const WINDOW: usize = 1 << 22;

/// A walk over the blocks of a file.
pub struct Walk<'a> {
    file: &'a InputFile,
    // From `start` in the file to its end.
    window: Arc<Part>,
    start: u64,
    // The next block, from the start of the window.
    at: usize,
    index: u64,
}

impl<'a> Walk<'a> {
    /// From the first block on.
    pub fn new(file: &'a InputFile) -> Result<Walk<'a>, Failure> {
        let window = Arc::new(file.map_from(0)?);
        Ok(Walk { file, window, start: 0, at: 0, index: 0 })
    }

    /// The next block; None at the end of the file. A header that the library refuses (2 to 8) is a
    /// failure.
    pub fn next_block(&mut self) -> Result<Option<FileBlock>, Failure> {
        if self.at >= WINDOW {
            self.start += self.at as u64;
            self.window = Arc::new(self.file.map_from(self.start)?);
            self.at = 0;
        }
        let rest = &self.window[self.at..];
        if rest.is_empty() {
            return Ok(None);
        }
        let (index, offset) = (self.index, self.start + self.at as u64);
        let length = ora::block_length(rest)
            .map_err(|refusal| refused(&self.file.name, index, offset, refusal))?;
        let span = self.at..self.at + length;
        self.at = span.end;
        self.index += 1;
        Ok(Some(FileBlock { index, offset, window: self.window.clone(), span }))
    }
}

/// A block of a file. Of its bytes only the header is known to be right.
pub struct FileBlock {
    /// Its index in the file.
    pub index: u64,
    /// Where it begins in the file.
    pub offset: u64,
    window: Arc<Part>,
    span: Range<usize>,
}

impl FileBlock {
    pub fn bytes(&self) -> &[u8] {
        &self.window[self.span.clone()]
    }

    /// The failure where the library refuses this block.
    pub fn refused(&self, file: &InputFile, refusal: Refusal) -> Failure {
        refused(&file.name, self.index, self.offset, refusal)
    }
}

fn refused(file: &str, index: u64, offset: u64, refusal: Refusal) -> Failure {
    let refusal = Refusal { block: index, ..refusal };
    Failure::Refused(Refused { file: file.to_string(), refusal, offset: Some(offset) })
}

/// A reference file that is mapped as a whole.
pub struct ReferenceFile {
    name: String,
    bytes: Part,
}

impl ReferenceFile {
    pub fn open(path: &Path) -> Result<ReferenceFile, Failure> {
        if is_stream(path) {
            return Err(Failure::Unusable("the reference is read from a file alone".to_string()));
        }
        let file = InputFile::open(path)?;
        Ok(ReferenceFile { bytes: file.map_from(0)?, name: file.name })
    }

    /// The reference that it holds, unless the library refuses it (1).
    pub fn reference(&self) -> Result<Reference<'_>, Failure> {
        Reference::from_file(&self.bytes).map_err(|refusal| {
            Failure::Refused(Refused { file: self.name.clone(), refusal, offset: None })
        })
    }
}
