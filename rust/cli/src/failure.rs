//! Why a command ends before its time, and with which exit status.

use ora::Refusal;
use std::fmt;
use std::io;
use std::path::Path;

/// What stops a command.
#[derive(Debug)]
pub enum Failure {
    /// The library refuses: exit status 1.
    Refused(Refused),
    /// Wrong use, or a file that cannot be read or written: exit status 2.
    Unusable(String),
    /// Whoever reads the output has closed it: that is said to nobody, and the exit status is 0.
    ClosedPipe,
}

/// A refusal, and the file that earns it.
#[derive(Clone, Debug, PartialEq, Eq)]
pub struct Refused {
    pub file: String,
    pub refusal: Refusal,
    /// Where the refused block begins in the file; None where it is no file of blocks.
    pub offset: Option<u64>,
}

impl Refused {
    /// When the library gives this number, in words.
    pub fn sentence(&self) -> &'static str {
        self.refusal
            .kind()
            .map_or("a number that this program does not know", |kind| kind.sentence())
    }
}

impl fmt::Display for Refused {
    fn fmt(&self, f: &mut fmt::Formatter) -> fmt::Result {
        let Refusal { number, block, read } = self.refusal;
        write!(f, "{}: refused {number}", self.file)?;
        if let Some(offset) = self.offset {
            write!(f, ", block {block}, read {read}, offset {offset}")?;
        }
        write!(f, ": {}", self.sentence())
    }
}

impl Failure {
    /// A file that cannot be read.
    pub fn reading(name: &str, error: io::Error) -> Failure {
        Failure::Unusable(format!("cannot read {name}: {}", in_words(&error)))
    }

    /// A file that cannot be written.
    pub fn writing(name: &str, error: io::Error) -> Failure {
        match error.kind() {
            io::ErrorKind::BrokenPipe => Failure::ClosedPipe,
            _ => Failure::Unusable(format!("cannot write {name}: {}", in_words(&error))),
        }
    }

    /// The same with what can be done about it.
    pub fn with_remedy(self, remedy: &str) -> Failure {
        match self {
            Failure::Unusable(what) => Failure::Unusable(format!("{what}; {remedy}")),
            other => other,
        }
    }

    /// A file that is not what it should be, with the line where that shows.
    pub fn at_line(name: &str, line: u64, what: impl fmt::Display) -> Failure {
        Failure::Unusable(format!("{name}, line {line}: {what}"))
    }
}

/// What the system says, without its number.
fn in_words(error: &io::Error) -> String {
    let text = error.to_string();
    match text.split_once(" (os error") {
        Some((words, _)) => words.to_string(),
        None => text,
    }
}

/// How messages call a file; `-` is the standard stream.
pub fn shown(path: &Path, stream: &str) -> String {
    if is_stream(path) {
        stream.to_string()
    } else {
        path.display().to_string()
    }
}

/// Whether the path stands for standard input or output.
pub fn is_stream(path: &Path) -> bool {
    path.as_os_str() == "-"
}
