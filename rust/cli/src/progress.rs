//! How far a command has come, shown on a terminal and nowhere else.

use indicatif::{ProgressBar, ProgressStyle};
use std::io::IsTerminal;

/// A line on the terminal, which is wiped when it goes out of scope.
pub struct Progress(ProgressBar);

impl Progress {
    /// Of so many bytes, where that is known. Nothing is shown where standard error is no terminal,
    /// or where `results_shown`: the results go to a terminal too.
    pub fn new(bytes: Option<u64>, results_shown: bool) -> Progress {
        if results_shown || !std::io::stderr().is_terminal() {
            return Progress(ProgressBar::hidden());
        }
        let (bar, template) = match bytes {
            Some(bytes) => (
                ProgressBar::new(bytes),
                "{wide_bar} {bytes} of {total_bytes}, {bytes_per_sec}, {eta} to go",
            ),
            None => (ProgressBar::new_spinner(), "{spinner} {bytes}, {bytes_per_sec}"),
        };
        match ProgressStyle::with_template(template) {
            Ok(style) => Progress(bar.with_style(style)),
            Err(_) => Progress(bar),
        }
    }

    /// Writes to standard error without disturbing the line.
    pub fn say(&self, text: &str) {
        self.0.suspend(|| crate::say(text));
    }

    /// So many bytes more are done with.
    pub fn advance(&self, bytes: u64) {
        self.0.inc(bytes);
    }
}

impl Drop for Progress {
    fn drop(&mut self) {
        self.0.finish_and_clear();
    }
}
